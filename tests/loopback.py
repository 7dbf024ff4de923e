"""Addresses and peers on loopback."""

import itertools
import socket

from process import PATIENCE
from register import Wrong, shortened

# An address at which the system chooses the port.
ANY = "127.0.0.1:0"
# The last numbers of hosts that no test has yet.
HOSTS = itertools.count(2)


def bound(host="127.0.0.1"):
    """A socket with a port that the system chose."""
    own = socket.socket(socket.AF_INET, socket.SOCK_DGRAM)
    own.bind((host, 0))
    own.settimeout(PATIENCE)
    return own


def address_of(own):
    host, port = own.getsockname()
    return f"{host}:{port}"


def free_address():
    """An address that no socket has, at a host that no other test has."""
    with bound(f"127.0.0.{next(HOSTS)}") as own:
        return address_of(own)


class Peer:
    """A socket that talks to a program at another address, all that came to it, and what it asked
    last."""

    def __init__(self, other, host="127.0.0.1"):
        self.other, self.socket, self.came, self.asked = other, bound(host), [], None
        self.address = address_of(self.socket)

    def __enter__(self):
        return self

    def __exit__(self, *_):
        self.socket.close()

    def send(self, text):
        host, port = self.other.split(":")
        self.socket.sendto(text.encode("latin-1"), (host, int(port)))

    def receive(self, beginning, *parts):
        """Waits for a datagram with this beginning and these parts. Others, as retransmissions, are
        passed over."""
        while True:
            try:
                self.came.append(self.socket.recv(65_536).decode("latin-1"))
            except TimeoutError:
                raise Wrong(
                    f"a datagram\nwanted: {beginning!r} with {parts}\n"
                    f"came:   {shortened(self.came)}") from None
            text = self.came[-1]
            if text.startswith(beginning) and all(part in text for part in parts):
                return text

    def has_nothing(self):
        """Refuses a datagram that waits."""
        self.socket.setblocking(False)
        try:
            raise Wrong(f"no datagram\ncame:   {self.socket.recv(65_536)}")
        except BlockingIOError:
            self.socket.settimeout(PATIENCE)

    def ask(self, method, call, number=1, to_tag="", body="", headers=""):
        """Sends a request of a call. Its To has this tag, if one is given."""
        tag = f";tag={to_tag}" if to_tag else ""
        self.asked = (
            f"{method} sip:b@{self.other} SIP/2.0\r\n"
            f"Via: SIP/2.0/UDP {self.address};branch=z9hG4bK{call}{method}{number}\r\n"
            f"From: <sip:a@{self.address}>;tag=f\r\nTo: <sip:b@{self.other}>{tag}\r\n"
            f"Call-ID: {call}\r\nCSeq: {number} {method}\r\nContact: <sip:a@{self.address}>\r\n"
            f"{headers}Content-Length: {len(body)}\r\n\r\n{body}")
        self.send(self.asked)

    def answer(self, request, status, tag, *headers):
        """Answers a request with this status line, with this tag in To if it has none, and with
        these headers."""
        lines = [f"SIP/2.0 {status}"]
        for line in request.split("\r\n"):
            if line.startswith("To: ") and ";tag=" not in line:
                line += f";tag={tag}"
            if line.startswith(("Via: ", "From: ", "To: ", "Call-ID: ", "CSeq: ")):
                lines.append(line)
        self.send("\r\n".join([*lines, *headers, "", ""]))


def header(text, name):
    """The first header of a message with this name."""
    head = text.partition("\r\n\r\n")[0]
    for line in head.split("\r\n"):
        if line.startswith(f"{name}: "):
            return line.removeprefix(f"{name}: ")
    raise Wrong(f"a header\nwanted: {name}\ncame:   {text!r}")


def tag_of(text, name):
    """The tag of the first header with this name."""
    return header(text, name).partition(";tag=")[2]
