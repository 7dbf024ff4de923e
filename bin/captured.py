"""SIP datagrams of captures, and event files made of them. tshark reads the captures."""

import ipaddress
import re
import shutil
import subprocess
from argparse import ArgumentTypeError
from collections import namedtuple
from pathlib import Path

Datagram = namedtuple("Datagram", "time source target data")
FIELDS = ["frame.time_epoch", "ip.src", "udp.srcport", "ip.dst", "udp.dstport", "udp.payload"]
SHORT = {0x0D: "\\r", 0x0A: "\\n", 0x09: "\\t", 0x5C: "\\\\"}
LONG = {text[1]: byte for byte, text in SHORT.items()}
CONTROL = re.compile(r"[\x00-\x1f\x7f-\x9f]")
MOST_SHOWN = 200


class Fault(Exception):
    """Why a capture can't be read."""


def datagrams(capture, wanted="udp && !icmp"):
    """Those that a display filter of tshark names; times are in seconds."""
    if not Path(capture).is_file():
        raise Fault(f"{capture} is no file")
    if shutil.which("tshark") is None:
        raise Fault("tshark is missing")
    words = ["tshark", "-r", capture, "-Y", wanted, "-T", "fields"]
    for field in FIELDS:
        words += ["-e", field]
    done = subprocess.run(words, capture_output=True, text=True)
    if done.returncode != 0:
        told = done.stderr.strip().splitlines() or [f"status {done.returncode}"]
        raise Fault(f"tshark: {told[-1].removeprefix('tshark: ')}")
    for line in done.stdout.splitlines():
        time, *ends, payload = line.split("\t")
        data = bytes.fromhex(payload.replace(":", ""))
        yield Datagram(float(time), ":".join(ends[:2]), ":".join(ends[2:]), data)


def address_of(text):
    """An IPv4 address and a port, as they were given."""
    ip, _, port = text.rpartition(":")
    try:
        if str(ipaddress.IPv4Address(ip)) == ip and 0 <= int(port) <= 65535:
            return text
    except ValueError:
        pass
    raise ArgumentTypeError(f"{text} is no a.b.c.d:port")


def is_of_call(data, call_id):
    """Whether a header line names the Call-ID."""
    line = rb"(?im)^(?:call-id|i)[ \t]*:[ \t]*" + re.escape(call_id.encode()) + rb"[ \t]*\r?$"
    return re.search(line, data) is not None


def shown(text, most=MOST_SHOWN):
    """What of a peer's text goes to a terminal or into a picture: no control character, which could
    say more than a text, and no more than fits."""
    text = CONTROL.sub(lambda found: f"\\x{ord(found[0]):02x}", text[: most + 1])
    return text if len(text) <= most else text[: most - 2] + ".."


def rest_of(data):
    """The bytes as the last field of a line."""
    spelled = []
    for byte in data:
        if byte in SHORT:
            spelled.append(SHORT[byte])
        elif 0x20 <= byte <= 0x7E:
            spelled.append(chr(byte))
        else:
            spelled.append(f"\\x{byte:02x}")
    return "".join(spelled)


def bytes_of(rest):
    """The bytes that the last field of a line spells."""

    def one(found):
        text = found.group(1)
        return chr(LONG[text]) if text in LONG else chr(int(text[1:], 16))

    return re.sub(r"\\(x[0-9a-f]{2}|.)", one, rest).encode("latin-1")


def event_lines(found, address):
    """The lines of the event file of the agent at this address, which gets what went to it."""
    yield "sip-events 1"
    yield f"local {address}"
    start = last = None
    for datagram in found:
        if datagram.target != address:
            continue
        start = datagram.time if start is None else start
        moment = max(int((datagram.time - start) * 1000), last or 0)
        if moment != last:
            yield f"round {moment}"
            last = moment
        yield f"datagram {datagram.source} {rest_of(datagram.data)}"
