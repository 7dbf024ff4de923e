"""A small phone over `ua agent`: it registers with a password, shows who calls, answers, and calls.

    python3 examples/pipe_phone.py UA LOCAL REGISTRAR NAME@DOMAIN PASSWORD [URI]

LOCAL and REGISTRAR are an address and a port, as in 192.0.2.1:5060. With a URI, it calls that URI
once it is registered, and hangs up after three seconds. Without one, it answers each call. It
answers a challenge by Digest, and follows a 302."""

import os
import re
import subprocess
import sys
import threading
from dataclasses import dataclass, replace
from secrets import token_hex
from typing import Dict, Optional, Sequence, Tuple

# Of the bindings it only needs Digest.
sys.path.append(os.path.join(os.path.dirname(os.path.abspath(__file__)), "..", "bindings"))
from sip_ua_digest import Challenge  # noqa: E402

SPELLED = {"\r": r"\r", "\n": r"\n", "\t": r"\t", "\\": r"\\", " ": r"\s"}
PLAIN = {spelled: plain for plain, spelled in SPELLED.items()}
LONG_NAMES = {"f": "from", "m": "contact"}
CHALLENGES = {
    "401": ("www-authenticate", "Authorization"),
    "407": ("proxy-authenticate", "Proxy-Authorization"),
}


def word(text: str) -> str:
    """A text of ASCII as a word of a line."""
    return "".join(SPELLED.get(one, one) for one in text) or "-"


def text(spelled: str) -> str:
    """The text that a word, or the rest of a line, spells."""
    return re.sub(
        r"\\(?:x..|.)",
        lambda one: PLAIN.get(one[0]) or chr(int(one[0][2:], 16)),
        "" if spelled == "-" else spelled,
    )


@dataclass(frozen=True)
class Request:
    """A request outside of any dialog, and where it goes."""

    method: str
    address: str
    uri: str
    to: str
    headers: Tuple[Tuple[str, str], ...] = ()


class Phone:
    def __init__(
        self,
        program: str,
        local: str,
        registrar: str,
        user: str,
        password: str,
        callee: Optional[str] = None,
    ):
        self.local, self.registrar, self.password = local, registrar, password
        self.name, _, self.domain = user.partition("@")
        self.sent: Dict[str, Request] = {}
        self.callee = callee
        self.agent = subprocess.Popen(
            [program, "agent", "--local", local, "--headers", "--linger", "2000"],
            stdin=subprocess.PIPE,
            stdout=subprocess.PIPE,
            encoding="latin-1",
            bufsize=1,
        )
        assert self.agent.stdin is not None and self.agent.stdout is not None
        self.commands, self.notices = self.agent.stdin, self.agent.stdout

    def command(self, line: str, headers: Sequence[Tuple[str, str]] = ()) -> None:
        """A command of the agent; its headers stand before it, a line each."""
        before = "".join(f" {name}: {value}\n" for name, value in headers)
        self.commands.write(f"{before}{line}\n")

    def ask(self, request: Request) -> None:
        call_id = token_hex(8)
        self.sent[call_id] = request
        uris = f"{request.uri} sip:{self.name}@{self.domain} {request.to}"
        kind, method, end = "plain", f" {request.method}", "-"
        if request.method == "INVITE":
            kind, method, end = "invite", "", f"supported {self.offer()}"
        self.command(f"{kind} {call_id} {request.address}{method} {uris} {end}", request.headers)

    def register(self) -> None:
        contact = ("Contact", f"<sip:{self.name}@{self.local}>;expires=600")
        own = f"sip:{self.name}@{self.domain}"
        self.ask(Request("REGISTER", self.registrar, f"sip:{self.domain}", own, (contact,)))

    def offer(self) -> str:
        """An SDP without media of its own."""
        ip = self.local.partition(":")[0]
        return word(
            f"v=0\r\no=- 1 1 IN IP4 {ip}\r\ns=-\r\nc=IN IP4 {ip}\r\nt=0 0\r\n"
            "m=audio 9 RTP/AVP 0\r\na=inactive\r\n"
        )

    def told_response(
        self,
        headers: Dict[str, str],
        call_id: str,
        _id: str,
        status: str,
        local_tag: str,
        remote_tag: str,
        _body: str,
    ) -> None:
        request = self.sent.get(call_id)
        if not request or headers["cseq"].split()[1] != request.method or status < "200":
            return
        print(request.method, status)
        name, answer = CHALLENGES.get(status, ("", ""))
        challenge = Challenge.read(headers.get(name, ""))
        if challenge and answer not in dict(request.headers):
            value = challenge.credentials(self.name, self.password, request.method, request.uri)
            self.ask(replace(request, headers=(*request.headers, (answer, value))))
        elif status == "302":
            uri = "sip:" + re.split("[>;?]", headers["contact"].partition("sip:")[2])[0]
            self.ask(replace(request, uri=uri, address=uri.rpartition("@")[2]))
        elif request.method == "REGISTER" and status == "200" and self.callee:
            print("calling", self.callee)
            self.ask(Request("INVITE", self.registrar, self.callee, self.callee))
        elif request.method == "INVITE" and status == "200":
            bye = f"request {call_id} {local_tag} {remote_tag} BYE -"
            threading.Timer(3, self.command, [bye]).start()

    def told_request(
        self,
        headers: Dict[str, str],
        call_id: str,
        id_: str,
        method: str,
        _local_tag: str,
        _remote_tag: str,
        body: str,
    ) -> None:
        caller = headers["from"].partition(";tag=")[0]
        if method == "INVITE":
            print("call from", caller)
        elif method == "MESSAGE":
            print(caller, "says", text(body))
        body = self.offer() if method == "INVITE" else "-"
        self.command(f"respond {call_id} {id_} 200 plain {body} OK")

    def told_ended(self, *_: object) -> None:
        print("ended")
        if self.callee:
            self.commands.close()

    def run(self) -> None:
        self.register()
        headers: Dict[str, str] = {}
        for line in self.notices:
            if line.startswith(" "):
                name, _, value = text(line[1:-1]).partition(": ")
                headers.setdefault(LONG_NAMES.get(name.lower(), name.lower()), value)
            elif line.startswith("notice "):
                call_id, kind, *fields = line.split()[1:]
                told = getattr(self, f"told_{kind}", lambda *_: print(kind))
                told(headers, call_id, *fields)
                headers = {}


if __name__ == "__main__":
    Phone(*sys.argv[1:7]).run()
