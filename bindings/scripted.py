"""Peers for the tests of calls and registrations: UDP sockets whose answers a test writes itself.
They share no code with what they test."""

import asyncio
import hashlib
import re
from typing import Callable, Dict, List, Optional, Tuple, cast

Address = Tuple[str, int]

REALM = "example.test"


def header(message: str, name: str) -> str:
    """The value of a header, by its long name; empty if there is none."""
    found = re.search(rf"(?im)^{name}:\s*(.*?)\r?$", message)
    return found[1] if found else ""


def response(request: str, status: str, tag: str = "", headers: str = "", body: str = "") -> str:
    """A response to a request, with a tag in To where it has none. The headers end in CR LF."""
    lines = request.partition("\r\n\r\n")[0].split("\r\n")[1:]
    kept = [line for line in lines if re.match("(?i)(via|from|to|call-id|cseq):", line)]
    if tag and ";tag=" not in header(request, "To"):
        kept = [f"{line};tag={tag}" if line.lower().startswith("to:") else line for line in kept]
    head = "\r\n".join([f"SIP/2.0 {status}", *kept])
    return f"{head}\r\n{headers}Content-Length: {len(body)}\r\n\r\n{body}"


class Peer(asyncio.DatagramProtocol):
    """A socket that gives each request to `answer`, which returns what to send."""

    def __init__(self, answer: Callable[[str], List[str]]):
        self.answer = answer
        self.requests: List[str] = []
        self.transport: Optional[asyncio.DatagramTransport] = None

    def connection_made(self, transport: asyncio.BaseTransport) -> None:
        self.transport = cast(asyncio.DatagramTransport, transport)

    def datagram_received(self, data: bytes, addr: Address) -> None:
        message = data.decode()
        if not message.startswith("SIP/2.0"):
            self.requests.append(message)
        assert self.transport is not None
        for answer in self.answer(message):
            self.transport.sendto(answer.encode(), addr)

    @property
    def methods(self) -> List[str]:
        return [request.partition(" ")[0] for request in self.requests]

    @property
    def port(self) -> int:
        assert self.transport is not None
        port: int = self.transport.get_extra_info("sockname")[1]
        return port

    def contact(self, tag: str = "x") -> str:
        return f"Contact: <sip:{tag}@127.0.0.1:{self.port}>\r\n"

    def close(self) -> None:
        assert self.transport is not None
        self.transport.close()


async def open_peer(peer: Peer) -> Peer:
    loop = asyncio.get_running_loop()
    await loop.create_datagram_endpoint(lambda: peer, local_addr=("127.0.0.1", 0))
    return peer


def credentials_of(request: str) -> Dict[str, str]:
    """The parameters of the credentials of a request."""
    name = "Proxy-Authorization" if "Proxy-Authorization" in request else "Authorization"
    found = re.findall(r'(\w+)=(?:"([^"]*)"|([^\s,]+))', header(request, name))
    return {key: quoted or token for key, quoted, token in found}


def is_answer_right(request: str, username: str, password: str, hash_name: str) -> bool:
    """Whether the credentials of a request prove the password, by RFC 7616, section 3.4."""

    def digest(text: str) -> str:
        return hashlib.new(hash_name, text.encode()).hexdigest()

    parameters = credentials_of(request)
    if parameters.get("username") != username:
        return False
    secret = digest(f"{username}:{REALM}:{password}")
    asked = digest(f"{request.split(' ')[0]}:{parameters['uri']}")
    between = f"{parameters['nonce']}:{parameters['nc']}:{parameters['cnonce']}:auth"
    return parameters["response"] == digest(f"{secret}:{between}:{asked}")


class Registrar(Peer):
    """A registrar of one user, alice with the password secret. It challenges by a status, 401 or
    407, with nonces that are good for NONCE_USES requests. It grants only bindings of MIN_S and
    longer, and of those GRANTED_S. `contacts` are its bindings; `uses` are the nonces and nonce
    counts of the requests that proved the password."""

    MIN_S = 1800
    GRANTED_S = 2
    NONCE_USES = 3

    def __init__(self, algorithm: str = "SHA-256", status: int = 401):
        super().__init__(self.answer_register)
        self.algorithm, self.status = algorithm, status
        self.contacts: List[str] = []
        self.uses: List[Tuple[str, int]] = []

    def answer_register(self, request: str) -> List[str]:
        hash_name = self.algorithm.replace("-", "").lower()
        if not is_answer_right(request, "alice", "secret", hash_name):
            return [self.challenge(request, "n1", "false")]
        credentials = credentials_of(request)
        self.uses.append((credentials["nonce"], int(credentials["nc"], 16)))
        if self.uses[-1][1] > self.NONCE_USES:
            return [self.challenge(request, "n2", "true")]
        return [self.bind(request, int(header(request, "Expires")))]

    def challenge(self, request: str, nonce: str, stale: str) -> str:
        name = "WWW" if self.status == 401 else "Proxy"
        value = f'Digest realm="{REALM}", nonce="{nonce}", algorithm={self.algorithm}'
        headers = f'{name}-Authenticate: {value}, qop="auth", stale={stale}\r\n'
        return response(request, f"{self.status} Password", "r", headers)

    def bind(self, request: str, expires_s: int) -> str:
        """The response to a REGISTER that proved the password."""
        contact = header(request, "Contact")
        if contact == "*" or expires_s == 0:
            self.contacts = [one for one in self.contacts if contact not in ("*", one)]
        elif expires_s < self.MIN_S:
            headers = f"Min-Expires: {self.MIN_S}\r\n"
            return response(request, "423 Interval Too Brief", "r", headers)
        elif contact not in self.contacts:
            self.contacts.append(contact)
        listed = "".join(f"Contact: {one};expires={self.GRANTED_S}\r\n" for one in self.contacts)
        return response(request, "200 OK", "r", f"{listed}Expires: 999\r\n")
