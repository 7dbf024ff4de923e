"""Digest, by which a user proves a password (RFC 3261, section 22; RFC 7616; RFC 8760): reads a
challenge and writes the credentials that answer it, with MD5, SHA-256 and their `-sess` forms.

    challenge = first_challenge(message.values("WWW-Authenticate"))
    value = challenge.credentials("alice", "secret", "REGISTER", "sip:example.com")

An Authenticator does that for the requests of one call or one registration. It needs no library.
"""

import hashlib
import re
from dataclasses import dataclass
from secrets import token_hex
from typing import Dict, Iterable, List, Optional, Tuple

__all__ = ["Authenticator", "CHALLENGES", "Challenge", "first_challenge"]

# The statuses that challenge: the header with the challenge, and the one that answers it.
CHALLENGES = {
    401: ("WWW-Authenticate", "Authorization"),
    407: ("Proxy-Authenticate", "Proxy-Authorization"),
}
_HASHES = {"MD5": "md5", "SHA-256": "sha256"}
_SESSION = "-SESS"
_SCHEME = re.compile(r"\s*Digest\s+(.*)", re.IGNORECASE | re.DOTALL)
_PARAMETER = re.compile(r'([\w.-]+)\s*=\s*(?:"((?:[^"\\]|\\.)*)"|([^\s,"]+))')
_CNONCE_BYTES = 16


def _quoted(text: str) -> str:
    return '"' + re.sub(r'(["\\])', r"\\\1", text) + '"'


@dataclass(frozen=True)
class Challenge:
    """A challenge by Digest. The texts are as they came, without their quotes. `algorithm` is empty
    if the challenge names none, which means MD5."""

    realm: str
    nonce: str
    opaque: Optional[str] = None
    algorithm: str = ""
    has_qop: bool = True
    is_stale: bool = False

    @classmethod
    def read(cls, value: str) -> Optional["Challenge"]:
        """Reads the value of WWW-Authenticate or Proxy-Authenticate. None if it isn't Digest, if
        its algorithm isn't known here, or if it offers a quality of protection, but not `auth`."""
        scheme = _SCHEME.match(value)
        if scheme is None:
            return None
        parameters: Dict[str, str] = {}
        for name, quoted, token in _PARAMETER.findall(scheme[1]):
            parameters.setdefault(name.lower(), quoted or token)
        algorithm, qop = parameters.get("algorithm", ""), parameters.get("qop")
        is_known = _hash_name(algorithm) in _HASHES
        has_auth = qop is None or "auth" in re.split(r"[\s,]+", qop.lower())
        if "realm" not in parameters or "nonce" not in parameters or not is_known or not has_auth:
            return None
        is_stale = parameters.get("stale", "").lower() == "true"
        texts = (parameters["realm"], parameters["nonce"], parameters.get("opaque"), algorithm)
        return cls(*texts, qop is not None, is_stale)

    def credentials(
        self,
        username: str,
        password: str,
        method: str,
        uri: str,
        count: int = 1,
        cnonce: Optional[str] = None,
    ) -> str:
        """The value of Authorization or Proxy-Authorization for a request with this method and
        Request-URI. `count` says how many requests have used this nonce, with this one. Without a
        `cnonce` it takes a random one."""
        cnonce = token_hex(_CNONCE_BYTES) if cnonce is None else cnonce
        nonce_count, is_session = f"{count:08x}", self.algorithm.upper().endswith(_SESSION)
        secret = self._digest(username, self.realm, password)
        if is_session:
            secret = self._digest(secret, self.nonce, cnonce)
        between = (nonce_count, cnonce, "auth") if self.has_qop else ()
        response = self._digest(secret, self.nonce, *between, self._digest(method, uri))
        fields = [
            ("username", _quoted(username)),
            ("realm", f'"{self.realm}"'),
            ("nonce", f'"{self.nonce}"'),
            ("uri", f'"{uri}"'),
            ("response", f'"{response}"'),
        ]
        if self.algorithm:
            fields.append(("algorithm", self.algorithm))
        if self.opaque is not None:
            fields.append(("opaque", f'"{self.opaque}"'))
        if self.has_qop or is_session:
            fields.append(("cnonce", f'"{cnonce}"'))
        if self.has_qop:
            fields += [("qop", "auth"), ("nc", nonce_count)]
        return "Digest " + ", ".join(f"{name}={value}" for name, value in fields)

    def _digest(self, *parts: str) -> str:
        """The hash of the parts with colons between them, in hexadecimal digits."""
        text = ":".join(parts).encode("utf-8", "surrogateescape")
        name = _HASHES[_hash_name(self.algorithm)]
        return hashlib.new(name, text, usedforsecurity=False).hexdigest()


def _hash_name(algorithm: str) -> str:
    name = algorithm.upper() or "MD5"
    return name[: -len(_SESSION)] if name.endswith(_SESSION) else name


def first_challenge(values: Iterable[str]) -> Optional[Challenge]:
    """The first of these header values that can be answered: the server's own order counts
    (RFC 8760, section 2.4)."""
    return next(filter(None, map(Challenge.read, values)), None)


class Authenticator:
    """Answers the challenges to the requests of one user. It keeps the last challenge of a server
    and of a proxy, so that later requests have credentials at once."""

    def __init__(self, username: str, password: str):
        self._login = (username, password)
        # By status: the challenge, the cnonce for it, and how many requests have used its nonce.
        self._challenges: Dict[int, Tuple[Challenge, str, int]] = {}

    def headers(self, method: str, uri: str) -> List[Tuple[str, str]]:
        """The credentials for a request, one header for each challenge that is kept."""
        headers = []
        for status, (challenge, cnonce, used) in self._challenges.items():
            self._challenges[status] = (challenge, cnonce, used + 1)
            value = challenge.credentials(*self._login, method, uri, used + 1, cnonce)
            headers.append((CHALLENGES[status][1], value))
        return headers

    def takes(self, status: int, values: Iterable[str], is_again: bool) -> bool:
        """Takes the challenge of a 401 or a 407, and says whether to ask again. `values` are those
        of its header; `is_again` says whether this request has answered such a challenge before.
        Then the password was refused, unless the nonce was only stale."""
        challenge = first_challenge(values)
        if challenge is None or (is_again and not challenge.is_stale):
            return False
        self._challenges[status] = (challenge, token_hex(_CNONCE_BYTES), 0)
        return True
