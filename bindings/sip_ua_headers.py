"""The headers of a user agent: what it says of itself, and what the headers of transfers (RFC 3515,
RFC 3891) and of session timers (RFC 4028) say. sip_ua_calls.py uses this."""

import re
from dataclasses import dataclass
from typing import List, NamedTuple, Optional, Sequence, Set, Tuple
from urllib.parse import quote, unquote

from sip_ua import (
    Ack,
    Address,
    BadValueError,
    Command,
    Headers,
    Invite,
    Message,
    Plain,
    Request,
    Response,
    long_name,
)

__all__ = ["ALLOW", "Profile", "Refer", "Replaces", "names_of", "number_of", "refer_of"]
__all__ += ["refer_to", "replaces_of", "report_of", "supported_by", "uri_of"]

# The methods that calls serve by themselves.
ALLOW = ("INVITE", "ACK", "CANCEL", "OPTIONS", "BYE", "PRACK")
# The methods of RFC 3261 and its extensions. Any other is unknown.
METHODS = {*ALLOW, *"INFO MESSAGE NOTIFY PUBLISH REFER REGISTER SUBSCRIBE UPDATE".split()}
# Requests that carry a Contact, as do their 2xx, beside INVITE (RFC 3311, 3515 and 6665).
WITH_CONTACT = {"NOTIFY", "REFER", "SUBSCRIBE", "UPDATE"}
METHOD_NOT_ALLOWED = 405
_TOKEN = re.compile(r"[A-Za-z0-9\-.!%*_+`'~]+")
_QUOTED = re.compile(r'"(?:[^"\\]|\\.)*"')
_URI = re.compile(r'[A-Za-z][A-Za-z0-9+.-]*:[^\s<>"]+')
# What stands unescaped in the value of a URI's header (RFC 3261, section 25.1).
_PLAIN_IN_URI = "[]/?:+$-_.!~*'()"
_REPORT = re.compile(rb"\s*SIP/2\.0 ([1-6]\d\d) ?([^\r\n]*)")


def names_of(headers: Headers) -> Set[str]:
    """The long names of headers, in lower case."""
    return {long_name(name) for name, _ in headers if isinstance(name, str)}


def number_of(text: str) -> int:
    """The number that a header value begins with, 0 without one."""
    found = re.match(r"\d{1,10}", text)
    return int(found[0]) if found else 0


def uri_of(value: str) -> str:
    """The URI of the value of a header such as From, To or Contact."""
    before, bracket, rest = _QUOTED.sub("", value).partition("<")
    return rest.partition(">")[0] if bracket else before.partition(";")[0].strip()


def supported_by(headers: Headers) -> Set[str]:
    """The option tags of the Supported among headers, in lower case."""
    values = [value for name, value in headers if names_of([(name, "")]) == {"supported"}]
    return {tag.strip().lower() for value in values for tag in str(value).split(",")}


def is_token(word: object) -> bool:
    return isinstance(word, str) and _TOKEN.fullmatch(word) is not None


def is_text(text: object) -> bool:
    return isinstance(text, str) and re.search(r"[\r\n]", text) is None


@dataclass(frozen=True)
class Profile:
    """What a user agent says of itself: the methods of its Allow, the option tags of its Supported,
    its name, and the address of its Contact. Raises BadValueError if one can't stand there."""

    allow: Sequence[str] = ALLOW
    supports: Sequence[str] = ()
    name: str = ""
    local: Address = ("0.0.0.0", 0)

    def __post_init__(self) -> None:
        for words in (self.allow, self.supports):
            if isinstance(words, str) or not all(is_token(it) for it in words):
                raise BadValueError(f"no tokens: {words!r}")
        if not is_text(self.name):
            raise BadValueError(f"no name of a user agent: {self.name!r}")

    def headers(self, command: Command, answered: str = "") -> List[Tuple[str, str]]:
        """What a command says besides its own headers. A Response answers this method. What the
        command gives by itself isn't said again."""
        own = command._headers()
        named, tags = names_of(own), supported_by(own)
        more = [tag for tag in self.supports if tag.lower() not in tags]
        if isinstance(command, Response):
            said = [*self._of_response(answered, command.status, more), ("Server", self.name)]
        elif isinstance(command, (Invite, Plain, Request, Ack)):
            said = [*self._of_request(command, more), ("User-Agent", self.name)]
        else:
            return []
        # The lines of a Supported are one list.
        left_out = named - {"supported"}
        return [(name, value) for name, value in said if value and name.lower() not in left_out]

    def _of_request(self, command: Command, tags: Sequence[str]) -> List[Tuple[str, str]]:
        if isinstance(command, Invite):
            # A reliable response to an INVITE without an offer has one, whose answer is the user's.
            has_own = command.supports_100rel or command.requires_100rel or not command.body
            return self._of_session([tag for tag in tags if not (has_own and tag == "100rel")])
        method = command.method if isinstance(command, (Plain, Request)) else ""
        if method == "INVITE":
            return self._of_session([tag for tag in tags if tag != "100rel"])
        return self._contact(method)

    def _of_response(
        self, method: str, status: int, tags: Sequence[str]
    ) -> List[Tuple[str, str]]:
        if status == METHOD_NOT_ALLOWED:
            return [("Allow", ", ".join(self.allow))]
        if not 200 <= status < 300:
            return []
        if method in ("INVITE", "OPTIONS"):
            return self._of_session(tags)
        return self._contact(method)

    def _of_session(self, tags: Sequence[str]) -> List[Tuple[str, str]]:
        """What the messages say by which a call begins (RFC 3261, sections 11.2 and 13)."""
        said = [("Allow", ", ".join(self.allow)), ("Supported", ", ".join(tags))]
        return [*said, ("Accept", "application/sdp")]

    def _contact(self, method: str) -> List[Tuple[str, str]]:
        ip, port = self.local
        return [("Contact", f"<sip:{ip}:{port}>")] if method in WITH_CONTACT else []


# ---- transfers


class Replaces(NamedTuple):
    """The dialog that an INVITE is to take the place of, as who gets the INVITE has it: `to_tag` is
    its own tag (RFC 3891, section 3). Its `str` is the value of the header Replaces."""

    call_id: str
    to_tag: str
    from_tag: str
    is_early_only: bool = False

    def __str__(self) -> str:
        early = ";early-only" if self.is_early_only else ""
        return f"{self.call_id};to-tag={self.to_tag};from-tag={self.from_tag}{early}"


class Refer(NamedTuple):
    """What a REFER asks for: to call this URI, in place of that dialog if one is named."""

    uri: str
    replaces: Optional[Replaces]


def replaces_of(value: str) -> Optional[Replaces]:
    """What the value of a header Replaces names; None if it is none."""
    call_id, *parameters = [part.strip() for part in value.split(";")]
    pairs = [parameter.partition("=") for parameter in parameters]
    found = {name.strip().lower(): tag.strip() for name, _, tag in pairs}
    if not call_id or not found.get("to-tag") or not found.get("from-tag"):
        return None
    return Replaces(call_id, found["to-tag"], found["from-tag"], "early-only" in found)


def refer_of(message: Message) -> Optional[Refer]:
    """What a REFER asks for; None if it hasn't one Refer-To with a URI: that gets 400 (RFC 3515,
    section 2.4.2), as does a bad Replaces in it."""
    values = message.values("Refer-To")
    uri = uri_of(values[0]) if len(values) == 1 else ""
    if ":" not in uri:
        return None
    uri, asked = _apart(uri)
    headers = [header.partition("=") for header in asked.split("&")]
    named = [value for name, _, value in headers if name.lower() == "replaces"]
    replaces = replaces_of(unquote(named[0], errors="surrogateescape")) if named else None
    return None if named and replaces is None else Refer(uri, replaces)


def refer_to(uri: str, replaces: Optional[Replaces] = None) -> str:
    """The value of a Refer-To. Raises BadValueError if it is no URI."""
    if not _URI.fullmatch(uri):
        raise BadValueError(f"no URI: {uri!r}")
    if replaces is None:
        return f"<{uri}>"
    return f"<{_apart(uri)[0]}?Replaces={quote(str(replaces), _PLAIN_IN_URI)}>"


def _apart(uri: str) -> Tuple[str, str]:
    """A URI without its headers, and these. A user may have a question mark."""
    user, at, rest = uri.partition("@") if "@" in uri else ("", "", uri)
    rest, _, headers = rest.partition("?")
    return user + at + rest, headers


def report_of(message: Message) -> Tuple[int, str, bool]:
    """What the NOTIFY of a REFER reports: the status and the reason of the referred request, 0 if
    it says none, and whether it is the last report (RFC 3515, section 2.4.5)."""
    found = _REPORT.match(message.body)
    status = int(found[1]) if found else 0
    reason = found[2].decode("utf-8", "surrogateescape") if found else ""
    state = message.value("Subscription-State").partition(";")[0].strip().lower()
    return status, reason, status >= 200 or state == "terminated"
