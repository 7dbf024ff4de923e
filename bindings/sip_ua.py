"""A SIP user agent core (RFC 3261, with reliable provisional responses) for Python 3.9 and later:
one file over ctypes, no build step.

Your program has the socket, the clock and the user. Give an Agent datagrams, commands and times. It
returns datagrams to send, and notices:

    agent = Agent("./libsip_ua.so", ("192.0.2.1", 5060), os.urandom(32))
    agent.ask(Invite("c1", ("192.0.2.9", 5060), "sip:b@192.0.2.9", "sip:a@192.0.2.1",
                     "sip:b@192.0.2.9", body=offer))
    while True:
        for output in agent.run(moment):
            if isinstance(output, Send):
                try:
                    udp.sendto(output.datagram, output.to)
                except OSError:  # the network is down, or it is longer than LARGEST_DATAGRAM
                    agent.failed(output.index)
            elif isinstance(output, RequestNotice):
                agent.ask(Response(output.call_id, output.id, 200, "OK"))
        .. unless an event waits, wait for a datagram, the user, or agent.next_due()
        agent.datagram(source, data)

A command is an Invite, a Request or another type of Command. A round gives outputs: a Send, a Drop,
or a Notice of one of eleven types.
sip_ua_udp.py runs this loop on asyncio, and sip_ua_calls.py has calls as objects over that.

Texts are str, in UTF-8 on the wire. Bytes that aren't UTF-8 pass through unchanged
(surrogateescape). Bodies and datagrams are bytes. Moments are times in ms from any starting point,
and never go back. One thread at a time uses an agent. The library is libsip_ua.so, which
`bindings/install` builds.
"""

import ctypes
import enum
import ipaddress
import re
from dataclasses import dataclass
from typing import Any, ClassVar, List, NamedTuple, Optional, Sequence, Tuple, Union

__all__ = (
    "Agent LARGEST_DATAGRAM SipUaError BadValueError AddressError HeaderTypeError Error Status "
    "Field Id Command "
    # generated from bindings/commands.tsv: begin names
    "Invite Plain Request Response Ack Prack Cancel AbandonRequest AbandonDialog "
    # generated from bindings/commands.tsv: end
    "Output Send Line Drop DropReason Notice RequestNotice ResponseNotice AckNotice PrackNotice "
    "TimeoutNotice FailedNotice NoAckNotice NoPrackNotice CancelNotice EndedNotice RefusedNotice "
    "Refusal Stats StartLine RequestTraits HeaderAddress Datagram "
    "Message"
).split()

# The most bytes that a UDP datagram carries over IPv4.
LARGEST_DATAGRAM = 65507

Address = Tuple[str, int]
Headers = Sequence[Tuple[str, str]]


class _Number(enum.IntEnum):
    def __str__(self) -> str:
        return self.name.lower().replace("_", " ")


class Status(_Number):
    """A fault of a call. Only BROKEN changes the agent."""

    NO_AGENT = 1
    AGENT_EXISTS = 2
    BAD_LINE = 3
    TOO_MANY_EVENTS = 4
    NO_SEND = 5
    OUTPUTS_LEFT = 6
    BACKWARDS = 7
    MOMENT_TOO_LARGE = 8
    USED_UP = 9
    NO_MEMORY = 10
    BROKEN = 11
    BAD_CONFIGURATION = 12
    NULL = 13
    BAD_FIELD = 14
    NO_ROOM = 15  # no call raises it: the buffer grows
    BUSY = 16

    # The names of version 0.3. The next version won't have them.
    NOT_HELD = 1
    HELD = 2
    TOO_LARGE = 8


class Field(_Number):
    """The bad field of a command; sip_ua.h says when a field is bad."""

    # generated from bindings/commands.tsv: begin fields
    CALL_ID = 1
    METHOD = 2
    REQUEST_URI = 3
    FROM = 4
    TO = 5
    LOCAL_TAG = 6
    REMOTE_TAG = 7
    STATUS = 8
    REASON = 9
    HEADERS = 10
    # generated from bindings/commands.tsv: end


class Refusal(_Number):
    """Why a command was refused."""

    # generated from bindings/commands.tsv: begin refusals
    CALL_IN_USE = 1
    NO_SUCH_CALL = 2
    NO_SUCH_DIALOG = 3
    NO_SUCH_REQUEST = 4
    ALREADY_FINAL = 5
    BAD_STATUS = 6
    RELIABLE_PENDING = 7
    NOT_SUPPORTED = 8
    NOTHING_TO_ACK = 9
    NOTHING_TO_PRACK = 10
    SEQUENCE_USED_UP = 11
    STRICT_ROUTE = 12
    DIALOG_ENDED = 13
    BAD_METHOD = 14
    # generated from bindings/commands.tsv: end


class DropReason(_Number):
    """Why a datagram was dropped."""

    NOT_OURS = 1
    NO_TRANSACTION = 2
    TOO_LONG = 3
    NO_EMPTY_LINE = 4
    BAD_START_LINE = 5
    BAD_HEADER = 6
    MISSING = 7
    REPEATED = 8
    BAD_NUMBER = 9
    OLD_BRANCH = 10
    METHOD_MISMATCH = 11
    TRUNCATED = 12
    NO_MEMORY = 13


class SipUaError(Exception):
    """The base of all errors that these modules raise. Those of Python itself, such as the OSError
    of a socket, stay what they are."""


class BadValueError(SipUaError, ValueError):
    """A value that can't be, such as a port above 65,535."""


class AddressError(BadValueError, ipaddress.AddressValueError):
    """An address that isn't an IPv4 address and a port, or a URI that gives none for UDP."""


class HeaderTypeError(SipUaError, TypeError):
    """The value of a header, which the message names, isn't a str."""


class Error(SipUaError):
    """A call failed: with `status`, and after BAD_FIELD with the bad `field`."""

    def __init__(self, status: int, field: int = 0):
        self.status = Status(status)
        self.field = Field(field) if field else None
        super().__init__(str(self.status) + (f": {self.field}" if self.field else ""))


class Id(NamedTuple):
    """The id of a request or a command: the number of its round, and its place there, from 1."""

    round: int
    place: int

    def __str__(self) -> str:
        return f"{self.round}.{self.place}"


# ---- commands


@dataclass(frozen=True)
class Command:
    # generated from bindings/commands.tsv: begin about
    """What `Agent.ask` takes. The URIs have no tags and display names. The tags are those of the
    notices; an absent tag is empty. The status is 101 to 699. `requires_100rel` overrides
    `supports_100rel`. A body may be empty. It is application/sdp, unless a header Content-Type says
    otherwise. Headers are pairs of a name and a value."""
    # generated from bindings/commands.tsv: end

    call_id: str
    _name: ClassVar[str] = ""

    def _headers(self) -> Headers:
        headers: Headers = getattr(self, "headers", ())
        return headers

    def _words(self) -> Tuple[object, ...]:
        raise NotImplementedError


# generated from bindings/commands.tsv: begin commands
@dataclass(frozen=True)
class Invite(Command):
    """Starts a call: sends an initial INVITE to an address. See RFC 3261, section 13.2.1. Refusals:
    CALL_IN_USE."""

    address: Address
    request_uri: str
    from_uri: str
    to_uri: str
    body: bytes = b""
    headers: Headers = ()
    supports_100rel: bool = False
    requires_100rel: bool = False
    _name: ClassVar[str] = "invite"

    def _words(self) -> Tuple[object, ...]:
        return (self.call_id, _address(self.address), self.request_uri, self.from_uri, self.to_uri,
                self.supports_100rel, self.requires_100rel, self.body)


@dataclass(frozen=True)
class Plain(Command):
    """Sends a request outside of any dialog to an address. REGISTER and OPTIONS are such. See RFC
    3261, section 8.1.1. Refusals: CALL_IN_USE, BAD_METHOD."""

    address: Address
    method: str
    request_uri: str
    from_uri: str
    to_uri: str
    body: bytes = b""
    headers: Headers = ()
    _name: ClassVar[str] = "plain"

    def _words(self) -> Tuple[object, ...]:
        return (self.call_id, _address(self.address), self.method, self.request_uri, self.from_uri,
                self.to_uri, self.body)


@dataclass(frozen=True)
class Request(Command):
    """Sends a request in a dialog, such as BYE or a re-INVITE. To offer 100rel in a re-INVITE, give
    the header Supported or Require with 100rel: its reliable provisional responses get their PRACKs
    as those of a first INVITE. See RFC 3261, section 12.2.1.1. Refusals: NO_SUCH_CALL,
    NO_SUCH_DIALOG, BAD_METHOD, STRICT_ROUTE, SEQUENCE_USED_UP."""

    local_tag: str
    remote_tag: str
    method: str
    body: bytes = b""
    headers: Headers = ()
    _name: ClassVar[str] = "request"

    def _words(self) -> Tuple[object, ...]:
        return (self.call_id, self.local_tag, self.remote_tag, self.method, self.body)


@dataclass(frozen=True)
class Response(Command):
    """Answers the request with this id, that of its notice; if an INVITE requires 100rel, each
    response of 101 to 199 is reliable. What is refused as RELIABLE_PENDING can be given again after
    the notice PRACK or NO_PRACK. A response of 300 to 699 is taken at any time. See RFC 3261,
    section 8.2.6; RFC 3262, section 3. Refusals: NO_SUCH_CALL, NO_SUCH_REQUEST, ALREADY_FINAL,
    NOT_SUPPORTED, DIALOG_ENDED, RELIABLE_PENDING, SEQUENCE_USED_UP."""

    id: Id
    status: int
    reason: str = ""
    body: bytes = b""
    headers: Headers = ()
    is_reliable: bool = False
    _name: ClassVar[str] = "respond"

    def _words(self) -> Tuple[object, ...]:
        return (self.call_id, *_id(self.id), _number(self.status, 16), self.is_reliable,
                self.reason, self.body)


@dataclass(frozen=True)
class Ack(Command):
    """Sends the ACK of the dialog's oldest 2xx that needs one; most go out by themselves
    (docs/EMBEDDING.md). See RFC 3261, section 13.2.2.4. Refusals: NO_SUCH_CALL, NO_SUCH_DIALOG,
    NOTHING_TO_ACK, STRICT_ROUTE."""

    local_tag: str
    remote_tag: str
    body: bytes = b""
    headers: Headers = ()
    _name: ClassVar[str] = "ack"

    def _words(self) -> Tuple[object, ...]:
        return (self.call_id, self.local_tag, self.remote_tag, self.body)


@dataclass(frozen=True)
class Prack(Command):
    """Sends the PRACK of the dialog's oldest reliable provisional response that needs one; most go
    out by themselves (docs/EMBEDDING.md). See RFC 3262, section 4. Refusals: NO_SUCH_CALL,
    NO_SUCH_DIALOG, NOTHING_TO_PRACK, STRICT_ROUTE, SEQUENCE_USED_UP."""

    local_tag: str
    remote_tag: str
    body: bytes = b""
    headers: Headers = ()
    _name: ClassVar[str] = "prack"

    def _words(self) -> Tuple[object, ...]:
        return (self.call_id, self.local_tag, self.remote_tag, self.body)


@dataclass(frozen=True)
class Cancel(Command):
    """Cancels the INVITE with this id, that of its command. The dialog of a re-INVITE stays. See
    RFC 3261, section 9.1. Refusals: NO_SUCH_CALL, NO_SUCH_REQUEST, ALREADY_FINAL."""

    id: Id
    headers: ClassVar[Headers] = ()
    _name: ClassVar[str] = "cancel"

    def _words(self) -> Tuple[object, ...]:
        return (self.call_id, *_id(self.id))


@dataclass(frozen=True)
class AbandonRequest(Command):
    """Gives up the request with this id, that of its command: it is no longer held, its early
    dialogs end, and nothing more is sent or told of it. An INVITE whose peer is dead needs that.
    For each early dialog the notice ENDED follows. Refusals: NO_SUCH_CALL, NO_SUCH_REQUEST."""

    id: Id
    headers: ClassVar[Headers] = ()
    _name: ClassVar[str] = "abandon_request"

    def _words(self) -> Tuple[object, ...]:
        return (self.call_id, *_id(self.id))


@dataclass(frozen=True)
class AbandonDialog(Command):
    """Gives up the dialog with these tags: it ends, and nothing is sent. The notice ENDED follows.
    Refusals: NO_SUCH_CALL, NO_SUCH_DIALOG."""

    local_tag: str
    remote_tag: str
    headers: ClassVar[Headers] = ()
    _name: ClassVar[str] = "abandon_dialog"

    def _words(self) -> Tuple[object, ...]:
        return (self.call_id, self.local_tag, self.remote_tag)
# generated from bindings/commands.tsv: end


# ---- outputs


@dataclass(frozen=True)
class Output:
    """What a round gives. `place` is that of the event that caused it, from 1. It is 0 if a timer
    caused it; also for a Send of a new request (not ACK) or response (not 100)."""

    place: int


@dataclass(frozen=True)
class Send(Output):
    """A datagram to send to an address. If that fails, give the index to `Agent.failed`."""

    index: int
    to: Address
    datagram: bytes


@dataclass(frozen=True)
class Line(Output):
    """A notice or a drop as a line of an output file, without its LF; `run_lines` gives it."""

    text: str


@dataclass(frozen=True)
class Drop(Output):
    """The datagram of `place` was dropped. For MISSING and REPEATED, `header` is that header."""

    reason: DropReason
    header: Optional[str]


@dataclass(frozen=True)
class Notice(Output):
    """What the user is told about a call."""

    call_id: str


@dataclass(frozen=True)
class RequestNotice(Notice):
    """A request to answer. Your responses carry `local_tag`."""

    id: Id
    method: str
    local_tag: str
    remote_tag: str
    body: bytes


@dataclass(frozen=True)
class ResponseNotice(Notice):
    """A response to the request of the command with this id. The local tag is that of From, the
    remote tag that of To."""

    id: Id
    status: int
    local_tag: str
    remote_tag: str
    body: bytes


@dataclass(frozen=True)
class AckNotice(Notice):
    """The ACK of a 2xx to the INVITE of this id came."""

    id: Id
    body: bytes


@dataclass(frozen=True)
class PrackNotice(Notice):
    """The PRACK of a provisional response to the INVITE of this id came, and got its 200."""

    id: Id
    rseq: int
    body: bytes


@dataclass(frozen=True)
class TimeoutNotice(Notice):
    """Nothing came in time for the request of this id: no response to an INVITE, no final
    response to another request, or no ACK of a 300 to 699."""

    id: Id


@dataclass(frozen=True)
class FailedNotice(Notice):
    """A send of the request of this id, or of its response, failed."""

    id: Id


@dataclass(frozen=True)
class NoAckNotice(Notice):
    """No ACK of a 2xx to the INVITE of this id came in 32 s."""

    id: Id


@dataclass(frozen=True)
class NoPrackNotice(Notice):
    """No PRACK of a provisional response to the INVITE of this id came in 32 s."""

    id: Id


@dataclass(frozen=True)
class CancelNotice(Notice):
    """The peer cancelled the INVITE of this id; the agent sent 487."""

    id: Id


@dataclass(frozen=True)
class EndedNotice(Notice):
    """The dialog with these tags ended."""

    local_tag: str
    remote_tag: str


@dataclass(frozen=True)
class RefusedNotice(Notice):
    """The command of this id was refused; or the ACK or PRACK that the agent would have sent by
    itself because of the event with this id."""

    id: Id
    refusal: Refusal


# ---- what an agent says of itself and of datagrams


class Stats(NamedTuple):
    """The transactions and calls that are held, the number of the next round, the events that wait
    for it, and the outputs of the last round that weren't taken."""

    transactions: int
    calls: int
    next_round: int
    events: int
    outputs: int


class StartLine(NamedTuple):
    """A start line: method and Request-URI of a request, or status and reason of a response; the
    two others are None."""

    method: Optional[str]
    uri: Optional[str]
    status: Optional[int]
    reason: Optional[str]


class RequestTraits(NamedTuple):
    """What a request says of itself. It is in a dialog if its To has a tag: an INVITE is then a
    re-INVITE. With `100rel` supported a provisional response may be reliable; with `100rel`
    required each but 100 is."""

    is_in_dialog: bool
    supports_100rel: bool
    requires_100rel: bool


class HeaderAddress(NamedTuple):
    """An address in the value of a header: its display text without quotes, its URI, and the value
    of the parameter that was asked for, without quotes, or None if there is none."""

    display: str
    uri: str
    value: Optional[str]


class Datagram(NamedTuple):
    """A received datagram."""

    source: Address
    data: bytes


class Message(NamedTuple):
    """A received message: its start line, all its header lines in order, as pairs of a name and a
    value, and its body. The names are as they came, long or compact. The values are unfolded,
    without white space around them."""

    start: StartLine
    headers: Tuple[Tuple[str, str], ...]
    body: bytes

    @property
    def method(self) -> str:
        """The method of a request, or of the request that a response answers, from its CSeq."""
        if self.start.method is not None:
            return self.start.method
        return "".join(self.value("CSeq").split()[1:])

    @property
    def status(self) -> int:
        """The status of a response; 0 for a request."""
        return self.start.status or 0

    def values(self, name: str) -> List[str]:
        """The values of the header lines with this name, long or compact, in any case."""
        wanted = long_name(name)
        return [value for name, value in self.headers if long_name(name) == wanted]

    def value(self, name: str) -> str:
        """The first of them; empty if there is none."""
        return next(iter(self.values(name)), "")


# ---- the plain functions of the library


class _Agent(ctypes.Structure):
    _fields_ = [("held", ctypes.c_bool), ("at", ctypes.c_void_p)]


class _Address(ctypes.Structure):
    _fields_ = [("ip", ctypes.c_uint8 * 4), ("port", ctypes.c_uint16)]

    def told(self) -> Address:
        return str(ipaddress.IPv4Address(bytes(self.ip))), self.port


class _Configuration(ctypes.Structure):
    _fields_ = [("local", _Address), ("seed", ctypes.c_uint8 * 32), ("first", ctypes.c_uint64)]


class _LineOutput(ctypes.Structure):
    _fields_ = [
        ("kind", ctypes.c_uint32),
        ("to", _Address),
        ("place", ctypes.c_uint32),
        ("index", ctypes.c_size_t),
        ("len", ctypes.c_size_t),
    ]

    def lengths(self) -> Tuple[int, ...]:
        return (self.len,)


class _Due(ctypes.Structure):
    _fields_ = [("is_due", ctypes.c_bool), ("moment", ctypes.c_uint64)]


class _Id(ctypes.Structure):
    _fields_ = [
        ("is_given", ctypes.c_bool),
        ("place", ctypes.c_uint32),
        ("round", ctypes.c_uint64),
    ]

    def told(self) -> Id:
        return Id(self.round, self.place)


class _Asked(ctypes.Structure):
    _fields_ = [("id", _Id), ("bad_field", ctypes.c_uint32)]


class _TypedOutput(ctypes.Structure):
    _fields_ = [
        ("kind", ctypes.c_uint32),
        ("to", _Address),
        ("place", ctypes.c_uint32),
        ("index", ctypes.c_size_t),
        ("id", _Id),
        ("status", ctypes.c_uint32),
        ("rseq", ctypes.c_uint32),
        ("command", ctypes.c_uint32),
        ("refusal", ctypes.c_uint32),
        ("reason", ctypes.c_uint32),
        ("header", ctypes.c_uint32),
        ("call_id_len", ctypes.c_size_t),
        ("local_tag_len", ctypes.c_size_t),
        ("remote_tag_len", ctypes.c_size_t),
        ("method_len", ctypes.c_size_t),
        ("body_len", ctypes.c_size_t),
    ]

    def lengths(self) -> Tuple[int, ...]:
        tags = (self.local_tag_len, self.remote_tag_len)
        return (self.call_id_len, *tags, self.method_len, self.body_len)


class _Stats(ctypes.Structure):
    _fields_ = [
        ("transactions", ctypes.c_uint64),
        ("calls", ctypes.c_uint64),
        ("next_round", ctypes.c_uint64),
        ("events", ctypes.c_size_t),
        ("outputs", ctypes.c_size_t),
    ]


class _Arrival(ctypes.Structure):
    _fields_ = [("is_there", ctypes.c_bool), ("source", _Address), ("len", ctypes.c_size_t)]

    def lengths(self) -> Tuple[int, ...]:
        return (self.len,)


class _TextLength(ctypes.Structure):
    """A `size_t` that a call fills in."""

    _fields_ = [("len", ctypes.c_size_t)]

    def lengths(self) -> Tuple[int, ...]:
        return (self.len,)


class _Resumed(ctypes.Structure):
    _fields_ = [("len", ctypes.c_size_t), ("bad_line", ctypes.c_uint64)]


class _HeaderLengths(ctypes.Structure):
    _fields_ = [
        ("is_there", ctypes.c_bool),
        ("name_len", ctypes.c_size_t),
        ("len", ctypes.c_size_t),
    ]

    def lengths(self) -> Tuple[int, ...]:
        return (self.name_len, self.len)


class _RequestTraits(ctypes.Structure):
    _fields_ = [
        ("is_there", ctypes.c_bool),
        ("is_in_dialog", ctypes.c_bool),
        ("supports_100rel", ctypes.c_bool),
        ("requires_100rel", ctypes.c_bool),
    ]


class _AddressLengths(ctypes.Structure):
    _fields_ = [
        ("is_there", ctypes.c_bool),
        ("has_parameter", ctypes.c_bool),
        ("display_len", ctypes.c_size_t),
        ("uri_len", ctypes.c_size_t),
        ("value_len", ctypes.c_size_t),
    ]


class _Start(ctypes.Structure):
    _fields_ = [
        ("kind", ctypes.c_uint32),
        ("status", ctypes.c_uint32),
        ("method_len", ctypes.c_size_t),
        ("len", ctypes.c_size_t),
    ]

    def lengths(self) -> Tuple[int, ...]:
        return (self.method_len, self.len)


_at = ctypes.POINTER
_place = ctypes.c_uint32
_size = ctypes.c_size_t
_text = (ctypes.c_char_p, _size)
_room = (ctypes.c_void_p, _size)
_event = (ctypes.c_uint64, _place)
_asked = (_at(_Asked),)
_peer = (_at(_Address),)
_flag = (ctypes.c_bool,)
_status = (ctypes.c_uint16,)
_FUNCTIONS = {
    "header": _text * 2,
    # generated from bindings/commands.tsv: begin functions
    "invite": _text + _peer + _text * 3 + _flag * 2 + _text + _asked,
    "plain": _text + _peer + _text * 5 + _asked,
    "request": _text * 5 + _asked,
    "respond": _text + _event + _status + _flag + _text * 2 + _asked,
    "ack": _text * 4 + _asked,
    "prack": _text * 4 + _asked,
    "cancel": _text + _event + _asked,
    "abandon_request": _text + _event + _asked,
    "abandon_dialog": _text * 3 + _asked,
    # generated from bindings/commands.tsv: end
    "next": (_at(_TypedOutput),) + _room,
    "next_output": (_at(_LineOutput),) + _room,
    "stats": (_at(_Stats),),
    "new": (_at(_Configuration), _size),
    "datagram": (_at(_Address),) + _text,
    "event_line": _text,
    "event_lines": _text,
    "failed": (_size,),
    "run": (ctypes.c_uint64,),
    "next_due": (_at(_Due),),
    "last_id": (_at(_Id),),
    "opening_tag": _event + (_at(_TextLength),) + _room,
    "would_begin": _text + (_at(ctypes.c_bool),),
    "datagram_at": (_place, _at(_Arrival)) + _room,
    "request_traits": (_place, _at(_RequestTraits)),
    "start_line": (_place, _at(_Start)) + _room,
    "header_line": (_place, _size, _at(_HeaderLengths)) + _room,
    "header_values": (_place,) + _text + (_at(_TextLength),) + _room,
    "header_lines": (_place, _at(_TextLength)) + _room,
    "round_text": (_at(_TextLength),) + _room,
    "resume": _text + (_at(_Resumed),),
    "free": (),
}
# Those that need no agent.
_PLAIN_FUNCTIONS = {
    "address": _text + (_size,) + _text + (_at(_AddressLengths),) + _room,
    "party": _text * 2 + (_at(_AddressLengths),) + _room,
}
_SEND = 1
_DROP = 3
_REQUEST = 1
_RESPONSE = 2
_COMPACT_NAMES = {
    "b": "referred-by",
    "c": "content-type",
    "e": "content-encoding",
    "f": "from",
    "i": "call-id",
    "k": "supported",
    "l": "content-length",
    "m": "contact",
    "o": "event",
    "r": "refer-to",
    "s": "subject",
    "t": "to",
    "u": "allow-events",
    "v": "via",
    "x": "session-expires",
}
_HEADERS = (
    "Via From To Call-ID CSeq Max-Forwards Content-Length RSeq RAck Contact Record-Route Route "
    "Require Supported"
).split()


def _functions(path: str) -> ctypes.CDLL:
    library = ctypes.CDLL(path)
    for name, kinds in _FUNCTIONS.items():
        function = getattr(library, "sip_ua_raw_" + name)
        function.argtypes = (_at(_Agent),) + kinds
        function.restype = ctypes.c_uint32
    for name, kinds in _PLAIN_FUNCTIONS.items():
        function = getattr(library, "sip_ua_raw_" + name)
        function.argtypes = kinds
        function.restype = ctypes.c_uint32
    return library


def _unquoted(text: str) -> str:
    """A quoted string without its quotes and its backslashes (RFC 3261, section 25.1)."""
    if len(text) < 2 or text[0] != '"' or text[-1] != '"':
        return text
    return re.sub(r"\\(.)", r"\1", text[1:-1], flags=re.DOTALL)


def _address(address: Address) -> _Address:
    try:
        ip, port = address
        packed = ipaddress.IPv4Address(ip).packed
    except ValueError:
        raise AddressError(f"no IPv4 address and port: {address!r}") from None
    return _Address((ctypes.c_uint8 * 4)(*packed), _number(port, 16))


def long_name(name: str) -> str:
    """The long name of a header, in lower case."""
    lower = name.lower()
    return _COMPACT_NAMES.get(lower, lower)


def _lines(text: bytes) -> List[str]:
    """The lines of a text, each without the LF that ends it."""
    return [_decoded(line) for line in text.split(b"\n")[:-1]]


def _id(event: Id) -> Tuple[int, int]:
    return _number(event[0], 64), _number(event[1], 32)


def _number(number: int, bits: int) -> int:
    if not 0 <= number < 1 << bits:
        raise BadValueError(f"{number} is no number of {bits} bits")
    return number


def _header(name: str, value: str) -> Tuple[bytes, bytes]:
    if not isinstance(name, str) or not isinstance(value, str):
        raise HeaderTypeError(f"the header {name} isn't a str: {value!r}")
    return _encoded(name), _encoded(value)


def _encoded(text: str) -> bytes:
    return text.encode("utf-8", "surrogateescape")


def _decoded(data: bytes) -> str:
    return data.decode("utf-8", "surrogateescape")


def _passed(words: Tuple[object, ...]) -> List[object]:
    """What is passed for texts, bodies, addresses and numbers."""
    passed: List[object] = []
    for word in words:
        if isinstance(word, str):
            word = _encoded(word)
        if isinstance(word, (bytes, bytearray, memoryview)):
            passed += (bytes(word), len(bytes(word)))
        else:
            passed.append(ctypes.byref(word) if isinstance(word, ctypes.Structure) else word)
    return passed


def _notice(told: _TypedOutput, round: int, texts: List[bytes]) -> Notice:
    """The notice of a kind, from 4 on."""
    call_id, local_tag, remote_tag, method = map(_decoded, texts[:4])
    place, body, event = told.place, texts[4], told.id.told()
    tags = (local_tag, remote_tag)
    makers = (
        lambda: RequestNotice(place, call_id, event, method, *tags, body),
        lambda: ResponseNotice(place, call_id, event, told.status, *tags, body),
        lambda: AckNotice(place, call_id, event, body),
        lambda: PrackNotice(place, call_id, event, told.rseq, body),
        lambda: TimeoutNotice(place, call_id, event),
        lambda: FailedNotice(place, call_id, event),
        lambda: NoAckNotice(place, call_id, event),
        lambda: NoPrackNotice(place, call_id, event),
        lambda: CancelNotice(place, call_id, event),
        lambda: EndedNotice(place, call_id, *tags),
        lambda: RefusedNotice(place, call_id, Id(round, told.command), Refusal(told.refusal)),
    )
    return makers[told.kind - _DROP - 1]()


class Agent:
    """One user agent. Use it in a `with` statement, or free it by `close`.

    `library` is the path of libsip_ua.so. `local` is the address that Via and Contact say:
    usually the socket's own, behind a NAT the one at which peers reach it. `seed` is a secret of 32
    random bytes, different for each agent; tags and branches are made from it. `first` is the
    number of the first round. The number of shards, up to 256,
    changes no output.
    """

    def __init__(
        self, library: str, local: Address, seed: bytes, first: int = 0, shards: int = 1
    ):
        if len(seed) != 32:
            raise BadValueError("the seed has 32 bytes")
        self._agent = _Agent()
        self._library = _functions(library)
        self._buffer = ctypes.create_string_buffer(65536)
        self._round = _number(first, 64)
        start = _Configuration(_address(local), (ctypes.c_uint8 * 32)(*seed), first)
        self._call("new", start, _number(shards, 64))

    def _call(self, name: str, *words: object) -> None:
        function = getattr(self._library, "sip_ua_raw_" + name)
        status = function(ctypes.byref(self._agent), *_passed(words))
        if status != 0:
            raise Error(status)

    def _texts(self, name: str, told: Any, *words: object) -> List[bytes]:
        """Fills in the next output and returns its texts. The buffer grows for them."""
        try:
            self._call(name, *words, told, self._buffer, len(self._buffer))
        except Error as error:
            if error.status != Status.NO_ROOM:
                raise
            self._buffer = ctypes.create_string_buffer(sum(told.lengths()))
            self._call(name, *words, told, self._buffer, len(self._buffer))
        data, texts, start = ctypes.string_at(self._buffer, sum(told.lengths())), [], 0
        for length in told.lengths():
            texts.append(data[start : start + length])
            start += length
        return texts

    # -- events of the next round

    def datagram(self, source: Address, data: bytes) -> None:
        """Adds a datagram that was received from this address."""
        self._call("datagram", _address(source), data)

    def ask(self, command: Command) -> Id:
        """Adds a command to the next round. Notices about it have the id that this returns. A bad
        field raises Error BAD_FIELD, a header that isn't a str HeaderTypeError, and there is no
        command. If the agent refuses it later, such as for a dialog that isn't held, a
        RefusedNotice says so."""
        words, asked = command._words(), _Asked()
        # A header that was passed goes with the next command, so all are looked at before.
        for name, value in [_header(*header) for header in command._headers()]:
            try:
                self._call("header", name, value)
            except Error as error:
                is_bad = error.status == Status.BAD_FIELD
                raise Error(error.status, Field.HEADERS if is_bad else 0) from None
        try:
            self._call(command._name, *words, asked)
        except Error as error:
            raise Error(error.status, asked.bad_field) from None
        event: Id = asked.id.told()
        return event

    def event_line(self, line: str) -> None:
        """Adds an event as a line of an event file, without its LF."""
        self._call("event_line", line)

    def event_lines(self, lines: str) -> None:
        """Adds an event as lines of a session file, the last one without its LF: a command may have
        header lines before it."""
        self._call("event_lines", lines)

    def last_id(self) -> Optional[Id]:
        """The id of the event that was added last, if the next round has one."""
        told = _Id()
        self._call("last_id", told)
        return told.told() if told.is_given else None

    def opening_tag(self, id: Id) -> str:
        """The local tag of the dialogs that an INVITE with this id opens, or the From tag of a
        request with this id outside of dialogs. Dialogs are held by it. The local tag of a notice
        is what the peer's response has in its place, which a wrong peer changes."""
        (text,) = self._texts("opening_tag", _TextLength(), *_id(id))
        return text.decode("ascii")

    def failed(self, index: int) -> None:
        """Says that the Send with this index, of the last round, couldn't be sent: the socket
        refused it, or it is longer than LARGEST_DATAGRAM."""
        self._call("failed", _number(index, 64))

    # -- a round

    def run(self, moment: int) -> List[Output]:
        """Runs a round: handles all events since the last one, at a moment in ms. Returns its
        outputs: Send, Drop, and the types of Notice."""
        self._call("run", _number(moment, 64))
        outputs: List[Output] = []
        told = _TypedOutput()
        while True:
            texts = self._texts("next", told)
            if told.kind == 0:
                break
            if told.kind == _SEND:
                outputs.append(Send(told.place, told.index, told.to.told(), texts[-1]))
            elif told.kind == _DROP:
                header = _HEADERS[told.header - 1] if told.header else None
                outputs.append(Drop(told.place, DropReason(told.reason), header))
            else:
                outputs.append(_notice(told, self._round, texts))
        self._round += 1
        return outputs

    def run_lines(self, moment: int) -> List[Union[Send, Line]]:
        """The same. Notices and drops are Lines of an output file (docs/FORMATS.md)."""
        self._call("run", _number(moment, 64))
        outputs: List[Union[Send, Line]] = []
        told = _LineOutput()
        while True:
            (text,) = self._texts("next_output", told)
            if told.kind == 0:
                break
            if told.kind == _SEND:
                outputs.append(Send(told.place, told.index, told.to.told(), text))
            else:
                outputs.append(Line(told.place, _decoded(text[:-1])))
        self._round += 1
        return outputs

    def next_due(self) -> Optional[int]:
        """The first moment at which something is due, if there is one. Run a round then."""
        due = _Due()
        self._call("next_due", due)
        return due.moment if due.is_due else None

    def would_begin(self, data: bytes) -> bool:
        """Whether a datagram would begin a transaction if it came in the next round: it is a
        request other than ACK, and no transaction with its key is held. An agent that holds too
        much can be spared such datagrams."""
        begins = ctypes.c_bool()
        self._call("would_begin", data, begins)
        return begins.value

    # -- a journal

    def round_text(self) -> bytes:
        """The lines of the last round, as a session file has them. Appended to a journal before the
        outputs of the round go out, they let an agent go on in another process."""
        (text,) = self._texts("round_text", _TextLength())
        return text

    def resume(self, rounds: bytes) -> int:
        """Runs rounds again, as `round_text` gave them, without outputs, and returns how many bytes
        they take. The agent is a new one. If the last round wasn't written whole, what can't be run
        of it is left: cut the journal there. Any other fault raises an Error; the rounds before it
        were run."""
        # A line without its end would count as one of the round before.
        rounds = rounds[: rounds.rfind(b"\n") + 1]
        data, at = ctypes.create_string_buffer(rounds, len(rounds)), 0
        told = _Resumed()
        while at < len(rounds):
            text = ctypes.c_char_p(ctypes.addressof(data) + at)
            try:
                self._call("resume", text, len(rounds) - at, told)
            except Error as error:
                if error.status == Status.BAD_LINE and b"\nround " not in rounds[at:]:
                    break
                raise
            self._round += 1
            at += told.len
        return at

    # -- what the datagrams of the last round say

    def datagram_at(self, place: int) -> Optional[Datagram]:
        """The datagram with this place in the last round, if there is one."""
        told = _Arrival()
        (data,) = self._texts("datagram_at", told, _number(place, 32))
        return Datagram(told.source.told(), data) if told.is_there else None

    def is_reflected(self, send: Send) -> bool:
        """Whether a send of the last round would go to another IP address than the datagram that
        caused it came from: a response that is sent again since its request came again, from
        elsewhere. Leave it out. Otherwise whoever forged the source of a large request has each
        small repeat send a large response to a victim."""
        if send.place == 0 or not send.datagram.startswith(b"SIP/2.0 "):
            return False
        cause = self.datagram_at(send.place)
        return cause is not None and cause.source[0] != send.to[0]

    def request_traits(self, place: int) -> Optional[RequestTraits]:
        """What the request with this place says of itself, if it is one."""
        told = _RequestTraits()
        self._call("request_traits", _number(place, 32), told)
        if not told.is_there:
            return None
        return RequestTraits(told.is_in_dialog, told.supports_100rel, told.requires_100rel)

    def start_line(self, place: int) -> Optional[StartLine]:
        """Its start line, if it has one."""
        told = _Start()
        method, text = map(_decoded, self._texts("start_line", told, _number(place, 32)))
        if told.kind == _REQUEST:
            return StartLine(method, text, None, None)
        return StartLine(None, None, told.status, text) if told.kind == _RESPONSE else None

    def header_values(self, place: int, name: str) -> List[str]:
        """The values of one of its headers, by the long or the compact name, in any case. They are
        unfolded, without white space around them."""
        (text,) = self._texts("header_values", _TextLength(), _number(place, 32), name)
        return _lines(text)

    def header_lines(self, place: int) -> List[Tuple[str, str]]:
        """All its header lines in order: the name as it came, and the value, unfolded and without
        white space around it."""
        (text,) = self._texts("header_lines", _TextLength(), _number(place, 32))
        parts = (line.partition(":") for line in _lines(text))
        return [(name, value) for name, _, value in parts]

    def header_line(self, place: int, number: int) -> Optional[Tuple[str, str]]:
        """Its header line with this number, from 0, if there is one: the name as it came, and the
        value, unfolded and without white space around it. Each call reads the datagram from its
        beginning; `header_lines` reads all lines at once."""
        told = _HeaderLengths()
        words = (_number(place, 32), _number(number, 64))
        name, value = self._texts("header_line", told, *words)
        return (_decoded(name), _decoded(value)) if told.is_there else None

    def address_in(
        self, value: str, parameter: str = "", number: int = 0
    ) -> Optional[HeaderAddress]:
        """The address with this number, from 0, in the value of a Contact, a Route, a Record-Route
        or a header of their form, such as Refer-To, and the value of one of its parameters."""
        return self._header_address("address", value, (_number(number, 64),), parameter)

    def party_in(self, value: str, parameter: str = "") -> Optional[HeaderAddress]:
        """The same of the value of a From or a To, which is one address."""
        return self._header_address("party", value, (), parameter)

    def _header_address(
        self, name: str, value: str, words: Tuple[object, ...], parameter: str
    ) -> Optional[HeaderAddress]:
        told = _AddressLengths()
        room = ctypes.create_string_buffer(max(len(_encoded(value)), 1))
        function = getattr(self._library, "sip_ua_raw_" + name)
        passed = _passed((value, *words, parameter, told))
        status = function(*passed, room, len(room))
        if status != 0:
            raise Error(status)
        if not told.is_there:
            return None
        text = room.raw
        uri_at = told.display_len
        value_at = uri_at + told.uri_len
        found = _unquoted(_decoded(text[value_at : value_at + told.value_len]))
        return HeaderAddress(
            _unquoted(_decoded(text[:uri_at])),
            _decoded(text[uri_at:value_at]),
            found if told.has_parameter else None,
        )

    def message_at(self, place: int, body: bytes = b"") -> Optional[Message]:
        """Its start line and all its header lines, with the body that the notice has, if it is a
        message."""
        start = self.start_line(place)
        if start is None:
            return None
        return Message(start, tuple(self.header_lines(place)), body)

    def stats(self) -> Stats:
        """Counts what is held, and what waits."""
        told = _Stats()
        self._call("stats", told)
        return Stats(told.transactions, told.calls, told.next_round, told.events, told.outputs)

    def close(self) -> None:
        """Frees the agent. A second close, and any later call, is NO_AGENT."""
        self._call("free")

    def __enter__(self) -> "Agent":
        return self

    def __exit__(self, *_: object) -> None:
        if self._agent.held:
            self.close()

    def __del__(self) -> None:
        if getattr(self, "_library", None) is not None and self._agent.held:
            self.close()
