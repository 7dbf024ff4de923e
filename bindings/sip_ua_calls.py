"""Calls as objects, over asyncio.

    async with await open_user_agent("./libsip_ua.so", ("192.0.2.1", 5060)) as agent:
        call = await agent.call("sip:bob@192.0.2.9", offer)
        answer = await call.answered()       # raises CallFailed if the call is refused
        async for event in call:             # what happens until the call ends
            ..
        call.hang_up()

        async for call in agent.incoming():  # calls of peers
            call.ring()
            call.answer(sdp)

What goes out by itself: ACKs, a BYE to each further branch of a fork that answers, the answer to
each challenge by Digest, the 200 of a BYE and of an OPTIONS; the headers Allow, Supported, Accept
and Contact where a message needs them, unless you give them. When the `async with` ends, `close`
ends all calls. What takes headers or a body raises a sip_ua.SipUaError if a field is bad; then
nothing is sent. sip_ua_registration.py registers a user agent, sip_ua_timers.py has session timers.
Use everything from the thread of the event loop.
"""

import asyncio
import enum
import inspect
import ipaddress
import random
import re
import socket
import weakref
from collections import deque
from dataclasses import dataclass, replace
from functools import partial
from secrets import token_hex
from typing import (
    Any,
    AsyncIterator,
    Awaitable,
    Callable,
    Deque,
    Dict,
    Generic,
    List,
    NamedTuple,
    Optional,
    Sequence,
    Set,
    Tuple,
    TypeVar,
    Union,
)

from sip_ua import (
    AbandonRequest,
    Ack,
    AckNotice,
    Address,
    AddressError,
    BadValueError,
    Cancel,
    CancelNotice,
    Command,
    Drop,
    EndedNotice,
    FailedNotice,
    Headers,
    Id,
    Invite,
    Message,
    NoAckNotice,
    NoPrackNotice,
    Notice,
    Plain,
    PrackNotice,
    RefusedNotice,
    Request,
    RequestNotice,
    Response,
    ResponseNotice,
    SipUaError,
    TimeoutNotice,
)
from sip_ua_digest import CHALLENGES, Authenticator
from sip_ua_headers import ALLOW as ALLOW
from sip_ua_headers import METHODS, Profile, Refer, Replaces, names_of, number_of
from sip_ua_headers import refer_of, refer_to, replaces_of, report_of
from sip_ua_headers import uri_of as uri_of
from sip_ua_journal import FileJournal, Held, HeldDialog, held_by
from sip_ua_timers import INTERVAL_TOO_SMALL, TAG, Session, Timer
from sip_ua_udp import MOST_TRANSACTIONS, Endpoint, open_endpoint

__all__ = (
    "UserAgent open_user_agent Call OutgoingCall IncomingCall CallFailed MethodError "
    "SecondReaderError FinalResponse NO_ACK Event Progress Answered IncomingRequest Ended Reason "
    "Stream OnRequest ALLOW address_of uri_of"
).split()

SIP_PORT = 5060
# 64 times T1: so long can other branches of a fork answer, and a cancelled INVITE go without its
# response.
TRANSACTION_S = 32.0
# How long `close` waits for the ends of calls.
CLOSE_S = 4.0
# How many calls a user agent takes at one time, and when it says that others may come.
MOST_CALLS = 1000
RETRY_AFTER_S = 5
# The longest time until a re-INVITE may come again that came too early.
MOST_RETRY_AFTER_S = 10
# How many events of a call wait for its iterator; those that come then count as unread.
MOST_UNREAD = 256
# How long a request of the peer waits for an iterator of its call, and an OPTIONS for its answer:
# T1, then peers send it again.
UNREAD_S = 0.5
# How often a request answers challenges.
MOST_ANSWERS = 3
# How long a re-INVITE that crossed another one waits: if the call is ours, and if it is the peer's
# (RFC 3261, section 14.1).
GLARE_S, PEERS_GLARE_S = (2.1, 4.0), (0.0, 2.0)
SERVER_ERROR = (500, "Server Internal Error")
# How many calls of another process are ended at once, and the pause until the next ones.
MOST_AT_ONCE = 20
PAUSE_S = 0.01
# The responses to requests that another process left.
_LEFT = {"INVITE": (480, "Temporarily Unavailable"), "BYE": (200, "OK")}

# What sends the methods that `UserAgent.request` doesn't.
_SENT_BY = {
    "INVITE": "UserAgent.call",
    "ACK": "Call.acknowledge",
    "PRACK": "the agent",
    "CANCEL": "Call.hang_up",
    "BYE": "Call.hang_up",
}

_HOST = re.compile(r"sip:(?:[^@]*@)?([^\[\]:;?>\s]+)(?::(\d{1,5}))?(?:[;?>]|\Z)", re.IGNORECASE)
_TRANSPORT = re.compile(r";transport=([^;?>\s]*)", re.IGNORECASE)
MOST_PORT = 65535
_Handler = Callable[[Notice], None]
# A Call-ID, a local and a remote tag.
Dialog = Tuple[str, str, str]
_Item = TypeVar("_Item")


class FinalResponse(NamedTuple):
    """The final response to a request. The message is None if no response came: then the status is
    408 after a timeout, 503 if a send failed (RFC 3261, section 8.1.3.1), and 481 if the agent
    refused the request."""

    status: int
    reason: str
    message: Optional[Message] = None

    @property
    def is_success(self) -> bool:
        """Whether it is a 2xx."""
        return 200 <= self.status < 300


# Why a call failed whose 200 was sent, while its ACK never came.
NO_ACK = FinalResponse(408, "No ACK")
NO_CALL = FinalResponse(481, "Call/Transaction Does Not Exist")


class CallFailed(SipUaError):
    """A call wasn't answered, for the reason in `response`."""

    def __init__(self, response: FinalResponse):
        self.response = response
        super().__init__(f"{response.status} {response.reason}")


class MethodError(BadValueError):
    """This `request` doesn't send the method. The message says what does."""


class SecondReaderError(SipUaError, RuntimeError):
    """Another coroutine iterates already. It goes on."""


# ---- the events of a call


@dataclass(frozen=True)
class Progress:
    """A provisional response above 100 to your INVITE came."""

    status: int
    reason: str
    message: Message


@dataclass(frozen=True)
class Answered:
    """The call is up. The message is the 2xx of an outgoing call, the ACK of an incoming one."""

    message: Message


class Reason(enum.Enum):
    """Why a call has ended. It was up, and one of the two hung up (BYE); or the peer no longer knew
    it, didn't respond to a request, or didn't refresh its session in time (PEER_LOST). Before it
    was up, either side cancelled it (CANCELLED) or refused it, also since no PRACK came (REFUSED);
    the ACK of its 200 didn't come for 32 s (NO_ACK); no response to the INVITE came in time, or the
    endpoint closed (TIMEOUT, also where that closed a call that was up); or the INVITE or its
    response couldn't be sent, or the network refused it (UNREACHABLE)."""

    BYE = "bye"
    PEER_LOST = "peer lost"
    CANCELLED = "cancelled"
    REFUSED = "refused"
    NO_ACK = "no ack"
    TIMEOUT = "timeout"
    UNREACHABLE = "unreachable"


@dataclass(frozen=True)
class Ended:
    """The call has ended, for this reason. If it was never up, `response` says why; after a call
    that was up it is None. The message is the peer's BYE or CANCEL, if there was one."""

    response: Optional[FinalResponse] = None
    message: Optional[Message] = None
    reason: Reason = Reason.BYE


class IncomingRequest:
    """A request of the peer: one in a call, such as INFO or a re-INVITE, or one outside of calls.
    `method` is its method, `message` has its headers and its body. `respond` answers it;
    `is_answered` says whether it has its final response. If its call ends first, it gets a 487; a
    re-INVITE that crosses one of ours gets a 491 by itself, and an OPTIONS a 200 if it isn't
    answered for half a second."""

    def __init__(
        self,
        agent: "UserAgent",
        notice: RequestNotice,
        message: Message,
        call: "Optional[Call]" = None,
    ):
        self.method = notice.method
        self.message = message
        self._agent = agent
        self._call = call
        self._call_id = notice.call_id
        self._id = notice.id
        self.is_answered = False
        self._ack: "asyncio.Future[Optional[Message]]" = asyncio.get_running_loop().create_future()
        if self.method == "INVITE":
            agent.handle(self._id, self._told)

    def respond(
        self, status: int = 200, reason: str = "OK", body: bytes = b"", headers: Headers = ()
    ) -> None:
        """Responds to the request. After its final response, its CANCEL or `close`, this does
        nothing."""
        if self.is_answered or self._agent.endpoint.is_closed:
            return
        if self._call is not None:
            headers = self._call._answering(self.method, self.message, status, body, headers)
        response = Response(self._call_id, self._id, status, reason, body, headers)
        self._agent.ask(response, self.method)
        self.is_answered = status >= 200
        if status >= 300:
            self._end()

    async def acknowledged(self) -> Optional[Message]:
        """Waits for the ACK of your 2xx to a re-INVITE. None if it never comes."""
        return await asyncio.shield(self._ack)

    def refer(self) -> Optional[Refer]:
        """What a REFER asks for: the URI to call, and the dialog that this call is to take the
        place of. None if it doesn't say that: respond 400 then. Otherwise ask the user, since the
        peer chooses who is called; respond 202; call the URI, with `str(refer.replaces)` as the
        header Replaces if there is one; and report how that goes by
        `call.request("NOTIFY", b"SIP/2.0 180 Ringing", ..)` with the headers Event, `refer`;
        Subscription-State, `active;expires=60`, at last `terminated;reason=noresource`; and
        Content-Type, `message/sipfrag` (RFC 3515). A peer that responds 481 to such a NOTIFY ends
        the whole call: the agent ends a dialog by any 481."""
        return refer_of(self.message) if self.method == "REFER" else None

    def refuse(self) -> None:
        """Responds to what nobody reads: 200 to OPTIONS, 488 to a re-INVITE, which leaves the call
        as it is, 480 to what Allow names, and to others 405, or 501 to an unknown method."""
        if self.method == "OPTIONS":
            self.respond(200, "OK")
        elif self.method == "INVITE":
            self.respond(488, "Not Acceptable Here")
        elif self.method in self._agent.profile.allow:
            self.respond(480, "Temporarily Unavailable")
        elif self.method in METHODS:
            self.respond(405, "Method Not Allowed")
        else:
            self.respond(501, "Not Implemented")

    def _told(self, notice: Notice) -> None:
        if isinstance(notice, AckNotice):
            if self._call is not None:
                self._call._heard = notice.body or self._call._heard
            self._end(self._agent.message(notice.place, notice.body))
        elif not isinstance(notice, PrackNotice):
            self.is_answered = True
            self._end()

    def _end(self, ack: Optional[Message] = None) -> None:
        """No ACK will come any more."""
        self._agent.forget(self._id)
        if not self._ack.done():
            self._ack.set_result(ack)


Event = Union[Progress, Answered, IncomingRequest, Ended]
# Answers a request outside of calls: now, later, or as a coroutine.
OnRequest = Callable[[IncomingRequest], Optional[Awaitable[object]]]


class _Reader(AsyncIterator[_Item]):
    """An iterator of a stream."""

    def __init__(self, stream: "Stream[_Item]"):
        self._stream = stream
        self.is_over = False

    async def __anext__(self) -> _Item:
        return await self._stream.next(self)

    async def aclose(self) -> None:
        """Ends it, so that another one can begin."""
        self._stream.leave(self)


class Stream(Generic[_Item]):
    """What one iterator reads at a time: a second one raises SecondReaderError, and the first goes
    on. While nobody iterates, the items that `is_kept` names wait, and others for `patience_s`:
    then `refuse` is called with them. It is called at once with what comes while MOST_UNREAD wait.
    """

    def __init__(
        self,
        refuse: Callable[[_Item], None],
        is_kept: Callable[[_Item], bool] = lambda _: False,
        patience_s: float = 0.0,
    ) -> None:
        self._refuse = refuse
        self._is_kept = is_kept
        self._patience_s = patience_s
        self._items: Deque[_Item] = deque()
        self._is_ended = False
        self._last: Optional[_Item] = None
        # A weak reference: an iterator that nobody holds any more has ended.
        self._reader: Callable[[], Optional[_Reader[_Item]]] = nobody
        # What the iterator awaits.
        self._arrival: "Optional[asyncio.Future[None]]" = None

    def put(self, item: _Item) -> None:
        """Gives an item to the iterator, keeps it for the next one, or refuses it."""
        if self._is_ended or len(self._items) >= MOST_UNREAD:
            self._refuse(item)
        else:
            self._items.append(item)
            self._wake()
            self._expect_reader()

    def end(self, last: Optional[_Item] = None) -> None:
        """Ends the iterator, after a last item, which later ones get alone."""
        self._is_ended, self._last = True, last
        self._wake()

    def read(self) -> AsyncIterator[_Item]:
        """The items that were kept, and those from now on."""
        return _Reader(self)

    async def next(self, reader: _Reader[_Item]) -> _Item:
        """For `_Reader`: the next item."""
        if reader.is_over:
            raise StopAsyncIteration
        if self._arrival is not None or self._reader() not in (None, reader):
            raise SecondReaderError("another coroutine iterates already")
        if self._reader() is None:
            loop = asyncio.get_running_loop()
            self._reader = weakref.ref(reader, lambda _: self._lose_reader(loop))
        while not (self._items or self._is_ended or reader.is_over):
            await self._wait()
        if reader.is_over:
            raise StopAsyncIteration
        if self._items:
            return self._items.popleft()
        self.leave(reader)
        if self._last is None:
            raise StopAsyncIteration
        return self._last

    async def _wait(self) -> None:
        """Waits for an item. Who is cancelled meanwhile no longer reads: others may hold its
        iterator on, such as a traceback."""
        self._arrival = asyncio.get_running_loop().create_future()
        try:
            await self._arrival
        except asyncio.CancelledError:
            self._reader = nobody
            self._expect_reader()
            raise
        finally:
            self._arrival = None

    def _wake(self) -> None:
        if self._arrival is not None and not self._arrival.done():
            self._arrival.set_result(None)

    def leave(self, reader: _Reader[_Item]) -> None:
        """For `_Reader`: it has ended."""
        reader.is_over = True
        if self._reader() is reader:
            self._reader = nobody
            self._wake()
            self._expect_reader()

    def _lose_reader(self, loop: asyncio.AbstractEventLoop) -> None:
        """Nobody holds the iterator any more. That can be noticed within anything, so that nothing
        is refused here."""
        if not loop.is_closed():
            loop.call_soon_threadsafe(self._expect_reader)

    def _expect_reader(self) -> None:
        """Has what isn't kept refused, unless somebody iterates, or does so in time."""
        if self._reader() is None and self._patience_s > 0:
            asyncio.get_running_loop().call_later(self._patience_s, self._refuse_unread)
        else:
            self._refuse_unread()

    def _refuse_unread(self) -> None:
        """Refuses what isn't kept, unless somebody iterates."""
        if self._reader() is not None:
            return
        items, self._items = self._items, deque()
        for item in items:
            if self._is_kept(item):
                self._items.append(item)
            else:
                self._refuse(item)


def nobody() -> None:
    """The reader of a stream that nobody reads."""


# ---- calls


class Call:
    """A call, incoming or outgoing. `async for` gives its events, Ended last. They are kept from
    the call's start until somebody reads them, but requests of the peer are refused after half a
    second in which nobody reads. One coroutine iterates at a time: a second one gets
    SecondReaderError. Any number may await `answered` and `ended` beside it; to cancel such a wait
    leaves the call as it is.

    `call_id` is its Call-ID, a str, and `local_tag` our tag. Those of an outgoing call change when
    its INVITE goes again after a challenge or a 422; `prefix` of `UserAgent.call` stays."""

    # The id of its INVITE.
    _id: Id
    local_tag: str

    def __init__(self, agent: "UserAgent", call_id: str, timer: Optional[Timer]):
        loop = asyncio.get_running_loop()
        self.call_id = call_id
        self.dialogs: Set[Dialog] = set()
        self._agent = agent
        self._tags: Optional[Tuple[str, str]] = None
        self._target = ""
        self._authenticator = agent._new_authenticator()
        self._answer: Optional[Message] = None
        self._bye: Optional[Message] = None
        # The peer's requests that the user has to answer.
        self._open_requests: List[IncomingRequest] = []
        # An INVITE of our own waits for its final response, and others for that; the peer's last
        # re-INVITE.
        self._is_inviting = False
        self._turns = asyncio.Lock()
        self._reinvite: Optional[IncomingRequest] = None
        self._is_left = False
        # The body and the headers of the BYE.
        self._farewell: Tuple[bytes, Headers] = (b"", ())
        self._owes_ack = False
        # The last SDP of ours, with its type if that was given, and the peer's last one.
        self._said: Tuple[bytes, Headers] = (b"", ())
        self._heard = b""
        self._session = None if timer is None else Session(timer, self._refresh, self._expire)
        self._is_lost = False
        # The last report of a transfer that goes on; the CSeq numbers of the REFERs that are over.
        self._has_referred = False
        self._past_refers: Set[str] = set()
        self._report: "Optional[asyncio.Future[FinalResponse]]" = None
        self._is_settled: "asyncio.Future[None]" = loop.create_future()
        self._end: "asyncio.Future[Ended]" = loop.create_future()
        self._events: Stream[Event] = Stream(refuse_event, is_no_request, UNREAD_S)

    @property
    def is_up(self) -> bool:
        """Whether it was answered, and hasn't ended."""
        return self._answer is not None and not self._end.done()

    @property
    def remote_tag(self) -> str:
        """The peer's tag, empty until a call of ours is answered."""
        return "" if self._tags is None else self._tags[1]

    async def answered(self) -> Message:
        """Waits until the call is up. Returns the 2xx of an outgoing call, the ACK of an incoming
        one. Raises CallFailed if it was refused, cancelled, or not answered in time, and with
        NO_ACK if the peer never acknowledged its 200. A timeout of `asyncio.wait_for` leaves the
        call as it is: `hang_up` ends it."""
        await asyncio.shield(self._is_settled)
        if self._answer is None:
            response = self._end.result().response
            raise CallFailed(response or FinalResponse(487, "Request Terminated"))
        return self._answer

    async def ended(self) -> Ended:
        """Waits until the call has ended: by a BYE, or since it was never up."""
        return await asyncio.shield(self._end)

    def __aiter__(self) -> AsyncIterator[Event]:
        return self._events.read()

    async def request(self, method: str, body: bytes = b"", headers: Headers = ()) -> FinalResponse:
        """Sends a request in the call, such as INFO or a re-INVITE, and returns its final response.
        481 and 408 end the call, also those to a NOTIFY (RFC 3261, section 12.2.1.2). If the call
        ends first, the request is given up, and this returns 481; if this is cancelled, it is given
        up, too. A re-INVITE waits until the one before has its final response (section 14.1). A
        peer may answer it by a 100 alone: bound that by `asyncio.wait_for`. BYE, CANCEL, ACK and
        PRACK raise MethodError: to end the call, use `hang_up`."""
        if method == "INVITE":
            async with self._turns:
                return await self._request(method, body, headers)
        check_method(method)
        return await self._request(method, body, headers)

    async def _request(self, method: str, body: bytes, headers: Headers) -> FinalResponse:
        if self._tags is None or not self.is_up:
            return NO_CALL
        call_id, tags = self.call_id, self._tags
        is_invite = method == "INVITE"

        def request(credentials: Headers) -> Command:
            own = self._asking(headers) if is_invite else headers
            return Request(call_id, *tags, method, body, [*own, *credentials])

        self._is_inviting = self._is_inviting or is_invite
        try:
            response = await self._exchange(request, method)
            while is_invite and self._takes_too_small(response.status, response.message):
                response = await self._exchange(request, method)
        finally:
            self._is_inviting = self._is_inviting and not is_invite
        if response.is_success and is_invite and response.message is not None:
            self._owes_ack = bool(response.message.body) and not body
            self._agree(body, headers, response.message)
        if response.status in (408, 481):
            self._is_lost = True
            self.hang_up()
        return response

    def _exchange(
        self, request: Callable[[Headers], Command], method: str
    ) -> Awaitable[FinalResponse]:
        return self._agent.exchange(request, self._authenticator, method, self._target, self._end)

    async def transfer(
        self, target: "Union[str, Call]", headers: Headers = ()
    ) -> FinalResponse:
        """Has the peer call a URI, or take the place of this side in another call that is up
        (REFER, RFC 3515; Replaces, RFC 3891), and returns how that call was answered, as the peer
        reports it. The call stays: hang up both calls then. The status is that of the REFER where
        the peer refuses it or reports nothing, below 200 if its reports end without a final one,
        481 if the call ends before, and 491 while another transfer goes on. The reports may never
        end: bound this by `asyncio.wait_for`. Raises BadValueError for what is no URI, or a call
        that isn't up."""
        if self._report is not None:
            return FinalResponse(491, "Request Pending")
        refer = ("Refer-To", refer_to(target) if isinstance(target, str) else target._refer_to())
        self._has_referred = True
        report: "asyncio.Future[FinalResponse]" = asyncio.get_running_loop().create_future()
        self._report = report
        try:
            taken = await self.request("REFER", headers=[refer, *headers])
            if not taken.is_success or taken.message is None or is_unreported(taken.message):
                return taken
            await self._reported(report, taken.message)
        finally:
            self._report = None
        return report.result() if report.done() else NO_CALL

    async def _reported(
        self, report: "asyncio.Future[FinalResponse]", taken: Message
    ) -> None:
        """Waits for the last report of a REFER, or the end of the call. Later reports of it aren't
        taken for those of another REFER (RFC 3515, section 2.4.6)."""
        waits_for: "List[asyncio.Future[Any]]" = [report, self._end]
        try:
            await asyncio.wait(waits_for, return_when=asyncio.FIRST_COMPLETED)
        finally:
            self._past_refers.add(str(number_of(taken.value("CSeq"))))

    def _refer_to(self) -> str:
        """The Refer-To by which another peer takes our place in this call."""
        if not self.is_up:
            raise BadValueError("a call that isn't up can't be handed over")
        return refer_to(self._target, Replaces(self.call_id, self.remote_tag, self.local_tag))

    def acknowledge(self, answer: bytes = b"", headers: Headers = ()) -> None:
        """Sends the ACK of a 2xx whose INVITE, or re-INVITE by `request`, had no body: the 2xx has
        the offer, and the ACK the answer. Other ACKs go out by themselves; then, and after the end,
        this does nothing.

        To join two calls, make the first without an offer, the second with the first's, and give
        the second's answer here, within 32 s of the first's 2xx (RFC 3725, section 4.1): then the
        first may end itself by a BYE; before its ACK it can't hang up. If the second may ring
        longer, call the first with an inactive SDP, and the second without an offer; give the
        second's offer to the first by a re-INVITE (`request`), and the first's answer to the second
        here."""
        if self._owes_ack and self._tags is not None:
            self._agent.ask(Ack(self.call_id, *self._tags, answer, headers))
            self._owes_ack = False
            self._say(answer, headers)

    def hang_up(self, body: bytes = b"", headers: Headers = ()) -> None:
        """Ends the call: by BYE if it is up, else by CANCEL or 603. If it is answered anyway, or
        its ACK hasn't come yet, its BYE follows then. If the ACK of its 2xx is still to be given by
        `acknowledge`, one without a body goes out before the BYE. The body and the headers are the
        BYE's. A call that has ended, or is about to, stays as it is. `ended` comes as the BYE
        goes out; without one at most some 32 s later, also if the peer is silent."""
        if self._is_left or self._end.done():
            return
        self._farewell = (body, headers)
        if self._answer is not None:
            self._say_bye()
        else:
            self._give_up()
        self._is_left = True

    def _give_up(self) -> None:
        """Leaves a call that isn't up."""
        raise NotImplementedError

    def _say_bye(self) -> None:
        """Ends the dialog. A 2xx that needs an ACK gets it first."""
        if self._tags is None:
            return
        self.acknowledge()
        body, headers = self._farewell
        if self._authenticator is not None:
            headers = [*headers, *self._authenticator.headers("BYE", self._target)]
        asked = self._agent.ask(Request(self.call_id, *self._tags, "BYE", body, headers))
        self._agent.handle(asked, lambda notice: self._told_of_bye(asked, notice))

    def _told_of_bye(self, asked: Id, notice: Notice) -> None:
        if not isinstance(notice, ResponseNotice) or notice.status >= 200:
            self._agent.forget(asked)
            self._finish(Ended(reason=self._why()))

    def _begin(self, tags: Tuple[str, str], message: Message, answer: Message) -> None:
        """The call is up, in the dialog with these tags. The message has the peer's Contact."""
        self._tags, self._answer = tags, answer
        self._is_inviting = False
        self._target = uri_of(message.value("Contact"))
        self._is_settled.set_result(None)
        self._events.put(Answered(answer))

    def _finish(self, end: Ended) -> None:
        if self._end.done():
            return
        self._end.set_result(end)
        if not self._is_settled.done():
            self._is_settled.set_result(None)
        for request in self._open_requests:
            request.respond(487, "Request Terminated")
        if self._reinvite is not None:
            self._reinvite._end()
        if self._session is not None:
            self._session.stop()
        self._events.end(end)
        self._agent.forget(self._id)
        self._agent._forget_call(self)

    # -- what the user agent says

    def _abandon(self) -> None:
        """The endpoint closes before this call has ended."""
        response = None if self.is_up else FinalResponse(408, "Request Timeout")
        self._finish(Ended(response, reason=Reason.TIMEOUT))

    def _take_request(self, notice: RequestNotice, message: Message) -> None:
        """A request of the peer in a dialog of this call."""
        request = IncomingRequest(self._agent, notice, message, self)
        is_of_branch = self._tags not in (None, (notice.local_tag, notice.remote_tag))
        if notice.method == "BYE":
            request.respond()
            self._bye = self._bye if is_of_branch else message
        elif is_of_branch:
            request.refuse()
        elif notice.method == "NOTIFY" and self._takes_report(message):
            request.respond()
        elif self._min_se(message):
            request.respond(*INTERVAL_TOO_SMALL, headers=self._min_se(message))
        elif notice.method == "INVITE":
            self._take_reinvite(request)
        else:
            self._give(request)

    def _give(self, request: IncomingRequest) -> None:
        """Gives a request to the user, who has to answer it."""
        self._open_requests = [it for it in self._open_requests if not it.is_answered]
        self._open_requests.append(request)
        self._events.put(request)
        expect_options(request)

    def _take_reinvite(self, request: IncomingRequest) -> None:
        """A re-INVITE of the peer. One that crosses an INVITE of our own is refused, and one before
        the answer to the last (RFC 3261, section 14.2)."""
        if self._is_inviting:
            request.respond(491, "Request Pending")
        elif self._has_open_reinvite():
            headers = [("Retry-After", str(random.randint(0, MOST_RETRY_AFTER_S)))]
            request.respond(*SERVER_ERROR, headers=headers)
        else:
            self._reinvite = request
            if self._is_refresh(request.message):
                request.respond(200, "OK", *self._said)
            else:
                self._give(request)

    def _takes_report(self, message: Message) -> bool:
        """Whether a NOTIFY reports a transfer."""
        package, *parameters = [it.strip().lower() for it in message.value("Event").split(";")]
        if not self._has_referred or package != "refer":
            return False
        is_past = any(f"id={number}" in parameters for number in self._past_refers)
        status, reason, is_last = report_of(message)
        if is_last and not is_past and self._report is not None and not self._report.done():
            self._report.set_result(FinalResponse(status or 100, reason))
        return True

    def _dialog_ended(self, tags: Tuple[str, str]) -> None:
        """A dialog of this call has ended."""
        if tags == self._tags:
            self._finish(Ended(message=self._bye, reason=self._why()))

    def _why(self) -> Reason:
        """Why the dialog of this call has ended."""
        if self._bye is None and (self._is_lost or not self._is_left):
            return Reason.PEER_LOST
        is_up = self._answer is not None or self._bye is not None
        return Reason.BYE if is_up else Reason.CANCELLED

    # -- its session timer

    def _asking(self, headers: Headers) -> Headers:
        """The headers of an INVITE or a re-INVITE of ours."""
        if self._session is None or "session-expires" in names_of(headers):
            return headers
        return [*headers, *self._session.asking()]

    def _takes_too_small(self, status: int, message: Optional[Message]) -> bool:
        """Whether a response asks for a longer session, and the request has to go out again."""
        return self._session is not None and self._session.takes_too_small(status, message)

    def _agree(self, body: bytes, headers: Headers, answer: Message) -> None:
        """The peer has answered an INVITE or a re-INVITE of ours."""
        self._say(body, headers)
        self._heard = answer.body or self._heard
        if self._session is not None:
            self._session.take_answer(answer)

    def _answering(
        self, method: str, request: Message, status: int, body: bytes, headers: Headers
    ) -> Headers:
        """Takes note of a response to a request of the peer, and returns its headers."""
        if method not in ("INVITE", "UPDATE") or status >= 300:
            return headers
        self._say(body, headers)
        self._heard = request.body or self._heard
        if status < 200 or self._session is None or "session-expires" in names_of(headers):
            return headers
        return [*headers, *self._session.answer(request)]

    def _min_se(self, request: Message) -> Headers:
        """The headers of a 422, if a request asks for too short a session."""
        return [] if self._session is None else self._session.refusal(request)

    def _say(self, body: bytes, headers: Headers) -> None:
        """Keeps an SDP of ours, with its type."""
        if body:
            types = [it for it in headers if names_of([it]) & {"content-type"}]
            self._said = (body, types)

    def _is_refresh(self, reinvite: Message) -> bool:
        """Whether a re-INVITE of the peer only refreshes the session: its SDP is the last one."""
        has_timer = self._session is not None and self._session.interval_s > 0
        return has_timer and bool(reinvite.body) and reinvite.body == self._heard

    def _refresh(self) -> None:
        self._agent._spawn(self._send_refresh())

    async def _send_refresh(self) -> None:
        """Refreshes the session, unless another INVITE does so meanwhile. One that crosses another
        INVITE goes again; after any other failure the session expires."""
        assert self._session is not None
        number = self._session.number
        while self.is_up and not self._is_left and self._session.number == number:
            is_crossing = self._is_inviting or self._has_open_reinvite()
            if not is_crossing:
                body, headers = self._said
                response = await self.request("INVITE", body, headers)
                self.acknowledge()
                if response.status != 491:
                    return
            is_ours = isinstance(self, OutgoingCall)
            await asyncio.sleep(random.uniform(*(GLARE_S if is_ours else PEERS_GLARE_S)))

    def _has_open_reinvite(self) -> bool:
        return self._reinvite is not None and not self._reinvite.is_answered

    def _expire(self) -> None:
        """The session wasn't refreshed in time."""
        self._is_lost = True
        self.hang_up()


class OutgoingCall(Call):
    """A call that `UserAgent.call` started."""

    def __init__(
        self, agent: "UserAgent", invite: Invite, prefix: str, timer: Optional[Timer]
    ):
        is_own = "session-expires" in names_of(invite.headers)
        super().__init__(agent, invite.call_id, None if is_own else timer)
        self._invite = invite
        self._prefix = prefix
        self._statuses: List[int] = []
        self._is_inviting = True
        self._id = self._send()

    def _send(self) -> Id:
        """Sends the INVITE, with the credentials for the challenges that came."""
        invite = self._invite
        headers = [*self._asking(invite.headers)]
        if self._authenticator is not None:
            headers += self._authenticator.headers("INVITE", invite.request_uri)
        asked = self._agent.ask(
            Invite(
                self.call_id,
                invite.address,
                invite.request_uri,
                invite.from_uri,
                invite.to_uri,
                invite.body,
                headers,
                invite.supports_100rel,
            )
        )
        self._agent.handle(asked, self._told)
        self.local_tag = self._agent.opening_tag(asked)
        return asked

    def _give_up(self) -> None:
        """Cancels the INVITE. Its response is waited for, but not for ever."""
        self._agent.ask(Cancel(self.call_id, self._id))
        asyncio.get_running_loop().call_later(TRANSACTION_S, self._miss_response)

    def _miss_response(self) -> None:
        """The cancelled INVITE got no response in time: it is given up (RFC 3261, section 9.1)."""
        if not self._end.done():
            self._agent.ask(AbandonRequest(self.call_id, self._id))
            self._agent.forget(self._id)
            response = FinalResponse(408, "Request Timeout")
            self._finish(Ended(response, reason=Reason.CANCELLED))

    def _fail(self, end: Ended) -> None:
        if self._answer is None:
            self._finish(end)

    def _told(self, notice: Notice) -> None:
        if isinstance(notice, ResponseNotice):
            message = self._agent.message(notice.place, notice.body)
            if message is not None:
                self._take_response(notice, message)
        else:
            self._fail(self._agent.end_by(notice))

    def _take_response(self, notice: ResponseNotice, message: Message) -> None:
        """A response to the INVITE came. Its dialog has our own From tag, also where a wrong peer
        changed that."""
        tags = (self._agent.opening_tag(notice.id), notice.remote_tag)
        if notice.status == 100:
            return
        if notice.status < 300:
            self._agent._hold(self, tags)
        reason = message.start.reason or ""
        if notice.status < 200:
            self._heard = message.body or self._heard
            self._events.put(Progress(notice.status, reason, message))
        elif notice.status < 300:
            self._take_answer(tags, message)
        elif not self._is_left and self._goes_again(notice.status, message):
            self._agent.forget(self._id)
            self.call_id = self._prefix + token_hex(8)
            self._id = self._send()
        else:
            why = Reason.CANCELLED if self._is_left else Reason.REFUSED
            self._fail(Ended(FinalResponse(notice.status, reason, message), reason=why))

    def _take_answer(self, tags: Tuple[str, str], message: Message) -> None:
        """Takes a 2xx. One of another branch of a fork, or after a CANCEL, is ended at once."""
        owes_ack = bool(message.body) and not self._invite.body
        if self._tags is None and not self._end.done():
            self._agent._forget_later(self._id)
            self._owes_ack = owes_ack
            if not self._is_left:
                self._begin(tags, message, message)
                self._agree(self._invite.body, self._invite.headers, message)
                return
            self._tags = tags
            self._say_bye()
        elif self._tags != tags:
            if owes_ack:
                self._agent.ask(Ack(self.call_id, *tags))
            self._agent.ask(Request(self.call_id, *tags, "BYE"))

    def _goes_again(self, status: int, message: Message) -> bool:
        """Whether the INVITE goes out again after a response, changed as that asks for."""
        is_challenge = self._takes_challenge(status, message)
        return is_challenge or self._takes_too_small(status, message)

    def _takes_challenge(self, status: int, message: Message) -> bool:
        is_again = status in self._statuses
        self._statuses.append(status)
        is_often = len(self._statuses) > MOST_ANSWERS
        return not is_often and takes_challenge(self._authenticator, status, message, is_again)


class IncomingCall(Call):
    """A call of a peer, which `UserAgent.incoming` gave. `invite` is its INVITE."""

    def __init__(self, agent: "UserAgent", notice: RequestNotice, invite: Message):
        super().__init__(agent, notice.call_id, agent.session_timer)
        self.invite = invite
        self.local_tag = notice.local_tag
        self._id = notice.id
        self._has_final = False
        self._tags = (notice.local_tag, notice.remote_tag)
        agent.handle(notice.id, self._told)
        agent._hold(self, self._tags)

    def ring(self) -> None:
        """Responds 180."""
        self.respond(180, "Ringing")

    def answer(self, body: bytes = b"", headers: Headers = ()) -> None:
        """Responds 200, with the answer to the INVITE's offer. If it has none, the body is the
        offer, and the ACK has the answer."""
        self.respond(200, "OK", body, headers)

    def reject(
        self,
        status: int = 486,
        reason: str = "Busy Here",
        body: bytes = b"",
        headers: Headers = (),
    ) -> None:
        """Refuses the call, by a status from 300 to 699."""
        self.respond(status, reason, body, headers)

    def respond(
        self,
        status: int,
        reason: str,
        body: bytes = b"",
        headers: Headers = (),
        is_reliable: bool = False,
    ) -> None:
        """Responds to the INVITE. After its final response, or its CANCEL, this does nothing."""
        if self._has_final or self._end.done():
            return
        headers = self._answering("INVITE", self.invite, status, body, headers)
        response = Response(self.call_id, self._id, status, reason, body, headers, is_reliable)
        self._agent.ask(response, "INVITE")
        self._has_final = status >= 200
        if status >= 300:
            # A BYE ends the early dialog too (RFC 3261, section 15.1.2).
            why = Reason.REFUSED if self._bye is None else Reason.CANCELLED
            self._finish(Ended(FinalResponse(status, reason), reason=why))

    def _give_up(self) -> None:
        # Once it is answered, the BYE waits for the ACK (RFC 3261, section 15).
        if not self._has_final:
            self.reject(603, "Decline")

    def _told(self, notice: Notice) -> None:
        if isinstance(notice, AckNotice):
            self._take_ack(notice)
        elif isinstance(notice, CancelNotice):
            message = self._agent.message(notice.place)
            response = FinalResponse(487, "Request Terminated")
            self._finish(Ended(response, message, Reason.CANCELLED))
        elif isinstance(notice, NoAckNotice):
            self._agent.forget(self._id)
            self._say_bye()
            self._finish(Ended(NO_ACK, reason=Reason.NO_ACK))
        elif isinstance(notice, NoPrackNotice):
            self.reject(504, "Server Time-out")
        elif isinstance(notice, (TimeoutNotice, FailedNotice)):
            self._finish(self._agent.end_by(notice))

    def _take_ack(self, notice: AckNotice) -> None:
        self._agent.forget(self._id)
        ack = self._agent.message(notice.place, notice.body)
        if ack is not None and self._tags is not None:
            self._heard = ack.body or self._heard
            self._begin(self._tags, self.invite, ack)
        if self._is_left:
            self._say_bye()

    def _take_request(self, notice: RequestNotice, message: Message) -> None:
        """A request of the peer in one of its dialogs."""
        super()._take_request(notice, message)
        if notice.method == "BYE":
            self.respond(487, "Request Terminated")


def refuse_event(event: Event) -> None:
    """An event that nobody reads."""
    if isinstance(event, IncomingRequest):
        event.refuse()


def expect_options(request: IncomingRequest) -> None:
    """An OPTIONS that the application doesn't answer soon gets a 200 by itself."""
    if request.method == "OPTIONS":
        asyncio.get_running_loop().call_later(UNREAD_S, request.refuse)


def is_unreported(message: Message) -> bool:
    """Whether the 2xx to a REFER says that no reports follow (RFC 4488)."""
    return message.value("Refer-Sub").lower().startswith("false")


def is_no_request(event: Event) -> bool:
    """Whether an event can wait for a reader: nobody waits for its answer."""
    return not isinstance(event, IncomingRequest)


def check_method(method: str) -> None:
    """Raises MethodError if it isn't one that `UserAgent.request` sends."""
    if method in _SENT_BY:
        raise MethodError(f"{method} is sent by {_SENT_BY[method]}, not by request")


def refuse_call(call: IncomingCall) -> None:
    """A call that nobody takes."""
    call.reject(480, "Temporarily Unavailable")


def takes_challenge(
    authenticator: Optional[Authenticator], status: int, message: Optional[Message], is_again: bool
) -> bool:
    """Whether a response is a challenge that the authenticator can answer."""
    if authenticator is None or message is None or status not in CHALLENGES:
        return False
    return authenticator.takes(status, message.values(CHALLENGES[status][0]), is_again)


async def address_of(uri: str) -> Address:
    """The address of a URI's host, by DNS if it is a name, and its port, 5060 without one. Raises
    AddressError, a ValueError, if the URI isn't a `sip:` URI with a host that is a name or an IPv4
    address, its port isn't a number up to 65,535, or its parameter `transport` isn't udp; and
    OSError if the name isn't found. What else the URI has isn't checked: `call` may refuse it."""
    found = _HOST.match(uri)
    if found is None or int(found[2] or SIP_PORT) > MOST_PORT:
        raise AddressError(f"no address in {uri!r}")
    transport = _TRANSPORT.search(uri, found.end(1))
    if transport is not None and transport[1].lower() != "udp":
        raise AddressError(f"transport={transport[1]} in {uri!r}: there is UDP alone")
    host, port = found[1], int(found[2] or SIP_PORT)
    try:
        return str(ipaddress.IPv4Address(host)), port
    except ValueError:
        loop = asyncio.get_running_loop()
        kinds = {"family": socket.AF_INET, "type": socket.SOCK_DGRAM}
        ip = (await loop.getaddrinfo(host, port, **kinds))[0][4][0]
        return str(ip), port


# ---- the user agent


class UserAgent:
    """An endpoint whose calls are objects. `open_user_agent` opens one; `close` ends its calls and
    closes it, as does leaving its `async with`.

    `uri` is the user's own, which From says; `profile`, a sip_ua_headers.Profile, what its headers
    say of it. `proxy` is where all requests go, otherwise to the address in their URI. The username
    and the password answer challenges. `on_request` is called with each request outside of calls;
    without it, they are refused. It may be an async function. A request gets 500 if it raises, or
    if it is async and ends without an answer; what it raises goes to the event loop's handler of
    exceptions. An OPTIONS that it doesn't answer within half a second gets a 200. A peer's call
    gets 503 while there are `most_calls`, one's own among them; `call` has no limit. With a
    journal, `left`, a set of str, has the Call-IDs of the calls that a process which died left, or
    for which `close` didn't wait long enough. They end as by `hang_up`, from the first round on, 20
    each 10 ms; what becomes of this isn't told, but `close` waits for it."""

    endpoint: Endpoint
    uri: str
    profile: Profile

    def __init__(
        self,
        proxy: Optional[Address] = None,
        username: str = "",
        password: str = "",
        on_request: Optional[OnRequest] = None,
        most_calls: int = MOST_CALLS,
        session_timer: Optional[Timer] = None,
    ):
        self.proxy = proxy
        self.session_timer = session_timer
        self.calls: Set[Call] = set()
        self._login = (username, password)
        self._on_request = on_request
        # The coroutines of `on_request`, and those that refresh sessions.
        self._serving: "Set[asyncio.Future[object]]" = set()
        self._most_calls = most_calls
        self._dialogs: Dict[Dialog, Call] = {}
        self._handlers: Dict[Id, _Handler] = {}
        # INVITEs that were answered, while other branches of a fork may answer too.
        self._answered_invites: Dict[Id, _Handler] = {}
        self._incoming: Stream[IncomingCall] = Stream(refuse_call)
        self._responses: "Set[asyncio.Future[FinalResponse]]" = set()
        self._is_closing = False
        self._is_idle = asyncio.Event()
        # The Call-IDs of the calls that another process left, and its peers' requests.
        self.left: Set[str] = set()
        self._left_requests: Set[Id] = set()
        # What ends these calls.
        self._to_leave: Deque[Callable[[], None]] = deque()

    async def __aenter__(self) -> "UserAgent":
        return self

    async def __aexit__(self, *_: object) -> None:
        await self.close()

    async def call(
        self,
        uri: str,
        offer: bytes = b"",
        headers: Headers = (),
        address: Optional[Address] = None,
        from_uri: Optional[str] = None,
        supports_100rel: bool = False,
        prefix: str = "",
        session_timer: Optional[Timer] = None,
    ) -> OutgoingCall:
        """Starts a call: sends an INVITE to the address, else to the proxy or the address in the
        URI. Without an offer, the 2xx has one, and `acknowledge` answers it; then leave out
        `supports_100rel`. Its Call-IDs begin with the prefix (without blanks), so that you know the
        call in `left`. Its session timer is that of the user agent, unless one is given.
        Raises as `address_of`, which isn't asked if there is an address or a proxy, and a
        sip_ua.SipUaError if a field is bad: then, or if this is cancelled, no call has begun."""
        to = address or self.proxy or await address_of(uri)
        uris = (uri, from_uri or self.uri, uri)
        call_id = prefix + token_hex(8)
        invite = Invite(call_id, to, *uris, offer, tuple(headers), supports_100rel)
        call = OutgoingCall(self, invite, prefix, session_timer or self.session_timer)
        self.calls.add(call)
        return call

    def incoming(self) -> AsyncIterator[IncomingCall]:
        """The calls of peers, until `close`. While nobody iterates, they get 480. One coroutine
        iterates at a time: a second one gets SecondReaderError."""
        return self._incoming.read()

    def find_call(self, replaces: Union[str, Replaces]) -> Optional[Call]:
        """The call, up or not, whose dialog the header Replaces of an INVITE names, or the Refer-To
        of a REFER (RFC 3891, section 3). If there is none, respond 481; otherwise answer the
        INVITE, and hang up the call that was found."""
        found = replaces_of(replaces) if isinstance(replaces, str) else replaces
        if found is None:
            return None
        return self._dialogs.get((found.call_id, found.to_tag, found.from_tag))

    async def request(
        self,
        method: str,
        uri: str,
        body: bytes = b"",
        headers: Headers = (),
        address: Optional[Address] = None,
        from_uri: Optional[str] = None,
        to_uri: Optional[str] = None,
        authenticator: Optional[Authenticator] = None,
    ) -> FinalResponse:
        """Sends a request outside of calls, such as OPTIONS, and returns its final response. Raises
        as `call`, and MethodError for INVITE, BYE, CANCEL, ACK and PRACK."""
        check_method(method)
        to = address or self.proxy or await address_of(uri)
        uris = (uri, from_uri or self.uri, to_uri or uri)

        def plain(credentials: Headers) -> Command:
            return Plain(token_hex(8), to, method, *uris, body, [*headers, *credentials])

        return await self.exchange(plain, authenticator or self._new_authenticator(), method, uri)

    async def close(self, patience_s: float = CLOSE_S) -> None:
        """Ends all calls: 480 to those that nobody answered, else CANCEL or BYE. Waits for their
        ends and for the responses to requests, at most so many seconds, and closes the endpoint.
        Then its address is free."""
        if self.endpoint.is_closed:
            return
        self._is_closing = True
        self._incoming.end()
        for call in list(self.calls):
            if isinstance(call, IncomingCall):
                refuse_call(call)
            call.hang_up()
        await asyncio.sleep(0)  # the round that sends this
        try:
            await asyncio.wait_for(self._idle(), patience_s)
        except asyncio.TimeoutError:
            pass
        self.endpoint.close()
        await self.endpoint.wait_closed()

    def _abandon(self) -> None:
        """The endpoint is closed: ends what is awaited."""
        self._is_closing = True
        self._incoming.end()
        for call in list(self.calls):
            call._abandon()
        for response in self._responses:
            if not response.done():
                response.set_result(FinalResponse(408, "Request Timeout"))

    async def _idle(self) -> None:
        """Waits until no request waits for its end."""
        while self._handlers or self._to_leave:
            self._is_idle.clear()
            await self._is_idle.wait()

    # -- for calls, requests and registrations

    def ask(self, command: Command, answered: str = "") -> Id:
        """Gives a command to the agent, with the headers of the profile. Its id names what it asks
        for. A Response answers a request of the method `answered`."""
        own = self.profile.headers(command, answered)
        if own:
            command = replace(command, headers=[*command._headers(), *own])
        return self.endpoint.ask(command)

    def opening_tag(self, event: Id) -> str:
        """Our tag in the dialogs that this INVITE opens."""
        return self.endpoint.agent.opening_tag(event)

    def handle(self, event: Id, handler: _Handler) -> None:
        """For these modules: has notices about a request go to this handler, until `forget`."""
        self._handlers[event] = handler

    def forget(self, event: Id) -> None:
        """For these modules: ends what `handle` began."""
        self._handlers.pop(event, None)
        if not self._handlers:
            self._is_idle.set()

    def _forget_later(self, event: Id) -> None:
        """Forgets an INVITE that was answered once no other branch of a fork can
        answer."""
        handler = self._handlers.get(event)
        if handler is not None:
            self._answered_invites[event] = handler
            loop = asyncio.get_running_loop()
            loop.call_later(TRANSACTION_S, self._answered_invites.pop, event, None)
        self.forget(event)

    def _hold(self, call: Call, tags: Tuple[str, str]) -> None:
        """Has requests in this dialog go to the call."""
        dialog = (call.call_id, *tags)
        self._dialogs[dialog] = call
        call.dialogs.add(dialog)

    def _forget_call(self, call: Call) -> None:
        """Forgets a call that has ended, with its dialogs."""
        self.calls.discard(call)
        for dialog in call.dialogs:
            self._dialogs.pop(dialog, None)
        call.dialogs.clear()

    def _new_authenticator(self) -> Optional[Authenticator]:
        """What answers the challenges to one request, if there is a user name."""
        return Authenticator(*self._login) if self._login[0] else None

    def message(self, place: int, body: bytes = b"") -> Optional[Message]:
        """The message that caused a notice of this round."""
        return self.endpoint.agent.message_at(place, body)

    def outcome(self, notice: Notice) -> FinalResponse:
        """How the request of this notice has ended."""
        if isinstance(notice, ResponseNotice):
            message = self.message(notice.place, notice.body)
            reason = message.start.reason if message is not None else None
            return FinalResponse(notice.status, reason or "", message)
        if isinstance(notice, TimeoutNotice):
            return FinalResponse(408, "Request Timeout")
        if isinstance(notice, RefusedNotice):
            return FinalResponse(481, str(notice.refusal))
        return FinalResponse(503, "Service Unavailable")

    def end_by(self, notice: Notice) -> Ended:
        """How the call of this notice has ended, which no response tells."""
        reasons = {TimeoutNotice: Reason.TIMEOUT, FailedNotice: Reason.UNREACHABLE}
        return Ended(self.outcome(notice), reason=reasons.get(type(notice), Reason.REFUSED))

    async def exchange(
        self,
        request: Callable[[Headers], Command],
        authenticator: Optional[Authenticator],
        method: str,
        uri: str,
        end: "Optional[asyncio.Future[Ended]]" = None,
    ) -> FinalResponse:
        """For these modules: sends a request, which is made with the headers that authenticate it,
        and answers challenges. Returns the final response, or 481 if its call ends first."""
        statuses: List[int] = []
        while True:
            headers = authenticator.headers(method, uri) if authenticator is not None else []
            command = request(headers)
            response = await self._final_response(command, self.ask(command), end)
            is_again = response.status in statuses
            statuses.append(response.status)
            if len(statuses) > MOST_ANSWERS or not takes_challenge(
                authenticator, response.status, response.message, is_again
            ):
                return response

    async def _final_response(
        self, command: Command, asked: Id, end: "Optional[asyncio.Future[Ended]]"
    ) -> FinalResponse:
        """Waits for the final response to a request, which is given up if its call ends first."""
        response: "asyncio.Future[FinalResponse]" = asyncio.get_running_loop().create_future()

        def told(notice: Notice) -> None:
            if isinstance(notice, ResponseNotice) and notice.status < 200:
                return
            self.forget(asked)
            if not response.done():
                response.set_result(self.outcome(notice))

        self.handle(asked, told)
        self._responses.add(response)
        waits_for: "List[asyncio.Future[Any]]" = [response] if end is None else [response, end]
        try:
            await asyncio.wait(waits_for, return_when=asyncio.FIRST_COMPLETED)
        finally:
            self.forget(asked)
            self._responses.discard(response)
            if not response.done() and not self.endpoint.is_closed:
                self.ask(AbandonRequest(command.call_id, asked))
        if response.done():
            return response.result()
        return NO_CALL

    # -- calls of a process that died

    def _end_left(self, held: Held) -> None:
        """Ends what another process left: those that ring by CANCEL or 480, others by BYE."""
        requests = held.requests.values()
        self._left_requests = set(held.requests)
        self.left.update(held.invites.values())
        self.left.update(it.call_id for it in requests if it.method == "INVITE")
        self.left.update(it.call_id for it in held.dialogs.values())
        self._to_leave.extend(partial(self._refuse_left, it) for it in requests)
        self._to_leave.extend(partial(self._cancel_left, *it) for it in held.invites.items())
        self._to_leave.extend(partial(self._leave, it) for it in held.dialogs.values())
        self._leave_some()

    def _leave_some(self) -> None:
        """Ends some calls now, the others soon: a peer's buffer loses a burst."""
        if self.endpoint.is_closed:
            return
        for _ in range(min(MOST_AT_ONCE, len(self._to_leave))):
            self._to_leave.popleft()()
        if self._to_leave:
            asyncio.get_running_loop().call_later(PAUSE_S, self._leave_some)
        else:
            self._is_idle.set()

    def _refuse_left(self, request: RequestNotice) -> None:
        status, reason = _LEFT.get(request.method, (481, "Call/Transaction Does Not Exist"))
        self.ask(Response(request.call_id, request.id, status, reason))

    def _cancel_left(self, event: Id, call_id: str) -> None:
        """Cancels an INVITE. If it is answered all the same, its dialog is ended."""

        def told(notice: Notice) -> None:
            if not isinstance(notice, ResponseNotice) or notice.status >= 300:
                self.forget(event)
            elif notice.status >= 200:
                self._forget_later(event)
                tag = self.opening_tag(event)
                self._leave(HeldDialog(call_id, tag, notice.remote_tag, None))

        def give_up() -> None:
            if event in self._handlers and not self.endpoint.is_closed:
                self.ask(AbandonRequest(call_id, event))
                self.forget(event)

        self.handle(event, told)
        self.ask(Cancel(call_id, event))
        asyncio.get_running_loop().call_later(TRANSACTION_S, give_up)

    def _leave(self, dialog: HeldDialog) -> None:
        """Sends the BYE of a dialog: after the ACK of its 2xx, our own or the peer's."""
        names = (dialog.call_id, dialog.local_tag, dialog.remote_tag)
        if dialog.waits_for is None:
            # It is refused where none is owed.
            self.ask(Ack(*names))
            asked = self.ask(Request(*names, "BYE"))
        else:
            asked = dialog.waits_for

        def told(notice: Notice) -> None:
            if isinstance(notice, PrackNotice):
                return
            if not isinstance(notice, ResponseNotice) or notice.status >= 200:
                self.forget(asked)
            if isinstance(notice, (AckNotice, NoAckNotice)):
                self._leave(dialog._replace(waits_for=None))

        self.handle(asked, told)

    # -- notices

    def _told(self, output: Union[Notice, Drop]) -> None:
        """Takes a notice of the endpoint."""
        if isinstance(output, RequestNotice) and output.id in self._left_requests:
            return
        if isinstance(output, RequestNotice):
            message = self.message(output.place, output.body)
            if message is not None:
                self._take_request(output, message)
        elif isinstance(output, EndedNotice):
            tags = (output.local_tag, output.remote_tag)
            call = self._dialogs.pop((output.call_id, *tags), None)
            if call is not None:
                call.dialogs.discard((output.call_id, *tags))
                call._dialog_ended(tags)
        elif isinstance(output, Notice):
            # All other notices have the id of a request or of a command.
            event: Id = getattr(output, "id")
            handler = self._handlers.get(event) or self._answered_invites.get(event)
            if handler is not None:
                handler(output)

    def _take_request(self, notice: RequestNotice, message: Message) -> None:
        call = self._dialogs.get((notice.call_id, notice.local_tag, notice.remote_tag))
        if call is not None:
            call._take_request(notice, message)
        elif notice.method == "INVITE":
            self._take_call(notice, message)
        else:
            self._serve(IncomingRequest(self, notice, message))

    def _serve(self, request: IncomingRequest) -> None:
        """Has `on_request` answer a request. What it raises goes on to the endpoint, which gives it
        to the loop's handler of exceptions."""
        if self._on_request is None:
            request.refuse()
            return
        expect_options(request)
        try:
            serving = self._on_request(request)
        except Exception:
            request.respond(*SERVER_ERROR)
            raise
        if inspect.isawaitable(serving):
            self._spawn(serving).add_done_callback(partial(self._served, request))

    def _spawn(self, work: Awaitable[object]) -> "asyncio.Future[object]":
        """Runs a coroutine. A task is kept until it is done."""
        task = asyncio.ensure_future(work)
        self._serving.add(task)
        task.add_done_callback(self._serving.discard)
        return task

    def _served(self, request: IncomingRequest, task: "asyncio.Future[object]") -> None:
        """The coroutine of `on_request` has ended."""
        error = None if task.cancelled() else task.exception()
        if error is None and request.method == "OPTIONS":
            request.refuse()
        request.respond(*SERVER_ERROR)
        if error is not None:
            context = {"message": "on_request failed", "exception": error, "future": task}
            asyncio.get_running_loop().call_exception_handler(context)

    def _take_call(self, notice: RequestNotice, invite: Message) -> None:
        """A call of a peer."""
        call = IncomingCall(self, notice, invite)
        if self._is_closing:
            refuse_call(call)
        elif len(self.calls) >= self._most_calls:
            headers = [("Retry-After", str(RETRY_AFTER_S))]
            call.reject(503, "Service Unavailable", headers=headers)
        elif call._min_se(invite):
            call.reject(*INTERVAL_TOO_SMALL, headers=call._min_se(invite))
        else:
            self.calls.add(call)
            self._incoming.put(call)


async def open_user_agent(
    library: str,
    address: Address,
    uri: Optional[str] = None,
    proxy: Optional[Address] = None,
    username: str = "",
    password: str = "",
    on_request: Optional[OnRequest] = None,
    most_calls: int = MOST_CALLS,
    most_transactions: int = MOST_TRANSACTIONS,
    local: Optional[Address] = None,
    journal: Optional[str] = None,
    allow: Sequence[str] = ALLOW,
    supports: Sequence[str] = (),
    user_agent: str = "",
    session_timer: Optional[Timer] = None,
) -> UserAgent:
    """Opens a user agent whose socket has this address; port 0 takes a free one. `local` and
    `most_transactions` are as for `open_endpoint`. Without a URI, its own is that of its address.

    `allow` are the methods that you serve, such as `(*ALLOW, "INFO")`, and `supports` the option
    tags of your extensions: INVITEs, their 2xx and the 200 of an OPTIONS say them (a request that
    requires one, but 100rel, still gets 420). `user_agent` is the value of User-Agent and Server.
    The session timer is that of all calls (sip_ua_timers.py). Raises BadValueError for what can't
    be such values.

    With the path of a journal (sip_ua_journal.py), calls that a process left when it died are ended
    as soon as this one is open, by BYE, CANCEL or 480: `left` has their Call-IDs. If the journal
    can't be written, nothing more is sent: the endpoint closes (`endpoint.wait_closed` tells it),
    `incoming` and all calls end, the loop's handler of exceptions gets the OSError, and the next
    process ends the calls. Raises OSError if the address or the journal is taken, JournalError if
    the journal is none, or of another address."""
    profile = Profile(allow, supports, user_agent)
    if session_timer is not None and TAG not in supports:
        profile = replace(profile, supports=(*supports, TAG))
    agent = UserAgent(proxy, username, password, on_request, most_calls, session_timer)
    kept = FileJournal(journal) if journal is not None else None
    try:
        held = Held() if kept is None else held_by(library, kept.read())
        agent.endpoint = await open_endpoint(
            library, address, agent._told, local, None, most_transactions, kept
        )
    except BaseException:
        if kept is not None:
            kept.close()
        raise
    agent.endpoint.on_closed = agent._abandon
    agent.profile = replace(profile, local=agent.endpoint.local)
    if kept is not None:
        agent.endpoint.close_also(kept)
        agent._end_left(held)
    ip, port = agent.endpoint.local
    agent.uri = uri or f"sip:{ip}:{port}"
    return agent
