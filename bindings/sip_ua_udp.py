"""An agent of sip_ua.py on a UDP socket of asyncio. It runs a round when something came or is due.

    endpoint = await open_endpoint("./libsip_ua.so", ("192.0.2.1", 5060), on_told)
    endpoint.ask(Plain("c1", ("192.0.2.9", 5060), "OPTIONS", "sip:b@192.0.2.9", ..))

`on_told(output)` is called with each Notice and each Drop, after all sends of its round. There,
`endpoint.agent.message_at(output.place)` reads the datagram that caused the output. `on_told` may
give commands, and close the endpoint. Use everything from the thread of the event loop.

sip_ua_calls.py has calls as objects over this.
"""

import asyncio
import os
import re
import socket
import struct
import sys
import time
from functools import partial
from typing import (
    Callable,
    Dict,
    Iterable,
    Iterator,
    List,
    NamedTuple,
    Optional,
    Tuple,
    Union,
    cast,
)

from sip_ua import (
    LARGEST_DATAGRAM,
    Agent,
    Command,
    Drop,
    Error,
    Id,
    Notice,
    Output,
    Send,
    Status,
)
from sip_ua_journal import FileJournal, Journal, Resumed, resumed

__all__ = ["Endpoint", "MOST_TRANSACTIONS", "open_endpoint", "open_resumed"]

# How many transactions are held at one time: those of some 3,000 requests a second.
MOST_TRANSACTIONS = 100000
# How many bytes a request may have that begins a transaction.
LARGEST_REQUEST = 16384
# A CANCEL, or a request with a tag in To.
_OF_CALL = re.compile(
    rb"\A\s*CANCEL |^(?:to|t)[ \t]*:[^\r\n]*;[ \t]*tag[ \t]*=", re.IGNORECASE | re.MULTILINE
)

# How long after a request was sent the network may refuse it.
LATELY_S = 4.0
# How often a datagram is sent whose send fails by the refusal of an earlier one.
MOST_TRIES = 5
# The method and the branch of a request that an agent wrote.
_REQUEST = re.compile(rb"([^ /\r\n]+) [^\r\n]* SIP/2\.0\r\nVia: [^\r\n]*;branch=([^;\r\n]+)\r\n")
# Linux, ip(7): the socket option that keeps refusals, and the begin of struct sock_extended_err: an
# error number, who told it, and the type and the code of the ICMP message.
_IP_RECVERR = 11
_REFUSAL = struct.Struct("=IBBB")
_TOLD_BY_ICMP = 2
_UNREACHABLE = 3
# No way to the network, the host, the protocol or the port (RFC 3261, section 18.4).
_REFUSING_CODES = range(4)
_MOST_QUOTED = 2048
_MOST_TOLD = 512

Address = Tuple[str, int]
OnTold = Callable[[Union[Notice, Drop]], None]


class _Name(NamedTuple):
    """What names a request."""

    branch: str
    method: str


class SentLately:
    """The requests that were sent in the last LATELY_S, by their addresses. If the network refuses
    one, it refuses all to that address. Who forges a refusal would have to know a branch."""

    def __init__(self) -> None:
        # What was sent last stands last, and has its moment in s.
        self._sent: Dict[Address, Dict[_Name, float]] = {}

    def add(self, datagram: bytes, to: Address, moment: float) -> None:
        """Takes a datagram that is sent. An ACK with the branch of an INVITE says that this has its
        final response."""
        name = _name_of(datagram)
        if name is None:
            return
        names = self._sent.pop(to, {})
        names.pop(name, None)
        if name.method == "ACK":
            names.pop(_Name(name.branch, "INVITE"), None)
        else:
            names[name] = moment
        while names and next(iter(names.values())) < moment - LATELY_S:
            del names[next(iter(names))]
        if names:
            self._sent[to] = names
        self._forget(moment - LATELY_S)

    def _forget(self, moment: float) -> None:
        """Forgets the addresses to which nothing was sent since a moment."""
        while self._sent and next(reversed(next(iter(self._sent.values())).values())) < moment:
            del self._sent[next(iter(self._sent))]

    def refused(self, quote: bytes, to: Address, moment: float) -> List[_Name]:
        """The requests to an address, if one of them begins as it is quoted. They are forgotten."""
        sent = self._sent.get(to, {})
        names = [name for name, sent_at in sent.items() if sent_at >= moment - LATELY_S]
        if _name_of(quote) not in names:
            return []
        del self._sent[to]
        return names


def _name_of(datagram: bytes) -> Optional[_Name]:
    """The branch and the method of a request, also of its beginning alone."""
    found = _REQUEST.match(datagram)
    return None if found is None else _Name(found[2].decode("latin-1"), found[1].decode("latin-1"))


def _refusals(udp: socket.socket) -> Iterator[Tuple[bytes, Address]]:
    """Takes from a socket what ICMP refused: what it quotes of each datagram, and where that went.
    Only Linux tells it."""
    while sys.platform == "linux":
        try:
            quote, told, _, to = udp.recvmsg(_MOST_QUOTED, _MOST_TOLD, socket.MSG_ERRQUEUE)
        except OSError:
            return
        if any(_is_refusal(*one) for one in told):
            yield quote, to


def _is_refusal(level: int, kind: int, data: bytes) -> bool:
    """Whether a message about a socket tells that a datagram was refused."""
    if (level, kind) != (socket.IPPROTO_IP, _IP_RECVERR) or len(data) < _REFUSAL.size:
        return False
    _, told_by, icmp_type, code = _REFUSAL.unpack_from(data)
    is_unreachable = (told_by, icmp_type) == (_TOLD_BY_ICMP, _UNREACHABLE)
    return is_unreachable and code in _REFUSING_CODES


class Endpoint(asyncio.DatagramProtocol):
    """An agent with its socket. `open_endpoint` opens one, and `close` closes it. `agent` is the
    Agent. `local` is what Via and Contact say. A request that would begin a transaction may have
    `largest` bytes: 16,384, unless you set it. On Linux a request that the network refuses (ICMP:
    unreachable) fails, as one that the socket refuses. `lost` counts the datagrams that were
    larger, or had no room in a round or above `most_transactions`, and `reflected` the responses
    that weren't sent since their request came again from another address (`Agent.is_reflected`).
    `is_closed` says whether it was closed: by `close`, or since its journal couldn't be written.
    Then `ask` raises Error NO_AGENT. `on_closed`, if it is set, is called then."""

    def __init__(
        self,
        agent: Agent,
        local: Address,
        on_told: OnTold,
        most_transactions: int,
        journal: Optional[Journal] = None,
        moment: int = 0,
        udp: Optional[socket.socket] = None,
    ):
        self.agent = agent
        self.local = local
        self.lost = 0
        self.reflected = 0
        self.largest = LARGEST_REQUEST
        self._most_transactions = most_transactions
        self._on_told = on_told
        self._loop = asyncio.get_running_loop()
        self._journal = journal
        # The moment of a round is the ms since `_start`.
        self._start = self._loop.time() - moment / 1000
        self._next: Optional[asyncio.Handle] = None
        self._transport: Optional[asyncio.DatagramTransport] = None
        self._has_failed = False
        # The socket that tells what was refused.
        self._udp = udp
        self._sent_lately = SentLately()
        self.is_closed = False
        # Called once it is closed.
        self.on_closed: Optional[Callable[[], None]] = None
        self._is_gone: "asyncio.Future[None]" = self._loop.create_future()
        self._opened: Optional[FileJournal] = None

    def ask(self, command: Command) -> Id:
        """Gives a command. Notices about it have the id that this returns. A bad field raises an
        Error, a port above 65,535 or a bad IP a ValueError, a header that isn't a str a TypeError.
        Each is a SipUaError."""
        event = self.agent.ask(command)
        self._run_soon()
        return event

    def close(self) -> None:
        """Frees the agent, and closes the socket and the journal that `open_endpoint` opened. A
        second close does nothing. The socket closes in the next turn of the event loop: before you
        open the same address again, await `wait_closed`."""
        if self.is_closed:
            return
        self.is_closed = True
        if self._next is not None:
            self._next.cancel()
        self.agent.close()
        if self._opened is not None:
            self._opened.close()
        if self._transport is not None:
            self._transport.close()
        if self.on_closed is not None:
            self.on_closed()

    async def wait_closed(self) -> None:
        """Waits until the socket is closed: then its address is free."""
        await asyncio.shield(self._is_gone)

    def close_also(self, journal: FileJournal) -> None:
        """Has `close` close this journal too."""
        self._opened = journal

    def connection_made(self, transport: asyncio.BaseTransport) -> None:
        """The socket is open: called by asyncio."""
        self._transport = cast(asyncio.DatagramTransport, transport)

    def connection_lost(self, exc: Optional[Exception]) -> None:
        """The socket is closed: called by asyncio."""
        if not self._is_gone.done():
            self._is_gone.set_result(None)

    def datagram_received(self, data: bytes, addr: Address) -> None:
        """A datagram came: called by asyncio."""
        if self.is_closed:
            return
        if self._is_shed(data):
            self.lost += 1
            return
        try:
            self.agent.datagram(addr, data)
        except Error as error:
            if error.status != Status.TOO_MANY_EVENTS:
                raise
            self.lost += 1
        self._run_soon()

    def _is_shed(self, data: bytes) -> bool:
        """Whether a datagram would begin a transaction, and is too large, or too many are held."""
        is_usual = len(data) <= self.largest and self._has_room(data)
        return not is_usual and self.agent.would_begin(data)

    def _has_room(self, data: bytes) -> bool:
        """Whether another transaction may be held: at the limit one of a call that stands, and at
        twice that none."""
        load = self.agent.stats().transactions
        if load < self._most_transactions:
            return True
        return load < 2 * self._most_transactions and _OF_CALL.search(data) is not None

    def error_received(self, exc: Exception) -> None:
        """A send failed: called within sendto, or later if the network refused it."""
        self._has_failed = True
        if self._udp is None or self.is_closed:
            return
        for quote, to in _refusals(self._udp):
            self._refuse(quote, to)

    def _refuse(self, quote: bytes, to: Address) -> None:
        """Reports that the network refused a datagram."""
        for branch, method in self._sent_lately.refused(quote, to, self._loop.time()):
            self._fail(partial(self.agent.event_line, f"failed client {branch} {method}"))

    def _run_soon(self) -> None:
        if self._next is not None:
            self._next.cancel()
        self._next = self._loop.call_soon(self._run)

    def _run(self) -> None:
        self._next = None
        outputs = self.agent.run(int((self._loop.time() - self._start) * 1000))
        if self._journal is not None:
            try:
                self._journal.append(self.agent.round_text())
            except OSError:
                self.close()
                raise
        for output in outputs:
            if isinstance(output, Send):
                self._take(output)
        self.tell(outputs)

    def _take(self, output: Send) -> None:
        """Sends a datagram, unless it would answer a repeat from another address."""
        if self.agent.is_reflected(output):
            self.reflected += 1
        elif not self._sends(output.datagram, output.to):
            self._fail(partial(self.agent.failed, output.index))

    def tell(self, outputs: Iterable[Output]) -> None:
        """Tells the notices and drops of a round, and waits for the next one."""
        for output in outputs:
            if isinstance(output, (Notice, Drop)) and not self.is_closed:
                self._tell(output)
        if self._next is None and not self.is_closed:
            self._wait()

    def _tell(self, output: Union[Notice, Drop]) -> None:
        """Tells an output. A fault of `on_told` goes to the loop's handler of exceptions, so that
        the other outputs are told too."""
        try:
            self._on_told(output)
        except Exception as error:
            message = "a notice wasn't handled"
            self._loop.call_exception_handler({"message": message, "exception": error})

    def _sends(self, data: bytes, to: Address) -> bool:
        """Sends a datagram. One that waits in the transport can't be told as failed later, so one
        that UDP can't carry is refused here."""
        if len(data) > LARGEST_DATAGRAM or self._transport is None:
            return False
        self._sent_lately.add(data, to, self._loop.time())
        for _ in range(MOST_TRIES):
            self._has_failed = False
            self._transport.sendto(data, to)
            if not self._has_failed:
                return True
        return False

    def _fail(self, tell: Callable[[], None]) -> None:
        """Reports a send that failed. Where the next round has no room for that, its transaction
        ends by its timers."""
        try:
            tell()
        except Error as error:
            if error.status != Status.TOO_MANY_EVENTS:
                raise
        self._run_soon()

    def _wait(self) -> None:
        """Waits until something is due, and one ms more, so that its moment has come."""
        due = self.agent.next_due()
        if due is not None:
            self._next = self._loop.call_at(self._start + (due + 1) / 1000, self._run)


async def open_endpoint(
    library: str,
    address: Address,
    on_told: OnTold,
    local: Optional[Address] = None,
    seed: Optional[bytes] = None,
    most_transactions: int = MOST_TRANSACTIONS,
    journal: Union[None, str, Journal] = None,
) -> Endpoint:
    """Opens an endpoint whose socket has this address; port 0 takes a free one. `local` is what Via
    and Contact say, if that isn't the socket's address: behind a NAT the one at which peers reach
    it. Without a seed it takes a random one. While `most_transactions` are held, new requests
    are ignored, except in calls; while twice as many are, these too.

    With a journal, or the path of one, it goes on where another process ended (sip_ua_journal.py):
    the notices of the last round are then told again, after this has returned. The agent doesn't
    list its calls: `sip_ua_journal.held_by` does. `close` closes a journal given by its path."""
    if isinstance(journal, str):
        opened = FileJournal(journal)
        try:
            endpoint = await open_endpoint(
                library, address, on_told, local, seed, most_transactions, opened
            )
        except BaseException:
            opened.close()
            raise
        endpoint.close_also(opened)
        return endpoint
    udp = _bound(address)
    try:
        own = local or udp.getsockname()
        if journal is None:
            begun = Resumed(Agent(library, own, os.urandom(32) if seed is None else seed), None, [])
        else:
            begun = resumed(library, own, seed, journal)
    except BaseException:
        udp.close()
        raise
    return await _open(udp, own, on_told, begun, most_transactions, journal)


async def open_resumed(
    address: Address,
    local: Address,
    on_told: OnTold,
    begun: Resumed,
    journal: Journal,
    most_transactions: int = MOST_TRANSACTIONS,
) -> Endpoint:
    """Opens an endpoint for an agent that has had the rounds of a journal, as a standby has."""
    return await _open(_bound(address), local, on_told, begun, most_transactions, journal)


def _bound(address: Address) -> socket.socket:
    udp = socket.socket(socket.AF_INET, socket.SOCK_DGRAM)
    try:
        udp.setblocking(False)
        if sys.platform == "linux":
            udp.setsockopt(socket.IPPROTO_IP, _IP_RECVERR, 1)
        udp.bind(address)
    except BaseException:
        udp.close()
        raise
    return udp


async def _open(
    udp: socket.socket,
    local: Address,
    on_told: OnTold,
    begun: Resumed,
    most_transactions: int,
    journal: Optional[Journal],
) -> Endpoint:
    # With a journal, time goes on while no process runs, and never back.
    moment = 0 if journal is None else max(int(time.time() * 1000), begun.moment or 0)
    loop = asyncio.get_running_loop()
    _, endpoint = await loop.create_datagram_endpoint(
        lambda: Endpoint(begun.agent, local, on_told, most_transactions, journal, moment, udp),
        sock=udp,
    )
    if begun.moment is not None:
        loop.call_soon(endpoint.tell, begun.outputs)
    return endpoint
