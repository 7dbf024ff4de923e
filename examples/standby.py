"""Answers calls on two machines, of which one acts at a time: the other holds the same calls, and
takes over when the first one dies or stands still.

    PYTHONPATH=bindings python3 examples/standby.py LIBRARY OWN LOCAL REDIS STREAM

Needs python3-redis. Start it by the same words on both machines, but for OWN, the address IP:PORT
at which this one receives. LOCAL is the address that Via and Contact say on both; a proxy sends
what is for LOCAL to both (interop/standby.cfg). REDIS is the address of a Redis server, in which
each round stands in STREAM before it has an effect. At SIGTERM the one that acts ends its calls.

The order of the stream decides who acts. An entry says how many stand before it, and Redis takes it
only where that is so: of two that believe they act, one is refused. It then reads on as the
standby. A lease says only when the standby may try. Without Redis nothing has an effect: both wait
for it."""

import asyncio
import os
import secrets
import signal
import sys
import time
from importlib import import_module
from typing import Any, Callable, Dict, List, NamedTuple, Optional, Tuple, Union

from sip_ua import (
    AckNotice,
    Address,
    Agent,
    Command,
    Drop,
    EndedNotice,
    Id,
    Notice,
    Output,
    Request,
    RequestNotice,
    Response,
)
from sip_ua_journal import Resumed, agent_of, head_of, run_again
from sip_ua_udp import Endpoint, open_resumed

# Its types are as they are installed, or there are none.
redis: Any = import_module("redis")

LEASE_MS = 1000
RENEWED_S = 0.25
# How long one asks Redis, and how long it waits before it asks again.
PATIENCE_S = 2
PAUSE_S = 0.1
# Adds an entry behind so many, if there are no more. One that this process added before, without
# being told so, isn't added again.
APPEND = """
local last = redis.call('XREVRANGE', KEYS[1], '+', '-', 'COUNT', 1)[1]
local count = last and tonumber(string.match(last[1], '^%d+')) or 0
local before = tonumber(ARGV[1])
if count == before then
    redis.call('XADD', KEYS[1], (before + 1) .. '-0', 'text', ARGV[2], 'by', ARGV[3])
    return 1
end
return (count == before + 1 and last[2][2] == ARGV[2] and last[2][4] == ARGV[3]) and 1 or 0
"""
SDP = (
    b"v=0\r\no=- 1 1 IN IP4 127.0.0.1\r\ns=-\r\nc=IN IP4 127.0.0.1\r\nt=0 0\r\n"
    b"m=audio 41000 RTP/AVP 0\r\n"
)
Tags = Tuple[str, str, str]


class Calls:
    """The calls that are up, as the notices tell. The standby reads the same notices, so it has the
    same calls; what it would ask for, the one that acts has asked for."""

    def __init__(self) -> None:
        self.invites: Dict[Id, Tags] = {}
        self.up: Dict[Tags, Id] = {}
        self.ask: Callable[[Command], object] = lambda command: None

    def told(self, output: Union[Notice, Drop, Output]) -> None:
        if isinstance(output, RequestNotice):
            is_invite = output.method == "INVITE"
            if is_invite:
                tags = (output.call_id, output.local_tag, output.remote_tag)
                self.invites[output.id] = tags
            body = SDP if is_invite else b""
            self.ask(Response(output.call_id, output.id, 200, "OK", body))
        elif isinstance(output, AckNotice) and output.id in self.invites:
            self.up[self.invites.pop(output.id)] = output.id
        elif isinstance(output, EndedNotice):
            self.up.pop((output.call_id, output.local_tag, output.remote_tag), None)

    def hang_up(self) -> None:
        for call_id, local_tag, remote_tag in list(self.up):
            self.ask(Request(call_id, local_tag, remote_tag, "BYE"))


class Signal:
    """Whether the process is to end. `wake` is called then."""

    def __init__(self) -> None:
        self.came = False
        self.wake: Callable[[], object] = lambda: None
        signal.signal(signal.SIGTERM, self._come)

    def _come(self, number: int, frame: object) -> None:
        self.came = True
        self.wake()


class Refused(OSError):
    """An entry wasn't taken: another one stands at its place."""


class Ended(OSError):
    """The process is to end."""


class Stream:
    """The rounds of an agent in a stream of Redis, each under its number."""

    def __init__(self, address: Address, name: str, end: Signal):
        self._server = redis.Redis(*address, socket_timeout=PATIENCE_S)
        self._script = self._server.register_script(APPEND)
        self._name, self._lease, self._end = name, name + ":lease", end
        self._own = secrets.token_hex(8)
        self._count = 0
        self._is_missed = False

    def asked(self, question: Callable[[], Any]) -> Any:
        """What Redis answers; as long as it doesn't, nothing goes on. Ended where that is asked."""
        while not self._end.came:
            try:
                answer = question()
                if self._is_missed:
                    print("Redis is back", flush=True)
                self._is_missed = False
                return answer
            except (redis.ConnectionError, redis.TimeoutError, redis.BusyLoadingError) as error:
                if not self._is_missed:
                    print(f"no Redis, so nothing has an effect: {error}", flush=True)
                self._is_missed = True
                time.sleep(PAUSE_S)
        raise Ended("the process is to end")

    def rewind(self) -> None:
        """The next entry that is read is the first one."""
        self._count = 0

    def takes_lease(self) -> bool:
        how = {"nx": True, "px": LEASE_MS}
        return bool(self.asked(lambda: self._server.set(self._lease, self._own, **how)))

    def has_lease(self) -> bool:
        return bool(self.asked(lambda: self._server.get(self._lease)) == self._own.encode())

    def renew_lease(self) -> None:
        """Keeps the lease, or takes it if nobody has it."""
        if self.has_lease():
            self.asked(lambda: self._server.pexpire(self._lease, LEASE_MS))
        else:
            self.takes_lease()

    def leave_lease(self) -> None:
        """Leaves the lease to the one that acts, which looks for it soon."""
        if self.has_lease():
            self.asked(lambda: self._server.delete(self._lease))
        time.sleep(2 * RENEWED_S)

    def new_entries(self, patience_ms: Optional[int] = None) -> List[bytes]:
        """The texts behind those that were read; waits for one at most so long."""
        last = {self._name: f"{self._count}-0"}
        found = self.asked(lambda: self._server.xread(last, block=patience_ms))
        entries = found[0][1] if found else []
        self._count += len(entries)
        return [fields[b"text"] for _, fields in entries]

    def append(self, text: bytes) -> None:
        """Adds a text behind all that was read, or raises Refused if there is more."""
        given = [self._count, text, self._own]
        if not self.asked(lambda: self._script(keys=[self._name], args=given)):
            raise Refused("another one acts")
        self._count += 1

    def read(self) -> bytes:
        raise NotImplementedError

    def cut(self, length: int) -> None:
        raise NotImplementedError


class Following:
    """An agent that has the rounds of the stream so far."""

    def __init__(self, library: str, local: Address):
        self._library, self._local = library, local
        self.calls = Calls()
        self.agent: Optional[Agent] = None
        self._moment: Optional[int] = None
        # Those of the last round: who takes over tells them again.
        self._outputs: List[Output] = []

    def run(self, texts: List[bytes]) -> None:
        for text in texts:
            if self.agent is None:
                self.agent = agent_of(self._library, self._local, text)
                continue
            for output in self._outputs:
                self.calls.told(output)
            self._moment, self._outputs, _ = run_again(self.agent, text)

    def take_over(self, stream: Stream) -> Resumed:
        """Adds a round of its own: from then on the other one is refused."""
        if self.agent is None:
            head = head_of(self._local, os.urandom(32))
            stream.append(head)
            self.agent = agent_of(self._library, self._local, head)
            return Resumed(self.agent, None, [])
        moment = max(int(time.time() * 1000), self._moment or 0)
        lines = b"round %d\n" % moment
        stream.append(lines)
        _, outputs, _ = run_again(self.agent, lines)
        return Resumed(self.agent, moment, self._outputs + outputs)


class Life(NamedTuple):
    """An agent that acts, and its calls."""

    begun: Resumed
    calls: Calls


def follow(library: str, local: Address, stream: Stream) -> Life:
    """Runs the rounds of the other one until this one acts."""
    stream.rewind()
    following = Following(library, local)
    while True:
        following.run(stream.new_entries(100))
        if not stream.takes_lease():
            continue
        # What was written before is all there is, unless the other one acts still.
        following.run(stream.new_entries())
        try:
            return Life(following.take_over(stream), following.calls)
        except Refused:
            stream.leave_lease()


async def act(own: Address, local: Address, life: Life, stream: Stream, end: Signal) -> None:
    """Acts until a round is refused, or the process is to end."""
    loop = asyncio.get_running_loop()
    loop.set_exception_handler(_pass_over_refused)
    begun, calls = life
    endpoint: Endpoint = await open_resumed(own, local, calls.told, begun, stream)
    calls.ask = endpoint.ask
    print("acts", flush=True)
    is_over = asyncio.Event()
    endpoint.on_closed = is_over.set
    end.wake = lambda: loop.call_soon_threadsafe(is_over.set)
    while not end.came and not endpoint.is_closed:
        stream.renew_lease()
        await _waited(is_over)
    end.wake = lambda: None
    if not endpoint.is_closed:
        print(f"ends {len(calls.up)} calls", flush=True)
        calls.hang_up()
        await _emptied(calls, endpoint)
        endpoint.close()
    await endpoint.wait_closed()


async def _waited(event: asyncio.Event) -> None:
    try:
        await asyncio.wait_for(event.wait(), RENEWED_S)
    except asyncio.TimeoutError:
        pass


async def _emptied(calls: Calls, endpoint: Endpoint) -> None:
    """Waits a while until no call is up."""
    for _ in range(16):
        await asyncio.sleep(RENEWED_S)
        if not calls.up or endpoint.is_closed:
            break


def _pass_over_refused(loop: asyncio.AbstractEventLoop, context: Dict[str, Any]) -> None:
    if not isinstance(context.get("exception"), (Refused, Ended)):
        loop.default_exception_handler(context)


def address_of(word: str) -> Address:
    ip, _, port = word.partition(":")
    return ip, int(port)


def main(library: str, own: str, local: str, server: str, name: str) -> None:
    end = Signal()
    stream = Stream(address_of(server), name, end)
    while not end.came:
        print("stands by", flush=True)
        try:
            life = follow(library, address_of(local), stream)
            asyncio.run(act(address_of(own), address_of(local), life, stream, end))
        except Ended:
            pass


if __name__ == "__main__":
    if len(sys.argv) != 6:
        sys.exit(__doc__)
    main(*sys.argv[1:])
