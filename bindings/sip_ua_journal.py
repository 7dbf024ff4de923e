"""Journals: the rounds of an agent, from which another process goes on when this one has died.

    endpoint = await open_endpoint(.., journal=FileJournal("calls.journal"))

Each round stands in the journal before one of its datagrams is sent or one of its notices told. A
process that opens an endpoint with the journal of one that died holds what that one held. The
notices of the last round are told again, since they may not have been acted upon; what that round
sent may be lost, and retransmissions mend it. A journal is a session file, as `ua --journal` writes
it (docs/FORMATS.md). It has the agent's seed: keep it secret. It only grows, by some 3 KB a call:
while no process has it, `ua compact` makes it shorter, also between a `close` and the next opening.
One of a process that was killed may be torn. `open_endpoint` and `open_user_agent` cut it; `ua
compact` refuses it: so open it, close, compact, and open the shorter one. To go on from a journal
takes some 0.1 s a MB, and memory for all of it.
"""

import errno
import fcntl
import os
import re
from dataclasses import dataclass, field
from typing import Dict, Iterable, List, NamedTuple, Optional, Protocol, Tuple

from sip_ua import (
    AckNotice,
    Address,
    Agent,
    CancelNotice,
    EndedNotice,
    Error,
    FailedNotice,
    Id,
    NoAckNotice,
    Output,
    RefusedNotice,
    RequestNotice,
    ResponseNotice,
    SipUaError,
    Status,
    TimeoutNotice,
)

__all__ = ["FileJournal", "Held", "HeldDialog", "Journal", "JournalError", "JournalFull"]
__all__ += ["JournalInUse", "Resumed", "agent_of", "head_of", "held_by", "resumed", "run_again"]

_HEAD = re.compile(rb"sip-session 1\nlocal (\S+)\nseed ([0-9a-f]{64})\nfirst (\d+)\n")
_ROUND = re.compile(rb"^round (\d+)\n", re.MULTILINE)
# The end of a text between two lines, or within the line of a round.
_END = re.compile(rb"(?:r|ro|rou|roun|round|round \d*)?\Z")
_ESCAPE = re.compile(rb"\\(?:x(..)|(.))")
_ESCAPES = {b"s": b" ", b"r": b"\r", b"n": b"\n", b"t": b"\t", b"\\": b"\\"}


class JournalError(SipUaError):
    """The journal is none, is of another agent, or has a bad round before its last one."""


class JournalInUse(SipUaError, BlockingIOError):
    """The journal is open already."""


class JournalFull(SipUaError, OSError):
    """A round wasn't written whole."""


class Journal(Protocol):
    """Where the rounds of an agent are kept. `append` keeps a text as a whole, or raises an
    OSError: then nothing of the round goes out, and the endpoint is closed."""

    def read(self) -> bytes:
        """All that was kept."""
        ...

    def append(self, text: bytes) -> None:
        """Keeps a text behind all that was kept."""
        ...

    def cut(self, length: int) -> None:
        """Leaves the first bytes alone, so many."""
        ...


class FileJournal:
    """A journal in a file. It is an OSError if it is open already, in another process or in this
    one, or if the path is a symbolic link: whoever planted it would get the seed. With `is_synced`,
    each round waits for the disk: then a power cut loses nothing, either."""

    def __init__(self, path: str, is_synced: bool = False):
        self._is_synced = is_synced
        self._file = os.open(path, os.O_RDWR | os.O_CREAT | os.O_APPEND | os.O_NOFOLLOW, 0o600)
        try:
            fcntl.flock(self._file, fcntl.LOCK_EX | fcntl.LOCK_NB)
        except OSError as error:
            os.close(self._file)
            raise JournalInUse(error.errno, "the journal is open already", path) from None

    def read(self) -> bytes:
        """All bytes of the file."""
        parts: List[bytes] = []
        while True:
            part = os.pread(self._file, 1 << 20, sum(map(len, parts)))
            if not part:
                return b"".join(parts)
            parts.append(part)

    def append(self, text: bytes) -> None:
        """Writes a text behind them by one write, or raises an OSError."""
        if os.write(self._file, text) < len(text):
            raise JournalFull(errno.ENOSPC, "a round wasn't written whole")
        if self._is_synced:
            os.fsync(self._file)

    def cut(self, length: int) -> None:
        """Leaves the first bytes of the file, so many."""
        os.ftruncate(self._file, length)

    def close(self) -> None:
        """Closes the file. Then it can be opened again."""
        os.close(self._file)


class Resumed(NamedTuple):
    """An agent that goes on. `outputs` are those of its last round, at `moment`; None if it has had
    no round."""

    agent: Agent
    moment: Optional[int]
    outputs: List[Output]


def resumed(
    library: str, local: Address, seed: Optional[bytes], journal: Journal
) -> Resumed:
    """The agent of a journal; a new one, if the journal is empty."""
    text = journal.read()
    if not text:
        own = os.urandom(32) if seed is None else seed
        agent = Agent(library, local, own)
        journal.append(head_of(local, own))
        return Resumed(agent, None, [])
    agent = agent_of(library, local, text)
    found = _HEAD.match(text)
    assert found is not None
    try:
        return _last_round(agent, journal, text, found.end())
    except BaseException:
        agent.close()
        raise


def _address(address: Address) -> bytes:
    return b"%s:%d" % (address[0].encode(), address[1])


def head_of(local: Address, seed: bytes) -> bytes:
    """The lines before the rounds of a journal."""
    seed_line = b"seed " + seed.hex().encode()
    return b"\n".join([b"sip-session 1", b"local " + _address(local), seed_line, b"first 0", b""])


def agent_of(library: str, local: Address, head: bytes) -> Agent:
    """A new agent with the configuration of a head."""
    found = _HEAD.match(head)
    if found is None:
        raise JournalError("not a journal")
    if found[1] != _address(local):
        raise JournalError(f"the journal is of {found[1].decode()}")
    return Agent(library, local, bytes.fromhex(found[2].decode()), int(found[3]))


def _last_round(agent: Agent, journal: Journal, text: bytes, begin: int) -> Resumed:
    """Runs all rounds but the last without outputs, and the last one for its outputs. One that was
    torn is cut off: so the notices of the one before it are told again, and what they asked for is
    asked for again."""
    *begins, end = _bounds(text, begin)
    if not begins:
        if text[begin:end].strip():
            raise JournalError("not a journal")
        journal.cut(begin)
        return Resumed(agent, None, [])
    before = text[begin : begins[-1]]
    try:
        taken = agent.resume(before)
    except Error as error:
        raise JournalError(f"bad round: {error}") from None
    if taken < len(before):
        raise JournalError("bad round")
    moment, outputs, whole = run_again(agent, text[begins[-1] : end])
    journal.cut(begins[-1] + whole)
    return Resumed(agent, moment, outputs)


def run_again(
    agent: Agent, lines: bytes, commands: Optional[List[Tuple[Id, bytes]]] = None
) -> Tuple[int, List[Output], int]:
    """Runs a round with what is whole of its lines. Returns its moment, its outputs, and how many
    bytes were whole. The outputs were taken care of before, or else may not have been. The ids and
    lines of its commands are appended to the list."""
    head = _ROUND.match(lines)
    if head is None:
        raise JournalError("bad round")
    whole = head.end()
    for event in _events(lines[whole:]):
        try:
            agent.event_lines(event.decode("latin-1")[:-1])
        except Error as error:
            if error.status != Status.BAD_LINE:
                raise
            break
        whole += len(event)
        if commands is not None and not event.startswith((b"datagram ", b"failed ")):
            asked = agent.last_id()
            assert asked is not None
            commands.append((asked, event.rstrip(b"\n").rpartition(b"\n")[2]))
    moment = int(head[1])
    return moment, agent.run(moment), whole


def _bounds(text: bytes, begin: int) -> List[int]:
    """Where the rounds of a journal begin, and where the last one ends. One that ends within its
    first line or within an event was torn: it had no effect, and isn't among them."""
    begins = [found.start() for found in _ROUND.finditer(text, begin)]
    end = text.rfind(b"\n") + 1
    last_line = text.rfind(b"\n", 0, end - 1) + 1
    if _END.match(text, end) and not text.startswith(b" ", last_line):
        return [*begins, end]
    if not begins:
        raise JournalError("not a journal")
    return begins


def _events(lines: bytes) -> List[bytes]:
    """The lines of each event with their ends: header lines, which begin with a space, belong to
    the command after them."""
    events: List[bytes] = []
    event = b""
    for line in lines.split(b"\n")[:-1]:
        event += line + b"\n"
        if not line.startswith(b" "):
            events.append(event)
            event = b""
    return events


# ---- what is held


class HeldDialog(NamedTuple):
    """A dialog that is up. `waits_for` is the peer's INVITE whose 2xx has had no ACK yet."""

    call_id: str
    local_tag: str
    remote_tag: str
    waits_for: Optional[Id]


@dataclass
class Held:
    """The calls that the agent of a journal holds: its own INVITEs without a final response, with
    their Call-IDs; the peers' requests that weren't answered; and the dialogs that are up, by
    Call-ID and tags in lower case."""

    invites: Dict[Id, str] = field(default_factory=dict)
    requests: Dict[Id, RequestNotice] = field(default_factory=dict)
    dialogs: Dict[Tuple[str, str, str], HeldDialog] = field(default_factory=dict)
    _answered: Dict[Id, str] = field(default_factory=dict)
    # The dialogs that wait for the ACK of these INVITEs.
    _waiting: Dict[Id, Tuple[str, str, str]] = field(default_factory=dict)

    def _take_round(self, commands: Iterable[Tuple[Id, bytes]], outputs: List[Output]) -> None:
        """Takes a round: its commands, other than those that were refused, and its outputs, in the
        order of the events that caused them; what timers caused comes first."""
        refused = {it.id for it in outputs if isinstance(it, RefusedNotice)}
        asked = {event.place: (event, line) for event, line in commands if event not in refused}
        told: Dict[int, List[Output]] = {}
        for output in outputs:
            told.setdefault(output.place, []).append(output)
        for place in sorted({*asked, *told}):
            if place in asked:
                event, line = asked[place]
                self._take_command(event, line.split(b" "))
            for output in told.get(place, []):
                self._take(output)

    def _take_command(self, event: Id, words: List[bytes]) -> None:
        if words[0] == b"invite" or words[0] == b"request" and words[4] == b"INVITE":
            self.invites[event] = _unspelled(words[1])
        elif words[0] == b"respond" and int(words[3]) >= 200:
            request = self.requests.pop(_id_of(words[2]), None)
            if request is not None and request.method == "INVITE" and int(words[3]) < 300:
                self._hold(request.call_id, request.local_tag, request.remote_tag, request.id)
        elif words[0] == b"abandon" and len(words) == 3:
            self.invites.pop(_id_of(words[2]), None)
        elif words[0] == b"abandon":
            self._leave(*map(_unspelled, words[1:4]))

    def _take(self, output: Output) -> None:
        if isinstance(output, RequestNotice):
            self.requests[output.id] = output
        elif isinstance(output, ResponseNotice):
            self._take_response(output)
        elif isinstance(output, (TimeoutNotice, FailedNotice)):
            self.invites.pop(output.id, None)
        elif isinstance(output, CancelNotice):
            self.requests.pop(output.id, None)
        elif isinstance(output, (AckNotice, NoAckNotice)):
            name = self._waiting.pop(output.id, None)
            if name in self.dialogs:
                self.dialogs[name] = self.dialogs[name]._replace(waits_for=None)
        elif isinstance(output, EndedNotice):
            self._leave(output.call_id, output.local_tag, output.remote_tag)

    def _take_response(self, notice: ResponseNotice) -> None:
        call_id = self.invites.get(notice.id) or self._answered.get(notice.id)
        if call_id is None or notice.status < 200:
            return
        self.invites.pop(notice.id, None)
        if notice.status < 300:
            # Other branches of a fork may answer too.
            self._answered[notice.id] = call_id
            self._hold(call_id, notice.local_tag, notice.remote_tag, None)

    def _hold(self, call_id: str, local: str, remote: str, waits_for: Optional[Id]) -> None:
        name = (call_id, local.lower(), remote.lower())
        if name in self.dialogs:
            return
        self.dialogs[name] = HeldDialog(call_id, local, remote, waits_for)
        if waits_for is not None:
            self._waiting[waits_for] = name

    def _leave(self, call_id: str, local: str, remote: str) -> None:
        self.dialogs.pop((call_id, local.lower(), remote.lower()), None)


def held_by(library: str, text: bytes) -> Held:
    """What the agent of a journal holds, by running all its rounds: some 0.1 ms an event. What
    isn't whole at its end has no effect, as where it is resumed."""
    held = Held()
    if not _ROUND.search(text):
        return held
    found = _HEAD.match(text)
    if found is None:
        raise JournalError("not a journal")
    local = found[1].decode().rpartition(":")
    agent = agent_of(library, (local[0], int(local[2])), text)
    try:
        bounds = _bounds(text, found.end())
        for begin, end in zip(bounds, bounds[1:]):
            commands: List[Tuple[Id, bytes]] = []
            _, outputs, _ = run_again(agent, text[begin:end], commands)
            held._take_round(commands, outputs)
    finally:
        agent.close()
    return held


def _unspelled(word: bytes) -> str:
    """The text that a word of a line spells."""
    text = b"" if word == b"-" else _ESCAPE.sub(
        lambda it: bytes.fromhex(it[1].decode()) if it[1] else _ESCAPES.get(it[2], it[2]), word
    )
    return text.decode("utf-8", "surrogateescape")


def _id_of(word: bytes) -> Id:
    number, _, place = word.partition(b".")
    return Id(int(number), int(place))
