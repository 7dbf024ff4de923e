"""Writes the cases of the topic `rows`: event files, and the outputs that `ua` has to write.

Run as `python3 tests/models/rows.py`. It writes `tests/cases/rows/`, the same files each time, and
prints what they meet of the tables; it ends in status 1 where they miss any of it.
It never reads what `ua` writes: `git diff` shows whether the files are still those of this program.

A transaction is the list of all that came to it. What it says is found by folding its table, one
of `tables.py`, over the whole list, from nothing, each time that something comes. A round gives
each transaction a tick, then the datagrams and the failed sends of the round. Then each call gets a
tick, then what came up from the transactions and the user's commands; and then the transactions get
what the calls answer and start. Of calls there is only what these scripts meet: no reliable
provisional response, no request in a dialog but the ACK.

All rows of the tables are met, all pairs of a state and what may come in it, also those that have
no row, and all timers: a millisecond before they are due, at that moment, and late. What no event
file can reach has no row:
- a client that is started while it is held: the agent makes a new branch for each request, so a
  branch that it made is that of one client transaction, which has one life;
- an answer where no transaction is, or after a final one, but for a 2xx that the call sends again
  until its ACK: such an answer is refused before it comes to the transaction. So is a 100.
"""

import sys
from collections import Counter, namedtuple
from dataclasses import dataclass, field, replace
from pathlib import Path

from tables import LIFETIME, ROWS, T1, T2, Happening, class_of, folded, machine_of, made_name
from tables import trigger_of

LOCAL, PEER, CALLEE = "192.0.2.1:5060", "192.0.2.9:5060", "sip:b@callee.example"


@dataclass(frozen=True)
class Message:
    """What these scripts have of a request or a response; a response has a status."""

    method: str
    number: int
    call_id: str
    branch: str
    sent_by: str
    from_uri: str
    to_uri: str
    from_tag: str
    to_tag: str = ""
    uri: str = ""
    status: int = 0
    reason: str = ""
    received: str = ""
    is_made_here: bool = False
    contact: str = ""

    def text(self):
        """The message as it is written, in the form of the last field of a line."""
        first = f"{self.method} {self.uri} SIP/2.0"
        if self.status:
            first = f"SIP/2.0 {self.status} {self.reason}"
        via = self.sent_by + (";rport" if self.is_made_here else "") + f";branch={self.branch}"
        via += f";received={self.received}" if self.received else ""
        tag = f";tag={self.to_tag}" if self.to_tag else ""
        hops = ["Max-Forwards: 70"] if self.is_made_here and not self.status else []
        lines = [first, f"Via: SIP/2.0/UDP {via}", *hops]
        lines += [f"From: <{self.from_uri}>;tag={self.from_tag}", f"To: <{self.to_uri}>{tag}"]
        lines += [f"Call-ID: {self.call_id}", f"CSeq: {self.number} {self.method}"]
        lines += [f"Contact: <{self.contact}>"] if self.contact else []
        return r"\r\n".join([*lines, "Content-Length: 0", "", ""])

    def key(self):
        """Its transaction (RFC 3261, 17.1.3, 17.2.3); keys are ordered by their parts."""
        if self.status:
            return self.client_key()
        host, _, port = self.sent_by.partition(":")
        method = "INVITE" if self.method == "ACK" else self.method
        return "server", self.branch.lower(), host.lower(), int(port or 5060), method

    def client_key(self):
        return "client", self.branch.lower(), "", 0, self.method

    def response(self, status, reason, tag=""):
        """The agent's response to it (RFC 3261, section 8.2.6)."""
        contact = f"sip:{LOCAL}" if self.method == "INVITE" and 100 < status < 300 else ""
        to_tag = self.to_tag or tag
        return replace(self, status=status, reason=reason, to_tag=to_tag, contact=contact)

    def ack(self, response):
        """The ACK of a response to it (RFC 3261, section 17.1.1.3)."""
        return replace(self, method="ACK", to_tag=response.to_tag, contact="")


def stamped(message, source):
    """A request with its sender's address, and where its responses go (RFC 3261, section 18.2)."""
    ip, (host, _, port) = source.partition(":")[0], message.sent_by.partition(":")
    return replace(message, received="" if host == ip else ip), f"{ip}:{port or 5060}"


def text_of(event_id):
    return f"{event_id[0]}.{event_id[1]}"


@dataclass
class Received:
    """A request that the user is to answer, with the tag of its responses."""

    message: Message
    tag: str
    final_at: int = None
    success: Message = None
    ticks: list = field(default_factory=list)

    def is_repeated(self):
        """Whether its 2xx is sent again at the last tick (RFC 3261, section 13.3.1.4)."""
        due, fired, is_due = self.final_at + T1, 0, False
        for moment in self.ticks:
            is_due = moment >= due
            if is_due:
                fired += 1
                due = moment + min(T1 * 2**fired, T2)
        return is_due


@dataclass
class Sent:
    """A request of the user; an INVITE has the moment of its first 2xx, and its ACKs by To tag."""

    message: Message
    address: str
    success_at: int = None
    acks: dict = field(default_factory=dict)


@dataclass
class Call:
    """What is held under a Call-ID; dialogs by their tags, with their INVITE and `is_early`."""

    name: str
    received: dict = field(default_factory=dict)
    sent: dict = field(default_factory=dict)
    dialogs: dict = field(default_factory=dict)

    def is_held(self):
        return bool(self.received or self.sent or self.dialogs)

    def notice(self, kind, event_id, *others):
        return " ".join(["notice", self.name, kind, text_of(event_id), *map(str, others)])

    def ended(self, invite):
        """Ends the early dialogs of an INVITE (never more than one, in these scripts)."""
        early = [tags for tags, made in self.dialogs.items() if made == (invite, True)]
        assert len(early) < 2
        for tags in early:
            del self.dialogs[tags]
        return [f"notice {self.name} ended {tags[0]} {tags[1]}" for tags in early]


# What was met: rows by their places, pairs of a state and what came, timers with their states, and
# these with how often they had fired where they were set in that state.
Met = namedtuple("Met", "rows pairs timers firings")


class Agent:
    """Transactions and calls, led through rounds."""

    def __init__(self, seed, first, met):
        self.seed, self.number, self.met = seed, first, met
        self.histories, self.calls = {}, {}

    def name(self, event_id, index):
        """A name that the agent makes for an event."""
        return made_name(self.seed, event_id, index)

    def held(self, key):
        return folded(machine_of(key), self.histories.get(key, []))[0]

    def give(self, key, trigger, *others):
        """Adds to what came to a transaction; answers what it says to it."""
        machine, before = machine_of(key), self.held(key)
        self.histories.setdefault(key, []).append(Happening(self.now, trigger, *others))
        _, said, pair, row = folded(machine, self.histories[key])
        self.met.pairs[pair] += 1
        if row:
            self.met.rows[machine, ROWS[machine].index(row)] += 1
        if trigger == "tick" and before:
            for letter, (due, fired, state) in before.timers.items():
                if due == self.now + 1 or pair[2] == letter:
                    when = {-1: "before", 0: "at"}.get(self.now - due, "late")
                    self.met.timers[letter, before.state, when] += 1
                    if state == before.state:
                        self.met.firings[letter, state, fired, when] += 1
        return said

    def round(self, moment, events):
        """The outputs of a round, a line each."""
        self.now, self.commands, lines, items = moment, [], [f"round {moment}"], []
        said = [((self.number, 0), self.give(key, "tick")) for key in sorted(self.histories)]
        for place, event in enumerate(events, 1):
            is_command = event.kind in ("begin", "respond")
            event_id = self.number, place
            said.append((event_id, [event] if is_command else self.arrived(event_id, event)))
        for event_id, outs in said:
            lines += [out for out in outs if isinstance(out, str)]
            items += [(event_id, out) for out in outs if not isinstance(out, str)]
        for name in sorted(self.calls):
            lines += self.tick(self.calls[name])
        for event_id, item in items:
            call = self.calls.setdefault(item.call_id, Call(item.call_id))
            lines += getattr(self, item.kind)(event_id, item, call)
            self.calls = {name: call for name, call in self.calls.items() if call.is_held()}
        for command in self.commands:
            lines += self.give(*command)
        self.number += 1
        return lines

    def arrived(self, event_id, event):
        """What the transactions say to a datagram or a failed send."""
        if event.kind == "failed":
            side, branch, *others = event.key
            return self.give((side, branch.lower(), *others), "failed", event_id)
        message, address = event.message, None
        if not message.status:
            message, address = stamped(message, event.source)
        return self.give(message.key(), trigger_of(message), event_id, message, address)

    def tick(self, call):
        """Sends a 2xx again, and removes what is over (RFC 3261, sections 13.2.2.4, 13.3.1.4)."""
        lines = []
        for event_id, request in sorted(call.received.items()):
            request.ticks.append(self.now)
            is_over = request.final_at is not None and self.now >= request.final_at + LIFETIME
            if request.success and is_over:
                lines.append(call.notice("noack", event_id))
            elif request.success and request.is_repeated():
                self.commands.append(
                    (request.message.key(), "answer 2xx", event_id, request.success))
            if is_over:
                del call.received[event_id]
        for event_id, invite in sorted(call.sent.items()):
            if invite.success_at is not None and self.now >= invite.success_at + LIFETIME:
                del call.sent[event_id]
                lines += call.ended(event_id)
        return lines

    def answer(self, event_id, message, tag, status, reason):
        response = message.response(status, reason, tag)
        self.commands.append((message.key(), f"answer {class_of(status)}", event_id, response))
        return response

    def request(self, event_id, told, call):
        """A request: 481 in no dialog, 482 if merged (RFC 3261, sections 12.2.2, 8.2.2.2)."""
        message, tag = told.message, told.message.to_tag or self.name(told.id, 0)
        held = [received.message for received in call.received.values()]
        if message.to_tag:
            assert (message.to_tag, message.from_tag) not in call.dialogs
            self.answer(told.id, message, tag, 481, "Call/Transaction Does Not Exist")
        elif any((one.from_tag, one.number, one.method)
                 == (message.from_tag, message.number, message.method) for one in held):
            self.answer(told.id, message, tag, 482, "Loop Detected")
        else:
            call.received[told.id] = Received(message, tag)
            return [call.notice("request", told.id, message.method, tag, message.from_tag, "-")]
        return []

    def respond(self, event_id, event, call):
        """The user answers, or is refused."""
        request = call.received.get(event.id)
        refusals = [
            (2, not call.is_held()),
            (4, request is None),
            (6, not 101 <= event.status <= 699),
            (5, request and request.final_at is not None),
        ]
        for number, holds in refusals:
            if holds:
                return [f"notice {call.name} refused {event_id[1]} {number}"]
        message, reason = request.message, REASONS[event.status]
        response = self.answer(event.id, message, request.tag, event.status, reason)
        is_invite = message.method == "INVITE"
        if is_invite and event.status < 300:
            call.dialogs[request.tag, message.from_tag] = event.id, event.status < 200
        if event.status >= 200:
            request.final_at = self.now
        if is_invite and 200 <= event.status < 300:
            request.success, request.ticks = response, []
        return call.ended(event.id) if event.status >= 300 else []

    def ack(self, event_id, told, call):
        """An ACK: it ends the repeats of its 2xx (RFC 3261, section 13.3.1.4)."""
        message = told.message
        for invite_id, request in sorted(call.received.items()):
            tags = request.tag, request.message.from_tag, request.message.number
            if request.success and tags == (message.to_tag, message.from_tag, message.number):
                request.success = None
                return [call.notice("ack", invite_id, "-")]
        return []

    def timeout(self, event_id, told, call):
        ended = call.ended(told.id) if call.sent.pop(told.id, None) else []
        return [call.notice(told.kind, told.id)] + ended

    failed = timeout

    def response(self, event_id, told, call):
        """A response to a request of the user (RFC 3261, sections 8.1.3, 12.1.2, 13.2.2)."""
        message, sent = told.message, call.sent[told.id]
        status, tag = message.status, message.to_tag
        shown = [call.notice("response", told.id, status, message.from_tag, tag or "-", "-")]
        is_invite = message.method == "INVITE"
        if is_invite and 100 < status < 200 and tag:
            call.dialogs.setdefault((sent.message.from_tag, tag), (told.id, True))
        if status < 200:
            return shown
        if status >= 300 or not is_invite:
            del call.sent[told.id]
            return shown + call.ended(told.id)
        if tag in sent.acks:
            return [sent.acks[tag]]
        call.dialogs[sent.message.from_tag, tag] = told.id, False
        sent.success_at = self.now if sent.success_at is None else sent.success_at
        ack = replace(sent.message.ack(message), branch="z9hG4bK" + self.name(event_id, 0))
        sent.acks[tag] = f"send {sent.address} {ack.text()}"
        return shown + [sent.acks[tag]]

    def made(self, event_id, event):
        """The request that a command of the user makes."""
        return Message(
            method=event.method, number=1, call_id=event.call_id, uri=CALLEE, sent_by=LOCAL,
            branch="z9hG4bK" + self.name(event_id, 0), from_uri="sip:a@192.0.2.1", to_uri=CALLEE,
            from_tag=self.name(event_id, 1), is_made_here=True,
            contact=f"sip:{LOCAL}" if event.method == "INVITE" else "",
        )

    def begin(self, event_id, event, call):
        """The user begins a call, or is refused as the Call-ID is in use."""
        if call.is_held():
            return [f"notice {call.name} refused {event_id[1]} 1"]
        message = self.made(event_id, event)
        call.sent[event_id] = Sent(message, event.address)
        self.commands.append((message.client_key(), "start", event_id, message, event.address))
        return []


REASONS = {
    100: "Trying", 180: "Ringing", 183: "Session Progress", 199: "Early Dialog Terminated",
    200: "OK", 202: "Accepted", 299: "Fine", 300: "Multiple Choices", 404: "Not Found",
    486: "Busy Here", 699: "No", 700: "Nothing",
}
# What a file has for an event; its kind is that of its line, but for `begin`: invite or plain.
Event = namedtuple(
    "Event", "kind message source key call_id id status method address", defaults=(None,) * 8
)


def line_of(event):
    if event.kind == "datagram":
        return f"datagram {event.source} {event.message.text()}"
    if event.kind == "failed":
        side, branch, host, port, method = event.key
        sender = f"{host} {port} " if side == "server" else ""
        return f"failed {side} {branch} {sender}{method}"
    if event.kind == "respond":
        reason = REASONS[event.status]
        return f"respond {event.call_id} {text_of(event.id)} {event.status} plain - {reason}"
    uris = f"{CALLEE} sip:a@192.0.2.1 {CALLEE}"
    if event.method == "INVITE":
        return f"invite {event.call_id} {event.address} {uris} none -"
    return f"plain {event.call_id} {event.address} {event.method} {uris} -"


class Draw:
    """Numbers that every version of Python draws alike."""

    def __init__(self, seed):
        self.state = seed

    def below(self, bound):
        self.state = (self.state * 6364136223846793005 + 1442695040888963407) % 2**64
        return (self.state >> 33) % bound

    def of(self, choices):
        return choices[self.below(len(choices))]


class Script:
    """An event file that grows round by round towards what was met least."""

    def __init__(self, seed, methods, most_events, whens, quiet, met):
        names = bytes((seed * 37 + place * 11) % 256 for place in range(32))
        self.draw, self.agent = Draw(seed), Agent(names, seed * 99, met)
        self.methods, self.most_events, self.whens = methods, most_events, whens
        self.quiet, self.rounds = quiet, 0
        self.met, self.now, self.count = met, 0, 0
        self.calls, self.clients, self.told = 0, [], []
        self.events = ["sip-events 1", f"local {LOCAL}", f"seed {names.hex()}"]
        self.events.append(f"first {seed * 99}")
        self.outputs = ["sip-outputs 1"]

    def begin(self):
        """A new call, or now and then one whose Call-ID is in use."""
        event_id = self.agent.number, self.place
        is_new = not self.clients or self.draw.below(8)
        self.calls += bool(is_new)
        name = f"c{self.calls}" if is_new else self.draw.of(self.clients).call_id
        event = Event("begin", call_id=name, method=self.draw.of(self.methods), address=PEER)
        self.clients.append(self.agent.made(event_id, event))
        return event

    def client(self):
        return self.draw.of(self.clients[-3:])

    def branch(self, client):
        return client.branch if self.draw.below(3) else client.branch.upper()

    def response(self):
        """A response to a request of the agent; at times to another method."""
        client, status = self.client(), self.draw.of((100, 180, 199, 200, 299, 300, 486, 699))
        method = client.method if self.draw.below(6) else self.draw.of(("INVITE", "OPTIONS"))
        tags = ("t1", "t1", "t2") if status >= 200 else ("",) if status == 100 else ("t1", "")
        message = replace(
            client, status=status, reason=REASONS[status], to_tag=self.draw.of(tags), contact="",
            sent_by=self.draw.of((LOCAL,) * 6 + ("192.0.2.1",)), method=method,
            branch=self.branch(client),
        )
        return Event("datagram", message, PEER)

    def request(self):
        """A request on the branch of a client, at times of a dialog that isn't there."""
        client = self.client()
        name = client.call_id if int(client.call_id[1:]) % 2 else f"p{client.call_id}"
        message = Message(
            method=self.draw.of(("INVITE", "OPTIONS")), number=7, call_id=name,
            branch=self.branch(client), uri="sip:a@192.0.2.1", from_uri="sip:b@192.0.2.9",
            from_tag="f1", to_uri="sip:a@192.0.2.1", to_tag="" if self.draw.below(9) else "gone",
            sent_by="peer.example:5070" if not self.draw.below(12) else "192.0.2.9",
        )
        return Event("datagram", message, self.draw.of((PEER,) * 7 + ("192.0.2.77:5060",)))

    def acknowledgement(self):
        """An ACK of a final response, at times on a branch of its own, as that of a 2xx is."""
        servers = [self.agent.held(key) for key in sorted(self.agent.histories)
                   if machine_of(key) == "INVITE server"]
        answered = [held for held in servers if held and held.state != "Proceeding"]
        if not answered:
            return Event("datagram", replace(self.request().message, method="ACK"), PEER)
        held = self.draw.of(answered)
        tag = held.latest.to_tag if self.draw.below(5) else "t3"
        branch = self.draw.of((held.request.branch,) * 3 + (f"z9hG4bK-{self.agent.number}",))
        message = replace(held.request, method="ACK", to_tag=tag, branch=branch, received="")
        return Event("datagram", message, PEER)

    def failed(self):
        """A failed send of a transaction that is held, or of another."""
        keys = [self.client().client_key(), *sorted(self.agent.histories)]
        held = [key for key in keys if self.agent.held(key)]
        side, branch, *others = self.draw.of(held if held and self.draw.below(4) else keys)
        return Event("failed", key=(side, self.draw.of((branch, branch.upper())), *others))

    def answer(self):
        """An answer of the user to one of the latest requests, mostly one without an answer."""
        status = self.draw.of((180, 183, 199, 200, 202, 299, 300, 404, 486, 699) * 2 + (100, 700))
        told = self.told[-9:] or [((0, 1), "c0")]
        waiting = [one for one in told if self.waits(*one)]
        event_id, call_id = self.draw.of(waiting if waiting and self.draw.below(5) else told)
        call_id = call_id if self.draw.below(15) else "c0"
        return Event("respond", call_id=call_id, id=event_id, status=status)

    def waits(self, event_id, call_id):
        """The request of this id, where the user may still answer it."""
        call = self.agent.calls.get(call_id)
        request = call and call.received.get(event_id)
        return request and request.final_at is None and request

    def times_met(self, event):
        """How often what it meets was met; more where it is likely to change nothing."""
        if event.kind == "respond":
            request = self.waits(event.id, event.call_id)
            if not request or event.status in (100, 700):
                return 40
            key, trigger = request.message.key(), f"answer {class_of(event.status)}"
        elif event.kind == "failed":
            key, trigger = event.key, "failed"
            key = key[0], key[1].lower(), *key[2:]
        else:
            key, trigger = event.message.key(), trigger_of(event.message)
        held = self.agent.held(key)
        times = self.met.pairs[machine_of(key), held.state if held else "none", trigger]
        return times if held else times // 4 if trigger == "request" else times + 8

    def event(self):
        kinds = [self.response] * 4 + [self.request] * 4 + [self.answer] * 4
        kinds += [self.acknowledgement] * 2 + [self.failed] * 2
        return min([self.draw.of(kinds)() for _ in range(9)], key=self.times_met)

    def moment(self):
        """The moment of the next round: now, soon, or one that a timer makes worth a look."""
        if self.quiet or self.draw.below(2):
            return self.now + self.draw.of((0, 0, 0, 1, 120))
        looks = []
        for key in self.agent.histories:
            held = self.agent.held(key)
            for letter, (due, *_) in held.timers.items() if held else ():
                for when in self.whens:
                    late = {"before": -1, "at": 0, "late": self.draw.of((1, 300, 2500, 30000))}
                    times = self.met.timers[letter, held.state, when] + (due - self.now) // 8000
                    looks.append((times, due + late[when]))
        looks = [self.draw.of(looks) for _ in range(6)] if looks else [(0, self.now)]
        return min(looks)[1]

    def next_due(self):
        """A millisecond before a timer is due, and then that moment."""
        held = [held for held in map(self.agent.held, self.agent.histories) if held]
        due = min([due for one in held for due, *_ in one.timers.values()], default=self.now)
        return max(self.now, due - 1) if self.now < due - 1 else due

    def round(self):
        """A round with some events; of a quiet script four, and then many without events."""
        is_quiet = self.rounds % (4 + self.quiet) > 3
        self.rounds += 1
        self.now = self.next_due() if is_quiet else self.moment()
        events = []
        most_events = 0 if is_quiet else self.most_events
        for self.place in range(1, 1 + self.draw.below(most_events + 1)):
            is_idle = not any(self.agent.held(client.client_key()) for client in self.clients[-2:])
            begins = not self.clients or not self.draw.below(2 if is_idle else 12)
            events.append(self.begin() if begins else self.event())
        self.count += len(events)
        self.events += [f"round {self.now}", *map(line_of, events)]
        outputs = self.agent.round(self.now, events)
        for words in map(str.split, outputs):
            if words[0] == "notice" and words[2] == "request":
                event_id = tuple(map(int, words[3].split(".")))
                self.told.append((event_id, words[1]))
        self.outputs += outputs


ALL = ("before", "at", "late")
SCRIPTS = [
    ("an-invite-and-requests-of-its-branch-1", 1, 135, ("INVITE",), 3, ALL, 0),
    ("an-invite-and-requests-of-its-branch-2", 2, 135, ("INVITE",), 4, ALL, 0),
    ("an-options-and-requests-of-its-branch-1", 3, 135, ("OPTIONS",), 3, ALL, 0),
    ("an-options-and-requests-of-its-branch-2", 4, 135, ("OPTIONS",), 4, ALL, 0),
    ("many-branches-in-rounds-of-many-events", 5, 135, ("INVITE", "OPTIONS"), 12, ALL, 0),
    ("branches-in-rounds-that-are-late", 6, 135, ("INVITE", "OPTIONS"), 4, ("late",), 0),
    ("timers-that-fire-again-and-again", 20, 60, ("INVITE", "OPTIONS"), 3, ALL, 30),
]
# How often each repeating timer has fired before, where a lifetime has room for it; of E in
# Proceeding only where its interval isn't that of Trying.
FIRINGS = [
    ("A", "Calling", range(6)), ("E", "Trying", range(5)), ("E", "Proceeding", range(1, 3)),
    ("G", "Completed", range(5)),
]

# Pairs that no event file reaches; the text above says why.
UNREACHED = {
    (machine, state, "start")
    for machine in ("INVITE client", "client")
    for state in ("Calling", "Trying", "Proceeding", "Completed", "Accepted")
} | {
    (machine, state, f"answer {status}")
    for machine in ("INVITE server", "server")
    for state in ("none", "Completed", "Confirmed", "Accepted")
    for status in ("1xx", "2xx", "failure")
    if (state, status) != ("Accepted", "2xx")
}


def missing(met):
    """The rows, pairs and timers that were not met."""
    rows = {(machine, place) for machine in ROWS for place in range(len(ROWS[machine]))}
    pairs, timers = set(), set()
    for machine, table in ROWS.items():
        states = {state for row in table for state in row.states}
        triggers = {trigger for row in table for trigger in row.triggers}
        for state in states:
            pairs |= {(machine, state, what) for what in triggers if len(what) > 1}
        for row in table:
            letters = [letter for letter in row.triggers if len(letter) == 1]
            endings = zip(letters, row.states) if len(letters) > 1 else [
                (letter, state) for letter in letters for state in row.states]
            timers |= {(*ending, when) for ending in endings for when in ALL}
    firings = {
        (letter, state, fired, when)
        for letter, state, times in FIRINGS for fired in times for when in ("before", "at")}
    return rows, pairs - UNREACHED, timers, firings


def main():
    met = Met(Counter(), Counter(), Counter(), Counter())
    folder = Path(__file__).parents[1] / "cases/rows"
    folder.mkdir(exist_ok=True)
    for name, seed, events, *how in SCRIPTS:
        script = Script(seed, *how, met)
        while script.count < events:
            script.round()
        (folder / f"{name}.events").write_text("\n".join([*script.events, ""]))
        (folder / f"{name}.outputs").write_text("\n".join([*script.outputs, ""]))
        print(f"{name}: {script.count} events")
    is_whole = True
    for what, wanted, counts in zip(Met._fields, missing(met), met):
        unmet = sorted(one for one in wanted if not counts[one])
        is_whole = is_whole and not unmet
        print(f"{what}: {len(wanted) - len(unmet)} of {len(wanted)} met")
        for one in unmet:
            print("  not met:", *one)
    return 0 if is_whole else 1


if __name__ == "__main__":
    sys.exit(main())
