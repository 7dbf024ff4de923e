#!/usr/bin/env python3
"""Brings agents into random states, and then ends all that they hold.

ends.py LIBRARY [TRIALS [SESSION..]]: random datagrams, commands, failed sends and times. Then each
request that came up gets a 486, each request that was sent and each dialog is given up, and time
passes. After that an agent has to hold nothing: no transaction, no call, no timer. So it is for one
that goes on from the rounds of that one, if what `held_by` lists is ended alone. Nor may an agent
hold anything at the end of the session files that are named, 32 s after their last round. The
status is 0 if that is so.
"""

import random
import sys
from typing import Dict, List, Optional, Set, Tuple

import sip_ua as ua
from sip_ua_journal import head_of, held_by

LOCAL = ("192.0.2.1", 5060)
PEER = ("192.0.2.9", 5060)
LIFETIME_MS = 32_000
CALLS = ("c1", "c2", "c3")


class Trial:
    """One agent, what it sent and what it told."""

    def __init__(self, library: str, seed: int) -> None:
        self.random = random.Random(seed)
        self.library = library
        self.seed = bytes([seed % 256]) * 32
        self.agent = ua.Agent(library, LOCAL, self.seed)
        self.rounds = b""
        self.now = 0
        self.sent: List[Dict[str, str]] = []
        self.requests: Set[Tuple[str, ua.Id]] = set()
        self.asked: Set[Tuple[str, ua.Id]] = set()
        self.dialogs: Set[Tuple[str, str, str]] = set()

    def one(self, *values: str) -> str:
        return self.random.choice(values)

    def datagram(self) -> None:
        """A datagram of the peer: a request, or a response to what the agent sent."""
        requests = [head for head in self.sent if "cseq" in head and head["start"][0] != "S"]
        if requests and self.random.random() < 0.5:
            text = self.response(self.random.choice(requests))
        else:
            text = self.request()
        self.agent.datagram(PEER, text.encode())

    def response(self, head: Dict[str, str]) -> str:
        status = self.one("100", "180", "183", "200", "200", "302", "408", "481", "486", "500")
        to = head["to"]
        if ";tag=" not in to and status != "100":
            to += ";tag=" + self.one("p1", "p2")
        reliable = f"Require: 100rel\r\nRSeq: {self.one('1', '2')}\r\n" if status == "183" else ""
        route = self.one("", "", "", "Record-Route: <sip:192.0.2.9>\r\n")
        return (
            f"SIP/2.0 {status} X\r\nVia: {head['via']}\r\nFrom: {head['from']}\r\nTo: {to}\r\n"
            f"Call-ID: {head['call-id']}\r\nCSeq: {head['cseq']}\r\n"
            f"Contact: <sip:b@192.0.2.9>\r\n{reliable}{route}\r\n"
        )

    def request(self) -> str:
        method = self.one("INVITE", "INVITE", "ACK", "BYE", "CANCEL", "OPTIONS", "PRACK", "INFO")
        call_id, own, peer = self.one(*CALLS), "", "f" + self.one("1", "2")
        if self.dialogs and self.random.random() < 0.7:
            call_id, own, peer = self.random.choice(sorted(self.dialogs))
        tag = f";tag={own}" if own else ""
        number = self.random.randrange(1, 5)
        rack = f"RAck: {self.one('1', '2')} {number} INVITE\r\n" if method == "PRACK" else ""
        return (
            f"{method} sip:a@192.0.2.1 SIP/2.0\r\n"
            f"Via: SIP/2.0/UDP 192.0.2.9;branch=z9hG4bK{self.random.randrange(40)}\r\n"
            f"From: <sip:b@192.0.2.9>;tag={peer}\r\nTo: <sip:a@192.0.2.1>{tag}\r\n"
            f"Call-ID: {call_id}\r\nCSeq: {number} {method}\r\nContact: <sip:b@192.0.2.9>\r\n"
            f"{rack}{self.one('', 'Supported: 100rel', 'Require: 100rel')}\r\n\r\n"
        ).replace("\r\n\r\n\r\n", "\r\n\r\n")

    def command(self) -> None:
        """A command of the user."""
        call_id, uri = self.one(*CALLS, "c4", "c5"), "sip:b@192.0.2.9"
        wanted: List[ua.Command] = [
            ua.Invite(call_id, PEER, uri, "sip:a@192.0.2.1", uri, supports_100rel=True),
            ua.Plain(call_id, PEER, "OPTIONS", uri, "sip:a@192.0.2.1", uri),
        ]
        if self.dialogs:
            dialog = self.random.choice(sorted(self.dialogs))
            method = self.one("BYE", "INVITE", "INFO")
            wanted += [ua.Request(*dialog, method), ua.Ack(*dialog), ua.Prack(*dialog)]
        if self.requests:
            held, id = self.random.choice(sorted(self.requests))
            status = int(self.one("180", "183", "200", "486"))
            wanted += [ua.Response(held, id, status, is_reliable=status == 183)] * 3
        if self.asked:
            held, id = self.random.choice(sorted(self.asked))
            wanted += [ua.Cancel(held, id), ua.AbandonRequest(held, id)]
        self.ask(self.random.choice(wanted))

    def ask(self, command: ua.Command) -> None:
        id = self.agent.ask(command)
        if isinstance(command, (ua.Invite, ua.Plain, ua.Request)):
            self.asked.add((command.call_id, id))

    def round(self) -> None:
        """A round, whose sends may fail."""
        outputs = self.agent.run(self.now)
        self.rounds += self.agent.round_text()
        for output in outputs:
            if isinstance(output, ua.Send):
                self.note(output.datagram)
                if self.random.random() < 0.05:
                    self.agent.failed(output.index)
            elif isinstance(output, (ua.RequestNotice, ua.ResponseNotice)):
                self.dialogs.add((output.call_id, output.local_tag, output.remote_tag))
                if isinstance(output, ua.RequestNotice):
                    self.requests.add((output.call_id, output.id))

    def note(self, datagram: bytes) -> None:
        """Keeps what the agent sent, by its headers."""
        lines = datagram.decode().split("\r\n")
        head = {"start": lines[0]}
        for line in lines[1:]:
            name, _, value = line.partition(": ")
            head.setdefault(name.lower(), value)
        self.sent.append(head)

    def end(self) -> Optional[str]:
        """Ends all, and says what is left."""
        for call_id, id in sorted(self.requests):
            self.ask(ua.Response(call_id, id, 486))
        for call_id, id in sorted(self.asked):
            self.ask(ua.AbandonRequest(call_id, id))
        for dialog in sorted(self.dialogs):
            self.ask(ua.AbandonDialog(*dialog))
        left = self.left(self.agent)
        return left if left is not None else self.end_again()

    def end_again(self) -> Optional[str]:
        """Ends what another agent holds that goes on from the rounds of this one."""
        held = held_by(self.library, head_of(LOCAL, self.seed) + self.rounds)
        agent = ua.Agent(self.library, LOCAL, self.seed)
        agent.resume(self.rounds)
        for request in held.requests.values():
            agent.ask(ua.Response(request.call_id, request.id, 486))
        for id, call_id in held.invites.items():
            agent.ask(ua.AbandonRequest(call_id, id))
        for dialog in held.dialogs.values():
            agent.ask(ua.AbandonDialog(dialog.call_id, dialog.local_tag, dialog.remote_tag))
        return self.left(agent)

    def left(self, agent: ua.Agent) -> Optional[str]:
        """What is held when time has passed, if anything is."""
        for wait in (0, LIFETIME_MS):
            self.now += wait
            agent.run(self.now)
        stats, due = agent.stats(), agent.next_due()
        agent.close()
        if (stats.transactions, stats.calls) == (0, 0) and due is None:
            return None
        return f"{stats.transactions} transactions, {stats.calls} calls, due {due}"


def is_ended(library: str, path: str) -> bool:
    """Whether an agent holds nothing 32 s after the last round of a session file."""
    agent = ua.Agent(library, LOCAL, bytes(32))
    moment: Optional[int] = None
    headers = ""
    with open(path, encoding="latin-1") as file:
        for line in file.read().splitlines():
            word = line.split(" ")[0]
            if word == "round":
                if moment is not None:
                    agent.run(moment)
                moment = int(line.split(" ")[1])
            elif line.startswith(" "):
                headers += line + "\n"
            elif moment is not None:
                agent.event_lines(headers + line)
                headers = ""
    for wait in (0, LIFETIME_MS):
        agent.run((moment or 0) + wait)
        moment = (moment or 0) + wait
    stats = agent.stats()
    agent.close()
    return (stats.transactions, stats.calls) == (0, 0)


def main() -> int:
    library = sys.argv[1]
    trials = int(sys.argv[2]) if len(sys.argv) > 2 else 1000
    left = 0
    for seed in range(trials):
        trial = Trial(library, seed)
        for _ in range(trial.random.randrange(1, 60)):
            for _ in range(trial.random.randrange(3)):
                trial.datagram() if trial.random.random() < 0.6 else trial.command()
            trial.now += trial.random.choice((1, 10, 500, 700, 4000, 33_000))
            trial.round()
        end = trial.end()
        if end is not None:
            left += 1
            print(f"trial {seed}: {end}")
    print(f"{trials} agents ended, {left} of them hold something")
    for path in sys.argv[3:]:
        if not is_ended(library, path):
            left += 1
            print(f"{path}: something is held at its end")
    return 0 if left == 0 else 1


if __name__ == "__main__":
    sys.exit(main())
