"""Writes the script of forty transactions, which the tests in code run over and over.

Run as `python3 tests/models/keys.py`. It writes `keys/forty-keys.events` in the data of the tests
in code and, as the model of `agent.py` works it out, `keys/forty-keys.outputs`; the same files each
time.

Of the forty, eight each are an OPTIONS, an INVITE and a MESSAGE that come, and an INVITE and an
OPTIONS that go out; what becomes of each goes by its number. Repeats fall due, clients give up,
dialogs begin and end, and at the last moment nothing is held.
"""

from pathlib import Path

from agent import replayed
from tables import made_name

KEYS, SEED = 40, bytes(32)
LOCAL, PEER = "192.0.2.1:5060", "192.0.2.9:5060"
MOMENTS = [0, 100, 600, 1700, 33000, 34000, 40000, 66000, 99000]
KINDS = ["OPTIONS", "INVITE", "MESSAGE", "invite", "plain"]
# The rounds of what follows.
BEGINS, RINGS, ANSWERS, CONFIRMS, ENDS, LAST = range(6)


class Script:
    """The events of each round, a line each."""

    def __init__(self):
        self.rounds = [[] for _ in MOMENTS]

    def add(self, index, line):
        """Adds an event, and gives its id."""
        self.rounds[index].append(line)
        return index, len(self.rounds[index])

    def datagram(self, index, lines):
        text = "".join(f"{line}\\r\\n" for line in [*lines, ""])
        return self.add(index, f"datagram {PEER} {text}")

    def respond(self, index, call, event_id, status, how="plain"):
        number, place = event_id
        self.add(index, f"respond {call} {number}.{place} {status} {how} - X")

    def text(self):
        lines = ["sip-events 1", f"local {LOCAL}"]
        for moment, events in zip(MOMENTS, self.rounds):
            lines += [f"round {moment}", *events]
        return "".join(f"{line}\n" for line in lines)


def name(event_id, index):
    return made_name(SEED, event_id, index)


def request(key, call, method, number=7, branch="s", tag="", *more):
    """A request of the peer."""
    to = "<sip:192.0.2.1>" + (f";tag={tag}" if tag else "")
    return [
        f"{method} sip:192.0.2.1 SIP/2.0", f"Via: SIP/2.0/UDP 192.0.2.9;branch=z9hG4bK{branch}{key}",
        f"From: <sip:a@192.0.2.9>;tag=f{key}", f"To: {to}", f"Call-ID: {call}",
        f"CSeq: {number} {method}", *more]


def response(status, call, begun, method, number=1, tag=""):
    """The peer's response to a request that went out at this event, in a dialog of its INVITE."""
    invite, event_id = begun if isinstance(begun[0], tuple) else (begun, begun)
    to = "<sip:b@192.0.2.9>" + (f";tag={tag}" if tag else "")
    return [
        f"SIP/2.0 {status} X", f"Via: SIP/2.0/UDP {LOCAL};rport;branch=z9hG4bK{name(event_id, 0)}",
        f"From: <sip:a@192.0.2.1>;tag={name(invite, 1)}", f"To: {to}", f"Call-ID: {call}",
        f"CSeq: {number} {method}"]


def comes(script, key, method):
    """A request other than INVITE, which comes twice and once more after its end."""
    call, begun = f"c{key % 13}", script.datagram(BEGINS, request(key, f"c{key % 13}", method))
    script.datagram(RINGS, request(key, call, method))
    if key % 3 == 0:
        script.respond(RINGS, call, begun, 200)
    elif key % 3 == 1:
        script.respond(RINGS, call, begun, 183)
        script.respond(ANSWERS, call, begun, 200)
    else:
        script.respond(CONFIRMS, call, begun, 486)
        script.add(CONFIRMS, f"failed server z9hG4bKs{key} 192.0.2.9 5060 {method}")
    script.datagram(CONFIRMS, request(key, call, method))
    # Those that were answered early have ended by then, and the request begins anew.
    again = script.datagram(ENDS, request(key, call, method))
    if key % 3 != 2:
        script.respond(LAST, call, again, 200)


def rings(script, key):
    """An INVITE that comes: answered at once, after a reliable response, or rejected."""
    call, invite = f"i{key}", request(key, f"i{key}", "INVITE", 7, "s", "", "Supported: 100rel")
    begun = script.datagram(BEGINS, invite)
    tag = name(begun, 0)
    if key % 3 == 0:
        script.respond(RINGS, call, begun, 180)
        script.respond(ANSWERS, call, begun, 200)
        script.datagram(CONFIRMS, request(key, call, "ACK", 7, "a", tag))
        bye = script.datagram(ENDS, request(key, call, "BYE", 8, "b", tag))
        script.respond(LAST, call, bye, 200)
    elif key % 3 == 1:
        script.respond(RINGS, call, begun, 183, "reliable")
        script.datagram(
            CONFIRMS, request(key, call, "PRACK", 8, "p", tag, "RAck: 1 7 INVITE"))
        script.respond(CONFIRMS, call, begun, 200)
        script.datagram(ENDS, request(key, call, "ACK", 7, "a", tag))
        bye = script.add(ENDS, f"request {call} {tag} f{key} BYE -")
        answer = [
            "SIP/2.0 200 X", f"Via: SIP/2.0/UDP {LOCAL};rport;branch=z9hG4bK{name(bye, 0)}",
            f"From: <sip:192.0.2.1>;tag={tag}", f"To: <sip:a@192.0.2.9>;tag=f{key}",
            f"Call-ID: {call}", "CSeq: 1 BYE"]
        script.datagram(LAST, answer)
    else:
        script.respond(RINGS, call, begun, 486)
        script.datagram(CONFIRMS, request(key, call, "ACK", 7, "s", tag))


def invites(script, key):
    """An INVITE that goes out: unanswered, answered, or rejected."""
    call = f"k{key}"
    begun = script.add(
        BEGINS,
        f"invite {call} {PEER} sip:b@192.0.2.9 sip:a@192.0.2.1 sip:b@192.0.2.9 supported -")
    if key % 3 == 1:
        script.datagram(RINGS, response(180, call, begun, "INVITE", 1, f"t{key}"))
        script.datagram(ANSWERS, response(200, call, begun, "INVITE", 1, f"t{key}"))
        script.datagram(CONFIRMS, response(200, call, begun, "INVITE", 1, f"t{key}"))
        bye = script.add(ENDS, f"request {call} {name(begun, 1)} t{key} BYE -")
        script.datagram(LAST, response(200, call, (begun, bye), "BYE", 2, f"t{key}"))
    elif key % 3 == 2:
        script.datagram(RINGS, response(180, call, begun, "INVITE", 1, f"t{key}"))
        script.datagram(ANSWERS, response(486, call, begun, "INVITE", 1, f"t{key}"))
        script.datagram(CONFIRMS, response(486, call, begun, "INVITE", 1, f"t{key}"))


def asks(script, key):
    """An OPTIONS that goes out: unanswered, answered, or not sent."""
    call = f"k{key}"
    begun = script.add(
        BEGINS,
        f"plain {call} {PEER} OPTIONS sip:b@192.0.2.9 sip:a@192.0.2.1 sip:b@192.0.2.9 -")
    if key % 3 == 1:
        script.datagram(RINGS, response(183, call, begun, "OPTIONS"))
        script.datagram(ANSWERS, response(200, call, begun, "OPTIONS"))
        script.datagram(CONFIRMS, response(200, call, begun, "OPTIONS"))
    elif key % 3 == 2:
        script.add(RINGS, f"failed client z9hG4bK{name(begun, 0)} OPTIONS")


def main():
    script = Script()
    for key in range(KEYS):
        kind = KINDS[key % len(KINDS)]
        if kind in ("OPTIONS", "MESSAGE"):
            comes(script, key, kind)
        elif kind == "INVITE":
            rings(script, key)
        elif kind == "invite":
            invites(script, key)
        else:
            asks(script, key)
    data = Path(__file__).parents[1] / "code/data"
    events = data / "keys/forty-keys.events"
    events.parent.mkdir(exist_ok=True)
    events.write_text(script.text())
    events.with_suffix(".outputs").write_text(replayed(script.text()))


if __name__ == "__main__":
    main()
