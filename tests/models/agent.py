"""A plain, slow model of the whole agent: what `ua replay` has to write for an event file.

Run as `python3 tests/models/agent.py < FILE.events > FILE.outputs`, with the option
`--session` for a session file; with the option `--cases` it says which stored cases of a replay
differ from what it works out. A fault is told on standard error, and then nothing is written; the
status is that of `ua`.

It was written from the RFCs and from docs/FORMATS.md, and never from the code. `messages.py` has
the messages, `tables.py` the transactions, `calls.py` the calls; here are the rounds and the files.
A round gives each transaction a tick, then the datagrams and the failed sends. Then each call gets
a tick, then what came up from the transactions and the user's commands; and then the transactions
get what the calls answer and start. There is one list of each, and nothing is cut into shards.
"""

import re
import sys
from collections import namedtuple
from pathlib import Path

from calls import NUMBER, Call, is_address, text_of, word_of
from messages import MOST_NUMBER, MOST_PORT, NAMES, TOKEN, URI, Party, ReadFault, header_of, lower
from messages import match, read, rest_of, stamped, values_of
from tables import Happening, Told, machine_of, made_name, step, trigger_of

MOST_FILE, MOST_EVENTS, MOST_MOMENT = 2**26, 65536, 2**62
MOST_WORD = 2**64 - 1
# An event: its kind is that of its line, `failed` has the key of a transaction.
FIELDS = """kind call_id source datagram key address method uri from_uri to_uri option body
    local_tag remote_tag id status is_reliable reason contacts routes supported require others"""
Event = namedtuple("Event", FIELDS, defaults=(*(None,) * 17, *((),) * 5))
Config = namedtuple("Config", "local seed first")


class FileFault(Exception):
    """Why an event file isn't run: a status, and what is told."""


class Agent:
    """Transactions and calls, led through rounds."""

    def __init__(self, config):
        self.local, self.seed, self.number = config
        self.held, self.calls, self.commands, self.now = {}, {}, [], 0

    def name(self, event_id, index):
        return made_name(self.seed, event_id, index)

    def give(self, key, trigger, *others):
        """What a transaction says to what comes to it. One that the user gives up is gone."""
        if trigger == "abandon":
            self.held.pop(key, None)
            return []
        happening = Happening(self.now, trigger, *others)
        held, said, *_ = step(machine_of(key), self.held.get(key), happening)
        self.held[key] = held
        if held is None:
            del self.held[key]
        return said

    def round(self, moment, events):
        """The outputs of a round, a line each."""
        self.now, self.commands = moment, []
        lines, items = [f"round {moment}"], []
        said = [((self.number, 0), self.give(key, "tick")) for key in sorted(self.held)]
        for place, event in enumerate(events, 1):
            event_id = self.number, place
            said.append((event_id, self.arrived(event_id, event)))
        for event_id, outs in said:
            lines += [out for out in outs if isinstance(out, str)]
            items += [(event_id, out) for out in outs if not isinstance(out, str)]
        for name in sorted(self.calls):
            self.calls[name].tick()
            lines += self.said_by(self.calls[name])
        for event_id, item in items:
            side = "told" if isinstance(item, Told) else "user"
            call = self.calls.setdefault(item.call_id, Call(item.call_id, self))
            getattr(call, f"{side}_{item.kind}")(event_id, item)
            lines += self.said_by(call)
        for command in self.commands:
            lines += self.give(*command)
        self.number += 1
        return lines

    def said_by(self, call):
        """What a step of a call said; a call that holds nothing isn't held."""
        if not call.is_held():
            del self.calls[call.name]
        return call.said()

    def arrived(self, event_id, event):
        """What the transactions say to a datagram or a failed send; a command goes to its call."""
        if event.kind == "failed":
            return self.give(event.key, "failed", event_id)
        if event.kind != "datagram":
            return [event]
        try:
            message, address = read(event.datagram), None
        except ReadFault as fault:
            return [f"drop {event_id[1]} {fault}"]
        if message.status and "{1}:{2}".format(*message.sender()) != self.local:
            return [f"drop {event_id[1]} NotOurs"]
        if not message.status:
            message, address = stamped(message, event.source)
        return self.give(message.key(), trigger_of(message), event_id, message, address)


# Fields of lines. Each reads a text and answers None where it isn't one.


def unspelled(text):
    """The text that a rest spells; each has one spelling."""
    if not match(r"(?:[^\\]|\\[rnt\\]|\\x[0-9a-f]{2})*", text):
        return None
    short = {r"\r": "\r", r"\n": "\n", r"\t": "\t", r"\\": "\\"}
    plain = re.sub(
        r"\\(?:x..|.)", lambda one: short.get(one[0]) or chr(int(one[0][2:], 16)), text)
    return plain if rest_of(plain) == text else None


def unspelled_word(text):
    plain = {"-": "", r"\x2d": "-"}.get(text)
    if plain is None:
        plain = unspelled(re.sub(r"\\(.)", lambda one: " " if one[1] == "s" else one[0], text))
    return plain if plain is not None and word_of(plain) == text else None


def number_of(text, most=MOST_WORD):
    return int(text) if match(NUMBER, text) and int(text) <= most else None


def id_of(text):
    number, _, place = text.partition(".")
    pair = number_of(number), number_of(place, MOST_NUMBER)
    return None if None in pair else pair


def token_of(text):
    return text if match(TOKEN, text) else None


def address_of(text):
    return text if is_address(text) else None


def checked_word(pattern):
    """A word whose text is of a form."""

    def read_word(text):
        plain = unspelled_word(text)
        return plain if plain is not None and match(pattern, plain) else None

    return read_word


def one_of(*choices):
    return lambda text: choices.index(text) if text in choices else None


def reason_of(text):
    """A reason has no line ends."""
    plain = unspelled(text)
    return plain if plain is not None and not re.search("[\r\n]", plain) else None


CALL_ID, URI_WORD = checked_word(r"[^ \t\r\n]+"), checked_word(URI)
TAG, BODY = checked_word(f"(?:{TOKEN})?"), unspelled_word
LINES = {
    "datagram": [("source", address_of), ("datagram", unspelled)],
    "failed client": [("branch", unspelled_word), ("method", token_of)],
    "failed server": [
        ("branch", unspelled_word), ("host", unspelled_word),
        ("port", lambda text: number_of(text, MOST_PORT)), ("method", token_of)],
    "invite": [
        ("call_id", CALL_ID), ("address", address_of), ("uri", URI_WORD), ("from_uri", URI_WORD),
        ("to_uri", URI_WORD),
        ("option", lambda text: text if text in ("none", "supported", "required") else None),
        ("body", BODY)],
    "plain": [
        ("call_id", CALL_ID), ("address", address_of), ("method", token_of), ("uri", URI_WORD),
        ("from_uri", URI_WORD), ("to_uri", URI_WORD), ("body", BODY)],
    "request": [
        ("call_id", CALL_ID), ("local_tag", TAG), ("remote_tag", TAG), ("method", token_of),
        ("body", BODY)],
    "respond": [
        ("call_id", CALL_ID), ("id", id_of), ("status", lambda text: number_of(text, 999)),
        ("is_reliable", one_of("plain", "reliable")), ("body", BODY),
        ("reason", reason_of)],
    "ack": [("call_id", CALL_ID), ("local_tag", TAG), ("remote_tag", TAG), ("body", BODY)],
    "prack": [("call_id", CALL_ID), ("local_tag", TAG), ("remote_tag", TAG), ("body", BODY)],
    "cancel": [("call_id", CALL_ID), ("id", id_of)],
    "abandon": [("call_id", CALL_ID), ("id", id_of)],
}
# The fields of `abandon` where it names a dialog and not a request.
DIALOG = [("call_id", CALL_ID), ("local_tag", TAG), ("remote_tag", TAG)]
# Which lines the versions of a file don't have.
LACKS = {"sip-events 1": ("cancel", "abandon"), "sip-events 2": ("abandon",), "sip-session 1": ()}


def event_of(line, version):
    """The event of a line, or None."""
    kinds = [kind for kind in LINES if line.startswith(f"{kind} ")]
    if not kinds or kinds[0] in LACKS[version]:
        return None
    kind, fields = kinds[0], LINES[kinds[0]]
    if kind == "abandon" and line.count(" ") == len(DIALOG):
        fields = DIALOG
    texts = line[len(kind) + 1 :].split(" ", len(fields) - 1)
    values = {name: form(text) for (name, form), text in zip(fields, texts)}
    if len(texts) < len(fields) or None in values.values():
        return None
    if kind.startswith("failed"):
        branch, host = lower(values["branch"]), lower(values.get("host", ""))
        key = kind.split()[1], branch, host, values.get("port", 0), values["method"]
        return Event("failed", key=key)
    return Event(kind, **values)


# The headers that the profile reads and that are the user's, and where an event has them.
GIVEN = {
    "Contact": "contacts", "Route": "routes", "Supported": "supported", "Require": "require"}


def given_by(line):
    """Where an event has what a header line says, and the values."""
    plain = unspelled(line[1:])
    if plain is None:
        raise ReadFault("BadHeader")
    header = header_of(plain)
    if header[0] in GIVEN:
        return GIVEN[header[0]], tuple(values_of(header[0], [header]))
    if header[0] in NAMES.values():
        raise ReadFault("BadHeader")
    return "others", (header,)


def with_headers(event, lines):
    """An event with the header lines before it; None where they may not stand there."""
    if not lines:
        return event
    if not event or event.kind in ("datagram", "failed", "cancel", "abandon"):
        return None
    for line in lines:
        try:
            where, values = given_by(line)
        except ReadFault:
            return None
        event = event._replace(**{where: getattr(event, where) + values})
    may_have_routes = event.kind in ("invite", "plain")
    has_bad_route = event.routes and not may_have_routes
    return None if has_bad_route or not contacts_fit(event) else event


def contacts_fit(event):
    """Whether an event may have its Contacts: `*` only alone, in a REGISTER whose one Expires is 0
    (RFC 3261, 10.2.2 and 20.10)."""
    if all(contact.uri != "*" for contact in event.contacts):
        return True
    is_register = event.kind == "plain" and event.method == "REGISTER"
    return is_register and is_only_star(event.contacts) and expiries(event.others) == [True]


def is_only_star(contacts):
    return contacts == (Party(uri="*"),)


def expiries(headers):
    """Of each Expires, whether it is 0."""
    expires = [value for name, value in headers if lower(name) == "expires"]
    return [match("0+", value) is not None for value in expires]


def may_go_on(lines):
    """Whether a command may follow these header lines, maybe after more of them."""
    given = [given_by(line) for line in lines]
    contacts, others = (
        tuple(value for where, values in given if where == name for value in values)
        for name in ("contacts", "others"))
    if all(contact.uri != "*" for contact in contacts):
        return True
    return is_only_star(contacts) and expiries(others) in ([], [True])


def is_header_line(line):
    """Whether a line is a header line that the user may give."""
    try:
        return line.startswith(" ") and bool(given_by(line))
    except ReadFault:
        return False


def read_events(text, is_session=False):
    """The configuration and the rounds of an event file or a session file (docs/FORMATS.md)."""
    if len(text) > MOST_FILE:
        raise FileFault(1, "event file too long")
    first, end, rest = text.partition("\n")
    versions = ["sip-events 1", "sip-events 2", *["sip-session 1"] * is_session]
    if first not in versions or not end:
        told = "event file line 1" if first in versions and not end else "event file version"
        raise FileFault(1, told)
    lines, config, rounds = rest.split("\n"), Config(None, bytes(32), 0), []
    stage, headers = "local", []
    for at, line in enumerate(lines, 2):
        is_last = at == len(lines) + 1
        if is_last and not line and stage != "local" and not headers:
            break
        if is_last:
            raise FileFault(1, f"event file line {at}")
        if stage != "rounds":
            stage, config = head_line(line, stage, config)
        may_be_header = first == "sip-session 1" and rounds and not is_last
        if may_be_header and is_header_line(line):
            headers.append(line)
            if may_go_on(headers):
                continue
            raise FileFault(1, f"event file line {at}")
        if stage == "rounds":
            read_line(line, rounds, first, headers)
            headers = []
        if stage is None or rounds[-1:] == [None]:
            raise FileFault(1, f"event file line {at}")
    return config, rounds


def head_line(line, stage, config):
    """The stage after a line before the rounds, None where it has no place, and the values."""
    kind, _, text = line.partition(" ")
    kinds = ["local", "seed", "first", "round"]
    may_come = kinds[:1] if stage == "local" else kinds[kinds.index(stage) :]
    if kind not in may_come:
        return None, config
    if kind == "local" and is_address(text):
        return "seed", config._replace(local=text)
    if kind == "seed" and match("[0-9a-f]{64}", text):
        return "first", config._replace(seed=bytes.fromhex(text))
    if kind == "first" and number_of(text, MOST_MOMENT) is not None:
        return "round", config._replace(first=int(text))
    return ("rounds" if kind == "round" else None), config


def read_line(line, rounds, version, headers):
    """Adds a round or an event with its headers; None where the line is neither."""
    kind, _, text = line.partition(" ")
    moment = number_of(text) if kind == "round" and not headers else None
    event = with_headers(event_of(line, version), headers)
    if moment is not None:
        rounds.append((moment, []))
    elif event and rounds:
        rounds[-1][1].append(event)
    else:
        rounds.append(None)


def refuse_rounds(config, rounds):
    """The first round that can't be run, and why."""
    before = 0
    for at, (moment, events) in enumerate(rounds):
        faults = [
            ("MomentBackwards", moment < before), ("MomentTooLarge", moment > MOST_MOMENT),
            ("TooManyEvents", len(events) > MOST_EVENTS),
            ("RoundsUsedUp", config.first + at > MOST_MOMENT)]
        for name, holds in faults:
            if holds:
                raise FileFault(3, f"round {at}: {name}")
        before = moment


def replayed(text, is_session=False):
    """The output file of an event file or a session file."""
    config, rounds = read_events(text, is_session)
    refuse_rounds(config, rounds)
    agent, lines = Agent(config), ["sip-outputs 1"]
    for moment, events in rounds:
        lines += agent.round(moment, events)
    return "".join(f"{line}\n" for line in lines)


def repaired(text, is_session):
    """What is whole of a file that was cut off: its lines that have an end; of a session, without
    the header lines at its end, whose command is missing."""
    lines = text.split("\n")[:-1]
    while is_session and lines and lines[-1].startswith(" "):
        lines.pop()
    return "".join(f"{line}\n" for line in lines)


def streamed(text, is_session):
    """What a replay round by round writes, and its fault, if it has one."""
    try:
        return replayed(text, is_session), None
    except FileFault as fault:
        status, told = fault.args
    lines = text.split("\n")
    starts = [at for at, line in enumerate(lines, 1) if line.startswith("round ")]
    line = re.fullmatch(r"event file line (\d+)", told)
    index = re.fullmatch(r"round (\d+): \w+", told)
    if line:
        starts = [at for at in starts if at <= int(line[1])]
    if index:
        starts = starts[: int(index[1]) + 1]
    if not starts or not (line or index):
        return "", (status, told)
    if line:
        told = f"round {len(starts) - 1}: round line {int(line[1]) - starts[-1] + 1}"
    try:
        before = "".join(f"{line}\n" for line in lines[: starts[-1] - 1])
        return replayed(before, is_session), (status, told)
    except FileFault as fault:
        return "", fault.args  # of the lines before the first round


def told_of(text, words):
    """The ending and the text of the file that stands beside a case with these words."""
    is_session = "--session" in words
    if "--streamed" in words:
        output, fault = streamed(text, is_session)
        written = f"and writes\n{output}" if output else ""
        return (".fault", "{}\nua: {}\n".format(*fault) + written) if fault else (
            ".outputs", output)
    whole = repaired(text, is_session) if "--repair" in words else text
    left_out = len(text) - len(whole)
    said = f"ua: {left_out} bytes at the end left out\n" if left_out else ""
    try:
        output = replayed(whole, is_session)
    except FileFault as fault:
        return ".fault", "{}\n{}ua: {}\n".format(fault.args[0], said, fault.args[1])
    return (".fault", f"0\n{said}and writes\n{output}") if said else (".outputs", output)


def stored_events():
    """The event files of all cases, and those that the tests in code run, too."""
    top = Path(__file__).parents[2]
    folders = [top / "tests/cases", top / "tests/code/data"]
    return sorted(path for folder in folders for path in folder.glob("*/*.events"))


def compare_cases():
    """Says which stored cases differ, and how many were worked out."""
    cases, differ = 0, 0
    for events in stored_events():
        path = events.with_suffix(".args")
        words = path.read_text() if path.exists() else "replay\n"
        if path.exists() and (
                not words.startswith("replay\n")
                or ("--repair" not in words and "round" not in events.read_text("latin-1"))):
            continue  # it is its words, or another command, that are tried
        kind, text = told_of(events.read_bytes().decode("latin-1"), words)
        stored = events.with_suffix(kind)
        is_same = stored.exists() and stored.read_bytes().decode("latin-1") == text
        cases, differ = cases + 1, differ + (not is_same)
        if not is_same:
            print(f"{events.parent.name}/{events.stem}")
    print(f"{cases} cases, {differ} differ")
    return 1 if differ else 0


def main(words):
    if "--cases" in words:
        return compare_cases()
    try:
        output = replayed(sys.stdin.buffer.read().decode("latin-1"), "--session" in words)
    except FileFault as fault:
        status, told = fault.args
        print(f"ua: {told}", file=sys.stderr)
        return status
    sys.stdout.buffer.write(output.encode("latin-1"))
    return 0


if __name__ == "__main__":
    sys.exit(main(sys.argv[1:]))
