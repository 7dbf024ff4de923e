"""The tables of the transactions, and the names that the agent makes.

RFC 3261, sections 17.1 and 17.2; RFC 6026, section 7; RFC 8439, section 2.3. The models `agent.py`
and `rows.py` stand on these. A message is whatever has `call_id`, `text()` (it as the last field of
a line), `status` (0 of a request), `method`, `response(status, reason)` and `ack(response)`.
"""

from collections import namedtuple

T1, T2, T4, LIFETIME = 500, 4000, 5000, 64 * 500
REPEATING = "AEG"
ENDINGS = {"I": T4, "K": T4} | dict.fromkeys("BDFHJLM", LIFETIME)

# The states in which a row stands; what comes; the state after it; what is told to the call or
# sent; which timers run then. Timers that aren't named have stopped. A failure is 300 to 699.
TABLES = {
    "INVITE client": """
        none                  | start                      | Calling    | send     | start A B
        Calling               | A                          | Calling    | resend   | again A
        Calling               | B                          | none       | timeout  |
        Calling               | failed                     | none       | failed   |
        Calling, Proceeding   | response 100, response 1xx | Proceeding | response |
        Calling, Proceeding   | response 2xx               | Accepted   | response | start M
        Calling, Proceeding   | response failure           | Completed  | response, ACK | start D
        Completed             | response failure           | Completed  | resend   | keep
        Completed             | failed                     | none       | failed   |
        Accepted              | response 2xx               | Accepted   | response | keep
        Completed, Accepted   | D, M                       | none       |          |
        none | response 100, response 1xx, response 2xx, response failure | none | drop |""",
    "client": """
        none                  | start                      | Trying     | send     | start E F
        Trying                | E                          | Trying     | resend   | again E
        Proceeding            | E                          | Proceeding | resend   | again E
        Trying, Proceeding    | F                          | none       | timeout  |
        Trying, Proceeding    | failed                     | none       | failed   |
        Trying, Proceeding    | response 100, response 1xx | Proceeding | response | keep
        Trying, Proceeding    | response 2xx, response failure | Completed | response | start K
        Completed             | K                          | none       |          |
        none | response 100, response 1xx, response 2xx, response failure | none | drop |""",
    "INVITE server": """
        none                  | request                    | Proceeding | request, trying |
        Proceeding            | request                    | Proceeding | resend   | keep
        Proceeding            | answer 1xx                 | Proceeding | send     | keep
        Proceeding            | answer 2xx                 | Accepted   | send     | start L
        Proceeding            | answer failure             | Completed  | send     | start G H
        Completed             | request                    | Completed  | resend   | keep
        Completed             | G                          | Completed  | resend   | again G
        Completed             | ACK                        | Confirmed  |          | start I
        Completed             | H                          | none       | timeout  |
        Accepted              | ACK                        | Accepted   | ack      | keep
        Accepted              | answer 2xx                 | Accepted   | send     | keep
        Confirmed, Accepted   | I, L                       | none       |          |
        Proceeding, Completed, Confirmed, Accepted | failed | same      | failed   | keep
        none                  | ACK                        | none       | ack      |""",
    "server": """
        none                  | request                    | Trying     | request  |
        Trying, Proceeding    | answer 1xx                 | Proceeding | send     |
        Trying, Proceeding    | answer 2xx, answer failure | Completed  | send     | start J
        Proceeding, Completed | request                    | same       | resend   | keep
        Completed             | J                          | none       |          |
        Trying, Proceeding, Completed | failed             | same       | failed   | keep""",
}
Row = namedtuple("Row", "states triggers next says timers")


def rows_of(table):
    """The rows of a table."""
    for line in table.strip().splitlines():
        states, triggers, after, says, timers = [cell.strip() for cell in line.split("|")]
        says = says.split(", ") if says else []
        yield Row(states.split(", "), triggers.split(", "), after, says, timers.split())


ROWS = {machine: list(rows_of(table)) for machine, table in TABLES.items()}


def machine_of(key):
    """The table of a transaction's key: side, branch, host, port, method."""
    return ("INVITE " if key[4] == "INVITE" else "") + key[0]


def class_of(status):
    if status == 100:
        return "100"
    return "1xx" if status < 200 else "2xx" if status < 300 else "failure"


def trigger_of(message):
    """What a message that came is in the tables."""
    if message.status:
        return f"response {class_of(message.status)}"
    return "ACK" if message.method == "ACK" else "request"


# What comes to a transaction: at a moment, by the event of an id, with a message and an address.
Happening = namedtuple("Happening", "moment trigger id message address", defaults=(None,) * 3)
# A transaction that is held: with its first event's id and Call-ID, where it sends to, its request,
# what it sent last, and of each timer that runs when it is due, how often it has fired, and in
# which state it was set.
Held = namedtuple("Held", "state id call_id address request latest timers")
# What a transaction tells its call.
Told = namedtuple("Told", "kind id call_id message address")


def interval(letter, state, fired):
    """How long after it fired so often a repeating timer fires again."""
    if letter == "A":
        return T1 * 2**fired
    return T2 if (letter, state) == ("E", "Proceeding") else min(T1 * 2**fired, T2)


def timers_after(row, held, letter, moment):
    if row.timers[:1] == ["again"]:
        fired = held.timers[letter][1] + 1
        due = moment + interval(letter, held.state, fired)
        return held.timers | {letter: (due, fired, row.next)}
    if row.timers == ["keep"]:
        return held.timers
    return {
        letter: (moment + ENDINGS.get(letter, T1), 0, row.next) for letter in row.timers[1:]}


def due_timer(held, moment):
    """The timer that fires at a tick: one at most, and an ending one before a repeating one."""
    timers = held.timers.items() if held else ()
    due = [letter for letter, (at, *_) in timers if at <= moment]
    return min(due, key=lambda letter: letter in REPEATING, default=None)


def step(machine, held, happening):
    """What is held and said after something came, the pair that it met, and the row."""
    state, trigger = held.state if held else "none", happening.trigger
    if trigger == "tick":
        trigger = due_timer(held, happening.moment)
    fits = [row for row in ROWS[machine] if state in row.states and trigger in row.triggers]
    if not fits:
        return held, [], (machine, state, trigger), None
    row, message = fits[0], happening.message
    if held is None:
        held = Held("none", happening.id, message.call_id, happening.address, message, None, {})
    timers, said = timers_after(row, held, trigger, happening.moment), []
    for word in row.says:
        sent = {"send": message, "resend": held.latest}.get(word)
        if word == "trying":
            sent = message.response(100, "Trying")
        elif word == "ACK":
            sent = held.request.ack(message)
        if word == "drop":
            said.append(f"drop {happening.id[1]} NoTransaction")
        elif sent:
            held = held._replace(latest=sent)
            said.append(f"send {held.address} {sent.text()}")
        else:
            said.append(Told(word, held.id, held.call_id, message, held.address))
    after = state if row.next == "same" else row.next
    held = None if after == "none" else held._replace(state=after, timers=timers)
    return held, said, (machine, state, trigger), row


def folded(machine, history):
    """A transaction after all that came to it, and what its table says to the last of that."""
    after = (None, [], None, None)
    for happening in history:
        after = step(machine, after[0], happening)
    return after


def chacha20_words(key, counter, nonce):
    """The sixteen words of a block (RFC 8439, section 2.3)."""
    texts = b"expand 32-byte k" + key + counter.to_bytes(4, "little") + nonce
    first = [int.from_bytes(texts[at : at + 4], "little") for at in range(0, 64, 4)]
    words = list(first)
    columns = [(0, 4, 8, 12), (1, 5, 9, 13), (2, 6, 10, 14), (3, 7, 11, 15)]
    diagonals = [(0, 5, 10, 15), (1, 6, 11, 12), (2, 7, 8, 13), (3, 4, 9, 14)]
    for a, b, c, d in (columns + diagonals) * 10:
        for x, y, z, turn in [(a, b, d, 16), (c, d, b, 12), (a, b, d, 8), (c, d, b, 7)]:
            words[x] = (words[x] + words[y]) % 2**32
            mixed = words[z] ^ words[x]
            words[z] = (mixed << turn | mixed >> (32 - turn)) % 2**32
    return [(one + other) % 2**32 for one, other in zip(words, first)]


def made_name(seed, event_id, index):
    """A name that the agent makes for an event: sixteen words are each event's own."""
    number, place = event_id
    words = chacha20_words(seed, place, bytes(4) + number.to_bytes(8, "little"))
    return f"{number:016x}{place:016x}{index:x}{words[index]:08x}"
