"""Replays at their limits, and with inputs and outputs that fail."""

import os
from pathlib import Path

from process import Running, ran, redirected
from register import expect, test

HEAD = "sip-events 1\nlocal 192.0.2.1:5060\n"
# As a failed send of a transaction that isn't held, an event without an output.
EVENT = "failed client b INFO\n"
MOST_EVENTS = 65_536
MOST_BYTES = 1 << 26
# The commands that read a file and write to standard output.
FILE_COMMANDS = [["replay"], ["replay", "--streamed"], ["ladder"]]
FORTY_CALLS = Path(__file__).resolve().parent / "code/data/keys/forty-keys.events"
SHARDS, MOST_SHARDS = [1, 2, 7, 64, 256], 256
WORKERS, MOST_WORKERS = range(1, 9), 64
# How long a transaction is held after its final response, in ms: 64*T1.
LIFE = 32_000


@test
def rounds_of_many_events():
    """A round with the most events is answered, and one with more is refused. If several faults
    fit, the first is told."""
    most = ran("replay", text=HEAD + "round 0\n" + EVENT * MOST_EVENTS)
    expect("the most", (0, "sip-outputs 1\nround 0\n", ""), most)
    for rounds, fault in [
            ("round 0\n", "round 0: TooManyEvents"),
            ("round 10\nround 9\n", "round 1: MomentBackwards"),
            ("round 4611686018427387905\n", "round 0: MomentTooLarge"),
            ("first 4611686018427387904\nround 0\nround 0\n", "round 1: TooManyEvents")]:
        ended = ran("replay", text=HEAD + rounds + EVENT * (MOST_EVENTS + 1))
        expect(rounds, (3, "", f"ua: {fault}\n"), ended)


@test
def a_text_of_more_than_an_event_file_has():
    """An event file has at most 2^26 bytes."""
    for length, fault in [(MOST_BYTES, "version"), (MOST_BYTES + 1, "too long")]:
        ended = ran("replay", text="x" * length)
        expect(f"{length} bytes", (1, "", f"ua: event file {fault}\n"), ended)


@test
def an_output_that_takes_nothing():
    """A full device, a standard output that is closed, and a pipe that nobody reads any more."""
    told, text = (4, "", "ua: output failed\n"), HEAD + "round 0\n"
    for words in [*FILE_COMMANDS, ["help"], ["--version"]]:
        for redirection in ["> /dev/full", ">&-"]:
            ended = ran(*words, text=text, script=redirected(redirection))
            expect(f"{words} {redirection}", told, ended)
        reader, writer = os.pipe()
        os.close(reader)
        with open(writer, "wb") as unread:
            expect(f"{words} into a pipe", told, ran(*words, text=text, stdout=unread))


@test
def an_input_that_cannot_be_read():
    """A folder, and a standard input that is closed: the system says so, and nothing is written."""
    for words in FILE_COMMANDS:
        for redirection, error in [
                ("< /", "Is a directory (os error 21)"),
                ("<&-", "Bad file descriptor (os error 9)")]:
            ended = ran(*words, script=redirected(redirection))
            told = f"ua: input failed\nua: standard input: {error}\n"
            expect(f"{words} {redirection}", (4, "", told), ended)


@test
def a_streamed_replay_answers_a_round_before_more_comes():
    """The outputs of a round, short or long, come with the line that begins the next one, though
    the input stays open."""
    with Running("replay", "--streamed") as run:
        run.say(HEAD + "round 0")
        for number, events in enumerate([0, 180, 200, 1_000, 10_000]):
            run.say(EVENT * events + f"round {number + 1}")
            run.output.next(f"round {number}\n")
        run.process.stdin.close()
        expect("the end", (0, ""), (run.ended().status, run.errors.whole()))


def cut_into(shards, workers, cut="spread"):
    return ["replay", "--shards", str(shards), "--workers", str(workers), "--cut", cut]


@test
def the_same_in_each_number_of_shards():
    """Forty transactions, with each number of workers and by both cuts; and often with as many
    threads as may get into each other's way."""
    text = FORTY_CALLS.read_bytes().decode("latin-1")
    outputs = FORTY_CALLS.with_suffix(".outputs").read_bytes().decode("latin-1")
    ways = [cut_into(shards, workers, cut)
            for shards in SHARDS for workers in WORKERS for cut in ["spread", "first"]]
    for words in ways + [cut_into(64, 8)] * 200:
        expect(words, (0, outputs, ""), ran(*words, text=text))


def options(number):
    """The datagram of a request with a branch and a call of its own."""
    return ("datagram 127.0.0.1:5070 OPTIONS sip:127.0.0.1 SIP/2.0\\r\\n"
            f"Via: SIP/2.0/UDP 127.0.0.1:5070;branch=z9hG4bKr{number}\\r\\n"
            "From: <sip:a@127.0.0.1>;tag=f1\\r\\nTo: <sip:127.0.0.1>\\r\\n"
            f"Call-ID: c{number}\\r\\nCSeq: 7 OPTIONS\\r\\n\\r\\n\n")


@test
def thousands_of_transactions():
    """All are told and answered; while they are held, they answer again; then they are gone, and
    the same requests are told again."""
    count = 5_000
    requests = "".join(map(options, range(count)))
    answers = "".join(f"respond c{number} 0.{number + 1} 200 plain - OK\n"
                      for number in range(count))
    text = (f"{HEAD}round 0\n{requests}round 0\n{answers}"
            f"round {LIFE - 1}\n{requests}round {LIFE}\n{requests}")
    for words in [cut_into(1, 1), cut_into(MOST_SHARDS, MOST_WORKERS)]:
        ended = ran(*words, text=text)
        rounds = ended.output.split("\nround ")[1:]
        told = [(round.count("\nnotice "), round.count("\nsend ")) for round in rounds]
        expect(words, (0, [(count, 0), (0, count), (0, count), (count, 0)]),
               (ended.status, told))


@test
def a_round_of_repeats():
    """The same requests come again and again in a round with the most events. Each is told once."""
    count = 512
    text = HEAD + "round 0\n" + "".join(map(options, range(count))) * (MOST_EVENTS // count)
    ended = ran("replay", text=text)
    expect("notices", (0, count), (ended.status, ended.output.count("\nnotice ")))
