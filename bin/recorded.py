"""The datagrams of a recording: an event file, a session file or a journal. `ua` computes what went
out."""

import os
import subprocess
from collections import namedtuple
from pathlib import Path

from captured import Datagram, Fault, bytes_of

BUILT = Path(__file__).resolve().parent.parent / "crates/sip_ua/out/sip_ua"
# The program doesn't see the variable: it may be a script that runs bin/ua.
UA = os.environ.pop("SIP_UA_PROGRAM", str(BUILT))

# What the agent told: its moment in s, the Call-ID, and the words behind it.
Notice = namedtuple("Notice", "time call_id words")


def outputs_of(text):
    """The lines of the output file of a recording, of which only what is whole is run."""
    words = [UA, "replay", "--session", "--repair"]
    done = subprocess.run(words, input=text, capture_output=True)
    if done.returncode != 0:
        raise Fault(done.stderr.decode(errors="replace").strip().removeprefix("ua: "))
    return done.stdout.decode("latin-1").splitlines()


def rounds_of(lines):
    """Moments in s, each with the lines of its round."""
    moment, found = None, []
    for line in lines:
        if line.startswith("round "):
            if moment is not None:
                yield moment, found
            moment, found = int(line[6:]) / 1000, []
        elif moment is not None:
            found.append(line)
    if moment is not None:
        yield moment, found


def recorded(text):
    """The datagrams that came and went, in order, and the notices."""
    lines = text.decode("latin-1").splitlines()
    local = next((line[6:] for line in lines if line.startswith("local ")), "")
    datagrams, notices = [], []
    for (moment, came), (_, gave) in zip(rounds_of(lines), rounds_of(outputs_of(text))):
        for line in came:
            word, _, fields = line.partition(" ")
            if word == "datagram":
                source, _, rest = fields.partition(" ")
                datagrams.append(Datagram(moment, source, local, bytes_of(rest)))
        for line in gave:
            word, _, fields = line.partition(" ")
            if word == "send":
                target, _, rest = fields.partition(" ")
                datagrams.append(Datagram(moment, local, target, bytes_of(rest)))
            elif word == "notice":
                call_id, *words = fields.split(" ")
                notices.append(Notice(moment, bytes_of(call_id).decode("latin-1"), words))
    return datagrams, notices
