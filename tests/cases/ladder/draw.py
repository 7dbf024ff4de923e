#!/usr/bin/env python3
"""Draws ladders from event files, session files and their output files: what `ua ladder` has to
write.

Usage: draw.py EVENTS OUTPUTS   writes the ladder of these two files
       draw.py                  writes the .outputs of each case of this folder anew

The output files come from the model of the agent (agent.py), and never from `ua`. A case with a
.fault is left as it is.
"""

import glob
import os
import re
import subprocess
import sys

HERE = os.path.dirname(os.path.abspath(__file__))
AGENT = os.path.join(HERE, "..", "..", "models", "agent.py")
ESCAPES = {"r": "\r", "n": "\n", "t": "\t", "s": " ", "\\": "\\"}


def plain(text):
    """The text of a field, each byte a character."""
    def one(found):
        body = found.group(1)
        return chr(int(body[1:], 16)) if body[0] == "x" else ESCAPES[body]
    return re.sub(r"\\(x..|.)", one, text)


def rounds_of(lines):
    """The moment and the lines of each round, but for header lines."""
    rounds = []
    for line in lines:
        if line.startswith("round "):
            rounds.append((int(line[6:]), []))
        elif rounds and not line.startswith(" "):
            rounds[-1][1].append(line)
    return rounds


def shown(text):
    return "".join(one if " " <= one <= "~" else "?" for one in text)


def word(text):
    return shown(text) if len(text) <= 21 else ".." + shown(text[-9:])


def header(message, names):
    found = re.search(rf"\r\n(?:{names})[ \t]*:[ \t]*([^\r]*)\r\n", message, re.I)
    return found.group(1) if found else None


def parameter(value, name):
    found = re.search(rf";[ \t]*{name}[ \t]*=[ \t]*([^;,\s]*)", value or "", re.I)
    return found.group(1) if found else ""


def label_of(message, again):
    start = message.split("\r\n")[0].split(" ")
    number, method = header(message, "CSeq").split()
    is_request = start[0] != "SIP/2.0"
    parts = ([] if is_request else [start[1]]) + [word(method), number]
    if again:
        parts.append("again")
    if header(message, "RSeq"):
        parts.append("rseq=" + header(message, "RSeq"))
    if header(message, "RAck"):
        parts.append("rack=" + header(message, "RAck").split()[0])
    to = parameter(header(message, "To|t"), "tag")
    if is_request and not to:
        parts.append("from=" + word(parameter(header(message, "From|f"), "tag")))
    elif to:
        parts.append("to=" + word(to))
    branch = parameter(header(message, "Via|v"), "branch")
    parts.append("branch=" + word(branch.removeprefix("z9hG4bK")))
    parts.append("call=" + word(header(message, "Call-ID|i")))
    return " ".join(parts)


def fields_of(line):
    """A line with its long fields cut; a key has its branch and its host in lower case."""
    fields = line.split(" ")
    if fields[0] == "failed":
        fields[1:-1] = [field.lower() for field in fields[1:-1]]
    return " ".join(word(field) for field in fields)


def unread(message, again):
    return "? " + ("again " if again else "") + shown(message.split("\r")[0][:40])


def lines_of(events, outputs):
    """For each event and output its moment, its way with the peer, and its label."""
    seen = set()
    for (moment, came), (_, gave) in zip(events, outputs):
        dropped = [line.split(" ") for line in gave if line.startswith("drop ")]
        bad = {int(one[1]) for one in dropped if one[2] not in ("NotOurs", "NoTransaction")}
        for place, line in enumerate(came + gave, 1):
            kind = line.split(" ")[0]
            if kind not in ("datagram", "send"):
                yield moment, None, None, fields_of(line)
                continue
            _, peer, rest = line.split(" ", 2)
            message = plain(rest)
            again = (kind, peer, message) in seen
            seen.add((kind, peer, message))
            is_bad = kind == "datagram" and place in bad
            yield moment, kind, peer, (unread if is_bad else label_of)(message, again)


def ladder(event_lines, output_lines):
    local = event_lines[1].split(" ")[1]
    lines = list(lines_of(rounds_of(event_lines), rounds_of(output_lines)))
    every = list(dict.fromkeys(peer for _, _, peer, _ in lines if peer))
    peers = every[:11]
    count = len(peers) + (len(every) > 11)
    width = min(18, 36 // max(count, 1))
    yield f"{'ua':>10}  {local}"
    for number, peer in enumerate(peers, 1):
        yield f"{number:>10}  {peer}"
    if count > len(peers):
        yield f"{count:>10}  all others"
    yield ""
    yield "        ms  ua" + "".join(f"{n:>{width}}" for n in range(1, count + 1))[1:]
    for moment, kind, peer, label in lines:
        marks = ["|" if i % width == 0 else " " for i in range(count * width + 1)]
        if peer is None:
            marks[0] = "*"
        else:
            end = (peers.index(peer) + 1 if peer in peers else count) * width
            marks[1:end] = "-" * (end - 1)
            if kind == "datagram":
                marks[1] = "<"
            else:
                marks[end - 1] = ">"
        yield f"{moment:>10}  {''.join(marks)}  {label}"[:100]


def read(path):
    with open(path, encoding="latin-1", newline="") as file:
        return file.read().split("\n")[:-1]


def write(events, outputs, file):
    file.write("\n".join(ladder(events, outputs)) + "\n")


def main():
    if len(sys.argv) == 3:
        write(read(sys.argv[1]), read(sys.argv[2]), sys.stdout)
        return
    for path in sorted(glob.glob(os.path.join(HERE, "*.events"))):
        name = path.removesuffix(".events")
        if os.path.exists(name + ".fault"):
            continue
        with open(path, "rb") as file:
            words = [sys.executable, AGENT, "--session"]
            ran = subprocess.run(words, stdin=file, capture_output=True, check=True)
        outputs = ran.stdout.decode("latin-1").split("\n")[:-1]
        with open(name + ".outputs", "w", encoding="latin-1", newline="") as file:
            write(read(path), outputs, file)


main()
