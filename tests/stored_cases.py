"""Stored cases: for the input NAME.events `ua` has to write NAME.outputs, or NAME.fault with its
status and what it tells. Its words stand in NAME.args, one on each line; otherwise they are
`replay`."""

from pathlib import Path

from process import ran
from register import TESTS, Wrong

HERE = Path(__file__).resolve().parent
# The second one has the files that the tests in code read, too.
FOLDERS = [HERE / "cases", HERE / "code/data"]


def register_cases():
    """Registers each case under its topic and its name."""
    for events in sorted(path for folder in FOLDERS for path in folder.glob("*/*.events")):
        TESTS[f"cases/{events.parent.name}/{events.stem}"] = lambda case=events: compare(case)


def compare(events):
    """Refuses what `ua` writes for a case that isn't what it has to write."""
    arguments = events.with_suffix(".args")
    words = read(arguments).splitlines() if arguments.exists() else ["replay"]
    ended = ran(*words, text=read(events))
    if ended.status == 0 and not ended.errors:
        came = ended.output
    else:
        written = f"and writes\n{ended.output}" if ended.output else ""
        came = f"{ended.status}\n{ended.errors}{written}"
    outputs = events.with_suffix(".outputs")
    wanted = read(outputs if outputs.exists() else events.with_suffix(".fault"))
    if came != wanted:
        raise Wrong(difference(wanted, came))


def read(path):
    return path.read_bytes().decode("latin-1")


def difference(wanted, came):
    """The first line that differs. An end is a line of its own."""
    pairs = zip(wanted.split("\n") + ["(end)"], came.split("\n") + ["(end)"])
    number, (one, other) = next(
        (number, pair) for number, pair in enumerate(pairs, 1) if pair[0] != pair[1])
    return f"line {number}\nwanted: {one}\ncame:   {other}"
