"""A copy of the crates with the crate of these tests beside them. Its files have the ending .rs
here, since `rt ci` refuses .rt files that it doesn't prove."""

import os
import shutil
from pathlib import Path

HERE = Path(__file__).resolve().parent
TOP = HERE.parent.parent
NAME = "test_code"
# What the crate stands on, as crates.txt has it.
USES = ("sip_udp sip_agents sip_host sip_stream sip_files sip_round sip_calls sip_served "
        "sip_user sip_transactions sip_reader sip_dialog sip_message sip_desk sip_workers "
        "sip_reliable sip_timers sip_text thiserror")


def linked(path, copy):
    """A second name of a file, or a copy where a file can't have one there."""
    try:
        os.link(path, copy)
    except OSError:
        shutil.copy2(path, copy)


def make_copy(room, parts):
    """Makes the copy in this folder, with these folders of each crate, and gives that of the
    tests."""
    room = Path(room)
    for crate in sorted((TOP / "crates").iterdir()):
        for part in parts:
            if (crate / part).is_dir():
                shutil.copytree(crate / part, room / "crates" / crate.name / part,
                                copy_function=linked)
    lines = (TOP / "crates.txt").read_text()
    (room / "crates.txt").write_text(f"{lines}{NAME} tests_may=Threads: {USES}\n")
    (room / ".git").mkdir()
    shutil.copyfile(TOP / "HANDLES", room / "HANDLES")
    folder = room / "crates" / NAME
    for part in ["src", "proofs"]:
        for path in (HERE / part).rglob("*.*"):
            copy = folder / path.relative_to(HERE).with_suffix(
                {".rs": ".rt"}.get(path.suffix, path.suffix))
            copy.parent.mkdir(parents=True, exist_ok=True)
            shutil.copyfile(path, copy)
    return folder
