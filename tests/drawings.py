"""The tools of bin/ over a recording: one call drawn, and the list of its calls."""

import os
import subprocess
from pathlib import Path

import process
from register import expect, expect_in_order, test
from stored_cases import FOLDERS

UA = Path(__file__).resolve().parent.parent / "bin/ua"
CALL = "flows/a-session-is-set-up-and-ended-at-the-callee.events"
ROWS = ["INVITE 1", "100 INVITE 1", "180 INVITE 1", "200 INVITE 1", "ACK 1", "BYE 1", "200 BYE 1"]


def drawn(*words):
    """What bin/ua writes with these words of the recorded call."""
    recording = next(folder / CALL for folder in FOLDERS if (folder / CALL).is_file())
    done = subprocess.run(
        [UA, *words], input=recording.read_text(), capture_output=True, text=True,
        env={**os.environ, "SIP_UA_PROGRAM": str(process.program)}, timeout=process.PATIENCE,
        check=False)
    expect("the status", (0, ""), (done.returncode, done.stderr))
    return done.stdout


@test
def a_call_is_drawn_by_its_call_id():
    text = drawn("ladder", "--call-id", "call-1")
    expect_in_order("the ladder", [f"|  {row} call=call-1\n" for row in ROWS], text)
    picture = drawn("ladder", "--call-id", "call-1", "--svg")
    expect_in_order("the picture", ["<svg ", *(f">{row} " for row in ROWS), "</svg>"], picture)


@test
def the_calls_of_a_recording_are_listed():
    rows = drawn("calls").splitlines()
    expect("the rows", 2, len(rows))
    expect_in_order("the call", [" INVITE ", " ended 200 ", " call-1"], rows[1])
