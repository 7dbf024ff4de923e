"""Runs a program to which the system refuses some of its calls: `refused.py CALL,.. PROGRAM WORD..`
(seccomp, x86-64 Linux)."""

import ctypes
import errno
import os
import struct
import subprocess
import sys

from register import Skipped

CALLS = {"sendto": 44, "recvfrom": 45, "fdatasync": 75, "fchmod": 91, "getrandom": 318}
# From linux/prctl.h, linux/seccomp.h, linux/audit.h and linux/bpf_common.h.
PR_SET_SECCOMP, SECCOMP_MODE_FILTER, PR_SET_NO_NEW_PRIVS = 22, 2, 38
REFUSED, ALLOWED = 0x0005_0000 | errno.EIO, 0x7FFF_0000
LOAD, IS_EQUAL, RETURN = 0x20, 0x15, 0x06


def refusing(*calls):
    """A script that becomes the program, with these calls refused: each ends in EIO."""
    script = [sys.executable, __file__, ",".join(calls)]
    tried = subprocess.run([*script, "/bin/true"], capture_output=True, check=False)
    if tried.returncode != 0:
        raise Skipped(f"no seccomp: {tried.stderr.decode(errors='replace').strip()}")
    return script


def refuse(calls):
    """Refuses these calls to the process, and to all that it becomes."""
    steps = [(LOAD, 0, 0, 0)]  # the number of the call
    for call in calls:
        steps += [(IS_EQUAL, 0, 1, CALLS[call]), (RETURN, 0, 0, REFUSED)]
    steps.append((RETURN, 0, 0, ALLOWED))
    code = ctypes.create_string_buffer(b"".join(struct.pack("HBBI", *step) for step in steps))
    program = struct.pack("HxxxxxxP", len(steps), ctypes.addressof(code))
    prctl = ctypes.CDLL(None, use_errno=True).prctl
    filtered = (PR_SET_SECCOMP, SECCOMP_MODE_FILTER, program)
    for words in [(PR_SET_NO_NEW_PRIVS, 1, 0, 0, 0), filtered]:
        if prctl(*words) != 0:
            sys.exit(f"refused.py: {os.strerror(ctypes.get_errno())}")


if __name__ == "__main__":
    refuse(sys.argv[1].split(","))
    os.execv(sys.argv[2], sys.argv[2:])
