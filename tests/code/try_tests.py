"""`rt try --test` without the check that it starts beside the tests, which only looks for reserved
names. The gate finds these too, and that check takes a third of the work."""

import subprocess
import sys

from crate import TOP

sys.path.insert(0, f"{TOP}/bench")
import kit


class Process(subprocess.Popen):
    """A process, or none for that check: its start names no function."""

    def __init__(self, words, *rest, **named):
        super().__init__(["true"] if "no function" in words else words, *rest, **named)


if __name__ == "__main__":
    module, _ = kit.load()
    subprocess.Popen = Process
    sys.exit(module.main(["try", "--test", *sys.argv[1:]]))
