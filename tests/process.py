"""Runs of the program: one to its end on a whole input, or one that is talked to meanwhile. Texts
have a character for each byte (Latin-1)."""

import subprocess
import threading
import time
from collections import namedtuple

from register import Wrong, shortened

# How long anything may take, in seconds. It is long, since machines may be slow.
PATIENCE = 100

# The path of the program; tests/run sets it.
program = None

Ended = namedtuple("Ended", "status output errors")


def ran(*words, text="", script=(), **streams):
    """How a run on this input ends. `streams` are files in place of its input or output; a script
    is a command that becomes the program."""
    if "stdin" not in streams:
        streams["input"] = text.encode("latin-1")
    streams = {"stdout": subprocess.PIPE, "stderr": subprocess.PIPE, **streams}
    done = subprocess.run([*script, program, *words], timeout=PATIENCE, check=False, **streams)
    return Ended(done.returncode, text_of(done.stdout), text_of(done.stderr))


def redirected(redirection):
    """A script that redirects a stream, as a shell spells that, and becomes the program."""
    return ["sh", "-c", f'exec "$@" {redirection}', "sh"]


def tries(what):
    """Numbers from 1 on, one each 50 ms, as long as anything may take: this should be so before."""
    for number in range(1, PATIENCE * 20):
        yield number
        time.sleep(0.05)
    raise Wrong(f"{what}\ncame:   nothing, in {PATIENCE} s")


def text_of(written):
    return (written or b"").decode("latin-1")


class Lines:
    """The lines of a stream, as they come."""

    def __init__(self, stream):
        self.lines, self.seen, self.is_over = [], 0, False
        self.changed = threading.Condition()
        threading.Thread(target=self._read, args=(stream,), daemon=True).start()

    def _read(self, stream):
        for line in stream:
            with self.changed:
                self.lines.append(text_of(line))
                self.changed.notify_all()
        with self.changed:
            self.is_over = True
            self.changed.notify_all()

    def next(self, *parts):
        """Waits for a line with these parts, behind the one that was found last."""
        deadline = time.monotonic() + PATIENCE
        with self.changed:
            while True:
                while self.seen < len(self.lines):
                    self.seen += 1
                    if all(part in self.lines[self.seen - 1] for part in parts):
                        return self.lines[self.seen - 1]
                left = deadline - time.monotonic()
                if self.is_over or not self.changed.wait(max(left, 0)):
                    raise Wrong(
                        f"a line\nwanted: {shortened(parts)}\ncame:   {shortened(self.lines)}")

    def whole(self):
        """Waits for the end of the stream, and gives all of it."""
        with self.changed:
            if not self.changed.wait_for(lambda: self.is_over, PATIENCE):
                raise Wrong(f"the end of a stream\ncame:   {shortened(self.lines)}")
            return "".join(self.lines)


class Running:
    """A run of the program with these words, or of a script that becomes it. It is killed where the
    test leaves it running."""

    def __init__(self, *words, script=(), stdout=subprocess.PIPE):
        self.process = subprocess.Popen(
            [*script, program, *words], stdin=subprocess.PIPE, stdout=stdout,
            stderr=subprocess.PIPE)
        self.output = Lines(self.process.stdout) if self.process.stdout else None
        self.errors = Lines(self.process.stderr)

    def __enter__(self):
        return self

    def __exit__(self, *_):
        self.process.kill()
        self.process.wait()

    def ready(self):
        """Waits until datagrams can come, and gives the address."""
        return self.errors.next("ua: ready at ").split()[-1]

    def say(self, text):
        """Writes a line to its input."""
        self.process.stdin.write(f"{text}\n".encode("latin-1"))
        self.process.stdin.flush()

    def end_input(self):
        """Ends its input. An empty line comes before: an input without a byte may be ignored."""
        try:
            self.say("")
            self.process.stdin.close()
        except BrokenPipeError:
            pass  # it has ended before

    def ended(self):
        """Waits for its end."""
        try:
            status = self.process.wait(PATIENCE)
        except subprocess.TimeoutExpired:
            told = shortened(self.errors.lines)
            raise Wrong(f"an end\ncame:   it runs, and told {told}") from None
        return Ended(status, self.output.whole() if self.output else "", self.errors.whole())
