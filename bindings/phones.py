"""Runs examples/phone.py by its terminal, on loopback.

    phones.py LIBRARY baresip CALLS FOLDER [THROUGH]
        so many calls to baresip, which go through the address THROUGH where one is given, and as
        many from it; FOLDER gets the files of baresip
    phones.py LIBRARY registrar ADDR
        two phones register with passwords, and one calls the other

In a call the phone holds, takes the call back and sends a tone, and one of the two hangs up. At the
end, baresip is transferred to another phone, which refuses it and then answers."""

import json
import os
import queue
import re
import socket
import subprocess
import sys
import threading
import time
from typing import List, Sequence

PHONE, BARESIP, OTHER = "127.0.0.1:5175", "127.0.0.1:5176", "127.0.0.1:5177"
CONFIG = f"""sip_listen {BARESIP}
module_path /usr/lib/baresip/modules
module account.so
module g711.so
module aubridge.so
module menu.so
module ctrl_tcp.so
audio_source aubridge,loop
audio_player aubridge,loop
"""
ACCOUNT = f'"Carol of Accounts" <sip:carol@{BARESIP}>;regint=0;answermode=auto\n'
SCRIPT = os.path.join(os.path.dirname(os.path.abspath(__file__)), "..", "examples", "phone.py")


class Program:
    """A program whose lines are waited for."""

    def __init__(self, words: Sequence[str]):
        pipe = subprocess.PIPE
        self.ran = subprocess.Popen(words, stdin=pipe, stdout=pipe, stderr=subprocess.STDOUT)
        self.lines: "queue.Queue[str]" = queue.Queue()
        threading.Thread(target=self._read, daemon=True).start()

    def _read(self) -> None:
        assert self.ran.stdout is not None
        for line in self.ran.stdout:
            self.lines.put(line.decode(errors="replace").rstrip())

    def say(self, line: str) -> None:
        assert self.ran.stdin is not None
        self.ran.stdin.write(line.encode() + b"\n")
        self.ran.stdin.flush()

    def wait_for(self, pattern: str, seconds: float = 8.0) -> str:
        """The first line with this pattern; lines before it are passed over."""
        end = time.monotonic() + seconds
        seen: List[str] = []
        while True:
            try:
                line = self.lines.get(timeout=max(end - time.monotonic(), 0.001))
            except queue.Empty:
                raise SystemExit(f"no line {pattern!r} came, but {seen}") from None
            seen.append(line)
            if re.search(pattern, line):
                return line


class Phone(Program):
    def __init__(self, library: str, *words: str):
        super().__init__([sys.executable, "-u", SCRIPT, library, *words])

    def hold_and_send(self, digit: str) -> None:
        """Holds the call that is up, takes it back, and sends a tone."""
        self.say("hold")
        self.wait_for("^on hold$")
        self.say("resume")
        self.wait_for("^resumed$")
        self.say(f"tone {digit}")


class Baresip(Program):
    """baresip, which answers by itself, and takes commands at a port."""

    def __init__(self, folder: str):
        with socket.socket() as free:
            free.bind(("127.0.0.1", 0))
            at = free.getsockname()
        config = f"{CONFIG}ctrl_tcp_listen {at[0]}:{at[1]}\n"
        os.makedirs(folder, exist_ok=True)
        for name, text in (("config", config), ("accounts", ACCOUNT), ("contacts", "")):
            with open(os.path.join(folder, name), "w") as it:
                it.write(text)
        super().__init__(["baresip", "-f", folder, "-v"])
        self.wait_for("baresip is ready")
        self.control = socket.create_connection(at)
        threading.Thread(target=self._drain, daemon=True).start()

    def _drain(self) -> None:
        while self.control.recv(65536):
            pass

    def do(self, command: str, params: str = "") -> None:
        text = json.dumps({"command": command, "params": params})
        self.control.sendall(f"{len(text)}:{text},".encode())


def talk(phone: Phone, baresip: Baresip, number: int) -> None:
    """What happens in a call that is up; the two hang up in turn."""
    digit = str(number % 10)
    phone.hold_and_send(digit)
    baresip.wait_for(f"received DTMF: '{digit}'")
    if number % 2 == 0:
        phone.say("hangup")
        baresip.wait_for("session closed")
    else:
        baresip.do("hold")
        phone.wait_for("^held by the peer$")
        baresip.do("hangup")
    phone.wait_for("^ended$")


def transfer(phone: Phone, other: Phone, through: str) -> None:
    """Calls of the phone to baresip are handed to the other phone."""
    for answer in ("busy", "answer"):
        phone.say(f"call sip:carol@{through}")
        phone.wait_for("^up$")
        phone.say(f"transfer sip:dave@{OTHER}")
        other.wait_for("^call from .*carol")
        other.say(answer)
        phone.wait_for("^transferred$" if answer == "answer" else "^not transferred: 486$")
        phone.say("hangup")
        phone.wait_for("^ended$")
    other.wait_for("^up$")
    other.say("hangup")
    other.wait_for("^ended$")


def with_baresip(library: str, calls: str, folder: str, through: str = BARESIP) -> int:
    baresip, phone = Baresip(folder), Phone(library, PHONE, "bob@127.0.0.1")
    other = Phone(library, OTHER, "dave@127.0.0.1")
    try:
        for number in range(int(calls)):
            phone.say(f"call sip:carol@{through}")
            phone.wait_for("^up$")
            talk(phone, baresip, number)
        print(f"  {calls} calls of phone.py to baresip")
        for number in range(int(calls)):
            baresip.do("dial", f"sip:bob@{PHONE}")
            phone.wait_for(f'^call from "Carol of Accounts" <sip:carol@{BARESIP}>$')
            phone.say("answer")
            phone.wait_for("^up$")
            talk(phone, baresip, number)
        print(f"  {calls} calls of baresip to phone.py")
        transfer(phone, other, through)
        print("  baresip transferred to another phone.py")
        phone.say("quit")
        other.say("quit")
        return phone.ran.wait(5) or other.ran.wait(5)
    finally:
        baresip.ran.kill()
        phone.ran.kill()
        other.ran.kill()


def at_registrar(library: str, registrar: str) -> int:
    alice = Phone(library, "127.0.0.1:5178", "alice@example.test", registrar, "wonder")
    bob = Phone(library, "127.0.0.1:5179", "bob@example.test", registrar, "builder")
    try:
        alice.wait_for("^registered$")
        bob.wait_for("^registered$")
        alice.say("call sip:bob@example.test")
        bob.wait_for("^call from <sip:alice@example.test>$")
        bob.say("busy")
        alice.wait_for("^486 ")
        alice.say("call sip:bob@example.test")
        bob.wait_for("^call from ")
        alice.say("hangup")
        alice.wait_for("^487 ")
        bob.wait_for("^ended$")
        alice.say("call sip:bob@example.test")
        bob.wait_for("^call from ")
        bob.say("answer")
        alice.wait_for("^up$")
        bob.wait_for("^up$")
        alice.hold_and_send("5")
        bob.wait_for("^held by the peer$")
        bob.wait_for("^no longer held$")
        bob.wait_for("^tone 5$")
        bob.say("hangup")
        alice.wait_for("^ended$")
        bob.wait_for("^ended$")
        print("  a call refused, one cancelled, one held, taken back and ended, at a registrar")
        alice.say("quit")
        bob.say("quit")
        return alice.ran.wait(5) or bob.ran.wait(5)
    finally:
        alice.ran.kill()
        bob.ran.kill()


if __name__ == "__main__":
    library, peer, *words = sys.argv[1:]
    if peer == "baresip":
        sys.exit(with_baresip(library, *words))
    sys.exit(at_registrar(library, *words))
