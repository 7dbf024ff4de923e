"""What is told while standard output is read late, not any more, or written by several agents."""

import os
import re

from agents import plain
from loopback import ANY, Peer
from process import Lines, Running, tries
from register import expect, test
from talks import count

# More notices than may wait and a pipe takes.
COMMANDS = 10_000


@test
def an_output_that_is_read_late():
    """A pipe that nobody reads stops nothing. What had no room is lost and counted, and all else
    comes once the pipe is read."""
    reader, writer = os.pipe()
    with open(reader, "rb") as unread, open(writer, "wb") as given:
        words = ["agent", "--local", ANY, "--linger", "0", "--stats"]
        with Running(*words, stdout=given) as agent, Peer(agent.ready()) as peer:
            given.close()
            # Each is refused, since there is no such call.
            agent.say("\n".join(f"cancel c{number} 0.1" for number in range(COMMANDS)))
            agent.say(plain(peer.address, "c", "OPTIONS"))
            peer.receive("OPTIONS ")
            agent.end_input()
            agent.errors.next(" rounds, ")
            notices = Lines(unread).whole().splitlines()
            ended = agent.ended()
    expect("status", 0, ended.status)
    lost = count(ended.errors, "notices lost, since the output wasn't read\n")
    expect("whether some are lost", True, 0 < lost < COMMANDS)
    expect("what is told and lost", COMMANDS, len(notices) + lost)
    for notice in notices:
        expect("a notice", True, bool(re.fullmatch(r"notice c\d+ refused \d+ 2", notice)))


@test
def an_output_that_nobody_reads_any_more():
    """The system says why a notice can't be written, and the run ends: that of a listener, and that
    of an agent, whose input goes on."""
    told = "ua: output failed\nua: standard output: Broken pipe (os error 32)\n"
    for command in ["listen", "agent"]:
        reader, writer = os.pipe()
        os.close(reader)
        with open(writer, "wb") as unread:
            run = Running(command, "--local", ANY, stdout=unread)
        with run, Peer(run.ready()) as peer:
            for number in tries("an end"):
                if run.process.poll() is not None:
                    break
                peer.ask("OPTIONS", f"c{number}")
            ended = run.ended()
        expect(command, (4, told), (ended.status, ended.errors.partition("\n")[2]))


@test
def an_output_that_takes_nothing_ends_the_run():
    """A notice that can't be written ends a listener: the disk is full."""
    told = "ua: output failed\nua: standard output: No space left on device (os error 28)\n"
    with open("/dev/full", "wb") as full:
        listener = Running("listen", "--local", ANY, stdout=full)
    with listener, Peer(listener.ready()) as peer:
        peer.ask("INFO", "c1")
        peer.receive("SIP/2.0 501 ")
        listener.end_input()
        ended = listener.ended()
    expect("the end", (4, told), (ended.status, ended.errors.partition("\n")[2]))


@test
def agents_share_an_output():
    """The notices of each agent come whole and in order, whatever the others tell meanwhile."""
    with Running("listen", "--local", ANY, "--agents", "4") as listener:
        with Peer(listener.ready()) as peer:
            for number in range(1, 21):
                for call in range(20):
                    peer.ask("OPTIONS", f"c{call}", number)
                for _ in range(20):
                    peer.receive("SIP/2.0 200 ")
        listener.end_input()
        ended = listener.ended()
    told = {}
    for line in ended.output.splitlines():
        found = re.fullmatch(r"notice (c\d+) request (\d+)\.(\d+) OPTIONS \S{41} f -", line)
        expect("a notice", True, bool(found))
        told.setdefault(found[1], []).append((int(found[2]), int(found[3])))
    expect("calls", 20, len(told))
    for call, ids in told.items():
        expect(f"the ids of {call}", sorted(set(ids)), ids)
        expect(f"the notices of {call}", 20, len(ids))
    first = {ids[0][0] >> 58 for ids in told.values()}
    expect("agents", True, len(first) > 1)
