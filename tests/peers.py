"""A listener and a peer: what it answers, tells, counts and leaves out, and its socket."""

import signal
import tempfile
import threading
import time
from pathlib import Path

from loopback import ANY, Peer, free_address, header, tag_of
from process import Running, tries
from refused import refusing
from register import expect, expect_in_order, test
from talks import count

# Datagrams that are dropped: three keep-alives, and one that isn't a keep-alive.
KEEP_ALIVES = ["\r\n\r\n", "\0\0", "\x01\x01\0\0\x21\x12\xa4\x42" + 12 * "\0"]
WITHOUT_VIA = "INVITE sip:b@127.0.0.1 SIP/2.0\r\nSubject: x\r\n\r\n"
# More bytes than most networks carry in one packet.
LONG = 10_000


def is_answered(peer, status, call):
    """Waits for the next answer, which has this status and this Call-ID."""
    answer = peer.receive("SIP/2.0 ")
    expect("an answer", (status, call), (answer.split()[1], header(answer, "Call-ID")))


@test
def each_notice_comes_at_once():
    """The user is told of an INFO, which is answered by 501: the notice comes while the listener
    goes on."""
    with Running("listen", "--local", ANY) as listener, Peer(listener.ready()) as peer:
        for number in range(1, 4):
            peer.ask("INFO", f"c{number}")
            is_answered(peer, "501", f"c{number}")
            listener.output.next(f"notice c{number} request ", " INFO ")
        expect("whether it has ended", None, listener.process.poll())


@test
def drops_are_told_and_keep_alives_counted():
    """A drop is told with its reason, its source and its first line."""
    with Running("listen", "--local", ANY, "--drops", "--stats") as listener, \
            Peer(listener.ready()) as peer:
        for _ in range(20):
            for text in [*KEEP_ALIVES, WITHOUT_VIA]:
                peer.send(text)
        for _ in range(20):
            listener.output.next(
                "drop ", f" Missing Via datagram {peer.address} INVITE sip:b@127.0.0.1 SIP/2.0\n")
        listener.end_input()
        ended = listener.ended()
    expect("status", 0, ended.status)
    expect("drops that are told", 20, ended.output.count("\n"))
    expect("counts", (80, 60, 20, 0), tuple(count(ended.errors, what) for what in (
        "datagrams read", "keep-alives", "dropped as Missing Via", "sent")))


@test
def a_response_goes_again_to_whoever_asked_and_to_no_victim():
    """A request that comes again from its address is answered again; from another one it isn't,
    since its response would go to the first."""
    with Running("listen", "--local", ANY, "--stats") as listener, \
            Peer(listener.ready()) as peer, Peer(peer.other, "127.0.0.2") as other:
        for _ in range(2):
            peer.ask("OPTIONS", "c1")
            is_answered(peer, "200", "c1")
        for _ in range(3):
            other.send(peer.asked)
        # What comes next is answered after these.
        other.ask("OPTIONS", "c2")
        is_answered(other, "200", "c2")
        peer.has_nothing()
        listener.end_input()
        ended = listener.ended()
    expect("status", 0, ended.status)
    expect_in_order("counts", [", 3 reflected\n"], ended.errors)


@test
def a_listener_that_holds_enough_sheds_requests():
    """One request is held. Then its retransmission is answered, a new one isn't, and one in a
    dialog is."""
    with Running("listen", "--local", ANY, "--held", "1", "--stats") as listener, \
            Peer(listener.ready()) as peer:
        peer.ask("OPTIONS", "c1")
        is_answered(peer, "200", "c1")
        peer.ask("OPTIONS", "c2")
        peer.ask("OPTIONS", "c1")
        is_answered(peer, "200", "c1")
        peer.ask("OPTIONS", "c3", to_tag="x")
        is_answered(peer, "481", "c3")
        listener.end_input()
        ended = listener.ended()
    expect("status", 0, ended.status)
    expect_in_order("counts", [", 1 shed\n"], ended.errors)


def more_vias(count):
    """Header lines with so many Via values, behind the top one."""
    return count * "Via: SIP/2.0/UDP 192.0.2.1;branch=z9hG4bKx\r\n"


@test
def a_request_that_is_too_large_begins_nothing():
    """It has more bytes than `--largest` says; or more Via values than `--vias`, and over 1,200
    bytes."""
    words = ["--local", ANY, "--largest", "3000", "--vias", "9", "--stats"]
    with Running("listen", *words) as listener, Peer(listener.ready()) as peer:
        peer.ask("OPTIONS", "c1", body=3000 * "x")
        peer.ask("OPTIONS", "c2", body=1200 * "x", headers=more_vias(9))
        peer.ask("OPTIONS", "c3", body=1200 * "x", headers=more_vias(8))
        is_answered(peer, "200", "c3")
        peer.ask("OPTIONS", "c4", headers=more_vias(9))
        is_answered(peer, "200", "c4")
        listener.end_input()
        ended = listener.ended()
    expect("status", 0, ended.status)
    expect_in_order("counts", [", 2 shed\n"], ended.errors)


@test
def a_long_datagram_is_heard_whole():
    """One that was cut would be dropped, since its body would be too short."""
    with Running("listen", "--local", ANY) as listener, Peer(listener.ready()) as peer:
        peer.ask("OPTIONS", "c1", body=LONG * "x")
        is_answered(peer, "200", "c1")
        listener.output.next("notice c1 request ", f" {LONG * 'x'}\n")


@test
def a_re_invite_is_answered_with_the_next_version():
    """Each answer has a description of its own. The drop and the notices have numbers from that of
    the first round on, which the head of a journal gives."""
    with tempfile.TemporaryDirectory() as room:
        local, journal = free_address(), Path(room, "journal")
        journal.write_text(f"sip-session 1\nlocal {local}\nseed {64 * '1'}\nfirst 5000\n")
        words = ["--local", local, "--drops", "--journal", journal]
        with Running("listen", *words) as listener, Peer(listener.ready()) as peer:
            peer.send("no message")
            listener.output.next("drop 50", " NoEmptyLine ")
            peer.ask("INVITE", "c1", 1)
            answer = peer.receive("SIP/2.0 200 ")
            expect_in_order("the answer", ["\r\no=- 0 0 IN IP4 "], answer)
            listener.output.next("notice c1 request 50", " INVITE ")
            tag = tag_of(answer, "To")
            peer.ask("ACK", "c1", 1, tag)
            listener.output.next("notice c1 ack 50")
            peer.ask("INVITE", "c1", 2, tag)
            answer = peer.receive("SIP/2.0 200 ", "CSeq: 2 INVITE\r\n")
            expect_in_order("the next answer", ["\r\no=- 0 1 IN IP4 "], answer)
            peer.ask("ACK", "c1", 2, tag)
            listener.output.next("notice c1 ack 50")


@test
def a_listener_without_a_datagram_goes_on():
    """A socket that gets no datagram in time hasn't failed: a listener gives up after a hundred
    failures, each after at least 50 ms."""
    with Running("listen", "--local", ANY) as listener, Peer(listener.ready()) as peer:
        time.sleep(8)
        peer.ask("OPTIONS", "c1")
        is_answered(peer, "200", "c1")


@test
def a_listener_ends_well_while_datagrams_come():
    """After its last turn, and after the end of its input."""
    for words, ends in [(["--turns", "20"], False), ([], True)]:
        with Running("listen", "--local", ANY, *words) as listener, Peer(listener.ready()) as peer:
            over = threading.Event()
            sender = threading.Thread(target=send_until, args=(peer, over))
            sender.start()
            try:
                if ends:
                    listener.end_input()
                ended = listener.ended()
            finally:
                over.set()
                sender.join()
        expect(words, (0, ""), (ended.status, ended.output))


def send_until(peer, over):
    """Sends ten datagrams each millisecond."""
    while not over.wait(0.001):
        for _ in range(10):
            peer.send("none")


@test
def a_socket_that_receives_nothing_but_errors_ends_the_run():
    """Each receive is refused by the system."""
    for words in [["listen"], ["listen", "--agents", "3"], ["agent"]]:
        with Running(*words, "--local", ANY, script=refusing("recvfrom")) as run:
            ended = run.ended()
        expect(words, (4, ""), (ended.status, ended.output))
        expect_in_order(words, ["ua: ready at ", "ua: socket failed\n"], ended.errors)


@test
def datagrams_that_the_system_drops_are_counted():
    """A listener that stands still takes none; the buffer of its socket becomes full."""
    sent = 20_000
    with Running("listen", "--local", ANY, "--stats") as listener, Peer(listener.ready()) as peer:
        listener.process.send_signal(signal.SIGSTOP)
        for _ in range(sent):
            peer.send(1_000 * "\0")
        listener.process.send_signal(signal.SIGCONT)
        # What waits is read before a request that is answered.
        for number in tries("a request that is told"):
            if listener.output.lines:
                break
            sent += 1
            peer.ask("OPTIONS", f"c{number}")
        listener.end_input()
        ended = listener.ended()
    expect("status", 0, ended.status)
    read, lost = count(ended.errors, "datagrams read"), count(ended.errors, "lost by the system")
    waited = count(ended.errors, "lost, ")
    expect("some are lost", True, lost > 0)
    expect("those that were sent", sent, read + waited + lost)
