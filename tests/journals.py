"""Journals: a run goes on from its rounds, ends if it can't write them, and makes them shorter."""

import os
import re
import resource
import shutil
import signal
import tempfile
import time
from collections import Counter
from pathlib import Path

from agents import plain
from loopback import ANY, Peer, bound, address_of, free_address, tag_of
from process import Running, ran, redirected, tries
from refused import refusing
from register import expect, test
from stored_cases import FOLDERS, read
from talks import lines_after, replayed

# A script that leaves a write above the limit of a file to the program, which it would end.
LIMITED = ["sh", "-c", "trap '' XFSZ; exec \"$@\"", "sh"]
TOO_LARGE = "File too large (os error 27)"
CHANGED = ": moved, removed or changed by another process\n"
REFUSED = "Input/output error (os error 5)"
MISSING = "No such file or directory (os error 2)"
# The tests in code make it shorter, too: nine calls are over, and three are up.
STORED = FOLDERS[1] / "compaction/journal"


class Room:
    """A folder with a journal."""

    def __enter__(self):
        self.folder = tempfile.TemporaryDirectory()
        self.journal = Path(self.folder.name, "journal")
        return self

    def __exit__(self, *_):
        self.folder.cleanup()


def answered(peer, call):
    """Waits for the 200 of an INVITE, and acknowledges it. Gives the tag of the callee."""
    tag = tag_of(peer.receive("SIP/2.0 200 ", f"Call-ID: {call}\r\n"), "To")
    peer.ask("ACK", call, 1, tag)
    return tag


@test
def an_agent_goes_on_from_its_journal():
    with Room() as room, bound() as silent:
        local, command = free_address(), plain(address_of(silent), "c1", "OPTIONS") + "\n"
        words = ["agent", "--local", local, "--journal", room.journal, "--linger", "0"]
        first = ran(*words, text=command)
        expect("the first run", (0, ""), (first.status, first.output))
        rounds = read(room.journal)
        expect("a session", True, rounds.startswith("sip-session 1\n"))
        expect("its first round", True, command in rounds.split("\nround ")[1] + "\n")
        second = ran(*words)
        last = rounds.count("\nround ") - 1
        expect("the second run", (0, f"resumed {last}\n"), (second.status, second.output))
        expect("its front", rounds, read(room.journal)[: len(rounds)])


@test
def what_is_not_in_the_journal_is_not_sent():
    """A round that can't be written ends the run; with `--journal-may-fail` only the journal, which
    loses its name."""
    told = f"ua: --journal: {TOO_LARGE}\nua: journal failed\n"
    lost = f"ua: record failed\nua: --record: {TOO_LARGE}\n"
    for words, ends in [([], True), (["--journal-may-fail"], False)]:
        with Room() as room:
            words = ["agent", "--local", ANY, "--journal", room.journal, "--linger", "0", *words]
            with Running(*words, script=LIMITED) as agent, Peer(agent.ready()) as peer:
                limit(agent, room.journal.stat().st_size)
                agent.say(plain(peer.address, "c1", "OPTIONS"))
                if not ends:
                    peer.receive("OPTIONS ")
                agent.end_input()
                ended = agent.ended()
                if ends:
                    peer.has_nothing()
            renamed = "" if ends else set_aside(room.journal)
            expect(words, (4 if ends else 0, "", renamed + (told if ends else lost)),
                   (ended.status, ended.output, ended.errors.partition("\n")[2]))
            expect(words, ends, room.journal.exists())


def set_aside(journal):
    """What is said of a journal that lacks rounds."""
    return f"ua: --journal {journal}: it lacks rounds: now {journal}.failed\n"


@test
def what_is_dropped_has_no_bytes_in_a_journal():
    """The drop is told with them, and a run goes on from the journal with the calls that it has."""
    with Room() as room:
        words = ["listen", "--local", free_address(), "--drops", "--journal", room.journal]
        with Peer(words[2]) as peer:
            with Running(*words) as listener:
                listener.ready()
                peer.ask("INVITE", "c1")
                tag = answered(peer, "c1")
                listener.output.next("notice c1 ack ")
                before = len(read(room.journal))
                for number in range(20):
                    peer.send(f"{number} " + 1000 * "x")
                listener.output.next("drop ", f" NoEmptyLine datagram {peer.address} 19 xxx")
                dropped = read(room.journal)[before:]
            expect("their bytes", False, "xxx" in dropped)
            expect("their events", 20, dropped.splitlines().count(f"datagram {peer.address} "))
            with Running(*words) as listener:
                listener.ready()
                peer.ask("BYE", "c1", 2, tag)
                peer.receive("SIP/2.0 200 ", "CSeq: 2 BYE\r\n")


@test
def a_journal_that_lacks_rounds_is_not_resumed():
    """The next process begins anew, and so gives other tags."""
    with Room() as room:
        words = ["listen", "--local", free_address(), "--journal", room.journal,
                 "--journal-may-fail"]
        with Peer(words[2]) as peer:
            with Running(*words, script=LIMITED) as listener:
                listener.ready()
                peer.ask("INVITE", "c1")
                answered(peer, "c1")
                listener.output.next("notice c1 ack ")
                written = read(room.journal)
                limit(listener, len(written) + 10)
                peer.ask("INVITE", "c2")
                tag = answered(peer, "c2")
                listener.errors.next(set_aside(room.journal).strip())
            expect("FILE", False, room.journal.exists())
            expect("FILE.failed", written, read(failed(room.journal))[: len(written)])
            with Running(*words) as listener:
                listener.errors.next(f"ua: --journal {room.journal}: {room.journal}.failed lacks "
                                     "rounds, and isn't resumed\n")
                listener.ready()
                peer.ask("INVITE", "c3")
                expect("another tag", False, answered(peer, "c3") == tag)
                listener.end_input()
                expect("resumed", False, "resumed" in listener.ended().output)
        expect("another seed", False, seed_of(written) == seed_of(read(room.journal)))


@test
def a_round_that_is_too_long_for_a_journal_is_a_failed_write():
    """That of a command with over 64 MiB of header lines."""
    headers = 70 * (" X-Long: " + 1_000_000 * "x" + "\n")
    with Room() as room, bound() as silent:
        words = ["agent", "--local", ANY, "--headers", "--journal", room.journal,
                 "--journal-may-fail", "--linger", "0"]
        ended = ran(*words, text=headers + plain(address_of(silent), "c1", "OPTIONS") + "\n")
        expect("its end", True, set_aside(room.journal) in ended.errors)
        expect("FILE", False, room.journal.exists())
        expect("FILE.failed", True, failed(room.journal).exists())


def failed(journal):
    return journal.with_name("journal.failed")


def seed_of(session):
    return lines_after("seed ", session)[0]


def replace(journal):
    shutil.copy(journal, journal.with_name("other"))
    os.replace(journal.with_name("other"), journal)


def append(journal):
    with journal.open("a") as file:
        file.write("round 9\n")


@test
def a_journal_that_is_changed_meanwhile_has_failed():
    """A journal that was cut loses its name also without `--journal-may-fail`."""
    ways = [(Path.unlink, False), (replace, True), (append, True),
            (lambda journal: os.truncate(journal, 200), False)]
    for change, stays in ways:
        for words, ends in [([], True), (["--journal-may-fail"], False)]:
            with Room() as room:
                words = ["listen", "--local", ANY, "--journal", room.journal, *words]
                with Running(*words) as listener, Peer(listener.ready()) as peer:
                    peer.ask("OPTIONS", "c1")
                    peer.receive("SIP/2.0 200 ")
                    change(room.journal)
                    peer.ask("OPTIONS", "c2")
                    if not ends:
                        peer.receive("SIP/2.0 200 ", "Call-ID: c2\r\n")
                        listener.end_input()
                    ended = listener.ended()
                    if ends:
                        peer.has_nothing()
                expect(change, (4 if ends else 0, True), (ended.status, CHANGED in ended.errors))
                expect(change, ends and stays, room.journal.exists())


@test
def the_journal_of_another_process_keeps_its_name():
    with Room() as room:
        words = ["listen", "--local", ANY, "--journal", room.journal, "--journal-may-fail"]
        with Running(*words) as first, Peer(first.ready()) as peer:
            room.journal.unlink()
            with Running(*words) as second:
                second.ready()
                peer.ask("OPTIONS", "c1")
                peer.receive("SIP/2.0 200 ")
                first.errors.next(f"ua: --journal {room.journal}: it lacks rounds, but isn't "
                                  "renamed: ")
                expect("its journal", True, room.journal.exists())


def limit(run, most):
    """Limits the files of a run to so many bytes."""
    resource.prlimit(run.process.pid, resource.RLIMIT_FSIZE, (most, most))


@test
def the_disk_is_waited_for():
    """With `--sync` a round that doesn't reach the disk ends the run, too."""
    for words, status in [([], 0), (["--sync"], 4)]:
        with Room() as room, bound() as silent:
            words = ["--local", ANY, "--journal", room.journal, "--linger", "0", *words]
            ended = ran("agent", *words, text=plain(address_of(silent), "c1", "OPTIONS"),
                        script=refusing("fdatasync"))
        expect(words, status, ended.status)


@test
def a_torn_end_is_cut_off():
    """A journal that was cut off within a line goes on with the whole lines before it."""
    with Room() as room, bound() as silent:
        words = ["agent", "--local", free_address(), "--journal", room.journal, "--linger", "0"]
        for call in ["c1", "c2"]:
            ran(*words, text=plain(address_of(silent), call, "OPTIONS"))
        whole = read(room.journal)
        lines = [whole.index(f"plain {call} ") for call in ("c1", "c2")]
        for length in [lines[0] + 5, lines[1] - 5, lines[1] + 20, len(whole) - 1]:
            room.journal.write_bytes(whole[:length].encode("latin-1"))
            ended = ran(*words)
            kept = whole[: whole.rindex("\n", 0, length) + 1]
            told = f"ua: {length - len(kept)} bytes at the end of the journal left out\n"
            expect(f"{length} bytes", (0, told), (ended.status, without_ready(ended.errors)))
            # The next round, if there is one, stands behind the whole lines.
            front, rest = read(room.journal)[: len(kept)], read(room.journal)[len(kept) :]
            expect(f"{length} bytes", (kept, "round "), (front, (rest or "round ")[:6]))


@test
def a_call_goes_on_after_a_crash():
    """The first one is up, the second one rings: both go on, with their ids, and nothing that was
    asked for before is asked for again."""
    with Room() as room:
        local = free_address()
        words = ["listen", "--local", local, "--ring", "2000", "--journal", room.journal]
        with Peer(local) as peer:
            with Running(*words) as listener:
                listener.ready()
                peer.ask("INVITE", "c1")
                tag = answered(peer, "c1")
                listener.output.next("notice c1 ack ")
                peer.ask("INVITE", "c2")
                rings = listener.output.next("notice c2 request ").split()[3]
                peer.receive("SIP/2.0 180 ")
            with Running(*words) as listener:
                listener.ready()
                listener.output.next("resumed ")
                answered(peer, "c2")
                listener.output.next(f"notice c2 ack {rings} ")
                peer.ask("BYE", "c1", 2, tag)
                listener.output.next("notice c1 ended ")
                listener.end_input()
                ended = listener.ended()
        expect("status", 0, ended.status)
        expect("refusals", False, " refused " in ended.output)


@test
def calls_that_ring_are_answered_wherever_a_journal_ends():
    """A listener stood still while many calls came, so that full rounds wait when its phones have
    rung. It asks for their answers later than usual, which the next run can't know."""
    local, calls = free_address(), 400
    words = ["listen", "--local", local, "--ring", "5", "--turns"]
    with Room() as room:
        journal = ["--journal", room.journal]
        with Running(*words, "200", *journal) as listener, Peer(listener.ready()) as peer:
            listener.process.send_signal(signal.SIGSTOP)
            for number in range(calls):
                peer.ask("INVITE", f"c{number}")
            listener.process.send_signal(signal.SIGCONT)
            expect("status", 0, listener.ended().status)
        head, *rounds = read(room.journal).split("\nround ")
        expect("a full round", True, any(it.count("datagram ") == 63 for it in rounds))
        for end in range(1, len(rounds) + 1):
            room.journal.write_bytes(
                ("\nround ".join([head, *rounds[:end]]) + "\n").encode("latin-1"))
            expect("status", 0, ran(*words, "30", *journal).status)
            text = read(room.journal)
            came = set(re.findall(r"INVITE sip.*Call-ID: (c\d+)", text))
            answers = re.findall(r"\nrespond (c\d+) \S+ 200 ", text)
            expect(f"calls without an answer after {end} rounds", set(), came - set(answers))
            expect("calls that are answered twice", [], twice(answers))


def twice(answers):
    return [call for call, count in Counter(answers).items() if count > 1]


@test
def a_file_that_is_no_journal_stays_as_it_was():
    head = f"sip-session 1\nlocal {{}}\nseed {64 * '0'}\nfirst 0\n"
    unread = "ua: not a journal\nua: --journal {}: not read\n"
    for text, status, told in [
            ("nothing of a journal\n", 1, unread), (head[:20], 1, unread),
            (head + "round 5\nnone\nround 6\n", 1, "ua: journal round 0: round line 2\n"),
            (head + "round 5\nround 4\nround 6\n", 3, "ua: round 1: MomentBackwards\n")]:
        with Room() as room:
            local = free_address()
            text = text.format(local)
            room.journal.write_text(text)
            ended = ran("agent", "--local", local, "--journal", room.journal)
            expect(text, (status, "", told.format(room.journal)), ended)
            expect("the file", text, read(room.journal))


def without_ready(errors):
    return "".join(line for line in errors.splitlines(True) if not line.startswith("ua: ready at "))


@test
def a_journal_of_another_process_or_address():
    with Room() as room:
        with Running("listen", "--local", ANY, "--journal", room.journal) as listener:
            local = listener.ready()
            for words, status, told in [
                    (["listen", "--local", ANY], 2,
                     f"ua: bad argument\nua: --journal {room.journal}: another process has it\n"),
                    (["listen", "--local", local], 4,
                     f"ua: socket failed\nua: {local}: Address already in use (os error 98)\n")]:
                ended = ran(*words, "--journal", room.journal)
                expect(words, (status, "", told), ended)
        for other in [ANY, free_address()]:
            ended = ran("listen", "--local", other, "--journal", room.journal)
            told = f"ua: bad argument\nua: --local {other}: not the address of the journal\n"
            expect(other, (2, "", told), ended)


@test
def a_journal_that_cannot_be_opened():
    """That is the end; with `--journal-may-fail` there is no journal."""
    words = ["agent", "--local", ANY, "--linger", "0", "--journal", "/none/journal"]
    ended = ran(*words)
    told = f"ua: journal failed\nua: --journal /none/journal: {MISSING}\n"
    expect("the end", (4, "", told), ended)
    ended = ran(*words, "--journal-may-fail")
    told = f"ua: --journal /none/journal: {MISSING}: there is no journal\n"
    expect("without it", (0, "", told), (ended.status, ended.output, without_ready(ended.errors)))


@test
def a_journal_of_another_call_is_refused():
    """It would never be made."""
    with Room() as room, bound() as silent, bound() as other:
        asked = {"--to": address_of(silent), "--uri": "sip:b@127.0.0.1", "--call-id": "c1"}
        words = ["call", "--local", free_address(), "--journal", room.journal, "--turns", "20"]
        expect("its call", 0, ran(*words, *options(asked)).status)
        written = read(room.journal)
        for option, word in [("--to", address_of(other)), ("--uri", "sip:c@127.0.0.1"),
                             ("--call-id", "c2")]:
            ended = ran(*words, *options({**asked, option: word}))
            told = f"ua: bad argument\nua: {option} {word}: not that of the journal\n"
            expect(option, (2, "", told), ended)
        expect("the file", written, read(room.journal))
        ended = ran(*words, *options(asked))
        expect("its call again", (0, "resumed "), (ended.status, ended.output[:8]))
        begun = written.index("\nround ") + 1
        room.journal.write_text(written[:begun] + "round 1\ndatagram 127.0.0.1:9 x\n")
        ended = ran(*words, *options(asked))
        told = f"ua: bad argument\nua: --journal {room.journal}: not of a call\n"
        expect("of no call", (2, "", told), ended)
        for length in [begun, written.index("\ninvite ") + 20]:
            room.journal.write_bytes(written[:length].encode())
            ended = ran(*words, *options({**asked, "--call-id": "c2"}))
            expect("without a round", (0, True),
                   (ended.status, "\ninvite c2 " in read(room.journal)))


def options(words):
    return [part for pair in words.items() for part in pair]


@test
def a_compact_journal_leads_to_the_same():
    """It has the calls alone that are up, and answers all that follows as the whole one does."""
    with Room() as room:
        room.journal.write_bytes(STORED.read_bytes())
        room.journal.chmod(0o640)
        short = Path(room.folder.name, "short")
        words = ["compact", "--journal", room.journal, "--into", short]
        expect("the end", (0, "", ""), ran(*words))
        expect("permissions", 0o640, short.stat().st_mode & 0o777)
        told = f"ua: output failed\nua: --into {short}: File exists (os error 17)\n"
        expect("a second time", (4, "", told), ran(*words))
        whole, compact = read(room.journal), read(short)
    calls, ended = calls_in(whole, "INVITE"), calls_in(whole, "BYE")
    expect("calls that are over", (12, 9), (len(calls), len(ended)))
    expect("the calls of the short one", calls - ended, calls_in(compact, ""))
    byes = byes_for(whole, calls - ended)
    answers = last_round(whole + byes)
    expect("calls that are up", 3, answers.count(" ended "))
    expect("what comes of each BYE", answers, last_round(compact + byes))
    other = read(STORED.with_name("without-a-call"))
    expect("of a journal without a call", False, last_round(other + byes) == answers)


def calls_in(journal, method):
    """The Call-IDs of the datagrams with this method; of all, if it is empty."""
    return set(re.findall(rf"\ndatagram \S+ {method}.*\\nCall-ID: ([^\\]+)", journal))


def byes_for(journal, calls):
    """A round in which a BYE of each of these calls comes."""
    lines = [f"round {max(map(int, lines_after('round ', journal))) + 1}\n"]
    output = replayed(journal, "--session")
    told = re.findall(r"notice (\S+) request \S+ INVITE (\S+) (\S+) ", output)
    for call, tag, peer_tag in told:
        if call in calls:
            lines.append(
                f"datagram 127.0.0.1:6410 BYE sip:service@127.0.0.1:6400 SIP/2.0\\r\\n"
                f"Via: SIP/2.0/UDP 127.0.0.1:6410;branch=z9hG4bKbye{call}\\r\\n"
                f"From: <sip:sipp@127.0.0.1>;tag={peer_tag}\\r\\n"
                f"To: <sip:service@127.0.0.1>;tag={tag}\\r\\n"
                f"Call-ID: {call}\\r\\nCSeq: 9 BYE\\r\\n\\r\\n\n")
    return "".join(lines)


def last_round(session):
    return replayed(session, "--session").rpartition("\nround ")[2]


# The agent of the journals that are made here, its peer, and how many calls they have.
OWN, PEER = "127.0.0.1:6400", "127.0.0.1:6410"
CALLS = 16


@test
def a_transaction_that_takes_a_datagram_of_another_call():
    """The INVITE of each call comes again 25 s later, with another Call-ID, while its transaction
    lasts. So a call that is over stays in the short journal as long as the other one."""
    whole = SESSION
    for number in range(CALLS):
        moment, call = 12_000 * number, f"a{number}"
        whole = with_answer(whole, moment, call, asked("INVITE", call, number))
        tag = tag_in(whole, call)
        whole += round_of(moment, asked("ACK", call, f"ack{number}", 1, tag))
        whole = with_answer(whole, moment, call, asked("BYE", call, f"bye{number}", 2, tag))
        if number >= 2:
            again = asked("INVITE", f"b{number - 2}", number - 2)
            whole += round_of(moment + 1_000, again)
    expect("a call of its own", False, "notice b" in replayed(whole, "--session"))
    # The calls that ended within 37 s, and those that came again within 37 s.
    few = range(CALLS - 6, CALLS)
    calls = {f"a{number}" for number in few} | {f"b{number}" for number in few[:-2]}
    after = [asked("INVITE", f"c{number}", number) for number in few]
    expect_short(whole, calls, round_of(12_000 * CALLS, *after))


@test
def a_response_with_the_call_id_of_another_call():
    """It answers the agent's INVITE, and makes a dialog of the call that this began."""
    whole, tag = with_past_calls(*answered_invite("other"))
    expect("the call", True, "notice up response 0.1 200 " in replayed(whole, "--session"))
    last = 1_000 * CALLS + 37_000
    bye = round_of(last, asked("BYE", "up", "bye", 2, tag))
    expect_short(whole + round_of(last), {"up", "other"}, bye)


@test
def a_failed_send_in_a_call_that_is_up():
    """It ended an INFO, which the short journal would else hold: it stays, and so do the events of
    each other kind."""
    whole, tag = with_past_calls(*answered_invite("up"))
    last = 1_000 * CALLS + 37_000
    whole += round_of(last, f"request up {tag} peer INFO -\n")
    branch = re.search(r"send \S+ INFO .*;branch=([^\\]+)", last_round(whole))[1]
    whole += round_of(last, f"failed client {branch} INFO\n") + round_of(last)
    bye = round_of(last, asked("BYE", "up", "bye", 2, tag))
    compact = expect_short(whole, {"up"}, bye)
    for kind in ["invite", "datagram", "request", "failed"]:
        expect(f"an event of the kind {kind}", True, f"\n{kind} " in compact)


def answered_invite(call):
    """A journal in which the agent's INVITE `up` gets a 200 that names this call, and its tag."""
    invite = f"invite up {PEER} sip:b@{PEER} sip:a@{OWN} sip:b@{PEER} none -\n"
    whole = SESSION + round_of(0, invite)
    sent = replayed(whole, "--session")
    branch, tag = re.search(r";branch=([^\\]+).*;tag=([^\\]+)", sent).groups()
    whole += round_of(0, datagram(
        "SIP/2.0 200 OK", f"Via: SIP/2.0/UDP {OWN};branch={branch}",
        f"From: <sip:a@{OWN}>;tag={tag}", f"To: <sip:b@{PEER}>;tag=peer",
        f"Call-ID: {call}", "CSeq: 1 INVITE", f"Contact: <sip:b@{PEER}>"))
    return whole, tag


def with_past_calls(whole, tag):
    """The journal with some OPTIONS that are over when 37 s more have passed."""
    for number in range(CALLS):
        call = f"over{number}"
        whole = with_answer(whole, 1_000 * number, call, asked("OPTIONS", call, number))
    return whole, tag


# A journal without a round.
SESSION = f"sip-session 1\nlocal {OWN}\nseed {64 * '0'}\nfirst 0\n"


def round_of(moment, *events):
    return f"round {moment}\n" + "".join(events)


def with_answer(journal, moment, call, request):
    """The journal with a request of the peer, and with its answer in the next round."""
    number = journal.count("\nround ")
    answer = f"respond {call} {number}.1 200 plain - OK\n"
    return journal + round_of(moment, request) + round_of(moment, answer)


def tag_in(journal, call):
    """The agent's tag in a call of the peer."""
    output = replayed(journal, "--session")
    return re.search(rf"notice {call} request \S+ INVITE (\S+) ", output)[1]


def asked(method, call, branch, number=1, tag=""):
    """A request of the peer."""
    return datagram(
        f"{method} sip:a@{OWN} SIP/2.0", f"Via: SIP/2.0/UDP {PEER};branch=z9hG4bK{branch}",
        f"From: <sip:b@{PEER}>;tag=peer", f"To: <sip:a@{OWN}>" + (tag and f";tag={tag}"),
        f"Call-ID: {call}", f"CSeq: {number} {method}", f"Contact: <sip:b@{PEER}>")


def datagram(*lines):
    """A message of the peer."""
    return f"datagram {PEER} " + "".join(f"{line}\\r\\n" for line in [*lines, ""]) + "\n"


def expect_short(whole, calls, after):
    """The short journal has these calls alone, and answers alike what comes after. Returns it."""
    with Room() as room:
        room.journal.write_text(whole)
        short = Path(room.folder.name, "short")
        ended = ran("compact", "--journal", room.journal, "--into", short)
        expect("the end", (0, "", ""), ended)
        compact = read(short)
    found = re.findall(r"\n(?:invite |datagram .*\\nCall-ID: )([^ \\]+)", compact)
    expect("the calls of the short one", calls, set(found))
    expect("what comes after", last_round(whole + after), last_round(compact + after))
    return compact


@test
def a_journal_that_is_torn_is_not_made_short():
    with Room() as room:
        room.journal.write_bytes(STORED.read_bytes()[:3000])
        short = Path(room.folder.name, "short")
        ended = ran("compact", "--journal", room.journal, "--into", short)
        expect("the end", (1, "", "ua: journal round 4: round line 3\n"), ended)
        expect("a file", False, short.exists())
        ended = ran("compact", "--journal", short, "--into", short)
        told = f"ua: journal failed\nua: --journal {short}: {MISSING}\n"
        expect("of no file", (4, "", told), ended)


@test
def a_short_journal_that_has_other_permissions_is_removed():
    with Room() as room:
        room.journal.write_bytes(STORED.read_bytes())
        short = Path(room.folder.name, "short")
        ended = ran("compact", "--journal", room.journal, "--into", short,
                    script=refusing("fchmod"))
        told = f"ua: output failed\nua: --into {short}: {REFUSED}\n"
        expect("the end", (4, "", told), ended)
        expect("a file", False, short.exists())


def write_long(journal, local):
    """A journal that is long enough to be made shorter."""
    rounds = [f"round {number}\ndatagram 127.0.0.1:9 {60_000 * 'x'}\n" for number in range(300)]
    head = f"sip-session 1\nlocal {local}\nseed {64 * '0'}\nfirst 0\n"
    journal.write_text(head + "".join(rounds))


@test
def a_shorter_journal_that_cannot_be_made():
    """This is said, and the run goes on in the long one."""
    for script, told in [([], "File exists (os error 17)"), (refusing("fdatasync"), REFUSED)]:
        with Room() as room:
            words = ["listen", "--local", free_address(), "--journal", room.journal]
            write_long(room.journal, words[2])
            if not script:
                shorter(room.journal).mkdir()
            with Running(*words, script=script) as listener, Peer(words[2]) as peer:
                listener.ready()
                for number in tries("a word of it"):
                    peer.ask("OPTIONS", f"c{number}")
                    peer.receive("SIP/2.0 200 ", f"Call-ID: c{number}\r\n")
                    if len(listener.errors.lines) > 1:
                        break
                line = f"ua: --journal {room.journal}: not made shorter: {told}\n"
                expect("what is said", line, listener.errors.lines[1])
                expect("a shorter one", False, shorter(room.journal).is_file())
                expect("the last round", True, f"Call-ID: c{number}\\r\\n" in read(room.journal))
                listener.end_input()
                expect("status", 0, listener.ended().status)


def shorter(journal):
    return journal.with_name("journal.being-compacted")


@test
def a_journal_that_failed_does_not_come_back_as_a_shorter_one():
    with Room() as room:
        words = ["listen", "--local", free_address(), "--journal", room.journal,
                 "--journal-may-fail"]
        write_long(room.journal, words[2])
        with Running(*words) as listener, Peer(words[2]) as peer:
            listener.ready()
            peer.ask("OPTIONS", "c1")
            peer.receive("SIP/2.0 200 ")
            for _ in tries("a shorter journal"):
                if shorter(room.journal).exists():
                    break
            room.journal.rename(room.journal.with_name("moved"))
            for call in ["c2", "c3"]:
                peer.ask("OPTIONS", call)
                peer.receive("SIP/2.0 200 ", f"Call-ID: {call}\r\n")
                expect("a shorter one", False, shorter(room.journal).exists())
                expect("the journal", False, room.journal.exists())
                time.sleep(3)
            listener.end_input()
            expect("status", 0, listener.ended().status)


@test
def a_closed_input_is_an_empty_one():
    """Its descriptor isn't that of the socket, from which commands would be read."""
    ended = ran("agent", "--local", ANY, "--linger", "0", script=redirected("<&-"))
    expect("the end", (0, "", ""), (ended.status, ended.output, without_ready(ended.errors)))
