"""A listener and a caller: what they tell, record and count, and how they end."""

import re
import subprocess
import tempfile
from pathlib import Path

from loopback import ANY, Peer, address_of, bound, tag_of
from process import Running, ran
from register import Wrong, expect, expect_in_order, test

URI = "sip:b@127.0.0.1"


def calling(to, *words):
    """The words of a caller."""
    return ["call", "--local", ANY, "--to", to, "--uri", URI, *words]


def told_up_to(words, *notices):
    """How a run ends whose input ends once these notices were told, one after the other."""
    with Running(*words) as run:
        for notice in notices:
            run.output.next(notice)
        run.end_input()
        return run.ended()


def count(errors, what):
    """The number before these words in the line of statistics."""
    found = re.search(rf"(\d+) {what}", errors)
    if not found:
        raise Wrong(f"a count\nwanted: {what}\ncame:   {errors!r}")
    return int(found[1])


@test
def a_call_between_two_programs():
    with Running("listen", "--local", ANY) as listener:
        to = listener.ready()
        told = told_up_to(calling(to), "notice ua-call ended ", " 200 ")
        listener.end_input()
        heard = listener.ended()
    expect("status", (0, 0), (heard.status, told.status))
    expect_in_order("the listener", [
        " request ", " INVITE ", "notice ua-call ack ", " request ", " BYE ",
        "notice ua-call ended "], heard.output)
    expect_in_order("the caller", [
        " response 0.1 200 ", "notice ua-call ended ", " response ", " 200 "], told.output)


@test
def a_call_that_is_given_up_while_it_rings():
    """It is cancelled one second before its last turn, and 487 is its only final response."""
    with Running("listen", "--local", ANY, "--ring", "60000") as listener:
        told = ran(*calling(listener.ready(), "--turns", "150", "--leave"))
        listener.end_input()
        heard = listener.ended()
    expect("status", (0, 0), (heard.status, told.status))
    expect_in_order("the listener", [
        " request ", " INVITE ", "notice ua-call cancel ", "notice ua-call ended "], heard.output)
    expect_in_order("the caller", [
        " response 0.1 180 ", " response 0.1 487 ", "notice ua-call ended "], told.output)
    expect("answers", False, " response 0.1 200 " in told.output)


@test
def the_end_of_the_input_ends_a_call():
    """That of a listener with three agents ends the call that is up, and then the listener. That of
    a caller ends the caller."""
    with Running("listen", "--local", ANY, "--agents", "3") as listener:
        words = calling(listener.ready(), "--hold", "60000")
        with Running(*words) as caller:
            listener.output.next("notice ua-call ack ")
            listener.end_input()
            heard = listener.ended()
            caller.output.next("notice ua-call ended ")
            caller.end_input()
            told = caller.ended()
    expect("status", (0, 0), (heard.status, told.status))
    expect_in_order("the listener", [
        " INVITE ", "notice ua-call ack ", "notice ua-call ended ", " 200 "], heard.output)
    expect_in_order("the caller", [
        " response 0.1 200 ", " BYE ", "notice ua-call ended "], told.output)


@test
def the_end_of_the_input_ends_a_caller():
    """Its call is up, and gets a BYE; or it rings, and is cancelled."""
    for words, parts in [
            ([], [" 200 ", "notice ua-call ended "]),
            (["--ring", "60000"], [" 180 ", " 487 ", "notice ua-call ended "])]:
        with Running("listen", "--local", ANY, *words) as listener:
            with Running(*calling(listener.ready(), "--hold", "60000")) as caller:
                caller.output.next(parts[0])
                caller.end_input()
                told = caller.ended()
            expect("status", 0, told.status)
            expect_in_order(f"the caller, {words}", parts, told.output)
            listener.output.next("notice ua-call ended ")


@test
def a_callee_that_changes_the_callers_tag():
    """Its 200 has another tag in From. The BYE has the tag that was sent, and ends the call."""
    with Peer(ANY) as callee:
        with Running(*calling(callee.address)) as caller:
            invite = callee.receive("INVITE ")
            callee.other = re.search(r"SIP/2.0/UDP ([0-9.:]+)", invite)[1]
            tag = tag_of(invite, "From")
            callee.answer(invite.replace(tag, "another"), "200 OK", "b",
                          f"Contact: <sip:b@{callee.address}>")
            bye = callee.receive("BYE ", f";tag={tag}")
            callee.answer(bye, "200 OK", "b")
            caller.output.next("notice ua-call ended ")
            caller.end_input()
            told = caller.ended()
    expect("status", 0, told.status)
    if "refused" in told.output:
        raise Wrong(f"no refusal\ncame:   {told.output}")


@test
def an_input_that_is_empty_from_the_start_ends_nothing():
    ended = ran("listen", "--local", ANY, "--turns", "150", "--stats", stdin=subprocess.DEVNULL)
    expect("status", 0, ended.status)
    expect("rounds", True, count(ended.errors, "rounds") > 110)


@test
def a_call_that_cannot_be_sent_fails():
    """The agent is told of a failed send. If a record can't be written, only recording ends."""
    ended = ran(*calling("255.255.255.255:5060", "--turns", "20", "--must-answer", "--record",
                         "/dev/full"))
    told = "ua: record failed\n" \
        "ua: --record: No space left on device (os error 28)\nua: not answered\n"
    expect("the end", (6, "notice ua-call failed 0.1\n", told), ended)


@test
def what_is_sent_again_is_counted():
    """An INVITE that nobody answers is retransmitted."""
    with bound() as silent:
        ended = ran(*calling(address_of(silent), "--turns", "80", "--stats"))
    expect("status", 0, ended.status)
    expect_in_order("counts", [
        " 0 failed, ", " 1 INVITEs, ", " 0 unanswered, 1 open, "], ended.errors)
    sent, again = count(ended.errors, "sent"), count(ended.errors, "again")
    if again == 0 or sent != again + 1:
        raise Wrong(f"retransmissions: {sent} sent, {again} again")


def moment_of(record, beginning, words):
    """The moment of the round with the first event that begins so and has these words."""
    moment = None
    for line in record.splitlines():
        if line.startswith("round "):
            moment = int(line.removeprefix("round "))
        if line.startswith(beginning) and words in line:
            return moment
    raise Wrong(f"an event\nwanted: {beginning}, {words}\ncame:   {record!r}")


@test
def a_call_is_as_the_words_of_both_say():
    """The listener rings, and answers with a body. The caller acknowledges that, stays for a while,
    and ends each dialog once. What is sent names the port that the socket got."""
    with tempfile.TemporaryDirectory() as room:
        body, heard_by, told_by = (Path(room, name) for name in ("body", "listener", "caller"))
        body.write_bytes(b"v=0\r\n")
        words = ["--ring", "100", "--reliable", "--body", body, "--record", heard_by, "--stats"]
        with Running("listen", "--local", ANY, *words) as listener:
            words = ["--turns", "300", "--hold", "300", "--leave", "--must-answer", "--stats"]
            told = ran(*calling(listener.ready(), *words, "--record", told_by))
            listener.end_input()
            heard = listener.ended()
        events, commands = heard_by.read_text("latin-1"), told_by.read_text("latin-1")
    expect("status", (0, 0), (heard.status, told.status))
    expect_in_order("the caller", [
        " 180 ", " response 0.1 200 ", " v=0\\r\\n\n", " ended ", " 200 "], told.output)
    expect("refusals", False, " refused " in told.output)
    expect_in_order("the listener", [
        " INVITE ", "notice ua-call ack ", " BYE ", " ended "], heard.output)
    begun = moment_of(commands, "datagram ", " SIP/2.0 200 ")
    held = moment_of(commands, "request ", " BYE ") - begun
    if held < 300:
        raise Wrong(f"the call is up for 300 ms\ncame:   {held} ms")
    port = re.search(r"ua: local 127\.0\.0\.1:(\d+), ", told.errors)[1]
    expect("a port", False, port == "0")
    expect_in_order("the listener's record", [
        "INVITE ", f"Via: SIP/2.0/UDP 127.0.0.1:{port};", ";branch=",
        f"Contact: <sip:127.0.0.1:{port}>"], events)
    expect_in_order("counts", [", 1 INVITEs, 1 answered, ", " 0 lost, "], heard.errors)


@test
def a_recorded_call_is_replayed_as_it_was():
    """Each program told what its replay tells, and got what the other's replay sends."""
    with tempfile.TemporaryDirectory() as room:
        heard_by, told_by = Path(room, "listener"), Path(room, "caller")
        words = ["--ring", "200", "--record", heard_by]
        with Running("listen", "--local", ANY, *words) as listener:
            to = listener.ready()
            words = calling(to, "--hold", "300", "--must-answer", "--record", told_by)
            told = told_up_to(words, "notice ua-call ended ", " 200 ")
            listener.end_input()
            heard = listener.ended()
        events, commands = heard_by.read_text("latin-1"), told_by.read_text("latin-1")
    expect("status", (0, 0), (heard.status, told.status))
    own = commands.splitlines()[1].removeprefix("local ")
    served, asked = replayed(events), replayed(commands)
    for output, run in [(served, heard), (asked, told)]:
        expect("notices", lines_after("notice ", output), lines_after("notice ", run.output))
    comes_as_it_was_sent("to the listener", own, to, asked, events)
    comes_as_it_was_sent("to the caller", to, own, served, commands)
    expect_in_order("the caller", [" 180 ", " response 0.1 200 ", " ended ", " 200 "], told.output)


def replayed(record, *words):
    """The output file of a record."""
    ended = ran("replay", *words, text=record)
    expect("a replay", (0, ""), (ended.status, ended.errors))
    return ended.output


def lines_after(beginning, text):
    """What follows this beginning of lines."""
    lines = text.splitlines()
    return [line.removeprefix(beginning) for line in lines if line.startswith(beginning)]


def comes_as_it_was_sent(what, source, target, output, record):
    """What arrived is the first of what the other's replay sends."""
    arrived = lines_after(f"datagram {source} ", record)
    sent = lines_after(f"send {target} ", output)
    expect(what, sent[: len(arrived)], arrived)
    expect(f"{what}, three datagrams", True, len(arrived) >= 3)
