"""An agent on a pipe: its commands, what it tells and sends, and its record."""

import re
import tempfile
from pathlib import Path

from loopback import ANY, Peer, tag_of
from process import Running, ran, redirected
from register import expect, expect_in_order, test
from talks import lines_after, replayed

# The longest line of a pipe, in bytes.
LONGEST_LINE = 1 << 20


def plain(to, call, method, body="-"):
    """A command to send a request outside of dialogs."""
    return f"plain {call} {to} {method} sip:b@{to} sip:a@127.0.0.1 sip:b@{to} {body}"


def invite(to, call, support="none"):
    return f"invite {call} {to} sip:b@{to} sip:a@127.0.0.1 sip:b@{to} {support} -"


def is_replayed(output, told, came, to):
    """A replay tells what the agent told, and first sends what came to a peer."""
    expect("notices", lines_after("notice ", output), lines_after("notice ", told))
    sent = lines_after(f"send {to} ", output)
    expect("what came", sent[: len(came)], came)


def spelled(text):
    """A datagram as a file spells it."""
    return text.replace("\\", "\\\\").replace("\r", "\\r").replace("\n", "\\n")


@test
def an_agent_on_a_pipe_is_replayed_as_it_was():
    """A call that two peers answer, ended with both, and one that is cancelled while it rings."""
    with tempfile.TemporaryDirectory() as room:
        record = Path(room, "record")
        words = ["agent", "--local", ANY, "--linger", "100", "--record", record]
        with Running(*words) as agent, Peer(agent.ready()) as peer:
            is_forked(agent, peer)
            is_cancelled(agent, peer)
            agent.end_input()
            ended = agent.ended()
        output = replayed(record.read_text("latin-1"))
    expect("status", 0, ended.status)
    is_replayed(output, ended.output, [spelled(text) for text in peer.came], peer.address)
    drops = [len(lines_after("drop ", text)) for text in (output, ended.output)]
    expect("drops", drops[0], drops[1])
    expect_in_order("the notices", [
        " ended ", " y\n", " response ", " 487 ", "notice c2 ended "], ended.output)
    told = "ua: line 2 is not a command\nua: line 2, word 1: expected invite, plain, request, " \
        "respond, ack, prack or cancel\n"
    expect("what is wrong", told, ended.errors.partition("\n")[2])


def is_forked(agent, peer):
    agent.say(invite(peer.address, "c1"))
    request = peer.receive("INVITE ")
    peer.answer(request, "180 Ringing", "x")
    for tag in ["x", "y"]:
        peer.answer(request, "200 OK", tag)
        peer.receive("ACK ")
    agent.say("this is not a command")
    for tag in ["x", "y"]:
        agent.say(f"request c1 {tag_of(request, 'From')} {tag} BYE -")
        peer.answer(peer.receive("BYE "), "200 OK", tag)


def is_cancelled(agent, peer):
    agent.say(invite(peer.address, "c2"))
    request = peer.receive("INVITE ")
    peer.answer(request, "180 Ringing", "z")
    number = agent.output.next("notice c2 response ").split()[3]
    agent.say(f"cancel c2 {number}")
    peer.answer(peer.receive("CANCEL "), "200 OK", "z")
    peer.answer(request, "487 Request Terminated", "z")
    peer.receive("ACK ")
    agent.output.next("notice c2 ended ")


@test
def headers_on_a_pipe_are_recorded_as_a_session():
    """A command takes all its header lines or isn't asked for. The record is a session file."""
    with tempfile.TemporaryDirectory() as room:
        record = Path(room, "record")
        words = ["agent", "--local", ANY, "--linger", "100", "--headers", "--record", record]
        with Running(*words) as agent, Peer(agent.ready()) as peer:
            say_headers(agent, peer.address)
            peer.answer(peer.receive("MESSAGE "), "200 OK", "z")
            agent.output.next(" 200 ")
            agent.end_input()
            ended = agent.ended()
        events = record.read_text("latin-1")
    came = [spelled(text) for text in peer.came]
    expect("status", 0, ended.status)
    expect("a session", True, events.startswith("sip-session 1\n"))
    expect_in_order("the record", [
        " Subject: lunch\n Content-Type: text/plain\nplain c1 ", "datagram "], events)
    expect_in_order("the request", [
        "\\r\\nSubject: lunch\\r\\nContent-Type: text/plain\\r\\n"], "\n".join(came))
    expect_in_order("the response", [
        " Via: SIP/2.0/UDP ",
        ";tag=z\n Call-ID: c1\n CSeq: 1 MESSAGE\nnotice c1 response 0.1 200 "], ended.output)
    expect("no event file", 1, ran("replay", text=events).status)
    is_replayed(replayed(events, "--session"), ended.output, came, peer.address)
    expect("what is wrong", [
        "6 is not a command", "6: expected a header line of a user", "7 is not a command",
        "8 is not a command", "9 is not a command", "10 is not a command",
        "10: longer than 1048576 bytes", "11 is not a command"],
        lines_after("ua: line ", ended.errors))


def say_headers(agent, to):
    """A MESSAGE with headers, and lines that have no part in a command."""
    agent.say("# A message.\n Subject: lunch\n\n Content-Type: text/plain\r")
    agent.say(plain(to, "c1", "MESSAGE", "hello"))
    agent.say(" Via: none of the user's")
    agent.say(plain(to, "c2", "OPTIONS"))
    agent.say(" Subject: tea\ncancel c1 0.1")
    agent.say((LONGEST_LINE + 1) * "x")
    agent.say(" Subject: dinner")


@test
def a_listener_answers_reliably_and_as_it_is_told():
    """The 183 is acknowledged before the 486 comes, and an OPTIONS is answered."""
    with Running("listen", "--local", ANY, "--reliable", "--answer", "486") as listener:
        to = listener.ready()
        with Running("agent", "--local", ANY, "--linger", "100") as agent:
            agent.say(invite(to, "c1", "supported"))
            agent.output.next(" ended ")
            agent.say(plain(to, "c2", "OPTIONS"))
            agent.output.next("notice c2 response ")
            agent.end_input()
            told = agent.ended()
        listener.end_input()
        heard = listener.ended()
    expect("status", (0, 0), (told.status, heard.status))
    expect_in_order("the agent", [
        " 183 ", " 486 ", " ended ", "notice c2 response ", " 200 "], told.output)
    expect_in_order("the listener", [" INVITE ", "notice c1 prack ", " OPTIONS "], heard.output)


@test
def ids_are_told_in_the_order_of_the_commands():
    """Each command has an id, also one that is refused, and the responses to it have the same."""
    with Running("agent", "--local", ANY, "--linger", "100", "--ids") as agent:
        with Peer(agent.ready()) as peer:
            for number in range(1, 4):
                agent.say(plain(peer.address, f"c{number}", "OPTIONS"))
                agent.say(f"none\ncancel c{number} 0.9")
                peer.answer(peer.receive("OPTIONS ", f"Call-ID: c{number}\r\n"), "200 OK", "z")
            for number in range(1, 4):
                agent.output.next(f"notice c{number} response ")
            agent.end_input()
            ended = agent.ended()
    asked = lines_after("asked ", ended.output)
    expect("refusals", 3, len(re.findall(r"notice c\d refused ", ended.output)))
    expect("ids", re.findall(r"notice c\d response (\S+) ", ended.output), asked[::2])
    expect("their order", sorted(set(asked), key=lambda name: [*map(int, name.split("."))]), asked)
    expect("commands", 6, len(asked))


@test
def an_input_that_cannot_be_read_ends_an_agent():
    with Running("agent", "--local", ANY, script=redirected("< /")) as agent:
        ended = agent.ended()
    expect("the end", (4, "", "ua: input failed\n"),
           (ended.status, ended.output, ended.errors.partition("\n")[2]))
