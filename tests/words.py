"""Words of the command line: their faults, and the helps."""

import re

from agents import plain
from loopback import ANY, address_of, bound
from process import Running, ran
from register import Wrong, expect, test
from talks import calling, told_up_to

# The least length of a tag that the program makes.
TAG_LENGTH = 41


@test
def a_word_that_is_not_utf8_is_a_bad_word():
    told = "error: invalid UTF-8 was detected in one or more arguments\n\n" \
        "For more information, try '--help'.\n"
    for words in [[b"repl\xe4y"], ["replay", b"\xff"]]:
        expect(words, (2, "", told), ran(*words))


@test
def a_uri_without_a_scheme():
    for uri in ["b", "1b:c", "b@c:5060", ":c"]:
        ended = ran("call", "--local", ANY, "--to", "127.0.0.1:5060", "--turns", "0", "--uri", uri)
        told = f"ua: bad argument\nua: --uri {uri}: no scheme, as in sip:bob@192.0.2.9\n"
        expect(uri, (2, "", told), ended)


@test
def an_address_that_another_socket_has():
    with bound() as taken:
        local = address_of(taken)
        ended = ran("listen", "--local", local, "--turns", "1")
    told = f"ua: socket failed\nua: {local}: Address already in use (os error 98)\n"
    expect(local, (4, "", told), ended)


@test
def a_help_is_no_fault():
    for words in [
            ["help"], ["--help"], ["--version"], ["replay", "--help"], ["call", "-h"],
            ["help", "ladder"]]:
        ended = ran(*words)
        expect(words, (0, ""), (ended.status, ended.errors))
        if not ended.output:
            raise Wrong(f"{words}\nwanted: a text\ncame:   nothing")


@test
def the_programs_print_what_their_helps_show():
    """A listener and a caller, and then an agent that asks the listener for an OPTIONS."""
    with Running("listen", "--local", ANY) as listener:
        to = listener.ready()
        called = told_up_to(calling(to), "notice ua-call ended ", " 200 ")
        heard = "".join(listener.output.lines)
        with Running("agent", "--local", ANY, "--linger", "0") as agent:
            agent.say(plain(to, "c1", "OPTIONS"))
            asked = agent.output.next("notice c1 response ")
    expect("listen", shown("listen"), notices_in(heard))
    expect("call", shown("call"), notices_in(called.output))
    expect("agent", shown("agent"), notices_in(asked))


def shown(command):
    """The notices that a help shows."""
    notices = notices_in(ran("help", command).output)
    if not notices:
        raise Wrong(f"notices in the help of {command}\ncame:   none")
    return notices


def notices_in(text):
    """The notices in a text, with their ids, tags and session descriptions made alike. A 100 comes
    only if the peer is slow."""
    lines = [line.split() for line in text.splitlines() if " 100 " not in line]
    return [[alike(word) for word in line] for line in lines if line[:1] == ["notice"]]


def alike(word):
    if re.fullmatch(r"\d+\.\d+", word):
        return "ID"
    if word == "SDP" or word.startswith("v=0"):
        return "SDP"
    if len(word) >= TAG_LENGTH or word in ("LOCAL-TAG", "REMOTE-TAG"):
        return "TAG"
    return word
