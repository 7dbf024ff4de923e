"""The tests by their names, and what a test says where something is wrong."""

TESTS = {}


class Wrong(Exception):
    """What isn't as it should be."""


class Skipped(Exception):
    """Why a test can't be run here."""


def test(function):
    """Registers a function that returns if all is right, and raises Wrong if not."""
    TESTS[f"{function.__module__}/{function.__name__}"] = function
    return function


def expect(what, wanted, came):
    """Refuses what came if it isn't what is wanted."""
    if came != wanted:
        raise Wrong(f"{what}\nwanted: {shortened(wanted)}\ncame:   {shortened(came)}")


def expect_in_order(what, parts, text):
    """Refuses a text in which these parts don't stand, one behind the other."""
    left = text
    for part in parts:
        _, found, left = left.partition(part)
        if not found:
            raise Wrong(
                f"{what}\nwanted: {part!r}, in the order {shortened(parts)}\n"
                f"came:   {shortened(text)}")


def shortened(value):
    """A value as Python spells it, without the middle of a long one."""
    text = repr(value)
    return text if len(text) <= 2000 else f"{text[:1000]} .. {text[-1000:]}"
