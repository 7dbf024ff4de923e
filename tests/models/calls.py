"""Calls: the requests and the dialogs of one Call-ID, what the user is told, and what is sent.

RFC 3261, sections 8, 9 and 12 to 15; RFC 3262; RFC 6026, section 7; and what docs/DECISIONS.md and
docs/FORMATS.md say where these leave a choice. A dialog is one from what makes it to what ends it;
a dialog of the same tags after that is another one. Of two things that fit, each function names the
one that counts.
"""

from collections import namedtuple
from dataclasses import dataclass, field, replace

from messages import MOST_NUMBER, Message, Party, Via, client_key, lower, match, rest_of, tag_of
from tables import LIFETIME, T1, T2, class_of

MOST_LOCAL_NUMBER = 2**31 - 1
MOST_UNACKNOWLEDGED = 8
NUMBER = "(0|[1-9][0-9]*)"
# The numbers by which commands are refused.
CALL_IN_USE, NO_SUCH_CALL, NO_SUCH_DIALOG, NO_SUCH_REQUEST, ALREADY_FINAL, BAD_STATUS = range(1, 7)
RELIABLE_PENDING, NOT_SUPPORTED, NOTHING_TO_ACK, NOTHING_TO_PRACK, NUMBERS_USED_UP = range(7, 12)
STRICT_ROUTE, DIALOG_ENDED, BAD_METHOD = range(12, 15)
OK, TERMINATED = (200, "OK"), (487, "Request Terminated")
BAD_EXTENSION, NOT_THERE = (420, "Bad Extension"), (481, "Call/Transaction Does Not Exist")
MERGED, OUT_OF_ORDER = (482, "Loop Detected"), (500, "Server Internal Error")


@dataclass(eq=False)
class Dialog:
    """A dialog (RFC 3261, 12); its parties as they stand in the requests that are sent in it."""

    local: Party
    remote: Party
    invite: tuple
    is_callee: bool
    is_early: bool
    target: str
    routes: tuple
    address: str
    opening: int
    requests: int = 0
    accepted: list = field(default_factory=list)
    offered: dict = field(default_factory=dict)
    owed: list = field(default_factory=list)
    is_held: bool = True

    def number(self):
        """The number of the latest request that was sent in it (12.2.1.1)."""
        return self.opening + self.requests

    def takes(self, number):
        """Whether a request of this number is in order (12.2.2)."""
        return number > max(self.accepted, default=-1)

    def offer(self, invite, rseq):
        """Whether a reliable provisional response is the next of an INVITE (RFC 3262, 4)."""
        before = self.offered.setdefault(invite, [])
        taken = len(in_order(before))
        before.append(rseq)
        return len(in_order(before)) > taken

    def next_hop(self):
        """Where its requests go (8.1.2), if an address stands there."""
        return address_in(self.routes[0].uri if self.routes else self.target) or self.address

    def is_strict(self):
        return bool(self.routes) and not has_lr(self.routes[0].uri)


def in_order(numbers):
    """Of the RSeqs that came the first, and then each that is one more than the last of these."""
    taken = []
    for number in numbers:
        if not taken or number == taken[-1] + 1:
            taken.append(number)
    return taken


def host_and_more(uri):
    """What stands in a URI from its host on, or None where it has none (RFC 3261, 19.1.1)."""
    for before, mark, after in (uri.rpartition("@"), uri.partition(":")):
        if mark:
            return after
    return None


def address_in(uri):
    """The address that a URI has: four numbers, and 5060 where it has no port."""
    parts = match(r"([^:;?]*)(?::([^;?]*))?(?:[;?].*)?", host_and_more(uri) or "")
    address = f"{parts[1]}:{'5060' if parts[2] is None else parts[2]}"
    return address if is_address(address) else None


def is_address(text):
    """Whether it is four numbers up to 255 and a port, in their one spelling."""
    parts = match(rf"{NUMBER}\.{NUMBER}\.{NUMBER}\.{NUMBER}:{NUMBER}", text)
    most = (255, 255, 255, 255, 65535)
    return bool(parts) and all(int(part) <= at for part, at in zip(parts.groups(), most))


def has_lr(uri):
    """Whether a route's URI has the parameter lr after its host (19.1.1)."""
    parameters = (host_and_more(uri) or "").partition("?")[0].split(";")[1:]
    return "lr" in [lower(one.partition("=")[0]) for one in parameters]


def is_due(sent_at, ticks, cap):
    """Whether what was sent then is sent again at the last of these ticks: T1 later, and twice as
    long after each repeat, up to the cap (13.3.1.4; RFC 3262, 3)."""
    due, repeats, fires = sent_at + T1, 0, False
    for moment in ticks:
        fires = moment >= due
        if fires:
            repeats += 1
            due = moment + min(T1 * 2**repeats, cap)
    return fires


@dataclass(eq=False)
class Provisional:
    """A reliable provisional response that was sent."""

    response: Message
    sent_at: int
    ticks: list = field(default_factory=list)
    is_acknowledged: bool = False
    is_given_up: bool = False


@dataclass(eq=False)
class Received:
    """A request that the user is to answer, the tag of its responses and where they go. The dialog
    of an INVITE is the one that it came in or has made; `success` is a 2xx without its ACK."""

    message: Message
    tag: str
    address: str
    dialog: Dialog = None
    final_at: int = None
    success: Message = None
    ticks: list = field(default_factory=list)
    provisionals: list = field(default_factory=list)

    def unacknowledged(self):
        return [one for one in self.provisionals if not one.is_acknowledged]

    def allows_100rel(self):
        return has_100rel(self.message.supported) or self.requires_100rel()

    def requires_100rel(self):
        return has_100rel(self.message.require)


@dataclass(eq=False)
class Sent:
    """A request of the user, the dialog in which it was sent, if any, and of an INVITE the sends of
    its ACKs by To tag, None where one is owed, and the id of its Cancel."""

    message: Message
    address: str
    dialog: Dialog = None
    success_at: int = None
    acks: dict = field(default_factory=dict)
    has_provisional: bool = False
    cancel: tuple = None


# A response that is owed an ACK or, with its RSeq, a PRACK: its INVITE's id and number, its To tag.
Owed = namedtuple("Owed", "method invite number tag rseq", defaults=(None,))


def has_100rel(options):
    return "100rel" in map(lower, options)


def word_of(text):
    """A text as a field that isn't the last."""
    spelled = rest_of(text).replace(" ", r"\s")
    return {"": "-", "-": r"\x2d"}.get(spelled, spelled)


def text_of(event_id):
    return f"{event_id[0]}.{event_id[1]}"


def party(uri, tag):
    return Party("", uri, (("tag", tag),) if tag else ())


def with_content(message, event):
    """A message with what the user puts into it: his headers behind the agent's, but his Contact in
    place of the agent's, and a body, which is SDP where he doesn't say its type."""
    is_typed = any(lower(name) == "content-type" for name, _ in event.others)
    usual = (("Content-Type", "application/sdp"),) if event.body and not is_typed else ()
    return replace(
        message, contacts=event.contacts or message.contacts,
        require=message.require + event.require, supported=message.supported + event.supported,
        others=message.others + event.others + usual, body=event.body)


class Call:
    """What is held under a Call-ID. The agent has its local address, the moment, the names that it
    makes, and the list of commands."""

    def __init__(self, name, agent):
        self.name, self.agent = name, agent
        self.received, self.sent, self.dialogs = {}, {}, []
        self.lines, self.endings = [], []

    def is_held(self):
        return bool(self.received or self.sent or self.dialogs)

    def said(self):
        """What a step told and sent: the ends of dialogs stand last."""
        lines, self.lines, self.endings = self.lines + self.endings, [], []
        return lines

    def notice(self, kind, *fields):
        self.lines.append(" ".join(["notice", word_of(self.name), kind, *map(str, fields)]))

    def refused(self, event_id, number):
        self.notice("refused", event_id[1], number)

    def start(self, event_id, message, address, dialog=None):
        """A client transaction begins (RFC 3261, 17.1)."""
        self.sent[event_id] = Sent(message, address, dialog)
        self.agent.commands.append((client_key(message), "start", event_id, message, address))

    def answer(self, request, response):
        """A response goes to the transaction of its request (17.2)."""
        trigger = f"answer {class_of(response.status)}"
        self.agent.commands.append((request.key(), trigger, None, response, None))

    def find(self, local, remote):
        """The held dialog of these tags."""
        for dialog in self.dialogs:
            tags = lower(tag_of(dialog.local)), lower(tag_of(dialog.remote))
            if tags == (lower(local), lower(remote)):
                return dialog
        return None

    def end(self, dialog):
        """A dialog ends, once (12.3)."""
        if dialog.is_held:
            dialog.is_held = False
            self.dialogs.remove(dialog)
            tags = word_of(tag_of(dialog.local)), word_of(tag_of(dialog.remote))
            self.endings.append(f"notice {word_of(self.name)} ended {tags[0]} {tags[1]}")

    def end_early(self, invite):
        """The early dialogs end that an INVITE has made."""
        for dialog in list(self.dialogs):
            if dialog.is_early and dialog.invite == invite:
                self.end(dialog)

    # The side that is asked.

    def told_request(self, event_id, told):
        """A request came up: the agent answers it itself, or it is held for the user."""
        message = told.message
        if message.method == "CANCEL":
            return self.cancelled(told)
        tag = message.to_tag or self.agent.name(told.id, 0)
        dialog = self.find(message.to_tag, message.from_tag) if message.to_tag else None
        status, *others = self.agents_own(message, dialog)
        if dialog and status not in (BAD_EXTENSION, OUT_OF_ORDER):
            dialog.accepted.append(message.cseq[0])
        if message.method == "PRACK" and status is None:
            status = self.acknowledged(message, dialog)
        if status:
            response = message.response(*status, tag)
            return self.answer(message, replace(response, others=tuple(others)))
        self.received[told.id] = Received(message, tag, told.address, dialog)
        tags = word_of(tag), word_of(message.from_tag)
        self.notice("request", text_of(told.id), message.method, *tags, word_of(message.body))
        if dialog and message.method == "INVITE" and message.contacts:
            dialog.target = message.contacts[0].uri
        if dialog and message.method == "BYE":
            self.end(dialog)

    def agents_own(self, message, dialog):
        """How the agent answers a request itself: a status, and a header; None where it doesn't."""
        number, method = message.cseq
        same = [one for one in self.received.values() if one.message.cseq == message.cseq
                and lower(one.message.from_tag) == lower(message.from_tag)]
        unknown = [one for one in message.require if lower(one) != "100rel"]
        if same and not message.to_tag:
            return (MERGED,)  # 8.2.2.2
        if unknown:
            return BAD_EXTENSION, ("Unsupported", ", ".join(unknown))  # 8.2.2.3
        if not dialog and (message.to_tag or method in ("BYE", "PRACK")):
            return (NOT_THERE,)  # 12.2.2, 15.1.2; RFC 3262, 3
        if dialog and not dialog.takes(number):
            return (OUT_OF_ORDER,)  # 12.2.2
        return (None,)

    def acknowledged(self, message, dialog):
        """A PRACK in a dialog acknowledges the response that it names, of the first INVITE that
        has one (RFC 3262, 3)."""
        for invite, request in sorted(self.received.items()):
            for one in request.unacknowledged():
                if request.dialog is dialog and message.rack == (
                        one.response.rseq, *request.message.cseq):
                    one.is_acknowledged = True
                    self.notice("prack", text_of(invite), message.rack[0], word_of(message.body))
                    return OK
        return NOT_THERE

    def cancelled(self, told):
        """A CANCEL came up, of the last request with its branch and sender (RFC 3261, 9.2)."""
        message = told.message
        fits = [(one, request) for one, request in sorted(self.received.items())
                if request.message.sender() == message.sender()]
        if not fits:
            tag = self.agent.name(told.id, 0)
            return self.answer(message, message.response(*NOT_THERE, tag))
        invite, request = fits[-1]
        self.answer(message, message.response(*OK, request.tag))
        if request.message.method == "INVITE" and request.final_at is None:
            response = request.message.response(*TERMINATED, request.tag)
            self.answer(request.message, response)
            request.final_at = self.agent.now
            self.notice("cancel", text_of(invite))
            self.end_early(invite)

    def user_respond(self, event_id, event):
        """The user answers a request (8.2.6, 12.1.1, 13.3.1; RFC 3262, 3)."""
        request = self.received.get(event.id)
        number = self.why_no_answer(event, request)
        if number:
            return self.refused(event_id, number)
        message, now = request.message, self.agent.now
        response = self.answer_of(event, request)
        if response.rseq:
            request.provisionals.append(Provisional(response, now))
        if message.method == "INVITE" and event.status < 300:
            self.answered_in_dialog(event, request)
        if event.status >= 200:
            request.final_at = now
        if event.status >= 300:
            self.end_early(event.id)
        if message.method == "INVITE" and 200 <= event.status < 300:
            request.success = response
        self.answer(message, response)

    def why_no_answer(self, event, request):
        """The number by which an answer is refused, or None."""
        if not self.is_held():
            return NO_SUCH_CALL
        if not request:
            return NO_SUCH_REQUEST
        if not 101 <= event.status <= 699:
            return BAD_STATUS
        if request.final_at is not None:
            return ALREADY_FINAL
        is_invite = request.message.method == "INVITE"
        may_be_reliable = is_invite and event.status < 200 and request.allows_100rel()
        if event.is_reliable and not may_be_reliable:
            return NOT_SUPPORTED
        if is_invite and event.status < 300 and request.dialog and not request.dialog.is_held:
            return DIALOG_ENDED
        waiting = request.unacknowledged()
        if self.is_reliable(event, request) and self.must_wait(request):
            return RELIABLE_PENDING
        if is_invite and 200 <= event.status < 300 and any(one.response.body for one in waiting):
            return RELIABLE_PENDING
        if self.is_reliable(event, request) and len(request.provisionals) >= MOST_NUMBER:
            return NUMBERS_USED_UP
        return None

    def is_reliable(self, event, request):
        """Whether an answer is a reliable provisional one: to an INVITE that requires 100rel each
        is."""
        is_provisional = request.message.method == "INVITE" and event.status < 200
        return is_provisional and (event.is_reliable or request.requires_100rel())

    def must_wait(self, request):
        """Whether no further reliable provisional response may be sent yet."""
        waiting = request.unacknowledged()
        is_first_open = bool(waiting) and waiting[0] is request.provisionals[0]
        is_given_up = any(one.is_given_up for one in waiting)
        return is_first_open or is_given_up or len(waiting) >= MOST_UNACKNOWLEDGED

    def answer_of(self, event, request):
        message = request.message
        response = message.response(event.status, event.reason, request.tag)
        if message.method == "INVITE" and event.status < 300:
            contact = Party("", f"sip:{self.agent.local}")
            response = replace(
                response, contacts=(contact,), record_routes=message.record_routes)
        if self.is_reliable(event, request):
            response = replace(
                response, require=("100rel",), rseq=len(request.provisionals) + 1)
        return with_content(response, event)

    def answered_in_dialog(self, event, request):
        """An answer of 101 to 299 to an INVITE without a To tag makes its dialog, or a 2xx confirms
        that (12.1.1)."""
        message = request.message
        if message.to_tag:
            return
        if not request.dialog:
            target = message.contacts[0].uri if message.contacts else message.from_party.uri
            request.dialog = Dialog(
                party(message.to_party.uri, request.tag),
                party(message.from_party.uri, message.from_tag), event.id, True, True, target,
                message.record_routes, request.address, 0, accepted=[message.cseq[0]])
            self.dialogs.append(request.dialog)
        if event.status >= 200:
            request.dialog.is_early = False

    def told_ack(self, event_id, told):
        """An ACK ends the repeats of its 2xx: of the first that waits for one (13.3.1.4)."""
        message = told.message
        for invite, request in sorted(self.received.items()):
            tags = lower(message.to_tag), lower(message.from_tag)
            same = tags == (lower(request.tag), lower(request.message.from_tag))
            if request.success and same and request.message.cseq[0] == message.cseq[0]:
                request.success = None
                return self.notice("ack", text_of(invite), word_of(message.body))

    # The side that asks.

    def user_invite(self, event_id, event):
        """The user begins a call (13.2.1)."""
        if self.is_held():
            return self.refused(event_id, CALL_IN_USE)
        message = replace(
            self.first_request(event_id, event, "INVITE"),
            contacts=(Party("", f"sip:{self.agent.local}"),),
            supported=("100rel",) if event.option == "supported" else (),
            require=("100rel",) if event.option == "required" else ())
        self.start(event_id, with_content(message, event), event.address)

    def user_plain(self, event_id, event):
        """The user sends a request outside a dialog (8.1.1)."""
        if self.is_held():
            return self.refused(event_id, CALL_IN_USE)
        if event.method in ("INVITE", "ACK", "CANCEL", "BYE", "PRACK"):
            return self.refused(event_id, BAD_METHOD)
        message = self.first_request(event_id, event, event.method)
        self.start(event_id, with_content(message, event), event.address)

    def first_request(self, event_id, event, method):
        return Message(
            self.own_via(event_id), party(event.from_uri, self.agent.name(event_id, 1)),
            party(event.to_uri, ""), self.name, (1, method), event.uri, max_forwards=70,
            routes=event.routes)

    def own_via(self, event_id):
        host, port = self.agent.local.split(":")
        branch = "z9hG4bK" + self.agent.name(event_id, 0)
        return (Via("UDP", host, int(port), (("rport", None), ("branch", branch))),)

    def request_in(self, dialog, event_id, number, method, event):
        """A request in a dialog (12.2.1.1); None for an event is one without a content."""
        message = Message(
            self.own_via(event_id), dialog.local, dialog.remote, self.name, (number, method),
            dialog.target, max_forwards=70, routes=dialog.routes,
            contacts=(Party("", f"sip:{self.agent.local}"),) if method == "INVITE" else ())
        return with_content(message, event) if event else message

    def user_request(self, event_id, event):
        """The user sends a request in a dialog (12.2.1, 14.1, 15.1.1)."""
        dialog = self.find(event.local_tag, event.remote_tag)
        number, method = self.why_no_request(event, dialog), event.method
        if number:
            return self.refused(event_id, number)
        self.send_in(dialog, event_id, method, event)
        if method == "BYE":
            self.end(dialog)

    def why_no_request(self, event, dialog):
        if not self.is_held():
            return NO_SUCH_CALL
        if not dialog:
            return NO_SUCH_DIALOG
        if event.method in ("ACK", "CANCEL", "PRACK"):
            return BAD_METHOD
        if dialog.is_early and (event.method == "INVITE" or event.method == "BYE" and
                                dialog.is_callee):
            return BAD_METHOD
        return self.why_not_sent(dialog)

    def why_not_sent(self, dialog):
        """Why a request that takes a number can't be sent in a dialog."""
        if dialog.is_strict():
            return STRICT_ROUTE
        return NUMBERS_USED_UP if dialog.number() >= MOST_LOCAL_NUMBER else None

    def send_in(self, dialog, event_id, method, event, rack=None):
        dialog.requests += 1
        message = self.request_in(dialog, event_id, dialog.number(), method, event)
        self.start(event_id, replace(message, rack=rack), dialog.next_hop(), dialog)

    def user_ack(self, event_id, event):
        self.user_serves("ACK", event_id, event)

    def user_prack(self, event_id, event):
        self.user_serves("PRACK", event_id, event)

    def user_serves(self, method, event_id, event):
        """The user gives the oldest response of a dialog the ACK or PRACK that it is owed."""
        dialog = self.find(event.local_tag, event.remote_tag)
        owed = [one for one in dialog.owed if one.method == method] if dialog else []
        if not self.is_held():
            self.refused(event_id, NO_SUCH_CALL)
        elif not dialog:
            self.refused(event_id, NO_SUCH_DIALOG)
        elif not owed:
            self.refused(event_id, NOTHING_TO_ACK if method == "ACK" else NOTHING_TO_PRACK)
        else:
            self.serve(dialog, event_id, owed[0], event)

    def serve(self, dialog, event_id, owed, event):
        """An ACK or a PRACK is sent; where it can't be it is owed still (13.2.2.4; RFC 3262, 4)."""
        number = self.why_not_sent(dialog)
        if number == STRICT_ROUTE or number and owed.method == "PRACK":
            return self.refused(event_id, number)
        dialog.owed.remove(owed)
        if owed.method == "PRACK":
            rack = (owed.rseq, owed.number, "INVITE")
            return self.send_in(dialog, event_id, "PRACK", event, rack)
        ack = self.request_in(dialog, event_id, owed.number, "ACK", event)
        line = f"send {dialog.next_hop()} {ack.text()}"
        self.lines.append(line)
        if owed.invite in self.sent:
            self.sent[owed.invite].acks[owed.tag] = line

    def owe(self, dialog, event_id, owed, sent, response):
        """A response is owed its ACK or PRACK, which goes out by itself where the user has no
        answer to give to an offer in it (RFC 3264; RFC 3261, 13.2.2.4; RFC 3262, 5)."""
        dialog.owed.append(owed)
        if sent.message.body or not response.body:
            self.serve(dialog, event_id, owed, None)

    def told_timeout(self, event_id, told):
        """No response came, or no ACK (8.1.3.1, 17.1, 17.2)."""
        self.notice("timeout", text_of(told.id))
        self.given_up(told, ends_dialog=True)

    def told_failed(self, event_id, told):
        """A send failed (8.1.3.1, 17.1.4, 17.2.4)."""
        self.notice("failed", text_of(told.id))
        self.given_up(told, ends_dialog=False)

    def given_up(self, told, ends_dialog):
        sent = self.sent.pop(told.id, None)
        if sent:
            self.end_early(told.id)
        if sent and sent.dialog and ends_dialog:
            self.end(sent.dialog)

    def show(self, told):
        message = told.message
        tags = word_of(message.from_tag), word_of(message.to_tag)
        self.notice("response", text_of(told.id), message.status, *tags, word_of(message.body))

    def told_response(self, event_id, told):
        """A response came up for a request of the user."""
        sent, status = self.sent.get(told.id), told.message.status
        if not sent:
            return
        if status < 200:
            self.provisional(event_id, told, sent)
        elif sent.message.method == "INVITE" and status < 300:
            self.success(event_id, told, sent)
        else:
            self.final(told, sent)

    def final(self, told, sent):
        """A final response but the 2xx of an INVITE (12.2.1.2, 13.2.2.3, 14.1)."""
        self.show(told)
        del self.sent[told.id]
        self.end_early(told.id)
        if sent.dialog and told.message.status in (481, 408):
            self.end(sent.dialog)

    def provisional(self, event_id, told, sent):
        """A provisional response (12.1.2, 13.2.2.1; RFC 3262, 4), which also lets a CANCEL go."""
        message, dialog = told.message, None
        is_first = not sent.has_provisional
        sent.has_provisional = True
        if sent.message.method == "INVITE" and message.status > 100 and message.to_tag:
            dialog = sent.dialog or self.dialog_of(told, sent)
        is_reliable = has_100rel(message.require) and message.rseq is not None
        if not dialog or not dialog.is_held or not is_reliable:
            self.show(told)
        elif dialog.offer(told.id, message.rseq):
            self.show(told)
            owed = Owed("PRACK", told.id, sent.message.cseq[0], None, message.rseq)
            self.owe(dialog, event_id, owed, sent, message)
        if is_first and sent.cancel:
            self.start(sent.cancel, sent.message.cancel(), sent.address)

    def dialog_of(self, told, sent):
        """The dialog that a response to a first INVITE names; it is made where it isn't held."""
        message, invite = told.message, sent.message
        dialog = self.find(invite.from_tag, message.to_tag)
        if not dialog:
            dialog = Dialog(
                party(invite.from_party.uri, invite.from_tag),
                party(invite.to_party.uri, message.to_tag), told.id, False, True,
                message.contacts[0].uri if message.contacts else invite.uri,
                message.record_routes[::-1], sent.address, invite.cseq[0])
            self.dialogs.append(dialog)
        return dialog

    def success(self, event_id, told, sent):
        """A 2xx to an INVITE (12.1.2, 13.2.2.4, 14.1); of a re-INVITE each after the first is a
        repeat."""
        message = told.message
        tag = "" if sent.dialog else lower(message.to_tag)
        if tag in sent.acks:
            self.lines += [sent.acks[tag]] if sent.acks[tag] else []
            return
        sent.acks[tag], sent.cancel = None, None
        sent.success_at = self.agent.now if sent.success_at is None else sent.success_at
        dialog = sent.dialog or self.dialog_of(told, sent)
        if not sent.dialog:
            dialog.is_early, dialog.routes = False, message.record_routes[::-1]
        if message.contacts:
            dialog.target = message.contacts[0].uri
        self.show(told)
        if dialog.is_held:
            owed = Owed("ACK", told.id, sent.message.cseq[0], tag)
            self.owe(dialog, event_id, owed, sent, message)

    def user_cancel(self, event_id, event):
        """The user gives an INVITE up (9.1)."""
        sent = self.sent.get(event.id)
        if not self.is_held():
            self.refused(event_id, NO_SUCH_CALL)
        elif not sent or sent.message.method != "INVITE":
            self.refused(event_id, NO_SUCH_REQUEST)
        elif sent.success_at is not None:
            self.refused(event_id, ALREADY_FINAL)
        elif not sent.cancel:
            sent.cancel = event_id
            if sent.has_provisional:
                self.start(event_id, sent.message.cancel(), sent.address)

    def user_abandon(self, event_id, event):
        """The user gives up a request, whose transaction ends, or a dialog. Nothing is sent or
        told but the ends of dialogs (a choice of our own)."""
        sent, dialog = self.sent.get(event.id), None
        if not event.id:
            dialog = self.find(event.local_tag, event.remote_tag)
        if not self.is_held():
            self.refused(event_id, NO_SUCH_CALL)
        elif event.id and not sent:
            self.refused(event_id, NO_SUCH_REQUEST)
        elif not event.id and not dialog:
            self.refused(event_id, NO_SUCH_DIALOG)
        elif dialog:
            self.end(dialog)
        else:
            del self.sent[event.id]
            self.agent.commands.append((client_key(sent.message), "abandon"))
            self.end_early(event.id)

    # Time.

    def tick(self):
        """Sends again what waits, and lets go of what is over (13.2.2.4, 13.3.1.4; RFC 3262, 3)."""
        for event_id, request in sorted(self.received.items()):
            self.tick_received(event_id, request)
        for event_id, sent in sorted(self.sent.items()):
            if sent.success_at is not None and self.agent.now >= sent.success_at + LIFETIME:
                del self.sent[event_id]
                self.end_early(event_id)

    def tick_received(self, event_id, request):
        now, is_answered = self.agent.now, request.final_at is not None
        is_over = is_answered and now >= request.final_at + LIFETIME
        if is_answered:
            request.ticks.append(now)
        if request.success and is_over:
            self.notice("noack", text_of(event_id))
        elif request.success and is_due(request.final_at, request.ticks, T2):
            self.answer(request.message, request.success)
        if not is_answered:
            self.tick_provisionals(event_id, request)
        if is_over:
            del self.received[event_id]

    def tick_provisionals(self, event_id, request):
        """Once the oldest is given up none is sent again, and the user is told once."""
        now = self.agent.now
        waiting = [one for one in request.unacknowledged() if not one.is_given_up]
        is_over = any(now >= one.sent_at + LIFETIME for one in waiting)
        if is_over:
            self.notice("noprack", text_of(event_id))
        for one in waiting:
            one.ticks.append(now)
            one.is_given_up = is_over
            if not is_over and is_due(one.sent_at, one.ticks, LIFETIME):
                self.answer(request.message, one.response)
