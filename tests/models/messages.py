"""SIP messages: which one a datagram spells, and how one is written.

RFC 3261, sections 7, 8.2.6, 17, 18.2, 20 and 25; RFC 3262, section 7; RFC 3581, section 4; in the
profile of docs/MESSAGES.md. A text is a str of which each character is a byte (Latin-1).
"""

import re
from collections import namedtuple
from dataclasses import dataclass, replace

MOST_BYTES, MOST_NUMBER, MOST_PORT = 65535, 2**32 - 1, 65535
BLANK, BLANKS = r"[ \t]*", r"[ \t]+"
TOKEN = r"[A-Za-z0-9\-.!%*_+`'~]+"
QUOTED = r'"(?:[^"\\]|\\.)*"'
VALUE = rf'(?:{QUOTED}|[^ \t;,<>"]+)'
PARAMETER = rf"{BLANK};{BLANK}({TOKEN})(?:{BLANK}={BLANK}({VALUE}))?"
PARAMETERS = rf"((?:{BLANK};{BLANK}{TOKEN}(?:{BLANK}={BLANK}{VALUE})?)*)"
HOST = r'\[[^ \t,;\]"<>]*\]|[^ \t:;,\["<>]+'
SLASH, SIP = f"{BLANK}/{BLANK}", "[Ss][Ii][Pp]"
URI = r'[^ \t\r\n<>"]+'
# The rows of headers; a number stands as a word, since whether it is one is a later fault.
VIA = (
    rf"{SIP}{SLASH}2\.0{SLASH}({TOKEN}){BLANKS}({HOST})"
    rf"(?:{BLANK}:{BLANK}([^ \t;]+))?{PARAMETERS}")
PARTY = rf'({QUOTED}|[^<>"]*?){BLANK}<{BLANK}({URI}){BLANK}>{PARAMETERS}'
BARE_PARTY = rf'([^ \t\r\n<>";]+){PARAMETERS}'
CSEQ = rf"([^ \t]+){BLANKS}({TOKEN})"
RACK = rf"([^ \t]+){BLANKS}([^ \t]+){BLANKS}({TOKEN})"
WORD = r"[^ \t]+"

COMPACT = {
    "v": "via", "f": "from", "t": "to", "i": "call-id", "m": "contact", "l": "content-length",
    "k": "supported", "c": "Content-Type", "s": "Subject", "e": "Content-Encoding"}
NEEDED = ["Via", "From", "To", "Call-ID", "CSeq"]
SINGLE = ["From", "To", "Call-ID", "CSeq", "Max-Forwards", "Content-Length", "RSeq", "RAck"]
LISTS = ["Via", "Contact", "Route", "Record-Route", "Require", "Supported"]
NAMES = {name.lower(): name for name in SINGLE + LISTS}

Via = namedtuple("Via", "transport host port parameters")
Party = namedtuple("Party", "display uri parameters", defaults=("", "", ()))


class ReadFault(Exception):
    """Why a datagram is no message: a name, and of some the name of a header."""


def lower(text):
    """A text in lower case, its letters of ASCII alone."""
    return re.sub("[A-Z]", lambda letter: letter[0].lower(), text)


def match(pattern, text):
    return re.fullmatch(pattern, text, re.DOTALL)


def parameter(parameters, name):
    """The place of the first parameter of a name, or None."""
    places = [at for at, (one, _) in enumerate(parameters) if lower(one) == name]
    return places[0] if places else None


def with_parameter(parameters, name, value):
    """A parameter gets a value in its place, or is added as the last one."""
    at = parameter(parameters, name)
    if at is None:
        return (*parameters, (name, value))
    return (*parameters[:at], (parameters[at][0], value), *parameters[at + 1 :])


def value_of(parameters, name):
    at = parameter(parameters, name)
    return None if at is None else parameters[at][1]


def tag_of(party):
    """The tag of a From or a To, empty where there is none."""
    return value_of(party.parameters, "tag") or ""


def party_text(party):
    display = f"{party.display} " if party.display else ""
    return f"{display}<{party.uri}>{parameters_text(party.parameters)}"


def contact_text(party):
    """The value of a Contact: `*` stands alone, without brackets (RFC 3261, 20.10)."""
    return "*" if party == Party(uri="*") else party_text(party)


def parameters_text(parameters):
    values = [f";{name}" if value is None else f";{name}={value}" for name, value in parameters]
    return "".join(values)


def rest_of(text):
    """A text as the last field of a line."""
    return "".join(map(spelled, text))


def spelled(letter):
    """A byte in a field."""
    short = {"\r": r"\r", "\n": r"\n", "\t": r"\t", "\\": r"\\"}
    if letter in short:
        return short[letter]
    return letter if " " <= letter <= "~" else rf"\x{ord(letter):02x}"


@dataclass(frozen=True)
class Message:
    """A request, or a response, which has a status. A CSeq is a number and a method."""

    vias: tuple
    from_party: Party
    to_party: Party
    call_id: str
    cseq: tuple
    uri: str = ""
    status: int = 0
    reason: str = ""
    max_forwards: int = None
    contacts: tuple = ()
    record_routes: tuple = ()
    routes: tuple = ()
    require: tuple = ()
    supported: tuple = ()
    rseq: int = None
    rack: tuple = None
    others: tuple = ()
    body: str = ""

    @property
    def method(self):
        return self.cseq[1]

    @property
    def from_tag(self):
        return tag_of(self.from_party)

    @property
    def to_tag(self):
        return tag_of(self.to_party)

    def sender(self):
        """The branch, host and port of the top Via, of which the case of letters is nothing."""
        top = self.vias[0]
        port = 5060 if top.port is None else top.port
        return lower(value_of(top.parameters, "branch")), lower(top.host), port

    def key(self):
        """Its transaction (RFC 3261, 17.1.3, 17.2.3); keys are ordered by their parts."""
        if self.status:
            return client_key(self)
        return "server", *self.sender(), "INVITE" if self.method == "ACK" else self.method

    def response(self, status, reason, tag=""):
        """A response (RFC 3261, 8.2.6.2): a tag is added where the request has none."""
        to_party = self.to_party
        if tag and not self.to_tag:
            to_party = to_party._replace(parameters=(*to_party.parameters, ("tag", tag)))
        return Message(
            self.vias, self.from_party, to_party, self.call_id, self.cseq,
            status=status, reason=reason)

    def ack(self, response):
        """The ACK of a response of 300 to 699 (RFC 3261, 17.1.1.3)."""
        return Message(
            self.vias[:1], self.from_party, response.to_party, self.call_id, (self.cseq[0], "ACK"),
            uri=self.uri, max_forwards=70, routes=self.routes)

    def cancel(self):
        """The CANCEL of an INVITE (RFC 3261, 9.1)."""
        return Message(
            self.vias[:1], self.from_party, self.to_party, self.call_id, (self.cseq[0], "CANCEL"),
            uri=self.uri, max_forwards=70, routes=self.routes)

    def text(self):
        """The message as it is written, in the form of the last field of a line."""
        return rest_of(written(self))


def client_key(message):
    """The client transaction of a request or of its response."""
    return "client", message.sender()[0], "", 0, message.method


def written(message):
    """The text of a message."""
    first = f"{message.method} {message.uri} SIP/2.0"
    if message.status:
        first = f"SIP/2.0 {message.status} {message.reason}"
    lines = [first, *(f"Via: {via_text(via)}" for via in message.vias)]
    hops = message.max_forwards
    lines += [] if hops is None else [f"Max-Forwards: {hops}"]
    lines += [f"From: {party_text(message.from_party)}", f"To: {party_text(message.to_party)}"]
    lines += [f"Call-ID: {message.call_id}", f"CSeq: {message.cseq[0]} {message.method}"]
    lines += [f"Contact: {contact_text(party)}" for party in message.contacts]
    for name, parties in [("Record-Route", message.record_routes), ("Route", message.routes)]:
        lines += [f"{name}: {party_text(party)}" for party in parties]
    lines += [f"Require: {', '.join(message.require)}"] if message.require else []
    lines += [f"Supported: {', '.join(message.supported)}"] if message.supported else []
    lines += [] if message.rseq is None else [f"RSeq: {message.rseq}"]
    lines += ["RAck: {} {} {}".format(*message.rack)] if message.rack else []
    lines += [f"{name}: {value}" for name, value in message.others]
    lines += [f"Content-Length: {len(message.body)}", "", ""]
    return "\r\n".join(lines) + message.body


def via_text(via):
    port = "" if via.port is None else f":{via.port}"
    return f"SIP/2.0/{via.transport} {via.host}{port}{parameters_text(via.parameters)}"


def stamped(message, source):
    """A request with its source, and where its responses go (RFC 3261, 18.2; RFC 3581, 4)."""
    ip, source_port = source.split(":")
    top, at = message.vias[0], parameter(message.vias[0].parameters, "rport")
    parameters, port = top.parameters, message.sender()[2]
    if at is not None and parameters[at][1] is None:
        port = source_port
        parameters = with_parameter(parameters, "rport", port)
        parameters = with_parameter(parameters, "received", ip)
    elif top.host != ip:
        parameters = with_parameter(parameters, "received", ip)
    top = top._replace(parameters=parameters)
    return replace(message, vias=(top, *message.vias[1:])), f"{ip}:{port}"


def read(text):
    """The message that a text spells; a fault is the first of those that it has."""
    if len(text) > MOST_BYTES:
        raise ReadFault("TooLong")
    lines, body = head_and_body(text)
    start = start_of(lines[0])
    headers = [header_of(line) for line in lines[1:]]
    values = {name: values_of(name, headers) for name in NAMES.values()}
    for name in NEEDED:
        if not values[name]:
            raise ReadFault(f"Missing {name}")
    for name in SINGLE:
        if len(values[name]) > 1:
            raise ReadFault(f"Repeated {name}")
    others = tuple(header for header in headers if header[0] not in values)
    return message_of(start, with_numbers(values), others, body)


def head_and_body(text):
    """The lines before the empty one, those that go on joined, and what follows it (7.3.1)."""
    text = re.sub(r"\A(?:\r?\n)+", "", text)
    end = re.search(r"(?<=\n)\r?\n", text)
    if not end:
        raise ReadFault("NoEmptyLine")
    head = re.sub(rf"{BLANK}(?:\r?\n{BLANKS})+", " ", text[: end.start()])
    return re.split(r"\r?\n", head)[:-1], text[end.end() :]


def start_of(line):
    """The fields of a message that stand in its start line, and the method of a request (7.1)."""
    request = match(rf"({TOKEN}) ([^ \t\r]+) {SIP}/2\.0", line)
    status = match(rf"{SIP}/2\.0 ([1-6][0-9][0-9])(?: ([^\r]*))?", line)
    if request:
        return {"uri": request[2]}, request[1]
    if status:
        return {"status": int(status[1]), "reason": status[2] or ""}, None
    raise ReadFault("BadStartLine")


def header_of(line):
    """The name of a header, one of NAMES or as it is spelled, and its value (7.3.1)."""
    parts = match(rf"({TOKEN}){BLANK}:([^\r\n]*)", line)
    if not parts:
        raise ReadFault("BadHeader")
    name = COMPACT.get(lower(parts[1]), parts[1])
    return NAMES.get(lower(name), name), parts[2].strip(" \t")


def values_of(name, headers):
    """The values of a header, of all its lines."""
    form = FORMS.get(name, party_of if name in LISTS else word_of)
    values = [value for one, value in headers if one == name]
    if name in LISTS:
        is_of_tokens = name in ("Require", "Supported")
        values = [one for value in values if value or not is_of_tokens for one in split(value)]
    return [form(value) for value in values]


def split(value):
    """The values of a list: commas in quotes and in angle brackets stay (7.3.1)."""
    values = [""]
    for atom in re.findall(rf"{QUOTED}|<[^>]*>?|.", value, re.DOTALL):
        if atom == '"':
            raise ReadFault("BadHeader")
        if atom == ",":
            values.append("")
        else:
            values[-1] += atom
    return [one.strip(" \t") for one in values]


def row(pattern, value):
    """The parts of a value in the form of its header."""
    parts = match(pattern, value)
    if not parts:
        raise ReadFault("BadHeader")
    return parts


def parameters_of(text):
    """Names and values, None where there is none."""
    found = re.finditer(PARAMETER, text, re.DOTALL)
    return tuple((one[1], one[2]) for one in found)


def via_of(value):
    parts = row(VIA, value)
    return Via(parts[1], parts[2], parts[3], parameters_of(parts[4]))


def party_of(value):
    """A name-addr, or a URI alone, of which the parameters are the header's (20.10)."""
    parts = match(PARTY, value)
    if parts:
        return Party(parts[1].rstrip(" \t"), parts[2], parameters_of(parts[3]))
    parts = row(BARE_PARTY, value)
    return Party("", parts[1], parameters_of(parts[2]))


def tagged(value):
    """A From or a To, of which a tag is a token (19.3)."""
    party = party_of(value)
    if parameter(party.parameters, "tag") is not None:
        row(TOKEN, value_of(party.parameters, "tag") or "")
    return party


def token_of(value):
    return row(TOKEN, value)[0]


def word_of(value):
    return row(WORD, value)[0]


def cseq_of(value):
    return row(CSEQ, value).groups()


def rack_of(value):
    return row(RACK, value).groups()


FORMS = {
    "Via": via_of, "From": tagged, "To": tagged, "CSeq": cseq_of, "RAck": rack_of,
    "Require": token_of, "Supported": token_of}


def number(word, most=MOST_NUMBER):
    if not match("[0-9]+", word) or int(word) > most:
        raise ReadFault("BadNumber")
    return int(word)


def with_numbers(values):
    """The values of all headers, their words read as numbers."""
    values = dict(values)
    values["Via"] = [
        via._replace(port=None if via.port is None else number(via.port, MOST_PORT))
        for via in values["Via"]]
    values["CSeq"] = [(number(word), method) for word, method in values["CSeq"]]
    values["RAck"] = [
        (number(rseq), number(cseq), method) for rseq, cseq, method in values["RAck"]]
    for name in ("RSeq", "Max-Forwards", "Content-Length"):
        values[name] = [number(word) for word in values[name]]
    return values


def message_of(start, values, others, body):
    """The message of these values, if their sense isn't a fault."""
    fields, method = start
    single = {name: values[name][0] if values[name] else None for name in SINGLE}
    branch = value_of(values["Via"][0].parameters, "branch") or ""
    if not lower(branch).startswith("z9hg4bk"):
        raise ReadFault("OldBranch")
    if method is not None and single["CSeq"][1] != method:
        raise ReadFault("MethodMismatch")
    length = len(body) if single["Content-Length"] is None else single["Content-Length"]
    if len(body) < length:
        raise ReadFault("Truncated")
    return Message(
        tuple(values["Via"]), single["From"], single["To"], single["Call-ID"], single["CSeq"],
        **fields, max_forwards=single["Max-Forwards"], contacts=tuple(values["Contact"]),
        record_routes=tuple(values["Record-Route"]), routes=tuple(values["Route"]),
        require=tuple(values["Require"]), supported=tuple(values["Supported"]),
        rseq=single["RSeq"], rack=single["RAck"], others=others, body=body[:length])
