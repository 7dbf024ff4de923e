"""What is generated stands in the files, and the C header says what the exports take."""

import re
import subprocess
from pathlib import Path

from register import expect, test

TOP = Path(__file__).resolve().parent.parent
GENERATE = TOP / "bindings/generate"
HEADER = TOP / "include/sip_ua.h"
# The types of the exports in C.
TYPES = {
    "bool": "bool", "u8": "uint8_t", "u16": "uint16_t", "u32": "uint32_t", "u64": "uint64_t",
    "usize": "size_t", "Handle": "sip_ua", "Address": "sip_ua_address",
    "AddressLengths": "sip_ua_address_lengths", "Asked": "sip_ua_asked",
    "Configuration": "sip_ua_configuration", "Datagram": "sip_ua_arrival", "Due": "sip_ua_due",
    "EventId": "sip_ua_id", "HeaderLengths": "sip_ua_header_lengths",
    "RequestTraits": "sip_ua_request_traits", "Resumed": "sip_ua_resumed",
    "StartLine": "sip_ua_start", "Stats": "sip_ua_counts", "TextLength": "sip_ua_text",
    "Told": "sip_ua_output", "TypedOutput": "sip_ua_typed_output"}


@test
def commands_and_refusals_are_those_of_the_table():
    done = subprocess.run([GENERATE, "--check"], capture_output=True, text=True, check=False)
    expect("bindings/generate --check", (0, ""), (done.returncode, done.stdout + done.stderr))


def parts(text, separator):
    """The declarations in a list, without comments and ghosts."""
    text = re.sub(r"//.*|\bghost .*", "", text)
    return [" ".join(it.split()) for it in text.split(separator) if it.strip()]


def in_c(declaration):
    """The declarations in C for one of an export. A slice is a place and a length or a room; what
    points to a struct has no name here."""
    name, kind = declaration.removeprefix("pub ").split(": ")
    if kind == "Global":
        return []
    if kind == "&[u8]":
        return [f"const uint8_t *{name}", f"size_t {name}_len"]
    if kind == "&mut [u8]":
        return ["uint8_t *buffer", "size_t room"]
    if array := re.fullmatch(r"\[(\w+); (\d+)\]", kind):
        return [f"{TYPES[array[1]]} {name}[{array[2]}]"]
    borrowed, mutable, kind = re.fullmatch(r"(&?)(mut )?(\w+)", kind).groups()
    if not borrowed:
        return [f"{TYPES[kind]} {name}"]
    to = f"{'' if mutable else 'const '}{TYPES[kind]} *"
    return [to if TYPES[kind].startswith("sip_ua") else to + name]


def of_c(text, separator):
    """The declarations in a list of the header, in the same form."""
    text = re.sub(r"(const uint8_t \*)(\w+),(\s+)size_t len\b", r"\1\2,\3size_t \2_len", text)
    return parts(re.sub(r"(sip_ua\w* \*)\w+", r"\1", text), separator)


@test
def the_header_declares_the_exports():
    """Their parameters, and the fields of their structs, have the same types, order and names."""
    source = "\n".join(it.read_text() for it in sorted((TOP / "crates/sip_c/src").glob("*.rt")))
    header = re.sub(r"/\*.*?\*/", "", HEADER.read_text(), flags=re.DOTALL)
    exports = dict(re.findall(r'pub extern "C" fn (\w+)\((.*?)\) -> u32', source, re.DOTALL))
    structs = dict(re.findall(
        r"#\[repr\(C\)\]\n#\[derive[^\n]*\npub struct (\w+) \{\n(.*?)\n\}", source, re.DOTALL))
    prototypes = dict(re.findall(r"uint32_t (sip_ua_raw_\w+)\(([^{;]*)\);", header))
    typedefs = dict(re.findall(r"typedef struct (\w+) \{(.*?)\}", header, re.DOTALL))
    expect("the exports", sorted(exports), sorted(prototypes))
    for name, taken in exports.items():
        expect(name, sum(map(in_c, parts(taken, ",")), []), of_c(prototypes[name], ","))
    for name, held in structs.items():
        expect(name, sum(map(in_c, parts(held, ",")), []), of_c(typedefs[TYPES[name]], ";"))
