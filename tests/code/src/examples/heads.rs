//! The heads of texts, whether they spell a message or not, and what a host reads from a datagram.

use crate::examples::worked::{CONFIG, PEER};
use crate::faults::of_host;
use crate::stop::{Stop, broken_where, check};
use sip_files::write_header_line;
use sip_host::{Host, HostFault};
use sip_message::{Id, Token};
use sip_reader::{FirstLine, HeaderLine, header_lines, header_values, start_line};
use sip_round::{Event, RoundFault};
use sip_text::Text;
use std::alloc::Global;

/// It isn't a message: it has no Via, and one of its lines isn't a header line.
const TEXT: &[u8] =
    b"\r\nINFO sip:a@b SIP/2.0\r\nf: <sip:c@d>\r\nno header line\r\nSubject: one\r\n \
two\r\nFROM:\t<sip:e@f> \r\n\r\nFrom: body";

/// Its header lines as a session file has them.
const HEADERS: &[u8] = b" f: <sip:c@d>\n Subject: one two\n FROM: <sip:e@f>\n";

/// The number of shards of the host's agent.
const SHARDS: usize = 4;

/// The moment of the first round, in ms.
const MOMENT: u64 = 10;

pub fn a_start_line(alloc: Global) -> Result<(), Stop> {
    check(is_info(&start_line(alloc, TEXT)?))?;
    check(start_line(alloc, b"no start line\r\n")?.is_none())
}

fn is_info(first: &Option<FirstLine<Token>>) -> bool {
    match first {
        Some(FirstLine::Request { method, uri }) => {
            method.as_slice() == b"INFO".as_slice() && uri.as_slice() == b"sip:a@b".as_slice()
        }
        Some(FirstLine::Response { .. }) | None => false,
    }
}

// By its long name and its compact name, in any case.
pub fn the_values_of_a_header(alloc: Global) -> Result<(), Stop> {
    check(are_both_of_from(header_values(alloc, TEXT, b"from")?.as_slice()))?;
    check(header_values(alloc, TEXT, b"To")?.is_empty())
}

fn are_both_of_from(values: &[Text]) -> bool {
    match values {
        [first, second] => {
            first.as_slice() == b"<sip:c@d>".as_slice()
                && second.as_slice() == b"<sip:e@f>".as_slice()
        }
        _ => false,
    }
}

pub fn header_lines_in_order(alloc: Global) -> Result<(), Stop> {
    are_all_three(alloc, header_lines(alloc, TEXT)?.as_slice())
}

// They are spelled as in a session file.
fn are_all_three(alloc: Global, headers: &[HeaderLine]) -> Result<(), Stop> {
    let mut text = Vec::new(alloc);
    for header in headers {
        let line = write_header_line(alloc, header.name.as_slice(), header.value.as_slice())?;
        text.extend_from_slice(&line)?;
    }
    check(text.as_slice() == HEADERS)
}

pub fn a_host_reads_a_datagram(alloc: Global) -> Result<(), Stop> {
    let mut host = Host::new(alloc, CONFIG, SHARDS)?;
    check(host.last_id().is_none() && host.event(1).is_none())?;
    host.datagram(PEER, TEXT).map_err(of_host)?;
    check(host.last_id().is_some_and(is_first))?;
    runs(&mut host)?;
    check(keeps_the_datagram(&host))?;
    reads_the_start(&host)?;
    reads_the_headers(alloc, &host)
}

// Whether it is the id of the first event of the first round.
fn is_first(id: Id) -> bool {
    id.round == 0 && id.place == 1
}

// Whether the datagram came in as the only event of the last round.
fn keeps_the_datagram(host: &Host) -> bool {
    host.last_id().is_none() && is_from_peer(host.event(1)) && host.event(2).is_none()
}

fn reads_the_start(host: &Host) -> Result<(), Stop> {
    check(is_info(&host.start_line(1)?))?;
    check(host.start_line(2)?.is_none())
}

fn reads_the_headers(alloc: Global, host: &Host) -> Result<(), Stop> {
    check(are_both_of_from(host.header_values(1, b"f")?.as_slice()))?;
    check(host.header_values(0, b"f")?.is_empty())?;
    check(host.header_lines(0)?.is_empty())?;
    are_all_three(alloc, host.header_lines(1)?.as_slice())
}

// If the round runs out of memory and the agent isn't broken, the same round is run again.
fn runs(host: &mut Host) -> Result<(), Stop> {
    match host.run(MOMENT) {
        Ok(()) => Ok(()),
        Err(HostFault::Round(RoundFault::NoMemory { broken: false })) => host
            .run(MOMENT)
            .map_err(of_host),
        Err(HostFault::Round(RoundFault::NoMemory { broken: true })) => {
            Err(broken_where(host.next_due().is_none()))
        }
        Err(_) => Err(Stop::Different),
    }
}

fn is_from_peer(event: Option<&Event>) -> bool {
    match event {
        Some(Event::Datagram { from, bytes }) => *from == PEER && bytes.as_slice() == TEXT,
        Some(Event::Failed(_)) | Some(Event::Command(_)) | None => false,
    }
}
