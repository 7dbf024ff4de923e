//! Messages, addresses and event files that several examples use.

use crate::faults::of_events;
use crate::often::message;
use crate::stop::{Stop, check};
use sip_files::{FileKind, read_command_line, write_output};
use sip_message::{Addr, Id, Message, SharedKey, key_of};
use sip_round::{Config, Output};
use sip_text::Boxed;
use sip_transactions::{Up, UpKind};
use sip_user::{CallOut, Item};
use std::alloc::Global;

/// The agent's own address.
pub const LOCAL: Addr = Addr {
    ip: [192, 0, 2, 1],
    port: 5060,
};

/// The address of the peer.
pub const PEER: Addr = Addr {
    ip: [192, 0, 2, 9],
    port: 5060,
};

/// The first event of the first round.
pub const ID: Id = Id { round: 0, place: 1 };

/// A request that comes to the agent.
pub const OPTIONS: &[u8] = b"OPTIONS sip:192.0.2.1 SIP/2.0\r
Via: SIP/2.0/UDP 192.0.2.9;branch=z9hG4bKa1\r
From: <sip:a@192.0.2.9>;tag=f1\r
To: <sip:192.0.2.1>\r
Call-ID: c1\r
CSeq: 7 OPTIONS\r
\r
";

/// Its answer.
pub const OK: &[u8] = b"SIP/2.0 200 OK\r
Via: SIP/2.0/UDP 192.0.2.9;branch=z9hG4bKa1\r
From: <sip:a@192.0.2.9>;tag=f1\r
To: <sip:192.0.2.1>;tag=000000000000000000000000000000010bee7079f\r
Call-ID: c1\r
CSeq: 7 OPTIONS\r
Content-Length: 0\r
\r
";

pub const SEED: [u8; 32] = [0; 32];

pub const CONFIG: Config = Config {
    local: LOCAL,
    seed: SEED,
    first: 0,
};

/// The line of an output file that tells the user of it.
pub const TOLD: &[u8] =
    b"notice c1 request 0.1 OPTIONS 000000000000000000000000000000010bee7079f f1 -\n";

/// The event file of the request and its answer.
pub const EVENTS: &[u8] = b"sip-events 1
local 192.0.2.1:5060
round 0
datagram 192.0.2.9:5060 OPTIONS sip:192.0.2.1 SIP/2.0\\r\\nVia: SIP/2.0/UDP 192.0.2.9;\
branch=z9hG4bKa1\\r\\nFrom: <sip:a@192.0.2.9>;tag=f1\\r\\nTo: <sip:192.0.2.1>\\r\\n\
Call-ID: c1\\r\\nCSeq: 7 OPTIONS\\r\\n\\r\\n
round 10
respond c1 0.1 200 plain - OK
";

/// The line of its answer.
pub const RESPOND: &[u8] = b"respond c1 0.1 200 plain - OK";

/// Its output file.
pub const OUTPUTS: &[u8] = b"sip-outputs 1
round 0
notice c1 request 0.1 OPTIONS 000000000000000000000000000000010bee7079f f1 -
round 10
send 192.0.2.9:5060 SIP/2.0 200 OK\\r\\nVia: SIP/2.0/UDP 192.0.2.9;branch=z9hG4bKa1\\r\\n\
From: <sip:a@192.0.2.9>;tag=f1\\r\\n\
To: <sip:192.0.2.1>;tag=000000000000000000000000000000010bee7079f\\r\\n\
Call-ID: c1\\r\\nCSeq: 7 OPTIONS\\r\\nContent-Length: 0\\r\\n\\r\\n
";

/// What a transaction of the first event hands up: a request or a response.
pub fn up(alloc: Global, text: &[u8]) -> Result<Item, Stop> {
    let message = Boxed::new(alloc, message(alloc, text)?)?;
    Ok(Item::Up(Up {
        key: key_of(alloc, message.get())?,
        id: ID,
        call_id: message.get().call_id.clone()?,
        kind: kind_of(message),
    }))
}

fn kind_of(message: Boxed<Message>) -> UpKind {
    if message.get().is_request() {
        UpKind::Request(message, PEER)
    } else {
        UpKind::Response(message)
    }
}

/// What the user asks for with a line of a session file.
pub fn asked(alloc: Global, line: &[u8]) -> Result<Item, Stop> {
    match read_command_line(alloc, FileKind::Session, line)? {
        Some(command) => Ok(Item::User(command)),
        None => Err(Stop::Different),
    }
}

/// Checks that a call gives one thing, and that its line in an output file is this one.
pub fn is_line(alloc: Global, mut outs: Vec<CallOut>, line: &[u8]) -> Result<(), Stop> {
    check(outs.len() == 1)?;
    match outs.pop() {
        Some(CallOut::Notice(notice)) => is_written_as(alloc, &Output::Notice(notice), line),
        _ => Err(Stop::Different),
    }
}

fn is_written_as(alloc: Global, output: &Output, line: &[u8]) -> Result<(), Stop> {
    check(write_output(alloc, output)?.as_slice() == line)
}

/// The key of the message that a text spells.
pub fn key_in(alloc: Global, text: &[u8]) -> Result<SharedKey, Stop> {
    Ok(key_of(alloc, &message(alloc, text)?)?)
}
