//! Event files, output files, and what is sent.

use crate::examples::worked::{CONFIG, EVENTS, OUTPUTS, PEER};
use crate::faults::{of_events, of_replay};
use crate::often::token;
use crate::stop::{Stop, check};
use sip_files::{FileKind, read_command_line, read_events, replay, write_head, write_round};
use sip_message::{Addr, Key, Spread};
use sip_round::{Event, OpenGate, Output, PlacedOutput, Round};
use sip_text::Text;
use sip_udp::{Outlet, send_all};
use sip_user::UserCommand;
use std::alloc::{AllocError, Global};
use std::thread::Threads;

/// The lines before the first round, with all that may stand there.
const HEAD: &[u8] = b"sip-events 2
local 192.0.2.1:5060
seed 0000000000000000000000000000000000000000000000000000000000000000
first 0
";

pub fn a_file_is_replayed<R: Threads + Sync>(rt: &R, alloc: Global) -> Result<(), Stop> {
    let mut output = Vec::with_capacity(alloc, OUTPUTS.len())?;
    let mut input = EVENTS;
    let kind = FileKind::Events;
    let end = replay(
        rt,
        alloc,
        kind,
        &mut input,
        &mut output,
        2,
        2,
        Spread,
        &OpenGate,
    );
    check(end.is_ok() || output.is_empty())?;
    end.map_err(of_replay)?;
    check(output.as_slice() == OUTPUTS)
}

// What was read is written again as it stood.
pub fn a_round_is_written(alloc: Global) -> Result<(), Stop> {
    check(write_head(alloc, &CONFIG)?.as_slice() == HEAD)?;
    let (_, rounds) = read_events(alloc, EVENTS).map_err(of_events)?;
    let text = text_of(alloc, rounds.as_slice())?;
    check(EVENTS.ends_with(text.as_slice()) && text.len() > 200)
}

fn text_of(alloc: Global, rounds: &[Round]) -> Result<Vec<u8>, AllocError> {
    let mut text = Vec::new(alloc);
    for round in rounds {
        text.extend_from_slice(&write_round(alloc, round)?)?;
    }
    Ok(text)
}

pub fn a_command_is_read(alloc: Global) -> Result<(), Stop> {
    let kind = FileKind::Events;
    check(is_cancel(&read_command_line(alloc, kind, b"cancel c2 9.4")?))?;
    check(read_command_line(alloc, kind, b"cancel c2")?.is_none())?;
    // Only a session has the command that gives up.
    check(read_command_line(alloc, kind, b"abandon c2 9.4")?.is_none())?;
    match read_command_line(alloc, FileKind::Session, b"abandon c2 9.4")? {
        Some(UserCommand::AbandonRequest(abandon)) => {
            check(abandon.id.round == 9 && abandon.id.place == 4)
        }
        _ => Err(Stop::Different),
    }
}

fn is_cancel(command: &Option<UserCommand>) -> bool {
    match command {
        Some(UserCommand::Cancel(cancel)) => {
            cancel.id.round == 9
                && cancel.id.place == 4
                && cancel.call_id.as_slice() == b"c2".as_slice()
        }
        _ => false,
    }
}

/// An outlet whose first send fails. It counts how often it is asked.
#[derive(Default, Drop)]
pub struct FirstFails {
    asked: u64,
}

impl Outlet for FirstFails {
    ghost use Rattle.std.specs.Prelude.{None};

    ghost asked = { λ _. None };

    fn send(&mut self, _to: Addr, _bytes: &[u8]) -> bool {
        self.asked = self.asked.saturating_add(1);
        self.asked > 1
    }
}

// A Send with the datagram of a transaction.
fn send(alloc: Global) -> Result<PlacedOutput, Stop> {
    let key = Key::client(alloc, b"z9hG4bKi", token(alloc, b"INVITE")?)?;
    let output = Output::Send {
        key: Some(key),
        to: PEER,
        bytes: Text::copy_of(alloc, b"x")?,
    };
    Ok(PlacedOutput { place: 1, output })
}

pub fn a_failed_send_is_told(alloc: Global, outlet: &mut FirstFails) -> Result<(), Stop> {
    let failed = sent(alloc, outlet, &[send(alloc)?, send(alloc)?])?;
    check(outlet.asked == 2 && is_of_branch(&failed, b"z9hg4bki"))
}

// If memory runs out, nothing is sent.
fn sent(
    alloc: Global,
    outlet: &mut FirstFails,
    outputs: &[PlacedOutput],
) -> Result<Vec<Event>, Stop> {
    match send_all(alloc, outlet, outputs) {
        Ok(failed) => Ok(failed),
        Err(AllocError) => {
            check(outlet.asked == 0)?;
            Ok(send_all(alloc, outlet, outputs)?)
        }
    }
}

fn is_of_branch(failed: &[Event], branch: &[u8]) -> bool {
    match failed {
        [Event::Failed(key)] => key.get().branch() == branch,
        _ => false,
    }
}
