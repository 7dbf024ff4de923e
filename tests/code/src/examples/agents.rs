//! Several agents: which one has a call, and the numbers of its rounds.

use crate::examples::worked::{CONFIG, OPTIONS, PEER};
use crate::often::token;
use crate::stop::{Stop, check};
use sip_agents::{Destination, STRIPE, agent_of_id, config_of, destination_of};
use sip_files::{FileKind, read_command_line};
use sip_message::{Id, Key, Spread};
use sip_round::Event;
use sip_text::Text;
use std::alloc::Global;

/// How many agents there are.
const AGENTS: usize = 2;

/// A datagram that isn't a message: it is for the first agent.
const NO_MESSAGE: &[u8] = b"none";

/// A command in the call `c2`. Its letters add up to an odd number, so it is the second agent's.
const RESPOND: &[u8] = b"respond c2 288230376151711744.1 200 plain - OK";

pub fn each_call_has_its_agent(alloc: Global) -> Result<(), Stop> {
    let second = config_of(CONFIG, 1).first;
    let id = Id {
        round: second,
        place: 1,
    };
    check(second == STRIPE && agent_of_id(id) == 1)?;
    is_for(alloc, datagram(alloc, OPTIONS)?, Destination::One(0))?;
    is_for(alloc, datagram(alloc, NO_MESSAGE)?, Destination::One(0))?;
    is_for(alloc, command(alloc)?, Destination::One(1))?;
    is_for(alloc, failed(alloc)?, Destination::All)
}

fn is_for(alloc: Global, event: Event, wanted: Destination) -> Result<(), Stop> {
    check(destination_of(alloc, &Spread, AGENTS, &event)? == wanted)
}

fn datagram(alloc: Global, text: &[u8]) -> Result<Event, Stop> {
    let bytes = Text::copy_of(alloc, text)?;
    Ok(Event::Datagram { from: PEER, bytes })
}

fn command(alloc: Global) -> Result<Event, Stop> {
    match read_command_line(alloc, FileKind::Session, RESPOND)? {
        Some(command) => Ok(Event::Command(command)),
        None => Err(Stop::Different),
    }
}

fn failed(alloc: Global) -> Result<Event, Stop> {
    let method = token(alloc, b"INVITE")?;
    Ok(Event::Failed(Key::client(alloc, b"z9hG4bKi", method)?))
}
