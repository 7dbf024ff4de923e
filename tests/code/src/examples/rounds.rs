//! Agents: rounds, moves to other numbers of shards, and what they do when memory runs out.

ghost use Rattle.std.specs.Prelude.{◌<◌, ◌≤◌};

use crate::examples::worked::{EVENTS, OPTIONS, OUTPUTS, PEER};
use crate::faults::of_events;
use crate::refusals::{SHARDS, WORKERS, has_left, outputs_of};
use crate::stop::{Stop, broken_where, check};
use sip_files::{read_events, write_outputs};
use sip_message::Spread;
use sip_round::{Agent, Event, OpenGate, Output, PlacedOutput, Round, RoundFault, run};
use sip_text::{Series, Text};
use std::alloc::Global;
use std::thread::Threads;

/// The event file of an INVITE, without an answer.
const INVITE: &[u8] = b"sip-events 1
local 192.0.2.1:5060
round 0
invite c2 192.0.2.9:5060 sip:b@192.0.2.9 sip:a@192.0.2.1 sip:b@192.0.2.9 none -
";

/// The event file of an INVITE that can't be sent, and its output file.
const UNSENT: &[u8] = b"sip-events 1
local 192.0.2.1:5060
round 0
invite c2 192.0.2.9:5060 sip:b@192.0.2.9 sip:a@192.0.2.1 sip:b@192.0.2.9 none -
round 10
failed client z9hG4bK000000000000000000000000000000010bee7079f INVITE
";

/// A datagram that isn't a message.
const NO_MESSAGE: &[u8] = b"none";

/// The moments at which the INVITE is retransmitted.
const REPEATS: [u64; 6] = [500, 1_500, 3_500, 7_500, 15_500, 31_500];

pub fn rounds_are_run<R: Threads + Sync>(rt: &R, alloc: Global) -> Result<(), Stop> {
    let (config, rounds) = read_events(alloc, EVENTS).map_err(of_events)?;
    let rounds = rounds.as_slice();
    match run(
        rt, alloc, config, SHARDS, WORKERS, Spread, &OpenGate, rounds,
    ) {
        Ok(made) => check_written(alloc, rounds, made),
        Err(_) => Err(Stop::NoMemory),
    }
}

// Checks that the outputs of these rounds are those of the output file.
fn check_written(alloc: Global, rounds: &[Round], made: Vec<Vec<Output>>) -> Result<(), Stop> {
    let mut told = Vec::with_capacity(alloc, rounds.len())?;
    for (round, outputs) in rounds.iter().zip(made) {
        told.push((round.moment, outputs))?;
    }
    check(write_outputs(alloc, &told)?.as_slice() == OUTPUTS)
}

// Moves everything to `shards` shards. If that runs out of memory and the agent isn't broken, it
// holds as much as before, and the same move succeeds.
fn moves(agent: &mut Agent<Spread>, shards: usize) -> Result<(), Stop>
    requires some { 0 < shards }
    requires most { shards ≤ 256 }
{
    let live = agent.live();
    match agent.reshard(shards) {
        Ok(()) => Ok(()),
        Err(RoundFault::NoMemory { broken: false }) => {
            check(agent.live() == live)?;
            Ok(agent.reshard(shards)?)
        }
        Err(RoundFault::NoMemory { broken: true }) => Err(broken_where(has_left(agent))),
        Err(_) => Err(Stop::Different),
    }
}

// Moves an agent that holds nothing.
pub fn nothing_is_moved(agent: &mut Agent<Spread>) -> Result<(), Stop> {
    moves(agent, 7)?;
    check(agent.live() == (0, 0) && agent.next_due().is_none())
}

// A round with one datagram.
fn datagram(alloc: Global) -> Result<Round, Stop> {
    let bytes = Text::copy_of(alloc, OPTIONS)?;
    let mut events = Series::new(alloc);
    events.push(Event::Datagram { from: PEER, bytes })?;
    Ok(Round { moment: 0, events })
}

// A round without events.
fn quiet(alloc: Global, moment: u64) -> Round {
    Round {
        moment,
        events: Series::new(alloc),
    }
}

// Checks that a round sends one datagram, and does nothing else.
fn sends<R: Threads + Sync>(rt: &R, agent: &mut Agent<Spread>, round: &Round) -> Result<(), Stop> {
    let outputs = outputs_of(rt, agent, round)?;
    check(matches!(outputs.as_slice(), [Output::Send { .. }]))
}

// Checks that a round gives one notice, and does nothing else.
fn tells<R: Threads + Sync>(rt: &R, agent: &mut Agent<Spread>, round: &Round) -> Result<(), Stop> {
    let outputs = outputs_of(rt, agent, round)?;
    check(matches!(outputs.as_slice(), [Output::Notice(_)]))
}

pub fn a_datagram_is_told<R: Threads + Sync>(
    rt: &R,
    alloc: Global,
    agent: &mut Agent<Spread>,
) -> Result<(), Stop> {
    tells(rt, agent, &datagram(alloc)?)?;
    check(agent.live() == (1, 1))
}

pub fn moved_while_a_timer_runs<R: Threads + Sync>(
    rt: &R,
    alloc: Global,
    agent: &mut Agent<Spread>,
) -> Result<(), Stop> {
    let (_, rounds) = read_events(alloc, INVITE).map_err(of_events)?;
    times_out(rt, alloc, agent, rounds.first().ok_or(Stop::Different)?)
}

// The INVITE is retransmitted at each of its moments, and then times out.
fn times_out<R: Threads + Sync>(
    rt: &R,
    alloc: Global,
    agent: &mut Agent<Spread>,
    round: &Round,
) -> Result<(), Stop> {
    sends(rt, agent, round)?;
    for moment in REPEATS {
        sends(rt, agent, &quiet(alloc, moment))?;
        moves_at(agent, moment)?;
        check(agent.live() == (1, 1))?;
    }
    tells(rt, agent, &quiet(alloc, 32_000))?;
    check(agent.live() == (0, 0))
}

// Moves everything at two of its moments.
fn moves_at(agent: &mut Agent<Spread>, moment: u64) -> Result<(), Stop> {
    match moment {
        500 => moves(agent, 64),
        3_500 => moves(agent, 1),
        _ => Ok(()),
    }
}

pub fn a_failed_client_is_gone<R: Threads + Sync>(
    rt: &R,
    alloc: Global,
    agent: &mut Agent<Spread>,
) -> Result<(), Stop> {
    let (_, rounds) = read_events(alloc, UNSENT).map_err(of_events)?;
    for round in rounds.as_slice() {
        check(outputs_of(rt, agent, round)?.len() == 1)?;
    }
    check(agent.live() == (0, 0))
}

// The outputs of a round with their places. If it runs out of memory and the agent isn't broken,
// the same round gives them.
fn placed<R: Threads + Sync>(
    rt: &R,
    agent: &mut Agent<Spread>,
    round: &Round,
) -> Result<Vec<PlacedOutput>, Stop> {
    match agent.run_round_with_places(rt, round, WORKERS, &OpenGate) {
        Ok(outputs) => Ok(outputs),
        Err(RoundFault::NoMemory { broken: false }) => {
            Ok(agent.run_round_with_places(rt, round, WORKERS, &OpenGate)?)
        }
        Err(RoundFault::NoMemory { broken: true }) => Err(broken_where(has_left(agent))),
        Err(_) => Err(Stop::Different),
    }
}

// A round with these datagrams.
fn round_of(alloc: Global, moment: u64, texts: &[&[u8]]) -> Result<Round, Stop> {
    let mut events = Series::new(alloc);
    for text in texts {
        let bytes = Text::copy_of(alloc, text)?;
        events.push(Event::Datagram { from: PEER, bytes })?;
    }
    Ok(Round { moment, events })
}

// A datagram that isn't a message is the first event, and a request is the second.
pub fn outputs_have_the_places_of_their_events<R: Threads + Sync>(
    rt: &R,
    alloc: Global,
    agent: &mut Agent<Spread>,
) -> Result<(), Stop> {
    check(agent.next_round() == 0)?;
    let round = round_of(alloc, 0, &[NO_MESSAGE, OPTIONS])?;
    let outputs = placed(rt, agent, &round)?;
    check(are_a_drop_and_a_notice(&outputs) && agent.next_round() == 1)?;
    a_drop_in_turn(alloc, agent)
}

// The same without threads, with places and without.
fn a_drop_in_turn(alloc: Global, agent: &mut Agent<Spread>) -> Result<(), Stop> {
    let round = round_of(alloc, 10, &[NO_MESSAGE])?;
    let outputs = agent.run_round_in_turn_with_places(&round)?;
    check(is_a_drop(&outputs))?;
    let round = round_of(alloc, 20, &[NO_MESSAGE])?;
    let outputs = agent.run_round_in_turn(&round)?;
    check(matches!(outputs.as_slice(), [Output::Dropped { .. }]))
}

fn is_a_drop(outputs: &[PlacedOutput]) -> bool {
    match outputs {
        [dropped] => dropped.place == 1 && matches!(dropped.output, Output::Dropped { .. }),
        _ => false,
    }
}

fn are_a_drop_and_a_notice(outputs: &[PlacedOutput]) -> bool {
    match outputs {
        [dropped, told] => {
            dropped.place == 1
                && matches!(dropped.output, Output::Dropped { .. })
                && told.place == 2
                && matches!(told.output, Output::Notice(_))
        }
        _ => false,
    }
}
