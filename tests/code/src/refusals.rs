//! The script when memory may run out: the answer is right, or says that memory ran out.

use crate::script::Script;
use crate::stop::{Stop, broken_where, check};
use sip_files::write_outputs;
use sip_message::Spread;
use sip_round::{Agent, OpenGate, Output, Round, RoundFault};
use std::alloc::Global;
use std::thread::Threads;

/// The numbers of shards and workers of the agent that runs it.
pub const SHARDS: usize = 2;

pub const WORKERS: usize = 2;

/// Runs the script round by round. A round that ran out of memory is run again if its agent isn't
/// broken.
///
/// # Errors
///
/// As for an example.
pub fn round_by_round<R: Threads + Sync>(
    rt: &R,
    alloc: Global,
    script: &Script,
) -> Result<(), Stop> {
    let (config, rounds) = script.rounds(alloc)?;
    let mut agent = Agent::new(alloc, config, SHARDS, Spread)?;
    let mut told = Vec::new(alloc);
    for round in rounds.as_slice() {
        let outputs = outputs_of(rt, &mut agent, round)?;
        told.push((round.moment, outputs))?;
    }
    check(write_outputs(alloc, &told)?.as_slice() == script.outputs.as_slice())
}

/// The outputs of a round. If it runs out of memory and the agent isn't broken, the same round
/// gives them. If the agent is broken, it has to stay so.
///
/// # Errors
///
/// As for an example.
pub fn outputs_of<R: Threads + Sync>(
    rt: &R,
    agent: &mut Agent<Spread>,
    round: &Round,
) -> Result<Vec<Output>, Stop> {
    match agent.run_round(rt, round, WORKERS, &OpenGate) {
        Ok(outputs) => Ok(outputs),
        Err(RoundFault::NoMemory { broken: false }) => {
            Ok(agent.run_round(rt, round, WORKERS, &OpenGate)?)
        }
        Err(RoundFault::NoMemory { broken: true }) => Err(broken(rt, agent, round)),
        Err(_) => Err(Stop::Different),
    }
}

// Checks that an agent that ran out of memory is broken.
fn broken<R: Threads + Sync>(rt: &R, agent: &mut Agent<Spread>, round: &Round) -> Stop {
    let again = agent.run_round(rt, round, WORKERS, &OpenGate);
    broken_where(matches!(again, Err(RoundFault::Broken)) && has_left(agent))
}

/// Whether an agent refuses to move anything, and holds nothing.
pub fn has_left(agent: &mut Agent<Spread>) -> bool {
    agent.reshard(SHARDS) == Err(RoundFault::Broken) && agent.live() == (0, 0)
}
