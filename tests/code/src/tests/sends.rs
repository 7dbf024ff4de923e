//! A script whose sends fail, each one in turn.

use crate::refusals::{SHARDS, WORKERS};
use crate::script::Script;
use crate::stop::{Stop, expect};
use crate::tests::failing::MOST_TURNS;
use sip_message::{Addr, Spread};
use sip_round::{Agent, Event, OpenGate, Round};
use sip_text::Series;
use sip_udp::{Outlet, send_all};
use std::alloc::Global;
use std::thread::Threads;

/// After its last round: when all that a script began is over.
const OVER: [u64; 3] = [100_000, 200_000, 300_000];

/// An outlet whose send with this number, from 0, fails.
#[derive(Drop)]
struct Lossy {
    sends_left: u64,
    has_failed: bool,
}

impl Outlet for Lossy {
    ghost use Rattle.std.specs.Prelude.{None};

    ghost asked = { λ _. None };

    fn send(&mut self, _to: Addr, _bytes: &[u8]) -> bool {
        if self.has_failed {
            return true;
        }
        match self.sends_left.checked_sub(1) {
            Some(left) => self.sends_left = left,
            None => self.has_failed = true,
        }
        !self.has_failed
    }
}

/// Lets each send of a script fail, one in each run, and gives how many there are. A failed send
/// enters the next round.
///
/// # Errors
///
/// `Count` if something is held in the end, a round was refused, or memory ran out.
pub fn failed_sends<R: Threads + Sync>(
    rt: &R,
    alloc: Global,
    script: &Script,
) -> Result<u64, Stop> {
    for sends_left in 0..MOST_TURNS {
        let mut outlet = Lossy {
            sends_left,
            has_failed: false,
        };
        send_script(rt, alloc, script, &mut outlet)?;
        if !outlet.has_failed {
            return Ok(sends_left);
        }
    }
    Err(Stop::Different)
}

// Runs the script to its end, and sends through the outlet.
fn send_script<R: Threads + Sync>(
    rt: &R,
    alloc: Global,
    script: &Script,
    outlet: &mut Lossy,
) -> Result<(), Stop> {
    let (config, rounds) = script.rounds(alloc)?;
    let mut agent = Agent::new(alloc, config, SHARDS, Spread)?;
    let mut failed = Vec::new(alloc);
    for round in rounds.into_vec() {
        failed = send_round(rt, alloc, &mut agent, round, failed, outlet)?;
    }
    for moment in OVER {
        let events = Series::new(alloc);
        let round = Round { moment, events };
        failed = send_round(rt, alloc, &mut agent, round, failed, outlet)?;
    }
    let (transactions, calls) = agent.live();
    let held = u64::try_from(transactions.saturating_add(calls)).unwrap_or(u64::MAX);
    expect("held at the end", 0, held)
}

// Runs a round, with the failures of the one before at its end. Sends, and gives the new failures.
fn send_round<R: Threads + Sync>(
    rt: &R,
    alloc: Global,
    agent: &mut Agent<Spread>,
    round: Round,
    failed: Vec<Event>,
    outlet: &mut Lossy,
) -> Result<Vec<Event>, Stop> {
    let Round { moment, mut events } = round;
    for event in failed {
        events.push(event)?;
    }
    let round = Round { moment, events };
    let outputs = agent.run_round_with_places(rt, &round, WORKERS, &OpenGate)?;
    Ok(send_all(alloc, outlet, &outputs)?)
}
