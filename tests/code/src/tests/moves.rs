//! A script whose calls are moved to another number of shards before each round, by both cuts.

use crate::script::{LONG, Script};
use crate::stop::{Stop, expect};
use sip_files::write_outputs;
use sip_message::{Cut, First, Spread};
use sip_round::{Agent, Config, OpenGate, Output, Round, RoundFault};
use std::alloc::Global;
use std::thread::Threads;

/// With how many shards the runs begin.
const SHARDS: [usize; 5] = [1, 2, 7, 64, 256];

const WORKERS: [usize; 2] = [1, 8];

/// The runs of a script.
#[derive(Drop)]
struct Runs<'a, R> {
    rt: &'a R,
    alloc: Global,
    config: Config,
    rounds: &'a [Round],
    outputs: &'a [u8],
    differ: u64,
}

// From each number of shards on, with each number of workers, by both cuts.
#[test]
fn what_is_moved_stays_the_same(rt: HostRuntime) -> Result<(), Stop> {
    let script = Script::read(&rt, ".", LONG)?;
    let (config, rounds) = script.rounds(rt.alloc())?;
    let mut runs = Runs {
        rt: &rt,
        alloc: rt.alloc(),
        config,
        rounds: rounds.as_slice(),
        outputs: &script.outputs,
        differ: 0,
    };
    for shards in SHARDS {
        for workers in WORKERS {
            runs.one(shards, workers, Spread)?;
            runs.one(shards, workers, First)?;
        }
    }
    expect("runs that differ", 0, runs.differ)
}

impl<'a, R: Threads + Sync> Runs<'a, R> {
    // Makes one run, and counts it if it doesn't give the output file.
    fn one<C: Cut + Drop>(&mut self, shards: usize, workers: usize, cut: C) -> Result<(), Stop> {
        let mut agent = Agent::new(self.alloc, self.config, shards, cut)?;
        let mut told: Vec<(u64, Vec<Output>)> = Vec::new(self.alloc);
        for (index, round) in self.rounds.iter().enumerate() {
            move_before(&mut agent, index)?;
            let outputs = agent.run_round(self.rt, round, workers, &OpenGate)?;
            told.push((round.moment, outputs))?;
        }
        let is_same = write_outputs(self.alloc, &told)?.as_slice() == self.outputs;
        self.differ = self.differ.saturating_add(u64::from(!is_same));
        Ok(())
    }
}

// Moves everything held to another number of shards before the round with this index.
fn move_before<C: Cut + Drop>(agent: &mut Agent<C>, index: usize) -> Result<(), RoundFault> {
    match index % 4 {
        0 => agent.reshard(2),
        1 => agent.reshard(64),
        2 => agent.reshard(1),
        _ => agent.reshard(7),
    }
}
