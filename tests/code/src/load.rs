//! An agent under load: requests come in, the user is told, answers them, and they end.

use crate::options::options_of;
use crate::stop::{Stop, expect};
use sip_message::{Addr, Content, Reason, Spread};
use sip_round::{Agent, Config, Event, OpenGate, Output, Round};
use sip_text::{Series, Text};
use sip_user::{Notice, Reliability, Respond, UserCommand};
use std::alloc::{AllocError, Global};
use std::mem;
use std::thread::Threads;

/// The status with which each request is answered, and the reason.
const OK: u16 = 200;

const REASON: &[u8] = b"OK";

/// The maximum number of shards of an agent.
pub const MOST_SHARDS: usize = 256;

/// The maximum number of workers of a round.
pub const MOST_WORKERS: usize = 64;

/// The beginning of each answer.
const ANSWER: &[u8] = b"SIP/2.0 200 ";

/// The configuration with which the agent is started.
pub const CONFIG: Config = Config {
    local: Addr {
        ip: [127, 0, 0, 1],
        port: 5060,
    },
    seed: [7; 32],
    first: 0,
};

/// An agent, a user that answers each request with 200, and the counts so far.
#[derive(Drop)]
pub struct Load {
    alloc: Global,
    agent: Agent<Spread>,
    workers: usize,
    // The answers for the next round.
    answers: Vec<Event>,
    made: u64,
    told: u64,
    answered: u64,
    rounds: u64,
}

impl Load {
    /// Before the first round.
    ///
    /// # Errors
    ///
    /// `Words` for a number of shards that isn't possible, or memory ran out.
    pub fn new(alloc: Global, shards: usize, workers: usize) -> Result<Load, Stop> {
        if shards == 0 || shards > MOST_SHARDS {
            return Err(Stop::Words);
        }
        Ok(Load {
            alloc,
            agent: Agent::new(alloc, CONFIG, shards, Spread)?,
            workers,
            answers: Vec::new(alloc),
            made: 0,
            told: 0,
            answered: 0,
            rounds: 0,
        })
    }

    /// Runs a round at a moment, with the answers to the requests that the user was told of in the
    /// last one, and with `requests` new requests.
    ///
    /// # Errors
    ///
    /// A round was refused, or memory ran out.
    pub fn round<R: Threads + Sync>(
        &mut self,
        rt: &R,
        moment: u64,
        requests: u64,
    ) -> Result<(), Stop> {
        let round = Round {
            moment,
            events: self.events(requests)?,
        };
        let outputs = self.run(rt, &round)?;
        for output in &outputs {
            self.take(output)?;
        }
        Ok(())
    }

    /// Runs a round without events at a moment. It must give nothing.
    ///
    /// # Errors
    ///
    /// A round was refused, memory ran out, or `Count` if it gives something.
    pub fn idle_round<R: Threads + Sync>(&mut self, rt: &R, moment: u64) -> Result<(), Stop> {
        let round = Round {
            moment,
            events: Series::from_vec(Vec::new(self.alloc)),
        };
        let outputs = self.run(rt, &round)?;
        expect("outputs", 0, outputs.len() as u64)
    }

    /// Runs a round without counting its outputs.
    ///
    /// # Errors
    ///
    /// `Words` for a number of workers that isn't possible; a round was refused; or memory ran out.
    pub fn run<R: Threads + Sync>(&mut self, rt: &R, round: &Round) -> Result<Vec<Output>, Stop> {
        let workers = self.workers;
        if workers == 0 || workers > MOST_WORKERS {
            return Err(Stop::Words);
        }
        let outputs = self.agent.run_round(rt, round, workers, &OpenGate)?;
        self.rounds = self.rounds.saturating_add(1);
        Ok(outputs)
    }

    /// Moves everything held to `shards` shards.
    ///
    /// # Errors
    ///
    /// `Words` for a number of shards that isn't possible; the agent refuses; or memory ran out.
    #[cfg(test)]
    pub fn reshard(&mut self, shards: usize) -> Result<(), Stop> {
        if shards == 0 || shards > MOST_SHARDS {
            return Err(Stop::Words);
        }
        Ok(self.agent.reshard(shards)?)
    }

    /// Checks that `held` transactions, and as many calls, are held.
    ///
    /// # Errors
    ///
    /// `Count` if that isn't so.
    pub fn is_held(&self, held: u64) -> Result<(), Stop> {
        let (transactions, calls) = self.agent.live();
        let transactions = u64::try_from(transactions).unwrap_or(u64::MAX);
        let calls = u64::try_from(calls).unwrap_or(u64::MAX);
        expect("transactions held", held, transactions)?;
        expect("calls held", held, calls)
    }

    /// What happened to the requests: how many were told, were answered, have ended and are held,
    /// and how many rounds there were.
    ///
    /// # Errors
    ///
    /// `Count` if the user wasn't told of each request, if not each was answered, or if not as many
    /// are held as should be.
    pub fn served(&self, held: u64) -> Result<[u64; 5], Stop> {
        self.is_held(held)?;
        expect("requests told", self.made, self.told)?;
        expect("answers", self.made, self.answered)?;
        let ended = self.made.saturating_sub(held);
        Ok([self.told, self.answered, ended, held, self.rounds])
    }

    // The events of the next round.
    fn events(&mut self, requests: u64) -> Result<Series<Event>, AllocError> {
        let mut events = mem::replace(&mut self.answers, Vec::new(self.alloc));
        for _ in 0..requests {
            self.made = self.made.saturating_add(1);
            events.push(options_of(self.alloc, self.made)?)?;
        }
        Ok(Series::from_vec(events))
    }

    // Counts an output, and answers a request that the user is told of.
    fn take(&mut self, output: &Output) -> Result<(), Stop> {
        match output {
            Output::Send { bytes, .. } => {
                if is_answer(bytes.as_slice()) {
                    self.answered = self.answered.saturating_add(1);
                }
            }
            Output::Notice(notice) => {
                if let Some(answer) = answer_to(self.alloc, notice)? {
                    self.told = self.told.saturating_add(1);
                    self.answers.push(answer)?;
                }
            }
            Output::Dropped { .. } => {}
        }
        Ok(())
    }
}

fn is_answer(text: &[u8]) -> bool {
    text.starts_with(ANSWER)
}

// The answer to a notice, if it is about a request.
fn answer_to(alloc: Global, notice: &Notice) -> Result<Option<Event>, AllocError> {
    let Notice::Request { call_id, id, .. } = notice else {
        return Ok(None);
    };
    let Some(reason) = Reason::new(Text::copy_of(alloc, REASON)?) else {
        return Ok(None);
    };
    Ok(Some(Event::Command(UserCommand::Respond(Respond {
        call_id: call_id.clone()?,
        id: *id,
        status: OK,
        reliability: Reliability::Plain,
        content: Content::of_body(Text::from_vec(Vec::new(alloc))),
        reason,
    }))))
}
