//! Loads of requests that come in and are answered: one a round, none while some are held, many in
//! each round.

use crate::load::Load;
use crate::stop::Stop;
use std::alloc::Global;
use std::thread::Threads;

/// How long a transaction is held after it is answered, in ms: 64 T1.
pub const LIFE: u64 = 32_000;

/// How many requests come in a round before the idle ones.
const REQUESTS_AT_ONCE: u64 = 100;

/// How many requests a large round has, and how many large rounds there may be.
const REQUESTS_OF_ROUND: u64 = 10_000;

const MOST_ROUNDS: u64 = 999;

/// One request comes in each round, so fast that `held` are held when the first ends. Then come
/// `more` more, and all end. Gives what `Load::served` gives.
///
/// # Errors
///
/// As for a round of a load.
pub fn transactions<R: Threads + Sync>(
    rt: &R,
    alloc: Global,
    held: u64,
    more: u64,
) -> Result<[u64; 5], Stop> {
    let mut load = Load::new(alloc, 1, 1)?;
    let count = held.saturating_add(more);
    for number in 0..count {
        load.round(rt, moment_of(number, held), 1)?;
    }
    let end = moment_of(count, held);
    load.round(rt, end, 0)?;
    load.round(rt, end.saturating_add(LIFE), 0)?;
    load.served(0)
}

// When the request with this number comes, if `held` requests come while each is held.
fn moment_of(number: u64, held: u64) -> u64 {
    number
        .saturating_mul(LIFE)
        .checked_div(held)
        .unwrap_or(u64::MAX)
}

/// `held` requests are answered, and rounds without events pass while they are held. Gives what
/// `Load::served` gives.
///
/// # Errors
///
/// As for a round of a load.
pub fn idle_rounds<R: Threads + Sync>(
    rt: &R,
    alloc: Global,
    held: u64,
    rounds: u64,
) -> Result<[u64; 5], Stop> {
    let mut load = Load::new(alloc, 1, 1)?;
    for _ in 0..held / REQUESTS_AT_ONCE {
        load.round(rt, 0, REQUESTS_AT_ONCE)?;
    }
    load.round(rt, 0, held % REQUESTS_AT_ONCE)?;
    load.round(rt, 0, 0)?;
    for number in 0..rounds {
        load.idle_round(rt, number % LIFE)?;
    }
    load.served(held)
}

/// Large rounds. Each ends what the last but one began. Gives what `Load::served` gives.
///
/// # Errors
///
/// `Words` if there are too many rounds, otherwise as for a round of a load.
pub fn large_rounds<R: Threads + Sync>(
    rt: &R,
    mut load: Load,
    rounds: u64,
) -> Result<[u64; 5], Stop> {
    if rounds > MOST_ROUNDS {
        return Err(Stop::Words);
    }
    for number in 0..rounds {
        load.round(rt, number.saturating_mul(LIFE), REQUESTS_OF_ROUND)?;
    }
    let end = rounds.saturating_mul(LIFE);
    load.round(rt, end, 0)?;
    load.round(rt, end.saturating_add(LIFE), 0)?;
    load.served(0)
}
