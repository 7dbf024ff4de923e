//! Large numbers: of what one shard holds, of shards, and of workers.

use crate::faults::of_events;
use crate::load::{Load, MOST_SHARDS, MOST_WORKERS};
use crate::loads::LIFE;
use crate::stop::{Stop, expect};
use sip_files::read_events;
use sip_round::Round;
use sip_text::Series;
use std::alloc::Global;

/// How many transactions, and as many calls, are held in one shard.
const HELD: u64 = 500;

/// How many requests come in a round with the most shards and workers.
const REQUESTS: u64 = 1_000;

/// How many rounds begin something that ends 64 T1 later, and how long each takes.
const SHORT_ROUNDS: u64 = 2_000;

const ROUND: u64 = 100;

#[test]
fn much_is_moved(rt: HostRuntime) -> Result<(), Stop> {
    let (rt, alloc) = (&rt, rt.alloc());
    let mut load = Load::new(alloc, 1, 1)?;
    load.round(rt, 0, HELD)?;
    load.is_held(HELD)?;
    load.reshard(MOST_SHARDS)?;
    load.is_held(HELD)?;
    load.round(rt, 10, 0)?;
    load.reshard(1)?;
    load.served(HELD)?;
    load.round(rt, LIFE.saturating_add(10), 0)?;
    load.served(0)?;
    Ok(())
}

#[test]
fn the_most_shards_and_workers(rt: HostRuntime) -> Result<(), Stop> {
    let (rt, alloc) = (&rt, rt.alloc());
    let mut load = Load::new(alloc, MOST_SHARDS, MOST_WORKERS)?;
    load.round(rt, 0, REQUESTS)?;
    load.round(rt, 0, 0)?;
    load.served(REQUESTS)?;
    load.round(rt, LIFE, 0)?;
    load.served(0)?;
    Ok(())
}

// What has ended is no longer held. A request is told and answered in its round, and 64 T1 later
// nothing of it is left.
#[test]
fn what_is_over_is_not_held(rt: HostRuntime) -> Result<(), Stop> {
    let (rt, alloc) = (&rt, rt.alloc());
    let mut load = Load::new(alloc, 3, 1)?;
    for number in 0..SHORT_ROUNDS {
        let rounds = round_of(alloc, number)?;
        let outputs = load.run(rt, rounds.first().ok_or(Stop::Script)?)?;
        expect("outputs", 2, outputs.len() as u64)?;
        load.is_held(number.saturating_add(1).min(LIFE / ROUND))?;
    }
    load.reshard(7)?;
    load.is_held(LIFE / ROUND)
}

// The round with this number, in which an OPTIONS comes in and is answered. Each has its own branch
// and its own call.
fn round_of(alloc: Global, number: u64) -> Result<Series<Round>, Stop> {
    let moment = number.saturating_mul(ROUND);
    let text = format!(in alloc;
        "sip-events 1\nlocal 127.0.0.1:5060\nround {moment}\n\
        datagram 127.0.0.1:5070 OPTIONS sip:127.0.0.1 SIP/2.0\\r\\n\
        Via: SIP/2.0/UDP 127.0.0.1:5070;branch=z9hG4bKr{number}\\r\\n\
        From: <sip:a@127.0.0.1>;tag=f1\\r\\nTo: <sip:127.0.0.1>\\r\\n\
        Call-ID: c{number}\\r\\nCSeq: 7 OPTIONS\\r\\n\\r\\n\n\
        respond c{number} {number}.1 200 plain - OK\n"
    )?;
    let (_, rounds) = read_events(alloc, text.as_bytes()).map_err(of_events)?;
    Ok(rounds)
}
