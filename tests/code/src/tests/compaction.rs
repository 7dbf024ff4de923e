//! A stored journal of nine calls that are over and three that are up, made short; and one in which
//! one of those that are up is missing.

use crate::stop::{Stop, check, expect};
use sip_stream::{compact, leaves_the_same};
use sip_message::Spread;
use std::fs;

const SHARDS: usize = 4;

const WORKERS: usize = 1;

/// The bytes of the journal, and those of the shorter one.
const LENGTHS: [u64; 2] = [20_523, 5_236];

/// The transactions and the calls that are held at the end.
const HELD: (u128, u128) = (0, 3);

// The other journal, which leaves out a call, isn't taken for the same.
#[test]
fn a_journal_is_made_short(rt: HostRuntime) -> Result<(), Stop> {
    let (threads, alloc) = (&rt, rt.alloc());
    let text = fs::read(&rt, "compaction/journal")?;
    let mut long: &[u8] = &text;
    let mut again: &[u8] = &text;
    let mut once_more: &[u8] = &text;
    let compacted = compact(
        threads,
        alloc,
        &mut long,
        &mut again,
        &mut once_more,
        SHARDS,
        WORKERS,
        Spread,
    )
    .ok()
    .ok_or(Stop::Different)?
    .ok_or(Stop::Different)?;
    check(compacted.agent.live() == HELD)?;
    let lengths = [text.len() as u64, compacted.text.len() as u64];
    check(lengths == LENGTHS)?;
    let other = fs::read(&rt, "compaction/without-a-call")?;
    let mut long: &[u8] = &text;
    let mut short: &[u8] = &other;
    let same = leaves_the_same(
        threads, alloc, &mut long, &mut short, SHARDS, WORKERS, Spread,
    )
    .ok()
    .ok_or(Stop::Different)?;
    expect("agents that are the same", 0, u64::from(same.is_some()))
}
