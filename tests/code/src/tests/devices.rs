//! Readers and writers that fail at one of their calls, at each one in turn.

use crate::refusals::{SHARDS, WORKERS};
use crate::script::{LONG, Script};
use crate::stop::{Stop, check, expect};
use crate::tests::failing::{Failing, MOST_TURNS};
use crate::tests::sends::failed_sends;
use sip_files::{FileKind, ReplayFault, replay};
use sip_message::Spread;
use sip_round::OpenGate;
use std::alloc::Global;
use std::thread::Threads;

/// The name of a script with one transaction.
const SHORT: &str = "requests/told-and-answered";

/// The scripts, how many bytes a device takes or gives at once, and how many reads, writes and
/// sends there are.
const SCRIPTS: [(&str, usize, [u64; 3]); 2] = [
    (LONG, 4_096, [9, 12, 142]),
    (SHORT, 1, [282, 356, 1]),
];

/// The number of a call that is never made.
const NEVER: u64 = u64::MAX;

// How many reads, writes and sends there are says that each was made to fail.
#[test]
fn reads_writes_and_sends_fail_in_turn(rt: HostRuntime) -> Result<(), Stop> {
    for (name, most, wanted) in SCRIPTS {
        let script = Script::read(&rt, ".", name)?;
        let reads = failed_calls(&rt, rt.alloc(), &script, most, true)?;
        let writes = failed_calls(&rt, rt.alloc(), &script, most, false)?;
        let sends = failed_sends(&rt, rt.alloc(), &script)?;
        assert!(rt;
            [reads, writes, sends] == wanted,
            "{reads}, {writes}, {sends}"
        );
    }
    Ok(())
}

// How many reads there are, or how many writes. Each was made to fail.
fn failed_calls<T: Threads + Sync>(
    threads: &T,
    alloc: Global,
    script: &Script,
    most: usize,
    are_reads: bool,
) -> Result<u64, Stop> {
    for number in 0..MOST_TURNS {
        let (read, write) = if are_reads {
            (number, NEVER)
        } else {
            (NEVER, number)
        };
        let mut input = Failing::new(alloc, most, read, &script.events);
        let mut output = Failing::new(alloc, most, write, b"");
        if is_whole(threads, alloc, script, &mut input, &mut output)? {
            return Ok(number);
        }
    }
    Err(Stop::Different)
}

// Whether no call failed, and all was written. If a read failed, that is told and nothing is
// written. If a write failed, that is told and no more is written than before it.
fn is_whole<T: Threads + Sync>(
    threads: &T,
    alloc: Global,
    script: &Script,
    input: &mut Failing<'_>,
    output: &mut Failing<'_>,
) -> Result<bool, Stop> {
    let (kind, gate) = (FileKind::Events, &OpenGate);
    let end = replay(
        threads, alloc, kind, input, output, SHARDS, WORKERS, Spread, gate,
    );
    let (wanted, length) = if input.has_failed()? {
        (Err(ReplayFault::Input), 0)
    } else if output.has_failed()? {
        let length = output.fails_at.saturating_mul(output.most as u64);
        (Err(ReplayFault::Output), length)
    } else {
        (Ok(()), script.outputs.len() as u64)
    };
    check(end == wanted)?;
    expect("bytes written", length, output.output.len() as u64)?;
    check(script.outputs.starts_with(output.output.as_slice()))?;
    Ok(wanted.is_ok())
}
