//! What each task does.

use crate::examples::run_example;
use crate::load::Load;
use crate::loads::{idle_rounds, large_rounds, transactions};
use crate::often::{answer_often, read_often};
use crate::refusals::round_by_round;
use crate::script::{LONG, Script};
use crate::stop::Stop;
use crate::tally::tell;
use crate::words::{Asked, Task};
use std::fs;
use std::thread::Threads;

/// Does a task, and writes its counts.
///
/// # Errors
///
/// Each case of `Stop`.
pub fn done<T: Threads + Sync>(
    rt: &HostRuntime,
    threads: &T,
    asked: Asked<'_>,
) -> Result<(), Stop> {
    let [first, second, third] = asked.numbers;
    match asked.task {
        Task::Example => run_example(rt, threads, asked.text),
        Task::Read | Task::Answer => often(rt, asked.task, asked.text, first),
        Task::RoundByRound => {
            round_by_round(threads, rt.alloc(), &Script::read(rt, asked.text, LONG)?)?;
            Ok(println!(rt; "right")?)
        }
        Task::Transactions => served(rt, transactions(threads, rt.alloc(), first, second)?),
        Task::Idle => served(rt, idle_rounds(threads, rt.alloc(), first, second)?),
        Task::Rounds => {
            let load = Load::new(rt.alloc(), size_of(second), size_of(third))?;
            served(rt, large_rounds(threads, load, first)?)
        }
    }
}

// A number of shards or workers. Too large a number becomes 0, which is refused.
fn size_of(number: u64) -> usize {
    usize::try_from(number).unwrap_or(0)
}

// Reads or answers the message of a file `times` times.
fn often(rt: &HostRuntime, task: Task, file: &str, times: u64) -> Result<(), Stop> {
    let text = fs::read(rt, file)?;
    let ([count, bytes], what) = match task {
        Task::Read => (read_often(rt.alloc(), &text, times)?, "read"),
        _ => (answer_often(rt.alloc(), &text, times)?, "answers written"),
    };
    Ok(tell(rt, &[(count, what), (bytes, "bytes each")])?)
}

// Writes what happened to requests.
fn served(rt: &HostRuntime, counts: [u64; 5]) -> Result<(), Stop> {
    let [told, answered, ended, held, rounds] = counts;
    Ok(tell(
        rt,
        &[
            (told, "told"),
            (answered, "answered"),
            (ended, "ended"),
            (held, "held"),
            (rounds, "rounds"),
        ],
    )?)
}
