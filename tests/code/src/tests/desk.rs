//! Lines from other threads to a desk.

use sip_desk::{Desk, Ended, NoMemory, Poster, SettleFault, Unfinished, open};
use std::alloc::Global;
use std::process::Abort;
use std::test::Fail;
use std::thread;
use std::thread::Threads;

/// An event: the number of its line, and its own number on that line.
type Event = (usize, u64);

// How many events each thread posts.
const EVENTS: u64 = 10_000;

// How often a thread tries before it gives up.
const MOST_TURNS: u64 = 1_000_000_000;

// A desk of two lines, and their posters.
fn two_lines(
    alloc: Global,
    capacity: usize,
) -> Result<(Desk<Event>, Poster<Event>, Poster<Event>), NoMemory> {
    let (desk, mut posters) = open(alloc, 2, capacity)?;
    let second = posters.pop().ok_or(NoMemory)?;
    let first = posters.pop().ok_or(NoMemory)?;
    Ok((desk, first, second))
}

// Checks that these events are collected.
fn collects(
    rt: &impl Abort,
    desk: &mut Desk<Event>,
    max: usize,
    events: &[Event],
) -> Result<(), NoMemory> {
    let collected = desk.collect(max)?;
    assert!(rt; collected.as_slice() == events);
    Ok(())
}

// Checks that the line isn't settled, for this reason, and that the end comes back.
fn refuses(
    rt: &impl Abort,
    desk: &mut Desk<Event>,
    line: usize,
    ended: Ended<Event>,
    fault: SettleFault,
) -> Ended<Event> {
    let Err(refused) = desk.settle(line, ended) else {
        panic!(rt; "line {line} was settled");
    };
    let (why, ended) = refused;
    assert!(rt; why == fault);
    ended
}

// Checks that the line is settled.
fn settles(rt: &impl Abort, desk: &mut Desk<Event>, line: usize, ended: Ended<Event>) {
    assert!(rt; desk.settle(line, ended).is_ok());
}

#[test]
fn a_line_of_two_places(rt: HostRuntime) -> Result<(), Fail> {
    let (mut desk, mut first, second) = two_lines(rt.alloc(), 2)?;
    assert!(rt; first.post((0, 1)).is_ok());
    assert!(rt; first.post((0, 2)).is_ok());
    assert!(rt; first.post((0, 3)) == Err((0, 3)));
    collects(&rt, &mut desk, 1, &[(0, 1)])?;
    assert!(rt; first.post((0, 3)).is_ok());
    let ended = first.finish()?;
    let ended = refuses(&rt, &mut desk, 0, ended, SettleFault::NotDrained);
    collects(&rt, &mut desk, 1, &[(0, 2)])?;
    let ended = refuses(&rt, &mut desk, 0, ended, SettleFault::NotDrained);
    collects(&rt, &mut desk, 9, &[(0, 3)])?;
    let ended = refuses(&rt, &mut desk, 1, ended, SettleFault::WrongLine);
    let ended = refuses(&rt, &mut desk, 2, ended, SettleFault::WrongLine);
    settles(&rt, &mut desk, 0, ended);
    let other = second.finish()?;
    let other = refuses(&rt, &mut desk, 0, other, SettleFault::WrongLine);
    settles(&rt, &mut desk, 1, other);
    Ok(())
}

#[test]
fn a_poster_that_is_gone_holds_up_no_other_line(rt: HostRuntime) -> Result<(), Fail> {
    let (mut desk, mut first, mut second) = two_lines(rt.alloc(), 2)?;
    assert!(rt; first.post((0, 1)).is_ok());
    drop(first);
    assert!(rt; second.post((1, 1)).is_ok());
    assert!(rt; second.post((1, 2)).is_ok());
    let ended = second.finish()?;
    collects(&rt, &mut desk, 9, &[(0, 1), (1, 1), (1, 2)])?;
    settles(&rt, &mut desk, 1, ended);
    Ok(())
}

#[test]
fn a_desk_goes_round_its_lines(rt: HostRuntime) -> Result<(), Fail> {
    let (mut desk, mut first, mut second) = two_lines(rt.alloc(), 4)?;
    for number in 1..=3 {
        assert!(rt; first.post((0, number)).is_ok());
    }
    assert!(rt; second.post((1, 1)).is_ok());
    assert!(rt; second.post((1, 2)).is_ok());
    collects(&rt, &mut desk, 0, &[])?;
    collects(&rt, &mut desk, 3, &[(0, 1), (1, 1), (0, 2)])?;
    collects(&rt, &mut desk, 9, &[(0, 3), (1, 2)])?;
    collects(&rt, &mut desk, 9, &[])?;
    Ok(())
}

#[test]
fn a_poster_whose_desk_is_gone(rt: HostRuntime) -> Result<(), Fail> {
    let (desk, first, _second) = two_lines(rt.alloc(), 2)?;
    drop(desk);
    assert!(rt; first.finish().is_err());
    Ok(())
}

// Posts the numbers from 1 on, each again if the line gives it back, and ends the line.
fn post_numbers(line: usize, mut poster: Poster<Event>) -> Result<Ended<Event>, Unfinished> {
    let mut next = 1;
    for _ in 0..MOST_TURNS {
        if next > EVENTS {
            break;
        }
        match poster.post((line, next)) {
            Ok(()) => next += 1,
            Err(back) => {
                next = back.1;
                thread::yield_now();
            }
        }
    }
    poster.finish()
}

// Collects until all events of both lines are there.
fn collect_numbers(
    alloc: Global,
    mut desk: Desk<Event>,
) -> (Desk<Event>, Result<Vec<Event>, NoMemory>) {
    let mut all = Vec::new(alloc);
    for _ in 0..MOST_TURNS {
        if all.len() as u64 >= 2 * EVENTS {
            break;
        }
        let Ok(events) = desk.collect(64) else {
            return (desk, Err(NoMemory));
        };
        let Ok(()) = all.extend_from_slice(&events) else {
            return (desk, Err(NoMemory));
        };
        thread::yield_now();
    }
    (desk, Ok(all))
}

// Whether the numbers of this line are those from 1 on, in order, and each once.
fn are_whole(events: &[Event], line: usize) -> bool {
    let mut next = 1u64;
    for (of, number) in events {
        if *of == line {
            if *number != next {
                return false;
            }
            next = next.wrapping_add(1);
        }
    }
    next == EVENTS + 1
}

/// What two posters did, each on a thread of its own.
#[derive(Drop)]
struct Ran {
    desk: Desk<Event>,
    collected: Result<Vec<Event>, NoMemory>,
    first: Result<Ended<Event>, Unfinished>,
    second: Result<Ended<Event>, Unfinished>,
}

fn run_threads<R: Threads + Sync>(
    rt: &R,
    alloc: Global,
    desk: Desk<Event>,
    first: Poster<Event>,
    second: Poster<Event>,
) -> Ran {
    let (ends, (desk, collected)) = thread::join(
        rt,
        move || {
            thread::join(
                rt,
                move || post_numbers(0, first),
                move || post_numbers(1, second),
            )
        },
        move || collect_numbers(alloc, desk),
    );
    let (first, second) = ends;
    Ran {
        desk,
        collected,
        first,
        second,
    }
}

#[test]
fn two_threads_post_and_each_line_is_whole(rt: HostRuntime) -> Result<(), Fail> {
    let (desk, first, second) = two_lines(rt.alloc(), 8)?;
    let Ran {
        mut desk,
        collected,
        first,
        second,
    } = run_threads(&rt, rt.alloc(), desk, first, second);
    let collected = collected?;
    assert!(rt; are_whole(&collected, 0));
    assert!(rt; are_whole(&collected, 1));
    settles(&rt, &mut desk, 0, first?);
    settles(&rt, &mut desk, 1, second?);
    Ok(())
}
