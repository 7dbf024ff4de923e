//! Pieces of work on several threads.

use sip_workers::{Gate, Job, NoMemory, Piece, dones_in_order, gather, run_pieces};
use std::alloc::Global;
use std::sync::atomic::{AtomicU64, Ordering};
use std::test::Fail;
use std::thread;

// How often a job looks before it stops waiting for the others.
const MOST_TURNS: u32 = 10_000_000;

// How often a job that counts the others lets them run on.
const FEW_TURNS: u32 = 1_000;

// Adds up the bits of the shards whose pieces have begun.
#[derive(Drop)]
struct Begun(AtomicU64);

impl Begun {
    fn none() -> Begun {
        Begun(AtomicU64::new(0))
    }

    // Whether each of `count` shards has begun once, from 0 on.
    fn is_all(&self, count: u32) -> bool {
        let bits = u64::MAX
            .checked_shr(64u32.saturating_sub(count))
            .unwrap_or(0);
        self.0.load(Ordering::SeqCst) == bits
    }
}

impl Gate for Begun {
    fn begin(&self, shard: usize) {
        let bit = u32::try_from(shard)
            .ok()
            .and_then(|shard| 1u64.checked_shl(shard));
        self.0.fetch_add(bit.unwrap_or(0), Ordering::SeqCst);
    }
}

// Waits in `run` until enough jobs run, and says whether they did.
#[derive(Drop)]
struct Waits<'a> {
    running: &'a AtomicU64,
    until: u64,
}

impl<'a> Job for Waits<'a> {
    type Done = bool;

    ghost gives = { λ _ _. Unit {0} };

    fn run(self) -> bool {
        self.running.fetch_add(1, Ordering::SeqCst);
        for _ in 0..MOST_TURNS {
            if self.running.load(Ordering::SeqCst) >= self.until {
                return true;
            }
            thread::yield_now();
        }
        false
    }
}

// Says how many jobs run while it runs, including itself.
#[derive(Drop)]
struct Counts<'a> {
    running: &'a AtomicU64,
}

impl<'a> Job for Counts<'a> {
    type Done = u64;

    ghost gives = { λ _ _. Unit {0} };

    fn run(self) -> u64 {
        let others = self.running.fetch_add(1, Ordering::SeqCst);
        for _ in 0..FEW_TURNS {
            thread::yield_now();
        }
        self.running.fetch_sub(1, Ordering::SeqCst);
        others.saturating_add(1)
    }
}

// The square of a number. Any thread may calculate it.
#[derive(Drop)]
struct Square(u32);

impl Job for Square {
    type Done = u64;

    ghost use Rattle.std.specs.Prelude.{◌≡◌, ◌*◌};

    ghost gives = { λ square done. done ≡ square.0 * square.0 };

    fn run(self) -> u64 {
        u64::from(self.0) * u64::from(self.0)
    }
}

fn waiting<'a>(
    alloc: Global,
    running: &'a AtomicU64,
    count: usize,
    waiter: usize,
    others_wait: bool,
) -> Result<Vec<Piece<Waits<'a>>>, NoMemory> {
    let mut pieces = Vec::new(alloc);
    for shard in 0..count {
        let until = if shard == waiter || others_wait {
            count as u64
        } else {
            0
        };
        pieces.push(Piece {
            shard,
            job: Waits { running, until },
        })?;
    }
    Ok(pieces)
}

// Pieces 0 to `count` - 1, with the squares of their numbers as jobs.
fn squares(alloc: Global, count: u32) -> Result<Vec<Piece<Square>>, NoMemory> {
    let mut pieces = Vec::new(alloc);
    for k in 0..count {
        pieces.push(Piece {
            shard: k as usize,
            job: Square(k),
        })?;
    }
    Ok(pieces)
}

fn all_met(dones: &[(usize, bool)]) -> bool {
    dones.iter().all(|done| done.1)
}

// Two workers run two pieces at the same time; one worker runs one at a time.
#[test]
fn as_many_pieces_run_as_there_are_workers(rt: HostRuntime) -> Result<(), Fail> {
    for workers in 1..3 {
        let gate = Begun::none();
        let running = AtomicU64::new(0);
        let pieces = waiting(rt.alloc(), &running, 2, 0, true)?;
        let dones = run_pieces(&rt, rt.alloc(), pieces, workers, &gate)?;
        assert!(rt; dones.len() == 2);
        assert!(rt; all_met(&dones) == (workers == 2));
        assert!(rt; gate.is_all(2));
    }
    Ok(())
}

#[test]
fn no_more_pieces_run_than_there_are_workers(rt: HostRuntime) -> Result<(), Fail> {
    for workers in 1..5 {
        let running = AtomicU64::new(0);
        let mut pieces = Vec::new(rt.alloc());
        for shard in 0..16 {
            let job = Counts { running: &running };
            pieces.push(Piece { shard, job })?;
        }
        let dones = run_pieces(&rt, rt.alloc(), pieces, workers, &Begun::none())?;
        assert!(rt; dones.len() == 16);
        assert!(rt; dones.iter().all(|done| done.1 <= workers as u64));
    }
    Ok(())
}

#[test]
fn a_piece_that_waits_holds_up_no_other(rt: HostRuntime) -> Result<(), Fail> {
    for waiter in 0..4 {
        let gate = Begun::none();
        let running = AtomicU64::new(0);
        let pieces = waiting(rt.alloc(), &running, 4, waiter, false)?;
        let dones = run_pieces(&rt, rt.alloc(), pieces, 2, &gate)?;
        assert!(rt; dones.len() == 4);
        assert!(rt; all_met(&dones), "where {waiter} waits");
        assert!(rt; gate.is_all(4));
    }
    Ok(())
}

// Whether the numbers are the squares of the `count` numbers from 0 on.
fn are_squares(numbers: &[u64], count: u32) -> bool {
    let mut next: u64 = 0;
    for number in numbers {
        if *number != next.wrapping_mul(next) {
            return false;
        }
        next = next.wrapping_add(1);
    }
    next == u64::from(count)
}

// The same with more workers than pieces, and without pieces.
#[test]
fn gathers_the_same_each_time(rt: HostRuntime) -> Result<(), Fail> {
    dones_in_order::<Square>();
    for (count, workers, times) in [(64, 8, 200), (3, 64, 1), (0, 64, 1)] {
        for _ in 0..times {
            let gate = Begun::none();
            let dones = run_pieces(&rt, rt.alloc(), squares(rt.alloc(), count)?, workers, &gate)?;
            assert!(rt; are_squares(&gather(rt.alloc(), dones)?, count));
            assert!(rt; gate.is_all(count));
        }
    }
    Ok(())
}
