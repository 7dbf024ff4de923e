//! Due moments.

use crate::stop::{Stop, check};
use sip_timers::{NoMemory, Queue};

const A: u8 = b'a';

const B: u8 = b'b';

const C: u8 = b'c';

// Arms keys. If memory runs out, nothing changes, and the second try succeeds.
fn arm(queue: &mut Queue<u8>, keys: &[(u8, u64)]) -> Result<(), Stop> {
    for (key, due) in keys {
        let before = (queue.next_due(), queue.moment(key));
        if queue.arm(*key, *due).is_err() {
            check((queue.next_due(), queue.moment(key)) == before)?;
            queue.arm(*key, *due)?;
        }
    }
    Ok(())
}

// Checks that these keys are due. If memory runs out, nothing changes.
fn takes(queue: &mut Queue<u8>, now: u64, keys: &[u8]) -> Result<(), Stop> {
    let next = queue.next_due();
    let due = match queue.take_due(now) {
        Ok(due) => due,
        Err(NoMemory) => {
            check(queue.next_due() == next)?;
            queue.take_due(now)?
        }
    };
    check(due.as_slice() == keys)
}

pub fn the_later_moment_counts(queue: &mut Queue<u8>) -> Result<(), Stop> {
    arm(queue, &[(A, 5), (B, 3), (A, 7)])?;
    check(queue.next_due() == Some(3))?;
    takes(queue, 7, b"ab")?;
    takes(queue, 7, b"")
}

pub fn a_key_is_armed_again(queue: &mut Queue<u8>) -> Result<(), Stop> {
    arm(queue, &[(A, 5), (A, 9)])?;
    check(queue.next_due() == Some(9))?;
    takes(queue, 5, b"")?;
    takes(queue, 9, b"a")
}

pub fn at_one_moment_in_the_order_of_keys(queue: &mut Queue<u8>) -> Result<(), Stop> {
    arm(queue, &[(B, 1), (C, 2), (A, 2)])?;
    takes(queue, 2, b"abc")?;
    check(queue.next_due().is_none())
}

// Disarming a key that isn't there has no effect.
pub fn what_is_disarmed_is_not_due(queue: &mut Queue<u8>) -> Result<(), Stop> {
    arm(queue, &[(A, 5), (B, 6)])?;
    queue.disarm(&A);
    queue.disarm(&C);
    check(queue.moment(&A).is_none() && queue.next_due() == Some(6))?;
    takes(queue, 9, b"b")
}
