//! Lines from posters to a desk.

ghost use Rattle.std.specs.Prelude.{IfOk};
ghost use Rattle.sip_desk.specs.Lines.{IsEndOf, IsPosterOf, KeepsLines};

use crate::stop::{Stop, check};
use sip_desk::{Desk, Ended, NoMemory, Poster, open};
use std::alloc::Global;

/// How many events the line of a desk has room for.
const CAPACITY: usize = 2;

// A desk of one line, and its poster.
fn one_line(alloc: Global) -> Result<(Desk<u8>, Poster<u8>), NoMemory>
    ensures { IfOk result (λ line. IsPosterOf line.0 line.1) }
{
    let (desk, mut posters) = open(alloc, 1, CAPACITY)?;
    let poster = posters.pop().ok_or(NoMemory)?;
    Ok((desk, poster))
}

// Checks that these events are collected. If memory runs out, none is taken.
fn collects(desk: &mut Desk<u8>, events: &[u8]) -> Result<(), Stop>
    ensures { KeepsLines desk.old desk.new }
{
    let collected = match desk.collect(CAPACITY) {
        Ok(collected) => collected,
        Err(NoMemory) => desk.collect(CAPACITY)?,
    };
    check(collected.as_slice() == events)
}

pub fn a_line_is_settled(alloc: Global) -> Result<(), Stop> {
    let (mut desk, mut poster) = one_line(alloc)?;
    check(poster.post(1).is_ok() && poster.post(2).is_ok() && poster.post(3) == Err(3))?;
    settles(&mut desk, poster.finish()?)
}

fn settles(desk: &mut Desk<u8>, ended: Ended<u8>) -> Result<(), Stop>
    requires { IsEndOf desk.old ended }
{
    collects(desk, b"\x01\x02")?;
    check(desk.settle(0, ended).is_ok())
}
