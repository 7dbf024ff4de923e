//! The server side of one call.

ghost use Rattle.std.specs.Prelude.{◌≤◌, ◌^◌};

use crate::examples::worked::{ID, OPTIONS, RESPOND, TOLD, asked, is_line, up};
use crate::often::{TAG, token};
use crate::stop::{Stop, broken_where, check};
use sip_served::Served;
use sip_transactions::ShardFault;
use sip_user::{CallOut, Item};
use std::alloc::Global;

/// A tick at this moment does nothing more, because the request has ended.
const LATE: u64 = 99_000;

// What it says. If it ran out of memory, it has to be broken.
fn said(served: &mut Served, outs: Result<Vec<CallOut>, ShardFault>) -> Result<Vec<CallOut>, Stop> {
    match outs {
        Ok(outs) => Ok(outs),
        Err(ShardFault::NoMemory) => Err(broken_where(is_broken(served))),
        Err(ShardFault::Broken) => Err(Stop::Different),
    }
}

fn is_broken(served: &mut Served) -> bool {
    !served.holds()
        && served.next_due().is_none()
        && matches!(served.tick(0), Err(ShardFault::Broken))
}

// What an item of the first event adds.
fn outputs_of(
    alloc: Global,
    served: &mut Served,
    item: Item,
    now: u64,
) -> Result<Vec<CallOut>, Stop>
    requires { now ≤ 2 ^ 62 }
{
    let outs = served.item(token(alloc, TAG)?, ID, item, now);
    said(served, outs)
}

pub fn a_request_is_told_and_answered(alloc: Global, served: &mut Served) -> Result<(), Stop> {
    check(!served.holds() && served.next_due().is_none())?;
    is_line(
        alloc,
        outputs_of(alloc, served, up(alloc, OPTIONS)?, 0)?,
        TOLD,
    )?;
    check(is_answer(&outputs_of(alloc, served, asked(alloc, RESPOND)?, 10)?))?;
    check(served.holds() && served.next_due() == Some(32_010))?;
    is_over(served)
}

fn is_answer(outs: &[CallOut]) -> bool {
    matches!(outs, [CallOut::Command(ID, _)])
}

fn is_over(served: &mut Served) -> Result<(), Stop> {
    let outs = served.tick(LATE);
    check(said(served, outs)?.is_empty())?;
    check(!served.holds() && served.dialogs().is_empty())
}
