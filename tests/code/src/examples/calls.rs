//! The calls of one shard.

ghost use Rattle.std.specs.Prelude.{◌≤◌, ◌^◌};

use crate::examples::worked::{ID, OPTIONS, PEER, RESPOND, TOLD, asked, is_line, up};
use crate::stop::{Stop, broken_where, check};
use sip_calls::CallShard;
use sip_message::Id;
use sip_transactions::{Command, ShardFault};
use sip_user::{CallOut, Item};
use std::alloc::Global;

/// The event of a 200.
const LATER: Id = Id { round: 1, place: 1 };

/// A call that the user starts, as a line of an event file.
const INVITE: &[u8] =
    b"invite c2 192.0.2.9:5060 sip:b@192.0.2.9 sip:a@192.0.2.1 sip:b@192.0.2.9 none -";

/// A 200 to the INVITE that a call sends.
const SUCCESS: &[u8] = b"SIP/2.0 200 OK\r
Via: SIP/2.0/UDP 192.0.2.1:5060;rport;branch=z9hG4bK000000000000000000000000000000010bee7079f\r
From: <sip:a@192.0.2.1>;tag=0000000000000000000000000000000117a385155\r
To: <sip:b@192.0.2.9>;tag=x\r
Call-ID: c2\r
CSeq: 1 INVITE\r
\r
";

/// The line that tells the user of it.
const TOLD_SUCCESS: &[u8] =
    b"notice c2 response 0.1 200 0000000000000000000000000000000117a385155 x -\n";

// What a shard says. If it ran out of memory, it has to be broken.
fn said(
    shard: &mut CallShard,
    outs: Result<Vec<CallOut>, ShardFault>,
) -> Result<Vec<CallOut>, Stop> {
    match outs {
        Ok(outs) => Ok(outs),
        Err(ShardFault::NoMemory) => Err(broken_where(is_broken(shard))),
        Err(ShardFault::Broken) => Err(Stop::Different),
    }
}

fn is_broken(shard: &mut CallShard) -> bool {
    shard.live() == 0 && matches!(shard.tick(0), Err(ShardFault::Broken))
}

// What an item adds.
fn outputs_of(shard: &mut CallShard, id: Id, item: Item, now: u64) -> Result<Vec<CallOut>, Stop>
    requires { now ≤ 2 ^ 62 }
{
    let outs = shard.item(id, item, now);
    said(shard, outs)
}

// A tick does nothing, and `live` calls are held after it.
fn is_quiet(shard: &mut CallShard, now: u64, live: usize) -> Result<(), Stop>
    requires { now ≤ 2 ^ 62 }
{
    let outs = shard.tick(now);
    check(said(shard, outs)?.is_empty() && shard.live() == live)
}

pub fn a_request_is_told_and_answered(alloc: Global, shard: &mut CallShard) -> Result<(), Stop> {
    is_line(alloc, outputs_of(shard, ID, up(alloc, OPTIONS)?, 0)?, TOLD)?;
    check(is_answer(&outputs_of(shard, LATER, asked(alloc, RESPOND)?, 10)?))?;
    check(shard.live() == 1)?;
    is_quiet(shard, 32_010, 0)
}

fn is_answer(outs: &[CallOut]) -> bool {
    matches!(outs, [CallOut::Command(ID, Command::Answer { .. })])
}

// The INVITE goes out, and its 200 is told and acknowledged; 64 T1 later its dialog is still held.
pub fn a_call_is_set_up(alloc: Global, shard: &mut CallShard) -> Result<(), Stop> {
    check(is_started(&outputs_of(shard, ID, asked(alloc, INVITE)?, 0)?))?;
    is_acknowledged(alloc, outputs_of(shard, LATER, up(alloc, SUCCESS)?, 100)?)?;
    is_quiet(shard, 32_100, 1)
}

// Whether the INVITE goes to the peer.
fn is_started(outs: &[CallOut]) -> bool {
    match outs {
        [CallOut::Command(id, Command::Start { to, .. })] => *id == ID && *to == PEER,
        _ => false,
    }
}

// The user is told of the 200, and an ACK goes to the peer.
fn is_acknowledged(alloc: Global, mut outs: Vec<CallOut>) -> Result<(), Stop> {
    check(ends_in_ack(&outs))?;
    outs.truncate(1);
    is_line(alloc, outs, TOLD_SUCCESS)
}

fn ends_in_ack(outs: &[CallOut]) -> bool {
    match outs {
        [_, CallOut::Direct { to, .. }] => *to == PEER,
        _ => false,
    }
}
