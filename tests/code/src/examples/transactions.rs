//! The transactions of one shard.

ghost use Rattle.std.specs.Prelude.{◌≤◌, ◌^◌};

use crate::examples::worked::{ID, OK, OPTIONS, PEER, key_in};
use crate::often::{message, token};
use crate::stop::{Stop, broken_where, check};
use sip_message::{Key, SharedKey};
use sip_text::Boxed;
use sip_transactions::{Command, Out, Shard, ShardFault, State, Up, UpKind};
use std::alloc::Global;

/// A request that is sent.
const GOING: &[u8] = b"OPTIONS sip:b@192.0.2.9 SIP/2.0\r
Via: SIP/2.0/UDP 192.0.2.1:5060;rport;branch=z9hG4bKc1\r
From: <sip:a@192.0.2.1>;tag=l1\r
To: <sip:b@192.0.2.9>\r
Call-ID: c3\r
CSeq: 1 OPTIONS\r
Content-Length: 0\r
\r
";

/// Its response.
const COMING: &[u8] = b"SIP/2.0 200 OK\r
Via: SIP/2.0/UDP 192.0.2.1:5060;rport;branch=z9hG4bKc1\r
From: <sip:a@192.0.2.1>;tag=l1\r
To: <sip:b@192.0.2.9>;tag=x\r
Call-ID: c3\r
CSeq: 1 OPTIONS\r
\r
";

// What a shard says. If it ran out of memory, it has to be broken.
fn said(shard: &mut Shard, outs: Result<Vec<Out>, ShardFault>) -> Result<Vec<Out>, Stop> {
    match outs {
        Ok(outs) => Ok(outs),
        Err(ShardFault::NoMemory) => Err(broken_where(is_broken(shard))),
        Err(ShardFault::Broken) => Err(Stop::Different),
    }
}

fn is_broken(shard: &mut Shard) -> bool {
    shard.live() == 0 && matches!(shard.tick(0), Err(ShardFault::Broken))
}

// What a message that comes in adds.
fn received(alloc: Global, shard: &mut Shard, text: &[u8], now: u64) -> Result<Vec<Out>, Stop>
    requires { now ≤ 2 ^ 62 }
{
    let outs = shard.receive(ID, message(alloc, text)?, PEER, now);
    said(shard, outs)
}

// A tick does nothing, and `live` transactions are held after it.
fn is_quiet(shard: &mut Shard, now: u64, live: usize) -> Result<(), Stop>
    requires { now ≤ 2 ^ 62 }
{
    let outs = shard.tick(now);
    check(said(shard, outs)?.is_empty() && shard.live() == live)
}

// The one thing that is handed up, under the id of the event.
fn told(outs: &[Out]) -> Option<&UpKind> {
    match outs {
        [Out::Up(up)] if up.id == ID => Some(&up.kind),
        _ => None,
    }
}

// Whether exactly these bytes are sent to the peer.
fn sends(outs: &[Out], text: &[u8]) -> bool {
    match outs {
        [Out::Send { to, bytes, .. }] => *to == PEER && bytes.as_slice() == text,
        _ => false,
    }
}

// The answer to the request, as a command.
fn answer(alloc: Global) -> Result<Command, Stop> {
    Ok(Command::Answer {
        key: key_in(alloc, OPTIONS)?,
        message: Boxed::new(alloc, message(alloc, OK)?)?,
    })
}

pub fn a_request_is_answered(alloc: Global, shard: &mut Shard) -> Result<(), Stop> {
    let outs = received(alloc, shard, OPTIONS, 0)?;
    check(matches!(told(&outs), Some(UpKind::Request(_, _))))?;
    is_commanded(shard, answer(alloc)?, OK)?;
    is_completed(alloc, shard)
}

// Checks that a command of the first event sends exactly this.
fn is_commanded(shard: &mut Shard, command: Command, text: &[u8]) -> Result<(), Stop> {
    let outs = shard.command(ID, command, 10);
    check(sends(&said(shard, outs)?, text))
}

// The answer is retransmitted, until 64 T1 have passed.
fn is_completed(alloc: Global, shard: &mut Shard) -> Result<(), Stop> {
    check(shard.state_of(&key_in(alloc, OPTIONS)?) == Some(State::Completed))?;
    check(sends(&received(alloc, shard, OPTIONS, 20)?, OK))?;
    is_quiet(shard, 32_009, 1)?;
    is_quiet(shard, 32_010, 0)
}

fn started_key(alloc: Global) -> Result<SharedKey, Stop> {
    Ok(Key::client(alloc, b"z9hG4bKc1", token(alloc, b"OPTIONS")?)?)
}

// The request that is sent, as a command.
fn start(alloc: Global) -> Result<Command, Stop> {
    let message = Boxed::new(alloc, message(alloc, GOING)?)?;
    Ok(Command::Start {
        key: started_key(alloc)?,
        call_id: message.get().call_id.clone()?,
        message,
        to: PEER,
    })
}

// It is retransmitted until its response comes.
pub fn a_request_goes_out(alloc: Global, shard: &mut Shard) -> Result<(), Stop> {
    is_commanded(shard, start(alloc)?, GOING)?;
    is_sent_again(shard, 510)?;
    let outs = received(alloc, shard, COMING, 600)?;
    check(matches!(told(&outs), Some(UpKind::Response(_))))?;
    check(shard.state_of(&started_key(alloc)?) == Some(State::Completed))
}

// Checks that a tick sends the request.
fn is_sent_again(shard: &mut Shard, now: u64) -> Result<(), Stop>
    requires { now ≤ 2 ^ 62 }
{
    let outs = shard.tick(now);
    check(sends(&said(shard, outs)?, GOING))
}

pub fn a_request_is_not_sent(alloc: Global, shard: &mut Shard) -> Result<(), Stop> {
    is_commanded(shard, start(alloc)?, GOING)?;
    fails(shard, &started_key(alloc)?)
}

fn fails(shard: &mut Shard, key: &SharedKey) -> Result<(), Stop> {
    let outs = shard.failed(ID, key, 20);
    check(matches!(told(&said(shard, outs)?), Some(UpKind::Failed)))?;
    check(shard.live() == 0 && shard.state_of(key).is_none())
}
