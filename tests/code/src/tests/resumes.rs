//! Rounds of a journal that a host runs again, and those that it refuses.

use crate::examples::worked::{CONFIG, PEER};
use crate::faults::of_host;
use crate::stop::{Stop, check};
use sip_files::LinesFault;
use sip_host::{Host, ResumeFault};
use sip_round::RoundFault;

const SHARDS: usize = 4;

/// A round with one event, and one at an earlier moment.
const ROUND: &[u8] = b"round 20\ndatagram 192.0.2.9:5060 no message\n";
const EARLIER: &[u8] = b"round 19\n";

// Texts that begin with no round, and why.
const NONE: [(&[u8], LinesFault); 5] = [
    (b"", LinesFault::NotOne),
    (b"none\n", LinesFault::BadLine(1)),
    (b"round 20\nnone\n", LinesFault::BadLine(2)),
    (b"round 20\nfailed client a INVITE\nround", LinesFault::BadLine(3)),
    (b"round 20\n X: y\nround 21\n", LinesFault::BadLine(3)),
];

#[test]
fn the_place_of_a_bad_line_is_told(rt: HostRuntime) -> Result<(), Stop> {
    for (text, fault) in NONE {
        let mut host = Host::new(rt.alloc(), CONFIG, SHARDS)?;
        check(host.resume(text) == Err(ResumeFault::Lines(fault)))?;
        check(host.resume(ROUND) == Ok(ROUND.len()))?;
    }
    Ok(())
}

#[test]
fn a_round_that_the_agent_refuses_is_not_resumed(rt: HostRuntime) -> Result<(), Stop> {
    let mut host = Host::new(rt.alloc(), CONFIG, SHARDS)?;
    check(host.resume(ROUND) == Ok(ROUND.len()))?;
    let refused = ResumeFault::Round(RoundFault::MomentBackwards);
    check(host.resume(EARLIER) == Err(refused))?;
    host.datagram(PEER, b"").map_err(of_host)?;
    check(host.resume(ROUND) == Err(ResumeFault::Busy))
}
