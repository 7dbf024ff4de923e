//! Rounds over shards and workers: pieces that wait for each other, and rounds that are refused.

use sip_files::read_events;
use sip_message::{Addr, First, Spread};
use sip_round::{Agent, Config, Event, Gate, OpenGate, Round, RoundFault};
use sip_text::{Series, Text};
use std::alloc::Global;
use std::sync::atomic::{AtomicU64, Ordering};
use std::test::Fail;
use std::thread::{self, Threads};

const LOCAL: Addr = Addr {
    ip: [192, 0, 2, 1],
    port: 5060,
};

const PEER: Addr = Addr {
    ip: [192, 0, 2, 9],
    port: 5060,
};

const CONFIG: Config = Config {
    local: LOCAL,
    seed: [0; 32],
    first: 0,
};

/// The event file of an OPTIONS that comes in and is answered.
const ANSWERED: &[u8] = b"sip-events 1
local 192.0.2.1:5060
round 0
datagram 192.0.2.9:5060 OPTIONS sip:192.0.2.1 SIP/2.0\\r\\nVia: SIP/2.0/UDP 192.0.2.9;\
branch=z9hG4bKr0\\r\\nFrom: <sip:a@192.0.2.9>;tag=f1\\r\\nTo: <sip:192.0.2.1>\\r\\n\
Call-ID: c0\\r\\nCSeq: 7 OPTIONS\\r\\n\\r\\n
respond c0 0.1 200 plain - OK
";

/// A gate at which two pieces of a phase wait for each other. It counts those that waited in vain.
#[derive(Drop)]
struct Meeting {
    looks: u32,
    begun: AtomicU64,
    alone: AtomicU64,
}

/// How often a piece looks whether the other has begun, at most, if there is another worker.
const MOST_LOOKS: u32 = 100_000_000;

/// The same if there is no other worker.
const FEW_LOOKS: u32 = 1_000;

impl Gate for Meeting {
    fn begin(&self, _shard: usize) {
        let both = self.begun.fetch_add(1, Ordering::SeqCst) / 2 * 2;
        for _ in 0..self.looks {
            if self.begun.load(Ordering::SeqCst) / 2 * 2 > both {
                return;
            }
            thread::yield_now();
        }
        self.alone.fetch_add(1, Ordering::SeqCst);
    }
}

// How many pieces of a round without events waited for the other in vain, in two shards.
fn alone<T: Threads + Sync>(
    rt: &T,
    alloc: Global,
    workers: usize,
    looks: u32,
) -> Result<u64, Fail> {
    let gate = Meeting {
        looks,
        begun: AtomicU64::new(0),
        alone: AtomicU64::new(0),
    };
    let mut agent = Agent::new(alloc, CONFIG, 2, Spread)?;
    let events = Series::new(alloc);
    agent.run_round(rt, &Round { moment: 0, events }, workers, &gate)?;
    Ok(gate.alone.load(Ordering::SeqCst))
}

#[test]
fn two_shards_are_dealt_with_at_the_same_time(rt: HostRuntime) -> Result<(), Fail> {
    assert!(rt; alone(&rt, rt.alloc(), 2, MOST_LOOKS)? == 0);
    assert!(rt; alone(&rt, rt.alloc(), 1, FEW_LOOKS)? > 0);
    Ok(())
}

// A round of `datagrams` datagrams without bytes.
fn round_of(alloc: Global, moment: u64, datagrams: u32) -> Result<Round, Fail> {
    let mut events = Series::new(alloc);
    for _ in 0..datagrams {
        let bytes = Text::copy_of(alloc, b"")?;
        events.push(Event::Datagram { from: PEER, bytes })?;
    }
    Ok(Round { moment, events })
}

// A round that is refused leaves the moment, the transaction and the call as they were.
#[test]
fn a_refused_round_leaves_the_agent_as_it_was(rt: HostRuntime) -> Result<(), Fail> {
    let alloc = rt.alloc();
    let mut agent = Agent::new(alloc, CONFIG, 2, First)?;
    let (_, rounds) = read_events(alloc, ANSWERED)?;
    let answered = rounds.first().ok_or("a round")?;
    assert!(rt; agent.run_round(&rt, answered, 2, &OpenGate).is_ok());
    let cases = [
        (10, 65_537, Some(RoundFault::TooManyEvents)),
        (10, 0, None),
        (9, 0, Some(RoundFault::MomentBackwards)),
        (10, 0, None),
    ];
    for (moment, datagrams, fault) in cases {
        let round = round_of(alloc, moment, datagrams)?;
        assert!(rt;
            agent.run_round(&rt, &round, 2, &OpenGate).err() == fault,
            "at {moment}"
        );
        assert!(rt; agent.live() == (1, 1), "at {moment}");
    }
    Ok(())
}
