//! Two agents that call each other over a network that loses, duplicates and delays datagrams.

use sip_files::{read_events, write_outputs};
use sip_message::{Addr, Spread};
use sip_round::{Agent, Config, OpenGate};
use std::alloc::Global;
use std::mem;
use std::test::Fail;
use std::thread::Threads;

const INVITE: &str =
    "invite c 192.0.2.9:5060 sip:b@192.0.2.9 sip:a@192.0.2.1 sip:b@h supported -\n";

const MESSAGE: &str =
    "plain c 192.0.2.9:5060 MESSAGE sip:b@192.0.2.9 sip:a@192.0.2.1 sip:b@192.0.2.9 -\n";

const CALLER: u8 = 1;

const CALLEE: u8 = 9;

/// The event of a turn: a command, or the datagram that the other side sent as its N-th.
#[derive(Clone, Copy)]
enum Spoken {
    Command(&'static str),
    Carried(usize),
}

/// A conversation with two reliable provisional responses: a turn each, with its side, its event,
/// and how the notice begins that its user is told, if one is.
const CONVERSATION: [(u8, Spoken, &str); 13] = [
    (CALLER, Spoken::Command(INVITE), ""),
    (CALLEE, Spoken::Carried(1), "request 0.1 INVITE "),
    (
        CALLEE,
        Spoken::Command("respond c 0.1 181 reliable - A\n"),
        "",
    ),
    (CALLER, Spoken::Carried(2), "response 0.1 181 "),
    (CALLEE, Spoken::Carried(2), "prack 0.1 1 -"),
    (
        CALLEE,
        Spoken::Command("respond c 0.1 182 reliable - B\n"),
        "",
    ),
    (CALLER, Spoken::Carried(2), ""),
    (CALLER, Spoken::Carried(4), "response 0.1 182 "),
    (CALLEE, Spoken::Carried(3), "prack 0.1 2 -"),
    (CALLER, Spoken::Carried(3), "response 1.1 200 "),
    (CALLEE, Spoken::Command("respond c 0.1 200 plain - C\n"), ""),
    (CALLER, Spoken::Carried(6), "response 0.1 200 "),
    (CALLEE, Spoken::Carried(4), "ack 0.1 -"),
];

/// Where a datagram arrives: in these rounds of the other side.
trait Carry {
    fn rounds(&mut self, alloc: Global, bytes: &str, at: u32) -> Result<Vec<u32>, Fail>;
}

/// A network that loses `lost` of eight datagrams, and duplicates one.
#[derive(Drop)]
struct Network {
    random: u32,
    lost: u32,
    sent: u32,
}

impl Network {
    fn below(&mut self, limit: u32) -> u32 {
        let product = self.random.wrapping_mul(1_664_525);
        self.random = product.wrapping_add(1_013_904_223);
        (self.random >> 16) % limit
    }

    // How often a datagram that is sent now arrives.
    fn copies(&mut self) -> u32 {
        self.sent = self.sent.wrapping_add(1);
        let drawn = self.below(8);
        if drawn < self.lost { 0 } else { 1 + drawn / 7 }
    }
}

impl Carry for Network {
    fn rounds(&mut self, alloc: Global, _bytes: &str, at: u32) -> Result<Vec<u32>, Fail> {
        let mut rounds = Vec::new(alloc);
        for _ in 0..self.copies() {
            rounds.push(at.saturating_add(self.below(5)).saturating_add(1))?;
        }
        Ok(rounds)
    }
}

/// A network that loses the first copy of each datagram, and then every other one: of any two copies
/// one arrives, in the next round.
#[derive(Drop)]
struct EveryOther {
    sent: Vec<String>,
}

impl Carry for EveryOther {
    fn rounds(&mut self, alloc: Global, bytes: &str, at: u32) -> Result<Vec<u32>, Fail> {
        let mut rounds = Vec::new(alloc);
        if self.sent.iter().filter(|it| it.as_str() == bytes).count() % 2 == 1 {
            rounds.push(at.saturating_add(1))?;
        }
        self.sent.push(String::from_str(alloc, bytes)?)?;
        Ok(rounds)
    }
}

/// One side: its future events, each with its round, and the responses that its user was told of.
#[derive(Drop)]
struct Side {
    agent: Agent<Spread>,
    local: Addr,
    events: Vec<(u32, String)>,
    statuses: String,
}

fn side_at(alloc: Global, last: u8) -> Result<Side, Fail> {
    let (ip, port) = ([192, 0, 2, last], 5060);
    let (local, seed, first) = (Addr { ip, port }, [0; 32], 0);
    Ok(Side {
        agent: Agent::new(alloc, Config { local, seed, first }, 2, Spread)?,
        local,
        events: Vec::new(alloc),
        statuses: String::new(alloc),
    })
}

// Whether nothing is held, and nothing is on its way.
fn is_over(side: &Side) -> bool {
    side.agent.live() == (0, 0) && side.events.is_empty()
}

// What a user does about a notice. It answers an INVITE with a reliable provisional response. After
// the PRACK of that, two more follow at once, and after the PRACK of the last a 200. The last of
// these and the 200 have a body, so their PRACK and ACK wait for the caller, which then sends a
// BYE.
fn said(alloc: Global, notice: &str) -> Result<String, Fail> {
    let words: Vec<&str> = notice.split(' ').collect(alloc)?;
    Ok(match words.as_slice() {
        ["request", id, "INVITE", ..] => format!(in alloc; "respond c {id} 181 reliable - A\n")?,
        ["request", id, ..] => format!(in alloc; "respond c {id} 200 plain - B\n")?,
        ["prack", id, "1", ..] => format!(in alloc;
            "respond c {id} 182 reliable - C\nrespond c {id} 183 reliable v=0 D\n"
        )?,
        ["prack", id, "3", ..] => format!(in alloc; "respond c {id} 200 plain v=0 E\n")?,
        ["noprack", id] => format!(in alloc; "respond c {id} 503 plain - F\n")?,
        ["response", "0.1", "183", me, peer, ..] => format!(in alloc; "prack c {me} {peer} -\n")?,
        ["response", "0.1", "200", me, peer, ..] => {
            format!(in alloc; "ack c {me} {peer} -\nrequest c {me} {peer} BYE -\n")?
        }
        _ => String::new(alloc),
    })
}

// The output file of a round of one side.
fn file<T: Threads + Sync>(rt: &T, alloc: Global, me: &mut Side, at: u32) -> Result<Vec<u8>, Fail> {
    let (local, moment) = (me.local, 500 * u64::from(at));
    let mut text = format!(in alloc; "sip-events 1\nlocal {local}\nround {moment}\n")?;
    for (due, event) in mem::replace(&mut me.events, Vec::new(alloc)) {
        if due <= at {
            text.push_str(event.as_str())?;
        } else {
            me.events.push((due, event))?;
        }
    }
    let (_, rounds) = read_events(alloc, text.as_bytes())?;
    let round = rounds.first().ok_or("a round")?;
    let outputs = me.agent.run_round(rt, round, 1, &OpenGate)?;
    Ok(write_outputs(alloc, &[(moment, outputs)])?)
}

// A round of one side. Its user is told, and what is sent is on its way to the peer.
fn turn<T: Threads + Sync, N: Carry>(
    rt: &T,
    alloc: Global,
    network: &mut N,
    me: &mut Side,
    peer: &mut Side,
    at: u32,
) -> Result<(), Fail> {
    let (file, local) = (file(rt, alloc, me, at)?, me.local);
    for line in str::from_utf8(&file)?.lines() {
        if let Some(notice) = line.strip_prefix("notice c ") {
            me.events.push((0, said(alloc, notice)?))?;
            if let Some(response) = notice.strip_prefix("response 0.1 ") {
                let (status, _) = response.split_once(' ').ok_or("a status")?;
                let status = if status == "100" { "" } else { status };
                me.statuses.push_str(status)?;
            }
        } else if let Some(("send", datagram)) = line.split_once(' ') {
            let (_, bytes) = datagram.split_once(' ').ok_or("an address")?;
            for due in network.rounds(alloc, bytes, at)? {
                let event = format!(in alloc; "datagram {local} {bytes}\n")?;
                peer.events.push((due, event))?;
            }
        }
    }
    Ok(())
}

// An instance of the laws `responses_told_were_said`, `provisionals_told_were_said` and
// `requests_told_were_asked_for` of sip_conversation: the callee is told of the INVITE, and the
// caller of each reliable provisional response once and in order. Nothing is held at the end.
// Another program calculated how many calls are made, and how many datagrams are sent.
#[test]
fn calls_over_a_network_that_loses_datagrams(rt: HostRuntime) -> Result<(), Fail> {
    let (alloc, mut whole, mut sent) = (rt.alloc(), 0u32, 0u32);
    for random in 600..800u32 {
        let lost = random % 4 + 1;
        let mut network = Network { random, lost, sent };
        let (mut caller, mut callee) = (side_at(alloc, 1)?, side_at(alloc, 9)?);
        caller.events.push((0, String::from_str(alloc, INVITE)?))?;
        for at in 0..400u32 {
            turn(&rt, alloc, &mut network, &mut caller, &mut callee, at)?;
            turn(&rt, alloc, &mut network, &mut callee, &mut caller, at)?;
            if is_over(&caller) && is_over(&callee) {
                break;
            }
        }
        sent = network.sent;
        assert!(rt; is_over(&caller) && is_over(&callee), "{random}");
        match caller.statuses.as_str() {
            "181182183200" => whole = whole.wrapping_add(1),
            "" | "503" | "181503" | "181182503" | "181182183503" => {}
            _ => return Err("out of order".into()),
        }
    }
    assert!(rt; (whole, sent) == (192, 10_108));
    Ok(())
}

// The premises of the laws `requests_arrive` and `answers_arrive` of sip_conversation can be met.
// Both sides have one clock, and a round each 500 ms, so at most that after a timer is due; of two
// copies of a datagram one comes within 500 ms. The request goes out at 0, 500, 1500 and 3500 ms:
// the second copy comes at 1000, and is answered at 1500; the fourth comes at 4000, and gets the
// response again, which comes at 4500. The law says: by 1500 and 8000 ms, two lags and two delays.
#[test]
fn a_response_over_a_network_that_delivers(rt: HostRuntime) -> Result<(), Fail> {
    let (alloc, mut told) = (rt.alloc(), None);
    let sent = Vec::new(alloc);
    let mut network = EveryOther { sent };
    let (mut caller, mut callee) = (side_at(alloc, CALLER)?, side_at(alloc, CALLEE)?);
    caller.events.push((0, String::from_str(alloc, MESSAGE)?))?;
    for at in 0..24u32 {
        turn(&rt, alloc, &mut network, &mut caller, &mut callee, at)?;
        turn(&rt, alloc, &mut network, &mut callee, &mut caller, at)?;
        if caller.statuses.as_str() == "200" {
            told = Some(500 * at);
            break;
        }
    }
    assert!(rt; told == Some(4500));
    assert!(rt; network.sent.len() == 6);
    Ok(())
}

/// What one side sent so far, in order.
#[derive(Drop)]
struct Speaker {
    side: Side,
    sent: Vec<String>,
}

fn speaker_at(alloc: Global, last: u8) -> Result<Speaker, Fail> {
    Ok(Speaker {
        side: side_at(alloc, last)?,
        sent: Vec::new(alloc),
    })
}

// The event of a turn, where this is the other side.
fn event_of(alloc: Global, spoken: Spoken, peer: &Speaker) -> Result<String, Fail> {
    match spoken {
        Spoken::Command(line) => Ok(String::from_str(alloc, line)?),
        Spoken::Carried(number) => {
            let bytes = peer.sent.get(number.wrapping_sub(1)).ok_or("a send")?;
            let local = peer.side.local;
            Ok(format!(in alloc; "datagram {local} {bytes}\n")?)
        }
    }
}

// A round of a side. Returns what its user is told.
fn speak<T: Threads + Sync>(
    rt: &T,
    alloc: Global,
    me: &mut Speaker,
    event: String,
    at: u32,
) -> Result<String, Fail> {
    me.side.events.push((0, event))?;
    let file = file(rt, alloc, &mut me.side, at)?;
    let mut notices = String::new(alloc);
    for line in str::from_utf8(&file)?.lines() {
        if let Some(notice) = line.strip_prefix("notice c ") {
            notices.push_str(notice)?;
        } else if let Some(send) = line.strip_prefix("send ") {
            let (_, bytes) = send.split_once(' ').ok_or("bytes")?;
            me.sent.push(String::from_str(alloc, bytes)?)?;
        }
    }
    Ok(notices)
}

// Each datagram of it was sent by the other side in an earlier turn, so it is carried: the premise
// of the laws of sip_conversation can be met. What the callee says, the caller is told.
#[test]
fn a_conversation_that_is_carried(rt: HostRuntime) -> Result<(), Fail> {
    let alloc = rt.alloc();
    let (mut caller, mut callee) = (speaker_at(alloc, CALLER)?, speaker_at(alloc, CALLEE)?);
    for (number, spoken, expected) in CONVERSATION {
        let notices = if number == CALLER {
            let event = event_of(alloc, spoken, &callee)?;
            speak(&rt, alloc, &mut caller, event, 0)?
        } else {
            let event = event_of(alloc, spoken, &caller)?;
            speak(&rt, alloc, &mut callee, event, 0)?
        };
        assert!(rt; notices.starts_with(expected), "{notices}");
        assert!(rt; notices.is_empty() == expected.is_empty(), "{notices}");
    }
    Ok(())
}
