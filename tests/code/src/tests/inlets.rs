//! Ways in for datagrams: inlets that fail, and a socket that is quiet.

use sip_desk::{Desk, NoMemory, Poster, open};
use sip_message::Addr;
use sip_round::Event;
use sip_udp::{Flags, Inlet, Received, UaFault, drops_in, hear};
use std::alloc::Global;
use std::net::{Ipv4Addr, UdpSocket};
use std::process::Abort;
use std::sync::Arc;
use std::sync::atomic::Ordering;
use std::test::Fail;
use std::time::Duration;

const PEER: Addr = Addr {
    ip: [192, 0, 2, 9],
    port: 5060,
};

/// An inlet that fails this often in a row before each of its results, and then only fails.
#[derive(Drop)]
struct Broken {
    failures: u32,
    failures_left: u32,
    quiet_left: u32,
    datagrams_left: u32,
}

impl Inlet for Broken {
    ghost use Rattle.std.specs.Prelude.{None};

    ghost given = { λ _. None };

    fn receive(&mut self, _buffer: &mut [u8]) -> Received {
        if self.failures_left > 0 {
            self.failures_left -= 1;
            return Received::Failed;
        }
        self.failures_left = self.failures;
        if self.quiet_left > 0 {
            self.quiet_left -= 1;
            return Received::Nothing;
        }
        if self.datagrams_left > 0 {
            self.datagrams_left -= 1;
            return Received::Datagram {
                from: PEER,
                length: 0,
            };
        }
        Received::Failed
    }
}

fn one_line(alloc: Global) -> Result<(Desk<Event>, Poster<Event>), NoMemory> {
    let (desk, mut posters) = open(alloc, 1, 4)?;
    let line = posters.pop().ok_or(NoMemory)?;
    Ok((desk, line))
}

// How many of two datagrams come before the listener gives up. This many receives fail before each
// of them, and before each of the quiet ones, which come first.
fn heard_after(
    rt: &impl Abort,
    alloc: Global,
    failures: u32,
    quiet_left: u32,
) -> Result<usize, Fail> {
    let (mut desk, line) = one_line(alloc)?;
    let mut inlet = Broken {
        failures,
        failures_left: failures,
        quiet_left,
        datagrams_left: 2,
    };
    let buffer = vec![in alloc; 0u8; 8]?;
    let flags = Arc::new(alloc, Flags::new())?;
    let lines = Vec::from_array(alloc, [line])?;
    let heard = hear(alloc, &mut inlet, buffer, lines, flags.clone()?);
    assert!(rt; heard.fault == Some(UaFault::Socket));
    assert!(rt; flags.ended.load(Ordering::SeqCst));
    assert!(rt;
        heard
            .ends
            .is_some_and(|ends| matches!(ends.as_slice(), [Some(_)]))
    );
    Ok(desk.collect(4)?.len())
}

// Rows as Linux writes them.
const SOCKETS: &str = "   sl  local_address rem_address   st tx_queue rx_queue tr ref pointer drops
 1001: 0100007F:13C5 00000000:0000 07 00000000:00000000 00:00000000 00000000 2 0 17
 1002: 010200C0:13C4 00000000:0000 07 00000000:00000000 00:00000000 00000000 2 0 3
";

#[test]
fn the_drops_of_a_socket_stand_in_its_row(rt: HostRuntime) -> Result<(), Fail> {
    let at = |ip, port| drops_in(rt.alloc(), SOCKETS, Addr { ip, port });
    assert!(rt; at([192, 0, 2, 1], 5060)? == Some(3));
    assert!(rt; at([127, 0, 0, 1], 5061)? == Some(17));
    assert!(rt; at([127, 0, 0, 1], 5060)? == None);
    Ok(())
}

#[test]
fn a_listener_gives_up_after_a_hundred_failures_in_a_row(rt: HostRuntime) -> Result<(), Fail> {
    for (failures, quiet, datagrams) in [(0, 0, 2), (99, 0, 2), (99, 3, 2), (100, 0, 0)] {
        let heard = heard_after(&rt, rt.alloc(), failures, quiet)?;
        assert!(rt; heard == datagrams, "{failures} before each");
    }
    Ok(())
}

// A socket that gets no datagram in time is quiet, and hasn't failed.
#[test]
fn a_socket_without_a_datagram_is_quiet(rt: HostRuntime) -> Result<(), Fail> {
    let mut socket = UdpSocket::bind(&rt, (Ipv4Addr::LOCALHOST, 0))?;
    socket.set_read_timeout(Some(Duration::from_millis(1)))?;
    let received = socket.receive(&mut [0; 8]);
    assert!(rt; matches!(received, Received::Nothing));
    Ok(())
}
