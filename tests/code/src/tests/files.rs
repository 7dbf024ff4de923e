//! A line of an output file that no event file gives, a fault of event files that no stored case
//! has, and devices that count.

ghost use Rattle.std.specs.Prelude.{Some};

use sip_files::{
    CountedRead, CountedWrite, EventsFault, FileKind, ReplayFault, replay, write_output,
};
use sip_message::{CallId, Spread};
use sip_round::{OpenGate, Output};
use sip_text::Text;
use sip_user::{Notice, Refusal};
use std::alloc::Global;
use std::io::{self, Read, Write};
use std::test::Fail;
use std::thread::Threads;

// No event file can use up the numbers of a dialog.
#[test]
fn numbers_used_up_are_told(rt: HostRuntime) -> Result<(), Fail> {
    let call_id = CallId::new(Text::copy_of(rt.alloc(), b"c1")?).ok_or("a Call-ID")?;
    let refused = Output::Notice(Notice::Refused {
        call_id,
        place: 4,
        refusal: Refusal::SequenceUsedUp,
    });
    let line = write_output(rt.alloc(), &refused)?;
    assert!(rt; line.as_slice() == b"notice c1 refused 4 11\n".as_slice());
    Ok(())
}

#[test]
fn want_of_memory_is_named(rt: HostRuntime) -> Result<(), Fail> {
    let fault = EventsFault::NoMemory;
    assert!(rt; format!(in rt.alloc(); "{fault}")?.as_str() == "no memory");
    Ok(())
}

/// A reader or writer that tells how often it was read and how often that failed, as long as it can
/// count that far.
#[derive(Drop)]
struct Counting<D> {
    device: D,
    reads: Option<u64>,
    failures: Option<u64>,
    is_flushed: bool,
}

impl<D> Counting<D> {
    fn new(device: D) -> Counting<D> {
        Counting {
            device,
            reads: Some(0),
            failures: Some(0),
            is_flushed: false,
        }
    }
}

impl<R: Read> CountedRead for Counting<R> {
    ghost remaining = { λ counting. R.remaining counting.device };

    ghost reads = { λ counting. counting.reads };

    ghost failures = { λ counting. counting.failures };

    fn read_once(&mut self, buf: &mut [u8]) -> io::Result<usize> {
        self.reads = one_more(self.reads);
        let result = self.device.read(buf);
        if result.is_err() {
            self.failures = one_more(self.failures);
        }
        result
    }
}

impl<W: Write> CountedWrite for Counting<W> {
    ghost contents = { λ counting. W.contents counting.device };

    ghost failures = { λ counting. counting.failures };

    ghost flushed = { λ counting. Some counting.is_flushed };

    fn write_once(&mut self, bytes: &[u8]) -> io::Result<usize> {
        self.is_flushed = false;
        let result = self.device.write(bytes);
        if let Ok(0) | Err(_) = &result {
            self.failures = one_more(self.failures);
        }
        result
    }

    fn flush_once(&mut self) -> io::Result<()> {
        let result = self.device.flush();
        self.is_flushed = result.is_ok();
        if result.is_err() {
            self.failures = one_more(self.failures);
        }
        result
    }
}

// None if the count gets too high.
fn one_more(count: Option<u64>) -> Option<u64> {
    match count {
        Some(count) => count.checked_add(1),
        None => None,
    }
}

/// An event file without rounds.
const EVENTS: &[u8] = b"sip-events 1\nlocal 192.0.2.1:5060\n";

fn replayed<T: Threads + Sync, W: CountedWrite>(
    rt: &T,
    alloc: Global,
    reader: &mut Counting<&[u8]>,
    writer: &mut W,
) -> Result<(), ReplayFault> {
    let kind = FileKind::Events;
    replay(rt, alloc, kind, reader, writer, 1, 1, Spread, &OpenGate)
}

// There is one read for what the file has, and one for its end.
#[test]
fn reads_are_counted(rt: HostRuntime) {
    let mut reader = Counting::new(EVENTS);
    let mut writer = Counting::new(Vec::new(rt.alloc()));
    assert!(rt; replayed(&rt, rt.alloc(), &mut reader, &mut writer).is_ok());
    assert!(rt; reader.reads == Some(2));
    assert!(rt; reader.failures == Some(0) && writer.failures == Some(0));
    assert!(rt; writer.is_flushed);
}

/// A writer that takes all bytes and can't flush them.
#[derive(Drop)]
struct Unflushed;

impl Write for Unflushed {
    fn write(&mut self, bytes: &[u8]) -> io::Result<usize> {
        Ok(bytes.len())
    }

    fn flush(&mut self) -> io::Result<()> {
        Err(io::Error::from(io::ErrorKind::Other))
    }
}

#[test]
fn a_failed_flush_is_told(rt: HostRuntime) {
    let mut reader = Counting::new(EVENTS);
    let mut writer = Counting::new(Unflushed);
    let end = replayed(&rt, rt.alloc(), &mut reader, &mut writer);
    assert!(rt; end == Err(ReplayFault::Output));
    assert!(rt; writer.failures == Some(1));
}
