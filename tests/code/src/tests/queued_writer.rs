//! The writer of notices.

use sip_udp::{QueuedWriter, Written};
use std::alloc::Global;
use std::io::{self, PipeReader, Read, Write};
use std::test::Fail;
use std::thread;

/// More than may wait and a pipe takes.
const PIECES: u64 = 10_000;

const PIECE: &[u8] = b"notice c1 response 0.1 200 a-local-tag a-remote-tag -\n";

// How many bytes come up to the end.
fn count_to_end(mut reader: PipeReader) -> u64 {
    let mut buffer = [0; 4096];
    let mut count = 0_u64;
    for _ in 0..u64::MAX {
        match reader.read(&mut buffer) {
            Ok(0) | Err(_) => break,
            Ok(more) => count = count.saturating_add(more as u64),
        }
    }
    count
}

// A pipe that nobody reads takes no time of who writes. What had no room is lost and counted, and
// all else comes once the pipe is read.
#[test]
fn an_output_that_is_read_late(rt: HostRuntime) -> Result<(), Fail> {
    let (reader, pipe) = io::pipe(&rt)?;
    let started = QueuedWriter::start_with(&rt, rt.alloc(), pipe, 0);
    let (mut writer, _) = started.map_err(|_| "no writer")?;
    for _ in 0..PIECES {
        writer.write_all(PIECE)?;
        writer.flush()?;
    }
    let reading = thread::spawn(&rt, move || count_to_end(reader)).map_err(|_| "no thread")?;
    let Written { lost, error } = writer.finish(&rt);
    let count = reading.join(&rt);
    assert!(rt; error.is_none());
    assert!(rt; lost > 0 && lost < PIECES);
    assert!(rt; count == (PIECES - lost) * PIECE.len() as u64);
    Ok(())
}

// Once nobody can read any more, a write fails, and the system says why.
#[test]
fn an_output_that_is_closed(rt: HostRuntime) -> Result<(), Fail> {
    let (reader, pipe) = io::pipe(&rt)?;
    drop(reader);
    let started = QueuedWriter::start_with(&rt, rt.alloc(), pipe, 0);
    let (mut writer, _) = started.map_err(|_| "no writer")?;
    writer.write_all(PIECE)?;
    writer.flush()?;
    let Written { lost, error } = writer.finish(&rt);
    assert!(rt; lost == 0);
    assert!(rt; error.is_some_and(|error| error.kind() == io::ErrorKind::BrokenPipe));
    Ok(())
}

// Each end's pieces come whole and in order, whatever the other one writes meanwhile.
#[test]
fn a_writer_with_two_ends(rt: HostRuntime) -> Result<(), Fail> {
    let (mut reader, pipe) = io::pipe(&rt)?;
    let started = QueuedWriter::start_with(&rt, rt.alloc(), pipe, 1);
    let (mut writer, mut others) = started.map_err(|_| "no writer")?;
    let mut other = others.pop().ok_or("no other end")?;
    writer.write_all(b"a1\n")?;
    other.write_all(b"b1\n")?;
    writer.write_all(b"a2\n")?;
    writer.flush()?;
    other.write_all(b"b2\n")?;
    other.flush()?;
    let Written { lost, error } = writer.finish(&rt);
    let mut told = Vec::new(rt.alloc());
    reader.read_to_end(&mut told)?;
    assert!(rt; lost == 0 && error.is_none());
    let told = told.as_slice();
    assert!(rt; told == b"a1\na2\nb1\nb2\n".as_slice() || told == b"b1\nb2\na1\na2\n".as_slice());
    Ok(())
}
