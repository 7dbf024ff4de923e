//! A reader and writer that fails at one of its calls.

use crate::stop::{Stop, expect};
use std::alloc::Global;
use std::io::{self, Read, Write};

/// How many devices, or outlets, are made at most, of which each fails at a later call.
pub const MOST_TURNS: u64 = 100_000;

/// A reader and writer of at most `most` bytes at once. Its call with this number, from 0, fails,
/// and no other.
#[derive(Drop)]
pub struct Failing<'a> {
    pub most: usize,
    pub fails_at: u64,
    calls: u64,
    input: &'a [u8],
    pub output: Vec<u8>,
}

impl<'a> Failing<'a> {
    /// A device that gives `input` and has taken nothing.
    pub fn new(alloc: Global, most: usize, fails_at: u64, input: &'a [u8]) -> Failing<'a> {
        Failing {
            most,
            fails_at,
            calls: 0,
            input,
            output: Vec::new(alloc),
        }
    }

    // Counts a call. It fails if it has the number.
    fn call(&mut self) -> io::Result<()> {
        let number = self.calls;
        self.calls = number.saturating_add(1);
        if number == self.fails_at {
            Err(io::Error::from(io::ErrorKind::Other))
        } else {
            Ok(())
        }
    }

    /// Whether a call failed.
    ///
    /// # Errors
    ///
    /// `Count` if another call followed one that failed.
    pub fn has_failed(&self) -> Result<bool, Stop> {
        let has_failed = self.calls > self.fails_at;
        if has_failed {
            expect(
                "calls up to one that fails",
                self.fails_at.saturating_add(1),
                self.calls,
            )?;
        }
        Ok(has_failed)
    }
}

impl Read for Failing<'_> {
    fn read(&mut self, buf: &mut [u8]) -> io::Result<usize> {
        self.call()?;
        let count = buf.len().min(self.input.len()).min(self.most);
        let (front, rest) = self.input.split_at(count);
        buf[..count].copy_from_slice(front);
        self.input = rest;
        Ok(count)
    }
}

impl Write for Failing<'_> {
    fn write(&mut self, buf: &[u8]) -> io::Result<usize> {
        self.call()?;
        let count = buf.len().min(self.most);
        self.output.extend_from_slice(&buf[..count])?;
        Ok(count)
    }

    fn flush(&mut self) -> io::Result<()> {
        Ok(())
    }
}
