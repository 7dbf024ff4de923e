//! Messages that are read and answered.

use crate::stop::{Stop, expect};
use sip_message::{Message, Reason, StatusCode, Token, response_to, write};
use sip_reader::read;
use sip_text::Text;
use std::alloc::Global;

/// The tag of the answers.
pub const TAG: &[u8] = b"000000000000000000000000000000010bee7079f";

const REASON: &[u8] = b"OK";

const OK: u16 = 200;

/// Reads a text `times` times. Gives how often, and its length in bytes.
///
/// # Errors
///
/// `Message` if the text spells none, or memory ran out.
pub fn read_often(alloc: Global, text: &[u8], times: u64) -> Result<[u64; 2], Stop> {
    let mut messages: u64 = 0;
    for _ in 0..times {
        if !message(alloc, text)?.method().as_slice().is_empty() {
            messages = messages.saturating_add(1);
        }
    }
    expect("messages read", times, messages)?;
    Ok([messages, text.len() as u64])
}

/// Reads a text `times` times, and each time makes its 200 and writes it. Gives how often, and the
/// length of the 200 in bytes.
///
/// # Errors
///
/// `Message` if the text spells none, or memory ran out.
pub fn answer_often(alloc: Global, text: &[u8], times: u64) -> Result<[u64; 2], Stop> {
    answered(alloc, text, times, &token(alloc, TAG)?)
}

fn answered(alloc: Global, text: &[u8], times: u64, tag: &Token) -> Result<[u64; 2], Stop> {
    let length = answer_to(alloc, text, tag)?.len() as u64;
    for _ in 0..times {
        let written = answer_to(alloc, text, tag)?.len() as u64;
        expect("bytes written", length, written)?;
    }
    message(alloc, &answer_to(alloc, text, tag)?)?;
    Ok([times, length])
}

// The text of the 200 to a request.
fn answer_to(alloc: Global, text: &[u8], tag: &Token) -> Result<Vec<u8>, Stop> {
    written_answer(alloc, &message(alloc, text)?, tag)
}

fn written_answer(alloc: Global, request: &Message, tag: &Token) -> Result<Vec<u8>, Stop> {
    Ok(write(alloc, &success_to(alloc, request, tag)?)?)
}

/// The 200 to a request.
///
/// # Errors
///
/// Memory ran out.
pub fn success_to(alloc: Global, request: &Message, tag: &Token) -> Result<Message, Stop> {
    let Some(status) = StatusCode::new(OK) else {
        return Err(Stop::Different);
    };
    let reason = Reason::new(Text::copy_of(alloc, REASON)?).ok_or(Stop::Different)?;
    Ok(response_to(alloc, request, status, reason, tag)?)
}

/// The message that a text spells.
///
/// # Errors
///
/// `Message` if it spells none, or memory ran out.
pub fn message(alloc: Global, text: &[u8]) -> Result<Message, Stop> {
    Ok(read(alloc, text)?)
}

/// The token that a text spells.
///
/// # Errors
///
/// `Different` if it spells none, or memory ran out.
pub fn token(alloc: Global, text: &[u8]) -> Result<Token, Stop> {
    Token::new(Text::copy_of(alloc, text)?).ok_or(Stop::Different)
}
