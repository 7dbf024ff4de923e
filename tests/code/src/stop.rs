//! Why a trial stopped.

use sip_desk::Unfinished;
use sip_dialog::DialogFault;
use sip_message::ReadFault;
use sip_round::RoundFault;
use sip_text::TextFault;
use std::alloc::{AllocError, AllocFailed};
use std::io;
use thiserror::Error;

const DIFFERENT: u8 = 1;

const BAD_WORDS: u8 = 2;

const BAD_ROUND: u8 = 3;

const FAILED_DEVICE: u8 = 4;

const NO_MEMORY: u8 = 5;

/// What is told if the words ask for nothing.
const USAGE: &str = "\
bad words; it takes one of
  read FILE N
  answer FILE N
  transactions HELD N
  idle HELD N
  rounds N SHARDS WORKERS
  example NAME
  round_by_round FOLDER
with each number from 1 to 9999999, at most 999 rounds, 256 shards and 64 workers";

/// Why a trial stopped.
#[derive(Clone, Copy, Debug, Error)]
pub enum Stop {
    /// The words don't ask for anything that exists.
    #[error("{usage}", usage = USAGE)]
    Words,
    /// Something isn't what it should be.
    #[error("something differs")]
    Different,
    /// Something has another count than it should have.
    #[error("{given} {what}, and not {wanted}")]
    Count {
        what: &'static str,
        wanted: u64,
        given: u64,
    },
    /// A text doesn't spell a message.
    #[error("no message")]
    Message,
    /// A text isn't an event file.
    #[error("no event file")]
    Script,
    /// A round was refused.
    #[error("a round is refused: {0}")]
    Round(RoundFault),
    /// A file or a stream failed.
    #[error("a file or a stream failed")]
    Device,
    /// Memory ran out, and what is left is as it should be.
    #[error("no memory")]
    NoMemory,
    /// The same, and what ran out of memory is broken, as it should be then.
    #[error("no memory, and broken")]
    Broken,
}

impl Stop {
    /// The status with which the program ends.
    pub fn status(self) -> u8 {
        match self {
            Stop::Different | Stop::Count { .. } | Stop::Message | Stop::Script => DIFFERENT,
            Stop::Words => BAD_WORDS,
            Stop::Round(_) => BAD_ROUND,
            Stop::Device => FAILED_DEVICE,
            Stop::NoMemory | Stop::Broken => NO_MEMORY,
        }
    }
}

/// Goes on if this is true.
///
/// # Errors
///
/// `Different` if it isn't.
pub fn check(holds: bool) -> Result<(), Stop> {
    if holds { Ok(()) } else { Err(Stop::Different) }
}

/// Goes on if a count is what it should be.
///
/// # Errors
///
/// `Count` if it isn't.
pub fn expect(what: &'static str, wanted: u64, given: u64) -> Result<(), Stop> {
    if given == wanted {
        Ok(())
    } else {
        Err(Stop::Count {
            what,
            wanted,
            given,
        })
    }
}

/// Why something stopped that ran out of memory. It has to be broken from then on.
pub fn broken_where(is_broken: bool) -> Stop {
    if is_broken {
        Stop::Broken
    } else {
        Stop::Different
    }
}

impl From<AllocError> for Stop {
    fn from(_error: AllocError) -> Stop {
        Stop::NoMemory
    }
}

impl<T: Drop> From<AllocFailed<T>> for Stop {
    fn from(_error: AllocFailed<T>) -> Stop {
        Stop::NoMemory
    }
}

impl From<sip_round::NoMemory> for Stop {
    fn from(_error: sip_round::NoMemory) -> Stop {
        Stop::NoMemory
    }
}

impl From<Unfinished> for Stop {
    fn from(_error: Unfinished) -> Stop {
        Stop::Different
    }
}

impl From<TextFault> for Stop {
    fn from(fault: TextFault) -> Stop {
        match fault {
            TextFault::NoMemory => Stop::NoMemory,
            _ => Stop::Different,
        }
    }
}

impl From<ReadFault> for Stop {
    fn from(fault: ReadFault) -> Stop {
        match fault {
            ReadFault::NoMemory => Stop::NoMemory,
            _ => Stop::Message,
        }
    }
}

impl From<DialogFault> for Stop {
    fn from(fault: DialogFault) -> Stop {
        match fault {
            DialogFault::NoMemory => Stop::NoMemory,
            _ => Stop::Different,
        }
    }
}

impl From<RoundFault> for Stop {
    fn from(fault: RoundFault) -> Stop {
        match fault {
            RoundFault::NoMemory { .. } => Stop::NoMemory,
            _ => Stop::Round(fault),
        }
    }
}

impl From<io::Error> for Stop {
    fn from(error: io::Error) -> Stop {
        match error.kind() {
            io::ErrorKind::OutOfMemory => Stop::NoMemory,
            _ => Stop::Device,
        }
    }
}
