//! What the faults of files and hosts come to.

use crate::stop::Stop;
use sip_files::{EventsFault, ReplayFault};
use sip_host::HostFault;
use sip_round::RoundFault;

/// Why reading an event file stopped.
pub fn of_events(fault: EventsFault) -> Stop {
    match fault {
        EventsFault::NoMemory => Stop::NoMemory,
        _ => Stop::Script,
    }
}

/// Why a replay stopped.
pub fn of_replay(fault: ReplayFault) -> Stop {
    match fault {
        ReplayFault::NoMemory
        | ReplayFault::Events(EventsFault::NoMemory)
        | ReplayFault::Round(_, RoundFault::NoMemory { .. }) => Stop::NoMemory,
        _ => Stop::Different,
    }
}

/// Why a host stopped.
pub fn of_host(fault: HostFault) -> Stop {
    match fault {
        HostFault::NoMemory => Stop::NoMemory,
        HostFault::Round(fault) => Stop::from(fault),
        HostFault::BadLine
        | HostFault::BadField(_)
        | HostFault::TooManyEvents
        | HostFault::NoSend
        | HostFault::OutputsLeft => Stop::Different,
    }
}
