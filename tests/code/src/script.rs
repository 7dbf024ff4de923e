//! An event file, and the output file that it gives.

use crate::faults::of_events;
use crate::stop::Stop;
use sip_files::read_events;
use sip_round::{Config, Round};
use sip_text::Series;
use std::alloc::Global;
use std::fs;

/// The name of the script of forty transactions, in the folder of the cases.
pub const LONG: &str = "keys/forty-keys";

/// An event file, as text and as it is read, and the output file that it gives.
#[derive(Drop)]
pub struct Script {
    pub events: Vec<u8>,
    pub outputs: Vec<u8>,
}

impl Script {
    /// The script with this name, in a folder of cases.
    ///
    /// # Errors
    ///
    /// A file is missing or can't be read, or memory ran out.
    pub fn read(rt: &HostRuntime, folder: &str, name: &str) -> Result<Script, Stop> {
        let events = format!(in rt.alloc(); "{folder}/{name}.events")?;
        let outputs = format!(in rt.alloc(); "{folder}/{name}.outputs")?;
        Ok(Script {
            events: fs::read(rt, events.as_str())?,
            outputs: fs::read(rt, outputs.as_str())?,
        })
    }

    /// The configuration and the rounds.
    ///
    /// # Errors
    ///
    /// `Script` if the text isn't an event file, or memory ran out.
    pub fn rounds(&self, alloc: Global) -> Result<(Config, Series<Round>), Stop> {
        read_events(alloc, &self.events).map_err(of_events)
    }
}
