//! Tests of the core from the inside, and a program for what is measured: loads, and examples of
//! public functions, each alone, with allocations that fail.
#![tactic(auto)]

mod digits;
mod examples;
mod faults;
mod load;
mod loads;
mod often;
mod options;
mod refusals;
mod script;
mod stop;
mod tally;
#[cfg(test)]
mod tests;
mod words;
mod work;

use std::process::ExitCode;
use std::{env, io};
use stop::Stop;
use words::asked_by;
use work::done;

const SUCCESS: u8 = 0;

fn main(rt: HostRuntime) -> ExitCode {
    let end = match given_words(&rt) {
        Ok(words) => match asked_by(&words) {
            Some(asked) => done(&rt, &rt, asked),
            None => Err(Stop::Words),
        },
        Err(error) => Err(Stop::from(error)),
    };
    let status = match end {
        Ok(()) => SUCCESS,
        Err(stop) => {
            let _ = eprintln!(rt; "test_code: {stop}");
            stop.status()
        }
    };
    ExitCode::from(status)
}

// The words of the command line, without the program's own name.
fn given_words(rt: &HostRuntime) -> io::Result<Vec<String>> {
    Ok(env::args(rt)?.skip(1).collect(rt.alloc())?)
}
