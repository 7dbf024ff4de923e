//! Examples: each public call of the core that takes memory, made once, with its answer compared.
//!
//! Each example ends as it should, or says that memory ran out and then left everything as it
//! should be. If a call that ran out of memory changes nothing, the example makes it again.

mod agents;
mod calls;
mod dialogs;
mod files;
mod heads;
mod lines;
mod messages;
mod queues;
mod rounds;
mod server_side;
mod texts;
mod transactions;
pub(crate) mod worked;

use crate::refusals::SHARDS;
use crate::stop::Stop;
use files::FirstFails;
use sip_calls::CallShard;
use sip_message::Spread;
use sip_round::Agent;
use sip_served::Served;
use sip_text::Series;
use sip_timers::Queue;
use sip_transactions::Shard;
use std::alloc::Global;
use std::thread::Threads;
use worked::{CONFIG, LOCAL, SEED};

/// The names of the examples, in the order of their numbers.
pub const NAMES: [&str; 49] = [
    "unfold",
    "lines",
    "split_values",
    "params",
    "numbers",
    "token_eq",
    "byte_order",
    "Text",
    "Series",
    "Queue",
    "Queue::arm",
    "Queue::take_due",
    "Queue::disarm",
    "write",
    "response_to",
    "ack_for",
    "cancel_for",
    "stamp_source",
    "key_of",
    "Message::clone",
    "Cut",
    "Dialog::next_request",
    "Dialog::ack",
    "Dialog::from_response",
    "Dialog::from_request",
    "Dialog::refresh",
    "Shard::receive",
    "Shard::command",
    "Shard::failed",
    "Served",
    "CallShard::item",
    "CallShard::tick",
    "run",
    "Agent::run_round",
    "Agent::reshard",
    "Agent::new",
    "Agent::live",
    "replay",
    "write_round",
    "read_command_line",
    "send_all",
    "Desk",
    "Message::with_content",
    "Agent::run_round_with_places",
    "start_line",
    "header_values",
    "header_lines",
    "Host",
    "destination_of",
];

/// Runs the example with this number.
///
/// # Errors
///
/// As for `run_example`.
pub fn example<T: Threads + Sync>(threads: &T, alloc: Global, number: usize) -> Result<(), Stop> {
    match number {
        0 => texts::a_fold_is_one_space(alloc),
        1 => texts::two_lines(alloc),
        2 => texts::two_values(alloc),
        3 => texts::two_parameters(alloc),
        4 => texts::numbers(),
        5 => texts::tokens_without_case(),
        6 => texts::texts_in_order(),
        7 => texts::a_text_grows(alloc),
        8 => texts::a_series_grows(alloc, &mut Series::new(alloc)),
        9 => queues::the_later_moment_counts(&mut Queue::new(alloc)),
        10 => queues::a_key_is_armed_again(&mut Queue::new(alloc)),
        11 => queues::at_one_moment_in_the_order_of_keys(&mut Queue::new(alloc)),
        12 => queues::what_is_disarmed_is_not_due(&mut Queue::new(alloc)),
        13 => messages::headers_in_their_order(alloc),
        14 => messages::a_response(alloc),
        15 => messages::an_ack_of_a_rejection(alloc),
        16 => messages::a_cancel(alloc),
        17 => messages::the_source_is_noted(alloc),
        18 => messages::keys(alloc),
        19 => messages::a_copy(alloc),
        20 => messages::names_are_cut(),
        21 => dialogs::the_next_request(alloc),
        22 => dialogs::an_ack(alloc),
        23 => dialogs::an_early_dialog_is_confirmed(alloc),
        24 => dialogs::a_callee_keeps_its_target(alloc),
        25 => dialogs::a_target_is_refreshed(alloc),
        26 => transactions::a_request_is_answered(alloc, &mut Shard::new(alloc, LOCAL)),
        27 => transactions::a_request_goes_out(alloc, &mut Shard::new(alloc, LOCAL)),
        28 => transactions::a_request_is_not_sent(alloc, &mut Shard::new(alloc, LOCAL)),
        29 => server_side::a_request_is_told_and_answered(alloc, &mut Served::new(alloc, LOCAL)),
        30 => calls::a_request_is_told_and_answered(alloc, &mut CallShard::new(alloc, LOCAL, SEED)),
        31 => calls::a_call_is_set_up(alloc, &mut CallShard::new(alloc, LOCAL, SEED)),
        32 => rounds::rounds_are_run(threads, alloc),
        33 => rounds::a_datagram_is_told(threads, alloc, &mut agent(alloc)?),
        34 => rounds::moved_while_a_timer_runs(threads, alloc, &mut agent(alloc)?),
        35 => rounds::nothing_is_moved(&mut agent(alloc)?),
        36 => rounds::a_failed_client_is_gone(threads, alloc, &mut agent(alloc)?),
        37 => files::a_file_is_replayed(threads, alloc),
        38 => files::a_round_is_written(alloc),
        39 => files::a_command_is_read(alloc),
        40 => files::a_failed_send_is_told(alloc, &mut FirstFails::default()),
        41 => lines::a_line_is_settled(alloc),
        42 => messages::a_content_of_the_user(alloc),
        43 => {
            rounds::outputs_have_the_places_of_their_events(threads, alloc, &mut agent(alloc)?)
        }
        44 => heads::a_start_line(alloc),
        45 => heads::the_values_of_a_header(alloc),
        46 => heads::header_lines_in_order(alloc),
        47 => heads::a_host_reads_a_datagram(alloc),
        48 => agents::each_call_has_its_agent(alloc),
        _ => Err(Stop::Words),
    }
}

fn agent(alloc: Global) -> Result<Agent<Spread>, Stop> {
    Ok(Agent::new(alloc, CONFIG, SHARDS, Spread)?)
}

/// Runs the example with this name.
///
/// # Errors
///
/// `Different` if its answer isn't the right one; `NoMemory` and `Broken` if memory ran out and
/// what is left is as it should be; `Words` if there is no such example.
pub fn run_example<T: Threads + Sync>(
    rt: &HostRuntime,
    threads: &T,
    name: &str,
) -> Result<(), Stop> {
    for (number, known) in NAMES.iter().enumerate() {
        if *known == name {
            example(threads, rt.alloc(), number)?;
            return Ok(println!(rt; "right")?);
        }
    }
    Err(Stop::Words)
}
