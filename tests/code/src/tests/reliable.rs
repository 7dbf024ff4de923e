//! The ledgers of reliable provisional responses.

use sip_reliable::{Inbound, NoMatch, Offer, Outbound, SendFault, Tick, taken_in_order};
use std::process::Abort;

// Offers the responses with these numbers, and checks what the ledger says.
fn offers(rt: &impl Abort, answers: &[(u32, Offer)]) {
    let mut inbound = Inbound::new();
    for (rseq, offer) in answers {
        assert!(rt; inbound.offer(*rseq) == *offer, "at {rseq}");
    }
}

// The first number is taken, and then each next one. None follows the last number.
#[test]
fn takes_the_first_and_then_each_next(rt: HostRuntime) {
    offers(
        &rt,
        &[
            (7, Offer::Taken),
            (7, Offer::Repeat),
            (9, Offer::Gap),
            (8, Offer::Taken),
            (3, Offer::Repeat),
            (9, Offer::Taken),
        ],
    );
    offers(
        &rt,
        &[
            (4_294_967_295, Offer::Taken),
            (4_294_967_295, Offer::Repeat),
            (0, Offer::Repeat),
            (1, Offer::Repeat),
        ],
    );
    taken_in_order();
}

/// One thing that is done with a ledger of sent responses, and what it says.
#[derive(Clone, Copy)]
enum Step {
    /// One is sent at a moment, with a body or without.
    Send(u32, bool, Result<u32, SendFault>),
    Acknowledge(u32, Result<(), NoMatch>),
    /// A tick does nothing.
    Quiet(u32),
    /// At a tick the responses with these numbers are to be sent again.
    Again(u32, &'static [u32]),
    GivenUp(u32),
    Due(Option<u64>),
    BodyWaits(bool),
    Close,
}

// Does a step, and says whether the ledger says what it should.
fn does(outbound: &mut Outbound, step: Step) -> bool {
    match step {
        Step::Send(now, has_body, said) => outbound.send(u64::from(now), has_body) == said,
        Step::Acknowledge(number, said) => outbound.acknowledge(number) == said,
        Step::Quiet(now) => outbound.tick(u64::from(now)) == Tick::Nothing,
        Step::Again(now, numbers) => match outbound.tick(u64::from(now)) {
            Tick::Again(due) => due.as_slice() == numbers,
            Tick::Nothing | Tick::GivenUp => false,
        },
        Step::GivenUp(now) => outbound.tick(u64::from(now)) == Tick::GivenUp,
        Step::Due(moment) => outbound.next_due() == moment,
        Step::BodyWaits(waits) => outbound.body_waits() == waits,
        Step::Close => {
            outbound.close();
            true
        }
    }
}

fn runs(rt: &impl Abort, mut outbound: Outbound, steps: &[Step]) {
    for (index, step) in steps.iter().enumerate() {
        let is_right = does(&mut outbound, *step);
        assert!(rt; is_right, "at step {index}");
    }
}

#[test]
fn sends_again_until_it_is_given_up(rt: HostRuntime) {
    let steps = [
        Step::Due(None),
        Step::Send(0, false, Ok(1)),
        Step::Due(Some(500)),
        Step::BodyWaits(false),
        Step::Quiet(499),
        Step::Again(500, &[1]),
        Step::Quiet(1499),
        Step::Again(1500, &[1]),
        Step::Quiet(3499),
        Step::Again(3500, &[1]),
        Step::Quiet(7499),
        Step::Again(7500, &[1]),
        Step::Quiet(15_499),
        Step::Again(15_500, &[1]),
        Step::Quiet(31_499),
        Step::Again(31_500, &[1]),
        Step::Quiet(31_999),
        Step::GivenUp(32_000),
        Step::Quiet(32_000),
        Step::Quiet(99_000),
        Step::Due(None),
        Step::Acknowledge(1, Ok(())),
        Step::Send(99_000, true, Ok(2)),
        Step::BodyWaits(true),
        Step::Due(Some(99_500)),
    ];
    runs(&rt, Outbound::new(1, true), &steps);
}

// After the first is acknowledged, several wait, each with its own repeats, until one is given up.
#[test]
fn several_wait(rt: HostRuntime) {
    let steps = [
        Step::Send(0, false, Ok(4_294_967_286)),
        Step::Acknowledge(4_294_967_286, Ok(())),
        Step::Send(0, false, Ok(4_294_967_287)),
        Step::Send(0, false, Ok(4_294_967_288)),
        Step::Send(0, false, Ok(4_294_967_289)),
        Step::Send(0, false, Ok(4_294_967_290)),
        Step::Send(0, false, Ok(4_294_967_291)),
        Step::Send(0, false, Ok(4_294_967_292)),
        Step::Send(0, false, Ok(4_294_967_293)),
        Step::Send(0, false, Ok(4_294_967_294)),
        Step::Send(0, false, Err(SendFault::Unacknowledged)),
        Step::Acknowledge(4_294_967_287, Ok(())),
        Step::Acknowledge(4_294_967_288, Ok(())),
        Step::Acknowledge(4_294_967_289, Ok(())),
        Step::Acknowledge(4_294_967_290, Ok(())),
        Step::Acknowledge(4_294_967_291, Ok(())),
        Step::Acknowledge(4_294_967_292, Ok(())),
        Step::Acknowledge(4_294_967_293, Ok(())),
        Step::Send(200, true, Ok(4_294_967_295)),
        Step::Due(Some(500)),
        Step::Again(500, &[4_294_967_294]),
        Step::Due(Some(700)),
        Step::Again(1600, &[4_294_967_294, 4_294_967_295]),
        Step::GivenUp(32_000),
        Step::Due(None),
        Step::Acknowledge(4_294_967_294, Ok(())),
        Step::Send(32_000, false, Err(SendFault::Unacknowledged)),
        Step::Acknowledge(4_294_967_295, Ok(())),
        Step::Send(32_000, false, Err(SendFault::NumbersUsedUp)),
    ];
    runs(&rt, Outbound::new(4_294_967_286, true), &steps);
}

#[test]
fn refuses_in_order(rt: HostRuntime) {
    let steps = [
        Step::Send(0, false, Ok(4_294_967_295)),
        Step::Send(0, false, Err(SendFault::Unacknowledged)),
        Step::Acknowledge(1, Err(NoMatch)),
        Step::Acknowledge(4_294_967_295, Ok(())),
        Step::Acknowledge(4_294_967_295, Err(NoMatch)),
        Step::Send(0, false, Err(SendFault::NumbersUsedUp)),
        Step::Close,
        Step::Send(0, false, Err(SendFault::Closed)),
    ];
    runs(&rt, Outbound::new(4_294_967_295, true), &steps);
    let steps = [
        Step::Send(0, false, Err(SendFault::NotSupported)),
        Step::Close,
        Step::Send(0, false, Err(SendFault::Closed)),
    ];
    runs(&rt, Outbound::new(1, false), &steps);
    let steps = [
        Step::Send(0, false, Ok(4_294_967_294)),
        Step::Acknowledge(4_294_967_294, Ok(())),
        Step::Send(0, false, Ok(4_294_967_295)),
        Step::Send(0, false, Err(SendFault::NumbersUsedUp)),
    ];
    runs(&rt, Outbound::new(4_294_967_294, true), &steps);
    let steps = [
        Step::Send(0, false, Ok(1)),
        Step::Close,
        Step::Send(0, false, Err(SendFault::Closed)),
    ];
    runs(&rt, Outbound::new(1, true), &steps);
}

#[test]
fn is_acknowledged_after_the_close(rt: HostRuntime) {
    let steps = [
        Step::Send(0, true, Ok(1)),
        Step::Close,
        Step::Quiet(500),
        Step::Due(None),
        Step::BodyWaits(true),
        Step::Acknowledge(1, Ok(())),
        Step::BodyWaits(false),
    ];
    runs(&rt, Outbound::new(1, true), &steps);
}
