//! Dialogs of both sides, and the messages made in them.

use crate::examples::messages::is_written;
use crate::examples::worked::{LOCAL, PEER};
use crate::often::{message, token};
use crate::stop::{Stop, check};
use sip_dialog::{Branch, Dialog, DialogFault, DialogState};
use sip_message::{Addr, Content, Message, StatusCode, Uri};
use sip_text::Text;
use std::alloc::Global;

/// An INVITE that is sent.
const INVITE: &[u8] = b"INVITE sip:b@192.0.2.9 SIP/2.0\r
Via: SIP/2.0/UDP 192.0.2.1:5060;rport;branch=z9hG4bKi\r
From: <sip:a@192.0.2.1>;tag=l1\r
To: <sip:b@192.0.2.9>\r
Call-ID: c2\r
CSeq: 1 INVITE\r
\r
";

/// Its 200, over two loose routes.
const SUCCESS: &[u8] = b"SIP/2.0 200 OK\r
Via: SIP/2.0/UDP 192.0.2.1:5060;rport;branch=z9hG4bKi\r
From: <sip:a@192.0.2.1>;tag=l1\r
To: <sip:b@192.0.2.9>;tag=x\r
Call-ID: c2\r
CSeq: 1 INVITE\r
Contact: <sip:b@10.0.0.5:5070>\r
Record-Route: <sip:192.0.2.7;lr>, <sip:192.0.2.8:5062;lr>\r
\r
";

/// Its 180, without routes.
const RINGING: &[u8] = b"SIP/2.0 180 X\r
Via: SIP/2.0/UDP 192.0.2.1:5060;rport;branch=z9hG4bKi\r
From: <sip:a@192.0.2.1>;tag=l1\r
To: <sip:b@192.0.2.9>;tag=x\r
Call-ID: c2\r
CSeq: 1 INVITE\r
\r
";

const INFO: &[u8] = b"INFO sip:b@10.0.0.5:5070 SIP/2.0\r
Via: SIP/2.0/UDP 192.0.2.1:5060;rport;branch=z9hG4bKb\r
Max-Forwards: 70\r
From: <sip:a@192.0.2.1>;tag=l1\r
To: <sip:b@192.0.2.9>;tag=x\r
Call-ID: c2\r
CSeq: 2 INFO\r
Route: <sip:192.0.2.8:5062;lr>\r
Route: <sip:192.0.2.7;lr>\r
Content-Type: application/sdp\r
Content-Length: 2\r
\r
ab";

const ACK: &[u8] = b"ACK sip:b@10.0.0.5:5070 SIP/2.0\r
Via: SIP/2.0/UDP 192.0.2.1:5060;rport;branch=z9hG4bKb\r
Max-Forwards: 70\r
From: <sip:a@192.0.2.1>;tag=l1\r
To: <sip:b@192.0.2.9>;tag=x\r
Call-ID: c2\r
CSeq: 1 ACK\r
Route: <sip:192.0.2.8:5062;lr>\r
Route: <sip:192.0.2.7;lr>\r
Content-Length: 0\r
\r
";

/// An INVITE that comes in.
const COMING: &[u8] = b"INVITE sip:b@192.0.2.1 SIP/2.0\r
Via: SIP/2.0/UDP 192.0.2.9;branch=z9hG4bKa1\r
From: <sip:a@192.0.2.9>;tag=f1\r
To: <sip:b@192.0.2.1>\r
Call-ID: c1\r
CSeq: 5 INVITE\r
Contact: <sip:a@10.0.0.6>\r
\r
";

/// A response to what its callee sent. It names another target.
const ANSWER: &[u8] = b"SIP/2.0 200 OK\r
Via: SIP/2.0/UDP 192.0.2.1:5060;rport;branch=z9hG4bKb\r
From: <sip:b@192.0.2.1>;tag=t1\r
To: <sip:a@192.0.2.9>;tag=f1\r
Call-ID: c1\r
CSeq: 1 INFO\r
Contact: <sip:other@10.0.0.7>\r
Record-Route: <sip:p>\r
\r
";

/// The first hop of the routes in the 200.
const HOP: Addr = Addr {
    ip: [192, 0, 2, 8],
    port: 5062,
};

// The dialog of the INVITE and this response to it.
fn caller(alloc: Global, response: &[u8]) -> Result<Dialog, Stop> {
    called(alloc, &message(alloc, INVITE)?, response)
}

fn called(alloc: Global, request: &Message, response: &[u8]) -> Result<Dialog, Stop> {
    Ok(Dialog::from_response(alloc, request, &message(alloc, response)?)?)
}

// The dialog of the INVITE that comes in.
fn callee(alloc: Global) -> Result<Dialog, Stop> {
    opened(alloc, &message(alloc, COMING)?)
}

fn opened(alloc: Global, request: &Message) -> Result<Dialog, Stop> {
    let Some(status) = StatusCode::new(183) else {
        return Err(Stop::Different);
    };
    Ok(Dialog::from_request(alloc, request, token(alloc, b"t1")?, status)?)
}

fn branch(alloc: Global) -> Result<Branch, Stop> {
    Branch::new(token(alloc, b"z9hG4bKb")?).ok_or(Stop::Different)
}

// The next request. If memory runs out, the dialog stays as it is.
fn next(alloc: Global, dialog: &mut Dialog, method: &[u8], body: &[u8]) -> Result<Message, Stop> {
    let number = dialog.local_cseq();
    match try_next(alloc, dialog, method, body) {
        Err(Stop::NoMemory) => {
            check(dialog.local_cseq() == number)?;
            try_next(alloc, dialog, method, body)
        }
        end => end,
    }
}

fn try_next(
    alloc: Global,
    dialog: &mut Dialog,
    method: &[u8],
    body: &[u8],
) -> Result<Message, Stop> {
    let (method, branch) = (token(alloc, method)?, branch(alloc)?);
    let content = Content::of_body(Text::copy_of(alloc, body)?);
    Ok(dialog.next_request(method, content, branch, LOCAL)?)
}

// Checks that the next request has this number.
fn is_next(alloc: Global, dialog: &mut Dialog, method: &[u8], number: u32) -> Result<(), Stop> {
    check(next(alloc, dialog, method, b"")?.cseq.number == number)
}

// Confirms the dialog.
fn confirm(alloc: Global, dialog: &mut Dialog, response: &[u8]) -> Result<(), Stop> {
    is_confirmed(dialog, &message(alloc, response)?)
}

// Checks that the dialog is confirmed. If memory runs out, it stays early.
fn is_confirmed(dialog: &mut Dialog, response: &Message) -> Result<(), Stop> {
    if dialog.confirm(response).is_err() {
        check(dialog.state() == DialogState::Early)?;
        dialog.confirm(response)?;
    }
    check(dialog.state() == DialogState::Confirmed)
}

pub fn the_next_request(alloc: Global) -> Result<(), Stop> {
    asks(alloc, &mut caller(alloc, SUCCESS)?)
}

fn asks(alloc: Global, dialog: &mut Dialog) -> Result<(), Stop> {
    is_written(alloc, &next(alloc, dialog, b"INFO", b"ab")?, INFO)?;
    check(dialog.local_cseq() == 2 && dialog.hop(PEER) == HOP)
}

pub fn an_ack(alloc: Global) -> Result<(), Stop> {
    acknowledges(alloc, &caller(alloc, SUCCESS)?)
}

fn acknowledges(alloc: Global, dialog: &Dialog) -> Result<(), Stop> {
    let content = Content::of_body(Text::copy_of(alloc, b"")?);
    let ack = dialog.ack(1, content, branch(alloc)?, LOCAL)?;
    is_written(alloc, &ack, ACK)
}

pub fn an_early_dialog_is_confirmed(alloc: Global) -> Result<(), Stop> {
    becomes_confirmed(alloc, &mut caller(alloc, RINGING)?)
}

// An early dialog makes no INVITE; a confirmed one does, with the routes and target from its 200.
fn becomes_confirmed(alloc: Global, dialog: &mut Dialog) -> Result<(), Stop> {
    check(try_next(alloc, dialog, b"INVITE", b"").is_err())?;
    confirm(alloc, dialog, SUCCESS)?;
    check(dialog.route_set().len() == 2 && has_target(dialog, b"sip:b@10.0.0.5:5070"))?;
    is_next(alloc, dialog, b"INVITE", 2)
}

pub fn a_callee_keeps_its_target(alloc: Global) -> Result<(), Stop> {
    keeps_its_target(alloc, &mut callee(alloc)?)
}

// A response confirms a callee's dialog, and changes neither its target nor its routes.
fn keeps_its_target(alloc: Global, dialog: &mut Dialog) -> Result<(), Stop> {
    dialog.accept(9)?;
    is_next(alloc, dialog, b"INFO", 1)?;
    confirm(alloc, dialog, ANSWER)?;
    check(is_refused(dialog, 9))?;
    is_next(alloc, dialog, b"INFO", 2)?;
    check(dialog.route_set().is_empty() && has_target(dialog, b"sip:a@10.0.0.6"))
}

// Whether a request with this number comes too late.
fn is_refused(dialog: &mut Dialog, number: u32) -> bool {
    matches!(dialog.accept(number), Err(DialogFault::OutOfOrder))
}

pub fn a_target_is_refreshed(alloc: Global) -> Result<(), Stop> {
    is_refreshed(alloc, &mut caller(alloc, RINGING)?)
}

// If the next hop has no address, requests go to the given address.
fn is_refreshed(alloc: Global, dialog: &mut Dialog) -> Result<(), Stop> {
    refresh(alloc, dialog, b"sip:n@10.0.0.6")?;
    check(has_target(dialog, b"sip:n@10.0.0.6") && dialog.hop(PEER).ip == [10, 0, 0, 6])?;
    refresh(alloc, dialog, b"sip:b@example.org")?;
    check(dialog.hop(PEER) == PEER)?;
    dialog.end();
    check(dialog.state() == DialogState::Ended)
}

fn refresh(alloc: Global, dialog: &mut Dialog, text: &[u8]) -> Result<(), Stop> {
    let uri = Uri::new(Text::copy_of(alloc, text)?).ok_or(Stop::Different)?;
    Ok(dialog.refresh(uri)?)
}

fn has_target(dialog: &Dialog, target: &[u8]) -> bool {
    dialog.target().as_slice() == target
}
