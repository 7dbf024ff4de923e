//! What dialogs refuse and no event file can reach: used-up numbers, and the first of two faults.

use sip_dialog::{Branch, Dialog, DialogFault, DialogState};
use sip_message::{Addr, Content, Message, Token, Uri};
use sip_reader::read;
use sip_text::Text;
use std::alloc::Global;
use std::test::Fail;

// The agent's own address.
const LOCAL: Addr = Addr {
    ip: [192, 0, 2, 1],
    port: 5060,
};

// The highest number of a request.
const LAST: u32 = 2_147_483_647;

// The beginnings of the INVITE and its answers.
const INVITE: &str = "INVITE sip:b@192.0.2.9 SIP/2.0\r\nTo: <sip:b@192.0.2.9>\r\n";

const RINGING: &str = "SIP/2.0 180 X\r\nTo: <sip:b@192.0.2.9>;tag=x\r\n";

const SUCCESS: &str = "SIP/2.0 200 X\r\nTo: <sip:b@192.0.2.9>;tag=x\r\n";

// A header that adds a strict route.
const STRICT: &str = "Record-Route: <sip:p>\r\n";

// The message with this beginning, an INVITE or an answer to it, with this number and this header.
fn message(alloc: Global, start: &str, cseq: u32, header: &str) -> Result<Message, Fail> {
    let text = format!(in alloc;
        "{start}Via: SIP/2.0/UDP 192.0.2.1:5060;rport;branch=z9hG4bKi\r\n\
        From: <sip:a@192.0.2.1>;tag=l1\r\nCall-ID: c2\r\nCSeq: {cseq} INVITE\r\n{header}\r\n"
    )?;
    Ok(read(alloc, text.as_bytes()).ok().ok_or("a message")?)
}

// The dialog of an INVITE with this number that the agent sent and its answer, with this header.
fn dialog_of(alloc: Global, answer: &str, cseq: u32, header: &str) -> Result<Dialog, Fail> {
    let request = message(alloc, INVITE, cseq, "")?;
    let response = message(alloc, answer, cseq, header)?;
    Ok(Dialog::from_response(alloc, &request, &response)?)
}

fn token(alloc: Global, text: &str) -> Result<Token, Fail> {
    Ok(Token::new(Text::copy_of(alloc, text.as_bytes())?).ok_or("a token")?)
}

fn branch(alloc: Global) -> Result<Branch, Fail> {
    Ok(Branch::new(token(alloc, "z9hG4bKb")?).ok_or("a branch")?)
}

// Why the next request isn't made.
fn next_fault(
    alloc: Global,
    dialog: &mut Dialog,
    method: &str,
) -> Result<Option<DialogFault>, Fail> {
    let method = token(alloc, method)?;
    let branch = branch(alloc)?;
    let content = Content::of_body(Text::copy_of(alloc, b"")?);
    Ok(dialog.next_request(method, content, branch, LOCAL).err())
}

// Why the ACK of the first INVITE isn't made.
fn ack_fault(alloc: Global, dialog: &Dialog) -> Result<Option<DialogFault>, Fail> {
    let branch = branch(alloc)?;
    let content = Content::of_body(Text::copy_of(alloc, b"")?);
    Ok(dialog.ack(1, content, branch, LOCAL).err())
}

// Why a 200 doesn't confirm the dialog.
fn confirm_fault(alloc: Global, dialog: &mut Dialog) -> Result<Option<DialogFault>, Fail> {
    let response = message(alloc, SUCCESS, 1, "")?;
    Ok(dialog.confirm(&response).err())
}

// Why the target isn't refreshed.
fn refresh_fault(alloc: Global, dialog: &mut Dialog) -> Result<Option<DialogFault>, Fail> {
    let target = Uri::new(Text::copy_of(alloc, b"sip:n@10.0.0.6")?).ok_or("a URI")?;
    Ok(dialog.refresh(target).err())
}

// The numbers end, and none follows the last. A strict router is told before that, and an early
// dialog before a strict router.
#[test]
fn the_first_fault_is_told(rt: HostRuntime) -> Result<(), Fail> {
    let cases = [
        (SUCCESS, LAST - 1, "", "INFO", None),
        (SUCCESS, LAST, "", "INFO", Some(DialogFault::SequenceUsedUp)),
        (
            SUCCESS,
            LAST,
            STRICT,
            "INFO",
            Some(DialogFault::StrictRoute),
        ),
        (
            RINGING,
            LAST,
            STRICT,
            "INVITE",
            Some(DialogFault::NotConfirmed),
        ),
    ];
    for (answer, cseq, header, method, fault) in cases {
        let mut dialog = dialog_of(rt.alloc(), answer, cseq, header)?;
        assert!(rt;
            next_fault(rt.alloc(), &mut dialog, method)? == fault,
            "{method} at {cseq}"
        );
        let again = next_fault(rt.alloc(), &mut dialog, method)?;
        assert!(rt;
            again == Some(fault.unwrap_or(DialogFault::SequenceUsedUp)),
            "{method} after {cseq}"
        );
        assert!(rt; dialog.local_cseq() == LAST, "{method} at {cseq}");
    }
    Ok(())
}

#[test]
fn an_early_and_an_ended_dialog_refuse(rt: HostRuntime) -> Result<(), Fail> {
    let alloc = rt.alloc();
    let mut dialog = dialog_of(alloc, RINGING, 1, STRICT)?;
    assert!(rt; ack_fault(alloc, &dialog)? == Some(DialogFault::NotConfirmed));
    dialog.end();
    dialog.end();
    let faults = [
        next_fault(alloc, &mut dialog, "INVITE")?,
        ack_fault(alloc, &dialog)?,
        dialog.accept(9).err(),
        refresh_fault(alloc, &mut dialog)?,
        confirm_fault(alloc, &mut dialog)?,
    ];
    assert!(rt; faults == [Some(DialogFault::Ended); 5]);
    assert!(rt; dialog.state() == DialogState::Ended);
    Ok(())
}
