//! The requests of a load: OPTIONS, each with its own branch and Call-ID.

use crate::digits::push_digits;
use sip_message::Addr;
use sip_round::Event;
use sip_text::Text;
use std::alloc::{AllocError, Global};

/// The sender of the requests.
const PEER: Addr = Addr {
    ip: [127, 0, 0, 1],
    port: 5070,
};

/// The maximum length of a request, in bytes.
const ROOM: usize = 320;

const UP_TO_BRANCH: &[u8] = b"OPTIONS sip:bob@127.0.0.1:5060 SIP/2.0\r
Via: SIP/2.0/UDP 127.0.0.1:5070;rport;branch=z9hG4bK776asdhds";

const UP_TO_CALL_ID: &[u8] = b"\r
Max-Forwards: 70\r
From: \"Alice\" <sip:alice@127.0.0.1:5070>;tag=1928301774\r
To: <sip:bob@127.0.0.1:5060>\r
Call-ID: a84b4c76e66710-";

const UP_TO_END: &[u8] = b"@127.0.0.1\r
CSeq: 63104 OPTIONS\r
\r
";

/// The datagram of the request with this number.
///
/// # Errors
///
/// Memory ran out.
pub fn options_of(alloc: Global, number: u64) -> Result<Event, AllocError> {
    let mut text = Vec::with_capacity(alloc, ROOM)?;
    text.extend_from_slice(UP_TO_BRANCH)?;
    push_digits(&mut text, number)?;
    text.extend_from_slice(UP_TO_CALL_ID)?;
    push_digits(&mut text, number)?;
    text.extend_from_slice(UP_TO_END)?;
    Ok(Event::Datagram {
        from: PEER,
        bytes: Text::from_vec(text),
    })
}
