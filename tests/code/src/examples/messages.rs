//! Messages: what is made from them, and their text.

use crate::examples::worked::{OK, OPTIONS, key_in};
use crate::often::{TAG, message, success_to, token};
use crate::stop::{Stop, check};
use sip_message::{
    Addr, Content, ContentHeaders, Cut, First, Header, Key, Message, SharedKey, Spread, Token,
    ack_for, cancel_for, stamp_source, write,
};
use std::alloc::{AllocError, Global};

/// A request with two hops, two routes and two options of each kind. Its headers stand in another
/// order than they are written in, some with their compact names.
const SCRAMBLED: &[u8] = b"INVITE sip:b@192.0.2.9 SIP/2.0\r
Supported: y\r
k: z\r
s: s\r
c: gzip\r
e: gzip\r
E: gzip\r
x: gzip\r
Require: 100rel,x\r
Route: <sip:p1;lr>, <sip:p2;lr>\r
Record-Route: <sip:r1;lr>,<sip:r2;lr>\r
l: 2\r
CSeq: 5 INVITE\r
i: c2\r
t: \"B\" <sip:b@192.0.2.9>\r
f: sip:a@192.0.2.1;tag=l1\r
m: <sip:a@192.0.2.1>\r
Max-Forwards: 7\r
v: SIP/2.0/UDP 192.0.2.1:5060;rport;branch=z9hG4bKi, SIP/2.0/UDP h;branch=z9hG4bKo\r
\r
ab";

const WRITTEN: &[u8] = b"INVITE sip:b@192.0.2.9 SIP/2.0\r
Via: SIP/2.0/UDP 192.0.2.1:5060;rport;branch=z9hG4bKi\r
Via: SIP/2.0/UDP h;branch=z9hG4bKo\r
Max-Forwards: 7\r
From: <sip:a@192.0.2.1>;tag=l1\r
To: \"B\" <sip:b@192.0.2.9>\r
Call-ID: c2\r
CSeq: 5 INVITE\r
Contact: <sip:a@192.0.2.1>\r
Record-Route: <sip:r1;lr>\r
Record-Route: <sip:r2;lr>\r
Route: <sip:p1;lr>\r
Route: <sip:p2;lr>\r
Require: 100rel, x\r
Supported: y, z\r
Subject: s\r
Content-Type: gzip\r
Content-Encoding: gzip\r
Content-Encoding: gzip\r
x: gzip\r
Content-Length: 2\r
\r
ab";

/// A message whose headers and body the user puts into another message.
const GIVEN: &[u8] = b"OPTIONS sip:192.0.2.1 SIP/2.0\r
Via: SIP/2.0/UDP 192.0.2.9;branch=z9hG4bKa2\r
From: <sip:a@192.0.2.9>;tag=f2\r
To: <sip:192.0.2.1>\r
Call-ID: c2\r
CSeq: 8 OPTIONS\r
Contact: <sip:u@192.0.2.7>;expires=60\r
Require: x\r
Supported: timer\r
Subject: a b\r
Content-Type: text/plain\r
Content-Length: 2\r
\r
hi";

/// The request of the examples with these headers and this body.
const WITH_CONTENT: &[u8] = b"OPTIONS sip:192.0.2.1 SIP/2.0\r
Via: SIP/2.0/UDP 192.0.2.9;branch=z9hG4bKa1\r
From: <sip:a@192.0.2.9>;tag=f1\r
To: <sip:192.0.2.1>\r
Call-ID: c1\r
CSeq: 7 OPTIONS\r
Contact: <sip:u@192.0.2.7>;expires=60\r
Require: x\r
Supported: timer\r
Subject: a b\r
Content-Type: text/plain\r
Content-Length: 2\r
\r
hi";

/// The names and values of its headers that are kept as they stand.
const KEPT: [(&[u8], &[u8]); 5] = [
    (b"Subject", b"s"),
    (b"Content-Type", b"gzip"),
    (b"Content-Encoding", b"gzip"),
    (b"Content-Encoding", b"gzip"),
    (b"x", b"gzip"),
];

/// A response that rejects the request.
const REJECTION: &[u8] = b"SIP/2.0 486 X\r
Via: SIP/2.0/UDP 192.0.2.1:5060;rport;branch=z9hG4bKi\r
Via: SIP/2.0/UDP h;branch=z9hG4bKo\r
From: <sip:a@192.0.2.1>;tag=l1\r
To: \"B\" <sip:b@192.0.2.9>;tag=x\r
Call-ID: c2\r
CSeq: 5 INVITE\r
\r
";

const ACK: &[u8] = b"ACK sip:b@192.0.2.9 SIP/2.0\r
Via: SIP/2.0/UDP 192.0.2.1:5060;rport;branch=z9hG4bKi\r
Max-Forwards: 70\r
From: <sip:a@192.0.2.1>;tag=l1\r
To: \"B\" <sip:b@192.0.2.9>;tag=x\r
Call-ID: c2\r
CSeq: 5 ACK\r
Route: <sip:p1;lr>\r
Route: <sip:p2;lr>\r
Content-Length: 0\r
\r
";

const CANCEL: &[u8] = b"CANCEL sip:b@192.0.2.9 SIP/2.0\r
Via: SIP/2.0/UDP 192.0.2.1:5060;rport;branch=z9hG4bKi\r
Max-Forwards: 70\r
From: <sip:a@192.0.2.1>;tag=l1\r
To: \"B\" <sip:b@192.0.2.9>\r
Call-ID: c2\r
CSeq: 5 CANCEL\r
Route: <sip:p1;lr>\r
Route: <sip:p2;lr>\r
Content-Length: 0\r
\r
";

/// A request whose sender asks for `rport`.
const ASKING: &[u8] = b"OPTIONS sip:192.0.2.1 SIP/2.0\r
Via: SIP/2.0/UDP 10.0.0.1;rport;branch=z9hG4bKa1\r
From: <sip:a@192.0.2.9>;tag=f1\r
To: <sip:192.0.2.1>\r
Call-ID: c1\r
CSeq: 7 OPTIONS\r
Content-Length: 0\r
\r
";

const STAMPED: &[u8] = b"OPTIONS sip:192.0.2.1 SIP/2.0\r
Via: SIP/2.0/UDP 10.0.0.1;rport=7000;branch=z9hG4bKa1;received=192.0.2.9\r
From: <sip:a@192.0.2.9>;tag=f1\r
To: <sip:192.0.2.1>\r
Call-ID: c1\r
CSeq: 7 OPTIONS\r
Content-Length: 0\r
\r
";

/// The address that it comes from.
const SOURCE: Addr = Addr {
    ip: [192, 0, 2, 9],
    port: 7000,
};

// Checks that a message has this text.
pub fn is_written(alloc: Global, message: &Message, text: &[u8]) -> Result<(), Stop> {
    check(write(alloc, message)?.as_slice() == text)
}

pub fn headers_in_their_order(alloc: Global) -> Result<(), Stop> {
    are_in_order(alloc, &message(alloc, SCRAMBLED)?)
}

fn are_in_order(alloc: Global, request: &Message) -> Result<(), Stop> {
    check(has_fields(request) && are_kept(request.others.as_slice()))?;
    is_written(alloc, request, WRITTEN)
}

// Whether the headers with compact names that have their own fields were read.
fn has_fields(request: &Message) -> bool {
    match (
        request.vias.as_slice(),
        request.contacts.as_slice(),
        request.supported.as_slice(),
    ) {
        ([via, _], [contact], [_, option]) => {
            via.branch() == b"z9hG4bKi".as_slice()
                && request.from.uri.as_slice() == b"sip:a@192.0.2.1".as_slice()
                && request.from.tag() == b"l1".as_slice()
                && request.to.uri.as_slice() == b"sip:b@192.0.2.9".as_slice()
                && request.call_id.as_slice() == b"c2".as_slice()
                && contact.uri.as_slice() == b"sip:a@192.0.2.1".as_slice()
                && option.as_slice() == b"z".as_slice()
                && request.body.as_slice() == b"ab".as_slice()
        }
        _ => false,
    }
}

// Whether the compact name has become the long one.
fn are_kept(headers: &[Header]) -> bool {
    for (header, (name, value)) in headers.iter().zip(KEPT) {
        if header.name.as_slice() != name || header.value.as_slice() != value {
            return false;
        }
    }
    headers.len() == KEPT.len()
}

pub fn a_copy(alloc: Global) -> Result<(), Stop> {
    is_copied(alloc, &message(alloc, SCRAMBLED)?)
}

fn is_copied(alloc: Global, request: &Message) -> Result<(), Stop> {
    is_written(alloc, &request.clone()?, WRITTEN)
}

pub fn a_response(alloc: Global) -> Result<(), Stop> {
    is_answered(alloc, &message(alloc, OPTIONS)?)
}

fn is_answered(alloc: Global, request: &Message) -> Result<(), Stop> {
    answers(alloc, request, &token(alloc, TAG)?)
}

fn answers(alloc: Global, request: &Message, tag: &Token) -> Result<(), Stop> {
    is_written(alloc, &success_to(alloc, request, tag)?, OK)
}

pub fn an_ack_of_a_rejection(alloc: Global) -> Result<(), Stop> {
    is_rejected(alloc, &message(alloc, SCRAMBLED)?)
}

fn is_rejected(alloc: Global, request: &Message) -> Result<(), Stop> {
    is_acknowledged(alloc, request, &message(alloc, REJECTION)?)
}

fn is_acknowledged(alloc: Global, request: &Message, response: &Message) -> Result<(), Stop> {
    is_written(alloc, &ack_for(alloc, request, response)?, ACK)
}

pub fn a_cancel(alloc: Global) -> Result<(), Stop> {
    is_cancelled(alloc, &message(alloc, SCRAMBLED)?)
}

fn is_cancelled(alloc: Global, request: &Message) -> Result<(), Stop> {
    is_written(alloc, &cancel_for(alloc, request)?, CANCEL)
}

pub fn the_source_is_noted(alloc: Global) -> Result<(), Stop> {
    is_stamped(alloc, &mut message(alloc, ASKING)?)
}

// If memory runs out, the request stays as it is.
fn is_stamped(alloc: Global, request: &mut Message) -> Result<(), Stop> {
    let address = match stamp_source(alloc, request, SOURCE) {
        Ok(address) => address,
        Err(AllocError) => {
            is_written(alloc, request, ASKING)?;
            stamp_source(alloc, request, SOURCE)?
        }
    };
    check(address == SOURCE)?;
    is_written(alloc, request, STAMPED)
}

// A branch is compared whatever its case, and a response has the key of its client.
pub fn keys(alloc: Global) -> Result<(), Stop> {
    check(key_in(alloc, OPTIONS)? == asked_key(alloc)?)?;
    check(key_in(alloc, REJECTION)? == rejected_key(alloc)?)
}

fn asked_key(alloc: Global) -> Result<SharedKey, Stop> {
    let method = token(alloc, b"OPTIONS")?;
    Ok(Key::server(alloc, b"Z9HG4BKA1", b"192.0.2.9", 5060, method)?)
}

fn rejected_key(alloc: Global) -> Result<SharedKey, Stop> {
    Ok(Key::client(alloc, b"z9hG4bKi", token(alloc, b"INVITE")?)?)
}

// 97 and 98 are 195, which is 6 more than 27 times 7.
pub fn names_are_cut() -> Result<(), Stop> {
    check(
        Spread.shard(b"ab", 7) == 6
            && Spread.shard(b"", 7) == 0
            && First.shard(b"ab", 7) == 0
            && First.shard(b"", 7) == 0,
    )
}

pub fn a_content_of_the_user(alloc: Global) -> Result<(), Stop> {
    let content = content_of(alloc, &message(alloc, GIVEN)?)?;
    let made = message(alloc, OPTIONS)?.with_content(alloc, content)?;
    check(write(alloc, &made)?.as_slice() == WITH_CONTENT)
}

// The headers of a message that a content may have, with the message's body.
fn content_of(alloc: Global, given: &Message) -> Result<Content, Stop> {
    let headers = ContentHeaders {
        contacts: given.contacts.clone()?,
        supported: given.supported.clone()?,
        require: given.require.clone()?,
        others: given.others.clone()?,
    };
    Ok(Content::new(alloc, headers, given.body.clone()?)?)
}
