//! Texts, numbers and lists.

use crate::stop::{Stop, check};
use sip_text::{
    Boxed, ParameterText, Series, Text, TextFault, byte_order, decimal, lines, number_u32, params,
    split_values, token_eq, unfold,
};
use std::alloc::Global;
use std::cmp::Ordering;

pub fn a_fold_is_one_space(alloc: Global) -> Result<(), Stop> {
    check(unfold(alloc, b"a\r\n b")?.as_slice() == b"a b".as_slice())
}

// Once the last line has no end, and once it has one.
pub fn two_lines(alloc: Global) -> Result<(), Stop> {
    let found = lines(alloc, b"a\r\nb\n")?;
    check(found.as_slice() == [b"a".as_slice(), b"b".as_slice()].as_slice())
}

pub fn two_values(alloc: Global) -> Result<(), Stop> {
    check(matches!(split_values(alloc, b"\"x"), Err(TextFault::OpenQuote)))?;
    let values = split_values(alloc, b"<sip:a,b>, \"x,y\" <sip:c>")?;
    let wanted = [b"<sip:a,b>".as_slice(), b"\"x,y\" <sip:c>".as_slice()];
    check(values.as_slice() == wanted.as_slice())
}

pub fn two_parameters(alloc: Global) -> Result<(), Stop> {
    check(are_a_and_b(&params(alloc, b";a=1;B")?))
}

fn are_a_and_b(found: &[ParameterText<'_>]) -> bool {
    match found {
        [first, second] => {
            first.name == b"a".as_slice()
                && first.value == Some(b"1".as_slice())
                && second.name == b"B".as_slice()
                && second.value.is_none()
        }
        _ => false,
    }
}

pub fn numbers() -> Result<(), Stop> {
    check(
        number_u32(b"4294967295") == Ok(u32::MAX)
            && number_u32(b"4294967296") == Err(TextFault::NumberTooLarge)
            && number_u32(b"") == Err(TextFault::NotAToken)
            && decimal(0).as_slice() == b"0".as_slice()
            && decimal(u64::MAX).as_slice() == b"18446744073709551615".as_slice(),
    )
}

pub fn tokens_without_case() -> Result<(), Stop> {
    check(
        token_eq(b"z9hG4bKab", b"Z9HG4BKAB") && !token_eq(b"ab", b"ac") && !token_eq(b"ab", b"abc"),
    )
}

// A difference in the second word, a text that begins with the other, and equal texts.
pub fn texts_in_order() -> Result<(), Stop> {
    check(
        byte_order(b"z9hG4bK-ay", b"z9hG4bK-bx") == Ordering::Less
            && byte_order(b"z9hG4bK-ab", b"z9hG4bK-a") == Ordering::Greater
            && byte_order(b"z9hG4bK-ab", b"z9hG4bK-ab") == Ordering::Equal,
    )
}

pub fn a_text_grows(alloc: Global) -> Result<(), Stop> {
    grows(&mut Text::copy_of(alloc, b"ab")?)
}

// If memory runs out, the text stays as it is.
fn grows(text: &mut Text) -> Result<(), Stop> {
    if text.extend_from_slice(b"cd").is_err() {
        check(text.as_slice() == b"ab".as_slice())?;
        text.extend_from_slice(b"cd")?;
    }
    check(text.as_slice() == b"abcd".as_slice())
}

// If memory runs out, the list stays as it is.
pub fn a_series_grows(alloc: Global, series: &mut Series<u32>) -> Result<(), Stop> {
    if series.push(7).is_err() {
        check(series.is_empty())?;
        series.push(7)?;
    }
    check(series.first() == Some(Boxed::new(alloc, 7u32)?.get()))
}
