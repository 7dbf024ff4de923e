//! Numbers with seven digits, from which names are made.

use std::alloc::AllocError;

const DIGITS: usize = 7;

/// Adds the last seven digits of a number to a text.
///
/// # Errors
///
/// Memory ran out.
pub fn push_digits(text: &mut Vec<u8>, number: u64) -> Result<(), AllocError> {
    let mut digits = [b'0'; DIGITS];
    let mut rest = number;
    for digit in digits.iter_mut().rev() {
        *digit = b'0' + (rest % 10) as u8;
        rest /= 10;
    }
    text.extend_from_slice(&digits)
}
