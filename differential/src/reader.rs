//! The scope's reader of a value. ion-rust's is not at hand, so what a body must be is asked of a writer: a body is
//! taken for a pair, and accepted where that pair is accepted and its body is the same again.

use crate::calls::{DateTime, Pair, Read};
use crate::model::calendar::shifted;
use crate::model::fields::{packed, Fields};
use crate::refusals::{BODY, FIRST_BYTE, INPUT_ENDS};

/// The value with which the input begins. `body_of` gives the body of an accepted pair, and nothing for others.
pub fn read(input: &[u8], body_of: impl FnOnce(Pair) -> Option<Vec<u8>>) -> Read {
    let refused = |number| Read { number, pair: Pair::NONE, taken: 0 };
    let (header, length) = match input {
        [] => return refused(INPUT_ENDS),
        [0x60..=0x6D, ..] => (1, input[0] - 0x60),
        [0x6E] => return refused(INPUT_ENDS),
        [0x6E, 0x8E..=0x92, ..] => (2, input[1] - 0x80),
        [0x6E, ..] => return refused(BODY),
        _ => return refused(FIRST_BYTE),
    };
    let taken = header + length as usize;
    let Some(body) = input.get(header..taken) else {
        return refused(INPUT_ENDS);
    };
    match decoded(body) {
        Some(pair) if body_of(pair).as_deref() == Some(body) => Read { number: 0, pair, taken },
        _ => refused(BODY),
    }
}

/// The pair that a body is taken for. Any accepted pair's body gives that pair.
fn decoded(body: &[u8]) -> Option<Pair> {
    let (negative, magnitude, mut rest) = var_int(body)?;
    let offset = match (negative, magnitude as i32) {
        (true, 0) => None,
        (true, minutes) => Some(-minutes),
        (false, minutes) => Some(minutes),
    };
    let mut given = Vec::new();
    while !rest.is_empty() && given.len() < 6 {
        let (value, after) = var_uint(rest)?;
        given.push(value);
        rest = after;
    }
    let precision = match given.len() {
        count @ 1..=3 => count as u32 - 1,
        count @ 5..=6 => count as u32 - 2,
        _ => return None,
    };
    let (digits, coefficient) = fraction(rest)?;
    let field = |place: usize, first: u32| given.get(place).copied().unwrap_or(first);
    let utc =
        DateTime { year: field(0, 0), month: field(1, 1), day: field(2, 1), hour: field(3, 0), minute: field(4, 0) };
    let second = field(5, 0);
    if utc.year > 10_000 || utc.month > 12 || utc.day > 31 || utc.hour > 23 || utc.minute > 59 || second > 59 {
        return None;
    }
    let time = shifted(utc, offset.unwrap_or(0))?;
    let attoseconds = coefficient.checked_mul(10u64.pow(18 - digits))? as u128;
    let digits = digits as u64;
    Some(packed(&Fields { time, second, precision, digits, attoseconds, offset, in_utc: false }))
}

/// Digits and coefficient; none of either where there are no bytes.
fn fraction(bytes: &[u8]) -> Option<(u32, u64)> {
    match bytes {
        [] => Some((0, 0)),
        [exponent @ 0xC1..=0xD2, coefficient @ ..] if coefficient.len() <= 8 => {
            let coefficient = coefficient.iter().fold(0, |value, byte| value << 8 | *byte as u64);
            Some((*exponent as u32 - 0xC0, coefficient))
        }
        _ => None,
    }
}

/// A value of up to 14 bits, and what follows it.
fn var_uint(bytes: &[u8]) -> Option<(u32, &[u8])> {
    match bytes {
        [last @ 0x80..=0xFF, rest @ ..] => Some((*last as u32 - 0x80, rest)),
        [high, last @ 0x80..=0xFF, rest @ ..] => Some(((*high as u32) << 7 | (*last as u32 - 0x80), rest)),
        _ => None,
    }
}

/// A sign, a magnitude of up to 13 bits that an offset may have, and what follows it.
fn var_int(bytes: &[u8]) -> Option<(bool, u32, &[u8])> {
    let (value, rest) = var_uint(bytes)?;
    let length = bytes.len() - rest.len();
    let sign = 1 << (7 * length - 1);
    let magnitude = value & (sign - 1);
    (magnitude <= 1439).then_some((value & sign != 0, magnitude, rest))
}
