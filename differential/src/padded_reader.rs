//! The reader of a value in every form that the Ion specification allows, written from the scope's words and from the
//! specification's section "6: Timestamp". ion-rust's is not at hand, so the form is told here, and a builder says what
//! the fields of a form make.

use crate::calls::{Build, Built, DateTime, Fraction, Offset, Pair, Read, Stage};
use crate::model::calendar::{is_day, shifted};
use crate::refusals::{BODY, FIRST_BYTE, INPUT_ENDS};

/// The most bytes that a VarUInt or a VarInt has.
pub const LONGEST_NUMBER: usize = 10;
/// The most bytes that a body has.
pub const LONGEST_BODY: usize = 64;

/// The local fields of the value with which the input begins, and how many bytes it takes; or its refusal.
pub fn fields_of(input: &[u8]) -> Result<(Build, usize), Read> {
    let (body, taken) = body_of(input).map_err(refused)?;
    let build = local(body).ok_or(refused(BODY))?;
    Ok((build, taken))
}

/// What is read of so many bytes where a builder makes that of their fields: whatever it refuses is no timestamp's body.
pub fn made(built: Built, taken: usize) -> Read {
    match built.number {
        0 => Read { number: 0, pair: built.pair, taken },
        _ => refused(BODY),
    }
}

fn refused(number: u32) -> Read {
    Read { number, pair: Pair::NONE, taken: 0 }
}

/// The body of the value with which the input begins, and how many bytes the value takes.
fn body_of(input: &[u8]) -> Result<(&[u8], usize), u32> {
    let (length, rest) = match input {
        [] => return Err(INPUT_ENDS),
        [first @ 0x60..=0x6D, rest @ ..] => ((first - 0x60) as usize, rest),
        [0x6E, rest @ ..] => length(rest)?,
        _ => return Err(FIRST_BYTE),
    };
    let body = rest.get(..length).ok_or(INPUT_ENDS)?;
    Ok((body, input.len() - rest.len() + length))
}

/// A length, and what follows it.
fn length(bytes: &[u8]) -> Result<(usize, &[u8]), u32> {
    match var_uint(bytes) {
        None if bytes.len() < LONGEST_NUMBER => Err(INPUT_ENDS),
        Some((length, rest)) if length <= LONGEST_BODY as u128 => Ok((length as usize, rest)),
        _ => Err(BODY),
    }
}

/// The bytes of a number, the first ten at most, of which the last and no other has a mark; and what follows them.
fn number(bytes: &[u8]) -> Option<(&[u8], &[u8])> {
    let mark = bytes.iter().take(LONGEST_NUMBER).position(|byte| byte & 0x80 != 0)?;
    Some(bytes.split_at(mark + 1))
}

/// What bytes hold as digits to a base of 128 or 256, the first one highest. The mark is no part of a digit.
fn joined(bytes: &[u8], base: u128) -> u128 {
    bytes.iter().fold(0, |value, byte| value * base + *byte as u128 % base)
}

/// The bytes without a sign, which stands in the first of them.
fn without(sign: u8, bytes: &[u8]) -> Vec<u8> {
    [&[bytes[0] & !sign], &bytes[1..]].concat()
}

fn var_uint(bytes: &[u8]) -> Option<(u128, &[u8])> {
    let (number, rest) = number(bytes)?;
    Some((joined(number, 128), rest))
}

/// A sign, a magnitude, and what follows them.
fn var_int(bytes: &[u8]) -> Option<(bool, u128, &[u8])> {
    let (number, rest) = number(bytes)?;
    Some((number[0] & 0x40 != 0, joined(&without(0x40, number), 128), rest))
}

/// The local fields of a body.
fn local(body: &[u8]) -> Option<Build> {
    let (negative, minutes, mut rest) = var_int(body)?;
    let offset = match (negative, i32::try_from(minutes).ok()?) {
        (true, 0) => None,
        (true, minutes) => Some(-minutes),
        (false, minutes) => Some(minutes),
    };
    let mut fields = Vec::new();
    while !rest.is_empty() && fields.len() < 6 {
        let (field, after) = var_uint(rest)?;
        fields.push(u32::try_from(field).ok()?);
        rest = after;
    }
    let (stage, [year, month, day, hour, minute, second]) = match fields[..] {
        [year] => (Stage::Year, [year, 1, 1, 0, 0, 0]),
        [year, month] => (Stage::Month, [year, month, 1, 0, 0, 0]),
        [year, month, day] => (Stage::Day, [year, month, day, 0, 0, 0]),
        [year, month, day, hour, minute] => (Stage::Minute, [year, month, day, hour, minute, 0]),
        [year, month, day, hour, minute, second] => (Stage::Second, [year, month, day, hour, minute, second]),
        _ => return None,
    };
    // In later years there is no local year 9999.
    if year > 10_000 || !is_day(year, month, day) || hour > 23 || minute > 59 || second > 59 {
        return None;
    }
    let utc = DateTime { year, month, day, hour, minute };
    let (time, offset) = match offset {
        None => (utc, Offset::None),
        Some(minutes) if stage.takes_offset() => (shifted(utc, minutes)?, Offset::Local(minutes)),
        Some(_) => return None,
    };
    let DateTime { year, month, day, hour, minute } = time;
    let build = Build { stage, hour, minute, second, offset, ..Build::day(year, month, day) };
    // Only a second has bytes after it.
    Some(build.fraction(fraction(rest)?))
}

/// The fraction of what follows a second. More than 64 bits are a second at least, or have more digits than there may be;
/// an exponent of 99 stands for any larger one.
fn fraction(bytes: &[u8]) -> Option<Fraction> {
    if bytes.is_empty() {
        return Some(Fraction::None);
    }
    let (below_zero, digits, rest) = var_int(bytes)?;
    let exponent = if below_zero { -(digits.min(99) as i64) } else { digits.min(99) as i64 };
    let (negative, coefficient) = coefficient(rest)?;
    if coefficient == 0 && exponent >= 0 {
        return Some(Fraction::None);
    }
    Some(Fraction::Decimal { negative: negative && coefficient != 0, coefficient, exponent })
}

/// A sign and a magnitude, where 64 bits hold it. No bytes are zero.
fn coefficient(bytes: &[u8]) -> Option<(bool, u64)> {
    if bytes.is_empty() {
        return Some((false, 0));
    }
    let digits: Vec<u8> = without(0x80, bytes).into_iter().skip_while(|byte| *byte == 0).collect();
    (digits.len() <= 8).then(|| (bytes[0] & 0x80 != 0, joined(&digits, 256) as u64))
}
