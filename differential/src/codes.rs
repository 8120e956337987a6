//! The numbers for a staged field set's choices, shared by the recorded answers and the exported calls.

use crate::calls::{Build, Fraction, Offset, Stage};

/// 0 year, 1 month, 2 day, 3 hour alone, 4 hour and minute, 5 second.
pub fn stage(stage: Stage) -> u8 {
    stage as u8
}

pub fn stage_of(code: u8) -> Option<Stage> {
    Stage::ALL.get(code as usize).copied()
}

/// The sum of 1 for a month counted from 0, 2 for a day counted from 0, and 4 for hour and minute given by one call.
pub fn counting(build: &Build) -> u8 {
    build.month0 as u8 | (build.day0 as u8) << 1 | (build.hour_and_minute as u8) << 2
}

/// A kind and two numbers. 0: none. 1, 2, 3: milliseconds, microseconds, nanoseconds. 4: nanoseconds, and their
/// digits. 5 and, with a minus sign, 6: a decimal's coefficient, and its exponent in two's complement.
pub fn fraction(fraction: Fraction) -> (u8, u64, u64) {
    match fraction {
        Fraction::None => (0, 0, 0),
        Fraction::Milliseconds(n) => (1, n as u64, 0),
        Fraction::Microseconds(n) => (2, n as u64, 0),
        Fraction::Nanoseconds(n) => (3, n as u64, 0),
        Fraction::NanosecondsTo { nanoseconds, digits } => (4, nanoseconds as u64, digits as u64),
        Fraction::Decimal { negative, coefficient, exponent } => (5 + negative as u8, coefficient, exponent as u64),
    }
}

pub fn fraction_of(kind: u8, first: u64, second: u64) -> Option<Fraction> {
    Some(match kind {
        0 => Fraction::None,
        1 => Fraction::Milliseconds(first as u32),
        2 => Fraction::Microseconds(first as u32),
        3 => Fraction::Nanoseconds(first as u32),
        4 => Fraction::NanosecondsTo { nanoseconds: first as u32, digits: second as u32 },
        5 | 6 => Fraction::Decimal { negative: kind == 6, coefficient: first, exponent: second as i64 },
        _ => return None,
    })
}

/// A kind and the minutes. 0: none. 1: the fields are local. 2: they are in UTC.
pub fn offset(offset: Offset) -> (u8, i32) {
    match offset {
        Offset::None => (0, 0),
        Offset::Local(minutes) => (1, minutes),
        Offset::Utc(minutes) => (2, minutes),
    }
}

pub fn offset_of(kind: u8, minutes: i32) -> Option<Offset> {
    Some(match kind {
        0 => Offset::None,
        1 => Offset::Local(minutes),
        2 => Offset::Utc(minutes),
        _ => return None,
    })
}
