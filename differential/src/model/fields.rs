//! Fields, the packed pair, and the checks 1 to 12 in the scope's order.

use super::calendar::{is_day, shifted};
use crate::calls::{Build, Built, DateTime, Fraction, Offset, Pair, Stage};
use crate::refusals as refused;

/// A second in attoseconds.
pub const SECOND: u128 = 1_000_000_000_000_000_000;

/// A timestamp's fields. The offset is in minutes; none is unknown.
#[derive(Clone, Copy, PartialEq, Eq, Debug)]
pub struct Fields {
    pub time: DateTime,
    pub second: u32,
    pub precision: u32,
    pub digits: u64,
    /// Above 2^64 - 1, and refused, only in a builder.
    pub attoseconds: u128,
    pub offset: Option<i32>,
    /// The fields are in UTC, and not yet local.
    pub in_utc: bool,
}

/// The fraction's attoseconds and digits; a decimal below zero counts as a whole second, which check 1 refuses.
fn fraction_of(fraction: Fraction) -> (u128, u64) {
    match fraction {
        Fraction::None => (0, 0),
        Fraction::Milliseconds(n) => (n as u128 * 10u128.pow(15), 3),
        Fraction::Microseconds(n) => (n as u128 * 10u128.pow(12), 6),
        Fraction::Nanoseconds(n) => (n as u128 * 10u128.pow(9), 9),
        Fraction::NanosecondsTo { nanoseconds, digits } => {
            (cut(nanoseconds as u128 * 10u128.pow(9), digits as u64), digits as u64)
        }
        Fraction::Decimal { negative, coefficient, exponent } => {
            let digits = exponent.min(0).unsigned_abs();
            if coefficient > 0 && (negative || exponent >= 0) {
                return (SECOND, digits);
            }
            (scaled(coefficient as u128, digits), digits)
        }
    }
}

/// The coefficient, with that many of its digits after the point, in whole attoseconds.
fn scaled(coefficient: u128, digits: u64) -> u128 {
    match digits {
        0..=18 => coefficient * 10u128.pow(18 - digits as u32),
        19..=38 => coefficient / 10u128.pow(digits as u32 - 18),
        // Nothing is left of 64 bits.
        _ => 0,
    }
}

/// Attoseconds cut toward zero to that many digits.
fn cut(attoseconds: u128, digits: u64) -> u128 {
    let unit = 10u128.pow(18u64.saturating_sub(digits) as u32);
    attoseconds / unit * unit
}

/// The builder's fields: the first value of each that is not given. The largest number counted from 0 stays.
pub fn of_build(build: &Build) -> Fields {
    let given = |stage: Stage, value: u32, first: u32| if build.stage >= stage { value } else { first };
    let counted = |from_zero: bool, value: u32| if from_zero { value.saturating_add(1) } else { value };
    let (attoseconds, digits) = fraction_of(build.fraction);
    Fields {
        time: DateTime {
            year: build.year,
            month: given(Stage::Month, counted(build.month0, build.month), 1),
            day: given(Stage::Day, counted(build.day0, build.day), 1),
            hour: given(Stage::Hour, build.hour, 0),
            minute: given(Stage::Minute, build.minute, 0),
        },
        second: given(Stage::Second, build.second, 0),
        precision: match build.stage {
            Stage::Year => 0,
            Stage::Month => 1,
            Stage::Day => 2,
            Stage::Hour | Stage::Minute => 3,
            Stage::Second => 4,
        },
        digits,
        attoseconds,
        offset: match build.offset {
            Offset::None => None,
            Offset::Local(minutes) | Offset::Utc(minutes) => Some(minutes),
        },
        in_utc: matches!(build.offset, Offset::Utc(_)),
    }
}

/// The number of the first check of 1 to 9 that fails, or 0.
fn first_of_ranges(fields: &Fields) -> u32 {
    let outside = fields.offset.is_some_and(|minutes| !(-1439..=1439).contains(&minutes));
    let checks = [
        (fields.attoseconds >= SECOND, refused::FRACTION),
        (fields.time.year > 9999, refused::YEAR),
        (fields.time.month > 12, refused::MONTH),
        (fields.time.day > 31, refused::DAY),
        (fields.time.hour > 23, refused::HOUR),
        (fields.time.minute > 59, refused::MINUTE),
        (fields.second > 59, refused::SECOND),
        (fields.digits > 18, refused::DIGITS),
        (outside, refused::OFFSET),
    ];
    let failing = checks.iter().find(|(fails, _)| *fails);
    failing.map_or(0, |(_, number)| *number)
}

/// The local fields, or the number of the first check that fails.
fn local(fields: &Fields) -> Result<Fields, u32> {
    let ranges = first_of_ranges(fields);
    if ranges != 0 {
        return Err(ranges);
    }
    let DateTime { year, month, day, .. } = fields.time;
    let no_day = fields.precision >= 1 && !is_day(year, month, day);
    if !fields.in_utc {
        return match (year, no_day) {
            (0, _) => Err(refused::LOCAL_YEAR),
            (_, true) => Err(refused::NO_DAY),
            _ => Ok(*fields),
        };
    }
    if no_day {
        return Err(refused::NO_DAY);
    }
    match shifted(fields.time, fields.offset.unwrap_or(0)) {
        Some(time) if (1..=9999).contains(&time.year) => Ok(Fields { time, in_utc: false, ..*fields }),
        _ => Err(refused::LOCAL_YEAR),
    }
}

pub fn number_and_pair(fields: &Fields) -> Built {
    match local(fields) {
        Ok(fields) => Built { number: 0, pair: packed(&fields) },
        Err(number) => Built { number, pair: Pair::NONE },
    }
}

/// The widths of the packed fields, high to low.
const WIDTHS: [u32; 10] = [14, 4, 5, 5, 6, 6, 3, 5, 12, 4];

pub fn packed(fields: &Fields) -> Pair {
    let values = [
        fields.time.year,
        fields.time.month,
        fields.time.day,
        fields.time.hour,
        fields.time.minute,
        fields.second,
        fields.precision,
        fields.digits as u32,
        fields.offset.map_or(0, |minutes| (minutes + 1440) as u32),
        0,
    ];
    let word = WIDTHS.iter().zip(values).fold(0, |word, (width, value)| {
        debug_assert!(value < 1 << width);
        word << width | value as u64
    });
    Pair { word, attoseconds: fields.attoseconds as u64 }
}

/// The word's ten fields as they stand, high to low.
pub fn unpacked(word: u64) -> [u32; 10] {
    let mut above = 0;
    WIDTHS.map(|width| {
        let value = word << above >> (64 - width);
        above += width;
        value as u32
    })
}

/// A word of such fields; only the low bits of each that its place has.
pub fn repacked(values: [u32; 10]) -> u64 {
    WIDTHS.iter().zip(values).fold(0, |word, (width, value)| word << width | value as u64 & ((1 << width) - 1))
}

/// The fields of an accepted pair, or of its UTC form.
pub fn of_word(pair: Pair) -> Fields {
    let [year, month, day, hour, minute, second, precision, digits, raw, _] = unpacked(pair.word);
    Fields {
        time: DateTime { year, month, day, hour, minute },
        second,
        precision,
        digits: digits as u64,
        attoseconds: pair.attoseconds as u128,
        offset: (raw != 0).then_some(raw as i32 - 1440),
        in_utc: false,
    }
}

/// The fields that the precision has, for the builder.
fn rebuilt(pair: Pair) -> Fields {
    let fields = of_word(pair);
    let precision = fields.precision.min(4);
    let has = |least: u32, value: u32, first: u32| if precision >= least { value } else { first };
    let with_fraction = precision == 4 && fields.digits > 0;
    Fields {
        time: DateTime {
            year: fields.time.year,
            month: has(1, fields.time.month, 1),
            day: has(2, fields.time.day, 1),
            hour: has(3, fields.time.hour, 0),
            minute: has(3, fields.time.minute, 0),
        },
        second: has(4, fields.second, 0),
        precision,
        digits: if with_fraction { fields.digits } else { 0 },
        attoseconds: if with_fraction { cut(fields.attoseconds, fields.digits) } else { 0 },
        offset: fields.offset.filter(|_| precision >= 3),
        in_utc: false,
    }
}

pub fn check(pair: Pair) -> Built {
    let refusal = |number| Built { number, pair: Pair::NONE };
    if of_word(pair).digits > 18 {
        return refusal(refused::DIGITS);
    }
    let built = number_and_pair(&rebuilt(pair));
    if built.number == 0 && built.pair != pair {
        return refusal(refused::PAIR);
    }
    built
}
