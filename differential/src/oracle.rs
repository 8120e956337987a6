//! The Rust's answers, on plain numbers and bytes. A call on timestamps first makes them from their pairs by
//! `try_from_bits`, the Rust's own check, the first pair before the second. Every call is caught if it panics.

use crate::binary::timestamp::TimestampBinaryEncoder;
use crate::binary::var_int::VarInt;
use crate::binary::var_uint::VarUInt;
use crate::calls::{Build, DateTime, Fields, Fraction, Layout, Offset, Pair, Scan, Stage};
use crate::decimal::{Coefficient, Sign};
use crate::ion_data::{IonDataOrd, IonEq};
use crate::refusals::number_of_text;
use crate::result::{IonError, IonResult};
use crate::scans::START;
use crate::text::text_formatter;
use crate::types::timestamp::{opened, HasDay, HasSeconds, SupportsOffset, TimestampBuilder};
use crate::{Decimal, Timestamp};
use std::cell::Cell;
use std::cmp::Ordering;
use std::panic::{catch_unwind, AssertUnwindSafe};
use std::sync::Once;

#[derive(Clone, PartialEq, Eq, Debug)]
pub enum Answer<T> {
    Accepted(T),
    Refused(u32),
    /// An error whose text has no number.
    Unlisted(String),
    Panicked(String),
}

thread_local! {
    static IN_RUST: Cell<bool> = const { Cell::new(false) };
}

/// Keeps panics of the Rust, which are answers here, from being printed.
pub fn silence_panics() {
    static ONCE: Once = Once::new();
    ONCE.call_once(|| {
        let print = std::panic::take_hook();
        std::panic::set_hook(Box::new(move |info| {
            if !IN_RUST.get() {
                print(info);
            }
        }));
    });
}

/// An error, and the year that was given.
struct Refusal {
    year: u32,
    error: IonError,
}

impl<T> From<Refusal> for Answer<T> {
    fn from(refusal: Refusal) -> Self {
        let number = match &refusal.error {
            IonError::IllegalOperation(error) => number_of_text(error.operation(), refusal.year),
            _ => None,
        };
        match number {
            Some(number) => Answer::Refused(number),
            None => Answer::Unlisted(refusal.error.to_string()),
        }
    }
}

fn caught<T>(call: impl FnOnce() -> Result<T, Refusal>) -> Answer<T> {
    IN_RUST.set(true);
    let result = catch_unwind(AssertUnwindSafe(call));
    IN_RUST.set(false);
    match result {
        Ok(Ok(value)) => Answer::Accepted(value),
        Ok(Err(refusal)) => refusal.into(),
        Err(payload) => {
            let text = payload.downcast_ref::<&str>().map(|text| text.to_string());
            Answer::Panicked(text.or(payload.downcast_ref::<String>().cloned()).unwrap_or_default())
        }
    }
}

/// A call in which no year is given.
fn caught_part<T>(call: impl FnOnce() -> IonResult<T>) -> Answer<T> {
    caught(|| call().map_err(|error| Refusal { year: 0, error }))
}

pub(crate) fn pair_of(stamp: &Timestamp) -> Pair {
    let (word, attoseconds) = stamp.to_bits();
    Pair { word, attoseconds }
}

fn stamp_of(pair: Pair) -> Result<Timestamp, Refusal> {
    let year = (pair.word >> 50) as u32;
    Timestamp::try_from_bits(pair.word, pair.attoseconds).map_err(|error| Refusal { year, error })
}

fn on_one<T>(pair: Pair, call: impl FnOnce(&Timestamp) -> IonResult<T>) -> Answer<T> {
    caught(|| {
        let stamp = stamp_of(pair)?;
        let year = stamp.year();
        call(&stamp).map_err(|error| Refusal { year, error })
    })
}

fn on_two<T>(first: Pair, second: Pair, call: impl FnOnce(&Timestamp, &Timestamp) -> T) -> Answer<T> {
    caught(|| {
        let first = stamp_of(first)?;
        Ok(call(&first, &stamp_of(second)?))
    })
}

// ---- building

fn day_stage(build: &Build) -> TimestampBuilder<HasDay> {
    let year = Timestamp::with_year(build.year);
    let month = match build.month0 {
        true => year.with_month0(build.month),
        false => year.with_month(build.month),
    };
    match build.day0 {
        true => month.with_day0(build.day),
        false => month.with_day(build.day),
    }
}

fn fraction_decimal(negative: bool, coefficient: u64, exponent: i64) -> Decimal {
    let sign = if negative { Sign::Negative } else { Sign::Positive };
    Decimal::new(Coefficient::from_sign_and_value(sign, coefficient), exponent)
}

fn with_fraction(seconds: TimestampBuilder<HasSeconds>, build: &Build) -> IonResult<Timestamp> {
    match build.fraction {
        Fraction::None => finish(seconds, build.offset),
        Fraction::Milliseconds(n) => finish(seconds.with_milliseconds(n), build.offset),
        Fraction::Microseconds(n) => finish(seconds.with_microseconds(n), build.offset),
        Fraction::Nanoseconds(n) => finish(seconds.with_nanoseconds(n), build.offset),
        Fraction::NanosecondsTo { nanoseconds, digits } => {
            finish(seconds.with_nanoseconds_and_precision(nanoseconds, digits), build.offset)
        }
        Fraction::Decimal { negative, coefficient, exponent } => {
            let fraction = fraction_decimal(negative, coefficient, exponent);
            finish(seconds.with_fractional_seconds(fraction), build.offset)
        }
    }
}

pub(crate) fn finish<S: SupportsOffset>(builder: TimestampBuilder<S>, offset: Offset) -> IonResult<Timestamp> {
    match offset {
        Offset::None => builder.build(),
        Offset::Local(minutes) => builder.with_offset(minutes).build(),
        Offset::Utc(minutes) => builder.localize_to_offset(minutes).build(),
    }
}

/// The timestamp of a staged field set, not caught.
pub(crate) fn build_stamp(build: &Build) -> IonResult<Timestamp> {
    let year = Timestamp::with_year(build.year);
    match build.stage {
        Stage::Year => year.build(),
        Stage::Month if build.month0 => year.with_month0(build.month).build(),
        Stage::Month => year.with_month(build.month).build(),
        Stage::Day => day_stage(build).build(),
        Stage::Hour => finish(day_stage(build).with_hour(build.hour), build.offset),
        Stage::Minute | Stage::Second => {
            let day = day_stage(build);
            let minute = match build.hour_and_minute {
                true => day.with_hour_and_minute(build.hour, build.minute),
                false => day.with_hour(build.hour).with_minute(build.minute),
            };
            match build.stage {
                Stage::Minute => finish(minute, build.offset),
                _ => with_fraction(minute.with_second(build.second), build),
            }
        }
    }
}

pub fn build(build: &Build) -> Answer<Pair> {
    caught(|| match build_stamp(build) {
        Ok(stamp) => Ok(pair_of(&stamp)),
        Err(error) => Err(Refusal { year: build.year, error }),
    })
}

// ---- one timestamp

pub fn check(pair: Pair) -> Answer<Pair> {
    on_one(pair, |stamp| Ok(pair_of(stamp)))
}

pub fn to_utc(pair: Pair) -> Answer<Pair> {
    on_one(pair, |stamp| Ok(pair_of(&stamp.to_utc())))
}

/// The coefficient and the exponent of a fraction.
fn decimal_parts(fraction: Decimal) -> (u64, i64) {
    let magnitude = fraction.coefficient().magnitude().as_u128().expect("a fraction's coefficient fits");
    (magnitude as u64, fraction.exponent())
}

pub fn fields(pair: Pair) -> Answer<Fields> {
    on_one(pair, |stamp| {
        let (coefficient, exponent) = stamp.fractional_seconds_as_decimal().map_or((0, 0), decimal_parts);
        Ok(Fields {
            number: 0,
            year: stamp.year(),
            month: stamp.month(),
            day: stamp.day(),
            hour: stamp.hour(),
            minute: stamp.minute(),
            second: stamp.second(),
            precision: stamp.precision() as u32,
            digits: stamp.fractional_seconds_scale().unwrap_or(0) as u32,
            offset: stamp.offset(),
            milliseconds: stamp.milliseconds(),
            microseconds: stamp.microseconds(),
            nanoseconds: stamp.nanoseconds(),
            attoseconds: stamp.attoseconds(),
            coefficient,
            exponent,
        })
    })
}

pub fn text(pair: Pair) -> Answer<Vec<u8>> {
    on_one(pair, |stamp| {
        let mut text = String::new();
        stamp.format(&mut text)?;
        Ok(text.into_bytes())
    })
}

/// The bytes of a writer, whose count must be theirs.
fn written(write: impl FnOnce(&mut Vec<u8>) -> IonResult<usize>) -> IonResult<Vec<u8>> {
    let mut bytes = Vec::new();
    let count = write(&mut bytes)?;
    assert_eq!(count, bytes.len(), "the writer's count");
    Ok(bytes)
}

pub fn body(pair: Pair) -> Answer<Vec<u8>> {
    on_one(pair, |stamp| written(|bytes| bytes.encode_timestamp(stamp)))
}

pub fn value(pair: Pair) -> Answer<Vec<u8>> {
    on_one(pair, |stamp| written(|bytes| bytes.encode_timestamp_value(stamp)))
}

/// The Rust's writers one after another: VarUInts, of which the old layout has none for the site, and a value.
pub fn scan(scan: Scan, layout: Layout) -> Answer<Vec<u8>> {
    let numbers = [scan.site, scan.tag, scan.guard];
    let numbers = match layout {
        Layout::Old => &numbers[1..],
        Layout::New => &numbers[..],
    };
    on_one(scan.pair, |stamp| {
        written(|bytes| {
            let mut count = 0;
            for number in numbers {
                count += VarUInt::write_u64(bytes, *number as u64)?;
            }
            Ok(count + bytes.encode_timestamp_value(stamp)?)
        })
    })
}

/// Accepted scans one after another, as a file of that layout has them after its start.
pub fn scans(scans: &[Scan], layout: Layout) -> Vec<u8> {
    let bytes = |each: &Scan| match scan(*each, layout) {
        Answer::Accepted(bytes) => bytes,
        other => panic!("{each:?}: {other:?}"),
    };
    scans.iter().flat_map(bytes).collect()
}

/// A file of accepted scans, in the only layout that is written.
pub fn file(scans: &[Scan]) -> Vec<u8> {
    [&START[..], &self::scans(scans, Layout::New)].concat()
}

/// A file that may be an old one, in which nothing stands for the sites.
pub fn file_in(layout: Layout, scans: &[Scan]) -> Vec<u8> {
    match layout {
        Layout::Old => self::scans(scans, Layout::Old),
        Layout::New => file(scans),
    }
}

// ---- two timestamps

fn order_number(order: Ordering) -> i32 {
    order as i32
}

pub fn cmp(first: Pair, second: Pair) -> Answer<i32> {
    on_two(first, second, |first, second| order_number(first.cmp(second)))
}

pub fn eq(first: Pair, second: Pair) -> Answer<bool> {
    on_two(first, second, |first, second| first == second)
}

pub fn ion_cmp(first: Pair, second: Pair) -> Answer<i32> {
    on_two(first, second, |first, second| order_number(first.ion_cmp(second)))
}

pub fn ion_eq(first: Pair, second: Pair) -> Answer<bool> {
    on_two(first, second, |first, second| first.ion_eq(second))
}

/// The order of the UTC forms of two pairs, which the Rust gives for the years 0 and 10000 too.
pub fn cmp_utc_forms(first: Pair, second: Pair) -> Answer<i32> {
    on_two(first, second, |first, second| order_number(first.to_utc().cmp(&second.to_utc())))
}

// ---- parts

pub fn write_var_uint(value: u64) -> Answer<Vec<u8>> {
    caught_part(|| written(|bytes| VarUInt::write_u64(bytes, value)))
}

pub fn write_var_int(value: i64) -> Answer<Vec<u8>> {
    caught_part(|| written(|bytes| VarInt::write_i64(bytes, value)))
}

pub fn write_zero_padded(value: u64, width: usize) -> Answer<Vec<u8>> {
    caught_part(|| {
        let mut text = String::new();
        text_formatter::write_zero_padded(&mut text, value, width)?;
        Ok(text.into_bytes())
    })
}

/// The fields must fit the Rust's widths.
pub fn add_offset_to_utc(time: DateTime, offset: i32) -> Answer<DateTime> {
    caught_part(|| {
        let (year, month, day, hour, minute) = opened::add_offset_to_utc(
            time.year as u16,
            time.month as u8,
            time.day as u8,
            time.hour as u8,
            time.minute as u8,
            offset as i16,
        );
        Ok(DateTime {
            year: year as u32,
            month: month as u32,
            day: day as u32,
            hour: hour as u32,
            minute: minute as u32,
        })
    })
}

/// None where year or month do not fit the Rust's widths.
pub fn days_in_month(year: u32, month: u32) -> Option<Answer<u32>> {
    let (year, month) = (year.try_into().ok()?, month.try_into().ok()?);
    Some(caught_part(|| Ok(opened::days_in_month(year, month) as u32)))
}
