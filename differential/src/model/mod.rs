//! The scope (docs/SCOPE.md) in plain Rust, written from its words and not from ion-rust's code. It stands where the proved library
//! will: held against the Rust, it shows where the scope and the Rust differ. It also gives the answers for which
//! ion-rust has no code, the distance.

pub mod calendar;
pub mod fields;
pub mod writing;

use crate::calls::*;
use crate::padded_reader;
use crate::reader;
use crate::refusals::SHORT_BUFFER;
use crate::reports;
use crate::scans;
use crate::text_reader;
use fields::{number_and_pair, of_build, of_word, packed};
use std::cmp::Ordering;

pub struct Model;

impl Model {
    fn contents(&self, file: &[u8]) -> scans::Contents {
        scans::contents(file, scans::layout(file), |input, layout| self.read_scan(input, layout))
    }
}

/// The packed check.
pub fn check(pair: Pair) -> Built {
    fields::check(pair)
}

/// What a call of an accepted timestamp answers, or the check's number.
fn on_one<T>(pair: Pair, call: impl FnOnce(&fields::Fields) -> T) -> Result<T, u32> {
    match check(pair).number {
        0 => Ok(call(&of_word(pair))),
        number => Err(number),
    }
}

fn on_two<T>(first: Pair, second: Pair, call: impl FnOnce() -> T) -> Result<T, u32> {
    on_one(first, |_| ())?;
    on_one(second, |_| ())?;
    Ok(call())
}

/// Attoseconds from 0000-01-01T00:00 UTC, of an accepted timestamp.
pub fn count(pair: Pair) -> i128 {
    let fields = of_word(pair);
    let minutes = calendar::minutes(fields.time) - fields.offset.unwrap_or(0) as i64;
    (minutes * 60 + fields.second as i64) as i128 * fields::SECOND as i128 + fields.attoseconds as i128
}

/// The distance of two accepted timestamps.
pub fn distance(first: Pair, second: Pair) -> Distance {
    let difference = count(first) - count(second);
    let size = difference.unsigned_abs();
    Distance {
        number: 0,
        sign: difference.signum() as i32,
        seconds: (size / fields::SECOND) as u64,
        attoseconds: (size % fields::SECOND) as u64,
    }
}

fn utc_form(fields: &fields::Fields) -> Pair {
    let time = match fields.offset {
        None => Some(fields.time),
        Some(offset) => calendar::shifted(fields.time, -offset),
    };
    let time = time.expect("an accepted timestamp's UTC year is 0 to 10000");
    packed(&fields::Fields { time, offset: None, ..*fields })
}

fn ordered(order: Result<Ordering, u32>) -> Ordered {
    match order {
        Ok(order) => Ordered { number: 0, order: order as i32 },
        Err(number) => Ordered { number, order: 0 },
    }
}

fn compared(equal: Result<bool, u32>) -> Compared {
    match equal {
        Ok(equal) => Compared { number: 0, equal },
        Err(number) => Compared { number, equal: false },
    }
}

/// Writes the bytes, or refuses with 16 where there is no room.
fn put(bytes: &[u8], buffer: &mut [u8]) -> Written {
    if bytes.len() > buffer.len() {
        return Written { number: SHORT_BUFFER, written: 0 };
    }
    buffer[..bytes.len()].copy_from_slice(bytes);
    Written { number: 0, written: bytes.len() }
}

fn put_or_refuse(bytes: Result<Vec<u8>, u32>, buffer: &mut [u8]) -> Written {
    match bytes {
        Ok(bytes) => put(&bytes, buffer),
        Err(number) => Written { number, written: 0 },
    }
}

fn read_fields(pair: Pair, fields: &fields::Fields) -> Fields {
    Fields {
        number: 0,
        year: fields.time.year,
        month: fields.time.month,
        day: fields.time.day,
        hour: fields.time.hour,
        minute: fields.time.minute,
        second: fields.second,
        precision: fields.precision,
        digits: fields.digits as u32,
        offset: fields.offset,
        milliseconds: (pair.attoseconds / 10u64.pow(15)) as u32,
        microseconds: (pair.attoseconds / 10u64.pow(12)) as u32,
        nanoseconds: (pair.attoseconds / 10u64.pow(9)) as u32,
        attoseconds: pair.attoseconds,
        coefficient: pair.attoseconds / 10u64.pow(18 - fields.digits as u32),
        exponent: -(fields.digits as i64),
    }
}

impl Library for Model {
    fn name(&self) -> &'static str {
        "the scope"
    }

    fn build(&self, build: &Build) -> Built {
        number_and_pair(&of_build(build))
    }

    fn check(&self, pair: Pair) -> Built {
        check(pair)
    }

    fn to_utc(&self, pair: Pair) -> Built {
        match on_one(pair, utc_form) {
            Ok(pair) => Built { number: 0, pair },
            Err(number) => Built { number, pair: Pair::NONE },
        }
    }

    fn fields(&self, pair: Pair) -> Option<Fields> {
        let fields = on_one(pair, |fields| read_fields(pair, fields));
        Some(fields.unwrap_or_else(|number| Fields { number, ..Fields::default() }))
    }

    fn cmp(&self, first: Pair, second: Pair) -> Ordered {
        ordered(on_two(first, second, || count(first).cmp(&count(second))))
    }

    fn eq(&self, first: Pair, second: Pair) -> Compared {
        compared(on_two(first, second, || count(first) == count(second)))
    }

    fn ion_cmp(&self, first: Pair, second: Pair) -> Ordered {
        let key = |pair: Pair| (pair.word, pair.attoseconds);
        ordered(on_two(first, second, || key(first).cmp(&key(second))))
    }

    fn ion_eq(&self, first: Pair, second: Pair) -> Compared {
        compared(on_two(first, second, || first == second))
    }

    fn distance(&self, first: Pair, second: Pair) -> Distance {
        let refused = |number| Distance { number, sign: 0, seconds: 0, attoseconds: 0 };
        on_two(first, second, || distance(first, second)).unwrap_or_else(refused)
    }

    fn text(&self, pair: Pair, buffer: &mut [u8]) -> Written {
        put_or_refuse(on_one(pair, writing::text), buffer)
    }

    fn value(&self, pair: Pair, buffer: &mut [u8]) -> Written {
        put_or_refuse(on_one(pair, |fields| writing::value(&utc_and(fields))), buffer)
    }

    fn body(&self, pair: Pair, buffer: &mut [u8]) -> Option<Written> {
        Some(put_or_refuse(on_one(pair, |fields| writing::body(&utc_and(fields))), buffer))
    }

    fn read(&self, input: &[u8]) -> Read {
        reader::read(input, |pair| on_one(pair, |fields| writing::body(&utc_and(fields))).ok())
    }

    fn read_padded(&self, input: &[u8]) -> Read {
        let made = |(build, taken)| padded_reader::made(self.build(&build), taken);
        padded_reader::fields_of(input).map_or_else(|refused| refused, made)
    }

    fn read_text(&self, input: &[u8]) -> Built {
        text_reader::fields_of(input).map_or_else(|refused| refused, |build| self.build(&build))
    }

    fn layout(&self, file: &[u8]) -> Layout {
        scans::layout(file)
    }

    fn read_scan(&self, input: &[u8], layout: Layout) -> ScanRead {
        scans::read(input, layout, |value| self.read(value))
    }

    fn write_start(&self, buffer: &mut [u8], at: usize) -> Written {
        put(&scans::START, buffer.get_mut(at..).unwrap_or_default())
    }

    fn write_scan(&self, scan: Scan, buffer: &mut [u8], at: usize) -> Written {
        let bytes = on_one(scan.pair, |fields| {
            let numbers = [scan.site, scan.tag, scan.guard].map(|number| writing::var_uint(number as u64));
            [numbers.concat(), writing::value(&utc_and(fields))].concat()
        });
        // Past the end there is no room for any scan.
        put_or_refuse(bytes, buffer.get_mut(at..).unwrap_or_default())
    }

    fn check_file(&self, file: &[u8]) -> FileRead {
        self.contents(file).checked()
    }

    fn report_file(&self, file: &[u8], w: u32, g: u32, words: &mut [u64]) -> Report {
        reports::answer(w, g, words, || self.contents(file))
    }

    fn write_var_uint(&self, value: u64, buffer: &mut [u8]) -> Option<Written> {
        Some(put(&writing::var_uint(value), buffer))
    }

    fn write_var_int(&self, value: i64, buffer: &mut [u8]) -> Option<Written> {
        Some(put(&writing::var_int(value < 0, value.unsigned_abs()), buffer))
    }

    fn write_zero_padded(&self, value: u64, width: usize, buffer: &mut [u8]) -> Option<Written> {
        Some(put(format!("{value:0width$}").as_bytes(), buffer))
    }

    fn add_offset_to_utc(&self, time: DateTime, offset: i32) -> Option<DateTime> {
        calendar::shifted(time, offset)
    }

    fn days_in_month(&self, year: u32, month: u32) -> u32 {
        calendar::days_in_month(year, month)
    }

    fn year_start(&self, year: u32) -> u64 {
        calendar::year_start(year)
    }
}

/// The fields in UTC beside the offset, as a value's body has them.
pub fn utc_and(fields: &fields::Fields) -> fields::Fields {
    fields::Fields { offset: fields.offset, ..of_word(utc_form(fields)) }
}
