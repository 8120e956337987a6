//! One case of each kind: what the library answers, held against what the Rust's answer makes it owe.

use super::{Counted, Run};
use crate::calls::*;
use crate::cases::Cases;
use crate::differences::{self, Listed};
use crate::expected::{self, Expected};
use crate::model::calendar;
use crate::oracle::{self, Answer};
use crate::refusals::SHORT_BUFFER;
use std::fmt::Debug;

/// What stands in a lent buffer before a call: one in buffers of even length, the other in those of odd.
pub(super) const FILLS: [u8; 2] = [0xA5, 0x5A];

impl<L: Library> Run<'_, L> {
    pub fn judge<T: PartialEq + Debug>(
        &mut self,
        call: &'static str,
        case: impl FnOnce() -> String,
        expected: Expected<T>,
        answer: T,
    ) {
        self.answers += 1;
        match expected {
            Ok(expected) if expected == answer => {}
            Ok(expected) => self.fails(call, &case(), &format!("{expected:?}"), &format!("{answer:?}")),
            Err(why) => self.fails(call, &case(), &why, &format!("{answer:?}")),
        }
    }

    /// The same for a call that the library may not offer.
    fn judge_offered<T: PartialEq + Debug>(
        &mut self,
        call: &'static str,
        case: impl FnOnce() -> String,
        expected: Expected<T>,
        answer: Option<T>,
    ) {
        match answer {
            Some(answer) => self.judge(call, case, expected, answer),
            None => _ = self.not_offered.insert(call),
        }
    }

    /// A writer into a buffer with room to spare, and into one that is just long enough or just too short.
    fn writer(
        &mut self,
        call: &'static str,
        case: impl Fn() -> String,
        expected: Answer<Vec<u8>>,
        write: impl Fn(&L, &mut [u8]) -> Option<Written>,
    ) {
        let expected = expected::bytes(expected);
        let length = match &expected {
            Ok(Ok(bytes)) => bytes.len(),
            _ => 0,
        };
        let exact = length.saturating_sub(self.cases as usize % 2);
        for room in [length + 5, exact] {
            let fill = FILLS[room % 2];
            let mut buffer = vec![fill; room];
            let Some(answer) = write(self.library, &mut buffer) else {
                self.not_offered.insert(call);
                return;
            };
            self.count(Counted::Write, answer.number);
            let expected = expected.clone().map(|bytes| left_in(room, 0, fill, &bytes));
            let case = || format!("{} into {room} bytes", case());
            self.judge(call, case, expected, (answer, buffer));
        }
    }

    /// The order of UTC forms: where one has the year 0 or 10000, the check refuses it, and the Rust orders it.
    fn two_utc_forms(&mut self, first: Pair, second: Pair) {
        let (Answer::Accepted(first_utc), Answer::Accepted(second_utc)) =
            (oracle::to_utc(first), oracle::to_utc(second))
        else {
            return;
        };
        let case = || format!("{first_utc:?} and {second_utc:?}, UTC forms");
        let answer = self.library.cmp(first_utc, second_utc);
        let expected = expected::ordered(oracle::cmp(first_utc, second_utc));
        self.judge("cmp", case, expected, answer);
        let unchecked = oracle::cmp_utc_forms(first, second);
        if differences::outside_years(first_utc) || differences::outside_years(second_utc) {
            self.meets(Listed::OrderOfUtcForms);
        } else {
            self.judge("cmp", case, expected::ordered(unchecked), answer);
        }
    }
}

impl<L: Library> Cases for Run<'_, L> {
    fn build(&mut self, build: &Build) -> Option<Pair> {
        self.case();
        let rust = oracle::build(build);
        let accepted = match &rust {
            Answer::Accepted(pair) => Some(*pair),
            _ => None,
        };
        let expected = match differences::largest_from_zero(build) {
            None => rust,
            Some(read_as) => {
                let expected = oracle::build(&read_as);
                if expected != rust {
                    self.meets(Listed::LargestFromZero);
                }
                expected
            }
        };
        let answer = self.library.build(build);
        self.count(Counted::Build, answer.number);
        self.judge("build", || format!("{build:?}"), expected::built(expected), answer);
        accepted
    }

    /// All calls on one pair.
    fn pair(&mut self, pair: Pair) {
        self.case();
        let case = || format!("{pair:?}");
        let answer = self.library.check(pair);
        self.count(Counted::Check, answer.number);
        self.judge("check", case, expected::built(oracle::check(pair)), answer);
        let answer = self.library.to_utc(pair);
        self.judge("to_utc", case, expected::built(oracle::to_utc(pair)), answer);
        let answer = self.library.fields(pair);
        self.judge_offered("fields", case, expected::fields(oracle::fields(pair)), answer);
        let text = oracle::text(pair);
        self.writer("text", case, text.clone(), |library, buffer| Some(library.text(pair, buffer)));
        if let Answer::Accepted(text) = text {
            let answer = self.library.read_text(&text);
            self.judge("read of the text", case, Ok(Built { number: 0, pair }), answer);
        }
        let value = oracle::value(pair);
        self.writer("value", case, value.clone(), |library, buffer| Some(library.value(pair, buffer)));
        self.writer("body", case, oracle::body(pair), |library, buffer| library.body(pair, buffer));
        if let Answer::Accepted(value) = value {
            let taken = value.len();
            let expected = Read { number: 0, pair, taken };
            let answer = self.library.read(&value);
            self.judge("read of the value", case, Ok(expected), answer);
            let answer = self.library.read_padded(&value);
            self.judge("read_padded of the value", case, Ok(expected), answer);
        }
    }

    /// All calls on two pairs.
    fn two(&mut self, first: Pair, second: Pair) {
        self.case();
        let case = || format!("{first:?} and {second:?}");
        let library = self.library;
        let cmp = oracle::cmp(first, second);
        self.judge("cmp", case, expected::ordered(cmp), library.cmp(first, second));
        let eq = oracle::eq(first, second);
        self.judge("==", case, expected::compared(eq), library.eq(first, second));
        let ion_cmp = oracle::ion_cmp(first, second);
        self.judge("ion_cmp", case, expected::ordered(ion_cmp), library.ion_cmp(first, second));
        let ion_eq = oracle::ion_eq(first, second);
        self.judge("ion_eq", case, expected::compared(ion_eq), library.ion_eq(first, second));
        let distance = library.distance(first, second);
        self.judge("distance", case, expected::distance(first, second), distance);
        let sign = expected::ordered(oracle::cmp(first, second)).map(|ordered| ordered.order);
        self.judge("the distance's sign", case, sign, distance.sign);
        self.two_utc_forms(first, second);
    }

    fn read(&mut self, input: &[u8]) {
        self.case();
        let answer = self.library.read(input);
        self.count(Counted::Read, answer.number);
        self.judge("read", || format!("{input:02x?}"), Ok(expected::read(input)), answer);
        self.judge_alike(input, answer, self.library.read_padded(input));
    }

    fn read_padded(&mut self, input: &[u8]) {
        self.judge_padded(input);
    }

    fn read_form(&mut self, bytes: &[u8], owed: Result<Pair, u32>) {
        self.judge_form(bytes, owed);
    }

    fn read_text(&mut self, input: &[u8]) {
        self.case();
        let answer = self.library.read_text(input);
        self.count(Counted::ReadText, answer.number);
        let case = || String::from_utf8_lossy(input).escape_debug().to_string();
        self.judge("read text", case, expected::read_text(input), answer);
    }

    fn read_scan(&mut self, input: &[u8], layout: Layout) {
        self.judge_scan(input, layout);
    }

    fn write_scan(&mut self, scan: Scan) {
        self.judge_written_scan(scan);
    }

    fn write_start(&mut self, at: usize, room: usize) {
        self.judge_written_start(at, room);
    }

    fn file(&mut self, file: &[u8]) {
        self.judge_file(file);
    }

    fn report(&mut self, file: &[u8], w: u32, g: u32) {
        self.judge_report(file, w, g);
    }

    fn var_uint(&mut self, value: u64) {
        self.case();
        let case = || value.to_string();
        self.writer("write_var_uint", case, oracle::write_var_uint(value), |library, buffer| {
            library.write_var_uint(value, buffer)
        });
    }

    fn var_int(&mut self, value: i64) {
        self.case();
        let case = || value.to_string();
        self.writer("write_var_int", case, oracle::write_var_int(value), |library, buffer| {
            library.write_var_int(value, buffer)
        });
    }

    fn zero_padded(&mut self, value: u64, width: usize) {
        self.case();
        let case = || format!("{value} to {width} digits");
        let rust = oracle::write_zero_padded(value, width);
        self.writer("write_zero_padded", case, rust, |library, buffer| library.write_zero_padded(value, width, buffer));
    }

    fn shift(&mut self, time: DateTime, offset: i32) {
        self.case();
        let answer = self.library.add_offset_to_utc(time, offset);
        let expected = match oracle::add_offset_to_utc(time, offset) {
            Answer::Accepted(time) => Ok(time),
            other => Err(format!("{other:?}")),
        };
        let case = || format!("{time:?} by {offset}");
        self.judge_offered("add_offset_to_utc", case, expected, answer);
    }

    fn month_length(&mut self, year: u32, month: u32) {
        self.case();
        let rust = oracle::days_in_month(year, month);
        let expected = if differences::no_month_length(year, month) {
            if rust.is_some_and(|rust| rust != Answer::Accepted(0)) {
                self.meets(Listed::NoMonthLength);
            }
            Ok(0)
        } else {
            match rust {
                Some(Answer::Accepted(days)) => Ok(days),
                other => Err(format!("{other:?}")),
            }
        };
        let answer = self.library.days_in_month(year, month);
        self.judge("days_in_month", || format!("month {month} of year {year}"), expected, answer);
    }

    fn year_start(&mut self, year: u32) {
        self.case();
        self.judge("year_start", || year.to_string(), Ok(calendar::year_start(year)), self.library.year_start(year));
    }
}

/// A writer's answer, and what it leaves in a buffer of that many bytes: the output from a place on, among the old
/// bytes, or the old bytes alone.
pub(super) fn left_in(room: usize, at: usize, fill: u8, bytes: &Result<Vec<u8>, u32>) -> (Written, Vec<u8>) {
    let mut left = vec![fill; room];
    let answer = match bytes {
        Err(number) => Written { number: *number, written: 0 },
        Ok(bytes) => match left.get_mut(at..).and_then(|rest| rest.get_mut(..bytes.len())) {
            None => Written { number: SHORT_BUFFER, written: 0 },
            Some(place) => {
                place.copy_from_slice(bytes);
                Written { number: 0, written: bytes.len() }
            }
        },
    };
    (answer, left)
}
