//! Which cases are recorded, and their answers.

use super::format::{Orders, Record, Reported, REPORTED_WORDS};
use crate::calls::*;
use crate::cases::Cases;
use crate::differences;
use crate::examples::{Source, EXAMPLES, ORDERS, UNREAD};
use crate::expected::{self, Expected};
use crate::oracle::{self, Answer};
use crate::padded_readings::PADDED;
use crate::random::Random;
use crate::readings::READINGS;
use crate::report_readings::{ReportReading, REPORTS};
use crate::reports;
use crate::scan_readings::{FILES, SCANS};
use crate::scans;
use std::collections::BTreeMap;

/// The longest run of bytes that is recorded.
const LONGEST: usize = 128;

/// How many words are lent to a report: at most as many as who replays has.
const LENT: [u16; 8] = [0, 1_023, 1_024, 1_024, 1_024, 1_025, 1_032, 1_040];

/// Of accepted cases this many times as many are kept as of those that are refused with one number.
const ACCEPTED: usize = 5;

/// Takes cases, and keeps some of each section: of each kind and each number that is answered as many as told, each
/// as likely as any other.
pub struct Sample {
    random: Random,
    of_each: usize,
    /// How many cases the section has had.
    place: u64,
    kept: BTreeMap<(Kind, u32), Kept>,
    sections: Vec<Vec<Record>>,
}

#[derive(Clone, Copy, PartialEq, Eq, PartialOrd, Ord)]
enum Kind {
    Build,
    Pair,
    Two,
    Read,
    VarUInt,
    VarInt,
    ZeroPadded,
    ReadText,
    ReadScan(Layout),
    WriteScan,
    File(Layout),
    Report(Layout),
    ReadPadded,
}

/// How many cases there were, and the records of those that are kept, with the cases' places.
#[derive(Default)]
struct Kept {
    seen: u64,
    cases: Vec<(u64, Vec<Record>)>,
}

impl Sample {
    pub fn new(seed: u64, of_each: usize) -> Sample {
        Sample { random: Random::new(seed), of_each, place: 0, kept: BTreeMap::new(), sections: Vec::new() }
    }

    pub fn end_section(&mut self) {
        let kept = std::mem::take(&mut self.kept).into_values();
        let mut cases: Vec<_> = kept.flat_map(|kept| kept.cases).collect();
        cases.sort_by_key(|(place, _)| *place);
        self.sections.push(cases.into_iter().flat_map(|(_, records)| records).collect());
        self.place = 0;
    }

    pub fn records(self) -> impl Iterator<Item = Record> {
        self.sections.into_iter().flatten()
    }

    /// Keeps the case's records, in the place of another's where there are enough, or does not.
    fn offer(&mut self, kind: Kind, number: u32, records: impl FnOnce() -> Vec<Record>) {
        let kept = self.kept.entry((kind, number)).or_default();
        self.place += 1;
        kept.seen += 1;
        // Of scans in each layout, half as many, and of reports a quarter: what they are made of is recorded alone too. Of
        // values in any form half as many: there are more sections of them.
        let of_each = match kind {
            Kind::Report(_) => self.of_each.div_ceil(4),
            Kind::ReadScan(_) | Kind::WriteScan | Kind::File(_) | Kind::ReadPadded => self.of_each.div_ceil(2),
            _ => self.of_each,
        };
        let enough = if number == 0 { ACCEPTED * of_each } else { of_each };
        if kept.cases.len() < enough {
            kept.cases.push((self.place, records()));
            return;
        }
        let replaced = self.random.below(kept.seen) as usize;
        if let Some(old) = kept.cases.get_mut(replaced) {
            *old = (self.place, records());
        }
    }
}

impl Cases for Sample {
    fn build(&mut self, build: &Build) -> Option<Pair> {
        let answer = oracle::build(build);
        let accepted = match answer {
            Answer::Accepted(pair) => Some(pair),
            _ => None,
        };
        // What the Rust answers otherwise than the scope is no answer to record.
        if differences::largest_from_zero(build).is_none() {
            let built = answered(expected::built(answer));
            self.offer(Kind::Build, built.number, || vec![Record::Build(*build, built)]);
        }
        accepted
    }

    fn pair(&mut self, pair: Pair) {
        let built = answered(expected::built(oracle::check(pair)));
        self.offer(Kind::Pair, built.number, || of_pair(pair));
    }

    fn two(&mut self, first: Pair, second: Pair) {
        let number = answered(expected::ordered(oracle::cmp(first, second))).number;
        self.offer(Kind::Two, number, || of_two(first, second));
    }

    fn read(&mut self, input: &[u8]) {
        let read = expected::read(input);
        self.offer(Kind::Read, read.number, || vec![Record::Read(input.to_vec(), read)]);
    }

    fn read_padded(&mut self, input: &[u8]) {
        let read = answered(expected::read_padded(input));
        self.offer(Kind::ReadPadded, read.number, || vec![Record::ReadPadded(input.to_vec(), read)]);
    }

    fn read_form(&mut self, bytes: &[u8], _owed: Result<Pair, u32>) {
        self.read_padded(bytes);
    }

    fn read_text(&mut self, input: &[u8]) {
        if input.len() <= LONGEST {
            let built = answered(expected::read_text(input));
            self.offer(Kind::ReadText, built.number, || vec![Record::ReadText(input.to_vec(), built)]);
        }
    }

    fn read_scan(&mut self, input: &[u8], layout: Layout) {
        let read = expected::read_scan(input, layout);
        self.offer(Kind::ReadScan(layout), read.number, || vec![Record::ReadScan(input.to_vec(), layout, read)]);
    }

    fn write_scan(&mut self, scan: Scan) {
        let (number, bytes) = written(oracle::scan(scan, Layout::New));
        self.offer(Kind::WriteScan, number, || vec![Record::WriteScan(scan, number, bytes)]);
    }

    fn file(&mut self, file: &[u8]) {
        if file.len() <= LONGEST {
            let contents = expected::contents(file);
            let (layout, read) = (contents.layout, contents.checked());
            self.offer(Kind::File(layout), read.number, || vec![Record::File(file.to_vec(), layout, read)]);
        }
    }

    /// Reports of up to two posts, with enough lent words or too few, and refused ones.
    fn report(&mut self, file: &[u8], w: u32, g: u32) {
        if file.len() > LONGEST {
            return;
        }
        let lent = self.random.pick(&LENT);
        let mut words = vec![0; lent as usize];
        let answer = reports::answer(w, g, &mut words, || expected::contents(file));
        if words.iter().skip(REPORTED_WORDS).any(|word| *word != 0) {
            return;
        }
        let words = std::array::from_fn(|place| words.get(place).copied().unwrap_or(0));
        let reported = || Reported { file: file.to_vec(), w, g, lent, answer, words };
        self.offer(Kind::Report(scans::layout(file)), answer.number, || vec![Record::Report(reported())]);
    }

    fn var_uint(&mut self, value: u64) {
        let record = || Record::VarUInt(value, written(oracle::write_var_uint(value)).1);
        self.offer(Kind::VarUInt, 0, || vec![record()]);
    }

    fn var_int(&mut self, value: i64) {
        let record = || Record::VarInt(value, written(oracle::write_var_int(value)).1);
        self.offer(Kind::VarInt, 0, || vec![record()]);
    }

    fn zero_padded(&mut self, value: u64, width: usize) {
        if width <= LONGEST {
            let bytes = || written(oracle::write_zero_padded(value, width)).1;
            let record = || Record::ZeroPadded(value, width as u8, bytes());
            self.offer(Kind::ZeroPadded, 0, || vec![record()]);
        }
    }

    fn write_start(&mut self, _at: usize, _room: usize) {}
    fn shift(&mut self, _time: DateTime, _offset: i32) {}
    fn month_length(&mut self, _year: u32, _month: u32) {}
    fn year_start(&mut self, _year: u32) {}
}

fn answered<T>(expected: Expected<T>) -> T {
    expected.unwrap_or_else(|why| panic!("{why}"))
}

/// A writer's number and bytes.
fn written(answer: Answer<Vec<u8>>) -> (u32, Vec<u8>) {
    match answered(expected::bytes(answer)) {
        Ok(bytes) => (0, bytes),
        Err(number) => (number, Vec::new()),
    }
}

fn of_pair(pair: Pair) -> Vec<Record> {
    let (text_number, text) = written(oracle::text(pair));
    let (value_number, value) = written(oracle::value(pair));
    vec![
        Record::Check(pair, answered(expected::built(oracle::check(pair)))),
        Record::Utc(pair, answered(expected::built(oracle::to_utc(pair)))),
        Record::Text(pair, text_number, text),
        Record::Value(pair, value_number, value),
    ]
}

fn of_two(first: Pair, second: Pair) -> Vec<Record> {
    let cmp = answered(expected::ordered(oracle::cmp(first, second)));
    let orders = Orders {
        number: cmp.number,
        cmp: cmp.order,
        eq: answered(expected::compared(oracle::eq(first, second))).equal,
        ion_cmp: answered(expected::ordered(oracle::ion_cmp(first, second))).order,
        ion_eq: answered(expected::compared(oracle::ion_eq(first, second))).equal,
    };
    vec![
        Record::Order(first, second, orders),
        Record::Distance(first, second, answered(expected::distance(first, second))),
    ]
}

/// The records of a document's examples. The bytes and numbers are the document's, the pairs ion-rust's.
pub fn examples(source: Source) -> Vec<Record> {
    let mut records = Vec::new();
    for example in EXAMPLES.iter().filter(|example| example.source == source) {
        let pair = pair_of(&example.build);
        let built = Built { number: example.number, pair };
        records.push(Record::Build(example.build, built));
        if example.number == 0 {
            let text = example.text.as_bytes();
            records.push(Record::Text(pair, 0, text.to_vec()));
            records.push(Record::ReadText(text.to_vec(), built));
        }
        if !example.value.is_empty() {
            records.push(Record::Value(pair, 0, example.value.to_vec()));
            let taken = example.value.len();
            let read = Read { number: 0, pair, taken };
            records.push(Record::Read(example.value.to_vec(), read));
        }
    }
    for order in ORDERS.iter().filter(|order| order.source == source) {
        records.extend(of_two(pair_of(&order.first), pair_of(&order.second)));
    }
    for unread in UNREAD.iter().filter(|unread| unread.source == source) {
        let read = Read { number: unread.number, pair: Pair::NONE, taken: 0 };
        records.push(Record::Read(unread.bytes.to_vec(), read));
    }
    for reading in READINGS.iter().filter(|reading| reading.source == source) {
        records.push(Record::ReadText(reading.text.as_bytes().to_vec(), reading.answer(pair_of)));
    }
    for reading in PADDED.iter().filter(|reading| reading.source == source) {
        records.push(Record::ReadPadded(reading.bytes.to_vec(), reading.answer(pair_of)));
    }
    match source {
        Source::Scans => records.extend(scans()),
        Source::Reports => records.extend(REPORTS.iter().map(reported)),
        _ => {}
    }
    records
}

fn scans() -> Vec<Record> {
    let mut records = Vec::new();
    for reading in &SCANS {
        let read = reading.answer(pair_of);
        records.push(Record::ReadScan(reading.bytes.to_vec(), reading.layout, read));
        records.extend(reading.written().map(|bytes| Record::WriteScan(read.scan, 0, bytes.to_vec())));
    }
    records.extend(FILES.iter().map(|reading| Record::File(reading.bytes.to_vec(), reading.layout, reading.owed)));
    records
}

fn reported(reading: &ReportReading) -> Record {
    let mut words = reading.words(pair_of);
    words.resize(REPORTED_WORDS, 0);
    Record::Report(Reported {
        file: reading.file(),
        w: reading.w,
        g: reading.g,
        lent: reading.lent as u16,
        answer: reading.report(),
        words: words.try_into().expect("a reading has at most two posts"),
    })
}

/// The pair of a field set, or (0, 0) where it is refused.
fn pair_of(build: &Build) -> Pair {
    match oracle::build(build) {
        Answer::Accepted(pair) => pair,
        _ => Pair::NONE,
    }
}
