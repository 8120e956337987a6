//! Recorded answers: a file of cases with what they must be answered, which a program replays with no Rust at hand.

pub mod format;
pub mod replay;
mod sample;

use crate::cases::{self, Options};
use crate::examples::Source;
use crate::oracle;
use format::Record;
use sample::Sample;

/// Where the Rust's own answers come from.
const RUST: &str = "ion-rust 34e2835fb3";
/// The readers' answers and the distances, for which ion-rust has no code at hand.
const OVER_RUST: &str = "docs/SCOPE.md over ion-rust's builder, check and writer";

/// The documents' examples, then of each section of cases, and in it of each number that is answered, as many as told.
pub fn records(options: Options, of_each: usize) -> Vec<Record> {
    oracle::silence_panics();
    let mut records = Vec::new();
    for source in Source::ALL {
        records.push(Record::Source(source.name().to_string()));
        records.extend(sample::examples(source));
    }
    let mut sample = Sample::new(options.seed, of_each);
    for (_, cases) in cases::sections(options) {
        cases(&mut sample);
        sample.end_section();
    }
    let (rust, over_rust): (Vec<_>, Vec<_>) = sample.records().partition(Record::is_the_rusts);
    records.push(Record::Source(RUST.to_string()));
    records.extend(rust);
    records.push(Record::Source(OVER_RUST.to_string()));
    records.extend(over_rust);
    let count = records.iter().filter(|record| record.is_a_case()).count();
    records.push(Record::End(count as u32));
    records
}

pub fn encoded(records: &[Record]) -> Vec<u8> {
    records.iter().flat_map(Record::encoded).collect()
}
