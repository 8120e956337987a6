//! Replays recorded answers.

use super::format::{Orders, Record, Reported, REPORTED_WORDS};
use crate::calls::*;
use crate::refusals::SHORT_BUFFER;
use crate::reports::WORD_COUNT;

/// How many records of a source agree.
#[derive(Clone, PartialEq, Eq, Debug)]
pub struct Tally {
    pub source: String,
    pub records: u32,
    pub agreed: u32,
}

/// Holds the file's answers against the library's; an error where the file is not whole.
pub fn replay<L: Library>(library: &L, mut file: &[u8]) -> Result<Vec<Tally>, String> {
    let mut tallies = Vec::new();
    loop {
        let (record, rest) = Record::decoded(file).ok_or(format!("no record {} bytes before the end", file.len()))?;
        file = rest;
        match record {
            Record::Source(source) => tallies.push(Tally { source, records: 0, agreed: 0 }),
            Record::End(count) => {
                let replayed: u32 = tallies.iter().map(|tally| tally.records).sum();
                return match (file, replayed == count) {
                    ([], true) => Ok(tallies),
                    ([], false) => Err(format!("{replayed} records, not {count}")),
                    _ => Err(format!("{} bytes after the end", file.len())),
                };
            }
            record => {
                let tally = tallies.last_mut().ok_or("a record before any source")?;
                tally.records += 1;
                tally.agreed += agrees(library, &record) as u32;
            }
        }
    }
}

fn agrees<L: Library>(library: &L, record: &Record) -> bool {
    match record {
        Record::Build(build, answer) => library.build(build) == *answer,
        Record::Check(pair, answer) => library.check(*pair) == *answer,
        Record::Utc(pair, answer) => library.to_utc(*pair) == *answer,
        Record::Order(first, second, answer) => orders(library, *first, *second) == Some(*answer),
        Record::Text(pair, number, bytes) => writes(*number, bytes, |buffer| Some(library.text(*pair, buffer))),
        Record::Value(pair, number, bytes) => writes(*number, bytes, |buffer| Some(library.value(*pair, buffer))),
        Record::Read(input, answer) => library.read(input) == *answer,
        Record::Distance(first, second, answer) => library.distance(*first, *second) == *answer,
        Record::VarUInt(value, bytes) => writes(0, bytes, |buffer| library.write_var_uint(*value, buffer)),
        Record::VarInt(value, bytes) => writes(0, bytes, |buffer| library.write_var_int(*value, buffer)),
        Record::ZeroPadded(value, width, bytes) => {
            writes(0, bytes, |buffer| library.write_zero_padded(*value, *width as usize, buffer))
        }
        Record::ReadText(input, answer) => library.read_text(input) == *answer,
        Record::ReadScan(input, layout, answer) => library.read_scan(input, *layout) == *answer,
        Record::WriteScan(scan, number, bytes) => {
            writes(*number, bytes, |buffer| Some(library.write_scan(*scan, buffer, 0)))
        }
        Record::File(file, layout, answer) => library.layout(file) == *layout && library.check_file(file) == *answer,
        Record::Report(reported) => reports(library, reported),
        Record::ReadPadded(input, answer) => library.read_padded(input) == *answer,
        Record::Source(_) | Record::End(_) => false,
    }
}

/// The four answers, where they have one number.
fn orders<L: Library>(library: &L, first: Pair, second: Pair) -> Option<Orders> {
    let (cmp, eq) = (library.cmp(first, second), library.eq(first, second));
    let (ion_cmp, ion_eq) = (library.ion_cmp(first, second), library.ion_eq(first, second));
    let number = cmp.number;
    [eq.number, ion_cmp.number, ion_eq.number].iter().all(|other| *other == number).then_some(Orders {
        number,
        cmp: cmp.order,
        eq: eq.equal,
        ion_cmp: ion_cmp.order,
        ion_eq: ion_eq.equal,
    })
}

/// Whether a report answers so, and leaves in words that were all 7 those of the record, 0 up to the 1,024th, and 7; all 7
/// beside a refusal.
fn reports<L: Library>(library: &L, reported: &Reported) -> bool {
    let mut words = vec![7; reported.lent as usize];
    let mut left = words.clone();
    if reported.answer.number == 0 {
        let Some(used) = left.get_mut(..WORD_COUNT) else {
            return false;
        };
        used.fill(0);
        used[..REPORTED_WORDS].copy_from_slice(&reported.words);
    } else if reported.words != [0; REPORTED_WORDS] {
        return false;
    }
    let answer = library.report_file(&reported.file, reported.w, reported.g, &mut words);
    answer == reported.answer && words == left
}

/// Whether a writer answers so in a long buffer, and an accepted one also in a buffer of as many bytes as it writes, but
/// finds a byte less too short. A call that is not offered does not.
fn writes(number: u32, bytes: &[u8], write: impl Fn(&mut [u8]) -> Option<Written>) -> bool {
    let long = answers(255, number, bytes, &write);
    let size = bytes.len();
    long && (number != 0 || answers(size, 0, bytes, &write) && answers(size - 1, SHORT_BUFFER, &[], &write))
}

/// Whether a writer, lent `size` bytes of a buffer, answers so, writes the bytes, and leaves the rest of the buffer.
fn answers(size: usize, number: u32, bytes: &[u8], write: impl Fn(&mut [u8]) -> Option<Written>) -> bool {
    let mut buffer = [0xA5; 255];
    let mut left = buffer;
    left[..bytes.len()].copy_from_slice(bytes);
    write(&mut buffer[..size]) == Some(Written { number, written: bytes.len() }) && buffer == left
}
