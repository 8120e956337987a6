//! The documents' examples: the Rust and the library are both held against what the document says.

use super::scans::{contents, written};
use super::Run;
use crate::calls::{Build, Library, Pair, Read};
use crate::cases::Cases;
use crate::examples::{Example, Order, EXAMPLES, ORDERS, UNREAD};
use crate::oracle::{self, Answer};
use crate::padded_readings::{PaddedReading, PADDED};
use crate::readings::{Reading, READINGS};
use crate::report_readings::{ReportReading, REPORTS};
use crate::reports::WORD_COUNT;
use crate::scan_readings::{FILES, SCANS, WRITTEN_AGAIN};

pub fn all<L: Library>(run: &mut Run<'_, L>) {
    for example in &EXAMPLES {
        one(run, example);
    }
    for order in &ORDERS {
        two(run, order);
    }
    for unread in &UNREAD {
        run.read(unread.bytes);
        let expected = Read { number: unread.number, pair: Pair::NONE, taken: 0 };
        let answer = run.library.read(unread.bytes);
        run.judge("read", || format!("{:02x?}", unread.bytes), Ok(expected), answer);
    }
    for reading in &READINGS {
        reads(run, reading);
    }
    PADDED.iter().for_each(|reading| reads_padded(run, reading));
    scans(run);
    REPORTS.iter().for_each(|reading| reports(run, reading));
    first_pair(run);
}

fn one<L: Library>(run: &mut Run<'_, L>, example: &Example) {
    run.build_and_use(&example.build);
    let case = || format!("{}: {:?}", example.source.name(), example.build);
    let built = run.library.build(&example.build);
    run.judge("the number", case, Ok(example.number), built.number);
    if example.number != 0 {
        return;
    }
    run.judge("the Rust's text", case, Ok(answer(example.text.as_bytes())), oracle::text(built.pair));
    let mut buffer = [0; 64];
    let written = run.library.text(built.pair, &mut buffer).written;
    run.judge("the text", case, Ok(example.text.as_bytes()), &buffer[..written]);
    if !example.value.is_empty() {
        run.judge("the Rust's value", case, Ok(answer(example.value)), oracle::value(built.pair));
        let written = run.library.value(built.pair, &mut buffer).written;
        run.judge("the value", case, Ok(example.value), &buffer[..written]);
    }
}

fn reads<L: Library>(run: &mut Run<'_, L>, reading: &Reading) {
    let text = reading.text.as_bytes();
    run.read_text(text);
    let expected = reading.answer(|build| run.library.build(build).pair);
    let answer = run.library.read_text(text);
    run.judge("read text", || format!("{}: {}", reading.source.name(), reading.text), Ok(expected), answer);
}

fn reads_padded<L: Library>(run: &mut Run<'_, L>, reading: &PaddedReading) {
    run.read_padded(reading.bytes);
    let expected = reading.answer(|build| run.library.build(build).pair);
    let answer = run.library.read_padded(reading.bytes);
    run.judge("read_padded", || format!("{}: {:02x?}", reading.source.name(), reading.bytes), Ok(expected), answer);
}

fn scans<L: Library>(run: &mut Run<'_, L>) {
    let library = run.library;
    for reading in &SCANS {
        run.read_scan(reading.bytes, reading.layout);
        let case = || format!("{:?}, {:02x?}", reading.layout, reading.bytes);
        let expected = reading.answer(|build| library.build(build).pair);
        run.judge("read_scan", case, Ok(expected), library.read_scan(reading.bytes, reading.layout));
        if reading.owed.is_ok() {
            run.write_scan(expected.scan);
        }
        if let Some(bytes) = reading.written() {
            let mut buffer = [0; 64];
            let count = library.write_scan(expected.scan, &mut buffer, 0).written;
            run.judge("the scan's bytes", case, Ok(bytes), &buffer[..count]);
        }
    }
    for reading in &FILES {
        run.file(reading.bytes);
        let case = || format!("{:02x?}", reading.bytes);
        run.judge("file_layout", case, Ok(reading.layout), library.layout(reading.bytes));
        run.judge("check_file", case, Ok(reading.owed), library.check_file(reading.bytes));
    }
    for (file, again) in WRITTEN_AGAIN {
        run.file(file);
        let answer = written(library, &contents(library, file).scans, again.len());
        run.judge("written again", || format!("{file:02x?}"), Ok((again.to_vec(), again.len())), answer);
    }
}

/// The answer, and what stands in words that were all 7.
fn reports<L: Library>(run: &mut Run<'_, L>, reading: &ReportReading) {
    let file = reading.file();
    let (w, g, lent) = (reading.w, reading.g, reading.lent);
    run.report(&file, w, g);
    let mut expected = vec![7; lent];
    if reading.report().number == 0 {
        let words = reading.words(|build| run.library.build(build).pair);
        expected[..WORD_COUNT].fill(0);
        expected[..words.len()].copy_from_slice(&words);
    }
    let mut words = vec![7; lent];
    let answer = run.library.report_file(&file, w, g, &mut words);
    let case = || format!("W {w}, G {g}, {lent} words, {file:02x?}");
    run.judge("report_file", case, Ok((reading.report(), expected)), (answer, words));
}

fn answer(bytes: &[u8]) -> Answer<Vec<u8>> {
    Answer::Accepted(bytes.to_vec())
}

fn two<L: Library>(run: &mut Run<'_, L>, order: &Order) {
    let pair = |build: &Build| run.library.build(build).pair;
    let (first, second) = (pair(&order.first), pair(&order.second));
    run.two(first, second);
    let case = || format!("{}: {:?} and {:?}", order.source.name(), order.first, order.second);
    run.judge("the Rust's cmp", case, Ok(Answer::Accepted(order.cmp)), oracle::cmp(first, second));
    let (cmp, ion_cmp) = (run.library.cmp(first, second), run.library.ion_cmp(first, second));
    run.judge("cmp", case, Ok(order.cmp), cmp.order);
    if let Some(expected) = order.ion_cmp {
        run.judge("the Rust's ion_cmp", case, Ok(Answer::Accepted(expected)), oracle::ion_cmp(first, second));
        run.judge("ion_cmp", case, Ok(expected), ion_cmp.order);
    }
    if let Some(seconds) = order.apart {
        let distance = run.library.distance(first, second);
        run.judge("distance", case, Ok(seconds), distance.seconds);
    }
}

/// P1's pair as the scope has it, and P11, the same with an attosecond.
fn first_pair<L: Library>(run: &mut Run<'_, L>) {
    let first = Pair { word: 0x0004_4200_0000_0000, attoseconds: 0 };
    let built = run.library.build(&Build::year(1));
    run.judge("the pair", || "P1".to_string(), Ok(first), built.pair);
    let other = Pair { attoseconds: 1, ..first };
    run.pair(other);
    let checked = run.library.check(other);
    run.judge("check", || "P11".to_string(), Ok(12), checked.number);
}
