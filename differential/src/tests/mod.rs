//! Tests of what the comparison rests on: the stand-ins on known answers, the mapping of error texts, and that a run
//! notices a wrong answer of each call.

mod stand_ins;
mod wrong;
mod wrong_padded;
mod wrong_reports;

use crate::calls::{Build, FileRead, Fraction, Layout, Offset, Pair, Report, Scan, ScanRead};
use crate::cases::Options;
use crate::compare;
use crate::damage;
use crate::expected;
use crate::forms::Form;
use crate::generate;
use crate::model::Model;
use crate::oracle::{self, Answer};
use crate::plain_reader;
use crate::plain_value_reader;
use crate::random::Random;
use crate::record::format::{Record, Reported};
use crate::record::{self, replay};
use crate::timing;

const SHORT: Options = Options { seed: 7, draws: 2_000, drawn_only: true };

#[test]
fn document_and_rust_agree_on_a_short_run() {
    assert!(compare::run(&Model, SHORT));
}

#[test]
fn every_refusal_of_the_builder_has_its_number() {
    let good = Build::day(2020, 2, 3).second(4, 5, 6).offset(Offset::Local(0));
    let decimal = |negative, exponent| Fraction::Decimal { negative, coefficient: 1, exponent };
    let refused = [
        good.fraction(decimal(true, -1)),
        Build { year: 10_000, ..good },
        Build { month: 13, ..good },
        Build { day: 32, ..good },
        Build { hour: 24, ..good },
        Build { minute: 60, ..good },
        Build { second: 60, ..good },
        good.fraction(decimal(false, -19)),
        good.offset(Offset::Local(1440)),
        Build { day: 30, ..good },
        Build { year: 0, ..good },
    ];
    for (build, number) in refused.iter().zip(1..) {
        assert_eq!(oracle::build(build), Answer::Refused(number));
    }
    let moved_out = Build::day(9999, 12, 31).minute(23, 59).offset(Offset::Utc(1));
    assert_eq!(oracle::build(&moved_out), Answer::Refused(11));
    let no_utc_day = Build { day: 30, ..good }.offset(Offset::Utc(1));
    assert_eq!(oracle::build(&no_utc_day), Answer::Refused(10));
}

#[test]
fn the_largest_number_counted_from_zero_overflows() {
    let build = Build { month0: true, ..Build::day(2020, u32::MAX, 1) };
    match oracle::build(&build) {
        Answer::Panicked(text) if cfg!(debug_assertions) => assert!(text.contains("overflow")),
        Answer::Refused(10) if !cfg!(debug_assertions) => {}
        other => panic!("{other:?}"),
    }
}

#[test]
fn the_reader_that_is_timed_reads_as_the_one_that_is_compared() {
    let mut random = Random::new(SHORT.seed);
    for _ in 0..50_000 {
        for text in [generate::text(&mut random), generate::text_of_numbers(&mut random)] {
            for text in [damage::text(&mut random, &text), text] {
                let owed = expected::read_text(&text).expect("the Rust answers");
                let read = plain_reader::read(&text).map(|stamp| oracle::pair_of(&stamp));
                assert_eq!(read, (owed.number == 0).then_some(owed.pair), "{}", String::from_utf8_lossy(&text));
            }
        }
    }
}

#[test]
fn the_reader_of_values_that_is_timed_reads_as_the_one_that_is_compared() {
    let mut random = Random::new(SHORT.seed);
    for _ in 0..50_000 {
        let pair = generate::accepted(&mut random);
        let form = generate::form(&mut random, pair);
        let changed = generate::changed_form(&mut random, &form);
        let long = generate::long_form(&mut random, &form);
        let damaged = damage::form(&mut random, &form);
        for value in [form.bytes(), changed.bytes(), long.bytes(), damaged] {
            let owed = expected::read_padded(&value).expect("the Rust answers");
            let read = plain_value_reader::read(&value).map(|(stamp, taken)| (oracle::pair_of(&stamp), taken));
            assert_eq!(read, (owed.number == 0).then_some((owed.pair, owed.taken)), "{value:02x?}");
        }
    }
}

#[test]
fn a_form_in_the_fewest_bytes_is_what_the_rust_writes() {
    let mut random = Random::new(SHORT.seed);
    for _ in 0..50_000 {
        let pair = generate::accepted(&mut random);
        assert_eq!(Answer::Accepted(Form::shortest(pair).bytes()), oracle::value(pair));
    }
}

#[test]
fn the_writer_of_scans_that_is_timed_writes_as_the_rust_does() {
    let mut random = Random::new(SHORT.seed);
    for _ in 0..50_000 {
        let scan = generate::scan(&mut random);
        let mut buffer = [0; 64];
        let written = timing::scans::write_scan(&scan, &timing::stamp(scan.pair), &mut buffer);
        assert_eq!(buffer[..written], oracle::scans(&[scan], Layout::New));
    }
}

#[test]
fn recorded_answers_come_back_and_are_replayed() {
    let records = record::records(SHORT, 3);
    let bytes = record::encoded(&records);
    let mut rest = &bytes[..];
    for record in &records {
        let (decoded, after) = Record::decoded(rest).expect("a record");
        assert_eq!(decoded, *record);
        rest = after;
    }
    assert!(rest.is_empty());

    let tallies = replay::replay(&Model, &bytes).expect("a whole file");
    assert_eq!(tallies.len(), 11);
    assert!(tallies.iter().all(|tally| tally.records > 0 && tally.agreed == tally.records));

    assert!(replay::replay(&Model, &bytes[..bytes.len() - 1]).is_err());
    assert!(replay::replay(&Model, &[&bytes[..], &[0]].concat()).is_err());
}

#[test]
fn records_of_scans_have_their_fields_in_fixed_places() {
    let scan = Scan { site: 1, tag: 2, guard: 3, pair: Pair { word: 4, attoseconds: 5 } };
    let bytes = vec![0xAA, 0xBB];
    let fields = [0, 0, 0, 1, 0, 0, 0, 2, 0, 0, 0, 3, 0, 0, 0, 0, 0, 0, 0, 4, 0, 0, 0, 0, 0, 0, 0, 5];
    let read = Record::ReadScan(bytes.clone(), Layout::New, ScanRead { number: 0, scan, taken: 6 });
    assert_eq!(read.encoded(), [&[0x0D, 34, 0, 1][..], &fields, &[6, 2, 0xAA, 0xBB]].concat());
    let written = Record::WriteScan(scan, 7, bytes.clone());
    assert_eq!(written.encoded(), [&[0x0E, 32][..], &fields, &[7, 2, 0xAA, 0xBB]].concat());
    let file = Record::File(bytes.clone(), Layout::New, FileRead { number: 0, scans: 9 });
    assert_eq!(file.encoded(), [0x0F, 6, 0, 1, 9, 2, 0xAA, 0xBB]);
    let (answer, words) = (Report { number: 20, ..Report::default() }, [0; 8]);
    let reported = Record::Report(Reported { file: bytes, w: 1, g: 2, lent: 0x0304, answer, words });
    let asked = [0, 0, 0, 1, 0, 0, 0, 2, 3, 4];
    let answered = [&[20][..], &[0; 5 + 64], &[2, 0xAA, 0xBB]].concat();
    assert_eq!(reported.encoded(), [&[0x10, 83][..], &asked, &answered].concat());
}

#[test]
fn a_seed_repeats_its_records() {
    assert_eq!(record::records(SHORT, 2), record::records(SHORT, 2));
}
