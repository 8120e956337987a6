//! Sections of texts to read that go through all of something short, or through all edges.

use super::changes::{all_ends, all_short, one_changed, two_changed};
use super::{Cases, Section};

pub fn sections<'a, C: Cases + 'a>() -> Vec<Section<'a, C>> {
    vec![
        ("texts at the edges of their fields", Box::new(field_edges)),
        ("every number in a text", Box::new(every_number)),
        ("short texts and short ends", Box::new(short_texts)),
        ("texts with every byte changed", Box::new(changed_texts)),
    ]
}

const YEARS: [&str; 7] = ["0000", "0001", "0004", "1900", "2000", "2020", "9999"];
const MONTHS: [&str; 6] = ["00", "01", "02", "12", "13", "99"];
const DAYS: [&str; 8] = ["00", "01", "28", "29", "30", "31", "32", "99"];
const HOURS: [&str; 4] = ["00", "23", "24", "99"];
const MINUTES: [&str; 4] = ["00", "59", "60", "99"];

/// The first and last that there are, the first past either end, the last of two digits, and none.
const OFFSETS: [&str; 18] = [
    "", "Z", "-00:00", "+00:00", "+00:01", "-00:01", "+00:59", "-00:60", "+00:99", "+23:59", "-23:59", "+23:60",
    "+24:00", "-24:00", "+99:59", "-99:59", "-99:60", "+99:99",
];

/// No fraction, no digits after the point, and each count of digits in zeros, in nines, and in zeros before a one.
fn fractions() -> Vec<String> {
    let mut fractions = vec![String::new(), ".".to_string()];
    for count in [1, 17, 18, 19, 20, 40] {
        fractions.extend(["0", "9"].map(|digit| format!(".{}", digit.repeat(count))));
        fractions.push(format!(".{:01$}", 1, count));
    }
    fractions
}

/// Every text that these fields, fractions and offsets make, at each precision, with T and without.
fn field_edges(cases: &mut impl Cases) {
    let seconds = MINUTES.iter().flat_map(|second| fractions().into_iter().map(move |f| format!(":{second}{f}")));
    let seconds: Vec<String> = [String::new()].into_iter().chain(seconds).collect();
    let ends: Vec<String> = seconds.iter().flat_map(|second| OFFSETS.map(|offset| second.clone() + offset)).collect();
    for year in YEARS {
        with_t_and_without(cases, year);
        for month in MONTHS {
            let month = format!("{year}-{month}");
            with_t_and_without(cases, &month);
            for day in DAYS {
                let date = format!("{month}-{day}");
                with_t_and_without(cases, &date);
                for (hour, minute) in HOURS.iter().flat_map(|hour| MINUTES.map(|minute| (hour, minute))) {
                    for end in &ends {
                        cases.read_text(format!("{date}T{hour}:{minute}{end}").as_bytes());
                    }
                }
            }
        }
    }
}

fn with_t_and_without(cases: &mut impl Cases, date: &str) {
    cases.read_text(date.as_bytes());
    cases.read_text(format!("{date}T").as_bytes());
}

/// Every year, every month beside every day, every hour beside every minute, every minute beside every second, every
/// offset of either sign, every fraction of up to four digits; then counts of digits, long ones among them.
fn every_number(cases: &mut impl Cases) {
    for number in 0..10_000 {
        let (a, b) = (number / 100, number % 100);
        let texts = [
            format!("{number:04}T"),
            format!("{number:04}-02-29"),
            format!("{number:04}-{b:02}T"),
            format!("2020-{a:02}-{b:02}"),
            format!("2019-{a:02}-{b:02}T"),
            format!("0000-{a:02}-{b:02}"),
            format!("2020-02-03T{a:02}:{b:02}Z"),
            format!("2020-02-03T04:{a:02}:{b:02}Z"),
            format!("2020-02-03T04:05+{a:02}:{b:02}"),
            format!("2020-02-03T04:05:06-{a:02}:{b:02}"),
        ];
        texts.iter().for_each(|text| cases.read_text(text.as_bytes()));
        for digits in 1..=4 {
            let fraction = number % 10u32.pow(digits as u32);
            cases.read_text(format!("2020-02-03T04:05:06.{fraction:0digits$}-00:00").as_bytes());
        }
    }
    for count in (1..=64).chain([254, 255, 256, 257, 65_535, 65_536, 65_537, 1_000_000]) {
        for (digit, offset) in [("0", "Z"), ("9", "-00:00"), ("1", "+24:00"), ("5", "+00:60")] {
            cases.read_text(format!("2020-02-03T04:05:06.{}{offset}", digit.repeat(count)).as_bytes());
        }
    }
}

/// Every text of up to two bytes, every text of up to eleven that are 0, 1, - or T, and after an hour and a minute every
/// end of up to nine bytes that are 0, :, ., - or Z.
fn short_texts(cases: &mut impl Cases) {
    let mut case = |text: &[u8]| cases.read_text(text);
    all_short(2, &mut case);
    all_ends(&mut Vec::new(), b"01-T", 11, &mut case);
    all_ends(&mut b"2020-02-03T04:05".to_vec(), b"0:.-Z", 9, &mut case);
}

/// Some hundreds of texts with one byte changed, and one with two.
fn changed_texts(cases: &mut impl Cases) {
    for text in some_texts() {
        one_changed(text.as_bytes(), &mut |text| cases.read_text(text));
    }
    two_changed(b"2020-02-03T04:05:06.7-08:09", &mut |text| cases.read_text(text));
}

/// Texts of every form and precision, most of them accepted.
fn some_texts() -> Vec<String> {
    let seconds = ["", ":00", ":59.9", ":06.070", ":06.12345678901234567", ":06.123456789012345678"];
    let digits = [19, 20, 40].map(|count| format!(":07.{}", "8".repeat(count)));
    let seconds: Vec<String> = seconds.iter().map(|second| second.to_string()).chain(digits).collect();
    let mut texts = Vec::new();
    for date in ["2020-02-29", "0001-01-01", "9999-12-31"] {
        texts.extend([&date[..4], &date[..7], date].map(|date| format!("{date}T")));
        texts.push(date.to_string());
        for (time, second) in ["00:00", "23:59"].iter().flat_map(|time| seconds.iter().map(move |s| (time, s))) {
            for offset in ["Z", "-00:00", "+00:00", "+00:01", "-00:01", "+23:59", "-23:59", "+24:00"] {
                texts.push(format!("{date}T{time}{second}{offset}"));
            }
        }
    }
    texts
}
