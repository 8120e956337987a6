//! The differences between the scope and the Rust that a run meets. Each is a line of docs/DIFFERENCES.md. Any other
//! difference fails the run.

use crate::calls::{Build, Pair, Stage};

#[derive(Clone, Copy, PartialEq, Eq, Debug)]
pub enum Listed {
    LargestFromZero,
    OrderOfUtcForms,
    NoMonthLength,
}

pub const ALL: [(Listed, &str); 3] = [
    (
        Listed::LargestFromZero,
        "month or day 4294967295 counted from 0: the scope refuses it with 3 or 4; \
         the Rust panics (debug) or wraps to 0 (release)",
    ),
    (
        Listed::OrderOfUtcForms,
        "a UTC form of year 0 or 10000: the scope's order refuses it with 11 or 2; the Rust goes on to order it",
    ),
    (
        Listed::NoMonthLength,
        "the length of a month outside 1 to 12, or of a year above 10000: the scope answers 0; \
         the Rust panics, or gives the month its length",
    ),
];

/// What the scope reads a field set as in which the largest number is counted from 0: the same counted from 1.
pub fn largest_from_zero(build: &Build) -> Option<Build> {
    let month = build.month0 && build.month == u32::MAX && build.stage >= Stage::Month;
    let day = build.day0 && build.day == u32::MAX && build.stage >= Stage::Day;
    if !month && !day {
        return None;
    }
    Some(Build { month0: build.month0 && !month, day0: build.day0 && !day, ..*build })
}

/// Whether a UTC form has a year that the packed check refuses.
pub fn outside_years(utc_form: Pair) -> bool {
    matches!(utc_form.word >> 50, 0 | 10_000)
}

/// Whether the scope has no length for the month.
pub fn no_month_length(year: u32, month: u32) -> bool {
    !(1..=12).contains(&month) || year > 10_000
}
