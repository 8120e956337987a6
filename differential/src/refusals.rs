//! The scope's refusal numbers, and which of the Rust's error texts stands for which number.

pub const FRACTION: u32 = 1;
pub const YEAR: u32 = 2;
pub const MONTH: u32 = 3;
pub const DAY: u32 = 4;
pub const HOUR: u32 = 5;
pub const MINUTE: u32 = 6;
pub const SECOND: u32 = 7;
pub const DIGITS: u32 = 8;
pub const OFFSET: u32 = 9;
pub const NO_DAY: u32 = 10;
pub const LOCAL_YEAR: u32 = 11;
pub const PAIR: u32 = 12;
pub const INPUT_ENDS: u32 = 13;
pub const FIRST_BYTE: u32 = 14;
pub const BODY: u32 = 15;
pub const SHORT_BUFFER: u32 = 16;
pub const FORM: u32 = 18;
pub const NUMBER: u32 = 19;
pub const WORDS: u32 = 20;
pub const WINDOW: u32 = 21;
pub const POSTS: u32 = 22;

/// How each error text begins, and its number.
const TEXTS: [(&str, u32); 11] = [
    ("Timestamp fractional seconds are out of range", FRACTION),
    ("Timestamp month '", MONTH),
    ("Timestamp day '", DAY),
    ("Timestamp hour '", HOUR),
    ("Timestamp minute '", MINUTE),
    ("Timestamp second '", SECOND),
    ("fractional seconds precision (", DIGITS),
    ("offset (", OFFSET),
    // The ranges were checked before: only the calendar is left to fail.
    ("one or more timestamp fields are out of range", NO_DAY),
    ("one or more timestamp UTC fields are out of range", NO_DAY),
    ("Timestamp bits violate an invariant", PAIR),
];

/// `validate_field_ranges` and, after the shift from UTC, `from_fields` have this one text for the year.
const YEAR_TEXT: &str = "Timestamp year '";

/// The number of an error text, where the year given was `year`.
pub fn number_of_text(text: &str, year: u32) -> Option<u32> {
    if text.starts_with(YEAR_TEXT) {
        return Some(if year > 9999 { YEAR } else { LOCAL_YEAR });
    }
    let listed = TEXTS.iter().find(|(start, _)| text.starts_with(start));
    listed.map(|(_, number)| *number)
}
