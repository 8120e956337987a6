//! The reader of a timestamp's text, written from the scope's words. ion-rust's is not at hand, so the form is told here,
//! and a builder says what the fields of a form make.

use crate::calls::{Build, Built, Fraction, Offset, Pair, Stage};
use crate::refusals::FORM;

/// The field set that a text gives, or the refusal of a text in none of the forms.
pub fn fields_of(text: &[u8]) -> Result<Build, Built> {
    form(text).ok_or(Built { number: FORM, pair: Pair::NONE })
}

fn form(text: &[u8]) -> Option<Build> {
    let Some((before, after)) = cut(text, b'T') else {
        return full_date(text);
    };
    match after {
        [] => date(before),
        time => timed(full_date(before)?, time),
    }
}

/// What stands before the first such byte, and what after it.
fn cut(text: &[u8], mark: u8) -> Option<(&[u8], &[u8])> {
    let at = text.iter().position(|byte| *byte == mark)?;
    Some((&text[..at], &text[at + 1..]))
}

/// A year, a year and a month, or a full date.
fn date(text: &[u8]) -> Option<Build> {
    let fields: Vec<_> = text.split(|byte| *byte == b'-').collect();
    let (stage, month, day) = match fields[1..] {
        [] => (Stage::Year, 1, 1),
        [month] => (Stage::Month, number(month, 2)?, 1),
        [month, day] => (Stage::Day, number(month, 2)?, number(day, 2)?),
        _ => return None,
    };
    Some(Build { stage, month, day, ..Build::year(number(fields[0], 4)?) })
}

fn full_date(text: &[u8]) -> Option<Build> {
    date(text).filter(|date| date.stage == Stage::Day)
}

/// A date with what follows its T.
fn timed(date: Build, text: &[u8]) -> Option<Build> {
    let (text, offset) = before_offset(text)?;
    let (text, fraction) = match cut(text, b'.') {
        None => (text, None),
        Some((text, digits)) => (text, Some(fraction(digits)?)),
    };
    let fields: Vec<_> = text.split(|byte| *byte == b':').collect();
    let build = match (&fields[..], fraction) {
        ([hour, minute], None) => date.minute(number(hour, 2)?, number(minute, 2)?),
        ([hour, minute, second], fraction) => date
            .second(number(hour, 2)?, number(minute, 2)?, number(second, 2)?)
            .fraction(fraction.unwrap_or(Fraction::None)),
        _ => return None,
    };
    Some(build.offset(offset))
}

/// The offset at the end of a text, and what stands before it. Hours may be any two digits.
fn before_offset(text: &[u8]) -> Option<(&[u8], Offset)> {
    let (before, sign, hours, minutes) = match text {
        [before @ .., b'Z'] => return Some((before, Offset::Local(0))),
        [before @ .., sign, h, i, b':', m, n] => (before, *sign, number(&[*h, *i], 2)?, number(&[*m, *n], 2)?),
        _ => return None,
    };
    let size = (hours * 60 + minutes) as i32;
    let offset = match sign {
        b'-' if size == 0 => Offset::None,
        b'-' => Offset::Local(-size),
        b'+' => Offset::Local(size),
        _ => return None,
    };
    (minutes <= 59).then_some((before, offset))
}

/// A decimal of the digits, of which 19 stand for any more than that: both are refused alike, and 64 bits hold them.
fn fraction(digits: &[u8]) -> Option<Fraction> {
    if digits.is_empty() || !digits.iter().all(u8::is_ascii_digit) {
        return None;
    }
    let kept = &digits[..digits.len().min(19)];
    Some(Fraction::Decimal { negative: false, coefficient: value(kept), exponent: -(kept.len() as i64) })
}

/// The number of exactly so many digits.
fn number(text: &[u8], digits: usize) -> Option<u32> {
    (text.len() == digits && text.iter().all(u8::is_ascii_digit)).then(|| value(text) as u32)
}

fn value(digits: &[u8]) -> u64 {
    digits.iter().fold(0, |value, digit| value * 10 + (digit - b'0') as u64)
}
