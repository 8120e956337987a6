//! A reader of a timestamp's text as a user of ion-rust would write it by hand: one pass over the bytes, nothing kept but
//! numbers, and ion-rust's builder. It is what the library's reader is timed against; `cargo test` holds it against the
//! reader that is compared.

use crate::calls::Offset;
use crate::oracle::finish;
use crate::{Decimal, Timestamp};

/// What is left of a text.
struct Rest<'a>(&'a [u8]);

impl Rest<'_> {
    fn mark(&mut self, mark: u8) -> Option<()> {
        match self.0 {
            [first, rest @ ..] if *first == mark => {
                self.0 = rest;
                Some(())
            }
            _ => None,
        }
    }

    fn digit(&mut self) -> Option<u8> {
        match self.0 {
            [digit @ b'0'..=b'9', rest @ ..] => {
                self.0 = rest;
                Some(digit - b'0')
            }
            _ => None,
        }
    }

    fn two_digits(&mut self) -> Option<u32> {
        let tens = self.digit()? as u32;
        Some(tens * 10 + self.digit()? as u32)
    }

    /// Digits, one at least; those past the eighteenth only count.
    fn fraction(&mut self) -> Option<Decimal> {
        let mut coefficient = self.digit()? as u64;
        let mut digits = 1;
        while let Some(digit) = self.digit() {
            if digits < 18 {
                coefficient = coefficient * 10 + digit as u64;
            }
            digits += 1;
        }
        Some(Decimal::new(coefficient, -digits))
    }

    /// The offset that all that is left must be.
    fn offset(&mut self) -> Option<Offset> {
        if self.0 == b"Z" {
            return Some(Offset::Local(0));
        }
        let negative = self.mark(b'-').is_some();
        if !negative {
            self.mark(b'+')?;
        }
        let hours = self.two_digits()? as i32;
        self.mark(b':')?;
        let minutes = self.two_digits()? as i32;
        if minutes > 59 || !self.0.is_empty() {
            return None;
        }
        match (negative, hours * 60 + minutes) {
            (true, 0) => Some(Offset::None),
            (true, minutes) => Some(Offset::Local(-minutes)),
            (false, minutes) => Some(Offset::Local(minutes)),
        }
    }
}

pub fn read(text: &[u8]) -> Option<Timestamp> {
    let mut rest = Rest(text);
    let century = rest.two_digits()?;
    let year = Timestamp::with_year(century * 100 + rest.two_digits()?);
    if rest.0 == b"T" {
        return year.build().ok();
    }
    rest.mark(b'-')?;
    let month = year.with_month(rest.two_digits()?);
    if rest.0 == b"T" {
        return month.build().ok();
    }
    rest.mark(b'-')?;
    let day = month.with_day(rest.two_digits()?);
    if rest.0.is_empty() || rest.0 == b"T" {
        return day.build().ok();
    }
    rest.mark(b'T')?;
    let hour = rest.two_digits()?;
    rest.mark(b':')?;
    let minute = day.with_hour_and_minute(hour, rest.two_digits()?);
    if rest.mark(b':').is_none() {
        return finish(minute, rest.offset()?).ok();
    }
    let second = minute.with_second(rest.two_digits()?);
    if rest.mark(b'.').is_none() {
        return finish(second, rest.offset()?).ok();
    }
    let fraction = second.with_fractional_seconds(rest.fraction()?);
    finish(fraction, rest.offset()?).ok()
}
