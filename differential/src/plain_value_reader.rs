//! A reader of a value in any form as a user of ion-rust would write it by hand: one pass over the bytes, nothing kept but
//! numbers, and ion-rust's builder. It is what the library's reader is timed against; `cargo test` holds it against the
//! reader that is compared.

use crate::calls::Offset;
use crate::oracle::finish;
use crate::{Decimal, Timestamp};

/// What is left of a value.
struct Rest<'a>(&'a [u8]);

impl Rest<'_> {
    /// The first byte of a number of up to ten bytes, and the number without those of its bits that are left out there. The
    /// largest of 64 bits stands for any larger one.
    fn number(&mut self, left_out: u8) -> Option<(u8, u64)> {
        let first = *self.0.first()?;
        let mut value = (first & 0x7F & !left_out) as u64;
        let mut large = false;
        let (mut byte, mut count) = (first, 1);
        while byte & 0x80 == 0 {
            if count == 10 {
                return None;
            }
            byte = *self.0.get(count)?;
            large |= value >> 57 != 0;
            value = value << 7 | (byte & 0x7F) as u64;
            count += 1;
        }
        self.0 = &self.0[count..];
        Some((first, if large { u64::MAX } else { value }))
    }

    fn var_uint(&mut self) -> Option<u32> {
        self.number(0)?.1.try_into().ok()
    }

    fn var_int(&mut self) -> Option<(bool, u64)> {
        let (first, magnitude) = self.number(0x40)?;
        Some((first & 0x40 != 0, magnitude))
    }

    /// The length that the first byte has, or that follows it.
    fn length(&mut self) -> Option<usize> {
        let (first, rest) = self.0.split_first()?;
        self.0 = rest;
        match first {
            0x60..=0x6D => Some((first - 0x60) as usize),
            0x6E => self.var_uint().map(|length| length as usize).filter(|length| *length <= 64),
            _ => None,
        }
    }

    /// An offset in minutes; negative zero is unknown.
    fn offset(&mut self) -> Option<Option<i32>> {
        match self.var_int()? {
            (true, 0) => Some(None),
            (negative, minutes @ 0..=1439) => Some(Some(if negative { -(minutes as i32) } else { minutes as i32 })),
            _ => None,
        }
    }

    /// The fraction that all that is left must be; none where it is a zero without digits.
    fn fraction(&mut self) -> Option<Option<Decimal>> {
        if self.0.is_empty() {
            return Some(None);
        }
        let (negative, magnitude) = self.var_int()?;
        let digits = if negative { magnitude } else { 0 };
        let (mut below_zero, mut coefficient) = (false, 0);
        if let [first, rest @ ..] = self.0 {
            below_zero = first & 0x80 != 0;
            coefficient = (first & 0x7F) as u64;
            for byte in rest {
                if coefficient >> 56 != 0 {
                    return None;
                }
                coefficient = coefficient << 8 | *byte as u64;
            }
        }
        match (digits, coefficient) {
            (0, 0) => Some(None),
            (1..=18, _) if !below_zero || coefficient == 0 => Some(Some(Decimal::new(coefficient, -(digits as i64)))),
            _ => None,
        }
    }
}

pub fn read(input: &[u8]) -> Option<(Timestamp, usize)> {
    let mut rest = Rest(input);
    let length = rest.length()?;
    let taken = input.len() - rest.0.len() + length;
    Some((stamp(Rest(rest.0.get(..length)?))?, taken))
}

/// The timestamp of a body.
fn stamp(mut rest: Rest<'_>) -> Option<Timestamp> {
    let offset = rest.offset()?;
    let year = rest.var_uint()?;
    if rest.0.is_empty() {
        return unless_known(offset, || Timestamp::with_year(year).build().ok());
    }
    let month = rest.var_uint()?;
    if rest.0.is_empty() {
        return unless_known(offset, || Timestamp::with_year(year).with_month(month).build().ok());
    }
    let day = rest.var_uint()?;
    if rest.0.is_empty() {
        return unless_known(offset, || Timestamp::with_ymd(year, month, day).build().ok());
    }
    let (hour, minute) = (rest.var_uint()?, rest.var_uint()?);
    let (minute, offset) = match (year, offset) {
        (10_000, Some(minutes)) => {
            let (hour, minute) = last_day(month, day, hour, minute, minutes)?;
            (Timestamp::with_ymd(9999, 12, 31).with_hour_and_minute(hour, minute), Offset::Local(minutes))
        }
        _ => {
            let minute = Timestamp::with_ymd(year, month, day).with_hour_and_minute(hour, minute);
            (minute, offset.map_or(Offset::None, Offset::Utc))
        }
    };
    if rest.0.is_empty() {
        return finish(minute, offset).ok();
    }
    let second = minute.with_second(rest.var_uint()?);
    match rest.fraction()? {
        None => finish(second, offset).ok(),
        Some(fraction) => finish(second.with_fractional_seconds(fraction), offset).ok(),
    }
}

/// What is coarser than a minute has no known offset.
fn unless_known(offset: Option<i32>, build: impl FnOnce() -> Option<Timestamp>) -> Option<Timestamp> {
    match offset {
        None => build(),
        Some(_) => None,
    }
}

/// The local hour and minute of a UTC time of the year 10000, which the builder does not take, where it is local time of
/// 9999-12-31.
fn last_day(month: u32, day: u32, hour: u32, minute: u32, offset: i32) -> Option<(u32, u32)> {
    if (month, day) != (1, 1) || hour > 23 || minute > 59 {
        return None;
    }
    let left = (hour * 60 + minute) as i32 + offset;
    let minutes = (left < 0).then(|| (left + 1440) as u32)?;
    Some((minutes / 60, minutes % 60))
}
