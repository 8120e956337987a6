//! Readers of values in any form with one wrong answer each.

use crate::calls::{DateTime, Library, Pair, Read};
use crate::model::calendar::{month_length, shifted};
use crate::model::fields::{packed, Fields};
use crate::model::Model;

#[derive(Clone, Copy, PartialEq, Eq, Debug)]
pub enum Fault {
    /// The reader of the shortest form in its place, or for bodies after a short descriptor.
    ShortestOnly,
    ShortestAfterShort,
    /// Numbers of up to nine bytes, or of up to eleven.
    NineBytes,
    ElevenBytes,
    /// Numbers whose bits past the 64th are lost, or past the 32nd.
    WordsOnly,
    HalvesOnly,
    LengthTo63,
    LengthTo65,
    /// After 6E no length that a short descriptor has.
    LengthFrom14,
    /// A length that is cut short is none of a timestamp, or only if it is above 64 already.
    CutIsBroken,
    LargeBeforeItsMark,
    /// One above 64 is told only where its body is there.
    BodyBeforeLength,
    /// One that wants an eleventh byte to refuse ten without a mark.
    WantsElevenBytes,
    /// 6F is a timestamp's, though a null one.
    NullIsBroken,
    /// A negative zero is refused as an exponent, or as a coefficient; as an offset of more than a byte it is known.
    NoNegativeExponent,
    NoNegativeCoefficient,
    UnknownInOneByte,
    /// Beside a zero only the exponent 0 is ignored, or those of up to 63.
    OnlyZeroIgnored,
    SmallIgnored,
    /// A zero is ignored with any exponent, or with those that have too many digits.
    AllIgnored,
    ManyDigitsIgnored,
    NineteenDigits,
    /// A coefficient has no zeros before it.
    NoZeros,
    /// Only the last eight bytes of a coefficient count.
    EightBytes,
    /// A coefficient's sign does not count.
    NoSign,
    /// A whole second is a fraction.
    WholeSecond,
    /// What follows the value belongs to the coefficient.
    ReadsOn,
    KnownAtDay,
    HourAlone,
    OffsetOfADay,
    /// A month has 31 days, or a minute 61 seconds.
    AnyDay,
    LeapSecond,
    /// UTC years are those of local time, or have no year 10000.
    NoYearZero,
    NoYear10000,
    AnyLocalYear,
    /// The offset is not added.
    StaysInUtc,
    /// A header has two bytes at most.
    ShortHeader,
    /// A refusal that takes a byte.
    TakesRefused,
}

pub const ALL: [Fault; 38] = [
    Fault::ShortestOnly,
    Fault::ShortestAfterShort,
    Fault::NineBytes,
    Fault::ElevenBytes,
    Fault::WordsOnly,
    Fault::HalvesOnly,
    Fault::LengthTo63,
    Fault::LengthTo65,
    Fault::LengthFrom14,
    Fault::CutIsBroken,
    Fault::LargeBeforeItsMark,
    Fault::BodyBeforeLength,
    Fault::WantsElevenBytes,
    Fault::NullIsBroken,
    Fault::NoNegativeExponent,
    Fault::NoNegativeCoefficient,
    Fault::UnknownInOneByte,
    Fault::OnlyZeroIgnored,
    Fault::SmallIgnored,
    Fault::AllIgnored,
    Fault::ManyDigitsIgnored,
    Fault::NineteenDigits,
    Fault::NoZeros,
    Fault::EightBytes,
    Fault::NoSign,
    Fault::WholeSecond,
    Fault::ReadsOn,
    Fault::KnownAtDay,
    Fault::HourAlone,
    Fault::OffsetOfADay,
    Fault::AnyDay,
    Fault::LeapSecond,
    Fault::NoYearZero,
    Fault::NoYear10000,
    Fault::AnyLocalYear,
    Fault::StaysInUtc,
    Fault::ShortHeader,
    Fault::TakesRefused,
];

/// The reading, with a fault or none.
pub fn read(fault: Option<Fault>, input: &[u8]) -> Read {
    let reader = Reader(fault);
    let short = matches!(input, [0x60..=0x6D, ..]);
    if reader.has(Fault::ShortestOnly) || short && reader.has(Fault::ShortestAfterShort) {
        return Model.read(input);
    }
    let taken = reader.has(Fault::TakesRefused) as usize;
    reader.accepted(input).unwrap_or_else(|number| Read { number, pair: Pair::NONE, taken })
}

/// A number's sign where it has one, its magnitude, how many bytes it has, and what follows it.
type Number<'a> = (bool, u128, usize, &'a [u8]);

struct Reader(Option<Fault>);

impl Reader {
    fn has(&self, fault: Fault) -> bool {
        self.0 == Some(fault)
    }

    /// The same, or the number of its refusal.
    fn accepted(&self, input: &[u8]) -> Result<Read, u32> {
        let (first, rest) = input.split_first().ok_or(13u32)?;
        let (length, rest) = match first {
            0x60..=0x6D => ((first - 0x60) as usize, rest),
            0x6E => self.length(rest)?,
            0x6F if self.has(Fault::NullIsBroken) => return Err(15),
            _ => return Err(14),
        };
        let (body, after) = rest.split_at_checked(length).ok_or(13u32)?;
        let pair = self.body(body, after).ok_or(15u32)?;
        let header = input.len() - rest.len();
        let taken = length + if self.has(Fault::ShortHeader) { header.min(2) } else { header };
        Ok(Read { number: 0, pair, taken })
    }

    fn length<'a>(&self, bytes: &'a [u8]) -> Result<(usize, &'a [u8]), u32> {
        let most = match self.0 {
            Some(Fault::LengthTo63) => 63,
            Some(Fault::LengthTo65) => 65,
            _ => 64,
        };
        let least = if self.has(Fault::LengthFrom14) { 14 } else { 0 };
        let many = bytes.len() >= if self.has(Fault::WantsElevenBytes) { 11 } else { self.longest() };
        let so_far = bytes.iter().fold(0u128, |value, byte| value << 7 | *byte as u128);
        match self.number(bytes, 0) {
            None if many || self.has(Fault::CutIsBroken) => Err(15),
            None if so_far > most && self.has(Fault::LargeBeforeItsMark) => Err(15),
            None => Err(13),
            Some((_, length, _, rest)) if (least..=most).contains(&length) => Ok((length as usize, rest)),
            Some((_, length, _, rest)) if length > rest.len() as u128 && self.has(Fault::BodyBeforeLength) => Err(13),
            Some(_) => Err(15),
        }
    }

    fn longest(&self) -> usize {
        match self.0 {
            Some(Fault::NineBytes) => 9,
            Some(Fault::ElevenBytes) => 11,
            _ => 10,
        }
    }

    /// A number with a sign in that bit of its first byte, or without one.
    fn number<'a>(&self, bytes: &'a [u8], sign: u8) -> Option<Number<'a>> {
        let count = 1 + bytes.iter().take(self.longest()).position(|byte| byte & 0x80 != 0)?;
        let (number, rest) = bytes.split_at(count);
        let first = (number[0] & 0x7F & !sign) as u128;
        let magnitude = number[1..].iter().fold(first, |value, byte| value << 7 | (byte & 0x7F) as u128);
        let magnitude = match self.0 {
            Some(Fault::WordsOnly) => magnitude as u64 as u128,
            Some(Fault::HalvesOnly) => magnitude as u32 as u128,
            _ => magnitude,
        };
        Some((number[0] & sign != 0, magnitude, count, rest))
    }

    fn body(&self, body: &[u8], after: &[u8]) -> Option<Pair> {
        let (negative, minutes, count, mut rest) = self.number(body, 0x40)?;
        let known = minutes > 0 || !negative || count > 1 && self.has(Fault::UnknownInOneByte);
        if minutes > 1439 + self.has(Fault::OffsetOfADay) as u128 {
            return None;
        }
        let minutes = if negative { -(minutes as i32) } else { minutes as i32 };
        let mut fields = Vec::new();
        while !rest.is_empty() && fields.len() < 6 {
            let (_, field, _, after) = self.number(rest, 0)?;
            fields.push(u32::try_from(field).ok()?);
            rest = after;
        }
        let precision = match fields.len() {
            count @ 1..=3 => count as u32 - 1,
            4 if self.has(Fault::HourAlone) => 3,
            count @ 5..=6 => count as u32 - 2,
            _ => return None,
        };
        if known && precision < 3 - self.has(Fault::KnownAtDay) as u32 {
            return None;
        }
        let field = |place: usize, first: u32| fields.get(place).copied().unwrap_or(first);
        let utc = DateTime {
            year: field(0, 0),
            month: field(1, 1),
            day: field(2, 1),
            hour: field(3, 0),
            minute: field(4, 0),
        };
        let second = field(5, 0);
        let (digits, attoseconds) = self.fraction(rest, after)?;
        let time = self.local(utc, second, if known { minutes } else { 0 })?;
        let offset = known.then_some(minutes);
        Some(packed(&Fields { time, second, precision, digits, attoseconds, offset, in_utc: false }))
    }

    /// The local time of UTC fields that there are.
    fn local(&self, utc: DateTime, second: u32, minutes: i32) -> Option<DateTime> {
        let years = match self.0 {
            Some(Fault::NoYearZero) => 1..=10_000,
            Some(Fault::NoYear10000) => 0..=9999,
            _ => 0..=10_000,
        };
        let days = if self.has(Fault::AnyDay) { 31 } else { month_length(utc.year, utc.month) };
        let date = years.contains(&utc.year) && (1..=12).contains(&utc.month) && (1..=days).contains(&utc.day);
        if !date || utc.hour > 23 || utc.minute > 59 || second > 59 + self.has(Fault::LeapSecond) as u32 {
            return None;
        }
        let local = shifted(utc, minutes)?;
        let moved = if minutes == 0 || self.has(Fault::StaysInUtc) { utc } else { local };
        ((1..=9999).contains(&local.year) || self.has(Fault::AnyLocalYear)).then_some(moved)
    }

    /// Digits, and the attoseconds of a fraction.
    fn fraction(&self, bytes: &[u8], after: &[u8]) -> Option<(u64, u128)> {
        if bytes.is_empty() {
            return Some((0, 0));
        }
        let (below_zero, digits, _, rest) = self.number(bytes, 0x40)?;
        let mut rest = rest.to_vec();
        if self.has(Fault::ReadsOn) {
            rest.extend(after);
        }
        let first = rest.first().copied().unwrap_or(0);
        let negative = first & 0x80 != 0;
        if let Some(first) = rest.first_mut() {
            *first &= 0x7F;
        }
        let zeros = rest.iter().take_while(|byte| **byte == 0).count();
        let mut coefficient = &rest[zeros..];
        let is_zero = coefficient.is_empty();
        let needed = !is_zero && coefficient[0] & 0x80 != 0;
        if zeros > needed as usize && !negative && self.has(Fault::NoZeros) {
            return None;
        }
        if self.has(Fault::EightBytes) {
            coefficient = &coefficient[coefficient.len().saturating_sub(8)..];
        }
        if digits == 0 && below_zero && self.has(Fault::NoNegativeExponent)
            || is_zero && negative && self.has(Fault::NoNegativeCoefficient)
        {
            return None;
        }
        let ignored = match self.0 {
            Some(Fault::OnlyZeroIgnored) => digits == 0,
            Some(Fault::SmallIgnored) => digits == 0 || !below_zero && digits <= 63,
            Some(Fault::AllIgnored) => true,
            Some(Fault::ManyDigitsIgnored) => !below_zero || digits == 0 || digits > 18,
            _ => !below_zero || digits == 0,
        };
        if is_zero && ignored {
            return Some((0, 0));
        }
        let most = 18 + self.has(Fault::NineteenDigits) as u128;
        if !below_zero || !(1..=most).contains(&digits) || coefficient.len() > 8 {
            return None;
        }
        if negative && !is_zero && !self.has(Fault::NoSign) {
            return None;
        }
        let coefficient = coefficient.iter().fold(0u128, |value, byte| value << 8 | *byte as u128);
        let attoseconds = coefficient * 10u128.pow(19 - digits as u32) / 10;
        let second = 10u128.pow(18);
        (attoseconds < second || attoseconds == second && self.has(Fault::WholeSecond))
            .then_some((digits as u64, attoseconds))
    }
}
