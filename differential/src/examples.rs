//! Examples that do not come from the Rust: the scope's own, the Ion specification's, and one worked by hand from
//! the scope's rules.

use crate::calls::{Build, Fraction, Offset, Stage};

/// Where an example stands.
#[derive(Clone, Copy, PartialEq, Eq, Debug)]
pub enum Source {
    /// docs/SCOPE.md, P1 to P12.
    Numbered,
    /// docs/SCOPE.md: the others of that section, and sentences with a number of their own.
    Others,
    /// docs/SCOPE.md: the sentences on reading a text.
    Texts,
    /// docs/SCOPE.md: the sentences on scans and their files.
    Scans,
    /// docs/SCOPE.md: the sentences on doubles and gaps.
    Reports,
    /// docs/SCOPE.md: the sentences on values in any form.
    Padded,
    /// The Ion 1.0 specification, section "Timestamp": texts, and which of them are one instant.
    IonText,
    /// The Ion 1.0 binary encoding, section "6: Timestamp": values of 2000-01-01T00:00:00, with and without a fraction.
    IonBinary,
    /// Worked by hand from the scope's rule of value bytes: an unknown offset is C0; the year 2000 is 15 * 128 + 80, so
    /// 0F D0.
    ByHand,
}

impl Source {
    pub const ALL: [Source; 9] = [
        Source::Numbered,
        Source::Others,
        Source::Texts,
        Source::Scans,
        Source::Reports,
        Source::Padded,
        Source::IonText,
        Source::IonBinary,
        Source::ByHand,
    ];

    pub fn name(self) -> &'static str {
        match self {
            Source::Numbered => "docs/SCOPE.md, P1 to P12",
            Source::Others => "docs/SCOPE.md, other examples",
            Source::Texts => "docs/SCOPE.md, reading a text",
            Source::Scans => "docs/SCOPE.md, files of scans",
            Source::Reports => "docs/SCOPE.md, doubles and gaps",
            Source::Padded => "docs/SCOPE.md, values in any form",
            Source::IonText => "Ion 1.0 specification, Timestamp",
            Source::IonBinary => "Ion 1.0 binary encoding, 6: Timestamp",
            Source::ByHand => "worked by hand from docs/SCOPE.md",
        }
    }
}

/// A field set, its number, and where accepted its text and value bytes as far as they are told.
pub struct Example {
    pub source: Source,
    pub build: Build,
    pub number: u32,
    pub text: &'static str,
    pub value: &'static [u8],
}

/// Two field sets and their order. `apart` is the size of their distance in seconds, where it is told.
pub struct Order {
    pub source: Source,
    pub first: Build,
    pub second: Build,
    pub cmp: i32,
    pub ion_cmp: Option<i32>,
    pub apart: Option<u64>,
}

/// Bytes that are no value, with the reader's number.
pub struct Unread {
    pub source: Source,
    pub bytes: &'static [u8],
    pub number: u32,
}

const P3: Build = Build::day(2020, 2, 3).second(4, 5, 6).offset(Offset::Local(0));

const fn accepted(source: Source, build: Build, text: &'static str, value: &'static [u8]) -> Example {
    Example { source, build, number: 0, text, value }
}

const fn refused(source: Source, build: Build, number: u32) -> Example {
    Example { source, build, number, text: "", value: &[] }
}

const fn month(year: u32, month: u32) -> Build {
    Build { stage: Stage::Month, ..Build::day(year, month, 1) }
}

const fn digits(coefficient: u64, digits: i64) -> Fraction {
    Fraction::Decimal { negative: false, coefficient, exponent: -digits }
}

const fn year_2000(fraction: Fraction) -> Build {
    let second = Build::day(2000, 1, 1).second(0, 0, 0);
    second.fraction(fraction).offset(Offset::Local(0))
}

/// 2007-02-23T20:14:33.079, or that of another hour.
const fn in_2007(hour: u32, offset: Offset) -> Build {
    let second = Build::day(2007, 2, 23).second(hour, 14, 33);
    second.fraction(Fraction::Milliseconds(79)).offset(offset)
}

use Source::{ByHand, IonBinary, IonText, Numbered, Others};

pub const EXAMPLES: [Example; 38] = [
    accepted(Numbered, Build::year(1), "0001T", &[0x62, 0xC0, 0x81]),
    refused(Numbered, Build::year(0), 11),
    refused(Numbered, Build::year(10_000), 2),
    accepted(Numbered, P3, "2020-02-03T04:05:06+00:00", &[0x68, 0x80, 0x0F, 0xE4, 0x82, 0x83, 0x84, 0x85, 0x86]),
    accepted(
        Numbered,
        P3.fraction(Fraction::Milliseconds(70)).offset(Offset::Local(-480)),
        "2020-02-03T04:05:06.070-08:00",
        &[0x6B, 0x43, 0xE0, 0x0F, 0xE4, 0x82, 0x83, 0x8C, 0x85, 0x86, 0xC3, 0x46],
    ),
    accepted(
        Numbered,
        P3.fraction(Fraction::Nanoseconds(123_456_789)).offset(Offset::Local(-480)),
        "2020-02-03T04:05:06.123456789-08:00",
        &[0x6E, 0x8E, 0x43, 0xE0, 0x0F, 0xE4, 0x82, 0x83, 0x8C, 0x85, 0x86, 0xC9, 0x07, 0x5B, 0xCD, 0x15],
    ),
    accepted(
        Numbered,
        P3.fraction(Fraction::Milliseconds(128)).offset(Offset::None),
        "2020-02-03T04:05:06.128-00:00",
        &[0x6B, 0xC0, 0x0F, 0xE4, 0x82, 0x83, 0x84, 0x85, 0x86, 0xC3, 0x00, 0x80],
    ),
    accepted(
        Numbered,
        Build::day(1, 1, 1).minute(0, 0).offset(Offset::Local(1)),
        "0001-01-01T00:00+00:01",
        &[0x66, 0x81, 0x80, 0x8C, 0x9F, 0x97, 0xBB],
    ),
    accepted(
        Numbered,
        Build::day(9999, 12, 31).minute(23, 59).offset(Offset::Local(-1)),
        "9999-12-31T23:59-00:01",
        &[0x67, 0xC1, 0x4E, 0x90, 0x81, 0x81, 0x80, 0x80],
    ),
    refused(Numbered, Build::day(1900, 2, 29), 10),
    accepted(Numbered, Build::day(2000, 2, 29), "2000-02-29T", &[]),
    accepted(Others, P3.offset(Offset::Local(1439)), "2020-02-03T04:05:06+23:59", &[]),
    refused(Others, P3.offset(Offset::Local(1440)), 9),
    accepted(Others, P3.fraction(digits(1, 18)), "2020-02-03T04:05:06.000000000000000001+00:00", &[]),
    refused(Others, P3.fraction(digits(1, 19)), 8),
    accepted(Others, Build::day(0, 12, 31).minute(23, 59).offset(Offset::Utc(1)), "0001-01-01T00:00+00:01", &[]),
    refused(Others, Build::day(9999, 12, 31).minute(23, 59).offset(Offset::Utc(1)), 11),
    accepted(Others, Build::year(2020), "2020T", &[]),
    accepted(Others, month(2020, 2), "2020-02T", &[]),
    accepted(Others, Build::day(2020, 2, 3), "2020-02-03T", &[]),
    refused(Others, Build { month0: true, ..month(2020, u32::MAX) }, 3),
    refused(Others, Build { day0: true, ..Build::day(2020, 1, u32::MAX) }, 4),
    accepted(IonText, Build::day(2007, 2, 23).minute(12, 14).offset(Offset::Local(0)), "2007-02-23T12:14+00:00", &[]),
    accepted(IonText, in_2007(12, Offset::Local(-480)), "2007-02-23T12:14:33.079-08:00", &[]),
    accepted(IonText, in_2007(20, Offset::Local(0)), "2007-02-23T20:14:33.079+00:00", &[]),
    accepted(IonText, in_2007(20, Offset::None), "2007-02-23T20:14:33.079-00:00", &[]),
    accepted(IonText, Build::day(2007, 1, 1).minute(0, 0), "2007-01-01T00:00-00:00", &[]),
    accepted(IonText, Build::day(2007, 1, 1), "2007-01-01T", &[]),
    accepted(IonText, month(2007, 1), "2007-01T", &[]),
    accepted(IonText, Build::year(2007), "2007T", &[]),
    accepted(IonText, Build::day(2007, 2, 23), "2007-02-23T", &[]),
    accepted(IonText, Build::day(2007, 2, 23).minute(0, 0).offset(Offset::Local(0)), "2007-02-23T00:00+00:00", &[]),
    accepted(IonText, Build::day(2007, 2, 23).second(0, 0, 0), "2007-02-23T00:00:00-00:00", &[]),
    accepted(ByHand, Build::year(2000), "2000T", &[0x63, 0xC0, 0x0F, 0xD0]),
    accepted(
        IonBinary,
        year_2000(Fraction::None),
        "2000-01-01T00:00:00+00:00",
        &[0x68, 0x80, 0x0F, 0xD0, 0x81, 0x81, 0x80, 0x80, 0x80],
    ),
    accepted(
        IonBinary,
        year_2000(digits(0, 1)),
        "2000-01-01T00:00:00.0+00:00",
        &[0x69, 0x80, 0x0F, 0xD0, 0x81, 0x81, 0x80, 0x80, 0x80, 0xC1],
    ),
    accepted(
        IonBinary,
        year_2000(digits(0, 2)),
        "2000-01-01T00:00:00.00+00:00",
        &[0x69, 0x80, 0x0F, 0xD0, 0x81, 0x81, 0x80, 0x80, 0x80, 0xC2],
    ),
    // A fraction of 0d0 leaves no digits.
    accepted(
        IonBinary,
        year_2000(digits(0, 0)),
        "2000-01-01T00:00:00+00:00",
        &[0x68, 0x80, 0x0F, 0xD0, 0x81, 0x81, 0x80, 0x80, 0x80],
    ),
];

pub const ORDERS: [Order; 6] = [
    Order {
        source: Numbered,
        first: Build::day(2020, 3, 1).minute(23, 28).offset(Offset::Local(1439)),
        second: Build::day(2020, 2, 28).minute(23, 30).offset(Offset::Local(-1439)),
        cmp: 0,
        ion_cmp: Some(1),
        apart: Some(0),
    },
    Order {
        source: Numbered,
        first: Build::year(2021),
        second: Build::year(2020),
        cmp: 1,
        ion_cmp: Some(1),
        apart: Some(31_622_400),
    },
    Order {
        source: Others,
        first: P3.fraction(digits(5, 1)),
        second: P3.fraction(digits(10, 2)),
        cmp: 1,
        ion_cmp: Some(-1),
        apart: Some(0),
    },
    Order {
        source: IonText,
        first: in_2007(12, Offset::Local(-480)),
        second: in_2007(20, Offset::Local(0)),
        cmp: 0,
        ion_cmp: None,
        apart: Some(0),
    },
    Order {
        source: IonText,
        first: in_2007(20, Offset::Local(0)),
        second: in_2007(20, Offset::None),
        cmp: 0,
        ion_cmp: None,
        apart: Some(0),
    },
    Order {
        source: IonText,
        first: Build::year(2007),
        second: Build::day(2007, 1, 1).minute(0, 0),
        cmp: 0,
        ion_cmp: None,
        apart: Some(0),
    },
];

/// The scope's stop after P3 and P4, and values that the Ion 1.0 binary encoding has as equivalents of
/// 2000-01-01T00:00:00+00:00 without a fraction, and the writer does not write: an exponent 0 alone, one with a
/// coefficient 00, a negative zero exponent, an exponent 1. The reader of scans and `stamps` takes only the shortest form;
/// padded_readings.rs has what that of any form makes of them.
pub const UNREAD: [Unread; 5] = [
    Unread { source: Others, bytes: &[0x6F], number: 14 },
    Unread { source: IonBinary, bytes: &[0x69, 0x80, 0x0F, 0xD0, 0x81, 0x81, 0x80, 0x80, 0x80, 0x80], number: 15 },
    Unread {
        source: IonBinary,
        bytes: &[0x6A, 0x80, 0x0F, 0xD0, 0x81, 0x81, 0x80, 0x80, 0x80, 0x80, 0x00],
        number: 15,
    },
    Unread { source: IonBinary, bytes: &[0x69, 0x80, 0x0F, 0xD0, 0x81, 0x81, 0x80, 0x80, 0x80, 0xC0], number: 15 },
    Unread { source: IonBinary, bytes: &[0x69, 0x80, 0x0F, 0xD0, 0x81, 0x81, 0x80, 0x80, 0x80, 0x81], number: 15 },
];
