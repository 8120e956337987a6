//! Texts whose reading a document states outright, or that follow one of its sentences.

use crate::calls::{Build, Built, Fraction, Offset, Pair, Stage};
use crate::examples::Source;
use Source::{IonText, Texts};

/// A text, and what is read from it: the pair of a field set, or a refusal's number.
pub struct Reading {
    pub source: Source,
    pub text: &'static str,
    pub owed: Result<Build, u32>,
}

impl Reading {
    /// The answer, by what builds.
    pub fn answer(&self, pair_of: impl FnOnce(&Build) -> Pair) -> Built {
        match &self.owed {
            Ok(build) => Built { number: 0, pair: pair_of(build) },
            Err(number) => Built { number: *number, pair: Pair::NONE },
        }
    }
}

const fn read(text: &'static str, build: Build) -> Reading {
    Reading { source: Texts, text, owed: Ok(build) }
}

const fn refused(text: &'static str, number: u32) -> Reading {
    Reading { source: Texts, text, owed: Err(number) }
}

/// One of the specification's own.
const fn ion(text: &'static str, owed: Result<Build, u32>) -> Reading {
    Reading { source: IonText, text, owed }
}

const DAY: Build = Build::day(2020, 2, 3);
const MINUTE: Build = DAY.minute(4, 5);
const SECOND: Build = DAY.second(4, 5, 6);
const IN_2007: Build = Build::day(2007, 2, 23);
const UTC: Offset = Offset::Local(0);

const fn digits(coefficient: u64, digits: i64) -> Build {
    let fraction = Fraction::Decimal { negative: false, coefficient, exponent: -digits };
    SECOND.fraction(fraction).offset(UTC)
}

/// The reader's sentences in their order, each with texts on either side of what it says.
pub const READINGS: [Reading; 57] = [
    // The five written forms.
    read("2020T", Build::year(2020)),
    read("2020-02T", Build { stage: Stage::Month, ..Build::day(2020, 2, 1) }),
    read("2020-02-03T", DAY),
    read("2020-02-03T04:05+00:00", MINUTE.offset(UTC)),
    read("2020-02-03T04:05:06-08:00", SECOND.offset(Offset::Local(-480))),
    refused("", 18),
    refused("2020-02-03T04:05", 18),
    refused("2020-02-03T04Z", 18),
    refused("2020-02-03 04:05Z", 18),
    refused("2020-02-03t04:05z", 18),
    // A full date also without its T.
    read("2020-02-03", DAY),
    refused("2020", 18),
    refused("2020-02", 18),
    // Z for +00:00.
    read("2020-02-03T04:05Z", MINUTE.offset(UTC)),
    read("2020-02-03T04:05:06Z", SECOND.offset(UTC)),
    refused("2020-02-03TZ", 18),
    refused("2020-02-03T04:05z", 18),
    // A year of four digits, other fields of two, a fraction of one at least.
    refused("220T", 18),
    refused("02020T", 18),
    refused("2020-2T", 18),
    refused("2020-02-3", 18),
    refused("2020-02-03T4:05Z", 18),
    refused("2020-02-03T04:05:6Z", 18),
    refused("2020-02-03T04:05+8:00", 18),
    refused("2020-02-03T04:05:06.Z", 18),
    read("2020-02-03T04:05:06.0Z", digits(0, 1)),
    read("2020-02-03T04:05:06.000000000000000001Z", digits(1, 18)),
    // Offset minutes above 59 break the form; hours are any two digits, and meet check 9.
    read("2020-02-03T04:05+00:59", MINUTE.offset(Offset::Local(59))),
    refused("2020-02-03T04:05+00:60", 18),
    refused("2020-02-03T04:05+99:60", 18),
    read("2020-02-03T04:05-23:59", MINUTE.offset(Offset::Local(-1439))),
    refused("2020-02-03T04:05-24:00", 9),
    refused("2020-02-03T04:05+99:59", 9),
    read("2020-02-03T04:05-00:00", MINUTE),
    // The whole slice.
    refused("2020T ", 18),
    refused(" 2020T", 18),
    refused("2020-02-03T04:05Z\n", 18),
    // A broken form comes ahead of the builder's checks, which keep their order.
    refused("0000-13-32T24:60:60.1+24:60", 18),
    refused("0000-13-32T24:60:60.1+24:00", 3),
    refused("0000-00-32T", 4),
    refused("0000-02-30T24:60:60.1+24:00", 5),
    refused("0000-02-30T23:60:60.1+24:00", 6),
    refused("0000-02-30T23:59:60.0000000000000000001+24:00", 7),
    refused("0000-02-30T23:59:59.0000000000000000001+24:00", 8),
    refused("0000-02-30T23:59:59.1+24:00", 9),
    refused("0000-02-30T23:59:59.1+23:59", 11),
    refused("2020-02-30T23:59:59.1+23:59", 10),
    // More than 18 digits, however many.
    refused("2020-02-03T04:05:06.0000000000000000000Z", 8),
    refused("2020-02-03T04:05:06.9999999999999999999999999999999999999999Z", 8),
    // The Ion specification's texts, as far as they are not written forms.
    ion("2007-02-23T12:14Z", Ok(IN_2007.minute(12, 14).offset(UTC))),
    ion("2007-02-23T20:14:33.079Z", Ok(IN_2007.second(20, 14, 33).fraction(Fraction::Milliseconds(79)).offset(UTC))),
    ion("2007-01-01", Ok(Build::day(2007, 1, 1))),
    ion("2007-02-23", Ok(IN_2007)),
    ion("2007-02-23T00:00Z", Ok(IN_2007.minute(0, 0).offset(UTC))),
    ion("2007", Err(18)),
    ion("2007-01", Err(18)),
    ion("2007-02-23T20:14:33.Z", Err(18)),
];
