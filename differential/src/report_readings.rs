//! Reports over files whose answer a document states outright, or that follow one of its sentences.

use crate::calls::{Build, Counts, Fraction, Layout, Offset, Pair, Report};

/// A timestamp, and its value.
pub struct Stamp {
    build: Build,
    value: &'static [u8],
}

/// A site and a tag, both below 128.
type Post = (u8, u8);

/// A post and a timestamp. In a file they are a scan of guard 0.
type Posted = (Post, &'static Stamp);

/// What is asked of a file, and what is answered: how many scans, doubles, kept, gaps and backward steps there are, and
/// the last kept one of each post; or a refusal's number.
pub struct ReportReading {
    pub w: u32,
    pub g: u32,
    pub lent: usize,
    layout: Layout,
    scans: &'static [Posted],
    /// What follows the scans.
    rest: &'static [u8],
    owed: Result<([u64; 5], &'static [Posted]), u32>,
}

impl ReportReading {
    pub fn file(&self) -> Vec<u8> {
        let scan = |((site, tag), stamp): &Posted| match self.layout {
            Layout::Old => [&[0x80 | tag, 0x80], stamp.value].concat(),
            Layout::New => [&[0x80 | site, 0x80 | tag, 0x80], stamp.value].concat(),
        };
        let start: &[u8] = match self.layout {
            Layout::Old => &[],
            Layout::New => &[0x00, 0x82],
        };
        [start, &self.scans.iter().flat_map(scan).collect::<Vec<_>>(), self.rest].concat()
    }

    pub fn report(&self) -> Report {
        match self.owed {
            Ok(([scans, doubles, kept, gaps, backward], _)) => {
                Report { number: 0, counts: Counts { scans, doubles, kept, gaps, backward } }
            }
            Err(number) => Report { number, ..Report::default() },
        }
    }

    /// The words of the posts, by what builds; none beside a refusal.
    pub fn words(&self, pair_of: impl Fn(&Build) -> Pair) -> Vec<u64> {
        let last = self.owed.map_or(&[][..], |(_, last)| last);
        let words = |((site, tag), stamp): &Posted| {
            let pair = pair_of(&stamp.build);
            [*site as u64, *tag as u64, pair.word, pair.attoseconds]
        };
        last.iter().flat_map(words).collect()
    }

    const fn asked(self, w: u32, g: u32) -> ReportReading {
        ReportReading { w, g, ..self }
    }

    const fn lent(self, lent: usize) -> ReportReading {
        ReportReading { lent, ..self }
    }

    /// Over a file of the old layout.
    const fn old(self) -> ReportReading {
        ReportReading { layout: Layout::Old, ..self }
    }
}

/// With W 5 and G 10.
const fn report(scans: &'static [Posted], counts: [u64; 5], last: &'static [Posted]) -> ReportReading {
    ReportReading { w: 5, g: 10, lent: 1_024, layout: Layout::New, scans, rest: &[], owed: Ok((counts, last)) }
}

const fn refused(number: u32, scans: &'static [Posted], rest: &'static [u8]) -> ReportReading {
    ReportReading { w: 5, g: 10, lent: 1_024, layout: Layout::New, scans, rest, owed: Err(number) }
}

const fn stamp(build: Build, value: &'static [u8]) -> Stamp {
    Stamp { build, value }
}

/// A second of 2020-02-03T04:05.
const fn second(second: u32) -> Build {
    Build::day(2020, 2, 3).second(4, 5, second).offset(Offset::Local(0))
}

/// So many attoseconds more.
const fn and(second: Build, attoseconds: u64) -> Build {
    second.fraction(Fraction::Decimal { negative: false, coefficient: attoseconds, exponent: -18 })
}

const YEAR: Stamp = stamp(Build::year(1), &[0x62, 0xC0, 0x81]);
const START: Stamp = stamp(second(6), &[0x68, 0x80, 0x0F, 0xE4, 0x82, 0x83, 0x84, 0x85, 0x86]);
const AFTER_START: Stamp =
    stamp(and(second(6), 1), &[0x6A, 0x80, 0x0F, 0xE4, 0x82, 0x83, 0x84, 0x85, 0x86, 0xD2, 0x01]);
/// The start, eight hours behind.
const ELSEWHERE: Stamp = stamp(
    Build::day(2020, 2, 2).second(20, 5, 6).offset(Offset::Local(-480)),
    &[0x69, 0x43, 0xE0, 0x0F, 0xE4, 0x82, 0x83, 0x84, 0x85, 0x86],
);
/// Less than five seconds later, five, and more.
const BEFORE_5: Stamp = stamp(
    and(second(10), 999_999_999_999_999_999),
    &[0x6E, 0x91, 0x80, 0x0F, 0xE4, 0x82, 0x83, 0x84, 0x85, 0x8A, 0xD2, 0x0D, 0xE0, 0xB6, 0xB3, 0xA7, 0x63, 0xFF, 0xFF],
);
const AT_5: Stamp = stamp(second(11), &[0x68, 0x80, 0x0F, 0xE4, 0x82, 0x83, 0x84, 0x85, 0x8B]);
const AFTER_5: Stamp = stamp(and(second(11), 1), &[0x6A, 0x80, 0x0F, 0xE4, 0x82, 0x83, 0x84, 0x85, 0x8B, 0xD2, 0x01]);
/// Ten seconds later, and more.
const AT_10: Stamp = stamp(second(16), &[0x68, 0x80, 0x0F, 0xE4, 0x82, 0x83, 0x84, 0x85, 0x90]);
const AFTER_10: Stamp = stamp(and(second(16), 1), &[0x6A, 0x80, 0x0F, 0xE4, 0x82, 0x83, 0x84, 0x85, 0x90, 0xD2, 0x01]);
/// Less than a day later, and a day.
const BEFORE_NEXT_DAY: Stamp = stamp(
    and(Build::day(2020, 2, 4).second(4, 5, 5).offset(Offset::Local(0)), 999_999_999_999_999_999),
    &[0x6E, 0x91, 0x80, 0x0F, 0xE4, 0x82, 0x84, 0x84, 0x85, 0x85, 0xD2, 0x0D, 0xE0, 0xB6, 0xB3, 0xA7, 0x63, 0xFF, 0xFF],
);
const NEXT_DAY: Stamp = stamp(
    Build::day(2020, 2, 4).second(4, 5, 6).offset(Offset::Local(0)),
    &[0x68, 0x80, 0x0F, 0xE4, 0x82, 0x84, 0x84, 0x85, 0x86],
);
/// 4,294,967,295 seconds later: 49,710 days and 06:28:15; and more.
const AT_LAST: Stamp = stamp(
    Build::day(2156, 3, 11).second(10, 33, 21).offset(Offset::Local(0)),
    &[0x68, 0x80, 0x10, 0xEC, 0x83, 0x8B, 0x8A, 0xA1, 0x95],
);
const AFTER_LAST: Stamp = stamp(
    and(Build::day(2156, 3, 11).second(10, 33, 21).offset(Offset::Local(0)), 1),
    &[0x6A, 0x80, 0x10, 0xEC, 0x83, 0x8B, 0x8A, 0xA1, 0x95, 0xD2, 0x01],
);

/// Posts: one; another tag of its site; the same tag of another site; and that site's other tag.
const A: Post = (5, 1);
const B: Post = (5, 2);
const C: Post = (6, 1);
const D: Post = (6, 2);
/// A post of two other numbers, and the one that has them the other way round.
const E: Post = (3, 4);
const F: Post = (4, 3);
/// Posts of site 0, which all scans of old files have.
const O: Post = (0, 1);
const P: Post = (0, 2);

/// The report's sentences in their order, each with files on either side of what it says.
pub const REPORTS: [ReportReading; 97] = [
    // Scans, doubles, kept, gaps, backward steps; the words of a post are its site, its tag and its last kept scan.
    report(&[], [0, 0, 0, 0, 0], &[]),
    report(&[(A, &START)], [1, 0, 1, 0, 0], &[(A, &START)]),
    report(&[((0, 0), &YEAR)], [1, 0, 1, 0, 0], &[((0, 0), &YEAR)]),
    report(&[((127, 126), &BEFORE_5)], [1, 0, 1, 0, 0], &[((127, 126), &BEFORE_5)]),
    // A double lies less than W seconds after the last kept scan of its post,
    report(&[(A, &START), (A, &START)], [2, 1, 1, 0, 0], &[(A, &START)]),
    report(&[(A, &START), (A, &ELSEWHERE)], [2, 1, 1, 0, 0], &[(A, &START)]),
    report(&[(A, &ELSEWHERE), (A, &START)], [2, 1, 1, 0, 0], &[(A, &ELSEWHERE)]),
    report(&[(A, &START), (A, &BEFORE_5)], [2, 1, 1, 0, 0], &[(A, &START)]),
    report(&[(A, &START), (A, &AT_5)], [2, 0, 2, 0, 0], &[(A, &AT_5)]),
    report(&[(A, &START), (A, &AFTER_5)], [2, 0, 2, 0, 0], &[(A, &AFTER_5)]),
    report(&[(A, &ELSEWHERE), (A, &BEFORE_5)], [2, 1, 1, 0, 0], &[(A, &ELSEWHERE)]),
    report(&[(A, &ELSEWHERE), (A, &AT_5)], [2, 0, 2, 0, 0], &[(A, &AT_5)]),
    // or before it.
    report(&[(A, &BEFORE_5), (A, &START)], [2, 1, 1, 0, 0], &[(A, &BEFORE_5)]),
    report(&[(A, &AT_5), (A, &START)], [2, 0, 2, 0, 1], &[(A, &START)]),
    report(&[(A, &AFTER_5), (A, &START)], [2, 0, 2, 0, 1], &[(A, &START)]),
    // The last kept scan, and not a double.
    report(&[(A, &START), (A, &BEFORE_5), (A, &BEFORE_5)], [3, 2, 1, 0, 0], &[(A, &START)]),
    report(&[(A, &START), (A, &BEFORE_5), (A, &AT_5)], [3, 1, 2, 0, 0], &[(A, &AT_5)]),
    report(&[(A, &START), (A, &BEFORE_5), (A, &AFTER_10)], [3, 1, 2, 1, 0], &[(A, &AFTER_10)]),
    report(&[(A, &AT_10), (A, &AFTER_5), (A, &AT_5)], [3, 1, 2, 0, 1], &[(A, &AT_5)]),
    report(&[(A, &AT_5), (A, &START), (A, &BEFORE_5)], [3, 1, 2, 0, 1], &[(A, &START)]),
    // Of its site and tag together.
    report(&[(A, &START), (B, &START)], [2, 0, 2, 0, 0], &[(A, &START), (B, &START)]),
    report(&[(A, &START), (C, &START)], [2, 0, 2, 0, 0], &[(A, &START), (C, &START)]),
    report(&[(A, &START), (D, &START)], [2, 0, 2, 0, 0], &[(A, &START), (D, &START)]),
    report(&[(E, &START), (F, &START)], [2, 0, 2, 0, 0], &[(E, &START), (F, &START)]),
    report(&[(A, &START), (B, &AT_5), (A, &BEFORE_5)], [3, 1, 2, 0, 0], &[(A, &START), (B, &AT_5)]),
    report(&[(A, &START), (C, &AT_5), (A, &BEFORE_5)], [3, 1, 2, 0, 0], &[(A, &START), (C, &AT_5)]),
    report(&[(E, &START), (F, &AT_5), (E, &BEFORE_5)], [3, 1, 2, 0, 0], &[(E, &START), (F, &AT_5)]),
    report(&[(A, &START), (B, &AT_5), (A, &AT_5)], [3, 0, 3, 0, 0], &[(A, &AT_5), (B, &AT_5)]),
    report(&[(A, &START), (C, &AT_5), (A, &AT_5)], [3, 0, 3, 0, 0], &[(A, &AT_5), (C, &AT_5)]),
    report(&[(A, &START), (B, &AT_5), (A, &AFTER_10)], [3, 0, 3, 1, 0], &[(A, &AFTER_10), (B, &AT_5)]),
    report(&[(A, &START), (C, &AT_5), (A, &AFTER_10)], [3, 0, 3, 1, 0], &[(A, &AFTER_10), (C, &AT_5)]),
    report(&[(C, &START), (A, &AT_5), (C, &AFTER_10)], [3, 0, 3, 1, 0], &[(C, &AFTER_10), (A, &AT_5)]),
    // W is 0 to 86,400, and 0 means no doubles.
    report(&[(A, &START), (A, &START)], [2, 0, 2, 0, 0], &[(A, &START)]).asked(0, 10),
    report(&[(A, &START), (A, &ELSEWHERE)], [2, 0, 2, 0, 0], &[(A, &ELSEWHERE)]).asked(0, 10),
    report(&[(A, &START), (A, &AFTER_START)], [2, 0, 2, 0, 0], &[(A, &AFTER_START)]).asked(0, 10),
    report(&[(A, &START), (A, &START)], [2, 1, 1, 0, 0], &[(A, &START)]).asked(1, 10),
    report(&[(A, &START), (A, &BEFORE_NEXT_DAY)], [2, 1, 1, 0, 0], &[(A, &START)]).asked(86_400, u32::MAX),
    report(&[(A, &START), (A, &NEXT_DAY)], [2, 0, 2, 0, 0], &[(A, &NEXT_DAY)]).asked(86_400, u32::MAX),
    // A kept scan more than G seconds later is a gap.
    report(&[(A, &START), (A, &AT_10)], [2, 0, 2, 0, 0], &[(A, &AT_10)]),
    report(&[(A, &START), (A, &AFTER_10)], [2, 0, 2, 1, 0], &[(A, &AFTER_10)]),
    report(&[(A, &START), (A, &NEXT_DAY)], [2, 0, 2, 1, 0], &[(A, &NEXT_DAY)]),
    report(&[(A, &AFTER_START), (A, &AFTER_10)], [2, 0, 2, 0, 0], &[(A, &AFTER_10)]),
    report(&[(A, &START), (A, &AFTER_10)], [2, 1, 1, 0, 0], &[(A, &START)]).asked(60, 10),
    report(&[(A, &START), (A, &START)], [2, 0, 2, 0, 0], &[(A, &START)]).asked(0, 0),
    report(&[(A, &START), (A, &AFTER_START)], [2, 0, 2, 1, 0], &[(A, &AFTER_START)]).asked(0, 0),
    report(&[(A, &START), (A, &AT_LAST)], [2, 0, 2, 0, 0], &[(A, &AT_LAST)]).asked(86_400, u32::MAX),
    report(&[(A, &START), (A, &AT_LAST)], [2, 0, 2, 1, 0], &[(A, &AT_LAST)]).asked(86_400, u32::MAX - 1),
    report(&[(A, &START), (A, &AFTER_LAST)], [2, 0, 2, 1, 0], &[(A, &AFTER_LAST)]).asked(86_400, u32::MAX),
    report(&[(A, &START), (C, &AFTER_10)], [2, 0, 2, 0, 0], &[(A, &START), (C, &AFTER_10)]),
    // An earlier one is a backward step, and no gap.
    report(&[(A, &AFTER_START), (A, &START)], [2, 0, 2, 0, 1], &[(A, &START)]).asked(0, 0),
    report(&[(A, &NEXT_DAY), (A, &START)], [2, 0, 2, 0, 1], &[(A, &START)]),
    report(&[(A, &START), (A, &YEAR)], [2, 0, 2, 0, 1], &[(A, &YEAR)]),
    report(&[(A, &START), (B, &YEAR)], [2, 0, 2, 0, 0], &[(A, &START), (B, &YEAR)]),
    report(&[(A, &START), (C, &YEAR)], [2, 0, 2, 0, 0], &[(A, &START), (C, &YEAR)]),
    // Posts stand in the order of their first scans.
    report(&[(B, &START), (A, &START), (B, &AT_5)], [3, 0, 3, 0, 0], &[(B, &AT_5), (A, &START)]),
    report(&[(C, &START), (A, &START), (C, &AT_5)], [3, 0, 3, 0, 0], &[(C, &AT_5), (A, &START)]),
    report(&[(F, &START), (E, &START), (F, &AT_5)], [3, 0, 3, 0, 0], &[(F, &AT_5), (E, &START)]),
    report(&[(B, &AT_5), (A, &AT_5), (B, &START)], [3, 0, 3, 0, 1], &[(B, &START), (A, &AT_5)]),
    report(&[(B, &START), ((0, 0), &START), ((0, 0), &AT_10)], [3, 0, 3, 0, 0], &[(B, &START), ((0, 0), &AT_10)]),
    // Scans of old files have site 0.
    report(&[(O, &START)], [1, 0, 1, 0, 0], &[(O, &START)]),
    report(&[(O, &START)], [1, 0, 1, 0, 0], &[(O, &START)]).old(),
    report(&[], [0, 0, 0, 0, 0], &[]).old(),
    report(&[(O, &START), (O, &BEFORE_5)], [2, 1, 1, 0, 0], &[(O, &START)]).old(),
    report(&[(O, &START), (O, &AT_5)], [2, 0, 2, 0, 0], &[(O, &AT_5)]).old(),
    report(&[(O, &START), (O, &AFTER_10)], [2, 0, 2, 1, 0], &[(O, &AFTER_10)]).old(),
    report(&[(O, &AT_5), (O, &START)], [2, 0, 2, 0, 1], &[(O, &START)]).old(),
    report(&[(O, &START), (P, &BEFORE_5)], [2, 0, 2, 0, 0], &[(O, &START), (P, &BEFORE_5)]).old(),
    report(&[(P, &START), (O, &AT_5), (P, &AFTER_10)], [3, 0, 3, 1, 0], &[(P, &AFTER_10), (O, &AT_5)]).old(),
    report(&[((0, 0), &YEAR)], [1, 0, 1, 0, 0], &[((0, 0), &YEAR)]).old(),
    // More words may be lent; fewer are refused first, then W, both before reading.
    report(&[(A, &START)], [1, 0, 1, 0, 0], &[(A, &START)]).lent(1_025),
    report(&[(A, &START), (B, &YEAR)], [2, 0, 2, 0, 0], &[(A, &START), (B, &YEAR)]).lent(1_040),
    report(&[(O, &START)], [1, 0, 1, 0, 0], &[(O, &START)]).lent(1_025).old(),
    refused(20, &[(A, &START)], &[]).lent(1_023),
    refused(20, &[(O, &START)], &[]).lent(1_023).old(),
    refused(20, &[(O, &START)], &[]).lent(768).old(),
    refused(20, &[], &[]).lent(0),
    refused(20, &[(A, &START)], &[]).lent(1_023).asked(86_401, 10),
    refused(20, &[(A, &START)], &[0x6F]).lent(1),
    refused(21, &[(A, &START)], &[]).asked(86_401, 10),
    refused(21, &[(O, &START)], &[]).asked(86_401, 10).old(),
    refused(21, &[], &[]).asked(u32::MAX, 0),
    refused(21, &[(A, &START)], &[0x00, 0x80]).asked(86_401, 10).lent(1_030),
    // Damage is refused with its number, whatever stands before it.
    refused(13, &[], &[0x00]),
    refused(13, &[], &[0x00]).old(),
    refused(13, &[(A, &START), (B, &START)], &[0x81, 0x81, 0x80]),
    refused(13, &[(A, &START)], &[0x81, 0x81, 0x80, 0x68, 0x80, 0x0F, 0xE4, 0x82, 0x83, 0x84, 0x85]),
    refused(13, &[(A, &START)], &[0x85]),
    refused(14, &[], &[0x81, 0x81, 0x80, 0x6F]),
    refused(14, &[(O, &START), (O, &AT_5)], &[0x81, 0x80, 0x6F, 0x00, 0x80]).old(),
    refused(15, &[], &[0x81, 0x81, 0x80, 0x60]),
    refused(15, &[(A, &START), (A, &AFTER_10)], &[0x81, 0x81, 0x80, 0x62, 0xC0, 0x80]).lent(1_025),
    refused(19, &[], &[0x00, 0x82]),
    refused(19, &[], &[0x00, 0x81]).old(),
    refused(19, &[(A, &START), (A, &START)], &[0x00, 0x82]),
    refused(19, &[(O, &START), (O, &START)], &[0x00, 0x82]).old(),
    refused(19, &[(A, &NEXT_DAY), (A, &START), (B, &START)], &[0x82, 0x80, 0x10, 0x00, 0x00, 0x00, 0x80]),
    refused(19, &[(A, &START)], &[0x10, 0x00, 0x00, 0x00, 0x80, 0x81, 0x80, 0x62, 0xC0, 0x81]),
];
