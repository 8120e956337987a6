//! The calls that are compared, on plain numbers and bytes: their arguments, their answers, and the trait that each
//! side but the Rust implements.

use std::fmt;

/// A timestamp's packed pair.
#[derive(Clone, Copy, PartialEq, Eq, Default)]
pub struct Pair {
    pub word: u64,
    pub attoseconds: u64,
}

impl Pair {
    pub const NONE: Pair = Pair { word: 0, attoseconds: 0 };
}

impl fmt::Debug for Pair {
    fn fmt(&self, f: &mut fmt::Formatter<'_>) -> fmt::Result {
        write!(f, "(0x{:016x}, {})", self.word, self.attoseconds)
    }
}

/// The finest field that a builder was given. An hour alone is a stage of its own.
#[derive(Clone, Copy, PartialEq, Eq, PartialOrd, Ord, Debug)]
pub enum Stage {
    Year,
    Month,
    Day,
    Hour,
    Minute,
    Second,
}

impl Stage {
    pub const ALL: [Stage; 6] = [Stage::Year, Stage::Month, Stage::Day, Stage::Hour, Stage::Minute, Stage::Second];

    pub fn takes_offset(self) -> bool {
        self >= Stage::Hour
    }
}

#[derive(Clone, Copy, PartialEq, Eq, Debug)]
pub enum Fraction {
    None,
    Milliseconds(u32),
    Microseconds(u32),
    Nanoseconds(u32),
    NanosecondsTo { nanoseconds: u32, digits: u32 },
    Decimal { negative: bool, coefficient: u64, exponent: i64 },
}

#[derive(Clone, Copy, PartialEq, Eq, Debug)]
pub enum Offset {
    None,
    Local(i32),
    Utc(i32),
}

/// A staged field set. Fields finer than the stage are not given; a fraction only at the stage of the second, an
/// offset only from the hour on.
#[derive(Clone, Copy, PartialEq, Eq, Debug)]
pub struct Build {
    pub stage: Stage,
    /// The month is counted from 0.
    pub month0: bool,
    /// The day is counted from 0.
    pub day0: bool,
    /// Hour and minute are given by one call.
    pub hour_and_minute: bool,
    pub year: u32,
    pub month: u32,
    pub day: u32,
    pub hour: u32,
    pub minute: u32,
    pub second: u32,
    pub fraction: Fraction,
    pub offset: Offset,
}

impl Build {
    /// The year alone; the other fields have their first values.
    pub const fn year(year: u32) -> Build {
        Build {
            stage: Stage::Year,
            month0: false,
            day0: false,
            hour_and_minute: false,
            year,
            month: 1,
            day: 1,
            hour: 0,
            minute: 0,
            second: 0,
            fraction: Fraction::None,
            offset: Offset::None,
        }
    }

    pub const fn day(year: u32, month: u32, day: u32) -> Build {
        Build { stage: Stage::Day, month, day, ..Build::year(year) }
    }

    pub const fn minute(self, hour: u32, minute: u32) -> Build {
        Build { stage: Stage::Minute, hour, minute, ..self }
    }

    pub const fn second(self, hour: u32, minute: u32, second: u32) -> Build {
        Build { stage: Stage::Second, hour, minute, second, ..self }
    }

    pub const fn fraction(self, fraction: Fraction) -> Build {
        Build { fraction, ..self }
    }

    pub const fn offset(self, offset: Offset) -> Build {
        Build { offset, ..self }
    }

    /// The same, without what its stage does not take.
    pub fn staged(self) -> Build {
        let mut build = self;
        if build.stage < Stage::Second {
            build.fraction = Fraction::None;
        }
        if !build.stage.takes_offset() {
            build.offset = Offset::None;
        }
        build
    }
}

/// A number and a timestamp: (0, 0) beside a refusal.
#[derive(Clone, Copy, PartialEq, Eq, Debug)]
pub struct Built {
    pub number: u32,
    pub pair: Pair,
}

/// A number, and -1, 0 or 1: 0 beside a refusal.
#[derive(Clone, Copy, PartialEq, Eq, Debug)]
pub struct Ordered {
    pub number: u32,
    pub order: i32,
}

#[derive(Clone, Copy, PartialEq, Eq, Debug)]
pub struct Compared {
    pub number: u32,
    pub equal: bool,
}

/// The sign of the first less the second, and the size of the difference.
#[derive(Clone, Copy, PartialEq, Eq, Debug)]
pub struct Distance {
    pub number: u32,
    pub sign: i32,
    pub seconds: u64,
    pub attoseconds: u64,
}

/// How many bytes were written: 0 beside a refusal.
#[derive(Clone, Copy, PartialEq, Eq, Debug)]
pub struct Written {
    pub number: u32,
    pub written: usize,
}

/// A timestamp and how many bytes it took.
#[derive(Clone, Copy, PartialEq, Eq, Debug)]
pub struct Read {
    pub number: u32,
    pub pair: Pair,
    pub taken: usize,
}

/// How the scans of a file are laid out.
#[derive(Clone, Copy, PartialEq, Eq, PartialOrd, Ord, Debug)]
pub enum Layout {
    /// Tag, guard and value, from the file's beginning on.
    Old,
    /// Site, tag, guard and value, after a start.
    New,
}

impl Layout {
    pub const ALL: [Layout; 2] = [Layout::Old, Layout::New];
}

/// A guard's scan of a site's tag. Scans of the old layout have site 0.
#[derive(Clone, Copy, PartialEq, Eq, Debug, Default)]
pub struct Scan {
    pub site: u32,
    pub tag: u32,
    pub guard: u32,
    pub pair: Pair,
}

impl Scan {
    /// The site and the tag, by which reports go.
    pub fn post(&self) -> (u32, u32) {
        (self.site, self.tag)
    }
}

/// A scan and how many bytes it took: 0 in every part beside a refusal.
#[derive(Clone, Copy, PartialEq, Eq, Debug, Default)]
pub struct ScanRead {
    pub number: u32,
    pub scan: Scan,
    pub taken: usize,
}

/// How many scans a file holds: 0 beside a refusal.
#[derive(Clone, Copy, PartialEq, Eq, Debug, Default)]
pub struct FileRead {
    pub number: u32,
    pub scans: usize,
}

/// What scans of a file are beside the last kept one of their post.
#[derive(Clone, Copy, PartialEq, Eq, Debug, Default)]
pub struct Counts {
    pub scans: u64,
    pub doubles: u64,
    pub kept: u64,
    /// Of the kept ones.
    pub gaps: u64,
    pub backward: u64,
}

/// How many scans of each kind a file holds: 0 of all beside a refusal.
#[derive(Clone, Copy, PartialEq, Eq, Debug, Default)]
pub struct Report {
    pub number: u32,
    pub counts: Counts,
}

/// What is read from a timestamp: all 0 and no offset beside a refusal.
#[derive(Clone, Copy, PartialEq, Eq, Debug, Default)]
pub struct Fields {
    pub number: u32,
    pub year: u32,
    pub month: u32,
    pub day: u32,
    pub hour: u32,
    pub minute: u32,
    pub second: u32,
    pub precision: u32,
    pub digits: u32,
    pub offset: Option<i32>,
    pub milliseconds: u32,
    pub microseconds: u32,
    pub nanoseconds: u32,
    pub attoseconds: u64,
    /// The fraction as a decimal: 0 with exponent 0 where there is none.
    pub coefficient: u64,
    pub exponent: i64,
}

/// A date and a time of its day.
#[derive(Clone, Copy, PartialEq, Eq, Debug)]
pub struct DateTime {
    pub year: u32,
    pub month: u32,
    pub day: u32,
    pub hour: u32,
    pub minute: u32,
}

/// A library that answers with the scope's numbers. A call that answers `None` is not offered, and is not compared.
pub trait Library {
    fn name(&self) -> &'static str;

    fn build(&self, build: &Build) -> Built;
    fn check(&self, pair: Pair) -> Built;
    fn to_utc(&self, pair: Pair) -> Built;
    fn fields(&self, pair: Pair) -> Option<Fields>;

    fn cmp(&self, first: Pair, second: Pair) -> Ordered;
    fn eq(&self, first: Pair, second: Pair) -> Compared;
    fn ion_cmp(&self, first: Pair, second: Pair) -> Ordered;
    fn ion_eq(&self, first: Pair, second: Pair) -> Compared;
    fn distance(&self, first: Pair, second: Pair) -> Distance;

    fn text(&self, pair: Pair, buffer: &mut [u8]) -> Written;
    fn value(&self, pair: Pair, buffer: &mut [u8]) -> Written;
    /// A value without its header.
    fn body(&self, pair: Pair, buffer: &mut [u8]) -> Option<Written>;
    fn read(&self, input: &[u8]) -> Read;
    /// The value with which the input begins, in any form that the Ion specification allows.
    fn read_padded(&self, input: &[u8]) -> Read;
    /// The timestamp whose text the whole input is.
    fn read_text(&self, input: &[u8]) -> Built;

    fn layout(&self, file: &[u8]) -> Layout;
    /// The scan with which the input begins, as a file of that layout has it after its start.
    fn read_scan(&self, input: &[u8], layout: Layout) -> ScanRead;
    /// Writes the start of a new file from a place of the buffer on.
    fn write_start(&self, buffer: &mut [u8], at: usize) -> Written;
    /// Writes a scan of the new layout from a place of the buffer on.
    fn write_scan(&self, scan: Scan, buffer: &mut [u8], at: usize) -> Written;
    /// Reads a whole file of scans.
    fn check_file(&self, file: &[u8]) -> FileRead;
    /// Counts doubles within `w` seconds and gaps of more than `g`, and leaves the posts' last kept scans in `words`.
    fn report_file(&self, file: &[u8], w: u32, g: u32, words: &mut [u64]) -> Report;

    fn write_var_uint(&self, value: u64, buffer: &mut [u8]) -> Option<Written>;
    fn write_var_int(&self, value: i64, buffer: &mut [u8]) -> Option<Written>;
    fn write_zero_padded(&self, value: u64, width: usize, buffer: &mut [u8]) -> Option<Written>;
    fn add_offset_to_utc(&self, time: DateTime, offset: i32) -> Option<DateTime>;
    /// The month's length; 0 for a month outside 1 to 12 and for a year above 10000.
    fn days_in_month(&self, year: u32, month: u32) -> u32;
    /// The days from 0000-01-01 to the year's 1 January.
    fn year_start(&self, year: u32) -> u64;
}
