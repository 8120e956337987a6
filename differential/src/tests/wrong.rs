//! Libraries with one wrong answer each, the scope's six among them: a run must notice every one.

use super::{wrong_padded, wrong_reports, SHORT};
use crate::calls::*;
use crate::compare;
use crate::model::Model;
use crate::scans;

#[derive(Clone, Copy, PartialEq, Eq, Debug)]
enum Fault {
    /// A reader that answers 13 before looking.
    ReadsNothing,
    /// A reader with an invented taken count.
    TakesMore,
    /// A builder whose later stages drop their field.
    DropsTheSecond,
    /// A writer that writes nothing.
    WritesNoText,
    WritesNoValue,
    /// A builder that accepts no date.
    RefusesDays,
    /// An order that is always equal.
    AlwaysEqual,
    EqualByPair,
    OrdersByInstant,
    IonEqualByInstant,
    ChecksNothing,
    /// The UTC form keeps its offset.
    KeepsTheOffset,
    ReadsNoOffset,
    ReadsNoFraction,
    /// The body of a value with the value's header.
    BodyWithHeader,
    NoSign,
    /// A writer that goes past its output.
    WritesPastTheEnd,
    /// A writer that looks for room before it checks.
    RoomFirst,
    NoLastMark,
    SignOnTheLastByte,
    /// Padded digits that stop at the width, and those that stop at the number.
    NeverWider,
    NeverPadded,
    NoDayMoved,
    /// Month lengths with one for month 13, or for year 10001.
    ThirteenMonths,
    OneYearMore,
    /// A year 10000 that begins a day early.
    ADayLess,
    /// A reader of texts that leaves what follows.
    ReadsABeginning,
    /// One that takes -00:00 for a known offset.
    ReadsUnknownAsZero,
    /// One for which more than 18 digits break the form.
    FewDigitsOnly,
    /// A reader of scans that takes padded numbers.
    TakesPadding,
    /// One that finds a number too large before its end mark.
    LargeBeforeItsMark,
    /// One that wants a sixth byte to refuse five without a mark.
    WantsSixBytes,
    /// One that looks at the value before the guard.
    ValueFirst,
    /// One whose refusals keep the tag.
    KeepsTheTag,
    /// A reader of scans that tells how many bytes the value took.
    TakenOfTheValue,
    /// A writer of scans with the guard first.
    GuardFirst,
    /// One that looks for room before it checks.
    ScanRoomFirst,
    /// One that always writes from the buffer's beginning.
    ForgetsThePlace,
    /// A reader of new scans with the tag first, or one that gives old scans a site.
    SwapsSiteAndTag,
    SitesInOldScans,
    /// One that looks at the tag before the site.
    TagBeforeSite,
    /// One whose refusals keep the site.
    KeepsTheSite,
    /// One that passes over a start: before an old scan, or before a new one.
    StartInOldScans,
    StartInNewScans,
    /// A writer of scans without the site, or with the tag first.
    WritesNoSite,
    TagFirst,
    /// A writer of starts that writes none, one of 00 80, one always at the buffer's beginning, or half of one where
    /// there is no room for more.
    WritesNoStart,
    StartOf80,
    StartForgetsThePlace,
    WritesHalfAStart,
    /// One that takes new files for old ones, or old ones for new ones.
    AllOld,
    AllNew,
    /// One that tells the layout alone so.
    TellsOld,
    /// One for which a file without bytes is a new one.
    EmptyIsNew,
    /// One that takes 00 and any byte for a start, or 00 alone.
    AnyStart,
    ZeroAlone,
    /// One for which a start is not a file.
    NoStartAlone,
    /// A reader of files that keeps the scans before the damage.
    KeepsScans,
    /// One for which a file has a scan at least.
    NoEmptyFile,
    /// One that stops at the damage without telling it.
    LeavesTheDamage,
    /// A report, without a fault or with one.
    Report(Option<wrong_reports::Fault>),
    /// A reader of values in any form, without a fault or with one.
    Padded(Option<wrong_padded::Fault>),
}

const ALL: [Fault; 60] = [
    Fault::ReadsNothing,
    Fault::TakesMore,
    Fault::DropsTheSecond,
    Fault::WritesNoText,
    Fault::WritesNoValue,
    Fault::RefusesDays,
    Fault::AlwaysEqual,
    Fault::EqualByPair,
    Fault::OrdersByInstant,
    Fault::IonEqualByInstant,
    Fault::ChecksNothing,
    Fault::KeepsTheOffset,
    Fault::ReadsNoOffset,
    Fault::ReadsNoFraction,
    Fault::BodyWithHeader,
    Fault::NoSign,
    Fault::WritesPastTheEnd,
    Fault::RoomFirst,
    Fault::NoLastMark,
    Fault::SignOnTheLastByte,
    Fault::NeverWider,
    Fault::NeverPadded,
    Fault::NoDayMoved,
    Fault::ThirteenMonths,
    Fault::OneYearMore,
    Fault::ADayLess,
    Fault::ReadsABeginning,
    Fault::ReadsUnknownAsZero,
    Fault::FewDigitsOnly,
    Fault::TakesPadding,
    Fault::LargeBeforeItsMark,
    Fault::WantsSixBytes,
    Fault::ValueFirst,
    Fault::KeepsTheTag,
    Fault::TakenOfTheValue,
    Fault::GuardFirst,
    Fault::ScanRoomFirst,
    Fault::ForgetsThePlace,
    Fault::SwapsSiteAndTag,
    Fault::SitesInOldScans,
    Fault::TagBeforeSite,
    Fault::KeepsTheSite,
    Fault::StartInOldScans,
    Fault::StartInNewScans,
    Fault::WritesNoSite,
    Fault::TagFirst,
    Fault::WritesNoStart,
    Fault::StartOf80,
    Fault::StartForgetsThePlace,
    Fault::WritesHalfAStart,
    Fault::AllOld,
    Fault::AllNew,
    Fault::TellsOld,
    Fault::EmptyIsNew,
    Fault::AnyStart,
    Fault::ZeroAlone,
    Fault::NoStartAlone,
    Fault::KeepsScans,
    Fault::NoEmptyFile,
    Fault::LeavesTheDamage,
];

struct Wrong(Fault);

impl Wrong {
    fn has(&self, fault: Fault) -> bool {
        self.0 == fault
    }
}

impl Library for Wrong {
    fn name(&self) -> &'static str {
        "a wrong library"
    }

    fn build(&self, build: &Build) -> Built {
        if self.has(Fault::RefusesDays) && build.stage >= Stage::Day {
            return Built { number: 10, pair: Pair::NONE };
        }
        let mut build = *build;
        if self.has(Fault::DropsTheSecond) {
            build.second = 0;
        }
        Model.build(&build)
    }

    fn check(&self, pair: Pair) -> Built {
        match self.0 {
            Fault::ChecksNothing => Built { number: 0, pair },
            _ => Model.check(pair),
        }
    }

    fn to_utc(&self, pair: Pair) -> Built {
        let mut utc = Model.to_utc(pair);
        if self.has(Fault::KeepsTheOffset) {
            utc.pair.word |= pair.word & 0xFFF0;
        }
        utc
    }

    fn fields(&self, pair: Pair) -> Option<Fields> {
        let mut fields = Model.fields(pair)?;
        if self.has(Fault::ReadsNoOffset) {
            fields.offset = None;
        }
        if self.has(Fault::ReadsNoFraction) {
            (fields.coefficient, fields.exponent) = (0, 0);
        }
        Some(fields)
    }

    fn cmp(&self, first: Pair, second: Pair) -> Ordered {
        let mut ordered = Model.cmp(first, second);
        if self.has(Fault::AlwaysEqual) {
            ordered.order = 0;
        }
        ordered
    }

    fn eq(&self, first: Pair, second: Pair) -> Compared {
        match self.0 {
            Fault::EqualByPair => Model.ion_eq(first, second),
            _ => Model.eq(first, second),
        }
    }

    fn ion_cmp(&self, first: Pair, second: Pair) -> Ordered {
        match self.0 {
            Fault::OrdersByInstant => Model.cmp(first, second),
            _ => Model.ion_cmp(first, second),
        }
    }

    fn ion_eq(&self, first: Pair, second: Pair) -> Compared {
        match self.0 {
            Fault::IonEqualByInstant => Model.eq(first, second),
            _ => Model.ion_eq(first, second),
        }
    }

    fn distance(&self, first: Pair, second: Pair) -> Distance {
        let mut distance = Model.distance(first, second);
        if self.has(Fault::NoSign) {
            distance.sign = distance.sign.abs();
        }
        distance
    }

    fn text(&self, pair: Pair, buffer: &mut [u8]) -> Written {
        if self.has(Fault::WritesNoText) {
            return Written { number: 0, written: 0 };
        }
        if self.has(Fault::RoomFirst) && buffer.len() < 5 {
            return Written { number: 16, written: 0 };
        }
        Model.text(pair, buffer)
    }

    fn value(&self, pair: Pair, buffer: &mut [u8]) -> Written {
        if self.has(Fault::WritesNoValue) {
            return Written { number: 0, written: 0 };
        }
        let written = Model.value(pair, buffer);
        if self.has(Fault::WritesPastTheEnd) {
            if let Some(past) = buffer.get_mut(written.written) {
                *past = 0;
            }
        }
        written
    }

    fn body(&self, pair: Pair, buffer: &mut [u8]) -> Option<Written> {
        match self.0 {
            Fault::BodyWithHeader => Some(Model.value(pair, buffer)),
            _ => Model.body(pair, buffer),
        }
    }

    fn read(&self, input: &[u8]) -> Read {
        let read = Model.read(input);
        match self.0 {
            Fault::ReadsNothing => Read { number: 13, pair: Pair::NONE, taken: 0 },
            Fault::TakesMore if read.number == 0 => Read { taken: input.len() + 1, ..read },
            _ => read,
        }
    }

    fn read_padded(&self, input: &[u8]) -> Read {
        match self.0 {
            Fault::Padded(fault) => wrong_padded::read(fault, input),
            _ => Model.read_padded(input),
        }
    }

    fn read_text(&self, input: &[u8]) -> Built {
        let read = Model.read_text(input);
        match (self.0, input) {
            (Fault::ReadsABeginning, [before @ .., _]) if read.number == 18 => Model.read_text(before),
            (Fault::ReadsUnknownAsZero, [before @ .., b'-', b'0', b'0', b':', b'0', b'0']) => {
                Model.read_text(&[before, b"Z"].concat())
            }
            (Fault::FewDigitsOnly, _) if read.number == 8 => Built { number: 18, ..read },
            _ => read,
        }
    }

    fn layout(&self, file: &[u8]) -> Layout {
        match (self.0, file) {
            (Fault::AllOld | Fault::TellsOld, _) => Layout::Old,
            (Fault::AllNew, _) | (Fault::EmptyIsNew, []) | (Fault::AnyStart, [0x00, _, ..]) => Layout::New,
            _ => Model.layout(file),
        }
    }

    fn read_scan(&self, input: &[u8], layout: Layout) -> ScanRead {
        let read = Model.read_scan(input, layout);
        let refused = |number| ScanRead { number, ..ScanRead::default() };
        let after = |skipped: usize, layout: Layout| {
            let read = Model.read_scan(&input[skipped..], layout);
            ScanRead { taken: if read.number == 0 { read.taken + skipped } else { 0 }, ..read }
        };
        let is_new = layout == Layout::New;
        match (self.0, input) {
            (Fault::TakesPadding, [0x00, ..]) if read.number == 19 => after(1, layout),
            (Fault::StartInOldScans, [0x00, 0x82, ..]) if !is_new => after(2, Layout::New),
            (Fault::StartInNewScans, [0x00, 0x82, ..]) if is_new => after(2, layout),
            (Fault::SwapsSiteAndTag, _) if is_new => {
                let Scan { site, tag, .. } = read.scan;
                ScanRead { scan: Scan { site: tag, tag: site, ..read.scan }, ..read }
            }
            (Fault::SitesInOldScans, _) if !is_new && read.number == 0 => {
                ScanRead { scan: Scan { site: read.scan.tag, ..read.scan }, ..read }
            }
            (Fault::TagBeforeSite, [0x00, _, rest @ ..]) if is_new => {
                refused(if Model.read_scan(rest, Layout::Old).number == 13 { 13 } else { 19 })
            }
            (Fault::KeepsTheSite, [site @ 0x80..=0xFF, ..]) if is_new && read.number != 0 => {
                ScanRead { scan: Scan { site: *site as u32 - 0x80, ..Scan::default() }, ..read }
            }
            (Fault::LargeBeforeItsMark, [0x10..=0x7F, 0..=0x7F, 0..=0x7F, 0..=0x7F]) => refused(19),
            (Fault::WantsSixBytes, [_, _, _, _, 0..=0x7F]) if read.number == 19 => refused(13),
            (Fault::ValueFirst, [0x80, 0x00, _, rest @ ..]) if !is_new && read.number == 19 => {
                refused(Model.read(rest).number.max(13))
            }
            (Fault::KeepsTheTag, [tag @ 0x80..=0xFF, ..]) if !is_new && read.number != 0 => {
                ScanRead { scan: Scan { tag: *tag as u32 - 0x80, ..Scan::default() }, ..read }
            }
            (Fault::TakenOfTheValue, _) if read.number == 0 => {
                let value = |rest: &[u8]| Model.read(rest).taken;
                ScanRead { taken: (0..input.len()).map(|at| value(&input[at..])).max().unwrap_or(0), ..read }
            }
            _ => read,
        }
    }

    fn write_scan(&self, scan: Scan, buffer: &mut [u8], at: usize) -> Written {
        match self.0 {
            Fault::GuardFirst => Model.write_scan(Scan { tag: scan.guard, guard: scan.tag, ..scan }, buffer, at),
            Fault::ScanRoomFirst if buffer.len() < 5 => Written { number: 16, written: 0 },
            Fault::ForgetsThePlace => Model.write_scan(scan, buffer, 0),
            Fault::TagFirst => Model.write_scan(Scan { site: scan.tag, tag: scan.site, ..scan }, buffer, at),
            Fault::WritesNoSite => {
                let mut bytes = [0; 64];
                let written = Model.write_scan(scan, &mut bytes, 0);
                let site = bytes.iter().position(|byte| byte & 0x80 != 0).map_or(0, |mark| mark + 1);
                match buffer.get_mut(at..).and_then(|rest| rest.get_mut(..written.written.saturating_sub(site))) {
                    Some(place) if written.number == 0 => {
                        place.copy_from_slice(&bytes[site..written.written]);
                        Written { written: place.len(), ..written }
                    }
                    _ => Model.write_scan(scan, buffer, at),
                }
            }
            _ => Model.write_scan(scan, buffer, at),
        }
    }

    fn write_start(&self, buffer: &mut [u8], at: usize) -> Written {
        match self.0 {
            Fault::WritesNoStart => Written { number: 0, written: 0 },
            Fault::StartForgetsThePlace => Model.write_start(buffer, 0),
            Fault::StartOf80 => {
                let written = Model.write_start(buffer, at);
                if written.number == 0 {
                    buffer[at + 1] = 0x80;
                }
                written
            }
            Fault::WritesHalfAStart => {
                if let Some(first) = buffer.get_mut(at) {
                    *first = 0x00;
                }
                Model.write_start(buffer, at)
            }
            _ => Model.write_start(buffer, at),
        }
    }

    fn check_file(&self, file: &[u8]) -> FileRead {
        let read = Model.check_file(file);
        let contents = |layout| scans::contents(file, layout, |input, layout| Model.read_scan(input, layout));
        let before = || contents(Model.layout(file)).scans.len();
        match (self.0, file) {
            (Fault::KeepsScans, _) => FileRead { scans: before(), ..read },
            (Fault::NoEmptyFile, []) | (Fault::NoStartAlone, [0x00, 0x82]) => FileRead { number: 13, scans: 0 },
            (Fault::LeavesTheDamage, _) => FileRead { number: 0, scans: before() },
            (Fault::AllOld, _) => contents(Layout::Old).checked(),
            (Fault::AllNew, _) | (Fault::AnyStart, [0x00, _, ..]) => contents(Layout::New).checked(),
            (Fault::ZeroAlone, [0x00]) => FileRead { number: 0, scans: 0 },
            _ => read,
        }
    }

    fn report_file(&self, file: &[u8], w: u32, g: u32, words: &mut [u64]) -> Report {
        match self.0 {
            Fault::Report(fault) => wrong_reports::report(fault, file, w, g, words),
            _ => Model.report_file(file, w, g, words),
        }
    }

    fn write_var_uint(&self, value: u64, buffer: &mut [u8]) -> Option<Written> {
        let written = Model.write_var_uint(value, buffer)?;
        if self.has(Fault::NoLastMark) && written.written > 0 {
            buffer[written.written - 1] &= 0x7F;
        }
        Some(written)
    }

    fn write_var_int(&self, value: i64, buffer: &mut [u8]) -> Option<Written> {
        let written = Model.write_var_int(value, buffer)?;
        if self.has(Fault::SignOnTheLastByte) && written.written > 1 && value < 0 {
            buffer[0] &= 0x3F;
            buffer[written.written - 1] |= 0x40;
        }
        Some(written)
    }

    fn write_zero_padded(&self, value: u64, width: usize, buffer: &mut [u8]) -> Option<Written> {
        let (value, width) = match self.0 {
            Fault::NeverWider if width < 20 => (value % 10u64.pow(width as u32), width),
            Fault::NeverPadded => (value, 0),
            _ => (value, width),
        };
        Model.write_zero_padded(value, width, buffer)
    }

    fn add_offset_to_utc(&self, time: DateTime, offset: i32) -> Option<DateTime> {
        let moved = Model.add_offset_to_utc(time, offset)?;
        Some(match self.0 {
            Fault::NoDayMoved => DateTime { day: time.day, ..moved },
            _ => moved,
        })
    }

    fn days_in_month(&self, year: u32, month: u32) -> u32 {
        match (self.0, year, month) {
            (Fault::ThirteenMonths, _, 13) => Model.days_in_month(year, 1),
            (Fault::OneYearMore, 10_001, _) => Model.days_in_month(1, month),
            _ => Model.days_in_month(year, month),
        }
    }

    fn year_start(&self, year: u32) -> u64 {
        match (self.0, year) {
            (Fault::ADayLess, 10_000) => Model.year_start(year) - 1,
            _ => Model.year_start(year),
        }
    }
}

#[test]
fn each_wrong_library_is_noticed() {
    for fault in ALL {
        assert!(!compare::run(&Wrong(fault), SHORT), "{fault:?} was not noticed");
    }
}

#[test]
fn each_wrong_report_is_noticed() {
    assert!(compare::run(&Wrong(Fault::Report(None)), SHORT));
    for fault in wrong_reports::ALL {
        assert!(!compare::run(&Wrong(Fault::Report(Some(fault))), SHORT), "{fault:?} was not noticed");
    }
}

#[test]
fn each_wrong_reader_of_any_form_is_noticed() {
    assert!(compare::run(&Wrong(Fault::Padded(None)), SHORT));
    for fault in wrong_padded::ALL {
        assert!(!compare::run(&Wrong(Fault::Padded(Some(fault))), SHORT), "{fault:?} was not noticed");
    }
}
