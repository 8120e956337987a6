//! The proved library: the exported calls of its crates `test_calendar_exports`, `test_exports` and `test_scan_exports`,
//! each made an archive by `rt lib` and linked under the feature `ours`.
//!
//! Every call returns the scope's number, but for `days_in_month` and `year_start`, which refuse nothing and return their answers.
//! Everything else that a call answers comes back through references, which a refusal sets to 0; a byte slice is a
//! pointer and a length. The numbers above 100 are the exported calls' own, for codes that stand for nothing and for a
//! shift of what is no date and time. Nothing checks these declarations against the library's own (in these crates'
//! src), so they stand in this one place.

use crate::calls::*;

extern "C" {
    fn timestamp_build(
        stage: u32,
        month0: bool,
        day0: bool,
        both: bool,
        year: u32,
        month: u32,
        day: u32,
        hour: u32,
        minute: u32,
        second: u32,
        fraction: u32,
        amount: u32,
        digits: u32,
        coefficient: u64,
        exponent: i64,
        offset: u32,
        minutes: i32,
        word: &mut u64,
        attoseconds: &mut u64,
    ) -> u32;
    fn timestamp_check(word: u64, attoseconds: u64, out_word: &mut u64, out_attoseconds: &mut u64) -> u32;
    fn timestamp_to_utc(word: u64, attoseconds: u64, out_word: &mut u64, out_attoseconds: &mut u64) -> u32;
    fn timestamp_field(code: u32, word: u64, attoseconds: u64, value: &mut u32) -> u32;
    fn timestamp_offset(word: u64, attoseconds: u64, known: &mut u8, minutes: &mut i32) -> u32;
    fn timestamp_attoseconds(word: u64, attoseconds: u64, value: &mut u64) -> u32;
    fn timestamp_fractional_seconds(word: u64, attoseconds: u64, coefficient: &mut u64, exponent: &mut i64) -> u32;
    fn timestamp_cmp(word: u64, attoseconds: u64, other: u64, other_attoseconds: u64, order: &mut i32) -> u32;
    fn timestamp_eq(word: u64, attoseconds: u64, other: u64, other_attoseconds: u64, equal: &mut u8) -> u32;
    fn timestamp_ion_cmp(word: u64, attoseconds: u64, other: u64, other_attoseconds: u64, order: &mut i32) -> u32;
    fn timestamp_ion_eq(word: u64, attoseconds: u64, other: u64, other_attoseconds: u64, equal: &mut u8) -> u32;
    fn timestamp_distance(
        word: u64,
        attoseconds: u64,
        other: u64,
        other_attoseconds: u64,
        sign: &mut i32,
        seconds: &mut u64,
        rest: &mut u64,
    ) -> u32;
    fn timestamp_text(word: u64, attoseconds: u64, buffer: *mut u8, length: usize, written: &mut usize) -> u32;
    fn timestamp_value(word: u64, attoseconds: u64, buffer: *mut u8, length: usize, written: &mut usize) -> u32;
    fn timestamp_body(word: u64, attoseconds: u64, buffer: *mut u8, length: usize, written: &mut usize) -> u32;
    fn timestamp_read(input: *const u8, length: usize, word: &mut u64, attoseconds: &mut u64, taken: &mut usize)
        -> u32;
    fn timestamp_read_padded(
        input: *const u8,
        length: usize,
        word: &mut u64,
        attoseconds: &mut u64,
        taken: &mut usize,
    ) -> u32;
    fn timestamp_read_text(input: *const u8, length: usize, word: &mut u64, attoseconds: &mut u64) -> u32;
    fn file_layout(file: *const u8, length: usize) -> u32;
    fn scan_read(
        input: *const u8,
        length: usize,
        layout: u32,
        site: &mut u32,
        tag: &mut u32,
        guard: &mut u32,
        word: &mut u64,
        attoseconds: &mut u64,
        taken: &mut usize,
    ) -> u32;
    fn start_write(buffer: *mut u8, length: usize, at: usize, written: &mut usize) -> u32;
    fn scan_write(
        site: u32,
        tag: u32,
        guard: u32,
        word: u64,
        attoseconds: u64,
        buffer: *mut u8,
        length: usize,
        at: usize,
        written: &mut usize,
    ) -> u32;
    fn file_check(file: *const u8, length: usize, scans: &mut usize) -> u32;
    fn file_report(
        file: *const u8,
        length: usize,
        w: u32,
        g: u32,
        words: *mut u64,
        words_length: usize,
        counts: &mut [u64; 5],
    ) -> u32;
    fn write_var_uint(value: u64, buffer: *mut u8, length: usize, written: &mut usize) -> u32;
    fn write_var_int(value: i64, buffer: *mut u8, length: usize, written: &mut usize) -> u32;
    fn write_zero_padded(value: u64, width: usize, buffer: *mut u8, length: usize, written: &mut usize) -> u32;
    fn add_offset_to_utc(
        year: u32,
        month: u32,
        day: u32,
        hour: u32,
        minute: u32,
        offset: i32,
        time: &mut [u32; 5],
    ) -> u32;
    fn days_in_month(year: u32, month: u32) -> u32;
    fn year_start(year: u32) -> u64;
}

pub struct Ours;

/// A kind, an amount of units with their digits, and a decimal's coefficient and exponent. 0: none. 1, 2, 3:
/// milliseconds, microseconds, nanoseconds. 4: nanoseconds and their digits. 5 and, with a minus sign, 6: a decimal.
fn fraction(fraction: Fraction) -> (u32, u32, u32, u64, i64) {
    match fraction {
        Fraction::None => (0, 0, 0, 0, 0),
        Fraction::Milliseconds(n) => (1, n, 0, 0, 0),
        Fraction::Microseconds(n) => (2, n, 0, 0, 0),
        Fraction::Nanoseconds(n) => (3, n, 0, 0, 0),
        Fraction::NanosecondsTo { nanoseconds, digits } => (4, nanoseconds, digits, 0, 0),
        Fraction::Decimal { negative, coefficient, exponent } => (5 + negative as u32, 0, 0, coefficient, exponent),
    }
}

/// A flag, which must be 0 or 1.
fn flag(byte: u8) -> bool {
    assert!(byte <= 1, "a flag is {byte}");
    byte == 1
}

/// A call that gives a pair. The numbers begin as ones, so that a call that sets nothing shows.
fn built(call: impl FnOnce(&mut u64, &mut u64) -> u32) -> Built {
    let (mut word, mut attoseconds) = (u64::MAX, u64::MAX);
    let number = call(&mut word, &mut attoseconds);
    Built { number, pair: Pair { word, attoseconds } }
}

/// The same with how many bytes were taken.
fn read(call: impl FnOnce(&mut u64, &mut u64, &mut usize) -> u32) -> Read {
    let mut taken = usize::MAX;
    let Built { number, pair } = built(|word, attoseconds| call(word, attoseconds, &mut taken));
    Read { number, pair, taken }
}

fn ordered(call: impl FnOnce(&mut i32) -> u32) -> Ordered {
    let mut order = i32::MAX;
    let number = call(&mut order);
    Ordered { number, order }
}

fn compared(call: impl FnOnce(&mut u8) -> u32) -> Compared {
    let mut equal = u8::MAX;
    let number = call(&mut equal);
    Compared { number, equal: flag(equal) }
}

fn written(buffer: &mut [u8], call: impl FnOnce(*mut u8, usize, &mut usize) -> u32) -> Written {
    let mut written = usize::MAX;
    let number = call(buffer.as_mut_ptr(), buffer.len(), &mut written);
    Written { number, written }
}

/// The field of a code; every call on one pair must give the same number.
fn field(code: u32, pair: Pair, number: u32) -> u32 {
    let mut value = u32::MAX;
    let answer = unsafe { timestamp_field(code, pair.word, pair.attoseconds, &mut value) };
    assert_eq!(answer, number, "field {code} of {pair:?}");
    value
}

// SAFETY, of every call: the library reads and writes within the slices and references that it is lent; that is
// proved of it, for any numbers.
impl Library for Ours {
    fn name(&self) -> &'static str {
        "the proved library"
    }

    fn build(&self, build: &Build) -> Built {
        let (kind, amount, digits, coefficient, exponent) = fraction(build.fraction);
        let (offset_kind, offset_minutes) = crate::codes::offset(build.offset);
        built(|word, attoseconds| unsafe {
            timestamp_build(
                build.stage as u32,
                build.month0,
                build.day0,
                build.hour_and_minute,
                build.year,
                build.month,
                build.day,
                build.hour,
                build.minute,
                build.second,
                kind,
                amount,
                digits,
                coefficient,
                exponent,
                offset_kind as u32,
                offset_minutes,
                word,
                attoseconds,
            )
        })
    }

    fn check(&self, pair: Pair) -> Built {
        built(|word, attoseconds| unsafe { timestamp_check(pair.word, pair.attoseconds, word, attoseconds) })
    }

    fn to_utc(&self, pair: Pair) -> Built {
        built(|word, attoseconds| unsafe { timestamp_to_utc(pair.word, pair.attoseconds, word, attoseconds) })
    }

    fn fields(&self, pair: Pair) -> Option<Fields> {
        let (mut known, mut minutes) = (u8::MAX, i32::MAX);
        let number = unsafe { timestamp_offset(pair.word, pair.attoseconds, &mut known, &mut minutes) };
        let offset = flag(known).then_some(minutes);
        assert!(offset.is_some() || minutes == 0, "an unknown offset of {minutes} minutes");
        let mut attoseconds = u64::MAX;
        let also = unsafe { timestamp_attoseconds(pair.word, pair.attoseconds, &mut attoseconds) };
        assert_eq!(also, number, "attoseconds of {pair:?}");
        let (mut coefficient, mut exponent) = (u64::MAX, i64::MAX);
        let also =
            unsafe { timestamp_fractional_seconds(pair.word, pair.attoseconds, &mut coefficient, &mut exponent) };
        assert_eq!(also, number, "fraction of {pair:?}");
        Some(Fields {
            number,
            year: field(0, pair, number),
            month: field(1, pair, number),
            day: field(2, pair, number),
            hour: field(3, pair, number),
            minute: field(4, pair, number),
            second: field(5, pair, number),
            precision: field(6, pair, number),
            digits: field(7, pair, number),
            offset,
            milliseconds: field(8, pair, number),
            microseconds: field(9, pair, number),
            nanoseconds: field(10, pair, number),
            attoseconds,
            coefficient,
            exponent,
        })
    }

    fn cmp(&self, first: Pair, second: Pair) -> Ordered {
        ordered(|order| unsafe { timestamp_cmp(first.word, first.attoseconds, second.word, second.attoseconds, order) })
    }

    fn eq(&self, first: Pair, second: Pair) -> Compared {
        compared(|equal| unsafe { timestamp_eq(first.word, first.attoseconds, second.word, second.attoseconds, equal) })
    }

    fn ion_cmp(&self, first: Pair, second: Pair) -> Ordered {
        ordered(|order| unsafe {
            timestamp_ion_cmp(first.word, first.attoseconds, second.word, second.attoseconds, order)
        })
    }

    fn ion_eq(&self, first: Pair, second: Pair) -> Compared {
        compared(|equal| unsafe {
            timestamp_ion_eq(first.word, first.attoseconds, second.word, second.attoseconds, equal)
        })
    }

    fn distance(&self, first: Pair, second: Pair) -> Distance {
        let (mut sign, mut seconds, mut attoseconds) = (i32::MAX, u64::MAX, u64::MAX);
        let number = unsafe {
            timestamp_distance(
                first.word,
                first.attoseconds,
                second.word,
                second.attoseconds,
                &mut sign,
                &mut seconds,
                &mut attoseconds,
            )
        };
        Distance { number, sign, seconds, attoseconds }
    }

    fn text(&self, pair: Pair, buffer: &mut [u8]) -> Written {
        written(buffer, |start, length, written| unsafe {
            timestamp_text(pair.word, pair.attoseconds, start, length, written)
        })
    }

    fn value(&self, pair: Pair, buffer: &mut [u8]) -> Written {
        written(buffer, |start, length, written| unsafe {
            timestamp_value(pair.word, pair.attoseconds, start, length, written)
        })
    }

    fn body(&self, pair: Pair, buffer: &mut [u8]) -> Option<Written> {
        Some(written(buffer, |start, length, written| unsafe {
            timestamp_body(pair.word, pair.attoseconds, start, length, written)
        }))
    }

    fn read(&self, input: &[u8]) -> Read {
        read(|word, attoseconds, taken| unsafe {
            timestamp_read(input.as_ptr(), input.len(), word, attoseconds, taken)
        })
    }

    fn read_padded(&self, input: &[u8]) -> Read {
        read(|word, attoseconds, taken| unsafe {
            timestamp_read_padded(input.as_ptr(), input.len(), word, attoseconds, taken)
        })
    }

    fn read_text(&self, input: &[u8]) -> Built {
        built(|word, attoseconds| unsafe { timestamp_read_text(input.as_ptr(), input.len(), word, attoseconds) })
    }

    fn layout(&self, file: &[u8]) -> Layout {
        match unsafe { file_layout(file.as_ptr(), file.len()) } {
            0 => Layout::Old,
            1 => Layout::New,
            other => panic!("a layout is {other}"),
        }
    }

    fn read_scan(&self, input: &[u8], layout: Layout) -> ScanRead {
        let (mut site, mut tag, mut guard, mut taken) = (u32::MAX, u32::MAX, u32::MAX, usize::MAX);
        let Built { number, pair } = built(|word, attoseconds| unsafe {
            scan_read(
                input.as_ptr(),
                input.len(),
                layout as u32,
                &mut site,
                &mut tag,
                &mut guard,
                word,
                attoseconds,
                &mut taken,
            )
        });
        ScanRead { number, scan: Scan { site, tag, guard, pair }, taken }
    }

    fn write_start(&self, buffer: &mut [u8], at: usize) -> Written {
        written(buffer, |start, length, written| unsafe { start_write(start, length, at, written) })
    }

    fn write_scan(&self, scan: Scan, buffer: &mut [u8], at: usize) -> Written {
        let Scan { site, tag, guard, pair } = scan;
        written(buffer, |start, length, written| unsafe {
            scan_write(site, tag, guard, pair.word, pair.attoseconds, start, length, at, written)
        })
    }

    fn check_file(&self, file: &[u8]) -> FileRead {
        let mut scans = usize::MAX;
        let number = unsafe { file_check(file.as_ptr(), file.len(), &mut scans) };
        FileRead { number, scans }
    }

    fn report_file(&self, file: &[u8], w: u32, g: u32, words: &mut [u64]) -> Report {
        let mut counts = [u64::MAX; 5];
        let number =
            unsafe { file_report(file.as_ptr(), file.len(), w, g, words.as_mut_ptr(), words.len(), &mut counts) };
        let [scans, doubles, kept, gaps, backward] = counts;
        Report { number, counts: Counts { scans, doubles, kept, gaps, backward } }
    }

    fn write_var_uint(&self, value: u64, buffer: &mut [u8]) -> Option<Written> {
        Some(written(buffer, |start, length, written| unsafe { write_var_uint(value, start, length, written) }))
    }

    fn write_var_int(&self, value: i64, buffer: &mut [u8]) -> Option<Written> {
        Some(written(buffer, |start, length, written| unsafe { write_var_int(value, start, length, written) }))
    }

    fn write_zero_padded(&self, value: u64, width: usize, buffer: &mut [u8]) -> Option<Written> {
        Some(written(buffer, |start, length, written| unsafe {
            write_zero_padded(value, width, start, length, written)
        }))
    }

    fn add_offset_to_utc(&self, time: DateTime, offset: i32) -> Option<DateTime> {
        let mut moved = [u32::MAX; 5];
        // A refusal gives zeros, which are no date and time.
        unsafe { add_offset_to_utc(time.year, time.month, time.day, time.hour, time.minute, offset, &mut moved) };
        let [year, month, day, hour, minute] = moved;
        Some(DateTime { year, month, day, hour, minute })
    }

    fn days_in_month(&self, year: u32, month: u32) -> u32 {
        unsafe { days_in_month(year, month) }
    }

    fn year_start(&self, year: u32) -> u64 {
        unsafe { year_start(year) }
    }
}
