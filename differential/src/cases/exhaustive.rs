//! Sections that go through all of something short, or through all edges.

use super::{Cases, Section};
use crate::calls::*;
use crate::generate::{OFFSETS, SMALL, YEARS};
use crate::model::{calendar, fields};

pub fn sections<'a, C: Cases + 'a>() -> Vec<Section<'a, C>> {
    vec![
        ("every day of the years 0 to 10000", Box::new(days)),
        ("every offset", Box::new(offsets)),
        ("every digit count", Box::new(digits)),
        ("months 0 to 14, days 0 to 33", Box::new(months_and_days)),
        ("the first of several failing checks", Box::new(failing_checks)),
        ("edges of every field", Box::new(field_edges)),
        ("every value of every packed field", Box::new(packed_fields)),
        ("short bodies", Box::new(short_bodies)),
        ("numbers of every length", Box::new(number_lengths)),
        ("every month's length", Box::new(month_lengths)),
        ("every year's start", Box::new(year_starts)),
    ]
}

/// Every day there is and the days past each month's end, and a minute at one end of the day, moved over it.
fn days(cases: &mut impl Cases) {
    let moved =
        [(0, 0, Offset::Utc(-1)), (23, 59, Offset::Utc(1)), (0, 0, Offset::Local(1)), (23, 59, Offset::Local(-1))];
    for year in 0..=10_000 {
        for month in 1..=12 {
            for day in 1..=31 {
                let build = Build::day(year, month, day);
                cases.build_and_use(&build);
                for (place, (hour, minute, offset)) in moved.into_iter().enumerate() {
                    let build = build.minute(hour, minute).offset(offset);
                    let pair = cases.build(&build);
                    if let Some(pair) = pair.filter(|_| (day as usize + place) % 4 == 0) {
                        cases.pair(pair);
                    }
                }
            }
        }
    }
}

/// Every offset and some past either end, both kinds, at each stage that takes one, over the ends of days, months,
/// years and the years' range.
fn offsets(cases: &mut impl Cases) {
    let days = [(1, 1, 1), (9999, 12, 31), (2020, 2, 29), (2020, 3, 1), (1900, 2, 28), (2021, 7, 15), (0, 12, 31)];
    let times = [(0, 0), (23, 59), (12, 30)];
    for minutes in (-1441..=1441).chain([i32::MIN, -65_537, -2880, 2880, 32_768, 65_537, i32::MAX]) {
        for (place, (year, month, day)) in days.into_iter().enumerate() {
            for (hour, minute) in times {
                let day = Build::day(year, month, day);
                let hour_alone = Build { stage: Stage::Hour, ..day.minute(hour, 0) };
                let second = day.second(hour, minute, 59);
                let stages = [hour_alone, day.minute(hour, minute), second, second.fraction(Fraction::Milliseconds(5))];
                for (stage, build) in stages.into_iter().enumerate() {
                    for offset in [Offset::Local(minutes), Offset::Utc(minutes)] {
                        let pair = cases.build(&build.offset(offset));
                        if let Some(pair) = pair.filter(|_| (place + stage) % 2 == 0) {
                            cases.pair(pair);
                        }
                    }
                }
            }
        }
    }
}

/// Every count of digits and some past 18, with each number around the powers of ten.
fn digits(cases: &mut impl Cases) {
    let second = Build::day(2020, 2, 3).second(4, 5, 6);
    let mut numbers = vec![0, u32::MAX as u64, u64::MAX / 10, u64::MAX - 1, u64::MAX, 1 << 63];
    for power in 0..20 {
        let power = 10u64.pow(power);
        numbers.extend([power - 1, power, power + 1, power / 2, power / 9 * 7]);
    }
    let exponents = (-60..=25).chain([i64::MIN, i64::MIN + 1, -4_294_967_296, -4_294_967_295, i64::MAX]);
    for exponent in exponents {
        for coefficient in numbers.iter().copied() {
            for negative in [false, true] {
                cases.build_and_use(&second.fraction(Fraction::Decimal { negative, coefficient, exponent }));
            }
        }
    }
    let small = numbers.iter().filter_map(|number| u32::try_from(*number).ok());
    for number in small {
        for digits in (0..=21).chain([255, 256, 274, 65_536, u32::MAX]) {
            cases.build_and_use(&second.fraction(Fraction::NanosecondsTo { nanoseconds: number, digits }));
        }
        cases.build_and_use(&second.fraction(Fraction::Milliseconds(number)));
        cases.build_and_use(&second.fraction(Fraction::Microseconds(number)));
        cases.build_and_use(&second.fraction(Fraction::Nanoseconds(number)));
    }
}

/// Months and days in and out of range, counted from 1 and from 0, at each stage, in UTC and not.
fn months_and_days(cases: &mut impl Cases) {
    let years = [0, 1, 4, 100, 400, 1900, 2000, 2019, 2020, 9999, 10_000];
    let largest = u32::MAX - 1..=u32::MAX;
    for year in years {
        for month in (0..=14).chain(largest.clone()) {
            for day in (0..=33).chain(largest.clone()) {
                for counted in 0..4 {
                    for stage in Stage::ALL {
                        for offset in [Offset::None, Offset::Local(-1439), Offset::Utc(1439), Offset::Utc(-1439)] {
                            let build = Build {
                                stage,
                                month0: counted % 2 == 1,
                                day0: counted / 2 == 1,
                                hour: 23,
                                minute: 59,
                                ..Build::day(year, month, day)
                            };
                            let build = build.offset(offset);
                            if build == build.staged() {
                                cases.build_and_use(&build);
                            }
                        }
                    }
                }
            }
        }
    }
}

/// All sets of checks that fail together.
fn failing_checks(cases: &mut impl Cases) {
    let good = Build::day(2020, 2, 29).second(4, 5, 6);
    let dates = [(2020, 2, 29), (2020, 2, 30), (2020, 0, 1), (2020, 1, 0), (0, 1, 1), (0, 0, 0), (0, 2, 30)];
    for set in 0..1u32 << 9 {
        for (year, month, day) in dates {
            for kind in 0..3 {
                let fails = |place: u32| set >> place & 1 == 1;
                let or = |place: u32, bad: u32, good: u32| if fails(place) { bad } else { good };
                let minutes = if fails(8) { 1440 } else { -1 };
                let digits = if fails(7) { 19 } else { 18 };
                let build = Build {
                    year: or(1, 10_000, year),
                    month: or(2, 13, month),
                    day: or(3, 32, day),
                    hour: or(4, 24, 0),
                    minute: or(5, 60, 0),
                    second: or(6, 60, 6),
                    fraction: Fraction::Decimal { negative: fails(0), coefficient: 1, exponent: -digits },
                    offset: [Offset::None, Offset::Local(minutes), Offset::Utc(minutes)][kind],
                    ..good
                };
                cases.build_and_use(&build);
            }
        }
    }
}

/// Each field at each edge, and each two of them, at each stage.
fn field_edges(cases: &mut impl Cases) {
    type Set = fn(&mut Build, u32);
    let fields: [(Set, &[u32]); 6] = [
        (|build, value| build.year = value, &YEARS),
        (|build, value| build.month = value, &SMALL),
        (|build, value| build.day = value, &SMALL),
        (|build, value| build.hour = value, &SMALL),
        (|build, value| build.minute = value, &SMALL),
        (|build, value| build.second = value, &SMALL),
    ];
    for stage in Stage::ALL {
        for (place, (set, edges)) in fields.iter().enumerate() {
            for edge in *edges {
                for (other_set, other_edges) in &fields[place..] {
                    for (at, other) in other_edges.iter().enumerate() {
                        let minutes = OFFSETS[at % OFFSETS.len()];
                        let mut build = Build::day(2020, 2, 3);
                        other_set(&mut build, *other);
                        set(&mut build, *edge);
                        build.stage = stage;
                        build.month0 = at % 3 == 1;
                        build.day0 = at % 5 == 1;
                        build.offset = [Offset::None, Offset::Local(minutes), Offset::Utc(minutes)][at % 3];
                        cases.build_and_use(&build.staged());
                    }
                }
            }
        }
    }
}

/// Good words of each precision; two have years at the ends.
const WORDS: [[u32; 10]; 8] = [
    [2020, 1, 1, 0, 0, 0, 0, 0, 0, 0],
    [2020, 2, 1, 0, 0, 0, 1, 0, 0, 0],
    [2020, 2, 29, 0, 0, 0, 2, 0, 0, 0],
    [2020, 2, 29, 4, 5, 0, 3, 0, 960, 0],
    [2020, 2, 29, 4, 5, 6, 4, 0, 0, 0],
    [2020, 2, 29, 4, 5, 6, 4, 3, 2879, 0],
    [1, 1, 1, 0, 0, 0, 4, 18, 1441, 0],
    [9999, 12, 31, 23, 59, 59, 4, 18, 1, 0],
];

/// The largest value of each packed field.
const LARGEST: [u32; 10] = [16383, 15, 31, 31, 63, 63, 7, 31, 4095, 15];

/// Good words with one field, or two, taking every value that its bits have; and each digit count beside attoseconds
/// at their edges.
fn packed_fields(cases: &mut impl Cases) {
    let mut edges: Vec<u64> = (0..20).map(|power| 10u64.pow(power)).collect();
    edges.extend([0, 999_999_999_999_999_999, u64::MAX, 120_000_000_000_000_000]);
    let with = |values, attoseconds| Pair { word: fields::repacked(values), attoseconds };
    for word in WORDS {
        for place in 0..10 {
            for value in 0..=LARGEST[place] {
                let mut values = word;
                values[place] = value;
                cases.pair(with(values, 0));
                cases.pair(with(values, edges[value as usize % edges.len()]));
                second_fields(cases, values, place);
            }
        }
        for attoseconds in &edges {
            for digits in 0..=LARGEST[7] {
                let mut values = word;
                values[7] = digits;
                cases.pair(with(values, *attoseconds));
            }
        }
    }
}

/// Beside one of the short fields, a later one with its largest values.
fn second_fields(cases: &mut impl Cases, word: [u32; 10], place: usize) {
    if LARGEST[place] > 63 {
        return;
    }
    for other in place + 1..10 {
        for step in 0..=LARGEST[other].min(31) {
            let mut values = word;
            values[other] = LARGEST[other] - step;
            let word = fields::repacked(values);
            cases.pair(Pair { word, attoseconds: 0 });
            cases.pair(Pair { word, attoseconds: 10u64.pow(step % 20) });
        }
    }
}

fn short_bodies(cases: &mut impl Cases) {
    all_short_bodies(&mut |input| cases.read(input));
}

/// Every input of up to two bytes, every body of up to three, and longer ones with two bytes of every value: those of
/// the offset, of each field, and of the exponent and coefficient.
pub(super) fn all_short_bodies(case: &mut impl FnMut(&[u8])) {
    case(&[]);
    for first in 0..=255 {
        case(&[first]);
        for second in 0..=255 {
            case(&[first, second]);
            case(&[0x62, first, second]);
            for third in 0..=255 {
                case(&[0x63, first, second, third]);
            }
            case(&[0x64, 0xC0, 0x0F, first, second]);
            case(&[0x65, 0xC0, 0x0F, 0xE4, first, second]);
            case(&[0x67, 0x80, 0x0F, 0xE4, 0x82, 0x83, first, second]);
            case(&[0x68, first, second, 0x0F, 0xE4, 0x82, 0x83, 0x84, 0x85]);
            case(&[0x68, 0x80, 0x0F, 0xE4, 0x82, 0x83, 0x84, first, second]);
            case(&[0x69, 0x80, 0x0F, 0xE4, 0x82, 0x83, 0x84, 0x85, first, second]);
            case(&[0x6A, 0x80, 0x0F, 0xE4, 0x82, 0x83, 0x84, 0x85, 0x86, first, second]);
            case(&[0x6B, 0x80, 0x0F, 0xE4, 0x82, 0x83, 0x84, 0x85, 0x86, 0xC3, first, second]);
            case(&[0x6E, first, second, 0xE0, 0x0F, 0xE4, 0x82, 0x83, 0x8C, 0x85, 0x86, 0xC9, 0x07, 0x5B, 0xCD, 0x15]);
        }
    }
}

/// Numbers around each power of two and of ten, to each width; and shifts over the ends of months and years.
fn number_lengths(cases: &mut impl Cases) {
    let mut numbers = vec![0, u64::MAX];
    numbers.extend((0..64).flat_map(|bit| [(1u64 << bit) - 1, 1 << bit, (1 << bit) + 1]));
    numbers.extend((0..20).flat_map(|power| [10u64.pow(power) - 1, 10u64.pow(power), 10u64.pow(power) + 1]));
    for number in numbers {
        cases.var_uint(number);
        cases.var_int(number as i64);
        cases.var_int((number as i64).wrapping_neg());
        for width in (0..=40).chain([255, 256, 1000]) {
            cases.zero_padded(number, width);
        }
    }
    for year in [0, 1, 3, 4, 1900, 2000, 2020, 9999, 10_000] {
        for month in 1..=12 {
            let last = calendar::month_length(year, month);
            for day in [1, 2, last - 1, last] {
                for (hour, minute) in [(0, 0), (0, 1), (23, 58), (23, 59), (12, 0)] {
                    for offset in [0, 1, -1, 719, -720, 1438, 1439, -1438, -1439] {
                        let time = DateTime { year, month, day, hour, minute };
                        // Beyond the years 0 to 10000 there is nothing to compare.
                        if calendar::shifted(time, offset).is_some() {
                            cases.shift(time, offset);
                        }
                    }
                }
            }
        }
    }
}

/// Every month of every year that the Rust can be asked for; of the years to 10001 also months 0, 13 and more; and years
/// and months that would be others in fewer bits.
fn month_lengths(cases: &mut impl Cases) {
    const NO_MONTHS: [u32; 10] = [0, 13, 14, 15, 16, 128, 255, 256, 268, u32::MAX];
    for year in 0..=u16::MAX as u32 {
        (1..=12).for_each(|month| cases.month_length(year, month));
        if year <= 10_001 {
            NO_MONTHS.into_iter().for_each(|month| cases.month_length(year, month));
        }
    }
    let others = (1..=12).chain(NO_MONTHS).chain([257, 65_537, 1 << 31, (1 << 24) + 2, u32::MAX - 1]);
    for month in others {
        for year in [0, 1900, 2000, 65_536, 67_536, (1 << 24) + 4, 1 << 31, u32::MAX - 1, u32::MAX] {
            cases.month_length(year, month);
        }
    }
}

/// Every year of 16 bits, and years around each power of two.
fn year_starts(cases: &mut impl Cases) {
    (0..=u16::MAX as u32).for_each(|year| cases.year_start(year));
    for bit in 16..32 {
        let power = 1u32 << bit;
        [power - 1, power, power + 1].into_iter().for_each(|year| cases.year_start(year));
    }
    cases.year_start(u32::MAX);
}
