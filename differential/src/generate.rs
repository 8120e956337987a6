//! Cases drawn at random, with the edges more frequent than chance would make them.

use crate::calls::{Build, Fraction, Layout, Offset, Pair, Scan, Stage};
use crate::forms::{Form, Number, EXPONENT};
use crate::model::{self, calendar, fields};
use crate::oracle::{self, Answer};
use crate::padded_reader::LONGEST_NUMBER;
use crate::random::Random;

/// Years at the edges of the calendar, of the packed field, of the value bytes and of the Rust's narrower types.
pub const YEARS: [u32; 36] = [
    0, 1, 2, 4, 99, 100, 127, 128, 255, 256, 399, 400, 1582, 1899, 1900, 1904, 1999, 2000, 2001, 2019, 2020, 2021,
    2100, 9996, 9998, 9999, 10000, 10001, 16383, 16384, 65535, 65536, 65537, 67556, 2147483648, 4294967295,
];

/// How many of them are at most 9999.
const GIVEN_YEARS: usize = 26;

/// Numbers at the edges of the fields below the year, and of the types that the Rust narrows them to.
pub const SMALL: [u32; 33] = [
    0, 1, 2, 9, 10, 11, 12, 13, 14, 22, 23, 24, 25, 27, 28, 29, 30, 31, 32, 33, 58, 59, 60, 61, 63, 64, 255, 256, 257,
    268, 65536, 4294967294, 4294967295,
];

/// Offsets at the edges of a day, of the VarInt's bytes and of the types that the Rust narrows them to.
pub const OFFSETS: [i32; 33] = [
    0,
    1,
    -1,
    59,
    60,
    -60,
    63,
    64,
    -63,
    -64,
    480,
    -480,
    719,
    720,
    721,
    -720,
    1379,
    1380,
    -1380,
    1438,
    1439,
    -1438,
    -1439,
    -1440,
    -1441,
    1440,
    1441,
    2880,
    32767,
    65536,
    -65536,
    2147483647,
    -2147483648,
];

/// How many of them are known offsets.
const KNOWN_OFFSETS: usize = 23;

/// A power of ten, or one more or less.
pub fn near_power(random: &mut Random) -> u64 {
    let power = 10u64.pow(random.below(20) as u32);
    match random.below(3) {
        0 => power - 1,
        1 => power,
        _ => power + 1,
    }
}

pub fn fraction(random: &mut Random) -> Fraction {
    let small = |random: &mut Random, limit: u64| match random.below(8) {
        0 => 0,
        1 => limit as u32 - 1,
        2 => limit as u32,
        3 => random.bits() as u32,
        _ => random.below(limit) as u32,
    };
    match random.below(7) {
        0 => Fraction::None,
        1 => Fraction::Milliseconds(small(random, 1000)),
        2 => Fraction::Microseconds(small(random, 1_000_000)),
        3 => Fraction::Nanoseconds(small(random, 1_000_000_000)),
        4 => Fraction::NanosecondsTo {
            nanoseconds: small(random, 1_000_000_000),
            digits: if random.one_in(50) { random.bits() as u32 } else { random.below(21) as u32 },
        },
        _ => decimal(random),
    }
}

pub fn decimal(random: &mut Random) -> Fraction {
    let exponent = match random.below(40) {
        0 => random.pick(&[1, 2, 18, 19, i64::MAX, i64::MIN, i64::MIN + 1, -4_294_967_295, -4_294_967_296]),
        1 => random.between(-60, 5),
        _ => random.between(-19, 0),
    };
    let digits = exponent.min(0).unsigned_abs().min(19) as u32;
    let coefficient = match random.below(8) {
        0 => near_power(random),
        1 => random.any_size(),
        2 => 0,
        3 => 10u64.pow(digits).wrapping_sub(random.below(3)),
        _ => random.below(10u64.pow(digits)),
    };
    Fraction::Decimal { negative: random.one_in(25), coefficient, exponent }
}

fn offset(random: &mut Random) -> Offset {
    let minutes = match random.below(4) {
        0 => random.pick(&OFFSETS),
        _ => random.between(-1439, 1439) as i32,
    };
    match random.below(5) {
        0 => Offset::None,
        1 | 2 => Offset::Utc(minutes),
        _ => Offset::Local(minutes),
    }
}

/// A field set; most are accepted.
pub fn build(random: &mut Random) -> Build {
    let year = match random.below(5) {
        0 => random.pick(&YEARS[..GIVEN_YEARS]),
        1 => random.pick(&[1, 9999]),
        _ => random.between(1, 9999) as u32,
    };
    let month = if random.one_in(4) { random.pick(&[1, 2, 12]) } else { random.between(1, 12) as u32 };
    let length = calendar::month_length(year, month);
    let day = match random.below(6) {
        0 => 1,
        1 => length,
        2 => 31,
        _ => random.between(1, length as i64) as u32,
    };
    let (hour, minute) = match random.below(4) {
        0 => random.pick(&[(0, 0), (23, 59), (0, 1), (23, 58), (12, 0)]),
        _ => (random.below(24) as u32, random.below(60) as u32),
    };
    let (month0, day0) = (random.one_in(4), random.one_in(4));
    let build = Build {
        stage: if random.one_in(2) { Stage::Second } else { random.pick(&Stage::ALL) },
        month0,
        day0,
        hour_and_minute: random.one_in(2),
        year,
        month: month - month0 as u32,
        day: day - day0 as u32,
        hour,
        minute,
        second: if random.one_in(4) { random.pick(&[0, 59]) } else { random.below(60) as u32 },
        fraction: fraction(random),
        offset: offset(random),
    };
    build.staged()
}

/// The same with one of its fields set to an edge.
pub fn changed_build(random: &mut Random, build: &Build) -> Build {
    let mut build = *build;
    match random.below(8) {
        0 => build.year = random.pick(&YEARS),
        1 => build.month = random.pick(&SMALL),
        2 => build.day = random.pick(&SMALL),
        3 => build.hour = random.pick(&SMALL),
        4 => build.minute = random.pick(&SMALL),
        5 => build.second = random.pick(&SMALL),
        6 => build.fraction = fraction(random),
        _ => build.offset = offset(random),
    }
    build.staged()
}

/// A pair that the Rust's builder gives.
pub fn accepted(random: &mut Random) -> Pair {
    loop {
        if let Answer::Accepted(pair) = oracle::build(&build(random)) {
            return pair;
        }
    }
}

/// A pair near an accepted one, or any pair at all; most are refused.
pub fn changed_pair(random: &mut Random, pair: Pair) -> Pair {
    let mut pair = pair;
    match random.below(8) {
        0 => pair.word ^= 1 << random.below(64),
        1 => pair.attoseconds ^= 1 << random.below(64),
        2 => pair.attoseconds = near_power(random),
        3 => pair.attoseconds = pair.attoseconds.wrapping_add(10u64.pow(random.below(20) as u32)),
        4 => pair.word = random.bits(),
        5 => pair.attoseconds = random.any_size(),
        _ => {
            let mut values = fields::unpacked(pair.word);
            let place = random.below(10) as usize;
            values[place] = if random.one_in(2) { random.pick(&SMALL) } else { random.bits() as u32 };
            pair.word = fields::repacked(values);
        }
    }
    pair
}

/// An attosecond, a second, a minute, an hour, a day and a leap year.
const STEPS: [i128; 6] = [
    1,
    fields::SECOND as i128,
    60 * fields::SECOND as i128,
    3_600 * fields::SECOND as i128,
    86_400 * fields::SECOND as i128,
    366 * 86_400 * fields::SECOND as i128,
];

/// A pair at the same instant as an accepted one or a step from it, at any offset; or with its local fields and
/// another offset.
pub fn near(random: &mut Random, pair: Pair) -> Pair {
    let other = match random.below(3) {
        0 => None,
        1 => Some(random.pick(&OFFSETS[..KNOWN_OFFSETS])),
        _ => Some(random.between(-1439, 1439) as i32),
    };
    if random.one_in(4) {
        let local = fields::of_word(pair);
        let offset = other.filter(|_| local.precision >= 3);
        return fields::packed(&fields::Fields { offset, ..local });
    }
    let step = match random.below(3) {
        0 => 0,
        1 => random.pick(&STEPS),
        _ => -random.pick(&STEPS),
    };
    at_count(random, model::count(pair) + step, other).unwrap_or(pair)
}

/// The pair at a count and an offset, with at least the digits and the precision that it needs.
pub fn at_count(random: &mut Random, count: i128, offset: Option<i32>) -> Option<Pair> {
    let second = fields::SECOND as i128;
    let attoseconds = count.rem_euclid(second) as u128;
    let seconds = count.div_euclid(second) as i64;
    let time = calendar::at_minutes(seconds.div_euclid(60) + offset.unwrap_or(0) as i64)?;
    let zeros = (0..18).take_while(|zeros| attoseconds % 10u128.pow(zeros + 1) == 0).count() as i64;
    let least = 18 - zeros;
    let digits = if random.one_in(2) { least } else { random.between(least, 18) };
    let second = seconds.rem_euclid(60) as u32;
    let first_of = [
        second == 0 && digits == 0,
        (time.hour, time.minute) == (0, 0) && offset.is_none(),
        time.day == 1,
        time.month == 1,
    ];
    let coarsest = 4 - first_of.iter().take_while(|first| **first).count() as i64;
    (1..=9999).contains(&time.year).then(|| {
        fields::packed(&fields::Fields {
            time,
            second,
            precision: random.between(coarsest, if digits == 0 && second == 0 { 4 } else { coarsest }) as u32,
            digits: digits as u64,
            attoseconds,
            offset,
            in_utc: false,
        })
    })
}

/// The pair at a count and an offset, in a second with so many digits.
pub fn second_at(count: i128, digits: u64, offset: Option<i32>) -> Option<Pair> {
    let second = fields::SECOND as i128;
    let seconds = count.div_euclid(second) as i64;
    let time = calendar::at_minutes(seconds.div_euclid(60) + offset.unwrap_or(0) as i64)?;
    (1..=9999).contains(&time.year).then(|| {
        fields::packed(&fields::Fields {
            time,
            second: seconds.rem_euclid(60) as u32,
            precision: 4,
            digits,
            attoseconds: count.rem_euclid(second) as u128,
            offset,
            in_utc: false,
        })
    })
}

/// The first and the last site, tag or guard of each length, from one byte to five.
pub const SCAN_NUMBERS: [u32; 10] = [0, 127, 128, 16383, 16384, 2097151, 2097152, 268435455, 268435456, 4294967295];

/// A site, a tag or a guard.
fn scan_number(random: &mut Random) -> u32 {
    match random.below(4) {
        0 => random.pick(&SCAN_NUMBERS),
        _ => random.any_size() as u32,
    }
}

pub fn scan(random: &mut Random) -> Scan {
    Scan { site: scan_number(random), tag: scan_number(random), guard: scan_number(random), pair: accepted(random) }
}

/// W and G for a report.
pub fn window_and_gap(random: &mut Random) -> (u32, u32) {
    let w = match random.below(20) {
        0 => random.pick(&[86_401, 86_402, 1 << 31, u32::MAX]),
        1..=8 => random.pick(&[0, 1, 2, 5, 60, 86_399, 86_400]),
        _ => random.below(200) as u32,
    };
    let g = match random.below(4) {
        0 => random.pick(&[0, 1, 86_400, u32::MAX - 1, u32::MAX]),
        1 => random.any_size() as u32,
        _ => random.below(400) as u32,
    };
    (w, g)
}

/// Up to so many sites and tags, of few numbers. The old layout has one site.
fn posts(random: &mut Random, layout: Layout, most: u64) -> Vec<(u32, u32)> {
    let some = if random.one_in(2) { most } else { 3 };
    let numbers: Vec<u32> = (0..=random.below(some)).map(|_| scan_number(random)).collect();
    let site = |random: &mut Random| match layout {
        Layout::Old => 0,
        Layout::New => random.pick(&numbers),
    };
    (0..=random.below(most)).map(|_| (site(random), random.pick(&numbers))).collect()
}

/// Up to 60 scans of a round: mostly of few posts, each some time from one before it, and mostly from one of its post.
pub fn round(random: &mut Random, layout: Layout, w: u32, g: u32) -> Vec<Scan> {
    let most = if random.one_in(10) { 60 } else { 4 };
    let posts = posts(random, layout, most);
    let most = if random.one_in(4) { 60 } else { 8 };
    let mut scans: Vec<Scan> = Vec::new();
    for _ in 0..=random.below(most) {
        let (site, tag) = random.pick(&posts);
        let pair = match scans.iter().rev().find(|scan| scan.post() == (site, tag) || random.one_in(8)) {
            Some(before) => later(random, before.pair, w, g),
            None => accepted(random),
        };
        scans.push(Scan { site, tag, guard: scan_number(random), pair });
    }
    scans
}

/// A pair some time from an accepted one, mostly later: none, an edge of W or of G, or any time near these.
fn later(random: &mut Random, pair: Pair, w: u32, g: u32) -> Pair {
    let second = fields::SECOND as i128;
    let step = match random.below(3) {
        0 => random.pick(&[0, w, g]) as i128 * second + random.pick(&[-1, 0, 0, 1]),
        1 => random.below(2 * w as u64 + 2) as i128 * second,
        _ => random.below(w.min(200) as u64 + g.min(400) as u64 + 1) as i128 * second + random.below(1 << 59) as i128,
    };
    let step = if random.one_in(3) { -step } else { step };
    let offset = match random.below(3) {
        0 => None,
        1 => random.pick(&[Some(0), Some(60), Some(-480)]),
        _ => Some(random.between(-1439, 1439) as i32),
    };
    at_count(random, model::count(pair) + step, offset).unwrap_or(pair)
}

/// The text of a drawn pair, in any of its spellings.
pub fn text(random: &mut Random) -> Vec<u8> {
    let Answer::Accepted(mut text) = oracle::text(accepted(random)) else {
        unreachable!("an accepted pair has a text");
    };
    if random.one_in(2) {
        if text.len() == 11 {
            text.pop();
        } else if text.ends_with(b"+00:00") {
            text.truncate(text.len() - 6);
            text.push(b'Z');
        }
    }
    text
}

/// A text of drawn numbers, whether there is such a time or not; where it has no second, a fraction breaks its form.
pub fn text_of_numbers(random: &mut Random) -> Vec<u8> {
    fn two(random: &mut Random, mark: char, limit: u64) -> String {
        let limit = if random.one_in(10) { 100 } else { limit };
        format!("{mark}{:02}", random.below(limit))
    }
    let mut text = format!("{:04}", if random.one_in(10) { 0 } else { random.below(10_000) });
    for (mark, limit) in [('-', 13), ('-', 32), ('T', 24), (':', 60), (':', 60)] {
        if mark != ':' || !random.one_in(5) {
            text += &two(random, mark, limit);
        }
    }
    if random.one_in(2) {
        text.push('.');
        for _ in 0..random.below(24) {
            text += &random.below(10).to_string();
        }
    }
    match random.below(4) {
        0 => text.push('Z'),
        1 => text += "-00:00",
        _ => {
            let sign = random.pick(&['+', '-']);
            text += &two(random, sign, 24);
            text += &two(random, ':', 60);
        }
    }
    text.into_bytes()
}

/// A number of up to so many bits, of which each count is as frequent.
fn of_bits(random: &mut Random, most: u64) -> u128 {
    let bits = (random.bits() as u128) << 64 | random.bits() as u128;
    bits % (1 << random.below(most + 1))
}

/// A form of an accepted pair's value. In one of four each part has the fewest bytes, in another as many as there is
/// room for.
pub fn form(random: &mut Random, pair: Pair) -> Form {
    let mut form = Form::shortest(pair);
    // A second without digits may have a fraction of zero.
    if form.numbers.len() == EXPONENT && random.one_in(2) {
        let magnitude = if random.one_in(3) { 0 } else { of_bits(random, 69) };
        form.numbers.push(Number { negative: magnitude == 0 && random.one_in(2), magnitude, width: 0 });
    }
    form.coefficient.negative = form.numbers.len() > EXPONENT && form.coefficient.magnitude == 0 && random.one_in(2);
    let mut form = form.widened();
    let padding = random.below(4);
    let longer = |random: &mut Random, width: usize, most: usize| match padding {
        0 => width,
        1 if random.one_in(4) => random.between(width as i64, most as i64) as usize,
        1 => width,
        2 => random.between(width as i64, most as i64) as usize,
        _ => most,
    };
    let count = form.numbers.len();
    let first = random.below(count as u64) as usize;
    for place in (first..count).chain(0..first) {
        let width = form.numbers[place].width;
        form = form.with_width(place, longer(random, width, LONGEST_NUMBER.min(width + form.room())));
    }
    if form.numbers.len() > EXPONENT {
        let width = form.coefficient.width;
        form = form.with_coefficient(longer(random, width, width + form.room()));
    }
    let long = random.one_in(2);
    form.with_length(long.then(|| longer(random, 1, LONGEST_NUMBER)))
}

/// The same with one part of a byte more than it may have, or in two.
pub fn long_form(random: &mut Random, form: &Form) -> Form {
    let by = 1 + random.below(2) as usize;
    match random.below(form.numbers.len() as u64 + 2) as usize {
        place if place < form.numbers.len() => form.with_width(place, LONGEST_NUMBER + by),
        _ if form.numbers.len() > EXPONENT && random.one_in(2) => {
            form.with_coefficient(form.coefficient.width + form.room() + by)
        }
        _ => form.with_length(Some(LONGEST_NUMBER + by)),
    }
}

/// The first past each number's end: minutes, fields of local time, and digits.
const PAST_ENDS: [u128; 8] = [1440, 10_000, 13, 32, 24, 60, 60, 19];

/// The same with one of its numbers changed, or with some left out; most are refused.
pub fn changed_form(random: &mut Random, form: &Form) -> Form {
    let mut form = form.clone();
    let count = form.numbers.len();
    let place = random.below(count as u64) as usize;
    let number = &mut form.numbers[place];
    match random.below(9) {
        0 => number.magnitude += 1 << random.pick(&[32, 64]),
        1 => number.magnitude = random.pick(&SMALL) as u128,
        2 => number.magnitude = of_bits(random, 69),
        3 => number.magnitude = PAST_ENDS[place],
        4 => {
            let minutes =
                if random.one_in(2) { random.pick(&OFFSETS).unsigned_abs() as u64 } else { random.below(1500) };
            form.numbers[0] = Number { negative: random.one_in(2), magnitude: minutes as u128, ..form.numbers[0] };
        }
        5 => form.numbers[1].magnitude = random.pick(&YEARS) as u128,
        6 => form.numbers.truncate(place + 1),
        _ if count >= EXPONENT => change_fraction(random, &mut form),
        _ => number.magnitude ^= 1 << random.below(8),
    }
    if form.numbers.len() <= EXPONENT {
        form.coefficient = Number::NONE;
    }
    form.widened()
}

/// Gives a second an exponent and a coefficient at the edges of those that it may have.
fn change_fraction(random: &mut Random, form: &mut Form) {
    let digits = if random.one_in(4) { of_bits(random, 69) } else { random.below(26) as u128 };
    form.numbers.truncate(EXPONENT);
    form.numbers.push(Number { negative: !random.one_in(4), magnitude: digits, width: 1 });
    let coefficient = &mut form.coefficient;
    coefficient.negative = random.one_in(4);
    match random.below(5) {
        0 => coefficient.magnitude = 0,
        1 => coefficient.magnitude = 10u128.pow(digits.min(30) as u32) - random.below(2) as u128,
        2 => coefficient.magnitude = of_bits(random, 127),
        3 => coefficient.magnitude += 1 << 64,
        _ => {}
    }
}
