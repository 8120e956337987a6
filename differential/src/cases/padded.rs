//! Sections of values to read in any form: those that go through all of something short, or through all edges, and those
//! drawn.

use super::changes::{all_short, one_bit_changed, one_changed};
use super::drawn::at_an_end;
use super::exhaustive::all_short_bodies;
use super::{Cases, Options, Section};
use crate::calls::{Build, Fraction, Offset, Pair, Stage};
use crate::damage;
use crate::forms::{group_count, groups, narrowest, offset, value, Form, Number, EXPONENT, LONGEST_SHORT};
use crate::generate;
use crate::oracle::{self, Answer};
use crate::padded_reader::{LONGEST_BODY, LONGEST_NUMBER};
use crate::random::Random;
use crate::refusals::{BODY, INPUT_ENDS};

pub fn sections<'a, C: Cases + 'a>() -> Vec<Section<'a, C>> {
    vec![
        ("short values of any form", Box::new(short_values)),
        ("values in every form", Box::new(every_form)),
        ("forms with every bit changed", Box::new(changed_forms)),
        ("lengths of forms", Box::new(lengths)),
        ("offsets and fractions of forms", Box::new(offsets_and_fractions)),
        ("dates and times of forms", Box::new(dates_and_times)),
        ("large numbers in forms", Box::new(large_numbers)),
    ]
}

/// Drawn from the seed apart from the other drawn sections.
pub fn drawn<'a, C: Cases + 'a>(options: Options) -> Vec<Section<'a, C>> {
    type Draw<C> = fn(&mut C, &mut Random);
    let draws: [(&'static str, Draw<C>); 2] =
        [("drawn forms of values", drawn_forms), ("damaged forms, and any bodies", damaged_forms)];
    let section = |(place, (name, draw)): (usize, (&'static str, Draw<C>))| -> Section<'a, C> {
        let all = move |cases: &mut C| {
            let mut random = Random::new(options.seed.wrapping_add((2 + place as u64) << 40));
            for _ in 0..options.draws {
                draw(cases, &mut random);
            }
        };
        (name, Box::new(all))
    };
    draws.into_iter().enumerate().map(section).collect()
}

/// Every input of up to three bytes, and what the reader of the shortest form is given of short bodies.
fn short_values(cases: &mut impl Cases) {
    all_short(3, &mut |input| cases.read_padded(input));
    all_short_bodies(&mut |input| cases.read_padded(input));
}

// ---- forms of known timestamps

const OFFSETS: [Option<i32>; 12] = [
    None,
    Some(0),
    Some(1),
    Some(-1),
    Some(63),
    Some(-63),
    Some(64),
    Some(-64),
    Some(1438),
    Some(-1438),
    Some(1439),
    Some(-1439),
];

/// Coefficients and digits: zeros, and what ends a byte or begins the next one.
const FRACTIONS: [(u64, i64); 9] =
    [(0, 1), (0, 18), (1, 1), (9, 1), (127, 3), (128, 3), (32_768, 5), (1, 18), (999_999_999_999_999_999, 18)];

/// Pairs of each precision, at the ends of the years and of a month, with offsets and fractions at their edges.
fn some_pairs() -> Vec<Pair> {
    let mut builds = Vec::new();
    for (year, month, day) in [(1, 1, 1), (9999, 12, 31), (2020, 2, 29)] {
        let day = Build::day(year, month, day);
        builds.extend([Build::year(year), Build { stage: Stage::Month, ..day }, day]);
        for (hour, minute) in [(0, 0), (23, 59)] {
            for offset in OFFSETS.map(|minutes| minutes.map_or(Offset::None, Offset::Local)) {
                let second = day.second(hour, minute, 59).offset(offset);
                let digits = |(coefficient, digits): (u64, i64)| {
                    second.fraction(Fraction::Decimal { negative: false, coefficient, exponent: -digits })
                };
                builds.extend([day.minute(hour, minute).offset(offset), second]);
                builds.extend(FRACTIONS.map(digits));
            }
        }
    }
    let pair = |build: &Build| match oracle::build(build) {
        Answer::Accepted(pair) => pair,
        other => panic!("{build:?}: {other:?}"),
    };
    builds.iter().map(pair).collect()
}

/// How many bits ten bytes have for a number beside its sign.
const SIGNED_BITS: u32 = 7 * LONGEST_NUMBER as u32 - 1;

/// The shortest form of a pair, and those with other numbers: beside a second without digits the fractions that are
/// ignored, and beside digits of zero a negative zero.
fn spellings(pair: Pair) -> Vec<Form> {
    let shortest = Form::shortest(pair);
    let mut spellings = vec![shortest.clone()];
    let mut with = |exponent: (bool, u128), negative: bool| {
        let (offset, fields) = shortest.numbers.split_first().expect("an offset");
        let fields: Vec<u128> = fields.iter().take(6).map(|field| field.magnitude).collect();
        let fraction = Some((exponent, (negative, 0)));
        spellings.push(Form::of((offset.negative, offset.magnitude), &fields, fraction));
    };
    match shortest.numbers.get(EXPONENT) {
        None if shortest.numbers.len() == EXPONENT => {
            with((true, 0), false);
            with((true, 0), true);
            for exponent in [0, 1, 18, 19, 64, 1 << 32, 1 << 64, (1 << SIGNED_BITS) - 1] {
                with((false, exponent), false);
                with((false, exponent), true);
            }
        }
        Some(digits) if shortest.coefficient.magnitude == 0 => with((true, digits.magnitude), true),
        _ => {}
    }
    spellings
}

/// The form with its length in the descriptor, where that has room, and after 6E in one byte.
fn short_and_long(form: &Form, case: &mut impl FnMut(&Form)) {
    if form.body().len() <= LONGEST_SHORT {
        case(&form.with_length(None));
    }
    case(&form.with_length(Some(1)));
}

/// The same, and in ten bytes.
fn with_lengths(form: &Form, case: &mut impl FnMut(&Form)) {
    short_and_long(form, case);
    case(&form.with_length(Some(LONGEST_NUMBER)));
}

/// The form with each of its parts in more bytes, up to as many as it may have and one more: the length, each number, the
/// coefficient, and all numbers at once; and a body of 64 bytes, by longer numbers and by a longer coefficient.
fn paddings(form: &Form, case: &mut impl FnMut(&Form)) {
    (1..=LONGEST_NUMBER + 1).for_each(|width| case(&form.with_length(Some(width))));
    for place in 0..form.numbers.len() {
        for width in form.narrowest(place)..=LONGEST_NUMBER + 1 {
            with_lengths(&form.with_width(place, width), case);
        }
    }
    if form.numbers.len() > EXPONENT {
        let least = form.coefficient.width;
        (least..=least + form.room() + 1).for_each(|width| with_lengths(&form.with_coefficient(width), case));
    }
    for width in 2..=LONGEST_NUMBER {
        let mut wider = form.clone();
        wider.numbers.iter_mut().for_each(|number| number.width = width);
        with_lengths(&wider.widened(), case);
    }
    with_lengths(&form.longest(), case);
}

/// A form of a pair's value, unless a part has too many bytes: read as that pair, also before another byte, and cut.
fn read_form(cases: &mut impl Cases, form: &Form, pair: Pair) {
    let bytes = form.bytes();
    let owed = if form.has_room() { Ok(pair) } else { Err(BODY) };
    cases.read_form(&bytes, owed);
    if owed.is_ok() {
        cases.read_padded(&[&bytes[..], &[bytes[bytes.len() / 2]]].concat());
        cases.read_form(&bytes[..bytes.len() - 1], Err(INPUT_ENDS));
        cases.read_form(&bytes[..bytes.len() / 2], Err(INPUT_ENDS));
    }
}

/// These pairs in every spelling, with every part in more bytes.
fn every_form(cases: &mut impl Cases) {
    for pair in some_pairs() {
        for spelling in spellings(pair) {
            with_lengths(&spelling, &mut |form| read_form(cases, form, pair));
            paddings(&spelling, &mut |form| read_form(cases, form, pair));
        }
    }
}

/// Each bit changed of some forms, and of fewer all that is done to texts.
fn changed_forms(cases: &mut impl Cases) {
    for (place, pair) in some_pairs().into_iter().enumerate().step_by(29) {
        for spelling in spellings(pair).iter().step_by(5) {
            let mut forms = Vec::new();
            paddings(spelling, &mut |form| forms.push(form.bytes()));
            forms.iter().for_each(|form| one_bit_changed(form, &mut |input| cases.read_padded(input)));
            for form in forms.iter().skip(place % 7).step_by(67) {
                one_changed(form, &mut |input| cases.read_padded(input));
            }
        }
    }
}

// ---- edges

/// A second, at which all numbers may stand.
const SECOND: [u128; 6] = [2020, 2, 3, 4, 5, 6];

/// Counts of fields: no field and an hour without a minute are too few.
const COUNTS: [usize; 7] = [0, 1, 2, 3, 4, 5, 6];

/// Every length up to 70, in every number of bytes, of bodies that are so long, a byte too short, and a byte longer;
/// lengths of more bits; and lengths without an end.
fn lengths(cases: &mut impl Cases) {
    let with_zeros = Form::of((true, 0), &SECOND, Some(((true, 3), (false, 70))));
    let without_digits = Form::of((false, 0), &SECOND, Some(((false, 0), (false, 0))));
    for length in 0..=70usize {
        let mut bodies: Vec<Vec<u8>> = [0x00, 0x80, 0x81, 0xC0].map(|byte| vec![byte; length]).to_vec();
        for form in [&with_zeros, &without_digits] {
            if let Some(zeros) = length.checked_sub(form.body().len()) {
                bodies.push(form.with_coefficient(form.coefficient.width + zeros).body());
            }
        }
        for fields in 1..=6 {
            let form = Form::of((true, 0), &SECOND[..fields], None);
            let zeros = length.checked_sub(form.body().len());
            if let Some(zeros) = zeros.filter(|zeros| *zeros <= LONGEST_NUMBER) {
                bodies.push(form.with_width(1, form.numbers[1].width + zeros).body());
            }
        }
        for body in bodies {
            if length <= LONGEST_SHORT {
                let bytes = value(None, &body);
                cases.read_padded(&bytes);
                cases.read_padded(&bytes[..length]);
            }
            for more in [0, 1 << 7, 1 << 8, 1 << 16, 1 << 32, 1 << 64, 1 << 69] {
                let told = length as u128 + more;
                for width in group_count(told)..=LONGEST_NUMBER + 1 {
                    let header = [vec![0x6E], groups(told, width)].concat();
                    cases.read_padded(&[&header[..], &body].concat());
                    cases.read_padded(&[&header[..], &body, &[0x80]].concat());
                    cases.read_padded(&[&header[..], &body[..body.len().saturating_sub(1)]].concat());
                }
            }
        }
    }
    for byte in [0x00, 0x01, 0x40, 0x7F] {
        for count in 0..=12 {
            for rest in [&[][..], &[0x80], &[0x83, 0xC0, 0x0F, 0xE4], &[0xFF], &[0xC0, 0x80]] {
                cases.read_padded(&[&[0x6E][..], &vec![byte; count], rest].concat());
            }
        }
    }
}

/// The form after its length in the descriptor and after 6E.
fn read(cases: &mut impl Cases, form: &Form) {
    short_and_long(form, &mut |form| cases.read_padded(&form.bytes()));
}

/// Numbers at the edges of bytes, of words, and of ten bytes with a sign.
fn exponents() -> impl Iterator<Item = u128> {
    let powers = [6, 7, 8, 13, 16, 20, 31, 32, 62, 63, 64, SIGNED_BITS].map(|bits| 1 << bits);
    powers.into_iter().flat_map(|power: u128| [power - 1, power, power + 1]).filter(|number| number >> SIGNED_BITS == 0)
}

/// Offsets around the ends of a day, of bytes and of words, beside every count of fields; every count of digits and past
/// it, and exponents of either sign, beside coefficients at their edges.
fn offsets_and_fractions(cases: &mut impl Cases) {
    let around = [6, 13, 16, 20, 31, 32, 64].into_iter().flat_map(|bits| {
        [0, 1, 480, 1439, 1440].into_iter().flat_map(move |more| [(1u128 << bits) - 1, (1 << bits) + more])
    });
    let minutes: Vec<u128> = [0, 1, 59, 60, 480].into_iter().chain(1437..=1442).chain(around).collect();
    for (count, minutes) in COUNTS.iter().flat_map(|count| minutes.iter().map(move |minutes| (*count, *minutes))) {
        for negative in [false, true] {
            let form = Form::of((negative, minutes), &SECOND[..count], None);
            for width in form.narrowest(0)..=LONGEST_NUMBER + 1 {
                read(cases, &form.with_width(0, width));
            }
        }
    }
    let powers = (0..20).map(|power| 10u128.pow(power)).chain([8, 15, 16, 31, 32, 63, 64, 127].map(|bits| 1 << bits));
    let coefficients: Vec<u128> =
        [0].into_iter().chain(powers.flat_map(|power| [power - 1, power, power + 1])).collect();
    let signed = |magnitude: u128| [(false, magnitude), (true, magnitude)];
    for exponent in (0..=25).chain(exponents()).flat_map(signed) {
        for coefficient in coefficients.iter().copied().flat_map(signed) {
            let form = Form::of((false, 480), &SECOND, Some((exponent, coefficient)));
            read(cases, &form);
            for zeros in [1, 7, form.room()] {
                read(cases, &form.with_coefficient(form.coefficient.width + zeros));
            }
        }
        for width in group_count(exponent.1 << 1)..=LONGEST_NUMBER + 1 {
            for coefficient in [(false, 0), (true, 0), (false, 1), (true, 1)] {
                let form = Form::of((true, 0), &SECOND, Some((exponent, coefficient)));
                read(cases, &form.with_width(EXPONENT, width));
            }
        }
    }
    // A coefficient of any bytes: all of one, and one among zeros.
    for (length, byte) in (0..=55).flat_map(|length| [0x00, 0x01, 0x7F, 0x80, 0xFF].map(|byte| (length, byte))) {
        let start = Form::of((true, 0), &SECOND, Some(((true, 18), (false, 0)))).body();
        cases.read_padded(&value(Some(1), &[&start[..], &vec![byte; length]].concat()));
        for place in 0..length {
            let mut coefficient = vec![0; length];
            coefficient[place] = byte;
            cases.read_padded(&value(Some(1), &[&start[..], &coefficient].concat()));
        }
    }
}

/// Dates and times there are and there are not, at each precision, and offsets that move them into years and out of them.
fn dates_and_times(cases: &mut impl Cases) {
    let offsets = [None, Some(0), Some(1), Some(-1), Some(60), Some(-60), Some(720), Some(1439), Some(-1439)];
    let years = [0, 1, 2, 4, 100, 400, 1900, 2000, 2020, 9998, 9999, 10_000, 10_001, 16_383, 16_384];
    let days = [(1, 1), (1, 2), (2, 28), (2, 29), (2, 30), (3, 1), (12, 30), (12, 31)];
    let times = [(0, 0), (0, 1), (12, 0), (23, 58), (23, 59)];
    for (year, (month, day)) in years.iter().flat_map(|year| days.map(|day| (*year, day))) {
        for minutes in offsets {
            for (hour, minute) in times {
                for fields in [&[year, month, day, hour, minute][..], &[year, month, day, hour, minute, 59]] {
                    read(cases, &Form::of(offset(minutes), fields, None));
                }
            }
        }
    }
    for (year, month) in [0, 1, 4, 1900, 2000, 2019, 9999, 10_000].iter().flat_map(|y| (0..=15).map(|m| (*y, m))) {
        read(cases, &Form::of(offset(None), &[year], None));
        read(cases, &Form::of(offset(None), &[year, month], None));
        for (day, minutes) in (0..=33).flat_map(|day| [None, Some(1439), Some(-1439)].map(|minutes| (day, minutes))) {
            read(cases, &Form::of(offset(minutes), &[year, month, day], None));
            read(cases, &Form::of(offset(minutes), &[year, month, day, 4, 5], None));
        }
    }
    for (one, other) in (0..=64).flat_map(|one| [0, 22, 23, 24, 59, 60, 61].map(|other| (one, other))) {
        for [hour, minute, second] in [[one, other, 0], [other, one, 0], [4, one, other], [4, other, one]] {
            read(cases, &Form::of(offset(Some(-60)), &[2020, 2, 29, hour, minute], None));
            read(cases, &Form::of(offset(Some(60)), &[2020, 2, 29, hour, minute, second], None));
        }
    }
}

/// Each number with bits above those that it has, in every number of bytes; and the largest there are.
fn large_numbers(cases: &mut impl Cases) {
    let fractions = [None, Some(((true, 3), (false, 70))), Some(((false, 3), (false, 0)))];
    let bits = [6, 7, 8, 12, 13, 14, 15, 16, 20, 21, 28, 31, 32, 35, 42, 48, 49, 56, 62, 63, 64, 65, 68, 69];
    for (count, fraction) in COUNTS.into_iter().map(|count| (count, None)).chain(fractions.map(|with| (6, with))) {
        for offset in [(true, 0), (false, 480)] {
            let form = Form::of(offset, &SECOND[..count], fraction);
            for (place, number) in form.numbers.iter().enumerate() {
                let more = bits.into_iter().map(|bits| number.magnitude + (1 << bits));
                let most = (1..=LONGEST_NUMBER as u32).flat_map(|width| [7 * width, 7 * width - 1]);
                for magnitude in more.chain(most.map(|bits| (1 << bits) - 1)) {
                    for width in narrowest(place, magnitude)..=LONGEST_NUMBER + 1 {
                        read(cases, &form.with_number(place, Number { magnitude, width, ..*number }));
                    }
                }
            }
        }
    }
}

// ---- drawn

/// A form of a drawn pair's value: whole, cut anywhere, before other bytes, with a part of too many bytes, and with one of
/// its numbers changed.
fn drawn_forms(cases: &mut impl Cases, random: &mut Random) {
    let pair = if random.one_in(8) { at_an_end(random) } else { generate::accepted(random) };
    let form = generate::form(random, pair);
    let bytes = form.bytes();
    cases.read_form(&bytes, Ok(pair));
    cases.read_form(&bytes[..random.below(bytes.len() as u64) as usize], Err(INPUT_ENDS));
    let after: Vec<u8> = (0..=random.below(3)).map(|_| random.bits() as u8).collect();
    cases.read_padded(&[bytes, after].concat());
    cases.read_form(&generate::long_form(random, &form).bytes(), Err(BODY));
    cases.read_padded(&generate::changed_form(random, &form).bytes());
}

/// A form with a damage in its body or its header, and with a number changed before; the beginning of a body before any
/// bytes; and a body after a length of any bytes, with a mark or without.
fn damaged_forms(cases: &mut impl Cases, random: &mut Random) {
    let pair = generate::accepted(random);
    let form = generate::form(random, pair);
    let changed = generate::changed_form(random, &form);
    cases.read_padded(&damage::form(random, &form));
    cases.read_padded(&damage::form(random, &changed));
    let body = form.body();
    cases.read_padded(&value(None, &any_body(random, &body)));
    let groups: Vec<u8> = (0..random.below(12)).map(|_| random.pick(&[0x00, 0x00, 0x00, 0x01, 0x7F])).collect();
    let last = if random.one_in(2) { vec![0x80 + random.below(72) as u8] } else { Vec::new() };
    let rest = if random.one_in(2) { &body[..] } else { &[] };
    cases.read_padded(&[&[0x6E], &groups[..], &last, rest].concat());
}

/// The beginning of a body before any bytes, mostly at an edge of what they mean.
fn any_body(random: &mut Random, body: &[u8]) -> Vec<u8> {
    let longest = if random.one_in(2) { LONGEST_SHORT } else { LONGEST_BODY };
    let length = random.below(longest as u64 + 1) as usize;
    let kept = random.below(body.len() as u64 + 1) as usize;
    let mut any = body[..kept.min(length)].to_vec();
    while any.len() < length {
        any.push(if random.one_in(3) { random.bits() as u8 } else { random.pick(&damage::VALUE_EDGES) });
    }
    any
}
