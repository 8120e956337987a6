//! Sections drawn at random from a seed.

use super::{Cases, Options, Section};
use crate::calls::{Build, Layout, Pair, Scan};
use crate::damage;
use crate::generate;
use crate::model::fields;
use crate::oracle::{self, Answer};
use crate::random::Random;

pub fn sections<'a, C: Cases + 'a>(options: Options) -> Vec<Section<'a, C>> {
    type Draw<C> = fn(&mut C, &mut Random);
    let draws: [(&'static str, Draw<C>); 16] = [
        ("field sets", field_sets),
        ("pairs and changed pairs", pairs),
        ("two pairs far apart", far_apart),
        ("two pairs close together", close_together),
        ("two pairs at the years' ends", at_the_ends),
        ("two pairs, one or both changed", changed),
        ("values and damaged values", values),
        ("any bytes", any_bytes),
        ("numbers", numbers),
        ("shifts", shifts),
        ("texts and damaged texts", texts),
        ("texts of any numbers", texts_of_numbers),
        ("scans and damaged scans", scans),
        ("drawn scans written", scans_written),
        ("files and damaged files", files),
        ("any months", any_months),
    ];
    let section = |(place, (name, draw)): (usize, (&'static str, Draw<C>))| -> Section<'a, C> {
        let all = move |cases: &mut C| {
            let mut random = Random::new(options.seed.wrapping_add((place as u64) << 32));
            for _ in 0..options.draws {
                draw(cases, &mut random);
            }
        };
        (name, Box::new(all))
    };
    draws.into_iter().enumerate().map(section).collect()
}

fn field_sets(cases: &mut impl Cases, random: &mut Random) {
    let build = generate::build(random);
    cases.build_and_use(&build);
    let changed = generate::changed_build(random, &build);
    cases.build_and_use(&changed);
    cases.build_and_use(&generate::changed_build(random, &changed));
}

fn pairs(cases: &mut impl Cases, random: &mut Random) {
    let pair = generate::accepted(random);
    let changed = generate::changed_pair(random, pair);
    cases.pair(changed);
    cases.pair(generate::changed_pair(random, changed));
}

fn far_apart(cases: &mut impl Cases, random: &mut Random) {
    let (first, second) = (generate::accepted(random), generate::accepted(random));
    cases.two(first, second);
}

fn close_together(cases: &mut impl Cases, random: &mut Random) {
    let first = generate::accepted(random);
    let second = generate::near(random, first);
    cases.two(first, second);
    cases.two(second, first);
}

fn at_the_ends(cases: &mut impl Cases, random: &mut Random) {
    let (first, second) = (at_an_end(random), at_an_end(random));
    cases.two(first, second);
    cases.two(first, generate::near(random, first));
}

fn changed(cases: &mut impl Cases, random: &mut Random) {
    let (first, second) = (generate::accepted(random), generate::accepted(random));
    let changed = generate::changed_pair(random, first);
    cases.two(changed, second);
    cases.two(second, changed);
    cases.two(changed, generate::changed_pair(random, second));
}

fn values(cases: &mut impl Cases, random: &mut Random) {
    let Answer::Accepted(mut value) = oracle::value(generate::accepted(random)) else {
        unreachable!("an accepted pair has a value");
    };
    cases.read(&damage::value(random, &value));
    let twice = damage::value(random, &value);
    if !twice.is_empty() {
        cases.read(&damage::value(random, &twice));
    }
    let after = random.below(4);
    value.extend((0..after).map(|_| random.bits() as u8));
    cases.read(&value);
}

fn any_bytes(cases: &mut impl Cases, random: &mut Random) {
    let length = random.below(24);
    let mut bytes: Vec<u8> = (0..length).map(|_| random.bits() as u8).collect();
    if let Some(first) = bytes.first_mut() {
        *first = 0x5F + *first % 17;
    }
    cases.read(&bytes);
}

fn numbers(cases: &mut impl Cases, random: &mut Random) {
    let number = random.any_size();
    cases.var_uint(number);
    cases.var_int(number as i64);
    cases.var_int((number as i64).wrapping_neg());
    cases.zero_padded(number, random.below(30) as usize);
}

fn shifts(cases: &mut impl Cases, random: &mut Random) {
    let time = fields::of_word(generate::accepted(random)).time;
    cases.shift(time, random.between(-1439, 1439) as i32);
}

fn texts(cases: &mut impl Cases, random: &mut Random) {
    let mut text = generate::text(random);
    cases.read_text(&text);
    let damaged = damage::text(random, &text);
    cases.read_text(&damaged);
    if !damaged.is_empty() {
        cases.read_text(&damage::text(random, &damaged));
    }
    text.extend((0..=random.below(3)).map(|_| random.bits() as u8));
    cases.read_text(&text);
}

fn texts_of_numbers(cases: &mut impl Cases, random: &mut Random) {
    let text = generate::text_of_numbers(random);
    cases.read_text(&text);
    cases.read_text(&damage::text(random, &text));
}

fn scans(cases: &mut impl Cases, random: &mut Random) {
    let layout = random.pick(&Layout::ALL);
    let mut bytes = oracle::scans(&[generate::scan(random)], layout);
    let damaged = damage::scans(random, &bytes);
    cases.read_scan(&damaged, layout);
    cases.read_scan(&damage::scans(random, &damaged), layout);
    bytes.extend((0..random.below(4)).map(|_| random.bits() as u8));
    cases.read_scan(&bytes, layout);
}

fn scans_written(cases: &mut impl Cases, random: &mut Random) {
    let scan = generate::scan(random);
    cases.write_scan(scan);
    cases.write_scan(Scan { pair: generate::changed_pair(random, scan.pair), ..scan });
    cases.write_start(random.below(12) as usize, random.below(12) as usize);
}

/// A file of up to 20 scans: whole, cut anywhere, damaged once and twice.
fn files(cases: &mut impl Cases, random: &mut Random) {
    let scans: Vec<Scan> = (0..random.below(21)).map(|_| generate::scan(random)).collect();
    let file = oracle::file_in(random.pick(&Layout::ALL), &scans);
    cases.file(&file);
    cases.file(&file[..random.below(file.len() as u64 + 1) as usize]);
    let damaged = damage::scans(random, &file);
    cases.file(&damaged);
    cases.file(&damage::scans(random, &damaged));
}

fn any_months(cases: &mut impl Cases, random: &mut Random) {
    let first = random.pick(&[0, 0, 0, 9_999]);
    let year = random.between(first, 10_002) as u32;
    cases.month_length(year, random.below(15) as u32);
    cases.month_length(year, random.any_size() as u32);
    cases.month_length(random.any_size() as u32, random.below(15) as u32);
    cases.year_start(year);
    cases.year_start(random.any_size() as u32);
}

/// A pair of the year 1 or 9999, or of its neighbour; most of their offsets leave the years' range.
pub(super) fn at_an_end(random: &mut Random) -> Pair {
    let build = generate::build(random);
    let (year, month) = random.pick(&[(1, 1), (9999, 12), (2, 1), (9998, 12)]);
    let first = Build { year, month, month0: false, day: if month == 1 { 1 } else { 31 }, day0: false, ..build };
    match oracle::build(&first) {
        Answer::Accepted(pair) => pair,
        _ => generate::accepted(random),
    }
}
