//! Times of the calls, on the Rust's side and on a library's, on the same inputs.
//!
//! The Rust is called without the catching of panics that the comparison needs, in one crate with its caller, so that
//! it may be inlined; a library's calls go over a C boundary. What a library's call on timestamps does is a check of
//! each and then its work: the Rust "with the check" does the same, by `try_from_bits`, and the Rust "bare" is given
//! timestamps that were checked before, and only works.
//!
//! Inputs: 1024 field sets that are accepted, drawn from a seed, their pairs, and for each pair one close to it; 1024
//! numbers of each of three kinds, with the widths to which they are padded; 1024 months. They are passed over many
//! times, so that they are in the cache. Writers write into one buffer of 64 bytes, which is never cleared: it holds
//! what the call before wrote, and is in the cache.

mod reports;
pub(crate) mod scans;
mod values;

use crate::binary::timestamp::TimestampBinaryEncoder;
use crate::calls::{Build, Library, Pair};
use crate::generate;
use crate::oracle::{self, Answer};
use crate::plain_reader;
use crate::random::Random;
use crate::text::text_formatter;
use crate::types::timestamp::opened;
use crate::Timestamp;
use std::fmt;
use std::hint::black_box;
use std::time::Instant;

const INPUTS: usize = 1024;
const PASSES: usize = 100;
const ROUNDS: usize = 60;

struct Inputs {
    builds: Vec<Build>,
    pairs: Vec<Pair>,
    near: Vec<Pair>,
    stamps: Vec<Timestamp>,
    near_stamps: Vec<Timestamp>,
    values: Vec<Vec<u8>>,
    texts: Vec<Vec<u8>>,
    numbers: Numbers,
    /// Years from 0 to 9999, and their months.
    months: Vec<(u32, u32)>,
}

/// Numbers and the widths to which they are padded.
struct Numbers {
    /// Two digits, as most fields of a text.
    fields: Vec<(u64, usize)>,
    /// Up to seven digits, in full, as counts are printed.
    counts: Vec<(u64, usize)>,
    /// One to twenty digits, to any width up to 20.
    any: Vec<(u64, usize)>,
}

fn numbers(random: &mut Random) -> Numbers {
    let mut drawn = |draw: fn(&mut Random) -> (u64, usize)| (0..INPUTS).map(|_| draw(random)).collect();
    /// A number of up to so many digits, each number of them as frequent.
    fn of_digits(random: &mut Random, most: u64) -> u64 {
        let digits = 1 + random.below(most) as u32;
        random.bits() % 10u64.checked_pow(digits).unwrap_or(u64::MAX)
    }
    Numbers {
        fields: drawn(|random| (random.below(60), 2)),
        counts: drawn(|random| (of_digits(random, 7), 1)),
        any: drawn(|random| (of_digits(random, 20), random.below(21) as usize)),
    }
}

pub(crate) fn stamp(pair: Pair) -> Timestamp {
    Timestamp::try_from_bits(pair.word, pair.attoseconds).expect("an accepted pair")
}

fn inputs(seed: u64) -> Inputs {
    let mut random = Random::new(seed);
    let (mut builds, mut pairs, mut near) = (Vec::new(), Vec::new(), Vec::new());
    while builds.len() < INPUTS {
        let build = generate::build(&mut random);
        let Answer::Accepted(pair) = oracle::build(&build) else {
            continue;
        };
        let close = generate::near(&mut random, pair);
        if oracle::check(close) == Answer::Accepted(close) {
            builds.push(build);
            pairs.push(pair);
            near.push(close);
        }
    }
    let written = |bytes: Answer<Vec<u8>>| match bytes {
        Answer::Accepted(bytes) => bytes,
        other => panic!("an accepted pair has a text and a value, not {other:?}"),
    };
    Inputs {
        stamps: pairs.iter().map(|pair| stamp(*pair)).collect(),
        near_stamps: near.iter().map(|pair| stamp(*pair)).collect(),
        values: pairs.iter().map(|pair| written(oracle::value(*pair))).collect(),
        texts: pairs.iter().map(|pair| written(oracle::text(*pair))).collect(),
        numbers: numbers(&mut random),
        months: (0..INPUTS).map(|_| (random.below(10_000) as u32, 1 + random.below(12) as u32)).collect(),
        builds,
        pairs,
        near,
    }
}

/// Does some work, and tells the seconds.
type Timed<'a> = Box<dyn FnMut() -> f64 + 'a>;

fn timed_once<'a>(mut work: impl FnMut() + 'a) -> Option<Timed<'a>> {
    Some(Box::new(move || {
        let start = Instant::now();
        work();
        start.elapsed().as_secs_f64()
    }))
}

/// A call on every input, many times over.
fn timed<'a, T>(mut call: impl FnMut(usize) -> T + 'a) -> Option<Timed<'a>> {
    timed_once(move || {
        for _ in 0..PASSES {
            for place in 0..INPUTS {
                black_box(call(black_box(place)));
            }
        }
    })
}

/// The same for a writer, with a buffer of its own.
fn writing<'a, T>(mut call: impl FnMut(usize, &mut [u8]) -> T + 'a) -> Option<Timed<'a>> {
    let mut buffer = [0; 64];
    timed(move |at| call(at, black_box(&mut buffer)))
}

/// A lent buffer for the Rust's text: a copy and a position.
struct Lent<'a> {
    buffer: &'a mut [u8],
    at: usize,
}

impl fmt::Write for Lent<'_> {
    #[inline]
    fn write_str(&mut self, text: &str) -> fmt::Result {
        let end = self.at + text.len();
        let room = self.buffer.get_mut(self.at..end).ok_or(fmt::Error)?;
        room.copy_from_slice(text.as_bytes());
        self.at = end;
        Ok(())
    }
}

fn write_text(stamp: &Timestamp, buffer: &mut [u8]) -> usize {
    let mut lent = Lent { buffer, at: 0 };
    stamp.format(&mut lent).expect("64 bytes are enough");
    lent.at
}

fn write_padded((value, width): (u64, usize), buffer: &mut [u8]) -> usize {
    let mut lent = Lent { buffer, at: 0 };
    text_formatter::write_zero_padded(&mut lent, value, width).expect("64 bytes are enough");
    lent.at
}

/// The Rust's length of a month that there is, as a picker would ask it.
fn month_length((year, month): (u32, u32)) -> u32 {
    match year <= 10_000 && (1..=12).contains(&month) {
        true => opened::days_in_month(year as u16, month as u8) as u32,
        false => 0,
    }
}

/// The days before a year, as a user would count them: 365 for each year, and one for each leap year.
fn year_start(year: u32) -> u64 {
    let year = year as u64;
    365 * year + year.div_ceil(4) - year.div_ceil(100) + year.div_ceil(400)
}

fn write_value(stamp: &Timestamp, mut buffer: &mut [u8]) -> usize {
    buffer.encode_timestamp_value(stamp).expect("64 bytes are enough")
}

/// What stands above a row's times.
const HEADS: &str = " Rust and check  Rust bare   library   ratio";

/// A call on the Rust's side, with the check and bare, and on the library's.
struct Row<'a> {
    name: &'a str,
    sides: [Option<Timed<'a>>; 3],
    best: [f64; 3],
}

impl<'a> Row<'a> {
    fn new(name: &'a str, sides: [Option<Timed<'a>>; 3]) -> Row<'a> {
        Row { name, sides, best: [f64::INFINITY; 3] }
    }

    /// Times each side once.
    fn round(&mut self) {
        for (side, best) in self.sides.iter_mut().zip(&mut self.best) {
            if let Some(side) = side {
                *best = best.min(side());
            }
        }
    }

    /// The best times in nanoseconds of each of so many calls, and the library's against the Rust's.
    fn told(&self, calls: usize) -> String {
        let [checked, bare, library] = self.best.map(|best| match best.is_finite() {
            true => format!("{:.1}", best * 1e9 / calls as f64),
            false => "-".to_string(),
        });
        let ratio = match self.best[0].is_finite() {
            true => format!("{:.2}", self.best[2] / self.best[0]),
            false => "-".to_string(),
        };
        format!("{checked:>15} {bare:>10} {library:>9} {ratio:>7}")
    }
}

/// Prints the Rust's times and a library's. Every call is timed once in each round, so that a slow spell of the machine
/// falls on all of them, and the best of all rounds counts.
pub fn run<L: Library>(library: &L, seed: u64) {
    let inputs = inputs(seed);
    let mut rows = rows(library, &inputs);
    for _ in 0..ROUNDS {
        rows.iter_mut().for_each(Row::round);
    }
    println!("ns a call, best of {ROUNDS} rounds of {} calls; seed {seed}", PASSES * INPUTS);
    println!("{:<14} {HEADS}", "call");
    for row in rows {
        println!("{:<14} {}", row.name, row.told(PASSES * INPUTS));
    }
    values::run(library, &inputs.pairs, seed);
    scans::run(library, seed);
    reports::run(library, seed);
}

fn rows<'a, L: Library>(library: &'a L, inputs: &'a Inputs) -> Vec<Row<'a>> {
    let (builds, pairs, near) = (&inputs.builds, &inputs.pairs, &inputs.near);
    let (stamps, near_stamps, values, texts) = (&inputs.stamps, &inputs.near_stamps, &inputs.values, &inputs.texts);
    let months = &inputs.months;
    let padded = |name, numbers: &'a [(u64, usize)]| {
        Row::new(
            name,
            [
                writing(|at, buffer| write_padded(numbers[at], buffer)),
                None,
                writing(|at, buffer| library.write_zero_padded(numbers[at].0, numbers[at].1, buffer)),
            ],
        )
    };
    vec![
        // The builder's checks are the call itself.
        Row::new(
            "build",
            [
                timed(|at| oracle::build_stamp(&builds[at]).map(|stamp| stamp.to_bits())),
                None,
                timed(|at| library.build(&builds[at])),
            ],
        ),
        Row::new("check", [timed(|at| stamp(pairs[at]).to_bits()), None, timed(|at| library.check(pairs[at]))]),
        Row::new(
            "cmp",
            [
                timed(|at| stamp(pairs[at]).cmp(&stamp(near[at]))),
                timed(|at| stamps[at].cmp(&near_stamps[at])),
                timed(|at| library.cmp(pairs[at], near[at])),
            ],
        ),
        Row::new(
            "==",
            [
                timed(|at| stamp(pairs[at]) == stamp(near[at])),
                timed(|at| stamps[at] == near_stamps[at]),
                timed(|at| library.eq(pairs[at], near[at])),
            ],
        ),
        Row::new("distance", [None, None, timed(|at| library.distance(pairs[at], near[at]))]),
        Row::new(
            "to_utc",
            [
                timed(|at| stamp(pairs[at]).to_utc().to_bits()),
                timed(|at| stamps[at].to_utc().to_bits()),
                timed(|at| library.to_utc(pairs[at])),
            ],
        ),
        Row::new(
            "text",
            [
                writing(|at, buffer| write_text(&stamp(pairs[at]), buffer)),
                writing(|at, buffer| write_text(&stamps[at], buffer)),
                writing(|at, buffer| library.text(pairs[at], buffer)),
            ],
        ),
        Row::new(
            "value",
            [
                writing(|at, buffer| write_value(&stamp(pairs[at]), buffer)),
                writing(|at, buffer| write_value(&stamps[at], buffer)),
                writing(|at, buffer| library.value(pairs[at], buffer)),
            ],
        ),
        Row::new("read", [None, None, timed(|at| library.read(&values[at]))]),
        // The Rust's side is a reader written by hand over its builder, whose checks are the call's.
        Row::new(
            "read text",
            [
                timed(|at| plain_reader::read(&texts[at]).map(|stamp| stamp.to_bits())),
                None,
                timed(|at| library.read_text(&texts[at])),
            ],
        ),
        padded("padded field", &inputs.numbers.fields),
        padded("padded count", &inputs.numbers.counts),
        padded("padded any", &inputs.numbers.any),
        Row::new(
            "days in month",
            [
                timed(|at| month_length(months[at])),
                timed(|at| opened::days_in_month(months[at].0 as u16, months[at].1 as u8)),
                timed(|at| library.days_in_month(months[at].0, months[at].1)),
            ],
        ),
        // The Rust's side is the closed form written by hand.
        Row::new(
            "year start",
            [timed(|at| year_start(months[at].0)), None, timed(|at| library.year_start(months[at].0))],
        ),
    ]
}
