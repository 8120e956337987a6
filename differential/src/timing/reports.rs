//! Times of the report over a file of scans, beside the one that a user would write by hand (plain_report.rs).
//!
//! A file is of one day: its scans come as the day goes on, each up to two hours late, so that doubles, gaps and backward
//! steps all occur and none can be foretold. Half of the stamps have a fraction; offsets are mixed. Sites and tags are
//! drawn over all 32 bits, or are 0, 1, 2 and so on, at one site or at some.

use super::{timed_once, Row, HEADS};
use crate::calls::{Counts, DateTime, Library, Pair, Report, Scan};
use crate::generate;
use crate::model::{calendar, fields::SECOND};
use crate::oracle;
use crate::plain_report::{self, PlainReport};
use crate::random::Random;
use crate::reports::WORD_COUNT;
use std::collections::BTreeSet;
use std::hint::black_box;

const ROUNDS: usize = 20;
/// How many scans a file has. In a long one a scan must take as long as in a short one.
const SCANS: [usize; 2] = [1_000_000, 100_000];
/// W and G: ten minutes and half an hour.
const WINDOW: u32 = 600;
const GAP: u32 = 1_800;

struct File {
    name: String,
    scans: usize,
    bytes: Vec<u8>,
    /// What both sides count.
    counts: Counts,
}

/// The second of the day as a clock of any offset has it, in a second with or without a fraction.
fn pair(random: &mut Random, second: i64) -> Pair {
    let day = calendar::minutes(DateTime { year: 2026, month: 5, day: 4, hour: 0, minute: 0 });
    let digits = random.pick(&[0, 0, 0, 3, 6, 9]);
    let attoseconds = random.below(10u64.pow(digits)) * 10u64.pow(18 - digits);
    let count = (day * 60 + second) as i128 * SECOND as i128 + attoseconds as i128;
    let offset = random.pick(&[None, Some(0), Some(60), Some(120), Some(-480)]);
    generate::second_at(count, digits as u64, offset).expect("a time of the year 2026")
}

fn bytes(random: &mut Random, posts: &[(u32, u32)], count: usize) -> Vec<u8> {
    let scan = |place: usize| {
        let second = (place * 86_400 / count) as i64 + random.between(0, 7_200);
        let (site, tag) = random.pick(posts);
        Scan { site, tag, guard: random.below(1_000) as u32, pair: pair(random, second) }
    };
    oracle::file(&(0..count).map(scan).collect::<Vec<_>>())
}

/// So many different posts of two numbers of 32 bits.
fn any_posts(random: &mut Random, count: usize) -> Vec<(u32, u32)> {
    let mut posts = BTreeSet::new();
    while posts.len() < count {
        posts.insert((random.bits() as u32, random.bits() as u32));
    }
    posts.into_iter().collect()
}

/// The first tags of each of the first sites.
fn first_posts(sites: u32, tags: u32) -> Vec<(u32, u32)> {
    (0..sites).flat_map(|site| (0..tags).map(move |tag| (site, tag))).collect()
}

fn by_hand<L: Library>(library: &L, file: &[u8]) -> PlainReport {
    plain_report::report(file, WINDOW, GAP, |value| library.read(value)).expect("a whole file")
}

fn reported<L: Library>(library: &L, file: &[u8], words: &mut [u64]) -> Counts {
    let Report { number, counts } = library.report_file(file, WINDOW, GAP, words);
    assert_eq!(number, 0);
    counts
}

/// The file with its counts, on which both sides must agree, as on the words.
fn file<L: Library>(library: &L, name: String, scans: usize, bytes: Vec<u8>) -> File {
    let mut words = [u64::MAX; WORD_COUNT];
    let counts = reported(library, &bytes, &mut words);
    let plain = by_hand(library, &bytes);
    assert_eq!(counts, plain.counts);
    let mut plain_words = plain.words();
    plain_words.resize(WORD_COUNT, 0);
    assert_eq!(words[..], plain_words);
    let Counts { scans: of_all, doubles, gaps, backward, .. } = counts;
    assert_eq!(of_all, scans as u64);
    assert!([doubles, gaps, backward].iter().all(|count| count * 20 > of_all), "{counts:?}");
    File { name, scans, bytes, counts }
}

fn files<L: Library>(library: &L, seed: u64) -> Vec<File> {
    let mut random = Random::new(seed);
    let drawn = [1, 16, 256].map(|count| (format!("{count} drawn"), any_posts(&mut random, count)));
    let of_one_site = [16, 256].map(|count| (format!("tags 0 to {}", count - 1), first_posts(1, count)));
    let of_sites = [("16 sites of 16 tags".to_string(), first_posts(16, 16))];
    let mut files = Vec::new();
    for scans in SCANS {
        for (name, posts) in drawn.iter().chain(&of_one_site).chain(&of_sites) {
            let bytes = bytes(&mut random, posts, scans);
            files.push(file(library, format!("{name}, {scans}"), scans, bytes));
        }
    }
    files
}

pub fn run<L: Library>(library: &L, seed: u64) {
    let files = files(library, seed);
    let mut rows: Vec<Row> = files.iter().map(|file| row(library, file)).collect();
    for _ in 0..ROUNDS {
        rows.iter_mut().for_each(Row::round);
    }
    println!("ns a scan of a report, best of {ROUNDS} rounds; seed {seed}");
    println!("{:<29} {HEADS}", "posts, scans");
    for (row, file) in rows.iter().zip(&files) {
        println!("{:<29} {}", row.name, row.told(file.scans));
    }
}

fn row<'a, L: Library>(library: &'a L, file: &'a File) -> Row<'a> {
    let plain = || assert_eq!(black_box(by_hand(library, black_box(&file.bytes))).counts, file.counts);
    let mut words = [0; WORD_COUNT];
    let report = move || {
        let counts = reported(library, black_box(&file.bytes), black_box(&mut words));
        assert_eq!(counts, file.counts);
    };
    Row::new(&file.name, [timed_once(plain), None, timed_once(report)])
}
