//! Times of scans: a file of a million, read and written scan after scan, beside the values of the same stamps.
//!
//! The stamps are drawn as the other inputs are, each of them anew. Sites, tags and guards are as a round has them, or
//! drawn over all 32 bits. A file is longer than the cache, and no branch is learnt by heart. It is read in the old layout
//! too, which has no sites.

use super::{stamp, timed_once, write_value, Row, Timed, HEADS};
use crate::calls::{Layout, Library, Pair, Scan, ScanRead};
use crate::generate;
use crate::oracle;
use crate::random::Random;
use crate::scans as by_hand;
use crate::scans::start_of;
use crate::Timestamp;
use std::hint::black_box;

const SCANS: usize = 1_000_000;
const ROUNDS: usize = 20;

/// Scans, and the files of them.
struct File {
    scans: Vec<Scan>,
    old: Vec<u8>,
    new: Vec<u8>,
}

impl File {
    fn of(&self, layout: Layout) -> &[u8] {
        match layout {
            Layout::Old => &self.old,
            Layout::New => &self.new,
        }
    }
}

struct Inputs {
    pairs: Vec<Pair>,
    stamps: Vec<Timestamp>,
    /// The values of the stamps, one after another.
    values: Vec<u8>,
    /// Sites below 100, tags below 10,000 and guards below 1,000.
    round: File,
    /// Sites, tags and guards of 32 bits.
    any: File,
}

fn inputs(seed: u64) -> Inputs {
    let mut random = Random::new(seed);
    let pairs: Vec<Pair> = (0..SCANS).map(|_| generate::accepted(&mut random)).collect();
    let mut file = |sites: u64, tags: u64, guards: u64| {
        let mut number = |limit| random.below(limit) as u32;
        let mut scan = |pair: Pair| Scan { site: number(sites), tag: number(tags), guard: number(guards), pair };
        let scans: Vec<Scan> = pairs.iter().map(|pair| scan(*pair)).collect();
        let [old, new] = Layout::ALL.map(|layout| oracle::file_in(layout, &scans));
        File { scans, old, new }
    };
    let (round, any) = (file(100, 10_000, 1_000), file(1 << 32, 1 << 32, 1 << 32));
    let mut values = vec![0; SCANS * 20];
    let length = pairs.iter().fold(0, |at, pair| at + write_value(&stamp(*pair), &mut values[at..]));
    values.truncate(length);
    Inputs { stamps: pairs.iter().map(|pair| stamp(*pair)).collect(), pairs, values, round, any }
}

/// A site, a tag or a guard, as a user would write it by hand: how many bytes it has, and then its groups from the last
/// back.
fn write_number(mut number: u32, buffer: &mut [u8]) -> usize {
    let length = (38 - (number | 1).leading_zeros() as usize) / 7;
    for byte in buffer[..length].iter_mut().rev() {
        *byte = number as u8 & 0x7F;
        number >>= 7;
    }
    buffer[length - 1] |= 0x80;
    length
}

pub(crate) fn write_scan(scan: &Scan, stamp: &Timestamp, buffer: &mut [u8]) -> usize {
    let tag = write_number(scan.site, buffer);
    let guard = tag + write_number(scan.tag, &mut buffer[tag..]);
    let value = guard + write_number(scan.guard, &mut buffer[guard..]);
    value + write_value(stamp, &mut buffer[value..])
}

/// Reads all of the bytes; `read` reads what they begin with, and tells how many bytes it took, and a sum of its parts,
/// so that every part is used.
fn reading<'a>(bytes: &'a [u8], mut read: impl FnMut(&[u8]) -> (usize, u64) + 'a) -> Option<Timed<'a>> {
    timed_once(move || {
        let (mut at, mut sum) = (0, 0u64);
        while at < bytes.len() {
            let (taken, parts) = read(&bytes[at..]);
            (at, sum) = (at + taken, sum.wrapping_add(parts));
        }
        black_box(sum);
    })
}

/// Writes as many into one buffer; `written` writes one of them from a place on, and tells how many bytes it wrote.
fn writing<'a>(mut written: impl FnMut(usize, &mut [u8], usize) -> usize + 'a) -> Option<Timed<'a>> {
    let mut buffer = vec![0; SCANS * 35];
    timed_once(move || {
        let mut at = 0;
        for place in 0..SCANS {
            at += written(black_box(place), black_box(&mut buffer), at);
        }
    })
}

/// What the library takes or writes, which it must accept.
fn accepted(number: u32, bytes: usize) -> usize {
    assert!(number == 0 && bytes > 0, "refused with {number}");
    bytes
}

pub fn run<L: Library>(library: &L, seed: u64) {
    let inputs = inputs(seed);
    let mut groups = [read_rows(library, &inputs), write_rows(library, &inputs)];
    for _ in 0..ROUNDS {
        groups.iter_mut().flatten().for_each(Row::round);
    }
    println!("ns a scan, best of {ROUNDS} rounds of {SCANS} scans; seed {seed}");
    println!("{:<29} {} {:>9}", "call", HEADS, "above");
    for rows in groups {
        let values = rows[0].best[2];
        for row in rows {
            let above = (row.best[2] - values) * 1e9 / SCANS as f64;
            println!("{:<29} {} {above:>9.1}", row.name, row.told(SCANS));
        }
    }
}

/// The values first, then files of the same stamps.
fn read_rows<'a, L: Library>(library: &'a L, inputs: &'a Inputs) -> Vec<Row<'a>> {
    let sum = |pair: Pair| pair.word.wrapping_add(pair.attoseconds);
    let values = move |bytes: &[u8]| {
        let read = library.read(bytes);
        (accepted(read.number, read.taken), sum(read.pair))
    };
    let parts = move |ScanRead { number, scan, taken }| {
        let numbers = scan.site as u64 + scan.tag as u64 + scan.guard as u64;
        (accepted(number, taken), sum(scan.pair).wrapping_add(numbers))
    };
    // Site, tag and guard by hand, compiled for each layout, and then the library's value; and the library's scan.
    let scans = |file: &'a File, layout: Layout| {
        let bytes = &file.of(layout)[start_of(layout)..];
        let scans = move |bytes: &[u8]| parts(library.read_scan(bytes, layout));
        let by_hand = match layout {
            Layout::Old => {
                reading(bytes, move |bytes| parts(by_hand::read(bytes, Layout::Old, |rest| library.read(rest))))
            }
            Layout::New => {
                reading(bytes, move |bytes| parts(by_hand::read(bytes, Layout::New, |rest| library.read(rest))))
            }
        };
        [by_hand, None, reading(bytes, scans)]
    };
    let whole = |file: &'a File, layout: Layout| {
        let whole = timed_once(move || {
            let read = library.check_file(black_box(file.of(layout)));
            assert_eq!(read.scans, SCANS);
        });
        [None, None, whole]
    };
    let (round, any) = (&inputs.round, &inputs.any);
    vec![
        Row::new("read", [None, None, reading(&inputs.values, values)]),
        Row::new("read scan, a round's", scans(round, Layout::New)),
        Row::new("check file, a round's", whole(round, Layout::New)),
        Row::new("read scan, any numbers", scans(any, Layout::New)),
        Row::new("check file, any numbers", whole(any, Layout::New)),
        Row::new("read old scan, a round's", scans(round, Layout::Old)),
        Row::new("check old file, a round's", whole(round, Layout::Old)),
        Row::new("read old scan, any numbers", scans(any, Layout::Old)),
        Row::new("check old file, any numbers", whole(any, Layout::Old)),
    ]
}

fn write_rows<'a, L: Library>(library: &'a L, inputs: &'a Inputs) -> Vec<Row<'a>> {
    let (pairs, stamps) = (&inputs.pairs, &inputs.stamps);
    let values = [
        writing(|place, buffer, at| write_value(&stamp(pairs[place]), &mut buffer[at..])),
        writing(|place, buffer, at| write_value(&stamps[place], &mut buffer[at..])),
        writing(|place, buffer, at| {
            let answer = library.value(pairs[place], &mut buffer[at..]);
            accepted(answer.number, answer.written)
        }),
    ];
    let scans = |file: &'a File| {
        [
            writing(|place, buffer, at| {
                let scan = &file.scans[place];
                write_scan(scan, &stamp(scan.pair), &mut buffer[at..])
            }),
            writing(|place, buffer, at| write_scan(&file.scans[place], &stamps[place], &mut buffer[at..])),
            writing(|place, buffer, at| {
                let answer = library.write_scan(file.scans[place], buffer, at);
                accepted(answer.number, answer.written)
            }),
        ]
    };
    vec![
        Row::new("value", values),
        Row::new("write scan, a round's", scans(&inputs.round)),
        Row::new("write scan, any numbers", scans(&inputs.any)),
    ]
}
