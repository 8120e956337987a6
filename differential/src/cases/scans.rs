//! Sections of scans and of files of them that go through all of something short, or through all edges.

use super::changes::{all_ends, all_short, one_changed, two_changed};
use super::{Cases, Section};
use crate::calls::{Build, Fraction, Layout, Offset, Pair, Scan, Stage};
use crate::forms::{group_count, groups};
use crate::generate::SCAN_NUMBERS;
use crate::oracle::{self, Answer};
use crate::scans::START;

pub fn sections<'a, C: Cases + 'a>() -> Vec<Section<'a, C>> {
    vec![
        ("short scans", Box::new(short_scans)),
        ("good and bad numbers of scans", Box::new(numbers)),
        ("scans with every byte changed", Box::new(changed_scans)),
        ("scans and starts written", Box::new(written_scans)),
        ("short files, and changed files", Box::new(short_files)),
    ]
}

/// In each layout, every input of up to three bytes, and every input of up to seven bytes, or eight in the new one, that
/// are at an edge of a number, or of the shortest value.
fn short_scans(cases: &mut impl Cases) {
    let edges = [0x00, 0x0F, 0x10, 0x62, 0x7F, 0x80, 0x81, 0xC0];
    for (layout, most) in [(Layout::Old, 7), (Layout::New, 8)] {
        all_short(3, &mut |input| cases.read_scan(input, layout));
        all_ends(&mut Vec::new(), &edges, most, &mut |input| cases.read_scan(input, layout));
    }
}

/// Both ends of each length, what is past the last, padded forms of each number, and runs without a mark.
fn number_forms() -> Vec<Vec<u8>> {
    let ends = SCAN_NUMBERS.map(u128::from);
    let past = [1 << 32, (1 << 32) + 1, 1 << 34, (1 << 35) - 1];
    let mut forms = Vec::new();
    for number in ends.into_iter().chain(past) {
        forms.extend((group_count(number)..=7).map(|count| groups(number, count)));
    }
    for byte in [0x00, 0x01, 0x0F, 0x7F] {
        forms.extend((1..=7).map(|count| vec![byte; count]));
    }
    forms
}

/// A good value, one of each refusal, and both before bytes that belong to nothing.
const VALUES: [&[u8]; 9] = [
    &[0x62, 0xC0, 0x81],
    &[0x62, 0xC0, 0x81, 0x00, 0x80],
    &[],
    &[0x62, 0xC0],
    &[0x6E],
    &[0x6F],
    &[0x60],
    &[0x62, 0xC0, 0x80],
    &[0x6E, 0x8D, 0x00],
];

/// Each form of a tag before each form of a guard, in the old layout and after each form of a site.
fn numbers(cases: &mut impl Cases) {
    let forms = number_forms();
    for (tag, guard) in forms.iter().flat_map(|tag| forms.iter().map(move |guard| (tag, guard))) {
        before_values(cases, &[tag, guard], Layout::Old);
        forms.iter().for_each(|site| before_values(cases, &[site, tag, guard], Layout::New));
    }
}

/// Numbers before each value, and every beginning of them.
fn before_values(cases: &mut impl Cases, numbers: &[&[u8]], layout: Layout) {
    let numbers = numbers.concat();
    (0..numbers.len()).for_each(|end| cases.read_scan(&numbers[..end], layout));
    for value in VALUES {
        cases.read_scan(&[&numbers[..], value].concat(), layout);
    }
}

fn pair(build: &Build) -> Pair {
    match oracle::build(build) {
        Answer::Accepted(pair) => pair,
        other => panic!("{build:?}: {other:?}"),
    }
}

/// Pairs of every precision, with short values and the longest.
fn some_pairs() -> Vec<Pair> {
    let day = Build::day(2020, 2, 3);
    let second = day.second(4, 5, 6).offset(Offset::Local(-480));
    let longest = Build::day(9999, 12, 31).second(23, 59, 59).offset(Offset::Local(-1439));
    let digits = |coefficient, exponent| Fraction::Decimal { negative: false, coefficient, exponent };
    let builds = [
        Build::year(1),
        Build { stage: Stage::Month, ..day },
        day,
        day.minute(4, 5),
        Build::day(1, 1, 1).minute(0, 0).offset(Offset::Local(1)),
        second,
        second.fraction(digits(0, -3)),
        second.fraction(digits(123_456, -6)).offset(Offset::None),
        longest.fraction(digits(999_999_999_999_999_999, -18)),
    ];
    builds.iter().map(pair).collect()
}

/// The same pairs with each end of each length as site, as tag and as guard, of which no two are the same.
fn some_scans() -> Vec<Scan> {
    let count = SCAN_NUMBERS.len();
    let scan = |place: usize, pair: Pair| Scan {
        site: SCAN_NUMBERS[(place + 4) % count],
        tag: SCAN_NUMBERS[place],
        guard: SCAN_NUMBERS[count - 1 - place],
        pair,
    };
    (0..count).flat_map(|place| some_pairs().into_iter().map(move |pair| scan(place, pair))).collect()
}

/// In each layout, some scans with one byte changed, and one with two.
fn changed_scans(cases: &mut impl Cases) {
    for layout in Layout::ALL {
        for scan in some_scans() {
            one_changed(&oracle::scans(&[scan], layout), &mut |input| cases.read_scan(input, layout));
        }
    }
    let bytes = [0x87, 0x68, 0x0F, 0x7F, 0x7F, 0x7F, 0xFF, 0x07, 0xE7, 0x66, 0x81, 0x80, 0x8C, 0x9F, 0x97, 0xBB];
    two_changed(&bytes[2..], &mut |input| cases.read_scan(input, Layout::Old));
    two_changed(&bytes, &mut |input| cases.read_scan(input, Layout::New));
}

/// Every three ends of a length as site, tag and guard of each pair, and of pairs that the check refuses; and starts in
/// short buffers, from every place on.
fn written_scans(cases: &mut impl Cases) {
    let mut pairs = some_pairs();
    let refused: Vec<Pair> = pairs.iter().flat_map(|pair| wrong(*pair)).collect();
    pairs.extend(refused);
    for site in SCAN_NUMBERS {
        for tag in SCAN_NUMBERS {
            for guard in SCAN_NUMBERS {
                pairs.iter().for_each(|pair| cases.write_scan(Scan { site, tag, guard, pair: *pair }));
            }
        }
    }
    for room in 0..=12 {
        (0..=room + 2).for_each(|at| cases.write_start(at, room));
        (0..=3).for_each(|less| cases.write_start(usize::MAX - less, room));
    }
}

/// Pairs near a good one: fields past their ends, a fraction, digits, no pair at all.
fn wrong(pair: Pair) -> [Pair; 12] {
    let word = |changed: u64| Pair { word: changed, ..pair };
    let attoseconds = |attoseconds: u64| Pair { attoseconds, ..pair };
    [
        Pair::NONE,
        Pair { word: u64::MAX, attoseconds: u64::MAX },
        attoseconds(pair.attoseconds + 1),
        attoseconds(1_000_000_000_000_000_000),
        word(pair.word & 0x0003_FFFF_FFFF_FFFF | 10_000 << 50),
        word(pair.word & 0x0003_FFFF_FFFF_FFFF),
        word(pair.word | 0xF << 46),
        word(pair.word & !(0x1F << 41)),
        word(pair.word | 0x1F << 36),
        word(pair.word | 0x3F << 30),
        word(pair.word | 0x3F << 24),
        word(pair.word | 0xFFF << 4),
    ]
}

/// Every file of up to two bytes, and a start before it; every file of up to ten bytes that the shortest scans have, and
/// a start before it; every file of up to six that are near a start's; some files with one byte changed, and with a
/// start before, between and after their scans.
fn short_files(cases: &mut impl Cases) {
    all_short(2, &mut |file| in_each_layout(cases, file));
    all_ends(&mut Vec::new(), &[0x62, 0x80, 0x81, 0xC0], 10, &mut |file| in_each_layout(cases, file));
    all_ends(&mut START.to_vec(), &[0x62, 0x81, 0xC0], 12, &mut |file| cases.file(file));
    all_ends(&mut Vec::new(), &[0x00, 0x02, 0x62, 0x80, 0x81, 0x82, 0x83, 0xC0], 6, &mut |file| cases.file(file));
    let scans = some_scans();
    for layout in Layout::ALL {
        for count in 1..=4 {
            for some in scans.chunks_exact(count).step_by(13) {
                one_changed(&oracle::file_in(layout, some), &mut |file| cases.file(file));
                for place in 0..=count {
                    let (before, after) = some.split_at(place);
                    cases.file(&[oracle::file_in(layout, before), oracle::file_in(Layout::New, after)].concat());
                    cases.file(&[oracle::file_in(layout, before), oracle::scans(after, Layout::Old)].concat());
                }
            }
        }
    }
}

/// A file's bytes, and the same after a start.
fn in_each_layout(cases: &mut impl Cases, bytes: &[u8]) {
    cases.file(bytes);
    cases.file(&[&START[..], bytes].concat());
}
