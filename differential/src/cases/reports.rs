//! Sections of reports over files: those that go through all of something short, or through all edges, and those drawn.

use super::changes::{all_short, one_changed};
use super::{Cases, Options, Section};
use crate::calls::{DateTime, Layout, Pair, Scan};
use crate::damage;
use crate::generate;
use crate::model::{calendar, fields::SECOND};
use crate::oracle;
use crate::random::Random;
use crate::reports::POST_COUNT;
use crate::scans::START;

pub fn sections<'a, C: Cases + 'a>() -> Vec<Section<'a, C>> {
    vec![
        ("reports of one post at the edges", Box::new(edges)),
        ("reports of three posts", Box::new(three_posts)),
        ("reports of 255 to 258 posts", Box::new(many_posts)),
        ("reports of changed files", Box::new(changed_files)),
    ]
}

/// Drawn from the seed apart from the other drawn sections.
pub fn drawn<'a, C: Cases + 'a>(options: Options) -> Vec<Section<'a, C>> {
    let all = move |cases: &mut C| {
        let mut random = Random::new(options.seed.wrapping_add(1 << 40));
        for _ in 0..options.draws {
            drawn_files(cases, &mut random);
        }
    };
    vec![("drawn reports", Box::new(all))]
}

/// None, the least, a few, the most, and what is past it.
const WINDOWS: [u32; 6] = [0, 1, 5, 86_400, 86_401, u32::MAX];
const GAPS: [u32; 4] = [0, 1, 10, u32::MAX];

fn windows_and_gaps() -> impl Iterator<Item = (u32, u32)> {
    WINDOWS.into_iter().flat_map(|w| GAPS.map(|g| (w, g)))
}

/// The pair so many attoseconds from a time of the year 2020, with one of four offsets.
fn pair(attoseconds: i128) -> Pair {
    let start = calendar::minutes(DateTime { year: 2020, month: 2, day: 3, hour: 4, minute: 5 }) as i128 * 60;
    let count = start * SECOND as i128 + attoseconds;
    let offset = [None, Some(0), Some(-480), Some(1439)][(attoseconds / SECOND as i128 + count).rem_euclid(4) as usize];
    let digits = if attoseconds % SECOND as i128 == 0 { 0 } else { 18 };
    generate::second_at(count, digits, offset).expect("a year that there is")
}

fn scan((site, tag): (u32, u32), pair: Pair) -> Scan {
    Scan { site, tag, guard: 0, pair }
}

/// Every list of up to so many of the scans.
fn all_lists(list: &mut Vec<Scan>, scans: &[Scan], most: usize, case: &mut impl FnMut(&[Scan])) {
    case(list);
    if most > 0 {
        for scan in scans {
            list.push(*scan);
            all_lists(list, scans, most - 1, case);
            list.pop();
        }
    }
}

/// With each W and each G, in each layout every list of up to four scans of one post: at a time, just less than W later,
/// W, just more, G and just more than G later, and a second earlier.
fn edges(cases: &mut impl Cases) {
    for (w, g) in windows_and_gaps() {
        let second = SECOND as i128;
        let (window, gap) = (w as i128 * second, g as i128 * second);
        let times = [0, window - 1, window, window + 1, gap, gap + 1, -second];
        let scans = times.map(|time| scan((9, 7), pair(time)));
        all_lists(&mut Vec::new(), &scans, 4, &mut |list| {
            Layout::ALL.into_iter().for_each(|layout| cases.report(&oracle::file_in(layout, list), w, g));
        });
    }
}

/// With each W and each G, every list of up to four scans of three posts at two times: in the old layout three tags, in
/// the new one posts of which two share their tag and two their site, and two have the same numbers.
fn three_posts(cases: &mut impl Cases) {
    let times = [pair(0), pair(5 * SECOND as i128)];
    let posts = [(Layout::Old, [(0, 0), (0, 1), (0, 2)]), (Layout::New, [(1, 1), (1, 2), (2, 1)])];
    for (layout, posts) in posts {
        let scans: Vec<Scan> = posts.into_iter().flat_map(|post| times.map(|time| scan(post, time))).collect();
        for (w, g) in windows_and_gaps() {
            all_lists(&mut Vec::new(), &scans, 4, &mut |list| {
                cases.report(&oracle::file_in(layout, list), w, g);
            });
        }
    }
}

/// A scan of a tag that no other has, with one of each refusal, or cut off.
const DAMAGES: [&[u8]; 9] = [
    &[0x7F, 0x7F, 0x7F, 0xFF],
    &[0x7F, 0x7F, 0x7F, 0xFF, 0x80],
    &[0x7F, 0x7F, 0x7F, 0xFF, 0x80, 0x62, 0xC0],
    &[0x7F, 0x7F, 0x7F, 0xFF, 0x80, 0x6F],
    &[0x7F, 0x7F, 0x7F, 0xFF, 0x80, 0x60],
    &[0x7F, 0x7F, 0x7F, 0xFF, 0x80, 0x62, 0xC0, 0x80],
    &[0x7F, 0x7F, 0x7F, 0xFF, 0x10, 0x00, 0x00, 0x00, 0x80, 0x62, 0xC0, 0x81],
    &[0x00, 0x81, 0x80, 0x62, 0xC0, 0x81],
    &[0x01, 0x01, 0x01, 0x01, 0x01, 0x81],
];

/// The same after a site, and a site that is cut off or refused.
fn damages(layout: Layout) -> Vec<Vec<u8>> {
    let of_tags = DAMAGES.map(|damage| damage.to_vec());
    match layout {
        Layout::Old => of_tags.to_vec(),
        Layout::New => {
            let sites: [&[u8]; 3] =
                [&[0x01], &[0x00, 0x82], &[0x10, 0x00, 0x00, 0x00, 0x80, 0x80, 0x80, 0x62, 0xC0, 0x81]];
            let after_a_site = of_tags.into_iter().map(|damage| [&[0x85], &damage[..]].concat());
            after_a_site.chain(sites.map(<[u8]>::to_vec)).collect()
        }
    }
}

/// A post for each of 258 numbers.
type Posts = fn(u32) -> (u32, u32);

fn spread(number: u32) -> u32 {
    number.wrapping_mul(0x9E37_79B1)
}

/// Posts of one site, in the order of the numbers and out of it.
const TAGS: [Posts; 2] = [|number| (0, number), |number| (0, spread(number))];
/// Of one tag; of tags and sites that many share; and of numbers that two of them have.
const SITES_AND_TAGS: [Posts; 4] = [
    |number| (number, 7),
    |number| (number / 16, number % 16),
    |number| (spread(number % 17), spread(number / 17)),
    |number| match number % 2 {
        0 => (number, number + 1),
        _ => (number, number - 1),
    },
];

/// Scans of one post more and less than there is room for, in the order of the numbers and out of it; the same followed
/// by them all again; and each damage before, in and after the scan that brings a post.
fn many_posts(cases: &mut impl Cases) {
    let of_layout = |layout| TAGS.into_iter().map(move |posts| (layout, posts));
    let old_and_new = of_layout(Layout::Old).chain(of_layout(Layout::New));
    for (layout, post) in old_and_new.chain(SITES_AND_TAGS.map(|posts| (Layout::New, posts))) {
        for count in POST_COUNT as u32 - 1..=POST_COUNT as u32 + 2 {
            posts_of_count(cases, layout, post, count);
        }
    }
}

fn posts_of_count(cases: &mut impl Cases, layout: Layout, post: Posts, count: u32) {
    let at = |time: i128| (0..count).map(move |number| scan(post(number), pair(time)));
    let first: Vec<Scan> = at(0).collect();
    let twice: Vec<Scan> = first.iter().copied().chain(at(6 * SECOND as i128).rev()).collect();
    let (file, twice) = (oracle::file_in(layout, &first), oracle::file_in(layout, &twice));
    for (w, g) in [(0, 0), (5, 10), (86_400, u32::MAX), (86_401, 0)] {
        cases.report(&file, w, g);
        cases.report(&twice, w, g);
    }
    for place in [0, 1, 100, 254, 255, 256, 257, 258] {
        let (before, after) = first.split_at(place.min(first.len()));
        let (before, after) = (oracle::file_in(layout, before), oracle::scans(after, layout));
        for damage in damages(layout) {
            cases.report(&[&before[..], &damage].concat(), 5, 10);
            cases.report(&[&before[..], &damage, &after].concat(), 5, 10);
        }
    }
}

/// Every file of up to two bytes, and a start before it; and in each layout some files with one byte changed.
fn changed_files(cases: &mut impl Cases) {
    all_short(2, &mut |file| {
        cases.report(file, 5, 10);
        cases.report(&[&START[..], file].concat(), 5, 10);
    });
    let times = [0, 3, 5, 8, 9, 25, 2, 30].map(|seconds| pair(seconds * SECOND as i128 + seconds % 2));
    let posts = [(2, 1), (2, 1), (1, 2), (2, 1), (2, 300), (1, 2), (2, 1), (300, 2)];
    let scans: Vec<Scan> = times.iter().zip(posts).map(|(time, post)| scan(post, *time)).collect();
    for count in 1..=scans.len() {
        for layout in Layout::ALL {
            one_changed(&oracle::file_in(layout, &scans[..count]), &mut |file| cases.report(file, 5, 10));
        }
    }
}

/// A round's file: whole, cut anywhere, damaged once and twice, and with its last scan damaged.
fn drawn_files(cases: &mut impl Cases, random: &mut Random) {
    let (w, g) = generate::window_and_gap(random);
    let layout = random.pick(&Layout::ALL);
    let scans = generate::round(random, layout, w, g);
    let file = oracle::file_in(layout, &scans);
    cases.report(&file, w, g);
    cases.report(&file[..random.below(file.len() as u64 + 1) as usize], w, g);
    let damaged = damage::scans(random, &file);
    cases.report(&damaged, w, g);
    cases.report(&damage::scans(random, &damaged), w, g);
    let (before, last) = scans.split_at(scans.len() - 1);
    let last = damage::scans(random, &oracle::scans(last, layout));
    cases.report(&[oracle::file_in(layout, before), last].concat(), w, g);
    if random.one_in(200) {
        drawn_posts(cases, random, w, g);
    }
}

/// Scans of as many posts as there is room for, of one more or less and two more: whole, and damaged near the end. They
/// share a site, or a tag, or many share either.
fn drawn_posts(cases: &mut impl Cases, random: &mut Random, w: u32, g: u32) {
    let layout = random.pick(&Layout::ALL);
    let step = random.bits() as u32 | 1;
    let shared = if layout == Layout::Old { 0 } else { random.below(3) };
    let post = |place: u32| match shared {
        0 => (0, step.wrapping_mul(place)),
        1 => (step.wrapping_mul(place), step),
        _ => (step.wrapping_mul(place % 16), step.wrapping_mul(place / 16)),
    };
    let count = random.between(POST_COUNT as i64 - 1, POST_COUNT as i64 + 2) as u32;
    let scans: Vec<Scan> = (0..count)
        .map(|place| {
            let (site, tag) = post(place);
            Scan { site, tag, ..generate::scan(random) }
        })
        .collect();
    cases.report(&oracle::file_in(layout, &scans), w, g);
    let damages = damages(layout);
    for place in POST_COUNT - 1..=POST_COUNT + 1 {
        let before = oracle::file_in(layout, &scans[..place.min(scans.len())]);
        let damage = &damages[random.below(damages.len() as u64) as usize];
        cases.report(&[&before[..], damage].concat(), w, g);
    }
}
