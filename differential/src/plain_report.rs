//! The report over a file of scans as a user of ion-rust would write it by hand today: site, tag and guard by hand, the
//! value by a reader, ion-rust's timestamps and their order, a hash map with the last kept one of each site and tag, and
//! what ion-rust does not have, the time between two timestamps, from their fields. It is what the library's report is
//! timed against.

use crate::calls::{Counts, Read};
use crate::scans;
use crate::Timestamp;
use std::collections::HashMap;

/// A site and a tag.
type Post = (u32, u32);

/// Counts, and the last kept timestamp of each post in the order of the posts' first scans.
pub struct PlainReport {
    pub counts: Counts,
    pub last: Vec<(Post, Timestamp)>,
}

impl PlainReport {
    /// The same as a report's words, four for each post.
    pub fn words(&self) -> Vec<u64> {
        let words = |((site, tag), stamp): &(Post, Timestamp)| {
            let (word, attoseconds) = stamp.to_bits();
            [*site as u64, *tag as u64, word, attoseconds]
        };
        self.last.iter().flat_map(words).collect()
    }
}

/// The report over a file that reads to its end. `value_of` reads the value with which bytes begin.
pub fn report(file: &[u8], w: u32, g: u32, value_of: impl Fn(&[u8]) -> Read) -> Option<PlainReport> {
    let mut counts = Counts::default();
    let mut posts = Vec::new();
    let mut last: HashMap<Post, Timestamp> = HashMap::new();
    let layout = scans::layout(file);
    let mut rest = &file[scans::start_of(layout)..];
    while !rest.is_empty() {
        let read = scans::read(rest, layout, &value_of);
        if read.number != 0 {
            return None;
        }
        rest = &rest[read.taken..];
        let (post, pair) = (read.scan.post(), read.scan.pair);
        let stamp = Timestamp::try_from_bits(pair.word, pair.attoseconds).ok()?;
        counts.scans += 1;
        let Some(kept) = last.get_mut(&post) else {
            counts.kept += 1;
            posts.push(post);
            last.insert(post, stamp);
            continue;
        };
        let backward = stamp < *kept;
        let apart = if backward { between(&stamp, kept) } else { between(kept, &stamp) };
        if apart < (w as i64, 0) {
            counts.doubles += 1;
            continue;
        }
        counts.kept += 1;
        if backward {
            counts.backward += 1;
        } else if apart > (g as i64, 0) {
            counts.gaps += 1;
        }
        *kept = stamp;
    }
    let last = posts.into_iter().filter_map(|post| last.remove_entry(&post)).collect();
    Some(PlainReport { counts, last })
}

/// Seconds and attoseconds from one timestamp to another that is not earlier.
fn between(earlier: &Timestamp, later: &Timestamp) -> (i64, u64) {
    let seconds = utc_seconds(later) - utc_seconds(earlier);
    match later.attoseconds().checked_sub(earlier.attoseconds()) {
        Some(attoseconds) => (seconds, attoseconds),
        None => (seconds - 1, later.attoseconds() + 1_000_000_000_000_000_000 - earlier.attoseconds()),
    }
}

/// Seconds from 0000-03-01T00:00 UTC, from the local fields and the offset: faster than by the UTC form.
fn utc_seconds(stamp: &Timestamp) -> i64 {
    let days = days(stamp.year() as i64, stamp.month() as i64, stamp.day() as i64);
    let minutes = (days * 24 + stamp.hour() as i64) * 60 + stamp.minute() as i64;
    (minutes - stamp.offset().unwrap_or(0) as i64) * 60 + stamp.second() as i64
}

/// Days from 0000-03-01 to a date of the year 1 or later, by years that begin in March.
fn days(year: i64, month: i64, day: i64) -> i64 {
    let year = if month <= 2 { year - 1 } else { year };
    let day_of_year = (153 * ((month + 9) % 12) + 2) / 5 + day - 1;
    year * 365 + year / 4 - year / 100 + year / 400 + day_of_year
}
