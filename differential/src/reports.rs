//! The report over a file of scans, written from the scope's words: over the scans that a reader finds, and the scope's
//! count of attoseconds. Scans are told apart by their posts, a site and a tag each.

use crate::calls::{Counts, Report, Scan};
use crate::model;
use crate::model::fields::SECOND;
use crate::refusals::{POSTS, WINDOW, WORDS};
use crate::scans::Contents;

/// How many words a report needs.
pub const WORD_COUNT: usize = POST_WORDS * POST_COUNT;
/// How many posts a report has room for.
pub const POST_COUNT: usize = 256;
/// The words of a post: site and tag, and the pair of its last kept scan.
pub const POST_WORDS: usize = 4;
/// The largest W.
pub const MAX_WINDOW: u32 = 86_400;

/// What scans count, and the last kept one of each post in the order of the posts' first scans.
#[derive(Default)]
struct Tally {
    counts: Counts,
    last: Vec<Scan>,
}

/// Answers, and leaves the last kept scans in the words. `contents` reads the file.
pub fn answer(w: u32, g: u32, words: &mut [u64], contents: impl FnOnce() -> Contents) -> Report {
    match accepted(w, g, words.len(), contents) {
        Ok(tally) => {
            words[..WORD_COUNT].fill(0);
            for (place, last) in words.chunks_exact_mut(POST_WORDS).zip(&tally.last) {
                place.copy_from_slice(&[last.site as u64, last.tag as u64, last.pair.word, last.pair.attoseconds]);
            }
            Report { number: 0, counts: tally.counts }
        }
        Err(number) => Report { number, ..Report::default() },
    }
}

/// The tally of the file, or the number of its refusal.
fn accepted(w: u32, g: u32, lent: usize, contents: impl FnOnce() -> Contents) -> Result<Tally, u32> {
    if lent < WORD_COUNT {
        return Err(WORDS);
    }
    if w > MAX_WINDOW {
        return Err(WINDOW);
    }
    let contents = contents();
    let tally = tally(&contents.scans, w, g)?;
    // Only scans before the damage were tallied.
    match contents.number {
        0 => Ok(tally),
        number => Err(number),
    }
}

fn tally(scans: &[Scan], w: u32, g: u32) -> Result<Tally, u32> {
    let (w, g) = (w as i128 * SECOND as i128, g as i128 * SECOND as i128);
    let Tally { mut counts, mut last } = Tally::default();
    for scan in scans {
        counts.scans += 1;
        let Some(kept) = last.iter_mut().find(|kept: &&mut Scan| kept.post() == scan.post()) else {
            if last.len() == POST_COUNT {
                return Err(POSTS);
            }
            counts.kept += 1;
            last.push(*scan);
            continue;
        };
        let later = model::count(scan.pair) - model::count(kept.pair);
        if later.abs() < w {
            counts.doubles += 1;
            continue;
        }
        counts.kept += 1;
        counts.gaps += (later > g) as u64;
        counts.backward += (later < 0) as u64;
        *kept = *scan;
    }
    Ok(Tally { counts, last })
}
