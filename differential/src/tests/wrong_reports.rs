//! Reports with one wrong answer each.

use crate::calls::{Counts, Layout, Library, Pair, Read, Report, Scan};
use crate::model::{self, fields::SECOND, Model};
use crate::reports::{MAX_WINDOW, POST_COUNT, POST_WORDS, WORD_COUNT};
use crate::scans;

#[derive(Clone, Copy, PartialEq, Eq, Debug)]
pub enum Fault {
    /// W by an attosecond: a scan at W is a double, or one just less than W away is none.
    DoubleAtW,
    KeptBeforeW,
    /// A scan within W is a double only if it is later.
    OnlyLaterDoubles,
    /// W 0 has doubles at the same time.
    DoublesWithoutW,
    /// Doubles are counted from the last scan, and not from the last kept one.
    FromLastScan,
    /// From the last kept scan of any post.
    FromAnyPost,
    /// From the post's first scan.
    FromFirstScan,
    GapAtG,
    /// A gap is a whole second more than G.
    GapASecondLater,
    BackwardGaps,
    /// A double is a gap or a backward step too.
    GapsOfDoubles,
    /// A kept scan at the same time is a backward step.
    BackwardAtOnce,
    /// Fractions are left out.
    WholeSeconds,
    /// Local times are held against each other.
    ByLocalTimes,
    /// Of one guard's scans.
    ByGuard,
    /// Of one tag's scans at all sites, or of all of one site.
    ByTag,
    BySite,
    /// Posts of two numbers are one, whichever is the site.
    ByBothNumbers,
    /// New files are taken for old ones.
    AllOld,
    /// A post's place moves when a later scan is kept.
    MovesPlaces,
    /// Posts in their own order.
    SortsPosts,
    /// Words of the last scan, be it a double.
    WordsOfDoubles,
    WordsWithoutTags,
    WordsWithoutSites,
    /// Words with the tag first.
    TagFirst,
    /// Three words for each post, without the site.
    ThreeWords,
    /// Words not used stay.
    LeavesWords,
    /// Words past the 1,024 become 0.
    ZerosAllWords,
    /// A refusal that writes words, or gives counts.
    WritesRefused,
    CountsRefused,
    /// 1,024 words exactly.
    NoMoreWords,
    OneWordLess,
    /// 768 words are enough.
    FewerWords,
    WindowFirst,
    WiderWindow,
    NarrowerWindow,
    /// The file is read before W and the words are looked at.
    FileFirst,
    PostLess,
    PostMore,
    /// The file is read to its end before a 257th post is told.
    PostsLast,
    /// A 257th post is told before the rest of its scan is read.
    PostsBeforeTheirScan,
    /// No file without scans.
    NoEmptyFile,
    /// One that stops at the damage without telling it.
    LeavesTheDamage,
}

pub const ALL: [Fault; 43] = [
    Fault::DoubleAtW,
    Fault::KeptBeforeW,
    Fault::OnlyLaterDoubles,
    Fault::DoublesWithoutW,
    Fault::FromLastScan,
    Fault::FromAnyPost,
    Fault::FromFirstScan,
    Fault::GapAtG,
    Fault::GapASecondLater,
    Fault::BackwardGaps,
    Fault::GapsOfDoubles,
    Fault::BackwardAtOnce,
    Fault::WholeSeconds,
    Fault::ByLocalTimes,
    Fault::ByGuard,
    Fault::ByTag,
    Fault::BySite,
    Fault::ByBothNumbers,
    Fault::AllOld,
    Fault::MovesPlaces,
    Fault::SortsPosts,
    Fault::WordsOfDoubles,
    Fault::WordsWithoutTags,
    Fault::WordsWithoutSites,
    Fault::TagFirst,
    Fault::ThreeWords,
    Fault::LeavesWords,
    Fault::ZerosAllWords,
    Fault::WritesRefused,
    Fault::CountsRefused,
    Fault::NoMoreWords,
    Fault::OneWordLess,
    Fault::FewerWords,
    Fault::WindowFirst,
    Fault::WiderWindow,
    Fault::NarrowerWindow,
    Fault::FileFirst,
    Fault::PostLess,
    Fault::PostMore,
    Fault::PostsLast,
    Fault::PostsBeforeTheirScan,
    Fault::NoEmptyFile,
    Fault::LeavesTheDamage,
];

/// A post's scans, by which later ones may be judged.
struct Post {
    first: Scan,
    kept: Scan,
    last: Scan,
}

/// The report, with a fault or none.
pub fn report(fault: Option<Fault>, file: &[u8], w: u32, g: u32, words: &mut [u64]) -> Report {
    let has = |one: Fault| fault == Some(one);
    let asked = of_what_is_asked(fault, w, words.len());
    if asked != 0 && !has(Fault::FileFirst) && !has(Fault::WritesRefused) && !has(Fault::CountsRefused) {
        return Report { number: asked, ..Report::default() };
    }
    let layout = if has(Fault::AllOld) { Layout::Old } else { Model.layout(file) };
    let contents = scans::contents(file, layout, |input, layout| Model.read_scan(input, layout));
    let (counts, posts) = tally(fault, &contents.scans, w, g);
    let room = POST_COUNT + has(Fault::PostMore) as usize - has(Fault::PostLess) as usize;
    let of_file = match fault {
        Some(Fault::NoEmptyFile) if file.is_empty() => 13,
        Some(Fault::PostsLast) if contents.number != 0 => contents.number,
        _ if posts.len() > room => 22,
        Some(Fault::PostsBeforeTheirScan) if posts.len() == room && new_post(&posts, &file[contents.end..], layout) => {
            22
        }
        Some(Fault::LeavesTheDamage) => 0,
        _ => contents.number,
    };
    let number = if asked == 0 || has(Fault::FileFirst) && of_file != 0 { of_file } else { asked };
    if number == 0 || has(Fault::WritesRefused) {
        put(fault, &posts, words);
    }
    let counts = if number == 0 || has(Fault::CountsRefused) { counts } else { Counts::default() };
    Report { number, counts }
}

/// The number of W and of how many words are lent.
fn of_what_is_asked(fault: Option<Fault>, w: u32, lent: usize) -> u32 {
    let has = |one: Fault| fault == Some(one);
    let least = match fault {
        Some(Fault::OneWordLess) => WORD_COUNT - 1,
        Some(Fault::FewerWords) => 3 * POST_COUNT,
        _ => WORD_COUNT,
    };
    let few = lent < least || has(Fault::NoMoreWords) && lent > WORD_COUNT;
    let wide = w > MAX_WINDOW + has(Fault::WiderWindow) as u32 - has(Fault::NarrowerWindow) as u32;
    match (few, wide) {
        (true, true) if has(Fault::WindowFirst) => 21,
        (true, _) => 20,
        (_, true) => 21,
        _ => 0,
    }
}

fn tally(fault: Option<Fault>, scans: &[Scan], w: u32, g: u32) -> (Counts, Vec<Post>) {
    let has = |one: Fault| fault == Some(one);
    let second = SECOND as i128;
    let w = match fault {
        Some(Fault::DoubleAtW) => w as i128 * second + 1,
        Some(Fault::KeptBeforeW) => w as i128 * second - 1,
        Some(Fault::DoublesWithoutW) if w == 0 => 1,
        _ => w as i128 * second,
    };
    let g = match fault {
        Some(Fault::GapAtG) => g as i128 * second - 1,
        Some(Fault::GapASecondLater) => g as i128 * second + second - 1,
        _ => g as i128 * second,
    };
    let count = |scan: &Scan| match fault {
        Some(Fault::WholeSeconds) => model::count(scan.pair).div_euclid(second) * second,
        Some(Fault::ByLocalTimes) => model::count(Pair { word: scan.pair.word & !0xFFF0, ..scan.pair }),
        _ => model::count(scan.pair),
    };
    let name = |scan: &Scan| match fault {
        Some(Fault::ByGuard) => (scan.site, scan.guard),
        Some(Fault::ByTag) => (0, scan.tag),
        Some(Fault::BySite) => (scan.site, 0),
        Some(Fault::ByBothNumbers) => (scan.site.min(scan.tag), scan.site.max(scan.tag)),
        _ => scan.post(),
    };
    let (mut counts, mut posts) = (Counts::default(), Vec::<Post>::new());
    let mut any = scans.first();
    for scan in scans {
        counts.scans += 1;
        let Some(place) = posts.iter().position(|post| name(&post.first) == name(scan)) else {
            counts.kept += 1;
            posts.push(Post { first: *scan, kept: *scan, last: *scan });
            any = Some(scan);
            continue;
        };
        let post = &mut posts[place];
        let beside = match (fault, any) {
            (Some(Fault::FromLastScan), _) => post.last,
            (Some(Fault::FromFirstScan), _) => post.first,
            (Some(Fault::FromAnyPost), Some(any)) => *any,
            _ => post.kept,
        };
        post.last = *scan;
        let later = count(scan) - count(&beside);
        let double = later.abs() < w && !(has(Fault::OnlyLaterDoubles) && later < 0);
        counts.doubles += double as u64;
        counts.kept += !double as u64;
        if !double || has(Fault::GapsOfDoubles) {
            counts.gaps += (later > g || has(Fault::BackwardGaps) && -later > g) as u64;
            counts.backward += (later < 0 || has(Fault::BackwardAtOnce) && later == 0) as u64;
        }
        if !double {
            post.kept = *scan;
            any = Some(scan);
            if has(Fault::MovesPlaces) {
                let moved = posts.remove(place);
                posts.push(moved);
            }
        }
    }
    if has(Fault::SortsPosts) {
        posts.sort_by_key(|post| post.first.post());
    }
    (counts, posts)
}

/// Whether a scan begins here whose post is none of these, be its value what it may.
fn new_post(posts: &[Post], rest: &[u8], layout: Layout) -> bool {
    let read = scans::read(rest, layout, |_| Read { number: 0, pair: Pair::NONE, taken: 0 });
    read.number == 0 && posts.iter().all(|post| post.first.post() != read.scan.post())
}

fn put(fault: Option<Fault>, posts: &[Post], words: &mut [u64]) {
    let end = match fault {
        Some(Fault::ZerosAllWords) => words.len(),
        Some(Fault::LeavesWords) => 0,
        _ => words.len().min(WORD_COUNT),
    };
    words[..end].fill(0);
    let each = if fault == Some(Fault::ThreeWords) { 3 } else { POST_WORDS };
    for (place, post) in words.chunks_exact_mut(each).zip(posts) {
        let scan = if fault == Some(Fault::WordsOfDoubles) { post.last } else { post.kept };
        let (site, tag) = match fault {
            Some(Fault::WordsWithoutTags) => (scan.site, 0),
            Some(Fault::WordsWithoutSites) => (0, scan.tag),
            Some(Fault::TagFirst) => (scan.tag, scan.site),
            _ => scan.post(),
        };
        let words = [site as u64, tag as u64, scan.pair.word, scan.pair.attoseconds];
        place.copy_from_slice(&words[POST_WORDS - each..]);
    }
}
