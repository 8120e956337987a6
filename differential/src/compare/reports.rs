//! Reports over files: what the library answers and leaves in the lent words, held against what the scope's words make it
//! owe, and, where it accepts, against the report that a user would write by hand.

use super::{Counted, Run};
use crate::calls::{Library, Report};
use crate::expected;
use crate::plain_report;
use crate::reports::{self, WORD_COUNT};

/// How many words are lent.
const LENT: [usize; 6] = [0, 1, WORD_COUNT - 1, WORD_COUNT, WORD_COUNT + 1, 1060];

/// So many words, none of them 0 and no two the same, other ones in every second case.
fn lent(count: usize, cases: u64) -> Vec<u64> {
    let fill = [0x5A5A_0000_0000_0001, 0xA5A5_0000_0000_0001][cases as usize % 2];
    (0..count as u64).map(|place| fill + place).collect()
}

impl<L: Library> Run<'_, L> {
    /// A report with each count of lent words.
    pub(super) fn judge_report(&mut self, file: &[u8], w: u32, g: u32) {
        self.case();
        let contents = expected::contents(file);
        let mut accepted = None;
        for count in LENT {
            let mut words = lent(count, self.cases);
            let mut left = words.clone();
            let expected = reports::answer(w, g, &mut left, || contents.clone());
            let answer = self.library.report_file(file, w, g, &mut words);
            self.count(Counted::Report, answer.number);
            if answer.number == 0 && count == WORD_COUNT {
                accepted = Some((answer, words.clone()));
            }
            let case = || format!("W {w}, G {g}, {count} words, {file:02x?}");
            self.judge("report_file", case, Ok((expected, left)), (answer, words));
        }
        if let Some(accepted) = accepted {
            let case = || format!("W {w}, G {g}, {file:02x?}");
            self.judge("report_file beside the one by hand", case, by_hand(file, w, g), accepted);
        }
    }
}

/// The report by hand over ion-rust, and its words.
fn by_hand(file: &[u8], w: u32, g: u32) -> expected::Expected<(Report, Vec<u64>)> {
    let plain = plain_report::report(file, w, g, expected::read).ok_or("the file does not read to its end")?;
    let mut words = plain.words();
    words.resize(WORD_COUNT, 0);
    Ok((Report { number: 0, counts: plain.counts }, words))
}
