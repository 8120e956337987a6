//! Scans and files of them: what the library answers, held against what the scope's words make it owe.

use super::judge::{left_in, FILLS};
use super::{Counted, Run};
use crate::calls::{FileRead, Layout, Library, Scan, ScanRead};
use crate::expected::{self, Expected};
use crate::oracle;
use crate::refusals::{INPUT_ENDS, NUMBER};
use crate::scans::{self, Contents, START};

/// A scan's bytes, or its refusal's number.
type Bytes = Expected<Result<Vec<u8>, u32>>;

impl<L: Library> Run<'_, L> {
    pub(super) fn judge_scan(&mut self, input: &[u8], layout: Layout) {
        self.case();
        let answer = self.library.read_scan(input, layout);
        self.count(Counted::ReadScan, answer.number);
        let case = || format!("{layout:?}, {input:02x?}");
        self.judge("read_scan", case, Ok(expected::read_scan(input, layout)), answer);
    }

    /// A scan written from one place on into buffers of every length up to a byte more than it needs; from every place
    /// on into one buffer, past its end too; and, where it is accepted, read back.
    pub(super) fn judge_written_scan(&mut self, scan: Scan) {
        self.case();
        let expected = expected::bytes(oracle::scan(scan, Layout::New));
        let length = match &expected {
            Ok(Ok(bytes)) => bytes.len(),
            _ => 0,
        };
        let at = self.cases as usize % 8;
        for room in 0..=at + length + 1 {
            self.judge_written_at(scan, &expected, room, at);
        }
        let room = length + 2;
        for at in (0..=room + 1).chain([usize::MAX - length, usize::MAX - length.saturating_sub(1), usize::MAX]) {
            self.judge_written_at(scan, &expected, room, at);
        }
        if let Ok(Ok(bytes)) = &expected {
            let answer = self.library.read_scan(bytes, Layout::New);
            let expected = ScanRead { number: 0, scan, taken: length };
            self.judge("read of the scan", || format!("{scan:?}"), Ok(expected), answer);
        }
    }

    fn judge_written_at(&mut self, scan: Scan, expected: &Bytes, room: usize, at: usize) {
        let fill = FILLS[room % 2];
        let mut buffer = vec![fill; room];
        let answer = self.library.write_scan(scan, &mut buffer, at);
        self.count(Counted::WriteScan, answer.number);
        let expected = expected.clone().map(|bytes| left_in(room, at, fill, &bytes));
        let case = || format!("{scan:?} at {at} of {room} bytes");
        self.judge("write_scan", case, expected, (answer, buffer));
    }

    pub(super) fn judge_written_start(&mut self, at: usize, room: usize) {
        self.case();
        let fill = FILLS[room % 2];
        let mut buffer = vec![fill; room];
        let answer = self.library.write_start(&mut buffer, at);
        self.count(Counted::WriteStart, answer.number);
        let expected = left_in(room, at, fill, &Ok(START.to_vec()));
        self.judge("write_start", || format!("at {at} of {room} bytes"), Ok(expected), (answer, buffer));
    }

    /// A file's layout, the file checked as a whole, read scan after scan, and, where it reads to its end, written again;
    /// and what a reader of the old layout makes of a first byte 00.
    pub(super) fn judge_file(&mut self, file: &[u8]) {
        self.case();
        let library = self.library;
        let case = || format!("{file:02x?}");
        let expected = expected::contents(file);
        self.judge("file_layout", case, Ok(expected.layout), library.layout(file));
        let answer = library.check_file(file);
        self.count(Counted::File, answer.number);
        self.judge("check_file", case, Ok(expected.checked()), answer);
        if let [0x00, rest @ ..] = file {
            let number = if rest.is_empty() { INPUT_ENDS } else { NUMBER };
            let refused = ScanRead { number, ..ScanRead::default() };
            self.judge("read_scan, old", case, Ok(refused), library.read_scan(file, Layout::Old));
        }
        let contents = contents(library, file);
        if expected.number == 0 {
            self.judge_written_file(file, &expected, &contents.scans);
        }
        self.judge("read_scan, scan after scan", case, Ok(expected), contents);
    }

    /// The scans that were read of a file, written again: a new file is the same bytes, an old one the new file of its
    /// scans, which has these scans.
    fn judge_written_file(&mut self, file: &[u8], expected: &Contents, scans: &[Scan]) {
        let library = self.library;
        let case = || format!("{file:02x?}");
        let owed = match expected.layout {
            Layout::Old => oracle::file(&expected.scans),
            Layout::New => file.to_vec(),
        };
        let end = owed.len();
        self.judge("a file written again", case, Ok((owed.clone(), end)), written(library, scans, end));
        if expected.layout == Layout::Old {
            let same = Contents { layout: Layout::New, end, ..expected.clone() };
            self.judge("an old file, written and read", case, Ok(same), contents(library, &owed));
            let checked = FileRead { number: 0, scans: expected.scans.len() };
            self.judge("an old file, written and checked", case, Ok(checked), library.check_file(&owed));
        }
    }
}

/// A file read scan after scan.
pub(super) fn contents<L: Library>(library: &L, file: &[u8]) -> Contents {
    scans::contents(file, library.layout(file), |input, layout| library.read_scan(input, layout))
}

/// A start and scans written one after another into a buffer of that many bytes, and where they end.
pub(super) fn written<L: Library>(library: &L, scans: &[Scan], room: usize) -> (Vec<u8>, usize) {
    let mut buffer = vec![FILLS[0]; room];
    let mut at = library.write_start(&mut buffer, 0).written;
    for scan in scans {
        at += library.write_scan(*scan, &mut buffer, at).written;
    }
    (buffer, at)
}
