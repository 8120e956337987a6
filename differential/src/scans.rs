//! Files of scans, written from the scope's words. ion-rust has none, so the numbers and the file are told here, and a
//! reader of values says what follows the numbers.

use crate::calls::{FileRead, Layout, Read, Scan, ScanRead};
use crate::refusals::{INPUT_ENDS, NUMBER};

/// What a new file begins with.
pub const START: [u8; 2] = [0x00, 0x82];

/// The layout of a file.
pub fn layout(file: &[u8]) -> Layout {
    match file.starts_with(&START) {
        true => Layout::New,
        false => Layout::Old,
    }
}

/// How many bytes of a file stand before its scans.
pub fn start_of(layout: Layout) -> usize {
    match layout {
        Layout::Old => 0,
        Layout::New => START.len(),
    }
}

/// The scan with which the input begins. `value_of` reads the value with which bytes begin.
pub fn read(input: &[u8], layout: Layout, value_of: impl FnOnce(&[u8]) -> Read) -> ScanRead {
    accepted(input, layout, value_of).unwrap_or_else(|number| ScanRead { number, ..ScanRead::default() })
}

/// The same, or the number of its refusal.
fn accepted(input: &[u8], layout: Layout, value_of: impl FnOnce(&[u8]) -> Read) -> Result<ScanRead, u32> {
    let (site, rest) = match layout {
        Layout::Old => (0, input),
        Layout::New => number(input)?,
    };
    let (tag, rest) = number(rest)?;
    let (guard, rest) = number(rest)?;
    let value = value_of(rest);
    if value.number != 0 {
        return Err(value.number);
    }
    let taken = input.len() - rest.len() + value.taken;
    Ok(ScanRead { number: 0, scan: Scan { site, tag, guard, pair: value.pair }, taken })
}

/// A site, a tag or a guard, and what follows it.
fn number(input: &[u8]) -> Result<(u32, &[u8]), u32> {
    if let [0x00, _, ..] = input {
        return Err(NUMBER);
    }
    let first_five = &input[..input.len().min(5)];
    let Some(mark) = first_five.iter().position(|byte| byte & 0x80 != 0) else {
        return Err(if first_five.len() == 5 { NUMBER } else { INPUT_ENDS });
    };
    let (groups, rest) = input.split_at(mark + 1);
    let value = groups.iter().fold(0, |value, group| value << 7 | (group & 0x7F) as u64);
    match u32::try_from(value) {
        Ok(value) => Ok((value, rest)),
        Err(_) => Err(NUMBER),
    }
}

/// What a file holds: its scans before its end or its damage, where that is, and 0 or the damage's number.
#[derive(Clone, PartialEq, Eq, Debug)]
pub struct Contents {
    pub layout: Layout,
    pub scans: Vec<Scan>,
    pub end: usize,
    pub number: u32,
}

impl Contents {
    /// What is told of the whole file.
    pub fn checked(&self) -> FileRead {
        FileRead { number: self.number, scans: if self.number == 0 { self.scans.len() } else { 0 } }
    }
}

/// Reads a file of that layout scan after scan, as far as the reader accepts and takes bytes that are there.
pub fn contents(file: &[u8], layout: Layout, read: impl Fn(&[u8], Layout) -> ScanRead) -> Contents {
    let end = start_of(layout).min(file.len());
    let mut contents = Contents { layout, scans: Vec::new(), end, number: 0 };
    while contents.end < file.len() {
        let rest = &file[contents.end..];
        let ScanRead { number, scan, taken } = read(rest, layout);
        contents.number = number;
        if number != 0 || taken == 0 || taken > rest.len() {
            break;
        }
        contents.scans.push(scan);
        contents.end += taken;
    }
    contents
}
