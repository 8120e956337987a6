//! Copies of good bytes with one damage.

use crate::forms::{self, Form};
use crate::random::Random;

/// Bytes at the edges of what they mean in a value.
pub const VALUE_EDGES: [u8; 15] =
    [0x00, 0x01, 0x40, 0x41, 0x5F, 0x60, 0x6D, 0x6E, 0x6F, 0x7F, 0x80, 0x81, 0xC0, 0xC1, 0xFF];

/// A text's marks, digits, what stands beside them in ASCII, and bytes that no text has.
const TEXT_EDGES: [u8; 22] = *b"01569/:;-+,.TZtz \n\0\x7F\x80\xFF";

/// Bytes at the edges of a scan's number, of a file's start, and of a value's first byte.
const SCAN_EDGES: [u8; 14] = [0x00, 0x01, 0x0F, 0x10, 0x5F, 0x60, 0x6E, 0x6F, 0x7F, 0x80, 0x81, 0x82, 0x83, 0xFF];

pub fn value(random: &mut Random, good: &[u8]) -> Vec<u8> {
    let (mut bytes, by) = damaged(random, good, &VALUE_EDGES);
    if by != 0 {
        lengthened(&mut bytes, good, by);
    }
    bytes
}

/// A damaged body after the length that it then has, or a damage anywhere in the value.
pub fn form(random: &mut Random, good: &Form) -> Vec<u8> {
    if random.one_in(4) {
        return damaged(random, &good.bytes(), &VALUE_EDGES).0;
    }
    forms::value(good.length, &damaged(random, &good.body(), &VALUE_EDGES).0)
}

pub fn text(random: &mut Random, good: &[u8]) -> Vec<u8> {
    damaged(random, good, &TEXT_EDGES).0
}

/// Where there is nothing to damage, a byte.
pub fn scans(random: &mut Random, good: &[u8]) -> Vec<u8> {
    if good.is_empty() {
        return vec![random.pick(&SCAN_EDGES)];
    }
    damaged(random, good, &SCAN_EDGES).0
}

/// The damaged copy, and 1 or -1 where a byte was put in or taken out.
fn damaged(random: &mut Random, good: &[u8], edges: &[u8]) -> (Vec<u8>, i32) {
    let mut bytes = good.to_vec();
    let place = random.below(bytes.len() as u64) as usize;
    match random.below(8) {
        0 => bytes.truncate(place),
        1 => bytes[place] = random.pick(edges),
        2 => bytes[place] = random.bits() as u8,
        3 => bytes[place] ^= 1 << random.below(8),
        4 => bytes[place] = bytes[place].wrapping_add(1),
        5 => bytes[place] = bytes[place].wrapping_sub(1),
        6 => {
            bytes.insert(place, random.pick(edges));
            return (bytes, 1);
        }
        _ => {
            bytes.remove(place);
            return (bytes, -1);
        }
    }
    (bytes, 0)
}

/// Changes the length in the header of a value, where the header is still the good one's.
fn lengthened(bytes: &mut [u8], good: &[u8], by: i32) {
    let place = if good[0] == 0x6E { 1 } else { 0 };
    if let (Some(length), Some(old)) = (bytes.get_mut(place), good.get(place)) {
        if length == old {
            *length = (*length as i32 + by) as u8;
        }
    }
}
