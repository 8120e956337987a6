//! Stands in for the crate `itoa`: a number's decimal digits, in a buffer of its own.
//!
//! Speed up to 64 bits: the same method as the original's. From the back, four digits a step by one division by
//! 10,000, each two of them copied from a table of the 100 pairs; the buffer is not cleared first, and no index is
//! checked. Above 64 bits the original divides by 10^19 through multiplications; here `u128`'s own division does it,
//! more slowly, and no call that is compared or timed has such numbers.

use std::mem::MaybeUninit;

/// The longest number's digits: those of 2^128 - 1, and a sign.
const LONGEST: usize = 40;

/// The digits of 0 to 99, two each.
const PAIRS: &[u8; 200] = b"\
    0001020304050607080910111213141516171819\
    2021222324252627282930313233343536373839\
    4041424344454647484950515253545556575859\
    6061626364656667686970717273747576777879\
    8081828384858687888990919293949596979899";

pub struct Buffer {
    bytes: [MaybeUninit<u8>; LONGEST],
}

impl Buffer {
    #[inline]
    pub fn new() -> Self {
        Buffer { bytes: [MaybeUninit::uninit(); LONGEST] }
    }

    #[inline]
    pub fn format<I: Integer>(&mut self, number: I) -> &str {
        let start = number.write(&mut self.bytes);
        // SAFETY: `write` has set the bytes from `start` on, to ASCII.
        unsafe {
            let digits = std::slice::from_raw_parts(self.bytes.as_ptr().add(start) as *const u8, LONGEST - start);
            std::str::from_utf8_unchecked(digits)
        }
    }
}

impl Default for Buffer {
    fn default() -> Self {
        Self::new()
    }
}

pub trait Integer {
    /// Writes the number's text at the buffer's end, and returns where it starts.
    fn write(self, bytes: &mut [MaybeUninit<u8>; LONGEST]) -> usize;
}

/// Writes the digits of `n` so that they end before `end`, which leaves room for them, and returns where they start.
#[inline]
fn write_u64(mut n: u64, bytes: &mut [MaybeUninit<u8>; LONGEST], end: usize) -> usize {
    let start = bytes.as_mut_ptr() as *mut u8;
    let mut at = end;
    // SAFETY: there is room for the digits, and every index into PAIRS is twice a number below 100.
    unsafe {
        let put_pair = |pair: usize, at: usize| {
            std::ptr::copy_nonoverlapping(PAIRS.as_ptr().add(2 * pair), start.add(at), 2);
        };
        while n >= 10_000 {
            let four = (n % 10_000) as usize;
            n /= 10_000;
            at -= 4;
            put_pair(four / 100, at);
            put_pair(four % 100, at + 2);
        }
        let mut n = n as usize;
        if n >= 100 {
            at -= 2;
            put_pair(n % 100, at);
            n /= 100;
        }
        if n >= 10 {
            at -= 2;
            put_pair(n, at);
        } else {
            at -= 1;
            *start.add(at) = b'0' + n as u8;
        }
    }
    at
}

impl Integer for u64 {
    #[inline]
    fn write(self, bytes: &mut [MaybeUninit<u8>; LONGEST]) -> usize {
        write_u64(self, bytes, LONGEST)
    }
}

impl Integer for usize {
    #[inline]
    fn write(self, bytes: &mut [MaybeUninit<u8>; LONGEST]) -> usize {
        write_u64(self as u64, bytes, LONGEST)
    }
}

impl Integer for i64 {
    #[inline]
    fn write(self, bytes: &mut [MaybeUninit<u8>; LONGEST]) -> usize {
        let start = write_u64(self.unsigned_abs(), bytes, LONGEST);
        if self >= 0 {
            return start;
        }
        bytes[start - 1] = MaybeUninit::new(b'-');
        start - 1
    }
}

impl Integer for u128 {
    fn write(mut self, bytes: &mut [MaybeUninit<u8>; LONGEST]) -> usize {
        const NINETEEN_DIGITS: u128 = 10_000_000_000_000_000_000;
        let mut end = LONGEST;
        while self > u64::MAX as u128 {
            let start = write_u64((self % NINETEEN_DIGITS) as u64, bytes, end);
            self /= NINETEEN_DIGITS;
            end -= 19;
            bytes[end..start].fill(MaybeUninit::new(b'0'));
        }
        write_u64(self as u64, bytes, end)
    }
}
