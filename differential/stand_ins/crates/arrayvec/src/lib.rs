//! Stands in for the crate `arrayvec`: a vector and a string of a fixed capacity, kept in place.
//!
//! Speed of `ArrayVec`, in which the value writer builds a body: the same. As in the original the bytes are not
//! cleared first, the length is 32 bits, `write` takes what there is room for by one copy, and `write_all` is the
//! standard library's. `ArrayString` is reached by no call that is compared or timed.

use std::io;
use std::mem::MaybeUninit;
use std::ops::Deref;

pub struct ArrayVec<T, const CAPACITY: usize> {
    items: [MaybeUninit<T>; CAPACITY],
    // At most CAPACITY; the items before it are set.
    length: u32,
}

impl<const CAPACITY: usize> ArrayVec<u8, CAPACITY> {
    #[inline]
    pub fn new() -> Self {
        ArrayVec { items: [MaybeUninit::uninit(); CAPACITY], length: 0 }
    }
}

impl<const CAPACITY: usize> Default for ArrayVec<u8, CAPACITY> {
    fn default() -> Self {
        Self::new()
    }
}

impl<const CAPACITY: usize> Deref for ArrayVec<u8, CAPACITY> {
    type Target = [u8];

    #[inline]
    fn deref(&self) -> &[u8] {
        // SAFETY: the first `length` items are set.
        unsafe { std::slice::from_raw_parts(self.items.as_ptr() as *const u8, self.length as usize) }
    }
}

impl<const CAPACITY: usize> io::Write for ArrayVec<u8, CAPACITY> {
    #[inline]
    fn write(&mut self, data: &[u8]) -> io::Result<usize> {
        let length = self.length as usize;
        let taken = data.len().min(CAPACITY - length);
        // SAFETY: `taken` items lie past `length` and within CAPACITY, and `data` has as many.
        unsafe {
            let end = (self.items.as_mut_ptr() as *mut u8).add(length);
            std::ptr::copy_nonoverlapping(data.as_ptr(), end, taken);
        }
        self.length = (length + taken) as u32;
        Ok(taken)
    }

    fn flush(&mut self) -> io::Result<()> {
        Ok(())
    }
}

pub struct ArrayString<const CAPACITY: usize> {
    bytes: [u8; CAPACITY],
    length: usize,
}

pub struct CapacityError;

impl<const CAPACITY: usize> ArrayString<CAPACITY> {
    pub fn new() -> Self {
        ArrayString { bytes: [0; CAPACITY], length: 0 }
    }

    pub fn try_push_str(&mut self, text: &str) -> Result<(), CapacityError> {
        let room = &mut self.bytes[self.length..];
        if room.len() < text.len() {
            return Err(CapacityError);
        }
        room[..text.len()].copy_from_slice(text.as_bytes());
        self.length += text.len();
        Ok(())
    }

    pub fn clear(&mut self) {
        self.length = 0;
    }
}

impl<const CAPACITY: usize> Default for ArrayString<CAPACITY> {
    fn default() -> Self {
        Self::new()
    }
}

impl<const CAPACITY: usize> Deref for ArrayString<CAPACITY> {
    type Target = str;

    fn deref(&self) -> &str {
        std::str::from_utf8(&self.bytes[..self.length]).expect("only whole strings were pushed")
    }
}
