//! Stands in for ion-rust's src/binary/uint.rs, of which `int.rs` uses `minimal_be_bytes`. Its contract is read off
//! `int.rs`: the fewest big-endian bytes, at least one.
//!
//! Speed: it has no loop and no branch, so the original can hardly be faster.

/// The number's 16 big-endian bytes, and where its first byte that is not 0 stands; the last byte of a zero.
#[inline]
pub fn minimal_be_bytes(magnitude: u128) -> ([u8; 16], usize) {
    let zeros = (magnitude | 1).leading_zeros() / 8;
    (magnitude.to_be_bytes(), zeros as usize)
}
