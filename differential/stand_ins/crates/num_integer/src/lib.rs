//! Stands in for the crate `num-integer`, of which ion-rust uses `div_rem` on `usize`.
//!
//! Speed: the same, a quotient and a remainder.

pub trait Integer: Sized {
    fn div_rem(&self, other: &Self) -> (Self, Self);
}

impl Integer for usize {
    #[inline]
    fn div_rem(&self, other: &Self) -> (Self, Self) {
        (*self / *other, *self % *other)
    }
}
