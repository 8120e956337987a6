//! Stands in for ion-rust's src/types/integer.rs: integers of any size there, of up to 128 bits here.
//!
//! Speed: at least the original's. There a number is 16 bytes, with its sign and the place of its magnitude (in
//! these bytes or on the heap) packed into it; here nothing is unpacked, and nothing is freed.

use super::decimal::Sign;
use super::overflowing_int::{Magnitude, OverflowingInt};
use std::convert::TryFrom;

/// A signed integer, with one zero.
#[derive(Clone, Debug)]
pub struct Int {
    repr: OverflowingInt,
}

impl Int {
    pub fn as_overflowing_int(&self) -> &OverflowingInt {
        &self.repr
    }

    pub fn is_negative(&self) -> bool {
        self.repr.sign() == Sign::Negative
    }

    pub fn is_zero(&self) -> bool {
        self.repr.is_zero()
    }

    pub fn format_text<W: std::fmt::Write>(&self, output: &mut W) -> std::fmt::Result {
        self.repr.format_text(output)
    }
}

impl From<Int> for OverflowingInt {
    fn from(value: Int) -> Self {
        value.repr
    }
}

/// Refuses negative zero.
impl TryFrom<OverflowingInt> for Int {
    type Error = ();

    fn try_from(repr: OverflowingInt) -> Result<Self, ()> {
        if repr.is_zero() && repr.sign() == Sign::Negative {
            return Err(());
        }
        Ok(Int { repr })
    }
}

#[derive(Clone, Debug)]
pub struct UInt {
    magnitude: u128,
}

impl UInt {
    pub fn as_u128(&self) -> Option<u128> {
        Some(self.magnitude)
    }
}

impl From<Magnitude<'_>> for UInt {
    fn from(magnitude: Magnitude<'_>) -> Self {
        match magnitude {
            Magnitude::Small(magnitude) => UInt { magnitude },
            Magnitude::Big(big) => match *big {},
        }
    }
}

impl From<UInt> for Int {
    fn from(value: UInt) -> Self {
        Int::from(value.magnitude)
    }
}

macro_rules! int_from_unsigned {
    ($($t:ty),*) => ($(
        impl From<$t> for Int {
            #[inline]
            fn from(value: $t) -> Self {
                Int { repr: OverflowingInt::new(Sign::Positive, value as u128) }
            }
        }
    )*)
}
int_from_unsigned!(u8, u16, u32, u64, u128, usize);

macro_rules! int_from_signed {
    ($($t:ty),*) => ($(
        impl From<$t> for Int {
            #[inline]
            fn from(value: $t) -> Self {
                let sign = if value < 0 { Sign::Negative } else { Sign::Positive };
                Int { repr: OverflowingInt::new(sign, value.unsigned_abs() as u128) }
            }
        }
    )*)
}
int_from_signed!(i8, i16, i32, i64, i128, isize);
