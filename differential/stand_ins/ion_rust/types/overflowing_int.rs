//! Stands in for ion-rust's src/types/overflowing_int.rs: a sign and a magnitude, negative zero included. The
//! original keeps magnitudes of up to 126 bits in place and larger ones on the heap; here there are none above 128
//! bits, and `Big` has no values.
//!
//! Speed: at least the original's, as in integer.rs.

use super::decimal::Sign;
use std::cmp::Ordering;

#[derive(Clone, Debug, PartialEq, Eq, PartialOrd, Ord, Hash)]
pub struct OverflowingInt {
    sign: Sign,
    magnitude: u128,
}

pub enum Magnitude<'a> {
    Small(u128),
    Big(&'a BigUint),
}

/// A magnitude on the heap: none here.
pub enum BigUint {}

impl BigUint {
    pub fn to_bytes_be(&self) -> Vec<u8> {
        match *self {}
    }
}

impl std::fmt::Display for BigUint {
    fn fmt(&self, _: &mut std::fmt::Formatter<'_>) -> std::fmt::Result {
        match *self {}
    }
}

impl Magnitude<'_> {
    pub fn number_of_decimal_digits(&self) -> u32 {
        match self {
            Magnitude::Small(magnitude) => magnitude.checked_ilog10().unwrap_or(0) + 1,
            Magnitude::Big(big) => match **big {},
        }
    }
}

impl OverflowingInt {
    pub const ZERO: OverflowingInt = OverflowingInt { sign: Sign::Positive, magnitude: 0 };

    pub const NEGATIVE_ZERO: OverflowingInt = OverflowingInt { sign: Sign::Negative, magnitude: 0 };

    pub fn new(sign: Sign, magnitude: u128) -> Self {
        OverflowingInt { sign, magnitude }
    }

    pub fn with_sign(self, sign: Sign) -> Self {
        OverflowingInt { sign, ..self }
    }

    pub fn sign(&self) -> Sign {
        self.sign
    }

    pub fn is_zero(&self) -> bool {
        self.magnitude == 0
    }

    pub fn magnitude_ref(&self) -> Magnitude<'_> {
        Magnitude::Small(self.magnitude)
    }

    /// Quotient and remainder by 10^k, with this number's sign each.
    pub fn div_rem_pow10(&self, k: u64) -> (OverflowingInt, OverflowingInt) {
        let (quotient, remainder) = match u32::try_from(k).ok().and_then(|k| 10u128.checked_pow(k)) {
            Some(power) => (self.magnitude / power, self.magnitude % power),
            None => (0, self.magnitude),
        };
        (Self::new(self.sign, quotient), Self::new(self.sign, remainder))
    }

    /// This magnitude times 10^k, compared with the other's.
    pub fn cmp_magnitude_scaled(&self, k: u64, other: &OverflowingInt) -> Ordering {
        if self.magnitude == 0 {
            return self.magnitude.cmp(&other.magnitude);
        }
        let power = u32::try_from(k).ok().and_then(|k| 10u128.checked_pow(k));
        match power.and_then(|power| self.magnitude.checked_mul(power)) {
            Some(scaled) => scaled.cmp(&other.magnitude),
            None => Ordering::Greater,
        }
    }

    pub fn format_text<W: std::fmt::Write>(&self, output: &mut W) -> std::fmt::Result {
        if self.sign == Sign::Negative {
            output.write_str("-")?;
        }
        write!(output, "{}", self.magnitude)
    }
}
