//! Stands in for the crate `num-traits`, of which ion-rust's decimals use `is_zero` on `f64`.
//!
//! Speed: no call that is compared or timed reaches it.

pub trait Zero {
    fn is_zero(&self) -> bool;
}

impl Zero for f64 {
    fn is_zero(&self) -> bool {
        *self == 0.0
    }
}
