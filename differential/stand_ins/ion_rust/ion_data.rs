//! Stands in for ion-rust's src/ion_data/: the three traits that its timestamps and decimals implement, with the
//! methods that they give.
//!
//! Speed: the same; a trait has none of its own.

use std::cmp::Ordering;
use std::hash::Hasher;

pub trait IonEq {
    fn ion_eq(&self, other: &Self) -> bool;
}

pub trait IonDataOrd {
    fn ion_cmp(&self, other: &Self) -> Ordering;
}

pub trait IonDataHash {
    fn ion_data_hash<H: Hasher>(&self, state: &mut H);
}
