//! Stands in for ion-rust's src/position.rs: where in the input a reader's error lies.
//!
//! Speed: no call that is compared or timed reaches it.

#[derive(Clone, Debug, PartialEq)]
pub struct Position;
