//! Stands in for ion-rust's src/result/incomplete.rs: a reader's error at the input's end.
//!
//! Speed: no call that is compared or timed reaches it.

use crate::position::Position;
use std::borrow::Cow;
use thiserror::Error;

#[derive(Clone, Debug, Error, PartialEq)]
#[error("{label}")]
pub struct IncompleteError {
    label: Cow<'static, str>,
    position: Position,
}

impl IncompleteError {
    pub(crate) fn new(label: impl Into<Cow<'static, str>>, position: impl Into<Position>) -> Self {
        IncompleteError { label: label.into(), position: position.into() }
    }
}
