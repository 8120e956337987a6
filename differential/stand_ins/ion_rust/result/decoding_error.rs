//! Stands in for ion-rust's src/result/decoding_error.rs: a reader's error text.
//!
//! Speed: no call that is compared or timed reaches it.

use std::borrow::Cow;
use thiserror::Error;

#[derive(Clone, Debug, Error, PartialEq)]
#[error("{description}")]
pub struct DecodingError {
    description: Cow<'static, str>,
}

impl DecodingError {
    pub(crate) fn new(description: impl Into<Cow<'static, str>>) -> Self {
        DecodingError { description: description.into() }
    }
}
