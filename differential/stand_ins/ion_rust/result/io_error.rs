//! Stands in for ion-rust's src/result/io_error.rs: an error of a `Write` sink.
//!
//! Speed: only a sink that is full reaches it; no call that is timed does.

use std::io;
use thiserror::Error;

#[derive(Clone, Debug, Error, PartialEq)]
#[error("{description}")]
pub struct IoError {
    description: String,
}

impl From<io::Error> for IoError {
    fn from(error: io::Error) -> Self {
        IoError { description: error.to_string() }
    }
}
