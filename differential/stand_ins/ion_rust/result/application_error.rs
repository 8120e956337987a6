//! Stands in for ion-rust's src/result/application_error.rs: an error that a caller's own code raised.
//!
//! Speed: no call that is compared or timed reaches it.

use std::error::Error;
use std::fmt::{Display, Formatter};
use std::sync::Arc;

#[derive(Clone, Debug)]
pub struct ApplicationError {
    error: Arc<dyn Error + Send + Sync + 'static>,
}

impl ApplicationError {
    pub(crate) fn new(error: Box<dyn Error + Send + Sync + 'static>) -> Self {
        ApplicationError { error: error.into() }
    }
}

impl PartialEq for ApplicationError {
    fn eq(&self, other: &Self) -> bool {
        Arc::ptr_eq(&self.error, &other.error)
    }
}

impl Display for ApplicationError {
    fn fmt(&self, f: &mut Formatter<'_>) -> std::fmt::Result {
        Display::fmt(&self.error, f)
    }
}

impl Error for ApplicationError {}
