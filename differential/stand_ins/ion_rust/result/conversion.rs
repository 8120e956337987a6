//! Stands in for ion-rust's src/result/conversion.rs: errors of conversions between Ion types.
//!
//! Speed: no call that is compared or timed reaches it, so it only has the names.

use std::fmt::{Display, Formatter};
use std::marker::PhantomData;

pub trait TypeExpectation {}
pub trait ValueTypeExpectation {}
pub trait IonTypeExpectation {}

#[derive(Clone, Debug, PartialEq)]
pub struct ConversionError;

impl Display for ConversionError {
    fn fmt(&self, f: &mut Formatter<'_>) -> std::fmt::Result {
        f.write_str("conversion failed")
    }
}

impl std::error::Error for ConversionError {}

pub struct ConversionOperationError<FromType, ToType> {
    types: PhantomData<(FromType, ToType)>,
}

pub type ConversionOperationResult<FromType, ToType> = Result<ToType, ConversionOperationError<FromType, ToType>>;

impl<FromType, ToType> From<ConversionOperationError<FromType, ToType>> for ConversionError {
    fn from(_: ConversionOperationError<FromType, ToType>) -> Self {
        ConversionError
    }
}
