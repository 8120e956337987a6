//! Comparison of ion-rust's timestamps with those of this repository. README.md says what is compared and how.

// ion-rust's modules, from its own files. They are the root's, since they name each other from `crate`.
include!(concat!(env!("OUT_DIR"), "/ion_rust.rs"));

// What ion-rust's files expect to find at their crate's root.
#[allow(unused_imports)]
mod root {
    pub use crate::element::{Annotations, Element, IonType, Sequence, Struct, Symbol, Value};
    pub use crate::result::{IonError, IonResult};
    pub use crate::types::{decimal, Decimal, Int, Timestamp, UInt};
}
#[allow(unused_imports)]
use root::*;

pub mod calls;
pub mod cases;
pub mod codes;
pub mod compare;
pub mod damage;
pub mod differences;
pub mod examples;
pub mod expected;
pub mod forms;
pub mod generate;
pub mod model;
pub mod oracle;
#[cfg(feature = "ours")]
pub mod ours;
pub mod padded_reader;
pub mod padded_readings;
mod plain_reader;
mod plain_report;
mod plain_value_reader;
pub mod random;
pub mod reader;
pub mod readings;
pub mod record;
pub mod refusals;
pub mod report_readings;
pub mod reports;
pub mod scan_readings;
pub mod scans;
pub mod text_reader;
pub mod timing;

#[cfg(test)]
mod tests;
