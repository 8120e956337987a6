//! Stands in for ion-rust's src/binary/mod.rs: the files that are at hand, and `uint`, which is stood in for.

pub mod decimal;
pub mod int;
pub mod timestamp;
pub mod uint;
pub mod var_int;
pub mod var_uint;
