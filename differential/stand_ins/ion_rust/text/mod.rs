//! Stands in for ion-rust's src/text/mod.rs: the file that is at hand.

pub mod text_formatter;
