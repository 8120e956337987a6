//! Stands in for ion-rust's src/types/mod.rs: the files that are at hand, and integers, which are stood in for.

pub mod decimal;
pub mod integer;
pub mod overflowing_int;

/// The file as it is, and beside it a way to its private functions.
pub mod timestamp {
    include!("timestamp.rs");

    /// What is private to the file.
    pub mod opened {
        pub fn add_offset_to_utc(
            year: u16,
            month: u8,
            day: u8,
            hour: u8,
            minute: u8,
            offset_minutes: i16,
        ) -> (u16, u8, u8, u8, u8) {
            super::add_offset_to_utc(year, month, day, hour, minute, offset_minutes)
        }

        pub fn days_in_month(year: u16, month: u8) -> u8 {
            super::days_in_month(year, month)
        }
    }
}

pub use decimal::Decimal;
pub use integer::{Int, UInt};
pub use timestamp::{Timestamp, TimestampPrecision};
