//! Stands in for the crate `serde`, which ion-rust's errors name where its feature `experimental-serde` is on. The
//! feature is on because it brings `Timestamp::try_from_bits`.
//!
//! Speed: no call that is compared or timed reaches it.

pub mod de {
    pub trait Error: Sized + std::error::Error {
        fn custom<T: std::fmt::Display>(error: T) -> Self;
    }
}

pub mod ser {
    pub trait Error: Sized + std::error::Error {
        fn custom<T: std::fmt::Display>(error: T) -> Self;
    }
}
