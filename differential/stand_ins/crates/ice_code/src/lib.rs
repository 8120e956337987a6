//! Stands in for the crate `ice_code`, of which ion-rust uses the macro `ice`: it moves an expression to a cold
//! function that is never inlined.
//!
//! Speed: the same. The cold paths are writers of numbers of five bytes and more, and error texts.

/// The expression's value, computed in [`cold`]. A label, which names the cold function in the original, is dropped.
#[macro_export]
macro_rules! ice {
    ($label:ident => $body:expr) => {
        $crate::cold(|| $body)
    };
    ($body:expr) => {
        $crate::cold(|| $body)
    };
}

#[cold]
#[inline(never)]
pub fn cold<T>(body: impl FnOnce() -> T) -> T {
    body()
}
