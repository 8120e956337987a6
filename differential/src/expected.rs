//! What a library must answer, by the Rust's answers.

use crate::calls::*;
use crate::model;
use crate::oracle::{self, Answer};
use crate::padded_reader;
use crate::reader;
use crate::scans::{self, Contents};
use crate::text_reader;

/// What the library must answer, or why the Rust has no answer to hold it against.
pub type Expected<T> = Result<T, String>;

/// From an accepted value, or from a refusal's number.
fn answered<T, U>(answer: Answer<T>, accepted: impl FnOnce(T) -> U, refused: impl FnOnce(u32) -> U) -> Expected<U> {
    match answer {
        Answer::Accepted(value) => Ok(accepted(value)),
        Answer::Refused(number) => Ok(refused(number)),
        Answer::Unlisted(text) => Err(format!("the Rust's error has no number: {text}")),
        Answer::Panicked(text) => Err(format!("the Rust panicked: {text}")),
    }
}

pub fn built(answer: Answer<Pair>) -> Expected<Built> {
    let accepted = |pair| Built { number: 0, pair };
    let refused = |number| Built { number, pair: Pair::NONE };
    answered(answer, accepted, refused)
}

pub fn ordered(answer: Answer<i32>) -> Expected<Ordered> {
    let accepted = |order| Ordered { number: 0, order };
    answered(answer, accepted, |number| Ordered { number, order: 0 })
}

pub fn compared(answer: Answer<bool>) -> Expected<Compared> {
    let accepted = |equal| Compared { number: 0, equal };
    answered(answer, accepted, |number| Compared { number, equal: false })
}

pub fn fields(answer: Answer<Fields>) -> Expected<Fields> {
    let refused = |number| Fields { number, ..Fields::default() };
    answered(answer, |fields| fields, refused)
}

/// A writer's bytes, or its refusal's number.
pub fn bytes(answer: Answer<Vec<u8>>) -> Expected<Result<Vec<u8>, u32>> {
    answered(answer, Ok, Err)
}

/// The distance by the scope's count; whether there is one is the Rust's to say.
pub fn distance(first: Pair, second: Pair) -> Expected<Distance> {
    let accepted = |_| model::distance(first, second);
    let refused = |number| Distance { number, sign: 0, seconds: 0, attoseconds: 0 };
    answered(oracle::cmp(first, second), accepted, refused)
}

/// The reader by the scope, over the Rust's check and writer.
pub fn read(input: &[u8]) -> Read {
    reader::read(input, |pair| match oracle::body(pair) {
        Answer::Accepted(body) => Some(body),
        _ => None,
    })
}

/// The value's form by the scope, over the Rust's builder.
pub fn read_padded(input: &[u8]) -> Expected<Read> {
    match padded_reader::fields_of(input) {
        Ok((build, taken)) => Ok(padded_reader::made(built(oracle::build(&build))?, taken)),
        Err(refused) => Ok(refused),
    }
}

/// The text's form by the scope, over the Rust's builder.
pub fn read_text(input: &[u8]) -> Expected<Built> {
    match text_reader::fields_of(input) {
        Ok(build) => built(oracle::build(&build)),
        Err(refused) => Ok(refused),
    }
}

/// The numbers by the scope, the value as above.
pub fn read_scan(input: &[u8], layout: Layout) -> ScanRead {
    scans::read(input, layout, read)
}

pub fn contents(file: &[u8]) -> Contents {
    scans::contents(file, scans::layout(file), read_scan)
}
