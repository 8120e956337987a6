//! Stands in for ion-rust's src/element/ and src/types/: the values that the text formatter prints beside timestamps.
//! Those that hold others have no values here at all; they are only named, so that the formatter compiles unchanged.
//!
//! Speed: no call that is compared or timed reaches it.

use crate::raw_symbol_ref::{AsRawSymbolRef, RawSymbolRef};
use crate::{Decimal, Int, Timestamp};

#[derive(Clone, Copy)]
pub enum IonType {
    Null,
    Bool,
    Int,
    Float,
    Decimal,
    Timestamp,
    Symbol,
    String,
    Blob,
    Clob,
    List,
    SExp,
    Struct,
}

pub enum Value {
    Null(IonType),
    Bool(bool),
    Int(Int),
    Float(f64),
    Decimal(Decimal),
    Timestamp(Timestamp),
    Symbol(Symbol),
    String(Str),
    Clob(Bytes),
    Blob(Bytes),
    List(Sequence),
    SExp(Sequence),
    Struct(Struct),
}

pub enum Symbol {}

impl AsRawSymbolRef for Symbol {
    fn as_raw_symbol_ref(&self) -> RawSymbolRef<'_> {
        match *self {}
    }
}

pub enum Str {}

impl Str {
    pub fn text(&self) -> &str {
        match *self {}
    }
}

pub enum Bytes {}

impl AsRef<[u8]> for Bytes {
    fn as_ref(&self) -> &[u8] {
        match *self {}
    }
}

pub enum Annotations {}

impl<'a> IntoIterator for &'a Annotations {
    type Item = &'a Symbol;
    type IntoIter = std::slice::Iter<'a, Symbol>;

    fn into_iter(self) -> Self::IntoIter {
        match *self {}
    }
}

pub enum Element {}

impl Element {
    pub fn annotations(&self) -> &Annotations {
        match *self {}
    }

    pub fn value(&self) -> &Value {
        match *self {}
    }
}

pub enum Sequence {}

impl Sequence {
    pub fn elements(&self) -> std::slice::Iter<'_, Element> {
        match *self {}
    }
}

impl AsRef<Sequence> for Sequence {
    fn as_ref(&self) -> &Sequence {
        self
    }
}

pub enum Struct {}

impl Struct {
    pub fn fields(&self) -> std::vec::IntoIter<(&Symbol, &Element)> {
        match *self {}
    }
}
