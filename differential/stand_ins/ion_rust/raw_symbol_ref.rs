//! Stands in for ion-rust's src/raw_symbol_ref.rs, which the text formatter uses for symbols.
//!
//! Speed: no call that is compared or timed reaches it.

pub enum RawSymbolRef<'a> {
    SymbolId(usize),
    Text(&'a str),
}

pub trait AsRawSymbolRef {
    fn as_raw_symbol_ref(&self) -> RawSymbolRef<'_>;
}

impl AsRawSymbolRef for RawSymbolRef<'_> {
    fn as_raw_symbol_ref(&self) -> RawSymbolRef<'_> {
        match *self {
            RawSymbolRef::SymbolId(id) => RawSymbolRef::SymbolId(id),
            RawSymbolRef::Text(text) => RawSymbolRef::Text(text),
        }
    }
}

impl<A: AsRawSymbolRef> AsRawSymbolRef for &A {
    fn as_raw_symbol_ref(&self) -> RawSymbolRef<'_> {
        (*self).as_raw_symbol_ref()
    }
}
