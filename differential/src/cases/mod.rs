//! The cases, and what may be done with them. They come in sections, edges first: those that go through all of
//! something short, then those drawn at random.

mod changes;
mod drawn;
mod exhaustive;
mod padded;
mod reports;
mod scans;
mod texts;

use crate::calls::{Build, DateTime, Layout, Pair, Scan};

#[derive(Clone, Copy)]
pub struct Options {
    pub seed: u64,
    /// How often each section that is drawn draws.
    pub draws: u64,
    /// Leaves out the sections that are not drawn.
    pub drawn_only: bool,
}

/// What takes cases.
pub trait Cases {
    /// Building; the pair, where the Rust accepts.
    fn build(&mut self, build: &Build) -> Option<Pair>;
    fn pair(&mut self, pair: Pair);
    fn two(&mut self, first: Pair, second: Pair);
    fn read(&mut self, input: &[u8]);
    /// Reading a value in any form.
    fn read_padded(&mut self, input: &[u8]);
    /// The same of bytes of which it is known what they are: a form of a pair's value and nothing else, or to be refused.
    fn read_form(&mut self, bytes: &[u8], owed: Result<Pair, u32>);
    fn read_text(&mut self, input: &[u8]);
    fn read_scan(&mut self, input: &[u8], layout: Layout);
    fn write_scan(&mut self, scan: Scan);
    /// A start written from a place of a buffer of that many bytes on.
    fn write_start(&mut self, at: usize, room: usize);
    fn file(&mut self, file: &[u8]);
    /// A report over a file, with its W and G.
    fn report(&mut self, file: &[u8], w: u32, g: u32);
    fn var_uint(&mut self, value: u64);
    fn var_int(&mut self, value: i64);
    fn zero_padded(&mut self, value: u64, width: usize);
    fn shift(&mut self, time: DateTime, offset: i32);
    fn month_length(&mut self, year: u32, month: u32);
    fn year_start(&mut self, year: u32);

    /// Building, and the pair that comes of it.
    fn build_and_use(&mut self, build: &Build) {
        if let Some(pair) = self.build(build) {
            self.pair(pair);
        }
    }
}

/// A name, and what gives the section's cases.
pub type Section<'a, C> = (&'static str, Box<dyn Fn(&mut C) + 'a>);

pub fn sections<'a, C: Cases + 'a>(options: Options) -> Vec<Section<'a, C>> {
    let mut sections = Vec::new();
    if !options.drawn_only {
        sections.extend(exhaustive::sections());
        sections.extend(texts::sections());
    }
    sections.extend(drawn::sections(options));
    // Last, so that what is recorded of the others does not change.
    if !options.drawn_only {
        sections.extend(scans::sections());
        sections.extend(reports::sections());
    }
    sections.extend(reports::drawn(options));
    if !options.drawn_only {
        sections.extend(padded::sections());
    }
    sections.extend(padded::drawn(options));
    sections
}
