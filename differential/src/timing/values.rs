//! Times of values read in any form, beside the reader of the shortest form on the same timestamps, and beside the reader
//! that a user would write by hand (plain_value_reader.rs).
//!
//! The timestamps are those of the first table, and as many seconds: only a second has the numbers for a body of 64 bytes,
//! the longest that there may be. Zeros come before its numbers, from the offset on, or before its coefficient.

use super::{timed, Row, HEADS, INPUTS, PASSES, ROUNDS};
use crate::calls::{Library, Pair, Read};
use crate::forms::{Form, Number, EXPONENT};
use crate::generate;
use crate::model::fields;
use crate::oracle;
use crate::padded_reader::LONGEST_BODY;
use crate::plain_value_reader;
use crate::random::Random;

/// Timestamps, and their values in the shortest form and in a long one or two.
struct Group {
    pairs: Vec<Pair>,
    shortest: Vec<Vec<u8>>,
    long: Vec<(&'static str, Vec<Vec<u8>>)>,
}

/// A name, and what makes a form longer.
type Longer = (&'static str, fn(Form) -> Form);

fn group(pairs: Vec<Pair>, longer: &[Longer]) -> Group {
    let all = |of: fn(Form) -> Form| pairs.iter().map(|pair| of(Form::shortest(*pair)).bytes()).collect();
    let long = longer.iter().map(|(name, of)| (*name, all(*of))).collect();
    Group { shortest: all(|form| form), long, pairs }
}

/// A second with zeros before its coefficient, which is zero with an exponent of 0 where it has no digits.
fn with_zeros(mut form: Form) -> Form {
    if form.numbers.len() == EXPONENT {
        form.numbers.push(Number { width: 1, ..Number::NONE });
    }
    form.with_coefficient(form.coefficient.width + form.room())
}

pub fn run<L: Library>(library: &L, pairs: &[Pair], seed: u64) {
    let mut random = Random::new(seed);
    let accepted = std::iter::repeat_with(|| generate::accepted(&mut random));
    let seconds: Vec<Pair> = accepted.filter(|pair| fields::of_word(*pair).precision == 4).take(INPUTS).collect();
    let groups = [
        group(pairs.to_vec(), &[("padded, longest numbers", |form| form.longest())]),
        group(seconds, &[("padded, numbers to 64", |form| form.longest()), ("padded, zeros to 64", with_zeros)]),
    ];
    let padded = groups[1].long.iter().flat_map(|(_, values)| values);
    padded.for_each(|value| assert_eq!(value.len(), LONGEST_BODY + 2));
    let mut tables: Vec<Vec<Row>> = groups.iter().map(|group| rows(library, group)).collect();
    for _ in 0..ROUNDS {
        tables.iter_mut().flatten().for_each(Row::round);
    }
    println!("ns a value, best of {ROUNDS} rounds of {} calls; seed {seed}", PASSES * INPUTS);
    for (name, rows) in ["any stamps", "seconds"].iter().zip(tables) {
        println!("{name:<26} {HEADS} {:>9}", "to read");
        let shortest = rows[0].best[2];
        for row in rows {
            println!("{:<26} {} {:>9.2}", row.name, row.told(PASSES * INPUTS), row.best[2] / shortest);
        }
    }
}

/// The reader of the shortest form first, then that of any form on each form. Before they are timed, all must read the
/// pairs.
fn rows<'a, L: Library>(library: &'a L, group: &'a Group) -> Vec<Row<'a>> {
    let shortest = &group.shortest;
    let mut rows = vec![Row::new("read", [None, None, timed(|at| library.read(&shortest[at]))])];
    let long = group.long.iter().map(|(name, values)| (*name, values));
    for (name, values) in [("padded, shortest", shortest)].into_iter().chain(long) {
        for (value, pair) in values.iter().zip(&group.pairs) {
            let (number, pair, taken) = (0, *pair, value.len());
            assert_eq!(library.read_padded(value), Read { number, pair, taken });
            let plain = plain_value_reader::read(value).expect("a value");
            assert_eq!((oracle::pair_of(&plain.0), plain.1), (pair, taken));
        }
        let plain = timed(|at| plain_value_reader::read(&values[at]).map(|(stamp, taken)| (stamp.to_bits(), taken)));
        rows.push(Row::new(name, [plain, None, timed(|at| library.read_padded(&values[at]))]));
    }
    rows
}
