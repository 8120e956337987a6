//! Forms of a value: its numbers, each in some number of bytes.

use crate::calls::Pair;
use crate::model::{self, fields};
use crate::padded_reader::{LONGEST_BODY, LONGEST_NUMBER};

/// A number in so many bytes.
#[derive(Clone, Copy, PartialEq, Eq, Debug)]
pub struct Number {
    pub negative: bool,
    pub magnitude: u128,
    pub width: usize,
}

impl Number {
    pub const NONE: Number = Number { negative: false, magnitude: 0, width: 0 };
}

/// The offset of so many minutes, or the unknown one, which is negative zero.
pub fn offset(minutes: Option<i32>) -> (bool, u128) {
    minutes.map_or((true, 0), |minutes| (minutes < 0, minutes.unsigned_abs() as u128))
}

/// A value's numbers as they stand in its body.
#[derive(Clone, PartialEq, Eq, Debug)]
pub struct Form {
    /// In how many bytes the length stands after 6E. None are told: in the descriptor, or in one byte, if that has no room.
    pub length: Option<usize>,
    /// The offset, up to six fields, and after six of them perhaps an exponent.
    pub numbers: Vec<Number>,
    /// No bytes are zero.
    pub coefficient: Number,
}

/// The place of the exponent among the numbers.
pub const EXPONENT: usize = 7;

impl Form {
    /// Numbers, each in the fewest bytes.
    pub fn of(offset: (bool, u128), fields: &[u128], fraction: Option<((bool, u128), (bool, u128))>) -> Form {
        let numbers = [offset].into_iter().chain(fields.iter().map(|field| (false, *field)));
        let numbers = numbers.chain(fraction.map(|(exponent, _)| exponent));
        let shortest = |(place, (negative, magnitude))| {
            let width = narrowest(place, magnitude);
            Number { negative, magnitude, width }
        };
        let (negative, magnitude) = fraction.map_or((false, 0), |(_, coefficient)| coefficient);
        let coefficient = Number { negative, magnitude, width: narrowest_int(negative, magnitude) };
        Form { length: None, numbers: numbers.enumerate().map(shortest).collect(), coefficient }
    }

    /// What the writer writes of an accepted pair.
    pub fn shortest(pair: Pair) -> Form {
        let utc = model::utc_and(&fields::of_word(pair));
        let time = utc.time;
        let given = [time.year, time.month, time.day, time.hour, time.minute, utc.second].map(u128::from);
        let count = [1, 2, 3, 5, 6][utc.precision as usize];
        let scale = 10u128.pow(18 - utc.digits as u32);
        let fraction = (utc.digits > 0).then(|| ((true, utc.digits as u128), (false, utc.attoseconds / scale)));
        Form::of(offset(utc.offset), &given[..count], fraction)
    }

    pub fn body(&self) -> Vec<u8> {
        let numbers = self.numbers.iter().enumerate().flat_map(|(place, number)| match has_sign(place) {
            true => signed(0x40, number.negative, groups(number.magnitude, number.width)),
            false => groups(number.magnitude, number.width),
        });
        let Number { negative, magnitude, width } = self.coefficient;
        let zeros = vec![0; width.saturating_sub(16)];
        let bytes = [&zeros, &magnitude.to_be_bytes()[16 - width.min(16)..]].concat();
        numbers.chain(signed(0x80, negative, bytes)).collect()
    }

    pub fn bytes(&self) -> Vec<u8> {
        value(self.length, &self.body())
    }

    /// Whether no part has more bytes than it may; what the numbers are is not looked at.
    pub fn has_room(&self) -> bool {
        let widths = self.numbers.iter().map(|number| number.width).chain(self.length);
        widths.max() <= Some(LONGEST_NUMBER) && self.body().len() <= LONGEST_BODY
    }

    /// How many bytes more a body may have.
    pub fn room(&self) -> usize {
        LONGEST_BODY.saturating_sub(self.body().len())
    }

    pub fn with_number(&self, place: usize, number: Number) -> Form {
        let mut form = self.clone();
        form.numbers[place] = number;
        form
    }

    pub fn with_width(&self, place: usize, width: usize) -> Form {
        self.with_number(place, Number { width, ..self.numbers[place] })
    }

    pub fn with_coefficient(&self, width: usize) -> Form {
        Form { coefficient: Number { width, ..self.coefficient }, ..self.clone() }
    }

    pub fn with_length(&self, length: Option<usize>) -> Form {
        Form { length, ..self.clone() }
    }

    /// The same with its numbers, from the offset on, in as many bytes as they may have.
    pub fn longest(&self) -> Form {
        (0..self.numbers.len()).fold(self.clone(), |form, place| {
            let width = form.numbers[place].width;
            form.with_width(place, LONGEST_NUMBER.min(width + form.room()))
        })
    }

    /// The same with each part in no fewer bytes than it needs.
    pub fn widened(mut self) -> Form {
        for place in 0..self.numbers.len() {
            self.numbers[place].width = self.numbers[place].width.max(self.narrowest(place));
        }
        let Number { negative, magnitude, width } = self.coefficient;
        self.coefficient.width = width.max(narrowest_int(negative, magnitude));
        self
    }

    /// The fewest bytes of the number at a place.
    pub fn narrowest(&self, place: usize) -> usize {
        narrowest(place, self.numbers[place].magnitude)
    }
}

/// The most bytes of a body whose length the descriptor may have.
pub const LONGEST_SHORT: usize = 13;

/// A body after its length, in so many bytes.
pub fn value(length: Option<usize>, body: &[u8]) -> Vec<u8> {
    let header = match length {
        None if body.len() <= LONGEST_SHORT => vec![0x60 + body.len() as u8],
        width => [vec![0x6E], groups(body.len() as u128, width.unwrap_or(1))].concat(),
    };
    [&header, body].concat()
}

/// The groups of seven bits of a number, as many as told, the last of them marked. Bits for which they have no room are
/// left out.
pub fn groups(number: u128, count: usize) -> Vec<u8> {
    let mark = |place: usize| if place == 0 { 0x80 } else { 0 };
    (0..count).rev().map(|place| (number >> (7 * place)) as u8 & 0x7F | mark(place)).collect()
}

/// How many groups a number needs.
pub fn group_count(number: u128) -> usize {
    (1..).find(|count| number >> (7 * count) == 0).expect("eighteen groups hold it")
}

/// Whether the number at a place of a body is a VarInt: the offset and the exponent are.
fn has_sign(place: usize) -> bool {
    matches!(place, 0 | EXPONENT)
}

/// The fewest bytes of a body's number: a sign is one bit more.
pub fn narrowest(place: usize, magnitude: u128) -> usize {
    group_count(magnitude << has_sign(place) as u32)
}

/// The fewest bytes of a coefficient.
pub fn narrowest_int(negative: bool, magnitude: u128) -> usize {
    let bits = 128 - magnitude.leading_zeros() as usize;
    if bits == 0 && !negative {
        0
    } else {
        bits / 8 + 1
    }
}

/// The bytes with a sign in the first of them.
fn signed(sign: u8, negative: bool, mut bytes: Vec<u8>) -> Vec<u8> {
    if let Some(first) = bytes.first_mut().filter(|_| negative) {
        *first |= sign;
    }
    bytes
}
