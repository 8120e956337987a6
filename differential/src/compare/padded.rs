//! Values read in any form: what the library answers, held against what the scope's words make it owe, against what is
//! known of the bytes, and against its own reader of the shortest form.

use super::{Counted, Run};
use crate::calls::{Library, Pair, Read};
use crate::expected;

impl<L: Library> Run<'_, L> {
    pub(super) fn judge_padded(&mut self, input: &[u8]) -> Read {
        self.case();
        let answer = self.library.read_padded(input);
        self.count(Counted::ReadPadded, answer.number);
        let case = || format!("{input:02x?}");
        self.judge("read_padded", case, expected::read_padded(input), answer);
        self.judge_alike(input, self.library.read(input), answer);
        answer
    }

    /// What the reader of the shortest form accepts, that of any form answers alike.
    pub(super) fn judge_alike(&mut self, input: &[u8], shortest: Read, any: Read) {
        if shortest.number == 0 {
            self.judge("read_padded, beside read", || format!("{input:02x?}"), Ok(shortest), any);
        }
    }

    /// Bytes of which it is known what they are.
    pub(super) fn judge_form(&mut self, bytes: &[u8], owed: Result<Pair, u32>) {
        let answer = self.judge_padded(bytes);
        let expected = match owed {
            Ok(pair) => Read { number: 0, pair, taken: bytes.len() },
            Err(number) => Read { number, pair: Pair::NONE, taken: 0 },
        };
        self.judge("read_padded of a form", || format!("{bytes:02x?}"), Ok(expected), answer);
    }
}
