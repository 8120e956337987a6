//! The file of recorded answers.
//!
//! It is a row of records. A record is a kind (1 byte), the number of bytes that follow (1 byte, so at most 255), and
//! these bytes: fields of a fixed width, big-endian, and in some kinds last a run of bytes after its length (1 byte).
//! Whoever reads two bytes and then as many as the second says needs no look-ahead, and has every field at a fixed
//! place. `n2` below is a field of two bytes; signed numbers are in two's complement; a pair is the word and the
//! attoseconds, `n8 n8`; a scan is its site, its tag, its guard and its pair, `n4 n4 n4 n8 n8`; a layout is 0 old, 1
//! new; a number is a refusal's, 0 for accepted; an order or a sign is 00, 01 or FF for -1.
//!
//! | kind | what | arguments | answer |
//! |---|---|---|---|
//! | 00 | source of what follows | | its name in ASCII, the whole rest |
//! | 01 | build | a field set | number n1, pair |
//! | 02 | packed check | pair | number n1, pair |
//! | 03 | UTC form | pair | number n1, pair |
//! | 04 | order | two pairs | number n1 of all four, `cmp` n1, `==` n1, `ion_cmp` n1, `ion_eq` n1 |
//! | 05 | text | pair | number n1, bytes |
//! | 06 | value | pair | number n1, bytes |
//! | 07 | read | bytes, last | number n1, pair, taken n1 |
//! | 08 | distance | two pairs | number n1, sign n1, seconds n8, attoseconds n8 |
//! | 09 | VarUInt | value n8 | bytes |
//! | 0A | VarInt | value n8, signed | bytes |
//! | 0B | padded digits | value n8, width n1 | bytes |
//! | 0C | text read | bytes, last | number n1, pair |
//! | 0D | scan read | layout n1, after the number; bytes, last | number n1, scan, taken n1 |
//! | 0E | scan written | scan | number n1, bytes |
//! | 0F | file checked | bytes, last | number n1, layout n1, how many scans n1 |
//! | 10 | file reported | W n4, G n4, lent words n2, bytes, last | number n1, five counts n1 each, eight words n8 each |
//! | 11 | padded value read | bytes, last | number n1, pair, taken n1 |
//! | FF | end | | how many records of the kinds 01 to 11 there were n4 |
//!
//! A field set is its stage n1, how month, day and hour are given n1, the year, month, day, hour, minute and second n4
//! each, the fraction's kind n1 and two numbers n8 n8, the offset's kind n1 and its minutes n4. codes.rs has the codes.
//! Fields finer than the stage are there too, and are not given to the builder.
//!
//! The words of kind 10 are those of the first two posts, 0 where there are fewer or where it is refused. The words that
//! are lent are all 7 before.

use crate::calls::*;
use crate::codes;
use crate::reports::POST_WORDS;

#[derive(Clone, PartialEq, Eq, Debug)]
pub enum Record {
    Source(String),
    Build(Build, Built),
    Check(Pair, Built),
    Utc(Pair, Built),
    Order(Pair, Pair, Orders),
    Text(Pair, u32, Vec<u8>),
    Value(Pair, u32, Vec<u8>),
    Read(Vec<u8>, Read),
    Distance(Pair, Pair, Distance),
    VarUInt(u64, Vec<u8>),
    VarInt(i64, Vec<u8>),
    ZeroPadded(u64, u8, Vec<u8>),
    ReadText(Vec<u8>, Built),
    ReadScan(Vec<u8>, Layout, ScanRead),
    WriteScan(Scan, u32, Vec<u8>),
    File(Vec<u8>, Layout, FileRead),
    Report(Reported),
    ReadPadded(Vec<u8>, Read),
    End(u32),
}

/// The answers of the four calls on two pairs.
#[derive(Clone, Copy, PartialEq, Eq, Debug)]
pub struct Orders {
    pub number: u32,
    pub cmp: i32,
    pub eq: bool,
    pub ion_cmp: i32,
    pub ion_eq: bool,
}

/// How many words of a report are recorded: those of two posts.
pub const REPORTED_WORDS: usize = 2 * POST_WORDS;

/// A report over a file: what was asked and answered, and the words of the first two posts.
#[derive(Clone, PartialEq, Eq, Debug)]
pub struct Reported {
    pub file: Vec<u8>,
    pub w: u32,
    pub g: u32,
    pub lent: u16,
    pub answer: Report,
    pub words: [u64; REPORTED_WORDS],
}

impl Record {
    pub fn is_a_case(&self) -> bool {
        !matches!(self, Record::Source(_) | Record::End(_))
    }

    /// Whether ion-rust itself has the call.
    pub fn is_the_rusts(&self) -> bool {
        !matches!(
            self,
            Record::Read(..)
                | Record::Distance(..)
                | Record::ReadText(..)
                | Record::ReadScan(..)
                | Record::WriteScan(..)
                | Record::File(..)
                | Record::Report(_)
                | Record::ReadPadded(..)
        )
    }

    fn kind(&self) -> u8 {
        match self {
            Record::Source(_) => 0x00,
            Record::Build(..) => 0x01,
            Record::Check(..) => 0x02,
            Record::Utc(..) => 0x03,
            Record::Order(..) => 0x04,
            Record::Text(..) => 0x05,
            Record::Value(..) => 0x06,
            Record::Read(..) => 0x07,
            Record::Distance(..) => 0x08,
            Record::VarUInt(..) => 0x09,
            Record::VarInt(..) => 0x0A,
            Record::ZeroPadded(..) => 0x0B,
            Record::ReadText(..) => 0x0C,
            Record::ReadScan(..) => 0x0D,
            Record::WriteScan(..) => 0x0E,
            Record::File(..) => 0x0F,
            Record::Report(_) => 0x10,
            Record::ReadPadded(..) => 0x11,
            Record::End(_) => 0xFF,
        }
    }

    pub fn encoded(&self) -> Vec<u8> {
        let mut rest = Rest(Vec::new());
        match self {
            Record::Source(name) => rest.0.extend(name.as_bytes()),
            Record::Build(build, answer) => rest.build(build).built(answer),
            Record::Check(pair, answer) | Record::Utc(pair, answer) => rest.pair(*pair).built(answer),
            Record::Order(first, second, answer) => {
                rest.pair(*first).pair(*second).byte(answer.number as u8);
                rest.byte(answer.cmp as u8).byte(answer.eq as u8);
                rest.byte(answer.ion_cmp as u8).byte(answer.ion_eq as u8);
            }
            Record::Text(pair, number, bytes) | Record::Value(pair, number, bytes) => {
                rest.pair(*pair).byte(*number as u8).bytes(bytes);
            }
            Record::Read(input, answer) | Record::ReadPadded(input, answer) => {
                rest.byte(answer.number as u8).pair(answer.pair);
                rest.byte(answer.taken as u8).bytes(input);
            }
            Record::Distance(first, second, answer) => {
                rest.pair(*first).pair(*second).byte(answer.number as u8);
                rest.byte(answer.sign as u8).word(answer.seconds).word(answer.attoseconds);
            }
            Record::VarUInt(value, bytes) => rest.word(*value).bytes(bytes),
            Record::VarInt(value, bytes) => rest.word(*value as u64).bytes(bytes),
            Record::ZeroPadded(value, width, bytes) => rest.word(*value).byte(*width).bytes(bytes),
            Record::ReadText(input, answer) => {
                rest.built(answer);
                rest.bytes(input);
            }
            Record::ReadScan(input, layout, answer) => {
                rest.byte(answer.number as u8).byte(*layout as u8).scan(answer.scan);
                rest.byte(answer.taken as u8).bytes(input);
            }
            Record::WriteScan(scan, number, bytes) => rest.scan(*scan).byte(*number as u8).bytes(bytes),
            Record::File(file, layout, answer) => {
                rest.byte(answer.number as u8).byte(*layout as u8).byte(answer.scans as u8).bytes(file);
            }
            Record::Report(reported) => {
                rest.half(reported.w).half(reported.g).quarter(reported.lent).report(&reported.answer);
                reported.words.iter().for_each(|word| _ = rest.word(*word));
                rest.bytes(&reported.file);
            }
            Record::End(count) => rest.0.extend(count.to_be_bytes()),
        }
        let length = u8::try_from(rest.0.len()).expect("a record has at most 255 bytes");
        [&[self.kind(), length], &rest.0[..]].concat()
    }

    /// The record with which the bytes begin, and what follows it.
    pub fn decoded(bytes: &[u8]) -> Option<(Record, &[u8])> {
        let [kind, length, rest @ ..] = bytes else {
            return None;
        };
        let (fields, after) = rest.split_at_checked(*length as usize)?;
        let mut fields = Fields(fields);
        let record = match kind {
            0x00 => Record::Source(String::from_utf8(std::mem::take(&mut fields.0).to_vec()).ok()?),
            0x01 => Record::Build(fields.build()?, fields.built()?),
            0x02 => Record::Check(fields.pair()?, fields.built()?),
            0x03 => Record::Utc(fields.pair()?, fields.built()?),
            0x04 => Record::Order(fields.pair()?, fields.pair()?, fields.orders()?),
            0x05 => Record::Text(fields.pair()?, fields.byte()? as u32, fields.bytes()?),
            0x06 => Record::Value(fields.pair()?, fields.byte()? as u32, fields.bytes()?),
            0x07 => {
                let answer = fields.read()?;
                Record::Read(fields.bytes()?, answer)
            }
            0x08 => Record::Distance(fields.pair()?, fields.pair()?, fields.distance()?),
            0x09 => Record::VarUInt(fields.word()?, fields.bytes()?),
            0x0A => Record::VarInt(fields.word()? as i64, fields.bytes()?),
            0x0B => Record::ZeroPadded(fields.word()?, fields.byte()?, fields.bytes()?),
            0x0C => {
                let answer = fields.built()?;
                Record::ReadText(fields.bytes()?, answer)
            }
            0x0D => {
                let (number, layout) = (fields.byte()? as u32, fields.layout()?);
                let answer = ScanRead { number, scan: fields.scan()?, taken: fields.byte()? as usize };
                Record::ReadScan(fields.bytes()?, layout, answer)
            }
            0x0E => Record::WriteScan(fields.scan()?, fields.byte()? as u32, fields.bytes()?),
            0x0F => {
                let (number, layout) = (fields.byte()? as u32, fields.layout()?);
                let answer = FileRead { number, scans: fields.byte()? as usize };
                Record::File(fields.bytes()?, layout, answer)
            }
            0x10 => {
                let (w, g, lent) = (fields.half()?, fields.half()?, fields.quarter()?);
                let (answer, words) = (fields.report()?, fields.words()?);
                Record::Report(Reported { file: fields.bytes()?, w, g, lent, answer, words })
            }
            0x11 => {
                let answer = fields.read()?;
                Record::ReadPadded(fields.bytes()?, answer)
            }
            0xFF => Record::End(fields.half()?),
            _ => return None,
        };
        fields.0.is_empty().then_some((record, after))
    }
}

/// A record's bytes past its length, as they are put together.
struct Rest(Vec<u8>);

impl Rest {
    fn byte(&mut self, value: u8) -> &mut Self {
        self.0.push(value);
        self
    }

    fn quarter(&mut self, value: u16) -> &mut Self {
        self.0.extend(value.to_be_bytes());
        self
    }

    fn half(&mut self, value: u32) -> &mut Self {
        self.0.extend(value.to_be_bytes());
        self
    }

    fn word(&mut self, value: u64) -> &mut Self {
        self.0.extend(value.to_be_bytes());
        self
    }

    fn pair(&mut self, pair: Pair) -> &mut Self {
        self.word(pair.word).word(pair.attoseconds)
    }

    fn scan(&mut self, scan: Scan) -> &mut Self {
        self.half(scan.site).half(scan.tag).half(scan.guard).pair(scan.pair)
    }

    fn built(&mut self, built: &Built) {
        self.byte(built.number as u8).pair(built.pair);
    }

    fn report(&mut self, report: &Report) {
        let Counts { scans, doubles, kept, gaps, backward } = report.counts;
        self.byte(report.number as u8);
        for count in [scans, doubles, kept, gaps, backward] {
            self.byte(u8::try_from(count).expect("a count is at most 255"));
        }
    }

    fn bytes(&mut self, bytes: &[u8]) {
        self.byte(u8::try_from(bytes.len()).expect("at most 255 bytes"));
        self.0.extend(bytes);
    }

    fn build(&mut self, build: &Build) -> &mut Self {
        self.byte(codes::stage(build.stage)).byte(codes::counting(build));
        for field in [build.year, build.month, build.day, build.hour, build.minute, build.second] {
            self.half(field);
        }
        let (kind, first, second) = codes::fraction(build.fraction);
        self.byte(kind).word(first).word(second);
        let (kind, minutes) = codes::offset(build.offset);
        self.byte(kind).half(minutes as u32)
    }
}

/// What is left of a record's bytes, as they are taken apart.
struct Fields<'a>(&'a [u8]);

impl Fields<'_> {
    fn take<const N: usize>(&mut self) -> Option<[u8; N]> {
        let (taken, rest) = self.0.split_first_chunk::<N>()?;
        self.0 = rest;
        Some(*taken)
    }

    fn byte(&mut self) -> Option<u8> {
        self.take::<1>().map(|[byte]| byte)
    }

    fn signed(&mut self) -> Option<i32> {
        self.byte().map(|byte| byte as i8 as i32)
    }

    fn quarter(&mut self) -> Option<u16> {
        self.take().map(u16::from_be_bytes)
    }

    fn half(&mut self) -> Option<u32> {
        self.take().map(u32::from_be_bytes)
    }

    fn word(&mut self) -> Option<u64> {
        self.take().map(u64::from_be_bytes)
    }

    fn pair(&mut self) -> Option<Pair> {
        Some(Pair { word: self.word()?, attoseconds: self.word()? })
    }

    fn scan(&mut self) -> Option<Scan> {
        Some(Scan { site: self.half()?, tag: self.half()?, guard: self.half()?, pair: self.pair()? })
    }

    fn built(&mut self) -> Option<Built> {
        Some(Built { number: self.byte()? as u32, pair: self.pair()? })
    }

    fn read(&mut self) -> Option<Read> {
        let Built { number, pair } = self.built()?;
        Some(Read { number, pair, taken: self.byte()? as usize })
    }

    fn report(&mut self) -> Option<Report> {
        let [number, counts @ ..] = self.take::<6>()?;
        let [scans, doubles, kept, gaps, backward] = counts.map(u64::from);
        Some(Report { number: number as u32, counts: Counts { scans, doubles, kept, gaps, backward } })
    }

    fn layout(&mut self) -> Option<Layout> {
        Layout::ALL.get(self.byte()? as usize).copied()
    }

    fn words(&mut self) -> Option<[u64; REPORTED_WORDS]> {
        let mut words = [0; REPORTED_WORDS];
        for word in &mut words {
            *word = self.word()?;
        }
        Some(words)
    }

    fn bytes(&mut self) -> Option<Vec<u8>> {
        let length = self.byte()? as usize;
        let (bytes, rest) = self.0.split_at_checked(length)?;
        self.0 = rest;
        Some(bytes.to_vec())
    }

    fn orders(&mut self) -> Option<Orders> {
        Some(Orders {
            number: self.byte()? as u32,
            cmp: self.signed()?,
            eq: self.byte()? == 1,
            ion_cmp: self.signed()?,
            ion_eq: self.byte()? == 1,
        })
    }

    fn distance(&mut self) -> Option<Distance> {
        Some(Distance {
            number: self.byte()? as u32,
            sign: self.signed()?,
            seconds: self.word()?,
            attoseconds: self.word()?,
        })
    }

    fn build(&mut self) -> Option<Build> {
        let stage = codes::stage_of(self.byte()?)?;
        let counting = self.byte()?;
        Some(Build {
            stage,
            month0: counting & 1 != 0,
            day0: counting & 2 != 0,
            hour_and_minute: counting & 4 != 0,
            year: self.half()?,
            month: self.half()?,
            day: self.half()?,
            hour: self.half()?,
            minute: self.half()?,
            second: self.half()?,
            fraction: codes::fraction_of(self.byte()?, self.word()?, self.word()?)?,
            offset: codes::offset_of(self.byte()?, self.half()? as i32)?,
        })
    }
}
