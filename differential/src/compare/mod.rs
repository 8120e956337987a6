//! A run: cases of every kind, each answered by the Rust and by a library, and the answers held together.

mod examples;
mod judge;
mod padded;
mod reports;
mod scans;

use crate::calls::Library;
use crate::cases::{self, Options};
use crate::differences::{self, Listed};
use crate::oracle;
use std::collections::BTreeSet;
use std::time::{Duration, Instant};

/// The calls whose answers are counted by their number.
#[derive(Clone, Copy)]
enum Counted {
    Build,
    Check,
    Write,
    Read,
    ReadText,
    ReadScan,
    WriteScan,
    WriteStart,
    File,
    Report,
    ReadPadded,
}

const COUNTED: [&str; 11] = [
    "build",
    "check",
    "writers",
    "read",
    "read text",
    "read scan",
    "write scan",
    "write start",
    "check file",
    "report file",
    "read padded",
];

/// Numbers go from 0 to this.
const LAST_NUMBER: usize = 22;

/// Failures of one run that are printed whole.
const SHOWN: u64 = 20;

pub struct Run<'a, L: Library> {
    library: &'a L,
    section: &'static str,
    cases: u64,
    answers: u64,
    all_cases: u64,
    all_answers: u64,
    failures: u64,
    listed: [u64; differences::ALL.len()],
    numbers: [[u64; LAST_NUMBER + 1]; COUNTED.len()],
    not_offered: BTreeSet<&'static str>,
    started: Instant,
    told: Instant,
}

/// Compares everything, prints what was done, and says whether all answers agree or are listed.
pub fn run<L: Library>(library: &L, options: Options) -> bool {
    oracle::silence_panics();
    let started = Instant::now();
    let mut run = Run {
        library,
        section: "",
        cases: 0,
        answers: 0,
        all_cases: 0,
        all_answers: 0,
        failures: 0,
        listed: [0; differences::ALL.len()],
        numbers: [[0; LAST_NUMBER + 1]; COUNTED.len()],
        not_offered: BTreeSet::new(),
        started,
        told: started,
    };
    let build = if cfg!(debug_assertions) { "debug" } else { "release" };
    println!("the Rust ({build}) and {}; seed {}", library.name(), options.seed);
    run.in_section("examples of the documents", examples::all);
    for (name, cases) in cases::sections(options) {
        run.in_section(name, cases);
    }
    run.summary(started.elapsed())
}

impl<L: Library> Run<'_, L> {
    fn in_section(&mut self, name: &'static str, cases: impl FnOnce(&mut Self)) {
        (self.section, self.cases, self.answers) = (name, 0, 0);
        self.started = Instant::now();
        self.told = self.started;
        cases(self);
        let seconds = self.started.elapsed().as_secs_f64();
        println!("{name:<36} {:>10} cases {:>11} answers {seconds:>7.1} s", self.cases, self.answers);
        self.all_cases += self.cases;
        self.all_answers += self.answers;
    }

    /// Counts a case, and tells from time to time how far the section is.
    fn case(&mut self) {
        self.cases += 1;
        if self.cases % 4096 == 0 && self.told.elapsed() > Duration::from_secs(5) {
            self.told = Instant::now();
            eprintln!("  {}: {} cases", self.section, self.cases);
        }
    }

    fn count(&mut self, call: Counted, number: u32) {
        self.numbers[call as usize][LAST_NUMBER.min(number as usize)] += 1;
    }

    fn meets(&mut self, difference: Listed) {
        let place = differences::ALL.iter().position(|(listed, _)| *listed == difference);
        self.listed[place.expect("the list is whole")] += 1;
    }

    fn fails(&mut self, call: &str, case: &str, expected: &str, answer: &str) {
        self.failures += 1;
        if self.failures <= SHOWN {
            println!("DIFFERENT {call} of {case}\n  owed: {expected}\n  {}: {answer}", self.library.name());
        }
    }

    fn summary(&self, elapsed: Duration) -> bool {
        println!("how often each number was answered:");
        for (call, numbers) in COUNTED.iter().zip(self.numbers) {
            let answered = numbers.iter().enumerate().filter(|(_, times)| **times > 0);
            let answered: Vec<String> = answered.map(|(number, times)| format!("{number}: {times}")).collect();
            println!("  {call}: {}", answered.join(", "));
        }
        for ((_, text), count) in differences::ALL.iter().zip(self.listed) {
            println!("listed difference, {count} times: {text}");
        }
        for call in &self.not_offered {
            println!("not compared, since {} does not offer it: {call}", self.library.name());
        }
        println!(
            "{} cases, {} answers, {} differences on no list, {:.0} s",
            self.all_cases,
            self.all_answers,
            self.failures,
            elapsed.as_secs_f64()
        );
        self.failures == 0
    }
}
