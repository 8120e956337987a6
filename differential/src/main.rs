//! Compares a library with the Rust, records the Rust's answers, and replays them. README.md has the arguments.

use differential::calls::Library;
use differential::cases::Options;
use differential::compare;
use differential::record::{self, replay};
use std::env;
use std::fs;
use std::process::ExitCode;

const USAGE: &str = "\
usage: differential [compare] [--seed N] [--cases N] [--drawn-only] [--against model|ours]
       differential record FILE [--seed N] [--cases N] [--of-each N]
       differential replay FILE [--against model|ours]";

struct Arguments {
    command: String,
    file: Option<String>,
    options: Options,
    of_each: usize,
    against_model: bool,
}

fn main() -> ExitCode {
    let Some(arguments) = arguments(env::args().skip(1)) else {
        eprintln!("{USAGE}");
        return ExitCode::from(2);
    };
    let agreed = match (arguments.command.as_str(), &arguments.file) {
        ("record", Some(file)) => write_records(&arguments, file),
        (_, file) if arguments.against_model => against(&differential::model::Model, &arguments, file.as_deref()),
        (_, file) => against_ours(&arguments, file.as_deref()),
    };
    match agreed {
        Ok(true) => ExitCode::SUCCESS,
        Ok(false) => ExitCode::FAILURE,
        Err(why) => {
            eprintln!("{why}");
            ExitCode::from(2)
        }
    }
}

fn arguments(mut words: impl Iterator<Item = String>) -> Option<Arguments> {
    let mut arguments = Arguments {
        command: "compare".to_string(),
        file: None,
        options: Options { seed: 1, draws: 500_000, drawn_only: false },
        of_each: 10,
        against_model: !cfg!(feature = "ours"),
    };
    while let Some(word) = words.next() {
        match word.as_str() {
            "compare" => arguments.command = word,
            "record" | "replay" => {
                arguments.command = word;
                arguments.file = Some(words.next()?);
            }
            "--seed" => arguments.options.seed = words.next()?.parse().ok()?,
            "--cases" => arguments.options.draws = words.next()?.parse().ok()?,
            "--drawn-only" => arguments.options.drawn_only = true,
            "--of-each" => arguments.of_each = words.next()?.parse().ok()?,
            "--against" => {
                arguments.against_model = match words.next()?.as_str() {
                    "model" => true,
                    "ours" => false,
                    _ => return None,
                }
            }
            _ => return None,
        }
    }
    Some(arguments)
}

#[cfg(feature = "ours")]
fn against_ours(arguments: &Arguments, file: Option<&str>) -> Result<bool, String> {
    against(&differential::ours::Ours, arguments, file)
}

#[cfg(not(feature = "ours"))]
fn against_ours(_: &Arguments, _: Option<&str>) -> Result<bool, String> {
    Err("built without the feature `ours`".to_string())
}

/// A comparison, or a replay where a file is given.
fn against<L: Library>(library: &L, arguments: &Arguments, file: Option<&str>) -> Result<bool, String> {
    let Some(file) = file else {
        return Ok(compare::run(library, arguments.options));
    };
    let bytes = fs::read(file).map_err(|error| format!("{file}: {error}"))?;
    let tallies = replay::replay(library, &bytes)?;
    for tally in &tallies {
        println!("{:>6} of {:>6} agree: {}", tally.agreed, tally.records, tally.source);
    }
    Ok(tallies.iter().all(|tally| tally.agreed == tally.records))
}

fn write_records(arguments: &Arguments, file: &str) -> Result<bool, String> {
    let records = record::records(arguments.options, arguments.of_each);
    let bytes = record::encoded(&records);
    fs::write(file, &bytes).map_err(|error| format!("{file}: {error}"))?;
    let cases = records.iter().filter(|record| record.is_a_case()).count();
    println!("{cases} cases, {} bytes", bytes.len());
    Ok(true)
}
