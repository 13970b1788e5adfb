//! Logs of a million user accesses, read and replayed, compared and timed. README.md says how to run it.

// What it shares with bench/accesses: the board and the accesses, and how options, times and counts are read and told.
#[allow(dead_code)]
#[path = "../accesses/board.rs"]
mod board;
#[path = "../accesses/counts.rs"]
mod counts;
#[allow(dead_code)]
#[path = "../accesses/ordinary.rs"]
mod ordinary;
#[allow(dead_code)]
#[path = "../accesses/ours.rs"]
mod ours;
#[allow(dead_code)]
#[path = "../accesses/patterns.rs"]
mod patterns;
#[path = "../accesses/processor.rs"]
mod processor;
#[allow(dead_code)]
#[path = "../accesses/rng.rs"]
mod rng;
#[path = "../accesses/times.rs"]
mod times;
#[path = "../accesses/words.rs"]
mod words;

mod compare;
mod log;
mod report;
mod versions;

use counts::Counts;
use log::Log;
use patterns::{Pattern, PATTERNS};
use report::Method;
use std::process::ExitCode;
use versions::{Version, VERSIONS};
use words::{named, number, once_or_twice, read};

const USAGE: &str = "usage: logs [--accesses N] [--rounds N] [--emulated] [--counts FILE]
       logs --brief
       logs --write FILE PATTERN [--accesses N]
       logs --count PATTERN VERSION once|twice
       logs --patterns | --versions";
const ACCESSES: usize = 1_000_000;
const BRIEF_ACCESSES: usize = 30_000;
const ROUNDS: usize = 15;
/// How many accesses instructions are counted of, and then twice as many.
const COUNTED: usize = 20_000;

struct Options {
    accesses: usize,
    rounds: usize,
    emulated: bool,
    brief: bool,
    counts: Counts,
    write: Option<(String, &'static Pattern)>,
    count: Option<(&'static Pattern, &'static Version, usize)>,
    names: Option<Vec<&'static str>>,
}

fn options(mut arguments: impl Iterator<Item = String>) -> Result<Options, String> {
    let mut options = Options {
        accesses: ACCESSES,
        rounds: ROUNDS,
        emulated: false,
        brief: false,
        counts: Counts::new(),
        write: None,
        count: None,
        names: None,
    };
    while let Some(option) = arguments.next() {
        let mut value = || arguments.next().ok_or(format!("{option} needs more words"));
        match option.as_str() {
            "--accesses" => options.accesses = number(&value()?)?,
            "--rounds" => options.rounds = number(&value()?)?,
            "--emulated" => options.emulated = true,
            "--brief" => options.brief = true,
            "--counts" => options.counts = counts::counts(&read(&value()?)?, COUNTED)?,
            "--write" => options.write = Some((value()?, Pattern::named(&value()?)?)),
            "--count" => {
                let (pattern, version) = (Pattern::named(&value()?)?, version(&value()?)?);
                options.count = Some((pattern, version, once_or_twice(&value()?)? * COUNTED));
            }
            "--patterns" => options.names = Some(PATTERNS.iter().map(|pattern| pattern.name).collect()),
            "--versions" => options.names = Some(VERSIONS.iter().map(|version| version.name).collect()),
            _ => return Err(format!("unknown option '{option}'")),
        }
    }
    Ok(options)
}

fn version(word: &str) -> Result<&'static Version, String> {
    let all: Vec<_> = VERSIONS.iter().map(|version| (version.name, version)).collect();
    named(&all, word)
}

fn main() -> ExitCode {
    let outcome = match options(std::env::args().skip(1)) {
        Err(problem) => {
            eprintln!("logs: {problem}\n{USAGE}");
            return ExitCode::from(2);
        }
        Ok(Options { names: Some(names), .. }) => {
            names.iter().for_each(|name| println!("{name}"));
            Ok(())
        }
        Ok(Options { count: Some((pattern, version, count)), .. }) => {
            version.run(&Log::of(pattern, 2 * COUNTED), count);
            Ok(())
        }
        Ok(Options { write: Some((file, pattern)), accesses, .. }) => {
            std::fs::write(&file, Log::of(pattern, accesses).bytes).map_err(|error| format!("{file}: {error}"))
        }
        Ok(Options { brief: true, .. }) => brief(),
        Ok(options) => full(&options),
    };
    match outcome {
        Ok(()) => ExitCode::SUCCESS,
        Err(problem) => {
            eprintln!("logs: {problem}");
            ExitCode::FAILURE
        }
    }
}

/// The comparisons alone.
fn brief() -> Result<(), String> {
    for pattern in &PATTERNS {
        let log = Log::of(pattern, BRIEF_ACCESSES);
        let right = compare::compare(&log)?;
        println!("{}", report::measured(&log, &right));
    }
    compare::finds_a_changed_byte(&Log::of(&PATTERNS[0], 100))?;
    println!("logs: {BRIEF_ACCESSES} accesses each time: the calls that were written are read, and replayed they answer the same");
    Ok(())
}

fn full(options: &Options) -> Result<(), String> {
    let processor = processor::name();
    let emulated = options.emulated || processor::is_emulated(&processor);
    let mut all = Vec::new();
    for pattern in &PATTERNS {
        let log = Log::of(pattern, options.accesses);
        let right = compare::compare(&log)?;
        println!("{}", report::measured(&log, &right));
        let times = (!emulated).then(|| {
            times::rounds(VERSIONS.len(), options.rounds, |version| {
                let outcome = VERSIONS[version].run(&log, options.accesses);
                compare::after(&VERSIONS[version], &log, &right, &outcome)?;
                Ok(outcome.took)
            })
        });
        let times = times.transpose()?;
        report::table(pattern, times.as_ref(), options.accesses, &options.counts);
        all.extend(times);
    }
    if !emulated {
        report::claim(&all);
    }
    let Options { accesses, rounds, .. } = *options;
    Method { accesses, counted: COUNTED, rounds, processor: &processor, emulated }.print();
    println!("\nlogs: the calls that were written are read, and replayed they answer the same");
    Ok(())
}
