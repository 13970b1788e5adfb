//! A million user accesses by the library and by ordinary Rust, compared and timed. README.md says how to run it.

mod board;
mod compare;
mod counts;
mod index;
mod measure;
mod misfits;
mod ordinary;
mod ours;
mod patterns;
mod processor;
mod refusals;
mod report;
mod rng;
mod signature;
mod times;
mod versions;
mod words;

use compare::{plants, PLANTS};
use counts::Counts;
use measure::Planted;
use oaledva::Edition;
use patterns::{all_patterns, Case, Pattern, PATTERNS, TWO_PAGES};
use report::Method;
use std::process::ExitCode;
use versions::{versions, Outcome, Version, EDITIONS, SCAN};
use words::{named, number, once_or_twice, read};

const USAGE: &str = "usage: accesses [--accesses N] [--rounds N] [--emulated] [--counts FILE] [--plant WHAT VERSION]
       accesses --brief [--plant WHAT VERSION]
       accesses --count PATTERN VERSION once|twice
       accesses --patterns | --versions | --plants";
const ACCESSES: usize = 1_000_000;
const BRIEF_ACCESSES: usize = 30_000;
const ROUNDS: usize = 15;
/// How many accesses instructions are counted of, and then twice as many.
const COUNTED: usize = 20_000;
/// Enough for the comparison to fail at.
const PLANTED_ACCESSES: usize = 1000;
const MISFIT_ACCESSES: usize = 20;

struct Options {
    accesses: usize,
    rounds: usize,
    emulated: bool,
    brief: bool,
    counts: Counts,
    planted: Planted,
    count: Option<(Case, &'static Version, usize)>,
    names: Option<Vec<&'static str>>,
}

fn options(mut arguments: impl Iterator<Item = String>) -> Result<Options, String> {
    let mut options = Options {
        accesses: ACCESSES,
        rounds: ROUNDS,
        emulated: false,
        brief: false,
        counts: Counts::new(),
        planted: None,
        count: None,
        names: None,
    };
    while let Some(option) = arguments.next() {
        let mut value = || arguments.next().ok_or(format!("{option} needs more words"));
        match option.as_str() {
            "--accesses" => options.accesses = number(&value()?)?,
            "--rounds" => options.rounds = number(&value()?)?,
            "--emulated" => options.emulated = true,
            "--brief" => options.brief = true,
            "--counts" => options.counts = counts::counts(&read(&value()?)?, COUNTED)?,
            "--plant" => {
                let (plant, (edition, version)) = (value()?, version(&value()?)?);
                options.planted = Some((named(plants(edition), &plant)?, version.name));
            }
            "--count" => {
                let (pattern, (edition, version)) = (Pattern::named(&value()?)?, version(&value()?)?);
                let count = once_or_twice(&value()?)? * COUNTED;
                options.count = Some((pattern.case(edition, 2 * COUNTED), version, count));
            }
            "--patterns" => options.names = Some(all_patterns().map(|pattern| pattern.name).collect()),
            "--versions" => options.names = Some(versions::all().map(|(_, version)| version.name).collect()),
            "--plants" => options.names = Some(PLANTS.iter().map(|(name, _)| *name).collect()),
            _ => return Err(format!("unknown option '{option}'")),
        }
    }
    Ok(options)
}

fn version(word: &str) -> Result<(Edition, &'static Version), String> {
    versions::all().find(|(_, version)| version.name == word).ok_or(format!("there is no version '{word}'"))
}

fn main() -> ExitCode {
    let outcome = match options(std::env::args().skip(1)) {
        Err(problem) => {
            eprintln!("accesses: {problem}\n{USAGE}");
            return ExitCode::from(2);
        }
        Ok(Options { names: Some(names), .. }) => {
            names.iter().for_each(|name| println!("{name}"));
            Ok(())
        }
        Ok(Options { count: Some((case, version, count)), .. }) => {
            version.run_first(&case, count);
            Ok(())
        }
        Ok(Options { brief: true, planted, .. }) => brief(planted),
        Ok(options) => full(&options),
    };
    match outcome {
        Ok(()) => ExitCode::SUCCESS,
        Err(problem) => {
            eprintln!("accesses: {problem}");
            ExitCode::FAILURE
        }
    }
}

/// The comparisons alone.
fn brief(planted: Planted) -> Result<(), String> {
    for edition in EDITIONS {
        for pattern in all_patterns() {
            let (case, right) = run(pattern, edition, BRIEF_ACCESSES);
            measure::compare_all(&case, &right, planted)?;
            println!("{}", report::measured(pattern, &case, &right));
        }
        refused(edition, planted)?;
        compare::finds_each(&PATTERNS[0].case(edition, PLANTED_ACCESSES))?;
    }
    println!(
        "accesses: {} versions, {BRIEF_ACCESSES} accesses each time: all answers and buffers equal; each of {} differences, \
         planted one at a time, was found",
        versions::all().count(),
        versions::all().map(|(edition, _)| plants(edition).len()).sum::<usize>()
    );
    Ok(())
}

/// A pattern's accesses in an edition, and what is right.
fn run(pattern: &Pattern, edition: Edition, accesses: usize) -> (Case, Outcome) {
    let case = pattern.case(edition, accesses);
    let right = versions(edition)[SCAN].run(&case);
    (case, right)
}

/// Compares accesses of which many are refused, and such as are all refused by number 1.
fn refused(edition: Edition, planted: Planted) -> Result<(), String> {
    for refusals in refusals::all(edition, BRIEF_ACCESSES) {
        let right = versions(edition)[SCAN].run(&refusals.case);
        refusals.reached(&right)?;
        measure::compare_all(&refusals.case, &right, planted)?;
        println!("{}", refusals.words());
    }
    let misfits = misfits::all(edition, MISFIT_ACCESSES);
    misfits.iter().try_for_each(measure::refused_for_shape)?;
    println!("{}: number 1, {} boards", patterns::name_in(edition, "refusals"), misfits.len());
    Ok(())
}

fn full(options: &Options) -> Result<(), String> {
    let processor = processor::name();
    let emulated = options.emulated || processor::is_emulated(&processor);
    measured(Edition::OnePlace, options, emulated)?;
    println!();
    measured(Edition::SetsOfFour, options, emulated)?;
    two_pages(options, emulated)?;
    println!("\nFor the comparison alone, {BRIEF_ACCESSES} accesses each:");
    EDITIONS.into_iter().try_for_each(|edition| refused(edition, options.planted))?;
    let Options { accesses, rounds, .. } = *options;
    Method { accesses, counted: COUNTED, rounds, processor: &processor, emulated }.print();
    println!("\naccesses: all answers and buffers equal, by {} versions", versions::all().count());
    Ok(())
}

/// Every pattern in an edition.
fn measured(edition: Edition, options: &Options, emulated: bool) -> Result<(), String> {
    let mut all = Vec::new();
    for pattern in &PATTERNS {
        let (case, right) = run(pattern, edition, options.accesses);
        println!("{}", report::measured(pattern, &case, &right));
        if !options.counts.is_empty() {
            println!("{}", report::counted_hits(&run(pattern, edition, 2 * COUNTED).1));
        }
        if emulated {
            measure::compare_all(&case, &right, options.planted)?;
        } else {
            all.push(measure::rounds(&case, &right, options.rounds, options.planted)?);
        }
        report::table(pattern, edition, if emulated { None } else { all.last() }, options.accesses, &options.counts);
    }
    if !emulated {
        report::worst(&all);
    }
    Ok(())
}

/// The pattern that sets of four are for, in both editions.
fn two_pages(options: &Options, emulated: bool) -> Result<(), String> {
    let both = EDITIONS.map(|edition| run(&TWO_PAGES, edition, options.accesses));
    both.iter().try_for_each(|(case, right)| measure::compare_all(case, right, options.planted))?;
    let rounds = || measure::rounds_of_both(&both, options.rounds, options.planted);
    let times = (!emulated).then(rounds).transpose()?;
    report::two_pages(&both, times.as_ref(), &options.counts);
    Ok(())
}
