//! What the benchmark prints.

use crate::counts::{told, Counts};
use crate::patterns::{Case, Kinds, Pattern, ATTACHED_BY_EACH, PATTERNS, SEGMENTS, SHAPE, TWO_PAGES, WARMING};
use crate::times::Times;
use crate::versions::{versions, Outcome, BOTH_HAVE, OURS, SCANS};
use oaledva::ffi::Kind;
use oaledva::{Edition, Shape, SET_LINES};

/// The share of answers with a mark, in percent.
fn marked(answers: &[u64], mark: u64) -> f64 {
    percent(answers.iter().filter(|&&answer| answer >> 32 == mark).count(), answers.len())
}

fn percent(part: usize, whole: usize) -> f64 {
    100.0 * part as f64 / whole as f64
}

/// What a pattern's accesses are, and how they went.
pub fn measured(pattern: &Pattern, case: &Case, outcome: &Outcome) -> String {
    let done = outcome.answers.iter().filter(|&&answer| answer >> 56 == 0).count();
    let stores = case.accesses.iter().filter(|access| access.kind != Kind::LOAD).count();
    let [hits, wrote_back] = [1, 3].map(|mark| marked(&outcome.answers, mark));
    let kinds = match pattern.kinds {
        Kinds::Mixed => format!("1, 2 and 4 bytes, {:.1}% stores", percent(stores, case.accesses.len())),
        Kinds::Loads => "4-byte loads".into(),
        Kinds::Copying => "4-byte loads from one page, stores to the other".into(),
    };
    format!(
        "{:8}  {hits:5.2}% hits, {wrote_back:5.2}% write-backs; {kinds}; {done} of {} done",
        case.name,
        case.accesses.len()
    )
}

/// The hits in the part that is counted.
pub fn counted_hits(outcome: &Outcome) -> String {
    let counted = &outcome.answers[outcome.answers.len() / 2..];
    format!("          instructions: of {} accesses with {:5.2}% hits", counted.len(), marked(counted, 1))
}

/// A pattern's table: a line for each version of an edition. Where the times say nothing, the counts alone.
pub fn table(pattern: &Pattern, edition: Edition, times: Option<&Times>, accesses: usize, counts: &Counts) {
    let count = |version: &str| told(counts, pattern.name, version);
    if let Some(times) = times {
        println!("{} {:>6} {:>13}", row("", heads()), "ns", "instructions");
        for (at, version) in versions(edition).iter().enumerate() {
            let ratios = SCANS.map(|scan| times.ratio(at, scan).to_string());
            let (each, count) = (times.nanoseconds(at, accesses), count(version.name));
            println!("{} {each:6.1} {count:>13}", row(version.words, ratios));
        }
    } else if !counts.is_empty() {
        println!("  {:22} {:>12}", "", "instructions");
        versions(edition).iter().for_each(|version| println!("  {:22} {:>12}", version.words, count(version.name)));
    }
}

/// How the two busy pages went in both editions, then a line for each version that both have. The times are those of
/// `rounds_of_both`.
pub fn two_pages(both: &[(Case, Outcome); 2], times: Option<&Times>, counts: &Counts) {
    println!("\nTwo busy pages whose lines have the same places: one is copied into the other, word by word.");
    for ((_, outcome), edition) in both.iter().zip(["one place   ", "sets of four"]) {
        let [hits, refills, wrote_back] = [1, 2, 3].map(|mark| marked(&outcome.answers, mark));
        let refills = refills + wrote_back;
        println!("  {edition}  {hits:6.2}% hits, {refills:6.2}% refills, {wrote_back:5.2}% write-backs");
    }
    if times.is_none() && counts.is_empty() {
        return;
    }
    let head = times.map_or(String::new(), |_| format!("{:26}", "sets of four to one place"));
    println!("  {:21}  {head}  instructions: {:>9}  {:>12}", "", "one place", "sets of four");
    for (at, (one_place, sets)) in versions(Edition::OnePlace).iter().zip(versions(Edition::SetsOfFour)).enumerate() {
        let ratio = times.map_or(String::new(), |times| format!("{:26}", times.ratio(BOTH_HAVE + at, at)));
        let [in_one, in_sets] = [one_place, sets].map(|version| told(counts, TWO_PAGES.name, version.name));
        println!("  {:21}  {ratio}  {in_one:>23}  {in_sets:>12}", one_place.words);
    }
}

fn row(first: &str, [called, inlined, signature]: [String; SCANS.len()]) -> String {
    format!("  {first:21}  {called:22}  {inlined:22}  {signature:22}")
}

fn heads() -> [String; SCANS.len()] {
    SCANS.map(|scan| format!("to {}", versions(Edition::OnePlace)[scan].words))
}

/// The worst of each of ours.
pub fn worst(all: &[Times]) {
    println!("\nOurs at its slowest: the largest of the {} patterns' medians.", PATTERNS.len());
    println!("{}", row("", heads()).trim_end());
    for (at, version) in versions(Edition::OnePlace)[..OURS].iter().enumerate() {
        println!("{}", row(version.words, SCANS.map(|scan| worst_of(all, at, scan))).trim_end());
    }
}

fn worst_of(all: &[Times], version: usize, to: usize) -> String {
    let medians = PATTERNS.iter().zip(all).map(|(pattern, times)| (times.ratio(version, to).median, pattern.name));
    let (median, name) = medians.max_by(|one, other| one.0.total_cmp(&other.0)).expect("there are patterns");
    format!("{median:.2} ({name})")
}

pub struct Method<'a> {
    pub accesses: usize,
    pub counted: usize,
    pub rounds: usize,
    pub processor: &'a str,
    pub emulated: bool,
}

impl Method<'_> {
    pub fn print(&self) {
        let &Method { accesses, counted, rounds, processor, emulated } = self;
        let Shape { frames, uncached, processes, lines } = SHAPE;
        let (mapped, segments, sets, twice) = (frames - uncached, SEGMENTS.len(), lines / SET_LINES, 2 * counted);
        let (rustc, plays) = (env!("BENCH_RUSTC"), if emulated { "emulated" } else { "not emulated" });
        println!(
            "
Method
- Board: {frames} frames of 4096 bytes, of which {uncached} uncached; {processes} processes; {lines} lines. The other
  {mapped} frames have pages of {segments} segments, in no order. Each process holds {ATTACHED_BY_EACH} segments, one of
  them read-only. {WARMING} accesses came before, so that the cache is warm.
- Sets of four: the same, with {sets} sets of four lines in place of {lines} places. More accesses go to any line at all,
  so that as many hit. It has the same versions but for the index.
- Two busy pages: loads from one and stores to the other, 4 bytes each, word by word, as a copy makes them, and again. A
  line of one page and the same line of the other have one place, and one set.
- Every version reads the same {accesses} accesses, five words each, and writes an answer for each, from a fresh copy
  of the same board; all in one process.
- ours: the proved library, compiled by its kit's clang at -O3 for any x86-64. A call is a call, of which nothing is
  inlined, and asks shape and lengths. A call for each access passes 21 words, with sets of four 23.
- scan: ordinary safe Rust that goes through the frame words as the board does, one source for both editions. It asks
  the shape once, when it is made. Called: a function that is lent an access. Inlined: its body in the loop. Our
  signature: the same body behind the library's words, asking shape and lengths at each call. In all three the search
  among the frame words is a function by itself, because inlined it was slower, and so is the choice of a line to fill.
- index: ordinary safe Rust, written freely: an index from pages to frames (a hash map), a line's record and bytes in
  one place.
- The ordinary versions are compiled by {rustc}, opt-level 3, one codegen unit, for any x86-64.
- After every run all answers and all buffers are compared with those of the called scan.
- Instructions: valgrind's callgrind counts the whole program with {twice} accesses and with {counted}; the difference,
  for one access, with the loop that brings it. They don't move with the machine's load; - is not counted."
        );
        if emulated {
            println!("- No times are told: they would be the emulator's.");
        } else {
            println!(
                "- Times: a round to warm up, then {rounds} rounds, in each of which every version runs once; each begins with
  another version. The loop alone is timed. A ratio is of two times of the same round; told are the median and, in
  brackets, the quartiles. The nanoseconds for one access are of this one run, and move with the machine's load."
            );
        }
        println!("- Processor: {processor}, {plays}.");
    }
}
