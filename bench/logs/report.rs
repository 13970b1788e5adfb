//! What the benchmark prints.

use crate::compare::Right;
use crate::counts::{told, Counts};
use crate::log::Log;
use crate::patterns::{Pattern, ATTACHED_BY_EACH, PATTERNS, SEGMENTS, SHAPE};
use crate::times::Times;
use crate::versions::{READING, REPLAY, VERSIONS};
use oaledva::{Mark, Shape};

/// Reading is to take less than this part of replaying.
const CLAIM: f64 = 1.0 / 3.0;

/// What a log is, and how its accesses went.
pub fn measured(log: &Log, right: &Right) -> String {
    let accesses = &right.answers[log.before..];
    let marked = |of| accesses.iter().filter(|&&(_, mark)| mark == of).count() as f64 / accesses.len() as f64 * 100.0;
    let bytes = (log.bytes.len() - log.first(0).0.len()) as f64 / accesses.len() as f64;
    format!(
        "{:8}  {:5.2}% hits, {:5.2}% write-backs; {} accesses, {bytes:.1} bytes each, after {} other calls",
        log.name,
        marked(Mark::Hit),
        marked(Mark::WroteBack),
        accesses.len(),
        log.before
    )
}

/// A pattern's table: a line for each version. Where the times say nothing, the counts alone.
pub fn table(pattern: &Pattern, times: Option<&Times>, accesses: usize, counts: &Counts) {
    if times.is_none() && counts.is_empty() {
        return;
    }
    let heads = times.map_or(String::new(), |_| format!("{:22}  {:>6}", "to replaying", "ns"));
    println!("  {:22}  {heads}  {:>12}", "", "instructions");
    for (at, version) in VERSIONS.iter().enumerate() {
        let took = times.map_or(String::new(), |times| {
            format!("{:22}  {:6.1}", times.ratio(at, REPLAY), times.nanoseconds(at, accesses))
        });
        println!("  {:22}  {took}  {:>12}", version.words, told(counts, pattern.name, version.name));
    }
}

/// The largest ratio of reading to replaying, and whether it is what is asked.
pub fn claim(all: &[Times]) {
    println!("\nReading at its slowest: the largest of the {} patterns' medians, to replaying.", PATTERNS.len());
    for (at, version) in VERSIONS[..READING].iter().enumerate() {
        let medians = PATTERNS.iter().zip(all).map(|(pattern, times)| (times.ratio(at, REPLAY).median, pattern.name));
        let (median, name) = medians.max_by(|one, other| one.0.total_cmp(&other.0)).expect("there are patterns");
        let kept = if median < CLAIM { "less than a third" } else { "NOT less than a third" };
        println!("  {:22}  {median:.2} ({name}): {kept}", version.words);
    }
}

pub struct Method<'a> {
    pub accesses: usize,
    pub counted: usize,
    pub rounds: usize,
    pub processor: &'a str,
    pub emulated: bool,
}

impl Method<'_> {
    pub fn print(&self) {
        let &Method { accesses, counted, rounds, processor, emulated } = self;
        let Shape { frames, uncached, processes, lines } = SHAPE;
        let (mapped, segments, twice) = (frames - uncached, SEGMENTS.len(), 2 * counted);
        let (rustc, plays) = (env!("BENCH_RUSTC"), if emulated { "emulated" } else { "not emulated" });
        println!(
            "
Method
- Board: {frames} frames of 4096 bytes, of which {uncached} uncached; {processes} processes; {lines} lines; fresh, its memory zeros.
- Log: the board's numbers; calls that map pages of {segments} segments to the other {mapped} frames, in no order, and
  attach {ATTACHED_BY_EACH} segments for each process, one of them read-only; then {accesses} user accesses, the same as
  bench/accesses has. It is written by the library's writer and stands in memory, and so no file is read.
- read, entries: the library's reader takes it in pieces of 64 KiB, into a list of 256 entries that is used again.
  read, calls: the iterator of calls over it. replayed: the same, and each call made on the board, by a call of the
  library for each. The same calls, no log: made out of a list in memory. written: the writer, into memory.
- The library is proved, and compiled by its kit's clang at -O3 for any x86-64; of its calls nothing is inlined. What is
  around them is compiled by {rustc}, opt-level 3, for any x86-64.
- Before the times, all entries, calls, answers and the board left are compared with those of the calls that were
  written; after every run how many there were, and the board or the log that it left.
- Instructions: valgrind's callgrind counts the whole program with {twice} accesses and with {counted}; the difference,
  for one access, with the loop around it. They don't move with the machine's load; - is not counted."
        );
        if emulated {
            println!("- No times are told: they would be the emulator's.");
        } else {
            println!(
                "- Times: a round to warm up, then {rounds} rounds, in each of which every version runs once; each begins with
  another version. The loop alone is timed. A ratio is of two times of the same round; told are the median and, in
  brackets, the quartiles. The nanoseconds for one access are of this one run, and move with the machine's load."
            );
        }
        println!("- Processor: {processor}, {plays}.");
    }
}
