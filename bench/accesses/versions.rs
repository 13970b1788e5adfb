//! The versions that are compared, and a run of one of them.

use crate::board::Buffers;
use crate::index::{self, Index};
use crate::ordinary::{self, Scan, ONE_PLACE, SETS_OF_FOUR};
use crate::patterns::Case;
use crate::{ours, signature};
use oaledva::ffi::{Access, Answer};
use oaledva::Edition;
use std::hint::black_box;
use std::time::{Duration, Instant};

pub struct Version {
    /// As the options have it.
    pub name: &'static str,
    pub words: &'static str,
    /// Whether it keeps records as they are. Else it takes only boards whose valid records hold a line.
    pub wild: bool,
    run: fn(&Case, usize) -> Outcome,
}

/// What a run took and left.
pub struct Outcome {
    pub took: Duration,
    /// As the library packs them.
    pub answers: Vec<u64>,
    pub board: Buffers,
}

impl Version {
    /// All of a case's accesses.
    pub fn run(&self, case: &Case) -> Outcome {
        self.run_first(case, case.accesses.len())
    }

    /// The first so many of them. What is made before and after doesn't depend on how many.
    pub fn run_first(&self, case: &Case, count: usize) -> Outcome {
        (self.run)(case, count)
    }
}

/// The versions that both editions have, and then others; with how many lines in a set, and what their names begin with.
macro_rules! versions {
    ($ways:expr, $prefix:literal $(, $other:expr)*) => {
        [
            version(concat!($prefix, "single"), "ours, a call for each", |case, count| {
                library(case, count, ours::singles::<{ $ways }>)
            }),
            version(concat!($prefix, "list"), "ours, one list", |case, count| {
                library(case, count, ours::list::<{ $ways }>)
            }),
            version(concat!($prefix, "lists-of-64"), "ours, lists of 64", |case, count| {
                library(case, count, ours::pieces::<{ $ways }>)
            }),
            version(concat!($prefix, "scan"), "scan, called", |case, count| {
                scan(case, count, ordinary::called::<{ $ways }>)
            }),
            version(concat!($prefix, "scan-inlined"), "scan, inlined", |case, count| {
                scan(case, count, ordinary::inlined::<{ $ways }>)
            }),
            version(concat!($prefix, "scan-signature"), "scan, our signature", |case, count| {
                library(case, count, signature::called::<{ $ways }>)
            }),
            $($other),*
        ]
    };
}

const OF_ONE_PLACE: [Version; BOTH_HAVE + 2] = versions!(
    ONE_PLACE,
    "",
    Version { wild: false, ..version("index", "index, called", |case, count| index(case, count, index::called)) },
    Version {
        wild: false,
        ..version("index-inlined", "index, inlined", |case, count| index(case, count, index::inlined))
    }
);
const OF_SETS_OF_FOUR: [Version; BOTH_HAVE] = versions!(SETS_OF_FOUR, "sets-");

pub const EDITIONS: [Edition; 2] = [Edition::OnePlace, Edition::SetsOfFour];

pub fn versions(edition: Edition) -> &'static [Version] {
    match edition {
        Edition::OnePlace => &OF_ONE_PLACE,
        Edition::SetsOfFour => &OF_SETS_OF_FOUR,
    }
}

/// All of them, each with its edition.
pub fn all() -> impl Iterator<Item = (Edition, &'static Version)> {
    EDITIONS.into_iter().flat_map(|edition| versions(edition).iter().map(move |version| (edition, version)))
}

/// How many versions both editions have: the first, in the same order.
pub const BOTH_HAVE: usize = 6;
/// How many are ours: the first.
pub const OURS: usize = 3;
/// With this one's answers and buffers the others' are compared.
pub const SCAN: usize = 3;
/// To these the times of all are told as ratios.
pub const SCANS: [usize; 3] = [SCAN, 4, 5];
/// These ask shape and lengths at each access.
pub const ASKING: [usize; 2] = [0, 5];

const fn version(name: &'static str, words: &'static str, run: fn(&Case, usize) -> Outcome) -> Version {
    Version { name, words, wild: true, run }
}

/// By the library's signature.
fn library(case: &Case, count: usize, run: Loop<Buffers, Answer>) -> Outcome {
    let (took, answers, board) = timed(case.start.clone(), case, count, Answer::NONE, run);
    Outcome { took, answers: answers.into_iter().map(ours::packed).collect(), board }
}

fn scan<const WAYS: usize>(case: &Case, count: usize, run: Loop<Scan<WAYS>, ordinary::Answer>) -> Outcome {
    let (took, answers, board) = timed(Scan::new(&case.start), case, count, ordinary::Answer::NONE, run);
    Outcome { took, answers: packed(answers), board: board.into_buffers() }
}

fn index(case: &Case, count: usize, run: Loop<Index, ordinary::Answer>) -> Outcome {
    let (took, answers, board) = timed(Index::new(&case.start), case, count, ordinary::Answer::NONE, run);
    Outcome { took, answers: packed(answers), board: board.into_buffers() }
}

fn packed(answers: Vec<ordinary::Answer>) -> Vec<u64> {
    answers.into_iter().map(ordinary::Answer::packed).collect()
}

/// A version's loop over accesses, with a board of its own kind and answers of its own kind.
type Loop<Board, A> = fn(&mut Board, &[Access], &mut [A]);

/// The clock runs for the loop alone. The answers were written once before, so that their memory is there.
fn timed<Board, A: Copy>(
    mut board: Board,
    case: &Case,
    count: usize,
    none: A,
    run: Loop<Board, A>,
) -> (Duration, Vec<A>, Board) {
    let mut answers = black_box(vec![none; case.accesses.len()]);
    let (accesses, room) = (black_box(&case.accesses[..count]), &mut answers[..count]);
    let began = Instant::now();
    run(black_box(&mut board), accesses, room);
    let took = began.elapsed();
    (took, answers, board)
}
