//! The marks that CR 8 has for each call: "0 refused or not an access, 1 hit, 2 refilled without a write-back, 3 refilled with
//! one in that call, 4 uncached". A mark that it doesn't have for a call is a fault even where the library and the model agree;
//! each that it has must be reached.

use crate::limits::MARKS;
use crate::values::Access;
use model::Call;
use std::fmt;

/// What is marked, with the marks that it may have where it is done: loads and stores, in the order of `Whose`, then the calls
/// that are no accesses. Page table addresses and those from 2^44 up are always refused.
pub const MARKED: [(&str, &[u32]); 23] = [
    ("user load", &[1, 2, 3]),
    ("user store", &[1, 2, 3]),
    ("supervisor load, ordinary", &[1, 2, 3]),
    ("supervisor store, ordinary", &[1, 2, 3]),
    ("prefix 1 load", &[1, 2, 3]),
    ("prefix 1 store", &[1, 2, 3]),
    ("prefix 0 load", &[4]),
    ("prefix 0 store", &[4]),
    ("page table load", &[]),
    ("page table store", &[]),
    ("load from 2^44 up", &[]),
    ("store from 2^44 up", &[]),
    ("attach", &[0]),
    ("detach", &[0]),
    ("map", &[0]),
    ("unmap", &[0]),
    ("protect", &[0]),
    ("move", &[0]),
    (FLUSH_ALL, &[0]),
    ("tag", &[0]),
    ("load-and-map", &[0]),
    ("drop tag", &[0]),
    ("user accesses", &[0]),
];

/// The row of a list, whose accesses have marks of their own.
const LISTS: usize = 22;

const FLUSH_ALL: &str = "flush all";

/// The row of a call.
fn row_of(call: &Call) -> usize {
    if let Some(Access { whose, store, .. }) = Access::of(call) {
        return 2 * whose as usize + usize::from(store);
    }
    match call {
        Call::UserAccess { .. } | Call::SupervisorAccess { .. } => unreachable!("an access"),
        Call::Attach { .. } => 12,
        Call::Detach { .. } => 13,
        Call::Map { .. } => 14,
        Call::Unmap { .. } => 15,
        Call::Protect { .. } => 16,
        Call::Move { .. } => 17,
        Call::FlushAll => 18,
        Call::Tag { .. } => 19,
        Call::LoadAndMap { .. } => 20,
        Call::DropTag => 21,
    }
}

/// How a call comes out: refused, and then its mark is 0, or done with a mark.
#[derive(Clone, Copy, Debug, PartialEq, Eq)]
pub enum Outcome {
    Refused,
    Done(u32),
}

pub const OUTCOMES: [Outcome; 1 + MARKS] =
    [Outcome::Refused, Outcome::Done(0), Outcome::Done(1), Outcome::Done(2), Outcome::Done(3), Outcome::Done(4)];

impl Outcome {
    /// Whether what stands in this row of `MARKED` may come out so. On a fresh board flush all is never refused: 1 is the only
    /// number that it has.
    pub fn can_be(self, row: usize, fresh: bool) -> bool {
        let (call, marks) = MARKED[row];
        match self {
            Outcome::Refused => !fresh || call != FLUSH_ALL,
            Outcome::Done(mark) => marks.contains(&mark),
        }
    }
}

impl fmt::Display for Outcome {
    fn fmt(&self, f: &mut fmt::Formatter) -> fmt::Result {
        match self {
            Outcome::Refused => write!(f, "refused, mark 0"),
            Outcome::Done(mark) => write!(f, "done, mark {mark}"),
        }
    }
}

/// A call with its outcome: indices in `MARKED` and `OUTCOMES`.
#[derive(Clone, Copy)]
pub struct Marked {
    pub row: usize,
    pub outcome: usize,
}

/// What a call that gave this number and mark was; none if CR 8 has no such mark for it.
pub fn marked(call: &Call, number: u32, mark: u32) -> Option<Marked> {
    marked_in(row_of(call), number, mark)
}

/// The same of a list.
pub fn list_marked(number: u32, mark: u32) -> Option<Marked> {
    marked_in(LISTS, number, mark)
}

fn marked_in(row: usize, number: u32, mark: u32) -> Option<Marked> {
    let outcome = match (number, mark) {
        (0, _) => Outcome::Done(mark),
        (_, 0) => Outcome::Refused,
        _ => return None,
    };
    let index = OUTCOMES.iter().position(|&one| one == outcome)?;
    outcome.can_be(row, false).then_some(Marked { row, outcome: index })
}
