//! A log of a pattern's accesses, as a recorder would have written it: the board's numbers, then the calls that map its pages and
//! attach its segments, then the accesses.

use crate::board::Buffers;
use crate::ordinary::SLOTS;
use crate::patterns::Pattern;
use oaledva::log::{Call, Entry, Writer};
use oaledva::{Edition, Shape};

pub struct Log {
    pub name: &'static str,
    pub shape: Shape,
    pub calls: Vec<Call>,
    /// How many calls come before the first access.
    pub before: usize,
    pub bytes: Vec<u8>,
    /// Where the bytes of each call end.
    ends: Vec<usize>,
}

impl Log {
    pub fn of(pattern: &Pattern, accesses: usize) -> Log {
        let case = pattern.case(Edition::OnePlace, accesses);
        let mut calls = supervisor_calls(&case.start);
        let before = calls.len();
        calls.extend(case.accesses.into_iter().map(|access| Entry::from(access).call().expect("an access is a call")));
        let shape = case.start.shape;
        let (bytes, ends) = written(shape, &calls);
        Log { name: pattern.name, shape, calls, before, bytes, ends }
    }

    /// The log with the first so many accesses, and its calls.
    pub fn first(&self, accesses: usize) -> (&[u8], &[Call]) {
        let calls = self.before + accesses;
        (&self.bytes[..self.ends[calls - 1]], &self.calls[..calls])
    }
}

/// What makes a fresh board into this one, as far as pages and segments go.
fn supervisor_calls(board: &Buffers) -> Vec<Call> {
    let bit = |word: u64, at: u32| word >> at & 1 != 0;
    let words = board.words.iter().enumerate().filter(|(_, &word)| word != 0);
    let maps = words.map(|(frame, &word)| Call::Map { page: word / 4, frame, write: bit(word, 1) });
    let slots = board.slots.iter().map(|&word| u64::from(word)).enumerate().filter(|&(_, word)| word != 0);
    let attaches = slots.map(|(at, word)| Call::Attach {
        process: at / SLOTS,
        slot: at % SLOTS,
        segment: word / 2,
        write: bit(word, 0),
    });
    maps.chain(attaches).collect()
}

fn written(shape: Shape, calls: &[Call]) -> (Vec<u8>, Vec<usize>) {
    let mut log = Writer::new(Vec::new(), shape).expect("a vector takes all");
    let mut ends = Vec::with_capacity(calls.len());
    for call in calls {
        log.write(call).expect("a vector takes all, and a log every call");
        ends.push(log.get_ref().len());
    }
    (log.into_inner(), ends)
}
