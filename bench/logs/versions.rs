//! What is timed, and a run of it.

use crate::log::Log;
use oaledva::log::{Call, Calls, Entry, Reader, Writer};
use oaledva::{Board, Shape};
use std::hint::black_box;
use std::time::{Duration, Instant};

pub struct Version {
    /// As the options have it.
    pub name: &'static str,
    pub words: &'static str,
    run: fn(Shape, &[u8], &[Call]) -> Outcome,
}

/// What a run took, how many entries or calls it had, and what it left.
pub struct Outcome {
    pub took: Duration,
    pub many: usize,
    pub left: Left,
}

pub enum Left {
    Nothing,
    Board(Board),
    Log(Vec<u8>),
}

impl Version {
    /// With the first so many accesses of a log. What is made before and after doesn't depend on how many.
    pub fn run(&self, log: &Log, accesses: usize) -> Outcome {
        let (bytes, calls) = log.first(accesses);
        (self.run)(log.shape, black_box(bytes), black_box(calls))
    }
}

pub const VERSIONS: [Version; 5] = [
    Version { name: "entries", words: "read, entries", run: entries },
    Version { name: "calls", words: "read, calls", run: calls },
    Version { name: "replay", words: "replayed", run: replay },
    Version { name: "perform", words: "the same calls, no log", run: perform },
    Version { name: "write", words: "written", run: write },
];

/// How many of them read: the first.
pub const READING: usize = 2;
/// To this one the times of all are told as ratios.
pub const REPLAY: usize = 2;

const PIECE: usize = 1 << 16;
const ROOM: usize = 256;

fn timed(run: impl FnOnce() -> (usize, Left)) -> Outcome {
    let began = Instant::now();
    let (many, left) = run();
    Outcome { took: began.elapsed(), many, left }
}

/// By the reader, into a fixed list of entries.
fn entries(_: Shape, bytes: &[u8], _: &[Call]) -> Outcome {
    let mut room = [Entry::NONE; ROOM];
    timed(|| {
        let (mut reader, mut many) = (Reader::new(), 0);
        for mut piece in bytes.chunks(PIECE) {
            while let given @ [_, ..] = reader.take(&mut piece, &mut room) {
                many += black_box(given).len();
            }
        }
        reader.end().expect("the log is whole");
        (many, Left::Nothing)
    })
}

/// By the iterator of calls.
fn calls(_: Shape, bytes: &[u8], _: &[Call]) -> Outcome {
    timed(|| {
        let mut many = 1; // the header
        for call in Calls::of(bytes).expect("the log has a header") {
            black_box(&call.expect("the log is whole"));
            many += 1;
        }
        (many, Left::Nothing)
    })
}

/// Read as calls, each made on the board.
fn replay(shape: Shape, bytes: &[u8], _: &[Call]) -> Outcome {
    let mut board = Board::for_replay(shape).expect("there is memory");
    timed(|| {
        let mut many = 1;
        for call in Calls::of(bytes).expect("the log has a header") {
            black_box(board.perform(&call.expect("the log is whole"))).ok();
            many += 1;
        }
        (many, Left::Board(board))
    })
}

/// The same calls out of memory.
fn perform(shape: Shape, _: &[u8], calls: &[Call]) -> Outcome {
    let mut board = Board::for_replay(shape).expect("there is memory");
    timed(|| {
        for call in calls {
            black_box(board.perform(call)).ok();
        }
        (1 + calls.len(), Left::Board(board))
    })
}

/// As a recorder writes it, into memory that is there.
fn write(shape: Shape, bytes: &[u8], calls: &[Call]) -> Outcome {
    let room = bytes.to_vec();
    timed(|| {
        let mut into = room;
        into.clear();
        let mut log = Writer::new(into, shape).expect("a vector takes all");
        for call in calls {
            log.write(call).expect("a vector takes all, and a log every call");
        }
        (1 + calls.len(), Left::Log(log.into_inner()))
    })
}
