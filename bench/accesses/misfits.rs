//! Boards for the comparison alone, on which every access is refused by number 1.

use crate::board::{Buffers, MATRIX_BYTES};
use crate::ordinary::{LINE_BYTES, SLOTS};
use crate::patterns::{Case, SHAPE};
use crate::refusals;
use oaledva::{Edition, Shape, SET_LINES};

/// What is wrong, and how a board gets it.
type Misfit = (&'static str, fn(&mut Buffers));

const MISFITS: [Misfit; 17] = [
    ("no frames", |board| board.shape.frames = 0),
    ("a frame more than words", |board| board.shape.frames += 1),
    ("more uncached frames than frames", |board| board.shape.uncached = board.shape.frames + 1),
    ("no processes", |board| board.shape.processes = 0),
    ("a process without slots", |board| board.shape.processes += 1),
    ("too many processes", |board| {
        board.shape.processes = Shape::PROCESSES_MAX + 1;
        board.slots.resize(SLOTS * board.shape.processes, 0);
    }),
    ("no lines", |board| with_lines(board, 0)),
    ("lines that are no power of two", |board| with_lines(board, 12)),
    ("too many lines", |board| with_lines(board, 2 * Shape::LINES_MAX)),
    ("a slot word less", |board| board.slots.truncate(board.slots.len() - 1)),
    ("a slot word more", |board| board.slots.push(0)),
    ("a frame word less", |board| board.words.truncate(board.words.len() - 1)),
    ("a record word less", |board| board.records.truncate(board.records.len() - 1)),
    ("a record word more", |board| board.records.push(0)),
    ("a cache byte less", |board| board.cache.truncate(board.cache.len() - 1)),
    ("a cache byte more", |board| board.cache.push(0)),
    ("a memory byte less", |board| board.memory.truncate(board.memory.len() - 1)),
];

const SETS_MISFITS: [Misfit; 6] = [
    ("one line", |board| with_lines(board, 1)),
    ("two lines", |board| with_lines(board, 2)),
    ("two lines and a matrix", |board| {
        with_lines(board, 2);
        board.uses.resize(MATRIX_BYTES, 0);
    }),
    ("no matrices", |board| board.uses.clear()),
    ("a matrix less", |board| board.uses.truncate(board.uses.len() - MATRIX_BYTES)),
    ("a matrix more", |board| board.uses.resize(board.uses.len() + MATRIX_BYTES, 0)),
];

/// Records, cache bytes and matrices for so many lines.
fn with_lines(board: &mut Buffers, lines: usize) {
    board.shape.lines = lines;
    board.records.resize(2 * lines, 0);
    board.cache.resize(LINE_BYTES * lines, 0);
    if !board.uses.is_empty() {
        board.uses.resize(lines / SET_LINES * MATRIX_BYTES, 0);
    }
}

/// Each with some accesses, of which many would be done else.
pub fn all(edition: Edition, length: usize) -> Vec<Case> {
    let more: &[Misfit] = match edition {
        Edition::OnePlace => &[],
        Edition::SetsOfFour => &SETS_MISFITS,
    };
    let case = |&(name, misfit): &Misfit| {
        let mut case = refusals::case(edition, length, SHAPE.lines, name);
        misfit(&mut case.start);
        case
    };
    MISFITS.iter().chain(more).map(case).collect()
}
