//! The comparison of what two versions answered and left, and differences planted to show that it finds them.

use crate::patterns::Case;
use crate::versions::{versions, Outcome, Version, SCAN};
use oaledva::ffi::{Access, Kind};
use oaledva::Edition;
use std::fmt::LowerHex;

/// Whether a version answered and left what is right. Else, the first difference in words.
pub fn compare(case: &Case, version: &Version, right: &Outcome, got: &Outcome) -> Result<(), String> {
    let told = |difference| format!("{}, {}: {difference}", case.name, version.words);
    answers(case, &right.answers, &got.answers).map_err(told)?;
    let (right, got) = (&right.board, &got.board);
    same("slot word", &right.slots, &got.slots).map_err(told)?;
    same("frame word", &right.words, &got.words).map_err(told)?;
    same("record word", &right.records, &got.records).map_err(told)?;
    same("cache byte", &right.cache, &got.cache).map_err(told)?;
    same("memory byte", &right.memory, &got.memory).map_err(told)?;
    same("byte of the matrices", &right.uses, &got.uses).map_err(told)
}

fn answers(case: &Case, right: &[u64], got: &[u64]) -> Result<(), String> {
    let Some(at) = first_difference(right, got) else { return Ok(()) };
    let (right, got) = (answer_text(right[at]), answer_text(got[at]));
    let access = access_text(&case.accesses[at]);
    Err(format!("access {at} ({access}) gave {got}; right is {right}"))
}

fn same<T: PartialEq + LowerHex>(what: &str, right: &[T], got: &[T]) -> Result<(), String> {
    let Some(at) = first_difference(right, got) else { return Ok(()) };
    let (right, got) = (&right[at], &got[at]);
    Err(format!("{what} {at} is {got:#x} at the end; right is {right:#x}"))
}

fn first_difference<T: PartialEq>(right: &[T], got: &[T]) -> Option<usize> {
    assert_eq!(right.len(), got.len(), "every version has as many answers, and buffers as long");
    // The whole at once is quicker, and nearly always equal.
    if right == got {
        return None;
    }
    right.iter().zip(got).position(|(right, got)| right != got)
}

fn answer_text(packed: u64) -> String {
    let (number, mark, value) = (packed >> 56, packed >> 32 & 0xff, packed as u32);
    let spare = if packed >> 40 & 0xffff == 0 { "" } else { ", bits between them that are not 0" };
    format!("number {number}, mark {mark}, value {value:#x}{spare}")
}

fn access_text(access: &Access) -> String {
    let &Access { process, kind, width, address, value } = access;
    let kind = if kind == Kind::LOAD { "load" } else { "store" };
    format!("process {process}, {kind}, width {width}, address {address:#x}, value {value:#x}")
}

/// What of an outcome is altered.
#[derive(Clone, Copy)]
pub enum Plant {
    Number,
    Mark,
    Value,
    Spare,
    Slots,
    Words,
    Records,
    Cache,
    Memory,
    Uses,
}

/// By name.
pub const PLANTS: [(&str, Plant); 10] = [
    ("number", Plant::Number),
    ("mark", Plant::Mark),
    ("value", Plant::Value),
    ("spare", Plant::Spare),
    ("slots", Plant::Slots),
    ("words", Plant::Words),
    ("records", Plant::Records),
    ("cache", Plant::Cache),
    ("memory", Plant::Memory),
    ("uses", Plant::Uses),
];

/// Those that an edition has: where a line has one place there are no matrices.
pub fn plants(edition: Edition) -> &'static [(&'static str, Plant)] {
    match edition {
        Edition::OnePlace => &PLANTS[..PLANTS.len() - 1],
        Edition::SetsOfFour => &PLANTS,
    }
}

impl Plant {
    /// Flips a bit: of an answer in the middle, or of a buffer's last element.
    pub fn into(self, outcome: &mut Outcome) {
        let middle = outcome.answers.len() / 2;
        let (answer, board) = (&mut outcome.answers[middle], &mut outcome.board);
        match self {
            Plant::Number => *answer ^= 1 << 56,
            Plant::Mark => *answer ^= 1 << 32,
            Plant::Value => *answer ^= 1,
            Plant::Spare => *answer ^= 1 << 40,
            Plant::Slots => *board.slots.last_mut().expect("a board has slots") ^= 1,
            Plant::Words => *board.words.last_mut().expect("a board has frames") ^= 1,
            Plant::Records => *board.records.last_mut().expect("a board has lines") ^= 1,
            Plant::Cache => *board.cache.last_mut().expect("a board has lines") ^= 1,
            Plant::Memory => *board.memory.last_mut().expect("a board has frames") ^= 1,
            Plant::Uses => *board.uses.last_mut().expect("a board with sets of four has matrices") ^= 1,
        }
    }
}

/// Shows that each difference is found in each version.
pub fn finds_each(case: &Case) -> Result<(), String> {
    let right = versions(case.edition)[SCAN].run(case);
    for version in versions(case.edition) {
        for &(name, plant) in plants(case.edition) {
            let mut got = version.run(case);
            plant.into(&mut got);
            if compare(case, version, &right, &got).is_ok() {
                return Err(format!("{}, {}: a planted difference was not found: {name}", case.name, version.words));
            }
        }
    }
    Ok(())
}
