//! Planted faults of lists: each makes of the board, of the answers or of what is told what a library with that fault would.

use crate::guarded::{Lists, Real, FENCED_BEHIND};
use crate::limits::{end_of_width, matrix_bytes, HIT};
use crate::lists::{Item, List};
use crate::routes::{packed, Told};
use crate::run::Kind;
use model::{mark, Answer, Board, PlainAnswer};

/// What is wrong with lists.
#[derive(Clone, Copy, Debug, PartialEq, Eq)]
pub enum Wrong {
    /// The list ends at the first access that is refused.
    Stops,
    /// Each answer stands one place late.
    Late,
    /// The answers stand in reverse.
    Reversed,
    /// While a tag is pending the whole list is refused by 3.
    TagOnce,
    /// The first access is done twice, and answered the second time.
    FirstTwice,
    /// The last access is not done.
    NotLast,
    /// A refused list clears its answers.
    Clears,
    /// A list refused for its lengths does its first access.
    RefusedFirst,
    /// All marks are 0.
    NoMarks,
    /// Each access is answered by the board as it was before the list.
    BoardBefore,
    /// The list has the number of the last access that is refused.
    OwnNumber,
    /// The list has the value of its last access.
    OwnValue,
    /// The list has the mark of its last access.
    OwnMark,
    /// A list with too few answers is taken.
    TakesFewer,
    /// A list with too many answers is taken.
    TakesMore,
    /// A list with some words behind its last access is taken.
    TakesTorn,
    /// A store by an even number is a load, answered as the store.
    LowBit,
    /// Processes have 16 bits.
    LowProcess,
    /// A load's value is asked.
    AsksLoads,
    /// The accesses are written.
    Writes,
    /// The bytes behind the accesses are written, or those behind the answers.
    WritesBehind { answers: bool },
    /// They are read.
    ReadsBehind { answers: bool },
    /// An answer that the table doesn't have, in the model as well.
    OffTable,
    /// A mark that CR 8 doesn't have, likewise.
    MarkOffTable,
    /// An answer's mark says that it is no hit, and asked for a hit it says yes.
    Hit,
    /// The plain machine gives another value.
    Plain,
}

/// By name, each with the check that has to find it.
pub const FAULTS: [(Wrong, &str, Kind); 28] = [
    (Wrong::Stops, "list-stops", Kind::Answers),
    (Wrong::Late, "list-late", Kind::Answers),
    (Wrong::Reversed, "list-reversed", Kind::Answers),
    (Wrong::TagOnce, "list-tag-once", Kind::Number),
    (Wrong::FirstTwice, "list-first-twice", Kind::Answers),
    (Wrong::NotLast, "list-not-last", Kind::Answers),
    (Wrong::Clears, "list-clears", Kind::Answers),
    (Wrong::RefusedFirst, "list-refused-first", Kind::Buffer),
    (Wrong::NoMarks, "list-no-marks", Kind::Answers),
    (Wrong::BoardBefore, "list-board-before", Kind::Answers),
    (Wrong::OwnNumber, "list-own-number", Kind::Number),
    (Wrong::OwnValue, "list-own-value", Kind::Value),
    (Wrong::OwnMark, "list-own-mark", Kind::Mark),
    (Wrong::TakesFewer, "list-takes-fewer", Kind::Number),
    (Wrong::TakesMore, "list-takes-more", Kind::Number),
    (Wrong::TakesTorn, "list-takes-torn", Kind::Number),
    (Wrong::LowBit, "list-low-bit", Kind::Buffer),
    (Wrong::LowProcess, "list-low-process", Kind::Answers),
    (Wrong::AsksLoads, "list-asks-loads", Kind::Answers),
    (Wrong::Writes, "list-writes", Kind::Accesses),
    (Wrong::WritesBehind { answers: false }, "list-canary-in", Kind::Canary),
    (Wrong::WritesBehind { answers: true }, "list-canary-out", Kind::Canary),
    (Wrong::ReadsBehind { answers: false }, "list-reads-in", Kind::Signal),
    (Wrong::ReadsBehind { answers: true }, "list-reads-out", Kind::Signal),
    (Wrong::OffTable, "list-off-table", Kind::Table),
    (Wrong::MarkOffTable, "list-mark-table", Kind::Table),
    (Wrong::Hit, "list-hit", Kind::Form),
    (Wrong::Plain, "list-plain", Kind::Plain),
];

/// The bits of a packed answer's mark.
const MARK_BITS: u64 = 0xFF << 32;

/// The answers of these accesses, one after another.
fn answers(board: &mut Board, items: &[Item]) -> Vec<u64> {
    items.iter().map(|item| packed(&board.step(&item.call()).0)).collect()
}

/// Does these accesses on the board before the list, and leaves the library's so. Gives their answers.
fn redone(before: &Board, items: &[Item], real: &mut Real) -> Vec<u64> {
    let mut board = before.clone();
    let answers = answers(&mut board, items);
    real.records.inner_mut().copy_from_slice(&board.records);
    real.cache.inner_mut().copy_from_slice(&board.cache);
    real.memory.inner_mut().copy_from_slice(&board.memory);
    real.uses.inner_mut().copy_from_slice(matrix_bytes(&board.uses));
    answers
}

impl Wrong {
    pub fn found_as(self) -> Kind {
        FAULTS.iter().find(|(wrong, ..)| *wrong == self).expect("every fault has a name").2
    }

    pub fn after_list(
        self,
        list: &List,
        before: &Board,
        (real, lists, told): (&mut Real, &mut Lists, &mut Told),
        expected: &mut [Answer],
    ) {
        let refused = told.answer.number != 0;
        match self {
            Wrong::WritesBehind { answers: false } if list.offsets[0] != FENCED_BEHIND => {
                lists.accesses.break_canary(false)
            }
            Wrong::WritesBehind { answers: true } if list.offsets[1] != FENCED_BEHIND => {
                lists.answers.break_canary(false)
            }
            Wrong::ReadsBehind { answers: false } => lists.accesses.read_outside(true),
            Wrong::ReadsBehind { answers: true } => lists.answers.read_outside(true),
            Wrong::Writes => lists.accesses.inner_mut().iter_mut().for_each(|word| *word ^= 1),
            Wrong::Clears if refused => lists.answers.inner_mut().fill(0),
            _ if refused && before.fits() => self.after_refused(list, before, real, told),
            _ if !refused && !list.items.is_empty() => self.after_done(list, before, (real, lists, told), expected),
            _ => {}
        }
    }

    /// Refused for its lengths.
    fn after_refused(self, list: &List, before: &Board, real: &mut Real, told: &mut Told) {
        let (accesses, torn) = (list.items.len(), !list.torn.is_empty());
        let takes = match self {
            Wrong::TakesFewer => !torn && list.answers < accesses,
            Wrong::TakesMore => !torn && list.answers > accesses,
            Wrong::TakesTorn => torn && list.answers == accesses,
            _ => false,
        };
        if takes {
            told.answer.number = 0;
        }
        if self == Wrong::RefusedFirst && accesses > 0 {
            redone(before, &list.items[..1], real);
        }
    }

    /// Done, with an access at least.
    fn after_done(
        self,
        list: &List,
        before: &Board,
        (real, lists, told): (&mut Real, &mut Lists, &mut Told),
        expected: &mut [Answer],
    ) {
        let (items, stains) = (&list.items[..], list.before());
        let given = lists.answers.inner_mut();
        let right: Vec<u64> = given.to_vec();
        let last = items.len() - 1;
        let as_items = |edit: fn(&mut Item)| {
            let mut edited = items.to_vec();
            edited.iter_mut().for_each(edit);
            edited
        };
        match self {
            Wrong::Stops => {
                let end = expected.iter().position(|answer| answer.number != 0).map_or(items.len(), |at| at + 1);
                redone(before, &items[..end], real);
                given[end..].copy_from_slice(&stains[end..]);
            }
            Wrong::Late => {
                given[0] = stains[0];
                given[1..].copy_from_slice(&right[..last]);
            }
            Wrong::Reversed => given.reverse(),
            Wrong::TagOnce if before.tag.0 => {
                told.answer.number = 3;
                given.copy_from_slice(&stains);
            }
            Wrong::FirstTwice => given[0] = answers(&mut before.clone(), &[items[0]; 2])[1],
            Wrong::NotLast => {
                redone(before, &items[..last], real);
                given[last] = stains[last];
            }
            Wrong::NoMarks => given.iter_mut().for_each(|answer| *answer &= !MARK_BITS),
            Wrong::BoardBefore => {
                for (answer, item) in given.iter_mut().zip(items) {
                    *answer = answers(&mut before.clone(), &[*item])[0];
                }
            }
            Wrong::OwnNumber => {
                let refused = expected.iter().rev().find(|answer| answer.number != 0);
                told.answer.number = refused.map_or(0, |answer| answer.number);
            }
            Wrong::OwnValue => told.answer.value = expected[last].value,
            Wrong::OwnMark => told.answer.mark = expected[last].mark,
            Wrong::LowBit => drop(redone(before, &as_items(|item| item.store &= 1), real)),
            Wrong::LowProcess => {
                let low = as_items(|item| item.process = u64::from(item.words()[0] as u16));
                given.copy_from_slice(&redone(before, &low, real));
            }
            Wrong::AsksLoads => {
                for (answer, item) in given.iter_mut().zip(items) {
                    if end_of_width(item.width).is_some_and(|end| u64::from(item.value) >= end) {
                        *answer = packed(&Answer { number: 2, value: 0, mark: mark::NO_ACCESS });
                    }
                }
            }
            Wrong::OffTable => {
                for (answer, told) in expected.iter_mut().zip(given).filter(|(answer, _)| answer.number == 9) {
                    answer.number = 10;
                    *told = packed(answer);
                }
            }
            Wrong::MarkOffTable => {
                for (answer, told) in expected.iter_mut().zip(given).filter(|(answer, _)| answer.mark == HIT) {
                    answer.mark = mark::UNCACHED;
                    *told = packed(answer);
                }
            }
            _ => {}
        }
    }

    pub fn after_answer(self, told: &mut Told) {
        if self == Wrong::Hit && told.answer.mark != HIT {
            told.hit = told.hit.map(|_| 1);
        }
    }

    pub fn after_plain_list(self, answers: &mut [PlainAnswer]) {
        if self == Wrong::Plain {
            answers.iter_mut().filter(|answer| answer.value != 0).for_each(|answer| answer.value ^= 1);
        }
    }
}
