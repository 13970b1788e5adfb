//! Makes a failing trace small: drops steps by halves and then one by one, likewise the accesses of its lists and the bytes of its
//! logs, then simplifies how calls are brought, then zeroes the first board piece by piece, all while it still fails in the same
//! way.

use crate::dumps::{self, Dump};
use crate::limits::STATE_WORDS;
use crate::lists::{Item, List};
use crate::logs::{Piece, Reading, Writing};
use crate::routes::{Manner, Route};
use crate::run::{quietly, Difference};
use crate::trace::{Deed, Trace};
use model::{Board, NO_TAG};
use std::time::Instant;

/// At most so many runs are spent, and not much more than so many seconds.
const BUDGET: u32 = 3000;
const SECONDS: u64 = 150;

/// A list is taken apart in so many parts at most, so that a long one doesn't take it all.
const PARTS: usize = 128;

/// Where a trace first differs, and how.
pub type Fails = fn(&Trace) -> Option<(usize, Difference)>;

struct Shrinker {
    fails: Fails,
    best: Trace,
    difference: Difference,
    budget: u32,
    began: Instant,
}

pub fn shrink(fails: Fails, trace: Trace, difference: Difference) -> (Trace, Difference) {
    let mut shrinker = Shrinker { fails, best: trace, difference, budget: BUDGET, began: Instant::now() };
    quietly(|| {
        shrinker.drop_steps();
        shrinker.shorten_lists();
        shrinker.shorten_logs();
        shrinker.simplify_dumps();
        shrinker.simplify_manners();
        shrinker.zero_board();
        shrinker.drop_steps();
    });
    (shrinker.best, shrinker.difference)
}

impl Shrinker {
    /// Takes the edited trace if it fails in the same way.
    fn takes(&mut self, edit: impl FnOnce(&mut Trace)) -> bool {
        if self.budget == 0 || self.began.elapsed().as_secs() > SECONDS {
            return false;
        }
        self.budget -= 1;
        let mut candidate = self.best.clone();
        edit(&mut candidate);
        match (self.fails)(&candidate) {
            Some((last, difference)) if difference.kind == self.difference.kind => {
                candidate.steps.truncate(last + 1);
                self.best = candidate;
                self.difference = difference;
                true
            }
            _ => false,
        }
    }

    fn drop_steps(&mut self) {
        let mut size = self.best.steps.len().max(1);
        loop {
            let before = self.best.steps.len();
            let mut at = 0;
            while at < self.best.steps.len() {
                let end = (at + size).min(self.best.steps.len());
                if !self.takes(|trace| drop(trace.steps.drain(at..end))) {
                    at = end;
                }
            }
            if size > 1 {
                size = size.div_ceil(2);
            } else if self.best.steps.len() == before {
                break;
            }
        }
    }

    /// Drops accesses of lists, with as many answers, by halves and then one by one; then simplifies what is left of them.
    fn shorten_lists(&mut self) {
        for index in 0..self.best.steps.len() {
            let mut size = self.length_at(index);
            while size > 0 && self.length_at(index) <= PARTS * size {
                let mut at = 0;
                while at < self.length_at(index) {
                    let end = (at + size).min(self.length_at(index));
                    let shorter = |list: &mut List| {
                        list.items.drain(at..end);
                        list.answers = list.answers.saturating_sub(end - at);
                    };
                    if !self.takes_list(index, shorter) {
                        at = end;
                    }
                }
                size /= 2;
            }
            let edits: [fn(&mut List); 4] = [
                |list| list.offsets = [0; 2],
                |list| list.stain = 0,
                |list| list.torn.truncate(1),
                |list| list.torn.iter_mut().for_each(|word| *word = 0),
            ];
            for edit in edits {
                self.takes_list(index, edit);
            }
            let edits: [fn(&mut Item); 3] =
                [|item| item.value = 0, |item| item.store = item.store.min(1), |item| item.width = 1];
            for (at, edit) in (0..self.length_at(index).min(PARTS)).flat_map(|at| edits.map(|edit| (at, edit))) {
                self.takes_list(index, |list| edit(&mut list.items[at]));
            }
        }
    }

    fn list_at(&self, index: usize) -> Option<&List> {
        match &self.best.steps.get(index)?.deed {
            Deed::List(list) => Some(list),
            _ => None,
        }
    }

    fn length_at(&self, index: usize) -> usize {
        self.list_at(index).map_or(0, |list| list.items.len())
    }

    /// Takes the trace with its list edited, if that is another and it fails in the same way.
    fn takes_list(&mut self, index: usize, edit: impl FnOnce(&mut List)) -> bool {
        let Some(mut list) = self.list_at(index).cloned() else { return false };
        edit(&mut list);
        let changed = self.list_at(index) != Some(&list);
        changed && self.takes(|trace| trace.steps[index].deed = Deed::List(list))
    }

    /// Simplifies the pieces of logs, and drops their bytes, by halves and then one by one; then simplifies what is left of them,
    /// and of entries.
    fn shorten_logs(&mut self) {
        for index in 0..self.best.steps.len() {
            for (bytes, room) in [(1 << 16, 64), (1 << 16, 1), (1, 64), (1, 1)] {
                if self.takes_reading(index, |reading| reading.pieces = vec![Piece::of(bytes, room)]) {
                    break;
                }
            }
            for count in (1..8).rev() {
                self.takes_reading(index, |reading| reading.pieces.truncate(count));
            }
            let mut size = self.log_length(index);
            while size > 0 {
                let mut at = 0;
                while at < self.log_length(index) {
                    let end = (at + size).min(self.log_length(index));
                    let shorter = |log: &mut Vec<u8>| drop(log.drain(at..end));
                    if !self.takes_reading(index, |reading| reading.log.iter_mut().for_each(shorter)) {
                        at = end;
                    }
                }
                size /= 2;
            }
            self.takes_reading(index, |reading| (reading.stain, reading.offsets) = (0, [0; 3]));
            self.takes_writing(index, |writing| (writing.stain, writing.offsets) = (0, [0; 2]));
            for word in 0..STATE_WORDS {
                let zero = |words: &mut Vec<u64>| words.iter_mut().skip(word).take(1).for_each(|word| *word = 0);
                self.takes_reading(index, |reading| {
                    if !reading.is_fresh() {
                        zero(&mut reading.state)
                    }
                });
                self.takes_writing(index, |writing| zero(&mut writing.entry));
            }
        }
    }

    fn takes_reading(&mut self, index: usize, edit: impl FnOnce(&mut Reading)) -> bool {
        self.takes_deed(index, |deed| {
            if let Deed::Read(reading) = deed {
                edit(reading)
            }
        })
    }

    fn takes_writing(&mut self, index: usize, edit: impl FnOnce(&mut Writing)) -> bool {
        self.takes_deed(index, |deed| {
            if let Deed::Write(writing) = deed {
                edit(writing)
            }
        })
    }

    /// Simplifies what is lent to checks and repairs: just what is asked for, and zeros.
    fn simplify_dumps(&mut self) {
        let needed = dumps::needed(&self.best.start.board.shape).map(|length| length.min(1 << 20));
        let edits: [&dyn Fn(&mut Dump); 5] = [
            &|dump| *dump = Dump::of(dump.repair, needed),
            &|dump| dump.lengths = Dump::of(dump.repair, needed).lengths,
            &|dump| dump.own = false,
            &|dump| dump.stain = 0,
            &|dump| dump.offsets = [0; 3],
        ];
        for (index, edit) in (0..self.best.steps.len()).flat_map(|index| edits.map(|edit| (index, edit))) {
            self.takes_deed(index, |deed| {
                if let Deed::Dump(dump) = deed {
                    edit(dump)
                }
            });
        }
    }

    fn log_length(&self, index: usize) -> usize {
        match self.best.steps.get(index).map(|step| &step.deed) {
            Some(Deed::Read(Reading { log: Some(log), .. })) => log.len(),
            _ => 0,
        }
    }

    /// Takes the trace with a deed edited, if that is another and it fails in the same way.
    fn takes_deed(&mut self, index: usize, edit: impl FnOnce(&mut Deed)) -> bool {
        let Some(mut deed) = self.best.steps.get(index).map(|step| step.deed.clone()) else { return false };
        edit(&mut deed);
        let changed = self.best.steps[index].deed != deed;
        changed && self.takes(|trace| trace.steps[index].deed = deed)
    }

    fn simplify_manners(&mut self) {
        for index in 0..self.best.steps.len() {
            if index >= self.best.steps.len() {
                break;
            }
            let edits: [fn(&mut Manner); 3] =
                [|manner| manner.route = Route::Raw, |manner| manner.yes = 1, |manner| manner.null = false];
            for edit in edits {
                self.takes(|trace| edit(&mut trace.steps[index].manner));
                if index >= self.best.steps.len() {
                    break;
                }
            }
        }
    }

    fn zero_board(&mut self) {
        self.takes(|trace| trace.start.offsets = [0; 6]);
        self.takes(|trace| trace.start.board.tag = NO_TAG);
        self.zero_buffer(|board| &mut board.memory);
        self.zero_buffer(|board| &mut board.cache);
        self.zero_buffer(|board| &mut board.slots);
        self.zero_buffer(|board| &mut board.records);
        self.zero_buffer(|board| &mut board.words);
        self.zero_buffer(|board| &mut board.uses);
    }

    /// Zeroes the whole buffer, or else its halves, and so on.
    fn zero_buffer<T: Clone + Default + PartialEq>(&mut self, buffer: fn(&mut Board) -> &mut Vec<T>) {
        let whole = 0..buffer(&mut self.best.start.board).len();
        let mut parts = Vec::from([whole]);
        while let Some(part) = parts.pop() {
            let now = &buffer(&mut self.best.start.board)[part.clone()];
            if now.iter().all(|element| *element == T::default()) {
                continue;
            }
            let zeroed = self.takes(|trace| buffer(&mut trace.start.board)[part.clone()].fill(T::default()));
            if !zeroed && part.len() > 1 {
                let middle = part.start + part.len() / 2;
                parts.extend([part.start..middle, middle..part.end]);
            }
        }
    }
}
