//! Planted faults of the order between strangers: rules of what may be crossed that are too wide, by which runs are reordered as the
//! model doesn't allow, or too narrow, of which the model knows better; what is told of the second run as by a library that orders
//! wrongly; and a comparison that asks at the wrong moment, too little or too much. With each the two runs must be told apart.

use crate::limits::*;
use crate::order::{is_store, process_of, Made, Reordering, Shown, SUPERVISOR};
use model::{mapping, page_of_name, Board, Edition};

#[derive(Clone, Copy, Debug, PartialEq, Eq)]
pub enum Wrong {
    /// Strangers though the one may read what the other writes.
    MayRead,
    /// Strangers though both may write a segment.
    BothWrite,
    /// Only what the earlier one writes is asked.
    OneWay,
    /// A process is its own stranger.
    Itself,
    /// All are strangers, each of itself, too.
    Anyone,
    /// Holding is asked where what is reordered begins.
    AtStart,
    /// Holding is asked where it ends.
    AtEnd,
    /// Only the lowest slot that holds something is asked.
    FirstSlot,
    /// The first segment that may be attached is not asked.
    FirstSegment,
    /// The last segment is not asked.
    LastSegment,
    /// Only neighbours keep their order.
    Neighbours,
    /// No strangers where both only read a segment: fewer orders are drawn than may be.
    BothRead,
    /// Words whose segment may not be attached count as others do: likewise.
    CountsNothing,
    /// A supervisor call of this kind of `SUPERVISOR` may be crossed by accesses.
    Crosses(usize),
    Tells(Fault),
}

/// What is wrong in what is told, or asked.
#[derive(Clone, Copy, Debug, PartialEq, Eq)]
pub enum Fault {
    /// Answers are compared by their place in the run, not call by call.
    ByPlace,
    /// Two accesses that cross get each other's value.
    SwapsValues,
    /// Two accesses that cross get each other's number.
    SwapsNumbers,
    /// The answers of a list stand in the order of the first run.
    ListOrder,
    /// A load gives what was there before what is reordered.
    OldValue,
    /// A supervisor call is refused.
    Supervisor,
    /// A later load gives another value.
    Later,
    /// A store lands a line late.
    LateStore,
    /// A line that was pushed out is as it was before.
    LostWriteBack,
    /// Look shows memory, where a changed line is held.
    LookMemory,
    /// Look shows other bytes at the end alone.
    LookEnd,
    /// Look just before a supervisor call is asked an access earlier.
    LookEarly,
    /// Look just after a supervisor call is asked an access later.
    LookLate,
    /// Look is asked after each place of the run.
    LookEach,
    /// Marks are asked, too.
    Marks,
    /// Records are asked, too.
    Records,
    /// Cache bytes are asked, too.
    Cache,
    /// Memory is asked, and not what look shows of it.
    Memory,
    /// Matrices are asked, too.
    Uses,
}

const fn tells(fault: Fault) -> Wrong {
    Wrong::Tells(fault)
}

/// By name.
pub const FAULTS: [(Wrong, &str); 46] = [
    (Wrong::MayRead, "reorder-may-read"),
    (Wrong::BothWrite, "reorder-both-write"),
    (Wrong::OneWay, "reorder-one-way"),
    (Wrong::Itself, "reorder-itself"),
    (Wrong::Anyone, "reorder-anyone"),
    (Wrong::AtStart, "reorder-at-start"),
    (Wrong::AtEnd, "reorder-at-end"),
    (Wrong::FirstSlot, "reorder-first-slot"),
    (Wrong::FirstSegment, "reorder-first-segment"),
    (Wrong::LastSegment, "reorder-last-segment"),
    (Wrong::Neighbours, "reorder-neighbours"),
    (Wrong::BothRead, "reorder-both-read"),
    (Wrong::CountsNothing, "reorder-counts-nothing"),
    (Wrong::Crosses(0), "reorder-crosses-load"),
    (Wrong::Crosses(1), "reorder-crosses-store"),
    (Wrong::Crosses(2), "reorder-crosses-prefix-1"),
    (Wrong::Crosses(3), "reorder-crosses-prefix-0"),
    (Wrong::Crosses(4), "reorder-crosses-attach"),
    (Wrong::Crosses(5), "reorder-crosses-detach"),
    (Wrong::Crosses(6), "reorder-crosses-map"),
    (Wrong::Crosses(7), "reorder-crosses-unmap"),
    (Wrong::Crosses(8), "reorder-crosses-protect"),
    (Wrong::Crosses(9), "reorder-crosses-move"),
    (Wrong::Crosses(10), "reorder-crosses-flush"),
    (Wrong::Crosses(11), "reorder-crosses-tag"),
    (Wrong::Crosses(12), "reorder-crosses-insert"),
    (Wrong::Crosses(13), "reorder-crosses-drop-tag"),
    (tells(Fault::ByPlace), "reorder-by-place"),
    (tells(Fault::SwapsValues), "reorder-swaps-values"),
    (tells(Fault::SwapsNumbers), "reorder-swaps-numbers"),
    (tells(Fault::ListOrder), "reorder-list-order"),
    (tells(Fault::OldValue), "reorder-old-value"),
    (tells(Fault::Supervisor), "reorder-supervisor"),
    (tells(Fault::Later), "reorder-later"),
    (tells(Fault::LateStore), "reorder-late-store"),
    (tells(Fault::LostWriteBack), "reorder-lost-write-back"),
    (tells(Fault::LookMemory), "reorder-look-memory"),
    (tells(Fault::LookEnd), "reorder-look-end"),
    (tells(Fault::LookEarly), "reorder-look-early"),
    (tells(Fault::LookLate), "reorder-look-late"),
    (tells(Fault::LookEach), "reorder-look-each"),
    (tells(Fault::Marks), "reorder-marks"),
    (tells(Fault::Records), "reorder-records"),
    (tells(Fault::Cache), "reorder-cache"),
    (tells(Fault::Memory), "reorder-memory"),
    (tells(Fault::Uses), "reorder-uses"),
];

const _: () = assert!(SUPERVISOR.len() == 14);

impl Wrong {
    pub fn is_of(self, edition: Edition) -> bool {
        self != tells(Fault::Uses) || edition == Edition::Fours
    }

    /// Whether it asks what look shows after each step.
    pub fn looks_each(self) -> bool {
        [Fault::LookEarly, Fault::LookLate, Fault::LookEach].map(tells).contains(&self)
    }

    /// Whether it is a rule that is too wide, so that the model doesn't allow the reordering with which it shows.
    pub fn is_rule(self) -> bool {
        !matches!(self, Wrong::Tells(_) | Wrong::BothRead | Wrong::CountsNothing)
    }
}

fn line_at(shown: &Shown, line: usize) -> &[u8] {
    &shown[line_bytes(line as u64)]
}

fn set_line(shown: &mut Shown, line: usize, bytes: &[u8]) {
    shown[line_bytes(line as u64)].copy_from_slice(bytes);
}

impl Fault {
    /// What is told of the second run.
    pub fn alter(self, whole: &Reordering, first: &Made, second: &mut Made) {
        let crossed = whole.crossed();
        match self {
            Fault::ByPlace => {
                second.answers = whole.order.iter().map(|&position| second.answers[position]).collect();
            }
            Fault::SwapsValues | Fault::SwapsNumbers => {
                let values = self == Fault::SwapsValues;
                let differ = |&&(one, other): &&(usize, usize)| {
                    let (one, other) = (second.answers[one], second.answers[other]);
                    if values {
                        one.value != other.value
                    } else {
                        one.number != other.number
                    }
                };
                if let Some(&(one, other)) = crossed.iter().find(differ) {
                    let (a, b) = (second.answers[one], second.answers[other]);
                    if values {
                        (second.answers[one].value, second.answers[other].value) = (b.value, a.value);
                    } else {
                        (second.answers[one].number, second.answers[other].number) = (b.number, a.number);
                    }
                }
            }
            Fault::ListOrder => {
                let answers = second.answers.clone();
                let mut lists: Vec<usize> = second.lists.iter().copied().flatten().collect();
                lists.dedup();
                for list in lists {
                    let of_list = |position: &&usize| second.lists[**position] == Some(list);
                    let positions: Vec<usize> = whole.order.iter().filter(of_list).copied().collect();
                    let mut sorted = positions.clone();
                    sorted.sort_unstable();
                    sorted.iter().zip(positions).for_each(|(&to, from)| second.answers[to] = answers[from]);
                }
            }
            Fault::OldValue => {
                let loads = whole.body.clone().rev().filter(|&position| {
                    process_of(&whole.calls[position]).is_some() && first.answers[position].value != 0
                });
                let crossed_by = |position: &usize| crossed.iter().any(|(one, other)| [one, other].contains(&position));
                if let Some(position) = { loads }.find(crossed_by) {
                    second.answers[position].value = 0;
                }
            }
            Fault::Supervisor => {
                let call = whole.body.clone().rev().find(|&position| {
                    process_of(&whole.calls[position]).is_none() && first.answers[position].number == 0
                });
                call.into_iter().for_each(|position| second.answers[position].number = 2);
            }
            Fault::Later => {
                let call = (whole.body.end..whole.calls.len()).rev().find(|&at| first.answers[at].value != 0);
                call.into_iter().for_each(|position| second.answers[position].value ^= 1);
            }
            Fault::LateStore => {
                let [before, after, _] = &mut second.ends;
                let (names, _) = whole.names(1);
                let is_stored = |at: &usize| is_store(&whole.calls[*at]) && first.answers[*at].number == 0;
                let lines =
                    whole.body.clone().filter(is_stored).filter_map(|at| line_of(&second.run.model, names[at]?));
                let last = after.len().min(before.len()) / LINE_BYTES as usize;
                let changed = |line: &usize| line + 1 < last && line_at(before, *line) != line_at(after, *line);
                if let Some(line) = { lines }.find(changed) {
                    let bytes = line_at(after, line).to_vec();
                    set_line(after, line + 1, &bytes);
                    set_line(after, line, line_at(before, line));
                }
            }
            Fault::LostWriteBack => {
                let [before, _, end] = &mut second.ends;
                let (_, written) = whole.names(1);
                let board = &second.run.model;
                let lines = written.into_iter().flatten().filter_map(|name| line_of(board, name));
                let last = end.len().min(before.len()) / LINE_BYTES as usize;
                for line in lines.filter(|&line| line < last && !is_held(board, line)) {
                    set_line(end, line, line_at(before, line));
                }
            }
            Fault::LookMemory if second.ends[2].is_empty() => {}
            Fault::LookMemory => second.ends[2].clone_from(&second.run.model.memory),
            Fault::LookEnd => second.ends[2].iter_mut().rev().take(1).for_each(|byte| *byte ^= 1),
            Fault::LookEarly | Fault::LookLate => {
                let early = self == Fault::LookEarly;
                let is_access =
                    |step: usize| process_of(&whole.calls[whole.order[second.each[step].0.start]]).is_some();
                for (step, (places, _)) in second.each.iter().enumerate() {
                    let Some(looks) = &mut second.looks[whole.order[places.start]] else { continue };
                    // After the step behind, or before the step before, which is after the one before that.
                    let (beside, after) = if early {
                        (step.checked_sub(1), step.checked_sub(2))
                    } else {
                        (Some(step + 1), Some(step + 1))
                    };
                    if let Some((_, shown)) = after.and_then(|after| second.each.get(after)) {
                        if beside.is_some_and(is_access) {
                            looks[usize::from(!early)].clone_from(shown);
                        }
                    }
                }
            }
            Fault::LookEach => {}
            Fault::Marks | Fault::Records | Fault::Cache | Fault::Memory | Fault::Uses => {}
        }
    }

    /// What is asked that may differ.
    pub fn asks_more(self, first: &Made, second: &Made) -> Option<String> {
        let (one, two) = (&first.run.model, &second.run.model);
        let marks = |made: &Made| made.answers.iter().map(|answer| answer.mark).collect::<Vec<_>>();
        let shown = |made: &Made| {
            let each = made.each.iter().flat_map(|(places, shown)| places.clone().map(move |_| shown));
            each.cloned().collect::<Vec<_>>()
        };
        let (differs, what) = match self {
            Fault::LookEach => (shown(first) != shown(second), "what look shows after each place"),
            Fault::Marks => (marks(first) != marks(second), "the marks"),
            Fault::Records => (one.records != two.records, "the records"),
            Fault::Cache => (one.cache != two.cache, "the cache bytes"),
            Fault::Memory => (one.memory != two.memory, "the bytes of memory, without look,"),
            Fault::Uses => (one.uses != two.uses, "the matrices"),
            _ => return None,
        };
        differs.then(|| format!("{what} differ, as they may"))
    }
}

/// The physical line to which a name is mapped.
fn line_of(board: &Board, name: u64) -> Option<usize> {
    mapping(&board.shape, &board.words, page_of_name(name)).map(|(frame, _)| line_in(frame, name) as usize)
}

fn is_held(board: &Board, line: usize) -> bool {
    board.all_records().any(|at| board.held(at).is_some_and(|record| record.line == line as u64))
}
