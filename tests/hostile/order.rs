//! The order between strangers (CR 14) by samples: a run, and the same run reordered, from one board. Two processes are strangers
//! where neither holds for writing a segment that the other holds. A reordering keeps the order of any two user accesses that are
//! not by strangers where they stand, and crosses no supervisor call: it is drawn as any order that keeps this, and the model has
//! to allow it. Then each call gets the same number and value, and look shows the same bytes of every physical line just before and
//! just after each supervisor call, at the end of what is reordered, and after some later calls. Marks, records, cache bytes,
//! memory and matrices may differ. Accesses come one by one or in lists, cut in one way in the one run and in another in the other.

use crate::cases::name_of_call;
use crate::coverage::Coverage;
use crate::limits::*;
use crate::lists::{Item, List};
use crate::order_faults::Wrong;
use crate::pairs::Failure;
use crate::plant::Plant;
use crate::rng::Rng;
use crate::routes::Manner;
use crate::run::{quietly, Given, Run};
use crate::trace::{self, Deed, Start, Step, Trace};
use model::{dump, order, Answer, Board, Call, Event, Plain};
use std::ops::Range;

/// How a call is brought; and of an access whether it comes in a list, and in that of the access before it.
#[derive(Clone, Copy)]
pub struct Brought {
    pub manner: Manner,
    pub listed: bool,
    pub joins: bool,
}

/// A run and its reordering.
#[derive(Clone)]
pub struct Reordering {
    pub start: Start,
    /// What both runs do first: a check of the board, or a repair.
    pub first: Vec<Step>,
    /// The calls of the first run; which of them are reordered: those before have led to the board, those after are later ones.
    pub calls: Vec<Call>,
    pub body: Range<usize>,
    /// Where in the first run each call of the second stands: its position.
    pub order: Vec<usize>,
    /// How the calls of each run are brought, in its own order.
    pub brought: [Vec<Brought>; 2],
    pub wrong: Option<Wrong>,
}

/// Which of the calls that may come next does.
#[derive(Clone, Copy, PartialEq, Eq)]
pub enum Next {
    Any,
    Latest,
}

// ---------------------------------------------------------------------------------------------
// Who are strangers
// ---------------------------------------------------------------------------------------------

/// A segment in a slot of a process, with the write bit.
#[derive(Clone, Copy, PartialEq, Eq)]
pub struct Holding {
    pub segment: u64,
    pub write: bool,
}

/// What each process holds, from one attach or detach to the next; by slots, rising.
pub struct Moment {
    pub held: Vec<Vec<Holding>>,
    /// What the words would hold whose segment may not be attached.
    pub nothing: Vec<Vec<Holding>>,
}

impl Moment {
    fn of(slots: &[u32]) -> Moment {
        let all = |own: &[u32], is: bool| {
            let holdings = own
                .iter()
                .filter(|&&word| word != 0)
                .map(|&word| Holding { segment: u64::from(word / 2), write: word % 2 == 1 });
            holdings.filter(|holding| (SEGMENT_FIRST..=SEGMENT_LAST).contains(&holding.segment) == is).collect()
        };
        let each = |is: bool| slots.chunks_exact(SLOTS as usize).map(|own| all(own, is)).collect();
        Moment { held: each(true), nothing: each(false) }
    }

    fn held_by(&self, process: u64) -> &[Holding] {
        of(&self.held, process)
    }

    /// Whether two are strangers, or what a wrong rule says of the earlier one and the later.
    pub fn strangers(&self, one: u64, other: u64, wrong: Option<Wrong>) -> bool {
        if one == other {
            return matches!(wrong, Some(Wrong::Itself | Wrong::Anyone));
        }
        let asked = |process: u64| {
            let held = self.held_by(process);
            let held = if wrong == Some(Wrong::FirstSlot) { &held[..held.len().min(1)] } else { held };
            let more = if wrong == Some(Wrong::CountsNothing) { of(&self.nothing, process) } else { &[] };
            held.iter().chain(more).filter(move |holding| match wrong {
                Some(Wrong::FirstSegment) => holding.segment != SEGMENT_FIRST,
                Some(Wrong::LastSegment) => holding.segment != SEGMENT_LAST,
                _ => true,
            })
        };
        let writes_to = |one: u64, other: u64| {
            let meets = |written: &Holding, held: &Holding| {
                let counts = match wrong {
                    Some(Wrong::MayRead) => written.write && held.write,
                    Some(Wrong::BothWrite) => written.write && !held.write,
                    Some(Wrong::BothRead) => true,
                    _ => written.write,
                };
                written.segment == held.segment && counts
            };
            asked(one).any(|written| asked(other).any(|held| meets(written, held)))
        };
        match wrong {
            Some(Wrong::Anyone) => true,
            Some(Wrong::OneWay) => !writes_to(one, other),
            _ => !writes_to(one, other) && !writes_to(other, one),
        }
    }
}

/// Those of a process: a number from P up has none.
fn of(all: &[Vec<Holding>], process: u64) -> &[Holding] {
    usize::try_from(process).ok().and_then(|process| all.get(process)).map_or(&[], |own| own)
}

/// The moments of a run, and that of each position.
pub struct Moments {
    pub all: Vec<Moment>,
    pub at: Vec<usize>,
}

pub fn process_of(call: &Call) -> Option<u64> {
    match *call {
        Call::UserAccess { process, .. } => Some(process),
        _ => None,
    }
}

pub fn is_store(call: &Call) -> bool {
    matches!(call, Call::UserAccess { store: true, .. })
}

// ---------------------------------------------------------------------------------------------
// Orders
// ---------------------------------------------------------------------------------------------

impl Reordering {
    pub fn moments(&self) -> Moments {
        let mut plain = Plain::of(&self.start.board);
        let mut moments = Moments { all: vec![Moment::of(&plain.slots)], at: Vec::new() };
        for call in &self.calls {
            moments.at.push(moments.all.len() - 1);
            let done = plain.step(call).number == 0;
            if done && matches!(call, Call::Attach { .. } | Call::Detach { .. }) {
                moments.all.push(Moment::of(&plain.slots));
            }
        }
        moments
    }

    /// Whether two calls, the earlier one first, may change their order, by the rule or by a wrong one.
    fn may_cross(&self, moments: &Moments, earlier: usize, later: usize) -> bool {
        let crosses = |call: &Call| matches!(self.wrong, Some(Wrong::Crosses(kind)) if kind == kind_of(call));
        let (first, second) = (&self.calls[earlier], &self.calls[later]);
        match (process_of(first), process_of(second)) {
            (Some(one), Some(other)) => {
                let moment = match self.wrong {
                    Some(Wrong::Neighbours) if later > earlier + 1 => return true,
                    Some(Wrong::AtStart) => moments.at[self.body.start],
                    Some(Wrong::AtEnd) => moments.at[self.body.end - 1],
                    _ => moments.at[earlier],
                };
                moments.all[moment].strangers(one, other, self.wrong)
            }
            (Some(_), None) => crosses(second),
            (None, Some(_)) => crosses(first),
            (None, None) => false,
        }
    }

    /// Draws an order of what is reordered: again and again one of the calls before which nothing more has to come.
    pub fn draw(&mut self, rng: &mut Rng, next: Next) {
        let (moments, body) = (self.moments(), self.body.clone());
        let mut after = vec![Vec::new(); self.calls.len()];
        let mut waits = vec![0; self.calls.len()];
        for (earlier, after) in after.iter_mut().enumerate().filter(|(earlier, _)| body.contains(earlier)) {
            for later in (earlier + 1..body.end).filter(|&later| !self.may_cross(&moments, earlier, later)) {
                after.push(later);
                waits[later] += 1;
            }
        }
        let mut free: Vec<usize> = body.clone().filter(|&position| waits[position] == 0).collect();
        self.order = (0..body.start).collect();
        while !free.is_empty() {
            let at = match next {
                Next::Any => rng.below(free.len() as u64) as usize,
                Next::Latest => (0..free.len()).max_by_key(|&at| free[at]).expect("one is free"),
            };
            let position = free.swap_remove(at);
            self.order.push(position);
            for &later in &after[position] {
                waits[later] -= 1;
                if waits[later] == 0 {
                    free.push(later);
                }
            }
        }
        self.order.extend(body.end..self.calls.len());
        assert_eq!(self.order.len(), self.calls.len(), "every call comes");
    }

    /// The positions that change their order, the earlier one first.
    pub fn crossed(&self) -> Vec<(usize, usize)> {
        let mut crossed = Vec::new();
        for (place, &later) in self.order.iter().enumerate() {
            crossed.extend(
                self.order[place + 1..].iter().filter(|&&earlier| earlier < later).map(|&earlier| (earlier, later)),
            );
        }
        crossed.sort_unstable();
        crossed
    }

    fn keeps_its_rule(&self) -> bool {
        let moments = self.moments();
        self.crossed().into_iter().all(|(earlier, later)| self.may_cross(&moments, earlier, later))
    }

    /// What the model says of it.
    pub fn allowed(&self) -> Result<(), order::Broken> {
        order::allowed(&self.start.board, &self.calls, &self.order)
    }

    fn order_of(&self, half: usize) -> Vec<usize> {
        if half == 0 {
            (0..self.calls.len()).collect()
        } else {
            self.order.clone()
        }
    }

    /// The board as the calls find it, by the model.
    pub fn begun(&self) -> Board {
        let mut board = self.start.board.clone();
        if self.first.iter().any(|step| matches!(&step.deed, Deed::Dump(dump) if dump.repair)) {
            dump::repair(&mut board);
        }
        board
    }

    /// By position, in one of the two runs: the name of the line that a call is to, and of the line that it writes back.
    pub fn names(&self, half: usize) -> (Vec<Option<u64>>, Vec<Option<u64>>) {
        let mut board = self.begun();
        let (mut names, mut written) = (vec![None; self.calls.len()], vec![None; self.calls.len()]);
        for position in self.order_of(half) {
            let call = &self.calls[position];
            names[position] = process_of(call).and_then(|_| name_of_call(&board, call));
            let old = names[position].and_then(|name| board.held(board.record_for(name))).map(|record| record.name);
            let (_, event) = board.step(call);
            written[position] = old.filter(|_| event == Event::MissWriteBack);
        }
        (names, written)
    }
}

/// The kinds of supervisor calls that a wrong rule may let accesses cross.
pub const SUPERVISOR: [&str; 14] = [
    "supervisor load",
    "supervisor store",
    "prefix 1 access",
    "prefix 0 access",
    "attach",
    "detach",
    "map",
    "unmap",
    "protect",
    "move",
    "flush all",
    "tag",
    "load-and-map",
    "drop tag",
];

/// Which of them a supervisor call is; of a user access there is none.
pub fn kind_of(call: &Call) -> usize {
    match *call {
        Call::SupervisorAccess { global, .. } if global < PREFIX1 => 3,
        Call::SupervisorAccess { global, .. } if global < PREFIX1_END => 2,
        Call::SupervisorAccess { store, .. } => usize::from(store),
        Call::Attach { .. } => 4,
        Call::Detach { .. } => 5,
        Call::Map { .. } => 6,
        Call::Unmap { .. } => 7,
        Call::Protect { .. } => 8,
        Call::Move { .. } => 9,
        Call::FlushAll => 10,
        Call::Tag { .. } => 11,
        Call::LoadAndMap { .. } => 12,
        Call::DropTag => 13,
        Call::UserAccess { .. } => SUPERVISOR.len(),
    }
}

// ---------------------------------------------------------------------------------------------
// The two runs
// ---------------------------------------------------------------------------------------------

/// What look shows of all physical lines.
pub type Shown = Vec<u8>;

/// A run that was made. Answers, looks and lists are by position.
pub struct Made {
    pub run: Run,
    pub trace: Trace,
    pub answers: Vec<Answer>,
    /// Before and after each supervisor call that is reordered or later.
    pub looks: Vec<Option<[Shown; 2]>>,
    /// In which list an access came, by its first place.
    pub lists: Vec<Option<usize>>,
    /// Where what is reordered begins, where it ends, and at the end.
    pub ends: [Shown; 3],
    /// The places of each step, and what look shows after it, where a planted fault asks for it.
    pub each: Vec<(Range<usize>, Shown)>,
    /// What look has shown since the last step.
    shown: Option<Shown>,
}

const NO_ANSWER: Answer = Answer { number: 255, value: 0, mark: 0 };

impl Made {
    fn of(whole: &Reordering, half: usize, coverage: &mut Coverage) -> Result<Made, Failure> {
        let plant = whole.wrong.map(Plant::Reordered);
        let (calls, length) = (&whole.calls, whole.calls.len());
        let trace = Trace { start: whole.start.clone(), steps: Vec::new(), plant };
        let mut made = Made {
            run: Run::new(&whole.start, plant),
            trace,
            answers: vec![NO_ANSWER; length],
            looks: vec![None; length],
            lists: vec![None; length],
            ends: [Shown::new(), Shown::new(), Shown::new()],
            each: Vec::new(),
            shown: None,
        };
        let looks_each = whole.wrong.is_some_and(Wrong::looks_each);
        whole.first.iter().try_for_each(|step| made.step(step.clone(), &[], coverage))?;
        let (order, brought) = (whole.order_of(half), &whole.brought[half]);
        let mut at = 0;
        while at < length {
            let manner = brought[at].manner;
            for (end, border) in [whole.body.start, whole.body.end].into_iter().enumerate() {
                if at == border {
                    made.ends[end] = made.look(&manner)?;
                }
            }
            let joins = |next: usize| {
                let border = next == whole.body.start || next == whole.body.end;
                !border && brought[next].listed && brought[next].joins && process_of(&calls[order[next]]).is_some()
            };
            let is_access = process_of(&calls[order[at]]).is_some();
            let mut next = at + 1;
            while is_access && brought[at].listed && next < length && joins(next) {
                next += 1;
            }
            let positions = &order[at..next];
            let seen = !is_access && order[at] >= whole.body.start;
            let before = if seen { Some(made.look(&manner)?) } else { None };
            if is_access && brought[at].listed {
                let items = positions.iter().filter_map(|&position| Item::of(&calls[position], 1)).collect();
                positions.iter().for_each(|&position| made.lists[position] = Some(at));
                let stain = 0x5EED_F00D_DEAD_BEEF ^ at as u64;
                let list = List { stain, offsets: [at % 16, next % 16], ..List::of(items) };
                made.step(Step { deed: Deed::List(list), manner }, positions, coverage)?;
            } else {
                made.step(Step { deed: Deed::Call(calls[order[at]]), manner }, positions, coverage)?;
            }
            if let Some(before) = before {
                made.looks[order[at]] = Some([before, made.look(&manner)?]);
            }
            if looks_each {
                let shown = made.look(&manner)?;
                made.each.push((at..next, shown));
            }
            at = next;
        }
        made.ends[2] = match brought.last() {
            Some(last) => made.look(&last.manner)?,
            None => Shown::new(),
        };
        if whole.body.end == length {
            made.ends[1] = made.ends[2].clone();
        }
        Ok(made)
    }

    /// Does a step, which is the calls at these positions.
    fn step(&mut self, step: Step, positions: &[usize], coverage: &mut Coverage) -> Result<(), Failure> {
        let given = self.run.step(&step, coverage);
        self.trace.steps.push(step);
        self.shown = None;
        match given {
            Ok(Given::Call(answer, _)) => positions.iter().for_each(|&position| self.answers[position] = answer),
            Ok(Given::List(_, answers)) => {
                positions.iter().zip(answers).for_each(|(&position, (answer, _))| self.answers[position] = answer);
            }
            Ok(_) => {}
            Err(difference) => return Err(Failure::Run(Box::new(self.trace.clone()), difference)),
        }
        Ok(())
    }

    fn look(&mut self, manner: &Manner) -> Result<Shown, Failure> {
        if self.shown.is_none() {
            let shown = self.run.shown(manner).map_err(|(line, difference)| {
                let mut trace = self.trace.clone();
                trace.steps.push(Step { deed: Deed::Look { line }, manner: *manner });
                Failure::Run(Box::new(trace), difference)
            })?;
            self.shown = Some(shown);
        }
        Ok(self.shown.clone().expect("it was looked"))
    }
}

impl Reordering {
    /// Makes both runs and compares them. The model has to say the same of who are strangers, and to allow the order, but for that of
    /// a wrong rule.
    pub fn compared(&self, coverage: &mut Coverage) -> Result<[Made; 2], Failure> {
        let failed = |text: String| Failure::Reordered(Box::new(self.clone()), text);
        if !self.wrong.is_some_and(Wrong::is_rule) {
            if let Some(text) = self.disagrees() {
                return Err(failed(text));
            }
            self.allowed()
                .map_err(|broken| failed(format!("the model doesn't allow an order that was drawn: {broken:?}")))?;
        }
        let first = Made::of(self, 0, coverage)?;
        let mut second = Made::of(self, 1, coverage)?;
        if let Some(Wrong::Tells(fault)) = self.wrong {
            fault.alter(self, &first, &mut second);
        }
        match self.tells_apart(&first, &second) {
            Some(text) => Err(failed(text)),
            None => Ok([first, second]),
        }
    }

    /// Where the rule, whether too wide or too narrow, and the model differ in who are strangers.
    fn disagrees(&self) -> Option<String> {
        let (moments, mut plain) = (self.moments(), Plain::of(&self.start.board));
        let last = self.start.board.shape.processes;
        for (position, call) in self.calls.iter().enumerate() {
            let moment = moments.at[position];
            if position == 0 || moments.at[position - 1] != moment {
                for (one, other) in (0..=last).flat_map(|one| (0..=last).map(move |other| (one, other))) {
                    let ours = moments.all[moment].strangers(one, other, self.wrong);
                    if ours != order::strangers(&plain.slots, one, other) {
                        let are = if ours { "not by the model" } else { "by the model alone" };
                        return Some(format!("{one} and {other} are strangers at call {}, {are}", position + 1));
                    }
                }
            }
            plain.step(call);
        }
        None
    }

    /// What tells the two runs apart.
    fn tells_apart(&self, first: &Made, second: &Made) -> Option<String> {
        let call = |position: usize| {
            let step = Step { deed: Deed::Call(self.calls[position]), manner: self.brought[0][position].manner };
            format!("call {} ({})", position + 1, trace::step_text(&step))
        };
        for (position, (one, two)) in first.answers.iter().zip(&second.answers).enumerate() {
            if (one.number, one.value) != (two.number, two.value) {
                let told = |answer: &Answer| format!("number {}, value {:#x}", answer.number, answer.value);
                return Some(format!("{}: {} in the one run, {} in the other", call(position), told(one), told(two)));
            }
        }
        for (position, (one, two)) in first.looks.iter().zip(&second.looks).enumerate() {
            let (Some(one), Some(two)) = (one, two) else { continue };
            for (when, (one, two)) in ["before", "after"].iter().zip(one.iter().zip(two)) {
                if let Some(line) = first_line(one, two) {
                    return Some(format!(
                        "look shows other bytes of physical line {line:#x} just {when} {}",
                        call(position)
                    ));
                }
            }
        }
        let when = ["before what is reordered", "after what is reordered", "at the end"];
        for (when, (one, two)) in when.iter().zip(first.ends.iter().zip(&second.ends)) {
            if let Some(line) = first_line(one, two) {
                return Some(format!("look shows other bytes of physical line {line:#x} {when}"));
            }
        }
        match self.wrong {
            Some(Wrong::Tells(fault)) => fault.asks_more(first, second),
            _ => None,
        }
    }

    /// Both runs as traces, each to the end.
    pub fn traces(&self) -> Option<[Trace; 2]> {
        let mut coverage = Coverage::new();
        let [first, second] = [0, 1].map(|half| Made::of(self, half, &mut coverage).ok().map(|made| made.trace));
        Some([first?, second?])
    }
}

/// The first physical line of which the bytes differ.
pub fn first_line(one: &[u8], two: &[u8]) -> Option<usize> {
    if one == two {
        return None;
    }
    let lines = |bytes: &[u8]| bytes.len() / LINE_BYTES as usize;
    let differ = |line: &usize| one[line_bytes(*line as u64)] != two[line_bytes(*line as u64)];
    Some((0..lines(one).min(lines(two))).find(differ).unwrap_or(lines(one).min(lines(two))))
}

// ---------------------------------------------------------------------------------------------
// Making it small
// ---------------------------------------------------------------------------------------------

/// At most so many pairs of runs are spent.
const BUDGET: u32 = 600;

struct Shrinker {
    best: Reordering,
    text: String,
    coverage: Coverage,
    budget: u32,
}

/// Drops calls by halves and then one by one, turns back what need not be turned, and brings calls in the simplest way, while the
/// two runs can still be told apart and the rule is kept.
pub fn shrink(found: Reordering, text: String) -> (Reordering, String) {
    let mut shrinker = Shrinker { best: found, text, coverage: Coverage::new(), budget: BUDGET };
    quietly(|| {
        shrinker.drop_calls();
        shrinker.turn_back();
        shrinker.simplify();
        shrinker.drop_calls();
    });
    (shrinker.best, shrinker.text)
}

impl Shrinker {
    fn takes(&mut self, candidate: Reordering) -> bool {
        if self.budget == 0 || !candidate.keeps_its_rule() {
            return false;
        }
        self.budget -= 1;
        match candidate.compared(&mut self.coverage) {
            Err(Failure::Reordered(candidate, text)) => {
                (self.best, self.text) = (*candidate, text);
                true
            }
            _ => false,
        }
    }

    fn drop_calls(&mut self) {
        let mut size = self.best.calls.len().div_ceil(2);
        while size > 0 {
            let mut at = 0;
            while at < self.best.calls.len() {
                let end = (at + size).min(self.best.calls.len());
                let candidate = self.best.without(at..end);
                if !self.takes(candidate) {
                    at = end;
                }
            }
            size /= 2;
        }
    }

    fn turn_back(&mut self) {
        let mut at = 1;
        while at < self.best.order.len() {
            let mut candidate = self.best.clone();
            candidate.order.swap(at - 1, at);
            if candidate.order[at - 1] < candidate.order[at] && self.takes(candidate) {
                at = at.max(2) - 1;
            } else {
                at += 1;
            }
        }
    }

    fn simplify(&mut self) {
        let edits: [fn(&mut Brought); 3] =
            [|way| way.joins = false, |way| way.listed = false, |way| way.manner.route = crate::routes::Route::Raw];
        for edit in edits {
            let mut candidate = self.best.clone();
            candidate.brought.iter_mut().flatten().for_each(edit);
            self.takes(candidate);
        }
        if self.best.start.fresh {
            let board = &self.best.start.board;
            let mut candidate = self.best.clone();
            candidate.start.board =
                Board { memory: board.memory.clone(), ..Board::fresh_of(board.edition, board.shape) };
            candidate.start.offsets = [0; 6];
            self.takes(candidate);
            let mut candidate = self.best.clone();
            candidate.start.board.memory.fill(0);
            self.takes(candidate);
        }
    }
}

impl Reordering {
    /// Without the calls at these positions.
    fn without(&self, gone: Range<usize>) -> Reordering {
        let mut rest = self.clone();
        let left = |position: usize| position.min(gone.start) + position.saturating_sub(gone.end);
        rest.calls.drain(gone.clone());
        rest.brought[0].drain(gone.clone());
        let stays = |position: usize| !gone.contains(&position);
        rest.brought[1] =
            self.order.iter().zip(&self.brought[1]).filter(|(at, _)| stays(**at)).map(|(_, way)| *way).collect();
        rest.order = self.order.iter().filter(|at| stays(**at)).map(|&at| left(at)).collect();
        rest.body = left(self.body.start)..left(self.body.end);
        rest
    }
}
