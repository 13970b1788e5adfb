//! Demand 3 by samples: two runs from one board, a fresh one or one that the checker accepts (CR 13), with the same supervisor calls and the same accesses by process 0, the
//! others' accesses changed, added or left out. No segment that process 0 ever holds is ever held for writing by another:
//! process 0 attaches only the world's segments but the second, others attach these read-only. A page that is moved into one of
//! these out of any other has the same bytes in both runs at that moment, as look shows them, even if process 0 attaches the
//! segment only later (CR 9): the two runs are planned side by side, on the model's boards, and a move that would break this is
//! left out of both. Then process 0 gets the same numbers and values, and at the end the same bytes stand in the mapped pages of
//! its segments; only its marks may differ. Accesses come by lists too, which are the single calls one after another: those of a
//! list in the first run come in the second by a list, in which the others' are changed, added or left out, or one by one.

use crate::coverage::{Coverage, PairCounts};
use crate::gen::{self, World};
use crate::limits::*;
use crate::lists::{Item, List};
use crate::order::Reordering;
use crate::rng::Rng;
use crate::run::{Difference, Given, Run};
use crate::trace::{Deed, Start, Step, Trace};
use model::{
    dump, mapping, page_in_range, page_of_name, segment_in_range, slot_read, Answer, Board, Call, Edition, Shape,
};

const STEPS: usize = 150;

pub enum Failure {
    /// One run differs from the model, as any run may.
    Run(Box<Trace>, Difference),
    /// Process 0 can tell the two runs apart.
    Apart(Box<[Trace; 2]>, String),
    /// A run can be told from its reordering.
    Reordered(Box<Reordering>, String),
}

/// What is wrong in a pair: the self-test's faults.
#[derive(Clone, Copy, Debug, PartialEq, Eq)]
pub enum Wrong {
    /// What process 0 gets in the second run is altered.
    Value,
    /// Pages are moved into its segments whatever their bytes are.
    AnyBytes,
    /// Their bytes are asked only where it holds the segment at that moment.
    HeldOnly,
}

/// One of the two runs, as far as it is planned: its steps, and the board as they leave it, by the model.
struct Half {
    board: Board,
    steps: Vec<Step>,
    /// Whether a list of process 0's accesses and others' comes otherwise than in the first run.
    other_list: bool,
}

impl Half {
    fn new(start: &Start) -> Half {
        Half { board: start.board.clone(), steps: Vec::new(), other_list: false }
    }

    fn step(&mut self, step: Step) {
        match &step.deed {
            Deed::Call(call) => {
                self.board.step(call);
            }
            Deed::List(list) => {
                self.board.list(&list.words(), &mut vec![Answer { number: 0, value: 0, mark: 0 }; list.answers]);
            }
            Deed::Dump(lent) if lent.repair => {
                dump::repair(&mut self.board);
            }
            _ => {}
        }
        self.steps.push(step);
    }

    /// Another access by some process but 0.
    fn other(&self, rng: &mut Rng, world: &World) -> Call {
        let process = 1 + rng.below(self.board.shape.processes - 1);
        gen::user_access(rng, world, &self.board, process)
    }

    fn others_access(&mut self, rng: &mut Rng, world: &World) {
        let deed = Deed::Call(self.other(rng, world));
        self.step(Step { deed, manner: gen::manner(rng) });
    }

    /// The same list, the others' accesses changed, added or left out; by a list, or one by one.
    fn others_list(&mut self, rng: &mut Rng, world: &World, list: &List) {
        let mut items = Vec::new();
        for item in &list.items {
            if rng.percent(15) {
                items.extend(Item::of(&self.other(rng, world), 1));
            }
            match item.process != 0 {
                true if rng.percent(40) => {}
                true if rng.percent(50) => items.extend(Item::of(&self.other(rng, world), 1)),
                _ => items.push(*item),
            }
        }
        if rng.percent(70) {
            self.other_list |= items != list.items && items.iter().any(|item| item.process == 0);
            let list = List { stain: list.stain, offsets: list.offsets, ..List::of(items) };
            return self.step(Step { deed: Deed::List(list), manner: gen::manner(rng) });
        }
        for item in items {
            self.step(Step { deed: Deed::Call(item.call()), manner: gen::manner(rng) });
        }
    }
}

/// A run that was made.
struct Made {
    run: Run,
    trace: Trace,
    /// The answers to process 0.
    answers: Vec<Answer>,
}

impl Made {
    fn of(start: &Start, half: Half, coverage: &mut Coverage) -> Result<Made, Failure> {
        let trace = Trace { start: start.clone(), steps: Vec::new(), plant: None };
        let mut made = Made { run: Run::new(start, None), trace, answers: Vec::new() };
        half.steps.into_iter().try_for_each(|step| made.step(step, coverage))?;
        Ok(made)
    }

    fn step(&mut self, step: Step, coverage: &mut Coverage) -> Result<(), Failure> {
        let given = self.run.step(&step, coverage);
        match (&step.deed, &given) {
            (Deed::Call(_), Ok(Given::Call(answer, _))) if is_access(&step, |process| process == 0) => {
                self.answers.push(*answer)
            }
            (Deed::List(list), Ok(Given::List(_, answers))) => {
                let own = list.items.iter().zip(answers).filter(|(item, _)| item.process == 0);
                self.answers.extend(own.map(|(_, (answer, _))| *answer));
            }
            _ => {}
        }
        self.trace.steps.push(step);
        match given {
            Ok(_) => Ok(()),
            Err(difference) => Err(Failure::Run(Box::new(self.trace.clone()), difference)),
        }
    }
}

fn is_access(step: &Step, by: impl Fn(u64) -> bool) -> bool {
    matches!(step.deed, Deed::Call(Call::UserAccess { process, .. }) if by(process))
}

/// The segments that process 0 may hold, and what becomes of them in a pair.
struct Own {
    segments: Vec<u64>,
    /// Those that it has held.
    held: Vec<u64>,
    /// Those into which a page was moved out of one that it never holds, before it held them.
    awaited: Vec<u64>,
    /// What there was in this pair: 1, or 0.
    met: PairCounts,
}

impl Own {
    fn new(world: &World) -> Own {
        let others = world.segments[1];
        let segments = world.segments.iter().copied().filter(|&segment| segment != others).collect();
        Own { segments, held: Vec::new(), awaited: Vec::new(), met: PairCounts::NONE }
    }

    fn has(&self, page: u64) -> bool {
        self.segments.contains(&(page / PAGES_PER_SEGMENT))
    }

    /// Keeps the premise on segments: see above. Where process 0 is to hold none yet, another attaches them.
    fn apart(&self, call: Call, may_hold: bool) -> Call {
        match call {
            Call::Attach { process: 0, slot, segment, write } if may_hold && segment_in_range(segment) => {
                let segment = if self.segments.contains(&segment) { segment } else { self.segments[0] };
                Call::Attach { process: 0, slot, segment, write }
            }
            Call::Attach { process, slot, segment, write } if segment_in_range(segment) => {
                let write = write && !self.segments.contains(&segment);
                Call::Attach { process: process.max(1), slot, segment, write }
            }
            other => other,
        }
    }

    /// Whether a move in both runs keeps the premise on moves, or what is left of it; one that is refused does.
    fn may_move(&mut self, [first, second]: [&Board; 2], (page, new_page): (u64, u64), wrong: Option<Wrong>) -> bool {
        let frame_of = |page: u64| mapping(&first.shape, &first.words, page).map(|(frame, _)| frame);
        let Some(frame) = frame_of(page).filter(|_| page_in_range(new_page) && frame_of(new_page).is_none()) else {
            return true;
        };
        let segment = new_page / PAGES_PER_SEGMENT;
        if !self.has(new_page) {
            return true;
        }
        if self.has(page) {
            let within = page / PAGES_PER_SEGMENT == segment;
            *(if within { &mut self.met.within } else { &mut self.met.between }) = 1;
            return true;
        }
        let mut lines = line_in(frame, 0)..line_in(frame + 1, 0);
        let asked = match wrong {
            Some(Wrong::AnyBytes) => false,
            Some(Wrong::HeldOnly) => holds(first, segment),
            _ => true,
        };
        if asked && !lines.all(|line| first.look(line) == second.look(line)) {
            return false;
        }
        self.met.same_bytes = 1;
        if held_lines(first, page) != held_lines(second, page) {
            self.met.other_lines = 1;
        }
        if !self.held.contains(&segment) {
            self.awaited.push(segment);
        }
        true
    }

    /// After a step: which segments process 0 holds now.
    fn note(&mut self, board: &Board) {
        let now: Vec<u64> = self.segments.iter().copied().filter(|&segment| holds(board, segment)).collect();
        if now.iter().any(|segment| self.awaited.contains(segment)) {
            self.met.later = 1;
        }
        self.held.extend(now);
        self.held.sort_unstable();
        self.held.dedup();
    }
}

/// Whether process 0 holds a segment.
fn holds(board: &Board, segment: u64) -> bool {
    board.slots[..SLOTS as usize].iter().any(|&word| slot_read(word).is_some_and(|(held, _)| held == segment))
}

/// The lines of a page that are held: their names, and whether they are changed.
fn held_lines(board: &Board, page: u64) -> Vec<(u64, bool)> {
    let held = board.all_records().filter_map(|at| board.held(at));
    held.filter(|record| page_of_name(record.name) == page).map(|record| (record.name, record.changed)).collect()
}

/// One pair from a fresh board, with what is wrong in it, if anything is.
pub fn pair(rng: &mut Rng, edition: Edition, coverage: &mut Coverage, wrong: Option<Wrong>) -> Result<(), Failure> {
    let (frames, uncached, processes) = (2 + rng.below(4), rng.below(2), 2 + rng.below(2));
    // Few sets of four, so that lines are pushed out.
    let sets = 1 << rng.below(if edition == Edition::Fours { 2 } else { 4 });
    let shape = Shape { frames, uncached, processes, lines: set_lines(edition) * sets };
    let start = gen::fresh(rng, edition, shape);
    let world = World::new(rng, edition, &shape);
    let met = pair_from(rng, &start, world, &[], coverage, wrong)?;
    coverage.pairs(edition).add(met);
    Ok(())
}

/// One pair from a board whose slots are empty, both runs with these steps first: a fresh board, or one that they repair. Gives what
/// there was in it.
pub fn pair_from(
    rng: &mut Rng,
    start: &Start,
    mut world: World,
    steps: &[Step],
    coverage: &mut Coverage,
    wrong: Option<Wrong>,
) -> Result<PairCounts, Failure> {
    if rng.percent(40) {
        // Another that process 0 may hold.
        world.segments.push(world.segments[0] ^ (1 << 13));
    }
    let mut own = Own::new(&world);
    let holds_from = if rng.percent(40) { STEPS / 2 } else { 0 };
    let (mut first, mut second) = (Half::new(start), Half::new(start));
    for step in steps {
        first.step(step.clone());
        second.step(step.clone());
    }
    for index in 0..STEPS {
        let deed = if index >= 10 && rng.percent(10) {
            Deed::List(gen::fitting_list(rng, &world, &first.board))
        } else if index >= 10 && rng.percent(6) {
            Deed::Call(gen::move_page(rng, &world, &first.board))
        } else {
            Deed::Call(own.apart(gen::call(rng, &world, &first.board, index < 10), index >= holds_from))
        };
        if rng.percent(15) {
            second.others_access(rng, &world);
        }
        if let Deed::Call(Call::Move { page, new_page }) = deed {
            if !own.may_move([&first.board, &second.board], (page, new_page), wrong) {
                continue;
            }
        }
        let step = Step { deed, manner: gen::manner(rng) };
        first.step(step.clone());
        own.note(&first.board);
        match &step.deed {
            Deed::List(list) => second.others_list(rng, &world, list),
            _ if !is_access(&step, |process| process != 0) => second.step(step),
            _ if rng.percent(40) => {}
            _ if rng.percent(50) => second.others_access(rng, &world),
            _ => second.step(step),
        }
    }
    let audit = Step { deed: Deed::Audit, manner: gen::manner(rng) };
    first.step(audit.clone());
    second.step(audit);
    let other_list = second.other_list;
    let (first, mut second) = (Made::of(start, first, coverage)?, Made::of(start, second, coverage)?);
    if wrong == Some(Wrong::Value) {
        if let Some(answer) = second.answers.last_mut() {
            answer.value ^= 1;
        }
    }
    let marks = |made: &Made| made.answers.iter().map(|answer| answer.mark).collect::<Vec<_>>();
    let differ = |differs: fn(u32, u32) -> bool| {
        u64::from(marks(&first).into_iter().zip(marks(&second)).any(|(one, two)| differs(one, two)))
    };
    let mut met = own.met;
    met.pairs = 1;
    met.list = u64::from(other_list);
    met.hit = differ(|one, two| (one == HIT) != (two == HIT));
    met.write_back = differ(|one, two| one != two && one != HIT && two != HIT);
    match tells_apart(&first, &second, &own.held) {
        Some(text) => Err(Failure::Apart(Box::new([first.trace, second.trace]), text)),
        None => Ok(met),
    }
}

/// What process 0, which has held these segments, could tell the two runs apart by. Both have been audited: what look shows is the
/// plain machine's memory.
fn tells_apart(first: &Made, second: &Made, held: &[u64]) -> Option<String> {
    let replies = |made: &Made| made.answers.iter().map(|answer| (answer.number, answer.value)).collect::<Vec<_>>();
    let (ours, theirs) = (replies(first), replies(second));
    if let Some(at) = (0..ours.len()).find(|&at| theirs.get(at) != Some(&ours[at])) {
        let (one, two) = (ours[at], theirs.get(at));
        return Some(format!("process 0's access {at}: number and value {one:?} in one run, {two:?} in the other"));
    }
    let (words, memory) = (&first.run.model.words, first.run.flat_memory());
    if *words != second.run.model.words {
        return Some("the page maps differ at the end".into());
    }
    let pages = memory.chunks(PAGE_BYTES as usize).zip(second.run.flat_memory().chunks(PAGE_BYTES as usize));
    let differ =
        |(word, (one, two)): (&u64, (&[u8], &[u8]))| held.contains(&(word / 4 / PAGES_PER_SEGMENT)) && one != two;
    let frame = words.iter().zip(pages).position(differ)?;
    Some(format!("the bytes in frame {frame}, a page of process 0's segment, differ at the end"))
}
