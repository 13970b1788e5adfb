//! A run: the library beside the model (and, from a fresh board or one that the checker accepts, the plain machine), compared
//! after every step.

use crate::apart;
use crate::cases::{self, Facts};
use crate::coverage::{self, Coverage, Sort};
use crate::dump_faults::{Faulty, Wrong};
use crate::dump_routes;
use crate::dump_sights::{self, Since};
use crate::dumps::{self, Dump, Expected, Report};
use crate::guarded::{Element, Lists, Real};
use crate::limits::{line_bytes, matrix_bytes, LINES_PER_PAGE, LINE_BYTES};
use crate::lists::{Did, List, Tally};
use crate::logs::{self, Written};
use crate::marks;
use crate::moves::{self, Moved};
use crate::plant::Plant;
use crate::routes::{self, Manner, Route};
use crate::sets::{self, By};
use crate::sights;
use crate::trace::{Deed, Start, Step, Trace};
use crate::values;
use model::{dump, Answer, Board, Call, Event, Matrix, Plain, PlainAnswer, Record};
use std::collections::HashMap;
use std::fmt::Display;
use std::panic::{catch_unwind, AssertUnwindSafe};

#[derive(Clone, Copy, Debug, PartialEq, Eq)]
pub enum Kind {
    Number,
    Value,
    Mark,
    Table,
    Form,
    Canary,
    Buffer,
    Uses,
    Order,
    Tag,
    Accesses,
    Answers,
    Inputs,
    Read,
    Asked,
    Whole,
    Written,
    Trip,
    Refused,
    Report,
    Flags,
    Drops,
    Unsound,
    Look,
    Entry,
    Plain,
    TwoCopies,
    Reordered,
    Panic,
    Signal,
}

/// The first thing that is not as it should be.
#[derive(Clone, Debug, PartialEq, Eq)]
pub struct Difference {
    pub kind: Kind,
    pub text: String,
}

type Check = Result<(), Difference>;

pub fn differs(kind: Kind, text: impl Into<String>) -> Difference {
    Difference { kind, text: text.into() }
}

pub fn same<T: PartialEq + Display>(kind: Kind, what: &str, library: T, expected: T, whose: &str) -> Check {
    if library == expected {
        return Ok(());
    }
    Err(differs(kind, format!("{what}: the library gives {library}, {whose} {expected}")))
}

pub fn same_buffer<T: Element>(kind: Kind, what: &str, library: &[T], expected: &[T], whose: &str) -> Check {
    if library == expected {
        return Ok(());
    }
    let at = library.iter().zip(expected).position(|(ours, theirs)| ours != theirs).expect("lengths never change");
    let (ours, theirs) = (library[at], expected[at]);
    Err(differs(kind, format!("{what}[{at}]: {ours:#x} in the library's, {theirs:#x} in {whose}")))
}

/// What a step gave, for the verbose replay and for pairs of runs.
#[derive(Clone, Debug, PartialEq, Eq)]
pub enum Given {
    Call(Answer, Event),
    /// The list's own answer, then each access's: none where it is refused.
    List(Answer, Vec<(Answer, Event)>),
    Look(u32),
    Entry(u32, u64),
    /// Of a log that was read, or an entry that was written, in words.
    Log(String),
    /// Of a check or a repair.
    Dump(Report),
    Audit,
}

/// What stands in the model's answers before a list, and after one that is refused: no answer.
const NO_ANSWER: Answer = Answer { number: 255, value: 0, mark: 0 };

/// A look: its number, and where 01 puts the bytes.
struct Seen {
    number: u32,
    line: u64,
    /// How many records hold the line, and the lowest.
    holders: usize,
    lowest: Option<u64>,
}

pub struct Run {
    sort: Sort,
    pub model: Board,
    plain: Option<Plain>,
    /// The buffers after the last call that was done: what a refused one must leave.
    kept: Board,
    real: Real,
    /// The last move that was done, as long as it counts; and whether there was one.
    moved: Option<Moved>,
    has_moved: bool,
    /// The entries of logs that were written.
    written: Written,
    /// Whether the checker has to accept the board, and where the plain machine began, if that was not fresh; and whether a repair
    /// has dropped lines.
    accepted: bool,
    since: Option<Since>,
    repaired: bool,
    plant: Option<Plant>,
}

impl Run {
    pub fn new(start: &Start, plant: Option<Plant>) -> Run {
        apart::record_start(start, plant);
        apart::begin();
        let model = start.board.clone();
        Run {
            sort: start.sort(),
            plain: start.fresh.then(|| Plain::of(&model)),
            kept: model.clone(),
            real: Real::of(&model, &start.offsets),
            moved: None,
            has_moved: false,
            written: Written::default(),
            accepted: start.fresh && model.fits(),
            since: None,
            repaired: false,
            model,
            plant,
        }
    }

    /// Does one step on every machine and compares. A panic counts as a difference.
    pub fn step(&mut self, step: &Step, coverage: &mut Coverage) -> Result<Given, Difference> {
        apart::record_step(step);
        catch_unwind(AssertUnwindSafe(|| self.compared(step, coverage))).unwrap_or_else(|panic| {
            let text = match (panic.downcast_ref::<String>(), panic.downcast_ref::<&str>()) {
                (Some(text), _) => text.clone(),
                (_, Some(text)) => text.to_string(),
                _ => "no message".into(),
            };
            Err(differs(Kind::Panic, format!("panic: {text}")))
        })
    }

    /// How something is brought that is to be brought so, after the tag's set says what the manner has it say.
    fn carried(&mut self, manner: &Manner) -> Manner {
        let mut manner = *manner;
        if manner.route == Route::Safe {
            manner.yes = 1;
        }
        self.real.set.inner_mut()[0] = manner.flag(self.model.tag.0);
        if manner.route == Route::Safe && !routes::safe_can_carry(&self.real) {
            manner.route = Route::Raw;
        }
        manner
    }

    fn compared(&mut self, step: &Step, coverage: &mut Coverage) -> Result<Given, Difference> {
        let manner = self.carried(&step.manner);
        let given = match step.deed {
            Deed::Call(call) => self.call(&call, &manner, coverage),
            Deed::List(ref list) => self.list(list, manner, coverage),
            Deed::Look { line } => self.look(line, &manner, coverage),
            Deed::LookNumber { line } => self.look_number(line, &manner, coverage),
            Deed::Entry { page } => self.entry(page, &manner, coverage),
            Deed::Read(ref reading) => {
                let text = logs::read(reading, &self.written, &step.manner, self.plant, coverage)?;
                self.same_buffers(true)?;
                Ok(Given::Log(text))
            }
            Deed::Write(ref writing) => {
                let text = logs::write(writing, &mut self.written, &step.manner, self.plant, coverage)?;
                self.same_buffers(true)?;
                Ok(Given::Log(text))
            }
            Deed::Dump(ref dump) => self.dump(dump, &manner, coverage),
            Deed::Audit => self.audit(&manner, coverage),
        }?;
        self.beside_plain(&step.deed, &given, coverage)?;
        Ok(given)
    }

    fn call(&mut self, call: &Call, manner: &Manner, coverage: &mut Coverage) -> Result<Given, Difference> {
        let facts = Facts::before(&self.model, call);
        let set = sets::Facts::before(&self.model, call, false);
        let left = sets::left(&self.model, call);
        let met = sights::met(&self.model, call);
        let of_move = moves::Facts::before(&self.model, call);
        let mut cases = cases::manner_cases(&self.model, call, manner);
        let (mut expected, event) = self.model.step(call);
        let (tagged, _) = self.real.tag();
        let outcome = routes::call(&mut self.real, call, manner);
        let mut told = outcome.map_err(|text| differs(Kind::Canary, text))?;
        if let Some(plant) = self.plant {
            let before = (&self.kept, &facts);
            plant.after_call(call, before, event, (&mut self.real, &mut told), (&mut self.model, &mut expected));
        }
        let answer = told.answer;
        same(Kind::Number, "number", answer.number, expected.number, "the model")?;
        same(Kind::Value, "value", answer.value, expected.value, "the model")?;
        same(Kind::Mark, "mark", answer.mark, expected.mark, "the model")?;
        let deed = Deed::Call(*call);
        if !coverage::in_table(&deed, answer.number) {
            return Err(differs(Kind::Table, format!("01 has no number {} for this call", answer.number)));
        }
        let Some(marked) = marks::marked(call, answer.number, answer.mark) else {
            let Answer { number, mark, .. } = answer;
            return Err(differs(Kind::Table, format!("CR 8 has no mark {mark} for this call with number {number}")));
        };
        if let Some(text) = told.disagrees() {
            return Err(differs(Kind::Form, text));
        }
        self.same_tag(tagged)?;
        let mut moves = of_move.map_or(Vec::new(), |facts| facts.sights(event));
        moves.extend(self.moved.iter().filter(|_| answer.number != 1).flat_map(|m| m.sights(&self.kept, call, event)));
        if answer.number == 0 {
            self.moved = Moved::after(self.moved.take(), &self.kept, call);
            self.has_moved |= self.moved.is_some();
        }
        self.same_buffers(answer.number != 0)?;
        self.same_as_plain(call, &answer, event)?;
        cases.extend(cases::cases_of(&facts, call, event));
        coverage.count(self.sort, &deed, manner.route, answer.number, &cases);
        coverage.count_mark(self.sort, manner.route, marked);
        coverage.count_move(self.sort, manner.route, call, answer.number, &moves);
        if let Some(set) = set {
            let after = self.model.uses[set.place()];
            self.count_set(&set, event, &after, manner.route, coverage)?;
        }
        if answer.number == 0 {
            coverage.count_sights(self.sort, manner.route, self.model.shape.lines, &met);
            for by in left {
                coverage.count_set(self.sort, manner.route, by, &[sets::Sight::Leaves], None);
            }
        }
        if let Some(tried) = values::tried(&self.model, call, event, answer.number) {
            coverage.count_value(self.sort, manner.route, tried);
        }
        Ok(Given::Call(answer, event))
    }

    /// What an access or a load-and-map met in its set, which has this matrix after it. From a fresh board, the matrix after a use
    /// is that of the order of uses, whatever the model says.
    fn count_set(
        &self,
        set: &sets::Facts,
        event: Event,
        after: &Matrix,
        route: Route,
        coverage: &mut Coverage,
    ) -> Check {
        let (by, met) = set.sights(event);
        let used = set.used(event).filter(|_| self.sort.fresh);
        let change = used.map(|line| sets::change(set.matrix(), line, after)).transpose();
        let change = change.map_err(|text| differs(Kind::Order, text))?;
        coverage.count_set(self.sort, route, by, &met, change);
        Ok(())
    }

    // ----- lists -----

    fn list(&mut self, list: &List, mut manner: Manner, coverage: &mut Coverage) -> Result<Given, Difference> {
        if !routes::can_carry(manner.route, list) {
            manner.route = if manner.route == Route::Board { Route::Header } else { Route::Raw };
        }
        let mut lists = routes::lend(list, manner.route).map_err(|text| differs(Kind::Form, text))?;
        let mut expected = vec![NO_ANSWER; list.answers];
        let (mut names, mut records, mut before) = (Vec::new(), Vec::new(), Vec::new());
        let (own, events) = self.model.list_seen(&list.words(), &mut expected, |board, call| {
            let name = cases::name_of_call(board, call);
            names.push(name);
            records.push(name.map(|name| board.record_for(name)));
            before.push(sets::Facts::before(board, call, true));
        });
        let (tagged, _) = self.real.tag();
        let outcome = routes::list(&mut self.real, &mut lists, &manner);
        let mut told = outcome.map_err(|text| differs(Kind::Canary, text))?;
        if let Some(plant) = self.plant {
            let seen = (&mut self.real, &mut lists, &mut told);
            plant.after_list(list, &self.kept, seen, &mut expected);
        }
        let answer = told.answer;
        same(Kind::Number, "the list's number", answer.number, own.number, "the model")?;
        same(Kind::Value, "the list's value", answer.value, own.value, "the model")?;
        same(Kind::Mark, "the list's mark", answer.mark, own.mark, "the model")?;
        let marked = marks::list_marked(answer.number, answer.mark);
        let Some(marked) = marked.filter(|_| coverage::in_table_of_lists(answer.number)) else {
            return Err(differs(Kind::Table, format!("CR 12 has no such answer of a list: {answer:?}")));
        };
        if let Some(text) = told.disagrees() {
            return Err(differs(Kind::Form, text));
        }
        self.same_tag(tagged)?;
        let answers = if answer.number == 0 { &expected[..] } else { &[] };
        self.same_lists(list, &lists, answers, manner.route)?;
        let did: Vec<Did> = events.iter().copied().zip(records).collect();
        let tally = Tally::of(list, &manner, &self.kept, &did);
        self.same_buffers(answer.number != 0)?;
        self.same_list_as_plain(list, &answer, answers)?;
        coverage.count_list(self.sort, manner.route, answer.number, &tally);
        coverage.count_mark(self.sort, manner.route, marked);
        if let Some(moved) = &self.moved {
            let named = names.iter().zip(&events).filter_map(|(name, event)| name.map(|name| (name, *event)));
            let met: Vec<_> = named.flat_map(|(name, event)| moved.sights_in_list(name, event)).collect();
            coverage.count_move_met(self.sort, manner.route, &met);
        }
        self.count_sets(&before, &events, manner.route, coverage)?;
        Ok(Given::List(answer, answers.iter().copied().zip(events).collect()))
    }

    /// What the accesses of a list met in their sets. A set's matrix after an access is the one before the next access to the set,
    /// or after the list.
    fn count_sets(
        &self,
        before: &[Option<sets::Facts>],
        events: &[Event],
        route: Route,
        coverage: &mut Coverage,
    ) -> Check {
        let mut next = HashMap::new();
        for (set, &event) in before.iter().zip(events).rev() {
            let Some(set) = set else { continue };
            let after = next.insert(set.place(), *set.matrix()).unwrap_or(self.model.uses[set.place()]);
            self.count_set(set, event, &after, route, coverage)?;
        }
        Ok(())
    }

    /// A list's own buffers: nothing around them was written, nor the accesses; the answers are these, each as the route reads
    /// it, too. Where there are none, because the list is refused, what was there before stands there still.
    fn same_lists(&self, list: &List, lists: &Lists, answers: &[Answer], route: Route) -> Check {
        if let Some(name) = lists.broken() {
            return Err(differs(Kind::Canary, format!("bytes around {name} were written")));
        }
        same_buffer(Kind::Accesses, "accesses", lists.accesses.inner(), &list.words(), "the list as it was")?;
        if answers.is_empty() {
            return same_buffer(Kind::Answers, "answers", lists.answers.inner(), &list.before(), "those before");
        }
        for (index, (answer, &packed)) in answers.iter().zip(lists.answers.inner()).enumerate() {
            let right = routes::packed(answer);
            if packed != right {
                let text = format!("answer {index}: {packed:#018x} in the library's, {right:#018x} in the model's");
                return Err(differs(Kind::Answers, format!("{text}: {answer:?}")));
            }
            let call = list.items[index].call();
            let Answer { number, mark, .. } = *answer;
            if !coverage::in_table_of_items(number) || marks::marked(&call, number, mark).is_none() {
                return Err(differs(Kind::Table, format!("01 and CR 8 have no such answer {index}: {answer:?}")));
            }
            let mut told = routes::told_of(packed, route);
            if let Some(plant) = self.plant {
                plant.after_answer(&mut told);
            }
            let disagrees = told.disagrees().filter(|_| told.answer == *answer);
            if told.answer != *answer || disagrees.is_some() {
                let text = disagrees.unwrap_or(format!("read as {:?}, and should be {answer:?}", told.answer));
                return Err(differs(Kind::Form, format!("answer {index}: {text}")));
            }
        }
        Ok(())
    }

    fn same_list_as_plain(&mut self, list: &List, answer: &Answer, answers: &[Answer]) -> Check {
        let Some(plain) = &mut self.plain else { return Ok(()) };
        let mut expected = vec![PlainAnswer { number: NO_ANSWER.number, value: 0 }; list.answers];
        let own = plain.list(&list.words(), &mut expected);
        if let Some(plant) = self.plant {
            plant.after_plain_list(&mut expected);
        }
        same(Kind::Plain, "the list's number", answer.number, own.number, "the plain machine")?;
        same(Kind::Plain, "the list's value", answer.value, own.value, "the plain machine")?;
        for (index, (answer, expected)) in answers.iter().zip(&expected).enumerate() {
            let what = format!("answer {index}'s number");
            same(Kind::Plain, &what, answer.number, expected.number, "the plain machine")?;
            let what = format!("answer {index}'s value");
            same(Kind::Plain, &what, answer.value, expected.value, "the plain machine")?;
        }
        Ok(())
    }

    /// The canaries, and every buffer against the model's. After a refused call nothing may be other than before it,
    /// whatever the model says.
    fn same_buffers(&mut self, refused: bool) -> Check {
        if let Some(name) = self.real.broken().first() {
            return Err(differs(Kind::Canary, format!("bytes around {name} were written")));
        }
        self.same_board(&self.model, Kind::Buffer, "the model's")?;
        if refused {
            self.same_board(&self.kept, Kind::Refused, "the board before this refused call")?;
        } else {
            self.kept.slots.copy_from_slice(&self.model.slots);
            self.kept.words.copy_from_slice(&self.model.words);
            self.kept.records.copy_from_slice(&self.model.records);
            self.kept.cache.copy_from_slice(&self.model.cache);
            self.kept.memory.copy_from_slice(&self.model.memory);
            self.kept.uses.copy_from_slice(&self.model.uses);
            self.kept.tag = self.model.tag;
        }
        Ok(())
    }

    fn same_board(&self, board: &Board, kind: Kind, whose: &str) -> Check {
        same_buffer(kind, "slots", self.real.slots.inner(), &board.slots, whose)?;
        same_buffer(kind, "words", self.real.words.inner(), &board.words, whose)?;
        same_buffer(kind, "records", self.real.records.inner(), &board.records, whose)?;
        same_buffer(kind, "cache", self.real.cache.inner(), &board.cache, whose)?;
        same_buffer(kind, "memory", self.real.memory.inner(), &board.memory, whose)?;
        let of_uses = if kind == Kind::Buffer { Kind::Uses } else { kind };
        same_buffer(of_uses, "uses", self.real.uses.inner(), matrix_bytes(&board.uses), whose)?;
        let (set, name) = self.real.tag();
        same(kind, "a tag is pending", set != 0, board.tag.0, whose)?;
        same(kind, "the tag's name", name, board.tag.1, whose)
    }

    /// The tag's set is the very number that went in while it says the same, else 0 or 1.
    fn same_tag(&self, before: u32) -> Check {
        let (set, name) = self.real.tag();
        let pending = self.model.tag.0;
        let expected = if (before != 0) == pending { before } else { u32::from(pending) };
        same(Kind::Tag, "the tag's set", set, expected, "the model and the caller's own number")?;
        same(Kind::Tag, "the tag's name", name, self.model.tag.1, "the model")
    }

    fn same_as_plain(&mut self, call: &Call, answer: &Answer, event: Event) -> Check {
        let Some(plain) = &mut self.plain else { return Ok(()) };
        let mut expected = plain.step(call);
        if let Some(plant) = self.plant {
            plant.after_plain(event, &mut expected);
        }
        same(Kind::Plain, "number", answer.number, expected.number, "the plain machine")?;
        same(Kind::Plain, "value", answer.value, expected.value, "the plain machine")
    }

    // ----- looks -----

    /// The number of a look at this line, by 01, and the records that hold it.
    fn holders(&self, line: u64) -> (u32, Vec<u64>) {
        if !self.model.fits() {
            (1, Vec::new())
        } else if line >= LINES_PER_PAGE * self.model.shape.frames {
            (2, Vec::new())
        } else {
            let holds = |at: &u64| self.model.held(*at).is_some_and(|record| record.line == line);
            (0, self.model.all_records().filter(holds).collect())
        }
    }

    /// Looks by a route. Where it is done, the sixteen bytes must stand in the caller's own buffer: in the cache bytes of the
    /// lowest record that holds the line, else in memory.
    fn looked(&mut self, line: u64, manner: &Manner) -> Result<Seen, Difference> {
        let (number, holders) = self.holders(line);
        let seen = Seen { number, holders: holders.len(), lowest: holders.first().copied(), line };
        self.looked_so(seen, manner)
    }

    /// The same where it is known how the line has to be seen.
    fn looked_so(&mut self, seen: Seen, manner: &Manner) -> Result<Seen, Difference> {
        let Seen { number, line, lowest, .. } = seen;
        let outcome = routes::look(&mut self.real, line, manner);
        let mut looked = outcome.map_err(|text| differs(Kind::Canary, text))?;
        if let Some(plant) = self.plant {
            plant.after_look(&self.model, lowest, &mut self.real, &mut looked);
        }
        if let Some(told) = looked.number {
            same(Kind::Look, "look's number", told, number, "01")?;
        }
        match (looked.bytes, number) {
            (Some((at, length)), 0) => {
                let expected = self.bytes_of(&seen);
                if (at, length) != (expected.as_ptr(), expected.len()) {
                    let off = (at as usize).wrapping_sub(expected.as_ptr() as usize) as isize;
                    return Err(differs(Kind::Look, format!("look gives {length} bytes, {off} bytes off their place")));
                }
                Ok(seen)
            }
            (None, 1..) => Ok(seen),
            (Some(_), 1..) => Err(differs(Kind::Look, format!("look gives bytes where 01 refuses by {number}"))),
            (None, 0) => Err(differs(Kind::Look, "look gives no bytes where 01 does")),
        }
    }

    /// The bytes of a physical line that is seen, on the library's board.
    fn bytes_of(&self, seen: &Seen) -> &[u8] {
        let (bytes, index) = match seen.lowest {
            Some(at) => (self.real.cache.inner(), at),
            None => (self.real.memory.inner(), seen.line),
        };
        &bytes[line_bytes(index)]
    }

    /// What look shows of every physical line, by a route; one behind the last is refused by 2. Where that is not as it should be,
    /// gives the line.
    pub fn shown(&mut self, manner: &Manner) -> Result<Vec<u8>, (u64, Difference)> {
        let manner = self.carried(manner);
        let lines = LINES_PER_PAGE * self.model.shape.frames;
        let mut holders = vec![(0, None); lines as usize];
        for (at, record) in self.held_at() {
            let (count, lowest): &mut (usize, Option<u64>) = &mut holders[record.line as usize];
            *count += 1;
            lowest.get_or_insert(at);
        }
        let mut shown = Vec::with_capacity((LINE_BYTES * lines) as usize);
        for (line, (holders, lowest)) in (0..).zip(holders) {
            let seen = Seen { number: 0, holders, lowest, line };
            let seen = self.looked_so(seen, &manner).map_err(|difference| (line, difference))?;
            shown.extend_from_slice(self.bytes_of(&seen));
        }
        let behind = Seen { number: 2, holders: 0, lowest: None, line: lines };
        self.looked_so(behind, &manner).map_err(|difference| (lines, difference))?;
        for line in [0, lines - 1, lines] {
            let asked = routes::look_number(&mut self.real, line, &manner).map_err(|text| differs(Kind::Canary, text));
            let number = if line < lines { 0 } else { 2 };
            asked.and_then(|asked| same(Kind::Look, "look's number", asked, number, "01")).map_err(|d| (line, d))?;
        }
        self.same_buffers(true).map_err(|difference| (lines, difference))?;
        Ok(shown)
    }

    fn look(&mut self, line: u64, manner: &Manner, coverage: &mut Coverage) -> Result<Given, Difference> {
        let seen = self.looked(line, manner)?;
        let (number, bytes) = self.model.look(line);
        same(Kind::Look, "look's number", seen.number, number, "the model")?;
        let mut cases = Vec::new();
        if number == 0 {
            same_buffer(Kind::Look, "look's bytes", self.bytes_of(&seen), &bytes, "the model's")?;
            cases = cases::look_cases(seen.holders);
        }
        self.same_buffers(true)?;
        coverage.count(self.sort, &Deed::Look { line }, manner.route, number, &cases);
        if seen.lowest.is_some_and(|at| sets::is_touchy_at(&self.model, at)) {
            coverage.count_set(self.sort, manner.route, By::Look, &[sets::Sight::Leaves], None);
        }
        Ok(Given::Look(number))
    }

    fn look_number(&mut self, line: u64, manner: &Manner, coverage: &mut Coverage) -> Result<Given, Difference> {
        let outcome = routes::look_number(&mut self.real, line, manner);
        let mut number = outcome.map_err(|text| differs(Kind::Canary, text))?;
        if let Some(plant) = self.plant {
            plant.after_look_number(&mut number);
        }
        same(Kind::Look, "look's number", number, self.model.look(line).0, "the model")?;
        self.same_buffers(true)?;
        coverage.count(self.sort, &Deed::LookNumber { line }, manner.route, number, &[]);
        Ok(Given::Look(number))
    }

    /// The entry of a page: by the model, and nothing of the board may change.
    fn entry(&mut self, page: u64, manner: &Manner, coverage: &mut Coverage) -> Result<Given, Difference> {
        let (mut number, mut value) = routes::entry(page, manner.route);
        if let Some(plant) = self.plant {
            plant.after_entry(&mut number, &mut value);
        }
        let (expected, address) = model::entry_of(page);
        same(Kind::Entry, "the entry's number", number, expected, "the model")?;
        same(Kind::Entry, "the entry's value", value, address, "the model")?;
        self.same_buffers(true)?;
        coverage.count(self.sort, &Deed::Entry { page }, manner.route, number, &[]);
        Ok(Given::Entry(number, value))
    }

    /// Demand 2 at a moment: look shows the plain machine's memory at every physical line. Demand 3 at a moment: no two held
    /// lines are copies of one physical line. On a large board, only some lines are looked at.
    fn audit(&mut self, manner: &Manner, coverage: &mut Coverage) -> Result<Given, Difference> {
        let Some(mut plain) = self.plain.clone() else { return Ok(Given::Audit) };
        if !self.model.fits() {
            return Ok(Given::Audit);
        }
        let mut held = self.held();
        if let Some(plant) = self.plant {
            plant.before_audit(&mut plain, &mut held);
        }
        one_copy(held)?;
        let stride = if self.model.shape.lines > 512 { 61 } else { 1 };
        let mut looks = 0;
        for line in (0..LINES_PER_PAGE * self.model.shape.frames).step_by(stride) {
            let seen = self.looked(line, manner)?;
            let expected = &plain.memory[line_bytes(line)];
            let shown = self.bytes_of(&seen);
            same_buffer(Kind::Plain, "look's bytes", shown, expected, "the plain machine's memory")
                .map_err(|d| Difference { text: format!("physical line {line:#x}, {}", d.text), ..d })?;
            looks += 1;
        }
        self.same_buffers(true)?;
        coverage.count_audit(self.sort, looks, self.has_moved);
        Ok(Given::Audit)
    }

    /// The records that hold lines, rising.
    fn held_at(&self) -> impl Iterator<Item = (u64, Record)> + '_ {
        self.model.all_records().filter_map(|at| self.model.held(at).map(|record| (at, record)))
    }

    /// The held lines, by physical line.
    fn held(&self) -> Vec<(u64, Record)> {
        self.held_at().map(|(_, record)| (record.line, record)).collect()
    }

    // ----- checks and repairs -----

    fn dump(&mut self, dump: &Dump, manner: &Manner, coverage: &mut Coverage) -> Result<Given, Difference> {
        let own = dump.own && manner.route == Route::Safe;
        let mut expected = dumps::expected(&mut self.model, dump, own);
        let mut scratch = dump.lend();
        let (tagged, _) = self.real.tag();
        let outcome = match self.plant {
            Some(Plant::Dump(wrong)) if wrong.map_or(true, Wrong::stands_in) => {
                let key = scratch.keys.inner().first().copied().unwrap_or(0);
                Ok(Faulty { wrong, board: &self.kept, key }.dump(dump, own, &mut self.real, &mut scratch))
            }
            _ => dump_routes::dump(&mut self.real, dump, &mut scratch, manner),
        };
        let mut told = outcome.map_err(|text| differs(Kind::Canary, text))?;
        if let Some(Plant::Dump(Some(wrong))) = self.plant {
            wrong.after((&mut told, &mut self.real), (&mut expected, &mut self.model), self.accepted);
        }
        dumps::compare(dump, &self.model.shape, &expected, &told, &scratch)?;
        if self.accepted && told.report.rule != 0 {
            let text = format!("{:?}, of a board that was accepted, or is one that calls have made", told.report);
            return Err(differs(Kind::Unsound, text));
        }
        self.same_tag(tagged)?;
        if expected.repairs() {
            self.same_board(&self.model, Kind::Buffer, "the model's")?;
            dumps::only_drops(&self.kept, &self.real)?;
        }
        let met = dump_sights::met(&self.kept, dump, own, manner, &expected, self.repaired);
        self.same_buffers(!expected.repairs())?;
        coverage.dumps.count(manner.route, dump, &expected, &met);
        self.accept(&expected);
        Ok(Given::Dump(told.report))
    }

    /// From a board that the checker accepts, as it is or repaired, the plain machine goes on beside it.
    fn accept(&mut self, expected: &Expected) {
        self.repaired |= expected.report.dropped > 0;
        if !expected.accepts() {
            return;
        }
        self.accepted = true;
        if self.plain.is_none() {
            let mut plain = dump::plain_of(&self.model);
            if let Some(Plant::Dump(Some(wrong))) = self.plant {
                wrong.after_start(&mut plain, &self.model);
            }
            self.plain = Some(plain);
            self.since = Some(if expected.report.rule == 0 { Since::Accepted } else { Since::Repaired });
        }
    }

    /// One copy at every step from such a board; and what was done there is counted.
    fn beside_plain(&self, deed: &Deed, given: &Given, coverage: &mut Coverage) -> Check {
        let Some(since) = self.since else { return Ok(()) };
        let mut held = self.held();
        if self.plant == Some(Plant::Dump(Some(Wrong::Copies))) && matches!(given, Given::Call(..)) {
            held.extend(held.first().copied());
        }
        one_copy(held)?;
        match *given {
            Given::Call(Answer { number: 0, .. }, _) | Given::List(Answer { number: 0, .. }, _) | Given::Look(0) => {
                coverage.dumps.count_since(since, coverage::row_of(deed));
            }
            Given::Audit => coverage.dumps.count_since(since, None),
            _ => {}
        }
        Ok(())
    }

    /// The plain machine's memory, of a run that has one.
    pub fn flat_memory(&self) -> &[u8] {
        self.plain.as_ref().map_or(&[], |plain| &plain.memory)
    }
}

/// Demand 3 at a moment: no two of these lines, by physical line, are copies of one.
fn one_copy(mut held: Vec<(u64, Record)>) -> Check {
    held.sort_unstable_by_key(|(line, _)| *line);
    let Some(pair) = held.windows(2).find(|pair| pair[0].0 == pair[1].0) else { return Ok(()) };
    let (line, first, second) = (pair[0].0, pair[0].1.name, pair[1].1.name);
    let text = format!("physical line {line:#x} is held twice, under the names {first:#x} and {second:#x}");
    Err(differs(Kind::TwoCopies, text))
}

/// Does something that may panic on purpose, or again and again, without the panics' own messages: a difference has them.
pub fn quietly<T>(work: impl FnOnce() -> T) -> T {
    let hook = std::panic::take_hook();
    std::panic::set_hook(Box::new(|_| {}));
    let result = work();
    std::panic::set_hook(hook);
    result
}

/// Runs a trace from its start; gives where and how it first differs.
pub fn first_difference(trace: &Trace) -> Option<(usize, Difference)> {
    let mut run = Run::new(&trace.start, trace.plant);
    let mut unused = Coverage::new();
    let outcomes = trace.steps.iter().map(|step| run.step(step, &mut unused));
    outcomes.enumerate().find_map(|(index, outcome)| outcome.err().map(|difference| (index, difference)))
}
