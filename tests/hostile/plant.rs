//! Planted faults: each one alters what the comparison sees of the library (or, where a check is between the model and the
//! plain machine, of those), so that the self-test can show that the check behind it fails.

use crate::cases::{Facts, Line};
use crate::dump_faults;
use crate::guarded::{Element, Guarded, Lists, Real};
use crate::limits::{end_of_width, frame_bytes, LINES_PER_PAGE, PAGES_END, PAGE_LAST};
use crate::list_faults::{self, FAULTS};
use crate::lists::List;
use crate::log_faults;
use crate::order_faults;
use crate::routes::{Looked, Told};
use crate::run::Kind;
use crate::set_faults;
use crate::values::{fitting, Access, Whose};
use crate::walks::{walks, Walk};
use model::{
    frame_word, mapping, mark, page_in_range, page_of_name, Answer, Board, Call, Event, Plain, PlainAnswer, Record,
    Shape,
};

#[derive(Clone, Copy, Debug, PartialEq, Eq)]
pub enum Plant {
    Number,
    Value,
    Mark,
    OffTable,
    MarkOffTable,
    Hit,
    Packed,
    Unfit,
    Slots,
    Words,
    Records,
    Cache,
    Memory,
    Uses,
    Order,
    Refused,
    TagName,
    TagSet,
    Canary,
    ReadsBehind,
    ReadsBefore,
    LookPlace,
    LookNumber,
    LookWrites,
    EntryNumber,
    EntryValue,
    PlainNumber,
    PlainValue,
    PlainMemory,
    TwoCopies,
    Asks(Asks),
    Marks(Marks),
    Moves(Moves),
    List(list_faults::Wrong),
    /// None: nothing is wrong in what stands in for the library.
    Sets(Option<set_faults::Wrong>),
    /// None: what stands in for the library has no fault.
    Log(Option<log_faults::Wrong>),
    /// None: what stands in for the library has no fault.
    Dump(Option<dump_faults::Wrong>),
    /// Of runs that are reordered: nothing is wrong in one run by itself.
    Reordered(order_faults::Wrong),
    Walk(Walk),
    Panic,
    Signal,
    Hang,
}

/// Of which values it is asked, wrongly, whether they fit.
#[derive(Clone, Copy, Debug, PartialEq, Eq)]
pub enum Asks {
    /// Of a load's too.
    Loads,
    /// At width 3 too.
    Width3,
    /// The first that does not fit is taken.
    TakesFirst,
    /// The largest that fits is refused.
    RefusesLargest,
    /// Not of a supervisor's.
    Users,
    /// Not under prefix 0.
    Cached,
    /// Only where no other number applies.
    Last,
    /// Of none: a store takes the low bits.
    Never,
}

/// What has a wrong mark.
#[derive(Clone, Copy, Debug, PartialEq, Eq)]
pub enum Marks {
    /// A miss has 0, as before CR 8.
    OldMiss,
    /// Prefix 0 has 0, as before CR 8.
    OldUncached,
    /// 2 and 3 are exchanged.
    Exchanged,
    /// 3 where the old line is held and not changed.
    Clean,
    /// 3 where the old record says changed, though it holds nothing.
    Stale,
    /// 2 where the write-back changes no byte.
    Equal,
    /// 2 where the write-back goes to the very line that is filled.
    Own,
    /// 3 for a hit on a changed line.
    HitChanged,
    /// 4 for prefix 1.
    Prefix1,
    /// 1 for prefix 0 where a held line has that very name.
    UncachedHeld,
    /// 1 for a refused access whose line is held.
    RefusedHeld,
    /// 2 for an access refused by 8.
    RefusedMiss,
    /// Load-and-map has the mark of an access.
    Inserts,
    /// 3 for unmap, move and flush all where they write back.
    Sweeps,
    /// 2 for move.
    Moves,
    /// 2 for a refused move.
    RefusedMove,
}

/// What is wrong in a move, but for the records that it visits.
#[derive(Clone, Copy, Debug, PartialEq, Eq)]
pub enum Moves {
    /// The page becomes read-only.
    LosesWrite,
    /// The page becomes writable.
    GivesWrite,
    /// The frame is filled with zeros.
    Zeroes,
    /// The page gets the lowest free frame from U up with a copy of its bytes, and keeps its own.
    Copies,
    /// The frame loses its word.
    Unmaps,
    /// The frame keeps its word.
    KeepsOld,
    /// Of a doubled page the highest frame gets the new page.
    Highest,
    /// Of a doubled page every frame gets the new page.
    EachFrame,
    /// A frame below U that has the page's word gets the new page, too.
    BelowU,
    /// 11 where a word of no form has the new page.
    NoForm,
    /// A pending tag is dropped.
    DropsTag,
    /// A pending tag of the page becomes one of the new page.
    Retags,
    /// 3 where a tag is pending.
    AsksTag,
    /// 8 and 11 are exchanged.
    Exchanged,
    /// 11 where the new page is mapped, though the old one is not.
    NewFirst,
    /// Equal pages are taken.
    TakesEqual,
    /// 11 for equal pages that are not mapped.
    RefusesEqual,
    /// A new page that is mapped is taken.
    TakesMapped,
    /// Of the new page no range is asked.
    AnyNew,
    /// Of the old page no range is asked: it is not mapped, then.
    AnyOld,
    /// Pages are cut to 32 bits.
    Cut,
    /// 2 only where both pages are out of range.
    Both,
    /// The last page is refused.
    RefusesLast,
}

/// All faults, by name.
pub fn all() -> Vec<(Plant, String)> {
    let logs = log_faults::FAULTS.iter().map(|&(wrong, name, _)| (Plant::Log(Some(wrong)), name.to_string()));
    let dumps = dump_faults::FAULTS.iter().map(|&(wrong, name, _)| (Plant::Dump(Some(wrong)), name.to_string()));
    let orders = order_faults::FAULTS.into_iter().map(|(wrong, name)| (Plant::Reordered(wrong), name.to_string()));
    searched()
        .chain(logs)
        .chain(dumps)
        .chain(orders)
        .chain(walks().map(|(walk, name)| (Plant::Walk(walk), name)))
        .collect()
}

/// All that random runs on boards find: all but those of logs, of checks and repairs, of reorderings, and the walks.
pub fn searched() -> impl Iterator<Item = (Plant, String)> {
    let lists = FAULTS.into_iter().map(|(wrong, name, _)| (Plant::List(wrong), name));
    let sets = set_faults::FAULTS.iter().map(|&(wrong, name, ..)| (Plant::Sets(Some(wrong)), name));
    PLANTS.into_iter().chain(lists).chain(sets).map(|(plant, name)| (plant, name.to_string()))
}

/// All but those in lists, in sets of four, in logs, in checks and repairs, in reorderings, and in walks.
pub const PLANTS: [(Plant, &str); 80] = [
    (Plant::Number, "number"),
    (Plant::Value, "value"),
    (Plant::Mark, "mark"),
    (Plant::OffTable, "off-table"),
    (Plant::MarkOffTable, "mark-off-table"),
    (Plant::Hit, "hit"),
    (Plant::Packed, "packed"),
    (Plant::Unfit, "unfit"),
    (Plant::Slots, "slots"),
    (Plant::Words, "words"),
    (Plant::Records, "records"),
    (Plant::Cache, "cache"),
    (Plant::Memory, "memory"),
    (Plant::Uses, "uses"),
    (Plant::Order, "order"),
    (Plant::Refused, "refused"),
    (Plant::TagName, "tag-name"),
    (Plant::TagSet, "tag-set"),
    (Plant::Canary, "canary"),
    (Plant::ReadsBehind, "reads-behind"),
    (Plant::ReadsBefore, "reads-before"),
    (Plant::LookPlace, "look-place"),
    (Plant::LookNumber, "look-number"),
    (Plant::LookWrites, "look-writes"),
    (Plant::EntryNumber, "entry-number"),
    (Plant::EntryValue, "entry-value"),
    (Plant::PlainNumber, "plain-number"),
    (Plant::PlainValue, "plain-value"),
    (Plant::PlainMemory, "plain-memory"),
    (Plant::TwoCopies, "two-copies"),
    (Plant::Asks(Asks::Loads), "asks-loads"),
    (Plant::Asks(Asks::Width3), "asks-width-3"),
    (Plant::Asks(Asks::TakesFirst), "takes-first"),
    (Plant::Asks(Asks::RefusesLargest), "refuses-last"),
    (Plant::Asks(Asks::Users), "asks-users"),
    (Plant::Asks(Asks::Cached), "asks-cached"),
    (Plant::Asks(Asks::Last), "asks-last"),
    (Plant::Asks(Asks::Never), "low-bits"),
    (Plant::Marks(Marks::OldMiss), "mark-old-miss"),
    (Plant::Marks(Marks::OldUncached), "mark-old-uncached"),
    (Plant::Marks(Marks::Exchanged), "mark-exchanged"),
    (Plant::Marks(Marks::Clean), "mark-clean"),
    (Plant::Marks(Marks::Stale), "mark-stale"),
    (Plant::Marks(Marks::Equal), "mark-equal"),
    (Plant::Marks(Marks::Own), "mark-own"),
    (Plant::Marks(Marks::HitChanged), "mark-hit-changed"),
    (Plant::Marks(Marks::Prefix1), "mark-prefix-1"),
    (Plant::Marks(Marks::UncachedHeld), "mark-uncached-held"),
    (Plant::Marks(Marks::RefusedHeld), "mark-refused-held"),
    (Plant::Marks(Marks::RefusedMiss), "mark-refused-miss"),
    (Plant::Marks(Marks::Inserts), "mark-inserts"),
    (Plant::Marks(Marks::Sweeps), "mark-sweeps"),
    (Plant::Marks(Marks::Moves), "mark-moves"),
    (Plant::Marks(Marks::RefusedMove), "mark-refused-move"),
    (Plant::Moves(Moves::LosesWrite), "move-loses-write"),
    (Plant::Moves(Moves::GivesWrite), "move-gives-write"),
    (Plant::Moves(Moves::Zeroes), "move-zeroes"),
    (Plant::Moves(Moves::Copies), "move-copies"),
    (Plant::Moves(Moves::Unmaps), "move-unmaps"),
    (Plant::Moves(Moves::KeepsOld), "move-keeps-old"),
    (Plant::Moves(Moves::Highest), "move-highest"),
    (Plant::Moves(Moves::EachFrame), "move-each-frame"),
    (Plant::Moves(Moves::BelowU), "move-below-u"),
    (Plant::Moves(Moves::NoForm), "move-no-form"),
    (Plant::Moves(Moves::DropsTag), "move-drops-tag"),
    (Plant::Moves(Moves::Retags), "move-retags"),
    (Plant::Moves(Moves::AsksTag), "move-asks-tag"),
    (Plant::Moves(Moves::Exchanged), "move-exchanged"),
    (Plant::Moves(Moves::NewFirst), "move-asks-new-first"),
    (Plant::Moves(Moves::TakesEqual), "move-takes-equal"),
    (Plant::Moves(Moves::RefusesEqual), "move-refuses-equal"),
    (Plant::Moves(Moves::TakesMapped), "move-takes-mapped"),
    (Plant::Moves(Moves::AnyNew), "move-any-new"),
    (Plant::Moves(Moves::AnyOld), "move-any-old"),
    (Plant::Moves(Moves::Cut), "move-cut"),
    (Plant::Moves(Moves::Both), "move-both"),
    (Plant::Moves(Moves::RefusesLast), "move-refuses-last"),
    (Plant::Panic, "panic"),
    (Plant::Signal, "signal"),
    (Plant::Hang, "hang"),
];

/// Flips the lowest bit of a buffer's last element, if it has one.
fn flip_last<T: Element + std::ops::BitXorAssign + From<u8>>(buffer: &mut Guarded<T>) {
    if let Some(last) = buffer.inner_mut().last_mut() {
        *last ^= T::from(1);
    }
}

impl Plant {
    /// The check that has to find it.
    pub fn found_as(self) -> Kind {
        match self {
            Plant::Number | Plant::Unfit | Plant::Asks(_) => Kind::Number,
            Plant::Value => Kind::Value,
            Plant::Mark | Plant::Marks(_) => Kind::Mark,
            Plant::Moves(moves) => moves.found_as(),
            Plant::OffTable | Plant::MarkOffTable => Kind::Table,
            Plant::Hit | Plant::Packed => Kind::Form,
            Plant::Slots | Plant::Words | Plant::Records | Plant::Cache | Plant::Memory | Plant::Walk(_) => {
                Kind::Buffer
            }
            Plant::Uses => Kind::Uses,
            Plant::Order => Kind::Order,
            Plant::Refused => Kind::Refused,
            Plant::TagName | Plant::TagSet => Kind::Tag,
            Plant::Canary => Kind::Canary,
            Plant::LookPlace | Plant::LookNumber => Kind::Look,
            Plant::LookWrites => Kind::Buffer,
            Plant::EntryNumber | Plant::EntryValue => Kind::Entry,
            Plant::PlainNumber | Plant::PlainValue | Plant::PlainMemory => Kind::Plain,
            Plant::TwoCopies => Kind::TwoCopies,
            Plant::List(wrong) => wrong.found_as(),
            Plant::Sets(wrong) => wrong.map_or(Kind::Panic, |wrong| wrong.found_as()),
            Plant::Log(wrong) => wrong.map_or(Kind::Panic, |wrong| wrong.found_as()),
            Plant::Dump(wrong) => wrong.map_or(Kind::Panic, |wrong| wrong.found_as()),
            Plant::Reordered(_) => Kind::Reordered,
            Plant::Panic => Kind::Panic,
            Plant::Signal | Plant::Hang | Plant::ReadsBehind | Plant::ReadsBefore => Kind::Signal,
        }
    }

    /// Whether a difference of this kind is what it shows in.
    pub fn is_found_as(self, kind: Kind) -> bool {
        match self {
            Plant::Sets(Some(wrong)) => wrong.is_found_as(kind),
            Plant::Dump(Some(wrong)) => wrong.is_found_as(kind),
            _ => kind == self.found_as(),
        }
    }

    /// After a call, before which these were the board and the facts: the library's board and what it told, and the model's.
    pub fn after_call(
        self,
        call: &Call,
        (before, facts): (&Board, &Facts),
        event: Event,
        (real, told): (&mut Real, &mut Told),
        (model, expected): (&mut Board, &mut Answer),
    ) {
        if let Plant::Sets(wrong) = self {
            return set_faults::after_call(wrong, call, before, real, told);
        }
        let answer = &mut told.answer;
        match (self, event) {
            (Plant::Asks(asks), _) => *answer = asks.answer(call, answer, model),
            (Plant::Marks(marks), _) => answer.mark = marks.mark(call, facts.line(), event, answer.mark),
            (Plant::Moves(moves), _) => {
                if let Call::Move { page, new_page } = *call {
                    answer.number = moves.number(before, (page, new_page), answer.number);
                    if answer.number == 0 {
                        moves.leave(before, (page, new_page), real);
                    }
                }
            }
            (Plant::Walk(walk), _) if answer.number == 0 => {
                if let Some((records, memory)) = walk.left(before, call) {
                    real.records.inner_mut().copy_from_slice(&records);
                    real.memory.inner_mut().copy_from_slice(&memory);
                }
            }
            (Plant::Number, Event::Refused(9)) => answer.number = 7,
            (Plant::Value, Event::Hit) if answer.value != 0 => answer.value ^= 0x100,
            (Plant::Mark, Event::MissWriteBack) => answer.mark = mark::HIT,
            (Plant::OffTable, Event::Refused(7)) => (answer.number, expected.number) = (11, 11),
            (Plant::MarkOffTable, Event::FoundHeld) => (answer.mark, expected.mark) = (mark::HIT, mark::HIT),
            (Plant::Hit, Event::MissWriteBack) => told.hit = told.hit.map(|_| 1),
            (Plant::Packed, Event::Uncached) => told.packed = told.packed.map(|packed| packed | 1 << 40),
            (Plant::Unfit, Event::Refused(1)) => answer.number = 0,
            (Plant::Slots, Event::Done) if matches!(call, Call::Detach { .. }) => flip_last(&mut real.slots),
            (Plant::Words, Event::Protected { lines: 1.. }) => flip_last(&mut real.words),
            (Plant::Records, Event::Unmapped { dropped: 1.., .. }) => flip_last(&mut real.records),
            (Plant::Cache, Event::Inserted { wrote_back: true }) => flip_last(&mut real.cache),
            (Plant::Memory, Event::Flushed { written: 1.., .. }) => flip_last(&mut real.memory),
            (Plant::Uses, Event::Unmapped { .. }) => flip_last(&mut real.uses),
            (Plant::Order, Event::Hit) => {
                flip_last(&mut real.uses);
                model.uses.last_mut().into_iter().for_each(|matrix| matrix[3][3] ^= 1);
            }
            (Plant::Refused, Event::Refused(11)) => {
                flip_last(&mut real.memory);
                model.memory.copy_from_slice(real.memory.inner());
            }
            (Plant::TagName, Event::Done) if matches!(call, Call::Tag { .. }) => flip_last(&mut real.name),
            (Plant::TagSet, Event::Done) if matches!(call, Call::Tag { .. }) => real.set.inner_mut()[0] = 2,
            (Plant::Canary, Event::FoundHeld) => real.cache.break_canary(false),
            (Plant::ReadsBehind, Event::Unmapped { .. }) => real.records.read_outside(true),
            (Plant::ReadsBefore, Event::Protected { .. }) => real.records.read_outside(false),
            (Plant::Panic, Event::Mapped { by_prefix1: 1.., .. }) => panic!("a planted panic"),
            (Plant::Signal, Event::Unmapped { written: 1.., .. }) => std::process::abort(),
            (Plant::Hang, Event::Unmapped { written: 1.., .. }) => loop {
                std::thread::yield_now();
            },
            _ => {}
        }
    }

    /// After a list, before which this was the board: what the library left and told; and the model's answers to its accesses.
    pub fn after_list(
        self,
        list: &List,
        before: &Board,
        library: (&mut Real, &mut Lists, &mut Told),
        expected: &mut [Answer],
    ) {
        match self {
            Plant::List(wrong) => wrong.after_list(list, before, library, expected),
            Plant::Sets(wrong) => set_faults::after_list(wrong, list, before, library.0, library.2),
            _ => {}
        }
    }

    /// An answer of a list, as a route reads it.
    pub fn after_answer(self, told: &mut Told) {
        if let Plant::List(wrong) = self {
            wrong.after_answer(told);
        }
    }

    pub fn after_plain_list(self, answers: &mut [PlainAnswer]) {
        if let Plant::List(wrong) = self {
            wrong.after_plain_list(answers);
        }
    }

    /// After a look at a line on this board; the lowest record that holds it.
    pub fn after_look(self, board: &Board, holder: Option<u64>, real: &mut Real, looked: &mut Looked) {
        if let Plant::Sets(Some(wrong)) = self {
            wrong.after_look(board, holder, real);
        }
        match (self, &mut looked.bytes) {
            (Plant::LookPlace, Some((at, _))) if real.cache.inner().as_ptr_range().contains(at) => {
                *at = at.wrapping_add(16);
            }
            (Plant::LookWrites, Some(_)) => flip_last(&mut real.records),
            _ => {}
        }
    }

    pub fn after_look_number(self, number: &mut u32) {
        if self == Plant::LookNumber && *number == 2 {
            *number = 1;
        }
    }

    pub fn after_entry(self, number: &mut u32, value: &mut u64) {
        match (self, *number) {
            (Plant::EntryNumber, 2) => *number = 0,
            (Plant::EntryValue, 0) => *value ^= 4,
            _ => {}
        }
    }

    pub fn after_plain(self, event: Event, answer: &mut PlainAnswer) {
        match (self, event) {
            (Plant::PlainNumber, Event::Refused(13)) => answer.number = 8,
            (Plant::PlainValue, Event::MissWriteBack) if answer.value != 0 => answer.value ^= 1,
            _ => {}
        }
    }

    pub fn before_audit(self, plain: &mut Plain, held: &mut Vec<(u64, Record)>) {
        match self {
            Plant::PlainMemory if !held.is_empty() => plain.memory[0] ^= 1,
            Plant::TwoCopies => held.extend(held.first().copied()),
            _ => {}
        }
    }
}

impl Asks {
    /// What a library that asks so answers to a call, where the right one answers `right`. The model's board tells what an
    /// access would be with a value that fits, where `right` is a refusal by 2: that has left it as it was.
    fn answer(self, call: &Call, right: &Answer, model: &Board) -> Answer {
        let Some(access) = Access::of(call).filter(|_| right.number != 1) else { return *right };
        let Access { whose, store, width, value } = access;
        let otherwise = || model.clone().step(&fitting(call)).0;
        let should = store && access.is_large();
        let does = match self {
            Asks::Loads => access.is_large(),
            Asks::Width3 => should || store && width == 3 && value >= 1 << 24,
            Asks::TakesFirst => should && end_of_width(width) != Some(value.into()),
            Asks::RefusesLargest => should || store && end_of_width(width) == Some(u64::from(value) + 1),
            Asks::Users => should && whose == Whose::User,
            Asks::Cached => should && whose != Whose::Prefix0,
            Asks::Last => should && otherwise().number == 0,
            Asks::Never => false,
        };
        match (should, does) {
            (false, true) => Answer { number: 2, value: 0, mark: 0 },
            (true, false) => otherwise(),
            _ => *right,
        }
    }
}

impl Marks {
    /// The wrong mark of a call, where `right` is the right one. An access and a load-and-map have a line, as it was before.
    fn mark(self, call: &Call, line: Option<&Line>, event: Event, right: u32) -> u32 {
        let is = |asked: fn(&Line) -> bool| line.is_some_and(asked);
        let whose = Access::of(call).map(|access| access.whose);
        match (self, event) {
            (Marks::OldMiss, Event::Miss | Event::MissWriteBack) => mark::NO_ACCESS,
            (Marks::OldUncached, Event::Uncached) => mark::NO_ACCESS,
            (Marks::Exchanged, Event::Miss) => mark::WROTE_BACK,
            (Marks::Exchanged, Event::MissWriteBack) => mark::REFILLED,
            (Marks::Clean, Event::Miss) if is(|line| line.holds) => mark::WROTE_BACK,
            (Marks::Stale, Event::Miss) if is(|line| line.record.changed) => mark::WROTE_BACK,
            (Marks::Equal, Event::MissWriteBack) if is(|line| line.equal) => mark::REFILLED,
            (Marks::Own, Event::MissWriteBack) if is(Line::of_this_line) => mark::REFILLED,
            (Marks::HitChanged, Event::Hit) if is(|line| line.record.changed) => mark::WROTE_BACK,
            (Marks::Prefix1, Event::Hit | Event::Miss | Event::MissWriteBack) if whose == Some(Whose::Prefix1) => {
                mark::UNCACHED
            }
            (Marks::UncachedHeld, Event::Uncached) if is(Line::held) => mark::HIT,
            (Marks::RefusedHeld, Event::Refused(_)) if whose.is_some() && is(Line::held) => mark::HIT,
            (Marks::RefusedMiss, Event::Refused(8)) if whose.is_some() => mark::REFILLED,
            (Marks::Inserts, Event::FoundHeld) => mark::HIT,
            (Marks::Inserts, Event::Inserted { wrote_back: false }) => mark::REFILLED,
            (Marks::Inserts, Event::Inserted { wrote_back: true }) => mark::WROTE_BACK,
            (Marks::Sweeps, Event::Unmapped { written: 1.., .. } | Event::Flushed { written: 1.., .. }) => {
                mark::WROTE_BACK
            }
            (Marks::Sweeps, Event::Moved { old_written: 1.., .. }) => mark::WROTE_BACK,
            (Marks::Moves, Event::Moved { .. }) => mark::REFILLED,
            (Marks::RefusedMove, Event::Refused(_)) if matches!(call, Call::Move { .. }) => mark::REFILLED,
            _ => right,
        }
    }
}

impl Moves {
    fn found_as(self) -> Kind {
        use Moves::*;
        match self {
            LosesWrite | GivesWrite | Zeroes | Copies | Unmaps | KeepsOld => Kind::Buffer,
            Highest | EachFrame | BelowU => Kind::Buffer,
            DropsTag | Retags => Kind::Tag,
            AsksTag | Exchanged | NewFirst | TakesEqual | RefusesEqual | TakesMapped => Kind::Number,
            NoForm | AnyNew | AnyOld | Cut | Both | RefusesLast => Kind::Number,
        }
    }

    /// The wrong number of a move, where `right` is the right one.
    fn number(self, before: &Board, (page, new_page): (u64, u64), right: u32) -> u32 {
        let is_mapped = |page: u64| mapping(&before.shape, &before.words, page).is_some();
        let asked = |page: u64, new_page: u64| match () {
            _ if !is_mapped(page) => 8,
            _ if page == new_page || is_mapped(new_page) => 11,
            _ => 0,
        };
        let outside = [page, new_page].map(|page| !page_in_range(page));
        let cut = [page, new_page].map(|page| page % PAGES_END);
        match (self, right) {
            (_, 1) => right,
            (Moves::NoForm, 0) if before.words.iter().any(|&word| word % 2 == 0 && word / 4 == new_page) => 11,
            (Moves::AsksTag, 0 | 8 | 11) if before.tag.0 => 3,
            (Moves::Exchanged, 8) => 11,
            (Moves::Exchanged, 11) => 8,
            (Moves::NewFirst, 8) if is_mapped(new_page) => 11,
            (Moves::TakesEqual, 11) if page == new_page => 0,
            (Moves::RefusesEqual, 8) if page == new_page => 11,
            (Moves::TakesMapped, 11) if page != new_page => 0,
            (Moves::AnyNew, 2) if outside == [false, true] => asked(page, new_page),
            (Moves::AnyOld, 2) if outside == [true, false] => 8,
            (Moves::Cut, 2) if cut.into_iter().all(page_in_range) => asked(cut[0], cut[1]),
            (Moves::Both, 2) if outside.contains(&false) => asked(page, new_page),
            (Moves::RefusesLast, _) if [page, new_page].contains(&PAGE_LAST) => 2,
            _ => right,
        }
    }

    /// What a wrong move that is done leaves, beside what the right one does.
    fn leave(self, before: &Board, (page, new_page): (u64, u64), real: &mut Real) {
        let Shape { uncached, frames, .. } = before.shape;
        let Some((frame, _)) = mapping(&before.shape, &before.words, page) else { return };
        let (tagged, name) = before.tag;
        let own = [true, false].map(|write| frame_word(page, write));
        let has_page = |frame: &u64| own.contains(&before.words[*frame as usize]);
        let moved = |frame: u64| frame_word(new_page, before.words[frame as usize] == own[0]);
        let words = real.words.inner_mut();
        match self {
            Moves::LosesWrite => words[frame as usize] = frame_word(new_page, false),
            Moves::GivesWrite => words[frame as usize] = frame_word(new_page, true),
            Moves::Zeroes => real.memory.inner_mut()[frame_bytes(frame)].fill(0),
            Moves::Copies => {
                if let Some(free) = (uncached..frames).find(|&frame| before.words[frame as usize] == 0) {
                    words[free as usize] = words[frame as usize];
                    words[frame as usize] = before.words[frame as usize];
                    real.memory.inner_mut().copy_within(frame_bytes(frame), frame_bytes(free).start);
                }
            }
            Moves::Unmaps => words[frame as usize] = 0,
            Moves::KeepsOld => words[frame as usize] = before.words[frame as usize],
            Moves::Highest => {
                let highest = (uncached..frames).rev().find(has_page).expect("the page has a frame");
                words[frame as usize] = before.words[frame as usize];
                words[highest as usize] = moved(highest);
            }
            Moves::EachFrame => {
                (uncached..frames).filter(has_page).for_each(|frame| words[frame as usize] = moved(frame));
            }
            Moves::BelowU => {
                (0..uncached).filter(has_page).for_each(|frame| words[frame as usize] = moved(frame));
            }
            Moves::DropsTag if tagged => real.set_tag(0, 0),
            Moves::Retags if tagged && page_of_name(name) == page => {
                let (set, _) = real.tag();
                real.set_tag(set, new_page * LINES_PER_PAGE + name % LINES_PER_PAGE);
            }
            _ => {}
        }
    }
}
