//! Lists of user accesses (CR 12): what one is, and what it meets. Their accesses are counted by where they stand in their list
//! and how they come out; lists by what becomes of one access through another, by their lengths, and by why they are refused.
//! All is counted in every run, by route; the planned runs of `list_runs.rs` reach it.

use crate::cases::{self, Case};
use crate::limits::*;
use crate::routes::{Manner, Route};
use model::{global_of, name_of, offset_of, slot_of, slot_read, Board, Call, Event};
use std::ops::Range;
use Reached::{Anywhere, OnWild};
use Route::{Board as ByBoard, Header, Raw, Safe};

/// An access of a list.
#[derive(Clone, Copy, Debug, PartialEq, Eq)]
pub struct Item {
    /// In a list a process has 32 bits; what becomes of one that has more is in `word`.
    pub process: u64,
    /// 0 is a load, anything else a store.
    pub store: u32,
    pub width: u32,
    pub address: u32,
    pub value: u32,
}

impl Item {
    /// None where the call is no user access.
    pub fn of(call: &Call, yes: u32) -> Option<Item> {
        match *call {
            Call::UserAccess { process, store, width, address, value } => {
                Some(Item { process, store: if store { yes } else { 0 }, width, address, value })
            }
            _ => None,
        }
    }

    /// The process as a list has it. One that does not fit 32 bits becomes the last that does, which is no process either: the
    /// header says so, and the safe crate.
    fn word(&self) -> u32 {
        u32::try_from(self.process).unwrap_or(u32::MAX)
    }

    pub fn words(&self) -> [u32; ACCESS_WORDS] {
        [self.word(), self.store, self.width, self.address, self.value]
    }

    /// The single call that it is.
    pub fn call(&self) -> Call {
        let Item { store, width, address, value, .. } = *self;
        Call::UserAccess { process: self.word().into(), store: store != 0, width, address, value }
    }

    /// Whether the header's functions for an access, and the safe crate's, can make it: a load of theirs has no value, and a
    /// store of theirs is 1.
    pub fn can_be_made(&self) -> bool {
        match self.store {
            0 => self.value == 0,
            yes => yes == 1,
        }
    }

    fn is_store(&self) -> bool {
        self.store != 0
    }
}

/// A list, as a call brings it.
#[derive(Clone, Debug, PartialEq, Eq)]
pub struct List {
    pub items: Vec<Item>,
    /// Words behind the last whole access, fewer than an access has: only two routes can bring them.
    pub torn: Vec<u32>,
    /// For how many answers there is room.
    pub answers: usize,
    /// What stands there before: this, turned a little from one answer to the next.
    pub stain: u64,
    /// Where the accesses and the answers start, as the board's buffers do.
    pub offsets: [usize; 2],
}

impl List {
    /// With an answer for each access, in a buffer of zeros.
    pub fn of(items: Vec<Item>) -> List {
        List { answers: items.len(), items, torn: Vec::new(), stain: 0, offsets: [0; 2] }
    }

    pub fn words(&self) -> Vec<u32> {
        self.items.iter().flat_map(Item::words).chain(self.torn.iter().copied()).collect()
    }

    /// The answers' buffer before the call.
    pub fn before(&self) -> Vec<u64> {
        (0..self.answers).map(|index| self.stain.rotate_left(7 * (index as u32 % 64))).collect()
    }

    pub fn fits(&self) -> bool {
        self.torn.is_empty() && self.answers == self.items.len()
    }
}

// ---------------------------------------------------------------------------------------------
// Accesses in lists
// ---------------------------------------------------------------------------------------------

/// Where an access stands in its list.
#[derive(Clone, Copy, Debug, PartialEq, Eq)]
pub enum Spot {
    Alone,
    First,
    Middle,
    Last,
}

pub const SPOTS: [(Spot, &str); 4] = [
    (Spot::Alone, "alone in a list"),
    (Spot::First, "first in a list"),
    (Spot::Middle, "in the midst of a list"),
    (Spot::Last, "last in a list"),
];

impl Spot {
    fn of(index: usize, length: usize) -> Spot {
        match (index, index + 1 == length) {
            (0, true) => Spot::Alone,
            (0, false) => Spot::First,
            (_, false) => Spot::Middle,
            (_, true) => Spot::Last,
        }
    }
}

/// How an access of a list comes out: done with each mark, or refused by each number but 1.
pub const ENDS: [&str; 16] = [
    "load, hit",
    "load, refilled",
    "load, wrote back",
    "store, hit",
    "store, refilled",
    "store, wrote back",
    "refused by 2 for its process",
    "refused by 2 for its value",
    "refused by 2 while a tag is pending",
    "refused by 3",
    "refused by 4",
    "refused by 5",
    "refused by 6",
    "refused by 7",
    "refused by 8",
    "refused by 9",
];

/// None where no user access comes out so.
fn end_of(item: &Item, event: Event, board: &Board) -> Option<usize> {
    let store = if item.is_store() { 3 } else { 0 };
    Some(match event {
        Event::Hit => store,
        Event::Miss => store + 1,
        Event::MissWriteBack => store + 2,
        Event::Refused(2) if board.tag.0 => 8,
        Event::Refused(2) if u64::from(item.word()) >= board.shape.processes => 6,
        Event::Refused(2) => 7,
        Event::Refused(number @ 3..=9) => 6 + number as usize,
        _ => return None,
    })
}

// ---------------------------------------------------------------------------------------------
// Lists
// ---------------------------------------------------------------------------------------------

/// On which boards something must be met: on wild ones and on fresh ones, or on wild ones alone.
#[derive(Clone, Copy, Debug, PartialEq, Eq)]
pub enum Reached {
    Anywhere,
    OnWild,
}

/// The routes that can bring it: all; those that take words; those that take pointers; those that make accesses.
const EACH: &[Route] = &[Raw, Header, ByBoard, Safe];
const WORDS: &[Route] = &[Raw, Header];
const POINTERS: &[Route] = &[Raw, Header, ByBoard];
const MAKERS: &[Route] = &[ByBoard, Safe];

macro_rules! sights {
    ($($sight:ident $words:literal: $routes:expr, $reached:expr;)*) => {
        #[derive(Clone, Copy, Debug, PartialEq, Eq)]
        pub enum Sight { $($sight),* }

        /// In words, by which routes and on which boards.
        pub const SIGHTS: &[(Sight, &str, &[Route], Reached)] = &[$((Sight::$sight, $words, $routes, $reached)),*];
    };
}

sights! {
    Empty "done: an empty list": EACH, Anywhere;
    EmptyNull "done: an empty list, both buffers NULL": POINTERS, Anywhere;
    One "done: one access": EACH, Anywhere;
    Two "done: two accesses": EACH, Anywhere;
    Few "done: 3 to 9 accesses": EACH, Anywhere;
    Tens "done: 10 accesses or more": EACH, Anywhere;
    Many "done: more than 65,536 accesses": EACH, Anywhere;
    AllDone "several accesses, none refused": EACH, Anywhere;
    AllRefused "several accesses, all refused, no tag pending": EACH, Anywhere;
    DoneAfter2 "an access done after one refused by 2": EACH, Anywhere;
    DoneAfter4 "an access done after one refused by 4": EACH, Anywhere;
    DoneAfter5 "an access done after one refused by 5": EACH, Anywhere;
    DoneAfter6 "an access done after one refused by 6": EACH, Anywhere;
    DoneAfter7 "an access done after one refused by 7": EACH, Anywhere;
    DoneAfter8 "an access done after one refused by 8": EACH, Anywhere;
    DoneAfter9 "an access done after one refused by 9": EACH, Anywhere;
    HitFilled "a hit on a line that the list has filled": EACH, Anywhere;
    HitOthers "a hit on a line that the list has filled for another process": EACH, Anywhere;
    MissPushed "a miss of a line held before the list, which has pushed it out": EACH, Anywhere;
    MissFilled "a miss of a line that the list has filled and pushed out": EACH, Anywhere;
    WritesOwn "a write-back of a line that the list has changed": EACH, Anywhere;
    ReadsStored "a load of bytes that the list has stored": EACH, Anywhere;
    ReadsBack "a load of bytes that the list has stored, their line pushed out in between": EACH, Anywhere;
    ReadsRefused "a load of bytes that a store of the list was refused": EACH, Anywhere;
    ReadOnlyFilled "a store refused by 9 to a line that a load of the list has filled": EACH, Anywhere;
    OddStore "a store done by another number than 1": EACH, Anywhere;
    LargeLoad "a load done with a value that no store of its width takes": EACH, Anywhere;
    CutProcess "an access refused by 2 for a process that, cut to 16 bits, would be one": EACH, Anywhere;
    FarProcess "an access whose process has more than 32 bits, made by the header or the crate": MAKERS, Anywhere;
    OddSet "a tag pending by another number than 1": POINTERS, Anywhere;
    AnswersShort "1: an answer too few": EACH, Anywhere;
    AnswersLong "1: an answer too many": EACH, Anywhere;
    AnswersMany "1: more than twice as many answers": EACH, Anywhere;
    AnswersAsWords "1: an answer for each word": EACH, Anywhere;
    AnswersCut "1: as many answers, if their number is cut to 16 bits": EACH, Anywhere;
    AnswersNone "1: accesses, and no answers": EACH, Anywhere;
    AnswersNull "1: accesses, and no answers, as NULL": POINTERS, Anywhere;
    AccessesNone "1: answers, and no accesses": EACH, Anywhere;
    AccessesNull "1: answers, and no accesses, as NULL": POINTERS, Anywhere;
    TornShort "1: words behind the last access, no answer for them": WORDS, Anywhere;
    TornLong "1: words behind the last access, an answer for them": WORDS, Anywhere;
    UnfitEmpty "1: the board doesn't fit, the list is empty": EACH, OnWild;
    UnfitBoth "1: neither the board fits nor the list": EACH, OnWild;
}

/// What is counted of a list.
#[derive(Default)]
pub struct Tally {
    pub sights: Vec<Sight>,
    /// Of a list that is done: each access's place and end, indices in `SPOTS` and `ENDS`.
    pub ends: Vec<(usize, usize)>,
    /// Of a list that fits, refused by the board: the one cause.
    pub cause: Option<Case>,
}

/// What an access of a list did, and the record with which it was done, or would have been, if it was to a line.
pub type Did = (Event, Option<u64>);

impl Tally {
    /// Of a list on this board, by what its accesses did: none of them where it was refused.
    pub fn of(list: &List, manner: &Manner, board: &Board, events: &[Did]) -> Tally {
        let mut tally = Tally::default();
        if !board.fits() {
            tally.unfit(list, board);
        } else if !list.fits() {
            tally.refused(list, manner);
        } else {
            tally.lengths(list, manner);
            tally.accesses(list, manner, board, events);
        }
        tally
    }

    fn when(&mut self, is: bool, sight: Sight) {
        if is && !self.sights.contains(&sight) {
            self.sights.push(sight);
        }
    }

    fn unfit(&mut self, list: &List, board: &Board) {
        if list.fits() {
            self.cause = cases::cause_of_one(board);
            self.when(list.items.is_empty(), Sight::UnfitEmpty);
        } else {
            self.when(true, Sight::UnfitBoth);
        }
    }

    fn refused(&mut self, list: &List, manner: &Manner) {
        let (accesses, answers, null) = (list.items.len(), list.answers, manner.null);
        if !list.torn.is_empty() {
            self.when(answers == accesses, Sight::TornShort);
            self.when(answers == accesses + 1, Sight::TornLong);
            return;
        }
        self.when(answers + 1 == accesses, Sight::AnswersShort);
        self.when(answers == accesses + 1, Sight::AnswersLong);
        self.when(accesses > 0 && answers > 2 * accesses, Sight::AnswersMany);
        self.when(accesses > 0 && answers == ACCESS_WORDS * accesses, Sight::AnswersAsWords);
        self.when(answers > accesses && (answers - accesses) % 0x1_0000 == 0, Sight::AnswersCut);
        self.when(answers == 0, if null { Sight::AnswersNull } else { Sight::AnswersNone });
        self.when(accesses == 0, if null { Sight::AccessesNull } else { Sight::AccessesNone });
    }

    fn lengths(&mut self, list: &List, manner: &Manner) {
        self.when(
            true,
            match list.items.len() {
                0 if manner.null => Sight::EmptyNull,
                0 => Sight::Empty,
                1 => Sight::One,
                2 => Sight::Two,
                3..=9 => Sight::Few,
                10..=0x1_0000 => Sight::Tens,
                _ => Sight::Many,
            },
        );
    }

    fn accesses(&mut self, list: &List, manner: &Manner, board: &Board, events: &[Did]) {
        let several = list.items.len() > 1;
        let refused = |(event, _): &Did| matches!(event, Event::Refused(_));
        self.when(several && !events.iter().any(refused), Sight::AllDone);
        self.when(several && events.iter().all(refused) && !board.tag.0, Sight::AllRefused);
        self.when(several && board.tag.0 && manner.yes != 1, Sight::OddSet);
        let mut past = Past::default();
        for (index, (item, &(event, at))) in list.items.iter().zip(events).enumerate() {
            let spot = Spot::of(index, list.items.len());
            self.ends.extend(end_of(item, event, board).map(|end| (spot as usize, end)));
            let made = MAKERS.contains(&manner.route) && item.can_be_made();
            self.when(made && item.process > u32::MAX.into(), Sight::FarProcess);
            if let Event::Refused(number) = event {
                let cut =
                    u64::from(item.word() as u16) < board.shape.processes && end_of(item, event, board) == Some(6);
                self.when(cut, Sight::CutProcess);
                past.numbers.push(number);
            } else {
                self.when(item.is_store() && item.store != 1, Sight::OddStore);
                let large = end_of_width(item.width).is_some_and(|end| u64::from(item.value) >= end);
                self.when(!item.is_store() && large, Sight::LargeLoad);
                DONE_AFTER.into_iter().for_each(|(number, sight)| self.when(past.numbers.contains(&number), sight));
            }
            if let (Some(touched), Some(at)) = (Touched::of(item, board), at) {
                self.through_others(&past, board, item, &touched, (event, at));
                past.has(item, touched, (event, at));
            }
        }
    }

    /// What becomes of an access through those before it.
    fn through_others(
        &mut self,
        past: &Past,
        board: &Board,
        item: &Item,
        touched: &Touched,
        (event, at): (Event, u64),
    ) {
        let done = !matches!(event, Event::Refused(_));
        let fill = past.fills.iter().rev().find(|fill| fill.name == touched.name && !fill.pushed);
        let pushed = |fill: &Fill| fill.name == touched.name && fill.pushed;
        let missed = matches!(event, Event::Miss | Event::MissWriteBack);
        self.when(event == Event::Hit && fill.is_some(), Sight::HitFilled);
        self.when(event == Event::Hit && fill.is_some_and(|fill| fill.process != item.process), Sight::HitOthers);
        self.when(missed && past.fills.iter().any(pushed), Sight::MissFilled);
        self.when(missed && board.held_by_name(touched.name).is_some(), Sight::MissPushed);
        self.when(event == Event::Refused(9) && fill.is_some_and(|fill| !fill.store), Sight::ReadOnlyFilled);
        let changed = |store: &Store| store.done && !store.pushed && store.at == at;
        self.when(event == Event::MissWriteBack && past.stores.iter().any(changed), Sight::WritesOwn);
        if done && !item.is_store() {
            for store in past.stores.iter().filter(|store| store.touched.meets(touched)) {
                self.when(store.done, Sight::ReadsStored);
                self.when(store.done && store.pushed, Sight::ReadsBack);
                self.when(!store.done, Sight::ReadsRefused);
            }
        }
    }
}

const DONE_AFTER: [(u32, Sight); 7] = [
    (2, Sight::DoneAfter2),
    (4, Sight::DoneAfter4),
    (5, Sight::DoneAfter5),
    (6, Sight::DoneAfter6),
    (7, Sight::DoneAfter7),
    (8, Sight::DoneAfter8),
    (9, Sight::DoneAfter9),
];

/// The line that an access is to, and its bytes in it.
struct Touched {
    name: u64,
    bytes: Range<u64>,
}

impl Touched {
    /// None where the process, the width or the slot is none. A list changes no slot.
    fn of(item: &Item, board: &Board) -> Option<Touched> {
        let (process, slot) = (u64::from(item.word()), slot_of(item.address));
        if process >= board.shape.processes || end_of_width(item.width).is_none() || slot >= SLOTS {
            return None;
        }
        let (segment, _) = slot_read(board.slots[(process * SLOTS + slot) as usize])?;
        let global = global_of(segment, offset_of(item.address));
        let first = global % LINE_BYTES;
        Some(Touched { name: name_of(global), bytes: first..first + u64::from(item.width) })
    }

    fn meets(&self, other: &Touched) -> bool {
        self.name == other.name && self.bytes.start < other.bytes.end && other.bytes.start < self.bytes.end
    }
}

/// A line that the list has filled.
struct Fill {
    name: u64,
    /// Into this record.
    at: u64,
    process: u64,
    /// By a store, or by a load.
    store: bool,
    /// Another line has pushed it out since.
    pushed: bool,
}

/// A store of the list.
struct Store {
    touched: Touched,
    at: u64,
    done: bool,
    /// Its line was pushed out since.
    pushed: bool,
}

/// What the accesses of a list have done so far.
#[derive(Default)]
struct Past {
    numbers: Vec<u32>,
    fills: Vec<Fill>,
    stores: Vec<Store>,
}

impl Past {
    fn has(&mut self, item: &Item, touched: Touched, (event, at): (Event, u64)) {
        let (name, process, store) = (touched.name, item.process, item.is_store());
        if matches!(event, Event::Miss | Event::MissWriteBack) {
            self.fills.iter_mut().filter(|fill| fill.at == at).for_each(|fill| fill.pushed = true);
            self.stores.iter_mut().filter(|store| store.at == at).for_each(|store| store.pushed = true);
            self.fills.push(Fill { name, at, process, store, pushed: false });
        }
        if store {
            let done = !matches!(event, Event::Refused(_));
            self.stores.push(Store { touched, at, done, pushed: false });
        }
    }
}
