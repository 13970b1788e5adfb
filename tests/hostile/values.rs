//! Values at the ends of what the widths hold, and past them, in stores beside every other number that could be given; with
//! widths that are none too; and in loads, whose value isn't asked (two routes bring one). On fresh boards and on wild ones. They are
//! counted in every run; the planned runs below reach them all, and nothing else is counted there.

use crate::coverage::{Coverage, Planned};
use crate::limits::*;
use crate::pairs::Failure;
use crate::plant::Plant;
use crate::rng::Rng;
use crate::routes::Route;
use crate::trace::{Deed, Start, Step};
use crate::{gen, stepped, ways};
use model::{kind_of, Board, Call, Edition, Event, Kind, Shape, NO_TAG};
use std::fmt;
use Event::{Hit, Miss, MissWriteBack, Refused, Uncached};
use Whose::{Beyond, Ordinary, PageTable, Prefix0, Prefix1, User};

/// A user's access, or a supervisor's by what its address is: beyond is from 2^44 up.
#[derive(Clone, Copy, Debug, PartialEq, Eq)]
pub enum Whose {
    User,
    Ordinary,
    Prefix1,
    Prefix0,
    PageTable,
    Beyond,
}

/// An access, and what it is with a value that fits.
#[derive(Clone, Copy, PartialEq, Eq)]
pub struct Row {
    pub whose: Whose,
    pub store: bool,
    pub otherwise: Event,
}

pub const fn store(whose: Whose, otherwise: Event) -> Row {
    Row { whose, store: true, otherwise }
}

pub const fn load(whose: Whose, otherwise: Event) -> Row {
    Row { whose, store: false, otherwise }
}

pub const ROWS: [Row; 36] = [
    store(User, Hit),
    store(User, Miss),
    store(User, MissWriteBack),
    store(User, Refused(1)),
    store(User, Refused(2)),
    store(User, Refused(3)),
    store(User, Refused(4)),
    store(User, Refused(5)),
    store(User, Refused(6)),
    store(User, Refused(7)),
    store(User, Refused(8)),
    store(User, Refused(9)),
    store(Ordinary, Hit),
    store(Ordinary, Miss),
    store(Ordinary, MissWriteBack),
    store(Ordinary, Refused(1)),
    store(Ordinary, Refused(3)),
    store(Ordinary, Refused(4)),
    store(Ordinary, Refused(8)),
    store(Prefix1, Hit),
    store(Prefix1, Miss),
    store(Prefix1, MissWriteBack),
    store(Prefix1, Refused(4)),
    store(Prefix1, Refused(10)),
    store(Prefix1, Refused(12)),
    store(Prefix0, Uncached),
    store(Prefix0, Refused(4)),
    store(Prefix0, Refused(12)),
    store(PageTable, Refused(4)),
    store(PageTable, Refused(12)),
    store(Beyond, Refused(2)),
    load(User, Hit),
    load(Ordinary, Hit),
    load(Prefix1, Hit),
    load(Prefix0, Uncached),
    load(PageTable, Refused(12)),
];

impl fmt::Display for Row {
    fn fmt(&self, f: &mut fmt::Formatter) -> fmt::Result {
        let kind = if self.store { "store" } else { "load" };
        write!(f, "{:?} {kind}, otherwise {:?}", self.whose, self.otherwise)
    }
}

impl Row {
    /// Whether there is such an access. Nothing is misaligned at width 1; a width that is none is 4 if no lower number comes; on
    /// a fresh board the lengths agree; and two routes bring no value with a load.
    pub fn can_be(&self, width: u32, route: Route, fresh: bool) -> bool {
        let by_width = match end_of_width(width) {
            Some(_) => width != 1 || self.otherwise != Refused(4),
            None => self.otherwise == Refused(4),
        };
        let by_route = self.store || matches!(route, Route::Raw | Route::Header);
        by_width && by_route && !(fresh && self.otherwise == Refused(1))
    }

    /// The number that it must give.
    fn number(&self, width: u32, value: u32) -> u32 {
        match self.otherwise {
            Refused(1) => 1,
            _ if self.store && is_large(width, value) => 2,
            Refused(number) => number,
            _ => 0,
        }
    }
}

fn is_large(width: u32, value: u32) -> bool {
    end_of_width(width).is_some_and(|end| u64::from(value) >= end)
}

/// What CR 2 asks of an access, and whose it is.
#[derive(Clone, Copy)]
pub struct Access {
    pub whose: Whose,
    pub store: bool,
    pub width: u32,
    pub value: u32,
}

impl Access {
    pub fn of(call: &Call) -> Option<Access> {
        let (whose, store, width, value) = match *call {
            Call::UserAccess { store, width, value, .. } => (User, store, width, value),
            Call::SupervisorAccess { store, width, global, value } => {
                let whose = match (global < GLOBAL_END).then(|| kind_of(global)) {
                    Some(Kind::Ordinary) => Ordinary,
                    Some(Kind::Cached(_)) => Prefix1,
                    Some(Kind::Uncached(_)) => Prefix0,
                    Some(Kind::PageTable) => PageTable,
                    None => Beyond,
                };
                (whose, store, width, value)
            }
            _ => return None,
        };
        Some(Access { whose, store, width, value })
    }

    /// Whether the value does not fit its width, be it stored or not.
    pub fn is_large(&self) -> bool {
        is_large(self.width, self.value)
    }
}

/// The same access with the value 0; another call as it is.
pub fn fitting(call: &Call) -> Call {
    match *call {
        Call::UserAccess { process, store, width, address, .. } => {
            Call::UserAccess { process, store, width, address, value: 0 }
        }
        Call::SupervisorAccess { store, width, global, .. } => {
            Call::SupervisorAccess { store, width, global, value: 0 }
        }
        other => other,
    }
}

/// What was tried: indices in `ROWS`, `WIDTHS` and `VALUES`.
pub struct Tried {
    pub row: usize,
    pub width: usize,
    pub value: usize,
}

/// What an access tried, if it is of these and gave the number that it must. The model tells what it would have been with a
/// value that fits: refused by 2, it has left the board as it was.
pub fn tried(board: &Board, call: &Call, event: Event, number: u32) -> Option<Tried> {
    let Access { whose, store, width, value } = Access::of(call)?;
    let at = VALUES.iter().position(|&end| end == value)?;
    let by = WIDTHS.iter().position(|&tried| tried == width)?;
    let otherwise = if event == Refused(2) { board.clone().step(&fitting(call)).1 } else { event };
    let row = ROWS.iter().position(|row| *row == Row { whose, store, otherwise })?;
    (number == ROWS[row].number(width, value)).then_some(Tried { row, width: by, value: at })
}

// ----- the runs -----

/// With four sets, in either edition.
pub const SETS: u64 = 4;

pub fn shape(edition: Edition) -> Shape {
    Shape { frames: 6, uncached: 1, processes: PROCESSES, lines: set_lines(edition) * SETS }
}

const PROCESSES: u64 = 2;

/// As many lines of a page as push out the one before them at the place of its line 0.
pub fn pushing(edition: Edition) -> impl Iterator<Item = u64> {
    (1..=set_lines(edition)).map(|turn| turn * SETS)
}

/// Pages of one segment: in frame 1, writable; in frame 2, read-only; in none. Frame 3 is free.
const PAGE: u64 = PAGE_FIRST;
const READ_ONLY: u64 = 1;
const UNMAPPED: u64 = 2;
const MAPPED_FRAME: u64 = 1;
const FREE_FRAME: u64 = 3;

/// Slots of process 0: the segment is attached to slot 0 for writing, to slot 1 read-only; slot 2 is empty.
const SLOT_READ_ONLY: u64 = 1;
const SLOT_EMPTY: u64 = 2;

/// Calls that bring this about, on any board whose words are out of the way: lines of these pages and frames are dropped, too.
pub fn first_calls(row: &Row) -> Vec<Call> {
    let attach = |slot, write| Call::Attach { process: 0, slot, segment: SEGMENT_FIRST, write };
    let mut calls = vec![
        Call::Map { page: PAGE, frame: MAPPED_FRAME, write: true },
        Call::Map { page: PAGE + READ_ONLY, frame: 2, write: false },
        Call::Map { page: PAGE + UNMAPPED, frame: FREE_FRAME, write: true },
        Call::Unmap { page: PAGE + UNMAPPED },
        attach(0, true),
        attach(SLOT_READ_ONLY, false),
        Call::Detach { process: 0, slot: SLOT_EMPTY },
    ];
    if row.otherwise == Refused(3) {
        calls.push(Call::Tag { name: PAGE * LINES_PER_PAGE });
    }
    calls
}

/// The access of a row, to a line of its page or frame.
pub fn access(row: &Row, width: u32, value: u32, line: u64) -> Call {
    let Row { whose, store, otherwise } = *row;
    let page = match otherwise {
        Refused(8) => UNMAPPED,
        Refused(9) => READ_ONLY,
        _ => 0,
    };
    let crooked = otherwise == Refused(4) && end_of_width(width).is_some();
    let within = line * LINE_BYTES + u64::from(crooked);
    let global = match (whose, otherwise) {
        (User, _) => {
            let slot = match otherwise {
                Refused(5) => SLOTS,
                Refused(6) => SLOT_EMPTY,
                Refused(7) => SLOT_READ_ONLY,
                _ => 0,
            };
            let process = if otherwise == Refused(2) { PROCESSES } else { 0 };
            let address = (slot * SEGMENT_SPAN + page * PAGE_BYTES + within) as u32;
            return Call::UserAccess { process, store, width, address, value };
        }
        (Ordinary, _) => (PAGE + page) * PAGE_BYTES,
        (Prefix1, Refused(10)) => PREFIX1 + MAPPED_FRAME * PAGE_BYTES,
        (Prefix1, Refused(12)) => PREFIX1,
        (Prefix1, _) => PREFIX1 + FREE_FRAME * PAGE_BYTES,
        (Prefix0, Refused(12)) => PAGE_BYTES,
        (Prefix0, _) => 0,
        (PageTable, _) => PAGE_TABLE,
        (Beyond, _) => GLOBAL_END,
    };
    Call::SupervisorAccess { store, width, global: global + within, value }
}

/// Calls after which the row's access is what it is otherwise: its line is held; or not; or its place is full of others, all of
/// them changed.
pub fn calls_before(edition: Edition, row: &Row) -> Vec<Call> {
    let others = || pushing(edition).map(|line| access(row, 1, 1, line));
    match row.otherwise {
        Hit => vec![access(&Row { store: false, ..*row }, 1, 0, 0)],
        Miss => vec![Call::FlushAll],
        MissWriteBack => [Call::FlushAll].into_iter().chain(others()).collect(),
        _ => vec![],
    }
}

fn calls(edition: Edition, row: &Row, route: Route, fresh: bool) -> Vec<Call> {
    let mut calls = first_calls(row);
    for width in WIDTHS.into_iter().filter(|&width| row.can_be(width, route, fresh)) {
        for value in VALUES {
            calls.extend(calls_before(edition, row));
            calls.push(access(row, width, value, 0));
        }
    }
    calls
}

/// A board on which the first calls can be done; for number 1, one of a wrong length.
pub fn start(rng: &mut Rng, edition: Edition, row: &Row, fresh: bool) -> Start {
    let mut start = if fresh {
        gen::fresh(rng, edition, shape(edition))
    } else {
        let (mut board, _) = gen::wild_board(rng, edition, shape(edition));
        board.words[..=FREE_FRAME as usize].fill(0);
        let pages = PAGE..=PAGE + UNMAPPED;
        board.words.iter_mut().filter(|word| pages.contains(&(**word / 4))).for_each(|word| *word = 0);
        Start { fresh: false, board, offsets: gen::offsets(rng) }
    };
    start.board.tag = NO_TAG;
    if row.otherwise == Refused(1) {
        start.board.cache.push(0);
    }
    start
}

/// Gives how many boards were run: one for each row, route and kind of board.
pub fn values(
    rng: &mut Rng,
    edition: Edition,
    plant: Option<Plant>,
    coverage: &mut Coverage,
) -> Result<usize, Failure> {
    let mut boards = 0;
    coverage.planned = Some(Planned::Values);
    for (fresh, manner) in ways() {
        for row in ROWS.iter().filter(|row| WIDTHS.iter().any(|&width| row.can_be(width, manner.route, fresh))) {
            let calls = calls(edition, row, manner.route, fresh);
            let start = start(rng, edition, row, fresh);
            stepped(start, calls.len(), plant, coverage, |index, _| Step { deed: Deed::Call(calls[index]), manner })?;
            boards += 1;
        }
    }
    coverage.planned = None;
    Ok(boards)
}
