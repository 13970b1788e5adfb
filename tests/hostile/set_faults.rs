//! Planted faults in sets of four: which line of a set is found, which is the victim, what a use writes and what is one, and what
//! leaves the matrices. Each makes of a board what a library with that fault would; answers stay as they are.

use crate::cases::{self, name_of_call, Case};
use crate::gen::put;
use crate::guarded::Real;
use crate::limits::*;
use crate::lists::List;
use crate::routes::Told;
use crate::run::Kind;
use crate::sets::{By, LINES, USES};
use model::{
    kind_of, mapping, ones, page_of_name, place_of, used, Board, Call, Edition, Event, Kind as Address, Record,
};
use By::{Inserts, List as InLists, Ordinary, Prefix1, User};

macro_rules! faults {
    ($($wrong:ident $name:literal $kind:ident $wild:expr, $fresh:expr, $words:literal;)*) => {
        #[derive(Clone, Copy, Debug, PartialEq, Eq)]
        pub enum Wrong { $(#[doc = $words] $wrong),* }

        /// By name, each with what has to find it, and by what uses lines it shows on wild boards and on fresh ones.
        pub const FAULTS: &[(Wrong, &str, Kind, &[By], &[By])] =
            &[$((Wrong::$wrong, $name, Kind::$kind, $wild, $fresh)),*];
    };
}

const ACCESSES: &[By] = &[User, InLists, Ordinary, Prefix1];
const PAGED: &[By] = &[User, InLists, Ordinary, Inserts];
const NONE: &[By] = &[];

faults! {
    // The victim.
    MostOnes "set-most-ones" Buffer USES, USES, "The victim has the most ones.";
    HighestTie "set-highest-tie" Buffer USES, NONE, "Of several with the fewest ones, the highest.";
    HighestEmpty "set-highest-empty" Buffer USES, USES, "The highest empty line is filled.";
    EmptyPassed "set-empty-passed" Buffer USES, USES, "An empty line is passed over for one with fewer ones.";
    EmptyFewest "set-empty-fewest" Buffer USES, USES, "Of several empty lines, that with the fewest ones.";
    EmptyInvalid "set-empty-invalid" Buffer USES, NONE, "Only what is not valid is empty.";
    FullFirst "set-full-first" Buffer USES, USES, "In a full set the first line.";
    BySums "set-by-sums" Buffer USES, NONE, "By the sums of rows.";
    ByOnes "set-by-ones" Buffer USES, NONE, "By the entries of 1 alone.";
    ByLowBits "set-by-low-bits" Buffer USES, NONE, "By the entries' lowest bits.";
    ByHighBits "set-by-high-bits" Buffer USES, USES, "By the entries' highest bits.";
    ByOthers "set-by-others" Buffer USES, NONE, "Without the diagonal.";
    ByColumns "set-by-columns" Buffer USES, NONE, "By the most ones in columns.";
    NoWriteBack "set-no-write-back" Buffer USES, USES, "The victim of a full set is not written back.";
    WritesSet "set-writes-set" Buffer USES, NONE, "All changed lines of a full set are written back.";
    // The line that is found.
    ThreeLines "set-three-lines" Buffer USES, USES, "Only three of the four lines are looked at.";
    FirstLine "set-first-line" Buffer USES, USES, "Only the first line is looked at.";
    HighestTwice "set-highest-twice" Uses ACCESSES, NONE, "Of a name twice in a set the highest record counts.";
    FindsInvalid "set-finds-invalid" Buffer USES, USES, "A record with the name counts though it is not valid.";
    FindsBeyond "set-finds-beyond" Buffer USES, NONE, "A record with the name counts though its line is beyond memory.";
    Interleaved "set-interleaved" Buffer USES, USES, "The lines of a set stand a quarter of the records apart.";
    // What a use writes.
    ColumnFirst "set-column-first" Uses USES, USES, "The column is cleared before the row is set.";
    RowOnly "set-row-only" Uses USES, USES, "Of the column only the diagonal is cleared.";
    ColumnOnly "set-column-only" Uses USES, USES, "The row is not set.";
    Transposed "set-transposed" Uses USES, USES, "The column is set and the row cleared.";
    FirstMatrix "set-first-matrix" Uses USES, USES, "The first set's matrix is written.";
    NextMatrix "set-next-matrix" Uses USES, USES, "The next set's matrix is written.";
    Normalizes "set-normalizes" Uses USES, NONE, "Every entry that is not 0 becomes 1.";
    KeepsOnes "set-keeps-ones" Uses USES, NONE, "Of the row only the zeros are set.";
    ClearsOnes "set-clears-ones" Uses USES, NONE, "Of the column only the entries of 1 are cleared.";
    // What is a use.
    NoUseHit "set-no-use-hit" Uses ACCESSES, ACCESSES, "A hit is no use.";
    NoUseMiss "set-no-use-miss" Uses ACCESSES, ACCESSES, "A miss is no use.";
    NoUseInserted "set-no-use-inserted" Uses &[Inserts], &[Inserts], "An insertion is no use.";
    UseFound "set-use-found" Uses &[Inserts], &[Inserts], "Load-and-map of a held line is a use.";
    UseRefused "set-use-refused" Uses USES, USES, "A refused access to a held line is a use.";
    UseMissed "set-use-missed" Uses PAGED, PAGED, "A refused access to a line that is not held is a use of the victim.";
    UseUncached "set-use-uncached" Uses &[User], USES, "An access under prefix 0 is a use of the victim.";
    UseProtect "set-use-protect" Uses &[User], PAGED, "Protect is a use.";
    UseMove "set-use-move" Uses &[User], PAGED, "Move is a use of the page's lines.";
    UseMoveNew "set-use-move-new" Uses &[User], NONE, "Move is a use of the new page's lines.";
    UseLook "set-use-look" Uses &[User], USES, "A look is a use.";
    // What drops do.
    DropRow "set-drop-row" Uses &[User, Prefix1], USES, "To drop a line clears its row.";
    DropColumn "set-drop-column" Uses &[User, Prefix1], USES, "To drop a line clears its column.";
    DropMatrix "set-drop-matrix" Uses &[User, Prefix1], USES, "To drop a line clears the matrix.";
    MoveClears "set-move-clears" Uses &[User], PAGED, "A move clears the matrices of its lines.";
    FlushClears "set-flush-clears" Uses &[User], USES, "Flush all clears the matrices.";
    // What is refused by 1.
    TakesOneLine "set-takes-1" Number NONE, NONE, "L = 1 is taken.";
    TakesTwoLines "set-takes-2" Number NONE, NONE, "L = 2 is taken.";
    TakesFewer "set-takes-fewer" Number NONE, NONE, "Too few matrices are taken.";
    TakesMore "set-takes-more" Number NONE, NONE, "Too many matrices are taken.";
}

impl Wrong {
    fn row(self) -> &'static (Wrong, &'static str, Kind, &'static [By], &'static [By]) {
        FAULTS.iter().find(|(wrong, ..)| *wrong == self).expect("every fault has a name")
    }

    pub fn found_as(self) -> Kind {
        self.row().2
    }

    /// Another line is found, or another is the victim: that may show in the records or, where a load finds it, in the matrix alone.
    pub fn is_found_as(self, kind: Kind) -> bool {
        let of_lines = matches!(self.found_as(), Kind::Buffer | Kind::Uses);
        kind == self.found_as() || of_lines && matches!(kind, Kind::Buffer | Kind::Uses)
    }

    /// By what uses lines it shows, on wild boards or on fresh ones.
    pub fn shows_by(self, fresh: bool) -> &'static [By] {
        if fresh {
            self.row().4
        } else {
            self.row().3
        }
    }

    /// After a look at the line that this record holds.
    pub fn after_look(self, board: &Board, holder: Option<u64>, real: &mut Real) {
        if let (Wrong::UseLook, Edition::Fours, Some(at)) = (self, board.edition, holder) {
            let mut board = board.clone();
            Library(Some(self)).use_at(&mut board, at);
            copy(&board, real);
        }
    }

    fn after_unfit(self, before: &Board, told: &mut Told) {
        let takes = match cases::cause_of_one(before) {
            Some(Case::LinesBelow1) => Wrong::TakesOneLine,
            Some(Case::LinesBelow2) => Wrong::TakesTwoLines,
            Some(Case::UsesNone | Case::UsesShort) => Wrong::TakesFewer,
            Some(Case::UsesLong | Case::UsesAsLines | Case::UsesAsBytes) => Wrong::TakesMore,
            _ => return,
        };
        if self == takes {
            told.answer.number = 0;
        }
    }
}

// ----- where it is planted -----

/// After a call, before which this was the board: with what is wrong, if anything is.
pub fn after_call(wrong: Option<Wrong>, call: &Call, before: &Board, real: &mut Real, told: &mut Told) {
    match (before.edition, before.fits(), wrong) {
        (Edition::Fours, true, _) => {
            let mut board = before.clone();
            Library(wrong).step(&mut board, call);
            copy(&board, real);
        }
        (Edition::Fours, false, Some(wrong)) => wrong.after_unfit(before, told),
        _ => {}
    }
}

pub fn after_list(wrong: Option<Wrong>, list: &List, before: &Board, real: &mut Real, told: &mut Told) {
    match (before.edition, before.fits(), wrong) {
        (Edition::Fours, true, _) if told.answer.number == 0 => {
            let mut board = before.clone();
            list.items.iter().for_each(|item| Library(wrong).step(&mut board, &item.call()));
            copy(&board, real);
        }
        (Edition::Fours, false, Some(wrong)) => wrong.after_unfit(before, told),
        _ => {}
    }
}

// ----- a library with the fault -----

/// What stands in for the library on boards of sets of four, with what is wrong in it, if anything is.
#[derive(Clone, Copy)]
struct Library(Option<Wrong>);

impl Library {
    fn is(self, wrong: Wrong) -> bool {
        self.0 == Some(wrong)
    }

    /// Makes a call.
    fn step(self, board: &mut Board, call: &Call) {
        let before = board.clone();
        let event = board.step(call).1;
        match event {
            Event::Hit | Event::Miss | Event::MissWriteBack | Event::Inserted { .. } | Event::FoundHeld => {
                *board = before;
                self.access(board, call, event);
            }
            Event::Refused(_) => {
                let Some(name) = name_of_call(board, call) else { return };
                match (self.0, board.holder(name)) {
                    (Some(Wrong::UseRefused), Some(at)) => self.use_at(board, at),
                    (Some(Wrong::UseMissed), None) => self.use_at(board, board.record_for(name)),
                    _ => {}
                }
            }
            Event::Uncached if self.is(Wrong::UseUncached) => {
                let name = name_of_call(board, call).expect("an access to a line");
                self.use_at(board, board.victim(place_of(name, board.sets())));
            }
            Event::Protected { .. } | Event::Moved { .. } if self.used_page(call).is_some() => {
                for at in board.all_records() {
                    if before.held(at).is_some_and(|record| Some(page_of_name(record.name)) == self.used_page(call)) {
                        self.use_at(board, at);
                    }
                }
            }
            Event::Mapped { .. } | Event::Unmapped { .. } | Event::Moved { .. } | Event::Flushed { .. } => {
                self.drop_lines(board, &before, call)
            }
            _ => {}
        }
    }

    /// The page whose lines a call uses that uses none.
    fn used_page(self, call: &Call) -> Option<u64> {
        match (self.0, *call) {
            (Some(Wrong::UseProtect), Call::Protect { page, .. }) => Some(page),
            (Some(Wrong::UseMove), Call::Move { page, .. }) => Some(page),
            (Some(Wrong::UseMoveNew), Call::Move { new_page, .. }) => Some(new_page),
            _ => None,
        }
    }

    /// An access or a load-and-map that is done.
    fn access(self, board: &mut Board, call: &Call, event: Event) {
        let name = name_of_call(board, call).expect("an access to a line");
        let found = self.found(board, name);
        if event == Event::FoundHeld || matches!(event, Event::Inserted { .. }) {
            board.tag = model::NO_TAG;
        }
        let at = match found {
            Some(at) => at,
            None => {
                let at = self.victim(board, place_of(name, board.sets()));
                self.fill(board, name, at);
                at
            }
        };
        store(board, call, at);
        let inserts = matches!(call, Call::LoadAndMap { .. });
        let is_use = match (found.is_some(), inserts) {
            (true, true) => self.is(Wrong::UseFound),
            (false, true) => !self.is(Wrong::NoUseInserted),
            (true, false) => !self.is(Wrong::NoUseHit),
            (false, false) => !self.is(Wrong::NoUseMiss),
        };
        if is_use {
            self.use_at(board, at);
        }
    }

    /// The records of a set.
    fn set(self, board: &Board, place: u64) -> [u64; LINES] {
        let sets = board.sets();
        [0, 1, 2, 3].map(|line| if self.is(Wrong::Interleaved) { place + line * sets } else { 4 * place + line })
    }

    fn found(self, board: &Board, name: u64) -> Option<u64> {
        let set = self.set(board, place_of(name, board.sets()));
        let holds = |at: &u64| {
            let record = board.record(*at);
            let valid = record.valid || self.is(Wrong::FindsInvalid);
            let inside = record.line < LINES_PER_PAGE * board.shape.frames || self.is(Wrong::FindsBeyond);
            record.name == name && valid && inside
        };
        let looked = match self.0 {
            Some(Wrong::ThreeLines) => 3,
            Some(Wrong::FirstLine) => 1,
            _ => LINES,
        };
        let mut those = set[..looked].iter().copied().filter(holds);
        match self.0 {
            Some(Wrong::HighestTwice) => those.last(),
            _ => those.next(),
        }
    }

    fn victim(self, board: &Board, place: u64) -> u64 {
        let (set, matrix) = (self.set(board, place), &board.uses[place as usize]);
        let is_empty = |line: &usize| match self.0 {
            Some(Wrong::EmptyInvalid) => !board.record(set[*line]).valid,
            Some(Wrong::Interleaved) => !board.record(set[*line]).valid,
            _ => board.held(set[*line]).is_none(),
        };
        let empty: Vec<usize> = (0..LINES).filter(is_empty).collect();
        let count = |is: &dyn Fn(u8) -> bool, line: usize| matrix[line].iter().filter(|&&entry| is(entry)).count();
        let key = |line: usize| match self.0 {
            Some(Wrong::MostOnes) => LINES - ones(&matrix[line]),
            Some(Wrong::BySums) => matrix[line].iter().map(|&entry| usize::from(entry)).sum(),
            Some(Wrong::ByOnes) => count(&|entry| entry == 1, line),
            Some(Wrong::ByLowBits) => count(&|entry| entry % 2 == 1, line),
            Some(Wrong::ByHighBits) => count(&|entry| entry >= 0x80, line),
            Some(Wrong::ByOthers) => ones(&matrix[line]) - usize::from(matrix[line][line] != 0),
            Some(Wrong::ByColumns) => LINES - matrix.iter().filter(|row| row[line] != 0).count(),
            Some(Wrong::FullFirst) => line,
            _ => ones(&matrix[line]),
        };
        let least = |lines: &[usize]| lines.iter().copied().min_by_key(|&line| key(line)).expect("some lines");
        let all = [0, 1, 2, 3];
        set[match self.0 {
            Some(Wrong::HighestTie) if empty.is_empty() => {
                all.into_iter().rev().min_by_key(|&line| key(line)).unwrap_or(0)
            }
            _ if empty.is_empty() => least(&all),
            Some(Wrong::EmptyPassed) => least(&all),
            Some(Wrong::EmptyFewest) => least(&empty),
            Some(Wrong::HighestEmpty) => empty[empty.len() - 1],
            _ => empty[0],
        }]
    }

    fn fill(self, board: &mut Board, name: u64, at: u64) {
        let full = board.records_at(at / 4).all(|at| board.held(at).is_some());
        let writes = match self.0 {
            Some(Wrong::NoWriteBack) if full => vec![],
            Some(Wrong::WritesSet) if full => board.records_at(at / 4).collect(),
            _ => vec![at],
        };
        for at in writes {
            if let Some(Record { changed: true, line, .. }) = board.held(at) {
                board.memory[line_bytes(line)].copy_from_slice(&board.cache[line_bytes(at)]);
            }
        }
        let (line, write) = source(board, name);
        board.cache[line_bytes(at)].copy_from_slice(&board.memory[line_bytes(line)]);
        put(board, at, Record { name, line, changed: false, write, valid: true }.encode());
    }

    fn use_at(self, board: &mut Board, at: u64) {
        let (place, line) = match self.0 {
            Some(Wrong::Interleaved) => (at % board.sets(), (at / board.sets()) as usize),
            _ => (at / 4, (at % 4) as usize),
        };
        let written = match self.0 {
            Some(Wrong::FirstMatrix) => 0,
            Some(Wrong::NextMatrix) => (place + 1) % board.sets(),
            _ => place,
        };
        let matrix = &mut board.uses[written as usize];
        let before = *matrix;
        *matrix = used(&before, line);
        for (row, column) in (0..LINES).flat_map(|row| (0..LINES).map(move |column| (row, column))) {
            let (own, old) = ((row == line, column == line), before[row][column]);
            let entry = &mut matrix[row][column];
            *entry = match (self.0, own) {
                (Some(Wrong::ColumnFirst), (true, true)) => 1,
                (Some(Wrong::RowOnly), (false, true)) => old,
                (Some(Wrong::ColumnOnly), (true, false)) => old,
                (Some(Wrong::Transposed), (false, true)) => 1,
                (Some(Wrong::Transposed), (true, false)) => 0,
                (Some(Wrong::Normalizes), (false, false)) => old.min(1),
                (Some(Wrong::KeepsOnes), (true, false)) => old.max(1),
                (Some(Wrong::ClearsOnes), (false, true)) if old != 1 => old,
                _ => *entry,
            };
        }
    }

    /// What becomes of the matrices where lines were dropped.
    fn drop_lines(self, board: &mut Board, before: &Board, call: &Call) {
        if self.is(Wrong::FlushClears) && matches!(call, Call::FlushAll) {
            board.uses.fill(model::FRESH_MATRIX);
        }
        for at in before.all_records() {
            if before.held(at).is_none() || board.held(at).is_some() {
                continue;
            }
            let (matrix, line) = (&mut board.uses[(at / 4) as usize], (at % 4) as usize);
            match self.0 {
                Some(Wrong::DropRow) => matrix[line] = [0; LINES],
                Some(Wrong::DropColumn) => matrix.iter_mut().for_each(|row| row[line] = 0),
                Some(Wrong::DropMatrix) => *matrix = model::FRESH_MATRIX,
                Some(Wrong::MoveClears) if matches!(call, Call::Move { .. }) => *matrix = model::FRESH_MATRIX,
                _ => {}
            }
        }
    }
}

/// From where a line is filled, and with what permission. Asked only of lines that can be.
fn source(board: &Board, name: u64) -> (u64, bool) {
    match kind_of(name * LINE_BYTES) {
        Address::Cached(physical) => (physical / LINE_BYTES, true),
        _ => {
            let mapped = mapping(&board.shape, &board.words, page_of_name(name));
            // A line that is held may be one of a page that is not mapped: a fault that fills it again takes some line.
            mapped.map_or((0, true), |(frame, write)| (line_in(frame, name), write))
        }
    }
}

/// The bytes of a store, most significant first, and the mark that the line is changed.
fn store(board: &mut Board, call: &Call, at: u64) {
    let (width, address, value) = match *call {
        Call::UserAccess { store: true, width, address, value, .. } => (width, u64::from(address), value),
        Call::SupervisorAccess { store: true, width, global, value } => (width, global, value),
        _ => return,
    };
    let first = line_bytes(at).start + (address % LINE_BYTES) as usize;
    let bytes = value.to_be_bytes();
    board.cache[first..first + width as usize].copy_from_slice(&bytes[bytes.len() - width as usize..]);
    let record = board.record(at);
    put(board, at, Record { changed: true, ..record }.encode());
}

/// The board as the library leaves it; the tag has been set.
fn copy(board: &Board, real: &mut Real) {
    real.slots.inner_mut().copy_from_slice(&board.slots);
    real.words.inner_mut().copy_from_slice(&board.words);
    real.records.inner_mut().copy_from_slice(&board.records);
    real.cache.inner_mut().copy_from_slice(&board.cache);
    real.memory.inner_mut().copy_from_slice(&board.memory);
    real.uses.inner_mut().copy_from_slice(matrix_bytes(&board.uses));
}
