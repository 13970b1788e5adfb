//! Sets of four (CR 4): the orders of uses and their matrices; and what calls meet in a set: where a line is held, which line is
//! the victim and why, what a use changes, and what leaves a matrix that it could change. All is counted in every run, by what
//! the line is used by, by route, on fresh boards and on wild ones; the planned runs of `set_runs.rs` reach it.

use crate::cases::name_of_call;
use crate::limits::*;
use model::{kind_of, ones, page_of_name, place_of, used, Board, Call, Edition, Event, Kind, Matrix, FRESH_MATRIX};
use std::collections::HashMap;
use std::fmt::Arguments;
use std::sync::OnceLock;
use By::{
    FlushAll, Inserts, List, Look, MapFrame, MapPage, MoveNew, MoveOld, Ordinary, Prefix0, Prefix1, Protect, Unmap,
    User,
};

/// The lines of a set.
pub const LINES: usize = set_lines(Edition::Fours) as usize;

// ---------------------------------------------------------------------------------------------
// Orders of uses
// ---------------------------------------------------------------------------------------------

/// The lines of a set that were used, the one whose last use is oldest first. Where all but one were, that one counts as used
/// before them: its matrix is the same.
#[derive(Clone, Copy, Debug, PartialEq, Eq)]
pub struct Order {
    lines: [usize; LINES],
    used: usize,
}

impl Order {
    const NONE: Order = Order { lines: [0; LINES], used: 0 };

    pub fn lines(&self) -> &[usize] {
        &self.lines[..self.used]
    }

    /// The order after a use of this line.
    pub fn then(&self, line: usize) -> Order {
        let mut after = Order::NONE;
        for &used in self.lines().iter().filter(|&&used| used != line).chain([&line]) {
            after.lines[after.used] = used;
            after.used += 1;
        }
        if after.used == LINES - 1 {
            let unused = (0..LINES).find(|line| !after.lines().contains(line)).expect("a line that was not used");
            after.lines[LINES - 1] = unused;
            after.lines.rotate_right(1);
            after.used = LINES;
        }
        after
    }

    /// "who was used after whom, one row to each line": row a, column b is 1 if a was used, and b was not or before it.
    pub fn matrix(&self) -> Matrix {
        let mut matrix = FRESH_MATRIX;
        let time = |line: usize| self.lines().iter().position(|&used| used == line);
        for (row, column) in (0..LINES).flat_map(|row| (0..LINES).map(move |column| (row, column))) {
            matrix[row][column] = u8::from(time(row) > time(column));
        }
        matrix
    }

    /// The lines that may be used next, from a fresh board: those used before, and the lowest that was not, since the lowest
    /// empty line is filled.
    pub fn next(&self) -> impl Iterator<Item = usize> {
        0..(self.used + 1).min(LINES)
    }
}

/// All orders that a fresh board can come to.
pub fn orders() -> &'static [Order] {
    static ORDERS: OnceLock<Vec<Order>> = OnceLock::new();
    ORDERS.get_or_init(|| {
        let mut orders = vec![Order::NONE];
        let mut at = 0;
        while let Some(&order) = orders.get(at) {
            for after in order.next().map(|line| order.then(line)) {
                if !orders.contains(&after) {
                    orders.push(after);
                }
            }
            at += 1;
        }
        orders
    })
}

/// How many uses of a line in one of them there are: 1, 2, 6 and 96, with no line used, one, two and all.
pub const CHANGES: usize = 105;

/// The uses of a line in an order.
pub fn changes() -> impl Iterator<Item = (Order, usize)> {
    orders().iter().flat_map(|order| order.next().map(move |line| (*order, line)))
}

/// Which of these a use was, from a fresh board. `Err` if the matrix before is of no such order, or the one after not of the order
/// then.
pub fn change(before: &Matrix, line: usize, after: &Matrix) -> Result<usize, String> {
    static KNOWN: OnceLock<HashMap<(Matrix, usize), (usize, Matrix)>> = OnceLock::new();
    let known = KNOWN.get_or_init(|| {
        let all = changes().enumerate();
        let known: HashMap<_, _> =
            all.map(|(at, (order, line))| ((order.matrix(), line), (at, order.then(line).matrix()))).collect();
        assert_eq!(known.len(), CHANGES, "each use has a matrix before it and a line of its own");
        known
    });
    match known.get(&(*before, line)) {
        Some((at, expected)) if after == expected => Ok(*at),
        Some((_, expected)) => Err(format!("line {line} is used: {after:?}, and by the order of uses {expected:?}")),
        None => Err(format!("line {line} is used of a set with {before:?}, which no order of uses brings about")),
    }
}

// ---------------------------------------------------------------------------------------------
// What is met
// ---------------------------------------------------------------------------------------------

/// By what a line of a set is used, filled, dropped or looked at. A list is of users' accesses; map drops by the page's names, and
/// by the frame's prefix 1 names, move by the old page's, and by the new one's.
#[derive(Clone, Copy, Debug, PartialEq, Eq)]
pub enum By {
    User,
    List,
    Ordinary,
    Prefix1,
    Inserts,
    Prefix0,
    MapPage,
    MapFrame,
    Unmap,
    Protect,
    MoveOld,
    MoveNew,
    FlushAll,
    Look,
}

pub const BYS: [(By, &str); 14] = [
    (User, "user access"),
    (List, "an access of a list"),
    (Ordinary, "supervisor access, ordinary"),
    (Prefix1, "supervisor access, prefix 1"),
    (Inserts, "load-and-map"),
    (Prefix0, "supervisor access, prefix 0"),
    (MapPage, "map, the page's line"),
    (MapFrame, "map, the frame's prefix 1 line"),
    (Unmap, "unmap"),
    (Protect, "protect"),
    (MoveOld, "move, the page's line"),
    (MoveNew, "move, the new page's line"),
    (FlushAll, "flush all"),
    (Look, "look"),
];

/// What may use a line; accesses; those of users; those of supervisors.
pub const USES: &[By] = &[User, List, Ordinary, Prefix1, Inserts];
const ACCESSES: &[By] = &[User, List, Ordinary, Prefix1];
const PAGED: &[By] = &[User, List, Ordinary];
const USERS: &[By] = &[User, List];
const NONE: &[By] = &[];

macro_rules! sights {
    ($($sight:ident $words:literal: $wild:expr, $fresh:expr;)*) => {
        #[derive(Clone, Copy, Debug, PartialEq, Eq)]
        pub enum Sight { $($sight),* }

        /// In words, and by what it must be met on wild boards, and on fresh ones.
        pub const SIGHTS: &[(Sight, &str, &[By], &[By])] = &[$((Sight::$sight, $words, $wild, $fresh)),*];
    };
}

sights! {
    Found0 "held in line 0": USES, USES;
    Found1 "held in line 1": USES, USES;
    Found2 "held in line 2": USES, USES;
    Found3 "held in line 3": USES, USES;
    Empty0 "filled into line 0, the lowest empty one": USES, USES;
    Empty1 "filled into line 1, the lowest empty one": USES, USES;
    Empty2 "filled into line 2, the lowest empty one": USES, USES;
    Empty3 "filled into line 3, the lowest empty one": USES, USES;
    Full0 "pushes out line 0 of a full set": USES, USES;
    Full1 "pushes out line 1 of a full set": USES, USES;
    Full2 "pushes out line 2 of a full set": USES, USES;
    Full3 "pushes out line 3 of a full set": USES, USES;
    Writes0 "writes back line 0 of a full set": USES, USES;
    Writes1 "writes back line 1 of a full set": USES, USES;
    Writes2 "writes back line 2 of a full set": USES, USES;
    Writes3 "writes back line 3 of a full set": USES, USES;
    EmptyUsed "filled into an empty line, though one that is held has fewer ones": USES, USES;
    EmptyLowest "filled into the lowest of several empty lines, though a higher one has fewer ones": USES, USES;
    EmptyStray "filled into a valid record that is not at its place": USES, NONE;
    EmptyBeyond "filled into a valid record of a line beyond memory": USES, NONE;
    Twice "held twice in its set": USES, NONE;
    StaleInvalid "held, and a lower record of the set has the name, but is not valid": USES, NONE;
    StaleBeyond "held, and a lower record of the set has the name, but its line is beyond memory": USES, NONE;
    OwnInvalid "not held, though a record of the set has the name, but is not valid": USES, USES;
    OwnBeyond "not held, though a record of the set has the name, but its line is beyond memory": USES, NONE;
    Tie0 "of several lines of a full set with the fewest ones, line 0 is the lowest": USES, NONE;
    Tie1 "of several lines of a full set with the fewest ones, line 1 is the lowest": USES, NONE;
    Tie2 "of several lines of a full set with the fewest ones, line 2 is the lowest": USES, NONE;
    BySums "pushes out another line than by the sums of rows": USES, NONE;
    ByOnes "pushes out another line than by the entries of 1 alone": USES, NONE;
    ByLowBits "pushes out another line than by the entries' lowest bits": USES, NONE;
    ByHighBits "pushes out another line than by the entries' highest bits": USES, NONE;
    ByDiagonal "pushes out another line than without the diagonal": USES, NONE;
    ByColumns "pushes out another line than by the most ones in columns": USES, NONE;
    Again "a use that changes no entry": USES, USES;
    Kept "a use that leaves an entry that is neither 0 nor 1": USES, NONE;
    RowOdd "a use that sets an entry that was neither 0 nor 1": USES, NONE;
    ColumnOdd "a use that clears an entry that was neither 0 nor 1": USES, NONE;
    Diagonal "a use of a line with a one on the diagonal": USES, NONE;
    LastSet "a use in the last of several sets": USES, USES;
    FirstSet "a use in the first of several sets": USES, USES;
    Refused2 "refused by 2 for its value, the line held": ACCESSES, ACCESSES;
    Refused3 "refused by 3, the line held": PAGED, PAGED;
    Refused4 "refused by 4, the line held": ACCESSES, ACCESSES;
    Refused7 "refused by 7, the line held": USERS, USERS;
    Refused8 "refused by 8, the line held": &[Inserts], NONE;
    Refused9 "refused by 9, the line held": USERS, USERS;
    Refused10 "refused by 10, the line held": &[Prefix1], NONE;
    Refused13 "refused by 13, the line held": &[Inserts], &[Inserts];
    Missed8 "refused by 8, the line not held": &[User, List, Ordinary, Inserts], &[User, List, Ordinary, Inserts];
    Missed9 "refused by 9, the line not held": USERS, USERS;
    Leaves "leaves the matrix, which a use of the line would change, and so would its clearing":
        &[Inserts, Prefix0, MapPage, MapFrame, Unmap, Protect, MoveOld, MoveNew, FlushAll, Look],
        &[Inserts, Prefix0, MapFrame, Unmap, Protect, MoveOld, FlushAll, Look];
}

const FOUND: [Sight; LINES] = [Sight::Found0, Sight::Found1, Sight::Found2, Sight::Found3];
const EMPTY: [Sight; LINES] = [Sight::Empty0, Sight::Empty1, Sight::Empty2, Sight::Empty3];
const FULL: [Sight; LINES] = [Sight::Full0, Sight::Full1, Sight::Full2, Sight::Full3];
const WRITES: [Sight; LINES] = [Sight::Writes0, Sight::Writes1, Sight::Writes2, Sight::Writes3];
const TIES: [Sight; LINES - 1] = [Sight::Tie0, Sight::Tie1, Sight::Tie2];

/// Whether a use of the line would change the matrix, and the clearing of its row and column too.
fn is_touchy(matrix: &Matrix, line: usize) -> bool {
    let entries = matrix[line].iter().chain(matrix.iter().map(|row| &row[line]));
    used(matrix, line) != *matrix && entries.into_iter().any(|&entry| entry != 0)
}

/// The lowest line by a count, the least of all.
fn least(count: impl Fn(usize) -> usize) -> usize {
    (0..LINES).min_by_key(|&line| count(line)).expect("four lines")
}

fn count(row: &[u8; LINES], is: impl Fn(u8) -> bool) -> usize {
    row.iter().filter(|&&entry| is(entry)).count()
}

/// The set of a line before an access or a load-and-map.
pub struct Facts {
    by: By,
    place: u64,
    sets: u64,
    matrix: Matrix,
    /// Of each line: whether it holds something; whether its record has the name, is valid, is at its place, and is changed. One that
    /// has the name is at its place.
    held: [bool; LINES],
    named: [bool; LINES],
    valid: [bool; LINES],
    placed: [bool; LINES],
    changed: [bool; LINES],
}

impl Facts {
    /// None in the other edition, where the board doesn't fit, and of calls that are about no line.
    pub fn before(board: &Board, call: &Call, in_list: bool) -> Option<Facts> {
        if board.edition != Edition::Fours || !board.fits() {
            return None;
        }
        let name = name_of_call(board, call)?;
        let by = match call {
            Call::UserAccess { .. } if in_list => List,
            Call::UserAccess { .. } => User,
            Call::SupervisorAccess { global, .. } => match kind_of(*global) {
                Kind::Ordinary => Ordinary,
                Kind::Cached(_) => Prefix1,
                Kind::Uncached(_) => Prefix0,
                Kind::PageTable => return None,
            },
            _ => Inserts,
        };
        let sets = sets_of(board.edition, board.shape.lines);
        let place = place_of(name, sets);
        let record = |line: usize| board.record(place * LINES as u64 + line as u64);
        let each = [0, 1, 2, 3];
        Some(Facts {
            by,
            place,
            sets,
            matrix: board.uses[place as usize],
            held: each.map(|line| board.held(place * LINES as u64 + line as u64).is_some()),
            named: each.map(|line| record(line).name == name),
            valid: each.map(|line| record(line).valid),
            placed: each.map(|line| place_of(record(line).name, sets) == place),
            changed: each.map(|line| record(line).changed),
        })
    }

    fn found(&self) -> Option<usize> {
        (0..LINES).find(|&line| self.held[line] && self.named[line])
    }

    fn victim(&self) -> usize {
        let empty = (0..LINES).find(|&line| !self.held[line]);
        empty.unwrap_or(self.least_used())
    }

    fn least_used(&self) -> usize {
        least(|line| ones(&self.matrix[line]))
    }

    /// The line that is used, if this is what happened.
    pub fn used(&self, event: Event) -> Option<usize> {
        match event {
            Event::Hit => self.found(),
            Event::Miss | Event::MissWriteBack | Event::Inserted { .. } => Some(self.victim()),
            _ => None,
        }
    }

    /// Where the matrix of the set stands, and what it was.
    pub fn place(&self) -> usize {
        self.place as usize
    }

    pub fn matrix(&self) -> &Matrix {
        &self.matrix
    }

    pub fn sights(&self, event: Event) -> (By, Vec<Sight>) {
        let mut met = Vec::new();
        let mut when = |is: bool, sight: Sight| {
            if is {
                met.push(sight)
            }
        };
        let touchy = |line: usize| is_touchy(&self.matrix, line);
        match event {
            Event::Refused(number) => {
                let held = self.found().is_some_and(touchy);
                let missed = self.found().is_none() && touchy(self.victim());
                when(held && number == 2, Sight::Refused2);
                when(held && number == 3, Sight::Refused3);
                when(held && number == 4, Sight::Refused4);
                when(held && number == 7, Sight::Refused7);
                when(held && number == 8, Sight::Refused8);
                when(held && number == 9, Sight::Refused9);
                when(held && number == 10, Sight::Refused10);
                when(held && number == 13, Sight::Refused13);
                when(missed && number == 8, Sight::Missed8);
                when(missed && number == 9, Sight::Missed9);
            }
            Event::Hit | Event::FoundHeld => {
                let line = self.found().expect("it was held");
                let stale = |valid: bool| (0..line).any(|low| self.named[low] && self.valid[low] == valid);
                when(true, FOUND[line]);
                when((line + 1..LINES).any(|high| self.held[high] && self.named[high]), Sight::Twice);
                when(stale(false), Sight::StaleInvalid);
                when(stale(true), Sight::StaleBeyond);
                when(event == Event::FoundHeld && touchy(line), Sight::Leaves);
            }
            Event::Miss | Event::MissWriteBack | Event::Inserted { .. } => self.filled(&mut when),
            Event::Uncached => when(touchy(self.victim()), Sight::Leaves),
            _ => {}
        }
        if let Some(line) = self.used(event) {
            self.uses(line, &mut when);
        }
        (self.by, met)
    }

    fn filled(&self, when: &mut impl FnMut(bool, Sight)) {
        let line = self.victim();
        let row = |line: usize| &self.matrix[line];
        let fewer = |other: usize| ones(row(other)) < ones(row(line));
        let own = |valid: bool| (0..LINES).any(|line| self.named[line] && self.valid[line] == valid);
        when(own(false), Sight::OwnInvalid);
        when(own(true), Sight::OwnBeyond);
        if !self.held[line] {
            when(true, EMPTY[line]);
            when((0..LINES).any(|other| self.held[other] && fewer(other)), Sight::EmptyUsed);
            when((line + 1..LINES).any(|other| !self.held[other] && fewer(other)), Sight::EmptyLowest);
            when(self.valid[line] && !self.placed[line], Sight::EmptyStray);
            when(self.valid[line] && self.placed[line], Sight::EmptyBeyond);
            return;
        }
        when(true, if self.changed[line] { WRITES[line] } else { FULL[line] });
        if let Some(tie) = TIES.get(line) {
            when((line + 1..LINES).any(|other| ones(row(other)) == ones(row(line))), *tie);
        }
        let by_sums = least(|line| row(line).iter().map(|&entry| usize::from(entry)).sum());
        let by_ones = least(|line| count(row(line), |entry| entry == 1));
        let by_low_bits = least(|line| count(row(line), |entry| entry % 2 == 1));
        let by_high_bits = least(|line| count(row(line), |entry| entry >= 0x80));
        let by_others = least(|line| ones(row(line)) - usize::from(row(line)[line] != 0));
        let by_columns = least(|line| LINES - self.matrix.iter().filter(|row| row[line] != 0).count());
        when(by_sums != line, Sight::BySums);
        when(by_ones != line, Sight::ByOnes);
        when(by_low_bits != line, Sight::ByLowBits);
        when(by_high_bits != line, Sight::ByHighBits);
        when(by_others != line, Sight::ByDiagonal);
        when(by_columns != line, Sight::ByColumns);
    }

    fn uses(&self, line: usize, when: &mut impl FnMut(bool, Sight)) {
        let odd = |row: usize, column: usize| self.matrix[row][column] > 1;
        let others = |line: usize| (0..LINES).filter(move |&other| other != line);
        when(used(&self.matrix, line) == self.matrix, Sight::Again);
        when(others(line).any(|row| others(line).any(|column| odd(row, column))), Sight::Kept);
        when(others(line).any(|column| odd(line, column)), Sight::RowOdd);
        when(others(line).any(|row| odd(row, line)), Sight::ColumnOdd);
        when(self.matrix[line][line] != 0, Sight::Diagonal);
        when(self.sets > 1 && self.place == 0, Sight::FirstSet);
        when(self.sets > 1 && self.place == self.sets - 1, Sight::LastSet);
    }
}

/// By what calls that use no line leave matrices that they could change: those that drop lines or give them another permission.
pub fn left(board: &Board, call: &Call) -> Vec<By> {
    if board.edition != Edition::Fours || !board.fits() {
        return Vec::new();
    }
    let prefix1 = |frame: u64| PREFIX1_PAGE.wrapping_add(frame);
    let pages: Vec<(By, Option<u64>)> = match *call {
        Call::Map { page, frame, .. } => vec![(MapPage, Some(page)), (MapFrame, Some(prefix1(frame)))],
        Call::Unmap { page } => vec![(Unmap, Some(page))],
        Call::Protect { page, .. } => vec![(Protect, Some(page))],
        Call::Move { page, new_page } => vec![(MoveOld, Some(page)), (MoveNew, Some(new_page))],
        Call::FlushAll => vec![(FlushAll, None)],
        _ => return Vec::new(),
    };
    let touched = |page: Option<u64>, at: u64| {
        let own = |name: u64| page.map_or(true, |page| page_of_name(name) == page);
        board.held(at).is_some_and(|record| own(record.name)) && is_touchy_at(board, at)
    };
    let any = |page: Option<u64>| board.all_records().any(|at| touched(page, at));
    pages.into_iter().filter(|(_, page)| any(*page)).map(|(by, _)| by).collect()
}

/// The same of a record.
pub fn is_touchy_at(board: &Board, at: u64) -> bool {
    let (place, line) = (at / LINES as u64, at % LINES as u64);
    board.edition == Edition::Fours && is_touchy(&board.uses[place as usize], line as usize)
}

// ---------------------------------------------------------------------------------------------
// Counts
// ---------------------------------------------------------------------------------------------

/// What was met by one route, by each of `BYS`: each of `SIGHTS`, and each of the changes.
#[derive(Clone, Copy)]
pub struct Counts {
    sights: [[u64; SIGHTS.len()]; BYS.len()],
    changes: [[u64; CHANGES]; BYS.len()],
}

impl Counts {
    pub const NONE: Counts = Counts { sights: [[0; SIGHTS.len()]; BYS.len()], changes: [[0; CHANGES]; BYS.len()] };

    pub fn count(&mut self, by: By, sights: &[Sight], change: Option<usize>) {
        sights.iter().for_each(|&sight| self.sights[by as usize][sight as usize] += 1);
        change.into_iter().for_each(|change| self.changes[by as usize][change] += 1);
    }

    pub fn met(&self, sight: usize) -> u64 {
        self.sights.iter().map(|counts| counts[sight]).sum()
    }

    /// Shows what must be met on fresh boards or on wild ones, in words, with its count.
    pub fn each_required(&mut self, fresh: bool, mut see: impl FnMut(Arguments, &mut u64)) {
        for (at, (by, call)) in BYS.into_iter().enumerate() {
            for (count, (_, words, wild, from_fresh)) in self.sights[at].iter_mut().zip(SIGHTS) {
                if (if fresh { from_fresh } else { wild }).contains(&by) {
                    see(format_args!("{call}: {words}"), count);
                }
            }
            if fresh && USES.contains(&by) {
                for (count, (order, line)) in self.changes[at].iter_mut().zip(changes()) {
                    see(format_args!("{call}: line {line} used after {:?}", order.lines()), count);
                }
            }
        }
    }
}
