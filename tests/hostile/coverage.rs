//! What was reached: each refusal number and each mark of each call by each route, each case, each call at the limits of P and L,
//! each value at the end of a width beside each number, each sight at a page's places, what moves and lists meet, what is met in
//! sets of four, logs, boards that are checked and repaired, and runs that are reordered; and what must be: in each edition by
//! itself, but for logs and such boards.

use crate::cases::{Case, CASES};
use crate::dump_sights::Dumps;
use crate::gen;
use crate::limits::{set_lines, ENTRY_PAGES, LINES_MAX, MARKS, PROCESSES_MAX, VALUES, WIDTHS};
use crate::list_runs::CAUSES;
use crate::lists::{self, Reached, Tally, ENDS, SPOTS};
use crate::log_sights::Logs;
use crate::marks::{self, MARKED, OUTCOMES};
use crate::moves;
use crate::order_sights::{self, On};
use crate::routes::{Route, ROUTES};
use crate::sets::{self, By};
use crate::sights::{Sight, Size, Sweep, SIGHTS, SIZES, SWEEPS};
use crate::trace::Deed;
use crate::values::{Tried, ROWS};
use model::{Board, Call, Edition, FRESH_MATRIX};
use std::fmt::{self, Arguments, Write};

/// The sorts of boards.
#[derive(Clone, Copy, Debug, PartialEq, Eq)]
pub struct Sort {
    pub edition: Edition,
    pub fresh: bool,
}

/// The two of an edition stand together, the fresh one first.
pub const SORTS: [Sort; 4] = [
    Sort { edition: Edition::Ones, fresh: true },
    Sort { edition: Edition::Ones, fresh: false },
    Sort { edition: Edition::Fours, fresh: true },
    Sort { edition: Edition::Fours, fresh: false },
];

impl Sort {
    fn index(self) -> usize {
        2 * self.edition as usize + usize::from(!self.fresh)
    }
}

impl fmt::Display for Sort {
    fn fmt(&self, f: &mut fmt::Formatter) -> fmt::Result {
        let board = if self.fresh { "a fresh board" } else { "a wild board" };
        let sets = if self.edition == Edition::Fours { " with sets of four" } else { "" };
        write!(f, "{board}{sets}")
    }
}

/// The numbers end here.
const NUMBERS: usize = 14;

/// Each call with the numbers that it may give: by 01, move by CR 9, an entry by CR 5, a list by CR 12.
pub const KINDS: [(&str, &[u32]); 16] = [
    ("user access", &[0, 1, 2, 3, 4, 5, 6, 7, 8, 9]),
    ("supervisor access", &[0, 1, 2, 3, 4, 8, 10, 12]),
    ("attach", &[0, 1, 2]),
    ("detach", &[0, 1, 2]),
    ("map", &[0, 1, 2, 10, 11]),
    ("unmap", &[0, 1, 2, 8]),
    ("protect", &[0, 1, 2, 8]),
    ("move", &[0, 1, 2, 8, 11]),
    ("flush all", &[0, 1]),
    ("tag", &[0, 1, 2, 3]),
    ("load-and-map", &[0, 1, 2, 3, 8, 13]),
    ("drop tag", &[0, 1, 3]),
    ("user accesses", &[0, 1]),
    ("look", &[0, 1, 2]),
    ("look's number", &[0, 1, 2]),
    ("entry of a page", &[0, 2]),
];

/// The lists among them; where the looks begin, and where the entries.
const LISTS: usize = 12;
const LOOKS: usize = 13;
const ENTRIES: usize = 15;

/// The row of a deed in `KINDS`; what is done with logs, checks and repairs are counted apart, and an audit is no call.
pub fn row_of(deed: &Deed) -> Option<usize> {
    Some(match deed {
        Deed::Call(Call::UserAccess { .. }) => 0,
        Deed::Call(Call::SupervisorAccess { .. }) => 1,
        Deed::Call(Call::Attach { .. }) => 2,
        Deed::Call(Call::Detach { .. }) => 3,
        Deed::Call(Call::Map { .. }) => 4,
        Deed::Call(Call::Unmap { .. }) => 5,
        Deed::Call(Call::Protect { .. }) => 6,
        Deed::Call(Call::Move { .. }) => 7,
        Deed::Call(Call::FlushAll) => 8,
        Deed::Call(Call::Tag { .. }) => 9,
        Deed::Call(Call::LoadAndMap { .. }) => 10,
        Deed::Call(Call::DropTag) => 11,
        Deed::List(_) => LISTS,
        Deed::Look { .. } => LOOKS,
        Deed::LookNumber { .. } => LOOKS + 1,
        Deed::Entry { .. } => ENTRIES,
        Deed::Read(_) | Deed::Write(_) | Deed::Dump(_) | Deed::Audit => return None,
    })
}

/// A board at a limit of P or L, where every call and every look must be done, or past it, where each must be refused by 1; or one
/// whose matrices are too few or too many.
pub struct Edge {
    words: &'static str,
    pub processes: u64,
    pub lines: Lines,
    /// What is done to the board then.
    pub edit: fn(&mut Board),
    number: u32,
    of_fours: bool,
}

/// How many lines such a board has.
#[derive(Clone, Copy)]
pub enum Lines {
    Sets(u64),
    Most,
    TwiceTheMost,
}

impl Lines {
    pub fn in_edition(self, edition: Edition) -> u64 {
        match self {
            Lines::Sets(sets) => set_lines(edition) * sets,
            Lines::Most => LINES_MAX,
            Lines::TwiceTheMost => 2 * LINES_MAX,
        }
    }
}

const fn edge(words: &'static str, processes: u64, lines: Lines, number: u32) -> Edge {
    Edge { words, processes, lines, edit: |_| {}, number, of_fours: false }
}

/// In sets of four only.
const fn refused(words: &'static str, edit: fn(&mut Board)) -> Edge {
    Edge { edit, of_fours: true, ..edge(words, 2, Lines::Sets(4), 1) }
}

pub const EDGES: [Edge; 11] = [
    edge("done with the most processes", PROCESSES_MAX, Lines::Sets(4), 0),
    edge("refused by 1 for one process too many", PROCESSES_MAX + 1, Lines::Sets(4), 1),
    edge("done with the most lines", 2, Lines::Most, 0),
    edge("refused by 1 for twice the most lines", 2, Lines::TwiceTheMost, 1),
    edge("done with a single set", 2, Lines::Sets(1), 0),
    refused("refused by 1 for L = 1", |board| gen::set_lines_to(board, 1)),
    refused("refused by 1 for L = 2", |board| gen::set_lines_to(board, 2)),
    refused("refused by 1 for a matrix too few", |board| board.uses.truncate(board.uses.len() - 1)),
    refused("refused by 1 for a matrix too many", |board| board.uses.push(FRESH_MATRIX)),
    refused("refused by 1 for no matrices", |board| board.uses.clear()),
    refused("refused by 1 for a matrix for each line", |board| {
        board.uses.resize(board.shape.lines as usize, FRESH_MATRIX);
    }),
];

impl Edge {
    pub fn is_of(&self, edition: Edition) -> bool {
        !self.of_fours || edition == Edition::Fours
    }
}

/// Planned runs, which are counted apart: what else must be reached has to be reached without them.
#[derive(Clone, Copy)]
pub enum Planned {
    /// On this board of `EDGES`.
    Edge(usize),
    /// Of `values.rs`.
    Values,
    /// Of `places.rs`.
    Places,
    /// Of `moves.rs`.
    Moves,
    /// Of `list_runs.rs`.
    Lists,
    /// Of `set_runs.rs`.
    Sets,
    /// Of `dump_runs.rs`, the random ones too.
    Dumps,
    /// Of `order_runs.rs`, the random ones too.
    Orders,
}

/// Whether this call may give this number.
pub fn in_table(deed: &Deed, number: u32) -> bool {
    row_of(deed).map_or(true, |row| KINDS[row].1.contains(&number))
}

/// The same of a list, and of an access in one, which has no 1.
pub fn in_table_of_lists(number: u32) -> bool {
    KINDS[LISTS].1.contains(&number)
}

pub fn in_table_of_items(number: u32) -> bool {
    number != 1 && KINDS[0].1.contains(&number)
}

/// Counts of one sort of boards.
#[derive(Clone)]
struct Counts {
    /// The numbers of each call, by each route, in random runs.
    numbers: [[[u64; NUMBERS]; KINDS.len()]; ROUTES.len()],
    cases: [u64; CASES.len()],
    /// The pages of `ENTRY_PAGES` by each route.
    entries: [[u64; ENTRY_PAGES.len()]; ROUTES.len()],
    /// The calls of `MARKED` by each route, as they came out.
    marks: [[[u64; OUTCOMES.len()]; MARKED.len()]; ROUTES.len()],
    /// The calls and looks on the boards of `EDGES`, by each route, that gave the number they must.
    edges: [[[u64; ENTRIES]; ROUTES.len()]; EDGES.len()],
    /// The accesses of `ROWS` by each route, with each of `WIDTHS` and `VALUES`, that gave the number they must.
    values: [[[[u64; VALUES.len()]; WIDTHS.len()]; ROWS.len()]; ROUTES.len()],
    /// The sweeps by each route, with each of `SIZES`, that met each of `SIGHTS`.
    sights: [[[[u64; SIGHTS.len()]; SIZES.len()]; SWEEPS.len()]; ROUTES.len()],
    /// What moves met, and what was met after them.
    moves: [moves::Counts; ROUTES.len()],
    lists: [ListCounts; ROUTES.len()],
    /// What was met in sets of four.
    sets: [sets::Counts; ROUTES.len()],
    pairs: PairCounts,
    /// What runs that are reordered met, and how many had calls by several routes.
    orders: [order_sights::Counts; ROUTES.len()],
    mixed_orders: u64,
    /// Audits of boards, the looks in them, and those after a move.
    audits: u64,
    audit_looks: u64,
    audits_after_move: u64,
}

/// Pairs of runs, and those in which a mark of the process differed, because the others' accesses did move its lines: a hit in one
/// run only; a refill in both, with a write-back in one only. Those in which a list with accesses of the process had other
/// accesses of the others. And those in which a page was moved into a segment of the process: out of the same; out of another of its
/// segments; out of one that it never holds, with the same bytes in both runs: also before the process holds the segment for the
/// first time, and with other lines of it held or changed in the second run.
#[derive(Clone, Copy)]
pub struct PairCounts {
    pub pairs: u64,
    pub hit: u64,
    pub write_back: u64,
    pub list: u64,
    pub within: u64,
    pub between: u64,
    pub same_bytes: u64,
    pub later: u64,
    pub other_lines: u64,
}

impl PairCounts {
    pub const NONE: PairCounts = PairCounts {
        pairs: 0,
        hit: 0,
        write_back: 0,
        list: 0,
        within: 0,
        between: 0,
        same_bytes: 0,
        later: 0,
        other_lines: 0,
    };

    pub fn add(&mut self, mut more: PairCounts) {
        self.pairs += more.pairs;
        for ((_, count), (_, more)) in self.each().into_iter().zip(more.each()) {
            *count += *more;
        }
    }

    /// Each count of pairs with something, in words.
    pub fn each(&mut self) -> [(&'static str, &mut u64); 8] {
        [
            ("with a hit in one only", &mut self.hit),
            ("with a refill's write-back in one only", &mut self.write_back),
            ("with a list in which the others' accesses differ", &mut self.list),
            ("with a page moved within a segment of the process", &mut self.within),
            ("with a page moved from one of its segments into another", &mut self.between),
            ("with a page moved into one from a segment that it never holds", &mut self.same_bytes),
            ("with such a page moved before it holds the segment", &mut self.later),
            ("with such a page of which other lines are held in one, or changed", &mut self.other_lines),
        ]
    }
}

/// Counts of lists, by one route.
#[derive(Clone, Copy)]
struct ListCounts {
    /// The accesses at each of `SPOTS` that came out as each of `ENDS`.
    ends: [[u64; ENDS.len()]; SPOTS.len()],
    /// The lists that met each of the sights.
    sights: [u64; lists::SIGHTS.len()],
    /// Those refused by the board for each of `CAUSES` alone.
    causes: [u64; CAUSES.len()],
}

const NO_LISTS: ListCounts =
    ListCounts { ends: [[0; ENDS.len()]; SPOTS.len()], sights: [0; lists::SIGHTS.len()], causes: [0; CAUSES.len()] };

const NONE: Counts = Counts {
    numbers: [[[0; NUMBERS]; KINDS.len()]; ROUTES.len()],
    cases: [0; CASES.len()],
    entries: [[0; ENTRY_PAGES.len()]; ROUTES.len()],
    marks: [[[0; OUTCOMES.len()]; MARKED.len()]; ROUTES.len()],
    edges: [[[0; ENTRIES]; ROUTES.len()]; EDGES.len()],
    values: [[[[0; VALUES.len()]; WIDTHS.len()]; ROWS.len()]; ROUTES.len()],
    sights: [[[[0; SIGHTS.len()]; SIZES.len()]; SWEEPS.len()]; ROUTES.len()],
    moves: [moves::Counts::NONE; ROUTES.len()],
    lists: [NO_LISTS; ROUTES.len()],
    sets: [sets::Counts::NONE; ROUTES.len()],
    pairs: PairCounts::NONE,
    orders: [order_sights::Counts::NONE; ROUTES.len()],
    mixed_orders: 0,
    audits: 0,
    audit_looks: 0,
    audits_after_move: 0,
};

#[derive(Clone)]
pub struct Coverage {
    /// In the order of `SORTS`.
    sorts: Vec<Counts>,
    pub boards: u64,
    /// The planned runs that are being made, if any are.
    pub planned: Option<Planned>,
    pub logs: Logs,
    pub dumps: Dumps,
}

impl Coverage {
    pub fn new() -> Coverage {
        Coverage { sorts: vec![NONE; SORTS.len()], boards: 0, planned: None, logs: Logs::new(), dumps: Dumps::new() }
    }

    fn of(&mut self, sort: Sort) -> &mut Counts {
        &mut self.sorts[sort.index()]
    }

    /// A value that an access tried, in whatever run.
    pub fn count_value(&mut self, sort: Sort, route: Route, Tried { row, width, value }: Tried) {
        self.of(sort).values[route as usize][row][width][value] += 1;
    }

    /// What a call met that was done on a board of so many lines, in whatever run.
    pub fn count_sights(&mut self, sort: Sort, route: Route, lines: u64, met: &[(Sweep, Vec<Sight>)]) {
        let (counts, size) = (self.of(sort), Size::of(sort.edition, lines));
        for (sweep, sights) in met {
            for &sight in sights {
                counts.sights[route as usize][*sweep as usize][size as usize][sight as usize] += 1;
            }
        }
    }

    /// A call, if it is a move, and what it met of moves, in whatever run.
    pub fn count_move(&mut self, sort: Sort, route: Route, call: &Call, number: u32, sights: &[moves::Sight]) {
        if let Call::Move { page, new_page } = *call {
            self.of(sort).moves[route as usize].count_ends(page, new_page, number);
        }
        self.count_move_met(sort, route, sights);
    }

    pub fn count_move_met(&mut self, sort: Sort, route: Route, sights: &[moves::Sight]) {
        self.of(sort).moves[route as usize].count(sights);
    }

    /// What was met in a set of four, in whatever run; and which change of its matrix it was.
    pub fn count_set(&mut self, sort: Sort, route: Route, by: By, sights: &[sets::Sight], change: Option<usize>) {
        self.of(sort).sets[route as usize].count(by, sights, change);
    }

    /// The mark of a call, as the random runs reach it.
    pub fn count_mark(&mut self, sort: Sort, route: Route, marks::Marked { row, outcome }: marks::Marked) {
        if self.planned.is_none() {
            self.of(sort).marks[route as usize][row][outcome] += 1;
        }
    }

    /// A list, and what it met in whatever run.
    pub fn count_list(&mut self, sort: Sort, route: Route, number: u32, tally: &Tally) {
        self.count_row(sort, LISTS, route, number);
        let counts = &mut self.of(sort).lists[route as usize];
        for &(spot, end) in &tally.ends {
            counts.ends[spot][end] += 1;
        }
        for &sight in &tally.sights {
            counts.sights[sight as usize] += 1;
        }
        if let Some(cause) = CAUSES.iter().position(|(cause, _)| tally.cause == Some(*cause)) {
            counts.causes[cause] += 1;
        }
    }

    /// The number of a call, in a random run or at a limit.
    fn count_row(&mut self, sort: Sort, row: usize, route: Route, number: u32) {
        let planned = self.planned;
        let counts = self.of(sort);
        match planned {
            Some(Planned::Edge(edge)) => {
                if row < ENTRIES && number == EDGES[edge].number {
                    counts.edges[edge][route as usize][row] += 1;
                }
            }
            Some(Planned::Values | Planned::Places | Planned::Moves) => {}
            Some(Planned::Lists | Planned::Sets | Planned::Dumps | Planned::Orders) => {}
            None => counts.numbers[route as usize][row][number as usize] += 1,
        }
    }

    pub fn count(&mut self, sort: Sort, deed: &Deed, route: Route, number: u32, cases: &[Case]) {
        if let Some(row) = row_of(deed) {
            self.count_row(sort, row, route, number);
        }
        if self.planned.is_some() {
            return;
        }
        let counts = self.of(sort);
        for &case in cases {
            counts.cases[case as usize] += 1;
        }
        if let Deed::Entry { page } = deed {
            if let Some(end) = ENTRY_PAGES.iter().position(|end| end == page) {
                counts.entries[route as usize][end] += 1;
            }
        }
    }

    /// An audit with so many looks, after a move or not.
    pub fn count_audit(&mut self, sort: Sort, looks: u64, moved: bool) {
        if self.planned.is_none() {
            let counts = self.of(sort);
            counts.audits += 1;
            counts.audit_looks += looks;
            counts.audits_after_move += u64::from(moved);
        }
    }

    /// The pairs of runs in an edition.
    pub fn pairs(&mut self, edition: Edition) -> &mut PairCounts {
        &mut self.of(Sort { edition, fresh: true }).pairs
    }

    /// A run that is reordered, with what it met where all calls come by one route.
    pub fn count_order(&mut self, sort: Sort, route: Option<Route>, met: order_sights::Counts) {
        let counts = self.of(sort);
        match route {
            Some(route) => counts.orders[route as usize].add(met),
            None => counts.mixed_orders += 1,
        }
    }

    /// How many runs were reordered.
    pub fn reordered(&self) -> u64 {
        let of =
            |counts: &Counts| counts.mixed_orders + counts.orders.iter().map(|counts| counts.reorderings).sum::<u64>();
        self.sorts.iter().map(of).sum()
    }

    /// The audits in an edition, and the looks in them.
    pub fn audits(&self) -> (u64, u64) {
        let sum = |count: fn(&Counts) -> u64| self.sorts.iter().map(count).sum();
        (sum(|counts| counts.audits), sum(|counts| counts.audit_looks))
    }

    fn count_of_rows(&self, rows: std::ops::Range<usize>) -> u64 {
        let by_route = self.sorts.iter().flat_map(|counts| &counts.numbers);
        by_route.flat_map(|counts| &counts[rows.clone()]).flatten().sum()
    }

    /// The calls of 01, looks and entries not among them.
    pub fn calls(&self) -> u64 {
        self.count_of_rows(0..LOOKS)
    }

    pub fn looks(&self) -> u64 {
        self.count_of_rows(LOOKS..ENTRIES)
    }

    pub fn entries(&self) -> u64 {
        self.count_of_rows(ENTRIES..KINDS.len())
    }

    /// Shows everything that must be reached, in words, with its count. But for the boards past a limit, number 1 cannot come on
    /// a fresh board, where numbers and lengths agree, unless a list brings it. All else that a sequence of calls from a fresh
    /// board reaches must be reached on one.
    pub fn each_required(&mut self, mut see: impl FnMut(Arguments, &mut u64)) {
        for (counts, sort) in self.sorts.iter_mut().zip(SORTS) {
            counts.each_required(sort, &mut see);
        }
        self.logs.each_required(&mut see);
        self.dumps.each_required(&mut see);
    }

    /// What was not reached, and what was though no sequence of calls should.
    pub fn problems(&mut self) -> Vec<String> {
        let mut problems = Vec::new();
        self.each_required(|words, count| {
            if *count == 0 {
                problems.push(format!("not reached: {words}"));
            }
        });
        for (counts, sort) in self.sorts.iter().zip(SORTS).filter(|(_, sort)| sort.fresh) {
            for (count, (_, reach, words)) in counts.cases.iter().zip(CASES) {
                if !reach.is_on(sort) && *count > 0 {
                    problems.push(format!("reached from {sort}, which no calls should: {words}"));
                }
            }
        }
        problems
    }

    pub fn table(&self) -> String {
        let mut text = format!("{:18}", "calls by number");
        let line = "text grows";
        (0..NUMBERS).for_each(|number| write!(text, "{number:>7}").expect(line));
        ROUTES.iter().for_each(|(_, route)| write!(text, "{route:>8}").expect(line));
        text.push('\n');
        for (row, (call, table)) in KINDS.iter().enumerate() {
            write!(text, "{call:18}").expect(line);
            for number in 0..NUMBERS {
                let by_route = self.sorts.iter().flat_map(|counts| &counts.numbers);
                let count: u64 = by_route.map(|counts| counts[row][number]).sum();
                let shown = if table.contains(&(number as u32)) { count.to_string() } else { ".".into() };
                write!(text, "{shown:>7}").expect(line);
            }
            for route in 0..ROUTES.len() {
                let count: u64 = self.sorts.iter().flat_map(|counts| counts.numbers[route][row]).sum();
                write!(text, "{count:>8}").expect(line);
            }
            text.push('\n');
        }
        write!(text, "\n{:26} refused", "calls by mark").expect(line);
        (0..MARKS).for_each(|mark| write!(text, "{mark:>8}").expect(line));
        text.push('\n');
        for (row, (call, _)) in MARKED.iter().enumerate() {
            write!(text, "{call:26}").expect(line);
            for (index, outcome) in OUTCOMES.iter().enumerate() {
                let by_route = self.sorts.iter().flat_map(|counts| &counts.marks);
                let count: u64 = by_route.map(|counts| counts[row][index]).sum();
                let shown = if outcome.can_be(row, false) { count.to_string() } else { ".".into() };
                write!(text, "{shown:>8}").expect(line);
            }
            text.push('\n');
        }
        let heads = "  fresh   wild fresh 4 wild 4";
        writeln!(text, "\n4: boards with sets of four\n{heads}  events").expect(line);
        for (index, (_, _, words)) in CASES.iter().enumerate() {
            self.row(&mut text, words, |counts| counts.cases[index]);
        }
        writeln!(text, "\n{heads}  at the places of a page").expect(line);
        for (index, (_, words, _)) in SIGHTS.iter().enumerate() {
            let met =
                |counts: &Counts| counts.sights.iter().flatten().flatten().map(|counts| counts[index]).sum::<u64>();
            self.row(&mut text, words, met);
        }
        writeln!(text, "\n{heads}  moves").expect(line);
        for (index, (_, _, words)) in moves::SIGHTS.iter().enumerate() {
            self.row(&mut text, words, |counts| counts.moves.iter().map(|counts| counts.sights[index]).sum::<u64>());
        }
        writeln!(text, "\n  alone  first middle   last  accesses in lists").expect(line);
        for (index, end) in ENDS.iter().enumerate() {
            for (spot, _) in SPOTS {
                let by_route = self.sorts.iter().flat_map(|counts| &counts.lists);
                let count: u64 = by_route.map(|counts| counts.ends[spot as usize][index]).sum();
                write!(text, "{count:>7}").expect(line);
            }
            writeln!(text, "  {end}").expect(line);
        }
        writeln!(text, "\n{heads}  lists").expect(line);
        for (index, (_, words, ..)) in lists::SIGHTS.iter().enumerate() {
            self.row(&mut text, words, |counts| counts.lists.iter().map(|counts| counts.sights[index]).sum::<u64>());
        }
        writeln!(text, "\n  fresh  sound fresh 4 sound 4  reordered").expect(line);
        for (index, (_, _, words)) in order_sights::SIGHTS.iter().enumerate() {
            self.row(&mut text, words, |counts| counts.orders.iter().map(|counts| counts.met(index)).sum::<u64>());
        }
        writeln!(text, "\nfresh 4 wild 4  in sets of four").expect(line);
        for (index, (_, words, ..)) in sets::SIGHTS.iter().enumerate() {
            let met = |counts: &Counts| counts.sets.iter().map(|counts| counts.met(index)).sum::<u64>();
            writeln!(text, "{:>7}{:>7}  {words}", met(&self.sorts[2]), met(&self.sorts[3])).expect(line);
        }
        text
    }

    /// A row with a count for each sort of boards.
    fn row(&self, text: &mut String, words: &str, count: impl Fn(&Counts) -> u64) {
        for counts in &self.sorts {
            write!(text, "{:>7}", count(counts)).expect("text grows");
        }
        writeln!(text, "  {words}").expect("text grows");
    }
}

impl Counts {
    /// What must be reached on boards of this sort.
    fn each_required(&mut self, sort: Sort, see: &mut impl FnMut(Arguments, &mut u64)) {
        let Sort { edition, fresh } = sort;
        for (counts, (_, route)) in self.numbers.iter_mut().zip(&ROUTES) {
            for (row, (counts, (call, table))) in counts.iter_mut().zip(&KINDS).enumerate() {
                for (number, count) in counts.iter_mut().enumerate() {
                    if table.contains(&(number as u32)) && (number != 1 || !fresh || row == LISTS) {
                        see(format_args!("{call}, number {number}, by the {route} route, on {sort}"), count);
                    }
                }
            }
        }
        for (count, (_, reach, words)) in self.cases.iter_mut().zip(CASES) {
            if reach.is_on(sort) {
                see(format_args!("{words}, on {sort}"), count);
            }
        }
        for (counts, (_, route)) in self.entries.iter_mut().zip(&ROUTES) {
            for (count, page) in counts.iter_mut().zip(ENTRY_PAGES) {
                see(format_args!("the entry of page {page:#x} by the {route} route, on {sort}"), count);
            }
        }
        for (counts, (_, route)) in self.moves.iter_mut().zip(ROUTES) {
            let mut see = |words: Arguments, count: &mut u64| {
                see(format_args!("{words}, by the {route} route, on {sort}"), count);
            };
            counts.each_required(fresh, &mut see);
        }
        for (counts, (_, route)) in self.marks.iter_mut().zip(&ROUTES) {
            for (row, (counts, (call, _))) in counts.iter_mut().zip(&MARKED).enumerate() {
                let outcomes = counts.iter_mut().zip(OUTCOMES);
                for (count, outcome) in outcomes.filter(|(_, outcome)| outcome.can_be(row, fresh)) {
                    see(format_args!("{call}: {outcome}, by the {route} route, on {sort}"), count);
                }
            }
        }
        for (counts, Edge { words, .. }) in self.edges.iter_mut().zip(&EDGES).filter(|(_, edge)| edge.is_of(edition)) {
            for (counts, (_, route)) in counts.iter_mut().zip(&ROUTES) {
                for (count, (call, _)) in counts.iter_mut().zip(&KINDS) {
                    see(format_args!("{call}, {words}, by the {route} route, on {sort}"), count);
                }
            }
        }
        for (counts, (route, name)) in self.values.iter_mut().zip(ROUTES) {
            for (counts, row) in counts.iter_mut().zip(&ROWS) {
                let widths = counts.iter_mut().zip(WIDTHS);
                for (counts, width) in widths.filter(|(_, width)| row.can_be(*width, route, fresh)) {
                    for (count, value) in counts.iter_mut().zip(VALUES) {
                        let tried = format_args!("{row}, value {value:#x}, width {width}");
                        see(format_args!("{tried}, by the {name} route, on {sort}"), count);
                    }
                }
            }
        }
        for (counts, (_, route)) in self.sights.iter_mut().zip(&ROUTES) {
            for (counts, (sweep, call)) in counts.iter_mut().zip(SWEEPS) {
                for (counts, (size, sets)) in counts.iter_mut().zip(SIZES) {
                    let met = counts.iter_mut().zip(SIGHTS);
                    for (count, (_, words, _)) in met.filter(|(_, (_, _, at))| at.has(sweep, size, fresh)) {
                        see(format_args!("{call}, {sets}: {words}, by the {route} route, on {sort}"), count);
                    }
                }
            }
        }
        for (counts, (route, name)) in self.lists.iter_mut().zip(ROUTES) {
            for (counts, (_, spot)) in counts.ends.iter_mut().zip(SPOTS) {
                for (count, end) in counts.iter_mut().zip(ENDS) {
                    see(format_args!("an access {spot}: {end}, by the {name} route, on {sort}"), count);
                }
            }
            for (count, (_, words, routes, reached)) in counts.sights.iter_mut().zip(lists::SIGHTS) {
                if routes.contains(&route) && (*reached == Reached::Anywhere || !fresh) {
                    see(format_args!("a list, {words}, by the {name} route, on {sort}"), count);
                }
            }
            for (count, (cause, _)) in counts.causes.iter_mut().zip(&CAUSES) {
                let (_, reach, words) = CASES[*cause as usize];
                if reach.is_on(sort) {
                    see(format_args!("a list, {words}, by the {name} route, on {sort}"), count);
                }
            }
        }
        if edition == Edition::Fours {
            for (counts, (_, route)) in self.sets.iter_mut().zip(ROUTES) {
                let mut see = |words: Arguments, count: &mut u64| {
                    see(format_args!("{words}, by the {route} route, on {sort}"), count);
                };
                counts.each_required(fresh, &mut see);
            }
        }
        let on = On { edition, fresh };
        for (counts, (_, route)) in self.orders.iter_mut().zip(ROUTES) {
            let mut see = |words: Arguments, count: &mut u64| {
                see(format_args!("{words}, by the {route} route, on {on}"), count);
            };
            counts.each_required(&on, &mut see);
        }
        see(format_args!("reordered, calls by several routes, on {on}"), &mut self.mixed_orders);
        if fresh {
            see(format_args!("an audit of {sort}"), &mut self.audits);
            see(format_args!("an audit of {sort} after a move"), &mut self.audits_after_move);
            see(format_args!("a pair of runs from {sort}"), &mut self.pairs.pairs);
            for (words, count) in self.pairs.each() {
                see(format_args!("a pair of runs from {sort} {words}"), count);
            }
        }
    }
}
