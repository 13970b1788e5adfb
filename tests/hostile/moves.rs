//! Moves (CR 9): what a move is given, what it drops, and what comes after it. All is counted in every run, by route, on fresh
//! boards and on wild ones; the planned runs here reach it by themselves. What stands at the places of its two pages is in
//! `sights.rs`.

use crate::cases::name_of_call;
use crate::coverage::{Coverage, Planned};
use crate::limits::*;
use crate::lists::{Item, List, Reached};
use crate::pairs::Failure;
use crate::plant::Plant;
use crate::rng::Rng;
use crate::sights::records_of;
use crate::trace::{Deed, Start, Step};
use crate::{gen, stepped, ways};
use model::{frame_word, mapping, page_in_range, page_of_name, Board, Call, Edition, Event, Record, Shape, NO_TAG};
use std::fmt::Arguments;
use Reached::{Anywhere, OnWild};

macro_rules! sights {
    ($($reached:ident $sight:ident $words:literal;)*) => {
        #[derive(Clone, Copy, Debug, PartialEq, Eq)]
        pub enum Sight { $($sight),* }

        /// On which boards it must be met, and in words.
        pub const SIGHTS: &[(Sight, Reached, &str)] = &[$((Sight::$sight, $reached, $words)),*];
    };
}
pub(crate) use sights;

sights! {
    Anywhere NoLines "done, no line held of either page";
    Anywhere Writes "done, writes back a line of the page";
    Anywhere DropsClean "done, drops an unchanged line of the page";
    OnWild WritesNew "done, writes back a line of the new page";
    OnWild DropsCleanNew "done, drops an unchanged line of the new page";
    OnWild WritesBoth "done, writes back lines of both pages";
    Anywhere Writable "done, of a writable page";
    Anywhere ReadOnly "done, of a read-only page";
    OnWild Doubled "done, of a page with several frames";
    OnWild Low "done, of a page that a frame below U has, too";
    OnWild OntoLow "done, to a page that a frame below U has";
    OnWild OntoNoForm "done, to a page that a word of no form has";
    Anywhere Within "done, within a segment";
    Anywhere Across "done, into another segment";
    Anywhere Back "done, back to the page before the last move";
    Anywhere Tagged "done, a tag of the page is pending";
    Anywhere TaggedNew "done, a tag of the new page is pending";
    Anywhere TaggedOther "done, a tag of another page is pending";
    Anywhere OutsideOld "2 for the page alone";
    Anywhere OutsideNew "2 for the new page alone";
    Anywhere OutsideBoth "2 for both pages";
    Anywhere CutOld "2 for the page alone, and cut to 32 bits it would be done";
    Anywhere CutNew "2 for the new page alone, and cut to 32 bits it would be done";
    Anywhere Neither "8, neither page is mapped";
    Anywhere OnlyNew "8, the new page is mapped";
    Anywhere EqualUnmapped "8, both pages are the same";
    OnWild UnmappedHeld "8, a line of the page is held";
    OnWild UnmappedLow "8, a frame below U has the page";
    OnWild UnmappedNoForm "8, a word of no form has the page";
    Anywhere Onto "11, the new page is another";
    Anywhere OntoHeld "11, lines of both pages are held";
    Anywhere Equal "11, both pages are the same";
    Anywhere Tagged2 "2 while a tag is pending";
    Anywhere Tagged8 "8 while a tag is pending";
    Anywhere Tagged11 "11 while a tag is pending";
    Anywhere UserOld "then a user's access by the old name: 8";
    Anywhere UserNew "then a user's access by the new name: done";
    Anywhere ListOld "then an access of a list by the old name: 8";
    Anywhere ListNew "then an access of a list by the new name: done";
    Anywhere SupervisorOld "then a supervisor's access by the old name: 8";
    Anywhere SupervisorNew "then a supervisor's access by the new name: done";
    Anywhere Loads "then a load by the new name of a line that was written back";
    Anywhere StoreWritable "then a user's store by the new name of a writable page: done";
    Anywhere StoreReadOnly "then a user's store by the new name of a read-only page: 9";
    Anywhere InsertsOld "then load-and-map by the old name: 8";
    Anywhere InsertsNew "then load-and-map by the new name: done";
    Anywhere PageOld "then unmap, protect or move of the old page: 8";
    Anywhere PageNew "then unmap or protect of the new page: done";
    Anywhere MapOld "then map of the old page: done";
    Anywhere MapNew "then map of the new page: 11";
}

fn those<const N: usize>(all: [(bool, Sight); N]) -> Vec<Sight> {
    all.into_iter().filter(|(is, _)| *is).map(|(_, sight)| sight).collect()
}

// ---------------------------------------------------------------------------------------------
// What is met
// ---------------------------------------------------------------------------------------------

/// What there is of a page: the write bit where it is mapped, whether it has several frames, whether one below U has it, whether a
/// word of no form has it, and whether a line of it is held.
struct Stock {
    mapped: Option<bool>,
    doubled: bool,
    low: bool,
    no_form: bool,
    held: bool,
}

impl Stock {
    fn of(board: &Board, page: u64) -> Stock {
        let (low, high) = board.words.split_at(board.shape.uncached as usize);
        let naming =
            |words: &[u64], formed: u64| words.iter().filter(|&&word| word % 2 == formed && word / 4 == page).count();
        let own = |at: u64| board.held(at).is_some_and(|record| page_of_name(record.name) == page);
        Stock {
            mapped: mapping(&board.shape, &board.words, page).map(|(_, write)| write),
            doubled: naming(high, 1) > 1,
            low: naming(low, 1) > 0,
            no_form: naming(high, 0) > 0,
            held: page_in_range(page) && records_of(page, board.edition, board.shape.lines).any(own),
        }
    }
}

/// The board before a move.
pub struct Facts {
    page: u64,
    new_page: u64,
    old: Stock,
    new: Stock,
    /// Whether it would be done with both pages cut to 32 bits.
    done_cut: bool,
    /// The page of the pending tag.
    tagged: Option<u64>,
}

impl Facts {
    /// None of other calls, and where the board doesn't fit.
    pub fn before(board: &Board, call: &Call) -> Option<Facts> {
        let Call::Move { page, new_page } = *call else { return None };
        board.fits().then(|| {
            let (old, new) = (Stock::of(board, page), Stock::of(board, new_page));
            let cut = [page, new_page].map(|page| page % PAGES_END);
            let mapped = cut.map(|page| mapping(&board.shape, &board.words, page).is_some());
            let done_cut = mapped == [true, false] && page_in_range(cut[1]);
            Facts { page, new_page, old, new, done_cut, tagged: board.tag.0.then(|| page_of_name(board.tag.1)) }
        })
    }

    pub fn sights(&self, event: Event) -> Vec<Sight> {
        let Facts { page, new_page, ref old, ref new, done_cut, tagged } = *self;
        let (equal, is_tagged) = (page == new_page, tagged.is_some());
        match event {
            Event::Moved { old_written, old_dropped, new_written, new_dropped } => {
                let within = page / PAGES_PER_SEGMENT == new_page / PAGES_PER_SEGMENT;
                those([
                    (old_dropped + new_dropped == 0, Sight::NoLines),
                    (old_written > 0, Sight::Writes),
                    (old_dropped > old_written, Sight::DropsClean),
                    (new_written > 0, Sight::WritesNew),
                    (new_dropped > new_written, Sight::DropsCleanNew),
                    (old_written > 0 && new_written > 0, Sight::WritesBoth),
                    (old.mapped == Some(true), Sight::Writable),
                    (old.mapped == Some(false), Sight::ReadOnly),
                    (old.doubled, Sight::Doubled),
                    (old.low, Sight::Low),
                    (new.low, Sight::OntoLow),
                    (new.no_form, Sight::OntoNoForm),
                    (within, Sight::Within),
                    (!within, Sight::Across),
                    (tagged == Some(page), Sight::Tagged),
                    (tagged == Some(new_page), Sight::TaggedNew),
                    (tagged.is_some_and(|of| of != page && of != new_page), Sight::TaggedOther),
                ])
            }
            Event::Refused(2) => {
                let inside = [page, new_page].map(page_in_range);
                those([
                    (inside == [false, true], Sight::OutsideOld),
                    (inside == [true, false], Sight::OutsideNew),
                    (inside == [false, false], Sight::OutsideBoth),
                    (inside == [false, true] && done_cut, Sight::CutOld),
                    (inside == [true, false] && done_cut, Sight::CutNew),
                    (is_tagged, Sight::Tagged2),
                ])
            }
            Event::Refused(8) => those([
                (!equal && new.mapped.is_none(), Sight::Neither),
                (new.mapped.is_some(), Sight::OnlyNew),
                (equal, Sight::EqualUnmapped),
                (old.held, Sight::UnmappedHeld),
                (old.low, Sight::UnmappedLow),
                (old.no_form, Sight::UnmappedNoForm),
                (is_tagged, Sight::Tagged8),
            ]),
            Event::Refused(11) => those([
                (!equal, Sight::Onto),
                (!equal && old.held && new.held, Sight::OntoHeld),
                (equal, Sight::Equal),
                (is_tagged, Sight::Tagged11),
            ]),
            _ => Vec::new(),
        }
    }
}

/// The last move that was done in a run, while neither page is mapped, unmapped, protected or moved again.
pub struct Moved {
    page: u64,
    new_page: u64,
    write: bool,
    /// The names that the lines which it wrote back have now.
    written: Vec<u64>,
}

impl Moved {
    /// What a call that is done leaves of it, or the move that the call is; on the board before.
    pub fn after(moved: Option<Moved>, before: &Board, call: &Call) -> Option<Moved> {
        match *call {
            Call::Move { page, new_page } => {
                let held = before.all_records().filter_map(|at| before.held(at));
                let changed = held.filter(|record| record.changed && page_of_name(record.name) == page);
                let written = changed.map(|record| new_page * LINES_PER_PAGE + record.name % LINES_PER_PAGE).collect();
                let (_, write) = mapping(&before.shape, &before.words, page).expect("a page that was moved");
                Some(Moved { page, new_page, write, written })
            }
            Call::Map { page, .. } | Call::Unmap { page } | Call::Protect { page, .. } => {
                moved.filter(|moved| ![moved.page, moved.new_page].contains(&page))
            }
            _ => moved,
        }
    }

    /// What a call after it meets, on the board before that call.
    pub fn sights(&self, board: &Board, call: &Call, event: Event) -> Vec<Sight> {
        let (done, missing) = (!matches!(event, Event::Refused(_)), event == Event::Refused(8));
        let by_name = |old: Sight, new: Sight| {
            let page = name_of_call(board, call).map(page_of_name);
            those([(missing && page == Some(self.page), old), (done && page == Some(self.new_page), new)])
        };
        match *call {
            Call::UserAccess { store, .. } => {
                let is_new = name_of_call(board, call).map(page_of_name) == Some(self.new_page);
                let stores = those([
                    (store && is_new && done && self.write, Sight::StoreWritable),
                    (is_new && event == Event::Refused(9) && !self.write, Sight::StoreReadOnly),
                ]);
                [by_name(Sight::UserOld, Sight::UserNew), stores, self.loads(board, call, store, done)].concat()
            }
            Call::SupervisorAccess { store, .. } => {
                let by_name = by_name(Sight::SupervisorOld, Sight::SupervisorNew);
                [by_name, self.loads(board, call, store, done)].concat()
            }
            Call::LoadAndMap { .. } => by_name(Sight::InsertsOld, Sight::InsertsNew),
            Call::Unmap { page } | Call::Protect { page, .. } => {
                those([(missing && page == self.page, Sight::PageOld), (done && page == self.new_page, Sight::PageNew)])
            }
            Call::Move { page, new_page } => those([
                (missing && page == self.page, Sight::PageOld),
                (done && (page, new_page) == (self.new_page, self.page), Sight::Back),
            ]),
            Call::Map { page, .. } => those([
                (done && page == self.page, Sight::MapOld),
                (event == Event::Refused(11) && page == self.new_page, Sight::MapNew),
            ]),
            _ => Vec::new(),
        }
    }

    fn loads(&self, board: &Board, call: &Call, store: bool, done: bool) -> Vec<Sight> {
        let written = name_of_call(board, call).is_some_and(|name| self.written.contains(&name));
        those([(!store && done && written, Sight::Loads)])
    }

    /// What an access of a list after it meets, to the line of this name.
    pub fn sights_in_list(&self, name: u64, event: Event) -> Vec<Sight> {
        let (page, done) = (page_of_name(name), !matches!(event, Event::Refused(_)));
        those([
            (event == Event::Refused(8) && page == self.page, Sight::ListOld),
            (done && page == self.new_page, Sight::ListNew),
        ])
    }
}

// ---------------------------------------------------------------------------------------------
// Counts
// ---------------------------------------------------------------------------------------------

/// What was met by one route: each of `SIGHTS`; and the moves of the pages of `MOVE_PAGES`, and those to them, that were done, or
/// refused for this page alone.
#[derive(Clone, Copy)]
pub struct Counts {
    pub sights: [u64; SIGHTS.len()],
    ends: [[u64; MOVE_PAGES.len()]; 2],
}

impl Counts {
    pub const NONE: Counts = Counts { sights: [0; SIGHTS.len()], ends: [[0; MOVE_PAGES.len()]; 2] };

    pub fn count(&mut self, sights: &[Sight]) {
        sights.iter().for_each(|&sight| self.sights[sight as usize] += 1);
    }

    /// A move that gave this number.
    pub fn count_ends(&mut self, page: u64, new_page: u64, number: u32) {
        let is_inside = |page: u64| (PAGE_FIRST..=PAGE_LAST).contains(&page);
        for (counts, (page, other)) in self.ends.iter_mut().zip([(page, new_page), (new_page, page)]) {
            let wanted = if is_inside(page) { 0 } else { 2 };
            if let Some(end) = MOVE_PAGES.iter().position(|&end| end == page) {
                counts[end] += u64::from(number == wanted && is_inside(other));
            }
        }
    }

    /// Shows what must be met on fresh boards or on wild ones, in words, with its count.
    pub fn each_required(&mut self, fresh: bool, mut see: impl FnMut(Arguments, &mut u64)) {
        for (count, (_, reached, words)) in self.sights.iter_mut().zip(SIGHTS) {
            if *reached == Anywhere || !fresh {
                see(format_args!("a move, {words}"), count);
            }
        }
        for (counts, side) in self.ends.iter_mut().zip(["of", "to"]) {
            for (count, page) in counts.iter_mut().zip(MOVE_PAGES) {
                see(format_args!("a move {side} page {page:#x}"), count);
            }
        }
    }
}

// ---------------------------------------------------------------------------------------------
// The planned runs
// ---------------------------------------------------------------------------------------------

/// Pages of two segments, which process 0 has in slots 0 and 1: three of the first, and one of the second.
const SEGMENT: u64 = 0x2_3456;
const PAGE: u64 = SEGMENT * PAGES_PER_SEGMENT;
const NEW_PAGE: u64 = PAGE + 1;
const READ_ONLY: u64 = PAGE + 2;
const FAR_PAGE: u64 = (SEGMENT + 1) * PAGES_PER_SEGMENT;

/// The frames of the first page and of the read-only one, and the first of two that are free.
const FRAME: u64 = UNCACHED;
const READ_ONLY_FRAME: u64 = UNCACHED + 1;
const FREE_FRAME: u64 = UNCACHED + 2;
const UNCACHED: u64 = 2;
const SETS: u64 = 16;

fn shape(edition: Edition) -> Shape {
    Shape { frames: FREE_FRAME + 2, uncached: UNCACHED, processes: 1, lines: set_lines(edition) * SETS }
}

fn moving(page: u64, new_page: u64) -> Deed {
    Deed::Call(Call::Move { page, new_page })
}

/// Accesses to a line of a page of the first segment.
fn user(page: u64, line: u64, store: bool) -> Call {
    let address = ((page - PAGE) * PAGE_BYTES + line * LINE_BYTES) as u32;
    Call::UserAccess { process: 0, store, width: 2, address, value: u32::from(store) * 0x0102 }
}

fn supervisor(page: u64, line: u64) -> Deed {
    let global = page * PAGE_BYTES + line * LINE_BYTES;
    Deed::Call(Call::SupervisorAccess { store: false, width: 4, global, value: 0 })
}

fn tag(page: u64, line: u64) -> Deed {
    Deed::Call(Call::Tag { name: page * LINES_PER_PAGE + line })
}

/// All that calls from a fresh board can meet; no frame from U up has a word before.
fn deeds() -> Vec<Deed> {
    let map = |page, frame, write| Deed::Call(Call::Map { page, frame, write });
    let attach = |slot, segment| Deed::Call(Call::Attach { process: 0, slot, segment, write: true });
    let user = |page, line, store| Deed::Call(user(page, line, store));
    let insert = |line| Deed::Call(Call::LoadAndMap { line: line_in(FRAME, line) });
    let unmap = |page| Deed::Call(Call::Unmap { page });
    let items = [PAGE, NEW_PAGE].iter().filter_map(|&page| Item::of(&self::user(page, 5, false), 1));
    let mut deeds = vec![
        map(PAGE, FRAME, true),
        map(READ_ONLY, READ_ONLY_FRAME, false),
        attach(0, SEGMENT),
        attach(1, SEGMENT + 1),
        // Both names after a move; what was stored comes back by way of memory.
        moving(PAGE, NEW_PAGE),
        user(PAGE, 3, false),
        supervisor(PAGE, 3),
        Deed::List(List::of(items.collect())),
        tag(PAGE, 3),
        insert(3),
        Deed::Call(Call::DropTag),
        moving(PAGE, FAR_PAGE),
        map(NEW_PAGE, FREE_FRAME, true),
        user(NEW_PAGE, 3, true),
        supervisor(NEW_PAGE, 4),
        tag(NEW_PAGE, 6),
        insert(6),
        moving(NEW_PAGE, PAGE),
        user(PAGE, 3, false),
        moving(PAGE, FAR_PAGE),
        moving(FAR_PAGE, PAGE),
        moving(READ_ONLY, NEW_PAGE),
        user(NEW_PAGE, 3, true),
        moving(NEW_PAGE, READ_ONLY),
        // The old page mapped again, the new one unmapped.
        moving(PAGE, NEW_PAGE),
        map(PAGE, FREE_FRAME, true),
        unmap(PAGE),
        moving(NEW_PAGE, PAGE),
        moving(PAGE, NEW_PAGE),
        unmap(NEW_PAGE),
        map(PAGE, FRAME, true),
        // A tag is pending.
        tag(PAGE, 7),
        moving(PAGE, NEW_PAGE),
        moving(NEW_PAGE, PAGE),
        moving(READ_ONLY, NEW_PAGE),
        moving(NEW_PAGE, READ_ONLY),
        moving(0, NEW_PAGE),
        moving(NEW_PAGE, PAGE),
        moving(PAGE, READ_ONLY),
        Deed::Call(Call::DropTag),
        // Refused.
        moving(0, PAGES_END),
        moving(NEW_PAGE, FAR_PAGE),
        moving(NEW_PAGE, READ_ONLY),
        moving(NEW_PAGE, NEW_PAGE),
        moving(PAGE, PAGE),
        user(PAGE, 3, false),
        user(READ_ONLY, 4, false),
        moving(PAGE, READ_ONLY),
        // The first page and the last.
        moving(PAGE, PAGE_FIRST),
        moving(PAGE_FIRST, PAGE_LAST),
        moving(PAGE_LAST, PAGE),
    ];
    let outside = MOVE_PAGES.into_iter().filter(|&page| !(PAGE_FIRST..=PAGE_LAST).contains(&page));
    let cut = [moving(PAGES_END + PAGE, NEW_PAGE), moving(PAGE, PAGES_END + NEW_PAGE)];
    deeds.extend(outside.flat_map(|page| [moving(page, NEW_PAGE), moving(PAGE, page)]).chain(cut));
    deeds.push(Deed::Audit);
    deeds
}

/// A board on which these can be done.
fn start(rng: &mut Rng, edition: Edition, fresh: bool) -> Start {
    let mut start = if fresh {
        gen::fresh(rng, edition, shape(edition))
    } else {
        let (mut board, _) = gen::wild_board(rng, edition, shape(edition));
        board.words.fill(0);
        Start { fresh: false, board, offsets: gen::offsets(rng) }
    };
    start.board.tag = NO_TAG;
    start
}

/// A wild board: the page has two frames and one below U, the new one has one below U and a word of no form, and lines of both are
/// held. And moves there.
fn strange(rng: &mut Rng, edition: Edition) -> (Start, Vec<Deed>) {
    let mut start = start(rng, edition, false);
    let board = &mut start.board;
    let [read_only, writable] = [false, true].map(|write| frame_word(PAGE, write));
    let low = [writable, frame_word(NEW_PAGE, true)];
    board.words.copy_from_slice(&[low[0], low[1], writable, read_only, NEW_PAGE * 4, FAR_PAGE * 4 + 2]);
    for (place, page, changed) in [(0, NEW_PAGE, true), (1, NEW_PAGE, false), (2, PAGE, true), (3, PAGE, false)] {
        let (name, line) = (page * LINES_PER_PAGE + place, line_in(FREE_FRAME, place));
        let record = Record { name, line, changed, write: true, valid: true };
        gen::put(board, set_lines(edition) * place, record.encode());
    }
    (start, vec![moving(NEW_PAGE, FAR_PAGE), moving(PAGE, NEW_PAGE), moving(PAGE, FAR_PAGE)])
}

/// Gives how many boards were run.
pub fn moves(rng: &mut Rng, edition: Edition, plant: Option<Plant>, coverage: &mut Coverage) -> Result<usize, Failure> {
    let mut boards = 0;
    coverage.planned = Some(Planned::Moves);
    for (fresh, manner) in ways() {
        let mut runs = vec![(start(rng, edition, fresh), deeds())];
        if !fresh {
            runs.push(strange(rng, edition));
        }
        for (start, deeds) in runs {
            stepped(start, deeds.len(), plant, coverage, |index, _| Step { deed: deeds[index].clone(), manner })?;
            boards += 1;
        }
    }
    coverage.planned = None;
    Ok(boards)
}
