//! Planned runs that reach all of `sights.rs`: map, unmap, protect, move and flush all on boards where lines stand at the ends of
//! a page's places, beside them and among them; by every route, on fresh boards and on wild ones, in either edition. Nothing else
//! is counted there.

use crate::coverage::{Coverage, Planned};
use crate::guarded::FENCED_BEHIND;
use crate::limits::*;
use crate::pairs::Failure;
use crate::plant::Plant;
use crate::rng::Rng;
use crate::routes::Manner;
use crate::sights::records_of;
use crate::trace::{Deed, Start, Step};
use crate::{gen, stepped, ways};
use model::{frame_word, kind_of, place_of, Board, Call, Edition, Record, Shape, NO_TAG};
use std::ops::Range;

/// How many sets the boards have, but for those with the most lines.
const SETS: [u64; 7] = [1, 2, 16, 128, LINES_PER_PAGE, 512, 4096];

/// How many lines the boards have.
pub fn lines_of(edition: Edition) -> impl Iterator<Item = u64> {
    SETS.into_iter().map(move |sets| set_lines(edition) * sets).chain([LINES_MAX])
}

/// The last line of a page, by its index in it.
const LAST: u64 = LINES_PER_PAGE - 1;

/// A page whose places are amid others, with enough lines; one with the same places, to which it is moved; and from where on pages
/// are taken that are alike to another.
const PAGE: u64 = 0x34_5601;
const NEW_PAGE: u64 = 0x56_7801;
const ALIKE_PAGES: u64 = 0x40_0000;

/// A frame amid others, its prefix 1 range at the places of `PAGE`; and how many of the last ones are for other pages than those
/// that are played with: those beside them and alike to them; and pages from here on whose lines fill sets, so many for each of
/// five.
const FRAME: u64 = 1;
const SPARE: u64 = 6;
const FILLERS: u64 = 0x1000_0000;
const FILLERS_EACH: u64 = 3;

/// A page, and the frame in which it is, or will be; and the page to which it is moved, where it is not mapped, protected and
/// unmapped.
#[derive(Clone, Copy)]
struct Spot {
    page: u64,
    frame: u64,
    new_page: Option<u64>,
}

/// Records at the places of a page, and the pages whose lines can stand there.
type Ground = (Range<u64>, Vec<u64>);

impl Spot {
    /// Where there are more sets than a page has lines: the frame's places are the page's; the frame's are the first of all and the
    /// page's the last; the other way round. The first places are frame 0's, and again those of the frame after the one that
    /// has the last; but with the most lines that one would take much memory. Likewise the places of the page to which one is moved.
    fn all(edition: Edition, lines: u64) -> Vec<Spot> {
        let (amid, sets) = (Spot { page: PAGE, frame: FRAME, new_page: None }, sets_of(edition, lines));
        let moved = |page: u64, new_page: u64| Spot { page, new_page: Some(new_page), ..amid };
        if sets <= LINES_PER_PAGE {
            return vec![amid, moved(PAGE, NEW_PAGE)];
        }
        let last = sets / LINES_PER_PAGE - 1;
        let first = if lines == LINES_MAX { 0 } else { last + 1 };
        vec![
            amid,
            Spot { page: PAGE_LAST, frame: first, ..amid },
            Spot { page: PAGE_FIRST, frame: last, ..amid },
            moved(PAGE, NEW_PAGE),
            moved(PAGE_LAST, PAGE_FIRST),
            moved(PAGE_FIRST, PAGE_LAST),
        ]
    }

    /// A board has the frame with its neighbours, and the spare ones.
    fn shape(&self, edition: Edition, lines: u64) -> Shape {
        Shape { frames: self.frames() + spare(edition), uncached: 0, processes: 1, lines }
    }

    fn frames(&self) -> u64 {
        self.frame.max(FRAME) + 2
    }

    fn is_amid(&self) -> bool {
        self.page == PAGE
    }

    fn prefix1(&self) -> u64 {
        PREFIX1_PAGE + self.frame
    }

    /// The page whose lines are taken, too.
    fn other(&self) -> u64 {
        self.new_page.unwrap_or(self.prefix1())
    }

    /// Where a page is moved amid other places, its frame's prefix 1 lines stand there, too.
    fn grounds(&self, edition: Edition, lines: u64) -> Vec<Ground> {
        let of = |page: u64| records_of(page, edition, lines);
        let (own, others) = (of(self.page), of(self.other()));
        if own == others {
            let kept = self.new_page.map(|_| self.prefix1());
            vec![(own, [self.page, self.other()].into_iter().chain(kept).collect())]
        } else {
            vec![(own, vec![self.page]), (others, vec![self.other()])]
        }
    }

    fn map(&self) -> Call {
        Call::Map { page: self.page, frame: self.frame, write: true }
    }

    fn unmap(&self) -> Call {
        Call::Unmap { page: self.page }
    }

    /// Both ways, so that the permission of each line changes.
    fn protect(&self) -> [Call; 2] {
        [true, false].map(|write| Call::Protect { page: self.page, write })
    }
}

/// The spare frames. With one line to a place no set has to be filled.
fn spare(edition: Edition) -> u64 {
    match edition {
        Edition::Ones => SPARE,
        Edition::Fours => SPARE + 5 * FILLERS_EACH,
    }
}

/// What stands in a record: a line of a page, or what must not be taken for one.
#[derive(Clone, Copy, Debug, PartialEq, Eq)]
enum Thing {
    Changed,
    Unchanged,
    Alike,
    Far,
    Highest,
    Stray,
    Beyond,
    Invalid,
}

const THINGS: [Thing; 8] = [
    Thing::Changed,
    Thing::Unchanged,
    Thing::Alike,
    Thing::Far,
    Thing::Highest,
    Thing::Stray,
    Thing::Beyond,
    Thing::Invalid,
];

/// A name of the page that has the place of this record. Where several have it, lower records get higher names.
fn name_at(page: u64, edition: Edition, lines: u64, at: u64) -> u64 {
    let (sets, place) = (sets_of(edition, lines), at / set_lines(edition));
    let turns = (LINES_PER_PAGE / sets).max(1);
    let turn = (lines - 1 - at) % turns;
    page * LINES_PER_PAGE + (turn * sets + place) % LINES_PER_PAGE
}

impl Thing {
    /// It, of this page and physical line, at one of the page's places.
    fn record(self, rng: &mut Rng, board: &Board, page: u64, at: u64, line: u64) -> Record {
        let (edition, shape) = (board.edition, &board.shape);
        let name = name_at(page, edition, shape.lines, at);
        let named = match self {
            Thing::Alike => name ^ (ALIKE * LINES_PER_PAGE),
            Thing::Far => name + (NAMES_END << rng.below(24)),
            Thing::Highest => u64::MAX - (sets_of(edition, shape.lines) - 1 - at / set_lines(edition)),
            Thing::Stray => page * LINES_PER_PAGE + (name + 1) % LINES_PER_PAGE,
            _ => name,
        };
        let beyond = if self == Thing::Beyond { shape.frames * LINES_PER_PAGE } else { 0 };
        Record {
            name: named,
            line: line + beyond,
            changed: self != Thing::Unchanged,
            write: rng.flip(),
            valid: self != Thing::Invalid,
        }
    }
}

/// What stands at a page's places: at both ends this, of one of the pages whose lines can stand there at the first end and of one
/// at the last; between them the same, or anything.
#[derive(Clone, Copy)]
struct Scene {
    ends: Thing,
    of: [usize; 2],
    full: bool,
}

/// With more sets than a page has lines there is room for everything between the ends, and the last spot is full. Of a page that is
/// moved and of the new one, amid other places, either has the lower end; and prefix 1 lines stand at both.
fn scenes(edition: Edition, lines: u64, spot: &Spot) -> Vec<Scene> {
    let pages = spot.grounds(edition, lines)[0].1.len();
    let of_each = |ends: Thing, full: bool| (0..pages.min(2)).map(move |of| Scene { ends, of: [of; 2], full });
    let mixed = [[0, 1], [1, 0], [2, 2]].map(|of| Scene { ends: Thing::Changed, of, full: false });
    let mixed = mixed.into_iter().filter(|_| pages > 2);
    if sets_of(edition, lines) <= LINES_PER_PAGE {
        let ends = THINGS.into_iter().flat_map(|thing| of_each(thing, false));
        ends.chain(of_each(Thing::Changed, true)).chain(mixed).collect()
    } else {
        of_each(Thing::Changed, spot.page == PAGE_FIRST).chain(mixed).collect()
    }
}

fn put(board: &mut Board, at: u64, record: Record) {
    gen::put(board, at, record.encode());
}

/// Boards of so many lines.
pub struct Boards {
    pub edition: Edition,
    pub lines: u64,
    /// A wild board, on which scenes are laid.
    base: Board,
}

impl Boards {
    pub fn of(rng: &mut Rng, edition: Edition, lines: u64) -> Boards {
        let amid = Spot::all(edition, lines)[0];
        let (mut base, _) = gen::wild_board(rng, edition, amid.shape(edition, lines));
        base.tag = NO_TAG;
        Boards { edition, lines, base }
    }

    /// Runs by one route, on fresh boards or on wild ones. Gives how many.
    pub fn runs(
        &self,
        rng: &mut Rng,
        (fresh, manner): (bool, Manner),
        plant: Option<Plant>,
        coverage: &mut Coverage,
    ) -> Result<usize, Failure> {
        let mut boards = 0;
        let mut run = |start: Start, calls: Vec<Call>| {
            boards += 1;
            stepped(start, calls.len(), plant, coverage, |index, _| Step { deed: Deed::Call(calls[index]), manner })
        };
        // A wrong walk shows only where its call is made.
        let shows = |spot: &Spot| match plant {
            Some(Plant::Walk(walk)) => walk.is_of_move() == spot.new_page.is_some(),
            _ => true,
        };
        for spot in Spot::all(self.edition, self.lines).into_iter().filter(shows) {
            if fresh {
                let start = self.fresh(rng, &spot);
                let calls = self.fresh_calls(&spot, &start.board);
                run(start, calls)?;
                continue;
            }
            for scene in scenes(self.edition, self.lines, &spot) {
                for (mapped, calls) in wild_calls(&spot, scene) {
                    run(self.wild(rng, &spot, scene, mapped), calls)?;
                }
            }
        }
        Ok(boards)
    }

    fn sets(&self) -> u64 {
        sets_of(self.edition, self.lines)
    }

    // ----- wild boards -----

    fn wild(&self, rng: &mut Rng, spot: &Spot, scene: Scene, mapped: bool) -> Start {
        let mut board = self.base.clone();
        board.shape = spot.shape(self.edition, self.lines);
        board.words.resize(board.shape.frames as usize, 0);
        board.memory.resize((board.shape.frames * PAGE_BYTES) as usize, 0);
        let pages = [Some(spot.page), spot.new_page];
        board.words.iter_mut().filter(|word| pages.contains(&Some(**word / 4))).for_each(|word| *word = 0);
        board.words[spot.frame as usize] = if mapped { frame_word(spot.page, rng.flip()) } else { 0 };
        let grounds = spot.grounds(self.edition, self.lines);
        self.lay_beside(&mut board, spot, &grounds);
        let mut line = 0;
        for ground in &grounds {
            self.lay(rng, &mut board, scene, ground, line);
            if spot.new_page.is_none() {
                line += (ground.0.end - ground.0.start) / 2;
            }
        }
        let [slots, words, _, cache, memory, uses] = gen::offsets(rng);
        Start { fresh: false, board, offsets: [slots, words, FENCED_BEHIND, cache, memory, uses] }
    }

    /// Two records as far from the one end as from the other have one physical line, from this one up; those at the places of a
    /// page and of the one to which it is moved have the same.
    fn lay(&self, rng: &mut Rng, board: &mut Board, scene: Scene, (records, pages): &Ground, line: u64) {
        for at in records.clone() {
            let from_end = (at - records.start).min(records.end - 1 - at);
            let (thing, page) = if scene.full || from_end == 0 {
                (scene.ends, pages[scene.of[usize::from(at > records.start)]])
            } else {
                (rng.pick(&THINGS), rng.pick(pages))
            };
            let record = thing.record(rng, board, page, at, line + from_end);
            put(board, at, record);
        }
    }

    /// Changed lines of other pages just before and just after the places, and at the ends of all; and, in the midst of all,
    /// records of the pages at none of their places.
    fn lay_beside(&self, board: &mut Board, spot: &Spot, grounds: &[Ground]) {
        let free = |at: &u64| *at < self.lines && !grounds.iter().any(|(records, _)| records.contains(at));
        let beside = grounds.iter().flat_map(|(records, _)| [records.start.wrapping_sub(1), records.end]);
        let own = grounds[0].0.start / set_lines(self.edition);
        for at in beside.chain([0, self.lines - 1]).filter(free) {
            let name = spot.page * LINES_PER_PAGE - own + at / set_lines(self.edition);
            put(board, at, Record { name, line: at % LINES_PER_PAGE, changed: true, write: true, valid: true });
        }
        let middle = self.lines / 2;
        for (at, page) in [(middle + 3, spot.page), (middle + 5, spot.other())] {
            if free(&at) {
                let name = page * LINES_PER_PAGE;
                put(board, at, Record { name, line: 0, changed: true, write: true, valid: true });
            }
        }
    }

    // ----- fresh boards -----

    /// Records of the pages stand at their places, but are not valid.
    fn fresh(&self, rng: &mut Rng, spot: &Spot) -> Start {
        let mut start = gen::fresh(rng, self.edition, spot.shape(self.edition, self.lines));
        start.board.tag = NO_TAG;
        let scene = Scene { ends: Thing::Invalid, of: [0; 2], full: true };
        for ground in spot.grounds(self.edition, self.lines) {
            self.lay(rng, &mut start.board, scene, &ground, 0);
        }
        start
    }

    fn fresh_calls(&self, spot: &Spot, board: &Board) -> Vec<Call> {
        let (page, other, sets) = (spot.page, spot.other(), self.sets());
        let last = PREFIX1_PAGE + (sets - 1) / LINES_PER_PAGE;
        let filled = [page, page - 1, other, other - 1, last];
        let beside = neighbours(page).chain(spot.new_page.into_iter().flat_map(neighbours));
        let others = beside.map(|(page, _)| page).chain([alike(page), alike(other)]);
        let others: Vec<u64> = others.chain(fillers(self.edition, sets, &filled)).collect();
        let mut plan = Plan { board: board.clone(), calls: Vec::new() };
        for (frame, page) in (spot.frames()..).zip(others) {
            plan.call(Call::Map { page, frame, write: true });
        }
        plan.call(spot.map());
        match spot.new_page {
            Some(new_page) => plan.of_moved(page, new_page),
            None => self.of_mapped(spot, last, &mut plan),
        }
        plan.calls
    }

    /// Lines at the ends of the places and beside them: of a page that is mapped; of a frame to which it will be.
    fn of_mapped(&self, spot: &Spot, last: u64, plan: &mut Plan) {
        let (page, prefix1, sets) = (spot.page, spot.prefix1(), self.sets());
        plan.beside(page);
        plan.ends(page);
        spot.protect().into_iter().for_each(|call| plan.call(call));
        plan.call(spot.unmap());
        plan.beside(prefix1);
        plan.beside(page);
        plan.ends(prefix1);
        plan.call(spot.map());
        if spot.is_amid() {
            // Others' lines among them.
            plan.call(touch(alike(page), 1));
            spot.protect().into_iter().for_each(|call| plan.call(call));
            for call in [spot.unmap(), spot.map(), spot.unmap(), touch(alike(prefix1), 1), spot.map()] {
                plan.call(call);
            }
        }
        plan.call(spot.unmap());
        if sets <= spot.frames() * LINES_PER_PAGE {
            // Lines far from each other, by all frames but the spare ones.
            plan.call(Call::FlushAll);
            for place in (0..4).map(|quarter| quarter * sets / 4) {
                plan.call(touch(PREFIX1_PAGE + place / LINES_PER_PAGE, place % LINES_PER_PAGE));
            }
            plan.touch_last(last, LAST);
            plan.call(Call::FlushAll);
        }
    }
}

/// A page that is alike to another.
fn alike(page: u64) -> u64 {
    ALIKE_PAGES + page % ALIKE
}

/// Pages that have lines at the places of these, to fill sets with: with one line to a place, none.
fn fillers(edition: Edition, sets: u64, pages: &[u64]) -> Vec<u64> {
    if edition == Edition::Ones {
        return Vec::new();
    }
    // Pages that are as far apart as this have the same places.
    let span = (sets / LINES_PER_PAGE).max(1);
    let mut kinds: Vec<u64> = pages.iter().map(|page| page % span).collect();
    kinds.sort_unstable();
    kinds.dedup();
    kinds.into_iter().flat_map(|kind| (0..FILLERS_EACH).map(move |page| FILLERS + page * ALIKE + kind)).collect()
}

/// Calls, planned with an eye on the board as they leave it.
struct Plan {
    board: Board,
    calls: Vec<Call>,
}

impl Plan {
    fn call(&mut self, call: Call) {
        self.board.step(&call);
        self.calls.push(call);
    }

    fn sets(&self) -> u64 {
        sets_of(self.board.edition, self.board.shape.lines)
    }

    /// Touches a line so that it stands in the last record at its place, if that is empty: the others are filled before.
    fn touch_last(&mut self, page: u64, index: u64) {
        let sets = self.sets();
        let place = place_of(page * LINES_PER_PAGE + index, sets);
        let last = set_lines(self.board.edition) * (place + 1) - 1;
        let pages = FILLERS..FILLERS + FILLERS_EACH * ALIKE;
        let filler = |name: &u64| pages.contains(&(name / LINES_PER_PAGE)) && place_of(*name, sets) == place;
        let mapped = self.board.words.clone().into_iter().map(|word| word / 4);
        let mut names = mapped.flat_map(|page| page * LINES_PER_PAGE..(page + 1) * LINES_PER_PAGE).filter(filler);
        let is_empty = |board: &Board, at: u64| board.held(at).is_none();
        while self.board.records_at(place).find(|&at| is_empty(&self.board, at)).is_some_and(|empty| empty < last) {
            let name = names.next().expect("there are lines to fill the set with");
            if self.board.holder(name).is_none() {
                self.call(touch(name / LINES_PER_PAGE, name % LINES_PER_PAGE));
            }
        }
        self.call(touch(page, index));
    }

    /// Lines in the first record at a page's places and in the last. Where a set has room for some of its lines, one is full of
    /// them.
    fn ends(&mut self, page: u64) {
        let (sets, of_set) = (self.sets(), set_lines(self.board.edition));
        let first = if of_set * sets <= LINES_PER_PAGE { of_set } else { 1 };
        // With a single set, that is where the last one goes, too.
        let first = if sets == 1 { first.max(2) - 1 } else { first };
        (0..first).for_each(|turn| self.call(touch(page, turn * sets)));
        self.touch_last(page, LAST);
    }

    /// A page is moved, and back again: with lines at the ends of its places and beside both pages', and with others' lines among
    /// them.
    fn of_moved(&mut self, page: u64, new_page: u64) {
        self.beside(page);
        self.beside(new_page);
        self.ends(page);
        self.call(Call::Move { page, new_page });
        self.call(touch(new_page, 1));
        self.call(Call::Move { page: new_page, new_page: page });
        self.call(touch(alike(page), 1));
        self.call(Call::Move { page, new_page });
        self.call(touch(alike(new_page), 1));
        self.call(Call::Move { page: new_page, new_page: page });
        self.call(Call::Move { page, new_page });
    }

    /// Lines of the pages beside it, in the records next to its places: where there are others than its own.
    fn beside(&mut self, page: u64) {
        if self.sets() > LINES_PER_PAGE {
            for (neighbour, index) in neighbours(page) {
                if index == LAST {
                    self.touch_last(neighbour, index);
                } else {
                    self.call(touch(neighbour, index));
                }
            }
        }
    }
}

/// Calls for a board on which the page is mapped, or is not. Amid other places all is flushed, once.
fn wild_calls(spot: &Spot, scene: Scene) -> Vec<(bool, Vec<Call>)> {
    if let Some(new_page) = spot.new_page {
        return vec![(true, vec![Call::Move { page: spot.page, new_page }])];
    }
    let [yes, no] = spot.protect();
    let mut calls = vec![(true, vec![yes, no, spot.unmap(), spot.map()]), (false, vec![spot.map()])];
    if spot.is_amid() && scene.of == [0; 2] {
        calls.push((true, vec![Call::FlushAll]));
    }
    calls
}

/// Stores to a line of a page, so that it is held and changed.
fn touch(page: u64, index: u64) -> Call {
    let global = page * PAGE_BYTES + index * LINE_BYTES;
    Call::SupervisorAccess { store: true, width: 1, global, value: index as u32 }
}

/// The pages beside a page that are of its kind, each with its line that is next to it.
fn neighbours(page: u64) -> impl Iterator<Item = (u64, u64)> {
    let kind = |page: u64| std::mem::discriminant(&kind_of(page * PAGE_BYTES));
    [(page - 1, LAST), (page + 1, 0)].into_iter().filter(move |(other, _)| kind(*other) == kind(page))
}

/// Gives how many boards were run.
pub fn places(
    rng: &mut Rng,
    edition: Edition,
    plant: Option<Plant>,
    coverage: &mut Coverage,
) -> Result<usize, Failure> {
    let mut boards = 0;
    coverage.planned = Some(Planned::Places);
    for lines in lines_of(edition) {
        let all = Boards::of(rng, edition, lines);
        for way in ways() {
            boards += all.runs(rng, way, plant, coverage)?;
        }
    }
    coverage.planned = None;
    Ok(boards)
}
