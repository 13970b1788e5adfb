//! Planned runs that reach all of `sets.rs`: on fresh boards every use of a line after every order of uses, and sets that calls
//! have filled and emptied; on wild ones scenes, laid in a set. By whatever uses lines, by every route. Nothing else is counted
//! there.

use crate::coverage::{Coverage, Planned};
use crate::guarded::FENCED_BEHIND;
use crate::limits::*;
use crate::lists::{Item, List};
use crate::pairs::Failure;
use crate::plant::Plant;
use crate::rng::Rng;
use crate::routes::Manner;
use crate::sets::{self, By, Order, LINES};
use crate::trace::{Deed, Start, Step};
use crate::{gen, stepped, ways};
use model::{frame_word, slot_word, used, Board, Call, Edition, Matrix, Record, Shape, FRESH_MATRIX, NO_TAG};
use Stand::{Beyond, Changed, Empty, Other, Own, OwnBeyond, OwnInvalid, OwnReadOnly, Stray};

/// Pages of one segment, by their index in it: in frames 1 to 6, writable; in frame 7, read-only; in none. Under prefix 1 the same
/// frames, free but for the last.
const PAGES: u64 = 6;
const READ_ONLY: u64 = PAGES;
const UNMAPPED: u64 = PAGES + 1;
const FIRST_FRAME: u64 = 1;
const FRAMES: u64 = FIRST_FRAME + PAGES + 1;

/// Process 0 has the segment in slot 0, for writing, and in slot 1.
const SEGMENT: u64 = SEGMENT_FIRST;
const SLOT_READ_ONLY: u64 = 1;

fn shape(sets: u64) -> Shape {
    Shape { frames: FRAMES, uncached: FIRST_FRAME, processes: 1, lines: LINES as u64 * sets }
}

/// The page with this index, as what uses lines names it.
fn page_of(by: By, index: u64) -> u64 {
    match by {
        By::Prefix1 => PREFIX1_PAGE + FIRST_FRAME + index,
        _ => SEGMENT * PAGES_PER_SEGMENT + index,
    }
}

fn name_of(by: By, page: u64, line: u64) -> u64 {
    page_of(by, page) * LINES_PER_PAGE + line
}

/// The physical line of a name, where its page is mapped, or under prefix 1; of a page that is mapped nowhere, one in the last
/// frame.
fn line_of(by: By, name: u64) -> u64 {
    let index = name / LINES_PER_PAGE - page_of(by, 0);
    line_in(FIRST_FRAME + index.min(READ_ONLY), name)
}

/// An access to a line: by a user, or by a supervisor.
fn access(by: By, name: u64, store: bool) -> Call {
    let (width, value) = (1, u32::from(store));
    match by {
        By::Ordinary | By::Prefix1 => Call::SupervisorAccess { store, width, global: name * LINE_BYTES, value },
        _ => {
            let address = ((name - name_of(By::User, 0, 0)) * LINE_BYTES) as u32;
            Call::UserAccess { process: 0, store, width, address, value }
        }
    }
}

/// The same access, refused by 2 for its value, by 4, or by 7.
fn large(call: Call) -> Call {
    match call {
        Call::UserAccess { process, width, address, .. } => {
            Call::UserAccess { process, store: true, width, address, value: 0x100 }
        }
        Call::SupervisorAccess { width, global, .. } => {
            Call::SupervisorAccess { store: true, width, global, value: 0x100 }
        }
        other => other,
    }
}

fn crooked(call: Call) -> Call {
    match call {
        Call::UserAccess { process, store, address, value, .. } => {
            Call::UserAccess { process, store, width: 2, address: address + 1, value }
        }
        Call::SupervisorAccess { store, global, value, .. } => {
            Call::SupervisorAccess { store, width: 2, global: global + 1, value }
        }
        other => other,
    }
}

fn by_other_slot(call: Call) -> Call {
    match call {
        Call::UserAccess { process, width, address, .. } => {
            let address = address + (SLOT_READ_ONLY * SEGMENT_SPAN) as u32;
            Call::UserAccess { process, store: true, width, address, value: 1 }
        }
        other => other,
    }
}

fn map(index: u64, write: bool) -> Call {
    Call::Map { page: page_of(By::User, index), frame: FIRST_FRAME + index, write }
}

fn unmap(index: u64) -> Call {
    Call::Unmap { page: page_of(By::User, index) }
}

/// A page moved, and back again.
fn moves(page: u64, new_page: u64) -> [Call; 2] {
    [Call::Move { page, new_page }, Call::Move { page: new_page, new_page: page }]
}

// ---------------------------------------------------------------------------------------------
// Fresh boards
// ---------------------------------------------------------------------------------------------

/// More sets than there are uses of a line after an order in which some were not used.
const SETS: u64 = 16;

/// The set in which most is done; and one in which a record has a name, but is not valid.
const PLAYED: u64 = SETS - 1;
const STALE: u64 = SETS - 2;

fn fresh_start(rng: &mut Rng, by: By) -> Start {
    let mut start = gen::fresh(rng, Edition::Fours, shape(SETS));
    start.board.tag = NO_TAG;
    let stale = Record { name: name_of(by, 0, STALE), line: 0, changed: true, write: true, valid: false };
    gen::put(&mut start.board, STALE * LINES as u64 + 2, stale.encode());
    start
}

/// Deeds, planned with an eye on the board as they leave it.
struct Script {
    by: By,
    board: Board,
    deeds: Vec<Deed>,
    /// Accesses that will be a list.
    items: Vec<Item>,
}

impl Script {
    /// All that is to be met on fresh boards.
    fn of(by: By, board: &Board) -> Vec<Deed> {
        let mut script = Script { by, board: board.clone(), deeds: Vec::new(), items: Vec::new() };
        script.begin();
        // A set comes to an order with an unused line but once.
        let (full, others): (Vec<_>, Vec<_>) = sets::changes().partition(|(order, _)| order.lines().len() == LINES);
        let those = (0..).zip(others).chain(full.into_iter().map(|change| (PLAYED, change)));
        for (set, (order, line)) in those {
            script.bring(set, &order);
            script.use_line(set, line);
        }
        script.find_all();
        script.push_out();
        script.fill_empty();
        script.fill_with(name_of(by, 0, STALE));
        script.refuse();
        script.leave();
        script.close();
        script.deeds
    }

    fn begin(&mut self) {
        if self.by != By::Prefix1 {
            (0..PAGES).for_each(|index| self.call(map(index, true)));
            self.call(map(READ_ONLY, false));
        }
        let attach = |slot, write| Call::Attach { process: 0, slot, segment: SEGMENT, write };
        self.call(attach(0, true));
        self.call(attach(SLOT_READ_ONLY, false));
    }

    // ----- steps -----

    /// What was gathered comes as a list.
    fn close(&mut self) {
        if !self.items.is_empty() {
            self.deeds.push(Deed::List(List::of(std::mem::take(&mut self.items))));
        }
    }

    fn call(&mut self, call: Call) {
        self.board.step(&call);
        self.close();
        self.deeds.push(Deed::Call(call));
    }

    /// An access, in a list where lists use lines.
    fn touch(&mut self, call: Call) {
        match Item::of(&call, 1).filter(|_| self.by == By::List) {
            Some(item) => {
                self.board.step(&call);
                self.items.push(item);
            }
            None => self.call(call),
        }
    }

    fn look(&mut self, line: u64) {
        self.close();
        self.deeds.push(Deed::Look { line });
    }

    // ----- lines -----

    fn record_at(&self, set: u64, line: usize) -> u64 {
        set * LINES as u64 + line as u64
    }

    fn name_at(&self, set: u64, line: usize) -> Option<u64> {
        self.board.held(self.record_at(set, line)).map(|record| record.name)
    }

    /// A name of the set that is not held.
    fn absent(&self, set: u64) -> u64 {
        let mut names = (0..PAGES).map(|page| name_of(self.by, page, set));
        names.find(|&name| self.board.holder(name).is_none()).expect("a set holds fewer lines than there are pages")
    }

    /// Accesses the line that stands there.
    fn hit(&mut self, set: u64, line: usize, store: bool) {
        let name = self.name_at(set, line).expect("a line stands there");
        self.touch(access(self.by, name, store));
    }

    /// Fills a line of the set with one that is not held.
    fn fill(&mut self, set: u64) {
        self.fill_with(self.absent(set));
    }

    /// By an access, or by load-and-map.
    fn fill_with(&mut self, name: u64) {
        match self.by {
            By::Inserts => self.insert(name),
            by => self.touch(access(by, name, false)),
        }
    }

    fn insert(&mut self, name: u64) {
        self.call(Call::Tag { name });
        self.call(Call::LoadAndMap { line: line_of(self.by, name) });
    }

    /// Drops the line that stands there, and those of its page in other sets.
    fn drop_line(&mut self, set: u64, line: usize) {
        let name = self.name_at(set, line).expect("a line stands there");
        let index = name / LINES_PER_PAGE - page_of(self.by, 0);
        match self.by {
            By::Prefix1 => [map(index, true), unmap(index)].into_iter().for_each(|call| self.call(call)),
            _ => [unmap(index), map(index, true)].into_iter().for_each(|call| self.call(call)),
        }
    }

    /// Brings a set to an order of uses, if its unused lines are those of the order.
    fn bring(&mut self, set: u64, order: &Order) {
        for line in 0..order.lines().len() {
            if self.name_at(set, line).is_none() {
                self.fill(set);
            }
        }
        order.lines().iter().for_each(|&line| self.hit(set, line, false));
    }

    /// Uses a line. Load-and-map uses only what it fills.
    fn use_line(&mut self, set: u64, line: usize) {
        match (self.name_at(set, line), self.by) {
            (Some(_), By::Inserts) => {
                self.drop_line(set, line);
                self.fill(set);
            }
            (Some(_), _) => self.hit(set, line, false),
            (None, _) => self.fill(set),
        }
    }

    /// A full set, the lines used in this order.
    fn full(&mut self, lines: [usize; LINES]) {
        self.bring(PLAYED, &lines.iter().fold(sets::orders()[0], |order, &line| order.then(line)));
    }

    // ----- what is to be met -----

    /// Each line of the set found, where nothing before does it.
    fn find_all(&mut self) {
        if self.by == By::Inserts {
            self.full([0, 1, 2, 3]);
            for line in 0..LINES {
                let name = self.name_at(PLAYED, line).expect("the set is full");
                self.insert(name);
            }
        }
    }

    /// Each line pushed out of a full set, unchanged and changed.
    fn push_out(&mut self) {
        for (line, store) in (0..LINES).flat_map(|line| [(line, false), (line, true)]) {
            self.call(Call::FlushAll);
            self.full([0, 1, 2, 3]);
            self.hit(PLAYED, line, store);
            (0..LINES).filter(|&other| other != line).for_each(|other| self.hit(PLAYED, other, false));
            self.fill(PLAYED);
        }
    }

    /// An empty line that has more ones than one that is held; two, the lower with more ones than the higher; and the last line used,
    /// used again.
    fn fill_empty(&mut self) {
        self.full([0, 1, 2, 3]);
        self.drop_line(PLAYED, 3);
        self.fill(PLAYED);
        self.full([3, 2, 1, 0]);
        self.drop_line(PLAYED, 0);
        self.drop_line(PLAYED, 1);
        self.fill(PLAYED);
        self.full([1, 2, 3, 0]);
        self.use_line(PLAYED, 0);
    }

    /// Refused, where the line is held and where it is not: each time a use would change the matrix.
    fn refuse(&mut self) {
        self.full([0, 1, 2, 3]);
        let name = self.name_at(PLAYED, 1).expect("the set is full");
        let page = Call::Protect { page: name / LINES_PER_PAGE, write: false };
        let own = access(self.by, name, true);
        let [read_only, unmapped] = [READ_ONLY, UNMAPPED].map(|page| name_of(self.by, page, PLAYED));
        if self.by == By::Inserts {
            self.call(Call::Tag { name });
            self.call(Call::LoadAndMap { line: line_of(self.by, name) + 1 });
            self.call(Call::DropTag);
            self.call(Call::Tag { name: unmapped });
            self.call(Call::LoadAndMap { line: line_of(self.by, name) });
            self.call(Call::DropTag);
            return;
        }
        self.touch(large(own));
        self.touch(crooked(own));
        if self.by == By::Prefix1 {
            return;
        }
        self.touch(access(self.by, unmapped, false));
        self.call(Call::Tag { name });
        self.touch(own);
        self.call(Call::DropTag);
        if self.by != By::Ordinary {
            self.touch(by_other_slot(own));
            self.touch(access(self.by, read_only, true));
            self.call(page);
            self.touch(own);
        }
    }

    /// Calls that leave the matrix, though they are about a line of the set.
    fn leave(&mut self) {
        self.full([0, 1, 2, 3]);
        let name = self.name_at(PLAYED, 1).expect("the set is full");
        self.look(line_of(self.by, name));
        // Under prefix 0 the name is the physical line.
        let global = PLAYED * LINE_BYTES;
        self.call(Call::SupervisorAccess { store: true, width: 1, global, value: 1 });
        if self.by != By::Prefix1 {
            let page = name / LINES_PER_PAGE;
            let [away, back] = moves(page, page_of(By::User, UNMAPPED));
            self.call(Call::Protect { page, write: true });
            self.call(away);
            self.call(back);
            self.full([0, 1, 2, 3]);
        }
        self.drop_line(PLAYED, 1);
        self.full([0, 1, 2, 3]);
        self.call(Call::FlushAll);
    }
}

// ---------------------------------------------------------------------------------------------
// Wild boards
// ---------------------------------------------------------------------------------------------

/// What stands in a record: nothing; another line, changed or not; what holds nothing; the line itself, and what only has its name.
#[derive(Clone, Copy, PartialEq, Eq)]
enum Stand {
    Empty,
    Other,
    Changed,
    Stray,
    Beyond,
    Own,
    OwnInvalid,
    OwnBeyond,
    OwnReadOnly,
}

impl Stand {
    /// It, as this line of a set.
    fn record(self, by: By, name: u64, line: u64) -> Record {
        let other = (PAGE_FIRST * 2 + line) * LINES_PER_PAGE + name % WILD_SETS;
        let (name, physical) = match self {
            Stray => (other + 1, 2 * LINES_PER_PAGE + line),
            Own | OwnInvalid | OwnReadOnly => (name, line_of(by, name)),
            OwnBeyond => (name, FRAMES * LINES_PER_PAGE),
            Beyond => (other, FRAMES * LINES_PER_PAGE + line),
            Empty | Other | Changed => (other, 2 * LINES_PER_PAGE + line),
        };
        let valid = !matches!(self, Empty | OwnInvalid);
        Record { name, line: physical, changed: self == Changed, write: self != OwnReadOnly, valid }
    }
}

/// Two sets: what is laid is laid in one of them.
const WILD_SETS: u64 = 2;

/// A set and its matrix, and what is done then.
struct Scene {
    stands: [Stand; LINES],
    matrix: Matrix,
    page: u64,
    set: u64,
    act: Act,
}

/// What is done with the line: it is used, or that is refused.
#[derive(Clone, Copy, PartialEq, Eq)]
enum Act {
    Use,
    Large,
    Tagged,
    Crooked,
    OtherSlot,
    Store,
    FrameInUse,
    OtherLine,
    Look,
    MapPage,
    MapFrame,
    Unmap,
    Protect,
    MoveOld,
    MoveNew,
    FlushAll,
    Prefix0,
}

impl Scene {
    fn of(stands: [Stand; LINES], matrix: Matrix) -> Scene {
        Scene { stands, matrix, page: 0, set: WILD_SETS - 1, act: Act::Use }
    }

    /// Refused, or what leaves the matrix: the line is held.
    fn held(act: Act) -> Scene {
        Scene { act, ..Scene::of(with(OTHERS, &[(1, Own)]), ODD) }
    }
}

const OTHERS: [Stand; LINES] = [Other; LINES];

fn with(mut stands: [Stand; LINES], those: &[(usize, Stand)]) -> [Stand; LINES] {
    those.iter().for_each(|&(line, stand)| stands[line] = stand);
    stands
}

/// Bytes that are neither 0 nor 1, on the diagonal, too.
const ODD: Matrix = [[7, 2, 0x80, 3], [9, 0xFF, 2, 4], [2, 6, 5, 0xFE], [3, 3, 0x10, 0x40]];

/// Ones everywhere but in this row.
fn ones_but(line: usize) -> Matrix {
    let mut matrix = [[1; LINES]; LINES];
    matrix[line] = [0; LINES];
    matrix
}

fn scenes(by: By) -> Vec<Scene> {
    let mut all = Vec::new();
    for line in 0..LINES {
        let above = |other: usize| if other % 2 == line % 2 { Other } else { Empty };
        let stands = [0, 1, 2, 3].map(|other| if other < line { Other } else { above(other) });
        all.push(Scene::of(with(OTHERS, &[(line, Own)]), ODD));
        all.push(Scene::of(with(stands, &[(line, Empty)]), ODD));
        all.push(Scene::of(OTHERS, ones_but(line)));
        all.push(Scene::of([Changed; LINES], ones_but(line)));
    }
    let mut zeros_but = FRESH_MATRIX;
    zeros_but[2] = [1; LINES];
    all.push(Scene::of(with(OTHERS, &[(2, Empty)]), zeros_but));
    all.push(Scene::of(with(OTHERS, &[(1, Empty), (3, Empty)]), ones_but(3)));
    for stand in [Stray, Beyond, OwnInvalid, OwnBeyond] {
        all.push(Scene::of(with(OTHERS, &[(1, stand)]), ODD));
    }
    all.push(Scene::of(with(OTHERS, &[(1, Own), (3, Own)]), ODD));
    for stand in [OwnInvalid, OwnBeyond] {
        all.push(Scene::of(with(OTHERS, &[(0, stand), (2, Own)]), ODD));
    }
    // By what the victim is chosen.
    let full = [
        FRESH_MATRIX,
        [[1, 1, 0, 0], [0, 0, 1, 0], [1, 0, 0, 0], [1, 1, 0, 1]],
        [[1, 1, 0, 0], [0, 1, 1, 0], [1, 0, 0, 0], [0, 0, 0, 1]],
        [[1, 1, 0, 0], [0xFF, 0, 0, 0], [1, 1, 1, 0], [1, 1, 1, 1]],
        [[2, 2, 2, 0], [1, 1, 0, 0], [1, 1, 1, 0], [1, 1, 1, 1]],
        [[1, 1, 0, 0], [0, 0, 1, 0], [1, 1, 1, 0], [1, 1, 1, 1]],
        [[1, 0, 0, 1], [0, 0, 0, 0], [1, 0, 1, 0], [1, 0, 0, 1]],
    ];
    all.extend(full.into_iter().map(|matrix| Scene::of(OTHERS, matrix)));
    // The last line used, again: found, or filled.
    all.push(Scene::of(with(OTHERS, &[(2, if by == By::Inserts { Empty } else { Own })]), used(&ODD, 2)));
    all.push(Scene { set: 0, ..Scene::of(with(OTHERS, &[(1, Empty)]), ODD) });
    all.extend(refusals(by));
    all
}

fn refusals(by: By) -> Vec<Scene> {
    let missed = |page, act| Scene { page, act, ..Scene::of(OTHERS, ODD) };
    let of_users = || {
        let read_only = Scene { act: Act::Store, ..Scene::of(with(OTHERS, &[(1, OwnReadOnly)]), ODD) };
        [Scene::held(Act::OtherSlot), read_only, missed(READ_ONLY, Act::Store)]
    };
    let mut all = match by {
        By::Inserts => {
            vec![Scene::held(Act::OtherLine), Scene { page: UNMAPPED, ..Scene::held(Act::Use) }]
        }
        _ => vec![Scene::held(Act::Large), Scene::held(Act::Crooked)],
    };
    match by {
        By::Prefix1 => all.push(Scene::held(Act::FrameInUse)),
        By::Inserts => all.push(missed(UNMAPPED, Act::Use)),
        _ => all.extend([Scene::held(Act::Tagged), missed(UNMAPPED, Act::Use)]),
    }
    match by {
        By::User => {
            let acts = [Act::Look, Act::Unmap, Act::Protect, Act::MoveOld, Act::FlushAll, Act::Prefix0];
            all.extend(of_users().into_iter().chain(acts.map(Scene::held)));
            all.extend([Act::MapPage, Act::MoveNew].map(|act| Scene { page: UNMAPPED, ..Scene::held(act) }));
        }
        By::List => all.extend(of_users()),
        By::Prefix1 => all.push(Scene::held(Act::MapFrame)),
        _ => {}
    }
    all
}

impl Scene {
    fn name(&self, by: By) -> u64 {
        name_of(by, self.page, self.set)
    }

    fn start(&self, rng: &mut Rng, by: By) -> Start {
        let (mut board, _) = gen::wild_board(rng, Edition::Fours, shape(WILD_SETS));
        board.words.fill(0);
        if by != By::Prefix1 {
            for index in 0..=READ_ONLY {
                let word = frame_word(page_of(By::User, index), index != READ_ONLY);
                board.words[(FIRST_FRAME + index) as usize] = word;
            }
        }
        board.slots[0] = slot_word(SEGMENT, true);
        board.slots[SLOT_READ_ONLY as usize] = slot_word(SEGMENT, false);
        let name = self.name(by);
        for (line, stand) in (0..).zip(self.stands) {
            gen::put(&mut board, self.set * LINES as u64 + line, stand.record(by, name, line).encode());
        }
        board.uses[self.set as usize] = self.matrix;
        board.tag = if by == By::Inserts || self.act == Act::Tagged { (true, name) } else { NO_TAG };
        match self.act {
            Act::FrameInUse => board.words[FIRST_FRAME as usize] = 2,
            Act::MapPage => board.words[(FIRST_FRAME + READ_ONLY) as usize] = 0,
            _ => {}
        }
        let [slots, words, records, cache, memory, _] = gen::offsets(rng);
        Start { fresh: false, board, offsets: [slots, words, records, cache, memory, FENCED_BEHIND] }
    }

    fn deed(&self, by: By) -> Deed {
        let name = self.name(by);
        let (own, page) = (access(by, name, self.act == Act::Store), name / LINES_PER_PAGE);
        let call = match self.act {
            Act::Use | Act::OtherLine if by == By::Inserts => {
                Call::LoadAndMap { line: line_of(by, name) + u64::from(self.act == Act::OtherLine) }
            }
            Act::Use | Act::Tagged | Act::Store | Act::FrameInUse | Act::OtherLine => own,
            Act::Large => large(own),
            Act::Crooked => crooked(own),
            Act::OtherSlot => by_other_slot(own),
            Act::Look => return Deed::Look { line: line_of(by, name) },
            Act::MapPage => Call::Map { page, frame: FIRST_FRAME + READ_ONLY, write: true },
            Act::MapFrame => Call::Map { page: page_of(By::User, 0), frame: FIRST_FRAME, write: true },
            Act::Unmap => Call::Unmap { page },
            Act::Protect => Call::Protect { page, write: true },
            Act::MoveOld => moves(page, page_of(By::User, UNMAPPED))[0],
            Act::MoveNew => moves(page_of(By::User, 0), page)[0],
            Act::FlushAll => Call::FlushAll,
            Act::Prefix0 => Call::SupervisorAccess { store: false, width: 1, global: self.set * LINE_BYTES, value: 0 },
        };
        match Item::of(&call, 1).filter(|_| by == By::List) {
            Some(item) => Deed::List(List::of(vec![item])),
            None => Deed::Call(call),
        }
    }
}

// ---------------------------------------------------------------------------------------------
// The runs
// ---------------------------------------------------------------------------------------------

/// Runs by one route, on fresh boards or on wild ones, in which lines are used by this. Gives how many.
pub fn runs(
    rng: &mut Rng,
    by: By,
    (fresh, manner): (bool, Manner),
    plant: Option<Plant>,
    coverage: &mut Coverage,
) -> Result<usize, Failure> {
    let mut run = |start: Start, deeds: &[Deed]| {
        stepped(start, deeds.len(), plant, coverage, |index, _| Step { deed: deeds[index].clone(), manner })
    };
    if fresh {
        let start = fresh_start(rng, by);
        let deeds = Script::of(by, &start.board);
        return run(start, &deeds).map(|()| 1);
    }
    let scenes = scenes(by);
    for scene in &scenes {
        run(scene.start(rng, by), &[scene.deed(by)])?;
    }
    Ok(scenes.len())
}

/// Gives how many boards were run: in the other edition, none.
pub fn sets(rng: &mut Rng, edition: Edition, plant: Option<Plant>, coverage: &mut Coverage) -> Result<usize, Failure> {
    if edition == Edition::Ones {
        return Ok(0);
    }
    let mut boards = 0;
    coverage.planned = Some(Planned::Sets);
    for way in ways() {
        for &by in sets::USES {
            boards += runs(rng, by, way, plant, coverage)?;
        }
    }
    coverage.planned = None;
    Ok(boards)
}
