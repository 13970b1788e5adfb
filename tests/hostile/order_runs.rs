//! Runs that are reordered (CR 14): random ones, from fresh boards, from boards that calls have led to, and from sound ones that no
//! calls have made, or that were damaged and repaired; and planned ones that reach all of `order_sights.rs`, by every route. In sets of four no checker says what is
//! sound: such boards are built so.

use crate::coverage::{Coverage, Planned};
use crate::dump_gen::{asked, built_of, damage, fitting, Damage, End};
use crate::dumps::Dump;
use crate::gen::{self, World};
use crate::limits::*;
use crate::lists::Item;
use crate::order::{Brought, Next, Reordering};
use crate::order_faults::Wrong;
use crate::order_sights::met;
use crate::pairs::Failure;
use crate::plant::Plant;
use crate::rng::Rng;
use crate::routes::{Manner, ROUTES};
use crate::trace::{Deed, Start, Step};
use crate::ways;
use model::{dump, frame_word, mapping, prefix1_page, slot_word, Board, Call, Edition, Record, Shape, NO_TAG};

// ---------------------------------------------------------------------------------------------
// One reordering
// ---------------------------------------------------------------------------------------------

/// Draws the order, makes both runs, compares them, and counts what they met.
fn run(
    rng: &mut Rng,
    mut whole: Reordering,
    next: Next,
    cuts: [Cut; 2],
    coverage: &mut Coverage,
) -> Result<(), Failure> {
    whole.draw(rng, next);
    let manners: Vec<Manner> = (0..whole.calls.len()).map(|_| gen::manner(rng)).collect();
    let route = rng.pick(&ROUTES).0;
    let mixed = rng.percent(30);
    let manner = |at: usize| Manner { route: if mixed { manners[at].route } else { route }, ..manners[at] };
    whole.brought = cuts.map(|cut| (0..whole.calls.len()).map(|at| cut.brought(rng, manner(at))).collect());
    made(&whole, coverage)
}

fn made(whole: &Reordering, coverage: &mut Coverage) -> Result<(), Failure> {
    coverage.planned = Some(Planned::Orders);
    let both = whole.compared(coverage);
    coverage.planned = None;
    let both = both?;
    let routes = || whole.brought.iter().flatten().map(|brought| brought.manner.route);
    let route = routes().next().filter(|&route| routes().all(|other| other == route));
    if !whole.wrong.is_some_and(Wrong::is_rule) {
        coverage.count_order(whole.start.sort(), route, met(whole, &both));
    }
    Ok(())
}

/// How the accesses of a run are cut into lists.
#[derive(Clone, Copy)]
enum Cut {
    OneByOne,
    /// Each list as long as it may be.
    Whole,
    /// In lists of any length, and one by one.
    Any,
}

impl Cut {
    fn any(rng: &mut Rng) -> Cut {
        rng.pick(&[Cut::OneByOne, Cut::Whole, Cut::Any, Cut::Any])
    }

    fn brought(self, rng: &mut Rng, manner: Manner) -> Brought {
        match self {
            Cut::OneByOne => Brought { manner, listed: false, joins: false },
            Cut::Whole => Brought { manner, listed: true, joins: true },
            Cut::Any => Brought { manner, listed: rng.percent(75), joins: rng.percent(70) },
        }
    }
}

fn wrong_of(plant: Option<Plant>) -> Option<Wrong> {
    match plant {
        Some(Plant::Reordered(wrong)) => Some(wrong),
        _ => None,
    }
}

// ---------------------------------------------------------------------------------------------
// Random runs
// ---------------------------------------------------------------------------------------------

/// So many reorderings in an edition, half of them from fresh boards, or until one can be told from its run.
pub fn search(
    rng: &mut Rng,
    edition: Edition,
    reorderings: u64,
    plant: Option<Plant>,
    coverage: &mut Coverage,
) -> Result<(), Failure> {
    for index in 0..reorderings {
        let whole = random(rng, edition, index % 2 == 0, wrong_of(plant));
        let next = if rng.percent(25) { Next::Latest } else { Next::Any };
        let cuts = [Cut::any(rng), Cut::any(rng)];
        run(rng, whole, next, cuts, coverage)?;
    }
    Ok(())
}

fn random(rng: &mut Rng, edition: Edition, fresh: bool, wrong: Option<Wrong>) -> Reordering {
    // A frame for a page of each segment.
    let (uncached, processes) = (rng.below(2), 2 + rng.below(3));
    let frames = uncached + processes + 1;
    let sets = 1 << rng.below(if edition == Edition::Fours { 2 } else { 4 });
    let shape = Shape { frames, uncached, processes, lines: set_lines(edition) * sets };
    let dumped = !fresh && edition == Edition::Ones && rng.percent(35);
    let (mut board, world) = if dumped {
        built_of(rng, shape)
    } else {
        (gen::fresh(rng, edition, shape).board, World::new(rng, edition, &shape))
    };
    let world = widened(rng, world, processes);
    if !fresh && !dumped {
        board = sound(rng, edition, shape, &world);
    }
    board.tag = NO_TAG;
    let (mut first, mut calls) = (Vec::new(), Vec::new());
    if fresh {
        calls = first_calls(rng, &world, &shape);
    } else {
        for (process, slot, word) in roles(rng, &world, processes, true) {
            board.slots[(process * SLOTS + slot) as usize] = word;
        }
        if dumped && rng.flip() {
            let kinds = [Damage::Copied, Damage::LineTaken, Damage::Permission, Damage::Renamed, Damage::CacheByte];
            damage(rng, &mut board, &world, &kinds, End::Any);
        }
        if edition == Edition::Ones {
            let check = fitting(rng, &board, dump::check(&board).is_err());
            first.push(Step { deed: Deed::Dump(check), manner: gen::manner(rng) });
        }
    }
    let start = Start { fresh, board, offsets: gen::offsets(rng) };
    let (order, brought) = (Vec::new(), [Vec::new(), Vec::new()]);
    let mut whole = Reordering { start, first, calls, body: 0..0, order, brought, wrong };
    let mut board = whole.begun();
    assert!(edition == Edition::Fours || dump::check(&board).is_ok(), "a board is sound, or repaired");
    for call in &whole.calls {
        board.step(call);
    }
    let before = whole.calls.len();
    let (length, later) = (20 + rng.below(36), 4 + rng.below(8));
    for index in 0..length + later {
        let accesses = if index < length { 82 } else { 50 };
        let settles = board.tag.0 && rng.percent(30);
        let call = if !settles && rng.percent(accesses) {
            access(rng, &world, &board)
        } else {
            supervisor_call(rng, &world, &board)
        };
        board.step(&call);
        whole.calls.push(call);
    }
    whole.body = before..before + length as usize;
    whole
}

/// With a segment for each process, and one more; and mostly with a page of each and few lines, so that accesses meet.
fn widened(rng: &mut Rng, mut world: World, processes: u64) -> World {
    for bit in [13, 15, 16, 17] {
        if (world.segments.len() as u64) < processes + 1 {
            world.segments.push(world.segments[0] ^ (1 << bit));
        }
    }
    if rng.percent(75) {
        world.indices.truncate(1);
        world.lines = vec![world.lines[0], rng.pick(&world.lines)];
    }
    world
}

/// What is in slots: most processes write a segment of their own and read the last one, and some hold others; or all hold any of
/// three. Wild ones have words that hold nothing, too.
fn roles(rng: &mut Rng, world: &World, processes: u64, wild: bool) -> Vec<(u64, u64, u32)> {
    let shared = world.segments[processes as usize];
    let (mut roles, any) = (Vec::new(), rng.percent(30));
    for process in 0..processes {
        let own = if any { rng.pick(&world.segments[..3]) } else { world.segments[process as usize] };
        roles.push((process, world.slots[0], slot_word(own, rng.percent(if any { 50 } else { 90 }))));
        let other = if any { rng.pick(&world.segments[..3]) } else { shared };
        if rng.percent(80) {
            roles.push((process, world.slots[1], slot_word(other, rng.percent(if any { 40 } else { 4 }))));
        }
        if wild && rng.percent(50) {
            let segment: u32 = rng.pick(&[SEGMENT_FIRST - 1, SEGMENT_LAST + 1, 1, (1 << 31) - 1]) as u32;
            roles.push((process, world.slots[2], segment * 2 + u32::from(rng.percent(70))));
        } else if rng.percent(20) {
            roles.push((process, world.slots[2], slot_word(rng.pick(&world.segments), rng.percent(30))));
        }
    }
    roles
}

/// A page of each segment.
fn pages_of(rng: &mut Rng, world: &World) -> Vec<u64> {
    world.segments.iter().map(|segment| segment * PAGES_PER_SEGMENT + rng.pick(&world.indices)).collect()
}

/// Calls that attach and map, from a fresh board.
fn first_calls(rng: &mut Rng, world: &World, shape: &Shape) -> Vec<Call> {
    let mut calls = Vec::new();
    for (process, slot, word) in roles(rng, world, shape.processes, false) {
        calls.push(Call::Attach { process, slot, segment: u64::from(word / 2), write: word % 2 == 1 });
    }
    for (frame, page) in (shape.uncached..shape.frames).zip(pages_of(rng, world)) {
        calls.push(Call::Map { page, frame, write: rng.percent(85) });
    }
    calls
}

/// An access as a list may have it, one in ten bad; half of them to a line's first bytes, so that they meet.
fn access(rng: &mut Rng, world: &World, board: &Board) -> Call {
    let Item { process, store, width, mut address, value } = gen::item(rng, world, board);
    if rng.flip() && address % width.max(1) == 0 {
        address -= address % LINE_BYTES as u32;
    }
    let process = process.min(u64::from(u32::MAX));
    let (store, value) = (store != 0, if store != 0 { value } else { 0 });
    Call::UserAccess { process, store, width, address, value }
}

/// Any other call; more often than elsewhere one that attaches or detaches, and for writing mostly a process's own segment.
fn supervisor_call(rng: &mut Rng, world: &World, board: &Board) -> Call {
    if !board.tag.0 && rng.percent(25) {
        let (process, slot) = (rng.below(board.shape.processes), rng.pick(&world.slots));
        if rng.percent(40) {
            return Call::Detach { process, slot };
        }
        return Call::Attach { process, slot, segment: rng.pick(&world.segments), write: rng.percent(35) };
    }
    loop {
        match gen::call(rng, world, board, false) {
            Call::UserAccess { .. } => {}
            Call::Attach { process, slot, segment, write } => {
                let own = world.segments.get(process as usize) == Some(&segment);
                return Call::Attach { process, slot, segment, write: write && (own || rng.percent(25)) };
            }
            other => return other,
        }
    }
}

/// A sound board, in either edition: with lines of mapped pages and of prefix 1, some changed, records that hold nothing, and
/// matrices of any bytes.
fn sound(rng: &mut Rng, edition: Edition, shape: Shape, world: &World) -> Board {
    let mut board = Board::fresh_of(edition, shape);
    rng.fill(&mut board.memory);
    rng.fill(&mut board.cache);
    for (frame, page) in (shape.uncached..shape.frames).zip(pages_of(rng, world)) {
        board.words[frame as usize] = match rng.below(16) {
            0 => 0,
            1 => rng.pick(&[2, u64::MAX, PAGE_FIRST * 4 - 1]),
            _ => frame_word(page, rng.percent(85)),
        };
    }
    let sets = sets_of(edition, shape.lines);
    for at in 0..shape.lines {
        let frame = shape.uncached + rng.below(shape.frames - shape.uncached);
        let word = board.words[frame as usize];
        let place = at / set_lines(edition);
        let within = (place + sets * rng.below(LINES_PER_PAGE / sets.min(LINES_PER_PAGE))) % LINES_PER_PAGE;
        let page = if word == 0 { prefix1_page(frame) } else { word / 4 };
        let write = match mapping(&shape, &board.words, page) {
            Some((of, write)) if of == frame => write,
            _ if word == 0 => true,
            _ => continue,
        };
        let (name, line) = (page * LINES_PER_PAGE + within, line_in(frame, within));
        let held = (0..at).filter_map(|at| board.held(at)).any(|record| record.line == line || record.name == name);
        let valid = !held && rng.percent(75);
        let record = Record { name, line, changed: rng.percent(45), write, valid };
        gen::put(&mut board, at, record.encode());
        if !record.changed {
            let bytes = board.memory[line_bytes(line)].to_vec();
            board.cache[line_bytes(at)].copy_from_slice(&bytes);
        }
    }
    board.uses.iter_mut().for_each(|matrix| *matrix = gen::wild_matrix(rng));
    board
}

// ---------------------------------------------------------------------------------------------
// Planned runs
// ---------------------------------------------------------------------------------------------

/// Segments that process 0 writes and process 2 reads; that processes 1 and 3 write; and that all read.
const OWN: u64 = SEGMENT_FIRST;
const OTHER: u64 = SEGMENT_LAST;
const SHARED: u64 = 0x1_2345;

/// Their frames, and one that is free; frame 0 is below U.
const OWN_FRAME: u64 = 1;
const OTHER_FRAME: u64 = 2;
const SHARED_FRAME: u64 = 3;
const FREE_FRAME: u64 = 4;

const PROCESSES: u64 = 4;
const SETS: u64 = 2;

fn shape(edition: Edition) -> Shape {
    Shape { frames: FREE_FRAME + 1, uncached: 1, processes: PROCESSES, lines: set_lines(edition) * SETS }
}

fn page(segment: u64) -> u64 {
    segment * PAGES_PER_SEGMENT
}

/// In which slots they are.
const SLOTS_OF: [(u64, u64, u64, bool); 8] = [
    (0, 0, OWN, true),
    (0, 1, SHARED, false),
    (1, 0, OTHER, true),
    (1, 1, SHARED, false),
    (2, 0, OWN, false),
    (2, 2, SHARED, false),
    (3, 3, SHARED, false),
    (3, SLOTS - 1, OTHER, true),
];

fn load(process: u64, slot: u64, line: u64) -> Call {
    let address = (slot * SEGMENT_SPAN + line * LINE_BYTES) as u32;
    Call::UserAccess { process, store: false, width: 4, address, value: 0 }
}

fn store(process: u64, slot: u64, line: u64, value: u32) -> Call {
    match load(process, slot, line) {
        Call::UserAccess { process, width, address, .. } => {
            Call::UserAccess { process, store: true, width, address, value }
        }
        other => other,
    }
}

/// An access that each number but 3 and 9 refuses.
fn refused(process: u64, number: u32) -> Call {
    let with = |width, address, value| Call::UserAccess { process, store: true, width, address, value };
    match number {
        2 => with(1, 0, 0x100),
        4 => with(4, 2, 1),
        5 => with(4, USER_END, 1),
        6 => load(process, 9, 0),
        7 => store(process, 1, 0, 1),
        _ => store(process, 0, 5 * LINES_PER_PAGE, 1),
    }
}

fn global(segment: u64, line: u64) -> u64 {
    page(segment) * PAGE_BYTES + line * LINE_BYTES
}

fn supervisor(global: u64, value: Option<u32>) -> Call {
    Call::SupervisorAccess { store: value.is_some(), width: 4, global, value: value.unwrap_or(0) }
}

/// The calls that lead to a board on which the rest can be done, from a fresh one.
fn leading() -> Vec<Call> {
    let map = |(segment, frame): (u64, u64)| Call::Map { page: page(segment), frame, write: true };
    let mut calls = [(OWN, OWN_FRAME), (OTHER, OTHER_FRAME), (SHARED, SHARED_FRAME)].map(map).to_vec();
    calls.extend(SLOTS_OF.map(|(process, slot, segment, write)| Call::Attach { process, slot, segment, write }));
    calls.extend((0..6).map(|line| supervisor(global(SHARED, line), Some(0x5EED + line as u32))));
    calls
}

/// A sound board on which it can be done, too: no calls have made it.
fn built(rng: &mut Rng, edition: Edition) -> Board {
    let mut board = Board::fresh_of(edition, shape(edition));
    rng.fill(&mut board.memory);
    rng.fill(&mut board.cache);
    for (process, slot, segment, write) in SLOTS_OF {
        board.slots[(process * SLOTS + slot) as usize] = slot_word(segment, write);
    }
    // Words that hold nothing.
    for process in 0..2 {
        board.slots[(process * SLOTS + 8) as usize] = (SEGMENT_FIRST as u32 - 1) * 2 + 1;
    }
    for (segment, frame) in [(OWN, OWN_FRAME), (OTHER, OTHER_FRAME), (SHARED, SHARED_FRAME)] {
        board.words[frame as usize] = frame_word(page(segment), true);
    }
    let pages = [page(OWN), page(OTHER), prefix1_page(FREE_FRAME), page(SHARED)];
    for at in 0..board.shape.lines {
        // A line of each page at most in a set, those of the first two first.
        let (place, index) = (at / set_lines(edition), (at % set_lines(edition) + at / set_lines(edition)) % 4);
        let frame = [OWN_FRAME, OTHER_FRAME, FREE_FRAME, SHARED_FRAME][index as usize];
        let (name, line) = (pages[index as usize] * LINES_PER_PAGE + place, line_in(frame, place));
        let changed = index != 1;
        gen::put(&mut board, at, Record { name, line, changed, write: true, valid: true }.encode());
        if !changed {
            let bytes = board.memory[line_bytes(line)].to_vec();
            board.cache[line_bytes(at)].copy_from_slice(&bytes);
        }
    }
    board.uses.iter_mut().for_each(|matrix| *matrix = gen::wild_matrix(rng));
    board
}

/// What is reordered: accesses that cross, and every kind of supervisor call between them. Lines of even numbers have the first
/// place.
fn crossing() -> Vec<Call> {
    let attach = |segment, write| Call::Attach { process: 1, slot: 4, segment, write };
    let detach = Call::Detach { process: 1, slot: 4 };
    let protect = |segment, write| Call::Protect { page: page(segment), write };
    let moved = |from, to| Call::Move { page: page(OWN) + from, new_page: page(OWN) + to };
    let tag = Call::Tag { name: page(OWN) * LINES_PER_PAGE + 3 };
    let meet = |value: u32| [store(0, 0, 0, value), store(1, 0, 0, value + 1), load(0, 0, 0), load(1, 0, 0)];
    let mut calls = vec![
        // Each beside the other, and both on one line of what both read.
        store(0, 0, 0, 0x101),
        load(1, 0, 0),
        load(0, 0, 0),
        store(1, 0, 1, 0x102),
        load(0, 1, 2),
        load(1, 1, 2),
        store(1, 0, 0, 0x103),
        store(0, 0, 1, 0x104),
        supervisor(global(OTHER, 0), None),
        // Pushed out in one order.
        store(0, 0, 0, 0x111),
        load(1, 0, 0),
        load(1, 0, 2),
        load(1, 0, 4),
        load(1, 0, 6),
        load(0, 0, 0),
        Call::FlushAll,
        // Only some are strangers.
        load(2, 0, 0),
        store(0, 0, 0, 0x121),
        load(2, 0, 0),
        store(0, 0, 0, 0x122),
        store(3, SLOTS - 1, 0, 0x123),
        store(1, 0, 0, 0x124),
        load(3, SLOTS - 1, 0),
        supervisor(global(OWN, 0), Some(0x131)),
        load(0, 0, 0),
        store(1, 0, 2, 0x132),
        store(PROCESSES, 0, 0, 0x133),
        load(PROCESSES + 1, 0, 0),
        store(0, 0, 0, 0x134),
        supervisor(PREFIX1 + FREE_FRAME * PAGE_BYTES, Some(0x141)),
    ];
    // Refused by each number; where a board has words that hold nothing, they are in slot 8.
    let numbers = [2, 4, 5, 6, 7, 8];
    calls.extend(numbers.map(|number| refused(0, number)).into_iter().chain([load(0, 8, 0), load(0, 0, 0)]));
    calls.extend(numbers.map(|number| refused(1, number)).into_iter().chain([load(1, 8, 0), store(1, 0, 0, 0x142)]));
    calls.extend([protect(OWN, false), protect(OTHER, false)]);
    calls.extend(meet(0x151));
    calls.extend([protect(OWN, true), protect(OTHER, true)]);
    calls.extend(meet(0x153));
    calls.push(tag);
    calls.extend(meet(0x155));
    calls.push(Call::LoadAndMap { line: line_in(OWN_FRAME, 3) });
    calls.extend(meet(0x157));
    calls.extend([tag, load(1, 0, 0), load(0, 0, 0), Call::DropTag]);
    calls.extend(meet(0x159));
    calls.push(Call::Map { page: page(OWN) + 1, frame: FREE_FRAME, write: true });
    calls.extend(meet(0x15B));
    calls.push(moved(1, 2));
    calls.extend(meet(0x15D));
    calls.push(Call::Unmap { page: page(OWN) + 2 });
    calls.extend(meet(0x15F));
    calls.push(supervisor(0, Some(0x161)));
    calls.extend(meet(0x162));
    // Strangers until an attach, from a detach on, and from an attach on.
    calls.push(attach(OWN, false));
    calls.extend([load(1, 4, 0), store(0, 0, 0, 0x171), load(1, 4, 0), store(0, 0, 0, 0x172)]);
    calls.push(detach);
    calls.extend(meet(0x173));
    calls.push(attach(OWN, true));
    calls.extend([store(1, 4, 0, 0x175), store(0, 0, 0, 0x176), store(1, 4, 0, 0x177), load(0, 0, 0)]);
    calls.push(attach(SHARED, false));
    calls.extend([load(1, 4, 0), load(0, 0, 0)]);
    // What stays at the second place.
    calls.extend([Call::FlushAll, store(0, 0, 1, 0x181)]);
    calls.extend([1, 3, 5, 7].map(|line| store(1, 0, line, 0x190 + line as u32)));
    calls.push(load(1, 0, 5));
    calls
}

/// Calls after it: at the first place only.
fn later() -> Vec<Call> {
    vec![load(0, 0, 0), supervisor(global(OTHER, 0), None), load(1, 0, 2), load(2, 2, 2), store(0, 0, 2, 0x1A1)]
}

/// How the accesses of the two runs are cut, and whether all calls come by several routes in turn.
const CUTS: [([Cut; 2], bool); 5] = [
    ([Cut::OneByOne, Cut::OneByOne], false),
    ([Cut::Whole, Cut::Whole], false),
    ([Cut::Whole, Cut::OneByOne], false),
    ([Cut::OneByOne, Cut::Whole], false),
    ([Cut::Any, Cut::Any], true),
];

/// Gives how many runs were reordered.
pub fn planned(
    rng: &mut Rng,
    edition: Edition,
    plant: Option<Plant>,
    coverage: &mut Coverage,
) -> Result<usize, Failure> {
    let mut pairs = 0;
    for (fresh, manner) in ways() {
        for (cuts, mixed) in CUTS {
            let (mut start, mut calls) = if fresh {
                (gen::fresh(rng, edition, shape(edition)), leading())
            } else {
                (Start { fresh: false, board: built(rng, edition), offsets: gen::offsets(rng) }, Vec::new())
            };
            start.board.tag = NO_TAG;
            let mut first = Vec::new();
            if !fresh && edition == Edition::Ones {
                assert_eq!(dump::check(&start.board), Ok(()), "a board is built sound");
                first.push(Step { deed: Deed::Dump(Dump::of(false, asked(&start.board))), manner });
            }
            let before = calls.len();
            calls.extend(crossing());
            let body = before..calls.len();
            calls.extend(later());
            let brought = [Vec::new(), Vec::new()];
            let mut whole =
                Reordering { start, first, calls, body, order: Vec::new(), brought, wrong: wrong_of(plant) };
            whole.draw(rng, Next::Latest);
            let manner =
                |at: usize| if mixed { Manner { route: ROUTES[at % ROUTES.len()].0, ..manner } } else { manner };
            whole.brought = cuts.map(|cut| (0..whole.calls.len()).map(|at| cut.brought(rng, manner(at))).collect());
            made(&whole, coverage)?;
            pairs += 1;
        }
    }
    Ok(pairs)
}
