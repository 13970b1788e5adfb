//! Random boards and calls. A board has a small world of segments, pages and lines, so that calls meet; calls are made with
//! an eye on the board, so that most of them get far; one in ten has an argument that is out of its range.

use crate::guarded::{Offsets, STARTS};
use crate::limits::*;
use crate::lists::{Item, List};
use crate::rng::Rng;
use crate::routes::{Manner, ROUTES};
use crate::sets;
use crate::trace::{Deed, Start, Step};
use model::{mapping, page_of_name, slot_read, Board, Call, Edition, Matrix, Shape, FRESH_MATRIX, NO_TAG};

/// The segments, slots, pages and lines that a run plays with.
pub struct World {
    pub segments: Vec<u64>,
    pub slots: Vec<u64>,
    /// Pages of each segment, by their index in it.
    pub indices: Vec<u64>,
    /// Lines of each page, by their index in it.
    pub lines: Vec<u64>,
}

impl World {
    pub fn new(rng: &mut Rng, edition: Edition, shape: &Shape) -> World {
        let sets = sets_of(edition, shape.lines.clamp(set_lines(edition), LINES_MAX));
        // Segments with equal low bits, the first and the last, or neighbours.
        let first = rng.pick(&[SEGMENT_FIRST, SEGMENT_FIRST, 0x12345, SEGMENT_LAST - 1]);
        let second = rng.pick(&[first + 1, SEGMENT_LAST, first ^ (1 << 14), first ^ (1 << 21)]);
        let mut segments = vec![first, second];
        if rng.percent(20) {
            segments.push(SEGMENT_FIRST + rng.below(SEGMENT_LAST - SEGMENT_FIRST + 1));
        }
        let mut indices = vec![0, rng.pick(&[1, 2, PAGES_PER_SEGMENT - 1])];
        if rng.percent(30) {
            indices.push(rng.below(PAGES_PER_SEGMENT));
        }
        World {
            segments,
            slots: vec![0, rng.pick(&[1, 2, 255]), SLOTS - 1],
            indices,
            // Lines that share a place, and the page's last.
            lines: vec![0, 1, sets % LINES_PER_PAGE, (sets + 1) % LINES_PER_PAGE, LINES_PER_PAGE - 1],
        }
    }

    fn page(&self, rng: &mut Rng) -> u64 {
        rng.pick(&self.segments) * PAGES_PER_SEGMENT + rng.pick(&self.indices)
    }

    fn name(&self, rng: &mut Rng) -> u64 {
        self.page(rng) * LINES_PER_PAGE + rng.pick(&self.lines)
    }

    pub fn pages(&self) -> impl Iterator<Item = u64> + '_ {
        let of = |segment: u64| self.indices.iter().map(move |index| segment * PAGES_PER_SEGMENT + index);
        self.segments.iter().flat_map(move |&segment| of(segment))
    }
}

// ---------------------------------------------------------------------------------------------
// Boards
// ---------------------------------------------------------------------------------------------

/// A small shape that keeps the limits; rarely a large one. Sets of four are few, so that they are full.
pub fn shape(rng: &mut Rng, edition: Edition) -> Shape {
    let most = if rng.percent(10) { 8 } else { 5 };
    let frames = 1 + rng.below(most);
    let uncached = if rng.percent(90) { rng.below(frames).min(rng.below(frames)) } else { rng.below(frames + 1) };
    let processes = if rng.percent(2) { PROCESSES_MAX } else { 1 + rng.below(3) };
    let sets = match rng.below(1000) {
        0..=3 => sets_of(edition, LINES_MAX),
        4..=49 => rng.pick(&[32, 64, 128, 256, 512, 1024]),
        _ if edition == Edition::Fours => 1 << rng.below(3),
        _ => 1 << rng.below(5),
    };
    Shape { frames, uncached, processes, lines: set_lines(edition) * sets }
}

pub fn offsets(rng: &mut Rng) -> Offsets {
    [0; 6].map(|_: usize| rng.below(STARTS as u64) as usize)
}

/// The name, but for its low bits, such that a record that stands there is at its place.
pub fn placed(board: &Board, name: u64, at: u64) -> u64 {
    name - name % sets_of(board.edition, board.shape.lines) + at / set_lines(board.edition)
}

/// A fresh board: slots and words 0, no record valid, nothing pending, matrices 0. All else may be any bytes; records may have
/// all of a held line but that they are valid.
pub fn fresh(rng: &mut Rng, edition: Edition, shape: Shape) -> Start {
    let mut board = Board::fresh_of(edition, shape);
    rng.fill(&mut board.memory);
    rng.fill(&mut board.cache);
    match rng.below(4) {
        0 => board.records.iter_mut().for_each(|word| *word = rng.next() & !1),
        1 => {
            for at in 0..shape.lines {
                let name = placed(&board, rng.below(NAMES_END), at);
                put(&mut board, at, (name, rng.below(LINES_PER_PAGE * shape.frames) * 8 + rng.below(4) * 2));
            }
        }
        _ => {}
    }
    if rng.percent(25) {
        board.tag.1 = rng.next();
    }
    Start { fresh: true, board, offsets: offsets(rng) }
}

/// A board that no sequence of calls reaches, or whose numbers and lengths disagree.
pub fn wild(rng: &mut Rng, edition: Edition) -> (Start, World) {
    let shape = shape(rng, edition);
    let (mut board, world) = wild_board(rng, edition, shape);
    if rng.percent(30) {
        spoil(rng, &mut board);
    }
    (Start { fresh: false, board, offsets: offsets(rng) }, world)
}

/// A board of this shape that no sequence of calls reaches.
pub fn wild_board(rng: &mut Rng, edition: Edition, shape: Shape) -> (Board, World) {
    let mut board = Board::fresh_of(edition, shape);
    let world = World::new(rng, edition, &board.shape);
    rng.fill(&mut board.memory);
    rng.fill(&mut board.cache);
    attach_all(rng, &world, &mut board);
    for frame in 0..board.words.len() {
        board.words[frame] = wild_word(rng, &world);
    }
    for at in 0..board.shape.lines {
        let record = wild_record(rng, &world, &board, at);
        put(&mut board, at, record);
    }
    board.uses.iter_mut().for_each(|matrix| *matrix = wild_matrix(rng));
    board.tag = match rng.below(12) {
        0..=7 => NO_TAG,
        8 => (false, rng.next()),
        9 => (true, wild_name(rng, &world, &board)),
        _ => (true, world.name(rng)),
    };
    (board, world)
}

/// Fills the slots, most of the world's and few others: with its segments, or any.
pub fn attach_all(rng: &mut Rng, world: &World, board: &mut Board) {
    for slot in 0..board.slots.len() {
        let played = world.slots.contains(&(slot as u64 % SLOTS));
        if rng.percent(if played { 80 } else { 2 }) {
            board.slots[slot] = wild_slot(rng, world);
        }
    }
}

/// Puts a record's two words there.
pub fn put(board: &mut Board, at: u64, words: (u64, u64)) {
    let at = 2 * at as usize;
    (board.records[at], board.records[at + 1]) = words;
}

/// Who was used after whom, in some order of uses; or any zeros and ones; or other bytes among them.
pub fn wild_matrix(rng: &mut Rng) -> Matrix {
    let bytes: &[u8] = match rng.below(4) {
        0 => return rng.pick(sets::orders()).matrix(),
        1 => &[0, 1],
        2 => &[0, 0, 1, 2, 0x80, 0xFF],
        _ => &[0, 0, 0, 0, 0, 1, 3, 0xFE],
    };
    FRESH_MATRIX.map(|row| row.map(|_| rng.pick(bytes)))
}

fn wild_slot(rng: &mut Rng, world: &World) -> u32 {
    let segment = match rng.below(8) {
        0 => rng.pick(&[1, SEGMENT_FIRST - 1, SEGMENT_LAST + 1, (1 << 22) + SEGMENT_FIRST, (1 << 31) - 1]),
        1 => rng.below(1 << 31),
        _ => rng.pick(&world.segments),
    };
    (segment * 2 + rng.below(2)) as u32
}

pub fn wild_word(rng: &mut Rng, world: &World) -> u64 {
    let page = world.page(rng);
    match rng.below(16) {
        0..=3 => 0,
        4 => page * 4 + 2 * rng.below(2),
        5 => rng.pick(&[1, 2, 3, u64::MAX, PAGE_FIRST * 4 - 1, (PAGE_LAST + 1) * 4 + 1]),
        6 => rng.pick(&[0, PAGE_FIRST - 1, PAGE_LAST + 1, 1 << 32, (1 << 32) + page]) * 4 + 1 + 2 * rng.below(2),
        7 => rng.next(),
        _ => page * 4 + 1 + 2 * rng.below(2),
    }
}

/// A name for a record: of the world, of prefix 0 or 1, of the page table region, or of no address at all.
fn wild_name(rng: &mut Rng, world: &World, board: &Board) -> u64 {
    let line = rng.below(board.shape.frames + 1) * LINES_PER_PAGE + rng.pick(&world.lines);
    let name = mapped_page(rng, world, board) * LINES_PER_PAGE + rng.pick(&world.lines);
    let any = rng.next();
    match rng.below(12) {
        0..=5 => name,
        6 | 7 => PREFIX1 / LINE_BYTES + line,
        8 => line,
        9 => PAGE_TABLE / LINE_BYTES + rng.below(1 << 30),
        10 => NAMES_END + rng.pick(&[0, name, any >> 24]),
        _ => rng.pick(&[u64::MAX, any, name + (1 << 63)]),
    }
}

fn wild_record(rng: &mut Rng, world: &World, board: &Board, at: u64) -> (u64, u64) {
    let frames = board.shape.frames;
    let mut name = wild_name(rng, world, board);
    if rng.percent(85) {
        // At its place, so that it may hold.
        name = placed(board, name, at);
    }
    let line_of_set = at % set_lines(board.edition);
    if line_of_set > 0 && rng.percent(15) {
        // A name twice in its set.
        name = board.record(at - 1 - rng.below(line_of_set)).name;
    }
    let mapped = mapping(&board.shape, &board.words, page_of_name(name));
    let (any, end) = (rng.next(), LINES_PER_PAGE * frames);
    let line = match rng.below(10) {
        0 => rng.pick(&[end, end + 1, 2 * end, (1 << 61) - 1, any >> 3]),
        1 => end - 1,
        // Few lines, so that two records have one.
        2..=5 => rng.below(frames) * LINES_PER_PAGE + rng.below(3),
        _ => match mapped {
            Some((frame, _)) => line_in(frame, name),
            None => name % end,
        },
    };
    match rng.below(12) {
        0 => (name, line * 8 + rng.below(4) * 2),
        1 => (rng.next(), any),
        2 => (0, 0),
        _ => (name, line * 8 + rng.below(4) * 2 + 1),
    }
}

/// Makes numbers and lengths disagree, or puts a number out of its limits: alone, so that number 1 must come from it, or with
/// lengths that don't agree either.
pub fn spoil(rng: &mut Rng, board: &mut Board) {
    let Shape { frames, uncached, lines, .. } = board.shape;
    if board.edition == Edition::Fours && rng.percent(20) {
        return spoil_sets(rng, board);
    }
    match rng.below(27) {
        0 => {
            board.shape.frames = 0;
            board.shape.uncached = 0;
            board.words.clear();
            board.memory.clear();
        }
        1 => board.shape.uncached = rng.pick(&[frames + 1, u64::MAX]),
        2 => set_processes(board, 0),
        3 | 4 => set_processes(board, PROCESSES_MAX + 1),
        // 512 times these wraps to 0 and to 512.
        5 => set_processes(board, 1 << 55),
        6 => set_processes(board, (1 << 55) + 1),
        7 => set_lines_to(board, 0),
        8 => set_lines_to(board, rng.pick(&[3, 5, 6, 12, 24])),
        9 if rng.percent(30) => set_lines_to(board, 2 * LINES_MAX),
        // Twice this, and sixteen times, wraps to 0.
        10 => set_lines_to(board, 1 << 63),
        11 => board.shape.frames = rng.pick(&[FRAMES_MAX + 1, 1 << 32, 1 << 52, u64::MAX]),
        12 => resize(rng, &mut board.slots),
        13 => resize(rng, &mut board.words),
        14 => resize(rng, &mut board.records),
        15 => resize(rng, &mut board.cache),
        16 => resize(rng, &mut board.memory),
        // All numbers and lengths right, but of another board.
        17 => board.shape.frames += 1,
        18 => board.shape.lines *= 2,
        19 => std::mem::swap(&mut board.shape.frames, &mut board.shape.lines),
        // Right in their low 32 bits.
        20 => board.shape.frames += 1 << 32,
        21 => board.shape.uncached += 1 << 32,
        22 => board.shape.lines += 1 << 32,
        _ => {
            let over = rng.pick(&[PROCESSES_MAX + 1, 2 * LINES_MAX]);
            let wrong = rng.pick(&[0, 3, over, SLOTS, frames + 1, lines - 1, uncached + 1, FRAMES_MAX, u64::MAX]);
            match rng.below(4) {
                0 => board.shape.frames = wrong,
                1 => board.shape.uncached = wrong,
                2 => board.shape.processes = wrong,
                _ => board.shape.lines = wrong,
            }
        }
    }
}

/// The same by what sets of four ask: too few lines, or another number of matrices.
fn spoil_sets(rng: &mut Rng, board: &mut Board) {
    match rng.below(5) {
        0 => set_lines_to(board, 1),
        1 => set_lines_to(board, 2),
        2 => {
            // As many as there are lines, or bytes.
            let count = rng.pick(&[1, MATRIX_BYTES / 4]) * board.shape.lines as usize;
            board.uses.resize(count, FRESH_MATRIX);
        }
        _ => resize(rng, &mut board.uses),
    }
}

/// Another P with the slots that 512 × P, as 64 bits, asks for.
pub fn set_processes(board: &mut Board, processes: u64) {
    board.shape.processes = processes;
    board.slots.resize(SLOTS.wrapping_mul(processes) as usize, 0);
}

/// Another L, likewise.
pub fn set_lines_to(board: &mut Board, lines: u64) {
    board.shape.lines = lines;
    board.records.resize(lines.wrapping_mul(2) as usize, 0);
    board.cache.resize(lines.wrapping_mul(LINE_BYTES) as usize, 0);
    board.uses.resize(matrices(board.edition, lines) as usize, FRESH_MATRIX);
}

fn resize<T: Clone + Default>(rng: &mut Rng, buffer: &mut Vec<T>) {
    let length = buffer.len();
    let other = rng.pick(&[0, length - 1, length - 1, length / 2, length + 1, length + 1, 2 * length]);
    buffer.resize(other, T::default());
}

// ---------------------------------------------------------------------------------------------
// Steps
// ---------------------------------------------------------------------------------------------

/// Any step: mostly a call, sometimes a list, a look or the entry of a page. `early` is for the first steps of a fresh board,
/// which should build something.
pub fn step(rng: &mut Rng, world: &World, board: &Board, early: bool) -> Step {
    let deed = match rng.below(100) {
        0..=7 => Deed::Look { line: physical_line(rng, world, board) },
        8..=11 => Deed::LookNumber { line: physical_line(rng, world, board) },
        12..=15 => Deed::Entry { page: entry_page(rng, world) },
        16..=19 => Deed::List(list(rng, world, board)),
        _ => Deed::Call(call(rng, world, board, early)),
    };
    Step { deed, manner: manner(rng) }
}

pub fn manner(rng: &mut Rng) -> Manner {
    Manner { route: rng.pick(&ROUTES).0, yes: yes(rng), null: rng.flip() }
}

/// A number that says yes.
fn yes(rng: &mut Rng) -> u32 {
    rng.pick(&[1, 1, 2, 0x8000_0000, u32::MAX])
}

pub fn call(rng: &mut Rng, world: &World, board: &Board, early: bool) -> Call {
    let good = if early && rng.percent(70) { early_call(rng, world, board) } else { good_call(rng, world, board) };
    if rng.percent(10) {
        bad_call(rng, world, board, good)
    } else {
        good
    }
}

fn early_call(rng: &mut Rng, world: &World, board: &Board) -> Call {
    if rng.flip() {
        attach(rng, world, board)
    } else {
        map(rng, world, board)
    }
}

fn good_call(rng: &mut Rng, world: &World, board: &Board) -> Call {
    if board.tag.0 && rng.percent(50) {
        return if rng.percent(80) { load_and_map(rng, world, board) } else { Call::DropTag };
    }
    match rng.below(100) {
        0..=38 => {
            let process = process(rng, board);
            user_access(rng, world, board, process)
        }
        39..=61 => supervisor_access(rng, world, board),
        62..=66 => attach(rng, world, board),
        67..=68 => Call::Detach { process: process(rng, board), slot: rng.pick(&world.slots) },
        69..=76 => map(rng, world, board),
        77..=80 => Call::Unmap { page: mapped_page(rng, world, board) },
        81..=85 => Call::Protect { page: mapped_page(rng, world, board), write: rng.flip() },
        86..=90 => move_page(rng, world, board),
        91..=92 => Call::FlushAll,
        93..=96 => Call::Tag { name: tag_name(rng, world, board) },
        97..=98 => load_and_map(rng, world, board),
        _ => Call::DropTag,
    }
}

fn process(rng: &mut Rng, board: &Board) -> u64 {
    rng.below(board.shape.processes.clamp(1, PROCESSES_MAX))
}

/// A byte of a line, a multiple of the width but for a few.
fn byte_and_width(rng: &mut Rng) -> (u64, u32) {
    let width = rng.pick(&[1, 2, 4, 4]);
    let byte = rng.below(LINE_BYTES);
    let aligned = rng.percent(95);
    (if aligned { byte - byte % u64::from(width) } else { byte }, width)
}

/// A value, mostly one that fits the width: any, the largest or a small one; else at the end of some width, or any at all.
fn value(rng: &mut Rng, width: u32) -> u32 {
    let random = rng.next() as u32;
    let largest = end_of_width(width).map_or(u32::MAX, |end| (end - 1) as u32);
    match rng.below(10) {
        0 => random,
        1 => rng.pick(&VALUES),
        2 => rng.pick(&[0, 1, 0x80, largest]),
        _ => random & largest,
    }
}

/// A user's access: mostly through a slot that is attached, to a line that is held or a page that is mapped.
pub fn user_access(rng: &mut Rng, world: &World, board: &Board, process: u64) -> Call {
    let (byte, mut width) = byte_and_width(rng);
    let segment_in = |slot: u64| {
        let word = board.slots.get((process * SLOTS + slot) as usize)?;
        slot_read(*word).map(|(segment, _)| segment)
    };
    let attached: Vec<u64> = world.slots.iter().copied().filter(|&slot| segment_in(slot).is_some()).collect();
    let mut slot = match rng.pick_any(&attached) {
        Some(slot) if rng.percent(95) => slot,
        _ => rng.pick(&world.slots),
    };
    let mapped = |index: u64| {
        let page = segment_in(slot).map(|segment| segment * PAGES_PER_SEGMENT + index);
        page.is_some_and(|page| frame_of_page(board, page).is_some())
    };
    let indices: Vec<u64> = world.indices.iter().copied().filter(|&index| mapped(index)).collect();
    let index = match rng.pick_any(&indices) {
        Some(index) if rng.percent(85) => index,
        _ => rng.pick(&world.indices),
    };
    let mut within = index * PAGE_BYTES + rng.pick(&world.lines) * LINE_BYTES + byte;
    match rng.below(100) {
        0 => (slot, within, width) = (SLOTS - 1, SEGMENT_SPAN - 1, 1),
        1..=30 => {
            let global = held_name(rng, board).unwrap_or(0).wrapping_mul(LINE_BYTES);
            let holding = attached.iter().find(|&&slot| segment_in(slot) == Some(global / SEGMENT_SPAN));
            (slot, within) = holding.map_or((slot, within), |&slot| (slot, global % SEGMENT_SPAN + byte));
        }
        _ => {}
    }
    let address = (slot * SEGMENT_SPAN + within) as u32;
    Call::UserAccess { process, store: rng.flip(), width, address, value: value(rng, width) }
}

/// A list, one in seven with too few or too many words or answers.
pub fn list(rng: &mut Rng, world: &World, board: &Board) -> List {
    let mut list = fitting_list(rng, world, board);
    let accesses = list.items.len();
    if rng.below(7) == 0 {
        let many = 2 * accesses + 1 + rng.below(20) as usize;
        match rng.below(7) {
            0 => list.answers = accesses.saturating_sub(1),
            1 => list.answers = accesses + 1,
            2 => list.answers = 0,
            3 => list.answers = many,
            4 => list.answers = ACCESS_WORDS * accesses,
            _ => {
                list.torn = (0..1 + rng.below(ACCESS_WORDS as u64 - 1)).map(|_| rng.next() as u32).collect();
                list.answers = accesses + rng.below(2) as usize;
            }
        }
    }
    list
}

/// A list with an answer for each access: of none, of one, two or a few, or of some tens.
pub fn fitting_list(rng: &mut Rng, world: &World, board: &Board) -> List {
    let length = match rng.below(20) {
        0 | 1 => 0,
        2..=5 => 1,
        6..=8 => 2,
        9..=16 => 3 + rng.below(7),
        _ => 10 + rng.below(30),
    };
    let mut items = Vec::new();
    for _ in 0..length {
        let item = match rng.pick_any(&items) {
            Some(earlier) if rng.percent(45) => again(rng, board, earlier),
            _ => item(rng, world, board),
        };
        items.push(item);
    }
    let stain = if rng.percent(80) { rng.next() } else { rng.pick(&[0, u64::MAX]) };
    let [first, second, ..] = offsets(rng);
    List { stain, offsets: [first, second], ..List::of(items) }
}

/// An access for a list: as one by itself, and as often bad.
pub fn item(rng: &mut Rng, world: &World, board: &Board) -> Item {
    let process = process(rng, board);
    let good = user_access(rng, world, board, process);
    let call = if rng.percent(10) { bad_call(rng, world, board, good) } else { good };
    let mut item = Item::of(&call, yes(rng)).expect("a user access");
    if rng.percent(1) {
        // Right in its low bits.
        item.process |= rng.pick(&[1 << 8, 1 << 16, 1 << 31]);
    }
    if item.store == 0 && rng.flip() {
        // As a load that brings none.
        item.value = 0;
    }
    item
}

/// An access to the line of an earlier one of its list, now and then by another process.
fn again(rng: &mut Rng, board: &Board, earlier: Item) -> Item {
    let (byte, width) = byte_and_width(rng);
    let process = if rng.percent(20) { process(rng, board) } else { earlier.process };
    let address = earlier.address - earlier.address % LINE_BYTES as u32 + byte as u32;
    let store = if rng.flip() { yes(rng) } else { 0 };
    Item { process, store, width, address, value: value(rng, width) }
}

fn supervisor_access(rng: &mut Rng, world: &World, board: &Board) -> Call {
    let (byte, mut width) = byte_and_width(rng);
    let Shape { frames, uncached, .. } = board.shape;
    let within = rng.pick(&world.lines) * LINE_BYTES + byte;
    let line = match rng.below(100) {
        0..=39 => mapped_page(rng, world, board) * PAGE_BYTES + within,
        // A line that is held, whatever it is, if an address has it.
        40..=54 => held_name(rng, board).map_or(0, |name| name % NAMES_END) * LINE_BYTES + byte,
        55..=79 => PREFIX1 + free_frame(rng, board) * PAGE_BYTES + within,
        80..=84 => PREFIX1 + rng.below(frames.clamp(1, 8) + 1) * PAGE_BYTES + within,
        85..=92 => rng.below(uncached.clamp(1, 8)) * PAGE_BYTES + within,
        93..=94 => rng.below(frames.clamp(1, 8) + 1) * PAGE_BYTES + within,
        // The last byte: of the uncached frames, of memory, of the ordinary addresses.
        95..=96 => {
            width = 1;
            let cached_end = PREFIX1 + frames.clamp(1, 8) * PAGE_BYTES;
            rng.pick(&[uncached.clamp(1, 8) * PAGE_BYTES, cached_end, PAGE_TABLE]) - 1
        }
        _ => {
            let at = rng.pick(&[
                PREFIX1 - 4,
                PREFIX1,
                PREFIX1_END - 4,
                PREFIX1_END,
                PAGE_TABLE - 4,
                PAGE_TABLE,
                GLOBAL_END - 4,
            ]);
            at + byte % 4
        }
    };
    Call::SupervisorAccess { store: rng.flip(), width, global: line, value: value(rng, width) }
}

fn attach(rng: &mut Rng, world: &World, board: &Board) -> Call {
    let (process, slot) = (process(rng, board), rng.pick(&world.slots));
    Call::Attach { process, slot, segment: rng.pick(&world.segments), write: rng.percent(70) }
}

fn map(rng: &mut Rng, world: &World, board: &Board) -> Call {
    let page = unmapped_page(rng, world, board);
    Call::Map { page, frame: free_frame(rng, board), write: rng.percent(60) }
}

/// A move, mostly of a page that is mapped to one that is not; now and then with the page of a tag or of a held line, with equal
/// pages, or with one at the ends of what is taken.
pub fn move_page(rng: &mut Rng, world: &World, board: &Board) -> Call {
    let (mut page, mut new_page) = (mapped_page(rng, world, board), unmapped_page(rng, world, board));
    let one = if rng.flip() { &mut page } else { &mut new_page };
    match rng.below(100) {
        0..=7 => *one = page_of_name(board.tag.1),
        8..=15 => *one = held_name(rng, board).map_or(*one, page_of_name),
        16..=23 => *one = rng.pick(&MOVE_PAGES),
        24..=27 => new_page = page,
        28..=29 => page = new_page,
        _ => {}
    }
    Call::Move { page, new_page }
}

fn load_and_map(rng: &mut Rng, world: &World, board: &Board) -> Call {
    let name = board.tag.1;
    let line = match frame_of_page(board, page_of_name(name)) {
        Some(frame) if rng.percent(70) => line_in(frame, name),
        _ => physical_line(rng, world, board),
    };
    Call::LoadAndMap { line }
}

/// Mostly a page that is mapped.
fn mapped_page(rng: &mut Rng, world: &World, board: &Board) -> u64 {
    let mapped: Vec<u64> = world.pages().filter(|&page| frame_of_page(board, page).is_some()).collect();
    match rng.pick_any(&mapped) {
        Some(page) if rng.percent(80) => page,
        _ => world.page(rng),
    }
}

/// Mostly a page that is not mapped.
fn unmapped_page(rng: &mut Rng, world: &World, board: &Board) -> u64 {
    let unmapped: Vec<u64> = world.pages().filter(|&page| frame_of_page(board, page).is_none()).collect();
    match rng.pick_any(&unmapped) {
        Some(page) if rng.percent(80) => page,
        _ => world.page(rng),
    }
}

fn frame_of_page(board: &Board, page: u64) -> Option<u64> {
    // Of a board that doesn't fit nothing is asked.
    let fits = board.fits();
    mapping(if fits { &board.shape } else { &NO_FRAMES }, &board.words, page).map(|(frame, _)| frame)
}

const NO_FRAMES: Shape = Shape { frames: 0, uncached: 0, processes: 0, lines: 0 };

/// Mostly a frame from U up whose word is 0.
fn free_frame(rng: &mut Rng, board: &Board) -> u64 {
    let Shape { frames, uncached, .. } = board.shape;
    let words = (0..).zip(&board.words);
    let free: Vec<u64> =
        words.filter(|&(frame, &word)| frame >= uncached && word == 0).map(|(frame, _)| frame).collect();
    match rng.pick_any(&free) {
        Some(frame) if rng.percent(75) => frame,
        _ => rng.below(frames.clamp(1, 8)),
    }
}

/// The name of a held line, if one is held.
fn held_name(rng: &mut Rng, board: &Board) -> Option<u64> {
    if !board.fits() {
        return None;
    }
    let start = rng.below(board.shape.lines);
    let mut places = (start..board.shape.lines).chain(0..start).take(64);
    places.find_map(|place| board.held(place)).map(|record| record.name)
}

fn tag_name(rng: &mut Rng, world: &World, board: &Board) -> u64 {
    match held_name(rng, board) {
        Some(name) if rng.percent(40) => name,
        _ => mapped_page(rng, world, board) * LINES_PER_PAGE + rng.pick(&world.lines),
    }
}

/// A physical line: of a held record, of the world's lines, the last, or one that is out.
fn physical_line(rng: &mut Rng, world: &World, board: &Board) -> u64 {
    let frames = board.shape.frames.clamp(1, 8);
    match rng.below(10) {
        0 => bad_line(rng, board),
        1 => LINES_PER_PAGE * frames - 1,
        2..=4 if board.fits() => board.record(rng.below(board.shape.lines)).line,
        5 => rng.below(LINES_PER_PAGE * frames),
        _ => rng.below(frames) * LINES_PER_PAGE + rng.pick(&world.lines),
    }
}

/// A page whose entry is asked: at an end of what is refused, one of the world's, or one that is probably out of range.
fn entry_page(rng: &mut Rng, world: &World) -> u64 {
    match rng.below(8) {
        0 => world.page(rng),
        1 => bad_page(rng, world),
        _ => rng.pick(&ENTRY_PAGES),
    }
}

// ----- out of range -----

fn bad_line(rng: &mut Rng, board: &Board) -> u64 {
    let any = rng.next();
    let end = LINES_PER_PAGE.wrapping_mul(board.shape.frames);
    // Eight times and sixteen times some of these wrap to a line of memory.
    rng.pick(&[end, end.wrapping_add(1), end.wrapping_mul(2), 1 << 28, 1 << 32, 1 << 60, 1 << 61, u64::MAX, any])
}

fn bad_process(rng: &mut Rng, board: &Board) -> u64 {
    let any = rng.next();
    let processes = board.shape.processes;
    rng.pick(&[processes, processes.wrapping_add(1), PROCESSES_MAX, 1 << 32, 1 << 55, u64::MAX, any])
}

fn bad_slot(rng: &mut Rng) -> u64 {
    let any = rng.next();
    rng.pick(&[SLOTS, SLOTS + 1, 2 * SLOTS, 1 << 32, 1 << 62, u64::MAX, any])
}

fn bad_segment(rng: &mut Rng) -> u64 {
    let any = rng.next();
    let wrapped = rng.pick(&[1 << 22, 1 << 31, 1 << 32, 1 << 42, 1 << 63]) + SEGMENT_FIRST;
    rng.pick(&[0, 1, SEGMENT_FIRST - 1, SEGMENT_LAST + 1, (1 << 22) - 1, wrapped, wrapped, u64::MAX, any])
}

fn bad_page(rng: &mut Rng, world: &World) -> u64 {
    let any = rng.next();
    let wrapped = rng.pick(&[1 << 32, 1 << 52, 1 << 56, 1 << 62]) + world.page(rng);
    let edge = rng.pick(&[0, 0xF_FFFF, 0x10_0000, 0x10_0001, PAGE_FIRST - 1, PAGE_LAST + 1, 0xFFFF_FFFF, 1 << 32]);
    rng.pick(&[edge, edge, wrapped, u64::MAX, any])
}

fn bad_frame(rng: &mut Rng, board: &Board) -> u64 {
    let any = rng.next();
    let Shape { frames, uncached, .. } = board.shape;
    let edge = rng.pick(&[uncached.wrapping_sub(1), frames, frames.wrapping_add(1)]);
    rng.pick(&[edge, edge, 0, FRAMES_MAX, 1 << 32, 1 << 52, u64::MAX, any])
}

fn bad_name(rng: &mut Rng, world: &World) -> u64 {
    let any = rng.next();
    let wrapped = rng.pick(&[1 << 40, 1 << 60, 1 << 63]) + world.name(rng);
    let (below, above) = (PAGE_FIRST * LINES_PER_PAGE - 1, (PAGE_LAST + 1) * LINES_PER_PAGE);
    rng.pick(&[0, PREFIX1 / LINE_BYTES, below, above, NAMES_END, wrapped, u64::MAX, any])
}

fn bad_width(rng: &mut Rng) -> u32 {
    rng.pick(&[0, 3, 5, 6, 8, 16, 0x101, 0x8000_0001, u32::MAX])
}

fn bad_address(rng: &mut Rng, address: u32) -> u32 {
    let any = rng.next() as u32;
    rng.pick(&[USER_END, USER_END | address, USER_END - 1, u32::MAX, 0xFFFF_FFFC, any])
}

fn bad_global(rng: &mut Rng, global: u64) -> u64 {
    let any = rng.next();
    let outside = rng.pick(&[GLOBAL_END, GLOBAL_END + global, (1 << 63) + global, u64::MAX - 3]);
    let table = PAGE_TABLE + any % (1 << 34) / 4 * 4;
    let prefix1 = PREFIX1 + any % PREFIX1 / 4 * 4;
    rng.pick(&[outside, outside, table, prefix1, any % GLOBAL_END, any])
}

/// The call with one argument that is probably out of its range. Flush all and drop tag have none.
fn bad_call(rng: &mut Rng, world: &World, board: &Board, good: Call) -> Call {
    let which = rng.below(3);
    match good {
        Call::UserAccess { process, store, width, address, value } => match which {
            0 => Call::UserAccess { process: bad_process(rng, board), store, width, address, value },
            1 => Call::UserAccess { process, store, width: bad_width(rng), address, value },
            _ => Call::UserAccess { process, store, width, address: bad_address(rng, address), value },
        },
        Call::SupervisorAccess { store, width, global, value } => match which {
            0 => Call::SupervisorAccess { store, width: bad_width(rng), global, value },
            _ => Call::SupervisorAccess { store, width, global: bad_global(rng, global), value },
        },
        Call::Attach { process, slot, segment, write } => match which {
            0 => Call::Attach { process: bad_process(rng, board), slot, segment, write },
            1 => Call::Attach { process, slot: bad_slot(rng), segment, write },
            _ => Call::Attach { process, slot, segment: bad_segment(rng), write },
        },
        Call::Detach { process, slot } => match which {
            0 => Call::Detach { process: bad_process(rng, board), slot },
            _ => Call::Detach { process, slot: bad_slot(rng) },
        },
        Call::Map { page, frame, write } => match which {
            0 => Call::Map { page: bad_page(rng, world), frame, write },
            _ => Call::Map { page, frame: bad_frame(rng, board), write },
        },
        Call::Unmap { .. } => Call::Unmap { page: bad_page(rng, world) },
        Call::Protect { write, .. } => Call::Protect { page: bad_page(rng, world), write },
        Call::Move { page, new_page } => match which {
            0 => Call::Move { page: bad_page(rng, world), new_page },
            1 => Call::Move { page, new_page: bad_page(rng, world) },
            _ => Call::Move { page: bad_page(rng, world), new_page: bad_page(rng, world) },
        },
        Call::Tag { .. } => Call::Tag { name: bad_name(rng, world) },
        Call::LoadAndMap { .. } => Call::LoadAndMap { line: bad_line(rng, board) },
        Call::FlushAll | Call::DropTag => good,
    }
}
