//! Accesses for the comparison alone: each number by which a user access is refused, 1 aside, among others that are done.

use crate::board::Buffers;
use crate::ordinary::{LINES_PER_PAGE, LINE_BYTES, PAGE_BYTES, SEGMENT_BITS, SLOTS, USER_END};
use crate::patterns::{name_in, Case, World, SEED, SEGMENTS, SHAPE};
use crate::rng::Rng;
use crate::versions::Outcome;
use oaledva::ffi::{Access, Kind};
use oaledva::{Edition, Shape, SET_LINES};

/// Slot words whose segment may not be attached, so that they count as empty.
const NO_SEGMENT: [u32; 4] = [1, 2047 * 2 + 1, 4_190_208 * 2 + 1, u32::MAX];
const NO_WIDTH: [u32; 6] = [0, 3, 5, 8, 256, u32::MAX];
const NO_PROCESS: [u32; 3] = [8, 9, u32::MAX];
const KINDS: [u32; 5] = [0, 0, 1, 2, u32::MAX];
const ENDS: [u32; 6] = [0, 255, 256, 65_535, 65_536, u32::MAX];

/// A case, and the numbers and marks that it has to reach.
pub struct Refusals {
    pub case: Case,
    numbers: &'static [u64],
    marks: &'static [u64],
}

/// On boards with few lines and with many, with a tag pending, and with records such as no calls leave.
pub fn all(edition: Edition, length: usize) -> Vec<Refusals> {
    let set_lines = match edition {
        Edition::OnePlace => 1,
        Edition::SetsOfFour => SET_LINES,
    };
    let with = |lines| case(edition, length, lines, &format!("refusals, L = {lines}"));
    let mut pending = case(edition, length, SHAPE.lines, "refusals, a tag pending");
    pending.start.pending = Some(0x2000_0000);
    let wild = |length, name| {
        let mut case = case(edition, length, SHAPE.lines, name);
        case.wild = true;
        make_wild(&mut Rng(SEED), &mut case.start, set_lines);
        case
    };
    // So few that most sets are used once or not at all.
    let mut own = wild(length / 20, "refusals, a wild board's own lines");
    aim(&mut Rng(SEED), &mut own);
    let every = |case| Refusals { case, numbers: &[0, 2, 4, 5, 6, 7, 8, 9], marks: &[0, 1, 2, 3] };
    vec![
        every(with(set_lines)),
        every(with(64)),
        every(with(SHAPE.lines)),
        // Each line of memory has a record of its own here.
        Refusals { marks: &[0, 1, 2], ..every(with(Shape::LINES_MAX)) },
        every(wild(length, "refusals, a wild board")),
        every(own),
        Refusals { case: pending, numbers: &[2, 3], marks: &[0] },
    ]
}

impl Refusals {
    /// Whether each number and each mark came, and no other.
    pub fn reached(&self, outcome: &Outcome) -> Result<(), String> {
        let seen = |part: fn(u64) -> u64| {
            let mut seen: Vec<_> = outcome.answers.iter().map(|&answer| part(answer)).collect();
            seen.sort_unstable();
            seen.dedup();
            seen
        };
        let (numbers, marks) = (seen(|answer| answer >> 56), seen(|answer| answer >> 32 & 0xff));
        if numbers != self.numbers || marks != self.marks {
            return Err(format!("{}: it has numbers {numbers:?} and marks {marks:?}", self.case.name));
        }
        Ok(())
    }

    pub fn words(&self) -> String {
        format!("{}: numbers {:?}, marks {:?}", self.case.name, self.numbers, self.marks)
    }
}

pub fn case(edition: Edition, length: usize, lines: usize, name: &str) -> Case {
    let rng = &mut Rng(SEED);
    let shape = Shape { lines, ..SHAPE };
    let world = World::new(rng, shape);
    let mut start = world.board(rng, shape, edition).expect("the board takes these pages and segments");
    for word in NO_SEGMENT {
        let empty = start.slots.iter().position(|&word| word == 0).expect("most slots are empty");
        start.slots[empty] = word;
    }
    let accesses = (0..length).map(|_| access(rng, &world)).collect();
    Case { name: name_in(edition, name), edition, wild: false, start, accesses }
}

/// Each part of it is wrong now and then, and several parts may be.
fn access(rng: &mut Rng, world: &World) -> Access {
    let attached = rng.pick(&world.attached);
    let process = if rng.chance(40) { rng.pick(&NO_PROCESS) } else { attached.process as u32 };
    let kind = Kind { store: rng.pick(&KINDS) };
    let width = if rng.chance(60) { rng.pick(&NO_WIDTH) } else { 1 << rng.below(3) };
    // Process 0 has words that count as empty in its first slots.
    let slot = if rng.chance(60) { rng.below(2 * NO_SEGMENT.len()) } else { attached.slot };
    let slot = if rng.chance(30) { rng.below(SLOTS) } else { slot };
    let page = if rng.chance(60) { rng.below(world.pages.len()) } else { page_of(rng, world, attached.segment) };
    let at = rng.below(LINE_BYTES) as u32;
    let at = if rng.chance(60) { at } else { at & !width.wrapping_sub(1) };
    let offset = page * PAGE_BYTES + rng.below(LINES_PER_PAGE / 16) * LINE_BYTES;
    let address = (slot << SEGMENT_BITS | offset) as u32 | at;
    let address = if rng.chance(30) { address | USER_END } else { address };
    let value = if rng.chance(60) { rng.pick(&ENDS) } else { rng.next() as u32 >> (32 - 8 * width.clamp(1, 4)) };
    Access { process, kind, width, address, value }
}

/// A mapped page of a segment, by its number there.
fn page_of(rng: &mut Rng, world: &World, segment: usize) -> usize {
    let pages: Vec<_> = world.pages.iter().filter(|page| page.segment == segment).collect();
    rng.pick(&pages).number
}

/// Records that are valid and hold nothing, because they are not in their set or beyond memory, and such as say changed without
/// being valid; names that stand twice in a set; matrices of any bytes; pages in two frames, and frame words of no page.
fn make_wild(rng: &mut Rng, board: &mut Buffers, set_lines: usize) {
    let (sets, frames) = ((board.shape.lines / set_lines) as u64, board.shape.frames);
    let mut before = 0;
    for (at, record) in board.records.chunks_exact_mut(2).enumerate() {
        let set = (at / set_lines) as u64;
        let word = board.words[rng.below(frames)];
        let name = word / 4 * LINES_PER_PAGE as u64 + set % LINES_PER_PAGE as u64;
        let physical = rng.below(frames * LINES_PER_PAGE + frames * 16) as u64;
        record[0] = if rng.chance(500) { name / sets * sets + set } else { name };
        record[1] = physical * 8 + rng.below(8) as u64;
        if at % set_lines != 0 && rng.chance(250) {
            record[0] = before;
        }
        before = record[0];
    }
    for entry in &mut board.uses {
        *entry = if rng.chance(500) { 0 } else { rng.next() as u8 };
    }
    for _ in 0..frames / 16 {
        let (from, to) = (rng.below(frames), rng.below(frames));
        board.words[to] = board.words[from] ^ rng.below(4) as u64;
    }
}

/// Makes half of the accesses go to lines that the board's records name, whether they hold them or not.
fn aim(rng: &mut Rng, case: &mut Case) {
    let world = World::new(&mut Rng(SEED), case.start.shape);
    for access in &mut case.accesses {
        let name = case.start.records[2 * rng.below(case.start.shape.lines)];
        let global = name * LINE_BYTES as u64;
        let holders: Vec<_> = world.attached.iter().filter(|a| SEGMENTS[a.segment] == global >> SEGMENT_BITS).collect();
        if rng.chance(500) && !holders.is_empty() {
            let holder = rng.pick(&holders);
            let offset = global as u32 % (1 << SEGMENT_BITS) + access.address % LINE_BYTES as u32;
            access.process = holder.process as u32;
            access.address = (holder.slot << SEGMENT_BITS) as u32 | offset;
        }
    }
}
