//! The board and the accesses: what is mapped and attached, and which accesses a pattern makes of it.

use crate::board::Buffers;
use crate::ordinary::{LINES_PER_PAGE, LINE_BYTES, ONE_PLACE, PAGE_BYTES, SEGMENT_BITS, SETS_OF_FOUR, SLOTS};
use crate::ours;
use crate::rng::Rng;
use oaledva::ffi::{Access, Answer};
use oaledva::{Board, Edition, Refusal, Shape};

pub const SHAPE: Shape = Shape { frames: 256, uncached: 4, processes: 8, lines: 4096 };

/// The first and the last that may be attached, and others between.
pub const SEGMENTS: [u64; 6] = [2048, 2049, 0x12345, 1_000_000, 3_000_003, 4_190_207];
pub const ATTACHED_BY_EACH: usize = 4;
const READ_ONLY_PAGES: usize = 8;
/// Lines that are used most: a quarter of the places.
const HOT_LINES: usize = 1024;
const STORES: usize = 333;
/// The page that is copied; it may be written, as the other one may.
const COPIED: usize = 1;
const WORD_BYTES: usize = 4;
pub const SEED: u64 = 12;
/// How many accesses are made before the first that counts: half over all lines, half as the pattern's own.
pub const WARMING: usize = 60_000;

/// A mapped page.
#[derive(Clone, Copy)]
pub struct Page {
    pub segment: usize,
    /// In its segment.
    pub number: usize,
    pub write: bool,
}

/// A segment in a slot of a process.
#[derive(Clone, Copy)]
pub struct Attached {
    pub process: usize,
    pub slot: usize,
    pub segment: usize,
    pub write: bool,
}

/// What is mapped and attached.
pub struct World {
    pub pages: Vec<Page>,
    pub attached: Vec<Attached>,
    /// Those of each segment, all of them and the writable ones.
    holders: Vec<[Vec<Attached>; 2]>,
}

impl World {
    /// Each frame from U up has a page. The segments share them evenly, and pages that follow one another have lines at places
    /// that do, so that every place has about as many lines.
    pub fn new(rng: &mut Rng, shape: Shape) -> World {
        let mapped = shape.frames - shape.uncached;
        let page = |number| Page {
            segment: number * SEGMENTS.len() / mapped,
            number,
            write: number % (mapped / READ_ONLY_PAGES) != 0,
        };
        let attached: Vec<_> = (0..shape.processes).flat_map(|process| attached_by(rng, process)).collect();
        let of = |segment, write: bool| {
            attached.iter().filter(|a| a.segment == segment && (a.write || !write)).copied().collect()
        };
        let holders = (0..SEGMENTS.len()).map(|segment| [of(segment, false), of(segment, true)]).collect();
        World { pages: (0..mapped).map(page).collect(), holders, attached }
    }

    /// The board, made by the supervisor's calls. Frames have their pages in no order, so that a search among the frame words
    /// is as often long as short.
    pub fn board(&self, rng: &mut Rng, shape: Shape, edition: Edition) -> Result<Buffers, Refusal> {
        let mut board = match edition {
            Edition::OnePlace => Board::new(shape)?,
            Edition::SetsOfFour => Board::sets_of_four(shape)?,
        };
        let mut frames: Vec<_> = (shape.uncached..shape.frames).collect();
        rng.shuffle(&mut frames);
        for (page, frame) in self.pages.iter().zip(frames) {
            let first = SEGMENTS[page.segment] << (SEGMENT_BITS - PAGE_BYTES.trailing_zeros());
            board.map(first + page.number as u64, frame, page.write)?;
        }
        for a in &self.attached {
            board.attach(a.process, a.slot, SEGMENTS[a.segment], a.write)?;
        }
        let mut buffers = Buffers::of(&board);
        rng.fill(&mut buffers.memory);
        Ok(buffers)
    }

    fn any_line(&self, rng: &mut Rng) -> Line {
        Line { page: rng.below(self.pages.len()), number: rng.below(LINES_PER_PAGE) }
    }

    /// An access to a line, by a process that holds its segment. It is done: a page that is read-only is only loaded from, and a
    /// store is made through a slot that allows it.
    fn access(&self, rng: &mut Rng, kinds: Kinds, line: Line) -> Access {
        let page = self.pages[line.page];
        let store = kinds != Kinds::Loads && rng.chance(STORES) && page.write;
        let Attached { process, slot, .. } = rng.pick(&self.holders[page.segment][usize::from(store)]);
        let width = if kinds != Kinds::Loads { 1 << rng.below(3) } else { 4 };
        let in_line = rng.below(LINE_BYTES / width) * width;
        let offset = page.number * PAGE_BYTES + line.number * LINE_BYTES + in_line;
        let (width, address) = (width as u32, (slot << SEGMENT_BITS | offset) as u32);
        if store {
            Access::store(process, width, address, rng.next() as u32 >> (32 - 8 * width))
        } else {
            Access::load(process, width, address)
        }
    }

    /// Access number `at` of a process that copies a page into another of the same segment, word by word, again and again. The
    /// pages are as far apart as the cache has lines, so that their lines have the same places.
    fn copying(&self, rng: &mut Rng, at: usize) -> Access {
        let store = at % 2 == 1;
        let page = if store { COPIED + SHAPE.lines / LINES_PER_PAGE } else { COPIED };
        let Attached { process, slot, .. } = self.holders[self.pages[page].segment][usize::from(true)][0];
        let offset = page * PAGE_BYTES + at / 2 * WORD_BYTES % PAGE_BYTES;
        let address = (slot << SEGMENT_BITS | offset) as u32;
        if store {
            Access::store(process, WORD_BYTES as u32, address, rng.next() as u32)
        } else {
            Access::load(process, WORD_BYTES as u32, address)
        }
    }
}

/// The segments that a process holds, in slots anywhere; one of them it may only read.
fn attached_by(rng: &mut Rng, process: usize) -> Vec<Attached> {
    let mut slots: Vec<_> = (0..SLOTS).collect();
    rng.shuffle(&mut slots);
    let attached = |(nth, slot): (usize, usize)| Attached {
        process,
        slot,
        segment: (process + nth) % SEGMENTS.len(),
        write: nth != 0,
    };
    slots.into_iter().take(ATTACHED_BY_EACH).enumerate().map(attached).collect()
}

/// A line of a mapped page.
#[derive(Clone, Copy)]
struct Line {
    page: usize,
    number: usize,
}

/// Lines that have each a place of its own, of pages all over memory.
fn hot_lines(rng: &mut Rng, world: &World, shape: Shape) -> Vec<Line> {
    let mut lines: Vec<_> = (0..world.pages.len() * LINES_PER_PAGE).collect();
    rng.shuffle(&mut lines);
    let mut taken = vec![false; shape.lines];
    lines.retain(|line| !std::mem::replace(&mut taken[line % shape.lines], true));
    lines.truncate(HOT_LINES);
    lines.into_iter().map(|line| Line { page: line / LINES_PER_PAGE, number: line % LINES_PER_PAGE }).collect()
}

/// What a pattern's accesses are.
#[derive(Clone, Copy, PartialEq, Eq)]
pub enum Kinds {
    /// Loads and stores of 1, 2 and 4 bytes, two loads to a store.
    Mixed,
    /// Loads of 4 bytes.
    Loads,
    /// A load of 4 bytes from one page, a store of 4 bytes to the same place in another, and so on.
    Copying,
}

/// A pattern that is timed. Some of its accesses go to any line at all, by so many thousandths; the others go to the lines that
/// are used most. The fewer go anywhere, the more often a line is held. With sets of four more may, for as many hits.
pub struct Pattern {
    pub name: &'static str,
    pub kinds: Kinds,
    anywhere: usize,
    anywhere_in_sets: usize,
}

pub const PATTERNS: [Pattern; 8] = [
    Pattern { name: "mixed-99", kinds: Kinds::Mixed, anywhere: 8, anywhere_in_sets: 10 },
    Pattern { name: "mixed-90", kinds: Kinds::Mixed, anywhere: 86, anywhere_in_sets: 104 },
    Pattern { name: "mixed-50", kinds: Kinds::Mixed, anywhere: 443, anywhere_in_sets: 488 },
    Pattern { name: "mixed-6", kinds: Kinds::Mixed, anywhere: 1000, anywhere_in_sets: 1000 },
    Pattern { name: "loads-99", kinds: Kinds::Loads, anywhere: 8, anywhere_in_sets: 10 },
    Pattern { name: "loads-90", kinds: Kinds::Loads, anywhere: 86, anywhere_in_sets: 104 },
    Pattern { name: "loads-50", kinds: Kinds::Loads, anywhere: 443, anywhere_in_sets: 488 },
    Pattern { name: "loads-6", kinds: Kinds::Loads, anywhere: 1000, anywhere_in_sets: 1000 },
];

/// Two busy pages that have the same places. It shows what sets of four are for, and is told by itself.
pub const TWO_PAGES: Pattern = Pattern { name: "two-pages", kinds: Kinds::Copying, anywhere: 0, anywhere_in_sets: 0 };

/// A board to begin with, and the accesses to make.
pub struct Case {
    pub name: String,
    pub edition: Edition,
    /// Whether its records are such as no calls leave.
    pub wild: bool,
    pub start: Buffers,
    pub accesses: Vec<Access>,
}

impl Pattern {
    pub fn named(word: &str) -> Result<&'static Pattern, String> {
        all_patterns().find(|pattern| pattern.name == word).ok_or(format!("there is no pattern '{word}'"))
    }

    /// The board is warm: accesses over all lines, then such as the pattern's own, were made before.
    pub fn case(&self, edition: Edition, length: usize) -> Case {
        let rng = &mut Rng(SEED);
        let world = World::new(rng, SHAPE);
        let mut start = world.board(rng, SHAPE, edition).expect("the board takes these pages and segments");
        let hot = hot_lines(rng, &world, SHAPE);
        let anywhere = match edition {
            Edition::OnePlace => self.anywhere,
            Edition::SetsOfFour => self.anywhere_in_sets,
        };
        for anywhere in [1000, anywhere] {
            let accesses = self.accesses(rng, &world, &hot, anywhere, WARMING / 2);
            let answers = &mut vec![Answer::NONE; accesses.len()];
            match edition {
                Edition::OnePlace => ours::singles::<ONE_PLACE>(&mut start, &accesses, answers),
                Edition::SetsOfFour => ours::singles::<SETS_OF_FOUR>(&mut start, &accesses, answers),
            }
        }
        let accesses = self.accesses(rng, &world, &hot, anywhere, length);
        Case { name: name_in(edition, self.name), edition, wild: false, start, accesses }
    }

    fn accesses(&self, rng: &mut Rng, world: &World, hot: &[Line], anywhere: usize, length: usize) -> Vec<Access> {
        let access = |at| {
            let line = if rng.chance(anywhere) {
                world.any_line(rng)
            } else if self.kinds == Kinds::Copying {
                return world.copying(rng, at);
            } else {
                rng.pick(hot)
            };
            world.access(rng, self.kinds, line)
        };
        (0..length).map(access).collect()
    }
}

pub fn all_patterns() -> impl Iterator<Item = &'static Pattern> {
    PATTERNS.iter().chain([&TWO_PAGES])
}

/// What a case is called in an edition.
pub fn name_in(edition: Edition, name: &str) -> String {
    match edition {
        Edition::OnePlace => name.into(),
        Edition::SetsOfFour => format!("sets of four, {name}"),
    }
}
