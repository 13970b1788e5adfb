//! The free version: the same rules as a good engineer writes them who may keep the board as he likes. Pages have an index to
//! frames, slots are taken apart beforehand, and a line has its record and its bytes in one place. It is made of a board whose
//! valid records each hold a line, as calls leave it; that is asked once.

use crate::board::Buffers;
use crate::ordinary::{
    agree, line_name, lines, load, mark, number, slot_index, store, Answer, LINES_PER_PAGE, LINE_BYTES, ONE_PLACE,
    SEGMENTS,
};
use oaledva::ffi::{Access, Kind};
use oaledva::Shape;
use std::collections::HashMap;
use std::hash::{BuildHasherDefault, Hasher};

#[derive(Clone, Copy)]
struct Attached {
    segment: u32,
    write: bool,
}

#[derive(Clone, Copy)]
struct Mapped {
    frame: usize,
    write: bool,
}

#[derive(Clone, Copy)]
struct Line {
    name: u64,
    physical: u32,
    valid: bool,
    changed: bool,
    write: bool,
    bytes: [u8; LINE_BYTES],
}

/// Pages are no stranger's keys, so a multiplication hashes them well enough.
#[derive(Default)]
struct PageHasher(u64);

impl Hasher for PageHasher {
    fn finish(&self) -> u64 {
        self.0
    }

    fn write(&mut self, _: &[u8]) {
        unreachable!("a page is hashed as one number");
    }

    fn write_u64(&mut self, page: u64) {
        let mixed = page.wrapping_mul(0x9E37_79B9_7F4A_7C15);
        self.0 = mixed ^ mixed >> 32;
    }
}

pub struct Index {
    shape: Shape,
    slots: Vec<Option<Attached>>,
    pages: HashMap<u64, Mapped, BuildHasherDefault<PageHasher>>,
    lines: Vec<Line>,
    memory: Vec<[u8; LINE_BYTES]>,
    pending: Option<u64>,
    /// What user accesses never change: slot words and frame words.
    kept: (Vec<u32>, Vec<u64>),
}

impl Index {
    pub fn new(board: &Buffers) -> Index {
        assert!(agree::<ONE_PLACE>(board.shape, &board.lengths()), "the board's buffers don't agree with its shape");
        let records = board.records.chunks_exact(2).zip(lines(&board.cache));
        Index {
            shape: board.shape,
            slots: board.slots.iter().map(attached).collect(),
            pages: pages(board),
            lines: records.enumerate().map(|(place, (words, bytes))| line(board.shape, place, words, bytes)).collect(),
            memory: lines(&board.memory),
            pending: board.pending,
            kept: (board.slots.clone(), board.words.clone()),
        }
    }

    pub fn into_buffers(self) -> Buffers {
        let (slots, words) = self.kept;
        Buffers {
            shape: self.shape,
            slots,
            words,
            records: self.lines.iter().flat_map(record).collect(),
            cache: self.lines.iter().flat_map(|line| line.bytes).collect(),
            memory: self.memory.concat(),
            uses: Vec::new(),
            pending: self.pending,
        }
    }

    #[inline(never)]
    fn access(&mut self, access: &Access) -> Answer {
        self.access_inlined(access)
    }

    /// A user's load or store.
    #[inline(always)]
    fn access_inlined(&mut self, access: &Access) -> Answer {
        self.tried(access).unwrap_or_else(Answer::refused)
    }

    #[inline(always)]
    fn tried(&mut self, access: &Access) -> Result<Answer, u8> {
        let &Access { kind, width, address, value, .. } = access;
        let is_store = kind != Kind::LOAD;
        let slot = self.slots[slot_index(access, self.shape.processes, self.pending)?];
        let attached = slot.ok_or(number::SLOT_EMPTY)?;
        if is_store && !attached.write {
            return Err(number::SLOT_READ_ONLY);
        }
        let name = line_name(attached.segment, address);
        let line = &mut self.lines[name as usize & (self.shape.lines - 1)];
        let mark = if line.valid && line.name == name {
            mark::HIT
        } else {
            let mapped = self.pages.get(&(name / LINES_PER_PAGE as u64)).ok_or(number::NOT_MAPPED)?;
            if is_store && !mapped.write {
                return Err(number::PAGE_READ_ONLY);
            }
            line.refill(name, mapped, &mut self.memory)
        };
        if is_store && !line.write {
            return Err(number::PAGE_READ_ONLY);
        }
        let at = address as usize % LINE_BYTES;
        if is_store {
            line.changed = true;
            store(&mut line.bytes, at, width, value);
            Ok(Answer::done(mark, 0))
        } else {
            Ok(Answer::done(mark, load(&line.bytes, at, width)))
        }
    }
}

impl Line {
    /// Writes the old line back, if it was changed, and becomes the one of this name. Gives the mark.
    #[inline(always)]
    fn refill(&mut self, name: u64, mapped: &Mapped, memory: &mut [[u8; LINE_BYTES]]) -> u8 {
        let wrote_back = self.valid && self.changed;
        if wrote_back {
            memory[self.physical as usize] = self.bytes;
        }
        let physical = mapped.frame * LINES_PER_PAGE + name as usize % LINES_PER_PAGE;
        let bytes = memory[physical];
        *self = Line { name, physical: physical as u32, valid: true, changed: false, write: mapped.write, bytes };
        if wrote_back {
            mark::WROTE_BACK
        } else {
            mark::REFILLED
        }
    }
}

fn attached(word: &u32) -> Option<Attached> {
    let segment = word / 2;
    SEGMENTS.contains(&segment).then_some(Attached { segment, write: word % 2 == 1 })
}

/// The lowest frame of each page.
fn pages(board: &Buffers) -> HashMap<u64, Mapped, BuildHasherDefault<PageHasher>> {
    let mut pages = HashMap::default();
    for (frame, word) in board.words.iter().enumerate().skip(board.shape.uncached) {
        if word % 2 == 1 {
            pages.entry(word / 4).or_insert(Mapped { frame, write: word / 2 % 2 == 1 });
        }
    }
    pages
}

fn line(shape: Shape, place: usize, words: &[u64], bytes: [u8; LINE_BYTES]) -> Line {
    let (name, rest) = (words[0], words[1]);
    let (physical, valid) = (rest / 8, rest % 2 == 1);
    assert!(physical < (shape.frames * LINES_PER_PAGE) as u64, "a record has a physical line beyond memory");
    assert!(!valid || name % shape.lines as u64 == place as u64, "a record is not at its place");
    Line { name, physical: physical as u32, valid, changed: rest / 4 % 2 == 1, write: rest / 2 % 2 == 1, bytes }
}

fn record(line: &Line) -> [u64; 2] {
    let bits = u64::from(line.changed) * 4 + u64::from(line.write) * 2 + u64::from(line.valid);
    [line.name, u64::from(line.physical) * 8 + bits]
}

/// A call for each access.
#[inline(never)]
pub fn called(board: &mut Index, accesses: &[Access], answers: &mut [Answer]) {
    for (access, answer) in accesses.iter().zip(answers) {
        *answer = board.access(access);
    }
}

/// The body inside the loop.
#[inline(never)]
pub fn inlined(board: &mut Index, accesses: &[Access], answers: &mut [Answer]) {
    for (access, answer) in accesses.iter().zip(answers) {
        *answer = board.access_inlined(access);
    }
}
