//! The ordinary version: user access as an engineer writes it from the scope document, in safe Rust and without proof. It keeps
//! the board's buffers as they are, and finds a page as the board does, by going through the frame words. Called, inlined and
//! behind the library's signature it is one body, `Board::access_inlined`; of both editions, too, over the number of lines in a set.

use crate::board::Buffers;
use oaledva::ffi::{Access, Kind};
use oaledva::Shape;

pub const LINE_BYTES: usize = 16;
pub const PAGE_BYTES: usize = 4096;
pub const LINES_PER_PAGE: usize = PAGE_BYTES / LINE_BYTES;
pub const SLOTS: usize = 512;
pub const SEGMENT_BITS: u32 = 22;
pub const SEGMENTS: std::ops::RangeInclusive<u32> = 2048..=4_190_207;
pub const USER_END: u32 = 1 << 31;

/// How many lines a set has, in each of the two editions.
pub const ONE_PLACE: usize = 1;
pub const SETS_OF_FOUR: usize = oaledva::SET_LINES;

/// Why a user access is refused.
pub mod number {
    pub const SHAPE: u8 = 1;
    pub const RANGE: u8 = 2;
    pub const TAG: u8 = 3;
    pub const ALIGNMENT: u8 = 4;
    pub const KERNEL: u8 = 5;
    pub const SLOT_EMPTY: u8 = 6;
    pub const SLOT_READ_ONLY: u8 = 7;
    pub const NOT_MAPPED: u8 = 8;
    pub const PAGE_READ_ONLY: u8 = 9;
}

pub mod mark {
    pub const HIT: u8 = 1;
    pub const REFILLED: u8 = 2;
    pub const WROTE_BACK: u8 = 3;
}

#[derive(Clone, Copy)]
pub struct Answer {
    pub number: u8,
    pub mark: u8,
    pub value: u32,
}

impl Answer {
    /// What stands in the answers before a run.
    pub const NONE: Answer = Answer { number: u8::MAX, mark: u8::MAX, value: u32::MAX };

    pub fn done(mark: u8, value: u32) -> Answer {
        Answer { number: 0, mark, value }
    }

    pub fn refused(number: u8) -> Answer {
        Answer { number, mark: 0, value: 0 }
    }

    /// The same, as the library packs it.
    pub fn packed(self) -> u64 {
        u64::from(self.number) << 56 | u64::from(self.mark) << 32 | u64::from(self.value)
    }
}

/// Whether a store's value fits its width. Of a number that is no width it is not asked.
pub fn fits(value: u32, width: u32) -> bool {
    match width {
        1 => value <= u8::MAX.into(),
        2 => value <= u16::MAX.into(),
        _ => true,
    }
}

/// Whether an access may have this width and stand at this address.
pub fn aligned(address: u32, width: u32) -> bool {
    matches!(width, 1 | 2 | 4) && address & (width - 1) == 0
}

/// Where the slot's word of an access stands among all processes' words, or the first of numbers 2 to 5 that refuses it.
#[inline(always)]
pub fn slot_index(access: &Access, processes: usize, pending: Option<u64>) -> Result<usize, u8> {
    let &Access { process, kind, width, address, value } = access;
    let process = process as usize;
    if process >= processes || kind != Kind::LOAD && !fits(value, width) {
        return Err(number::RANGE);
    }
    if pending.is_some() {
        return Err(number::TAG);
    }
    if !aligned(address, width) {
        return Err(number::ALIGNMENT);
    }
    if address >= USER_END {
        return Err(number::KERNEL);
    }
    Ok(process * SLOTS + (address >> SEGMENT_BITS) as usize)
}

/// The name of the line that an address lies in, by the segment that is attached to its slot.
#[inline(always)]
pub fn line_name(segment: u32, address: u32) -> u64 {
    let offset = address % (1 << SEGMENT_BITS);
    (u64::from(segment) << SEGMENT_BITS | u64::from(offset)) / LINE_BYTES as u64
}

pub type Line = [u8; LINE_BYTES];

/// Numbers stand with the most significant byte first.
#[inline(always)]
pub fn load(line: &Line, at: usize, width: u32) -> u32 {
    match width {
        1 => line[at].into(),
        2 => u16::from_be_bytes(line[at..at + 2].try_into().expect("two bytes")).into(),
        _ => u32::from_be_bytes(line[at..at + 4].try_into().expect("four bytes")),
    }
}

#[inline(always)]
pub fn store(line: &mut Line, at: usize, width: u32, value: u32) {
    match width {
        1 => line[at] = value as u8,
        2 => line[at..at + 2].copy_from_slice(&(value as u16).to_be_bytes()),
        _ => line[at..at + 4].copy_from_slice(&value.to_be_bytes()),
    }
}

/// A record in its two words: the name; physical line × 8 + changed × 4 + write × 2 + valid.
#[derive(Clone, Copy)]
#[repr(C)]
pub struct Record {
    name: u64,
    rest: u64,
}

const VALID: u64 = 1;
const WRITE: u64 = 2;
const CHANGED: u64 = 4;
const PHYSICAL: u64 = 8;

impl Record {
    fn new(name: u64, physical: usize, write: bool) -> Record {
        Record { name, rest: physical as u64 * PHYSICAL + if write { WRITE | VALID } else { VALID } }
    }

    fn has(&self, bit: u64) -> bool {
        self.rest & bit != 0
    }

    fn physical(&self) -> usize {
        (self.rest / PHYSICAL) as usize
    }

    /// Whether it holds a line: it is valid, stands in its set, of so many, and its physical line is inside memory.
    #[inline(always)]
    fn holds(&self, set: usize, sets: usize, memory_lines: usize) -> bool {
        self.has(VALID) && set_of(self.name, sets) == set && self.physical() < memory_lines
    }
}

/// The number of sets is a power of two.
#[inline(always)]
fn set_of(name: u64, sets: usize) -> usize {
    name as usize & (sets - 1)
}

/// The frame to which a page is mapped, counted from the first of these words, and its write bit. Never inlined: the compiler
/// would put the arithmetic on the frame into the loop, which is slower.
#[inline(never)]
fn mapping(words: &[u64], page: u64) -> Option<(usize, bool)> {
    let frame = words.iter().position(|&word| word & !WRITE == page * 4 + VALID)?;
    Some((frame, words[frame] & WRITE != 0))
}

/// Who of a set was used after whom: row a, column b is not 0 if line a was used after line b.
pub type Uses<const WAYS: usize> = [[u8; WAYS]; WAYS];

/// A use of a line sets its row, then clears its column.
#[inline(always)]
fn used<const WAYS: usize>(uses: &mut Uses<WAYS>, line: usize) {
    uses[line] = [1; WAYS];
    for row in uses {
        row[line] = 0;
    }
}

/// The lowest line whose row has the fewest ones.
fn used_least<const WAYS: usize>(uses: &Uses<WAYS>) -> usize {
    let ones = |line: &usize| uses[*line].iter().filter(|&&entry| entry != 0).count();
    (0..WAYS).min_by_key(ones).expect("a set has lines")
}

/// The line of a set to fill: the lowest that holds nothing, else the one used least. Never inlined, so that a hit has the
/// registers.
#[inline(never)]
fn victim<const WAYS: usize>(
    records: &[Record; WAYS],
    uses: &Uses<WAYS>,
    set: usize,
    sets: usize,
    memory_lines: usize,
) -> usize {
    let empty = records.iter().position(|record| !record.holds(set, sets, memory_lines));
    empty.unwrap_or_else(|| used_least(uses))
}

/// A board over buffers that agree with its shape, with so many lines in a set. Where that is one there is no matrix.
pub struct Board<'a, const WAYS: usize> {
    pub shape: Shape,
    pub slots: &'a [u32],
    pub words: &'a [u64],
    pub records: &'a mut [[Record; WAYS]],
    pub cache: &'a mut [[Line; WAYS]],
    pub memory: &'a mut [Line],
    pub uses: &'a mut [Uses<WAYS>],
    pub pending: Option<u64>,
}

impl<const WAYS: usize> Board<'_, WAYS> {
    #[inline(never)]
    fn access(&mut self, access: &Access) -> Answer {
        self.access_inlined(access)
    }

    /// A user's load or store.
    #[inline(always)]
    pub fn access_inlined(&mut self, access: &Access) -> Answer {
        self.tried(access).unwrap_or_else(Answer::refused)
    }

    #[inline(always)]
    fn tried(&mut self, access: &Access) -> Result<Answer, u8> {
        let &Access { kind, width, address, value, .. } = access;
        let is_store = kind != Kind::LOAD;
        let slot = self.slots[slot_index(access, self.shape.processes, self.pending)?];
        let (segment, writable) = (slot / 2, slot % 2 == 1);
        if !SEGMENTS.contains(&segment) {
            return Err(number::SLOT_EMPTY);
        }
        if is_store && !writable {
            return Err(number::SLOT_READ_ONLY);
        }
        let name = line_name(segment, address);
        let set = set_of(name, self.sets());
        let (line, mark) = match self.find(set, name) {
            Some(line) => {
                if is_store && !self.records[set][line].has(WRITE) {
                    return Err(number::PAGE_READ_ONLY);
                }
                (line, mark::HIT)
            }
            None => self.refill(name, set, is_store)?,
        };
        if WAYS != ONE_PLACE {
            used(&mut self.uses[set], line);
        }
        let at = address as usize % LINE_BYTES;
        if is_store {
            store(&mut self.cache[set][line], at, width, value);
            self.records[set][line].rest |= CHANGED;
            Ok(Answer::done(mark, 0))
        } else {
            Ok(Answer::done(mark, load(&self.cache[set][line], at, width)))
        }
    }

    fn sets(&self) -> usize {
        self.shape.lines / WAYS
    }

    #[inline(always)]
    fn holds(&self, set: usize, record: &Record) -> bool {
        record.holds(set, self.sets(), self.memory.len())
    }

    /// The lowest line of a set that holds this name. The names are compared without a branch between them: it would be guessed
    /// wrongly most of the time.
    #[inline(always)]
    fn find(&self, set: usize, name: u64) -> Option<usize> {
        let records = &self.records[set];
        let named = (0..WAYS).rev().fold(WAYS, |named, line| if records[line].name == name { line } else { named });
        if named < WAYS && self.holds(set, &records[named]) {
            return Some(named);
        }
        // On a wild board that record may hold nothing, and one above it the name.
        (named + 1..WAYS).find(|&line| records[line].name == name && self.holds(set, &records[line]))
    }

    /// Fills a line of the set with the line of this name, after the old line there was written back if it was changed. Gives
    /// which line, and the mark.
    #[inline(always)]
    fn refill(&mut self, name: u64, set: usize, is_store: bool) -> Result<(usize, u8), u8> {
        let words = &self.words[self.shape.uncached..];
        let (frame, write) = mapping(words, name / LINES_PER_PAGE as u64).ok_or(number::NOT_MAPPED)?;
        if is_store && !write {
            return Err(number::PAGE_READ_ONLY);
        }
        let line = match WAYS {
            ONE_PLACE => 0,
            _ => victim(&self.records[set], &self.uses[set], set, self.sets(), self.memory.len()),
        };
        let old = self.records[set][line];
        let changed = self.holds(set, &old) && old.has(CHANGED);
        if changed {
            self.memory[old.physical()] = self.cache[set][line];
        }
        let physical = (self.shape.uncached + frame) * LINES_PER_PAGE + name as usize % LINES_PER_PAGE;
        self.cache[set][line] = self.memory[physical];
        self.records[set][line] = Record::new(name, physical, write);
        Ok((line, if changed { mark::WROTE_BACK } else { mark::REFILLED }))
    }
}

/// How long the buffers are, in the elements of the library's signature.
pub struct Lengths {
    pub slots: usize,
    pub words: usize,
    pub records: usize,
    pub cache: usize,
    pub memory: usize,
    pub uses: usize,
}

/// Whether the shape keeps its limits and the lengths agree with it.
pub fn agree<const WAYS: usize>(shape: Shape, lengths: &Lengths) -> bool {
    (1..=Shape::FRAMES_MAX).contains(&shape.frames)
        && shape.uncached <= shape.frames
        && (1..=Shape::PROCESSES_MAX).contains(&shape.processes)
        && (WAYS..=Shape::LINES_MAX).contains(&shape.lines)
        && shape.lines.is_power_of_two()
        && lengths.slots == SLOTS * shape.processes
        && lengths.words == shape.frames
        && lengths.records == 2 * shape.lines
        && lengths.cache == LINE_BYTES * shape.lines
        && lengths.memory == PAGE_BYTES * shape.frames
        && (WAYS == ONE_PLACE || lengths.uses == shape.lines / WAYS)
}

/// The owner of a board's buffers. That they agree is asked once, when it is made.
pub struct Scan<const WAYS: usize> {
    shape: Shape,
    slots: Vec<u32>,
    words: Vec<u64>,
    records: Vec<[Record; WAYS]>,
    cache: Vec<[Line; WAYS]>,
    memory: Vec<Line>,
    uses: Vec<Uses<WAYS>>,
    pending: Option<u64>,
}

impl<const WAYS: usize> Scan<WAYS> {
    pub fn new(board: &Buffers) -> Scan<WAYS> {
        assert!(agree::<WAYS>(board.shape, &board.lengths()), "the board's buffers don't agree with its shape");
        let record = |words: &[u64]| Record { name: words[0], rest: words[1] };
        Scan {
            shape: board.shape,
            slots: board.slots.clone(),
            words: board.words.clone(),
            records: arrays(board.records.chunks_exact(2).map(record)),
            cache: arrays(lines(&board.cache).into_iter()),
            memory: lines(&board.memory),
            uses: arrays(arrays(board.uses.iter().copied()).into_iter()),
            pending: board.pending,
        }
    }

    pub fn into_buffers(self) -> Buffers {
        Buffers {
            shape: self.shape,
            slots: self.slots,
            words: self.words,
            records: self.records.iter().flatten().flat_map(|record| [record.name, record.rest]).collect(),
            cache: self.cache.concat().concat(),
            memory: self.memory.concat(),
            uses: self.uses.concat().concat(),
            pending: self.pending,
        }
    }

    fn lent(&mut self) -> Board<'_, WAYS> {
        Board {
            shape: self.shape,
            slots: &self.slots,
            words: &self.words,
            records: &mut self.records,
            cache: &mut self.cache,
            memory: &mut self.memory,
            uses: &mut self.uses,
            pending: self.pending,
        }
    }
}

/// So many at a time.
fn arrays<T, const MANY: usize>(mut all: impl ExactSizeIterator<Item = T>) -> Vec<[T; MANY]> {
    let arrays = all.len() / MANY;
    let mut next = || all.next().expect("there are as many");
    (0..arrays).map(|_| std::array::from_fn(|_| next())).collect()
}

/// Bytes as lines.
pub fn lines(bytes: &[u8]) -> Vec<Line> {
    bytes.chunks_exact(LINE_BYTES).map(|line| line.try_into().expect("sixteen bytes")).collect()
}

/// A call for each access.
#[inline(never)]
pub fn called<const WAYS: usize>(board: &mut Scan<WAYS>, accesses: &[Access], answers: &mut [Answer]) {
    let mut board = board.lent();
    for (access, answer) in accesses.iter().zip(answers) {
        *answer = board.access(access);
    }
}

/// The body inside the loop.
#[inline(never)]
pub fn inlined<const WAYS: usize>(board: &mut Scan<WAYS>, accesses: &[Access], answers: &mut [Answer]) {
    let mut board = board.lent();
    for (access, answer) in accesses.iter().zip(answers) {
        *answer = board.access_inlined(access);
    }
}
