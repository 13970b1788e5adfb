#![allow(dead_code)]
pub use model::mark::*;
use model::*;

/// A small xorshift generator with a fixed seed.
pub struct Rng(pub u64);

impl Rng {
    pub fn next(&mut self) -> u64 {
        self.0 ^= self.0 << 13;
        self.0 ^= self.0 >> 7;
        self.0 ^= self.0 << 17;
        self.0.wrapping_mul(0x2545_F491_4F6C_DD1D)
    }
    pub fn below(&mut self, n: u64) -> u64 {
        (self.next() >> 16) % n
    }
    pub fn chance(&mut self, one_in: u64) -> bool {
        self.below(one_in) == 0
    }
    pub fn flip(&mut self) -> bool {
        self.chance(2)
    }
    pub fn pick<T: Copy>(&mut self, of: &[T]) -> T {
        of[self.below(of.len() as u64) as usize]
    }
    /// Any bytes, mostly 0 and 1.
    pub fn matrix(&mut self) -> Matrix {
        FRESH_MATRIX.map(|row| row.map(|_| if self.chance(4) { self.next() as u8 } else { self.below(2) as u8 }))
    }
    /// A value for an access of this width: mostly one that fits it.
    pub fn value(&mut self, width: u32) -> u32 {
        let any = self.next() as u32;
        match (self.below(8), width) {
            (0, _) => any,
            (1, _) => self.pick(&[0xFF, 0x100, 0xFFFF, 0x1_0000, u32::MAX]),
            (_, 1) => any % 0x100,
            (_, 2) => any % 0x1_0000,
            _ => any,
        }
    }
}

/// The kind, width and value of an access.
pub fn access_of(call: &Call) -> Option<(bool, u32, u32)> {
    match *call {
        Call::UserAccess { store, width, value, .. } | Call::SupervisorAccess { store, width, value, .. } => {
            Some((store, width, value))
        }
        _ => None,
    }
}

/// The same access with these.
pub fn access_with(call: &Call, (store, width, value): (bool, u32, u32)) -> Call {
    match *call {
        Call::UserAccess { process, address, .. } => Call::UserAccess { process, store, width, address, value },
        Call::SupervisorAccess { global, .. } => Call::SupervisorAccess { store, width, global, value },
        _ => unreachable!(),
    }
}

pub fn shape(frames: u64, uncached: u64, processes: u64, lines: u64) -> Shape {
    Shape { frames, uncached, processes, lines }
}

/// An access that is done.
pub fn done(value: u32, mark: u32) -> Answer {
    Answer { number: 0, value, mark }
}

/// A call that is no access, done.
pub const DONE: Answer = no(0);

/// Refused by a number.
pub const fn no(number: u32) -> Answer {
    Answer { number, value: 0, mark: NO_ACCESS }
}

/// Puts a record at a place, whatever it is.
pub fn put(board: &mut Board, place: u64, record: Record) {
    let (a, b) = record.encode();
    board.records[2 * place as usize] = a;
    board.records[2 * place as usize + 1] = b;
}

pub fn rec(name: u64, line: u64, changed: bool, write: bool) -> Record {
    Record { name, line, changed, write, valid: true }
}

/// Fills a line of the cache with one byte.
pub fn paint(board: &mut Board, place: u64, byte: u8) {
    let at = 16 * place as usize;
    board.cache[at..at + 16].fill(byte);
}

/// One call of each kind, each of which is done on `ready()`.
pub fn every_call() -> Vec<Call> {
    vec![
        Call::UserAccess { process: 0, store: false, width: 1, address: 0, value: 0 },
        Call::UserAccess { process: 0, store: true, width: 4, address: 0, value: 7 },
        Call::SupervisorAccess { store: false, width: 1, global: 0x2_0000_0000, value: 0 },
        Call::SupervisorAccess { store: true, width: 2, global: 0x1_0000_2000, value: 9 },
        Call::SupervisorAccess { store: true, width: 4, global: 0, value: 9 },
        Call::Attach { process: 1, slot: 3, segment: 2048, write: true },
        Call::Detach { process: 0, slot: 0 },
        Call::Map { page: 0x20_0001, frame: 2, write: true },
        Call::Unmap { page: 0x20_0000 },
        Call::Protect { page: 0x20_0000, write: false },
        Call::Move { page: 0x20_0000, new_page: 0x20_0001 },
        Call::FlushAll,
        Call::Tag { name: 0x2000_0000 },
        Call::LoadAndMap { line: 256 },
        Call::DropTag,
    ]
}

/// F 4, U 1, P 2, L 2; page 0x200000 in frame 1 writable; process 0 slot 0: segment 2048 writable.
/// Memory is not all zero.
pub fn ready() -> Board {
    let mut b = Board::fresh(shape(4, 1, 2, 2));
    for (i, byte) in b.memory.iter_mut().enumerate() {
        *byte = (i % 251) as u8;
    }
    assert_eq!(b.map(0x20_0000, 1, true), DONE);
    assert_eq!(b.attach(0, 0, 2048, true), DONE);
    b
}

/// The board, and the same with sets of four: with four times the lines. What stands at a place of the one is the first line of
/// the set there in the other, the rest of which is empty; the matrices are fresh.
pub fn in_both(board: &Board) -> [Board; 2] {
    assert_eq!(board.edition, Edition::Ones);
    let mut fours = Board::fresh_of(Edition::Fours, Shape { lines: 4 * board.shape.lines, ..board.shape });
    for place in 0..board.shape.lines {
        put(&mut fours, 4 * place, board.record(place));
        let (from, to) = (16 * place as usize, 64 * place as usize);
        fours.cache[to..to + 16].copy_from_slice(&board.cache[from..from + 16]);
    }
    fours.slots.clone_from(&board.slots);
    fours.words.clone_from(&board.words);
    fours.memory.clone_from(&board.memory);
    fours.tag = board.tag;
    assert!(fours.fits());
    [board.clone(), fours]
}

/// `ready()`, with a tag pending if the call needs one.
pub fn ready_for(call: &Call) -> Board {
    let mut b = ready();
    if matches!(call, Call::LoadAndMap { .. } | Call::DropTag) {
        assert_eq!(b.tag(0x2000_0000), DONE);
    }
    b
}
