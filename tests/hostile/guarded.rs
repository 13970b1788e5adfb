//! The caller's side of a board: each buffer between canaries, at a start that varies but keeps the elements' alignment; or with
//! a fence on one side.

use crate::fence::Fenced;
use crate::limits::matrix_bytes;
use model::{Board, Edition, Shape};
use std::ops::{Deref, DerefMut};

/// At least this many bytes of canary stand on each side of a buffer.
const GUARD_BYTES: usize = 64;

/// A buffer may start this many elements later, less one: bytes at odd addresses, words at other than the allocator's.
const OFFSETS: usize = 16;

/// Or a fence stands right behind it, or right before it. That costs time, so most of the starts are none of these two.
pub const FENCED_BEHIND: usize = OFFSETS;
const FENCED_BEFORE: usize = OFFSETS + 1;
pub const STARTS: usize = 6 * OFFSETS;

pub trait Element: Copy + PartialEq + std::fmt::LowerHex {
    const ZERO: Self;
    /// The canary at a position: each position has its own, so a moved one shows too.
    fn canary(position: usize) -> Self;
}

impl Element for u8 {
    const ZERO: u8 = 0;

    fn canary(position: usize) -> u8 {
        0xC5 ^ (position as u8).wrapping_mul(29)
    }
}

impl Element for u32 {
    const ZERO: u32 = 0;

    fn canary(position: usize) -> u32 {
        u32::from_le_bytes([0, 1, 2, 3].map(|byte| u8::canary(4 * position + byte)))
    }
}

impl Element for u64 {
    const ZERO: u64 = 0;

    fn canary(position: usize) -> u64 {
        u64::from_le_bytes([0, 1, 2, 3, 4, 5, 6, 7].map(|byte| u8::canary(8 * position + byte)))
    }
}

/// The memory of a buffer.
enum Store<T> {
    Heap(Vec<T>),
    Fenced(Fenced<T>),
}

impl<T> Deref for Store<T> {
    type Target = [T];

    fn deref(&self) -> &[T] {
        match self {
            Store::Heap(all) => all,
            Store::Fenced(all) => all,
        }
    }
}

impl<T> DerefMut for Store<T> {
    fn deref_mut(&mut self) -> &mut [T] {
        match self {
            Store::Heap(all) => all,
            Store::Fenced(all) => all,
        }
    }
}

pub struct Guarded<T> {
    /// Canaries, the buffer, canaries; none where a fence is.
    all: Store<T>,
    front: usize,
    length: usize,
    /// What the canaries were.
    edge: Vec<T>,
}

impl<T: Element> Guarded<T> {
    pub fn holding(contents: &[T], offset: usize) -> Guarded<T> {
        let mut guarded = Guarded::zeroed(contents.len(), offset);
        guarded.inner_mut().copy_from_slice(contents);
        guarded
    }

    /// A buffer of zeros. The system gives memory for a large one only where it is touched.
    pub fn zeroed(length: usize, offset: usize) -> Guarded<T> {
        let edge: Vec<T> = (0..GUARD_BYTES / std::mem::size_of::<T>() + OFFSETS).map(T::canary).collect();
        let (front, behind) = match offset {
            FENCED_BEHIND => (edge.len(), 0),
            FENCED_BEFORE => (0, edge.len()),
            _ => (edge.len() - OFFSETS + offset % OFFSETS, edge.len()),
        };
        let count = front + length + behind;
        let mut all = if front == 0 || behind == 0 {
            Store::Fenced(Fenced::zeroed(count, behind == 0))
        } else {
            Store::Heap(vec![T::ZERO; count])
        };
        all[..front].copy_from_slice(&edge[..front]);
        all[front + length..].copy_from_slice(&edge[..behind]);
        Guarded { all, front, length, edge }
    }

    pub fn inner(&self) -> &[T] {
        &self.all[self.front..self.front + self.length]
    }

    pub fn inner_mut(&mut self) -> &mut [T] {
        &mut self.all[self.front..self.front + self.length]
    }

    pub fn len(&self) -> usize {
        self.length
    }

    /// The buffer as a call takes it: with `null`, an empty one as NULL.
    pub fn pointer(&mut self, null: bool) -> *mut T {
        if null && self.length == 0 {
            std::ptr::null_mut()
        } else {
            self.inner_mut().as_mut_ptr()
        }
    }

    pub fn intact(&self) -> bool {
        let (before, behind) = (&self.all[..self.front], &self.all[self.front + self.length..]);
        before == &self.edge[..before.len()] && behind == &self.edge[..behind.len()]
    }

    pub fn ends_at_fence(&self) -> bool {
        self.all.len() == self.front + self.length
    }

    pub fn begins_at_fence(&self) -> bool {
        self.front == 0
    }

    /// Reads what stands right behind the buffer, or right before it: a planted fault.
    pub fn read_outside(&self, behind: bool) {
        let inner = self.inner().as_ptr();
        let outside = if behind { inner.wrapping_add(self.length) } else { inner.wrapping_sub(1) };
        // Safety: a canary, or a fence, which ends this program.
        unsafe { outside.read_volatile() };
    }

    /// Changes the canary next to the buffer, before or behind it: a planted fault.
    pub fn break_canary(&mut self, before: bool) {
        let next = if before { self.front - 1 } else { self.front + self.length };
        let other = if before { self.front } else { 1 };
        self.all[next] = T::canary(other);
    }
}

/// The two buffers of a list, as the library gets them.
pub struct Lists {
    pub accesses: Guarded<u32>,
    pub answers: Guarded<u64>,
}

impl Lists {
    pub fn broken(&self) -> Option<&'static str> {
        let intact = [("the accesses", self.accesses.intact()), ("the answers", self.answers.intact())];
        intact.iter().find(|(_, intact)| !intact).map(|&(name, _)| name)
    }
}

/// By how many elements each of a board's buffers is moved, or at which fence it stands: slots, words, records, cache, memory,
/// uses.
pub type Offsets = [usize; 6];

/// The board that the library gets. The tag's two words stand between canaries as well.
pub struct Real {
    pub edition: Edition,
    pub shape: Shape,
    pub slots: Guarded<u32>,
    pub words: Guarded<u64>,
    pub records: Guarded<u64>,
    pub cache: Guarded<u8>,
    pub memory: Guarded<u8>,
    /// The matrices, as bytes.
    pub uses: Guarded<u8>,
    pub set: Guarded<u32>,
    pub name: Guarded<u64>,
}

impl Real {
    /// The same board as the model's, its buffers at these offsets.
    pub fn of(board: &Board, offsets: &Offsets) -> Real {
        Real {
            edition: board.edition,
            shape: board.shape,
            slots: Guarded::holding(&board.slots, offsets[0]),
            words: Guarded::holding(&board.words, offsets[1]),
            records: Guarded::holding(&board.records, offsets[2]),
            cache: Guarded::holding(&board.cache, offsets[3]),
            memory: Guarded::holding(&board.memory, offsets[4]),
            uses: Guarded::holding(matrix_bytes(&board.uses), offsets[5]),
            set: Guarded::holding(&[u32::from(board.tag.0)], offsets[0] % OFFSETS),
            name: Guarded::holding(&[board.tag.1], offsets[1] % OFFSETS),
        }
    }

    pub fn tag(&self) -> (u32, u64) {
        (self.set.inner()[0], self.name.inner()[0])
    }

    pub fn set_tag(&mut self, set: u32, name: u64) {
        self.set.inner_mut()[0] = set;
        self.name.inner_mut()[0] = name;
    }

    /// The buffers around which a canary was written over.
    pub fn broken(&self) -> Vec<&'static str> {
        let intact = [
            ("slots", self.slots.intact()),
            ("words", self.words.intact()),
            ("records", self.records.intact()),
            ("cache", self.cache.intact()),
            ("memory", self.memory.intact()),
            ("uses", self.uses.intact()),
            ("the tag's set", self.set.intact()),
            ("the tag's name", self.name.intact()),
        ];
        intact.iter().filter(|(_, intact)| !intact).map(|&(name, _)| name).collect()
    }
}
