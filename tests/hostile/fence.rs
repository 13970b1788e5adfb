//! Memory between two fences: whoever reads or writes there is ended by a signal.

use std::marker::PhantomData;
use std::ops::{Deref, DerefMut};

// Of the C library, which every program has.
extern "C" {
    fn mmap(address: *mut u8, length: usize, protection: i32, flags: i32, file: i32, offset: i64) -> *mut u8;
    fn mprotect(address: *mut u8, length: usize, protection: i32) -> i32;
    fn munmap(address: *mut u8, length: usize) -> i32;
}

/// Linux's numbers: nothing may be done there; reading and writing may; memory of this program's own, of no file.
const NOTHING: i32 = 0;
const READ_AND_WRITE: i32 = 1 | 2;
const PRIVATE_AND_ANONYMOUS: i32 = 0x2 | 0x20;

/// The bytes of a fence: a whole number of pages on every machine.
const FENCE: usize = 1 << 16;

/// Numbers that begin right behind one fence, or end right before the other. They are 0 at first.
pub struct Fenced<T> {
    base: *mut u8,
    bytes: usize,
    first: *mut T,
    count: usize,
    own: PhantomData<T>,
}

impl<T> Fenced<T> {
    /// T is a type of numbers, for which bytes of 0 are a 0.
    pub fn zeroed(count: usize, at_end: bool) -> Fenced<T> {
        let length = count * std::mem::size_of::<T>();
        let between = length.next_multiple_of(FENCE);
        let bytes = FENCE + between + FENCE;
        // Safety: new memory, of which only what lies between the fences is used.
        let base = unsafe { mmap(std::ptr::null_mut(), bytes, NOTHING, PRIVATE_AND_ANONYMOUS, -1, 0) };
        assert!(base as isize != -1, "there is memory for {bytes} bytes");
        let open = between == 0 || unsafe { mprotect(base.wrapping_add(FENCE), between, READ_AND_WRITE) } == 0;
        assert!(open, "memory can be opened");
        let first = base.wrapping_add(FENCE + if at_end { between - length } else { 0 }).cast();
        Fenced { base, bytes, first, count, own: PhantomData }
    }
}

impl<T> Deref for Fenced<T> {
    type Target = [T];

    fn deref(&self) -> &[T] {
        // Safety: so many numbers stand there, between the fences.
        unsafe { std::slice::from_raw_parts(self.first, self.count) }
    }
}

impl<T> DerefMut for Fenced<T> {
    fn deref_mut(&mut self) -> &mut [T] {
        // Safety: as above.
        unsafe { std::slice::from_raw_parts_mut(self.first, self.count) }
    }
}

impl<T> Drop for Fenced<T> {
    fn drop(&mut self) {
        // Safety: it was mapped so, and nothing of it is lent any more.
        unsafe { munmap(self.base, self.bytes) };
    }
}
