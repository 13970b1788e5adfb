//! A board's buffers with its shape and tag: as every version begins with them, and as what each one left is compared.

use crate::ordinary::Lengths;
use oaledva::{Board, Shape, Uses};

/// The bytes of a set's matrix.
pub const MATRIX_BYTES: usize = std::mem::size_of::<Uses>();

#[derive(Clone)]
pub struct Buffers {
    pub shape: Shape,
    pub slots: Vec<u32>,
    pub words: Vec<u64>,
    pub records: Vec<u64>,
    pub cache: Vec<u8>,
    pub memory: Vec<u8>,
    /// The matrices. Where a line has one place there are none.
    pub uses: Vec<u8>,
    pub pending: Option<u64>,
}

impl Buffers {
    pub fn of(board: &Board) -> Buffers {
        Buffers {
            shape: board.shape(),
            slots: board.slots().to_vec(),
            words: board.words().to_vec(),
            records: board.records().to_vec(),
            cache: board.cache().to_vec(),
            memory: board.memory().to_vec(),
            uses: board.uses().concat().concat(),
            pending: board.pending(),
        }
    }

    pub fn lengths(&self) -> Lengths {
        Lengths {
            slots: self.slots.len(),
            words: self.words.len(),
            records: self.records.len(),
            cache: self.cache.len(),
            memory: self.memory.len(),
            uses: self.uses.len() / MATRIX_BYTES,
        }
    }

    /// The tag as a call takes it: whether one is pending, and its name.
    pub fn tag(&self) -> (u32, u64) {
        self.pending.map_or((0, 0), |name| (1, name))
    }
}

/// Calls a function of the library's kind on a board: each number and each buffer by itself, the matrices where the edition has
/// them, the tag, then the arguments.
macro_rules! call {
    ($board:ident, $function:path, [$($uses:expr)?], $($argument:expr),*) => {{
        let (set, name) = $board.tag();
        // Safety: the buffers are vectors, lent with their own lengths, and borrowed mutably with their board, so that what a
        // call may write is apart from all else. So are the answers of a list.
        unsafe {
            $function(
                $board.shape.frames,
                $board.shape.uncached,
                $board.shape.processes,
                $board.shape.lines,
                $board.slots.as_ptr(),
                $board.slots.len(),
                $board.words.as_ptr(),
                $board.words.len(),
                $board.records.as_mut_ptr(),
                $board.records.len(),
                $board.cache.as_mut_ptr(),
                $board.cache.len(),
                $board.memory.as_mut_ptr(),
                $board.memory.len(),
                $($uses.as_mut_ptr().cast(), $uses.len() / crate::board::MATRIX_BYTES,)?
                set,
                name,
                $($argument),*
            )
        }
    }};
}
pub(crate) use call;
