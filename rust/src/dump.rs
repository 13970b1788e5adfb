//! Dumps of boards: a board as a file, that the field brings back and the office checks.
//!
//! A dump holds all of a board in which a line has one place ([`Edition::OnePlace`]): its four numbers, its tag and its five
//! buffers, as they are, sound or not. [`Dump`] is one in memory, read by [`Dump::read`] and written by
//! [`Dump::write`]; [`Dump::lent`] is the board that stands in it:
//!
//! ```
//! use oaledva::dump::{self, Dump};
//! use oaledva::{Board, Broken, Rule, Shape};
//!
//! // In the field.
//! let mut board = Board::new(Shape { frames: 2, uncached: 1, processes: 1, lines: 4 })?;
//! board.map(0x200000, 1, true)?;
//! board.attach(0, 0, 2048, true)?;
//! board.store(0, 4, 16, 50)?;
//! let mut file = Vec::new(); // or anything else that bytes can be written to
//! dump::write(&board, &mut file)?;
//!
//! // In the office.
//! let mut brought = Dump::read(&file[..])?;
//! assert_eq!(brought.lent().check(), Ok(()));
//! assert_eq!(brought.lent().load(0, 4, 16), Ok(50));
//! assert_eq!(brought.clone().into_board(), board);
//!
//! // A dump may hold any words: here the line's record has lost the mark that it was changed.
//! brought.records[3] -= 4;
//! assert_eq!(brought.lent().check(), Err(Broken { rule: Rule::Stale, place: 1 }));
//! assert_eq!(brought.lent().repair().map(|repaired| repaired.dropped), Ok(vec![1]));
//! brought.write(&mut Vec::new())?; // the repaired dump
//! # Ok::<(), Box<dyn std::error::Error>>(())
//! ```
//!
//! `cargo run -p oaledva --example inspect -- DUMP` is such an office: it tells what a dump holds and which rule it breaks, and
//! writes the repaired dump, or a picture.
//!
//! # In bytes
//! A dump is a header of [`HEADER_BYTES`] bytes and then the buffers. Every number has its most significant byte first.
//!
//! | From byte | What | Bytes |
//! |---|---|---|
//! | 0 | `OALDUMP`, in ASCII | 7 |
//! | 7 | the version, 1 | 1 |
//! | 8 | F, U, P, L: frames, uncached frames, processes, lines | 4 × 8 |
//! | 40 | 1 where a tag is pending, else 0 | 8 |
//! | 48 | the pending line name; 0 where none is | 8 |
//! | 56 | how many slot words, frame words, record words, cache bytes and bytes of memory follow | 5 × 8 |
//! | 96 | the slot words | 4 each |
//! | then | the frame words | 8 each |
//! | then | the record words | 8 each |
//! | then | the cache bytes, and the bytes of memory | 1 each |
//!
//! With that it ends. The five lengths are the buffers' own. They need not agree with the four numbers, nor these with their
//! limits: that is the board's first rule, [`Rule::Lengths`](crate::Rule::Lengths), and a check tells it. So a board has one dump
//! and a dump one board: what is written and read again is the same, and what is read and written again are the same bytes.
//! Whatever is no such file is [`Refused`], with a [`Reason`] and the byte at which it is wrong.

mod read;
mod write;

use crate::{Board, Edition, Lent, Mark, Shape};
pub use read::{ReadError, Reason, Refused};
use std::ops::DerefMut;
pub use write::{write, SetsOfFour, WriteError};

/// What a dump begins with.
const MAGIC: [u8; 7] = *b"OALDUMP";
/// The version that is read and written here.
const VERSION: u8 = 1;
/// Where the tag's two numbers stand, and the five lengths.
const TAG_AT: u64 = 40;
const LENGTHS_AT: u64 = 56;
/// A number's bytes.
const NUMBER_BYTES: u64 = 8;
/// How many bytes of a dump are held at a time, beside the buffers.
const PIECE_BYTES: usize = 1 << 16;

/// How many bytes the header of a dump is.
pub const HEADER_BYTES: u64 = 96;

/// The bytes of an element of each buffer: slots, words, records, cache, memory.
const ELEMENT_BYTES: [u64; 5] = [4, 8, 8, 1, 1];

/// A dump in memory: all of a board, where nothing is asked of the numbers and the lengths.
#[derive(Clone, Debug, PartialEq, Eq)]
pub struct Dump {
    /// The four numbers.
    pub shape: Shape,
    /// The pending line name.
    pub pending: Option<u64>,
    /// The slot words.
    pub slots: Vec<u32>,
    /// The frame words.
    pub words: Vec<u64>,
    /// The record words, two for each line.
    pub records: Vec<u64>,
    /// The cache bytes.
    pub cache: Vec<u8>,
    /// The memory.
    pub memory: Vec<u8>,
}

impl Dump {
    /// A copy of a board, with buffers of either kind. [`write()`] writes a board's dump without a copy.
    pub fn of<Slots, Words, Bytes>(board: &Board<Slots, Words, Bytes>) -> Result<Dump, SetsOfFour>
    where
        Slots: DerefMut<Target = [u32]>,
        Words: DerefMut<Target = [u64]>,
        Bytes: DerefMut<Target = [u8]>,
    {
        if board.edition() != Edition::OnePlace {
            return Err(SetsOfFour);
        }
        Ok(Dump {
            shape: board.shape(),
            pending: board.pending(),
            slots: board.slots().to_vec(),
            words: board.words().to_vec(),
            records: board.records().to_vec(),
            cache: board.cache().to_vec(),
            memory: board.memory().to_vec(),
        })
    }

    /// The board that stands in it. What calls change is changed here, but for the tag, which belongs to the board that is lent:
    /// [`Dump::into_board`] keeps it.
    pub fn lent(&mut self) -> Lent<'_> {
        let Dump { shape, pending, slots, words, records, cache, memory } = self;
        Lent::over(*shape, slots, words, records, cache, memory, *pending)
    }

    /// The board itself, with these buffers: nothing is copied. As with [`Lent::over`], nothing is asked of them.
    pub fn into_board(self) -> Board {
        let Dump { shape, pending, slots, words, records, cache, memory } = self;
        let (edition, uses) = (Edition::OnePlace, Vec::new());
        Board { shape, edition, slots, words, records, cache, memory, uses, pending, mark: Mark::NoAccess }
    }
}
