use super::{Dump, ELEMENT_BYTES, HEADER_BYTES, MAGIC, PIECE_BYTES, VERSION};
use crate::{Board, Edition, Shape};
use std::io::{self, Write};
use std::ops::DerefMut;

impl Dump {
    /// Writes it, to anything that bytes can be written to, in large pieces.
    pub fn write(&self, out: impl Write) -> io::Result<()> {
        let Dump { shape, pending, slots, words, records, cache, memory } = self;
        let parts = Parts { shape: *shape, pending: *pending, slots, words, records, cache, memory };
        parts.write(out)
    }

    /// Its bytes. Where they are to go into a file, [`Dump::write`] needs no room for them.
    pub fn to_bytes(&self) -> Vec<u8> {
        let mut bytes = Vec::with_capacity(self.length() as usize);
        self.write(&mut bytes).expect("a vector takes all bytes");
        bytes
    }

    /// How many bytes it is as a file.
    pub fn length(&self) -> u64 {
        let Dump { slots, words, records, cache, memory, .. } = self;
        let lengths = [slots.len(), words.len(), records.len(), cache.len(), memory.len()];
        HEADER_BYTES + lengths.into_iter().zip(ELEMENT_BYTES).map(|(length, bytes)| length as u64 * bytes).sum::<u64>()
    }
}

/// Writes the dump of a board as it stands, with buffers of either kind, in large pieces; nothing is copied before. Nothing is
/// written of a board with sets of four.
pub fn write<Slots, Words, Bytes>(board: &Board<Slots, Words, Bytes>, out: impl Write) -> Result<(), WriteError>
where
    Slots: DerefMut<Target = [u32]>,
    Words: DerefMut<Target = [u64]>,
    Bytes: DerefMut<Target = [u8]>,
{
    if board.edition() != Edition::OnePlace {
        return Err(WriteError::SetsOfFour(SetsOfFour));
    }
    let parts = Parts {
        shape: board.shape(),
        pending: board.pending(),
        slots: board.slots(),
        words: board.words(),
        records: board.records(),
        cache: board.cache(),
        memory: board.memory(),
    };
    Ok(parts.write(out)?)
}

/// A board with sets of four has no dump: a dump holds a board in which a line has one place, and there is no room in it for
/// matrices. [`Board::flush_all`] puts all bytes that it holds into memory.
#[derive(Clone, Copy, Debug, PartialEq, Eq)]
pub struct SetsOfFour;

impl std::fmt::Display for SetsOfFour {
    fn fmt(&self, f: &mut std::fmt::Formatter) -> std::fmt::Result {
        f.write_str("a dump holds a board in which a line has one place, and this one has sets of four")
    }
}

impl std::error::Error for SetsOfFour {}

/// Why a board's dump is not written.
#[derive(Debug)]
pub enum WriteError {
    /// Its bytes could not be written; some of them may have been, and then the dump is cut.
    Io(io::Error),
    /// The board has none.
    SetsOfFour(SetsOfFour),
}

impl std::fmt::Display for WriteError {
    fn fmt(&self, f: &mut std::fmt::Formatter) -> std::fmt::Result {
        match self {
            WriteError::Io(error) => write!(f, "cannot write the dump: {error}"),
            WriteError::SetsOfFour(sets) => sets.fmt(f),
        }
    }
}

impl std::error::Error for WriteError {
    fn source(&self) -> Option<&(dyn std::error::Error + 'static)> {
        match self {
            WriteError::Io(error) => Some(error),
            WriteError::SetsOfFour(_) => None,
        }
    }
}

impl From<io::Error> for WriteError {
    fn from(error: io::Error) -> WriteError {
        WriteError::Io(error)
    }
}

impl From<SetsOfFour> for WriteError {
    fn from(sets: SetsOfFour) -> WriteError {
        WriteError::SetsOfFour(sets)
    }
}

/// What a dump is made of.
struct Parts<'a> {
    shape: Shape,
    pending: Option<u64>,
    slots: &'a [u32],
    words: &'a [u64],
    records: &'a [u64],
    cache: &'a [u8],
    memory: &'a [u8],
}

impl Parts<'_> {
    fn write(&self, mut out: impl Write) -> io::Result<()> {
        out.write_all(&self.header())?;
        words(&mut out, self.slots, u32::to_be_bytes)?;
        words(&mut out, self.words, u64::to_be_bytes)?;
        words(&mut out, self.records, u64::to_be_bytes)?;
        out.write_all(self.cache)?;
        out.write_all(self.memory)?;
        out.flush()
    }

    fn header(&self) -> Vec<u8> {
        let Shape { frames, uncached, processes, lines } = self.shape;
        let (set, name) = self.pending.map_or((0, 0), |name| (1, name));
        let lengths = [self.slots.len(), self.words.len(), self.records.len(), self.cache.len(), self.memory.len()];
        let shape = [frames, uncached, processes, lines].map(|number| number as u64);
        let numbers = shape.into_iter().chain([set, name]).chain(lengths.map(|length| length as u64));
        MAGIC.into_iter().chain([VERSION]).chain(numbers.flat_map(u64::to_be_bytes)).collect()
    }
}

fn words<T: Copy, const BYTES: usize>(
    out: &mut impl Write,
    words: &[T],
    bytes: fn(T) -> [u8; BYTES],
) -> io::Result<()> {
    let mut piece = Vec::with_capacity(PIECE_BYTES);
    for some in words.chunks(PIECE_BYTES / BYTES) {
        piece.clear();
        some.iter().for_each(|&word| piece.extend_from_slice(&bytes(word)));
        out.write_all(&piece)?;
    }
    Ok(())
}
