use super::{Call, Entry, Reason};
use crate::ffi::{self, LOG_ENTRY_WORDS, LOG_NOTHING, LOG_STATE_FRESH, LOG_STATE_WORDS};
use crate::Shape;
use std::io::{self, Read};
use std::ops::Range;

/// Reads a log in pieces, cut anywhere: for a program that gets its bytes by and by, or allocates nothing. [`Calls`] is easier
/// where they come from a [`Read`].
///
/// ```
/// use oaledva::log::{Call, Entry, Reader, Reason};
///
/// let log = [4, 1, 2, 2, 6, 0x80, 0x80, 0x80, 1, 8, 13]; // a header; unmap page 0x200000; flush all; and no kind has 13
/// let (mut reader, mut room, mut calls) = (Reader::new(), [Entry::NONE; 2], Vec::new());
/// for mut piece in log.chunks(3) {
///     while let entries @ [_, ..] = reader.take(&mut piece, &mut room) {
///         calls.extend(entries.iter().filter_map(Entry::call)); // all but the header
///     }
/// }
/// assert_eq!(calls, [Call::Unmap { page: 0x200000 }, Call::FlushAll]);
/// let refused = reader.end().unwrap_err();
/// assert_eq!((refused.reason, refused.place, refused.calls), (Reason::UnknownKind, 10, 2));
/// assert_eq!(refused.to_string(), "log refused at byte 10, after 2 calls: a kind that is not known");
/// ```
#[derive(Clone, Debug)]
pub struct Reader {
    state: [u64; LOG_STATE_WORDS],
    /// How many it gave.
    entries: u64,
}

impl Reader {
    /// A reader at a log's start.
    pub const fn new() -> Reader {
        Reader { state: LOG_STATE_FRESH, entries: 0 }
    }

    /// Takes the bytes of a piece until the room is full, the piece is used up or the log is refused, and gives the entries that
    /// became whole: the first of a log is its header, the others are calls. `piece` is then what is left of it: nothing, or
    /// what the next call is to bring, with room again. Where it gives no entry, and there was room for one, this piece has
    /// no more: the log goes on in the next, or it is refused, which [`Reader::refused`] tells.
    ///
    /// # Panics
    /// Where the log reaches 2^64 bytes.
    pub fn take<'room>(&mut self, piece: &mut &[u8], room: &'room mut [Entry]) -> &'room [Entry] {
        let before = self.state[0];
        let words = LOG_ENTRY_WORDS * room.len();
        // Safety: state, piece and room are slices with their own lengths, each entry so many numbers without gaps, whose count
        // fits because the slice's bytes do. State and room are borrowed mutably, so they are apart from all else.
        let given = unsafe {
            ffi::oaledva_log_read(
                self.state.as_mut_ptr(),
                LOG_STATE_WORDS,
                piece.as_ptr(),
                piece.len(),
                room.as_mut_ptr().cast(),
                words,
            )
        };
        assert_ne!(given, LOG_NOTHING, "a log has fewer than 2^64 bytes");
        *piece = &piece[(self.state[0] - before) as usize..];
        self.entries += given;
        &room[..given as usize]
    }

    /// Whether the log is refused. Then this reader takes nothing more.
    pub fn refused(&self) -> Option<Refused> {
        self.refusal(false)
    }

    /// Says that the log has ended here. It is refused if it was before, and if it is cut: inside a number or a call, or before
    /// its header is whole.
    pub fn end(&self) -> Result<(), Refused> {
        self.refusal(true).map_or(Ok(()), Err)
    }

    /// How many bytes it has taken.
    pub fn taken(&self) -> u64 {
        self.state[0]
    }

    /// How many calls it gave.
    pub fn calls(&self) -> u64 {
        self.entries.saturating_sub(1)
    }

    fn refusal(&self, ended: bool) -> Option<Refused> {
        let (state, length) = (self.state.as_ptr(), LOG_STATE_WORDS);
        // Safety: the state is an array, lent with its own length.
        let reason = unsafe { ffi::oaledva_log_reason(state, length, ended.into()) };
        let place = || unsafe { ffi::oaledva_log_place(state, length) };
        Reason::of(reason as u32).map(|reason| Refused { reason, place: place(), calls: self.calls() })
    }
}

impl Default for Reader {
    fn default() -> Reader {
        Reader::new()
    }
}

/// Why a log was refused, and where. The calls before it were given.
#[derive(Clone, Copy, Debug, PartialEq, Eq)]
pub struct Refused {
    /// Why.
    pub reason: Reason,
    /// The place, in bytes from the log's start, of the number that is wrong; of a cut log its length.
    pub place: u64,
    /// How many calls were whole before.
    pub calls: u64,
}

impl std::fmt::Display for Refused {
    fn fmt(&self, f: &mut std::fmt::Formatter) -> std::fmt::Result {
        let Refused { reason, place, calls } = self;
        write!(f, "log refused at byte {place}, after {calls} calls: {}", reason.words())
    }
}

impl std::error::Error for Refused {}

/// What a log's bytes came to.
#[derive(Debug)]
pub enum ReadError {
    /// They could not be read.
    Io(io::Error),
    /// They were read, and are no log from some place on.
    Refused(Refused),
}

impl std::fmt::Display for ReadError {
    fn fmt(&self, f: &mut std::fmt::Formatter) -> std::fmt::Result {
        match self {
            ReadError::Io(error) => write!(f, "cannot read the log: {error}"),
            ReadError::Refused(refused) => refused.fmt(f),
        }
    }
}

impl std::error::Error for ReadError {
    fn source(&self) -> Option<&(dyn std::error::Error + 'static)> {
        match self {
            ReadError::Io(error) => Some(error),
            ReadError::Refused(_) => None,
        }
    }
}

impl From<io::Error> for ReadError {
    fn from(error: io::Error) -> ReadError {
        ReadError::Io(error)
    }
}

impl From<Refused> for ReadError {
    fn from(refused: Refused) -> ReadError {
        ReadError::Refused(refused)
    }
}

/// Bytes that are asked of the source at a time.
const PIECE_BYTES: usize = 1 << 16;
/// Entries that are asked of the library at a time: so many fit into a processor's nearest cache.
const ROOM: usize = 256;

/// The calls of a log, one after another, out of anything that can be read: a file, a pipe, `&[u8]`. It reads large pieces, so
/// that a buffered reader between is of no use, and gives each call as soon as its bytes are there.
///
/// ```no_run
/// use oaledva::log::Calls;
/// use oaledva::Board;
///
/// let calls = Calls::of(std::fs::File::open("session.log")?)?;
/// let mut board = Board::for_replay(calls.shape())?;
/// for call in calls {
///     let call = call?;
///     if let Err(refusal) = board.perform(&call) {
///         println!("{call:?}: {refusal}");
///     }
/// }
/// # Ok::<(), Box<dyn std::error::Error>>(())
/// ```
///
/// Where the log is refused, or can't be read further, it gives all calls before that, then the error, and then nothing more.
pub struct Calls<R> {
    source: R,
    shape: Shape,
    reader: Reader,
    bytes: Box<[u8]>,
    /// Those of the bytes that the reader has not taken.
    left: Range<usize>,
    entries: Box<[Entry]>,
    /// Those of the entries that were not given.
    next: Range<usize>,
    over: bool,
}

impl<R: Read> Calls<R> {
    /// Reads the header.
    pub fn of(source: R) -> Result<Calls<R>, ReadError> {
        let mut calls = Calls {
            source,
            shape: Shape { frames: 0, uncached: 0, processes: 0, lines: 0 },
            reader: Reader::new(),
            bytes: vec![0; PIECE_BYTES].into_boxed_slice(),
            left: 0..0,
            entries: vec![Entry::NONE; ROOM].into_boxed_slice(),
            next: 0..0,
            over: false,
        };
        // A log that ends before its header is whole is cut.
        let more = calls.more()?;
        let header = calls.next.next().filter(|_| more).and_then(|first| calls.entries[first].shape());
        calls.shape = header.expect("a log's first entry is its header");
        Ok(calls)
    }

    /// The four numbers of the board that the calls were made on. They are what the log says, within the limits or not:
    /// [`Board::for_replay`](crate::Board::for_replay) takes them as they are.
    pub fn shape(&self) -> Shape {
        self.shape
    }

    /// How many bytes of the log were taken: those of the calls that it gave, and of some after them.
    pub fn taken(&self) -> u64 {
        self.reader.taken()
    }

    /// Has the next entries, or says that there are none, once and for all.
    #[cold]
    #[inline(never)]
    fn refill(&mut self) -> Option<Result<(), ReadError>> {
        if self.over {
            return None;
        }
        let more = self.more();
        self.over = !matches!(more, Ok(true));
        more.map(|more| more.then_some(())).transpose()
    }

    /// Has the next entries, if there are any.
    fn more(&mut self) -> Result<bool, ReadError> {
        loop {
            let mut piece = &self.bytes[self.left.clone()];
            let given = self.reader.take(&mut piece, &mut self.entries).len();
            self.left.start = self.left.end - piece.len();
            if given != 0 {
                self.next = 0..given;
                return Ok(true);
            }
            if let Some(refused) = self.reader.refused() {
                return Err(refused.into());
            }
            match self.source.read(&mut self.bytes) {
                Ok(0) => return Ok(self.reader.end().map(|()| false)?),
                Ok(length) => self.left = 0..length,
                Err(error) if error.kind() == io::ErrorKind::Interrupted => {}
                Err(error) => return Err(error.into()),
            }
        }
    }
}

impl<R: Read> Iterator for Calls<R> {
    type Item = Result<Call, ReadError>;

    // Inlined, so that what becomes of a call goes by registers: a call that is put together in memory, field by field, and at
    // once copied as a whole, has to wait for its fields to arrive there, which takes as long as reading it.
    #[inline(always)]
    fn next(&mut self) -> Option<Result<Call, ReadError>> {
        if self.next.is_empty() {
            if let Err(error) = self.refill()? {
                return Some(Err(error));
            }
        }
        let call = self.entries[self.next.start].call();
        self.next.start += 1;
        Some(Ok(call.expect("every entry after the header is a call")))
    }
}

impl<R: Read> std::iter::FusedIterator for Calls<R> {}

impl<R> std::fmt::Debug for Calls<R> {
    fn fmt(&self, f: &mut std::fmt::Formatter) -> std::fmt::Result {
        f.debug_struct("Calls").field("shape", &self.shape).field("reader", &self.reader).finish_non_exhaustive()
    }
}
