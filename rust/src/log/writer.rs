use super::{Entry, Kind, Reason};
use crate::ffi::{self, LOG_ENTRY_BYTES, LOG_ENTRY_WORDS};
use crate::Shape;
use std::io::{self, Write};

/// Writes a log, call by call, to anything that bytes can be written to. Each call goes there at once and by one write, so that
/// what a recorder has logged is there if it ends; where that is too slow, put a [`BufWriter`](std::io::BufWriter) between.
///
/// ```
/// use oaledva::log::{Call, Writer};
/// use oaledva::Shape;
///
/// let mut log = Writer::new(Vec::new(), Shape { frames: 4, uncached: 1, processes: 2, lines: 2 })?;
/// log.write(Call::Map { page: 0x200000, frame: 1, write: true })?;
/// log.write(Call::FlushAll)?;
/// assert_eq!(log.into_inner(), [4, 1, 2, 2, 5, 0x80, 0x80, 0x80, 1, 1, 1, 8]);
/// # Ok::<(), Box<dyn std::error::Error>>(())
/// ```
#[derive(Debug)]
pub struct Writer<W: Write> {
    out: W,
}

impl<W: Write> Writer<W> {
    /// Writes the header: the four numbers of the board, whatever they are.
    pub fn new(out: W, shape: Shape) -> io::Result<Writer<W>> {
        let mut log = Writer { out };
        match log.put(shape.into()) {
            Ok(()) => Ok(log),
            Err(WriteError::Io(error)) => Err(error),
            Err(WriteError::Unfit(unfit)) => unreachable!("{unfit}"),
        }
    }

    /// Writes a call: a [`Call`](super::Call), which every log can hold; an [`Access`](crate::Access) of a list; or an [`Entry`]
    /// of any numbers. One that a log can't hold is [`Unfit`], and nothing is written of it: a load with a value, a number too
    /// large, a kind that is none. So is a second header.
    ///
    /// ```
    /// # use oaledva::log::Writer;
    /// # use oaledva::Shape;
    /// use oaledva::log::{Entry, Kind, WriteError};
    /// # let mut log = Writer::new(Vec::new(), Shape { frames: 4, uncached: 1, processes: 2, lines: 2 })?;
    /// let load = Entry { kind: Kind::UserAccess.number().into(), fields: [0, 0, 1, 3, 50] };
    /// let Err(WriteError::Unfit(unfit)) = log.write(load) else { panic!("it has an encoding") };
    /// assert_eq!(unfit.field(), Some(5));
    /// assert_eq!(unfit.to_string(), "a field that is too large: value 50 in user access (a load has none)");
    /// # Ok::<(), Box<dyn std::error::Error>>(())
    /// ```
    pub fn write(&mut self, call: impl Into<Entry>) -> Result<(), WriteError> {
        let entry = call.into();
        if entry.kind == Entry::HEADER {
            return Err(Unfit { reason: Reason::UnknownKind, field: 0, entry }.into());
        }
        self.put(entry)
    }

    /// What is written to.
    pub fn get_ref(&self) -> &W {
        &self.out
    }

    /// What is written to, to flush it, say. Whatever else is written there spoils the log.
    pub fn get_mut(&mut self) -> &mut W {
        &mut self.out
    }

    /// Ends the log, and gives back what it was written to. Nothing is flushed.
    pub fn into_inner(self) -> W {
        self.out
    }

    fn put(&mut self, entry: Entry) -> Result<(), WriteError> {
        let mut bytes = [0; LOG_ENTRY_BYTES];
        let numbers = std::ptr::addr_of!(entry).cast();
        // Safety: entry and bytes are locals, lent with their own lengths; an entry is so many numbers without gaps.
        let written = unsafe { ffi::oaledva_log_write(numbers, LOG_ENTRY_WORDS, bytes.as_mut_ptr(), LOG_ENTRY_BYTES) };
        match Reason::of(written.reason()) {
            None => Ok(self.out.write_all(&bytes[..written.bytes()])?),
            Some(reason) => Err(Unfit { reason, field: written.field() as usize, entry }.into()),
        }
    }
}

/// What a log can't hold.
#[derive(Clone, Copy, Debug, PartialEq, Eq)]
pub struct Unfit {
    reason: Reason,
    field: usize,
    entry: Entry,
}

impl Unfit {
    /// [`Reason::UnknownKind`] or [`Reason::TooLarge`].
    pub fn reason(&self) -> Reason {
        self.reason
    }

    /// The first field that is too large, counted from 1; `None` where the kind is what is wrong.
    pub fn field(&self) -> Option<usize> {
        (self.field != 0).then_some(self.field)
    }

    /// What was to be written.
    pub fn entry(&self) -> Entry {
        self.entry
    }
}

impl std::fmt::Display for Unfit {
    fn fmt(&self, f: &mut std::fmt::Formatter) -> std::fmt::Result {
        let Unfit { reason, field, entry } = *self;
        write!(f, "{}: ", reason.words())?;
        let Some(kind) = Kind::of(entry.kind).filter(|_| field != 0) else { return write!(f, "{}", entry.kind) };
        let (number, call) = (entry.fields[field - 1], kind.words());
        let Some(&name) = kind.fields().get(field - 1) else {
            return write!(f, "field {field}, which {call} does not have, is {number}");
        };
        write!(f, "{name} {number} in {call}")?;
        // A value that stores may have is too large for a load alone.
        if name == "value" && number <= u32::MAX.into() {
            write!(f, " (a load has none)")?;
        }
        Ok(())
    }
}

impl std::error::Error for Unfit {}

/// Why a call is not in the log.
#[derive(Debug)]
pub enum WriteError {
    /// Its bytes could not be written; some of them may have been, and then the log is cut.
    Io(io::Error),
    /// No log can hold it. Nothing of it was written, and the log may go on.
    Unfit(Unfit),
}

impl std::fmt::Display for WriteError {
    fn fmt(&self, f: &mut std::fmt::Formatter) -> std::fmt::Result {
        match self {
            WriteError::Io(error) => write!(f, "cannot write the log: {error}"),
            WriteError::Unfit(unfit) => unfit.fmt(f),
        }
    }
}

impl std::error::Error for WriteError {
    fn source(&self) -> Option<&(dyn std::error::Error + 'static)> {
        match self {
            WriteError::Io(error) => Some(error),
            WriteError::Unfit(_) => None,
        }
    }
}

impl From<io::Error> for WriteError {
    fn from(error: io::Error) -> WriteError {
        WriteError::Io(error)
    }
}

impl From<Unfit> for WriteError {
    fn from(unfit: Unfit) -> WriteError {
        WriteError::Unfit(unfit)
    }
}
