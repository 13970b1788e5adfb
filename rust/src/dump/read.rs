use super::{Dump, ELEMENT_BYTES, HEADER_BYTES, LENGTHS_AT, MAGIC, NUMBER_BYTES, PIECE_BYTES, TAG_AT, VERSION};
use crate::Shape;
use std::io::{self, Read};

impl Dump {
    /// Reads a dump out of anything that can be read, to its end: a file, a pipe, `&[u8]`. It reads large pieces, so that a
    /// buffered reader between is of no use.
    ///
    /// No length is trusted: memory is taken as the bytes come, so that a file which claims more than it has takes no more than
    /// it has, and is refused as cut. Where there is no memory the error says so ([`io::ErrorKind::OutOfMemory`]), and the
    /// program goes on.
    ///
    /// ```no_run
    /// use oaledva::dump::Dump;
    ///
    /// let mut dump = Dump::read(std::fs::File::open("board.dump")?)?;
    /// match dump.lent().check() {
    ///     Ok(()) => println!("sound"),
    ///     Err(broken) => println!("{broken}"),
    /// }
    /// # Ok::<(), Box<dyn std::error::Error>>(())
    /// ```
    pub fn read(source: impl Read) -> Result<Dump, ReadError> {
        let mut source = Source { source, taken: 0 };
        source.opening()?;
        let [frames, uncached, processes, lines] = source.numbers()?.map(|number| number as usize);
        let pending = source.tag()?;
        let [slots, words, records, cache, memory] = source.lengths()?;
        let dump = Dump {
            shape: Shape { frames, uncached, processes, lines },
            pending,
            slots: source.words(slots, u32::from_be_bytes)?,
            words: source.words(words, u64::from_be_bytes)?,
            records: source.words(records, u64::from_be_bytes)?,
            cache: source.bytes(cache)?,
            memory: source.bytes(memory)?,
        };
        source.end()?;
        Ok(dump)
    }

    /// The same of bytes that are there already, for which nothing but a refusal can be wrong.
    ///
    /// ```
    /// use oaledva::dump::{Dump, Reason, Refused};
    ///
    /// let refused = Dump::from_bytes(b"OALDUMMY").unwrap_err();
    /// assert_eq!(refused, Refused { reason: Reason::NotADump, place: 6 });
    /// assert_eq!(refused.to_string(), "dump refused at byte 6: a dump begins with other bytes");
    /// ```
    ///
    /// # Panics
    /// Where there is no memory for it.
    pub fn from_bytes(bytes: &[u8]) -> Result<Dump, Refused> {
        Dump::read(bytes).map_err(|error| match error {
            ReadError::Refused(refused) => refused,
            ReadError::Io(error) => panic!("cannot hold the dump: {error}"),
        })
    }
}

/// Why a file is no dump. It is refused for the first thing that is wrong in it.
#[derive(Clone, Copy, Debug, PartialEq, Eq, Hash)]
pub enum Reason {
    /// It does not begin as a dump does; the place is that of the first byte that differs.
    NotADump,
    /// It is a dump of a version that is not known here; the place is that of the version, 7.
    UnknownVersion,
    /// The number that says whether a tag is pending is above 1; the place is that of the number, 40.
    TagMark,
    /// No tag is pending, and its name is not 0; the place is that of the name, 48.
    NameWithoutTag,
    /// With this length the dump passes 2^64 bytes; the place is that of the length, from 56 to 88.
    TooLong,
    /// It ends before the dump does; the place is the file's length.
    Cut,
    /// It goes on after the dump; the place is where the dump ends.
    Longer,
}

impl Reason {
    /// The reason in words.
    pub fn words(self) -> &'static str {
        match self {
            Reason::NotADump => "a dump begins with other bytes",
            Reason::UnknownVersion => "a version that is not known",
            Reason::TagMark => "a tag is pending (1) or not (0), and this is neither",
            Reason::NameWithoutTag => "no tag is pending, and its name is not 0",
            Reason::TooLong => "with this length the dump passes 2^64 bytes",
            Reason::Cut => "the dump is cut",
            Reason::Longer => "the dump ends here, and the file goes on",
        }
    }
}

impl std::fmt::Display for Reason {
    fn fmt(&self, f: &mut std::fmt::Formatter) -> std::fmt::Result {
        f.write_str(self.words())
    }
}

/// Why a file was refused, and where.
#[derive(Clone, Copy, Debug, PartialEq, Eq, Hash)]
pub struct Refused {
    /// Why.
    pub reason: Reason,
    /// The place, in bytes from the file's start.
    pub place: u64,
}

impl std::fmt::Display for Refused {
    fn fmt(&self, f: &mut std::fmt::Formatter) -> std::fmt::Result {
        write!(f, "dump refused at byte {}: {}", self.place, self.reason)
    }
}

impl std::error::Error for Refused {}

/// What a dump's bytes came to.
#[derive(Debug)]
pub enum ReadError {
    /// They could not be read, or there is no memory for them.
    Io(io::Error),
    /// They were read, and are no dump.
    Refused(Refused),
}

impl std::fmt::Display for ReadError {
    fn fmt(&self, f: &mut std::fmt::Formatter) -> std::fmt::Result {
        match self {
            ReadError::Io(error) => write!(f, "cannot read the dump: {error}"),
            ReadError::Refused(refused) => refused.fmt(f),
        }
    }
}

impl std::error::Error for ReadError {
    fn source(&self) -> Option<&(dyn std::error::Error + 'static)> {
        match self {
            ReadError::Io(error) => Some(error),
            ReadError::Refused(_) => None,
        }
    }
}

impl From<io::Error> for ReadError {
    fn from(error: io::Error) -> ReadError {
        ReadError::Io(error)
    }
}

impl From<Refused> for ReadError {
    fn from(refused: Refused) -> ReadError {
        ReadError::Refused(refused)
    }
}

/// What is read, and how many bytes of it were.
struct Source<R> {
    source: R,
    taken: u64,
}

impl<R: Read> Source<R> {
    /// As many bytes as there is room for, or all there are.
    fn some(&mut self, room: &mut [u8]) -> io::Result<usize> {
        let mut filled = 0;
        while filled < room.len() {
            match self.source.read(&mut room[filled..]) {
                Ok(0) => break,
                Ok(count) => filled += count,
                Err(error) if error.kind() == io::ErrorKind::Interrupted => {}
                Err(error) => return Err(error),
            }
        }
        self.taken += filled as u64;
        Ok(filled)
    }

    /// As many bytes as there is room for: where they end before, the dump is cut.
    fn fill(&mut self, room: &mut [u8]) -> Result<(), ReadError> {
        match self.some(room)? {
            filled if filled < room.len() => Err(Refused { reason: Reason::Cut, place: self.taken }.into()),
            _ => Ok(()),
        }
    }

    /// Byte by byte, because a byte that differs is wrong even where the file ends behind it.
    fn opening(&mut self) -> Result<(), ReadError> {
        let expected =
            MAGIC.map(|byte| (byte, Reason::NotADump)).into_iter().chain([(VERSION, Reason::UnknownVersion)]);
        for (place, (expected, reason)) in (0..).zip(expected) {
            let mut byte = [0];
            self.fill(&mut byte)?;
            if byte != [expected] {
                return Err(Refused { reason, place }.into());
            }
        }
        Ok(())
    }

    fn number(&mut self) -> Result<u64, ReadError> {
        let mut bytes = [0; NUMBER_BYTES as usize];
        self.fill(&mut bytes)?;
        Ok(u64::from_be_bytes(bytes))
    }

    fn numbers<const COUNT: usize>(&mut self) -> Result<[u64; COUNT], ReadError> {
        let mut numbers = [0; COUNT];
        for number in &mut numbers {
            *number = self.number()?;
        }
        Ok(numbers)
    }

    fn tag(&mut self) -> Result<Option<u64>, ReadError> {
        let set = self.number()?;
        if set > 1 {
            return Err(Refused { reason: Reason::TagMark, place: TAG_AT }.into());
        }
        let name = self.number()?;
        if set == 0 && name != 0 {
            return Err(Refused { reason: Reason::NameWithoutTag, place: TAG_AT + NUMBER_BYTES }.into());
        }
        Ok((set == 1).then_some(name))
    }

    fn lengths(&mut self) -> Result<[u64; 5], ReadError> {
        let (mut lengths, mut end) = ([0; 5], HEADER_BYTES);
        for (index, length) in lengths.iter_mut().enumerate() {
            *length = self.number()?;
            let bytes = length.checked_mul(ELEMENT_BYTES[index]);
            let place = LENGTHS_AT + NUMBER_BYTES * index as u64;
            let too_long = Refused { reason: Reason::TooLong, place };
            end = bytes.and_then(|bytes| end.checked_add(bytes)).ok_or(too_long)?;
        }
        Ok(lengths)
    }

    fn words<T, const BYTES: usize>(&mut self, length: u64, word: fn([u8; BYTES]) -> T) -> Result<Vec<T>, ReadError> {
        let (mut words, mut piece) = (Vec::new(), [0; PIECE_BYTES]);
        while (words.len() as u64) < length {
            let count = grow(&mut words, length)?;
            let bytes = &mut piece[..BYTES * count];
            self.fill(bytes)?;
            let of = |bytes: &[u8]| word(bytes.try_into().expect("a word's bytes"));
            words.extend(bytes.chunks_exact(BYTES).map(of));
        }
        Ok(words)
    }

    fn bytes(&mut self, length: u64) -> Result<Vec<u8>, ReadError> {
        let mut bytes = Vec::new();
        while (bytes.len() as u64) < length {
            let (filled, count) = (bytes.len(), grow(&mut bytes, length)?);
            bytes.resize(filled + count, 0);
            self.fill(&mut bytes[filled..])?;
        }
        Ok(bytes)
    }

    fn end(mut self) -> Result<(), ReadError> {
        let place = self.taken;
        match self.some(&mut [0])? {
            0 => Ok(()),
            _ => Err(Refused { reason: Reason::Longer, place }.into()),
        }
    }
}

/// Makes room for some of the elements that are to come, and says for how many: those of a piece at most. What is taken beyond
/// that is never more than what has come already.
fn grow<T>(elements: &mut Vec<T>, length: u64) -> io::Result<usize> {
    let left = usize::try_from(length).unwrap_or(usize::MAX) - elements.len();
    let piece = PIECE_BYTES / std::mem::size_of::<T>();
    if elements.len() == elements.capacity() {
        let more = left.min(elements.len().max(piece));
        elements.try_reserve_exact(more).map_err(|_| io::ErrorKind::OutOfMemory)?;
    }
    Ok(left.min(piece).min(elements.capacity() - elements.len()))
}
