//! The four routes to the functions of logs: the raw declarations of the Rust crate; the C header's functions over each buffer,
//! and those over a reader and an entry (both by through.c); and the safe Rust crate. With a planted fault, a reader and a writer
//! that have it stand in for the library.

use crate::guarded::{Guarded, Real};
use crate::limits::*;
use crate::log_faults::{Faulty, Wrong};
use crate::logs::{self, Asked, Piece, Reading, State, Words};
use crate::plant::Plant;
use crate::routes::{told_in_c, told_safely, CAnswer, CBoard, Manner, Route, Way};
use model::{Answer, Edition, Shape};
use oaledva::ffi;
use oaledva::log::{Call, Calls, Entry, Reason, Refused, WriteError, Writer};
use std::io::Read;

/// A number of C, its parts as the header tells them.
#[repr(C)]
struct CWritten {
    packed: u64,
    reason: u32,
    field: u32,
    bytes: usize,
}

#[link(name = "through", kind = "static")]
extern "C" {
    fn through_log_constants(constants: *mut [usize; CONSTANTS]);
    fn through_log_fresh(state: *mut [u64; STATE_WORDS]);
    fn through_log_words(reason: u64) -> *const std::ffi::c_char;
    fn through_log_read(
        state: *mut u64,
        state_length: usize,
        piece: *const u8,
        piece_length: usize,
        entries: *mut u64,
        entries_length: usize,
    ) -> u64;
    fn through_log_reason(state: *const u64, state_length: usize, ended: u32) -> u64;
    fn through_log_place(state: *const u64, state_length: usize) -> u64;
    fn through_log_write(entry: *const u64, entry_length: usize, bytes: *mut u8, bytes_length: usize) -> CWritten;
    fn through_reader_take(
        reader: *mut u64,
        bytes: *mut *const u8,
        length: *mut usize,
        entries: *mut u64,
        count: usize,
    ) -> usize;
    fn through_reader_reason(reader: *const u64) -> u64;
    fn through_reader_end(reader: *const u64) -> u64;
    fn through_reader_place(reader: *const u64) -> u64;
    fn through_log_encode(entry: *const Words, bytes: *mut u8) -> CWritten;
    fn through_log_make(entry: *mut Words, yes: u32);
    fn through_board_perform(board: *mut CBoard, way: Way, entry: *const Words) -> CAnswer;
}

/// How many of the header's names are compared: kinds, reasons, and sizes.
const CONSTANTS: usize = ENTRIES.len() + 6 + 3;

/// What the header and the crate say of logs, against the documents. Gives what disagrees.
pub fn header_disagrees() -> Option<String> {
    let sizes = [ENTRY_WORDS, ENTRY_BYTES, STATE_WORDS];
    let (mut theirs, mut ours) = ([0; CONSTANTS], [0; CONSTANTS]);
    unsafe { through_log_constants(&mut theirs) };
    for (ours, number) in ours.iter_mut().zip((0..ENTRIES.len()).chain(1..=6).chain(sizes)) {
        *ours = number;
    }
    if theirs != ours {
        return Some(format!("the header's kinds, reasons and sizes of logs are {theirs:?}, the documents' {ours:?}"));
    }
    let mut fresh = [0; STATE_WORDS];
    unsafe { through_log_fresh(&mut fresh) };
    if fresh != FRESH_STATE || ffi::LOG_STATE_FRESH != FRESH_STATE {
        return Some(format!("a reader's first state is {fresh:?} in C, {:?} in Rust", ffi::LOG_STATE_FRESH));
    }
    for reason in [model::log::Reason::Padded, model::log::Reason::TenthByte, model::log::Reason::Cut]
        .into_iter()
        .chain([model::log::Reason::UnknownKind, model::log::Reason::TooLarge])
    {
        let number = logs::number_of(reason);
        // Safety: the header gives text that stands for ever.
        let in_c = unsafe { std::ffi::CStr::from_ptr(through_log_words(number)) }.to_string_lossy();
        let in_rust = Reason::of(number as u32).map_or("", Reason::words);
        if in_c != reason.words() || in_rust != reason.words() {
            return Some(format!("reason {number} is '{in_c}' in C, '{in_rust}' in Rust, '{}' here", reason.words()));
        }
    }
    None
}

/// Whether a fault, or none, is that of the reader and writer that stand in for the library.
fn stands_in(wrong: Option<Wrong>) -> bool {
    wrong.map_or(true, Wrong::stands_in)
}

/// A route that takes each buffer by itself.
pub fn by_words(route: Route) -> Route {
    match route {
        Route::Raw | Route::Safe => Route::Raw,
        Route::Header | Route::Board => Route::Header,
    }
}

enum By {
    Words(Route),
    /// In C, by a reader.
    Typed,
    Safe(oaledva::log::Reader),
    Faulty(Faulty),
}

/// A reader of a route, with its state between canaries, where it has it in words.
pub struct Reader {
    by: By,
    state: Guarded<u64>,
    plant: Option<Plant>,
}

impl Reader {
    pub fn of(reading: &Reading, route: Route, manner: &Manner, plant: Option<Plant>) -> Reader {
        let by = match (plant, route) {
            (Some(Plant::Log(wrong)), _) if stands_in(wrong) => By::Faulty(Faulty::of(wrong)),
            (_, Route::Safe) => By::Safe(oaledva::log::Reader::new()),
            (_, Route::Board) => By::Typed,
            (_, route) => By::Words(route),
        };
        let mut state = Guarded::holding(&reading.state, reading.offsets[0]);
        if matches!(by, By::Typed) && manner.null {
            // In C a reader may begin with zeros, too.
            state.inner_mut().fill(0);
        }
        Reader { by, state, plant }
    }

    /// The state, where the route shows it.
    pub fn state(&self) -> Option<&[u64]> {
        match self.by {
            By::Safe(_) => None,
            By::Typed if self.state.inner() == [0; STATE_WORDS] => Some(&FRESH_STATE),
            _ => Some(self.state.inner()),
        }
    }

    pub fn taken(&self) -> u64 {
        match &self.by {
            By::Safe(reader) => reader.taken(),
            _ => self.state.inner().first().copied().unwrap_or(0),
        }
    }

    pub fn intact(&self) -> bool {
        self.state.intact()
    }

    /// Puts something into the words that are not read.
    pub fn scribble(&mut self, stain: u64) {
        let Some(State { there, .. }) = State::of(self.state.inner()) else { return };
        if matches!(self.by, By::Words(_) | By::Faulty(_)) {
            self.state.inner_mut()[4 + there.len()..STATE_WORDS - 1].fill(stain);
        }
    }

    /// One call. `Err` where the route's own forms disagree.
    pub fn take(&mut self, piece: &mut Guarded<u8>, entries: &mut Guarded<u64>, null: bool) -> Result<u64, String> {
        let (length, words, before) = (piece.len(), entries.len(), self.taken());
        let (bytes, room) = (piece.pointer(null).cast_const(), entries.pointer(null));
        let (state, state_length) = (self.state.pointer(null), self.state.len());
        match &mut self.by {
            // Safety: the buffers are as long as is said, and apart from each other.
            By::Words(Route::Raw) => {
                Ok(unsafe { ffi::oaledva_log_read(state, state_length, bytes, length, room, words) })
            }
            By::Words(_) => Ok(unsafe { through_log_read(state, state_length, bytes, length, room, words) }),
            By::Typed => {
                let (mut next, mut left) = (bytes, length);
                // Safety: as above; a reader is the words of its state, and an entry is six words.
                let given = unsafe { through_reader_take(state, &mut next, &mut left, room, words / ENTRY_WORDS) };
                let taken = (self.taken() - before) as usize;
                left += usize::from(self.plant == Some(Plant::Log(Some(Wrong::Moves))));
                if next != bytes.wrapping_add(taken) || left != length - taken {
                    let moved = (next as usize).wrapping_sub(bytes as usize);
                    return Err(format!("the piece moved by {moved} bytes and has {left} left; {taken} were taken"));
                }
                Ok(given as u64)
            }
            By::Safe(reader) => {
                // Safety: an entry is six words without gaps, and so many of them stand there. The safe route has no NULL.
                let room = unsafe {
                    std::slice::from_raw_parts_mut(entries.pointer(false).cast::<Entry>(), words / ENTRY_WORDS)
                };
                let mut left = piece.inner();
                let given = reader.take(&mut left, room);
                let taken = (reader.taken() - before) as usize;
                if left != &piece.inner()[taken..] || left.as_ptr() != piece.inner()[taken..].as_ptr() {
                    return Err(format!("{} bytes of the piece are left, and {taken} were taken", left.len()));
                }
                given.iter().try_for_each(comes_back)?;
                Ok(given.len() as u64)
            }
            By::Faulty(faulty) => Ok(faulty.read(&mut self.state, piece, entries)),
        }
    }

    /// What it says of itself.
    pub fn asked(&mut self, manner: &Manner) -> Asked {
        let (state, length) = (self.state.pointer(manner.null).cast_const(), self.state.len());
        let asked = |open, ended, place| Asked { open, ended, place, calls: None };
        match &self.by {
            // Safety: the state is as long as is said.
            By::Words(Route::Raw) => unsafe {
                let reason = |ended| ffi::oaledva_log_reason(state, length, ended);
                asked(reason(0), reason(manner.yes), ffi::oaledva_log_place(state, length))
            },
            By::Words(_) => unsafe {
                let reason = |ended| through_log_reason(state, length, ended);
                asked(reason(0), reason(manner.yes), through_log_place(state, length))
            },
            By::Typed => unsafe {
                asked(through_reader_reason(state), through_reader_end(state), through_reader_place(state))
            },
            By::Safe(reader) => {
                let number = |refused: &Refused| u64::from(refused.reason.number());
                let (open, ended) = (reader.refused(), reader.end().err());
                let place = ended.as_ref().map_or(reader.taken(), |refused| refused.place);
                Asked {
                    open: open.as_ref().map_or(0, number),
                    ended: ended.as_ref().map_or(0, number),
                    place,
                    calls: Some(reader.calls() + u64::from(self.plant == Some(Plant::Log(Some(Wrong::CallsOver))))),
                }
            }
            By::Faulty(faulty) => {
                let (open, ended) = (faulty.reason(&mut self.state, 0), faulty.reason(&mut self.state, manner.yes));
                asked(open, ended, faulty.place(self.state.inner()))
            }
        }
    }
}

/// An entry that the safe crate reads, as a board's numbers or a call, and made of that again.
fn comes_back(entry: &Entry) -> Result<(), String> {
    let again = match entry.kind {
        Entry::HEADER => entry.shape().map(Entry::from),
        _ => entry.call().map(Entry::from),
    };
    if again == Some(*entry) {
        return Ok(());
    }
    Err(format!("{entry:?} becomes {again:?} by way of its numbers or its call"))
}

/// A log that comes in pieces.
struct Pieces<'a> {
    log: &'a [u8],
    pieces: Vec<usize>,
    next: usize,
}

impl Read for Pieces<'_> {
    fn read(&mut self, buffer: &mut [u8]) -> std::io::Result<usize> {
        let length = self.pieces[self.next % self.pieces.len()].min(self.log.len()).min(buffer.len());
        self.next += 1;
        let (piece, rest) = self.log.split_at(length);
        buffer[..length].copy_from_slice(piece);
        self.log = rest;
        Ok(length)
    }
}

/// A log's header and calls by the safe crate's iterator, and how it ends: by a reason and a place.
pub fn iterated(log: &[u8], pieces: &[Piece]) -> (Option<Words>, Vec<Call>, Option<(u64, u64)>) {
    // An empty piece would say that the log has ended.
    let pieces: Vec<usize> = pieces.iter().map(|piece| piece.bytes.max(1)).chain([1]).collect();
    let refused = |error| match error {
        oaledva::log::ReadError::Refused(Refused { reason, place, .. }) => Some((reason.number().into(), place)),
        oaledva::log::ReadError::Io(error) => panic!("{error}"),
    };
    let calls = match Calls::of(Pieces { log, pieces, next: 0 }) {
        Ok(calls) => calls,
        Err(error) => return (None, Vec::new(), refused(error)),
    };
    let header = words_of(&Entry::from(calls.shape()));
    let (mut all, mut end) = (Vec::new(), None);
    for call in calls {
        match call {
            Ok(call) => all.push(call),
            Err(error) => end = refused(error),
        }
    }
    (Some(header), all, end)
}

fn words_of(entry: &Entry) -> Words {
    let mut words = [entry.kind; ENTRY_WORDS];
    words[1..].copy_from_slice(&entry.fields);
    words
}

pub fn call_words(call: &Call) -> Words {
    words_of(&Entry::from(*call))
}

/// The calls made on a fresh board of zeros of this edition, by the two routes that make calls of entries.
pub fn replayed(edition: Edition, shape: &Shape, entries: &[Words], route: Route) -> Option<Vec<Answer>> {
    match route {
        Route::Raw | Route::Header => None,
        Route::Board => {
            let mut real = Real::of(&model::log::zeroed(edition, *shape), &[0; 6]);
            let mut board = CBoard::of(&mut real, false);
            let way = Manner { route, yes: 1, null: false }.way(edition);
            // Safety: the board's buffers stand, and are its own; an entry is six words.
            let perform = |entry: &Words| unsafe { through_board_perform(&mut board, way, entry) };
            Some(entries.iter().map(perform).map(|told| told_in_c(told).answer).collect())
        }
        Route::Safe => {
            let [frames, uncached, processes, lines] =
                [shape.frames, shape.uncached, shape.processes, shape.lines].map(|number| number as usize);
            let shape = oaledva::Shape { frames, uncached, processes, lines };
            let edition = match edition {
                Edition::Ones => oaledva::Edition::OnePlace,
                Edition::Fours => oaledva::Edition::SetsOfFour,
            };
            let board = oaledva::Board::for_replay_in(edition, shape);
            let mut board = board.expect("memory for a board of moderate size");
            let perform = |words: &Words| {
                let call = entry_of(words).call().expect("a call that was read");
                let done = board.perform(&call);
                told_safely(done, board.mark(), board.hit()).answer
            };
            Some(entries.iter().map(perform).collect())
        }
    }
}

fn entry_of(words: &Words) -> Entry {
    let &[kind, ref fields @ ..] = words;
    Entry { kind, fields: *fields }
}

/// Writes an entry. Gives the library's number; `Err` where a route's own forms disagree.
pub fn write(
    entry: &mut Guarded<u64>,
    bytes: &mut Guarded<u8>,
    route: Route,
    Manner { yes, null, .. }: &Manner,
    plant: Option<Plant>,
) -> Result<u64, String> {
    match plant {
        Some(Plant::Log(wrong)) if stands_in(wrong) => return Ok(Faulty::of(wrong).write(entry, bytes)),
        _ => {}
    }
    let (words, room, null) = (entry.len(), bytes.len(), *null);
    let agrees = |packed: u64, reason: u32, field: u32, bytes: usize| {
        agrees(packed, reason, field + u32::from(plant == Some(Plant::Log(Some(Wrong::Parts)))), bytes)
    };
    match route {
        Route::Raw => {
            // Safety: the buffers are as long as is said, and apart from each other.
            let written = unsafe { ffi::oaledva_log_write(entry.pointer(null), words, bytes.pointer(null), room) };
            // Safety: it is a number of 64 bits.
            let packed = unsafe { std::mem::transmute::<ffi::LogWritten, u64>(written) };
            agrees(packed, written.reason(), written.field(), written.bytes())
        }
        Route::Header => {
            // Safety: as above.
            let written = unsafe { through_log_write(entry.pointer(null), words, bytes.pointer(null), room) };
            agrees(written.packed, written.reason, written.field, written.bytes)
        }
        Route::Board => {
            let own: Words = entry.inner().try_into().expect("an entry");
            let mut made = own;
            if logs::written(&own, room).is_ok() {
                // Safety: an entry is six words.
                unsafe { through_log_make(&mut made, *yes) };
            }
            // Safety: likewise, and there is room enough.
            let written = unsafe { through_log_encode(&own, bytes.pointer(false)) };
            if made != own {
                return Err(format!("the header's own function makes {made:x?} of {own:x?}"));
            }
            agrees(written.packed, written.reason, written.field, written.bytes)
        }
        Route::Safe => {
            let written = safe_write(&entry_of(entry.inner().try_into().expect("an entry")))?;
            if let Ok(made) = &written {
                bytes.inner_mut()[..made.len()].copy_from_slice(made);
            }
            Ok(written.map_or_else(|refused| refused, |made| made.len() as u64))
        }
    }
}

/// What is told of a written entry, as one number and in parts.
fn agrees(packed: u64, reason: u32, field: u32, bytes: usize) -> Result<u64, String> {
    let right = if reason == 0 { bytes as u64 } else { (u64::from(reason) << 32) + u64::from(field) };
    let other = if reason == 0 { field as usize } else { bytes };
    if packed == right && other == 0 {
        return Ok(packed);
    }
    Err(format!("writing gives {packed:#x}, in parts reason {reason}, field {field}, {bytes} bytes"))
}

/// By a writer of the safe crate: the header at its beginning, any other behind a header. A second header is refused, and so is
/// what can't be written, and nothing of it is written; the same call twice is written twice.
fn safe_write(entry: &Entry) -> Result<Result<Vec<u8>, u64>, String> {
    let shape = oaledva::Shape { frames: 1, uncached: 0, processes: 1, lines: 1 };
    let own = entry.shape();
    let mut log = Writer::new(Vec::new(), own.unwrap_or(shape)).map_err(|error| error.to_string())?;
    let header = log.get_ref().clone();
    let refused = |error| match error {
        WriteError::Unfit(unfit) => {
            let field = unfit.field().unwrap_or(0) as u64;
            Ok((u64::from(unfit.reason().number()) << 32) + field)
        }
        WriteError::Io(error) => Err(error.to_string()),
    };
    if own.is_some() {
        let second = log.write(*entry).err().map(refused).transpose()?;
        if second != Some(reason::UNKNOWN_KIND << 32) || *log.get_ref() != header {
            return Err(format!("a second header gives {second:x?}"));
        }
        return Ok(Ok(header));
    }
    let first = log.write(*entry).err().map(refused).transpose()?;
    let made = log.get_ref()[header.len()..].to_vec();
    if let Some(call) = entry.call() {
        let again = log.write(call).err().map(refused).transpose()?;
        if again.is_some() || log.get_ref()[header.len() + made.len()..] != made {
            return Err(format!("{entry:?} as a call is written otherwise, or refused: {again:x?}"));
        }
    }
    match first {
        None => Ok(Ok(made)),
        Some(refused) if made.is_empty() => Ok(Err(refused)),
        Some(_) => Err(format!("{} bytes of a refused entry were written", made.len())),
    }
}
