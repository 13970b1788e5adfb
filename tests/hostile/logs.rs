//! Logs (CR 1), by the library beside the model: a log read in pieces, from a reader's state, and an entry written. The model reads
//! whole logs only. What one call of a reader must give and leave is worked out here of its state and its piece: the state stands
//! for bytes that came before, and the model reads those and the piece. At the end of a reading that began with a fresh state, all
//! its entries and its end must be those of the whole log.

use crate::coverage::Coverage;
use crate::guarded::Guarded;
use crate::limits::*;
use crate::log_faults::Wrong;
use crate::log_routes::{self, Reader};
use crate::log_sights::{self, Tally};
use crate::plant::Plant;
use crate::routes::{Manner, Route};
use crate::run::{differs, same, same_buffer, Difference, Kind};
use model::log::{self, Reason, Unwritable};
use model::{Edition, Shape};
use std::fmt::Write;

/// An entry as numbers.
pub type Words = [u64; ENTRY_WORDS];

/// How the log is offered: so many bytes of it, with room for so many entries, and for some words more.
#[derive(Clone, Copy, Debug, PartialEq, Eq)]
pub struct Piece {
    pub bytes: usize,
    pub room: usize,
    pub torn: usize,
}

impl Piece {
    pub const fn of(bytes: usize, room: usize) -> Piece {
        Piece { bytes, room, torn: 0 }
    }

    fn words(&self) -> usize {
        ENTRY_WORDS * self.room + self.torn
    }
}

/// A log to be read.
#[derive(Clone, Debug, PartialEq, Eq)]
pub struct Reading {
    /// The state that the reader begins with.
    pub state: Vec<u64>,
    /// None: what the run has written.
    pub log: Option<Vec<u8>>,
    /// The pieces, one after another and then again, until the log is used up or refused, or none of them takes any more.
    pub pieces: Vec<Piece>,
    /// What stands in the room before: this, turned a little from one word to the next.
    pub stain: u64,
    /// Where the state, the pieces and the entries start, as the board's buffers do.
    pub offsets: [usize; 3],
}

impl Reading {
    /// By a fresh reader.
    pub fn of(log: Vec<u8>, pieces: Vec<Piece>) -> Reading {
        Reading { state: FRESH_STATE.to_vec(), log: Some(log), pieces, stain: 0, offsets: [0; 3] }
    }

    pub fn is_fresh(&self) -> bool {
        self.state == FRESH_STATE
    }

    /// The route that carries it: two have readers that begin fresh, and room for whole entries only.
    fn route(&self, route: Route) -> Route {
        let carries = self.is_fresh() && self.pieces.iter().all(|piece| piece.torn == 0);
        if carries {
            route
        } else {
            log_routes::by_words(route)
        }
    }
}

/// An entry to be written.
#[derive(Clone, Debug, PartialEq, Eq)]
pub struct Writing {
    pub entry: Vec<u64>,
    /// How many bytes of room there are, and what stands there before.
    pub room: usize,
    pub stain: u64,
    /// Where the entry and the room start.
    pub offsets: [usize; 2],
}

impl Writing {
    pub fn of(entry: Words) -> Writing {
        Writing { entry: entry.to_vec(), room: ENTRY_BYTES, stain: 0, offsets: [0; 2] }
    }

    /// The route that carries it: two take whole entries, and have room enough; a header of the safe crate has no fifth field.
    fn route(&self, route: Route) -> Route {
        let carries = match self.entry[..] {
            [0, _, _, _, _, more] => more == 0 || route != Route::Safe,
            _ => self.entry.len() == ENTRY_WORDS,
        };
        if carries && self.room >= ENTRY_BYTES {
            route
        } else {
            log_routes::by_words(route)
        }
    }
}

/// The stain of a buffer, word by word or byte by byte.
pub fn stains(stain: u64, length: usize) -> impl Iterator<Item = u64> {
    (0..length).map(move |index| stain.rotate_left(7 * (index as u32 % 64)))
}

// ---------------------------------------------------------------------------------------------
// Entries of the model
// ---------------------------------------------------------------------------------------------

fn entry_of(kind: u64, fields: &[u64]) -> Words {
    let mut words = [0; ENTRY_WORDS];
    words[0] = kind;
    words[1..=fields.len()].copy_from_slice(fields);
    words
}

pub fn header_entry(shape: &Shape) -> Words {
    entry_of(0, &[shape.frames, shape.uncached, shape.processes, shape.lines])
}

pub fn call_entry(call: &model::Call) -> Words {
    let (kind, fields) = log::numbers_of(call);
    entry_of(kind, &fields)
}

/// Everything that a log holds, as numbers.
pub fn entries_of(read: &log::Log) -> Vec<Words> {
    read.header.iter().map(header_entry).chain(read.calls.iter().map(call_entry)).collect()
}

pub fn number_of(reason: Reason) -> u64 {
    match reason {
        Reason::Padded => reason::PADDED,
        Reason::TenthByte => reason::TENTH_BYTE,
        Reason::Cut => reason::CUT,
        Reason::UnknownKind => reason::UNKNOWN_KIND,
        Reason::TooLarge => reason::TOO_LARGE,
    }
}

// ---------------------------------------------------------------------------------------------
// What a call of a reader must give
// ---------------------------------------------------------------------------------------------

/// A reader's state, taken apart.
#[derive(Clone, Debug, PartialEq, Eq)]
pub struct State {
    pub taken: u64,
    pub groups: u64,
    pub worth: u64,
    /// Those of the entry's words that are there.
    pub there: Vec<u64>,
    pub reason: u64,
}

impl State {
    /// None where the words are no reader's state.
    pub fn of(words: &[u64]) -> Option<State> {
        let &[taken, groups, worth, there, _, _, _, _, _, _, reason] = words else { return None };
        let whole = groups <= 9 && groups <= taken && u128::from(worth) < 128u128.pow(groups as u32);
        let fields = fields_of(words[4]).len() as u64;
        let reasons = [0, reason::PADDED, reason::TENTH_BYTE, reason::UNKNOWN_KIND, reason::TOO_LARGE];
        if !whole || there > fields || !reasons.contains(&reason) {
            return None;
        }
        Some(State { taken, groups, worth, there: words[4..4 + there as usize].to_vec(), reason })
    }

    /// As words; those that aren't read are 0.
    fn words(&self) -> Vec<u64> {
        let mut words = vec![self.taken, self.groups, self.worth, self.there.len() as u64];
        words.extend(&self.there);
        words.resize(STATE_WORDS - 1, 0);
        words.push(self.reason);
        words
    }

    fn in_header(&self) -> bool {
        self.there.first() == Some(&0)
    }

    /// Bytes that bring a reader of the model's to this state, and where the entry begins in them. A field that no log has is
    /// changed to one that a log has, of which the rest doesn't depend: whether it is a load is kept.
    fn before(&self) -> (Vec<u8>, usize) {
        let mut bytes = if self.in_header() { Vec::new() } else { log::write_header(&NO_BOARD) };
        let begin = bytes.len();
        let kind = self.there.first().copied().unwrap_or(0);
        for (index, &word) in self.there.iter().enumerate().skip(usize::from(self.in_header())) {
            let limit = if index == 0 { Limit::Any } else { fields_of(kind)[index - 1].1 };
            let most = end_of_field(limit, false).map_or(u64::MAX, |end| end - 1);
            bytes.extend(log::number(word.min(most)));
        }
        bytes.extend((0..self.groups).map(|group| (self.worth >> (7 * group)) as u8 | 0x80));
        (bytes, begin)
    }

    /// Why the log is refused, if it ends here or goes on.
    pub fn refused(&self, ended: bool) -> u64 {
        match self.reason {
            0 if ended && (self.groups > 0 || !self.there.is_empty()) => reason::CUT,
            reason => reason,
        }
    }

    pub fn place(&self) -> u64 {
        if self.reason == 0 {
            self.taken
        } else {
            self.taken - self.groups
        }
    }
}

const NO_BOARD: Shape = Shape { frames: 0, uncached: 0, processes: 0, lines: 0 };

/// What a call of a reader gives, and the state after it.
pub struct Took {
    pub given: Vec<Words>,
    pub after: State,
}

/// None where the buffers don't fit the call.
pub fn taken(state: &[u64], piece: &[u8], words: usize) -> Option<Took> {
    let state = State::of(state)?;
    let (room, torn) = (words / ENTRY_WORDS, words % ENTRY_WORDS);
    if torn != 0 || state.taken.checked_add(piece.len() as u64).is_none() {
        return None;
    }
    if room == 0 || piece.is_empty() || state.reason != 0 {
        return Some(Took { given: Vec::new(), after: state });
    }
    let (mut bytes, begin) = state.before();
    let before = bytes.len();
    bytes.extend_from_slice(piece);
    let read = log::read(&bytes);
    let done = read.ends.iter().filter(|&&end| end <= before as u64).count();
    let mut given = entries_of(&read);
    given.drain(..done);
    given.truncate(room);
    let refused = read.refusal.filter(|refusal| refusal.reason != Reason::Cut && given.len() < room);
    let last = given.len().checked_sub(1).map(|index| read.ends[done + index] as usize);
    let end = match (last, refused) {
        (Some(last), _) if given.len() == room => last,
        (_, Some(refusal)) => log_sights::number_end(&bytes, refusal.place as usize) - 1,
        _ => bytes.len(),
    };
    // What is left of the last entry.
    let (mut there, groups) = log_sights::numbers(&bytes[last.unwrap_or(begin)..end]);
    if last.is_none() && state.in_header() {
        there.insert(0, 0);
    }
    let begun = given.first_mut().map_or(&mut there[..], |first| &mut first[..]);
    begun[..state.there.len()].copy_from_slice(&state.there);
    let after = State {
        taken: state.taken + (end - before) as u64,
        groups: groups.len() as u64,
        worth: log_sights::worth(groups),
        there,
        reason: refused.map_or(0, |refusal| number_of(refusal.reason)),
    };
    Some(Took { given, after })
}

/// What writing an entry gives: its bytes, or a reason and a field as one number.
pub fn written(entry: &[u64], room: usize) -> Result<Vec<u8>, u64> {
    let refused = |reason: u64, field: usize| Err((reason << 32) + field as u64);
    let &[kind, ref fields @ ..] = entry else { return refused(reason::MISFIT, 0) };
    if entry.len() != ENTRY_WORDS || room < ENTRY_BYTES {
        return refused(reason::MISFIT, 0);
    }
    let count = fields_of(kind).len();
    let bytes = match kind {
        0 => Ok(fields[..count].iter().flat_map(|&field| log::number(field)).collect()),
        _ => log::write_entry(kind, &fields[..count]),
    };
    match bytes {
        Err(Unwritable::UnknownKind) => refused(reason::UNKNOWN_KIND, 0),
        Err(Unwritable::TooLarge(field)) => refused(reason::TOO_LARGE, field),
        Ok(bytes) => match (count..fields.len()).find(|&field| fields[field] != 0) {
            Some(field) => refused(reason::TOO_LARGE, field + 1),
            None => Ok(bytes),
        },
    }
}

// ---------------------------------------------------------------------------------------------
// Comparing
// ---------------------------------------------------------------------------------------------

type Check = Result<(), Difference>;

/// What a run has written: the entries that it was given, and the bytes that the library made of them.
#[derive(Clone, Default)]
pub struct Written {
    entries: Vec<Words>,
    bytes: Vec<u8>,
}

impl Written {
    /// "Written then read gives the same calls", if what was written is a log: a header and then calls.
    fn same_as(&self, read: &[Words], plant: Option<Plant>) -> Check {
        let mut read = read.to_vec();
        if plant == Some(Plant::Log(Some(Wrong::Trip))) {
            read.iter_mut().for_each(|entry| entry[1] ^= 1);
        }
        let headers = self.entries.iter().filter(|entry| entry[0] == 0).count();
        if headers != 1 || self.entries[0][0] != 0 {
            return Ok(());
        }
        same(Kind::Trip, "how many entries", read.len(), self.entries.len(), "the run")?;
        same_buffer(Kind::Trip, "entries", &read.concat(), &self.entries.concat(), "those that were written")
    }
}

/// One call of a reader: what was offered, from where in the log, and what it had to give; none where the buffers don't fit.
pub struct Call<'a> {
    pub log: &'a [u8],
    pub from: usize,
    pub piece: Piece,
    pub before: &'a [u64],
    pub took: &'a Option<Took>,
}

impl Call<'_> {
    pub fn offered(&self) -> &[u8] {
        &self.log[self.from..self.log.len().min(self.from + self.piece.bytes)]
    }
}

/// Brings a reading by its route, and compares each of its calls. Gives what happened, in words.
pub fn read(
    reading: &Reading,
    written: &Written,
    manner: &Manner,
    plant: Option<Plant>,
    coverage: &mut Coverage,
) -> Result<String, Difference> {
    let route = reading.route(manner.route);
    let log = reading.log.as_ref().unwrap_or(&written.bytes);
    let mut reader = Reader::of(reading, route, manner, plant);
    let mut tally = Tally::of(manner);
    let mut state = reading.state.clone();
    let (mut at, mut all, mut text) = (0, Vec::new(), String::new());
    asked(&mut reader, &state, 0, manner)?;
    loop {
        let before = at;
        for &piece in &reading.pieces {
            let (from, offered) = (at, &log[at..log.len().min(at + piece.bytes)]);
            let took = taken(&state, offered, piece.words());
            take(&mut reader, offered, &took, reading, piece, manner)?;
            tally.call(&Call { log, from, piece, before: &state, took: &took });
            write!(text, "{} bytes, room for {} words: ", offered.len(), piece.words()).expect("text grows");
            match took {
                None => text += "they don't fit\n    ",
                Some(took) => {
                    at += (took.after.taken - state[0]) as usize;
                    let (given, bytes) = (took.given.len(), took.after.taken);
                    write!(text, "{given} entries, {bytes} bytes taken in all\n    ").expect("text grows");
                    all.extend_from_slice(&took.given);
                    state = took.after.words();
                }
            }
            asked(&mut reader, &state, all.len(), manner)?;
        }
        if at == before {
            break;
        }
    }
    let mut told = reader.asked(manner);
    let text = format!("{text}at its end: reason {}, place {}", told.ended, told.place);
    if let Some(Plant::Log(Some(wrong))) = plant {
        wrong.after_reading(&mut all, &mut told);
    }
    if reading.is_fresh() {
        whole(log, at, &all, &told)?;
        if route == Route::Safe {
            iterated(log, reading, plant)?;
        }
        if reading.log.is_none() && at == log.len() {
            written.same_as(&all, plant)?;
            tally.trip(&replayed(log, route, plant)?);
        }
        tally.whole(log, &State::of(&state).expect("a fresh state becomes a reader's state"));
    } else if let Some(end) = State::of(&state) {
        tally.wild(&reading.state, log, &end);
    }
    coverage.logs.count_reading(route, &tally);
    Ok(text)
}

/// One call of a reader.
fn take(
    reader: &mut Reader,
    offered: &[u8],
    took: &Option<Took>,
    reading: &Reading,
    piece: Piece,
    manner: &Manner,
) -> Check {
    let mut room: Vec<u64> = stains(reading.stain, piece.words()).collect();
    let mut bytes = Guarded::holding(offered, reading.offsets[1]);
    let mut entries = Guarded::holding(&room, reading.offsets[2]);
    reader.scribble(reading.stain);
    let before: Option<Vec<u64>> = reader.state().map(<[u64]>::to_vec);
    let given = reader.take(&mut bytes, &mut entries, manner.null).map_err(|text| differs(Kind::Form, text))?;
    let buffers = [("the state", reader.intact()), ("the piece", bytes.intact()), ("the entries", entries.intact())];
    if let Some((name, _)) = buffers.iter().find(|(_, intact)| !intact) {
        return Err(differs(Kind::Canary, format!("bytes around {name} were written")));
    }
    same_buffer(Kind::Inputs, "the piece", bytes.inner(), offered, "the piece as it was")?;
    let Some(Took { given: expected, after }) = took else {
        same(Kind::Read, "how many entries", given, MISFIT, "buffers that don't fit")?;
        same_buffer(Kind::Refused, "entries", entries.inner(), &room, "those before")?;
        let (state, before) = (reader.state().unwrap_or(&[]), before.unwrap_or_default());
        return same_buffer(Kind::Refused, "state", state, &before, "the one before");
    };
    same(Kind::Read, "how many entries", given, expected.len() as u64, "the model")?;
    for (words, entry) in room.chunks_exact_mut(ENTRY_WORDS).zip(expected) {
        words.copy_from_slice(entry);
    }
    same_buffer(Kind::Read, "entries", entries.inner(), &room, "the model's, and those before behind them")?;
    if let Some(state) = reader.state() {
        let (state, right) = (State::of(state), Some(after));
        if state.as_ref() != right {
            let text = format!("the state: the library has {state:?}, and by the model it is {after:?}");
            return Err(differs(Kind::Read, text));
        }
    }
    same(Kind::Read, "bytes taken", reader.taken(), after.taken, "the model")
}

/// What a reader says of itself: why the log is refused as it goes on, and where it ends here; and the place.
#[derive(Clone, Copy, Debug, PartialEq, Eq)]
pub struct Asked {
    pub open: u64,
    pub ended: u64,
    pub place: u64,
    /// How many calls it has given, where the route says so.
    pub calls: Option<u64>,
}

/// The questions, by a state, behind so many entries. They change nothing.
fn asked(reader: &mut Reader, state: &[u64], entries: usize, manner: &Manner) -> Check {
    let before: Option<Vec<u64>> = reader.state().map(<[u64]>::to_vec);
    let told = reader.asked(manner);
    let state = State::of(state);
    let right = |ended| state.as_ref().map_or(reason::MISFIT, |state| state.refused(ended));
    same(Kind::Asked, "the reason", told.open, right(false), "the state")?;
    same(Kind::Asked, "the reason where the log ends", told.ended, right(true), "the state")?;
    same(Kind::Asked, "the place", told.place, state.as_ref().map_or(0, State::place), "the state")?;
    if let Some(calls) = told.calls {
        same(Kind::Asked, "the calls given", calls, entries.saturating_sub(1) as u64, "the model")?;
    }
    if !reader.intact() {
        return Err(differs(Kind::Canary, "bytes around the state were written"));
    }
    let (now, before) = (reader.state().unwrap_or(&[]), before.unwrap_or_default());
    same_buffer(Kind::Refused, "state", now, &before, "the one before the questions")
}

/// A reading from a fresh state, as far as it got, against the whole log.
fn whole(log: &[u8], at: usize, all: &[Words], told: &Asked) -> Check {
    let read = log::read(log);
    let count = read.ends.iter().filter(|&&end| end <= at as u64).count();
    let expected = &entries_of(&read)[..count];
    same(Kind::Whole, "how many entries", all.len(), count, "the whole log")?;
    same_buffer(Kind::Whole, "entries", &all.concat(), &expected.concat(), "the whole log")?;
    let refusal = if told.open != 0 || at == log.len() { read.refusal } else { log::read(&log[..at]).refusal };
    let (reason, place) = refusal.map_or((0, at as u64), |refusal| (number_of(refusal.reason), refusal.place));
    same(Kind::Whole, "the reason", told.ended, reason, "the whole log")?;
    same(Kind::Whole, "the place", told.place, place, "the whole log")
}

/// The safe crate's iterator over a whole log, whatever the pieces in which it comes.
fn iterated(log: &[u8], reading: &Reading, plant: Option<Plant>) -> Check {
    let read = log::read(log);
    let (header, calls, end) = log_routes::iterated(log, &reading.pieces);
    let mut entries: Vec<Words> = header.into_iter().chain(calls.iter().map(log_routes::call_words)).collect();
    if plant == Some(Plant::Log(Some(Wrong::Iterates))) && entries.len() > 1 {
        entries.pop();
    }
    let whose = "the whole log, by the iterator";
    same(Kind::Whole, "how many entries", entries.len(), read.ends.len(), whose)?;
    same_buffer(Kind::Whole, "entries", &entries.concat(), &entries_of(&read).concat(), whose)?;
    let refusal = read.refusal.map(|refusal| (number_of(refusal.reason), refusal.place));
    if end == refusal {
        return Ok(());
    }
    Err(differs(Kind::Whole, format!("the iterator ends with {end:?}, the whole log with {refusal:?}")))
}

/// A run that was written, made again of its log in each edition, by the header's function or the safe crate's: as the model
/// replays it. Gives the number of each of its moves, in each edition.
fn replayed(log: &[u8], route: Route, plant: Option<Plant>) -> Result<Vec<(Edition, u32)>, Difference> {
    let read = log::read(log);
    let mut moves = Vec::new();
    let Some(shape) = read.header.filter(is_moderate) else { return Ok(moves) };
    let entries: Vec<Words> = read.calls.iter().map(call_entry).collect();
    for (edition, values, numbers) in [
        (Edition::Ones, Wrong::Replay, Wrong::ReplayMove),
        (Edition::Fours, Wrong::ReplayFours, Wrong::ReplayMoveFours),
    ] {
        let Some(mut answers) = log_routes::replayed(edition, &shape, &entries, route) else { return Ok(moves) };
        let is_planted = |wrong: Wrong| plant == Some(Plant::Log(Some(wrong)));
        for (answer, entry) in answers.iter_mut().zip(&entries) {
            answer.value ^= u32::from(is_planted(values));
            answer.number ^= u32::from(is_planted(numbers) && entry[0] == MOVE);
        }
        let replayed = log::replay_in(edition, log, None);
        for (index, (answer, expected)) in answers.iter().zip(&replayed.answers).enumerate() {
            if answer != expected {
                let text = format!("call {} made again in sets of {}: {answer:?}", index + 1, set_lines(edition));
                return Err(differs(Kind::Trip, format!("{text}, by the model {expected:?}")));
            }
            if entries[index][0] == MOVE {
                moves.push((edition, answer.number));
            }
        }
    }
    Ok(moves)
}

/// A board that is no larger than need be for a test, or out of the limits.
fn is_moderate(shape: &Shape) -> bool {
    shape.frames <= 8 && shape.lines <= 64 && shape.processes <= 16 || !model::limits_hold(Edition::Ones, shape)
}

/// Brings an entry to be written by its route, and compares. Gives what happened, in words.
pub fn write(
    writing: &Writing,
    written: &mut Written,
    manner: &Manner,
    plant: Option<Plant>,
    coverage: &mut Coverage,
) -> Result<String, Difference> {
    let route = writing.route(manner.route);
    let mut room: Vec<u8> = stains(writing.stain, writing.room).map(|stain| stain as u8).collect();
    let mut entry = Guarded::holding(&writing.entry, writing.offsets[0]);
    let mut bytes = Guarded::holding(&room, writing.offsets[1]);
    let told = log_routes::write(&mut entry, &mut bytes, route, manner, plant);
    let told = told.map_err(|text| differs(Kind::Form, text))?;
    let buffers = [("the entry", entry.intact()), ("the bytes", bytes.intact())];
    if let Some((name, _)) = buffers.iter().find(|(_, intact)| !intact) {
        return Err(differs(Kind::Canary, format!("bytes around {name} were written")));
    }
    same_buffer(Kind::Inputs, "the entry", entry.inner(), &writing.entry, "the entry as it was")?;
    let expected = self::written(&writing.entry, writing.room);
    let number = expected.as_ref().map_or_else(|refused| *refused, |bytes| bytes.len() as u64);
    same(Kind::Written, "writing", told, number, "the model")?;
    let kind = if expected.is_ok() { Kind::Written } else { Kind::Refused };
    if let Ok(expected) = &expected {
        room[..expected.len()].copy_from_slice(expected);
    }
    same_buffer(kind, "bytes", bytes.inner(), &room, "the model's, and those before behind them")?;
    if expected.is_ok() {
        written.entries.push(writing.entry[..].try_into().expect("six words"));
        written.bytes.extend_from_slice(&bytes.inner()[..told as usize]);
    }
    coverage.logs.count_writing(route, writing, manner.null, &expected);
    Ok(match expected {
        Ok(bytes) => format!("bytes {bytes:02x?}"),
        Err(refused) => format!("reason {}, field {}", refused >> 32, refused as u32),
    })
}
