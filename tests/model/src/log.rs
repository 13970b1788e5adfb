//! CR 1's log of calls, with CR 9's kind: a reader of a whole log, a writer, and a replay, written from those requests and the
//! readings of them alone. Quotations are CR 1's, or CR 9's where it is named; "decided" marks a reading. The reader takes a log
//! as it is, whole: that a log may come "in pieces cut anywhere" is for the test that cuts it.

use crate::{limits_hold, Answer, Board, Call, Edition, Shape};
use std::fmt::Write;

// ---------------------------------------------------------------------------------------------
// Numbers
// ---------------------------------------------------------------------------------------------

/// Why a log is refused.
#[derive(Clone, Copy, Debug, PartialEq, Eq)]
pub enum Reason {
    /// "A last group of 0 after others".
    Padded,
    /// "a tenth byte above 1".
    TenthByte,
    /// "a cut log".
    Cut,
    /// "an unknown kind".
    UnknownKind,
    /// "a field too large".
    TooLarge,
}

impl Reason {
    /// In words, as the replay programs have them.
    pub fn words(self) -> &'static str {
        match self {
            Reason::Padded => "a number's last group is 0 after others",
            Reason::TenthByte => "a number's tenth byte is above 1",
            Reason::Cut => "the log is cut",
            Reason::UnknownKind => "a kind that is not known",
            Reason::TooLarge => "a field that is too large",
        }
    }
}

/// "refused with the place of that number's first byte, a cut with the log's length". Bytes are counted from 0.
#[derive(Clone, Copy, Debug, PartialEq, Eq)]
pub struct Refusal {
    pub reason: Reason,
    pub place: u64,
}

/// "numbers in variable-length groups of seven bits: low group first, top bit set on all groups but the last".
pub fn number(number: u64) -> Vec<u8> {
    let mut bytes = Vec::new();
    let mut rest = number;
    while rest >= 128 {
        bytes.push((rest % 128) as u8 + 128);
        rest /= 128;
    }
    bytes.push(rest as u8);
    bytes
}

/// A log, and how far it is read.
struct Bytes<'a> {
    log: &'a [u8],
    at: usize,
}

impl Bytes<'_> {
    fn is_at_end(&self) -> bool {
        self.at == self.log.len()
    }

    /// The next number, and the place of its first byte. Nine groups have 63 bits, so a tenth byte has the last one. Decided: a
    /// tenth byte above 1 is refused as such even where the log ends with it.
    fn number(&mut self) -> Result<(u64, u64), Refusal> {
        let place = self.at as u64;
        let mut number = 0;
        for group in 0..10 {
            let Some(&byte) = self.log.get(self.at) else {
                return Err(Refusal { reason: Reason::Cut, place: self.log.len() as u64 });
            };
            if group == 9 && byte > 1 {
                return Err(Refusal { reason: Reason::TenthByte, place });
            }
            if group > 0 && byte == 0 {
                return Err(Refusal { reason: Reason::Padded, place });
            }
            self.at += 1;
            number += u64::from(byte % 128) << (7 * group);
            if byte < 128 {
                return Ok((number, place));
            }
        }
        unreachable!("a tenth byte of 1 is the last")
    }
}

// ---------------------------------------------------------------------------------------------
// Kinds and fields
// ---------------------------------------------------------------------------------------------

/// "The log opens with F, U, P, L."
pub const HEADER_FIELDS: usize = 4;

/// What a field may be: "flag above 1; a load's value above 0; width, value or effective address from 2^32 up" is too large.
#[derive(Clone, Copy, Debug, PartialEq, Eq)]
pub enum Field {
    /// A process, a slot, a segment, a page, a frame, a line name, a physical line, a global address: whatever it is.
    Any,
    /// "load is 0 and store 1".
    LoadOrStore,
    /// A write bit.
    Flag,
    /// A width or an effective address.
    Short,
    /// A value.
    Value,
}

/// The fields of a kind, "in the order of 01"; none if the kind is unknown.
pub fn fields_of(kind: u64) -> Option<&'static [Field]> {
    use Field::*;
    Some(match kind {
        // "kind 1 user access": process, load or store, width, effective address, value.
        1 => &[Any, LoadOrStore, Short, Short, Value],
        // "2 supervisor access": "load or store, width, global address, value".
        2 => &[LoadOrStore, Short, Any, Value],
        // "3 attach": process, slot, segment, write bit.
        3 => &[Any, Any, Any, Flag],
        // "4 detach": process, slot.
        4 => &[Any, Any],
        // "5 map": page, frame, write bit.
        5 => &[Any, Any, Flag],
        // "6 unmap": page.
        6 => &[Any],
        // "7 protect": page, write bit.
        7 => &[Any, Flag],
        // "8 flush all".
        8 => &[],
        // "9 tag": line name.
        9 => &[Any],
        // "10 load-and-map": physical line.
        10 => &[Any],
        // "11 drop tag".
        11 => &[],
        // CR 9: "Log kind 12": page, new page.
        12 => &[Any, Any],
        _ => return None,
    })
}

/// Whether the number is too large for the next field of an entry of this kind, which has these fields so far.
fn too_large(kind: u64, so_far: &[u64], number: u64) -> bool {
    let fields = fields_of(kind).expect("a kind that is known");
    match fields[so_far.len()] {
        Field::Any => false,
        Field::LoadOrStore | Field::Flag => number > 1,
        Field::Short => number >= 1 << 32,
        Field::Value => {
            let load_or_store = fields.iter().position(|&field| field == Field::LoadOrStore).expect("an access");
            let load = so_far[load_or_store] == 0;
            number >= 1 << 32 || load && number > 0
        }
    }
}

/// A call as kind and fields.
pub fn numbers_of(call: &Call) -> (u64, Vec<u64>) {
    match *call {
        Call::UserAccess { process, store, width, address, value } => {
            (1, vec![process, store.into(), width.into(), address.into(), value.into()])
        }
        Call::SupervisorAccess { store, width, global, value } => {
            (2, vec![store.into(), width.into(), global, value.into()])
        }
        Call::Attach { process, slot, segment, write } => (3, vec![process, slot, segment, write.into()]),
        Call::Detach { process, slot } => (4, vec![process, slot]),
        Call::Map { page, frame, write } => (5, vec![page, frame, write.into()]),
        Call::Unmap { page } => (6, vec![page]),
        Call::Protect { page, write } => (7, vec![page, write.into()]),
        Call::FlushAll => (8, vec![]),
        Call::Tag { name } => (9, vec![name]),
        Call::LoadAndMap { line } => (10, vec![line]),
        Call::DropTag => (11, vec![]),
        Call::Move { page, new_page } => (12, vec![page, new_page]),
    }
}

/// The call of a kind and its fields, none of which is too large.
fn call_of(kind: u64, fields: &[u64]) -> Call {
    let short = |number: u64| u32::try_from(number).expect("a width, an address or a value has been asked");
    let flag = |number: u64| number == 1;
    match (kind, fields) {
        (1, &[process, store, width, address, value]) => Call::UserAccess {
            process,
            store: flag(store),
            width: short(width),
            address: short(address),
            value: short(value),
        },
        (2, &[store, width, global, value]) => {
            Call::SupervisorAccess { store: flag(store), width: short(width), global, value: short(value) }
        }
        (3, &[process, slot, segment, write]) => Call::Attach { process, slot, segment, write: flag(write) },
        (4, &[process, slot]) => Call::Detach { process, slot },
        (5, &[page, frame, write]) => Call::Map { page, frame, write: flag(write) },
        (6, &[page]) => Call::Unmap { page },
        (7, &[page, write]) => Call::Protect { page, write: flag(write) },
        (8, []) => Call::FlushAll,
        (9, &[name]) => Call::Tag { name },
        (10, &[line]) => Call::LoadAndMap { line },
        (11, []) => Call::DropTag,
        (12, &[page, new_page]) => Call::Move { page, new_page },
        _ => unreachable!("the kind is known and has its fields"),
    }
}

// ---------------------------------------------------------------------------------------------
// Reading
// ---------------------------------------------------------------------------------------------

/// What a log holds, as far as it is not refused.
#[derive(Clone, Debug, PartialEq, Eq)]
pub struct Log {
    /// F, U, P and L, whatever they are: none where the log is refused before they are there.
    pub header: Option<Shape>,
    pub calls: Vec<Call>,
    /// How many bytes of the log there are up to the end of the header, and up to the end of each call.
    pub ends: Vec<u64>,
    /// None where the log is good, to its end.
    pub refusal: Option<Refusal>,
}

/// Reads a whole log. Decided: an empty one is cut, at 0.
pub fn read(log: &[u8]) -> Log {
    let mut bytes = Bytes { log, at: 0 };
    let mut read = Log { header: None, calls: Vec::new(), ends: Vec::new(), refusal: None };
    read.refusal = read_entries(&mut bytes, &mut read).err();
    read
}

fn read_entries(bytes: &mut Bytes, read: &mut Log) -> Result<(), Refusal> {
    let mut number = || bytes.number().map(|(number, _)| number);
    let (frames, uncached, processes, lines) = (number()?, number()?, number()?, number()?);
    read.header = Some(Shape { frames, uncached, processes, lines });
    read.ends.push(bytes.at as u64);
    while !bytes.is_at_end() {
        let call = read_call(bytes)?;
        read.calls.push(call);
        read.ends.push(bytes.at as u64);
    }
    Ok(())
}

fn read_call(bytes: &mut Bytes) -> Result<Call, Refusal> {
    let (kind, place) = bytes.number()?;
    let count = fields_of(kind).ok_or(Refusal { reason: Reason::UnknownKind, place })?.len();
    let mut fields = Vec::with_capacity(count);
    while fields.len() < count {
        let (number, place) = bytes.number()?;
        if too_large(kind, &fields, number) {
            return Err(Refusal { reason: Reason::TooLarge, place });
        }
        fields.push(number);
    }
    Ok(call_of(kind, &fields))
}

// ---------------------------------------------------------------------------------------------
// Writing
// ---------------------------------------------------------------------------------------------

/// Why numbers are no entry of a log.
#[derive(Clone, Copy, Debug, PartialEq, Eq)]
pub enum Unwritable {
    UnknownKind,
    /// The first field that is too large, counted from 1. Decided: "a load that carries a value has no encoding".
    TooLarge(usize),
}

pub fn write_header(shape: &Shape) -> Vec<u8> {
    [shape.frames, shape.uncached, shape.processes, shape.lines].into_iter().flat_map(number).collect()
}

/// An entry by its kind and as many fields as that has.
pub fn write_entry(kind: u64, fields: &[u64]) -> Result<Vec<u8>, Unwritable> {
    let count = fields_of(kind).ok_or(Unwritable::UnknownKind)?.len();
    assert_eq!(fields.len(), count, "kind {kind} has so many fields");
    if let Some(field) = (0..count).find(|&field| too_large(kind, &fields[..field], fields[field])) {
        return Err(Unwritable::TooLarge(field + 1));
    }
    Ok([kind].iter().chain(fields).flat_map(|&field| number(field)).collect())
}

pub fn write_call(call: &Call) -> Result<Vec<u8>, Unwritable> {
    let (kind, fields) = numbers_of(call);
    write_entry(kind, &fields)
}

/// A whole log. Where a call can't be written: which, counted from 1, and why.
pub fn write(shape: &Shape, calls: &[Call]) -> Result<Vec<u8>, (usize, Unwritable)> {
    let mut log = write_header(shape);
    for (index, call) in calls.iter().enumerate() {
        log.extend(write_call(call).map_err(|why| (index + 1, why))?);
    }
    Ok(log)
}

// ---------------------------------------------------------------------------------------------
// Replaying
// ---------------------------------------------------------------------------------------------

/// The largest board that a replay takes.
#[derive(Clone, Copy, Debug, PartialEq, Eq)]
pub struct Largest {
    pub frames: u64,
    pub lines: u64,
    pub processes: u64,
}

/// "The program replays up to 8 frames, 64 lines and 16 processes".
pub const PROGRAM: Largest = Largest { frames: 8, lines: 64, processes: 16 };

/// What a replay gives: an answer to each call, and where and why the log was refused, in words, if it was.
#[derive(Clone, Debug, PartialEq, Eq)]
pub struct Replayed {
    pub answers: Vec<Answer>,
    pub refusal: Option<(u64, String)>,
}

/// Makes the calls of a log "from zeroed memory", on a board of 01's edition. Where there is a largest board, a log of a larger
/// one is refused: "else refuses at 0". Decided: that is asked once the four numbers are read, before any later refusal; other
/// numbers that are out of their limits are replayed, and every call is answered by 1.
pub fn replay(log: &[u8], largest: Option<Largest>) -> Replayed {
    replay_in(Edition::Ones, log, largest)
}

/// The same in either edition of CR 4: the log carries none.
pub fn replay_in(edition: Edition, log: &[u8], largest: Option<Largest>) -> Replayed {
    let Log { header, calls, refusal, .. } = read(log);
    let refusal = refusal.map(|Refusal { reason, place }| (place, reason.words().to_string()));
    let Some(shape) = header else { return Replayed { answers: Vec::new(), refusal } };
    if let Some(Largest { frames, lines, processes }) = largest {
        if shape.frames > frames || shape.lines > lines || shape.processes > processes {
            let words = format!("a board of more than {frames} frames, {lines} lines or {processes} processes");
            return Replayed { answers: Vec::new(), refusal: Some((0, words)) };
        }
    }
    let mut board = zeroed(edition, shape);
    Replayed { answers: calls.iter().map(|call| board.step(call).0).collect(), refusal }
}

/// A fresh board of zeros. Out of limits, whatever the lengths are every call is answered by 1, so there are no buffers then.
pub fn zeroed(edition: Edition, shape: Shape) -> Board {
    if limits_hold(edition, &shape) {
        return Board::fresh_of(edition, shape);
    }
    let none = Shape { frames: 0, uncached: 0, processes: 0, lines: 0 };
    Board { shape, ..Board::fresh_of(edition, none) }
}

impl Replayed {
    /// What the program writes: a row for each call, by its number in the log, with number, value and mark.
    pub fn rows(&self) -> String {
        let mut text = String::from("call answer value mark\n");
        for (index, Answer { number, value, mark }) in self.answers.iter().enumerate() {
            writeln!(text, "{} {number} {value} {mark}", index + 1).expect("text grows");
        }
        text
    }

    /// What it writes to standard error: nothing for a good log.
    pub fn complaint(&self) -> String {
        let calls = self.answers.len();
        match &self.refusal {
            Some((place, words)) => format!("replay: log refused at byte {place}, after {calls} calls: {words}\n"),
            None => String::new(),
        }
    }
}
