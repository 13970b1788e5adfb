//! A run as data: the board it starts on, then what is done. It is written as lines of text and read back from them.

use crate::coverage::Sort;
use crate::dumps::Dump;
use crate::guarded::Offsets;
use crate::limits::{matrix_bytes, EDITIONS, MATRIX_BYTES};
use crate::lists::{Item, List};
use crate::logs::{Piece, Reading, Writing};
use crate::plant::{self, Plant};
use crate::routes::{Manner, ROUTES};
use model::{Board, Call, Matrix, Shape, FRESH_MATRIX};
use std::fmt::Write;

#[derive(Clone)]
pub struct Start {
    /// A fresh board: the plain machine runs beside it.
    pub fresh: bool,
    pub board: Board,
    pub offsets: Offsets,
}

impl Start {
    pub fn sort(&self) -> Sort {
        Sort { edition: self.board.edition, fresh: self.fresh }
    }
}

#[derive(Clone, Debug, PartialEq, Eq)]
pub enum Deed {
    Call(Call),
    /// A list of user accesses.
    List(List),
    Look {
        line: u64,
    },
    LookNumber {
        line: u64,
    },
    /// Asks for the entry of a page: of no board.
    Entry {
        page: u64,
    },
    /// Reads a log in pieces: of no board.
    Read(Reading),
    /// Writes an entry of a log: of no board.
    Write(Writing),
    /// Checks the board, or repairs it.
    Dump(Dump),
    /// Looks at every physical line and compares with the plain machine's memory; asks for two copies of a line.
    Audit,
}

#[derive(Clone, Debug, PartialEq, Eq)]
pub struct Step {
    pub deed: Deed,
    pub manner: Manner,
}

#[derive(Clone)]
pub struct Trace {
    pub start: Start,
    pub steps: Vec<Step>,
    pub plant: Option<Plant>,
}

// ----- deeds in words -----

/// A deed's name and its arguments, flags as 0 and 1; those of a list in `list_text`, of logs in `reading_text` and
/// `writing_text`, of checks and repairs in `dump_text`.
fn parts(deed: &Deed) -> (&'static str, Vec<(&'static str, u64)>) {
    match *deed {
        Deed::Call(Call::UserAccess { process, store, width, address, value }) => (
            "user-access",
            vec![
                ("process", process),
                ("store", store.into()),
                ("width", width.into()),
                ("address", address.into()),
                ("value", value.into()),
            ],
        ),
        Deed::Call(Call::SupervisorAccess { store, width, global, value }) => (
            "supervisor-access",
            vec![("store", store.into()), ("width", width.into()), ("global", global), ("value", value.into())],
        ),
        Deed::Call(Call::Attach { process, slot, segment, write }) => {
            ("attach", vec![("process", process), ("slot", slot), ("segment", segment), ("write", write.into())])
        }
        Deed::Call(Call::Detach { process, slot }) => ("detach", vec![("process", process), ("slot", slot)]),
        Deed::Call(Call::Map { page, frame, write }) => {
            ("map", vec![("page", page), ("frame", frame), ("write", write.into())])
        }
        Deed::Call(Call::Unmap { page }) => ("unmap", vec![("page", page)]),
        Deed::Call(Call::Protect { page, write }) => ("protect", vec![("page", page), ("write", write.into())]),
        Deed::Call(Call::Move { page, new_page }) => ("move", vec![("page", page), ("new-page", new_page)]),
        Deed::Call(Call::FlushAll) => ("flush-all", vec![]),
        Deed::Call(Call::Tag { name }) => ("tag", vec![("name", name)]),
        Deed::Call(Call::LoadAndMap { line }) => ("load-and-map", vec![("line", line)]),
        Deed::Call(Call::DropTag) => ("drop-tag", vec![]),
        Deed::List(_) => (LIST, vec![]),
        Deed::Look { line } => ("look", vec![("line", line)]),
        Deed::LookNumber { line } => ("look-number", vec![("line", line)]),
        Deed::Entry { page } => ("entry", vec![("page", page)]),
        Deed::Read(_) => (READ, vec![]),
        Deed::Write(_) => (WRITE, vec![]),
        Deed::Dump(ref dump) => (if dump.repair { REPAIR } else { CHECK }, vec![]),
        Deed::Audit => ("audit", vec![]),
    }
}

const LIST: &str = "user-accesses";
const READ: &str = "read-log";
const WRITE: &str = "write-entry";
const CHECK: &str = "check";
const REPAIR: &str = "repair";

/// Numbers with commas between them.
fn comma(numbers: &[u64]) -> String {
    numbers.iter().map(|number| format!("{number:#x}")).collect::<Vec<_>>().join(",")
}

/// A list's arguments. Each access is process, load or store, width, address, value; the words behind the last whole access, if
/// there are any, are `torn`.
fn list_text(list: &List) -> String {
    let List { items, torn, answers, stain, offsets } = list;
    let mut text = format!(" answers={answers} stain={stain:#x} at={},{}", offsets[0], offsets[1]);
    for Item { process, store, width, address, value } in items {
        let fields = [*process, (*store).into(), (*width).into(), (*address).into(), (*value).into()];
        write!(text, " access={}", comma(&fields)).expect("text grows");
    }
    if !torn.is_empty() {
        let words: Vec<u64> = torn.iter().map(|&word| word.into()).collect();
        write!(text, " torn={}", comma(&words)).expect("text grows");
    }
    text
}

fn list_of(arguments: &Arguments) -> Result<List, String> {
    let word = |number: u64| u32::try_from(number).map_err(|_| format!("{number:#x} has more than 32 bits"));
    let mut list = List::of(Vec::new());
    list.answers = arguments.number("answers")? as usize;
    list.stain = arguments.number("stain")?;
    let at: [u64; 2] = arguments.numbers("at")?[..].try_into().map_err(|_| "'at=' must have two numbers")?;
    list.offsets = at.map(|offset| offset as usize);
    for text in arguments.all("access") {
        let read: [u64; 5] = numbers(text)?.try_into().map_err(|_| format!("'{text}' is no access"))?;
        let [process, store, width, address, value] = read;
        let (store, width) = (word(store)?, word(width)?);
        list.items.push(Item { process, store, width, address: word(address)?, value: word(value)? });
    }
    if arguments.all("torn").next().is_some() {
        list.torn = arguments.numbers("torn")?.into_iter().map(word).collect::<Result<_, _>>()?;
    }
    Ok(list)
}

/// A log to be read: its bytes two digits each, or that it was written; a piece by its bytes, the entries for which there is
/// room, and the words more.
fn reading_text(reading: &Reading) -> String {
    let Reading { state, log, pieces, stain, offsets: [first, second, third] } = reading;
    let log =
        log.as_ref().map_or(WRITTEN.into(), |log| log.iter().map(|byte| format!("{byte:02x}")).collect::<String>());
    let piece = |piece: &Piece| format!("{}/{}/{}", piece.bytes, piece.room, piece.torn);
    let pieces = pieces.iter().map(piece).collect::<Vec<_>>().join(",");
    let state = if reading.is_fresh() { FRESH.into() } else { comma(state) };
    format!(" at={first},{second},{third} stain={stain:#x} state={state} pieces={pieces} log={log}")
}

const WRITTEN: &str = "written";
const FRESH: &str = "fresh";

fn reading_of(arguments: &Arguments) -> Result<Reading, String> {
    let mut reading = Reading::of(Vec::new(), Vec::new());
    let at: [u64; 3] = arguments.numbers("at")?[..].try_into().map_err(|_| "'at=' must have three numbers")?;
    reading.offsets = at.map(|offset| offset as usize);
    reading.stain = arguments.number("stain")?;
    if arguments.first("state")? != FRESH {
        reading.state = arguments.numbers("state")?;
    }
    for text in arguments.first("pieces")?.split(',').filter(|text| !text.is_empty()) {
        let parts: Result<Vec<u64>, String> = text.split('/').map(number).collect();
        let [bytes, room, torn]: [u64; 3] = parts?.try_into().map_err(|_| format!("'{text}' is no piece"))?;
        reading.pieces.push(Piece { bytes: bytes as usize, room: room as usize, torn: torn as usize });
    }
    reading.log = match arguments.first("log")? {
        WRITTEN => None,
        digits => Some(bytes_of(digits)?),
    };
    Ok(reading)
}

/// Bytes of two digits each.
fn bytes_of(digits: &str) -> Result<Vec<u8>, String> {
    let byte = |at: usize| digits.get(at..at + 2).and_then(|two| u8::from_str_radix(two, 16).ok());
    (0..digits.len()).step_by(2).map(byte).collect::<Option<_>>().ok_or(format!("'{digits}' are no bytes"))
}

fn writing_text(writing: &Writing) -> String {
    let Writing { entry, room, stain, offsets: [first, second] } = writing;
    format!(" at={first},{second} stain={stain:#x} room={room} entry={}", comma(entry))
}

fn writing_of(arguments: &Arguments) -> Result<Writing, String> {
    let at: [u64; 2] = arguments.numbers("at")?[..].try_into().map_err(|_| "'at=' must have two numbers")?;
    Ok(Writing {
        entry: arguments.numbers("entry")?,
        room: arguments.number("room")? as usize,
        stain: arguments.number("stain")?,
        offsets: at.map(|offset| offset as usize),
    })
}

/// What is lent: so many keys, links and flags; or the safe crate's own.
fn dump_text(dump: &Dump) -> String {
    let Dump { own, lengths: [keys, links, flags], stain, offsets: [first, second, third], .. } = dump;
    format!(" at={first},{second},{third} stain={stain:#x} own={} lent={keys},{links},{flags}", u32::from(*own))
}

fn dump_of(repair: bool, arguments: &Arguments) -> Result<Dump, String> {
    let three = |key| -> Result<[usize; 3], String> {
        let read: [u64; 3] =
            arguments.numbers(key)?[..].try_into().map_err(|_| format!("'{key}=' has three numbers"))?;
        Ok(read.map(|number| number as usize))
    };
    Ok(Dump {
        repair,
        own: arguments.number("own")? != 0,
        lengths: three("lent")?,
        stain: arguments.number("stain")?,
        offsets: three("at")?,
    })
}

fn deed_of(name: &str, arguments: &Arguments) -> Result<Deed, String> {
    let get = |key| arguments.number(key);
    let short = |key| get(key).and_then(|n| u32::try_from(n).map_err(|_| format!("{key} has more than 32 bits")));
    let flag = |key| get(key).map(|n| n != 0);
    Ok(match name {
        "user-access" => Deed::Call(Call::UserAccess {
            process: get("process")?,
            store: flag("store")?,
            width: short("width")?,
            address: short("address")?,
            value: short("value")?,
        }),
        "supervisor-access" => Deed::Call(Call::SupervisorAccess {
            store: flag("store")?,
            width: short("width")?,
            global: get("global")?,
            value: short("value")?,
        }),
        "attach" => Deed::Call(Call::Attach {
            process: get("process")?,
            slot: get("slot")?,
            segment: get("segment")?,
            write: flag("write")?,
        }),
        "detach" => Deed::Call(Call::Detach { process: get("process")?, slot: get("slot")? }),
        "map" => Deed::Call(Call::Map { page: get("page")?, frame: get("frame")?, write: flag("write")? }),
        "unmap" => Deed::Call(Call::Unmap { page: get("page")? }),
        "protect" => Deed::Call(Call::Protect { page: get("page")?, write: flag("write")? }),
        "move" => Deed::Call(Call::Move { page: get("page")?, new_page: get("new-page")? }),
        "flush-all" => Deed::Call(Call::FlushAll),
        "tag" => Deed::Call(Call::Tag { name: get("name")? }),
        "load-and-map" => Deed::Call(Call::LoadAndMap { line: get("line")? }),
        "drop-tag" => Deed::Call(Call::DropTag),
        LIST => Deed::List(list_of(arguments)?),
        "look" => Deed::Look { line: get("line")? },
        "look-number" => Deed::LookNumber { line: get("line")? },
        "entry" => Deed::Entry { page: get("page")? },
        READ => Deed::Read(reading_of(arguments)?),
        WRITE => Deed::Write(writing_of(arguments)?),
        CHECK | REPAIR => Deed::Dump(dump_of(name == REPAIR, arguments)?),
        "audit" => Deed::Audit,
        other => return Err(format!("no call is named '{other}'")),
    })
}

/// A step in one line, as the trace has it.
pub fn step_text(step: &Step) -> String {
    let Manner { route, yes, null } = step.manner;
    let (name, arguments) = parts(&step.deed);
    let mut text = format!("step {} yes={yes:#x} null={} {name}", name_of(&ROUTES, route), u32::from(null));
    for (key, value) in arguments {
        write!(text, " {key}={value:#x}").expect("text grows");
    }
    match &step.deed {
        Deed::List(list) => text + &list_text(list),
        Deed::Read(reading) => text + &reading_text(reading),
        Deed::Write(writing) => text + &writing_text(writing),
        Deed::Dump(dump) => text + &dump_text(dump),
        _ => text,
    }
}

/// The name that a table gives to a value.
pub fn name_of<T: PartialEq, S: AsRef<str>>(table: &[(T, S)], value: T) -> &str {
    table.iter().find(|(entry, _)| *entry == value).expect("every value has a name").1.as_ref()
}

/// The value that a table has under a name.
pub fn value_of<T: Copy, S: AsRef<str>>(table: &[(T, S)], name: &str) -> Result<T, String> {
    table
        .iter()
        .find(|(_, entry)| entry.as_ref() == name)
        .map(|(value, _)| *value)
        .ok_or(format!("unknown name '{name}'"))
}

// ----- writing -----

/// The trace as text. Buffers show only what is not 0, as runs: index, then the elements.
pub fn to_text(trace: &Trace) -> String {
    let Start { fresh, board, offsets } = &trace.start;
    let Shape { frames, uncached, processes, lines } = board.shape;
    let mut text = String::new();
    if let Some(plant) = trace.plant {
        writeln!(text, "plant {}", name_of(&plant::all(), plant)).expect("text grows");
    }
    let head = [
        format!("edition {}", name_of(&EDITIONS, board.edition)),
        format!("fresh {}", u32::from(*fresh)),
        format!("shape frames={frames:#x} uncached={uncached:#x} processes={processes:#x} lines={lines:#x}"),
        format!("offsets {}", offsets.map(|offset| offset.to_string()).join(" ")),
        format!("tag set={} name={:#x}", u32::from(board.tag.0), board.tag.1),
        buffer_text("slots", board.slots.iter().map(|&word| word.into())),
        buffer_text("words", board.words.iter().copied()),
        buffer_text("records", board.records.iter().copied()),
        buffer_text("cache", board.cache.iter().map(|&byte| byte.into())),
        buffer_text("memory", board.memory.iter().map(|&byte| byte.into())),
        buffer_text("uses", matrix_bytes(&board.uses).iter().map(|&byte| byte.into())),
    ];
    for line in head.into_iter().chain(trace.steps.iter().map(step_text)) {
        text.push_str(&line);
        text.push('\n');
    }
    text
}

fn buffer_text(name: &str, elements: impl ExactSizeIterator<Item = u64>) -> String {
    let mut text = format!("{name} {}", elements.len());
    let mut in_run = false;
    for (index, element) in elements.enumerate() {
        if element != 0 {
            let start = if in_run { ",".to_string() } else { format!(" {index}:") };
            write!(text, "{start}{element:x}").expect("text grows");
        }
        in_run = element != 0;
    }
    text
}

// ----- reading -----

/// The `key=value` words of a line.
struct Arguments<'a>(Vec<(&'a str, &'a str)>);

impl<'a> Arguments<'a> {
    fn of(words: &[&'a str]) -> Arguments<'a> {
        Arguments(words.iter().filter_map(|word| word.split_once('=')).collect())
    }

    /// What stands under a key, as often as it comes.
    fn all<'b>(&'b self, key: &'b str) -> impl Iterator<Item = &'a str> + 'b {
        self.0.iter().filter(move |(name, _)| *name == key).map(|(_, text)| *text)
    }

    fn first(&self, key: &str) -> Result<&'a str, String> {
        self.all(key).next().ok_or(format!("'{key}=' is missing"))
    }

    fn number(&self, key: &str) -> Result<u64, String> {
        number(self.first(key)?)
    }

    fn numbers(&self, key: &str) -> Result<Vec<u64>, String> {
        numbers(self.first(key)?)
    }
}

/// Numbers with commas between them, or none.
fn numbers(text: &str) -> Result<Vec<u64>, String> {
    text.split(',').filter(|text| !text.is_empty()).map(number).collect()
}

pub fn number(text: &str) -> Result<u64, String> {
    let parsed = match text.strip_prefix("0x") {
        Some(digits) => u64::from_str_radix(digits, 16),
        None => text.parse(),
    };
    parsed.map_err(|_| format!("'{text}' is no number"))
}

pub fn from_text(text: &str) -> Result<Trace, String> {
    let nothing = Shape { frames: 0, uncached: 0, processes: 0, lines: 0 };
    let start = Start { fresh: false, board: Board::fresh(nothing), offsets: [0; 6] };
    let mut trace = Trace { start, steps: Vec::new(), plant: None };
    for (index, line) in text.lines().enumerate() {
        let words: Vec<&str> = line.split_whitespace().collect();
        if !words.is_empty() && !line.starts_with('#') {
            read_line(&mut trace, &words).map_err(|problem| format!("line {}: {problem}", index + 1))?;
        }
    }
    Ok(trace)
}

fn read_line(trace: &mut Trace, words: &[&str]) -> Result<(), String> {
    let arguments = Arguments::of(words);
    let second = *words.get(1).ok_or("the line has one word only")?;
    let Start { fresh, board, offsets } = &mut trace.start;
    match words[0] {
        "plant" => trace.plant = Some(value_of(&plant::all(), second)?),
        "edition" => board.edition = value_of(&EDITIONS, second)?,
        "fresh" => *fresh = number(second)? != 0,
        "shape" => {
            let get = |key| arguments.number(key);
            let (frames, uncached) = (get("frames")?, get("uncached")?);
            board.shape = Shape { frames, uncached, processes: get("processes")?, lines: get("lines")? };
        }
        "offsets" => {
            let read: Result<Vec<u64>, String> = words[1..].iter().map(|word| number(word)).collect();
            let read: [u64; 6] = read?.try_into().map_err(|_| "there must be six offsets")?;
            *offsets = read.map(|offset| offset as usize);
        }
        "tag" => board.tag = (arguments.number("set")? != 0, arguments.number("name")?),
        "slots" => board.slots = read_buffer(&words[1..])?,
        "words" => board.words = read_buffer(&words[1..])?,
        "records" => board.records = read_buffer(&words[1..])?,
        "cache" => board.cache = read_buffer(&words[1..])?,
        "memory" => board.memory = read_buffer(&words[1..])?,
        "uses" => board.uses = matrices_of(&read_buffer::<u8>(&words[1..])?)?,
        "step" => {
            let name = words.iter().skip(2).find(|word| !word.contains('=')).ok_or("the step has no call")?;
            let yes = u32::try_from(arguments.number("yes")?).map_err(|_| "yes has more than 32 bits")?;
            let manner = Manner { route: value_of(&ROUTES, second)?, yes, null: arguments.number("null")? != 0 };
            trace.steps.push(Step { deed: deed_of(name, &arguments)?, manner });
        }
        other => return Err(format!("unknown word '{other}'")),
    }
    Ok(())
}

/// Matrices of their bytes.
fn matrices_of(bytes: &[u8]) -> Result<Vec<Matrix>, String> {
    if bytes.len() % MATRIX_BYTES != 0 {
        return Err("the bytes of uses are no whole number of matrices".into());
    }
    let matrix = |bytes: &[u8]| {
        let mut matrix = FRESH_MATRIX;
        matrix.iter_mut().flatten().zip(bytes).for_each(|(entry, byte)| *entry = *byte);
        matrix
    };
    Ok(bytes.chunks_exact(MATRIX_BYTES).map(matrix).collect())
}

/// A buffer's length, then its runs.
fn read_buffer<T: TryFrom<u64> + Clone + Default>(words: &[&str]) -> Result<Vec<T>, String> {
    let mut buffer = vec![T::default(); number(words[0])? as usize];
    for run in &words[1..] {
        let (first, elements) = run.split_once(':').ok_or(format!("'{run}' is no run"))?;
        let first = number(first)? as usize;
        for (index, element) in elements.split(',').enumerate() {
            let value = u64::from_str_radix(element, 16).map_err(|_| format!("'{element}' is no hex number"))?;
            let place = buffer.get_mut(first + index).ok_or("a run goes past the buffer's end")?;
            *place = T::try_from(value).map_err(|_| format!("'{element}' is too large for its buffer"))?;
        }
    }
    Ok(buffer)
}
