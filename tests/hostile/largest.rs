//! The largest board, and one frame more, with all buffers of the right length: the limit of F is where 01 puts it, and calls
//! reach the last frame. Memory has 4 GiB, twice; the system gives only the pages that are touched, so memory is compared
//! only where these calls may write: in the first two frames and the last two. Then the largest board with the most lines is
//! checked and repaired (CR 13): sound, and damaged at its far end.

use crate::dump_routes;
use crate::dumps::{self, needed, Dump, Expected, Report};
use crate::guarded::{Guarded, Real};
use crate::limits::*;
use crate::lists::{Item, List};
use crate::routes::{self, Manner, Route, ROUTES};
use model::dump::Rule;
use model::{frame_word, Answer, Board, Call, Edition, Record, Shape};
use std::ops::Range;

const UNCACHED: u64 = 1;

/// Calls on the last frame, the first ones and the one past the end.
fn calls(frames: u64) -> Vec<Call> {
    let last = frames - 1;
    let store = |global| Call::SupervisorAccess { store: true, width: 4, global, value: 0x0102_0304 };
    let load = |global| Call::SupervisorAccess { store: false, width: 2, global, value: 0 };
    vec![
        store(PREFIX1 + last * PAGE_BYTES + 4092),
        load(PREFIX1 + last * PAGE_BYTES + 4094),
        store(PREFIX1 + frames * PAGE_BYTES % PREFIX1),
        store(0),
        load(UNCACHED * PAGE_BYTES),
        Call::FlushAll,
        load(PREFIX1 + last * PAGE_BYTES + 4094),
        Call::Map { page: PAGE_FIRST, frame: frames, write: true },
        Call::Map { page: PAGE_FIRST, frame: last, write: true },
        Call::Attach { process: 0, slot: 0, segment: SEGMENT_FIRST, write: true },
        user(true, 1, 4095, 7),
        user(false, 4, 4092, 0),
        Call::Move { page: PAGE_FIRST, new_page: PAGE_LAST },
        user(false, 1, 4095, 0),
        load(PAGE_LAST * PAGE_BYTES + 4094),
        store(PAGE_LAST * PAGE_BYTES + 4092),
        Call::Move { page: PAGE_LAST, new_page: PAGE_LAST },
        Call::Move { page: PAGE_LAST, new_page: PAGE_FIRST },
        user(false, 1, 4095, 0),
        Call::Protect { page: PAGE_FIRST, write: false },
        user(true, 1, 4095, 8),
        Call::Unmap { page: PAGE_FIRST },
        Call::Map { page: PAGE_FIRST, frame: last, write: false },
        Call::Tag { name: PAGE_FIRST * LINES_PER_PAGE + 255 },
        Call::LoadAndMap { line: frames * LINES_PER_PAGE },
        Call::LoadAndMap { line: frames * LINES_PER_PAGE - 1 },
        Call::Tag { name: PAGE_FIRST * LINES_PER_PAGE },
        Call::DropTag,
        Call::Detach { process: 0, slot: 0 },
        Call::FlushAll,
    ]
}

fn user(store: bool, width: u32, address: u32, value: u32) -> Call {
    Call::UserAccess { process: 0, store, width, address, value }
}

/// A list that comes after each call: to the last line of the page that is mapped to the last frame, to its first line, and to
/// the page after it, which is never mapped.
fn list() -> List {
    let calls = [user(true, 2, 4094, 0x0506), user(false, 4, 0, 0), user(false, 4, 4092, 0), user(false, 4, 4096, 0)];
    List::of(calls.iter().filter_map(|call| Item::of(call, 1)).collect())
}

pub fn largest() -> Result<(), String> {
    for (edition, _) in EDITIONS {
        for frames in [FRAMES_MAX, FRAMES_MAX + 1] {
            for (route, name) in ROUTES {
                let of = format!("F = {frames}, sets of {}, {name} route", set_lines(edition));
                let done = board(edition, frames, route).map_err(|problem| format!("{of}: {problem}"))?;
                println!("{of}: {done} calls done, all equal");
                if (done > 0) != (frames == FRAMES_MAX) {
                    return Err(format!("{of}: {done} calls are done"));
                }
            }
        }
    }
    for (route, name) in ROUTES {
        let count = dumped(route).map_err(|problem| format!("the largest board, {name} route: {problem}"))?;
        println!("the largest board, {name} route: {count} times checked and repaired, as it has to be");
    }
    println!("hostile: the largest board passed");
    Ok(())
}

/// A board of zeros.
fn zeros(edition: Edition, shape: Shape) -> Real {
    let Shape { frames, processes, lines, .. } = shape;
    Real {
        edition,
        shape,
        slots: Guarded::zeroed((SLOTS * processes) as usize, 1),
        words: Guarded::zeroed(frames as usize, 2),
        records: Guarded::zeroed(2 * lines as usize, 3),
        cache: Guarded::zeroed((LINE_BYTES * lines) as usize, 4),
        memory: Guarded::zeroed((PAGE_BYTES * frames) as usize, 5),
        uses: Guarded::zeroed(MATRIX_BYTES * matrices(edition, lines) as usize, 9),
        set: Guarded::zeroed(1, 6),
        name: Guarded::zeroed(1, 7),
    }
}

/// Gives how many calls were done.
fn board(edition: Edition, frames: u64, route: Route) -> Result<usize, String> {
    let mut model = Board::fresh_of(edition, Shape { frames, uncached: UNCACHED, processes: 1, lines: 1024 });
    let mut real = zeros(edition, model.shape);
    let manner = Manner { route, yes: 1, null: false };
    let mut done = 0;
    for call in calls(frames) {
        let expected = model.step(&call).0;
        let told = routes::call(&mut real, &call, &manner)?;
        let answer = told.answer;
        if answer != expected {
            return Err(format!("{call:?}: the library gives {answer:?}, the model {expected:?}"));
        }
        if let Some(problem) = told.disagrees() {
            return Err(format!("{call:?}: {problem}"));
        }
        if !same(&real, &model) || !real.broken().is_empty() {
            return Err(format!("{call:?}: a buffer or its surroundings differ"));
        }
        done += usize::from(answer.number == 0);
        listed(&mut real, &mut model, &manner).map_err(|problem| format!("a list after {call:?}: {problem}"))?;
    }
    for line in [0, frames * LINES_PER_PAGE - 1, frames * LINES_PER_PAGE] {
        let (number, expected) = (routes::look_number(&mut real, line, &manner)?, model.look(line).0);
        if number != expected {
            return Err(format!("look at physical line {line:#x}: number {number}, the model's {expected}"));
        }
    }
    Ok(done)
}

fn listed(real: &mut Real, model: &mut Board, manner: &Manner) -> Result<(), String> {
    let list = list();
    let mut lists = routes::lend(&list, manner.route)?;
    let mut expected = vec![Answer { number: 0, value: 0, mark: 0 }; list.answers];
    let own = model.list(&list.words(), &mut expected).0;
    let answer = routes::list(real, &mut lists, manner)?.answer;
    if answer != own {
        return Err(format!("the library gives {answer:?}, the model {own:?}"));
    }
    let answers: Vec<Answer> =
        lists.answers.inner().iter().map(|&packed| routes::told_of(packed, manner.route).answer).collect();
    if answers != expected {
        return Err(format!("the library's answers are {answers:?}, the model's {expected:?}"));
    }
    if !same(real, model) || !real.broken().is_empty() || lists.broken().is_some() {
        return Err("a buffer or its surroundings differ".into());
    }
    Ok(())
}

fn same(real: &Real, model: &Board) -> bool {
    let (ours, theirs, ends) = (real.memory.inner(), &model.memory, 2 * PAGE_BYTES as usize);
    real.slots.inner() == model.slots
        && real.words.inner() == model.words
        && real.records.inner() == model.records
        && real.cache.inner() == model.cache
        && real.uses.inner() == matrix_bytes(&model.uses)
        && real.tag() == (u32::from(model.tag.0), model.tag.1)
        && ours[..ends] == theirs[..ends]
        && ours[ours.len() - ends..] == theirs[theirs.len() - ends..]
}

// ----- checked and repaired -----

const LAST_FRAME: u64 = FRAMES_MAX - 1;
const LAST_PLACE: u64 = LINES_MAX - 1;

/// As many frames as have a line for each place.
const PLACE_FRAMES: u64 = LINES_MAX / LINES_PER_PAGE;

/// Damage at the far end, or none; the rule and the place that are reported then, and the places at which lines are dropped, if
/// the board is repaired.
struct Far {
    /// Whether pages and lines are spread, or side by side, the lines in the last frames.
    spread: bool,
    edit: fn(&mut Real),
    broken: Option<(Rule, u64)>,
    dropped: Option<Range<u64>>,
}

const SOUND: Far = Far { spread: false, edit: |_| {}, broken: None, dropped: Some(0..0) };
const LAST: Far = Far { dropped: Some(LAST_PLACE..LINES_MAX), ..SOUND };

const FAR: [Far; 10] = [
    SOUND,
    Far { edit: |real| real.shape.uncached = FRAMES_MAX + 1, broken: Some((Rule::Lengths, 0)), dropped: None, ..SOUND },
    Far {
        edit: |real| copy_word(real, LAST_FRAME - 1),
        broken: Some((Rule::PageTwice, LAST_FRAME - 1)),
        dropped: None,
        ..SOUND
    },
    Far {
        edit: |real| change_last(real, |record, before| record.line = before.line),
        broken: Some((Rule::LineTwice, LAST_PLACE - 1)),
        ..LAST
    },
    Far {
        edit: |real| change_last(real, |record, _| record.write = false),
        broken: Some((Rule::Astray, LAST_PLACE)),
        ..LAST
    },
    Far {
        edit: |real| real.cache.inner_mut().iter_mut().last().into_iter().for_each(|byte| *byte ^= 1),
        broken: Some((Rule::Stale, LAST_PLACE)),
        ..LAST
    },
    // All lines at once.
    Far {
        edit: |real| real.words.inner_mut().fill(2),
        broken: Some((Rule::Astray, 0)),
        dropped: Some(0..LINES_MAX),
        ..SOUND
    },
    Far { spread: true, ..SOUND },
    Far {
        spread: true,
        edit: |real| copy_word(real, UNCACHED),
        broken: Some((Rule::PageTwice, UNCACHED)),
        dropped: None,
    },
    Far {
        spread: true,
        edit: |real| change_last(real, |record, before| record.line = before.line),
        broken: Some((Rule::LineTwice, LAST_PLACE - 1)),
        ..LAST
    },
];

/// The last frame gets the word of this one.
fn copy_word(real: &mut Real, frame: u64) {
    real.words.inner_mut()[LAST_FRAME as usize] = real.words.inner()[frame as usize];
}

/// Changes the last record, with an eye on the one before it.
fn change_last(real: &mut Real, change: fn(&mut Record, &Record)) {
    let words = &mut real.records.inner_mut()[2 * LAST_PLACE as usize - 2..];
    let (before, mut record) = (Record::decode(words[0], words[1]), Record::decode(words[2], words[3]));
    change(&mut record, &before);
    (words[2], words[3]) = record.encode();
}

/// Any number of this one.
fn mixed(number: u64) -> u64 {
    number.wrapping_mul(0x9E37_79B9_7F4A_7C15) >> 40
}

/// Every frame from U up has a page of its own, and every place holds a line; all bytes are 0. A page's low 20 bits are those of
/// its frame.
fn fill(real: &mut Real, spread: bool) {
    let first = PAGE_FIRST / ALIKE;
    let tops = PAGE_LAST / ALIKE - first;
    let page = |frame: u64| (first + if spread { mixed(frame) % tops } else { 0 }) * ALIKE + frame;
    let frame_at = |place: u64| {
        let sheets = FRAMES_MAX / PLACE_FRAMES;
        let sheet = if spread { 1 + mixed(place) % (sheets - 1) } else { sheets - 1 };
        sheet * PLACE_FRAMES + place / LINES_PER_PAGE
    };
    real.shape.uncached = UNCACHED;
    for (frame, word) in (UNCACHED..).zip(&mut real.words.inner_mut()[UNCACHED as usize..]) {
        *word = frame_word(page(frame), true);
    }
    for (place, words) in (0..).zip(real.records.inner_mut().chunks_exact_mut(2)) {
        let frame = frame_at(place);
        let (name, line) = (page(frame) * LINES_PER_PAGE + place % LINES_PER_PAGE, line_in(frame, place));
        (words[0], words[1]) = Record { name, line, changed: false, write: true, valid: true }.encode();
    }
    real.cache.inner_mut().fill(0);
}

/// Checks and repairs the board with each damage. Gives how often.
fn dumped(route: Route) -> Result<usize, String> {
    let shape = Shape { frames: FRAMES_MAX, uncached: UNCACHED, processes: 1, lines: LINES_MAX };
    let mut real = zeros(Edition::Ones, shape);
    for (index, far) in FAR.iter().enumerate() {
        for repair in [false, true] {
            fill(&mut real, far.spread);
            (far.edit)(&mut real);
            brought(&mut real, far, repair, route).map_err(|problem| format!("damage {index}: {problem}"))?;
        }
    }
    Ok(FAR.len())
}

fn brought(real: &mut Real, far: &Far, repair: bool, route: Route) -> Result<(), String> {
    let dump = Dump { stain: u64::MAX / 3, ..Dump::of(repair, needed(&real.shape)) };
    let dropped: Option<Vec<u64>> = far.dropped.clone().filter(|_| repair).map(Iterator::collect);
    let (rule, place) = far.broken.map_or((0, 0), |(rule, place)| (rule.number(), place));
    let report = Report { number: 0, rule, place, dropped: dropped.as_ref().map_or(0, |places| places.len() as u64) };
    let (words, cache) = (real.words.inner().to_vec(), real.cache.inner().to_vec());
    let mut records = real.records.inner().to_vec();
    dropped.iter().flatten().for_each(|&place| records[2 * place as usize..][..2].fill(0));
    let mut scratch = dump.lend();
    let told = dump_routes::dump(real, &dump, &mut scratch, &Manner { route, yes: 1, null: false })?;
    let expected = Expected { report, dropped, touched: rule != Rule::Lengths.number() };
    dumps::compare(&dump, &real.shape, &expected, &told, &scratch).map_err(|difference| difference.text)?;
    let memory = real.memory.inner();
    let (ends, far) = (2 * PAGE_BYTES as usize, (PLACE_FRAMES * PAGE_BYTES) as usize);
    let is_zero = |bytes: &[u8]| bytes.iter().all(|&byte| byte == 0);
    let same = real.slots.inner().iter().all(|&word| word == 0)
        && real.words.inner() == words
        && real.records.inner() == records
        && real.cache.inner() == cache
        && is_zero(&memory[..ends])
        && is_zero(&memory[memory.len() - far..])
        && real.tag() == (0, 0);
    if !same || !real.broken().is_empty() {
        return Err("a buffer or its surroundings differ".into());
    }
    Ok(())
}
