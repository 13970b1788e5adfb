//! Boards to be checked: such as calls make, sound ones that are built, with lines at any place, and what may be damaged in them,
//! one thing at a time. And what is lent to a check or a repair.

use crate::dumps::{needed, Dump};
use crate::gen::{self, World};
use crate::limits::*;
use crate::rng::Rng;
use model::dump::{breaking, check, Rule, RULES};
use model::{frame_word, mapping, prefix1_page, Board, Edition, Record, Shape};
use std::ops::Range;

// ---------------------------------------------------------------------------------------------
// Sound boards
// ---------------------------------------------------------------------------------------------

/// Some frames and few lines, so that things meet; rarely many frames, many lines, or all processes.
pub fn shape(rng: &mut Rng) -> Shape {
    let frames = match rng.below(1000) {
        0 => rng.pick(&[40, 100, 261]),
        1..=49 => 1 + rng.below(9),
        _ => 2 + rng.below(5),
    };
    let lines = match rng.below(20_000) {
        0 => LINES_MAX,
        1..=399 => rng.pick(&[32, 128, 256, 512, 1024]),
        _ => rng.pick(&[1, 2, 4, 4, 8, 8, 8, 16]),
    };
    let processes = if rng.percent(1) { PROCESSES_MAX } else { 1 + rng.below(2) };
    Shape { frames, uncached: rng.pick(&[0, 1, 1, 2]).min(frames - 1), processes, lines }
}

/// A board that calls have made of a fresh one, by the model.
pub fn reached(rng: &mut Rng) -> (Board, World) {
    let shape = shape(rng);
    let (mut board, world) = (gen::fresh(rng, Edition::Ones, shape).board, World::new(rng, Edition::Ones, &shape));
    let calls = if shape.lines > 1024 { 20 } else { rng.below(100) };
    for index in 0..calls {
        let call = gen::call(rng, &world, &board, index < 12);
        board.step(&call);
    }
    (board, world)
}

/// A sound board that is built: with any lines, some changed; among them records that hold nothing, and words that name no page
/// or, below U, whichever.
pub fn built(rng: &mut Rng) -> (Board, World) {
    let shape = shape(rng);
    built_of(rng, shape)
}

/// One of this shape.
pub fn built_of(rng: &mut Rng, shape: Shape) -> (Board, World) {
    let mut board = Board::fresh(shape);
    let world = World::new(rng, Edition::Ones, &shape);
    rng.fill(&mut board.memory);
    rng.fill(&mut board.cache);
    gen::attach_all(rng, &world, &mut board);
    let mut pages: Vec<u64> = world.pages().chain([PAGE_FIRST, PAGE_LAST]).collect();
    if shape.frames > 9 {
        // Any, and some that are alike in their low bits.
        pages.extend((0..shape.frames).map(|_| PAGE_FIRST + rng.below(PAGE_LAST - PAGE_FIRST)));
        pages.extend((0..shape.frames).map(|_| PAGE_FIRST + (rng.below(1000) << 20) + rng.below(4)));
    }
    pages.sort_unstable();
    pages.dedup();
    for frame in 0..shape.frames {
        board.words[frame as usize] = match rng.below(20) {
            _ if frame < shape.uncached => gen::wild_word(rng, &world),
            0..=6 => 0,
            // Words that name nothing, also twice.
            7 => rng.pick(&[2, u64::MAX, PAGE_FIRST * 4 - 1, (PAGE_LAST + 1) * 4 + 1]),
            _ if pages.is_empty() => 0,
            8 => rng.pick(&pages) * 4 + 2 * rng.below(2),
            _ => frame_word(pages.swap_remove(rng.below(pages.len() as u64) as usize), rng.percent(60)),
        };
    }
    for place in 0..shape.lines {
        let record = if rng.percent(75) { line_at(rng, &board, place) } else { None };
        match record {
            Some(record) => {
                gen::put(&mut board, place, record.encode());
                if !record.changed || rng.percent(25) {
                    fill(&mut board, place, record.line);
                }
            }
            None => {
                let words = nothing(rng, &board, place);
                gen::put(&mut board, place, words);
            }
        }
    }
    if rng.percent(25) {
        board.tag = (true, if rng.flip() { board.records[0] } else { rng.next() });
    }
    assert_eq!(check(&board), Ok(()), "a board is built sound");
    (board, world)
}

/// A line that may stand at this place, of some frame from U up; none if that has none.
fn line_at(rng: &mut Rng, board: &Board, place: u64) -> Option<Record> {
    let Shape { frames, uncached, lines, .. } = board.shape;
    let frame = uncached + rng.below(frames - uncached);
    let (page, write) = match board.words[frame as usize] {
        0 => (prefix1_page(frame), true),
        word => mapping(&board.shape, &board.words, word / 4).map(|(_, write)| (word / 4, write))?,
    };
    let first = page * LINES_PER_PAGE;
    let least = (place + lines - first % lines) % lines;
    let most = LINES_PER_PAGE.checked_sub(1 + least)? / lines;
    let name = first + least + lines * rng.below(most + 1);
    // A page of which a word of no form was met has no frame, or another one.
    let line = line_in(frame, name);
    let there = page == prefix1_page(frame) || mapping(&board.shape, &board.words, page)?.0 == frame;
    there.then_some(Record { name, line, changed: rng.percent(40), write, valid: true })
}

/// The words of a record that holds nothing: none; not valid, though all else is right; not at its place; beyond memory.
fn nothing(rng: &mut Rng, board: &Board, place: u64) -> (u64, u64) {
    let Shape { frames, lines, .. } = board.shape;
    let end = LINES_PER_PAGE * frames;
    let (name, any) = (PAGE_FIRST * LINES_PER_PAGE + place, rng.next());
    let bits = 2 * rng.below(4);
    match rng.below(6) {
        0 => (name, rng.below(end) * 8 + bits),
        1 if lines > 1 => (name + 1 + rng.below(lines - 1), rng.below(end) * 8 + bits + 1),
        2 => (name, rng.pick(&[end, end + 1, (1 << 61) - 1]) * 8 + bits + 1),
        // A line that another record may hold.
        3 if place > 0 => (name, board.record(rng.below(place)).line * 8 % (1 << 40) + bits),
        4 => (any, rng.next() & !1),
        _ => (0, 0),
    }
}

/// Gives a line of the cache the bytes of a physical line.
fn fill(board: &mut Board, place: u64, line: u64) {
    board.cache[line_bytes(place)].copy_from_slice(&board.memory[line_bytes(line)]);
}

// ---------------------------------------------------------------------------------------------
// Damage
// ---------------------------------------------------------------------------------------------

macro_rules! damages {
    ($($damage:ident $rule:ident $words:literal;)*) => {
        /// What may be damaged in a sound board.
        #[derive(Clone, Copy, Debug, PartialEq, Eq)]
        pub enum Damage { $($damage),* }

        /// The rule that is broken then, and in words.
        pub const DAMAGES: &[(Damage, Rule, &str)] = &[$((Damage::$damage, Rule::$rule, $words)),*];
    };
}

damages! {
    Lengths Lengths "lengths or limits wrong";
    PageTwice PageTwice "a page's word in another frame, too";
    PageOtherBit PageTwice "a page's word in another frame, too, with the other write bit";
    PagesNested PageTwice "two pages' words in two frames each, the one pair inside the other";
    Copied LineTwice "a record copied to another place";
    LineTaken LineTwice "a record with another's physical line";
    Renamed Astray "a record with another name";
    LineMoved Astray "a record with another physical line";
    FrameMoved Astray "a record with the same line of another frame";
    Permission Astray "a record with the other permission";
    Prefix1Used Astray "a prefix 1 line of a frame that has a word";
    Prefix1Low Astray "a prefix 1 line of a frame below U";
    Prefix1ReadOnly Astray "a prefix 1 line that may not be written";
    PageTable Astray "a line of the page table region";
    Prefix0 Astray "a line of prefix 0";
    HighName Astray "a name from 2^40 up";
    Unmapped Astray "a page's word lost";
    OtherPage Astray "a word with another page";
    Taken Astray "a word for a frame with prefix 1 lines";
    WordBit Astray "a word with the other write bit";
    LowLine Astray "a line of a page that a frame below U has";
    CacheByte Stale "a byte of an unchanged line";
    MemoryByte Stale "a byte of memory under an unchanged line";
    Cleaned Stale "a changed line's mark lost";
}

/// Which of several things is damaged: the first, any, the last.
#[derive(Clone, Copy, Debug, PartialEq, Eq)]
pub enum End {
    First,
    Any,
    Last,
}

impl End {
    fn of<T: Copy>(self, rng: &mut Rng, things: &[T]) -> Option<T> {
        match self {
            End::First => things.first().copied(),
            End::Any => rng.pick_any(things),
            End::Last => things.last().copied(),
        }
    }
}

/// A board that was damaged: what of it shows, by the model, and whether nothing else is broken.
pub struct Damaged {
    pub kinds: Vec<Damage>,
    pub alone: bool,
}

/// Damages a sound board in these ways, lengths last. A way in which there is nothing to damage, or of which nothing shows, is left
/// out.
pub fn damage(rng: &mut Rng, board: &mut Board, world: &World, kinds: &[Damage], end: End) -> Damaged {
    let mut kinds = kinds.to_vec();
    kinds.retain(|&kind| kind == Damage::Lengths || damage_one(rng, board, world, kind, end).is_some());
    let rules = RULES[1..].iter().copied().filter(|&rule| !breaking(board, rule).is_empty());
    let mut broken: Vec<Rule> = rules.collect();
    if kinds.contains(&Damage::Lengths) {
        gen::spoil(rng, board);
        broken.extend((!board.fits()).then_some(Rule::Lengths));
    }
    kinds.retain(|&kind| broken.contains(&rule_of(kind)));
    // Of two records that hold one line, one is astray.
    let implied = |rule: Rule| rule == Rule::Astray && broken.contains(&Rule::LineTwice);
    let alone = broken.iter().all(|&rule| implied(rule) || kinds.iter().any(|&kind| rule_of(kind) == rule));
    Damaged { kinds, alone }
}

pub fn rule_of(kind: Damage) -> Rule {
    DAMAGES[kind as usize].1
}

/// Alters a record.
fn edit(board: &mut Board, place: u64, edit: impl FnOnce(&mut Record)) {
    let mut record = board.record(place);
    edit(&mut record);
    gen::put(board, place, record.encode());
}

/// Holds an unchanged line under this name, which may push out another.
fn hold(board: &mut Board, name: u64, line: u64, write: bool) {
    let place = name % board.shape.lines;
    gen::put(board, place, Record { name, line, changed: false, write, valid: true }.encode());
    fill(board, place, line);
}

/// A page that has no frame.
fn free_page(rng: &mut Rng, board: &Board, world: &World) -> Option<u64> {
    let free: Vec<u64> = world.pages().filter(|&page| mapping(&board.shape, &board.words, page).is_none()).collect();
    rng.pick_any(&free)
}

/// A line of these frames that no record holds.
fn free_line(rng: &mut Rng, board: &Board, frames: Range<u64>, end: End) -> Option<u64> {
    let any = |rng: &mut Rng| {
        let frame = frames.start + rng.below((frames.end - frames.start).max(1));
        line_in(frame, if end == End::Any { rng.below(LINES_PER_PAGE) } else { rng.pick(&[0, 1, 254, 255]) })
    };
    let is_held = |line: u64| board.all_records().any(|place| board.held(place).is_some_and(|held| held.line == line));
    (0..20).map(|_| any(rng)).find(|&line| frames.contains(&(line / LINES_PER_PAGE)) && !is_held(line))
}

fn damage_one(rng: &mut Rng, board: &mut Board, world: &World, kind: Damage, end: End) -> Option<()> {
    let Shape { frames, uncached, lines, .. } = board.shape;
    let held: Vec<u64> = board.all_records().filter(|&place| board.held(place).is_some()).collect();
    let those = |is: &dyn Fn(&Record) -> bool| -> Vec<u64> {
        held.iter().copied().filter(|&place| is(&board.record(place))).collect()
    };
    let word = |frame: u64| board.words[frame as usize];
    let has_lines = |frame: u64| held.iter().any(|&place| board.record(place).line / LINES_PER_PAGE == frame);
    let names_page = |frame: u64| mapping(&board.shape, &board.words, word(frame) / 4).is_some();
    let high = |is: &dyn Fn(u64) -> bool| -> Vec<u64> { (uncached..frames).filter(|&frame| is(frame)).collect() };
    let prefix1 = |line: u64| PREFIX1 / LINE_BYTES + line;
    match kind {
        Damage::Lengths => return None,
        Damage::PageTwice | Damage::PageOtherBit => {
            let from = end.of(rng, &high(&names_page))?;
            let others = high(&|frame| frame != from);
            let calm = high(&|frame| frame > from && !has_lines(frame));
            let to = if calm.is_empty() || rng.percent(20) { others } else { calm };
            let to = end.of(rng, &to)?;
            let bit = if kind == Damage::PageOtherBit { 2 } else { 0 };
            board.words[to as usize] = word(from) ^ bit;
        }
        Damage::PagesNested => {
            let first = end.of(rng, &high(&|frame| frame + 3 < frames))? as usize;
            let pages: Vec<u64> = world.pages().collect();
            let [outer, inner] = [0, 1].map(|at| frame_word(pages[at], rng.flip()));
            board.words[first..first + 4].copy_from_slice(&[outer, inner, inner, outer]);
        }
        Damage::Copied => {
            let from = end.of(rng, &held)?;
            let places: Vec<u64> = (0..lines).filter(|&place| place != from).collect();
            let to = end.of(rng, &places)?;
            let mut record = board.record(from);
            record.name = gen::placed(board, record.name, to);
            gen::put(board, to, record.encode());
            board.cache.copy_within(line_bytes(from), line_bytes(to).start);
        }
        Damage::LineTaken => {
            let line = board.record(end.of(rng, &held)?).line;
            let place = end.of(rng, &those(&|record| record.line != line))?;
            edit(board, place, |record| record.line = line);
        }
        Damage::Renamed => {
            let more = lines * (1 + rng.below(3));
            edit(board, end.of(rng, &held)?, |record| record.name = record.name.wrapping_add(more));
        }
        Damage::LineMoved | Damage::FrameMoved => {
            let (place, mut line) = (end.of(rng, &held)?, free_line(rng, board, 0..frames, end)?);
            if kind == Damage::FrameMoved {
                line = line_in(line / LINES_PER_PAGE, board.record(place).line);
            }
            edit(board, place, |record| record.line = line);
            if !board.record(place).changed {
                fill(board, place, line);
            }
        }
        Damage::Permission => edit(board, end.of(rng, &held)?, |record| record.write = !record.write),
        Damage::Prefix1Used => {
            let frame = end.of(rng, &high(&|frame| word(frame) != 0))?;
            let line = free_line(rng, board, frame..frame + 1, end)?;
            hold(board, prefix1(line), line, true);
        }
        Damage::Prefix1Low => {
            let line = free_line(rng, board, 0..uncached, end)?;
            if rng.flip() {
                board.words[(line / LINES_PER_PAGE) as usize] = 0;
            }
            hold(board, prefix1(line), line, true);
        }
        Damage::Prefix1ReadOnly => {
            let frame = end.of(rng, &high(&|frame| word(frame) == 0))?;
            let line = free_line(rng, board, frame..frame + 1, end)?;
            hold(board, prefix1(line), line, false);
        }
        Damage::PageTable => {
            let name = PAGE_TABLE / LINE_BYTES + rng.below(1 << 30) / lines * lines;
            edit(board, end.of(rng, &held)?, |record| record.name = name + record.name % lines);
        }
        Damage::Prefix0 => {
            let below = if rng.flip() { frames } else { uncached };
            let line = free_line(rng, board, 0..below, end)?;
            hold(board, line, line, rng.flip());
        }
        Damage::HighName => {
            let high = rng.pick(&[NAMES_END, 1 << 63, u64::MAX << 40]);
            edit(board, end.of(rng, &held)?, |record| record.name |= high);
        }
        Damage::Unmapped | Damage::OtherPage | Damage::WordBit => {
            let frame = end.of(rng, &high(&|frame| names_page(frame) && has_lines(frame)))?;
            let was = word(frame);
            board.words[frame as usize] = match kind {
                Damage::Unmapped => rng.pick(&[0, was - 1, 2]),
                Damage::OtherPage => frame_word(free_page(rng, board, world)?, was & 2 != 0),
                _ => was ^ 2,
            };
        }
        Damage::Taken => {
            let frame = end.of(rng, &high(&|frame| word(frame) == 0 && has_lines(frame)))?;
            let page = free_page(rng, board, world).map_or(2, |page| frame_word(page, true));
            board.words[frame as usize] = rng.pick(&[page, page, 2]);
        }
        Damage::LowLine => {
            let line = free_line(rng, board, 0..uncached, end)?;
            let (page, write) = (free_page(rng, board, world)?, rng.flip());
            board.words[(line / LINES_PER_PAGE) as usize] = frame_word(page, write);
            hold(board, page * LINES_PER_PAGE + line % LINES_PER_PAGE, line, write);
        }
        Damage::CacheByte | Damage::MemoryByte => {
            let place = end.of(rng, &those(&|record| !record.changed))?;
            let any = rng.below(LINE_BYTES) as usize;
            let (byte, bit) = (rng.pick(&[0, LINE_BYTES as usize - 1, any]), 1 << rng.below(8));
            let line = board.record(place).line;
            match kind {
                Damage::CacheByte => board.cache[line_bytes(place)][byte] ^= bit,
                _ => board.memory[line_bytes(line)][byte] ^= bit,
            }
        }
        Damage::Cleaned => {
            edit(board, end.of(rng, &those(&|record| record.changed))?, |record| record.changed = false);
        }
    }
    Some(())
}

// ---------------------------------------------------------------------------------------------
// What is lent
// ---------------------------------------------------------------------------------------------

/// What has to be lent for a board; for one that doesn't fit, about as much.
pub fn asked(board: &Board) -> [usize; 3] {
    if board.fits() {
        return needed(&board.shape);
    }
    let (frames, lines) = (board.words.len() as u64, board.records.len() as u64 / 2);
    needed(&Shape { frames, lines, ..board.shape })
}

/// A check or a repair. Mostly enough is lent, exactly or more; else too little of something.
pub fn dump(rng: &mut Rng, board: &Board, repair: bool) -> Dump {
    let asked = asked(board);
    let mut dump = fitting(rng, board, repair);
    if rng.percent(40) && !dump.own {
        let [keys, links, flags] = asked;
        let (frames, lines) = (board.words.len(), board.records.len() / 2);
        let fewer = |rng: &mut Rng, exact: usize, other: [usize; 2]| {
            rng.pick(&[exact.saturating_sub(1), exact.saturating_sub(1), exact / 2, 0, 0, other[0], other[1]])
        };
        match rng.below(6) {
            0 | 1 => dump.lengths[0] = fewer(rng, keys, [frames, lines]),
            2 | 3 => dump.lengths[1] = fewer(rng, links, [2 * frames, 2 * lines]),
            4 if repair => {
                dump.lengths[2] = rng.pick(&[flags.saturating_sub(1), flags + 1, 0, 2 * flags + 1, frames]);
            }
            _ => {
                dump.lengths[0] = fewer(rng, keys, [frames, lines]);
                dump.lengths[1] = fewer(rng, links, [2 * frames, keys]);
            }
        }
    }
    dump
}

/// One that is lent enough.
pub fn fitting(rng: &mut Rng, board: &Board, repair: bool) -> Dump {
    let [keys, links, flags] = asked(board);
    let more = |rng: &mut Rng, exact: usize| if rng.percent(65) { exact } else { exact + 1 + rng.below(20) as usize };
    let lengths = [more(rng, keys), more(rng, links), flags];
    let [first, second, third, ..] = gen::offsets(rng);
    let stain = if rng.percent(80) { rng.next() } else { rng.pick(&[0, u64::MAX]) };
    let own = rng.percent(30);
    let lengths = if own { [keys, links, flags] } else { lengths };
    Dump { own, stain, offsets: [first, second, third], ..Dump::of(repair, lengths) }
}
