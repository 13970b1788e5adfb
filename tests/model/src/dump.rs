//! A dumped board of 01's edition, checked and repaired (CR 13): from that request's text and the readings of it alone. Quotations
//! are the request's.

use crate::{
    frame_word, line_range, name_in_range, page_in_range, page_of_name, Board, Edition, Plain, Record, LINES_PER_PAGE,
};
use std::collections::{BTreeMap, BTreeSet};

/// The rules, "in this order".
#[derive(Clone, Copy, Debug, PartialEq, Eq, PartialOrd, Ord)]
pub enum Rule {
    /// "the lengths agree and the limits hold (no refusal 1)". Decided: the limits are the present ones.
    Lengths,
    /// "no page has two frames from U up". Decided: only words that name ordinary pages double.
    PageTwice,
    /// "no physical line is held twice"
    LineTwice,
    /// "each held line's physical line is the one its name maps to, with that page's permission"
    Astray,
    /// "every unchanged held line equals memory"
    Stale,
}

pub const RULES: [Rule; 5] = [Rule::Lengths, Rule::PageTwice, Rule::LineTwice, Rule::Astray, Rule::Stale];

impl Rule {
    /// From 1.
    pub fn number(self) -> u32 {
        self as u32 + 1
    }
}

/// "the first broken rule in this order and the lowest frame or place in it, 0 for lengths"
#[derive(Clone, Copy, Debug, PartialEq, Eq)]
pub struct Broken {
    pub rule: Rule,
    pub place: u64,
}

/// The checker: `Ok` is its yes.
pub fn check(board: &Board) -> Result<(), Broken> {
    for rule in RULES {
        if let Some(&place) = breaking(board, rule).first() {
            return Err(Broken { rule, place });
        }
    }
    Ok(())
}

/// All frames, or all places, that break a rule, by rising number; 0 for lengths. Decided: of a doubled pair the lower one breaks
/// it. The rules behind the first are asked only of boards that keep that.
pub fn breaking(board: &Board, rule: Rule) -> Vec<u64> {
    assert_eq!(board.edition, Edition::Ones, "board dumps of 01's edition");
    let pages = || pages(board);
    match rule {
        Rule::Lengths if board.fits() => vec![],
        Rule::Lengths => vec![0],
        Rule::PageTwice => lower_of_pairs(pages().into_iter().map(|(page, frame, _)| (page, frame))),
        Rule::LineTwice => lower_of_pairs(held(board).map(|(place, record)| (record.line, place))),
        Rule::Astray => {
            // Of a doubled page, which the second rule forbids, the lowest frame counts, as everywhere.
            let mapped: BTreeMap<u64, (u64, bool)> =
                pages().into_iter().rev().map(|(page, frame, write)| (page, (frame, write))).collect();
            let stays = |record: &Record| maps_to(board, &mapped, record.name) == Some((record.line, record.write));
            held(board).filter(|(_, record)| !stays(record)).map(|(place, _)| place).collect()
        }
        Rule::Stale => {
            let equals = |place, line| board.cache[line_range(place)] == board.memory[line_range(line)];
            let stale = held(board).filter(|(place, record)| !record.changed && !equals(*place, record.line));
            stale.map(|(place, _)| place).collect()
        }
    }
}

/// All held lines, by rising place.
fn held(board: &Board) -> impl DoubleEndedIterator<Item = (u64, Record)> + '_ {
    board.all_records().filter_map(|place| board.held(place).map(|record| (place, record)))
}

/// The ordinary pages that frames from U up name, with frame and write bit, by rising frame.
fn pages(board: &Board) -> Vec<(u64, u64, bool)> {
    let named = |frame: u64| {
        let word = board.words[frame as usize];
        let page = word / 4;
        let write = [false, true].into_iter().find(|&write| word == frame_word(page, write));
        write.filter(|_| page_in_range(page)).map(|write| (page, frame, write))
    };
    (board.shape.uncached..board.shape.frames).filter_map(named).collect()
}

/// Of things with a number each, the number rising: those after which the same thing comes again.
fn lower_of_pairs(things: impl Iterator<Item = (u64, u64)>) -> Vec<u64> {
    let mut numbers: BTreeMap<u64, Vec<u64>> = BTreeMap::new();
    for (thing, number) in things {
        numbers.entry(thing).or_default().push(number);
    }
    let mut lower: Vec<u64> = numbers.values().flat_map(|numbers| &numbers[..numbers.len() - 1]).copied().collect();
    lower.sort_unstable();
    lower
}

/// The physical line to which a name maps, and the permission there. "a prefix 1 line: its frame is from U up with word 0, and it
/// may be written; a name neither ordinary nor prefix 1 maps to nothing".
fn maps_to(board: &Board, mapped: &BTreeMap<u64, (u64, bool)>, name: u64) -> Option<(u64, bool)> {
    if name_in_range(name) {
        let &(frame, write) = mapped.get(&page_of_name(name))?;
        return Some((frame * LINES_PER_PAGE + name % LINES_PER_PAGE, write));
    }
    // "Prefix = global / 2^32", and a name is global / 16.
    let (prefix, line) = (name / (1 << 28), name % (1 << 28));
    let frame = line / LINES_PER_PAGE;
    let free = (board.shape.uncached..board.shape.frames).contains(&frame) && board.words[frame as usize] == 0;
    (prefix == 1 && free).then_some((line, true))
}

/// What a repair says: what the checker says of the board before, and the places at which lines were dropped, rising.
#[derive(Clone, Debug, PartialEq, Eq)]
pub struct Repaired {
    pub before: Result<(), Broken>,
    pub dropped: Vec<u64>,
}

/// "writes nothing to memory and only drops lines, keeping every line that breaks no rule alone or with a lower line that is kept;
/// wrong lengths and doubled pages are reported and nothing is changed." Decided: of a sound board it reports that, and changes
/// nothing.
pub fn repair(board: &mut Board) -> Repaired {
    let before = check(board);
    let mut dropped = Vec::new();
    if !matches!(before, Err(Broken { rule: Rule::Lengths | Rule::PageTwice, .. })) {
        // Alone a line breaks the fourth rule or the fifth; with another one the third.
        let alone: BTreeSet<u64> =
            [breaking(board, Rule::Astray), breaking(board, Rule::Stale)].concat().into_iter().collect();
        let mut kept = BTreeSet::new();
        for (place, record) in held(board) {
            if alone.contains(&place) || kept.contains(&record.line) {
                dropped.push(place);
            } else {
                kept.insert(record.line);
            }
        }
    }
    dropped.iter().for_each(|&place| board.drop_line(place));
    Repaired { before, dropped }
}

/// "the plain machine starting from that board's slots, words and tag and the bytes that look shows"
pub fn plain_of(board: &Board) -> Plain {
    let mut plain = Plain::of(board);
    // Look shows "the lowest record holding it": that one comes last here.
    for (place, record) in held(board).rev() {
        plain.memory[line_range(record.line)].copy_from_slice(&board.cache[line_range(place)]);
    }
    plain
}
