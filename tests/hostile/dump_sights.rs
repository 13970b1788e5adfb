//! What checks and repairs of a board meet, and what must be met: by every route, on boards that calls have made, on damaged ones
//! and on wild ones. How each comes out; each way of damage by itself, and each two; the frames and places at the ends; what lines
//! are fine or break a rule, and why; what is lent; what a repair drops and keeps. And the calls that are made afterwards, beside the
//! plain machine.

use crate::cases::{self, Case, CASES};
use crate::coverage::{self, PairCounts, KINDS};
use crate::dump_gen::{asked, Damage, DAMAGES};
use crate::dumps::{Dump, Expected};
use crate::limits::*;
use crate::list_runs::CAUSES;
use crate::routes::{Manner, Route, ROUTES};
use model::dump::{breaking, Rule, RULES};
use model::{mapping, page_in_range, page_of_name, prefix1_page, Board, Edition, Record};
use std::fmt::Arguments;
use Route::{Board as ByBoard, Header, Raw, Safe};

/// The sorts of boards.
#[derive(Clone, Copy, Debug, PartialEq, Eq)]
pub enum Sort {
    Reached,
    Damaged,
    Wild,
}

const SORTS: [(Sort, &str); 3] =
    [(Sort::Reached, "a board that calls have made"), (Sort::Damaged, "a damaged board"), (Sort::Wild, "a wild board")];

/// A check comes first, a repair second.
const DEEDS: [&str; 2] = ["a check", "a repair"];

/// How they come out: by the rule, none first; or refused for what is lent.
const OUTCOMES: usize = 1 + RULES.len() + 1;
const REFUSED: usize = OUTCOMES - 1;

fn outcome_words(outcome: usize) -> String {
    match outcome {
        0 => "sound".into(),
        REFUSED => "refused for its scratch".into(),
        rule => format!("rule {rule}"),
    }
}

/// Which sorts of boards have to meet it.
#[derive(Clone, Copy, Debug, PartialEq, Eq)]
pub enum On {
    Every,
    /// Damaged ones and wild ones.
    Harmed,
    Damaged,
}

impl On {
    fn has(self, sort: Sort) -> bool {
        match self {
            On::Every => true,
            On::Harmed => sort != Sort::Reached,
            On::Damaged => sort == Sort::Damaged,
        }
    }
}

const EACH: &[Route] = &[Raw, Header, ByBoard, Safe];
const POINTERS: &[Route] = &[Raw, Header, ByBoard];
const SAFE: &[Route] = &[Safe];

/// Of which of the two.
const BOTH: [bool; 2] = [true, true];
const REPAIRS: [bool; 2] = [false, true];

macro_rules! sights {
    ($($of:ident $on:ident $routes:ident $sight:ident $words:literal;)*) => {
        #[derive(Clone, Copy, Debug, PartialEq, Eq)]
        pub enum Sight { $($sight),* }

        /// Of which of the two, on which boards, by which routes, and in words.
        const SIGHTS: &[(Sight, [bool; 2], On, &[Route], &str)] =
            &[$((Sight::$sight, $of, On::$on, $routes, $words)),*];
    };
}

sights! {
    // What is lent.
    BOTH Every EACH Exact "with keys and links as asked for, no more";
    BOTH Every EACH MoreKeys "with more keys";
    BOTH Every EACH MoreLinks "with more links";
    BOTH Every SAFE Own "with scratch of the crate's own";
    BOTH Harmed EACH ExactFrames "done with scratch exactly for F, which is above L";
    BOTH Harmed EACH ExactLines "done with scratch exactly for L, which is above F";
    BOTH Every EACH KeyShort "refused for a key too few alone";
    BOTH Every EACH KeysFew "refused for half the keys or fewer alone";
    BOTH Every EACH NoKeys "refused for no keys alone";
    BOTH Every POINTERS NullKeys "refused for no keys, as NULL";
    BOTH Damaged EACH KeysByLines "refused for as many keys as lines alone, and more frames";
    BOTH Damaged EACH KeysByFrames "refused for as many keys as frames alone, and more lines";
    BOTH Every EACH LinkShort "refused for a link too few alone";
    BOTH Every EACH LinksFew "refused for half the links or fewer alone";
    BOTH Every EACH NoLinks "refused for no links alone";
    BOTH Every POINTERS NullLinks "refused for no links, as NULL";
    BOTH Damaged EACH LinksByLines "refused for links for all lines alone, and more frames";
    BOTH Damaged EACH LinksByFrames "refused for links for all frames alone, and more lines";
    BOTH Every EACH BothShort "refused for keys and links";
    REPAIRS Every EACH FlagShort "refused for a flag too few alone";
    REPAIRS Every EACH FlagMore "refused for a flag too many alone";
    REPAIRS Every EACH NoFlags "refused for no flags alone";
    REPAIRS Every EACH FlagsMany "refused for many flags too many alone";
    REPAIRS Damaged EACH FlagsByFrames "refused for as many flags as frames alone";
    REPAIRS Damaged EACH AllShort "refused for all three";
    BOTH Harmed EACH ShortUnfit "rule 1, though too little is lent";
    BOTH Harmed EACH ShortBroken "refused, of a board that breaks another rule";
    // Places at the ends.
    BOTH Damaged EACH PageLowest "rule 2 at the lowest frame from U up, U above 0";
    BOTH Damaged EACH PageHighest "rule 2 at the last frame but one, not the lowest from U up";
    BOTH Damaged EACH PageEnds "rule 2 for the lowest frame from U up and the last alone, others between";
    BOTH Harmed EACH PageThrice "rule 2, a page with three frames";
    BOTH Damaged EACH PageFirst "rule 2, for the first ordinary page";
    BOTH Damaged EACH PageLast "rule 2, for the last ordinary page";
    BOTH Harmed EACH PageNested "rule 2, a pair of frames inside that of another page";
    BOTH Damaged EACH LineFirst "rule 3 at place 0";
    BOTH Damaged EACH LineLast "rule 3 at the last place but one, not the first";
    BOTH Damaged EACH LineEnds "rule 3 for the first place and the last alone, others between";
    BOTH Harmed EACH LineThrice "rule 3, a line held three times";
    BOTH Harmed EACH LineNested "rule 3, a pair of places inside that of another line";
    BOTH Damaged EACH AstrayFirst "rule 4 at place 0, of several places";
    BOTH Damaged EACH AstrayLast "rule 4 at the last place, of several places";
    BOTH Damaged EACH AstraySeveral "rule 4 at several places";
    BOTH Damaged EACH StaleFirst "rule 5 at place 0, of several places";
    BOTH Damaged EACH StaleLast "rule 5 at the last place, of several places";
    BOTH Damaged EACH StaleSeveral "rule 5 at several places";
    // What doesn't double.
    BOTH Damaged EACH LowPage "no rule 2, though a frame below U has a page's word, too";
    BOTH Damaged EACH LowTwice "no rule 2, though two frames below U have one page's word";
    BOTH Damaged EACH NoFormTwice "no rule 2, though a word of no form has a page, too";
    BOTH Damaged EACH NoPageTwice "no rule 2, though two frames from U up have one word, which names nothing";
    // What is fine.
    BOTH Every EACH Clean "an unchanged line that is fine";
    BOTH Every EACH Changed "a changed line that differs from memory, and is fine";
    BOTH Damaged EACH ChangedEqual "a changed line that equals memory, and is fine";
    BOTH Every EACH ReadOnly "a read-only line that is fine";
    BOTH Every EACH Prefix1 "a prefix 1 line that is fine";
    BOTH Every EACH NotValid "a record that is not valid, and else would hold a line";
    BOTH Harmed EACH Displaced "a valid record that is not at its place";
    BOTH Harmed EACH Beyond "a valid record at its place, beyond memory";
    BOTH Damaged EACH EmptyCopy "a record that holds nothing, with the physical line of one that does";
    // Why the line at the place given is astray.
    BOTH Damaged EACH NoFrame "rule 4: its page has no frame";
    BOTH Damaged EACH OnlyLow "rule 4: its page has a frame below U only, and the line is there";
    BOTH Damaged EACH OtherFrame "rule 4: the physical line is of another frame";
    BOTH Damaged EACH SameIndex "rule 4: the physical line is of another frame, and else its own";
    BOTH Damaged EACH OtherLine "rule 4: the physical line is another of its frame";
    BOTH Damaged EACH MayWrite "rule 4: it may be written, and its page may not";
    BOTH Damaged EACH MayNotWrite "rule 4: it may not be written, and its page may";
    BOTH Damaged EACH Prefix1Page "rule 4: prefix 1, and its frame has a page";
    BOTH Damaged EACH Prefix1Word "rule 4: prefix 1, and its frame has a word that names nothing";
    BOTH Damaged EACH Prefix1Low "rule 4: prefix 1, below U";
    BOTH Damaged EACH Prefix1LowFree "rule 4: prefix 1, below U, the frame's word 0";
    BOTH Damaged EACH Prefix1ReadOnly "rule 4: prefix 1, and it may not be written";
    BOTH Damaged EACH Prefix1Other "rule 4: prefix 1, with another physical line";
    BOTH Damaged EACH Table "rule 4: a name of the page table region";
    BOTH Damaged EACH Prefix0 "rule 4: a name of prefix 0";
    BOTH Damaged EACH High "rule 4: a name from 2^40 up, fine if it were cut";
    // How the line at the place given is stale.
    BOTH Damaged EACH FirstByte "rule 5: the first byte alone differs";
    BOTH Damaged EACH LastByte "rule 5: the last byte alone differs";
    BOTH Damaged EACH OneBit "rule 5: one bit differs";
    // What a repair does.
    REPAIRS Every EACH DropsNone "drops nothing, lines held";
    REPAIRS Harmed EACH DropsOne "drops one line of several";
    REPAIRS Harmed EACH DropsSeveral "drops several lines and keeps some";
    REPAIRS Harmed EACH DropsAll "drops all of several lines";
    REPAIRS Damaged EACH DropsFirst "drops the line of place 0, of several places";
    REPAIRS Damaged EACH DropsLast "drops the line of the last place, of several places";
    REPAIRS Damaged EACH DropsChanged "drops a changed line that differs from memory";
    REPAIRS Damaged EACH KeepsChanged "drops a line, and keeps a changed one that differs from memory";
    REPAIRS Damaged EACH KeepsPrefix1 "drops a line, and keeps one of prefix 1";
    REPAIRS Damaged EACH LowerKept "of two copies keeps the lower";
    REPAIRS Damaged EACH HigherKept "of two copies keeps the higher";
    REPAIRS Damaged EACH NeitherKept "of two copies keeps neither";
    REPAIRS Damaged EACH FirstOfThree "of three copies keeps the first";
    REPAIRS Damaged EACH MiddleOfThree "of three copies keeps the middle one";
    REPAIRS Damaged EACH LastOfThree "of three copies keeps the last";
    REPAIRS Damaged EACH NoneOfThree "of three copies keeps none";
    REPAIRS Damaged EACH LeavesEmpty "drops a line, and leaves a valid record that holds nothing";
    REPAIRS Damaged EACH LeavesBroken "rule 2, and leaves lines that break another rule";
    REPAIRS Damaged EACH Several "drops lines that break different rules";
    REPAIRS Harmed EACH Again "after a repair that dropped lines";
}

// ---------------------------------------------------------------------------------------------
// What is met
// ---------------------------------------------------------------------------------------------

/// What one check or repair meets: sights; and, if the lengths or the limits are wrong, what alone is wrong there.
pub struct Met {
    sights: Vec<Sight>,
    cause: Option<Case>,
}

impl Met {
    fn when(&mut self, is: bool, sight: Sight) {
        if is {
            self.sights.push(sight);
        }
    }
}

/// What a check or a repair of this board, as it was before, meets.
pub fn met(board: &Board, dump: &Dump, own: bool, manner: &Manner, expected: &Expected, again: bool) -> Met {
    let cause = if board.fits() { None } else { cases::cause_of_one(board) };
    let mut met = Met { sights: Vec::new(), cause };
    let number = expected.report.number;
    lent(&mut met, board, dump, own, manner, number, expected.report.rule);
    if number == 0 && board.fits() {
        pages(&mut met, board, expected.report.rule);
        let lines = Held::of(board);
        fine(&mut met, board, &lines);
        broken(&mut met, board, &lines, expected);
        if let Some(dropped) = &expected.dropped {
            repaired(&mut met, board, &lines, dropped);
            met.when(again, Sight::Again);
        }
        let others = || RULES[2..].iter().any(|&rule| !breaking(board, rule).is_empty());
        met.when(dump.repair && expected.report.rule == Rule::PageTwice.number() && others(), Sight::LeavesBroken);
    }
    met
}

fn lent(met: &mut Met, board: &Board, dump: &Dump, own: bool, manner: &Manner, number: u32, rule: u32) {
    let [keys, links, flags] = dump.lengths;
    let [all_keys, all_links, all_flags] = asked(board);
    if own {
        return met.when(rule != 1, Sight::Own);
    }
    let short = [keys < all_keys, links < all_links, dump.repair && flags != all_flags];
    if rule == 1 {
        return met.when(short[0] || short[1], Sight::ShortUnfit);
    }
    let (frames, lines) = (board.shape.frames as usize, board.shape.lines as usize);
    let (more_frames, more_lines) = (frames > lines, lines > frames);
    if number == 0 {
        let exact = (keys, links) == (all_keys, all_links);
        met.when(exact, Sight::Exact);
        met.when(keys > all_keys, Sight::MoreKeys);
        met.when(links > all_links, Sight::MoreLinks);
        met.when(exact && more_frames, Sight::ExactFrames);
        met.when(exact && more_lines, Sight::ExactLines);
        return;
    }
    match short {
        [true, false, false] => {
            met.when(keys + 1 == all_keys, Sight::KeyShort);
            met.when(keys > 0 && keys <= all_keys / 2, Sight::KeysFew);
            met.when(keys == 0 && !manner.null, Sight::NoKeys);
            met.when(keys == 0 && manner.null, if manner.route == Safe { Sight::NoKeys } else { Sight::NullKeys });
            met.when(keys == lines && more_frames, Sight::KeysByLines);
            met.when(keys == frames && more_lines, Sight::KeysByFrames);
        }
        [false, true, false] => {
            met.when(links + 1 == all_links, Sight::LinkShort);
            met.when(links > 0 && links <= all_links / 2, Sight::LinksFew);
            met.when(links == 0 && !manner.null, Sight::NoLinks);
            met.when(links == 0 && manner.null, if manner.route == Safe { Sight::NoLinks } else { Sight::NullLinks });
            met.when(links == 2 * lines && more_frames, Sight::LinksByLines);
            met.when(links == 2 * frames && more_lines, Sight::LinksByFrames);
        }
        [true, true, false] => met.when(true, Sight::BothShort),
        [false, false, true] => {
            met.when(flags + 1 == all_flags, Sight::FlagShort);
            met.when(flags == all_flags + 1, Sight::FlagMore);
            met.when(flags == 0, Sight::NoFlags);
            met.when(flags > 2 * all_flags, Sight::FlagsMany);
            met.when(flags == frames, Sight::FlagsByFrames);
        }
        [true, true, true] => met.when(true, Sight::AllShort),
        _ => {}
    }
    let breaks = RULES[1..].iter().any(|&rule| !breaking(board, rule).is_empty());
    met.when(breaks, Sight::ShortBroken);
}

/// The page that a word names.
fn named(word: u64) -> Option<u64> {
    (word % 2 == 1 && page_in_range(word / 4)).then_some(word / 4)
}

/// Things with a number each, by those that there are several of: their numbers.
fn several<T: PartialEq + Copy>(things: &[(u64, T)]) -> Vec<Vec<u64>> {
    let numbers = |(number, thing): &(u64, T)| {
        let same = things.iter().filter(|(_, other)| other == thing).map(|(number, _)| *number);
        let same: Vec<u64> = same.collect();
        (same.len() > 1 && same[0] == *number).then_some(same)
    };
    // On a large board this would take long.
    if things.len() > 2048 {
        return Vec::new();
    }
    things.iter().filter_map(numbers).collect()
}

/// Whether a pair stands inside another.
fn is_nested(several: &[Vec<u64>]) -> bool {
    let inside = |inner: &[u64], outer: &[u64]| outer[0] < inner[0] && inner[1] < outer[1];
    several.iter().any(|inner| several.iter().any(|outer| inside(inner, outer)))
}

fn pages(met: &mut Met, board: &Board, rule: u32) {
    let (frames, uncached) = (board.shape.frames, board.shape.uncached);
    let words: Vec<(u64, u64)> = (0..).zip(board.words.iter().copied()).collect();
    let (low, high) = words.split_at(uncached as usize);
    let pages = |words: &[(u64, u64)]| -> Vec<(u64, u64)> {
        words.iter().filter_map(|&(frame, word)| named(word).map(|page| (frame, page))).collect()
    };
    let (low_pages, high_pages) = (pages(low), pages(high));
    let doubled = several(&high_pages);
    if rule == Rule::PageTwice.number() {
        let lowest = doubled.iter().map(|frames| frames[0]).min().unwrap_or(0);
        let page = board.words[lowest as usize] / 4;
        let first = doubled.iter().find(|frames| frames[0] == lowest);
        met.when(lowest == uncached && uncached > 0, Sight::PageLowest);
        met.when(lowest + 2 == frames && lowest > uncached, Sight::PageHighest);
        let ends = first.is_some_and(|of| **of == [uncached, frames - 1]) && frames - uncached > 2;
        met.when(ends, Sight::PageEnds);
        met.when(doubled.iter().any(|frames| frames.len() > 2), Sight::PageThrice);
        met.when(page == PAGE_FIRST, Sight::PageFirst);
        met.when(page == PAGE_LAST, Sight::PageLast);
        met.when(is_nested(&doubled), Sight::PageNested);
        return;
    }
    let has = |pages: &[(u64, u64)], page: u64| pages.iter().any(|(_, other)| *other == page);
    met.when(low_pages.iter().any(|(_, page)| has(&high_pages, *page)), Sight::LowPage);
    met.when(!several(&low_pages).is_empty(), Sight::LowTwice);
    let no_form = |&&(_, word): &&(u64, u64)| word != 0 && named(word).is_none();
    let formless: Vec<(u64, u64)> = high.iter().filter(no_form).copied().collect();
    met.when(formless.iter().any(|(_, word)| has(&high_pages, word / 4)), Sight::NoFormTwice);
    met.when(!several(&formless).is_empty(), Sight::NoPageTwice);
}

/// The held lines, and which of them break a rule alone.
struct Held {
    lines: Vec<(u64, Record)>,
    astray: Vec<u64>,
    stale: Vec<u64>,
    doubled: Vec<Vec<u64>>,
}

impl Held {
    fn of(board: &Board) -> Held {
        let held = board.all_records().filter_map(|place| board.held(place).map(|record| (place, record)));
        let lines: Vec<(u64, Record)> = held.collect();
        let physical: Vec<(u64, u64)> = lines.iter().map(|(place, record)| (*place, record.line)).collect();
        let doubled = several(&physical);
        Held { lines, astray: breaking(board, Rule::Astray), stale: breaking(board, Rule::Stale), doubled }
    }

    fn breaks_alone(&self, place: u64) -> bool {
        self.astray.contains(&place) || self.stale.contains(&place)
    }
}

fn equals(board: &Board, place: u64, line: u64) -> bool {
    board.cache[line_bytes(place)] == board.memory[line_bytes(line)]
}

fn fine(met: &mut Met, board: &Board, held: &Held) {
    for &(place, record) in held.lines.iter().filter(|(place, _)| !held.breaks_alone(*place)) {
        met.when(!record.changed, Sight::Clean);
        met.when(record.changed && !equals(board, place, record.line), Sight::Changed);
        met.when(record.changed && equals(board, place, record.line), Sight::ChangedEqual);
        met.when(!record.write, Sight::ReadOnly);
        met.when(record.name < PREFIX1_END / LINE_BYTES, Sight::Prefix1);
    }
    let (lines, end) = (board.shape.lines, LINES_PER_PAGE * board.shape.frames);
    for place in board.all_records().filter(|&place| board.held(place).is_none()) {
        let Record { name, line, valid, .. } = board.record(place);
        let (stands, inside) = (name % lines == place, line < end);
        met.when(!valid && name != 0 && stands && inside, Sight::NotValid);
        met.when(valid && !stands && inside, Sight::Displaced);
        met.when(valid && stands && !inside, Sight::Beyond);
        let copied = held.lines.iter().take(64).any(|(_, record)| record.line == line);
        met.when(copied && (name, line) != (0, 0), Sight::EmptyCopy);
    }
}

fn broken(met: &mut Met, board: &Board, held: &Held, expected: &Expected) {
    let (place, lines) = (expected.report.place, board.shape.lines);
    let ends = |met: &mut Met, first: Sight, last: Sight| {
        met.when(place == 0 && lines > 1, first);
        met.when(place + 1 == lines && lines > 1, last);
    };
    let rule = expected.report.rule;
    if rule == Rule::LineTwice.number() {
        met.when(place == 0, Sight::LineFirst);
        met.when(place + 2 == lines && place > 0, Sight::LineLast);
        let first = held.doubled.iter().find(|places| places[0] == place);
        met.when(first.is_some_and(|of| **of == [0, lines - 1]) && lines > 2, Sight::LineEnds);
        met.when(held.doubled.iter().any(|places| places.len() > 2), Sight::LineThrice);
        met.when(is_nested(&held.doubled), Sight::LineNested);
    }
    if rule == Rule::Astray.number() {
        ends(met, Sight::AstrayFirst, Sight::AstrayLast);
        met.when(held.astray.len() > 1, Sight::AstraySeveral);
        astray(met, board, board.record(place));
    }
    if rule == Rule::Stale.number() {
        ends(met, Sight::StaleFirst, Sight::StaleLast);
        met.when(held.stale.len() > 1, Sight::StaleSeveral);
        let (cache, memory) = (&board.cache[line_bytes(place)], &board.memory[line_bytes(board.record(place).line)]);
        let other: Vec<usize> = (0..cache.len()).filter(|&byte| cache[byte] != memory[byte]).collect();
        met.when(other == [0], Sight::FirstByte);
        met.when(other == [LINE_BYTES as usize - 1], Sight::LastByte);
        let bits: u32 = other.iter().map(|&byte| (cache[byte] ^ memory[byte]).count_ones()).sum();
        met.when(bits == 1, Sight::OneBit);
    }
}

fn astray(met: &mut Met, board: &Board, Record { name, line, write, .. }: Record) {
    let uncached = board.shape.uncached;
    let page = page_of_name(name);
    let at = |frame: u64| line_in(frame, name);
    if page_in_range(page) {
        let low = (0..uncached).find(|&frame| named(board.words[frame as usize]) == Some(page));
        match mapping(&board.shape, &board.words, page) {
            None => {
                met.when(low.is_none(), Sight::NoFrame);
                met.when(low.map(at) == Some(line), Sight::OnlyLow);
            }
            Some((frame, page_write)) if at(frame) == line => {
                met.when(write && !page_write, Sight::MayWrite);
                met.when(!write && page_write, Sight::MayNotWrite);
            }
            Some((frame, _)) => {
                met.when(line / LINES_PER_PAGE != frame, Sight::OtherFrame);
                met.when(line != at(frame) && line == at(line / LINES_PER_PAGE), Sight::SameIndex);
                met.when(line / LINES_PER_PAGE == frame, Sight::OtherLine);
            }
        }
        return;
    }
    let frame = line / LINES_PER_PAGE;
    let word = board.words[frame as usize];
    if name / (PREFIX1 / LINE_BYTES) == 1 {
        let own = page == prefix1_page(frame) && name % LINES_PER_PAGE == line % LINES_PER_PAGE;
        let high = own && frame >= uncached;
        met.when(high && named(word).is_some(), Sight::Prefix1Page);
        met.when(high && word != 0 && named(word).is_none(), Sight::Prefix1Word);
        met.when(own && frame < uncached && write, Sight::Prefix1Low);
        met.when(own && frame < uncached && write && word == 0, Sight::Prefix1LowFree);
        met.when(high && word == 0 && !write, Sight::Prefix1ReadOnly);
        met.when(!own, Sight::Prefix1Other);
    }
    met.when(name < PREFIX1 / LINE_BYTES, Sight::Prefix0);
    met.when((PAGE_TABLE / LINE_BYTES..NAMES_END).contains(&name), Sight::Table);
    let cut = mapping(&board.shape, &board.words, page % PAGES_END);
    met.when(name >= NAMES_END && cut.is_some_and(|(frame, bit)| (at(frame), bit) == (line, write)), Sight::High);
}

fn repaired(met: &mut Met, board: &Board, held: &Held, dropped: &[u64]) {
    let (all, lines) = (held.lines.len(), board.shape.lines);
    let is_dropped = |place: u64| dropped.binary_search(&place).is_ok();
    met.when(dropped.is_empty() && all > 0, Sight::DropsNone);
    met.when(dropped.len() == 1 && all > 1, Sight::DropsOne);
    met.when(dropped.len() > 1 && dropped.len() < all, Sight::DropsSeveral);
    met.when(dropped.len() > 1 && dropped.len() == all, Sight::DropsAll);
    for copies in &held.doubled {
        let kept = copies.iter().position(|&place| !is_dropped(place));
        let sight = match (copies.len(), kept) {
            (2, Some(0)) => Sight::LowerKept,
            (2, Some(1)) => Sight::HigherKept,
            (2, None) => Sight::NeitherKept,
            (3, Some(0)) => Sight::FirstOfThree,
            (3, Some(1)) => Sight::MiddleOfThree,
            (3, Some(2)) => Sight::LastOfThree,
            (3, None) => Sight::NoneOfThree,
            _ => continue,
        };
        met.when(true, sight);
    }
    if dropped.is_empty() {
        return;
    }
    met.when(lines > 1 && is_dropped(0), Sight::DropsFirst);
    met.when(lines > 1 && is_dropped(lines - 1), Sight::DropsLast);
    let differs = |place: u64, record: &Record| record.changed && !equals(board, place, record.line);
    met.when(
        held.lines.iter().any(|(place, record)| is_dropped(*place) && differs(*place, record)),
        Sight::DropsChanged,
    );
    let mut kept = held.lines.iter().filter(|(place, _)| !is_dropped(*place));
    met.when(kept.clone().any(|(place, record)| differs(*place, record)), Sight::KeepsChanged);
    met.when(kept.any(|(_, record)| record.name < PREFIX1_END / LINE_BYTES), Sight::KeepsPrefix1);
    let empty = |place: u64| board.record(place).valid && board.held(place).is_none();
    met.when(board.all_records().any(empty), Sight::LeavesEmpty);
    let (astray, stale) = (&held.astray, &held.stale);
    let either = astray.iter().any(|place| !stale.contains(place)) && stale.iter().any(|place| !astray.contains(place));
    met.when(either, Sight::Several);
}

// ---------------------------------------------------------------------------------------------
// Counts
// ---------------------------------------------------------------------------------------------

/// Where a plain machine began: on a board that the checker accepts as it is, or on one that was repaired.
#[derive(Clone, Copy, Debug, PartialEq, Eq)]
pub enum Since {
    Accepted,
    Repaired,
}

const SINCE: [(Since, &str); 2] = [(Since::Accepted, "an accepted board"), (Since::Repaired, "a repaired board")];

/// Whether this may be wrong with a board of 01's edition.
pub fn can_be_wrong(cause: Case) -> bool {
    let (_, reach, _) = CASES[cause as usize];
    reach.is_on(coverage::Sort { edition: Edition::Ones, fresh: false })
}

/// Of one sort of boards, by one route: a check's, then a repair's.
#[derive(Clone, Copy)]
struct Counts {
    outcomes: [[u64; OUTCOMES]; 2],
    sights: [[u64; SIGHTS.len()]; 2],
}

const NONE: Counts = Counts { outcomes: [[0; OUTCOMES]; 2], sights: [[0; SIGHTS.len()]; 2] };

/// The rows of `KINDS` that can be done beside the plain machine: all but entries, which ask no board.
const ROWS: usize = KINDS.len() - 1;

#[derive(Clone)]
pub struct Dumps {
    /// The board that is being run, and how it was damaged.
    pub sort: Sort,
    pub damages: Vec<Damage>,
    pub alone: bool,
    pub boards: u64,
    deeds: [u64; 2],
    counts: Vec<[Counts; ROUTES.len()]>,
    /// What alone is wrong with lengths or limits, by each route.
    causes: [[[u64; CAUSES.len()]; 2]; ROUTES.len()],
    /// Ways of damage, by themselves, by each route.
    alones: [[[u64; DAMAGES.len()]; 2]; ROUTES.len()],
    /// Two ways.
    pairs: Vec<[[u64; DAMAGES.len()]; 2]>,
    /// Calls and looks that were done beside the plain machine, and audits.
    since: [[u64; ROWS]; SINCE.len()],
    audits: [u64; SINCE.len()],
    /// Pairs of runs.
    pub runs: [PairCounts; SINCE.len()],
}

impl Dumps {
    pub fn new() -> Dumps {
        Dumps {
            sort: Sort::Wild,
            damages: Vec::new(),
            alone: false,
            boards: 0,
            deeds: [0; 2],
            counts: vec![[NONE; ROUTES.len()]; SORTS.len()],
            causes: [[[0; CAUSES.len()]; 2]; ROUTES.len()],
            alones: [[[0; DAMAGES.len()]; 2]; ROUTES.len()],
            pairs: vec![[[0; DAMAGES.len()]; 2]; DAMAGES.len()],
            since: [[0; ROWS]; SINCE.len()],
            audits: [0; SINCE.len()],
            runs: [PairCounts::NONE; SINCE.len()],
        }
    }

    /// A board's run begins.
    pub fn begin(&mut self, sort: Sort, damages: Vec<Damage>, alone: bool) {
        (self.sort, self.damages, self.alone) = (sort, damages, alone);
        self.boards += 1;
    }

    /// A check or a repair that met this. The damages count as long as they are there.
    pub fn count(&mut self, route: Route, dump: &Dump, expected: &Expected, met: &Met) {
        let deed = usize::from(dump.repair);
        self.deeds[deed] += 1;
        let counts = &mut self.counts[self.sort as usize][route as usize];
        let outcome = if expected.report.number == 0 { expected.report.rule as usize } else { REFUSED };
        counts.outcomes[deed][outcome] += 1;
        met.sights.iter().for_each(|&sight| counts.sights[deed][sight as usize] += 1);
        if let Some(cause) = CAUSES.iter().position(|(cause, _)| met.cause == Some(*cause)) {
            self.causes[route as usize][deed][cause] += 1;
        }
        if expected.report.number == 0 && expected.report.rule != 0 {
            match self.damages[..] {
                [one] if self.alone => self.alones[route as usize][deed][one as usize] += 1,
                [one, other] => self.pairs[one as usize][deed][other as usize] += 1,
                _ => {}
            }
        }
    }

    /// A call, a list or a look that was done beside a plain machine; or an audit, which has no row.
    pub fn count_since(&mut self, since: Since, row: Option<usize>) {
        match row {
            Some(row) if row < ROWS => self.since[since as usize][row] += 1,
            Some(_) => {}
            None => self.audits[since as usize] += 1,
        }
    }

    /// Shows everything that must be met, in words, with its count.
    pub fn each_required(&mut self, mut see: impl FnMut(Arguments, &mut u64)) {
        for (counts, (sort, board)) in self.counts.iter_mut().zip(SORTS) {
            for (counts, (route, name)) in counts.iter_mut().zip(ROUTES) {
                for (deed, of) in DEEDS.iter().enumerate() {
                    for (outcome, count) in counts.outcomes[deed].iter_mut().enumerate() {
                        if sort != Sort::Reached || outcome == 0 || outcome == REFUSED {
                            let words = outcome_words(outcome);
                            see(format_args!("{of} of {board}: {words}, by the {name} route"), count);
                        }
                    }
                    for (count, (_, deeds, on, routes, words)) in counts.sights[deed].iter_mut().zip(SIGHTS) {
                        if deeds[deed] && on.has(sort) && routes.contains(&route) {
                            see(format_args!("{of} of {board}, {words}, by the {name} route"), count);
                        }
                    }
                }
            }
        }
        for (counts, (_, name)) in self.causes.iter_mut().zip(ROUTES) {
            for (counts, of) in counts.iter_mut().zip(DEEDS) {
                for (count, (cause, _)) in counts.iter_mut().zip(CAUSES).filter(|(_, (cause, _))| can_be_wrong(*cause))
                {
                    let (_, _, words) = CASES[cause as usize];
                    see(format_args!("{of}, {words}, by the {name} route"), count);
                }
            }
        }
        for (counts, (_, name)) in self.alones.iter_mut().zip(ROUTES) {
            for (counts, of) in counts.iter_mut().zip(DEEDS) {
                for (count, (_, _, words)) in counts.iter_mut().zip(DAMAGES) {
                    see(format_args!("{of} of a board with {words} and nothing else, by the {name} route"), count);
                }
            }
        }
        for (first, (counts, (_, _, words))) in self.pairs.iter_mut().zip(DAMAGES).enumerate() {
            for (counts, of) in counts.iter_mut().zip(DEEDS) {
                for (count, (_, _, other)) in counts.iter_mut().zip(DAMAGES).skip(first + 1) {
                    see(format_args!("{of} of a board with {words} and {other}"), count);
                }
            }
        }
        for (counts, (_, board)) in self.since.iter_mut().zip(SINCE) {
            for (count, (call, _)) in counts.iter_mut().zip(KINDS) {
                see(format_args!("{call} beside the plain machine, from {board}"), count);
            }
        }
        for (count, (_, board)) in self.audits.iter_mut().zip(SINCE) {
            see(format_args!("an audit beside the plain machine, from {board}"), count);
        }
        for (counts, (_, board)) in self.runs.iter_mut().zip(SINCE) {
            see(format_args!("a pair of runs from {board}"), &mut counts.pairs);
            for (words, count) in counts.each() {
                see(format_args!("a pair of runs from {board} {words}"), count);
            }
        }
    }

    /// How many there were.
    pub fn told(&self, planned: u64) -> String {
        let Dumps { boards, deeds: [checks, repairs], since, audits, .. } = self;
        let calls: u64 = since.iter().flatten().sum();
        let (audits, pairs): (u64, u64) = (audits.iter().sum(), self.runs.iter().map(|counts| counts.pairs).sum());
        format!(
            "{boards} boards checked and repaired, {planned} of them planned: {checks} checks, {repairs} repairs, then {calls} \
             calls and looks and {audits} audits beside the plain machine; {pairs} pairs of runs from such boards"
        )
    }

    /// What was met, by route.
    pub fn table(&self) -> String {
        let mut text = format!("{:78}", "boards checked and repaired");
        ROUTES.iter().for_each(|(_, route)| text += &format!("{route:>9}"));
        for (deed, of) in DEEDS.iter().enumerate() {
            for outcome in 0..OUTCOMES {
                text += &format!("\n{:78}", format!("{of}: {}", outcome_words(outcome)));
                self.by_route(&mut text, |counts| counts.outcomes[deed][outcome]);
            }
        }
        for (index, (.., words)) in SIGHTS.iter().enumerate() {
            text += &format!("\n{words:78}");
            self.by_route(&mut text, |counts| counts.sights.iter().map(|counts| counts[index]).sum());
        }
        text
    }

    fn by_route(&self, text: &mut String, count: impl Fn(&Counts) -> u64) {
        for route in 0..ROUTES.len() {
            *text += &format!("{:>9}", self.counts.iter().map(|counts| count(&counts[route])).sum::<u64>());
        }
    }
}
