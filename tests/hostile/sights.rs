//! What map, unmap, protect, move and flush all meet at the places of a page. CR 3 has a call visit the places of a page's 256
//! names and no others, so what stands at these decides whether it visits the right ones: lines at both ends of them; beside and
//! among them lines that are not the page's, and records that only look like its lines; lines that share a physical line. At a
//! place stands one record, or in sets of four there stand four, one after another: what follows speaks of records. All is
//! counted in every run, by how many sets the board has and by route; the planned runs of `places.rs` reach it.

use crate::limits::*;
use model::{mapping, page_in_range, page_of_name, place_of, Board, Call, Edition, Record};
use std::cmp::Ordering;
use std::collections::BTreeMap;
use std::ops::Range;
use Size::{Few, Many, Most, One, Page};
use Sweep::{FlushAll, MapFrame, MapPage, MoveNew, MoveOld, Protect, Unmap};

/// Whose lines a call takes: map takes those of the page and those of the frame's prefix 1 range; move takes those of the old page
/// and those of the new one; flush all takes all.
#[derive(Clone, Copy, Debug, PartialEq, Eq)]
pub enum Sweep {
    MapPage,
    MapFrame,
    Unmap,
    Protect,
    MoveOld,
    MoveNew,
    FlushAll,
}

pub const SWEEPS: [(Sweep, &str); 7] = [
    (MapPage, "map"),
    (MapFrame, "map prefix 1"),
    (Unmap, "unmap"),
    (Protect, "protect"),
    (MoveOld, "move"),
    (MoveNew, "move new"),
    (FlushAll, "flush all"),
];

/// The sweeps of a page's lines; a frame's prefix 1 range has 256 names as a page has.
pub const PAGES: &[Sweep] = &[MapPage, MapFrame, Unmap, Protect, MoveOld, MoveNew];

/// How many sets a board has; with one line to a place, how many lines.
#[derive(Clone, Copy, Debug, PartialEq, Eq)]
pub enum Size {
    One,
    Few,
    Page,
    Many,
    Most,
}

pub const SIZES: [(Size, &str); 5] =
    [(One, "1 set"), (Few, "2 to 128 sets"), (Page, "256 sets"), (Many, "512 sets or more"), (Most, "65,536 lines")];

impl Size {
    /// Of a number that L may be.
    pub fn of(edition: Edition, lines: u64) -> Size {
        let sets = sets_of(edition, lines);
        match (sets, sets.cmp(&LINES_PER_PAGE)) {
            _ if lines == LINES_MAX => Most,
            (1, _) => One,
            (_, Ordering::Less) => Few,
            (_, Ordering::Equal) => Page,
            (_, Ordering::Greater) => Many,
        }
    }
}

/// Any number of sets; several; fewer than a page has lines, with and without a single one; more, so that there are other places
/// than the page's.
pub const ANY: &[Size] = &[One, Few, Page, Many, Most];
pub const SEVERAL: &[Size] = &[Few, Page, Many, Most];
pub const FEWER: &[Size] = &[Few];
pub const FEWEST: &[Size] = &[One, Few];
pub const MORE: &[Size] = &[Many, Most];

/// On a fresh board no line is held of a page that is about to be mapped, by map or by move.
pub const HELD: &[Sweep] = &[MapFrame, Unmap, Protect, MoveOld];

/// Of two ranges: a frame's prefix 1 range beside the page; the old page beside the new one, and that beside it. The second of each.
pub const BESIDE: &[Sweep] = &[MapFrame, MoveOld, MoveNew];
pub const BESIDE_HELD: &[Sweep] = &[MapFrame, MoveOld];
const SECOND: &[Sweep] = &[MapFrame, MoveNew];

/// Where lines are written back: of a page.
pub const WRITTEN: &[Sweep] = &[Unmap, MoveOld, MoveNew];
pub const NONE: &[Sweep] = &[];

/// By which sweeps something is met on wild boards, by which on fresh ones, and with how many sets.
pub struct Where {
    pub wild: &'static [Sweep],
    pub fresh: &'static [Sweep],
    pub sizes: &'static [Size],
}

impl Where {
    pub fn has(&self, sweep: Sweep, size: Size, fresh: bool) -> bool {
        let sweeps = if fresh { self.fresh } else { self.wild };
        sweeps.contains(&sweep) && self.sizes.contains(&size)
    }
}

macro_rules! sights {
    ($($sight:ident $words:literal: $wild:expr, $fresh:expr, $sizes:expr;)*) => {
        #[derive(Clone, Copy, Debug, PartialEq, Eq)]
        pub enum Sight { $($sight),* }

        /// In words, where "it" is the page, the frame's prefix 1 range, or the new page, and "the other" the range beside it; and
        /// where it must be met.
        pub const SIGHTS: &[(Sight, &str, Where)] =
            &[$((Sight::$sight, $words, Where { wild: $wild, fresh: $fresh, sizes: $sizes })),*];
    };
}

sights! {
    First "a line of it in the first record at its places": PAGES, HELD, ANY;
    Last "a line of it in the last record at its places": PAGES, HELD, ANY;
    Full "a line of it in each record at its places": PAGES, NONE, ANY;
    Whole "a line of it in each record at one of its places": PAGES, HELD, FEWEST;
    Bottom "a line of it in the first record of all": PAGES, HELD, MORE;
    Top "a line of it in the last record of all": PAGES, HELD, MORE;
    Before "another page's line just before its places": PAGES, PAGES, MORE;
    After "another page's line just after its places": PAGES, PAGES, MORE;
    Alike "at its places a line of a page with the same low 20 bits": PAGES, PAGES, ANY;
    Far "at its places a name from 2^40 up with the low 40 bits of one of its names": PAGES, NONE, ANY;
    Highest "at its places the highest name that can stand there": PAGES, NONE, ANY;
    Shared "at its places another page's line with the physical line of a changed one of it": PAGES, NONE, SEVERAL;
    Stray "a valid record of it at its places, but not at its own": PAGES, NONE, SEVERAL;
    Astray "a valid record of it at none of its places": PAGES, NONE, MORE;
    Beyond "a valid record of it with a line beyond memory": PAGES, NONE, ANY;
    Invalid "a record of it that is not valid": PAGES, NONE, ANY;
    Twice "two changed lines of one physical line, half of the places apart":
        &[Unmap, MoveOld, MoveNew, FlushAll], NONE, SEVERAL;
    Crossed "two changed lines of one physical line, the higher name in the lower record": WRITTEN, NONE, FEWER;
    Elsewhere "a changed line of it whose physical line is not where it is mapped, or will be": WRITTEN, NONE, ANY;
    Prefix1 "a line of its frame's prefix 1 range": &[Unmap, Protect, MoveOld], NONE, ANY;
    Same "lines of it at both ends of its places, which are the other's": BESIDE, BESIDE_HELD, ANY;
    Below "lines of it at both ends of its places, below the other's": BESIDE, BESIDE_HELD, MORE;
    Above "lines of it at both ends of its places, above the other's": BESIDE, BESIDE_HELD, MORE;
    BothSame "lines of it and of the other at the same places": SECOND, NONE, SEVERAL;
    BothBelow "lines of it below lines of the other": SECOND, NONE, MORE;
    BothAbove "lines of it above lines of the other": SECOND, NONE, MORE;
    OtherFirst "a changed line of it with the physical line of a changed one of the other in a lower record":
        &[MoveOld, MoveNew], NONE, SEVERAL;
    Ends "changed lines in the first record of all and in the last": &[FlushAll], &[FlushAll], ANY;
    Quarters "a changed line in each quarter of the records": &[FlushAll], &[FlushAll], SEVERAL;
}

/// The records at the places of a page's 256 names, each the name mod the number of sets: in a row, and all records where there
/// are no more than 256 sets.
pub fn records_of(page: u64, edition: Edition, lines: u64) -> Range<u64> {
    let sets = sets_of(edition, lines);
    let first = place_of(page * LINES_PER_PAGE, sets);
    set_lines(edition) * first..set_lines(edition) * (first + sets.min(LINES_PER_PAGE))
}

/// Whether a record that stands there is at the place of this name.
pub fn stands(board: &Board, name: u64, at: u64) -> bool {
    place_of(name, sets_of(board.edition, board.shape.lines)) == at / set_lines(board.edition)
}

/// Whether a physical line is inside memory.
pub fn inside(board: &Board, line: u64) -> bool {
    line < LINES_PER_PAGE * board.shape.frames
}

/// What a call meets, by sweep. Nothing if it is no sweep, or certainly refused.
pub fn met(board: &Board, call: &Call) -> Vec<(Sweep, Vec<Sight>)> {
    if !board.fits() {
        return Vec::new();
    }
    match *call {
        Call::Map { page, frame, .. } if page_in_range(page) && frame < board.shape.frames => {
            let prefix1 = PREFIX1_PAGE + frame;
            let (own, frames) = (Ground::of(board, page, prefix1), Ground::of(board, prefix1, page));
            vec![(MapPage, own.sights()), (MapFrame, [frames.sights(), frames.sights_beside(&own)].concat())]
        }
        Call::Unmap { page } if page_in_range(page) => {
            let own = Ground::of(board, page, page);
            vec![(Unmap, [own.sights(), own.sights_of_mapped(page), own.sights_of_changed()].concat())]
        }
        Call::Protect { page, .. } if page_in_range(page) => {
            let own = Ground::of(board, page, page);
            vec![(Protect, [own.sights(), own.sights_of_mapped(page)].concat())]
        }
        Call::Move { page, new_page } if page_in_range(page) && page_in_range(new_page) => {
            let (old, new) = (Ground::of(board, page, new_page), Ground::of(board, new_page, page));
            let written = |own: &Ground, other: &Ground| {
                let alone = [own.sights(), own.sights_of_mapped(page), own.sights_of_changed()].concat();
                [alone, own.sights_beside(other), own.sights_after(other)].concat()
            };
            vec![(MoveOld, written(&old, &new)), (MoveNew, written(&new, &old))]
        }
        Call::FlushAll => vec![(FlushAll, sights_of_all(board))],
        _ => Vec::new(),
    }
}

fn those<const N: usize>(all: [(bool, Sight); N]) -> Vec<Sight> {
    all.into_iter().filter(|(is, _)| *is).map(|(_, sight)| sight).collect()
}

/// A held line.
struct Held {
    at: u64,
    record: Record,
}

impl Held {
    fn all(board: &Board, records: Range<u64>) -> impl Iterator<Item = Held> + '_ {
        records.filter_map(|at| board.held(at).map(|record| Held { at, record }))
    }

    fn bytes<'a>(&self, board: &'a Board) -> &'a [u8] {
        &board.cache[line_bytes(self.at)]
    }
}

/// Of each physical line, the lowest of these and the highest, where their bytes differ. They come by rising record.
fn doubles<'a>(board: &Board, lines: impl Iterator<Item = &'a Held>) -> Vec<[&'a Held; 2]> {
    let mut of_line: BTreeMap<u64, [&Held; 2]> = BTreeMap::new();
    for held in lines {
        of_line.entry(held.record.line).or_insert([held; 2])[1] = held;
    }
    of_line.into_values().filter(|[low, high]| low.bytes(board) != high.bytes(board)).collect()
}

fn apart(doubles: &[[&Held; 2]], records: u64) -> bool {
    doubles.iter().any(|[low, high]| high.at - low.at >= records)
}

/// The records at the places of a page that a call takes the lines of.
struct Ground<'a> {
    board: &'a Board,
    page: u64,
    /// The call takes the lines of this page, too.
    also: u64,
    records: Range<u64>,
    /// The lines held there: the page's, and those that the call doesn't take.
    own: Vec<Held>,
    kept: Vec<Held>,
}

impl Ground<'_> {
    fn of(board: &Board, page: u64, also: u64) -> Ground<'_> {
        let records = records_of(page, board.edition, board.shape.lines);
        let lines = Held::all(board, records.clone()).filter(|held| {
            let of = page_of_name(held.record.name);
            of == page || of != also
        });
        let (own, kept) = lines.partition(|held| page_of_name(held.record.name) == page);
        Ground { board, page, also, records, own, kept }
    }

    fn own_at(&self, at: u64) -> bool {
        self.own.iter().any(|held| held.at == at)
    }

    fn at_both_ends(&self) -> bool {
        self.own_at(self.records.start) && self.own_at(self.records.end - 1)
    }

    fn is_whole_somewhere(&self) -> bool {
        let of_set = set_lines(self.board.edition);
        let is_set =
            |lines: &[Held]| lines[0].at % of_set == 0 && lines[lines.len() - 1].at == lines[0].at + of_set - 1;
        self.own.windows(of_set as usize).any(is_set)
    }

    /// Whether a line that the call doesn't take is held there, beside the page's places.
    fn kept_beside(&self, at: u64) -> bool {
        let held = (at < self.board.shape.lines).then(|| self.board.held(at)).flatten();
        held.is_some_and(|record| page_of_name(record.name) != self.also)
    }

    fn kept_name(&self, is: impl Fn(u64) -> bool) -> bool {
        self.kept.iter().any(|held| is(held.record.name))
    }

    fn changed(&self) -> impl Iterator<Item = &Held> {
        self.own.iter().filter(|held| held.record.changed)
    }

    /// The records on all the board that have a name of the page: whether each stands at the page's places, is valid, stands at
    /// its own place and has a line in memory.
    fn named(&self) -> Vec<[bool; 4]> {
        let names = (0..).zip(self.board.records.iter().step_by(2));
        let named = names.filter(|(_, &name)| page_of_name(name) == self.page);
        let asked = named.map(|(at, &name)| {
            let Record { valid, line, .. } = self.board.record(at);
            [self.records.contains(&at), valid, stands(self.board, name, at), inside(self.board, line)]
        });
        asked.collect()
    }

    /// What the sweep of any page may meet.
    fn sights(&self) -> Vec<Sight> {
        let (lines, Range { start, end }) = (self.board.shape.lines, self.records.clone());
        let sets = sets_of(self.board.edition, lines);
        let named = self.named();
        let alike = |of: u64| of < PAGES_END && of % ALIKE == self.page % ALIKE;
        let shared = |own: &Held| {
            let twin =
                |held: &Held| held.record.line == own.record.line && held.bytes(self.board) != own.bytes(self.board);
            self.kept.iter().any(twin)
        };
        those([
            (self.own_at(start), Sight::First),
            (self.own_at(end - 1), Sight::Last),
            (self.own.len() as u64 == end - start, Sight::Full),
            (self.is_whole_somewhere(), Sight::Whole),
            (start == 0 && self.own_at(start), Sight::Bottom),
            (end == lines && self.own_at(end - 1), Sight::Top),
            (start > 0 && self.kept_beside(start - 1), Sight::Before),
            (self.kept_beside(end), Sight::After),
            (self.kept_name(|name| alike(page_of_name(name))), Sight::Alike),
            (self.kept_name(|name| name >= NAMES_END && page_of_name(name % NAMES_END) == self.page), Sight::Far),
            (self.kept_name(|name| name.checked_add(sets).is_none()), Sight::Highest),
            (self.changed().any(shared), Sight::Shared),
            (named.contains(&[true, true, false, true]), Sight::Stray),
            (named.contains(&[false, true, false, true]), Sight::Astray),
            (named.contains(&[true, true, true, false]), Sight::Beyond),
            (named.contains(&[true, false, true, true]), Sight::Invalid),
        ])
    }

    /// What the sweep of one of two ranges may meet, beside the other's places.
    fn sights_beside(&self, other: &Ground) -> Vec<Sight> {
        let (ends, both) = match self.records.start.cmp(&other.records.start) {
            Ordering::Equal => (Sight::Same, Sight::BothSame),
            Ordering::Less => (Sight::Below, Sight::BothBelow),
            Ordering::Greater => (Sight::Above, Sight::BothAbove),
        };
        those([(self.at_both_ends(), ends), (!self.own.is_empty() && !other.own.is_empty(), both)])
    }

    /// What may be met of the frame of a page that is mapped: of this one, or of one that this one will take its frame from.
    fn sights_of_mapped(&self, page: u64) -> Vec<Sight> {
        let Some((frame, _)) = mapping(&self.board.shape, &self.board.words, page) else { return Vec::new() };
        let prefix1 = Ground::of(self.board, PREFIX1_PAGE + frame, self.page);
        those([
            (!prefix1.own.is_empty(), Sight::Prefix1),
            (self.changed().any(|held| held.record.line != line_in(frame, held.record.name)), Sight::Elsewhere),
        ])
    }

    /// What may be met where lines are written back.
    fn sights_of_changed(&self) -> Vec<Sight> {
        let doubles = doubles(self.board, self.changed());
        let records = self.records.end - self.records.start;
        those([
            (apart(&doubles, records / 2), Sight::Twice),
            (doubles.iter().any(|[low, high]| low.record.name > high.record.name), Sight::Crossed),
        ])
    }

    /// What may be met where lines of two ranges are written back, by rising record.
    fn sights_after(&self, other: &Ground) -> Vec<Sight> {
        let mut changed: Vec<&Held> = self.changed().chain(other.changed()).collect();
        changed.sort_unstable_by_key(|held| held.at);
        let pages = doubles(self.board, changed.into_iter()).into_iter();
        let mut pages = pages.map(|lines| lines.map(|held| page_of_name(held.record.name)));
        those([(pages.any(|pages| pages == [other.page, self.page]), Sight::OtherFirst)])
    }
}

/// What flush all may meet.
fn sights_of_all(board: &Board) -> Vec<Sight> {
    let lines = board.shape.lines;
    let changed: Vec<Held> = Held::all(board, 0..lines).filter(|held| held.record.changed).collect();
    let at = |at: u64| changed.binary_search_by_key(&at, |held| held.at).is_ok();
    let quarter = |quarter: u64| changed.iter().any(|held| held.at * 4 / lines == quarter);
    those([
        (at(0) && at(lines - 1), Sight::Ends),
        ((0..4).all(quarter), Sight::Quarters),
        (apart(&doubles(board, changed.iter()), lines / 2), Sight::Twice),
    ])
}
