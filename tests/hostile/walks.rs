//! Planted faults in which records map, unmap, protect, move and flush all visit, in which order, which lines they take there and
//! what becomes of these: the wrong shortcuts that CR 3 invites, with sets of four CR 4, and CR 9. Each makes of a board what a
//! library with that fault would.

use crate::gen::put;
use crate::limits::*;
use crate::sights::{
    inside, records_of, stands, Size, Sweep, Where, ANY, BESIDE, BESIDE_HELD, FEWER, HELD, MORE, NONE, PAGES, SEVERAL,
    SWEEPS, WRITTEN,
};
use model::{mapping, page_of_name, Board, Call, Edition, Record};
use std::ops::Range;
use Sweep::{FlushAll, MapFrame, MapPage, MoveNew, MoveOld, Protect, Unmap};

/// What is wrong in a sweep.
#[derive(Clone, Copy, Debug, PartialEq, Eq)]
pub enum Wrong {
    /// No record is visited.
    Forgets,
    /// The last record is not visited.
    ShortEnd,
    /// The first record is not visited.
    ShortStart,
    /// Of fewer places than a page has names, only the first half is visited.
    Half,
    /// The places of the page after it are visited.
    NextPage,
    /// The places from page mod their number up are visited.
    PageModLines,
    /// Of two ranges, the places of this one are visited only where they are the other's.
    PagePlaces,
    /// The first 256 places are visited.
    FirstPlaces,
    /// By falling record.
    Falling,
    /// By rising name.
    ByName,
    /// All lines of the old page, then all of the new one.
    TwoWalks,
    /// All lines of the new page, then all of the old one.
    NewFirst,
    /// Of each set only the first line is visited.
    FirstLines,
    /// Of each set only the first three lines are visited.
    ThreeLines,
    /// So many records as there are places are visited.
    AsPlaces,
    /// The records from the first place up are visited, as if one stood at each place.
    PlaceAsRecord,
    /// The first line of each set, then the second of each, and so on.
    ByLine,
    /// Names are not compared.
    AnyName,
    /// The low 20 bits of page numbers are compared.
    Alike,
    /// The low 40 bits of names are compared.
    LowBits,
    /// Records at another place than their own are taken.
    Strays,
    /// Records with a line beyond memory are taken.
    Beyond,
    /// Records that are not valid are taken.
    Invalid,
    /// Lines of the frame's prefix 1 range are taken, too.
    Prefix1,
    /// Changed lines are written back.
    WritesBack,
    /// Changed lines are written to where the page is mapped, or will be.
    ThroughMap,
    /// Changed lines are not written back.
    Loses,
    /// Lines are written back and stay.
    Keeps,
    /// Lines of the old page become lines of the new one.
    Renames,
}

/// With its name, and where it shows.
pub const WRONGS: [(Wrong, &str, Where); 29] = [
    (Wrong::Forgets, "forgets", at(PAGES, HELD, ANY)),
    (Wrong::ShortEnd, "short-end", at(EACH, EACH_HELD, ANY)),
    (Wrong::ShortStart, "short-start", at(EACH, EACH_HELD, ANY)),
    (Wrong::Half, "half", at(PAGES, HELD, FEWER)),
    (Wrong::NextPage, "next-page", at(PAGES, HELD, MORE)),
    (Wrong::PageModLines, "page-mod-lines", at(PAGES, HELD, MORE)),
    (Wrong::PagePlaces, "page-places", at(BESIDE, BESIDE_HELD, MORE)),
    (Wrong::FirstPlaces, "first-places", at(&[FlushAll], &[FlushAll], MORE)),
    (Wrong::Falling, "falling", at(WHOLE, NONE, SEVERAL)),
    (Wrong::ByName, "by-name", at(&[Unmap, MoveOld], NONE, FEWER)),
    (Wrong::TwoWalks, "two-walks", at(&[MoveOld], NONE, SEVERAL)),
    (Wrong::NewFirst, "new-first", at(&[MoveOld], NONE, SEVERAL)),
    (Wrong::AnyName, "any-name", at(PAGES, PAGES, ANY)),
    (Wrong::Alike, "alike", at(PAGES, PAGES, ANY)),
    (Wrong::LowBits, "low-bits", at(PAGES, NONE, ANY)),
    (Wrong::Strays, "strays", at(PAGES, NONE, SEVERAL)),
    (Wrong::Beyond, "beyond", at(PAGES, NONE, ANY)),
    (Wrong::Invalid, "invalid", at(PAGES, NONE, ANY)),
    (Wrong::Prefix1, "prefix-1", at(&[Unmap, Protect, MoveOld], NONE, ANY)),
    (Wrong::WritesBack, "writes-back", at(&[MapPage, MapFrame], NONE, ANY)),
    (Wrong::ThroughMap, "through-map", at(WRITTEN, NONE, ANY)),
    (Wrong::Loses, "loses", at(EACH_WRITTEN, WHOLE, ANY)),
    (Wrong::Keeps, "keeps", at(EACH_WRITTEN, WHOLE, ANY)),
    (Wrong::Renames, "renames", at(&[MoveOld], &[MoveOld], ANY)),
    (Wrong::FirstLines, "first-lines", at(EACH, EACH_HELD, ANY)),
    (Wrong::ThreeLines, "three-lines", at(EACH, EACH_HELD, ANY)),
    (Wrong::AsPlaces, "as-places", at(EACH, EACH_HELD, ANY)),
    (Wrong::PlaceAsRecord, "place-as-record", at(PAGES, HELD, MORE)),
    (Wrong::ByLine, "by-line", at(WHOLE, NONE, SEVERAL)),
];

impl Wrong {
    /// Whether there is such a fault in an edition: some are of sets of four.
    pub fn is_of(self, edition: Edition) -> bool {
        use Wrong::*;
        let of_sets = matches!(self, FirstLines | ThreeLines | AsPlaces | PlaceAsRecord | ByLine);
        !of_sets || edition == Edition::Fours
    }
}

const EACH: &[Sweep] = &[MapPage, MapFrame, Unmap, Protect, MoveOld, MoveNew, FlushAll];
const EACH_HELD: &[Sweep] = &[MapFrame, Unmap, Protect, MoveOld, FlushAll];
const EACH_WRITTEN: &[Sweep] = &[Unmap, MoveOld, MoveNew, FlushAll];

/// Where lines are written back, each once: a move is one walk over both pages' lines.
const WHOLE: &[Sweep] = &[Unmap, MoveOld, FlushAll];

const fn at(wild: &'static [Sweep], fresh: &'static [Sweep], sizes: &'static [Size]) -> Where {
    Where { wild, fresh, sizes }
}

/// A sweep with what is wrong in it, if anything is.
#[derive(Clone, Copy, Debug, PartialEq, Eq)]
pub struct Walk {
    pub sweep: Sweep,
    pub wrong: Option<Wrong>,
}

/// Every sweep with everything that can be wrong in it, by name.
pub fn walks() -> impl Iterator<Item = (Walk, String)> {
    WRONGS.into_iter().flat_map(|(wrong, name, at)| {
        let those = SWEEPS.into_iter().filter(move |(sweep, _)| at.wild.contains(sweep));
        those.map(move |(sweep, call)| (Walk { sweep, wrong: Some(wrong) }, format!("{call} {name}").replace(' ', "-")))
    })
}

impl Walk {
    pub fn is_of_move(self) -> bool {
        matches!(self.sweep, MoveOld | MoveNew)
    }

    /// The records and the memory of a board after a call that is done; none if the call doesn't have this sweep.
    pub fn left(self, before: &Board, call: &Call) -> Option<(Vec<u64>, Vec<u8>)> {
        let mut board = before.clone();
        for passes in self.rounds(before, call)? {
            self.make(&passes, &mut board);
        }
        if let Call::Map { frame, .. } = *call {
            board.memory[frame_bytes(frame)].fill(0);
        }
        Some((board.records, board.memory))
    }

    /// Passes that are made one after another, or some of them together.
    fn rounds(self, board: &Board, call: &Call) -> Option<Vec<Vec<Pass>>> {
        let all = 0..board.shape.lines;
        let pass = |page: u64, act: Act| Pass { wrong: self.wrong, page: Some(page), within: all.clone(), act };
        let right = |page: u64, act: Act| Pass { wrong: None, ..pass(page, act) };
        let is = |wrong: Wrong| self.wrong == Some(wrong);
        let frame_of = |page: u64| mapping(&board.shape, &board.words, page).map(|(frame, _)| frame);
        let with_prefix1 = |page: u64, own: Vec<Pass>, act: Act| {
            let prefix1 = frame_of(page).filter(|_| is(Wrong::Prefix1)).map(|frame| right(PREFIX1_PAGE + frame, act));
            [own].into_iter().chain(prefix1.map(|pass| vec![pass])).collect()
        };
        let dropped = if is(Wrong::WritesBack) { WRITE_BACK } else { Act::Drop };
        let written = |page: u64| match self.wrong {
            Some(Wrong::ThroughMap) => Act::WriteBack { through: frame_of(page), keeps: false },
            Some(Wrong::Keeps) => Act::WriteBack { through: None, keeps: true },
            Some(Wrong::Loses) => Act::Drop,
            _ => WRITE_BACK,
        };
        // A pass over one of two ranges.
        let beside = |page: u64, other: u64, act: Act| {
            let others = || records_of(other, board.edition, all.end);
            Pass { within: if is(Wrong::PagePlaces) { others() } else { all.clone() }, ..pass(page, act) }
        };
        Some(match (*call, self.sweep) {
            (Call::Map { page, frame, .. }, MapPage) => {
                vec![vec![pass(page, dropped)], vec![right(PREFIX1_PAGE + frame, Act::Drop)]]
            }
            (Call::Map { page, frame, .. }, MapFrame) => {
                vec![vec![right(page, Act::Drop)], vec![beside(PREFIX1_PAGE + frame, page, dropped)]]
            }
            (Call::Unmap { page }, Unmap) => with_prefix1(page, vec![pass(page, written(page))], WRITE_BACK),
            (Call::Protect { page, write }, Protect) => {
                let act = Act::Permit(write);
                with_prefix1(page, vec![pass(page, act)], act)
            }
            (Call::Move { page, new_page }, MoveOld) => {
                let act = if is(Wrong::Renames) { Act::Rename(new_page) } else { written(page) };
                let (old, new) = (beside(page, new_page, act), right(new_page, WRITE_BACK));
                match self.wrong {
                    Some(Wrong::TwoWalks) => vec![vec![old], vec![new]],
                    Some(Wrong::NewFirst) => vec![vec![new], vec![old]],
                    _ => with_prefix1(page, vec![new, old], WRITE_BACK),
                }
            }
            (Call::Move { page, new_page }, MoveNew) => {
                vec![vec![right(page, WRITE_BACK), beside(new_page, page, written(page))]]
            }
            (Call::FlushAll, FlushAll) => vec![vec![Pass { page: None, ..pass(0, written(0)) }]],
            _ => return None,
        })
    }

    /// Makes passes together: by rising record, or in the order that is wrong.
    fn make(self, passes: &[Pass], board: &mut Board) {
        let of_set = set_lines(board.edition);
        let visits = passes.iter().flat_map(|pass| pass.records(board).into_iter().map(move |at| (at, pass)));
        let mut visits: Vec<(u64, &Pass)> = visits.collect();
        visits.sort_by_key(|(at, _)| match self.wrong {
            Some(Wrong::Falling) => (0, u64::MAX - at),
            Some(Wrong::ByName) => (board.record(*at).name, *at),
            Some(Wrong::ByLine) => (at % of_set, *at),
            _ => (0, *at),
        });
        for (at, pass) in visits {
            if pass.takes(board, at) {
                pass.act(board, at);
            }
        }
    }
}

/// What is done with a line that is taken.
#[derive(Clone, Copy)]
enum Act {
    Drop,
    /// Written back, to a line of this frame if there is one, then dropped, unless it stays.
    WriteBack {
        through: Option<u64>,
        keeps: bool,
    },
    Permit(bool),
    /// It gets the name that it would have in this page.
    Rename(u64),
}

const WRITE_BACK: Act = Act::WriteBack { through: None, keeps: false };

/// A way over the records at the places of a page, or over all, and what is done with the lines of that page, or with all.
struct Pass {
    wrong: Option<Wrong>,
    page: Option<u64>,
    within: Range<u64>,
    act: Act,
}

impl Pass {
    /// The records that are visited.
    fn records(&self, board: &Board) -> Vec<u64> {
        let (lines, of_set) = (board.shape.lines, set_lines(board.edition));
        let sets = sets_of(board.edition, lines);
        let own = |page: u64| records_of(page, board.edition, lines);
        let Range { start, end } = self.page.map_or(0..lines, own);
        let few = sets < LINES_PER_PAGE;
        let mut records: Vec<u64> = match (self.wrong, self.page) {
            (Some(Wrong::Forgets), _) => Vec::new(),
            (Some(Wrong::ShortEnd), _) => (start..end - 1).collect(),
            (Some(Wrong::ShortStart), _) => (start + 1..end).collect(),
            (Some(Wrong::Half), _) if few => (0..lines.div_ceil(2)).collect(),
            (Some(Wrong::NextPage), Some(page)) => own(page + 1).collect(),
            (Some(Wrong::PageModLines), Some(page)) if !few => {
                let places = (0..LINES_PER_PAGE).map(|index| (page + index) % sets);
                places.flat_map(|place| of_set * place..of_set * (place + 1)).collect()
            }
            (Some(Wrong::FirstPlaces), _) => (0..lines.min(of_set * LINES_PER_PAGE)).collect(),
            (Some(Wrong::AsPlaces), _) => (start..start + (end - start) / of_set).collect(),
            (Some(Wrong::PlaceAsRecord), _) => (start / of_set..start / of_set + (end - start)).collect(),
            _ => (start..end).collect(),
        };
        match self.wrong {
            Some(Wrong::FirstLines) => records.retain(|at| at % of_set == 0),
            Some(Wrong::ThreeLines) => records.retain(|at| at % of_set < 3),
            _ => {}
        }
        records.retain(|at| self.within.contains(at));
        records
    }

    fn takes(&self, board: &Board, at: u64) -> bool {
        let Record { name, line, valid, .. } = board.record(at);
        let is = |wrong: Wrong| self.wrong == Some(wrong);
        let named = |page: u64| match self.wrong {
            Some(Wrong::AnyName) => true,
            Some(Wrong::Alike) => page_of_name(name) % ALIKE == page % ALIKE,
            Some(Wrong::LowBits) => page_of_name(name % NAMES_END) == page,
            _ => page_of_name(name) == page,
        };
        self.page.map_or(true, named)
            && (valid || is(Wrong::Invalid))
            && (stands(board, name, at) || is(Wrong::Strays))
            && (inside(board, line) || is(Wrong::Beyond))
    }

    fn act(&self, board: &mut Board, at: u64) {
        let record = board.record(at);
        let left = match self.act {
            Act::Drop => NOTHING,
            Act::WriteBack { through, keeps } => {
                let line = through.map_or(record.line, |frame| line_in(frame, record.name));
                if record.changed && inside(board, line) {
                    board.memory[line_bytes(line)].copy_from_slice(&board.cache[line_bytes(at)]);
                }
                if keeps {
                    Record { changed: false, ..record }
                } else {
                    NOTHING
                }
            }
            Act::Permit(write) => Record { write, ..record },
            Act::Rename(page) => Record { name: page * LINES_PER_PAGE + record.name % LINES_PER_PAGE, ..record },
        };
        put(board, at, left.encode());
    }
}

const NOTHING: Record = Record { name: 0, line: 0, changed: false, write: false, valid: false };
