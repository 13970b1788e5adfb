//! Planned runs that reach all of `lists.rs`, by every route, on fresh boards and on wild ones: every end of an access at every
//! place of a list; lists whose accesses meet; lists whose lengths don't agree; lists on boards that don't fit, for each cause.
//! Nothing else is counted there.

use crate::cases::{Case, CASES};
use crate::coverage::{Coverage, Planned, Sort};
use crate::gen;
use crate::guarded::FENCED_BEHIND;
use crate::limits::*;
use crate::lists::{Item, List, ENDS};
use crate::pairs::Failure;
use crate::plant::Plant;
use crate::rng::Rng;
use crate::routes::Manner;
use crate::trace::{Deed, Start, Step};
use crate::values::{self, access, load, store, Row, Whose::User};
use crate::{stepped, ways};
use model::{Board, Call, Edition, Event, FRESH_MATRIX, NO_TAG};
use Event::{Hit, Miss, MissWriteBack, Refused};

/// What makes a board unfit for every call, each by itself, and how: in either edition, then in sets of four.
pub const CAUSES: [(Case, fn(&mut Board)); 27] = [
    (Case::FramesZero, |board| {
        (board.shape.frames, board.shape.uncached) = (0, 0);
        board.words.clear();
        board.memory.clear();
    }),
    (Case::FramesOver, |board| board.shape.frames = FRAMES_MAX + 1),
    (Case::UncachedOver, |board| board.shape.uncached = board.shape.frames + 1),
    (Case::ProcessesZero, |board| gen::set_processes(board, 0)),
    (Case::ProcessesOver, |board| gen::set_processes(board, PROCESSES_MAX + 1)),
    (Case::ProcessesWrap, |board| gen::set_processes(board, (1 << 55) + 1)),
    (Case::LinesZero, |board| gen::set_lines_to(board, 0)),
    (Case::LinesNoPower, |board| gen::set_lines_to(board, 3 * set_lines(board.edition))),
    (Case::LinesOver, |board| gen::set_lines_to(board, 2 * LINES_MAX)),
    (Case::LinesWrap, |board| gen::set_lines_to(board, 1 << 63)),
    (Case::SlotsShort, |board| board.slots.truncate(board.slots.len() - 1)),
    (Case::SlotsLong, |board| board.slots.push(0)),
    (Case::WordsShort, |board| board.words.truncate(board.words.len() - 1)),
    (Case::WordsLong, |board| board.words.push(0)),
    (Case::RecordsShort, |board| board.records.truncate(board.records.len() - 1)),
    (Case::RecordsLong, |board| board.records.push(0)),
    (Case::CacheShort, |board| board.cache.truncate(board.cache.len() - 1)),
    (Case::CacheLong, |board| board.cache.push(0)),
    (Case::MemoryShort, |board| board.memory.truncate(board.memory.len() - 1)),
    (Case::MemoryLong, |board| board.memory.push(0)),
    (Case::LinesBelow1, |board| gen::set_lines_to(board, 1)),
    (Case::LinesBelow2, |board| gen::set_lines_to(board, 2)),
    (Case::UsesNone, |board| board.uses.clear()),
    (Case::UsesShort, |board| board.uses.truncate(board.uses.len() - 1)),
    (Case::UsesLong, |board| board.uses.push(FRESH_MATRIX)),
    (Case::UsesAsLines, |board| board.uses.resize(board.shape.lines as usize, FRESH_MATRIX)),
    (Case::UsesAsBytes, |board| board.uses.resize(4 * board.shape.lines as usize, FRESH_MATRIX)),
];

// ----- every end at every place -----

/// What makes an access come out as each of `ENDS`, on the boards of `values.rs`: what it is otherwise, and the access.
fn ends() -> [(Row, Call); ENDS.len()] {
    let done = |row: Row| (row, access(&row, 4, 1, 0));
    let refused = |number: u32| done(store(User, Refused(number)));
    let (stored, no_process) = (store(User, Hit), store(User, Refused(2)));
    [
        done(load(User, Hit)),
        done(load(User, Miss)),
        done(load(User, MissWriteBack)),
        done(stored),
        done(store(User, Miss)),
        done(store(User, MissWriteBack)),
        done(no_process),
        (stored, access(&stored, 1, 0x100, 0)),
        (store(User, Refused(3)), access(&no_process, 4, 1, 0)),
        refused(3),
        refused(4),
        refused(5),
        refused(6),
        refused(7),
        refused(8),
        refused(9),
    ]
}

/// The calls that bring the end about, and the access in lists with others, which are to another place of the cache: alone,
/// first, in the midst, last.
fn deeds_of_end(edition: Edition, row: &Row, call: &Call) -> Vec<Deed> {
    let (own, other) = (item(call), item(&access(&load(User, Hit), 4, 0, 1)));
    let lists = [vec![own], vec![own, other, other], vec![other, own, other], vec![other, other, own]];
    let mut deeds: Vec<Deed> = values::first_calls(row).into_iter().map(Deed::Call).collect();
    for items in lists {
        // What is before a load is what is before a store: the lines at its place are changed by one.
        let before = values::calls_before(edition, &Row { store: true, ..*row });
        deeds.extend(before.into_iter().map(Deed::Call).chain([listed(items)]));
    }
    deeds
}

fn item(call: &Call) -> Item {
    Item::of(call, 1).expect("a user access")
}

fn listed(items: Vec<Item>) -> Deed {
    Deed::List(stained(items))
}

/// With other answers before than any call gives.
fn stained(items: Vec<Item>) -> List {
    List { stain: 0xDEAD_BEEF_5EED_F00D, ..List::of(items) }
}

// ----- lists whose accesses meet -----

/// Those of process 0 to the page that is mapped and writable: a byte of a line.
fn loaded(line: u64) -> Item {
    item(&access(&load(User, Hit), 1, 0, line))
}

fn stored(line: u64, value: u32) -> Item {
    item(&access(&store(User, Hit), 1, value, line))
}

/// Lists of every length but the long one, and what accesses may meet in them.
fn meetings(edition: Edition) -> Vec<Deed> {
    let row = store(User, Hit);
    let mut deeds: Vec<Deed> = values::first_calls(&row).into_iter().map(Deed::Call).collect();
    // Process 1 has the segment in the same slot.
    deeds.push(Deed::Call(Call::Attach { process: 1, slot: 0, segment: SEGMENT_FIRST, write: true }));
    let flush = || Deed::Call(Call::FlushAll);
    // Lines that share their place with line 0, and push it out.
    let pushed = || values::pushing(edition).map(loaded);
    let read_only = |store: bool| item(&access(&Row { store, ..values::store(User, Refused(9)) }, 1, 1, 0));
    let refused = |number: u32| item(&access(&store(User, Refused(number)), 4, 1, 0));
    let unmapped = item(&access(&load(User, Refused(8)), 1, 0, 0));
    let by = |process: u64| Item { process, ..loaded(0) };
    deeds.extend([listed(vec![]), listed(vec![loaded(0)]), listed(vec![loaded(0), loaded(1)]), flush()]);
    deeds.push(listed([stored(0, 50), loaded(0), by(1)].into_iter().chain(pushed()).chain([loaded(0)]).collect()));
    deeds.extend([flush(), listed(vec![loaded(0)]), listed(pushed().chain([loaded(0)]).collect()), flush()]);
    deeds.push(listed(vec![read_only(false), read_only(true), read_only(false)]));
    deeds.push(listed(vec![unmapped; 2]));
    deeds.push(listed([2, 4, 5, 6, 7, 8, 9].map(refused).into_iter().chain([loaded(0); 5]).collect()));
    deeds.push(listed(vec![Item { store: 2, ..stored(0, 1) }, Item { value: 0x100, ..loaded(0) }]));
    deeds.push(listed([1 << 8, 1 << 16, 1 << 31, 1 << 32, u64::MAX].map(by).to_vec()));
    // While a tag is pending.
    deeds.push(Deed::Call(Call::Tag { name: PAGE_FIRST * LINES_PER_PAGE }));
    deeds.extend([listed(vec![loaded(0); 2]), Deed::Call(Call::DropTag)]);
    deeds.extend(misfits());
    deeds
}

/// A long list: 64 bytes, in lines that have places of their own, are stored and then loaded again and again. Each load gives
/// another value than its neighbours do.
fn long() -> List {
    let byte = |item: Item, at: u32| Item { address: item.address + at, ..item };
    let stores = (0..64).map(|at| byte(stored(0, at + 1), at));
    let loads = (0..0x1_0000).map(|index| byte(loaded(0), index * 7 % 64));
    stained(stores.chain(loads).collect())
}

/// Lists whose lengths don't agree.
fn misfits() -> impl Iterator<Item = Deed> {
    let items = vec![stored(0, 7), loaded(0), stored(1, 8)];
    let accesses = items.len();
    let others = [accesses - 1, accesses + 1, 2 * accesses + 1, ACCESS_WORDS * accesses, accesses + 0x1_0000, 0];
    let list = stained(items);
    let with_answers = |answers: usize| List { answers, ..list.clone() };
    let torn = |words: usize, answers: usize| List { torn: vec![1; words], ..with_answers(answers) };
    let mut lists: Vec<List> = others.map(with_answers).to_vec();
    lists.push(List { answers: 2, ..stained(vec![]) });
    for words in 1..ACCESS_WORDS {
        lists.extend([torn(words, accesses), torn(words, accesses + 1)]);
    }
    lists.into_iter().map(Deed::List)
}

// ----- boards that don't fit -----

/// Lists on a board that doesn't fit: one that does, the empty one, and those that don't either.
fn unfit() -> Vec<Deed> {
    [listed(vec![stored(0, 7), loaded(0)]), listed(vec![])].into_iter().chain(misfits()).collect()
}

// ----- the runs -----

/// Half of the lists end at a fence, accesses and answers.
fn run(
    start: Start,
    deeds: &[Deed],
    manner: Manner,
    plant: Option<Plant>,
    coverage: &mut Coverage,
) -> Result<(), Failure> {
    stepped(start, deeds.len(), plant, coverage, |index, _| {
        let mut deed = deeds[index].clone();
        if let Deed::List(list) = &mut deed {
            list.offsets = if index % 2 == 0 { [FENCED_BEHIND; 2] } else { [1; 2] };
        }
        Step { deed, manner }
    })
}

/// Gives how many boards were run.
pub fn lists(rng: &mut Rng, edition: Edition, plant: Option<Plant>, coverage: &mut Coverage) -> Result<usize, Failure> {
    let mut boards = 0;
    coverage.planned = Some(Planned::Lists);
    for (fresh, manner) in ways() {
        for (row, call) in ends() {
            let (start, deeds) = (values::start(rng, edition, &row, fresh), deeds_of_end(edition, &row, &call));
            run(start, &deeds, manner, plant, coverage)?;
            boards += 1;
        }
        for (yes, null) in [(1, false), (2, true)] {
            let start = values::start(rng, edition, &store(User, Hit), fresh);
            let long = (!null).then(|| Deed::List(long()));
            let deeds: Vec<Deed> = meetings(edition).into_iter().chain(long).collect();
            run(start, &deeds, Manner { yes, null, ..manner }, plant, coverage)?;
            boards += 1;
        }
        let sort = Sort { edition, fresh };
        for (_, spoil) in CAUSES.iter().filter(|(cause, _)| CASES[*cause as usize].1.is_on(sort)) {
            let (mut board, _) = gen::wild_board(rng, edition, values::shape(edition));
            board.tag = NO_TAG;
            spoil(&mut board);
            run(Start { fresh, board, offsets: gen::offsets(rng) }, &unfit(), manner, plant, coverage)?;
            boards += 1;
        }
    }
    coverage.planned = None;
    Ok(boards)
}
