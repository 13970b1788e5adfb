//! Boards at the limits of P and L, and past them, all buffers as long as the numbers say: at a limit every call must be done,
//! past it every call must be refused by 1; by every route, on fresh boards and on wild ones. Likewise boards of sets of four with
//! too few lines or another number of matrices. What was reached is counted apart from all other runs. The limit of F is tried in
//! `largest.rs`.

use crate::coverage::{Coverage, Planned, EDGES};
use crate::limits::*;
use crate::lists::{Item, List};
use crate::pairs::Failure;
use crate::plant::Plant;
use crate::rng::Rng;
use crate::trace::{Deed, Start, Step};
use crate::{gen, stepped, ways};
use model::{Board, Call, Edition, Shape, NO_TAG};

const FRAMES: u64 = 4;

/// The last page, in the last frame, by the last process and slot: with the most lines, the page's last line has the last place.
/// It is moved to the first one, and back.
const PAGE: u64 = PAGE_LAST;
const NEW_PAGE: u64 = PAGE_FIRST;
const FRAME: u64 = FRAMES - 1;
const NAME: u64 = PAGE * LINES_PER_PAGE + LINES_PER_PAGE - 1;
const LINE: u64 = FRAME * LINES_PER_PAGE + LINES_PER_PAGE - 1;
const SLOT: u64 = SLOTS - 1;
const ADDRESS: u32 = USER_END - 4;
const GLOBAL: u64 = PAGE * PAGE_BYTES + PAGE_BYTES - 4;

/// Every call and look, in an order in which all are done where the numbers are taken. `FRAME` has to be free, and `PAGE` and
/// `NEW_PAGE` mapped nowhere.
fn deeds(board: &Board) -> Vec<Deed> {
    let process = board.shape.processes - 1;
    let user = |store, value| Call::UserAccess { process, store, width: 4, address: ADDRESS, value };
    let supervisor = |store, value| Call::SupervisorAccess { store, width: 2, global: GLOBAL, value };
    let calls = [
        Call::FlushAll,
        Call::Map { page: PAGE, frame: FRAME, write: true },
        Call::Attach { process, slot: SLOT, segment: SEGMENT_LAST, write: true },
        user(true, 0x0102_0304),
        user(false, 0),
        supervisor(true, 0x0506),
        supervisor(false, 0),
        Call::Move { page: PAGE, new_page: NEW_PAGE },
        Call::Move { page: NEW_PAGE, new_page: PAGE },
        Call::Protect { page: PAGE, write: false },
        Call::Tag { name: NAME },
        Call::LoadAndMap { line: LINE },
        Call::Tag { name: NAME - 1 },
        Call::LoadAndMap { line: LINE - 1 },
        Call::Tag { name: NAME },
        Call::DropTag,
    ];
    let ends = [Call::Unmap { page: PAGE }, Call::Detach { process, slot: SLOT }, Call::FlushAll];
    let first = board.tag.0.then_some(Call::DropTag);
    // A list, one of its accesses refused.
    let absent = Call::UserAccess { process: process + 1, store: false, width: 1, address: 0, value: 0 };
    let items = [user(true, 7), absent, user(false, 0)].iter().filter_map(|call| Item::of(call, 1)).collect();
    let list = [Deed::Call(Call::Protect { page: PAGE, write: true }), Deed::List(List::of(items))];
    let looks = [Deed::Look { line: LINE }, Deed::LookNumber { line: LINE }, Deed::Audit];
    let calls = first.into_iter().chain(calls).map(Deed::Call);
    calls.chain(list).chain(looks).chain(ends.map(Deed::Call)).chain([Deed::Audit]).collect()
}

/// A board on which the deeds can be done. On the wild one a tag is pending, whatever its name. On neither is a name left over
/// where none is pending, which the safe route couldn't carry.
fn start(rng: &mut Rng, edition: Edition, shape: Shape, fresh: bool) -> Start {
    if fresh {
        let mut start = gen::fresh(rng, edition, shape);
        start.board.tag = NO_TAG;
        return start;
    }
    let (mut board, _) = gen::wild_board(rng, edition, shape);
    board.words.iter_mut().filter(|word| [PAGE, NEW_PAGE].contains(&(**word / 4))).for_each(|word| *word = 0);
    board.words[FRAME as usize] = 0;
    board.tag = (true, board.records[0]);
    Start { fresh: false, board, offsets: gen::offsets(rng) }
}

/// Gives how many boards were run.
pub fn edges(rng: &mut Rng, edition: Edition, plant: Option<Plant>, coverage: &mut Coverage) -> Result<usize, Failure> {
    let mut boards = 0;
    for (index, edge) in EDGES.iter().enumerate().filter(|(_, edge)| edge.is_of(edition)) {
        let lines = edge.lines.in_edition(edition);
        let shape = Shape { frames: FRAMES, uncached: 1, processes: edge.processes, lines };
        coverage.planned = Some(Planned::Edge(index));
        for (fresh, manner) in ways() {
            let mut start = start(rng, edition, shape, fresh);
            (edge.edit)(&mut start.board);
            let deeds = deeds(&start.board);
            stepped(start, deeds.len(), plant, coverage, |index, _| Step { deed: deeds[index].clone(), manner })?;
            boards += 1;
        }
    }
    coverage.planned = None;
    Ok(boards)
}
