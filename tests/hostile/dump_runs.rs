//! Runs in which boards are checked and repaired (CR 13): such as calls have made, by the library; damaged ones; and wild ones. From
//! boards that the checker accepts, as they are or repaired, calls go on beside the plain machine. Random runs, and planned ones
//! with every way of damage and with everything that may be lent, by every route.

use crate::coverage::{Coverage, Planned};
use crate::dump_gen::{self, asked, built_of, damage, Damage, Damaged, End, DAMAGES};
use crate::dump_sights::{can_be_wrong, Since, Sort};
use crate::dumps::Dump;
use crate::gen::{self, World};
use crate::guarded::FENCED_BEHIND;
use crate::limits::*;
use crate::list_runs::CAUSES;
use crate::pairs::{self, Failure};
use crate::plant::Plant;
use crate::rng::Rng;
use crate::routes::{Manner, Route, ROUTES};
use crate::stepped;
use crate::trace::{Deed, Start, Step};
use model::{dump, Board, Edition, Shape};

/// Of so many boards one has been made by calls of the library, and so many are wild.
const PARTS: u64 = 10;
const WILD: u64 = 3;

/// Calls go on from one board in so many, and a pair of runs is made from one in so many.
const BOARDS_PER_RUN: u64 = 5;
const BOARDS_PER_PAIR: u64 = 100;

/// Boards that are built until one can be damaged as is wanted.
const TRIES: usize = 400;

// ---------------------------------------------------------------------------------------------
// Random runs
// ---------------------------------------------------------------------------------------------

/// Runs so many boards, or until one fails.
pub fn search(rng: &mut Rng, boards: u64, plant: Option<Plant>, coverage: &mut Coverage) -> Result<(), Failure> {
    coverage.planned = Some(Planned::Dumps);
    for index in 0..boards {
        match index % PARTS {
            0 => called(rng, plant, coverage)?,
            1..=WILD => wild(rng, plant, coverage)?,
            _ => damaged(rng, plant, coverage)?,
        }
        if plant.is_none() && index % BOARDS_PER_PAIR == 0 {
            pair(rng, coverage, None)?;
        }
    }
    coverage.planned = None;
    Ok(())
}

/// A pair of runs (demand 3) from a board that the checker accepts, or that was damaged and repaired. Nothing is attached there.
pub fn pair(rng: &mut Rng, coverage: &mut Coverage, wrong: Option<pairs::Wrong>) -> Result<(), Failure> {
    let (frames, uncached, processes) = (2 + rng.below(4), rng.below(2), 2 + rng.below(2));
    let lines = 1 << rng.below(4);
    let (mut board, world) = built_of(rng, Shape { frames, uncached, processes, lines });
    board.slots.fill(0);
    if rng.flip() {
        let kinds = [Damage::Copied, Damage::LineTaken, Damage::Permission, Damage::Renamed, Damage::CacheByte];
        damage(rng, &mut board, &world, &kinds, End::Any);
    }
    let sound = dump::check(&board).is_ok();
    let since = if sound { Since::Accepted } else { Since::Repaired };
    let step = Step { deed: Deed::Dump(dump_gen::fitting(rng, &board, !sound)), manner: gen::manner(rng) };
    let start = Start { fresh: false, board, offsets: gen::offsets(rng) };
    let met = pairs::pair_from(rng, &start, world, &[step], coverage, wrong)?;
    coverage.dumps.runs[since as usize].add(met);
    Ok(())
}

/// A fresh board, calls of the library on it, and checks among them and behind them.
fn called(rng: &mut Rng, plant: Option<Plant>, coverage: &mut Coverage) -> Result<(), Failure> {
    let shape = dump_gen::shape(rng);
    let (start, world) = (gen::fresh(rng, Edition::Ones, shape), World::new(rng, Edition::Ones, &shape));
    let length = if shape.lines > 1024 { 8 } else { 10 + rng.below(60) as usize };
    coverage.dumps.begin(Sort::Reached, Vec::new(), false);
    stepped(start, length, plant, coverage, |index, board| {
        if index + 3 >= length || rng.below(12) == 0 {
            let repair = rng.flip();
            Step { deed: Deed::Dump(dump_gen::dump(rng, board, repair)), manner: gen::manner(rng) }
        } else {
            gen::step(rng, &world, board, index < 12)
        }
    })
}

fn wild(rng: &mut Rng, plant: Option<Plant>, coverage: &mut Coverage) -> Result<(), Failure> {
    let shape = dump_gen::shape(rng);
    let (mut board, world) = gen::wild_board(rng, Edition::Ones, shape);
    if rng.percent(15) {
        gen::spoil(rng, &mut board);
    }
    coverage.dumps.begin(Sort::Wild, Vec::new(), false);
    run(rng, board, &world, plant, coverage)
}

/// A sound board, damaged in no way, in one, or in several.
fn damaged(rng: &mut Rng, plant: Option<Plant>, coverage: &mut Coverage) -> Result<(), Failure> {
    let (mut board, world) = if rng.percent(75) { dump_gen::built(rng) } else { dump_gen::reached(rng) };
    let count = rng.pick(&[0, 1, 1, 2, 2, 3, 4]);
    let mut kinds: Vec<Damage> = (0..count).map(|_| rng.pick(DAMAGES).0).collect();
    kinds.sort_unstable_by_key(|kind| *kind as usize);
    let end = rng.pick(&[End::First, End::Any, End::Any, End::Last]);
    let Damaged { mut kinds, alone } = damage(rng, &mut board, &world, &kinds, end);
    kinds.dedup();
    coverage.dumps.begin(Sort::Damaged, kinds, alone);
    run(rng, board, &world, plant, coverage)
}

/// Checks and repairs, and then, from some boards, calls.
fn run(
    rng: &mut Rng,
    board: Board,
    world: &World,
    plant: Option<Plant>,
    coverage: &mut Coverage,
) -> Result<(), Failure> {
    let mut deeds: Vec<Dump> = [false, false, true].map(|repair| dump_gen::dump(rng, &board, repair)).into();
    deeds.extend([true, false].map(|repair| dump_gen::fitting(rng, &board, repair)));
    deeds.push(dump_gen::dump(rng, &board, true));
    let goes_on = rng.below(BOARDS_PER_RUN) == 0 && board.shape.lines <= 1024;
    let first = deeds.len();
    let length = if goes_on && is_mended(&board) { first + 12 + rng.below(30) as usize } else { first };
    let start = Start { fresh: false, board, offsets: gen::offsets(rng) };
    stepped(start, length, plant, coverage, |index, model| {
        let deed = match index {
            _ if index < first => Deed::Dump(deeds[index].clone()),
            _ if index == first || index + 1 == length || rng.below(40) == 0 => Deed::Audit,
            _ if rng.below(20) == 0 => {
                let repair = rng.flip();
                Deed::Dump(dump_gen::dump(rng, model, repair))
            }
            _ => return gen::step(rng, world, model, false),
        };
        Step { deed, manner: gen::manner(rng) }
    })
}

/// Whether the board is one that the checker accepts after a repair.
fn is_mended(board: &Board) -> bool {
    let mut board = board.clone();
    dump::repair(&mut board);
    dump::check(&board).is_ok()
}

// ---------------------------------------------------------------------------------------------
// Planned runs
// ---------------------------------------------------------------------------------------------

/// What stands in the scratch before.
const STAIN: u64 = 0xDEAD_BEEF_5EED_F00D;

/// Where F is above L, below it, and the same.
const SHAPES: [Shape; 3] = [
    Shape { frames: 6, uncached: 2, processes: 1, lines: 4 },
    Shape { frames: 4, uncached: 1, processes: 2, lines: 16 },
    Shape { frames: 8, uncached: 3, processes: 1, lines: 8 },
];

/// The most lines.
const MOST: Shape = Shape { frames: 8, uncached: 0, processes: 1, lines: LINES_MAX };

/// Gives how many boards were run. All buffers that are lent in every third of them end at a fence.
pub fn planned(rng: &mut Rng, plant: Option<Plant>, coverage: &mut Coverage) -> Result<u64, Failure> {
    let before = coverage.dumps.boards;
    coverage.planned = Some(Planned::Dumps);
    for (route, _) in ROUTES {
        for (index, &(kind, ..)) in DAMAGES.iter().enumerate() {
            for end in [End::First, End::Any, End::Last] {
                harmed(rng, &[kind], end, route, plant, coverage)?;
            }
            for &(other, ..) in &DAMAGES[index + 1..] {
                harmed(rng, &[kind, other], End::Any, route, plant, coverage)?;
            }
        }
        for kinds in SEVERAL {
            for _ in 0..SEVERAL_BOARDS {
                harmed(rng, kinds, End::Any, route, plant, coverage)?;
            }
        }
        for (_, spoil) in CAUSES.into_iter().filter(|(cause, _)| can_be_wrong(*cause)) {
            let (mut board, world) = built_of(rng, SHAPES[0]);
            spoil(&mut board);
            coverage.dumps.begin(Sort::Damaged, vec![Damage::Lengths], true);
            brought(rng, board, &world, Manner { route, yes: 1, null: false }, plant, coverage)?;
        }
        for (shape, null) in SHAPES.into_iter().flat_map(|shape| [(shape, false), (shape, true)]) {
            lent(rng, shape, Manner { route, yes: 1, null }, plant, coverage)?;
        }
    }
    most(rng, plant, coverage)?;
    coverage.planned = None;
    Ok(coverage.dumps.boards - before)
}

/// Each of these is tried so often.
const SEVERAL_BOARDS: usize = 40;

/// Copies of copies, pages in several frames, and lines that break different rules.
const SEVERAL: [&[Damage]; 7] = [
    &[Damage::Copied, Damage::Copied],
    &[Damage::LineTaken, Damage::LineTaken, Damage::Copied],
    &[Damage::LineTaken, Damage::LineTaken],
    &[Damage::LineTaken, Damage::LineTaken, Damage::Renamed, Damage::Permission],
    &[Damage::PageTwice, Damage::PageOtherBit, Damage::PageTwice, Damage::PageTwice],
    &[Damage::Permission, Damage::CacheByte, Damage::MemoryByte],
    &[Damage::Renamed, Damage::Permission, Damage::Cleaned, Damage::CacheByte],
];

/// A built board with these damages, all of which show; where there is one, alone.
fn harmed(
    rng: &mut Rng,
    kinds: &[Damage],
    end: End,
    route: Route,
    plant: Option<Plant>,
    coverage: &mut Coverage,
) -> Result<(), Failure> {
    for _ in 0..TRIES {
        let shape = few(rng);
        let (mut board, world) = built_of(rng, shape);
        let damaged = damage(rng, &mut board, &world, kinds, end);
        if damaged.kinds.len() == kinds.len() && (damaged.alone || kinds.len() > 1) {
            let Damaged { mut kinds, alone } = damaged;
            kinds.dedup();
            coverage.dumps.begin(Sort::Damaged, kinds, alone);
            return brought(rng, board, &world, Manner { route, yes: 1, null: false }, plant, coverage);
        }
    }
    panic!("no board was found that can be damaged so: {kinds:?}, {end:?}");
}

/// Shapes with a few places and frames.
fn few(rng: &mut Rng) -> Shape {
    let frames = 4 + rng.below(4);
    Shape { frames, uncached: 1 + rng.below(2), processes: 1, lines: rng.pick(&[2, 4, 8, 16]) }
}

/// A check, a repair, and both again; then, if the board is mended, some calls.
fn brought(
    rng: &mut Rng,
    board: Board,
    world: &World,
    manner: Manner,
    plant: Option<Plant>,
    coverage: &mut Coverage,
) -> Result<(), Failure> {
    let asked = asked(&board);
    let fenced = if rng.below(3) == 0 { FENCED_BEHIND } else { 0 };
    let lent = |repair| Dump { stain: STAIN, offsets: [fenced; 3], ..Dump::of(repair, asked) };
    let deeds = [false, true, false, true].map(|repair| Deed::Dump(lent(repair)));
    let on = if board.shape.lines <= 1024 && is_mended(&board) { CALLS_AFTER } else { 0 };
    let start = Start { fresh: false, board, offsets: [fenced; 6] };
    stepped(start, deeds.len() + on, plant, coverage, |index, model| {
        let deed = match index.checked_sub(deeds.len()) {
            None => deeds[index].clone(),
            Some(0) => Deed::Audit,
            Some(after) if after + 1 == on => Deed::Audit,
            Some(_) => Deed::Call(gen::call(rng, world, model, false)),
        };
        Step { deed, manner }
    })
}

/// Steps after it was mended.
const CALLS_AFTER: usize = 10;

/// Everything that may be lent too short or too long, one by one and together: for a sound board, for damaged ones, and for one
/// that calls have made.
fn lent(
    rng: &mut Rng,
    shape: Shape,
    manner: Manner,
    plant: Option<Plant>,
    coverage: &mut Coverage,
) -> Result<(), Failure> {
    let (frames, lines) = (shape.frames as usize, shape.lines as usize);
    let [keys, links, flags] = crate::dumps::needed(&shape);
    let mut lengths = vec![[keys, links, flags], [keys - 1, links - 1, flags], [0, 0, 0], [keys / 2, keys, flags + 1]];
    lengths.extend([keys + 1, 2 * keys, keys - 1, keys / 2, 0, frames, lines].map(|keys| [keys, links, flags]));
    lengths.extend([links + 1, links - 1, links / 2, 0, 2 * frames, 2 * lines].map(|links| [keys, links, flags]));
    lengths.extend([flags + 1, flags - 1, 0, 2 * flags + 1, frames].map(|flags| [keys, links, flags]));
    let own = [false, true].map(|repair| Dump { own: true, ..Dump::of(repair, [keys, links, flags]) });
    let lent = lengths.iter().flat_map(|&lengths| [false, true].map(|repair| Dump::of(repair, lengths)));
    let mut deeds: Vec<Dump> = lent.chain(own).map(|dump| Dump { stain: STAIN, ..dump }).collect();
    // A board stays damaged until a repair is lent what fits.
    deeds.sort_by_key(|dump| (!dump.misfits(&shape), dump.repair));
    for kinds in [&[][..], &[Damage::Permission], &[Damage::PageTwice], &[Damage::MemoryByte], &[Damage::Lengths]] {
        let (mut board, world) = built_of(rng, shape);
        let Damaged { kinds, alone } = damage(rng, &mut board, &world, kinds, End::Any);
        coverage.dumps.begin(Sort::Damaged, kinds, alone);
        let start = Start { fresh: false, board, offsets: gen::offsets(rng) };
        stepped(start, deeds.len(), plant, coverage, |index, _| Step {
            deed: Deed::Dump(deeds[index].clone()),
            manner,
        })?;
    }
    let (mut start, world) = (gen::fresh(rng, Edition::Ones, shape), World::new(rng, Edition::Ones, &shape));
    start.board.tag = model::NO_TAG;
    coverage.dumps.begin(Sort::Reached, Vec::new(), false);
    stepped(start, CALLS + deeds.len(), plant, coverage, |index, board| match index.checked_sub(CALLS) {
        Some(index) => Step { deed: Deed::Dump(deeds[index].clone()), manner },
        None => gen::step(rng, &world, board, index < 12),
    })
}

/// Calls before such checks.
const CALLS: usize = 40;

/// With the most lines: sound, and damaged at the last place.
fn most(rng: &mut Rng, plant: Option<Plant>, coverage: &mut Coverage) -> Result<(), Failure> {
    for (route, _) in ROUTES {
        let (board, world) = built_of(rng, MOST);
        for kinds in [&[][..], &[Damage::CacheByte]] {
            let mut board = board.clone();
            let Damaged { kinds, alone } = damage(rng, &mut board, &world, kinds, End::Last);
            coverage.dumps.begin(Sort::Damaged, kinds, alone);
            brought(rng, board, &world, Manner { route, yes: 1, null: false }, plant, coverage)?;
        }
    }
    Ok(())
}
