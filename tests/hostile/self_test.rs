//! Shows that the test can fail: each planted fault is found, shrinks to a short trace, and the trace, written and read back,
//! gives the same difference, and none without the fault. And each thing to be reached is missed if it is not reached.

use crate::apart::End;
use crate::coverage::Coverage;
use crate::guarded::Real;
use crate::limits::{set_lines, EDITIONS};
use crate::list_faults::FAULTS;
use crate::order::{self, Reordering};
use crate::pairs::{self, Failure};
use crate::places::{lines_of, Boards};
use crate::plant::{self, Plant, PLANTS};
use crate::rng::Rng;
use crate::routes::{Manner, Route};
use crate::run::{first_difference, quietly, Difference, Kind};
use crate::sets::{By, USES};
use crate::shrink::{self, Fails};
use crate::sights::{Size, SWEEPS};
use crate::trace::{self, Trace};
use crate::walks::{Walk, WRONGS};
use crate::{
    apart, dump_faults, dump_runs, edges, list_runs, log_faults, log_runs, moves, order_faults, order_runs, routes,
    search, set_faults, set_runs, values, Planned,
};
use model::{Board, Edition, Shape};
use std::collections::HashSet;

/// Calls within which a planted fault must be found.
const CALLS: u64 = 100_000;

/// Pairs of runs within which it must show that the premise on moves is not kept.
const PAIRS: usize = 1000;

/// Damaged logs within which a fault of logs must be found.
const LOGS: u64 = 5_000;

/// Boards within which a fault of checks and repairs must be found.
const DUMPS: u64 = 6_000;

/// Reorderings within which a fault of theirs must be found, and calls to which it must shrink in 01's edition.
const ORDERS: u64 = 1000;
const ORDER_CALLS: usize = 10;

/// Steps to which it must shrink; so many more in sets of four as it takes accesses more to fill one.
const STEPS: usize = 8;

fn steps(edition: Edition) -> usize {
    STEPS + set_lines(edition) as usize - 1
}

pub fn all() -> Result<(), String> {
    for (plant, name) in plant::searched().filter(|(plant, _)| *plant != Plant::Hang) {
        let (found, left) =
            quietly(|| planted(plant)).map_err(|problem| format!("planted fault '{name}': {problem}"))?;
        println!("planted fault {name:18} found at step {found:3} of its run, shrunk to {left} steps, replayed");
    }
    hang()?;
    println!("planted fault hang               ended by a signal");
    for (edition, _) in EDITIONS {
        planted_pair(edition)?;
        planted_in(edges::edges, edition, &[Plant::Slots, Plant::Unfit])?;
        let those = |is: fn(&Plant) -> bool| PLANTS.map(|(plant, _)| plant).into_iter().filter(is).collect::<Vec<_>>();
        planted_in(values::values, edition, &those(|plant| matches!(plant, Plant::Asks(_))))?;
        planted_in(moves::moves, edition, &those(|plant| matches!(plant, Plant::Moves(_))))?;
        let lists = FAULTS.into_iter().filter(|(_, _, kind)| *kind != Kind::Signal);
        planted_in(list_runs::lists, edition, &lists.map(|(wrong, ..)| Plant::List(wrong)).collect::<Vec<_>>())?;
    }
    println!("in each edition: planted fault in a pair of runs found");
    println!("pairs told apart without a premise on moves, and with one on the segments that are held at the move");
    println!("planted faults on a board at a limit and on one past it found");
    println!("planted faults in what is asked of values found beside the numbers");
    println!("planted faults in moves found in the planned ones");
    println!("planted faults in lists found in the planned ones");
    for (edition, _) in EDITIONS {
        planted_walks(edition)?;
    }
    planted_sets()?;
    planted_logs()?;
    planted_dumps()?;
    planted_orders()?;
    canaries()?;
    println!("each canary, changed, is named");
    let required = unreached()?;
    println!("each of {required} things to reach is missed if it is not reached");
    println!("hostile: self-test passed");
    Ok(())
}

/// Gives at which step the fault was found, and how many steps were left.
fn planted(plant: Plant) -> Result<(usize, usize), String> {
    let find = || match plant {
        Plant::Dump(_) => dump_runs::search(&mut Rng::new(7), DUMPS, Some(plant), &mut Coverage::new()),
        Plant::Log(_) => log_runs::search(&mut Rng::new(7), LOGS, Some(plant), &mut Coverage::new()).map(drop),
        _ => search(&mut Rng::new(7), CALLS, Some(plant), &mut Coverage::new()),
    };
    let (fails, (trace, difference)): (Fails, _) = if plant.found_as() == Kind::Signal {
        (apart::ended_by_signal, recorded(find)?)
    } else {
        match find() {
            Err(Failure::Run(trace, difference)) => (first_difference, (*trace, difference)),
            Err(Failure::Apart(_, text) | Failure::Reordered(_, text)) => {
                return Err(format!("found in a pair only: {text}"))
            }
            Ok(()) => return Err("not found".into()),
        }
    };
    let found = trace.steps.len();
    let left = shrunk(plant, fails, trace, difference)?;
    Ok((found, left))
}

/// Shrinks the trace that has found a fault, and replays it. Gives how many steps were left.
fn shrunk(plant: Plant, fails: Fails, trace: Trace, difference: Difference) -> Result<usize, String> {
    if !plant.is_found_as(difference.kind) {
        return Err(format!("found as another fault: {difference:?}"));
    }
    let (small, difference) = shrink::shrink(fails, trace, difference);
    let left = small.steps.len();
    if left > steps(small.start.board.edition) {
        return Err(format!("shrunk to {left} steps only"));
    }
    let text = trace::to_text(&small);
    let read = trace::from_text(&text).map_err(|problem| format!("its trace cannot be read: {problem}"))?;
    if trace::to_text(&read) != text {
        return Err("its trace changes when it is read and written".into());
    }
    match fails(&read) {
        Some((_, again)) if again == difference => {}
        other => return Err(format!("{difference:?} before, {other:?} when its trace is replayed")),
    }
    match fails(&Trace { plant: None, ..read }) {
        None => Ok(left),
        Some((_, other)) => Err(format!("its trace fails without the fault too: {}", other.text)),
    }
}

/// Faults of logs: each must be found in random runs, and in the planned ones; nothing where what stands in for the library has
/// no fault.
fn planted_logs() -> Result<(), String> {
    let right = Some(Plant::Log(None));
    let found = log_runs::planned(&mut Rng::new(7), right, &mut Coverage::new()).err();
    let found = found.or_else(|| log_runs::search(&mut Rng::new(7), LOGS, right, &mut Coverage::new()).err());
    if let Some(Failure::Run(_, difference)) = found {
        return Err(format!("logs: a fault is found where nothing is wrong: {difference:?}"));
    }
    let mut most = 0;
    for &(wrong, name, kind) in log_faults::FAULTS {
        let plant = Plant::Log(Some(wrong));
        let (_, left) = quietly(|| planted(plant)).map_err(|problem| format!("planted fault '{name}': {problem}"))?;
        most = most.max(left);
        if kind != Kind::Signal {
            let runs: Planned = |rng, _, plant, coverage| log_runs::planned(rng, plant, coverage);
            quietly(|| planted_in(runs, Edition::Ones, &[plant]))?;
        }
    }
    let faults = log_faults::FAULTS.len();
    println!(
        "planted faults in logs: {faults}, each found, shrunk to {most} steps at most, replayed; found in planned ones"
    );
    Ok(())
}

/// Faults of checks and repairs: each must be found in random runs, and in the planned ones; nothing where what stands in for the
/// library has no fault.
fn planted_dumps() -> Result<(), String> {
    let right = Some(Plant::Dump(None));
    let found = dump_runs::planned(&mut Rng::new(7), right, &mut Coverage::new()).err();
    let found = found.or_else(|| dump_runs::search(&mut Rng::new(7), DUMPS, right, &mut Coverage::new()).err());
    if let Some(Failure::Run(_, difference)) = found {
        return Err(format!("checks and repairs: a fault is found where nothing is wrong: {difference:?}"));
    }
    let value = Some(pairs::Wrong::Value);
    if !matches!(dump_runs::pair(&mut Rng::new(7), &mut Coverage::new(), value), Err(Failure::Apart(..))) {
        return Err("planted fault in a pair of runs from an accepted board: not found".into());
    }
    let mut most = 0;
    for &(wrong, name, kind) in dump_faults::FAULTS {
        let plant = Plant::Dump(Some(wrong));
        let (_, left) = quietly(|| planted(plant)).map_err(|problem| format!("planted fault '{name}': {problem}"))?;
        most = most.max(left);
        if kind != Kind::Signal {
            let runs: Planned =
                |rng, _, plant, coverage| dump_runs::planned(rng, plant, coverage).map(|boards| boards as usize);
            quietly(|| planted_in(runs, Edition::Ones, &[plant]))?;
        }
    }
    let faults = dump_faults::FAULTS.len();
    println!(
        "planted faults in checks and repairs: {faults}, each found, shrunk to {most} steps at most, replayed; found in planned \
         ones"
    );
    Ok(())
}

/// Faults of runs that are reordered: each must be found in the planned ones and in random ones, of each edition; those of the rule
/// with an order that the model doesn't allow. In 01's edition it is shrunk, and both traces are written, read and replayed.
fn planted_orders() -> Result<(), String> {
    let mut most = 0;
    for ((wrong, name), (edition, _)) in order_faults::FAULTS.iter().flat_map(|fault| EDITIONS.map(|of| (fault, of))) {
        if !wrong.is_of(edition) {
            continue;
        }
        let plant = Some(Plant::Reordered(*wrong));
        let missed = |what: &str| format!("planted fault '{name}' in reordered runs, {edition:?}: {what}");
        let told = |failure: Option<Failure>, runs: &str| match failure {
            Some(Failure::Reordered(whole, text)) if wrong.is_rule() == whole.allowed().is_err() => Ok((*whole, text)),
            Some(Failure::Reordered(..)) => {
                Err(missed("found, and the model allows what it should not, or not what it should"))
            }
            Some(Failure::Run(_, difference)) => Err(missed(&format!("found in one run alone: {}", difference.text))),
            _ => Err(missed(&format!("not found in {runs} ones"))),
        };
        told(order_runs::planned(&mut Rng::new(7), edition, plant, &mut Coverage::new()).err(), "planned")?;
        let found = order_runs::search(&mut Rng::new(7), edition, ORDERS, plant, &mut Coverage::new()).err();
        let (whole, text) = told(found, "random")?;
        if edition == Edition::Ones {
            most = most.max(shrunk_order(whole, text).map_err(|problem| missed(&problem))?);
        }
    }
    let faults = order_faults::FAULTS.len();
    println!(
        "planted faults in reordered runs: {faults}, each found, shrunk to {most} calls at most; found in planned ones"
    );
    Ok(())
}

/// Gives how many calls were left.
fn shrunk_order(whole: Reordering, text: String) -> Result<usize, String> {
    let (small, text) = order::shrink(whole, text);
    if small.calls.len() > ORDER_CALLS {
        return Err(format!("shrunk to {} calls only: {text}", small.calls.len()));
    }
    for trace in small.traces().ok_or("its runs fail by themselves")? {
        let text = trace::to_text(&trace);
        let read = trace::from_text(&text).map_err(|problem| format!("its trace cannot be read: {problem}"))?;
        if trace::to_text(&read) != text || first_difference(&read).is_some() {
            return Err("its trace changes when it is read and written, or fails alone".into());
        }
    }
    Ok(small.calls.len())
}

/// Faults in sets of four: each must be found by whatever uses lines it shows with, on wild boards and on fresh ones; those of
/// number 1 on boards that have them; nothing where nothing is wrong.
fn planted_sets() -> Result<(), String> {
    let raw = Manner { route: Route::Raw, yes: 1, null: false };
    let find = |plant: Plant, by: By, fresh: bool| {
        set_runs::runs(&mut Rng::new(7), by, (fresh, raw), Some(plant), &mut Coverage::new()).err()
    };
    let each = || USES.iter().flat_map(|&by| [(by, true), (by, false)]);
    if let Some((by, _)) = each().find(|&(by, fresh)| find(Plant::Sets(None), by, fresh).is_some()) {
        return Err(format!("sets of four, {by:?}: a fault is found where nothing is wrong"));
    }
    for &(wrong, name, ..) in set_faults::FAULTS {
        let plant = Plant::Sets(Some(wrong));
        if plant.found_as() == Kind::Number {
            planted_in(edges::edges, Edition::Fours, &[plant])?;
            planted_in(list_runs::lists, Edition::Fours, &[plant])?;
        }
        for (by, fresh) in each().filter(|&(by, fresh)| wrong.shows_by(fresh).contains(&by)) {
            match find(plant, by, fresh) {
                Some(Failure::Run(_, difference)) if plant.is_found_as(difference.kind) => {}
                _ => return Err(format!("planted fault '{name}' by {by:?}, on a fresh board: {fresh}: not found")),
            }
        }
    }
    println!("planted faults in sets of four: {}, each found by whatever uses lines", set_faults::FAULTS.len());
    Ok(())
}

/// Faults in which records a call visits: each must be found wherever it shows, and nothing where nothing is wrong.
fn planted_walks(edition: Edition) -> Result<(), String> {
    let mut rng = Rng::new(7);
    let boards: Vec<Boards> = lines_of(edition).map(|lines| Boards::of(&mut rng, edition, lines)).collect();
    let size = |boards: &Boards| Size::of(edition, boards.lines);
    // With the most lines runs take long: only what is wrong is tried there, on wild boards.
    let quick = || boards.iter().filter(|boards| size(boards) != Size::Most);
    for (sweep, call) in SWEEPS {
        let right = Walk { sweep, wrong: None };
        if quick().any(|boards| walked(&mut rng, boards, false, right).is_some()) {
            return Err(format!("{call}: a fault is found where nothing is wrong"));
        }
    }
    for (wrong, name, at) in WRONGS.into_iter().filter(|(wrong, ..)| wrong.is_of(edition)) {
        for &sweep in at.wild {
            let all = boards.iter().map(|boards| (false, boards)).chain(quick().map(|boards| (true, boards)));
            let shows = |(fresh, boards): &(bool, &Boards)| at.has(sweep, size(boards), *fresh);
            planted_walk(&mut rng, Walk { sweep, wrong: Some(wrong) }, all.filter(shows))
                .map_err(|problem| format!("planted fault '{name}' in {sweep:?}: {problem}"))?;
        }
        let calls: Vec<&str> = at.wild.iter().map(|&sweep| trace::name_of(&SWEEPS, sweep)).collect();
        let sets = set_lines(edition);
        println!("planted fault {name:18} found in {}, in sets of {sets}; shrunk, replayed", calls.join(", "));
    }
    Ok(())
}

/// A fault must be found on each of these boards, fresh or wild; the first trace is shrunk.
fn planted_walk<'a>(rng: &mut Rng, walk: Walk, all: impl Iterator<Item = (bool, &'a Boards)>) -> Result<usize, String> {
    let mut first = None;
    for (fresh, boards) in all {
        let found = walked(rng, boards, fresh, walk);
        let lines = boards.lines;
        first.get_or_insert(found.ok_or(format!("not found with {lines} lines, on a fresh board: {fresh}"))?);
    }
    let (trace, difference) = first.ok_or("tried nowhere")?;
    shrunk(Plant::Walk(walk), first_difference, trace, difference)
}

fn walked(rng: &mut Rng, boards: &Boards, fresh: bool, walk: Walk) -> Option<(Trace, Difference)> {
    let raw = Manner { route: Route::Raw, yes: 1, null: false };
    match boards.runs(rng, (fresh, raw), Some(Plant::Walk(walk)), &mut Coverage::new()) {
        Err(Failure::Run(trace, difference)) => Some((*trace, difference)),
        _ => None,
    }
}

/// The trace of a run that a signal ends.
fn recorded(find: impl FnOnce() -> Result<(), Failure>) -> Result<(Trace, Difference), String> {
    let file = std::env::temp_dir().join(format!("hostile-{}.txt", std::process::id()));
    let file = file.to_str().ok_or("the folder for temporary files has no name in plain text")?;
    let found = apart::recorded(file, || i32::from(find().is_err()));
    std::fs::remove_file(file).map_err(|error| format!("cannot remove {file}: {error}"))?;
    found
}

/// A call that never returns must be ended.
fn hang() -> Result<(), String> {
    let end = apart::child(|| {
        apart::limit_runs(1);
        i32::from(search(&mut Rng::new(7), CALLS, Some(Plant::Hang), &mut Coverage::new()).is_err())
    });
    match end? {
        End::Signal(apart::ALARM) => Ok(()),
        _ => Err("planted fault 'hang': not ended by the alarm".into()),
    }
}

/// What is wrong in pairs must be found in one of so many: where values are altered, in the first.
fn planted_pair(edition: Edition) -> Result<(), String> {
    let faults = [(pairs::Wrong::Value, 1), (pairs::Wrong::AnyBytes, PAIRS), (pairs::Wrong::HeldOnly, PAIRS)];
    for (wrong, tries) in faults {
        let (mut rng, mut coverage) = (Rng::new(7), Coverage::new());
        let mut pair =
            |_| matches!(pairs::pair(&mut rng, edition, &mut coverage, Some(wrong)), Err(Failure::Apart(..)));
        if !(0..tries).any(&mut pair) {
            return Err(format!("planted fault {wrong:?} in pairs of runs: not found"));
        }
    }
    Ok(())
}

/// Each of these faults must be found in planned runs.
fn planted_in(runs: Planned, edition: Edition, plants: &[Plant]) -> Result<(), String> {
    for &plant in plants {
        match runs(&mut Rng::new(7), edition, Some(plant), &mut Coverage::new()) {
            Err(Failure::Run(_, difference)) if plant.is_found_as(difference.kind) => {}
            _ => return Err(format!("planted fault {plant:?} in planned runs, {edition:?}: not found")),
        }
    }
    Ok(())
}

/// Each canary that is changed must be named alone: those of the buffers, those of the tag, the C board's.
fn canaries() -> Result<(), String> {
    let board = Board::fresh_of(Edition::Fours, Shape { frames: 1, uncached: 0, processes: 1, lines: 4 });
    type Change = fn(&mut Real, bool);
    let breaks: [(&str, Change); 8] = [
        ("slots", |real, before| real.slots.break_canary(before)),
        ("words", |real, before| real.words.break_canary(before)),
        ("records", |real, before| real.records.break_canary(before)),
        ("cache", |real, before| real.cache.break_canary(before)),
        ("memory", |real, before| real.memory.break_canary(before)),
        ("uses", |real, before| real.uses.break_canary(before)),
        ("the tag's set", |real, before| real.set.break_canary(before)),
        ("the tag's name", |real, before| real.name.break_canary(before)),
    ];
    for ((name, change), before) in breaks.iter().flat_map(|entry| [(entry, false), (entry, true)]) {
        let mut real = Real::of(&board, &[0, 1, 2, 3, 15, 7]);
        change(&mut real, before);
        if real.broken() != [*name] {
            return Err(format!("a changed canary of {name} is not named alone"));
        }
    }
    let mut real = Real::of(&board, &[0; 6]);
    if !real.broken().is_empty() || !routes::cage_shows(&mut real) {
        return Err("canaries show what is not, or the C board's don't show what is".into());
    }
    Ok(())
}

/// Things to be reached that are left out must be named, and no others: those whose number has this bit, and those whose hasn't,
/// for each bit. So of any two each is left out without the other.
fn unreached() -> Result<usize, String> {
    let (mut coverage, mut names) = (Coverage::new(), Vec::new());
    coverage.each_required(|name, _| names.push(format!("not reached: {name}")));
    if names.iter().collect::<HashSet<_>>().len() != names.len() {
        return Err("two things to reach have one name".into());
    }
    for bit in 0..=names.len().ilog2() {
        for is in [0, 1] {
            let left_out = |index: usize| index >> bit & 1 == is;
            let mut index = 0;
            coverage.each_required(|_, count| {
                *count = u64::from(!left_out(index));
                index += 1;
            });
            let (problems, mut left) = (coverage.problems(), names.iter().enumerate());
            if let Some(problem) = problems
                .iter()
                .find(|problem| left.find(|(index, _)| left_out(*index)).map(|(_, name)| name) != Some(problem))
            {
                return Err(format!(
                    "named though it is reached, or after one that is not and is not named: {problem}"
                ));
            }
            if let Some((_, name)) = left.find(|(index, _)| left_out(*index)) {
                return Err(format!("not missed when it is not reached: {name}"));
            }
        }
    }
    coverage.each_required(|_, count| *count = 1);
    if !coverage.problems().is_empty() {
        return Err("a full coverage has problems".into());
    }
    Ok(names.len())
}
