//! The hostile test: the library against the model, by random calls on fresh and wild boards. tests/README.md says what it
//! compares and how to run it.

mod apart;
mod cases;
mod coverage;
mod dump_faults;
mod dump_gen;
mod dump_routes;
mod dump_runs;
mod dump_sights;
mod dumps;
mod edges;
mod fence;
mod gen;
mod guarded;
mod largest;
mod limits;
mod list_faults;
mod list_runs;
mod lists;
mod log_faults;
mod log_gen;
mod log_routes;
mod log_runs;
mod log_sights;
mod logs;
mod marks;
mod moves;
mod order;
mod order_faults;
mod order_runs;
mod order_sights;
mod pairs;
mod places;
mod plant;
mod rng;
mod routes;
mod run;
mod self_test;
mod set_faults;
mod set_runs;
mod sets;
mod shrink;
mod sights;
mod trace;
mod values;
mod walks;

use apart::End;
use coverage::Coverage;
use dumps::Report;
use gen::World;
use limits::EDITIONS;
use model::{Answer, Board, Edition};
use order::Reordering;
use pairs::Failure;
use plant::Plant;
use rng::Rng;
use routes::{Manner, ROUTES};
use run::{Difference, Given, Run};
use shrink::Fails;
use std::process::ExitCode;
use trace::{Deed, Start, Step, Trace};

const USAGE: &str = "usage: hostile [--calls N] [--logs N] [--boards N] [--orders N] [--seed S] [--plant FAULT]
       hostile --replay FILE
       hostile --self-test
       hostile --largest";
const DEFAULT_CALLS: u64 = 500_000;
const DEFAULT_SEED: u64 = 1;
const TRACE_FILE: &str = "hostile-trace.txt";

/// A damaged log is read for so many calls, but at least so many are.
const CALLS_PER_LOG: u64 = 10;
const LEAST_LOGS: u64 = 400_000;

/// A board is checked and repaired for so many calls, but at least so many are.
const CALLS_PER_DUMP: u64 = 10;
const LEAST_DUMPS: u64 = 60_000;

/// A run is reordered in each edition for so many calls, but at least so many are.
const CALLS_PER_ORDER: u64 = 10_000;
const LEAST_ORDERS: u64 = 300;

/// A pair of runs in each edition is tried for so many boards.
const BOARDS_PER_PAIR: u64 = 80;

struct Options {
    calls: u64,
    logs: Option<u64>,
    boards: Option<u64>,
    orders: Option<u64>,
    seed: u64,
    plant: Option<Plant>,
    replay: Option<String>,
    self_test: bool,
    largest: bool,
}

fn options() -> Result<Options, String> {
    let mut options = Options {
        calls: DEFAULT_CALLS,
        logs: None,
        boards: None,
        orders: None,
        seed: DEFAULT_SEED,
        plant: None,
        replay: None,
        self_test: false,
        largest: false,
    };
    let mut arguments = std::env::args().skip(1);
    while let Some(option) = arguments.next() {
        let mut value = || arguments.next().ok_or(format!("{option} needs a value"));
        match option.as_str() {
            "--calls" => options.calls = trace::number(&value()?)?,
            "--logs" => options.logs = Some(trace::number(&value()?)?),
            "--boards" => options.boards = Some(trace::number(&value()?)?),
            "--orders" => options.orders = Some(trace::number(&value()?)?),
            "--seed" => options.seed = trace::number(&value()?)?,
            "--plant" => options.plant = Some(trace::value_of(&plant::all(), &value()?)?),
            "--replay" => options.replay = Some(value()?),
            "--self-test" => options.self_test = true,
            "--largest" => options.largest = true,
            _ => return Err(format!("unknown option '{option}'")),
        }
    }
    Ok(options)
}

fn main() -> ExitCode {
    let outcome = match options() {
        Err(problem) => {
            eprintln!("hostile: {problem}\n{USAGE}");
            return ExitCode::from(2);
        }
        Ok(Options { self_test: true, .. }) => self_test::all(),
        Ok(Options { largest: true, .. }) => largest::largest(),
        Ok(Options { replay: Some(file), .. }) => replay(&file),
        Ok(options) => in_a_child(&options),
    };
    ExitCode::from(told(outcome))
}

/// Says what is wrong, if anything is, and gives the program's status.
fn told(outcome: Result<(), String>) -> u8 {
    match outcome {
        Ok(()) => 0,
        Err(problem) => {
            eprintln!("hostile: {problem}");
            1
        }
    }
}

/// The search in a child. Where a signal ends it, it runs again with a record, and that is shrunk.
fn in_a_child(options: &Options) -> Result<(), String> {
    let work = || i32::from(told(search_and_report(options)));
    match apart::child(work)? {
        End::Code(0) => Ok(()),
        End::Code(code) => std::process::exit(code),
        End::Signal(_) => {
            let (trace, difference) = apart::recorded(TRACE_FILE, work)?;
            Err(report(apart::ended_by_signal, trace, difference)?)
        }
    }
}

// ----- the search -----

/// Runs boards until so many calls were made, or one run fails: boards of one edition and of the other by turns.
pub fn search(rng: &mut Rng, calls: u64, plant: Option<Plant>, coverage: &mut Coverage) -> Result<(), Failure> {
    for (edition, _) in EDITIONS.into_iter().cycle() {
        if coverage.calls() >= calls {
            break;
        }
        let (start, world) = if rng.percent(25) {
            let shape = gen::shape(rng, edition);
            (gen::fresh(rng, edition, shape), World::new(rng, edition, &shape))
        } else {
            gen::wild(rng, edition)
        };
        board(rng, start, &world, plant, coverage)?;
        coverage.boards += 1;
        if coverage.boards % BOARDS_PER_PAIR < EDITIONS.len() as u64 {
            pairs::pair(rng, edition, coverage, None)?;
        }
    }
    Ok(())
}

/// Planned runs in an edition: each gives how many boards there were.
pub type Planned = fn(&mut Rng, Edition, Option<Plant>, &mut Coverage) -> Result<usize, Failure>;

const PLANNED: [(Planned, &str); 6] = [
    (edges::edges, "at the limits of P and L and past them, every call on each"),
    (values::values, "with values at the ends of the widths, beside each number that an access gives"),
    (places::places, "with lines at the ends of a page's places, beside them and among them"),
    (moves::moves, "with pages moved, and accesses by both names"),
    (list_runs::lists, "with lists of user accesses"),
    (set_runs::sets, "with lines of a set found, filled and pushed out in every order"),
];

/// One run. From a fresh board it is long; on a large board every comparison costs, so it is short.
fn board(
    rng: &mut Rng,
    start: Start,
    world: &World,
    plant: Option<Plant>,
    coverage: &mut Coverage,
) -> Result<(), Failure> {
    let large = start.board.cache.len() > 100_000;
    let length = match (start.fresh, large) {
        (true, false) => 250,
        (true, true) => 60,
        (false, _) if !start.board.fits() => 14,
        (false, _) => 40,
    };
    let fresh = start.fresh;
    stepped(start, length, plant, coverage, |index, model| {
        if fresh && (index + 1 == length || rng.below(200) == 0) {
            Step { deed: Deed::Audit, manner: gen::manner(rng) }
        } else {
            gen::step(rng, world, model, fresh && index < 12)
        }
    })
}

/// Every route, on fresh boards and on wild ones: whether it is a fresh one, and how calls are brought.
pub fn ways() -> impl Iterator<Item = (bool, Manner)> {
    let manners = ROUTES.map(|(route, _)| Manner { route, yes: 1, null: false });
    [true, false].into_iter().flat_map(move |fresh| manners.map(|manner| (fresh, manner)))
}

/// A run of so many steps, each made with an eye on the board as it stands.
pub fn stepped(
    start: Start,
    length: usize,
    plant: Option<Plant>,
    coverage: &mut Coverage,
    mut next: impl FnMut(usize, &Board) -> Step,
) -> Result<(), Failure> {
    let mut run = Run::new(&start, plant);
    let mut trace = Trace { start, steps: Vec::with_capacity(length), plant };
    for index in 0..length {
        let step = next(index, &run.model);
        let given = run.step(&step, coverage);
        trace.steps.push(step);
        if let Err(difference) = given {
            return Err(Failure::Run(Box::new(trace), difference));
        }
    }
    Ok(())
}

fn search_and_report(options: &Options) -> Result<(), String> {
    if let Some(problem) = routes::header_disagrees() {
        return Err(problem);
    }
    let mut coverage = Coverage::new();
    let mut rng = Rng::new(options.seed);
    let mut runs = || {
        search(&mut rng, options.calls, options.plant, &mut coverage)?;
        let mut boards = Vec::new();
        for (runs, words) in PLANNED {
            let mut of = |edition| runs(&mut rng, edition, options.plant, &mut coverage);
            boards.push((of(Edition::Ones)?, of(Edition::Fours)?, words));
        }
        let planned = log_runs::planned(&mut rng, options.plant, &mut coverage)?;
        let logs = options.logs.unwrap_or(LEAST_LOGS.max(options.calls / CALLS_PER_LOG));
        let trips = log_runs::search(&mut rng, logs, options.plant, &mut coverage)?;
        let dumps = dump_runs::planned(&mut rng, options.plant, &mut coverage)?;
        let random = options.boards.unwrap_or(LEAST_DUMPS.max(options.calls / CALLS_PER_DUMP));
        dump_runs::search(&mut rng, random, options.plant, &mut coverage)?;
        let mut orders = 0;
        for (edition, _) in EDITIONS {
            orders += order_runs::planned(&mut rng, edition, options.plant, &mut coverage)?;
            let random = options.orders.unwrap_or(LEAST_ORDERS.max(options.calls / CALLS_PER_ORDER));
            order_runs::search(&mut rng, edition, random, options.plant, &mut coverage)?;
        }
        Ok((boards, (planned, logs, trips), dumps, orders))
    };
    let (planned_boards, (planned, logs, trips), dumps, orders) = match runs() {
        Ok(boards) => boards,
        Err(Failure::Run(trace, difference)) => return Err(report(run::first_difference, *trace, difference)?),
        Err(Failure::Apart(traces, text)) => {
            return Err(report_pair(&traces, "process 0 can tell two runs apart", &text)?)
        }
        Err(Failure::Reordered(whole, text)) => return Err(report_reordered(*whole, text)?),
    };
    println!("{}\n{}\n\n{}\n", coverage.table(), coverage.logs.table(), coverage.dumps.table());
    let (audits, audit_looks) = coverage.audits();
    println!("{} entries of pages", coverage.entries());
    println!("{} looks by themselves; {audits} audits of a fresh board with {audit_looks} looks", coverage.looks());
    for (ones, fours, words) in planned_boards {
        println!("{ones} boards, and {fours} with sets of four, {words}");
    }
    println!("{}", coverage.logs.told(planned, logs, trips));
    println!("{}", coverage.dumps.told(dumps));
    println!(
        "{} runs reordered, {orders} of them planned, all equal but for marks and the cache",
        coverage.reordered()
    );
    for (edition, _) in EDITIONS {
        let (counts, sets) = (coverage.pairs(edition), limits::set_lines(edition));
        println!("{} pairs of runs in sets of {sets}, equal for process 0 but for marks:", counts.pairs);
        for (words, count) in counts.each() {
            println!("{count:>7}  {words}");
        }
    }
    let problems = coverage.problems();
    if !problems.is_empty() {
        return Err(problems.join("\nhostile: "));
    }
    let (calls, boards) = (coverage.calls(), coverage.boards);
    println!("hostile: {calls} calls on {boards} boards, all equal; every number, mark and event reached");
    Ok(())
}

// ----- failures -----

fn write_trace(file: &str, words: &str, trace: &Trace) -> Result<String, String> {
    let text = format!("# {words}\n# Run it again: hostile --replay {file}\n{}", trace::to_text(trace));
    std::fs::write(file, &text).map_err(|error| format!("cannot write {file}: {error}"))?;
    Ok(text)
}

/// Shrinks a failing run, prints it and writes it to the trace file.
fn report(fails: Fails, trace: Trace, difference: Difference) -> Result<String, String> {
    let found = trace.steps.len();
    eprintln!("hostile: difference at step {found} of a run: {}", difference.text);
    if run::quietly(|| fails(&trace)).is_none() {
        write_trace(TRACE_FILE, &difference.text, &trace)?;
        let text = difference.text;
        return Ok(format!("{text}; but its run alone, in {TRACE_FILE}, does not fail: the same seed and calls do"));
    }
    let (trace, difference) = shrink::shrink(fails, trace, difference);
    let text = write_trace(TRACE_FILE, &difference.text, &trace)?;
    let left = trace.steps.len();
    eprint!("hostile: shrunk to {left} steps:\n{text}");
    Ok(format!("{}; the trace is in {TRACE_FILE}, run it again with: hostile --replay {TRACE_FILE}", difference.text))
}

/// A pair has no difference of its own in either run, so it is not shrunk: both are written as they are.
fn report_pair(traces: &[Trace; 2], what: &str, text: &str) -> Result<String, String> {
    for (file, trace) in [TRACE_FILE, "hostile-trace-2.txt"].iter().zip(traces) {
        eprint!("{}", write_trace(file, text, trace)?);
    }
    Ok(format!("{what}: {text}; they are in {TRACE_FILE} and hostile-trace-2.txt"))
}

/// Neither has a run and its reordering; but it is known what may be left out of both.
fn report_reordered(whole: Reordering, text: String) -> Result<String, String> {
    eprintln!("hostile: difference in a run of {} calls, reordered: {text}", whole.calls.len());
    let (whole, text) = order::shrink(whole, text);
    let traces = whole.traces().ok_or("a run that is reordered fails by itself")?;
    let places: Vec<usize> = whole.order.iter().map(|position| position + 1).collect();
    eprintln!("hostile: shrunk to {} calls, in the second run in the order {places:?}", whole.calls.len());
    report_pair(&traces, "a run can be told from its reordering", &text)
}

fn given_text(given: &Given) -> String {
    match given {
        Given::Call(Answer { number, value, mark }, event) => {
            format!("number {number}, value {value:#x}, mark {mark}: {event:?}")
        }
        Given::List(own, answers) => {
            let mut text = format!("number {}, value {:#x}, mark {}", own.number, own.value, own.mark);
            for (index, (Answer { number, value, mark }, event)) in answers.iter().enumerate() {
                text += &format!("\n    {index}: number {number}, value {value:#x}, mark {mark}: {event:?}");
            }
            text
        }
        Given::Look(number) => format!("number {number}"),
        Given::Entry(number, value) => format!("number {number}, value {value:#x}"),
        Given::Log(text) => text.clone(),
        Given::Dump(Report { number, rule, place, dropped }) => {
            format!("number {number}, rule {rule}, place {place}, {dropped} lines dropped")
        }
        Given::Audit => "as the plain machine's memory".into(),
    }
}

/// Runs a trace again and tells each step.
fn replay(file: &str) -> Result<(), String> {
    let text = std::fs::read_to_string(file).map_err(|error| format!("cannot read {file}: {error}"))?;
    let trace = trace::from_text(&text).map_err(|problem| format!("{file}, {problem}"))?;
    let mut run = Run::new(&trace.start, trace.plant);
    println!("{:?}, {}", trace.start.board.shape, trace.start.sort());
    for (index, step) in trace.steps.iter().enumerate() {
        println!("{}: {}", index + 1, trace::step_text(step));
        match run.step(step, &mut Coverage::new()) {
            Ok(given) => println!("    {}", given_text(&given)),
            Err(difference) => return Err(format!("step {}: {}", index + 1, difference.text)),
        }
    }
    println!("hostile: {} steps, no difference", trace.steps.len());
    Ok(())
}
