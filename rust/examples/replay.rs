// Replays a log of calls on a fresh board, as large as the log's header says, and tells what came of it: `replay --help`.
use oaledva::log::{Call, Calls, Kind, NoMemory, ReadError};
use oaledva::{Board, Edition, Mark, Refusal, Shape};
use std::ffi::{OsStr, OsString};
use std::fs::File;
use std::io::{self, BufWriter, IsTerminal, Read, Write};
use std::os::fd::AsFd;
use std::process::ExitCode;
use std::time::{Duration, Instant};

const USAGE: &str = "\
usage: replay [--rows] [--sets] [LOG]
Makes the calls of a log again, on a fresh board whose memory is zeros, and tells the
calls by kind, the answers by number, and the marks.
  LOG      the log's file; standard input where it is - or missing
  --rows   before that, a row for each call: its number in the log, answer, value, mark
  --sets   on a board with sets of four, and not with one place for each line; a log
           doesn't say which, and only the marks depend on it";

fn main() -> ExitCode {
    let (rows, edition, log) = match options(std::env::args_os().skip(1)) {
        Ok(Options { help: true, .. }) => {
            println!("{USAGE}");
            return ExitCode::SUCCESS;
        }
        Ok(Options { rows, edition, log, .. }) => (rows, edition, log),
        Err(problem) => {
            eprintln!("replay: {problem}\n{USAGE}");
            return ExitCode::from(2);
        }
    };
    if log.is_none() && io::stdin().is_terminal() {
        eprintln!("replay: no log, and nothing on standard input\n{USAGE}");
        return ExitCode::from(2);
    }
    let (stdout, mut stderr) = (io::stdout(), io::stderr());
    // Rows on the same terminal would run into the line of progress.
    let told = stderr.is_terminal() && !(rows && stdout.is_terminal());
    let replayed = open(log.as_deref()).map_err(Problem::from).and_then(|file| {
        let length = file.metadata().ok().filter(|about| about.is_file()).map(|about| about.len());
        let progress = told.then(|| Progress::new(&mut stderr, length));
        replay(file, edition, rows, &mut BufWriter::new(stdout.lock()), progress)
    });
    match replayed {
        Ok(()) => ExitCode::SUCCESS,
        // Whoever reads the rows has enough of them.
        Err(Problem::Output(error)) if error.kind() == io::ErrorKind::BrokenPipe => ExitCode::SUCCESS,
        Err(problem) => {
            eprintln!("replay: {}", problem.words(log.as_deref()));
            ExitCode::FAILURE
        }
    }
}

#[derive(Debug, Default, PartialEq, Eq)]
pub struct Options {
    pub help: bool,
    pub rows: bool,
    pub edition: Edition,
    pub log: Option<OsString>,
}

pub fn options(arguments: impl Iterator<Item = OsString>) -> Result<Options, String> {
    let (mut options, mut logs) = (Options::default(), Vec::new());
    for argument in arguments {
        match argument.to_str() {
            Some("--rows") => options.rows = true,
            Some("--sets") => options.edition = Edition::SetsOfFour,
            Some("--help" | "-h") => options.help = true,
            Some(option) if option.len() > 1 && option.starts_with('-') => {
                return Err(format!("unknown option '{option}'"));
            }
            _ => logs.push(argument),
        }
    }
    if logs.len() > 1 {
        return Err("one log at a time".into());
    }
    options.log = logs.pop();
    Ok(options)
}

/// The log's name, where it is not standard input.
fn name(log: Option<&OsStr>) -> Option<&OsStr> {
    log.filter(|&name| name != "-")
}

fn open(log: Option<&OsStr>) -> io::Result<File> {
    match name(log) {
        Some(name) => File::open(name),
        None => Ok(io::stdin().as_fd().try_clone_to_owned()?.into()),
    }
}

/// Why a log was not replayed to its end.
#[derive(Debug)]
pub enum Problem {
    Log(ReadError),
    Memory(NoMemory),
    Output(io::Error),
}

impl Problem {
    pub fn words(&self, log: Option<&OsStr>) -> String {
        match self {
            Problem::Log(ReadError::Io(error)) => {
                let name = name(log).map_or("standard input".into(), OsStr::to_string_lossy);
                format!("cannot read {name}: {error}")
            }
            Problem::Log(ReadError::Refused(refused)) => refused.to_string(),
            Problem::Memory(none) => none.to_string(),
            Problem::Output(error) => format!("cannot write: {error}"),
        }
    }
}

impl From<io::Error> for Problem {
    fn from(error: io::Error) -> Problem {
        Problem::Log(error.into())
    }
}

/// The rows of all calls, if they are asked for, and the summary. Where the log is refused, those of the calls before.
pub fn replay(
    source: impl Read,
    edition: Edition,
    rows: bool,
    out: &mut impl Write,
    progress: Option<Progress>,
) -> Result<(), Problem> {
    if rows {
        writeln!(out, "call answer value mark").map_err(Problem::Output)?;
    }
    let outcome = replay_calls(source, edition, rows, out, progress);
    out.flush().map_err(Problem::Output)?;
    outcome
}

fn replay_calls(
    source: impl Read,
    edition: Edition,
    rows: bool,
    out: &mut impl Write,
    mut progress: Option<Progress>,
) -> Result<(), Problem> {
    let mut calls = Calls::of(source).map_err(Problem::Log)?;
    let mut board = Board::for_replay_in(edition, calls.shape()).map_err(Problem::Memory)?;
    let mut summary = Summary::default();
    let refused = loop {
        match calls.next() {
            Some(Ok(call)) => {
                let answer = board.perform(&call);
                summary.add(&call, answer, board.mark());
                if rows {
                    row(out, summary.calls(), answer, board.mark()).map_err(Problem::Output)?;
                }
                if let Some(progress) = &mut progress {
                    progress.tell(calls.taken(), summary.calls());
                }
            }
            Some(Err(error)) => break Err(Problem::Log(error)),
            None => break Ok(()),
        }
    };
    if let Some(progress) = progress {
        progress.clear();
    }
    let after = if rows { "\n" } else { "" };
    write!(out, "{after}{}", summary.words(edition, board.shape())).map_err(Problem::Output)?;
    refused
}

fn row(out: &mut impl Write, call: u64, answer: Result<u32, Refusal>, mark: Mark) -> io::Result<()> {
    let (number, value) = (answer.err().map_or(0, Refusal::number), answer.unwrap_or(0));
    writeln!(out, "{call} {number} {value} {}", mark.number())
}

/// How many calls there were of each kind, with each answer and with each mark, by number.
#[derive(Default)]
struct Summary {
    kinds: [u64; 1 + Kind::ALL.len()],
    answers: [u64; 14],
    marks: [u64; 5],
}

impl Summary {
    fn add(&mut self, call: &Call, answer: Result<u32, Refusal>, mark: Mark) {
        self.kinds[call.kind().number() as usize] += 1;
        self.answers[answer.err().map_or(0, Refusal::number) as usize] += 1;
        self.marks[mark.number() as usize] += 1;
    }

    fn calls(&self) -> u64 {
        self.answers.iter().sum()
    }

    fn words(&self, edition: Edition, shape: Shape) -> String {
        let Shape { frames, uncached, processes, lines } = shape;
        let sets = if edition == Edition::SetsOfFour { " in sets of four" } else { "" };
        let keeps = shape.keeps_limits_in(edition);
        let refused = if keeps { "" } else { ", numbers out of their limits: every call is refused" };
        let mut words = format!(
            "{} on a board of {} ({} uncached), {} and {}{sets}{refused}\n",
            counted(self.calls(), "call"),
            counted(frames as u64, "frame"),
            grouped(uncached as u64),
            counted(processes as u64, "process"),
            counted(lines as u64, "line"),
        );
        // The mark of an access that was done is not 0.
        let done: u64 = self.marks[1..].iter().sum();
        let marks = [
            "the call was refused, or it is no access",
            "hit",
            "refilled",
            "refilled, and a changed line was written back",
            "uncached",
        ];
        let share = |mark, count| match mark {
            0 => String::new(),
            _ => format!(" ({:.1}% of the accesses that were done)", 100.0 * count as f64 / done as f64),
        };
        let kind = |number: u32, _| Kind::of(number.into()).map_or(String::new(), |kind| kind.words().into());
        let answer = |number, _| Refusal::of(number).map_or("done".into(), |refusal| refusal.reason().into());
        let mark = |number: u32, count: u64| format!("{}{}", marks[number as usize], share(number, count));
        words += &table("calls, by kind", &self.kinds, kind);
        words += &table("answers, by number", &self.answers, answer);
        words += &table("marks, by number", &self.marks, mark);
        words
    }
}

/// A line for each number that came: how often, the number, and what it is.
fn table(title: &str, counts: &[u64], words: impl Fn(u32, u64) -> String) -> String {
    let came: Vec<String> = (0..)
        .zip(counts)
        .filter(|(_, &count)| count != 0)
        .map(|(number, &count)| format!("{:>13}  {number:>2}  {}\n", grouped(count), words(number, count)))
        .collect();
    if came.is_empty() {
        return String::new();
    }
    format!("\n{title}\n{}", came.concat())
}

/// So many of a thing.
fn counted(number: u64, thing: &str) -> String {
    let ending = match (number, thing.ends_with('s')) {
        (1, _) => "",
        (_, true) => "es",
        (_, false) => "s",
    };
    format!("{} {thing}{ending}", grouped(number))
}

/// A number with a comma before each three digits.
fn grouped(number: u64) -> String {
    match number {
        0..=999 => number.to_string(),
        _ => format!("{},{:03}", grouped(number / 1000), number % 1000),
    }
}

/// A line that tells how far a long replay has come, written again and again in its place.
pub struct Progress<'a> {
    out: &'a mut dyn Write,
    /// The log's, where it is known.
    length: Option<u64>,
    due: Instant,
    shown: bool,
}

impl<'a> Progress<'a> {
    /// What is over by then has no progress to tell.
    const AFTER: Duration = Duration::from_millis(500);
    const EVERY: Duration = Duration::from_millis(200);
    /// The clock is asked after so many calls.
    const CALLS: u64 = 1 << 12;

    pub fn new(out: &'a mut dyn Write, length: Option<u64>) -> Progress<'a> {
        Progress { out, length, due: Instant::now() + Self::AFTER, shown: false }
    }

    pub fn tell(&mut self, bytes: u64, calls: u64) {
        if calls % Self::CALLS == 0 && Instant::now() >= self.due {
            self.due = Instant::now() + Self::EVERY;
            self.show(bytes, calls);
        }
    }

    /// Whether the line can be written or not, the replay goes on.
    pub fn show(&mut self, bytes: u64, calls: u64) {
        let (taken, made) = (grouped(bytes), counted(calls, "call"));
        let _ = match self.length.filter(|&length| bytes <= length && length != 0) {
            Some(length) => {
                let percent = u128::from(bytes) * 100 / u128::from(length);
                write!(self.out, "\r\x1b[Kreplay: {percent}%, {taken} of {} bytes, {made}", grouped(length))
            }
            None => write!(self.out, "\r\x1b[Kreplay: {taken} bytes, {made}"),
        };
        let _ = self.out.flush();
        self.shown = true;
    }

    pub fn clear(self) {
        if self.shown {
            let _ = write!(self.out, "\r\x1b[K");
        }
    }
}
