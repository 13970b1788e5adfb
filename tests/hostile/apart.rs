//! A run that a signal may end. The library runs in a child of this program; where a signal ends the child, it is run again
//! and writes down each step before it is done, so that there is a trace, which is then shrunk with a child for each try.

use crate::plant::Plant;
use crate::run::{differs, first_difference, Difference, Kind};
use crate::trace::{self, Start, Step, Trace};
use std::fs::{File, OpenOptions};
use std::io::Write;
use std::os::unix::process::ExitStatusExt;
use std::process::ExitStatus;
use std::sync::atomic::{AtomicU32, Ordering};
use std::sync::Mutex;

// Of the C library, which every program has.
extern "C" {
    fn fork() -> i32;
    fn waitpid(child: i32, status: *mut i32, options: i32) -> i32;
    fn alarm(seconds: u32) -> u32;
}

/// How a child ended.
pub enum End {
    Code(i32),
    Signal(i32),
}

/// Does the work in a child of this program, which ends with the number that the work gives.
pub fn child(work: impl FnOnce() -> i32) -> Result<End, String> {
    std::io::stdout().flush().map_err(|error| format!("cannot write: {error}"))?;
    // Safety: this program has one thread.
    match unsafe { fork() } {
        0 => std::process::exit(work()),
        id if id > 0 => {
            let mut status = 0;
            if unsafe { waitpid(id, &mut status, 0) } != id {
                return Err(format!("cannot wait for a child: {}", std::io::Error::last_os_error()));
            }
            let status = ExitStatus::from_raw(status);
            match (status.code(), status.signal()) {
                (Some(code), _) => Ok(End::Code(code)),
                (None, signal) => Ok(End::Signal(signal.unwrap_or(0))),
            }
        }
        _ => Err(format!("cannot make a child: {}", std::io::Error::last_os_error())),
    }
}

/// Every call ends: a run that takes longer than this is ended by a signal.
static SECONDS: AtomicU32 = AtomicU32::new(30);

/// The signal of a run that does not end.
pub const ALARM: i32 = 14;

/// Runs may take so long from now on.
pub fn limit_runs(seconds: u32) {
    SECONDS.store(seconds, Ordering::Relaxed);
}

/// A run begins.
pub fn begin() {
    // Safety: it only asks for a signal later.
    unsafe { alarm(SECONDS.load(Ordering::Relaxed)) };
}

// ----- the record -----

static RECORD: Mutex<Option<String>> = Mutex::new(None);

/// From now on each run is written to this file while it goes on.
fn record_to(file: &str) {
    *RECORD.lock().expect("one thread") = Some(file.into());
}

fn write_record(open: impl FnOnce(&str) -> std::io::Result<File>, text: impl FnOnce() -> String) {
    if let Some(file) = &*RECORD.lock().expect("one thread") {
        open(file).and_then(|mut file| file.write_all(text().as_bytes())).expect("the record can be written");
    }
}

pub fn record_start(start: &Start, plant: Option<Plant>) {
    let text = || trace::to_text(&Trace { start: start.clone(), steps: Vec::new(), plant });
    write_record(|file| File::create(file), text);
}

pub fn record_step(step: &Step) {
    write_record(|file| OpenOptions::new().append(true).open(file), || trace::step_text(step) + "\n");
}

/// Runs again what a signal ended, and gives the trace of the run that it ended.
pub fn recorded(file: &str, work: impl FnOnce() -> i32) -> Result<(Trace, Difference), String> {
    let end = child(|| {
        record_to(file);
        work()
    })?;
    let End::Signal(signal) = end else { return Err("a signal ended the run, but not when it was run again".into()) };
    let text = std::fs::read_to_string(file).map_err(|error| format!("cannot read {file}: {error}"))?;
    Ok((trace::from_text(&text)?, by_signal(signal)))
}

fn by_signal(signal: i32) -> Difference {
    let why = if signal == ALARM { "a run does not end: " } else { "" };
    differs(Kind::Signal, format!("{why}signal {signal} ended the program"))
}

/// Whether a signal ends the run of a trace; if so, it counts as the last step's difference.
pub fn ended_by_signal(trace: &Trace) -> Option<(usize, Difference)> {
    match child(|| i32::from(first_difference(trace).is_some())) {
        Ok(End::Signal(signal)) => Some((trace.steps.len().saturating_sub(1), by_signal(signal))),
        _ => None,
    }
}
