// The program that replays logs, in this process: rows and refusals as the sample logs have them, its summary, its line of
// progress, and what it says of options.
#[allow(dead_code)]
#[path = "../examples/replay.rs"]
mod program;

use oaledva::log::{Call, Calls, Writer};
use oaledva::{Edition, Shape};
use program::{options, replay, Options, Problem, Progress};
use std::ffi::OsStr;
use std::fs;
use std::io::{self, Write};
use std::path::PathBuf;

const SHAPE: Shape = Shape { frames: 4, uncached: 1, processes: 2, lines: 2 };

/// What it writes to standard output and to standard error.
fn replayed(log: &[u8], rows: bool) -> (String, String) {
    replayed_in(Edition::OnePlace, log, rows)
}

fn replayed_in(edition: Edition, log: &[u8], rows: bool) -> (String, String) {
    let mut out = Vec::new();
    let problem = replay(log, edition, rows, &mut out, None).err();
    let words = problem.map_or(String::new(), |problem| format!("replay: {}\n", problem.words(None)));
    (String::from_utf8(out).unwrap(), words)
}

fn samples() -> Vec<PathBuf> {
    let folder = concat!(env!("CARGO_MANIFEST_DIR"), "/../examples/logs");
    let files = fs::read_dir(folder).unwrap_or_else(|error| panic!("{folder}: {error}"));
    let mut logs: Vec<_> =
        files.map(|file| file.unwrap().path()).filter(|file| file.extension() == Some("log".as_ref())).collect();
    logs.sort();
    logs
}

/// But for boards that the program in Rattle does not take, and this one does.
#[test]
fn the_sample_logs_have_their_rows() {
    let (mut equal, mut large) = (0, 0);
    for log in samples() {
        let (bytes, name) = (fs::read(&log).unwrap(), log.file_stem().and_then(OsStr::to_str).unwrap().to_string());
        let expected = |end| fs::read_to_string(log.with_extension(end)).unwrap();
        let ((out, words), (summary, same_words)) = (replayed(&bytes, true), replayed(&bytes, false));
        let (rows, after) = out.split_once("\n\n").map_or((&out[..], ""), |(rows, after)| (rows, after));
        assert_eq!((after, &words), (&summary[..], &same_words), "{name}");
        assert!(!words.contains("a board of more than"), "{name}");
        if name.starts_with("large-") {
            large += 1;
            continue;
        }
        assert_eq!((format!("{}\n", rows.trim_end()), words), (expected("out"), expected("err")), "{name}");
        equal += 1;
    }
    assert!(equal >= 30 && large >= 3, "{equal} and {large} sample logs");
}

#[test]
fn the_summary_tells_kinds_answers_and_marks() {
    let mut log = Writer::new(Vec::new(), SHAPE).unwrap();
    for call in [
        Call::Map { page: 0x200000, frame: 1, write: true },
        Call::Attach { process: 0, slot: 0, segment: 2048, write: true },
        Call::Store { process: 0, width: 4, address: 0, value: 50 },
        Call::Load { process: 1, width: 1, address: 3 },
        Call::SupervisorLoad { width: 4, address: 0 },
        Call::Move { page: 0x200000, new_page: 0x200000 },
    ] {
        log.write(call).unwrap();
    }
    for _ in 0..1998 {
        log.write(Call::Load { process: 0, width: 1, address: 3 }).unwrap();
    }
    let expected = "\
2,004 calls on a board of 4 frames (1 uncached), 2 processes and 2 lines

calls, by kind
        2,000   1  user access
            1   2  supervisor access
            1   3  attach
            1   5  map
            1  12  move

answers, by number
        2,002   0  done
            1   6  no segment is attached to the address's slot
            1  11  the page is mapped already (move: the new page)

marks, by number
            4   0  the call was refused, or it is no access
        1,998   1  hit (99.9% of the accesses that were done)
            1   2  refilled (0.1% of the accesses that were done)
            1   4  uncached (0.1% of the accesses that were done)
";
    assert_eq!(replayed(&log.into_inner(), false), (expected.into(), "".into()));
}

/// Two lines of one place, in turn: without sets of four they push each other out. Numbers and values are the same.
#[test]
fn a_log_is_replayed_in_either_edition() {
    let mut log = Writer::new(Vec::new(), Shape { lines: 4, ..SHAPE }).unwrap();
    for call in [
        Call::Map { page: 0x200000, frame: 1, write: true },
        Call::Attach { process: 0, slot: 0, segment: 2048, write: true },
        Call::Store { process: 0, width: 1, address: 0, value: 5 },
        Call::Store { process: 0, width: 1, address: 64, value: 6 },
        Call::Load { process: 0, width: 1, address: 0 },
        Call::Load { process: 0, width: 1, address: 64 },
    ] {
        log.write(call).unwrap();
    }
    let log = log.into_inner();
    for (edition, rows, about) in [
        (Edition::OnePlace, "3 0 0 2\n4 0 0 3\n5 0 5 3\n6 0 6 2", "4 lines"),
        (Edition::SetsOfFour, "3 0 0 2\n4 0 0 2\n5 0 5 1\n6 0 6 1", "4 lines in sets of four"),
    ] {
        let (out, words) = replayed_in(edition, &log, true);
        let begins = format!(
            "call answer value mark\n1 0 0 0\n2 0 0 0\n{rows}\n\n6 calls on a board of 4 frames (1 uncached), 2 processes \
             and {about}\n"
        );
        assert!(out.starts_with(&begins) && words.is_empty(), "{out}{words}");
    }
    // A log of fewer lines than a set has: every call is refused.
    let (out, words) = replayed_in(Edition::SetsOfFour, &[4, 1, 2, 2, 8], true);
    let begins =
        "call answer value mark\n1 1 0 0\n\n1 call on a board of 4 frames (1 uncached), 2 processes and 2 lines in \
                  sets of four, numbers out of their limits: every call is refused\n";
    assert!(out.starts_with(begins) && words.is_empty(), "{out}{words}");
}

/// But for the marks, and where there are fewer lines than a set has.
#[test]
fn the_sample_logs_have_the_same_rows_in_sets_of_four() {
    let without_marks = |rows: &str| -> Vec<String> {
        let rows = rows.lines().take_while(|row| !row.is_empty()).map(|row| row.rsplit_once(' ').unwrap().0.into());
        rows.collect()
    };
    let (mut calls, mut refused) = (0, 0);
    for log in samples() {
        let bytes = fs::read(&log).unwrap();
        let (one_place, sets) = (replayed(&bytes, true), replayed_in(Edition::SetsOfFour, &bytes, true));
        assert_eq!(sets.1, one_place.1, "{log:?}");
        if Calls::of(&bytes[..]).is_ok_and(|calls| calls.shape().keeps_limits() && calls.shape().lines < 4) {
            assert!(without_marks(&sets.0).iter().skip(1).all(|row| row.ends_with(" 1 0")), "{log:?}");
            refused += 1;
        } else {
            assert_eq!(without_marks(&sets.0), without_marks(&one_place.0), "{log:?}");
            calls += without_marks(&sets.0).len() - 1;
        }
    }
    assert!(calls >= 20 && refused >= 20, "{calls} calls, {refused} logs of few lines");
}

#[test]
fn a_board_out_of_limits_is_told() {
    let mut log = Writer::new(Vec::new(), Shape { frames: 1, uncached: 1, processes: 1, lines: usize::MAX }).unwrap();
    log.write(Call::FlushAll).unwrap();
    let (out, words) = replayed(&log.into_inner(), true);
    let begins = "call answer value mark\n1 1 0 0\n\n1 call on a board of 1 frame (1 uncached), 1 process and \
                  18,446,744,073,709,551,615 lines, numbers out of their limits: every call is refused\n";
    assert!(out.starts_with(begins) && words.is_empty(), "{out}{words}");
}

/// The largest board there is, in memory that is asked for and hardly touched.
#[test]
fn the_largest_board_is_replayed() {
    let largest =
        Shape { frames: Shape::FRAMES_MAX, uncached: 0, processes: Shape::PROCESSES_MAX, lines: Shape::LINES_MAX };
    let (process, slot) = (Shape::PROCESSES_MAX - 1, 511);
    let mut log = Writer::new(Vec::new(), largest).unwrap();
    for call in [
        Call::Map { page: 0x200000, frame: Shape::FRAMES_MAX - 1, write: true },
        Call::Attach { process, slot, segment: 2048, write: true },
        Call::Store { process, width: 4, address: 511 << 22, value: 7 },
        Call::Load { process, width: 1, address: (511 << 22) + 3 },
    ] {
        log.write(call).unwrap();
    }
    let (out, words) = replayed(&log.into_inner(), true);
    if words.contains("there is no memory for it") {
        eprintln!("not tried, for want of memory: {words}");
        return;
    }
    assert!(out
        .starts_with("call answer value mark\n1 0 0 0\n2 0 0 0\n3 0 0 2\n4 0 7 1\n\n4 calls on a board of 1,048,576 "));
    assert_eq!(words, "");
}

#[test]
fn progress_is_one_line_that_is_cleared() {
    for (length, expected) in [
        (Some(2_000_000), "\r\x1b[Kreplay: 61%, 1,234,567 of 2,000,000 bytes, 98,765 calls\r\x1b[K"),
        (None, "\r\x1b[Kreplay: 1,234,567 bytes, 98,765 calls\r\x1b[K"),
        (Some(0), "\r\x1b[Kreplay: 1,234,567 bytes, 98,765 calls\r\x1b[K"),
        (Some(1000), "\r\x1b[Kreplay: 1,234,567 bytes, 98,765 calls\r\x1b[K"), // it grew meanwhile
    ] {
        let mut told = Vec::new();
        let mut progress = Progress::new(&mut told, length);
        progress.tell(7, 1 << 12); // too early
        progress.show(1_234_567, 98_765);
        progress.clear();
        assert_eq!(String::from_utf8(told).unwrap(), expected);
    }
    let mut told = Vec::new();
    Progress::new(&mut told, None).clear();
    assert!(told.is_empty(), "a short replay tells none");
}

#[test]
fn an_output_that_fails_ends_the_replay() {
    struct Closed;
    impl Write for Closed {
        fn write(&mut self, _: &[u8]) -> io::Result<usize> {
            Err(io::ErrorKind::BrokenPipe.into())
        }
        fn flush(&mut self) -> io::Result<()> {
            Err(io::ErrorKind::BrokenPipe.into())
        }
    }
    for rows in [true, false] {
        let ended = replay(&[4, 1, 2, 2, 8][..], Edition::OnePlace, rows, &mut Closed, None);
        assert!(matches!(ended, Err(Problem::Output(error)) if error.kind() == io::ErrorKind::BrokenPipe));
    }
}

#[test]
fn options_are_few() {
    let given = |words: &[&str]| options(words.iter().map(Into::into));
    let log = |name: &str| Some(name.into());
    assert_eq!(given(&[]), Ok(Options::default()));
    assert_eq!(given(&["a.log"]), Ok(Options { log: log("a.log"), ..Options::default() }));
    assert_eq!(given(&["--rows", "-"]), Ok(Options { rows: true, log: log("-"), ..Options::default() }));
    assert_eq!(given(&["a", "--rows"]), Ok(Options { rows: true, log: log("a"), ..Options::default() }));
    let sets = Options { edition: Edition::SetsOfFour, log: log("a"), ..Options::default() };
    assert_eq!((given(&["--sets", "a"]), given(&["a", "--sets"])), (Ok(sets), given(&["--sets", "a"])));
    assert_eq!(Options::default().edition, Edition::OnePlace);
    assert!(given(&["-h"]).unwrap().help && given(&["--help"]).unwrap().help);
    assert_eq!(given(&["--row"]), Err("unknown option '--row'".into()));
    assert_eq!(given(&["a", "b"]), Err("one log at a time".into()));
}

#[test]
fn a_log_that_is_not_there_is_named() {
    let missing = Problem::from(io::Error::from(io::ErrorKind::NotFound));
    assert_eq!(missing.words(Some("a.log".as_ref())), "cannot read a.log: entity not found");
    assert_eq!(missing.words(Some("-".as_ref())), "cannot read standard input: entity not found");
}
