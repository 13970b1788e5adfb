//! The four routes to the check of a dumped board and to its repair: the raw declarations of the Rust crate; the C header's
//! functions over each number and buffer, and those over a board (both by through.c); and the safe Rust crate, with scratch of the
//! caller's or its own.

use crate::dumps::{needed, Dump, Report, Scratch, Told};
use crate::guarded::{Guarded, Real};
use crate::routes::{self, raw, CBoard, Manner, Route, Way};
use model::dump::RULES;
use model::Shape;
use oaledva::{ffi, Broken, CheckError, Repaired, Rule};

/// A report of C, its parts as the header tells them.
#[repr(C)]
struct CReport {
    packed: u64,
    number: u32,
    rule: u32,
    sound: u32,
    place: usize,
    dropped: usize,
}

#[link(name = "through", kind = "static")]
extern "C" {
    fn through_dump_constants(frames: usize, lines: usize, constants: *mut [usize; CONSTANTS]);
    fn through_check(
        board: *mut CBoard,
        way: Way,
        keys: *mut u64,
        keys_length: usize,
        links: *mut u64,
        links_length: usize,
    ) -> CReport;
    fn through_repair(
        board: *mut CBoard,
        way: Way,
        keys: *mut u64,
        keys_length: usize,
        links: *mut u64,
        links_length: usize,
        dropped: *mut u8,
        dropped_length: usize,
    ) -> CReport;
}

/// How many of the header's names are compared: the rules, none of them first, and how much scratch there is.
const CONSTANTS: usize = 1 + RULES.len() + 2;

/// What the header and the crate say of rules and scratch, against the documents. Gives what disagrees.
pub fn header_disagrees() -> Option<String> {
    let in_rust: Vec<u32> = Rule::ALL.map(Rule::number).to_vec();
    let named = [Rule::Lengths, Rule::PageTwice, Rule::LineTwice, Rule::Astray, Rule::Stale].map(Rule::number);
    if in_rust != RULES.map(model::dump::Rule::number) || named[..] != in_rust {
        return Some(format!("the rules are {in_rust:?} in Rust, by name {named:?}"));
    }
    for (frames, lines) in [(3, 8), (8, 3), (5, 5)] {
        let shape = Shape { frames, uncached: 0, processes: 1, lines };
        let [keys, links, _] = needed(&shape);
        let mut ours = [0; CONSTANTS];
        let numbers = (0..=RULES.len()).chain([keys, links]);
        ours.iter_mut().zip(numbers).for_each(|(ours, number)| *ours = number);
        let mut theirs = [0; CONSTANTS];
        unsafe { through_dump_constants(frames as usize, lines as usize, &mut theirs) };
        if theirs != ours {
            return Some(format!("the header's rules and scratch are {theirs:?}, the documents' {ours:?}"));
        }
        let rust = oaledva::Shape { frames: frames as usize, uncached: 0, processes: 1, lines: lines as usize };
        if (rust.keys(), rust.links()) != (keys, links) {
            return Some(format!("{} keys and {} links are asked for in Rust", rust.keys(), rust.links()));
        }
    }
    None
}

/// Brings a check or a repair. `Err` where the C side wrote where it may not, or the crate's own places are no list of places.
pub fn dump(real: &mut Real, dump: &Dump, scratch: &mut Scratch, manner: &Manner) -> Result<Told, String> {
    let Scratch { keys, links, flags } = scratch;
    let lengths = [keys.len(), links.len(), flags.len()];
    let (k, l) = (keys.pointer(manner.null), links.pointer(manner.null));
    let d = flags.pointer(manner.null);
    match manner.route {
        Route::Raw => {
            let b = CBoard::of(real, manner.null);
            // Safety: the buffers are as long as is said, apart from each other and from the board's.
            let report = unsafe {
                if dump.repair {
                    raw!(@ b, oaledva_repair, k, lengths[0], l, lengths[1], d, lengths[2])
                } else {
                    raw!(@ b, oaledva_check, k, lengths[0], l, lengths[1])
                }
            };
            Ok(raw_told(report))
        }
        Route::Header | Route::Board => {
            let told = routes::caged(real, manner, |board, way| unsafe {
                if dump.repair {
                    through_repair(board, way, k, lengths[0], l, lengths[1], d, lengths[2])
                } else {
                    through_check(board, way, k, lengths[0], l, lengths[1])
                }
            })?;
            let CReport { packed, number, rule, sound, place, dropped } = told;
            let report = Report { number, rule, place: place as u64, dropped: dropped as u64 };
            Ok(Told { report, sound: Some(sound), packed: Some(packed), needed: None })
        }
        Route::Safe => safe(real, dump, keys, links, flags),
    }
}

fn raw_told(report: ffi::Report) -> Told {
    // Safety: a report is a number of 64 bits.
    let packed = unsafe { std::mem::transmute::<ffi::Report, u64>(report) };
    let (place, dropped) = (report.place() as u64, report.dropped() as u64);
    let report = Report { number: report.number(), rule: report.rule(), place, dropped };
    Told { report, sound: None, packed: Some(packed), needed: None }
}

fn safe(
    real: &mut Real,
    dump: &Dump,
    keys: &mut Guarded<u64>,
    links: &mut Guarded<u64>,
    flags: &mut Guarded<u8>,
) -> Result<Told, String> {
    let mut board = routes::lent(real);
    let (keys, links) = (keys.inner_mut(), links.inner_mut());
    let given: Result<Repaired<usize>, CheckError> = match (dump.repair, dump.own) {
        (false, true) => board.check().map(|()| Repaired { before: None, dropped: 0 }).map_err(CheckError::Broken),
        (false, false) => board.check_with(keys, links).map(|()| Repaired { before: None, dropped: 0 }),
        (true, true) => match board.repair() {
            Ok(Repaired { before, dropped }) => {
                told_places(&dropped, flags)?;
                Ok(Repaired { before, dropped: dropped.len() })
            }
            Err(broken) => Err(CheckError::Broken(broken)),
        },
        (true, false) => board.repair_with(keys, links, flags.inner_mut()),
    };
    let report = |broken: Option<Broken>, dropped: usize| {
        let (rule, place) = broken.map_or((0, 0), |broken| (broken.rule.number(), broken.place as u64));
        Report { number: 0, rule, place, dropped: dropped as u64 }
    };
    let (report, needed) = match given {
        Ok(Repaired { before, dropped }) => (report(before, dropped), None),
        Err(CheckError::Broken(broken)) => (report(Some(broken), 0), None),
        Err(CheckError::Scratch(oaledva::Scratch { keys, links, dropped })) => {
            (Report { number: 1, ..Report::default() }, Some([keys, links, dropped]))
        }
    };
    Ok(Told { report, sound: None, packed: None, needed })
}

/// The places that the crate gives, as flags; they must rise.
fn told_places(places: &[usize], flags: &mut Guarded<u8>) -> Result<(), String> {
    if places.windows(2).any(|pair| pair[0] >= pair[1]) || places.last().is_some_and(|&last| last >= flags.len()) {
        return Err(format!("the places {places:?} don't rise, or are none"));
    }
    flags.inner_mut().fill(0);
    places.iter().for_each(|&place| flags.inner_mut()[place] = 1);
    Ok(())
}
