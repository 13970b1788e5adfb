//! Runs with logs: random ones, with damaged logs, wild states and entries to be written; round trips of random runs; and planned
//! ones that reach all of `log_sights.rs` by themselves, by every route, with the sample logs among them.

use crate::coverage::Coverage;
use crate::gen::{self, World};
use crate::guarded::FENCED_BEHIND;
use crate::limits::*;
use crate::log_gen::{self, Draft};
use crate::log_sights::number_end;
use crate::logs::{call_entry, entries_of, header_entry, Piece, Reading, Words, Writing};
use crate::pairs::Failure;
use crate::plant::Plant;
use crate::rng::Rng;
use crate::routes::{Manner, Route};
use crate::stepped;
use crate::trace::{Deed, Start, Step};
use model::{log, samples, Board, Call, Edition, Shape};
use Route::{Board as ByBoard, Header, Raw, Safe};

/// Steps of a random run.
const STEPS: usize = 40;

/// One random run in so many is a round trip, and one in so many goes on beside a board.
const RUNS_PER_TRIP: u64 = 6;
const RUNS_PER_BOARD: u64 = 16;

/// No board: shape and buffers are nothing.
fn no_board() -> Start {
    let board = Board::fresh(Shape { frames: 0, uncached: 0, processes: 0, lines: 0 });
    Start { fresh: false, board, offsets: [0; 6] }
}

/// A small board, fresh or wild, which logs must leave as it is.
fn board(rng: &mut Rng) -> Start {
    let (edition, _) = rng.pick(&EDITIONS);
    let shape = Shape { frames: 2, uncached: 1, processes: 1, lines: 2 * set_lines(edition) };
    if rng.flip() {
        return gen::fresh(rng, edition, shape);
    }
    let (board, _) = gen::wild_board(rng, edition, shape);
    Start { fresh: false, board, offsets: gen::offsets(rng) }
}

// ---------------------------------------------------------------------------------------------
// Random runs
// ---------------------------------------------------------------------------------------------

/// Runs until so many damaged logs were read, or one run fails. Gives how many round trips there were.
pub fn search(rng: &mut Rng, logs: u64, plant: Option<Plant>, coverage: &mut Coverage) -> Result<u64, Failure> {
    let (mut read, mut runs, mut trips) = (0, 0, 0);
    while read < logs {
        runs += 1;
        if runs % RUNS_PER_TRIP == 0 {
            trip(rng, plant, coverage)?;
            trips += 1;
            continue;
        }
        let start = if runs % RUNS_PER_BOARD == 0 { board(rng) } else { no_board() };
        stepped(start, STEPS, plant, coverage, |_, _| {
            let deed = match rng.below(100) {
                0..=69 => {
                    read += 1;
                    let log = log_gen::damaged(rng);
                    Deed::Read(log_gen::reading(rng, log))
                }
                70..=84 => Deed::Read(log_gen::wild_reading(rng)),
                _ => Deed::Write(log_gen::writing(rng)),
            };
            Step { deed, manner: gen::manner(rng) }
        })?;
    }
    Ok(trips)
}

/// The calls of a random run from a fresh board, or any calls; a load's value, which has no encoding, is 0.
fn calls(rng: &mut Rng) -> Vec<Words> {
    let length = rng.pick(&[0, 1, 3, 10, 30, 70]);
    if rng.percent(40) {
        let header = log_gen::header(rng);
        return [header].into_iter().chain((0..length).map(|_| log_gen::entry(rng))).collect();
    }
    let shape = Shape { lines: 1 << rng.below(7), ..gen::shape(rng, Edition::Ones) };
    let (mut board, world) = (Board::fresh(shape), World::new(rng, Edition::Ones, &shape));
    let mut entries = vec![header_entry(&shape)];
    for index in 0..length {
        let call = match gen::call(rng, &world, &board, index < 12) {
            Call::UserAccess { process, store: false, width, address, .. } => {
                Call::UserAccess { process, store: false, width, address, value: 0 }
            }
            Call::SupervisorAccess { store: false, width, global, .. } => {
                Call::SupervisorAccess { store: false, width, global, value: 0 }
            }
            call => call,
        };
        board.step(&call);
        entries.push(call_entry(&call));
    }
    entries
}

/// A run written entry by entry, and read again.
fn trip(rng: &mut Rng, plant: Option<Plant>, coverage: &mut Coverage) -> Result<(), Failure> {
    let entries = calls(rng);
    let bytes = Draft::of(&entries).bytes();
    let mut deeds: Vec<Deed> = entries.into_iter().map(|entry| Deed::Write(Writing::of(entry))).collect();
    deeds.push(Deed::Read(Reading { log: None, ..log_gen::reading(rng, bytes) }));
    stepped(no_board(), deeds.len(), plant, coverage, |index, _| Step {
        deed: deeds[index].clone(),
        manner: gen::manner(rng),
    })
}

// ---------------------------------------------------------------------------------------------
// Planned runs
// ---------------------------------------------------------------------------------------------

/// A log of these bytes, in these pieces.
fn read(log: &[u8], pieces: &[Piece]) -> Deed {
    Deed::Read(Reading { stain: STAIN, ..Reading::of(log.to_vec(), pieces.to_vec()) })
}

/// What stands in every room before: no entry has it.
const STAIN: u64 = 0xDEAD_BEEF_5EED_F00D;

/// More than any planned log has but the long one.
const ALL: usize = 1000;
const MANY: usize = 64;
const WHOLE: Piece = Piece::of(ALL, MANY);

const BOARD: [u8; 4] = [4, 1, 2, 2];
const FLUSH: u8 = 8;

/// A header and a call; then these bytes.
fn behind(bytes: &[u8]) -> Vec<u8> {
    [&BOARD[..], &[FLUSH], bytes].concat()
}

/// A number of so many bytes.
fn of_length(bytes: usize) -> u64 {
    if bytes == 1 {
        3
    } else {
        1 << (7 * (bytes - 1))
    }
}

/// The numbers that are tried at a spot where this may stand, each with whether the entry is a load.
fn tried(limit: Limit, kind: bool) -> Vec<(Vec<u8>, bool)> {
    let mut all: Vec<(Vec<u8>, bool)> = Vec::new();
    for load in [false, true] {
        let end = end_of_field(limit, load);
        let lengths = (1..=NUMBER_BYTES).map(of_length).filter(|number| end.map_or(true, |end| *number < end));
        let limits = end.map_or(vec![u64::MAX], |end| vec![end - 1, end, end + 1, end + 300, end << 20, u64::MAX]);
        all.extend(lengths.chain(limits).chain([0, 1]).map(|number| (log::number(number), load)));
    }
    if kind {
        let known = [1, 11, MOVE].into_iter().flat_map(|kind| [8, 16, 32, 63].map(|bit| kind + (1 << bit)));
        let kinds = (0..=NO_KIND + 1).chain([127, 128, 200, 255, 256, 1 << 40, u64::MAX]).chain(known);
        all.extend(kinds.map(|kind| (log::number(kind), false)));
        all.extend((1..=NO_KIND as u8 + 1).map(|kind| (vec![kind | 0x80, 0], false)));
    }
    // Padded, by one group and by more, up to a tenth byte; a tenth byte above 1; cut before the number and behind each group.
    for groups in 1..NUMBER_BYTES {
        for group in [0x80, 0x81, 0xFF] {
            all.push((vec![group; groups], false));
            all.push(([&vec![group; groups][..], &[0]].concat(), false));
        }
    }
    for tenth in [1, 2, 3, 0x7F, 0x80, 0x81, 0xFF] {
        all.push(([[0xFF; NUMBER_BYTES - 1].as_slice(), &[tenth]].concat(), false));
    }
    all.push((vec![], false));
    all
}

/// At every spot, every number that is tried there; as the log's end, and with the rest of its entry and a call behind it; in one
/// piece, cut behind its first byte, and byte by byte.
fn numbers() -> Vec<Deed> {
    let mut deeds = Vec::new();
    for kind in 0..ENTRIES.len() as u64 {
        let fields = fields_of(kind);
        let first = if kind == 0 { 1 } else { 0 };
        for field in first..=fields.len() {
            if field == 0 && kind != 1 {
                continue;
            }
            let limit = if field == 0 { Limit::Any } else { fields[field - 1].1 };
            for (bytes, load) in tried(limit, field == 0) {
                let good = |(_, limit): &(&str, Limit)| match limit {
                    Limit::LoadOrStore => u8::from(!load),
                    _ => 0,
                };
                let own = if kind == 0 { vec![] } else { [&BOARD[..], &[FLUSH]].concat() };
                let kinds = if field == 0 || kind == 0 { vec![] } else { vec![kind as u8] };
                let before: Vec<u8> =
                    own.into_iter().chain(kinds).chain(fields[..field.max(1) - 1].iter().map(good)).collect();
                let behind: Vec<u8> = fields[field.min(fields.len())..].iter().map(good).chain([FLUSH]).collect();
                let place = before.len();
                let cut = [&before[..], &bytes].concat();
                let whole = [&cut[..], &behind].concat();
                let apart = [Piece::of(place + 1, MANY), WHOLE];
                deeds.push(read(&cut, &[WHOLE]));
                deeds.push(read(&whole, &[WHOLE]));
                deeds.push(read(&whole, &apart));
                deeds.push(read(&whole, &[Piece::of(1, 1)]));
                let short = number_end(&whole, place).saturating_sub(1);
                deeds.push(read(&whole, &[Piece::of(short, MANY), Piece::of(1, MANY), WHOLE]));
            }
        }
    }
    deeds
}

/// Ends of pieces and room, on good logs and on bad ones.
fn pieces() -> Vec<Deed> {
    let [session, handed_over] = [samples::session(), samples::handed_over()]
        .map(|(shape, calls)| log::write(&shape, &calls).expect("a session can be written"));
    let long = behind(&[&[6], &log::number(u64::MAX)[..], &[FLUSH, FLUSH]].concat());
    let bad = behind(&[FLUSH, 0, FLUSH, FLUSH, FLUSH, FLUSH, FLUSH, FLUSH, FLUSH, FLUSH]);
    let mut deeds = vec![read(&[], &[]), read(&[], &[WHOLE]), read(&[], &[Piece::of(0, 0)])];
    for log in [&session[..], &handed_over, &long, &bad, &BOARD, &BOARD[..3], &[]] {
        deeds.push(read(log, &[Piece::of(0, 2), Piece::of(ALL, 0), Piece::of(1, 1)]));
        for room in [1, 2, 3, 10, 12, MANY] {
            let bytes = [1, 2, 3, 5, 7, 13, ALL];
            deeds.extend(bytes.map(|bytes| read(log, &[Piece::of(bytes, room)])));
            deeds.push(read(log, &[Piece::of(0, room), Piece::of(4, room), Piece::of(0, 0)]));
        }
        // Cut in two, anywhere; and no room for the second part at first.
        for first in 0..=log.len() {
            deeds.push(read(log, &[Piece::of(first, MANY), WHOLE]));
            deeds.push(read(log, &[Piece::of(first, MANY), Piece::of(ALL, 0), WHOLE]));
        }
    }
    deeds
}

/// More than 65,536 bytes, of every kind.
fn long() -> Vec<Deed> {
    let mut rng = Rng::new(1);
    let kinds = (0..12_000).map(|index| 1 + index % (NO_KIND - 1));
    let entries: Vec<Words> = [0].into_iter().chain(kinds).map(|kind| log_gen::entry_of(&mut rng, kind)).collect();
    let bytes = Draft::of(&entries).bytes();
    assert!(bytes.len() > 0x1_0000, "a long log");
    let all = bytes.len();
    vec![read(&bytes, &[Piece::of(all, 12_500)]), read(&bytes, &[Piece::of(4093, 97)])]
}

/// The sample logs of the repository.
fn sampled() -> Vec<Deed> {
    let pieces = [vec![WHOLE], vec![Piece::of(1, 1)], vec![Piece::of(3, 2), Piece::of(0, 1), Piece::of(2, 4)]];
    samples::all().iter().flat_map(|sample| pieces.clone().map(|pieces| read(&sample.log, &pieces))).collect()
}

/// From a state of these words.
fn from(state: &[u64], log: &[u8], pieces: &[Piece]) -> Deed {
    let reading = Reading { stain: STAIN, ..Reading::of(log.to_vec(), pieces.to_vec()) };
    Deed::Read(Reading { state: state.to_vec(), ..reading })
}

/// A state: bytes taken, groups and their worth, an entry's words, a reason. The words that are not there are odd ones.
fn state(taken: u64, groups: u64, worth: u64, there: &[u64], reason: u64) -> [u64; STATE_WORDS] {
    let mut state = [u64::MAX; STATE_WORDS];
    (state[0], state[1], state[2], state[3]) = (taken, groups, worth, there.len() as u64);
    state[4..4 + there.len()].copy_from_slice(there);
    state[10] = reason;
    state
}

/// What a piece may bring next: one number taken, of each length, or refused; then more.
const NEXT: [&[u8]; 9] = [
    &[1, 0, 0, 0, 0, 0],
    &[0, 0, 0, 0, 0, FLUSH],
    &[MOVE as u8, 5, 6, FLUSH],
    &[NO_KIND as u8, FLUSH],
    &[0x80, 0, FLUSH],
    &[0x85, 0x80, 0x80, 0x80, 0x10, FLUSH],
    &[0xFF, 0xFF, 0xFF, 0xFF, 0xFF, 0xFF, 0xFF, 0xFF, 0xFF, 1, FLUSH],
    &[0xFF, 0xFF, 0xFF, 0xFF, 0xFF, 0xFF, 0xFF, 0xFF, 0xFF, 2, FLUSH],
    &[],
];

/// Wild states at every spot, with each number of groups, and refused ones; what is wrong with a state, each thing by itself.
fn states() -> Vec<Deed> {
    let mut deeds = Vec::new();
    let whole = [WHOLE];
    for kind in 0..ENTRIES.len() as u64 {
        let count = fields_of(kind).len();
        for there in 0..=count {
            for flag in [0, 1, 7] {
                let mut words = vec![flag; there];
                words.iter_mut().take(1).for_each(|word| *word = kind);
                let state = state(100, 0, 0, &words, 0);
                deeds.extend(NEXT.map(|next| from(&state, next, &whole)));
                deeds.extend(NEXT.map(|next| from(&state, next, &[Piece::of(1, 1)])));
            }
        }
        // A word too many.
        let mut words = [0; ENTRY_WORDS];
        words[0] = kind;
        deeds.push(from(&state(100, 0, 0, &words[..count.min(4) + 1], 0), &[1; 9], &whole));
        if count == 5 {
            let mut over = state(100, 0, 0, &words, 0);
            over[3] = 6;
            deeds.push(from(&over, &[1; 9], &whole));
        }
    }
    for groups in 0..=9 {
        let full = 1 << (7 * groups);
        for (worth, taken) in [(full - 1, groups), (0, groups), (full / 2, u64::MAX - 9)] {
            let state = state(taken, groups, worth, &[6], 0);
            deeds.extend([&[1][..], &[0], &[2], &[0x80], &[]].map(|next| from(&state, next, &whole)));
        }
        deeds.push(from(&state(100, groups, full, &[6], 0), &[1], &whole));
    }
    let mut words = |words: &[u64]| deeds.push(from(words, &[FLUSH, FLUSH], &whole));
    let good = state(100, 2, 5, &[6], 0);
    words(&[]);
    words(&good[..STATE_WORDS - 1]);
    words(&[&good[..], &[0]].concat());
    words(&[good, good].concat());
    words(&state(100, 10, 5, &[6], 0));
    words(&state(u64::MAX, u64::MAX, 5, &[6], 0));
    words(&state(1, 2, 5, &[6], 0));
    words(&state(100, 2, u64::MAX, &[6], 0));
    words(&state(100, 2, 5, &[NO_KIND], 0));
    words(&state(100, 10, 5, &[NO_KIND], 7));
    for reason in [1, 4, 7, 256 + 2, (1 << 32) + 6, u64::MAX] {
        words(&state(100, 2, 5, &[6], reason));
    }
    let mut most = good;
    most[3] = u64::MAX;
    words(&most);
    for reason in [reason::PADDED, reason::TENTH_BYTE, reason::UNKNOWN_KIND, reason::TOO_LARGE] {
        words(&state(100, 2, 5, &[6], reason));
        words(&state(100, 0, 0, &[], reason));
    }
    // A user access whose words came by fewer bytes.
    words(&state(0, 0, 0, &[1, 1, 1, 1], 0));
    deeds.extend(misfits());
    deeds
}

/// Room with words behind it, and logs that reach 2^64 bytes.
fn misfits() -> Vec<Deed> {
    let mut deeds = Vec::new();
    let refused = state(100, 2, 5, &[6], reason::PADDED);
    for torn in 1..ENTRY_WORDS {
        for room in [0, 1, 5] {
            let piece = Piece { bytes: ALL, room, torn };
            deeds.push(from(&FRESH_STATE, &BOARD, &[piece, WHOLE]));
            deeds.push(from(&refused, &BOARD, &[piece]));
        }
    }
    for (bytes, room) in [(1, MANY), (2, MANY), (3, MANY), (3, 0), (0, MANY)] {
        for reason in [0, reason::UNKNOWN_KIND] {
            let piece = Piece::of(bytes, room);
            for left in [0, 1, 2, 3] {
                deeds.push(from(&state(u64::MAX - left, 0, 0, &[], reason), &[FLUSH; 3], &[piece]));
            }
        }
    }
    deeds
}

/// Entries of every kind with numbers of every length, at their limits and above them; other lengths and rooms.
fn writings() -> Vec<Deed> {
    let mut deeds = Vec::new();
    let mut write = |entry: &[u64], room: usize| {
        let entry = entry.to_vec();
        deeds.push(Deed::Write(Writing { entry, room, stain: STAIN, offsets: [0; 2] }));
    };
    for kind in 0..ENTRIES.len() as u64 {
        let fields = fields_of(kind);
        for load in [false, true] {
            let mut good = [0; ENTRY_WORDS];
            good[0] = kind;
            for (word, (_, limit)) in good[1..].iter_mut().zip(fields) {
                *word = u64::from(*limit == Limit::LoadOrStore && !load);
            }
            for room in [ENTRY_BYTES, ENTRY_BYTES + 1, 4096, ENTRY_BYTES - 1, 40, 1, 0] {
                write(&good, room);
            }
            for length in [0, 1, 5, 7, 12] {
                let entry: Vec<u64> = good.iter().cycle().take(length).copied().collect();
                write(&entry, ENTRY_BYTES);
                write(&entry, 0);
            }
            for index in 1..ENTRY_WORDS {
                let end = fields.get(index - 1).map_or(Some(1), |(_, limit)| end_of_field(*limit, load));
                let limits = end.map_or(vec![u64::MAX], |end| vec![end - 1, end, end + 1, u64::MAX]);
                for number in (1..=NUMBER_BYTES).map(of_length).chain(limits) {
                    let mut entry = good;
                    entry[index] = number;
                    write(&entry, ENTRY_BYTES);
                    write(&entry, ENTRY_BYTES - 1);
                }
            }
            // As large as they may be, and all too large.
            let mut largest = good;
            for (word, (_, limit)) in largest[1..].iter_mut().zip(fields) {
                if *limit != Limit::LoadOrStore {
                    *word = end_of_field(*limit, load).map_or(u64::MAX, |end| end - 1);
                }
            }
            write(&largest, ENTRY_BYTES);
            write(&[kind, u64::MAX, u64::MAX, u64::MAX, u64::MAX, u64::MAX], ENTRY_BYTES);
        }
    }
    for kind in [NO_KIND, NO_KIND + 1, 256, 256 + 6, 256 + MOVE, (1 << 32) + 1, 1 << 63, u64::MAX] {
        for fields in [[0; 5], [u64::MAX; 5]] {
            let entry = [&[kind], &fields[..]].concat();
            write(&entry, ENTRY_BYTES);
            write(&entry, ENTRY_BYTES - 1);
            write(&entry[..5], ENTRY_BYTES);
        }
    }
    deeds
}

/// The good sample logs; those of two lines once more, with enough for sets of four; and long ones. Each is written and read again.
fn trips() -> Vec<Vec<Deed>> {
    let good = samples::all().into_iter().map(|sample| log::read(&sample.log)).filter(|read| read.refusal.is_none());
    let good: Vec<Vec<Words>> = good.map(|read| entries_of(&read)).collect();
    let mut widened: Vec<Vec<Words>> = good.iter().filter(|run| run[0][4] == 2).cloned().collect();
    widened.iter_mut().for_each(|run| run[0][4] = 16);
    let long = [samples::session(), samples::handed_over()].map(|(shape, calls)| {
        let calls = calls.iter().cycle().take(60);
        [header_entry(&shape)].into_iter().chain(calls.map(call_entry)).collect()
    });
    let written = |entries: Vec<Words>| {
        let read = [WHOLE, Piece::of(1, 1)].map(|piece| {
            let reading = Reading { stain: STAIN, ..Reading::of(Vec::new(), vec![piece]) };
            Deed::Read(Reading { log: None, ..reading })
        });
        entries.into_iter().map(|entry| Deed::Write(Writing::of(entry))).chain(read).collect()
    };
    good.into_iter().chain(widened).chain(long).map(written).collect()
}

/// Each part of the planned runs, with how it is brought: by every route, or by those that take words; and whether it comes a
/// second time, with another number that says yes, and empty buffers as NULL.
type Part = (fn() -> Vec<Vec<Deed>>, &'static [Route], bool);

const PARTS: [Part; 7] = [
    (trips, &[Raw, Header, ByBoard, Safe], false),
    (|| vec![sampled()], &[Raw, Header, ByBoard, Safe], false),
    (|| vec![states()], &[Raw, Header], true),
    (|| vec![writings()], &[Raw, Header, ByBoard, Safe], true),
    (|| vec![pieces()], &[Raw, Header, ByBoard, Safe], true),
    (|| vec![numbers()], &[Raw, Header, ByBoard, Safe], false),
    (|| vec![long()], &[Raw, Header, ByBoard, Safe], false),
];

/// Gives how many logs were read, and entries written. One in seven of them stands at fences.
pub fn planned(rng: &mut Rng, plant: Option<Plant>, coverage: &mut Coverage) -> Result<usize, Failure> {
    let mut count = 0;
    for (part, routes, twice) in PARTS {
        for deeds in part() {
            let ways = [(1, false), (2, true)].into_iter().take(1 + usize::from(twice));
            for (&route, (yes, null)) in routes.iter().flat_map(|route| ways.clone().map(move |way| (route, way))) {
                stepped(board(rng), deeds.len(), plant, coverage, |index, _| {
                    let mut deed = deeds[index].clone();
                    if index % 7 == 0 {
                        fence(&mut deed);
                    }
                    Step { deed, manner: Manner { route, yes, null } }
                })?;
                count += deeds.len();
            }
        }
    }
    Ok(count)
}

fn fence(deed: &mut Deed) {
    match deed {
        Deed::Read(reading) if reading.pieces.iter().all(|piece| piece.bytes > 1) => {
            reading.offsets = [FENCED_BEHIND; 3];
        }
        Deed::Write(writing) => writing.offsets = [FENCED_BEHIND; 2],
        _ => {}
    }
}
