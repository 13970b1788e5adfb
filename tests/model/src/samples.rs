//! The sample logs of `examples/logs`, good ones and bad ones: each with what `replay` has to write, by the model.

use crate::log::{number, replay, write, write_header, PROGRAM};
use crate::{Call, Shape};

pub struct Sample {
    pub name: &'static str,
    /// What it shows.
    pub words: &'static str,
    pub log: Vec<u8>,
}

impl Sample {
    /// The files of this sample, by their endings.
    pub fn files(&self) -> [(&'static str, Vec<u8>); 3] {
        let replayed = replay(&self.log, Some(PROGRAM));
        [("log", self.log.clone()), ("out", replayed.rows().into_bytes()), ("err", replayed.complaint().into_bytes())]
    }
}

/// The session's board, which most samples have.
const SHAPE: Shape = Shape { frames: 4, uncached: 1, processes: 2, lines: 2 };

const PAGE: u64 = 0x20_0000;
const SEGMENT: u64 = 2048;
const NAME: u64 = PAGE * 256;

/// Global addresses: the page's first byte, and where prefix 1 and the page table region begin.
const ORDINARY: u64 = PAGE * 4096;
const PREFIX1: u64 = 1 << 32;
const PAGE_TABLE: u64 = 1023 << 34;

fn load(process: u64, width: u32, address: u32) -> Call {
    Call::UserAccess { process, store: false, width, address, value: 0 }
}

fn store(process: u64, width: u32, address: u32, value: u32) -> Call {
    Call::UserAccess { process, store: true, width, address, value }
}

fn supervisor_load(width: u32, global: u64) -> Call {
    Call::SupervisorAccess { store: false, width, global, value: 0 }
}

fn supervisor_store(width: u32, global: u64, value: u32) -> Call {
    Call::SupervisorAccess { store: true, width, global, value }
}

fn map(page: u64, frame: u64, write: bool) -> Call {
    Call::Map { page, frame, write }
}

fn attach(process: u64, slot: u64, segment: u64, write: bool) -> Call {
    Call::Attach { process, slot, segment, write }
}

fn move_page(page: u64, new_page: u64) -> Call {
    Call::Move { page, new_page }
}

fn good(shape: &Shape, calls: &[Call]) -> Vec<u8> {
    write(shape, calls).expect("calls that can be written")
}

/// 01's session. Its last store's value is free; here it is 77.
pub fn session() -> (Shape, Vec<Call>) {
    let calls = vec![
        map(PAGE, 1, true),
        attach(0, 0, SEGMENT, true),
        store(0, 4, 0, 50),
        load(0, 1, 3),
        load(0, 1, 32),
        load(0, 1, 3),
        load(1, 1, 3),
        Call::Unmap { page: PAGE },
        load(0, 1, 3),
        map(PAGE, 1, false),
        load(0, 1, 3),
        store(0, 1, 3, 77),
    ];
    (SHAPE, calls)
}

/// A page handed over (CR 9): the importer, process 0, stores; its page is moved into the recorder's segment; the recorder reads.
pub fn handed_over() -> (Shape, Vec<Call>) {
    let new_page = (SEGMENT + 1) * 1024;
    let calls = vec![
        map(PAGE, 1, true),
        attach(0, 0, SEGMENT, true),
        attach(1, 0, SEGMENT + 1, false),
        store(0, 4, 0, 50),
        store(0, 4, 16, 60),
        load(1, 4, 0),
        move_page(PAGE, new_page),
        load(1, 4, 0),
        load(1, 4, 16),
        load(0, 4, 0),
        supervisor_store(4, new_page * 4096, 70),
        map(PAGE, 2, true),
        load(0, 4, 0),
        load(1, 4, 0),
    ];
    (SHAPE, calls)
}

/// Every kind, done and refused, by every number but 1, which comes from the board alone.
fn all_kinds() -> Vec<Call> {
    let tag = Call::Tag { name: NAME };
    let line = Call::LoadAndMap { line: 256 };
    vec![
        load(0, 4, 0),                        // 6
        attach(0, 0, SEGMENT, true),          // 0
        attach(1, 511, SEGMENT, false),       // 0
        attach(2, 0, SEGMENT, true),          // 2: process
        attach(0, 512, SEGMENT, true),        // 2: slot
        attach(0, 0, 2047, true),             // 2: segment
        load(0, 4, 0),                        // 8
        map(PAGE, 1, true),                   // 0
        map(PAGE, 1, true),                   // 10
        map(PAGE, 2, true),                   // 11
        map(PAGE - 1, 2, true),               // 2: page
        map(PAGE + 1, 0, true),               // 2: frame
        store(0, 4, 0, 0x0102_0304),          // 0, refilled
        load(0, 2, 2),                        // 0, hit: 772
        load(1, 1, 511 << 22),                // 0, hit: 1
        store(1, 1, 511 << 22, 1),            // 7
        store(0, 1, 0, 256),                  // 2: value
        load(0, 3, 0),                        // 4: width
        load(0, 4, 2),                        // 4: address
        load(0, 1, 1 << 31),                  // 5
        load(2, 1, 0),                        // 2: process
        load(0, 1, 32),                       // 0, refilled, with a write-back
        supervisor_load(4, ORDINARY),         // 0, refilled: 16909060
        supervisor_store(1, ORDINARY + 3, 5), // 0, hit
        supervisor_store(4, 16, u32::MAX),    // 0, uncached
        supervisor_load(2, 18),               // 0, uncached: 65535
        supervisor_load(1, PREFIX1 + 8192),   // 0, refilled, with a write-back
        supervisor_load(1, PREFIX1 + 4096),   // 10
        supervisor_load(1, PREFIX1),          // 12: prefix 1 below U
        supervisor_load(1, 4096),             // 12: prefix 0 from U up
        supervisor_load(1, PAGE_TABLE),       // 12
        supervisor_load(1, 1 << 44),          // 2
        supervisor_load(1, ORDINARY + 4096),  // 8
        Call::Protect { page: PAGE, write: false },
        store(0, 1, 0, 1),                              // 9
        Call::Protect { page: PAGE + 1, write: false }, // 8
        Call::Protect { page: 0, write: true },         // 2
        line,                                           // 3
        Call::DropTag,                                  // 3
        tag,                                            // 0
        tag,                                            // 3
        load(0, 1, 0),                                  // 3
        Call::LoadAndMap { line: 1024 },                // 2
        Call::LoadAndMap { line: 257 },                 // 13
        line,                                           // 0
        load(0, 1, 0),                                  // 0, hit: 1
        tag,                                            // 0
        Call::DropTag,                                  // 0
        Call::Tag { name: NAME - 1 },                   // 2
        Call::FlushAll,                                 // 0
        load(0, 1, 3),                                  // 0, refilled: 5
        move_page(PAGE, PAGE),                          // 11: both are equal
        move_page(PAGE + 1, PAGE + 1),                  // 8: likewise, and not mapped
        move_page(PAGE + 1, PAGE),                      // 8, and 11
        move_page(PAGE - 1, PAGE + 1),                  // 2: page
        move_page(PAGE, 1 << 32),                       // 2: new page
        map(PAGE + 2, 3, true),                         // 0
        move_page(PAGE, PAGE + 2),                      // 11
        supervisor_store(1, ORDINARY + 16, 6),          // 0, refilled
        move_page(PAGE, PAGE + 1),                      // 0
        load(0, 1, 3),                                  // 8
        load(0, 1, 4096 + 3),                           // 0, refilled: 5
        load(0, 1, 4096 + 16),                          // 0, refilled: 6
        store(0, 1, 4096, 1),                           // 9: still read-only
        move_page(PAGE + 1, PAGE),                      // 0
        load(0, 1, 16),                                 // 0, refilled: 6
        Call::Unmap { page: PAGE },                     // 0
        Call::Unmap { page: PAGE },                     // 8
        Call::Unmap { page: 1 << 32 },                  // 2
        Call::Detach { process: 0, slot: 0 },           // 0
        Call::Detach { process: 0, slot: 1 << 40 },     // 2
        load(0, 1, 0),                                  // 6
    ]
}

/// Calls at the ends of the largest board that the program takes.
fn largest() -> Vec<Call> {
    vec![
        map(0xFFBF_FFFF, 7, true),
        attach(15, 511, 4_190_207, true),
        store(15, 4, (1 << 31) - 4, u32::MAX),
        load(15, 1, (1 << 31) - 1),
        load(16, 1, (1 << 31) - 1),
        map(PAGE, 8, true),
        supervisor_store(2, PREFIX1 + 4096 + 1022, 65_535),
        supervisor_load(2, PREFIX1 + 4096 + 1022),
        Call::FlushAll,
        supervisor_load(4, 0xFFB_FFFF_FFFC),
    ]
}

/// A page of each number of bytes in a log, from one to ten, at both ends of what so many hold; the one mapped is among them.
fn lengths() -> Vec<Call> {
    let pages = (1..=10).flat_map(|bytes: u32| {
        let first = if bytes == 1 { 0 } else { 1 << (7 * (bytes - 1)) };
        let last = if bytes == 10 { u64::MAX } else { (1 << (7 * bytes)) - 1 };
        [first, last]
    });
    [map(1 << 28, 1, true)].into_iter().chain(pages.map(|page| Call::Unmap { page })).collect()
}

/// Fields just below what is too large: the calls can be written, and most are refused when they are made.
fn limits() -> Vec<Call> {
    let (short, long) = (u32::MAX, u64::MAX);
    vec![
        store(long, short, short, short),
        load(long, short, short),
        supervisor_store(short, long, short),
        supervisor_load(short, long),
        attach(long, long, long, true),
        Call::Detach { process: long, slot: long },
        map(long, long, true),
        Call::Unmap { page: long },
        Call::Protect { page: long, write: true },
        Call::FlushAll,
        Call::Tag { name: long },
        Call::LoadAndMap { line: long },
        Call::DropTag,
        move_page(long, long),
    ]
}

/// Calls of a board whose header's numbers are out of their limits.
fn answered_by_1() -> Vec<Call> {
    vec![map(PAGE, 1, true), load(0, 4, 0), Call::FlushAll, Call::DropTag, move_page(PAGE, PAGE + 1)]
}

/// A log whose board and first two calls are good; then these bytes.
fn then(bytes: &[&[u8]]) -> Vec<u8> {
    let mut log = good(&SHAPE, &[map(PAGE, 1, true), attach(0, 0, SEGMENT, true)]);
    bytes.iter().for_each(|part| log.extend_from_slice(part));
    log
}

/// An entry by its numbers, whatever they are.
fn entry(numbers: &[u64]) -> Vec<u8> {
    numbers.iter().flat_map(|&field| number(field)).collect()
}

/// Without its last byte.
fn cut(mut log: Vec<u8>) -> Vec<u8> {
    log.pop();
    log
}

/// All of them: the good ones first.
pub fn all() -> Vec<Sample> {
    let (shape, calls) = session();
    let (handed_shape, handed_calls) = handed_over();
    let with = |frames, uncached, processes, lines| Shape { frames, uncached, processes, lines };
    let nine = [0xFF; 9];
    let unmapped_after = entry(&[6, PAGE]);
    let of = |name, words, log| Sample { name, words, log };
    vec![
        of("session", "the session of 01", good(&shape, &calls)),
        of("handed-over", "a page moved from one process's segment into another's", good(&handed_shape, &handed_calls)),
        of("all-kinds", "every kind of call, and every number but 1", good(&SHAPE, &all_kinds())),
        of("header-only", "a board and no calls", write_header(&SHAPE)),
        of("largest", "the largest board that the program takes", good(&with(8, 1, 16, 64), &largest())),
        of("lengths", "numbers of one byte to ten", good(&SHAPE, &lengths())),
        of("limits", "every field as large as it may be", good(&SHAPE, &limits())),
        of("bad-lines", "L is 3: every call is answered by 1", good(&with(4, 1, 2, 3), &answered_by_1())),
        of("bad-uncached", "U is above F: likewise", good(&with(4, u64::MAX, 2, 2), &answered_by_1())),
        of("bad-zeros", "F, U, P and L are 0: likewise", good(&with(0, 0, 0, 0), &answered_by_1())),
        of("empty", "no byte at all", vec![]),
        of("cut-header", "ends before L", cut(write_header(&SHAPE))),
        of("cut-header-number", "ends inside P", vec![4, 1, 0x82]),
        of("cut-entry", "ends behind a field, the next one missing", then(&[&entry(&[1, 0, 0, 4])])),
        of("cut-kind", "ends behind a kind", then(&[&[6]])),
        of("cut-number", "ends inside a field", cut(then(&[&entry(&[6, PAGE])]))),
        of("cut-move", "ends behind a move's page, the new page missing", then(&[&entry(&[12, PAGE])])),
        of("cut-nine", "ends behind nine groups of a field", then(&[&[6], &nine])),
        of("padded", "a group of 0 behind a field's last one", then(&[&[6, 0x80, 0x80, 0x80, 0x81, 0]])),
        of("padded-zero", "0 in two groups", then(&[&[4, 0x80, 0, 0]])),
        of("padded-move", "a move's new page, padded", then(&[&entry(&[12, PAGE]), &[0x80, 0x80, 0x80, 0x81, 0]])),
        of("padded-kind", "a kind in two groups", then(&[&[0x88, 0], &unmapped_after])),
        of("padded-header", "U in two groups", vec![4, 0x81, 0, 2, 2]),
        of("padded-tenth", "a tenth byte of 0", then(&[&[6], &nine, &[0], &unmapped_after])),
        of("tenth-byte", "a tenth byte of 2", then(&[&[6], &nine, &[2], &unmapped_after])),
        of("tenth-byte-end", "a tenth byte with more to come, at the log's end", then(&[&[6], &nine, &[0x81]])),
        of("tenth-byte-kind", "a kind with a tenth byte of 127", then(&[&nine, &[0x7F]])),
        of("tenth-byte-header", "F with a tenth byte of 2", [&nine[..], &[2, 1, 2, 2]].concat()),
        of("kind-0", "an entry of kind 0", then(&[&entry(&[0, 4, 1, 2, 2])])),
        of("kind-13", "an entry of kind 13", then(&[&entry(&[13, PAGE, PAGE + 1])])),
        of("kind-far", "a kind that is 6, cut to 32 bits", then(&[&entry(&[(1 << 32) + 6, PAGE])])),
        of("flag-2", "map with a write bit of 2", then(&[&entry(&[5, PAGE + 1, 2, 2])])),
        of("load-or-store-2", "an access that is neither", then(&[&entry(&[1, 0, 2, 4, 0, 0])])),
        of("load-value", "a user's load with the value 1", then(&[&entry(&[1, 0, 0, 4, 0, 1])])),
        of("load-value-supervisor", "a supervisor's load with the value 1", then(&[&entry(&[2, 0, 4, ORDINARY, 1])])),
        of("width-33-bits", "a width of 2^32 + 4", then(&[&entry(&[1, 0, 1, (1 << 32) + 4, 0, 1])])),
        of("address-33-bits", "an effective address of 2^32", then(&[&entry(&[1, 0, 0, 4, 1 << 32, 0])])),
        of("value-33-bits", "a store's value of 2^32", then(&[&entry(&[2, 1, 4, ORDINARY, 1 << 32])])),
        of(
            "large-frames",
            "F is 9, and later a number is padded",
            [&write_header(&with(9, 1, 2, 2))[..], &entry(&[8]), &[0x88, 0]].concat(),
        ),
        of("large-lines", "L is 128", good(&with(4, 1, 2, 128), &calls)),
        of("large-processes", "P is 17, and the log is cut", [&write_header(&with(4, 1, 17, 2))[..], &[6]].concat()),
        of("large-cut", "F is 9, and L is missing", cut(write_header(&with(9, 1, 2, 2)))),
        of("large-everywhere", "F, U, P and L are 2^64 - 1", good(&with(u64::MAX, u64::MAX, u64::MAX, u64::MAX), &[])),
    ]
}
