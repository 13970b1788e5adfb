//! CR 8's marks: each of them on every kind of access, by what stood at the line's place before it; 0 for all else.
mod common;
use common::*;
use model::*;

const PAGE: u64 = 0x20_0000;
const NAME: u64 = 0x2000_0000;
const PREFIX1_NAME: u64 = 0x1000_0200;

/// Loads and stores of every kind that goes through the cache, each done on `ready()`, with the name and the physical line of
/// their line. Its place is 0.
fn cached_accesses() -> Vec<(Call, u64, u64)> {
    let mut all = Vec::new();
    for (store, width) in [false, true].into_iter().flat_map(|store| [1, 2, 4].map(|width| (store, width))) {
        let supervisor = |global| Call::SupervisorAccess { store, width, global, value: 7 };
        all.push((Call::UserAccess { process: 0, store, width, address: 0, value: 7 }, NAME, 256));
        all.push((supervisor(0x2_0000_0000), NAME, 256));
        all.push((supervisor(0x1_0000_2000), PREFIX1_NAME, 512));
    }
    all
}

/// What may stand at place 0 before an access to a line of this name and physical line, and the mark then. `ready()` has two
/// places and 1024 physical lines.
fn at_the_place(name: u64, line: u64) -> Vec<(Record, u32)> {
    let other = name + 2;
    let invalid = |record| Record { valid: false, ..record };
    vec![
        (Record::decode(0, 0), REFILLED),
        // The line itself is held: changed or not, and whatever physical line it has.
        (rec(name, line, false, true), HIT),
        (rec(name, line, true, true), HIT),
        (rec(name, 700, true, true), HIT),
        // Another line is held and not changed.
        (rec(other, 300, false, true), REFILLED),
        (rec(other, line, false, false), REFILLED),
        // Another is held and changed: of any name, with or without permission; of the very physical line that is filled.
        (rec(other, 300, true, true), WROTE_BACK),
        (rec(other, 300, true, false), WROTE_BACK),
        (rec(other, line, true, true), WROTE_BACK),
        (rec(0, 300, true, true), WROTE_BACK),
        (rec(0xFF_C000_0000, 300, true, true), WROTE_BACK),
        (rec(name + (1 << 40), 300, true, true), WROTE_BACK),
        (rec(u64::MAX - 1, 1023, true, true), WROTE_BACK),
        // A changed record that holds nothing: not valid, not at its place, of a line beyond memory; the line's own name too.
        (invalid(rec(other, 300, true, true)), REFILLED),
        (invalid(rec(name, line, true, true)), REFILLED),
        (rec(other + 1, 300, true, true), REFILLED),
        (rec(u64::MAX, 300, true, true), REFILLED),
        (rec(other, 1024, true, true), REFILLED),
        (rec(other, (1 << 61) - 1, true, true), REFILLED),
        (rec(name, 1024, true, true), REFILLED),
    ]
}

/// `board` with this record at place 0, and other bytes there than memory has.
fn with_record(mut board: Board, record: Record) -> Board {
    put(&mut board, 0, record);
    paint(&mut board, 0, 0xEE);
    board
}

#[test]
fn by_what_stands_at_the_place() {
    for (call, name, line) in cached_accesses() {
        for (record, mark) in at_the_place(name, line) {
            let mut b = with_record(ready(), record);
            let mut memory = b.memory.clone();
            let answer = b.step(&call).0;
            assert_eq!((answer.number, answer.mark), (0, mark), "{call:?} after {record:?}");
            // A write-back, and nothing else, is seen in memory; the line is filled after it.
            if mark == WROTE_BACK {
                memory[record.line as usize * 16..][..16].fill(0xEE);
            }
            assert_eq!(b.memory, memory, "{call:?} after {record:?}");
            if let (Some((false, width, _)), WROTE_BACK, true) = (access_of(&call), mark, record.line == line) {
                assert_eq!(answer.value, 0xEEEE_EEEE >> (32 - 8 * width), "{call:?} after {record:?}");
            }
            // Now the line is held.
            assert_eq!(b.step(&call).0.mark, HIT, "{call:?} after {record:?}");
        }
    }
}

/// A write-back counts even if it changes no byte: bytes don't decide the mark.
#[test]
fn equal_bytes() {
    let mut write_backs = 0;
    for (call, name, line) in cached_accesses() {
        for (record, mark) in at_the_place(name, line).into_iter().filter(|(record, _)| record.line < 1024) {
            let mut b = with_record(ready(), record);
            let at = record.line as usize * 16;
            b.cache[..16].copy_from_slice(&b.memory[at..at + 16]);
            let memory = b.memory.clone();
            assert_eq!(b.step(&call).0.mark, mark, "{call:?} after {record:?}");
            assert_eq!(b.memory, memory, "{call:?} after {record:?}");
            write_backs += u32::from(mark == WROTE_BACK);
        }
    }
    assert!(write_backs > 0);
    // By calls alone: a store of what is there, and the next line at that place.
    let mut b = ready();
    assert_eq!(b.user_access(0, true, 4, 0, 0), done(0, REFILLED));
    let memory = b.memory.clone();
    assert_eq!(b.user_access(0, false, 4, 32, 0), done(0, WROTE_BACK));
    assert_eq!(b.memory, memory);
    assert_eq!(b.user_access(0, false, 4, 0, 0), done(0, REFILLED));
}

/// Prefix 0: 4 whatever the records are, also where one has that very name and physical line; and they stay.
#[test]
fn uncached() {
    for (record, _) in at_the_place(0, 0) {
        for pending in [false, true] {
            let mut b = with_record(ready(), record);
            b.tag = (pending, NAME);
            let (records, cache) = (b.records.clone(), b.cache.clone());
            assert_eq!(b.supervisor_access(false, 4, 4, 0), done(0x0405_0607, UNCACHED), "{record:?}");
            assert_eq!(b.supervisor_access(true, 2, 4, 0x0809), done(0, UNCACHED), "{record:?}");
            assert_eq!(b.supervisor_access(false, 1, 5, 0), done(9, UNCACHED), "{record:?}");
            assert_eq!((b.records, b.cache), (records, cache), "{record:?}");
        }
    }
}

/// Refused accesses, by each number that an access may get: 0, also where the line is held or another would be written back.
#[test]
fn refused() {
    let user = |store, width, address| Call::UserAccess { process: 0, store, width, address, value: 7 };
    let supervisor = |global| Call::SupervisorAccess { store: true, width: 2, global, value: 7 };
    type Edit = fn(&mut Board);
    let as_it_is: Edit = |_| {};
    let pending: Edit = |b| b.tag = (true, NAME);
    let unmapped: Edit = |b| b.words[1] = 0;
    let read_only: Edit = |b| {
        b.words[1] = frame_word(PAGE, false);
        b.records[1] &= !2;
    };
    let rows: Vec<(u32, Call, Edit)> = vec![
        (1, user(false, 1, 0), |b| b.cache.push(0)),
        (1, supervisor(0x1_0000_2000), |b| b.cache.push(0)),
        (1, supervisor(0), |b| b.cache.push(0)),
        (2, Call::UserAccess { process: 2, store: false, width: 1, address: 0, value: 0 }, as_it_is),
        (2, Call::UserAccess { process: 0, store: true, width: 1, address: 0, value: 256 }, as_it_is),
        (2, supervisor(1 << 44), as_it_is),
        (2, Call::SupervisorAccess { store: true, width: 2, global: 0, value: 65_536 }, as_it_is),
        (3, user(false, 1, 0), pending),
        (3, supervisor(0x2_0000_0000), pending),
        (4, user(true, 3, 0), as_it_is),
        (4, user(false, 4, 2), as_it_is),
        (4, supervisor(0x2_0000_0001), as_it_is),
        (4, supervisor(0x1_0000_2001), as_it_is),
        (4, supervisor(1), as_it_is),
        (5, user(false, 1, 1 << 31), as_it_is),
        (6, user(false, 1, 1 << 22), as_it_is),
        (7, user(true, 1, 0), |b| b.slots[0] = slot_word(2048, false)),
        (8, user(false, 1, 0), unmapped),
        (8, supervisor(0x2_0000_0000), unmapped),
        (9, user(true, 1, 0), read_only),
        (10, supervisor(0x1_0000_2000), |b| b.words[2] = 4),
        (12, supervisor(0x1_0000_0000), as_it_is),
        (12, supervisor(0x1_0000_4000), as_it_is),
        (12, supervisor(0x1000), as_it_is),
        (12, supervisor(0xFFC_0000_0000), as_it_is),
    ];
    for (number, call, edit) in rows {
        let name = if number == 10 { PREFIX1_NAME } else { NAME };
        for (record, mark) in at_the_place(name, 256) {
            if number == 8 && mark == HIT {
                continue;
            }
            let mut b = with_record(ready(), record);
            edit(&mut b);
            let before = b.clone();
            assert_eq!(b.step(&call), (no(number), Event::Refused(number)), "{call:?} after {record:?}");
            assert_eq!(b, before, "{call:?} after {record:?}");
        }
    }
}

/// The calls that are no accesses: 0, whatever they find held, refill, write back or drop; done, and refused by 1.
#[test]
fn no_access() {
    for call in every_call().into_iter().filter(|call| access_of(call).is_none()) {
        for (record, _) in at_the_place(NAME, 256) {
            let mut b = with_record(ready_for(&call), record);
            put(&mut b, 1, rec(NAME + 1, 257, true, true));
            let mut refused = Board { shape: Shape { lines: 4, ..b.shape }, ..b.clone() };
            assert_eq!(b.step(&call).0, DONE, "{call:?} after {record:?}");
            assert_eq!(refused.step(&call).0, no(1), "{call:?} after {record:?}");
        }
    }
    // Load-and-map by what it does: held already; inserted; inserted with a write-back.
    for (record, mark) in at_the_place(NAME, 256) {
        let mut b = with_record(ready(), record);
        b.tag(NAME);
        let event = match mark {
            HIT => Event::FoundHeld,
            _ => Event::Inserted { wrote_back: mark == WROTE_BACK },
        };
        assert_eq!(b.step(&Call::LoadAndMap { line: 256 }), (DONE, event), "after {record:?}");
    }
}

/// After a move the page's line is filled anew, whatever was held of it, and nothing of the page is left to be written back: the
/// move has done that. A line of another name is there still, and written back by the access.
#[test]
fn after_a_move() {
    for (record, mark) in at_the_place(NAME, 256) {
        let mut b = with_record(ready(), record);
        assert_eq!(b.move_page(PAGE, PAGE + 1), DONE, "after {record:?}");
        let of_the_page = record.name / 256 == PAGE;
        let global = (PAGE + 1) * 4096;
        let answer = b.supervisor_access(false, 1, global, 0);
        assert_eq!((answer.number, answer.mark), (0, if of_the_page { REFILLED } else { mark }), "after {record:?}");
        // Its byte is the frame's: what the move or the access wrote there, or map's zeros.
        let written = mark != REFILLED && record.changed && record.line == 256;
        assert_eq!(answer.value, if written { 0xEE } else { 0 }, "after {record:?}");
        assert_eq!(b.supervisor_access(false, 1, global, 0).mark, HIT, "after {record:?}");
    }
}

/// The numbers as the request writes them.
#[test]
fn numbers() {
    assert_eq!([NO_ACCESS, HIT, REFILLED, WROTE_BACK, UNCACHED], [0, 1, 2, 3, 4]);
}
