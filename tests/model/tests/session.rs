//! 01's session, with the marks that CR 8 gives it, and the shortcuts that 01 names; pages handed over (CR 9).
mod common;
use common::*;
use model::*;
use std::fmt::Write;

const TABLE: &str = "call answer value hit
1 0 0 0
2 0 0 0
3 0 0 2
4 0 50 1
5 0 0 3
6 0 50 2
7 6 0 0
8 0 0 0
9 8 0 0
10 0 0 0
11 0 0 2
12 9 0 0
";

fn calls() -> Vec<Call> {
    let load = |process, address| Call::UserAccess { process, store: false, width: 1, address, value: 0 };
    vec![
        Call::Map { page: 0x20_0000, frame: 1, write: true },
        Call::Attach { process: 0, slot: 0, segment: 2048, write: true },
        Call::UserAccess { process: 0, store: true, width: 4, address: 0, value: 50 },
        load(0, 3),
        load(0, 32),
        load(0, 3),
        load(1, 3),
        Call::Unmap { page: 0x20_0000 },
        load(0, 3),
        Call::Map { page: 0x20_0000, frame: 1, write: false },
        load(0, 3),
        Call::UserAccess { process: 0, store: true, width: 1, address: 3, value: 77 },
    ]
}

#[test]
fn session_table_exact() {
    for byte in [0u8, 0xA5, 0xFF] {
        let mut board = Board::fresh(shape(4, 1, 2, 2));
        board.memory.fill(byte);
        let mut text = String::from("call answer value hit\n");
        for (i, call) in calls().iter().enumerate() {
            let (a, _) = board.step(call);
            writeln!(text, "{} {} {} {}", i + 1, a.number, a.value, a.mark).unwrap();
        }
        assert_eq!(text, TABLE);
    }
}

#[test]
fn session_on_the_plain_machine() {
    let mut board = Board::fresh(shape(4, 1, 2, 2));
    let mut plain = Plain::of(&board);
    for call in calls() {
        let (a, _) = board.step(&call);
        assert_eq!(plain.step(&call), PlainAnswer { number: a.number, value: a.value });
    }
}

#[test]
fn session_events() {
    let mut board = Board::fresh(shape(4, 1, 2, 2));
    let events: Vec<Event> = calls().iter().map(|call| board.step(call).1).collect();
    assert_eq!(
        events,
        vec![
            Event::Mapped { by_page: 0, by_prefix1: 0 },
            Event::Done,
            Event::Miss,
            Event::Hit,
            Event::MissWriteBack,
            Event::Miss,
            Event::Refused(6),
            Event::Unmapped { written: 0, dropped: 1 },
            Event::Refused(8),
            Event::Mapped { by_page: 0, by_prefix1: 0 },
            Event::Miss,
            Event::Refused(9),
        ]
    );
}

/// The board after the session, byte for byte (memory was 0xA5 at first).
#[test]
fn session_final_state() {
    let mut board = Board::fresh(shape(4, 1, 2, 2));
    board.memory.fill(0xA5);
    for call in calls() {
        board.step(&call);
    }
    assert_eq!(board.words, vec![0, 0x20_0000 * 4 + 1, 0, 0]);
    assert_eq!(board.slots[0], 2048 * 2 + 1);
    assert!(board.slots[1..].iter().all(|&w| w == 0));
    assert_eq!(board.records, vec![0x2000_0000, 256 * 8 + 1, 0, 0]);
    assert!(board.cache.iter().all(|&b| b == 0));
    for (i, &byte) in board.memory.iter().enumerate() {
        assert_eq!(byte, if i / 4096 == 1 { 0 } else { 0xA5 }, "byte {i}");
    }
    assert_eq!(board.tag, (false, 0));
}

/// After unmap "the frame's bytes stay until the next map": here 50, in memory, by write-back.
#[test]
fn unmap_writes_back_and_bytes_stay() {
    let mut b = ready();
    assert_eq!(b.user_access(0, true, 4, 0, 50), done(0, REFILLED));
    assert_eq!(b.memory[4096..4112], [0; 16]);
    assert_eq!(b.step(&Call::Unmap { page: 0x20_0000 }).1, Event::Unmapped { written: 1, dropped: 1 });
    assert_eq!(b.memory[4096..4100], [0, 0, 0, 50]);
    assert_eq!(b.records, vec![0; 4]);
    // The sixteen bytes stay in the cache.
    assert_eq!(b.cache[..4], [0, 0, 0, 50]);
    assert_eq!(b.supervisor_access(false, 4, 0x1_0000_1000, 0), done(50, REFILLED));
    assert_eq!(b.map(0x20_0000, 1, true), DONE);
    assert_eq!(b.user_access(0, false, 4, 0, 0), done(0, REFILLED));
}

/// "Map without dropping the prefix 1 lines: a later write-back puts old bytes over a user page."
#[test]
fn map_drops_prefix1_lines() {
    let mut b = ready();
    assert_eq!(b.supervisor_access(true, 4, 0x1_0000_2000, 0x0102_0304), done(0, REFILLED));
    let (a, e) = b.step(&Call::Map { page: 0x30_0000, frame: 2, write: true });
    assert_eq!((a, e), (DONE, Event::Mapped { by_page: 0, by_prefix1: 1 }));
    b.flush_all();
    assert_eq!(b.look(512), (0, vec![0; 16]));
    assert!(b.memory[8192..12288].iter().all(|&x| x == 0));
}

/// "Refill over a changed line that is held already."
#[test]
fn load_and_map_keeps_a_changed_line() {
    let mut b = ready();
    b.user_access(0, true, 4, 0, 50);
    assert_eq!(b.tag(0x2000_0000), DONE);
    let before = b.clone();
    assert_eq!(b.step(&Call::LoadAndMap { line: 256 }), (DONE, Event::FoundHeld));
    assert_eq!(b, Board { tag: (false, 0), ..before });
    assert_eq!(b.user_access(0, false, 1, 3, 0), done(50, HIT));
}

#[test]
fn load_and_map_inserts_with_write_back_and_permission() {
    for write in [false, true] {
        let mut b = ready();
        // Line 2 of the page has the same place 0 as line 0; make it held and changed.
        b.user_access(0, true, 4, 32, 0xAABB_CCDD);
        b.memory[4096..4112].fill(6);
        b.protect(0x20_0000, write);
        b.tag(0x2000_0000);
        let (a, e) = b.step(&Call::LoadAndMap { line: 256 });
        assert_eq!((a, e), (DONE, Event::Inserted { wrote_back: true }));
        assert_eq!(b.memory[4128..4132], [0xAA, 0xBB, 0xCC, 0xDD]);
        assert_eq!(b.record(0), rec(0x2000_0000, 256, false, write));
        assert_eq!(b.user_access(0, false, 1, 3, 0), done(6, HIT));
    }
}

/// "Comparing only part of a name, so two segments with equal low bits match."
#[test]
fn names_are_compared_whole() {
    let mut b = ready();
    assert_eq!(b.attach(0, 1, 2049, true), DONE);
    assert_eq!(b.attach(0, 2, 2048 + 0x20_0000, true), DONE);
    b.user_access(0, true, 1, 0, 50);
    assert_eq!(b.user_access(0, false, 1, 1 << 22, 0), no(8));
    assert_eq!(b.user_access(0, false, 1, 2 << 22, 0), no(8));
    assert_eq!(b.user_access(0, false, 1, 0, 0), done(50, HIT));
}

/// "Protect that changes the frame word and forgets the lines."
#[test]
fn protect_changes_word_and_lines() {
    let mut b = ready();
    b.user_access(0, true, 1, 0, 50);
    assert_eq!(b.step(&Call::Protect { page: 0x20_0000, write: false }), (DONE, Event::Protected { lines: 1 }));
    assert_eq!(b.words[1], 0x20_0000 * 4 + 1);
    assert_eq!(b.record(0), rec(0x2000_0000, 256, true, false));
    assert_eq!(b.user_access(0, true, 1, 0, 51), no(9));
    assert_eq!(b.user_access(0, false, 1, 0, 0), done(50, HIT));
    // "ordinary (page write bit not asked)"
    assert_eq!(b.supervisor_access(true, 1, 0x2_0000_0000, 52), done(0, HIT));
    assert_eq!(b.record(0), rec(0x2000_0000, 256, true, false));
    assert_eq!(b.protect(0x20_0000, true), DONE);
    assert_eq!(b.user_access(0, true, 1, 0, 53), done(0, HIT));
}

/// Most significant byte first; a store writes as many bytes as its width.
#[test]
fn byte_order() {
    let mut b = ready();
    b.user_access(0, true, 4, 4, 0x0102_0304);
    for (i, want) in [1, 2, 3, 4].into_iter().enumerate() {
        assert_eq!(b.user_access(0, false, 1, 4 + i as u32, 0).value, want);
    }
    assert_eq!(b.user_access(0, false, 2, 4, 0).value, 0x0102);
    assert_eq!(b.user_access(0, false, 2, 6, 0).value, 0x0304);
    b.user_access(0, true, 1, 5, 0xAA);
    b.user_access(0, true, 2, 6, 0x1122);
    assert_eq!(b.user_access(0, false, 4, 4, 0).value, 0x01AA_1122);
    // Prefix 0 goes to memory and leaves the cache alone.
    let (records, cache) = (b.records.clone(), b.cache.clone());
    assert_eq!(
        b.step(&Call::SupervisorAccess { store: true, width: 4, global: 16, value: 0xDEAD_BEEF }),
        (done(0, UNCACHED), Event::Uncached)
    );
    assert_eq!(b.memory[16..20], [0xDE, 0xAD, 0xBE, 0xEF]);
    assert_eq!(b.supervisor_access(false, 2, 18, 0), done(0xBEEF, UNCACHED));
    assert_eq!((b.records, b.cache), (records, cache));
}

/// "A segment may sit in several slots and several processes"; attach "replaces what was there".
#[test]
fn shared_segments() {
    let mut b = ready();
    assert_eq!(b.attach(0, 511, 2048, false), DONE);
    assert_eq!(b.attach(1, 7, 2048, true), DONE);
    b.user_access(0, true, 4, 0, 9);
    assert_eq!(b.user_access(0, false, 4, 511 << 22, 0), done(9, HIT));
    assert_eq!(b.user_access(1, false, 4, 7 << 22, 0), done(9, HIT));
    assert_eq!(b.user_access(0, true, 4, 511 << 22, 0), no(7));
    assert_eq!(b.attach(1, 7, 2050, true), DONE);
    assert_eq!(b.user_access(1, false, 4, 7 << 22, 0), no(8));
    assert_eq!(b.detach(1, 7), DONE);
    assert_eq!(b.detach(1, 7), DONE);
    assert_eq!(b.user_access(1, false, 4, 7 << 22, 0), no(6));
}

#[test]
fn flush_all_writes_back_and_drops() {
    let mut b = ready();
    b.user_access(0, true, 4, 0, 1);
    b.user_access(0, false, 4, 16, 0);
    b.tag(0x2000_0000);
    assert_eq!(b.step(&Call::FlushAll), (DONE, Event::Flushed { written: 1, dropped: 2 }));
    assert_eq!(b.records, vec![0; 4]);
    assert_eq!(b.memory[4096..4100], [0, 0, 0, 1]);
    assert_eq!(b.tag, (true, 0x2000_0000));
}

/// "Prefix 1 misses fill under the prefix 1 name with write permission."
#[test]
fn prefix_1_record() {
    let mut b = ready();
    let before = b.memory.clone();
    assert_eq!(
        b.step(&Call::SupervisorAccess { store: false, width: 1, global: 0x1_0000_2035, value: 0 }),
        (done(u32::from(before[0x2035]), REFILLED), Event::Miss)
    );
    assert_eq!(b.record(1), rec(0x1000_0203, 0x203, false, true));
    assert_eq!(b.supervisor_access(true, 1, 0x1_0000_2035, 1), done(0, HIT));
    assert_eq!(b.record(1), rec(0x1000_0203, 0x203, true, true));
    // The store stays in the cache; look shows it.
    assert_eq!(b.memory, before);
    assert_eq!(b.look(0x203).1[5], 1);
}

// ----- pages handed over -----

/// The page of `ready()`, in segment 2048, which process 0 has in slot 0; and the first page of segment 2049.
const OLD: u64 = 0x20_0000;
const NEW: u64 = 0x20_0400;
const HAND_OVER: Call = Call::Move { page: OLD, new_page: NEW };

/// A move that finds so many lines of the old page, none of the new one.
fn moved(old_written: u64, old_dropped: u64) -> Event {
    Event::Moved { old_written, old_dropped, new_written: 0, new_dropped: 0 }
}

/// `ready()`, and process 1 has segment 2049 in slot 0.
fn importer_and_recorder() -> Board {
    let mut b = ready();
    assert_eq!(b.attach(1, 0, 2049, true), DONE);
    b
}

/// "The recorder should get the importer's page without a copy."
#[test]
fn the_recorder_gets_the_page() {
    let mut b = importer_and_recorder();
    assert_eq!(b.user_access(0, true, 4, 0, 50), done(0, REFILLED));
    assert_eq!(b.user_access(0, true, 4, 16, 51), done(0, REFILLED));
    // The third line pushes the first out: now one changed line is in memory, and two are in the cache.
    assert_eq!(b.user_access(0, true, 4, 32, 52), done(0, WROTE_BACK));
    assert_eq!(b.user_access(1, false, 4, 0, 0), no(8));
    let cache = b.cache.clone();
    assert_eq!(b.step(&HAND_OVER), (DONE, moved(2, 2)));
    // Both lines are in memory, where the page's frame is, and in no record; their bytes stay in the cache.
    assert_eq!(b.memory[4096 + 16..4096 + 20], [0, 0, 0, 51]);
    assert_eq!(b.memory[4096 + 32..4096 + 36], [0, 0, 0, 52]);
    assert_eq!((&b.records, &b.cache), (&vec![0; 4], &cache));
    // The recorder reads all of it by its own name; nothing is held, so each is filled.
    for (address, value) in [(0, 50), (16, 51), (32, 52), (48, 0)] {
        assert_eq!(b.user_access(1, false, 4, address, 0), done(value, REFILLED), "{address}");
    }
    assert_eq!(b.record(0), rec(NEW * 256 + 2, 256 + 2, false, true));
    // The importer has it no more.
    assert_eq!(b.user_access(0, false, 4, 0, 0), no(8));
    assert_eq!(b.user_access(0, true, 4, 16, 0), no(8));
}

/// "writes back and drops the old page's lines": with changed lines and others, or none. Lines of other pages stay.
#[test]
fn move_takes_the_lines_of_its_page() {
    // Line 1 has place 1; lines 0 and 2 have place 0.
    let rows: [(&[(bool, u32)], Event); 5] = [
        (&[], moved(0, 0)),
        (&[(false, 0)], moved(0, 1)),
        (&[(true, 0)], moved(1, 1)),
        (&[(true, 0), (false, 16)], moved(1, 2)),
        (&[(true, 0), (false, 32)], moved(0, 1)),
    ];
    for (accesses, event) in rows {
        let mut b = importer_and_recorder();
        for &(store, address) in accesses {
            assert_eq!(b.user_access(0, store, 1, address, 0).number, 0);
        }
        assert_eq!(b.step(&HAND_OVER), (DONE, event), "{accesses:?}");
        assert_eq!(b.records, [0; 4], "{accesses:?}");
    }
    // A third page's line at place 1, changed: it isn't written back, and stays.
    let mut b = importer_and_recorder();
    assert_eq!(b.map(0x20_0001, 2, true), DONE);
    assert_eq!(b.user_access(0, true, 1, 0, 50), done(0, REFILLED));
    assert_eq!(b.user_access(0, true, 1, 4096 + 16, 60), done(0, REFILLED));
    assert_eq!(b.step(&HAND_OVER), (DONE, moved(1, 1)));
    assert_eq!(b.record(1), rec(0x2000_0101, 512 + 1, true, true));
    assert_eq!(b.memory[8192 + 16], 0);
    assert_eq!(b.user_access(0, false, 1, 4096 + 16, 0), done(60, HIT));
}

/// "Bytes are kept, unlike map": every byte of the frame, and of the others.
#[test]
fn move_keeps_the_bytes() {
    let mut b = ready();
    for line in 0..256 {
        assert_eq!(b.user_access(0, true, 4, 16 * line, 1000 + line).number, 0);
    }
    let lines: Vec<_> = (0..1024).map(|line| b.look(line)).collect();
    assert_eq!(b.move_page(OLD, NEW), DONE);
    assert_eq!((0..1024).map(|line| b.look(line)).collect::<Vec<_>>(), lines);
    for line in 0..256 {
        assert_eq!(b.supervisor_access(false, 4, NEW * 4096 + 16 * line, 0), done(1000 + line as u32, REFILLED));
    }
    // Map takes the old page again, in another frame, with zeros; the moved one's bytes stay.
    assert_eq!(b.map(OLD, 1, true), no(10));
    assert_eq!(b.map(OLD, 2, true), DONE);
    assert_eq!(b.user_access(0, false, 4, 16, 0), done(0, REFILLED));
    assert_eq!(b.supervisor_access(false, 4, NEW * 4096, 0), done(1000, REFILLED));
}

/// "then the frame's word gets the new page with the same write bit".
#[test]
fn move_keeps_the_write_bit() {
    for write in [false, true] {
        let mut b = importer_and_recorder();
        assert_eq!(b.protect(OLD, write), DONE);
        assert_eq!(b.move_page(OLD, NEW), DONE);
        assert_eq!(b.words, [0, NEW * 4 + if write { 3 } else { 1 }, 0, 0]);
        assert_eq!(b.user_access(1, true, 1, 0, 9), if write { done(0, REFILLED) } else { no(9) });
        assert_eq!(b.user_access(1, false, 1, 0, 0).number, 0);
        assert_eq!(b.record(0), rec(NEW * 256, 256, write, write));
        // Protect goes by the new page from now on.
        assert_eq!(b.protect(OLD, !write), no(8));
        assert_eq!(b.protect(NEW, !write), DONE);
        assert_eq!(b.user_access(1, true, 1, 0, 9), if write { no(9) } else { done(0, HIT) });
    }
}

/// The old page is not mapped afterwards, and the new one is: for every call that asks.
#[test]
fn after_a_move() {
    let mut b = ready();
    assert_eq!(b.user_access(0, true, 1, 3, 50), done(0, REFILLED));
    assert_eq!(b.move_page(OLD, NEW), DONE);
    for call in [Call::Unmap { page: OLD }, Call::Protect { page: OLD, write: true }, HAND_OVER] {
        assert_eq!(b.step(&call).0, no(8), "{call:?}");
    }
    assert_eq!(b.supervisor_access(false, 1, OLD * 4096, 0), no(8));
    assert_eq!(b.map(NEW, 2, true), no(11));
    // The frame is not free.
    assert_eq!(b.supervisor_access(false, 1, 0x1_0000_1003, 0), no(10));
    // Unmap of the new page frees it; its bytes are there.
    assert_eq!(b.unmap(NEW), DONE);
    assert_eq!(b.words, [0; 4]);
    assert_eq!(b.supervisor_access(false, 1, 0x1_0000_1003, 0), done(50, REFILLED));
}

/// There and back: everything is as it was, but for lines that are no more held. On, too, to a third page.
#[test]
fn moved_twice() {
    let start = ready();
    let mut b = start.clone();
    assert_eq!(b.move_page(OLD, NEW), DONE);
    assert_eq!(b.move_page(OLD, NEW), no(8));
    assert_eq!(b.move_page(NEW, NEW), no(11));
    assert_eq!(b.move_page(NEW, OLD), DONE);
    assert_eq!(b, start);
    assert_eq!(b.user_access(0, true, 1, 3, 50), done(0, REFILLED));
    assert_eq!(b.step(&HAND_OVER), (DONE, moved(1, 1)));
    assert_eq!(b.step(&Call::Move { page: NEW, new_page: 0x20_0001 }), (DONE, moved(0, 0)));
    assert_eq!(b.words, [0, 0x20_0001 * 4 + 3, 0, 0]);
    assert_eq!(b.user_access(0, false, 1, 4096 + 3, 0), done(50, REFILLED));
}

/// Slots aren't asked, nor changed: the supervisor's calls on pages ask none.
#[test]
fn move_without_segments() {
    let mut b = ready();
    assert_eq!(b.detach(0, 0), DONE);
    let slots = b.slots.clone();
    assert_eq!(b.move_page(OLD, 0xFFBF_FFFF), DONE);
    assert_eq!(b.slots, slots);
    // Attached read-only, later, the page is there.
    assert_eq!(b.attach(1, 9, 4_190_207, false), DONE);
    assert_eq!(b.user_access(1, false, 1, (10 << 22) - 1, 0), done(0, REFILLED));
    assert_eq!(b.user_access(1, true, 1, (10 << 22) - 1, 0), no(7));
}

/// Decided: a pending tag is ignored and stays, of either page. The old page's is then of a page that isn't mapped; the new
/// page's of one that is.
#[test]
fn move_with_a_tag_pending() {
    for name in [OLD * 256 + 7, NEW * 256 + 7, 0x3000_0000] {
        let mut b = importer_and_recorder();
        assert_eq!(b.tag(name), DONE);
        assert_eq!(b.move_page(OLD, NEW), DONE);
        assert_eq!(b.tag, (true, name));
        assert_eq!(b.user_access(1, false, 1, 0, 0), no(3));
        if name / 256 == NEW {
            assert_eq!(b.load_and_map(256 + 7), DONE);
            assert_eq!(b.record(1), rec(name, 256 + 7, false, true));
        } else {
            assert_eq!(b.load_and_map(256 + 7), no(8));
        }
    }
}
