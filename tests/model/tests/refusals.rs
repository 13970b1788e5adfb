//! The refusal table, row by row for each call, and "the lowest that applies" over every subset of
//! the rows a call can meet.
mod common;
use common::*;
use model::*;

/// A row: its number, and what makes it apply to this board and call.
type Row = (u32, fn(&mut Board, &mut Call));

/// Each single row gives its number; each set of rows gives the lowest; nothing changes; and
/// without any row the call is done. Rows stand by rising number and are applied by falling number,
/// so that a lower one may overwrite what a higher one did. Beside each set, a store whose value
/// does not fit its width (CR 2) is refused by 2, or by 1. In both editions.
fn check(start: &Board, call: Call, rows: &[Row]) {
    let starts = in_both(start);
    for (start, set) in starts.iter().flat_map(|start| (0u32..1 << rows.len()).map(move |set| (start, set))) {
        let (mut board, mut now) = (start.clone(), call);
        let mut want = 0;
        for (i, (number, apply)) in rows.iter().enumerate().rev() {
            if set >> i & 1 == 1 {
                apply(&mut board, &mut now);
                want = *number;
            }
        }
        let before = board.clone();
        let mut plain = Plain::of(&board);
        if matches!(access_of(&now), Some((true, ..))) {
            for (width, value) in [(1, 256), (1, u32::MAX), (2, 65_536), (2, u32::MAX)] {
                let large = access_with(&now, (true, width, value));
                let number = if want == 1 { 1 } else { 2 };
                assert_eq!(board.step(&large), (no(number), Event::Refused(number)), "{large:?} set {set:b}");
                assert_eq!(plain.step(&large), PlainAnswer { number, value: 0 }, "plain {large:?}");
            }
            assert_eq!((&board, &plain), (&before, &Plain::of(&before)), "{now:?}");
        }
        let (answer, event) = board.step(&now);
        assert_eq!(answer.number, want, "{now:?} set {set:b}");
        // The starts hold no lines, so a cached access that is done refills, with nothing to write back.
        let mark = match now {
            _ if want != 0 => NO_ACCESS,
            Call::SupervisorAccess { global: 0..=0xFFFF_FFFF, .. } => UNCACHED,
            Call::UserAccess { .. } | Call::SupervisorAccess { .. } => REFILLED,
            _ => NO_ACCESS,
        };
        assert_eq!(answer.mark, mark, "{now:?} set {set:b}");
        if want != 0 {
            assert_eq!((answer, event), (no(want), Event::Refused(want)), "{now:?}");
            assert_eq!(board, before, "{now:?}");
        }
        // For the same reason the plain machine has the same number.
        let plain_before = plain.clone();
        assert_eq!(plain.step(&now), PlainAnswer { number: want, value: answer.value }, "plain {now:?}");
        if want != 0 {
            assert_eq!(plain, plain_before);
        }
    }
}

/// Gives a field of the call, of one of these kinds, a value.
macro_rules! with {
    ($($call:ident)|+, $field:ident = $value:expr) => {
        |_, call| match call {
            $(Call::$call { $field, .. })|+ => *$field = $value,
            _ => unreachable!(),
        }
    };
}

const ONE: Row = (1, |b, _| b.cache.push(0));
const PENDING: Row = (3, |b, _| b.tag = (true, 0x2000_0000));
const NOT_PENDING: Row = (3, |b, _| b.tag.0 = false);
const UNMAPPED: Row = (8, |b, _| b.words[1] = 0);

/// No multiple of 2, nor of 4.
fn crooked(_: &mut Board, c: &mut Call) {
    match c {
        Call::UserAccess { address, .. } => *address |= 1,
        Call::SupervisorAccess { global, .. } => *global |= 1,
        _ => unreachable!(),
    }
}
/// "For a bad width this isn't asked and 4 stands": whatever the value.
const WIDTH: Row = (4, |_, call| *call = access_with(call, (access_of(call).unwrap().0, 3, u32::MAX)));
/// The largest that a store of width 2 takes; for a load, whose value isn't asked, the largest there is.
fn value(store: bool) -> u32 {
    if store {
        0xFFFF
    } else {
        u32::MAX
    }
}
const PROCESS: Row = (2, with!(UserAccess | Attach | Detach, process = 2));
const PROCESS_HUGE: Row = (2, with!(UserAccess | Attach | Detach, process = u64::MAX));
const SLOT: Row = (2, with!(Attach | Detach, slot = 512));
const SLOT_HUGE: Row = (2, with!(Attach | Detach, slot = u64::MAX));
const GLOBAL_HIGH: Row = (2, |_, call| match call {
    Call::SupervisorAccess { global, .. } => *global |= 1 << 44,
    _ => unreachable!(),
});
const GLOBAL_HUGE: Row = (2, with!(SupervisorAccess, global = u64::MAX));
const PAGES: [Row; 4] = [
    (2, with!(Map | Unmap | Protect | Move, page = 0x1F_FFFF)),
    (2, with!(Map | Unmap | Protect | Move, page = 0xFFC0_0000)),
    (2, with!(Map | Unmap | Protect | Move, page = 0x1_0020_0000)),
    (2, with!(Map | Unmap | Protect | Move, page = u64::MAX)),
];
const NEW_PAGES: [Row; 4] = [
    (2, with!(Move, new_page = 0x1F_FFFF)),
    (2, with!(Move, new_page = 0xFFC0_0000)),
    (2, with!(Move, new_page = 0x1_0020_0001)),
    (2, with!(Move, new_page = u64::MAX)),
];
/// Page 0x200000 is not mapped, whatever words there are.
const NOT_MAPPED: [Row; 3] = [
    UNMAPPED,
    (8, |b, _| b.words[1] = 0x20_0000 * 4 + 2),
    // Only below U.
    (8, |b, _| {
        b.words[1] = 0;
        b.words[0] = 0x20_0000 * 4 + 3
    }),
];

#[test]
fn user_access() {
    for store in [false, true] {
        let call = Call::UserAccess { process: 0, store, width: 2, address: 0, value: value(store) };
        let mut rows: Vec<Row> = vec![
            ONE,
            PROCESS,
            PROCESS_HUGE,
            PENDING,
            WIDTH,
            (4, crooked),
            (5, |_, c| {
                if let Call::UserAccess { address, .. } = c {
                    *address |= 1 << 31
                }
            }),
            (6, |b, _| b.slots[0] = 0),
            (6, |b, _| b.slots[0] = 2047 * 2 + 1),
            (6, |b, _| b.slots[0] = u32::MAX),
        ];
        if store {
            rows.push((7, |b, _| b.slots[0] = 2048 * 2));
        }
        rows.push(UNMAPPED);
        if store {
            rows.push((9, |b, _| b.words[1] = 0x20_0000 * 4 + 1));
        }
        check(&ready(), call, &rows);
    }
    // A load asks neither write bit.
    let mut b = ready();
    b.slots[0] = 2048 * 2;
    b.words[1] = 0x20_0000 * 4 + 1;
    assert_eq!(b.user_access(0, false, 4, 0, 0), done(0, REFILLED));
}

#[test]
fn supervisor_ordinary() {
    for store in [false, true] {
        let call = Call::SupervisorAccess { store, width: 2, global: 0x2_0000_0000, value: value(store) };
        check(&ready(), call, &[ONE, GLOBAL_HIGH, GLOBAL_HUGE, PENDING, WIDTH, (4, crooked), UNMAPPED]);
        // The write bit is not asked.
        let mut b = ready();
        b.words[1] = 0x20_0000 * 4 + 1;
        assert_eq!(b.step(&call).0, done(0, REFILLED));
    }
}

#[test]
fn supervisor_prefix_1() {
    for store in [false, true] {
        // Frame 2 is free. With a tag pending too: prefix 1 doesn't ask for it.
        for pending in [false, true] {
            let mut b = ready();
            b.tag = (pending, 0x2000_0000);
            let call = Call::SupervisorAccess { store, width: 2, global: 0x1_0000_2000, value: value(store) };
            check(
                &b,
                call,
                &[
                    ONE,
                    GLOBAL_HIGH,
                    WIDTH,
                    (4, crooked),
                    // Whatever frame below F the address has, its word is not 0.
                    (10, |b, c| {
                        if let Call::SupervisorAccess { global, .. } = c {
                            if *global / 4096 % 1024 >= 4 {
                                *global = 0x1_0000_2000;
                            }
                        }
                        b.words.fill(2)
                    }),
                    (12, with!(SupervisorAccess, global = 0x1_0000_0000)),
                    (12, with!(SupervisorAccess, global = 0x1_0000_4000)),
                    (12, with!(SupervisorAccess, global = 0x1_FFFF_FFF0)),
                ],
            );
        }
    }
    let mut b = ready();
    // A mapped frame: 10.
    assert_eq!(b.supervisor_access(false, 1, 0x1_0000_1000, 0), no(10));
    // Below U with a word: 10, without: 12. Beyond memory: 12 whatever the words are.
    assert_eq!(b.supervisor_access(false, 1, 0x1_0000_0FFF, 0), no(12));
    b.words.fill(8);
    assert_eq!(b.supervisor_access(false, 1, 0x1_0000_0FFF, 0), no(10));
    assert_eq!(b.supervisor_access(false, 1, 0x1_0000_4000, 0), no(12));
    // A held prefix 1 line whose frame's word is not 0: 10.
    let mut b = ready();
    assert_eq!(b.supervisor_access(false, 1, 0x1_0000_2000, 0), done(u32::from(b.memory[8192]), REFILLED));
    b.words[2] = 4;
    assert_eq!(b.supervisor_access(false, 1, 0x1_0000_2000, 0), no(10));
}

#[test]
fn supervisor_prefix_0() {
    for store in [false, true] {
        for pending in [false, true] {
            let mut b = ready();
            b.tag = (pending, 0x2000_0000);
            // The word of an uncached frame isn't asked.
            b.words[0] = 5;
            let call = Call::SupervisorAccess { store, width: 2, global: 0xFFC, value: value(store) };
            check(
                &b,
                call,
                &[
                    ONE,
                    GLOBAL_HIGH,
                    WIDTH,
                    (4, crooked),
                    (12, with!(SupervisorAccess, global = 0x1000)),
                    (12, with!(SupervisorAccess, global = 0x4000)),
                    (12, with!(SupervisorAccess, global = 0xFFFF_FFFC)),
                ],
            );
        }
    }
}

#[test]
fn supervisor_page_table() {
    for pending in [false, true] {
        for global in [0xFFC_0000_0000, 0xFFF_FFFF_FFFC, 0xFFC_1234_5004] {
            let mut b = ready();
            b.tag = (pending, 0x2000_0000);
            let before = b.clone();
            assert_eq!(b.supervisor_access(false, 4, global, 0), no(12));
            assert_eq!(b.supervisor_access(true, 4, global, 1), no(12));
            assert_eq!(b.supervisor_access(true, 4, global + 1, 1), no(4));
            assert_eq!(b.supervisor_access(true, 3, global, 1), no(4));
            assert_eq!(b.supervisor_access(true, 3, global + (1 << 44), 1), no(2));
            // A value that does not fit comes before 4 and 12, but for a load or a bad width.
            assert_eq!(b.supervisor_access(true, 1, global, 256), no(2));
            assert_eq!(b.supervisor_access(true, 2, global + 1, 65_536), no(2));
            assert_eq!(b.supervisor_access(true, 3, global, u32::MAX), no(4));
            assert_eq!(b.supervisor_access(false, 1, global, u32::MAX), no(12));
            assert_eq!(b, before);
        }
    }
}

#[test]
fn attach() {
    let rows: [Row; 8] = [
        ONE,
        PROCESS,
        PROCESS_HUGE,
        SLOT,
        SLOT_HUGE,
        (2, with!(Attach, segment = 2047)),
        (2, with!(Attach, segment = 4_190_208)),
        (2, with!(Attach, segment = u64::MAX)),
    ];
    for write in [false, true] {
        let call = Call::Attach { process: 1, slot: 511, segment: 4_190_207, write };
        check(&ready(), call, &rows);
        let mut b = ready();
        b.tag = (true, 0x2000_0000);
        check(&b, call, &rows);
    }
}

#[test]
fn detach() {
    let rows: [Row; 5] = [ONE, PROCESS, PROCESS_HUGE, SLOT, SLOT_HUGE];
    for (process, slot) in [(0, 0), (1, 511)] {
        check(&ready(), Call::Detach { process, slot }, &rows);
    }
}

#[test]
fn map() {
    let mut rows: Vec<Row> = vec![ONE];
    rows.extend(PAGES);
    rows.extend::<[Row; 3]>([
        (2, with!(Map, frame = 0)),
        (2, with!(Map, frame = 4)),
        (2, with!(Map, frame = u64::MAX)),
    ]);
    rows.extend::<[Row; 4]>([
        (10, |b, _| b.words[2] = 0x20_0001 * 4 + 3),
        (10, |b, _| b.words[2] = 2),
        (11, |b, _| b.words[3] = 0x20_0001 * 4 + 1),
        (11, |b, _| b.words[3] = 0x20_0001 * 4 + 3),
    ]);
    for write in [false, true] {
        for pending in [false, true] {
            let mut b = ready();
            b.tag = (pending, 0x2000_0000);
            check(&b, Call::Map { page: 0x20_0001, frame: 2, write }, &rows);
        }
    }
}

#[test]
fn unmap_and_protect() {
    let mut rows: Vec<Row> = vec![ONE];
    rows.extend(PAGES);
    rows.extend(NOT_MAPPED);
    for pending in [false, true] {
        let mut b = ready();
        b.tag = (pending, 0x2000_0000);
        check(&b, Call::Unmap { page: 0x20_0000 }, &rows);
        check(&b, Call::Protect { page: 0x20_0000, write: false }, &rows);
        check(&b, Call::Protect { page: 0x20_0000, write: true }, &rows);
    }
}

/// CR 9: "Refused with 2, 8 (old not mapped), 11 (new mapped, also if both are equal)". Decided: a pending tag is ignored. Both
/// pages equal and not mapped is one of the sets: 8.
#[test]
fn move_page() {
    let mut rows: Vec<Row> = vec![ONE];
    rows.extend(PAGES);
    rows.extend(NEW_PAGES);
    rows.extend(NOT_MAPPED);
    rows.extend::<[Row; 3]>([
        (11, |b, _| b.words[3] = 0x20_0001 * 4 + 1),
        (11, |b, _| b.words[3] = 0x20_0001 * 4 + 3),
        (11, with!(Move, new_page = 0x20_0000)),
    ]);
    for pending in [false, true] {
        let mut b = ready();
        b.tag = (pending, 0x2000_0000);
        check(&b, Call::Move { page: 0x20_0000, new_page: 0x20_0001 }, &rows);
    }
}

/// Either page at both ends of its range: done, and one further is refused.
#[test]
fn move_at_the_ends() {
    let (first, last) = (0x20_0000, 0xFFBF_FFFF);
    let mut b = ready();
    assert_eq!(b.move_page(first, last + 1), no(2));
    assert_eq!(b.move_page(first, last), DONE);
    assert_eq!(b.words, [0, last * 4 + 3, 0, 0]);
    assert_eq!(b.move_page(last, first - 1), no(2));
    assert_eq!(b.move_page(last, first), DONE);
    assert_eq!(b.words, [0, first * 4 + 3, 0, 0]);
}

#[test]
fn flush_all() {
    check(&ready(), Call::FlushAll, &[ONE]);
}

#[test]
fn tag() {
    let rows: [Row; 5] = [
        ONE,
        (2, |_, c| {
            if let Call::Tag { name } = c {
                *name = 0x1FFF_FFFF
            }
        }),
        (2, |_, c| {
            if let Call::Tag { name } = c {
                *name = 0xFF_C000_0000
            }
        }),
        (2, |_, c| {
            if let Call::Tag { name } = c {
                *name = u64::MAX
            }
        }),
        PENDING,
    ];
    for name in [0x2000_0000, 0xFF_BFFF_FFFF, 0xF_FBFF_FFFF, 0x10_0000_0000] {
        check(&ready(), Call::Tag { name }, &rows);
    }
}

#[test]
fn load_and_map() {
    let mut b = ready();
    b.tag(0x2000_0005);
    check(
        &b,
        Call::LoadAndMap { line: 256 + 5 },
        &[
            ONE,
            (2, |_, c| *c = Call::LoadAndMap { line: 1024 }),
            (2, |_, c| *c = Call::LoadAndMap { line: u64::MAX }),
            NOT_PENDING,
            UNMAPPED,
            (13, |_, c| *c = Call::LoadAndMap { line: 5 }),
            (13, |_, c| *c = Call::LoadAndMap { line: 256 + 4 }),
            (13, |_, c| *c = Call::LoadAndMap { line: 1023 }),
        ],
    );
}

#[test]
fn drop_tag() {
    let mut b = ready();
    b.tag(0x2000_0005);
    check(&b, Call::DropTag, &[ONE, NOT_PENDING]);
    assert_eq!(b.drop_tag(), DONE);
    assert_eq!(b.tag, (false, 0));
}

#[test]
fn look() {
    let b = ready();
    assert_eq!(b.look(0).0, 0);
    assert_eq!(b.look(1023), (0, b.memory[1023 * 16..].to_vec()));
    for line in [1024, 1 << 60, u64::MAX] {
        assert_eq!(b.look(line), (2, vec![]));
        assert_eq!(Plain::of(&b).look(line), (2, vec![]));
    }
    let mut bad = b.clone();
    bad.slots.pop();
    for line in [0, 1024, u64::MAX] {
        assert_eq!(bad.look(line), (1, vec![]));
        assert_eq!(Plain::of(&bad).look(line), (1, vec![]));
    }
}

/// Number 1: every length one off and every limit broken, for every call.
#[test]
fn number_1_for_every_call() {
    let breaks: Vec<fn(&mut Board)> = vec![
        |b| b.slots.push(0),
        |b| assert!(b.slots.pop().is_some()),
        |b| b.slots.clear(),
        |b| b.words.push(0),
        |b| assert!(b.words.pop().is_some()),
        |b| b.words.clear(),
        |b| b.records.push(0),
        |b| assert!(b.records.pop().is_some()),
        |b| b.records.truncate(2),
        |b| b.records.clear(),
        |b| b.cache.push(0),
        |b| assert!(b.cache.pop().is_some()),
        |b| b.cache.clear(),
        |b| b.memory.push(0),
        |b| assert!(b.memory.pop().is_some()),
        |b| b.memory.clear(),
        |b| b.shape.frames = 0,
        |b| b.shape.frames = 3,
        |b| b.shape.frames = 5,
        |b| b.shape.frames = u64::MAX,
        |b| b.shape.frames = 1 << 52,
        |b| b.shape.uncached = 5,
        |b| b.shape.uncached = u64::MAX,
        |b| b.shape.processes = 0,
        |b| b.shape.processes = 1,
        |b| b.shape.processes = 3,
        |b| b.shape.processes = u64::MAX,
        |b| b.shape.processes = 1 << 55,
        |b| b.shape.lines = 0,
        |b| b.shape.lines = 1,
        |b| b.shape.lines = 3,
        |b| b.shape.lines = 4,
        |b| b.shape.lines = u64::MAX,
        |b| b.shape.lines = 1 << 63,
        // Lengths that agree, numbers out of limits.
        |b| *b = Board::fresh(shape(0, 0, 2, 2)),
        |b| *b = Board::fresh(shape(4, 5, 2, 2)),
        |b| *b = Board::fresh(shape(4, 1, 0, 2)),
        |b| *b = Board::fresh(shape(4, 1, PROCESSES_MAX + 1, 2)),
        |b| *b = Board::fresh(shape(4, 1, 2, 0)),
        |b| *b = Board::fresh(shape(4, 1, 2, 3)),
        |b| *b = Board::fresh(shape(4, 1, 2, 2 * LINES_MAX)),
    ];
    for call in every_call() {
        let mut fine = ready_for(&call);
        assert_eq!(fine.step(&call).0.number, 0, "{call:?}");
        for (i, apply) in breaks.iter().enumerate() {
            let mut b = ready_for(&call);
            apply(&mut b);
            let before = b.clone();
            assert_eq!(b.step(&call), (no(1), Event::Refused(1)), "{call:?} break {i}");
            assert_eq!(b, before);
            assert_eq!(b.look(0), (1, vec![]));
            let mut plain = Plain::of(&b);
            assert_eq!(plain.step(&call), PlainAnswer { number: 1, value: 0 });
            assert_eq!(plain, Plain::of(&before));
        }
    }
}

/// U = F: every frame uncached. U = 0: none.
#[test]
fn uncached_ends() {
    let mut b = Board::fresh(shape(2, 2, 1, 1));
    assert_eq!(b.map(0x20_0000, 1, true), no(2));
    assert_eq!(b.map(0x20_0000, 2, true), no(2));
    assert_eq!(b.supervisor_access(true, 4, 0x1FFC, 1), done(0, UNCACHED));
    assert_eq!(b.supervisor_access(true, 4, 0x2000, 1), no(12));
    assert_eq!(b.supervisor_access(true, 4, 0x1_0000_0000, 1), no(12));
    let mut b = Board::fresh(shape(2, 0, 1, 1));
    assert_eq!(b.map(0x20_0000, 0, true), DONE);
    assert_eq!(b.supervisor_access(true, 4, 0, 1), no(12));
    assert_eq!(b.supervisor_access(true, 4, 0x1_0000_1000, 1), done(0, REFILLED));
}
