//! CR 4: sets of four. The matrix, uses and no uses, the victim, places, number 1; and that what is pushed out of a full set is
//! the line whose last use is oldest.
mod common;
use common::*;
use model::*;

/// Pages of one segment, in frames 1 to 5, writable but for the last; frame 6 is free. Process 0 has the segment in slot 0, and
/// read-only in slot 1. Two sets.
const PAGE: u64 = 0x20_0000;
const PAGES: u64 = 5;
const READ_ONLY: u64 = PAGES - 1;
const FREE_FRAME: u64 = 6;

fn board(edition: Edition, lines: u64) -> Board {
    let mut b = Board::fresh_of(edition, shape(7, 1, 1, lines));
    for (index, byte) in b.memory.iter_mut().enumerate() {
        *byte = (index % 251) as u8;
    }
    for page in 0..PAGES {
        assert_eq!(b.map(PAGE + page, 1 + page, page != READ_ONLY), DONE);
    }
    assert_eq!(b.attach(0, 0, 2048, true), DONE);
    assert_eq!(b.attach(0, 1, 2048, false), DONE);
    b
}

fn sets() -> Board {
    board(Edition::Fours, 8)
}

/// The first line of a page has place 0; the second has place 1.
fn name(page: u64, index: u64) -> u64 {
    (PAGE + page) * 256 + index
}

/// Loads a byte of a line by process 0. Gives the mark.
fn load(b: &mut Board, page: u64, index: u64) -> u32 {
    let answer = b.user_access(0, false, 1, (page * 4096 + index * 16) as u32, 0);
    assert_eq!(answer.number, 0);
    answer.mark
}

fn store(b: &mut Board, page: u64, index: u64, value: u32) -> u32 {
    let answer = b.user_access(0, true, 1, (page * 4096 + index * 16) as u32, value);
    assert_eq!(answer.number, 0);
    answer.mark
}

/// A full set at place 0: pages 0 to 3 in lines 0 to 3, used in this order.
fn full() -> Board {
    let mut b = sets();
    for page in 0..4 {
        assert_eq!(load(&mut b, page, 0), REFILLED);
        assert_eq!(b.holder(name(page, 0)), Some(page));
    }
    b
}

/// Some matrix that no use leaves: its diagonal isn't 0.
const WILD: Matrix = [[7, 1, 0, 2], [0, 255, 9, 0], [1, 0, 128, 0], [3, 0, 0, 64]];

// ----- the matrix -----

/// Row, then column: whatever was there, the row has ones but for the diagonal, the column zeros, and the rest stays.
#[test]
fn a_use() {
    let mut r = Rng(0x5EED_5EED_5EED_5EED);
    let random = (0..2_000).map(|_| r.matrix());
    for before in [FRESH_MATRIX, WILD, [[1; 4]; 4], [[255; 4]; 4]].into_iter().chain(random) {
        for line in 0..4 {
            let after = used(&before, line);
            for (row, column) in (0..4).flat_map(|row| (0..4).map(move |column| (row, column))) {
                let expected = match (row == line, column == line) {
                    (_, true) => 0,
                    (true, false) => 1,
                    (false, false) => before[row][column],
                };
                assert_eq!(after[row][column], expected, "line {line} of {before:?}");
            }
            // Once more is no change.
            assert_eq!(used(&after, line), after);
        }
    }
}

/// As the request has it: row by row, used one after another.
#[test]
fn uses_in_order() {
    let mut matrix = FRESH_MATRIX;
    let expected = [
        (0, [[0, 1, 1, 1], [0, 0, 0, 0], [0, 0, 0, 0], [0, 0, 0, 0]]),
        (1, [[0, 0, 1, 1], [1, 0, 1, 1], [0, 0, 0, 0], [0, 0, 0, 0]]),
        (2, [[0, 0, 0, 1], [1, 0, 0, 1], [1, 1, 0, 1], [0, 0, 0, 0]]),
        (3, [[0, 0, 0, 0], [1, 0, 0, 0], [1, 1, 0, 0], [1, 1, 1, 0]]),
        (0, [[0, 1, 1, 1], [0, 0, 0, 0], [0, 1, 0, 0], [0, 1, 1, 0]]),
    ];
    let mut b = sets();
    for (line, after) in expected {
        matrix = used(&matrix, line);
        assert_eq!(matrix, after, "line {line}");
        load(&mut b, line as u64, 0);
        assert_eq!(b.uses, [after, FRESH_MATRIX], "line {line}");
    }
}

#[test]
fn ones_of_a_row() {
    assert_eq!(ones(&[0, 0, 0, 0]), 0);
    assert_eq!(ones(&[1, 0, 1, 0]), 2);
    assert_eq!(ones(&[255, 2, 0, 128]), 3);
    assert_eq!(WILD.map(|row| ones(&row)), [3, 2, 2, 2]);
}

// ----- uses -----

/// Each access that is done by the cache is a use of its line, and a load-and-map that inserts: nothing else of the matrices
/// changes, whatever they hold.
#[test]
fn what_is_a_use() {
    let user = |store| Call::UserAccess { process: 0, store, width: 2, address: 3 * 4096, value: 7 };
    let ordinary = |store| Call::SupervisorAccess { store, width: 2, global: (PAGE + 3) * 4096, value: 7 };
    let prefix1 = |store| Call::SupervisorAccess { store, width: 2, global: (1 << 32) + FREE_FRAME * 4096, value: 7 };
    for call in [false, true].into_iter().flat_map(|store| [user(store), ordinary(store), prefix1(store)]) {
        for uses in [[FRESH_MATRIX; 2], [WILD; 2]] {
            // Filled into the first line, found there, found in the last one, and there pushing out another.
            let mut b = Board { uses: uses.to_vec(), ..sets() };
            assert_eq!(b.step(&call).1, Event::Miss, "{call:?}");
            assert_eq!(b.uses, [used(&uses[0], 0), uses[1]], "{call:?}");
            b.uses = uses.to_vec();
            assert_eq!(b.step(&call).1, Event::Hit, "{call:?}");
            assert_eq!(b.uses, [used(&uses[0], 0), uses[1]], "{call:?}");

            let other = |at: u64| rec(name(0, 0) + 0x1000 * at, 300, false, true);
            let mut b = Board { uses: uses.to_vec(), ..sets() };
            (0..3).for_each(|at| put(&mut b, at, other(at)));
            assert_eq!(b.step(&call).1, Event::Miss, "{call:?}");
            assert_eq!(b.uses, [used(&uses[0], 3), uses[1]], "{call:?}");
            b.uses = uses.to_vec();
            assert_eq!(b.step(&call).1, Event::Hit, "{call:?}");
            assert_eq!(b.uses, [used(&uses[0], 3), uses[1]], "{call:?}");
        }
    }
    // Load-and-map, into the second set.
    for uses in [[FRESH_MATRIX; 2], [WILD; 2]] {
        let mut b = Board { uses: uses.to_vec(), tag: (true, name(2, 1)), ..sets() };
        put(&mut b, 4, rec(name(3, 1), 300, true, true));
        assert_eq!(b.step(&Call::LoadAndMap { line: 3 * 256 + 1 }).1, Event::Inserted { wrote_back: false });
        assert_eq!(b.uses, [uses[0], used(&uses[1], 1)]);
        assert_eq!(b.held(5), Some(rec(name(2, 1), 3 * 256 + 1, false, true)));
    }
}

/// Calls that are done, some of them about lines that are held, and are no use: the matrices stay, wild ones too.
#[test]
fn what_is_no_use() {
    let uncached = |store| Call::SupervisorAccess { store, width: 4, global: 16, value: 7 };
    let map = Call::Map { page: PAGE + 8, frame: FREE_FRAME, write: true };
    type Edit = fn(&mut Board);
    let as_it_is: Edit = |_| {};
    let rows: Vec<(Edit, Call)> = vec![
        (as_it_is, uncached(false)),
        (as_it_is, uncached(true)),
        // A line that is held already.
        (|b| b.tag = (true, name(2, 0)), Call::LoadAndMap { line: 3 * 256 }),
        (|b| b.tag = (true, name(0, 0)), Call::DropTag),
        (as_it_is, Call::Tag { name: name(1, 0) }),
        (as_it_is, Call::Protect { page: PAGE + 1, write: false }),
        (as_it_is, Call::Attach { process: 0, slot: 2, segment: 2048, write: true }),
        (as_it_is, Call::Detach { process: 0, slot: 0 }),
        // Drops, of lines that are changed too.
        (as_it_is, Call::Unmap { page: PAGE + 1 }),
        (as_it_is, Call::Move { page: PAGE + 1, new_page: PAGE + 8 }),
        (as_it_is, Call::Move { page: PAGE + 3, new_page: PAGE + 8 }),
        (|b| put(b, 5, rec(name(8, 1), 300, true, true)), Call::Move { page: PAGE + 4, new_page: PAGE + 8 }),
        (as_it_is, Call::FlushAll),
        (|b| put(b, 5, rec(name(8, 1), 300, true, true)), map),
        (|b| put(b, 5, rec(prefix1_page(FREE_FRAME) * 256 + 1, 300, true, true)), map),
    ];
    for (edit, call) in rows {
        for wild in [false, true] {
            let mut b = full();
            store(&mut b, 1, 0, 9);
            if wild {
                b.uses = vec![WILD; 2];
            }
            edit(&mut b);
            let uses = b.uses.clone();
            let (answer, event) = b.step(&call);
            assert_eq!(answer.number, 0, "{call:?}");
            assert_eq!(b.uses, uses, "{call:?}");
            if let Event::Unmapped { dropped, .. } | Event::Flushed { dropped, .. } = event {
                assert!(dropped > 0, "{call:?}");
            }
            if let Event::Mapped { by_page, by_prefix1 } = event {
                assert_eq!(by_page + by_prefix1, 1, "{call:?}");
            }
            if let Event::Moved { old_dropped, new_dropped, .. } = event {
                assert_eq!(old_dropped + new_dropped, 1, "{call:?}");
            }
        }
    }
    let b = full();
    let before = b.clone();
    assert_eq!(b.look(256).0, 0);
    assert_eq!(b, before);
}

/// Refused calls leave the matrices: accesses to lines that are held among them, by each number that can come then.
#[test]
fn refused_calls() {
    let user = |store, address, value| Call::UserAccess { process: 0, store, width: 2, address, value };
    let supervisor = |store, global, value| Call::SupervisorAccess { store, width: 2, global, value };
    type Edit = fn(&mut Board);
    let as_it_is: Edit = |_| {};
    let pending: Edit = |b| b.tag = (true, name(0, 0));
    let rows: Vec<(u32, Edit, Call)> = vec![
        (1, |b| b.cache.push(0), user(false, 0, 0)),
        (1, |b| b.uses.push(WILD), user(false, 0, 0)),
        (1, |b| assert!(b.uses.pop().is_some()), supervisor(false, PAGE * 4096, 0)),
        (2, as_it_is, user(true, 0, 65_536)),
        (2, as_it_is, supervisor(true, PAGE * 4096, 65_536)),
        (3, pending, user(false, 0, 0)),
        (3, pending, supervisor(false, PAGE * 4096, 0)),
        (4, as_it_is, user(false, 1, 0)),
        (4, as_it_is, supervisor(false, PAGE * 4096 + 1, 0)),
        (5, as_it_is, user(false, 1 << 31, 0)),
        (6, as_it_is, user(false, 2 << 22, 0)),
        (7, as_it_is, user(true, 1 << 22, 0)),
        (8, as_it_is, user(false, 9 * 4096, 0)),
        // A hit on a line without permission, and a miss.
        (9, |b| put(b, 2, rec(name(READ_ONLY, 0), 300, false, false)), user(true, (READ_ONLY * 4096) as u32, 1)),
        (9, as_it_is, user(true, (READ_ONLY * 4096) as u32, 1)),
        // A held prefix 1 line of a frame in use.
        (10, |b| put(b, 2, rec(prefix1_page(1) * 256, 256, false, true)), supervisor(false, (1 << 32) + 4096, 0)),
        (12, as_it_is, supervisor(false, 4096, 0)),
        (13, pending, Call::LoadAndMap { line: 257 }),
        (3, as_it_is, Call::LoadAndMap { line: 256 }),
        (10, as_it_is, Call::Map { page: PAGE + 9, frame: 1, write: true }),
        (11, as_it_is, Call::Map { page: PAGE, frame: 6, write: true }),
        (8, as_it_is, Call::Unmap { page: PAGE + 9 }),
        (8, as_it_is, Call::Protect { page: PAGE + 9, write: true }),
        (1, |b| b.uses.push(WILD), Call::Move { page: PAGE, new_page: PAGE + 9 }),
        (2, as_it_is, Call::Move { page: PAGE, new_page: 0x1F_FFFF }),
        (8, as_it_is, Call::Move { page: PAGE + 9, new_page: PAGE + 9 }),
        (11, as_it_is, Call::Move { page: PAGE, new_page: PAGE + 1 }),
        (11, as_it_is, Call::Move { page: PAGE, new_page: PAGE }),
    ];
    for (number, edit, call) in rows {
        let mut b = full();
        b.uses = vec![WILD, used(&WILD, 1)];
        edit(&mut b);
        let before = b.clone();
        assert_eq!(b.step(&call), (no(number), Event::Refused(number)), "{call:?}");
        assert_eq!(b, before, "{call:?}");
    }
}

// ----- the victim -----

/// Fills the set at place 0 so that these lines hold something, with this matrix.
fn with_held(held: [bool; 4], matrix: Matrix) -> Board {
    let mut b = sets();
    for (at, _) in (0..).zip(held).filter(|(_, held)| *held) {
        put(&mut b, at, rec(0x3000_0000 + 2 * at, 300 + at, false, true));
    }
    b.uses[0] = matrix;
    b
}

/// The lowest empty line, whatever the matrix says.
#[test]
fn empty_lines_first() {
    let mut r = Rng(0xABCD_EF01_2345_6789);
    for pattern in 0..15u64 {
        let held = [0, 1, 2, 3].map(|line| pattern >> line & 1 == 1);
        let lowest = held.iter().position(|held| !held).expect("not all are held") as u64;
        for matrix in [FRESH_MATRIX, WILD, [[1; 4]; 4]].into_iter().chain((0..50).map(|_| r.matrix())) {
            let mut b = with_held(held, matrix);
            assert_eq!(b.victim(0), lowest, "{held:?} {matrix:?}");
            assert_eq!(load(&mut b, 0, 0), REFILLED);
            assert_eq!(b.holder(name(0, 0)), Some(lowest));
            assert_eq!(b.uses[0], used(&matrix, lowest as usize));
        }
    }
}

/// Empty is what holds nothing: not valid, at another place, of a line beyond memory.
#[test]
fn empty_is_what_holds_nothing() {
    let strays = [
        Record { valid: false, ..rec(0x3000_0000, 300, true, true) },
        rec(0x3000_0001, 300, true, true),
        rec(0x3000_0000, 7 * 256, true, true),
    ];
    for (stray, at) in strays.into_iter().flat_map(|stray| [0, 1, 2, 3].map(|at| (stray, at))) {
        let mut b = with_held([true; 4], WILD);
        put(&mut b, at, stray);
        let memory = b.memory.clone();
        assert_eq!(b.victim(0), at, "{stray:?}");
        assert_eq!(load(&mut b, 0, 0), REFILLED);
        assert_eq!(b.record(at), rec(name(0, 0), 256, false, true));
        assert_eq!(b.memory, memory);
    }
}

/// In a full set the lowest of those whose row has the fewest ones; any byte but 0 is a one.
#[test]
fn fewest_ones() {
    let of = |counts: [usize; 4]| counts.map(|count| [0, 1, 2, 3].map(|column| u8::from(column < count)));
    // Where the victim isn't the first, last, only or smallest by chance: every number of ones in every row.
    for number in 0..625 {
        let counts = [number % 5, number / 5 % 5, number / 25 % 5, number / 125];
        let least = counts.iter().min().expect("four rows");
        let lowest = counts.iter().position(|count| count == least).expect("one of them") as u64;
        assert_eq!(with_held([true; 4], of(counts)).victim(0), lowest, "{counts:?}");
    }
    let rows = [
        (FRESH_MATRIX, 0),
        (WILD, 1),
        // The sum of a row doesn't count, nor its lowest bits.
        ([[1, 1, 0, 0], [255, 0, 0, 0], [1, 1, 0, 0], [1, 1, 1, 1]], 1),
        ([[2, 2, 2, 0], [1, 1, 0, 0], [2, 4, 8, 16], [1, 1, 1, 0]], 1),
        // The diagonal counts.
        ([[9, 0, 0, 0], [0, 9, 0, 0], [0, 0, 0, 0], [0, 0, 0, 9]], 2),
        ([[0, 1, 0, 0], [0, 1, 0, 0], [1, 0, 1, 0], [0, 1, 1, 1]], 0),
    ];
    for (matrix, victim) in rows {
        let mut b = with_held([true; 4], matrix);
        assert_eq!(b.victim(0), victim, "{matrix:?}");
        assert_eq!(load(&mut b, 0, 0), REFILLED);
        assert_eq!(b.record(victim), rec(name(0, 0), 256, false, true), "{matrix:?}");
        assert_eq!(b.uses, [used(&matrix, victim as usize), FRESH_MATRIX]);
    }
}

/// The victim is written back if it is changed, to its own physical line, and nothing else of the set is.
#[test]
fn the_victim_is_written_back() {
    for victim in 0..4 {
        for changed in [false, true] {
            let mut b = with_held([true; 4], [[1; 4]; 4]);
            b.uses[0][victim] = [0; 4];
            let at = victim as u64;
            for other in 0..4 {
                let record = b.record(other);
                put(&mut b, other, Record { changed: true, ..record });
                paint(&mut b, other, 0xA0 + other as u8);
            }
            let record = b.record(at);
            put(&mut b, at, Record { changed, ..record });
            let (before, mut memory) = (b.clone(), b.memory.clone());
            assert_eq!(load(&mut b, 0, 0), if changed { WROTE_BACK } else { REFILLED });
            if changed {
                memory[(300 + victim) * 16..][..16].fill(0xA0 + victim as u8);
            }
            assert_eq!(b.memory, memory);
            let (now, then) = (&b.records, &before.records);
            assert!((0..16).all(|word| word / 2 == victim || now[word] == then[word]));
            assert!((0..128).all(|byte| byte / 16 == victim || b.cache[byte] == before.cache[byte]));
            assert_eq!(b.cache[16 * victim..][..16], b.memory[256 * 16..257 * 16]);
        }
    }
}

// ----- places -----

/// "name mod (L / 4), records 4 × place to 4 × place + 3".
#[test]
fn places() {
    for lines in [4, 8, 64, 1024, 2048, 65_536] {
        let mut b = board(Edition::Fours, lines);
        assert_eq!(b.sets(), lines / 4);
        assert_eq!(b.uses.len() as u64, lines / 4);
        for index in [0, 1, 100, 255] {
            let place = name(0, index) % (lines / 4);
            b.flush_all();
            load(&mut b, 0, index);
            assert_eq!(b.record(4 * place), rec(name(0, index), 256 + index, false, true), "{lines} {index}");
            assert_eq!(b.records_at(place), 4 * place..4 * place + 4);
        }
        // A record counts in each of the four lines of its set, and in no other.
        let place = name(1, 5) % (lines / 4);
        for at in (0..lines).filter(|at| at / 4 <= place + 1 || *at == lines - 1) {
            let mut b = board(Edition::Fours, lines);
            put(&mut b, at, rec(name(1, 5), 300, false, true));
            assert_eq!(b.held(at).is_some(), at / 4 == place, "{lines} {at}");
            assert_eq!(load(&mut b, 1, 5), if at / 4 == place { HIT } else { REFILLED }, "{lines} {at}");
        }
    }
}

/// A hit in each of the four lines, on its own bytes.
#[test]
fn held_in_each_line() {
    for at in 0..4 {
        let mut b = full();
        paint(&mut b, at, 0x40 + at as u8);
        let answer = b.user_access(0, false, 1, (at * 4096 + 3) as u32, 0);
        assert_eq!(answer, done(0x40 + at as u32, HIT));
        assert_eq!(store(&mut b, at, 0, 9), HIT);
        assert_eq!(b.record(at), rec(name(at, 0), (1 + at) * 256, true, true));
        assert_eq!(b.look((1 + at) * 256).1[0], 9);
    }
}

/// One name twice in a set: the lowest record that holds it counts, for accesses, for 9 and for load-and-map.
#[test]
fn one_name_twice() {
    for (low, high) in [(0, 1), (0, 3), (1, 2), (2, 3)] {
        let mut b = with_held([true; 4], WILD);
        put(&mut b, low, rec(name(0, 0), 300, false, true));
        put(&mut b, high, rec(name(0, 0), 301, false, false));
        paint(&mut b, low, 0x11);
        paint(&mut b, high, 0x22);
        assert_eq!(b.user_access(0, false, 1, 0, 0), done(0x11, HIT));
        assert_eq!(b.uses[0], used(&WILD, low as usize));
        assert_eq!(store(&mut b, 0, 0, 5), HIT);
        assert_eq!((b.record(low).changed, b.record(high).changed), (true, false));
        // Without permission in the lowest, whatever the other has.
        let mut c = b.clone();
        put(&mut c, low, rec(name(0, 0), 300, false, false));
        put(&mut c, high, rec(name(0, 0), 301, false, true));
        assert_eq!(c.user_access(0, true, 1, 0, 5), no(9));
        // A record of the name that holds nothing doesn't count.
        put(&mut c, low, rec(name(0, 0), 7 * 256, true, true));
        assert_eq!(c.user_access(0, false, 1, 0, 0), done(0x22, HIT));
        // Both are dropped by unmap and by move, both written back, by rising record.
        put(&mut b, low, rec(name(0, 0), 300, true, true));
        put(&mut b, high, rec(name(0, 0), 300, true, true));
        let cache = b.cache[16 * high as usize..][..16].to_vec();
        for (call, event) in [
            (Call::Unmap { page: PAGE }, Event::Unmapped { written: 2, dropped: 2 }),
            (
                Call::Move { page: PAGE, new_page: PAGE + 8 },
                Event::Moved { old_written: 2, old_dropped: 2, new_written: 0, new_dropped: 0 },
            ),
        ] {
            let mut b = b.clone();
            assert_eq!(b.step(&call).1, event);
            assert_eq!(b.memory[300 * 16..301 * 16], cache[..]);
        }
    }
}

/// Move finds lines of both pages in one set, at any two of its lines: all are written back, by rising record, and dropped; the
/// other two stay, and so does the matrix.
#[test]
fn move_in_one_set() {
    for (old, new) in (0..4).flat_map(|old| (0..4).map(move |new| (old, new))).filter(|(old, new)| old != new) {
        let mut b = with_held([true; 4], WILD);
        put(&mut b, old, rec(name(0, 0), 300, true, true));
        put(&mut b, new, rec(name(8, 2), 300, true, true));
        (0..4).for_each(|at| paint(&mut b, at, 0x40 + at as u8));
        let before = b.clone();
        let event = Event::Moved { old_written: 1, old_dropped: 1, new_written: 1, new_dropped: 1 };
        assert_eq!(b.step(&Call::Move { page: PAGE, new_page: PAGE + 8 }), (DONE, event));
        assert_eq!(b.memory[300 * 16..301 * 16], [0x40 + old.max(new) as u8; 16], "{old} {new}");
        for at in 0..4 {
            let dropped = at == old || at == new;
            assert_eq!(b.record(at), if dropped { Record::decode(0, 0) } else { before.record(at) }, "{old} {new}");
        }
        assert_eq!((b.uses, b.cache), (before.uses, before.cache), "{old} {new}");
    }
}

/// After a move the set has its order still: the lines that are gone are filled first, the lowest first, whatever their rows say.
#[test]
fn a_set_after_a_move() {
    let mut b = full();
    assert_eq!(b.move_page(PAGE + 3, PAGE + 8), DONE);
    assert_eq!(b.move_page(PAGE + 1, PAGE + 9), DONE);
    // The moved page's line under its new name: into line 1, though line 0 was used first; then into line 3.
    for (page, at) in [(8, 1), (9, 3)] {
        let answer = b.supervisor_access(false, 1, (PAGE + page) * 4096, 0);
        assert_eq!((answer.number, answer.mark), (0, REFILLED));
        assert_eq!(b.holder(name(page, 0)), Some(at));
    }
    // By last uses the order is now lines 0, 2, 1, 3.
    for line in [0, 2, 1, 3] {
        assert_eq!(b.victim(0), line);
        b.uses[0] = used(&b.uses[0], line as usize);
    }
}

// ----- what it is for -----

/// "Two busy pages push each other out", with one line to a place; with sets of four they don't, nor do four; five do.
#[test]
fn busy_pages() {
    let misses = |edition: Edition, pages: u64| {
        let mut b = board(edition, 8);
        (0..40).filter(|turn| load(&mut b, turn % pages, 0) != HIT).count()
    };
    assert_eq!([1, 2, 3, 4, 5].map(|pages| misses(Edition::Ones, pages)), [1, 40, 40, 40, 40]);
    assert_eq!([1, 2, 3, 4, 5].map(|pages| misses(Edition::Fours, pages)), [1, 2, 3, 4, 40]);
}

/// Some call about a few lines of the pages, or of the free frame's prefix 1 range.
fn random_call(r: &mut Rng, b: &Board) -> Call {
    let (page, index) = (r.below(PAGES + 1), r.pick(&[0, 0, 1, 2, 4, 8]));
    let (store, within) = (page != READ_ONLY && r.flip(), index * 16);
    let supervisor = |global| Call::SupervisorAccess { store, width: 1, global, value: 3 };
    match r.below(25) {
        0 => Call::Unmap { page: PAGE + page },
        1 => Call::Map { page: PAGE + page, frame: 1 + r.below(PAGES), write: true },
        2 => Call::Protect { page: PAGE + page, write: page != READ_ONLY },
        3 if r.chance(3) => Call::FlushAll,
        4 => Call::Tag { name: name(page, index) },
        5..=7 => {
            let frame = b.words.iter().position(|word| word / 4 == b.tag.1 / 256).unwrap_or(0);
            Call::LoadAndMap { line: frame as u64 * 256 + b.tag.1 % 256 }
        }
        8 => Call::DropTag,
        9..=11 => supervisor((PAGE + page) * 4096 + within),
        12 => supervisor((1 << 32) + FREE_FRAME * 4096 + within),
        13 => Call::Move { page: PAGE + page, new_page: PAGE + r.below(PAGES + 1) },
        _ => {
            let address = (page * 4096 + within) as u32;
            Call::UserAccess { process: 0, store, width: 1, address, value: 3 }
        }
    }
}

/// The name of the line that an access or a load-and-map is about.
fn name_of_call(call: &Call, b: &Board) -> u64 {
    match *call {
        Call::UserAccess { address, .. } => PAGE * 256 + u64::from(address) / 16,
        Call::SupervisorAccess { global, .. } => global / 16,
        _ => b.tag.1,
    }
}

/// From a fresh board, what a miss or an insertion pushes out of a full set is the line whose last use is oldest; with an empty
/// line in it, the lowest of these is filled. The last uses are recorded here, by calls and names, without the matrix.
#[test]
fn the_oldest_is_pushed_out() {
    let mut r = Rng(0x1357_9BDF_0246_8ACE);
    // By whether the set was full, and by line.
    let mut seen = [[0u32; 4]; 2];
    for round in 0..60 {
        let lines = 4 << (round % 3);
        let mut b = board(Edition::Fours, lines);
        // When each record was last used.
        let mut last: Vec<Option<u32>> = vec![None; lines as usize];
        for time in 0..600 {
            let call = random_call(&mut r, &b);
            let target = name_of_call(&call, &b);
            let before = b.clone();
            let event = b.step(&call).1;
            let first = 4 * (target % (lines / 4));
            let set = || first..first + 4;
            // From a fresh board every valid record holds a line.
            let named = |b: &Board| set().find(|&at| b.record(at).valid && b.record(at).name == target);
            match event {
                Event::Miss | Event::MissWriteBack | Event::Inserted { .. } => {
                    let filled = named(&b).expect("it is held now");
                    let empty = set().find(|&at| !before.record(at).valid);
                    let oldest = set().min_by_key(|&at| last[at as usize]).expect("four lines");
                    assert_eq!(filled, empty.unwrap_or(oldest), "round {round} call {time} {call:?}");
                    seen[usize::from(empty.is_none())][filled as usize % 4] += 1;
                    last[filled as usize] = Some(time);
                }
                Event::Hit => last[named(&before).expect("it was held") as usize] = Some(time),
                _ => assert_eq!(b.uses, before.uses, "round {round} call {time} {call:?}"),
            }
            // The matrices are those of the last uses: row a, column b is 1 if a was used after b.
            for (record, row) in b.uses.concat().into_iter().enumerate() {
                let after = |other: usize| last[record] > last[record / 4 * 4 + other];
                assert_eq!(row, [0, 1, 2, 3].map(|other| u8::from(after(other))), "round {round} call {time} {call:?}");
            }
        }
    }
    assert!(seen.iter().flatten().all(|&count| count > 100), "{seen:?}");
}

// ----- number 1 -----

/// L of 1 and 2, and matrices too few, too many, none or one for each line, with all else agreeing: 1 for every call, every
/// list and look, and nothing changes. The plain machine says so, too.
#[test]
fn number_1() {
    let breaks: [fn(&mut Board); 12] = [
        |b| *b = Board::fresh_of(Edition::Fours, shape(4, 1, 2, 1)),
        |b| *b = Board::fresh_of(Edition::Fours, shape(4, 1, 2, 2)),
        |b| *b = Board { uses: vec![WILD], ..Board::fresh_of(Edition::Fours, shape(4, 1, 2, 1)) },
        |b| *b = Board { uses: vec![WILD], ..Board::fresh_of(Edition::Fours, shape(4, 1, 2, 2)) },
        |b| *b = Board::fresh_of(Edition::Fours, shape(4, 1, 2, 6)),
        |b| *b = Board::fresh_of(Edition::Fours, shape(4, 1, 2, 2 * LINES_MAX)),
        |b| assert!(b.uses.pop().is_some()),
        |b| b.uses.push(FRESH_MATRIX),
        |b| b.uses.clear(),
        |b| b.uses.resize(8, FRESH_MATRIX),
        |b| b.uses.resize(32, FRESH_MATRIX),
        // Sets of one have no matrices.
        |b| b.edition = Edition::Ones,
    ];
    let ready = |call: &Call| in_both(&ready_for(call))[1].clone();
    for call in every_call() {
        assert_eq!(ready(&call).step(&call).0.number, 0, "{call:?}");
        for (index, apply) in breaks.iter().enumerate() {
            let mut b = ready(&call);
            apply(&mut b);
            let before = b.clone();
            assert_eq!(b.step(&call), (no(1), Event::Refused(1)), "{call:?} break {index}");
            assert_eq!(b.list(&[], &mut []), (no(1), vec![]), "break {index}");
            assert_eq!(b.look(0), (1, vec![]), "break {index}");
            assert_eq!(b, before, "{call:?} break {index}");
            assert_eq!(Plain::of(&b).step(&call), PlainAnswer { number: 1, value: 0 }, "{call:?} break {index}");
            assert_eq!(Plain::of(&b).look(0), (1, vec![]), "break {index}");
        }
    }
    for lines in [4, 8, 16, 65_536] {
        let mut b = Board::fresh_of(Edition::Fours, shape(4, 1, 2, lines));
        assert_eq!(b.flush_all(), DONE, "{lines}");
        assert_eq!(Plain::of(&b).flush_all(), PlainAnswer { number: 0, value: 0 });
    }
}
