//! CR 3's premise and what follows from it: "a record only counts at its place", so a page's lines stand at the places of its
//! 256 names. Map, unmap, protect and move take those, wherever they are, and nothing else.
mod common;
use common::*;
use model::*;

/// A page whose first name has place 256 where there are 1024 lines, and a frame whose prefix 1 names have the same places.
const PAGE: u64 = 0x34_5601;
const FRAME: u64 = 1;
const LINES: [u64; 8] = [1, 2, 16, 128, 256, 512, 1024, 65_536];

/// The page in its frame, read-only, or in none.
fn board(lines: u64, mapped: bool) -> Board {
    let mut b = Board::fresh(shape(4, 0, 1, lines));
    b.memory.fill(7);
    if mapped {
        b.words[FRAME as usize] = frame_word(PAGE, false);
    }
    b
}

/// Puts a changed line without permission at the place of its name, painted with this byte. Gives the place.
fn hold(b: &mut Board, name: u64, line: u64, byte: u8) -> u64 {
    let place = place_of(name, b.shape.lines);
    put(b, place, rec(name, line, true, false));
    paint(b, place, byte);
    assert!(b.held(place).is_some());
    place
}

/// The old page's and the new page's lines that a move finds, all of them changed.
fn moved(old: u64, new: u64) -> Event {
    Event::Moved { old_written: old, old_dropped: old, new_written: new, new_dropped: new }
}

fn is_dropped(b: &Board, place: u64) -> bool {
    b.records[2 * place as usize..][..2] == [0, 0]
}

/// The 256 names of a page have as many places, or all there are, in a row.
#[test]
fn places_of_a_page() {
    for lines in LINES {
        let mut places: Vec<u64> = (0..256).map(|index| place_of(PAGE * 256 + index, lines)).collect();
        places.sort_unstable();
        places.dedup();
        let first = PAGE * 256 % lines;
        assert_eq!(places, (first..first + lines.min(256)).collect::<Vec<u64>>(), "{lines}");
    }
    assert_eq!((PAGE * 256 % 512, PAGE * 256 % 1024, PAGE * 256 % 65_536), (256, 256, 256));
    assert_eq!((PAGE_LAST * 256 + 255) % 65_536, 65_535);
}

/// A page's first line and its last, with any number of lines; with one line, the last alone.
#[test]
fn first_and_last_line() {
    for lines in LINES {
        let ends =
            |b: &mut Board| [(0, 5), (255, 6)].map(|(index, line)| hold(b, PAGE * 256 + index, line, line as u8));
        let count = lines.min(2);

        let mut b = board(lines, true);
        let places = ends(&mut b);
        assert_eq!(b.step(&Call::Protect { page: PAGE, write: true }).1, Event::Protected { lines: count });
        assert!(places.iter().all(|&place| b.record(place).write));
        assert_eq!(b.step(&Call::Unmap { page: PAGE }).1, Event::Unmapped { written: count, dropped: count });
        assert!(places.iter().all(|&place| is_dropped(&b, place)));
        assert_eq!((b.memory[5 * 16], b.memory[6 * 16]), (if lines == 1 { 7 } else { 5 }, 6));

        // Of the page that is moved, and of the one that a page is moved to.
        for (page, new_page, event) in [(PAGE, PAGE + 1, moved(count, 0)), (PAGE + 1, PAGE, moved(0, count))] {
            let mut b = board(lines, false);
            b.words[FRAME as usize] = frame_word(page, false);
            let places = ends(&mut b);
            assert_eq!(b.step(&Call::Move { page, new_page }).1, event);
            assert!(places.iter().all(|&place| is_dropped(&b, place)));
            assert_eq!((b.memory[5 * 16], b.memory[6 * 16]), (if lines == 1 { 7 } else { 5 }, 6));
        }

        let mut b = board(lines, false);
        let places = ends(&mut b);
        let map = Call::Map { page: PAGE, frame: FRAME, write: true };
        assert_eq!(b.step(&map).1, Event::Mapped { by_page: count, by_prefix1: 0 });
        assert!(places.iter().all(|&place| is_dropped(&b, place)));
        assert_eq!((b.memory[5 * 16], b.memory[6 * 16]), (7, 7));
    }
}

/// Lines beside a page's places, and lines at them that are not the page's, stay as they are.
#[test]
fn others_stay() {
    let own = PAGE * 256;
    let others = [own - 1, own + 256, own + 1024 + 1, own + (1 << 28) + 2, own + (1 << 40) + 3, u64::MAX - 1024 + 261];
    let mut b = board(1024, true);
    let places = others.map(|name| hold(&mut b, name, 5, 9));
    assert_eq!(places, [255, 512, 257, 258, 259, 260]);
    let before = b.clone();
    assert_eq!(b.step(&Call::Protect { page: PAGE, write: true }).1, Event::Protected { lines: 0 });
    // To a page of which none of them is, and back.
    assert_eq!(b.step(&Call::Move { page: PAGE, new_page: PAGE + 2 }).1, moved(0, 0));
    assert_eq!(b.step(&Call::Move { page: PAGE + 2, new_page: PAGE }).1, moved(0, 0));
    assert_eq!(b.step(&Call::Unmap { page: PAGE }).1, Event::Unmapped { written: 0, dropped: 0 });
    assert_eq!(b.memory, before.memory);
    let map = Call::Map { page: PAGE, frame: FRAME, write: true };
    assert_eq!(b.step(&map).1, Event::Mapped { by_page: 0, by_prefix1: 0 });
    assert_eq!(b.records, before.records);
}

/// Map takes the frame's prefix 1 lines where they stand: at the page's places, below them or above them. Unmap, protect and
/// move leave them.
#[test]
fn prefix_1_lines() {
    for (frame, first) in [(1, 256), (0, 0), (2, 512)] {
        let mut b = board(1024, false);
        let page = [hold(&mut b, PAGE * 256 + 1, 5, 1), hold(&mut b, PAGE * 256 + 254, 5, 1)];
        let prefix1 = [0, 255].map(|index| hold(&mut b, prefix1_page(frame) * 256 + index, 5, 2));
        let uncached = hold(&mut b, frame * 256 + 3, 5, 3);
        assert_eq!((prefix1, uncached), ([first, first + 255], first + 3));

        let mut mapped = b.clone();
        mapped.words[frame as usize] = frame_word(PAGE, false);
        assert_eq!(mapped.step(&Call::Protect { page: PAGE, write: true }).1, Event::Protected { lines: 2 });
        let mut other = mapped.clone();
        assert_eq!(mapped.step(&Call::Unmap { page: PAGE }).1, Event::Unmapped { written: 2, dropped: 2 });
        assert_eq!(other.step(&Call::Move { page: PAGE, new_page: PAGE + 4 }).1, moved(2, 0));
        assert_eq!(other.step(&Call::Move { page: PAGE + 4, new_page: PAGE + 3 }).1, moved(0, 0));
        for after in [mapped, other] {
            assert!(prefix1.iter().all(|&place| after.record(place) == b.record(place)));
            assert!(page.iter().all(|&place| is_dropped(&after, place)));
        }

        let map = Call::Map { page: PAGE, frame, write: true };
        assert_eq!(b.step(&map).1, Event::Mapped { by_page: 2, by_prefix1: 2 });
        assert!(page.iter().chain(&prefix1).all(|&place| is_dropped(&b, place)));
        assert!(b.held(uncached).is_some());
    }
}

/// One physical line in two of the page's records: the bytes of the higher place stand in memory, whichever name is higher.
#[test]
fn by_rising_place() {
    for (lines, low, high) in
        [(2, 2, 1), (16, 240, 15), (128, 128, 127), (256, 0, 255), (1024, 0, 255), (65_536, 0, 255)]
    {
        let mut b = board(lines, true);
        let places = [(low, 0x10), (high, 0x20)].map(|(index, byte)| hold(&mut b, PAGE * 256 + index, 5, byte));
        assert_eq!(places[1] - places[0], lines.min(256) - 1);
        assert_eq!(b.step(&Call::Unmap { page: PAGE }).1, Event::Unmapped { written: 2, dropped: 2 });
        assert_eq!(b.memory[5 * 16..6 * 16], [0x20; 16]);
    }
}

/// Move: one physical line in a record of the old page and in one of the new. The bytes of the higher place stand in memory,
/// whichever page it is of, wherever the places of the two pages lie; and nothing else there changes.
#[test]
fn by_rising_place_of_both_pages() {
    for (lines, other, in_page, in_other) in [
        // The two pages have the same places.
        (2, PAGE + 1, 0, 1),
        (2, PAGE + 1, 1, 0),
        (256, PAGE + 1, 0, 255),
        (256, PAGE + 1, 255, 0),
        (1024, PAGE + 4, 7, 8),
        (1024, PAGE + 4, 8, 7),
        (65_536, PAGE + 256, 254, 255),
        // The other's are all below, and all above.
        (1024, PAGE - 1, 0, 255),
        (1024, PAGE + 1, 255, 0),
        (65_536, PAGE - 1, 0, 255),
        (65_536, PAGE + 1, 255, 0),
    ] {
        for (page, new_page) in [(PAGE, other), (other, PAGE)] {
            let mut b = board(lines, false);
            b.words[FRAME as usize] = frame_word(page, false);
            let places = [(PAGE, in_page, 0x10), (other, in_other, 0x20)]
                .map(|(page, index, byte)| hold(&mut b, page * 256 + index, 5, byte));
            assert_eq!(b.step(&Call::Move { page, new_page }).1, moved(1, 1));
            let mut memory = vec![7; 4 * 4096];
            memory[5 * 16..6 * 16].fill(if places[0] > places[1] { 0x10 } else { 0x20 });
            assert_eq!(b.memory, memory, "{lines} lines, {page:#x} to {new_page:#x}");
            assert!(places.iter().all(|&place| is_dropped(&b, place)));
        }
    }
}
