//! Boards that no sequence of calls reaches.
mod common;
use common::*;
use model::*;

const PAGE: u64 = 0x20_0000;
const NAME: u64 = 0x2000_0000;

/// A move: how many lines of each page it wrote back, and how many it dropped.
fn moved((old_written, old_dropped): (u64, u64), (new_written, new_dropped): (u64, u64)) -> Event {
    Event::Moved { old_written, old_dropped, new_written, new_dropped }
}

/// Records that don't hold: not valid, not at their place, physical line outside memory.
fn strays() -> Vec<(u64, Record)> {
    vec![
        (0, Record { valid: false, ..rec(NAME, 256, true, true) }),
        (1, rec(NAME, 256, true, true)),
        (0, rec(NAME, 1024, true, true)),
        (0, rec(NAME, (1 << 61) - 1, true, true)),
        (0, rec(NAME + 1, 256, true, true)),
    ]
}

#[test]
fn stray_records_count_as_empty() {
    for (place, stray) in strays() {
        let mut b = ready();
        put(&mut b, place, stray);
        paint(&mut b, place, 0xEE);
        assert!(b.held(place).is_none());
        let start = b.clone();

        // Look passes over it.
        assert_eq!(b.look(256), (0, vec![0; 16]));
        // Flush, protect, move, unmap and map leave it as it is and write nothing.
        assert_eq!(b.step(&Call::FlushAll), (DONE, Event::Flushed { written: 0, dropped: 0 }));
        assert_eq!(b, start);
        assert_eq!(b.step(&Call::Protect { page: PAGE, write: true }), (DONE, Event::Protected { lines: 0 }));
        assert_eq!(b, start);
        // The old page's, and the new one's.
        assert_eq!(b.step(&Call::Move { page: PAGE, new_page: PAGE + 1 }), (DONE, moved((0, 0), (0, 0))));
        assert_eq!(b.step(&Call::Move { page: PAGE + 1, new_page: PAGE }), (DONE, moved((0, 0), (0, 0))));
        assert_eq!(b, start);
        let (_, e) = b.step(&Call::Unmap { page: PAGE });
        assert_eq!(e, Event::Unmapped { written: 0, dropped: 0 });
        assert_eq!((&b.records, &b.memory), (&start.records, &start.memory));
        let (_, e) = b.step(&Call::Map { page: PAGE, frame: 1, write: true });
        assert_eq!(e, Event::Mapped { by_page: 0, by_prefix1: 0 });
        assert_eq!((&b.records, &b.cache), (&start.records, &start.cache));
        // A miss overwrites what stands at its place, without write-back.
        assert_eq!(
            b.step(&Call::UserAccess { process: 0, store: false, width: 1, address: 0, value: 0 }),
            (done(0, REFILLED), Event::Miss)
        );
        assert_eq!(b.record(0), rec(NAME, 256, false, true));
        assert_eq!(b.memory, start.memory);
        if place == 1 {
            assert_eq!(b.record(1), stray);
        }
    }
}

/// Decided: a hit goes by the whole name alone, whatever the page map says; later the record's own
/// physical line is used.
#[test]
fn hit_without_mapping_and_write_back_to_own_line() {
    let mut b = ready();
    b.words[1] = 0;
    put(&mut b, 0, rec(NAME, 7, false, true));
    paint(&mut b, 0, 0x11);
    assert_eq!(b.user_access(0, false, 4, 0, 0), done(0x1111_1111, HIT));
    assert_eq!(b.supervisor_access(false, 4, 0x2_0000_0000, 0), done(0x1111_1111, HIT));
    assert_eq!(b.supervisor_access(true, 1, 0x2_0000_0003, 0x11), done(0, HIT));
    assert_eq!(b.record(0), rec(NAME, 7, true, true));
    put(&mut b, 0, rec(NAME, 7, false, true));
    assert_eq!(b.user_access(0, true, 1, 1, 0x22), done(0, HIT));
    assert_eq!(b.record(0), rec(NAME, 7, true, true));
    // Number 9 goes by the record if held, whatever the word says.
    b.words[1] = frame_word(PAGE, true);
    put(&mut b, 0, rec(NAME, 7, true, false));
    assert_eq!(b.user_access(0, true, 1, 1, 0x33), no(9));
    b.words[1] = frame_word(PAGE, false);
    put(&mut b, 0, rec(NAME, 7, true, true));
    assert_eq!(b.user_access(0, true, 1, 2, 0x33), done(0, HIT));
    // Write-back by a colliding miss: line 7, not the mapped 256.
    let old = b.memory[256 * 16..257 * 16].to_vec();
    let (_, e) = b.step(&Call::UserAccess { process: 0, store: false, width: 1, address: 32, value: 0 });
    assert_eq!(e, Event::MissWriteBack);
    assert_eq!(b.memory[7 * 16..7 * 16 + 4], [0x11, 0x22, 0x33, 0x11]);
    assert_eq!(b.memory[256 * 16..257 * 16], old[..]);
}

/// A miss fills from memory after the write-back, so it sees the bytes just written.
#[test]
fn fill_sees_the_write_back() {
    let mut b = ready();
    // Place 0 holds a changed line of another name with physical line 258, which is that of NAME + 2.
    put(&mut b, 0, rec(0x3000_0000, 258, true, true));
    paint(&mut b, 0, 0x44);
    assert_eq!(b.user_access(0, false, 1, 32, 0), done(0x44, WROTE_BACK));
    // Never from another record: place 1 holds line 256 with other bytes.
    put(&mut b, 1, rec(0x3000_0001, 256, true, true));
    paint(&mut b, 1, 0x55);
    assert_eq!(b.user_access(0, false, 1, 0, 0), done(0, REFILLED));
}

/// Names from 2^40 up, of prefix 0 and of the page table region are held, written back and dropped.
#[test]
fn odd_names_are_held() {
    for name in [0, 2, 0xFF_C000_0000, 1 << 40, (1 << 40) + NAME, u64::MAX - 1] {
        let mut b = ready();
        put(&mut b, 0, rec(name, 300, true, false));
        paint(&mut b, 0, 0x66);
        assert!(b.held(0).is_some());
        assert_eq!(b.look(300), (0, vec![0x66; 16]));
        // Not a hit for NAME, nor dropped by its page.
        let mut c = b.clone();
        assert_eq!(c.user_access(0, false, 1, 0, 0), done(0, WROTE_BACK));
        assert_eq!(c.memory[4800..4816], [0x66; 16]);
        let mut c = b.clone();
        assert_eq!(c.step(&Call::Unmap { page: PAGE }).1, Event::Unmapped { written: 0, dropped: 0 });
        assert_eq!(c.records, b.records);
        let mut c = b.clone();
        assert_eq!(c.step(&Call::Protect { page: PAGE, write: true }).1, Event::Protected { lines: 0 });
        assert_eq!(c.records, b.records);
        for (page, new_page) in [(PAGE, PAGE + 1), (PAGE + 1, PAGE)] {
            assert_eq!(c.step(&Call::Move { page, new_page }).1, moved((0, 0), (0, 0)));
            assert_eq!(c.records, b.records);
        }
        assert_eq!(b.step(&Call::FlushAll).1, Event::Flushed { written: 1, dropped: 1 });
        assert_eq!(b.memory[4800..4816], [0x66; 16]);
        assert_eq!(b.records, vec![0; 4]);
    }
}

/// Several records with one physical line: look takes the lowest, write-backs go by rising place.
#[test]
fn doubled_physical_line() {
    let mut b = ready();
    put(&mut b, 0, rec(NAME, 300, true, true));
    put(&mut b, 1, rec(NAME + 1, 300, true, true));
    paint(&mut b, 0, 0x10);
    paint(&mut b, 1, 0x20);
    assert_eq!(b.look(300), (0, vec![0x10; 16]));
    let mut c = b.clone();
    c.flush_all();
    assert_eq!(c.look(300), (0, vec![0x20; 16]));
    let mut c = b.clone();
    assert_eq!(c.step(&Call::Unmap { page: PAGE }).1, Event::Unmapped { written: 2, dropped: 2 });
    assert_eq!(c.look(300), (0, vec![0x20; 16]));
    // The upper one not changed: only the lower is written.
    put(&mut b, 1, rec(NAME + 1, 300, false, true));
    b.flush_all();
    assert_eq!(b.look(300), (0, vec![0x10; 16]));
    // A lowest record that is held but not changed still decides look.
    let mut b = ready();
    put(&mut b, 0, rec(NAME, 300, false, true));
    paint(&mut b, 0, 0x30);
    assert_eq!(b.look(300), (0, vec![0x30; 16]));
}

/// A doubled page: the lowest frame from U up.
#[test]
fn doubled_page() {
    let mut b = ready();
    b.words = vec![frame_word(PAGE, true), frame_word(PAGE + 1, true), frame_word(PAGE, false), frame_word(PAGE, true)];
    assert_eq!(b.user_access(0, true, 1, 0, 9), no(9));
    assert_eq!(b.user_access(0, false, 1, 0, 0).number, 0);
    assert_eq!(b.record(0), rec(NAME, 512, false, false));
    assert_eq!(b.map(PAGE, 1, true), no(10));
    assert_eq!(b.protect(PAGE, true), DONE);
    assert_eq!(b.words[2..], [frame_word(PAGE, true), frame_word(PAGE, true)]);
    assert_eq!(b.record(0), rec(NAME, 512, false, true));
    assert_eq!(b.unmap(PAGE), DONE);
    assert_eq!(b.words, vec![frame_word(PAGE, true), frame_word(PAGE + 1, true), 0, frame_word(PAGE, true)]);
    assert_eq!(b.map(PAGE, 2, true), no(11));
    assert_eq!(b.unmap(PAGE), DONE);
    assert_eq!(b.unmap(PAGE), no(8));
    assert_eq!(b.map(PAGE, 2, true), DONE);
}

/// Move of a doubled page: the lowest frame from U up gets the new page, with that frame's write bit; the next one has the old
/// page then, and is moved next.
#[test]
fn doubled_page_moved() {
    let mut b = ready();
    b.words = vec![frame_word(PAGE, true), frame_word(PAGE + 1, true), frame_word(PAGE, false), frame_word(PAGE, true)];
    // Lines of the page, in both frames: all of them are written back, each to its own.
    put(&mut b, 0, rec(NAME, 512, true, false));
    put(&mut b, 1, rec(NAME + 1, 768 + 1, true, true));
    paint(&mut b, 0, 0x10);
    paint(&mut b, 1, 0x20);
    assert_eq!(b.step(&Call::Move { page: PAGE, new_page: PAGE + 2 }), (DONE, moved((2, 2), (0, 0))));
    assert_eq!(b.words[..2], [frame_word(PAGE, true), frame_word(PAGE + 1, true)]);
    assert_eq!(b.words[2..], [(PAGE + 2) * 4 + 1, PAGE * 4 + 3]);
    assert_eq!((b.memory[512 * 16], b.memory[(768 + 1) * 16]), (0x10, 0x20));
    assert_eq!(b.supervisor_access(false, 1, (PAGE + 2) * 4096, 0), done(0x10, REFILLED));
    assert_eq!(b.user_access(0, false, 1, 16, 0), done(0x20, REFILLED));
    assert_eq!(b.move_page(PAGE, PAGE + 2), no(11));
    assert_eq!(b.move_page(PAGE, PAGE + 3), DONE);
    assert_eq!(b.words[2..], [(PAGE + 2) * 4 + 1, (PAGE + 3) * 4 + 3]);
    // What stands below U is no mapping.
    assert_eq!(b.move_page(PAGE, PAGE + 4), no(8));
    assert_eq!(b.move_page(PAGE + 3, PAGE), DONE);
    assert_eq!(b.words[3], PAGE * 4 + 3);
}

/// A new page that is doubled is mapped.
#[test]
fn moved_to_a_doubled_page() {
    let mut b = ready();
    b.words[2..].fill(frame_word(PAGE + 1, false));
    let before = b.clone();
    assert_eq!(b.move_page(PAGE, PAGE + 1), no(11));
    assert_eq!(b, before);
}

/// Words of no exact form, or of pages that are not ordinary, map nothing and are not free.
#[test]
fn odd_words() {
    for word in
        [1, 3, PAGE * 4, PAGE * 4 + 2, (PAGE + (1 << 32)) * 4 + 1, 0x1F_FFFF * 4 + 1, 0xFFC0_0000 * 4 + 3, u64::MAX]
    {
        let mut b = ready();
        b.words[1] = word;
        assert_eq!(b.user_access(0, false, 1, 0, 0), no(8), "{word}");
        assert_eq!(b.unmap(PAGE), no(8));
        assert_eq!(b.protect(PAGE, true), no(8));
        assert_eq!(b.move_page(PAGE, PAGE + 1), no(8));
        assert_eq!(b.move_page(PAGE, PAGE), no(8));
        // As the new page it isn't mapped either.
        let mut c = b.clone();
        c.words[3] = frame_word(PAGE + 1, false);
        assert_eq!(c.move_page(PAGE + 1, PAGE), DONE);
        assert_eq!(c.words, [0, word, 0, PAGE * 4 + 1]);
        assert_eq!(b.map(PAGE, 1, true), no(10));
        assert_eq!(b.supervisor_access(false, 1, 0x1_0000_1000, 0), no(10));
        assert_eq!(b.map(PAGE, 2, true), DONE);
    }
}

/// A pending name outside tag's range is pending, and load-and-map gives 8.
#[test]
fn odd_tags() {
    for name in [0, 256, 0x1000_0100, 0xFF_C000_0000, NAME + (1 << 40), u64::MAX] {
        let mut b = ready();
        b.tag = (true, name);
        // Not even if a word of the exact form for that page stands there.
        b.words[2] = (name / 256).wrapping_mul(4) | 1;
        let before = b.clone();
        assert_eq!(b.user_access(0, false, 1, 0, 0), no(3));
        assert_eq!(b.tag(NAME), no(3));
        for line in [0, 256, 512, 512 + name % 256] {
            assert_eq!(b.load_and_map(line), no(8));
        }
        assert_eq!(b.load_and_map(1024), no(2));
        assert_eq!(b, before);
        assert_eq!(b.drop_tag(), DONE);
        assert_eq!(b.tag, (false, 0));
    }
    // Not pending: the name means nothing.
    let mut b = ready();
    b.tag = (false, u64::MAX);
    assert_eq!(b.drop_tag(), no(3));
    assert_eq!(b.load_and_map(0), no(3));
    assert_eq!(b.user_access(0, false, 1, 0, 0), done(0, REFILLED));
    assert_eq!(b.tag, (false, u64::MAX));
    assert_eq!(b.tag(NAME), DONE);
    assert_eq!(b.tag, (true, NAME));
}

/// Load-and-map asks 8 and 13 of the page map even if the line is held; then leaves a held record
/// with another physical line alone.
#[test]
fn load_and_map_held_elsewhere() {
    let mut b = ready();
    put(&mut b, 0, rec(NAME, 300, true, false));
    b.tag(NAME);
    let before = b.clone();
    assert_eq!(b.load_and_map(300), no(13));
    assert_eq!(b.load_and_map(0), no(13));
    b.words[1] = 0;
    assert_eq!(b.load_and_map(300), no(8));
    b.words[1] = before.words[1];
    assert_eq!(b, before);
    assert_eq!(b.step(&Call::LoadAndMap { line: 256 }), (DONE, Event::FoundHeld));
    assert_eq!(b, Board { tag: (false, 0), ..before });
}

/// Map drops by name only: a held line of another name with a physical line in the frame stays, and
/// held lines of the page with physical lines elsewhere go, without write-back.
#[test]
fn map_drops_by_name_only() {
    let mut b = Board::fresh(shape(4, 1, 1, 4));
    b.memory.fill(7);
    put(&mut b, 0, rec(NAME, 300, true, true)); // named in the page, elsewhere
    put(&mut b, 1, rec(0x1000_0201, 5, true, true)); // prefix 1 name of frame 2, elsewhere
    put(&mut b, 2, rec(0x3000_0002, 514, true, true)); // in frame 2, another name
    put(&mut b, 3, rec(0x1000_0303, 515, true, true)); // prefix 1 name of frame 3, in frame 2
    for place in 0..4 {
        paint(&mut b, place, 0x90 + place as u8);
    }
    let before = b.clone();
    assert_eq!(
        b.step(&Call::Map { page: PAGE, frame: 2, write: false }),
        (DONE, Event::Mapped { by_page: 1, by_prefix1: 1 })
    );
    assert_eq!(b.records[..4], [0; 4]);
    assert_eq!(b.records[4..], before.records[4..]);
    assert_eq!(b.cache, before.cache);
    for (i, &byte) in b.memory.iter().enumerate() {
        assert_eq!(byte, if i / 4096 == 2 { 0 } else { 7 });
    }
}

/// Unmap: lines named in the page go to their own physical lines; a tag of the page stays pending.
#[test]
fn unmap_leaves_tag_and_uses_own_lines() {
    let mut b = ready();
    put(&mut b, 0, rec(NAME, 3, true, true));
    paint(&mut b, 0, 0x77);
    b.tag(NAME);
    assert_eq!(b.unmap(PAGE), DONE);
    assert_eq!(b.memory[48..64], [0x77; 16]);
    assert_eq!(b.tag, (true, NAME));
    assert_eq!(b.load_and_map(256), no(8));
}

/// "and those of the new name": held lines of a page that isn't mapped, changed or not, whatever their permission. They go to
/// their own physical lines and are dropped, as the old page's are.
#[test]
fn move_takes_lines_of_the_new_page() {
    for (old_changed, new_changed) in [(false, false), (false, true), (true, false), (true, true)] {
        let mut b = ready();
        put(&mut b, 0, rec(NAME + 4, 3, old_changed, false));
        put(&mut b, 1, rec(NAME + 256 + 7, 900, new_changed, true));
        paint(&mut b, 0, 0x10);
        paint(&mut b, 1, 0x20);
        let (mut memory, cache) = (b.memory.clone(), b.cache.clone());
        let event = moved((u64::from(old_changed), 1), (u64::from(new_changed), 1));
        assert_eq!(b.step(&Call::Move { page: PAGE, new_page: PAGE + 1 }), (DONE, event));
        if old_changed {
            memory[3 * 16..4 * 16].fill(0x10);
        }
        if new_changed {
            memory[900 * 16..901 * 16].fill(0x20);
        }
        assert_eq!((b.memory, b.cache, b.records), (memory, cache, vec![0; 4]));
        assert_eq!(b.words, [0, frame_word(PAGE + 1, true), 0, 0]);
    }
}

/// One physical line under both names, in both orders: the higher record's bytes stand in memory, if it is changed; then the new
/// page shows them, where the line is of its frame.
#[test]
fn move_with_one_line_under_both_names() {
    // The names' places are 0 and 1; which of them is changed; the byte that stands in memory.
    for (low, high, byte) in [(true, true, 0x20), (true, false, 0x10), (false, true, 0x20), (false, false, 0)] {
        for (page, new_page) in [(PAGE, PAGE + 1), (PAGE + 1, PAGE)] {
            let mut b = ready();
            b.words[1] = frame_word(page, true);
            put(&mut b, 0, rec(NAME + 2, 258, low, true));
            put(&mut b, 1, rec(NAME + 256 + 3, 258, high, true));
            paint(&mut b, 0, 0x10);
            paint(&mut b, 1, 0x20);
            // The lower record is of PAGE.
            let (lower, higher) = ((u64::from(low), 1), (u64::from(high), 1));
            let event = if page == PAGE { moved(lower, higher) } else { moved(higher, lower) };
            assert_eq!(b.step(&Call::Move { page, new_page }), (DONE, event));
            assert_eq!(b.look(258), (0, vec![byte; 16]), "{low} {high} {page:#x}");
            assert_eq!(b.memory[258 * 16..259 * 16], [byte; 16]);
            assert_eq!(b.supervisor_access(false, 1, new_page * 4096 + 32, 0), done(byte.into(), REFILLED));
        }
    }
}

/// Move drops by name only: lines of other names with a physical line in the frame stay, the frame's prefix 1 lines too, changed
/// as they are.
#[test]
fn move_drops_by_name_only() {
    let mut b = Board::fresh(shape(4, 1, 1, 4));
    b.memory.fill(7);
    b.words[1] = frame_word(PAGE, false);
    put(&mut b, 0, rec(NAME, 300, true, true)); // named in the old page
    put(&mut b, 1, rec(0x1000_0101, 257, true, true)); // prefix 1 name of the page's frame, in it
    put(&mut b, 2, rec(0x3000_0002, 258, true, true)); // in the frame, another name
    put(&mut b, 3, rec(NAME + 256 + 3, 515, true, false)); // named in the new page, elsewhere
    for place in 0..4 {
        paint(&mut b, place, 0x90 + place as u8);
    }
    let before = b.clone();
    assert_eq!(b.step(&Call::Move { page: PAGE, new_page: PAGE + 1 }), (DONE, moved((1, 1), (1, 1))));
    assert_eq!((&b.records[..2], &b.records[6..]), (&[0; 2][..], &[0; 2][..]));
    assert_eq!(b.records[2..6], before.records[2..6]);
    assert_eq!(b.cache, before.cache);
    for (line, bytes) in b.memory.chunks(16).enumerate() {
        let byte = match line {
            300 => 0x90,
            515 => 0x93,
            _ => 7,
        };
        assert_eq!(bytes, [byte; 16], "line {line}");
    }
    assert_eq!(b.words, [0, frame_word(PAGE + 1, false), 0, 0]);
    // Line 257 is the page's second one, which has the prefix 1 line's place: that is written back before the fill.
    assert_eq!(b.supervisor_access(false, 1, (PAGE + 1) * 4096 + 16, 0), done(0x91, WROTE_BACK));
}

/// The write bit is the word's, whatever permission the lines have.
#[test]
fn move_asks_the_word_for_the_write_bit() {
    for write in [false, true] {
        let mut b = ready();
        b.words[1] = frame_word(PAGE, write);
        put(&mut b, 0, rec(NAME, 256, true, !write));
        put(&mut b, 1, rec(NAME + 256 + 1, 257, false, !write));
        assert_eq!(b.step(&Call::Move { page: PAGE, new_page: PAGE + 1 }), (DONE, moved((1, 1), (0, 1))));
        assert_eq!(b.words[1], (PAGE + 1) * 4 + if write { 3 } else { 1 });
        let store = b.user_access(0, true, 1, 4096 + 16, 5);
        assert_eq!(store, if write { done(0, REFILLED) } else { no(9) });
    }
}

/// Any pending tag is ignored and stays as it is, one of no name that tag takes as well; so does what stands where none pends.
#[test]
fn move_leaves_the_tag() {
    for tag in [(true, NAME), (true, NAME + 256), (true, 0), (true, u64::MAX), (false, u64::MAX), (false, NAME)] {
        let mut b = ready();
        b.tag = tag;
        assert_eq!(b.move_page(PAGE, PAGE + 1), DONE);
        assert_eq!(b.tag, tag);
        assert_eq!(b.move_page(PAGE, PAGE + 1), no(8));
        assert_eq!(b.move_page(PAGE + 1, PAGE + 1), no(11));
        assert_eq!(b.tag, tag);
    }
}

/// A hit without mapping is gone with the move: a held line of the new page decided what was seen there, and no longer does.
#[test]
fn move_uncovers_the_frame() {
    let mut b = ready();
    put(&mut b, 0, rec(NAME + 256, 300, false, true));
    paint(&mut b, 0, 0x66);
    assert_eq!(b.user_access(0, false, 1, 4096, 0), done(0x66, HIT));
    assert_eq!(b.move_page(PAGE, PAGE + 1), DONE);
    // Map's zeros.
    assert_eq!(b.user_access(0, false, 1, 4096, 0), done(0, REFILLED));
}

/// Prefix 1 and write permission: 9 is for users, so a held prefix 1 line without it takes stores.
#[test]
fn prefix_1_line_without_permission() {
    let mut b = ready();
    put(&mut b, 0, rec(0x1000_0200, 3, false, false));
    paint(&mut b, 0, 0x12);
    assert_eq!(b.supervisor_access(true, 1, 0x1_0000_2000, 0x34), done(0, HIT));
    assert_eq!(b.record(0), rec(0x1000_0200, 3, true, false));
    assert_eq!(b.supervisor_access(false, 2, 0x1_0000_2000, 0), done(0x3412, HIT));
}

/// A store marks its line changed even if the bytes stay the same.
#[test]
fn store_of_equal_bytes() {
    let mut b = ready();
    assert_eq!(b.user_access(0, true, 4, 0, 0), done(0, REFILLED));
    assert_eq!(b.record(0), rec(NAME, 256, true, true));
}

/// Slot words out of range count as empty; detach sets 0 whatever was there.
#[test]
fn odd_slots() {
    for word in [1, 2, 2047 * 2 + 1, 4_190_208 * 2, u32::MAX, (1 << 31) + 2048 * 2 + 1] {
        let mut b = ready();
        b.slots[0] = word;
        assert_eq!(b.user_access(0, true, 1, 0, 0), no(6));
        assert_eq!(b.detach(0, 0), DONE);
        assert_eq!(b.slots[0], 0);
    }
}

// ----- random wild boards -----

const SEGMENTS: [u64; 5] = [2048, 2049, 3072, 2048 + 0x20_0000, 4_190_207];

fn wild_page(r: &mut Rng) -> u64 {
    if r.chance(20) {
        return r.next() >> r.below(64);
    }
    if r.chance(12) {
        return r.pick(&[0, 1, 0x10_0000, 0x10_0001, 0x1F_FFFF, 0xFFC0_0000, 0xFFFF_FFFF, PAGE + (1 << 32)]);
    }
    r.pick(&SEGMENTS) * 1024 + r.below(2)
}

fn wild_name(r: &mut Rng) -> u64 {
    if r.chance(20) {
        return r.next() >> r.below(64);
    }
    if r.chance(4) {
        return 0x1000_0000 + r.below(5) * 256 + r.pick(&[0, 1, 2, 3, 8, 255]);
    }
    (wild_page(r) % (1 << 56)) * 256 + r.pick(&[0, 1, 2, 3, 8, 255])
}

fn wild_word(r: &mut Rng) -> u64 {
    match r.below(6) {
        0 | 1 => 0,
        2 => r.next(),
        _ => (wild_page(r) % (1 << 40)) * 4 + r.pick(&[1, 3, 1, 3, 1, 3, 0, 2]),
    }
}

fn wild_board(r: &mut Rng) -> Board {
    let frames = 1 + r.below(4);
    let s = shape(frames, r.below(frames + 1).min(r.below(frames + 1)), 1 + r.below(2), 1 << r.below(4));
    let mut b = Board::fresh(s);
    for _ in 0..8 {
        let slot = r.below(s.processes) * 512 + r.below(4);
        b.slots[slot as usize] = if r.chance(8) { r.next() as u32 } else { slot_word(r.pick(&SEGMENTS), r.flip()) };
    }
    for word in b.words.iter_mut() {
        *word = wild_word(r);
    }
    for place in 0..s.lines {
        let mut name = wild_name(r);
        if !r.chance(8) {
            name = name / s.lines * s.lines + place;
        }
        let line = if r.chance(12) { r.next() >> 3 } else { r.below(256 * frames) };
        put(&mut b, place, Record { name, line, changed: r.flip(), write: r.flip(), valid: !r.chance(6) });
    }
    b.cache.iter_mut().for_each(|x| *x = r.next() as u8);
    b.memory.iter_mut().for_each(|x| *x = r.next() as u8);
    b.tag = (r.chance(5), wild_name(r));
    b
}

fn wild_call(r: &mut Rng, b: &Board) -> Call {
    let huge = |r: &mut Rng, n: u64| if r.chance(40) { r.next() >> r.below(64) } else { n };
    let store = r.flip();
    let width = if r.chance(30) { r.next() as u32 } else { r.pick(&[1, 1, 1, 2, 4]) };
    let value = r.value(width);
    let within = r.pick(&[0, 1, 2, 3, 8, 255]) * 16 + r.below(16);
    match r.below(15) {
        0..=3 => {
            let process = r.below(b.shape.processes);
            let process = huge(r, process);
            let address = (r.below(4) << 22) + r.below(2) * 4096 + within;
            let address = huge(r, address) as u32;
            Call::UserAccess { process, store, width, address, value }
        }
        4..=6 => {
            let global = match r.below(4) {
                0 => 0x1_0000_0000 + r.below(5) * 4096 + within,
                1 => r.below(5) * 4096 + within,
                // The address of a record's name, or of a page of the pool.
                2 => (b.records[2 * r.below(b.shape.lines) as usize] % (1 << 40)) * 16 + r.below(16),
                _ => (wild_page(r) % (1 << 32)) * 4096 + within,
            };
            Call::SupervisorAccess { store, width, global: huge(r, global), value }
        }
        7 => {
            let (process, slot, segment) = (r.below(2), r.below(4), r.pick(&SEGMENTS));
            Call::Attach { process: huge(r, process), slot: huge(r, slot), segment: huge(r, segment), write: r.flip() }
        }
        8 => Call::Detach { process: r.below(2), slot: r.below(4) },
        9 => {
            let frame = r.below(5);
            Call::Map { page: wild_page(r), frame: huge(r, frame), write: r.flip() }
        }
        10 => Call::Unmap { page: wild_page(r) },
        11 => Call::Protect { page: wild_page(r), write: r.flip() },
        12 => Call::Move { page: wild_page(r), new_page: wild_page(r) },
        13 => {
            if r.flip() {
                Call::FlushAll
            } else {
                Call::Tag { name: wild_name(r) }
            }
        }
        _ => {
            let line = if b.tag.0 && r.flip() {
                mapping(&b.shape, &b.words, b.tag.1 / 256).map_or(0, |(f, _)| f * 256 + b.tag.1 % 256)
            } else {
                r.below(1100)
            };
            if r.chance(4) {
                Call::DropTag
            } else {
                Call::LoadAndMap { line: huge(r, line) }
            }
        }
    }
}

/// What moves met on wild boards.
#[derive(Debug, Default)]
struct Moves {
    done: u32,
    old_lines: u32,
    new_lines: u32,
    both: u32,
    doubled: u32,
}

impl Moves {
    /// CR 9, seen from outside: one word changes, by its page alone; lines of neither page are held; other records stay; memory
    /// has what the changed lines of both pages had, the highest record's last.
    fn add(&mut self, before: &Board, call: &Call, after: &Board) {
        let &Call::Move { page, new_page } = call else { unreachable!("{call:?}") };
        let of = |word: u64, page: u64| word / 4 == page && word % 2 == 1;
        let mut words = before.words.clone();
        let mut frames = (before.shape.uncached..before.shape.frames).filter(|&frame| of(words[frame as usize], page));
        let frame = frames.next().expect("it is mapped") as usize;
        self.doubled += u32::from(frames.next().is_some());
        words[frame] = words[frame] - 4 * page + 4 * new_page;
        assert_eq!(after.words, words, "{call:?}");

        let (mut memory, mut lines) = (before.memory.clone(), [0, 0]);
        for place in 0..before.shape.lines {
            let record = before.held(place).filter(|record| [page, new_page].contains(&(record.name / 256)));
            let Some(record) = record else {
                assert_eq!(after.record(place), before.record(place), "{call:?}");
                continue;
            };
            lines[usize::from(record.name / 256 == new_page)] += 1;
            assert_eq!(after.records[2 * place as usize..][..2], [0, 0], "{call:?}");
            if record.changed {
                let (line, at) = (16 * record.line as usize, 16 * place as usize);
                memory[line..line + 16].copy_from_slice(&before.cache[at..at + 16]);
            }
        }
        assert_eq!((&after.memory, &after.cache), (&memory, &before.cache), "{call:?}");
        self.done += 1;
        self.old_lines += u32::from(lines[0] > 0);
        self.new_lines += u32::from(lines[1] > 0);
        self.both += u32::from(lines[0] > 0 && lines[1] > 0);
    }
}

/// Laws that 01 states and that can be seen from outside, on random wild boards.
#[test]
fn laws_on_random_wild_boards() {
    let mut r = Rng(0x9E37_79B9_7F4A_7C15);
    let mut seen = [0u32; 14];
    let mut beside = [0u32; 14];
    let mut marks = [[0u32; 5]; 2];
    let mut moves = Moves::default();
    for _ in 0..4_000 {
        let mut b = wild_board(&mut r);
        for _ in 0..8 {
            let call = wild_call(&mut r, &b);
            let before = b.clone();
            let (a, e) = b.step(&call);
            seen[a.number as usize] += 1;
            // CR 2: a value that does not fit is refused by 2, whatever else applies; no other makes a difference.
            if let Some((store, width, value)) = access_of(&call) {
                let large = store && (width == 1 && value > 0xFF || width == 2 && value > 0xFFFF);
                let otherwise = before.clone().step(&access_with(&call, (store, width, 0))).0.number;
                assert_eq!(a.number, if large { 2 } else { otherwise }, "{call:?}");
                beside[otherwise as usize] += u32::from(large);
            }
            if a.number != 0 {
                assert_eq!((a, e), (no(a.number), Event::Refused(a.number)));
                assert_eq!(b, before, "{call:?}");
                continue;
            }
            assert_eq!((b.shape, b.lengths()), (before.shape, before.lengths()));
            if !matches!(call, Call::Attach { .. } | Call::Detach { .. }) {
                assert_eq!(b.slots, before.slots);
            }
            if !matches!(call, Call::Map { .. } | Call::Unmap { .. } | Call::Protect { .. } | Call::Move { .. }) {
                assert_eq!(b.words, before.words);
            }
            if !matches!(call, Call::Tag { .. } | Call::LoadAndMap { .. } | Call::DropTag) {
                assert_eq!(b.tag, before.tag);
            }
            match access_of(&call) {
                Some((true, width, value)) => {
                    assert_eq!(a.value, 0);
                    // Loaded back, the value is whole.
                    let back = b.clone().step(&access_with(&call, (false, width, 0))).0;
                    assert_eq!((back.number, back.value), (0, value), "{call:?}");
                }
                Some(_) => {}
                None => assert_eq!(a, DONE),
            }
            let global = match call {
                Call::UserAccess { process, address, .. } => {
                    let word = before.slots[(process * 512 + u64::from(address >> 22)) as usize];
                    Some((u64::from(word >> 1) << 22) | u64::from(address & 0x3F_FFFF))
                }
                Call::SupervisorAccess { global, .. } if global >= 1 << 32 => Some(global),
                Call::SupervisorAccess { .. } => {
                    assert_eq!(a.mark, UNCACHED);
                    None
                }
                _ => None,
            };
            if let Some((store, ..)) = access_of(&call) {
                marks[usize::from(store)][a.mark as usize] += 1;
                // The records decide the mark, and no byte does.
                let mut other = before.clone();
                other.cache.fill(r.next() as u8);
                other.memory.fill(r.next() as u8);
                assert_eq!(other.step(&call).0.mark, a.mark, "{call:?}");
            }
            if let Some(global) = global {
                // "the mark is defined by the record before the call"
                let name = global >> 4;
                let place = name & (b.shape.lines - 1);
                let old = before.record(place);
                let holds = old.valid && old.name & (b.shape.lines - 1) == place && old.line < 256 * b.shape.frames;
                let mark = match (holds, old.name == name, old.changed) {
                    (true, true, _) => HIT,
                    (true, false, true) => WROTE_BACK,
                    _ => REFILLED,
                };
                assert_eq!(a.mark, mark, "{call:?} after {old:?}");
                // "An access alters no record but the one at its own place."
                for other in (0..b.shape.lines).filter(|&p| p != place) {
                    assert_eq!(b.record(other), before.record(other));
                    assert_eq!(b.cache[16 * other as usize..][..16], before.cache[16 * other as usize..][..16]);
                }
                assert_eq!(b.record(place).name, name);
                // Memory changes only by the write-back.
                let mut memory = before.memory.clone();
                if mark == WROTE_BACK {
                    let (line, at) = (16 * old.line as usize, 16 * place as usize);
                    memory[line..line + 16].copy_from_slice(&before.cache[at..at + 16]);
                }
                assert_eq!(b.memory, memory);
            }
            match e {
                Event::Flushed { written, dropped } => {
                    assert!(written <= dropped);
                    for place in 0..b.shape.lines {
                        assert!(b.held(place).is_none());
                        if before.held(place).is_none() {
                            assert_eq!(b.record(place), before.record(place));
                        }
                    }
                    assert_eq!(b.cache, before.cache);
                    if written == 0 {
                        assert_eq!(b.memory, before.memory);
                    }
                }
                Event::Unmapped { .. } | Event::Mapped { .. } => assert_eq!(b.cache, before.cache),
                Event::Protected { .. } => assert_eq!((&b.cache, &b.memory), (&before.cache, &before.memory)),
                Event::Uncached => assert_eq!((&b.cache, &b.records), (&before.cache, &before.records)),
                Event::Moved { .. } => moves.add(&before, &call, &b),
                _ => {}
            }
        }
    }
    // Number 1 has its own tests; every other number has been met, those of an access beside a value that does not fit too.
    assert!(seen.iter().enumerate().all(|(n, &count)| n == 1 || count > 0), "{seen:?}");
    assert!(beside.iter().enumerate().all(|(n, &count)| matches!(n, 1 | 11 | 13) || count > 0), "{beside:?}");
    // Moves have met lines of either page, and both; doubled pages.
    let Moves { done, old_lines, new_lines, both, doubled } = moves;
    assert!([done, old_lines, new_lines, both, doubled].iter().all(|&count| count > 0), "{moves:?}");
    // So has every mark that a done load or store may have; 0 is none of them.
    assert!(marks.iter().all(|counts| counts[0] == 0 && counts[1..].iter().all(|&count| count > 0)), "{marks:?}");
}

/// Lengths and numbers that disagree, huge arguments: no call panics, and each gives 1.
#[test]
fn no_panic_on_wild_lengths() {
    let mut r = Rng(0xDEAD_BEEF_1234_5678);
    let mut refused = 0;
    for _ in 0..3_000 {
        let mut b = wild_board(&mut r);
        let calls: Vec<Call> = (0..12).map(|_| wild_call(&mut r, &b)).collect();
        for _ in 0..1 + r.below(2) {
            let n = r.below(40) as usize;
            let wild = r.next() >> r.below(64);
            match r.below(9) {
                0 => b.slots.resize(b.slots.len() / 40 * n, 1),
                1 => b.words.resize(n, 1),
                2 => b.records.resize(n, 1),
                3 => b.cache.resize(16 * n, 1),
                4 => b.memory.resize(b.memory.len() / 20 * n, 1),
                5 => b.shape.frames = wild,
                6 => b.shape.uncached = wild,
                7 => b.shape.processes = wild,
                _ => b.shape.lines = wild,
            }
        }
        let fits = b.fits();
        for call in calls {
            let before = b.clone();
            let (a, _) = b.step(&call);
            assert_eq!(a.number == 1, !fits);
            if !fits {
                assert_eq!(b, before);
                refused += 1;
            }
            let mut plain = Plain::of(&before);
            assert_eq!(plain.step(&call).number == 1, !fits);
            for line in [0, 1, 255, r.next()] {
                assert_eq!(b.look(line).0 == 1, !fits);
            }
        }
    }
    assert!(refused > 20_000);
}
