// The safe crate beside the hostile test: limits, words, look's parts, values, marks, moved pages, the load in two parts, both
// kinds of buffers, entries.
use oaledva::{entry_of_page, Board, Edition, Lent, Mark, Refusal, Shape};
use std::ops::DerefMut;
use std::panic::catch_unwind;

const SHAPE: Shape = Shape { frames: 4, uncached: 1, processes: 2, lines: 2 };
const PAGE: u64 = 0x200000;

fn mapped() -> Board {
    let mut board = Board::new(SHAPE).unwrap();
    board.map(PAGE, 1, true).unwrap();
    board.attach(0, 0, 2048, true).unwrap();
    board
}

#[test]
fn the_limits_are_the_library_s() {
    for frames in [0, 1, 4] {
        for uncached in [0, frames, frames + 1] {
            for processes in [0, 1, Shape::PROCESSES_MAX, Shape::PROCESSES_MAX + 1] {
                for lines in [0, 1, 2, 3, Shape::LINES_MAX, 2 * Shape::LINES_MAX] {
                    let shape = Shape { frames, uncached, processes, lines };
                    let (mut slots, mut words) = (vec![0; shape.slots()], vec![0; shape.words()]);
                    let (mut records, mut cache) = (vec![0; shape.records()], vec![0; shape.cache()]);
                    let mut memory = vec![0; shape.memory()];
                    let lent = Lent::over(shape, &mut slots, &mut words, &mut records, &mut cache, &mut memory, None);
                    assert_eq!(shape.keeps_limits(), lent.look_number(0) == 0, "{shape:?}");
                    assert_eq!(Board::new(shape).is_ok(), shape.keeps_limits(), "{shape:?}");
                }
            }
        }
    }
    for frames in [Shape::FRAMES_MAX + 1, usize::MAX] {
        assert_eq!(Board::new(Shape { frames, ..SHAPE }), Err(Refusal::Shape));
    }
}

#[test]
fn refusals_have_numbers_and_words() {
    for number in 1..=13 {
        let refusal = Refusal::of(number).unwrap();
        assert_eq!(refusal.number(), number);
        assert_eq!(refusal.to_string(), format!("{} (number {number})", refusal.reason()));
    }
    assert_eq!(Refusal::of(0), None);
    assert!(catch_unwind(|| Refusal::of(14)).is_err());
    assert_eq!(
        mapped().load(1, 1, 3).unwrap_err().to_string(),
        "no segment is attached to the address's slot (number 6)"
    );
}

#[test]
fn marks_have_numbers_and_words() {
    let marks = [Mark::NoAccess, Mark::Hit, Mark::Refilled, Mark::WroteBack, Mark::Uncached];
    for (number, mark) in (0..).zip(marks) {
        assert_eq!((mark.number(), Mark::of(number)), (number, mark));
        assert_eq!(mark.to_string(), format!("{} (mark {number})", mark.words()));
    }
    for number in [5, 255, 256, u32::MAX] {
        assert!(catch_unwind(|| Mark::of(number)).is_err(), "{number}");
    }
    assert_eq!(Mark::Hit.to_string(), "the line was held when the access came (mark 1)");
}

#[test]
fn a_refused_call_leaves_an_equal_board() {
    let mut board = mapped();
    board.store(0, 4, 0, 50).unwrap();
    assert_eq!((board.load(0, 4, 0), board.hit()), (Ok(50), true));
    let before = board.clone();
    assert_eq!((board.load(1, 1, 3), board.hit()), (Err(Refusal::SlotEmpty), false));
    assert_eq!(board, before);
    board.store(0, 1, 0, 1).unwrap();
    assert_ne!(board, before);
}

#[test]
fn look_gives_a_part_of_the_board_itself() {
    let mut board = mapped();
    board.store(0, 4, 16, 0x01020304).unwrap();
    let line = 256 + 1;
    let held = board.look(line).unwrap();
    assert_eq!(held[..4], [1, 2, 3, 4]);
    assert_eq!(held.as_ptr(), board.cache()[16..].as_ptr());
    board.flush_all().unwrap();
    let flushed = board.look(line).unwrap();
    assert_eq!(flushed[..4], [1, 2, 3, 4]);
    assert_eq!(flushed.as_ptr(), board.memory()[16 * line..].as_ptr());
    assert_eq!(board.look(4 * 256), Err(Refusal::Range));
}

/// A user's store, and a supervisor's to an ordinary address, under prefix 0 and under prefix 1.
#[test]
fn a_store_takes_what_fits_its_width() {
    let mut board = mapped();
    let addresses = [PAGE * 4096 + 8, 8, (1 << 32) + 2 * 4096 + 8];
    let widths: [(u32, u32, &[u32]); 3] =
        [(1, 0xFF, &[0x100, u32::MAX]), (2, 0xFFFF, &[0x1_0000, u32::MAX]), (4, u32::MAX, &[])];
    for (width, largest, refused) in widths {
        board.store(0, width, 4, largest).unwrap();
        assert_eq!(board.load(0, width, 4), Ok(largest));
        for address in addresses {
            board.supervisor_store(width, address, largest).unwrap();
            assert_eq!(board.supervisor_load(width, address), Ok(largest));
        }
        let before = board.clone();
        for &value in refused {
            assert_eq!(board.store(0, width, 4, value), Err(Refusal::Range), "{value:#x}");
            assert_eq!(board.store(1, width, 5, value), Err(Refusal::Range), "{value:#x}, to an empty slot");
            for address in addresses {
                assert_eq!(board.supervisor_store(width, address, value), Err(Refusal::Range), "{value:#x}");
            }
        }
        assert_eq!(board.store(0, 3, 4, u32::MAX), Err(Refusal::Alignment));
        assert_eq!(board, before);
    }
    assert_eq!(
        board.store(0, 1, 4, 300).unwrap_err().to_string(),
        "a process, slot, segment, frame, physical line, line name, page or global address is outside its range, or a store's \
         value does not fit its width (number 2)"
    );
}

/// Each mark, on a board as `mapped` gives it. The lines of a user's addresses 0 and 32, and that under prefix 1, have one place:
/// they push each other out.
fn every_mark<Slots, Words, Bytes>(board: &mut Board<Slots, Words, Bytes>)
where
    Slots: DerefMut<Target = [u32]>,
    Words: DerefMut<Target = [u64]>,
    Bytes: DerefMut<Target = [u8]>,
{
    let (prefix_1, most) = ((1 << 32) + 2 * 4096, u32::MAX);
    assert_eq!((board.store(0, 4, 0, most), board.mark()), (Ok(()), Mark::Refilled));
    assert!(!board.hit());
    assert_eq!((board.load(0, 4, 0), board.mark()), (Ok(most), Mark::Hit));
    assert!(board.hit());
    assert_eq!((board.load(0, 4, 32), board.mark()), (Ok(0), Mark::WroteBack));
    assert!(!board.hit());
    assert_eq!((board.load(0, 4, 0), board.mark()), (Ok(most), Mark::Refilled));
    assert_eq!((board.store(0, 1, 0, 255), board.mark()), (Ok(()), Mark::Hit));
    assert_eq!((board.store(0, 4, 32, most), board.mark()), (Ok(()), Mark::WroteBack));

    assert_eq!((board.supervisor_load(4, prefix_1), board.mark()), (Ok(0), Mark::WroteBack));
    assert_eq!((board.supervisor_store(4, prefix_1, most), board.mark()), (Ok(()), Mark::Hit));
    assert_eq!((board.supervisor_store(4, PAGE * 4096, most), board.mark()), (Ok(()), Mark::WroteBack));
    assert_eq!((board.supervisor_load(4, PAGE * 4096), board.mark()), (Ok(most), Mark::Hit));
    for _ in 0..2 {
        assert_eq!((board.supervisor_store(4, 8, most), board.mark()), (Ok(()), Mark::Uncached));
        assert_eq!((board.supervisor_load(4, 8), board.mark()), (Ok(most), Mark::Uncached));
        assert!(!board.hit());
    }

    // A look leaves it; a refused access has none; nor has a call that is no access, though it writes a line back.
    assert_eq!((board.look(256).is_ok(), board.look_number(256), board.mark()), (true, 0, Mark::Uncached));
    assert_eq!((board.load(0, 4, 2), board.mark()), (Err(Refusal::Alignment), Mark::NoAccess));
    assert_eq!((board.store(0, 1, 3, 1), board.mark(), board.memory()[4096 + 3]), (Ok(()), Mark::Hit, 255));
    assert_eq!((board.tag(PAGE * 256 + 2), board.mark()), (Ok(()), Mark::NoAccess));
    assert_eq!((board.load(0, 1, 3), board.mark()), (Err(Refusal::Tag), Mark::NoAccess));
    assert_eq!((board.load_and_map(256 + 2), board.mark(), board.memory()[4096 + 3]), (Ok(()), Mark::NoAccess, 1));
    assert_eq!((board.load(0, 4, 32), board.mark()), (Ok(most), Mark::Hit));
    assert_eq!((board.flush_all(), board.mark()), (Ok(()), Mark::NoAccess));
    assert_eq!((board.load(0, 4, 32), board.mark()), (Ok(most), Mark::Refilled));
}

/// In both editions: more lines of the page are changed than the cache has, so that some are held and others in memory.
#[test]
fn a_moved_page_keeps_its_bytes() {
    let shape = Shape { lines: 4, ..SHAPE };
    let (new_page, last) = (PAGE + 1024, 0xFFBF_FFFF); // of segment 2049, and the last ordinary one
    for mut board in [Board::new(shape).unwrap(), Board::sets_of_four(shape).unwrap()] {
        board.map(PAGE, 1, true).unwrap();
        board.map(PAGE + 1, 2, false).unwrap();
        board.attach(0, 0, 2048, true).unwrap();
        board.attach(1, 0, 2049, false).unwrap();
        (0..6).for_each(|line| board.store(0, 4, 16 * line, 50 + line).unwrap());
        board.tag(PAGE * 256).unwrap();
        let before = board.clone();
        for (page, new_page, refusal) in [
            (PAGE - 1, new_page, Refusal::Range),
            (last + 1, new_page, Refusal::Range),
            (PAGE, PAGE - 1, Refusal::Range),
            (PAGE, last + 1, Refusal::Range),
            (PAGE, (1 << 32) + PAGE, Refusal::Range),
            (PAGE + 2, last + 1, Refusal::Range),
            (PAGE + 2, new_page, Refusal::NotMapped),
            (PAGE + 2, PAGE + 2, Refusal::NotMapped),
            (PAGE + 2, PAGE + 1, Refusal::NotMapped),
            (PAGE, PAGE + 1, Refusal::MappedAlready),
            (PAGE, PAGE, Refusal::MappedAlready),
        ] {
            let refused = (Err(refusal), Mark::NoAccess);
            assert_eq!((board.move_page(page, new_page), board.mark()), refused, "{page:#x}, {new_page:#x}");
            assert_eq!(board, before, "{page:#x}, {new_page:#x}");
        }
        // A pending tag is not asked, and stays.
        assert_eq!((board.move_page(PAGE, new_page), board.mark()), (Ok(()), Mark::NoAccess));
        assert_eq!((board.pending(), board.load_and_map(256)), (Some(PAGE * 256), Err(Refusal::NotMapped)));
        board.drop_tag().unwrap();
        assert_eq!((board.words(), board.uses()), (&[0, new_page * 4 + 3, (PAGE + 1) * 4 + 1, 0][..], before.uses()));
        assert!(board.records().iter().all(|&word| word == 0));
        for line in 0..6 {
            assert_eq!(board.memory()[4096 + 16 * line as usize + 3], 50 + line as u8);
            assert_eq!(board.load(0, 4, 16 * line), Err(Refusal::NotMapped));
            assert_eq!((board.load(1, 4, 16 * line), board.mark()), (Ok(50 + line), Mark::Refilled));
        }
        assert_eq!(board.store(1, 4, 0, 1), Err(Refusal::SlotReadOnly));
        // A page that is read-only stays so.
        board.move_page(PAGE + 1, last).unwrap();
        assert_eq!(board.words()[2], last * 4 + 1);
    }
}

/// Lines of a page that is not mapped, which no run of calls leaves: those of the new page are written back and dropped, too.
#[test]
fn a_move_takes_the_lines_of_the_new_page() {
    let (shape, new_page) = (Shape { lines: 4, ..SHAPE }, PAGE + 1);
    let changed = |page: u64, line: u64, physical: u64| [page * 256 + line, physical * 8 + 7];
    // The second is beyond memory, so it holds nothing; the last is of another page. They stand right for both editions.
    let before = [
        changed(PAGE, 0, 256),
        changed(new_page, 1, 4 * 256),
        changed(new_page, 2, 2 * 256 + 5),
        changed(PAGE + 2, 3, 3 * 256 + 3),
    ];
    for edition in [Edition::OnePlace, Edition::SetsOfFour] {
        let (mut slots, mut words) = (vec![0; shape.slots()], [0, PAGE * 4 + 3, 0, 0]);
        let (mut records, mut cache, mut memory) = (before.concat(), vec![9; shape.cache()], vec![0; shape.memory()]);
        let (own, mut uses) = (&mut memory, [[[0; 4]; 4]]);
        let mut board = match edition {
            Edition::OnePlace => Lent::over(shape, &mut slots, &mut words, &mut records, &mut cache, own, None),
            Edition::SetsOfFour => {
                Lent::over_sets_of_four(shape, &mut slots, &mut words, &mut records, &mut cache, own, &mut uses, None)
            }
        };
        board.move_page(PAGE, new_page).unwrap();
        assert_eq!((words, uses), ([0, new_page * 4 + 3, 0, 0], [[[0; 4]; 4]]));
        assert_eq!(records, [[0; 2], before[1], [0; 2], before[3]].concat());
        let written: Vec<usize> = (0..4 * 256).filter(|line| memory[16 * line] == 9).collect();
        assert_eq!(written, [256, 2 * 256 + 5]);
    }
}

#[test]
fn a_load_in_two_parts() {
    let mut board = mapped();
    let name = PAGE * 256;
    assert_eq!(board.load_and_map(256), Err(Refusal::Tag));
    board.tag(name).unwrap();
    assert_eq!((board.pending(), board.load(0, 1, 0)), (Some(name), Err(Refusal::Tag)));
    assert_eq!(board.load_and_map(257), Err(Refusal::OtherLine));
    board.load_and_map(256).unwrap();
    assert_eq!((board.pending(), board.load(0, 1, 0), board.hit()), (None, Ok(0), true));
    board.tag(name).unwrap();
    board.drop_tag().unwrap();
    assert_eq!(board.pending(), None);
}

#[test]
fn an_owned_and_a_lent_board_are_one_machine() {
    let mut own = mapped();
    let (mut slots, mut words) = (own.slots().to_vec(), own.words().to_vec());
    let (mut records, mut cache, mut memory) = (own.records().to_vec(), own.cache().to_vec(), own.memory().to_vec());
    let mut lent = Lent::over(SHAPE, &mut slots, &mut words, &mut records, &mut cache, &mut memory, None);
    assert_eq!((Board::new(SHAPE).unwrap().mark(), lent.mark()), (Mark::NoAccess, Mark::NoAccess));
    every_mark(&mut own);
    every_mark(&mut lent);
    for (at, value) in [(0, 50), (32, 7), (0, 9)] {
        assert_eq!((own.store(0, 4, at, value), own.mark()), (lent.store(0, 4, at, value), lent.mark()));
        assert_eq!((own.load(0, 2, at + 2), own.mark()), (lent.load(0, 2, at + 2), lent.mark()));
    }
    assert_eq!((own.records(), own.cache(), own.memory()), (&records[..], &cache[..], &memory[..]));
}

#[test]
fn u_belongs_to_the_board() {
    // A line held with U = 0 is found with U = 1 too, which fits the same buffers: no frame from 1 up has its page.
    let own = Shape { frames: 1, uncached: 0, processes: 1, lines: 1 };
    let other = Shape { uncached: 1, ..own };
    let (mut slots, mut words) = (vec![0; own.slots()], vec![0; own.words()]);
    let (mut records, mut cache, mut memory) = (vec![0; own.records()], vec![0; own.cache()], vec![0; own.memory()]);
    let mut board = Lent::over(own, &mut slots, &mut words, &mut records, &mut cache, &mut memory, None);
    board.map(PAGE, 0, true).unwrap();
    board.attach(0, 0, 2048, true).unwrap();
    assert_eq!(board.load(0, 1, 0), Ok(0));
    let mut board = Lent::over(other, &mut slots, &mut words, &mut records, &mut cache, &mut memory, None);
    assert_eq!((board.load(0, 1, 0), board.hit()), (Ok(0), true));
    // Flushed, it is not found: what a machine without a cache says at once.
    board.flush_all().unwrap();
    assert_eq!(board.load(0, 1, 0), Err(Refusal::NotMapped));
}

#[test]
fn a_supervisor_reaches_what_users_cannot() {
    let mut board = mapped();
    board.protect(PAGE, false).unwrap();
    assert_eq!(board.store(0, 1, 0, 1), Err(Refusal::PageReadOnly));
    board.supervisor_store(1, PAGE * 4096, 1).unwrap();
    assert_eq!(board.load(0, 1, 0), Ok(1));
    board.supervisor_store(4, 8, 77).unwrap();
    assert_eq!((board.supervisor_load(4, 8), board.memory()[11]), (Ok(77), 77));
    board.detach(0, 0).unwrap();
    assert_eq!(board.load(0, 1, 0), Err(Refusal::SlotEmpty));
}

/// At the ends of what is refused, and three of 01's.
#[test]
fn the_entry_of_a_page() {
    for (page, address) in [
        (0x200000, 0xFFC_0080_0000),
        (0xFFFF_FFFF, 0xFFF_FFFF_FFFC),
        (0x048D_1401, 0xFFC_1234_5004),
        (0xFFC_1234_5004 / 4096, 0xFFF_FF04_8D14),
    ] {
        assert_eq!(entry_of_page(page), Ok(address), "page {page:#x}");
        assert_eq!(mapped().supervisor_load(4, address), Err(Refusal::Outside), "page {page:#x}");
    }
    for page in [0, 1, 0x1F_FFFF, 1 << 32, (1 << 32) + 0x20_0000, u64::MAX] {
        assert_eq!(entry_of_page(page), Err(Refusal::Range), "page {page:#x}");
    }
}
