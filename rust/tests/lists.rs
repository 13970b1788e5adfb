// Lists of accesses, of the safe crate: each does what its accesses do one after another, and a refused one does nothing.
use oaledva::ffi::Kind;
use oaledva::{Access, Answer, Board, Lent, Mark, Refusal, Shape};
use std::panic::catch_unwind;

const SHAPE: Shape = Shape { frames: 4, uncached: 1, processes: 2, lines: 2 };
const PAGE: u64 = 0x200000;

/// The page under segment 2048 may be written, the one under 2049 not; process 1 has 2048 read-only; slot 2 of process 0 has no
/// page.
fn mapped() -> Board {
    let mut board = Board::new(SHAPE).unwrap();
    board.map(PAGE, 1, true).unwrap();
    board.map(PAGE + 1024, 2, false).unwrap();
    for slot in 0..3 {
        board.attach(0, slot, 2048 + slot as u64, true).unwrap();
    }
    board.attach(1, 0, 2048, false).unwrap();
    board
}

/// Each number that an access may get but 1 and 3, and between them hits, refills and write-backs: the lines of the addresses 0
/// and 32 push each other out.
fn every_number() -> Vec<(Access, Result<u32, Refusal>, Mark)> {
    let refused = |access, refusal| (access, Err(refusal), Mark::NoAccess);
    vec![
        (Access::store(0, 4, 0, 50), Ok(0), Mark::Refilled),
        refused(Access::store(1, 4, 0, 51), Refusal::SlotReadOnly),
        (Access::load(1, 1, 3), Ok(50), Mark::Hit),
        refused(Access::load(2, 1, 3), Refusal::Range),
        refused(Access::load(1 << 32, 1, 3), Refusal::Range), // not cut to process 0
        refused(Access::store(0, 1, 3, 256), Refusal::Range),
        (Access::load(0, 4, 32), Ok(0), Mark::WroteBack),
        refused(Access::load(0, 4, 2), Refusal::Alignment),
        refused(Access::load(0, 1, 1 << 31), Refusal::Kernel),
        refused(Access::load(0, 1, 3 << 22), Refusal::SlotEmpty),
        refused(Access::load(0, 1, 2 << 22), Refusal::NotMapped),
        refused(Access::store(0, 1, 1 << 22, 1), Refusal::PageReadOnly),
        (Access::load(0, 4, 0), Ok(50), Mark::Refilled),
        (Access::store(0, 1, 2, 0x51), Ok(0), Mark::Hit),
        (Access::load(0, 2, 2), Ok(0x5132), Mark::Hit),
    ]
}

/// What an access gives by itself, and its mark.
fn alone(board: &mut Board, access: Access) -> (Result<u32, Refusal>, Mark) {
    let Access { process, kind, width, address, value } = access;
    let outcome = match kind {
        Kind::LOAD => board.load(process as usize, width, address),
        _ => board.store(process as usize, width, address, value).map(|()| 0),
    };
    (outcome, board.mark())
}

#[test]
fn a_refused_access_does_not_end_the_list() {
    let (list, expected): (Vec<_>, Vec<_>) =
        every_number().into_iter().map(|(access, outcome, mark)| (access, (outcome, mark))).unzip();
    let (mut board, mut answers) = (mapped(), vec![Answer::NONE; list.len()]);
    assert_eq!((board.accesses(&list, &mut answers), board.mark()), (Ok(()), Mark::NoAccess));
    assert!(!board.hit());
    let given: Vec<_> = answers.iter().map(|answer| (answer.outcome(), answer.marked())).collect();
    assert_eq!(given, expected);
}

/// Many accesses by chance, in lists of every length up to 40: answers and boards are those of single calls. Not every number is
/// asked to come here: the list above has them.
#[test]
fn a_list_is_its_accesses_one_after_another() {
    let mut seed = 1u64;
    let mut below = |end: u64| {
        seed = seed.wrapping_mul(6364136223846793005).wrapping_add(1442695040888963407);
        (seed >> 33) % end
    };
    let (mut listed, mut single) = (mapped(), mapped());
    let (mut done, mut refused) = (0, 0);
    for length in (0..=40).chain((0..=40).rev()) {
        let list: Vec<Access> = (0..length)
            .map(|_| {
                let (process, width) = (below(9) as usize / 4, [1, 2, 4, 4, 4, 3][below(6) as usize]);
                let slot = [0, 0, 0, 0, 1, 2, 3, 512][below(8) as usize];
                let address = (slot << 22) + 4 * below(20) as u32 + [0, 0, 0, 2][below(4) as usize];
                let most = 1 << [8, 8, 16, 31][below(4) as usize];
                match below(2) {
                    0 => Access::load(process, width, address),
                    _ => Access::store(process, width, address, below(most) as u32),
                }
            })
            .collect();
        let mut answers = vec![Answer::NONE; length];
        assert_eq!((listed.accesses(&list, &mut answers), listed.mark()), (Ok(()), Mark::NoAccess));
        for (access, answer) in list.into_iter().zip(answers) {
            assert_eq!((answer.outcome(), answer.marked()), alone(&mut single, access), "{access:?}");
            *(if answer.number() == 0 { &mut done } else { &mut refused }) += 1;
        }
        assert_eq!(listed, single);
    }
    assert!(done > 300 && refused > 300, "{done} done, {refused} refused");
}

/// Whichever mark stood before, and whether the list was done or refused.
#[test]
fn no_mark_of_before_stays_after_a_list() {
    let access = |board: &mut Board, mark| match mark {
        Mark::Hit => board.load(0, 4, 0),
        Mark::Refilled => board.load(0, 4, 16),
        Mark::WroteBack => board.load(0, 4, 32),
        _ => board.supervisor_load(4, 0),
    };
    let list = [Access::load(0, 4, 48); 2];
    for mark in [Mark::Hit, Mark::Refilled, Mark::WroteBack, Mark::Uncached] {
        for (length, room) in [(0, 0), (1, 1), (2, 2), (0, 1), (2, 1)] {
            let mut board = mapped();
            board.store(0, 4, 0, 50).unwrap();
            assert_eq!((access(&mut board, mark).is_ok(), board.mark()), (true, mark));
            let done = board.accesses(&list[..length], &mut vec![Answer::NONE; room]);
            assert_eq!((done.is_ok(), board.mark(), board.hit()), (length == room, Mark::NoAccess, false), "{mark:?}");
        }
    }
}

#[test]
fn a_kind_is_a_store_unless_it_is_0() {
    let (mut board, mut answers) = (mapped(), [Answer::NONE; 3]);
    let store = |kind, value| Access { process: 0, kind: Kind { store: kind }, width: 4, address: 8, value };
    board.accesses(&[store(1 << 31, 7), store(0, 8), store(u32::MAX, 9)], &mut answers).unwrap();
    assert_eq!(answers.map(Answer::outcome), [Ok(0), Ok(7), Ok(0)]);
    assert_eq!(board.load(0, 4, 8), Ok(9));
}

#[test]
fn a_pending_tag_refuses_every_access() {
    let (mut board, name) = (mapped(), PAGE * 256);
    board.tag(name).unwrap();
    let before = board.clone();
    let list: Vec<_> = every_number().into_iter().map(|(access, ..)| access).collect();
    let mut answers = vec![Answer::NONE; list.len()];
    assert_eq!((board.accesses(&list, &mut answers), board.pending()), (Ok(()), Some(name)));
    assert_eq!(board, before);
    for ((access, outcome, _), answer) in every_number().into_iter().zip(answers) {
        let refusal = if outcome == Err(Refusal::Range) { Refusal::Range } else { Refusal::Tag };
        assert_eq!((answer.outcome(), answer.marked()), (Err(refusal), Mark::NoAccess), "{access:?}");
    }
}

#[test]
fn an_empty_list_is_done() {
    let mut board = mapped();
    board.load(0, 1, 0).unwrap();
    let before = board.clone();
    assert_eq!((board.accesses(&[], &mut []), board.mark()), (Ok(()), Mark::NoAccess));
    assert_eq!(board, before);
}

#[test]
fn lengths_that_differ_are_refused_and_nothing_is_done() {
    let mut board = mapped();
    let before = board.clone();
    let list = [Access::store(0, 4, 0, 50); 10];
    for accesses in 0..=list.len() {
        // Among them: as many answers as the accesses have words.
        for room in (0..=11).filter(|&room| room != accesses) {
            let mut answers = vec![Answer::NONE; room];
            let answer = board.accesses(&list[..accesses], &mut answers);
            assert_eq!((answer, board.mark()), (Err(Refusal::Shape), Mark::NoAccess), "{accesses}, {room}");
            assert_eq!((&board, answers), (&before, vec![Answer::NONE; room]), "{accesses}, {room}");
        }
    }
}

/// Each number and each length of a lent board wrong by itself: the list is refused, an empty one too, and no answer is written.
#[test]
fn a_board_that_does_not_fit_refuses_the_list() {
    let list = [Access::store(0, 4, 0, 50), Access::load(0, 4, 0)];
    let fits = mapped();
    for wrong in 0..10 {
        let mut shape = SHAPE;
        let (mut slots, mut words) = (fits.slots().to_vec(), fits.words().to_vec());
        let (mut records, mut cache) = (fits.records().to_vec(), fits.cache().to_vec());
        let mut memory = fits.memory().to_vec();
        match wrong {
            0 => {}
            1 => shape.frames = 5,
            2 => shape.uncached = 5,
            3 => shape.processes = 1,
            4 => shape.lines = 4,
            5 => slots.truncate(1023),
            6 => words.push(0),
            7 => records.truncate(3),
            8 => cache.push(0),
            _ => memory.clear(),
        }
        let before = (slots.clone(), words.clone(), records.clone(), cache.clone(), memory.clone());
        let mut lent = Lent::over(shape, &mut slots, &mut words, &mut records, &mut cache, &mut memory, None);
        let expected = if wrong == 0 { Ok(()) } else { Err(Refusal::Shape) };
        let mut answers = [Answer::NONE; 2];
        assert_eq!((lent.accesses(&list[..0], &mut []), lent.mark()), (expected, Mark::NoAccess), "{wrong}");
        assert_eq!((lent.accesses(&list, &mut answers), lent.mark()), (expected, Mark::NoAccess), "{wrong}");
        let changed = before != (slots, words, records, cache, memory);
        assert_eq!((changed, answers == [Answer::NONE; 2]), (wrong == 0, wrong != 0), "{wrong}");
    }
}

#[test]
fn what_no_call_has_written_is_no_answer() {
    assert_eq!((Answer::NONE.number(), Answer::NONE.mark()), (255, 255));
    assert!(catch_unwind(|| Answer::NONE.outcome()).is_err());
    assert!(catch_unwind(|| Answer::NONE.marked()).is_err());
}

#[test]
fn an_access_keeps_its_numbers() {
    let load = Access { process: 3, kind: Kind::LOAD, width: 2, address: 0x7FFF_FFFE, value: 0 };
    assert_eq!(Access::load(3, 2, 0x7FFF_FFFE), load);
    assert_eq!(Access::store(3, 2, 0x7FFF_FFFE, 9), Access { kind: Kind::STORE, value: 9, ..load });
    for (process, word) in [(0, 0), (u32::MAX as usize, u32::MAX), (1 << 32, u32::MAX), (usize::MAX, u32::MAX)] {
        assert_eq!((Access::load(process, 1, 0).process, Access::store(process, 1, 0, 0).process), (word, word));
    }
}
