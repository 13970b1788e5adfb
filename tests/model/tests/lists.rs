//! CR 12's list: the single calls one after another, refused ones included; refused by 1 where lengths don't agree, and then
//! nothing changes, no answer either.
mod common;
use common::*;
use model::*;

/// Load and store as words; any other number than 0 is a store.
const LOAD: u32 = 0;
const STORE: u32 = 1;

/// What stands in an answers' buffer before the call: no call gives it.
const BEFORE: Answer = Answer { number: 255, value: 0xDEAD_BEEF, mark: 77 };
const PLAIN_BEFORE: PlainAnswer = PlainAnswer { number: 255, value: 0xDEAD_BEEF };

/// Does a list on a board, with an answer for each access: its own answer, the answers, and what each access did.
fn done_list(board: &mut Board, list: &[[u32; ACCESS_WORDS]]) -> (Answer, Vec<Answer>, Vec<Event>) {
    let mut answers = vec![BEFORE; list.len()];
    let (own, events) = board.list(&list.concat(), &mut answers);
    (own, answers, events)
}

/// A list is done, its accesses give these answers, and the single calls give the same answers, events and board.
fn check(start: &Board, list: &[[u32; ACCESS_WORDS]], expected: &[Answer]) -> Board {
    let (mut board, mut single) = (start.clone(), start.clone());
    let (own, answers, events) = done_list(&mut board, list);
    assert_eq!((own, &answers[..]), (DONE, expected), "{list:?}");
    let steps: Vec<(Answer, Event)> = list.iter().map(|words| single.step(&call_of(words))).collect();
    assert_eq!(answers.into_iter().zip(events).collect::<Vec<_>>(), steps, "{list:?}");
    assert_eq!(board, single, "{list:?}");
    board
}

/// A word for each field, mostly such that the access is done on a board whose slots and pages are few.
fn access(r: &mut Rng, processes: u64) -> [u32; ACCESS_WORDS] {
    let process = if r.chance(12) { r.pick(&[processes as u32, 64, u32::MAX]) } else { r.below(processes) as u32 };
    let width = if r.chance(12) { r.pick(&[0, 3, 8, u32::MAX]) } else { r.pick(&[1, 2, 4]) };
    let offset = r.pick(&[0, 1, 2, 4, 8, 255]) * 16 + r.below(16) as u32;
    let crooked = r.chance(12) || width == 0;
    let within = if crooked { offset } else { offset - offset % width.min(16) };
    let page = r.below(3) as u32 * 4096;
    let address = (r.below(3) as u32) << 22 | page | within | u32::from(r.chance(16)) << 31;
    [process, r.pick(&[LOAD, LOAD, STORE, STORE, 2, u32::MAX]), width, address, r.value(width)]
}

fn list(r: &mut Rng, processes: u64) -> Vec<[u32; ACCESS_WORDS]> {
    let length = r.pick(&[0, 1, 2, 3, 5, 8, 40]);
    (0..length).map(|_| access(r, processes)).collect()
}

/// A supervisor's call between lists.
fn between(r: &mut Rng, board: &Board) -> Call {
    let page = (2048 + r.below(2)) * 1024 + r.below(3);
    match r.below(13) {
        0..=3 => {
            let (process, slot) = (r.below(board.shape.processes), r.below(3));
            Call::Attach { process, slot, segment: 2048 + r.below(2), write: !r.chance(4) }
        }
        4..=6 => Call::Map { page, frame: r.below(board.shape.frames), write: !r.chance(3) },
        7 => Call::Unmap { page },
        8 => Call::Protect { page, write: r.flip() },
        9 => Call::Tag { name: page * 256 + r.below(4) },
        10 => Call::DropTag,
        11 => Call::Move { page, new_page: (2048 + r.below(2)) * 1024 + r.below(3) },
        _ => Call::SupervisorAccess { store: true, width: 1, global: page * 4096 + r.below(256), value: 3 },
    }
}

/// Random lists, on boards that calls reach and on others; on the former the plain machine's beside them.
#[test]
fn a_list_is_the_single_calls() {
    let mut r = Rng(0xFEDC_BA98_7654_3210);
    let mut numbers = [0u32; 14];
    let mut marks = [0u32; 5];
    for (round, edition) in (0..120).zip(Edition::ALL.into_iter().cycle()) {
        let s = shape(2 + r.below(4), r.below(2), 1 + r.below(3), edition.lines_in_set() << (round / 2 % 4));
        let fresh = round / 2 % 3 != 0;
        let mut board = Board::fresh_of(edition, s);
        board.memory.iter_mut().for_each(|byte| *byte = r.next() as u8);
        if !fresh {
            board.cache.iter_mut().for_each(|byte| *byte = r.next() as u8);
            for at in 0..s.lines {
                let name = 0x2000_0000 + r.below(3) * 256 + at / edition.lines_in_set();
                put(&mut board, at, rec(name, r.below(256 * s.frames + 4), r.flip(), r.flip()));
            }
            board.uses.iter_mut().for_each(|matrix| *matrix = r.matrix());
            board.words.iter_mut().for_each(|word| *word = frame_word(0x20_0000 + r.below(3), r.flip()));
            board.tag = (r.chance(4), 0x2000_0000);
        }
        let (mut single, mut plain) = (board.clone(), Plain::of(&board));
        let mut plain_single = plain.clone();
        for _ in 0..150 {
            if r.flip() {
                let call = between(&mut r, &board);
                assert_eq!(board.step(&call), single.step(&call));
                assert_eq!(plain.step(&call), plain_single.step(&call));
                continue;
            }
            let list = list(&mut r, s.processes);
            let (own, answers, events) = done_list(&mut board, &list);
            let steps: Vec<(Answer, Event)> = list.iter().map(|words| single.step(&call_of(words))).collect();
            assert_eq!(own, DONE, "{list:?}");
            assert_eq!(answers.iter().copied().zip(events).collect::<Vec<_>>(), steps, "{list:?}");
            assert_eq!(board, single, "{list:?}");
            let mut plain_answers = vec![PLAIN_BEFORE; list.len()];
            let plain_own = plain.list(&list.concat(), &mut plain_answers);
            let plain_steps: Vec<PlainAnswer> = list.iter().map(|words| plain_single.step(&call_of(words))).collect();
            assert_eq!((plain_own.number, plain_own.value, plain_answers), (0, 0, plain_steps.clone()), "{list:?}");
            assert_eq!(plain, plain_single, "{list:?}");
            if fresh {
                let replies = |answer: &Answer| PlainAnswer { number: answer.number, value: answer.value };
                assert_eq!(answers.iter().map(replies).collect::<Vec<_>>(), plain_steps, "{list:?}");
            }
            for answer in answers {
                numbers[answer.number as usize] += 1;
                marks[answer.mark as usize] += 1;
            }
        }
    }
    // Never 1: a list on a board that doesn't fit has no answers.
    assert!([0, 2, 3, 4, 5, 6, 7, 8, 9].iter().all(|&n: &usize| numbers[n] >= 20) && numbers[1] == 0, "{numbers:?}");
    assert!(marks[..4].iter().all(|&count| count >= 20) && marks[4] == 0, "{marks:?}");
}

/// Each number that a single access may get, but 1, at the first place, a middle one and the last: what is beside it is done.
#[test]
fn a_refusal_in_the_midst() {
    // Page 0x200001 is read-only; slot 1 has the segment read-only.
    let mut start = ready();
    assert_eq!(start.map(0x20_0001, 2, false), DONE);
    assert_eq!(start.attach(0, 1, 2048, false), DONE);
    let refused: [(u32, [u32; ACCESS_WORDS]); 11] = [
        (2, [2, LOAD, 4, 0, 0]),
        (2, [u32::MAX, LOAD, 4, 0, 0]),
        (2, [0, STORE, 1, 0, 256]),
        (4, [0, LOAD, 3, 0, 0]),
        (4, [0, LOAD, 4, 2, 0]),
        (5, [0, LOAD, 4, 1 << 31, 0]),
        (6, [0, LOAD, 4, 2 << 22, 0]),
        (6, [1, LOAD, 4, 0, 0]),
        (7, [0, STORE, 4, 1 << 22, 0]),
        (8, [0, LOAD, 4, 2 << 12, 0]),
        (9, [0, STORE, 4, 1 << 12, 0]),
    ];
    for (number, access) in refused {
        let store = [0, STORE, 4, 0, 0x0102_0304];
        let load = [0, LOAD, 4, 0, 0];
        check(&start, &[access, store, load], &[no(number), done(0, REFILLED), done(0x0102_0304, HIT)]);
        check(&start, &[store, access, load], &[done(0, REFILLED), no(number), done(0x0102_0304, HIT)]);
        check(&start, &[store, load, access], &[done(0, REFILLED), done(0x0102_0304, HIT), no(number)]);
        // Alone, and with itself: nothing changes.
        for list in [vec![access], vec![access; 3]] {
            assert_eq!(check(&start, &list, &vec![no(number); list.len()]), start, "{access:?}");
        }
    }
}

/// While a tag is pending each access is refused by 3, or by 2, which is lower. The tag stays.
#[test]
fn a_pending_tag() {
    let mut start = ready();
    assert_eq!(start.tag(0x2000_0005), DONE);
    let list = [[0, LOAD, 4, 0, 0], [2, LOAD, 4, 0, 0], [0, STORE, 1, 0, 256], [0, LOAD, 3, 0, 0], [0, STORE, 4, 0, 1]];
    assert_eq!(check(&start, &list, &[no(3), no(2), no(2), no(3), no(3)]), start);
    assert_eq!(start.tag, (true, 0x2000_0005));
}

/// Each access finds the board as the one before left it.
#[test]
fn one_after_another() {
    let start = ready();
    let load = |address| [0, LOAD, 4, address, 0];
    // L is 2: lines 0 and 2 share a place. A hit on what the list filled, a miss of what it pushed out, which it has changed.
    let list = [[0, STORE, 4, 0, 50], load(0), load(32), load(0), load(32)];
    let expected = [done(0, REFILLED), done(50, HIT), done(0, WROTE_BACK), done(50, REFILLED), done(0, REFILLED)];
    let board = check(&start, &list, &expected);
    assert_eq!(board.memory[4096..4100], [0, 0, 0, 50]);
    // A line that was held before the list, and that the list pushed out.
    assert_eq!(
        check(&board, &[load(32), load(0), load(32)], &[done(0, HIT), done(50, REFILLED), done(0, REFILLED)]).words,
        start.words
    );
    // A store refused by 9: by the frame word, then by the record that a load filled.
    let mut read_only = start.clone();
    assert_eq!(read_only.protect(0x20_0000, false), DONE);
    let store = [0, STORE, 4, 0, 1];
    check(&read_only, &[store, load(0), store, load(0)], &[no(9), done(0, REFILLED), no(9), done(0, HIT)]);
    // Another process finds what the one has stored, and has it in the cache.
    let mut shared = start.clone();
    assert_eq!(shared.attach(1, 3, 2048, false), DONE);
    let other = [1, LOAD, 1, (3 << 22) + 3, 0];
    check(&shared, &[[0, STORE, 1, 3, 9], other], &[done(0, REFILLED), done(9, HIT)]);
}

/// The words: 0 is a load, whose value isn't asked; anything else is a store. A process has 32 bits.
#[test]
fn words() {
    let start = ready();
    for store in [1, 2, 0x100, 1 << 31, u32::MAX] {
        check(&start, &[[0, store, 1, 0, 7], [0, LOAD, 1, 0, u32::MAX]], &[done(0, REFILLED), done(7, HIT)]);
    }
    assert_eq!(call_of(&[1, 2, 3, 4, 5]), Call::UserAccess { process: 1, store: true, width: 3, address: 4, value: 5 });
    assert_eq!(
        call_of(&[u32::MAX, 0, u32::MAX, u32::MAX, u32::MAX]),
        Call::UserAccess { process: 0xFFFF_FFFF, store: false, width: u32::MAX, address: u32::MAX, value: u32::MAX }
    );
}

/// An empty list with no room for answers is done, and nothing changes; also while a tag is pending.
#[test]
fn an_empty_list() {
    let mut start = ready();
    assert_eq!(check(&start, &[], &[]), start);
    start.tag = (true, 0x2000_0000);
    assert_eq!(check(&start, &[], &[]), start);
}

/// The list is refused by 1 on both machines, and nothing changes: neither the board nor an answer.
fn check_refused(board: &Board, list: &[u32], answers: usize) {
    let (mut after, mut buffer) = (board.clone(), vec![BEFORE; answers]);
    assert_eq!(after.list(list, &mut buffer), (no(1), vec![]), "{} words, {answers} answers", list.len());
    assert_eq!((&after, buffer), (board, vec![BEFORE; answers]));
    let (mut plain, mut buffer) = (Plain::of(board), vec![PLAIN_BEFORE; answers]);
    assert_eq!(plain.list(list, &mut buffer), PlainAnswer { number: 1, value: 0 });
    assert_eq!((plain, buffer), (Plain::of(board), vec![PLAIN_BEFORE; answers]));
}

/// By the list: all lengths up to some, but those that agree.
#[test]
fn refused_by_the_list() {
    let start = ready();
    let words = [[0, STORE, 4, 0, 1]; 9].concat();
    for length in 0..=words.len() {
        for answers in (0..=words.len()).filter(|answers| 5 * answers != length) {
            check_refused(&start, &words[..length], answers);
        }
    }
    for n in 0..=9 {
        let mut answers = vec![BEFORE; n];
        assert_eq!(start.clone().user_accesses(&words[..5 * n], &mut answers), DONE);
        assert!(answers.iter().all(|answer| answer.number == 0));
    }
}

/// By the board: each length one off, a limit broken; with lists that fit, the empty one too, and with lists that don't.
#[test]
fn refused_by_the_board() {
    let breaks: [fn(&mut Board); 16] = [
        |b| b.slots.push(0),
        |b| assert!(b.slots.pop().is_some()),
        |b| b.words.push(0),
        |b| assert!(b.words.pop().is_some()),
        |b| b.records.push(0),
        |b| assert!(b.records.pop().is_some()),
        |b| b.cache.push(0),
        |b| assert!(b.cache.pop().is_some()),
        |b| b.memory.push(0),
        |b| assert!(b.memory.pop().is_some()),
        |b| b.shape.uncached = 5,
        |b| *b = Board::fresh(shape(0, 0, 2, 2)),
        |b| *b = Board::fresh(shape(4, 1, 0, 2)),
        |b| *b = Board::fresh(shape(4, 1, PROCESSES_MAX + 1, 2)),
        |b| *b = Board::fresh(shape(4, 1, 2, 3)),
        |b| *b = Board::fresh(shape(4, 1, 2, 2 * LINES_MAX)),
    ];
    let words = [[0, STORE, 4, 0, 1]; 2].concat();
    for apply in breaks {
        let mut board = ready();
        apply(&mut board);
        for (length, answers) in [(0, 0), (5, 1), (10, 2), (10, 1), (9, 2), (0, 1), (10, 0)] {
            check_refused(&board, &words[..length], answers);
        }
    }
}
