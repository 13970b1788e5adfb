//! CR 1's log, with CR 9's kind: numbers, refusals and their places, round trips, the session, replays, moves, and the sample
//! logs.
mod common;
use common::*;
use model::log::*;
use model::*;

const SHAPE: Shape = Shape { frames: 4, uncached: 1, processes: 2, lines: 2 };

/// The header of that shape.
const HEADER: [u8; 4] = [4, 1, 2, 2];

fn after_header(bytes: &[u8]) -> Vec<u8> {
    [&HEADER[..], bytes].concat()
}

/// The numbers, one after the other, whatever they mean.
fn numbers(all: &[u64]) -> Vec<u8> {
    all.iter().flat_map(|&n| number(n)).collect()
}

fn refused(reason: Reason, place: u64) -> Option<Refusal> {
    Some(Refusal { reason, place })
}

/// A log is refused so, behind the header and so many calls.
fn check(log: &[u8], calls: usize, reason: Reason, place: u64) {
    let read = read(log);
    assert_eq!((read.header, read.calls.len()), (Some(SHAPE), calls), "{log:x?}");
    assert_eq!(read.refusal, refused(reason, place), "{log:x?}");
}

// ----- numbers -----

#[test]
fn numbers_of_one_byte_to_ten() {
    let cases: [(u64, &[u8]); 12] = [
        (0, &[0]),
        (1, &[1]),
        (127, &[0x7F]),
        (128, &[0x80, 1]),
        (300, &[0xAC, 2]),
        (16_383, &[0xFF, 0x7F]),
        (16_384, &[0x80, 0x80, 1]),
        (0x20_0000, &[0x80, 0x80, 0x80, 1]),
        ((1 << 63) - 1, &[0xFF, 0xFF, 0xFF, 0xFF, 0xFF, 0xFF, 0xFF, 0xFF, 0x7F]),
        (1 << 63, &[0x80, 0x80, 0x80, 0x80, 0x80, 0x80, 0x80, 0x80, 0x80, 1]),
        (u64::MAX - 1, &[0xFE, 0xFF, 0xFF, 0xFF, 0xFF, 0xFF, 0xFF, 0xFF, 0xFF, 1]),
        (u64::MAX, &[0xFF, 0xFF, 0xFF, 0xFF, 0xFF, 0xFF, 0xFF, 0xFF, 0xFF, 1]),
    ];
    for (n, bytes) in cases {
        assert_eq!(number(n), bytes);
        let log = after_header(&[&[6], bytes].concat());
        assert_eq!(read(&log).calls, [Call::Unmap { page: n }]);
    }
    // At both ends of each length.
    for length in 1..=10 {
        let first = if length == 1 { 0 } else { 1u64 << (7 * (length - 1)) };
        let last = if length == 10 { u64::MAX } else { (1 << (7 * length)) - 1 };
        for n in [first, last] {
            assert_eq!(number(n).len(), length);
            assert_eq!(read(&after_header(&numbers(&[6, n]))).calls, [Call::Unmap { page: n }]);
        }
    }
}

/// "A last group of 0 after others": behind one group to nine.
#[test]
fn padded_numbers() {
    for groups in 1..=9 {
        for group in [0x80, 0x81, 0xFF] {
            let mut bytes = vec![6];
            bytes.resize(1 + groups, group);
            bytes.push(0);
            check(&after_header(&bytes), 0, Reason::Padded, 5);
            // What follows doesn't matter.
            bytes.extend([0xFF; 12]);
            check(&after_header(&bytes), 0, Reason::Padded, 5);
        }
    }
    // A number of one group may be 0, and groups of 0 may stand before the last.
    assert_eq!(read(&after_header(&[6, 0])).refusal, None);
    assert_eq!(read(&after_header(&[6, 0x80, 0x80, 1])).calls, [Call::Unmap { page: 1 << 14 }]);
}

/// "a tenth byte above 1". Decided: "even where the log ends there".
#[test]
fn tenth_bytes() {
    for group in [0x80, 0xFF] {
        for tenth in 0..=255 {
            let mut bytes = vec![6];
            bytes.resize(10, group);
            bytes.push(tenth);
            let log = after_header(&bytes);
            let low = if group == 0xFF { (1 << 63) - 1 } else { 0 };
            match tenth {
                0 => check(&log, 0, Reason::Padded, 5),
                1 => assert_eq!(read(&log).calls, [Call::Unmap { page: low + (1 << 63) }]),
                _ => check(&log, 0, Reason::TenthByte, 5),
            }
        }
    }
}

// ----- refusals -----

/// The header's numbers may be anything; it is cut, padded or too long like any others.
#[test]
fn headers() {
    assert_eq!(read(&[]).refusal, refused(Reason::Cut, 0));
    for field in 0..HEADER_FIELDS {
        let mut shape = [u64::MAX; HEADER_FIELDS];
        shape[field] = 0;
        let log = numbers(&shape);
        let [frames, uncached, processes, lines] = shape;
        let read_back = read(&log);
        assert_eq!(read_back.header, Some(Shape { frames, uncached, processes, lines }));
        assert_eq!((read_back.refusal, &read_back.ends[..]), (None, &[log.len() as u64][..]));
        // Each number in turn: padded, its tenth byte wrong, cut.
        let before = vec![7; field];
        let none = Log { header: None, calls: vec![], ends: vec![], refusal: None };
        let place = field as u64;
        let padded = [&before[..], &[0x80, 0], &[1; 8]].concat();
        assert_eq!(read(&padded), Log { refusal: refused(Reason::Padded, place), ..none.clone() });
        let tenth = [&before[..], &[0xFF; 9], &[2], &[1; 8]].concat();
        assert_eq!(read(&tenth), Log { refusal: refused(Reason::TenthByte, place), ..none.clone() });
        assert_eq!(read(&before), Log { refusal: refused(Reason::Cut, place), ..none.clone() });
        let inside = [&before[..], &[0x80; 4]].concat();
        assert_eq!(read(&inside), Log { refusal: refused(Reason::Cut, place + 4), ..none });
    }
}

#[test]
fn unknown_kinds() {
    let kinds = (0..300).chain([(1 << 32) + 1, 1 << 63, u64::MAX, u64::MAX - 10]);
    for kind in kinds {
        let log = after_header(&[&[8][..], &numbers(&[kind, 0, 0, 0, 0, 0])].concat());
        match kind {
            1..=12 => assert_ne!(read(&log).refusal, refused(Reason::UnknownKind, 5), "{kind}"),
            _ => check(&log, 1, Reason::UnknownKind, 5),
        }
        assert_eq!(fields_of(kind).is_some(), (1..=12).contains(&kind));
    }
}

/// Each kind with the largest fields that it takes; and each field one above, with its place.
#[test]
fn fields_too_large() {
    let (any, short) = (u64::MAX, u64::from(u32::MAX));
    let largest: [(u64, &[u64]); 14] = [
        (1, &[any, 0, short, short, 0]),
        (1, &[any, 1, short, short, short]),
        (2, &[0, short, any, 0]),
        (2, &[1, short, any, short]),
        (3, &[any, any, any, 1]),
        (4, &[any, any]),
        (5, &[any, any, 1]),
        (6, &[any]),
        (7, &[any, 1]),
        (8, &[]),
        (9, &[any]),
        (10, &[any]),
        (11, &[]),
        (12, &[any, any]),
    ];
    let mut limited = 0;
    for (kind, fields) in largest {
        let bytes = write_entry(kind, fields).expect("it can be written");
        assert_eq!(bytes, numbers(&[&[kind], fields].concat()));
        let read_back = read(&after_header(&bytes));
        assert_eq!((read_back.refusal, numbers_of(&read_back.calls[0])), (None, (kind, fields.to_vec())));
        for index in 0..fields.len() {
            // A load becomes a store where its flag grows: that is the store's row.
            let is_load = fields_of(kind).unwrap()[index] == Field::LoadOrStore && fields[index] == 0;
            if fields[index] == any || is_load {
                continue;
            }
            limited += 1;
            for more in [fields[index] + 1, fields[index] + (1 << 40), any] {
                let mut wrong = fields.to_vec();
                wrong[index] = more;
                assert_eq!(write_entry(kind, &wrong), Err(Unwritable::TooLarge(index + 1)));
                let place = 5 + numbers(&[&[kind], &wrong[..index]].concat()).len() as u64;
                let log = after_header(&[&[8][..], &numbers(&[&[kind], &wrong[..]].concat()), &[13]].concat());
                check(&log, 1, Reason::TooLarge, place);
            }
        }
    }
    // Flags: 1.2, 2.1, 3.4, 5.3, 7.2. Widths, addresses, values: three of each user's access, two of each supervisor's.
    assert_eq!(limited, 5 + 2 * 3 + 2 * 2);
    // Of several fields the first is named.
    assert_eq!(write_entry(1, &[0, 2, 1 << 32, 1 << 32, 1 << 32]), Err(Unwritable::TooLarge(2)));
    assert_eq!(write_entry(0, &[]), Err(Unwritable::UnknownKind));
    assert_eq!(write_entry(13, &[]), Err(Unwritable::UnknownKind));
}

/// A number is asked whether it is whole and well written before it is asked what it is.
#[test]
fn the_number_comes_first() {
    // A padded kind, unknown too; a padded flag, too large too; a flag that is cut.
    check(&after_header(&[0x8D, 0]), 0, Reason::Padded, 4);
    check(&after_header(&[7, 1, 0x82, 0]), 0, Reason::Padded, 6);
    check(&after_header(&[7, 1, 0x82]), 0, Reason::Cut, 7);
    check(&after_header(&[[0xFF; 9].as_slice(), &[2]].concat()), 0, Reason::TenthByte, 4);
    check(&after_header(&[[0xFF; 9].as_slice(), &[1]].concat()), 0, Reason::UnknownKind, 4);
}

/// A log that ends anywhere has the calls that are whole by then. It is good where a call ends, or the header, and else cut.
#[test]
fn cut_anywhere() {
    [samples::session(), samples::handed_over()].iter().for_each(|(shape, calls)| cut_everywhere(shape, calls));
}

fn cut_everywhere(shape: &Shape, calls: &[Call]) {
    let log = write(shape, calls).unwrap();
    let whole = read(&log);
    assert_eq!(whole.ends.len(), 1 + calls.len());
    for length in 0..=log.len() {
        let cut = read(&log[..length]);
        let count = whole.ends.iter().filter(|&&end| end <= length as u64).count();
        assert_eq!(cut.ends, whole.ends[..count]);
        assert_eq!(cut.header.is_some(), count > 0);
        assert_eq!(cut.calls, calls[..count.saturating_sub(1)]);
        let good = whole.ends.contains(&(length as u64));
        assert_eq!(cut.refusal, if good { None } else { refused(Reason::Cut, length as u64) });
    }
}

// ----- round trips -----

/// A number of any length.
fn any(r: &mut Rng) -> u64 {
    let bits = r.below(65) as u32;
    let random = if bits == 0 { 0 } else { r.next() >> (64 - bits) };
    r.pick(&[0, 1, 127, 128, (1 << 63) - 1, 1 << 63, u64::MAX, random, random, random, random])
}

fn short(r: &mut Rng) -> u32 {
    (any(r) as u32).min(u32::MAX - r.below(2) as u32)
}

fn call(r: &mut Rng) -> Call {
    let (store, write) = (r.flip(), r.flip());
    let value = if store { short(r) } else { 0 };
    match r.below(12) {
        0 => Call::UserAccess { process: any(r), store, width: short(r), address: short(r), value },
        1 => Call::SupervisorAccess { store, width: short(r), global: any(r), value },
        2 => Call::Attach { process: any(r), slot: any(r), segment: any(r), write },
        3 => Call::Detach { process: any(r), slot: any(r) },
        4 => Call::Map { page: any(r), frame: any(r), write },
        5 => Call::Unmap { page: any(r) },
        6 => Call::Protect { page: any(r), write },
        7 => Call::FlushAll,
        8 => Call::Tag { name: any(r) },
        9 => Call::LoadAndMap { line: any(r) },
        10 => Call::DropTag,
        _ => Call::Move { page: any(r), new_page: any(r) },
    }
}

/// "Written then read gives the same calls".
#[test]
fn written_then_read() {
    let mut r = Rng(0x1234_5678_9ABC_DEF1);
    for _ in 0..20_000 {
        let shape = shape(any(&mut r), any(&mut r), any(&mut r), any(&mut r));
        let calls: Vec<Call> = (0..r.below(12)).map(|_| call(&mut r)).collect();
        let log = write(&shape, &calls).expect("no load has a value");
        let read = read(&log);
        assert_eq!((read.header, read.calls, read.refusal), (Some(shape), calls, None));
        assert_eq!(read.ends.last(), Some(&(log.len() as u64)));
    }
}

/// Decided: a load that carries a value has no encoding. Nothing else that a call can be lacks one.
#[test]
fn loads_with_values() {
    let user = Call::UserAccess { process: 0, store: false, width: 4, address: 0, value: 1 };
    let supervisor = Call::SupervisorAccess { store: false, width: 4, global: 0, value: 1 };
    assert_eq!(write_call(&user), Err(Unwritable::TooLarge(5)));
    assert_eq!(write_call(&supervisor), Err(Unwritable::TooLarge(4)));
    assert_eq!(write(&SHAPE, &[Call::FlushAll, user]), Err((2, Unwritable::TooLarge(5))));
}

/// "a list of calls has one encoding": whatever bytes are read without a refusal are those that are written.
#[test]
fn one_encoding() {
    let mut r = Rng(0xFEDC_BA98_7654_3211);
    let (mut good, mut bad) = (0, 0);
    for _ in 0..200_000 {
        let shape = shape(r.below(300), r.below(2), r.below(3), r.below(3));
        let calls: Vec<Call> = (0..r.below(4)).map(|_| call(&mut r)).collect();
        let mut log = write(&shape, &calls).expect("no load has a value");
        for _ in 0..r.below(3) {
            let at = r.below(log.len() as u64) as usize;
            match r.below(4) {
                0 => log[at] ^= 1 << r.below(8),
                1 => log.insert(at, r.pick(&[0, 0x80, 0xFF, 1])),
                2 if log.len() > 1 => drop(log.remove(at)),
                _ => log[at] = r.next() as u8,
            }
        }
        let read = read(&log);
        match (read.header, read.refusal) {
            (Some(shape), None) => {
                assert_eq!(write(&shape, &read.calls), Ok(log));
                good += 1;
            }
            _ => bad += 1,
        }
    }
    assert!(good > 20_000 && bad > 20_000, "{good} good, {bad} bad");
}

// ----- the session and replays -----

/// 01's session, as CR 8 amends it.
const SESSION: &str = "call answer value mark
1 0 0 0
2 0 0 0
3 0 0 2
4 0 50 1
5 0 0 3
6 0 50 2
7 6 0 0
8 0 0 0
9 8 0 0
10 0 0 0
11 0 0 2
12 9 0 0
";

#[test]
fn session_as_a_log() {
    let (shape, calls) = samples::session();
    let log = write(&shape, &calls).unwrap();
    #[rustfmt::skip]
    assert_eq!(log, [
        4, 1, 2, 2,
        5, 0x80, 0x80, 0x80, 1, 1, 1,
        3, 0, 0, 0x80, 16, 1,
        1, 0, 1, 4, 0, 50,
        1, 0, 0, 1, 3, 0,
        1, 0, 0, 1, 32, 0,
        1, 0, 0, 1, 3, 0,
        1, 1, 0, 1, 3, 0,
        6, 0x80, 0x80, 0x80, 1,
        1, 0, 0, 1, 3, 0,
        5, 0x80, 0x80, 0x80, 1, 1, 0,
        1, 0, 0, 1, 3, 0,
        1, 0, 1, 1, 3, 77,
    ]);
    for largest in [None, Some(PROGRAM)] {
        let replayed = replay(&log, largest);
        assert_eq!((replayed.rows(), replayed.complaint()), (SESSION.into(), String::new()));
    }
    // Cut behind two calls and a byte, it has their rows.
    let cut = replay(&log[..18], Some(PROGRAM));
    assert_eq!(cut.rows(), SESSION[..SESSION.find("3 0 0 2").unwrap()]);
    assert_eq!(cut.complaint(), "replay: log refused at byte 18, after 2 calls: the log is cut\n");
}

/// A replay gives what the calls give on a fresh board of zeros, in either edition.
#[test]
fn replays_are_runs() {
    let mut r = Rng(0x0F1E_2D3C_4B5A_6978);
    let mut moves = 0;
    for _ in 0..300 {
        let shape = shape(1 + r.below(8), r.below(3), 1 + r.below(16), r.below(9));
        let near = |r: &mut Rng| match call(r) {
            Call::Map { write, .. } => Call::Map { page: 0x20_0000 + r.below(2), frame: r.below(8), write },
            Call::UserAccess { store, value, .. } => {
                let address = 4 * r.below(40) as u32;
                Call::UserAccess { process: r.below(3), store, width: 4, address, value }
            }
            Call::Attach { .. } => Call::Attach { process: r.below(3), slot: 0, segment: 2048, write: true },
            Call::Move { .. } => Call::Move { page: 0x20_0000 + r.below(3), new_page: 0x20_0000 + r.below(3) },
            other => other,
        };
        let calls: Vec<Call> = (0..60).map(|_| near(&mut r)).collect();
        let log = write(&shape, &calls).unwrap();
        for edition in Edition::ALL {
            let mut board = Board::fresh_of(edition, shape);
            let (answers, events): (Vec<Answer>, Vec<Event>) = calls.iter().map(|call| board.step(call)).unzip();
            moves += events.iter().filter(|event| matches!(event, Event::Moved { .. })).count();
            let replayed = Replayed { answers, refusal: None };
            assert_eq!(replay_in(edition, &log, Some(PROGRAM)), replayed);
            assert_eq!(replay_in(edition, &log, None), replayed);
            // The same but for marks, unless there are too few lines for a set.
            let replies = |of: &Replayed| of.answers.iter().map(|a| (a.number, a.value)).collect::<Vec<_>>();
            let first = replay(&log, None);
            assert!(replies(&first) == replies(&replayed) || !board.fits(), "{edition:?}");
            assert!(first == replayed || edition == Edition::Fours);
        }
    }
    assert!(moves > 20, "{moves}");
}

// ----- move -----

/// CR 9: "Log kind 12", and "move (page, new page)": the old page comes first.
#[test]
fn move_as_an_entry() {
    let call = Call::Move { page: 0x20_0000, new_page: 300 };
    let bytes = [12, 0x80, 0x80, 0x80, 1, 0xAC, 2];
    assert_eq!(numbers_of(&call), (12, vec![0x20_0000, 300]));
    assert_eq!(fields_of(12), Some(&[Field::Any, Field::Any][..]));
    assert_eq!(write_call(&call), Ok(bytes.to_vec()));
    let log = after_header(&bytes);
    assert_eq!(read(&log), Log { header: Some(SHAPE), calls: vec![call], ends: vec![4, 11], refusal: None });
    // Behind each of its bytes but the last the log is cut.
    for length in 5..log.len() {
        check(&log[..length], 0, Reason::Cut, length as u64);
    }
    // A third number is no field of it: here an unmap follows.
    let followed = read(&after_header(&[&bytes[..], &[6, 3]].concat()));
    assert_eq!((followed.calls, followed.refusal), (vec![call, Call::Unmap { page: 3 }], None));
}

/// Neither field has a limit below 2^64; each is refused at its own first byte where it is badly written.
#[test]
fn fields_of_a_move() {
    let (max, nine) = (u64::MAX, [0xFF; 9]);
    for (page, new_page) in [(0, 0), (0, max), (max, 0), (max, max), (1 << 32, 1 << 63)] {
        let call = Call::Move { page, new_page };
        let log = write(&SHAPE, &[call]).unwrap();
        assert_eq!(log, after_header(&numbers(&[12, page, new_page])));
        assert_eq!((read(&log).calls, read(&log).refusal), (vec![call], None));
    }
    check(&after_header(&[12, 0x80, 0, 1]), 0, Reason::Padded, 5);
    check(&after_header(&[12, 0xAC, 2, 0x81, 0]), 0, Reason::Padded, 7);
    check(&after_header(&[&[12][..], &nine, &[2]].concat()), 0, Reason::TenthByte, 5);
    check(&after_header(&[&[12, 0xAC, 2][..], &nine, &[2]].concat()), 0, Reason::TenthByte, 7);
    // The kind itself in two groups.
    check(&after_header(&[0x8C, 0, 1, 2]), 0, Reason::Padded, 4);
}

/// The importer's stores miss, at places 0 and 1; the recorder's page isn't mapped yet. The move drops both lines, so the
/// recorder's loads refill; the importer's page is gone. Mapped again it is zeros, in another frame: the refill writes back the
/// supervisor's 70, and the recorder's next load brings it in again.
const HANDED_OVER: &str = "call answer value mark
1 0 0 0
2 0 0 0
3 0 0 0
4 0 0 2
5 0 0 2
6 8 0 0
7 0 0 0
8 0 50 2
9 0 60 2
10 8 0 0
11 0 0 1
12 0 0 0
13 0 0 3
14 0 70 2
";

#[test]
fn handed_over_as_a_log() {
    let (shape, calls) = samples::handed_over();
    let log = write(&shape, &calls).unwrap();
    #[rustfmt::skip]
    assert_eq!(log, [
        4, 1, 2, 2,
        5, 0x80, 0x80, 0x80, 1, 1, 1,
        3, 0, 0, 0x80, 16, 1,
        3, 1, 0, 0x81, 16, 0,
        1, 0, 1, 4, 0, 50,
        1, 0, 1, 4, 16, 60,
        1, 1, 0, 4, 0, 0,
        // 0x200000, and 0x200400: 2^21 + 8 * 2^7.
        12, 0x80, 0x80, 0x80, 1, 0x80, 0x88, 0x80, 1,
        1, 1, 0, 4, 0, 0,
        1, 1, 0, 4, 16, 0,
        1, 0, 0, 4, 0, 0,
        // 0x200400000: 2^33 + 2^22, that is 2 * 2^21 and 32 * 2^28.
        2, 1, 4, 0x80, 0x80, 0x80, 0x82, 0x20, 70,
        5, 0x80, 0x80, 0x80, 1, 2, 1,
        1, 0, 0, 4, 0, 0,
        1, 1, 0, 4, 0, 0,
    ]);
    let replayed = replay(&log, Some(PROGRAM));
    assert_eq!((replayed.rows(), replayed.complaint()), (HANDED_OVER.into(), String::new()));
}

/// "The program replays up to 8 frames, 64 lines and 16 processes, else refuses at 0". Decided: once the header is read, before
/// any later refusal.
#[test]
fn boards_too_large_for_the_program() {
    let words = "a board of more than 8 frames, 64 lines or 16 processes";
    let large = Replayed { answers: vec![], refusal: Some((0, words.into())) };
    for shape in [shape(9, 1, 16, 64), shape(8, 1, 17, 64), shape(8, 1, 16, 65), shape(0, 0, 0, u64::MAX)] {
        let header = write_header(&shape);
        for behind in [&[][..], &[8], &[0], &[0x80, 0], &[6]] {
            let log = [&header[..], behind].concat();
            assert_eq!(replay(&log, Some(PROGRAM)), large);
            assert_ne!(replay(&log, None), large);
        }
        let cut = replay(&header[..header.len() - 1], Some(PROGRAM));
        assert_eq!(cut.refusal, Some((header.len() as u64 - 1, "the log is cut".into())));
    }
    assert_eq!(large.rows(), "call answer value mark\n");
    assert_eq!(large.complaint(), format!("replay: log refused at byte 0, after 0 calls: {words}\n"));
    let log = write(&shape(8, 1, 16, 64), &[Call::FlushAll]).unwrap();
    assert_eq!(replay(&log, Some(PROGRAM)), Replayed { answers: vec![DONE], refusal: None });
}

/// Decided: other numbers of the header that are out of their limits replay as answer 1 to every call.
#[test]
fn boards_out_of_limits() {
    let calls = every_call();
    for shape in [shape(0, 0, 1, 1), shape(4, 5, 1, 1), shape(4, 1, 0, 1), shape(4, 1, 1, 0), shape(4, 1, 1, 3)] {
        let log = write(&shape, &calls).unwrap();
        assert_eq!(replay(&log, Some(PROGRAM)).answers, vec![no(1); calls.len()]);
    }
    // Where the program's limits aren't asked.
    for shape in [shape(u64::MAX, 1, 1, 1), shape(4, u64::MAX, 1, 1), shape(4, 1, 65, 1), shape(4, 1, 1, 1 << 17)] {
        let log = write(&shape, &calls).unwrap();
        assert_eq!(replay(&log, None).answers, vec![no(1); calls.len()]);
    }
    let log = write(&shape(9, 1, 64, 128), &[Call::FlushAll]).unwrap();
    assert_eq!(replay(&log, None).answers, [DONE]);
}

// ----- the samples -----

/// The files of examples/logs are those that the program `samples` writes, no more and no fewer, and README names each.
#[test]
fn samples_stand_as_they_are_made() {
    let folder = std::path::Path::new(env!("CARGO_MANIFEST_DIR")).join("../../examples/logs");
    let readme = std::fs::read_to_string(folder.join("README.md")).unwrap();
    let mut names = vec!["README.md".to_string()];
    for sample in samples::all() {
        for (ending, bytes) in sample.files() {
            let name = format!("{}.{ending}", sample.name);
            let stands = std::fs::read(folder.join(&name)).unwrap_or_else(|error| panic!("{name}: {error}"));
            assert!(stands == bytes, "{name} is not as the program writes it: cargo run -p model --example samples");
            names.push(name);
        }
        let row = format!("| `{}` | {} |", sample.name, sample.words);
        assert!(readme.contains(&row), "README.md lacks: {row}");
    }
    names.sort();
    let mut there: Vec<String> =
        std::fs::read_dir(folder).unwrap().map(|file| file.unwrap().file_name().into_string().unwrap()).collect();
    there.sort();
    assert_eq!(there, names);
}

/// The samples have every reason, every kind, every number and every mark.
#[test]
fn samples_have_everything() {
    let all = samples::all();
    for reason in [Reason::Padded, Reason::TenthByte, Reason::Cut, Reason::UnknownKind, Reason::TooLarge] {
        assert!(all.iter().any(|sample| read(&sample.log).refusal.is_some_and(|refusal| refusal.reason == reason)));
    }
    let calls: Vec<Call> = all.iter().flat_map(|sample| read(&sample.log).calls).collect();
    assert!((1..=12).all(|kind| calls.iter().any(|call| numbers_of(call).0 == kind)));
    let answers: Vec<Answer> = all.iter().flat_map(|sample| replay(&sample.log, Some(PROGRAM)).answers).collect();
    assert!((0..=13).all(|number| answers.iter().any(|answer| answer.number == number)));
    assert!((0..=4).all(|mark| answers.iter().any(|answer| answer.mark == mark)));
    for (name, rows) in [("session", SESSION), ("handed-over", HANDED_OVER)] {
        let sample = all.iter().find(|sample| sample.name == name).unwrap();
        assert_eq!(sample.files()[1].1, rows.as_bytes());
    }
}
