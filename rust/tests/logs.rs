// Logs of calls, of the safe crate: what is written is read again, wherever it is cut; what is no log is refused with its place
// and its reason, and what no log can hold with its field; and a call of a log does what the board's method does.
use oaledva::ffi::Kind as LoadOrStore;
use oaledva::log::{Call, Calls, Entry, Kind, ReadError, Reader, Reason, Refused, Unfit, WriteError, Writer};
use oaledva::{Access, Board, Lent, Mark, Refusal, Shape};
use std::error::Error;
use std::io::{self, ErrorKind, Read, Write};

const SHAPE: Shape = Shape { frames: 4, uncached: 1, processes: 2, lines: 2 };
const PAGE: u64 = 0x200000;

/// A call of each kind, loads and stores apart, some of them refused.
fn every_call() -> Vec<Call> {
    vec![
        Call::Map { page: PAGE, frame: 3, write: false },
        Call::Protect { page: PAGE, write: true },
        Call::Attach { process: 1, slot: 511, segment: 2048, write: true },
        Call::Store { process: 1, width: 4, address: 511 << 22, value: u32::MAX },
        Call::Load { process: 1, width: 1, address: (511 << 22) + 3 },
        Call::SupervisorStore { width: 2, address: 8, value: 0x0a0b },
        Call::SupervisorLoad { width: 4, address: PAGE * 4096 },
        Call::FlushAll,
        Call::Tag { name: PAGE * 256 },
        Call::LoadAndMap { line: 3 * 256 },
        Call::Tag { name: PAGE * 256 },
        Call::DropTag,
        Call::Store { process: 3, width: 1, address: 9, value: 7 },
        Call::Detach { process: 1, slot: 511 },
        Call::Move { page: PAGE, new_page: PAGE + 1 },
        Call::Unmap { page: PAGE + 1 },
    ]
}

/// The same with a header, in bytes: an entry to a line.
#[rustfmt::skip]
const LOG: &[u8] = &[
    4, 1, 2, 2,
    5, 0x80, 0x80, 0x80, 1, 3, 0,
    7, 0x80, 0x80, 0x80, 1, 1,
    3, 1, 0xff, 3, 0x80, 16, 1,
    1, 1, 1, 4, 0x80, 0x80, 0x80, 0xfe, 7, 0xff, 0xff, 0xff, 0xff, 15,
    1, 1, 0, 1, 0x83, 0x80, 0x80, 0xfe, 7, 0,
    2, 1, 2, 8, 0x8b, 20,
    2, 0, 4, 0x80, 0x80, 0x80, 0x80, 32, 0,
    8,
    9, 0x80, 0x80, 0x80, 0x80, 2,
    10, 0x80, 6,
    9, 0x80, 0x80, 0x80, 0x80, 2,
    11,
    1, 3, 1, 1, 9, 7,
    4, 1, 0xff, 3,
    12, 0x80, 0x80, 0x80, 1, 0x81, 0x80, 0x80, 1,
    6, 0x81, 0x80, 0x80, 1,
];

/// The ends of what each field may be: of 64 bits, of 32, and a flag.
fn at_the_ends() -> Vec<Call> {
    let mut calls = Vec::new();
    for (any, word, write) in
        [(0, 0, false), (1, 1, true), (127, 127, false), (128, 128, true), (u64::MAX, u32::MAX, true)]
    {
        let (number, width, address, value) = (any as usize, word, word, word);
        calls.extend([
            Call::Load { process: number, width, address },
            Call::Store { process: number, width, address, value },
            Call::SupervisorLoad { width, address: any },
            Call::SupervisorStore { width, address: any, value },
            Call::Attach { process: number, slot: number, segment: any, write },
            Call::Detach { process: number, slot: number },
            Call::Map { page: any, frame: number, write },
            Call::Unmap { page: any },
            Call::Protect { page: any, write },
            Call::Move { page: any, new_page: !any },
            Call::FlushAll,
            Call::Tag { name: any },
            Call::LoadAndMap { line: number },
            Call::DropTag,
        ]);
    }
    calls
}

fn written(shape: Shape, calls: &[Call]) -> Vec<u8> {
    let mut log = Writer::new(Vec::new(), shape).unwrap();
    calls.iter().for_each(|call| log.write(call).unwrap());
    log.into_inner()
}

/// The entries of a log in pieces of a length, with room for so many; and how it ended.
fn in_pieces(log: &[u8], cut: usize, room: usize) -> (Vec<Entry>, Result<(), Refused>) {
    let (mut reader, mut entries, mut room) = (Reader::new(), Vec::new(), vec![Entry::NONE; room]);
    for piece in log.chunks(cut) {
        let mut left = piece;
        while let given @ [_, ..] = reader.take(&mut left, &mut room) {
            entries.extend_from_slice(given);
        }
        assert!(left.is_empty() || reader.refused().is_some());
        assert!(piece.ends_with(left));
    }
    assert_eq!(reader.calls(), entries.len().saturating_sub(1) as u64);
    (entries, reader.end())
}

/// Gives its bytes a few at a time.
struct Trickle<'a>(&'a [u8], usize);

impl Read for Trickle<'_> {
    fn read(&mut self, room: &mut [u8]) -> io::Result<usize> {
        let few = self.1.min(room.len());
        self.0.read(&mut room[..few])
    }
}

/// What an iterator gave, up to an error.
fn all<R: Read>(calls: Calls<R>) -> (Vec<Call>, Option<ReadError>) {
    let (mut given, mut error) = (Vec::new(), None);
    for call in calls {
        assert!(error.is_none(), "nothing comes after an error");
        match call {
            Ok(call) => given.push(call),
            Err(refused) => error = Some(refused),
        }
    }
    (given, error)
}

fn refused(error: Option<ReadError>) -> Refused {
    match error {
        Some(ReadError::Refused(refused)) => refused,
        other => panic!("not refused: {other:?}"),
    }
}

#[test]
fn a_log_has_these_bytes() {
    assert_eq!(written(SHAPE, &every_call()), LOG);
}

#[test]
fn what_is_written_is_read_again() {
    let most = usize::MAX;
    let largest = Shape { frames: most, uncached: most, processes: most, lines: most };
    for shape in [SHAPE, largest, Shape { frames: 0, uncached: 0, processes: 0, lines: 0 }] {
        for calls in [vec![], every_call(), at_the_ends()] {
            let log = written(shape, &calls);
            let given = Calls::of(&log[..]).unwrap();
            assert_eq!(given.shape(), shape);
            let (again, error) = all(given);
            assert!(error.is_none());
            assert_eq!(again, calls);
            assert_eq!(written(shape, &again), log);
        }
    }
}

#[test]
fn wherever_it_is_cut_the_same_comes() {
    let calls = at_the_ends();
    let log = written(SHAPE, &calls);
    let entries: Vec<Entry> = [Entry::from(SHAPE)].into_iter().chain(calls.iter().map(Entry::from)).collect();
    for cut in (1..64).chain([log.len()]) {
        for room in [1, 2, 3, 7, 500] {
            assert_eq!(in_pieces(&log, cut, room), (entries.clone(), Ok(())), "{cut}, {room}");
        }
        let (given, error) = all(Calls::of(Trickle(&log, cut)).unwrap());
        assert_eq!((given, error.is_none()), (calls.clone(), true), "{cut}");
    }
}

/// More entries and more bytes than the iterator takes at a time.
#[test]
fn a_long_log_is_read_whole() {
    let calls: Vec<Call> = at_the_ends().into_iter().cycle().take(40_000).collect();
    let log = written(SHAPE, &calls);
    assert!(log.len() > 3 << 16);
    let mut given = Calls::of(&log[..]).unwrap();
    for (call, number) in calls.iter().zip(1..) {
        assert_eq!(given.next().unwrap().unwrap(), *call, "call {number}");
        assert!(given.taken() <= log.len() as u64);
    }
    assert_eq!(given.taken(), log.len() as u64);
    assert!(given.next().is_none() && given.next().is_none());
    // And one that is wrong after all that.
    let wrong = [&log[..], &[5, 0, 0, 2]].concat();
    let (given, error) = all(Calls::of(&wrong[..]).unwrap());
    assert_eq!(given, calls);
    let expected = Refused { reason: Reason::TooLarge, place: log.len() as u64 + 3, calls: 40_000 };
    assert_eq!(refused(error), expected);
}

#[test]
fn what_is_no_log_is_refused_at_its_place() {
    let tenth = |last: u8| [&[4, 1, 2, 2, 8, 9][..], &[0x80; 9], &[last]].concat();
    let beyond = [0x80, 0x80, 0x80, 0x80, 0x10]; // 2^32
    let with = |before: &[u8]| [&[4, 1, 2, 2, 8][..], before, &beyond, &[0, 0, 0]].concat();
    for (log, reason, place, calls) in [
        (vec![], Reason::Cut, 0, 0),
        (vec![4, 1, 2], Reason::Cut, 3, 0),
        (vec![4, 1, 2, 0x82], Reason::Cut, 4, 0),
        (vec![4, 1, 2, 2, 8, 6], Reason::Cut, 6, 1),
        (vec![4, 1, 2, 2, 8, 6, 0x80], Reason::Cut, 7, 1),
        (vec![4, 1, 2, 2, 8, 12, 5], Reason::Cut, 7, 1),
        (tenth(1)[..15].to_vec(), Reason::Cut, 15, 1),
        (vec![0x80, 0], Reason::Padded, 0, 0),
        (vec![4, 1, 2, 2, 8, 0x88, 0], Reason::Padded, 5, 1),
        (vec![4, 1, 2, 2, 8, 6, 0x80, 0x80, 0], Reason::Padded, 6, 1),
        (tenth(0), Reason::Padded, 6, 1),
        (tenth(2), Reason::TenthByte, 6, 1),
        (tenth(0x81), Reason::TenthByte, 6, 1),
        (vec![4, 1, 2, 2, 0], Reason::UnknownKind, 4, 0),
        (vec![4, 1, 2, 2, 8, 13], Reason::UnknownKind, 5, 1),
        (vec![4, 1, 2, 2, 8, 0x88, 1], Reason::UnknownKind, 5, 1),
        (vec![4, 1, 2, 2, 8, 1, 0, 2], Reason::TooLarge, 7, 1),
        (vec![4, 1, 2, 2, 8, 1, 0, 0, 4, 0, 1], Reason::TooLarge, 10, 1),
        (vec![4, 1, 2, 2, 8, 2, 0, 4, 0, 1], Reason::TooLarge, 9, 1),
        (vec![4, 1, 2, 2, 8, 7, 0, 2], Reason::TooLarge, 7, 1),
        (with(&[1, 0, 1]), Reason::TooLarge, 8, 1),
        (with(&[1, 0, 1, 4]), Reason::TooLarge, 9, 1),
        (with(&[1, 0, 1, 4, 0]), Reason::TooLarge, 10, 1),
        (with(&[2, 1]), Reason::TooLarge, 7, 1),
    ] {
        let expected = Refused { reason, place, calls };
        for cut in 1..=log.len().max(1) {
            let (entries, ended) = in_pieces(&log, cut, 1 + cut % 3);
            assert_eq!((entries.len().saturating_sub(1) as u64, ended), (calls, Err(expected)), "{log:?}, {cut}");
            let given = match Calls::of(Trickle(&log, cut)) {
                Ok(calls) => all(calls),
                Err(error) => (vec![], Some(error)),
            };
            assert_eq!((given.0, refused(given.1)), (vec![Call::FlushAll; calls as usize], expected), "{log:?}, {cut}");
        }
    }
}

#[test]
fn a_reader_that_refused_takes_nothing_more() {
    let (mut reader, mut room) = (Reader::default(), [Entry::NONE; 4]);
    assert_eq!((reader.refused(), reader.taken()), (None, 0));
    let mut piece: &[u8] = &[4, 1, 2, 2, 8, 13, 8, 8];
    assert_eq!(reader.take(&mut piece, &mut room).len(), 2);
    assert_eq!((piece, reader.take(&mut piece, &mut room)), (&[13, 8, 8][..], &[][..]));
    let refused = Refused { reason: Reason::UnknownKind, place: 5, calls: 1 };
    assert_eq!((reader.refused(), reader.end(), reader.calls()), (Some(refused), Err(refused), 1));
    for _ in 0..3 {
        assert!(reader.take(&mut &[8, 8][..], &mut room).is_empty());
        assert_eq!(reader.clone().end(), Err(refused));
    }
}

/// Without room it takes nothing; with room for less than there is, it stops behind the entry that fills it.
#[test]
fn a_reader_takes_as_far_as_there_is_room() {
    let (mut reader, mut room, mut piece) = (Reader::new(), [Entry::NONE; 2], LOG);
    assert!(reader.take(&mut piece, &mut []).is_empty());
    assert_eq!((piece, reader.taken()), (LOG, 0));
    assert_eq!(reader.take(&mut piece, &mut room[..1])[0].shape(), Some(SHAPE));
    assert_eq!((reader.taken(), piece), (4, &LOG[4..]));
    assert_eq!(reader.take(&mut piece, &mut room[..1])[0].call(), Some(every_call()[0]));
    assert_eq!((reader.taken(), room[1]), (11, Entry::NONE));
    assert!(reader.take(&mut &[][..], &mut room).is_empty());
    assert_eq!((reader.end(), reader.calls()), (Ok(()), 1));
}

/// Whatever an iterator's source says.
#[test]
fn an_error_of_the_source_ends_the_calls() {
    struct Fails<'a>(&'a [u8], Vec<ErrorKind>);
    impl Read for Fails<'_> {
        fn read(&mut self, room: &mut [u8]) -> io::Result<usize> {
            match self.1.pop() {
                Some(kind) => Err(kind.into()),
                None => self.0.read(&mut room[..1]),
            }
        }
    }
    let again = vec![ErrorKind::Interrupted; 3];
    assert_eq!(all(Calls::of(Fails(LOG, again)).unwrap()).0, every_call());

    let none = Calls::of(Fails(LOG, vec![ErrorKind::PermissionDenied])).err();
    assert!(matches!(none, Some(ReadError::Io(error)) if error.kind() == ErrorKind::PermissionDenied));

    let broken = LOG[..25].chain(Fails(&[], vec![ErrorKind::ConnectionReset]));
    let mut calls = Calls::of(broken).unwrap();
    assert!(calls.by_ref().take(3).all(|call| call.is_ok()));
    let error = calls.next().unwrap().unwrap_err();
    assert!(matches!(&error, ReadError::Io(error) if error.kind() == ErrorKind::ConnectionReset));
    assert!(error.to_string().starts_with("cannot read the log: ") && error.source().is_some());
    assert!(calls.next().is_none() && calls.next().is_none());
}

#[test]
fn a_writer_refuses_what_no_log_can_hold() {
    let entry = |kind, fields| Entry { kind, fields };
    let beyond = 1 << 32;
    let mut log = Writer::new(Vec::new(), SHAPE).unwrap();
    log.write(Call::FlushAll).unwrap();
    for (entry, field, words) in [
        (entry(13, [0; 5]), None, "a kind that is not known: 13"),
        (entry(beyond + 8, [0; 5]), None, "a kind that is not known: 4294967304"),
        (Entry::NONE, None, "a kind that is not known: 18446744073709551615"),
        (Entry::from(SHAPE), None, "a kind that is not known: 0"),
        (entry(0, [1; 5]), None, "a kind that is not known: 0"),
        (entry(1, [0, 2, 4, 0, 0]), Some(2), "a field that is too large: load or store 2 in user access"),
        (entry(1, [0, 1, beyond, 0, 0]), Some(3), "a field that is too large: width 4294967296 in user access"),
        (
            entry(1, [0, 0, 4, beyond, 9]),
            Some(4),
            "a field that is too large: effective address 4294967296 in user access",
        ),
        (entry(1, [0, 1, 4, 0, beyond]), Some(5), "a field that is too large: value 4294967296 in user access"),
        (entry(1, [0, 0, 4, 0, 50]), Some(5), "a field that is too large: value 50 in user access (a load has none)"),
        (entry(2, [2, 4, 0, 0, 0]), Some(1), "a field that is too large: load or store 2 in supervisor access"),
        (
            entry(2, [0, 4, 0, 1, 0]),
            Some(4),
            "a field that is too large: value 1 in supervisor access (a load has none)",
        ),
        (entry(3, [0, 0, 2048, 2, 0]), Some(4), "a field that is too large: write bit 2 in attach"),
        (entry(4, [0, 0, 7, 0, 0]), Some(3), "a field that is too large: field 3, which detach does not have, is 7"),
        (entry(5, [0, 0, 2, 0, 0]), Some(3), "a field that is too large: write bit 2 in map"),
        (entry(7, [0, 2, 0, 0, 0]), Some(2), "a field that is too large: write bit 2 in protect"),
        (entry(8, [0, 0, 0, 0, 1]), Some(5), "a field that is too large: field 5, which flush all does not have, is 1"),
        (entry(12, [0, 0, 1, 0, 0]), Some(3), "a field that is too large: field 3, which move does not have, is 1"),
    ] {
        let Err(WriteError::Unfit(unfit)) = log.write(entry) else { panic!("{entry:?} is written") };
        let reason = if field.is_some() { Reason::TooLarge } else { Reason::UnknownKind };
        assert_eq!((unfit.reason(), unfit.field(), unfit.entry()), (reason, field, entry));
        assert_eq!((unfit.to_string(), WriteError::from(unfit).to_string()), (words.into(), words.into()));
        assert_eq!((entry.call(), log.get_ref().len()), (None, 5), "nothing is written");
    }
    // The log goes on.
    log.write(Call::DropTag).unwrap();
    assert_eq!(log.into_inner(), [4, 1, 2, 2, 8, 11]);
}

#[test]
fn accesses_of_a_list_are_logged_one_by_one() {
    let mut log = Writer::new(Vec::new(), SHAPE).unwrap();
    log.write(Access::load(1, 2, 6)).unwrap();
    log.write(Access::store(usize::MAX, 4, 8, 9)).unwrap();
    log.write(Access { kind: LoadOrStore { store: 7 }, ..Access::load(0, 1, 3) }).unwrap(); // anything but 0 is a store
    let load = Access { value: 1, ..Access::load(0, 1, 3) };
    assert!(matches!(log.write(load), Err(WriteError::Unfit(unfit)) if unfit.field() == Some(5)));
    let (calls, error) = all(Calls::of(&log.into_inner()[..]).unwrap());
    assert!(error.is_none());
    let expected = [
        Call::Load { process: 1, width: 2, address: 6 },
        Call::Store { process: u32::MAX as usize, width: 4, address: 8, value: 9 },
        Call::Store { process: 0, width: 1, address: 3, value: 0 },
    ];
    assert_eq!(calls, expected);
}

#[test]
fn an_error_of_the_output_is_told() {
    /// Takes so many bytes.
    struct Full(usize);
    impl Write for Full {
        fn write(&mut self, bytes: &[u8]) -> io::Result<usize> {
            if bytes.len() > self.0 {
                return Err(ErrorKind::WriteZero.into());
            }
            self.0 -= bytes.len();
            Ok(bytes.len())
        }
        fn flush(&mut self) -> io::Result<()> {
            Ok(())
        }
    }
    assert_eq!(Writer::new(Full(3), SHAPE).err().map(|error| error.kind()), Some(ErrorKind::WriteZero));
    let mut log = Writer::new(Full(5), SHAPE).unwrap();
    log.write(Call::FlushAll).unwrap();
    let error = log.write(Call::FlushAll).unwrap_err();
    assert!(matches!(&error, WriteError::Io(error) if error.kind() == ErrorKind::WriteZero));
    assert!(error.to_string().starts_with("cannot write the log: ") && error.source().is_some());
    assert_eq!(log.get_mut().0, 0);
}

/// A call goes out by one write, so that another program never sees half of it.
#[test]
fn each_call_is_one_write() {
    struct Writes(Vec<usize>);
    impl Write for Writes {
        fn write(&mut self, bytes: &[u8]) -> io::Result<usize> {
            self.0.push(bytes.len());
            Ok(bytes.len())
        }
        fn flush(&mut self) -> io::Result<()> {
            Ok(())
        }
    }
    let mut log = Writer::new(Writes(Vec::new()), SHAPE).unwrap();
    log.write(Call::Unmap { page: PAGE }).unwrap();
    log.write(Call::DropTag).unwrap();
    assert_eq!(log.into_inner().0, [4, 5, 1]);
}

#[test]
fn a_call_is_its_entry_and_an_entry_its_call() {
    for call in every_call().into_iter().chain(at_the_ends()) {
        let entry = Entry::from(call);
        assert_eq!((entry.call(), entry.shape(), entry.kind), (Some(call), None, call.kind().number().into()));
        let fields = call.kind().fields().len();
        assert!(entry.fields[fields..].iter().all(|&field| field == 0));
    }
    assert_eq!((Entry::from(SHAPE).shape(), Entry::from(SHAPE).call()), (Some(SHAPE), None));
    assert_eq!((Entry::NONE.shape(), Entry::NONE.call()), (None, None));
    assert_eq!(Entry { kind: 0, fields: [1; 5] }.shape(), None);
}

#[test]
fn kinds_have_their_numbers() {
    for (kind, number) in Kind::ALL.iter().zip(1..) {
        assert_eq!((kind.number(), Kind::of(number.into())), (number, Some(*kind)));
    }
    assert_eq!([0, 13, 1 << 32 | 5, u64::MAX].map(Kind::of), [None; 4]);
    assert_eq!(Kind::LoadAndMap.to_string(), "load-and-map (kind 10)");
    assert_eq!((Reason::of(0), Reason::of(4)), (None, Some(Reason::Cut)));
    assert_eq!(Reason::Cut.to_string(), "the log is cut (reason 4)");
}

/// What the method of a call's name gives.
fn by_name(board: &mut Board, call: Call) -> Result<u32, Refusal> {
    let nothing = |()| 0;
    match call {
        Call::Load { process, width, address } => board.load(process, width, address),
        Call::Store { process, width, address, value } => board.store(process, width, address, value).map(nothing),
        Call::SupervisorLoad { width, address } => board.supervisor_load(width, address),
        Call::SupervisorStore { width, address, value } => board.supervisor_store(width, address, value).map(nothing),
        Call::Attach { process, slot, segment, write } => board.attach(process, slot, segment, write).map(nothing),
        Call::Detach { process, slot } => board.detach(process, slot).map(nothing),
        Call::Map { page, frame, write } => board.map(page, frame, write).map(nothing),
        Call::Unmap { page } => board.unmap(page).map(nothing),
        Call::Protect { page, write } => board.protect(page, write).map(nothing),
        Call::Move { page, new_page } => board.move_page(page, new_page).map(nothing),
        Call::FlushAll => board.flush_all().map(nothing),
        Call::Tag { name } => board.tag(name).map(nothing),
        Call::LoadAndMap { line } => board.load_and_map(line).map(nothing),
        Call::DropTag => board.drop_tag().map(nothing),
    }
}

#[test]
fn a_call_does_what_the_method_does() {
    let (mut one, mut other) = (Board::for_replay(SHAPE).unwrap(), Board::new(SHAPE).unwrap());
    assert_eq!(one, other);
    for call in every_call().into_iter().chain(at_the_ends()) {
        assert_eq!((one.perform(&call), one.mark()), (by_name(&mut other, call), other.mark()), "{call:?}");
        assert_eq!(one, other);
    }
    assert_eq!(one.perform(&every_call()[0]), Ok(0));
    assert_eq!(one.perform(&Call::Load { process: 0, width: 4, address: 0 }), Err(Refusal::SlotEmpty));
}

/// What was done while the log was written is done again.
#[test]
fn a_replayed_log_leaves_the_same_board() {
    let mut board = Board::new(SHAPE).unwrap();
    let mut log = Writer::new(Vec::new(), board.shape()).unwrap();
    let mut answers = Vec::new();
    for call in every_call().into_iter().chain(at_the_ends()).chain(every_call()) {
        log.write(call).unwrap();
        answers.push((board.perform(&call), board.mark()));
    }
    let log = log.into_inner();
    let calls = Calls::of(&log[..]).unwrap();
    let mut again = Board::for_replay(calls.shape()).unwrap();
    let replayed: Vec<_> = calls.map(|call| (again.perform(&call.unwrap()), again.mark())).collect();
    assert_eq!((replayed, again), (answers, board));
}

/// Numbers out of their limits: every call is refused by 1, whatever they are, and no memory is asked for.
#[test]
fn a_board_out_of_limits_refuses_every_call() {
    let most = usize::MAX;
    for shape in [
        Shape { lines: 3, ..SHAPE },
        Shape { uncached: 5, ..SHAPE },
        Shape { frames: 0, uncached: 0, processes: 0, lines: 0 },
        Shape { frames: Shape::FRAMES_MAX + 1, ..SHAPE },
        Shape { processes: Shape::PROCESSES_MAX + 1, ..SHAPE },
        Shape { lines: 2 * Shape::LINES_MAX, ..SHAPE },
        Shape { frames: most, uncached: most, processes: most, lines: most },
    ] {
        let mut board = Board::for_replay(shape).unwrap();
        assert_eq!((board.shape(), board.memory().len()), (shape, 0));
        for call in every_call() {
            assert_eq!(
                (board.perform(&call), board.mark()),
                (Err(Refusal::Shape), Mark::NoAccess),
                "{shape:?}, {call:?}"
            );
        }
    }
}

/// On a board over the caller's buffers, too.
#[test]
fn a_lent_board_takes_the_calls_of_a_log() {
    let (mut slots, mut words) = (vec![0; SHAPE.slots()], vec![0; SHAPE.words()]);
    let (mut records, mut cache) = (vec![0; SHAPE.records()], vec![0; SHAPE.cache()]);
    let mut memory = vec![0; SHAPE.memory()];
    let mut lent = Lent::over(SHAPE, &mut slots, &mut words, &mut records, &mut cache, &mut memory, None);
    let mut board = Board::for_replay(SHAPE).unwrap();
    for call in every_call() {
        assert_eq!((lent.perform(&call), lent.mark()), (board.perform(&call), board.mark()));
    }
    assert_eq!(lent.memory(), board.memory());
}

#[test]
fn errors_say_what_they_are() {
    let refused = Refused { reason: Reason::TooLarge, place: 17, calls: 2 };
    let words = "log refused at byte 17, after 2 calls: a field that is too large";
    assert_eq!((refused.to_string(), ReadError::from(refused).to_string()), (words.into(), words.into()));
    assert!(ReadError::from(refused).source().is_none());
    fn error<E: Error + Send + Sync + 'static>() {}
    error::<Refused>();
    error::<ReadError>();
    error::<Unfit>();
    error::<WriteError>();
    error::<oaledva::log::NoMemory>();
}
