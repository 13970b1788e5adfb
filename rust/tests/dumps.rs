// Dumped boards, of the safe crate: dumps written and read, every refusal with its place, lengths that no file has; and boards
// checked and repaired: sound ones, each rule broken in several ways, scratch that does not fit, and sets of four.
use oaledva::dump::{self, Dump, ReadError, Reason, Refused, SetsOfFour, WriteError, HEADER_BYTES};
use oaledva::log::Call;
use oaledva::{ffi, Board, Broken, CheckError, Lent, Mark, Refusal, Repaired, Rule, Scratch, Shape};
use std::alloc::{GlobalAlloc, Layout, System};
use std::cell::Cell;
use std::io::{self, Read, Write};
use std::panic::catch_unwind;

const SHAPE: Shape = Shape { frames: 4, uncached: 1, processes: 2, lines: 2 };
const PAGE: u64 = 0x200000;
/// The last page that may be mapped.
const LAST: u64 = 0xFFBF_FFFF;
/// Of a line name.
const PREFIX_1: u64 = 1 << 28;

// ---- dumps

/// The most bytes that this thread asked for at once.
struct Watched;

thread_local! {
    static LARGEST: Cell<usize> = const { Cell::new(0) };
}

fn asked(size: usize) {
    LARGEST.with(|largest| largest.set(largest.get().max(size)));
}

// Safety: the system's allocator, with a number kept beside.
unsafe impl GlobalAlloc for Watched {
    unsafe fn alloc(&self, layout: Layout) -> *mut u8 {
        asked(layout.size());
        unsafe { System.alloc(layout) }
    }

    unsafe fn alloc_zeroed(&self, layout: Layout) -> *mut u8 {
        asked(layout.size());
        unsafe { System.alloc_zeroed(layout) }
    }

    unsafe fn realloc(&self, start: *mut u8, layout: Layout, size: usize) -> *mut u8 {
        asked(size);
        unsafe { System.realloc(start, layout, size) }
    }

    unsafe fn dealloc(&self, start: *mut u8, layout: Layout) {
        unsafe { System.dealloc(start, layout) }
    }
}

#[global_allocator]
static WATCHED: Watched = Watched;

fn largest_of<T>(work: impl FnOnce() -> T) -> (T, usize) {
    LARGEST.with(|largest| largest.set(0));
    let done = work();
    (done, LARGEST.with(Cell::get))
}

/// A board as 01's session leaves it after its sixth call, the tag pending that is asked for.
fn board(tag: Option<u64>) -> Board {
    let mut board = Board::new(SHAPE).unwrap();
    board.map(PAGE, 1, true).unwrap();
    board.attach(0, 0, 2048, true).unwrap();
    board.store(0, 4, 0, 50).unwrap();
    for address in [3, 32, 3] {
        board.load(0, 1, address).unwrap();
    }
    if let Some(name) = tag {
        board.tag(name).unwrap();
    }
    board
}

/// Few bytes, and no two lengths that agree with a shape.
fn small() -> Dump {
    Dump {
        shape: Shape { frames: 0x0102, uncached: usize::MAX, processes: 0, lines: 3 },
        pending: Some(0x0A0B),
        slots: vec![0x01020304, 5],
        words: vec![0x0102030405060708],
        records: vec![u64::MAX, 9],
        cache: vec![1, 2, 3],
        memory: vec![4, 5, 6, 7],
    }
}

fn empty() -> Dump {
    let shape = Shape { frames: 0, uncached: 0, processes: 0, lines: 0 };
    Dump { shape, pending: None, slots: vec![], words: vec![], records: vec![], cache: vec![], memory: vec![] }
}

/// Longer than the pieces in which it is read.
fn large() -> Dump {
    let numbers = |count: u64| (0..count).map(|number| number.wrapping_mul(0x9E37_79B9_7F4A_7C15));
    Dump {
        slots: numbers(70_001).map(|number| number as u32).collect(),
        words: numbers(20_003).collect(),
        records: numbers(16_384).collect(),
        cache: numbers(65_536).map(|number| number as u8).collect(),
        memory: numbers(300_001).map(|number| (number >> 8) as u8).collect(),
        ..small()
    }
}

/// A byte at a time, with interruptions.
struct ByByte<'a>(&'a [u8], bool);

impl Read for ByByte<'_> {
    fn read(&mut self, room: &mut [u8]) -> io::Result<usize> {
        self.1 = !self.1;
        if self.1 {
            return Err(io::ErrorKind::Interrupted.into());
        }
        let count = room.len().min(1);
        self.0.read(&mut room[..count])
    }
}

#[test]
fn a_dump_is_read_as_it_was_written() {
    let tagged = Dump::of(&board(Some(PAGE * 256))).unwrap();
    for dump in [Dump::of(&board(None)).unwrap(), tagged, small(), empty(), large()] {
        let bytes = dump.to_bytes();
        assert_eq!(bytes.len() as u64, dump.length());
        let read = Dump::from_bytes(&bytes).unwrap();
        assert!(read == dump && read.to_bytes() == bytes);
        assert!(Dump::read(ByByte(&bytes, false)).unwrap() == dump);
    }
}

#[test]
fn a_dump_has_its_bytes() {
    let bytes = small().to_bytes();
    let (header, rest) = bytes.split_at(HEADER_BYTES as usize);
    assert_eq!(header[..8], *b"OALDUMP\x01");
    let numbers: Vec<u64> =
        header[8..].chunks(8).map(|number| u64::from_be_bytes(number.try_into().unwrap())).collect();
    assert_eq!(numbers, [0x0102, u64::MAX, 0, 3, 1, 0x0A0B, 2, 1, 2, 3, 4]);
    let words: [&[u8]; 5] = [
        &[1, 2, 3, 4, 0, 0, 0, 5],
        &[1, 2, 3, 4, 5, 6, 7, 8],
        &[255, 255, 255, 255, 255, 255, 255, 255, 0, 0, 0, 0, 0, 0, 0, 9],
        &[1, 2, 3],
        &[4, 5, 6, 7],
    ];
    assert_eq!(rest, words.concat());
    assert_eq!(empty().to_bytes(), [&b"OALDUMP\x01"[..], &[0; 88]].concat());
}

fn refused(bytes: &[u8]) -> (Reason, u64) {
    let Refused { reason, place } = Dump::from_bytes(bytes).unwrap_err();
    // From a source that gives other pieces it is the same.
    let Err(ReadError::Refused(again)) = Dump::read(ByByte(bytes, false)) else { panic!("taken, byte by byte") };
    assert_eq!(again, Refused { reason, place });
    assert_eq!(again.to_string(), format!("dump refused at byte {place}: {}", reason.words()));
    (reason, place)
}

fn with(bytes: &[u8], place: usize, other: &[u8]) -> Vec<u8> {
    [&bytes[..place], other, &bytes[place + other.len()..]].concat()
}

#[test]
fn a_dump_cut_anywhere_is_refused_at_its_length() {
    for dump in [small(), empty()] {
        let bytes = dump.to_bytes();
        for length in 0..bytes.len() {
            assert_eq!(refused(&bytes[..length]), (Reason::Cut, length as u64));
        }
    }
    let bytes = large().to_bytes();
    for length in [bytes.len() - 1, bytes.len() / 2, 70_000] {
        assert_eq!(Dump::from_bytes(&bytes[..length]), Err(Refused { reason: Reason::Cut, place: length as u64 }));
    }
}

#[test]
fn a_dump_that_goes_on_is_refused_where_it_ends() {
    for dump in [small(), empty(), Dump::of(&board(None)).unwrap()] {
        let bytes = dump.to_bytes();
        for more in [&[0][..], &[1, 2, 3], b"OALDUMP\x01"] {
            assert_eq!(refused(&[&bytes, more].concat()), (Reason::Longer, bytes.len() as u64));
        }
    }
}

#[test]
fn other_first_bytes_are_no_dump() {
    let bytes = small().to_bytes();
    for place in 0..7 {
        for other in [0, bytes[place] ^ 32, 255] {
            let wrong = with(&bytes, place, &[other]);
            assert_eq!(refused(&wrong), (Reason::NotADump, place as u64));
            assert_eq!(refused(&wrong[..=place]), (Reason::NotADump, place as u64), "it ends behind the byte");
        }
    }
    for version in [0, 2, b'1', 255] {
        assert_eq!(refused(&with(&bytes, 7, &[version])), (Reason::UnknownVersion, 7));
        assert_eq!(refused(&[b"OALDUMP", &[version][..]].concat()), (Reason::UnknownVersion, 7));
    }
    // Other things that lie about.
    assert_eq!(refused(b"<?xml version=\"1.0\"?>"), (Reason::NotADump, 0));
    assert_eq!(refused(&[4, 1, 2, 2]), (Reason::NotADump, 0));
}

/// One board has one dump: a tag is 0 and 0, or 1 and a name.
#[test]
fn a_tag_has_one_form() {
    let bytes = small().to_bytes();
    for set in [2, 3, 256, 1 << 63, u64::MAX] {
        assert_eq!(refused(&with(&bytes, 40, &u64::to_be_bytes(set))), (Reason::TagMark, 40));
    }
    let none = with(&bytes, 40, &[0; 8]);
    assert_eq!(refused(&none), (Reason::NameWithoutTag, 48));
    assert_eq!(Dump::from_bytes(&with(&none, 48, &[0; 8])), Ok(Dump { pending: None, ..small() }));
    let zero = with(&bytes, 48, &[0; 8]);
    assert_eq!(Dump::from_bytes(&zero), Ok(Dump { pending: Some(0), ..small() }));
}

/// Whatever a file claims, no more memory is taken than it has bytes, and some.
#[test]
fn no_length_is_trusted() {
    let claim = |index: usize, length: u64| with(&empty().to_bytes(), 56 + 8 * index, &u64::to_be_bytes(length));
    for index in 0..5 {
        let bytes = [4, 8, 8, 1, 1][index];
        let most = (u64::MAX - HEADER_BYTES) / bytes;
        for length in [1, 1 << 20, 1 << 40, 1 << 60, most] {
            let file = [claim(index, length), vec![7; bytes as usize - 1]].concat();
            let (given, largest) = largest_of(|| Dump::from_bytes(&file));
            assert_eq!(given, Err(Refused { reason: Reason::Cut, place: file.len() as u64 }), "{index}: {length}");
            assert!(largest <= 1 << 20, "{index}: {length} takes {largest} bytes at once");
        }
        for length in [most + 1, 1 << 63, u64::MAX] {
            let (reason, place) =
                if length <= most { (Reason::Cut, 96) } else { (Reason::TooLong, 56 + 8 * index as u64) };
            assert_eq!(refused(&claim(index, length)), (reason, place), "{index}: {length}");
        }
    }
    // Each fits, and they don't together: 2^63 bytes of words, and as many of records less the header.
    let two = with(&claim(1, 1 << 60), 72, &u64::to_be_bytes((1 << 60) - 12));
    assert_eq!(refused(&two), (Reason::TooLong, 72));
    let less = with(&two, 72, &u64::to_be_bytes((1 << 60) - 13)); // 8 bytes less than 2^64
    assert_eq!(refused(&less), (Reason::Cut, 96));
    assert_eq!(refused(&with(&less, 88, &u64::to_be_bytes(7))), (Reason::Cut, 96));
    assert_eq!(refused(&with(&less, 88, &u64::to_be_bytes(8))), (Reason::TooLong, 88));
    // A length is refused as soon as it is read.
    assert_eq!(refused(&claim(0, u64::MAX)[..64]), (Reason::TooLong, 56));
}

/// A file that is changed in a byte is refused, or is the dump of another board: of one that is taken all bytes are written again.
#[test]
fn each_byte_counts() {
    let (bytes, mut taken) = (small().to_bytes(), 0);
    for place in 0..bytes.len() {
        for other in [bytes[place] ^ 1, bytes[place] ^ 0x80, !bytes[place]] {
            let file = with(&bytes, place, &[other]);
            if let Ok(dump) = Dump::from_bytes(&file) {
                assert!(dump != small() && dump.to_bytes() == file, "byte {place}");
                taken += 1;
            }
        }
    }
    assert_eq!(taken, 3 * (4 * 8 + 8 + 39)); // those of the four numbers, of the name and of the buffers
}

/// Of several things that are wrong the first is told.
#[test]
fn the_first_fault_is_told() {
    let mut bytes = [small().to_bytes(), vec![0]].concat();
    for (place, other, expected) in [
        (88, &[255; 8][..], (Reason::TooLong, 88)),
        (64, &[255], (Reason::TooLong, 64)),
        (40, &[0, 0, 0, 0, 0, 0, 0, 0], (Reason::NameWithoutTag, 48)),
        (47, &[2], (Reason::TagMark, 40)),
        (7, &[2], (Reason::UnknownVersion, 7)),
        (6, b"p", (Reason::NotADump, 6)),
        (0, b"o", (Reason::NotADump, 0)),
    ] {
        bytes = with(&bytes, place, other);
        assert_eq!(refused(&bytes), expected);
    }
}

#[test]
fn what_cannot_be_read_or_written_is_told() {
    struct Closed(usize);
    impl Read for Closed {
        fn read(&mut self, room: &mut [u8]) -> io::Result<usize> {
            let bytes = small().to_bytes();
            let count = room.len().min(100 - self.0);
            room[..count].copy_from_slice(&bytes[self.0..self.0 + count]);
            self.0 += count;
            if count == 0 {
                Err(io::ErrorKind::PermissionDenied.into())
            } else {
                Ok(count)
            }
        }
    }
    impl Write for Closed {
        fn write(&mut self, _: &[u8]) -> io::Result<usize> {
            Err(io::ErrorKind::BrokenPipe.into())
        }
        fn flush(&mut self) -> io::Result<()> {
            Ok(())
        }
    }
    let error = Dump::read(Closed(0)).unwrap_err();
    assert!(matches!(&error, ReadError::Io(error) if error.kind() == io::ErrorKind::PermissionDenied));
    assert_eq!(error.to_string(), "cannot read the dump: permission denied");
    assert_eq!(small().write(Closed(0)).unwrap_err().kind(), io::ErrorKind::BrokenPipe);
    let error = dump::write(&board(None), Closed(0)).unwrap_err();
    assert_eq!(error.to_string(), "cannot write the dump: broken pipe");
}

#[test]
fn a_board_and_its_dump_are_the_same() {
    for tag in [None, Some(PAGE * 256 + 7)] {
        let board = board(tag);
        let mut dump = Dump::of(&board).unwrap();
        assert_eq!((dump.shape, dump.pending), (SHAPE, tag));
        assert_eq!(dump.clone().into_board(), board);
        // Of lent buffers it is the same dump, and so it is where it is written without a copy.
        assert_eq!(Dump::of(&dump.clone().lent()), Ok(dump.clone()));
        let (mut of_board, mut of_lent) = (Vec::new(), Vec::new());
        dump::write(&board, &mut of_board).unwrap();
        dump::write(&dump.lent(), &mut of_lent).unwrap();
        assert!(of_board == dump.to_bytes() && of_lent == of_board);
    }
    let mut dump = Dump::of(&board(None)).unwrap();
    dump.lent().store(0, 4, 0, 77).unwrap();
    assert_eq!(dump.lent().load(0, 4, 0), Ok(77));
    dump.lent().tag(PAGE * 256).unwrap(); // the board that was lent had it
    assert_eq!((dump.pending, dump.lent().pending()), (None, None));
    // Whatever stands in one, a call on its board has an answer.
    for mut dump in [small(), empty(), large()] {
        assert_eq!(dump.lent().load(0, 1, 0), Err(Refusal::Shape));
        assert_eq!(dump.into_board().flush_all(), Err(Refusal::Shape));
    }
}

// ---- checks and repairs

/// A board of two pages, with room for lines: the first page has frame 1 and may be written, the second frame 2, read-only; frame
/// 3 is free. Frame 0 is uncached.
fn sound() -> Dump {
    let shape = Shape { frames: 4, uncached: 1, processes: 1, lines: 8 };
    let mut board = Board::new(shape).unwrap();
    board.map(PAGE, 1, true).unwrap();
    board.map(PAGE + 1, 2, false).unwrap();
    let mut dump = Dump::of(&board).unwrap();
    dump.memory.iter_mut().enumerate().for_each(|(index, byte)| *byte = (index / 16) as u8);
    dump
}

/// A record: name, physical line, changed, write.
type Record = (u64, u64, bool, bool);

/// Puts a valid line at its place, with memory's bytes where there are such; gives the place.
fn put(dump: &mut Dump, (name, physical, changed, write): Record) -> usize {
    let place = (name % dump.shape.lines as u64) as usize;
    dump.records[2 * place] = name;
    dump.records[2 * place + 1] = physical * 8 + u64::from(changed) * 4 + u64::from(write) * 2 + 1;
    let bytes: Vec<u8> = match dump.memory.get(16 * physical as usize..16 * physical as usize + 16) {
        Some(bytes) => bytes.to_vec(),
        None => vec![0xEE; 16],
    };
    dump.cache[16 * place..][..16].copy_from_slice(&bytes);
    place
}

fn holding(records: &[Record]) -> Dump {
    let mut dump = sound();
    let mut places: Vec<usize> = records.iter().map(|&record| put(&mut dump, record)).collect();
    places.sort();
    places.dedup();
    assert_eq!(places.len(), records.len(), "each has a place of its own");
    dump
}

/// What all four ways say, which must be the same: check and repair, with scratch of the caller's and without. Then the board
/// is sound, or nothing of it has changed; what was dropped is dropped, and nothing else has changed.
fn asked_all(dump: &Dump) -> Result<Repaired, Broken> {
    let (mut one, mut other) = (dump.clone(), dump.clone());
    let mut scratch =
        if dump.shape.keeps_limits() { Scratch::of(&dump.shape) } else { Scratch { keys: 0, links: 0, dropped: 0 } };
    scratch.keys += 3; // more is fine
    let (mut keys, mut links) = (vec![u64::MAX; scratch.keys], vec![0x5555; scratch.links]);
    let mut dropped = vec![9; scratch.dropped];

    let checked = one.lent().check();
    assert_eq!(one.lent().check_with(&mut keys, &mut links), checked.map_err(CheckError::Broken));
    assert!(one == *dump, "a check changed the board");
    let repaired = one.lent().repair();
    let with = other.lent().repair_with(&mut keys, &mut links, &mut dropped);
    assert!(one == other, "the repairs differ");
    match &repaired {
        Ok(Repaired { before, dropped: places }) => {
            assert_eq!(checked.err(), *before);
            assert_eq!(with, Ok(Repaired { before: *before, dropped: places.len() }));
            let said: Vec<usize> = (0..dump.shape.lines).filter(|&place| dropped[place] == 1).collect();
            assert!(said == *places && dropped.iter().all(|&said| said <= 1));
            let mut expected = dump.clone();
            places.iter().for_each(|&place| expected.records[2 * place..][..2].fill(0));
            assert!(one == expected, "something else than the dropped lines has changed");
            assert_eq!(one.lent().check(), Ok(()));
            assert_eq!(one.lent().repair(), Ok(Repaired { before: None, dropped: vec![] }));
        }
        Err(broken) => {
            assert_eq!((checked, with), (Err(*broken), Err(CheckError::Broken(*broken))));
            assert!(!broken.rule.is_mended() && one == *dump && dropped.iter().all(|&said| said == 9));
        }
    }
    repaired
}

fn broken(rule: Rule, place: usize) -> Broken {
    Broken { rule, place }
}

fn found(rule: Rule, place: usize, dropped: &[usize]) -> Result<Repaired, Broken> {
    Ok(Repaired { before: Some(broken(rule, place)), dropped: dropped.to_vec() })
}

const SOUND: Result<Repaired, Broken> = Ok(Repaired { before: None, dropped: Vec::new() });

#[test]
fn sound_boards_are_found_sound() {
    assert_eq!(asked_all(&sound()), SOUND);
    assert_eq!(asked_all(&Dump::of(&board(Some(PAGE * 256))).unwrap()), SOUND);
    let lines = [
        (PAGE * 256, 256, true, true),                 // place 0
        (PAGE * 256 + 9, 256 + 9, false, true),        // 1
        ((PAGE + 1) * 256 + 2, 512 + 2, true, false),  // 2: changed by the supervisor
        ((PAGE + 1) * 256 + 3, 512 + 3, false, false), // 3
        (PREFIX_1 + 768 + 4, 768 + 4, false, true),    // 4
        (PREFIX_1 + 768 + 5, 768 + 5, true, true),     // 5
    ];
    let mut dump = holding(&lines);
    dump.cache[0] = 0xEE; // changed lines may differ from memory
    assert_eq!(asked_all(&dump), SOUND);
    // What holds no line is not asked: not valid, at another place, beyond memory.
    dump.records[12..].copy_from_slice(&[PAGE * 256 + 6, 700 * 8 + 6, PAGE * 256 + 8, 256 * 8 + 1]);
    assert_eq!(asked_all(&dump), SOUND);
    dump.records[13] = 4 * 256 * 8 + 1;
    dump.records[15] = u64::MAX;
    assert_eq!(asked_all(&dump), SOUND);
    // Nor are slots and the tag.
    dump.slots.fill(u32::MAX);
    dump.pending = Some(u64::MAX);
    assert_eq!(asked_all(&dump), SOUND);
}

/// After every call, from a fresh board on.
#[test]
fn boards_that_calls_make_are_sound() {
    let mut state: u64 = 13;
    let mut below = |end: u64| {
        state = state.wrapping_mul(6364136223846793005).wrapping_add(1442695040888963407);
        (state >> 33) % end
    };
    let mut board = Board::new(Shape { frames: 5, uncached: 1, processes: 2, lines: 8 }).unwrap();
    board.attach(0, 0, 2048, true).unwrap();
    let mut done = 0;
    for _ in 0..20_000 {
        let (page, line, write) = (PAGE + below(3), below(24), below(3) != 0);
        let address = 4096 * (page - PAGE) + 16 * line;
        let call = match below(16) {
            0 | 1 => Call::Map { page, frame: below(5) as usize, write },
            2 if below(4) == 0 => Call::Unmap { page },
            3 => Call::Protect { page, write },
            4 if below(4) == 0 => Call::FlushAll,
            5 => Call::Tag { name: page * 256 + line },
            6 => Call::LoadAndMap { line: 256 * (page - PAGE + 1) as usize + line as usize },
            7 => Call::DropTag,
            8 => Call::Move { page, new_page: PAGE + below(3) },
            9 => Call::SupervisorStore { width: 1, address: (1 << 32) + 4096 * (1 + below(4)) + 16 * line, value: 7 },
            10 => Call::SupervisorStore { width: 1, address: 4096 * page + 16 * line, value: 8 },
            11 | 12 => Call::Load { process: 0, width: 4, address: address as u32 },
            _ => Call::Store { process: 0, width: 4, address: address as u32, value: below(99) as u32 },
        };
        done += usize::from(board.perform(&call).is_ok());
        assert_eq!(board.check(), Ok(()), "{call:?}");
    }
    assert!(done > 5_000, "{done} calls were done");
    assert_eq!(board.repair(), Ok(Repaired { before: None, dropped: vec![] }));
}

#[test]
fn wrong_lengths_and_numbers_are_rule_1() {
    let lengths = Err(broken(Rule::Lengths, 0));
    let changes: [fn(&mut Dump); 16] = [
        |dump| dump.slots.truncate(dump.slots.len() - 1),
        |dump| dump.slots.push(0),
        |dump| dump.words.truncate(dump.words.len() - 1),
        |dump| dump.words.push(0),
        |dump| dump.records.truncate(dump.records.len() - 1),
        |dump| dump.records.push(0),
        |dump| dump.cache.truncate(dump.cache.len() - 1),
        |dump| dump.cache.push(0),
        |dump| dump.memory.truncate(dump.memory.len() - 1),
        |dump| dump.memory.push(0),
        |dump| dump.shape.frames += 1,
        |dump| dump.shape.uncached = dump.shape.frames + 1,
        |dump| dump.shape.processes += 1,
        |dump| dump.shape.lines /= 2,
        |dump| {
            dump.shape = Shape { frames: usize::MAX, uncached: usize::MAX, processes: usize::MAX, lines: usize::MAX }
        },
        |dump| dump.shape.lines = 1 << 63,
    ];
    for change in changes {
        let mut dump = sound();
        dump.words[3] = dump.words[2]; // a later rule is broken too
        change(&mut dump);
        assert_eq!(asked_all(&dump), lengths, "{:?}", dump.shape);
    }
    for dump in [small(), empty(), large()] {
        assert_eq!(asked_all(&dump), lengths);
    }
    // Past the limits, where the lengths agree.
    for shape in [
        Shape { frames: 0, uncached: 0, processes: 1, lines: 1 },
        Shape { frames: 1, uncached: 0, processes: 0, lines: 1 },
        Shape { frames: 1, uncached: 0, processes: Shape::PROCESSES_MAX + 1, lines: 1 },
        Shape { frames: 1, uncached: 0, processes: 1, lines: 0 },
        Shape { frames: 1, uncached: 0, processes: 1, lines: 3 },
        Shape { frames: 1, uncached: 0, processes: 1, lines: 2 * Shape::LINES_MAX },
        Shape { frames: 1, uncached: 2, processes: 1, lines: 1 },
    ] {
        let dump = Dump {
            shape,
            pending: None,
            slots: vec![0; shape.slots()],
            words: vec![0; shape.words()],
            records: vec![0; shape.records()],
            cache: vec![0; shape.cache()],
            memory: vec![0; shape.memory()],
        };
        assert_eq!(asked_all(&dump), lengths, "{shape:?}");
    }
}

#[test]
fn a_page_with_two_frames_is_rule_2() {
    let twice = |words: [u64; 4]| {
        let mut dump = holding(&[(PREFIX_1 + 768, 256, false, false)]); // a later rule is broken too
        dump.words = words.to_vec();
        asked_all(&dump)
    };
    let (word, other) = (PAGE * 4 + 1, (PAGE + 1) * 4 + 3);
    for (words, frame) in [
        ([0, word, word, 0], 1),
        ([0, word, 0, word + 2], 1), // its write bit is no part of a page
        ([0, other, word, word], 2),
        ([0, word, word, word], 1),
        ([0, LAST * 4 + 1, LAST * 4 + 3, 0], 1),
        ([word, other, word, other], 1), // the first of these is uncached
    ] {
        assert_eq!(twice(words), Err(broken(Rule::PageTwice, frame)), "{words:x?}");
    }
    // No page is named: by 0, by other low bits, by pages that may not be mapped, or by the bits above them.
    for word in
        [0, PAGE * 4, PAGE * 4 + 2, (PAGE - 1) * 4 + 1, (LAST + 1) * 4 + 3, 1 << 34 | word, 1 << 63 | word, u64::MAX]
    {
        let given = twice([0, word, word, word]);
        assert_eq!(given, found(Rule::Astray, 0, &[0]), "{word:#x}");
    }
    // A page once from U up, and once below.
    assert_eq!(twice([word, word, 0, 0]), found(Rule::Astray, 0, &[0]));
}

#[test]
fn a_line_held_twice_is_rule_3() {
    let first = (PAGE * 256, 256, false, true);
    // One of the two is never at home: it is dropped, be it the lower or the higher one.
    let higher = (PAGE * 256 + 1, 256, false, true);
    assert_eq!(asked_all(&holding(&[first, higher])), found(Rule::LineTwice, 0, &[1]));
    let lower = (PAGE * 256 + 1, 256 + 3, false, true);
    let third = (PAGE * 256 + 3, 256 + 3, true, true);
    assert_eq!(asked_all(&holding(&[first, lower, third])), found(Rule::LineTwice, 1, &[1]));
    // Three of one line, two of another; none at home.
    let all = [
        (PAGE * 256 + 2, 700, false, true),
        (PAGE * 256 + 1, 800, false, true),
        (PAGE * 256 + 4, 700, true, false),
        (PAGE * 256 + 7, 700, false, true),
        (PAGE * 256 + 6, 800, false, true),
    ];
    assert_eq!(asked_all(&holding(&all)), found(Rule::LineTwice, 1, &[1, 2, 4, 6, 7]));
    // The lower is stale too, so it goes, and the higher is astray.
    let mut dump = holding(&[first, higher]);
    dump.memory[4096] ^= 1;
    assert_eq!(asked_all(&dump), found(Rule::LineTwice, 0, &[0, 1]));
    // A record that holds nothing holds no line twice.
    let mut dump = holding(&[first, higher]);
    dump.records[3] -= 1;
    assert_eq!(asked_all(&dump), SOUND);
}

#[test]
fn a_line_elsewhere_than_its_name_maps_to_is_rule_4() {
    let home = (PAGE * 256 + 1, 256 + 1, false, true);
    for (name, physical, changed, write) in [
        (PAGE * 256 + 3, 512 + 3, false, true),             // another frame
        (PAGE * 256 + 3, 512 + 3, false, false),            // with that frame's permission
        (PAGE * 256 + 3, 256 + 4, true, true),              // another line of its frame
        (PAGE * 256 + 3, 256 + 3, false, false),            // another permission
        ((PAGE + 1) * 256 + 3, 512 + 3, true, true),        // so of a read-only page
        ((PAGE + 2) * 256 + 3, 768 + 3, false, true),       // a page that is not mapped
        (PAGE * 256 + 3, 3, false, true),                   // below U
        (PREFIX_1 + 768 + 3, 768 + 3, false, false),        // prefix 1, read-only
        (PREFIX_1 + 768 + 3, 768 + 4, false, true),         // prefix 1, another line
        (PREFIX_1 + 256 + 3, 256 + 3, false, true),         // prefix 1, of a frame with a page
        (PREFIX_1 + 3, 3, false, true),                     // prefix 1, below U
        (PREFIX_1 + 1024 + 3, 3, false, true),              // prefix 1, beyond memory
        (3, 3, false, true),                                // prefix 0
        (256 * 3 + 3, 768 + 3, false, true),                // prefix 0
        (0xFFC0000003, 768 + 3, false, true),               // page table region
        ((1 << 40) + PAGE * 256 + 3, 256 + 3, false, true), // no name
        ((1 << 40) + PREFIX_1 + 768 + 3, 768 + 3, true, true),
        (u64::MAX - 4, 256 + 3, false, true),
    ] {
        let record = (name, physical, changed, write);
        assert_eq!(asked_all(&holding(&[home, record])), found(Rule::Astray, 3, &[3]), "{record:x?}");
    }
    // A page in a frame below U is mapped to nothing; nor is one by a word of another form.
    let line = (PAGE * 256 + 3, 256 + 3, false, true);
    for word in [0, PAGE * 4 + 2, PAGE * 4 + 1, 1 << 34 | (PAGE * 4 + 3)] {
        let mut dump = holding(&[line]);
        dump.words[1] = word;
        assert_eq!(asked_all(&dump), found(Rule::Astray, 3, &[3]), "{word:#x}");
    }
    let mut dump = holding(&[line]);
    dump.shape.uncached = 2;
    assert_eq!(asked_all(&dump), found(Rule::Astray, 3, &[3]));
    // Several: the lowest is named, and all are dropped.
    let lines = [home, (PAGE * 256 + 6, 768, true, true), (PAGE * 256 + 2, 769, false, true)];
    assert_eq!(asked_all(&holding(&lines)), found(Rule::Astray, 2, &[2, 6]));
}

#[test]
fn an_unchanged_line_that_differs_from_memory_is_rule_5() {
    let lines = [
        (PAGE * 256, 256, true, true),
        (PAGE * 256 + 1, 256 + 1, false, true),
        ((PAGE + 1) * 256 + 2, 512 + 2, false, false),
        (PREFIX_1 + 768 + 4, 768 + 4, false, true),
    ];
    for byte in 0..16 {
        let mut dump = holding(&lines);
        dump.cache[16 + byte] ^= 0x80;
        assert_eq!(asked_all(&dump), found(Rule::Stale, 1, &[1]), "byte {byte}");
        dump.memory[16 * (768 + 4) + byte] ^= 1;
        assert_eq!(asked_all(&dump), found(Rule::Stale, 1, &[1, 4]));
        dump.memory[16 * 256 + byte] ^= 1; // a changed one may
        assert_eq!(asked_all(&dump), found(Rule::Stale, 1, &[1, 4]));
        put(&mut dump, (PAGE * 256 + 7, 3, true, true)); // rule 4 comes before
        assert_eq!(asked_all(&dump), found(Rule::Astray, 7, &[1, 4, 7]));
    }
}

#[test]
fn rules_have_numbers_and_words() {
    for (number, rule) in (1..).zip(Rule::ALL) {
        assert_eq!((rule.number(), Rule::of(number)), (number, Some(rule)));
        assert_eq!(rule.to_string(), format!("{} (rule {number})", rule.words()));
        assert_eq!(rule.is_mended(), number > 2);
    }
    assert_eq!(Rule::of(0), None);
    assert!(catch_unwind(|| Rule::of(6)).is_err());
    for (rule, words) in [
        (Rule::Lengths, "the buffers' lengths or the board's four numbers disagree or are out of limits (rule 1)"),
        (Rule::PageTwice, "a page has two frames from U up (rule 2), at frame 7"),
        (Rule::LineTwice, "a physical line is held twice (rule 3), at place 7"),
        (
            Rule::Astray,
            "a held line's physical line or permission is not the one that its name maps to (rule 4), at place 7",
        ),
        (Rule::Stale, "a held line is not marked as changed, and differs from memory (rule 5), at place 7"),
    ] {
        assert_eq!(broken(rule, 7).to_string(), words);
        assert_eq!(CheckError::from(broken(rule, 7)).to_string(), words);
    }
}

/// The call's own number 1 is not the board's rule 1: a scratch that is too short, and a board whose lengths are wrong.
#[test]
fn scratch_that_does_not_fit_is_told_apart() {
    let dumps = [sound(), holding(&[(PAGE * 256, 700, false, true)]), {
        let mut dump = sound();
        dump.words[3] = dump.words[2];
        dump
    }];
    // More frames than lines, and more lines than frames.
    for mut dump in dumps.into_iter().chain([Dump::of(&board(None)).unwrap()]) {
        let needed @ Scratch { keys, links, dropped } = Scratch::of(&dump.shape);
        assert_eq!((keys, links), (dump.shape.frames.max(dump.shape.lines), 2 * keys));
        assert_eq!(dropped, dump.shape.lines);
        let short = CheckError::Scratch(needed);
        assert_eq!(
            short.to_string(),
            format!(
                "the scratch does not fit the board, which was not checked: at least {keys} keys and {links} links, and to \
                 repair exactly {dropped} bytes for what is dropped"
            )
        );
        let before = dump.clone();
        let lengths = [(keys - 1, links, dropped), (keys, links - 1, dropped), (0, links, dropped), (keys, 0, dropped)];
        let repairs = [(keys, links, dropped - 1), (keys, links, dropped + 1), (keys, links, 0)];
        for (index, (keys, links, dropped)) in lengths.into_iter().chain(repairs).enumerate() {
            let (mut k, mut l, mut d) = (vec![7; keys], vec![8; links], vec![9; dropped]);
            if index < lengths.len() {
                assert_eq!(dump.lent().check_with(&mut k, &mut l), Err(short));
            }
            assert_eq!(dump.lent().repair_with(&mut k, &mut l, &mut d), Err(short));
            assert!(dump == before && k == vec![7; keys] && l == vec![8; links] && d == vec![9; dropped]);
            // The board's own lengths come first.
            let mut wrong = Dump { slots: vec![], ..before.clone() };
            let lengths = CheckError::Broken(broken(Rule::Lengths, 0));
            assert_eq!(wrong.lent().check_with(&mut k, &mut l), Err(lengths));
            assert_eq!(wrong.lent().repair_with(&mut k, &mut l, &mut d), Err(lengths));
            assert!(k == vec![7; keys] && l == vec![8; links] && d == vec![9; dropped]);
        }
    }
}

/// As the library itself has it: number, rule, place and how many were dropped.
#[test]
fn reports_are_read_by_their_numbers() {
    let raw = |dump: &mut Dump, keys: usize, dropped: Option<usize>| -> [usize; 4] {
        let (mut k, mut l, mut d) = (vec![7_u64; keys], vec![7_u64; 2 * keys], vec![7_u8; dropped.unwrap_or(0)]);
        let Shape { frames, uncached, processes, lines } = dump.shape;
        let Dump { slots, words, records, cache, memory, .. } = dump;
        // Safety: each buffer is a vector with its own length, and those that may be written are apart from all else.
        let report = unsafe {
            match dropped {
                None => ffi::oaledva_check(
                    frames,
                    uncached,
                    processes,
                    lines,
                    slots.as_ptr(),
                    slots.len(),
                    words.as_ptr(),
                    words.len(),
                    records.as_ptr(),
                    records.len(),
                    cache.as_ptr(),
                    cache.len(),
                    memory.as_ptr(),
                    memory.len(),
                    k.as_mut_ptr(),
                    k.len(),
                    l.as_mut_ptr(),
                    l.len(),
                ),
                Some(_) => ffi::oaledva_repair(
                    frames,
                    uncached,
                    processes,
                    lines,
                    slots.as_ptr(),
                    slots.len(),
                    words.as_ptr(),
                    words.len(),
                    records.as_mut_ptr(),
                    records.len(),
                    cache.as_ptr(),
                    cache.len(),
                    memory.as_ptr(),
                    memory.len(),
                    k.as_mut_ptr(),
                    k.len(),
                    l.as_mut_ptr(),
                    l.len(),
                    d.as_mut_ptr(),
                    d.len(),
                ),
            }
        };
        [report.number() as usize, report.rule() as usize, report.place(), report.dropped()]
    };
    let mut dump = holding(&[(PAGE * 256 + 6, 768, true, true), (PAGE * 256 + 2, 769, false, true)]);
    assert_eq!(raw(&mut sound(), 8, None), [0, 0, 0, 0]);
    assert_eq!(raw(&mut sound(), 8, Some(8)), [0, 0, 0, 0]);
    assert_eq!(raw(&mut dump, 7, None), [1, 0, 0, 0]);
    assert_eq!(raw(&mut dump, 8, None), [0, 4, 2, 0]);
    for dropped in [0, 7, 9] {
        assert_eq!(raw(&mut dump, 8, Some(dropped)), [1, 0, 0, 0]);
    }
    assert_eq!(raw(&mut dump, 8, Some(8)), [0, 4, 2, 2]);
    assert_eq!(raw(&mut dump, 8, None), [0, 0, 0, 0]);
    dump.words[2] = dump.words[1];
    assert_eq!(raw(&mut dump, 8, Some(8)), [0, 2, 1, 0]);
    dump.slots.clear();
    assert_eq!(raw(&mut dump, 0, None), [0, 1, 0, 0]);
    assert_eq!(raw(&mut dump, 0, Some(0)), [0, 1, 0, 0]);
}

/// They are another edition: no dump, no check and no repair; nothing is touched.
#[test]
fn sets_of_four_are_refused() {
    let shape = Shape { frames: 4, uncached: 1, processes: 1, lines: 8 };
    let mut board = Board::sets_of_four(shape).unwrap();
    board.map(PAGE, 1, true).unwrap();
    board.supervisor_store(4, PAGE * 4096, 50).unwrap();
    let before = board.clone();
    let lengths = broken(Rule::Lengths, 0);
    let (mut keys, mut links, mut dropped) = ([7; 8], [8; 16], [9; 8]);
    assert_eq!((board.check(), board.repair()), (Err(lengths), Err(lengths)));
    assert_eq!(board.check_with(&mut keys, &mut links), Err(CheckError::Broken(lengths)));
    assert_eq!(board.repair_with(&mut keys, &mut links, &mut dropped), Err(CheckError::Broken(lengths)));
    assert_eq!((keys, links, dropped), ([7; 8], [8; 16], [9; 8]));
    assert_eq!(board, before);

    assert_eq!(Dump::of(&board), Err(SetsOfFour));
    let mut file = Vec::new();
    let error = dump::write(&board, &mut file).unwrap_err();
    assert!(matches!(error, WriteError::SetsOfFour(SetsOfFour)) && file.is_empty());
    assert_eq!(error.to_string(), "a dump holds a board in which a line has one place, and this one has sets of four");
}

#[test]
fn a_repair_is_no_access_and_a_check_leaves_the_mark() {
    let mut board = board(None);
    board.load(0, 1, 3).unwrap();
    assert_eq!((board.check(), board.mark()), (Ok(()), Mark::Hit));
    assert!(board.repair().is_ok());
    assert_eq!(board.mark(), Mark::NoAccess);
}

/// In memory that is asked for and hardly touched.
#[test]
fn the_largest_board_is_checked() {
    let shape =
        Shape { frames: Shape::FRAMES_MAX, uncached: 0, processes: Shape::PROCESSES_MAX, lines: Shape::LINES_MAX };
    let mut board = match Board::for_replay(shape) {
        Ok(board) => board,
        Err(none) => return eprintln!("not tried, for want of memory: {none}"),
    };
    let last = Shape::FRAMES_MAX - 1;
    board.map(LAST, last, true).unwrap();
    board.supervisor_store(4, LAST * 4096 + 4092, 50).unwrap();
    assert_eq!(board.check(), Ok(()));
    assert_eq!(board.repair(), Ok(Repaired { before: None, dropped: vec![] }));
    assert_eq!(board.supervisor_load(4, LAST * 4096 + 4092), Ok(50));

    // The same buffers, the last line of which is not the page's.
    let mut records = board.records().to_vec();
    let place = Shape::LINES_MAX - 1;
    records[2 * place] -= 1 << 20;
    let (mut slots, mut words, mut cache) = (board.slots().to_vec(), board.words().to_vec(), board.cache().to_vec());
    drop(board);
    let mut memory = vec![0; shape.memory()];
    let mut lent = Lent::over(shape, &mut slots, &mut words, &mut records, &mut cache, &mut memory, None);
    assert_eq!(lent.repair(), found(Rule::Astray, place, &[place]));
    assert_eq!(lent.check(), Ok(()));
    words[0] = LAST * 4 + 1;
    let lent = Lent::over(shape, &mut slots, &mut words, &mut records, &mut cache, &mut memory, None);
    assert_eq!(lent.check(), Err(broken(Rule::PageTwice, 0)));
}
