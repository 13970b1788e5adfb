//! The board against the plain machine, from fresh boards, in both editions.
mod common;
use common::*;
use model::*;
use std::collections::BTreeMap;

const SEGMENTS: [u64; 4] = [2048, 2049, 2048 + 0x20_0000, 4_190_207];

fn page(r: &mut Rng) -> u64 {
    if r.chance(60) {
        return r.pick(&[0, 0x10_0001, 0x1F_FFFF, 0xFFC0_0000, u64::MAX]);
    }
    // Few pages, so that maps meet; the segments' low bits agree.
    r.pick(&SEGMENTS[..3]) * 1024 + u64::from(r.chance(3))
}

/// A page that is mapped now, more often than not.
fn likely_page(r: &mut Rng, b: &Board) -> u64 {
    let mapped: Vec<u64> = b.words.iter().filter(|&&w| w != 0).map(|w| w / 4).collect();
    if mapped.is_empty() || r.chance(6) {
        page(r)
    } else {
        r.pick(&mapped)
    }
}

/// A user address that is attached and mapped now, more often than not.
fn likely_address(r: &mut Rng, b: &Board, process: u64) -> u64 {
    let mut good = Vec::new();
    if process < b.shape.processes && !r.chance(6) {
        for slot in 0..3 {
            if let Some((segment, _)) = slot_read(b.slots[(process * 512 + slot) as usize]) {
                good.extend(
                    (0..2)
                        .filter(|n| mapping(&b.shape, &b.words, segment * 1024 + n).is_some())
                        .map(|n| (slot << 22) + n * 4096),
                );
            }
        }
    }
    if good.is_empty() {
        (r.below(3) << 22) + u64::from(r.chance(3)) * 4096
    } else {
        r.pick(&good)
    }
}

/// A free frame, more often than not.
fn likely_frame(r: &mut Rng, b: &Board) -> u64 {
    let free: Vec<u64> = (b.shape.uncached..b.shape.frames).filter(|&f| b.words[f as usize] == 0).collect();
    if free.is_empty() || r.chance(6) {
        r.below(b.shape.frames + 1)
    } else {
        r.pick(&free)
    }
}

/// Lines that collide in every small cache.
fn within(r: &mut Rng) -> u64 {
    r.pick(&[0, 1, 2, 4, 8, 8, 255]) * 16 + r.below(16)
}

fn access(r: &mut Rng, at: u64) -> (u32, u64) {
    let width = r.pick(&[1, 1, 2, 4]);
    match r.below(40) {
        0 => (r.pick(&[0, 3, 8, u32::MAX]), at),
        1 => (width, at),
        _ => (width, at / u64::from(width) * u64::from(width)),
    }
}

fn call(r: &mut Rng, b: &Board) -> Call {
    let store = r.flip();
    // A pending tag stops most accesses: settle it soon.
    if b.tag.0 && r.chance(2) {
        return if r.chance(5) {
            Call::DropTag
        } else {
            let right = mapping(&b.shape, &b.words, b.tag.1 / 256).map(|(f, _)| f * 256 + b.tag.1 % 256);
            Call::LoadAndMap { line: right.filter(|_| !r.chance(5)).unwrap_or(r.below(256 * b.shape.frames + 3)) }
        };
    }
    match r.below(104) {
        0..=44 => {
            let process = if r.chance(100) { r.next() } else { r.below(b.shape.processes) };
            let mut at = likely_address(r, b, process) + within(r);
            if r.chance(100) {
                at = r.next() % (1 << 32);
            }
            let (width, at) = access(r, at);
            Call::UserAccess { process, store, width, address: at as u32, value: r.value(width) }
        }
        45..=69 => {
            let base = match r.below(10) {
                0..=3 => likely_page(r, b) % (1 << 33) * 4096,
                4..=7 => 0x1_0000_0000 + likely_frame(r, b) * 4096,
                8 => r.below(b.shape.frames + 1) * 4096,
                _ => r.pick(&[0xFFC_0000_0000, 0xFFF_FFFF_F000, 1 << 44, 0xFFFF_FFFF_FFFF_F000]),
            };
            let at = base + within(r);
            let (width, at) = access(r, at);
            Call::SupervisorAccess { store, width, global: at, value: r.value(width) }
        }
        70..=75 => {
            let segment = if r.chance(20) { r.pick(&[0, 2047, 4_190_208, u64::MAX]) } else { r.pick(&SEGMENTS) };
            let slot = if r.chance(40) { 512 } else { r.below(3) };
            Call::Attach { process: r.below(b.shape.processes), slot, segment, write: !r.chance(4) }
        }
        76 => Call::Detach { process: r.below(b.shape.processes + 1), slot: r.below(3) },
        77..=85 => Call::Map { page: page(r), frame: likely_frame(r, b), write: !r.chance(4) },
        86..=89 => Call::Unmap { page: likely_page(r, b) },
        90..=92 => Call::Protect { page: likely_page(r, b), write: r.flip() },
        93 => Call::FlushAll,
        94..=97 => Call::Move { page: likely_page(r, b), new_page: page(r) },
        98..=102 => Call::Tag { name: (likely_page(r, b) % (1 << 33)) * 256 + within(r) / 16 },
        _ => {
            if r.flip() {
                Call::DropTag
            } else {
                Call::LoadAndMap { line: r.below(256 * b.shape.frames + 3) }
            }
        }
    }
}

#[test]
fn board_against_plain() {
    Edition::ALL.into_iter().for_each(against_plain);
}

fn against_plain(edition: Edition) {
    let mut r = Rng(0x0123_4567_89AB_CDEF);
    let mut numbers = [0u32; 14];
    let mut events: BTreeMap<String, u32> = BTreeMap::new();
    for round in 0..50 {
        let frames = 2 + r.below(4);
        let s = shape(frames, r.below(frames.min(3)), 1 + r.below(3), edition.lines_in_set() << (round % 5));
        let mut board = Board::fresh_of(edition, s);
        board.memory.iter_mut().for_each(|x| *x = r.next() as u8);
        // "records not valid": their other fields and the cache bytes may be anything.
        board.cache.iter_mut().for_each(|x| *x = r.next() as u8);
        if round % 2 == 1 {
            board.records.iter_mut().for_each(|x| *x = r.next() & !1);
        }
        let mut plain = Plain::of(&board);
        for i in 0..2_000 {
            let c = call(&mut r, &board);
            let (a, e) = board.step(&c);
            let p = plain.step(&c);
            assert_eq!((a.number, a.value), (p.number, p.value), "round {round} call {i} {c:?}");
            assert_eq!((&board.words, board.tag), (&plain.words, plain.tag), "{c:?}");
            numbers[a.number as usize] += 1;
            *events.entry(kind(&e)).or_default() += 1;
            if i % 50 == 49 {
                assert_eq!(board.slots, plain.slots);
                for line in 0..256 * frames {
                    assert_eq!(board.look(line), plain.look(line), "round {round} call {i} line {line}");
                }
                assert_eq!(board.look(256 * frames), plain.look(256 * frames));
            }
        }
        // After a flush, memory itself is the plain machine's.
        board.flush_all();
        assert_eq!(board.memory, plain.memory);
    }
    println!("numbers {numbers:?}\nevents {events:#?}");
    for (n, &count) in numbers.iter().enumerate() {
        assert!(n == 1 || count >= 20, "number {n} only {count} times: {numbers:?}");
    }
    for want in [
        "hit",
        "miss",
        "miss, write-back",
        "uncached",
        "inserted",
        "inserted, write-back",
        "found held",
        "map, page lines 0, prefix 1 lines 0",
        "map, page lines 0, prefix 1 lines some",
        "unmap, nothing held",
        "unmap, dropped only",
        "unmap, written back",
        "flush, nothing held",
        "flush, dropped only",
        "flush, written back",
        "protect, no line",
        "protect, lines",
        "move, nothing held",
        "move, dropped only",
        "move, written back",
        "done",
    ] {
        assert!(events.get(want).is_some_and(|&n| n >= 10), "{want}: {events:#?}");
    }
    // From a fresh board no line is held of a page that isn't mapped.
    assert!(!events.contains_key(LINES_OF_THE_NEW_PAGE), "{events:#?}");
}

const LINES_OF_THE_NEW_PAGE: &str = "move, lines of the new page";

fn kind(e: &Event) -> String {
    let some = |n: u64| if n == 0 { "0" } else { "some" };
    let swept = |what: &str, written: u64, dropped: u64| {
        let how = match (written, dropped) {
            (0, 0) => "nothing held",
            (0, _) => "dropped only",
            _ => "written back",
        };
        format!("{what}, {how}")
    };
    match *e {
        Event::Refused(n) => format!("refused {n:2}"),
        Event::Hit => "hit".into(),
        Event::Miss => "miss".into(),
        Event::MissWriteBack => "miss, write-back".into(),
        Event::Uncached => "uncached".into(),
        Event::Inserted { wrote_back: false } => "inserted".into(),
        Event::Inserted { wrote_back: true } => "inserted, write-back".into(),
        Event::FoundHeld => "found held".into(),
        Event::Mapped { by_page, by_prefix1 } => {
            format!("map, page lines {}, prefix 1 lines {}", some(by_page), some(by_prefix1))
        }
        Event::Unmapped { written, dropped } => swept("unmap", written, dropped),
        Event::Flushed { written, dropped } => swept("flush", written, dropped),
        Event::Protected { lines: 0 } => "protect, no line".into(),
        Event::Protected { .. } => "protect, lines".into(),
        Event::Moved { old_written, old_dropped, new_dropped: 0, .. } => swept("move", old_written, old_dropped),
        Event::Moved { .. } => LINES_OF_THE_NEW_PAGE.into(),
        Event::Done => "done".into(),
    }
}
