//! CR 13: the checker's rules, each alone and in their order; the repair; and both against a checker that compares pairs, on random
//! boards.
mod common;
use common::*;
use model::dump::*;
use model::*;

const PAGE: u64 = 0x20_0000;
/// Names of prefix 1 begin here, and those of the page table region there.
const PREFIX_1: u64 = 1 << 28;
const PAGE_TABLE: u64 = 1023 << 30;

/// F 6, U 2, P 1, L 8. Frames 2 and 3 have pages, the second of them read-only; 4 and 5 are free. Memory is not all alike. Held are,
/// at places 0 to 3: a line of each page and two of prefix 1, the second and the fourth of them changed, with other bytes.
fn sound() -> Board {
    let mut b = Board::fresh(shape(6, 2, 1, 8));
    for (i, byte) in b.memory.iter_mut().enumerate() {
        *byte = (i / 16 % 251) as u8;
    }
    b.words[2] = frame_word(PAGE, true);
    b.words[3] = frame_word(PAGE + 1, false);
    hold(&mut b, PAGE * 256, 2 * 256, true);
    hold(&mut b, (PAGE + 1) * 256 + 9, 3 * 256 + 9, false);
    hold(&mut b, PREFIX_1 + 4 * 256 + 2, 4 * 256 + 2, true);
    hold(&mut b, PREFIX_1 + 5 * 256 + 3, 5 * 256 + 3, true);
    for place in [1, 3] {
        change(&mut b, place);
    }
    assert_eq!(check(&b), Ok(()));
    b
}

/// Puts an unchanged line at the place of its name, its bytes as in memory. Gives the place.
fn hold(b: &mut Board, name: u64, line: u64, write: bool) -> u64 {
    let place = place_of(name, b.shape.lines);
    put(b, place, rec(name, line, false, write));
    let (to, from) = (16 * place as usize, 16 * line as usize);
    b.cache[to..to + 16].copy_from_slice(&b.memory[from..from + 16]);
    place
}

/// A line gets other bytes and the mark that it is changed.
fn change(b: &mut Board, place: u64) {
    let record = b.record(place);
    put(b, place, Record { changed: true, ..record });
    paint(b, place, 0xEE);
}

fn edit(b: &mut Board, place: u64, edit: impl FnOnce(&mut Record)) {
    let mut record = b.record(place);
    edit(&mut record);
    put(b, place, record);
}

fn no(rule: Rule, place: u64) -> Result<(), Broken> {
    Err(Broken { rule, place })
}

/// Repairs a copy of the board: these lines are dropped, and nothing else changes.
fn drops(b: &Board, dropped: &[u64]) {
    let mut after = b.clone();
    let mut expected = b.clone();
    for &place in dropped {
        expected.records[2 * place as usize..][..2].fill(0);
    }
    assert_eq!(repair(&mut after), Repaired { before: check(b), dropped: dropped.to_vec() });
    assert_eq!(after, expected);
    assert_eq!(check(&after), Ok(()));
    let once = after.clone();
    assert_eq!(repair(&mut after), Repaired { before: Ok(()), dropped: vec![] });
    assert_eq!(after, once);
}

/// Nothing at all changes.
fn stays(b: &Board) {
    let mut after = b.clone();
    assert_eq!(repair(&mut after), Repaired { before: check(b), dropped: vec![] });
    assert_eq!(&after, b);
}

#[test]
fn sound_boards() {
    stays(&sound());
    stays(&Board::fresh(shape(1, 0, 1, 1)));
    stays(&Board::fresh(shape(3, 3, 64, 65_536)));
    stays(&ready());
    // The tag is no matter, nor are the slots.
    let mut b = sound();
    b.tag = (true, u64::MAX);
    b.slots.fill(u32::MAX);
    stays(&b);
}

#[test]
fn rules_by_number() {
    assert_eq!(RULES.map(Rule::number), [1, 2, 3, 4, 5]);
}

#[test]
fn lengths() {
    let edits: [fn(&mut Board); 14] = [
        |b| b.slots.truncate(b.slots.len() - 1),
        |b| b.words.truncate(b.words.len() - 1),
        |b| b.records.truncate(b.records.len() - 1),
        |b| b.cache.truncate(b.cache.len() - 1),
        |b| b.memory.truncate(b.memory.len() - 1),
        |b| b.slots.push(0),
        |b| b.words.push(0),
        |b| b.records.push(0),
        |b| b.cache.push(0),
        |b| b.memory.push(0),
        |b| b.shape.uncached = 7,
        |b| b.shape.frames = 0,
        |b| b.shape.lines = 6,
        |b| b.shape.processes = 65,
    ];
    for edit in edits {
        // A doubled page, a doubled line and stale ones beside it.
        let mut b = sound();
        b.words[5] = b.words[2];
        b.memory.fill(1);
        edit(&mut b);
        assert_eq!(check(&b), no(Rule::Lengths, 0));
        stays(&b);
    }
    // The present limits.
    assert_eq!(check(&Board::fresh(shape(1, 1, 64, 65_536))), Ok(()));
    for past in [shape(1, 1, 65, 1), shape(1, 1, 1, 131_072), shape(1, 1, 1, 0), shape(0, 0, 1, 1)] {
        assert_eq!(check(&Board::fresh(past)), no(Rule::Lengths, 0));
    }
}

#[test]
fn pages_twice() {
    for (frame, word, given) in [(4, 2, 2), (5, 2, 2), (5, 3, 3)] {
        for other_bit in [0, 2] {
            let mut b = sound();
            b.words[frame] = b.words[word] ^ other_bit;
            // Nothing is dropped, though lines are held that break other rules.
            b.memory.fill(1);
            assert_eq!(check(&b), no(Rule::PageTwice, given));
            stays(&b);
        }
    }
    // Two pairs, and three frames: the lowest.
    let mut b = sound();
    (b.words[4], b.words[5]) = (b.words[3], b.words[2]);
    assert_eq!(check(&b), no(Rule::PageTwice, 2));
    assert_eq!(breaking(&b, Rule::PageTwice), [2, 3]);
    (b.words[3], b.words[4]) = (b.words[2], b.words[2]);
    assert_eq!(check(&b), no(Rule::PageTwice, 2));
    assert_eq!(breaking(&b, Rule::PageTwice), [2, 3, 4]);
}

#[test]
fn words_that_do_not_double() {
    // Below U, at all; or with one from U up.
    for (first, second) in [(0, 1), (0, 2), (1, 3)] {
        let mut b = sound();
        b.words[first] = frame_word(PAGE, true);
        if second < 2 {
            b.words[second] = b.words[first];
        }
        stays(&b);
    }
    // Equal words that name no ordinary page.
    let words = [2, 3, 4, PAGE * 4, PAGE * 4 + 2, PAGE * 4 - 1, PAGE * 4 - 3, (PAGE_LAST + 1) * 4 + 1, u64::MAX];
    for word in words {
        let mut b = sound();
        drops_prefix_1(&mut b);
        (b.words[4], b.words[5]) = (word, word);
        stays(&b);
    }
    // The first page and the last do double.
    for page in [PAGE_FIRST, PAGE_LAST] {
        let mut b = Board::fresh(shape(2, 0, 1, 1));
        b.words.fill(frame_word(page, false));
        assert_eq!(check(&b), no(Rule::PageTwice, 0));
    }
}

/// Takes the prefix 1 lines away, whose frames then may have words.
fn drops_prefix_1(b: &mut Board) {
    b.records[4..8].fill(0);
    assert_eq!(check(b), Ok(()));
}

#[test]
fn lines_twice() {
    // Another name at another place, for the same line: the lower place is given, and the one whose name is right is kept.
    for (place, of, dropped) in [(4, 0, 4), (7, 3, 7)] {
        let mut b = sound();
        let line = b.record(of).line;
        hold(&mut b, PAGE * 256 + 16 + place, line, true);
        edit(&mut b, place, |record| record.changed = true);
        assert_eq!(check(&b), no(Rule::LineTwice, of));
        drops(&b, &[dropped]);
    }
    // The lower one breaks a rule alone, so it pushes nothing out.
    let mut b = sound();
    edit(&mut b, 0, |record| record.line = 4 * 256 + 2);
    assert_eq!(check(&b), no(Rule::LineTwice, 0));
    drops(&b, &[0]);
    // Three copies; the middle one is right.
    let mut b = sound();
    edit(&mut b, 0, |record| record.line = 3 * 256 + 9);
    edit(&mut b, 2, |record| record.line = 3 * 256 + 9);
    assert_eq!(check(&b), no(Rule::LineTwice, 0));
    assert_eq!(breaking(&b, Rule::LineTwice), [0, 1]);
    drops(&b, &[0, 2]);
    // Three copies, and none is right.
    edit(&mut b, 1, |record| record.name += 8);
    drops(&b, &[0, 1, 2]);
    // Two pairs, one inside the other: the lowest place, though the inner pair ends first.
    let mut b = sound();
    let lines = [0, 1].map(|place| b.record(place).line);
    edit(&mut b, 2, |record| record.line = lines[1]);
    edit(&mut b, 3, |record| record.line = lines[0]);
    assert_eq!(check(&b), no(Rule::LineTwice, 0));
    drops(&b, &[2, 3]);
}

/// A valid record that holds nothing breaks nothing and stays.
#[test]
fn records_that_hold_nothing() {
    let held = sound().record(0);
    let nothing = [
        Record { valid: false, ..held },
        // At place 4 it is not at its place.
        held,
        Record { name: held.name + 4, line: 6 * 256, ..held },
        Record { name: held.name + 4, line: (1 << 61) - 1, ..held },
        Record { name: PAGE_TABLE + 5, ..held },
    ];
    for record in nothing {
        let mut b = sound();
        put(&mut b, 4, record);
        stays(&b);
        // Beside one that is dropped, too.
        edit(&mut b, 2, |record| record.write = false);
        assert_eq!(check(&b), no(Rule::Astray, 2));
        drops(&b, &[2]);
    }
}

#[test]
fn astray() {
    let edits: [fn(&mut Board, &mut Record); 8] = [
        // Its page has no frame; another page, another line of the page; another physical line; the other permission.
        |_, record| record.name += 16 * 256,
        |_, record| record.name += 256,
        |_, record| record.name += 8,
        |_, record| record.line += 8,
        |_, record| record.write = !record.write,
        // Neither ordinary nor prefix 1: prefix 0, the page table region, a name from 2^40 up.
        |_, record| record.name = record.line,
        |_, record| record.name = PAGE_TABLE + record.name % 8,
        |_, record| record.name += 1 << 40,
    ];
    for edit in edits {
        for place in [0, 1] {
            let mut b = sound();
            let mut record = b.record(place);
            edit(&mut b, &mut record);
            hold(&mut b, record.name, record.line, record.write);
            if place_of(record.name, 8) != place {
                put(&mut b, place, Record::decode(0, 0));
            }
            let place = place_of(record.name, 8);
            assert_eq!(check(&b), no(Rule::Astray, place), "{record:?}");
            drops(&b, &[place]);
        }
    }
    // The word: none, below U only, of no form, another page's, with the other bit.
    let words: [fn(&mut Board); 5] = [
        |b| b.words[2] = 0,
        |b| b.words.swap(1, 2),
        |b| b.words[2] -= 1,
        |b| b.words[2] += 4 * 16,
        |b| b.words[2] ^= 2,
    ];
    for edit in words {
        let mut b = sound();
        edit(&mut b);
        assert_eq!(check(&b), no(Rule::Astray, 0));
        drops(&b, &[0]);
    }
}

#[test]
fn astray_under_prefix_1() {
    let edits: [fn(&mut Board); 6] = [
        // Its frame has a word, of a page or of none; it may not be written; another line; another name; a frame below U.
        |b| b.words[4] = frame_word(PAGE + 2, true),
        |b| b.words[4] = 2,
        |b| edit(b, 2, |record| record.write = false),
        |b| edit(b, 2, |record| record.line = 8),
        |b| edit(b, 2, |record| record.name += 256),
        |b| {
            hold(b, PREFIX_1 + 256 + 2, 256 + 2, true);
        },
    ];
    for edit in edits {
        let mut b = sound();
        edit(&mut b);
        assert_eq!(check(&b), no(Rule::Astray, 2));
        drops(&b, &[2]);
    }
}

#[test]
fn stale() {
    for byte in [0, 15] {
        // A byte of the cache, or of memory.
        let mut b = sound();
        b.cache[byte] ^= 1;
        assert_eq!(check(&b), no(Rule::Stale, 0));
        drops(&b, &[0]);
        let mut b = sound();
        b.memory[16 * (4 * 256 + 2) + byte] ^= 0x80;
        assert_eq!(check(&b), no(Rule::Stale, 2));
        drops(&b, &[2]);
    }
    // A changed line is not compared; not changed, it is.
    let mut b = sound();
    b.memory[16 * (3 * 256 + 9)] ^= 1;
    stays(&b);
    edit(&mut b, 1, |record| record.changed = false);
    assert_eq!(check(&b), no(Rule::Stale, 1));
    drops(&b, &[1]);
}

/// Each rule before those after it, though the later ones are broken at lower places.
#[test]
fn order_of_the_rules() {
    let mut b = sound();
    b.cache[0] ^= 1;
    assert_eq!(check(&b), no(Rule::Stale, 0));
    edit(&mut b, 1, |record| record.write = true);
    assert_eq!(check(&b), no(Rule::Astray, 1));
    edit(&mut b, 3, |record| record.line = 4 * 256 + 2);
    assert_eq!(check(&b), no(Rule::LineTwice, 2));
    drops(&b, &[0, 1, 3]);
    (b.words[4], b.words[5]) = (b.words[3], b.words[3]);
    assert_eq!(check(&b), no(Rule::PageTwice, 3));
    stays(&b);
    b.memory.pop();
    assert_eq!(check(&b), no(Rule::Lengths, 0));
    stays(&b);
}

#[test]
fn repairs_drop_all_and_nothing() {
    let mut b = sound();
    b.words.fill(2);
    assert_eq!(check(&b), no(Rule::Astray, 0));
    drops(&b, &[0, 1, 2, 3]);
    let mut b = sound();
    b.memory.fill(0xAA);
    drops(&b, &[0, 2]);
}

// ---------------------------------------------------------------------------------------------
// Random boards
// ---------------------------------------------------------------------------------------------

/// The checker once more, by pairs and by the model's own map of pages.
fn by_pairs(b: &Board) -> Result<(), Broken> {
    if !b.fits() {
        return no(Rule::Lengths, 0);
    }
    let named = |frame: &u64| {
        (0..3).map(|page| PAGE + page).find(|&page| {
            let word = b.words[*frame as usize];
            word == frame_word(page, true) || word == frame_word(page, false)
        })
    };
    let frames = || b.shape.uncached..b.shape.frames;
    if let Some(place) =
        frames().find(|low| named(low).is_some() && frames().any(|high| high > *low && named(&high) == named(low)))
    {
        return no(Rule::PageTwice, place);
    }
    let line = |place: u64| b.held(place).map(|record| record.line);
    let places = || b.all_records();
    if let Some(place) =
        places().find(|&low| line(low).is_some() && places().any(|high| high > low && line(high) == line(low)))
    {
        return no(Rule::LineTwice, place);
    }
    if let Some(place) = places().find(|&place| b.held(place).is_some_and(|record| is_astray(b, &record))) {
        return no(Rule::Astray, place);
    }
    let is_stale = |place: u64, record: Record| {
        let (ours, theirs) = (16 * place as usize, 16 * record.line as usize);
        !record.changed && b.cache[ours..ours + 16] != b.memory[theirs..theirs + 16]
    };
    match places().find(|&place| b.held(place).is_some_and(|record| is_stale(place, record))) {
        Some(place) => no(Rule::Stale, place),
        None => Ok(()),
    }
}

fn is_astray(b: &Board, record: &Record) -> bool {
    let global = u128::from(record.name) * 16;
    let (line, write) = match u64::try_from(global).ok().filter(|&global| global < GLOBAL_END).map(kind_of) {
        Some(Kind::Ordinary) => match mapping(&b.shape, &b.words, page_of_name(record.name)) {
            Some((frame, write)) => (frame * 256 + record.name % 256, write),
            None => return true,
        },
        Some(Kind::Cached(physical)) => {
            let frame = frame_of(physical);
            if frame < b.shape.uncached || frame >= b.shape.frames || b.words[frame as usize] != 0 {
                return true;
            }
            (physical_line_of(physical), true)
        }
        _ => return true,
    };
    (record.line, record.write) != (line, write)
}

/// Boards of few pages and lines, most records right, some not.
fn random(rng: &mut Rng) -> Board {
    let frames = 1 + rng.below(5);
    let mut b = Board::fresh(shape(frames, rng.below(frames + 1).min(rng.below(3)), 1, 1 << rng.below(5)));
    b.memory.iter_mut().for_each(|byte| *byte = rng.next() as u8 % 2);
    for frame in 0..frames {
        b.words[frame as usize] = match rng.below(8) {
            0..=2 => 0,
            3 => rng.pick(&[2, PAGE * 4, PAGE * 4 - 1, (PAGE_LAST + 1) * 4 + 1]),
            _ => frame_word(PAGE + rng.below(3), rng.flip()),
        };
    }
    for place in 0..b.shape.lines {
        let frame = rng.below(frames);
        let index = rng.below(256) / b.shape.lines * b.shape.lines + place;
        let word = b.words[frame as usize];
        let (page, write) = if word == 0 { (prefix1_page(frame), true) } else { (word / 4, word / 2 % 2 == 1) };
        match rng.below(14) {
            0 => put(&mut b, place, Record::decode(rng.next(), rng.next())),
            1 => {
                let page = rng.pick(&[PAGE + 3, page ^ 1, frame, PAGE_TABLE / 256, prefix1_page(frame), 1 << 32]);
                hold(&mut b, page * 256 + index, frame * 256 + index, rng.flip());
            }
            2 | 4 => drop(hold(&mut b, page * 256 + index, rng.below(frames) * 256 + rng.below(2), write)),
            3 => {}
            _ => drop(hold(&mut b, page * 256 + index, frame * 256 + index, write)),
        }
        if rng.chance(4) {
            change(&mut b, place);
        }
        if rng.chance(16) {
            b.cache[16 * place as usize + rng.below(16) as usize] ^= 1;
        }
    }
    if rng.chance(32) {
        b.records.pop();
    }
    b
}

/// The checker and the one by pairs agree; a repair leaves what it should, by pairs; and from accepted and repaired boards look
/// shows the plain machine's memory.
#[test]
fn random_boards() {
    let mut rng = Rng(13);
    let mut met = [0; 6];
    for _ in 0..20_000 {
        let b = random(&mut rng);
        let given = check(&b);
        assert_eq!(given, by_pairs(&b));
        met[given.map_or_else(|broken| broken.rule.number(), |()| 0) as usize] += 1;
        let mut after = b.clone();
        let Repaired { before, dropped } = repair(&mut after);
        assert_eq!(before, given);
        if matches!(given, Err(Broken { rule: Rule::Lengths | Rule::PageTwice, .. })) {
            assert!(after == b && dropped.is_empty());
            continue;
        }
        assert_eq!(check(&after), Ok(()));
        // Whatever was dropped would break a rule, alone or with what is kept below it.
        for &place in &dropped {
            let mut with = after.clone();
            put(&mut with, place, b.record(place));
            assert!(by_pairs(&with).is_err());
        }
        let kept: Vec<u64> = b.all_records().filter(|place| !dropped.contains(place)).collect();
        assert!(kept.iter().all(|&place| after.record(place) == b.record(place)));
        assert_eq!(
            (&after.memory, &after.cache, &after.words, &after.slots),
            (&b.memory, &b.cache, &b.words, &b.slots)
        );
        let plain = plain_of(&after);
        for line in 0..256 * b.shape.frames {
            assert_eq!(plain.look(line), after.look(line));
        }
    }
    assert!(met.iter().all(|&count| count > 100), "{met:?}");
}

/// Look shows the lowest record's bytes, on any board; and the plain machine has slots, words and tag of the board.
#[test]
fn plain_machine_of_a_board() {
    let mut b = sound();
    edit(&mut b, 2, |record| record.line = 3 * 256 + 9);
    b.slots[0] = slot_word(2048, true);
    b.tag = (true, 5);
    let plain = plain_of(&b);
    assert_eq!((plain.look(3 * 256 + 9), b.look(3 * 256 + 9).1[0]), (b.look(3 * 256 + 9), 0xEE));
    assert_eq!((&plain.slots, &plain.words, plain.tag), (&b.slots, &b.words, b.tag));
}

/// Boards that calls reach are sound; from boards that were damaged and repaired, calls answer as the plain machine does.
#[test]
fn calls_from_accepted_boards() {
    let mut rng = Rng(7);
    for _ in 0..400 {
        let mut b = random(&mut rng);
        repair(&mut b);
        if check(&b).is_err() {
            continue;
        }
        b.slots[0] = slot_word(2048, true);
        let mut plain = plain_of(&b);
        for _ in 0..60 {
            let (page, line) = (PAGE + rng.below(4), rng.below(256 * b.shape.frames));
            let width = rng.pick(&[1, 2, 4]);
            let at = rng.pick(&[0, 16, 4080, 128]) + rng.below(16) / 4 * 4;
            let (store, value) = (rng.flip(), rng.value(width));
            let call = match rng.below(12) {
                0..=3 => {
                    let address = ((page - PAGE) * 4096 + at) as u32;
                    Call::UserAccess { process: 0, store, width, address, value }
                }
                4 => Call::SupervisorAccess { store, width, global: page * 4096 + at, value },
                5 => Call::SupervisorAccess { store, width, global: (1 << 32) + line / 256 * 4096 + at, value },
                6 => Call::Map { page, frame: line / 256, write: rng.flip() },
                7 => Call::Unmap { page },
                8 => Call::Protect { page, write: rng.flip() },
                9 => Call::Move { page, new_page: PAGE + rng.below(4) },
                10 => Call::Tag { name: page * 256 + at / 16 },
                _ => rng.pick(&[Call::LoadAndMap { line }, Call::DropTag, Call::FlushAll]),
            };
            let (answer, expected) = (b.make(call), plain.make(call));
            assert_eq!((answer.number, answer.value), (expected.number, expected.value), "{call:?}");
            assert_eq!(check(&b), Ok(()), "{call:?}");
        }
        assert!((0..256 * b.shape.frames).all(|line| b.look(line) == plain.look(line)));
    }
}
