//! Random logs and what is wrong with them; pieces; readers' states; entries to be written.

use crate::guarded::STARTS;
use crate::limits::*;
use crate::log_sights::{number_end, worth};
use crate::logs::{Piece, Reading, Words, Writing};
use crate::rng::Rng;
use model::log;

// ---------------------------------------------------------------------------------------------
// Entries
// ---------------------------------------------------------------------------------------------

/// A number: small, at the end of a length or of a field, or any, of any length.
pub fn number(rng: &mut Rng) -> u64 {
    match rng.below(8) {
        0..=2 => rng.below(130),
        3 => (1 << (7 * (1 + rng.below(9)))) - rng.below(2),
        4 => rng.pick(&[0, 2, u64::from(u32::MAX), 1 << 32, (1 << 32) + 1, (1 << 63) - 1, 1 << 63, u64::MAX]),
        _ => rng.next() >> rng.below(64),
    }
}

/// What a field may be.
fn field(rng: &mut Rng, limit: Limit, load: bool) -> u64 {
    match end_of_field(limit, load) {
        None => number(rng),
        Some(end) if rng.percent(20) => end - 1,
        Some(end) => number(rng) % end,
    }
}

/// An entry of this kind that a log may hold.
pub fn entry_of(rng: &mut Rng, kind: u64) -> Words {
    let mut words = [0; ENTRY_WORDS];
    words[0] = kind;
    let mut load = false;
    for (word, (_, limit)) in words[1..].iter_mut().zip(fields_of(kind)) {
        *word = field(rng, *limit, load);
        load |= *limit == Limit::LoadOrStore && *word == 0;
    }
    words
}

/// Of a call.
pub fn entry(rng: &mut Rng) -> Words {
    let kind = 1 + rng.below(ENTRIES.len() as u64 - 1);
    entry_of(rng, kind)
}

/// The board's numbers: mostly small.
pub fn header(rng: &mut Rng) -> Words {
    if rng.percent(20) {
        return entry_of(rng, 0);
    }
    [0, 1 + rng.below(8), rng.below(3), 1 + rng.below(16), 1 << rng.below(7), 0]
}

// ---------------------------------------------------------------------------------------------
// Logs
// ---------------------------------------------------------------------------------------------

/// The numbers of a log, each as its bytes, and where each entry begins among them.
pub struct Draft {
    numbers: Vec<Vec<u8>>,
    starts: Vec<usize>,
}

impl Draft {
    pub fn of(entries: &[Words]) -> Draft {
        let mut draft = Draft { numbers: Vec::new(), starts: Vec::new() };
        for entry in entries {
            draft.starts.push(draft.numbers.len());
            let kind = (entry[0] != 0).then_some(entry[0]);
            let fields = &entry[1..=fields_of(entry[0]).len()];
            draft.numbers.extend(kind.iter().chain(fields).map(|&number| log::number(number)));
        }
        draft
    }

    pub fn bytes(&self) -> Vec<u8> {
        self.numbers.concat()
    }

    fn any(&mut self, rng: &mut Rng) -> &mut Vec<u8> {
        let index = rng.below(self.numbers.len() as u64) as usize;
        &mut self.numbers[index]
    }

    /// A group of 0 behind a number, or several: as many as it has room for, or more.
    fn pad(&mut self, rng: &mut Rng) {
        let number = self.any(rng);
        let more = rng.pick(&[1, 1, 1, 2, 3, NUMBER_BYTES.saturating_sub(number.len()), NUMBER_BYTES]).max(1);
        if let Some(last) = number.last_mut() {
            *last |= 0x80;
        }
        number.resize(number.len() + more - 1, 0x80);
        number.push(0);
    }

    /// Nine groups, then a tenth byte.
    fn lengthen(&mut self, rng: &mut Rng) {
        let number = self.any(rng);
        number.resize(NUMBER_BYTES, 0x80);
        number[..NUMBER_BYTES - 1].iter_mut().for_each(|group| *group |= 0x80 | rng.pick(&[0, 1, 0x7F]));
        number[NUMBER_BYTES - 1] = rng.pick(&[2, 2, 3, 0x7F, 0x80, 0x81, 0x82, 0xFF, 1, 0]);
    }

    /// A field at its limit, or above it.
    fn enlarge(&mut self, rng: &mut Rng) {
        let limited: Vec<(usize, Limit, bool)> = (1..self.starts.len())
            .flat_map(|index| {
                let start = self.starts[index];
                let kind = worth(&self.numbers[start]);
                let fields = fields_of(kind);
                let flag = fields.iter().position(|(_, limit)| *limit == Limit::LoadOrStore);
                let load = flag.is_some_and(|flag| self.numbers.get(start + 1 + flag).is_some_and(|flag| flag == &[0]));
                let at = move |(field, (_, limit)): (usize, &(&str, Limit))| (start + 1 + field, *limit, load);
                fields.iter().enumerate().map(at)
            })
            .filter(|(at, limit, _)| *limit != Limit::Any && *at < self.numbers.len())
            .collect();
        let Some((at, limit, load)) = rng.pick_any(&limited) else { return };
        let end = end_of_field(limit, load).expect("a field with a limit");
        let number = match rng.below(6) {
            0..=2 => end,
            3 => end - 1,
            4 => end + rng.below(200),
            _ => u64::MAX >> rng.below(30),
        };
        self.numbers[at] = log::number(number);
    }

    /// Another kind, mostly one that there is not.
    fn exchange(&mut self, rng: &mut Rng) {
        if self.starts.len() < 2 {
            return;
        }
        let index = 1 + rng.below(self.starts.len() as u64 - 1) as usize;
        let known = 1 + rng.below(ENTRIES.len() as u64 - 1);
        let kind = match rng.below(8) {
            0 | 1 => 0,
            2 | 3 => NO_KIND,
            4 => NO_KIND + 1 + rng.below(300),
            5 => known + (1 << rng.pick(&[8, 16, 32, 63])),
            6 => known,
            _ => number(rng),
        };
        self.numbers[self.starts[index]] = log::number(kind);
    }
}

/// A log, mostly with something wrong.
pub fn damaged(rng: &mut Rng) -> Vec<u8> {
    let calls = rng.pick(&[0, 1, 1, 2, 2, 3, 4, 6, 10, 25]);
    let entries: Vec<Words> = (0..=calls).map(|index| if index == 0 { header(rng) } else { entry(rng) }).collect();
    damage(rng, Draft::of(&entries))
}

fn damage(rng: &mut Rng, mut draft: Draft) -> Vec<u8> {
    let times = rng.pick(&[1, 1, 1, 1, 2]);
    let mut later = Vec::new();
    for _ in 0..times {
        match rng.below(20) {
            0 => {}
            1..=4 => draft.pad(rng),
            5..=7 => draft.lengthen(rng),
            8..=11 => draft.enlarge(rng),
            12..=14 => draft.exchange(rng),
            other => later.push(other),
        }
    }
    let mut bytes = draft.bytes();
    for how in later {
        let at = rng.below(bytes.len() as u64 + 1) as usize;
        match how {
            15 | 16 => bytes.truncate(at),
            17 | 18 => bytes.iter_mut().skip(at).take(1).for_each(|byte| *byte ^= 1 << rng.below(8)),
            _ => match rng.below(4) {
                0 => bytes.insert(at, rng.pick(&[0, 0, 1, 0x80, 0x81, 0xFF, MOVE as u8, NO_KIND as u8])),
                1 if at < bytes.len() => drop(bytes.remove(at)),
                2 => rng.fill(&mut bytes[at..]),
                _ => bytes.resize(at + rng.below(30) as usize, rng.pick(&[0, 8, 0x80, 0xFF])),
            },
        }
    }
    bytes
}

// ---------------------------------------------------------------------------------------------
// Pieces
// ---------------------------------------------------------------------------------------------

/// How a log is cut: as a whole, byte by byte, anyhow, a byte short of its numbers' ends, at their ends; with room for one entry, a
/// few or many.
pub fn pieces(rng: &mut Rng, log: &[u8]) -> Vec<Piece> {
    let length = log.len().max(1);
    let room = rng.pick(&[1, 1, 2, 3, 5, 12, 40]);
    match rng.below(10) {
        0 | 1 => vec![Piece::of(length, if rng.flip() { room } else { 60 })],
        2 => vec![Piece::of(1, room)],
        3 | 4 => (0..1 + rng.below(6)).map(|_| Piece::of(rng.below(13) as usize, room)).collect(),
        5 | 6 => ends(rng, log, 1).into_iter().map(|bytes| Piece::of(bytes, room.max(2))).collect(),
        7 => ends(rng, log, 0).into_iter().map(|bytes| Piece::of(bytes, room.max(2))).collect(),
        8 => {
            let first = rng.below(length as u64 + 1) as usize;
            vec![Piece::of(first, 60), Piece::of(length, 60)]
        }
        _ => {
            let bytes = 1 + rng.below(length as u64) as usize;
            vec![Piece::of(0, room), Piece::of(bytes, 0), Piece::of(bytes, room)]
        }
    }
}

/// The lengths of pieces that end at numbers' ends, or so many bytes before them; some ends are left out.
fn ends(rng: &mut Rng, log: &[u8], short: usize) -> Vec<usize> {
    let (mut lengths, mut place, mut from) = (Vec::new(), 0, 0);
    while place < log.len() {
        place = number_end(log, place);
        let end = place.saturating_sub(short);
        if end > from && rng.percent(60) {
            lengths.push(end - from);
            from = end;
        }
    }
    lengths.push((log.len() - from).max(1));
    lengths
}

fn offset(rng: &mut Rng) -> usize {
    rng.below(STARTS as u64) as usize
}

fn stain(rng: &mut Rng) -> u64 {
    if rng.percent(80) {
        rng.next()
    } else {
        rng.pick(&[0, u64::MAX])
    }
}

/// By a fresh reader.
pub fn reading(rng: &mut Rng, log: Vec<u8>) -> Reading {
    let pieces = pieces(rng, &log);
    let (stain, offsets) = (stain(rng), [offset(rng), offset(rng), offset(rng)]);
    Reading { stain, offsets, ..Reading::of(log, pieces) }
}

// ---------------------------------------------------------------------------------------------
// States
// ---------------------------------------------------------------------------------------------

/// A state that a reader takes, which mostly no log brings about.
pub fn state(rng: &mut Rng) -> [u64; STATE_WORDS] {
    let kind = rng.below(ENTRIES.len() as u64);
    let there = rng.below(fields_of(kind).len() as u64 + 1);
    let mut state = [0; STATE_WORDS];
    state[4..10].iter_mut().for_each(|word| *word = number(rng));
    if there > 0 {
        state[4] = kind;
        let flag = fields_of(kind).iter().position(|(_, limit)| *limit == Limit::LoadOrStore);
        if let Some(flag) = flag.filter(|_| rng.percent(70)) {
            state[5 + flag] = rng.below(3);
        }
    }
    let groups = if rng.flip() { 0 } else { rng.below(10) };
    let worth = if groups == 0 { 0 } else { rng.next() >> (64 - 7 * groups) };
    let taken = match rng.below(6) {
        0 => 0,
        1 => u64::MAX - rng.below(40),
        2 => u64::MAX - groups,
        _ => number(rng),
    };
    (state[0], state[1], state[2], state[3]) = (taken.max(groups), groups, worth, there);
    if rng.percent(10) {
        state[10] = rng.pick(&[reason::PADDED, reason::TENTH_BYTE, reason::UNKNOWN_KIND, reason::TOO_LARGE]);
    }
    state
}

/// Words that are no reader's state: one thing is wrong, now and then two.
pub fn no_state(rng: &mut Rng) -> Vec<u64> {
    let mut words = state(rng).to_vec();
    let times = if rng.percent(20) { 2 } else { 1 };
    for _ in 0..times {
        spoil(rng, &mut words);
    }
    words
}

fn spoil(rng: &mut Rng, words: &mut Vec<u64>) {
    if words.len() != STATE_WORDS {
        return;
    }
    match rng.below(12) {
        0 => words.truncate(rng.pick(&[0, 0, 1, 10, 10])),
        1 => words.push(number(rng)),
        2 => words.extend_from_within(..),
        3 => {
            let groups = rng.pick(&[10, 11, u64::MAX]);
            (words[0], words[1]) = (words[0].max(groups), groups);
        }
        4 => {
            let groups = 1 + rng.below(9);
            (words[0], words[1], words[2]) = (rng.pick(&[0, groups - 1]), groups, rng.below(128));
        }
        5..=6 => words[2] = rng.pick(&[1 << (7 * words[1].min(9)), 1 << (7 * words[1].min(9)), u64::MAX]),
        7..=9 => {
            words[4] = rng.below(ENTRIES.len() as u64 + 1);
            words[3] = match rng.below(8) {
                0 => u64::MAX,
                1 => 7,
                _ => fields_of(words[4]).len() as u64 + 1,
            };
        }
        _ => words[10] = rng.pick(&[1, 4, 7, 256 + 2, (1 << 32) + 6, 1 << 32, u64::MAX]),
    }
}

/// Bytes that go on from a state: the rest of a number and of its entry, and entries more; mostly well.
fn rest(rng: &mut Rng, words: &[u64]) -> Vec<u8> {
    let mut bytes = Vec::new();
    let [groups, there, kind] = [1, 3, 4].map(|at| words.get(at).copied().unwrap_or(0));
    let fields = if there > 0 { fields_of(kind) } else { &[] };
    let left = fields.get((there as usize).saturating_sub(1)..).unwrap_or(&[]);
    let load = rng.flip();
    let mut numbers: Vec<Vec<u8>> = left.iter().map(|(_, limit)| log::number(field(rng, *limit, load))).collect();
    if groups > 0 {
        // The number that is there goes on for some groups, or ends.
        let last = if groups == 9 { rng.pick(&[1, 1, 1, 2, 0]) } else { rng.pick(&[1, 1, 3, 0x7F, 0]) };
        let mut number = vec![0x80; rng.pick(&[0, 0, 1, 9 - groups.min(9) as usize])];
        number.push(last);
        numbers.splice(..numbers.len().min(1), [number]);
    }
    let entries: Vec<Words> = (0..rng.below(4)).map(|_| entry(rng)).collect();
    bytes.extend(numbers.concat());
    bytes.extend(Draft::of(&entries).bytes());
    if rng.percent(30) {
        let at = rng.below(bytes.len() as u64 + 1) as usize;
        let how = rng.below(3);
        match how {
            0 => bytes.truncate(at),
            1 => bytes.iter_mut().skip(at).take(1).for_each(|byte| *byte ^= 1 << rng.below(8)),
            _ => bytes.insert(at, rng.pick(&[0, 0x80, 0xFF])),
        }
    }
    bytes
}

/// From a wild state, or from what is none; now and then with words behind the room for entries.
pub fn wild_reading(rng: &mut Rng) -> Reading {
    let state = if rng.percent(65) { state(rng).to_vec() } else { no_state(rng) };
    let bytes = rest(rng, &state);
    let mut reading = reading(rng, bytes);
    reading.state = state;
    if rng.percent(15) {
        reading.pieces.iter_mut().for_each(|piece| piece.torn = 1 + rng.below(5) as usize);
    }
    reading
}

// ---------------------------------------------------------------------------------------------
// Writing
// ---------------------------------------------------------------------------------------------

/// An entry to be written, four in ten with something wrong.
pub fn writing(rng: &mut Rng) -> Writing {
    let mut entry = if rng.percent(15) { header(rng) } else { entry(rng) }.to_vec();
    let mut room = rng.pick(&[ENTRY_BYTES, ENTRY_BYTES, ENTRY_BYTES + 1, 100]);
    let fields = fields_of(entry[0]);
    if rng.percent(40) {
        for _ in 0..rng.pick(&[1, 1, 2]) {
            match rng.below(10) {
                0 | 1 => entry[0] = rng.pick(&[NO_KIND, NO_KIND, NO_KIND + 1, 256 + 6, (1 << 32) + 1, u64::MAX]),
                2..=5 => {
                    let index = rng.below(5) as usize;
                    let limit = fields.get(index).map_or(Limit::Any, |(_, limit)| *limit);
                    entry[1 + index] = match rng.below(3) {
                        0 => end_of_field(limit, false).unwrap_or(1),
                        1 => 1,
                        _ => number(rng),
                    };
                }
                6 if fields.len() < 5 => entry[1 + fields.len()] = 1 + rng.below(3),
                7 => room = rng.pick(&[0, 1, 40, ENTRY_BYTES - 1, ENTRY_BYTES - 1]),
                // A load with a value.
                8 => {
                    let value = 1 + (rng.below(1 << 32) >> rng.below(33));
                    entry = rng.pick(&[[1, 0, 0, 4, 0, value], [2, 0, 4, 0, value, 0]]).to_vec();
                }
                _ => {}
            }
        }
        match rng.below(20) {
            0 => entry.truncate(rng.pick(&[0, 1, 5])),
            1 => entry.push(rng.below(2)),
            2 => entry.extend_from_within(..),
            _ => {}
        }
    }
    Writing { entry, room, stain: stain(rng), offsets: [offset(rng), offset(rng)] }
}
