//! What stands in a dump, word by word, to explain what the library says of it: the verdict is the library's alone.
use super::words::{counted, grouped, permission, physical_line};
use oaledva::dump::Dump;
use oaledva::{Broken, Lent, Repaired, Rule, Shape, LINE_BYTES};
use std::collections::HashMap;

/// Lines of a page or of a frame.
pub const PAGE_LINES: u64 = 256;
/// Pages that may be mapped.
const ORDINARY: std::ops::RangeInclusive<u64> = 0x200000..=0xFFBFFFFF;
/// A name's bits below its prefix, and all of them.
const PREFIX_AT: u32 = 28;
const NAME_BITS: u32 = 40;

/// What the library says of a board, and what its repair makes of it.
#[derive(Debug)]
pub struct Verdict {
    pub broken: Option<Broken>,
    /// The places of the lines that the repair drops.
    pub dropped: Vec<usize>,
    /// The records after the repair; none where there is no repair.
    pub repaired: Option<Vec<u64>>,
}

impl Verdict {
    /// Of a copy of the records: the dump stays.
    pub fn of(dump: &mut Dump) -> Verdict {
        let mut records = dump.records.clone();
        let Dump { shape, pending, slots, words, cache, memory, .. } = dump;
        match Lent::over(*shape, slots, words, &mut records, cache, memory, *pending).repair() {
            Ok(Repaired { before, dropped }) => Verdict { broken: before, dropped, repaired: Some(records) },
            Err(broken) => Verdict { broken: Some(broken), dropped: Vec::new(), repaired: None },
        }
    }
}

/// A line that a record holds.
#[derive(Clone, Copy, Debug, PartialEq, Eq)]
pub struct Line {
    pub name: u64,
    pub physical: u64,
    pub changed: bool,
    pub write: bool,
}

impl Line {
    pub fn frame(&self) -> usize {
        (self.physical / PAGE_LINES) as usize
    }
}

/// What a frame's word says.
#[derive(Clone, Copy, Debug, PartialEq, Eq)]
pub enum Frame {
    Uncached,
    Free,
    Page {
        page: u64,
        write: bool,
    },
    /// It is not 0, and names no page.
    Nameless,
}

/// What a name maps to.
#[derive(Clone, Debug, PartialEq, Eq)]
pub enum Home {
    Line {
        physical: u64,
        write: bool,
    },
    /// Nothing, and why.
    Nowhere(String),
}

/// What is wrong with a dump's lengths and numbers, a line for each; nothing where they agree.
pub fn misfits(dump: &Dump) -> Vec<String> {
    let Shape { frames, uncached, processes, lines } = dump.shape;
    let limits = |number, most| (1..=most).contains(&number);
    let (f, p, l) = (
        limits(frames, Shape::FRAMES_MAX),
        limits(processes, Shape::PROCESSES_MAX),
        limits(lines, Shape::LINES_MAX) && lines.is_power_of_two(),
    );
    let mut wrong = Vec::new();
    let mut number = |name: &str, number, most, end: &str| {
        wrong.push(format!("{name} is {}, and may be 1 to {}{end}", grouped(number), grouped(most)));
    };
    if !f {
        number("F, the number of frames,", frames, Shape::FRAMES_MAX, "");
    }
    if !p {
        number("P, the number of processes,", processes, Shape::PROCESSES_MAX, "");
    }
    if !l {
        number("L, the number of lines,", lines, Shape::LINES_MAX, ", a power of two");
    }
    if uncached > frames {
        wrong.push(format!(
            "U, the number of uncached frames, is {}, and may be 0 to F, which is {}",
            grouped(uncached),
            grouped(frames)
        ));
    }
    // A length is asked where the number that it hangs on may be.
    let mut length = |name: &str, length: usize, asked: bool, expected: fn(&Shape) -> usize, of: String| {
        if asked && length != expected(&dump.shape) {
            let expected = expected(&dump.shape);
            wrong.push(format!("there are {} {name}; a board of {of} has {}", grouped(length), grouped(expected)));
        }
    };
    let [of_frames, of_lines] = [(frames, "frame"), (lines, "line")].map(|(number, thing)| counted(number, thing));
    length("slot words", dump.slots.len(), p, Shape::slots, counted(processes, "process"));
    length("frame words", dump.words.len(), f, Shape::words, of_frames.clone());
    length("record words", dump.records.len(), l, Shape::records, of_lines.clone());
    length("cache bytes", dump.cache.len(), l, Shape::cache, of_lines);
    length("bytes of memory", dump.memory.len(), f, Shape::memory, of_frames);
    wrong
}

/// A board whose lengths agree, looked through.
pub struct Facts<'a> {
    dump: &'a Dump,
    /// The frames from U up that have a page, lowest first.
    homes: HashMap<u64, Vec<usize>>,
    /// The line at each place.
    lines: Vec<Option<Line>>,
    /// The places that hold the same physical line, for each that is held twice or more; lowest first.
    twice: HashMap<u64, Vec<usize>>,
    /// Of each frame, how many lines are held, and how many of them are changed.
    held: HashMap<usize, (usize, usize)>,
    /// The same of the lines that break no rule.
    good: HashMap<usize, (usize, usize)>,
}

impl<'a> Facts<'a> {
    /// Nothing of a board whose lengths or numbers are wrong.
    pub fn of(dump: &'a Dump) -> Option<Facts<'a>> {
        if !misfits(dump).is_empty() {
            return None;
        }
        let mut facts = Facts {
            dump,
            homes: HashMap::new(),
            lines: (0..dump.shape.lines).map(|place| line_at(dump, place)).collect(),
            twice: HashMap::new(),
            held: HashMap::new(),
            good: HashMap::new(),
        };
        for frame in dump.shape.uncached..dump.shape.frames {
            if let Frame::Page { page, .. } = facts.frame(frame) {
                facts.homes.entry(page).or_default().push(frame);
            }
        }
        let held: Vec<(usize, Line)> =
            (0..).zip(&facts.lines).filter_map(|(place, line)| Some((place, (*line)?))).collect();
        for (place, line) in &held {
            facts.twice.entry(line.physical).or_default().push(*place);
        }
        facts.twice.retain(|_, places| places.len() > 1);
        let good = held.iter().filter(|(place, _)| facts.faults(*place, None).is_empty());
        facts.good = by_frame(good.map(|(_, line)| line));
        facts.held = by_frame(held.iter().map(|(_, line)| line));
        Some(facts)
    }

    pub fn shape(&self) -> Shape {
        self.dump.shape
    }

    pub fn frame(&self, frame: usize) -> Frame {
        let word = self.dump.words[frame];
        match word {
            _ if frame < self.dump.shape.uncached => Frame::Uncached,
            0 => Frame::Free,
            _ if word % 2 == 1 && ORDINARY.contains(&(word / 4)) => {
                Frame::Page { page: word / 4, write: word & 2 != 0 }
            }
            _ => Frame::Nameless,
        }
    }

    pub fn word(&self, frame: usize) -> u64 {
        self.dump.words[frame]
    }

    /// All frames of the page that this one has, if it has one.
    pub fn frames_of_page(&self, frame: usize) -> &[usize] {
        match self.frame(frame) {
            Frame::Page { page, .. } => self.homes.get(&page).map_or(&[], Vec::as_slice),
            _ => &[],
        }
    }

    /// The pages that have two frames or more, with them, by their lowest frame.
    pub fn doubled_pages(&self) -> Vec<(u64, &[usize])> {
        let doubled = self.homes.iter().filter(|(_, frames)| frames.len() > 1);
        let mut doubled: Vec<_> = doubled.map(|(&page, frames)| (page, &frames[..])).collect();
        doubled.sort_by_key(|(_, frames)| frames[0]);
        doubled
    }

    pub fn line(&self, place: usize) -> Option<Line> {
        self.lines.get(place).copied().flatten()
    }

    /// How many lines are held, and how many of them are changed.
    pub fn held(&self) -> (usize, usize) {
        let lines = self.lines.iter().flatten();
        (lines.clone().count(), lines.filter(|line| line.changed).count())
    }

    /// The same of a frame.
    pub fn held_of(&self, frame: usize) -> (usize, usize) {
        self.held.get(&frame).copied().unwrap_or_default()
    }

    /// The same of the lines that break no rule.
    pub fn good_of(&self, frame: usize) -> (usize, usize) {
        self.good.get(&frame).copied().unwrap_or_default()
    }

    /// How many records are not 0 and hold no line.
    pub fn idle_records(&self) -> usize {
        let records = self.dump.records.chunks(2);
        records.zip(&self.lines).filter(|(record, line)| line.is_none() && record.iter().any(|&word| word != 0)).count()
    }

    pub fn home(&self, name: u64) -> Home {
        let (page, Shape { frames, uncached, .. }) = (name / PAGE_LINES, self.dump.shape);
        if ORDINARY.contains(&page) {
            let Some(&frame) = self.homes.get(&page).and_then(|frames| frames.first()) else {
                return Home::Nowhere(format!("page {page:#x} is not mapped"));
            };
            let write = matches!(self.frame(frame), Frame::Page { write: true, .. });
            return Home::Line { physical: PAGE_LINES * frame as u64 + name % PAGE_LINES, write };
        }
        if name >> PREFIX_AT != 1 {
            return Home::Nowhere(format!("the name is {}", region(name)));
        }
        let physical = name % (1 << PREFIX_AT);
        let frame = physical / PAGE_LINES;
        match usize::try_from(frame).ok().filter(|&frame| frame < frames) {
            None => Home::Nowhere(format!("under prefix 1, of frame {frame}, which is beyond memory")),
            Some(frame) if frame < uncached => {
                Home::Nowhere(format!("under prefix 1, of frame {frame}, which is uncached"))
            }
            Some(frame) if self.word(frame) != 0 => {
                Home::Nowhere(format!("under prefix 1, of frame {frame}, whose word is not 0"))
            }
            Some(_) => Home::Line { physical, write: true },
        }
    }

    /// The line's physical line or permission is not the one that its name maps to: how, in a few words.
    pub fn astray(&self, line: &Line) -> Option<String> {
        match self.home(line.name) {
            Home::Nowhere(why) => Some(format!("its name maps to nothing: {why}")),
            Home::Line { physical, .. } if physical != line.physical => {
                Some(format!("its name maps to {}", physical_line(physical)))
            }
            Home::Line { write, .. } if write != line.write => {
                Some(format!("it {}, and what its name maps to {}", permission(line.write), permission(write)))
            }
            Home::Line { .. } => None,
        }
    }

    /// The line's bytes in the cache and in memory.
    pub fn bytes(&self, place: usize, line: &Line) -> (&'a [u8], &'a [u8]) {
        let part = |bytes: &'a [u8], line: usize| &bytes[LINE_BYTES * line..][..LINE_BYTES];
        (part(&self.dump.cache, place), part(&self.dump.memory, line.physical as usize))
    }

    pub fn stale(&self, place: usize, line: &Line) -> bool {
        let (cache, memory) = self.bytes(place, line);
        !line.changed && cache != memory
    }

    /// The other places that hold the same physical line.
    pub fn others(&self, place: usize) -> impl Iterator<Item = usize> + '_ {
        let line = self.line(place);
        let same = line.and_then(|line| self.twice.get(&line.physical)).map_or(&[][..], Vec::as_slice);
        same.iter().copied().filter(move |&other| other != place)
    }

    /// The rules on lines that the line of a place breaks, with how in a few words. Of those that hold the same physical line the
    /// lowest place is named; where it is known what is dropped, the lowest that is kept.
    pub fn faults(&self, place: usize, dropped: Option<&[usize]>) -> Vec<(Rule, String)> {
        let Some(line) = self.line(place) else { return Vec::new() };
        let mut faults = Vec::new();
        if let Some(how) = self.astray(&line) {
            faults.push((Rule::Astray, how));
        }
        if self.stale(place, &line) {
            faults.push((Rule::Stale, "it is not marked as changed, and differs from memory".into()));
        }
        let twin = match dropped {
            None => self.others(place).next().map(|other| format!("place {other} holds the same physical line")),
            Some(dropped) => {
                let kept = self.others(place).find(|other| *other < place && dropped.binary_search(other).is_err());
                kept.map(|other| format!("place {other} holds the same physical line and is kept"))
            }
        };
        if let Some(how) = twin {
            faults.push((Rule::LineTwice, how));
        }
        faults
    }
}

/// How many lines each frame has, and how many of them are changed.
fn by_frame<'a>(lines: impl Iterator<Item = &'a Line>) -> HashMap<usize, (usize, usize)> {
    let mut frames = HashMap::new();
    for line in lines {
        let (held, changed) = frames.entry(line.frame()).or_insert((0, 0));
        *held += 1;
        *changed += usize::from(line.changed);
    }
    frames
}

/// The line that a record holds: it is valid, stands at its place, and its physical line is inside memory.
fn line_at(dump: &Dump, place: usize) -> Option<Line> {
    let (name, info) = (dump.records[2 * place], dump.records[2 * place + 1]);
    let line = Line { name, physical: info / 8, changed: info & 4 != 0, write: info & 2 != 0 };
    let at_place = name % dump.shape.lines as u64 == place as u64;
    (info % 2 == 1 && at_place && line.physical < PAGE_LINES * dump.shape.frames as u64).then_some(line)
}

/// Where a name lies.
pub fn region(name: u64) -> String {
    let page = name / PAGE_LINES;
    match name >> PREFIX_AT {
        _ if ORDINARY.contains(&page) => format!("page {page:#x}, line {}", name % PAGE_LINES),
        0 => "under prefix 0, which is never cached".into(),
        1 => "under prefix 1".into(),
        _ if name >> NAME_BITS != 0 => "from 2^40 up, where no line has its name".into(),
        _ => "in the page table region, which is never cached".into(),
    }
}
