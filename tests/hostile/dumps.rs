//! A dumped board, checked and repaired (CR 13), by the library beside the model: what is lent, what must come back, comparing.
//! It is for 01's edition only.

use crate::guarded::{Guarded, Real};
use crate::logs::stains;
use crate::run::{differs, same, same_buffer, Difference, Kind};
use model::dump::{self, Broken, Repaired, Rule};
use model::{Board, Shape};

/// A check of the board, or a repair.
#[derive(Clone, Debug, PartialEq, Eq)]
pub struct Dump {
    pub repair: bool,
    /// With scratch of the safe crate's own, by that route.
    pub own: bool,
    /// How many elements are lent: keys, links and, for a repair, flags of dropped lines.
    pub lengths: [usize; 3],
    /// What stands there before: this, turned a little from one element to the next.
    pub stain: u64,
    /// Where they start, as the board's buffers do.
    pub offsets: [usize; 3],
}

/// What has to be lent: keys and links, so many at least, and flags, exactly so many.
pub fn needed(shape: &Shape) -> [usize; 3] {
    let keys = shape.frames.max(shape.lines) as usize;
    [keys, 2 * keys, shape.lines as usize]
}

impl Dump {
    /// With as much scratch as this.
    pub fn of(repair: bool, lengths: [usize; 3]) -> Dump {
        let [keys, links, flags] = lengths;
        Dump { repair, own: false, lengths: [keys, links, if repair { flags } else { 0 }], stain: 0, offsets: [0; 3] }
    }

    /// Whether what is lent is too short for this shape, or the flags too long.
    pub fn misfits(&self, shape: &Shape) -> bool {
        let [keys, links, flags] = needed(shape);
        self.lengths[0] < keys || self.lengths[1] < links || self.repair && self.lengths[2] != flags
    }

    pub fn lend(&self) -> Scratch {
        let words = |index: usize| stains(self.stain, self.lengths[index]).collect::<Vec<u64>>();
        let flags: Vec<u8> = words(2).into_iter().map(|stain| stain as u8).collect();
        Scratch {
            keys: Guarded::holding(&words(0), self.offsets[0]),
            links: Guarded::holding(&words(1), self.offsets[1]),
            flags: Guarded::holding(&flags, self.offsets[2]),
        }
    }
}

/// What is lent, beside the board.
pub struct Scratch {
    pub keys: Guarded<u64>,
    pub links: Guarded<u64>,
    pub flags: Guarded<u8>,
}

impl Scratch {
    fn broken(&self) -> Option<&'static str> {
        let intact =
            [("the keys", self.keys.intact()), ("the links", self.links.intact()), ("the flags", self.flags.intact())];
        intact.iter().find(|(_, intact)| !intact).map(|&(name, _)| name)
    }
}

/// A report, taken apart.
#[derive(Clone, Copy, Debug, PartialEq, Eq, Default)]
pub struct Report {
    pub number: u32,
    pub rule: u32,
    pub place: u64,
    pub dropped: u64,
}

impl Report {
    pub fn packed(&self) -> u64 {
        u64::from(self.number) << 56 | u64::from(self.rule) << 48 | self.dropped << 24 | self.place
    }

    fn sound(&self) -> bool {
        self.number == 0 && self.rule == 0
    }

    /// That of a board which is as the checker says.
    pub fn of(checked: Result<(), Broken>, dropped: usize) -> Report {
        let (rule, place) = checked.map_or_else(|broken| (broken.rule.number(), broken.place), |()| (0, 0));
        Report { number: 0, rule, place, dropped: dropped as u64 }
    }
}

/// What came back: the report, and its other forms where the route has them.
pub struct Told {
    pub report: Report,
    /// Whether the board is sound, 0 or 1: in C.
    pub sound: Option<u32>,
    /// The report as one number: in C, and by the raw declarations.
    pub packed: Option<u64>,
    /// What has to be lent, where it does not fit: by the safe crate.
    pub needed: Option<[usize; 3]>,
}

impl Told {
    fn disagrees(&self, shape: &Shape) -> Option<String> {
        let sound = self.report.sound();
        if let Some(told) = self.sound.filter(|&told| told != u32::from(sound)) {
            return Some(format!("{:?}, and asked whether the board is sound the library says {told}", self.report));
        }
        let right = self.report.packed();
        if let Some(packed) = self.packed.filter(|&packed| packed != right) {
            return Some(format!("the report is {packed:#x}, and {right:#x} by its parts"));
        }
        let told = self.needed.filter(|&told| told != needed(shape))?;
        Some(format!("{told:?} elements of scratch are asked for, and not {:?}", needed(shape)))
    }
}

/// What has to come back.
pub struct Expected {
    pub report: Report,
    /// The places at which lines are dropped; none where the flags stay as they are.
    pub dropped: Option<Vec<u64>>,
    /// Whether keys and links may be written.
    pub touched: bool,
}

impl Expected {
    /// Whether the board may be other than before.
    pub fn repairs(&self) -> bool {
        self.dropped.is_some()
    }

    /// Whether the board is one that the checker accepts afterwards.
    pub fn accepts(&self) -> bool {
        self.report.sound() || self.repairs()
    }
}

/// By the model, whose board is repaired. A board's own lengths come first, whatever is lent.
pub fn expected(board: &mut Board, dump: &Dump, own: bool) -> Expected {
    let fits = board.fits();
    if fits && !own && dump.misfits(&board.shape) {
        return Expected { report: Report { number: 1, ..Report::default() }, dropped: None, touched: false };
    }
    if !dump.repair {
        return Expected { report: Report::of(dump::check(board), 0), dropped: None, touched: fits };
    }
    let Repaired { before, dropped } = dump::repair(board);
    let report = Report::of(before, dropped.len());
    let reported = matches!(before, Err(Broken { rule: Rule::Lengths | Rule::PageTwice, .. }));
    Expected { report, dropped: (!reported).then_some(dropped), touched: fits }
}

/// Compares what came back, and what stands in what was lent.
pub fn compare(
    dump: &Dump,
    shape: &Shape,
    expected: &Expected,
    told: &Told,
    scratch: &Scratch,
) -> Result<(), Difference> {
    let (ours, theirs) = (&told.report, &expected.report);
    same(Kind::Report, "the report's number", ours.number, theirs.number, "the model")?;
    same(Kind::Report, "the rule", ours.rule, theirs.rule, "the model")?;
    same(Kind::Report, "the place", ours.place, theirs.place, "the model")?;
    same(Kind::Report, "the lines dropped", ours.dropped, theirs.dropped, "the model")?;
    if let Some(text) = told.disagrees(shape) {
        return Err(differs(Kind::Form, text));
    }
    if let Some(name) = scratch.broken() {
        return Err(differs(Kind::Canary, format!("bytes around {name} were written")));
    }
    let before = dump.lend();
    if !expected.touched {
        same_buffer(Kind::Refused, "keys", scratch.keys.inner(), before.keys.inner(), "those before")?;
        same_buffer(Kind::Refused, "links", scratch.links.inner(), before.links.inner(), "those before")?;
    }
    let Some(dropped) = &expected.dropped else {
        return same_buffer(Kind::Refused, "flags", scratch.flags.inner(), before.flags.inner(), "those before");
    };
    let mut flags = vec![0; scratch.flags.len()];
    // The crate's own flags are none of the caller's.
    dropped.iter().for_each(|&place| flags[place as usize] = 1);
    same_buffer(Kind::Flags, "flags", scratch.flags.inner(), &flags, "the model's")
}

/// "writes nothing to memory and only drops lines", whatever the model says: of the board before, only records that hold lines may
/// have become empty, with all their fields 0.
pub fn only_drops(before: &Board, real: &Real) -> Result<(), Difference> {
    let whose = "the board before this repair";
    same_buffer(Kind::Drops, "slots", real.slots.inner(), &before.slots, whose)?;
    same_buffer(Kind::Drops, "words", real.words.inner(), &before.words, whose)?;
    same_buffer(Kind::Drops, "cache", real.cache.inner(), &before.cache, whose)?;
    same_buffer(Kind::Drops, "memory", real.memory.inner(), &before.memory, whose)?;
    let records = before.records.chunks_exact(2).zip(real.records.inner().chunks_exact(2));
    for (place, (was, is)) in (0..).zip(records) {
        if was != is && (is != [0, 0] || before.held(place).is_none()) {
            let text = format!("record {place} was {was:x?} and is {is:x?}: no line was dropped there");
            return Err(differs(Kind::Drops, text));
        }
    }
    Ok(())
}
