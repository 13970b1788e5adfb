//! Planted faults of the check of a dumped board and of its repair. Most are those of a checker in ordinary Rust, by pairs, which
//! stands in for the library with one fault each; without one it does what the library does, and the self-test asks that nothing is
//! found then. The others alter what the comparison sees of the library, or of the model.

use crate::dumps::{needed, Dump, Expected, Report, Scratch, Told};
use crate::guarded::Real;
use crate::limits::*;
use crate::run::Kind;
use model::{page_of_name, Board, Plain, Record};

macro_rules! faults {
    ($($wrong:ident $name:literal $kind:ident $about:literal;)*) => {
        /// What is wrong with checks and repairs.
        #[derive(Clone, Copy, Debug, PartialEq, Eq)]
        pub enum Wrong { $(#[doc = $about] $wrong),* }

        /// By name, each with the check that has to find it.
        pub const FAULTS: &[(Wrong, &str, Kind)] = &[$((Wrong::$wrong, $name, Kind::$kind)),*];
    };
}

faults! {
    // Rules left out, and their order.
    NoLengths "check-no-lengths" Report "Lengths and limits are not asked.";
    NoPages "check-no-pages" Report "Doubled pages are not asked.";
    NoLines "check-no-lines" Report "Doubled lines are not asked.";
    NoAstray "check-no-astray" Report "Where lines map to is not asked.";
    NoStale "check-no-stale" Report "Lines are not compared with memory.";
    LinesFirst "check-lines-first" Report "Doubled lines come before doubled pages.";
    AstrayFirst "check-astray-first" Report "Lines astray come before doubled lines.";
    StaleFirst "check-stale-first" Report "Stale lines come before lines astray.";
    RulesExchanged "check-rules" Report "Rules 4 and 5 are exchanged in the report.";
    // Frames and places.
    HighestPage "check-highest-page" Report "Of the doubled pages' frames the highest lower one is given.";
    HighestLine "check-highest-line" Report "Of the doubled lines' places the highest lower one is given.";
    HighestAstray "check-highest-astray" Report "The highest line astray is given.";
    HighestStale "check-highest-stale" Report "The highest stale line is given.";
    HigherPage "check-higher-page" Report "Of a doubled page the higher frame is given.";
    HigherLine "check-higher-line" Report "Of a doubled line the higher place is given.";
    FirstPairPage "check-first-pair-page" Report "Of doubled pages the pair counts whose higher frame is lowest.";
    FirstPairLine "check-first-pair-line" Report "Of doubled lines the pair counts whose higher place is lowest.";
    NextPage "check-next-page" Report "Only frames side by side are compared.";
    NextLine "check-next-line" Report "Only places side by side are compared.";
    LastPage "check-last-frame" Report "The last frame is not asked.";
    LastLine "check-last-place" Report "The last place is not asked.";
    FirstLine "check-first-place" Report "Place 0 is not asked.";
    PageFromU "check-page-from-u" Report "A doubled page's frame is counted from U.";
    PlaceOfLengths "check-place-lengths" Report "For lengths the number of frames is given.";
    // Pages.
    BelowU "check-below-u" Report "Frames below U count.";
    NoForm "check-no-form" Report "Words of no form count.";
    AnyPage "check-any-page" Report "Pages that are not ordinary count.";
    NotFirstPage "check-not-first-page" Report "The first ordinary page does not count.";
    NotLastPage "check-not-last-page" Report "The last ordinary page does not count.";
    BitCounts "check-bit-counts" Report "A page with another write bit is another page.";
    PagesLow "check-pages-low" Report "Pages that are alike in their low 20 bits are one.";
    PagesHigh "check-pages-high" Report "Pages that differ in their lowest bit only are one.";
    // Lines.
    Invalid "check-invalid" Report "Records that are not valid hold lines.";
    Displaced "check-displaced" Report "Records that are not at their place hold lines.";
    Beyond "check-beyond" Report "Records beyond memory hold lines.";
    CleanOnly "check-clean-only" Report "Of doubled lines only unchanged ones count.";
    LinesLow "check-lines-low" Report "Lines that are alike in their low 8 bits are one.";
    LinesHigh "check-lines-high" Report "Lines that differ in their lowest bit only are one.";
    // Where lines map to.
    NoPermission "check-no-permission" Report "Permission is not compared.";
    MayNot "check-may-not" Report "A line that may not be written is fine on a page that may.";
    May "check-may" Report "A line that may be written is fine on a page that may not.";
    FrameOnly "check-frame-only" Report "Of a physical line only the frame is compared.";
    IndexOnly "check-index-only" Report "Of a physical line only its place in the frame is compared.";
    LowMaps "check-low-maps" Report "A page's frame below U counts where it has no other.";
    NoFormMaps "check-no-form-maps" Report "A word of no form maps its page.";
    Prefix1Used "check-prefix-1-used" Report "Prefix 1 lines of a frame with a word are fine.";
    Prefix1Page "check-prefix-1-page" Report "They are fine if the word names no page.";
    Prefix1Low "check-prefix-1-low" Report "Prefix 1 lines below U are fine.";
    Prefix1ReadOnly "check-prefix-1-write" Report "Prefix 1 lines that may not be written are fine.";
    Prefix1Any "check-prefix-1-any" Report "Of prefix 1 lines the physical line is not compared.";
    Prefix1None "check-prefix-1-none" Report "No prefix 1 line is fine.";
    Prefix0 "check-prefix-0" Report "Prefix 0 lines are fine.";
    Prefix0Low "check-prefix-0-low" Report "Prefix 0 lines below U are fine.";
    Table "check-table" Report "Lines of the page table region are fine.";
    CutNames "check-cut-names" Report "Names are cut to 40 bits.";
    // Memory.
    ChangedToo "check-changed-too" Report "Changed lines are compared with memory.";
    ChangedOnly "check-changed-only" Report "Only changed lines are compared with memory.";
    FirstByte "check-first-byte" Report "The first byte is not compared.";
    LastByte "check-last-byte" Report "The last byte is not compared.";
    // What is lent.
    KeyLess "check-key-less" Report "A key less will do.";
    LinkLess "check-link-less" Report "A link less will do.";
    LinksAsKeys "check-links-as-keys" Report "As many links as keys will do.";
    KeysForFrames "check-keys-frames" Report "Keys for the frames will do.";
    KeysForLines "check-keys-lines" Report "Keys for the lines will do.";
    LinksForFrames "check-links-frames" Report "Links for the frames will do.";
    LinksForLines "check-links-lines" Report "Links for the lines will do.";
    MoreRefused "check-more-refused" Report "More keys than are asked for are refused.";
    FlagsFew "check-flags-few" Report "Too few flags will do.";
    FlagsMore "check-flags-more" Report "More flags will do.";
    ScratchFirst "check-scratch-first" Report "Scratch is asked before lengths.";
    RefusedRule "check-refused-rule" Report "A refused call has rule 1.";
    Trusts "check-trusts" Report "Doubled lines are not asked where the first key is odd.";
    RefusedWrites "check-refused-writes" Refused "Keys are written in a refused call.";
    RefusedLinks "check-refused-links" Refused "Links are written in a refused call.";
    RefusedFlags "check-refused-flags" Refused "Flags are cleared in a refused call.";
    LengthsWrite "check-lengths-write" Refused "Keys are written where lengths are wrong.";
    LengthsFlags "check-lengths-flags" Refused "Flags are cleared where lengths are wrong.";
    CanaryKeys "check-canary-keys" Canary "The word behind the keys is written.";
    CanaryLinks "check-canary-links" Canary "The word before the links is written.";
    CanaryFlags "check-canary-flags" Canary "The byte behind the flags is written.";
    ReadsKeys "check-reads-keys" Signal "The word behind the keys is read.";
    ReadsLinks "check-reads-links" Signal "The word behind the links is read.";
    ReadsFlags "check-reads-flags" Signal "The byte before the flags is read.";
    // A check changes nothing, and a repair nothing but records.
    ChecksRecords "check-records" Buffer "A check drops lines.";
    ChecksCount "check-counts" Report "A check says how many lines a repair would drop.";
    TouchesSlots "repair-slots" Buffer "A slot is changed.";
    TouchesWords "repair-words" Buffer "A word is changed.";
    TouchesCache "repair-cache" Buffer "The bytes of dropped lines are zeroed.";
    TouchesMemory "repair-memory" Buffer "Changed lines are written back when they are dropped.";
    WritesKept "repair-writes-kept" Buffer "Changed lines that are kept are written back.";
    TouchesTag "repair-tag" Tag "The tag is dropped.";
    // Repairs.
    KeepsAstray "repair-keeps-astray" Report "Lines astray are kept.";
    KeepsStale "repair-keeps-stale" Report "Stale lines are kept.";
    DropsLower "repair-drops-lower" Report "Of doubled lines the lower is dropped.";
    DropsBoth "repair-drops-both" Report "Of doubled lines both are dropped.";
    PushedOut "repair-pushed-out" Report "A line is dropped for a lower one that is not kept.";
    DropsChanged "repair-drops-changed" Report "Changed lines that differ from memory are dropped.";
    DropsPrefix1 "repair-drops-prefix-1" Report "Prefix 1 lines are dropped.";
    DropsEmpty "repair-drops-empty" Report "Valid records that hold nothing are dropped.";
    ClearsEmpty "repair-clears-empty" Buffer "They are cleared, and not counted.";
    DropsAll "repair-drops-all" Report "All lines are dropped where one is.";
    FirstOnly "repair-first-only" Report "Only the lowest line that breaks a rule is dropped.";
    RuleOnly "repair-rule-only" Report "Only lines that break the rule which is reported are dropped.";
    KeepsFields "repair-keeps-fields" Buffer "A dropped record keeps its fields, and is not valid.";
    KeepsName "repair-keeps-name" Buffer "A dropped record keeps its name.";
    MendsBit "repair-mends-bit" Buffer "A line with the wrong permission gets the right one.";
    MendsBytes "repair-mends-bytes" Buffer "A stale line gets memory's bytes.";
    MendsPages "repair-mends-pages" Buffer "Lines are dropped though a page is doubled.";
    PagesFlags "repair-pages-flags" Refused "Flags are cleared though a page is doubled.";
    SoundFlags "repair-sound-flags" Flags "Flags of a sound board stay as they are.";
    After "repair-after" Report "The board after the repair is reported.";
    CountMore "repair-count-more" Report "A line too many is counted where one is dropped.";
    CountHeld "repair-count-held" Report "The lines that are left are counted.";
    FlagTwo "repair-flag-2" Flags "A flag is 2.";
    FlagsKept "repair-flags-kept" Flags "Flags of other lines stay as they are.";
    FlagsInverse "repair-flags-inverse" Flags "Flags say which lines are kept.";
    FlagsNext "repair-flags-next" Flags "A flag stands one place too high.";
    // What the comparison sees of the library, and of the model.
    Sound "check-sound" Form "Asked whether it is sound, C says no.";
    Parts "check-parts" Form "The report has another bit.";
    Needed "check-needed" Form "The crate asks for a key more.";
    DropsOther "repair-other" Drops "Library and model both change a record that holds nothing.";
    Unsound "check-unsound" Unsound "Library and model both say that a board they accepted is stale.";
    FromMemory "check-from-memory" Plain "The plain machine starts from memory's bytes.";
    OldWords "check-old-words" Plain "The plain machine starts from words that are all 0.";
    Copies "check-copies" TwoCopies "A line is held twice after a call.";
}

impl Wrong {
    pub fn found_as(self) -> Kind {
        FAULTS.iter().find(|(wrong, ..)| *wrong == self).expect("every fault has a name").2
    }

    /// A wrong rule of a repair may drop as many lines, but others.
    pub fn is_found_as(self, kind: Kind) -> bool {
        let found_as = self.found_as();
        kind == found_as || (kind, found_as) == (Kind::Flags, Kind::Report)
    }

    /// Whether it is a fault of the checker that stands in for the library.
    pub fn stands_in(self) -> bool {
        use Wrong::*;
        !matches!(self, Sound | Parts | Needed | DropsOther | Unsound | FromMemory | OldWords | Copies)
    }

    /// After a check or a repair, on a board that was accepted before or not: what was told and left, and what was expected.
    pub fn after(
        self,
        (told, real): (&mut Told, &mut Real),
        (expected, model): (&mut Expected, &mut Board),
        accepted: bool,
    ) {
        match self {
            Wrong::Sound => told.sound = told.sound.map(|_| 0),
            Wrong::Parts => told.packed = told.packed.map(|packed| packed ^ 1 << 55),
            Wrong::Needed => told.needed = told.needed.map(|[keys, links, flags]| [keys + 1, links, flags]),
            Wrong::DropsOther if expected.repairs() => {
                if let Some(place) = model.all_records().find(|&place| model.held(place).is_none()) {
                    let at = 2 * place as usize;
                    real.records.inner_mut()[at] ^= 1 << 63;
                    model.records[at] ^= 1 << 63;
                }
            }
            Wrong::Unsound if accepted && expected.report.number == 0 => {
                (told.report.rule, told.sound, told.packed) = (5, None, None);
                expected.report.rule = 5;
            }
            _ => {}
        }
    }

    /// A plain machine that starts.
    pub fn after_start(self, plain: &mut Plain, board: &Board) {
        match self {
            Wrong::FromMemory => plain.memory.copy_from_slice(&board.memory),
            Wrong::OldWords => plain.words.fill(0),
            _ => {}
        }
    }
}

// ---------------------------------------------------------------------------------------------
// What stands in for the library
// ---------------------------------------------------------------------------------------------

/// A checker and a repair, with a fault or none, of a board as it was before.
pub struct Faulty<'a> {
    pub wrong: Option<Wrong>,
    pub board: &'a Board,
    /// The first key, before.
    pub key: u64,
}

/// The numbers of the rules.
const PAGES: u32 = 2;
const LINES: u32 = 3;
const ASTRAY: u32 = 4;
const STALE: u32 = 5;

impl Faulty<'_> {
    fn is(&self, wrong: Wrong) -> bool {
        self.wrong == Some(wrong)
    }

    /// The page, or what counts as one, that a word names.
    fn named(&self, word: u64) -> Option<u64> {
        let page = word / 4;
        let form = word % 2 == 1 || self.is(Wrong::NoForm) && word != 0;
        let ordinary = (PAGE_FIRST..=PAGE_LAST).contains(&page) || self.is(Wrong::AnyPage);
        let out =
            self.is(Wrong::NotFirstPage) && page == PAGE_FIRST || self.is(Wrong::NotLastPage) && page == PAGE_LAST;
        let thing = match self.wrong {
            Some(Wrong::BitCounts) => word,
            Some(Wrong::PagesLow) => page % ALIKE,
            Some(Wrong::PagesHigh) => page / 2,
            _ => page,
        };
        (form && ordinary && !out).then_some(thing)
    }

    /// What counts as held lines.
    fn held(&self) -> Vec<(u64, Record)> {
        let board = self.board;
        let (lines, end) = (board.shape.lines, LINES_PER_PAGE * board.shape.frames);
        let holds = |place: u64| {
            let record = board.record(place);
            let stands = record.name % lines == place || self.is(Wrong::Displaced);
            let inside = record.line < end || self.is(Wrong::Beyond);
            let asked = !(self.is(Wrong::LastLine) && place + 1 == lines || self.is(Wrong::FirstLine) && place == 0);
            let valid = record.valid || self.is(Wrong::Invalid) && record.name != 0;
            (valid && stands && inside && asked).then_some((place, record))
        };
        board.all_records().filter_map(holds).collect()
    }

    /// Of things with a number each: the lower numbers of pairs, each with the lowest of the higher ones.
    fn pairs(things: &[(u64, u64)]) -> Vec<(u64, u64)> {
        let higher = |&(low, thing): &(u64, u64)| {
            things.iter().find(|(high, other)| *high > low && *other == thing).map(|(high, _)| (low, *high))
        };
        things.iter().filter_map(higher).collect()
    }

    /// Which of these pairs is given: the lowest lower one, but for faults.
    fn given(&self, mut pairs: Vec<(u64, u64)>, [highest, higher, first, next]: [Wrong; 4]) -> Option<u64> {
        if self.is(next) {
            pairs.retain(|(low, high)| high - low == 1);
        }
        let lowest = pairs.first().copied();
        match self.wrong {
            Some(wrong) if wrong == highest => pairs.last().map(|(low, _)| *low),
            Some(wrong) if wrong == higher => lowest.map(|(_, high)| high),
            Some(wrong) if wrong == first => pairs.iter().min_by_key(|(_, high)| *high).map(|(low, _)| *low),
            _ => lowest.map(|(low, _)| low),
        }
    }

    /// Where a page is mapped: frame and write bit.
    fn mapped(&self, page: u64) -> Option<(u64, bool)> {
        let has = |frame: &u64| {
            let word = self.board.words[*frame as usize];
            word / 4 == page && (word % 2 == 1 || self.is(Wrong::NoFormMaps) && word != 0)
        };
        let (frames, uncached) = (self.board.shape.frames, self.board.shape.uncached);
        let low = (0..uncached).find(|frame| self.is(Wrong::LowMaps) && has(frame));
        let frame = (uncached..frames).find(has).or(low)?;
        Some((frame, self.board.words[frame as usize] & 2 != 0))
    }

    fn is_astray(&self, record: &Record) -> bool {
        let Record { mut name, line, write, .. } = *record;
        if self.is(Wrong::CutNames) {
            name %= NAMES_END;
        }
        let page = page_of_name(name);
        if (PAGE_FIRST..=PAGE_LAST).contains(&page) {
            let Some((frame, page_write)) = self.mapped(page) else { return true };
            let there = match self.wrong {
                Some(Wrong::FrameOnly) => line / LINES_PER_PAGE == frame,
                Some(Wrong::IndexOnly) => line % LINES_PER_PAGE == name % LINES_PER_PAGE,
                _ => line == line_in(frame, name),
            };
            let permission = match self.wrong {
                Some(Wrong::NoPermission) => true,
                Some(Wrong::MayNot) => page_write || !write,
                Some(Wrong::May) => !page_write || write,
                _ => write == page_write,
            };
            return !there || !permission;
        }
        let (prefix, own) = (name / (PREFIX1 / LINE_BYTES), name % (PREFIX1 / LINE_BYTES));
        let uncached = self.board.shape.uncached;
        if prefix == 1 {
            let frame = line / LINES_PER_PAGE;
            let word = self.board.words.get(frame as usize).copied().unwrap_or(0);
            let free = word == 0
                || self.is(Wrong::Prefix1Used)
                || self.is(Wrong::Prefix1Page) && !(PAGE_FIRST..=PAGE_LAST).contains(&(word / 4));
            let high = frame >= uncached || self.is(Wrong::Prefix1Low);
            let there = own == line || self.is(Wrong::Prefix1Any);
            let written = write || self.is(Wrong::Prefix1ReadOnly);
            return !(free && high && there && written) || self.is(Wrong::Prefix1None);
        }
        let low = line / LINES_PER_PAGE < uncached;
        let fine = self.is(Wrong::Prefix0) || self.is(Wrong::Prefix0Low) && low;
        let table = (PAGE_TABLE / LINE_BYTES..NAMES_END).contains(&name) && self.is(Wrong::Table);
        !(prefix == 0 && own == line && fine || table)
    }

    /// Memory's bytes of a record's physical line, which may be beyond it.
    fn memory_of(&self, record: &Record) -> Option<&[u8]> {
        self.board.memory.chunks_exact(LINE_BYTES as usize).nth(record.line as usize)
    }

    fn is_stale(&self, place: u64, record: &Record) -> bool {
        let compared = match self.wrong {
            Some(Wrong::ChangedToo) => true,
            Some(Wrong::ChangedOnly) => record.changed,
            _ => !record.changed,
        };
        let Some(memory) = self.memory_of(record) else { return false };
        let cache = &self.board.cache[line_bytes(place)];
        let bytes = match self.wrong {
            Some(Wrong::FirstByte) => 1..LINE_BYTES as usize,
            Some(Wrong::LastByte) => 0..LINE_BYTES as usize - 1,
            _ => 0..LINE_BYTES as usize,
        };
        compared && cache[bytes.clone()] != memory[bytes]
    }

    /// The lowest frame or place that breaks a rule.
    fn breaking(&self, rule: u32) -> Option<u64> {
        let (frames, uncached) = (self.board.shape.frames, self.board.shape.uncached);
        let alone = |breaks: &dyn Fn(u64, &Record) -> bool, highest: bool| {
            let mut places: Vec<u64> = self
                .held()
                .into_iter()
                .filter(|(place, record)| breaks(*place, record))
                .map(|(place, _)| place)
                .collect();
            if highest {
                places.reverse();
            }
            places.first().copied()
        };
        match rule {
            PAGES => {
                let first = if self.is(Wrong::BelowU) { 0 } else { uncached };
                let last = frames - u64::from(self.is(Wrong::LastPage));
                let named = |frame: u64| self.named(self.board.words[frame as usize]).map(|page| (frame, page));
                let pages: Vec<(u64, u64)> = (first..last).filter_map(named).collect();
                let kinds = [Wrong::HighestPage, Wrong::HigherPage, Wrong::FirstPairPage, Wrong::NextPage];
                let given = self.given(Faulty::pairs(&pages), kinds);
                given.map(|frame| if self.is(Wrong::PageFromU) { frame - uncached } else { frame })
            }
            LINES => {
                let counts = |record: &Record| !(self.is(Wrong::CleanOnly) && record.changed);
                let held = self.held();
                let line = |record: &Record| match self.wrong {
                    Some(Wrong::LinesLow) => record.line % LINES_PER_PAGE,
                    Some(Wrong::LinesHigh) => record.line / 2,
                    _ => record.line,
                };
                let lines =
                    held.iter().filter(|(_, record)| counts(record)).map(|(place, record)| (*place, line(record)));
                let kinds = [Wrong::HighestLine, Wrong::HigherLine, Wrong::FirstPairLine, Wrong::NextLine];
                self.given(Faulty::pairs(&lines.collect::<Vec<_>>()), kinds)
            }
            ASTRAY => alone(&|_, record| self.is_astray(record), self.is(Wrong::HighestAstray)),
            _ => alone(&|place, record| self.is_stale(place, record), self.is(Wrong::HighestStale)),
        }
    }

    /// The first broken rule, and the place; 0 and 0 of a sound board.
    fn checked(&self) -> (u32, u64) {
        if !self.board.fits() {
            return match self.wrong {
                Some(Wrong::NoLengths) => (0, 0),
                Some(Wrong::PlaceOfLengths) => (1, self.board.words.len() as u64),
                _ => (1, 0),
            };
        }
        let order = match self.wrong {
            Some(Wrong::LinesFirst) => [LINES, PAGES, ASTRAY, STALE],
            Some(Wrong::AstrayFirst) => [PAGES, ASTRAY, LINES, STALE],
            Some(Wrong::StaleFirst) => [PAGES, LINES, STALE, ASTRAY],
            _ => [PAGES, LINES, ASTRAY, STALE],
        };
        let left_out = match self.wrong {
            Some(Wrong::NoPages) => PAGES,
            Some(Wrong::NoLines) => LINES,
            Some(Wrong::NoAstray) => ASTRAY,
            Some(Wrong::NoStale) => STALE,
            Some(Wrong::Trusts) if self.key % 2 == 1 => LINES,
            _ => 0,
        };
        let rules = order.into_iter().filter(|&rule| rule != left_out);
        let found = rules.filter_map(|rule| self.breaking(rule).map(|place| (rule, place))).next();
        match found.unwrap_or((0, 0)) {
            (ASTRAY, place) if self.is(Wrong::RulesExchanged) => (STALE, place),
            (STALE, place) if self.is(Wrong::RulesExchanged) => (ASTRAY, place),
            found => found,
        }
    }

    /// The places at which a repair drops lines, where this rule is reported.
    fn dropped(&self, rule: u32) -> Vec<u64> {
        let (mut kept, mut seen, mut dropped) = (Vec::new(), Vec::new(), Vec::new());
        let held = self.held();
        let copies = |line: u64| held.iter().filter(|(_, record)| record.line == line).count();
        for (place, record) in &held {
            let (astray, stale) = (self.is_astray(record), self.is_stale(*place, record));
            let higher = held.iter().any(|(other, copy)| other > place && copy.line == record.line);
            let differs = self.memory_of(record) != Some(&self.board.cache[line_bytes(*place)]);
            let drops = match self.wrong {
                Some(Wrong::KeepsAstray) => stale || kept.contains(&record.line),
                Some(Wrong::KeepsStale) => astray || kept.contains(&record.line),
                Some(Wrong::DropsLower) => astray || stale || higher,
                Some(Wrong::DropsBoth) => astray || stale || copies(record.line) > 1,
                Some(Wrong::PushedOut) => astray || stale || seen.contains(&record.line),
                Some(Wrong::DropsChanged) => astray || stale || record.changed && differs,
                Some(Wrong::DropsPrefix1) => astray || stale || record.name < PREFIX1_END / LINE_BYTES,
                Some(Wrong::RuleOnly) => match rule {
                    ASTRAY => astray,
                    STALE => stale,
                    _ => (astray || stale) && copies(record.line) > 1,
                },
                Some(Wrong::FirstOnly) => (astray || stale || kept.contains(&record.line)) && dropped.is_empty(),
                _ => astray || stale || kept.contains(&record.line),
            };
            seen.push(record.line);
            if drops {
                dropped.push(*place);
            } else {
                kept.push(record.line);
            }
        }
        let is_empty = |place: &u64| self.board.record(*place).valid && self.board.held(*place).is_none();
        match self.wrong {
            Some(Wrong::DropsAll) if !dropped.is_empty() => held.iter().map(|(place, _)| *place).collect(),
            Some(Wrong::DropsEmpty) => {
                dropped.extend(self.board.all_records().filter(is_empty));
                dropped
            }
            _ => dropped,
        }
    }

    fn misfits(&self, dump: &Dump) -> bool {
        let shape = &self.board.shape;
        let [mut keys, mut links, flags] = needed(shape);
        let (frames, lines) = (shape.frames as usize, shape.lines as usize);
        match self.wrong {
            Some(Wrong::KeyLess) => keys -= 1,
            Some(Wrong::LinkLess) => links -= 1,
            Some(Wrong::LinksAsKeys) => links = keys,
            Some(Wrong::KeysForFrames) => keys = frames,
            Some(Wrong::KeysForLines) => keys = lines,
            Some(Wrong::LinksForFrames) => links = 2 * frames,
            Some(Wrong::LinksForLines) => links = 2 * lines,
            _ => {}
        }
        let wrong_flags = match self.wrong {
            Some(Wrong::FlagsFew) => dump.lengths[2] > flags,
            Some(Wrong::FlagsMore) => dump.lengths[2] < flags,
            _ => dump.lengths[2] != flags,
        };
        let more = self.is(Wrong::MoreRefused) && dump.lengths[0] > keys;
        dump.lengths[0] < keys || dump.lengths[1] < links || dump.repair && wrong_flags || more
    }

    /// Does what the library does, and leaves what it leaves.
    pub fn dump(&self, dump: &Dump, own: bool, real: &mut Real, scratch: &mut Scratch) -> Told {
        let report = self.report(dump, own, real, scratch);
        Told { report, sound: None, packed: None, needed: None }
    }

    fn report(&self, dump: &Dump, own: bool, real: &mut Real, scratch: &mut Scratch) -> Report {
        self.outside(dump, scratch);
        let refused = Report { number: 1, rule: u32::from(self.is(Wrong::RefusedRule)), ..Report::default() };
        let fits = self.board.fits();
        let misfits = !own && (fits || self.is(Wrong::ScratchFirst)) && self.misfits_any(dump);
        if misfits {
            self.writes(scratch, Some(Wrong::RefusedWrites), Some(Wrong::RefusedLinks), Wrong::RefusedFlags);
            return refused;
        }
        let (rule, place) = self.checked();
        if !fits {
            self.writes(scratch, Some(Wrong::LengthsWrite), None, Wrong::LengthsFlags);
            return Report { rule, place, ..Report::default() };
        }
        // What stands in the scratch afterwards means nothing.
        scratch.keys.inner_mut().iter_mut().for_each(|key| *key = key.rotate_left(9) ^ 5);
        scratch.links.inner_mut().iter_mut().for_each(|link| *link = !*link);
        let dropped = self.dropped(rule);
        if !dump.repair {
            if self.is(Wrong::ChecksRecords) {
                self.drop_all(&dropped, real);
            }
            let count = if self.is(Wrong::ChecksCount) && rule != PAGES { dropped.len() } else { 0 };
            return Report { rule, place, dropped: count as u64, ..Report::default() };
        }
        if rule == PAGES {
            if self.is(Wrong::MendsPages) {
                self.drop_all(&dropped, real);
            }
            self.writes(scratch, None, None, Wrong::PagesFlags);
            return Report { rule, place, ..Report::default() };
        }
        self.drop_all(&dropped, real);
        self.touches(&dropped, real);
        self.flags(&dropped, rule, scratch);
        let count = match self.wrong {
            Some(Wrong::CountMore) if !dropped.is_empty() => dropped.len() + 1,
            Some(Wrong::CountHeld) => self.held().len() - dropped.len(),
            _ => dropped.len(),
        };
        let (rule, place) = if self.is(Wrong::After) { (0, 0) } else { (rule, place) };
        Report { rule, place, dropped: count as u64, ..Report::default() }
    }

    /// The same of a board that doesn't fit, where scratch is asked first.
    fn misfits_any(&self, dump: &Dump) -> bool {
        if self.board.fits() {
            return self.misfits(dump);
        }
        dump.lengths[0] < self.board.words.len()
    }

    /// Outside what is lent.
    fn outside(&self, dump: &Dump, Scratch { keys, links, flags }: &mut Scratch) {
        match self.wrong {
            Some(Wrong::CanaryKeys) if !keys.ends_at_fence() => keys.break_canary(false),
            Some(Wrong::CanaryLinks) if !links.begins_at_fence() => links.break_canary(true),
            Some(Wrong::CanaryFlags) if dump.repair && !flags.ends_at_fence() => flags.break_canary(false),
            Some(Wrong::ReadsKeys) => keys.read_outside(true),
            Some(Wrong::ReadsLinks) => links.read_outside(true),
            Some(Wrong::ReadsFlags) if dump.repair => flags.read_outside(false),
            _ => {}
        }
    }

    /// Writes to keys, links or flags, by these faults.
    fn writes(&self, scratch: &mut Scratch, keys: Option<Wrong>, links: Option<Wrong>, flags: Wrong) {
        if keys.is_some_and(|wrong| self.is(wrong)) {
            scratch.keys.inner_mut().iter_mut().for_each(|key| *key ^= 1);
        }
        if links.is_some_and(|wrong| self.is(wrong)) {
            scratch.links.inner_mut().iter_mut().for_each(|link| *link ^= 1);
        }
        if self.is(flags) {
            scratch.flags.inner_mut().iter_mut().for_each(|flag| *flag ^= 1);
        }
    }

    fn drop_all(&self, dropped: &[u64], real: &mut Real) {
        for &place in dropped {
            let record = self.board.record(place);
            let words = &mut real.records.inner_mut()[2 * place as usize..][..2];
            match self.wrong {
                Some(Wrong::KeepsFields) => words[1] &= !1,
                Some(Wrong::KeepsName) => words[1] = 0,
                Some(Wrong::MendsBit) if self.is_astray(&record) => {
                    let mended = Record { write: !record.write, ..record };
                    if self.is_astray(&mended) {
                        words.fill(0);
                    } else {
                        words[1] ^= 2;
                    }
                }
                Some(Wrong::MendsBytes) if !self.is_astray(&record) => {
                    let memory = &self.board.memory[line_bytes(record.line)];
                    real.cache.inner_mut()[line_bytes(place)].copy_from_slice(memory);
                }
                _ => words.fill(0),
            }
        }
    }

    /// Other buffers.
    fn touches(&self, dropped: &[u64], real: &mut Real) {
        match self.wrong {
            Some(Wrong::TouchesSlots) if !dropped.is_empty() => real.slots.inner_mut()[0] ^= 1,
            Some(Wrong::TouchesWords) if !dropped.is_empty() => real.words.inner_mut()[0] ^= 1,
            Some(Wrong::TouchesCache) => {
                dropped.iter().for_each(|&place| real.cache.inner_mut()[line_bytes(place)].fill(0));
            }
            Some(Wrong::TouchesMemory) => self.write_back(dropped, real),
            Some(Wrong::WritesKept) => {
                let kept = self.held().into_iter().map(|(place, _)| place).filter(|place| !dropped.contains(place));
                self.write_back(&kept.collect::<Vec<_>>(), real);
            }
            Some(Wrong::TouchesTag) if !dropped.is_empty() => real.set_tag(0, 0),
            Some(Wrong::ClearsEmpty) => {
                for place in self.board.all_records().filter(|&place| self.board.held(place).is_none()) {
                    real.records.inner_mut()[2 * place as usize..][..2].fill(0);
                }
            }
            _ => {}
        }
    }

    fn write_back(&self, places: &[u64], real: &mut Real) {
        for &place in places.iter().filter(|place| self.board.record(**place).changed) {
            let line = self.board.record(place).line;
            real.memory.inner_mut()[line_bytes(line)].copy_from_slice(&self.board.cache[line_bytes(place)]);
        }
    }

    fn flags(&self, dropped: &[u64], rule: u32, scratch: &mut Scratch) {
        let flags = scratch.flags.inner_mut();
        if self.is(Wrong::SoundFlags) && rule == 0 {
            return;
        }
        let mark = if self.is(Wrong::FlagTwo) { 2 } else { 1 };
        let next = u64::from(self.is(Wrong::FlagsNext));
        for (place, flag) in (0..).zip(flags) {
            *flag = match (dropped.contains(&place), self.wrong) {
                (_, Some(Wrong::FlagsNext)) => u8::from(place >= next && dropped.contains(&(place - next))),
                (is, Some(Wrong::FlagsInverse)) => u8::from(!is),
                (false, Some(Wrong::FlagsKept)) => *flag,
                (true, _) => mark,
                (false, _) => 0,
            };
        }
    }
}
