//! The kinds of event to reach, and which of them a call was.
//!
//! A case is named `fresh` if a sequence of calls from a fresh board reaches it, and then it must be reached on such a board.
//! `wild` are those that need a board no sequence reaches, or numbers and lengths that disagree: held lines of a page that is
//! not mapped or mapped elsewhere (unmap and move drop a page's lines, and map refuses a mapped page), held prefix 1 lines of a
//! frame in use (map drops them), a line held under two names, names that no access fills, doubled pages, records that hold nothing
//! but are valid, slot words outside the range, and number 1.

use crate::coverage::Sort;
use crate::limits::*;
use crate::routes::{Manner, Route};
use crate::sights::{inside, stands};
use crate::values::Access;
use model::{
    frame_of, global_of, kind_of, mapping, name_in_range, name_of, offset_of, page_of_name, slot_of, slot_read, Board,
    Call, Edition, Event, Kind, Record, Shape,
};

/// On which boards a case must be reached: on fresh ones, on wild ones, or on wild ones with sets of four only.
#[derive(Clone, Copy, Debug, PartialEq, Eq)]
pub enum Reach {
    Fresh,
    Wild,
    WildFours,
}

impl Reach {
    pub fn is_on(self, sort: Sort) -> bool {
        match self {
            Reach::Fresh => sort.fresh,
            Reach::Wild => !sort.fresh,
            Reach::WildFours => !sort.fresh && sort.edition == Edition::Fours,
        }
    }
}

macro_rules! cases {
    ($($reach:ident $case:ident $words:literal;)*) => {
        #[derive(Clone, Copy, Debug, PartialEq, Eq)]
        pub enum Case { $($case),* }

        pub const CASES: &[(Case, Reach, &str)] = &[$((Case::$case, Reach::$reach, $words)),*];
    };
}

cases! {
    Fresh UserHit "user access: hit";
    Fresh UserMiss "user access: miss, nothing written back";
    Fresh UserMissWriteBack "user access: miss with write-back";
    Fresh OrdinaryHit "supervisor, ordinary: hit";
    Fresh OrdinaryMiss "supervisor, ordinary: miss, nothing written back";
    Fresh OrdinaryMissWriteBack "supervisor, ordinary: miss with write-back";
    Fresh Prefix1Hit "prefix 1: hit";
    Fresh Prefix1Miss "prefix 1: miss, nothing written back";
    Fresh Prefix1MissWriteBack "prefix 1: miss with write-back";
    Fresh LoadHit "load: hit";
    Fresh LoadMiss "load: miss";
    Fresh StoreHit "store: hit";
    Fresh StoreMiss "store: miss";
    Fresh HitChanged "hit on a changed line";
    Fresh MissOverClean "miss over a held line that is not changed";
    Fresh MissOverInvalid "miss over a changed record that holds nothing: not valid";
    Fresh MissWritesEqual "miss: writes back the bytes that memory has already";
    Fresh UncachedLoad "prefix 0: load";
    Fresh UncachedStore "prefix 0: store";
    Fresh TopAddress "user access done at 0x7FFFFFFF";
    Fresh TopOrdinary "supervisor access done at 0xFFBFFFFFFFF";
    Fresh TopUncached "prefix 0: done at the last byte of frame U - 1";
    Fresh TopCached "prefix 1: done at the last byte of memory";
    Fresh SupervisorReadOnly "supervisor store to a read-only page: done";
    Fresh OutsideProcess "user access, 2: the process alone";
    Fresh LargeUser "user store, 2: the value alone";
    Fresh OutsideAddress "supervisor access, 2: the address alone";
    Fresh LargeSupervisor "supervisor store, 2: the value alone";
    Fresh UnmappedUser "user access, 8: not mapped, not held";
    Fresh UnmappedSupervisor "supervisor access, 8: not mapped, not held";
    Fresh ReadOnlyRecord "user store, 9 by the record";
    Fresh ReadOnlyWord "user store, 9 by the frame word";
    Fresh OutsidePageTable "12: page table region";
    Fresh OutsidePrefix0 "12: prefix 0 from U up";
    Fresh OutsidePrefix1Low "12: prefix 1 below U";
    Fresh OutsidePrefix1Beyond "12: prefix 1 beyond memory";
    Fresh TaggedPageTable "tag pending, page table address: 12";
    Fresh TaggedPrefix "tag pending, prefix 0 or 1 access: done";
    Fresh AttachReplaces "attach replaces a segment";
    Fresh DetachEmpty "detach of an empty slot";
    Fresh MapDropsNothing "map: drops nothing";
    Fresh MapDropsPrefix1 "map: drops by the prefix 1 range";
    Fresh UnmapNoLines "unmap: no line held";
    Fresh UnmapWrites "unmap: writes back";
    Fresh UnmapDropsClean "unmap: drops an unchanged line";
    Fresh UnmapTagged "unmap of the pending tag's page";
    Fresh ProtectLines "protect: changes lines";
    Fresh ProtectNoLines "protect: no line held";
    Fresh FlushWrites "flush all: writes back";
    Fresh FlushDropsClean "flush all: drops an unchanged line";
    Fresh FlushNothing "flush all: no line held";
    Fresh Inserted "load-and-map: inserted, nothing written back";
    Fresh InsertedWriteBack "load-and-map: inserted with write-back";
    Fresh FoundHeld "load-and-map: held already, unchanged";
    Fresh FoundHeldChanged "load-and-map: held already and changed";
    Fresh OtherLineHeld "load-and-map: 13 though the line is held";
    Fresh OtherLineLow "load-and-map: 13 for a line below U";
    Fresh LookInCache "look: in the cache bytes";
    Fresh LookInMemory "look: in memory";
    Fresh OddFlag "a flag is yes by another number than 1";
    Fresh OddSet "a tag is pending by another number than 1";
    Fresh MostLines "done with the most lines";
    Fresh MostProcesses "done with the most processes";
    Wild HitUnmapped "hit on a page that is not mapped";
    Wild HitElsewhere "hit on a line whose page is mapped elsewhere";
    Wild StoreByRecord "user store by the record's permission, the frame word read-only";
    Wild ReadOnlyRecordOnly "user store, 9 by the record, the frame word writable";
    Wild InUseHeld "prefix 1, 10: the line is held";
    Wild InUseLow "prefix 1, 10: the frame is below U";
    Wild SlotOutOfRange "user access, 6: a slot word outside the range";
    Wild MissWritesFar "miss: writes back a name from 2^40 up";
    Wild MissWritesOwn "miss: writes back to the very line that it fills";
    Wild MissOverStray "miss over a changed record that holds nothing: not at its place";
    Wild MissOverBeyond "miss over a changed record that holds nothing: of a line beyond memory";
    Wild MissOwnName "miss though a valid record at the place has the name: its line is beyond memory";
    Wild UncachedHeld "prefix 0: done while a held line has that very name";
    Wild MapDropsPage "map: drops by the page's names";
    Wild MapDropsBoth "map: drops by both ranges";
    Wild MapNoForm "map, 10: a word of no form";
    Wild UnmapDoubled "unmap of a doubled page";
    Wild ProtectDoubled "protect of a doubled page";
    Wild FlushWritesFar "flush all: writes back a name from 2^40 up";
    Wild FlushWritesTwice "flush all: two changed lines of one physical line";
    Wild FlushKeepsStray "flush all: keeps a valid record that is not at its place";
    Wild FlushKeepsBeyond "flush all: keeps a valid record of a line beyond memory";
    Wild FarTag "load-and-map, 8: the pending name is outside tag's range";
    Wild UnmappedHeld "load-and-map, 8 though the line is held";
    Wild LookLowest "look: in the lowest of several records";
    Wild EmptyNull "an empty buffer as NULL";
    Wild EmptyPlaced "an empty buffer between its canaries";
    Wild FramesZero "1 by F = 0 alone";
    Wild FramesOver "1 with F over its limit";
    Wild UncachedOver "1 by U over F alone";
    Wild ProcessesZero "1 by P = 0 alone";
    Wild ProcessesOver "1 by one process too many alone";
    Wild ProcessesWrap "1 by a P whose slots wrap to the length";
    Wild LinesZero "1 by L = 0 alone";
    Wild LinesNoPower "1 by L with more than one bit set alone";
    Wild LinesOver "1 by twice the most lines alone";
    Wild LinesWrap "1 by an L whose records and bytes wrap to the lengths";
    Wild SlotsShort "1 by short slots alone";
    Wild SlotsLong "1 by long slots alone";
    Wild WordsShort "1 by short words alone";
    Wild WordsLong "1 by long words alone";
    Wild RecordsShort "1 by short records alone";
    Wild RecordsLong "1 by long records alone";
    Wild CacheShort "1 by short cache bytes alone";
    Wild CacheLong "1 by long cache bytes alone";
    Wild MemoryShort "1 by short memory alone";
    Wild MemoryLong "1 by long memory alone";
    WildFours LinesBelow1 "1 by L = 1 alone, too few for a set";
    WildFours LinesBelow2 "1 by L = 2 alone, too few for a set";
    WildFours UsesNone "1 by no matrices alone";
    WildFours UsesShort "1 by too few matrices alone";
    WildFours UsesLong "1 by too many matrices alone";
    WildFours UsesAsLines "1 by a matrix for each line alone";
    WildFours UsesAsBytes "1 by a matrix for each byte of them alone";
}

/// What has to be known of the board before a call to say which cases it was.
pub enum Facts {
    /// Number 1, with the cause if there is one alone.
    Unfit(Option<Case>),
    Fit {
        shape: Shape,
        tag: (bool, u64),
        before: Before,
    },
}

pub enum Before {
    /// A user access whose slot is empty, attach, detach: the slot word.
    Slot(u32),
    /// An access or a load-and-map: its line.
    Line(Line),
    /// Map: the frame's word. Unmap, protect: whether the page has several frames.
    Page {
        word: u64,
        doubled: bool,
    },
    Flush {
        far: bool,
        twice: bool,
        stray: bool,
        beyond: bool,
    },
    Nothing,
}

pub struct Line {
    name: u64,
    kind: Kind,
    /// The record with which its access is done: that at its place, or in sets of four the one that holds it, else the victim.
    /// Whether it stands at its own place and has a line in memory, whether it holds a line, and whether memory has the bytes of
    /// that line already.
    pub record: Record,
    placed: bool,
    inside: bool,
    pub holds: bool,
    pub equal: bool,
    /// Where the page is mapped: physical line, write bit.
    mapped: Option<(u64, bool)>,
}

impl Line {
    fn of(board: &Board, name: u64) -> Line {
        let at = board.record_for(name);
        let (record, holds) = (board.record(at), board.held(at).is_some());
        Line {
            name,
            kind: kind_of(name.wrapping_mul(LINE_BYTES) % GLOBAL_END),
            record,
            placed: stands(board, record.name, at),
            inside: inside(board, record.line),
            holds,
            equal: holds && board.cache[line_bytes(at)] == board.memory[line_bytes(record.line)],
            mapped: mapping(&board.shape, &board.words, page_of_name(name))
                .map(|(frame, write)| (line_in(frame, name), write)),
        }
    }

    pub fn held(&self) -> bool {
        self.holds && self.record.name == self.name
    }

    /// Whether that record has the physical line from which a miss fills.
    pub fn of_this_line(&self) -> bool {
        let home = match self.kind {
            Kind::Cached(physical) => Some(physical / LINE_BYTES),
            _ => self.mapped.map(|(line, _)| line),
        };
        home == Some(self.record.line)
    }
}

/// The word of a slot, if there is such a slot.
fn slot_word(board: &Board, process: u64, slot: u64) -> Option<u32> {
    let inside = process < board.shape.processes && slot < SLOTS;
    inside.then(|| board.slots[(process * SLOTS + slot) as usize])
}

/// The name of the line that an access or a load-and-map is to; none where its slot is none or empty, or its address is none. Asked
/// only of a board that fits.
pub fn name_of_call(board: &Board, call: &Call) -> Option<u64> {
    match *call {
        Call::UserAccess { process, address, .. } => {
            let (segment, _) = slot_read(slot_word(board, process, slot_of(address))?)?;
            Some(name_of(global_of(segment, offset_of(address))))
        }
        Call::SupervisorAccess { global, .. } => (global < GLOBAL_END).then(|| name_of(global)),
        Call::LoadAndMap { .. } => Some(board.tag.1),
        _ => None,
    }
}

impl Facts {
    /// The line of an access or of a load-and-map.
    pub fn line(&self) -> Option<&Line> {
        match self {
            Facts::Fit { before: Before::Line(line), .. } => Some(line),
            _ => None,
        }
    }

    pub fn before(board: &Board, call: &Call) -> Facts {
        if !board.fits() {
            return Facts::Unfit(cause_of_one(board));
        }
        let slot_facts = |process, slot| slot_word(board, process, slot).map_or(Before::Nothing, Before::Slot);
        let before = match (name_of_call(board, call), *call) {
            (Some(name), _) => Before::Line(Line::of(board, name)),
            (None, Call::UserAccess { process, address, .. }) => slot_facts(process, slot_of(address)),
            (None, Call::Attach { process, slot, .. } | Call::Detach { process, slot }) => slot_facts(process, slot),
            (None, Call::Map { page, frame, .. }) => page_facts(board, page, frame),
            (None, Call::Unmap { page } | Call::Protect { page, .. }) => page_facts(board, page, 0),
            (None, Call::FlushAll) => flush_facts(board),
            _ => Before::Nothing,
        };
        Facts::Fit { shape: board.shape, tag: board.tag, before }
    }
}

fn page_facts(board: &Board, page: u64, frame: u64) -> Before {
    let word = board.words.get(frame as usize).copied().unwrap_or(0);
    let from_uncached = &board.words[board.shape.uncached as usize..];
    let naming = from_uncached.iter().filter(|&&word| word % 2 == 1 && word / 4 == page).count();
    Before::Page { word, doubled: naming > 1 }
}

fn flush_facts(board: &Board) -> Before {
    let mut changed = Vec::new();
    let (mut far, mut stray, mut beyond) = (false, false, false);
    for at in board.all_records() {
        match board.held(at) {
            Some(record) if record.changed => {
                far |= record.name >= NAMES_END;
                changed.push(record.line);
            }
            Some(_) => {}
            None => {
                let record = board.record(at);
                let at_its_place = stands(board, record.name, at);
                stray |= record.valid && !at_its_place;
                beyond |= record.valid && at_its_place;
            }
        }
    }
    changed.sort_unstable();
    Before::Flush { far, twice: changed.windows(2).any(|pair| pair[0] == pair[1]), stray, beyond }
}

/// The one number or length that makes a board unfit, all others being right.
pub fn cause_of_one(board: &Board) -> Option<Case> {
    let (s, n) = (&board.shape, &board.lengths());
    if s.frames > FRAMES_MAX {
        return Some(Case::FramesOver);
    }
    let wraps = |factor: u64, count: u64| factor.checked_mul(count).is_none();
    let fours = board.edition == Edition::Fours;
    let limits = [
        (s.frames == 0, Case::FramesZero),
        (s.uncached > s.frames, Case::UncachedOver),
        (s.processes == 0, Case::ProcessesZero),
        (s.processes == PROCESSES_MAX + 1, Case::ProcessesOver),
        (wraps(SLOTS, s.processes), Case::ProcessesWrap),
        (s.lines == 0, Case::LinesZero),
        (s.lines <= LINES_MAX && s.lines.count_ones() > 1, Case::LinesNoPower),
        (s.lines == 2 * LINES_MAX, Case::LinesOver),
        (s.lines.count_ones() == 1 && wraps(2, s.lines), Case::LinesWrap),
        (fours && s.lines == 1, Case::LinesBelow1),
        (fours && matches!(s.lines, 2 | 3), Case::LinesBelow2),
    ];
    let too_many = match n.uses {
        uses if uses == s.lines => Case::UsesAsLines,
        uses if uses == s.lines.wrapping_mul(4) => Case::UsesAsBytes,
        _ => Case::UsesLong,
    };
    let too_few = if n.uses == 0 { Case::UsesNone } else { Case::UsesShort };
    let lengths = [
        (n.slots, SLOTS.wrapping_mul(s.processes), Case::SlotsShort, Case::SlotsLong),
        (n.words, s.frames, Case::WordsShort, Case::WordsLong),
        (n.records, s.lines.wrapping_mul(2), Case::RecordsShort, Case::RecordsLong),
        (n.cache, LINE_BYTES.wrapping_mul(s.lines), Case::CacheShort, Case::CacheLong),
        (n.memory, PAGE_BYTES * s.frames, Case::MemoryShort, Case::MemoryLong),
        (n.uses, matrices(board.edition, s.lines), too_few, too_many),
    ];
    let by_limit = limits.iter().filter(|(wrong, _)| *wrong).map(|&(_, case)| case);
    let by_length = lengths
        .iter()
        .filter(|(length, right, ..)| length != right)
        .map(|&(length, right, short, long)| if length < right { short } else { long });
    let causes: Vec<Case> = by_limit.chain(by_length).collect();
    (causes.len() == 1).then(|| causes[0])
}

/// The cases of a call, by what was before it and what the model says it did.
pub fn cases_of(facts: &Facts, call: &Call, event: Event) -> Vec<Case> {
    let (shape, tag, before) = match facts {
        Facts::Unfit(cause) => return cause.iter().copied().collect(),
        Facts::Fit { shape, tag, before } => (shape, tag, before),
    };
    let mut found = Vec::new();
    let mut when = |is: bool, case: Case| {
        if is {
            found.push(case)
        }
    };
    let done = !matches!(event, Event::Refused(_));
    when(done && shape.lines == LINES_MAX, Case::MostLines);
    when(done && shape.processes == PROCESSES_MAX, Case::MostProcesses);
    if event == Event::Refused(2) {
        let large = Access::of(call).is_some_and(|access| access.store && access.is_large());
        match *call {
            Call::UserAccess { process, .. } => {
                when(!large, Case::OutsideProcess);
                when(process < shape.processes, Case::LargeUser);
            }
            Call::SupervisorAccess { global, .. } => {
                when(!large, Case::OutsideAddress);
                when(global < GLOBAL_END, Case::LargeSupervisor);
            }
            _ => {}
        }
    }
    match (call, before) {
        (Call::UserAccess { store, address, .. }, Before::Line(line)) => {
            access_cases(line, *store, event, &USER_WAYS, &mut when);
            when(done && *address == USER_END - 1, Case::TopAddress);
            when(event == Event::Refused(8), Case::UnmappedUser);
            let word_writes = line.mapped.map(|(_, write)| write);
            let refused_store = event == Event::Refused(9);
            when(refused_store && line.held(), Case::ReadOnlyRecord);
            when(refused_store && line.held() && word_writes == Some(true), Case::ReadOnlyRecordOnly);
            when(refused_store && !line.held(), Case::ReadOnlyWord);
            when(done && *store && line.held() && word_writes == Some(false), Case::StoreByRecord);
        }
        (Call::UserAccess { .. }, Before::Slot(word)) => {
            when(event == Event::Refused(6) && *word != 0, Case::SlotOutOfRange);
        }
        (Call::SupervisorAccess { store, global, .. }, Before::Line(line)) => {
            let ways = if matches!(line.kind, Kind::Cached(_)) { &PREFIX1_WAYS } else { &ORDINARY_WAYS };
            access_cases(line, *store, event, ways, &mut when);
            let (in_use, outside) = (event == Event::Refused(10), event == Event::Refused(12));
            let frame = frame_of(*global % PREFIX1);
            match line.kind {
                Kind::Ordinary => {
                    when(event == Event::Refused(8), Case::UnmappedSupervisor);
                    when(done && *global == PAGE_TABLE - 1, Case::TopOrdinary);
                    let read_only = line.mapped.is_some_and(|(_, write)| !write);
                    when(done && *store && read_only, Case::SupervisorReadOnly);
                }
                Kind::Cached(_) => {
                    when(done && *global == PREFIX1 + shape.frames * PAGE_BYTES - 1, Case::TopCached);
                    when(in_use && line.held(), Case::InUseHeld);
                    when(in_use && frame < shape.uncached, Case::InUseLow);
                    when(outside && frame < shape.uncached, Case::OutsidePrefix1Low);
                    when(outside && frame >= shape.frames, Case::OutsidePrefix1Beyond);
                    when(done && tag.0, Case::TaggedPrefix);
                }
                Kind::Uncached(_) => {
                    when(done && *global == shape.uncached * PAGE_BYTES - 1, Case::TopUncached);
                    when(done && !store, Case::UncachedLoad);
                    when(done && *store, Case::UncachedStore);
                    when(done && line.held(), Case::UncachedHeld);
                    when(done && tag.0, Case::TaggedPrefix);
                    when(outside, Case::OutsidePrefix0);
                }
                Kind::PageTable => {
                    when(outside, Case::OutsidePageTable);
                    when(outside && tag.0, Case::TaggedPageTable);
                }
            }
        }
        (Call::LoadAndMap { line: physical }, Before::Line(line)) => {
            let held = line.held();
            when(event == Event::Inserted { wrote_back: false }, Case::Inserted);
            when(event == Event::Inserted { wrote_back: true }, Case::InsertedWriteBack);
            when(event == Event::FoundHeld && !line.record.changed, Case::FoundHeld);
            when(event == Event::FoundHeld && line.record.changed, Case::FoundHeldChanged);
            when(event == Event::Refused(8) && held, Case::UnmappedHeld);
            when(event == Event::Refused(8) && !name_in_range(line.name), Case::FarTag);
            when(event == Event::Refused(13) && held, Case::OtherLineHeld);
            let low = *physical < LINES_PER_PAGE * shape.uncached;
            when(event == Event::Refused(13) && low, Case::OtherLineLow);
        }
        (Call::Attach { .. }, Before::Slot(word)) => when(done && *word != 0, Case::AttachReplaces),
        (Call::Detach { .. }, Before::Slot(word)) => when(done && *word == 0, Case::DetachEmpty),
        (Call::Map { .. }, Before::Page { word, .. }) => {
            if let Event::Mapped { by_page, by_prefix1 } = event {
                when(by_page == 0 && by_prefix1 == 0, Case::MapDropsNothing);
                when(by_page > 0, Case::MapDropsPage);
                when(by_prefix1 > 0, Case::MapDropsPrefix1);
                when(by_page > 0 && by_prefix1 > 0, Case::MapDropsBoth);
            }
            when(event == Event::Refused(10) && word % 2 == 0, Case::MapNoForm);
        }
        (Call::Unmap { page }, Before::Page { doubled, .. }) => {
            if let Event::Unmapped { written, dropped } = event {
                when(dropped == 0, Case::UnmapNoLines);
                when(written > 0, Case::UnmapWrites);
                when(dropped > written, Case::UnmapDropsClean);
                when(tag.0 && page_of_name(tag.1) == *page, Case::UnmapTagged);
                when(*doubled, Case::UnmapDoubled);
            }
        }
        (Call::Protect { .. }, Before::Page { doubled, .. }) => {
            when(event == Event::Protected { lines: 0 }, Case::ProtectNoLines);
            when(matches!(event, Event::Protected { lines: 1.. }), Case::ProtectLines);
            when(done && *doubled, Case::ProtectDoubled);
        }
        (Call::FlushAll, Before::Flush { far, twice, stray, beyond }) => {
            if let Event::Flushed { written, dropped } = event {
                when(dropped == 0, Case::FlushNothing);
                when(written > 0, Case::FlushWrites);
                when(dropped > written, Case::FlushDropsClean);
            }
            when(*far, Case::FlushWritesFar);
            when(*twice, Case::FlushWritesTwice);
            when(*stray, Case::FlushKeepsStray);
            when(*beyond, Case::FlushKeepsBeyond);
        }
        _ => {}
    }
    found
}

/// Hit, miss, miss with write-back.
type Ways = [Case; 3];
const USER_WAYS: Ways = [Case::UserHit, Case::UserMiss, Case::UserMissWriteBack];
const ORDINARY_WAYS: Ways = [Case::OrdinaryHit, Case::OrdinaryMiss, Case::OrdinaryMissWriteBack];
const PREFIX1_WAYS: Ways = [Case::Prefix1Hit, Case::Prefix1Miss, Case::Prefix1MissWriteBack];

fn access_cases(line: &Line, store: bool, event: Event, ways: &Ways, when: &mut impl FnMut(bool, Case)) {
    match event {
        Event::Hit => {
            let elsewhere = line.mapped.is_some_and(|(home, _)| home != line.record.line);
            when(true, ways[0]);
            when(true, if store { Case::StoreHit } else { Case::LoadHit });
            when(line.kind == Kind::Ordinary && line.mapped.is_none(), Case::HitUnmapped);
            when(elsewhere, Case::HitElsewhere);
            when(line.record.changed, Case::HitChanged);
        }
        Event::Miss | Event::MissWriteBack => {
            let written = event == Event::MissWriteBack;
            let Record { valid, changed, name, .. } = line.record;
            when(true, if written { ways[2] } else { ways[1] });
            when(true, if store { Case::StoreMiss } else { Case::LoadMiss });
            when(written && name >= NAMES_END, Case::MissWritesFar);
            when(written && line.equal, Case::MissWritesEqual);
            when(written && line.of_this_line(), Case::MissWritesOwn);
            // What nothing is written back of: a line that is not changed, and what would be one but for one thing.
            when(line.holds && !changed, Case::MissOverClean);
            when(changed && !valid && line.placed && line.inside, Case::MissOverInvalid);
            when(changed && valid && !line.placed && line.inside, Case::MissOverStray);
            when(changed && valid && line.placed && !line.inside, Case::MissOverBeyond);
            when(valid && name == line.name && !line.inside, Case::MissOwnName);
        }
        _ => {}
    }
}

/// The case of a look that is done: how many records hold the line.
pub fn look_cases(holders: usize) -> Vec<Case> {
    match holders {
        0 => vec![Case::LookInMemory],
        1 => vec![Case::LookInCache],
        _ => vec![Case::LookInCache, Case::LookLowest],
    }
}

/// The cases of how a call is brought, on the routes where it can be brought otherwise.
pub fn manner_cases(board: &Board, call: &Call, manner: &Manner) -> Vec<Case> {
    if manner.route == Route::Safe {
        return Vec::new();
    }
    let n = board.lengths();
    let has_uses = board.edition == Edition::Fours;
    let empty = [n.slots, n.words, n.records, n.cache, n.memory].contains(&0) || has_uses && n.uses == 0;
    let flag = match *call {
        Call::UserAccess { store, .. } | Call::SupervisorAccess { store, .. } => store && manner.route != Route::Board,
        Call::Attach { write, .. } | Call::Map { write, .. } | Call::Protect { write, .. } => write,
        _ => false,
    };
    let all = [
        (flag && manner.yes != 1, Case::OddFlag),
        (board.tag.0 && manner.yes != 1, Case::OddSet),
        (empty && manner.null, Case::EmptyNull),
        (empty && !manner.null, Case::EmptyPlaced),
    ];
    all.iter().filter(|(is, _)| *is).map(|&(_, case)| case).collect()
}
