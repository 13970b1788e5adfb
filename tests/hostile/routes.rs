//! The four routes to the library: the raw declarations of the Rust crate; the C header's functions over each number and
//! buffer, and those over a board (both by through.c); and the safe Rust crate. Each brings one call, one list or one look to
//! the board of `Real`, by the functions of its edition, or asks for the entry of a page, of no board.

use crate::guarded::{Guarded, Lists, Real};
use crate::limits::{set_lines, ACCESS_WORDS, FRAMES_MAX, HIT, LINES_MAX, LINE_BYTES, MATRIX_BYTES, PROCESSES_MAX};
use crate::lists::{Item, List};
use crate::{dump_routes, log_routes};
use model::{Answer, Call, Edition, Shape};
use oaledva::{ffi, Lent, Mark, Refusal};

#[derive(Clone, Copy, Debug, PartialEq, Eq)]
pub enum Route {
    Raw,
    Header,
    Board,
    Safe,
}

pub const ROUTES: [(Route, &str); 4] =
    [(Route::Raw, "raw"), (Route::Header, "header"), (Route::Board, "board"), (Route::Safe, "safe")];

/// How a call is brought.
#[derive(Clone, Copy, Debug, PartialEq, Eq)]
pub struct Manner {
    pub route: Route,
    /// The number that says yes, in flags and in the tag's set: anything but 0 (the safe route has its own, and so has the
    /// board's for stores).
    pub yes: u32,
    /// Empty buffers go as NULL (not on the safe route).
    pub null: bool,
}

impl Manner {
    pub fn flag(&self, is: bool) -> u32 {
        if is {
            self.yes
        } else {
            0
        }
    }

    /// Which of the header's functions it is brought by.
    pub fn way(&self, edition: Edition) -> Way {
        Way { sets: edition == Edition::Fours, by_board: self.route == Route::Board }
    }
}

/// A function of the raw declarations, on the shape and the buffers of a board, then the arguments: that of 01's edition, or that
/// of sets of four.
macro_rules! raw {
    ($edition:expr, $board:expr, $ones:ident / $fours:ident $(, $argument:expr)*) => {
        match $edition {
            Edition::Ones => raw!(@ $board, $ones $(, $argument)*),
            Edition::Fours => raw!(@ $board, $fours, $board.uses, $board.uses_length $(, $argument)*),
        }
    };
    (@ $board:expr, $name:ident $(, $argument:expr)*) => {
        ffi::$name(
            $board.common.frames,
            $board.common.uncached,
            $board.common.processes,
            $board.common.lines,
            $board.common.slots,
            $board.common.slots_length,
            $board.common.words,
            $board.common.words_length,
            $board.common.records,
            $board.common.records_length,
            $board.common.cache,
            $board.common.cache_length,
            $board.common.memory,
            $board.common.memory_length
            $(, $argument)*
        )
    };
}

pub(crate) use raw;

/// What a call gave: the answer, and its other forms where the route has them.
pub struct Told {
    pub answer: Answer,
    /// Whether it was a hit, 0 or 1: in C and by the safe crate.
    pub hit: Option<u32>,
    /// The answer as one number: in C.
    pub packed: Option<u64>,
}

impl Told {
    /// What disagrees with the answer. Packed, the value has bits 0 to 31, the mark 32 to 39, the number 56 to 63, and those
    /// between are 0.
    pub fn disagrees(&self) -> Option<String> {
        let mark = self.answer.mark;
        if let Some(hit) = self.hit.filter(|&hit| hit != u32::from(mark == HIT)) {
            return Some(format!("the mark is {mark}, and asked whether it was a hit the library says {hit}"));
        }
        let right = packed(&self.answer);
        let wrong = self.packed.filter(|&packed| packed != right)?;
        Some(format!("the answer packed is {wrong:#x}, and {right:#x} by its number, mark and value"))
    }
}

/// An answer as one number.
pub fn packed(answer: &Answer) -> u64 {
    u64::from(answer.number) << 56 | u64::from(answer.mark) << 32 | u64::from(answer.value)
}

/// What a look gave: the number where the route tells it, and where the bytes stand, with their length.
pub struct Looked {
    pub number: Option<u32>,
    pub bytes: Option<(*const u8, usize)>,
}

/// The mirror of `oaledva_board` in include/oaledva.h, its tag as the two words of it.
#[repr(C)]
#[derive(Clone, Copy, Debug, PartialEq, Eq)]
pub struct CCommon {
    pub frames: usize,
    pub uncached: usize,
    pub processes: usize,
    pub lines: usize,
    pub slots: *mut u32,
    pub slots_length: usize,
    pub words: *mut u64,
    pub words_length: usize,
    pub records: *mut u64,
    pub records_length: usize,
    pub cache: *mut u8,
    pub cache_length: usize,
    pub memory: *mut u8,
    pub memory_length: usize,
    pub set: u32,
    pub name: u64,
}

/// The mirror of `oaledva_sets_board`. A board of 01's edition is its common part.
#[repr(C)]
#[derive(Clone, Copy, Debug, PartialEq, Eq)]
pub struct CBoard {
    pub common: CCommon,
    uses: *mut ffi::Uses,
    uses_length: usize,
}

/// The mirror of `through_way` in through.c.
#[repr(C)]
#[derive(Clone, Copy)]
pub struct Way {
    sets: bool,
    by_board: bool,
}

impl CBoard {
    pub fn of(real: &mut Real, null: bool) -> CBoard {
        let common = CCommon::of(real, null);
        CBoard { common, uses: real.uses.pointer(null).cast(), uses_length: real.uses.len() / MATRIX_BYTES }
    }
}

impl CCommon {
    fn of(real: &mut Real, null: bool) -> CCommon {
        let (set, name) = real.tag();
        CCommon {
            frames: real.shape.frames as usize,
            uncached: real.shape.uncached as usize,
            processes: real.shape.processes as usize,
            lines: real.shape.lines as usize,
            slots: real.slots.pointer(null),
            slots_length: real.slots.len(),
            words: real.words.pointer(null),
            words_length: real.words.len(),
            records: real.records.pointer(null),
            records_length: real.records.len(),
            cache: real.cache.pointer(null),
            cache_length: real.cache.len(),
            memory: real.memory.pointer(null),
            memory_length: real.memory.len(),
            set,
            name,
        }
    }
}

#[repr(C)]
pub struct CAnswer {
    number: u32,
    mark: u32,
    value: u32,
    hit: u32,
    packed: u64,
}

#[repr(C)]
struct CEntry {
    number: u32,
    address: u64,
}

#[link(name = "through", kind = "static")]
extern "C" {
    fn through_board_bytes() -> usize;
    fn through_sets_board_bytes() -> usize;
    fn through_constants(constants: *mut [usize; CONSTANTS]);
    fn through_lengths(frames: usize, processes: usize, lines: usize, lengths: *mut [usize; 6]);
    fn through_user_access(
        b: *mut CBoard,
        way: Way,
        process: usize,
        store: u32,
        width: u32,
        at: u32,
        value: u32,
    ) -> CAnswer;
    fn through_supervisor_access(b: *mut CBoard, way: Way, store: u32, width: u32, address: u64, value: u32)
        -> CAnswer;
    fn through_attach(b: *mut CBoard, way: Way, process: usize, slot: usize, segment: u64, write: u32) -> CAnswer;
    fn through_detach(b: *mut CBoard, way: Way, process: usize, slot: usize) -> CAnswer;
    fn through_map(b: *mut CBoard, way: Way, page: u64, frame: usize, write: u32) -> CAnswer;
    fn through_unmap(b: *mut CBoard, way: Way, page: u64) -> CAnswer;
    fn through_protect(b: *mut CBoard, way: Way, page: u64, write: u32) -> CAnswer;
    fn through_move(b: *mut CBoard, way: Way, page: u64, new_page: u64) -> CAnswer;
    fn through_flush_all(b: *mut CBoard, way: Way) -> CAnswer;
    fn through_tag(b: *mut CBoard, way: Way, line: u64) -> CAnswer;
    fn through_load_and_map(b: *mut CBoard, way: Way, line: usize) -> CAnswer;
    fn through_drop_tag(b: *mut CBoard, way: Way) -> CAnswer;
    fn through_user_accesses(
        b: *mut CBoard,
        way: Way,
        accesses: *const u32,
        accesses_length: usize,
        answers: *mut u64,
        answers_length: usize,
    ) -> CAnswer;
    fn through_board_accesses(
        b: *mut CBoard,
        way: Way,
        accesses: *const ffi::Access,
        accesses_length: usize,
        answers: *mut u64,
        answers_length: usize,
    ) -> CAnswer;
    fn through_make_access(access: *mut ffi::Access, process: usize, store: bool, width: u32, address: u32, value: u32);
    fn through_access_words() -> usize;
    fn through_unpacked(packed: u64) -> CAnswer;
    fn through_look(b: *mut CBoard, way: Way, line: usize) -> *const u8;
    fn through_look_number(b: *mut CBoard, way: Way, line: usize) -> u32;
    fn through_entry_of_page(page: u64) -> CEntry;
}

/// How many of the header's names are compared.
const CONSTANTS: usize = 24;

/// The refusal numbers by the names of the Rust crate, from 1 to 13, and its marks, from 0 to 4; then the limits, how many words
/// an access has, and how many lines a set of four, by the documents.
fn constants() -> [usize; CONSTANTS] {
    let refusals = [
        Refusal::Shape,
        Refusal::Range,
        Refusal::Tag,
        Refusal::Alignment,
        Refusal::Kernel,
        Refusal::SlotEmpty,
        Refusal::SlotReadOnly,
        Refusal::NotMapped,
        Refusal::PageReadOnly,
        Refusal::FrameInUse,
        Refusal::MappedAlready,
        Refusal::Outside,
        Refusal::OtherLine,
    ];
    let marks = [Mark::NoAccess, Mark::Hit, Mark::Refilled, Mark::WroteBack, Mark::Uncached];
    let limits = [FRAMES_MAX, PROCESSES_MAX, LINES_MAX, LINE_BYTES, ACCESS_WORDS as u64, set_lines(Edition::Fours)];
    let numbers = refusals.map(Refusal::number).into_iter().chain(marks.map(Mark::number)).map(u64::from);
    let mut all = [0; CONSTANTS];
    for (constant, number) in all.iter_mut().zip(numbers.chain(limits)) {
        *constant = number as usize;
    }
    all
}

/// What the header says of sizes and numbers, against the mirror above and the model's fresh board. Gives what disagrees.
pub fn header_disagrees() -> Option<String> {
    let (theirs, ours) = (unsafe { through_board_bytes() }, std::mem::size_of::<CCommon>());
    if theirs != ours {
        return Some(format!("oaledva_board has {theirs} bytes, the test's mirror of it {ours}"));
    }
    let (theirs, ours) = (unsafe { through_sets_board_bytes() }, std::mem::size_of::<CBoard>());
    if theirs != ours {
        return Some(format!("oaledva_sets_board has {theirs} bytes, the test's mirror of it {ours}"));
    }
    let theirs = unsafe { through_access_words() };
    if theirs != ACCESS_WORDS || ffi::ACCESS_WORDS != ACCESS_WORDS {
        return Some(format!(
            "an access has {theirs} words in C, {} in Rust, {ACCESS_WORDS} by CR 12",
            ffi::ACCESS_WORDS
        ));
    }
    let (theirs, ours) = (oaledva::SET_LINES as u64, set_lines(Edition::Fours));
    if theirs != ours {
        return Some(format!("a set has {theirs} lines in Rust, {ours} by CR 4"));
    }
    let mut theirs = [0; CONSTANTS];
    unsafe { through_constants(&mut theirs) };
    let ours = constants();
    if theirs != ours {
        return Some(format!("the header's numbers, marks and limits are {theirs:?}, the documents' {ours:?}"));
    }
    if let Some(problem) = log_routes::header_disagrees().or_else(dump_routes::header_disagrees) {
        return Some(problem);
    }
    let shape = Shape { frames: 3, uncached: 1, processes: 2, lines: 8 };
    let fresh = model::Board::fresh_of(Edition::Fours, shape).lengths();
    let ours = [fresh.slots, fresh.words, fresh.records, fresh.cache, fresh.memory, fresh.uses];
    let ours = ours.map(|length| length as usize);
    let mut theirs = [0; 6];
    unsafe { through_lengths(3, 2, 8, &mut theirs) };
    (theirs != ours).then(|| format!("the header's lengths are {theirs:?}, the model's {ours:?}"))
}

/// Whether the safe route can carry the board's tag: it has no name where none is pending.
pub fn safe_can_carry(real: &Real) -> bool {
    let (set, name) = real.tag();
    set != 0 || name == 0
}

/// Brings a call. `Err` where the C side wrote where it may not: over its board's numbers, pointers or surroundings.
pub fn call(real: &mut Real, call: &Call, manner: &Manner) -> Result<Told, String> {
    match manner.route {
        Route::Raw => Ok(unsafe { raw_call(real, call, manner) }),
        Route::Header | Route::Board => caged(real, manner, |board, way| unsafe { c_call(board, way, call, manner) }),
        Route::Safe => Ok(safe_call(real, call)),
    }
}

/// Whether a route can carry a list: two take words, and two take whole accesses.
pub fn can_carry(route: Route, list: &List) -> bool {
    list.torn.is_empty() || matches!(route, Route::Raw | Route::Header)
}

/// A list's buffers, filled as the route has it: words as they are; or accesses, by the header's own functions and the safe
/// crate's where these can make them. `Err` where these make another.
pub fn lend(list: &List, route: Route) -> Result<Lists, String> {
    let words = list.words();
    let mut accesses = Guarded::holding(&words, list.offsets[0]);
    if matches!(route, Route::Board | Route::Safe) {
        let parts = accesses.inner_mut().chunks_exact_mut(ACCESS_WORDS);
        for (item, part) in list.items.iter().zip(parts).filter(|(item, _)| item.can_be_made()) {
            // Safety: the part has as many words as an access, and is aligned for words.
            unsafe { make(item, route, part.as_mut_ptr().cast()) };
        }
    }
    if let Some(at) = (0..words.len()).find(|&at| accesses.inner()[at] != words[at]) {
        let (index, word, made) = (at / ACCESS_WORDS, at % ACCESS_WORDS, accesses.inner()[at]);
        return Err(format!("word {word} of access {index} is made as {made:#x}, and should be {:#x}", words[at]));
    }
    Ok(Lists { accesses, answers: Guarded::holding(&list.before(), list.offsets[1]) })
}

unsafe fn make(item: &Item, route: Route, access: *mut ffi::Access) {
    let Item { process, store, width, address, value } = *item;
    let process = process as usize;
    match (route, store != 0) {
        (Route::Safe, true) => access.write(oaledva::Access::store(process, width, address, value)),
        (Route::Safe, false) => access.write(oaledva::Access::load(process, width, address)),
        (_, store) => through_make_access(access, process, store, width, address, value),
    }
}

/// Brings a list. `Err` as for a call.
pub fn list(real: &mut Real, lists: &mut Lists, manner: &Manner) -> Result<Told, String> {
    let (words, room) = (lists.accesses.len(), lists.answers.len());
    let (accesses, answers) = (lists.accesses.pointer(manner.null), lists.answers.pointer(manner.null));
    match manner.route {
        Route::Raw => {
            let b = CBoard::of(real, manner.null);
            let (set, name, answers) = (b.common.set, b.common.name, answers.cast());
            // Safety: the buffers are as long as is said, apart from each other and from the board's.
            let answer = unsafe {
                raw!(
                    real.edition,
                    b,
                    oaledva_user_accesses / oaledva_sets_user_accesses,
                    set,
                    name,
                    accesses,
                    words,
                    answers,
                    room
                )
            };
            Ok(Told { answer: answer_of(answer), hit: None, packed: None })
        }
        Route::Header => {
            let call = |board, way| unsafe { through_user_accesses(board, way, accesses, words, answers, room) };
            caged(real, manner, call).map(told_in_c)
        }
        Route::Board => {
            let count = words / ACCESS_WORDS;
            let call =
                |board, way| unsafe { through_board_accesses(board, way, accesses.cast(), count, answers, room) };
            caged(real, manner, call).map(told_in_c)
        }
        Route::Safe => {
            let count = words / ACCESS_WORDS;
            // Safety: as above; these types are words and answers without gaps. The safe route has no NULL.
            let (accesses, answers) = unsafe {
                let accesses = lists.accesses.pointer(false).cast::<oaledva::Access>();
                let answers = lists.answers.pointer(false).cast::<oaledva::Answer>();
                (std::slice::from_raw_parts(accesses, count), std::slice::from_raw_parts_mut(answers, room))
            };
            let mut board = lent(real);
            let done = board.accesses(accesses, answers).map(|()| 0);
            Ok(told_safely(done, board.mark(), board.hit()))
        }
    }
}

/// An answer of a list, as the route reads it.
pub fn told_of(packed: u64, route: Route) -> Told {
    // Safety: an answer is a number of 64 bits, whichever.
    let answer = unsafe { std::mem::transmute::<u64, oaledva::Answer>(packed) };
    let told = match route {
        Route::Raw => Told { answer: answer_of(answer), hit: None, packed: None },
        // Safety: it takes a number.
        Route::Header | Route::Board => told_in_c(unsafe { through_unpacked(packed) }),
        Route::Safe => {
            let mark = answer.marked();
            told_safely(answer.outcome(), mark, mark == Mark::Hit)
        }
    };
    Told { packed: Some(packed), ..told }
}

pub fn look(real: &mut Real, line: u64, manner: &Manner) -> Result<Looked, String> {
    let line = line as usize;
    match manner.route {
        Route::Raw => {
            let board = CBoard::of(real, manner.null);
            let place = unsafe { raw!(real.edition, board, oaledva_look / oaledva_sets_look, line) };
            let bytes = match place.stands() {
                ffi::Stands::InCache(at) => Some(board.common.cache.wrapping_add(at)),
                ffi::Stands::InMemory(at) => Some(board.common.memory.wrapping_add(at)),
                ffi::Stands::Nowhere => None,
            };
            Ok(Looked { number: None, bytes: bytes.map(|at| (at.cast_const(), oaledva::LINE_BYTES)) })
        }
        Route::Header | Route::Board => {
            let at = caged(real, manner, |board, way| unsafe { through_look(board, way, line) })?;
            Ok(Looked { number: None, bytes: (!at.is_null()).then_some((at, oaledva::LINE_BYTES)) })
        }
        Route::Safe => Ok(match lent(real).look(line) {
            Ok(bytes) => Looked { number: Some(0), bytes: Some((bytes.as_ptr(), bytes.len())) },
            Err(refusal) => Looked { number: Some(refusal.number()), bytes: None },
        }),
    }
}

pub fn look_number(real: &mut Real, line: u64, manner: &Manner) -> Result<u32, String> {
    let line = line as usize;
    match manner.route {
        Route::Raw => {
            let board = CBoard::of(real, manner.null);
            Ok(unsafe { raw!(real.edition, board, oaledva_look_number / oaledva_sets_look_number, line) }.number)
        }
        Route::Header | Route::Board => {
            caged(real, manner, |board, way| unsafe { through_look_number(board, way, line) })
        }
        Route::Safe => Ok(lent(real).look_number(line)),
    }
}

/// The entry of a page, as number and value. It asks no board, so the header's two routes are one.
pub fn entry(page: u64, route: Route) -> (u32, u64) {
    match route {
        Route::Raw => {
            let entry = unsafe { ffi::oaledva_entry_of_page(page) };
            (entry.number(), entry.address())
        }
        Route::Header | Route::Board => {
            let entry = unsafe { through_entry_of_page(page) };
            (entry.number, entry.address)
        }
        Route::Safe => match oaledva::entry_of_page(page) {
            Ok(address) => (0, address),
            Err(refusal) => (refusal.number(), 0),
        },
    }
}

// ----- raw -----

unsafe fn raw_call(real: &mut Real, call: &Call, manner: &Manner) -> Told {
    let b = CBoard::of(real, manner.null);
    let (set, name) = (real.set.pointer(false), real.name.pointer(false));
    let (pending, pending_name) = (b.common.set, b.common.name);
    let kind = |store| ffi::Kind { store: manner.flag(store) };
    let permission = |write| ffi::Permission { write: manner.flag(write) };
    /// The functions of this name in either edition.
    macro_rules! of {
        ($ones:ident / $fours:ident $(, $argument:expr)*) => { raw!(real.edition, b, $ones / $fours $(, $argument)*) };
    }
    let answer = match *call {
        Call::UserAccess { process, store, width, address, value } => {
            let (process, kind) = (process as usize, kind(store));
            of!(
                oaledva_user_access / oaledva_sets_user_access,
                pending,
                pending_name,
                process,
                kind,
                width,
                address,
                value
            )
        }
        Call::SupervisorAccess { store, width, global, value } => {
            let kind = kind(store);
            of!(
                oaledva_supervisor_access / oaledva_sets_supervisor_access,
                pending,
                pending_name,
                kind,
                width,
                global,
                value
            )
        }
        Call::Attach { process, slot, segment, write } => {
            let (process, slot) = (process as usize, slot as usize);
            of!(oaledva_attach / oaledva_sets_attach, process, slot, segment, permission(write))
        }
        Call::Detach { process, slot } => {
            of!(oaledva_detach / oaledva_sets_detach, process as usize, slot as usize)
        }
        Call::Map { page, frame, write } => {
            of!(oaledva_map / oaledva_sets_map, page, frame as usize, permission(write))
        }
        Call::Unmap { page } => of!(oaledva_unmap / oaledva_sets_unmap, page),
        Call::Protect { page, write } => of!(oaledva_protect / oaledva_sets_protect, page, permission(write)),
        Call::Move { page, new_page } => of!(oaledva_move / oaledva_sets_move, page, new_page),
        Call::FlushAll => of!(oaledva_flush_all / oaledva_sets_flush_all),
        Call::Tag { name: line } => of!(oaledva_tag / oaledva_sets_tag, set, name, line),
        Call::LoadAndMap { line } => {
            of!(oaledva_load_and_map / oaledva_sets_load_and_map, set, name, line as usize)
        }
        Call::DropTag => of!(oaledva_drop_tag / oaledva_sets_drop_tag, set, name),
    };
    Told { answer: answer_of(answer), hit: None, packed: None }
}

fn answer_of(answer: ffi::Answer) -> Answer {
    Answer { number: answer.number(), mark: answer.mark(), value: answer.value() }
}

// ----- through C -----

pub fn told_in_c(CAnswer { number, mark, value, hit, packed }: CAnswer) -> Told {
    Told { answer: Answer { number, mark, value }, hit: Some(hit), packed: Some(packed) }
}

/// A board for C between canaries.
#[repr(C)]
struct Cage {
    front: [u64; 8],
    board: CBoard,
    back: [u64; 8],
}

const BARS: [u64; 8] = [0xC0DE_CAFE_5EED_F00D; 8];

impl Cage {
    /// Nothing but the tag was written since it held this board.
    fn check(&self, before: &CBoard) -> Result<(), String> {
        if self.front != BARS || self.back != BARS {
            return Err("bytes around the C board were written".into());
        }
        let tagless = |board: &CBoard| CBoard { common: CCommon { set: 0, name: 0, ..board.common }, ..*board };
        if tagless(&self.board) != tagless(before) {
            return Err("the C board's numbers, pointers or lengths were written".into());
        }
        Ok(())
    }
}

/// Lends C a board in a cage, and takes its tag back.
pub fn caged<T>(real: &mut Real, manner: &Manner, call: impl FnOnce(*mut CBoard, Way) -> T) -> Result<T, String> {
    let before = CBoard::of(real, manner.null);
    let mut cage = Cage { front: BARS, board: before, back: BARS };
    let result = call(&mut cage.board, manner.way(real.edition));
    real.set_tag(cage.board.common.set, cage.board.common.name);
    cage.check(&before).map(|()| result)
}

/// For the self-test: whether the cage shows what was written, and the tag's words alone are free.
pub fn cage_shows(real: &mut Real) -> bool {
    let board = CBoard::of(real, false);
    let shows = |edit: fn(&mut Cage)| {
        let mut cage = Cage { front: BARS, board, back: BARS };
        edit(&mut cage);
        cage.check(&board).is_err()
    };
    shows(|cage| cage.front[7] ^= 1)
        && shows(|cage| cage.back[0] ^= 1)
        && shows(|cage| cage.board.common.lines += 1)
        && shows(|cage| cage.board.common.memory_length += 1)
        && shows(|cage| cage.board.uses = cage.board.uses.wrapping_add(1))
        && shows(|cage| cage.board.uses_length += 1)
        && !shows(|cage| cage.board.common.name ^= 1)
}

unsafe fn c_call(b: *mut CBoard, way: Way, call: &Call, manner: &Manner) -> Told {
    told_in_c(match *call {
        Call::UserAccess { process, store, width, address, value } => {
            through_user_access(b, way, process as usize, manner.flag(store), width, address, value)
        }
        Call::SupervisorAccess { store, width, global, value } => {
            through_supervisor_access(b, way, manner.flag(store), width, global, value)
        }
        Call::Attach { process, slot, segment, write } => {
            through_attach(b, way, process as usize, slot as usize, segment, manner.flag(write))
        }
        Call::Detach { process, slot } => through_detach(b, way, process as usize, slot as usize),
        Call::Map { page, frame, write } => through_map(b, way, page, frame as usize, manner.flag(write)),
        Call::Unmap { page } => through_unmap(b, way, page),
        Call::Protect { page, write } => through_protect(b, way, page, manner.flag(write)),
        Call::Move { page, new_page } => through_move(b, way, page, new_page),
        Call::FlushAll => through_flush_all(b, way),
        Call::Tag { name } => through_tag(b, way, name),
        Call::LoadAndMap { line } => through_load_and_map(b, way, line as usize),
        Call::DropTag => through_drop_tag(b, way),
    })
}

// ----- the safe crate -----

pub fn lent(real: &mut Real) -> Lent<'_> {
    let (set, name) = real.tag();
    let shape = oaledva::Shape {
        frames: real.shape.frames as usize,
        uncached: real.shape.uncached as usize,
        processes: real.shape.processes as usize,
        lines: real.shape.lines as usize,
    };
    let (slots, words, records) = (real.slots.inner_mut(), real.words.inner_mut(), real.records.inner_mut());
    let (cache, memory, pending) = (real.cache.inner_mut(), real.memory.inner_mut(), (set != 0).then_some(name));
    match real.edition {
        Edition::Ones => Lent::over(shape, slots, words, records, cache, memory, pending),
        Edition::Fours => {
            let (count, uses) = (real.uses.len() / MATRIX_BYTES, real.uses.inner_mut().as_mut_ptr().cast());
            // Safety: the bytes of so many matrices, which have no alignment, borrowed with the board.
            let uses = unsafe { std::slice::from_raw_parts_mut(uses, count) };
            Lent::over_sets_of_four(shape, slots, words, records, cache, memory, uses, pending)
        }
    }
}

fn safe_call(real: &mut Real, call: &Call) -> Told {
    let mut board = lent(real);
    let done: Result<u32, Refusal> = match *call {
        Call::UserAccess { process, store: false, width, address, .. } => board.load(process as usize, width, address),
        Call::UserAccess { process, store: true, width, address, value } => {
            board.store(process as usize, width, address, value).map(|()| 0)
        }
        Call::SupervisorAccess { store: false, width, global, .. } => board.supervisor_load(width, global),
        Call::SupervisorAccess { store: true, width, global, value } => {
            board.supervisor_store(width, global, value).map(|()| 0)
        }
        Call::Attach { process, slot, segment, write } => {
            board.attach(process as usize, slot as usize, segment, write).map(|()| 0)
        }
        Call::Detach { process, slot } => board.detach(process as usize, slot as usize).map(|()| 0),
        Call::Map { page, frame, write } => board.map(page, frame as usize, write).map(|()| 0),
        Call::Unmap { page } => board.unmap(page).map(|()| 0),
        Call::Protect { page, write } => board.protect(page, write).map(|()| 0),
        Call::Move { page, new_page } => board.move_page(page, new_page).map(|()| 0),
        Call::FlushAll => board.flush_all().map(|()| 0),
        Call::Tag { name } => board.tag(name).map(|()| 0),
        Call::LoadAndMap { line } => board.load_and_map(line as usize).map(|()| 0),
        Call::DropTag => board.drop_tag().map(|()| 0),
    };
    let (mark, hit, pending) = (board.mark(), board.hit(), board.pending());
    if matches!(call, Call::Tag { .. } | Call::LoadAndMap { .. } | Call::DropTag) {
        real.set_tag(u32::from(pending.is_some()), pending.unwrap_or(0));
    }
    told_safely(done, mark, hit)
}

pub fn told_safely(done: Result<u32, Refusal>, mark: Mark, hit: bool) -> Told {
    let (number, value) = done.map_or_else(|refusal| (refusal.number(), 0), |value| (0, value));
    Told { answer: Answer { number, mark: mark.number(), value }, hit: Some(hit.into()), packed: None }
}
