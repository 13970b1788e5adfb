//! An executable model of 01 (the scope document), of the change requests to it and of the readings in docs/DECISIONS.md,
//! written from those alone. A test oracle: clear and exact, not fast. Quotations are 01's, or a request's where it is named;
//! "decided" marks a reading.
//!
//! * [`Board`]  the machine with its cache, in either [`Edition`]: what the two share is written once, over the number of lines
//!   in a set. [`Board::step`] also gives the [`Event`] for coverage; [`Board::list`], which does many user accesses, gives one
//!   for each.
//! * [`Plain`]  the machine without a cache.
//! * [`log`]    the log of calls (CR 1); [`samples`] makes the sample logs of `examples/logs`.
//! * [`dump`]   a dumped board of 01's edition, checked and repaired (CR 13).
//! * [`order`]  strangers, and the orders of a run that they cannot tell apart (CR 14).
//!
//! Form of each call: first the questions, by rising number (`ask(n, refused_if)?`), none of
//! which changes anything; only then the changes. So "the lowest that applies is given" and
//! "no byte, record or tag changed" can be read off the text.

pub mod dump;
pub mod log;
pub mod order;
pub mod samples;

// ---------------------------------------------------------------------------------------------
// The numbers of 01
// ---------------------------------------------------------------------------------------------

pub const PAGE_BYTES: u64 = 4096;
pub const LINE_BYTES: u64 = 16;
pub const LINES_PER_PAGE: u64 = 256;
pub const SLOTS: u64 = 512;
pub const SEGMENT_SPAN: u64 = 1 << 22;
pub const GLOBAL_END: u64 = 1 << 44;
/// "Users have slots 0 to 511; effective addresses from 2^31 up are the kernel's."
pub const USER_END: u32 = 1 << 31;
/// "A segment that may be attached runs from 2048 to 4,190,207."
pub const SEGMENT_FIRST: u64 = 2048;
pub const SEGMENT_LAST: u64 = 4_190_207;
/// "Map, unmap and protect take ordinary pages only, 0x200000 to 0xFFBFFFFF." So does move (CR 9).
pub const PAGE_FIRST: u64 = 0x20_0000;
pub const PAGE_LAST: u64 = 0xFFBF_FFFF;
/// "F frames of 4096 bytes, 1 to 1,048,576."
pub const FRAMES_MAX: u64 = 1_048_576;
/// CR 7: "L goes to 65,536 and P to 64."
pub const PROCESSES_MAX: u64 = 64;
pub const LINES_MAX: u64 = 65_536;

// ---------------------------------------------------------------------------------------------
// Addresses
// ---------------------------------------------------------------------------------------------

/// "Slot = effective / 2^22"
pub fn slot_of(effective: u32) -> u64 {
    u64::from(effective) / SEGMENT_SPAN
}

/// "offset = effective mod 2^22"
pub fn offset_of(effective: u32) -> u64 {
    u64::from(effective) % SEGMENT_SPAN
}

/// "Global = segment × 2^22 + offset. A segment has 22 bits." (Asked only with such a segment.)
pub fn global_of(segment: u64, offset: u64) -> u64 {
    segment * SEGMENT_SPAN + offset
}

/// "Page = global / 4096 (32 bits)."
pub fn page_of(global: u64) -> u64 {
    global / PAGE_BYTES
}

/// "Line name = global / 16 (40 bits)."
pub fn name_of(global: u64) -> u64 {
    global / LINE_BYTES
}

/// "line names of such pages only (name / 256)": the page in which a name lies.
pub fn page_of_name(name: u64) -> u64 {
    name / LINES_PER_PAGE
}

/// "Physical line = physical / 16."
pub fn physical_line_of(physical: u64) -> u64 {
    physical / LINE_BYTES
}

/// The frame in which a physical address lies: frames have 4096 bytes.
pub fn frame_of(physical: u64) -> u64 {
    physical / PAGE_BYTES
}

/// "The entry for a page stands at 1023 × 2^34 + 4 × page." By CR 5, "pages below 0x200000 lie under prefixes 0 and 1 and are
/// never translated. Asking for their entry is now refused with 2." So is asking for that of a page from 2^32 up: a page has 32
/// bits. It asks no board. Gives the number and the value, 0 where it is refused.
pub fn entry_of(page: u64) -> (u32, u64) {
    if page < 0x20_0000 || page >= 1 << 32 {
        return (2, 0);
    }
    (0, 1023 * (1 << 34) + 4 * page)
}

#[derive(Clone, Copy, Debug, PartialEq, Eq)]
pub enum Kind {
    /// "Prefix 0: uncached physical." With the physical address.
    Uncached(u64),
    /// "Prefix 1: cached physical." With the physical address.
    Cached(u64),
    PageTable,
    Ordinary,
}

/// "Prefix = global / 2^32. Prefix 0: uncached physical. Prefix 1: cached physical. In both the
/// physical address is global mod 2^32. If global / 2^34 = 1023: page table region. All else is
/// ordinary." Asked only of addresses below 2^44.
pub fn kind_of(global: u64) -> Kind {
    let physical = global % (1 << 32);
    match global / (1 << 32) {
        0 => Kind::Uncached(physical),
        1 => Kind::Cached(physical),
        _ if global / (1 << 34) == 1023 => Kind::PageTable,
        _ => Kind::Ordinary,
    }
}

/// The page number of a frame's prefix 1 range: global 2^32 + 4096 × frame, as a page.
pub fn prefix1_page(frame: u64) -> u64 {
    (1 << 20) + frame
}

/// "A segment that may be attached runs from 2048 to 4,190,207."
pub fn segment_in_range(segment: u64) -> bool {
    (SEGMENT_FIRST..=SEGMENT_LAST).contains(&segment)
}

/// "ordinary pages only, 0x200000 to 0xFFBFFFFF"
pub fn page_in_range(page: u64) -> bool {
    (PAGE_FIRST..=PAGE_LAST).contains(&page)
}

/// "Tag takes line names of such pages only (name / 256)". Decided: the rule stands, so the
/// last name is 0xFFBFFFFFFF.
pub fn name_in_range(name: u64) -> bool {
    page_in_range(page_of_name(name))
}

fn is_width(width: u32) -> bool {
    matches!(width, 1 | 2 | 4)
}

/// Number 4: "width not 1, 2 or 4, or address no multiple of it".
pub fn width_refused(width: u32, address: u64) -> bool {
    !(is_width(width) && address % u64::from(width) == 0)
}

/// CR 2: "a store whose value is 256^width or more is refused with 2. For a bad width this isn't asked and 4 stands."
/// Decided: an address that is no multiple of the width doesn't excuse the value.
pub fn value_refused(store: bool, width: u32, value: u32) -> bool {
    store && is_width(width) && u64::from(value) >= 256u64.pow(width)
}

// ---------------------------------------------------------------------------------------------
// Editions
// ---------------------------------------------------------------------------------------------

/// The editions of the cache: 01's, with one line to a place, which is a set of one here; and CR 4's, "with sets of four".
#[derive(Clone, Copy, Debug, PartialEq, Eq)]
pub enum Edition {
    Ones,
    Fours,
}

/// How many lines a set of CR 4's edition has.
const FOUR: usize = 4;

/// "a four by four matrix of who was used after whom, one row to each line": row a has a one in column b if line a was used
/// after line b. Decided: an entry that is not 0 is a one.
pub type Matrix = [[u8; FOUR]; FOUR];

/// "0 when fresh".
pub const FRESH_MATRIX: Matrix = [[0; FOUR]; FOUR];

impl Edition {
    pub const ALL: [Edition; 2] = [Edition::Ones, Edition::Fours];

    /// What the editions differ in.
    pub fn lines_in_set(self) -> u64 {
        match self {
            Edition::Ones => 1,
            Edition::Fours => FOUR as u64,
        }
    }

    /// "The set keeps a four by four matrix": so many with this number of lines. Sets of one keep none.
    pub fn matrices(self, lines: u64) -> u64 {
        match self {
            Edition::Ones => 0,
            Edition::Fours => lines / self.lines_in_set(),
        }
    }
}

/// A use of a line: "sets the line's row and then clears its column". So the diagonal is 0.
pub fn used(matrix: &Matrix, line: usize) -> Matrix {
    let mut after = *matrix;
    after[line] = [1; FOUR];
    for row in &mut after {
        row[line] = 0;
    }
    after
}

/// How many ones a row has.
pub fn ones(row: &[u8; FOUR]) -> usize {
    row.iter().filter(|&&entry| entry != 0).count()
}

// ---------------------------------------------------------------------------------------------
// Shape and number 1
// ---------------------------------------------------------------------------------------------

#[derive(Clone, Copy, Debug, PartialEq, Eq)]
pub struct Shape {
    pub frames: u64,
    pub uncached: u64,
    pub processes: u64,
    pub lines: u64,
}

/// F, P and L from 1 to their limits, "Frames below U (0 to F)", "and L must have exactly one bit set." By CR 4, "L below 4
/// gives 1" where sets have four lines: there is a set at least.
pub fn limits_hold(edition: Edition, s: &Shape) -> bool {
    (1..=FRAMES_MAX).contains(&s.frames)
        && s.uncached <= s.frames
        && (1..=PROCESSES_MAX).contains(&s.processes)
        && (edition.lines_in_set()..=LINES_MAX).contains(&s.lines)
        && s.lines.count_ones() == 1
}

#[derive(Clone, Copy, Debug, PartialEq, Eq)]
pub struct Lengths {
    pub slots: u64,
    pub words: u64,
    pub records: u64,
    pub cache: u64,
    pub memory: u64,
    /// In matrices.
    pub uses: u64,
}

/// The contrary of number 1: "buffer lengths or F, U, P, L disagree or are out of limits".
/// The limits come first, so the products below are small. Decided: the matrices' length counts as the other buffers' do.
pub fn shape_fits(edition: Edition, s: &Shape, n: &Lengths) -> bool {
    limits_hold(edition, s)
        && n.slots == SLOTS * s.processes
        && n.words == s.frames
        && n.records == 2 * s.lines
        && n.cache == LINE_BYTES * s.lines
        && n.memory == PAGE_BYTES * s.frames
        && n.uses == edition.matrices(s.lines)
}

// ---------------------------------------------------------------------------------------------
// Slots and frame words
// ---------------------------------------------------------------------------------------------

/// A slot word: "0, or segment × 2 + write bit ... A word with a segment outside the range above
/// counts as empty." Gives segment and write bit.
pub fn slot_read(word: u32) -> Option<(u64, bool)> {
    let segment = u64::from(word / 2);
    segment_in_range(segment).then_some((segment, word % 2 == 1))
}

/// "segment × 2 + write bit", for a segment in range (22 bits, so it fits).
pub fn slot_word(segment: u64, write: bool) -> u32 {
    (segment * 2 + u64::from(write)) as u32
}

/// "page × 4 + 2 × write bit + 1", for a page of 32 bits.
pub fn frame_word(page: u64, write: bool) -> u64 {
    page * 4 + 2 * u64::from(write) + 1
}

/// "An ordinary page is mapped to the lowest frame from U up whose word is exactly page × 4 + 1 or
/// page × 4 + 3. A word of no such form is not free and names nothing." Decided: a word of the
/// exact form for a page that is not ordinary, or in a frame below U, maps nothing.
/// Gives frame and write bit.
pub fn mapping(shape: &Shape, words: &[u64], page: u64) -> Option<(u64, bool)> {
    if !page_in_range(page) {
        return None;
    }
    (shape.uncached..shape.frames).find_map(|frame| {
        let word = words[frame as usize];
        [false, true].into_iter().find(|&write| word == frame_word(page, write)).map(|write| (frame, write))
    })
}

// ---------------------------------------------------------------------------------------------
// Bytes
// ---------------------------------------------------------------------------------------------

/// "Numbers are stored with the most significant byte first."
fn load_bytes(bytes: &[u8]) -> u32 {
    bytes.iter().fold(0, |n, &b| (n << 8) | u32::from(b))
}

/// The value's bytes, most significant first. Asked only with a value that fits.
fn store_bytes(bytes: &mut [u8], value: u32) {
    let all = value.to_be_bytes();
    let (above, own) = all.split_at(4 - bytes.len());
    assert!(above.iter().all(|&byte| byte == 0), "number 2 has been asked");
    bytes.copy_from_slice(own);
}

/// Does the load or the store on `width` bytes from `at`; the value is 0 for a store.
fn transfer(bytes: &mut [u8], at: u64, store: bool, width: u32, value: u32) -> u32 {
    let part = &mut bytes[at as usize..(at + u64::from(width)) as usize];
    if store {
        store_bytes(part, value);
        0
    } else {
        load_bytes(part)
    }
}

fn line_range(line: u64) -> std::ops::Range<usize> {
    (line * LINE_BYTES) as usize..((line + 1) * LINE_BYTES) as usize
}

fn frame_range(frame: u64) -> std::ops::Range<usize> {
    (frame * PAGE_BYTES) as usize..((frame + 1) * PAGE_BYTES) as usize
}

// ---------------------------------------------------------------------------------------------
// Records
// ---------------------------------------------------------------------------------------------

/// "Each line has a record: valid, name, physical line, changed, write permission."
/// Two words: the name; physical_line × 8 + changed × 4 + write × 2 + valid.
#[derive(Clone, Copy, Debug, PartialEq, Eq)]
pub struct Record {
    pub name: u64,
    pub line: u64,
    pub changed: bool,
    pub write: bool,
    pub valid: bool,
}

impl Record {
    pub fn decode(name: u64, second: u64) -> Record {
        Record {
            name,
            line: second / 8,
            changed: second / 4 % 2 == 1,
            write: second / 2 % 2 == 1,
            valid: second % 2 == 1,
        }
    }

    /// The line must have at most 61 bits, as every decoded and every physical line has.
    pub fn encode(&self) -> (u64, u64) {
        let bits = u64::from(self.changed) * 4 + u64::from(self.write) * 2 + u64::from(self.valid);
        (self.name, self.line * 8 + bits)
    }
}

/// "Its place is name mod L", and by CR 4 "name mod (L / 4)": by the number of sets, as many as there are places. (That is at
/// least 1 once number 1 has been asked.)
pub fn place_of(name: u64, sets: u64) -> u64 {
    name % sets
}

// ---------------------------------------------------------------------------------------------
// Calls, answers, events
// ---------------------------------------------------------------------------------------------

#[derive(Clone, Copy, Debug, PartialEq, Eq)]
pub enum Call {
    UserAccess { process: u64, store: bool, width: u32, address: u32, value: u32 },
    SupervisorAccess { store: bool, width: u32, global: u64, value: u32 },
    Attach { process: u64, slot: u64, segment: u64, write: bool },
    Detach { process: u64, slot: u64 },
    Map { page: u64, frame: u64, write: bool },
    Unmap { page: u64 },
    Protect { page: u64, write: bool },
    Move { page: u64, new_page: u64 },
    FlushAll,
    Tag { name: u64 },
    LoadAndMap { line: u64 },
    DropTag,
}

/// A list (CR 12) has so many words of 32 bits for each access, in 01's order: "process, load or store, width, effective
/// address, value". Of the second, 0 is a load and anything else a store.
pub const ACCESS_WORDS: usize = 5;

/// The single call that an access of a list is.
pub fn call_of(words: &[u32; ACCESS_WORDS]) -> Call {
    let [process, store, width, address, value] = *words;
    Call::UserAccess { process: process.into(), store: store != 0, width, address, value }
}

/// The single calls of a list, in its order. Asked only of a list that fits its answers.
fn calls_of(list: &[u32]) -> impl Iterator<Item = Call> + '_ {
    list.chunks_exact(ACCESS_WORDS).map(|words| call_of(words.try_into().expect("five words")))
}

/// "short or long lists and answer buffers that don't match get a number": the contrary. Five words for each answer, no more and
/// no fewer.
pub fn list_fits(words: usize, answers: usize) -> bool {
    words % ACCESS_WORDS == 0 && words / ACCESS_WORDS == answers
}

/// The marks, by CR 8: "0 refused or not an access, 1 hit, 2 refilled without a write-back, 3 refilled with one in that call, 4
/// uncached."
pub mod mark {
    pub const NO_ACCESS: u32 = 0;
    pub const HIT: u32 = 1;
    pub const REFILLED: u32 = 2;
    pub const WROTE_BACK: u32 = 3;
    pub const UNCACHED: u32 = 4;
}

/// "Each answer is a number, a value (0 for stores, refusals and all non-access calls) and a hit mark": one of [`mark`].
#[derive(Clone, Copy, Debug, PartialEq, Eq)]
pub struct Answer {
    pub number: u32,
    pub value: u32,
    pub mark: u32,
}

/// The plain machine's answer: it has no cache, and so no mark.
#[derive(Clone, Copy, Debug, PartialEq, Eq)]
pub struct PlainAnswer {
    pub number: u32,
    pub value: u32,
}

/// What a call of the board did, for a test's coverage.
#[derive(Clone, Copy, Debug, PartialEq, Eq)]
pub enum Event {
    Refused(u32),
    /// Access (user, supervisor ordinary, prefix 1): the line was held.
    Hit,
    /// Access: filled, nothing written back.
    Miss,
    /// Access: the old line there was held and changed, so written back, then filled.
    MissWriteBack,
    /// Prefix 0 access.
    Uncached,
    /// Load-and-map filled the line; whether the old one was written back.
    Inserted {
        wrote_back: bool,
    },
    /// Load-and-map found the line held and only cleared the tag.
    FoundHeld,
    /// Map: held lines dropped by the page's names, and by the frame's prefix 1 names.
    Mapped {
        by_page: u64,
        by_prefix1: u64,
    },
    /// Unmap: lines written back, lines dropped (written back ones included).
    Unmapped {
        written: u64,
        dropped: u64,
    },
    /// Flush all: likewise.
    Flushed {
        written: u64,
        dropped: u64,
    },
    /// Protect: held lines given the new permission.
    Protected {
        lines: u64,
    },
    /// Move: lines written back and lines dropped (written back ones included) by the old page's names, and by the new one's.
    Moved {
        old_written: u64,
        old_dropped: u64,
        new_written: u64,
        new_dropped: u64,
    },
    /// Attach, detach, tag, drop tag: done.
    Done,
}

impl Event {
    /// The mark of a call that did this. Decided: load-and-map is no access, whatever it refills or writes back.
    fn mark(self) -> u32 {
        match self {
            Event::Hit => mark::HIT,
            Event::Miss => mark::REFILLED,
            Event::MissWriteBack => mark::WROTE_BACK,
            Event::Uncached => mark::UNCACHED,
            Event::Refused(_) | Event::Inserted { .. } | Event::FoundHeld => mark::NO_ACCESS,
            Event::Mapped { .. } | Event::Unmapped { .. } | Event::Flushed { .. } => mark::NO_ACCESS,
            Event::Protected { .. } | Event::Moved { .. } | Event::Done => mark::NO_ACCESS,
        }
    }
}

/// Each call by its name, on the board and on the plain machine.
pub trait Machine {
    type Answer;

    fn make(&mut self, call: Call) -> Self::Answer;

    fn user_access(&mut self, process: u64, store: bool, width: u32, address: u32, value: u32) -> Self::Answer {
        self.make(Call::UserAccess { process, store, width, address, value })
    }
    fn supervisor_access(&mut self, store: bool, width: u32, global: u64, value: u32) -> Self::Answer {
        self.make(Call::SupervisorAccess { store, width, global, value })
    }
    fn attach(&mut self, process: u64, slot: u64, segment: u64, write: bool) -> Self::Answer {
        self.make(Call::Attach { process, slot, segment, write })
    }
    fn detach(&mut self, process: u64, slot: u64) -> Self::Answer {
        self.make(Call::Detach { process, slot })
    }
    fn map(&mut self, page: u64, frame: u64, write: bool) -> Self::Answer {
        self.make(Call::Map { page, frame, write })
    }
    fn unmap(&mut self, page: u64) -> Self::Answer {
        self.make(Call::Unmap { page })
    }
    fn protect(&mut self, page: u64, write: bool) -> Self::Answer {
        self.make(Call::Protect { page, write })
    }
    fn move_page(&mut self, page: u64, new_page: u64) -> Self::Answer {
        self.make(Call::Move { page, new_page })
    }
    fn flush_all(&mut self) -> Self::Answer {
        self.make(Call::FlushAll)
    }
    fn tag(&mut self, name: u64) -> Self::Answer {
        self.make(Call::Tag { name })
    }
    fn load_and_map(&mut self, line: u64) -> Self::Answer {
        self.make(Call::LoadAndMap { line })
    }
    fn drop_tag(&mut self) -> Self::Answer {
        self.make(Call::DropTag)
    }
    /// A list of user accesses: words in, answers out.
    fn user_accesses(&mut self, accesses: &[u32], answers: &mut [Self::Answer]) -> Self::Answer;
}

impl Machine for Board {
    type Answer = Answer;

    fn make(&mut self, call: Call) -> Answer {
        self.step(&call).0
    }

    fn user_accesses(&mut self, accesses: &[u32], answers: &mut [Answer]) -> Answer {
        self.list(accesses, answers).0
    }
}

impl Machine for Plain {
    type Answer = PlainAnswer;

    fn make(&mut self, call: Call) -> PlainAnswer {
        self.step(&call)
    }

    fn user_accesses(&mut self, accesses: &[u32], answers: &mut [PlainAnswer]) -> PlainAnswer {
        self.list(accesses, answers)
    }
}

/// A question of the refusal table: number `number` if `refused`.
fn ask(number: u32, refused: bool) -> Result<(), u32> {
    if refused {
        Err(number)
    } else {
        Ok(())
    }
}

/// "0 for stores ... and all non-access calls": value and event of a call that is done.
type Outcome = Result<(u32, Event), u32>;

// ---------------------------------------------------------------------------------------------
// The board
// ---------------------------------------------------------------------------------------------

#[derive(Clone, Debug, PartialEq, Eq)]
pub struct Board {
    pub edition: Edition,
    pub shape: Shape,
    /// 512 for each process.
    pub slots: Vec<u32>,
    /// One for each frame.
    pub words: Vec<u64>,
    /// Two for each line.
    pub records: Vec<u64>,
    /// 16 for each line.
    pub cache: Vec<u8>,
    /// 4096 for each frame.
    pub memory: Vec<u8>,
    /// One for each set of four: none in 01's edition.
    pub uses: Vec<Matrix>,
    /// Pending or not, and the line name. If not pending the name means nothing.
    pub tag: (bool, u64),
}

impl Board {
    /// A fresh board of 01's edition.
    pub fn fresh(shape: Shape) -> Board {
        Board::fresh_of(Edition::Ones, shape)
    }

    /// "Fresh: slots and frame words 0, records not valid, nothing pending, memory any bytes" (here
    /// 0). Lengths agree with the shape, which isn't checked: meant for shapes of moderate size.
    pub fn fresh_of(edition: Edition, shape: Shape) -> Board {
        Board {
            edition,
            shape,
            slots: vec![0; (SLOTS * shape.processes) as usize],
            words: vec![0; shape.frames as usize],
            records: vec![0; (2 * shape.lines) as usize],
            cache: vec![0; (LINE_BYTES * shape.lines) as usize],
            memory: vec![0; (PAGE_BYTES * shape.frames) as usize],
            uses: vec![FRESH_MATRIX; edition.matrices(shape.lines) as usize],
            tag: (false, 0),
        }
    }

    // ----- the calls -----

    /// Any call, with what happened.
    pub fn step(&mut self, call: &Call) -> (Answer, Event) {
        let outcome = match *call {
            Call::UserAccess { process, store, width, address, value } => {
                self.do_user_access(process, store, width, address, value)
            }
            Call::SupervisorAccess { store, width, global, value } => {
                self.do_supervisor_access(store, width, global, value)
            }
            Call::Attach { process, slot, segment, write } => self.do_attach(process, slot, segment, write),
            Call::Detach { process, slot } => self.do_detach(process, slot),
            Call::Map { page, frame, write } => self.do_map(page, frame, write),
            Call::Unmap { page } => self.do_unmap(page),
            Call::Protect { page, write } => self.do_protect(page, write),
            Call::Move { page, new_page } => self.do_move(page, new_page),
            Call::FlushAll => self.do_flush_all(),
            Call::Tag { name } => self.do_tag(name),
            Call::LoadAndMap { line } => self.do_load_and_map(line),
            Call::DropTag => self.do_drop_tag(),
        };
        let (number, value, event) = match outcome {
            Ok((value, event)) => (0, value, event),
            Err(number) => (number, 0, Event::Refused(number)),
        };
        (Answer { number, value, mark: event.mark() }, event)
    }

    /// CR 12: "A call for a whole list of accesses (`user_accesses`: accesses in, answers out, each the answer of the single
    /// call, refused ones included and the rest done; ... short or long lists and answer buffers that don't match get a number
    /// and change nothing)". Gives the list's own answer, and what each access did. Decided: the number is 1, and a list gets
    /// it too, an empty one as well, where a single call would; a list that is done has number, value and mark 0.
    pub fn list(&mut self, accesses: &[u32], answers: &mut [Answer]) -> (Answer, Vec<Event>) {
        self.list_seen(accesses, answers, |_, _| ())
    }

    /// The same, and `see` sees the board before each access.
    pub fn list_seen(
        &mut self,
        accesses: &[u32],
        answers: &mut [Answer],
        mut see: impl FnMut(&Board, &Call),
    ) -> (Answer, Vec<Event>) {
        let own = |number| Answer { number, value: 0, mark: mark::NO_ACCESS };
        let refusal = ask(1, !self.fits()).and_then(|()| ask(1, !list_fits(accesses.len(), answers.len())));
        if let Err(number) = refusal {
            return (own(number), Vec::new());
        }
        let mut events = Vec::with_capacity(answers.len());
        for (call, answer) in calls_of(accesses).zip(answers) {
            see(self, &call);
            let (given, event) = self.step(&call);
            *answer = given;
            events.push(event);
        }
        (own(0), events)
    }

    /// "Look (physical line): the line's current 16 bytes, in the lowest record holding it, else in
    /// memory. ... Refused by number 1 or 2, it gives an empty part".
    pub fn look(&self, line: u64) -> (u32, Vec<u8>) {
        let refusal = ask(1, !self.fits()).and_then(|()| ask(2, !self.line_in_memory(line)));
        if let Err(number) = refusal {
            return (number, Vec::new());
        }
        let holder = self.all_records().find(|&at| self.held(at).is_some_and(|r| r.line == line));
        let bytes = match holder {
            Some(at) => &self.cache[line_range(at)],
            None => &self.memory[line_range(line)],
        };
        (0, bytes.to_vec())
    }

    // ----- number 1 -----

    pub fn lengths(&self) -> Lengths {
        Lengths {
            slots: self.slots.len() as u64,
            words: self.words.len() as u64,
            records: self.records.len() as u64,
            cache: self.cache.len() as u64,
            memory: self.memory.len() as u64,
            uses: self.uses.len() as u64,
        }
    }

    /// Number 1 doesn't apply. Decided: asked of the whole board by every call.
    pub fn fits(&self) -> bool {
        shape_fits(self.edition, &self.shape, &self.lengths())
    }

    // ----- sets (this, and all that follows, is asked only of a board that fits) -----

    /// How many sets there are: as many as places.
    pub fn sets(&self) -> u64 {
        self.shape.lines / self.edition.lines_in_set()
    }

    /// All records, by rising number.
    pub fn all_records(&self) -> std::ops::Range<u64> {
        0..self.shape.lines
    }

    /// "records 4 × place to 4 × place + 3"; in 01's edition the one record at the place.
    pub fn records_at(&self, place: u64) -> std::ops::Range<u64> {
        let lines = self.edition.lines_in_set();
        lines * place..lines * (place + 1)
    }

    /// The place at which a record stands, and which line of the set there it is.
    fn stand_of(&self, at: u64) -> (u64, usize) {
        let lines = self.edition.lines_in_set();
        (at / lines, (at % lines) as usize)
    }

    /// A use of the line of this record. Sets of one keep no matrix.
    fn use_line(&mut self, at: u64) {
        let (place, line) = self.stand_of(at);
        if self.edition == Edition::Fours {
            let matrix = &mut self.uses[place as usize];
            *matrix = used(matrix, line);
        }
    }

    /// "The victim is the lowest empty line, else the lowest whose row has the fewest ones." Decided: empty is what holds
    /// nothing. A set of one has its one line, empty or not.
    pub fn victim(&self, place: u64) -> u64 {
        let empty = self.records_at(place).find(|&at| self.held(at).is_none());
        // Of several with as few, the first is taken.
        let least_used = || self.records_at(place).min_by_key(|&at| self.ones_of(at)).expect("a set has a line");
        empty.unwrap_or_else(least_used)
    }

    fn ones_of(&self, at: u64) -> usize {
        let (place, line) = self.stand_of(at);
        match self.edition {
            Edition::Ones => 0,
            Edition::Fours => ones(&self.uses[place as usize][line]),
        }
    }

    /// The record with which an access to a line of this name is done: the one that holds the line, else the victim.
    pub fn record_for(&self, name: u64) -> u64 {
        self.holder(name).unwrap_or_else(|| self.victim(place_of(name, self.sets())))
    }

    // ----- records -----

    /// "A physical line given by a caller is below 256 × F"; "its physical line is inside memory".
    fn line_in_memory(&self, line: u64) -> bool {
        line < LINES_PER_PAGE * self.shape.frames
    }

    /// A record, by its number: in 01's edition that is its place.
    pub fn record(&self, at: u64) -> Record {
        let at = 2 * at as usize;
        Record::decode(self.records[at], self.records[at + 1])
    }

    fn set_record(&mut self, at: u64, record: Record) {
        let at = 2 * at as usize;
        (self.records[at], self.records[at + 1]) = record.encode();
    }

    /// "A record holds a line only if it is valid, stands at its place and its physical line is
    /// inside memory. Otherwise it counts as empty". Decided: if and only if; any 64-bit name.
    pub fn held(&self, at: u64) -> Option<Record> {
        let record = self.record(at);
        let stands = || self.records_at(place_of(record.name, self.sets())).contains(&at);
        let holds = record.valid && stands() && self.line_in_memory(record.line);
        holds.then_some(record)
    }

    /// The record that holds a line of this name. Decided: a hit goes by the whole name alone; of a name twice in a set the
    /// lowest record counts.
    pub fn holder(&self, name: u64) -> Option<u64> {
        let mut records = self.records_at(place_of(name, self.sets()));
        records.find(|&at| self.held(at).is_some_and(|record| record.name == name))
    }

    pub fn held_by_name(&self, name: u64) -> Option<Record> {
        self.holder(name).map(|at| self.record(at))
    }

    /// The records of all held lines "named in the page", "by rising place". All records are asked: that CR 3 has a call visit
    /// some only may not show.
    fn held_in_page(&self, page: u64) -> Vec<u64> {
        self.all_records().filter(|&at| self.held(at).is_some_and(|r| page_of_name(r.name) == page)).collect()
    }

    /// "To drop a line sets its record to not valid and all its fields to 0; its sixteen bytes
    /// stay." Asked only of held lines: "Only held lines are dropped". CR 4: "drops leave the matrix".
    fn drop_line(&mut self, at: u64) {
        let empty = Record { name: 0, line: 0, changed: false, write: false, valid: false };
        self.set_record(at, empty);
    }

    /// Writes the line of this record to the record's own physical line if it is held and changed
    /// (not "through the present map"); a record that holds nothing "is never written back".
    /// The record stays. Whether it was written.
    fn write_back(&mut self, at: u64) -> bool {
        match self.held(at) {
            Some(record) if record.changed => {
                self.memory[line_range(record.line)].copy_from_slice(&self.cache[line_range(at)]);
                true
            }
            _ => false,
        }
    }

    /// Writes back the changed ones of these held lines, "by rising place", and drops them all.
    /// How many were written and dropped.
    fn write_back_and_drop(&mut self, records: &[u64]) -> (u64, u64) {
        let mut written = 0;
        for &at in records {
            if self.write_back(at) {
                written += 1;
            }
            self.drop_line(at);
        }
        (written, records.len() as u64)
    }

    /// "A miss writes the old line at that place back if it is held and changed, then fills the
    /// line's own sixteen bytes inside the cache bytes. The record then has the new name and
    /// physical line, not changed, and the page's present permission." Decided: fills from memory,
    /// never from another record. Asked only if no record holds the line; the old line is the
    /// victim. An insertion is a use. Gives the record, and whether the old line was written back.
    fn refill(&mut self, name: u64, line: u64, write: bool) -> (u64, bool) {
        let at = self.victim(place_of(name, self.sets()));
        let wrote_back = self.write_back(at);
        self.cache[line_range(at)].copy_from_slice(&self.memory[line_range(line)]);
        self.set_record(at, Record { name, line, changed: false, write, valid: true });
        self.use_line(at);
        (at, wrote_back)
    }

    /// A cached access that is not refused: refill from `source` (physical line, permission) unless
    /// the line is held; then the cached bytes, and a use. "A store changes the cached line only and
    /// marks it changed. An access alters no record but the one at its own place."
    fn cached_access(
        &mut self,
        store: bool,
        width: u32,
        global: u64,
        value: u32,
        source: Option<(u64, bool)>,
    ) -> (u32, Event) {
        let name = name_of(global);
        let (at, event) = match self.holder(name) {
            Some(at) => (at, Event::Hit),
            None => {
                let (line, write) = source.expect("number 8 has been asked");
                let (at, wrote_back) = self.refill(name, line, write);
                (at, if wrote_back { Event::MissWriteBack } else { Event::Miss })
            }
        };
        let byte = at * LINE_BYTES + global % LINE_BYTES;
        let answer = transfer(&mut self.cache, byte, store, width, value);
        if store {
            let record = self.record(at);
            self.set_record(at, Record { changed: true, ..record });
        }
        self.use_line(at);
        (answer, event)
    }

    // ----- accesses -----

    /// The physical line to which an ordinary name is mapped, and the page's present permission.
    fn mapped_line(&self, name: u64) -> Option<(u64, bool)> {
        mapping(&self.shape, &self.words, page_of_name(name))
            .map(|(frame, write)| (frame * LINES_PER_PAGE + name % LINES_PER_PAGE, write))
    }

    /// "User access (process, load or store, width, effective address, value). ... The segment's
    /// write bit and the page's must both allow a store."
    fn do_user_access(&mut self, process: u64, store: bool, width: u32, address: u32, value: u32) -> Outcome {
        ask(1, !self.fits())?;
        ask(2, process >= self.shape.processes || value_refused(store, width, value))?;
        // "Number 3 doesn't ask whether the line is held".
        ask(3, self.tag.0)?;
        ask(4, width_refused(width, u64::from(address)))?;
        ask(5, address >= USER_END)?;
        let word = self.slots[(process * SLOTS + slot_of(address)) as usize];
        let (segment, segment_write) = slot_read(word).ok_or(6u32)?;
        ask(7, store && !segment_write)?;
        // A segment in range makes the address ordinary.
        let global = global_of(segment, offset_of(address));
        let held = self.held_by_name(name_of(global));
        let mapped = self.mapped_line(name_of(global));
        // "access to an ordinary address whose line isn't held"
        ask(8, held.is_none() && mapped.is_none())?;
        // "from the record if the line is held, else from the frame word"
        let page_write = match held {
            Some(record) => record.write,
            None => mapped.is_some_and(|(_, write)| write),
        };
        ask(9, store && !page_write)?;
        Ok(self.cached_access(store, width, global, value, mapped))
    }

    /// "Supervisor access by global address: ordinary (page write bit not asked), prefix 0 or
    /// prefix 1."
    fn do_supervisor_access(&mut self, store: bool, width: u32, global: u64, value: u32) -> Outcome {
        ask(1, !self.fits())?;
        ask(2, global >= GLOBAL_END || value_refused(store, width, value))?;
        let kind = kind_of(global);
        // Decided: page table addresses are not ordinary; prefix 0 and 1 don't ask for the tag.
        ask(3, self.tag.0 && kind == Kind::Ordinary)?;
        ask(4, width_refused(width, global))?;
        match kind {
            Kind::Ordinary => {
                let held = self.held_by_name(name_of(global));
                let mapped = self.mapped_line(name_of(global));
                ask(8, held.is_none() && mapped.is_none())?;
                Ok(self.cached_access(store, width, global, value, mapped))
            }
            Kind::Cached(physical) => {
                let frame = frame_of(physical);
                // Decided: a frame from F up has no word, so 12; a frame below U whose word is not
                // 0: 10; a held line whose frame's word is not 0: 10.
                ask(10, frame < self.shape.frames && self.words[frame as usize] != 0)?;
                ask(12, frame >= self.shape.frames || frame < self.shape.uncached)?;
                // "Prefix 1 misses fill under the prefix 1 name with write permission."
                let source = Some((physical_line_of(physical), true));
                Ok(self.cached_access(store, width, global, value, source))
            }
            Kind::Uncached(physical) => {
                // "beyond memory, prefix 0 from U up": U is at most F.
                ask(12, frame_of(physical) >= self.shape.uncached)?;
                // "Prefix 0 never touches the cache", nor does it ask whether a record has that name.
                let answer = transfer(&mut self.memory, physical, store, width, value);
                Ok((answer, Event::Uncached))
            }
            Kind::PageTable => Err(12),
        }
    }

    // ----- slots -----

    /// "Attach (process, slot, segment, write bit; replaces what was there)".
    fn do_attach(&mut self, process: u64, slot: u64, segment: u64, write: bool) -> Outcome {
        ask(1, !self.fits())?;
        ask(2, process >= self.shape.processes || slot >= SLOTS || !segment_in_range(segment))?;
        self.slots[(process * SLOTS + slot) as usize] = slot_word(segment, write);
        Ok((0, Event::Done))
    }

    /// "detach (an empty slot is fine)". Decided: sets the slot's word to 0, whatever it was.
    fn do_detach(&mut self, process: u64, slot: u64) -> Outcome {
        ask(1, !self.fits())?;
        ask(2, process >= self.shape.processes || slot >= SLOTS)?;
        self.slots[(process * SLOTS + slot) as usize] = 0;
        Ok((0, Event::Done))
    }

    // ----- the page map -----

    /// "Map (page, frame, write bit): drops held lines named in the page or in the frame's prefix 1
    /// range, fills the frame with zeros, sets the word." Decided: writes nothing back.
    fn do_map(&mut self, page: u64, frame: u64, write: bool) -> Outcome {
        ask(1, !self.fits())?;
        let frame_in_range = self.shape.uncached <= frame && frame < self.shape.frames;
        ask(2, !page_in_range(page) || !frame_in_range)?;
        ask(10, self.words[frame as usize] != 0)?;
        ask(11, mapping(&self.shape, &self.words, page).is_some())?;
        let by_page = self.held_in_page(page);
        let by_prefix1 = self.held_in_page(prefix1_page(frame));
        for &at in by_page.iter().chain(&by_prefix1) {
            self.drop_line(at);
        }
        self.memory[frame_range(frame)].fill(0);
        self.words[frame as usize] = frame_word(page, write);
        Ok((0, Event::Mapped { by_page: by_page.len() as u64, by_prefix1: by_prefix1.len() as u64 }))
    }

    /// "Unmap (page): writes changed lines named in the page to their physical lines, drops all
    /// lines named in it, sets the word to 0. The frame's bytes stay until the next map."
    /// Decided: of a doubled page, the word of the lowest frame from U up only.
    fn do_unmap(&mut self, page: u64) -> Outcome {
        ask(1, !self.fits())?;
        ask(2, !page_in_range(page))?;
        let (frame, _) = mapping(&self.shape, &self.words, page).ok_or(8u32)?;
        let records = self.held_in_page(page);
        let (written, dropped) = self.write_back_and_drop(&records);
        self.words[frame as usize] = 0;
        Ok((0, Event::Unmapped { written, dropped }))
    }

    /// "Protect (page, write bit): changes the word and every held line named in the page."
    fn do_protect(&mut self, page: u64, write: bool) -> Outcome {
        ask(1, !self.fits())?;
        ask(2, !page_in_range(page))?;
        let (frame, _) = mapping(&self.shape, &self.words, page).ok_or(8u32)?;
        let records = self.held_in_page(page);
        for &at in &records {
            let record = self.record(at);
            self.set_record(at, Record { write, ..record });
        }
        self.words[frame as usize] = frame_word(page, write);
        Ok((0, Event::Protected { lines: records.len() as u64 }))
    }

    /// CR 9: "Add move (page, new page): writes back and drops the old page's lines and those of the new name, then the frame's
    /// word gets the new page with the same write bit. Refused with 2, 8 (old not mapped), 11 (new mapped, also if both are
    /// equal)". "Bytes are kept, unlike map." Decided: it ignores a pending tag; lines of both names are written back in one walk
    /// by rising place; equal pages that aren't mapped give 8; of a doubled page, the word of the lowest frame from U up only.
    fn do_move(&mut self, page: u64, new_page: u64) -> Outcome {
        ask(1, !self.fits())?;
        ask(2, !page_in_range(page) || !page_in_range(new_page))?;
        let (frame, write) = mapping(&self.shape, &self.words, page).ok_or(8u32)?;
        ask(11, new_page == page || mapping(&self.shape, &self.words, new_page).is_some())?;
        let (mut old_written, mut old_dropped, mut new_written, mut new_dropped) = (0, 0, 0, 0);
        for at in self.all_records() {
            let (written, dropped) = match self.held(at).map(|record| page_of_name(record.name)) {
                Some(of) if of == page => (&mut old_written, &mut old_dropped),
                Some(of) if of == new_page => (&mut new_written, &mut new_dropped),
                _ => continue,
            };
            *written += u64::from(self.write_back(at));
            *dropped += 1;
            self.drop_line(at);
        }
        self.words[frame as usize] = frame_word(new_page, write);
        Ok((0, Event::Moved { old_written, old_dropped, new_written, new_dropped }))
    }

    /// "Flush all: writes back every changed line, drops all."
    fn do_flush_all(&mut self) -> Outcome {
        ask(1, !self.fits())?;
        let records: Vec<u64> = self.all_records().filter(|&at| self.held(at).is_some()).collect();
        let (written, dropped) = self.write_back_and_drop(&records);
        Ok((0, Event::Flushed { written, dropped }))
    }

    // ----- the two-part load -----

    /// "Tag remembers a line name."
    fn do_tag(&mut self, name: u64) -> Outcome {
        ask(1, !self.fits())?;
        ask(2, !name_in_range(name))?;
        ask(3, self.tag.0)?;
        self.tag = (true, name);
        Ok((0, Event::Done))
    }

    /// "Load-and-map inserts the line with the page's present permission; if the line is held
    /// already it only clears the tag, so a changed line isn't lost." Decided: 8 and 13 are asked
    /// of the page map even if the line is held; held by name, at its place, and then it is no use.
    fn do_load_and_map(&mut self, line: u64) -> Outcome {
        ask(1, !self.fits())?;
        ask(2, !self.line_in_memory(line))?;
        ask(3, !self.tag.0)?;
        let name = self.tag.1;
        let (mapped, write) = self.mapped_line(name).ok_or(8u32)?;
        ask(13, line != mapped)?;
        let event = if self.held_by_name(name).is_some() {
            Event::FoundHeld
        } else {
            // "A load-and-map fills in the same way."
            let (_, wrote_back) = self.refill(name, line, write);
            Event::Inserted { wrote_back }
        };
        self.tag = NO_TAG;
        Ok((0, event))
    }

    /// Drop tag: nothing pending afterwards.
    fn do_drop_tag(&mut self) -> Outcome {
        ask(1, !self.fits())?;
        ask(3, !self.tag.0)?;
        self.tag = NO_TAG;
        Ok((0, Event::Done))
    }
}

/// Nothing pending. 01 doesn't say what the name is then; here 0, as in a fresh board.
pub const NO_TAG: (bool, u64) = (false, 0);

// ---------------------------------------------------------------------------------------------
// The plain machine
// ---------------------------------------------------------------------------------------------

/// The machine without a cache: every access goes to memory at once. Decided: it asks number 1 of
/// the same numbers and lengths as the board.
#[derive(Clone, Debug, PartialEq, Eq)]
pub struct Plain {
    pub edition: Edition,
    pub shape: Shape,
    pub slots: Vec<u32>,
    pub words: Vec<u64>,
    pub memory: Vec<u8>,
    pub tag: (bool, u64),
    /// Number of record words the board has (2 × L if it fits).
    pub records_len: usize,
    /// Number of cache bytes the board has (16 × L if it fits).
    pub cache_len: usize,
    /// Number of matrices the board has.
    pub uses_len: usize,
}

impl Plain {
    /// The plain machine of a board whose records hold nothing (a fresh one): same slots, words,
    /// memory and tag. Of other boards, cached bytes are forgotten.
    pub fn of(board: &Board) -> Plain {
        Plain {
            edition: board.edition,
            shape: board.shape,
            slots: board.slots.clone(),
            words: board.words.clone(),
            memory: board.memory.clone(),
            tag: board.tag,
            records_len: board.records.len(),
            cache_len: board.cache.len(),
            uses_len: board.uses.len(),
        }
    }

    pub fn step(&mut self, call: &Call) -> PlainAnswer {
        match self.call(call) {
            Ok(value) => PlainAnswer { number: 0, value },
            Err(number) => PlainAnswer { number, value: 0 },
        }
    }

    /// A list (CR 12): here too the single calls one after another.
    pub fn list(&mut self, accesses: &[u32], answers: &mut [PlainAnswer]) -> PlainAnswer {
        let refusal = ask(1, !self.fits()).and_then(|()| ask(1, !list_fits(accesses.len(), answers.len())));
        if let Err(number) = refusal {
            return PlainAnswer { number, value: 0 };
        }
        for (call, answer) in calls_of(accesses).zip(answers) {
            *answer = self.step(&call);
        }
        PlainAnswer { number: 0, value: 0 }
    }

    /// "The plain machine gives these bytes of its flat memory."
    pub fn look(&self, line: u64) -> (u32, Vec<u8>) {
        if !self.fits() {
            return (1, Vec::new());
        }
        if line >= LINES_PER_PAGE * self.shape.frames {
            return (2, Vec::new());
        }
        (0, self.memory[line_range(line)].to_vec())
    }

    pub fn fits(&self) -> bool {
        let lengths = Lengths {
            slots: self.slots.len() as u64,
            words: self.words.len() as u64,
            records: self.records_len as u64,
            cache: self.cache_len as u64,
            memory: self.memory.len() as u64,
            uses: self.uses_len as u64,
        };
        shape_fits(self.edition, &self.shape, &lengths)
    }

    fn call(&mut self, call: &Call) -> Result<u32, u32> {
        ask(1, !self.fits())?;
        let Shape { frames, uncached, processes, .. } = self.shape;
        match *call {
            Call::UserAccess { process, store, width, address, value } => {
                ask(2, process >= processes || value_refused(store, width, value))?;
                ask(3, self.tag.0)?;
                ask(4, width_refused(width, u64::from(address)))?;
                ask(5, address >= USER_END)?;
                let word = self.slots[(process * SLOTS + slot_of(address)) as usize];
                let (segment, segment_write) = slot_read(word).ok_or(6u32)?;
                ask(7, store && !segment_write)?;
                let global = global_of(segment, offset_of(address));
                let (frame, page_write) = mapping(&self.shape, &self.words, page_of(global)).ok_or(8u32)?;
                ask(9, store && !page_write)?;
                let at = frame * PAGE_BYTES + global % PAGE_BYTES;
                Ok(transfer(&mut self.memory, at, store, width, value))
            }
            Call::SupervisorAccess { store, width, global, value } => {
                ask(2, global >= GLOBAL_END || value_refused(store, width, value))?;
                let kind = kind_of(global);
                ask(3, self.tag.0 && kind == Kind::Ordinary)?;
                ask(4, width_refused(width, global))?;
                let at = match kind {
                    Kind::Ordinary => {
                        let (frame, _) = mapping(&self.shape, &self.words, page_of(global)).ok_or(8u32)?;
                        frame * PAGE_BYTES + global % PAGE_BYTES
                    }
                    Kind::Cached(physical) => {
                        let frame = frame_of(physical);
                        ask(10, frame < frames && self.words[frame as usize] != 0)?;
                        ask(12, frame >= frames || frame < uncached)?;
                        physical
                    }
                    Kind::Uncached(physical) => {
                        ask(12, frame_of(physical) >= uncached)?;
                        physical
                    }
                    Kind::PageTable => return Err(12),
                };
                Ok(transfer(&mut self.memory, at, store, width, value))
            }
            Call::Attach { process, slot, segment, write } => {
                ask(2, process >= processes || slot >= SLOTS || !segment_in_range(segment))?;
                self.slots[(process * SLOTS + slot) as usize] = slot_word(segment, write);
                Ok(0)
            }
            Call::Detach { process, slot } => {
                ask(2, process >= processes || slot >= SLOTS)?;
                self.slots[(process * SLOTS + slot) as usize] = 0;
                Ok(0)
            }
            Call::Map { page, frame, write } => {
                ask(2, !page_in_range(page) || frame < uncached || frame >= frames)?;
                ask(10, self.words[frame as usize] != 0)?;
                ask(11, mapping(&self.shape, &self.words, page).is_some())?;
                self.memory[frame_range(frame)].fill(0);
                self.words[frame as usize] = frame_word(page, write);
                Ok(0)
            }
            Call::Unmap { page } => {
                ask(2, !page_in_range(page))?;
                let (frame, _) = mapping(&self.shape, &self.words, page).ok_or(8u32)?;
                self.words[frame as usize] = 0;
                Ok(0)
            }
            Call::Protect { page, write } => {
                ask(2, !page_in_range(page))?;
                let (frame, _) = mapping(&self.shape, &self.words, page).ok_or(8u32)?;
                self.words[frame as usize] = frame_word(page, write);
                Ok(0)
            }
            Call::Move { page, new_page } => {
                ask(2, !page_in_range(page) || !page_in_range(new_page))?;
                let (frame, write) = mapping(&self.shape, &self.words, page).ok_or(8u32)?;
                ask(11, new_page == page || mapping(&self.shape, &self.words, new_page).is_some())?;
                self.words[frame as usize] = frame_word(new_page, write);
                Ok(0)
            }
            Call::FlushAll => Ok(0),
            Call::Tag { name } => {
                ask(2, !name_in_range(name))?;
                ask(3, self.tag.0)?;
                self.tag = (true, name);
                Ok(0)
            }
            Call::LoadAndMap { line } => {
                ask(2, line >= LINES_PER_PAGE * frames)?;
                ask(3, !self.tag.0)?;
                let name = self.tag.1;
                let (frame, _) = mapping(&self.shape, &self.words, page_of_name(name)).ok_or(8u32)?;
                ask(13, line != frame * LINES_PER_PAGE + name % LINES_PER_PAGE)?;
                self.tag = NO_TAG;
                Ok(0)
            }
            Call::DropTag => {
                ask(3, !self.tag.0)?;
                self.tag = NO_TAG;
                Ok(0)
            }
        }
    }
}
