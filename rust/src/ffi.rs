//! The functions of `liboaledva.a` as they are, by the prototypes of `include/oaledva.h`. Every call but
//! [`oaledva_entry_of_page`] takes a board: the shape (four numbers) and the five buffers first, each as a pointer and its
//! length in elements; a call says of each buffer whether it only reads it or may write it. Answers, places, entries and flags
//! are numbers in types of their own, as in the header, and are passed as these numbers. A list's answers are written as an
//! array of such numbers, and its accesses read as one of words ([`Access`]). The functions of logs take no board: a reader's
//! state, pieces of a log and its entries ([`LogEntry`]) are buffers likewise.
//!
//! Every call on a board is there twice: for a cache in which a line has one place, and as `oaledva_sets_...` for one with sets of
//! four, which takes a sixth buffer, `uses`, whose length counts matrices ([`Uses`]). An edition belongs to the board, as U does:
//! calls of the other are not refused. [`oaledva_check`] and [`oaledva_repair`] are there for the first edition alone.
//!
//! The tag of an access is two numbers: `set`, which is not 0 where a tag is pending, and `name`, its line name.
//!
//! # Safety
//! What the proof assumes of the caller: each pointer points to as many elements as its length says (where the length is 0 it
//! may be null), aligned for them; where `set` and `name` are pointers they have no length, and each points to one element;
//! what a call may write overlaps nothing else that is passed, and nobody else touches the buffers during the call. Nothing is
//! asked of the numbers, the lengths or the contents: a wrong one gets its number.

/// What a call gives, as one number: number × 2^56 + mark × 2^32 + value. The value has bits 0 to 31, the mark 32 to 39, the
/// number 56 to 63; the sixteen between are 0.
#[derive(Clone, Copy, Debug, PartialEq, Eq)]
#[must_use]
#[repr(transparent)]
pub struct Answer {
    packed: u64,
}

impl Answer {
    const NUMBER_AT: u32 = 56;
    const MARK_AT: u32 = 32;
    const MARK_MASK: u32 = 0xff;

    /// What stands in a list's answers before the call: no call gives it, for its number and its mark are 255.
    pub const NONE: Answer = Answer { packed: u64::MAX };

    /// 0 for done, else why the call was refused.
    pub fn number(self) -> u32 {
        (self.packed >> Self::NUMBER_AT) as u32
    }

    /// The number of a [`Mark`](crate::Mark): how an access went; 0 where the call was refused or is no access.
    pub fn mark(self) -> u32 {
        (self.packed >> Self::MARK_AT) as u32 & Self::MARK_MASK
    }

    /// What a load gives; else 0.
    pub fn value(self) -> u32 {
        self.packed as u32
    }
}

/// Where look's bytes stand in the caller's own buffers, or that look was refused.
#[derive(Clone, Copy, Debug, PartialEq, Eq)]
#[must_use]
#[repr(transparent)]
pub struct Place {
    at: u64,
}

/// What a [`Place`] is, taken apart.
#[derive(Clone, Copy, Debug, PartialEq, Eq)]
pub enum Stands {
    /// From this offset in the cache bytes.
    InCache(usize),
    /// From this offset in memory.
    InMemory(usize),
    /// Look was refused.
    Nowhere,
}

impl Place {
    const IN_MEMORY: u64 = 1 << 63;
    const NOWHERE: u64 = u64::MAX;

    /// Takes the place apart.
    pub fn stands(self) -> Stands {
        match self.at {
            Self::NOWHERE => Stands::Nowhere,
            at if at < Self::IN_MEMORY => Stands::InCache(at as usize),
            at => Stands::InMemory((at - Self::IN_MEMORY) as usize),
        }
    }
}

/// The number of a look.
#[derive(Clone, Copy, Debug, PartialEq, Eq)]
#[must_use]
#[repr(transparent)]
pub struct Looked {
    /// 0 for done, else why it was refused.
    pub number: u32,
}

/// What asking for the page table entry of a page gives: number × 2^44 + the entry's global address, as one number.
#[derive(Clone, Copy, Debug, PartialEq, Eq)]
#[must_use]
#[repr(transparent)]
pub struct Entry {
    packed: u64,
}

impl Entry {
    const NUMBER_AT: u32 = 44;

    /// 0 where the page has an entry, else why the asking was refused.
    pub fn number(self) -> u32 {
        (self.packed >> Self::NUMBER_AT) as u32
    }

    /// The entry's global address; 0 where the asking was refused, which is a global address too: ask the number first.
    pub fn address(self) -> u64 {
        self.packed & ((1 << Self::NUMBER_AT) - 1)
    }
}

/// What checking or repairing a board gives, as one number: number × 2^56 + rule × 2^48 + dropped × 2^24 + place.
///
/// Ask the number first. It is the call's own: 0 where the board was checked, or repaired, and 1 where the call was refused
/// because its scratch does not fit the board; then the rest is 0 and says nothing. So a scratch that is too short (number 1,
/// rule 0) and a board whose own lengths are wrong (number 0, rule 1) are told apart by the number, and the board is sound only
/// where number and rule are both 0.
#[derive(Clone, Copy, Debug, PartialEq, Eq)]
#[must_use]
#[repr(transparent)]
pub struct Report {
    packed: u64,
}

impl Report {
    const NUMBER_AT: u32 = 56;
    const RULE_AT: u32 = 48;
    const RULE_MASK: u32 = 0xff;
    const DROPPED_AT: u32 = 24;
    const PLACE_MASK: u64 = 0xffffff;

    /// The call's own number: 0 where the board was checked or repaired, 1 where the call was refused.
    pub fn number(self) -> u32 {
        (self.packed >> Self::NUMBER_AT) as u32
    }

    /// The number of a [`Rule`](crate::Rule): the first that the board breaks, or broke before the repair; 0 for none.
    pub fn rule(self) -> u32 {
        (self.packed >> Self::RULE_AT) as u32 & Self::RULE_MASK
    }

    /// The lowest frame (rule 2) or place (rules 3 to 5) that breaks it; else 0, which is a frame and a place too: ask the rule
    /// first.
    pub fn place(self) -> usize {
        (self.packed & Self::PLACE_MASK) as usize
    }

    /// How many lines the repair dropped; 0 of a check.
    pub fn dropped(self) -> usize {
        (self.packed >> Self::DROPPED_AT & Self::PLACE_MASK) as usize
    }
}

/// A load or a store: 0 is a load, anything else a store.
#[derive(Clone, Copy, Debug, PartialEq, Eq)]
#[repr(transparent)]
pub struct Kind {
    /// The number itself.
    pub store: u32,
}

impl Kind {
    /// A load.
    pub const LOAD: Kind = Kind { store: 0 };
    /// A store.
    pub const STORE: Kind = Kind { store: 1 };
}

/// The permission to write: 0 is read-only, anything else writable.
#[derive(Clone, Copy, Debug, PartialEq, Eq)]
#[repr(transparent)]
pub struct Permission {
    /// The number itself.
    pub write: u32,
}

impl Permission {
    /// No permission to write.
    pub const READ_ONLY: Permission = Permission { write: 0 };
    /// The permission to write.
    pub const WRITABLE: Permission = Permission { write: 1 };
}

/// A user's access, as a list has it: what [`oaledva_user_access`] takes one by one, in [`ACCESS_WORDS`] words.
#[derive(Clone, Copy, Debug, PartialEq, Eq)]
#[repr(C)]
pub struct Access {
    /// The process.
    pub process: u32,
    /// A load or a store.
    pub kind: Kind,
    /// How many bytes: 1, 2 or 4.
    pub width: u32,
    /// The effective address.
    pub address: u32,
    /// The value to store; a load ignores it.
    pub value: u32,
}

/// How many words of 32 bits an [`Access`] is.
pub const ACCESS_WORDS: usize = 5;

// So that a slice of accesses may be lent as one of words.
const _: () = assert!(
    std::mem::size_of::<Access>() == ACCESS_WORDS * std::mem::size_of::<u32>()
        && std::mem::align_of::<Access>() == std::mem::align_of::<u32>()
);

impl Access {
    /// A load. Like [`Access::store`] it does nothing by itself: a list of them does. A process that does not fit 32 bits
    /// becomes `u32::MAX`, which is no process either.
    #[must_use]
    pub const fn load(process: usize, width: u32, address: u32) -> Access {
        Access { process: process_word(process), kind: Kind::LOAD, width, address, value: 0 }
    }

    /// A store. The value has to fit the width, as in a single one.
    #[must_use]
    pub const fn store(process: usize, width: u32, address: u32, value: u32) -> Access {
        Access { process: process_word(process), kind: Kind::STORE, width, address, value }
    }
}

const fn process_word(process: usize) -> u32 {
    if process <= u32::MAX as usize {
        process as u32
    } else {
        u32::MAX
    }
}

/// What a log holds, in [`LOG_ENTRY_WORDS`] numbers: first the header, which has the four numbers of a board, then calls.
/// [`log`](crate::log) makes one of a call, and a call of one.
#[derive(Clone, Copy, Debug, PartialEq, Eq, Hash)]
#[repr(C)]
pub struct LogEntry {
    /// The number of a [`log::Kind`](crate::log::Kind); 0 is the header.
    pub kind: u64,
    /// What that kind has, in the order of [`log::Kind::fields`](crate::log::Kind::fields), then 0.
    pub fields: [u64; 5],
}

/// How many numbers a [`LogEntry`] is.
pub const LOG_ENTRY_WORDS: usize = 6;

/// How much room [`oaledva_log_write`] asks for. No entry takes as much.
pub const LOG_ENTRY_BYTES: usize = 60;

// So that a slice of entries may be lent as one of numbers.
const _: () = assert!(
    std::mem::size_of::<LogEntry>() == LOG_ENTRY_WORDS * std::mem::size_of::<u64>()
        && std::mem::align_of::<LogEntry>() == std::mem::align_of::<u64>()
);

/// A reader's state, in words.
pub const LOG_STATE_WORDS: usize = 11;

/// The state of a reader that has taken nothing.
pub const LOG_STATE_FRESH: [u64; LOG_STATE_WORDS] = [0, 0, 0, 1, 0, 0, 0, 0, 0, 0, 0];

/// What [`oaledva_log_read`] gives where its buffers don't fit: then it has done nothing.
pub const LOG_NOTHING: u64 = u64::MAX;

/// What writing an entry gives, as one number: how many bytes it is, or reason × 2^32 + the field that is too large.
#[derive(Clone, Copy, Debug, PartialEq, Eq)]
#[must_use]
#[repr(transparent)]
pub struct LogWritten {
    packed: u64,
}

impl LogWritten {
    const REASON_AT: u32 = 32;

    /// How many bytes were written; 0 where the entry was refused.
    pub fn bytes(self) -> usize {
        if self.reason() == 0 {
            self.packed as usize
        } else {
            0
        }
    }

    /// The number of a [`log::Reason`](crate::log::Reason): why the entry was refused; 0 where it was written.
    pub fn reason(self) -> u32 {
        (self.packed >> Self::REASON_AT) as u32
    }

    /// The field that is too large, counted from 1; 0 where none is.
    pub fn field(self) -> u32 {
        if self.reason() == 0 {
            0
        } else {
            self.packed as u32
        }
    }
}

/// Of the four lines of a set, who was used after whom: `uses[a][b]` is 1 where line a, the one in record 4 × set + a, was used
/// after line b. On a fresh board all are 0; any entry but 0 counts as 1. An access done by the cache, or an insertion by
/// load-and-map, sets the line's row and then clears its column; nothing else changes a matrix.
pub type Uses = [[u8; 4]; 4];

macro_rules! pointer {
    (read $element:ty) => { *const $element };
    (write $element:ty) => { *mut $element };
}

macro_rules! calls {
    ($($(#[$doc:meta])* fn $name:ident / $sets:ident(
        $slots:ident slots, $words:ident words, $records:ident records, $cache:ident cache, $memory:ident memory,
        $uses:ident uses
        $(, $argument:ident: $kind:ty)*
    ) -> $answer:ty;)*) => {
        #[link(name = "oaledva", kind = "static")]
        extern "C" {
            $($(#[$doc])*
            pub fn $name(
                frames: usize,
                uncached: usize,
                processes: usize,
                lines: usize,
                slots: pointer!($slots u32),
                slots_length: usize,
                words: pointer!($words u64),
                words_length: usize,
                records: pointer!($records u64),
                records_length: usize,
                cache: pointer!($cache u8),
                cache_length: usize,
                memory: pointer!($memory u8),
                memory_length: usize
                $(, $argument: $kind)*
            ) -> $answer;

            #[doc = concat!("[`", stringify!($name), "`] in sets of four.")]
            pub fn $sets(
                frames: usize,
                uncached: usize,
                processes: usize,
                lines: usize,
                slots: pointer!($slots u32),
                slots_length: usize,
                words: pointer!($words u64),
                words_length: usize,
                records: pointer!($records u64),
                records_length: usize,
                cache: pointer!($cache u8),
                cache_length: usize,
                memory: pointer!($memory u8),
                memory_length: usize,
                uses: pointer!($uses Uses),
                uses_length: usize
                $(, $argument: $kind)*
            ) -> $answer;)*
        }
    };
}

// Where the header takes an `oaledva_pending` by value, the two numbers stand here by themselves. It is the same call: six
// arguments in registers come before them, so struct or numbers, they are two words on the stack (x86-64 System V). But rustc
// makes such a struct in memory by two stores and copies it by one load, which must wait until both stores have reached the
// cache: as bench/accesses measures it, a fifth of the time of a load that hits.
calls! {
    /// A user's load or store. A load ignores the value; a store's has to fit the width.
    fn oaledva_user_access / oaledva_sets_user_access(
        read slots, read words, write records, write cache, write memory, write uses,
        set: u32, name: u64, process: usize, kind: Kind, width: u32, address: u32, value: u32) -> Answer;
    /// Many users' accesses, one after another: [`ACCESS_WORDS`] words for each, as an [`Access`] has them, and one answer.
    fn oaledva_user_accesses / oaledva_sets_user_accesses(
        read slots, read words, write records, write cache, write memory, write uses,
        set: u32, name: u64, accesses: *const u32, accesses_length: usize,
        answers: *mut Answer, answers_length: usize) -> Answer;
    /// A supervisor's load or store by global address; the value as a user's.
    fn oaledva_supervisor_access / oaledva_sets_supervisor_access(
        read slots, read words, write records, write cache, write memory, write uses,
        set: u32, name: u64, kind: Kind, width: u32, address: u64, value: u32) -> Answer;
    /// Attaches a segment to a slot of a process.
    fn oaledva_attach / oaledva_sets_attach(
        write slots, read words, read records, read cache, read memory, read uses,
        process: usize, slot: usize, segment: u64, permission: Permission) -> Answer;
    /// Empties a slot of a process.
    fn oaledva_detach / oaledva_sets_detach(
        write slots, read words, read records, read cache, read memory, read uses,
        process: usize, slot: usize) -> Answer;
    /// Maps a page to a frame.
    fn oaledva_map / oaledva_sets_map(
        read slots, write words, write records, read cache, write memory, read uses,
        page: u64, frame: usize, permission: Permission) -> Answer;
    /// Unmaps a page.
    fn oaledva_unmap / oaledva_sets_unmap(
        read slots, write words, write records, read cache, write memory, read uses,
        page: u64) -> Answer;
    /// Changes a page's write bit.
    fn oaledva_protect / oaledva_sets_protect(
        read slots, write words, write records, read cache, write memory, read uses,
        page: u64, permission: Permission) -> Answer;
    /// Gives a page's frame, with its bytes, to a new page.
    fn oaledva_move / oaledva_sets_move(
        read slots, write words, write records, read cache, write memory, read uses,
        page: u64, new_page: u64) -> Answer;
    /// Writes back every changed line and drops all.
    fn oaledva_flush_all / oaledva_sets_flush_all(
        read slots, read words, write records, read cache, write memory, read uses) -> Answer;
    /// Remembers a line name.
    fn oaledva_tag / oaledva_sets_tag(
        read slots, read words, read records, read cache, read memory, read uses,
        set: *mut u32, name: *mut u64, line_name: u64) -> Answer;
    /// Loads the line of the pending name, and forgets the name.
    fn oaledva_load_and_map / oaledva_sets_load_and_map(
        read slots, read words, write records, write cache, write memory, write uses,
        set: *mut u32, name: *mut u64, physical_line: usize) -> Answer;
    /// Forgets the pending name.
    fn oaledva_drop_tag / oaledva_sets_drop_tag(
        read slots, read words, read records, read cache, read memory, read uses,
        set: *mut u32, name: *mut u64) -> Answer;
    /// Where the current sixteen bytes of a physical line stand.
    fn oaledva_look / oaledva_sets_look(
        read slots, read words, read records, read cache, read memory, read uses,
        physical_line: usize) -> Place;
    /// The number that look gives: 0, 1 or 2.
    fn oaledva_look_number / oaledva_sets_look_number(
        read slots, read words, read records, read cache, read memory, read uses,
        physical_line: usize) -> Looked;
}

#[link(name = "oaledva", kind = "static")]
extern "C" {
    /// Where the page table entry of a page stands. Nothing is asked of the number, and no pointer is taken.
    pub fn oaledva_entry_of_page(page: u64) -> Entry;
    /// Takes the next piece of a log, as far as there is room for its entries, and gives how many of them it wrote; or
    /// [`LOG_NOTHING`]. A reader begins with [`LOG_STATE_FRESH`]; the first word of its state is how many bytes it has taken.
    pub fn oaledva_log_read(
        state: *mut u64,
        state_length: usize,
        piece: *const u8,
        piece_length: usize,
        entries: *mut u64,
        entries_length: usize,
    ) -> u64;
    /// Why a log was refused, as the number of a [`log::Reason`](crate::log::Reason), or 0. Where `ended` is not 0 the log has
    /// no more bytes, and may be cut.
    pub fn oaledva_log_reason(state: *const u64, state_length: usize, ended: u32) -> u64;
    /// The byte at which a log was refused; where it was not, how many bytes were taken.
    pub fn oaledva_log_place(state: *const u64, state_length: usize) -> u64;
    /// Writes an entry's bytes to the start of a buffer of at least [`LOG_ENTRY_BYTES`], or nothing.
    pub fn oaledva_log_write(entry: *const u64, entry_length: usize, bytes: *mut u8, bytes_length: usize)
        -> LogWritten;
    /// Checks a board: which rule is broken first, and where. Nothing of the board is changed. A board whose lengths or limits
    /// are wrong breaks rule 1, whatever the scratch is; for any other, `keys` has max(F, L) words at least and `links` twice as
    /// many, or the call is refused by its own number 1. What they hold before doesn't matter, and what they hold after means
    /// nothing; where the report's number or rule is 1 they are not touched.
    pub fn oaledva_check(
        frames: usize,
        uncached: usize,
        processes: usize,
        lines: usize,
        slots: *const u32,
        slots_length: usize,
        words: *const u64,
        words_length: usize,
        records: *const u64,
        records_length: usize,
        cache: *const u8,
        cache_length: usize,
        memory: *const u8,
        memory_length: usize,
        keys: *mut u64,
        keys_length: usize,
        links: *mut u64,
        links_length: usize,
    ) -> Report;
    /// Repairs a board by dropping lines, and reports what [`oaledva_check`] said of it before and how many lines were dropped.
    /// Where rule 1 or 2 is broken nothing is changed. Else `dropped[i]` is 1 where the line of place i was dropped, and 0
    /// everywhere else: it has exactly L bytes, or the call is refused by its own number 1, as for `keys` and `links`.
    pub fn oaledva_repair(
        frames: usize,
        uncached: usize,
        processes: usize,
        lines: usize,
        slots: *const u32,
        slots_length: usize,
        words: *const u64,
        words_length: usize,
        records: *mut u64,
        records_length: usize,
        cache: *const u8,
        cache_length: usize,
        memory: *const u8,
        memory_length: usize,
        keys: *mut u64,
        keys_length: usize,
        links: *mut u64,
        links_length: usize,
        dropped: *mut u8,
        dropped_length: usize,
    ) -> Report;
}
