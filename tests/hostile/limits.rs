//! 01's numbers, with P and L by CR 7, and those of CR 1, CR 2, CR 4, CR 5, CR 8, CR 9 and CR 12, written out again: what the
//! test tries must not move with a mistake in the model.

use model::{Edition, Matrix};

pub const PAGE_BYTES: u64 = 4096;
pub const LINE_BYTES: u64 = 16;
pub const LINES_PER_PAGE: u64 = 256;
pub const PAGES_PER_SEGMENT: u64 = 1024;
pub const SEGMENT_SPAN: u64 = 1 << 22;
pub const SLOTS: u64 = 512;

pub const FRAMES_MAX: u64 = 1_048_576;
pub const PROCESSES_MAX: u64 = 64;
pub const LINES_MAX: u64 = 65_536;

pub const SEGMENT_FIRST: u64 = 2048;
pub const SEGMENT_LAST: u64 = 4_190_207;
pub const PAGE_FIRST: u64 = 0x20_0000;
pub const PAGE_LAST: u64 = 0xFFBF_FFFF;

/// Page numbers end here, and the page of frame 0's prefix 1 range; pages whose low 20 bits are the same are alike.
pub const PAGES_END: u64 = 1 << 32;
pub const PREFIX1_PAGE: u64 = 0x10_0000;
pub const ALIKE: u64 = 1 << 20;

/// The pages at the ends of what CR 5 refuses: the first and the last that have no entry, the first and the last that have one,
/// the first number that is no page, and one that, cut to 32 bits, would be a page with an entry.
pub const ENTRY_PAGES: [u64; 6] = [0, 0x1F_FFFF, 0x20_0000, 0xFFFF_FFFF, 0x1_0000_0000, 0x1_0020_0000];

/// The pages at the ends of what move takes: outside, the first and the last below and the first above, the first number that is no
/// page, and one that, cut to 32 bits, would be inside; and the first and the last inside.
pub const MOVE_PAGES: [u64; 7] = [0, 0x1F_FFFF, 0xFFC0_0000, 0x1_0000_0000, 0x1_0020_0000, PAGE_FIRST, PAGE_LAST];

/// User addresses end here, global addresses and line names there.
pub const USER_END: u32 = 0x8000_0000;
pub const GLOBAL_END: u64 = 1 << 44;
pub const NAMES_END: u64 = 1 << 40;

/// The editions of the cache, by CR 4, as traces name them: one line to a place, which is a set of one here; sets of four.
pub const EDITIONS: [(Edition, &str); 2] = [(Edition::Ones, "ones"), (Edition::Fours, "fours")];

/// How many lines a set has.
pub const fn set_lines(edition: Edition) -> u64 {
    match edition {
        Edition::Ones => 1,
        Edition::Fours => 4,
    }
}

/// How many sets so many lines are: as many as places.
pub fn sets_of(edition: Edition, lines: u64) -> u64 {
    lines / set_lines(edition)
}

/// How many matrices so many lines have, each of sixteen bytes. Of an L that is none, as many as there are in 4 × L bytes, as 64
/// bits.
pub fn matrices(edition: Edition, lines: u64) -> u64 {
    match edition {
        Edition::Ones => 0,
        Edition::Fours => lines.wrapping_mul(4) / MATRIX_BYTES as u64,
    }
}

pub const MATRIX_BYTES: usize = 16;

/// Matrices as the bytes that they are: row after row.
pub fn matrix_bytes(matrices: &[Matrix]) -> &[u8] {
    // Safety: a matrix is so many bytes without gaps.
    unsafe { std::slice::from_raw_parts(matrices.as_ptr().cast(), MATRIX_BYTES * matrices.len()) }
}

/// Where the bytes of a line stand, in memory by its number and in the cache bytes by that of its record.
pub fn line_bytes(line: u64) -> std::ops::Range<usize> {
    (line * LINE_BYTES) as usize..((line + 1) * LINE_BYTES) as usize
}

/// Where the bytes of a frame stand in memory.
pub fn frame_bytes(frame: u64) -> std::ops::Range<usize> {
    (frame * PAGE_BYTES) as usize..((frame + 1) * PAGE_BYTES) as usize
}

/// The physical line that a name has where its page is in this frame.
pub fn line_in(frame: u64, name: u64) -> u64 {
    frame * LINES_PER_PAGE + name % LINES_PER_PAGE
}

/// The first value that is too large for a store of this width, by CR 2; other numbers are no widths.
pub fn end_of_width(width: u32) -> Option<u64> {
    match width {
        1 => Some(0x100),
        2 => Some(0x1_0000),
        4 => Some(0x1_0000_0000),
        _ => None,
    }
}

/// The widths, then some numbers that are none; and the values at the ends of what the widths hold.
pub const WIDTHS: [u32; 8] = [1, 2, 4, 0, 3, 5, 8, u32::MAX];
pub const VALUES: [u32; 5] = [0xFF, 0x100, 0xFFFF, 0x1_0000, u32::MAX];

/// An access of a list has five words, by CR 12.
pub const ACCESS_WORDS: usize = 5;

/// The marks are 0 to 4, by CR 8, and 1 is the mark of a hit.
pub const MARKS: usize = 5;
pub const HIT: u32 = 1;

/// Where prefix 1 begins and where it ends, and where the page table region begins, as global addresses.
pub const PREFIX1: u64 = 0x1_0000_0000;
pub const PREFIX1_END: u64 = 0x2_0000_0000;
pub const PAGE_TABLE: u64 = 0xFFC_0000_0000;

// ----- logs, by CR 1 -----

/// What a field of an entry may be.
#[derive(Clone, Copy, Debug, PartialEq, Eq)]
pub enum Limit {
    /// Any number.
    Any,
    /// Load or store: 0 or 1.
    LoadOrStore,
    /// A write bit: 0 or 1.
    Flag,
    /// Below 2^32.
    Short,
    /// Below 2^32, and 0 in a load.
    Value,
}

use Limit::{Any, Flag, LoadOrStore, Short, Value};

/// The header, which has no kind of its own in a log, then the kinds from 1 to 12: in words, with their fields.
pub const ENTRIES: [(&str, &[(&str, Limit)]); 13] = [
    ("header", &[("F", Any), ("U", Any), ("P", Any), ("L", Any)]),
    (
        "user access",
        &[("process", Any), ("load or store", LoadOrStore), ("width", Short), ("address", Short), ("value", Value)],
    ),
    ("supervisor access", &[("load or store", LoadOrStore), ("width", Short), ("address", Any), ("value", Value)]),
    ("attach", &[("process", Any), ("slot", Any), ("segment", Any), ("write bit", Flag)]),
    ("detach", &[("process", Any), ("slot", Any)]),
    ("map", &[("page", Any), ("frame", Any), ("write bit", Flag)]),
    ("unmap", &[("page", Any)]),
    ("protect", &[("page", Any), ("write bit", Flag)]),
    ("flush all", &[]),
    ("tag", &[("line name", Any)]),
    ("load-and-map", &[("physical line", Any)]),
    ("drop tag", &[]),
    ("move", &[("page", Any), ("new page", Any)]),
];

/// The kind of a move, by CR 9; and the first number above the kinds.
pub const MOVE: u64 = 12;
pub const NO_KIND: u64 = ENTRIES.len() as u64;

/// The fields of a kind, the header being 0; none where there is no such kind.
pub fn fields_of(kind: u64) -> &'static [(&'static str, Limit)] {
    usize::try_from(kind).ok().and_then(|kind| ENTRIES.get(kind)).map_or(&[], |(_, fields)| fields)
}

/// The first number that is too large for a field, or none; of a value in a load or in a store.
pub fn end_of_field(limit: Limit, load: bool) -> Option<u64> {
    match limit {
        Any => None,
        LoadOrStore | Flag => Some(2),
        Value if load => Some(1),
        Short | Value => Some(1 << 32),
    }
}

/// A number has ten bytes at most.
pub const NUMBER_BYTES: usize = 10;

/// The reasons for which a log or an entry is refused.
pub mod reason {
    pub const MISFIT: u64 = 1;
    pub const PADDED: u64 = 2;
    pub const TENTH_BYTE: u64 = 3;
    pub const CUT: u64 = 4;
    pub const UNKNOWN_KIND: u64 = 5;
    pub const TOO_LARGE: u64 = 6;
}

/// As numbers, an entry is the kind and five fields. Written, it needs so much room.
pub const ENTRY_WORDS: usize = 6;
pub const ENTRY_BYTES: usize = 60;

/// A reader's state: how many bytes it has taken, how many groups of a number it has and their worth, how many of an entry's
/// words, those words, and why it refuses. The state of a reader that has taken nothing.
pub const STATE_WORDS: usize = 11;
pub const FRESH_STATE: [u64; STATE_WORDS] = [0, 0, 0, 1, 0, 0, 0, 0, 0, 0, 0];

/// What reading gives where the buffers don't fit.
pub const MISFIT: u64 = u64::MAX;
