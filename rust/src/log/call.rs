use super::{Entry, Kind};
use crate::ffi::{self, Access};
use crate::Shape;

/// A call, as a log has it: a method of [`Board`](crate::Board) with its arguments. [`Board::perform`](crate::Board::perform)
/// makes it. Its types leave nothing that a log can't hold: a load has no value, and what has 32 bits in a log has them here.
#[derive(Clone, Copy, Debug, PartialEq, Eq, Hash)]
pub enum Call {
    /// A user's load.
    Load {
        /// The process.
        process: usize,
        /// How many bytes: 1, 2 or 4.
        width: u32,
        /// The effective address.
        address: u32,
    },
    /// A user's store.
    Store {
        /// The process.
        process: usize,
        /// How many bytes: 1, 2 or 4.
        width: u32,
        /// The effective address.
        address: u32,
        /// What is stored.
        value: u32,
    },
    /// A supervisor's load.
    SupervisorLoad {
        /// How many bytes: 1, 2 or 4.
        width: u32,
        /// The global address.
        address: u64,
    },
    /// A supervisor's store.
    SupervisorStore {
        /// How many bytes: 1, 2 or 4.
        width: u32,
        /// The global address.
        address: u64,
        /// What is stored.
        value: u32,
    },
    /// Attaches a segment.
    Attach {
        /// The process.
        process: usize,
        /// Its slot.
        slot: usize,
        /// The segment.
        segment: u64,
        /// Whether it may be written.
        write: bool,
    },
    /// Empties a slot.
    Detach {
        /// The process.
        process: usize,
        /// Its slot.
        slot: usize,
    },
    /// Maps a page.
    Map {
        /// The page.
        page: u64,
        /// The frame.
        frame: usize,
        /// Whether it may be written.
        write: bool,
    },
    /// Unmaps a page.
    Unmap {
        /// The page.
        page: u64,
    },
    /// Changes a page's write bit.
    Protect {
        /// The page.
        page: u64,
        /// Whether it may be written.
        write: bool,
    },
    /// Gives a page's frame to a new page: [`Board::move_page`](crate::Board::move_page).
    Move {
        /// The page.
        page: u64,
        /// The new page.
        new_page: u64,
    },
    /// Writes back every changed line and drops all lines.
    FlushAll,
    /// Remembers a line name.
    Tag {
        /// The line name.
        name: u64,
    },
    /// Loads the line of the pending name.
    LoadAndMap {
        /// The physical line.
        line: usize,
    },
    /// Forgets the pending name.
    DropTag,
}

impl Call {
    /// Its kind. A load and a store are of one kind.
    pub fn kind(&self) -> Kind {
        match self {
            Call::Load { .. } | Call::Store { .. } => Kind::UserAccess,
            Call::SupervisorLoad { .. } | Call::SupervisorStore { .. } => Kind::SupervisorAccess,
            Call::Attach { .. } => Kind::Attach,
            Call::Detach { .. } => Kind::Detach,
            Call::Map { .. } => Kind::Map,
            Call::Unmap { .. } => Kind::Unmap,
            Call::Protect { .. } => Kind::Protect,
            Call::Move { .. } => Kind::Move,
            Call::FlushAll => Kind::FlushAll,
            Call::Tag { .. } => Kind::Tag,
            Call::LoadAndMap { .. } => Kind::LoadAndMap,
            Call::DropTag => Kind::DropTag,
        }
    }
}

const LOAD: u64 = 0;
const STORE: u64 = 1;

/// As a log holds calls. Whatever numbers stand in an entry, it may be handed to a [`Writer`](super::Writer), which says what is
/// wrong with it.
impl Entry {
    /// What stands in a reader's room before it is used: no log has it, for it has a kind that there is not.
    pub const NONE: Entry = Entry { kind: u64::MAX, fields: [0; 5] };

    /// The number by which the header is an entry: it is no call's.
    pub const HEADER: u64 = 0;

    /// The four numbers of a board, if this is the header.
    pub fn shape(&self) -> Option<Shape> {
        let Entry { kind: Entry::HEADER, fields: [frames, uncached, processes, lines, 0] } = *self else { return None };
        let [frames, uncached, processes, lines] = [frames, uncached, processes, lines].map(|number| number as usize);
        Some(Shape { frames, uncached, processes, lines })
    }

    /// The call, if this is one. Every entry that a [`Reader`](super::Reader) gives after the first is.
    #[inline(always)]
    pub fn call(&self) -> Option<Call> {
        let word = |number| u32::try_from(number).ok();
        let flag = |number| u8::try_from(number).ok().filter(|&bit| bit <= 1).map(|bit| bit == 1);
        Some(match (Kind::of(self.kind)?, self.fields) {
            (Kind::UserAccess, [process, LOAD, width, address, 0]) => {
                Call::Load { process: process as usize, width: word(width)?, address: word(address)? }
            }
            (Kind::UserAccess, [process, STORE, width, address, value]) => Call::Store {
                process: process as usize,
                width: word(width)?,
                address: word(address)?,
                value: word(value)?,
            },
            (Kind::SupervisorAccess, [LOAD, width, address, 0, 0]) => {
                Call::SupervisorLoad { width: word(width)?, address }
            }
            (Kind::SupervisorAccess, [STORE, width, address, value, 0]) => {
                Call::SupervisorStore { width: word(width)?, address, value: word(value)? }
            }
            (Kind::Attach, [process, slot, segment, write, 0]) => {
                Call::Attach { process: process as usize, slot: slot as usize, segment, write: flag(write)? }
            }
            (Kind::Detach, [process, slot, 0, 0, 0]) => Call::Detach { process: process as usize, slot: slot as usize },
            (Kind::Map, [page, frame, write, 0, 0]) => Call::Map { page, frame: frame as usize, write: flag(write)? },
            (Kind::Unmap, [page, 0, 0, 0, 0]) => Call::Unmap { page },
            (Kind::Protect, [page, write, 0, 0, 0]) => Call::Protect { page, write: flag(write)? },
            (Kind::Move, [page, new_page, 0, 0, 0]) => Call::Move { page, new_page },
            (Kind::FlushAll, [0, 0, 0, 0, 0]) => Call::FlushAll,
            (Kind::Tag, [name, 0, 0, 0, 0]) => Call::Tag { name },
            (Kind::LoadAndMap, [line, 0, 0, 0, 0]) => Call::LoadAndMap { line: line as usize },
            (Kind::DropTag, [0, 0, 0, 0, 0]) => Call::DropTag,
            _ => return None,
        })
    }
}

impl From<Shape> for Entry {
    /// The header.
    fn from(shape: Shape) -> Entry {
        let Shape { frames, uncached, processes, lines } = shape;
        let [frames, uncached, processes, lines] = [frames, uncached, processes, lines].map(|number| number as u64);
        Entry { kind: Entry::HEADER, fields: [frames, uncached, processes, lines, 0] }
    }
}

impl From<Call> for Entry {
    fn from(call: Call) -> Entry {
        let fields = match call {
            Call::Load { process, width, address } => [process as u64, LOAD, width.into(), address.into(), 0],
            Call::Store { process, width, address, value } => {
                [process as u64, STORE, width.into(), address.into(), value.into()]
            }
            Call::SupervisorLoad { width, address } => [LOAD, width.into(), address, 0, 0],
            Call::SupervisorStore { width, address, value } => [STORE, width.into(), address, value.into(), 0],
            Call::Attach { process, slot, segment, write } => [process as u64, slot as u64, segment, write.into(), 0],
            Call::Detach { process, slot } => [process as u64, slot as u64, 0, 0, 0],
            Call::Map { page, frame, write } => [page, frame as u64, write.into(), 0, 0],
            Call::Unmap { page } => [page, 0, 0, 0, 0],
            Call::Protect { page, write } => [page, write.into(), 0, 0, 0],
            Call::Move { page, new_page } => [page, new_page, 0, 0, 0],
            Call::FlushAll | Call::DropTag => [0; 5],
            Call::Tag { name } => [name, 0, 0, 0, 0],
            Call::LoadAndMap { line } => [line as u64, 0, 0, 0, 0],
        };
        Entry { kind: call.kind().number().into(), fields }
    }
}

impl From<&Call> for Entry {
    fn from(call: &Call) -> Entry {
        Entry::from(*call)
    }
}

impl From<Access> for Entry {
    /// An access of a list, as the list has it: a load that brings a value has it here too, and then no log can hold it.
    fn from(access: Access) -> Entry {
        let Access { process, kind, width, address, value } = access;
        let store = if kind == ffi::Kind::LOAD { LOAD } else { STORE };
        Entry {
            kind: Kind::UserAccess.number().into(),
            fields: [process.into(), store, width.into(), address.into(), value.into()],
        }
    }
}
