//! Boards on which logs are replayed.

use super::Call;
use crate::{Board, Edition, Mark, Refusal, Shape, USES_BYTES};
use std::alloc::{alloc_zeroed, Layout};
use std::ops::DerefMut;

impl<Slots, Words, Bytes> Board<Slots, Words, Bytes>
where
    Slots: DerefMut<Target = [u32]>,
    Words: DerefMut<Target = [u64]>,
    Bytes: DerefMut<Target = [u8]>,
{
    /// Makes a call of a [log](crate::log): does what the method of its name does, and gives what that gives, the value or the
    /// refusal; 0 where the method gives no value. [`Board::mark`] is then the call's.
    ///
    /// ```
    /// # use oaledva::{Board, Refusal, Shape};
    /// use oaledva::log::Call;
    /// # let mut board = Board::new(Shape { frames: 4, uncached: 1, processes: 2, lines: 2 })?;
    /// assert_eq!(board.perform(&Call::Map { page: 0x200000, frame: 1, write: true }), Ok(0));
    /// assert_eq!(board.perform(&Call::Load { process: 1, width: 1, address: 3 }), Err(Refusal::SlotEmpty));
    /// # Ok::<(), Refusal>(())
    /// ```
    #[inline]
    pub fn perform(&mut self, call: &Call) -> Result<u32, Refusal> {
        let done = match *call {
            Call::Load { process, width, address } => return self.load(process, width, address),
            Call::Store { process, width, address, value } => self.store(process, width, address, value),
            Call::SupervisorLoad { width, address } => return self.supervisor_load(width, address),
            Call::SupervisorStore { width, address, value } => self.supervisor_store(width, address, value),
            Call::Attach { process, slot, segment, write } => self.attach(process, slot, segment, write),
            Call::Detach { process, slot } => self.detach(process, slot),
            Call::Map { page, frame, write } => self.map(page, frame, write),
            Call::Unmap { page } => self.unmap(page),
            Call::Protect { page, write } => self.protect(page, write),
            Call::Move { page, new_page } => self.move_page(page, new_page),
            Call::FlushAll => self.flush_all(),
            Call::Tag { name } => self.tag(name),
            Call::LoadAndMap { line } => self.load_and_map(line),
            Call::DropTag => self.drop_tag(),
        };
        done.map(|()| 0)
    }
}

impl Board {
    /// A board on which to replay a [log](crate::log), of the shape that its header has. As [`Board::new`], with two
    /// differences. Where a number is out of its limits it gives a board without buffers, on which every call is refused by
    /// [`Refusal::Shape`], as it was when it was logged. And where there is no memory it says so, and the program goes on.
    pub fn for_replay(shape: Shape) -> Result<Board, NoMemory> {
        Board::for_replay_in(Edition::OnePlace, shape)
    }

    /// The same in either edition. A log says nothing of editions: its calls may be made again in both, and get the same numbers
    /// and values; only the marks may differ. In sets of four, fewer than 4 lines are out of the limits too.
    pub fn for_replay_in(edition: Edition, shape: Shape) -> Result<Board, NoMemory> {
        let bare = Board {
            shape,
            edition,
            slots: Vec::new(),
            words: Vec::new(),
            records: Vec::new(),
            cache: Vec::new(),
            memory: Vec::new(),
            uses: Vec::new(),
            pending: None,
            mark: Mark::NoAccess,
        };
        if !shape.keeps_limits_in(edition) {
            return Ok(bare);
        }
        let fresh = || {
            Some(Board {
                slots: zeros(shape.slots())?,
                words: zeros(shape.words())?,
                records: zeros(shape.records())?,
                cache: zeros(shape.cache())?,
                memory: zeros(shape.memory())?,
                uses: zeros(USES_BYTES * edition.uses(&shape))?,
                ..bare
            })
        };
        fresh().ok_or(NoMemory { edition, shape })
    }
}

/// So many zeros, as the system has them: it finds the memory for them when they are first touched. `None` where it has none.
fn zeros<T: Zero>(length: usize) -> Option<Vec<T>> {
    if length == 0 {
        return Some(Vec::new());
    }
    let layout = Layout::array::<T>(length).ok()?;
    // Safety: the length is not 0, and no such type has size 0.
    let start = unsafe { alloc_zeroed(layout) }.cast::<T>();
    // Safety: the vector's own allocator gave this, by the layout of so many elements, each of which is 0, which `T` has.
    (!start.is_null()).then(|| unsafe { Vec::from_raw_parts(start, length, length) })
}

/// Numbers, whose bytes are 0 where they are.
trait Zero {}

impl Zero for u8 {}
impl Zero for u32 {}
impl Zero for u64 {}

/// There is no memory for a board that a log asks for.
#[derive(Clone, Copy, Debug, PartialEq, Eq)]
pub struct NoMemory {
    edition: Edition,
    shape: Shape,
}

impl NoMemory {
    /// How many bytes it takes.
    pub fn bytes(&self) -> usize {
        let (shape, word) = (self.shape, std::mem::size_of::<u64>());
        let slots = std::mem::size_of::<u32>() * shape.slots();
        let uses = USES_BYTES * self.edition.uses(&shape);
        word * (shape.words() + shape.records()) + slots + shape.cache() + shape.memory() + uses
    }
}

impl std::fmt::Display for NoMemory {
    fn fmt(&self, f: &mut std::fmt::Formatter) -> std::fmt::Result {
        write!(f, "a board of {} frames takes {} bytes, and there is no memory for it", self.shape.frames, self.bytes())
    }
}

impl std::error::Error for NoMemory {}
