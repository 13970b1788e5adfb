#![doc = include_str!("../README.md")]
#![deny(missing_docs)]
#[cfg(not(all(target_arch = "x86_64", target_os = "linux", target_pointer_width = "64")))]
compile_error!("the static library is for x86-64 Linux: build with --target x86_64-unknown-linux-gnu");

pub mod dump;
mod edition;
pub mod ffi;
pub mod log;
mod mark;
mod numbered;
mod refusal;
mod rule;

pub use edition::Edition;
pub use ffi::{Access, Answer, Uses};
use ffi::{Kind, Permission, Report, Stands};
pub use mark::Mark;
pub use refusal::Refusal;
pub use rule::{Broken, CheckError, Repaired, Rule, Scratch};
use std::ops::DerefMut;

/// The four numbers of a board.
#[derive(Clone, Copy, Debug, PartialEq, Eq)]
pub struct Shape {
    /// F, frames of 4096 bytes: 1 to [`Shape::FRAMES_MAX`].
    pub frames: usize,
    /// U, frames reached only uncached: 0 to F.
    pub uncached: usize,
    /// P, processes: 1 to [`Shape::PROCESSES_MAX`].
    pub processes: usize,
    /// L, lines of 16 bytes: 1 to [`Shape::LINES_MAX`], a power of two.
    pub lines: usize,
}

impl Shape {
    /// The most frames.
    pub const FRAMES_MAX: usize = 1_048_576;
    /// The most processes.
    pub const PROCESSES_MAX: usize = 64;
    /// The most lines.
    pub const LINES_MAX: usize = 65_536;

    /// Whether the four numbers keep the limits. A board of another shape answers [`Refusal::Shape`] to every call.
    pub fn keeps_limits(&self) -> bool {
        (1..=Self::FRAMES_MAX).contains(&self.frames)
            && self.uncached <= self.frames
            && (1..=Self::PROCESSES_MAX).contains(&self.processes)
            && self.lines <= Self::LINES_MAX
            && self.lines.is_power_of_two()
    }

    /// Whether they keep those of an edition: in sets of four there are four lines at least.
    pub fn keeps_limits_in(&self, edition: Edition) -> bool {
        self.keeps_limits() && (edition == Edition::OnePlace || self.lines >= SET_LINES)
    }

    /// How many slot words such a board has.
    pub const fn slots(&self) -> usize {
        512 * self.processes
    }

    /// How many frame words.
    pub const fn words(&self) -> usize {
        self.frames
    }

    /// How many record words: a name, then physical line × 8 + changed × 4 + write × 2 + valid.
    pub const fn records(&self) -> usize {
        2 * self.lines
    }

    /// How many cache bytes.
    pub const fn cache(&self) -> usize {
        LINE_BYTES * self.lines
    }

    /// How many bytes of memory. (These five, and [`Shape::links`], are for numbers within the limits.)
    pub const fn memory(&self) -> usize {
        4096 * self.frames
    }

    /// How many matrices, in sets of four: one for each set. In the other edition a board has none.
    pub const fn uses(&self) -> usize {
        self.lines / SET_LINES
    }

    /// How many keys a check takes as scratch, at least: one for each frame, or for each line where these are more.
    pub const fn keys(&self) -> usize {
        if self.frames < self.lines {
            self.lines
        } else {
            self.frames
        }
    }

    /// How many links: two for each key. (Scratch of the largest board has 24 MiB.)
    pub const fn links(&self) -> usize {
        2 * self.keys()
    }
}

/// Bytes of a line.
pub const LINE_BYTES: usize = 16;

/// Lines of a set, in [`Edition::SetsOfFour`].
pub const SET_LINES: usize = 4;

/// A board. `Board` alone owns its buffers ([`Board::new`], [`Board::sets_of_four`]); [`Lent`] is the same over the caller's own.
#[derive(Clone, Debug)]
pub struct Board<Slots = Vec<u32>, Words = Vec<u64>, Bytes = Vec<u8>> {
    shape: Shape,
    edition: Edition,
    slots: Slots,
    words: Words,
    records: Words,
    cache: Bytes,
    memory: Bytes,
    /// The matrices, as bytes: so a board of either edition is of the same type. In an edition that has none it is empty.
    uses: Bytes,
    pending: Option<u64>,
    mark: Mark,
}

/// Boards are equal if their editions, numbers, buffers and tags are: the mark of the last call is no part of the board.
impl<Slots: PartialEq, Words: PartialEq, Bytes: PartialEq> PartialEq for Board<Slots, Words, Bytes> {
    fn eq(&self, other: &Self) -> bool {
        let numbers = |board: &Self| (board.edition, board.shape, board.pending);
        numbers(self) == numbers(other)
            && self.slots == other.slots
            && self.words == other.words
            && self.records == other.records
            && self.cache == other.cache
            && self.memory == other.memory
            && self.uses == other.uses
    }
}

impl<Slots: Eq, Words: Eq, Bytes: Eq> Eq for Board<Slots, Words, Bytes> {}

/// A board over buffers that the caller lends: made by [`Lent::over`] or [`Lent::over_sets_of_four`].
pub type Lent<'a> = Board<&'a mut [u32], &'a mut [u64], &'a mut [u8]>;

impl Board {
    /// A fresh board, its memory zero. Refused by [`Refusal::Shape`] if a number is out of its limits. As with any vector, the
    /// program ends where there is no memory for it; [`Lent::over`] takes memory of yours, and [`Board::for_replay`] says so.
    pub fn new(shape: Shape) -> Result<Board, Refusal> {
        Board::fresh(Edition::OnePlace, shape)
    }

    /// The same with sets of four, [`Edition::SetsOfFour`]: fewer than 4 lines are out of the limits too. Choose it where busy
    /// pages push each other out.
    ///
    /// ```
    /// use oaledva::{Board, Refusal, Shape};
    ///
    /// let mut board = Board::sets_of_four(Shape { frames: 4, uncached: 1, processes: 2, lines: 256 })?;
    /// board.attach(0, 0, 2048, true)?;
    /// for frame in 1..=2 {
    ///     board.map(0x1FFFFF + frame as u64, frame, true)?; // two pages
    ///     board.load(0, 4, 4096 * (frame as u32 - 1))?; // the first line of each: 256 lines apart, so of one set
    /// }
    /// board.load(0, 4, 0)?;
    /// assert!(board.hit()); // the second page's line stands beside it
    /// # Ok::<(), Refusal>(())
    /// ```
    pub fn sets_of_four(shape: Shape) -> Result<Board, Refusal> {
        Board::fresh(Edition::SetsOfFour, shape)
    }

    fn fresh(edition: Edition, shape: Shape) -> Result<Board, Refusal> {
        if !shape.keeps_limits_in(edition) {
            return Err(Refusal::Shape);
        }
        Ok(Board {
            shape,
            edition,
            slots: vec![0; shape.slots()],
            words: vec![0; shape.words()],
            records: vec![0; shape.records()],
            cache: vec![0; shape.cache()],
            memory: vec![0; shape.memory()],
            uses: vec![0; USES_BYTES * edition.uses(&shape)],
            pending: None,
            mark: Mark::NoAccess,
        })
    }
}

impl<'a> Lent<'a> {
    /// The board that stands in these buffers, with the line name that is pending, if one is. Nothing is asked of them here:
    /// where shape and lengths don't agree, each call answers [`Refusal::Shape`] and changes nothing. For a fresh board, slots
    /// and words are 0 and no record is valid.
    ///
    /// The lengths pin `frames`, `processes` and `lines`, but not `uncached`, which belongs to the board: what is promised of a
    /// run of calls holds where the same buffers are always lent with the same `uncached`, and nobody else changes them
    /// between two calls.
    pub fn over(
        shape: Shape,
        slots: &'a mut [u32],
        words: &'a mut [u64],
        records: &'a mut [u64],
        cache: &'a mut [u8],
        memory: &'a mut [u8],
        pending: Option<u64>,
    ) -> Lent<'a> {
        let (edition, uses) = (Edition::OnePlace, &mut [][..]);
        Board { shape, edition, slots, words, records, cache, memory, uses, pending, mark: Mark::NoAccess }
    }

    /// The same with sets of four, [`Edition::SetsOfFour`], and the matrices: one for each set ([`Shape::uses`]), all 0 for a
    /// fresh board.
    ///
    /// ```
    /// use oaledva::{Lent, Refusal, Shape};
    ///
    /// let shape = Shape { frames: 4, uncached: 1, processes: 2, lines: 8 };
    /// let (mut slots, mut words) = (vec![0; shape.slots()], vec![0; shape.words()]);
    /// let (mut records, mut cache) = (vec![0; shape.records()], vec![0; shape.cache()]);
    /// let (mut memory, mut uses) = (vec![0; shape.memory()], vec![[[0; 4]; 4]; shape.uses()]);
    /// let mut board = Lent::over_sets_of_four(
    ///     shape, &mut slots, &mut words, &mut records, &mut cache, &mut memory, &mut uses, None,
    /// );
    /// for line in 0..2 {
    ///     board.supervisor_load(4, (1 << 32) + 4096 + 32 * line)?; // under prefix 1: both of set 0
    /// }
    /// assert_eq!(uses[0], [[0, 0, 1, 1], [1, 0, 1, 1], [0; 4], [0; 4]]); // line 1 was used after line 0
    /// # Ok::<(), Refusal>(())
    /// ```
    #[allow(clippy::too_many_arguments)] // each buffer by itself
    pub fn over_sets_of_four(
        shape: Shape,
        slots: &'a mut [u32],
        words: &'a mut [u64],
        records: &'a mut [u64],
        cache: &'a mut [u8],
        memory: &'a mut [u8],
        uses: &'a mut [Uses],
        pending: Option<u64>,
    ) -> Lent<'a> {
        let (bytes, start) = (std::mem::size_of_val(uses), uses.as_mut_ptr().cast());
        // Safety: a matrix is so many bytes without gaps; they are borrowed as the matrices were, and for as long.
        let uses = unsafe { std::slice::from_raw_parts_mut(start, bytes) };
        let edition = Edition::SetsOfFour;
        Board { shape, edition, slots, words, records, cache, memory, uses, pending, mark: Mark::NoAccess }
    }
}

const USES_BYTES: usize = std::mem::size_of::<Uses>();

/// Calls a function of [`ffi`] on the shape and the buffers of a board, then the arguments: the first on a board where a line has
/// one place, the second on one with sets of four. `as_ptr` is for calls that change nothing, `as_mut_ptr` for the others.
macro_rules! call {
    ($board:ident, $pointer:ident, $one_place:ident / $sets:ident($($argument:expr),*)) => {
        match $board.edition {
            Edition::OnePlace => call!(@ $board, $pointer, $one_place $(, $argument)*),
            Edition::SetsOfFour => {
                let uses = $board.uses.len() / USES_BYTES;
                call!(@ $board, $pointer, $sets, $board.uses.$pointer().cast::<Uses>(), uses $(, $argument)*)
            }
        }
    };
    (@ $board:ident, $pointer:ident, $name:ident $(, $argument:expr)*) => {{
        let (slots, words, records) = ($board.slots.len(), $board.words.len(), $board.records.len());
        let (cache, memory) = ($board.cache.len(), $board.memory.len());
        // Safety: the buffers are those of `Board`'s makers or `Lent`'s (the fields are private): vectors or slices, so they
        // are valid and aligned, and a length doesn't change from one line to the next; a matrix is so many bytes, of no
        // alignment. Those that a call may write are borrowed mutably through the board, so they are apart from all else. The
        // tag's two words, where a call may write them, are locals of the method. The accesses and answers of a list are slices
        // of its caller: the answers are borrowed mutably beside the board, so they too are apart from all else, and each
        // access is so many words without gaps, whose number fits because the slice's bytes do. So is the scratch of a check.
        unsafe {
            ffi::$name(
                $board.shape.frames,
                $board.shape.uncached,
                $board.shape.processes,
                $board.shape.lines,
                $board.slots.$pointer(),
                slots,
                $board.words.$pointer(),
                words,
                $board.records.$pointer(),
                records,
                $board.cache.$pointer(),
                cache,
                $board.memory.$pointer(),
                memory
                $(, $argument)*
            )
        }
    }};
}

impl<Slots, Words, Bytes> Board<Slots, Words, Bytes>
where
    Slots: DerefMut<Target = [u32]>,
    Words: DerefMut<Target = [u64]>,
    Bytes: DerefMut<Target = [u8]>,
{
    /// A user's load of `width` bytes (1, 2 or 4), most significant first.
    pub fn load(&mut self, process: usize, width: u32, address: u32) -> Result<u32, Refusal> {
        self.user_access(process, Kind::LOAD, width, address, 0)
    }

    /// A user's store of a value as `width` bytes (1, 2 or 4), most significant first. A value that does not fit, 256 or more at
    /// width 1 or 65,536 or more at width 2, is refused by [`Refusal::Range`], whatever the address is, also while a tag is
    /// pending.
    ///
    /// ```
    /// # use oaledva::{Board, Refusal, Shape};
    /// # let mut board = Board::new(Shape { frames: 4, uncached: 1, processes: 2, lines: 2 })?;
    /// # board.map(0x200000, 1, true)?;
    /// # board.attach(0, 0, 2048, true)?;
    /// board.store(0, 1, 3, 255)?;
    /// assert_eq!(board.store(0, 1, 3, 256), Err(Refusal::Range));
    /// assert_eq!(board.load(0, 1, 3), Ok(255));
    /// # Ok::<(), Refusal>(())
    /// ```
    pub fn store(&mut self, process: usize, width: u32, address: u32, value: u32) -> Result<(), Refusal> {
        self.user_access(process, Kind::STORE, width, address, value).map(drop)
    }

    /// Many users' accesses in one call, to feed a run of samples or to replay a log. They are done in their order, each as
    /// [`Board::load`] or [`Board::store`] does it on the board that the one before left, and each gets its [`Answer`] at its
    /// place in `answers`, whatever stood there. A refused access changes nothing, and those after it are done all the same:
    /// `Ok` says that the list was done, and each answer how its access went.
    ///
    /// ```
    /// # use oaledva::{Board, Refusal, Shape};
    /// use oaledva::{Access, Answer, Mark};
    /// # let mut board = Board::new(Shape { frames: 4, uncached: 1, processes: 2, lines: 2 })?;
    /// # board.map(0x200000, 1, true)?;
    /// # board.attach(0, 0, 2048, true)?;
    /// let list = [Access::store(0, 4, 0, 50), Access::load(1, 1, 3), Access::load(0, 1, 3)];
    /// let mut answers = [Answer::NONE; 3];
    /// board.accesses(&list, &mut answers)?;
    /// assert_eq!(answers.map(Answer::outcome), [Ok(0), Err(Refusal::SlotEmpty), Ok(50)]);
    /// assert_eq!(answers.map(Answer::marked), [Mark::Refilled, Mark::NoAccess, Mark::Hit]);
    /// # Ok::<(), Refusal>(())
    /// ```
    ///
    /// The list as a whole is refused by [`Refusal::Shape`] alone: where it has not as many accesses as answers, or where a
    /// single access on this board would be. Then nothing is done, and no answer is written. It is no access itself, so
    /// [`Board::mark`] is [`Mark::NoAccess`] after it.
    ///
    /// ```
    /// # use oaledva::{Access, Answer, Board, Refusal, Shape};
    /// # let mut board = Board::new(Shape { frames: 4, uncached: 1, processes: 2, lines: 2 })?;
    /// let mut answers = [Answer::NONE; 2];
    /// assert_eq!(board.accesses(&[Access::load(0, 1, 3)], &mut answers), Err(Refusal::Shape));
    /// assert_eq!(answers, [Answer::NONE; 2]);
    /// # Ok::<(), Refusal>(())
    /// ```
    pub fn accesses(&mut self, accesses: &[Access], answers: &mut [Answer]) -> Result<(), Refusal> {
        let (set, name) = self.tag_words();
        let (words, room) = (ffi::ACCESS_WORDS * accesses.len(), answers.len());
        let answer = call!(
            self,
            as_mut_ptr,
            oaledva_user_accesses
                / oaledva_sets_user_accesses(set, name, accesses.as_ptr().cast(), words, answers.as_mut_ptr(), room)
        );
        self.answer(answer).map(drop)
    }

    /// A supervisor's load by global address: ordinary, prefix 0 (uncached) or prefix 1 (cached).
    pub fn supervisor_load(&mut self, width: u32, address: u64) -> Result<u32, Refusal> {
        self.supervisor_access(Kind::LOAD, width, address, 0)
    }

    /// A supervisor's store by global address. The page's write bit is not asked; the value is, as in [`Board::store`].
    pub fn supervisor_store(&mut self, width: u32, address: u64, value: u32) -> Result<(), Refusal> {
        self.supervisor_access(Kind::STORE, width, address, value).map(drop)
    }

    /// Attaches a segment to a slot of a process; replaces what was there.
    pub fn attach(&mut self, process: usize, slot: usize, segment: u64, write: bool) -> Result<(), Refusal> {
        let answer =
            call!(self, as_mut_ptr, oaledva_attach / oaledva_sets_attach(process, slot, segment, permission(write)));
        self.answer(answer).map(drop)
    }

    /// Empties a slot of a process; an empty one stays empty.
    pub fn detach(&mut self, process: usize, slot: usize) -> Result<(), Refusal> {
        let answer = call!(self, as_mut_ptr, oaledva_detach / oaledva_sets_detach(process, slot));
        self.answer(answer).map(drop)
    }

    /// Maps a page to a frame, which is filled with zeros. At most 512 of the cache's records are visited, however many it has;
    /// in sets of four, 512 of its sets.
    pub fn map(&mut self, page: u64, frame: usize, write: bool) -> Result<(), Refusal> {
        let answer = call!(self, as_mut_ptr, oaledva_map / oaledva_sets_map(page, frame, permission(write)));
        self.answer(answer).map(drop)
    }

    /// Unmaps a page: its changed lines are written back, its lines dropped, its frame freed. At most 256 records are visited, or
    /// sets.
    pub fn unmap(&mut self, page: u64) -> Result<(), Refusal> {
        let answer = call!(self, as_mut_ptr, oaledva_unmap / oaledva_sets_unmap(page));
        self.answer(answer).map(drop)
    }

    /// Changes the write bit of a page and of its held lines. At most 256 records are visited, or sets.
    pub fn protect(&mut self, page: u64, write: bool) -> Result<(), Refusal> {
        let answer = call!(self, as_mut_ptr, oaledva_protect / oaledva_sets_protect(page, permission(write)));
        self.answer(answer).map(drop)
    }

    /// Moves a page, to hand it over: its frame gets the new page, with the same write bit, and keeps its bytes; nothing is
    /// copied. First the changed lines of both pages are written back, and their lines dropped. At most 512 records are visited,
    /// or sets. A page is never moved to itself: [`Refusal::MappedAlready`], or [`Refusal::NotMapped`] where it isn't mapped.
    pub fn move_page(&mut self, page: u64, new_page: u64) -> Result<(), Refusal> {
        let answer = call!(self, as_mut_ptr, oaledva_move / oaledva_sets_move(page, new_page));
        self.answer(answer).map(drop)
    }

    /// Writes back every changed line and drops all lines. Every record is visited.
    pub fn flush_all(&mut self) -> Result<(), Refusal> {
        let answer = call!(self, as_mut_ptr, oaledva_flush_all / oaledva_sets_flush_all());
        self.answer(answer).map(drop)
    }

    /// Remembers a line name: the first part of a load in two parts.
    pub fn tag(&mut self, name: u64) -> Result<(), Refusal> {
        let mut tag = self.tag_words();
        let answer = call!(self, as_mut_ptr, oaledva_tag / oaledva_sets_tag(&mut tag.0, &mut tag.1, name));
        self.tagged_answer(answer, tag)
    }

    /// Loads the line of the pending name from the physical line to which it is mapped, and forgets the name.
    pub fn load_and_map(&mut self, line: usize) -> Result<(), Refusal> {
        let mut tag = self.tag_words();
        let answer =
            call!(self, as_mut_ptr, oaledva_load_and_map / oaledva_sets_load_and_map(&mut tag.0, &mut tag.1, line));
        self.tagged_answer(answer, tag)
    }

    /// Forgets the pending name.
    pub fn drop_tag(&mut self) -> Result<(), Refusal> {
        let mut tag = self.tag_words();
        let answer = call!(self, as_mut_ptr, oaledva_drop_tag / oaledva_sets_drop_tag(&mut tag.0, &mut tag.1));
        self.tagged_answer(answer, tag)
    }

    /// The current sixteen bytes of a physical line: that part of the cache bytes or of memory itself.
    pub fn look(&self, line: usize) -> Result<&[u8; LINE_BYTES], Refusal> {
        let (bytes, at) = match call!(self, as_ptr, oaledva_look / oaledva_sets_look(line)).stands() {
            Stands::InCache(at) => (&self.cache[..], at),
            Stands::InMemory(at) => (&self.memory[..], at),
            Stands::Nowhere => return Err(Refusal::of(self.look_number(line)).expect("look is refused")),
        };
        Ok(bytes[at..at + LINE_BYTES].try_into().expect("sixteen bytes"))
    }

    /// The number of such a look: 0, 1 or 2.
    pub fn look_number(&self, line: usize) -> u32 {
        call!(self, as_ptr, oaledva_look_number / oaledva_sets_look_number(line)).number
    }

    /// Checks the board, one that the field brought back, say: whether it keeps every [`Rule`]. On no, it gives the first rule that
    /// is broken, and the lowest frame or place that breaks it. Nothing is changed, and a pending tag is not asked.
    ///
    /// A board that calls have made from a fresh one is sound. Of a sound board all is promised that is promised of such a
    /// board: what a load gives is what was stored, and no process sees what others do but through what they share. A board that
    /// is not sound may answer with old bytes, or with another page's.
    ///
    /// ```
    /// use oaledva::{Board, Broken, Lent, Refusal, Rule, Shape};
    ///
    /// let shape = Shape { frames: 4, uncached: 1, processes: 2, lines: 2 };
    /// let mut board = Board::new(shape)?;
    /// board.map(0x200000, 1, true)?;
    /// board.attach(0, 0, 2048, true)?;
    /// board.load(0, 1, 3)?;
    /// assert_eq!(board.check(), Ok(()));
    ///
    /// // The same buffers, but for a byte of memory behind the cache's back.
    /// let (mut slots, mut words) = (board.slots().to_vec(), board.words().to_vec());
    /// let (mut records, mut cache) = (board.records().to_vec(), board.cache().to_vec());
    /// let mut memory = board.memory().to_vec();
    /// memory[4096 + 3] = 50;
    /// let mut board = Lent::over(shape, &mut slots, &mut words, &mut records, &mut cache, &mut memory, None);
    /// assert_eq!(board.load(0, 1, 3), Ok(0)); // the cache's, and not memory's
    /// let broken = board.check().unwrap_err();
    /// assert_eq!(broken, Broken { rule: Rule::Stale, place: 0 });
    /// assert_eq!(broken.to_string(), "a held line is not marked as changed, and differs from memory (rule 5), at place 0");
    ///
    /// // The repair drops that line: what memory has counts again.
    /// assert_eq!(board.repair().map(|repaired| repaired.dropped), Ok(vec![0]));
    /// assert_eq!((board.check(), board.load(0, 1, 3)), (Ok(()), Ok(50)));
    /// # Ok::<(), Refusal>(())
    /// ```
    ///
    /// [`Rule::Lengths`] says that these buffers are no board of the edition that is checked, in which a line has one place
    /// ([`Edition::OnePlace`]). So does a board with sets of four: it has matrices, one buffer more than that edition knows, and
    /// is never looked into.
    ///
    /// It takes memory for its scratch, and time for a search of some thirty steps at most for each frame and each line;
    /// [`Board::check_with`] takes scratch of yours.
    pub fn check(&self) -> Result<(), Broken> {
        let (mut keys, mut links) = self.scratch();
        self.check_with(&mut keys, &mut links).map_err(broken)
    }

    /// [`Board::check`] for a program that allocates nothing: `keys` has [`Shape::keys`] words or more, `links` has
    /// [`Shape::links`] or more. What they hold before doesn't matter, and what they hold after means nothing.
    ///
    /// There are two ways to get no yes. [`CheckError::Broken`] says that the board breaks a rule, and
    /// [`CheckError::Scratch`] that the scratch is too short, so that the board was not checked. The board's own lengths are
    /// asked first: where they are wrong it is [`Rule::Lengths`], however short the scratch is.
    ///
    /// ```
    /// use oaledva::{Board, CheckError, Refusal, Scratch, Shape};
    ///
    /// let board = Board::new(Shape { frames: 4, uncached: 1, processes: 2, lines: 2 })?;
    /// let (mut keys, mut links) = ([0; 4], [0; 8]);
    /// assert_eq!(board.check_with(&mut keys, &mut links), Ok(()));
    /// let needed = Scratch { keys: 4, links: 8, dropped: 2 };
    /// assert_eq!(board.check_with(&mut keys[..3], &mut links), Err(CheckError::Scratch(needed)));
    /// # Ok::<(), Refusal>(())
    /// ```
    pub fn check_with(&self, keys: &mut [u64], links: &mut [u64]) -> Result<(), CheckError> {
        self.asked()?;
        let report =
            call!(@ self, as_ptr, oaledva_check, keys.as_mut_ptr(), keys.len(), links.as_mut_ptr(), links.len());
        self.fits(report)?;
        report.broken().map_or(Ok(()), |broken| Err(broken.into()))
    }

    /// Makes a board sound by dropping lines, and nothing else: it writes nothing to memory, and slots, words, cache bytes and the
    /// tag stay. By rising place it keeps every line that breaks no rule alone ([`Rule::Astray`], [`Rule::Stale`]) or with a lower
    /// line that is kept ([`Rule::LineTwice`]). Of a line that is dropped memory's bytes count again: what the cache alone had is
    /// lost to calls, though it still stands in the cache bytes. A sound board is left as it is.
    ///
    /// A board that breaks [`Rule::Lengths`] or [`Rule::PageTwice`] is not repaired: that is the `Err`, and nothing is changed.
    /// A board with sets of four is refused by [`Rule::Lengths`], as [`Board::check`] refuses it.
    ///
    /// ```
    /// use oaledva::{Broken, Lent, Refusal, Repaired, Rule, Shape};
    ///
    /// let shape = Shape { frames: 2, uncached: 0, processes: 1, lines: 2 };
    /// let (mut slots, mut words) = (vec![0; shape.slots()], vec![0; shape.words()]);
    /// let (mut cache, mut memory) = (vec![0; shape.cache()], vec![0; shape.memory()]);
    /// words[1] = 0x200000 * 4 + 1; // page 0x200000 has frame 1, read-only
    /// let (valid, write) = (1, 2);
    /// let mut records = vec![
    ///     0x200000 * 256, (256 + 0) * 8 + valid, // place 0 holds its first line
    ///     0x200000 * 256 + 1, (256 + 1) * 8 + valid + write, // place 1 the second, as one that may be written
    /// ];
    /// let mut board = Lent::over(shape, &mut slots, &mut words, &mut records, &mut cache, &mut memory, None);
    /// let before = Some(Broken { rule: Rule::Astray, place: 1 });
    /// assert_eq!(board.repair(), Ok(Repaired { before, dropped: vec![1] }));
    /// assert_eq!(board.repair(), Ok(Repaired { before: None, dropped: vec![] }));
    /// assert_eq!(records[2..], [0, 0]);
    ///
    /// words[0] = words[1]; // the page has two frames: which is the right one?
    /// let mut board = Lent::over(shape, &mut slots, &mut words, &mut records, &mut cache, &mut memory, None);
    /// assert_eq!(board.repair(), Err(Broken { rule: Rule::PageTwice, place: 0 }));
    /// # Ok::<(), Refusal>(())
    /// ```
    pub fn repair(&mut self) -> Result<Repaired, Broken> {
        let (mut keys, mut links) = self.scratch();
        let lines = if self.shape.keeps_limits() { self.shape.lines } else { 0 };
        let mut dropped = vec![0; lines];
        let Repaired { before, .. } = self.repair_with(&mut keys, &mut links, &mut dropped).map_err(broken)?;
        let places = (0..).zip(dropped).filter(|&(_, dropped)| dropped != 0).map(|(place, _)| place);
        Ok(Repaired { before, dropped: places.collect() })
    }

    /// [`Board::repair`] for a program that allocates nothing: `keys` and `links` as of [`Board::check_with`], and `dropped` with
    /// exactly as many bytes as the board has lines. Where the board is repaired, or was sound, `dropped` has 1 for each line that
    /// was dropped and 0 for all others, and the number of ones is given. On an error it is not touched, and nothing of the board
    /// is changed.
    ///
    /// ```
    /// use oaledva::{Board, CheckError, Refusal, Repaired, Shape};
    ///
    /// let mut board = Board::new(Shape { frames: 4, uncached: 1, processes: 2, lines: 2 })?;
    /// let (mut keys, mut links, mut dropped) = ([0; 4], [0; 8], [7; 2]);
    /// let repaired = board.repair_with(&mut keys, &mut links, &mut dropped);
    /// assert_eq!(repaired, Ok(Repaired { before: None, dropped: 0 })); // it was sound
    /// assert_eq!(dropped, [0, 0]);
    /// assert!(matches!(board.repair_with(&mut keys, &mut links, &mut [7; 3]), Err(CheckError::Scratch(_))));
    /// # Ok::<(), Refusal>(())
    /// ```
    pub fn repair_with(
        &mut self,
        keys: &mut [u64],
        links: &mut [u64],
        dropped: &mut [u8],
    ) -> Result<Repaired<usize>, CheckError> {
        self.mark = Mark::NoAccess;
        self.asked()?;
        let report = call!(
            @ self,
            as_mut_ptr,
            oaledva_repair,
            keys.as_mut_ptr(),
            keys.len(),
            links.as_mut_ptr(),
            links.len(),
            dropped.as_mut_ptr(),
            dropped.len()
        );
        self.fits(report)?;
        match report.broken() {
            Some(broken) if !broken.rule.is_mended() => Err(broken.into()),
            before => Ok(Repaired { before, dropped: report.dropped() }),
        }
    }

    /// The mark of the last call but look and check: how it went, if it was an access that was done. [`Mark::NoAccess`] before the
    /// first call.
    ///
    /// ```
    /// # use oaledva::{Board, Mark, Refusal, Shape};
    /// # let mut board = Board::new(Shape { frames: 4, uncached: 1, processes: 2, lines: 2 })?;
    /// # board.map(0x200000, 1, true)?;
    /// # board.attach(0, 0, 2048, true)?;
    /// board.store(0, 4, 0, 50)?;
    /// assert_eq!(board.mark(), Mark::Refilled);
    /// board.load(0, 4, 0)?;
    /// assert_eq!(board.mark(), Mark::Hit);
    /// # Ok::<(), Refusal>(())
    /// ```
    pub fn mark(&self) -> Mark {
        self.mark
    }

    /// Whether that call was an access that found its line held: short for `mark() == Mark::Hit`.
    pub fn hit(&self) -> bool {
        self.mark == Mark::Hit
    }

    /// The pending line name.
    pub fn pending(&self) -> Option<u64> {
        self.pending
    }

    /// Its four numbers.
    pub fn shape(&self) -> Shape {
        self.shape
    }

    /// Where a line may stand in its cache.
    pub fn edition(&self) -> Edition {
        self.edition
    }

    /// The slot words: segment × 2 + write bit, or 0.
    pub fn slots(&self) -> &[u32] {
        &self.slots
    }

    /// The frame words: page × 4 + 2 × write bit + 1, or 0.
    pub fn words(&self) -> &[u64] {
        &self.words
    }

    /// The record words, two for each line.
    pub fn records(&self) -> &[u64] {
        &self.records
    }

    /// The cache bytes.
    pub fn cache(&self) -> &[u8] {
        &self.cache
    }

    /// The memory itself. Changed lines are in the cache bytes: [`Board::look`] gives the current bytes.
    pub fn memory(&self) -> &[u8] {
        &self.memory
    }

    /// The matrices of sets of four: of each set, who was used after whom. None in the other edition.
    pub fn uses(&self) -> &[Uses] {
        let bytes = &self.uses[..];
        // Safety: these are the bytes of so many matrices, which have no alignment; they are borrowed as the bytes are.
        unsafe { std::slice::from_raw_parts(bytes.as_ptr().cast(), bytes.len() / USES_BYTES) }
    }

    // Inlined, and so is the next: a call for each edition, of some twenty arguments, is more than the compiler inlines by itself,
    // and a load that hits would take a seventh more instructions.
    #[inline(always)]
    fn user_access(
        &mut self,
        process: usize,
        kind: Kind,
        width: u32,
        address: u32,
        value: u32,
    ) -> Result<u32, Refusal> {
        let (set, name) = self.tag_words();
        let answer = call!(
            self,
            as_mut_ptr,
            oaledva_user_access / oaledva_sets_user_access(set, name, process, kind, width, address, value)
        );
        self.answer(answer)
    }

    #[inline(always)]
    fn supervisor_access(&mut self, kind: Kind, width: u32, address: u64, value: u32) -> Result<u32, Refusal> {
        let (set, name) = self.tag_words();
        let answer = call!(
            self,
            as_mut_ptr,
            oaledva_supervisor_access / oaledva_sets_supervisor_access(set, name, kind, width, address, value)
        );
        self.answer(answer)
    }

    /// Keys and links for a check, of a board whose numbers ask for some: where they are out of their limits none are looked at.
    fn scratch(&self) -> (Vec<u64>, Vec<u64>) {
        let (keys, links) = if self.shape.keeps_limits() { (self.shape.keys(), self.shape.links()) } else { (0, 0) };
        (vec![0; keys], vec![0; links])
    }

    /// The board is of the edition that is checked.
    fn asked(&self) -> Result<(), Broken> {
        match self.edition {
            Edition::OnePlace => Ok(()),
            Edition::SetsOfFour => Err(Broken { rule: Rule::Lengths, place: 0 }),
        }
    }

    /// The call was not refused for its scratch.
    fn fits(&self, report: Report) -> Result<(), CheckError> {
        match report.number() {
            0 => Ok(()),
            _ => Err(CheckError::Scratch(Scratch::of(&self.shape))),
        }
    }

    /// The tag as the library takes it: `set` and `name`.
    fn tag_words(&self) -> (u32, u64) {
        self.pending.map_or((0, 0), |name| (1, name))
    }

    /// Keeps an answer's mark, and gives its value or its refusal.
    fn answer(&mut self, answer: Answer) -> Result<u32, Refusal> {
        self.mark = answer.marked();
        answer.outcome()
    }

    fn tagged_answer(&mut self, answer: Answer, (set, name): (u32, u64)) -> Result<(), Refusal> {
        self.pending = (set != 0).then_some(name);
        self.answer(answer).map(drop)
    }
}

/// As a list's answers are read.
impl Answer {
    /// What a load or a store by itself gives: the value, 0 for a store, or why it was refused.
    ///
    /// # Panics
    /// At [`Answer::NONE`], which no call has written.
    pub fn outcome(self) -> Result<u32, Refusal> {
        Refusal::of(self.number()).map_or(Ok(self.value()), Err)
    }

    /// How the access went.
    ///
    /// # Panics
    /// At [`Answer::NONE`], which no call has written.
    pub fn marked(self) -> Mark {
        Mark::of(self.mark())
    }
}

/// The global address at which the page table entry of a page stands: 1023 × 2^34 + 4 × page. It asks no board.
///
/// Refused by [`Refusal::Range`]: a page below 0x200000, which lies under prefix 0 or 1 and is never translated, so that it has
/// no entry; and a number from 2^32 up, which is no page. Nothing stands at an entry's address: no tables are kept, and a
/// supervisor's access to it is refused, by [`Refusal::Outside`] if no lower number applies.
pub fn entry_of_page(page: u64) -> Result<u64, Refusal> {
    // Safety: the function takes a number, and nothing is asked of it.
    let entry = unsafe { ffi::oaledva_entry_of_page(page) };
    Refusal::of(entry.number()).map_or(Ok(entry.address()), Err)
}

/// What is wrong with a board that was checked with scratch of its own.
fn broken(error: CheckError) -> Broken {
    match error {
        CheckError::Broken(broken) => broken,
        CheckError::Scratch(_) => unreachable!("the scratch fits the board"),
    }
}

fn permission(write: bool) -> Permission {
    if write {
        Permission::WRITABLE
    } else {
        Permission::READ_ONLY
    }
}
