//! The ordinary version behind the library's signature: each number and each buffer by itself, shape and lengths asked at every
//! call.

use crate::board::{call, Buffers};
use crate::ordinary::{self, agree, number, Board, Lengths, LINES_PER_PAGE, ONE_PLACE, SETS_OF_FOUR};
use crate::ours;
use oaledva::ffi::{self, Access, Answer, Kind, Uses};
use oaledva::Shape;
use std::hint::black_box;
use std::slice::{from_raw_parts, from_raw_parts_mut};

/// Defines a user's load or store: its name, how many lines a set has, the parameters for matrices, how many these are, and the
/// matrices themselves.
macro_rules! user_access {
    ($user_access:ident, $ways:expr, [$($parameter:ident: $kind:ty),*], $matrices:expr, $uses:expr) => {
        /// # Safety
        /// As the library's: each pointer points to as many elements as its length says, and what is written is apart from all
        /// else.
        #[inline(never)]
        #[allow(clippy::too_many_arguments)]
        unsafe extern "C" fn $user_access(
            frames: usize,
            uncached: usize,
            processes: usize,
            lines: usize,
            slots: *const u32,
            slots_length: usize,
            words: *const u64,
            words_length: usize,
            records: *mut u64,
            records_length: usize,
            cache: *mut u8,
            cache_length: usize,
            memory: *mut u8,
            memory_length: usize,
            $($parameter: $kind,)*
            set: u32,
            name: u64,
            process: usize,
            kind: Kind,
            width: u32,
            address: u32,
            value: u32,
        ) -> Answer {
            let shape = Shape { frames, uncached, processes, lines };
            let lengths = Lengths {
                slots: slots_length,
                words: words_length,
                records: records_length,
                cache: cache_length,
                memory: memory_length,
                uses: $matrices,
            };
            if !agree::<{ $ways }>(shape, &lengths) {
                return ours::answer(ordinary::Answer::refused(number::SHAPE).packed());
            }
            let mut board = Board::<{ $ways }> {
                shape,
                slots: from_raw_parts(slots, slots_length),
                words: from_raw_parts(words, words_length),
                records: from_raw_parts_mut(records.cast(), lines / $ways),
                cache: from_raw_parts_mut(cache.cast(), lines / $ways),
                memory: from_raw_parts_mut(memory.cast(), frames * LINES_PER_PAGE),
                uses: $uses,
                pending: (set != 0).then_some(name),
            };
            // A process that doesn't fit an access's word is none of the board's either.
            let process = process.try_into().unwrap_or(u32::MAX);
            ours::answer(board.access_inlined(&Access { process, kind, width, address, value }).packed())
        }
    };
}

user_access! { ordinary_user_access, ONE_PLACE, [], 0, &mut [] }
user_access! {
    ordinary_sets_user_access, SETS_OF_FOUR, [uses: *mut Uses, uses_length: usize], uses_length,
    from_raw_parts_mut(uses, uses_length)
}

/// A call for each access. The compiler sees that both functions have one signature, but not which of them is called: else it
/// would leave out the words that the ordinary one doesn't use.
#[inline(never)]
pub fn called<const WAYS: usize>(board: &mut Buffers, accesses: &[Access], answers: &mut [Answer]) {
    let [_, ordinary] = black_box([ffi::oaledva_user_access, ordinary_user_access]);
    let [_, ordinary_sets] = black_box([ffi::oaledva_sets_user_access, ordinary_sets_user_access]);
    for (&Access { process, kind, width, address, value }, answer) in accesses.iter().zip(answers) {
        *answer = if WAYS == ONE_PLACE {
            call!(board, ordinary, [], process as usize, kind, width, address, value)
        } else {
            call!(board, ordinary_sets, [board.uses], process as usize, kind, width, address, value)
        };
    }
}
