//! The library, by its raw declarations: a call for each access, or one for a list of them; by how many lines a set has.

use crate::board::{call, Buffers};
use crate::ordinary::ONE_PLACE;
use oaledva::ffi::{self, Access, Answer};

/// How many accesses each call takes in the version with short lists.
const PIECE: usize = 64;

/// A call for each access.
#[inline(never)]
pub fn singles<const WAYS: usize>(board: &mut Buffers, accesses: &[Access], answers: &mut [Answer]) {
    for (&Access { process, kind, width, address, value }, answer) in accesses.iter().zip(answers) {
        *answer = if WAYS == ONE_PLACE {
            call!(board, ffi::oaledva_user_access, [], process as usize, kind, width, address, value)
        } else {
            call!(board, ffi::oaledva_sets_user_access, [board.uses], process as usize, kind, width, address, value)
        };
    }
}

/// One call for all.
#[inline(never)]
pub fn list<const WAYS: usize>(board: &mut Buffers, accesses: &[Access], answers: &mut [Answer]) {
    let words = accesses.len() * ffi::ACCESS_WORDS;
    let (from, into, room) = (accesses.as_ptr().cast(), answers.as_mut_ptr(), answers.len());
    let answer = if WAYS == ONE_PLACE {
        call!(board, ffi::oaledva_user_accesses, [], from, words, into, room)
    } else {
        call!(board, ffi::oaledva_sets_user_accesses, [board.uses], from, words, into, room)
    };
    assert_eq!(answer.number(), 0, "the list was refused");
}

/// A call for every 64.
#[inline(never)]
pub fn pieces<const WAYS: usize>(board: &mut Buffers, accesses: &[Access], answers: &mut [Answer]) {
    for (accesses, answers) in accesses.chunks(PIECE).zip(answers.chunks_mut(PIECE)) {
        list::<WAYS>(board, accesses, answers);
    }
}

/// An answer as the one number that it is: number, mark and value, and the bits between them, which are compared too.
pub fn packed(answer: Answer) -> u64 {
    // Safety: an answer is a transparent struct of such a number.
    unsafe { std::mem::transmute::<Answer, u64>(answer) }
}

/// The answer that such a number is.
pub fn answer(packed: u64) -> Answer {
    // Safety: as above.
    unsafe { std::mem::transmute::<u64, Answer>(packed) }
}
