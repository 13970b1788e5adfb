//! Whether what is read is what was written, and what is replayed answers as the same calls do without a log.

use crate::log::Log;
use crate::versions::{Left, Outcome, Version};
use oaledva::log::{Call, Calls, Entry, Reader};
use oaledva::{Board, Mark, Refusal};

/// What the calls answer, and the board that they leave.
pub struct Right {
    pub answers: Vec<(Result<u32, Refusal>, Mark)>,
    pub board: Board,
}

/// Pieces of odd lengths, too.
const PIECES: [usize; 3] = [1 << 16, 4093, 7];

pub fn compare(log: &Log) -> Result<Right, String> {
    let told = |what: &str| format!("{}: {what}", log.name);
    let expected = || [Entry::from(log.shape)].into_iter().chain(log.calls.iter().map(Entry::from));
    for length in PIECES {
        if !entries(&log.bytes, length).eq(expected()) {
            return Err(told("the reader gives other entries than were written"));
        }
    }
    let read: Result<Vec<Call>, _> = Calls::of(&log.bytes[..]).and_then(Iterator::collect);
    let read = read.map_err(|error| told(&error.to_string()))?;
    if read != log.calls {
        return Err(told("the calls that are read are not those that were written"));
    }
    // By the board's own methods, which `perform` is compared with in the crate's tests.
    let (right, replayed) = (answers(log, log.calls.iter().copied()), answers(log, read.into_iter()));
    if right.answers != replayed.answers || right.board != replayed.board {
        return Err(told("the log replayed answers or leaves something else"));
    }
    if right.answers.iter().any(|(answer, _)| answer.is_err()) {
        return Err(told("a call was refused"));
    }
    Ok(right)
}

fn entries(bytes: &[u8], length: usize) -> impl Iterator<Item = Entry> {
    let (mut reader, mut room, mut all) = (Reader::new(), [Entry::NONE; 64], Vec::new());
    for mut piece in bytes.chunks(length) {
        while let given @ [_, ..] = reader.take(&mut piece, &mut room) {
            all.extend_from_slice(given);
        }
    }
    all.into_iter()
}

fn answers(log: &Log, calls: impl Iterator<Item = Call>) -> Right {
    let mut board = Board::for_replay(log.shape).expect("there is memory");
    let answers = calls.map(|call| (board.perform(&call), board.mark())).collect();
    Right { answers, board }
}

/// After a run that was timed: as many entries, and the same board or the same log.
pub fn after(version: &Version, log: &Log, right: &Right, outcome: &Outcome) -> Result<(), String> {
    let same = match &outcome.left {
        Left::Nothing => true,
        Left::Board(board) => *board == right.board,
        Left::Log(bytes) => *bytes == log.bytes,
    };
    if outcome.many != 1 + log.calls.len() || !same {
        return Err(format!("{}, {}: not all was done, or something else", log.name, version.words));
    }
    Ok(())
}

/// Shows that the comparison can fail: with any bit of an access changed, the log is another.
pub fn finds_a_changed_byte(log: &Log) -> Result<(), String> {
    let from = log.first(0).0.len();
    for at in from..log.bytes.len() {
        for bit in 0..8 {
            let mut bytes = log.bytes.clone();
            bytes[at] ^= 1 << bit;
            let read: Result<Vec<Call>, _> = Calls::of(&bytes[..]).and_then(Iterator::collect);
            if read.is_ok_and(|read| read == log.calls) {
                return Err(format!("{}: bit {bit} of byte {at}, changed, does not show", log.name));
            }
        }
    }
    Ok(())
}
