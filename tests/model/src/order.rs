//! The order between strangers (CR 14): which two processes are strangers, and which rearrangements of a run keep what must be
//! kept. From that request's text and the readings of it alone. Quotations are the request's.

use crate::{slot_read, Board, Call, Plain, SLOTS};

/// The segments that a process holds, with the write bit. Decided: "by slots with a segment that may be attached, at that moment".
/// A segment comes as often as it sits in a slot. A process number from P up holds nothing.
pub fn held_by(slots: &[u32], process: u64) -> impl Iterator<Item = (u64, bool)> + '_ {
    let own = usize::try_from(process).ok().and_then(|process| slots.chunks_exact(SLOTS as usize).nth(process));
    own.unwrap_or(&[]).iter().filter_map(|&word| slot_read(word))
}

pub fn holds(slots: &[u32], process: u64, segment: u64) -> bool {
    held_by(slots, process).any(|(held, _)| held == segment)
}

pub fn holds_for_writing(slots: &[u32], process: u64, segment: u64) -> bool {
    held_by(slots, process).any(|(held, write)| held == segment && write)
}

/// "Two processes, neither holding for writing a segment that the other holds." They are two: none is its own stranger.
pub fn strangers(slots: &[u32], one: u64, other: u64) -> bool {
    let writes_to = |one, other| held_by(slots, other).any(|(segment, _)| holds_for_writing(slots, one, segment));
    one != other && !writes_to(one, other) && !writes_to(other, one)
}

/// Whose user access it is; none of a supervisor call, which is every other call.
pub fn accessing(call: &Call) -> Option<u64> {
    match *call {
        Call::UserAccess { process, .. } => Some(process),
        _ => None,
    }
}

/// Why a rearrangement is none that the request allows: two positions of the run, the earlier one first, whose order it turns.
#[derive(Clone, Copy, Debug, PartialEq, Eq)]
pub enum Broken {
    /// Not every position comes once.
    NoRearrangement,
    /// One of the two is a supervisor call: it "crosses no supervisor call".
    Crosses(usize, usize),
    /// They are "accesses not by such strangers".
    NotStrangers(usize, usize),
}

/// Whether a run from this board may be rearranged so: the call that stands at `order[at]` in the run stands at `at` then. Every two
/// positions are asked, the lowest first. Whether two are strangers is asked by the slots where each of them stands.
pub fn allowed(board: &Board, run: &[Call], order: &[usize]) -> Result<(), Broken> {
    let mut places = vec![None; run.len()];
    for (place, &position) in order.iter().enumerate() {
        match places.get_mut(position) {
            Some(free @ None) => *free = Some(place),
            _ => return Err(Broken::NoRearrangement),
        }
    }
    if order.len() != run.len() {
        return Err(Broken::NoRearrangement);
    }
    let slots = slots_at(board, run);
    for earlier in 0..run.len() {
        for later in (earlier + 1..run.len()).filter(|&later| places[later] < places[earlier]) {
            let (Some(one), Some(other)) = (accessing(&run[earlier]), accessing(&run[later])) else {
                return Err(Broken::Crosses(earlier, later));
            };
            if ![earlier, later].iter().all(|&position| strangers(&slots[position], one, other)) {
                return Err(Broken::NotStrangers(earlier, later));
            }
        }
    }
    Ok(())
}

/// The slots as each call of the run finds them. Only supervisor calls change them, and as the plain machine's.
fn slots_at(board: &Board, run: &[Call]) -> Vec<Vec<u32>> {
    let mut plain = Plain::of(board);
    let mut found = |call| {
        let slots = plain.slots.clone();
        plain.step(call);
        slots
    };
    run.iter().map(&mut found).collect()
}
