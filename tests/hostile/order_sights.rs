//! What reorderings meet (CR 14): which accesses cross and what they answer, what the crossing does to lines and marks, how the
//! processes are related and when, what stands between accesses that cross, and how they come. All is counted in every pair of runs
//! whose calls all come by one route; the planned ones of `order_runs.rs` reach it.

use crate::limits::*;
use crate::moves::sights;
use crate::order::{is_store, kind_of, process_of, Made, Reordering, SUPERVISOR};
use model::{mark, Call, Edition};
use std::collections::BTreeSet;
use std::fmt::{self, Arguments};
use Reached::{Anywhere, InFours, OnSound};

/// On which boards something must be met: on all; on sound ones that no calls have made; in sets of four.
#[derive(Clone, Copy, Debug, PartialEq, Eq)]
pub enum Reached {
    Anywhere,
    OnSound,
    InFours,
}

sights! {
    Anywhere LoadLoad "a load before a load, both done";
    Anywhere LoadStore "a load before a store, both done";
    Anywhere StoreLoad "a store before a load, both done";
    Anywhere StoreStore "a store before a store, both done";
    Anywhere SameLine "two accesses to one line of a segment that both hold read-only";
    Anywhere SamePlace "two accesses to lines of one place";
    Anywhere OutOfRange "an access by a process number from P up";
    OnSound Nothing "two accesses, and both processes have a segment that may not be attached";
    Anywhere Many "an access that crosses several";
    Anywhere Several "four accesses or more that cross others";
    Anywhere Partly "two accesses, among those of a third process that is a stranger of not both";
    Anywhere UntilAttach "two processes that are strangers until an attach";
    Anywhere FromDetach "two processes that are strangers from a detach on";
    Anywhere FromAttach "two processes that are strangers from an attach on";
    Anywhere Hit "a hit in one run only";
    Anywhere WriteBack "a refill's write-back in one run only";
    Anywhere OthersWritten "a line that the one changed, written back by the other's access in one run only";
    Anywhere OneByOne "accesses one by one in both runs";
    Anywhere InOneList "two accesses of one list in both runs";
    Anywhere ListFirst "two accesses of one list in the first run only";
    Anywhere ListSecond "two accesses of one list in the second run only";
    Anywhere LaterLoad "a later load of a line that was stored to";
    Anywhere Records "other records at the end";
    Anywhere Cache "other cache bytes at the end";
    Anywhere Memory "other memory at the end, with the same bytes in look";
    InFours Uses "other matrices at the end";
}

/// The numbers that a user access may be refused by end here. One by 3 crosses none that is done.
const NUMBERS: usize = 10;

fn one_may_be(number: usize) -> bool {
    (2..NUMBERS).contains(&number) && number != 3
}

fn both_may_be(number: usize) -> bool {
    (2..NUMBERS).contains(&number)
}

/// What a reordering met, or how often each was met by one route.
#[derive(Clone, Copy)]
pub struct Counts {
    pub reorderings: u64,
    sights: [u64; SIGHTS.len()],
    /// Two accesses that cross, one refused by this number and one done; or both refused by it.
    one: [u64; NUMBERS],
    both: [u64; NUMBERS],
    /// Supervisor calls of each of `SUPERVISOR`, done between accesses that cross.
    between: [u64; SUPERVISOR.len()],
}

/// The boards: fresh, or sound and made by no calls.
pub struct On {
    pub edition: Edition,
    pub fresh: bool,
}

impl fmt::Display for On {
    fn fmt(&self, f: &mut fmt::Formatter) -> fmt::Result {
        let board = if self.fresh { "a fresh board" } else { "a sound board" };
        let sets = if self.edition == Edition::Fours { " with sets of four" } else { "" };
        write!(f, "{board}{sets}")
    }
}

impl Counts {
    pub const NONE: Counts = Counts {
        reorderings: 0,
        sights: [0; SIGHTS.len()],
        one: [0; NUMBERS],
        both: [0; NUMBERS],
        between: [0; SUPERVISOR.len()],
    };

    fn all(&mut self) -> impl Iterator<Item = &mut u64> {
        self.sights.iter_mut().chain(&mut self.one).chain(&mut self.both).chain(&mut self.between)
    }

    /// Counts what one reordering met.
    pub fn add(&mut self, mut met: Counts) {
        self.reorderings += 1;
        self.all().zip(met.all()).for_each(|(count, more)| *count += u64::from(*more > 0));
    }

    pub fn met(&self, sight: usize) -> u64 {
        self.sights[sight]
    }

    /// Shows what must be met, in words, with its count.
    pub fn each_required(&mut self, on: &On, mut see: impl FnMut(Arguments, &mut u64)) {
        for (count, (_, reached, words)) in self.sights.iter_mut().zip(SIGHTS) {
            let is_met = match reached {
                Anywhere => true,
                OnSound => !on.fresh,
                InFours => on.edition == Edition::Fours,
            };
            if is_met {
                see(format_args!("reordered, {words}"), count);
            }
        }
        for (number, count) in self.one.iter_mut().enumerate().filter(|(number, _)| one_may_be(*number)) {
            see(format_args!("reordered, an access refused by {number} and one done"), count);
        }
        for (number, count) in self.both.iter_mut().enumerate().filter(|(number, _)| both_may_be(*number)) {
            see(format_args!("reordered, two accesses refused by {number}"), count);
        }
        for (count, call) in self.between.iter_mut().zip(SUPERVISOR) {
            see(format_args!("reordered before and after: {call}, done"), count);
        }
    }

    fn see(&mut self, sights: &[(bool, Sight)]) {
        sights.iter().filter(|(is, _)| *is).for_each(|(_, sight)| self.sights[*sight as usize] += 1);
    }
}

/// What a reordering met, whose runs are these.
pub fn met(whole: &Reordering, [first, second]: &[Made; 2]) -> Counts {
    let mut met = Counts::NONE;
    let (crossed, moments) = (whole.crossed(), whole.moments());
    let board = &whole.start.board;
    let sets = sets_of(board.edition, board.shape.lines);
    let (names, written) = whole.names(0);
    let written = [written, whole.names(1).1];
    let calls = &whole.calls;
    let process = |position: usize| process_of(&calls[position]).unwrap_or(u64::MAX);
    let marks = |position: usize| (first.answers[position].mark, second.answers[position].mark);
    // Those that stand between the same supervisor calls.
    let stretches: Vec<usize> = calls
        .iter()
        .scan(0, |count, call| {
            *count += usize::from(process_of(call).is_none());
            Some(*count)
        })
        .collect();
    let mut crossings = vec![0; calls.len()];
    for &(one, other) in &crossed {
        crossings[one] += 1;
        crossings[other] += 1;
        let numbers = [one, other].map(|position| first.answers[position].number as usize);
        match numbers {
            [0, 0] => {
                let stores = [one, other].map(|position| is_store(&calls[position]));
                let same = names[one] == names[other];
                met.see(&[
                    (stores == [false, false], Sight::LoadLoad),
                    (stores == [false, true], Sight::LoadStore),
                    (stores == [true, false], Sight::StoreLoad),
                    (stores == [true, true], Sight::StoreStore),
                    (same, Sight::SameLine),
                    (
                        !same && names[one].map(|name| name % sets) == names[other].map(|name| name % sets),
                        Sight::SamePlace,
                    ),
                ]);
            }
            [0, number] | [number, 0] => met.one[number] += 1,
            [number, same] if number == same => met.both[number] += 1,
            _ => {}
        }
        let moment = &moments.all[moments.at[one]];
        let nothing = |position: usize| usize::try_from(process(position)).ok().and_then(|at| moment.nothing.get(at));
        let both_nothing = nothing(one).zip(nothing(other)).is_some_and(|(one, other)| {
            one.iter().any(|word| word.write && other.iter().any(|other| other.segment == word.segment))
        });
        let written_back = |one: usize, other: usize| {
            let [before, after] =
                [0, 1].map(|half: usize| names[other].is_some() && written[half][one] == names[other]);
            is_store(&calls[other]) && before != after
        };
        let differ =
            |is: fn(u32, u32) -> bool| [one, other].iter().any(|&position| is(marks(position).0, marks(position).1));
        let third = |position: usize| {
            let third = process(position);
            stretches[position] == stretches[one]
                && process_of(&calls[position]).is_some()
                && third != process(one)
                && third != process(other)
                && !(moment.strangers(third, process(one), None) && moment.strangers(third, process(other), None))
        };
        let lists = |made: &Made| made.lists[one].is_some() && made.lists[one] == made.lists[other];
        let single = |made: &Made| made.lists[one].is_none() && made.lists[other].is_none();
        let in_one = (lists(first), lists(second));
        met.see(&[
            ([one, other].iter().any(|&position| process(position) >= board.shape.processes), Sight::OutOfRange),
            (both_nothing, Sight::Nothing),
            (whole.body.clone().any(third), Sight::Partly),
            (differ(|one, two| (one == HIT) != (two == HIT)), Sight::Hit),
            (
                differ(|one, two| {
                    [one, two].iter().all(|&of| [mark::REFILLED, mark::WROTE_BACK].contains(&of)) && one != two
                }),
                Sight::WriteBack,
            ),
            (written_back(one, other) || written_back(other, one), Sight::OthersWritten),
            (single(first) && single(second), Sight::OneByOne),
            (in_one == (true, true), Sight::InOneList),
            (in_one == (true, false), Sight::ListFirst),
            (in_one == (false, true), Sight::ListSecond),
        ]);
    }
    let is_done = |position: usize| first.answers[position].number == 0;
    let stored: BTreeSet<Option<u64>> = whole
        .body
        .clone()
        .filter(|&at| crossings[at] > 0 && is_store(&calls[at]) && is_done(at))
        .map(|at| names[at])
        .collect();
    let loads = |at: usize| matches!(calls[at], Call::UserAccess { store: false, .. }) && is_done(at);
    let (ours, theirs) = (&first.run.model, &second.run.model);
    met.see(&[
        (crossings.iter().any(|&count| count > 1), Sight::Many),
        (crossings.iter().filter(|&&count| count > 0).count() > 3, Sight::Several),
        ((whole.body.end..calls.len()).any(|at| loads(at) && stored.contains(&names[at])), Sight::LaterLoad),
        (ours.records != theirs.records, Sight::Records),
        (ours.cache != theirs.cache, Sight::Cache),
        (ours.memory != theirs.memory, Sight::Memory),
        (ours.uses != theirs.uses, Sight::Uses),
    ]);
    for at in whole.body.clone().filter(|&at| process_of(&calls[at]).is_none() && is_done(at)) {
        let (before, after) = (crossed.iter().any(|(_, other)| *other < at), crossed.iter().any(|(one, _)| *one > at));
        met.between[kind_of(&calls[at])] += u64::from(before && after);
    }
    when(whole, &crossed, &mut met);
    met
}

/// Where two processes become strangers, or are so no longer, both with accesses on either side, and some that cross while they are.
fn when(whole: &Reordering, crossed: &[(usize, usize)], met: &mut Counts) {
    let moments = whole.moments();
    let calls = &whole.calls;
    for at in whole.body.clone().filter(|&at| matches!(calls[at], Call::Attach { .. } | Call::Detach { .. })) {
        let Some(&after) = moments.at.get(at + 1) else { continue };
        let before = moments.at[at];
        let processes = whole.start.board.shape.processes;
        for (one, other) in (0..processes).flat_map(|one| (0..one).map(move |other| (one, other))) {
            let are = |moment: usize| moments.all[moment].strangers(one, other, None);
            if are(before) == are(after) {
                continue;
            }
            let both = |moment: usize| {
                let of = |process: u64| {
                    whole.body.clone().any(|at| moments.at[at] == moment && process_of(&calls[at]) == Some(process))
                };
                of(one) && of(other)
            };
            let crosses = |moment: usize| {
                crossed.iter().any(|&(first, second)| {
                    let by = [first, second].map(|position| process_of(&calls[position]));
                    moments.at[first] == moment && by.contains(&Some(one)) && by.contains(&Some(other))
                })
            };
            let attach = matches!(calls[at], Call::Attach { .. });
            met.see(&[
                (are(before) && crosses(before) && both(after), Sight::UntilAttach),
                (are(after) && crosses(after) && both(before) && !attach, Sight::FromDetach),
                (are(after) && crosses(after) && both(before) && attach, Sight::FromAttach),
            ]);
        }
    }
}
