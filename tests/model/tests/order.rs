//! The order between strangers (CR 14): who are strangers, which rearrangements are allowed, and what they leave as it is, on boards
//! of both editions and on the plain machine.
mod common;
use common::*;
use model::order::*;
use model::*;
use std::collections::BTreeSet;

/// A load or a store of a byte, by a process, at an address of a slot.
fn load(process: u64, slot: u32, at: u32) -> Call {
    Call::UserAccess { process, store: false, width: 1, address: (slot << 22) + at, value: 0 }
}

fn store(process: u64, slot: u32, at: u32, value: u32) -> Call {
    Call::UserAccess { process, store: true, width: 1, address: (slot << 22) + at, value }
}

fn attach(process: u64, slot: u64, segment: u64, write: bool) -> Call {
    Call::Attach { process, slot, segment, write }
}

/// Segments 2048, 2049 and 2050, the first page of each mapped.
fn mapped(edition: Edition, processes: u64) -> Board {
    let mut b = Board::fresh_of(edition, shape(5, 1, processes, edition.lines_in_set()));
    b.memory.iter_mut().enumerate().for_each(|(at, byte)| *byte = (at % 251) as u8);
    for (frame, segment) in (1..).zip([2048, 2049, 2050]) {
        assert_eq!(b.map(segment * 1024, frame, true), DONE);
    }
    b
}

/// What is attached: process, slot, segment, write bit.
type Slot = (u64, u64, u64, bool);

/// The same in each edition, with these attached.
fn with(processes: u64, slots: &[Slot]) -> Vec<Board> {
    let each = |edition| {
        let mut b = mapped(edition, processes);
        slots
            .iter()
            .for_each(|&(process, slot, segment, write)| assert_eq!(b.attach(process, slot, segment, write), DONE));
        b
    };
    Edition::ALL.into_iter().map(each).collect()
}

// ----- what is compared -----

/// The number and the bytes of looks.
type Shown = Vec<(u32, Vec<u8>)>;

trait Seen: Clone {
    fn reply(&mut self, call: &Call) -> (u32, u32);
    fn shown(&self) -> Shown;
}

impl Seen for Board {
    fn reply(&mut self, call: &Call) -> (u32, u32) {
        let (answer, _) = self.step(call);
        (answer.number, answer.value)
    }
    fn shown(&self) -> Shown {
        // Those that the runs reach, and some more.
        let lines = (0..256 * self.shape.frames).filter(|line| line % 256 < 20);
        lines.chain([256 * self.shape.frames]).map(|line| self.look(line)).collect()
    }
}

impl Seen for Plain {
    fn reply(&mut self, call: &Call) -> (u32, u32) {
        let answer = self.step(call);
        (answer.number, answer.value)
    }
    fn shown(&self) -> Shown {
        let lines = (0..256 * self.shape.frames).filter(|line| line % 256 < 20);
        lines.chain([256 * self.shape.frames]).map(|line| self.look(line)).collect()
    }
}

/// What a run in some order shows: each call's reply at its own position, look before and after each supervisor call, and at the
/// end; then the replies of later calls, and look after them.
#[derive(PartialEq, Eq)]
struct Told {
    replies: Vec<(u32, u32)>,
    looks: Vec<Vec<Shown>>,
    end: Shown,
    later: Vec<(u32, u32)>,
    last: Shown,
}

fn told<M: Seen>(start: &M, run: &[Call], order: &[usize], later: &[Call]) -> Told {
    let mut machine = start.clone();
    let mut told = Told {
        replies: vec![(0, 0); run.len()],
        looks: vec![Vec::new(); run.len()],
        end: Vec::new(),
        later: Vec::new(),
        last: Vec::new(),
    };
    for &position in order {
        let call = &run[position];
        let looks = accessing(call).is_none();
        let before = looks.then(|| machine.shown());
        told.replies[position] = machine.reply(call);
        told.looks[position].extend(before);
        told.looks[position].extend(looks.then(|| machine.shown()));
    }
    told.end = machine.shown();
    told.later = later.iter().map(|call| machine.reply(call)).collect();
    told.last = machine.shown();
    told
}

/// What differs between the run and its rearrangement.
fn differs<M: Seen>(start: &M, run: &[Call], order: &[usize], later: &[Call]) -> Option<&'static str> {
    let as_it_is: Vec<usize> = (0..run.len()).collect();
    let (one, other) = (told(start, run, &as_it_is, later), told(start, run, order, later));
    let parts = [
        (one.replies == other.replies, "replies"),
        (one.looks == other.looks, "look at a supervisor call"),
        (one.end == other.end, "look at the end"),
        (one.later == other.later, "later replies"),
        (one.last == other.last, "look after later calls"),
    ];
    parts.into_iter().find(|(same, _)| !same).map(|(_, what)| what)
}

/// The same of the board and of its plain machine, which agree.
fn differ(board: &Board, run: &[Call], order: &[usize], later: &[Call]) -> Option<&'static str> {
    let found = differs(board, run, order, later);
    let mut plain = Plain::of(board);
    for line in 0..256 * board.shape.frames {
        let at = 16 * line as usize;
        plain.memory[at..at + 16].copy_from_slice(&board.look(line).1);
    }
    assert_eq!(differs(&plain, run, order, later).is_some(), found.is_some(), "{run:?} {order:?}");
    found
}

// ----- strangers -----

#[test]
fn strangers_by_slots() {
    let word = slot_word;
    let mut slots = vec![0; 4 * 512];
    let two = |slots: &[u32], is: bool| {
        assert_eq!(strangers(slots, 0, 1), is);
        assert_eq!(strangers(slots, 1, 0), is);
    };
    two(&slots, true);
    slots[0] = word(2048, true);
    two(&slots, true);
    // Another segment with the same low bits.
    slots[512] = word(2048 + (1 << 21), true);
    two(&slots, true);
    // The one writes what the other reads, in whatever slot.
    slots[512 + 511] = word(2048, false);
    two(&slots, false);
    assert!(holds(&slots, 1, 2048) && !holds_for_writing(&slots, 1, 2048) && holds_for_writing(&slots, 0, 2048));
    // Both write.
    slots[512 + 511] = word(2048, true);
    two(&slots, false);
    // The other writes.
    slots[0] = word(2048, false);
    two(&slots, false);
    // Both read.
    slots[512 + 511] = word(2048, false);
    two(&slots, true);
    // The one reads it in a slot and writes it in another.
    slots[7] = word(2048, true);
    two(&slots, false);
    // The third holds nothing; nobody is its own stranger, not even who holds nothing.
    assert!(strangers(&slots, 0, 2) && strangers(&slots, 2, 3));
    for process in [0, 1, 2, 4, u64::MAX] {
        assert!(!strangers(&slots, process, process));
    }
    // From P up nothing is held: also where the number, cut, would be a process.
    for process in [4, 5, 1 << 32, 1 << 55, u64::MAX] {
        assert_eq!(held_by(&slots, process).count(), 0);
        assert!(strangers(&slots, 0, process) && strangers(&slots, process, 1));
    }
}

#[test]
fn a_word_whose_segment_may_not_be_attached_holds_nothing() {
    for (segment, is) in [(2047, true), (2048, false), (4_190_207, false), (4_190_208, true), (1 << 22, true)] {
        let mut slots = vec![0; 2 * 512];
        (slots[3], slots[512]) = (segment * 2 + 1, segment * 2 + 1);
        assert_eq!(strangers(&slots, 0, 1), is, "{segment}");
        assert_eq!(holds(&slots, 0, segment.into()), !is);
        // Its slot is empty for both, in either order.
        for mut b in with(2, &[]) {
            b.slots.copy_from_slice(&slots);
            let run = [store(0, 3, 0, 9), load(1, 0, 0)];
            assert_eq!(allowed(&b, &run, &[1, 0]).is_ok(), is);
            assert!(!is || differ(&b, &run, &[1, 0], &[]).is_none());
        }
    }
}

// ----- what is allowed -----

#[test]
fn strangers_are_swapped() {
    // Each writes its own, and both read the third.
    let slots = [(0, 0, 2048, true), (1, 0, 2049, true), (0, 1, 2050, false), (1, 1, 2050, false)];
    for b in with(2, &slots) {
        let own = [store(0, 0, 5, 1), store(1, 0, 5, 2)];
        let shared = [load(0, 1, 5), load(1, 1, 5)];
        let refused = [store(0, 1, 5, 1), load(1, 9, 0)];
        let by_none = [store(2, 0, 5, 1), store(0, 0, 5, 3)];
        let later = [load(0, 0, 5), load(1, 0, 5), Call::FlushAll, load(0, 1, 5)];
        for run in [own, shared, refused, by_none] {
            assert_eq!(allowed(&b, &run, &[1, 0]), Ok(()));
            assert_eq!(differ(&b, &run, &[1, 0], &later), None, "{run:?}");
        }
        // The marks and the records do differ.
        let marks = |order: [usize; 2]| {
            let mut b = b.clone();
            let marks = order.map(|at| b.step(&own[at]).0.mark);
            (marks, b.records)
        };
        assert_ne!(marks([0, 1]).1, marks([1, 0]).1);
    }
}

#[test]
fn others_keep_their_order_and_a_difference_shows() {
    // The one writes what the other reads; both write; the same process.
    let cases: [(&[Slot], [Call; 2]); 4] = [
        (&[(0, 0, 2048, true), (1, 4, 2048, false)], [store(0, 0, 5, 1), load(1, 4, 5)]),
        (&[(0, 0, 2048, false), (1, 4, 2048, true)], [load(0, 0, 5), store(1, 4, 5, 1)]),
        (&[(0, 0, 2048, true), (1, 4, 2048, true)], [store(0, 0, 5, 1), store(1, 4, 5, 2)]),
        (&[(0, 0, 2048, true)], [store(0, 0, 5, 1), load(0, 0, 5)]),
    ];
    for (slots, run) in cases {
        for b in with(2, slots) {
            assert_eq!(allowed(&b, &run, &[1, 0]), Err(Broken::NotStrangers(0, 1)));
            assert!(differ(&b, &run, &[1, 0], &[]).is_some(), "{run:?}");
            // Whether or not the two go to one byte.
            assert_eq!(allowed(&b, &[run[0], load(1, 0, 64)], &[1, 0]).is_ok(), slots.len() == 1);
        }
    }
}

#[test]
fn supervisor_calls_are_not_crossed() {
    let page = 2048 * 1024;
    // What an access before the call answers other than one after it; a flush shows in look alone.
    let calls: [(Call, Call, &str); 13] = [
        (attach(0, 1, 2049, false), load(0, 1, 0), "replies"),
        (Call::Detach { process: 0, slot: 0 }, load(0, 0, 0), "replies"),
        (Call::Map { page: page + 1, frame: 4, write: true }, load(0, 0, 4096), "replies"),
        (Call::Unmap { page }, load(0, 0, 0), "replies"),
        (Call::Protect { page, write: false }, store(0, 0, 0, 9), "replies"),
        (Call::Move { page, new_page: page + 1 }, load(0, 0, 0), "replies"),
        (Call::Tag { name: page * 256 }, load(0, 0, 0), "replies"),
        (Call::FlushAll, store(0, 0, 0, 9), "look at a supervisor call"),
        (Call::SupervisorAccess { store: true, width: 1, global: page << 12, value: 9 }, load(0, 0, 0), "replies"),
        (Call::SupervisorAccess { store: false, width: 1, global: page << 12, value: 0 }, store(0, 0, 0, 9), "replies"),
        (
            Call::SupervisorAccess { store: true, width: 1, global: 0, value: 9 },
            store(0, 0, 0, 9),
            "look at a supervisor call",
        ),
        (Call::LoadAndMap { line: 256 }, load(0, 0, 0), "replies"),
        (Call::DropTag, load(0, 0, 0), "replies"),
    ];
    for (call, access, what) in calls {
        for mut b in with(2, &[(0, 0, 2048, true)]) {
            b.memory[4096] = 77;
            if matches!(call, Call::LoadAndMap { .. } | Call::DropTag) {
                assert_eq!(b.tag(page * 256), DONE);
            }
            for run in [[call, access], [access, call]] {
                assert_eq!(allowed(&b, &run, &[0, 1]), Ok(()));
                assert_eq!(allowed(&b, &run, &[1, 0]), Err(Broken::Crosses(0, 1)));
                assert_eq!(differ(&b, &run, &[1, 0], &[]), Some(what), "{run:?}");
            }
        }
    }
    // Nor does a supervisor call cross another, nor a stranger's access one that has nothing to do with it.
    for b in with(2, &[(0, 0, 2048, true)]) {
        assert_eq!(allowed(&b, &[Call::FlushAll, Call::FlushAll], &[1, 0]), Err(Broken::Crosses(0, 1)));
        assert_eq!(allowed(&b, &[load(5, 0, 0), Call::FlushAll], &[1, 0]), Err(Broken::Crosses(0, 1)));
    }
}

#[test]
fn strangers_where_they_stand() {
    let slots = [(0, 0, 2048, true), (1, 0, 2049, true)];
    let pair = [store(0, 0, 5, 1), store(1, 0, 5, 2)];
    let shared = [store(0, 0, 5, 3), load(1, 4, 5)];
    for b in with(2, &slots) {
        // Strangers until an attach, and again from a detach on.
        let until = [pair[0], pair[1], attach(1, 4, 2048, false), shared[0], shared[1]];
        assert_eq!(allowed(&b, &until, &[1, 0, 2, 3, 4]), Ok(()));
        assert_eq!(differ(&b, &until, &[1, 0, 2, 3, 4], &[]), None);
        assert_eq!(allowed(&b, &until, &[0, 1, 2, 4, 3]), Err(Broken::NotStrangers(3, 4)));
        assert!(differ(&b, &until, &[0, 1, 2, 4, 3], &[]).is_some());
        let mut b = b.clone();
        b.attach(1, 4, 2048, false);
        let from = [shared[0], shared[1], Call::Detach { process: 1, slot: 4 }, pair[0], pair[1]];
        assert_eq!(allowed(&b, &from, &[1, 0, 2, 3, 4]), Err(Broken::NotStrangers(0, 1)));
        assert!(differ(&b, &from, &[1, 0, 2, 3, 4], &[]).is_some());
        assert_eq!(allowed(&b, &from, &[0, 1, 2, 4, 3]), Ok(()));
        assert_eq!(differ(&b, &from, &[0, 1, 2, 4, 3], &[]), None);
        // An attach that is refused ends nothing.
        let refused = [attach(1, 512, 2048, true), Call::Detach { process: 1, slot: 4 }, pair[0], pair[1]];
        assert_eq!(allowed(&b, &refused, &[0, 1, 3, 2]), Ok(()));
    }
}

#[test]
fn no_rearrangement() {
    let b = mapped(Edition::Ones, 2);
    let run = [load(0, 0, 0), load(1, 0, 0), load(2, 0, 0)];
    for order in [&[0, 1][..], &[0, 1, 1], &[0, 1, 3], &[0, 1, 2, 0], &[0, 1, 2, 3], &[]] {
        assert_eq!(allowed(&b, &run, order), Err(Broken::NoRearrangement), "{order:?}");
    }
    for order in permutations(3) {
        assert_eq!(allowed(&b, &run, &order), Ok(()));
    }
    // The lowest pair is told.
    assert_eq!(allowed(&b, &[run[0], run[1], run[0]], &[2, 1, 0]), Err(Broken::NotStrangers(0, 2)));
    assert_eq!(allowed(&b, &[run[0], run[1], Call::FlushAll], &[2, 1, 0]), Err(Broken::Crosses(0, 2)));
}

fn permutations(length: usize) -> Vec<Vec<usize>> {
    if length == 0 {
        return vec![Vec::new()];
    }
    let shorter = permutations(length - 1);
    let longer = |order: &Vec<usize>| {
        (0..length).map(|at| [&order[..at], &[length - 1], &order[at..]].concat()).collect::<Vec<_>>()
    };
    shorter.iter().flat_map(longer).collect()
}

// ----- random runs -----

/// Three processes or four with few segments, each attached to some; few lines.
fn random_board(r: &mut Rng, edition: Edition) -> Board {
    let mut b = mapped(edition, 3 + r.below(2));
    b.memory.iter_mut().for_each(|byte| *byte = r.next() as u8);
    let sets = edition.lines_in_set() << r.below(3);
    b = Board {
        slots: b.slots,
        words: b.words,
        memory: b.memory,
        ..Board::fresh_of(edition, shape(5, 1, b.shape.processes, sets))
    };
    for process in 0..b.shape.processes {
        for slot in 0..3 {
            if !r.chance(4) {
                let segment = 2048 + r.below(3);
                b.attach(process, slot, segment, segment - 2048 == process || r.chance(8));
            }
        }
    }
    // What calls lead to.
    for _ in 0..r.below(30) {
        let call = access(r, &b);
        b.step(&call);
    }
    b
}

/// Mostly an access that is done.
fn access(r: &mut Rng, b: &Board) -> Call {
    let more = u64::from(r.chance(6));
    let process = r.below(b.shape.processes + more);
    let at = (r.below(3) << 22) + r.pick(&[0, 0, 0, 4096]) + r.pick(&[0, 1, 4, 8]) * 16 + r.below(4) * 4;
    let width = r.pick(&[1, 2, 4, 4]);
    let address = if r.chance(30) { r.next() as u32 } else { at as u32 };
    Call::UserAccess { process, store: r.flip(), width, address, value: r.value(width) }
}

fn supervisor_call(r: &mut Rng, b: &Board) -> Call {
    let page = (2048 + r.below(3)) * 1024 + r.below(2);
    let (process, slot, segment) = (r.below(b.shape.processes), r.below(3), 2048 + r.below(3));
    match r.below(11) {
        0 | 1 => Call::Attach { process, slot, segment, write: segment - 2048 == process || r.chance(4) },
        2 => Call::Detach { process, slot },
        3 => Call::Map { page, frame: 1 + r.below(4), write: r.flip() },
        4 => Call::Unmap { page },
        5 => Call::Protect { page, write: r.flip() },
        6 => Call::Move { page, new_page: (2048 + r.below(3)) * 1024 + r.below(2) },
        7 => Call::FlushAll,
        8 if b.tag.0 => Call::LoadAndMap { line: 256 + r.below(1024) },
        8 => Call::Tag { name: page * 256 + r.below(3) },
        9 if b.tag.0 => Call::DropTag,
        _ => Call::SupervisorAccess {
            store: r.flip(),
            width: 1,
            global: (page << 12) + r.below(80),
            value: r.below(256) as u32,
        },
    }
}

/// So many calls, mostly accesses, and the slots before each.
fn random_run(r: &mut Rng, b: &Board, length: usize) -> (Vec<Call>, Vec<Vec<u32>>) {
    let (mut board, mut slots) = (b.clone(), Vec::new());
    let mut next = |_| {
        let settle = board.tag.0 && r.chance(3);
        let call = if settle || r.chance(7) { supervisor_call(r, &board) } else { access(r, &board) };
        slots.push(board.slots.clone());
        board.step(&call);
        call
    };
    let run = (0..length).map(&mut next).collect();
    (run, slots)
}

/// Any order that keeps what must be kept: again and again some call before which nothing more has to come.
fn random_order(r: &mut Rng, run: &[Call], slots: &[Vec<u32>]) -> Vec<usize> {
    let keeps = |earlier: usize, later: usize| match (accessing(&run[earlier]), accessing(&run[later])) {
        (Some(one), Some(other)) => !strangers(&slots[earlier], one, other),
        _ => true,
    };
    let (mut left, mut order): (Vec<usize>, Vec<usize>) = ((0..run.len()).collect(), Vec::new());
    while !left.is_empty() {
        let free: Vec<usize> =
            (0..left.len()).filter(|&at| left[..at].iter().all(|&earlier| !keeps(earlier, left[at]))).collect();
        order.push(left.remove(r.pick(&free)));
    }
    order
}

#[test]
fn random_reorderings() {
    for edition in Edition::ALL {
        let mut r = Rng(0x0BAD_5EED_0F00_D001);
        let (mut turned, mut done) = (0, 0);
        for _ in 0..60 {
            let b = random_board(&mut r, edition);
            let (run, slots) = random_run(&mut r, &b, 50);
            let (later, _) = random_run(&mut r, &b, 10);
            for _ in 0..3 {
                let order = random_order(&mut r, &run, &slots);
                assert_eq!(allowed(&b, &run, &order), Ok(()));
                assert_eq!(differ(&b, &run, &order, &later), None, "{run:?} {order:?}");
                turned += (0..run.len()).filter(|&at| order[at] != at).count();
            }
            let mut b = b;
            done += run.iter().filter(|call| accessing(call).is_some() && b.step(call).0.number == 0).count();
        }
        assert!(turned > 1000 && done > 500, "{turned} {done}");
    }
}

/// Of a few calls every rearrangement. What is allowed is what swaps of neighbours that are strangers reach; it shows no difference,
/// and of what is not allowed some does, for each reason.
#[test]
fn every_rearrangement_of_a_few_calls() {
    for edition in Edition::ALL {
        let mut r = Rng(0x0DDB_A115_EED5_0001);
        let all = permutations(5);
        let (mut most, mut shown) = (0, [0; 2]);
        for round in 0..40 {
            let b = random_board(&mut r, edition);
            let (run, slots) = random_run(&mut r, &b, 5);
            let fine: BTreeSet<&Vec<usize>> = all.iter().filter(|order| allowed(&b, &run, order).is_ok()).collect();
            let reached = by_swaps(&run, &slots);
            assert!(fine.iter().copied().eq(&reached), "{run:?}: {fine:?} allowed, {reached:?} by swaps");
            most = most.max(fine.len());
            for (index, order) in all.iter().enumerate() {
                match allowed(&b, &run, order) {
                    Ok(()) => assert_eq!(differ(&b, &run, order, &[]), None, "{run:?} {order:?}"),
                    // Some of the others.
                    Err(why) if (index + round) % 8 == 0 && differ(&b, &run, order, &[]).is_some() => {
                        shown[usize::from(matches!(why, Broken::Crosses(..)))] += 1;
                    }
                    Err(_) => {}
                }
            }
        }
        assert!(most >= 20 && shown.iter().all(|&count| count > 20), "{most} {shown:?}");
    }
}

/// All orders that swaps of two neighbouring accesses by strangers reach. Accesses that are swapped stand between the same
/// supervisor calls, so the slots are those of either.
fn by_swaps(run: &[Call], slots: &[Vec<u32>]) -> BTreeSet<Vec<usize>> {
    let first: Vec<usize> = (0..run.len()).collect();
    let (mut reached, mut new) = (BTreeSet::from([first.clone()]), vec![first]);
    while let Some(order) = new.pop() {
        for at in 1..order.len() {
            let (one, other) = (order[at - 1], order[at]);
            let by = accessing(&run[one]).zip(accessing(&run[other]));
            if by.is_some_and(|(by_one, by_other)| strangers(&slots[one], by_one, by_other)) {
                let mut swapped = order.clone();
                swapped.swap(at - 1, at);
                if reached.insert(swapped.clone()) {
                    new.push(swapped);
                }
            }
        }
    }
    reached
}
