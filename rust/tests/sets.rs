// Sets of four, of the safe crate: limits, where lines stand and which are pushed out, the matrices after every call, wild
// matrices, lists, both kinds of buffers, look, the load in two parts, replays; and the same calls in both editions.
use oaledva::log::Call;
use oaledva::{Access, Answer, Board, Edition, Lent, Mark, Refusal, Shape, Uses};

const SHAPE: Shape = Shape { frames: 6, uncached: 1, processes: 2, lines: 8 };
const PAGE: u64 = 0x200000;
const PREFIX_1: u64 = 1 << 32;

/// A page at each of the addresses 0 and 4096, both writable; 2 sets, so that the lines of a page take turns in them.
fn mapped() -> Board {
    let mut board = Board::sets_of_four(SHAPE).unwrap();
    board.attach(0, 0, 2048, true).unwrap();
    board.map(PAGE, 1, true).unwrap();
    board.map(PAGE + 1, 2, true).unwrap();
    board
}

/// Buffers of the caller's, to be lent.
#[derive(Clone, Debug, PartialEq)]
struct Buffers {
    slots: Vec<u32>,
    words: Vec<u64>,
    records: Vec<u64>,
    cache: Vec<u8>,
    memory: Vec<u8>,
    uses: Vec<Uses>,
}

impl Buffers {
    fn of(board: &Board) -> Buffers {
        Buffers {
            slots: board.slots().to_vec(),
            words: board.words().to_vec(),
            records: board.records().to_vec(),
            cache: board.cache().to_vec(),
            memory: board.memory().to_vec(),
            uses: board.uses().to_vec(),
        }
    }

    fn lent(&mut self, shape: Shape, pending: Option<u64>) -> Lent<'_> {
        let Buffers { slots, words, records, cache, memory, uses } = self;
        Lent::over_sets_of_four(shape, slots, words, records, cache, memory, uses, pending)
    }
}

/// The name that a record holds, if it does: it is valid, stands in its set, and its physical line is in memory.
fn held(board: &Board, record: usize) -> Option<u64> {
    let (name, info) = (board.records()[2 * record], board.records()[2 * record + 1]);
    let shape = board.shape();
    let stands = name as usize % (shape.lines / 4) == record / 4 && info / 8 < 256 * shape.frames as u64;
    (info % 2 == 1 && stands).then_some(name)
}

/// The lowest record that holds a name.
fn record_of(board: &Board, name: u64) -> Option<usize> {
    (0..board.shape().lines).find(|&record| held(board, record) == Some(name))
}

/// As a use of a line leaves its matrix.
fn used(mut uses: Uses, line: usize) -> Uses {
    uses[line] = [1; 4];
    uses.iter_mut().for_each(|row| row[line] = 0);
    uses
}

/// The record that a line which comes takes: the lowest of its set that holds nothing, else the lowest whose row has the fewest
/// ones.
fn taken_by(board: &Board, name: u64) -> usize {
    let set = name as usize % (board.shape().lines / 4);
    let ones = |line: usize| board.uses()[set][line].iter().filter(|&&entry| entry != 0).count();
    let empty = (4 * set..4 * set + 4).find(|&record| held(board, record).is_none());
    empty.unwrap_or_else(|| 4 * set + (0..4).min_by_key(|&line| ones(line)).unwrap())
}

/// Numbers by chance, the same on every machine.
struct Chance(u64);

impl Chance {
    fn below(&mut self, end: u64) -> u64 {
        self.0 = self.0.wrapping_mul(6364136223846793005).wrapping_add(1442695040888963407);
        (self.0 >> 33) % end
    }

    fn of<T: Copy>(&mut self, all: &[T]) -> T {
        all[self.below(all.len() as u64) as usize]
    }

    /// A call on a board of six frames: mostly accesses, to lines that share sets. About half of all are refused.
    fn call(&mut self) -> Call {
        let (process, width) = (self.of(&[0, 0, 0, 0, 0, 0, 0, 0, 1, 2]), self.of(&[1, 2, 4, 4, 4, 4, 4, 3]));
        let page = PAGE + self.below(4);
        let frame = self.of(&[1 + (page - PAGE) as usize, 1, 2, 3, 4, 5, 6]);
        let line = self.of(&[0, 0, 2, 4, 5, 130, 255]);
        let address = 4096 * self.below(4) + 16 * line + self.of(&[0, 0, 4, 4, 8, 8, 12, 12, 2]);
        let global = self.of(&[PAGE * 4096 + address, PREFIX_1 + 4096 + address, address % 8192]);
        let (value, write) = (self.of(&[1, 77, 255, 256]), self.below(4) != 0);
        match self.below(41) {
            0..=11 => Call::Load { process, width, address: address as u32 },
            12..=23 => Call::Store { process, width, address: address as u32, value },
            24..=26 => Call::SupervisorLoad { width, address: global },
            27..=29 => Call::SupervisorStore { width, address: global, value },
            30 => Call::Attach { process, slot: 0, segment: 2048, write },
            31 => Call::Detach { process: 1, slot: 0 },
            32 | 33 => Call::Map { page, frame, write },
            34 if self.below(3) == 0 => Call::Unmap { page },
            34 | 35 => Call::Protect { page, write },
            40 => Call::Move { page, new_page: PAGE + self.below(4) },
            36 if self.below(3) == 0 => Call::FlushAll,
            36 => Call::Tag { name: page * 256 + line },
            37 => Call::LoadAndMap { line: 256 * frame + line as usize },
            _ => Call::DropTag,
        }
    }
}

#[test]
fn the_limits_are_the_library_s() {
    for lines in [0, 1, 2, 3, 4, 6, 8, Shape::LINES_MAX, 2 * Shape::LINES_MAX] {
        let shape = Shape { lines, ..SHAPE };
        let keeps = shape.keeps_limits_in(Edition::SetsOfFour);
        assert_eq!(keeps, shape.keeps_limits() && lines >= 4, "{lines}");
        assert_eq!(shape.keeps_limits_in(Edition::OnePlace), shape.keeps_limits(), "{lines}");
        assert_eq!(Board::sets_of_four(shape).is_ok(), keeps, "{lines}");
        for matrices in [0, 1, shape.uses(), shape.uses() + 1, shape.uses().saturating_sub(1), lines] {
            let mut buffers = Buffers {
                slots: vec![0; shape.slots()],
                words: vec![0; shape.words()],
                records: vec![0; shape.records()],
                cache: vec![0; shape.cache()],
                memory: vec![0; shape.memory()],
                uses: vec![[[0; 4]; 4]; matrices],
            };
            let fits = keeps && matrices == lines / 4;
            assert_eq!(fits, buffers.lent(shape, None).look_number(0) == 0, "{lines} lines, {matrices} matrices");
        }
    }
    assert_eq!((SHAPE.uses(), Shape { lines: Shape::LINES_MAX, ..SHAPE }.uses()), (2, 16_384));
}

/// The first line of each page: in one place where there are 256 lines, and of one set.
#[test]
fn two_busy_pages_do_not_push_each_other_out() {
    let hits = |mut board: Board| {
        board.attach(0, 0, 2048, true).unwrap();
        for page in 0..4 {
            board.map(PAGE + page, 1 + page as usize, true).unwrap();
        }
        let loads = (0..100).filter(|i| board.load(0, 4, 4096 * (i % 4)).is_ok() && board.hit());
        loads.count()
    };
    let shape = Shape { lines: 256, ..SHAPE };
    assert_eq!((hits(Board::new(shape).unwrap()), hits(Board::sets_of_four(shape).unwrap())), (0, 96));
}

/// Records, cache bytes, marks and matrices, line by line: the lines at the addresses 0, 32, 64, ... are those of set 0.
#[test]
fn a_line_takes_the_lowest_empty_record_then_that_of_the_line_unused_for_longest() {
    let mut board = mapped();
    let name = |line: u32| PAGE * 256 + u64::from(line);
    for (record, line) in [(0, 0), (1, 2), (2, 4), (3, 6)] {
        assert_eq!((board.store(0, 4, 16 * line, line), board.mark()), (Ok(()), Mark::Refilled));
        assert_eq!(record_of(&board, name(line)), Some(record));
        assert_eq!(board.cache()[16 * record + 3], line as u8);
    }
    assert_eq!(board.uses()[0], [[0, 0, 0, 0], [1, 0, 0, 0], [1, 1, 0, 0], [1, 1, 1, 0]]);
    assert_eq!((board.load(0, 4, 0), board.mark()), (Ok(0), Mark::Hit));
    assert_eq!(board.uses()[0], [[0, 1, 1, 1], [0, 0, 0, 0], [0, 1, 0, 0], [0, 1, 1, 0]]);
    // Line 2 is the one that was not used for longest, and it is changed.
    assert_eq!((board.load(0, 4, 16 * 8), board.mark()), (Ok(0), Mark::WroteBack));
    assert_eq!((record_of(&board, name(8)), record_of(&board, name(2))), (Some(1), None));
    assert_eq!(board.memory()[4096 + 32 + 3], 2);
    assert_eq!(board.uses()[0], [[0, 0, 1, 1], [1, 0, 1, 1], [0, 0, 0, 0], [0, 0, 1, 0]]);
    // Then 4, then 6, then 0. Nothing has touched the other set.
    for (line, gone, record) in [(10, 4, 2), (12, 6, 3), (14, 0, 0)] {
        assert_eq!((board.load(0, 4, 16 * line), board.mark()), (Ok(0), Mark::WroteBack));
        assert_eq!((record_of(&board, name(line)), record_of(&board, name(gone))), (Some(record), None));
    }
    assert_eq!((board.load(0, 4, 16 * 2), board.mark()), (Ok(2), Mark::Refilled)); // over line 8, which was only read
    assert_eq!(record_of(&board, name(2)), Some(1));
    assert_eq!(board.uses()[1], [[0; 4]; 4]);
    assert!((4..8).all(|record| held(&board, record).is_none()));
    // A record that was given up is taken first, though its row has the most ones.
    board.unmap(PAGE + 1).unwrap();
    board.load(0, 4, 16 * 14).unwrap();
    let last = record_of(&board, name(14)).unwrap();
    assert_eq!((last, board.uses()[0][last]), (0, [0, 1, 1, 1]));
    let before = board.uses().to_vec();
    board.unmap(PAGE).unwrap();
    assert_eq!(board.uses(), before);
    board.map(PAGE + 1, 2, true).unwrap();
    board.load(0, 4, 4096).unwrap();
    assert_eq!(record_of(&board, name(256)), Some(0));
}

/// After every call by chance: an access that the cache did and an insertion are a use of the line's record, which is where the
/// rule says; nothing else is, and a refused call leaves an equal board.
#[test]
fn the_matrices_follow_the_uses() {
    let mut chance = Chance(4);
    let (mut uses, mut inserted, mut pushed, mut others, mut refused) = (0, 0, 0, 0, 0);
    for lines in [4, 8, 16, 256] {
        let mut board = Board::sets_of_four(Shape { lines, ..SHAPE }).unwrap();
        for _ in 0..6000 {
            let (call, before) = (chance.call(), board.clone());
            let outcome = board.perform(&call);
            if outcome.is_err() {
                refused += 1;
                assert_eq!(board, before, "{call:?}");
                continue;
            }
            let line = match call {
                Call::Load { address, .. } | Call::Store { address, .. } => Some(PAGE * 256 + u64::from(address / 16)),
                Call::SupervisorLoad { address, .. } | Call::SupervisorStore { address, .. } => {
                    (address >= PREFIX_1).then_some(address / 16)
                }
                Call::LoadAndMap { .. } => before.pending().filter(|&name| record_of(&before, name).is_none()),
                _ => None,
            };
            let mut expected = before.uses().to_vec();
            if let Some(name) = line {
                let record = record_of(&before, name).unwrap_or_else(|| {
                    inserted += 1;
                    let record = taken_by(&before, name);
                    pushed += usize::from(held(&before, record).is_some());
                    record
                });
                assert_eq!(record_of(&board, name), Some(record), "{call:?}");
                expected[record / 4] = used(expected[record / 4], record % 4);
                uses += 1;
            } else {
                others += 1;
            }
            assert_eq!(board.uses(), expected, "{call:?}");
        }
    }
    let counts = [uses, inserted, pushed, others, refused];
    assert!(counts.iter().zip([4000, 1000, 400, 1000, 4000]).all(|(count, least)| *count > least), "{counts:?}");
}

/// Matrices of any bytes, with all four lines held: the victim is the lowest row with the fewest entries that are not 0. A use
/// writes its row and its column and leaves the rest.
#[test]
fn wild_matrices_have_a_victim_too() {
    let mut chance = Chance(9);
    let mut full = Buffers::of(&mapped());
    for (record, line) in [(0, 0), (1, 2), (2, 4), (3, 6)] {
        full.records[2 * record..2 * record + 2].copy_from_slice(&[PAGE * 256 + line, (256 + line) * 8 + 3]);
    }
    let mut victims = [0; 4];
    for _ in 0..400 {
        let wild = [(); 4].map(|()| [(); 4].map(|()| chance.of(&[0, 0, 1, 2, 128, 255])));
        let mut buffers = Buffers { uses: vec![wild, [[7; 4]; 4]], ..full.clone() };
        let ones = |line: usize| wild[line].iter().filter(|&&entry| entry != 0).count();
        let victim = (0..4).min_by_key(|&line| ones(line)).unwrap();
        let mut board = buffers.lent(SHAPE, None);
        assert_eq!((board.load(0, 4, 16 * 8), board.mark()), (Ok(0), Mark::Refilled));
        assert_eq!(buffers.records[2 * victim], PAGE * 256 + 8, "{wild:?}");
        assert_eq!(buffers.uses, [used(wild, victim), [[7; 4]; 4]], "{wild:?}");
        victims[victim] += 1;
    }
    assert!(victims.iter().all(|&count| count > 20), "{victims:?}");
}

/// One name in two records of a set: the lower one counts. And records that hold nothing: not valid, in another set, beyond
/// memory; what comes takes the lowest record of its set, and nothing is written back.
#[test]
fn wild_records_count_as_in_their_set() {
    let (name, info) = (PAGE * 256, 256 * 8 + 7);
    let fits = Buffers::of(&mapped());
    let mut twice = fits.clone();
    twice.records[2..6].copy_from_slice(&[name, info, name, info]);
    (twice.cache[16], twice.cache[32]) = (10, 20);
    let mut board = twice.lent(SHAPE, None);
    assert_eq!((board.load(0, 1, 0), board.mark(), board.look(256).unwrap()[0]), (Ok(10), Mark::Hit, 10));
    assert_eq!(twice.uses[0], used([[0; 4]; 4], 1));
    for (record, words) in [(1, [name, info - 1]), (4, [name, info]), (1, [name, 6 * 256 * 8 + 7])] {
        let mut buffers = Buffers { cache: vec![9; 128], ..fits.clone() };
        buffers.records[2 * record..2 * record + 2].copy_from_slice(&words);
        let mut board = buffers.lent(SHAPE, None);
        assert_eq!((board.load(0, 1, 0), board.mark()), (Ok(0), Mark::Refilled), "{record}, {words:?}");
        assert_eq!((buffers.records[0], &buffers.memory), (name, &fits.memory), "{record}, {words:?}");
    }
}

/// Calls by chance on fresh boards: every number and value, and at times every line that look shows, is that of the other
/// edition. Marks differ now and then.
#[test]
fn both_editions_give_the_same_answers() {
    let mut chance = Chance(1);
    let (mut done, mut moved, mut other_marks) = (0, 0, 0);
    for lines in [4, 8, 16, 64, 256] {
        let shape = Shape { lines, ..SHAPE };
        let (mut one_place, mut sets) = (Board::new(shape).unwrap(), Board::sets_of_four(shape).unwrap());
        assert_eq!((one_place.edition(), sets.edition()), (Edition::OnePlace, Edition::SetsOfFour));
        for i in 0..8000 {
            let call = chance.call();
            let outcome = sets.perform(&call);
            assert_eq!((outcome, sets.pending()), (one_place.perform(&call), one_place.pending()), "{call:?}");
            done += usize::from(outcome.is_ok());
            moved += usize::from(outcome.is_ok() && matches!(call, Call::Move { .. }));
            other_marks += usize::from(sets.mark() != one_place.mark());
            assert_eq!((sets.slots(), sets.words()), (one_place.slots(), one_place.words()), "{call:?}");
            if i % 100 == 0 {
                for line in 0..256 * shape.frames {
                    assert_eq!(sets.look(line), one_place.look(line), "{line}");
                }
            }
        }
        assert!(one_place.uses().is_empty());
    }
    assert!(
        done > 10_000 && moved > 100 && other_marks > 1000,
        "{done} done, {moved} moved, {other_marks} other marks"
    );
}

#[test]
fn a_list_is_its_accesses_one_after_another() {
    let mut chance = Chance(7);
    let (mut listed, mut single) = (mapped(), mapped());
    let (mut done, mut refused) = (0, 0);
    for length in (0..=40).chain((0..=40).rev()) {
        let access = |call| match call {
            Call::Load { process, width, address } => Some(Access::load(process, width, address)),
            Call::Store { process, width, address, value } => Some(Access::store(process, width, address, value)),
            _ => None,
        };
        let calls: Vec<Call> =
            std::iter::repeat_with(|| chance.call()).filter(|&call| access(call).is_some()).take(length).collect();
        let list: Vec<Access> = calls.iter().copied().filter_map(access).collect();
        let mut answers = vec![Answer::NONE; length];
        assert_eq!((listed.accesses(&list, &mut answers), listed.mark()), (Ok(()), Mark::NoAccess));
        for (call, answer) in calls.iter().zip(answers) {
            assert_eq!((answer.outcome(), answer.marked()), (single.perform(call), single.mark()), "{call:?}");
            *(if answer.number() == 0 { &mut done } else { &mut refused }) += 1;
        }
        assert_eq!(listed, single);
        // Lengths that differ: nothing is done, and no answer written.
        let mut room = vec![Answer::NONE; length + 1];
        assert_eq!(listed.accesses(&list, &mut room), Err(Refusal::Shape));
        assert_eq!((&listed, room), (&single, vec![Answer::NONE; length + 1]));
    }
    assert!(done > 300 && refused > 300, "{done} done, {refused} refused");
}

#[test]
fn an_owned_and_a_lent_board_are_one_machine() {
    let mut own = mapped();
    let mut buffers = Buffers::of(&own);
    let mut lent = buffers.lent(SHAPE, None);
    assert_eq!((lent.edition(), lent.shape()), (Edition::SetsOfFour, SHAPE));
    let mut chance = Chance(2);
    for _ in 0..2000 {
        let call = chance.call();
        assert_eq!((own.perform(&call), own.mark()), (lent.perform(&call), lent.mark()), "{call:?}");
        assert_eq!((own.uses(), own.pending()), (lent.uses(), lent.pending()), "{call:?}");
    }
    assert_eq!(Buffers::of(&own), buffers);
}

/// Matrices too many or too few: every call is refused by number 1, and nothing changes.
#[test]
fn matrices_that_do_not_fit_refuse_every_call() {
    for matrices in [0, 1, 3, 8] {
        let mut buffers = Buffers { uses: vec![[[5; 4]; 4]; matrices], ..Buffers::of(&mapped()) };
        let (before, pending) = (buffers.clone(), Some(PAGE * 256));
        let (mut lent, mut chance) = (buffers.lent(SHAPE, pending), Chance(3));
        for _ in 0..400 {
            let call = chance.call();
            assert_eq!((lent.perform(&call), lent.mark()), (Err(Refusal::Shape), Mark::NoAccess), "{call:?}");
        }
        let mut answers = [Answer::NONE];
        assert_eq!(lent.accesses(&[Access::load(0, 4, 0)], &mut answers), Err(Refusal::Shape));
        assert_eq!((lent.look(0), lent.look_number(0)), (Err(Refusal::Shape), 1));
        assert_eq!((lent.pending(), answers), (pending, [Answer::NONE]));
        assert_eq!(buffers, before);
    }
}

#[test]
fn look_gives_a_part_of_the_board_itself() {
    let mut board = mapped();
    for line in [0, 2, 4] {
        board.store(0, 4, 16 * line, 0x01020300 + line).unwrap();
    }
    let looked = board.look(256 + 4).unwrap();
    assert_eq!((looked[..4].to_vec(), looked.as_ptr()), (vec![1, 2, 3, 4], board.cache()[32..].as_ptr()));
    board.flush_all().unwrap();
    let looked = board.look(256 + 4).unwrap();
    assert_eq!((looked[3], looked.as_ptr()), (4, board.memory()[16 * 260..].as_ptr()));
    assert_eq!(board.look(6 * 256), Err(Refusal::Range));
}

/// An insertion is a use; of a line that is held already only the tag goes.
#[test]
fn a_load_in_two_parts() {
    let mut board = mapped();
    let name = PAGE * 256;
    board.load(0, 4, 32).unwrap();
    board.tag(name).unwrap();
    assert_eq!(board.load_and_map(257), Err(Refusal::OtherLine));
    board.load_and_map(256).unwrap();
    assert_eq!((record_of(&board, name), board.pending()), (Some(1), None));
    let expected = used(used([[0; 4]; 4], 0), 1);
    assert_eq!(board.uses()[0], expected);
    board.load(0, 4, 32).unwrap();
    let before = board.clone();
    board.tag(name).unwrap();
    board.load_and_map(256).unwrap();
    assert_eq!(board, before);
    assert_eq!((board.load(0, 4, 0), board.hit(), board.uses()[0]), (Ok(0), true, used(before.uses()[0], 1)));
}

/// Calls of the other edition are not refused: they don't find the line, and memory has old bytes.
#[test]
fn an_edition_belongs_to_the_board() {
    let mut board = mapped();
    board.store(0, 1, 0, 50).unwrap();
    board.store(0, 1, 32, 51).unwrap();
    let Buffers { mut slots, mut words, mut records, mut cache, mut memory, .. } = Buffers::of(&board);
    let mut other = Lent::over(SHAPE, &mut slots, &mut words, &mut records, &mut cache, &mut memory, None);
    assert_eq!((other.load(0, 1, 0), other.load(0, 1, 32)), (Ok(50), Ok(0)));
    assert_eq!((board.load(0, 1, 0), board.load(0, 1, 32)), (Ok(50), Ok(51)));
}

/// By way of flush all, the same buffers may go on in the other edition.
#[test]
fn a_flushed_board_may_go_over_to_the_other_edition() {
    let shape = Shape { lines: 16, ..SHAPE };
    let mut board = Board::new(shape).unwrap();
    board.attach(0, 0, 2048, true).unwrap();
    board.map(PAGE, 1, true).unwrap();
    for address in 0..1024 {
        board.store(0, 4, 4 * address, address).unwrap();
    }
    board.flush_all().unwrap();
    let mut buffers = Buffers { uses: vec![[[0; 4]; 4]; shape.uses()], ..Buffers::of(&board) };
    let mut sets = buffers.lent(shape, None);
    for address in 0..1024 {
        assert_eq!(sets.load(0, 4, 4 * address), Ok(address));
    }
}

#[test]
fn boards_of_two_editions_are_not_equal() {
    let (one_place, sets) = (Board::new(SHAPE).unwrap(), Board::sets_of_four(SHAPE).unwrap());
    assert_ne!(one_place, sets);
    let mut other = sets.clone();
    assert_eq!(other, sets);
    // The same but for the matrices.
    other.supervisor_load(4, PREFIX_1 + 4096).unwrap();
    other.flush_all().unwrap();
    let mut plain = sets.clone();
    plain.flush_all().unwrap();
    assert_eq!((other.records(), other.memory()), (plain.records(), plain.memory()));
    assert_eq!((other.uses()[0], plain.uses()[0]), (used([[0; 4]; 4], 0), [[0; 4]; 4]));
    assert_ne!(other, plain);
}

#[test]
fn a_log_is_replayed_in_either_edition() {
    let mut chance = Chance(5);
    let calls: Vec<Call> = (0..3000).map(|_| chance.call()).collect();
    let mut made = Board::sets_of_four(SHAPE).unwrap();
    let answers: Vec<_> = calls.iter().map(|call| (made.perform(call), made.mark())).collect();
    let mut again = Board::for_replay_in(Edition::SetsOfFour, SHAPE).unwrap();
    let replayed: Vec<_> = calls.iter().map(|call| (again.perform(call), again.mark())).collect();
    assert_eq!((replayed, again.edition()), (answers.clone(), Edition::SetsOfFour));
    assert_eq!(again, made);
    let mut other = Board::for_replay(SHAPE).unwrap();
    assert_eq!(other.edition(), Edition::OnePlace);
    for (call, (outcome, _)) in calls.iter().zip(answers) {
        assert_eq!(other.perform(call), outcome, "{call:?}");
    }
    // Fewer than four lines: no such board in sets of four.
    let mut none = Board::for_replay_in(Edition::SetsOfFour, Shape { lines: 2, ..SHAPE }).unwrap();
    assert!(calls.iter().all(|call| none.perform(call) == Err(Refusal::Shape)));
    assert!((none.memory().is_empty(), none.uses().is_empty()) == (true, true));
}
