//! What logs meet, and what must be met, by every route that can bring it. Of each number, where in a log it stands (of the header,
//! a kind, or a field of each kind) and what becomes of it: taken, by its length, or refused, by each reason, in one piece or cut
//! apart. Of pieces, where they end and what room there is. Of states that no reading reaches, and of those that are none. Of
//! entries to be written, likewise.

use crate::limits::*;
use crate::logs::{self, Call, State, Took, Writing};
use crate::routes::{Manner, Route, ROUTES};
use model::Edition;
use std::fmt::{self, Arguments};
use Route::{Board, Header, Raw, Safe};

// ---------------------------------------------------------------------------------------------
// Numbers in bytes
// ---------------------------------------------------------------------------------------------

/// Where the number that begins at this place ends, or at which it is seen that it is none: its first byte without the top bit,
/// or its tenth; or the end of the bytes.
pub fn number_end(bytes: &[u8], place: usize) -> usize {
    let last = bytes.len().min(place + NUMBER_BYTES);
    bytes[place..last].iter().position(|&byte| byte < 0x80).map_or(last, |at| place + at + 1)
}

/// What groups of seven bits are worth, the lowest first.
pub fn worth(groups: &[u8]) -> u64 {
    groups.iter().rev().fold(0, |worth, &group| worth << 7 | u64::from(group & 0x7F))
}

/// The numbers of which bytes consist, and what is left of the last if it is not whole.
pub fn numbers(bytes: &[u8]) -> (Vec<u64>, &[u8]) {
    let (mut all, mut at) = (Vec::new(), 0);
    while at < bytes.len() {
        let end = number_end(bytes, at);
        if bytes[end - 1] >= 0x80 {
            break;
        }
        all.push(worth(&bytes[at..end]));
        at = end;
    }
    (all, &bytes[at..])
}

// ---------------------------------------------------------------------------------------------
// Spots
// ---------------------------------------------------------------------------------------------

/// Where a number stands: in the entry of a kind, the header being 0, so many numbers behind it. The first of 0 stands for the
/// kind of any call.
const SPOTS: usize = ENTRIES.len() * ENTRY_WORDS;
const KIND_SPOT: usize = 0;

fn spot_of(kind: u64, field: usize) -> usize {
    kind as usize * ENTRY_WORDS + field
}

/// What stands at a spot: none if nothing can.
fn field_at(spot: usize) -> Option<(&'static str, &'static str, Limit)> {
    let (kind, field) = (spot / ENTRY_WORDS, spot % ENTRY_WORDS);
    if spot == KIND_SPOT {
        return Some(("a call", "kind", Limit::Any));
    }
    let (entry, fields) = ENTRIES[kind];
    let (words, limit) = *fields.get(field.checked_sub(1)?)?;
    Some((entry, words, limit))
}

/// What becomes of a number in a log.
#[derive(Clone, Copy, Debug, PartialEq, Eq)]
pub enum Fate {
    /// Taken: a number of so many bytes.
    Taken(usize),
    /// Taken, the largest that there is room for.
    Largest,
    Padded,
    TenthByte,
    /// The log ends before it, or inside it.
    CutBefore,
    CutInside,
    /// Too large, by one; or by more. Of a value, in a store.
    First,
    Far,
    /// The same of a value in a load.
    FirstInLoad,
    FarInLoad,
    /// A kind that there is not: 0; the first above; another; one that is known in its lowest 8, 16 or 32 bits.
    KindZero,
    KindNext,
    KindFar,
    KindAlike,
}

use Fate::*;

const FATES: [Fate; 23] = [
    Taken(1),
    Taken(2),
    Taken(3),
    Taken(4),
    Taken(5),
    Taken(6),
    Taken(7),
    Taken(8),
    Taken(9),
    Taken(10),
    Largest,
    Padded,
    TenthByte,
    CutBefore,
    CutInside,
    First,
    Far,
    FirstInLoad,
    FarInLoad,
    KindZero,
    KindNext,
    KindFar,
    KindAlike,
];

impl Fate {
    fn index(self) -> usize {
        FATES.iter().position(|&fate| fate == self).expect("every fate is in the list")
    }

    /// Whether there is such a number at this spot; cut apart, it has two bytes at least.
    fn can_be(self, spot: usize, apart: bool) -> bool {
        let Some((_, _, limit)) = field_at(spot) else { return false };
        let kind = spot == KIND_SPOT;
        let most = match limit {
            _ if kind => 1,
            Limit::Any => NUMBER_BYTES,
            Limit::Short | Limit::Value => 5,
            Limit::Flag | Limit::LoadOrStore => 1,
        };
        match self {
            Taken(bytes) => bytes <= most && (bytes > 1 || !apart),
            Largest => !kind && (most > 1 || !apart),
            Padded | TenthByte => true,
            CutBefore => !apart && !kind,
            CutInside => !apart,
            First => match limit {
                Limit::Any => false,
                Limit::Flag | Limit::LoadOrStore => !apart,
                Limit::Short | Limit::Value => true,
            },
            Far => limit != Limit::Any,
            FirstInLoad => limit == Limit::Value && !apart,
            FarInLoad => limit == Limit::Value,
            KindZero | KindNext => kind && !apart,
            KindFar | KindAlike => kind,
        }
    }

    /// Whether an entry with such a number can be written or refused. There is no other spot of kinds then, and of a wrong kind a
    /// sight is counted.
    fn can_be_written(self, spot: usize) -> bool {
        let number = matches!(self, Taken(_) | Largest | First | Far | FirstInLoad | FarInLoad);
        number && spot != KIND_SPOT && self.can_be(spot, false)
    }

    /// How a number that is too large is so.
    fn too_large(limit: Limit, load: bool, number: u64) -> Fate {
        let by_one = end_of_field(limit, load) == Some(number);
        match (limit == Limit::Value && load, by_one) {
            (true, true) => FirstInLoad,
            (true, false) => FarInLoad,
            (false, true) => First,
            (false, false) => Far,
        }
    }

    fn unknown(kind: u64) -> Fate {
        let known = |bits: u32| (1..NO_KIND).contains(&(kind % (1 << bits)));
        match kind {
            0 => KindZero,
            NO_KIND => KindNext,
            _ if known(8) || known(16) || known(32) => KindAlike,
            _ => KindFar,
        }
    }
}

impl fmt::Display for Fate {
    fn fmt(&self, f: &mut fmt::Formatter) -> fmt::Result {
        f.write_str(match self {
            Taken(1) => "taken, of one byte",
            Taken(bytes) => return write!(f, "taken, of {bytes} bytes"),
            Largest => "taken, the largest",
            Padded => "refused, padded",
            TenthByte => "refused for its tenth byte",
            CutBefore => "the log is cut before it",
            CutInside => "the log is cut inside it",
            First => "refused, the first that is too large",
            Far => "refused, far too large",
            FirstInLoad => "refused, 1 in a load",
            FarInLoad => "refused, more in a load",
            KindZero => "refused, 0",
            KindNext => "refused, 13",
            KindFar => "refused, above 13",
            KindAlike => "refused, known in its low bits",
        })
    }
}

/// Whether it is the largest number that a field has room for.
fn is_largest(limit: Limit, load: bool, number: u64) -> bool {
    number == end_of_field(limit, load).map_or(u64::MAX, |end| end - 1)
}

/// Whether an entry of these numbers is a load, as far as they go.
fn is_load(numbers: &[u64]) -> bool {
    let Some((&kind, fields)) = numbers.split_first() else { return false };
    let at = fields_of(kind).iter().position(|(_, limit)| *limit == Limit::LoadOrStore);
    at.and_then(|at| fields.get(at)) == Some(&0)
}

// ---------------------------------------------------------------------------------------------
// Sights
// ---------------------------------------------------------------------------------------------

/// The routes that can bring it: all; those that show a state, as words; those that take pointers; those that make calls of
/// entries.
const EACH: &[Route] = &[Raw, Header, Board, Safe];
const WORDS: &[Route] = &[Raw, Header];
const POINTERS: &[Route] = &[Raw, Header, Board];
const MAKERS: &[Route] = &[Board, Safe];

macro_rules! sights {
    ($($sight:ident $words:literal: $routes:expr;)*) => {
        #[derive(Clone, Copy, Debug, PartialEq, Eq)]
        pub enum Sight { $($sight),* }

        /// In words, and by which routes.
        pub const SIGHTS: &[(Sight, &str, &[Route])] = &[$((Sight::$sight, $words, $routes)),*];
    };
}

sights! {
    // Pieces and their ends.
    Empty "a piece of no bytes": EACH;
    EmptyNull "a piece of no bytes, as NULL": POINTERS;
    OneByte "a piece of one byte": EACH;
    WholeLog "a log of several calls in one piece, with room for more": EACH;
    LongLog "a log of more than 65,536 bytes in one piece, with room for all": EACH;
    ShortOfNumber "a piece that ends a byte short of a number's end": EACH;
    AtNumber "a piece that ends behind a number inside an entry": EACH;
    AtEntry "a piece that ends behind an entry": EACH;
    After1 "a piece that ends behind 1 group of a number": EACH;
    After2 "a piece that ends behind 2 groups of a number": EACH;
    After3 "a piece that ends behind 3 groups of a number": EACH;
    After4 "a piece that ends behind 4 groups of a number": EACH;
    After5 "a piece that ends behind 5 groups of a number": EACH;
    After6 "a piece that ends behind 6 groups of a number": EACH;
    After7 "a piece that ends behind 7 groups of a number": EACH;
    After8 "a piece that ends behind 8 groups of a number": EACH;
    After9 "a piece that ends behind 9 groups of a number": EACH;
    // Room.
    NoRoom "bytes and no room": EACH;
    NoRoomNull "bytes and no room, as NULL": POINTERS;
    NoRoomAtBad "no room, and the next byte is refused": EACH;
    RoomOne "room for one entry": EACH;
    RoomFew "room for 2 to 9 entries, all filled": EACH;
    RoomMany "room for 10 entries or more, all filled": EACH;
    RoomLeft "entries given, and room left": EACH;
    FullBefore "room filled before the piece's end": EACH;
    FullAt "room filled at the piece's end": EACH;
    FullAtBad "room filled, and the next byte is refused": EACH;
    // Refusals.
    BadFirst "refused at the first byte of a piece": EACH;
    BadAfter "refused in the call that gave entries before": EACH;
    BadLast "refused at the last byte of the log": EACH;
    AfterBad "bytes offered after a refusal": EACH;
    AfterBadMany "many bytes of good entries offered after a refusal": EACH;
    OnAfterCut "read on after it was asked whether the log is cut": EACH;
    GoodEnd "a good log, to its end": EACH;
    HeaderAlone "a good log of a header alone": EACH;
    EmptyLog "an empty log": EACH;
    OddEnded "the log has ended by another number than 1": WORDS;
    // Entries of each kind are in the fates; what else is read.
    Trip "a run written and read again": EACH;
    TripLong "a run of 50 calls or more written and read again": EACH;
    // Moves of such a run, made again on a board of zeros of each edition.
    Ones0 "a move made again with one line to a place: done": MAKERS;
    Ones1 "a move made again with one line to a place: refused by 1": MAKERS;
    Ones2 "a move made again with one line to a place: refused by 2": MAKERS;
    Ones8 "a move made again with one line to a place: refused by 8": MAKERS;
    Ones11 "a move made again with one line to a place: refused by 11": MAKERS;
    Fours0 "a move made again in sets of four: done": MAKERS;
    Fours1 "a move made again in sets of four: refused by 1": MAKERS;
    Fours2 "a move made again in sets of four: refused by 2": MAKERS;
    Fours8 "a move made again in sets of four: refused by 8": MAKERS;
    Fours11 "a move made again in sets of four: refused by 11": MAKERS;
    // States that no reading reaches, and go on by the same rules.
    WildWords "a wild state: words that are not read": WORDS;
    WildField "a wild state: a field so far that is too large": WORDS;
    WildFlag "a wild state: neither load nor store, then a value": WORDS;
    WildTaken "a wild state: fewer bytes taken than its words have": WORDS;
    WildMost "a wild state: the last byte before 2^64": WORDS;
    WildRefused2 "a wild state refused by 2": WORDS;
    WildRefused3 "a wild state refused by 3": WORDS;
    WildRefused5 "a wild state refused by 5": WORDS;
    WildRefused6 "a wild state refused by 6": WORDS;
    WildGroups0 "a wild state with no group of a number, which is taken": WORDS;
    WildGroups1 "a wild state with 1 group of a number, which is taken": WORDS;
    WildGroups2 "a wild state with 2 groups of a number, which is taken": WORDS;
    WildGroups3 "a wild state with 3 groups of a number, which is taken": WORDS;
    WildGroups4 "a wild state with 4 groups of a number, which is taken": WORDS;
    WildGroups5 "a wild state with 5 groups of a number, which is taken": WORDS;
    WildGroups6 "a wild state with 6 groups of a number, which is taken": WORDS;
    WildGroups7 "a wild state with 7 groups of a number, which is taken": WORDS;
    WildGroups8 "a wild state with 8 groups of a number, which is taken": WORDS;
    WildGroups9 "a wild state with 9 groups of a number, which is taken": WORDS;
    // States that are none, each for one cause.
    StateNone "no state: no words": WORDS;
    StateNull "no state: no words, as NULL": WORDS;
    StateShort "no state: a word too few": WORDS;
    StateLong "no state: a word too many": WORDS;
    StateTwice "no state: twice the words": WORDS;
    GroupsTen "no state: ten groups": WORDS;
    GroupsMost "no state: 2^64 - 1 groups": WORDS;
    GroupsUntaken "no state: a group more than bytes taken": WORDS;
    WorthOver0 "no state: worth too much for no group": WORDS;
    WorthOver1 "no state: worth too much by one for 1 group": WORDS;
    WorthOver2 "no state: worth too much by one for 2 groups": WORDS;
    WorthOver3 "no state: worth too much by one for 3 groups": WORDS;
    WorthOver4 "no state: worth too much by one for 4 groups": WORDS;
    WorthOver5 "no state: worth too much by one for 5 groups": WORDS;
    WorthOver6 "no state: worth too much by one for 6 groups": WORDS;
    WorthOver7 "no state: worth too much by one for 7 groups": WORDS;
    WorthOver8 "no state: worth too much by one for 8 groups": WORDS;
    WorthOver9 "no state: worth too much by one for 9 groups": WORDS;
    WorthMost "no state: worth 2^64 - 1": WORDS;
    ThereOver0 "no state: a word too many of the header": WORDS;
    ThereOver1 "no state: a word too many of a user access": WORDS;
    ThereOver2 "no state: a word too many of a supervisor access": WORDS;
    ThereOver3 "no state: a word too many of an attach": WORDS;
    ThereOver4 "no state: a word too many of a detach": WORDS;
    ThereOver5 "no state: a word too many of a map": WORDS;
    ThereOver6 "no state: a word too many of an unmap": WORDS;
    ThereOver7 "no state: a word too many of a protect": WORDS;
    ThereOver8 "no state: a word too many of a flush all": WORDS;
    ThereOver9 "no state: a word too many of a tag": WORDS;
    ThereOver10 "no state: a word too many of a load-and-map": WORDS;
    ThereOver11 "no state: a word too many of a drop tag": WORDS;
    ThereOver12 "no state: a word too many of a move": WORDS;
    ThereUnknown "no state: a word of a kind that is not known": WORDS;
    ThereMost "no state: 2^64 - 1 words": WORDS;
    Reason1 "no state: refused by 1": WORDS;
    Reason4 "no state: refused by 4": WORDS;
    Reason7 "no state: refused by 7": WORDS;
    ReasonAlike "no state: refused by what is 2 to 6 in its low bits": WORDS;
    StateBad "no state, for several causes": WORDS;
    // Other buffers that don't fit, the state being one.
    Torn1 "room for entries and a word": WORDS;
    Torn2 "room for entries and 2 words": WORDS;
    Torn3 "room for entries and 3 words": WORDS;
    Torn4 "room for entries and 4 words": WORDS;
    Torn5 "room for entries and 5 words": WORDS;
    TornAlone "room for some words and no entry": WORDS;
    TornBad "room for entries and some words, after a refusal": WORDS;
    Reaches "a piece with which the log reaches 2^64 bytes": WORDS;
    ReachesNoRoom "a piece with which the log would reach 2^64 bytes, and no room": WORDS;
    ReachesBad "a piece with which the log would reach 2^64 bytes, after a refusal": WORDS;
    ReachesFar "a piece with which the log reaches more than 2^64 bytes": WORDS;
    // Writing.
    WrittenExact "written, into just as much room as is asked for": EACH;
    WrittenMore "written, into more room": WORDS;
    WrittenLongest "written, an entry of 40 bytes": EACH;
    WrittenShortest "written, an entry of one byte": EACH;
    KindOver "not written: kind 13": EACH;
    KindMost "not written: kind 2^64 - 1": EACH;
    KindLow "not written: a kind that is known in its low bits": EACH;
    KindFields "not written: a kind that is not known, its fields too large as well": EACH;
    SeveralFields "not written: several fields too large": EACH;
    FieldAndExtra "not written: a field too large, and one that the kind doesn't have": EACH;
    EntryNone "not written: no words of an entry": WORDS;
    EntryNull "not written: no words of an entry, as NULL": WORDS;
    EntryShort "not written: a word too few": WORDS;
    EntryLong "not written: a word too many": WORDS;
    EntryTwice "not written: two entries": WORDS;
    RoomNone "not written: no room": WORDS;
    RoomNull "not written: no room, as NULL": WORDS;
    RoomEnough "not written: less room than is asked for, though the entry would fit": WORDS;
    RoomShort "not written: a byte of room too few": WORDS;
    MisfitBoth "not written: neither entry nor room fit": WORDS;
    MisfitKind "not written: the room doesn't fit, and the kind is not known": WORDS;
    MisfitField "not written: the room doesn't fit, and a field is too large": WORDS;
}

/// The sight that stands so many places behind another.
fn nth(first: Sight, index: u64) -> Sight {
    SIGHTS[first as usize + index as usize].0
}

// ---------------------------------------------------------------------------------------------
// What a reading met
// ---------------------------------------------------------------------------------------------

/// The number that a wild state begins with is taken, or refused for a reason.
const WILD_ENDS: [(u64, &str); 5] = [
    (0, "taken"),
    (reason::PADDED, "refused, padded"),
    (reason::TENTH_BYTE, "refused for its tenth byte"),
    (reason::UNKNOWN_KIND, "refused, no kind"),
    (reason::TOO_LARGE, "refused, too large"),
];

/// The numbers that a move may have, by CR 9, in the order of their sights.
const MOVE_NUMBERS: [u32; 5] = [0, 1, 2, 8, 11];

/// What is counted of a reading.
pub struct Tally {
    sights: [bool; SIGHTS.len()],
    /// Each number's spot, its fate, and whether a piece ended inside it.
    fates: Vec<(usize, Fate, bool)>,
    /// The first number of a wild state: its spot and its end.
    wild: Option<(usize, usize)>,
    null: bool,
    yes: u32,
    /// The calls; where they ended, in the log, but for one that was refused; and how many entries they gave.
    calls: u64,
    bounds: Vec<usize>,
    given: usize,
}

impl Tally {
    pub fn of(manner: &Manner) -> Tally {
        Tally {
            sights: [false; SIGHTS.len()],
            fates: Vec::new(),
            wild: None,
            null: manner.null,
            yes: manner.yes,
            calls: 0,
            bounds: Vec::new(),
            given: 0,
        }
    }

    fn when(&mut self, is: bool, sight: Sight) {
        self.sights[sight as usize] |= is;
    }

    /// With one sight where the buffer goes as NULL, and another where it doesn't.
    fn when_null(&mut self, is: bool, null: Sight, placed: Sight) {
        self.when(is, if self.null { null } else { placed });
    }

    pub fn call(&mut self, call: &Call) {
        match call.took {
            Some(took) => self.took(call, took),
            None => self.misfit(call),
        }
    }

    fn took(&mut self, call: &Call, Took { given, after }: &Took) {
        let before = State::of(call.before).expect("a state that was read from");
        let (offered, room) = (call.offered(), call.piece.room);
        let taken = (after.taken - before.taken) as usize;
        let at = call.from + taken;
        self.calls += 1;
        self.given += given.len();
        if after.reason == 0 {
            self.bounds.push(at);
        }
        let bytes = !offered.is_empty();
        self.when_null(!bytes, Sight::EmptyNull, Sight::Empty);
        self.when(offered.len() == 1, Sight::OneByte);
        self.when(self.yes != 1 && after.refused(true) == reason::CUT, Sight::OddEnded);
        if before.reason != 0 {
            self.when(bytes && room > 0, Sight::AfterBad);
            self.when(offered.len() >= 8 && room > 1, Sight::AfterBadMany);
            return;
        }
        if room == 0 {
            self.when_null(bytes, Sight::NoRoomNull, Sight::NoRoom);
            let next = logs::taken(call.before, &offered[..offered.len().min(1)], ENTRY_WORDS);
            self.when(next.is_some_and(|next| next.after.reason != 0), Sight::NoRoomAtBad);
            return;
        }
        let (full, refused) = (given.len() == room, after.reason != 0);
        self.when(room == 1, Sight::RoomOne);
        self.when(full && (2..10).contains(&room), Sight::RoomFew);
        self.when(full && room >= 10, Sight::RoomMany);
        self.when(!full && !given.is_empty(), Sight::RoomLeft);
        self.when(full && taken < offered.len(), Sight::FullBefore);
        self.when(full && taken == offered.len(), Sight::FullAt);
        let next = offered.get(taken);
        self.when(
            full && next.is_some_and(|next| *next == 0 || (NO_KIND as u8..0x80).contains(next)),
            Sight::FullAtBad,
        );
        self.when(refused && taken == 0, Sight::BadFirst);
        self.when(refused && !given.is_empty(), Sight::BadAfter);
        self.when(refused && at + 1 == call.log.len(), Sight::BadLast);
        self.when(taken > 0 && call.from > 0 && before.refused(true) == reason::CUT, Sight::OnAfterCut);
        self.when(taken == call.log.len() && given.len() > 2 && !full && !refused, Sight::WholeLog);
        self.when(taken == call.log.len() && taken > 0x1_0000 && !refused, Sight::LongLog);
        if taken > 0 && taken == offered.len() && at < call.log.len() && !refused {
            let inside = after.groups > 0;
            self.when(inside && call.log[at] < 0x80, Sight::ShortOfNumber);
            self.when(!inside && !after.there.is_empty(), Sight::AtNumber);
            self.when(!inside && after.there.is_empty(), Sight::AtEntry);
            self.when(inside, nth(Sight::After1, after.groups.saturating_sub(1)));
        }
    }

    /// Why the buffers of a call don't fit.
    fn misfit(&mut self, call: &Call) {
        let Some(state) = State::of(call.before) else { return self.no_state(call.before) };
        let (room, torn, offered) = (call.piece.room, call.piece.torn, call.offered());
        let Some(beyond) = (u128::from(state.taken) + offered.len() as u128).checked_sub(1 << 64) else {
            self.when(room > 0, nth(Sight::Torn1, torn as u64 - 1));
            self.when(room == 0, Sight::TornAlone);
            return self.when(state.reason != 0, Sight::TornBad);
        };
        if torn == 0 {
            self.when(beyond == 0 && room > 0 && state.reason == 0, Sight::Reaches);
            self.when(beyond > 0 && room > 0 && state.reason == 0, Sight::ReachesFar);
            self.when(room == 0, Sight::ReachesNoRoom);
            self.when(state.reason != 0, Sight::ReachesBad);
        }
    }

    fn no_state(&mut self, words: &[u64]) {
        let &[taken, groups, worth, there, kind, _, _, _, _, _, reason] = words else {
            self.when_null(words.is_empty(), Sight::StateNull, Sight::StateNone);
            self.when(words.len() == STATE_WORDS - 1, Sight::StateShort);
            self.when(words.len() == STATE_WORDS + 1, Sight::StateLong);
            return self.when(words.len() == 2 * STATE_WORDS, Sight::StateTwice);
        };
        let fields = fields_of(kind).len() as u64;
        let most = 1u64.checked_shl(7 * groups.min(10) as u32);
        let reasons = [0, reason::PADDED, reason::TENTH_BYTE, reason::UNKNOWN_KIND, reason::TOO_LARGE];
        let known = |reason: u64| reasons.contains(&reason);
        let wrong = [
            groups > 9 || groups > taken,
            groups <= 9 && most.is_some_and(|most| worth >= most),
            there > fields,
            !known(reason),
        ];
        if wrong.iter().filter(|&&wrong| wrong).count() > 1 {
            return self.when(true, Sight::StateBad);
        }
        self.when(wrong[0] && groups == 10, Sight::GroupsTen);
        self.when(wrong[0] && groups == u64::MAX, Sight::GroupsMost);
        self.when(wrong[0] && groups <= 9 && groups == taken + 1, Sight::GroupsUntaken);
        self.when(wrong[1] && most == Some(worth), nth(Sight::WorthOver0, groups.min(9)));
        self.when(wrong[1] && worth == u64::MAX, Sight::WorthMost);
        if wrong[2] {
            let is_known = kind < NO_KIND;
            self.when(is_known && there == fields + 1, nth(Sight::ThereOver0, kind.min(NO_KIND - 1)));
            self.when(!is_known && there == 1, Sight::ThereUnknown);
            self.when(there == u64::MAX, Sight::ThereMost);
        }
        self.when(wrong[3] && reason == reason::MISFIT, Sight::Reason1);
        self.when(wrong[3] && reason == reason::CUT, Sight::Reason4);
        self.when(wrong[3] && reason == 7, Sight::Reason7);
        self.when(wrong[3] && (known(reason % 256) || known(reason % (1 << 32))), Sight::ReasonAlike);
    }

    /// Of a reading that began with a fresh state: each number that it took, and the one that it refused or lacks.
    pub fn whole(&mut self, log: &[u8], end: &State) {
        let (at, refused) = (end.taken as usize, end.reason != 0);
        let good = at == log.len() && end.refused(true) == 0;
        self.when(good && self.given > 1, Sight::GoodEnd);
        self.when(good && self.given == 1, Sight::HeaderAlone);
        self.when(log.is_empty(), Sight::EmptyLog);
        let whole = if refused { end.place() as usize } else { at };
        let (mut place, mut numbers) = (0, vec![0]);
        while place < whole {
            let last = number_end(log, place);
            if last > whole || log[last - 1] >= 0x80 {
                break;
            }
            let (number, apart) = (worth(&log[place..last]), self.is_apart(place, last));
            if numbers.is_empty() {
                self.fates.push((KIND_SPOT, Taken(last - place), apart));
            } else {
                let (spot, limit, load) = next_field(&numbers);
                self.fates.push((spot, Taken(last - place), apart));
                if is_largest(limit, load, number) {
                    self.fates.push((spot, Largest, apart));
                }
            }
            numbers.push(number);
            if numbers.len() > fields_of(numbers[0]).len() {
                numbers.clear();
            }
            place = last;
        }
        if refused || at == log.len() && !good {
            self.ends(log, place, &numbers, end);
        }
    }

    /// The number behind these, which ends the log or is refused.
    fn ends(&mut self, log: &[u8], place: usize, numbers: &[u64], end: &State) {
        let last = number_end(log, place);
        let number = worth(&log[place..last]);
        let (spot, limit, load) = if numbers.is_empty() { (KIND_SPOT, Limit::Any, false) } else { next_field(numbers) };
        let fate = match end.refused(true) {
            reason::PADDED => Padded,
            reason::TENTH_BYTE => TenthByte,
            reason::CUT if place == log.len() => CutBefore,
            reason::CUT => CutInside,
            reason::UNKNOWN_KIND => Fate::unknown(number),
            _ => Fate::too_large(limit, load, number),
        };
        let apart = end.reason != 0 && self.is_apart(place, last);
        self.fates.push((spot, fate, apart));
    }

    /// Whether a piece ended inside the number that stands there.
    fn is_apart(&self, place: usize, end: usize) -> bool {
        let next = self.bounds.partition_point(|&bound| bound <= place);
        self.bounds.get(next).is_some_and(|&bound| bound < end)
    }

    /// Of a reading that began with a wild state: what became of its first number, and what was odd in it.
    pub fn wild(&mut self, words: &[u64], log: &[u8], end: &State) {
        let Some(begin) = State::of(words) else { return };
        let there = begin.there.len();
        if begin.reason != 0 {
            let refused = [Sight::WildRefused2, Sight::WildRefused3, Sight::WildRefused5, Sight::WildRefused6];
            let index = WILD_ENDS.iter().position(|(reason, _)| *reason == begin.reason).expect("a reader's reason");
            return self.when(!log.is_empty(), refused[index - 1]);
        }
        let taken = self.given > 0 || end.there.len() > there;
        if !taken && end.reason == 0 {
            return;
        }
        let wild = WILD_ENDS.iter().position(|(reason, _)| *reason == if taken { 0 } else { end.reason });
        let spot = if there == 0 { KIND_SPOT } else { next_field(&begin.there).0 };
        self.wild = Some((spot, wild.expect("a reader's reason")));
        self.when(taken, nth(Sight::WildGroups0, begin.groups));
        self.when(taken && words[4 + there..STATE_WORDS - 1].iter().any(|&word| word != 0), Sight::WildWords);
        let limited = |(index, &word): (usize, &u64)| {
            let end = if index == 0 { None } else { end_of_field(fields_of(begin.there[0])[index - 1].1, false) };
            end.is_some_and(|end| word >= end)
        };
        let large = begin.there.iter().enumerate().any(limited);
        self.when(large && self.given > 0, Sight::WildField);
        let flag = match begin.there[..] {
            [1, _, flag, _, _] | [2, flag, _, _] => flag,
            _ => 0,
        };
        self.when(flag > 1 && self.given > 0, Sight::WildFlag);
        self.when(taken && begin.taken < there as u64 + begin.groups, Sight::WildTaken);
        self.when(end.taken == u64::MAX, Sight::WildMost);
    }

    /// A run that was written, read again; and the numbers that its moves had, made again in an edition.
    pub fn trip(&mut self, moves: &[(Edition, u32)]) {
        self.when(self.given > 1, Sight::Trip);
        self.when(self.given > 50, Sight::TripLong);
        for &(edition, number) in moves {
            let first = match edition {
                Edition::Ones => Sight::Ones0,
                Edition::Fours => Sight::Fours0,
            };
            let index = MOVE_NUMBERS.iter().position(|&of| of == number).expect("a number that a move may have");
            self.when(true, nth(first, index as u64));
        }
    }
}

/// The spot of the next number of an entry, what may stand there, and whether the entry is a load.
fn next_field(numbers: &[u64]) -> (usize, Limit, bool) {
    let (kind, field) = (numbers[0], numbers.len());
    (spot_of(kind, field), fields_of(kind)[field - 1].1, is_load(numbers))
}

// ---------------------------------------------------------------------------------------------
// Counts
// ---------------------------------------------------------------------------------------------

/// By one route.
#[derive(Clone, Copy)]
struct Counts {
    /// In one piece, and cut apart.
    fates: [[[u64; 2]; FATES.len()]; SPOTS],
    wild: [[u64; WILD_ENDS.len()]; SPOTS],
    written: [[u64; FATES.len()]; SPOTS],
    /// Fields that the kind doesn't have.
    extra: [u64; SPOTS],
    sights: [u64; SIGHTS.len()],
}

const NONE: Counts = Counts {
    fates: [[[0; 2]; FATES.len()]; SPOTS],
    wild: [[0; WILD_ENDS.len()]; SPOTS],
    written: [[0; FATES.len()]; SPOTS],
    extra: [0; SPOTS],
    sights: [0; SIGHTS.len()],
};

#[derive(Clone)]
pub struct Logs {
    counts: [Counts; ROUTES.len()],
    /// Logs read, and calls of readers; entries that were to be written.
    pub readings: u64,
    pub calls: u64,
    pub writings: u64,
}

impl Logs {
    pub fn new() -> Logs {
        Logs { counts: [NONE; ROUTES.len()], readings: 0, calls: 0, writings: 0 }
    }

    pub fn count_reading(&mut self, route: Route, tally: &Tally) {
        self.readings += 1;
        self.calls += tally.calls;
        let counts = &mut self.counts[route as usize];
        for (count, &met) in counts.sights.iter_mut().zip(&tally.sights) {
            *count += u64::from(met);
        }
        for &(spot, fate, apart) in &tally.fates {
            counts.fates[spot][fate.index()][usize::from(apart)] += 1;
        }
        if let Some((spot, end)) = tally.wild {
            counts.wild[spot][end] += 1;
        }
    }

    /// An entry to be written, and what came of it.
    pub fn count_writing(&mut self, route: Route, writing: &Writing, null: bool, expected: &Result<Vec<u8>, u64>) {
        self.writings += 1;
        let counts = &mut self.counts[route as usize];
        let Writing { entry, room, .. } = writing;
        let mut when = |is: bool, sight: Sight| counts.sights[sight as usize] += u64::from(is);
        let refused = match expected {
            Ok(bytes) => {
                when(*room == ENTRY_BYTES, Sight::WrittenExact);
                when(*room > ENTRY_BYTES, Sight::WrittenMore);
                when(bytes.len() == 40, Sight::WrittenLongest);
                when(bytes.len() == 1, Sight::WrittenShortest);
                0
            }
            Err(refused) => refused >> 32,
        };
        if refused == reason::MISFIT {
            let (whole, short) = (entry.len() == ENTRY_WORDS, *room < ENTRY_BYTES);
            when(entry.is_empty(), if null { Sight::EntryNull } else { Sight::EntryNone });
            when(!short && entry.len() == ENTRY_WORDS - 1, Sight::EntryShort);
            when(!short && entry.len() == ENTRY_WORDS + 1, Sight::EntryLong);
            when(!short && entry.len() == 2 * ENTRY_WORDS, Sight::EntryTwice);
            when(whole && *room == 0, if null { Sight::RoomNull } else { Sight::RoomNone });
            when(whole && *room == ENTRY_BYTES - 1, Sight::RoomShort);
            when(!whole && short, Sight::MisfitBoth);
            let fits = |bytes: Vec<u8>| bytes.len() <= *room;
            when(whole && logs::written(entry, ENTRY_BYTES).is_ok_and(fits), Sight::RoomEnough);
            let otherwise = if whole { logs::written(entry, ENTRY_BYTES).err().unwrap_or(0) >> 32 } else { 0 };
            when(otherwise == reason::UNKNOWN_KIND, Sight::MisfitKind);
            when(otherwise == reason::TOO_LARGE, Sight::MisfitField);
            return;
        }
        let (kind, fields) = (entry[0], fields_of(entry[0]));
        let load = is_load(entry);
        let large = |index: usize| match fields.get(index) {
            Some((_, limit)) => end_of_field(*limit, load).is_some_and(|end| entry[1 + index] >= end),
            None => entry[1 + index] != 0,
        };
        if refused == reason::UNKNOWN_KIND {
            when(kind == NO_KIND, Sight::KindOver);
            when(kind == u64::MAX, Sight::KindMost);
            when(Fate::unknown(kind) == KindAlike, Sight::KindLow);
            return when(entry[1..].iter().any(|&word| word > 1 << 32), Sight::KindFields);
        }
        let larges: Vec<usize> = (0..ENTRY_WORDS - 1).filter(|&index| large(index)).collect();
        if let Some(&first) = larges.first() {
            let last = larges[larges.len() - 1];
            when(larges.iter().filter(|&&index| index < fields.len()).count() > 1, Sight::SeveralFields);
            when(first < fields.len() && last >= fields.len(), Sight::FieldAndExtra);
            let spot = spot_of(kind, first + 1);
            match fields.get(first) {
                Some((_, limit)) => {
                    let fate = Fate::too_large(*limit, load, entry[1 + first]);
                    counts.written[spot][fate.index()] += 1;
                }
                None => counts.extra[spot] += 1,
            }
            return;
        }
        for (index, (_, limit)) in fields.iter().enumerate() {
            let (spot, number) = (spot_of(kind, index + 1), entry[1 + index]);
            counts.written[spot][Taken(model::log::number(number).len()).index()] += 1;
            counts.written[spot][Largest.index()] += u64::from(is_largest(*limit, load, number));
        }
    }

    /// Shows everything that must be met, in words, with its count.
    pub fn each_required(&mut self, mut see: impl FnMut(Arguments, &mut u64)) {
        for (counts, (route, name)) in self.counts.iter_mut().zip(ROUTES) {
            let mut see = |words: Arguments, count: &mut u64| see(format_args!("{words}, by the {name} route"), count);
            for spot in 0..SPOTS {
                if let Some((entry, field, _)) = field_at(spot) {
                    for (counts, fate) in counts.fates[spot].iter_mut().zip(FATES) {
                        for (count, (apart, how)) in
                            counts.iter_mut().zip([(false, "in one piece"), (true, "cut apart")])
                        {
                            if fate.can_be(spot, apart) {
                                see(format_args!("a log, {entry}, {field}: {fate}, {how}"), count);
                            }
                        }
                    }
                    for (count, fate) in counts.written[spot].iter_mut().zip(FATES) {
                        if fate.can_be_written(spot) {
                            see(format_args!("an entry written, {entry}, {field}: {fate}"), count);
                        }
                    }
                    for (count, (reason, end)) in counts.wild[spot].iter_mut().zip(WILD_ENDS) {
                        if WORDS.contains(&route) && can_end(spot, reason) {
                            see(format_args!("a wild state, {entry}, {field}: {end}"), count);
                        }
                    }
                }
                let (kind, field) = (spot / ENTRY_WORDS, spot % ENTRY_WORDS);
                let (entry, fields) = ENTRIES[kind];
                if field > fields.len() && (kind != 0 || route != Safe) {
                    let count = &mut counts.extra[spot];
                    see(format_args!("an entry not written, {entry}: a field {field}, which it doesn't have"), count);
                }
            }
            for (count, (_, words, routes)) in counts.sights.iter_mut().zip(SIGHTS) {
                if routes.contains(&route) {
                    see(format_args!("logs, {words}"), count);
                }
            }
        }
    }

    /// How many there were: planned logs and entries, damaged logs, round trips, and all.
    pub fn told(&self, planned: usize, damaged: u64, trips: u64) -> String {
        let Logs { readings, calls, writings, .. } = self;
        format!(
            "{planned} planned logs and entries, {damaged} damaged logs, {trips} round trips: in all {readings} logs read by \
             {calls} calls, {writings} entries to be written"
        )
    }

    /// What was met, by route.
    pub fn table(&self) -> String {
        let mut text = format!("{:62}", "logs");
        ROUTES.iter().for_each(|(_, route)| text += &format!("{route:>9}"));
        for (index, (_, words, _)) in SIGHTS.iter().enumerate() {
            text += &format!("\n{words:62}");
            self.counts.iter().for_each(|counts| text += &format!("{:>9}", counts.sights[index]));
        }
        for (name, fates) in [("numbers of logs: ", true), ("fields written: ", false)] {
            for fate in FATES {
                let can = |spot: usize| if fates { fate.can_be(spot, false) } else { fate.can_be_written(spot) };
                if (0..SPOTS).any(can) {
                    text += &format!("\n{:62}", format!("{name}{fate}"));
                    for counts in &self.counts {
                        let of = |spot: usize| match fates {
                            true => counts.fates[spot][fate.index()].iter().sum::<u64>(),
                            false => counts.written[spot][fate.index()],
                        };
                        text += &format!("{:>9}", (0..SPOTS).map(of).sum::<u64>());
                    }
                }
            }
        }
        text
    }
}

/// Whether the number at this spot can have such an end.
fn can_end(spot: usize, reason: u64) -> bool {
    let limited = field_at(spot).is_some_and(|(_, _, limit)| limit != Limit::Any);
    match reason {
        reason::UNKNOWN_KIND => spot == KIND_SPOT,
        reason::TOO_LARGE => limited,
        _ => true,
    }
}
