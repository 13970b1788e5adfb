//! Planted faults of logs. Most are those of a reader and a writer in ordinary Rust, which stand in for the library with one fault
//! each; without one they do what the library does, and the self-test asks that nothing is found then. The others alter what the
//! comparison sees of the library.

use crate::guarded::Guarded;
use crate::limits::*;
use crate::logs::{Asked, State, Words};
use crate::run::Kind;

macro_rules! faults {
    ($($wrong:ident $name:literal $kind:ident $about:literal;)*) => {
        /// What is wrong with logs.
        #[derive(Clone, Copy, Debug, PartialEq, Eq)]
        pub enum Wrong { $(#[doc = $about] $wrong),* }

        /// By name, each with the check that has to find it.
        pub const FAULTS: &[(Wrong, &str, Kind)] = &[$((Wrong::$wrong, $name, Kind::$kind)),*];
    };
}

faults! {
    // Numbers.
    PaddedTaken "log-padded" Read "A padded number is taken.";
    PaddedZero "log-padded-zero" Read "A 0 of two groups or more is taken.";
    PaddedTenth "log-padded-tenth" Read "A tenth byte of 0 is taken.";
    PaddedApart "log-padded-apart" Read "A padded number is taken where its last group begins a piece.";
    TenthTwo "log-tenth-2" Read "A tenth byte of 2 is taken.";
    TenthTop "log-tenth-top" Read "Only the low bits of a tenth byte are asked.";
    TenthLate "log-tenth-late" Read "A tenth byte above 1 is refused only if a byte follows it in its piece.";
    TenthApart "log-tenth-apart" Read "A tenth byte that begins a piece is not asked.";
    NineGroups "log-nine-groups" Read "A ninth byte above 1 is refused.";
    LowGroups "log-low-groups" Read "Groups from the sixth on are worth nothing.";
    // Places and reasons.
    PlaceLate "log-place-late" Asked "The place is one too high.";
    PlaceLast "log-place-last" Asked "The place is that of the number's last byte.";
    PlaceOfPiece "log-place-piece" Asked "The place is counted from the start of the piece.";
    PlaceOfEntry "log-place-entry" Asked "The place is that of the entry.";
    CutAtNumber "log-cut-number" Asked "The place of a cut is that of the number.";
    ReasonsExchanged "log-reasons" Read "A kind that is not known is a field too large.";
    EmptyGood "log-empty-good" Asked "An empty log is good.";
    HeaderShort "log-header-short" Asked "A log that ends before L is good.";
    KindEnds "log-kind-ends" Asked "A log that ends behind a kind is good.";
    EndCut "log-end-cut" Asked "A log that ends behind an entry is cut.";
    EndedBit "log-ended-bit" Asked "A log has ended only if the lowest bit says so.";
    CutStays "log-cut-stays" Refused "A reader that was asked whether the log is cut keeps that.";
    NoStateGood "log-no-state-good" Asked "A state that is none has no reason.";
    NoStatePlace "log-no-state-place" Asked "A state that is none has a place.";
    // Kinds and fields.
    KindsExchanged "log-kinds" Read "Tag and load-and-map are exchanged.";
    KindThirteen "log-kind-13" Read "Kind 13 is known.";
    KindZero "log-kind-0" Read "A header may come again, as kind 0.";
    KindLow "log-kind-low" Read "A kind has 8 bits.";
    FlagTwo "log-flag-2" Read "A flag may be 2.";
    FlagAny "log-flag-any" Read "A flag that is not 0 is 1.";
    WidthOver "log-width-over" Read "A width may be 2^32.";
    WidthUnder "log-width-under" Read "A width may not be 2^32 - 1.";
    WidthApart "log-width-apart" Read "A width that is cut apart may be anything.";
    AddressOver "log-address-over" Read "An effective address may be 2^32.";
    ValueOver "log-value-over" Read "A store's value may be 2^32.";
    LoadValue "log-load-value" Read "A user's load may have a value.";
    LoadValueSupervisor "log-load-value-2" Read "A supervisor's load may have a value.";
    LoadApart "log-load-apart" Read "A load may have a value in another piece.";
    StoreValue "log-store-value" Read "A store may have no value.";
    GlobalShort "log-global-short" Read "A global address has 32 bits.";
    FieldsExchanged "log-fields" Read "A detach's process and slot are exchanged.";
    MoveUnknown "log-move-unknown" Read "Kind 12 is not known.";
    MoveShort "log-move-short" Read "A move has one field.";
    MoveLong "log-move-long" Read "A move has three fields.";
    MoveExchanged "log-move-fields" Read "A move's page and new page are exchanged.";
    MoveNarrow "log-move-narrow" Read "A move's new page has 32 bits.";
    MoveApart "log-move-apart" Read "A move's page is forgotten at a piece's end.";
    // Pieces and room.
    PieceLoses "log-piece-loses" Read "The first byte of a piece is lost if a number goes on there.";
    PieceForgets "log-piece-forgets" Read "A number's groups are forgotten at a piece's end.";
    PieceForgetsEntry "log-piece-entry" Read "An entry's words are forgotten at a piece's end.";
    RoomLoses "log-room-loses" Read "The byte behind an entry that fills the room is lost.";
    RoomTakes "log-room-takes" Read "Bytes are taken until an entry has no room.";
    NoRoomTakes "log-no-room" Read "The same where there is no room from the start.";
    CountsOver "log-counts-over" Read "One entry too many is counted where the room is full.";
    RestKept "log-rest-kept" Read "Words that an entry doesn't have keep what stood there.";
    ClearsRoom "log-clears-room" Read "The room that is left is cleared.";
    RefusedLoses "log-refused-loses" Read "The entries before a refusal are not counted.";
    ReadsOn "log-reads-on" Read "A refused log is read on in the next piece.";
    TakesRefused "log-takes-bad" Read "The byte at which the log is refused is taken.";
    // States and lengths.
    TenGroups "log-ten-groups" Read "A state may have ten groups.";
    UntakenGroups "log-untaken" Read "A state may have more groups than bytes taken.";
    WorthOver "log-worth-over" Read "A state's groups may be worth too much by one.";
    ThereOver "log-there-over" Read "A state may have a word too many of an entry.";
    ReasonFour "log-reason-4" Read "A state may be refused by 4.";
    LongState "log-long-state" Read "A state may have a word too many.";
    TornTaken "log-torn" Read "The room may have words more than entries.";
    ReachTaken "log-reach" Read "The log may reach 2^64 bytes.";
    ReachLate "log-reach-late" Read "That is asked only of bytes that are taken.";
    MisfitCleared "log-misfit-state" Refused "Where the buffers don't fit the state is changed.";
    MisfitRoom "log-misfit-room" Refused "Where the buffers don't fit the room is cleared.";
    UnreadRead "log-unread" Read "A word that is not there is asked for its kind.";
    // Writing.
    WritePadded "write-padded" Written "A 0 is written in two groups.";
    WriteTenth "write-tenth" Written "The tenth byte is not written.";
    WriteExchanged "write-kinds" Written "Tag and load-and-map are exchanged.";
    WriteRefused "write-refused" Refused "A kind is written before the fields are asked.";
    WriteLoadValue "write-load-value" Written "A load may have a value.";
    WriteLastField "write-last-field" Written "Of the fields that are too large the last is named.";
    WriteExtra "write-extra" Written "A field that the kind doesn't have is not asked.";
    WriteThirteen "write-kind-13" Written "Kind 13 is known.";
    WriteMoveUnknown "write-move-unknown" Written "Kind 12 is not known.";
    WriteMoveShort "write-move-short" Written "A move's new page is not written.";
    WriteMoveExchanged "write-move-fields" Written "A move's page and new page are exchanged.";
    WriteMoveExtra "write-move-extra" Written "A third field of a move is not asked.";
    WriteHeaderKind "write-header-kind" Written "The header has its kind before it.";
    WriteFieldsFirst "write-fields-first" Written "Fields are asked before the kind.";
    WriteShortRoom "write-short-room" Written "Less room will do, if the entry fits.";
    WriteMoreRoom "write-more-room" Written "More room is refused.";
    WriteBehind "write-behind" Written "A byte behind the entry's is written.";
    WriteEntry "write-entry" Inputs "The entry is changed.";
    // Outside the buffers, and inputs.
    ChangesPiece "log-changes-piece" Inputs "The piece is changed.";
    ReadsPiece "log-reads-piece" Signal "The byte behind the piece is read.";
    ReadsEntry "write-reads-entry" Signal "The word behind the entry is read.";
    CanaryEntries "log-canary-entries" Canary "The word behind the entries is written.";
    CanaryState "log-canary-state" Canary "The word behind the state is written.";
    CanaryBytes "write-canary-bytes" Canary "The byte behind the room is written.";
    // What the comparison sees of the library.
    Whole "log-whole" Whole "A reading lacks its last entry.";
    WholePlace "log-whole-place" Whole "A reading ends at another place.";
    Trip "log-trip" Trip "What was written is read as another entry.";
    Replay "log-replay" Trip "A call of a log gives another value when it is made again.";
    ReplayFours "log-replay-sets" Trip "The same, in sets of four.";
    ReplayMove "log-replay-move" Trip "A move of a log gives another number when it is made again.";
    ReplayMoveFours "log-replay-move-sets" Trip "The same, in sets of four.";
    Parts "write-parts" Form "In parts, writing gives another field.";
    Moves "log-moves" Form "A piece has a byte more left than was not taken.";
    CallsOver "log-calls-over" Asked "A reader has given a call more than it has.";
    Iterates "log-iterates" Whole "The crate's iterator gives a call less.";
}

impl Wrong {
    pub fn found_as(self) -> Kind {
        FAULTS.iter().find(|(wrong, ..)| *wrong == self).expect("every fault has a name").2
    }

    /// Whether it is a fault of the reader and writer that stand in for the library.
    pub fn stands_in(self) -> bool {
        use Wrong::*;
        let replays = matches!(self, Replay | ReplayFours | ReplayMove | ReplayMoveFours);
        !replays && !matches!(self, Whole | WholePlace | Trip | Parts | Moves | CallsOver | Iterates)
    }
}

impl Wrong {
    /// After a reading: its entries, and what the reader says at its end.
    pub fn after_reading(self, all: &mut Vec<Words>, told: &mut Asked) {
        match self {
            Wrong::Whole => drop(all.pop()),
            Wrong::WholePlace if told.open != 0 => told.place ^= 1,
            _ => {}
        }
    }
}

/// A reader and a writer that stand in for the library, with a fault or none.
pub struct Faulty {
    wrong: Option<Wrong>,
    /// Of the place faults: where the last piece began, and the last entry.
    piece_at: u64,
    entry_at: u64,
}

impl Faulty {
    pub fn of(wrong: Option<Wrong>) -> Faulty {
        Faulty { wrong, piece_at: 0, entry_at: 0 }
    }

    fn is(&self, wrong: Wrong) -> bool {
        self.wrong == Some(wrong)
    }

    /// Whether the words are taken for a state.
    fn takes(&self, words: &[u64]) -> bool {
        if State::of(words).is_some() {
            return !(self.is(Wrong::UnreadRead) && words[3] == 0 && words[4] >= NO_KIND);
        }
        let mut mended = words.to_vec();
        if self.is(Wrong::LongState) {
            mended.truncate(STATE_WORDS);
        }
        if mended.len() == STATE_WORDS {
            match self.wrong {
                Some(Wrong::TenGroups) if words[1] == 10 => mended[1] = 9,
                Some(Wrong::UntakenGroups) => mended[0] = u64::MAX,
                Some(Wrong::WorthOver) => mended[2] = mended[2].saturating_sub(1),
                Some(Wrong::ThereOver) => mended[3] = mended[3].saturating_sub(1),
                Some(Wrong::ReasonFour) if words[10] == reason::CUT => mended[10] = 0,
                _ => {}
            }
        }
        State::of(&mended).is_some()
    }

    pub fn read(&mut self, state: &mut Guarded<u64>, piece: &mut Guarded<u8>, entries: &mut Guarded<u64>) -> u64 {
        if self.is(Wrong::ReadsPiece) {
            piece.read_outside(true);
        }
        for (buffer, wrong) in [(&mut *state, Wrong::CanaryState), (&mut *entries, Wrong::CanaryEntries)] {
            if self.is(wrong) && !buffer.ends_at_fence() {
                buffer.break_canary(false);
            }
        }
        if self.is(Wrong::ChangesPiece) {
            piece.inner_mut().iter_mut().for_each(|byte| *byte ^= 1);
        }
        let torn = entries.len() % ENTRY_WORDS != 0 && !self.is(Wrong::TornTaken);
        let words = state.inner();
        let reaches = |length: usize| words.first().is_some_and(|taken| taken.checked_add(length as u64).is_none());
        let beyond = reaches(piece.len()) && !self.is(Wrong::ReachTaken) && !self.is(Wrong::ReachLate);
        if torn || !self.takes(words) || beyond {
            match self.wrong {
                Some(Wrong::MisfitCleared) => state.inner_mut().iter_mut().for_each(|word| *word ^= 1),
                Some(Wrong::MisfitRoom) => entries.inner_mut().fill(0),
                _ => {}
            }
            return MISFIT;
        }
        if State::of(words).is_none() || reaches(piece.len()) {
            return 0;
        }
        let before = state.inner()[0];
        let given = self.read_all(state.inner_mut(), piece.inner(), entries.inner_mut());
        self.piece_at = before;
        given
    }

    fn read_all(&mut self, s: &mut [u64], piece: &[u8], entries: &mut [u64]) -> u64 {
        let room = entries.len() / ENTRY_WORDS;
        let mut given = 0;
        if self.is(Wrong::ReadsOn) {
            s[10] = 0;
        }
        if self.is(Wrong::PieceForgets) {
            (s[1], s[2]) = (0, 0);
        }
        if self.is(Wrong::PieceForgetsEntry) && s[3] > 0 && s[4] > 0 {
            s[3] = 0;
        }
        if self.is(Wrong::MoveApart) && s[3] == 2 && s[4] == MOVE {
            s[5] = 0;
        }
        let begun = s[3];
        for (index, &byte) in piece.iter().enumerate() {
            let goes_on = self.is(Wrong::RoomTakes) || self.is(Wrong::NoRoomTakes) && room == 0;
            if s[10] != 0 || given == room && !goes_on {
                break;
            }
            if self.is(Wrong::PieceLoses) && index == 0 && s[1] > 0 {
                s[0] += 1;
                continue;
            }
            let groups = s[1];
            let most = if self.is(Wrong::NineGroups) { 8 } else { 9 };
            if groups >= most && byte > 1 && !self.tenth_taken(byte, index) {
                if self.is(Wrong::TenthLate) && index + 1 == piece.len() {
                    break;
                }
                self.refuse(s, reason::TENTH_BYTE);
                break;
            }
            if groups > 0 && byte == 0 && !self.padded_taken(s, index) {
                self.refuse(s, reason::PADDED);
                break;
            }
            let bits = if self.is(Wrong::LowGroups) && groups > 4 { 0 } else { u64::from(byte & 0x7F) };
            let number = s[2] | bits << (7 * groups.min(9));
            if byte >= 0x80 && groups < 9 {
                (s[0], s[1], s[2]) = (s[0] + 1, groups + 1, number);
                continue;
            }
            // The number is whole.
            let number = if self.is(Wrong::KindLow) && s[3] == 0 { number & 0xFF } else { number };
            if s[3] == 0 {
                self.entry_at = s[0] - groups;
            }
            if let Some(reason) = self.asks(s, number, begun, index) {
                self.refuse(s, reason);
                break;
            }
            let known = if s[3] == 0 { number } else { s[4] };
            let count = match self.wrong {
                Some(Wrong::KindThirteen) if known == NO_KIND => 2,
                Some(Wrong::MoveShort) if known == MOVE => 1,
                Some(Wrong::MoveLong) if known == MOVE => 3,
                _ => fields_of(known).len() as u64,
            };
            if s[3] == count && given == room {
                break;
            }
            let is_flag = s[3] > 0 && matches!(limit_of(s), Limit::Flag | Limit::LoadOrStore);
            s[4 + s[3] as usize] = if self.is(Wrong::FlagAny) && is_flag { number.min(1) } else { number };
            (s[0], s[1], s[2], s[3]) = (s[0] + 1, 0, 0, s[3] + 1);
            if s[3] > count {
                let part = &mut entries[ENTRY_WORDS * given..][..ENTRY_WORDS];
                self.give(part, &s[4..5 + count as usize]);
                (s[3], given) = (0, given + 1);
                if given == room && self.is(Wrong::RoomLoses) && index + 1 < piece.len() {
                    s[0] += 1;
                }
            }
        }
        if self.is(Wrong::ClearsRoom) {
            entries[ENTRY_WORDS * given..].fill(0);
        }
        match self.wrong {
            Some(Wrong::CountsOver) if given == room => given as u64 + 1,
            Some(Wrong::RefusedLoses) if s[10] != 0 => 0,
            _ => given as u64,
        }
    }

    fn refuse(&self, s: &mut [u64], reason: u64) {
        let exchanged = self.is(Wrong::ReasonsExchanged) && reason == reason::UNKNOWN_KIND;
        s[10] = if exchanged { reason::TOO_LARGE } else { reason };
        s[0] += u64::from(self.is(Wrong::TakesRefused));
    }

    /// Whether a tenth byte above 1 is taken.
    fn tenth_taken(&self, byte: u8, index: usize) -> bool {
        match self.wrong {
            Some(Wrong::TenthTwo) => byte == 2,
            Some(Wrong::TenthTop) => byte & 0x7F <= 1,
            Some(Wrong::TenthApart) => index == 0,
            _ => false,
        }
    }

    /// Whether a last group of 0 is taken.
    fn padded_taken(&self, s: &[u64], index: usize) -> bool {
        match self.wrong {
            Some(Wrong::PaddedTaken) => true,
            Some(Wrong::PaddedZero) => s[2] == 0,
            Some(Wrong::PaddedTenth) => s[1] == 9,
            Some(Wrong::PaddedApart) => index == 0,
            _ => false,
        }
    }

    /// Why a number is refused, of an entry of which so much was there when the piece began.
    fn asks(&self, s: &[u64], number: u64, there: u64, index: usize) -> Option<u64> {
        if s[3] == 0 {
            let known = (1..NO_KIND).contains(&number) && !(number == MOVE && self.is(Wrong::MoveUnknown))
                || number == NO_KIND && self.is(Wrong::KindThirteen)
                || number == 0 && self.is(Wrong::KindZero);
            return (!known).then_some(reason::UNKNOWN_KIND);
        }
        if s[4] == 0 || s[4] >= NO_KIND {
            return None;
        }
        let limit = limit_of(s);
        let field = s[3];
        let flag_at = if s[4] == 1 { 2 } else { 1 };
        let apart = s[1] > index as u64;
        let load = s[4 + flag_at] == 0 && limit == Limit::Value;
        let load = match self.wrong {
            Some(Wrong::LoadValue) if s[4] == 1 => false,
            Some(Wrong::LoadValueSupervisor) if s[4] == 2 => false,
            Some(Wrong::LoadApart) if there > flag_at as u64 => false,
            _ => load,
        };
        let is_width = limit == Limit::Short && field == flag_at as u64 + 1;
        let mut end = end_of_field(limit, load);
        match self.wrong {
            Some(Wrong::FlagTwo) if limit == Limit::Flag => end = Some(3),
            Some(Wrong::FlagAny) if matches!(limit, Limit::Flag | Limit::LoadOrStore) => end = None,
            Some(Wrong::WidthOver) if is_width => end = Some((1 << 32) + 1),
            Some(Wrong::WidthUnder) if is_width => end = Some((1 << 32) - 1),
            Some(Wrong::WidthApart) if is_width && apart => end = None,
            Some(Wrong::AddressOver) if limit == Limit::Short && !is_width => end = Some((1 << 32) + 1),
            Some(Wrong::ValueOver) if limit == Limit::Value && !load => end = Some((1 << 32) + 1),
            Some(Wrong::StoreValue) if limit == Limit::Value => end = Some(1),
            Some(Wrong::GlobalShort) if s[4] == 2 && limit == Limit::Any => end = Some(1 << 32),
            Some(Wrong::MoveNarrow) if s[4] == MOVE && field == 2 => end = Some(1 << 32),
            _ => {}
        }
        end.is_some_and(|end| number >= end).then_some(reason::TOO_LARGE)
    }

    /// Writes an entry into its part of the room.
    fn give(&self, part: &mut [u64], words: &[u64]) {
        if !self.is(Wrong::RestKept) {
            part.fill(0);
        }
        part[..words.len()].copy_from_slice(words);
        match (self.wrong, words[0]) {
            (Some(Wrong::KindsExchanged), 9) => part[0] = 10,
            (Some(Wrong::KindsExchanged), 10) => part[0] = 9,
            (Some(Wrong::FieldsExchanged), 4) | (Some(Wrong::MoveExchanged), MOVE) => part.swap(1, 2),
            _ => {}
        }
    }

    pub fn reason(&self, state: &mut Guarded<u64>, ended: u32) -> u64 {
        let Some(s) = State::of(state.inner()) else {
            return if self.is(Wrong::NoStateGood) { 0 } else { reason::MISFIT };
        };
        let ended = if self.is(Wrong::EndedBit) { ended & 1 != 0 } else { ended != 0 };
        let reason = s.refused(ended);
        if self.is(Wrong::CutStays) && reason == reason::CUT {
            state.inner_mut()[10] = reason;
        }
        let between = s.groups == 0 && s.reason == 0;
        match self.wrong {
            Some(Wrong::EmptyGood) if s.taken == 0 && reason == reason::CUT => 0,
            Some(Wrong::HeaderShort) if between && s.there.len() == 4 && s.there[0] == 0 => 0,
            Some(Wrong::KindEnds) if between && s.there.len() == 1 && s.there[0] > 0 => 0,
            Some(Wrong::EndCut) if between && s.there.is_empty() && ended => reason::CUT,
            _ => reason,
        }
    }

    pub fn place(&self, state: &[u64]) -> u64 {
        let Some(s) = State::of(state) else {
            return if self.is(Wrong::NoStatePlace) { state.first().copied().unwrap_or(0) } else { 0 };
        };
        let (place, refused) = (s.place(), s.reason != 0);
        match self.wrong {
            Some(Wrong::PlaceLate) if refused => place.wrapping_add(1),
            Some(Wrong::PlaceLast) if refused => s.taken,
            Some(Wrong::PlaceOfPiece) if refused => place.saturating_sub(self.piece_at),
            Some(Wrong::PlaceOfEntry) if refused => self.entry_at,
            Some(Wrong::CutAtNumber) if !refused => s.taken - s.groups,
            _ => place,
        }
    }

    pub fn write(&self, entry: &mut Guarded<u64>, bytes: &mut Guarded<u8>) -> u64 {
        if self.is(Wrong::ReadsEntry) {
            entry.read_outside(true);
        }
        if self.is(Wrong::CanaryBytes) && !bytes.ends_at_fence() {
            bytes.break_canary(false);
        }
        let made = self.made(entry.inner(), bytes.len());
        if self.is(Wrong::WriteEntry) {
            entry.inner_mut().iter_mut().for_each(|word| *word ^= 1);
        }
        let room = bytes.inner_mut();
        match made {
            Ok(made) => {
                room[..made.len()].copy_from_slice(&made);
                if self.is(Wrong::WriteBehind) && made.len() < room.len() {
                    room[made.len()] ^= 1;
                }
                made.len() as u64
            }
            Err(refused) => {
                if self.is(Wrong::WriteRefused) && refused >> 32 == reason::TOO_LARGE {
                    room[0] ^= 1;
                }
                refused
            }
        }
    }

    fn made(&self, entry: &[u64], room: usize) -> Result<Vec<u8>, u64> {
        let short = room < if self.is(Wrong::WriteShortRoom) { 40 } else { ENTRY_BYTES };
        if entry.len() != ENTRY_WORDS || short || self.is(Wrong::WriteMoreRoom) && room > ENTRY_BYTES {
            return Err(reason::MISFIT << 32);
        }
        let kind = entry[0];
        let known = kind < NO_KIND && !(kind == MOVE && self.is(Wrong::WriteMoveUnknown))
            || kind == NO_KIND && self.is(Wrong::WriteThirteen);
        if !known && !(self.is(Wrong::WriteFieldsFirst) && entry[1..].iter().any(|&word| word != 0)) {
            return Err(reason::UNKNOWN_KIND << 32);
        }
        let fields = fields_of(kind);
        let load = match kind {
            1 => entry[2] == 0,
            2 => entry[1] == 0,
            _ => false,
        };
        let large = |index: &usize| match fields.get(*index) {
            Some((_, limit)) => {
                let end = end_of_field(*limit, load && !self.is(Wrong::WriteLoadValue));
                end.is_some_and(|end| entry[1 + index] >= end)
            }
            None if self.is(Wrong::WriteMoveExtra) && kind == MOVE && *index == 2 => false,
            None => entry[1 + index] != 0 && !self.is(Wrong::WriteExtra),
        };
        let mut larges = (0..ENTRY_WORDS - 1).filter(large);
        let named = if self.is(Wrong::WriteLastField) { larges.last() } else { larges.next() };
        if let Some(index) = named {
            return Err((reason::TOO_LARGE << 32) + 1 + index as u64);
        }
        let kind = match (self.wrong, kind) {
            (Some(Wrong::WriteExchanged), 9) => 10,
            (Some(Wrong::WriteExchanged), 10) => 9,
            _ => kind,
        };
        let first = (kind != 0 || self.is(Wrong::WriteHeaderKind)).then_some(kind);
        let mut fields = entry[1..=fields.len()].to_vec();
        match self.wrong {
            Some(Wrong::WriteMoveShort) if kind == MOVE => fields.truncate(1),
            Some(Wrong::WriteMoveExchanged) if kind == MOVE => fields.swap(0, 1),
            _ => {}
        }
        Ok(first.into_iter().chain(fields).flat_map(|number| self.number(number)).collect())
    }

    fn number(&self, number: u64) -> Vec<u8> {
        let mut bytes = Vec::new();
        let mut rest = number;
        while rest >= 0x80 {
            bytes.push(rest as u8 | 0x80);
            rest >>= 7;
        }
        bytes.push(rest as u8);
        match self.wrong {
            Some(Wrong::WritePadded) if number == 0 => vec![0x80, 0],
            Some(Wrong::WriteTenth) => bytes.into_iter().take(NUMBER_BYTES - 1).collect(),
            _ => bytes,
        }
    }
}

/// What the next field of the entry may be, of which one number at least is there.
fn limit_of(s: &[u64]) -> Limit {
    fields_of(s[4]).get(s[3] as usize - 1).map_or(Limit::Any, |(_, limit)| *limit)
}
