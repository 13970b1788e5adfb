use crate::numbered::numbered;

numbered! {
    /// Why a log was refused, or an entry that was to be written. A log is refused for the first thing that is wrong in it; of an
    /// entry the lowest that applies is given.
    Reason, "reason",
    /// The reason in words.
    words;
    Misfit = 1, "the buffers do not fit the call";
    Padded = 2, "a number's last group is 0 after others";
    TenthByte = 3, "a number's tenth byte is above 1";
    Cut = 4, "the log is cut";
    UnknownKind = 5, "a kind that is not known";
    TooLarge = 6, "a field that is too large";
}

impl Reason {
    /// The reason of a number; 0 is none. The types of this module never give [`Reason::Misfit`].
    ///
    /// # Panics
    /// At a number that no function is proved able to give.
    pub fn of(number: u32) -> Option<Reason> {
        (number != 0).then(|| Self::by_number(number))
    }
}
