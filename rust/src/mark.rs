use crate::numbered::numbered;

numbered! {
    /// How an access went: the mark of a call. An access that is done has one of the last four, a refused one the first, and so
    /// has every call that is no access, even where it reads lines from memory or writes them back.
    Mark, "mark",
    /// The meaning in words.
    words;
    NoAccess = 0, "the call was refused, or it is no access";
    Hit = 1, "the line was held when the access came";
    Refilled = 2, "the line was not held and was read from memory; nothing was written back";
    WroteBack = 3, "the line was not held and was read from memory; a changed line was written back to make room";
    Uncached = 4, "a supervisor's access under prefix 0: memory itself, past the cache";
}

impl Mark {
    /// The mark of a number.
    ///
    /// # Panics
    /// At a number that no call is proved able to give.
    pub fn of(number: u32) -> Mark {
        Self::by_number(number)
    }
}
