use crate::numbered::numbered;

numbered! {
    /// Why a call was refused. A refused call changes nothing.
    Refusal, "number",
    /// The reason in words.
    reason;
    Shape = 1, "the buffers' lengths or the board's four numbers disagree or are out of limits";
    Range = 2, "a process, slot, segment, frame, physical line, line name, page or global address is outside its range, or a \
        store's value does not fit its width";
    Tag = 3, "a tag is pending (accesses, tag), or none is (load-and-map, drop tag)";
    Alignment = 4, "the width is not 1, 2 or 4, or the address is no multiple of it";
    Kernel = 5, "a user address from 2^31 up is the kernel's";
    SlotEmpty = 6, "no segment is attached to the address's slot";
    SlotReadOnly = 7, "a store, and the segment is attached read-only";
    NotMapped = 8, "the page is not mapped";
    PageReadOnly = 9, "a user's store, and the page is read-only";
    FrameInUse = 10, "the frame's word is not 0";
    MappedAlready = 11, "the page is mapped already (move: the new page)";
    Outside = 12, "the address is in the page table region, beyond memory, prefix 0 from U up or prefix 1 below U";
    OtherLine = 13, "this is not the physical line to which the tag is mapped";
}

impl Refusal {
    /// The refusal of a number; 0 is done, and so no refusal.
    ///
    /// # Panics
    /// At a number that no call is proved able to give.
    pub fn of(number: u32) -> Option<Refusal> {
        (number != 0).then(|| Self::by_number(number))
    }
}

impl std::error::Error for Refusal {}
