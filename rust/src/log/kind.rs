use crate::numbered::numbered;

numbered! {
    /// The kind of a call in a log. (The header has none; as an [`Entry`](crate::log::Entry) it has 0.)
    Kind, "kind",
    /// What the call is called.
    words;
    UserAccess = 1, "user access";
    SupervisorAccess = 2, "supervisor access";
    Attach = 3, "attach";
    Detach = 4, "detach";
    Map = 5, "map";
    Unmap = 6, "unmap";
    Protect = 7, "protect";
    FlushAll = 8, "flush all";
    Tag = 9, "tag";
    LoadAndMap = 10, "load-and-map";
    DropTag = 11, "drop tag";
    Move = 12, "move";
}

impl Kind {
    /// Every kind, by number.
    pub const ALL: [Kind; 12] = [
        Kind::UserAccess,
        Kind::SupervisorAccess,
        Kind::Attach,
        Kind::Detach,
        Kind::Map,
        Kind::Unmap,
        Kind::Protect,
        Kind::FlushAll,
        Kind::Tag,
        Kind::LoadAndMap,
        Kind::DropTag,
        Kind::Move,
    ];

    /// The kind of a number, if one has it.
    #[inline]
    pub fn of(number: u64) -> Option<Kind> {
        let known = (1..=Self::ALL.len() as u64).contains(&number);
        known.then(|| Self::by_number(number as u32))
    }

    /// What the fields of such a call are called, in the order in which a log has them.
    pub fn fields(self) -> &'static [&'static str] {
        match self {
            Kind::UserAccess => &["process", "load or store", "width", "effective address", "value"],
            Kind::SupervisorAccess => &["load or store", "width", "global address", "value"],
            Kind::Attach => &["process", "slot", "segment", "write bit"],
            Kind::Detach => &["process", "slot"],
            Kind::Map => &["page", "frame", "write bit"],
            Kind::Unmap => &["page"],
            Kind::Protect => &["page", "write bit"],
            Kind::FlushAll | Kind::DropTag => &[],
            Kind::Tag => &["line name"],
            Kind::LoadAndMap => &["physical line"],
            Kind::Move => &["page", "new page"],
        }
    }
}
