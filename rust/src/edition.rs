use crate::Shape;

/// Where a line may stand in the cache. A board has one edition ([`Board::edition`](crate::Board::edition)), and every call works
/// on both, with the same numbers and values; only marks may differ. ([`Board::check`](crate::Board::check), the repair and
/// [dumps](crate::dump) are for the first alone.) The buffers don't tell which edition they are of, so it belongs to the board as
/// `uncached` does: [`Board::flush_all`](crate::Board::flush_all) before the same buffers are lent to a board of the other.
#[derive(Clone, Copy, Debug, Default, PartialEq, Eq, Hash)]
pub enum Edition {
    /// A line has one place, record name mod L. A line that comes pushes out the one that it finds there.
    #[default]
    OnePlace,
    /// The lines form L / 4 sets of four, so L is at least 4. A line may stand in any record of its set, which is name mod
    /// (L / 4). A line that comes takes the lowest record of its set that holds nothing, or else pushes out the line whose last
    /// use is longest ago: so up to four busy lines of a set don't push each other out. The board has one buffer more, which
    /// keeps who was used after whom ([`Uses`](crate::Uses)).
    SetsOfFour,
}

impl Edition {
    /// How many matrices a board has.
    pub(crate) const fn uses(self, shape: &Shape) -> usize {
        match self {
            Edition::OnePlace => 0,
            Edition::SetsOfFour => shape.uses(),
        }
    }
}
