use crate::ffi::Report;
use crate::numbered::numbered;
use crate::Shape;

numbered! {
    /// What a sound board keeps, in the order in which a check asks it: of the rules that a board breaks the first is given
    /// ([`Broken`]). [`Board::check`](crate::Board::check) says when a board is checked, and what a sound one is good for.
    Rule, "rule",
    /// How it is broken, in words.
    words;
    Lengths = 1, "the buffers' lengths or the board's four numbers disagree or are out of limits";
    PageTwice = 2, "a page has two frames from U up";
    LineTwice = 3, "a physical line is held twice";
    Astray = 4, "a held line's physical line or permission is not the one that its name maps to";
    Stale = 5, "a held line is not marked as changed, and differs from memory";
}

impl Rule {
    /// Every rule, by number.
    pub const ALL: [Rule; 5] = [Rule::Lengths, Rule::PageTwice, Rule::LineTwice, Rule::Astray, Rule::Stale];

    /// The rule of a number; 0 is none.
    ///
    /// # Panics
    /// At a number that no call is proved able to give.
    pub fn of(number: u32) -> Option<Rule> {
        (number != 0).then(|| Self::by_number(number))
    }

    /// Whether a repair mends a board that breaks it, which it does by dropping lines. It can't where the lengths are wrong or a
    /// page has two frames: then nobody but its owner knows which is right.
    pub fn is_mended(self) -> bool {
        !matches!(self, Rule::Lengths | Rule::PageTwice)
    }
}

/// The first rule that a board breaks, and the lowest frame or place that breaks it.
#[derive(Clone, Copy, Debug, PartialEq, Eq, Hash)]
pub struct Broken {
    /// Which rule.
    pub rule: Rule,
    /// A frame where the rule is [`Rule::PageTwice`], of a page's frames the lowest; a place in the cache where it is a rule on
    /// lines, of two lines the lower one; 0 where it is [`Rule::Lengths`].
    pub place: usize,
}

impl std::fmt::Display for Broken {
    fn fmt(&self, f: &mut std::fmt::Formatter) -> std::fmt::Result {
        let Broken { rule, place } = self;
        match rule {
            Rule::Lengths => rule.fmt(f),
            Rule::PageTwice => write!(f, "{rule}, at frame {place}"),
            Rule::LineTwice | Rule::Astray | Rule::Stale => write!(f, "{rule}, at place {place}"),
        }
    }
}

impl std::error::Error for Broken {}

/// What a repair did. `Dropped` is the places of the lines that it dropped, by rising place; of
/// [`Board::repair_with`](crate::Board::repair_with), which allocates nothing, only how many they are.
#[derive(Clone, Debug, PartialEq, Eq, Hash)]
pub struct Repaired<Dropped = Vec<usize>> {
    /// What a check said of the board before: nothing where it was sound already, and then no line was dropped.
    pub before: Option<Broken>,
    /// The lines that were dropped.
    pub dropped: Dropped,
}

/// The scratch that a board takes to be checked or repaired, in elements.
#[derive(Clone, Copy, Debug, PartialEq, Eq, Hash)]
pub struct Scratch {
    /// Keys, at least so many.
    pub keys: usize,
    /// Links, at least so many.
    pub links: usize,
    /// For a repair, bytes to say which lines were dropped, exactly so many.
    pub dropped: usize,
}

impl Scratch {
    /// That of a shape: as [`Shape::keys`] and [`Shape::links`] say, and a byte for each line.
    pub const fn of(shape: &Shape) -> Scratch {
        Scratch { keys: shape.keys(), links: shape.links(), dropped: shape.lines }
    }
}

/// Why [`Board::check_with`](crate::Board::check_with) doesn't say yes, or [`Board::repair_with`](crate::Board::repair_with) has
/// not repaired.
#[derive(Clone, Copy, Debug, PartialEq, Eq)]
pub enum CheckError {
    /// The board was asked, and breaks this rule. (The report's number is 0 and its rule is not.)
    Broken(Broken),
    /// The board was not asked, and nothing was touched: the scratch does not fit it, which takes this. (The report's own number
    /// is 1.) It says nothing of the board but that it keeps [`Rule::Lengths`], which is asked first.
    Scratch(Scratch),
}

impl std::fmt::Display for CheckError {
    fn fmt(&self, f: &mut std::fmt::Formatter) -> std::fmt::Result {
        match self {
            CheckError::Broken(broken) => broken.fmt(f),
            CheckError::Scratch(Scratch { keys, links, dropped }) => write!(
                f,
                "the scratch does not fit the board, which was not checked: at least {keys} keys and {links} links, and to \
                 repair exactly {dropped} bytes for what is dropped"
            ),
        }
    }
}

impl std::error::Error for CheckError {}

impl From<Broken> for CheckError {
    fn from(broken: Broken) -> CheckError {
        CheckError::Broken(broken)
    }
}

impl Report {
    /// The rule that is broken, and where, if one is.
    ///
    /// # Panics
    /// At a rule that no call is proved able to give.
    pub fn broken(self) -> Option<Broken> {
        Rule::of(self.rule()).map(|rule| Broken { rule, place: self.place() })
    }
}
