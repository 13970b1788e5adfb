/// An enum with a number and words for each name, for refusals and marks; the words are its documentation too. Who uses it says
/// how the enum is called, what one of its numbers is called, and how the method is called that gives the words. How a number
/// becomes one of the enum stands beside each: `by_number` knows the numbers of the enum, and panics at others.
macro_rules! numbered {
    (
        $(#[$about:meta])* $kind:ident, $called:literal, $(#[$about_words:meta])* $words:ident;
        $($name:ident = $number:literal, $meaning:literal;)*
    ) => {
        $(#[$about])*
        #[derive(Clone, Copy, Debug, PartialEq, Eq, Hash)]
        #[repr(u32)]
        pub enum $kind {
            $(#[doc = $meaning] $name = $number,)*
        }

        impl $kind {
            /// Its number, which is the same in C.
            pub fn number(self) -> u32 {
                self as u32
            }

            $(#[$about_words])*
            pub fn $words(self) -> &'static str {
                match self {
                    $($kind::$name => $meaning,)*
                }
            }

            #[inline]
            fn by_number(number: u32) -> $kind {
                match number {
                    $($number => $kind::$name,)*
                    _ => panic!(concat!("no call gives ", $called, " {}"), number),
                }
            }
        }

        impl std::fmt::Display for $kind {
            fn fmt(&self, f: &mut std::fmt::Formatter) -> std::fmt::Result {
                write!(f, concat!("{} (", $called, " {})"), self.$words(), self.number())
            }
        }
    };
}

pub(crate) use numbered;
