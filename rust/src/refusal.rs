//! The refusals, by their numbers.

use std::fmt;

macro_rules! refusals {
    ($($number:literal $name:ident $text:literal)*) => {
        /// Why a call was refused. It has then written nothing.
        #[derive(Debug, Clone, Copy, PartialEq, Eq, Hash, PartialOrd, Ord)]
        pub enum Refusal {
            $(#[doc = $text] $name = $number,)*
        }

        impl Refusal {
            pub const ALL: &'static [Refusal] = &[$(Refusal::$name),*];

            pub fn of_number(number: u64) -> Option<Refusal> {
                match number {
                    $($number => Some(Refusal::$name),)*
                    _ => None,
                }
            }

            /// A sentence without a full stop.
            pub fn sentence(self) -> &'static str {
                match self {
                    $(Refusal::$name => $text,)*
                }
            }
        }
    };
}

refusals! {
    1 Form "the file begins with another form than 1"
    2 NoLines "the script has no lines"
    3 Ends "the file ends inside a field"
    4 Unassigned "a kind or an operator is not assigned"
    5 NoName "a name is not in the table of names"
    6 SameNames "two names are the same (upper and lower case do not count)"
    7 TooDeep "a node lies deeper than 64"
    8 TooManyNodes "there are more than 2,048 nodes"
    9 Left "a fill bit is not zero, or a byte is left over"
    10 TooLong "the file is longer than 32,768 bytes"
    11 NoRoom "a lent table is too short, or a count would pass 65,535"
    12 BadWords "the words of the machine break the rules"
    13 NeedsUnfixed "a line's section is unfixed, or a jump leads to an unfixed section"
    14 Unfixed "a section is unfixed"
    15 LinkBack "a successor that is no line start lies below its section"
}

impl Refusal {
    pub fn number(self) -> u64 {
        self as u64
    }
}

impl fmt::Display for Refusal {
    fn fmt(&self, f: &mut fmt::Formatter) -> fmt::Result {
        write!(f, "refused ({}): {}", self.number(), self.sentence())
    }
}

impl std::error::Error for Refusal {}
