//! Words for the numbers of the library: marks and refusals.
//!
//! Each table has a row a number. `include/ackbo_text.h` has the same rows for C, and `docs/MARKS.md` an entry for
//! each; the tests of this crate hold the three to one another.

use core::fmt;

use crate::Error;

/// Makes an enum of a table, to which later versions add rows, whose rows are a variant, its number, and its words.
macro_rules! numbered {
    ($(#[$about:meta])* $name:ident { $($variant:ident = $number:literal, $text:literal;)* }) => {
        $(#[$about])*
        #[non_exhaustive]
        #[derive(Clone, Copy, Debug, PartialEq, Eq, Hash, PartialOrd, Ord)]
        #[repr(u8)]
        pub enum $name {
            $(#[doc = $text] $variant = $number,)*
        }

        impl $name {
            /// All of them, by their numbers.
            pub const ALL: &'static [$name] = &[$($name::$variant,)*];

            /// The one that has a number, if one has.
            pub fn new(number: u8) -> Option<Self> {
                match number {
                    $($number => Some($name::$variant),)*
                    _ => None,
                }
            }

            /// Its number, as the library gives it.
            pub fn number(self) -> u8 {
                self as u8
            }

            /// Its words.
            pub fn text(self) -> &'static str {
                match self {
                    $($name::$variant => $text,)*
                }
            }
        }

        impl fmt::Display for $name {
            /// Writes the words.
            fn fmt(&self, formatter: &mut fmt::Formatter) -> fmt::Result {
                formatter.pad(self.text())
            }
        }
    };
}

numbered! {
    /// The mark of a rule: why it falls, or why it does not. `docs/MARKS.md` has an example of each.
    ///
    /// ```
    /// use ackbo::Mark;
    ///
    /// let mark = Mark::new(2).unwrap();
    /// assert_eq!((mark, mark.number(), mark.falls()), (Mark::FallsByRank, 2, true));
    /// assert_eq!(mark.to_string(), "falls by rank");
    /// assert!(!Mark::VariableAdded.falls());
    /// assert_eq!(Mark::new(0), None);
    /// ```
    Mark {
        FallsByWeight = 1, "falls by weight";
        FallsByRank = 2, "falls by rank";
        FallsByArguments = 3, "falls by arguments";
        FallsByHighTerms = 4, "falls by high terms";
        FallsByCount = 5, "falls by count";
        FallsByLowTerms = 6, "falls by low terms";
        VariableAdded = 7, "variable added";
        LeftLighter = 8, "left lighter";
        SidesEqual = 9, "sides equal";
        NoCase = 10, "no case";
        FallsByWrapping = 11, "falls by wrapping";
    }
}

numbered! {
    /// Why an input is refused. `docs/MARKS.md` says of each which field its place names.
    ///
    /// ```
    /// use ackbo::Refusal;
    ///
    /// assert_eq!(Refusal::new(8), Some(Refusal::RankTaken));
    /// assert_eq!(Refusal::RankTaken.to_string(), "an earlier symbol has this rank");
    /// assert_eq!(Refusal::new(0), None);
    /// ```
    Refusal {
        FileTooLong = 1, "the book is longer than 32,768 bytes";
        FieldMissing = 2, "a field is missing or cut off";
        WrongForm = 3, "the form is none that is read here";
        NoSymbols = 4, "there is no symbol";
        VariableWeightless = 5, "w0, the weight of a variable, is 0";
        AcNotBinary = 6, "an AC symbol has an arity other than 2";
        WeightInadmissible = 7, "the weight is too small for the arity and the rank";
        RankTaken = 8, "an earlier symbol has this rank";
        NoSuchSymbol = 9, "no symbol has this number";
        TooManyNodes = 10, "a 129th node is called for";
        BadPadding = 11, "more than padding follows the last rule";
        MarksTooShort = 12, "the room for marks is shorter than the count of rules";
        WordsTooShort = 13, "the room for words is shorter than the sheet";
        WordTooWide = 14, "the word is too great for its field";
        WordsLeftOver = 15, "words are left over";
        BytesTooShort = 16, "the room for bytes is shorter than the book";
        OldForm = 17, "the form is 1, which the converter alone reads";
        VariableOutOfTurn = 18, "a variable is out of turn in its rule";
        PageTooShort = 19, "the page is shorter than 65 times the count of rules";
        SizeOutOfRange = 22, "the count of nodes is not 1 to 7";
        NoRoomForTerms = 23, "the terms are too many, or have more words than there is room for";
        NoSuchJob = 24, "there are not 1 to 32 desks, or the last served is none";
        BadJob = 25, "the desk's book is outside, refused, or shorter than its count";
    }
}

impl Mark {
    /// Whether a rule with this mark falls: its left side is greater than its right one. The words of these marks, and
    /// of no others, begin with 'falls'.
    pub fn falls(self) -> bool {
        self.text().starts_with("falls ")
    }
}

impl Error {
    /// The refusal that the number stands for; none for a number that no operation gives.
    pub fn refusal(self) -> Option<Refusal> {
        Refusal::new(self.code)
    }
}
