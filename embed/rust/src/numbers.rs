//! The numbers of statuses, verdicts and refusals, each with the sentence that says what it means.

use std::fmt;

/// An enum whose cases are numbers with a sentence each.
macro_rules! numbers {
    ($(#[$about:meta])* $name:ident { $($case:ident = $number:literal: $sentence:literal,)* }) => {
        $(#[$about])*
        #[derive(Clone, Copy, Debug, PartialEq, Eq, PartialOrd, Ord, Hash)]
        pub enum $name {
            $(#[doc = $sentence] $case = $number,)*
        }

        impl $name {
            /// The number that the library answers.
            pub const fn number(self) -> u32 {
                self as u32
            }

            /// The case with this number, where there is one.
            pub const fn from_number(number: u32) -> Option<Self> {
                match number {
                    $($number => Some(Self::$case),)*
                    _ => None,
                }
            }
        }

        impl fmt::Display for $name {
            fn fmt(&self, f: &mut fmt::Formatter<'_>) -> fmt::Result {
                f.pad(match self {
                    $(Self::$case => $sentence,)*
                })
            }
        }
    };
}

numbers! {
    /// What a function of the library returns.
    Status {
        Answered = 0: "the call has answered",
        AnswerTooShort = 1: "the answer's buffer has fewer words than the answer takes",
        MemoryTooShort = 2: "the memory has fewer than 32 words",
    }
}

numbers! {
    /// The verdict of a run.
    Verdict {
        Done = 0: "the run has finished",
        Stopped = 1: "the monitor stopped the run before it told the settled channel something provisional",
        Spent = 2: "the budget was used up before the run had finished",
        NoRoom = 3: "the trace has no room for the next record",
    }
}

numbers! {
    /// The verdict of a level check.
    CheckVerdict {
        Pass = 0: "no output on the settled channel can be provisional",
        Fail = 1: "an output on the settled channel may be provisional",
    }
}

numbers! {
    /// Why a table, a run or a text was refused. A judge and a check can meet 1 to 5, a run 6 too, and a reading 5 and 9 to 13.
    Refusal {
        Count = 1: "the table's words are not a multiple of 4, or it has 0 rows or more than 512",
        Word = 2: "the row's kind is unknown, a word is out of range, or a word that must be 0 is not",
        Child = 3: "a child's number is not below the row's, or the child is of the wrong sort",
        Tree = 4: "the row is a child of no row or in more than one place, or it is the last and an expression",
        Depth = 5: "the expression is higher than 16, or statements nest deeper than 8 or loops than 3",
        Trace = 6: "the trace that is lent has more than 16,384 words",
        Text = 9: "the text has more than 16,384 bytes",
        Faulty = 10: "no recipe goes on with this word, or the text ends before its recipe does",
        Again = 11: "the variable is declared a second time",
        Rows = 12: "the recipe has more than 512 rows",
        Table = 13: "the table that is lent has fewer words than the recipe's rows take",
    }
}
