//! The kinds of cases that a comparison must have met, and how often each occurred.

/// What a case is about.
#[derive(Clone, Copy, PartialEq, Eq)]
pub enum About {
    Table,
    Text,
}

macro_rules! kinds {
    ($([$about:ident] $($kind:ident $name:literal,)*)*) => {
        #[derive(Clone, Copy, Debug, PartialEq, Eq)]
        pub enum Kind { $($($kind,)*)* }

        const NAMES: &[(About, &str)] = &[$($((About::$about, $name),)*)*];
    };
}

kinds! {
    [Table]
    // What the judge is given, and that it answers what the table was made for.
    Recipe "accepted: a random recipe",
    NestAtLimits "accepted: nesting 8 and loop nesting 3",
    TallAtLimit "accepted: an expression of height 16",
    LongLeft "accepted: a sequence of 512 rows that leans left",
    LongRight "accepted: a sequence of 512 rows that leans right",
    LongNested "accepted: a long sequence inside ifs and loops",
    Chain "accepted: marks that move along a chain of variables in loops",
    ReorderedLong "accepted: 512 rows in a random order, children first",
    AnyWords "accepted: random words changed",
    WordCount "refused by 1: words that are no whole row",
    NoRows "refused by 1: no row",
    TooManyRows "refused by 1: over 512 rows",
    UnknownKind "refused by 2: an unknown kind",
    OutOfRange "refused by 2: a named word out of range",
    UnnamedWord "refused by 2: an unnamed word that is not 0",
    ChildNotBelow "refused by 3: a child that is not below its parent",
    ChildOfWrongSort "refused by 3: a child of the wrong sort",
    Orphan "refused by 4: an orphan",
    SharedRow "refused by 4: a shared row",
    LastExpression "refused by 4: an expression as the last row",
    TooHigh "refused by 5: an expression of height 17",
    TooDeep "refused by 5: nesting 9",
    LoopsTooDeep "refused by 5: loop nesting 4",
    SeveralNumbers "refused by the lowest of several numbers",
    SeveralRows "refused by one number that several damages have",
    // What is answered.
    Accepted "accepted",
    Refused1 "refused by 1",
    Refused2 "refused by 2",
    Refused3 "refused by 3",
    Refused4 "refused by 4",
    Refused5 "refused by 5",
    Refused6 "run refused by 6",
    RefusedBefore6 "run refused by 1 to 5 with a trace that 6 refuses",
    Done "verdict 0",
    Stopped "verdict 1",
    Spent "verdict 2",
    NoRoom "verdict 3",
    Pass "check passes",
    Fail "check fails",
    CheckRefused "check refused",
    // What a run computes.
    ZeroByZero "run with a quotient of 0 by 0",
    OtherByZero "run with a quotient of another number by 0",
    // What is provisional where a run is stopped.
    SpoiledByOne "stopped by one variable in a settled context",
    SpoiledBySeveral "stopped by several variables in a settled context",
    SpoiledByContext "stopped by the context alone",
    SpoiledByBoth "stopped by the expression and the context",
    // How a run ends.
    LoopEnds "run with a loop that ends",
    LoopEndless "run with a loop that goes on to a large budget",
    DoneAtBudget "done with its last step of the budget",
    SpentBeforeEnd "one step of the budget short of done",
    DoneToSpare "done with one step of the budget to spare",
    SpentBeforeDenied "budget used up before an output that is denied",
    DeniedToSpare "denied with one step of the budget to spare",
    DeniedWithoutRoom "denied with no room either",
    SpentBeforeNoRoom "budget used up before an output without room",
    NoRoomToSpare "no room with one step of the budget to spare",
    NoBudget "budget 0",
    HighestBudget "the highest budget",
    RoomFilled "done with the trace filled to its last word",
    OddWordKept "done with one odd word left in the trace",
    OneWordShort "no room for want of one word",
    NoTrace "no room in a trace of no words",
    LongestTrace "a trace of 16,384 words",
    LongestFilled "16,384 words of records",
    // Buffers for C.
    AnswerTooShort "answer buffer too short",
    MemoryTooShort "memory buffer too short",
    AnswerLonger "answer buffer longer than needed",
    MemoryLonger "memory buffer longer than needed",
    // Pairs of memories.
    Pair "pairs of memories",
    PairTold "pair: both tell the stations something",
    PairPart "pair: one run tells less than the other",
    PairDone "pair: both done",
    PairDiffers "pair: both done, and the memories differ at the end",
    PairPassed "pair: the check passes",
    [Text]
    // What a text is made for, and that it is answered so.
    Written "text accepted: a recipe written out",
    DeepText "text accepted: height and nesting at their limits",
    LongestTable "text accepted: 512 rows",
    LongestText "text accepted: 16,384 bytes",
    RepeatedPiece "text accepted: one piece many times",
    FewWords "text accepted: words one after the other",
    TooDeepText "text refused by 5: height or nesting over its limit",
    RepeatedTooDeep "text refused by 5: one piece many times",
    TooLongText "text refused by 9: 16,385 bytes",
    RepeatedNoRecipe "text refused by 10: one piece many times",
    WordDropped "text refused by 10: a word dropped",
    WordDoubled "text refused by 10: a word doubled",
    WordsExchanged "text refused by 10: two words exchanged",
    WordReplaced "text refused by 10: a word replaced",
    WordCut "text refused by 10: a word cut",
    TextCut "text refused by 10: the end cut off",
    ByteChanged "text refused by 10: a byte changed",
    FewWordsNoRecipe "text refused by 10: words one after the other",
    DeclaredAgain "text refused by 11: a variable declared again",
    ManyRows "text refused by 12: a few rows over 512",
    RepeatedManyRows "text refused by 12: one piece many times",
    // What is answered.
    Read "text accepted",
    ReadMarks "text accepted with marks",
    Refused9 "text refused by 9",
    Refused10Word "text refused by 10 at a word",
    Refused10End "text refused by 10 at the end",
    Refused11 "text refused by 11",
    Refused12 "text refused by 12",
    TextRefused5 "text refused by 5",
    Refused13 "text refused by 13",
    Order10Before11 "text refused by 10 that declares a variable twice before",
    Order11Before5 "text refused by 11 that would be by 5",
    Order11Before12 "text refused by 11 that would be by 12",
    // What is lent.
    TableFilled "text accepted, and its rows fill the table",
    TableLonger "text accepted, with words of the table after its rows",
    TableOneShort "text refused by 13 for want of one word",
    ReadTooShort "text with an answer buffer too short",
    ReadLonger "text with an answer buffer longer than needed",
}

/// The kind of a refusal by this number.
pub fn refused_by(number: u32) -> Kind {
    match number {
        1 => Kind::Refused1,
        2 => Kind::Refused2,
        3 => Kind::Refused3,
        4 => Kind::Refused4,
        5 => Kind::Refused5,
        _ => Kind::Refused6,
    }
}

/// How often each kind has occurred, in cases that are all about tables or all about texts.
pub struct Tally {
    about: About,
    counts: Vec<u64>,
    pub comparisons: u64,
}

impl Tally {
    pub fn new(about: About) -> Tally {
        Tally {
            about,
            counts: vec![0; NAMES.len()],
            comparisons: 0,
        }
    }

    pub fn count(&mut self, kind: Kind) {
        self.counts[kind as usize] += 1;
    }

    pub fn count_if(&mut self, holds: bool, kind: Kind) {
        if holds {
            self.count(kind);
        }
    }

    pub fn of(&self, kind: Kind) -> u64 {
        self.counts[kind as usize]
    }

    /// The name and the count of each kind that can occur.
    fn counted(&self) -> impl Iterator<Item = (&'static str, u64)> + '_ {
        let counted = NAMES.iter().zip(&self.counts);
        let about = counted.filter(|((about, _), _)| *about == self.about);
        about.map(|((_, name), count)| (*name, *count))
    }

    /// Each kind with its count, a line each.
    pub fn lines(&self) -> String {
        let line = |(name, count)| format!("{count:>10}  {name}\n");
        self.counted().map(line).collect()
    }

    /// The kinds that have not occurred.
    pub fn missing(&self) -> Vec<&'static str> {
        let missing = self.counted().filter(|(_, count)| *count == 0);
        missing.map(|(name, _)| name).collect()
    }
}
