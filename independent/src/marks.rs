//! Mark sets: which variables are provisional.

/// "Memory has 32 variables, v0 to v31"; a mark set has a bit for each.
pub const VARIABLES: usize = 32;

/// "A mark set is 32 bits; bit i set means that vi is provisional."
pub type Marks = [bool; VARIABLES];

pub const EMPTY: Marks = [false; VARIABLES];

pub fn from_bits(bits: u32) -> Marks {
    std::array::from_fn(|variable| bits >> variable & 1 == 1)
}

pub fn to_bits(marks: &Marks) -> u32 {
    (0..VARIABLES).fold(0, |bits, variable| {
        bits | u32::from(marks[variable]) << variable
    })
}

/// The set of this variable alone.
pub fn only(variable: usize) -> Marks {
    let mut set = EMPTY;
    set[variable] = true;
    set
}

pub fn united(one: &Marks, other: &Marks) -> Marks {
    std::array::from_fn(|variable| one[variable] || other[variable])
}

pub fn shared(one: &Marks, other: &Marks) -> Marks {
    std::array::from_fn(|variable| one[variable] && other[variable])
}

/// Whether every variable of `part` is also in `whole`.
pub fn within(part: &Marks, whole: &Marks) -> bool {
    (0..VARIABLES).all(|variable| !part[variable] || whole[variable])
}

/// "`marked` how many variables it marks."
pub fn marked(marks: &Marks) -> usize {
    marks.iter().filter(|mark| **mark).count()
}
