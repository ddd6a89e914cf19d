//! What the sets of a text mean: each suffices to run the machine, or the joint failure of each stops it.

/// What the sets of a list are. A text has sets of one meaning only.
#[derive(Clone, Copy, Debug, PartialEq, Eq)]
pub enum Meaning {
    /// They suffice to run the machine.
    PathSets,
    /// Their joint failure stops it.
    CutSets,
}

impl Meaning {
    /// Both of them, to find one by its word.
    pub const BOTH: [Meaning; 2] = [Meaning::PathSets, Meaning::CutSets];

    /// The word in front of a set of this meaning.
    pub fn word(self) -> &'static str {
        match self {
            Meaning::PathSets => "set",
            Meaning::CutSets => "cut",
        }
    }

    /// What the line of such a set is, for a message.
    pub fn form(self) -> &'static str {
        match self {
            Meaning::PathSets => "`set` and the numbers of its parts, as in `set 3 7`",
            Meaning::CutSets => "`cut` and the numbers of its parts, as in `cut 7 12`",
        }
    }
}
