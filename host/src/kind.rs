//! The four kinds of vectors.

use crate::Refusal;
use std::fmt;

/// What the entries of a vector of n parts are: a signature has n of them, the others n + 1.
///
/// ```
/// use nahokipe::Kind;
///
/// assert_eq!(Kind::Signature.number(), 3);
/// assert_eq!(Kind::try_from(3), Ok(Kind::Signature));
/// assert_eq!(Kind::try_from(5).unwrap_err().number, 26);
/// assert_eq!(Kind::PathCounts.to_string(), "path counts");
/// ```
#[derive(Clone, Copy, Debug, PartialEq, Eq)]
#[repr(u8)]
pub enum Kind {
    /// How many path sets have 0, 1, ..., n parts.
    PathCounts = 1,
    /// In how many orders the machine still runs after 0, 1, ..., n failures.
    Tail = 2,
    /// In how many orders the 1st, 2nd, ..., n-th failure stops the machine.
    Signature = 3,
    /// The coefficients of x^0, x^1, ..., x^n in the machine's reliability polynomial.
    Domination = 4,
}

impl Kind {
    /// The kinds by their numbers.
    pub const ALL: [Kind; 4] = [
        Kind::PathCounts,
        Kind::Tail,
        Kind::Signature,
        Kind::Domination,
    ];

    /// The number that a sheet begins with.
    pub fn number(self) -> u8 {
        self as u8
    }
}

impl TryFrom<u8> for Kind {
    type Error = Refusal;

    /// The kind that has this number, or 26.
    fn try_from(number: u8) -> Result<Kind, Refusal> {
        let kind = Kind::ALL.into_iter().find(|kind| kind.number() == number);
        kind.ok_or(Refusal {
            number: 26,
            place: 0,
        })
    }
}

impl fmt::Display for Kind {
    fn fmt(&self, f: &mut fmt::Formatter<'_>) -> fmt::Result {
        f.write_str(match self {
            Kind::PathCounts => "path counts",
            Kind::Tail => "tail",
            Kind::Signature => "signature",
            Kind::Domination => "domination",
        })
    }
}
