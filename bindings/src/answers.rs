//! What the operations answer, and the codes that stand for it.

use crate::instance::Instance;
use std::error::Error;
use std::fmt;

/// A refusal, with the specification's number.
///
/// A refused call has written nothing.
#[derive(Clone, Copy, Debug, PartialEq, Eq, PartialOrd, Ord, Hash)]
#[non_exhaustive]
#[repr(u8)]
pub enum Refusal {
    /// n, m or t is out of range.
    Shape = 1,
    /// b is out of range.
    Base = 2,
    /// B is out of range.
    Bound = 3,
    /// N is above 512.
    Columns = 4,
    /// Growth: (N h)² m is above B.
    Growth = 5,
    /// Width: H ((b^k − 1)/(b − 1))² is above 2^62.
    Width = 6,
    /// A slice, outputs included, has not the length of its matrix.
    Length = 7,
    /// A column of a witness has a squared length above B.
    LongColumn = 8,
    /// A byte of the challenge is above 2.
    Challenge = 9,
    /// An entry of D~ is above H in size.
    DigitProduct = 10,
    /// An entry of S~ is above h in size.
    Digit = 11,
    /// A number outside 1..4 was asked of the house list.
    Unlisted = 12,
    /// An instance has 0 leaves, or both have more than 2^32 − 1 together.
    Leaves = 15,
    /// S~ has digits other than those of the digit rule.
    OtherDigits = 16,
    /// A weight is outside 1..16, the turn's group is outside 1..8, or its used folds are above its weight.
    Turn = 20,
    /// [`count_zeros`](crate::count_zeros): n is outside 1..12.
    Rows = 24,
    /// [`count_zeros`](crate::count_zeros): an entry of E is above 2^52 or below −2^52.
    Entry = 25,
}

/// All refusals, in the order of their numbers.
const REFUSALS: [Refusal; 17] = [
    Refusal::Shape,
    Refusal::Base,
    Refusal::Bound,
    Refusal::Columns,
    Refusal::Growth,
    Refusal::Width,
    Refusal::Length,
    Refusal::LongColumn,
    Refusal::Challenge,
    Refusal::DigitProduct,
    Refusal::Digit,
    Refusal::Unlisted,
    Refusal::Leaves,
    Refusal::OtherDigits,
    Refusal::Turn,
    Refusal::Rows,
    Refusal::Entry,
];

impl Refusal {
    /// The specification's number of this refusal.
    pub fn number(self) -> u8 {
        self as u8
    }

    /// When this refusal is given.
    fn reason(self) -> &'static str {
        match self {
            Refusal::Shape => "n, m or t is out of range",
            Refusal::Base => "b is out of range",
            Refusal::Bound => "B is out of range",
            Refusal::Columns => "N is above 512",
            Refusal::Growth => "(N h)² m is above B",
            Refusal::Width => "H ((b^k − 1)/(b − 1))² is above 2^62",
            Refusal::Length => "a slice has not the length of its matrix",
            Refusal::LongColumn => "a column of a witness has a squared length above B",
            Refusal::Challenge => "a byte of the challenge is above 2",
            Refusal::DigitProduct => "an entry of D~ is above H in size",
            Refusal::Digit => "an entry of S~ is above h in size",
            Refusal::Unlisted => "the house list has the numbers 1 to 4",
            Refusal::Leaves => "an instance has 0 leaves, or both have more than 2^32 − 1 together",
            Refusal::OtherDigits => "S~ has digits other than those of the digit rule",
            Refusal::Turn => "a weight, the turn's group or its used folds are out of range",
            Refusal::Rows => "the rows of E are outside 1..12",
            Refusal::Entry => "an entry of E is above 2^52 or below −2^52",
        }
    }
}

impl fmt::Display for Refusal {
    fn fmt(&self, f: &mut fmt::Formatter<'_>) -> fmt::Result {
        write!(f, "refused with {}: {}", self.number(), self.reason())
    }
}

impl Error for Refusal {}

/// What an operation without words of its own answers: done, or refused.
pub type Answer = Result<(), Refusal>;

/// The verdict on a fold.
#[derive(Clone, Copy, Debug, PartialEq, Eq, Hash)]
#[must_use]
#[non_exhaustive]
pub enum Verdict<'a> {
    /// No diagonal entry of D1 or D2 is above B, and both equations hold: the folded instance, whose T' and D' were
    /// written.
    Yes(Instance<'a>),
    /// A diagonal entry of D1 or D2 is above B, so that instance has no witness within B.
    Long,
    /// No diagonal entry is above B, and the first equation, of the products, fails.
    Norm,
    /// The second equation alone, of the commitments, fails.
    Commitment,
}

/// Whether a witness belongs to an instance.
#[derive(Clone, Copy, Debug, PartialEq, Eq, Hash)]
#[must_use]
#[non_exhaustive]
pub enum Membership {
    /// It does.
    Member,
    /// A column has a squared length above B.
    Long,
    /// S-transposed S is not D.
    Products,
    /// A S is not T.
    Commitment,
}

/// The refusal with this code.
///
/// # Panics
///
/// Where the library answers a code that it does not have.
fn refusal(code: u8) -> Refusal {
    let refused = REFUSALS.into_iter().find(|refused| refused.number() == code);
    refused.unwrap_or_else(|| panic!("the static library answered {code}, which is none of its codes"))
}

/// The answer with this code.
pub(crate) fn answer(code: u8) -> Answer {
    match code {
        0 => Ok(()),
        _ => Err(refusal(code)),
    }
}

/// The verdict with this code; a yes hands out the folded instance.
pub(crate) fn verdict(code: u8, folded: Instance<'_>) -> Result<Verdict<'_>, Refusal> {
    match code {
        0 => Ok(Verdict::Yes(folded)),
        100 => Ok(Verdict::Norm),
        101 => Ok(Verdict::Commitment),
        102 => Ok(Verdict::Long),
        _ => Err(refusal(code)),
    }
}

/// The membership with this code.
pub(crate) fn membership(code: u8) -> Result<Membership, Refusal> {
    match code {
        0 => Ok(Membership::Member),
        101 => Ok(Membership::Commitment),
        102 => Ok(Membership::Long),
        103 => Ok(Membership::Products),
        _ => Err(refusal(code)),
    }
}

/// Whether this code says that a group was named; without one nobody waits.
pub(crate) fn named(code: u8) -> Result<bool, Refusal> {
    match code {
        0 => Ok(true),
        104 => Ok(false),
        _ => Err(refusal(code)),
    }
}

#[cfg(test)]
mod tests {
    use super::*;

    /// The verdict with this code.
    fn verdict(code: u8) -> Result<Verdict<'static>, Refusal> {
        super::verdict(code, Instance { t: &[], d: &[], leaves: 2 })
    }

    #[test]
    fn every_refusal_has_its_own_code() {
        let numbers: Vec<u8> = REFUSALS.into_iter().map(Refusal::number).collect();
        assert_eq!(numbers, [1, 2, 3, 4, 5, 6, 7, 8, 9, 10, 11, 12, 15, 16, 20, 24, 25]);
        for refused in REFUSALS {
            assert_eq!(answer(refused.number()), Err(refused));
            assert_eq!(verdict(refused.number()), Err(refused));
            assert_eq!(membership(refused.number()), Err(refused));
            assert_eq!(named(refused.number()), Err(refused));
        }
    }

    /// The code that the C header gives a name.
    fn in_header(name: &str) -> Option<u8> {
        include_str!("../../include/lova.h").lines().find_map(|line| {
            let (named, rest) = line.trim().strip_prefix("LOVA_")?.split_once(" = ")?;
            let number = rest.split(|mark: char| !mark.is_ascii_digit()).next()?;
            named.replace('_', "").eq_ignore_ascii_case(name).then(|| number.parse().ok())?
        })
    }

    #[test]
    fn the_header_has_the_same_codes() {
        let code = |name: &str| in_header(name).unwrap_or_else(|| panic!("lova.h has no {name}"));
        for refused in REFUSALS {
            assert_eq!(code(&format!("{refused:?}")), refused.number());
        }
        assert_eq!(answer(code("Done")), Ok(()));
        for word in [Verdict::Long, Verdict::Norm, Verdict::Commitment] {
            assert_eq!(verdict(code(&format!("{word:?}"))), Ok(word));
        }
        for word in [Membership::Long, Membership::Products, Membership::Commitment] {
            assert_eq!(membership(code(&format!("{word:?}"))), Ok(word));
        }
        assert_eq!((named(code("Done")), named(code("None"))), (Ok(true), Ok(false)));
    }

    /// Whether a code has no meaning here.
    fn fails<R>(decoded: fn(u8) -> R, code: u8) -> bool {
        std::panic::catch_unwind(|| decoded(code)).is_err()
    }

    #[test]
    fn codes_without_a_meaning_are_not_taken_for_one() {
        for code in [13, 14, 17, 18, 19, 21, 22, 23, 26, 99, 105, 255] {
            assert!(fails(answer, code) && fails(verdict, code) && fails(membership, code) && fails(named, code));
        }
        // A word of another operation is none either.
        assert!([100, 101, 102, 103, 104].iter().all(|code| fails(answer, *code)));
        assert!([103, 104].iter().all(|code| fails(verdict, *code)));
        assert!([100, 104].iter().all(|code| fails(membership, *code)));
        assert!([100, 101, 102, 103].iter().all(|code| fails(named, *code)));
    }
}
