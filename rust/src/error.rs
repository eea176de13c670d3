use crate::{Refusal, AXES_MAX};
use core::fmt;

/// Why a text is no plan, or no cut: what was expected at a byte of it, or the refusal of what it spells.
///
/// ```
/// use hisowake::{Expected, ParseError, Plan, Refusal};
///
/// let error = "halton 2 257".parse::<Plan>().unwrap_err();
/// assert_eq!(error, ParseError::Expected { what: Expected::Base, at: 9 });
/// assert_eq!(error.to_string(), "byte 9: expected a base from 2 to 256");
///
/// let error = "halton 2 4".parse::<Plan>().unwrap_err();
/// assert_eq!(error, ParseError::Refused { refusal: Refusal::CommonFactor, at: 9 });
/// assert_eq!(error.to_string(), "byte 9: refused 5: a base is not coprime to an earlier one");
/// ```
#[derive(Clone, Copy, Debug, PartialEq, Eq, Hash)]
#[non_exhaustive]
pub enum ParseError {
    /// Something else was expected.
    Expected {
        /// What was expected.
        what: Expected,
        /// The byte of the text, from 0, at which it was.
        at: usize,
    },
    /// The axes up to this one are spelled right, and the plan that they make is refused.
    Refused {
        /// Why.
        refusal: Refusal,
        /// The byte of the text, from 0, at which the axis starts; or the m, where the refusal is that it is even.
        at: usize,
    },
}

/// What the words of a plan or a cut have at a place.
///
/// ```
/// assert_eq!(hisowake::Expected::Family.to_string(), "halton, permuted, sobol or kocis");
/// ```
#[derive(Clone, Copy, Debug, PartialEq, Eq, Hash)]
#[non_exhaustive]
pub enum Expected {
    /// The word of a family: `halton`, `permuted`, `sobol` or `kocis`.
    Family,
    /// A word for an axis, where the text ends.
    Axis,
    /// The end of the text, since there are six axes.
    End,
    /// A base from 2 to 256.
    Base,
    /// The word `0`, or a number from 2 to 8191 and a colon.
    Polynomial,
    /// The number m of this place, from 1, of an axis: an odd number below 2^place.
    Number(u32),
    /// The end of the axis's word, which has this many numbers.
    Numbers(u32),
    /// A cut: two numbers of at most 32 bits with a slash between them.
    Cut,
}

impl fmt::Display for Expected {
    fn fmt(&self, f: &mut fmt::Formatter<'_>) -> fmt::Result {
        match *self {
            Expected::Family => write!(f, "halton, permuted, sobol or kocis"),
            Expected::Axis => write!(f, "a word for an axis"),
            Expected::End => write!(f, "no more than {AXES_MAX} axes"),
            Expected::Base => write!(f, "a base from 2 to 256"),
            Expected::Polynomial => write!(f, "0, or a number from 2 to 8191 and a colon"),
            Expected::Number(place) => write!(f, "m_{place}, an odd number below 2^{place}"),
            Expected::Numbers(count) => write!(f, "no number after m_{count}"),
            Expected::Cut => write!(f, "a cut such as 1/3"),
        }
    }
}

impl fmt::Display for ParseError {
    fn fmt(&self, f: &mut fmt::Formatter<'_>) -> fmt::Result {
        match self {
            ParseError::Expected { what, at } => write!(f, "byte {at}: expected {what}"),
            ParseError::Refused { refusal, at } => write!(f, "byte {at}: {refusal}"),
        }
    }
}

#[cfg(core_error)]
impl core::error::Error for ParseError {}
