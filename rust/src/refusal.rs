use core::fmt;

/// Why a call was turned down: the first of these, in the call's order, whose condition holds.
///
/// ```
/// use hisowake::{Plan, Refusal};
///
/// let refusal = Plan::read(&[0x10, 0x08, 0x18]).unwrap_err(); // bases 2 and 4
/// assert_eq!(refusal, Refusal::CommonFactor);
/// assert_eq!(refusal.number(), 5);
/// assert_eq!(refusal.to_string(), "refused 5: a base is not coprime to an earlier one");
/// ```
#[derive(Clone, Copy, Debug, PartialEq, Eq, Hash)]
#[non_exhaustive]
pub enum Refusal {
    /// The plan's bytes end before a field's last bit.
    Truncated = 1,
    /// Never given: all four families are read. It was for family 3 while that was unused.
    BadFamily = 2,
    /// The number of axes is 0 or 7.
    BadAxisCount = 3,
    /// A base is 1.
    BadBase = 4,
    /// A base is not coprime to an earlier one.
    CommonFactor = 5,
    /// A degree is above 12.
    BadDegree = 6,
    /// A polynomial of degree 1 or more is not primitive.
    NotPrimitive = 7,
    /// A given m is even.
    EvenNumber = 8,
    /// A polynomial of an earlier axis again.
    RepeatedPolynomial = 9,
    /// A filling bit is 1, or a byte follows the plan.
    TrailingData = 10,
    /// The index is 2^32 or more, or start + count is above 2^32.
    OutOfRange = 11,
    /// The buffer is shorter than what is to be written.
    BufferTooSmall = 13,
    /// There is not one cut for each axis, a q is not 1 to 2^24, or a u is above its q.
    BadWindow = 14,
}

impl Refusal {
    /// Every refusal of the C header, by number.
    ///
    /// ```
    /// let numbers: Vec<u64> = hisowake::Refusal::ALL.iter().map(|r| r.number()).collect();
    /// assert_eq!(numbers, [1, 2, 3, 4, 5, 6, 7, 8, 9, 10, 11, 13, 14]);
    /// ```
    pub const ALL: [Refusal; 13] = [
        Refusal::Truncated,
        Refusal::BadFamily,
        Refusal::BadAxisCount,
        Refusal::BadBase,
        Refusal::CommonFactor,
        Refusal::BadDegree,
        Refusal::NotPrimitive,
        Refusal::EvenNumber,
        Refusal::RepeatedPolynomial,
        Refusal::TrailingData,
        Refusal::OutOfRange,
        Refusal::BufferTooSmall,
        Refusal::BadWindow,
    ];

    /// The number that the C calls answer.
    ///
    /// ```
    /// assert_eq!(hisowake::Refusal::BadWindow.number(), 14);
    /// ```
    #[must_use]
    pub const fn number(self) -> u64 {
        self as u64
    }

    /// The refusal of a number.
    ///
    /// ```
    /// use hisowake::Refusal;
    ///
    /// assert_eq!(Refusal::from_number(11), Some(Refusal::OutOfRange));
    /// assert_eq!(Refusal::from_number(0), None);
    /// ```
    #[must_use]
    pub fn from_number(number: u64) -> Option<Refusal> {
        Refusal::ALL.into_iter().find(|r| r.number() == number)
    }

    fn reason(self) -> &'static str {
        match self {
            Refusal::Truncated => "the plan's bytes end before a field's last bit",
            Refusal::BadFamily => "never given, since all four families are read",
            Refusal::BadAxisCount => "the number of axes is 0 or 7",
            Refusal::BadBase => "a base is 1",
            Refusal::CommonFactor => "a base is not coprime to an earlier one",
            Refusal::BadDegree => "a degree is above 12",
            Refusal::NotPrimitive => "a polynomial is not primitive",
            Refusal::EvenNumber => "a given m is even",
            Refusal::RepeatedPolynomial => "a polynomial of an earlier axis again",
            Refusal::TrailingData => "a filling bit is 1, or a byte follows the plan",
            Refusal::OutOfRange => "the index or the run's end is out of range",
            Refusal::BufferTooSmall => "the buffer is too small",
            Refusal::BadWindow => "not one cut for each axis, or a cut outside its range",
        }
    }
}

impl fmt::Display for Refusal {
    fn fmt(&self, f: &mut fmt::Formatter<'_>) -> fmt::Result {
        write!(f, "refused {}: {}", self.number(), self.reason())
    }
}

#[cfg(core_error)]
impl core::error::Error for Refusal {}
