/// The cut u/q of an axis. A point is inside if its fraction is less than u/q on every axis; q is 1 to 2^24, and u is 0 to q.
///
/// ```
/// assert_eq!(hisowake::Cut::new(1, 3), hisowake::Cut { u: 1, q: 3 });
/// ```
#[derive(Clone, Copy, Debug, PartialEq, Eq, Hash)]
pub struct Cut {
    /// The cut's numerator.
    pub u: u32,
    /// The cut's denominator.
    pub q: u32,
}

impl Cut {
    /// The cut u/q. Its range is examined when it is used.
    ///
    /// ```
    /// use hisowake::{Cut, Plan, Refusal};
    ///
    /// let plan = Plan::read(&[0x08, 0x08])?;
    /// assert_eq!(plan.count(0, 6, &[Cut::new(3, 2)]), Err(Refusal::BadWindow));
    /// # Ok::<(), Refusal>(())
    /// ```
    #[must_use]
    pub const fn new(u: u32, q: u32) -> Cut {
        Cut { u, q }
    }
}

/// How many points of a run are inside a window, and how far that may lie from their share.
///
/// ```
/// use hisowake::{Count, Cut, Plan, Refusal};
///
/// let plan = Plan::read(&[0x08, 0x08])?; // base 2
/// assert_eq!(plan.count(0, 6, &[Cut::new(1, 2)])?, Count { inside: 3, bound: 4 });
/// # Ok::<(), Refusal>(())
/// ```
#[derive(Clone, Copy, Debug, PartialEq, Eq, Hash)]
pub struct Count {
    /// How many of the run's points are inside.
    pub inside: u64,
    /// The distance between `inside` and the run's count times the product of all u/q is less than this. For Sobol it is 0, which claims
    /// nothing.
    pub bound: u64,
}
