use crate::bits::field;
use crate::{calls, Count, Cut, Point, Points, Refusal};
use core::fmt;

/// The most axes of a plan.
pub const AXES_MAX: usize = 6;

/// The most bytes of a plan.
pub const PLAN_MAX: usize = 71;

/// How many indexes there are: they are 0 to 2^32 - 1. It is also the denominator of a Sobol axis.
const INDEXES: u64 = 1 << 32;

/// Which sequence a plan's points are of.
///
/// ```
/// use hisowake::{Family, Plan, Refusal};
///
/// assert_eq!(Plan::read(&[0x48, 0x20])?.family(), Family::Permuted);
/// assert_eq!(Plan::read(&[0xC8, 0x48])?.family(), Family::Kocis);
/// # Ok::<(), Refusal>(())
/// ```
#[derive(Clone, Copy, Debug, PartialEq, Eq, Hash)]
pub enum Family {
    /// The Halton sequence.
    Halton = 0,
    /// The Halton sequence with Faure's digit permutations.
    Permuted = 1,
    /// Sobol's sequence.
    Sobol = 2,
    /// The Halton sequence with the digit permutations of Kocis and Whiten.
    Kocis = 3,
}

/// An accepted plan. It is made of bytes, by [`Plan::read`], or of words.
///
/// ```
/// use hisowake::{Plan, Refusal};
///
/// let plan = Plan::read(&[0x89, 0xBF, 0x80])?; // Sobol, x^3 + x + 1 with 1, 3, 7
/// assert_eq!(Ok(plan), "sobol 11:1,3,7".parse());
/// assert_eq!(plan.axes(), 1);
/// assert_eq!(*plan.point(4)?, [536870912]);
/// assert_eq!(Plan::read(&[0xC8]), Err(Refusal::Truncated)); // one axis, and no base
/// # Ok::<(), Refusal>(())
/// ```
#[derive(Clone, Copy, PartialEq, Eq, Hash)]
pub struct Plan {
    bytes: [u8; PLAN_MAX],
    len: usize,
}

impl Plan {
    /// Reads a plan.
    ///
    /// # Errors
    ///
    /// Refusals 1 and 3 to 10, as the bytes are read field by field.
    ///
    /// ```
    /// use hisowake::{Plan, Refusal};
    ///
    /// assert!(Plan::read(&[0x10, 0x18, 0x40]).is_ok()); // bases 4 and 9
    /// assert_eq!(Plan::read(&[0x10, 0x28, 0x40]), Err(Refusal::CommonFactor)); // bases 6 and 9
    /// ```
    pub fn read(bytes: &[u8]) -> Result<Plan, Refusal> {
        calls::point(bytes, 0, &mut [0; 8 * AXES_MAX])?;
        let mut plan = Plan { bytes: [0; PLAN_MAX], len: bytes.len() };
        plan.bytes[..bytes.len()].copy_from_slice(bytes);
        Ok(plan)
    }

    /// The plan's bytes.
    ///
    /// ```
    /// use hisowake::{Plan, Refusal};
    ///
    /// assert_eq!(Plan::read(&[0x08, 0x10])?.bytes(), [0x08, 0x10]);
    /// # Ok::<(), Refusal>(())
    /// ```
    #[must_use]
    pub fn bytes(&self) -> &[u8] {
        &self.bytes[..self.len]
    }

    /// Which sequence the points are of.
    ///
    /// ```
    /// use hisowake::{Family, Plan, Refusal};
    ///
    /// assert_eq!(Plan::read(&[0x89, 0xBF, 0x80])?.family(), Family::Sobol);
    /// # Ok::<(), Refusal>(())
    /// ```
    #[must_use]
    pub fn family(&self) -> Family {
        match field(&self.bytes, 0, 2) {
            0 => Family::Halton,
            1 => Family::Permuted,
            2 => Family::Sobol,
            _ => Family::Kocis,
        }
    }

    /// How many axes there are, 1 to 6.
    ///
    /// ```
    /// use hisowake::{Plan, Refusal};
    ///
    /// assert_eq!(Plan::read(&[0x10, 0x08, 0x10])?.axes(), 2);
    /// # Ok::<(), Refusal>(())
    /// ```
    #[must_use]
    pub fn axes(&self) -> usize {
        field(&self.bytes, 2, 3) as usize
    }

    /// The base of an axis of a plan of a Halton family.
    pub(crate) fn base(&self, axis: usize) -> u32 {
        field(&self.bytes, 5 + 8 * axis, 8) + 1
    }

    /// The denominator of an axis, the first axis being 0: 2^32 for Sobol, else the least power of the base that is 2^32 or more. None where
    /// the plan has no such axis.
    ///
    /// ```
    /// use hisowake::{Plan, Refusal};
    ///
    /// let plan = Plan::read(&[0x10, 0x08, 0x10])?; // bases 2 and 3
    /// assert_eq!(plan.denominator(0), Some(1 << 32));
    /// assert_eq!(plan.denominator(1), Some(10460353203)); // 3^21
    /// assert_eq!(plan.denominator(2), None);
    /// # Ok::<(), Refusal>(())
    /// ```
    ///
    /// An axis may be divided into up to 2^24 equal slots, and a point's slot is the whole part of its fraction times their number:
    ///
    /// ```
    /// # use hisowake::{Plan, Refusal};
    /// # let plan = Plan::read(&[0x10, 0x08, 0x10])?;
    /// let slot = |axis: usize, slots: u64| Some(plan.point(6).ok()?[axis] * slots / plan.denominator(axis)?);
    /// assert_eq!(slot(0, 90000), Some(33750)); // the second, at 3/8 of a day of 90,000
    /// assert_eq!(slot(1, 250), Some(55)); // the meter, at 2/9 of 250
    /// # Ok::<(), Refusal>(())
    /// ```
    #[must_use]
    pub fn denominator(&self, axis: usize) -> Option<u64> {
        if axis >= self.axes() {
            return None;
        }
        if self.family() == Family::Sobol {
            return Some(INDEXES);
        }
        let base = u64::from(self.base(axis));
        let mut denominator = base;
        while denominator < INDEXES {
            denominator *= base;
        }
        Some(denominator)
    }

    /// The point of an index, 0 to 2^32 - 1.
    ///
    /// # Errors
    ///
    /// Refusal 11 from 2^32 up.
    ///
    /// ```
    /// use hisowake::{Plan, Refusal};
    ///
    /// let plan = Plan::read(&[0x48, 0x20])?; // permuted base 5
    /// assert_eq!(*plan.point(6)?, [4394531250]); // 18/25 of 5^14
    /// assert_eq!(plan.point(4294967296), Err(Refusal::OutOfRange));
    /// # Ok::<(), Refusal>(())
    /// ```
    pub fn point(&self, index: u64) -> Result<Point, Refusal> {
        let mut out = [0; 8 * AXES_MAX];
        calls::point(self.bytes(), index, &mut out)?;
        let mut point = Point { numerators: [0; AXES_MAX], axes: self.axes() };
        for (axis, numerator) in point.numerators.iter_mut().enumerate() {
            *numerator = word(&out, axis);
        }
        Ok(point)
    }

    /// The points of the indexes start to start + count - 1, in order; none if count is 0.
    ///
    /// # Errors
    ///
    /// Refusal 11 if start + count is above 2^32.
    ///
    /// ```
    /// use hisowake::{Plan, Refusal};
    ///
    /// let plan = Plan::read(&[0x08, 0x08])?; // base 2
    /// let seconds: Vec<u64> = plan.points(0, 4)?.map(|point| point[0] * 86400 >> 32).collect();
    /// assert_eq!(seconds, [0, 43200, 21600, 64800]);
    /// assert_eq!(plan.points(4294967295, 2), Err(Refusal::OutOfRange));
    /// # Ok::<(), Refusal>(())
    /// ```
    pub fn points(&self, start: u64, count: u64) -> Result<Points, Refusal> {
        match start.checked_add(count) {
            Some(end) if end <= INDEXES => Ok(Points { plan: *self, next: start, end }),
            _ => Err(Refusal::OutOfRange),
        }
    }

    /// How many points of the indexes start to start + count - 1 are inside the window, which has a cut for each axis.
    ///
    /// # Errors
    ///
    /// In this order: refusal 11 if start + count is above 2^32; 14 if there is not a cut for each axis, or a cut is outside its range.
    ///
    /// ```
    /// use hisowake::{Cut, Plan, Refusal};
    ///
    /// let plan = Plan::read(&[0x10, 0x08, 0x10])?; // bases 2 and 3
    /// let count = plan.count(0, 6, &[Cut::new(1, 2), Cut::new(1, 3)])?;
    /// assert_eq!((count.inside, count.bound), (1, 20));
    /// assert_eq!(plan.count(0, 6, &[Cut::new(1, 2)]), Err(Refusal::BadWindow));
    /// # Ok::<(), Refusal>(())
    /// ```
    pub fn count(&self, start: u64, count: u64, cuts: &[Cut]) -> Result<Count, Refusal> {
        // one cut too many stands for all that are
        let mut window = [0; 8 * (AXES_MAX + 1)];
        let len = 8 * cuts.len().min(AXES_MAX + 1);
        for (bytes, cut) in window.chunks_exact_mut(8).zip(cuts) {
            bytes[..4].copy_from_slice(&cut.u.to_be_bytes());
            bytes[4..].copy_from_slice(&cut.q.to_be_bytes());
        }
        let mut out = [0; 16];
        calls::window_count(self.bytes(), start, count, &window[..len], &mut out)?;
        Ok(Count { inside: word(&out, 0), bound: word(&out, 1) })
    }
}

/// As [`Plan::read`].
///
/// ```
/// use hisowake::{Plan, Refusal};
///
/// assert_eq!(Plan::try_from(&[0x08, 0x10][..])?.to_string(), "halton 3");
/// assert_eq!(Plan::try_from(&[][..]), Err(Refusal::Truncated));
/// # Ok::<(), Refusal>(())
/// ```
impl TryFrom<&[u8]> for Plan {
    type Error = Refusal;

    fn try_from(bytes: &[u8]) -> Result<Plan, Refusal> {
        Plan::read(bytes)
    }
}

/// Writes the plan's words in brackets, as `Plan(halton 2 3)`.
impl fmt::Debug for Plan {
    fn fmt(&self, f: &mut fmt::Formatter<'_>) -> fmt::Result {
        write!(f, "Plan({self})")
    }
}

/// A word of 8 bytes.
fn word(bytes: &[u8], place: usize) -> u64 {
    bytes[8 * place..8 * place + 8].iter().fold(0, |n, &b| n << 8 | u64::from(b))
}
