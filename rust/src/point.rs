use crate::{Plan, AXES_MAX};
use core::iter::FusedIterator;
use core::ops::Deref;

/// A point: the numerator of each axis, as a slice. Its denominators are the plan's.
///
/// ```
/// use hisowake::{Plan, Refusal};
///
/// let point = Plan::read(&[0x10, 0x08, 0x10])?.point(1)?;
/// assert_eq!(point.len(), 2);
/// assert_eq!(point[0], 2147483648);
/// # Ok::<(), Refusal>(())
/// ```
#[derive(Clone, Copy, Debug, PartialEq, Eq, Hash)]
pub struct Point {
    pub(crate) numerators: [u64; AXES_MAX],
    pub(crate) axes: usize,
}

impl Deref for Point {
    type Target = [u64];

    fn deref(&self) -> &[u64] {
        &self.numerators[..self.axes]
    }
}

/// The points of a run, in order, made by [`Plan::points`]. Each is one call.
///
/// ```
/// use hisowake::{Plan, Refusal};
///
/// let plan = Plan::read(&[0x08, 0x08])?; // base 2
/// let mut points = plan.points(1, 3)?;
/// assert_eq!(points.len(), 3);
/// assert_eq!(points.next(), plan.point(1).ok());
/// assert_eq!(points.nth(1), plan.point(3).ok());
/// assert_eq!(points.next(), None);
/// # Ok::<(), Refusal>(())
/// ```
#[derive(Clone, Debug, PartialEq, Eq, Hash)]
#[must_use]
pub struct Points {
    pub(crate) plan: Plan,
    /// The index of the next point.
    pub(crate) next: u64,
    /// The index after the last point, at most 2^32.
    pub(crate) end: u64,
}

impl Iterator for Points {
    type Item = Point;

    fn next(&mut self) -> Option<Point> {
        self.nth(0)
    }

    /// Passes over `n` points without a call.
    fn nth(&mut self, n: usize) -> Option<Point> {
        let left = self.end - self.next;
        self.next += left.min(n as u64);
        if self.next == self.end {
            return None;
        }
        let point = self.plan.point(self.next).expect("an index below 2^32");
        self.next += 1;
        Some(point)
    }

    fn size_hint(&self) -> (usize, Option<usize>) {
        let left = usize::try_from(self.end - self.next).ok();
        (left.unwrap_or(usize::MAX), left)
    }
}

impl ExactSizeIterator for Points {}

impl FusedIterator for Points {}
