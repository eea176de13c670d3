"""The words of a sampler's state, in the struct's order: family, axes, 6 bases, 6 polynomials, 32 direction numbers for each of 6 axes, 6 starts,
count, taken, and the 6 numerators of the next point. Which are there is read off 01, K6 and the struct's comment; it shares nothing with the crates.
A day set has the words of a state whose run has start 0 on every axis and the set's size as its count."""
from functools import lru_cache

import plans
import reference
from reference import FAMILIES, INDEXES, SOBOL, Axis, Plan, Refused

WORDS = 220
LONG = 400  # points
BLANK = (0,) * WORDS
STARTS, COUNT, TAKEN = 206, 212, 213  # where they are


def padded(words, length):
    return tuple(words) + (0,) * (length - len(words))


def polynomial(axis):
    """x^d + a_1 x^(d-1) + .. + 1 as a number; 1 for degree 0."""
    return int("1" + "".join(map(str, axis.coefficients)) + "1", 2) if axis.degree else 1


def made(plan, starts, count, taken):
    """The state of a plan and a run, so many of whose points are taken."""
    is_sobol = plan.family == SOBOL
    bases = () if is_sobol else plan.axes
    polynomials = [polynomial(axis) for axis in plan.axes] if is_sobol else ()
    directions = [v for axis in plan.axes for v in reference.direction_numbers(axis)] if is_sobol else ()
    numerators = reference.run_point(plan, starts, taken) if taken < count else ()
    head = (plan.family, len(plan.axes)) + padded(bases, 6) + padded(polynomials, 6) + padded(directions, 192)
    return head + padded(starts, 6) + (count, taken) + padded(numerators, 6)


def run_in(words):
    """The starts of the axes that a state's words claim to have, the count and how many points are taken."""
    return words[STARTS:COUNT][: words[1]], words[COUNT], words[TAKEN]


def is_unequal(words):
    """Whether these starts are not all the same."""
    return len(set(run_in(words)[0])) > 1


def plan_in(words):
    """The plan that a state's words claim to hold; it is refused if no reading accepts it."""
    family, count = words[:2]
    reference.refuse_if(family not in FAMILIES or not 1 <= count <= 6, 15)
    axes = [sobol_axis(words, i) for i in range(count)] if family == SOBOL else words[2 : 2 + count]
    reference.refuse_if(family != SOBOL and not all(2 <= base <= 256 for base in axes), 15)
    return reference.read(plans.bytes_of(Plan(family, tuple(axes))))


def sobol_axis(words, i):
    p = words[8 + i]
    degree = p.bit_length() - 1
    reference.refuse_if(not 0 <= degree <= 12 or p % 2 == 0, 15)
    m = tuple(words[14 + 32 * i + j] >> (31 - j) for j in range(degree))
    reference.refuse_if(any(x >> (j + 1) for j, x in enumerate(m)), 15)
    return Axis(degree, tuple(p >> j & 1 for j in range(degree - 1, 0, -1)), m)


@lru_cache(maxsize=16)
def genuine_plan(words):
    """The plan of a state that accepted calls leave; any other state is refused by 15."""
    starts, count, taken = run_in(words)
    try:
        plan = plan_in(words)
        reference.refuse_run(plan, starts, count)
    except Refused:
        raise Refused(15) from None
    reference.refuse_if(taken > count or made(plan, starts, count, taken) != words, 15)
    return plan


def is_long(plan, count):
    """Whether so many points are counted by strips."""
    return count > LONG and plan.family != SOBOL


class Run:
    """The run of a state that accepted calls leave."""

    def __init__(self, words):
        self.plan = genuine_plan(words)
        self.starts, self.count, self.taken = run_in(words)
        self.width = len(self.plan.axes)
        self.indexes = INDEXES  # a jump is to an index below this

    def point(self, index):
        """The point that a jump is to."""
        return reference.point(self.plan, index)

    def points(self, first, count):
        """The points of the steps from `first` on."""
        return reference.run_points(self.plan, self.starts, first, count)

    def counted(self, cuts):
        """How many points are inside, and the bound."""
        count = reference.count_by_strips if is_long(self.plan, self.count) else reference.count_inside
        return count(self.plan, self.starts, self.count, cuts), reference.bound(self.plan, self.count)

    def moved(self, k):
        """The words after so many points more."""
        return made(self.plan, self.starts, self.count, self.taken + k)


class DaySet(Run):
    """A day set that an accepted making, with accepted steps and blocks after it, leaves; any other is refused by 15."""

    def __init__(self, words):
        super().__init__(words)
        reference.refuse_if(any(self.starts), 15)
        self.width += 1
        self.indexes = self.count

    def point(self, index):
        return self.points(index, 1)[0]

    def points(self, first, count):
        return reference.day_points(self.plan, first, count)

    def counted(self, cuts):
        u, q = cuts[0]
        led = -(-u * self.count // q)
        if is_long(self.plan, led):
            inside = reference.count_by_strips(self.plan, self.starts, led, cuts[1:])
        else:
            inside = reference.day_count_inside(self.plan, self.count, cuts)
        return inside, reference.day_bound(self.plan, self.count)
