"""The reference's day sets, held to document 002's example, to the C points and, with fractions, to the words of K1."""
from collections import Counter
from fractions import Fraction

import plans
import reference
import windows
from reference import HALTON, SOBOL, Plan
from verdict import agree, near, same_answer

# the ten-element set of section 4, in base 2
PRINTED = "0 0, 1/10 1/2, 1/5 1/4, 3/10 3/4, 2/5 1/8, 1/2 5/8, 3/5 3/8, 7/10 7/8, 4/5 1/16, 9/10 9/16"


def fractions(plan, size):
    """The points of a day set: n / N, then numerator / denominator on each axis of the plan."""
    below = [size] + reference.denominators(plan)
    return [tuple(map(Fraction, here, below)) for here in reference.day_points(plan, 0, size)]


def day_sets(library, peers, rng):
    """The example; the points of random day sets with the C points; windows over them."""
    tally = Counter()
    agree("document 002", fractions(Plan(HALTON, (2,)), 10), [tuple(map(Fraction, point.split())) for point in PRINTED.split(", ")])
    agree("the bounds of R8's plan for 6 points and none", [reference.day_bound(Plan(HALTON, (2, 3)), size) for size in (6, 0)], [21, 2])
    for _ in range(12):
        plan, size = plans.random_plan(rng), rng.randint(700, 1400)
        for n, *row in reference.day_points(plan, 0, size):
            same_answer(f"plan {plan}, index {n}", library.point(plans.bytes_of(plan), n), "reference", (0, reference.written(row)))
        tally["day-set points"] += size
    for _ in range(300):
        tally["day-set counts"] += same_day_count(plans.random_plan(rng), rng.choice((0, 1, rng.randint(0, 60))), rng)
    return tally


def same_day_count(plan, size, rng):
    """S is how many points lie below every cut; on the Halton families it is less than the bound away from N times the volume."""
    cuts = windows.random_day_cuts(rng, plan, size)
    limits = [Fraction(*cut) for cut in cuts]
    inside, bound = reference.day_count_inside(plan, size, cuts), reference.day_bound(plan, size)
    question = f"plan {plan}, {size} points, cuts {cuts}"
    agree(question, inside, sum(all(x < limit for x, limit in zip(here, limits)) for here in fractions(plan, size)))
    if plan.family != SOBOL:
        near(question, inside, size, cuts, bound)
    return 1
