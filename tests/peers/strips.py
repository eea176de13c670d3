"""The reference's counts by strips, held to its own walk on short runs, which have a start for each axis, and to the C count, which walks, on
longer ones with one start; and to the bound."""
from collections import Counter

import plans
import reference
import windows
from reference import HALTON_FAMILIES
from verdict import agree, near, same_answer


def strips(library, peers, rng):
    """Random plans of the Halton families, runs and windows."""
    tally = Counter()
    lengths = [rng.randint(0, 60) for _ in range(500)] + [rng.randint(0, 3) for _ in range(100)] + [rng.randint(8192, 9000) for _ in range(6)]
    for count in lengths:
        tally["counts by strips"] += same_short_count(count, rng)
    for _ in range(250):
        tally["counts by strips"] += same_long_count(library, rng)
    return tally


def random_plan(rng):
    return plans.random_plan(rng, rng.choice(HALTON_FAMILIES))


def same_short_count(count, rng):
    """A run that is walked beside."""
    plan = random_plan(rng)
    starts = plans.random_starts(rng, plan, count)
    cuts = windows.random_cuts(rng, plan, starts, count) if count < 100 else windows.strip_cuts(rng, plan, starts, count, 20000)
    inside, question = reference.count_by_strips(plan, starts, count, cuts), f"plan {plan}, starts {starts}, count {count}, cuts {cuts}"
    agree(question, inside, reference.count_inside(plan, starts, count, cuts))
    near(question, inside, count, cuts, reference.bound(plan, count))
    return 1


def same_long_count(library, rng):
    """A run of up to a million points."""
    count = rng.randint(300, rng.choice((20000, 1000000)))
    plan = random_plan(rng)
    start = plans.random_start(rng, count, rng.choice(plan.axes))
    starts = reference.one_start(plan, start)
    cuts = windows.strip_cuts(rng, plan, starts, count, 20000)
    question = plans.bytes_of(plan), start, count, windows.window_bytes(cuts), 16
    written = reference.written((reference.count_by_strips(plan, starts, count, cuts), reference.bound(plan, count)))
    same_answer(windows.text(question), library.count(*question), "reference", (0, written))
    return 1
