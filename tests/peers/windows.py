"""Random questions to the window count: plan bytes, start, count, window bytes and the room for the answer."""
from math import prod

import plans
import reference
from reference import HALTON_FAMILIES, SOBOL


def text(question):
    data, start, count, window, room = question
    return f"plan {data.hex()}, start {start}, count {count}, window {window.hex()}, room {room}"


def window_bytes(cuts):
    return b"".join(u.to_bytes(4, "big") + q.to_bytes(4, "big") for u, q in cuts)


def questions(rng):
    """Runs of every length with several windows each, some of them refused."""
    lengths = [rng.randint(0, 300) for _ in range(560)] + [rng.randint(0, 4) for _ in range(60)] + [rng.randint(2000, 9000) for _ in range(14)]
    for count in lengths:
        plan, start = plans.random_plan(rng), plans.random_start(rng, count)
        for _ in range(8):
            yield plans.bytes_of(plan), start, count, random_window(rng, plan, start, count), rng.choice((16, 16, 64))
        for _ in range(3):
            yield refused(rng, plan, start, min(count, 300))


def random_window(rng, plan, start, count):
    """The bytes of a window over a run with one start."""
    return window_bytes(random_cuts(rng, plan, reference.one_start(plan, start), count))


def random_cuts(rng, plan, starts, count):
    """Cuts about a point of the run."""
    here = reference.run_point(plan, starts, rng.randrange(count)) if count > 0 else (0,) * len(plan.axes)
    bases = [2] * len(plan.axes) if plan.family == SOBOL else plan.axes
    return [random_cut(rng, *axis) for axis in zip(bases, reference.denominators(plan), here)]


def random_day_cuts(rng, plan, size):
    """Cuts of which the leading one takes some 300 points at most."""
    few = min(size, 300)
    if few == size:
        leading = random_cut(rng, max(size, 2), max(size, 1), rng.randrange(max(size, 1)))
    else:
        q = rng.choice((rng.randint(1, 2**24), 2**24))
        leading = rng.randint(0, few * q // size), q
    return [leading] + random_cuts(rng, plan, reference.one_start(plan, 0), few)


def strip_cuts(rng, plan, starts, count, most):
    """Cuts with so many combinations of strips at most: the axes with the most strips get cuts of few digits."""
    cuts = random_cuts(rng, plan, starts, count)
    while True:
        numbers = [len(reference.strips(base, reference.images(plan.family, base), cut)) for base, cut in zip(plan.axes, cuts)]
        if prod(max(number, 1) for number in numbers) <= most:
            return cuts
        place = numbers.index(max(numbers))
        q = plan.axes[place] ** rng.randint(0, 2)
        cuts[place] = rng.randint(0, q), q


def random_cut(rng, base, denominator, x):
    """A cut u / q: at the point x or just beside it, at an end, or anywhere."""
    powers = [base**j for j in range(25) if base**j <= 2**24]
    q = rng.choice((rng.choice(powers), powers[-1], rng.randint(1, 12), rng.randint(1, 2**24), 2**24))
    at = x * q // denominator
    u = rng.choice((at, at + 1, 0 if rng.random() < 0.1 else q, rng.randint(0, q), q - rng.randint(0, q) // 4))
    return u, q


def refused(rng, plan, start, count):
    """A question with one or two things wrong, or with none by chance."""
    data, window, room = plans.bytes_of(plan), random_window(rng, plan, start, count), 16
    for wrong in rng.sample(("plan", "run", "window", "room"), rng.randint(1, 2)):
        if wrong == "plan":
            data = plans.cut(rng)
        elif wrong == "run":
            start, count = wrong_run(rng)
        elif wrong == "window":
            window = wrong_window(rng, window)
        else:
            room = rng.randint(0, 15)
    return data, start, count, window, room


def wrong_run(rng):
    """A start and a count about the limit, or far beyond, so that a sum of 64 bits wraps."""
    count = rng.randint(0, 3)
    return rng.choice(((2**32 - count + rng.randint(0, 1), count), (2**64 - 1, rng.randint(0, 2)), (count, 2**64 - 1), (2**63, 2**63)))


def wrong_window(rng, window):
    place = 8 * rng.randrange(len(window) // 8)
    q = int.from_bytes(window[place + 4 : place + 8], "big")
    cut = rng.choice(((q + 1, q), (0, 0), (1, 2**24 + 1), (2**32 - 1, 2**32 - 1), (0, rng.randrange(2**32)), (rng.randrange(2**32), q)))
    changed = window[:place] + window_bytes([cut]) + window[place + 8 :]
    return rng.choice((changed, changed, window[:-1], window[:-8], window + b"\0", window + window[:8], b""))


def short_question(rng, data):
    """A question about a plan's bytes, whatever they are: a few points, a window for as many axes as they claim, all else right."""
    count = rng.randint(0, 3)
    cuts = [(rng.randint(0, q), q) for q in (rng.randint(1, 2**24) for _ in range(axes_claimed(data)))]
    return data, rng.randrange(2**32 - count), count, window_bytes(cuts), 16


def axes_claimed(data):
    return data[0] >> 3 & 7 if data else 0


def long_questions(rng):
    """Long runs, about a power of a base, with the answer: u = q on every axis takes all, and u = 0 on one takes nothing."""
    for _ in range(60):
        plan = plans.random_plan(rng, rng.choice(HALTON_FAMILIES))
        base = rng.choice(plan.axes)
        powers = [base**j for j in range(1, 20) if base**j < 400000]
        count = rng.choice(powers) + rng.randint(-1, 1)
        start = min(plans.random_index(rng, base), 2**32 - count)
        cuts = [(q, q) for q in (rng.randint(1, 2**24) for _ in plan.axes)]
        inside = rng.choice((0, count))
        if inside == 0:
            place = rng.randrange(len(cuts))
            cuts[place] = (0, cuts[place][1])
        written = reference.written((inside, reference.bound(plan, count)))
        yield (plans.bytes_of(plan), start, count, window_bytes(cuts), 16), (0, written)
