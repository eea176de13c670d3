"""Compares the C calls with outside implementations and with reference.py, and then makes sure that wrong calls would be noticed.

Usage: compare.py LIBHISOWAKE.SO LIBPEERS.SO SEED. The first disagreement is printed, and ends the run with 1."""
import random
import sys
import time
from collections import Counter
from fractions import Fraction
from functools import partial

import outside
import plans
import reference
import windows
from day_sets import day_sets
from library import Careless, Library, WrongCount, WrongPoint, WrongRefusal
from reference import HALTON, KOCIS, PERMUTED, READING_REFUSALS, SOBOL, Plan
from strips import strips
from verdict import Disagreement, agree, same_answer

BASES = range(2, 257)
# the first six axes of Bratley and Fox, of Joe and Kuo, and of the primes
BRATLEY_FOX = bytes.fromhex("b00cb4dfceb50f22")
JOE_KUO = bytes.fromhex("b00cbcde4ea50d66")
PRIMES = plans.bytes_of(Plan(HALTON, outside.PRIMES))
# what document 001 prints of Kocis and Whiten's permutations: those of two bases, the indexes 1 to 6 in base 7, and kwscrhalton[3, 7]
KW = {10: "0 8 4 2 6 1 9 5 3 7", 31: "0 16 8 24 4 20 12 28 2 18 10 26 6 22 14 30 1 17 9 25 5 21 13 29 3 19 11 27 7 23 15"}
KW_BASE_7 = "4/7 2/7 6/7 1/7 5/7 3/7"
KW_INDEX_3 = {2: "3/4", 3: "2/9", 5: "1/5", 7: "6/7", 11: "2/11", 13: "12/13", 17: "4/17"}


def same_points(library, peer, data, first, rows):
    """Compares the points of the indexes from `first` on with a peer's rows; how many they were."""
    for index, row in enumerate(rows, first):
        same_answer(f"plan {data.hex()}, index {index}", library.point(data, index), peer, (0, reference.written(row)))
    return len(rows)


def run_at(rng, count, base=2):
    """The first index of a run of this many points, at 1 or above."""
    return min(max(plans.random_index(rng, base), 1), 2**32 - count)


# ---- the parts: each compares, and answers how many of what it compared


def boost(library, peers, rng):
    """Random Sobol plans with Boost's engine over the same table: jumps, and three steps after each."""
    tally = Counter()
    for turn in range(420):
        plan = plans.random_plan(rng, SOBOL, 1 + turn % 6)
        for first in [1, 2**32 - 4] + [run_at(rng, 4) for _ in range(36)]:
            tally["points"] += same_points(library, "Boost", plans.bytes_of(plan), first, peers.boost_sobol(plan.axes, first, 4))
    return tally


def van_der_corput(library, peers, rng):
    """Plain Halton with scipy's van der Corput numbers: every base alone, and random plans."""
    tally = Counter()
    singles = [Plan(HALTON, (base,)) for base in BASES]
    for plan in singles + [plans.random_plan(rng, HALTON) for _ in range(300)]:
        data = plans.bytes_of(plan)
        tally["points"] += same_points(library, "scipy", data, 0, outside.van_der_corput(plan.axes, 0, 40))
        for first in [2**32 - 4] + [run_at(rng, 4, rng.choice(plan.axes)) for _ in range(30)]:
            tally["points"] += same_points(library, "scipy", data, first, outside.van_der_corput(plan.axes, first, 4))
    return tally


def first_axes(library, peers, rng):
    """The first six axes that GSL and scipy have tables for: from the start, and after as many steps as there is time for."""
    generators = (
        ("GSL's Sobol", BRATLEY_FOX, peers.gsl_sobol, 1, 2**21),
        ("GSL's Halton", PRIMES, peers.gsl_halton, 1, 2**19),
        ("scipy's Sobol", JOE_KUO, outside.scipy_sobol, 0, 2**24),
        ("scipy's Halton", PRIMES, outside.scipy_halton, 0, 2**19),
    )
    tally = Counter()
    for peer, data, points, begin, end in generators:
        tally["points"] += same_points(library, peer, data, begin, points(begin, 3000))
        for _ in range(3):
            first = rng.randrange(begin, end)
            tally["points"] += same_points(library, peer, data, first, points(first, 1000))
    return tally


def stk(library, peers, rng):
    """Family 3 with octave-stk's points: every prime base alone, all images of a first digit and more, and random plans of prime bases."""
    tally = Counter()
    singles = [Plan(KOCIS, (base,)) for base in outside.STK_BASES]
    for plan in singles + [Plan(KOCIS, tuple(rng.sample(outside.STK_BASES, rng.randint(1, 6)))) for _ in range(200)]:
        data, base = plans.bytes_of(plan), rng.choice(plan.axes)
        tally["points"] += same_points(library, "octave-stk", data, 0, outside.stk_halton(plan.axes, 0, 2 * base))
        for first in [base**2 - 2] + [rng.randint(0, outside.STK_INDEXES - 4) for _ in range(100)]:
            tally["points"] += same_points(library, "octave-stk", data, first, outside.stk_halton(plan.axes, first, 4))
    return tally


def printed_permutations():
    """The reference has what document 001 prints."""
    for base, images in KW.items():
        agree(f"document 001, base {base}", reference.images(KOCIS, base), tuple(map(int, images.split())))
    printed = [(7, index, fraction) for index, fraction in enumerate(KW_BASE_7.split(), 1)]
    for base, index, fraction in printed + [(base, 3, fraction) for base, fraction in KW_INDEX_3.items()]:
        plan = Plan(KOCIS, (base,))
        here = Fraction(*reference.point(plan, index), *reference.denominators(plan))
        agree(f"document 001, base {base}, index {index}", here, Fraction(fraction))


def reference_points(library, peers, rng):
    """Both permuted Halton families in every base, and random plans of every family."""
    tally = Counter()
    printed_permutations()
    permuted = PERMUTED, KOCIS
    chosen = [Plan(family, (base,)) for family in permuted for base in BASES] * 2
    chosen += [plans.random_plan(rng, family) for family in permuted for _ in range(400)] + [plans.random_plan(rng) for _ in range(200)]
    for plan in chosen:
        data = plans.bytes_of(plan)
        base = 2 if plan.family == SOBOL else rng.choice(plan.axes)
        for index in [0, 2**32 - 1] + [plans.random_index(rng, base) for _ in range(22)]:
            tally["points"] += same_points(library, "reference", data, index, [reference.point(plan, index)])
    return tally


def plan_strings(library, peers, rng):
    """Byte strings that are plans, nearly plans or anything, to both calls. None gives 2, and a byte of family 3 alone gives 1 or 3."""
    tally, met = Counter(), Counter()
    for data, code in plans.kocis_heads():
        same_answer(f"plan {data.hex()}", library.point(data, 0), "K5", (code, b""))
        same_answer(f"plan {data.hex()}", library.count(data, 0, 0, b""), "K5", (code, b""))
    for data in plans.strings(rng):
        index = rng.choice((rng.randrange(2**32), rng.randrange(2**32), rng.randrange(2**64), 2**32 - 1, 2**32))
        room = rng.choice((48, 48, 64, rng.randint(0, 64)))
        answer = reference.point_call(data, index, room)
        same_answer(f"plan {data.hex()}, index {index}, room {room}", library.point(data, index, room), "reference", answer)
        tally["plan byte strings"] += 1
        tally["points"] += answer[0] == 0
        met[answer[0]] += 1
        tally["window counts"] += same_count(library, windows.short_question(rng, data), met)
    all_met(met, [0, *READING_REFUSALS, 11, 13])
    return tally


def window_counts(library, peers, rng):
    """Random windows over random runs, of all families; refusals; long runs, where the window takes all or nothing."""
    tally, met = Counter(), Counter()
    for question in windows.questions(rng):
        tally["window counts"] += same_count(library, question, met)
    for question, answer in windows.long_questions(rng):
        same_answer(windows.text(question), library.count(*question), "reference", answer)
        tally["window counts"] += 1
    all_met(met, [0, 1, 11, 13, 14])
    return tally


def same_count(library, question, met):
    answer = reference.count_call(*question)
    same_answer(windows.text(question), library.count(*question), "reference", answer)
    met[answer[0]] += 1
    return 1


def all_met(met, codes):
    """The random questions met each of these answers many times, and no other."""
    for code in codes:
        if met[code] < 20:
            raise Disagreement(f"the answer {code} was only met {met[code]} times")
    if set(met) != set(codes):
        raise Disagreement(f"the answers {sorted(met)} were met, and not {codes} alone")


# ---- the run

READING = [partial(WrongRefusal, call=call, number=number) for call in ("point", "count") for number in READING_REFUSALS]
POINT = [partial(WrongRefusal, call="point", number=number) for number in (11, 13)]
COUNT = [partial(WrongRefusal, call="count", number=number) for number in (11, 13, 14)]
NUMBERS = [partial(WrongCount, place=place) for place in (7, 15, 16)]

# the parts, each with wrong libraries that it has to notice
PARTS = (
    ("Boost, Sobol", boost, [WrongPoint]),
    ("scipy, van der Corput", van_der_corput, [WrongPoint]),
    ("GSL and scipy, first six axes", first_axes, [WrongPoint]),
    ("octave-stk, Kocis and Whiten", stk, [WrongPoint]),
    ("reference, points", reference_points, [WrongPoint]),
    ("reference, plan bytes", plan_strings, [Careless] + READING + POINT),
    ("reference, windows", window_counts, [Careless] + NUMBERS + COUNT),
    ("reference, day sets", day_sets, [WrongPoint]),
    ("reference, strips", strips, NUMBERS[:1]),
)


def described(tally):
    return ", ".join(f"{number:,} {what}" for what, number in tally.items())


def compare_all(library, peers, seed):
    total = Counter()
    for name, part, _ in PARTS:
        begin = time.monotonic()
        try:
            tally = part(library, peers, random.Random(f"{seed} {name}"))
        except Disagreement as disagreement:
            sys.exit(f"peers: {name} (seed {seed}): {disagreement}")
        print(f"peers: {name}: {described(tally)} ({time.monotonic() - begin:.0f} s)", flush=True)
        total += tally
    return total


def notices(part, library, peers, rng):
    try:
        part(library, peers, rng)
    except Disagreement:
        return True
    return False


def wrong_libraries_noticed(library, peers, seed):
    """How many wrong libraries there are; one that goes unnoticed ends the run."""
    noticed = 0
    for name, part, makers in PARTS:
        for number, wrong in enumerate(makers):
            if not notices(part, wrong(library), peers, random.Random(f"{seed} {name}")):
                sys.exit(f"peers: {name} (seed {seed}): wrong library {number} goes unnoticed")
            noticed += 1
    return noticed


def main():
    library, peers, seed = Library(sys.argv[1]), outside.Outside(sys.argv[2]), sys.argv[3]
    print(f"peers: seed {seed}", flush=True)
    begin = time.monotonic()
    total = compare_all(library, peers, seed)
    noticed = wrong_libraries_noticed(library, peers, seed)
    print(f"peers: {described(total)} agree, {noticed} wrong libraries noticed ({time.monotonic() - begin:.0f} s)")


main()
