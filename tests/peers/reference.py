"""Plans, points, runs, window counts and day sets in plain Python, written from the papers alone: the scope document 01, K1, K2, K4, K5 and K6 of
the change requests 02, and the source documents 001 (Faure's and Kocis and Whiten's permutations), 002 and 004 (van der Corput, Halton, Hammersley)
and 003 (Sobol). It shares nothing with the crates, and is slow on purpose. A run has a tuple of starts, one for each axis."""
from collections import namedtuple
from functools import lru_cache
from itertools import takewhile
from math import gcd

INDEXES = 2**32
HALTON, PERMUTED, SOBOL, KOCIS = FAMILIES = 0, 1, 2, 3
HALTON_FAMILIES = HALTON, PERMUTED, KOCIS
SOBOL_DENOMINATOR = 2**32
READING_REFUSALS = 1, 3, 4, 5, 6, 7, 8, 9, 10  # of a plan's bytes; since K5 there is no 2

# axes: the bases of a Halton plan, or the Axis of each Sobol axis
Plan = namedtuple("Plan", "family axes")
# coefficients: a_1 to a_(d-1); m: m_1 to m_d
Axis = namedtuple("Axis", "degree coefficients m")


class Refused(Exception):
    """A refusal, with its number of 01's table."""

    def __init__(self, number):
        super().__init__(number)
        self.number = number


def refuse_if(condition, number):
    if condition:
        raise Refused(number)


# ---- plan bytes


class Fields:
    """The fields of a byte string, most significant bit first."""

    def __init__(self, data):
        self.bits = "".join(f"{byte:08b}" for byte in data)
        self.place = 0

    def take(self, width):
        refuse_if(self.place + width > len(self.bits), 1)
        field = self.bits[self.place : self.place + width]
        self.place += width
        return int(field or "0", 2)

    def end(self):
        """What is left fills the last byte with zeros."""
        rest = self.bits[self.place :]
        refuse_if(len(rest) >= 8 or "1" in rest, 10)


@lru_cache(maxsize=4096)
def read(data):
    """The plan of a byte string."""
    fields = Fields(data)
    family = fields.take(2)
    count = fields.take(3)
    refuse_if(count in (0, 7), 3)
    read_axis = read_sobol_axis if family == SOBOL else read_base
    axes = []
    for _ in range(count):
        axes.append(read_axis(fields, axes))
    fields.end()
    return Plan(family, tuple(axes))


def read_base(fields, earlier):
    base = fields.take(8) + 1
    refuse_if(base == 1, 4)
    refuse_if(any(gcd(base, other) != 1 for other in earlier), 5)
    return base


def read_sobol_axis(fields, earlier):
    degree = fields.take(4)
    refuse_if(degree > 12, 6)
    coefficients = tuple(fields.take(1) for _ in range(degree - 1))
    refuse_if(degree >= 1 and not is_primitive(degree, coefficients), 7)
    refuse_if(any((degree, coefficients) == other[:2] for other in earlier), 9)
    return Axis(degree, coefficients, tuple(read_odd(fields, i) for i in range(1, degree + 1)))


def read_odd(fields, width):
    m = fields.take(width)
    refuse_if(m % 2 == 0, 8)
    return m


@lru_cache(maxsize=None)
def is_primitive(degree, coefficients):
    """Whether the least e above 0 for which x^d + a_1 x^(d-1) + .. + 1 divides x^e - 1 is 2^d - 1. Every e is tried in turn."""
    polynomial = int("1" + "".join(map(str, coefficients)) + "1", 2)
    e, power = 0, 1  # x^e reduced
    while e == 0 or power != 1:
        e, power = e + 1, power << 1
        if power >> degree:
            power ^= polynomial
    return e == 2**degree - 1


# ---- points


@lru_cache(maxsize=None)
def depth(base):
    """The least k with base^k at or above 2^32."""
    k = 0
    while base**k < INDEXES:
        k += 1
    return k


def denominators(plan):
    return [SOBOL_DENOMINATOR if plan.family == SOBOL else axis ** depth(axis) for axis in plan.axes]


def mirrored(base, k, index, image):
    """The sum of image(a_j) b^(k-1-j), with a_j the k digits of the index, lowest first."""
    return sum(image[index // base**j % base] * base ** (k - 1 - j) for j in range(k))


def halton_numerator(base, index, image):
    return mirrored(base, depth(base), index, image)


@lru_cache(maxsize=None)
def faure(digit, base):
    """The image of a digit under Faure's permutation, as document 001 defines it."""
    if base == 2:
        return digit
    half = base // 2
    if base % 2 == 0:
        return 2 * faure(digit, half) if digit < half else 2 * faure(digit - half, half) + 1
    if digit == half:
        return half
    r = faure(digit, base - 1) if digit < half else faure(digit - 1, base - 1)
    return r if r < half else r + 1


def kocis(base):
    """The images under Kocis and Whiten's permutation, as document 001 lists them: the base-2 van der Corput numbers of 0 to 2^d - 1 times 2^d,
    with the least d for which 2^d is the base or more, and those at or above the base dropped."""
    d = digit_count(2, base - 1)
    listed = [mirrored(2, d, n, (0, 1)) for n in range(2**d)]
    return tuple(number for number in listed if number < base)


@lru_cache(maxsize=None)
def images(family, base):
    """The images of the digits 0 to base - 1."""
    if family == KOCIS:
        return kocis(base)
    return tuple(faure(digit, base) if family == PERMUTED else digit for digit in range(base))


@lru_cache(maxsize=1024)
def direction_numbers(axis):
    """v_1 to v_32 of a Sobol axis."""
    degree, coefficients, m = axis[0], axis[1], list(axis[2])
    if degree == 0:
        m = [1] * 32
    while len(m) < 32:
        term = 2**degree * m[-degree] ^ m[-degree]
        for i, a in enumerate(coefficients, 1):
            term ^= 2**i * a * m[-i]
        m.append(term)
    return tuple(m[i - 1] * 2 ** (32 - i) for i in range(1, 33))


def sobol_numerator(axis, index):
    """The direction numbers at the ones of index xor (index >> 1)."""
    gray, x = index ^ index >> 1, 0
    for i, v in enumerate(direction_numbers(axis)):
        if gray >> i & 1:
            x ^= v
    return x


def numerator(family, axis, index):
    return sobol_numerator(axis, index) if family == SOBOL else halton_numerator(axis, index, images(family, axis))


def point(plan, index):
    """The point of an index, which every axis reads."""
    return tuple(numerator(plan.family, axis, index) for axis in plan.axes)


def second(plan, index):
    """The second of the day, by the scope's words: the whole part of the first axis's fraction x 86,400."""
    return point(plan, index)[0] * 86400 // denominators(plan)[0]


def slot(plan, index, axis, slots):
    """The whole part of the axis's fraction x slots, axes being counted from 1."""
    refuse_if(not 1 <= axis <= len(plan.axes) or not 1 <= slots <= 2**24, 16)
    return point(plan, index)[axis - 1] * slots // denominators(plan)[axis - 1]


# ---- runs


def one_start(plan, start):
    """One start for all axes."""
    return (start,) * len(plan.axes)


def refuse_run(plan, starts, count):
    """Refuses a run if a start given is out of range, and then if there is not one for each axis, which those of a Sobol plan share."""
    refuse_if(any(start + count > INDEXES for start in starts), 11)
    refuse_if(len(starts) != len(plan.axes) or plan.family == SOBOL and len(set(starts)) > 1, 17)


def run_point(plan, starts, step):
    """The point of a step, the first being number 0: each axis reads its own index, its start plus the step's number."""
    return tuple(numerator(plan.family, axis, start + step) for axis, start in zip(plan.axes, starts))


def next_sobol_point(plan, index, here):
    """The point after that of `index`: xor v_c, c the place of the rightmost zero bit of `index`."""
    c = 1
    while index >> (c - 1) & 1:
        c += 1
    return tuple(x ^ direction_numbers(axis)[c - 1] for x, axis in zip(here, plan.axes))


@lru_cache(maxsize=4)
def run_points(plan, starts, first, count):
    """The points of so many steps from step `first` on: Halton's one by one, Sobol's by the stepping rule, since its axes share one start."""
    steps = range(first, first + count)
    if plan.family != SOBOL:
        return [run_point(plan, starts, step) for step in steps]
    points = []
    for step in steps:
        points.append(next_sobol_point(plan, starts[0] + step - 1, points[-1]) if points else run_point(plan, starts, step))
    return points


# ---- windows


def digit_count(base, n):
    """The least K with base^K above n."""
    k = 0
    while base**k <= n:
        k += 1
    return k


def bound(plan, count):
    if plan.family == SOBOL:
        return 0
    product = 1
    for base in plan.axes:
        product *= digit_count(base, count) * (base - 1) + 1
    return product


def inside(plan, points, cuts):
    """How many of the points have numerator x q below u x denominator on every axis."""
    tests = [(q, u * d) for (u, q), d in zip(cuts, denominators(plan))]
    return sum(all(x * q < limit for x, (q, limit) in zip(here, tests)) for here in points)


def count_inside(plan, starts, count, cuts):
    return inside(plan, run_points(plan, starts, 0, count), cuts)


# ---- counting by strips, on the Halton families


def strips(base, image, cut):
    """The strips of a cut u / q, each as the modulus and the residue of its indexes: for each digit of the cut the strips with the cut's digits
    before it and a smaller digit there, and at last the one with all of the cut's digits, if it starts below the cut."""
    u, q = cut
    if u == q:
        return [(1, 0)]
    found, modulus, residue = [], 1, 0
    digits = sorted(range(base), key=image.__getitem__)  # by their images
    for _ in range(depth(base)):
        own, u = divmod(u * base, q)
        found += [(modulus * base, residue + modulus * digit) for digit in digits[:own]]
        modulus, residue = modulus * base, residue + modulus * digits[own]
    return found + [(modulus, residue)] * (u > 0)


@lru_cache(maxsize=65536)
def inverse(x, modulus):
    return pow(x, -1, modulus)


def common(one, other):
    """The class of both residues, by the Chinese remainder theorem: the moduli have no common factor."""
    (m, x), (n, y) = one, other
    return m * n, x + m * ((y - x) * inverse(m, n) % n)


def count_by_strips(plan, starts, count, cuts):
    """The same count over the combinations of a strip of each axis: how many steps below `count` each has. A combination without one is dropped
    as soon as it is known, since the class of more axes starts no earlier."""
    classes = [(1, 0)]
    for base, start, cut in zip(plan.axes, starts, cuts):
        steps = [(m, (residue - start) % m) for m, residue in strips(base, images(plan.family, base), cut)]
        both = (common(known, strip) for known in classes for strip in steps)
        classes = [(m, first) for m, first in both if first < count]
    return sum((count - 1 - first) // m + 1 for m, first in classes)


# ---- windows as they are handed in


def cuts_of(words, axes):
    """The cuts (u, q) of a window's words."""
    refuse_if(len(words) != 2 * axes, 14)
    cuts = list(zip(words[::2], words[1::2]))
    refuse_if(any(not 1 <= q <= 2**24 or u > q for u, q in cuts), 14)
    return cuts


def read_window(plan, window):
    """The cuts of window bytes."""
    refuse_if(len(window) % 4, 14)
    return cuts_of([int.from_bytes(window[i : i + 4], "big") for i in range(0, len(window), 4)], len(plan.axes))


# ---- day sets: document 002's Hammersley set of a size N, the points n / N and the plan's point of index n


def day_points(plan, first, count):
    """The points numbered from `first` on: the numerator n, whose denominator is N, then those of the plan."""
    return [(n, *here) for n, here in enumerate(run_points(plan, one_start(plan, 0), first, count), first)]


def day_count_inside(plan, size, cuts):
    """How many points have n x q below u x N for the first cut and are inside the others. The first cut takes no n after one that it leaves."""
    u, q = cuts[0]
    led = takewhile(lambda n: n * q < u * size, range(size))
    return inside(plan, (point(plan, n) for n in led), cuts[1:])


def day_bound(plan, size):
    return 0 if plan.family == SOBOL else bound(plan, size) + 1


# ---- the C calls: each answers its number, and the bytes that it writes


def written(numbers):
    return b"".join(number.to_bytes(8, "big") for number in numbers)


def point_call(data, index, room):
    try:
        plan = read(data)
        refuse_if(index >= INDEXES, 11)
        refuse_if(room < 8 * len(plan.axes), 13)
        return 0, written(point(plan, index))
    except Refused as refusal:
        return refusal.number, b""


def count_call(data, start, count, window, room):
    try:
        plan = read(data)
        starts = one_start(plan, start)
        refuse_run(plan, starts, count)
        cuts = read_window(plan, window)
        refuse_if(room < 16, 13)
        return 0, written((count_inside(plan, starts, count, cuts), bound(plan, count)))
    except Refused as refusal:
        return refusal.number, b""
