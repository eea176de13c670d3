"""Random plans, and byte strings that are plans or nearly so."""
from functools import lru_cache
from itertools import product
from math import gcd

import reference
from reference import FAMILIES, SOBOL, Axis, Plan


def pack(fields):
    """The bytes of fields (value, width), most significant bit first, the last byte filled with zeros."""
    bits = "".join(f"{value:0{width}b}" for value, width in fields if width > 0)
    bits += "0" * (-len(bits) % 8)
    return bytes(int(bits[i : i + 8], 2) for i in range(0, len(bits), 8))


def fields_of(plan):
    fields = [(plan.family, 2), (len(plan.axes), 3)]
    for axis in plan.axes:
        fields += axis_fields(plan.family, axis)
    return fields


def axis_fields(family, axis):
    if family != SOBOL:
        return [(axis - 1, 8)]
    coefficients = [(a, 1) for a in axis.coefficients]
    return [(axis.degree, 4)] + coefficients + [(m, i) for i, m in enumerate(axis.m, 1)]


def bytes_of(plan):
    return pack(fields_of(plan))


# ---- valid plans


def random_plan(rng, family=None, count=None):
    family = rng.choice(FAMILIES) if family is None else family
    count = rng.randint(1, 6) if count is None else count
    axes = sobol_axes(rng, count) if family == SOBOL else coprime_bases(rng, count)
    return Plan(family, tuple(axes))


def coprime_bases(rng, count):
    bases = []
    while len(bases) < count:
        base = rng.randint(2, rng.choice((16, 256)))
        if all(gcd(base, other) == 1 for other in bases):
            bases.append(base)
    return bases


def sobol_axes(rng, count):
    axes = []
    while len(axes) < count:
        axis = sobol_axis(rng, rng.randint(0, 12))
        if all(axis[:2] != other[:2] for other in axes):
            axes.append(axis)
    return axes


def sobol_axis(rng, degree):
    m = tuple(rng.randrange(1, 2**i, 2) for i in range(1, degree + 1))
    return Axis(degree, rng.choice(primitive_coefficients(degree)), m)


@lru_cache(maxsize=None)
def primitive_coefficients(degree):
    """Those of all primitive polynomials of a degree, and none for degree 0."""
    every = product((0, 1), repeat=max(degree - 1, 0))
    return [coefficients for coefficients in every if degree == 0 or reference.is_primitive(degree, coefficients)]


# ---- byte strings


def strings(rng):
    """Random strings, the empty one, all of one byte, and many of two."""
    for _ in range(32000):
        yield random_string(rng)
    yield b""
    yield from (bytes([byte]) for byte in range(256))
    yield from (bytes(divmod(number, 256)) for number in rng.sample(range(65536), 16000))


def kocis_heads():
    """Each byte of family 3 alone, with the number that refuses it: 3 for no axes and for seven, and else 1, since their bases are missing."""
    return [(bytes([byte]), 3 if byte >> 3 & 7 in (0, 7) else 1) for byte in range(0xC0, 0x100)]


def random_string(rng):
    """A plan's bytes, or bytes that are near a plan's, or any bytes."""
    kind = rng.choice((valid, flipped, flipped, changed, changed, cut, cut_and_changed, extended, filled, doubled, any_bytes, any_axes))
    return kind(rng)


def valid(rng):
    return bytes_of(random_plan(rng))


def flipped(rng):
    """One to three bits are flipped."""
    data = bytearray(valid(rng))
    for _ in range(rng.randint(1, 3)):
        data[rng.randrange(len(data))] ^= 1 << rng.randrange(8)
    return bytes(data)


def changed(rng):
    """One field has another value, more often an extreme one."""
    fields = fields_of(random_plan(rng))
    place = rng.randrange(len(fields))
    width = fields[place][1]
    fields[place] = (rng.choice((0, 1, 2**width - 1, rng.randrange(2**width))), width)
    return pack(fields)


def cut(rng):
    data = valid(rng)
    return data[: rng.randrange(len(data))]


def cut_and_changed(rng):
    data = changed(rng)
    return data[: rng.randint(0, len(data))]


def extended(rng):
    return valid(rng) + rng.choice((bytes(rng.randint(1, 3)), rng.randbytes(rng.randint(1, 90))))


def filled(rng):
    """The last bit of the last byte is 1: a filling bit, or the last field's."""
    data = valid(rng)
    return data[:-1] + bytes([data[-1] | 1])


def doubled(rng):
    """An axis has the base or the polynomial of an earlier one."""
    plan = random_plan(rng, count=rng.randint(2, 6))
    axes = list(plan.axes)
    there = rng.randrange(1, len(axes))
    axes[there] = twin(rng, plan.family, axes[rng.randrange(there)])
    return bytes_of(Plan(plan.family, tuple(axes)))


def twin(rng, family, axis):
    if family == SOBOL:
        return axis._replace(m=tuple(rng.randrange(2**i) for i in range(1, axis.degree + 1)))
    return rng.choice([base for base in range(2, 257) if gcd(base, axis) > 1])


def any_bytes(rng):
    return rng.randbytes(rng.choice((rng.randint(0, 8), rng.randint(0, 80))))


def any_axes(rng):
    """Random bytes after a family and a number of axes that is valid."""
    head = rng.choice(FAMILIES) << 6 | rng.randint(1, 6) << 3 | rng.randrange(8)
    return bytes([head]) + rng.randbytes(rng.randint(0, 80))


# ---- indexes


def random_index(rng, base=2):
    """Below 2^32: small, about a power of the base, about the end, or anything."""
    power = base ** rng.randint(0, reference.depth(base) - 1)
    near = rng.choice((rng.randrange(1000), power * rng.randint(1, base) + rng.randint(-2, 2), 2**32 - rng.randint(1, 9)))
    anything = rng.randrange(2 ** rng.randint(1, 32))
    return min(max(rng.choice((near, anything, rng.randrange(2**32))), 0), 2**32 - 1)


def random_start(rng, count, base=2):
    """Of a run of so many points: 0, any index, or the last that leaves room for them."""
    return min(rng.choice((0, random_index(rng, base), 2**32 - count)), 2**32 - count)


def random_starts(rng, plan, count):
    """A start for each axis: one for all, as those of a Sobol plan have it, or each its own."""
    if plan.family == SOBOL or rng.random() < 0.3:
        return reference.one_start(plan, random_start(rng, count))
    return tuple(random_start(rng, count, base) for base in plan.axes)
