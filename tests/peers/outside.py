"""The outside implementations: Boost and GSL through peers.cpp, which names their limits, scipy, and octave-stk. All answers are rows of exact
numerators.

Scipy's van der Corput numbers start at any index. Its Sobol engine reaches an index by stepping, and its Halton engine by drawing all before.
Octave-stk's Halton points with Kocis and Whiten's permutations have the first primes as their bases; they are drawn from index 0 on."""
import ctypes
import subprocess
import warnings
from functools import lru_cache

import numpy
from scipy.stats import _qmc

import reference
from reference import SOBOL_DENOMINATOR

GSL_SOBOL_DENOMINATOR = 2**30
PRIMES = (2, 3, 5, 7, 11, 13)
STK_BASES = [base for base in range(2, 257) if all(base % divisor for divisor in range(2, base))]
STK_INDEXES = 2**18  # beyond b^2 in every base


class Outside:
    def __init__(self, path):
        self.peers = ctypes.CDLL(path)
        self.peers.boost_sobol.restype = None

    def boost_sobol(self, axes, first, count):
        """Boost's points for a plan's axes. Its own first axis stands for one of degree 0."""
        table = [axis for axis in axes if axis.degree > 0]
        polynomials, m = (ctypes.c_uint32 * 6)(), (ctypes.c_uint32 * 72)()
        for n, axis in enumerate(table):
            polynomials[n] = int("1" + "".join(map(str, axis.coefficients)) + "1", 2)
            m[12 * n : 12 * n + axis.degree] = axis.m
        width = len(table) + 1
        out = (ctypes.c_uint32 * (width * count))()
        self.peers.boost_sobol(ctypes.c_size_t(width), polynomials, m, ctypes.c_uint32(first), ctypes.c_size_t(count), out)
        columns = [table.index(axis) + 1 if axis.degree > 0 else 0 for axis in axes]
        return [tuple(out[width * i + column] for column in columns) for i in range(count)]

    def gsl_sobol(self, first, count):
        scale = SOBOL_DENOMINATOR // GSL_SOBOL_DENOMINATOR
        return [tuple(scale * x for x in row) for row in exact_rows(self.gsl(False, first, count), [GSL_SOBOL_DENOMINATOR] * 6)]

    def gsl_halton(self, first, count):
        return exact_rows(self.gsl(True, first, count), denominators(PRIMES))

    def gsl(self, halton, first, count):
        out = numpy.empty((count, 6))
        failed = self.peers.gsl_points(
            ctypes.c_int(halton), ctypes.c_size_t(first), ctypes.c_size_t(count), out.ctypes.data_as(ctypes.c_void_p)
        )
        if failed:
            raise MemoryError("gsl_qrng_alloc")
        return out


def van_der_corput(bases, first, count):
    """Scipy's van der Corput numbers in each base."""
    columns = [_qmc.van_der_corput(count, base, start_index=first) for base in bases]
    return exact_rows(numpy.transpose(columns), denominators(bases))


def scipy_sobol(first, count):
    return exact_rows(scipy_points(_qmc.Sobol(6, scramble=False, bits=32), first, count), [SOBOL_DENOMINATOR] * 6)


def scipy_halton(first, count):
    return exact_rows(scipy_points(_qmc.Halton(6, scramble=False), first, count), denominators(PRIMES))


def scipy_points(engine, first, count):
    with warnings.catch_warnings():
        warnings.simplefilter("ignore", UserWarning)  # scipy warns of counts that are no power of 2
        return (engine.fast_forward(first) if first > 0 else engine).random(count)


def stk_halton(bases, first, count):
    """Octave-stk's points in prime bases, for indexes below STK_INDEXES."""
    columns = [stk_fractions()[base][first : first + count] for base in bases]
    return exact_rows(numpy.transpose(columns), denominators(bases))


@lru_cache(maxsize=None)
def stk_fractions():
    """The fractions of all indexes by base, from one run of Octave, which writes them column by column."""
    script = f"pkg load stk; fwrite(stdout, double(stk_sampling_halton_rr2({STK_INDEXES}, {len(STK_BASES)})), 'double');"
    command = ["octave-cli", "--norc", "--no-history", "--eval", script]
    written = subprocess.run(command, stdout=subprocess.PIPE, check=True).stdout
    return dict(zip(STK_BASES, numpy.frombuffer(written).reshape(len(STK_BASES), STK_INDEXES)))


def denominators(bases):
    return [base ** reference.depth(base) for base in bases]


def exact_rows(fractions, below):
    """The numerators of fractions in floating point. Their error, some 40 units of 2^-53, times a denominator below 2^41 is less than 1/64, so
    that the nearest integer is the numerator; a fraction further off is an error of its own."""
    scaled = fractions * numpy.array(below, dtype=float)
    nearest = numpy.rint(scaled)
    if numpy.abs(scaled - nearest).max() > 1 / 64:
        raise ArithmeticError("a fraction that is no multiple of its denominator's inverse")
    return [tuple(row) for row in nearest.astype(numpy.int64).tolist()]
