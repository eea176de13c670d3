/*
 * Hisowake: exact low-discrepancy points of a plan, and how many of them are inside a window, for C and C++. Link libhisowake.a, which is for
 * x86-64 and needs nothing but memcpy and memset.
 *
 * Every call answers 0 or the number of a refusal: the first one, in the order that the call lists, whose condition holds. A call that is
 * refused changes no byte. A call that answers 0 writes to the front of `out` and touches nothing beyond what it writes. Numbers in bytes are
 * most significant byte first.
 *
 * No call keeps anything from one call to the next, or allocates. Calls may run at the same time.
 *
 * All this is proved, for every input. What no call can examine, the caller sees to:
 *   - each pointer is valid for its length: `plan` for reading `plan_len` bytes, `window` for reading `window_len` bytes, `out` for reading
 *     and writing `out_len` bytes;
 *   - no buffer that is written overlaps another buffer of the same call, and nothing else changes the buffers meanwhile.
 * A null pointer is fine where its length is 0. Lengths have 64 bits, on a host of 32 bits too.
 *
 * The stack is measured, on x86-64: hisowake_point takes less than 8 KiB and hisowake_window_count less than 16 KiB, for every family and
 * number of axes. In a program that is linked dynamically and binds lazily, the first call takes more, some 3 KiB on Debian 12: the loader looks
 * up memcpy and memset on the same stack. The linker's `-z now` has that done before the program starts.
 *
 * A plan's bytes are fields of bits, most significant first, without gaps. Zero bits fill the last byte, and nothing follows it.
 *
 *   family         2 bits      0 Halton, 1 permuted Halton (Faure's permutations), 2 Sobol, 3 Halton with the permutations of Kocis and Whiten
 *   axes           3 bits      how many axes follow, 1 to 6
 *   a Halton axis  8 bits      base minus 1; bases are 2 to 256, and no two share a factor
 *   a Sobol axis   4 bits      the degree d, 0 to 12; at 0, the plain binary axis, nothing follows
 *                  d - 1 bits  a_1 to a_(d-1) of the polynomial x^d + a_1 x^(d-1) + .. + a_(d-1) x + 1, a bit each; it is primitive, and no
 *                              axis has that of another
 *                  m_1 to m_d  m_i in i bits and odd
 *
 * One plan of each family, as words, field by field, and as bytes. In words a Halton axis is its base, and a Sobol axis is 0, the plain binary
 * one, or its polynomial as a number (x^3 + x + 1 is 8 + 2 + 1, so 11; its a_1 and a_2 are 0 and 1), a colon and its m's.
 *
 *   halton 2 3         00 010 00000001 00000010 000           = 10 08 10
 *   permuted 4 9 25    01 011 00000011 00001000 00011000 000  = 58 18 40 C0
 *   sobol 0 11:1,3,7   10 010 0000 0011 01 1 11 111 000       = 90 1B F8
 *   kocis 227 229      11 010 11100010 11100100 000           = D7 17 20
 */
#ifndef HISOWAKE_H
#define HISOWAKE_H

#include <stdint.h>

/* The version of the calls. */
#define HISOWAKE_VERSION_MAJOR 0
#define HISOWAKE_VERSION_MINOR 2
#define HISOWAKE_VERSION_PATCH 0
#define HISOWAKE_VERSION "0.2.0"

/* Sizes. All but the number of axes are in bytes. */
#define HISOWAKE_AXES_MAX 6    /* the most axes of a plan */
#define HISOWAKE_PLAN_MAX 71   /* the longest plan */
#define HISOWAKE_POINT_MAX 48  /* the longest point: 8 bytes an axis */
#define HISOWAKE_WINDOW_MAX 48 /* the longest window: 8 bytes an axis */
#define HISOWAKE_COUNT_SIZE 16 /* what a window count writes */

#ifdef __cplusplus
extern "C" {
#endif

/*
 * The answers. The numbers 12 (a run has no point left), 15 (a state that no call has left), 16 (a slot count or an axis that is out of range) and
 * 17 (not one start for each axis, or unequal starts of a Sobol plan) belong to the calls on a state, which hosts do not have.
 */
enum hisowake_code {
    HISOWAKE_OK = 0,
    /* of the plan's bytes */
    HISOWAKE_TRUNCATED = 1,           /* the bytes end before a field's last bit */
    HISOWAKE_BAD_FAMILY = 2,          /* never given: all four families are read; it was for family 3 while that was unused */
    HISOWAKE_BAD_AXIS_COUNT = 3,      /* the number of axes is 0 or 7 */
    HISOWAKE_BAD_BASE = 4,            /* a base is 1 */
    HISOWAKE_COMMON_FACTOR = 5,       /* a base is not coprime to an earlier one */
    HISOWAKE_BAD_DEGREE = 6,          /* a degree is above 12 */
    HISOWAKE_NOT_PRIMITIVE = 7,       /* a polynomial of degree 1 or more is not primitive */
    HISOWAKE_EVEN_NUMBER = 8,         /* a given m is even */
    HISOWAKE_REPEATED_POLYNOMIAL = 9, /* a polynomial of an earlier axis again */
    HISOWAKE_TRAILING_DATA = 10,      /* a filling bit is 1, or a byte follows */
    /* of what else is handed in */
    HISOWAKE_OUT_OF_RANGE = 11,       /* the index is 2^32 or more, or start + count is above 2^32 */
    HISOWAKE_BUFFER_TOO_SMALL = 13,   /* `out_len` is less than what is to be written: 8 bytes an axis, or the count's 16 */
    HISOWAKE_BAD_WINDOW = 14          /* `window_len` is not 8 bytes an axis, a q is not 1 to 2^24, or a u is above its q */
};

/*
 * The point of an index, 0 to 4,294,967,295.
 *
 * Writes the numerator of each axis, axis after axis: 8 bytes an axis, most significant first, so 8 to 48 bytes in all. The denominators are
 * the plan's: b^k for a Halton axis of base b, with the least k for which b^k is 2^32 or more, and 2^32 for a Sobol axis. They need no call:
 * examples/denominators.h has this rule as code. An axis may be divided into up to 2^24 equal slots: a point's slot is the whole part of
 * numerator x slots / denominator, and 64 bits hold the product. examples/collector.c picks a second, a meter and a channel so.
 *
 *   plan, plan_len   the plan, at most HISOWAKE_PLAN_MAX bytes
 *   index            any number; 11 from 2^32 up
 *   out, out_len     8 bytes an axis or more; HISOWAKE_POINT_MAX are enough for every plan
 *
 * Refuses, in this order: 1, 3 to 10 as the plan is read, field by field; 11; 13.
 */
uint64_t hisowake_point(const uint8_t *plan, uint64_t plan_len, uint64_t index, uint8_t *out, uint64_t out_len);

/*
 * How many points of a run are inside a window. The run's points are those of the indexes start to start + count - 1; there are none if count
 * is 0. The window has a cut u/q for each axis, and a point is inside if numerator x q is less than u x denominator on every axis. A point
 * that sits on its cut is outside.
 *
 * Writes two numbers, S and the bound, 8 bytes each, most significant first, so 16 bytes in all:
 *   S       how many of the run's points are inside
 *   bound   the product over the axes of K (b - 1) + 1, with K the number of digits of count in base b (none for 0). The distance between S and
 *           count x the product of all u/q is less than it. For Sobol it is 0, which claims nothing.
 *
 *   plan, plan_len       the plan, at most HISOWAKE_PLAN_MAX bytes
 *   start, count         any numbers; 11 if their sum, which does not wrap, is above 2^32
 *   window, window_len   u and then q for each axis, axis after axis, 4 bytes each, most significant first: exactly 8 bytes an axis; q is 1 to
 *                        16,777,216 (2^24) and u is 0 to q; 14 for everything else
 *   out, out_len         HISOWAKE_COUNT_SIZE bytes or more
 *
 * Refuses, in this order: 1, 3 to 10 as the plan is read, field by field; 11; 14; 13.
 *
 * The time grows with count times the number of axes. The working arrays are 7.25 KiB of the stack: 4 KiB of flags and 3.25 KiB of tables.
 */
uint64_t hisowake_window_count(const uint8_t *plan, uint64_t plan_len, uint64_t start, uint64_t count, const uint8_t *window,
                               uint64_t window_len, uint8_t *out, uint64_t out_len);

#ifdef __cplusplus
}
#endif

#endif
