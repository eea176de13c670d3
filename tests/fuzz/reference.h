// A slow reference for the calls of hisowake.h, written from 01-scope.md and K5 of the change requests alone: plans as data, their bytes and the
// refusals of bytes in the paper's order, points by their definitions, and counts that test every point of a run.
#ifndef REFERENCE_H
#define REFERENCE_H

#include "hisowake.h"

#include <stddef.h>

enum { AXES_MAX = 6, DEGREE_MAX = 12, PLAN_MAX = 71, WINDOW_MAX = 8 * AXES_MAX };

enum family { HALTON, PERMUTED, SOBOL, KOCIS, FAMILIES };

struct axis {
    uint64_t base;                             // of a Halton axis
    int degree;                                // of a Sobol axis
    uint64_t a[DEGREE_MAX - 1], m[DEGREE_MAX]; // a_1 to a_(degree - 1), m_1 to m_degree
    uint64_t denominator, v[33];               // by `complete`; v_1 to v_32 of a Sobol axis
};

struct plan {
    enum family family;
    int axes;
    struct axis axis[AXES_MAX];
};

// the cut u / q of an axis
struct cut {
    uint32_t u, q;
};

// ---- plans and windows as bytes

// The plan's bytes, in PLAN_MAX zero bytes; gives how many they are. The plan need not be valid.
size_t plan_bytes(const struct plan *p, uint8_t *bytes);

// The window's bytes, 8 an axis; gives how many they are.
size_t window_bytes(const struct cut *cut, int axes, uint8_t *bytes);

// Reads a plan and completes it: 0, or a refusal, 1 or 3 to 10.
uint64_t read_plan(const uint8_t *bytes, size_t len, struct plan *p);

// The greatest common divisor of two numbers from 1 up.
uint64_t common_divisor(uint64_t a, uint64_t b);

// Whether the polynomial of a Sobol axis of degree 1 or more is primitive.
int is_primitive(const struct axis *x);

int same_polynomial(const struct axis *x, const struct axis *y);

// ---- points and counts

// Fills in each axis's denominator and direction numbers.
void complete(struct plan *p);

// The numerators of index n.
void point_of(const struct plan *p, uint64_t n, uint64_t *x);

// Sobol's stepping rule: from the numerators of index n to those of n + 1.
void sobol_step(const struct plan *p, uint64_t n, uint64_t *x);

// S: how many of the points of start to start + count - 1 are inside.
uint64_t inside_count(const struct plan *p, uint64_t start, uint64_t count, const struct cut *cut);

// The product of K (b - 1) + 1, with the least K for which b^K is above count; 0 for Sobol.
uint64_t bound_of(const struct plan *p, uint64_t count);

// ---- the calls

// A call's answer: its code, the words that it writes, none if it is refused, and the plan as far as it is read.
struct answer {
    uint64_t code;
    int words;
    uint64_t word[AXES_MAX];
    struct plan plan;
};

struct answer reference_point(const uint8_t *plan, size_t plan_len, uint64_t index, size_t out_len);

struct answer reference_count(const uint8_t *plan, size_t plan_len, uint64_t start, uint64_t count, const uint8_t *window, size_t window_len,
                              size_t out_len);

// The code of a window count, without a walk. Gives the plan and the cuts as far as they are read.
uint64_t count_code(const uint8_t *plan, size_t plan_len, uint64_t start, uint64_t count, const uint8_t *window, size_t window_len,
                    size_t out_len, struct plan *p, struct cut *cut);

#endif
