/*
 * The denominators of a plan's axes. A point is its numerators over these, and no call gives them, since the plan's bytes do.
 */
#ifndef DENOMINATORS_H
#define DENOMINATORS_H

#include "hisowake.h"

/* The denominator of an axis of a Halton family: the least power of its base that is 2^32 or more. 0 for 0 and 1, which are no bases. */
static inline uint64_t denominator_of_base(uint32_t base) {
    if (base < 2)
        return 0;
    uint64_t power = base;
    while (power < 4294967296u)
        power *= base;
    return power;
}

/* Writes the denominator of each axis of a plan and gives how many axes there are. For bytes that are refused it gives 0 and writes nothing. */
static inline int denominators_of_plan(const uint8_t *plan, uint64_t plan_len, uint64_t denominators[HISOWAKE_AXES_MAX]) {
    uint8_t point[HISOWAKE_POINT_MAX];
    if (hisowake_point(plan, plan_len, 0, point, sizeof point) != HISOWAKE_OK)
        return 0;
    /* 2 bits of family and 3 of axes; then, but for Sobol, base minus 1 in 8 bits: the last 3 of a byte and the first 5 of the next */
    int family = plan[0] >> 6, axes = plan[0] >> 3 & 7;
    for (int axis = 0; axis < axes; axis++)
        denominators[axis] = family == 2 ? 4294967296u : denominator_of_base(((plan[axis] & 7u) << 5 | plan[axis + 1] >> 3) + 1);
    return axes;
}

#endif
