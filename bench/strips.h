/* Two counts of a window over a run of a Halton plan that walk no point, in plain C: the same work as the count by strips. */
#ifndef STRIPS_H
#define STRIPS_H
#include "baseline.h"

/* How many of `count` points from index `start` on are inside the window u / q: by classes of steps, split digit by digit and axis by axis. */
uint64_t strips_by_classes(const plan_t *p, uint64_t start, uint64_t count, const uint64_t *window);

/* The same: each axis cut into strips, which are residue classes, and every combination of them solved by the Chinese remainder theorem. */
uint64_t strips_by_residues(const plan_t *p, uint64_t start, uint64_t count, const uint64_t *window);
#endif
