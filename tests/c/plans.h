// Plans to compare by.
#ifndef PLANS_H
#define PLANS_H

#include "../fuzz/reference.h"

static struct plan plans[] = {
    {HALTON, 6, {{.base = 2}, {.base = 3}, {.base = 5}, {.base = 7}, {.base = 11}, {.base = 13}}},
    {HALTON, 6, {{.base = 256}, {.base = 255}, {.base = 253}, {.base = 251}, {.base = 247}, {.base = 241}}},
    {PERMUTED, 6, {{.base = 256}, {.base = 255}, {.base = 253}, {.base = 251}, {.base = 247}, {.base = 241}}},
    {PERMUTED, 6, {{.base = 2}, {.base = 3}, {.base = 5}, {.base = 7}, {.base = 11}, {.base = 13}}},
    {PERMUTED, 6, {{.base = 243}, {.base = 17}, {.base = 121}, {.base = 49}, {.base = 13}, {.base = 250}}},
    {SOBOL,
     6,
     {{.degree = 0},
      {.degree = 1, .m = {1}},
      {.degree = 2, .a = {1}, .m = {1, 3}},
      {.degree = 3, .a = {0, 1}, .m = {1, 3, 7}},
      {.degree = 4, .a = {0, 0, 1}, .m = {1, 1, 5, 11}},
      {.degree = 12, .a = {0, 0, 0, 0, 0, 1, 0, 1, 0, 0, 1}, .m = {1, 3, 5, 7, 9, 11, 13, 15, 17, 19, 21, 23}}}},
    {SOBOL,
     6,
     {{.degree = 12, .a = {0, 0, 0, 0, 0, 1, 0, 1, 0, 0, 1}, .m = {1, 1, 1, 1, 1, 1, 1, 1, 1, 1, 1, 1}},
      {.degree = 12, .a = {0, 0, 0, 0, 0, 1, 1, 0, 1, 0, 0}, .m = {1, 1, 1, 1, 1, 1, 1, 1, 1, 1, 1, 1}},
      {.degree = 12, .a = {0, 0, 0, 0, 0, 1, 1, 1, 1, 0, 1}, .m = {1, 1, 1, 1, 1, 1, 1, 1, 1, 1, 1, 1}},
      {.degree = 12, .a = {0, 0, 0, 0, 0, 1, 1, 1, 1, 1, 0}, .m = {1, 1, 1, 1, 1, 1, 1, 1, 1, 1, 1, 1}},
      {.degree = 12, .a = {0, 0, 0, 0, 1, 0, 0, 1, 1, 0, 0}, .m = {1, 1, 1, 1, 1, 1, 1, 1, 1, 1, 1, 1}},
      {.degree = 12, .a = {0, 0, 0, 0, 1, 1, 0, 1, 0, 0, 0}, .m = {1, 1, 1, 1, 1, 1, 1, 1, 1, 1, 1, 1}}}},
    {KOCIS, 6, {{.base = 256}, {.base = 255}, {.base = 253}, {.base = 251}, {.base = 247}, {.base = 241}}},
    {KOCIS, 6, {{.base = 2}, {.base = 3}, {.base = 5}, {.base = 7}, {.base = 11}, {.base = 13}}},
    {KOCIS, 6, {{.base = 243}, {.base = 17}, {.base = 121}, {.base = 49}, {.base = 13}, {.base = 250}}},
};

enum { PLANS = sizeof plans / sizeof plans[0] };

// A plan's last axes alone.
static struct plan last_axes(const struct plan *p, int axes) {
    struct plan r = *p;
    r.axes = axes;
    for (int i = 0; i < axes; i++)
        r.axis[i] = p->axis[p->axes - axes + i];
    return r;
}

#endif
