// Checks, and the calls of hisowake.h with guarded buffers: each is called with buffers that start right after a page that cannot be touched,
// and with buffers that end at one.
#ifndef GUARD_H
#define GUARD_H

#include "hisowake.h"
#include "pages.h"

static int checks, failures;

static void check(int holds, const char *what, uint64_t number) {
    checks++;
    if (!holds) {
        failures++;
        if (failures <= 40)
            printf("FAILED: %s, %llu\n", what, (unsigned long long)number);
    }
}

static struct buffer plan_buffer, window_buffer, out_buffer;

// ---- calls, with buffers of exactly these lengths; the answer and every byte of the pages are compared

static void point(const char *what, const uint8_t *plan, size_t plan_len, uint64_t index, size_t out_len, uint64_t code, int axes,
                  const uint64_t *numerators) {
    for (int side = AT_FRONT; side <= AT_END; side++) {
        const uint8_t *p = lend(&plan_buffer, side, plan, plan_len);
        uint8_t *o = lend(&out_buffer, side, NULL, out_len);
        check(hisowake_point(p, plan_len, index, o, out_len) == code, what, index);
        check(as_expected(&plan_buffer), "the plan is only read", index);
        expect_words(&out_buffer, code == 0 ? axes : 0, numerators);
        check(as_expected(&out_buffer), what, index);
    }
}

static void count(const char *what, const uint8_t *plan, size_t plan_len, uint64_t start, uint64_t n, const uint8_t *window,
                  size_t window_len, size_t out_len, uint64_t code, uint64_t s, uint64_t bound) {
    for (int side = AT_FRONT; side <= AT_END; side++) {
        const uint8_t *p = lend(&plan_buffer, side, plan, plan_len);
        const uint8_t *w = lend(&window_buffer, side, window, window_len);
        uint8_t *o = lend(&out_buffer, side, NULL, out_len);
        check(hisowake_window_count(p, plan_len, start, n, w, window_len, o, out_len) == code, what, start);
        check(as_expected(&plan_buffer), "the plan is only read", start);
        check(as_expected(&window_buffer), "the window is only read", start);
        expect_words(&out_buffer, code == 0 ? 2 : 0, (const uint64_t[]){s, bound});
        check(as_expected(&out_buffer), what, start);
    }
}

#endif
