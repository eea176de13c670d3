/*
 * A street collector's main loop: each index's point says when to wake and which meter to call on which channel, by one plan and three slot counts.
 * The loop takes nothing from the heap and keeps nothing but the index.
 *
 *   collector START COUNT [SECONDS]
 *
 * The day has 86,400 seconds, or as many as are given: 82,800 or 90,000 where the clock changes. The rule is that of the call `slot`, which hosts do
 * not have: the crate timetable writes the same lines by it.
 */
#include "denominators.h"
#include "hisowake.h"

#include <stdio.h>

enum { AXES = 3, DAY = 86400, METERS = 250, CHANNELS = 8, SLOTS_MAX = 1 << 24 };

/* The plan: the permuted Halton sequence, bases 2, 3 and 5. Family 01, axes 011, then base minus 1 in 8 bits each and three zero bits. */
static const uint8_t PLAN[] = {0x58, 0x08, 0x10, 0x20};

/* A numerator out of 8 bytes, most significant first. */
static uint64_t number_at(const uint8_t *bytes) {
    uint64_t n = 0;
    for (int i = 0; i < 8; i++)
        n = n << 8 | bytes[i];
    return n;
}

static const char *reason(uint64_t code) {
    switch (code) {
    case HISOWAKE_OUT_OF_RANGE: return "the index is 2^32 or more; the plan has no more points";
    case HISOWAKE_BUFFER_TOO_SMALL: return "the buffer is shorter than a point";
    default: return "the plan's bytes are no plan";
    }
}

/*
 * The slot of a fraction: the whole part of numerator / denominator times the number of slots. A numerator is below 2^40 and there are 2^24 slots at
 * most, so that 64 bits hold the product.
 */
static uint64_t slot_of(uint64_t numerator, uint64_t denominator, uint64_t slots) { return numerator * slots / denominator; }

/* Reads a decimal number below 2^64. Gives 0 for any other text. */
static int read_number(const char *text, uint64_t *n) {
    const char *at = text;
    for (*n = 0; *at >= '0' && *at <= '9'; at++) {
        uint64_t digit = (uint64_t)(*at - '0');
        if (*n > (UINT64_MAX - digit) / 10)
            return 0;
        *n = 10 * *n + digit;
    }
    return at > text && *at == 0;
}

int main(int argc, char **argv) {
    uint64_t start, count, day = DAY, denominators[HISOWAKE_AXES_MAX];
    if (argc < 3 || argc > 4 || !read_number(argv[1], &start) || !read_number(argv[2], &count)) {
        fprintf(stderr, "usage: collector START COUNT [SECONDS], START and COUNT decimal numbers below 2^64\n");
        return 2;
    }
    if (argc == 4 && (!read_number(argv[3], &day) || day < 1 || day > SLOTS_MAX)) {
        fprintf(stderr, "collector: SECONDS, the length of the day, is a decimal number from 1 to %d\n", SLOTS_MAX);
        return 2;
    }
    if (denominators_of_plan(PLAN, sizeof PLAN, denominators) != AXES) {
        fprintf(stderr, "the plan's bytes are no plan of %d axes\n", AXES);
        return 1;
    }
    for (uint64_t i = 0; i < count; i++) {
        uint8_t point[8 * AXES];
        uint64_t index = start + i;
        uint64_t code = hisowake_point(PLAN, sizeof PLAN, index, point, sizeof point);
        if (code != HISOWAKE_OK) {
            printf("index %llu: refused %llu: %s\n", (unsigned long long)index, (unsigned long long)code, reason(code));
            return 1;
        }
        uint64_t second = slot_of(number_at(point), denominators[0], day);
        uint64_t meter = slot_of(number_at(point + 8), denominators[1], METERS);
        uint64_t channel = slot_of(number_at(point + 16), denominators[2], CHANNELS);
        printf("index %llu: sleep until second %llu, call meter %llu on channel %llu\n", (unsigned long long)index, (unsigned long long)second,
               (unsigned long long)meter, (unsigned long long)channel);
    }
    return 0;
}
