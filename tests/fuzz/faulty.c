// The calls of hisowake.h by the reference, with one fault, FAULT, that the harness has to find. Fault 0 is none.
#include "reference.h"

enum fault {
    NO_FAULT,
    WRONG_LAST_DIGIT,
    WRITES_WHEN_REFUSED,
    WRITES_PAST_THE_END,
    ROOM_BEFORE_WINDOW,
    READS_PAST_THE_PLAN,
    READS_BEFORE_THE_PLAN,
    BOUND_OF_THE_LAST_INDEX,
    REFUSES_KOCIS,
    FAURE_FOR_KOCIS
};

// Writes an answer's words to the front of `out`.
static uint64_t write_answer(struct answer r, uint8_t *out, size_t out_len) {
    for (int i = 0; i < 8 * r.words; i++)
        out[i] = (uint8_t)(r.word[i / 8] >> (56 - 8 * (i % 8)));
    if (FAULT == WRITES_WHEN_REFUSED && r.code == HISOWAKE_BUFFER_TOO_SMALL && out_len > 0)
        out[out_len - 1] = 0;
    if (FAULT == WRITES_PAST_THE_END && r.code == 0 && out_len == 8 * (size_t)r.words)
        out[out_len] = 0;
    return r.code;
}

static void read_byte(const volatile uint8_t *at) { (void)*at; }

static void stray_read(const uint8_t *plan, size_t plan_len) {
    if (FAULT == READS_PAST_THE_PLAN && plan_len == 7)
        read_byte(plan + plan_len);
    if (FAULT == READS_BEFORE_THE_PLAN && plan_len == 7)
        read_byte(plan - 1);
}

uint64_t hisowake_point(const uint8_t *plan, uint64_t plan_len, uint64_t index, uint8_t *out, uint64_t out_len) {
    struct answer r = reference_point(plan, plan_len, index, out_len);
    stray_read(plan, plan_len);
    if (FAULT == WRONG_LAST_DIGIT && r.words == AXES_MAX && index > 1000000)
        r.word[AXES_MAX - 1] ^= 1;
    if (FAULT == REFUSES_KOCIS && plan_len > 0 && plan[0] >> 6 == KOCIS)
        r = (struct answer){.code = 2};
    if (FAULT == FAURE_FOR_KOCIS && r.code == 0 && r.plan.family == KOCIS) {
        r.plan.family = PERMUTED;
        point_of(&r.plan, index, r.word);
    }
    return write_answer(r, out, out_len);
}

uint64_t hisowake_window_count(const uint8_t *plan, uint64_t plan_len, uint64_t start, uint64_t count, const uint8_t *window,
                               uint64_t window_len, uint8_t *out, uint64_t out_len) {
    struct answer r = reference_count(plan, plan_len, start, count, window, window_len, out_len);
    stray_read(plan, plan_len);
    if (FAULT == ROOM_BEFORE_WINDOW && r.code == HISOWAKE_BAD_WINDOW && out_len < 16)
        r.code = HISOWAKE_BUFFER_TOO_SMALL;
    if (FAULT == BOUND_OF_THE_LAST_INDEX && r.code == 0 && count > 0)
        r.word[1] = bound_of(&r.plan, start + count - 1);
    return write_answer(r, out, out_len);
}
