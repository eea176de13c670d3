#include "input.h"

#include <string.h>

static uint64_t number_at(const uint8_t *bytes) {
    uint64_t n = 0;
    for (int i = 0; i < 8; i++)
        n = n << 8 | bytes[i];
    return n;
}

static void put_number(uint8_t *bytes, uint64_t n) {
    for (int i = 0; i < 8; i++)
        bytes[i] = (uint8_t)(n >> (56 - 8 * i));
}

static size_t least(size_t a, size_t b) { return a < b ? a : b; }

void decode(const uint8_t *data, size_t size, struct input *in) {
    uint8_t all[INPUT_MAX] = {0};
    size = least(size, INPUT_MAX);
    if (size)
        memcpy(all, data, size);
    size_t rest = size > HEAD ? size - HEAD : 0;
    memset(in, 0, sizeof *in);
    in->call = all[0] % 2 ? COUNT : POINT;
    in->out_len = all[1] % (OUT_ROOM + 1);
    in->start = number_at(all + 2);
    in->count = number_at(all + 10);
    in->plan_len = least(all[18] % (PLAN_ROOM + 1), rest);
    in->window_len = least(rest - in->plan_len, WINDOW_ROOM);
    memcpy(in->plan, all + HEAD, in->plan_len);
    memcpy(in->window, all + HEAD + in->plan_len, in->window_len);
}

size_t encode(const struct input *in, uint8_t *data) {
    data[0] = (uint8_t)in->call;
    data[1] = (uint8_t)in->out_len;
    put_number(data + 2, in->start);
    put_number(data + 10, in->count);
    data[18] = (uint8_t)in->plan_len;
    memcpy(data + HEAD, in->plan, in->plan_len);
    memcpy(data + HEAD + in->plan_len, in->window, in->window_len);
    return HEAD + in->plan_len + in->window_len;
}
