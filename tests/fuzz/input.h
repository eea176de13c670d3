// An input of the fuzzer: one of the calls of hisowake.h and what it is given.
#ifndef INPUT_H
#define INPUT_H

#include "reference.h"

enum call { POINT, COUNT };

// as bytes: the call, out_len, start and count of 8 bytes each, the plan's length, the plan, and the window as the rest
enum { PLAN_ROOM = 80, WINDOW_ROOM = 64, OUT_ROOM = 64, HEAD = 19, INPUT_MAX = HEAD + PLAN_ROOM + WINDOW_ROOM };

struct input {
    enum call call;
    size_t plan_len, window_len, out_len;
    uint64_t start, count; // start is the index of a point
    uint8_t plan[PLAN_ROOM], window[WINDOW_ROOM];
};

// Any bytes are an input; what is missing is zero.
void decode(const uint8_t *data, size_t size, struct input *in);

// Gives the length.
size_t encode(const struct input *in, uint8_t *data);

#endif
