// The stack of a program's first call, beside that of its second. The argument `point` or `count` says of which call; `bound` after it, that the
// program is bound before it starts, so that the first call has to take what the header says.
#define _DEFAULT_SOURCE
#include "hisowake.h"
#include "stack.h"

#include <stdio.h>

static const uint8_t plan[] = {0x10, 0x08, 0x10}, window[] = {0, 0, 0, 1, 0, 0, 0, 2, 0, 0, 0, 1, 0, 0, 0, 3};
static uint8_t out[HISOWAKE_POINT_MAX];

static void point(void) { hisowake_point(plan, sizeof plan, 5, out, sizeof out); }

static void count(void) { hisowake_window_count(plan, sizeof plan, 0, 6, window, sizeof window, out, sizeof out); }

int main(int argc, char **argv) {
    if (argc < 2)
        return 2;
    int counts = strcmp(argv[1], "count") == 0;
    size_t size = counts ? COUNT_STACK : POINT_STACK;
    size_t first = stack_of(counts ? count : point, STACK), second = stack_of(counts ? count : point, STACK);
    printf("C: stack: the first %s, %s, %zu bytes, the second %zu\n", argv[1], argc > 2 ? "bound before" : "bound lazily", first, second);
    return argc > 2 && first >= size;
}
