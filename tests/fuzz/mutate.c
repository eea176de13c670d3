// How the fuzzer changes an input: by whole plans, windows and numbers, right ones and slightly wrong ones, beside plain bytes.
#include "../c/random.h"
#include "input.h"

#include <string.h>

size_t LLVMFuzzerMutate(uint8_t *data, size_t size, size_t max_size);
size_t LLVMFuzzerCustomMutator(uint8_t *data, size_t size, size_t max_size, unsigned seed);

// ---- numbers

// Small ones, ones near 2^32 and near 2^64, and any.
static uint64_t random_number(void) {
    switch (below(7)) {
    case 0: return below(16);
    case 1: return below(4096);
    case 2: return below(1ull << below(33));
    case 3: return 4294967288u + below(16);
    case 4: return 4294967296u - below(5000);
    case 5: return UINT64_MAX - below(8);
    default: return random_word() >> below(64);
    }
}

static void change_start(struct input *in) { in->start = random_number(); }

static void change_count(struct input *in) { in->count = below(2) ? below(300) : random_number(); }

// The run ends at 2^32, or near it.
static void end_the_run(struct input *in) {
    in->count = random_number();
    in->start = 4294967296u - in->count + (below(2) ? 0 : below(5) - 2);
}

// ---- plans

static struct axis random_base_axis(void) { return (struct axis){.base = 2 + below(below(2) ? 255 : 15)}; }

static struct axis random_polynomial(void) {
    struct axis x = {.degree = (int)below(DEGREE_MAX + 1)};
    do
        for (int j = 1; j < x.degree; j++)
            x.a[j - 1] = below(2);
    while (x.degree >= 1 && !is_primitive(&x));
    for (int j = 1; j <= x.degree; j++)
        x.m[j - 1] = below(1ull << j) | 1;
    return x;
}

// Whether an axis may stand behind those before it.
static int fits(const struct plan *p, int i) {
    for (int j = 0; j < i; j++)
        if (p->family == SOBOL ? same_polynomial(&p->axis[i], &p->axis[j]) : common_divisor(p->axis[i].base, p->axis[j].base) != 1)
            return 0;
    return 1;
}

static struct plan random_plan(void) {
    struct plan p = {.family = (enum family)below(FAMILIES), .axes = 1 + (int)below(AXES_MAX)};
    for (int i = 0; i < p.axes; i++)
        do
            p.axis[i] = p.family == SOBOL ? random_polynomial() : random_base_axis();
        while (!fits(&p, i));
    return p;
}

// Breaks one rule of one axis.
static void break_axis(struct plan *p) {
    int i = (int)below((uint64_t)p->axes), other = (int)below((uint64_t)p->axes);
    struct axis *x = &p->axis[i];
    if (p->family != SOBOL)
        x->base = below(3) ? (p->axis[other].base * (1 + below(3)) - 1) % 256 + 1 : 1;
    else if (below(3) == 0 && x->degree >= 1)
        x->m[below((uint64_t)x->degree)] &= ~1ull;
    else if (below(2))
        *x = p->axis[other];
    else if (x->degree >= 2)
        x->a[below((uint64_t)x->degree - 1)] ^= 1;
}

// ---- windows

static struct cut random_cut(uint64_t base) {
    uint64_t q = 1 + below(1ull << (1 + below(24)));
    if (below(2)) // points sit on such cuts
        for (q = base; q * base <= 16777216 && below(3); q *= base)
            ;
    return (struct cut){(uint32_t)(below(2) ? q - below(q / 4 + 1) : below(q + 1)), (uint32_t)q};
}

static void break_cut(struct cut *cut) {
    switch (below(5)) {
    case 0: *cut = (struct cut){0, 0}; break;
    case 1: cut->u = cut->q + 1; break;
    case 2: cut->q = 16777217; break;
    case 3: *cut = (struct cut){16777217, 16777217}; break;
    default: *cut = (struct cut){(uint32_t)random_word(), (uint32_t)random_word()};
    }
}

// A window for the plan's axes, whether or not the plan is valid; one in eight is wrong in a cut or in its length.
static void new_window(struct input *in) {
    struct plan p;
    struct cut cut[7];
    int axes = in->plan[0] >> 3 & 7;
    int accepted = read_plan(in->plan, in->plan_len, &p) == 0 && p.family != SOBOL;
    for (int i = 0; i < axes; i++)
        cut[i] = random_cut(accepted ? p.axis[i].base : 2);
    if (axes && below(16) == 0)
        break_cut(&cut[below((uint64_t)axes)]);
    in->window_len = window_bytes(cut, axes, in->window);
    if (below(16) == 0)
        in->window_len = below(WINDOW_ROOM + 1);
}

// ---- inputs

static void lay_plan(struct input *in, const struct plan *p) {
    memset(in->plan, 0, sizeof in->plan);
    in->plan_len = plan_bytes(p, in->plan);
    new_window(in);
}

static void new_plan(struct input *in) {
    struct plan p = random_plan();
    lay_plan(in, &p);
}

static void new_wrong_plan(struct input *in) {
    struct plan p = random_plan();
    break_axis(&p);
    lay_plan(in, &p);
}

static void change_plan_bytes(struct input *in) {
    size_t at = below(in->plan_len + 1);
    if (below(2) && at < in->plan_len)
        in->plan[at] ^= (uint8_t)(1 << below(8));
    else if (below(2))
        in->plan_len = at;
    else if (in->plan_len < PLAN_ROOM)
        in->plan[in->plan_len++] = (uint8_t)(below(2) * random_word());
}

static void change_call(struct input *in) { in->call = in->call == POINT ? COUNT : POINT; }

// Enough, just enough, one too few, or any.
static void change_out_len(struct input *in) {
    size_t need = in->call == COUNT ? 16 : 8u * (in->plan[0] >> 3 & 7);
    const size_t lengths[] = {OUT_ROOM, need, need > 0 ? need - 1 : 0, below(OUT_ROOM + 1)};
    in->out_len = lengths[below(4)];
}

size_t LLVMFuzzerCustomMutator(uint8_t *data, size_t size, size_t max_size, unsigned seed) {
    static void (*const changes[])(struct input *) = {change_start,   change_count,      end_the_run, new_plan,      new_plan,
                                                      new_wrong_plan, change_plan_bytes, change_call, change_out_len, new_window};
    struct input in;
    random_state = seed;
    if (max_size < INPUT_MAX || below(8) == 0)
        return LLVMFuzzerMutate(data, size, max_size);
    decode(data, size, &in);
    for (uint64_t i = 1 + below(4); i > 0; i--)
        changes[below(sizeof changes / sizeof changes[0])](&in);
    return encode(&in, data);
}
