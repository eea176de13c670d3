#include "baseline.h"
#include <string.h>

unsigned faure_image(unsigned b, unsigned k) {
    if (b == 2)
        return k;
    if (b % 2 == 0) {
        unsigned h = b / 2;
        return k < h ? 2 * faure_image(h, k) : 2 * faure_image(h, k - h) + 1;
    }
    unsigned c = b / 2;
    if (k == c)
        return c;
    unsigned r = faure_image(b - 1, k < c ? k : k - 1);
    return r < c ? r : r + 1;
}

unsigned kocis_image(unsigned b, unsigned k) {
    unsigned r = 0;
    for (unsigned h = b, bit = 1; h > 1; bit *= 2) {
        unsigned c = (h + 1) / 2;
        if (k < c) {
            h = c;
        } else {
            k -= c;
            h -= c;
            r += bit;
        }
    }
    return r;
}

/* Faure's images, from base 2 up. */
static void faure_images(unsigned b, uint8_t *t) {
    if (b == 2) {
        t[0] = 0;
        t[1] = 1;
        return;
    }
    unsigned h = b / 2;
    if (b % 2 == 0) {
        faure_images(h, t);
        for (unsigned k = 0; k < h; k++) {
            t[h + k] = (uint8_t)(2 * t[k] + 1);
            t[k] = (uint8_t)(2 * t[k]);
        }
        return;
    }
    faure_images(b - 1, t);
    for (unsigned k = b - 1; k > h; k--)
        t[k] = (uint8_t)(t[k - 1] < h ? t[k - 1] : t[k - 1] + 1);
    t[h] = (uint8_t)h;
    for (unsigned k = 0; k < h; k++)
        t[k] = (uint8_t)(t[k] < h ? t[k] : t[k] + 1);
}

/* The list of Kocis and Whiten: bit by bit, the highest first, each number that is there comes again with the bit added, and what is not below b is
   left out. */
static void kocis_images(unsigned b, uint8_t *t) {
    unsigned n = 1, bit = 1;
    while (bit < b)
        bit *= 2;
    t[0] = 0;
    while (bit /= 2)
        for (unsigned k = 0, end = n; k < end; k++)
            if (t[k] + bit < b)
                t[n++] = (uint8_t)(t[k] + bit);
}

void baseline_images(int family, unsigned b, uint8_t *t) {
    if (family == 1)
        faure_images(b, t);
    else if (family == 3)
        kocis_images(b, t);
    else
        for (unsigned k = 0; k < b; k++)
            t[k] = (uint8_t)k;
}

/* An axis that steps: its digits with their images' weights, the carry going up. */
typedef struct {
    unsigned base, depth;
    uint8_t digit[32], image[256];
    uint64_t weight[32], denominator, numerator;
} stepper_t;

static void stepper_start(stepper_t *s, int family, unsigned b, uint64_t n) {
    s->base = b;
    baseline_images(family, b, s->image);
    s->depth = 0;
    s->denominator = 1;
    while (s->denominator < 4294967296u) {
        s->denominator *= b;
        s->depth++;
    }
    uint64_t w = s->denominator;
    s->numerator = 0;
    for (unsigned i = 0; i < s->depth; i++) {
        w /= b;
        s->weight[i] = w;
        s->digit[i] = (uint8_t)(n % b);
        s->numerator += s->image[s->digit[i]] * w;
        n /= b;
    }
}

static inline void stepper_next(stepper_t *s) {
    for (unsigned i = 0; i < s->depth; i++) {
        unsigned d = s->digit[i];
        if (d + 1 < s->base) {
            s->digit[i] = (uint8_t)(d + 1);
            s->numerator += ((uint64_t)s->image[d + 1] - s->image[d]) * s->weight[i];
            return;
        }
        s->digit[i] = 0;
        s->numerator -= s->image[d] * s->weight[i];
    }
}

static uint64_t sobol_at(const uint32_t *v, uint64_t n) {
    uint64_t g = n ^ (n >> 1), x = 0;
    for (int j = 0; j < 32; j++)
        if (g >> j & 1)
            x ^= v[j];
    return x;
}

void baseline_block(const plan_t *p, uint64_t start, size_t count, uint64_t *out) {
    int s = p->axes;
    if (count == 0)
        return;
    if (p->family == 2) {
        uint64_t x[6];
        for (int a = 0; a < s; a++)
            x[a] = sobol_at(p->direction[a], start);
        for (size_t i = 0;;) {
            for (int a = 0; a < s; a++)
                *out++ = x[a];
            if (++i == count)
                return;
            int c = __builtin_ctzll(~(start + i - 1));
            for (int a = 0; a < s; a++)
                x[a] ^= p->direction[a][c];
        }
    }
    stepper_t t[6];
    for (int a = 0; a < s; a++)
        stepper_start(&t[a], p->family, p->base[a], start);
    for (size_t i = 0; i < count; i++)
        for (int a = 0; a < s; a++) {
            *out++ = t[a].numerator;
            stepper_next(&t[a]);
        }
}

uint64_t baseline_count(const plan_t *p, uint64_t start, uint64_t count, const uint64_t *window) {
    uint64_t inside = 0, x[6];
    int s = p->axes;
    if (count == 0)
        return 0;
    if (p->family == 2) {
        for (int a = 0; a < s; a++)
            x[a] = sobol_at(p->direction[a], start);
        for (uint64_t i = 0;;) {
            int in = 1;
            for (int a = 0; a < s; a++)
                in &= x[a] * window[2 * a + 1] < window[2 * a] << 32;
            inside += (uint64_t)in;
            if (++i == count)
                return inside;
            int c = __builtin_ctzll(~(start + i - 1));
            for (int a = 0; a < s; a++)
                x[a] ^= p->direction[a][c];
        }
    }
    stepper_t t[6];
    uint64_t limit[6];
    for (int a = 0; a < s; a++) {
        stepper_start(&t[a], p->family, p->base[a], start);
        limit[a] = window[2 * a] * t[a].denominator;
    }
    for (uint64_t i = 0; i < count; i++) {
        int in = 1;
        for (int a = 0; a < s; a++) {
            in &= t[a].numerator * window[2 * a + 1] < limit[a];
            stepper_next(&t[a]);
        }
        inside += (uint64_t)in;
    }
    return inside;
}

void baseline_column(size_t count, size_t width, uint64_t *out) {
    for (size_t i = 0; i < count; i++)
        out[i * width] = i;
}

void baseline_prepare(const plan_t *p, jumper_t *j) {
    memset(j, 0, sizeof *j);
    j->plan = *p;
    for (int a = 0; p->family != 2 && a < p->axes; a++) {
        j->denominator[a] = 1;
        while (j->denominator[a] < 4294967296u)
            j->denominator[a] *= p->base[a];
        baseline_images(p->family, p->base[a], j->image[a]);
        j->reciprocal[a] = UINT64_MAX / p->base[a] + 1;
    }
}

/* What the digits of an index have made, of which the power p of the base was reached, with the leading zeros. */
static uint64_t with_zeros(uint64_t x, uint64_t p, uint64_t denominator) {
    return p < denominator ? x * (denominator / p) : x;
}

void baseline_jump(const jumper_t *j, uint64_t index, uint64_t *out) {
    for (int a = 0; a < j->plan.axes; a++) {
        if (j->plan.family == 2) {
            out[a] = sobol_at(j->plan.direction[a], index);
            continue;
        }
        unsigned b = j->plan.base[a];
        uint64_t x = 0, p = 1;
        for (uint64_t n = index; n != 0; p *= b) {
            uint64_t q = (uint64_t)((unsigned __int128)n * j->reciprocal[a] >> 64);
            x = x * b + j->image[a][n - q * b];
            n = q;
        }
        out[a] = with_zeros(x, p, j->denominator[a]);
    }
}

uint64_t baseline_axis_jump(int family, unsigned b, uint64_t reciprocal, uint64_t denominator, uint64_t index) {
    uint64_t x = 0, p = 1;
    for (uint64_t n = index; n != 0; p *= b) {
        uint64_t q = (uint64_t)((unsigned __int128)n * reciprocal >> 64);
        unsigned digit = (unsigned)(n - q * b);
        x = x * b + (family == 1 ? faure_image(b, digit) : family == 3 ? kocis_image(b, digit) : digit);
        n = q;
    }
    return with_zeros(x, p, denominator);
}
