#include "reference.h"

#include <string.h>

static const uint64_t INDEXES = 4294967296u;
static const uint32_t Q_MAX = 16777216;

// ---- bytes

// Puts a field of `width` bits behind the first `*used` bits; the bits behind are zero.
static void put_field(uint8_t *bytes, size_t *used, uint64_t field, int width) {
    for (int i = width - 1; i >= 0; i--, ++*used)
        bytes[*used / 8] |= (uint8_t)((field >> i & 1) << (7 - *used % 8));
}

size_t plan_bytes(const struct plan *p, uint8_t *bytes) {
    size_t used = 0;
    put_field(bytes, &used, p->family, 2);
    put_field(bytes, &used, (uint64_t)p->axes, 3);
    for (int i = 0; i < p->axes; i++) {
        const struct axis *x = &p->axis[i];
        if (p->family != SOBOL) {
            put_field(bytes, &used, x->base - 1, 8);
            continue;
        }
        put_field(bytes, &used, (uint64_t)x->degree, 4);
        for (int j = 1; j < x->degree; j++)
            put_field(bytes, &used, x->a[j - 1], 1);
        for (int j = 1; j <= x->degree; j++)
            put_field(bytes, &used, x->m[j - 1], j);
    }
    return (used + 7) / 8;
}

size_t window_bytes(const struct cut *cut, int axes, uint8_t *bytes) {
    size_t used = 0;
    memset(bytes, 0, 8 * (size_t)axes);
    for (int i = 0; i < axes; i++) {
        put_field(bytes, &used, cut[i].u, 32);
        put_field(bytes, &used, cut[i].q, 32);
    }
    return 8 * (size_t)axes;
}

// The bits of a byte string, and how many of them are taken.
struct bits {
    const uint8_t *bytes;
    size_t len, taken;
};

static uint64_t next_bit(struct bits *b) {
    uint64_t bit = b->bytes[b->taken / 8] >> (7 - b->taken % 8) & 1;
    b->taken++;
    return bit;
}

// Takes a field: 0, or 1 if the bytes end before its last bit.
static uint64_t take(struct bits *b, int width, uint64_t *field) {
    *field = 0;
    for (int i = 0; i < width; i++) {
        if (b->taken == 8 * b->len)
            return HISOWAKE_TRUNCATED;
        *field = 2 * *field + next_bit(b);
    }
    return 0;
}

// ---- reading

uint64_t common_divisor(uint64_t a, uint64_t b) {
    uint64_t d = a < b ? a : b;
    while (a % d != 0 || b % d != 0)
        d--;
    return d;
}

static uint64_t read_base(struct bits *b, struct plan *p, int i) {
    uint64_t field, code = take(b, 8, &field);
    if (code)
        return code;
    p->axis[i].base = field + 1;
    if (p->axis[i].base == 1)
        return HISOWAKE_BAD_BASE;
    for (int j = 0; j < i; j++)
        if (common_divisor(p->axis[i].base, p->axis[j].base) != 1)
            return HISOWAKE_COMMON_FACTOR;
    return 0;
}

// The least e above 0 for which the polynomial divides x^e - 1: every e is tried in turn, x^e reduced.
static uint64_t order(uint64_t polynomial, uint64_t top) {
    uint64_t power = 1, e = 0;
    do {
        power *= 2;
        if (power >= top)
            power ^= polynomial;
        e++;
    } while (power != 1);
    return e;
}

// Each polynomial's order is kept once it is known; 0 is none.
int is_primitive(const struct axis *x) {
    static uint64_t orders[2 << DEGREE_MAX];
    uint64_t polynomial = 1, top = 1ull << x->degree;
    for (int j = 1; j < x->degree; j++)
        polynomial = 2 * polynomial + x->a[j - 1];
    polynomial = 2 * polynomial + 1;
    if (orders[polynomial] == 0)
        orders[polynomial] = order(polynomial, top);
    return orders[polynomial] == top - 1;
}

int same_polynomial(const struct axis *x, const struct axis *y) {
    if (x->degree != y->degree)
        return 0;
    for (int j = 1; j < x->degree; j++)
        if (x->a[j - 1] != y->a[j - 1])
            return 0;
    return 1;
}

static uint64_t read_polynomial(struct bits *b, struct plan *p, int i) {
    struct axis *x = &p->axis[i];
    uint64_t degree, code = take(b, 4, &degree);
    if (code)
        return code;
    if (degree > DEGREE_MAX)
        return HISOWAKE_BAD_DEGREE;
    x->degree = (int)degree;
    for (int j = 1; j < x->degree; j++)
        if ((code = take(b, 1, &x->a[j - 1])))
            return code;
    if (x->degree >= 1 && !is_primitive(x))
        return HISOWAKE_NOT_PRIMITIVE;
    for (int j = 0; j < i; j++)
        if (same_polynomial(x, &p->axis[j]))
            return HISOWAKE_REPEATED_POLYNOMIAL;
    return 0;
}

static uint64_t read_sobol_axis(struct bits *b, struct plan *p, int i) {
    struct axis *x = &p->axis[i];
    uint64_t code = read_polynomial(b, p, i);
    for (int j = 1; !code && j <= x->degree; j++) {
        code = take(b, j, &x->m[j - 1]);
        if (!code && x->m[j - 1] % 2 == 0)
            code = HISOWAKE_EVEN_NUMBER;
    }
    return code;
}

// Family and number of axes.
static uint64_t read_head(struct bits *b, struct plan *p) {
    uint64_t field, code = take(b, 2, &field);
    if (code)
        return code;
    p->family = (enum family)field;
    if ((code = take(b, 3, &field)))
        return code;
    if (field == 0 || field == 7)
        return HISOWAKE_BAD_AXIS_COUNT;
    p->axes = (int)field;
    return 0;
}

// Zero bits fill the last byte, and nothing follows it.
static uint64_t read_tail(struct bits *b) {
    while (b->taken % 8 != 0)
        if (next_bit(b))
            return HISOWAKE_TRAILING_DATA;
    return b->taken == 8 * b->len ? 0 : HISOWAKE_TRAILING_DATA;
}

uint64_t read_plan(const uint8_t *bytes, size_t len, struct plan *p) {
    struct bits b = {bytes, len, 0};
    memset(p, 0, sizeof *p);
    uint64_t code = read_head(&b, p);
    for (int i = 0; !code && i < p->axes; i++)
        code = p->family == SOBOL ? read_sobol_axis(&b, p, i) : read_base(&b, p, i);
    if (!code)
        code = read_tail(&b);
    if (!code)
        complete(p);
    return code;
}

// ---- points

// The image of digit k under Faure's permutation of base b.
static uint64_t faure(uint64_t b, uint64_t k) {
    if (b == 2)
        return k;
    if (b % 2 == 0)
        return k < b / 2 ? 2 * faure(b / 2, k) : 2 * faure(b / 2, k - b / 2) + 1;
    uint64_t c = b / 2;
    if (k == c)
        return c;
    uint64_t r = faure(b - 1, k < c ? k : k - 1);
    return r < c ? r : r + 1;
}

static void faure_images(uint64_t b, uint8_t *images) {
    for (uint64_t k = 0; k < b; k++)
        images[k] = (uint8_t)faure(b, k);
}

// The van der Corput number of n in base 2, times 2^d: the d bits of n, the lowest first.
static uint64_t mirrored(uint64_t n, int d) {
    uint64_t x = 0;
    for (int j = 0; j < d; j++)
        x = 2 * x + (n >> j & 1);
    return x;
}

// Kocis and Whiten's permutation of base b: the van der Corput numbers of 0 to 2^d - 1 times 2^d, with the least d for which 2^d is b or more,
// and those at or above b dropped.
static void kocis_images(uint64_t b, uint8_t *images) {
    int d = 0;
    while (1ull << d < b)
        d++;
    for (uint64_t n = 0; n < 1ull << d; n++) {
        uint64_t x = mirrored(n, d);
        if (x < b)
            *images++ = (uint8_t)x;
    }
}

// The image of digit k in a permuted family, each base's images kept once they are known.
static uint64_t image(enum family family, uint64_t b, uint64_t k) {
    static uint8_t images[FAMILIES][257][256], known[FAMILIES][257];
    if (!known[family][b]) {
        (family == KOCIS ? kocis_images : faure_images)(b, images[family][b]);
        known[family][b] = 1;
    }
    return images[family][b][k];
}

// b^k, with the least k that makes it 2^32 or more; 2^32 for a Sobol axis.
static uint64_t denominator_of(const struct plan *p, int i) {
    uint64_t d = 1;
    while (d < INDEXES)
        d *= p->family == SOBOL ? 2 : p->axis[i].base;
    return d;
}

static void direction_numbers(struct axis *x) {
    uint64_t m[33];
    int d = x->degree;
    for (int k = 1; k <= 32; k++) {
        if (d == 0)
            m[k] = 1;
        else if (k <= d)
            m[k] = x->m[k - 1];
        else {
            m[k] = m[k - d] << d ^ m[k - d];
            for (int j = 1; j < d; j++)
                m[k] ^= x->a[j - 1] * m[k - j] << j;
        }
        x->v[k] = m[k] << (32 - k);
    }
}

void complete(struct plan *p) {
    for (int i = 0; i < p->axes; i++) {
        p->axis[i].denominator = denominator_of(p, i);
        if (p->family == SOBOL)
            direction_numbers(&p->axis[i]);
    }
}

static uint64_t halton_numerator(const struct plan *p, int i, uint64_t n) {
    uint64_t b = p->axis[i].base, x = 0;
    for (uint64_t place = p->axis[i].denominator / b; place > 0; place /= b, n /= b)
        x += place * (p->family == HALTON ? n % b : image(p->family, b, n % b));
    return x;
}

// The jump: the direction numbers at the ones of n xor (n shifted right by one).
static uint64_t sobol_numerator(const struct axis *axis, uint64_t n) {
    uint64_t x = 0;
    for (int k = 1; k <= 32; k++)
        if ((n ^ n >> 1) >> (k - 1) & 1)
            x ^= axis->v[k];
    return x;
}

void point_of(const struct plan *p, uint64_t n, uint64_t *x) {
    for (int i = 0; i < p->axes; i++)
        x[i] = p->family == SOBOL ? sobol_numerator(&p->axis[i], n) : halton_numerator(p, i, n);
}

void sobol_step(const struct plan *p, uint64_t n, uint64_t *x) {
    int c = 1;
    while (n >> (c - 1) & 1)
        c++;
    for (int i = 0; i < p->axes; i++)
        x[i] ^= p->axis[i].v[c];
}

// ---- windows

static int inside(const struct plan *p, const uint64_t *x, const struct cut *cut) {
    for (int i = 0; i < p->axes; i++)
        if ((unsigned __int128)x[i] * cut[i].q >= (unsigned __int128)cut[i].u * p->axis[i].denominator)
            return 0;
    return 1;
}

// A Sobol run is walked by steps.
uint64_t inside_count(const struct plan *p, uint64_t start, uint64_t count, const struct cut *cut) {
    uint64_t s = 0, x[AXES_MAX];
    for (uint64_t n = start; n < start + count; n++) {
        if (n == start || p->family != SOBOL)
            point_of(p, n, x);
        else
            sobol_step(p, n - 1, x);
        s += (uint64_t)inside(p, x, cut);
    }
    return s;
}

uint64_t bound_of(const struct plan *p, uint64_t count) {
    if (p->family == SOBOL)
        return 0;
    uint64_t product = 1;
    for (int i = 0; i < p->axes; i++) {
        uint64_t b = p->axis[i].base, k = 0;
        for (uint64_t power = 1; power <= count; power *= b)
            k++;
        product *= k * (b - 1) + 1;
    }
    return product;
}

// One u and one q for each axis, q from 1 to 2^24, u from 0 to q.
static uint64_t read_window(const uint8_t *window, size_t len, int axes, struct cut *cut) {
    struct bits b = {window, len, 0};
    if (len != 8 * (size_t)axes)
        return HISOWAKE_BAD_WINDOW;
    for (int i = 0; i < axes; i++) {
        uint64_t u, q;
        take(&b, 32, &u);
        take(&b, 32, &q);
        if (q < 1 || q > Q_MAX || u > q)
            return HISOWAKE_BAD_WINDOW;
        cut[i] = (struct cut){(uint32_t)u, (uint32_t)q};
    }
    return 0;
}

// ---- the calls

struct answer reference_point(const uint8_t *plan, size_t plan_len, uint64_t index, size_t out_len) {
    struct answer r = {0};
    r.code = read_plan(plan, plan_len, &r.plan);
    if (!r.code && index >= INDEXES)
        r.code = HISOWAKE_OUT_OF_RANGE;
    if (!r.code && out_len < 8 * (size_t)r.plan.axes)
        r.code = HISOWAKE_BUFFER_TOO_SMALL;
    if (!r.code) {
        r.words = r.plan.axes;
        point_of(&r.plan, index, r.word);
    }
    return r;
}

uint64_t count_code(const uint8_t *plan, size_t plan_len, uint64_t start, uint64_t count, const uint8_t *window, size_t window_len,
                    size_t out_len, struct plan *p, struct cut *cut) {
    uint64_t code = read_plan(plan, plan_len, p);
    if (!code && (unsigned __int128)start + count > INDEXES)
        code = HISOWAKE_OUT_OF_RANGE;
    if (!code)
        code = read_window(window, window_len, p->axes, cut);
    if (!code && out_len < 16)
        code = HISOWAKE_BUFFER_TOO_SMALL;
    return code;
}

struct answer reference_count(const uint8_t *plan, size_t plan_len, uint64_t start, uint64_t count, const uint8_t *window, size_t window_len,
                              size_t out_len) {
    struct cut cut[AXES_MAX];
    struct answer r = {0};
    r.code = count_code(plan, plan_len, start, count, window, window_len, out_len, &r.plan, cut);
    if (!r.code) {
        r.words = 2;
        r.word[0] = inside_count(&r.plan, start, count, cut);
        r.word[1] = bound_of(&r.plan, count);
    }
    return r;
}
