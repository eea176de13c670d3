// The calls of hisowake.h from C: reference points and counts, refusals and their order, that nothing beyond a buffer is read or written, and
// the stack. Larger runs are compared with the reference. The argument `valgrind` leaves out the stack and makes the longest runs shorter.
#define _DEFAULT_SOURCE
#include "../../examples/denominators.h"
#include "guard.h"
#include "plans.h"
#include "random.h"
#include "stack.h"

enum { OUT_MAX = 64, SEED = 20260517 };

#define BYTES(...) (const uint8_t[]){__VA_ARGS__}, sizeof((const uint8_t[]){__VA_ARGS__})
#define NUMERATORS(...) sizeof((const uint64_t[]){__VA_ARGS__}) / 8, (const uint64_t[]){__VA_ARGS__}
#define NONE 0, NULL

// the bytes of a number of 4 bytes, and of a cut u / q
#define FOUR(x) (uint8_t)((x) >> 24), (uint8_t)((x) >> 16), (uint8_t)((x) >> 8), (uint8_t)(x)
#define CUT(u, q) FOUR(u), FOUR(q)

static const uint64_t LAST = 4294967295u, END = 4294967296u;

static int for_valgrind;

// ---- points

// One digit gives its image times b^(k-1), the value of the first place.
static void images(const char *what, const uint8_t *plan, size_t plan_len, uint64_t base, const uint64_t *image, uint64_t place) {
    for (uint64_t digit = 0; digit < base; digit++)
        point(what, plan, plan_len, digit, 8, 0, NUMERATORS(image[digit] * place));
}

static void reference_points(void) {
    point("R1", BYTES(0x08, 0x10), 17, 8, 0, NUMERATORS(9685512225u));
    point("R2", BYTES(0x08, 0x08), 6, 8, 0, NUMERATORS(1610612736u));
    images("R3", BYTES(0x48, 0x30), 7, (const uint64_t[]){0, 2, 5, 3, 1, 4, 6}, 1977326743u);
    point("R4", BYTES(0x48, 0x20), 6, 8, 0, NUMERATORS(4394531250u));
    // R5: index 2^i - 1 gives v_i, which is m_i * 2^(32 - i)
    static const uint64_t m[6] = {1, 3, 7, 5, 7, 43};
    for (int i = 1; i <= 6; i++)
        point("R5", BYTES(0x89, 0xBF, 0x80), (1u << i) - 1, 8, 0, NUMERATORS(m[i - 1] << (32 - i)));
    point("R6", BYTES(0x89, 0xBF, 0x80), 4, 8, 0, NUMERATORS(536870912u));
    point("R5's axis", BYTES(0x89, 0xBF, 0x80), 2, 8, 0, NUMERATORS(1073741824u));
    point("R7", BYTES(0x10, 0x08, 0x10), 1, 16, 0, NUMERATORS(2147483648u, 3486784401u));
}

// What document 001 prints of Kocis and Whiten's permutations: base 7, kw[10], kw[31], and kwscrhalton[3, 7], its seventh base alone.
static void kocis_points(void) {
    static const uint64_t base_7[] = {0, 4, 2, 6, 1, 5, 3}, kw_10[] = {0, 8, 4, 2, 6, 1, 9, 5, 3, 7};
    static const uint64_t kw_31[] = {0, 16, 8, 24, 4, 20, 12, 28, 2, 18, 10, 26, 6, 22, 14, 30,
                                     1, 17, 9, 25, 5, 21, 13, 29, 3, 19, 11, 27, 7, 23, 15};
    images("base 7", BYTES(0xC8, 0x30), 7, base_7, 1977326743u);
    images("kw[10]", BYTES(0xC8, 0x48), 10, kw_10, 1000000000u);
    images("kw[31]", BYTES(0xC8, 0xF0), 31, kw_31, 887503681u);
    // 3/4, 2/9, 1/5, 6/7, 2/11, 12/13 and 4/17
    point("kwscrhalton[3, 7]", BYTES(0xF0, 0x08, 0x10, 0x20, 0x30, 0x50, 0x60), 3, 48, 0,
          NUMERATORS(3221225472u, 2324522934u, 1220703125u, 11863960458u, 4715895382u, 9788768652u));
    point("kwscrhalton[3, 7]", BYTES(0xC8, 0x80), 3, 8, 0, NUMERATORS(1641354692u));
}

static const uint8_t HALTON_6[] = {0x30, 0x08, 0x10, 0x20, 0x30, 0x50, 0x60};
static const uint8_t PERMUTED_6[] = {0x77, 0xFF, 0xF7, 0xE7, 0xD7, 0xB7, 0x80};
static const uint8_t KOCIS_6[] = {0xF7, 0xFF, 0xF7, 0xE7, 0xD7, 0xB7, 0x80};
static const uint8_t SOBOL_6[] = {0xB0, 0x0C, 0xBC, 0xDF, 0xD0, 0xDB, 0x78, 0x0A, 0x7D, 0x74,
                                  0x96, 0x34, 0x3C, 0x22, 0x09, 0x81, 0x50, 0x17};
// six axes of degree 12, all m's 1: the longest plan
static const uint8_t LONGEST[] = {0xB6, 0x02, 0x9A, 0x44, 0x20, 0x81, 0x01, 0x00, 0x80, 0x20, 0x04, 0x00, 0x70, 0x1A, 0x52,
                                  0x21, 0x04, 0x08, 0x08, 0x04, 0x01, 0x00, 0x20, 0x03, 0x80, 0xF6, 0x91, 0x08, 0x20, 0x40,
                                  0x40, 0x20, 0x08, 0x01, 0x00, 0x1C, 0x07, 0xD4, 0x88, 0x41, 0x02, 0x02, 0x01, 0x00, 0x40,
                                  0x08, 0x00, 0xE0, 0x4C, 0xA4, 0x42, 0x08, 0x10, 0x10, 0x08, 0x02, 0x00, 0x40, 0x07, 0x03,
                                  0x45, 0x22, 0x10, 0x40, 0x80, 0x80, 0x40, 0x10, 0x02, 0x00, 0x20};

static void six_axes(void) {
    point("six bases", HALTON_6, sizeof HALTON_6, 1000000, 48, 0,
          NUMERATORS(37941248u, 3776879016u, 350000u, 2401000000u, 3493928240u, 951142816u));
    point("six bases, the last index", HALTON_6, sizeof HALTON_6, LAST, 48, 0,
          NUMERATORS(4294967295u, 2132907247u, 1060315563u, 7479082473u, 8243781525u, 7070012799u));
    point("six permuted bases, the last index", PERMUTED_6, sizeof PERMUTED_6, LAST, 48, 0,
          NUMERATORS(4294967295u, 545112799u, 306102955882u, 246099178378u, 863879232501u, 760466417015u));
    point("six kocis bases, the last index", KOCIS_6, sizeof KOCIS_6, LAST, 48, 0,
          NUMERATORS(4294967295u, 536854688u, 41852937012u, 881151589479u, 420955445454u, 380616533684u));
    point("six polynomials, the last index", SOBOL_6, sizeof SOBOL_6, LAST, 48, 0,
          NUMERATORS(1u, 4294967295u, 3305133397u, 1342505107u, 1077097267u, 2113662991u));
    point("the longest plan", LONGEST, sizeof LONGEST, LAST, 48, 0,
          NUMERATORS(2090143745u, 2459455489u, 3284750337u, 2891534337u, 2197390337u, 706909185u));
    point("a longer buffer", LONGEST, sizeof LONGEST, 12345678, OUT_MAX, 0,
          NUMERATORS(4268001024u, 4185261824u, 1376323328u, 1630340864u, 3857164032u, 445146880u));
    point("index 0", SOBOL_6, sizeof SOBOL_6, 0, 48, 0, NUMERATORS(0, 0, 0, 0, 0, 0));
}

// ---- counts

// a window for up to six axes by its front; with one cut too many
static const uint8_t WINDOW[] = {CUT(1, 2), CUT(2, 3), CUT(3, 4), CUT(4, 5), CUT(1, 1), CUT(16777215, 16777216), CUT(1, 2)};

#define R7 BYTES(0x10, 0x08, 0x10)
#define R5 BYTES(0x89, 0xBF, 0x80)

static void reference_counts(void) {
    count("R8", R7, 0, 6, BYTES(CUT(1, 2), CUT(1, 3)), 16, 0, 1, 20);
    count("a longer buffer", R7, 0, 6, BYTES(CUT(1, 2), CUT(1, 3)), OUT_MAX, 0, 1, 20);
    count("K from the count, not from the last index", R7, END - 6, 6, BYTES(CUT(1, 2), CUT(1, 3)), 16, 0, 1, 20);
    // index 1 is (1/2, 1/3)
    count("a point on its first cut", R7, 1, 1, BYTES(CUT(1, 2), CUT(1, 1)), 16, 0, 0, 6);
    count("a point on its second cut", R7, 1, 1, BYTES(CUT(1, 1), CUT(1, 3)), 16, 0, 0, 6);
    count("a point on both cuts", R7, 1, 1, BYTES(CUT(8388608, 16777216), CUT(5592405, 16777215)), 16, 0, 0, 6);
    count("a point inside", R7, 1, 1, BYTES(CUT(8388609, 16777216), CUT(5592406, 16777216)), 16, 0, 1, 6);
    // 0, 1/2, 1/4, 3/4
    for (uint32_t k = 0; k <= 4; k++)
        count("Sobol's points on their cuts", R5, 0, 4, BYTES(CUT(k, 4)), 16, 0, k, 0);
}

// The first b^j points of an axis are the multiples of b^-j, so k of them are below k / b^j.
static void multiples(void) {
    for (uint32_t k = 0; k <= 125; k++) {
        count("base 5", BYTES(0x08, 0x20), 0, 125, BYTES(CUT(k, 125)), 16, 0, k, 17);
        count("permuted base 5", BYTES(0x48, 0x20), 0, 125, BYTES(CUT(k, 125)), 16, 0, k, 17);
        count("kocis base 5", BYTES(0xC8, 0x20), 0, 125, BYTES(CUT(k, 125)), 16, 0, k, 17);
        count("x^3 + x + 1", R5, 0, 128, BYTES(CUT(k, 128)), 16, 0, k, 0);
    }
    uint32_t n = for_valgrind ? 4096 : 1048576;
    for (uint32_t k = 1; k <= n; k *= 2) {
        count("base 2", BYTES(0x08, 0x08), 0, n, BYTES(CUT(k, n)), 16, 0, k, for_valgrind ? 14 : 22);
        count("x^3 + x + 1", R5, 0, n, BYTES(CUT(k, n)), 16, 0, k, 0);
    }
}

static void none(const char *what, const uint8_t *plan, size_t plan_len, uint64_t bound) {
    static const uint64_t start[] = {0, 1, 4294967295u, 4294967296u};
    for (int i = 0; i < 4; i++)
        count(what, plan, plan_len, start[i], 0, WINDOW, 48, 16, 0, 0, bound);
}

static void edges(void) {
    none("count 0, Halton", HALTON_6, sizeof HALTON_6, 1);
    none("count 0, permuted", PERMUTED_6, sizeof PERMUTED_6, 1);
    none("count 0, kocis", KOCIS_6, sizeof KOCIS_6, 1);
    none("count 0, Sobol", SOBOL_6, sizeof SOBOL_6, 0);
    count("the last index", BYTES(0x08, 0x08), LAST, 1, BYTES(CUT(1, 1)), 16, 0, 1, 2);
    count("the last index", BYTES(0x08, 0x08), LAST, 1, BYTES(CUT(16777215, 16777216)), 16, 0, 0, 2);
    count("base 256, up to the end", BYTES(0x0F, 0xF8), END - 65536, 65536, BYTES(CUT(1, 1)), 16, 0, 65536, 766);
}

// ---- refusals

#define REFUSED(code) code, 0, 0

// a plan's refusal comes first, whatever else is wrong: nothing, the range, the window, the buffer, all
static void refused_plan(const char *what, const uint8_t *plan, size_t plan_len, uint64_t code) {
    point(what, plan, plan_len, 0, OUT_MAX, code, NONE);
    point(what, plan, plan_len, LAST + 1, OUT_MAX, code, NONE);
    point(what, plan, plan_len, UINT64_MAX, 0, code, NONE);
    for (size_t window_len = 8; window_len <= 48; window_len += 8)
        count(what, plan, plan_len, 0, 1, WINDOW, window_len, 16, REFUSED(code));
    count(what, plan, plan_len, LAST, 2, WINDOW, 8, 16, REFUSED(code));
    count(what, plan, plan_len, 0, 1, WINDOW, 7, 16, REFUSED(code));
    count(what, plan, plan_len, 0, 1, WINDOW, 8, 15, REFUSED(code));
    count(what, plan, plan_len, UINT64_MAX, UINT64_MAX, NULL, 0, 0, REFUSED(code));
}

static void refused_plans(void) {
    refused_plan("1: no bytes", NULL, 0, HISOWAKE_TRUNCATED);
    refused_plan("1: a base cut off", BYTES(0x08), HISOWAKE_TRUNCATED);
    refused_plan("1: a kocis base cut off", BYTES(0xC8), HISOWAKE_TRUNCATED);
    for (size_t n = 0; n < sizeof LONGEST; n++)
        refused_plan("1: a front of a plan", LONGEST, n, HISOWAKE_TRUNCATED);
    refused_plan("3: no axes", BYTES(0x00), HISOWAKE_BAD_AXIS_COUNT);
    refused_plan("3: seven axes", BYTES(0x38), HISOWAKE_BAD_AXIS_COUNT);
    refused_plan("4", BYTES(0x08, 0x00), HISOWAKE_BAD_BASE);
    refused_plan("5: 2 and 4", BYTES(0x10, 0x08, 0x18), HISOWAKE_COMMON_FACTOR);
    refused_plan("6: degree 13", BYTES(0x8E, 0x80), HISOWAKE_BAD_DEGREE);
    refused_plan("7: x^2 + 1", BYTES(0x89, 0x00), HISOWAKE_NOT_PRIMITIVE);
    refused_plan("8: m_1 = 0", BYTES(0x88, 0x80), HISOWAKE_EVEN_NUMBER);
    refused_plan("9: degree 0 twice", BYTES(0x90, 0x00), HISOWAKE_REPEATED_POLYNOMIAL);
    refused_plan("10: a filling bit", BYTES(0x10, 0x08, 0x11), HISOWAKE_TRAILING_DATA);
    refused_plan("10: a byte follows", BYTES(0x08, 0x08, 0x00), HISOWAKE_TRAILING_DATA);
}

// Family 3 is refused as the other Halton families are, and never by 2: each of its first bytes alone lacks a base, or has no axes or seven.
static void refused_kocis(void) {
    for (int byte = 0xC0; byte <= 0xFF; byte++) {
        int axes = byte >> 3 & 7;
        refused_plan("kocis alone", BYTES((uint8_t)byte), axes == 0 || axes == 7 ? HISOWAKE_BAD_AXIS_COUNT : HISOWAKE_TRUNCATED);
    }
    for (size_t n = 0; n < sizeof KOCIS_6; n++)
        refused_plan("1: a front of a kocis plan", KOCIS_6, n, HISOWAKE_TRUNCATED);
    refused_plan("4, kocis", BYTES(0xC8, 0x00), HISOWAKE_BAD_BASE);
    refused_plan("5: 2 and 4, kocis", BYTES(0xD0, 0x08, 0x18), HISOWAKE_COMMON_FACTOR);
    refused_plan("10: a filling bit, kocis", BYTES(0xD0, 0x08, 0x11), HISOWAKE_TRAILING_DATA);
    refused_plan("10: a byte follows, kocis", BYTES(0xC8, 0x08, 0x00), HISOWAKE_TRAILING_DATA);
}

static void refused_points(void) {
    static const uint64_t beyond[] = {4294967296u, 4294967297u, UINT64_MAX};
    for (int i = 0; i < 3; i++) {
        point("11", SOBOL_6, sizeof SOBOL_6, beyond[i], OUT_MAX, HISOWAKE_OUT_OF_RANGE, NONE);
        point("11 before 13", SOBOL_6, sizeof SOBOL_6, beyond[i], 0, HISOWAKE_OUT_OF_RANGE, NONE);
    }
    for (size_t n = 0; n < 48; n++) {
        point("13", HALTON_6, sizeof HALTON_6, LAST, n, HISOWAKE_BUFFER_TOO_SMALL, NONE);
        point("13", SOBOL_6, sizeof SOBOL_6, 0, n, HISOWAKE_BUFFER_TOO_SMALL, NONE);
    }
}

_Static_assert(HISOWAKE_OUT_OF_RANGE == 11 && HISOWAKE_BUFFER_TOO_SMALL == 13 && HISOWAKE_BAD_WINDOW == 14, "the names' numbers");

// 11 before 14 before 13, by twos and all at once
static void refused_runs(void) {
    static const uint64_t beyond[][2] = {
        {4294967296u, 1},          {4294967295u, 2},          {4294967290u, 7},          {0, 4294967297u},
        {4294967297u, 0},          {1, 4294967296u},          {UINT64_MAX, 0},           {UINT64_MAX, 1},
        {UINT64_MAX, 2},           {1, UINT64_MAX},           {2, UINT64_MAX},           {UINT64_MAX, UINT64_MAX},
        {4294967297u, UINT64_MAX - 4294967296u},              {1ull << 63, 1ull << 63},  {UINT64_MAX - 5, 4294967296u},
    };
    for (size_t i = 0; i < sizeof beyond / sizeof beyond[0]; i++) {
        uint64_t start = beyond[i][0], n = beyond[i][1];
        count("11", SOBOL_6, sizeof SOBOL_6, start, n, WINDOW, 48, 16, REFUSED(11));
        count("11 before 14", SOBOL_6, sizeof SOBOL_6, start, n, WINDOW, 47, 16, REFUSED(11));
        count("11 before 13", SOBOL_6, sizeof SOBOL_6, start, n, WINDOW, 48, 15, REFUSED(11));
        count("11 before 14 and 13", HALTON_6, sizeof HALTON_6, start, n, NULL, 0, 0, REFUSED(11));
    }
    // every index is in range
    count("the whole range, 14", HALTON_6, sizeof HALTON_6, 0, END, WINDOW, 40, 16, REFUSED(14));
    count("the whole range, 13", HALTON_6, sizeof HALTON_6, 0, END, WINDOW, 48, 0, REFUSED(13));
}

static void bad_cut(struct cut bad) {
    for (int axis = 0; axis < 6; axis++) {
        struct cut cut[6] = {{1, 2}, {0, 1}, {16777216, 16777216}, {1, 1}, {5, 16777216}, {2, 3}};
        uint8_t window[48];
        cut[axis] = bad;
        window_bytes(cut, 6, window);
        count("14", HALTON_6, sizeof HALTON_6, 0, 10, window, 48, 16, REFUSED(14));
        count("14", SOBOL_6, sizeof SOBOL_6, END, 0, window, 48, OUT_MAX, REFUSED(14));
        count("14 before 13", PERMUTED_6, sizeof PERMUTED_6, LAST, 1, window, 48, 15, REFUSED(14));
        count("14 before 13", KOCIS_6, sizeof KOCIS_6, LAST, 1, window, 48, 15, REFUSED(14));
        count("14 before 13", SOBOL_6, sizeof SOBOL_6, 0, 10, window, 48, 0, REFUSED(14));
    }
}

static void refused_windows(void) {
    for (uint8_t axes = 1; axes <= 6; axes++) {
        // bases 2, 3, 5, 7, 11 and 13, as far as there are axes
        uint8_t plan[7];
        memcpy(plan, HALTON_6, 7);
        plan[0] = (uint8_t)(axes << 3);
        for (size_t n = 0; n <= sizeof WINDOW; n++)
            if (n != 8u * axes) {
                count("14: a length", plan, axes + 1u, 0, 6, WINDOW, n, 16, REFUSED(14));
                count("14: a length, before 13", plan, axes + 1u, 0, 6, WINDOW, n, 0, REFUSED(14));
            }
    }
    static const struct cut bad[] = {{0, 0},          {1, 0},          {0, 16777217},          {16777216, 16777217}, {0, 33554432},
                                     {0, UINT32_MAX}, {2, 1},          {16777217, 16777216},   {8, 7},               {UINT32_MAX, 16777216},
                                     {UINT32_MAX, 1}, {UINT32_MAX, 0}, {UINT32_MAX, UINT32_MAX}};
    for (size_t i = 0; i < sizeof bad / sizeof bad[0]; i++)
        bad_cut(bad[i]);
    for (size_t n = 0; n < 16; n++) {
        count("13", HALTON_6, sizeof HALTON_6, 0, 10, WINDOW, 48, n, REFUSED(13));
        count("13", PERMUTED_6, sizeof PERMUTED_6, LAST, 1, WINDOW, 48, n, REFUSED(13));
        count("13", KOCIS_6, sizeof KOCIS_6, LAST, 1, WINDOW, 48, n, REFUSED(13));
        count("13", SOBOL_6, sizeof SOBOL_6, END, 0, WINDOW, 48, n, REFUSED(13));
    }
}

// ---- the reference

// Cuts of all sizes of q, every other q a power of the base, so that points sit on cuts; the cuts of every other window are near 1, so that
// many points are inside.
static void random_cuts(const struct plan *p, struct cut *cut) {
    int wide = (int)below(2);
    for (int i = 0; i < p->axes; i++) {
        uint64_t q = 1 + below(1u << (1 + below(24))), b = p->family == SOBOL ? 2 : p->axis[i].base;
        if (below(2))
            for (q = b; q * b <= 16777216 && below(3); q *= b)
                ;
        cut[i].q = (uint32_t)q;
        cut[i].u = (uint32_t)(wide ? q - below(q / 4 + 1) : below(q + 1));
    }
}

// The reference against itself and against plans whose bytes are known.
static void reference_itself(void) {
    static const struct {
        int plan;
        const uint8_t *bytes;
        size_t len;
    } known[] = {{0, HALTON_6, sizeof HALTON_6},
                 {2, PERMUTED_6, sizeof PERMUTED_6},
                 {5, SOBOL_6, sizeof SOBOL_6},
                 {6, LONGEST, sizeof LONGEST},
                 {7, KOCIS_6, sizeof KOCIS_6}};
    for (int i = 0; i < 5; i++) {
        uint8_t bytes[PLAN_MAX] = {0};
        check(plan_bytes(&plans[known[i].plan], bytes) == known[i].len && memcmp(bytes, known[i].bytes, known[i].len) == 0, "plan bytes", 0);
    }
    for (int i = 0; i < PLANS; i++)
        if (plans[i].family == SOBOL) {
            uint64_t x[6] = {0}, y[6], n = 0;
            for (point_of(&plans[i], n, y); n < 100000 && memcmp(x, y, sizeof x) == 0; point_of(&plans[i], n, y))
                sobol_step(&plans[i], n++, x);
            check(n == 100000, "steps and jumps of the reference", n);
        }
}

static void compare_point(const struct plan *p, const uint8_t *plan, size_t plan_len, uint64_t index) {
    uint64_t x[6];
    point_of(p, index, x);
    point("a point of the reference", plan, plan_len, index, 8 * (size_t)p->axes, 0, p->axes, x);
}

static void compare_count(const struct plan *p, const uint8_t *plan, size_t plan_len, uint64_t start, uint64_t n, const struct cut *cut) {
    uint8_t window[48];
    size_t window_len = window_bytes(cut, p->axes, window);
    count("a count of the reference", plan, plan_len, start, n, window, window_len, 16 + below(2) * 24, 0,
          inside_count(p, start, n, cut), bound_of(p, n));
}

// Points of all sizes of index, and counts of runs in one part of 1,024 points and in some, from near 0, from the midst and up to the end.
static void compare(const struct plan *p) {
    static const uint64_t sizes[] = {1, 2, 100, 1023, 1024, 1025, 2048, 3000};
    uint8_t plan[PLAN_MAX] = {0};
    size_t plan_len = plan_bytes(p, plan);
    for (int i = 0; i < 100; i++) {
        compare_point(p, plan, plan_len, below(1ull << (1 + below(32))));
        compare_point(p, plan, plan_len, LAST - below(1000));
    }
    for (size_t i = 0; i < sizeof sizes / sizeof sizes[0]; i++) {
        uint64_t n = sizes[i];
        struct cut cut[6], all[6];
        const uint64_t start[] = {0, below(5000), 16777216 + below(4261412864u), END - n};
        for (int j = 0; j < 4; j++) {
            random_cuts(p, cut);
            compare_count(p, plan, plan_len, start[j], n, cut);
        }
        // u = q on every axis counts all, u = 0 on one axis none
        uint8_t window[48];
        for (int k = 0; k < p->axes; k++)
            all[k].u = all[k].q = 1 + (uint32_t)below(16777216);
        size_t window_len = window_bytes(all, p->axes, window);
        count("u = q", plan, plan_len, start[i % 4], n, window, window_len, 16, 0, n, bound_of(p, n));
        all[below((uint64_t)p->axes)].u = 0;
        window_bytes(all, p->axes, window);
        count("u = 0", plan, plan_len, start[i % 4], n, window, window_len, 16, 0, 0, bound_of(p, n));
    }
}

// ---- the header's sizes and plans, and the denominators

_Static_assert(HISOWAKE_AXES_MAX == AXES_MAX && HISOWAKE_PLAN_MAX == PLAN_MAX && HISOWAKE_PLAN_MAX == sizeof LONGEST, "the longest plan");
_Static_assert(HISOWAKE_POINT_MAX == 8 * AXES_MAX && HISOWAKE_WINDOW_MAX == WINDOW_MAX && HISOWAKE_COUNT_SIZE == 16, "the other sizes");

static void header_plans(void) {
    static struct plan spelled[] = {
        {HALTON, 2, {{.base = 2}, {.base = 3}}},
        {PERMUTED, 3, {{.base = 4}, {.base = 9}, {.base = 25}}},
        {SOBOL, 2, {{.degree = 0}, {.degree = 3, .a = {0, 1}, .m = {1, 3, 7}}}},
        {KOCIS, 2, {{.base = 227}, {.base = 229}}},
    };
    static const uint8_t known[][4] = {{0x10, 0x08, 0x10}, {0x58, 0x18, 0x40, 0xC0}, {0x90, 0x1B, 0xF8}, {0xD7, 0x17, 0x20}};
    static const size_t lengths[] = {3, 4, 3, 3};
    for (int i = 0; i < FAMILIES; i++) {
        uint8_t bytes[PLAN_MAX] = {0};
        uint64_t x[6];
        complete(&spelled[i]);
        check(plan_bytes(&spelled[i], bytes) == lengths[i] && memcmp(bytes, known[i], lengths[i]) == 0, "a plan of the header", (uint64_t)i);
        point_of(&spelled[i], 12345, x);
        point("a plan of the header", known[i], lengths[i], 12345, HISOWAKE_POINT_MAX, 0, spelled[i].axes, x);
    }
}

static void denominators(void) {
    static const uint64_t known[][2] = {{2, 4294967296u},   {3, 10460353203u},    {5, 6103515625u},  {7, 13841287201u}, {13, 10604499373u},
                                        {16, 4294967296u},  {255, 1078203909375u}, {256, 4294967296u}, {0, 0},            {1, 0}};
    for (size_t i = 0; i < sizeof known / sizeof known[0]; i++)
        check(denominator_of_base((uint32_t)known[i][0]) == known[i][1], "the denominator of a base", known[i][0]);
    for (int i = 0; i < PLANS; i++)
        for (int axes = 1; axes <= 6; axes++) {
            struct plan p = last_axes(&plans[i], axes);
            uint8_t plan[PLAN_MAX] = {0};
            uint64_t found[HISOWAKE_AXES_MAX];
            check(denominators_of_plan(plan, plan_bytes(&p, plan), found) == axes, "axes", (uint64_t)axes);
            for (int axis = 0; axis < axes; axis++)
                check(found[axis] == p.axis[axis].denominator, "the denominator of an axis", (uint64_t)axis);
        }
    uint64_t none[HISOWAKE_AXES_MAX] = {1, 2, 3, 4, 5, 6};
    check(denominators_of_plan(NULL, 0, none) == 0 && denominators_of_plan(BYTES(0xC8), none) == 0 && none[0] == 1, "no plan", 0);
}

// ---- the stack

static uint8_t stack_plan[PLAN_MAX], stack_out[48];
static size_t stack_plan_len, stack_window_len;

static void point_on_stack(void) { hisowake_point(stack_plan, stack_plan_len, LAST, stack_out, sizeof stack_out); }

static void count_on_stack(void) {
    hisowake_window_count(stack_plan, stack_plan_len, END - 1500, 1500, WINDOW, stack_window_len, stack_out, sizeof stack_out);
}

// What a call takes of a stack of this size, which has to be 256 bytes less at least.
static size_t less_than(void (*call)(void), size_t size) {
    size_t took = stack_of(call, size);
    check(took + 256 <= size, "stack", took);
    return took;
}

static void stacks(void) {
    size_t point_most = 0, count_most = 0;
    for (int i = 0; i < PLANS; i++)
        for (int axes = 1; axes <= 6; axes++) {
            struct plan p = last_axes(&plans[i], axes);
            memset(stack_plan, 0, sizeof stack_plan);
            stack_plan_len = plan_bytes(&p, stack_plan);
            stack_window_len = 8 * (size_t)axes;
            size_t took = less_than(point_on_stack, POINT_STACK);
            point_most = took > point_most ? took : point_most;
            took = less_than(count_on_stack, COUNT_STACK);
            count_most = took > count_most ? took : count_most;
        }
    printf("C: stack: the point %zu bytes, the count %zu bytes\n", point_most, count_most);
}

int main(int argc, char **argv) {
    setvbuf(stdout, NULL, _IOLBF, 0);
    random_state = SEED;
    for_valgrind = argc > 1 && strcmp(argv[1], "valgrind") == 0;
    plan_buffer = new_buffer();
    window_buffer = new_buffer();
    out_buffer = new_buffer();
    for (int i = 0; i < PLANS; i++)
        complete(&plans[i]);

    reference_points();
    kocis_points();
    six_axes();
    reference_counts();
    multiples();
    edges();
    refused_plans();
    refused_kocis();
    refused_points();
    refused_runs();
    refused_windows();
    reference_itself();
    header_plans();
    denominators();
    for (int i = 0; i < PLANS; i++)
        for (int axes = 1; axes <= 6; axes++) {
            struct plan p = last_axes(&plans[i], axes);
            compare(&p);
        }
    if (!for_valgrind)
        stacks();

    printf("C: %d checks, %d failed; seed %d\n", checks, failures, SEED);
    return failures != 0;
}
