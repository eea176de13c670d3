// The calls that are measured, and plans to measure them with: as bytes, and as plain C has them.
#pragma once
#include <cstddef>
#include <cstdint>
#include <string>
#include <vector>

extern "C" {
#include "baseline.h"
#include "hisowake.h"
#include "strips.h"
// the calls on a state or a day set, in loops (crate bench_calls); a slice is a pointer and a length
uint64_t bench_blocks(const uint8_t *plan, size_t plan_len, const uint64_t *starts, size_t starts_len, uint64_t rounds, uint64_t *out,
                      size_t out_len);
uint64_t bench_day_blocks(const uint8_t *plan, size_t plan_len, uint64_t size, uint64_t rounds, uint64_t *out, size_t out_len);
uint64_t bench_jumps(const uint8_t *plan, size_t plan_len, const uint64_t *indexes, size_t indexes_len, uint64_t *out, size_t out_len);
uint64_t bench_slots(const uint8_t *plan, size_t plan_len, const uint64_t *indexes, size_t indexes_len, uint64_t axis, uint64_t slots, bool daily);
uint64_t bench_axis_jumps(uint64_t family, uint64_t base, const uint64_t *indexes, size_t indexes_len);
uint64_t bench_steps(const uint8_t *plan, size_t plan_len, const uint64_t *starts, size_t starts_len, uint64_t rounds, uint64_t *out,
                     size_t out_len);
uint64_t bench_steps_in_place(const uint8_t *plan, size_t plan_len, const uint64_t *starts, size_t starts_len, uint64_t rounds, uint64_t *out,
                              size_t out_len);
uint64_t bench_counts(const uint8_t *plan, size_t plan_len, const uint64_t *starts, size_t starts_len, uint64_t count, const uint64_t *window,
                      size_t window_len, bool by_strips, uint64_t rounds);
uint64_t bench_day_counts(const uint8_t *plan, size_t plan_len, uint64_t size, const uint64_t *window, size_t window_len, uint64_t rounds);
}

struct Case {
    std::string name;
    plan_t plan;
    std::vector<uint8_t> bytes;
};

// A start for each of six axes: the first, and each so far after the one before, or the same for all.
struct Starts {
    uint64_t at[6];
    explicit Starts(uint64_t first, uint64_t apart = 0) {
        for (uint64_t a = 0; a < 6; a++)
            at[a] = first + a * apart;
    }
};

// The calls on a run, which take a start for each axis of the plan.
static inline uint64_t blocks_of(const Case &c, const Starts &from, uint64_t rounds, uint64_t *out, size_t len) {
    return bench_blocks(c.bytes.data(), c.bytes.size(), from.at, (size_t)c.plan.axes, rounds, out, len);
}

static inline uint64_t steps_of(const Case &c, const Starts &from, uint64_t rounds, uint64_t *out, size_t len) {
    return bench_steps(c.bytes.data(), c.bytes.size(), from.at, (size_t)c.plan.axes, rounds, out, len);
}

static inline uint64_t steps_in_place_of(const Case &c, const Starts &from, uint64_t rounds, uint64_t *out, size_t len) {
    return bench_steps_in_place(c.bytes.data(), c.bytes.size(), from.at, (size_t)c.plan.axes, rounds, out, len);
}

static inline uint64_t counts_of(const Case &c, const Starts &from, uint64_t count, const uint64_t *window, bool by_strips, uint64_t rounds) {
    return bench_counts(c.bytes.data(), c.bytes.size(), from.at, (size_t)c.plan.axes, count, window, 2 * (size_t)c.plan.axes, by_strips, rounds);
}

// A list of so many indexes around one of 27 binary digits.
static inline std::vector<uint64_t> indexes_of(uint64_t count) {
    std::vector<uint64_t> indexes(count);
    for (uint64_t i = 0; i < count; i++)
        indexes[i] = 123456789 ^ i;
    return indexes;
}

static inline uint64_t jumps_of(const Case &c, const std::vector<uint64_t> &indexes, uint64_t *out) {
    return bench_jumps(c.bytes.data(), c.bytes.size(), indexes.data(), indexes.size(), out, 6);
}

static void put_bits(std::vector<uint8_t> &bytes, unsigned &at, unsigned width, unsigned value) {
    for (unsigned i = width; i-- > 0; at++) {
        if (at / 8 == bytes.size())
            bytes.push_back(0);
        bytes[at / 8] |= (value >> i & 1) << (7 - at % 8);
    }
}

// The families' names in the tables, by number, and the numbers of those of Halton.
static const char *const FAMILIES[] = {"Halton", "permuted", "Sobol", "kocis"};
static const int HALTON_FAMILIES[] = {0, 1, 3};

static const std::vector<unsigned> SMALL_BASES = {2, 3, 5, 7, 11, 13}, LARGE_BASES = {256, 255, 253, 251, 247, 241};

static Case halton(int family, const std::vector<unsigned> &bases) {
    Case c{FAMILIES[family], {}, {}};
    unsigned at = 0;
    c.plan.family = family;
    c.plan.axes = (int)bases.size();
    put_bits(c.bytes, at, 2, (unsigned)family);
    put_bits(c.bytes, at, 3, (unsigned)bases.size());
    for (size_t i = 0; i < bases.size(); i++) {
        c.name += " " + std::to_string(bases[i]);
        c.plan.base[i] = bases[i];
        put_bits(c.bytes, at, 8, bases[i] - 1);
    }
    return c;
}

// An axis of a Sobol plan: the degree, the coefficients as a number, and the m's.
struct Axis {
    unsigned degree, coefficients;
    std::vector<unsigned> m;
};

static Case sobol(const char *name, const std::vector<Axis> &axes) {
    Case c{name, {}, {}};
    unsigned at = 0;
    c.plan.family = 2;
    c.plan.axes = (int)axes.size();
    put_bits(c.bytes, at, 2, 2);
    put_bits(c.bytes, at, 3, (unsigned)axes.size());
    for (size_t a = 0; a < axes.size(); a++) {
        unsigned d = axes[a].degree;
        std::vector<uint64_t> m(axes[a].m.begin(), axes[a].m.end());
        put_bits(c.bytes, at, 4, d);
        put_bits(c.bytes, at, d ? d - 1 : 0, axes[a].coefficients);
        for (unsigned i = 0; i < d; i++)
            put_bits(c.bytes, at, i + 1, (unsigned)m[i]);
        for (unsigned i = d; i < 32; i++) {
            uint64_t x = d ? m[i - d] ^ (m[i - d] << d) : 1;
            for (unsigned k = 1; k < d; k++)
                if (axes[a].coefficients >> (d - 1 - k) & 1)
                    x ^= m[i - k] << k;
            m.push_back(x);
        }
        for (unsigned i = 0; i < 32; i++)
            c.plan.direction[a][i] = (uint32_t)(m[i] << (31 - i));
    }
    return c;
}

static const std::vector<Axis> SIX = {{0, 0, {}}, {1, 0, {1}}, {2, 1, {1, 3}}, {3, 1, {1, 3, 1}}, {3, 2, {1, 1, 1}}, {4, 1, {1, 1, 3, 3}}};

static std::vector<Axis> first(size_t n) { return {SIX.begin(), SIX.begin() + (long)n}; }

// Six axes of degree 12, the largest that a plan may have: the longest test of a state.
static Case six_of_degree_12() {
    std::vector<Axis> axes;
    for (unsigned p : {0x1053u, 0x1069u, 0x107bu, 0x107du, 0x1099u, 0x10d1u})
        axes.push_back({12, p >> 1 & 2047, std::vector<unsigned>(12, 1)});
    return sobol("Sobol, 6 axes of degree 12", axes);
}
