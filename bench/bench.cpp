// The calls beside their peers, in one run: nanoseconds a point or a call, and how many times as long the peer takes. The programs of a row take
// turns, and each figure is the least of 101 turns (fewer for counts by strips), so that a slow spell of the machine meets them all. First it is
// checked that ours and plain C write the same points.
#include <algorithm>
#include <chrono>
#include <cstdio>
#include <cstdlib>
#include <cstring>
#include <functional>
#include <memory>
#include <numeric>
#include <string>
#include <vector>

#include <boost/random/sobol.hpp>
#include <gsl/gsl_qrng.h>
#include <ql/math/randomnumbers/haltonrsg.hpp>
#include <ql/math/randomnumbers/sobolrsg.hpp>

#include "calls.hpp"

// A program of a row: its name, and a turn, which makes so many points or calls.
struct Program {
    const char *name;
    double makes;
    std::function<void()> turn;
};

// Nanoseconds that each program takes for one point or call: the least of so many turns.
static std::vector<double> race(const std::vector<Program> &programs, int turns = 101) {
    std::vector<double> best(programs.size(), 1e300);
    for (int i = 0; i < turns; i++)
        for (size_t k = 0; k < programs.size(); k++) {
            auto t = std::chrono::steady_clock::now();
            programs[k].turn();
            std::chrono::duration<double, std::nano> d = std::chrono::steady_clock::now() - t;
            best[k] = std::min(best[k], d.count() / programs[k].makes);
        }
    return best;
}

static std::vector<Case> cases() {
    return {halton(0, {2}), halton(0, {2, 3, 5}), halton(0, SMALL_BASES), halton(0, LARGE_BASES),
            halton(1, {5}), halton(1, {3, 5, 7}), halton(1, SMALL_BASES), halton(1, LARGE_BASES),
            halton(3, {5}), halton(3, {3, 5, 7}), halton(3, SMALL_BASES), halton(3, LARGE_BASES),
            sobol("Sobol, 1 axis", first(1)), sobol("Sobol, 3 axes", first(3)), sobol("Sobol, 6 axes", first(6)), six_of_degree_12()};
}

static void check(bool holds, const std::string &what) {
    if (!holds) {
        printf("FAILED: %s\n", what.c_str());
        exit(1);
    }
}

static void same(const Case &c) {
    size_t n = 5000, s = (size_t)c.plan.axes;
    std::vector<uint64_t> ours(n * s), plain(n * s);
    for (uint64_t start : {0u, 12345u, 4293918720u}) { // a block's run has 2^20 points
        check(blocks_of(c, Starts(start), 1, ours.data(), ours.size()) == n, c.name + ": a block");
        baseline_block(&c.plan, start, n, plain.data());
        check(ours == plain, c.name + ": points");
    }
}

static void same_day_set(const Case &c) {
    size_t n = 5000, s = (size_t)c.plan.axes;
    std::vector<uint64_t> ours(n * (s + 1)), plain(n * s), rows;
    check(bench_day_blocks(c.bytes.data(), c.bytes.size(), n, 1, ours.data(), ours.size()) == n, c.name + ": a block of a day set");
    baseline_block(&c.plan, 0, n, plain.data());
    for (size_t i = 0; i < n; i++) {
        rows.push_back(i);
        rows.insert(rows.end(), &plain[i * s], &plain[i * s] + s);
    }
    check(ours == rows, c.name + ": points of a day set");
}

// One axis of a plan alone, as plain C has it, and its denominator.
static plan_t one_axis(const plan_t &p, int a) {
    plan_t one = p;
    one.axes = 1;
    one.base[0] = p.base[a];
    memcpy(one.direction[0], p.direction[a], sizeof one.direction[0]);
    return one;
}

static uint64_t denominator(const plan_t &p) {
    uint64_t d = p.family == 2 ? 4294967296u : p.base[0];
    while (d < 4294967296u)
        d *= p.base[0];
    return d;
}

// A run with a start for each axis, by a block, by steps and by both counts, is what plain C gives on each axis alone.
static void same_apart(const Case &c, const Starts &from, const uint64_t *window) {
    size_t n = 5000, s = (size_t)c.plan.axes;
    std::vector<uint64_t> ours(n * s), plain(n * s), column(n), last(s);
    std::vector<bool> in(n, true);
    for (size_t a = 0; a < s; a++) {
        plan_t axis = one_axis(c.plan, (int)a);
        baseline_block(&axis, from.at[a], n, column.data());
        for (size_t i = 0; i < n; i++) {
            plain[i * s + a] = column[i];
            in[i] = in[i] && column[i] * window[2 * a + 1] < window[2 * a] * denominator(axis);
        }
    }
    uint64_t inside = (uint64_t)std::count(in.begin(), in.end(), true);
    check(blocks_of(c, from, 1, ours.data(), ours.size()) == n && ours == plain, c.name + ": points with a start for each axis");
    check(steps_of(c, from, n, last.data(), s) == 0 && std::equal(last.begin(), last.end(), plain.end() - (long)s), c.name + ": the last by steps");
    for (bool by_strips : {false, true})
        check(counts_of(c, from, n, window, by_strips, 1) == inside, c.name + ": S with a start for each axis");
}

// Prints a row: the first figure is ours.
static void print_row(const std::string &name, const char *unit, const std::vector<const char *> &names, const std::vector<double> &figures) {
    printf("| %-36s | %8.2f %s |", name.c_str(), figures[0], unit);
    for (size_t k = 1; k < names.size(); k++)
        printf(" %s %.2f (x %.2f)", names[k], figures[k], figures[k] / figures[0]);
    printf(" |\n");
}

// Races the programs, of which the first is ours, and prints their row.
static void row(const std::string &name, const std::vector<Program> &programs) {
    std::vector<const char *> names;
    for (const Program &p : programs)
        names.push_back(p.name);
    print_row(name, "ns", names, race(programs));
}

static Program gsl_points(const gsl_qrng_type *type, unsigned axes) {
    std::shared_ptr<gsl_qrng> q(gsl_qrng_alloc(type, axes), gsl_qrng_free);
    return {"GSL", 100000, [q] { double v[6]; for (int i = 0; i < 100000; i++) gsl_qrng_get(q.get(), v); }};
}

using Engine = boost::random::sobol_engine<uint32_t, 32>;
static volatile uint32_t sink;

static Program boost_points(size_t axes) {
    auto e = std::make_shared<Engine>(axes);
    return {"Boost", 100000, [e, axes] { for (size_t i = 0; i < 100000 * axes; i++) sink = (*e)(); }};
}

static Program quantlib_halton(size_t axes) {
    auto r = std::make_shared<QuantLib::HaltonRsg>(axes, 0, false, false);
    return {"QuantLib", 20000, [r] { for (int i = 0; i < 20000; i++) r->nextSequence(); }};
}

static Program quantlib_sobol(size_t axes) {
    auto r = std::make_shared<QuantLib::SobolRsg>(axes);
    return {"QuantLib", 100000, [r] { for (int i = 0; i < 100000; i++) r->nextInt32Sequence(); }};
}

// The indexes of a turn of 1,000 jumps.
template <class Jump> static std::function<void()> jumps(Jump jump) {
    return [jump] { for (uint32_t i = 0; i < 1000; i++) jump(123456789 ^ i); };
}

// A jump to an index and the point there; GSL has no jump, and QuantLib none for Halton.
static Program boost_jumps(size_t axes) {
    auto e = std::make_shared<Engine>(axes);
    return {"Boost", 1000, jumps([e, axes](uint32_t n) { e->seed(n); for (size_t a = 0; a < axes; a++) sink = (*e)(); })};
}

static Program quantlib_jumps(size_t axes) {
    auto r = std::make_shared<QuantLib::SobolRsg>(axes);
    return {"QuantLib", 1000, jumps([r](uint32_t n) { r->skipTo(n); r->nextInt32Sequence(); })};
}

static bool is_first_primes(const Case &c) {
    return c.plan.family == 0 && std::equal(c.plan.base, c.plan.base + c.plan.axes, SMALL_BASES.begin());
}

static void blocks(const std::vector<Case> &all) {
    printf("\n## A block of 100,000 points: ns a point\n\n| plan | ours | peers, and how many times as long |\n|---|---|---|\n");
    for (const Case &c : all) {
        size_t n = 100000, s = (size_t)c.plan.axes;
        std::vector<uint64_t> out(n * s);
        std::vector<Program> programs = {
            {"ours", (double)n, [&] { blocks_of(c, Starts(12345), 1, out.data(), out.size()); }},
            {"C", (double)n, [&] { baseline_block(&c.plan, 12345, n, out.data()); }}};
        if (is_first_primes(c)) {
            programs.push_back(gsl_points(gsl_qrng_halton, (unsigned)s));
            programs.push_back(quantlib_halton(s));
        }
        if (c.plan.family == 2) {
            programs.push_back(boost_points(s));
            programs.push_back(gsl_points(gsl_qrng_sobol, (unsigned)s));
            programs.push_back(quantlib_sobol(s));
        }
        row(c.name, programs);
    }
}

static void small_blocks(const std::vector<Case> &all) {
    printf("\n## A small block: ns a call, the state test included\n\n| plan | ours | plain C, tables made at each call |\n|---|---|---|\n");
    for (const Case &c : all)
        for (size_t n : {1u, 64u}) {
            std::vector<uint64_t> out(n * (size_t)c.plan.axes);
            row(c.name + ", " + std::to_string(n),
                {{"ours", 200, [&] { blocks_of(c, Starts(12345), 200, out.data(), out.size()); }},
                 {"C", 200, [&] { for (int i = 0; i < 200; i++) baseline_block(&c.plan, 12345, n, out.data()); }}});
        }
}

// A day set's block beside a run's block of as many points and a column of numbers by plain C, in rows as wide. The column goes over the block:
// only the time counts.
static void day_blocks(const std::vector<Case> &all) {
    printf("\n## A block of a day set of 100,000 points: ns a point\n\n| plan | ours | the run's block, and the column by plain C |\n|---|---|---|\n");
    for (const Case &c : all) {
        size_t n = 100000, s = (size_t)c.plan.axes;
        std::vector<uint64_t> out(n * (s + 1));
        row(c.name, {{"ours", (double)n, [&] { bench_day_blocks(c.bytes.data(), c.bytes.size(), n, 1, out.data(), out.size()); }},
                     {"block, C", (double)n, [&] {
                          blocks_of(c, Starts(0), 1, out.data(), n * s);
                          baseline_column(n, s + 1, out.data());
                      }}});
    }
}

// A window: the cuts given, then 1/2, 2/3, .. for the axes of the plan.
static std::vector<uint64_t> window_of(const Case &c, std::vector<uint64_t> cuts) {
    for (uint64_t a = 1; a <= (uint64_t)c.plan.axes; a++)
        cuts.insert(cuts.end(), {a, a + 1});
    return cuts;
}

static void counts(const std::vector<Case> &all) {
    printf("\n## A window count over 200,000 points: ns a point\n\n| plan | ours | plain C |\n|---|---|---|\n");
    for (const Case &c : all) {
        uint64_t n = 200000, s = 0, plain = 0;
        std::vector<uint64_t> window = window_of(c, {});
        row(c.name, {{"ours", (double)n, [&] { s = counts_of(c, Starts(12345), n, window.data(), false, 1); }},
                     {"C", (double)n, [&] { plain = baseline_count(&c.plan, 12345, n, window.data()); }}});
        check(s == plain, c.name + ": S");
    }
}

// A permutation moves the strips and makes them no more or fewer, so that family 3 has one axis and six alone.
static std::vector<Case> strip_cases() {
    std::vector<Case> cases;
    for (int family : HALTON_FAMILIES)
        for (const std::vector<unsigned> &bases : {SMALL_BASES, LARGE_BASES})
            for (size_t axes : {1, 2, 3, 6})
                if (family != 3 || axes == 1 || axes == 6)
                    cases.push_back(halton(family, {bases.begin(), bases.begin() + (long)axes}));
    return cases;
}

using Window = std::vector<uint64_t>;

// Windows with cuts between 1/8 and 1 over the largest prime below 2^24, whose digits end in no base.
static std::vector<Window> strip_windows(const Case &c) {
    const uint64_t q = 16777213;
    std::vector<Window> windows(3);
    uint64_t i = 0;
    for (Window &w : windows)
        for (int a = 0; a < c.plan.axes; a++)
            w.insert(w.end(), {q / 8 + ++i * 2654435761 % (q - q / 8), q});
    return windows;
}

// The points of a run in the name of a row.
static std::string points_of(uint64_t n) { return n == 10000 ? ", 10^4" : n == 1000000 ? ", 10^6" : ", 2^32 - 1"; }

// Counts of each of some windows, so many times a turn, and their S in the order of the windows.
struct Counter {
    const char *name;
    std::function<uint64_t(const Window &, uint64_t)> count; // so many times
    std::vector<uint64_t> inside;

    Program turn(const std::vector<Window> &windows, uint64_t times) {
        return {name, 1000.0 * (double)(windows.size() * times), [this, &windows, times] {
                    inside.clear();
                    for (const Window &w : windows)
                        inside.push_back(count(w, times));
                }};
    }
};

template <class Count> static std::function<uint64_t(const Window &, uint64_t)> repeated(Count count) {
    return [count](const Window &w, uint64_t times) {
        uint64_t s = 0;
        for (uint64_t i = 0; i < times; i++)
            s = count(w);
        return s;
    };
}

// Microseconds a window, in some 0.3 seconds; a turn has so many counts that it takes 50 µs or more.
static std::vector<double> race_counts(std::vector<Counter> &counters, const std::vector<Window> &windows) {
    auto programs = [&](uint64_t times) {
        std::vector<Program> p;
        for (Counter &c : counters)
            p.push_back(c.turn(windows, times));
        return p;
    };
    double all = 0;
    std::vector<double> once = race(programs(1), 1);
    for (double us : once)
        all += us * (double)windows.size();
    uint64_t times = (uint64_t)std::max(1.0, std::min(50.0, 50 / once[0]));
    return race(programs(times), std::max(2, std::min(101, (int)(300000 / all / (double)times))));
}

// Counts by strips beside both counts in plain C and the walk. The walk over 2^32 - 1 points is computed from that over 10^6; six large bases are
// walked there, and left out.
static void strips() {
    printf("\n## A window count by strips: µs a window\n\n| plan, points | ours | plain C and the walk, and how many times as long |\n|---|---|---|\n");
    for (const Case &c : strip_cases()) {
        std::vector<Window> windows = strip_windows(c);
        double walk = 0; // µs a point
        for (uint64_t n : {10000u, 1000000u, 4294967295u}) {
            bool is_long = n > 1000000;
            if (is_long && c.plan.base[0] == 256 && c.plan.axes == 6)
                continue;
            auto ours = [&](bool by_strips) {
                return [&c, n, by_strips](const Window &w, uint64_t times) { return counts_of(c, Starts(0), n, w.data(), by_strips, times); };
            };
            std::vector<Counter> counters = {
                {"ours", ours(true), {}},
                {"C by classes", repeated([&](const Window &w) { return strips_by_classes(&c.plan, 0, n, w.data()); }), {}},
                {"C by residues", repeated([&](const Window &w) { return strips_by_residues(&c.plan, 0, n, w.data()); }), {}}};
            if (!is_long)
                counters.push_back({"walk", ours(false), {}});
            std::vector<double> us = race_counts(counters, windows);
            for (const Counter &peer : counters)
                check(peer.inside == counters[0].inside, c.name + points_of(n) + ": S of ours and of " + peer.name);
            if (is_long)
                us.push_back(walk * (double)n);
            else
                walk = us[3] / (double)n;
            print_row(c.name + points_of(n), "µs", {"ours", "C by classes", "C by residues", is_long ? "walk, computed" : "walk"}, us);
        }
    }
}

// Numbers below a limit, the same in every run.
struct Numbers {
    uint64_t state = 20261116;
    uint64_t below(uint64_t limit) {
        state = state * 6364136223846793005 + 1442695040888963407;
        return (state >> 33) % limit;
    }
};

// One to six bases up to the limit, no two with a common factor.
static std::vector<unsigned> random_bases(Numbers &r, unsigned limit) {
    std::vector<unsigned> bases;
    size_t axes = 1 + r.below(6);
    for (int tries = 0; bases.size() < axes && tries < 1000; tries++) {
        unsigned b = 2 + (unsigned)r.below(limit - 1);
        if (std::all_of(bases.begin(), bases.end(), [b](unsigned a) { return std::gcd(a, b) == 1; }))
            bases.push_back(b);
    }
    return bases;
}

// Cuts anywhere, from 7/10 up, or just below 1.
static Window random_window(Numbers &r, size_t axes) {
    const uint64_t q = 16777213;
    const uint64_t low[] = {0, q / 10 * 7, q - 1000};
    uint64_t from = low[r.below(3)];
    Window w;
    for (size_t a = 0; a < axes; a++)
        w.insert(w.end(), {from + r.below(q - from), q});
    return w;
}

// The count by strips beside the walk on random Halton plans, runs and windows: how often it is slower by more than a tenth, and the most.
static void random_strips() {
    printf("\n## A window count by strips beside the walk, on random plans\n\n| points, bases | windows | more than 1.1 x of the walk | the most | median of the "
           "walk over ours |\n|---|---|---|---|---|\n");
    Numbers r;
    for (uint64_t n : {1024u, 8192u, 65536u, 524288u})
        for (unsigned limit : {16u, 256u}) {
            std::vector<double> ratios;
            for (int k = 0; k < 200; k++) {
                std::vector<unsigned> bases = random_bases(r, limit);
                Case c = halton(HALTON_FAMILIES[r.below(3)], bases);
                uint64_t count = n + r.below(n), start = r.below(1u << 31), s[2];
                Window w = random_window(r, bases.size());
                uint64_t times = std::max<uint64_t>(1, 32768 / count);
                auto turn = [&](int by_strips) {
                    return [&, by_strips] { s[by_strips] = counts_of(c, Starts(start), count, w.data(), by_strips, times); };
                };
                std::vector<Program> both = {{"walk", 1, turn(0)}, {"ours", 1, turn(1)}};
                std::vector<double> ns = race(both, 7);
                if (ns[1] > 1.05 * ns[0]) // or so it seems
                    ns = race(both);
                check(s[0] == s[1], "S by strips on random plans");
                ratios.push_back(ns[1] / ns[0]);
            }
            std::sort(ratios.begin(), ratios.end());
            printf("| from %llu, up to %u | %zu | %td | %.2f | %.2f |\n", (unsigned long long)n, limit, ratios.size(),
                   std::count_if(ratios.begin(), ratios.end(), [](double x) { return x > 1.1; }), ratios.back(), 1 / ratios[ratios.size() / 2]);
        }
}

// A count over a day set with the leading cut 1/4 beside one with 4/4, and beside the walk over a run of a quarter of the points.
static void day_counts(const std::vector<Case> &all) {
    printf("\n## A window count over a day set of 200,000 points: µs a window\n\n| plan | leading cut 1/4 | the whole set, and a quarter walked |\n|---|---|---|\n");
    const double us = 1000; // ns
    for (const Case &c : all) {
        uint64_t n = 200000, s = 0, t = 0, walked = 0;
        std::vector<uint64_t> plain = window_of(c, {}), quarter = window_of(c, {1, 4}), whole = window_of(c, {4, 4});
        print_row(c.name, "µs", {"ours", "whole", "walk"},
                  race({{"ours", us, [&] { s = bench_day_counts(c.bytes.data(), c.bytes.size(), n, quarter.data(), quarter.size(), 1); }},
                        {"whole", us, [&] { t = bench_day_counts(c.bytes.data(), c.bytes.size(), n, whole.data(), whole.size(), 1); }},
                        {"walk", us, [&] { walked = counts_of(c, Starts(0), n / 4, plain.data(), false, 1); }}}));
        check(s == baseline_count(&c.plan, 0, n / 4, plain.data()), c.name + ": S of a quarter of a day set");
        check(t == baseline_count(&c.plan, 0, n, plain.data()), c.name + ": S of a day set");
        check(s == walked, c.name + ": S of a quarter of a day set, walked");
    }
}

static void axis_jumps() {
    printf("\n## A jump on one Halton axis, no state: ns\n\n| axis | ours | C with the reciprocal and the denominator stored |\n|---|---|---|\n");
    const std::vector<uint64_t> indexes = indexes_of(10000);
    for (int family : HALTON_FAMILIES)
        for (unsigned b : {2u, 3u, 13u, 241u, 256u}) {
            const Case c = halton(family, {b});
            uint64_t ours = 0, plain = 0, reciprocal = UINT64_MAX / b + 1, d = denominator(c.plan);
            row(c.name, {{"ours", 10000, [&] { ours = bench_axis_jumps((uint64_t)family, b, indexes.data(), indexes.size()); }},
                         {"C", 10000, [&] {
                              plain = 0;
                              for (uint64_t n : indexes)
                                  plain ^= baseline_axis_jump(family, b, reciprocal, d, n);
                          }}});
            check(ours == plain, "a jump in base " + std::to_string(b));
        }
}

// A jump to the index 1 beside one to the last index, whose digits reach the depth.
static void short_jumps() {
    printf("\n## A jump to the index 1 beside one to 4,294,967,295: ns\n\n| base, call | 1 | 4,294,967,295, and how many times as long |\n|---|---|---|\n");
    const std::vector<uint64_t> one(1000, 1), last(1000, 4294967295);
    for (unsigned b : {2u, 3u, 13u, 256u}) {
        const Case c = halton(0, {b});
        auto pair = [&](const char *call, const std::function<void(const std::vector<uint64_t> &)> &turn) {
            row(std::to_string(b) + ", " + call, {{"1", 1000, [&] { turn(one); }}, {"last", 1000, [&] { turn(last); }}});
        };
        pair("the axis alone", [&](const std::vector<uint64_t> &indexes) { bench_axis_jumps(0, b, indexes.data(), indexes.size()); });
        pair("a jump on a state", [&](const std::vector<uint64_t> &indexes) { uint64_t out[6]; jumps_of(c, indexes, out); });
        pair("the C point", [&](const std::vector<uint64_t> &indexes) {
            uint8_t bytes[48];
            for (uint64_t n : indexes)
                hisowake_point(c.bytes.data(), c.bytes.size(), n, bytes, 48);
        });
    }
}

// A slot on the last axis, where the state is tested at each call, beside a jump, which has every axis, and plain C on that axis alone, which tests
// nothing; and the second of the day beside the slot that it is.
static void slots(const std::vector<Case> &all) {
    const std::vector<uint64_t> indexes = indexes_of(1000);
    printf("\n## A slot of 250 on the last axis: ns\n\n| plan | ours | a jump; C with tables, reciprocals and the denominator made beforehand, no test of a state; slot of 86,400 on axis 1; second |\n|---|---|---|\n");
    for (const Case &c : all) {
        uint64_t ours = 0, plain = 0, slot = 0, second = 0, out[6];
        plan_t last = one_axis(c.plan, c.plan.axes - 1);
        uint64_t d = denominator(last);
        jumper_t j;
        baseline_prepare(&last, &j);
        auto asked = [&](uint64_t axis, uint64_t slots, bool daily) {
            return bench_slots(c.bytes.data(), c.bytes.size(), indexes.data(), indexes.size(), axis, slots, daily);
        };
        row(c.name, {{"ours", 1000, [&] { ours = asked((uint64_t)c.plan.axes, 250, false); }},
                     {"jump", 1000, [&] { jumps_of(c, indexes, out); }},
                     {"C", 1000, [&] {
                          plain = 0;
                          for (uint64_t n : indexes) {
                              baseline_jump(&j, n, out);
                              plain ^= out[0] * 250 / d;
                          }
                      }},
                     {"slot of a day", 1000, [&] { slot = asked(1, 86400, false); }},
                     {"second", 1000, [&] { second = asked(1, 86400, true); }}});
        check(ours == plain, c.name + ": a slot");
        check(slot == second, c.name + ": the second of the day");
    }
}

static void calls(const std::vector<Case> &all) {
    const std::vector<uint64_t> indexes = indexes_of(1000);
    printf("\n## One call: ns\n\n| plan | jump | second | step | step in place | C point | plain C jump, tables and reciprocals made beforehand | Boost | QuantLib |\n|---|---|---|---|---|---|---|---|---|\n");
    for (const Case &c : all) {
        uint64_t out[6];
        uint8_t bytes[48];
        jumper_t j;
        baseline_prepare(&c.plan, &j);
        const uint8_t *plan = c.bytes.data();
        size_t len = c.bytes.size();
        std::vector<Program> programs = {
            {"jump", 1000, [&] { jumps_of(c, indexes, out); }},
            {"second", 1000, [&] { bench_slots(plan, len, indexes.data(), indexes.size(), 1, 86400, true); }},
            {"step", 1000, [&] { steps_of(c, Starts(123456789), 1000, out, 6); }},
            {"step in place", 1000, [&] { steps_in_place_of(c, Starts(123456789), 1000, out, 6); }},
            {"C point", 1000, jumps([&](uint32_t n) { hisowake_point(plan, len, n, bytes, 48); })},
            {"C", 1000, jumps([&](uint32_t n) { baseline_jump(&j, n, out); })}};
        if (c.plan.family == 2) {
            programs.push_back(boost_jumps((size_t)c.plan.axes));
            programs.push_back(quantlib_jumps((size_t)c.plan.axes));
        }
        printf("| %-36s |", c.name.c_str());
        for (double ns : race(programs))
            printf(" %.0f |", ns);
        printf("%s\n", c.plan.family == 2 ? "" : " - | - |");
    }
}

// A step with the permutations of Kocis and Whiten beside a step with Faure's, on the same bases.
static void permuted_steps() {
    printf("\n## A step by Faure's permutations and by those of Kocis and Whiten: ns\n\n| bases | permuted | kocis, and how many times as long |\n|---|---|---|\n");
    for (const std::vector<unsigned> &bases : {SMALL_BASES, LARGE_BASES}) {
        uint64_t out[6];
        Case faure = halton(1, bases), kocis = halton(3, bases);
        auto steps = [&](const Case &c) { steps_of(c, Starts(123456789), 1000, out, 6); };
        row(faure.name.substr(faure.name.find(' ') + 1), {{"permuted", 1000, [&] { steps(faure); }}, {"kocis", 1000, [&] { steps(kocis); }}});
    }
}

// A run with a start for each axis beside one with one start, all of about as many digits.
static void starts_apart() {
    printf("\n## A run with a start for each axis beside one with one start: ns a point, or ns a count by strips\n\n| plan, call | one start | a start for each axis, and how many times as long |\n|---|---|---|\n");
    const Starts one(3000000), each(3000000, 1003);
    for (const Case &c : {halton(0, {2, 3, 5}), halton(1, SMALL_BASES), halton(3, LARGE_BASES)}) {
        size_t n = 100000, s = (size_t)c.plan.axes;
        std::vector<uint64_t> out(n * s);
        Window window = strip_windows(c)[0];
        same_apart(c, each, window.data());
        auto pair = [&](const char *call, double makes, const std::function<void(const Starts &)> &turn) {
            row(c.name + ", " + call, {{"one start", makes, [&] { turn(one); }}, {"a start each", makes, [&] { turn(each); }}});
        };
        pair("a step", 1000, [&](const Starts &from) { steps_of(c, from, 1000, out.data(), s); });
        pair("a block of 100,000", (double)n, [&](const Starts &from) { blocks_of(c, from, 1, out.data(), out.size()); });
        pair("a walked count of 100,000", (double)n, [&](const Starts &from) { counts_of(c, from, n, window.data(), false, 1); });
        pair("a count by strips of 10^6", 1, [&](const Starts &from) { counts_of(c, from, 1000000, window.data(), true, 1); });
    }
}

int main() {
    std::vector<Case> all = cases();
    for (const Case &c : all) {
        same(c);
        same_day_set(c);
    }
    blocks(all);
    small_blocks(all);
    day_blocks(all);
    counts(all);
    strips();
    random_strips();
    day_counts(all);
    axis_jumps();
    short_jumps();
    slots(all);
    calls(all);
    permuted_steps();
    starts_apart();
}
