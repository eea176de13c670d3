// What each call costs beside time: the instructions that it takes, counted under callgrind, and the stack that it takes at most.
//   costs stack           prints the table of stacks. That of a call on a state has nothing of the reading of the plan and the opening before it:
//                         what the calls are lent lies in a page that faults at its first use, and then the stack is painted anew
//   costs instructions    under callgrind, leaves one profile for each call and plan, labelled CALL|PLAN|ROUNDS; with 0 rounds the plan is read
//                         and a run opened, so that the difference of two profiles is the calls' own
#include <algorithm>
#include <csignal>
#include <cstdio>
#include <cstdlib>
#include <cstring>
#include <functional>
#include <sys/mman.h>
#include <ucontext.h>

#include <valgrind/callgrind.h>

#include "calls.hpp"

enum { PAGE = 4096 };
static uint8_t *pages;
static uint8_t bytes[48];
static const std::vector<uint64_t> indexes = indexes_of(1000);

// The words that the calls on a state are lent: a page, with one word more in front of it for a list of which the first word is read early.
static uint64_t *lent() { return (uint64_t *)(pages + PAGE); }

struct Call {
    const char *name;
    bool on_a_state;
    std::function<void(const Case &, uint64_t rounds)> make;
};

// The cut 1/2 for each axis, and for the leading one of a day set, as words.
static void put_halves(const Case &c) {
    for (int a = 0; a <= c.plan.axes; a++) {
        lent()[2 * a] = 1;
        lent()[2 * a + 1] = 2;
    }
}

static void c_count(const Case &c, uint64_t rounds) {
    std::vector<uint8_t> window;
    for (int a = 0; a < c.plan.axes; a++)
        window.insert(window.end(), {0, 0, 0, 1, 0, 0, 0, 2});
    for (uint64_t i = 0; i < rounds; i++)
        hisowake_window_count(c.bytes.data(), c.bytes.size(), 12345, 1000, window.data(), window.size(), bytes, 48);
}

static std::vector<Call> calls() {
    return {
        {"jump", true, [](const Case &c, uint64_t n) { bench_jumps(c.bytes.data(), c.bytes.size(), indexes.data(), n, lent(), 6); }},
        {"second", true, [](const Case &c, uint64_t n) { bench_slots(c.bytes.data(), c.bytes.size(), lent() - 1, n, 1, 86400, true); }},
        {"slot of 250 on the last axis", true,
         [](const Case &c, uint64_t n) { bench_slots(c.bytes.data(), c.bytes.size(), lent() - 1, n, (uint64_t)c.plan.axes, 250, false); }},
        {"step", true, [](const Case &c, uint64_t n) { steps_of(c, Starts(123456789), n, lent(), 6); }},
        {"step in place", true, [](const Case &c, uint64_t n) { steps_in_place_of(c, Starts(123456789), n, lent(), 6); }},
        {"block of 64", true, [](const Case &c, uint64_t n) { blocks_of(c, Starts(12345), n, lent(), 64 * (size_t)c.plan.axes); }},
        {"count of 1,000", true, [](const Case &c, uint64_t n) { counts_of(c, Starts(12345), 1000, lent(), false, n); }},
        {"day set: block of 64", true,
         [](const Case &c, uint64_t n) { bench_day_blocks(c.bytes.data(), c.bytes.size(), 1000, n, lent(), 64 * (size_t)(c.plan.axes + 1)); }},
        {"day set: count of 1,000, leading cut 1/2", true,
         [](const Case &c, uint64_t n) { bench_day_counts(c.bytes.data(), c.bytes.size(), 1000, lent(), 2 * (size_t)(c.plan.axes + 1), n); }},
        {"hisowake_point", false,
         [](const Case &c, uint64_t n) {
             for (uint64_t i = 0; i < n; i++)
                 hisowake_point(c.bytes.data(), c.bytes.size(), 123456789 ^ i, bytes, 48);
         }},
        {"hisowake_window_count of 1,000", false, c_count},
    };
}

static std::vector<Case> plans() {
    return {halton(0, {2, 3, 5}), halton(1, LARGE_BASES), halton(3, LARGE_BASES), sobol("Sobol, 6 axes", first(6)), six_of_degree_12()};
}

static void instructions() {
    for (const Call &call : calls())
        for (const Case &c : plans())
            for (uint64_t rounds : {0, 20}) {
                std::string label = std::string(call.name) + "|" + c.name + "|" + std::to_string(rounds);
                put_halves(c);
                call.make(c, rounds);
                put_halves(c);
                CALLGRIND_ZERO_STATS;
                call.make(c, rounds);
                CALLGRIND_DUMP_STATS_AT(label.c_str());
            }
}

// ---- the stack

enum { STACK = 1 << 18, PAINT = 0xa5, RED_ZONE = 128 };
static uint8_t stack[STACK], signal_stack[1 << 16];
static std::function<void()> work;
static ucontext_t here, there;

static void run_work() { work(); }

// The first use of the page: what the stack held so far, below where the call stands, is painted over.
static void on_use(int, siginfo_t *info, void *context) {
    uint8_t *at = (uint8_t *)info->si_addr;
    uint8_t *top = (uint8_t *)((ucontext_t *)context)->uc_mcontext.gregs[REG_RSP] - RED_ZONE;
    if (at < pages + PAGE || at >= pages + 2 * PAGE || top < stack || top >= stack + STACK)
        abort();
    mprotect(pages + PAGE, PAGE, PROT_READ | PROT_WRITE);
    memset(stack, PAINT, (size_t)(top - stack));
}

static void watch() {
    stack_t other = {};
    other.ss_sp = signal_stack;
    other.ss_size = sizeof signal_stack;
    sigaltstack(&other, nullptr);
    struct sigaction action = {};
    action.sa_sigaction = on_use;
    action.sa_flags = SA_SIGINFO | SA_ONSTACK;
    sigaction(SIGSEGV, &action, nullptr);
}

// How many bytes of stack the work takes, on a painted stack of its own; with `after_use`, only from the first use of the page on.
static size_t stack_of(bool after_use, std::function<void()> w) {
    work = w;
    memset(stack, PAINT, STACK);
    getcontext(&there);
    there.uc_stack.ss_sp = stack;
    there.uc_stack.ss_size = STACK;
    there.uc_link = &here;
    makecontext(&there, run_work, 0);
    if (after_use)
        mprotect(pages + PAGE, PAGE, PROT_NONE);
    swapcontext(&here, &there);
    mprotect(pages + PAGE, PAGE, PROT_READ | PROT_WRITE);
    size_t kept = 0;
    while (kept < STACK && stack[kept] == PAINT)
        kept++;
    return STACK - kept;
}

// A count by strips goes deepest over the longest run on small bases, by cuts whose digits do not end.
static size_t strips_stack() {
    Case c = halton(0, SMALL_BASES);
    for (int a = 0; a < 6; a++) {
        lent()[2 * a] = 16777212;
        lent()[2 * a + 1] = 16777213;
    }
    return stack_of(true, [&] { counts_of(c, Starts(0), 4294967295, lent(), true, 2); });
}

static void stacks() {
    watch();
    printf("| call | bytes at most |\n|---|---|\n");
    size_t none = stack_of(false, [] {});
    for (const Call &call : calls()) {
        size_t most = 0;
        for (const Case &c : plans()) {
            put_halves(c);
            most = std::max(most, stack_of(call.on_a_state, [&] { call.make(c, 3); }) - none);
        }
        printf("| %s | %zu |\n", call.name, most);
    }
    printf("| count by strips of 2^32 - 1, bases 2 3 5 7 11 13 | %zu |\n", strips_stack() - none);
}

int main(int argc, char **argv) {
    pages = (uint8_t *)mmap(nullptr, 2 * PAGE, PROT_READ | PROT_WRITE, MAP_PRIVATE | MAP_ANONYMOUS, -1, 0);
    if (pages == MAP_FAILED)
        return 1;
    if (argc == 2 && strcmp(argv[1], "stack") == 0)
        stacks();
    else
        instructions();
}
