#include "reached.h"

#include <stdio.h>

static const char *const CALLS[] = {"point", "count"}, *const NAMES[] = {"Halton", "permuted", "Sobol", "Kocis"};

// the edges of an accepted count, and of a refused one
enum edge { NO_POINTS, RUN_TO_THE_END, NONE_INSIDE, SOME_INSIDE, ALL_INSIDE, SUM_WRAPS, EDGES };
static const char *const EDGE_NAMES[] = {"run of no points", "run that ends at 2^32", "none inside", "some inside", "all inside",
                                         "start + count above 2^64"};

static unsigned long refused[2][15], accepted[2][FAMILIES][AXES_MAX + 1], base[FAMILIES][257], degree[DEGREE_MAX + 1], edge[EDGES];

static void note_edges(const struct input *in, const struct answer *r) {
    uint64_t s = r->word[0];
    edge[SUM_WRAPS] += r->code == HISOWAKE_OUT_OF_RANGE && in->start + in->count < in->start;
    if (r->code)
        return;
    edge[NO_POINTS] += in->count == 0;
    edge[RUN_TO_THE_END] += in->count > 0 && in->start + in->count == 4294967296u;
    edge[NONE_INSIDE] += in->count > 1 && s == 0;
    edge[SOME_INSIDE] += s > 0 && s < in->count;
    edge[ALL_INSIDE] += in->count > 1 && s == in->count;
}

void note_reached(const struct input *in, const struct answer *r) {
    const struct plan *p = &r->plan;
    if (in->call == COUNT)
        note_edges(in, r);
    if (r->code) {
        refused[in->call][r->code]++;
        return;
    }
    accepted[in->call][p->family][p->axes]++;
    for (int i = 0; i < p->axes; i++)
        if (p->family == SOBOL)
            degree[p->axis[i].degree]++;
        else
            base[p->family][p->axis[i].base]++;
}

// Prints a row of counts from `from` to `to`, or for long rows only how many are not 0, and names each that is.
static void report_row(const char *what, const char *of, const unsigned long *row, int from, int to, int (*given)(int)) {
    int reached = 0;
    printf("fuzz: %s %s:", what, of);
    for (int i = from; i <= to; i++) {
        reached += row[i] > 0;
        if (to - from < 20 && row[i] > 0)
            printf(" %d: %lu", i, row[i]);
    }
    printf(to - from < 20 ? "\n" : " %d reached\n", reached);
    for (int i = from; i <= to; i++)
        if (row[i] == 0 && (!given || given(i)))
            printf("fuzz: not reached: %s %s %d\n", what, of, i);
}

// 2 is never given, and 12 by the calls on a state alone.
static int given_by_count(int code) { return code != 2 && code != 12; }
static int given_by_point(int code) { return code != HISOWAKE_BAD_WINDOW && given_by_count(code); }

void report_reached(void) {
    for (int call = POINT; call <= COUNT; call++) {
        report_row(CALLS[call], "refused", refused[call], 1, 14, call == POINT ? given_by_point : given_by_count);
        for (int family = 0; family < FAMILIES; family++)
            report_row(CALLS[call], NAMES[family], accepted[call][family], 1, AXES_MAX, NULL);
    }
    for (int family = 0; family < FAMILIES; family++)
        if (family != SOBOL)
            report_row("base", NAMES[family], base[family], 2, 256, NULL);
    report_row("degree", NAMES[SOBOL], degree, 0, DEGREE_MAX, NULL);
    for (int i = 0; i < EDGES; i++)
        printf(edge[i] ? "fuzz: %s: %lu\n" : "fuzz: not reached: %s, %lu\n", EDGE_NAMES[i], edge[i]);
    fflush(stdout);
}
