// A libFuzzer harness for both calls of hisowake.h. Each input is one call; the archive's answer and every byte of the lent pages are compared
// with the reference, once with buffers right after a page that cannot be touched and once with buffers that end at one.
#define _DEFAULT_SOURCE
#include "../c/pages.h"
#include "reached.h"

int LLVMFuzzerInitialize(int *argc, char ***argv);
int LLVMFuzzerTestOneInput(const uint8_t *data, size_t size);

// the most points that a count walks
enum { WALK_MAX = 2000 };

static struct buffer plan_buffer, window_buffer, out_buffer;

int LLVMFuzzerInitialize(int *argc, char ***argv) {
    (void)argc, (void)argv;
    plan_buffer = new_buffer();
    window_buffer = new_buffer();
    out_buffer = new_buffer();
    atexit(report_reached);
    return 0;
}

static void print_bytes(const char *what, const uint8_t *bytes, size_t len) {
    fprintf(stderr, "%s, %zu bytes:", what, len);
    for (size_t i = 0; i < len; i++)
        fprintf(stderr, " %02x", bytes[i]);
    fprintf(stderr, "\n");
}

static void fail(const struct input *in, const struct answer *want, uint64_t code, const char *what) {
    fprintf(stderr, "DIFFERENT: %s\n", what);
    print_bytes("plan", in->plan, in->plan_len);
    if (in->call == POINT)
        fprintf(stderr, "point of index %llu, out_len %zu\n", (unsigned long long)in->start, in->out_len);
    else {
        fprintf(stderr, "count of start %llu, count %llu, out_len %zu\n", (unsigned long long)in->start, (unsigned long long)in->count,
                in->out_len);
        print_bytes("window", in->window, in->window_len);
    }
    fprintf(stderr, "the reference answers %llu:", (unsigned long long)want->code);
    for (int i = 0; i < want->words; i++)
        fprintf(stderr, " %llu", (unsigned long long)want->word[i]);
    fprintf(stderr, "\nthe archive answers %llu\n", (unsigned long long)code);
    print_bytes("out", out_buffer.page + out_buffer.at, in->out_len);
    abort();
}

static void compare(const struct input *in, const struct answer *want, enum side side) {
    const uint8_t *plan = lend(&plan_buffer, side, in->plan, in->plan_len);
    const uint8_t *window = lend(&window_buffer, side, in->window, in->window_len);
    uint8_t *out = lend(&out_buffer, side, NULL, in->out_len);
    uint64_t code;
    if (in->call == POINT)
        code = hisowake_point(plan, in->plan_len, in->start, out, in->out_len);
    else
        code = hisowake_window_count(plan, in->plan_len, in->start, in->count, window, in->window_len, out, in->out_len);
    expect_words(&out_buffer, want->words, want->word);
    if (code != want->code)
        fail(in, want, code, "the code");
    if (!as_expected(&plan_buffer) || !as_expected(&window_buffer))
        fail(in, want, code, "the plan or the window was written to");
    if (!as_expected(&out_buffer))
        fail(in, want, code, code ? "a refused call wrote" : "the bytes written, or bytes beyond them");
}

// A count that is not refused walks WALK_MAX points at most.
static void limit_walk(struct input *in) {
    struct plan p;
    struct cut cut[AXES_MAX];
    if (in->count > WALK_MAX &&
        count_code(in->plan, in->plan_len, in->start, in->count, in->window, in->window_len, in->out_len, &p, cut) == 0) {
        uint64_t count = in->count % (WALK_MAX + 1);
        in->start += in->count - count;
        in->count = count;
    }
}

int LLVMFuzzerTestOneInput(const uint8_t *data, size_t size) {
    struct input in;
    decode(data, size, &in);
    if (in.call == COUNT)
        limit_walk(&in);
    struct answer want = in.call == POINT ? reference_point(in.plan, in.plan_len, in.start, in.out_len)
                                          : reference_count(in.plan, in.plan_len, in.start, in.count, in.window, in.window_len, in.out_len);
    compare(&in, &want, AT_FRONT);
    compare(&in, &want, AT_END);
    note_reached(&in, &want);
    return 0;
}
