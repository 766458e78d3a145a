/* Our fills beside the Rust's, at each level of x86-64: each kind, both engines, long and short, in one process. The sources of a row take
 * turns, the best of their runs counts, and after every run the bytes are compared. Usage: bench LEVEL=DIR.., the plain level first; DIR
 * has librust.so, libgirderpeach.so, liboracle_xoshiro.so and liboracle_philox.so, all built for LEVEL. Exits with 1 where bytes differ. */
#define _GNU_SOURCE
#include <dlfcn.h>
#include <stdbool.h>
#include <stdio.h>
#include <stdlib.h>
#include <string.h>
#include <time.h>
#include <ucontext.h>

#include "girderpeach.h"
#include "others.h"

enum { RUST, TYPED, LIBRARY, SOURCES };
enum { XOSHIRO, PHILOX, ENGINES };
enum { KINDS = 8, THEIRS = 6, MOST = 200000, LEVELS = 4, RUNS = 200 }; /* the Rust has the first six kinds */

static const char *const engines[] = {"xoshiro", "philox"};
static const char *const kinds[] = {"u64", "u32", "f32", "f64", "normal_f32", "normal_f64", "open01_f32", "open01_f64"};
static const size_t widths[] = {8, 4, 4, 8, 4, 8, 4, 8};
static const size_t lengths[] = {MOST, 1000, 100, 16};
static const uint64_t SEED = 42;

/* The typed fills are called through the libraries that tests/oracle links too: a generator of xoshiro is its four rows, and one of Philox
 * these fields. */
typedef struct {
    uint32_t key[2];
    uint64_t stream, counter;
    bool waiting;
    uint64_t pending[8], first;
} philox;
/* Of the label of a draw or a fill, which is not looked at. */
static uint64_t label_first;
static bool label_upper;
typedef void rust_fill(void *rng, void *out, size_t n);
typedef uint64_t xoshiro_fill(uint64_t *rows, void *out, size_t n);
typedef uint64_t philox_fill(uint32_t *key, uint64_t *stream, uint64_t *counter, bool *waiting, uint64_t *pending, uint64_t *first,
                             uint64_t *from, bool *upper, void *out, size_t n);
typedef int64_t library_fill(uint8_t *form, size_t form_len, uint64_t kind, uint8_t *out, size_t out_len);

typedef struct {
    const char *name;
    void *rust, *library, *typed[ENGINES]; /* shared objects */
} level;
static level levels[LEVELS];
static int level_count;

static _Alignas(4096) uint8_t out[8 * MOST];
static int differences;

double seconds(void) {
    struct timespec t;
    clock_gettime(CLOCK_MONOTONIC, &t);
    return (double)t.tv_sec + 1e-9 * (double)t.tv_nsec;
}

static void *symbol(void *object, const char *format, const char *a, const char *b) {
    char name[64];
    snprintf(name, sizeof name, format, a, b);
    void *f = dlsym(object, name);
    if (!f) {
        fprintf(stderr, "bench: no %s\n", name);
        exit(2);
    }
    return f;
}

static void *object(const char *dir, const char *name) {
    char path[4096];
    snprintf(path, sizeof path, "%s/lib%s.so", dir, name);
    void *o = dlopen(path, RTLD_NOW | RTLD_LOCAL);
    if (!o) {
        fprintf(stderr, "bench: %s\n", dlerror());
        exit(2);
    }
    return o;
}

/* A generator of one of our libraries, on a boundary: off it rows are read back late, by where it happens to stand. */
typedef union {
    _Alignas(64) uint64_t rows[32];
    philox counted;
    uint8_t form[GP_XOSHIRO_FORM];
} generator;

/* One source at one level: its fill of a kind, and its generator. */
typedef struct {
    int source, engine, kind;
    void *rng;
    generator ours;
    void *call;
    double best;
    uint64_t bytes; /* a digest of the last fill of the last run */
} runner;

static void start(runner *r, const level *l) {
    const char *engine = engines[r->engine], *kind = kinds[r->kind];
    uint64_t jumps;
    if (r->source == RUST) {
        void *(*new)(uint64_t, uint64_t) = symbol(l->rust, "rust_%s_new", engine, "");
        r->rng = new (SEED, 0);
        r->call = symbol(l->rust, "rust_%s_fill_%s", engine, kind);
    } else if (r->source == TYPED) {
        if (r->engine == XOSHIRO) {
            uint64_t (*new)(uint64_t *, uint64_t, uint64_t) = symbol(l->typed[XOSHIRO], "oracle_xoshiro_from_seed_block", "", "");
            new (r->ours.rows, SEED, 0);
        } else {
            r->ours.counted = (philox){.key = {(uint32_t)SEED}};
        }
        r->call = symbol(l->typed[r->engine], "oracle_%s_fill_%s", engine, kind);
    } else {
        if (r->engine == XOSHIRO) {
            int64_t (*new)(uint64_t, uint64_t, uint8_t *, size_t, uint64_t *) = symbol(l->library, "gp_xoshiro_new", "", "");
            new (SEED, 0, r->ours.form, GP_XOSHIRO_FORM, &jumps);
        } else {
            int64_t (*new)(uint64_t, uint64_t, uint8_t *, size_t) = symbol(l->library, "gp_philox_new", "", "");
            new (SEED, 0, r->ours.form, GP_PHILOX_FORM);
        }
        r->call = symbol(l->library, "gp_%s_fill", engine, "");
    }
}

static void fills(runner *r, size_t n, long calls) {
    philox *p = &r->ours.counted;
    if (r->source == RUST)
        for (long i = 0; i < calls; i++)
            ((rust_fill *)r->call)(r->rng, out, n);
    else if (r->source == LIBRARY)
        for (long i = 0; i < calls; i++)
            ((library_fill *)r->call)(r->ours.form, r->engine == XOSHIRO ? GP_XOSHIRO_FORM : GP_PHILOX_FORM, (uint64_t)r->kind + 1, out,
                                      n * widths[r->kind]);
    else if (r->engine == XOSHIRO)
        for (long i = 0; i < calls; i++)
            ((xoshiro_fill *)r->call)(r->ours.rows, out, n);
    else
        for (long i = 0; i < calls; i++)
            ((philox_fill *)r->call)(p->key, &p->stream, &p->counter, &p->waiting, p->pending, &p->first, &label_first, &label_upper, out,
                                     n);
}

/* Where its stack lies tells on a short fill, so each run of a source is at another place of it. */
static void fills_at(runner *r, size_t n, long calls, size_t depth) {
    volatile uint8_t below[64 + depth];
    below[0] = 0;
    fills(r, n, calls);
    (void)below[0];
}

static void run(runner *r, size_t n, long calls, size_t depth) {
    double began = seconds();
    fills_at(r, n, calls, depth);
    double took = (seconds() - began) * 1e9 / (double)calls;
    if (r->best == 0 || took < r->best)
        r->best = took;
    r->bytes = 14695981039346656037u;
    for (size_t i = 0; i < n * widths[r->kind]; i += 4) {
        uint32_t part;
        memcpy(&part, out + i, 4);
        r->bytes = (r->bytes ^ part) * 1099511628211u;
    }
    memset(out, 0, n * widths[r->kind]);
}

/* The most that the ratio of a fill to the Rust's may be, 0 where nothing is asked. For plain x86-64 it is what the C library's fills had
 * when it was compiled for that alone, on another machine. */
static double bar(int at, int engine, int kind, size_t n) {
    static const double plain[ENGINES][THEIRS] = {{.58, .75, .70, .55, .89, .84}, {.38, .43, .41, .38, .53, .56}};
    if (n == 16)
        return at == 0 ? 1.0 : 1.3;
    if (n != MOST)
        return 0;
    return at == 0 ? plain[engine][kind] : engine == PHILOX || kind >= 4 ? 0.8 : 1.05;
}

/* The rows that are over a bar, printed after the table. */
static char missed[8192];
static size_t missed_end;

static void miss(int at, const char *what, double most, double has) {
    if (missed_end < sizeof missed)
        missed_end += (size_t)snprintf(missed + missed_end, sizeof missed - missed_end, "| %s | | | | %s | %.2f | %.2f |\n",
                                       levels[at].name, what, most, has);
}

static void over(int at, const runner *r, size_t n, const char *what, double most, double ratio) {
    if (missed_end < sizeof missed)
        missed_end += (size_t)snprintf(missed + missed_end, sizeof missed - missed_end, "| %s | %s | %s | %zu | %s | %.2f | %.2f |\n",
                                       levels[at].name, engines[r->engine], kinds[r->kind], n, what, most, ratio);
}

static void hold(const char *what, int at, const runner *r, size_t n, double ratio) {
    double most = bar(at, r->engine, r->kind, n);
    if (most > 0 && ratio > most + 0.005 && !(at == 0 && n == MOST && r->source == TYPED))
        over(at, r, n, what, most, ratio);
}

static void row(int engine, int kind, size_t n) {
    static runner all[LEVELS][SOURCES];
    long calls = n < 10000 ? (long)(40000 / n) : 1;
    for (int l = 0; l < level_count; l++)
        for (int s = 0; s < SOURCES; s++) {
            all[l][s] = (runner){.source = s, .engine = engine, .kind = kind};
            start(&all[l][s], &levels[l]);
        }
    for (int i = 0; i < RUNS; i++)
        for (int l = 0; l < level_count; l++)
            for (int s = 0; s < SOURCES; s++) {
                run(&all[l][s], n, calls, (size_t)(i % 16) * 272);
                differences += all[l][s].bytes != all[0][RUST].bytes;
            }
    printf("| %s | %s | %zu |", engines[engine], kinds[kind], n);
    for (int l = 0; l < level_count; l++) {
        double rust = all[l][RUST].best, fill = all[l][TYPED].best, lib = all[l][LIBRARY].best, places = (double)n;
        printf(" %.2f | %.2f (%.2f) | %.2f (%.2f) |", rust / places, fill / places, fill / rust, lib / places, lib / rust);
        hold("typed fill", l, &all[l][TYPED], n, fill / rust);
        hold("C library", l, &all[l][LIBRARY], n, lib / rust);
    }
    puts("");
    fflush(stdout);
}

/* A kind that the Rust has not, beside our own kind that is made the same way, four rows up in the table: it should take at most 1.05
 * of its time. The bytes of the fill and of the C library's are compared at every level. */
static void beside(int engine, int kind, size_t n) {
    static runner all[LEVELS][SOURCES][2];
    long calls = n < 10000 ? (long)(40000 / n) : 1;
    for (int l = 0; l < level_count; l++)
        for (int s = TYPED; s <= LIBRARY; s++)
            for (int k = 0; k < 2; k++) {
                all[l][s][k] = (runner){.source = s, .engine = engine, .kind = k ? kind : kind - 4};
                start(&all[l][s][k], &levels[l]);
            }
    for (int i = 0; i < RUNS; i++)
        for (int l = 0; l < level_count; l++)
            for (int s = TYPED; s <= LIBRARY; s++)
                for (int k = 0; k < 2; k++) {
                    run(&all[l][s][k], n, calls, (size_t)(i % 16) * 272);
                    differences += all[l][s][k].bytes != all[0][TYPED][k].bytes;
                }
    printf("| %s | %s | %zu |", engines[engine], kinds[kind], n);
    for (int l = 0; l < level_count; l++) {
        for (int s = TYPED; s <= LIBRARY; s++) {
            double ratio = all[l][s][1].best / all[l][s][0].best;
            printf(" %.2f (%.2f) |", all[l][s][1].best / (double)n, ratio);
            if (ratio > 1.05 + 0.005)
                over(l, &all[l][s][1], n, s == TYPED ? "typed fill, to ours" : "C library, to ours", 1.05, ratio);
        }
    }
    puts("");
    fflush(stdout);
}

/* What is timed beside the fills: calls of the Rust's and of ours that leave 256 bytes to compare. */
typedef struct {
    const level *level;
    void *g;           /* the Rust's generator */
    uint64_t rows[32]; /* ours */
    philox counted;
    uint64_t block; /* that a call starts at */
} pair_state;
typedef void task(pair_state *s, long calls, uint64_t *result);

static void their_xoshiro_draws(pair_state *s, long calls, uint64_t *result) {
    void (*draw)(void *, uint64_t *) = symbol(s->level->rust, "rust_xoshiro_draw", "", "");
    for (long i = 0; i < calls; i++)
        draw(s->g, result);
}

static void my_xoshiro_draws(pair_state *s, long calls, uint64_t *result) {
    void (*draw)(uint64_t *, uint64_t *) = symbol(s->level->typed[XOSHIRO], "oracle_xoshiro_next_u64x8", "", "");
    for (long i = 0; i < calls; i++)
        draw(s->rows, result);
}

static void their_philox_draws(pair_state *s, long calls, uint64_t *result) {
    void *(*new)(uint64_t, uint64_t) = symbol(s->level->rust, "rust_philox_new", "", "");
    void (*draw)(void *, uint64_t *) = symbol(s->level->rust, "rust_philox_draw", "", "");
    void *g = new (SEED, 0);
    for (long i = 0; i < calls; i++)
        draw(g, result);
}

static void my_philox_draws(pair_state *s, long calls, uint64_t *result) {
    void (*draw)(uint32_t *, uint64_t *, uint64_t *, bool *, uint64_t *, uint64_t *, uint64_t *, bool *, uint64_t *) =
        symbol(s->level->typed[PHILOX], "oracle_philox_next_u64x8", "", "");
    philox p = {.key = {(uint32_t)SEED}};
    for (long i = 0; i < calls; i++)
        draw(p.key, &p.stream, &p.counter, &p.waiting, p.pending, &p.first, &label_first, &label_upper, result);
}

/* Jumps of one stream, one after another, from one state. */
static void their_jumps(pair_state *s, long calls, uint64_t *result) {
    void (*jump)(uint64_t *) = symbol(s->level->rust, "rust_jump", "", "");
    result[0] = SEED;
    for (long i = 0; i < calls; i++)
        jump(result);
}

static void my_jumps(pair_state *s, long calls, uint64_t *result) {
    uint64_t (*jump)(uint64_t *, uint64_t *) = symbol(s->level->typed[XOSHIRO], "oracle_xoshiro_jump", "", "");
    uint64_t walked[4];
    result[0] = SEED;
    for (long i = 0; i < calls; i++)
        jump(result, walked);
}

static void their_blocks(pair_state *s, long calls, uint64_t *result) {
    void *(*new)(uint64_t, uint64_t) = symbol(s->level->rust, "rust_xoshiro_new", "", "");
    void (*drop)(void *) = symbol(s->level->rust, "rust_xoshiro_drop", "", "");
    void (*state)(void *, uint64_t *) = symbol(s->level->rust, "rust_xoshiro_state", "", "");
    for (long i = 0; i < calls; i++) {
        void *g = new (SEED, s->block);
        state(g, result);
        drop(g);
    }
}

static void my_blocks(pair_state *s, long calls, uint64_t *result) {
    uint64_t (*new)(uint64_t *, uint64_t, uint64_t) = symbol(s->level->typed[XOSHIRO], "oracle_xoshiro_from_seed_block", "", "");
    for (long i = 0; i < calls; i++)
        new (result, SEED, s->block);
}

/* `most` is the most that the ratio may be, 0 where nothing is asked. */
static void pair(const char *what, task *theirs, task *mine, uint64_t block, long calls, int runs, double most) {
    static pair_state states[LEVELS];
    double best[LEVELS][2];
    for (int l = 0; l < level_count; l++) {
        void *(*new)(uint64_t, uint64_t) = symbol(levels[l].rust, "rust_xoshiro_new", "", "");
        uint64_t (*ours)(uint64_t *, uint64_t, uint64_t) = symbol(levels[l].typed[XOSHIRO], "oracle_xoshiro_from_seed_block", "", "");
        states[l] = (pair_state){.level = &levels[l], .g = new (SEED, 0), .block = block};
        ours(states[l].rows, SEED, 0);
    }
    for (int i = 0; i < runs; i++)
        for (int l = 0; l < level_count; l++) {
            uint64_t result[2][32] = {{0}};
            for (int s = 0; s < 2; s++) {
                double began = seconds();
                (s ? mine : theirs)(&states[l], calls, result[s]);
                double took = (seconds() - began) * 1e9 / (double)calls;
                if (i == 0 || took < best[l][s])
                    best[l][s] = took;
            }
            differences += memcmp(result[0], result[1], sizeof result[0]) != 0;
        }
    printf("| %s |", what);
    for (int l = 0; l < level_count; l++) {
        double ratio = best[l][1] / best[l][0];
        printf(" %.1f | %.1f (%.2f) |", best[l][0], best[l][1], ratio);
        if (most > 0 && ratio > most + 0.005)
            miss(l, what, most, ratio);
    }
    puts("");
    fflush(stdout);
}

/* The C library's calls that lead far, most of them to where the Rust would not arrive: tests/ holds them to a second writing. At most so
 * many µs. Each is the best of RUNS calls with the same number, whose bits the processor may come to foresee. */
typedef struct {
    const char *what;
    bool skips; /* draws, and not to a block or over blocks */
    bool moves; /* over blocks */
    uint64_t n;
    double most;
} far_call;

static const far_call far_calls[] = {
    {"`gp_xoshiro_new(seed, 100000)`", false, false, 100000, 20},
    {"`gp_xoshiro_new(seed, 48211934)`", false, false, 48211934, 200},
    {"`gp_xoshiro_new(seed, 2^61 - 1)`", false, false, ((uint64_t)1 << 61) - 1, 200},
    {"`gp_xoshiro_jump_blocks(1)`", false, true, 1, 0},
    {"`gp_xoshiro_jump_blocks(2^61 - 1)`", false, true, ((uint64_t)1 << 61) - 1, 0},
    {"`gp_xoshiro_skip(1)`", true, false, 1, 0},
    {"`gp_xoshiro_skip(1000000000)`", true, false, 1000000000, 1000},
    {"`gp_xoshiro_skip(2^64 - 1)`", true, false, UINT64_MAX, 1000},
};

static void far(const far_call *c) {
    printf(c->most > 0 ? "| %s | %.0f |" : "| %s | |", c->what, c->most);
    for (int l = 0; l < level_count; l++) {
        int64_t (*new)(uint64_t, uint64_t, uint8_t *, size_t, uint64_t *) = symbol(levels[l].library, "gp_xoshiro_new", "", "");
        int64_t (*move)(uint8_t *, size_t, uint64_t, uint64_t *) = symbol(levels[l].library, "gp_xoshiro_jump_blocks", "", "");
        int64_t (*skip)(uint8_t *, size_t, uint64_t) = symbol(levels[l].library, "gp_xoshiro_skip", "", "");
        uint8_t form[GP_XOSHIRO_FORM];
        uint64_t jumps;
        double best = 0;
        new (SEED, 0, form, sizeof form, &jumps);
        for (int i = 0; i < RUNS; i++) {
            double began = seconds();
            if (c->skips)
                skip(form, sizeof form, c->n);
            else if (c->moves)
                move(form, sizeof form, c->n, &jumps);
            else
                new (SEED, c->n, form, sizeof form, &jumps);
            double took = (seconds() - began) * 1e6;
            if (i == 0 || took < best)
                best = took;
        }
        printf(" %.1f |", best);
        if (c->most > 0 && best > c->most)
            miss(l, c->what, c->most, best);
    }
    puts("");
    fflush(stdout);
}

/* How deep the stack of our calls goes: each call of the C library, its fills and the typed ones of each kind, engine and length, on a
 * stack of its own that was painted. */
static runner painters[ENGINES][KINDS][SOURCES];
static struct {
    int64_t (*xoshiro_new)(uint64_t, uint64_t, uint8_t *, size_t, uint64_t *), (*move)(uint8_t *, size_t, uint64_t, uint64_t *);
    int64_t (*philox_new)(uint64_t, uint64_t, uint8_t *, size_t), (*seek)(uint8_t *, size_t, uint64_t), (*left)(const uint8_t *, size_t);
    int64_t (*xoshiro_skip)(uint8_t *, size_t, uint64_t), (*philox_skip)(uint8_t *, size_t, uint64_t);
    int64_t (*label)(const uint8_t *, size_t, uint64_t *), (*from_96)(const uint8_t *, size_t, uint8_t *, size_t);
    int64_t (*to_96)(const uint8_t *, size_t, uint8_t *, size_t);
    uint8_t form[GP_XOSHIRO_FORM], old[GP_PHILOX_FORM_96];
    uint64_t jumps;
} others_of_library;

static void every_call(void) {
    others_of_library.xoshiro_new(SEED, 1, others_of_library.form, GP_XOSHIRO_FORM, &others_of_library.jumps);
    others_of_library.move(others_of_library.form, GP_XOSHIRO_FORM, 1, &others_of_library.jumps);
    others_of_library.xoshiro_skip(others_of_library.form, GP_XOSHIRO_FORM, 3);
    others_of_library.philox_new(SEED, 1, others_of_library.form, GP_PHILOX_FORM);
    others_of_library.seek(others_of_library.form, GP_PHILOX_FORM, 1);
    others_of_library.philox_skip(others_of_library.form, GP_PHILOX_FORM, 3);
    others_of_library.left(others_of_library.form, GP_PHILOX_FORM);
    others_of_library.label(others_of_library.form, GP_PHILOX_FORM, &others_of_library.jumps);
    others_of_library.to_96(others_of_library.form, GP_PHILOX_FORM, others_of_library.old, GP_PHILOX_FORM_96);
    others_of_library.from_96(others_of_library.old, GP_PHILOX_FORM_96, others_of_library.form, GP_PHILOX_FORM);
    for (int e = 0; e < ENGINES; e++)
        for (int k = 0; k < KINDS; k++)
            for (int s = TYPED; s <= LIBRARY; s++)
                for (size_t n = 0; n < sizeof lengths / sizeof *lengths; n++)
                    fills(&painters[e][k][s], lengths[n], 1);
}

static size_t stack_depth(const level *l) {
    static ucontext_t here, there;
    static _Alignas(64) uint8_t stack[1 << 17];
    for (int e = 0; e < ENGINES; e++)
        for (int k = 0; k < KINDS; k++)
            for (int s = TYPED; s <= LIBRARY; s++) {
                painters[e][k][s] = (runner){.source = s, .engine = e, .kind = k};
                start(&painters[e][k][s], l);
            }
    others_of_library.xoshiro_new = symbol(l->library, "gp_xoshiro_new", "", "");
    others_of_library.move = symbol(l->library, "gp_xoshiro_jump_blocks", "", "");
    others_of_library.xoshiro_skip = symbol(l->library, "gp_xoshiro_skip", "", "");
    others_of_library.philox_skip = symbol(l->library, "gp_philox_skip", "", "");
    others_of_library.philox_new = symbol(l->library, "gp_philox_new", "", "");
    others_of_library.seek = symbol(l->library, "gp_philox_seek", "", "");
    others_of_library.left = symbol(l->library, "gp_philox_draws_left", "", "");
    others_of_library.label = symbol(l->library, "gp_philox_label", "", "");
    others_of_library.to_96 = symbol(l->library, "gp_philox_to_96", "", "");
    others_of_library.from_96 = symbol(l->library, "gp_philox_from_96", "", "");
    memset(stack, 0xA5, sizeof stack);
    getcontext(&there);
    there.uc_stack.ss_sp = stack;
    there.uc_stack.ss_size = sizeof stack;
    there.uc_link = &here;
    makecontext(&there, every_call, 0);
    swapcontext(&here, &there);
    size_t untouched = 0;
    while (untouched < sizeof stack && stack[untouched] == 0xA5)
        untouched++;
    return sizeof stack - untouched;
}

static void heading(const char *first, const char *columns, int wide) {
    printf("%s", first);
    for (int l = 0; l < level_count; l++)
        printf(columns, levels[l].name);
    printf("\n|");
    for (int i = wide; i > 0; i--)
        printf("---|");
    puts("");
}

/* The fills: the Rust's kinds beside the Rust's, and the others beside ours. */
static void tables(void) {
    puts("ns an element; in brackets the ratio to the Rust built for the same level. `fill` is our typed fill, `lib` the C library's.\n");
    heading("| engine | kind | places |", " %s: Rust | fill | lib |", 3 + 3 * level_count);
    for (int e = 0; e < ENGINES; e++)
        for (size_t n = 0; n < sizeof lengths / sizeof *lengths; n++)
            for (int k = 0; k < THEIRS; k++)
                row(e, k, lengths[n]);
    puts("\nns an element of the kinds that the Rust has not; in brackets the ratio to our f32, or f64.\n");
    heading("| engine | kind | places |", " %s: fill | lib |", 3 + 2 * level_count);
    for (int e = 0; e < ENGINES; e++)
        for (size_t n = 0; n < sizeof lengths / sizeof *lengths; n++)
            for (int k = THEIRS; k < KINDS; k++)
                beside(e, k, lengths[n]);
}

int main(int argc, char **argv) {
    for (int i = 1; i < argc && level_count < LEVELS; i++) {
        char *dir = strchr(argv[i], '=');
        if (!dir)
            return 2;
        *dir++ = 0;
        levels[level_count++] = (level){.name = argv[i], .rust = object(dir, "rust"), .library = object(dir, "girderpeach"),
                                        .typed = {object(dir, "oracle_xoshiro"), object(dir, "oracle_philox")}};
    }
    if (!level_count)
        return 2;
    tables();
    puts("\nns a call.\n");
    heading("| call |", " %s: Rust | ours |", 1 + 2 * level_count);
    pair("a draw of eight words, xoshiro", their_xoshiro_draws, my_xoshiro_draws, 0, 100000, 40, 0);
    pair("a draw of eight words, Philox", their_philox_draws, my_philox_draws, 0, 100000, 40, 0);
    pair("`jump`", their_jumps, my_jumps, 0, 1000, 200, 1.0);
    pair("`from_seed_block(seed, 0)`", their_blocks, my_blocks, 0, 100, 200, 1.0);
    pair("`from_seed_block(seed, 1000)`", their_blocks, my_blocks, 1000, 1, 15, 1.0);
    puts("\nµs a call of the C library, and the most that is asked.\n");
    heading("| call | asked |", " %s |", 2 + level_count);
    for (size_t i = 0; i < sizeof far_calls / sizeof *far_calls; i++)
        far(&far_calls[i]);
    printf("\nThe deepest stack of any of our calls, with its caller here:");
    for (int l = 0; l < level_count; l++)
        printf(" %s %zu bytes%s", levels[l].name, stack_depth(&levels[l]), l + 1 < level_count ? "," : ".\n");
    puts("\nOver what is asked (ratios to the Rust or, where it says so, to ours; and µs of the calls that lead far):\n");
    puts("| level | engine | kind | places | what | asked | has |\n|---|---|---|---|---|---|---|");
    puts(missed_end ? missed : "| none | | | | | | |");
    others(out, MOST);
    if (differences)
        printf("\nBYTES DIFFER in %d runs\n", differences);
    return differences != 0;
}
