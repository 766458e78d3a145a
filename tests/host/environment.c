/* Every kind of fill on both engines, in each floating-point environment that a calling program may have set: four ways to round, results
 * and arguments flushed to zero or not, exceptions masked or not, flags raised or not. The answer, the output and the form must be those
 * of the environment that a program starts with, whose output tests/host/host.c holds to the Rust's or to K1's formulas, and the
 * environment must be as it was. Among the words are 0 and 2^64 - 1, where the floats that are differences have their ends: those are told
 * here. */
#include <stdio.h>
#include <string.h>
#include <xmmintrin.h>

#include "girderpeach.h"

#define PLACES 1003 /* long enough for many lanes at a time, and no whole number of groups */

struct result {
    int64_t answer;
    uint8_t form[GP_XOSHIRO_FORM];
    uint8_t out[PLACES * 8];
};

static const size_t widths[] = {8, 4, 4, 8, 4, 8, 4, 8};

/* Where a fill starts: block 1 of a seed; a stream; and a form of xoshiro whose first draw has the words 0 and 2^64 - 1 in turn, because
 * a word is rotl(s0 + s3, 23) + s0: lanes of (0, 1, 0, 0) and of (2^64 - 1, 0, 0, 1). */
enum { BLOCK, STREAM, ENDS, STARTS };
static const char *const starts[] = {"xoshiro", "philox", "xoshiro, the ends"};

static void start(int from, uint8_t *form) {
    uint64_t jumps;
    if (from == STREAM) gp_philox_new(42, 7, form, GP_PHILOX_FORM);
    if (from == BLOCK) gp_xoshiro_new(42, 1, form, GP_XOSHIRO_FORM, &jumps);
    if (from != ENDS) return;
    memset(form, 0, GP_XOSHIRO_FORM);
    for (int lane = 0; lane < 8; lane += 2) {
        form[64 + 8 * lane] = 1;
        memset(form + 8 * lane + 8, 0xFF, 8);
        form[192 + 8 * lane + 8] = 1;
    }
}

/* The elements of a kind of these two words, or of their low halves; of normals nothing is told. In order: 0 and the largest; of units 0,
 * that is +0.0, and 1 - 2^-24 or 1 - 2^-52; of units that are never 0 the least, 2^-24 or 2^-53, and 1 less that. */
static const uint64_t ends[][2] = {
    {0, UINT64_MAX}, {0, UINT32_MAX}, {0, 0x3F7FFFFF}, {0, 0x3FEFFFFFFFFFFFFE}, {0, 0}, {0, 0}, {0x33800000, 0x3F7FFFFF},
    {0x3CA0000000000000, 0x3FEFFFFFFFFFFFFF},
};

static int has_ends(uint64_t kind, const struct result *r) {
    size_t width = widths[kind - 1];
    if (kind == GP_NORMAL_F32 || kind == GP_NORMAL_F64) return 1;
    for (int i = 0; i < 8; i++)
        if (memcmp(r->out + i * width, &ends[kind - 1][i % 2], width) != 0) return 0;
    return 1;
}

static unsigned fill(int from, uint64_t kind, size_t places, unsigned environment, struct result *r) {
    size_t length = places * widths[kind - 1];
    unsigned after;
    memset(r, 0xA5, sizeof *r);
    start(from, r->form);
    _mm_setcsr(environment);
    r->answer = from == STREAM ? gp_philox_fill(r->form, GP_PHILOX_FORM, kind, r->out, length)
                               : gp_xoshiro_fill(r->form, GP_XOSHIRO_FORM, kind, r->out, length);
    after = _mm_getcsr();
    _mm_setcsr(0x1F80);
    return after;
}

/* Bit 0 to 1: how to round; 2: results flushed; 3: arguments taken as zero; 4: exceptions masked; 5: flags raised. */
static unsigned environment_of(unsigned i) {
    return (i & 3) << 13 | (i & 4 ? 0x8000u : 0) | (i & 8 ? 0x40u : 0) | (i & 16 ? 0x1F80u : 0) | (i & 32 ? 0x3Fu : 0);
}

int main(void) {
    static struct result asked, has;
    static const size_t lengths[] = {0, 1, 16, 100, PLACES};
    unsigned tried = 0;
    for (int from = 0; from < STARTS; from++)
        for (uint64_t kind = 1; kind <= sizeof widths / sizeof *widths; kind++)
            for (size_t n = 0; n < sizeof lengths / sizeof *lengths; n++) {
                fill(from, kind, lengths[n], 0x1F80, &asked);
                if (from == ENDS && lengths[n] >= 8 && !has_ends(kind, &asked)) {
                    printf("kind %d: other elements at the ends\n", (int)kind);
                    return 1;
                }
                for (unsigned i = 0; i < 64; i++, tried++) {
                    unsigned environment = environment_of(i), after = fill(from, kind, lengths[n], environment, &has);
                    if (after == environment && memcmp(&asked, &has, sizeof has) == 0) continue;
                    printf("%s, kind %d, %zu places, environment %04x: %s\n", starts[from], (int)kind, lengths[n], environment,
                           after == environment ? "other bytes" : "left another environment");
                    return 1;
                }
            }
    printf("  %u fills in 64 environments: the same bytes, and each environment as it was\n", tried);
    return 0;
}
