/* Tests the library from C:
 *
 *     host EXPECTED [tight]
 *
 * What is refused, and the draws, come from the scope document's rules and the customers' changes to them, written down here; the words of
 * a Philox group from the published definition. Words and forms come from the Rust: EXPECTED is a list of calls and of its answers
 * (tests/host/expected.txt). With `tight` the lent buffers have no room around them, so that valgrind sees a byte that is read or written
 * outside one; and fewer cases are tried. */
#include <inttypes.h>
#include <stdarg.h>
#include <stdio.h>
#include <stdlib.h>
#include <string.h>

#include "girderpeach.h"

static int tight;
static unsigned long checks, failures;

static void fail(const char *format, ...) {
    va_list list;
    if (++failures > 20) return;
    va_start(list, format);
    fputs("  FAILED: ", stdout);
    vprintf(format, list);
    putchar('\n');
    va_end(list);
}

/* The call that is being tried, for what fail prints. */
struct call {
    const char *name;
    size_t form_len;
    uint64_t a, b;
};

static void expect(const struct call *c, const char *what, uint64_t found, uint64_t expected) {
    checks++;
    if (found == expected) return;
    fail("%s, form length %zu, arguments %" PRIu64 " and %" PRIu64 ": %s: expected %" PRId64 " (%016" PRIx64 "), found %" PRId64 " (%016" PRIx64 ")",
         c->name, c->form_len, c->a, c->b, what, (int64_t)expected, expected, (int64_t)found, found);
}

/* ---- lent buffers */

static uint64_t noise_state = 20260102;

static uint64_t noise(void) { /* SplitMix64 */
    uint64_t z = noise_state += 0x9e3779b97f4a7c15;
    z = (z ^ z >> 30) * 0xbf58476d1ce4e5b9;
    z = (z ^ z >> 27) * 0x94d049bb133111eb;
    return z ^ z >> 31;
}

static void put_noise(uint8_t *bytes, size_t n) {
    for (size_t i = 0; i < n; i++) bytes[i] = (uint8_t)noise();
}

/* A buffer with noise on both sides of what is lent, and what stood there before the call. */
struct lent {
    uint8_t *whole, *before, *at;
    size_t guard, length;
};

static struct lent lend(const uint8_t *content, size_t length) {
    static unsigned count;
    struct lent l;
    l.guard = tight ? 0 : 16 + count++ % 8; /* so that a lent buffer begins at any place of a word */
    l.length = length;
    l.whole = malloc(length + 2 * l.guard);
    l.before = malloc(length + 2 * l.guard);
    l.at = l.whole + l.guard;
    put_noise(l.whole, length + 2 * l.guard);
    if (content && length) memcpy(l.at, content, length);
    memcpy(l.before, l.whole, length + 2 * l.guard);
    return l;
}

static int same(const uint8_t *x, const uint8_t *y, size_t n) { return n == 0 || memcmp(x, y, n) == 0; }

/* Nothing outside was written; and, unless the call was to write there, nothing inside. */
static void expect_kept(const struct call *c, const char *what, const struct lent *l, int inside) {
    size_t end = l->guard + l->length;
    checks++;
    if (!same(l->whole, l->before, l->guard) || !same(l->whole + end, l->before + end, l->guard))
        fail("%s, arguments %" PRIu64 " and %" PRIu64 ": bytes outside the %s changed", c->name, c->a, c->b, what);
    for (size_t i = l->guard; inside && i < end; i++) {
        if (l->whole[i] == l->before[i]) continue;
        fail("%s, form length %zu, arguments %" PRIu64 " and %" PRIu64 ": byte %zu of the %s: expected %02x as before, found %02x", c->name,
             c->form_len, c->a, c->b, i - l->guard, what, l->before[i], l->whole[i]);
        return;
    }
}

static void give_back(struct lent *l) {
    free(l->whole);
    free(l->before);
}

/* ---- the rules */

static uint64_t word_at(const uint8_t *bytes) {
    uint64_t x = 0;
    for (int i = 7; i >= 0; i--) x = x << 8 | bytes[i];
    return x;
}

static void put_word(uint8_t *bytes, uint64_t x) {
    for (int i = 0; i < 8; i++) bytes[i] = (uint8_t)(x >> 8 * i);
}

static int all_zero(const uint8_t *bytes, size_t n) {
    while (n > 0 && bytes[n - 1] == 0) n--;
    return n == 0;
}

/* A block of Philox4x32 in ten rounds (Salmon et al. 2011), in the place of its counter. */
static void philox_block(uint64_t key, uint32_t *c) {
    uint32_t k0 = (uint32_t)key, k1 = (uint32_t)(key >> 32);
    for (int round = 0; round < 10; round++) {
        uint64_t p0 = (uint64_t)0xd2511f53 * c[0], p1 = (uint64_t)0xcd9e8d57 * c[2];
        c[0] = (uint32_t)(p1 >> 32) ^ c[1] ^ k0;
        c[1] = (uint32_t)p1;
        c[2] = (uint32_t)(p0 >> 32) ^ c[3] ^ k1;
        c[3] = (uint32_t)p0;
        k0 += 0x9e3779b9;
        k1 += 0xbb67ae85;
    }
}

/* The lower or the upper words of the eight blocks from block `first` on, modulo 2^64, with the key and the stream of a form. */
static void put_half(uint8_t *words, const uint8_t *form, uint64_t first, int upper) {
    uint64_t key = word_at(form), stream = word_at(form + 8);
    for (int i = 0; i < 8; i++, first++) {
        uint32_t c[4] = {(uint32_t)first, (uint32_t)(first >> 32), (uint32_t)stream, (uint32_t)(stream >> 32)};
        philox_block(key, c);
        put_word(words + 8 * i, c[2 * upper] | (uint64_t)c[2 * upper + 1] << 32);
    }
}

static int philox_fault(const uint8_t *form, size_t length) {
    uint8_t upper[64];
    if (length != 104) return 1;
    uint64_t mark = word_at(form + 24);
    if (mark > 1 || (mark == 0 && !all_zero(form + 32, 72))) return 2;
    put_half(upper, form, word_at(form + 96), 1);
    return mark == 1 && !same(form + 32, upper, 64) ? 14 : 0;
}

/* What a form of 96 bytes becomes, and its refusal: the number is counter - 8 modulo 2^64 if words wait, else 0. */
static int moved_fault(const uint8_t *old, size_t length, uint8_t *moved) {
    if (length != 96) return 1;
    memcpy(moved, old, 96);
    put_word(moved + 96, word_at(old + 24) == 1 ? word_at(old + 16) - 8 : 0);
    return philox_fault(moved, 104);
}

static int xoshiro_fault(const uint8_t *form, size_t length) {
    if (length != 256) return 1;
    for (int i = 0; i < 8; i++) {
        uint64_t any = 0;
        for (int row = 0; row < 4; row++) any |= word_at(form + 64 * row + 8 * i);
        if (any == 0) return 3;
    }
    return 0;
}

struct engine {
    const char *name;
    size_t length;
    int (*fault)(const uint8_t *form, size_t length);
    int64_t (*fill)(uint8_t *form, size_t form_len, uint64_t kind, uint8_t *out, size_t out_len);
    int64_t (*skip)(uint8_t *form, size_t form_len, uint64_t draws);
};
static const struct engine xoshiro = {"gp_xoshiro_fill", 256, xoshiro_fault, gp_xoshiro_fill, gp_xoshiro_skip};
static const struct engine philox = {"gp_philox_fill", 104, philox_fault, gp_philox_fill, gp_philox_skip};

/* Of kinds 1 to 8: bytes of an element, elements of a group, draws of a group. */
#define LAST_KIND 8
static const struct {
    size_t width, places;
    int64_t draws;
} kinds[LAST_KIND + 1] = {{0, 0, 0}, {8, 8, 1}, {4, 16, 1}, {4, 16, 1}, {8, 8, 1}, {4, 16, 1}, {8, 16, 2}, {4, 16, 1}, {8, 8, 1}};

static int is_kind(uint64_t kind) { return kind >= 1 && kind <= LAST_KIND; }

/* A wrong group, 14, is answered after a kind or a length. */
static int64_t fill_answer(int form_fault, uint64_t kind, size_t out_len) {
    if (form_fault && form_fault != 14) return -form_fault;
    if (!is_kind(kind)) return -4;
    if (out_len % kinds[kind].width) return -5;
    if (form_fault) return -form_fault;
    size_t places = out_len / kinds[kind].width;
    return kinds[kind].draws * (int64_t)((places + kinds[kind].places - 1) / kinds[kind].places);
}

/* The header's names stand for the scope document's numbers, which the tests below write out. */
static void names(void) {
    static const int named[] = {GP_XOSHIRO_FORM, GP_PHILOX_FORM, GP_PHILOX_FORM_96, GP_U64, GP_U32, GP_F32, GP_F64, GP_NORMAL_F32,
                                GP_NORMAL_F64, GP_OPEN01_F32, GP_OPEN01_F64, GP_REFUSED_FORM_LENGTH, GP_REFUSED_MARK, GP_REFUSED_ZERO_LANE,
                                GP_REFUSED_KIND, GP_REFUSED_OUT_LENGTH, GP_REFUSED_GROUP};
    static const int numbers[] = {256, 104, 96, 1, 2, 3, 4, 5, 6, 7, 8, 1, 2, 3, 4, 5, 14};
    struct call c = {"the header", 0, 0, 0};
    for (; c.a < sizeof numbers / sizeof *numbers; c.a++) expect(&c, "name", (uint64_t)named[c.a], (uint64_t)numbers[c.a]);
}

/* ---- one call of each function, held to the rules */

/* The bytes written and the form after it are left in `out` and `after`, where these are wanted. */
static void try_fill(const struct engine *e, const uint8_t *form, size_t form_len, uint64_t kind, size_t out_len, int64_t expected, uint8_t *out,
                     uint8_t *after) {
    struct call c = {e->name, form_len, kind, out_len};
    struct lent f = lend(form, form_len), o = lend(NULL, out_len);
    int64_t answer = e->fill(f.at, form_len, kind, o.at, out_len);
    expect(&c, "answer", (uint64_t)answer, (uint64_t)expected);
    expect_kept(&c, "form", &f, expected <= 0); /* no draws, no change */
    expect_kept(&c, "output", &o, expected <= 0);
    if (out && out_len) memcpy(out, o.at, out_len);
    if (after) memcpy(after, f.at, form_len);
    give_back(&f);
    give_back(&o);
}

/* As if so many draws had been made: few of them are, by a fill of whole draws. */
static void try_skip(const struct engine *e, const uint8_t *form, size_t form_len, uint64_t n, uint8_t *after) {
    struct call c = {e == &xoshiro ? "gp_xoshiro_skip" : "gp_philox_skip", form_len, n, 0};
    int fault = e->fault(form, form_len);
    struct lent f = lend(form, form_len);
    expect(&c, "answer", (uint64_t)e->skip(f.at, form_len, n), (uint64_t)-fault);
    expect_kept(&c, "form", &f, fault || n == 0);
    if (!fault && n <= 100) {
        uint8_t drawn[256], out[6400];
        memcpy(drawn, form, form_len);
        expect(&c, "as many draws", (uint64_t)e->fill(drawn, form_len, 1, out, 64 * n), n);
        expect(&c, "the form after as many draws", (uint64_t)same(f.at, drawn, form_len), 1);
    }
    if (after) memcpy(after, f.at, form_len);
    give_back(&f);
}

/* Returns the number of jumps that was written. */
static uint64_t try_jump_blocks(const uint8_t *form, size_t form_len, uint64_t n, uint8_t *after) {
    struct call c = {"gp_xoshiro_jump_blocks", form_len, n, 0};
    int fault = xoshiro_fault(form, form_len);
    struct lent f = lend(form, form_len);
    uint64_t jumps[3] = {7, 12345, 7};
    int64_t answer = gp_xoshiro_jump_blocks(f.at, form_len, n, &jumps[1]);
    expect(&c, "answer", (uint64_t)answer, (uint64_t)-fault);
    expect(&c, "jumps", jumps[1], fault ? 12345 : 8 * n);
    expect(&c, "beside jumps", jumps[0] + jumps[2], 14);
    expect_kept(&c, "form", &f, fault || 8 * n == 0);
    if (after) memcpy(after, f.at, form_len);
    give_back(&f);
    return jumps[1];
}

static uint64_t try_xoshiro_new(uint64_t seed, uint64_t block, size_t form_len, uint8_t *after) {
    struct call c = {"gp_xoshiro_new", form_len, seed, block};
    int fault = form_len != 256;
    struct lent f = lend(NULL, form_len);
    uint64_t jumps[3] = {7, 12345, 7};
    int64_t answer = gp_xoshiro_new(seed, block, f.at, form_len, &jumps[1]);
    expect(&c, "answer", (uint64_t)answer, (uint64_t)-fault);
    expect(&c, "jumps", jumps[1], fault ? 12345 : 8 * block);
    expect(&c, "beside jumps", jumps[0] + jumps[2], 14);
    expect_kept(&c, "form", &f, fault);
    if (after) memcpy(after, f.at, form_len);
    give_back(&f);
    return jumps[1];
}

static void try_philox_new(uint64_t seed, uint64_t stream, size_t form_len, uint8_t *after) {
    struct call c = {"gp_philox_new", form_len, seed, stream};
    int fault = form_len != 104;
    struct lent f = lend(NULL, form_len);
    uint8_t expected[104] = {0};
    put_word(expected, seed);
    put_word(expected + 8, stream);
    expect(&c, "answer", (uint64_t)gp_philox_new(seed, stream, f.at, form_len), (uint64_t)-fault);
    expect_kept(&c, "form", &f, fault);
    if (!fault && !same(f.at, expected, 104))
        fail("gp_philox_new(%" PRIu64 ", %" PRIu64 "): not the form of this key and stream", seed, stream);
    if (after) memcpy(after, f.at, form_len);
    give_back(&f);
}

static void try_seek(const uint8_t *form, size_t form_len, uint64_t block, uint8_t *after) {
    struct call c = {"gp_philox_seek", form_len, block, 0};
    int fault = philox_fault(form, form_len);
    struct lent f = lend(form, form_len);
    expect(&c, "answer", (uint64_t)gp_philox_seek(f.at, form_len, block), (uint64_t)-fault);
    expect_kept(&c, "form", &f, fault);
    if (!fault) {
        expect(&c, "key and stream kept", (uint64_t)same(f.at, form, 16), 1);
        expect(&c, "counter", word_at(f.at + 16), block);
        expect(&c, "no words wait", (uint64_t)all_zero(f.at + 24, 80), 1);
    }
    if (after) memcpy(after, f.at, form_len);
    give_back(&f);
}

static void try_draws_left(const uint8_t *form, size_t form_len) {
    struct call c = {"gp_philox_draws_left", form_len, 0, 0};
    int fault = philox_fault(form, form_len);
    struct lent f = lend(form, form_len);
    int64_t expected = -fault;
    if (!fault) {
        uint64_t counter = c.a = word_at(form + 16), waiting = c.b = word_at(form + 24);
        expected = counter == 0 ? (int64_t)1 << 62 : (int64_t)(-counter / 8 * 2); /* -counter is 2^64 - counter */
        if (waiting) expected++;
    }
    expect(&c, "answer", (uint64_t)gp_philox_draws_left(f.at, form_len), (uint64_t)expected);
    expect_kept(&c, "form", &f, 1);
    give_back(&f);
}

static void try_label(const uint8_t *form, size_t form_len) {
    struct call c = {"gp_philox_label", form_len, 0, 0};
    int fault = philox_fault(form, form_len), upper = fault ? 0 : form[24];
    struct lent f = lend(form, form_len);
    uint64_t first[3] = {7, 12345, 7};
    int64_t answer = gp_philox_label(f.at, form_len, &first[1]);
    expect(&c, "answer", (uint64_t)answer, (uint64_t)(fault ? -fault : upper));
    expect(&c, "first block", first[1], fault ? 12345 : word_at(form + (upper ? 96 : 16)));
    expect(&c, "beside the first block", first[0] + first[2], 14);
    expect_kept(&c, "form", &f, 1);
    give_back(&f);
}

/* `form` is written, and has another length than 104 in some cases. */
static void try_from_96(const uint8_t *old, size_t old_len, size_t form_len) {
    struct call c = {"gp_philox_from_96", form_len, old_len, 0};
    uint8_t moved[104];
    int fault = moved_fault(old, old_len, moved);
    if (form_len != 104) fault = 1;
    struct lent o = lend(old, old_len), f = lend(NULL, form_len);
    expect(&c, "answer", (uint64_t)gp_philox_from_96(o.at, old_len, f.at, form_len), (uint64_t)-fault);
    expect_kept(&c, "old form", &o, 1);
    expect_kept(&c, "form", &f, fault);
    if (!fault) expect(&c, "the old bytes and the number", (uint64_t)same(f.at, moved, 104), 1);
    give_back(&o);
    give_back(&f);
}

static void try_to_96(const uint8_t *form, size_t form_len, size_t old_len) {
    struct call c = {"gp_philox_to_96", form_len, old_len, 0};
    int fault = old_len != 96 ? 1 : philox_fault(form, form_len);
    struct lent f = lend(form, form_len), o = lend(NULL, old_len);
    expect(&c, "answer", (uint64_t)gp_philox_to_96(f.at, form_len, o.at, old_len), (uint64_t)-fault);
    expect_kept(&c, "form", &f, 1);
    expect_kept(&c, "old form", &o, fault);
    if (!fault) expect(&c, "the first 96 bytes", (uint64_t)same(o.at, form, 96), 1);
    give_back(&f);
    give_back(&o);
}

/* ---- what is refused */

/* Room for a form and more, which is noise. Noise is a good xoshiro form. */
#define ROOM 600
static void put_xoshiro(uint8_t *form) { put_noise(form, ROOM); }

/* The words that wait were left by a draw, and so many group calls followed. */
static void put_philox(uint8_t *form, int waiting, uint64_t groups) {
    uint64_t first;
    put_noise(form, ROOM);
    put_word(form + 24, (uint64_t)waiting);
    memset(form + 32, 0, 72);
    if (!waiting) return;
    first = word_at(form + 16) - 8 - 8 * groups;
    put_half(form + 32, form, first, 1);
    put_word(form + 96, first);
}

static void zero_lane(uint8_t *form, int i) {
    for (int row = 0; row < 4; row++) memset(form + 64 * row + 8 * i, 0, 8);
}

/* Every set of faults: the lowest number is answered. */
static void faults_together(void) {
    for (int set = 1; set < 32; set++) {
        uint8_t x[ROOM], p[ROOM];
        int length = set & 1, damaged = set & 2, kind = set & 4, out = set & 8, group = set & 16;
        put_xoshiro(x);
        put_philox(p, 1, noise() % 3);
        if (damaged) zero_lane(x, 5);
        if (damaged) p[24] = 2;
        if (group) p[32 + noise() % 72] ^= 4;
        int later = kind ? 4 : out ? 5 : 14;
        uint64_t any = 1 + noise() % LAST_KIND;
        /* 17 bytes are whole elements of no kind */
        try_fill(&philox, p, length ? 105 : 104, kind ? 0 : any, out ? 17 : 16, length ? -1 : damaged ? -2 : -later, NULL, NULL);
        if (group) continue;
        try_fill(&xoshiro, x, length ? 255 : 256, kind ? LAST_KIND + 1 : any, out ? 17 : 16, length ? -1 : damaged ? -3 : -later, NULL,
                 NULL);
    }
}

static void every_kind_and_length(const struct engine *e, const uint8_t *form, size_t form_len) {
    static const uint64_t numbers[] = {0, 1, 2, 3, 4, 5, 6, 7, 8, 9, 10, 255, 257, 262, 264, 65537, ((uint64_t)1 << 32) + 1,
                                       ((uint64_t)1 << 32) + 8, (uint64_t)1 << 63, UINT64_MAX};
    int fault = e->fault(form, form_len);
    for (size_t k = 0; k < sizeof numbers / sizeof *numbers; k++) {
        for (size_t out_len = 0; out_len <= 272; out_len += tight && out_len > 16 ? 15 : 1)
            try_fill(e, form, form_len, numbers[k], out_len, fill_answer(fault, numbers[k], out_len), NULL, NULL);
    }
}

static void every_form_length(void) {
    static const size_t lengths[] = {0, 1, 8, 88, 95, 96, 97, 103, 104, 105, 112, 192, 208, 248, 255, 256, 257, 264, 352, 512};
    uint8_t x[ROOM], p[ROOM], q[ROOM];
    put_xoshiro(x);
    put_philox(p, 0, 0);
    put_philox(q, 1, 0);
    for (size_t i = 0; i < sizeof lengths / sizeof *lengths; i++) {
        size_t n = lengths[i];
        uint64_t far = UINT64_MAX / 9;
        every_kind_and_length(&xoshiro, x, n);
        every_kind_and_length(&philox, p, n);
        try_xoshiro_new(1, far, n, NULL);
        try_jump_blocks(x, n, far, NULL);
        try_skip(&xoshiro, x, n, far, NULL);
        try_skip(&philox, p, n, far, NULL);
        try_philox_new(1, 2, n, NULL);
        try_seek(p, n, 3, NULL);
        try_draws_left(p, n);
        try_label(p, n);
        try_label(q, n);
        try_to_96(q, n, 96);
        try_to_96(q, 104, n);
        try_to_96(q, n, 104);
        try_from_96(q, n, 104);
        try_from_96(q, 96, n);
        try_from_96(q, n, 96);
    }
}

/* Every call on a Philox form, and both moves. */
static void try_philox_form(const uint8_t *form, uint8_t *out, uint8_t *after) {
    int fault = philox_fault(form, 104);
    try_seek(form, 104, noise(), NULL);
    try_skip(&philox, form, 104, noise() % 8, NULL);
    try_draws_left(form, 104);
    try_label(form, 104);
    try_to_96(form, 104, 96);
    try_to_96(form, 104, 95);
    try_from_96(form, 96, 104);
    try_from_96(form, 96, 103);
    try_fill(&philox, form, 104, 0, 3, fill_answer(fault, 0, 3), NULL, NULL);
    try_fill(&philox, form, 104, 3, 3, fill_answer(fault, 3, 3), NULL, NULL);
    try_fill(&philox, form, 104, 6, 0, fill_answer(fault, 6, 0), NULL, NULL);
    try_fill(&philox, form, 104, 1, 64, fill_answer(fault, 1, 64), out, after);
}

/* One draw: the waiting words are handed out, or the next eight blocks are made and leave words waiting, with the number of their group. */
static void expect_one_draw(const struct call *c, const uint8_t *form, const uint8_t *out, const uint8_t *after) {
    int held = form[24];
    uint64_t counter = word_at(form + 16);
    uint8_t half[64];
    expect(c, "key and stream kept", (uint64_t)same(after, form, 16), 1);
    expect(c, "counter", word_at(after + 16), counter + (held ? 0 : 8));
    expect(c, "mark", word_at(after + 24), !held);
    expect(c, "number", word_at(after + 96), held ? 0 : counter);
    if (held) expect(c, "the waiting words handed out", (uint64_t)same(out, form + 32, 64), 1);
    if (held) expect(c, "no words left", (uint64_t)all_zero(after + 32, 64), 1);
    if (held) return;
    put_half(half, form, counter, 0);
    expect(c, "the lower words handed out", (uint64_t)same(out, half, 64), 1);
    put_half(half, form, counter, 1);
    expect(c, "the upper words wait", (uint64_t)same(after + 32, half, 64), 1);
}

/* Each of the 104 bytes set to other values, in a form without waiting words and in ones with them, also after group calls. */
static void damaged_philox(int waiting, uint64_t groups) {
    uint8_t good[ROOM], form[104], out[64], after[104];
    put_philox(good, waiting, groups);
    for (int i = 0; i < 104; i++) {
        for (int x = 0; x < 256; x += tight && x > 2 && x < 254 ? 25 : 1) {
            struct call c = {"gp_philox_fill of a form with one byte set", 104, (uint64_t)i, (uint64_t)x};
            memcpy(form, good, 104);
            form[i] = (uint8_t)x;
            try_philox_form(form, out, after);
            if (!philox_fault(form, 104)) expect_one_draw(&c, form, out, after);
        }
    }
}

/* Groups at the last blocks of a stream, some of whose blocks are the first again. */
static void last_groups(void) {
    for (uint64_t first = (uint64_t)-20; first != 10; first++) {
        struct call c = {"gp_philox_fill at the last blocks", 104, first, 0};
        uint8_t form[ROOM], out[64], after[104];
        put_philox(form, 0, 0);
        put_word(form + 16, first);
        try_philox_form(form, out, after);
        expect_one_draw(&c, form, out, after);
        memcpy(form, after, 104);
        try_philox_form(form, out, after);
        expect_one_draw(&c, form, out, after);
    }
}

static void try_xoshiro_form(const uint8_t *form) {
    int fault = xoshiro_fault(form, 256);
    try_fill(&xoshiro, form, 256, 9, 1, fault ? -3 : -4, NULL, NULL);
    try_fill(&xoshiro, form, 256, 2, 64, fault ? -3 : 1, NULL, NULL);
    try_jump_blocks(form, 256, fault ? 1 : 0, NULL);
    try_skip(&xoshiro, form, 256, noise() % 8, NULL);
}

/* Every set of lanes zeroed; each word zeroed; a lane with one byte that is not zero; each byte set to other values. */
static void damaged_xoshiro(void) {
    uint8_t good[ROOM], form[256];
    put_xoshiro(good);
    for (int set = 0; set < 256; set++) {
        memcpy(form, good, 256);
        for (int i = 0; i < 8; i++)
            if (set >> i & 1) zero_lane(form, i);
        try_xoshiro_form(form);
    }
    for (int at = 0; at < 256; at++) {
        memcpy(form, good, 256);
        memset(form + at / 8 * 8, 0, 8);
        try_xoshiro_form(form);
        zero_lane(form, at / 8 % 8);
        form[at] = (uint8_t)(1 << at % 8);
        try_xoshiro_form(form);
        memcpy(form, good, 256);
        form[at] = (uint8_t)(form[at] + 1 + noise() % 255);
        try_xoshiro_form(form);
    }
}

/* ---- the Rust's answers */

static uint64_t digest(const uint8_t *bytes, size_t n) { /* FNV-1a, 64 bits */
    uint64_t sum = 0xcbf29ce484222325;
    for (size_t i = 0; i < n; i++) sum = (sum ^ bytes[i]) * 0x100000001b3;
    return sum;
}

/* A line of the list: a call and its arguments; its answer, the number beside it, and the digests of output and form. */
struct line {
    char call[16];
    uint64_t a, b;
    int64_t answer;
    uint64_t number, out, form;
};

static void replay(const struct line *l, const struct engine **e, uint8_t *form) {
    struct call c = {l->call, (*e)->length, l->a, l->b};
    uint8_t before[256], *out = NULL;
    size_t out_len = 0;
    uint64_t number = 0;
    memcpy(before, form, 256);
    if (!strcmp(l->call, "xoshiro")) {
        *e = &xoshiro;
        number = try_xoshiro_new(l->a, l->b, 256, form);
    } else if (!strcmp(l->call, "philox")) {
        *e = &philox;
        try_philox_new(l->a, l->b, 104, form);
    } else if (!strcmp(l->call, "jump_blocks")) {
        number = try_jump_blocks(before, 256, l->a, form);
    } else if (!strcmp(l->call, "skip")) {
        try_skip(*e, before, (*e)->length, l->a, form);
    } else if (!strcmp(l->call, "seek")) {
        try_seek(before, 104, l->a, form);
    } else if (!strcmp(l->call, "fill") && is_kind(l->a)) {
        out_len = l->b * kinds[l->a].width;
        out = malloc(out_len + 1);
        try_fill(*e, before, (*e)->length, l->a, out_len, l->answer, out, form);
    } else {
        fail("%s is no call", l->call);
    }
    expect(&c, "digest of the output", digest(out, out_len), l->out);
    expect(&c, "digest of the form", digest(form, (*e)->length), l->form);
    if (*e == &philox) number = (uint64_t)gp_philox_draws_left(form, 104);
    expect(&c, "jumps, or draws left", number, l->number);
    free(out);
}

static void replay_file(const char *name) {
    FILE *file = fopen(name, "r");
    const struct engine *e = &xoshiro;
    uint8_t form[256] = {0};
    struct line l;
    unsigned long lines = 0;
    if (!file) {
        fail("cannot read %s", name);
        return;
    }
    while (fscanf(file, "%15s %" SCNu64 " %" SCNu64 " %" SCNd64 " %" SCNu64 " %" SCNx64 " %" SCNx64, l.call, &l.a, &l.b, &l.answer, &l.number, &l.out,
                  &l.form) == 7) {
        lines++;
        replay(&l, &e, form);
    }
    if (!feof(file) || lines < 500) fail("%s: expected 500 lines or more, found %lu good ones", name, lines);
    fclose(file);
}

/* A null pointer is as good as any where its length is 0: an output of no bytes, and a form, which is then refused for its length. */
static void nulls(void) {
    struct call c = {"null with length 0", 0, 0, 0};
    uint8_t form[ROOM], before[ROOM];
    uint64_t jumps = 12345;
    put_xoshiro(form);
    memcpy(before, form, 256);
    for (uint64_t kind = 0; kind <= LAST_KIND + 1; kind++) {
        uint64_t accepted = is_kind(kind) ? 0 : (uint64_t)-4;
        expect(&c, "fill of no bytes", (uint64_t)gp_xoshiro_fill(form, 256, kind, NULL, 0), accepted);
        expect(&c, "fill of a null form", (uint64_t)gp_xoshiro_fill(NULL, 0, kind, NULL, 0), (uint64_t)-1);
        expect(&c, "fill of a null form, Philox", (uint64_t)gp_philox_fill(NULL, 0, kind, NULL, 0), (uint64_t)-1);
    }
    expect(&c, "form", (uint64_t)same(form, before, 256), 1);
    put_philox(form, 1, 1);
    memcpy(before, form, 104);
    for (uint64_t kind = 1; kind <= LAST_KIND; kind++)
        expect(&c, "fill of no bytes, Philox", (uint64_t)gp_philox_fill(form, 104, kind, NULL, 0), 0);
    expect(&c, "gp_philox_to_96 to null", (uint64_t)gp_philox_to_96(form, 104, NULL, 0), (uint64_t)-1);
    expect(&c, "gp_philox_to_96 of null", (uint64_t)gp_philox_to_96(NULL, 0, form, 96), (uint64_t)-1);
    expect(&c, "gp_philox_from_96 to null", (uint64_t)gp_philox_from_96(form, 96, NULL, 0), (uint64_t)-1);
    expect(&c, "gp_philox_from_96 of null", (uint64_t)gp_philox_from_96(NULL, 0, form, 104), (uint64_t)-1);
    expect(&c, "form, Philox", (uint64_t)same(form, before, 104), 1);
    expect(&c, "gp_xoshiro_new", (uint64_t)gp_xoshiro_new(1, 2, NULL, 0, &jumps), (uint64_t)-1);
    expect(&c, "gp_xoshiro_jump_blocks", (uint64_t)gp_xoshiro_jump_blocks(NULL, 0, 1, &jumps), (uint64_t)-1);
    expect(&c, "gp_philox_label", (uint64_t)gp_philox_label(NULL, 0, &jumps), (uint64_t)-1);
    expect(&c, "jumps, or the first block", jumps, 12345);
    expect(&c, "gp_philox_new", (uint64_t)gp_philox_new(1, 2, NULL, 0), (uint64_t)-1);
    expect(&c, "gp_xoshiro_skip", (uint64_t)gp_xoshiro_skip(NULL, 0, 1), (uint64_t)-1);
    expect(&c, "gp_philox_skip", (uint64_t)gp_philox_skip(NULL, 0, 1), (uint64_t)-1);
    expect(&c, "gp_philox_seek", (uint64_t)gp_philox_seek(NULL, 0, 1), (uint64_t)-1);
    expect(&c, "gp_philox_draws_left", (uint64_t)gp_philox_draws_left(NULL, 0), (uint64_t)-1);
}

int main(int count, char **words) {
    if (count < 2) {
        fputs("host EXPECTED [tight]\n", stderr);
        return 2;
    }
    tight = count > 2;
    setvbuf(stdout, NULL, _IONBF, 0); /* what failed is said even if a call does not end */
    names();
    nulls();
    faults_together();
    every_form_length();
    damaged_philox(0, 0);
    damaged_philox(1, 0);
    damaged_philox(1, 1);
    last_groups();
    damaged_xoshiro();
    replay_file(words[1]);
    printf("  host.c: %lu checks, %lu failures\n", checks, failures);
    return failures != 0;
}
