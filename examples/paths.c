/* A small pension run: many paths of a fund, one normal number a year, by seed and block.
 *
 *     paths [SEED [BLOCK [PATHS [YEARS [PIECES]]]]]
 *
 * The run is made in PIECES pieces. Between two of them it is a file in the working folder and nothing else. So it may be stopped at any
 * time, also by force: the same order, given again, goes on from the file. The normals, and so the digest, are the same for every number
 * of pieces and of stops. When the results are printed, the file is removed.
 *
 * Each run has a file of its own, paths.SEED.BLOCK.PATHS.YEARS.state. It holds all that the run is at some point: whose it is, what was
 * found so far, and the generator. Any number of processes may work in one folder, also on the same run, and no lock is needed: every
 * state of a run leads to the same results, whoever kept it. A file that is not a state of the run is refused. */
#define _POSIX_C_SOURCE 200809L /* mkstemp, fdopen */
#include <errno.h>
#include <inttypes.h>
#include <stdio.h>
#include <stdlib.h>
#include <string.h>

#include "girderpeach.h"

/* These are not in the file: who changes them removes the files of runs that were stopped. */
#define START 100.0 /* the fund at the start of every path */
#define MEAN 0.04   /* of a year's return */
#define SPREAD 0.12 /* its standard deviation */

/* 16 normals are a group. Sixteen paths at a time are whole groups whatever the years: only the last fill of a run may end within one. */
#define BATCH 16
#define MOST_YEARS 1000

/* What an order takes. Block 2^61 would be block 0 again; the longest run is one of some minutes. */
enum { SEED, BLOCK, PATHS, YEARS, PIECES, ARGUMENTS };
static const char *const names[ARGUMENTS] = {"SEED", "BLOCK", "PATHS", "YEARS", "PIECES"};
static const uint64_t least[ARGUMENTS] = {0, 0, 1, 1, 1};
static const uint64_t most[ARGUMENTS] = {UINT64_MAX, ((uint64_t)1 << 61) - 1, 10000000, MOST_YEARS, 10000};

struct run {
    uint64_t seed, block, paths, years;
    uint64_t made; /* paths so far */
    uint64_t draws;
    uint64_t digest; /* of the normals' bytes */
    uint64_t above;  /* paths that end above the start */
    uint8_t form[GP_XOSHIRO_FORM];
};

/* In the file: the eight numbers, the form, and the digest of all these bytes, so that damage shows. */
#define NUMBERS 8
#define FORM_AT (8 * NUMBERS)
#define CHECK_AT (FORM_AT + GP_XOSHIRO_FORM)
#define STATE_BYTES (CHECK_AT + 8)

#define FILE_NAME "paths.%" PRIu64 ".%" PRIu64 ".%" PRIu64 ".%" PRIu64 ".state"
static char file_name[120];

static void stop(const char *what, const char *why) {
    fprintf(stderr, "paths: %s %s: %s\n", what, file_name, why);
    exit(1);
}

static void refused(int64_t answer) {
    fprintf(stderr, "paths: the library refused the form of %s: refusal %" PRId64 "\n", file_name, -answer);
    exit(1);
}

/* FNV-1a, 64 bits. */
#define DIGEST_OF_NOTHING 0xcbf29ce484222325
static uint64_t digest_with(uint64_t digest, const uint8_t *bytes, size_t length) {
    for (size_t i = 0; i < length; i++) digest = (digest ^ bytes[i]) * 0x100000001b3;
    return digest;
}

/* The library's bytes are little-endian on every machine, and so are the file's. */
static uint64_t word_at(const uint8_t *bytes) {
    uint64_t word = 0;
    for (int i = 7; i >= 0; i--) word = word << 8 | bytes[i];
    return word;
}

static void put_word(uint8_t *bytes, uint64_t word) {
    for (int i = 0; i < 8; i++) bytes[i] = (uint8_t)(word >> 8 * i);
}

static double number_at(const uint8_t *bytes) {
    uint64_t bits = word_at(bytes);
    double x;
    memcpy(&x, &bits, sizeof x);
    return x;
}

static void write_state(const struct run *r, uint8_t *bytes) {
    const uint64_t numbers[NUMBERS] = {r->seed, r->block, r->paths, r->years, r->made, r->draws, r->digest, r->above};
    for (int i = 0; i < NUMBERS; i++) put_word(bytes + 8 * i, numbers[i]);
    memcpy(bytes + FORM_AT, r->form, GP_XOSHIRO_FORM);
    put_word(bytes + CHECK_AT, digest_with(DIGEST_OF_NOTHING, bytes, CHECK_AT));
}

/* Takes the run's point from the bytes. Tells whether they are a state of it: what it would write itself, where a piece may end, and after
 * as many draws as its paths take. */
static int read_state(struct run *r, const uint8_t *bytes) {
    uint8_t own[STATE_BYTES];
    r->made = word_at(bytes + 32), r->draws = word_at(bytes + 40), r->digest = word_at(bytes + 48), r->above = word_at(bytes + 56);
    memcpy(r->form, bytes + FORM_AT, GP_XOSHIRO_FORM);
    write_state(r, own);
    if (memcmp(own, bytes, STATE_BYTES) != 0) return 0;
    if (r->made > r->paths || (r->made % BATCH != 0 && r->made != r->paths)) return 0;
    return r->draws == (r->made * r->years + 15) / 16 * 2 && r->above <= r->made;
}

static void begin(struct run *r) {
    uint64_t jumps;
    int64_t answer = gp_xoshiro_new(r->seed, r->block, r->form, sizeof r->form, &jumps);
    if (answer < 0) refused(answer);
    r->made = r->draws = r->above = 0;
    r->digest = DIGEST_OF_NOTHING;
}

/* Goes on from the file. If there is none, it begins: the run is new, or another process had done the same run and removed the file. */
static void take_up(struct run *r) {
    uint8_t bytes[STATE_BYTES + 1]; /* one more, to see that the file ends */
    FILE *file = fopen(file_name, "rb");
    if (!file && errno == ENOENT) {
        begin(r);
        return;
    }
    if (!file) stop("cannot read", strerror(errno));
    size_t length = fread(bytes, 1, sizeof bytes, file);
    if (ferror(file)) stop("cannot read", strerror(errno));
    fclose(file);
    if (length != STATE_BYTES || !read_state(r, bytes)) stop("refused", "it is damaged, or not a state of this run");
}

/* Writes the file aside, under a name that no other process has, and renames it: whoever reads finds a whole state, the old or the new.
 * (What a process leaves behind that is killed while it writes, no one reads.) */
static void keep(const struct run *r) {
    uint8_t bytes[STATE_BYTES];
    char aside[sizeof file_name + 8];
    write_state(r, bytes);
    snprintf(aside, sizeof aside, "%s.XXXXXX", file_name);
    int number = mkstemp(aside);
    FILE *file = number < 0 ? NULL : fdopen(number, "wb");
    if (!file) stop("cannot write", strerror(errno));
    int written = fwrite(bytes, 1, STATE_BYTES, file) == STATE_BYTES;
    if (fclose(file) != 0 || !written || rename(aside, file_name) != 0) {
        int why = errno;
        remove(aside);
        stop("cannot write", strerror(why));
    }
}

static double end_of_path(const uint8_t *normals, uint64_t years) {
    double fund = START;
    for (uint64_t year = 0; year < years; year++) fund *= 1.0 + (MEAN + SPREAD * number_at(normals + 8 * year));
    return fund;
}

/* Makes `paths` paths, or as many as are left. */
static void make_piece(struct run *r, uint64_t paths) {
    static uint8_t normals[BATCH * MOST_YEARS * 8];
    if (paths > r->paths - r->made) paths = r->paths - r->made;
    while (paths > 0) {
        uint64_t batch = paths < BATCH ? paths : BATCH;
        size_t length = batch * r->years * 8;
        int64_t draws = gp_xoshiro_fill(r->form, sizeof r->form, GP_NORMAL_F64, normals, length);
        if (draws < 0) refused(draws);
        r->draws += (uint64_t)draws;
        r->digest = digest_with(r->digest, normals, length);
        for (uint64_t p = 0; p < batch; p++) r->above += end_of_path(normals + 8 * r->years * p, r->years) > START;
        r->made += batch;
        paths -= batch;
    }
}

static void print_results(const struct run *r) {
    printf("seed %" PRIu64 ", block %" PRIu64 ": %" PRIu64 " paths of %" PRIu64 " years\n", r->seed, r->block, r->paths, r->years);
    printf("draws made: %" PRIu64 "\n", r->draws);
    printf("digest of the normals: %016" PRIx64 "\n", r->digest);
    printf("paths that end above the start: %" PRIu64 "\n", r->above);
    if (fflush(stdout) != 0) stop("cannot print; the results are in", strerror(errno));
}

static void wrong_order(void) {
    fprintf(stderr, "paths: an order is up to five numbers in decimal digits:");
    for (int i = 0; i < ARGUMENTS; i++) fprintf(stderr, "%s %s %" PRIu64 " to %" PRIu64, i ? "," : "", names[i], least[i], most[i]);
    fprintf(stderr, "\n");
    exit(1);
}

/* A number has one form: digits, with no sign, no space and no zero in front. */
static uint64_t number_of(const char *word, uint64_t low, uint64_t high) {
    uint64_t number = 0;
    if (*word == '\0' || (word[0] == '0' && word[1] != '\0')) wrong_order();
    for (; *word != '\0'; word++) {
        if (*word < '0' || *word > '9') wrong_order();
        uint64_t digit = (uint64_t)(*word - '0');
        if (number > (high - digit) / 10) wrong_order(); /* else 10 number + digit is at most `high`, and does not wrap */
        number = 10 * number + digit;
    }
    if (number < low) wrong_order();
    return number;
}

int main(int count, char **words) {
    uint64_t order[ARGUMENTS] = {42, 0, 10000, 40, 2};
    if (count > ARGUMENTS + 1) wrong_order();
    for (int i = 0; i + 1 < count; i++) order[i] = number_of(words[i + 1], least[i], most[i]);

    struct run r = {.seed = order[SEED], .block = order[BLOCK], .paths = order[PATHS], .years = order[YEARS]};
    snprintf(file_name, sizeof file_name, FILE_NAME, r.seed, r.block, r.paths, r.years);
    uint64_t batches = (r.paths + BATCH - 1) / BATCH, each = (batches + order[PIECES] - 1) / order[PIECES] * BATCH;
    do {
        take_up(&r);
        make_piece(&r, each);
        keep(&r);
    } while (r.made < r.paths);
    print_results(&r);
    if (remove(file_name) != 0 && errno != ENOENT) stop("cannot remove", strerror(errno));
    return 0;
}
