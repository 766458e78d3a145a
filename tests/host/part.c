/* One process of an interrupted run, which knows of the generator only what the file FORM says:
 *
 *     part ENGINE start FORM SEED PLACE           writes the form of a seed, and of a block (xoshiro) or a stream (philox)
 *     part ENGINE fill FORM OUT [KIND PLACES]..   makes the fills, adds their bytes to the file OUT and writes the form after them
 */
#include <stdio.h>
#include <stdlib.h>
#include <string.h>

#include "girderpeach.h"

static int is_philox;
static uint8_t form[GP_XOSHIRO_FORM];
static size_t form_len;

static void stop(const char *what) {
    fprintf(stderr, "part: %s\n", what);
    exit(1);
}

static void read_form(const char *name) {
    FILE *file = fopen(name, "rb");
    if (!file || fread(form, 1, form_len, file) != form_len || fgetc(file) != EOF) stop("no form of the right length");
    fclose(file);
}

static void write_form(const char *name) {
    FILE *file = fopen(name, "wb");
    if (!file || fwrite(form, 1, form_len, file) != form_len || fclose(file) != 0) stop("cannot write the form");
}

static void start(uint64_t seed, uint64_t place) {
    uint64_t jumps;
    int64_t answer = is_philox ? gp_philox_new(seed, place, form, form_len) : gp_xoshiro_new(seed, place, form, form_len, &jumps);
    if (answer != 0) stop("the start was refused");
}

static void fill(uint64_t kind, size_t places, FILE *file) {
    size_t length = places * (kind == GP_U64 || kind == GP_F64 || kind == GP_NORMAL_F64 || kind == GP_OPEN01_F64 ? 8 : 4);
    uint8_t *out = malloc(length + 1);
    if (!out) stop("no memory");
    if ((is_philox ? gp_philox_fill : gp_xoshiro_fill)(form, form_len, kind, out, length) < 0) stop("a fill was refused");
    if (fwrite(out, 1, length, file) != length) stop("cannot write the output");
    free(out);
}

int main(int count, char **words) {
    if (count < 5) stop("ENGINE start FORM SEED PLACE, or ENGINE fill FORM OUT [KIND PLACES]..");
    is_philox = !strcmp(words[1], "philox");
    form_len = is_philox ? GP_PHILOX_FORM : GP_XOSHIRO_FORM;
    if (!strcmp(words[2], "start")) {
        if (count != 6) stop("start FORM SEED PLACE");
        start(strtoull(words[4], NULL, 0), strtoull(words[5], NULL, 0));
    } else {
        FILE *file = fopen(words[4], "ab");
        if (!file) stop("cannot open the output");
        read_form(words[3]);
        for (int i = 5; i + 1 < count; i += 2) fill(strtoull(words[i], NULL, 0), strtoull(words[i + 1], NULL, 0), file);
        if (fclose(file) != 0) stop("cannot write the output");
    }
    write_form(words[3]);
    return 0;
}
