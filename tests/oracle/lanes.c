/* Our float calls, linked as a static library, on stored lanes: reads lines as lanes.txt has them, eight for each call: its name, the
   refusal's number or 0, the arguments, and the Rust's results. Writes them again with our number and our results. It needs no Rust. */
#include <inttypes.h>
#include <stdint.h>
#include <stdio.h>
#include <string.h>

uint64_t oracle_ln_f32(const float *x, float *out);
uint64_t oracle_sqrt_f32(const float *x, float *out);
uint64_t oracle_sincos_turns_f32(const float *t, float *cos, float *sin);
uint64_t oracle_box_muller_f32(const float *u1, const float *u2, float *cos, float *sin);
uint64_t oracle_ln_f64(const double *x, double *out);
uint64_t oracle_sqrt_f64(const double *x, double *out);
uint64_t oracle_sincos_turns_f64(const double *t, double *cos, double *sin);
uint64_t oracle_box_muller_f64(const double *u1, const double *u2, double *cos, double *sin);

/* Eight lanes of patterns: two rows of arguments and two of results, of which a call takes one or both. */
typedef uint64_t Lanes[4][8];

/* A call: which one, and how many of the rows. */
enum { LN, SQRT, SINCOS, BOX_MULLER };
static const struct {
    const char *name;
    int arguments, results;
} calls[] = { { "ln_f", 1, 1 }, { "sqrt_f", 1, 1 }, { "sincos_turns_f", 1, 2 }, { "box_muller_f", 2, 2 } };

/* The call on the arguments of x, its results put into x. It answers the refusal's number. */
#define CALLED(FLOAT, BITS, SUFFIX)                                                                           \
    static uint64_t called_##SUFFIX(int call, Lanes x)                                                        \
    {                                                                                                         \
        FLOAT v[4][8];                                                                                        \
        BITS b[4][8];                                                                                         \
        uint64_t refusal = 0;                                                                                 \
        for (int k = 0; k < 32; k++)                                                                          \
            b[k / 8][k % 8] = (BITS)x[k / 8][k % 8];                                                          \
        memcpy(v, b, sizeof v);                                                                               \
        switch (call) {                                                                                       \
        case LN: refusal = oracle_ln_##SUFFIX(v[0], v[2]); break;                                             \
        case SQRT: refusal = oracle_sqrt_##SUFFIX(v[0], v[2]); break;                                         \
        case SINCOS: refusal = oracle_sincos_turns_##SUFFIX(v[0], v[2], v[3]); break;                         \
        case BOX_MULLER: refusal = oracle_box_muller_##SUFFIX(v[0], v[1], v[2], v[3]); break;                 \
        }                                                                                                     \
        memcpy(b, v, sizeof v);                                                                               \
        for (int k = 0; k < 32; k++)                                                                          \
            x[k / 8][k % 8] = b[k / 8][k % 8];                                                                \
        return refusal;                                                                                       \
    }
CALLED(float, uint32_t, f32)
CALLED(double, uint64_t, f64)

/* Eight lanes of a call, which `name` names, handed to it and written. */
static int eight(const char *name, Lanes x)
{
    for (int call = LN; call <= BOX_MULLER; call++) {
        size_t length = strlen(calls[call].name);
        if (strncmp(name, calls[call].name, length) != 0)
            continue;
        int wide = strcmp(name + length, "64") == 0;
        uint64_t refusal = wide ? called_f64(call, x) : called_f32(call, x);
        for (int i = 0; i < 8; i++) {
            printf("%s %" PRIu64, name, refusal);
            for (int row = 0; row < 2 + calls[call].results; row++)
                if (row < calls[call].arguments || row >= 2)
                    printf(" %0*" PRIx64, wide ? 16 : 8, x[row][i]);
            printf("\n");
        }
        return 1;
    }
    return 0;
}

int main(void)
{
    char line[256], name[32];
    Lanes x = { { 0 } };
    int n = 0;
    while (fgets(line, sizeof line, stdin)) {
        /* where a call takes one argument, the last number read is a result, and not used */
        if (sscanf(line, "%31s %*u %" SCNx64 " %" SCNx64, name, &x[0][n], &x[1][n]) != 3)
            return 2;
        n = (n + 1) % 8;
        if (n == 0 && !eight(name, x))
            return 2;
    }
    return n == 0 ? 0 : 2;
}
