/* The fills of the library, whatever floating-point environment the calling program has set: how it rounds, what it flushes to zero and
 * which exceptions it unmasked. The proofs speak of rounding to nearest, and the code that was proved cannot see to it. So fills that go
 * by it are called here in the environment that a program starts with, and the program's own is handed back as it was found, its flags
 * too.
 *
 * This is the only code of the library that is not proved. `make lib` gives the proved fills the names below. */
#include <math.h>
#include <xmmintrin.h>

#include "girderpeach.h"

typedef int64_t fill(uint8_t *form, size_t form_len, uint64_t kind, uint8_t *out, size_t out_len);
fill girderpeach_xoshiro_fill, girderpeach_philox_fill;

/* To nearest, ties to even; nothing flushed to zero; every exception masked. The low six bits are the flags that were raised. */
#define DEFAULT 0x1F80u
#define FLAGS 0x3Fu

static int64_t in_default(fill *proved, uint8_t *form, size_t form_len, uint64_t kind, uint8_t *out, size_t out_len) {
    unsigned found = _mm_getcsr();
    int64_t answer;
    if ((found & ~FLAGS) != DEFAULT) _mm_setcsr(DEFAULT);
    answer = proved(form, form_len, kind, out, out_len);
    if (_mm_getcsr() != found) _mm_setcsr(found);
    return answer;
}

/* A difference of equals is -0.0 in a program that rounds down, and +0.0 in any other. (To read the register would take longer.) The empty
 * statement keeps the compiler from making the difference itself. */
static int rounds_down(void) {
    double one = 1.0;
    __asm__ volatile("" : "+x"(one));
    return signbit(one - one) != 0;
}

/* Whether the program's environment tells on a kind. The normals are rounded. An f64 is a difference, which is exact; but it may be 0. The
 * other kinds are words, or floats that are exact and never such a zero. None but the normals raises a flag. */
static int tells(uint64_t kind) {
    if (kind == GP_NORMAL_F32 || kind == GP_NORMAL_F64) return 1;
    return kind == GP_F64 && rounds_down();
}

int64_t gp_xoshiro_fill(uint8_t *form, size_t form_len, uint64_t kind, uint8_t *out, size_t out_len) {
    if (tells(kind)) return in_default(girderpeach_xoshiro_fill, form, form_len, kind, out, out_len);
    return girderpeach_xoshiro_fill(form, form_len, kind, out, out_len);
}

int64_t gp_philox_fill(uint8_t *form, size_t form_len, uint64_t kind, uint8_t *out, size_t out_len) {
    if (tells(kind)) return in_default(girderpeach_philox_fill, form, form_len, kind, out, out_len);
    return girderpeach_philox_fill(form, form_len, kind, out, out_len);
}
