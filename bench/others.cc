// Other generators: C++'s own mt19937_64 with normal_distribution, GSL's mt19937 (WITH_GSL) and Random123's Philox4x32-10 (WITH_RANDOM123).
#include <cstddef>
#include <cstdint>
#include <cstdio>
#include <random>
#ifdef WITH_GSL
#include <gsl/gsl_randist.h>
#include <gsl/gsl_rng.h>
#endif
#ifdef WITH_RANDOM123
#include <Random123/boxmuller.hpp>
#include <Random123/philox.h>
#include <Random123/uniform.hpp>
#endif
#include "others.h"

// The best of ten fills, in ns an element.
template <class T, class Next> static void row(const char *what, const char *kind, void *out, size_t n, Next next) {
    T *to = static_cast<T *>(out);
    double best = 0;
    for (int run = 0; run < 10; run++) {
        double began = seconds();
        for (size_t i = 0; i < n; i++)
            to[i] = next();
        double took = (seconds() - began) * 1e9 / static_cast<double>(n);
        if (run == 0 || took < best)
            best = took;
    }
    std::printf("| %s | %s | %.2f |\n", what, kind, best);
}

#ifdef WITH_RANDOM123
// The four words of a block one after another, as a user of the counter-based generator would hand them out.
struct Blocks {
    r123::Philox4x32 philox;
    r123::Philox4x32::ctr_type counter = {{}}, block = {{}};
    r123::Philox4x32::key_type key = {{42}};
    unsigned used = 4;
    uint32_t operator()() {
        if (used == 4) {
            counter.incr();
            block = philox(counter, key);
            used = 0;
        }
        return block[used++];
    }
    uint64_t wide() {
        uint64_t low = (*this)();
        return low | static_cast<uint64_t>((*this)()) << 32;
    }
};
#endif

void others(void *out, size_t n) {
    std::puts("\nOther generators, ns an element at 200,000 places. Their numbers are not the same, and some need not be of the same "
              "quality.\n");
    std::puts("| generator | kind | ns |\n|---|---|---|");
    const char *name = "C++ mt19937_64";
    std::mt19937_64 engine(42);
    std::uniform_real_distribution<double> unit;
    std::normal_distribution<double> normal;
    row<uint64_t>(name, "u64", out, n, [&] { return engine(); });
    row<double>(name, "f64", out, n, [&] { return unit(engine); });
    row<double>(name, "normal_f64", out, n, [&] { return normal(engine); });
#ifdef WITH_GSL
    name = "GSL mt19937";
    gsl_rng *gsl = gsl_rng_alloc(gsl_rng_mt19937);
    row<uint32_t>(name, "u32", out, n, [&] { return static_cast<uint32_t>(gsl_rng_get(gsl)); });
    row<double>(name, "f64", out, n, [&] { return gsl_rng_uniform(gsl); });
    row<double>(name, "normal_f64 (Box-Muller, polar)", out, n, [&] { return gsl_ran_gaussian(gsl, 1.0); });
    row<double>(name, "normal_f64 (ziggurat)", out, n, [&] { return gsl_ran_gaussian_ziggurat(gsl, 1.0); });
    gsl_rng_free(gsl);
#endif
#ifdef WITH_RANDOM123
    name = "Random123 Philox4x32-10";
    Blocks blocks;
    row<uint64_t>(name, "u64", out, n, [&] { return blocks.wide(); });
    row<uint32_t>(name, "u32", out, n, [&] { return blocks(); });
    row<float>(name, "f32", out, n, [&] { return r123::u01<float>(blocks()); });
    row<double>(name, "f64", out, n, [&] { return r123::u01<double>(blocks.wide()); });
    r123::double2 pair = {0, 0};
    bool half = false;
    row<double>(name, "normal_f64 (Box-Muller)", out, n, [&] {
        half = !half;
        if (half)
            pair = r123::boxmuller(blocks.wide(), blocks.wide());
        return half ? pair.x : pair.y;
    });
#endif
}
