"""Rows of the table for NumPy's generators: the best of ten fills of 200,000 places each."""
import time

import numpy

N = 200_000


def row(name, kind, dtype, fill):
    out = numpy.empty(N, dtype)
    best = float("inf")
    for _ in range(10):
        began = time.perf_counter()
        fill(out)
        best = min(best, time.perf_counter() - began)
    print(f"| NumPy {numpy.__version__} {name} | {kind} | {best / N * 1e9:.2f} |")


for bits in (numpy.random.Philox, numpy.random.PCG64, numpy.random.SFC64):
    rng = numpy.random.Generator(bits(42))
    name = bits.__name__
    row(name, "u64", "u8", lambda out: rng.integers(0, 2**64, N, numpy.uint64))
    row(name, "u32", "u4", lambda out: rng.integers(0, 2**32, N, numpy.uint32))
    row(name, "f32", "f4", lambda out: rng.random(dtype=numpy.float32, out=out))
    row(name, "f64", "f8", lambda out: rng.random(out=out))
    row(name, "normal_f32", "f4", lambda out: rng.standard_normal(dtype=numpy.float32, out=out))
    row(name, "normal_f64", "f8", lambda out: rng.standard_normal(out=out))
