"""xoshiro256++ from the published definitions (Blackman and Vigna), and its states however far on: by polynomial arithmetic modulo the
polynomial of a step, which is found from the step itself, as are all powers of x. As a program:

    xoshiro256pp.py SEED BLOCK FIRST

writes the 32 words of the eight lanes of a block after FIRST draws, lane after lane, for tests/deliver/rust."""
import functools
import sys

M64 = 2**64 - 1
JUMP_STEPS = 2**128


def rotl(x, n):
    return (x << n | x >> (64 - n)) & M64


def step(s):
    """One step on the four words in s; the output."""
    out = (rotl((s[0] + s[3]) & M64, 23) + s[0]) & M64
    t = s[1] << 17 & M64
    s[2] ^= s[0]
    s[3] ^= s[1]
    s[1] ^= s[2]
    s[0] ^= s[3]
    s[2] ^= t
    s[3] = rotl(s[3], 45)
    return out


def seeded(seed):
    """Four words of SplitMix64."""
    words = []
    for i in range(1, 5):
        z = (seed + i * 0x9E3779B97F4A7C15) & M64
        z = (z ^ z >> 30) * 0xBF58476D1CE4E5B9 & M64
        z = (z ^ z >> 27) * 0x94D049BB133111EB & M64
        words.append(z ^ z >> 31)
    return words if any(words) else [1, 0, 0, 0]


def as_number(s):
    return sum(word << 64 * i for i, word in enumerate(s))


# ---- polynomials over GF(2) are numbers: bit k is the coefficient of x ** k


@functools.cache
def polynomial():
    """The polynomial of a step: the first linear dependence among a state and those that follow it."""
    s, seen, k = [1, 0, 0, 0], {}, 0
    while True:
        state, powers = as_number(s), 1 << k
        while state.bit_length() in seen:
            other, more = seen[state.bit_length()]
            state, powers = state ^ other, powers ^ more
        if state == 0:
            return powers
        seen[state.bit_length()] = state, powers
        step(s)
        k += 1


def product(a, b):
    """Modulo the polynomial of a step."""
    total, modulus = 0, polynomial()
    while b:
        if b & 1:
            total ^= a
        a, b = a << 1, b >> 1
        if a.bit_length() == modulus.bit_length():
            a ^= modulus
    return total


@functools.cache
def squares(count):
    """x ** (2 ** k) for k below count."""
    found = [2]
    while len(found) < count:
        found.append(product(found[-1], found[-1]))
    return found


def power(n):
    """x ** n."""
    total = 1
    for k, square in enumerate(squares(256)):
        if n >> k & 1:
            total = product(total, square)
    return total


def selected(coefficients, s):
    """The sum of the states that the coefficients select, of those that follow s."""
    s, total = list(s), [0, 0, 0, 0]
    while coefficients:
        if coefficients & 1:
            total = [x ^ y for x, y in zip(total, s)]
        step(s)
        coefficients >>= 1
    return total


def lanes_of(seed, jumps, draws):
    """Lane i is the seed's state after (jumps + i) * 2 ** 128 + draws steps."""
    lane = selected(power(jumps * JUMP_STEPS + draws), seeded(seed))
    lanes, jump = [lane], power(JUMP_STEPS)
    while len(lanes) < 8:
        lanes.append(selected(jump, lanes[-1]))
    return lanes


if __name__ == "__main__":
    seed, block, first = map(int, sys.argv[1:])
    print(*(word for lane in lanes_of(seed, 8 * block & M64, first) for word in lane))
