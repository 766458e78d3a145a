"""Writes crates/xoshiro_steps/proofs/Squares.antt to standard output: the polynomial of a step of xoshiro256++, and x squared 192 times
modulo it. With the argument `powers`, the words of the tables of crates/xoshiro/src/powers.rt: x ^ (2 ^ j) for j from 0 to 63 and from 128
to 191. The prover checks them by computing, so nothing is believed of this program. Polynomials over GF(2) are numbers: bit k is the
coefficient of x ^ k."""
import sys

# Blackman and Vigna, xoshiro256plusplus.c: what JUMP and LONG_JUMP should come out as.
JUMP = [0x180EC6D33CFD0ABA, 0xD5A61266F0C9392C, 0xA9582618E03FC9AA, 0x39ABDC4529B1661C]
LONG_JUMP = [0x76E15D3EFEFDCBBF, 0xC5004E441C522FB3, 0x77710069854EE241, 0x39109BB02ACBE635]

HEAD = """\
-- The polynomial of a step, and x squared 192 times modulo it, by tools/squares.py: certificates, which the prover checks by computing. Bit k of a
-- number is the coefficient of x ^ k. Assumes nothing.
use mathlib.Core.List.{List, [], ◌∷◌}
use Prim.Native.Nat.{ℕ}

abbrev pub polynomial : ℕ
polynomial = %#x

-- entry j: the square of x ^ (2 ^ j), divided by the polynomial: the quotient, and the remainder x ^ (2 ^ (j + 1)). The remainder of entry 127 is
-- JUMP, and of entry 191 LONG_JUMP
abbrev pub squares : List (ℕ × ℕ)
squares =
    %s
    ∷ []
"""


def step(s0, s1, s2, s3):
    s2 ^= s0
    s3 ^= s1
    rotated = (s3 << 45 | s3 >> 19) & (2**64 - 1)
    return s0 ^ s3, s1 ^ s2, s2 ^ (s1 << 17 & (2**64 - 1)), rotated


def shortest_recurrence(bits):
    """Berlekamp-Massey: the connection polynomial of the shortest recurrence that gives the bits, and its length."""
    now, before, length, since = 1, 1, 0, 1
    for n in range(len(bits)):
        differs = sum((now >> i & 1) & bits[n - i] for i in range(length + 1)) % 2
        if differs and 2 * length <= n:
            now, before, length, since = now ^ before << since, now, n + 1 - length, 1
        else:
            now, since = now ^ (before << since if differs else 0), since + 1
    return now, length


def divided(a, b):
    quotient = 0
    while a.bit_length() >= b.bit_length():
        shift = a.bit_length() - b.bit_length()
        quotient, a = quotient ^ 1 << shift, a ^ b << shift
    return quotient, a


def squared(a):
    return int(format(a, "b").replace("0", "00").replace("1", "01"), 2)


state, bits = (1, 0, 0, 0), []
for _ in range(512):
    bits.append(state[0] & 1)
    state = step(*state)
connection, degree = shortest_recurrence(bits)
assert degree == 256
polynomial = int(format(connection, "b").zfill(257)[::-1], 2)

entries, power, powers = [], 2, [2]
for _ in range(192):
    quotient, power = divided(squared(power), polynomial)
    entries.append((quotient, power))
    powers.append(power)
for entry, words in (127, JUMP), (191, LONG_JUMP):
    assert entries[entry][1] == sum(word << 64 * i for i, word in enumerate(words))

if sys.argv[1:] == ["powers"]:
    for j in (*range(64), *range(128, 192)):
        for i in range(4):
            digits = "%016x" % (powers[j] >> 64 * i & 2**64 - 1)
            print("0x" + "_".join(digits[k : k + 4] for k in range(0, 16, 4)))
    sys.exit()
print(HEAD % (polynomial, "\n    ∷ ".join("(%#x, %#x)" % entry for entry in entries)), end="")
