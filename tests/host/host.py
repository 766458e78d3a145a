"""Tests the shared object from Python: host.py LIBRARY EXPECTED

Words, unit floats, draws and forms are held to models of both engines, written here and in tests/xoshiro256pp.py from the published
definitions (Blackman and Vigna; Salmon et al. 2011), the scope document and the customers' changes to it; normals to the Box-Muller
formula, within rounding; and all of it, bit for bit, to the Rust's answers in EXPECTED (tests/host/expected.txt). Units that are never 0
are made in integers."""
import ctypes
import functools
import itertools
import math
import mmap
import os
import random
import struct
import sys

sys.path.insert(0, os.path.join(os.path.dirname(os.path.abspath(__file__)), ".."))
from xoshiro256pp import JUMP_STEPS, M64, as_number, lanes_of, power, seeded, selected, step

M32 = 2**32 - 1
JUMP = (0x180EC6D33CFD0ABA, 0xD5A61266F0C9392C, 0xA9582618E03FC9AA, 0x39ABDC4529B1661C)
# of kinds 1 to 8: bytes of an element, elements of a group, draws of a group
KINDS = {1: (8, 8, 1), 2: (4, 16, 1), 3: (4, 16, 1), 4: (8, 8, 1), 5: (4, 16, 1), 6: (8, 16, 2), 7: (4, 16, 1), 8: (8, 8, 1)}
NO_KIND = (0, 9, 10, 255, 257, 262, 264, 2**32 + 1, 2**32 + 8, 2**63, M64)
chance = random.Random(20260102)
checks = failures = 0


def expect(what, found, expected):
    global checks, failures
    checks += 1
    if found != expected:
        failures += 1
        if failures <= 20:
            print(f"  FAILED: {what}: expected {shown(expected)}, found {shown(found)}", flush=True)


def shown(x):
    return x.hex() if isinstance(x, bytes) and len(x) <= 256 else f"{len(x)} bytes, {fnv(x):016x}" if isinstance(x, bytes) else x


def fnv(data):
    total = 0xCBF29CE484222325
    for byte in data:
        total = (total ^ byte) * 0x100000001B3 & M64
    return total


# ---- models


def jumped(s):
    s, total = list(s), [0, 0, 0, 0]
    for word in JUMP:
        for bit in range(64):
            if word >> bit & 1:
                total = [x ^ y for x, y in zip(total, s)]
            step(s)
    return total


def mapped(images, x):
    """The sum of the images of the bits of x: a linear map over GF(2), by its images of the 256 states of one bit."""
    total = 0
    while x:
        total ^= images[x.bit_length() - 1]
        x ^= 1 << x.bit_length() - 1
    return total


def powers_of_step(count):
    """2 ** k steps, for k below count: a step, squared again and again, by no polynomial."""
    images = []
    for bit in range(256):
        s = [(1 << bit) >> 64 * i & M64 for i in range(4)]
        step(s)
        images.append(as_number(s))
    powers = [images]
    while len(powers) < count:
        powers.append([mapped(powers[-1], x) for x in powers[-1]])
    return powers


def philox_block(counter, key):
    """Philox4x32 in ten rounds."""
    c, (k0, k1) = list(counter), key
    for _ in range(10):
        p0, p1 = 0xD2511F53 * c[0], 0xCD9E8D57 * c[2]
        c = [p1 >> 32 ^ c[1] ^ k0, p1 & M32, p0 >> 32 ^ c[3] ^ k1, p0 & M32]
        k0, k1 = (k0 + 0x9E3779B9) & M32, (k1 + 0xBB67AE85) & M32
    return c


@functools.lru_cache(maxsize=2000)
def philox_group(k0, k1, stream, first):
    """The lower and the upper words of the eight blocks from block `first` on, modulo 2^64."""
    lower, upper = [], []
    for i in range(8):
        n = (first + i) & M64
        w = philox_block((n & M32, n >> 32, stream & M32, stream >> 32), (k0, k1))
        lower.append(w[0] | w[1] << 32)
        upper.append(w[2] | w[3] << 32)
    return lower, upper


class Xoshiro:
    name, length = "xoshiro", 256

    def __init__(self, form):
        words = struct.unpack("<32Q", form)
        self.lanes = [list(words[i::8]) for i in range(8)]

    def form(self):
        return struct.pack("<32Q", *(lane[row] for row in range(4) for lane in self.lanes))

    def draw(self):
        return [step(lane) for lane in self.lanes]

    def far(self, steps):
        coefficients = power(steps)
        self.lanes = [selected(coefficients, lane) for lane in self.lanes]

    def skip(self, n):
        """One by one, where that does not take long."""
        if n >= 200:
            return self.far(n)
        for _ in range(n):
            self.draw()

    def jump(self, n):
        """The same, by the published polynomial."""
        if n > 8:
            return self.far(n * JUMP_STEPS)
        for _ in range(n):
            self.lanes = [jumped(lane) for lane in self.lanes]

    @staticmethod
    def fault(form):
        if len(form) != 256:
            return 1
        return 3 if any(not any(form[at] for row in range(4) for at in range(64 * row + 8 * i, 64 * row + 8 * i + 8)) for i in range(8)) else 0


class Philox:
    """The scope document's machine, and the first block of the group whose words wait, 0 if none do."""

    name, length = "philox", 104

    def __init__(self, form):
        self.k0, self.k1, self.stream, self.counter, self.mark, *self.waiting, self.first = struct.unpack("<2I12Q", form)

    def form(self):
        return struct.pack("<2I12Q", self.k0, self.k1, self.stream, self.counter, self.mark, *self.waiting, self.first)

    def group(self, first):
        return philox_group(self.k0, self.k1, self.stream, first)

    def draw(self):
        if self.mark:
            words, self.mark, self.waiting, self.first = self.waiting, 0, [0] * 8, 0
            return words
        lower, self.waiting = self.group(self.counter)
        self.mark, self.first = 1, self.counter
        self.counter = (self.counter + 8) & M64
        return lower

    def label(self):
        """Of the next draw: 0 for the lower half or 1 for the upper, and the first block of its group."""
        return (1, self.first) if self.mark else (0, self.counter)

    def blocks(self):
        """A group call, whose words are not looked at: what waits goes on waiting, and keeps its number."""
        self.counter = (self.counter + 8) & M64

    def seek(self, block):
        self.counter, self.mark, self.waiting, self.first = block, 0, [0] * 8, 0

    def skip(self, n):
        """One by one, where that does not take long; else by the scope document's counter, a + 8 (d / 2 rounded up) after d draws."""
        if n >= 200 and self.mark:
            self.draw()
            n -= 1
        if n >= 200:
            self.counter, n = (self.counter + 8 * (n // 2)) & M64, n % 2
        for _ in range(n):
            self.draw()

    def draws_left(self):
        """By the rule, and near the end also by counting the draws, one after another, until the next group would pass block 2^64."""
        left = 2 * ((2**64 - self.counter) // 8) + (1 if self.mark else 0)
        if self.counter > 2**64 - 3000:
            counted, counter, waits = 0, self.counter, self.mark == 1
            while waits or counter + 8 <= 2**64:
                counted, counter, waits = counted + 1, counter if waits else counter + 8, not waits
            expect(f"model: draws left at {self.counter}, mark {self.mark}", left, counted)
        return left

    @staticmethod
    def fault(form):
        if len(form) != 104:
            return 1
        model = Philox(form)
        if model.mark > 1 or model.mark == 0 and any(form[32:]):
            return 2
        return 14 if model.mark and list(model.waiting) != model.group(model.first)[1] else 0

    @staticmethod
    def moved(old):
        """What a form of 96 bytes becomes: its number is counter - 8 modulo 2^64 if words wait, else 0. And its refusal."""
        if len(old) != 96:
            return 1, b""
        counter, mark = struct.unpack("<2Q", old[16:32])
        form = old + struct.pack("<Q", (counter - 8) & M64 if mark == 1 else 0)
        return Philox.fault(form), form


def lowest(*faults):
    """The refusal that is answered where several apply, 0 for none."""
    return min((fault for fault in faults if fault), default=0)


def halves(words):
    return [w & M32 for w in words] + [w >> 32 for w in words]


def pattern(n, scale, digits, bias):
    """The pattern of n / 2 ** scale, a normal number below 1. Its leading one is the highest bit of n, and so many digits follow it."""
    top = n.bit_length() - 1
    return (bias + top - scale << digits) + (n - 2**top << digits - top)


def group(kind, draw):
    """The elements of a group, from draws. Of kinds 7 and 8 their patterns."""
    if kind == 1:
        return draw()
    if kind == 2:
        return halves(draw())
    if kind == 3:
        return [(h >> 8) / 2**24 for h in halves(draw())]
    if kind == 4:
        return [(w >> 12) / 2**52 for w in draw()]
    if kind == 7:
        return [pattern(2 * (h >> 9) + 1, 24, 23, 127) for h in halves(draw())]
    if kind == 8:
        return [pattern(2 * (w >> 12) + 1, 53, 52, 1023) for w in draw()]
    if kind == 5:
        h = halves(draw())
        pairs = [((h[i] >> 8) / 2**24, (h[8 + i] >> 8) / 2**24) for i in range(8)]
    else:
        a, b = draw(), draw()
        pairs = [((a[i] >> 12) / 2**52, (b[i] >> 12) / 2**52) for i in range(8)]
    radii = [math.sqrt(-2 * math.log(1 - u)) for u, _ in pairs]
    return [r * math.cos(math.tau * t) for r, (_, t) in zip(radii, pairs)] + [r * math.sin(math.tau * t) for r, (_, t) in zip(radii, pairs)]


def model_fill(model, kind, places):
    """The draws and the elements, in model numbers."""
    _, size, draws = KINDS[kind]
    groups = -(-places // size)
    elements = [x for _ in range(groups) for x in group(kind, model.draw)]
    return groups * draws, elements[:places]


def held_to(kind, found, elements, what):
    """Bytes against model numbers: exact but for normals, where the library's own formulas are a few last places off."""
    code = {1: "Q", 2: "I", 3: "f", 4: "d", 5: "f", 6: "d", 7: "I", 8: "Q"}[kind]
    if kind not in (5, 6):
        expect(what, found, struct.pack(f"<{len(elements)}{code}", *elements))
    else:
        off = max((abs(x - y) for x, y in zip(struct.unpack(f"<{len(elements)}{code}", found), elements)), default=0.0)
        expect(f"{what}: a normal is {off} off, within the bound", off < (1e-5 if kind == 5 else 1e-13), True)


def published():
    """The models against published vectors: Random123's for Philox, the reference code's for xoshiro256++ and SplitMix64."""
    expect("model: Philox, zeros", philox_block((0, 0, 0, 0), (0, 0)), [0x6627E8D5, 0xE169C58D, 0xBC57AC4C, 0x9B00DBD8])
    ones = philox_block((M32, M32, M32, M32), (M32, M32))
    expect("model: Philox, ones", ones, [0x408F276D, 0x41C83B0E, 0xA20BC7C6, 0x6D5451FD])
    digits = philox_block((0x243F6A88, 0x85A308D3, 0x13198A2E, 0x03707344), (0xA4093822, 0x299F31D0))
    expect("model: Philox, digits of pi", digits, [0xD16CFE09, 0x94FDCCEB, 0x5001E420, 0x24126EA1])
    s = [1, 2, 3, 4]
    expect("model: xoshiro256++ of 1, 2, 3, 4", [step(s) for _ in range(4)], [41943041, 58720359, 3588806011781223, 3591011842654386])
    expect("model: SplitMix64 of 1234567", seeded(1234567)[:2], [6457827717110365317, 3203168211198807973])


# ---- the library


class Lent:
    """A buffer with noise on both sides of what is lent."""

    def __init__(self, content):
        self.ends = chance.randbytes(chance.randrange(16, 24)), chance.randbytes(16)
        self.length = len(content)
        self.whole = ctypes.create_string_buffer(self.ends[0] + content + self.ends[1], self.length + len(self.ends[0]) + 16)
        self.at = ctypes.c_void_p(ctypes.addressof(self.whole) + len(self.ends[0]))

    def content(self, what):
        start = len(self.ends[0])
        raw = self.whole.raw
        expect(f"{what}: bytes before", raw[:start], self.ends[0])
        expect(f"{what}: bytes after", raw[start + self.length :], self.ends[1])
        return raw[start : start + self.length]


class Edge:
    """A buffer between noise and a page that may be neither read nor written: a call that goes there ends the test."""

    def __init__(self, content):
        self.memory, self.length = mmap.mmap(-1, 2 * mmap.PAGESIZE), len(content)
        self.before = chance.randbytes(64)
        self.memory[mmap.PAGESIZE - len(content) - 64 : mmap.PAGESIZE] = self.before + content
        end = ctypes.addressof(ctypes.c_char.from_buffer(self.memory)) + mmap.PAGESIZE
        if ctypes.CDLL(None).mprotect(ctypes.c_void_p(end), ctypes.c_size_t(mmap.PAGESIZE), 0):
            raise OSError("mprotect")
        self.at = ctypes.c_void_p(end - len(content))

    def content(self, what):
        start = mmap.PAGESIZE - self.length
        expect(f"{what}: bytes before", self.memory[start - 64 : start], self.before)
        return self.memory[start : mmap.PAGESIZE]


def declared(path):
    lib = ctypes.CDLL(path)
    u64, size, bytes_at, number_at = ctypes.c_uint64, ctypes.c_size_t, ctypes.c_void_p, ctypes.POINTER(ctypes.c_uint64)
    for name, words in {
        "gp_xoshiro_fill": (bytes_at, size, u64, bytes_at, size),
        "gp_philox_fill": (bytes_at, size, u64, bytes_at, size),
        "gp_xoshiro_new": (u64, u64, bytes_at, size, number_at),
        "gp_xoshiro_jump_blocks": (bytes_at, size, u64, number_at),
        "gp_xoshiro_skip": (bytes_at, size, u64),
        "gp_philox_new": (u64, u64, bytes_at, size),
        "gp_philox_seek": (bytes_at, size, u64),
        "gp_philox_skip": (bytes_at, size, u64),
        "gp_philox_draws_left": (bytes_at, size),
        "gp_philox_label": (bytes_at, size, number_at),
        "gp_philox_from_96": (bytes_at, size, bytes_at, size),
        "gp_philox_to_96": (bytes_at, size, bytes_at, size),
    }.items():
        call = getattr(lib, name)
        call.argtypes, call.restype = words, ctypes.c_int64
    return lib


class Host:
    """The library's calls on bytes: each answers the answer, the number beside it, the form after it and the output."""

    def __init__(self, path, lend=Lent):
        self.lib, self.lend = declared(path), lend

    def called(self, name, form, make):
        f, number = self.lend(form), ctypes.c_uint64(987654321)
        answer = make(getattr(self.lib, name), f.at, len(form), number)
        return answer, number.value, f.content(f"{name}, form")

    def fill(self, engine, form, kind, out):
        o, name = self.lend(out), f"gp_{engine.name}_fill"
        answer, _, after = self.called(name, form, lambda call, at, n, _: call(at, n, kind, o.at, len(out)))
        return answer, after, o.content(f"{name}, output")

    def xoshiro_new(self, seed, block, form):
        return self.called("gp_xoshiro_new", form, lambda call, at, n, jumps: call(seed, block, at, n, jumps))

    def jump_blocks(self, form, blocks):
        return self.called("gp_xoshiro_jump_blocks", form, lambda call, at, n, jumps: call(at, n, blocks, jumps))

    def skip(self, engine, form, draws):
        return self.called(f"gp_{engine.name}_skip", form, lambda call, at, n, _: call(at, n, draws))

    def philox_new(self, seed, stream, form):
        return self.called("gp_philox_new", form, lambda call, at, n, _: call(seed, stream, at, n))

    def seek(self, form, block):
        return self.called("gp_philox_seek", form, lambda call, at, n, _: call(at, n, block))

    def draws_left(self, form):
        return self.called("gp_philox_draws_left", form, lambda call, at, n, _: call(at, n))

    def label(self, form):
        return self.called("gp_philox_label", form, lambda call, at, n, first: call(at, n, first))

    def moved(self, name, source, target):
        """A move answers the answer, what it was made from and what it was written to."""
        t = self.lend(target)
        answer, _, after = self.called(name, source, lambda call, at, n, _: call(at, n, t.at, len(target)))
        return answer, after, t.content(f"{name}, target")

    def from_96(self, old, form):
        return self.moved("gp_philox_from_96", old, form)

    def to_96(self, form, old):
        return self.moved("gp_philox_to_96", form, old)


UNTOUCHED = 987654321


def try_fill(host, engine, form, kind, length):
    """One fill, by the rules and the model. The form after it."""
    what = f"{engine.name} fill, form {form[:40].hex()}.. of {len(form)}, kind {kind}, {length} bytes"
    before = chance.randbytes(length)
    answer, after, out = host.fill(engine, form, kind, before)
    fault = lowest(engine.fault(form), 4 if kind not in KINDS else 5 if length % KINDS[kind][0] else 0)
    if fault:
        expect(what, (answer, after, out), (-fault, form, before))
        return form
    model = engine(form)
    draws, elements = model_fill(model, kind, length // KINDS[kind][0])
    expect(f"{what}, draws", answer, draws)
    expect(f"{what}, form after", after, model.form())
    held_to(kind, out, elements, f"{what}, output")
    return after


def try_draws_left(host, form):
    answer = -Philox.fault(form) or Philox(form).draws_left()
    expect(f"draws_left, form {form.hex()}", host.draws_left(form), (answer, UNTOUCHED, form))


def try_label(host, form):
    fault = Philox.fault(form)
    answer, first = (-fault, UNTOUCHED) if fault else Philox(form).label()
    expect(f"label, form {form.hex()}", host.label(form), (answer, first, form))


def try_to_96(host, form, length=96):
    noise = chance.randbytes(length)
    fault = lowest(Philox.fault(form), length != 96)
    expected = (-fault, form, noise if fault else form[:96])
    expect(f"to_96, {length} bytes, form {form.hex()}", host.to_96(form, noise), expected)


def try_from_96(host, old, length=104):
    """And back, where it is accepted."""
    noise = chance.randbytes(length)
    fault, form = Philox.moved(old)
    fault = lowest(fault, length != 104)
    expect(f"from_96 of {old.hex()} to {length} bytes", host.from_96(old, noise), (-fault, old, noise if fault else form))
    if not fault:
        expect(f"from_96 and to_96 of {old.hex()}", host.to_96(form, chance.randbytes(96)), (0, form, old))


def told(host, form):
    """What a Philox form tells, and both moves, which are refused where the other length is wrong, whatever else is."""
    try_label(host, form)
    try_draws_left(host, form)
    try_to_96(host, form)
    try_to_96(host, form, chance.choice((0, 95, 97, 104)))
    try_from_96(host, form[:96])
    try_from_96(host, form[:96], chance.choice((0, 96, 103, 105)))


def some_number():
    """Small, near a power of two, near the end, or any."""
    near = chance.choice((2 ** chance.randrange(64), 2**61, 2**63, M64)) + chance.randrange(-20, 21)
    return chance.choice((0, 1, chance.randrange(60), chance.randrange(1000), near & M64, chance.getrandbits(64)))


def try_skip(host, engine, form, n):
    fault = engine.fault(form)
    if fault:
        expected = (-fault, UNTOUCHED, form)
    else:
        model = engine(form)
        model.skip(n)
        expected = (0, UNTOUCHED, model.form())
    expect(f"{engine.name} skip({n}), form {form.hex()}", host.skip(engine, form, n), expected)
    return expected[2]


def try_move(host, form, n):
    fault, jumps = Xoshiro.fault(form), 8 * n & M64
    expected = (-fault, UNTOUCHED, form)
    if not fault:
        model = Xoshiro(form)
        model.jump(jumps)
        expected = (0, jumps, model.form())
    expect(f"jump_blocks({n}), form {form.hex()}", host.jump_blocks(form, n), expected)
    return expected[2]


def some_block():
    return chance.choice((0, 8 * chance.randrange(1000), chance.getrandbits(64), M64 - chance.randrange(20), 2**32 - chance.randrange(20)))


def try_own(host, engine, form):
    """A skip, and calls that this engine alone has."""
    fault = engine.fault(form)
    form = try_skip(host, engine, form, some_number())
    if engine is Xoshiro:
        return try_move(host, form, chance.choice((1, 2**61, 5 * 2**61, some_number())))
    told(host, form)
    block = some_block()
    after = form if fault else form[:16] + struct.pack("<Q", block) + bytes(80)
    expect(f"seek({block}), form {form.hex()}", host.seek(form, block), (-fault, UNTOUCHED, after))
    return after


# ---- the tests


def starts(host):
    for seed in (0, 1, 42, M64, chance.getrandbits(64)):
        stream = seeded(seed)
        lanes = [stream]
        for _ in range(8 * 3 + 7):
            lanes.append(jumped(lanes[-1]))
        for block in (0, 1, 2, 3, 2**61, 2**61 + 2, 7 * 2**61 + 3):
            jumps = 8 * block & M64
            form = struct.pack("<32Q", *(lanes[jumps + i][row] for row in range(4) for i in range(8)))
            expect(f"xoshiro_new({seed}, {block})", host.xoshiro_new(seed, block, chance.randbytes(256)), (0, jumps, form))
        for place in (0, 1, 2**32, M64, chance.getrandbits(64)):
            form = struct.pack("<2I2Q", seed & M32, seed >> 32, place, 0) + bytes(80)
            expect(f"philox_new({seed}, {place})", host.philox_new(seed, place, chance.randbytes(104)), (0, UNTOUCHED, form))
    for length in (0, 1, 95, 96, 97, 103, 104, 105, 192, 208, 255, 256, 257, 512):
        noise = chance.randbytes(length)
        if length != 256:
            expect(f"xoshiro_new, form length {length}", host.xoshiro_new(1, 2**50, noise), (-1, UNTOUCHED, noise))
        if length != 104:
            expect(f"philox_new, form length {length}", host.philox_new(1, 2, noise), (-1, UNTOUCHED, noise))


EDGES = (0, 1, 2, 3, 2**61 - 1, 2**61, 2**61 + 1, 2**62 - 1, 2**62, 2**63 - 1, 2**63, M64 - 15, M64 - 1, M64)


def far(host):
    """Blocks and draws far off, near 2^61 and 2^64 among them, by the polynomial of a step: from the seed, and from any form."""
    for n in EDGES:
        try_move(host, good_form(Xoshiro), n)
        try_skip(host, Xoshiro, good_form(Xoshiro), n)
        for mark in 0, 1, 0, 1:
            try_skip(host, Philox, good_form(Philox, mark), n)
    places = [(b, d) for b in EDGES for d in (0, 2**61, M64 - 15, M64)] + [(some_number(), some_number()) for _ in range(40)]
    for block, draws in places:
        seed, jumps = chance.getrandbits(64), 8 * block & M64
        lanes = lanes_of(seed, jumps, draws)
        form = struct.pack("<32Q", *(lane[row] for row in range(4) for lane in lanes))
        begun = host.xoshiro_new(seed, block, chance.randbytes(256))
        expect(f"xoshiro_new({seed}, {block})", begun[:2], (0, jumps))
        expect(f"block {block} of seed {seed} after {draws} draws", host.skip(Xoshiro, begun[2], draws), (0, UNTOUCHED, form))


def distances(host):
    """After fills and moves lane i is the seed's stream after (J + i) * 2 ** 128 + D steps: K14. The powers reach J + i = 255."""
    powers = powers_of_step(136)
    for seed in (0, 42, M64, chance.getrandbits(64)):
        block = chance.randrange(8)
        j, d, form = 8 * block, 0, host.xoshiro_new(seed, block, bytes(256))[2]
        for _ in range(6):
            n, kind, groups = chance.randrange(4), chance.choice(tuple(KINDS)), chance.randrange(50)
            width, places, draws = KINDS[kind]
            form = host.fill(Xoshiro, form, kind, bytes(groups * places * width))[1]
            form = host.jump_blocks(form, n)[2]
            j, d = j + 8 * n, d + groups * draws
            lanes = []
            for i in range(8):
                state, steps = as_number(seeded(seed)), (j + i) * 2**128 + d
                for k, power in enumerate(powers):
                    if steps >> k & 1:
                        state = mapped(power, state)
                lanes.append([state >> 64 * row & M64 for row in range(4)])
            expected = struct.pack("<32Q", *(lane[row] for row in range(4) for lane in lanes))
            expect(f"the form of seed {seed} where J is {j} and D is {d}", form, expected)


def good_form(engine, mark=None):
    return chance.randbytes(256) if engine is Xoshiro else philox_form(chance.randrange(2) if mark is None else mark)


def philox_form(mark, groups=None):
    """A form with words that wait, or without. Between the draw that left them and the saving were so many group calls, or any counter."""
    counter = chance.choice((0, chance.getrandbits(64), M64 - chance.randrange(300), 2**32 - chance.randrange(300)))
    model = Philox(chance.randbytes(16) + struct.pack("<Q", counter) + bytes(80))
    if not mark:
        return model.form()
    groups = chance.choice((0, 0, 0, 1, 2, chance.randrange(100), M64)) if groups is None else groups
    model.seek((counter - 8 - 8 * groups) & M64)
    model.draw()
    model.counter = counter if groups < M64 else chance.getrandbits(64)
    return model.form()


def lists(host, engine, count):
    """Lists of calls on one form. Some are refused, for the kind, the length or a form that is damaged for the one call."""
    for _ in range(count):
        form = good_form(engine)
        for _ in range(12):
            kind = chance.choice(tuple(KINDS))
            length = KINDS[kind][0] * chance.choice((0, 1, chance.randrange(40), 16 * chance.randrange(8), chance.randrange(300)))
            choice = chance.randrange(12)
            if choice < 8:
                form = try_fill(host, engine, form, kind, length)
            elif choice < 9:
                form = try_fill(host, engine, form, kind, length + chance.randrange(1, 4))
            elif choice < 10:
                form = try_fill(host, engine, form, chance.choice(NO_KIND), length)
            else:
                form = try_own(host, engine, form)
            if engine is Philox:
                told(host, form)


def saved(host):
    """What forms tell after draws, group calls and seeks, which the model makes, at the counter's end and elsewhere. First where most are
    left."""
    most = Philox(good_form(Philox))
    most.seek(2**64 - 8)
    most.draw()
    expect("draws_left, where the counter came to 2^64", host.draws_left(most.form()), (2**62 + 1, UNTOUCHED, most.form()))
    for _ in range(60):
        model = Philox(good_form(Philox))
        for _ in range(20):
            choice = chance.randrange(8)
            if choice < 4:
                model.draw()
            elif choice < 6:
                model.blocks()
            else:
                model.seek(some_block())
            told(host, model.form())
            expect(f"a generator that was saved is accepted, {model.form().hex()}", host.label(model.form())[0] >= 0, True)


def named(host):
    """The label that the library answers is that of the words which the next fill writes: the half of the group that it names."""
    for mark in (0, 1) * 30:
        form = philox_form(mark)
        model = Philox(form)
        for _ in range(4):
            half, first, _ = host.label(form)
            expect(f"label, form {form.hex()}", (half, first), model.label())
            _, form, out = host.fill(Philox, form, 1, bytes(64))
            expect(f"words of half {half} of the group at {first}", list(struct.unpack("<8Q", out)), model.group(first)[half])
            model.draw()


def between(host):
    """Forms that were saved after group calls, between the two draws of a group: the number is not counter - 8."""
    for groups in (1, 2, 3, 1000, 2**61 - 1) * 4:
        form = philox_form(1, groups)
        model = Philox(form)
        expect("model: another number", model.first, (model.counter - 8 - 8 * groups) & M64)
        noise = chance.randbytes(104)
        expect(f"from_96 after {groups} group calls", host.from_96(form[:96], noise), (-14, form[:96], noise))
        expect(f"to_96 after {groups} group calls", host.to_96(form, noise[:96]), (0, form, form[:96]))
        expect(f"label after {groups} group calls", host.label(form), (1, model.first, form))
        for kind in KINDS:
            try_fill(host, Philox, form, kind, 0)
            try_fill(host, Philox, form, kind, 160)
        expect("the words that wait", host.fill(Philox, form, 1, bytes(64))[::2], (1, form[32:96]))


def at_the_end(host):
    """Groups at the last blocks of a stream, some of whose blocks are the first again, and what follows them."""
    for first in (*range(2**64 - 20, 2**64), *range(10)):
        model = Philox(philox_form(0))
        model.seek(first)
        told(host, model.form())
        model.draw()
        told(host, model.form())
        expect(f"label, group at {first}", host.label(model.form())[:2], (1, first))
        try_from_96(host, model.form()[:96])
        model.blocks()
        told(host, model.form())
        try_fill(host, Philox, try_fill(host, Philox, model.form(), 6, 136), 1, 200)


def values_at(form):
    """A form with each byte set to other values."""
    for at in range(len(form)):
        for value in {0, 1, 2, 128, 255, form[at] ^ 1, chance.randrange(256)}:
            yield form[:at] + bytes([value]) + form[at + 1 :]


def damaged(engine):
    """Good forms and forms damaged in many ways: another length; every byte; marks; lanes, words and all but one byte of a lane zeroed."""
    for mark in (0, 1, 1):
        form = good_form(engine, mark)
        yield form
        for length in (0, 1, 96, engine.length - 1, engine.length + 1, 2 * engine.length, 360 - engine.length):
            yield (form + chance.randbytes(engine.length))[:length]
        yield from values_at(form)
        yield from damaged_philox(form) if engine is Philox else damaged_xoshiro(form)


def damaged_philox(form):
    """Other marks, with the words and the number or without; words in another order; other numbers."""
    for mark in (0, 1, 2, 3, 256, 257, 2**32, 2**32 + 1, 2**63, M64):
        for rest in form[32:], bytes(72), form[32:96] + bytes(8), bytes(64) + form[96:]:
            yield form[:24] + struct.pack("<Q", mark) + rest
    yield form[:32] + form[40:96] + form[32:40] + form[96:]
    number = Philox(form).first
    for other in (number + 1, number - 1, number + 8, number - 8, number ^ 2**63, number ^ 2**32, Philox(form).counter, 0):
        yield form[:96] + struct.pack("<Q", other & M64)


def damaged_xoshiro(form):
    for lane in range(8):
        places = [64 * row + 8 * lane + i for row in range(4) for i in range(8)]
        for spared in [None] + places:
            yield bytes(0 if at in places and at != spared else byte or 1 for at, byte in enumerate(form))
    for word in range(32):
        yield form[: 8 * word] + bytes(8) + form[8 * word + 8 :]
    yield bytes(256)


def old_forms(host):
    """Forms of 96 bytes that were saved between two draws and elsewhere, each with every byte set to other values."""
    for mark in (0, 1, 0, 1):
        old = philox_form(mark, 0)[:96]
        expect("model: such a form is accepted", Philox.moved(old)[0], 0)
        try_from_96(host, old)
        for other in values_at(old):
            try_from_96(host, other)


def move_lengths(host):
    """Every length of either part of a move, to 120 bytes."""
    form = philox_form(1, 0)
    for source, target in itertools.product(range(121), repeat=2):
        content = (form[:96] + chance.randbytes(24))[:source]
        fault = 0 if (source, target) == (96, 104) else -1
        noise = chance.randbytes(target)
        expect(f"from_96, {source} to {target} bytes", host.from_96(content, noise), (fault, content, noise if fault else form))
        content = (form + chance.randbytes(16))[:source]
        fault = 0 if (source, target) == (104, 96) else -1
        expect(f"to_96, {source} to {target} bytes", host.to_96(content, noise), (fault, content, noise if fault else form[:96]))


def order_of_refusals(host):
    """Every set of what a fill is refused for: the lowest is answered, and a wrong group, 14, comes after kind and output length."""
    for chosen in itertools.product((0, 1), repeat=5):
        faults = [fault for fault, wrong in zip((1, 2, 4, 5, 14), chosen) if wrong]
        for _ in range(6):
            form = bytearray(philox_form(1))
            if 14 in faults:
                form[chance.randrange(32, 104)] ^= 1 << chance.randrange(8)
            if 2 in faults:
                form[24] = chance.choice((0, 2, 255))
            form = bytes(form) + (chance.randbytes(chance.choice((1, 8, 152))) if 1 in faults else b"")
            kind = chance.choice(NO_KIND if 4 in faults else tuple(KINDS))
            out = chance.randbytes(chance.choice((65, 67, 161)) if 5 in faults else 64)
            answer, after, written = host.fill(Philox, form, kind, out)
            expect(f"fill with the faults {faults}", min(answer, 0), -lowest(*faults))
            if faults:
                expect(f"fill with the faults {faults}, bytes", (after, written), (form, out))
            try_fill(host, Philox, form, kind, len(out))


def old_callers(edge):
    """A caller that still lends 96 bytes is refused by every call, and no byte beyond them is read or written. And what is accepted reads
    and writes no byte beyond what it is lent."""
    for mark in (0, 1) * 3:
        form = philox_form(mark, 0)
        old, out = form[:96], chance.randbytes(64)
        for kind in (*KINDS, 0, 9):
            expect("fill, 96 bytes", edge.fill(Philox, old, kind, out), (-1, old, out))
        expect("philox_new, 96 bytes", edge.philox_new(1, 2, old), (-1, UNTOUCHED, old))
        expect("seek, 96 bytes", edge.seek(old, 8), (-1, UNTOUCHED, old))
        expect("skip, 96 bytes", edge.skip(Philox, old, 3), (-1, UNTOUCHED, old))
        expect("draws_left, 96 bytes", edge.draws_left(old), (-1, UNTOUCHED, old))
        expect("label, 96 bytes", edge.label(old), (-1, UNTOUCHED, old))
        expect("to_96 of 96 bytes", edge.to_96(old, out), (-1, old, out))
        expect("from_96 to 96 bytes", edge.from_96(old, old), (-1, old, old))
        told(edge, form)
        try_own(edge, Philox, form)
        for kind, (width, _, _) in KINDS.items():
            try_fill(edge, Philox, form, kind, 37 * width)
        for length in (0, 1, 31, 32, 95, 97, 103, 105, 112):
            told(edge, (form + chance.randbytes(8))[:length])


def refusals(host, engine):
    for form in damaged(engine):
        kind = chance.choice((*KINDS, *NO_KIND))
        try_fill(host, engine, form, kind, chance.choice((0, 4, 8, 64, 65, 66)))
        if engine is Philox:
            told(host, form)
        if engine.fault(form) or engine is Philox:
            try_own(host, engine, form)
    form = good_form(engine)
    for kind in (*KINDS, *NO_KIND):
        for length in range(70):
            try_fill(host, engine, form, kind, length)


def replayed(host, path):
    """The Rust's answers, call by call."""
    engine, form = None, b""
    with open(path) as file:
        lines = [line.split() for line in file]
    expect(f"{path}: 500 lines or more", len(lines) >= 500, True)
    for call, *words in lines:
        a, b, answer, number = map(int, words[:4])
        out = b""
        if call == "fill":
            found, form, out = host.fill(engine, form, a, bytes(b * KINDS[a][0]))
            beside = 0
        elif call == "xoshiro":
            engine, (found, beside, form) = Xoshiro, host.xoshiro_new(a, b, bytes(256))
        elif call == "philox":
            engine, (found, _, form) = Philox, host.philox_new(a, b, bytes(104))
        elif call == "jump_blocks":
            found, beside, form = host.jump_blocks(form, a)
        elif call == "skip":
            found, _, form = host.skip(engine, form, a)
            beside = 0
        else:
            found, _, form = host.seek(form, a)
        if engine is Philox:
            beside = host.draws_left(form)[0]
        expect(f"{call} {a} {b}", [found, beside, f"{fnv(out):016x}", f"{fnv(form):016x}"], [answer, number, *words[4:]])


def main(library, expected):
    host = Host(library)
    published()
    starts(host)
    far(host)
    distances(host)
    for engine in Xoshiro, Philox:
        lists(host, engine, 60)
        refusals(host, engine)
    for test in saved, named, between, at_the_end, old_forms, move_lengths, order_of_refusals:
        test(host)
    old_callers(Host(library, Edge))
    replayed(host, expected)
    print(f"  host.py: {checks} checks, {failures} failures")
    return failures != 0


if __name__ == "__main__":
    sys.exit(main(*sys.argv[1:]))
