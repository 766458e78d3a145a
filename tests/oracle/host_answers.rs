//! Writes the Rust's answers for tests/host. With `calls`: lists of calls on the C library, tests/host/expected.txt. With `paths`: what
//! examples/paths prints, tests/host/paths.txt. Buffers are given by their digests, 64-bit FNV-1a.
mod forms;
use forms::{draw, filled, Numbered, Saved, KINDS};
use tpt_simd_rng::{Rng8, Xoshiro256ppX8};

const EMPTY: u64 = 0xcbf2_9ce4_8422_2325;
fn digest(start: u64, bytes: &[u8]) -> u64 {
    bytes.iter().fold(start, |sum, byte| (sum ^ u64::from(*byte)).wrapping_mul(0x0100_0000_01b3))
}

/// Writes a line: a call and its two arguments, then the answer, the number beside it, and the digests of output and form.
fn line(call: &str, a: u64, b: u64, answer: i64, number: u64, out: &[u8], form: &[u8]) {
    println!("{call} {a} {b} {answer} {number} {:016x} {:016x}", digest(EMPTY, out), digest(EMPTY, form));
}

struct Xoshiro(Xoshiro256ppX8);
impl Xoshiro {
    fn start(seed: u64, block: u64) -> Self {
        let rust = Xoshiro256ppX8::from_seed_block(seed, block);
        line("xoshiro", seed, block, 0, block.wrapping_mul(8), &[], &rust.form());
        Xoshiro(rust)
    }
    fn jump_blocks(&mut self, n: u64) {
        self.0.jump_blocks(n);
        line("jump_blocks", n, 0, 0, n.wrapping_mul(8), &[], &self.0.form());
    }
    fn skip(&mut self, n: u64) {
        draw(&mut self.0, n);
        line("skip", n, 0, 0, 0, &[], &self.0.form());
    }
    fn fill(&mut self, kind: u64, places: u64) {
        let (draws, out) = filled(&mut self.0, kind, places as usize);
        line("fill", kind, places, draws, 0, &out, &self.0.form());
    }
}

struct Philox(Numbered);
impl Philox {
    fn line(&self, call: &str, a: u64, b: u64, answer: i64, out: &[u8]) {
        line(call, a, b, answer, self.0.draws_left(), out, &self.0.form());
    }
    fn start(seed: u64, stream: u64) -> Self {
        let rust = Philox(Numbered::new(seed, stream));
        rust.line("philox", seed, stream, 0, &[]);
        rust
    }
    fn seek(&mut self, block: u64) {
        self.0.seek(block);
        self.line("seek", block, 0, 0, &[]);
    }
    fn skip(&mut self, n: u64) {
        draw(&mut self.0, n);
        self.line("skip", n, 0, 0, &[]);
    }
    fn fill(&mut self, kind: u64, places: u64) {
        let (draws, out) = filled(&mut self.0, kind, places as usize);
        self.line("fill", kind, places, draws, &out);
    }
}

/// Lengths about the ends of groups, and about 512 and 1024 places: in every kind a multiple of 16 draws, as many as are made ahead at most.
const LENGTHS: [u64; 20] = [0, 1, 7, 8, 9, 15, 16, 17, 24, 31, 33, 64, 500, 511, 513, 1023, 1024, 1025, 1040, 3001];

fn every_length(mut fill: impl FnMut(u64, u64)) {
    for kind in &KINDS {
        for places in LENGTHS {
            fill(kind.number, places);
        }
    }
}

fn calls() {
    let round = 1 << 61; // so many blocks are 2^64 jumps, which count as none
    for (seed, block) in [(0, 0), (0x0123_4567_89ab_cdef, round + 3)] {
        let mut g = Xoshiro::start(seed, block);
        every_length(|kind, places| g.fill(kind, places));
    }
    let mut g = Xoshiro::start(u64::MAX, 2);
    for (i, n) in [1, 0, 2, round, 7 * round + 1, 13].into_iter().enumerate() {
        g.jump_blocks(n);
        g.fill(6 - i as u64, 37 + 50 * n % 99);
    }
    for (kind, n) in [(7, 3), (8, round + 1)] {
        g.jump_blocks(n);
        g.fill(kind, 1101);
    }

    let mut g = Philox::start(0, 0);
    every_length(|kind, places| g.fill(kind, places));
    let mut g = Philox::start(0x0123_4567_89ab_cdef, 1 << 32);
    g.seek(0_u64.wrapping_sub(4004)); // the counter passes 2^64 among the fills
    g.fill(1, 8); // words wait
    every_length(|kind, places| g.fill(kind, places));
    let mut g = Philox::start(u64::MAX, u64::MAX);
    for (i, block) in [5, 0, 1 << 32, (1 << 32) - 3, 1 << 63, u64::MAX - 8, u64::MAX - 7, u64::MAX].into_iter().enumerate() {
        g.seek(block);
        g.fill(1 + i as u64 % 6, 8 * (i as u64 % 3) + 1);
        g.fill(1 + i as u64 % 5, 40 + i as u64);
        g.fill(7 + i as u64 % 2, 20 + i as u64);
    }
    skips();
}

/// The draws of the skips: made one by one.
const SKIPS: [u64; 14] = [0, 1, 2, 3, 7, 8, 63, 64, 255, 256, 1000, 4095, 65_537, 1_000_003];

/// Each of the skips, and the kind of the fill after it: first kinds 1 to 6 in turn, and then kinds 7 and 8.
fn skips_and_kinds() -> impl Iterator<Item = (u64, u64, u64)> {
    [(1, 6), (7, 2)].into_iter().flat_map(|(first, kinds)| (0..).zip(SKIPS).map(move |(i, n)| (i, n, first + i % kinds)))
}

fn skips() {
    let mut g = Xoshiro::start(7, 5);
    for (_, n, kind) in skips_and_kinds() {
        g.skip(n);
        g.fill(kind, 24);
    }
    let mut g = Philox::start(7, 5);
    for from in [0, u64::MAX - 1000] {
        g.seek(from);
        for (i, n, kind) in skips_and_kinds() {
            g.skip(n);
            g.fill(kind, 8 * (i % 3 % 2)); // words wait before some of the skips
        }
    }
}

/// The order that examples/paths has by default, all its normals at once.
fn paths() {
    let (seed, block, paths, years) = (42, 0, 10_000, 40);
    let (draws, out) = filled(&mut Xoshiro256ppX8::from_seed_block(seed, block), 6, paths * years);
    let mut normals = vec![0.0; paths * years];
    Xoshiro256ppX8::from_seed_block(seed, block).fill_normal_f64(&mut normals);
    let above = normals.chunks(years).filter(|path| path.iter().fold(100.0, |fund, z| fund * (1.0 + (0.04 + 0.12 * z))) > 100.0).count();
    println!("seed {seed}, block {block}: {paths} paths of {years} years");
    println!("draws made: {draws}");
    println!("digest of the normals: {:016x}", digest(EMPTY, &out));
    println!("paths that end above the start: {above}");
}

fn main() {
    match std::env::args().nth(1).as_deref() {
        Some("calls") => calls(),
        Some("paths") => paths(),
        _ => panic!("calls or paths"),
    }
}
