//! Writes the Rust's answers for the calls that crates/vectors makes, in the same order and layout.
mod forms;
use forms::{filled, walked, KINDS, STEPS};
use tpt_simd_rng::{Philox4x32X8, Rng8, SplitMix64, Xoshiro256pp, Xoshiro256ppX8};

fn words4(s: [u64; 4]) {
    for w in s {
        println!("{w:016x}");
    }
}

fn folded(w: [u64; 8]) -> u64 {
    w.iter().fold(0u64, |sum, x| sum.rotate_left(7) ^ x)
}

/// The state after a jump, the steps that it made, and the state that these led to.
fn jump(rng: &mut Xoshiro256pp, jump: fn(&mut Xoshiro256pp)) {
    let led_to = walked(rng);
    jump(rng);
    words4(rng.state());
    println!("{STEPS:016x}");
    words4(led_to);
}

fn scalar(seed: u64) {
    let mut rng = Xoshiro256pp::from_seed(seed);
    words4(rng.state());
    for _ in 0..3 {
        println!("{:016x}", rng.next_u64());
    }
    jump(&mut rng, Xoshiro256pp::jump);
    jump(&mut rng, Xoshiro256pp::long_jump);
}

fn lane_draws(rng: &mut Xoshiro256ppX8, n: u32) {
    for _ in 0..n {
        println!("{:016x}", folded(rng.next_u64x8()));
    }
}

fn lanes(seed: u64, block: u64, n: u64) {
    let mut rng = Xoshiro256ppX8::from_seed_block(seed, block);
    lane_draws(&mut rng, 3);
    rng.jump_blocks(n);
    lane_draws(&mut rng, 2);
    for i in 0..8 {
        words4(rng.lane(i).state());
    }
}

/// The Rust has no `draws_left` and shows no counter: the counter, and whether words wait, are kept beside it, as the scope document's
/// machine has them, and the draws left are these by the customers' rule.
fn machine(seed: u64, stream: u64, calls: u32) {
    let mut rng = Philox4x32X8::new(seed, stream);
    let mut order = SplitMix64::new(seed);
    let mut counter = 0u64;
    let mut waiting = false;
    for _ in 0..calls {
        let pick = order.next_u64();
        match pick % 8 {
            0 | 1 => {
                counter = if pick % 8 == 0 { pick >> 3 } else { u64::MAX - (pick >> 60) };
                rng.seek(counter);
                waiting = false;
            }
            2 => {
                let [w0, w1, w2, w3] = rng.blocks();
                for (lo, hi) in [(w0, w1), (w2, w3)] {
                    let joined = core::array::from_fn(|i| u64::from(lo[i]) | u64::from(hi[i]) << 32);
                    println!("{:016x}", folded(joined));
                }
                counter = counter.wrapping_add(8);
            }
            _ => {
                println!("{:016x}", folded(rng.next_u64x8()));
                if !waiting {
                    counter = counter.wrapping_add(8);
                }
                waiting = !waiting;
            }
        }
        println!("{}", 2 * (((1u128 << 64) - u128::from(counter)) / 8) + u128::from(waiting));
    }
}

/// The 64-bit FNV-1a digest, of numbers in the place of bytes.
fn digest(numbers: impl Iterator<Item = u64>) -> u64 {
    numbers.fold(0xcbf2_9ce4_8422_2325, |sum, x| (sum ^ x).wrapping_mul(0x0100_0000_01b3))
}

/// The elements as patterns, from their little-endian bytes.
fn patterns(out: &[u8], width: usize) -> impl Iterator<Item = u64> + '_ {
    out.chunks(width).map(|element| element.iter().rev().fold(0, |x, byte| x << 8 | u64::from(*byte)))
}

/// Fills of the six kinds that the Rust has, typed and then by bytes, and the draw after them.
fn fills<R: Rng8>(mut rng: R) {
    for n in [21, 1100] {
        for kind in &KINDS[..6] {
            let (draws, out) = filled(&mut rng, kind.number, n);
            println!("{draws}");
            if n < 64 {
                patterns(&out, kind.width).for_each(|x| println!("{x:0digits$x}", digits = 2 * kind.width));
            }
            println!("{:016x}", digest(patterns(&out, kind.width)));
        }
    }
    for kind in &KINDS[..6] {
        for bytes in [168, 8800] {
            let (draws, out) = filled(&mut rng, kind.number, bytes / kind.width);
            println!("{draws}");
            println!("{:016x}", digest(patterns(&out, 1)));
        }
    }
    println!("{:016x}", folded(rng.next_u64x8()));
}

fn main() {
    println!("Xoshiro256pp");
    for seed in [0, 1, 42, 0x9e37_79b9_7f4a_7c15, u64::MAX] {
        scalar(seed);
    }
    println!("Xoshiro256ppX8");
    lanes(42, 0, 0);
    lanes(42, 1, 1);
    lanes(7, 100, 13);
    lanes(7, 0x2000_0000_0000_0003, 0x2000_0000_0000_0001);
    println!("Philox4x32X8");
    machine(42, 0, 200);
    machine(0x0123_4567_89ab_cdef, 7, 200);
    machine(u64::MAX, u64::MAX, 200);
    println!("Xoshiro256ppX8 fills");
    fills(Xoshiro256ppX8::from_seed_block(0x0123_4567_89ab_cdef, 3));
    println!("Philox4x32X8 fills");
    let mut rng = Philox4x32X8::new(0x0123_4567_89ab_cdef, 7);
    rng.seek(0xffff_ffff_ffff_fe00);
    fills(rng);
}
