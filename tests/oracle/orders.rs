//! What `deliver` should write, from the Rust: `orders ENGINE SEED BLOCK FIRST KIND COUNT [WORDS]` writes the values' little-endian bytes
//! to standard output, and FIRST and END to standard error. END is counted, not computed: a copy of the generator is drawn from until it is
//! the same again. WORDS are the lanes of xoshiro where the order starts, for one so far off that the Rust would not get there.
mod forms;
use forms::{draw, filled, Numbered, Saved};
use std::io::Write;
use tpt_simd_rng::{Xoshiro256pp, Xoshiro256ppX8};

const NAMES: [&str; 8] = ["u64", "u32", "f32", "f64", "normal_f32", "normal_f64", "open01_f32", "open01_f64"];

/// The values that are made at once: whole groups of every kind, so that an order of any length fits in the memory.
const PIECE: usize = 1 << 24;

fn deliver<R: Saved + Clone>(mut rng: R, first: u64, kind: u64, count: usize) {
    let mut copy = rng.clone();
    for from in (0..count).step_by(PIECE) {
        let (_, out) = filled(&mut rng, kind, PIECE.min(count - from));
        std::io::stdout().write_all(&out).expect("standard output");
    }
    let mut end = u128::from(first);
    while copy.form() != rng.form() {
        draw(&mut copy, 1);
        end += 1;
    }
    eprintln!("{first} {end}");
}

fn main() {
    let args: Vec<String> = std::env::args().skip(1).collect();
    let number = |i: usize| args[i].parse::<u64>().expect("a number");
    let (seed, block, first, count) = (number(1), number(2), number(3), number(5) as usize);
    let kind = NAMES.iter().position(|name| *name == args[4]).map_or_else(|| number(4), |place| place as u64 + 1);
    if args[0] == "xoshiro" {
        let words: Vec<u64> = (6..args.len()).map(number).collect();
        let rng = if words.is_empty() {
            let mut rng = Xoshiro256ppX8::from_seed_block(seed, block);
            draw(&mut rng, first);
            rng
        } else {
            assert_eq!(words.len(), 32);
            let lane = |i: usize| Xoshiro256pp::from_state([words[4 * i], words[4 * i + 1], words[4 * i + 2], words[4 * i + 3]]);
            Xoshiro256ppX8::from_lanes(&[0, 1, 2, 3, 4, 5, 6, 7].map(lane))
        };
        deliver(rng, first, kind, count);
    } else {
        let mut rng = Numbered::new(seed, block);
        rng.seek(first / 2 * 8);
        draw(&mut rng, first % 2);
        deliver(rng, first, kind, count);
    }
}
