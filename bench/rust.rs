//! The Rust's calls for bench.c: its own functions, unchanged, under C names. A generator is a pointer that `*_new` returned.
use tpt_simd_rng::{Philox4x32X8, Rng8, Xoshiro256pp, Xoshiro256ppX8};

macro_rules! fills {
    ($engine:ty: $($name:ident $fill:ident $element:ty),*) => { $(
        /// # Safety
        /// `out` has `n` places.
        #[no_mangle]
        pub unsafe extern "C" fn $name(rng: &mut $engine, out: *mut $element, n: usize) {
            rng.$fill(std::slice::from_raw_parts_mut(out, n));
        }
    )* };
}

fills!(Xoshiro256ppX8:
    rust_xoshiro_fill_u64 fill_u64 u64, rust_xoshiro_fill_u32 fill_u32 u32,
    rust_xoshiro_fill_f32 fill_f32 f32, rust_xoshiro_fill_f64 fill_f64 f64,
    rust_xoshiro_fill_normal_f32 fill_normal_f32 f32, rust_xoshiro_fill_normal_f64 fill_normal_f64 f64);
fills!(Philox4x32X8:
    rust_philox_fill_u64 fill_u64 u64, rust_philox_fill_u32 fill_u32 u32,
    rust_philox_fill_f32 fill_f32 f32, rust_philox_fill_f64 fill_f64 f64,
    rust_philox_fill_normal_f32 fill_normal_f32 f32, rust_philox_fill_normal_f64 fill_normal_f64 f64);

#[no_mangle]
pub extern "C" fn rust_xoshiro_new(seed: u64, block: u64) -> *mut Xoshiro256ppX8 {
    Box::into_raw(Box::new(Xoshiro256ppX8::from_seed_block(seed, block)))
}

/// # Safety
/// `rng` is what rust_xoshiro_new returned, and is used no more.
#[no_mangle]
pub unsafe extern "C" fn rust_xoshiro_drop(rng: *mut Xoshiro256ppX8) {
    drop(Box::from_raw(rng));
}

#[no_mangle]
pub extern "C" fn rust_philox_new(seed: u64, stream: u64) -> *mut Philox4x32X8 {
    Box::into_raw(Box::new(Philox4x32X8::new(seed, stream)))
}

#[no_mangle]
pub extern "C" fn rust_xoshiro_draw(rng: &mut Xoshiro256ppX8, words: &mut [u64; 8]) {
    *words = rng.next_u64x8();
}

#[no_mangle]
pub extern "C" fn rust_philox_draw(rng: &mut Philox4x32X8, words: &mut [u64; 8]) {
    *words = rng.next_u64x8();
}

/// A jump of one stream.
#[no_mangle]
pub extern "C" fn rust_jump(state: &mut [u64; 4]) {
    let mut rng = Xoshiro256pp::from_state(*state);
    rng.jump();
    *state = rng.state();
}

/// The state, word k of lane i at 8 k + i.
#[no_mangle]
pub extern "C" fn rust_xoshiro_state(rng: &Xoshiro256ppX8, words: &mut [u64; 32]) {
    for i in 0..8 {
        let lane: Xoshiro256pp = rng.lane(i);
        for (k, word) in lane.state().into_iter().enumerate() {
            words[8 * k + i] = word;
        }
    }
}
