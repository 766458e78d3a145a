//! Stands in for the crate of that name: the Rust names it for `next_simd` alone, which nothing here calls.
#![no_std]

pub struct Simd<T, const N: usize>(pub [T; N]);

impl<T, const N: usize> Simd<T, N> {
    pub fn from_array(a: [T; N]) -> Self {
        Self(a)
    }
}
