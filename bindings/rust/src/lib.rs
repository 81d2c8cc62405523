#![no_std]
#![doc = include_str!("../README.md")]

extern crate alloc;
#[cfg(feature = "std")]
extern crate std;

#[macro_use]
mod stream;

mod bloom;
mod calls;
mod columns;
mod error;
mod murmur;
#[cfg(feature = "serde")]
mod saved;
mod xxh64;

pub use bloom::BloomFilter;
pub use columns::{murmur3_x64_128_each, xxh64_each, xxh64_each_u64, Number, Offset};
pub use error::Error;
pub use murmur::{
    murmur3_x64_128, murmur3_x64_128_bytes, seed_hash, BuildMurmur3X64_128, Murmur3X64_128,
};
pub use xxh64::{xxh64, xxh64_u64, BuildXxh64, Xxh64};

/// The version of the linked library: major * 10000 + minor * 100 + patch.
///
/// ```
/// assert_eq!(sketch_hash::version() / 10_000, 3);
/// ```
pub fn version() -> u32 {
    calls::sketch_hash_version()
}
