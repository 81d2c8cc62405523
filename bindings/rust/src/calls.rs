//! The library's calls, as `sketch_hash.h` declares them. Those that take no pointer but to one
//! state are safe: a reference to a state is valid, and nothing else touches the state meanwhile.

use core::ffi::c_int;

pub const OK: c_int = 0;
pub const ERROR_LENGTH: c_int = -1;
pub const ERROR_OFFSET: c_int = -2;
pub const ERROR_COUNT: c_int = -3;
pub const ERROR_SEED: c_int = -5;
pub const BLOOM_HEADER_MAX: usize = 19;

#[repr(C)]
#[derive(Clone, Copy, PartialEq)]
pub struct Xxh64State {
    pub seed: u64,
    pub v1: u64,
    pub v2: u64,
    pub v3: u64,
    pub v4: u64,
    pub total: u64,
    pub waiting: [u8; 32],
}

#[repr(C)]
#[derive(Clone, Copy, PartialEq)]
pub struct Murmur3X64_128State {
    pub h1: u64,
    pub h2: u64,
    pub total: u64,
    pub waiting: [u8; 16],
}

/// Declares calls of the copy of the library that this crate compiles. `build.rs` gives its names a
/// prefix that no other copy in the program has.
macro_rules! calls {
    ($($safety:ident fn $name:ident($($argument:ident: $Type:ty),* $(,)?) $(-> $Answer:ty)?;)*) => {
        unsafe extern "C" {$(
            #[link_name = concat!(env!("SKETCH_HASH_NAMESPACE"), stringify!($name))]
            pub $safety fn $name($($argument: $Type),*) $(-> $Answer)?;
        )*}
    };
}

calls! {
    safe fn sketch_hash_version() -> u32;

    unsafe fn sketch_xxh64(input: *const u8, length: usize, seed: u64) -> u64;
    safe fn sketch_xxh64_u64(value: u64, seed: u64) -> u64;
    unsafe fn sketch_xxh64_update(state: &mut Xxh64State, input: *const u8, length: usize);
    safe fn sketch_xxh64_digest(state: &Xxh64State) -> u64;

    unsafe fn sketch_xxh64_each_u64(
        values: *const u64, value_count: usize, seed: u64, out: *mut u64, count: usize,
    ) -> c_int;

    unsafe fn sketch_murmur3_x64_128(input: *const u8, length: usize, seed: u64, hash: &mut [u64; 2]);
    unsafe fn sketch_murmur3_x64_128_update(
        state: &mut Murmur3X64_128State, input: *const u8, length: usize,
    );
    safe fn sketch_murmur3_x64_128_digest(state: &Murmur3X64_128State, hash: &mut [u64; 2]);
    safe fn sketch_murmur3_x64_128_bytes(hash: &[u64; 2], out: &mut [u8; 16]);
    safe fn sketch_seed_hash(seed: u64, hash: &mut u16) -> c_int;

    safe fn sketch_bloom_bytes_for(keys: u64, one_in: u64) -> usize;
    safe fn sketch_bloom_check(length: usize) -> c_int;
    unsafe fn sketch_bloom_insert(
        bits: *mut u8, length: usize, key: *const u8, key_length: usize,
    ) -> c_int;
    unsafe fn sketch_bloom_contains(
        bits: *const u8, length: usize, key: *const u8, key_length: usize,
    ) -> c_int;
    unsafe fn sketch_bloom_insert_hash(bits: *mut u8, length: usize, hash: u64) -> c_int;
    unsafe fn sketch_bloom_contains_hash(bits: *const u8, length: usize, hash: u64) -> c_int;
    unsafe fn sketch_bloom_insert_each_hash(
        bits: *mut u8, length: usize, hashes: *const u64, count: usize,
    ) -> c_int;
    unsafe fn sketch_bloom_contains_each_hash(
        bits: *const u8, length: usize, hashes: *const u64, hash_count: usize, found: *mut bool,
        count: usize,
    ) -> c_int;
    unsafe fn sketch_bloom_merge(
        into: *mut u8, length: usize, from: *const u8, from_length: usize,
    ) -> c_int;
    unsafe fn sketch_bloom_fold(bits: *mut u8, length: usize) -> c_int;
    unsafe fn sketch_bloom_fold_to(bits: *mut u8, length: usize, one_in: u64) -> usize;
    safe fn sketch_bloom_block_offset(length: usize, hash: u64) -> usize;
    unsafe fn sketch_bloom_header_write(bytes: u64, header: *mut u8, length: usize) -> usize;
    unsafe fn sketch_bloom_header_read(input: *const u8, length: usize, bytes: &mut u64) -> usize;
}

/// Declares calls that read offsets or numbers, `Bits`, by one name for those of a width.
macro_rules! calls_by_width {
    ($(
        $NAME:ident: $Call:ident($($argument:ident: $Type:ty),* $(,)?) = $call32:ident, $call64:ident;
    )*) => {
        $(pub type $Call<Bits> = unsafe extern "C" fn($($Type),*) -> c_int;)*

        /// The calls that read a type of offsets or numbers.
        pub trait Calls: Sized {
            $(const $NAME: $Call<Self>;)*
        }

        impl Calls for u32 {$(
            const $NAME: $Call<u32> = {
                type Bits = u32;
                calls! { unsafe fn $call32($($argument: $Type),*) -> c_int; }
                $call32
            };
        )*}

        impl Calls for u64 {$(
            const $NAME: $Call<u64> = {
                type Bits = u64;
                calls! { unsafe fn $call64($($argument: $Type),*) -> c_int; }
                $call64
            };
        )*}
    };
}

calls_by_width! {
    XXH64: HashEach(
        input: *const u8, length: usize, offsets: *const Bits, offset_count: usize, seed: u64,
        out: *mut u64, count: usize, wrong_offset: &mut usize,
    ) = sketch_xxh64_each32, sketch_xxh64_each64;
    MURMUR: HashEachInTwoWords(
        input: *const u8, length: usize, offsets: *const Bits, offset_count: usize, seed: u64,
        out: *mut u64, count: usize, wrong_offset: &mut usize,
    ) = sketch_murmur3_x64_128_each32, sketch_murmur3_x64_128_each64;
    INSERT: InsertEach(
        bits: *mut u8, length: usize, keys: *const u8, keys_length: usize, offsets: *const Bits,
        offset_count: usize, wrong_offset: &mut usize,
    ) = sketch_bloom_insert_each32, sketch_bloom_insert_each64;
    // A `bool` is one byte, 1 or 0, and the library writes no other.
    CONTAINS: ContainsEach(
        bits: *const u8, length: usize, keys: *const u8, keys_length: usize, offsets: *const Bits,
        offset_count: usize, found: *mut bool, count: usize, wrong_offset: &mut usize,
    ) = sketch_bloom_contains_each32, sketch_bloom_contains_each64;
    INSERT_VALUES: InsertValues(
        bits: *mut u8, length: usize, values: *const Bits, count: usize,
    ) = sketch_bloom_insert_each_u32, sketch_bloom_insert_each_u64;
    CONTAINS_VALUES: ContainsValues(
        bits: *const u8, length: usize, values: *const Bits, value_count: usize, found: *mut bool,
        count: usize,
    ) = sketch_bloom_contains_each_u32, sketch_bloom_contains_each_u64;
}
