//! Columns of keys.

use crate::calls::*;
use crate::Error;

/// An offset of a column: `u32`, `u64`, and `i32` and `i64`, as Apache Arrow has them.
///
/// A negative offset is past the end, however many bytes there are.
///
/// ```
/// let mut hashes = [0; 2];
/// sketch_hash::xxh64_each(b"foxdog", &[0_i32, 3, 6], 7, &mut hashes)?;
/// # Ok::<(), sketch_hash::Error>(())
/// ```
///
/// ```compile_fail
/// sketch_hash::xxh64_each(b"foxdog", &[0_u16, 3, 6], 7, &mut [0; 2]);
/// ```
pub trait Offset: sealed::Width + sealed::Greatest {}

macro_rules! offsets {
    ($($Type:ty)*) => { $(
        impl Offset for $Type {}
        impl sealed::Greatest for $Type {
            const GREATEST: usize = <$Type>::MAX as usize;
        }
    )* };
}
offsets! { u32 i32 u64 i64 }

/// Truncates `bytes` to what an `O` can address. The library reads offsets as unsigned numbers, so a
/// negative one is then past the end.
pub(crate) fn reachable<O: Offset>(bytes: &[u8]) -> &[u8] {
    &bytes[..bytes.len().min(O::GREATEST)]
}

/// A number whose plain bytes Apache Parquet hashes: of 4 bytes or of 8, the lowest first.
///
/// Parquet stores integers of 8 and 16 bits, dates and small decimals as `i32`; times and larger
/// decimals as `i64`. `0.0` and `-0.0` are two values.
///
/// ```
/// use sketch_hash::BloomFilter;
/// let mut filter = BloomFilter::with_len(1024)?;
/// filter.insert_each_number(&[1_i32, -5])?;
/// assert!(filter.contains(&(-5_i32).to_le_bytes()));
/// # Ok::<(), sketch_hash::Error>(())
/// ```
pub trait Number: sealed::Width {}

pub(crate) mod sealed {
    use super::*;

    /// A type of offsets, with the greatest of them.
    pub trait Greatest {
        const GREATEST: usize;
    }

    /// A type of 4 or 8 bytes, which the library reads as a `u32` or a `u64`.
    ///
    /// # Safety
    ///
    /// The type has the size and the alignment of `Bits`, and no bits that are uninitialized.
    pub unsafe trait Width: Copy {
        type Bits: Calls;
    }

    macro_rules! widths {
        ($($Bits:ty: $($Type:ty)*,)*) => { $($(
            impl Number for $Type {}
            // SAFETY: both have one size and one alignment, and all their bits are initialized.
            unsafe impl Width for $Type {
                type Bits = $Bits;
            }
        )*)* };
    }
    widths! { u32: u32 i32 f32, u64: u64 i64 f64, }
}

/// # Safety
///
/// `call` writes an `H` for each key.
unsafe fn each<O: Offset, H>(
    call: HashEach<O::Bits>, input: &[u8], offsets: &[O], seed: u64, out: &mut [H],
) -> Result<(), Error> {
    let (input, mut wrong_offset) = (reachable::<O>(input), 0);
    // SAFETY: a slice is readable for its length, which is below 2^63, and does not change while it
    // is borrowed. `out` is borrowed alone.
    let status = unsafe {
        call(
            input.as_ptr(),
            input.len(),
            offsets.as_ptr().cast(),
            offsets.len(),
            seed,
            out.as_mut_ptr().cast(),
            out.len(),
            &mut wrong_offset,
        )
    };
    Error::check(status, wrong_offset)
}

/// Hashes each key of a column by XXH64.
///
/// A column is laid out as Apache Arrow does strings: key `i` is the bytes of `input` from
/// `offsets[i]` up to `offsets[i + 1]`. Its hash is written to `out[i]`. So `offsets` has one more
/// than `out`; it may be empty if `out` is. Further offsets are not read.
///
/// ```
/// use sketch_hash::{xxh64, xxh64_each};
/// let mut hashes = [0; 2];
/// xxh64_each(b"foxdog", &[0_u32, 3, 6], 7, &mut hashes)?;
/// assert_eq!(hashes, [xxh64(b"fox", 7), xxh64(b"dog", 7)]);
/// # Ok::<(), sketch_hash::Error>(())
/// ```
///
/// # Errors
///
/// Returns [`Error::Offset`] with the index of the first offset that is missing, past the end of
/// `input`, or below the one before. Nothing is written.
pub fn xxh64_each<O: Offset>(
    input: &[u8], offsets: &[O], seed: u64, out: &mut [u64],
) -> Result<(), Error> {
    // SAFETY: XXH64 is one word.
    unsafe { each(O::Bits::XXH64, input, offsets, seed, out) }
}

/// Hashes each number of a column, as [`xxh64_u64`](crate::xxh64_u64) does.
///
/// The hash of `values[i]` is written to `out[i]`. Further values are not read.
///
/// ```
/// use sketch_hash::{xxh64_each_u64, xxh64_u64};
/// let mut hashes = [0; 2];
/// xxh64_each_u64(&[2026, 5], 7, &mut hashes)?;
/// assert_eq!(hashes, [xxh64_u64(2026, 7), xxh64_u64(5, 7)]);
/// # Ok::<(), sketch_hash::Error>(())
/// ```
///
/// # Errors
///
/// Returns [`Error::Count`] if `values` is shorter than `out`. Nothing is written.
pub fn xxh64_each_u64(values: &[u64], seed: u64, out: &mut [u64]) -> Result<(), Error> {
    // SAFETY: as in `each`.
    let status = unsafe {
        sketch_xxh64_each_u64(values.as_ptr(), values.len(), seed, out.as_mut_ptr(), out.len())
    };
    Error::check(status, 0)
}

/// Hashes each key of a column by MurmurHash3 x64 128. The column is laid out as for
/// [`xxh64_each`].
///
/// ```
/// use sketch_hash::{murmur3_x64_128, murmur3_x64_128_each};
/// let mut hashes = [[0; 2]];
/// murmur3_x64_128_each(b"the fox", &[4_u64, 7], 7, &mut hashes)?;
/// assert_eq!(hashes, [murmur3_x64_128(b"fox", 7)]);
/// # Ok::<(), sketch_hash::Error>(())
/// ```
///
/// # Errors
///
/// Returns [`Error::Offset`] as [`xxh64_each`] does.
pub fn murmur3_x64_128_each<O: Offset>(
    input: &[u8], offsets: &[O], seed: u64, out: &mut [[u64; 2]],
) -> Result<(), Error> {
    // SAFETY: the hash is two words.
    unsafe { each(O::Bits::MURMUR, input, offsets, seed, out) }
}
