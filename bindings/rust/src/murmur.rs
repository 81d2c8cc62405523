//! MurmurHash3 x64 128.

use crate::calls::*;
use crate::Error;
use core::fmt;
use core::mem::transmute;

/// Returns the two words of MurmurHash3 x64 128 of `input`.
///
/// A seed below 2^32 gives the same hash as the original in C++.
///
/// ```
/// let hash = sketch_hash::murmur3_x64_128(b"\0", 0);
/// assert_eq!(hash, [0x4610_abe5_6eff_5cb5, 0x5162_2daa_78f8_3583]);
/// ```
pub fn murmur3_x64_128(input: &[u8], seed: u64) -> [u64; 2] {
    let mut hash = [0; 2];
    // SAFETY: a slice is readable for its length, which is below 2^63, and does not change while
    // it is borrowed.
    unsafe { sketch_murmur3_x64_128(input.as_ptr(), input.len(), seed, &mut hash) };
    hash
}

/// Returns MurmurHash3 x64 128 of `input` in the byte order that most tools print: each word's
/// lowest byte first.
///
/// ```
/// let bytes = sketch_hash::murmur3_x64_128_bytes(b"foo", 0);
/// assert_eq!(&bytes, b"aE\xf5\x01W\x86q\xe2\x87}\xba+\xe4\x87\xaf~");
/// ```
pub fn murmur3_x64_128_bytes(input: &[u8], seed: u64) -> [u8; 16] {
    bytes_of(&murmur3_x64_128(input, seed))
}

/// Returns the seed hash of a seed, by which sketches of Apache DataSketches tell whether they can be
/// merged: the low 16 bits of the first word of MurmurHash3 x64 128, with seed 0, of the seed's eight
/// bytes, the lowest first.
///
/// # Errors
///
/// Returns [`Error::Seed`] if it is 0, as of about one seed in 65,536.
///
/// ```
/// assert_eq!(sketch_hash::seed_hash(9001), Ok(37836)); // the seed that DataSketches has by default
/// assert_eq!(sketch_hash::seed_hash(50541), Err(sketch_hash::Error::Seed));
/// ```
pub fn seed_hash(seed: u64) -> Result<u16, Error> {
    let mut hash = 0;
    Error::check(sketch_seed_hash(seed, &mut hash), 0)?;
    Ok(hash)
}

fn bytes_of(hash: &[u64; 2]) -> [u8; 16] {
    let mut bytes = [0; 16];
    sketch_murmur3_x64_128_bytes(hash, &mut bytes);
    bytes
}

/// MurmurHash3 x64 128 of a stream that comes in pieces.
///
/// As a [`Hasher`](core::hash::Hasher) it hashes the bytes of each write, and finishes with the
/// first of both words. Two streams are equal if their hashes are equal, whatever bytes follow.
///
/// ```
/// let mut hasher = sketch_hash::Murmur3X64_128::new(7);
/// hasher.update(b"in ");
/// hasher.update(b"pieces");
/// assert_eq!(hasher.digest(), sketch_hash::murmur3_x64_128(b"in pieces", 7));
/// ```
#[derive(Clone)]
pub struct Murmur3X64_128 {
    state: Murmur3X64_128State,
}

impl Murmur3X64_128 {
    /// Starts a stream with a seed.
    ///
    /// ```
    /// use sketch_hash::Murmur3X64_128;
    /// const SEVEN: Murmur3X64_128 = Murmur3X64_128::new(7);
    /// assert_eq!(SEVEN.digest(), sketch_hash::murmur3_x64_128(b"", 7));
    /// ```
    #[inline]
    pub const fn new(seed: u64) -> Self {
        let state = Murmur3X64_128State { h1: seed, h2: seed, total: 0, waiting: [0; 16] };
        Murmur3X64_128 { state }
    }

    /// Starts again with a seed, and no bytes.
    ///
    /// ```
    /// use sketch_hash::Murmur3X64_128;
    /// let mut hasher = Murmur3X64_128::new(7);
    /// hasher.update(b"other bytes");
    /// hasher.reset(9);
    /// assert_eq!(hasher, Murmur3X64_128::new(9));
    /// ```
    #[inline]
    pub fn reset(&mut self, seed: u64) {
        *self = Self::new(seed);
    }

    /// Appends bytes to the stream. Splitting the input into several calls gives the same hash.
    ///
    /// ```
    /// use sketch_hash::Murmur3X64_128;
    /// let mut hasher = Murmur3X64_128::new(7);
    /// hasher.update(b"fox");
    /// assert_eq!(hasher.digest(), sketch_hash::murmur3_x64_128(b"fox", 7));
    /// ```
    #[inline]
    pub fn update(&mut self, input: &[u8]) {
        // SAFETY: a slice is readable for its length, which is below 2^63. It does not change
        // while it is borrowed, and cannot overlap the state, which is borrowed alone.
        unsafe { sketch_murmur3_x64_128_update(&mut self.state, input.as_ptr(), input.len()) }
    }

    /// Returns the two words of the hash of all bytes so far. More bytes may follow.
    ///
    /// ```
    /// let [h1, h2] = sketch_hash::Murmur3X64_128::new(0).digest();
    /// assert_eq!(format!("{h1:016x}{h2:016x}"), "0".repeat(32));
    /// ```
    #[inline]
    pub fn digest(&self) -> [u64; 2] {
        let mut hash = [0; 2];
        sketch_murmur3_x64_128_digest(&self.state, &mut hash);
        hash
    }

    /// Returns the digest in the byte order of
    /// [`murmur3_x64_128_bytes`](crate::murmur3_x64_128_bytes).
    ///
    /// ```
    /// use sketch_hash::{murmur3_x64_128_bytes, Murmur3X64_128};
    /// assert_eq!(Murmur3X64_128::new(7).digest_bytes(), murmur3_x64_128_bytes(b"", 7));
    /// ```
    pub fn digest_bytes(&self) -> [u8; 16] {
        bytes_of(&self.digest())
    }

    /// Returns a checkpoint, from which [`from_bytes`](Self::from_bytes) resumes the stream.
    ///
    /// ```
    /// use sketch_hash::{murmur3_x64_128, Murmur3X64_128};
    /// let mut hasher = Murmur3X64_128::new(7);
    /// hasher.update(b"in ");
    /// let mut later = Murmur3X64_128::from_bytes(&hasher.to_bytes());
    /// later.update(b"pieces");
    /// assert_eq!(later.digest(), murmur3_x64_128(b"in pieces", 7));
    /// ```
    pub fn to_bytes(&self) -> [u8; 40] {
        // SAFETY: a state has no padding.
        unsafe { transmute(self.state) }
    }

    /// Resumes the stream of a checkpoint. Any other bytes are safe too, and give some hash.
    ///
    /// ```
    /// use sketch_hash::Murmur3X64_128;
    /// let hasher = Murmur3X64_128::from_bytes(&[5; 40]);
    /// assert_eq!(hasher.to_bytes(), [5; 40]);
    /// ```
    pub fn from_bytes(bytes: &[u8; 40]) -> Self {
        // SAFETY: any bytes are a state.
        Murmur3X64_128 { state: unsafe { transmute::<[u8; 40], Murmur3X64_128State>(*bytes) } }
    }
}

impl fmt::Debug for Murmur3X64_128 {
    fn fmt(&self, f: &mut fmt::Formatter<'_>) -> fmt::Result {
        f.debug_struct("Murmur3X64_128").field("length", &self.state.total).finish_non_exhaustive()
    }
}

/// Builds the hashers of a map: [`Murmur3X64_128`] with one seed.
///
/// ```
/// use sketch_hash::BuildMurmur3X64_128;
/// use std::collections::HashSet;
/// let mut seen = HashSet::with_hasher(BuildMurmur3X64_128::new(7));
/// assert!(seen.insert("fox"));
/// ```
#[derive(Clone, Copy, Debug, Default, PartialEq, Eq)]
pub struct BuildMurmur3X64_128 {
    seed: u64,
}

stream_traits!(Murmur3X64_128, BuildMurmur3X64_128, |[first, _]| first);
