//! The Bloom filter of Apache Parquet.

use crate::calls::*;
use crate::columns::reachable;
use crate::columns::sealed::Width;
use crate::{Error, Number, Offset};
use alloc::{vec, vec::Vec};
use core::fmt;
use core::ops::Range;

/// The split block Bloom filter of Apache Parquet, which Arrow and DuckDB read.
///
/// It has no false negatives: [`contains`](Self::contains) returns `true` for each key that was
/// inserted. It returns `true` for some others too. A filter has no seed, and does not grow.
///
/// `B` holds the bytes. By default it is a `Vec<u8>`. A filter can also be a view of bytes that are
/// elsewhere, such as a memory-mapped file: a `&[u8]` can be asked, a `&mut [u8]` also changed. The
/// bytes of a `B` must not change but through the filter.
///
/// ```
/// use sketch_hash::BloomFilter;
/// let mut filter = BloomFilter::for_keys(1000, 100)?;
/// filter.insert(b"fox");
///
/// let view = BloomFilter::from_bytes(filter.as_bytes())?;
/// assert!(view.contains(b"fox") && !view.contains(b"dog"));
/// # Ok::<(), sketch_hash::Error>(())
/// ```
#[derive(Clone, Copy)]
pub struct BloomFilter<B = Vec<u8>> {
    bits: B,
}

impl BloomFilter {
    /// Creates the smallest filter with a false positive rate of at most one in `one_in`, once it has
    /// this many different keys.
    ///
    /// Its length is a power of two, as Arrow requires. If memory runs out, the program aborts, as
    /// with any `Vec`.
    ///
    /// ```
    /// use sketch_hash::BloomFilter;
    /// let filter = BloomFilter::for_keys(1_000_000, 100)?;
    /// assert_eq!(filter.as_bytes().len(), 2 << 20);
    /// # Ok::<(), sketch_hash::Error>(())
    /// ```
    ///
    /// # Errors
    ///
    /// Returns [`Error::TooManyKeys`] if no filter of at most 128 MiB keeps this rate.
    pub fn for_keys(keys: u64, one_in: u64) -> Result<Self, Error> {
        Self::with_len(Self::bytes_for(keys, one_in).ok_or(Error::TooManyKeys)?)
    }

    /// Creates a filter of this many bytes without keys.
    ///
    /// ```
    /// use sketch_hash::{BloomFilter, Error};
    /// assert!(!BloomFilter::with_len(96)?.contains(b"fox"));
    /// assert_eq!(BloomFilter::with_len(100).unwrap_err(), Error::Length);
    /// # Ok::<(), Error>(())
    /// ```
    ///
    /// # Errors
    ///
    /// Returns [`Error::Length`] if `bytes` is not a positive multiple of 32 below 2^37.
    pub fn with_len(bytes: usize) -> Result<Self, Error> {
        Error::check(sketch_bloom_check(bytes), 0)?;
        Ok(BloomFilter { bits: vec![0; bytes] })
    }

    /// Returns how many bytes [`for_keys`](Self::for_keys) takes, or `None` if it fails.
    ///
    /// ```
    /// use sketch_hash::BloomFilter;
    /// assert_eq!(BloomFilter::bytes_for(1_000_000, 100), Some(2 << 20));
    /// assert_eq!(BloomFilter::bytes_for(1_000_000_000, 100), None);
    /// ```
    pub fn bytes_for(keys: u64, one_in: u64) -> Option<usize> {
        Some(sketch_bloom_bytes_for(keys, one_in)).filter(|bytes| *bytes > 0)
    }

    /// Folds the filter into one of half its length: byte for byte the filter of that length of the
    /// same keys. So it can be created for all keys, and made smaller once it is known how many are
    /// different. The capacity of the vector stays.
    ///
    /// ```
    /// use sketch_hash::BloomFilter;
    /// let (mut large, mut small) = (BloomFilter::with_len(64)?, BloomFilter::with_len(32)?);
    /// large.insert(b"fox");
    /// small.insert(b"fox");
    /// large.fold()?;
    /// assert_eq!(large, small);
    /// assert!(large.fold().is_err());
    /// # Ok::<(), sketch_hash::Error>(())
    /// ```
    ///
    /// # Errors
    ///
    /// Returns [`Error::Length`] if the length is not a multiple of 64. The filter is unchanged.
    pub fn fold(&mut self) -> Result<(), Error> {
        // SAFETY: a slice is readable and writable for its length, and is borrowed alone.
        let status = unsafe { sketch_bloom_fold(self.bits.as_mut_ptr(), self.bits.len()) };
        Error::check(status, 0)?;
        self.bits.truncate(self.bits.len() / 2);
        Ok(())
    }

    /// Folds the filter as often as its false positive rate, by the bits that are set, stays at most
    /// one in `one_in`. It may stay as it is. The capacity of the vector stays.
    ///
    /// ```
    /// use sketch_hash::BloomFilter;
    /// let mut filter = BloomFilter::for_keys(1_000_000, 100)?;
    /// filter.insert(b"fox");
    /// filter.fold_to(100);
    /// assert!(filter.as_bytes().len() == 32 && filter.contains(b"fox"));
    /// # Ok::<(), sketch_hash::Error>(())
    /// ```
    pub fn fold_to(&mut self, one_in: u64) {
        // SAFETY: a slice is readable and writable for its length, and is borrowed alone.
        let len = unsafe { sketch_bloom_fold_to(self.bits.as_mut_ptr(), self.bits.len(), one_in) };
        self.bits.truncate(len);
    }

    /// Returns the offset of the block of a hash, XXH64 with seed 0, in a filter of `len` bytes. The
    /// 32 bytes of the block are a filter that contains the hash exactly if the whole filter does. So
    /// of a filter in a file no other bytes have to be read.
    ///
    /// ```
    /// use sketch_hash::{xxh64, BloomFilter};
    /// let mut filter = BloomFilter::with_len(1024)?;
    /// filter.insert(b"fox");
    /// let hash = xxh64(b"fox", 0);
    /// let start = BloomFilter::block_offset(1024, hash)?;
    /// let block = BloomFilter::from_bytes(&filter.as_bytes()[start..start + 32])?;
    /// assert!(block.contains_hash(hash));
    /// # Ok::<(), sketch_hash::Error>(())
    /// ```
    ///
    /// # Errors
    ///
    /// Returns [`Error::Length`] if `len` is not a positive multiple of 32 below 2^37.
    pub fn block_offset(len: usize, hash: u64) -> Result<usize, Error> {
        Some(sketch_bloom_block_offset(len, hash)).filter(|at| *at < len).ok_or(Error::Length)
    }

    /// Reads the header of a filter in a Parquet file, and returns where the filter's bytes are: the
    /// range begins after the header. It may end after `input` does.
    ///
    /// ```
    /// use sketch_hash::BloomFilter;
    /// let mut file = BloomFilter::with_len(1024)?.to_parquet()?;
    /// let range = BloomFilter::parquet_bits(&file)?;
    /// assert_eq!(range, 16..1040);
    /// BloomFilter::from_bytes(&mut file[range])?.insert(b"fox");
    /// # Ok::<(), sketch_hash::Error>(())
    /// ```
    ///
    /// # Errors
    ///
    /// Returns [`Error::Header`] if `input` does not begin with the header of a split block filter
    /// with XXH64, uncompressed. 19 bytes are enough for the headers that writers write.
    pub fn parquet_bits(input: &[u8]) -> Result<Range<usize>, Error> {
        let mut bytes = 0;
        // SAFETY: a slice is readable for its length, which is below 2^63, and does not change while
        // it is borrowed. This holds in the calls below too.
        match unsafe { sketch_bloom_header_read(input.as_ptr(), input.len(), &mut bytes) } {
            0 => Err(Error::Header),
            begin => Ok(begin..begin + bytes as usize),
        }
    }
}

impl<'a> BloomFilter<&'a [u8]> {
    /// Returns a view of a filter in a Parquet file: `input` begins with the header, at the column
    /// chunk's `bloom_filter_offset`. Bytes after the filter are ignored.
    ///
    /// ```
    /// use sketch_hash::BloomFilter;
    /// let mut filter = BloomFilter::with_len(1024)?;
    /// filter.insert(b"fox");
    /// let file = filter.to_parquet()?;
    /// assert!(BloomFilter::from_parquet(&file)?.contains(b"fox"));
    /// # Ok::<(), sketch_hash::Error>(())
    /// ```
    ///
    /// # Errors
    ///
    /// Returns [`Error::Header`] as [`parquet_bits`](BloomFilter::parquet_bits) does, and
    /// [`Error::Truncated`] if `input` ends before the filter does.
    pub fn from_parquet(input: &'a [u8]) -> Result<Self, Error> {
        let bits = input.get(BloomFilter::parquet_bits(input)?).ok_or(Error::Truncated)?;
        Self::from_bytes(bits)
    }
}

impl<B: AsRef<[u8]>> BloomFilter<B> {
    /// Returns the filter that these bytes are: the bits alone, without a header.
    ///
    /// A `Vec` is not copied, a slice becomes a view. Any bytes of a filter's length are a filter.
    ///
    /// ```
    /// use sketch_hash::{BloomFilter, Error};
    /// let mut bytes = [0; 64];
    /// BloomFilter::from_bytes(&mut bytes)?.insert(b"fox");
    /// assert!(BloomFilter::from_bytes(&bytes)?.contains(b"fox"));
    /// assert_eq!(BloomFilter::from_bytes(&bytes[1..]).unwrap_err(), Error::Length);
    /// # Ok::<(), Error>(())
    /// ```
    ///
    /// # Errors
    ///
    /// Returns [`Error::Length`] if the length is not a positive multiple of 32 below 2^37.
    pub fn from_bytes(bits: B) -> Result<Self, Error> {
        Error::check(sketch_bloom_check(bits.as_ref().len()), 0)?;
        Ok(BloomFilter { bits })
    }

    /// Returns whether the filter may contain a key: `false` means that it was not inserted.
    ///
    /// The key is the value's plain bytes in Parquet: those of a text without a length, those of a
    /// number with the lowest first.
    ///
    /// ```
    /// use sketch_hash::BloomFilter;
    /// let mut filter = BloomFilter::with_len(1024)?;
    /// filter.insert(&2026_i32.to_le_bytes());
    /// assert!(filter.contains(&2026_i32.to_le_bytes()));
    /// # Ok::<(), sketch_hash::Error>(())
    /// ```
    pub fn contains(&self, key: &[u8]) -> bool {
        let bits = self.bits.as_ref();
        // SAFETY: both are only read.
        unsafe { sketch_bloom_contains(bits.as_ptr(), bits.len(), key.as_ptr(), key.len()) != 0 }
    }

    /// Does what [`contains`](Self::contains) does for the key with this [`xxh64`](crate::xxh64),
    /// of the seed 0.
    ///
    /// ```
    /// use sketch_hash::{xxh64, BloomFilter};
    /// let mut filter = BloomFilter::with_len(1024)?;
    /// filter.insert(b"fox");
    /// assert!(filter.contains_hash(xxh64(b"fox", 0)) && !filter.contains_hash(xxh64(b"dog", 0)));
    /// # Ok::<(), sketch_hash::Error>(())
    /// ```
    pub fn contains_hash(&self, hash: u64) -> bool {
        let bits = self.bits.as_ref();
        // SAFETY: the bits are only read.
        unsafe { sketch_bloom_contains_hash(bits.as_ptr(), bits.len(), hash) != 0 }
    }

    /// Looks up each key of a column, laid out as for [`xxh64_each`](crate::xxh64_each):
    /// `found[i]` becomes what [`contains`](Self::contains) returns for key `i`.
    ///
    /// ```
    /// use sketch_hash::BloomFilter;
    /// let mut filter = BloomFilter::with_len(1024)?;
    /// filter.insert(b"fox");
    /// let mut found = [false; 2];
    /// filter.contains_each(b"foxdog", &[0_u32, 3, 6], &mut found)?;
    /// assert_eq!(found, [true, false]);
    /// # Ok::<(), sketch_hash::Error>(())
    /// ```
    ///
    /// # Errors
    ///
    /// Returns [`Error::Offset`] with the index of the first offset that is missing, past the end of
    /// `keys`, or below the one before. Nothing is written.
    pub fn contains_each<O: Offset>(
        &self, keys: &[u8], offsets: &[O], found: &mut [bool],
    ) -> Result<(), Error> {
        let (bits, keys, mut wrong_offset) = (self.bits.as_ref(), reachable::<O>(keys), 0);
        // SAFETY: `found` is borrowed alone.
        let status = unsafe {
            O::Bits::CONTAINS(
                bits.as_ptr(),
                bits.len(),
                keys.as_ptr(),
                keys.len(),
                offsets.as_ptr().cast(),
                offsets.len(),
                found.as_mut_ptr(),
                found.len(),
                &mut wrong_offset,
            )
        };
        Error::check(status, wrong_offset)
    }

    /// Looks up each number: `found[i]` becomes what [`contains`](Self::contains) returns for the
    /// bytes of `numbers[i]`.
    ///
    /// ```
    /// use sketch_hash::BloomFilter;
    /// let mut filter = BloomFilter::with_len(1024)?;
    /// filter.insert_each_number(&[1.5, 2.5])?;
    /// let mut found = [false; 2];
    /// filter.contains_each_number(&[2.5, 3.5], &mut found)?;
    /// assert_eq!(found, [true, false]);
    /// # Ok::<(), sketch_hash::Error>(())
    /// ```
    ///
    /// # Errors
    ///
    /// Returns [`Error::Count`] if `numbers` is shorter than `found`. Nothing is written.
    pub fn contains_each_number<N: Number>(
        &self, numbers: &[N], found: &mut [bool],
    ) -> Result<(), Error> {
        self.contains_values(N::Bits::CONTAINS_VALUES, numbers, found)
    }

    /// Looks up each hash: `found[i]` becomes what [`contains_hash`](Self::contains_hash) returns
    /// for `hashes[i]`.
    ///
    /// ```
    /// use sketch_hash::{xxh64, BloomFilter};
    /// let mut filter = BloomFilter::with_len(1024)?;
    /// filter.insert(b"fox");
    /// let mut found = [false; 2];
    /// filter.contains_each_hash(&[xxh64(b"fox", 0), xxh64(b"dog", 0)], &mut found)?;
    /// assert_eq!(found, [true, false]);
    /// # Ok::<(), sketch_hash::Error>(())
    /// ```
    ///
    /// # Errors
    ///
    /// Returns [`Error::Count`] if `hashes` is shorter than `found`. Nothing is written.
    pub fn contains_each_hash(&self, hashes: &[u64], found: &mut [bool]) -> Result<(), Error> {
        self.contains_values(sketch_bloom_contains_each_hash, hashes, found)
    }

    fn contains_values<W: Width>(
        &self, call: ContainsValues<W::Bits>, values: &[W], found: &mut [bool],
    ) -> Result<(), Error> {
        let bits = self.bits.as_ref();
        // SAFETY: `found` is borrowed alone.
        let status = unsafe {
            call(
                bits.as_ptr(),
                bits.len(),
                values.as_ptr().cast(),
                values.len(),
                found.as_mut_ptr(),
                found.len(),
            )
        };
        Error::check(status, 0)
    }

    /// Returns the bytes of the filter, without a header. They are the same on every machine.
    ///
    /// ```
    /// use sketch_hash::BloomFilter;
    /// assert_eq!(BloomFilter::with_len(32)?.as_bytes(), [0; 32]);
    /// # Ok::<(), sketch_hash::Error>(())
    /// ```
    pub fn as_bytes(&self) -> &[u8] {
        self.bits.as_ref()
    }

    /// Returns what holds the bytes, without a copy.
    ///
    /// ```
    /// use sketch_hash::BloomFilter;
    /// let bytes: Vec<u8> = BloomFilter::with_len(32)?.into_inner();
    /// # Ok::<(), sketch_hash::Error>(())
    /// ```
    pub fn into_inner(self) -> B {
        self.bits
    }

    /// Returns the header that is before the filter's bytes in a Parquet file.
    ///
    /// ```
    /// use sketch_hash::BloomFilter;
    /// let filter = BloomFilter::with_len(1024)?;
    /// let mut file = Vec::new();
    /// file.extend(filter.parquet_header()?);
    /// file.extend(filter.as_bytes());
    /// assert_eq!(file, filter.to_parquet()?);
    /// # Ok::<(), sketch_hash::Error>(())
    /// ```
    ///
    /// # Errors
    ///
    /// Returns [`Error::Length`] if the filter has 2^31 bytes or more.
    pub fn parquet_header(&self) -> Result<Vec<u8>, Error> {
        let mut header = vec![0; BLOOM_HEADER_MAX];
        let bytes = self.as_bytes().len() as u64;
        // SAFETY: the header is borrowed alone.
        let length = unsafe { sketch_bloom_header_write(bytes, header.as_mut_ptr(), header.len()) };
        header.truncate(length);
        if header.is_empty() {
            return Err(Error::Length);
        }
        Ok(header)
    }

    /// Returns the filter as it is in a Parquet file: the header, and then the bytes.
    ///
    /// The file's `bloom_filter_length` is the length of both.
    ///
    /// ```
    /// use sketch_hash::BloomFilter;
    /// assert_eq!(BloomFilter::with_len(1024)?.to_parquet()?.len(), 16 + 1024);
    /// # Ok::<(), sketch_hash::Error>(())
    /// ```
    ///
    /// # Errors
    ///
    /// Returns [`Error::Length`] if the filter has 2^31 bytes or more.
    pub fn to_parquet(&self) -> Result<Vec<u8>, Error> {
        let mut bytes = self.parquet_header()?;
        bytes.extend_from_slice(self.as_bytes());
        Ok(bytes)
    }
}

impl<B: AsRef<[u8]> + AsMut<[u8]>> BloomFilter<B> {
    /// Inserts a key, whose bytes are as for [`contains`](Self::contains).
    ///
    /// ```
    /// use sketch_hash::BloomFilter;
    /// let mut filter = BloomFilter::with_len(1024)?;
    /// filter.insert("fox".as_bytes());
    /// # Ok::<(), sketch_hash::Error>(())
    /// ```
    pub fn insert(&mut self, key: &[u8]) {
        let bits = self.bits.as_mut();
        // Only a wrong length is an error, which from_bytes has ruled out.
        // SAFETY: the bits are borrowed alone, so the key does not overlap them.
        unsafe { sketch_bloom_insert(bits.as_mut_ptr(), bits.len(), key.as_ptr(), key.len()) };
    }

    /// Inserts the key with this [`xxh64`](crate::xxh64), of the seed 0.
    ///
    /// ```
    /// use sketch_hash::{xxh64, BloomFilter};
    /// let mut filter = BloomFilter::with_len(1024)?;
    /// filter.insert_hash(xxh64(b"fox", 0));
    /// assert!(filter.contains(b"fox"));
    /// # Ok::<(), sketch_hash::Error>(())
    /// ```
    pub fn insert_hash(&mut self, hash: u64) {
        let bits = self.bits.as_mut();
        // SAFETY: the bits are borrowed alone.
        unsafe { sketch_bloom_insert_hash(bits.as_mut_ptr(), bits.len(), hash) };
    }

    /// Inserts each key of a column, laid out as for [`xxh64_each`](crate::xxh64_each).
    ///
    /// ```
    /// use sketch_hash::BloomFilter;
    /// let mut filter = BloomFilter::with_len(1024)?;
    /// filter.insert_each(b"foxdog", &[0_u32, 3, 6])?;
    /// assert!(filter.contains(b"fox") && filter.contains(b"dog"));
    /// # Ok::<(), sketch_hash::Error>(())
    /// ```
    ///
    /// # Errors
    ///
    /// Returns [`Error::Offset`] with the index of the first offset that is past the end of `keys`,
    /// or below the one before. Nothing is inserted.
    pub fn insert_each<O: Offset>(&mut self, keys: &[u8], offsets: &[O]) -> Result<(), Error> {
        let (bits, keys, mut wrong_offset) = (self.bits.as_mut(), reachable::<O>(keys), 0);
        // SAFETY: the bits are borrowed alone, so nothing else overlaps them.
        let status = unsafe {
            O::Bits::INSERT(
                bits.as_mut_ptr(),
                bits.len(),
                keys.as_ptr(),
                keys.len(),
                offsets.as_ptr().cast(),
                offsets.len(),
                &mut wrong_offset,
            )
        };
        Error::check(status, wrong_offset)
    }

    /// Inserts the bytes of each number.
    ///
    /// ```
    /// use sketch_hash::BloomFilter;
    /// let mut filter = BloomFilter::with_len(1024)?;
    /// filter.insert_each_number(&[1_i64, -5])?;
    /// assert!(filter.contains(&(-5_i64).to_le_bytes()));
    /// # Ok::<(), sketch_hash::Error>(())
    /// ```
    ///
    /// # Errors
    ///
    /// Returns an error only if the length of `B` has changed.
    pub fn insert_each_number<N: Number>(&mut self, numbers: &[N]) -> Result<(), Error> {
        self.insert_values(N::Bits::INSERT_VALUES, numbers)
    }

    /// Inserts the keys with these [`xxh64`](crate::xxh64), of the seed 0.
    ///
    /// ```
    /// use sketch_hash::{xxh64_each, BloomFilter};
    /// let mut hashes = [0; 2];
    /// xxh64_each(b"foxdog", &[0_u32, 3, 6], 0, &mut hashes)?;
    /// let mut filter = BloomFilter::with_len(1024)?;
    /// filter.insert_each_hash(&hashes)?;
    /// assert!(filter.contains(b"fox") && filter.contains(b"dog"));
    /// # Ok::<(), sketch_hash::Error>(())
    /// ```
    ///
    /// # Errors
    ///
    /// Returns an error only if the length of `B` has changed.
    pub fn insert_each_hash(&mut self, hashes: &[u64]) -> Result<(), Error> {
        self.insert_values(sketch_bloom_insert_each_hash, hashes)
    }

    fn insert_values<W: Width>(
        &mut self, call: InsertValues<W::Bits>, values: &[W],
    ) -> Result<(), Error> {
        let bits = self.bits.as_mut();
        // SAFETY: the bits are borrowed alone, so the values do not overlap them.
        let status =
            unsafe { call(bits.as_mut_ptr(), bits.len(), values.as_ptr().cast(), values.len()) };
        Error::check(status, 0)
    }

    /// Merges a filter of the same length into this one, which then contains the keys of both.
    ///
    /// ```
    /// use sketch_hash::BloomFilter;
    /// let (mut one, mut two) = (BloomFilter::with_len(1024)?, BloomFilter::with_len(1024)?);
    /// one.insert(b"fox");
    /// two.insert(b"dog");
    /// one.merge(&two)?;
    /// assert!(one.contains(b"fox") && one.contains(b"dog") && !two.contains(b"fox"));
    /// # Ok::<(), sketch_hash::Error>(())
    /// ```
    ///
    /// # Errors
    ///
    /// Returns [`Error::Length`] if the lengths are different. This filter is unchanged.
    pub fn merge<C: AsRef<[u8]>>(&mut self, other: &BloomFilter<C>) -> Result<(), Error> {
        let (bits, other) = (self.bits.as_mut(), other.bits.as_ref());
        // SAFETY: the bits are borrowed alone, so those of the other filter are elsewhere.
        let status = unsafe {
            sketch_bloom_merge(bits.as_mut_ptr(), bits.len(), other.as_ptr(), other.len())
        };
        Error::check(status, 0)
    }
}

impl<B: AsRef<[u8]> + AsMut<[u8]>, K: AsRef<[u8]>> Extend<K> for BloomFilter<B> {
    fn extend<I: IntoIterator<Item = K>>(&mut self, keys: I) {
        keys.into_iter().for_each(|key| self.insert(key.as_ref()));
    }
}

impl<B: AsRef<[u8]>, C: AsRef<[u8]>> PartialEq<BloomFilter<C>> for BloomFilter<B> {
    fn eq(&self, other: &BloomFilter<C>) -> bool {
        self.as_bytes() == other.as_bytes()
    }
}

impl<B: AsRef<[u8]>> Eq for BloomFilter<B> {}

impl<B: AsRef<[u8]>> fmt::Debug for BloomFilter<B> {
    fn fmt(&self, f: &mut fmt::Formatter<'_>) -> fmt::Result {
        f.debug_struct("BloomFilter").field("len", &self.as_bytes().len()).finish_non_exhaustive()
    }
}
