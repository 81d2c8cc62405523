use crate::calls;
use core::ffi::c_int;
use core::fmt;

/// Why a call failed. A call that fails has changed nothing.
///
/// ```
/// use sketch_hash::{xxh64_each, Error};
/// let error = xxh64_each(b"foxdog", &[0_u32, 3, 7], 0, &mut [0; 2]).unwrap_err();
/// assert_eq!(error, Error::Offset { index: 2 });
/// ```
#[derive(Clone, Copy, Debug, PartialEq, Eq, Hash)]
#[non_exhaustive]
pub enum Error {
    /// No Bloom filter has this length, two filters to be merged have different lengths, or a filter
    /// to be folded has an odd number of blocks of 32 bytes.
    Length,
    /// An offset of a column is missing, past the end of the keys, or below the offset before it.
    Offset {
        /// The index of the first such offset.
        index: usize,
    },
    /// There are fewer values than places for results.
    Count,
    /// The seed hash is 0, which sketches take for none: choose another seed.
    Seed,
    /// No filter of at most 128 MiB keeps the rate that was asked for.
    TooManyKeys,
    /// The input does not begin with the header of a filter.
    Header,
    /// The input ends before the filter does.
    Truncated,
    /// The library returned a status that this version of the crate does not know.
    Unknown(i32),
}

impl Error {
    /// The result of a call that returned `status`, and wrote the index of a wrong offset.
    pub(crate) fn check(status: c_int, index: usize) -> Result<(), Error> {
        Err(match status {
            calls::OK => return Ok(()),
            calls::ERROR_LENGTH => Error::Length,
            calls::ERROR_OFFSET => Error::Offset { index },
            calls::ERROR_COUNT => Error::Count,
            calls::ERROR_SEED => Error::Seed,
            _ => Error::Unknown(status),
        })
    }
}

impl fmt::Display for Error {
    fn fmt(&self, f: &mut fmt::Formatter<'_>) -> fmt::Result {
        match self {
            Error::Length => f.write_str(
                "a Bloom filter must have a positive multiple of 32 bytes, below 2^37, or 2^31 in a Parquet file; \
                 both filters of a merge must have one length, and a filter to fold an even number of blocks",
            ),
            Error::Offset { index } => {
                write!(f, "the offset at {index} is missing, past the end or below the one before")
            }
            Error::Count => f.write_str("there are fewer values than places for results"),
            Error::Seed => f.write_str("the hash of this seed is 0, so sketches cannot use it: choose another seed"),
            Error::TooManyKeys => f.write_str(
                "no Bloom filter of at most 128 MiB keeps this rate for so many keys, or `one_in` \
                 is 0: allow more, or split the keys over several filters",
            ),
            Error::Header => {
                f.write_str("the input does not begin with the whole header of a Bloom filter")
            }
            Error::Truncated => f.write_str("the input ends before the Bloom filter does"),
            Error::Unknown(status) => write!(f, "the library returned the unknown status {status}"),
        }
    }
}

impl core::error::Error for Error {}

#[cfg(test)]
mod tests {
    use super::*;

    #[test]
    fn an_unknown_status_is_an_error() {
        assert_eq!(Error::check(-99, 7), Err(Error::Unknown(-99)));
    }
}
