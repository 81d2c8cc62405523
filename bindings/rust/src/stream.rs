//! The traits that the streams of both hashes have alike.

/// In an `impl Hasher`: a number is written as its bytes, the lowest first, on any processor.
macro_rules! write_lowest_byte_first {
    ($($write:ident: $Number:ty),*) => {$(
        #[inline]
        fn $write(&mut self, number: $Number) {
            self.write(&number.to_le_bytes());
        }
    )*};
}

/// Implements them for a stream, whose `state` has the buffer `waiting`, and for the builder of its
/// hashers. These finish with 64 bits of the digest.
macro_rules! stream_traits {
    ($Stream:ident, $Build:ident, |$digest:pat_param| $finished:expr) => {
        impl core::hash::Hasher for $Stream {
            #[inline]
            fn write(&mut self, bytes: &[u8]) {
                self.update(bytes);
            }

            write_lowest_byte_first!(
                write_u16: u16, write_u32: u32, write_u64: u64, write_u128: u128, write_usize: usize
            );

            #[inline]
            fn finish(&self) -> u64 {
                let $digest = self.digest();
                $finished
            }
        }

        impl PartialEq for $Stream {
            fn eq(&self, other: &Self) -> bool {
                let [one, two] = [self.state, other.state].map(|mut state| {
                    let used = state.total % state.waiting.len() as u64;
                    state.waiting[used as usize..].fill(0);
                    state
                });
                one == two
            }
        }

        impl Eq for $Stream {}

        impl Default for $Stream {
            /// A stream with the seed 0.
            fn default() -> Self {
                Self::new(0)
            }
        }

        /// Appends all bytes, and never fails.
        #[cfg(feature = "std")]
        impl std::io::Write for $Stream {
            fn write(&mut self, bytes: &[u8]) -> std::io::Result<usize> {
                self.update(bytes);
                Ok(bytes.len())
            }

            fn flush(&mut self) -> std::io::Result<()> {
                Ok(())
            }
        }

        impl $Build {
            /// The hashers have this seed.
            pub const fn new(seed: u64) -> Self {
                Self { seed }
            }
        }

        impl core::hash::BuildHasher for $Build {
            type Hasher = $Stream;

            #[inline]
            fn build_hasher(&self) -> $Stream {
                $Stream::new(self.seed)
            }
        }
    };
}
