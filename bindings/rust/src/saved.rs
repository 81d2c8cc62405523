//! Streams and filters in the formats of serde: their bytes.

use crate::{BloomFilter, Murmur3X64_128, Xxh64};
use alloc::vec::Vec;
use core::fmt;
use serde::de::{Error, SeqAccess, Visitor};
use serde::{Deserialize, Deserializer, Serialize, Serializer};

/// Reads a byte string, or a sequence of bytes, as formats without byte strings have and as 3.1 wrote
/// it.
struct Bytes;

impl<'de> Visitor<'de> for Bytes {
    type Value = Vec<u8>;

    fn expecting(&self, f: &mut fmt::Formatter<'_>) -> fmt::Result {
        f.write_str("bytes")
    }

    fn visit_bytes<E: Error>(self, bytes: &[u8]) -> Result<Vec<u8>, E> {
        Ok(bytes.to_vec())
    }

    fn visit_byte_buf<E: Error>(self, bytes: Vec<u8>) -> Result<Vec<u8>, E> {
        Ok(bytes)
    }

    fn visit_seq<A: SeqAccess<'de>>(self, mut sequence: A) -> Result<Vec<u8>, A::Error> {
        let mut bytes = Vec::new();
        while let Some(byte) = sequence.next_element()? {
            bytes.push(byte);
        }
        Ok(bytes)
    }
}

macro_rules! saved_as_bytes {
    ($Type:ident, $to_bytes:ident, $from_bytes:expr) => {
        impl Serialize for $Type {
            fn serialize<S: Serializer>(&self, serializer: S) -> Result<S::Ok, S::Error> {
                serializer.serialize_bytes(&self.$to_bytes()[..])
            }
        }

        impl<'de> Deserialize<'de> for $Type {
            fn deserialize<D: Deserializer<'de>>(deserializer: D) -> Result<Self, D::Error> {
                let bytes = deserializer.deserialize_byte_buf(Bytes)?;
                let count = bytes.len();
                $from_bytes(bytes).map_err(|_| {
                    let text = concat!(stringify!($Type), " is not saved in this number of bytes");
                    D::Error::custom(format_args!("{text}: {count}"))
                })
            }
        }
    };
}

saved_as_bytes!(Xxh64, to_bytes, |all: Vec<u8>| all[..].try_into().map(Self::from_bytes));
saved_as_bytes!(Murmur3X64_128, to_bytes, |all: Vec<u8>| all[..].try_into().map(Self::from_bytes));
saved_as_bytes!(BloomFilter, as_bytes, BloomFilter::from_bytes);
