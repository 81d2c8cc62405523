"""XXH64, MurmurHash3 x64 128 and the Bloom filter of Apache Parquet, from functions that are proved.

The hashes are used like those of hashlib and python-xxhash. The input is any bytes-like object whose memory is
C-contiguous, and not a str. A seed is a whole number from 0 to 2**64 - 1. Digests have the highest byte first.

>>> xxh64(b"The quick brown fox jumps over the lazy dog").hexdigest()
'0b242d361fda71bc'
>>> murmur3_x64_128_hexdigest(b"The quick brown fox jumps over the lazy dog", seed=0)
'e34bbc7bbc071b6c7a433ca9c49a9347'

Murmur's hexadecimal is its two words, each with the highest digit first. Most other tools print the lowest byte of each
word first: murmur3_x64_128_bytes has these bytes.

>>> seen = BloomFilter.for_keys(1_000_000, error_rate=0.01)
>>> seen.add("fox")
>>> "fox" in seen, "dog" in seen
(True, False)
"""
from ._bloom import BloomFilter
from ._columns import column, murmur3_x64_128_each, xxh64_each
from ._hashes import (
    murmur3_x64_128, murmur3_x64_128_bytes, murmur3_x64_128_digest, murmur3_x64_128_hexdigest,
    murmur3_x64_128_intdigest, seed_hash, xxh64, xxh64_digest, xxh64_hexdigest, xxh64_intdigest,
)

__version__ = "3.2.0"
__all__ = [
    "BloomFilter", "algorithms_available", "column", "murmur3_x64_128", "murmur3_x64_128_bytes",
    "murmur3_x64_128_digest", "murmur3_x64_128_each", "murmur3_x64_128_hexdigest", "murmur3_x64_128_intdigest",
    "seed_hash", "xxh64", "xxh64_digest", "xxh64_each", "xxh64_hexdigest", "xxh64_intdigest",
]

algorithms_available = {"xxh64", "murmur3_x64_128"}
