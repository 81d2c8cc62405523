"""What several files of tests use: the calls on hashes, copies, threads, the rate of a filter, and columns of pyarrow."""
import array
import concurrent.futures
import copy
import decimal
import fractions
import math
import mmap
import pickle
import sys
import threading
import time

import sketch_hash
from sketch_hash import BloomFilter, murmur3_x64_128, murmur3_x64_128_each, xxh64, xxh64_each

KINDS = [xxh64, murmur3_x64_128]
FORMS = ["digest", "hexdigest", "intdigest"]
ON_COLUMNS = [xxh64_each, murmur3_x64_128_each, BloomFilter(32).add_each, BloomFilter(32).contains_each]
ONE_CALL = [getattr(sketch_hash, f"{kind.__name__}_{form}") for kind in KINDS for form in FORMS]
WAYS = [copy.copy, copy.deepcopy, lambda subject: subject.copy(),
        *(lambda subject, n=n: pickle.loads(pickle.dumps(subject, n)) for n in range(6))]

MAP_NORESERVE = 0x4000 if sys.platform == "linux" else 0


def zeros(length):
    """They take no memory, since they are never written."""
    return mmap.mmap(-1, length, flags=mmap.MAP_PRIVATE | mmap.MAP_ANONYMOUS | MAP_NORESERVE, prot=mmap.PROT_READ)


ZEROS = zeros((1 << 31) + 4096)  # a call on them takes a tenth of a second or more


def in_threads(work):
    """Runs work(0) to work(3) at the same time. Raises what one of them raises."""
    start = threading.Barrier(4)
    with concurrent.futures.ThreadPoolExecutor(4) as pool:
        list(pool.map(lambda n: (start.wait(), work(n)), range(4)))


def waits(long_call, call):
    """Whether a call waits for a long one. It is tried again, since on a busy machine the long one may end too soon."""
    for _ in range(5):
        worker = threading.Thread(target=long_call)
        worker.start()
        time.sleep(0.02)
        start = time.monotonic()
        call()
        seconds = time.monotonic() - start
        worker.join()
        if seconds > 0.02:
            return True
    return False


def assert_releases_the_gil(call, data, ticks, least=1):
    """So long that another thread runs this often in a call. It may be late on a busy machine, so it has ten seconds."""
    seen, end = 0, time.monotonic() + 10
    while seen < least and time.monotonic() < end:
        before = len(ticks)
        call(data)
        seen = len(ticks) - before
    assert seen >= least


def hashes_of(each, keys, seed):
    """What a call on a column returns, by single calls."""
    call = getattr(sketch_hash, each.__name__.replace("each", "intdigest"))
    hashes = [call(key, seed) for key in keys]
    return [word for hash in hashes for word in divmod(hash, 2**64)] if each is murmur3_x64_128_each else hashes


def rate_of(bloom):
    """By the bits that are set, how often another key is found."""
    counts = [bin(word).count("1") for word in array.array("I", bytes(bloom))]
    blocks = [math.prod(counts[i:i + 8]) for i in range(0, len(counts), 8)]
    return fractions.Fraction(sum(blocks), len(blocks) << 40)


TYPES = [
    "int8", "uint8", "int16", "uint16", "int32", "uint32", "int64", "uint64", "float32", "float64", "date32",
    "time32('ms')", "time64('us')", "time64('ns')", "timestamp('ms')", "timestamp('us', 'UTC')", "timestamp('ns')",
    "duration('s')", "string", "large_string", "binary", "binary(4)", "dictionary",
]


def column_of(pa, name, count=4000):
    """Values with nulls, of which some are equal."""
    rows = [None if i % 7 == 3 else i % 3000 for i in range(count)]
    if name == "dictionary":
        return column_of(pa, "string", count).dictionary_encode()
    type = eval(f"pa.{name}" + "()" * ("(" not in name))
    if "int" in name:
        return pa.array([None if row is None else row % 2 ** (type.bit_width - 1) for row in rows], type)
    if "string" in name or "binary" in name:
        return pa.array([None if row is None else f"{row:04}" for row in rows]).cast("binary").cast(type)
    if "decimal" in name:
        return pa.array([None if row is None else decimal.Decimal(row) / 100 for row in rows], type)
    if name == "date64":
        return pa.array([None if row is None else row * 86_400_000 for row in rows], type)
    return pa.array(rows, "int32" if type.bit_width == 32 and "float" not in name else "int64").cast(type)
