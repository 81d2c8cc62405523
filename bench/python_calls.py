"""Compares calls of the Python package with python3-xxhash, by thread time, and prints lines of speed.tsv."""
import statistics
import time
import timeit

import sketch_hash
import xxhash

CALLS = {  # and the lengths of `data`
    "module.xxh64(data).intdigest()": (8, 64, 1024), "module.xxh64(data).hexdigest()": (8, 64, 1024),
    "module.xxh64_intdigest(data)": (8, 64, 1024), "hasher.update(data)": (8, 1024),
    "hasher.digest()": (16,), "hasher.copy()": (16,),
}
seen = sketch_hash.BloomFilter.for_keys(100_000, error_rate=0.01)
seen.add(bytes(16))


def timer(call, length, module=xxhash):
    data = bytes(length)
    names = {"module": module, "hash": module.xxh64_intdigest, "hasher": module.xxh64(data), "seen": seen, "data": data}
    return timeit.Timer(call, globals=names, timer=time.thread_time)


def compare(case, peer, ours, theirs):
    times = [(ours.timeit(1000), theirs.timeit(1000)) for _ in range(41)]
    ratios = sorted(our / their for our, their in times)
    nanoseconds = statistics.median(our for our, _ in times) * 1e6
    print(f"python\t{case}\t{peer}\t{ratios[20]:.2f}\t{ratios[4]:.2f}\t{ratios[36]:.2f}\t{nanoseconds:.1f}")


for call, lengths in CALLS.items():
    for length in lengths:
        case = f"`{call.partition('.')[2]}`" + f", {length} bytes" * ("data" in call)
        compare(case, "python3-xxhash", *(timer(call, length, module) for module in (sketch_hash, xxhash)))

# A filter takes one hash of a key: compare it with that hash by python3-xxhash.
one = timer("hash(data)", 16)
for case, call in (("add", "seen.add(data)"), ("look-up", "data in seen")):
    compare(f"{case} of a filter, 16 bytes", "`xxh64_intdigest`", timer(call, 16), one)
