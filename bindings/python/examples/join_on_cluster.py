"""python3 join_on_cluster.py tcp://SCHEDULER:8786 SMALL LARGE: writes the keys of the large table that the small one has
to joined.npy. A table is a folder of .npy files, whose keys are rows of one integer type, the same in both tables."""
import functools
import operator
import pathlib
import sys

import numpy
from distributed import Client
from sketch_hash import BloomFilter


def form_of(keys):
    return keys.dtype.str if keys.dtype.kind in "iu" and keys.ndim == 1 else f"{keys.dtype} of {keys.ndim} dimensions"


def filter_of(keys, count):
    seen = BloomFilter.for_keys(count, error_rate=0.01)
    seen.add_each(keys)
    return seen


def merge(filters):
    return functools.reduce(operator.or_, filters)


def candidates(keys, seen):
    return keys[numpy.asarray(seen.contains_each(keys))]


def main(scheduler, *folders):
    paths = [sorted(map(str, pathlib.Path(folder).resolve().glob("*.npy"))) for folder in folders]
    if not all(paths):
        return f"there are no .npy files in {folders[paths.index([])]}"
    with Client(scheduler) as client:
        small, large = (client.map(numpy.load, some) for some in paths)
        forms = {*client.gather(client.map(form_of, [*small, *large]))}
        if forms not in ({"<i4"}, {"<u4"}, {"<i8"}, {"<u8"}):  # equal keys of two types have different bytes
            return f"all keys must be of one type, int32, uint32, int64 or uint64, and not {', '.join(sorted(forms))}"
        count = sum(client.gather(client.map(len, small)))
        seen = client.submit(merge, client.map(filter_of, small, count=max(count, 1)))
        rows = numpy.concatenate(client.gather(client.map(candidates, large, seen=seen)))
        joined = rows[numpy.isin(rows, numpy.concatenate(client.gather(small)))]
        numpy.save("joined.npy", joined)
        print(f"{len(rows)} of {sum(client.gather(client.map(len, large)))} rows travelled, and {len(joined)} match")


if __name__ == "__main__":
    sys.exit(main(*sys.argv[1:]))
