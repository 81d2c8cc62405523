"""Writes the two files of this folder, which pyarrow 25 wrote byte for byte. At the top of the repository, after .ci/test:

    PYTHONPATH=out/python:bindings/python/tests:. python3 bindings/python/tests/data/make.py
"""
import pathlib

import pyarrow
import pyarrow.parquet
from test_parquet import VALUES, moment

FOLDER = pathlib.Path(__file__).parent
TYPES = {
    "int8": pyarrow.int8(), "uint16": pyarrow.uint16(), "int32": pyarrow.int32(), "uint32": pyarrow.uint32(),
    "int64": pyarrow.int64(), "uint64": pyarrow.uint64(), "float": pyarrow.float32(), "double": pyarrow.float64(),
    "string": pyarrow.string(), "binary": pyarrow.binary(), "fixed": pyarrow.binary(4), "date": pyarrow.date32(),
    "time_ms": pyarrow.time32("ms"), "time_us": pyarrow.time64("us"), "ms": pyarrow.timestamp("ms"),
    "us_utc": pyarrow.timestamp("us", "UTC"), "ns": pyarrow.timestamp("ns"), "decimal9": pyarrow.decimal128(9, 2),
    "decimal30": pyarrow.decimal128(30, 2),
}
WITH_NULLS = [None if i % 8 == 5 else i for i in range(24)]


def column(type, value, rows=WITH_NULLS):
    return pyarrow.array([i if i is None else value(i) for i in rows], type)


def write(name, columns, **options):
    pyarrow.parquet.write_table(pyarrow.table(columns), FOLDER / name, row_group_size=8, compression="zstd",
                                write_statistics=False, store_schema=False, **options)


columns = {name: column(type, VALUES[name]) for name, type in TYPES.items()}
columns["uuid"] = column(pyarrow.uuid(), lambda i: VALUES["uuid"](i).bytes)
columns["list"] = column(pyarrow.list_(pyarrow.int32()), lambda i: [i, i + 100])
columns["struct"] = column(pyarrow.struct({"x": pyarrow.int64(), "y": pyarrow.string()}), lambda i: {"x": i, "y": str(i)})
write("filters.parquet", columns, bloom_filter_options={name: {"ndv": 16 if "list" in name else 8} for name in VALUES})
write("odd.parquet", {
    "bool": column(pyarrow.bool_(), lambda i: i % 2 == 0), "half": column(pyarrow.float16(), float),
    "int96": column(pyarrow.timestamp("ns"), lambda i: moment(second=i)),
    "x.y": column(pyarrow.int64(), int, range(24)),
    "x": column(pyarrow.struct({"y": pyarrow.int64()}), lambda i: {"y": i}, range(24)),
    "plain": column(pyarrow.string(), "fox {}".format), "b": column(pyarrow.string(), "cat {}".format),
}, use_deprecated_int96_timestamps=True)
