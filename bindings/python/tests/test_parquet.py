"""Filters of Parquet files that are read."""
import array
import contextlib
import datetime
import decimal
import gzip
import io
import mmap
import os
import random
import shutil
import subprocess
import sys
import time
import tracemalloc

import pytest
from helpers import in_threads, rate_of
from parquet_files import (
    DATA, DAY, FILTERS, ODD, UTC, VALUES, TType, changed, chunk_of, element_of, join, metadata_of, moment, set_path, split)
from sketch_hash import BloomFilter, column, parquet, xxh64_intdigest
from sketch_hash.parquet.files import Source
from sketch_hash.parquet.footer import LENGTH, OFFSET
from sketch_hash.parquet.reader import contain_hashes, false_positive_rate

numpy = pytest.importorskip("numpy")


@pytest.mark.parametrize("name, value", VALUES.items(), ids=VALUES)
def test_a_value_is_in_its_row_group(name, value):
    found = [parquet.may_contain(FILTERS, name, value(i)) for i in range(24)]
    assert all(i // 8 in groups for i, groups in enumerate(found) if i % 8 != 5)
    assert sum(map(len, found)) <= 30  # 21 rows are not null, and some values are found by chance
    assert [len(parquet.read_filter(FILTERS, group, name).to_bytes()) for group in range(3)] == [
        parquet.filters(FILTERS)[group, name] for group in range(3)]


def test_a_file_may_be_open_or_in_memory_or_decompress(tmp_path):
    memory = mmap.mmap(-1, FILTERS.stat().st_size)
    memory[:] = FILTERS.read_bytes()
    (tmp_path / "a.gz").write_bytes(gzip.compress(memory))
    for file in (io.BytesIO(memory), memory, open(FILTERS, "rb"), open(FILTERS, "rb", buffering=0), str(FILTERS),
                 gzip.open(tmp_path / "a.gz")):  # whose fileno() is of the compressed file
        assert 1 in parquet.may_contain(file, "string", "fox 8") and len(parquet.filters(file)) == 3 * len(VALUES)
        assert "fox 8" in parquet.read_filter(file, 1, "string")


def test_a_reader_finds_many_values_in_few_reads():
    read = []

    class Counted(io.BytesIO):
        def read(self, length):
            read.append(length)
            return super().read(length)

    rows = [i for i in range(24) if i % 8 != 5]
    with parquet.open(Counted(FILTERS.read_bytes())) as reader:
        found = reader.may_contain("string", [f"fox {i}" for i in rows])
        assert len(read) == 3 and reader.may_contain("string", ["none"]) == [[]] and len(read) == 4
        assert reader.filters() == parquet.filters(FILTERS) and "fox 8" in reader.read_filter(1, "string")
    assert all(i // 8 in groups for i, groups in zip(rows, found)) and sum(map(len, found)) < 25


def test_large_filters_are_asked_by_their_blocks(tmp_path):
    """The same filter, repeated to a file, has the same answers whole and in blocks."""
    filter = BloomFilter(32 * 3001)
    keys = [str(i) for i in range(2000)]
    filter.add_each(column(keys[:1000]))
    (tmp_path / "a").write_bytes(filter.to_bytes() * 3)
    hashes = array.array("Q", map(xxh64_intdigest, map(str.encode, keys)))
    with open(tmp_path / "a", "rb") as file:
        source, places = Source(file), [(filter.num_bytes * i, filter.num_bytes) for i in range(3)]
        whole = [list(found) for found in contain_hashes(source, places, hashes)]
        parts = [[list(found) for found in contain_hashes(source, places, hashes[i:i + 1])] for i in range(len(keys))]
    assert filter.num_bytes > source.gap and whole == [list(filter.contains_each(column(keys)))] * 3
    assert [[part[group][0] for part in parts] for group in range(3)] == whole


def test_a_reader_that_is_closed_reads_no_other_file():
    with parquet.open(FILTERS) as reader:
        pass
    with open(ODD, "rb"), pytest.raises(ValueError, match="closed file"):  # it may have the same descriptor
        reader.may_contain("string", ["fox 8"])


def test_a_file_that_is_written_to_is_not_asked(tmp_path):
    """Its footer is that of before, and what is at the old places may be no filter."""
    with parquet.open(shutil.copy(FILTERS, tmp_path / "a")) as reader:
        assert 1 in reader.may_contain("string", ["fox 8"])[0]
        os.utime(shutil.copy(FILTERS, tmp_path / "b"), ns=(0, 0))
        os.replace(tmp_path / "b", tmp_path / "a")  # the reader has the old file
        assert 1 in reader.may_contain("string", ["fox 8"])[0]
    with parquet.open(tmp_path / "a") as reader:
        (tmp_path / "a").write_bytes(bytes(FILTERS.stat().st_size))
        for call in (lambda: reader.may_contain("string", ["fox 8"]), lambda: reader.read_filter(0, "string")):
            with pytest.raises(ValueError):
                call()
        (tmp_path / "a").write_bytes(FILTERS.read_bytes())
        with pytest.raises(ValueError, match="^the file must not change while it is read$"):
            reader.may_contain("string", ["fox 8"])


def test_a_rate_is_that_of_the_bits():
    filter = BloomFilter.for_keys(1000)
    filter.add_each(column(map(str, range(1000))))
    assert false_positive_rate(filter.to_bytes()) == pytest.approx(float(rate_of(filter))) and 0.001 < rate_of(filter) < 0.1


class Slow(io.BytesIO):
    """Another thread runs after each seek."""
    def seek(self, *args):
        place = super().seek(*args)
        time.sleep(0.001)
        return place


@pytest.mark.parametrize("make", [lambda: open(FILTERS, "rb"), lambda: Slow(FILTERS.read_bytes())], ids=["file", "memory"])
def test_threads_may_ask_one_open_file(make):
    wrong = []

    def ask(first):
        for i in [first, first + 8, first + 16] * 5:
            wrong.extend([i] * (i // 8 not in parquet.may_contain(file, "int32", i * 1000)))

    with make() as file:
        in_threads(ask)
    assert wrong == []


@pytest.mark.parametrize("name, value", [
    ("int8", 2**40), ("uint32", -1), ("uint64", 2**64), ("fixed", b"12345"),
    ("ms", moment(microsecond=1)), ("decimal9", decimal.Decimal("0.001")), ("decimal9", decimal.Decimal("1e999999")),
    ("decimal9", decimal.Decimal("Infinity")), ("decimal9", decimal.Decimal("1e-999999999")), ("decimal30", 10**40),
    ("decimal30", decimal.Decimal("1" * 5000)),
    ("time_ms", datetime.time(1, 2, 3, 1)),
])
def test_a_value_that_the_column_cannot_have_is_in_no_row_group(name, value):
    assert parquet.may_contain(FILTERS, name, value) == []


@pytest.mark.parametrize("name, value", [
    ("int8", 5.0), ("int8", "5"), ("int8", None), ("int8", True), ("double", float("nan")), ("double", "1"),
    ("string", 5), ("fixed", "0000"), ("date", moment()), ("date", 20000), ("ms", DAY), ("ms", moment(tzinfo=UTC)),
    ("us_utc", moment()), ("time_us", moment()), ("uuid", "00"), ("decimal9", 0.5),
    ("decimal9", decimal.Decimal("nan")), ("decimal9", decimal.Decimal("snan")), ("double", numpy.timedelta64(3, "s")),
    ("double", numpy.zeros(2)),
])
def test_a_value_of_another_type_is_an_error(name, value):
    with pytest.raises(TypeError):
        parquet.may_contain(FILTERS, name, value)


def test_each_form_of_a_number_is_looked_for():
    zeros = "0" * 5000
    texts = "0", "-0", "0e-999999999", f"0.04{zeros}", f"4{zeros}E-5002", f"0{zeros}.04"
    for name, values in (("double", (-0.0, 0)), ("decimal9", map(decimal.Decimal, texts))):
        assert all(0 in parquet.may_contain(FILTERS, name, value) for value in values)


def test_a_number_that_float_cannot_have_finds_those_around_it():
    """As DuckDB finds 0.1, which it converts. The filters have 0.25 in the first row group, and 2.25 in the second."""
    for value, group in ((0.25 + 1e-12, 0), (0.25 - 1e-12, 0), (0.25, 0), (2.25 + 2e-7, 1), (numpy.float32(0.25), 0),
                         (decimal.Decimal("0.25"), 0), (1e-45, 0), (-1e-60, 0), (numpy.float64(0.25 + 1e-12), 0)):
        assert group in parquet.may_contain(FILTERS, "float", value)
    for value in (1e300, 10**400, numpy.float64(-1e300)):
        assert parquet.may_contain(FILTERS, "float", value) == []
    assert parquet.may_contain(FILTERS, "double", -10**400) == parquet.may_contain(FILTERS, "double", numpy.float32(-1)) == []


def test_a_list_of_one_column_is_asked_by_its_own_name():
    assert parquet.may_contain(FILTERS, "list", 100) == parquet.may_contain(FILTERS, "list.list.element", 100) == [0]
    with pytest.raises(ValueError, match="^the name of a column must be that of one alone: struct is of struct.x, struct.y$"):
        parquet.may_contain(FILTERS, "struct", 5)


def test_nanoseconds_of_pandas_count():
    Timestamp = type("Timestamp", (datetime.datetime,), {"nanosecond": 7})  # as pandas has it
    assert parquet.may_contain(FILTERS, "ns", Timestamp(2026, 1, 1, 1, 1, 1, 3)) == []
    assert 0 in parquet.may_contain(FILTERS, "ns", datetime.datetime(2026, 1, 1, 1, 1, 1, 3))


@pytest.mark.parametrize("name", ["int8", "uint16", "uint32", "int64", "uint64", "string", "binary", "decimal9"])
def test_many_values_have_the_answers_of_each(name):
    """Whole numbers and texts are hashed as a column."""
    numbers = "int" in name
    values = [VALUES[name](i) for i in range(24)] + [VALUES[name](99) for _ in range(9)]
    each = [parquet.may_contain(FILTERS, name, value) for value in values]
    with parquet.open(FILTERS) as reader:
        assert reader.may_contain(name, values) == reader.may_contain(name, iter(values)) == each
        assert reader.contains_each(name, values) == [bytes(group in some for some in each) for group in range(3)]
        if numbers:
            assert reader.may_contain(name, numpy.array(values)) == each
            assert reader.may_contain(name, [values[0], 2**70]) == [each[0], []]
        for wrong in (None, True, 0.5):
            with pytest.raises(TypeError):
                reader.may_contain(name, [values[0], wrong])


def test_dates_of_numpy_are_those_of_python():
    for name, value, units in (("date", DAY, ["D", "s", "ns"]), ("ms", moment(second=3), ["s", "3s", "us"]),
                               ("ns", moment(second=1, microsecond=3), ["us", "ns"])):
        expected = parquet.may_contain(FILTERS, name, value)
        for unit in units:
            assert parquet.may_contain(FILTERS, name, numpy.datetime64(value).astype(f"datetime64[{unit}]")) == expected != []
    for text in ("2026-01-01T01:01:01.000003001", "9999-01-01T00:00"):
        assert parquet.may_contain(FILTERS, "ns", numpy.datetime64(text)) == []
    for name, text in (("us_utc", "2026-01-01T01:01:01"), ("ns", "NaT")):
        with pytest.raises(TypeError):
            parquet.may_contain(FILTERS, name, numpy.datetime64(text))


@pytest.mark.parametrize("call, error, text", [
    (lambda: parquet.may_contain(FILTERS, "none", 1), ValueError, "must be one of int8, (\\w+, ){9}.., not none"),
    (lambda: parquet.open(FILTERS).may_contain("string", "fox"), TypeError, "must be a list of values, as .42., not one"),
    (lambda: parquet.may_contain(ODD, "x.y", 1), ValueError, "that of one alone: x.y is of x.y, x.y"),
    (lambda: parquet.read_filter(FILTERS, 3, "int8"), IndexError, "a row group must be from 0 to 2, not 3"),
    (lambda: parquet.read_filter(FILTERS, -1, "int8"), IndexError, "a row group must be from 0 to 2, not -1"),
    (lambda: parquet.may_contain(ODD, "half", 1.0), TypeError, "must not be FLOAT16: DuckDB 2.0 loses rows"),
    (lambda: parquet.may_contain(io.BytesIO(b"PAR1"), "x", 1), ValueError, "must be a Parquet file"),
    (lambda: parquet.may_contain(io.BytesIO(b""), "x", 1), ValueError, "must be a Parquet file"),
    (lambda: parquet.may_contain(DATA / "none", "x", 1), FileNotFoundError, "none"),
], ids=range(9))
def test_an_invalid_query_raises(call, error, text):
    with pytest.raises(error, match=text):
        call()


@pytest.mark.parametrize("change", [
    {OFFSET: (TType.I64, -1)}, {OFFSET: (TType.I64, 2**62)}, {OFFSET: (TType.I64, 4)}, {LENGTH: (TType.I32, 5)},
    {OFFSET: (TType.I32, 4)},
], ids=["negative", "past the end", "no filter", "length", "type"])
def test_a_wrong_place_of_a_filter_is_an_error(change):
    file = changed(FILTERS, lambda fields: metadata_of(fields, 1, 2).update(change))
    for call in (lambda: parquet.may_contain(file, "int32", 1), lambda: parquet.read_filter(file, 1, "int32"),
                 lambda: parquet.filters(file)):
        with pytest.raises(ValueError):
            call()
    assert parquet.may_contain(file, "int8", -12) == [0]


def test_a_length_may_be_missing():
    file = changed(FILTERS, lambda fields: metadata_of(fields, 1, 2).pop(LENGTH))
    assert parquet.may_contain(file, "int32", 8000) == [1] and parquet.filters(file) == parquet.filters(FILTERS)


def test_a_row_group_in_another_file_is_an_error(tmp_path):
    """Its offsets are those of that file, and the same bytes of this file are other filters."""
    file = tmp_path / "a.parquet"
    file.write_bytes(changed(FILTERS, lambda fields: set_path(fields, 0, 0)).read())
    for call in (lambda: parquet.may_contain(file, "int8", -12), lambda: parquet.read_filter(file, 0, "int8"),
                 lambda: parquet.filters(file), lambda: parquet.check_filters(file)):
        with pytest.raises(ValueError, match="^the column int8 must be in this file alone, not in those that the footer"):
            call()
    assert parquet.may_contain(file, "int32", 8000) == [1]


def test_an_encrypted_column_has_no_filter_to_read():
    file = changed(FILTERS, lambda fields: chunk_of(fields, 1, 0).pop(3))
    assert parquet.may_contain(file, "int8", 100) == [1] and (1, "int8") not in parquet.filters(file)
    assert parquet.read_filter(file, 1, "int8") is None


def structs(*items):
    return TType.LIST, (TType.STRUCT, items)


def element(name, **fields):
    numbers = {"type": 1, "length": 2, "children": 5}
    return {4: (TType.STRING, name), **{numbers[key]: (TType.I32, value) for key, value in fields.items()}}


ROOT, LEAF = element(b"root", children=1), element(b"a", type=1)
BOMBS = {
    "empty structs": {2: structs(ROOT, LEAF), 99: structs(*[{}] * 50_000)},
    "bools": {2: structs(ROOT, LEAF), 99: structs(*[{1: (TType.BOOL, True), 2: (TType.BOOL, True)}] * 20_000)},
    "elements": {2: structs(*[{}] * 50_000)},
    "columns": {2: structs(element(b"root", children=9000), *[LEAF] * 9000),
                4: structs({1: structs(*[{}] * 9000), 3: (TType.I64, 1)})},
    "row groups": {2: structs(ROOT, LEAF), 4: structs(*[{1: structs({}), 3: (TType.I64, 1)}] * 9000)},
    "a long name above many columns": {
        2: structs(ROOT, element(b"x" * 50_000, children=9000), *[LEAF] * 9000)},
    "a deep schema": {2: structs(*[ROOT] * 9000)},
}
BYTES = {  # of an unknown field, and what is wrong with it
    "a long number": (b"\x96" + b"\xff" * 100_000 + b"\x01", "a number must have at most 10 bytes"),
    "deep structs": (b"\x9c" + b"\x1c" * 100_000, "lists and structs must be at most 64 deep"),
    "deep lists": (b"\x99" + b"\x19" * 100_000, "lists and structs must be at most 64 deep"),
    "a long list": (b"\x99\xfc" + b"\xff" * 8 + b"\x7f", "a list is truncated"),
    "a long text": (b"\x98" + b"\xff" * 8 + b"\x7f", "a value is truncated"),
    "a large field number": (b"\x05\x80\xf1\x04\x00", "a number must have at most 16 bits"),
    "a negative field number": (b"\x05\x01\x00", "the number of a field must be from 1 to 32767"),
    "a map": (b"\x9b\x00", "no value of a footer is a map, a set or of another kind"),
}


@pytest.mark.parametrize("fields", BOMBS.values(), ids=BOMBS)
def test_a_footer_takes_memory_by_its_length(fields):
    footer = join(b"", fields)
    file = io.BytesIO(b"PAR1" + footer)
    tracemalloc.start()
    for call in (lambda: parquet.filters(file), lambda: parquet.may_contain(file, "a", 5),
                 lambda: parquet.read_filter(file, 0, "a")):
        with contextlib.suppress(IndexError, ValueError):
            call()
    peak = tracemalloc.get_traced_memory()[1]
    tracemalloc.stop()
    assert peak < 20 * len(footer) + 50_000


def test_a_long_text_is_not_copied_for_each_column():
    data = join(b"PAR1", {2: structs(ROOT, LEAF), 6: (TType.STRING, b"x" * 50_000)})
    footer = parquet.open(io.BytesIO(data)).footer
    assert [len(footer.of_column(column)) < 100 for column in footer.columns()] == [True]


@pytest.mark.parametrize("data, text", BYTES.values(), ids=BYTES)
def test_a_field_that_no_footer_has_is_an_error(data, text):
    before, fields = split(FILTERS)
    footer = join(b"", fields)[:-9] + data + b"\0" * 8  # after the last field that it has
    file = io.BytesIO(before + footer + len(footer).to_bytes(4, "little") + b"PAR1")
    for call in (lambda: parquet.filters(file), lambda: parquet.may_contain(file, "int8", 5)):
        with pytest.raises(ValueError, match=f"^the footer is damaged: {text}$"):
            call()


@pytest.mark.parametrize("length", [-1, 0, 2**31 - 1])
def test_a_decimal_has_at_most_1024_bytes(length):
    file = changed(FILTERS, lambda fields: element_of(fields, b"decimal30").update({2: (TType.I32, length)}))
    with pytest.raises(ValueError, match=f"^whole numbers must have 1 to 1024 bytes in the file, not {length}$"):
        parquet.may_contain(file, "decimal30", decimal.Decimal(1))


def test_a_damaged_header_of_a_filter_is_named():
    data = bytearray(FILTERS.read_bytes())
    offset, _ = parquet.open(FILTERS).footer.find(["int8"])[0].place(0)
    data[offset:offset + 10] = b"\xff" * 10
    with pytest.raises(ValueError, match=f"^the filter of int8 at {offset} has a damaged header: replace it "):
        parquet.may_contain(io.BytesIO(data), "int8", 1)


def test_a_damaged_footer_raises_value_and_type_errors_alone():
    rng, data = random.Random(5), bytearray(FILTERS.read_bytes())
    start = parquet.open(FILTERS).footer.start
    for _ in range(300):
        wrong = data.copy()
        for _ in range(rng.randint(1, 3)):
            wrong[rng.randrange(start, len(wrong))] = rng.randrange(256)
        for call in (lambda file: parquet.may_contain(file, "string", "fox 8"), parquet.filters):
            with contextlib.suppress(ValueError, TypeError):
                call(io.BytesIO(wrong))


@pytest.mark.parametrize("mode", ["rb", "r+b"])
@pytest.mark.parametrize("buffering", [-1, 0])
def test_forked_processes_may_ask_one_open_file(mode, buffering, tmp_path):
    """They share its position."""
    code = f"""import os, sys
from sketch_hash import parquet
with open({str(shutil.copy(FILTERS, tmp_path / "a"))!r}, {mode!r}, buffering={buffering}) as file, parquet.open(file) as reader:
    children = []
    for _ in range(3):
        children.append(os.fork())
        if children[-1] == 0:
            wrong = sum(i // 8 not in reader.may_contain("int32", [i * 1000])[0] for _ in range(99) for i in (0, 8, 16))
            os._exit(min(wrong, 9))
    assert [os.waitpid(child, 0)[1] for child in children] == [0, 0, 0]"""
    subprocess.run([sys.executable, "-c", code], check=True, env={**os.environ, "PYTHONPATH": os.pathsep.join(sys.path)})
