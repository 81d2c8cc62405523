"""Filters of Parquet files beside those of pyarrow."""
import types

import pytest
from helpers import TYPES, column_of, rate_of
from parquet_files import FILTERS, changed, split
from sketch_hash import parquet
from sketch_hash.parquet.pyarrow_values import stored_values

pytest.importorskip("numpy")

ALL_TYPES = [*TYPES, "date64", "time32('s')", "timestamp('s')", *(f"decimal128({digits}, 2)" for digits in (9, 18, 30))]
OPTIONS = [
    {}, {"data_page_version": "2.0", "compression": "zstd"}, {"use_dictionary": False, "write_page_index": True},
    {"version": "1.0", "coerce_timestamps": "ms", "allow_truncated_timestamps": True},
    {"store_decimal_as_integer": True},
]


@pytest.mark.parametrize("name", ALL_TYPES)
def test_filters_are_those_of_pyarrow(name, pa, tmp_path):
    table = pa.table({"x": column_of(pa, name)})
    plain, ours, theirs = (tmp_path / file for file in ("plain", "ours", "theirs"))
    for options in OPTIONS:
        pa.parquet.write_table(table, plain, row_group_size=1500, **options)
        options = {**options, "bloom_filter_options": {"x": {"ndv": 1500, "fpp": 0.01}}}
        pa.parquet.write_table(table, theirs, row_group_size=1500, **options)
        parquet.add_filters(plain, ours, ["x"])
        for group in range(3):
            one, two = parquet.read_filter(ours, group, "x"), parquet.read_filter(theirs, group, "x")
            while one.num_bytes != two.num_bytes:
                max(one, two, key=lambda filter: filter.num_bytes).fold()
            assert one == two
        assert pa.parquet.read_table(ours).equals(pa.parquet.read_table(plain))
        assert parquet.check_filters(ours) == parquet.check_filters(theirs) == 3


@pytest.mark.parametrize("rows", [100_000, 122_880, 1 << 20])
def test_filters_of_usual_row_groups_are_as_small_as_those_of_pyarrow(rows, pa, tmp_path):
    table = pa.table({"x": range(rows)})
    pa.parquet.write_table(table, tmp_path / "plain", row_group_size=rows)
    pa.parquet.write_table(table, tmp_path / "theirs", row_group_size=rows, bloom_filter_options={"x": True})
    parquet.add_filters(tmp_path / "plain", tmp_path / "ours", ["x"])
    assert parquet.read_filter(tmp_path / "ours", 0, "x") == parquet.read_filter(tmp_path / "theirs", 0, "x")
    parquet.add_filters(tmp_path / "plain", tmp_path / "ours", ["x"], error_rate=0.01)
    assert rate_of(parquet.read_filter(tmp_path / "ours", 0, "x")) <= 0.01


def test_nested_columns_have_filters_of_their_values(pa, tmp_path):
    rows = [None if i % 5 == 2 else [{"a": i, "m": [(str(i), None if i % 3 else i)]}] * (i % 3) for i in range(100)]
    type = pa.list_(pa.struct([("a", pa.int32()), ("m", pa.map_(pa.string(), pa.int64()))]))
    table = pa.table({"x": pa.array(rows, type)})
    pa.parquet.write_table(table, tmp_path / "a", row_group_size=40)
    names = [column.name for column in parquet.open(tmp_path / "a").footer.columns()]
    parquet.add_filters(tmp_path / "a", tmp_path / "a", names)
    assert parquet.check_filters(tmp_path / "a") == 9 and pa.parquet.read_table(tmp_path / "a").equals(table)
    for i in range(100):
        if i % 5 != 2 and i % 3:
            values = [i, str(i), *[i] * (i % 3 == 0)]
            found = [parquet.may_contain(tmp_path / "a", name, value) for name, value in zip(names, values)]
            assert all(i // 40 in groups for groups in found)


@pytest.mark.parametrize("is_list", [False, True])
def test_long_texts_are_read_a_few_at_a_time(is_list, pa, tmp_path):
    """A dictionary page has each once, so the file does not show how much memory they take."""
    rows = pa.array(["x"] * 2000 + ["x" * 40_000] * 5000)
    rows = pa.ListArray.from_arrays(range(len(rows) + 1), rows) if is_list else rows
    pa.parquet.write_table(pa.table({"x": rows}), tmp_path / "a", compression="zstd")
    with parquet.open(tmp_path / "a") as reader:
        column, = reader.footer.columns()
        chunks = stored_values(reader.source.file, column, [0])
        sizes = [batch.nbytes for _, batches in chunks for batch in batches]
    assert max(sizes) < 1 << 26 and sum(sizes) > 5000 * 40_000
    parquet.add_filters(tmp_path / "a", tmp_path / "a", [column.name])
    assert parquet.may_contain(tmp_path / "a", column.name, "x" * 40_000) == [0]


@pytest.fixture
def store(pa):
    """A store in memory, of pyarrow: a folder with two files."""
    import pyarrow.fs
    store, _ = pyarrow.fs.FileSystem.from_uri("mock:///")
    table = pa.table({"x": range(3000), "y": map(str, range(3000))})
    for folder in ("data", "data/year=2026"):
        store.create_dir(folder)
        pa.parquet.write_table(table, f"{folder}/a.parquet", filesystem=store, row_group_size=1000)
    return store


def names_in(store):
    from pyarrow.fs import FileSelector
    return sorted(info.path for info in store.get_file_info(FileSelector("", recursive=True)) if info.is_file)


def test_files_of_a_store_get_filters(store, pa):
    before, names = pa.parquet.read_table("data/a.parquet", filesystem=store), names_in(store)
    assert parquet.add_filters("data/a.parquet", "data/a.parquet", ["x"], filesystem=store) > 0
    assert parquet.add_filters("data", "data", ["x", "y"], skip_existing=True, filesystem=store) > 0
    assert parquet.check_filters("data", filesystem=store) == 12 and names_in(store) == names
    with parquet.open("data/year=2026/a.parquet", filesystem=store) as reader:
        assert [2] in reader.may_contain("y", [str(i) for i in range(2900, 3000)]) and len(reader.filters()) == 6
    assert pa.parquet.read_table("data/a.parquet", filesystem=store).equals(before)
    assert parquet.remove_filters("data", "data", ["y"], filesystem=store) == 6
    assert parquet.add_filters("data/a.parquet", "new.parquet", ["y"], filesystem=store) > 0
    assert names_in(store) == [*names, "new.parquet"]


def test_a_file_of_a_table_in_a_store_is_not_changed_in_place(store):
    store.create_dir("data/_delta_log")
    store.open_output_stream("data/_delta_log/0.json").close()
    with pytest.raises(ValueError, match="must not be of a table"):
        parquet.add_filters("data/year=2026/a.parquet", "data/year=2026/a.parquet", ["x"], filesystem=store)


def test_a_uri_or_a_folder_of_pyarrow_may_be_a_local_file(pa, tmp_path):
    import pyarrow.fs
    pa.parquet.write_table(pa.table({"x": range(3000)}), tmp_path / "a.parquet")
    here = pyarrow.fs.SubTreeFileSystem(str(tmp_path), pyarrow.fs.LocalFileSystem())
    assert parquet.add_filters("a.parquet", "b.parquet", ["x"], filesystem=here) > 0
    assert parquet.check_filters((tmp_path / "b.parquet").as_uri()) == 1
    with pytest.raises(TypeError, match="^filesystem must be one of pyarrow.fs or of fsspec, not int$"):
        parquet.open("a.parquet", filesystem=5)
    with pytest.raises(ValueError, match="none://a"):
        parquet.check_filters("none://a")


NANOSECONDS = "time64('ns')", "timestamp('ns')", "timestamp('ns', 'UTC')", "timestamp('ns', 'Asia/Tokyo')"
ASKED = [*ALL_TYPES, *NANOSECONDS, "uuid", "dictionary(pa.int8(), pa.time64('ns'))"]


def asked_column(pa, name):
    """Some values, of which those of nanoseconds have them."""
    if name == "uuid":
        return pa.array([bytes([i]) * 16 for i in range(90)], pa.uuid())
    if "'ns'" in name:
        values = pa.array([i * 10**9 + 1234567 for i in range(90)], "int64")
        type = pa.time64("ns") if "time64" in name else eval(f"pa.{name}")
        return values.cast(type).dictionary_encode() if "dictionary" in name else values.cast(type)
    return column_of(pa, name, 90)


@pytest.mark.parametrize("name", ASKED)
def test_each_row_group_is_found_by_the_own_column_of_the_file(name, pa, tmp_path):
    column = asked_column(pa, name)
    pa.parquet.write_table(pa.table({"x": column}), tmp_path / "a", row_group_size=30)
    parquet.add_filters(tmp_path / "a", tmp_path / "a", ["x"])
    values, rows = column.drop_null(), [i for i in range(90) if column[i].is_valid]
    with parquet.open(tmp_path / "a") as reader:
        if name.startswith("duration"):  # whose unit the file does not have: as whole numbers they are found
            with pytest.raises(TypeError, match="cannot be in x"):
                reader.may_contain("x", values)
            values = values.cast("int64")
        for asked in (values, pa.chunked_array([values])):
            found, answers = reader.may_contain("x", asked), reader.contains_each("x", asked)
            assert all(row // 30 in groups for row, groups in zip(rows, found))
            assert all(answers[row // 30][i] for i, row in enumerate(rows))
        assert sum(map(len, found)) < 1.5 * len(found) or len({*values.to_pylist()}) < 90


def test_columns_of_other_libraries_are_asked_with_their_nanoseconds(need, pa, tmp_path):
    need("python:pandas")
    import pandas
    column = asked_column(pa, "time64('ns')")
    pa.parquet.write_table(pa.table({"x": column, "y": asked_column(pa, "timestamp('ns')")}), tmp_path / "a", row_group_size=30)
    parquet.add_filters(tmp_path / "a", tmp_path / "a", ["x", "y"])
    with parquet.open(tmp_path / "a") as reader:
        exported = types.SimpleNamespace(__iter__=None, __arrow_c_stream__=pa.chunked_array([column]).__arrow_c_stream__)
        for asked in (exported, pandas.Series(column, dtype=pandas.ArrowDtype(column.type))):
            assert all(i // 30 in groups for i, groups in enumerate(reader.may_contain("x", asked)))
        series = asked_column(pa, "timestamp('ns')").to_pandas()
        for asked in (series, series.to_numpy(), [*series]):
            assert all(i // 30 in groups for i, groups in enumerate(reader.may_contain("y", asked)))


@pytest.mark.parametrize("make", [
    lambda numpy, pa: numpy.array([b"a\0", b"b"]), lambda numpy, pa: numpy.array(["a", "b"]),
    lambda numpy, pa: [numpy.array([b"a"])[0]], lambda numpy, pa: ["b", numpy.array(["a"])[0]],
    lambda numpy, pa: pa.array([1], pa.duration("ns")), lambda numpy, pa: pa.array([[1]], pa.list_(pa.time64("ns"))),
], ids=["S", "U", "a bytes", "a str", "duration", "list"])
def test_values_that_have_lost_something_are_not_asked(make, pa):
    import numpy
    with parquet.open(FILTERS) as reader:
        for call in (reader.may_contain, reader.contains_each):
            with pytest.raises(TypeError, match="must not be of (numpy's types S and U|duration|list<)"):
                call("binary", make(numpy, pa))


@pytest.mark.parametrize("name, value", [("int8", 255), ("int16", 1 << 15), ("uint8", -1), ("uint16", 1 << 16)])
@pytest.mark.parametrize("is_old", [False, True])
def test_a_value_outside_of_the_range_of_its_type_is_an_error(is_old, name, value, pa, tmp_path):
    """Engines read another value: DuckDB reads 255 of INT_8 as -1, and would not find it."""
    narrow, wide = tmp_path / "narrow", tmp_path / "wide"
    pa.parquet.write_table(pa.table({"x": pa.array([0, 1, 2], name)}), narrow)
    pa.parquet.write_table(pa.table({"x": pa.array([0, 1, value], "int32")}), wide, store_schema=False)
    element = split(narrow)[1][2][1][1][1]
    element.pop(10 if is_old else 6)  # its LogicalType or its ConvertedType
    wide.write_bytes(changed(wide, lambda fields: fields[2][1][1].__setitem__(1, element)).read())
    before = wide.read_bytes()
    with pytest.raises(ValueError, match="^the column x must have values of its type alone: Integer value .* not in"):
        parquet.add_filters(wide, wide, ["x"])
    assert wide.read_bytes() == before and parquet.add_filters(narrow, narrow, ["x"]) > 0
