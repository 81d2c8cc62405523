"""Queries of DuckDB on files with filters: they find the same rows as without, and skip row groups."""
import decimal
import shutil
import subprocess
import warnings

import pytest
from helpers import column_of
from sketch_hash import parquet
from sketch_hash.parquet.reader import all_places
from test_parquet_engines import ALL_TYPES

pytest.importorskip("numpy")

TIMES = ["'2026-01-01 00:01:10.000'", "timestamp '2026-01-01 00:01:10'", "timestamptz '2026-01-01 00:01:10+00'",
         "timestamptz '2026-01-01 01:01:10+01'", "'2026-01-01 00:01:10'::timestamp_ns", "date '2026-01-01'",
         "'2026-01-01 00:01:10'::timestamp_s", "'2026-01-01 00:01:10'::timestamp_ms"]
# For each type that DuckDB writes: row i, and values that it calls equal to each other, as row 70 is to most.
SPELLINGS = {
    "tinyint": ("i % 100", ["70", "70.0", "'70'", "70::hugeint", "7e1::double"]),
    "integer": ("i * 7", ["70", "70.0", "'70'", "70.00::decimal(9, 2)", "70::utinyint", "70::float"]),
    "bigint": ("i * 7", ["70", "70.0", "'70'", "70::double"]), "usmallint": ("i", ["70", "70::double"]),
    "uinteger": ("i + 3000000000", ["3000000070", "3000000070::double"]),
    "ubigint": ("i + 9223372036854775808", ["9223372036854775878", "9223372036854775878::hugeint"]),
    "hugeint": ("i * 10000000000::hugeint * 10000000000", ["7000000000000000000000", "7e21::double"]),
    "float": ("if(i < 1000, '0.0', if(i < 2000, '-0.0', if(i < 2999, 'nan', '0.1')))", [
        "0", "-0.0::double", "'-0.0'::float", "'nan'", "'nan'::double", "'-nan'::float", "0.1", "0.1::double", "0.1::float"]),
    "double": ("if(i < 1000, '0.0', if(i < 2000, '-0.0', 'nan'))", [
        "0", "0.0::float", "-0.0::double", "'-0.0'", "'nan'::float", "'-nan'::double"]),
    "decimal(4, 1)": ("i / 10", ["7", "7.0", "7.00", "7::double", "'7'", "7.0::decimal(18, 5)"]),
    "decimal(9, 2)": ("i / 10", ["7", "7.000", "7::float"]), "decimal(18, 3)": ("i / 10", ["7", "7.0::decimal(38, 5)"]),
    "decimal(38, 5)": ("i / 10", ["7", "7.0", "7::double"]),
    "varchar": ("'Fox ' || i", ["'Fox 70'", "'fOX 70' collate nocase", "'Fox 70 '", "'Fóx 70' collate noaccent"]),
    "char(9)": ("'Fox ' || i || ' '", ["'Fox 70 '", "'Fox 70'", "'Fox 70   '"]),
    "blob": ("'Fox ' || i", ["'Fox 70'", "'\\x46ox 70'::blob"]), "bit": ("i::int", ["70::int::bit", "70::int::bit::varchar"]),
    "uuid": ("printf('%08d-0000-0000-0000-000000000abc', i)", [
        "'00000070-0000-0000-0000-000000000ABC'", "'{00000070-0000-0000-0000-000000000abc}'",
        "'00000070000000000000000000000abc'::uuid"]),
    "date": ("date '2026-01-01' + i::int", ["'2026-03-12'", "timestamp '2026-03-12'", "timestamptz '2026-03-12'"]),
    "time": ("time '1:00' + to_seconds(i)", ["'01:01:10'", "'01:01:10.000'", "'01:01:10'::timetz", "'01:01:10'::time_ns"]),
    "timetz": ("time '1:00' + to_seconds(i)", ["'01:01:10'::timetz", "'02:01:10+01'::timetz", "'02:01:10+01'"]),
    "time_ns": ("time '1:00' + to_seconds(i)", ["'01:01:10'", "'01:01:10'::time"]),
    **dict.fromkeys(("timestamp", "timestamp_s", "timestamp_ms", "timestamp_ns", "timestamptz"), (
        "timestamp '2026-01-01' + to_seconds(i)", TIMES)),
    "json": ("""'{"a": ' || i || '}'""", ["""'{"a": 70}'""", """'{"a":70}'::json"""]),
    "enum('a', 'b', 'c')": ("['a', 'b', 'c'][1 + i // 1000]", ["'a'", "'b'", "'C' collate nocase"]),
    "bigint[]": ("[i, i + 1]", ["[70, 71]", "[70.0, 71]"]), "bigint[2]": ("[i, i + 1]", ["[70, 71]", "[70.0, 71]"]),
    "struct(x int)": ("row(i)", ["70", "70.0"]), "bignum": ("i", ["70::bignum", "70::bignum::varchar"]),
    "variant": ("i", ["70::variant", "70::double::variant"]), "boolean": ("i % 2", ["true", "1"]),
    "geometry": ("'POINT(' || i || ' 1)'", ["'POINT (70.0 1)'::geometry"]),
    "interval": ("to_days((i % 150)::int)", ["to_days(30)", "to_months(1)", "to_hours(720)"]),
}
# What pyarrow writes: row i, and values.
WRITTEN = {
    "decimal256(50, 2)": (decimal.Decimal, ["70", "70.0", "70::double"]),
    "decimal128(9, 2)": (decimal.Decimal, ["70", "70.00"]),
    "timestamp('ns', 'UTC')": (lambda i: i * 1001, [
        "'1970-01-01 00:00:00.00007007'", "'1970-01-01 00:00:00.00007+00'::timestamptz",
        "'1970-01-01 00:00:00.00007007'::timestamp_ns"]),
    "time64('ns')": (lambda i: i * 1001, ["'00:00:00.00007007'::time_ns", "'00:00:00.00007'::time"]),
    "time32('ms')": (lambda i: i, ["'00:00:00.07'", "'00:00:00.07'::time_ns"]), "float16()": (float, ["70", "70::double"]),
    "date64()": (lambda i: i * 86_400_000, ["'1970-03-12'"]), "duration('s')": (int, ["70", "70.0"]),
}
REFUSED = "interval", "boolean", "variant", "decimal256(50, 2)", "float16()"


def duckdb(folder, *queries):
    """The rows of the answers, in which only the first column counts."""
    command = ["duckdb", "-csv", "-noheader", "-nullvalue", "none", "-separator", "|", "-c", ";".join(queries)]
    output = subprocess.run(command, cwd=folder, capture_output=True, text=True)
    assert output.returncode == 0, output.stderr[-500:]
    return output.stdout.splitlines()


def add_to_each_column(folder):
    """The notes about the columns of a file, and the errors of those that get no filters."""
    notes, errors = [], []
    for column in parquet.open(folder / "plain.parquet").footer.columns():
        try:
            with warnings.catch_warnings(record=True) as caught:
                warnings.simplefilter("always")
                parquet.add_filters(folder / "filters.parquet", folder / "filters.parquet", [column.name], replace=True)
            notes += [str(warning.message) for warning in caught if "DuckDB" in str(warning.message)]
        except ValueError as error:
            errors.append(str(error))
    return notes, errors


def copy_with_empty_filters(folder):
    data, reader = bytearray((folder / "filters.parquet").read_bytes()), parquet.open(folder / "filters.parquet")
    for _, _, (begin, length) in all_places(reader.source, reader.footer):
        data[begin:begin + length] = bytes(length)
    (folder / "empty.parquet").write_bytes(data)


def assert_counts_are_those_without_filters(folder, type, values):
    """For each value, and each pair of values. add says if DuckDB does not use the filters, as empty ones show."""
    shutil.copy(folder / "plain.parquet", folder / "filters.parquet")
    notes, errors = add_to_each_column(folder)
    assert bool(errors) == (type in REFUSED)
    copy_with_empty_filters(folder)
    column = "c.x" if type == "struct(x int)" else "c"
    clauses = [f"= {a}" for a in values] + [f"in ({a}, {b})" for a in values for b in values if a != b]
    clauses += [f"in (select {a} from range(1))" for a in values]
    plain, filtered, empty = (
        counts(folder, [f"select count(*) from '{name}.parquet' where {column} {clause}" for clause in clauses])
        for name in ("plain", "filters", "empty"))
    assert filtered == plain and {*plain} - {"0"}
    assert errors or type == "geometry" or bool(notes) == (empty == plain)


def counts(folder, queries):
    """The answers of those queries that are no errors: some types are not compared to others."""
    output = subprocess.run(["duckdb", "-csv", "-noheader"], input=";\n".join(["set timezone = 'UTC'", *queries, ""]),
                            cwd=folder, capture_output=True, text=True)
    return output.stdout.splitlines()


@pytest.mark.parametrize("type", SPELLINGS)
def test_equal_values_that_duckdb_writes_are_found_however_they_are_spelled(type, need, pa, tmp_path):
    need("duckdb")
    row, values = SPELLINGS[type]
    duckdb(tmp_path, f"copy (select ({row})::{type} c from range(3000) t(i)) to 'plain.parquet' "
           "(format parquet, row_group_size 1000, dictionary_size_limit 1)")
    assert_counts_are_those_without_filters(tmp_path, type, values)


@pytest.mark.parametrize("type", WRITTEN)
def test_equal_values_that_pyarrow_writes_are_found_however_they_are_spelled(type, need, pa, tmp_path):
    need("duckdb")
    row, values = WRITTEN[type]
    table = pa.table({"c": pa.array([row(i) for i in range(3000)], eval(f"pa.{type}"))})
    pa.parquet.write_table(table, tmp_path / "plain.parquet", row_group_size=1000)
    assert_counts_are_those_without_filters(tmp_path, type, values)


def test_duckdb_finds_the_same_rows_and_prunes(need, pa, tmp_path):
    need("duckdb")
    types = [type for type in ALL_TYPES if type not in ("binary", "binary(4)", "date64", "duration('s')")]
    table = pa.table({f"c{i}": column_of(pa, type) for i, type in enumerate(types)})
    pa.parquet.write_table(table, tmp_path / "plain.parquet", row_group_size=700, write_statistics=False)
    parquet.add_filters(tmp_path / "plain.parquet", tmp_path / "filters.parquet", table.column_names)
    rows = (0, 1234, 2998)
    values = duckdb(tmp_path, *(f"select {name}::varchar from 'plain.parquet' limit 1 offset {row}"
                                for name in table.column_names for row in rows))
    assert "none" not in values
    asked = [f"select count(*) from '{{0}}' where {name} = '{value}'"
             for i, name in enumerate(table.column_names) for value in values[3 * i : 3 * i + 3]]
    plain = duckdb(tmp_path, *(query.format("plain.parquet") for query in asked))
    filtered = duckdb(tmp_path, *(query.format("filters.parquet") for query in asked))
    assert filtered == plain and "0" not in plain

    probe = "select bloom_filter_excludes from parquet_bloom_probe('filters.parquet', '{}', {})"
    for name, type, value in ((f"c{i}", type, v) for i, type in enumerate(types)
                              for v in (5, 99999, "0007", "dog") if (type == "string") == isinstance(v, str)):
        if type in ("int32", "int64", "string"):
            excluded = duckdb(tmp_path, probe.format(name, repr(value)))
            groups = parquet.may_contain(tmp_path / "filters.parquet", name, value)
            assert [i for i, answer in enumerate(excluded) if answer == "false"] == groups and len(groups) < 6
