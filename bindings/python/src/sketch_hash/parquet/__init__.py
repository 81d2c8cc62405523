"""Bloom filters of Parquet files: added to a finished file, read, and asked for values.

add_filters and check_filters need pyarrow, which reads the values, and so do URIs and file systems. All else needs Python
alone.
"""
from .reader import BloomFilterReader
from .writer import FilterError, add_filters, check_filters, remove_filters

__all__ = [
    "BloomFilterReader", "FilterError", "add_filters", "check_filters", "filters", "may_contain", "open", "read_filter",
    "remove_filters",
]


def open(file, *, filesystem=None):
    """A BloomFilterReader of a path, a URI, a path in a filesystem of pyarrow or fsspec, or an open binary file, which stays
    open.

    Its calls are those of this module without the file, but may_contain takes many values: use it to ask a file often.
    """
    return BloomFilterReader(file, filesystem=filesystem)


def filters(file):
    """For each (row group, column) that has a filter, how many bytes its bits have."""
    with open(file) as reader:
        return reader.filters()


def read_filter(file, row_group, column):
    """The filter of a column in a row group, or None if it has none."""
    with open(file) as reader:
        return reader.read_filter(row_group, column)


def may_contain(file, column, value):
    """The row groups that may have a value in a column: one list of BloomFilterReader.may_contain."""
    with open(file) as reader:
        return reader.may_contain(column, [value])[0]
