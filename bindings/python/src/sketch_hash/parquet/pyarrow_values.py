"""The values of a column as a Parquet file stores them, by pyarrow."""
from .footer import FIXED

BATCH = 1 << 24  # bytes of values that are in memory at a time, about
MOST_ROWS = 1024  # of a batch; longer ones are not faster


def stored_values(file, column, groups):
    """For each of the row groups the values of a column in batches."""
    try:
        import pyarrow
        import pyarrow.parquet
    except ImportError as error:
        raise ImportError("this call needs pyarrow: pip install pyarrow") from error
    footer, width = column.footer, column.kind.length if column.kind.type == FIXED else 1
    if not 0 < width <= BATCH:
        raise ValueError(f"a value of {column.name} must have 1 to {BATCH} bytes, not {width}")
    metadata = pyarrow.parquet.read_metadata(pyarrow.BufferReader(b"PAR1" + footer.of_column(column)))
    with pyarrow.parquet.ParquetFile(file, metadata=metadata, buffer_size=1 << 20, pre_buffer=False) as parquet:
        for group in groups:
            values = max(column.values(group), 1)
            rows = max(1, min(64, BATCH // width, 64 * footer.rows[group] // values))
            yield group, (in_range(batch, column) for batch in batches_of(parquet, group, rows))


def batches_of(parquet, group, rows):
    """Each batch tells how many rows the next one may have: the footer does not tell how long a text is in memory."""
    for batch in parquet.iter_batches(rows, row_groups=[group], use_threads=False):
        yield leaf_values(batch)
        rows = max(1, min(MOST_ROWS, 2 * rows, rows * BATCH // max(batch.nbytes, 1)))
        parquet.reader.set_batch_size(rows)


def leaf_values(batch):
    values = batch.column(0)
    while values.type.num_fields:
        values = values.flatten()
        if isinstance(values, list):  # of a struct
            values = values[0]
    return values


def in_range(batch, column):
    """The values, unless one is outside of the range that the column has by its annotation: readers change such values."""
    if column.kind.bits in (8, 16):
        try:
            batch.cast(f"{'u' * column.kind.is_unsigned}int{column.kind.bits}")
        except ValueError as error:
            raise ValueError(f"the column {column.name} must have values of its type alone: {error}") from None
    return batch
