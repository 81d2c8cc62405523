"""Filters that are added to finished files, and checked. pyarrow reads the values."""
import functools
import operator
import warnings

from .. import BloomFilter, xxh64_intdigest
from .commit import replaced
from .pyarrow_values import stored_values
from .reader import BloomFilterReader, all_places, false_positive_rate, places_of
from .stores import each_once, place_of

MOST_BYTES = 128 << 20  # of a filter that Arrow reads
DEFAULT_RATE = 1 / 28  # at most, and about 1 %: of 8 to 16 bits for each value, since sizes are powers of two


class FilterError(ValueError):
    """A filter lacks a value of its row group, so queries lose rows."""


def add_filters(source, target, columns, *, filesystem=None, error_rate=None, max_bytes=None, replace=False,
                skip_existing=False, progress=None):
    """Writes the Parquet file `source` to `target`, which may be the same, with filters for each row group.

    columns is a list of names; that of a nested column is "a.b". All before the footer is copied as it is; in the
    footer only the places of the filters change. Returns how many bytes the new filters have. progress, as tqdm.tqdm, draws
    a bar.

    Both are paths, or URIs, or paths in a filesystem of pyarrow or fsspec. If the source is a folder, all files below it that
    end in .parquet are written to the target, a folder too. A target is the old file or the complete new one at any time: that
    is written beside it as .sketch_hash-.., read back, and then renamed, or copied within a store that cannot rename.

    A filter begins large enough for all values at error_rate, the share of other keys that it finds on average, or with
    max_bytes. It is halved while its rate by its bits stays at most error_rate. If that is left out, the rate is about 1 %:
    from 0.1 to 3.6 %, with one to two bytes for each different value.
    replace replaces filters that are there, and moves those that are the last before the footer, so that a file does not
    grow with each call. skip_existing keeps them, and adds those that are missing. A UserWarning names each column whose
    filters help little, or are not used by DuckDB, and what of the owner, the mode and the attributes of the target was lost.

    Raises ValueError if an engine may hold values of a column equal whose bytes differ, as of INTERVAL; if a column has
    filters, and neither of the two is given; if the footer is encrypted or signed, or a file is not a regular one; if folders
    show that the target belongs to a table of Delta Lake or Iceberg; if another call replaces the target at the same time,
    or a file changes meanwhile; if a store cannot replace files. After an error the target is as it was, unless the message
    begins with "the file may be". Raises NotImplementedError if the system is not POSIX.
    """
    check_names(columns)
    if replace and skip_existing:
        raise ValueError("filters that are there must be replaced or skipped, not both")
    names, notes = list(columns), {}

    def add(source, target):
        builder = Builder(error_rate, max_bytes)
        with BloomFilterReader(source) as reader:
            chosen = reader.footer.find(names)
            check_columns(reader.footer, names, chosen)
            todo = [(column, groups_to_fill(column, replace, skip_existing)) for column in chosen]
            total = sum(len(groups) for _, groups in todo)
            if total == 0 and source.is_same(target):
                return 0
            steps = drawn(new_filters(reader.source.file, todo, builder), progress, total)
            size, lost = rewrite(reader, source, target, chosen if replace else [], steps)
        notes.update(dict.fromkeys(builder.notes + lost))  # each once, also of many files
        return size

    return sum_of(add, filesystem, source, target, notes=notes)


def remove_filters(source, target, columns=None, *, filesystem=None):
    """Writes the Parquet file `source` to `target`, which may be the same, without the filters of some columns, or without
    any. Returns how many it had. Those that are the last before the footer leave no bytes.

    The source and the target are those of add_filters, whose errors it raises.
    """
    check_names(columns)
    notes, names = {}, None if columns is None else [*columns]

    def remove(source, target):
        with BloomFilterReader(source) as reader:
            chosen = [*reader.footer.columns()] if names is None else reader.footer.find(names)
            check_not_signed(reader.footer)
            count = sum(len(column.groups_with_filters()) for column in chosen)
            if count or not source.is_same(target):
                notes.update(dict.fromkeys(rewrite(reader, source, target, chosen, ())[1]))
        return count

    return sum_of(remove, filesystem, source, target, notes=notes)


def sum_of(call, filesystem, *files, notes):
    """The sum of a call's results for each file. Then it warns of what the calls have noted."""
    total = sum(in_each_file(call, *(place_of(file, filesystem) for file in files)))
    for note in notes:
        warnings.warn(note, stacklevel=3)
    return total


def in_each_file(call, source, *target):
    """The results of a call for a file, or for each one below a folder."""
    if not source.is_folder():
        yield call(source, *target)
        return
    names = {source.below(name): name for name in source.names()}
    in_place = all(source.is_same(place) for place in target)
    for place in each_once(names) if in_place else names:
        places = [place, *(other.below(names[place]) for other in target)]
        if not in_place:
            places[-1].make_folder()
        try:
            yield call(*places)
        except ValueError as error:
            error.args = f"{place}: {error}",
            raise


def rewrite(reader, source, target, replaced_columns, steps):
    """Writes the target with new filters. Returns how many bytes these have, and notes of what the target has lost."""
    end, kept = unused_end(reader, replaced_columns) if replaced_columns else (reader.footer.start, [])
    check = functools.partial(source.check_unchanged, reader.source)
    with replaced(target, reader.source, end, check) as (output, notes):
        size = write(reader, output, end, kept, replaced_columns, steps)
    return size, notes


def write(reader, output, begin, kept, removed, steps):
    """Writes what follows the data, which ends at a place: filters that are kept, new ones, and the footer without others of
    the columns removed."""
    places = [(column, group, None, None) for column in removed for group in column.groups_with_filters()]
    for start, stop, column, group in kept:
        places.append((column, group, begin + output.tell(), stop - start))
        output.writelines(reader.source.pieces(start, stop))
    size = -output.tell()
    for column, group, filter in steps:
        data = filter.to_parquet()
        places.append((column, group, begin + output.tell(), len(data)))
        output.write(data)
    size += output.tell()
    output.write(reader.footer.with_filters(places))
    return size


def drawn(steps, progress, total):
    """The steps, while a bar is drawn. The bar gets numbers alone, so it can neither repeat a step nor leave one out."""
    bar = iter(progress(range(total), total=total) if progress else ())
    for step in steps:
        next(bar, None)
        yield step
    next(bar, None)


def check_names(columns):
    if isinstance(columns, str) or hasattr(columns, "keys"):
        raise TypeError("columns must be a list of names, not one name, nor a dict: error_rate is for all columns of a call")


def check_not_signed(footer):
    if footer.is_signed:
        raise ValueError("the footer must not be signed: each change would break its signature")


def check_columns(footer, names, columns):
    check_not_signed(footer)
    if not names or len({column.index for column in columns}) < len(names):
        raise ValueError("the columns must be one or more, each once")
    for column in columns:
        reason = column.why_no_filter()
        if reason:
            raise ValueError(f"the column {column.name} must not be {reason}")


def groups_to_fill(column, replace, skip_existing):
    existing = set(column.groups_with_filters())
    if existing and not replace and not skip_existing:
        raise ValueError(f"the column {column.name} has filters: replace them by replace=True, or --replace, "
                         "or keep them by skip_existing=True, or --skip-existing")
    return [group for group in range(column.footer.groups) if replace or group not in existing]


def unused_end(reader, replaced_columns):
    """Where the first filter begins that is replaced, if only filters are from there to the footer; and those of them that
    stay: (begin, end, column, group). Else the footer, and none."""
    footer, run, begin = reader.footer, [], reader.footer.start
    indexes = {column.index for column in replaced_columns}
    try:
        filters = [(column.place(group)[0], sum(place), column, group)
                   for column, group, place in all_places(reader.source, footer)]
        end = max((column.end(group) for column in footer.columns() for group in range(footer.groups)), default=0)
    except ValueError:  # a filter or a part of the footer is damaged, or belongs to another file
        return footer.start, []
    filters.sort(key=operator.itemgetter(1))
    while filters and filters[-1][1] == begin:
        begin = filters[-1][0]
        run.append(filters.pop())
    while run and run[-1][2].index not in indexes:
        begin = run.pop()[1]
    if end > begin or filters and filters[-1][1] > begin:
        return footer.start, []
    return begin, [filter for filter in reversed(run) if filter[2].index not in indexes]


def new_filters(file, todo, builder):
    for column, groups in todo:
        built = []
        for group, batches in stored_values(file, column, groups) if groups else ():
            filter, is_full = builder.build(column, group, batches)
            built.append((xxh64_intdigest(filter), is_full))
            yield column, group, filter
        builder.note(column, built)


class Builder:
    """Builds filters with an error rate, and notes the columns whose filters help little."""

    def __init__(self, error_rate, max_bytes):
        self.error_rate = DEFAULT_RATE if error_rate is None else error_rate
        BloomFilter.for_keys(1, error_rate=self.error_rate)  # raises if it is no rate
        self.is_limited, self.notes = max_bytes is not None, []
        limit = operator.index(max_bytes) if self.is_limited else MOST_BYTES
        if limit < 32:
            raise ValueError(f"max_bytes must be at least 32, not {max_bytes}")
        self.max_bytes = 1 << min(limit, MOST_BYTES).bit_length() - 1

    def build(self, column, group, batches):
        """A filter of all values, and whether it finds most other keys too."""
        filter, is_small = self.empty(max(column.values(group), 1))
        for batch in batches:
            filter.add_each(batch)
        filter.fold(self.error_rate)
        rate = false_positive_rate(filter.to_bytes()) if is_small else 0
        if rate > self.error_rate and not self.is_limited:
            raise ValueError(f"the column {column.name} has too many values in row group {group} for a filter of 128 MiB: "
                             "allow a greater error_rate, or any by max_bytes")
        return filter, rate > 0.5

    def empty(self, keys):
        """A filter, and whether it is smaller than so many different keys need. Few values need less: it is folded."""
        try:
            filter = BloomFilter.for_keys(keys, error_rate=self.error_rate)
        except ValueError:  # more than 128 MiB
            return BloomFilter(self.max_bytes), True
        return (filter, False) if filter.num_bytes <= self.max_bytes else (BloomFilter(self.max_bytes), True)

    def note(self, column, built):
        reason, full = column.why_unused(), [is_full for _, is_full in built]
        if built and reason:
            self.notes.append(f"the filters of {column.name} help little: DuckDB 2.0 uses none of {reason}")
        others = {hash for hash, _ in built[:max(len(built) - 1, 2)]}  # the last row group may have less rows
        if built and all(full):
            self.notes.append(f"the filters of {column.name} help little: max_bytes is too small for them")
        elif len(built) > 1 and len(others) == 1:
            self.notes.append(f"the filters of {column.name} help little: all row groups have the same values")


def check_filters(source, *, filesystem=None, progress=None):
    """Reads all values of the columns that have filters. Raises FilterError, a ValueError, if a filter lacks one.

    Returns how many filters there are. The source is that of add_filters. progress, as tqdm.tqdm, draws a bar. A UserWarning
    names each column whose filters cannot be checked, since its equal values may have different bytes.
    """
    notes = {}

    def check(source):
        with BloomFilterReader(source) as reader:
            todo = []
            for column in reader.footer.columns():
                groups, reason = column.groups_with_filters(), column.why_no_filter()
                if groups and reason:
                    notes[f"the filters of {column.name} are not checked: it is {reason}"] = None
                elif groups:
                    todo.append((column, groups))
            steps = ((column, group, batches) for column, groups in todo
                     for group, batches in stored_values(reader.source.file, column, groups))
            for column, group, batches in drawn(steps, progress, sum(len(groups) for _, groups in todo)):
                check_filter(reader.source, column, group, batches)
        return sum(len(groups) for _, groups in todo)

    return sum_of(check, filesystem, source, notes=notes)


def check_filter(source, column, group, batches):
    place, = places_of(source, column, [group])
    filter = BloomFilter.from_bytes(source.read(*place))
    for batch in batches:
        if filter.contains_each(batch).tobytes().count(1) != len(batch) - batch.null_count:
            raise FilterError(f"the filter of {column.name} in row group {group} lacks a value, so queries lose rows: "
                              "replace it by replace=True, or --replace")
