"""The filters of a file, as many questions as there are, from one reading of the footer."""
import array
import contextlib
import itertools
import math

from .. import BloomFilter, xxh64_each, xxh64_intdigest
from .files import Source
from .footer import Footer
from .keys import column_of, keys_of, listed
from .stores import place_of

SET_BITS = bytes(bin(byte).count("1") for byte in range(256))


class BloomFilterReader:
    """The filters of a file. The footer, and where the filters of each column asked for are, stay in memory.

    Threads may share a reader. It is a context manager, and closes a file that it has opened.
    """

    def __init__(self, file, *, filesystem=None):
        with contextlib.ExitStack() as stack:
            if not hasattr(file, "read"):
                file = stack.enter_context(place_of(file, filesystem).open())
            self.source = Source(file)
            self.footer = Footer(self.source)
            self.asked = {}  # the columns by the names that were asked for, and the places of their filters
            self.opened = stack.pop_all()

    def __enter__(self):
        return self

    def __exit__(self, kind, value, traceback):
        self.close()

    def close(self):
        with contextlib.suppress(Exception):  # all has been read
            self.opened.close()

    @property
    def num_row_groups(self):
        return self.footer.groups

    def filters(self):
        """For each (row group, column) that has a filter, how many bytes its bits have."""
        return {(group, column.name): num_bytes for column, group, (_, num_bytes) in all_places(self.source, self.footer)}

    def read_filter(self, row_group, column):
        """The filter of a column in a row group, or None if it has none."""
        if not 0 <= row_group < self.num_row_groups:
            raise IndexError(f"a row group must be from 0 to {self.num_row_groups - 1}, not {row_group}")
        place, = places_of(self.source, *self.footer.find([column]), [row_group])
        filter = place and BloomFilter.from_bytes(self.source.read(*place))
        self.source.check_unchanged()
        return filter

    def may_contain(self, column, values):
        """For each value a list of the row groups that may have it in a column, so also of those without a filter.

        A value is that of pyarrow: a str, bytes, a number, a date, time or datetime, a Decimal, a UUID. A value that the
        column cannot have, such as 2**40 in INT32, is in no row group. For a number that FLOAT cannot have, such as 0.1, both
        neighbours are looked up, since an engine may convert it to either.
        """
        values = listed(values)
        groups = [[] for _ in values]
        owners = [*range(len(values))]  # numbers of a range would be made again for each row group
        for group, answers in enumerate(self._contains_each(column, values)):
            for i in itertools.compress(owners, answers):
                groups[i].append(group)
        return groups

    def contains_each(self, column, values):
        """For each row group whether it may have each value, as may_contain: bytes of 0 and 1. For many values this takes
        much less time than their lists."""
        return self._contains_each(column, listed(values))

    def _contains_each(self, column, values):
        if column not in self.asked:
            found, = self.footer.find([column])
            self.asked[column] = found, places_of(self.source, found, range(self.num_row_groups))
        found, places = self.asked[column]
        owners, hashes = hashes_of(values, found)
        answers = [*contain_hashes(self.source, places, hashes)]
        self.source.check_unchanged()  # other bytes would be a filter without the values
        return answers if owners is None else [of_owners(owners, some, len(values)) for some in answers]


def hashes_of(values, column):
    """For each key of the values the index of its value, or None if each value has one key; and its XXH64."""
    keys = column_of(values, column.kind) if len(values) > 1 else None
    if keys:
        return None, xxh64_each(keys)
    keys = [keys_of(value, column) for value in values]
    owners = [i for i, some in enumerate(keys) for _ in some]
    return owners, array.array("Q", [xxh64_intdigest(key) for some in keys for key in some])


def of_owners(owners, answers, count):
    """The answers for values, from those for their keys."""
    found = bytearray(count)
    for i in itertools.compress(owners, answers):
        found[i] = 1
    return bytes(found)


def all_places(source, footer):
    """The column, the row group and the place of each filter."""
    groups = range(footer.groups)
    for column in footer.columns():
        yield from ((column, group, place) for group, place in zip(groups, places_of(source, column, groups)) if place)


def places_of(source, column, groups):
    """For each of the row groups where the bits of the filter begin, and how many bytes they have; or None."""
    places, again = itertools.tee(column.place(group) for group in groups)
    heads = source.read_each(range_of_header(column, offset) for offset, _ in again if offset is not None)
    return [None if offset is None else place_of_bits(column, offset, length, next(heads)) for offset, length in places]


def range_of_header(column, offset):
    if not 4 <= offset < column.footer.start:
        raise ValueError(f"a filter of {column.name} must be in the file, not at {offset}")
    return offset, min(BloomFilter.PARQUET_HEADER_MAX, column.footer.start - offset)


def place_of_bits(column, offset, length, head):
    try:
        bits = BloomFilter.parquet_bits(head)
    except ValueError:
        raise ValueError(f"the filter of {column.name} at {offset} has a damaged header: replace it by replace=True, "
                         "or --replace") from None
    if offset + bits.stop > column.footer.start or length not in (None, bits.stop):
        raise ValueError(f"the filter of {column.name} at {offset} must have the length that the footer has")
    return offset + bits.start, len(bits)


def contain_hashes(source, places, hashes):
    """For each row group whether its filter may have each hash, as a byte of 0 or 1.

    A small filter is read whole. Of another one a block is read for each hash. As a filter alone it has the hash if the
    whole filter has.
    """
    small = source.gap * len(hashes)
    pieces = map(BloomFilter.view, source.read_each(ranges_of(filter(None, places), hashes, small)))
    for place in places:
        if place is None:
            yield b"\1" * len(hashes)
        elif place[1] <= small:
            yield next(pieces).contains_hashes(hashes).tobytes()
        else:
            yield bytes(next(pieces).contains_hashes(hashes[i:i + 1])[0] for i in range(len(hashes)))


def ranges_of(places, hashes, small):
    for begin, num_bytes in places:
        if num_bytes <= small:
            yield begin, num_bytes
        else:
            yield from ((begin + BloomFilter.block_offset(num_bytes, hash), 32) for hash in hashes)


def false_positive_rate(bits):
    """The share of other keys that a filter finds: in each block the product of its eight words' shares of set bits.
    No call for C returns it."""
    total = 0
    for begin in range(0, len(bits), 1 << 20):
        piece = bits[begin:begin + (1 << 20)]
        counts = int.from_bytes(piece.translate(SET_BITS), "little")  # of set bits, in each byte
        counts += counts >> 8
        counts += counts >> 16  # in every fourth byte the count of its word
        words = iter(counts.to_bytes(len(piece), "little")[::4])
        total += sum(map(math.prod, zip(*[words] * 8)))
    return total / 32**8 / (len(bits) // 32)
