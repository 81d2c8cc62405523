"""The header of a filter, written and read for every argument. Its number has one to five bytes."""
import itertools
from functools import partial

from calls import Call, Memory, check_call, input, out, some
from definitions import Definitions, as_value
from filters import lengths_of_none
from values import add, complement, cut, extend, join, number, unknown

HEADER = Definitions("sketch_bloom/specs/Header.antt")
SIZES = range(1, 6)  # of the number
TOO_LONG = extend(join(number(0, 5), unknown("blocks", 32, 1 << 26)))  # it would have more than 32 bits


def length_of(size):
    """All lengths of filters whose header has a number of so many bytes. It is doubled, and a multiple of 64."""
    if size == 1:
        return number(32)
    width = min(7 * size - 6, 26)
    return extend(join(number(0, 5), unknown("blocks", width, 1 << 7 * size - 13)))


def header_of(length):
    return [cut(as_value(byte), 0, 8) for byte in HEADER.header(length)]


def write(machine):
    def check(length, room, header):
        """With no header nothing is written."""
        memory = [Memory(out, some("old", len(header)), header)] if header else []
        check_call(machine, "bloom_header_write", Call, [length, out, room], memory, number(len(header)))

    for size in SIZES:
        header = header_of(length_of(size))
        check(length_of(size), extend(unknown("room", 60, len(header))), header)
        for room in range(len(header)):
            check(length_of(size), number(room), [])
    for length in [*lengths_of_none(machine), TOO_LONG]:
        check(length, extend(unknown("room", 60)), [])


# ---- read: an input begins with the header of a length, or one of these things is wrong: how much there is, the first byte,
# the number, a byte after it

def others(byte):
    """All that differ from a byte, by the lowest bit that does."""
    for i in range(8):
        yield join(cut(byte, 0, i), complement(cut(byte, i, 1)), unknown("rest", 7 - i))


def digits(size, top, ends, fits):
    """All numbers of so many bytes whose highest digit that is not 0 is this one; -1 is none. The last byte may not end it. Of
    the fifth digit four bits fit into 32 bits."""
    values = [unknown(("digit", i), 7, int(i == top)) if i <= top else number(0, 7) for i in range(size)]
    if top == 4:
        values[4] = join(unknown(("digit", 4), 4, int(fits)), number(0, 3) if fits else unknown("above 32 bits", 3, 1))
    return [join(value, number(not ends or i < size - 1, 1)) for i, value in enumerate(values)]


def numbers(size, tops, ends=True):
    return (digits(size, top, ends, fits) for top in tops for fits in (True, False)[: 1 + (top == 4)])


def wrong_numbers():
    """With a last byte that is 0, or that does not end it; no multiple of 64; or above 32 bits."""
    for size in SIZES:
        yield from numbers(size, range(-1, size - 1))
        for i in range(6):
            for first, *rest in numbers(size, [size - 1]):
                yield [join(number(1 << i, i + 1), unknown("rest", 6 - i), cut(first, 7, 1)), *rest]
    yield digits(5, 4, True, False)
    yield from numbers(5, range(-1, 5), ends=False)


def read(machine):
    def check(data, length, size=None):
        """Some bytes, of which an input begins with so many, and the length that must be found."""
        size = number(size) if size is not None else add(number(len(data)), extend(unknown("more", 60)))
        old, result = unknown("old length", 64), number(0 if length is None else len(data))
        memory = [Memory(input, data), Memory(out, [old], [old if length is None else length])]
        check_call(machine, "bloom_header_read", Call, [input, size, out], memory, result)

    first, after = number(0x15, 8), some("after", 13)
    endless = numbers(5, range(-1, 5), ends=False)
    for bytes in itertools.chain(endless, *(numbers(size, range(-1, size)) for size in SIZES)):
        data = [*some("first", 1), *bytes, *after]
        for n in range(len(data)):
            check(data[:n], None, n)
        for other in others(first):
            check([other, *bytes, *after], None)
    for bytes in wrong_numbers():
        check([first, *bytes, *after], None)
    for size in SIZES:
        header = header_of(length_of(size))
        check(header, length_of(size))
        for n in range(1 + size, len(header)):
            for other in others(header[n]):
                check([*header[:n], other, *after[: len(header) - n - 1]], None)


def checks(machine):
    yield "bloom_header_write", partial(write, machine)
    yield "bloom_header_read", partial(read, machine)
