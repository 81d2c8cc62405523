"""What a rate decides, on some inputs: how often a filter is folded, and its size for a number of keys. A loop turns as often
as all bits say; sums have divisions, and comparisons of both arguments.
"""
import random
from functools import partial

from calls import Call, Memory, bits, check_call
from definitions import Definitions
from values import extend, join, number, unknown

RATE = Definitions("sketch_hash/specs/Words.antt", "sketch_bloom/specs/FoldRate.antt")
SIZE = Definitions("sketch_bloom/specs/Size.antt")

# ---- folds, of filters that are known: blocks, and how many of 256 random bytes are not 0

KNOWN = [(1, 256), (2, 100), (2, 256), (3, 256), (4, 40), (4, 256), (6, 200), (8, 30)]


def folds_of(filter):
    """The filter, folded once, twice and so on."""
    while True:
        yield filter
        if len(filter) % 64:
            return
        pairs = range(0, len(filter), 64)
        filter = [filter[pair + i] | filter[pair + 32 + i] for pair in pairs for i in range(32)]


def fold_to(machine, blocks, share):
    """With each rate at which one more fold is too many, and with those next to it. No two blocks are alike."""
    pick = random.Random(1000 * blocks + share)
    filter = [pick.randrange(256) if pick.randrange(256) < share else 0 for _ in range(32 * blocks)]
    folds = list(folds_of(filter))
    found = [RATE.found_by_blocks(fold, len(fold) // 32) for fold in folds]
    most = [(len(fold) << 35) // max(number, 1) for fold, number in zip(folds, found)]
    for one_in in {0, 1, 2, 2 ** 64 - 1, *(min(n, 2 ** 64 - 2) + more for n in most for more in (0, 1))}:
        count = 0
        while count + 1 < len(folds) and 0 < one_in and found[count + 1] * one_in <= len(folds[count + 1]) << 35:
            count += 1
        after = [number(byte, 8) for byte in folds[count]]
        memory = Memory(bits, [number(byte, 8) for byte in filter], after + [None] * (len(filter) - len(after)))
        check_call(machine, "bloom_fold_to", Call, [bits, number(len(filter)), number(one_in)], [memory], number(len(after)))


# ---- sizes

# Numbers of keys, and rates of one in so many.
PAIRS = [(0, 0), (0, 1), (2 ** 64 - 1, 1), (2 ** 64 - 1, 2), (0, 2 ** 64 - 1), (1, 2 ** 64 - 1), (128, 2), (129, 2)]
# The most keys for which some size is enough: one more needs the next one, or has none.
LAST = [(78, 2), (24, 100), (30, 1000), (63, 10 ** 6), (99587, 100), (101977207, 100), (3372454, 10 ** 9), (9, 2 ** 40)]


def keeps_rate(keys, log2_blocks, one_in):
    """As KeepsRate says."""
    if one_in < 2 or keys > 128 << log2_blocks:
        return one_in == 1
    unit = SIZE.weight(keys, log2_blocks, 383)["unit"]
    found, weights = (sum_to(keys, log2_blocks, 383) // unit for sum_to in (SIZE.covered_to, SIZE.all_to))
    return found <= weights * (2 ** 60 // one_in)


def size_of(keys, one_in):
    """As IsLeastSize says, or 0."""
    sizes = range(SIZE.max_log2_blocks + 1)
    return next((32 << log2_blocks for log2_blocks in sizes if keeps_rate(keys, log2_blocks, one_in)), 0)


def size(machine, keys, one_in):
    check_call(machine, "bloom_bytes_for", Call, [number(keys), number(one_in)], [], number(size_of(keys, one_in)))


# A filter that cannot be folded; and what any number of keys has, and more than the largest filter holds.
odd = extend(join(number(32, 6), unknown("pairs of blocks", 31)))
most_keys, any_keys, any_rate = 128 << SIZE.max_log2_blocks, unknown("keys", 64), unknown("rate", 64, 2)
too_many = unknown("too many keys", 64, most_keys + 1)
PLAIN = [("bloom_fold_to", [bits, odd, unknown("any rate", 64)], odd), ("bloom_bytes_for", [any_keys, number(0)], number(0)),
         ("bloom_bytes_for", [any_keys, number(1)], number(32)), ("bloom_bytes_for", [too_many, any_rate], number(0))]


def checks(machine):
    for function, arguments, result in PLAIN:
        yield function, partial(check_call, machine, function, Call, arguments, [], result)
    for kind in KNOWN:
        yield "bloom_fold_to", partial(fold_to, machine, *kind)
    for pair in PAIRS + LAST + [(keys + 1, one_in) for keys, one_in in LAST]:
        yield "bloom_bytes_for", partial(size, machine, *pair)
