"""Bloom filters of any length: merges, folds, keys, and columns of numbers and of texts."""
import itertools
from functools import partial

import calls
import loops
from calls import (LENGTH, OK, Call, any_length, arguments_of, bits, check_call, fault, input, of, old_fault, out, some,
                   values)
from columns import Elements, target_and_source, too_few_numbers
from definitions import FILTER, as_value
from hashes import OneCall
from keys import MOST, ColumnCall, prove_offsets
from loops import prove_each_rest
from machine import Array, contents, place_of
from values import (Stop, add, assume_at_most, bitwise, complement, cut, extend, is_zero, join, mul, must_equal,
                    number, number_in, power_of_two, shift_right, sub, unknown, width_of)


def union(*places):
    """32 bytes of each of two: an array's name and an offset."""
    return join(*(bitwise("or", *pair) for pair in zip(*(contents(*place, 32) for place in places))))


class Blocks(Elements):
    """A filter has fewer than 2^32 blocks."""

    size = 32

    def some(self, what, least=0):
        return extend(unknown((what, self.name), 32, least))

    def few(self):
        if number_in(self.rest):
            super().few()

    def length(self, count, size):
        """So many bytes for each element: a filter's length."""
        n = mul(self.number_of(count), number(size))
        assume_at_most(n, number((1 << 37) - 32))
        return n


class Merge(Blocks):
    """Each block becomes its union with that of another filter, which is in memory before it, or behind."""

    def __init__(self, machine, is_first, rest, per):
        super().__init__(machine, rest, per, is_first=is_first)

    def start(self, count):
        run, n = self.machine(), self.length(count, 32)
        to, source = target_and_source(run, self.is_first, n, n)
        run.begin("bloom_merge", [to, n, source, n])
        return run

    def element(self, run, index):
        offset = mul(index, number(32))
        return union(("target", offset), ("source", offset))


class Fold(Blocks):
    """Block k becomes the union of blocks 2 * k and 2 * k + 1. The second half is unchanged."""

    def start(self, count):
        run, n = self.machine(), self.length(count, 64)
        run.target = run.give(Array("bits", bits, n, True))
        run.begin("bloom_fold", [bits, n])
        return run

    def element(self, run, index):
        offset = mul(index, number(64))
        return union(("bits", offset), ("bits", add(offset, number(32))))


def mask_of(hash):
    """IsMaskBit: a block with the eight bits of a hash."""
    places = [as_value(FILTER.mask_bit(hash, w)) for w in range(8)]
    assert all(number_in(shift_right(place, 5)) == 0 for place in places)
    return join(*(power_of_two(cut(place, 0, 5), 32) for place in places))


def block_of(hash):
    """The index of its block, in a filter of any length."""
    return as_value(FILTER.block_of(shift_right(any_length, 5), hash))


class FilterBlocks:
    """A filter, which is an array as machine.Array is one. A call reaches the blocks of its keys. An insert is done with one
    before it reaches the next: so it does not matter which of them are the same block. `hash` gives that of the key with an
    index."""

    def __init__(self, hash, is_writable):
        self.hash, self.is_writable, self.at, self.length = hash, is_writable, bits, any_length
        self.begin(number(0))

    def begin(self, first):
        """The next key has this index."""
        self.first, self.reached, self.blocks = first, 0, []

    def block(self, i):
        """Of key first + i: its place, what is in it, the key's bits, and what is written."""
        for i in range(len(self.blocks), i + 1):
            index = add(self.first, number(i))
            hash, before = self.hash(index), join(*(unknown(("block", place_of(index), w), 32) for w in range(8)))
            place = place_of(add(bits, join(number(0, 5), cut(block_of(hash), 0, 59))))
            self.blocks.append((place, before, mask_of(hash), {}))
        return self.blocks[i]

    def contains(self, index):
        _, before, mask, _ = self.block(number_in(sub(index, self.first)))
        return extend(is_zero(bitwise("and", complement(before), mask)), 8)

    def must_be_inserted(self, i):
        _, before, mask, written = self.block(i)
        after = bitwise("or", before, mask)
        for k in range(32):
            value, bit = written.get(k, (before, 8 * k))
            must_equal(cut(value, bit, 8), cut(after, 8 * k, 8), "what is inserted")

    def must_have_reached(self, n):
        if self.is_writable and self.reached != n:
            raise Stop("not as many keys are inserted as must be")
        for i in range(n if self.is_writable else 0):
            self.must_be_inserted(i)

    def offset_of(self, address, size):
        if not self.blocks and self.hash(self.first) is None:
            return None  # the key is not known yet
        first, last = (self.reached - 1, self.reached) if self.is_writable else (0, self.reached + 3)
        base, at = place_of(address)
        for i in range(max(first, 0), last + 1):  # there is no block of a key behind the last one
            own, start = self.block(i)[0]
            if own == base and 0 <= at - start <= 32 - size:
                return i, at - start

    def reach(self, i):
        if self.is_writable and i == self.reached and i:
            self.must_be_inserted(i - 1)
        self.reached = max(self.reached, i + 1)

    def load(self, place, size):
        (i, n), (_, before, _, written) = place, self.block(place[0])
        self.reach(i)
        return [written.get(n + k, (before, 8 * (n + k))) for k in range(size)]

    def store(self, place, value):
        self.reach(place[0])
        self.block(place[0])[3].update({place[1] + k: (value, 8 * k) for k in range(width_of(value) // 8)})


class Values(Elements):
    """Inserts each number, or each hash, or looks it up. `kind` is the end of the call's name: u32, u64 or hash."""

    def __init__(self, machine, is_insert, kind, rest, per):
        super().__init__(machine, rest, per, is_insert=is_insert, kind=kind, width=32 if kind == "u32" else 64, size=1)

    def start(self, count):
        run, n, function = self.machine(), self.number_of(count), f"{bloom_call(self.is_insert)}_each_{self.kind}"
        value_count = n if self.is_insert else add(n, extend(unknown("more", 50)))
        run.give(Array("values", values, mul(value_count, number(self.width // 8))))
        run.target = run.give(Array("old", out, n, not self.is_insert))
        run.filter = run.give(FilterBlocks(self.hash, self.is_insert))
        run.begin(function, arguments_of(function, bits=bits, length=any_length, values=values, hashes=values, found=out,
                                         value_count=value_count, hash_count=value_count, count=n))
        return run

    def hash(self, index):
        data = contents("values", mul(index, number(self.width // 8)), self.width // 8)
        return join(*data) if self.kind == "hash" else FILTER.hash_of(data)

    def elements_written(self, run):
        return run.filter.reached if self.is_insert else super().elements_written(run)

    def assume(self, head, done, way):
        super().assume(head, done, way)
        head.run.filter.begin(self.index(head.turns, done))

    def must_have_written(self, run, first, n):
        run.filter.must_have_reached(n)
        super().must_have_written(run, first, n * (not self.is_insert))

    def element(self, run, index):
        return run.filter.contains(index)


class SingleKey(OneCall):
    """A key of any length that is inserted or looked up, in a filter of any length. With a wrong length, which no filter has,
    the key may be read, and the filter not."""

    def __init__(self, machine, is_insert, rest, per, wrong_length=None, **others):
        super().__init__(machine, "xxh64", rest, per, of("xxh64", "start")(0), is_insert=is_insert, wrong_length=wrong_length,
                         **others)

    def begin_call(self, run, n):
        if not self.wrong_length:
            run.filter = run.give(FilterBlocks(lambda index: run.answer, self.is_insert))
        run.begin(bloom_call(self.is_insert), [bits, self.wrong_length or any_length, input, n])
        return run

    def go_to_end(self, run, after):
        (run.answer,) = calls.answer_of("xxh64", after)
        run.go()
        self.must_leave(run)

    def must_leave(self, run):
        if self.wrong_length:
            run.must_return(wrong_result(self.is_insert))
        else:
            must_have_used(run, self.is_insert)


def must_have_used(run, is_insert):
    run.filter.must_have_reached(1)
    run.must_return(OK if is_insert else extend(run.filter.contains(number(0)), 32))


def bloom_call(is_insert):
    return "bloom_insert" if is_insert else "bloom_contains"


def wrong_result(is_insert):
    return LENGTH if is_insert else number(1, 32)


any_hash = unknown("hash", 64)


def one_key(machine, is_insert, function, arguments, hash):
    """A key with this hash, without a loop."""
    def run():
        run = machine()
        run.filter = run.give(FilterBlocks(lambda index: hash, is_insert))
        run.begin(function, [bits, any_length, *arguments])
        run.go()
        must_have_used(run, is_insert)

    loops.on_each_path(run)


def one_hash(machine, is_insert):
    one_key(machine, is_insert, f"{bloom_call(is_insert)}_hash", [any_hash], any_hash)


# ---- lengths that no filter has: none, too many blocks, and no multiple of 32. Then nothing is read or written.

def lengths_of_none(machine, name="blocks", log2=5):
    """Each block has 2^5 bytes, and each pair of blocks, of which a fold takes its filter to be, 2^6."""
    too_many = [join(number(0, log2), unknown(f"too many {name}", 64 - log2, 1 << 37 - log2))] * (machine.size == 64)
    rests = (join(number(n, log2), unknown(f"any {name}", 64 - log2)) for n in range(1, 1 << log2))
    return [number(0), *too_many, *rests]


def wrong_lengths(machine, function, result, *kind):
    """The other arguments are anything."""
    for length in lengths_of_none(machine, *kind):
        check_call(machine, function, Call, arguments_of(function, length=length), [], result)


def merges_of_two_lengths(machine):
    """Of a wrong one with itself, with another wrong one, and with a right one; and of two right ones that differ."""
    wrong = lengths_of_none(machine)
    pairs = [(length, length) for length in wrong]
    pairs += itertools.product(wrong, [*lengths_of_none(machine, "other blocks"), any_length])
    more = add(any_length, join(number(0, 5), unknown("more", 58, 1), number(0, 1)))
    odd = [join(number(n, 5), unknown("any blocks", 58), number(0, 1)) for n in range(1, 32)]
    for other in [number(0), more, *odd]:
        pairs += [(any_length, other), (other, any_length)]
    for length, other in pairs:
        check_call(machine, "bloom_merge", Call, [bits, length, values, other], [], LENGTH)


# ---- columns of texts. Such a call hashes 32 keys at a time to its stack, in a loop over batches, one over keys and one over
# pieces. The induction follows that over batches if all keys have one length, and that over pieces if there is one key.

# The lengths of keys: each to 40, so that there are two batches; some that are longer; and no key.
KEY_LENGTHS = [k * 37 % 41 for k in range(41)], [100, 0, 3, 70], []


class TextsCall(ColumnCall):
    """To insert a column takes as many keys as its offsets bound."""

    def __init__(self, machine, is_insert, width):
        missing = {"missing": []} if is_insert else {}
        super().__init__(machine=machine, function=f"{bloom_call(is_insert)}_each{width}", width=width, size=1 - is_insert,
                         is_insert=is_insert, **missing)

    def begin(self, count, offset_count):
        return super().begin(count, add(count, number(1)) if self.is_insert else offset_count)

    def arguments(self, length, count, offset_count):
        return arguments_of(self.function, bits=bits, length=any_length, keys=input, keys_length=length, offsets=values,
                            offset_count=offset_count, found=out, count=count, wrong_offset=fault)


class KeyOfColumn(SingleKey):
    """A column of one key, of any length."""

    def __init__(self, call, rest, per):
        super().__init__(call.machine, call.is_insert, rest, per, call=call, length_bits=MOST[call.width],
                         first=extend(unknown("start", MOST[call.width])))

    def data(self, offset, size):
        return contents("input", add(self.first, offset), size)

    def start(self, count):
        run, end = self.call.begin(number(1), number(2)), add(self.first, self.length(count))
        assume_at_most(end, self.call.length)
        self.call.set_offsets(run, number(0), self.first, end)
        run.filter = run.give(FilterBlocks(lambda index: run.answer, self.is_insert))
        return run

    def must_leave(self, run):
        self.call.must_succeed(run)
        run.filter.must_have_reached(1)
        run.target.must_have_written([run.filter.contains(number(0))] * (not self.is_insert))


BATCH = 32  # how many keys such a call hashes at a time


class Batches(Values):
    """Columns of any number of keys, each of so many bytes: a turn is a batch, and some keys are left. So few keys that their
    offsets need no loop are not among them: that is one at most, which `KeyOfColumn` has."""

    tries = 2, 4

    def __init__(self, offsets, key_size):
        call = offsets.subject.call
        if offsets.least > 2:
            raise Stop("the loop over offsets is not reached with two keys")
        super().__init__(call.machine, call.is_insert, "", number(0), BATCH)
        vars(self).update(offsets=offsets, call=call, key_size=key_size, element_bytes=key_size, length_bits=MOST[call.width],
                          first=extend(unknown("start", MOST[call.width])),
                          left=add(extend(unknown("left", 5)), number(offsets.least)))

    def number_of(self, count):
        return add(mul(extend(count), number(BATCH)), self.left)

    def offset(self, index):
        return add(self.first, mul(index, number(self.key_size)))

    def hash(self, index):
        return FILTER.hash_of(contents("input", self.offset(index), self.key_size))

    def set_offsets(self, run, first, batches):
        offsets = (self.offset(add(first, number(i))) for i in range(batches * BATCH + self.offsets.least))
        self.call.set_offsets(run, first, *offsets)

    def start(self, count):
        n = self.number_of(count)
        run = self.offsets.subject.after(self.offsets, n)
        run.filter = run.give(FilterBlocks(self.hash, self.is_insert))
        assume_at_most(self.offset(n), self.call.length)
        return run

    def suggestion(self, count):
        run = self.start(count)
        self.set_offsets(run, number(0), 8)
        return run

    def assume(self, head, done, way):
        super().assume(head, done, way)
        self.set_offsets(head.run, self.index(head.turns, done), 1)

    def finish(self, loop):
        for n in range(self.offsets.least, self.offsets.least + BATCH):
            loops.on_each_path(partial(self.with_other(left=number(n)).end, loop, n))

    def end(self, loop, n):
        run, _, _, turns = loop.with_other(subject=self).at_end()
        run.go()
        self.call.must_succeed(run)
        self.must_have_written(run, self.index(turns, loop.done), n - loop.done)


def prove_texts(call):
    """Wrong offsets; and right ones, of keys that are all as long."""
    subject = Batches(prove_offsets(call), 5)
    subject.finish(loops.Loop(subject, 0, 0))


def column(call, lengths):
    offsets = [*itertools.accumulate(lengths, initial=3)]
    data, n = some("input", offsets[-1]), len(lengths)
    keys, old = [data[start:end] for start, end in zip(offsets, offsets[1:])], some("old", n)

    def run():
        run = call.machine()
        filter = run.give(FilterBlocks(lambda index: FILTER.hash_of(keys[index[0][1]]), call.is_insert))
        run.map(input, data)
        run.map(values, [number(offset, call.width) for offset in offsets])
        run.map(fault, [cut(old_fault, 0, run.size)], writable=True)
        run.map(out, old, writable=True)
        run.begin(call.function, call.arguments(*map(number, (len(data), n, len(offsets)))))
        run.go()
        call.must_succeed(run)
        filter.must_have_reached(n)
        run.must_have(out, old if call.is_insert else [filter.contains(number(i)) for i in range(n)])

    loops.on_each_path(run)


def checks(machine):
    yield "bloom_check", partial(check_call, machine, "bloom_check", Call, [any_length], [], OK)
    offset = partial(Call, [any_length, any_hash], [], mul(block_of(any_hash), number(32)))
    yield "bloom_block_offset", partial(check_call, machine, "bloom_block_offset", offset)
    for is_first in (True, False):
        yield "bloom_merge", partial(prove_each_rest, partial(Merge, machine, is_first))
    yield "bloom_merge", partial(merges_of_two_lengths, machine)
    yield "bloom_fold", partial(prove_each_rest, partial(Fold, machine))
    yield "bloom_fold", partial(wrong_lengths, machine, "bloom_fold", LENGTH, "pairs of blocks", 6)
    wrong_results = {"bloom_check": LENGTH, "bloom_block_offset": number(-1, machine.size), "bloom_fold_to": number(0)}
    for is_insert in (True, False):
        name = bloom_call(is_insert)
        yield name, partial(prove_each_rest, partial(SingleKey, machine, is_insert), 32)
        yield name, partial(one_key, machine, is_insert, name, [number(0), number(0)], FILTER.hash_of([]))
        yield name, partial(prove_each_rest, partial(SingleKey, machine, is_insert, wrong_length=number(33)), 32)
        for length, n in itertools.product(lengths_of_none(machine), (0, 7, 40)):
            yield name, partial(loops.on_each_path, SingleKey(machine, is_insert, number(n), 1, length).few)
        yield f"{name}_hash", partial(one_hash, machine, is_insert)
        wrong_results[f"{name}_hash"] = wrong_result(is_insert)
        for kind in ("hash", "u32", "u64"):
            function = f"{name}_each_{kind}"
            yield function, partial(prove_each_rest, partial(Values, machine, is_insert, kind))
            if not is_insert:
                yield function, partial(too_few_numbers, machine, function)
            wrong_results[function] = LENGTH
    for function, result in wrong_results.items():
        yield function, partial(wrong_lengths, machine, function, result)
    for is_insert, width in itertools.product((True, False), MOST):
        call = TextsCall(machine, is_insert, width)
        no_offsets = call.arguments(number(0), number(0), number(0))
        yield call.function, partial(prove_texts, call)
        yield call.function, partial(prove_each_rest, partial(KeyOfColumn, call), 32)
        yield call.function, partial(wrong_lengths, machine, call.function, LENGTH)
        yield call.function, partial(check_call, machine, call.function, Call, no_offsets, [], OK)
        for lengths in KEY_LENGTHS:
            yield call.function, partial(column, call, lengths)
