"""Columns of any number of elements: what each element of the result is; and columns of numbers."""
from functools import partial

from calls import COUNT, OK, XXH64, Call, any_length, arguments_of, check_call, seed, values
from definitions import as_value
from loops import Subject, prove_each_rest
from machine import Array, contents
from values import Stop, add, extend, mul, number, number_in, unknown


def target_and_source(run, is_first, target_length, source_length):
    """An array that a call writes, and one that it reads: the target is before the source in memory, or behind it."""
    names, lengths = ("target", "source"), (target_length, source_length)
    one, other = (0, 1) if is_first else (1, 0)
    first = run.give(Array(names[one], values, lengths[one], is_first))
    behind = add(add(first.at, first.length), extend(unknown("gap", 61)))
    second = run.give(Array(names[other], behind, lengths[other], not is_first))
    run.target, source = (first, second) if is_first else (second, first)
    return run.target.at, source.at


class Elements(Subject):
    """A result of `size` bytes for each of per * count + rest elements, written to the call's target in their order."""

    def __init__(self, machine, rest, per, **others):
        super().__init__(machine=machine, rest=rest, per=per, **others)

    def number_of(self, count):
        return add(mul(extend(count), number(self.per)), self.rest)

    def elements_written(self, run):
        n, rest = divmod(len(run.target.written), self.size)
        if rest:
            raise Stop("the loop begins within an element")
        return n

    def index(self, turns, done):
        return add(mul(extend(turns), number(self.per)), number(done))

    def assume(self, head, done, way):
        head.run.target.begin_at(mul(self.index(head.turns, done), number(self.size)))

    def must_have_written(self, run, first, n):
        run.target.must_have_written([self.element(run, add(first, number(i))) for i in range(n)])

    def entered(self, run, done):
        self.must_have_written(run, number(0), done)

    def turned(self, head, done):
        self.must_have_written(head.run, self.index(head.turns, done), self.per)

    def end(self, loop):
        run, _, _, turns = loop.at_end()
        run.go()
        run.must_return(OK)
        self.must_have_written(run, self.index(turns, loop.done), loop.last * self.per + number_in(self.rest) - loop.done)

    def few(self):
        """A call of so few elements that they are known one by one."""
        run = self.start(number(0))
        run.go()
        run.must_return(OK)
        self.must_have_written(run, number(0), number_in(self.rest))


class Numbers(Elements):
    """The hash of each number, of which there may be more. The results are in memory before the numbers, or behind."""

    size = 8

    def __init__(self, machine, is_first, rest, per):
        super().__init__(machine, rest, per, is_first=is_first)

    def start(self, count):
        run, n = self.machine(), self.number_of(count)
        all_numbers = add(n, extend(unknown("more", 55)))
        to, source = target_and_source(run, self.is_first, mul(n, number(8)), mul(all_numbers, number(8)))
        run.begin("xxh64_each_u64", [source, all_numbers, seed, to, n])
        return run

    def element(self, run, index):
        return as_value(XXH64.xxh64(seed, contents("source", mul(index, number(8)), 8)))


def too_few_numbers(machine, function):
    """Fewer numbers than places: nothing is read or written."""
    n = extend(unknown("n", 57))
    places = add(add(n, number(1)), extend(unknown("more", 57)))
    arguments = arguments_of(function, length=any_length, value_count=n, hash_count=n, count=places)
    check_call(machine, function, Call, arguments, [], COUNT)


def checks(machine):
    for is_first in (True, False):
        yield "xxh64_each_u64", partial(prove_each_rest, partial(Numbers, machine, is_first))
    yield "xxh64_each_u64", partial(too_few_numbers, machine, "xxh64_each_u64")
