"""Columns of any number of keys, each of any length: their offsets, which are checked first, and then the hash of each key."""
from functools import partial

import calls
import loops
from calls import OFFSET, OK, PIECE, arguments_of, fault, input, of, old_fault, out, seed, values
from columns import Elements
from hashes import Pieces
from loops import Fixed, Subject
from machine import Array, contents
from values import Stop, add, assume_at_most, cut, extend, join, mul, number, number_in, sub, unknown

MOST = {32: 31, 64: 60}  # how many bits the length of the input has, by the width of an offset


class ColumnCall(Fixed):
    """A call with a column: so many places for results, each of `size` bytes, and so many offsets."""

    length = property(lambda self: extend(unknown("length", MOST[self.width])))
    missing = number(1), extend(unknown("missing", 58, 2))  # how many offsets may be missing

    def begin(self, count, offset_count):
        run = self.machine()
        run.give(Array("input", input, self.length))
        run.give(Array("offsets", values, mul(offset_count, number(self.width // 8))))
        run.target = run.give(Array("old", out, mul(count, number(self.size)), True))
        run.map(fault, [cut(old_fault, 0, run.size)], writable=True)
        run.begin(self.function, self.arguments(self.length, count, offset_count))
        return run

    def arguments(self, length, count, offset_count):
        return arguments_of(self.function, input=input, length=length, offsets=values, offset_count=offset_count, seed=seed,
                            out=out, count=count, wrong_offset=fault)

    def few(self):
        """No keys; or some, and no offset."""
        zero, some = number(0), extend(unknown("some", 58, 1))
        for count, offset_count, is_right in (zero, zero, True), (some, zero, False), (zero, some, True), (zero, some, False):
            def run():
                run = self.begin(count, offset_count)
                if count == zero != offset_count and is_right:
                    assume_at_most(self.offset(zero), self.length)
                elif count == zero != offset_count:
                    assume_at_most(self.length, self.offset(zero), 1)
                run.go()
                (self.must_succeed(run) if is_right else self.must_fail(run, zero))

            loops.on_each_path(run)

    def place(self, index):
        return mul(index, number(self.width // 8))

    def offset(self, index):
        return extend(join(*contents("offsets", self.place(index), self.width // 8)))

    def set_offsets(self, run, index, *offsets):
        run.map(add(values, self.place(index)), [cut(offset, 0, self.width) for offset in offsets])

    def must_fail(self, run, index):
        """Nothing else is written."""
        run.must_return(OFFSET)
        run.must_have(fault, [cut(index, 0, run.size)])
        run.target.must_have_written([])

    def must_succeed(self, run):
        run.must_return(OK)
        run.must_have(fault, [cut(old_fault, 0, run.size)])


class Offsets(Subject):
    """What a loop over offsets needs: what is supposed of them, from the first one on."""

    optional = 1

    def supposing(self, run, ways, first=number(0), word=None):
        """Of the offsets from the first one on, of which the loop may have one. Returns the machine."""
        for i, way in enumerate(ways):
            word = self.suppose(way, add(first, number(i)), word)
        return run

    def reach(self, count, done):
        return self.supposing(self.start(count), ["right"] * done)

    def suggestion(self, count):
        return self.reach(count, 12)

    def assume(self, head, done, way):
        if way:
            self.suppose(way, add(head.turns, number(done)), head.words[0])

    def at_end(self, loop, turns, ways):
        """At the head with the last turns to do, and what is supposed of the offsets that are left."""
        run, words, _, _ = loop.at(turns, number(loop.last))
        return self.supposing(run, ways, add(turns, number(loop.done)), words[0])


class Search(Offsets):
    """The loop that looks for the first wrong offset: IsFirstWrongOffset. `start` begins a call in which there is one, and
    `last_ways` are how the last offset can be wrong: "missing", "below" the one before it, "above" the length."""

    name = "search"

    def suppose(self, way, index, before):
        """Assumes of an offset that it is right, or below the one before, or above the length. Returns it."""
        offset, before = self.call.offset(index), before or number(0)
        if way == "below":
            assume_at_most(offset, before, 1)
        elif way == "above":
            assume_at_most(self.call.length, offset, 1)
        else:
            assume_at_most(before, offset)
            assume_at_most(offset, self.call.length)
        return offset

    def words_after(self, n):
        return [self.call.offset(number(n - 1)) if n else number(0)]

    def any_words(self):
        return [extend(unknown("offset before", MOST[self.call.width]))]

    def ways(self, begin):
        return "right", "below", "above"

    def assume(self, head, done, way):
        assume_at_most(head.words[0], self.call.length)
        super().assume(head, done, way)

    def step(self, words, turns, done, way):
        if way != "right":
            raise Stop("a wrong offset does not end the call")
        return [self.call.offset(add(turns, number(done)))]

    def leave(self, head, done, way):
        if way == "right":
            raise Stop("a right offset ends the call")
        self.call.must_fail(head.run, add(head.turns, number(done)))

    def must_notice(self, begin, first, count, last_ways=()):
        """A wrong one among so many offsets from the first one on, or the one behind them: `begin` gives a machine for what is
        supposed of them."""
        def fails(ways, at):
            run = begin(ways)
            run.go()
            self.call.must_fail(run, add(first, number(at)))

        for i in range(count):
            for way in ("below", "above") if i or first != number(0) else ("above",):
                loops.on_each_path(partial(fails, ["right"] * i + [way], i))
        for way in last_ways:
            loops.on_each_path(partial(fails, ["right"] * count + [way] * (way != "missing"), count))

    def finish(self, loop):
        """Before the loop, and with its last turns to do."""
        total, turns = self.some("total", loop.least), loop.turns_at_end()
        self.must_notice(lambda ways: self.supposing(self.start(total), ways), number(0), loop.done)
        first = add(turns, number(loop.done))
        self.must_notice(partial(self.at_end, loop, turns), first, loop.last - loop.done, self.last_ways)


class Ascent(Offsets):
    """The loop that finds whether an offset is below the one before it. None is missing, and the last is not above the length.
    If none is, all are right; else the first wrong one is looked for."""

    name = "ascent"

    def elements_written(self, run):
        """None; but as many offsets are compared before the loop."""
        return self.before

    def begin(self, count):
        return self.call.begin(count, add(add(count, number(1)), extend(unknown("more", 59))))

    def start(self, count):
        run = self.begin(count)
        assume_at_most(self.call.offset(count), self.call.length)
        return run

    def suppose(self, way, index, word):
        """Assumes of the offset behind this one, which the word is too, that it is not below it, or that it is."""
        after = self.call.offset(add(index, number(1)))
        for offset in [self.call.offset(index), word][: 1 + bool(word)]:
            if way == "below":
                assume_at_most(after, offset, 1)
            else:
                assume_at_most(offset, after)

    def words_after(self, n):
        return [self.call.offset(number(n))]

    def any_words(self):
        return [extend(unknown("this offset", self.call.width))]

    def ways(self, begin):
        return ["right"]

    def step(self, words, turns, done, way):
        return [self.call.offset(add(turns, number(done + 1)))]

    def finish(self, loop):
        """If one falls: before the loop, in any turn, or behind the last ones; and if the last one is above the length."""
        def above(count):
            run = self.begin(count)
            assume_at_most(self.call.length, self.call.offset(count), 1)
            return run

        def in_turn(count):
            turns = extend(unknown("turns before it falls", MOST[self.call.width]))
            assume_at_most(turns, count, loop.last + 1)
            return loop.at(turns, sub(count, turns), "below").run

        def late(n, count):
            return self.at_end(loop, sub(count, number(loop.last)), ["right"] * n + ["below"])

        early = [lambda count, n=n: self.supposing(self.start(count), ["right"] * n + ["below"]) for n in range(loop.done)]
        falls = [*early, in_turn, *(partial(late, n) for n in range(loop.last - loop.done))]
        searches = [loops.prove(lambda per: Search(call=self.call, start=above, last_ways=["above"]), [1])]
        searches += [loops.prove(lambda per: Search(call=self.call, start=start, last_ways=["below"]), [1], searches[0])
                     for start in falls]
        search = searches[0].subject
        for n in range(1, max(each.least for each in (loop, *searches))):  # too few for one of the loops
            search.must_notice(lambda ways: search.supposing(self.begin(number(n)), ways), number(0), n + 1)

    def after(self, loop, count):
        """A machine that goes on to the keys: all offsets are right. With few keys it does not come to this loop."""
        if (few := number_in(count)) is not None and few < loop.least:
            return self.supposing(self.start(count), ["right"] * few)
        return self.at_end(loop, sub(count, number(loop.last)), ["right"] * (loop.last - loop.done))


class Keys(Elements):
    """The loop over keys, behind that over offsets: a turn hashes one, of a few bytes, or of any number of pieces and a rest.
    Its ways are a rest, how many times `unit` bytes come before it, and the loop over these, if the key has one."""

    name, optional = "keys", 1

    def __init__(self, offsets, hash, per_key):
        call = offsets.subject.call
        super().__init__(call.machine, number(0), 1, call=call, offsets=offsets, hash=hash, size=call.size,
                         element_bytes=call.size, per_key=per_key, unit=per_key * PIECE[hash])

    def start(self, count):
        return self.offsets.subject.after(self.offsets, count)

    def suggestion(self, count):
        """Some keys of one byte."""
        run, (first,) = self.start(count), self.any_words()
        self.call.set_offsets(run, number(0), *(add(first, number(i)) for i in range(12)))
        assume_at_most(add(first, number(12)), self.call.length)
        return run

    def words_after(self, n):
        return [add(*self.any_words(), number(n))]

    def words_at_entry(self, done):
        return [self.call.offset(number(done))]

    def any_words(self):
        return [extend(unknown("start", MOST[self.call.width]))]

    def step(self, words, turns, done, way):
        return [add(words[0], self.size_of(*way))]

    def size_of(self, rest, count, inner=None):
        return add(mul(extend(count), number(self.unit)), number(rest))

    def assume(self, head, done, way):
        super().assume(head, done, way)
        index, end = self.index(head.turns, done), add(head.words[0], self.size_of(*way))
        assume_at_most(end, self.call.length)
        self.call.set_offsets(head.run, index, head.words[0], end)

    def ways(self, begin):
        """A rest and any number of turns, and what is shorter."""
        inner, fewest, count = None, 0, extend(unknown("pieces", MOST[self.call.width] - (self.unit - 1).bit_length()))
        for rest in range(self.unit):
            inner = loops.prove(lambda per: Key(self, begin, rest, per), [self.per_key], inner)
            fewest = max(fewest, inner.least)
            yield rest, count, inner
        yield from ((n, number(0), None) for n in range(fewest * self.unit))

    def travel(self, begin, way, *target):
        rest, _, inner = way
        if inner:
            run, words, _, turns = inner.at_end()
            head, after = run.heads[-2], inner.subject.after_all(inner, words, turns)
        else:
            head = begin(way)
            key = contents("input", head.words[0], rest)
            run, after = head.run, of(self.hash, "after")(of(self.hash, "start")(seed), key)
        run.answer = join(*calls.answer_of(self.hash, after))
        return head, run.go(*target)

    def element(self, run, index):
        return run.answer

    def finish(self, loop):
        least = self.offsets.least
        if least > 2 or (loop.least, loop.last, loop.done) != (least, 1, 0):
            raise Stop("the loops are not reached with one key")
        begins = [loop.at_end]
        if least == 2:  # one key comes to the head without the loop over offsets
            loops.on_each_path(lambda: loop.enter(number(1)))
            begins.append(partial(loop.at, number(0), number(1)))
        for begin in begins:
            for way in self.ways(begin):
                loops.on_each_path(lambda: self.end(loop, begin, way))

    def end(self, loop, begin, way):
        head, _ = self.travel(begin, way)
        self.call.must_succeed(head.run)
        self.must_have_written(head.run, self.index(head.turns, loop.done), 1)


def prove_offsets(call):
    """Any number of offsets, of which some can be missing. Returns the loop that the right ones pass."""
    for missing in call.missing:
        def start(count):
            return call.begin(add(count, sub(missing, number(1))), count)

        search = loops.prove(lambda per: Search(call=call, start=start, last_ways=["missing"]), [1])
        for n in range(1, search.least):
            search.subject.must_notice(lambda ways: search.subject.supposing(start(number(n)), ways), number(0), n, ["missing"])
    return loops.first_shown(partial(loops.prove, lambda per: Ascent(call=call, before=before), [1]) for before in (0, 1))


def column_of(machine, hash, width):
    size = 8 if hash == "xxh64" else 16
    return ColumnCall(machine=machine, function=f"{calls.NAMES[hash]}_each{width}", width=width, size=size)


def prove_columns(machine, hash, width):
    """Any number of keys, of any length."""
    call = column_of(machine, hash, width)
    offsets = prove_offsets(call)
    loops.prove(lambda per: Keys(offsets, hash, per), (1, 2))
    call.few()


class Key(Pieces):
    """The loop over the pieces of one key, within a turn of the loop over keys. `begin` gives the head of that."""

    def __init__(self, keys, begin, rest, per):
        super().__init__(keys.hash, of(keys.hash, "start")(seed), number(rest), per, keys=keys, begin_key=begin,
                         length_bits=MOST[keys.call.width])

    def start(self, count):
        return self.begin_key((number_in(self.rest), count)).run

    def finish(self, loop):
        """It goes on in the loop over keys."""

    def data(self, offset, size):
        return contents("input", add(*self.keys.any_words(), offset), size)


def checks(machine):
    for hash, name in calls.NAMES.items():
        for width in MOST:
            yield f"{name}_each{width}", partial(prove_columns, machine, hash, width)
