"""The hashes: one call and updates of any length, and the calls that have no loop."""
from functools import partial

import calls
from calls import (PIECE, WORDS, Call, Memory, arguments_of, check_call, folded_words, input, of, out, saved, seed, some, state,
                   values)
from definitions import SEED_HASH, XXH64, as_value
from loops import Subject, prove_each_rest
from machine import Array, contents
from values import add, cut, decided, extend, is_zero, join, mul, number, number_in, unknown


class Pieces(Subject):
    """Full pieces of an input that a hash reads in a loop: `begin` is the definitions' state before them, with `fill` waiting
    bytes, and `rest` bytes come after the last turn. `data` gives some bytes of the input."""

    def __init__(self, hash, begin, rest, per, fill=0, **others):
        piece = PIECE[hash]
        super().__init__(hash=hash, begin=begin, rest=rest, per=per, fill=fill, name=hash, piece=piece,
                         element_bytes=piece, unit=per * piece, lead=-fill % piece, **others)

    def length(self, count):
        return add(add(mul(extend(count), number(self.unit)), number(self.lead)), self.rest)

    def after(self, state, offset, size):
        return of(self.hash, "after")(state, self.data(offset, size))

    def words_after(self, n):
        size = n * self.piece - self.fill
        return None if size < 0 else folded_words(self.hash, self.after(self.begin, number(0), size))

    def any_words(self):
        return [unknown(("folded", name), 64) for name in WORDS[self.hash] if name != "seed"]

    def consumed(self, turns, done):
        return add(mul(extend(turns), number(self.unit)), number(done * self.piece - self.fill))

    def at(self, words, turns, done):
        """The definitions' state with these words, when no bytes wait."""
        folded = (self.begin["folded"][0], dict(zip(WORDS["xxh64"][1:], words))) if self.hash == "xxh64" else tuple(words)
        total = add(as_value(self.begin["total"]), self.consumed(turns, done))
        return {"folded": folded, "total": total, "waiting": []}

    def step(self, words, turns, done, way):
        return folded_words(self.hash, self.after(self.at(words, turns, done), self.consumed(turns, done), self.unit))

    def after_all(self, loop, words, turns):
        """The definitions' state after all bytes, from that with the last turns to do."""
        left = loop.last * self.unit + self.lead + number_in(self.rest) - (loop.done * self.piece - self.fill)
        return self.after(self.at(words, turns, loop.done), self.consumed(turns, loop.done), left)


class OneCall(Pieces):
    def __init__(self, machine, hash, rest, per, begin=None, **others):
        super().__init__(hash, begin or of(hash, "start")(seed), rest, per, machine=machine, **others)

    def data(self, offset, size):
        return contents("input", offset, size)

    def start(self, count):
        run, n = self.machine(), self.length(count)
        run.give(Array("input", input, n))
        return self.begin_call(run, n)

    def begin_call(self, run, n):
        if self.hash == "murmur":
            run.map(out, some("old", 2, 64), writable=True)
        function = calls.NAMES[self.hash]
        run.begin(function, arguments_of(function, input=input, length=n, seed=seed, hash=out))
        return run

    def must_leave(self, run, after):
        answer = calls.answer_of(self.hash, after)
        if self.hash == "xxh64":
            run.must_return(*answer)
        else:
            run.must_have(out, answer)

    def end(self, loop):
        run, words, _, turns = loop.at_end()
        self.go_to_end(run, self.after_all(loop, words, turns))

    def go_to_end(self, run, after):
        run.go()
        self.must_leave(run, after)

    def few(self):
        """A call of so few bytes that they are known one by one."""
        run = self.start(number(0))
        self.go_to_end(run, self.after(self.begin, number(0), number_in(self.length(number(0)))))


class Update(OneCall):
    """An update of a state with so many waiting bytes, whatever the state."""

    def __init__(self, machine, hash, fill, rest, per):
        before = calls.any_state(hash, calls.any_total(hash, fill))
        super().__init__(machine, hash, rest, per, of(hash, "state_of")(before), fill=fill, before=before)

    def begin_call(self, run, n):
        run.map(state, saved(self.before), writable=True)
        run.begin(f"{calls.NAMES[self.hash]}_update", [state, input, n])
        return run

    def must_leave(self, run, after):
        run.must_have(state, calls.fields(self.hash, after))


# ---- calls without a loop

def number_call():
    data = some("number", 8)
    return Call([join(*data), seed], [], as_value(XXH64.xxh64(seed, data)))


def seed_hash_call():
    """With 0 it says that the seed cannot be used, and writes nothing."""
    old, hash = unknown("old", 16), cut(as_value(SEED_HASH.seed_hash(seed)), 0, 16)
    after, status = (old, calls.SEED) if decided(is_zero(hash), "whether a value is 0") else (hash, calls.OK)
    return Call([seed, out], [Memory(out, [old], [after])], status)


def bytes_call():
    words = some("hash", 2, 64)
    return Call([values, out], [Memory(values, words), Memory(out, some("old", 2, 64), words)])


def reset(hash):
    """The waiting bytes become zeros too, so that the state equals one that the header initializes."""
    other = unknown("other seed", 64)
    before, after = saved(calls.any_state(hash, unknown("total", 64))), calls.fields(hash, of(hash, "start")(other))
    return Call([state, other], [Memory(state, before, [value or number(0, 8) for value in after])])


def answering(hash, after, arguments, memory):
    """A call that gives the hash of a state: XXH64's as its result, and Murmur's at `out`."""
    answer = calls.answer_of(hash, after)
    if hash == "xxh64":
        return Call(arguments, memory, *answer)
    return Call([*arguments, out], [*memory, Memory(out, some("old", 2, 64), answer)])


def digest(hash, fill, least=None):
    """With no full piece before, if `least` is None; else with so many of them or more."""
    before = calls.any_state(hash, number(fill) if least is None else calls.any_total(hash, fill, least))
    return answering(hash, of(hash, "state_of")(before), [state], [Memory(state, saved(before))])


def null_call(hash):
    """No bytes at NULL."""
    return answering(hash, of(hash, "start")(seed), [number(0), number(0), seed], [])


def null_update(hash, fill):
    before = calls.any_state(hash, calls.any_total(hash, fill))
    return Call([state, number(0), number(0)], [Memory(state, saved(before), saved(before))])


def checks(machine):
    """Pairs of a function and what runs a check of it."""
    yield "hash_version", lambda: check_call(machine, "hash_version", Call, [], [], number(calls.VERSION, 32))
    yield "seed_hash", lambda: check_call(machine, "seed_hash", seed_hash_call)
    yield "xxh64_u64", lambda: check_call(machine, "xxh64_u64", number_call)
    yield "murmur3_x64_128_bytes", lambda: check_call(machine, "murmur3_x64_128_bytes", bytes_call)
    for hash, name in calls.NAMES.items():
        yield name, partial(prove_each_rest, partial(OneCall, machine, hash), PIECE[hash])
        yield name, partial(check_call, machine, name, null_call, hash)
        yield f"{name}_reset", partial(check_call, machine, f"{name}_reset", reset, hash)
        for fill in range(PIECE[hash]):
            make = partial(Update, machine, hash, fill)
            yield f"{name}_update", partial(prove_each_rest, make, PIECE[hash], -fill % PIECE[hash])
            yield f"{name}_update", partial(check_call, machine, f"{name}_update", null_update, hash, fill)
            for least in (None, 1) if hash == "xxh64" else (0,):
                yield f"{name}_digest", partial(check_call, machine, f"{name}_digest", digest, hash, fill, least)
