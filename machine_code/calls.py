"""What the calls of the library have in common: the unknowns that they are given, and what a call must leave."""
import collections
import re

import loops
from definitions import MURMUR, XXH64, as_value
from library import HEADER, PARAMETERS
from values import extend, join, number, unknown

# The arguments of a call have 64 bits each. A call that returns nothing has the result None.
Call = collections.namedtuple("Call", "arguments memory result", defaults=[None])
# Values at an address before a call and after it. None is any value. Where there is none after it, it may not write.
Memory = collections.namedtuple("Memory", "at before after", defaults=[()])

OK, LENGTH, OFFSET, COUNT, SEED = (number(n, 32) for n in (0, -1, -2, -3, -5))
NAMES = {"xxh64": "xxh64", "murmur": "murmur3_x64_128"}
DEFINITIONS = {"xxh64": XXH64, "murmur": MURMUR}
PIECE = {"xxh64": 32, "murmur": 16}
WORDS = {"xxh64": ["seed", "v1", "v2", "v3", "v4"], "murmur": ["h1", "h2"]}
VERSION = int(re.search(r"SKETCH_HASH_VERSION (\d+)", HEADER)[1])
seed = unknown("seed", 64)


def pointer(name):
    return extend(unknown(name, 62, 1))


bits, fault, input, out, state, values = map(pointer, "bits fault input out state values".split())
old_fault = unknown("old fault", 64)
any_length = extend(join(number(0, 5), unknown("blocks", 32, 1)))  # of a filter


def some(name, n, width=8):
    return [unknown((name, i), width) for i in range(n)]


def of(hash, name):
    return getattr(DEFINITIONS[hash], f"{hash}_{name}")


def any_state(hash, total):
    return {**{name: unknown(name, 64) for name in WORDS[hash]}, "total": total, "waiting": some("waiting", PIECE[hash])}


def any_total(hash, fill, least=0):
    size = PIECE[hash].bit_length() - 1
    return join(number(fill, size), unknown("pieces", 64 - size, least))


def saved(fields):
    """A state as it is in memory."""
    return [*(value for name, value in fields.items() if name != "waiting"), *fields["waiting"]]


def folded_words(hash, state):
    """The words of a state of the definitions into which pieces are folded."""
    return [as_value(word) for word in (state["folded"][1].values() if hash == "xxh64" else state["folded"])]


def fields(hash, state):
    """A state of the definitions as it is in memory. What is behind the waiting bytes may be anything."""
    own_seed, waiting = [as_value(state["folded"][0])] if hash == "xxh64" else [], state["waiting"]
    rest = [None] * (PIECE[hash] - len(waiting))
    return [*own_seed, *folded_words(hash, state), as_value(state["total"]), *waiting, *rest]


def answer_of(hash, state):
    return [as_value(word) for word in ([of(hash, "answer")(state)] if hash == "xxh64" else of(hash, "answer")(state))]


def arguments_of(function, **known):
    """In the header's order. Those that are not known are anything."""
    return [known.get(name, unknown(("argument", name), 64)) for name in PARAMETERS[function]]


def check_call(machine, function, build, *arguments):
    """Checks a call of a known size on each path. `build` gives it anew, since what a path assumes may change it."""
    def run():
        call = build(*arguments)
        run = machine()
        for memory in call.memory:
            run.map(memory.at, memory.before, writable=bool(memory.after))
        run.begin(function, call.arguments)
        run.go()
        run.must_return(call.result)
        for memory in call.memory:
            run.must_have(memory.at, memory.after)

    loops.on_each_path(run)
