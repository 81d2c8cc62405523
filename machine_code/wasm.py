"""The instructions of WebAssembly with 32-bit addresses, as `module.py` decodes them.

A value of i32 is kept in 64 bits, of which the lowest 32 count: so sums and products are those of 64 bits. What reads the
other bits, such as a comparison or an address, takes `narrow` of it: the same number, from 0 to 2^32 - 1.
"""
import functools
import itertools
import re

from library import HEADER, declarations_of
from machine import CALLER, STACK, Machine, fill, move, on_numbers, shift_one
from module import COMPARISONS, NUMERIC
from values import (NUMBER, Stop, add, are_equal, assume_at_most, bitwise, collect, complement, cut, decided, exact, extend,
                    greatest, is_below, is_not_negative, is_zero, join, kinds, known, limits, linear, mul, number, number_in,
                    ranges, rotate_right, shift_right, sign_extend, signed, sub, total, unknown, width_of)

HALF = 1 << 32


def is_half(n, factors):
    """Whether a sum of integers is below 2^32."""
    return is_not_negative(HALF - 1 - n, {piece: -factor for piece, factor in factors.items()}, 3)


def assume_half(value):
    """A value of i32, an address, or the end of an array, which is below 2^32 by the caller's promise."""
    found = exact(*linear(value), True)
    if not found or found[2] >= HALF:
        raise Stop("a number that i32 does not hold")
    assume_at_most(value, number(HALF - 1))


def has_half(value):
    """Whether it has zeros above its lowest 32 bits."""
    a, n, width = value[-1]
    return a == NUMBER and n == 0 and width >= 32


def narrow(value):
    """The lowest 32 bits, extended: as a sum, if one is known that does not wrap."""
    if has_half(value):
        return value
    n, factors = linear(value)
    small = {piece: signed(factor, HALF) for piece, factor in factors.items() if factor % HALF}
    for piece in small:
        know_product(piece)
    for start in (signed(n, HALF) + more for more in (0, HALF, -HALF)):
        if is_not_negative(start, small) and is_half(start, small):
            return total(start, small)
    lowest = {}  # of each piece the bits that count
    for (a, low, width), factor in factors.items():
        if factor % HALF:
            collect(lowest, a, low, min(width, 32), factor)
    return extend(cut(total(n % HALF + lowest.pop(None, 0), lowest), 0, 32))


def know_product(piece):
    """What is above so many bits of a product is below one factor, if the other one has no more bits."""
    a, low, _ = piece
    kind, *factors = kinds[a]
    if kind == "sum" and kinds[a][1] == 0 and len(kinds[a][2]) == 1:
        ((own, factor),) = kinds[a][2]
        kind, factors = "product", [extend((own,)), number(factor)]
    for x, y in itertools.permutations(factors) if kind == "product" else ():
        if greatest(y) >> low == 0 and limits(*linear(x))[0] > 0:
            assume_at_most((piece,), x, 1)


def with_next_bits(value):
    """The same lowest 32 bits: of what was stored, those above count nothing."""
    a, low, width = value[-1]
    more = 0 if a == NUMBER else min(32, ranges[a][1].bit_length() - low - width)
    return extend(join(value[:-1], ((a, low, width + max(more, 0)),)))


# ---- numeric instructions, of values of 64 bits. Those of i32 that are not in ANY_BITS are given 32 bits, extended.

def divisor(n):
    if not n:
        raise Stop("a trap: a division by 0")
    return n


def signed_below(width, x, y):
    signs = [decided(cut(item, width - 1, 1), "a sign") for item in (x, y)]
    return is_below(x, y) if signs[0] == signs[1] else bool(signs[0])


def count_in(width, n):
    """By how many bits something is shifted."""
    return known(cut(n, 0, width.bit_length() - 1), "a shift")


def shl(width, x, n):
    """An unknown number shifts 1 alone."""
    n = cut(n, 0, width.bit_length() - 1)
    if number_in(n) is not None:
        return mul(x, number(1 << number_in(n)))
    if number_in(x) != 1:
        raise Stop("a shift that is not understood")
    return extend(shift_one(number(1, 32), extend(n, 32)))


def product(width, x, y):
    """With a number as the definitions have it, which is not negative."""
    return mul(x, number(number_in(y) % (1 << width)) if number_in(y) is not None else y)


def intersection(width, x, y):
    """Of a number below 2^32 a mask of 32 bits takes what it would with ones above."""
    n, whole = number_in(y), exact(*linear(x), True)
    if n is not None and HALF // 2 <= n < HALF and whole and is_half(*whole[:2]):
        y = number(n - HALF)
    return bitwise("and", x, y)


def bit_by_bit(op):
    def run(width, x, y):
        if width == 64:
            return bitwise(op, x, y)
        result = bitwise(op, narrow(x), narrow(y))
        if not has_half(result):
            assume_half(result)  # as both are
        return result

    return run


def of_any_width(function):
    return lambda width, *operands: function(*operands)


def comparison(name):
    """lt, gt, le or ge, of numbers with a sign or without."""
    def run(width, x, y):
        pair = (y, x) if name[:2] in ("gt", "le") else (x, y)
        return number((signed_below(width, *pair) if name[3] == "s" else is_below(*pair)) == (name[1] == "t"))

    return run


ANY_BITS = {
    "add": of_any_width(add), "sub": of_any_width(sub), "mul": product, "shl": shl, "wrap_i64": lambda width, x: x,
    "and": intersection, "or": bit_by_bit("or"), "xor": bit_by_bit("xor"),
    "rotl": lambda width, x, n: extend(rotate_right(cut(x, 0, width), -count_in(width, n) % width)),
    "rotr": lambda width, x, n: extend(rotate_right(cut(x, 0, width), count_in(width, n))),
    "shr_s": lambda width, x, n: sign_extend(cut(x, count_in(width, n), width - count_in(width, n)), 64),
    **{f"extend{name}_s": lambda width, x, size=size: sign_extend(cut(x, 0, size), 64)
       for name, size in (("8", 8), ("16", 16), ("32", 32), ("_i32", 32))},
}
EXACT = {
    "eqz": lambda width, x: extend(is_zero(x)), "eq": lambda width, x, y: extend(are_equal(x, y)),
    "ne": lambda width, x, y: extend(complement(are_equal(x, y))),
    "shr_u": lambda width, x, n: shift_right(x, count_in(width, n)), "extend_i32_u": lambda width, x: narrow(x),
    "div_u": of_any_width(on_numbers(lambda x, y: x // divisor(y))),
    "rem_u": of_any_width(on_numbers(lambda x, y: x % divisor(y))),
    "popcnt": of_any_width(on_numbers(lambda x: bin(x).count("1"))),
    "clz": lambda width, x: on_numbers(lambda n: width - n.bit_length())(x),
    "ctz": lambda width, x: on_numbers(lambda n: (n & -n).bit_length() - 1 if n else width)(x),
    **{name: comparison(name) for name in COMPARISONS[3:]},
}


def operation_of(name):
    width, what = int(name[1:3]), name[4:]
    if what in ANY_BITS:
        return functools.partial(ANY_BITS[what], width)
    if width == 64:
        return functools.partial(EXACT[what], width)
    return lambda *operands: EXACT[what](width, *map(narrow, operands))


OPERATIONS = {name: operation_of(name) for name in NUMERIC.values() if {name[4:]} & {*ANY_BITS, *EXACT}}


# The widths of the parameters of each function of the header, and of its result.
TYPES = {name: ([64 if re.fullmatch(r"\s*uint64_t \w+", item) else 32 for item in text.split(",") if item != "void"],
                [64 if result == "uint64_t" else 32] * (result != "void"))
         for name, (result, text) in declarations_of(HEADER).items()}


class Wasm(Machine):
    """Registers are globals, and the locals and the value stack of each function that runs, from its frame on. A frame has the
    number of its first register; a function that is called has there where it returns to, and the frame of its caller."""

    size, image, limit = 32, number(0), 10_000_000
    pointer, popped, entry, red_zone, result_register = ("global", 0), 0, 0, 128, 0

    def set_up(self):
        (width, is_mutable, top), *_ = self.library.globals
        end = top - STACK - self.red_zone
        if width != 32 or not is_mutable or top % 16 or not 0 <= end < top <= self.library.memories[0]:
            raise Stop("the first global is no stack pointer")
        if any(start < top and end < start + size for start, _, size in self.library.places):
            raise Stop("data is in the stack")
        self.kept = {("global", i): 64 for i, item in enumerate(self.library.globals) if item[1] and i}
        self.registers = {("global", i): number(n) for i, (_, _, n) in enumerate(self.library.globals)}
        self.compared = {}  # by a number that is 1 if two are equal, or if they are not: which of both, and the two

    def stack_pointer(self):
        return extend(join(number(0, 4), unknown("stack", 28, STACK)))

    def give(self, array):
        assume_half(add(array.at, array.length))
        return super().give(array)

    def map(self, address, values, writable=False):
        assume_half(add(address, number(sum(map(width_of, values)) // 8)))
        super().map(address, values, writable)

    def begin(self, function, arguments):
        found = self.library.entries.get(self.library.functions.get(f"sketch_{function}"))
        if found and found[:2] != TYPES[function]:
            raise Stop("it has another type than in the header")
        super().begin(function, arguments)

    def pass_arguments(self, arguments):
        widths, _, _ = self.library.entries[self.at]
        for width, value in zip(widths, arguments):
            if width == 32:
                assume_half(value)
        self.registers |= enumerate(arguments)
        self.enter(0, 0, CALLER)

    def enter(self, frame, caller, back):
        parameters, _, count = self.library.entries[self.at]
        self.registers |= {frame + i: number(0) for i in range(len(parameters), count)}
        self.registers |= {"frame": number(frame), ("frame", frame): number(caller), ("back", frame): back}

    # ---- instructions, whose operands are indices of registers in the frame

    def get(self, i):
        return self.registers[known(self.registers["frame"], "a frame") + i]

    def put(self, i, value):
        self.registers[known(self.registers["frame"], "a frame") + i] = value

    def step(self, op, operands):
        if op in STEPS:
            STEPS[op](self, *operands)
            return
        if op not in OPERATIONS:
            raise Stop("the instruction is not known")
        at, count = operands
        values = [self.get(at + i) for i in range(count)]
        result = OPERATIONS[op](*values)
        self.put(at, result)
        if op[4:] in ("eqz", "eq", "ne") and number_in(result) is None:
            self.note(result, op[4:] != "ne", *map(narrow, values) if op[:3] == "i32" else values)

    def note(self, result, is_equal, x, y=number(0)):
        if y == number(0) and x in self.compared:
            is_other, x, y = self.compared[x]
            is_equal ^= is_other
        self.compared[result] = is_equal, x, y

    def decide(self, value):
        """Whether it is not 0."""
        is_equal, x, y = self.compared.get(value) or (False, narrow(value), number(0))
        self.subtract(x, y)
        return self.holds("e" if is_equal else "ne")

    def address(self, at, offset):
        """Their sum does not wrap: an address above all memory is a trap."""
        return add(narrow(self.get(at)), number(offset))

    def load_value(self, at, offset, width, size, sign):
        value = self.load(self.address(at, offset), size)
        extended = sign_extend(value, 64) if sign == "s" else extend(value)
        self.put(at, with_next_bits(value) if width == 8 * size == 32 else extended)

    def jump(self, targets, condition=None):
        if condition is None or self.decide(self.get(condition)):
            self.next = targets[0][0]

    def jump_by(self, targets, choice):
        """To the target with an index, or to the last one."""
        i, last = narrow(self.get(choice)), len(targets) - 1
        self.jump(targets[next((n for n in range(last) if self.decide(extend(are_equal(i, number(n))))), last) :])

    def call(self, at, index):
        frame, self.at = known(self.registers["frame"], "a frame"), self.library.bodies[index][0]
        self.enter(frame + at, frame, number(self.next))
        self.next = self.at

    def leave(self, at, results):
        frame = known(self.registers["frame"], "a frame")
        if results:
            self.put(0, narrow(self.get(at)) if results == [32] else self.get(at))
        self.registers["frame"] = self.registers["frame", frame]
        self.go_to(self.registers["back", frame])

    def trap(self):
        raise Stop("a trap")


STEPS = {
    "move": lambda m, to, source: m.put(to, m.get(source)), "const": lambda m, to, n: m.put(to, number(n)),
    "global.get": lambda m, to, i: m.put(to, m.registers["global", i]),
    "global.set": lambda m, source, i: m.registers.update({("global", i): m.get(source)}),
    "select": lambda m, at: m.put(at, m.get(at if m.decide(m.get(at + 2)) else at + 1)), "load": Wasm.load_value,
    "store": lambda m, at, offset, size: m.store(m.address(at, offset), cut(m.get(at + 1), 0, 8 * size)), "br": Wasm.jump,
    "br_if": Wasm.jump, "br_table": Wasm.jump_by, "call": Wasm.call, "return": Wasm.leave, "unreachable": Wasm.trap,
    **{f"memory.{name}": lambda m, at, run=run: run(m, *(narrow(m.get(at + i)) for i in range(3)))
       for name, run in (("copy", move), ("fill", fill))},
}
