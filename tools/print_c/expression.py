"""Expressions of C, each with its type, and the rules by which they become simpler."""
from __future__ import annotations

from dataclasses import dataclass
from typing import Callable, Iterator

from mir import Unknown


@dataclass(frozen=True)
class CType:
    """A type of C. `bits` is 0 if it is no number."""

    text: str
    bits: int = 0

    def declare(self, name: str) -> str:
        return f"{self.text} {name}"


@dataclass(frozen=True)
class Pointer(CType):
    """To elements of so many bytes. An element may be an array of `inner` numbers.

    What a caller's column has may have another type in the program, and need not be aligned.
    """

    size: int = 1
    is_const: bool = False
    inner: int = 0
    is_column: bool = False
    is_array: bool = False

    def declare(self, name: str) -> str:
        const = "const " * self.is_const
        return f"{const}{self.text} (*{name})[{self.inner}]" if self.inner else f"{const}{self.text} *{name}"


@dataclass(frozen=True)
class Struct(CType):
    """Its members by name, each with its type, or an array of bytes with their count."""

    members: tuple[tuple[str, CType | int], ...] = ()


NONE, READS, CHANGES = range(3)  # what a function does with memory
BOOL, VOID, INT, SIZE = CType("bool", 1), CType("void"), CType("int", 32), CType("size_t", 64)
NUMBERS = {bits: CType(f"uint{bits}_t", bits) for bits in (8, 16, 32, 64)}
NUMBERS[128] = CType("skh_uint128", 128)


@dataclass(eq=False)
class Variable:
    """`is_set`: whether it gets another value than its first. `count` is that of an array's elements."""

    name: str
    type: CType
    count: int = 0
    is_set: bool = False
    is_temporary: bool = False  # whether it has no name in the source
    is_in_memory: bool = False  # whether it is an array, or its address is passed on


@dataclass(frozen=True)
class Expression:
    """An operator of C or one of the words below, and what it is applied to.

    number VALUE, variable VARIABLE, address VALUE, at BASE OFFSET (a pointer, in bytes), element POINTER (a number of an
    array), member BASE NAME, deref POINTER, call NAME EFFECT ARGUMENTS..,
    cast VALUE, any WORDS.. (whether a bit of these is set), ? CONDITION YES NO
    """

    word: str
    type: CType
    args: tuple = ()

    def parts(self) -> Iterator[Expression]:
        yield self
        for arg in self.args:
            if isinstance(arg, Expression):
                yield from arg.parts()

    def effect(self) -> int:
        """Whether it reads memory, and whether it changes it."""
        return max(part.args[1] if part.word == "call" else READS if part.word in ("element", "deref")
                   or part.word == "member" and isinstance(part.args[0].type, Pointer)
                   or part.word == "variable" and part.args[0].is_in_memory else NONE for part in self.parts())

    def reads_memory(self) -> bool:
        return self.effect() != NONE

    def variables(self) -> set[Variable]:
        return {part.args[0] for part in self.parts() if part.word == "variable"}

    def changed(self, change: Callable[[Expression], Expression]) -> Expression:
        """With each expression changed that it is applied to."""
        args = tuple(change(arg) if isinstance(arg, Expression) else arg for arg in self.args)
        return Expression(self.word, self.type, args)

    def replaced(self, old: Expression, new: Expression) -> Expression:
        return new if self == old else self.changed(lambda arg: arg.replaced(old, new))


def number(value: int, bits: int) -> Expression:
    return Expression("number", BOOL if bits == 1 else NUMBERS[bits], (value % 2 ** bits,))


def variable(own: Variable) -> Expression:
    return Expression("variable", own.type, (own,))


def value_of(e: object) -> int | None:
    return e.args[0] if isinstance(e, Expression) and e.word == "number" else None


def call(name: str, type: CType, args: list[Expression], effect: int = NONE) -> Expression:
    return Expression("call", type, (name, effect, *args))


COMPUTE: dict[str, Callable[[int, int], int]] = {
    "+": int.__add__, "-": int.__sub__, "*": int.__mul__, "/": int.__floordiv__, "%": int.__mod__, "<<": int.__lshift__,
    ">>": int.__rshift__, "&": int.__and__, "|": int.__or__, "^": int.__xor__, "==": int.__eq__, "!=": int.__ne__,
    "<": int.__lt__, "<=": int.__le__, ">": int.__gt__, ">=": int.__ge__}
NEGATED = {"==": "!=", "!=": "==", "<": ">=", ">=": "<", "<=": ">", ">": "<="}
TURNED = {"==": "==", "!=": "!=", "<": ">", ">": "<", "<=": ">=", ">=": "<=", "+": "+", "*": "*", "|": "|", "^": "^", "&": "&"}
SMALL = 2 ** 20  # two numbers below it have a sum that is meant as one


def operation(word: str, a: Expression, b: Expression) -> Expression:
    """`a word b`, modulo 2^bits, of numbers of one width without a sign. Both are numbers of that width, also for shifts."""
    bits, type = a.type.bits, BOOL if word in NEGATED else a.type
    if b.type.bits != bits or bits == 0:
        raise Unknown(f"{word} of {a.type.text} and {b.type.text}")
    x, y = value_of(a), value_of(b)
    if word in ("/", "%") and y == 0 or word in ("<<", ">>") and y is not None and y >= bits:
        raise Unknown(f"{word} by {y} of {a.type.text}")
    if x is not None and y is not None:
        if word in ("+", "*") and bits == 64 and 2 ** 32 <= COMPUTE[word](x, y) < 2 ** 64:  # it is read as its source has it
            return Expression(word, type, (a, b))
        return number(int(COMPUTE[word](x, y)), type.bits)
    if word == "+" and a.word == "cast" and b.word == "<<" and bits == 128 and value_of(b.args[1]) == 64 \
            and b.args[0].word == "cast" and a.args[0].type.bits == b.args[0].args[0].type.bits == 64:
        return call("skh_wide", type, [b.args[0].args[0], a.args[0]])
    if word in TURNED and x is not None:
        return operation(TURNED[word], b, a)
    if y == 0 and word in ("+", "-", "|", "^", "<<", ">>") or y == 1 and word in ("*", "/"):
        return a
    if word == ">" and y == 0:
        return operation("!=", a, b)
    if word == "-":
        if b.word == "-" and b.args[0] == a:  # a - (a - c)
            return b.args[1]
        if a.word == "+" and b in a.args:  # a + c - a
            return a.args[1 - a.args.index(b)]
        if b.word == "*" and b.args[0].word == "/" and b.args[0].args == (a, b.args[1]):  # a - a / c * c
            return operation("%", a, b.args[1])
    if y is not None and a.word in ("+", "-") and value_of(a.args[1]) is not None:
        z = value_of(a.args[1])
        if word in ("+", "-") and max(y, z) < SMALL:  # a + c + d
            sum = (z if a.word == "+" else -z) + (y if word == "+" else -y)
            return operation("+" if sum >= 0 else "-", a.args[0], number(abs(sum), bits))
        if word in ("==", "!=") and a.word == "-":
            return operation(word, a.args[0], operation("+", a.args[1], b))
    if word == "%" and b.word == "<<" and value_of(b.args[0]) == 1 and bits == 128:
        return call("skh_wide_low_bits", a.type, [a, convert(b.args[1], 64)])
    if word == "%" and bits == 128 and y is not None and y & (y - 1) == 0:
        return call("skh_wide_low_bits", a.type, [a, number(y.bit_length() - 1, 64)])
    return Expression(word, type, (a, b))


def convert(e: Expression, bits: int) -> Expression:
    """A number in another width: cut, or with zeros above."""
    if e.type.bits == 0:
        raise Unknown(f"a cast of {e.type.text} to {bits} bits")
    if e.word == "number":
        return number(e.args[0], bits)
    if e.type == NUMBERS[bits]:
        return e
    if e.word == "cast" and e.args[0].type.bits <= min(bits, e.type.bits):  # widened before
        return convert(e.args[0], bits)
    if bits == 32 and e.word == "&" and value_of(e.args[1]) == 0xffffffff:
        return convert(e.args[0], bits)
    if e.word == "call" and e.args[0] == "skh_wide_low_bits" and (value_of(e.args[3]) or 0) >= bits:
        return convert(e.args[2], bits)
    return Expression("cast", NUMBERS[bits], (e,))


def negate(e: Expression) -> Expression:
    if e.word in NEGATED:
        return Expression(NEGATED[e.word], BOOL, e.args)
    return e.args[0] if e.word == "!" else Expression("!", BOOL, (e,))


def choose(condition: Expression, yes: Expression, no: Expression) -> Expression:
    if yes.type == BOOL and (no == condition or value_of(no) == 0):
        return Expression("&&", BOOL, (condition, yes))
    return Expression("?", yes.type, (condition, yes, no))


def has_value(e: Expression, value: int) -> Expression:
    """Whether a number or a flag has a value."""
    if e.type == BOOL:
        return e if value else negate(e)
    return operation("==", e, number(value, e.type.bits))


def at(base: Expression, offset: Expression) -> Expression:
    """The pointer so many bytes after another."""
    if not isinstance(base.type, Pointer) or offset.type != NUMBERS[64]:
        raise Unknown(f"the address {offset.type.text} after {base.type.text}")
    if base.word == "at":
        return at(base.args[0], operation("+", base.args[1], offset))
    return base if value_of(offset) == 0 else Expression("at", base.type, (base, offset))


def divide(offset: Expression, size: int) -> Expression:
    """An offset in bytes, which is a multiple of the size of an element, as a number of elements."""
    value, factor = value_of(offset), value_of(offset.args[1]) if offset.word == "*" else None
    if size == 1:
        return offset
    if size > 0 and value is not None and value % size == 0:
        return number(value // size, 64)
    if size > 0 and factor is not None and factor % size == 0:
        return operation("*", offset.args[0], number(factor // size, 64))
    raise Unknown(f"an offset that is no multiple of {size}: {offset}")
