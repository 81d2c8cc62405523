"""What the types, operations and functions of the source are in C. What is in none of these tables stays out of the text."""
from __future__ import annotations

import re
from functools import partial
from typing import Callable

from expression import (BOOL, NUMBERS, READS, VOID, Expression, Pointer, Struct, at, call, convert, negate, number,
                        operation, value_of)
from mir import BOOL as FLAG
from mir import BYTE, UNIT, WIDTHS, WORD, Statement, Type, Unknown, word_of
from values import Bytes, Parts, Spelled, Value, expression_of, parts_of

# Structs of the source that are structs of C. A function with any other in its signature is written out where it is called.
STRUCTS = {
    "sketch_hash::hash::xxhash::lanes::ScalarLanes": "struct skh_xxh64_lanes",
    "sketch_hash::hash::xxhash::state::XxHash64State": "sketch_xxh64_state_t",
    "sketch_hash::hash::murmurhash::MurmurHash3X64128": "struct skh_murmur3_hasher",
    "sketch_hash::hash::murmurhash::state::MurmurState": "sketch_murmur3_x64_128_state_t",
}
# The parts of the text in their order: of each the beginning of its names, and the paths of its functions.
PARTS = {
    "Words": ("skh_", "sketch_hash::hash::words"),
    "Copies of a few bytes": ("skh_", "sketch_hash::hash::copy"),
    "Offsets of columns": ("skh_", "sketch_hash::hash::columns::(?!XxHash64|Murmur)"),
    "XXH64": ("skh_xxh64_", "sketch_hash::hash::(xxhash|columns::XxHash64)"),
    "MurmurHash3 x64 128": ("skh_murmur3_", "sketch_hash::hash::(murmurhash|columns::Murmur)"),
    "Seed hashes": ("skh_", "sketch_hash::hash::seed"),
    "Bloom filter": ("skh_bloom_", "sketch_bloom"),
    "Results of calls": ("skh_", "sketch_c"),
}
# C allows no offset from NULL. Only these calls compute one from a pointer of no bytes, and take another pointer for it.
OFFSET_OF_NOTHING = re.compile(r"sketch_murmur3_x64_128$|sketch_\w+_each(32|64)$")
# The names of constant arrays.
ARRAYS = {(28, 28, 0, 0, 28, 28, 0, 0, 28, 28, 0, 0, 0): "skh_union_fields"}
# What calls return as an int, by its 32 bits.
STATUSES = {1: "1", 0: "SKETCH_OK", 2 ** 32 - 1: "SKETCH_ERROR_LENGTH", 2 ** 32 - 2: "SKETCH_ERROR_OFFSET",
            2 ** 32 - 3: "SKETCH_ERROR_COUNT", 2 ** 32 - 5: "SKETCH_ERROR_SEED"}

PAIR = Struct("struct skh_pair", 0, (("first", NUMBERS[64]), ("second", NUMBERS[64])))
OPTION = Struct("struct skh_option", 0, (("is_some", BOOL), ("value", NUMBERS[64])))
RESULT = Struct("struct skh_result", 0, (("is_error", BOOL), ("value", NUMBERS[64])))
# What functions return that is no number: two of them, one or none, one or the number of an error.
RESULTS = {UNIT: VOID, FLAG: BOOL, Type("Named", ("(,)", (WORD, WORD))): PAIR,
           Type("Named", ("core::option::Option", (WORD,))): OPTION,
           **{Type("Named", ("core::result::Result", (value, WORD))): RESULT for value in (WORD, UNIT)}}


class NoForm(Unknown):
    """The type has no form in C."""


def part_of(path: str) -> tuple[str, str]:
    for title, (prefix, paths) in PARTS.items():
        if re.match(paths, path):
            return prefix, title
    raise Unknown(f"the part of the text for {path}")


def pointer_to(type: Type, is_const: bool, is_slice: bool, struct: Callable[[Type], Struct]) -> Pointer:
    """Bytes are `unsigned char`, numbers are of their width, and rows of two numbers are rows."""
    if type.word == "Array":
        if is_slice and type.of == WORD:
            return Pointer("uint64_t", 0, 8 * type.count, is_const, type.count, True)
        inner = pointer_to(type.of, is_const, False, struct)
        return Pointer(inner.text, 0, inner.size, is_const, is_array=True)
    if type == BYTE:
        return Pointer("unsigned char", 0, 1, is_const)
    if type.bits in (32, 64) or type.bits == 16 and not is_slice:
        return Pointer(f"uint{type.bits}_t", 0, type.bits // 8, is_const, is_column=is_slice)
    if type.word == "Named":
        return Pointer(struct(type).text, 0, 0, is_const)
    raise NoForm(type)


# ---- Operations

OPERATORS = {"WrapAdd": "+", "WrapSub": "-", "WrapMul": "*", "Add": "+", "Sub": "-", "Mul": "*", "Div": "/", "Rem": "%",
             "Shl": "<<", "Shr": ">>", "And": "&", "Or": "|", "Xor": "^", "Eq": "==", "Ne": "!=", "Lt": "<", "Le": "<="}
SIGNED = {"Add", "Sub", "Mul", "Div", "Rem", "Shr", "Lt", "Le"}  # which say whether their numbers have a sign

# The operations on vectors, by the width of their lanes.
LANES = {8: ("And", "Or", "Xor"), 32: ("And", "Or", "Xor", "Shl", "Shr", "WrapAdd", "WrapMul")}


def operator_of(token: object) -> str:
    """The operator in C of an operation on numbers without a sign."""
    word, sign = word_of(token)
    if word not in OPERATORS or sign != ("Unsigned" if word in SIGNED else None):
        raise Unknown(f"operation {token}")
    return OPERATORS[word]


def one(token: object, value: Expression) -> Expression:
    word, of = word_of(token)
    if word == "Not" and value.type == BOOL:
        return negate(value)
    if word == "Not" and value.type.bits in (8, 16, 32, 64):
        all_bits = number(-1, value.type.bits)
        return operation("^", value, all_bits) if value.word == "number" else Expression("~", value.type, (value,))
    if word == "Cast" and of[0] == "Unsigned" and of[2] in WIDTHS and (of[1] == "Unsigned" or of[1:] == ["Signed", 32]):
        return convert(value, of[2])
    if word == "CountOnes" and value.type.bits == 32:
        return call("skh_ones32", NUMBERS[32], [value])
    raise Unknown(f"operation {token} of {value.type.text}")


def vector(s: Statement, values: list[Value], type: Type) -> Value:
    """Vectors are words of 32 bits, see Memory.read."""
    word, of = word_of(s.of)
    if s.word == "Vec1" and word == "Recast":
        return values[0]
    if s.word == "Vec2" and word == "Map" and word_of(of)[0] in LANES.get(type.of.bits, ()):
        return Parts(tuple(lane(operator_of(of), a, b) for a, b in zip(*map(parts_of, values), strict=True)))
    if s.word == "Vec2" and word == "Fold" and of == "Or" and value_of(values[0]) == 0:
        return Expression("any", NUMBERS[8], parts_of(values[1]))
    raise Unknown(f"vector operation {s.of}")


def lane(word: str, a: Expression, b: Expression) -> Expression:
    if word == "<<" and value_of(a) == 1:
        return call("skh_bit", NUMBERS[32], [b])
    if word == "^" and a.word == "|" and a.args[0] == b:  # (b | c) ^ b
        return operation("&", Expression("~", b.type, (b,)), a.args[1])
    return operation(word, a, b)


def size_of(type: Type) -> int:
    if type.bits:
        return type.bits // 8
    if type.word == "Array":
        return type.count * size_of(type.of)
    raise Unknown(f"the size of {type}")


# ---- Functions of the standard library that have a form of their own. All others are written out from their bodies.

def load(pointer: Expression, bits: int) -> Expression:
    """The number of so many bytes, the lowest first."""
    if pointer.type.size != 1 or bits not in (16, 32, 64, 128):
        raise Unknown(f"a number of {bits} bits from {pointer.type}")
    if bits == 128:
        return call("skh_wide", NUMBERS[128], [load(at(pointer, number(8, 64)), 64), load(pointer, 64)])
    return call(f"skh_load{bits}", NUMBERS[bits], [pointer], READS)


def from_bytes(bits: int, value: Value) -> Expression:
    if not isinstance(value, Bytes):
        raise Unknown(f"a number of {value}")
    return load(value.pointer, bits)


def of_two(name: str, a: Value, b: Value) -> Expression:
    return call(name, NUMBERS[64], [expression_of(a), convert(expression_of(b), 64)])


def rotate_right(word: Value, places: Value) -> Expression:
    if value_of(places) is None:
        raise Unknown("rotate_right by an unknown number")
    return of_two("skh_rotate64", word, number(64 - value_of(places), 64))


CALLS: dict[str, Callable[..., Value]] = {
    "core::int::u64::rotate_left": partial(of_two, "skh_rotate64"),
    "core::int::usize::rotate_right": rotate_right,
    "core::int::usize::min": partial(of_two, "skh_least64"),
    "core::int::usize::saturating_sub": partial(of_two, "skh_less64"),
    **{f"core::int::u{bits}::from_le_bytes": partial(from_bytes, bits) for bits in (16, 32, 64, 128)},
    **{f"core::int::u{bits}::to_le_bytes": lambda value: Spelled(expression_of(value)) for bits in (64, 128)},
}
# These cut a slice into pieces, which keeps the name that the caller has for it.
CUTS = ("core::simd::chunks::slice+T::as_chunks", "sketch_hash::hash::words::split_pieces")
COPY = "core::slice::edits::slice+T::copy_from_slice"


def local_name(struct: str) -> str:
    """hasher of struct skh_murmur3_hasher, state of sketch_xxh64_state_t"""
    return struct.removesuffix("_t").split("_")[-1]
