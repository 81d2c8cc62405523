"""The text of expressions and statements.

C computes with numbers below the width of `int` as `int`, and `size_t` may be narrower than 64 bits. Every cast that follows
from this is made here, from the types of the expressions.
"""
from __future__ import annotations

import textwrap
from typing import Iterator

from expression import BOOL, INT, SIZE, CType, Expression, Pointer, convert, divide, number, value_of
from forms import STATUSES
from mir import Unknown
from statement import Break, Comment, Declare, Do, Give, Node, Set, Switch, When, While

WIDTH = 100
ROWS = ("", "||", "&&", "|", "^", "&", "== !=", "< <= > >=", "<< >>", "+ -", "* / %")
LEVELS = {word: level for level, words in enumerate(ROWS) for word in words.split()}
TERNARY, UNARY, POSTFIX = 0, 11, 12
BITS = {"|", "^", "&", "<<", ">>"}  # beside which all other operators are set in brackets
PREFIXES = {"address": "&", "deref": "*", "!": "!", "~": "~"}
WIDE = {"+": "add", "*": "mul", "<<": "left", ">>": "right"}
COMPARISONS = {"==", "!=", "<", "<=", ">", ">="}
COLUMN_READS, COLUMN_WRITES = {4: "skh_get32", 8: "skh_get64"}, {8: "skh_set64"}  # by the size of an element


def is_int(e: Expression) -> bool:
    """Whether the text of a number is an `int`, since constants decide its type."""
    return e.word == "number" or e.word == "?" and is_int(e.args[1]) and is_int(e.args[2])


class Writer:
    def __init__(self, constants: dict[int, str], with_vectors: set[str]):
        self.constants, self.with_vectors = constants, with_vectors

    def number(self, value: int, bits: int) -> str:
        if value in self.constants:
            return self.constants[value]
        if bits == 64 and value >= 2 ** 31 and value & (value - 1) == 0:
            return f"(uint64_t)1 << {value.bit_length() - 1}"
        return str(value) if value < 1000000 else f"0x{value:x}u"

    def text(self, e: Expression, level: int = 0) -> str:
        own, its_level = self.text_and_level(e)
        return f"({own})" if its_level < level else own

    def text_and_level(self, e: Expression) -> tuple[str, int]:
        if e.word == "number" and e.type == BOOL:
            return str(bool(e.args[0])).lower(), POSTFIX
        if e.word == "number" and e.type.bits == 128:
            return f"skh_wide({self.number(e.args[0] >> 64, 64)}, {self.number(e.args[0] % 2 ** 64, 64)})", POSTFIX
        if e.word == "number":
            text = self.number(*e.args, e.type.bits)
            return text, LEVELS["<<"] if "<<" in text else POSTFIX
        if e.word == "variable":
            return e.args[0].name, POSTFIX
        if e.word == "at":
            return self.pointer(e)
        if e.word == "element":
            return self.element(e.args[0])
        if e.word == "member":
            base, name = e.args
            return f"{self.text(base, POSTFIX)}{'->' if isinstance(base.type, Pointer) else '.'}{name}", POSTFIX
        if e.word == "call":
            name, _, *args = e.args
            first = ["has_vectors"] * (name in self.with_vectors or name == "skh_bit")
            return f"{name}({', '.join(first + [self.assigned(arg, arg.type) for arg in args])})", POSTFIX
        if e.word == "cast":
            return self.cast(e)
        if e.word == "~" and e.type.bits < 32:
            return f"({e.type.text})~{self.text(e.args[0], UNARY)}", UNARY
        if e.word in PREFIXES:
            return f"{PREFIXES[e.word]}{self.text(e.args[0], UNARY)}", UNARY
        if e.word == "?":
            return f"{self.text(e.args[0], 1)} ? {self.text(e.args[1], 1)} : {self.text(e.args[2])}", TERNARY
        if e.word in LEVELS:
            return self.binary(e)
        raise Unknown(f"the text of {e.word}")

    def pointer(self, e: Expression) -> tuple[str, int]:
        base, offset = e.args
        if not base.type.inner:
            return self.sum(base, divide(offset, base.type.size))
        row, column = offset, number(0, 64)  # of an array of rows
        if offset.word == "+" and value_of(offset.args[1]) is not None and value_of(offset.args[1]) < base.type.size:
            row, column = offset.args
        text = f"{self.text(base, POSTFIX)}[{self.text(divide(row, base.type.size))}]"
        place = self.text(divide(column, base.type.size // base.type.inner))
        return (f"{text} + {place}", LEVELS["+"]) if value_of(column) else (text, POSTFIX)

    def sum(self, base: Expression, offset: Expression) -> tuple[str, int]:
        """base + offset, without brackets around a sum or a difference."""
        if offset.word in ("+", "-"):
            first, _ = self.sum(base, offset.args[0])
            return f"{first} {offset.word} {self.text(offset.args[1], LEVELS['*'])}", LEVELS["+"]
        return f"{self.text(base, LEVELS['+'])} + {self.text(offset, LEVELS['+'] + 1)}", LEVELS["+"]

    def element(self, pointer: Expression) -> tuple[str, int]:
        base, offset = pointer.args if pointer.word == "at" else (pointer, number(0, 64))
        size = pointer.type.size // (pointer.type.inner or 1)
        if pointer.type.is_column:
            return self.column(COLUMN_READS, size, pointer), POSTFIX
        if value_of(offset) == 0 and not pointer.type.is_array and size > 1:
            return f"*{self.text(base, UNARY)}", UNARY
        return f"{self.text(base, POSTFIX)}[{self.text(divide(offset, size))}]", POSTFIX

    def column(self, names: dict[int, str], size: int, *args: Expression) -> str:
        if size not in names:
            raise Unknown(f"a column of {size} bytes an element")
        return f"{names[size]}({', '.join(map(self.text, args))})"

    def cast(self, e: Expression) -> tuple[str, int]:
        of, bits = e.args[0], e.type.bits
        if isinstance(e.type, Pointer):
            return f"({e.type.declare('')}){self.text(of, UNARY)}", UNARY
        if bits == 128:
            return f"skh_wide(0, {self.text(of)})", POSTFIX
        if of.type.bits == 128 and bits != 64:
            return self.cast(convert(convert(of, 64), bits))
        if of.type.bits == 128:
            if of.word == ">>" and value_of(of.args[1]) == 64:
                return f"skh_wide_high({self.text(of.args[0])})", POSTFIX
            return f"skh_wide_low({self.text(of)})", POSTFIX
        return f"({e.type.text}){self.text(of, UNARY)}", UNARY

    def binary(self, e: Expression) -> tuple[str, int]:
        (a, b), word, level = e.args, e.word, LEVELS[e.word]
        if a.type.bits == 128:
            return self.wide(word, a, b)
        if a.word == "any":
            if word not in ("==", "!=") or value_of(b) != 0:
                raise Unknown(f"{word} of a vector's bits")
            text = f"skh_any({', '.join(['has_vectors', *map(self.text, a.args)])})"
            return (f"!{text}", UNARY) if word == "==" else (text, POSTFIX)
        if word in COMPARISONS:  # a `size_t` is widened by itself
            a, b = (own.args[0] if own.word == "cast" and own.args[0].type.text == "size_t" else own for own in (a, b))
        right_level = UNARY if word in BITS else level if word in ("||", "&&", "+", "*") and b.word == word else level + 1
        left_level = UNARY if word in BITS else level
        if word == "||":  # brackets around &&, without which compilers warn
            left_level = LEVELS["|"] if a.word == "&&" else left_level
            right_level = LEVELS["|"] if b.word == "&&" else right_level
        if word in ("<<", ">>") and b.word == "cast" and b.args[0].type.bits < 64:
            b = b.args[0]
        left, right = self.text(a, left_level), self.text(b, right_level)
        if word not in COMPARISONS and is_int(a) and (word in ("<<", ">>") or is_int(b)) and a.type != BOOL:
            left = f"({a.type.text}){self.text(a, UNARY)}"
        elif e.type.bits == 16 and word in ("*", "<<"):  # more than an `int` holds
            left = f"(uint32_t){self.text(a, UNARY)}"
        if e.type.bits in (8, 16):
            return f"({e.type.text})({left} {word} {right})", UNARY
        return f"{left} {word} {right}", level

    def wide(self, word: str, a: Expression, b: Expression) -> tuple[str, int]:
        """Numbers of 128 bits, which not each compiler has."""
        if word in (">", "<", ">=", "<="):
            x, y = (a, b) if word in (">", "<=") else (b, a)
            text = f"skh_wide_above({self.text(x)}, {self.text(y)})"
            return (text, POSTFIX) if word in (">", "<") else (f"!{text}", UNARY)
        if word in ("!=", "==") and value_of(b) == 0 and a.word == ">>" and value_of(a.args[1]) == 64:
            return f"skh_wide_high({self.text(a.args[0])}) {word} 0", LEVELS[word]
        if word not in WIDE:
            raise Unknown(f"{word} of 128 bits")
        b = convert(b, 64) if word in ("<<", ">>") else b
        return f"skh_wide_{WIDE[word]}({self.text(a)}, {self.text(b)})", POSTFIX

    # ---- Statements

    def lines(self, nodes: list[Node], result: CType, depth: int = 1) -> Iterator[str]:
        for node in nodes:
            yield from self.statement(node, result, depth)

    def statement(self, node: Node, result: CType, depth: int) -> Iterator[str]:
        if isinstance(node, Comment):
            yield from ("    " * depth + line for line in comment([node.text], WIDTH - 4 * depth))
        elif isinstance(node, Declare):
            yield self.declaration(node)
        elif isinstance(node, Set):
            yield self.setting(node)
        elif isinstance(node, Do):
            yield f"{self.text(node.call)};"
        elif isinstance(node, When) and not node.no and len(node.yes) == 1 and isinstance(node.yes[0], (Give, Break)):
            yield f"if ({self.condition(node)}) {next(self.statement(node.yes[0], result, depth))}"
        elif isinstance(node, When):
            yield f"if ({self.condition(node)}) {{"
            yield from self.lines(node.yes, result, depth + 1)
            while len(node.no) == 1 and isinstance(node.no[0], When):
                node = node.no[0]
                yield f"}} else if ({self.condition(node)}) {{"
                yield from self.lines(node.yes, result, depth + 1)
            if node.no:
                yield "} else {"
                yield from self.lines(node.no, result, depth + 1)
            yield "}"
        elif isinstance(node, Switch):
            yield f"switch ({self.text(node.of)}) {{"
            for value, body in node.cases:
                yield f"case {self.text(value)}:"
                yield from self.lines(body, result, depth + 1)
            yield "}"
        elif isinstance(node, While):
            if node.counter:
                yield f"for ({self.declaration(node.counter)} {self.text(node.condition)}; {node.counter.variable.name}++) {{"
            else:
                yield f"while ({self.text(node.condition)}) {{" if node.condition is not None else "for (;;) {"
            yield from self.lines(node.body, result, depth + 1)
            yield "}"
        elif isinstance(node, Break):
            yield "break;"
        elif isinstance(node, Give):
            yield "return;" if node.value is None else f"return {self.assigned(node.value, result)};"
        else:
            raise Unknown(f"statement {node}")

    def condition(self, node: When) -> str:
        return f"{node.expected}({self.text(node.condition)})" if node.expected else self.text(node.condition)

    def assigned(self, e: Expression, type: CType) -> str:
        """A value in a place of a type: where C would cut it, it is cut by a cast."""
        while e.word == "cast" and 0 < e.args[0].type.bits <= e.type.bits <= min(type.bits, 64):
            e = e.args[0]  # C widens by itself
        if type.text == "size_t" and value_of(e) == 2 ** 64 - 1:
            return "SIZE_MAX"
        if type.text == "size_t" and e.type.text == "uint64_t" and e.word != "number":
            return f"(size_t){self.text(e, UNARY)}"
        if type == INT and e.word == "number":
            if e.args[0] not in STATUSES:
                raise Unknown(f"status {e.args[0]}")
            return STATUSES[e.args[0]]
        if type.bits in (8, 16) and e.type == BOOL:
            return f"({type.text}){self.text(e, UNARY)}"
        return self.text(e)

    def declaration(self, node: Declare) -> str:
        own, value = node.variable, node.value
        const, type = "" if own.is_set else "const ", own.type
        if own.count:
            text = f"{const}{type.text} {own.name}[{own.count}]"
        else:
            text = type.declare(f"{const}{own.name}") if isinstance(type, Pointer) else f"{const}{type.text} {own.name}"
        if value is None:
            return f"{text};"
        if isinstance(value, list):
            return f"{text} = {{{', '.join(self.assigned(each, each.type) for each in value)}}};"
        return f"{text} = {self.assigned(value, type)};"

    def setting(self, node: Set) -> str:
        place, value = node.place, node.value
        type = place.type
        if place.word == "element":
            pointer = place.args[0]
            if pointer.type.is_column:
                return f"{self.column(COLUMN_WRITES, pointer.type.size // (pointer.type.inner or 1), pointer, value)};"
            type = SIZE if pointer.type.text == "size_t" else type
        text = self.text(place)
        if value.word in ("+", "-") and value.args[0] == place and value_of(value.args[1]) == 1 and type.bits in (32, 64):
            return f"{text}{value.word * 2};"
        if value.word in LEVELS and value.args[0] == place and (type.bits in (32, 64) or value.word == "|"):
            return f"{text} {value.word}= {self.text(value.args[1])};"
        if value.word == "at" and value.args[0] == place:
            return f"{text} += {self.text(divide(value.args[1], place.type.size))};"
        return f"{text} = {self.assigned(value, type)};"


def comment(paragraphs: list[str], width: int = WIDTH) -> list[str]:
    lines: list[str] = []
    for own in paragraphs:
        first = " * " if lines else "/* "
        lines += [" *"] * bool(lines) + textwrap.wrap(own, width - 3, initial_indent=first, subsequent_indent=" * ",
                                                      break_long_words=False, break_on_hyphens=False)
    return [*lines[:-1], lines[-1] + " */"] if lines else []
