"""The functions that are printed: their names, their signatures, their order, and the text around their bodies."""
from __future__ import annotations

import re
from dataclasses import dataclass, field
from functools import cache
from typing import Iterable

import forms
from evaluate import Body
from expression import (BOOL, CHANGES, INT, NONE, NUMBERS, READS, SIZE, VOID, CType, Expression, Pointer, Struct, Variable,
                        call, convert, variable)
from mir import BOOL as FLAG
from mir import BYTE, WORD, Crates, Given, Type, Unknown
from source import Sources
from statement import (Comment, Declare, Do, Give, Node, When, While, all_nodes, expressions_of, inline_once, lists_of,
                       must_be_declared, reads_of, tidy, with_switches, without_unread)
from values import Parts
from write import Writer, comment

CRATES = ("sketch_base", "sketch_hash", "datasketches", "sketch_bloom", "sketch_c")
# What is evaluated where it is called, since in C it is one operator or call.
WRITTEN_OUT = re.compile(r"^core::|::fn::|\+Fn|^sketch_hash::hash::(words::(read_|rotate|split_pieces)|copy::copy_array|value::"
                         r"|columns::U\d+Offset|murmurhash::block_word|xxhash::mix_exactly)|^sketch_bloom::folds::word$")
STORAGE = {"always": "SKH_INLINE", "never": "static SKH_NOINLINE", "": "static"}
HEADER_TYPES = {own.text: own for own in (INT, SIZE, VOID, NUMBERS[16], NUMBERS[32], NUMBERS[64])}
DECLARATION = re.compile(r"/\*\*((?:(?!\*/).)*)\*/\nSKETCH_HASH_API ([^;(]+?) ?\b(sketch_\w+)\(([^;]*)\);", re.S)


@dataclass(eq=False)
class Printed:
    """A function of C. One of the header has the text of its parameters there."""

    name: str
    title: str
    types: list[Type]
    parameters: list[Variable]
    result: CType
    effect: int
    about: list[str]
    storage: str
    path: str = ""
    requires: str = ""
    head: str = ""
    body: list[Node] = field(default_factory=list)
    calls: dict[str, None] = field(default_factory=dict)  # in their order
    is_used: list[bool] = field(default_factory=list)  # of each parameter


@dataclass
class Declared:
    """What the header has of a call."""

    about: str
    result: CType
    parameters: str
    names: list[tuple[str, str]]  # the text of the type, and the name


def read_header(text: str) -> dict[str, Declared]:
    out = {}
    for about, result, name, parameters in DECLARATION.findall(text):
        first = re.sub(r"(?m)^ \*( |$)", "", about.strip()).split("\n\n")[0].replace("\n", " ")
        flat = re.sub(r"\s+", " ", parameters)
        names = re.findall(r"([^,]*?[ *(])(\w+)\)?(?:\[\d*\])*(?:,|$)", flat)
        out[name] = Declared(first, HEADER_TYPES[result], flat, names)
    return out


class Library:
    def __init__(self, crates: Crates, header: str, sources: Sources):
        self.crates, self.sources, self.declared = crates, sources, read_header(header)
        self.by_name: dict[str, Printed] = {}
        self.arrays: dict[tuple[int, ...], Variable] = {}
        self.with_vectors: set[str] = set()  # functions that are told whether there are vectors,
        self.chosen: set[str] = set()  # and those that find out, and call one that is told

    def struct(self, type: Type) -> Struct:
        if type.name not in forms.STRUCTS:
            raise forms.NoForm(type)
        members: list[tuple[str, CType | int]] = []
        for name, own in zip(self.sources.members[type.name], self.crates.shape(type)[1], strict=True):
            if own != WORD and (own.word, own.args[:1]) != ("Array", (BYTE,)):
                raise Unknown(f"a member of {type.name}: {own}")
            members.append((name, NUMBERS[64] if own == WORD else own.count))
        return Struct(forms.STRUCTS[type.name], 0, tuple(members))

    def constant(self, type: Type, values: tuple[int, ...]) -> Expression:
        if type.word != "Array" or type.of != BYTE or values not in forms.ARRAYS:
            raise Unknown(f"the name of the constant {type} {values}")
        own = Variable(forms.ARRAYS[values], Pointer("unsigned char", 0, 1, True), len(values))
        return variable(self.arrays.setdefault(values, own))

    # ---- Functions

    @cache
    def printed(self, path: str, args: Given) -> Printed | None:
        """The function of C for an instance, or None if it is written out where it is called."""
        if WRITTEN_OUT.search(path):
            return None
        function = self.crates.function(path)
        numbers = [own.args[0] for own in args.types if own.word == "Const"]
        types, source = list(map(args.type, function.parameters)), self.sources.of(path)
        if len(source.parameters) != len(types):
            raise Unknown(f"{path}: {len(types)} parameters, and {len(source.parameters)} in its text")
        try:
            given = list(map(self.parameter, types, source.parameters))
            of = args.type(function.locals[0])
            result = NUMBERS[of.bits] if of.bits else forms.RESULTS.get(of) or self.struct(of)
        except forms.NoForm:
            return None
        prefix, title = forms.part_of(path)
        widths = [own.bits for own in args.types if own.bits]
        of_state = "state_" * (path.split("::")[-2].endswith("State"))  # a hasher has a function of this name too
        last = path.split("::")[-1]
        name = prefix + of_state + last + "".join(f"_{n}" for n in numbers) + "".join(map(str, widths))
        if name in self.by_name:
            raise Unknown(f"{path}: a second function {name}")
        parameters = sum(given, [])
        pointers = [own.type for own in parameters if isinstance(own.type, Pointer)]
        effect = max((READS if own.is_const else CHANGES for own in pointers), default=NONE)
        about = source.about
        for n in numbers:  # K is its number in this instance
            about = [re.sub(r"\bK\b", str(n), own.replace("2 K", str(2 * n))) for own in about]
        for own in self.by_name.values():
            if own.path == path and widths:
                about = [f"`{own.name}` for offsets of {widths[0]} bits."]
        requires = source.requires if source.inline == "never" else ""
        printed = Printed(name, title, types, parameters, result, effect, about, STORAGE[source.inline], path, requires)
        return self.finish(printed, Body(self, path, args, result), [list(map(variable, each)) for each in given])

    def parameter(self, type: Type, name: str) -> list[Variable]:
        if type.word == "Slice":
            return [Variable(name, forms.pointer_to(type.of, not type.is_mut, True, self.struct)),
                    Variable(name + ("_length" if type.of == BYTE else "_count"), NUMBERS[64])]
        if type.word == "Ref":
            form: CType = forms.pointer_to(type.of, not type.is_mut, False, self.struct)
        else:
            form = NUMBERS[type.bits] if type.bits else BOOL if type == FLAG else self.struct(type)
        return [Variable(forms.local_name(form.text) if name == "self" else name, form)]

    def entry(self, path: str) -> Printed:
        """A call of the header, which gives it its parameters."""
        function, name = self.crates.function(path), path.split("::")[-1]
        declared = self.declared[name]
        names, given = iter(declared.names), [self.parameter(type, "") for type in function.parameters]
        values = [[self.of_caller(own, *next(names), name) for own in each] for each in given]
        if more := list(names):
            raise Unknown(f"{name}: more parameters in the header: {more}")
        printed = Printed(name, "Calls", function.parameters, sum(given, []), declared.result, CHANGES, [declared.about],
                          "SKETCH_HASH_API", head=declared.parameters)
        return self.finish(printed, Body(self, path, Given(), declared.result), values)

    @staticmethod
    def of_caller(own: Variable, text: str, name: str, entry: str) -> Expression:
        """What the source has of a parameter. The header has its name, and `text` before it."""
        form, own.name = own.type, name
        if "void" in text:
            own.type = CType("void *")
            if name in ("input", "keys") and forms.OFFSET_OF_NOTHING.match(entry):
                return call("skh_slice", form, [variable(own)])
            return Expression("cast", form, (variable(own),))
        if "size_t" in text:
            own.type = Pointer("size_t", 0, 8, form.is_const) if isinstance(form, Pointer) else SIZE
        return variable(own) if isinstance(form, Pointer) else convert(variable(own), form.bits)

    def finish(self, printed: Printed, body: Body, values: list[list[Expression]]) -> Printed:
        self.by_name[printed.name] = printed
        code = body.evaluate([Parts(tuple(own)) if len(own) > 1 else own[0] for own in values], printed.parameters)
        printed.body = with_switches(tidy(inline_once(without_unread(code))))
        must_be_declared(printed.body, [*printed.parameters, *self.arrays.values()])
        reads = reads_of(printed.body)
        printed.is_used = [own in reads or bool(printed.head) for own in printed.parameters]
        for node in all_nodes(printed.body):
            if isinstance(node, When):
                node.expected = self.expected(node)
            for part in (part for e in expressions_of(node) for part in e.parts()):
                if part.word == "any" or part.word == "call" and part.args[0] in {*self.with_vectors, "skh_bit"}:
                    (self.with_vectors if printed.storage == "SKH_INLINE" else self.chosen).add(printed.name)
                if part.word == "call" and part.args[0] in self.by_name:
                    printed.calls[part.args[0]] = None
        return printed

    def expected(self, node: When) -> str:
        """Errors are not expected, nor is a separate function where there is one that is not."""
        def called(nodes: list[Node]) -> str:
            return nodes[0].call.args[0] if len(nodes) == 1 and isinstance(nodes[0], Do) else ""

        last = node.yes[-1]
        if isinstance(last, Give) and last.value is not None and last.value.args[0] == "skh_error":
            return "SKH_UNLIKELY"
        other = called(node.no)
        is_separate = other in self.by_name and "NOINLINE" in self.by_name[other].storage
        return "SKH_LIKELY" if called(node.yes) and (is_separate or len(node.no) > 2) else ""

    # ---- Text

    def text(self, head: str, roots: list[str]) -> str:
        entries = [self.entry(path) for path in roots]
        constants = {value: f"SKH_{name}" for name, value in self.sources.constants.items()}
        writer, ordered = Writer(constants, self.with_vectors), list(self.in_order(entries, set()))
        out = [head, *structs(ordered, head)]
        for title in (*forms.PARTS, "Calls"):
            texts = [self.function_text(own, writer) for own in ordered if own.title == title]
            lines = {name: f"#define {name} 0x{value:x}u" for value, name in constants.items()}
            lines |= {own.name: f"static const unsigned char {own.name}[] = {{{', '.join(map(str, values))}}};"
                      for values, own in self.arrays.items()}
            here = set(re.findall(r"\w+", " ".join(texts)))
            defines = [line for name, line in lines.items() if name in here and line not in out]
            out += [f"/* ---- {title} */\n", *defines, *([""] if defines else []), *texts] if texts else []
        return "\n".join(out)

    def in_order(self, functions: Iterable[Printed], seen: set[str]) -> Iterable[Printed]:
        """Each after those that it calls."""
        for own in functions:
            if own.name not in seen:
                seen.add(own.name)
                yield from self.in_order((self.by_name[name] for name in own.calls), seen)
                yield own

    def function_text(self, printed: Printed, writer: Writer) -> str:
        name_all(printed.body, {own.name for own in printed.parameters})
        for node in all_nodes(printed.body):
            if isinstance(node, Comment):
                node.text = self.in_c(node.text, printed)
        kept = [own for own, is_used in zip(printed.parameters, printed.is_used) if is_used]
        parameters = printed.head or ", ".join(own.type.declare(own.name) for own in kept) or "void"
        about = comment(printed.about if printed.head else [self.in_c(own, printed) for own in printed.about])
        body = [*requirements(printed.requires), *writer.lines(printed.body, printed.result), "}", ""]
        storage, type, name = printed.storage, printed.result.text, printed.name
        if name in self.with_vectors:
            parameters = f"bool has_vectors, {parameters}"
        if name not in self.chosen:
            return "\n".join([*about, f"{storage} {type} {name}({parameters}) {{", *body])
        names, give = ", ".join(own.name for own in kept), "return" * (printed.result != VOID)
        return "\n".join([*about, f"SKH_INLINE {type} {name}_any(bool has_vectors, {parameters}) {{", *body,
                          f"SKH_CHOOSE({storage}, {type}, {give}, {name}, ({parameters}), ({names}))", ""])

    def in_c(self, text: str, printed: Printed) -> str:
        """A comment with the names of C in place of those of the source. A function's own names are left."""
        words = {"None": "skh_none()", "usize::MAX": "UINT64_MAX", "MAX_BYTES": "128 MiB"}
        words |= {own.name: f"`{own.name}`" for own in printed.parameters}
        alike = sorted(self.by_name.values(), key=lambda own: own.name[-2:] == printed.name[-2:])  # of 32 or 64 bits

        def word(found: re.Match[str]) -> str:
            names = [own.name for own in alike if f"::{own.path}".endswith(f"::{found[1]}")]
            return words.get(found[1]) or f"`{names[-1] if names else found[1]}`"

        return re.sub(r"`([\w:]+)`", word, text)


def structs(functions: list[Printed], head: str) -> list[str]:
    """The structs that are neither in the header nor in the head of the text."""
    types = dict.fromkeys([own.result for own in functions] + [own.type for each in functions for own in each.parameters])
    return [f"{own.text} {{\n    uint64_t {', '.join(name for name, _ in own.members)};\n}};\n" for own in types
            if own.text.startswith("struct skh_") and isinstance(own, Struct) and f"{own.text} {{" not in head]


def requirements(text: str) -> list[str]:
    """What all callers ensure of the lengths that a separate function is given."""
    found = re.findall(r"\{ (?:(\d+) ≤ length (\w+)\.now|length (\w+)\.now < (\d+)) \}", text)
    every = [f"{least}_length >= {low}" if least else f"{most}_length < {high}" for low, least, most, high in found]
    return [f"SKH_REQUIRES({' && '.join(every)});"] if every else []


def name_all(nodes: list[Node], taken: set[str]) -> None:
    """Gives each variable a name that nothing around it has."""
    for node in nodes:
        own = node if isinstance(node, Declare) else node.counter if isinstance(node, While) else None
        inner = taken if isinstance(node, Declare) else set(taken)
        if own:
            base = own.variable.name or "x"
            if base in taken and isinstance(own.variable.type, Pointer):
                base += "_bytes"
            names = (f"{base}{count if count > 1 else ''}" for count in range(1, 99))
            own.variable.name = next(name for name in names if name not in taken)
            inner.add(own.variable.name)
        for each in lists_of(node):
            name_all(each, set(inner))
