"""Locals and memory: what is at a place, what is written to it, and pointers. What was to be read is read before a write."""
from __future__ import annotations

from typing import TYPE_CHECKING, NamedTuple

import forms
from expression import (CHANGES, NUMBERS, VOID, CType, Expression, Pointer, Struct, Variable, at, call, convert, number,
                        operation, value_of, variable)
from frames import Frame
from mir import BYTE, WORD, Given, Place, Statement, Type, Unknown
from statement import Declare, Do, Set
from values import (Bytes, Choice, InMemory, Key, Leaf, Parts, Path, Spelled, ToLocal, Undefined, Value, changed,
                    expression_of, is_free, leaves, parts_of, weight)

if TYPE_CHECKING:
    from library import Library


class Again(Exception):
    """A local has to be in memory from its beginning: evaluate once more."""


def has_bytes(value: Value) -> bool:
    return isinstance(value, Bytes) or isinstance(value, Parts) and any(map(has_bytes, value.parts))


class Where(NamedTuple):
    """A value of a type: a part of the local `key`, or what `pointer` points to, or a member of the struct there."""

    type: Type
    key: Key = (0, 0)
    path: Path = ()
    pointer: Expression | None = None
    member: Value | None = None
    variant: int | None = None  # of the enum that the path leads to


def member(base: Expression, name: str, form: CType | int, is_const: bool) -> Value:
    if isinstance(form, int):
        return Bytes(Expression("member", Pointer("unsigned char", 0, 1, is_const), (base, name)), form)
    return Expression("member", form, (base, name))


class Memory:
    """What the statements of one function of C have in common."""

    def __init__(self, library: Library, path: str, given: Given, result: CType):
        self.library, self.crates, self.path, self.given, self.result = library, library.crates, path, given, result
        self.in_memory: set[tuple[str, int]] = set()  # the locals whose addresses are passed on
        self.frames: list[Frame] = []

    def locate(self, frame: Frame, place: Place, leaf: Leaf) -> Where:
        where = Where(frame.given.type(frame.function.locals[place.local]), (frame.number, place.local))
        for step in place.steps:
            if step.word == "Deref":
                target, value = frame.given.type(step.of), self.read(where, leaf)
                if isinstance(value, ToLocal):
                    where = Where(target, value.key, value.path)
                elif isinstance(value, Expression) and isinstance(value.type, Pointer):
                    where = Where(target, pointer=value)
                else:
                    raise Unknown(f"{self.path}: what {value} points to")
            elif step.word == "Variant" and where.pointer is None and where.variant is None:
                where = where._replace(variant=step.of)
            elif step.word == "Field" and where.member is None:
                where = self.field(where, step.of)
            else:
                raise Unknown(f"{self.path}: a {step.word} of {where.type} in memory")
        return where

    def field(self, where: Where, index: int) -> Where:
        type = where.type
        if type.word == "Slice":
            inner = Type("Ref", type.args) if index == 0 else WORD
        else:
            word, fields = self.crates.shape(type)
            if word == "Variants":
                inner = BYTE if index == 0 else fields[where.variant][index - 1]
            else:
                inner = fields[index]
        if where.pointer is not None:
            name, form = self.library.struct(type).members[index]
            return where._replace(type=inner, member=member(where.pointer, name, form, where.pointer.type.is_const))
        variant = () if where.variant is None or index == 0 else (where.variant,)
        return Where(inner, where.key, (*where.path, *variant, index))

    def read(self, where: Where, leaf: Leaf, name: str = "block") -> Value:
        type, pointer = where.type, where.pointer
        if where.member is not None:
            return where.member
        if pointer is None:
            return self.part(leaf.env.get(where.key, Undefined()), where.path)
        if type.word == "Vector" and type.of.bits in (8, 32):
            pointer = self.named_pointer(pointer, leaf, name)
            return Parts(tuple(forms.load(at(pointer, number(4 * i, 64)), 32) for i in range(type.of.bits * type.count // 32)))
        if type.bits and type.bits // 8 == pointer.type.size:
            return Expression("element", NUMBERS[type.bits], (pointer,))
        if type.word == "Array" and type.of == BYTE and pointer.type.size == 1:
            return Bytes(pointer, type.count)
        raise Unknown(f"{self.path}: a read of {type} at {pointer.type.text}")

    def part(self, value: Value, path: Path) -> Value:
        """A part of what a local holds. That of an enum is its tag, or a variant and a field."""
        while path and not isinstance(value, Undefined):
            step, *rest = path
            if isinstance(value, Choice) and not rest:
                value = number(value.variant, 8)
            elif isinstance(value, Choice):
                value, rest = value.fields[rest[0] - 1] if step == value.variant else Undefined(), rest[1:]
            elif isinstance(value, Parts):
                value = value.parts[step]
            elif isinstance(value, Expression) and isinstance(value.type, Struct):
                if rest:  # the field of a variant
                    step, *rest = 1, *rest[1:]
                value = member(value, *value.type.members[step], True)
            else:
                raise Unknown(f"{self.path}: part {step} of {value}")
            path = tuple(rest)
        return value

    # ---- Variables

    def set(self, leaf: Leaf, own: Variable, value: Expression) -> None:
        own.is_set = True
        leaf.code.append(Set(variable(own), value))
        leaf.forget(lambda fact: own in fact.variables())
        leaf.pointers = {e: held for e, held in leaf.pointers.items() if own not in held.variables() | e.variables()}

    def variable_for(self, e: Expression, name: str, leaf: Leaf, may_reuse: bool = False) -> Expression:
        """A variable with this value: a new one, or one of this name that nothing reads any more."""
        if not name and isinstance(e.type, Struct):
            name = forms.local_name(e.type.text)
        old = leaf.scope.get(name) if may_reuse else None
        if old and old.type == e.type and not old.is_in_memory and old not in leaf.variables():
            self.set(leaf, old, e)
            return variable(old)
        own = Variable(name, e.type, is_temporary=not may_reuse)
        leaf.code.append(Declare(own, e))
        leaf.scope[name] = own
        return variable(own)

    def named_pointer(self, pointer: Expression, leaf: Leaf, name: str) -> Expression:
        """A pointer that is used several times, as a variable."""
        if pointer not in leaf.pointers:
            leaf.pointers[pointer] = self.variable_for(pointer, name, leaf, True)
        return leaf.pointers[pointer]

    def set_all(self, values: dict[Variable, Expression], leaf: Leaf) -> None:
        """Sets variables, each before what it reads is changed. What else still reads them becomes a variable before."""
        waiting = {own: e for own, e in values.items() if e != variable(own)}
        for e in dict.fromkeys(e for e in leaf.expressions() if not e.variables().isdisjoint(waiting)):
            new = self.variable_for(e, "", leaf)
            leaf.change(lambda own: own.replaced(e, new))
        while waiting:
            free = [own for own in waiting if not any(own in e.variables() for other, e in waiting.items() if other is not own)]
            if free:
                self.set(leaf, free[0], waiting.pop(free[0]))
                continue
            own = next(iter(waiting))
            old = self.variable_for(variable(own), own.name, leaf)
            waiting = {other: e.replaced(variable(own), old) for other, e in waiting.items()}

    # ---- Writes

    def keep(self, leaf: Leaf) -> None:
        """Before memory changes, what was to be read from it is read."""
        while found := next((e for value in leaf.env.values() if not isinstance(value, (Bytes, InMemory))
                             for e in leaves(value) if e.reads_memory()), None):
            new = self.variable_for(found, "", leaf)
            leaf.change(lambda e: e.replaced(found, new))
        if any(map(has_bytes, leaf.env.values())):
            raise Unknown(f"{self.path}: bytes that are read after memory changes")
        held = [value for value in leaf.env.values() if isinstance(value, InMemory)]
        if len(held) > len(set(held)):
            raise Unknown(f"{self.path}: a copy of what is in memory, after memory changes")
        leaf.forget(lambda fact: fact.reads_memory())

    def do(self, name: str, args: list[Expression], leaf: Leaf) -> None:
        self.keep(leaf)
        leaf.code.append(Do(call(name, VOID, args, CHANGES)))

    def store(self, place: Expression, value: Value, leaf: Leaf) -> None:
        self.keep(leaf)
        leaf.code.append(Set(place, expression_of(value)))

    def store_at(self, where: Where, value: Value, leaf: Leaf) -> None:
        type, pointer = where.type, where.pointer
        if where.member is not None:
            self.store_member(where.member, value, leaf)
        elif type.word == "Vector":
            self.store_vector(self.named_pointer(pointer, leaf, "place"), parts_of(value), leaf)
        elif type.bits and type.bits // 8 == pointer.type.size:
            self.store(Expression("element", NUMBERS[type.bits], (pointer,)), value, leaf)
        elif type.word == "Array" and type.of == BYTE:
            self.store_bytes(pointer, value, type.count, leaf)
        elif type.word == "Array" and type.of.bits in (32, 64):
            for i, part in enumerate(parts_of(value)):
                place = Expression("element", NUMBERS[type.of.bits], (at(pointer, number(type.of.bits // 8 * i, 64)),))
                self.store(place, part, leaf)
        elif type.word == "Named" and isinstance(value, Parts):
            for part, (name, form) in zip(value.parts, self.library.struct(type).members, strict=True):
                self.store_member(member(pointer, name, form, False), part, leaf)
        elif type.word == "Named":
            self.store(Expression("deref", self.library.struct(type), (pointer,)), value, leaf)
        else:
            raise Unknown(f"{self.path}: a write of {type}")

    def store_member(self, place: Value, value: Value, leaf: Leaf) -> None:
        if isinstance(place, Bytes):
            self.store_bytes(place.pointer, value, place.count, leaf)
        else:
            self.store(place, value, leaf)

    def store_vector(self, pointer: Expression, words: tuple[Value, ...], leaf: Leaf) -> None:
        """All words are read before one is written, unless each is read where it is written."""
        places = [at(pointer, number(4 * i, 64)) for i in range(len(words))]
        if any(part.args[2] != place for e, place in zip(words, places) for part in e.parts() if part.args[0] == "skh_load32"):
            words = tuple(self.variable_for(e, "word", leaf) for e in words)
        for place, word in zip(places, words):
            self.do("skh_store32", [place, word], leaf)

    def store_bytes(self, pointer: Expression, value: Value, count: int, leaf: Leaf) -> None:
        if pointer.type.size != 1:
            raise Unknown(f"{self.path}: bytes at {pointer.type.text}")
        if isinstance(value, Bytes) and count in (2, 4, 8):
            self.do(f"skh_store{8 * count}", [pointer, forms.load(value.pointer, 8 * count)], leaf)
        elif isinstance(value, Bytes):
            self.do("memmove", [pointer, value.pointer, number(count, 64)], leaf)
        elif isinstance(value, Parts) and all(value_of(part) == 0 for part in value.parts):
            self.do("memset", [pointer, number(0, 32), number(count, 64)], leaf)
        elif isinstance(value, Spelled) and 8 * count == value.number.type.bits and count in (8, 16):
            words = [value.number]
            if count == 16:
                whole = words[0] if weight(words[0]) == 0 else self.variable_for(words[0], "number", leaf)
                words = [convert(whole, 64), convert(operation(">>", whole, number(64, 128)), 64)]
            for i, each in enumerate(words):
                self.do("skh_store64", [at(pointer, number(8 * i, 64)), each], leaf)
        else:
            raise Unknown(f"{self.path}: a write of {count} bytes")

    # ---- Locals in memory

    def place_in_memory(self, type: Type, value: Value, name: str, leaf: Leaf) -> Variable:
        """An array of C, whose address may be passed on."""
        if type.word != "Array" or type.of.bits not in (8, 32, 64):
            raise Unknown(f"{self.path}: {name or 'a local'} of {type} in memory")
        own = Variable(name, forms.pointer_to(type, False, False, self.library.struct), type.count, is_in_memory=True)
        if isinstance(value, Spelled):
            own.is_set, own.name = True, name or "bytes"
            leaf.code.append(Declare(own, None))
            self.store_bytes(variable(own), value, type.count, leaf)
        else:
            own.is_set = all(value_of(part) == 0 for part in parts_of(value))
            elements = list(map(expression_of, parts_of(value)))
            leaf.code.append(Declare(own, elements[:1] if own.is_set else elements))
        return own

    def declare_struct(self, own: Variable, value: Parts, leaf: Leaf) -> None:
        """Declares a struct with its members. An array of bytes is written after the others."""
        if all(isinstance(part, Expression) for part in value.parts):
            leaf.code.append(Declare(own, list(value.parts)))
            return
        own.is_set = True
        leaf.code.append(Declare(own, None))
        for part, (name, form) in zip(value.parts, own.type.members, strict=True):
            self.store_member(member(variable(own), name, form, False), part, leaf)

    def address(self, where: Where) -> Value:
        if isinstance(where.member, Bytes):
            return where.member.pointer
        if where.member is not None:
            raise Unknown(f"{self.path}: the address of a member")
        return ToLocal(where.key, where.path) if where.pointer is None else where.pointer

    def pointer(self, value: Value, leaf: Leaf) -> Expression:
        """A pointer of C. A local that it points to is placed in memory."""
        if not isinstance(value, ToLocal):
            return expression_of(value)
        held = leaf.env.get(value.key)
        if isinstance(held, Expression) and isinstance(held.type, Struct) and held.word == "variable" and not value.path:
            held.args[0].is_set = held.args[0].is_in_memory = True
            held = leaf.env[value.key] = InMemory(held.args[0])
        if isinstance(held, InMemory) and not value.path:
            own = held.variable
            return variable(own) if own.count else Expression("address", Pointer(own.type.text, 0, 0), (variable(own),))
        at = (self.frames[value.key[0] - 1].function.path, value.key[1])
        if value.path or at in self.in_memory:
            raise Unknown(f"{self.path}: a pointer to {value}")
        self.in_memory.add(at)
        raise Again

    # ---- Assignments

    def assign(self, frame: Frame, s: Statement, value: Value, leaf: Leaf) -> None:
        if not s.place.steps:
            self.prune(frame, s, leaf)
            self.define(frame, s.place.local, value, leaf, s.after.get(s.place.local, 0))
            return
        where = self.locate(frame, s.place, leaf)
        self.prune(frame, s, leaf)
        if where.pointer is None:
            leaf.put(where.key, where.path, value)
        else:
            self.store_at(where, value, leaf)

    def prune(self, frame: Frame, s: Statement, leaf: Leaf) -> set[Key]:
        """Forgets all locals but those that are still read, which it returns."""
        keep = {(frame.number, local) for local in s.after} | frame.caller_keys
        leaf.env = {key: value for key, value in leaf.env.items() if key in keep}
        return keep

    def define(self, frame: Frame, local: int, value: Value, leaf: Leaf, reads: int) -> None:
        """Gives a local its value: as a variable of C, if it has a name or is read several times."""
        key, name, type = (frame.number, local), frame.name(local), frame.given.type(frame.function.locals[local])
        if (frame.function.path, local) in self.in_memory:
            leaf.env[key] = InMemory(self.place_in_memory(type, value, name, leaf))
            return
        is_parameter, is_slice = local < frame.first, type.word == "Slice"
        is_named = local in frame.names and not is_parameter
        names = [name, name + ("_length" if is_slice and type.of == BYTE else "_count")]
        if local in frame.names and frame.sets.get(local, 0) > (0 if is_parameter else 1):
            leaf.env[key] = leaf.owned[key] = self.settled(leaf.owned.get(key), value, names, leaf)
            return
        if isinstance(value, Parts) and not is_slice and not is_named or type.word == "Vector":
            leaf.env[key] = value  # its parts are read one by one
            return
        # How much may be written again. A number with a name is written once, and a slice that is cut into pieces gets a name.
        most = 0 if is_named and not is_slice or frame.function.path == forms.CUTS[0] and is_parameter else 2
        may_be_inside = reads < 2 and (is_slice or not is_named or type.word == "Ref" or frame is not self.frames[0])

        def settle(e: Expression) -> Expression:
            if weight(e) <= most or may_be_inside:
                return e
            return self.variable_for(e, names[is_slice and e.type.bits > 0], leaf, is_named)

        leaf.env[key] = changed(value, settle)

    def settled(self, old: Value | None, value: Value, names: list[str], leaf: Leaf) -> Value:
        """The value of a local that is set several times, in variables of its own. `old` is what it had before."""
        values = list(map(expression_of, value.parts if isinstance(value, Parts) else [value]))
        olds = old.parts if isinstance(old, Parts) else [old] * len(values)
        out: list[Expression] = []
        waiting: dict[Variable, Expression] = {}
        for before, e, name in zip(olds, values, names, strict=False):
            if before is not None:
                own = before.args[0]
                waiting[own] = e
            elif is_free(e, leaf.variables()):
                own = e.args[0]
            else:
                own = Variable(name, e.type)
                leaf.code.append(Declare(own, e))
            out.append(variable(own))
        self.set_all(waiting, leaf)
        return Parts(tuple(out)) if isinstance(value, Parts) else out[0]
