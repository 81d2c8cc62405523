"""Evaluates the body of a function on unknown values. What it does becomes statements of C.

Functions of the standard library, closures, and functions whose types have no form in C are evaluated where they are called.
"""
from __future__ import annotations

from typing import TYPE_CHECKING

import forms
import liveness
from choices import Choices
from expression import CHANGES, VOID, Expression, Struct, Variable, at, call, number, operation, value_of, variable
from frames import Frame
from memory import Again
from mir import Given, Operand, Place, Statement, Unknown, number_of
from statement import Do, Give, Node
from values import END, RETURN, UNIT, Bytes, Choice, InMemory, Key, Leaf, Parts, ToLocal, Value, expression_of, parts_of

if TYPE_CHECKING:
    from library import Printed


class Body(Choices):
    """The statements of one function of C."""

    def evaluate(self, values: list[Value], parameters: list[Variable]) -> list[Node]:
        self.frames = []
        root = self.frame(self.path, self.given, set())
        env = {(root.number, local): value for local, value in enumerate(values, 1)}
        leaf = Leaf(env, [], {own.name: own for own in parameters}, owned=dict(env))
        try:
            self.run(root, root.function.body, leaf, True)
        except Again:
            return self.evaluate(values, parameters)
        return leaf.code

    def step(self, frame: Frame, s: Statement, leaf: Leaf, tail: bool) -> list[Leaf]:
        if s.word == "Call":
            return self.call(frame, s, leaf, tail)
        if s.word == "If":
            return self.when(frame, list(zip(s.of, s.bodies)), self.operand(frame, s.operands[0], leaf), leaf, tail)
        if s.word == "Block":
            return [self.left(own) for own in self.run(frame, s.bodies[0], leaf, tail)]
        if s.word == "Loop":
            return self.loop(frame, s, leaf)
        if s.word == "Exit":
            leaf.target = s.of
        elif s.word != "Return":
            self.assign(frame, s, self.right(frame, s, leaf), leaf)
        elif frame is self.frames[0]:
            value = leaf.env.get((frame.number, 0), UNIT)
            leaf.code.append(Give(None if self.result == VOID else self.given_value(value, leaf)))
            return []
        else:
            leaf.target = RETURN
        return [leaf]

    def operand(self, frame: Frame, operand: Operand, leaf: Leaf, name: str = "block") -> Value:
        if isinstance(operand, Place):
            return self.read(self.locate(frame, operand, leaf), leaf, name)
        if operand.word == "Unit":
            return UNIT
        if operand.word == "Int":
            return number(operand.of, operand.bits)
        type = frame.given.type(operand.of)
        return number(number_of(type) if operand.word == "NumOf" else forms.size_of(type), operand.bits)

    def right(self, frame: Frame, s: Statement, leaf: Leaf) -> Value:
        if s.word == "LendStatic":
            return self.library.constant(*s.of)
        if s.word == "AddrOf":
            return self.address(self.locate(frame, s.operands[0], leaf))
        values = [self.operand(frame, own, leaf, frame.name(s.place.local) or "block") for own in s.operands]
        if s.word == "Opd":
            return values[0]
        if s.word == "Aggregate":
            type = self.locate(frame, s.place, leaf).type
            if type.word == "Named" and self.crates.shape(type)[0] == "Variants":
                if value_of(values[0]) is None:
                    raise Unknown(f"{self.path}: an enum with an unknown tag")
                return Choice(values[0].args[0], tuple(values[1:]))
            return Parts(tuple(values))
        if s.word == "Repeat":
            return Parts(tuple(values) * number_of(frame.given.type(s.of)))
        if s.word == "Op1":
            return forms.one(s.of, expression_of(values[0]))
        if s.word == "Op2" and s.of == "Offset":
            return self.offset(values[0], expression_of(values[1]), leaf)
        if s.word == "Op2":
            return operation(forms.operator_of(s.of), *map(expression_of, values))
        return forms.vector(s, values, self.locate(frame, s.place, leaf).type)

    def offset(self, base: Value, offset: Expression, leaf: Leaf) -> Value:
        """A pointer so many bytes after another."""
        held = self.part(leaf.env[base.key], base.path) if isinstance(base, ToLocal) else None
        if isinstance(held, Parts) and value_of(offset) is not None:
            size = held.parts[0].type.bits // 8
            if value_of(offset) % size:
                raise Unknown(f"{self.path}: an offset that is no multiple of {size}")
            return ToLocal(base.key, (*base.path, value_of(offset) // size))
        return at(self.pointer(base, leaf), offset)

    # ---- Calls

    def frame(self, path: str, given: Given, caller_keys: set[Key]) -> Frame:
        if len(self.frames) > 2000:
            raise Unknown(f"{self.path}: too many calls to be written out")
        function = self.crates.function(path)
        if not function.entry:
            liveness.mark(function)
        self.frames.append(Frame(len(self.frames) + 1, function, given, self.library.sources.of(path), caller_keys))
        return self.frames[-1]

    def call(self, frame: Frame, s: Statement, leaf: Leaf, tail: bool) -> list[Leaf]:
        path, given = self.crates.resolve(s, frame.given)
        args, value = [self.operand(frame, own, leaf) for own in s.operands], UNIT
        if path in forms.CALLS:
            value = forms.CALLS[path](*args)
        elif path == forms.COPY:
            self.copy_slice(parts_of(args[0]), parts_of(args[1]), leaf)
        elif not path.endswith("Destruct++none::drop"):
            printed = self.library.printed(path, given)
            if printed is None:
                return self.write_out(frame, s, path, given, args, leaf, tail)
            value = self.call_printed(frame, s, printed, args, leaf)
        self.assign(frame, s, value, leaf)
        return [leaf]

    def copy_slice(self, place: tuple[Value, ...], origin: tuple[Value, ...], leaf: Leaf) -> None:
        to, count = place[0], value_of(place[1])
        if count is None:
            raise Unknown(f"{self.path}: a copy of unknown length")
        if isinstance(to, ToLocal) and not isinstance(leaf.env.get(to.key), InMemory) and not to.path:
            leaf.env[to.key] = Bytes(self.pointer(origin[0], leaf), count)
        else:
            self.do("memcpy", [self.pointer(to, leaf), self.pointer(origin[0], leaf), number(count, 64)], leaf)

    def write_out(self, frame: Frame, s: Statement, path: str, given: Given, args: list[Value], leaf: Leaf,
                  tail: bool) -> list[Leaf]:
        """Evaluates the called function here."""
        inner = self.frame(path, given, self.prune(frame, s, leaf))
        for local, (arg, operand) in enumerate(zip(args, s.operands), 1):
            here = frame.name(operand.local) if isinstance(operand, Place) and not operand.steps else ""
            if here and path in forms.CUTS:
                inner.names[local] = here
            if isinstance(arg, Expression) and arg.word == "call" and arg.args[0] in self.library.by_name:
                arg = self.variable_for(arg, inner.name(local), leaf)  # it is called before the function
            self.define(inner, local, arg, leaf, inner.function.entry.get(local, 0))
        out, result = self.run(inner, inner.function.body, leaf, tail), (inner.number, 0)
        for own in out:
            if own.target != RETURN:
                raise Unknown(f"{path}: it ends without a return")
            own.target = END
            self.assign(frame, s, own.env.get(result, UNIT), own)
        return out

    def call_printed(self, frame: Frame, s: Statement, printed: Printed, args: list[Value], leaf: Leaf) -> Value:
        """A call of a function of C. One that changes memory is a statement."""
        parts = [parts_of(arg) if type.word == "Slice" else (arg,) for arg, type in zip(args, printed.types, strict=True)]
        flat = [self.pointer(own, leaf) for each in parts for own in each]
        flat = [own for own, is_used in zip(flat, printed.is_used, strict=True) if is_used]
        e = call(printed.name, printed.result, flat, printed.effect)
        self.prune(frame, s, leaf)
        if printed.effect == CHANGES:
            self.keep(leaf)
        if printed.result == VOID:
            leaf.code.append(Do(e))
            return UNIT
        if printed.effect == CHANGES or printed.result in (forms.PAIR, forms.OPTION, forms.RESULT):
            e = self.variable_for(e, frame.name(s.place.local), leaf, True)
        return Parts(tuple(self.part(e, (at,)) for at in (0, 1))) if printed.result == forms.PAIR else e

    # ---- Results

    def given_value(self, value: Value, leaf: Leaf) -> Expression:
        if self.result == forms.PAIR and isinstance(value, Parts):
            a, b = map(expression_of, value.parts)
            if a.word == b.word == "member" and a.args[0] == b.args[0] and (a.args[1], b.args[1]) == ("first", "second"):
                return a.args[0]
            return call("skh_pair_of", forms.PAIR, [a, b])
        if isinstance(value, Choice) and self.result in (forms.OPTION, forms.RESULT):
            fields = [own for own in value.fields if isinstance(own, Expression)]
            if self.result == forms.OPTION:
                return call("skh_some" if value.variant else "skh_none", forms.OPTION, fields)
            return call("skh_error" if value.variant else "skh_ok", forms.RESULT, fields or [number(0, 64)])
        if isinstance(self.result, Struct) and isinstance(value, Parts):
            own = Variable(forms.local_name(self.result.text), self.result)
            self.declare_struct(own, value, leaf)
            return variable(own)
        return expression_of(value)
