"""What locals hold while a body is evaluated, and what is known at a place of it."""
from __future__ import annotations

from dataclasses import dataclass, field, replace
from typing import Any, Callable, Iterator

from expression import Expression, Variable, negate, value_of, variable
from mir import Unknown
from statement import Node

Key = tuple[int, int]  # a frame and a local of it
Path = tuple[int, ...]  # the fields that lead to a part


@dataclass(frozen=True)
class Parts:
    """A struct, a tuple, a slice, an array or a vector, by its parts."""

    parts: tuple[Value, ...]


@dataclass(frozen=True)
class Choice:
    """An enum of a variant that is known, and the fields of it."""

    variant: int
    fields: tuple[Value, ...]


@dataclass(frozen=True)
class ToLocal:
    """The address of a local, or of a part of it."""

    key: Key
    path: Path = ()


@dataclass(frozen=True)
class Bytes:
    """A copy of bytes that are at a pointer."""

    pointer: Expression
    count: int


@dataclass(frozen=True)
class Spelled:
    """The bytes of a number, the lowest first."""

    number: Expression


@dataclass(frozen=True)
class InMemory:
    """What a struct or an array of C holds."""

    variable: Variable


@dataclass(frozen=True)
class Undefined:
    pass


Value = Expression | Parts | Choice | ToLocal | Bytes | Spelled | InMemory | Undefined
UNIT = Parts(())


def changed(value: Value, change: Callable[[Expression], Expression]) -> Value:
    """The value with each expression changed."""
    if isinstance(value, Expression):
        return change(value)
    if isinstance(value, Parts):
        return Parts(tuple(changed(part, change) for part in value.parts))
    if isinstance(value, Choice):
        return Choice(value.variant, tuple(changed(part, change) for part in value.fields))
    if isinstance(value, Bytes):
        return Bytes(change(value.pointer), value.count)
    return Spelled(change(value.number)) if isinstance(value, Spelled) else value


def leaves(value: Value) -> Iterator[Expression]:
    """The expressions of a value."""
    found: list[Expression] = [variable(value.variable)] if isinstance(value, InMemory) else []
    changed(value, lambda e: found.append(e) or e)
    return iter(found)


def common(several: list[dict[Any, Any]]) -> dict[Any, Any]:
    """What all have alike."""
    return {key: own for key, own in several[0].items() if all(other.get(key) == own for other in several)}


def expression_of(value: Value) -> Expression:
    if isinstance(value, InMemory):
        return variable(value.variable)
    if not isinstance(value, Expression):
        raise Unknown(f"{value} in place of a number")
    return value


def parts_of(value: Value) -> tuple[Value, ...]:
    if not isinstance(value, Parts):
        raise Unknown(f"the parts of {value}")
    return value.parts


def put(value: Value, path: Path, new: Value) -> Value:
    """A value with another part."""
    if not path:
        return new
    return Parts(tuple(put(part, path[1:], new) if i == path[0] else part for i, part in enumerate(parts_of(value))))


def differences(a: Value, b: Value, path: Path = ()) -> list[Path]:
    """The paths to the numbers in which two values of one shape differ."""
    if a == b:
        return []
    if isinstance(a, Parts) and isinstance(b, Parts) and len(a.parts) == len(b.parts):
        return [found for i, (x, y) in enumerate(zip(a.parts, b.parts)) for found in differences(x, y, (*path, i))]
    if isinstance(a, Expression) and isinstance(b, Expression):
        return [path]
    raise Unknown(f"a loop that changes {a} to {b}")


def weight(e: Expression) -> int:
    """How much is written again if an expression is written twice. What reads memory or calls weighs most."""
    if e.word in ("number", "variable", "address"):
        return 0
    if e.word == "member" and e.args[0].word == "variable" and not e.reads_memory():
        return 0
    if e.word in ("call", "element", "member", "deref", "?", "any") or e.word == "cast" and e.type.bits == 0:
        return 99
    return sum(weight(arg) for arg in e.args if isinstance(arg, Expression)) + (e.word != "cast")


def is_free(e: Expression, used: set[Variable]) -> bool:
    """Whether it is a variable that may be set, since nothing else that is used has its value."""
    return e.word == "variable" and not e.args[0].is_in_memory and e.args[0] not in used


END, RETURN = "end", "return"


@dataclass(eq=False)
class Leaf:
    """A place where evaluation stands: what locals hold, what is known, where statements go, where it leads to.

    `target` is END, RETURN, or the number of blocks and loops that an exit still has to leave.
    """

    env: dict[Key, Value]
    code: list[Node]
    scope: dict[str, Variable]
    facts: frozenset[Expression] = frozenset()  # the conditions that hold
    target: str | int = END
    owned: dict[Key, Value] = field(default_factory=dict)  # the variables of locals that are set several times
    pointers: dict[Expression, Expression] = field(default_factory=dict)  # the variables that hold them

    def at(self, code: list[Node], env: dict[Key, Value] | None = None) -> Leaf:
        """The same elsewhere in the text."""
        return replace(self, env=dict(self.env if env is None else env), code=code, scope=dict(self.scope),
                       owned=dict(self.owned), pointers=dict(self.pointers))

    def branch(self, condition: Expression, code: list[Node]) -> Leaf:
        leaf = self.at(code)
        leaf.facts |= {condition}
        return leaf

    def known(self, condition: Expression) -> bool | None:
        if value_of(condition) is not None:
            return bool(value_of(condition))
        return True if condition in self.facts else False if negate(condition) in self.facts else None

    def change(self, change: Callable[[Expression], Expression]) -> None:
        self.env = {key: changed(value, change) for key, value in self.env.items()}

    def expressions(self) -> Iterator[Expression]:
        """Those that the locals hold."""
        return (e for value in self.env.values() for e in leaves(value))

    def variables(self) -> set[Variable]:
        return {own for e in self.expressions() for own in e.variables()}

    def forget(self, is_stale: Callable[[Expression], bool]) -> None:
        self.facts = frozenset(fact for fact in self.facts if not is_stale(fact))

    def put(self, key: Key, path: Path, value: Value) -> None:
        self.env[key] = put(self.env[key], path, value)
