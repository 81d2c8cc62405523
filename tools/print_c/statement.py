"""Statements of C, and how they become shorter."""
from __future__ import annotations

from collections import Counter
from dataclasses import dataclass
from itertools import groupby
from typing import Callable, Iterable, Iterator

from expression import CHANGES, Expression, Variable, negate, value_of, variable
from mir import Unknown


@dataclass(eq=False)
class Node:
    """A statement."""


@dataclass(eq=False)
class Declare(Node):
    """`value` is None if it comes later, or a list for each element of an array."""

    variable: Variable
    value: Expression | list[Expression] | None


@dataclass(eq=False)
class Set(Node):
    """Gives a variable, a member or an element of an array another value."""

    place: Expression
    value: Expression


@dataclass(eq=False)
class Do(Node):
    call: Expression


@dataclass(eq=False)
class When(Node):
    condition: Expression
    yes: list[Node]
    no: list[Node]
    expected: str = ""  # the macro that says so


@dataclass(eq=False)
class Switch(Node):
    """Cases that each leave the function. What is done for any other number follows it."""

    of: Expression
    cases: list[tuple[Expression, list[Node]]]


@dataclass(eq=False)
class While(Node):
    """`counter` is what a `for` declares, and counts up at the end of each turn."""

    condition: Expression | None
    body: list[Node]
    counter: Declare | None = None


@dataclass(eq=False)
class Break(Node):
    """Leaves the loop."""


@dataclass(eq=False)
class Give(Node):
    """Returns a value, or nothing."""

    value: Expression | None


@dataclass(eq=False)
class Comment(Node):
    text: str


def lists_of(node: Node) -> list[list[Node]]:
    if isinstance(node, Switch):
        return [nodes for _, nodes in node.cases]
    return [node.yes, node.no] if isinstance(node, When) else [node.body] if isinstance(node, While) else []


def all_nodes(nodes: list[Node]) -> Iterator[Node]:
    for node in nodes:
        yield node
        for inner in lists_of(node):
            yield from all_nodes(inner)
        if isinstance(node, While) and node.counter:
            yield node.counter


def size(nodes: list[Node]) -> int:
    return sum(1 for _ in all_nodes(nodes))


def change(node: Node, new: Callable[[Expression], Expression]) -> None:
    """Changes what a statement reads. A variable that is set is not read."""
    if isinstance(node, Declare) and isinstance(node.value, list):
        node.value = list(map(new, node.value))
    elif isinstance(node, (Declare, Set, Give)) and node.value is not None:
        node.value = new(node.value)
    if isinstance(node, Set):
        node.place = node.place.changed(new)
    elif isinstance(node, Do):
        node.call = new(node.call)
    elif isinstance(node, (When, While)) and node.condition is not None:
        node.condition = new(node.condition)
    elif isinstance(node, Switch):
        node.of = new(node.of)


def expressions_of(node: Node) -> list[Expression]:
    found: list[Expression] = []
    change(node, lambda e: found.append(e) or e)
    return found


def ends(nodes: list[Node]) -> bool:
    """Whether nothing after these is reached. If both arms end, tidy has put the second one after the first."""
    return bool(nodes) and isinstance(nodes[-1], (Give, Break))


def reads_of(nodes: list[Node]) -> Counter[Variable]:
    """How often variables are read."""
    parts = (part for node in all_nodes(nodes) for e in expressions_of(node) for part in e.parts())
    return Counter(part.args[0] for part in parts if part.word == "variable")


def must_be_declared(nodes: list[Node], known: Iterable[Variable]) -> None:
    """What is read or set is declared before it, in the same block or around it."""
    seen = set(known)
    for node in nodes:
        inner = seen
        if isinstance(node, While) and node.counter:
            must_be_declared([node.counter], seen)
            inner = seen | {node.counter.variable}
        places = [node.place] if isinstance(node, Set) else []
        for part in (part for e in expressions_of(node) + places for part in e.parts()):
            if part.word == "variable" and part.args[0] not in inner:
                raise Unknown(f"a variable outside of its block: {part.args[0].name}")
        for each in lists_of(node):
            must_be_declared(each, inner)
        if isinstance(node, Declare):
            seen.add(node.variable)


def rewritten(nodes: list[Node], rule: Callable[[Node, Node | None], list[Node]]) -> list[Node]:
    """With what a rule makes of each statement and the next one, from the inside out."""
    out: list[Node] = []
    for node, following in zip(nodes, [*nodes[1:], None]):
        for each in lists_of(node):
            each[:] = rewritten(each, rule)
        out += rule(node, following)
    return out


def without_unread(nodes: list[Node]) -> list[Node]:
    """Without variables that nobody reads, and conditions on which nothing depends. A call that has an effect is kept."""
    reads, count = reads_of(nodes), size(nodes)

    def read_or_done(node: Node, _: Node | None) -> list[Node]:
        own = node.variable if isinstance(node, Declare) else \
            node.place.args[0] if isinstance(node, Set) and node.place.word == "variable" else None
        if own is not None and own not in reads and not own.is_in_memory:
            return [Do(e) for e in expressions_of(node) if e.effect() == CHANGES]
        return [node] if not isinstance(node, When) or node.yes or node.no else []

    out = rewritten(nodes, read_or_done)
    return out if size(out) == count else without_unread(out)


def inline_once(nodes: list[Node]) -> list[Node]:
    """A value without a name that only the next statement reads, once, is written there. So is one that it returns."""
    reads = reads_of(nodes)

    def inlined(node: Node, following: Node | None) -> list[Node]:
        if isinstance(node, Declare) and isinstance(node.value, Expression) and following is not None:
            own, read = node.variable, [part for e in expressions_of(following) for part in e.parts()]
            is_once = own.is_temporary and not own.is_set and reads[own] == 1 and variable(own) in read
            if is_once or isinstance(following, Give) and following.value == variable(own):
                change(following, lambda e: e.replaced(variable(own), node.value))
                return []
        return [node]

    return rewritten(nodes, inlined)


def arranged(node: When, is_last: bool) -> When:
    """The arm that leaves is the first, without `!` if there is a choice."""
    condition, yes, no = node.condition, tidy(node.yes, is_last), tidy(node.no, is_last)
    if not yes or ends(no) and (not ends(yes) or size(no) < size(yes) + (condition.word == "!")):
        condition, yes, no = negate(condition), no, yes
    return When(condition, yes, no)


def tidy(nodes: list[Node], is_last: bool = True) -> list[Node]:
    """Arms that leave take what follows out of the other arm; loops get their conditions and counters."""
    out: list[Node] = []
    nodes = list(nodes)
    while nodes:
        node, before = nodes.pop(0), out[-1] if out else None
        if isinstance(node, When):
            node = arranged(node, is_last and not nodes)
            if isinstance(before, When) and not node.no and gives(before.yes) == gives(node.yes) != []:
                before.condition = Expression("||", node.condition.type, (before.condition, node.condition))
                continue
            if ends(node.yes):
                node.no, nodes = [], node.no + nodes
        elif isinstance(node, While) and node.condition is None:
            node = loop(While(None, tidy(node.body, False)))
            step = node.body[-1] if node.body and node.condition is not None else None
            if isinstance(step, Set) and is_count(step) and isinstance(before, Declare) \
                    and step.place == variable(before.variable) and before.variable not in reads_of(nodes):
                out.pop()
                node = While(node.condition, node.body[:-1], before)
        out.append(node)
    if is_last and out and isinstance(out[-1], Give) and out[-1].value is None:
        out.pop()
    return out


def with_switches(nodes: list[Node]) -> list[Node]:
    """More than three conditions in a row that compare one value with numbers, and leave, become cases."""
    out: list[Node] = []
    for node in nodes:
        for each in lists_of(node):
            each[:] = with_switches(each)
    for value, group in groupby(nodes, compared):
        own = list(group)
        is_long = value is not None and len(own) > 3
        out += [Switch(value, [(node.condition.args[1], node.yes) for node in own])] if is_long else own
    return out


def compared(node: Node) -> Expression | None:
    """The value of which a condition asks whether it is one number, and then leaves the function."""
    if isinstance(node, When) and not node.no and node.condition.word == "==" and isinstance(node.yes[-1], Give):
        value, number = node.condition.args
        if value_of(number) is not None and not any(isinstance(each, Break) for each in all_nodes(node.yes)):
            return value
    return None


def gives(nodes: list[Node]) -> list[Expression | None]:
    """What is returned where nothing else is done."""
    return [node.value for node in nodes if isinstance(node, Give) and len(nodes) == 1]


def is_count(node: Set) -> bool:
    """i = i + 1, where C has ++"""
    value = node.value
    return value.word == "+" and value.args[0] == node.place and value_of(value.args[1]) == 1 and value.type.bits <= 64


def loop(node: While) -> While:
    """`while (c)` if the loop begins with what leaves it."""
    head = node.body[0] if node.body else None
    if isinstance(head, When) and not head.no and len(head.yes) == 1 and isinstance(head.yes[0], Break):
        return While(negate(head.condition), node.body[1:])
    return node
