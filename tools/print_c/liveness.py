"""How often each local is read after a statement, before it is set again: never, once, or several times."""
from __future__ import annotations

from collections import Counter
from functools import reduce

from mir import Function, Operand, Place, Statement

Counts = Counter[int]  # of the ways that go on at a place, a | b is the one that reads a local most often
SEVERAL = 2


def added(counts: Counts, operands: tuple[Operand, ...]) -> Counts:
    more = counts + Counter(operand.local for operand in operands if isinstance(operand, Place))
    return Counter({local: min(SEVERAL, count) for local, count in more.items()})


def mark(function: Function) -> None:
    """Sets `after` of each statement. A local whose address is taken counts as read to the end."""
    always = {local: SEVERAL for local, has in enumerate(function.has_address) if has}

    def before_all(statements: list[Statement], after: Counts, around: list[Counts]) -> Counts:
        for statement in reversed(statements):
            after = before(statement, after, around)
        return after

    def before(statement: Statement, after: Counts, around: list[Counts]) -> Counts:
        """What is read from this statement on. `around` is what is read behind each block and loop around it."""
        statement.after = {**after, **always}
        if statement.word == "Return":
            return Counter([0])
        if statement.word == "Exit":
            return around[-1 - statement.of]
        if statement.word == "If":
            after = reduce(Counter.__or__, (before_all(body, after, around) for body in statement.bodies))
        elif statement.word == "Block":
            return before_all(statement.bodies[0], after, [*around, after])
        elif statement.word == "Loop":
            head: Counts = Counter()
            while (more := head | before_all(statement.bodies[0], head, [*around, after])) != head:
                head = more
            return head
        elif statement.place.steps:
            after = added(after, (statement.place,))
        else:
            after = Counter({local: count for local, count in after.items() if local != statement.place.local})
        return added(after, statement.operands)

    function.entry = before_all(function.body, Counter(), [])
