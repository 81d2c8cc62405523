"""Functions while they are evaluated: the names of their locals, and the places of their comments."""
from __future__ import annotations

from os.path import commonprefix

from mir import Function, Given, Place, Statement, Unknown
from source import Source
from values import Key


class Frame:
    """The function that is printed, or one that is written out in it."""

    def __init__(self, number: int, function: Function, given: Given, source: Source, caller_keys: set[Key]):
        self.number, self.function, self.given, self.caller_keys = number, function, given, caller_keys
        self.first = function.parameter_count + 1  # the first local that is no parameter
        self.names = {local: name for local, name in enumerate(source.parameters, 1) if name != "self"}
        self.names |= {self.first + i: name for i, name in enumerate(source.bound) if name}
        self.sets: dict[int, int] = {}  # how often a local is set
        self.comments: dict[int, str] = {}  # by the identity of the statement
        self.hints: dict[int, str] = {}
        self.scan(function.body, source, {})
        if len(self.comments) != len(source.comments):
            raise Unknown(f"{function.path}: the place of one of its comments")

    def scan(self, statements: list[Statement], source: Source, calls: dict[str, int]) -> None:
        """Counts how often locals are set, and finds the statements of comments, and names for locals that are copied."""
        for s in statements:
            for body in s.bodies:
                self.scan(body, source, calls)
            if s.place is None:
                continue
            local, called = s.place.local, s.of[0].split("::")[-1] if s.word == "Call" and isinstance(s.of[0], str) else ""
            if not s.place.steps:
                self.sets[local] = self.sets.get(local, 0) + 1
            for comment in source.comments:
                is_bound = not s.place.steps and comment.binding == local - self.first and self.sets[local] == 1
                if (is_bound or (called, calls.get(called, 0)) in comment.calls) and comment.text not in self.comments.values():
                    self.comments[id(s)] = comment.text
            calls[called] = calls.get(called, 0) + 1
            if s.word == "Opd" and isinstance(s.operands[0], Place) and len(s.operands[0].steps) == 1 and not s.place.steps:
                self.hint(s.operands[0].local, self.names.get(local))

    def hint(self, local: int, name: str | None) -> None:
        """A pair takes its name from those of what its parts are copied to: h of h1 and h2, low_high of low and high."""
        if name:
            known = self.hints.get(local)
            self.hints[local] = commonprefix([known, name]) or f"{known}_{name}" if known else name.rstrip("0123456789")

    def name(self, local: int) -> str:
        return self.names.get(local) or self.hints.get(local) or ""
