"""Conditions, where ways part and meet, and loops."""
from __future__ import annotations

from expression import BOOL, Expression, Variable, choose, has_value, negate, value_of, variable
from frames import Frame
from memory import Memory
from mir import Statement, Unknown
from statement import Break, Comment, Declare, Node, When, While, all_nodes
from values import END, Key, Leaf, Parts, Path, Undefined, Value, common, differences, expression_of, is_free

Arm = tuple[list[int], list[Statement]]  # the values that lead to it, and what it does
Merges = list[tuple[Variable, list[Expression]]]  # a new variable, and its value on each way


class Choices(Memory):
    def run(self, frame: Frame, statements: list[Statement], leaf: Leaf, tail: bool) -> list[Leaf]:
        """The leaves after these statements. `tail`: whether what follows them only returns a value."""
        out: list[Leaf] = []
        for i, s in enumerate(statements):
            only_returns = tail and all(own.word in ("Opd", "Aggregate", "Return") for own in statements[i + 1:])
            if id(s) in frame.comments:
                leaf.code.append(Comment(frame.comments[id(s)]))
            code, came = leaf.code, self.step(frame, s, leaf, only_returns)
            going = [own for own in came if own.target == END]
            out += [own for own in came if own.target != END]
            if len(going) > 1 and i + 1 < len(statements):
                one = None if len(going) < len(came) or only_returns else self.join(going, code)
                if one is None:
                    return out + [end for own in going for end in self.run(frame, statements[i + 1:], own, tail)]
                going = [one]
            if len(going) != 1:
                return out + going
            leaf = going[0]
        return out + [leaf]

    @staticmethod
    def left(leaf: Leaf) -> Leaf:
        """A leaf behind the end of a block that it may leave."""
        if isinstance(leaf.target, int):
            leaf.target = END if leaf.target == 0 else leaf.target - 1
        return leaf

    def when(self, frame: Frame, arms: list[Arm], value: Value, leaf: Leaf, tail: bool) -> list[Leaf]:
        values, arm = arms[0]
        known = {test: leaf.known(test) for test in (has_value(expression_of(value), own) for own in values)}
        if len(arms) == 1 or True in known.values():
            return self.run(frame, arm, leaf, tail)
        open_tests = [test for test, holds in known.items() if holds is None]
        if not open_tests:
            return self.when(frame, arms[1:], value, leaf, tail)
        condition = open_tests[0]
        for test in open_tests[1:]:
            condition = Expression("||", BOOL, (condition, test))
        node = When(condition, [], [])
        leaf.code.append(node)
        yes = self.run(frame, arm, leaf.branch(condition, node.yes), tail)
        return yes + self.when(frame, arms[1:], value, leaf.branch(negate(condition), node.no), tail)

    # ---- Ways that meet

    def join(self, going: list[Leaf], code: list[Node]) -> Leaf | None:
        """One leaf after all of these, or None if what they know is better kept apart."""
        first, merges, env = going[0], [], {}
        for key in set.intersection(*(set(own.env) for own in going)):
            env[key] = self.merged([own.env[key] for own in going], merges, key)
            if env[key] is None:
                return None
        leaf = first.at(code, env)
        leaf.scope = common([own.scope for own in going])
        leaf.owned = common([own.owned for own in going])
        leaf.pointers = common([own.pointers for own in going])
        leaf.facts = frozenset.intersection(*(own.facts for own in going))
        node = code[-1]
        if isinstance(node, When) and not node.yes and not node.no and len(going) == 2 and len(merges) == 1:
            place, (yes, no) = merges[0]
            if "?" not in (yes.word, no.word) and first.code is node.yes:
                leaf.change(lambda e: e.replaced(variable(place), choose(node.condition, yes, no)))
                return leaf
        self.settle(merges, going, leaf, code)
        return leaf

    def merged(self, values: list[Value], merges: Merges, key: Key) -> Value | None:
        first = values[0]
        if all(value == first for value in values):
            return first
        if all(isinstance(value, Expression) for value in values):
            if any(value.type != first.type for value in values):
                raise Unknown(f"{self.path}: values of different types meet: {[value.type.text for value in values]}")
            merges.append((Variable(self.frames[key[0] - 1].name(key[1]), first.type), values))
            return variable(merges[-1][0])
        if all(isinstance(value, Parts) and len(value.parts) == len(first.parts) for value in values):
            parts = [self.merged([value.parts[i] for value in values], merges, key) for i in range(len(first.parts))]
            return None if None in parts else Parts(tuple(parts))
        return None

    def settle(self, merges: Merges, going: list[Leaf], leaf: Leaf, code: list[Node]) -> None:
        """Gives variables the values that each leaf comes with. One that holds it already, and nothing else, is taken."""
        taken_by: dict[Variable, list[Expression]] = {}
        for place, values in merges:
            used = leaf.variables()
            taken = next((value.args[0] for value in values if is_free(value, used)), place)
            if taken is place:
                code.insert(len(code) - 1, Declare(place, None))
            taken.is_set = True
            leaf.change(lambda e: e.replaced(variable(place), variable(taken)))
            taken_by[taken] = values
        leaf.forget(lambda fact: not fact.variables().isdisjoint(taken_by))
        for i, came in enumerate(going):
            self.set_all({own: values[i] for own, values in taken_by.items()}, came.at(came.code, {}))

    # ---- Loops

    def loop(self, frame: Frame, s: Statement, leaf: Leaf) -> list[Leaf]:
        carried: dict[tuple[Key, Path], Variable] = {}
        while True:
            head = leaf.at([])
            head.facts, head.pointers = frozenset(), {}
            for (key, path), own in carried.items():
                head.put(key, path, variable(own))
            body: list[Node] = []
            came = self.run(frame, s.bodies[0], head.at(body), False)
            back = [own for own in came if own.target == END]
            found = {(key, path) for own in back for key, value in head.env.items() if key in own.env
                     for path in differences(value, own.env[key])}
            if found <= set(carried):
                break
            for key, path in sorted(found - set(carried)):
                carried[key, path] = self.carry(key, path, leaf)
        for (key, path), own in carried.items():
            value = self.part(leaf.env[key], path)
            if value != variable(own):
                leaf.code.append(Declare(own, value))
            own.is_set = True
        leaf.code.append(While(None, body))
        exits = [own for own in came if own.target != END]
        for own in came:
            self.turn(own, carried)
        if not exits:
            return []
        if len({own.target for own in exits}) > 1:
            raise Unknown(f"{self.path}: a loop that is left to several places")
        after = self.join(exits, body) if len(exits) > 1 else exits[0]
        if after is None:
            raise Unknown(f"{self.path}: a loop that is left with values of different kinds")
        for own in exits:
            own.code.append(Break())
        inner = {node.variable for node in all_nodes(body) if isinstance(node, Declare)} & after.variables()
        if inner:
            raise Unknown(f"{self.path}: a value of a loop that is used after it: {[own.name for own in inner]}")
        after = after.at(leaf.code)
        after.facts, after.scope, after.pointers = frozenset(), leaf.scope, {}
        return [self.left(after)]

    def carry(self, key: Key, path: Path, leaf: Leaf) -> Variable:
        """The variable that holds a value from turn to turn: the one that it is in, if nothing else is."""
        value, rest = expression_of(self.part(leaf.env[key], path)), leaf.at([])
        rest.put(key, path, Undefined())
        if is_free(value, rest.variables()):
            return value.args[0]
        name = self.frames[key[0] - 1].name(key[1])
        return Variable(name or ("i" if value_of(value) == 0 else ""), value.type)

    def turn(self, leaf: Leaf, carried: dict[tuple[Key, Path], Variable]) -> None:
        """At the end of a turn the variables get their values for the next one."""
        here = {at: own for at, own in carried.items() if at[0] in leaf.env}
        waiting = {own: expression_of(self.part(leaf.env[key], path)) for (key, path), own in here.items()}
        for key, path in here:
            leaf.put(key, path, Undefined())
        self.set_all(waiting, leaf)
        for (key, path), own in here.items():
            leaf.put(key, path, variable(own))
