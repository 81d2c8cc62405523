"""The prover's own definitions, read from crates/*/specs/*.antt and evaluated over numbers or over unknowns.

It reads the part of the language that they are written in: equations with patterns, `let`, `if`, λ, pairs, records, lists
and arithmetic. A word that depends on unknowns is a value of 64 bits. Sums and products of such are modulo 2^64, as the
definitions take them. Two definitions go digit by digit, and are given here: `xor`, and `le`, the number of some bytes.
"""
import functools
import operator
import pathlib
import re
import sys

from values import add, bitwise, cut, extend, is_below, join, mul, number, number_in, shift_right, sub, width_of

CRATES = pathlib.Path(__file__).parents[1] / "crates"
TOKEN = re.compile(r'\s*(0x[0-9A-Fa-f]+|\d+|"[^"]*"|[^\W\d]\w*|\.\w+|\[\]|\+\+|==|\S)')
sys.setrecursionlimit(10_000)  # definitions call themselves for each of 256 inputs
LEVELS = [["≡"], ["=="], ["∷", "++"], ["+", "-"], ["*", "/", "%"], ["^"]]


class Function:
    """Fewer arguments than it takes give a function of the others."""

    def __init__(self, count, run):
        self.count, self.run = count, run

    def __call__(self, *arguments):
        if len(arguments) < self.count:
            return Function(self.count - len(arguments), functools.partial(self.run, *arguments))
        return self.run(*arguments)


def as_byte(item):
    value = as_value(item, 8)
    if width_of(value) > 8 and number_in(cut(value, 8, width_of(value) - 8)) != 0:
        raise ValueError("a byte is more than 255")
    return cut(value, 0, 8)


def of_words(on_numbers, on_values):
    def run(x, y):
        if isinstance(x, int) and isinstance(y, int):
            return on_numbers(x, y)
        return as_number(on_values(as_value(x), as_value(y)))

    return Function(2, run)


def as_value(item, width=64):
    return number(item, width) if isinstance(item, int) else item


def as_number(item):
    n = item if isinstance(item, bool) else number_in(item)
    return extend(item) if n is None else n


def by_power(on_numbers, on_values):
    """Of a number, or of a word and a power of two up to 2^64."""
    def run(x, n):
        if isinstance(x, int):
            return on_numbers(x, n)
        if n & n - 1 or n > 1 << 64:
            raise ValueError(f"a word is divided by {n}")
        return as_number(on_values(x, n.bit_length() - 1))

    return run


OPERATORS = {
    "≡": operator.eq, "==": operator.eq, "++": operator.add, "^": operator.pow, "∷": lambda x, rest: [x, *rest],
    "+": of_words(operator.add, add), "-": of_words(operator.sub, sub), "*": of_words(operator.mul, mul),
    "/": by_power(operator.floordiv, shift_right), "%": by_power(operator.mod, lambda x, n: extend(cut(x, 0, n))),
}
GIVEN = {
    "xor": of_words(operator.xor, functools.partial(bitwise, "xor")), "nat_lt": of_words(operator.lt, is_below),
    "le": Function(1, lambda data: as_number(join(*map(as_byte, data)))),
    "map": Function(2, lambda f, items: [f(item) for item in items]),
    "fold": Function(3, lambda f, start, items: functools.reduce(f, items, start)),
    "take": Function(2, lambda n, items: items[:n]), "drop": Function(2, lambda n, items: items[n:]),
    "slice_index": Function(2, lambda items, i: items[i]), "replicate": Function(2, lambda n, item: [item] * n),
    "length": Function(1, len), "suc": Function(1, lambda n: n + 1), "codes": Function(1, lambda text: [*text.encode()]),
    "range_with_len": Function(2, lambda start, n: [*range(start, start + n)]), "zero": 0,
}


class Definitions:
    """The names of some files. Each is read when it is first used."""

    def __init__(self, *files):
        self.equations, self.texts = dict.fromkeys(GIVEN), []
        self.__dict__ |= GIVEN
        for file in files:
            text = re.sub(r"--.*", "", (CRATES / file).read_text())
            self.texts.append(text)
            for name in re.findall(r"^(?:abbrev|unfoldable) pub (\w+) :", text, re.M):
                found = re.findall("^" + name + r"\b((?: [^=\n]*)?)=[ \n](.*(?:\n+[ }].*)*)", text, re.M)
                self.equations.setdefault(name, found)

    def __getattr__(self, name):
        cases = [(Reader(self, left).patterns(), Reader(self, right).expression()) for left, right in self.equations[name]]

        def run(*arguments):
            for patterns, body in cases:
                bound = {}
                if all(fits(argument, bound) for fits, argument in zip(patterns, arguments)):
                    return body(bound)

        remembered = functools.lru_cache(1 << 14)(run)  # a sum calls itself, and its terms, for each of 384 numbers

        def call(*arguments):
            return (remembered if all(type(item) is int for item in arguments) else run)(*arguments)

        setattr(self, name, Function(len(cases[0][0]), call) if cases[0][0] else run())
        return getattr(self, name)

    def used(self):
        return [name for name in self.equations if name in vars(self) and name not in GIVEN]

    def change(self, name, i, right):
        """Gives an equation another right side."""
        self.equations[name][i] = self.equations[name][i][0], right
        self.forget()

    def forget(self):
        """Everything is read anew."""
        for item in self.used():
            delattr(self, item)

    def claims(self, record):
        """The fields of a record that say of two things that they are equal: the name of each, and whether they are."""
        pattern = rf"^pub record {record} :.*\n((?:  .*\n)*)"
        (fields,) = (found for text in self.texts for found in re.findall(pattern, text, re.M))
        for name, claim in re.findall(r"^  pub (\w+) :((?:.*\n)+?)(?=  pub|\Z)", fields, re.M):
            yield name, Reader(self, claim).expression()({})


class Reader:
    """Makes a function of what is bound from the words of an expression, and a test that binds from a pattern."""

    def __init__(self, definitions, text):
        self.definitions, self.words = definitions, TOKEN.findall(text)

    def next(self, *expected):
        if expected and self.words[:1] != list(expected):
            raise SyntaxError(f"must be {expected[0]}, not {self.words[:5]}")
        return self.words.pop(0)

    def patterns(self):
        found = []
        while self.words and self.words[0] != ")":
            found.append(self.pattern())
        return found

    def pattern(self):
        first = self.next()
        if first == "[]":
            return lambda item, bound: item == []
        if first == "zero":
            return lambda item, bound: item == 0
        if first != "(":
            return lambda item, bound: bound.update({first: item}) or True
        one, two = self.next(), self.next()
        name = self.next() if two == "∷" else two
        self.next(")")
        if two == "∷":
            return lambda item, bound: item != [] and (bound.update({one: item[0], name: item[1:]}) or True)
        return lambda item, bound: item > 0 and (bound.update({name: item - 1}) or True)

    def expression(self, level=0):
        if self.words[0] in ("let", "if", "λ"):
            return getattr(self, {"let": "let", "if": "choice", "λ": "function"}[self.next()])()
        if level == len(LEVELS):
            return self.application()
        left = self.expression(level + 1)
        while self.words and self.words[0] in LEVELS[level]:
            run = OPERATORS[self.next()]
            right = self.expression(level if run is OPERATORS["∷"] or run is operator.add else level + 1)
            left = (lambda run, left, right: lambda bound: run(left(bound), right(bound)))(run, left, right)
        return left

    def let(self):
        name, _, value, _, body = self.next(), self.next("="), self.expression(), self.next("in"), self.expression()
        return lambda bound: body({**bound, name: value(bound)})

    def choice(self):
        test, _, yes, _, no = self.expression(), self.next("then"), self.expression(), self.next("else"), self.expression()
        return lambda bound: yes(bound) if test(bound) else no(bound)

    def function(self):
        name, _, body = self.next(), self.next("."), self.expression()
        return lambda bound: Function(1, lambda item: body({**bound, name: item}))

    def application(self):
        function, arguments = self.atom(), []
        while self.words and re.match(r"[\w(\"]|\[\]", self.words[0]) and self.words[0] not in ("in", "then", "else"):
            arguments.append(self.atom())
        return (lambda bound: function(bound)(*(item(bound) for item in arguments))) if arguments else function

    def atom(self):
        first = self.next()
        if first == "(":
            parts = [self.expression()]
            while self.words[0] == ",":
                self.next(",")
                parts.append(self.expression())
            self.next(")")
            item = parts[0] if len(parts) == 1 else lambda bound: tuple(part(bound) for part in parts)
        elif first == "record":
            item = self.record()
        else:
            item = self.plain(first)
        while self.words and self.words[0][0] == "." and self.words[0] != ".":
            item = (lambda item, key: lambda bound: item(bound)[int(key) if key.isdigit() else key])(item, self.next()[1:])
        return item

    def record(self):
        fields = {}
        self.next("{")
        while self.words[0] != "}":
            name, _, fields[name] = self.next(), self.next("="), self.expression()
            if self.words[0] == ";":
                self.next()
        self.next("}")
        return lambda bound: {name: item(bound) for name, item in fields.items()}

    def plain(self, text):
        if text[0].isdigit():
            return lambda bound: int(text, 0)
        if text == "[]" or text[0] == '"':
            return lambda bound: [] if text == "[]" else text[1:-1]
        return lambda bound: bound[text] if text in bound else getattr(self.definitions, text)


def of_hash(hash, *files):
    return Definitions(*files, *(f"sketch_hash/specs/{name}.antt" for name in ("Words", "Pieces", hash, "States")))


XXH64, MURMUR = of_hash("Xxh64"), of_hash("Murmur")
SEED_HASH = of_hash("Murmur", "sketch_base/specs/Bytes.antt", "sketch_hash/specs/SeedHash.antt")
FILTER = of_hash("Xxh64", "sketch_bloom/specs/Filter.antt")
