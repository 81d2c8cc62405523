"""Reads mir.json, the compiler's structured form of a crate, of which the kit has no page.

The docs of the classes say what each word of the format is taken to mean. Any other word stops the printer by its name.
"""
from __future__ import annotations

from dataclasses import dataclass, field
from functools import cache
from typing import Any, Iterator, NamedTuple, Sequence


class Unknown(Exception):
    """What the printer does not know. It prints nothing then."""


WIDTHS = (8, 16, 32, 64, 128)


@dataclass(frozen=True)
class Type:
    """A word, and what belongs to it.

    Bool, Unit, Ptr (to what is not said), Int BITS (whether it has a sign is a matter of the operation),
    Ref IS_MUT TYPE, Slice IS_MUT TYPE (field 0 is a reference to the first element, field 1 the number of elements),
    Array TYPE COUNT, Vector TYPE COUNT, Named NAME ARGUMENTS (a struct, a tuple or an enum, whose field 0 is its tag; those of
    a variant begin with 1), Param INDEX (of a generic function), Const NUMBER (its argument)
    """

    word: str
    args: tuple = ()

    @property
    def bits(self) -> int:
        """Of a number; 0 for all else."""
        return self.args[0] if self.word == "Int" else 0

    @property
    def is_mut(self) -> bool:
        return self.args[0]

    @property
    def of(self) -> Type:
        return self.args[0] if self.word in ("Array", "Vector") else self.args[1]

    @property
    def count(self) -> int:
        return number_of(self.args[1])

    @property
    def name(self) -> str:
        return self.args[0] if self.word == "Named" else ""


BOOL, UNIT, BYTE, WORD = Type("Bool"), Type("Unit"), Type("Int", (8,)), Type("Int", (64,))


def number_of(type: Type) -> int:
    if type.word != "Const":
        raise Unknown(f"{type} in place of a number")
    return type.args[0]


def word_of(token: Any) -> tuple[str, Any]:
    """The word of a token, and what belongs to it."""
    if isinstance(token, str):
        return token, None
    if isinstance(token, dict) and len(token) == 1:
        return next(iter(token.items()))
    raise Unknown(f"a token of mir.json: {str(token)[:80]}")


def read_all(read: Any, tokens: list[Any]) -> tuple[Any, ...]:
    return tuple(map(read, tokens))


def read_type(token: Any) -> Type:
    word, of = word_of(token)
    if word in ("Bool", "Unit", "Ptr"):
        return Type(word)
    if word == "Int" and of in WIDTHS or word == "Param":
        return Type(word, (of,))
    if word == "Ref" and of[1] in ("Mut", "Imm"):
        return Type(word, (of[1] == "Mut", read_type(of[2])))
    if word == "Struct" and of[0] == "&[]":
        first, count = map(read_type, of[1])
        if first.word == "Ref" and count == WORD:
            return Type("Slice", first.args)
    if word in ("Array", "Vector"):
        return Type(word, (read_type(of[0]), read_type(of[1])))
    if word == "Named":
        return Type(word, (of[0]["name"], read_all(read_type, of[1])))
    if word in ("Const", "Lit"):
        return Type("Const", (of,))
    raise Unknown(f"type {word} {str(of)[:80]}")


class Given(NamedTuple):
    """The arguments of an instance of a generic function."""

    types: tuple[Type, ...] = ()
    dicts: tuple[Dict, ...] = ()

    def type(self, own: Any) -> Any:
        """A type, or a part of one, with the arguments in place of the parameters."""
        if isinstance(own, tuple):
            return tuple(map(self.type, own))
        if not isinstance(own, Type):
            return own
        return self.types[own.args[0]] if own.word == "Param" else Type(own.word, self.type(own.args))

    def dict(self, own: Dict) -> Dict:
        return self.dicts[own.name] if isinstance(own.name, int) else Dict(own.name, self.inside(own.given))

    def inside(self, of: Given) -> Given:
        """The arguments of a call inside of this instance."""
        return Given(self.type(of.types), tuple(map(self.dict, of.dicts)))


class Dict(NamedTuple):
    """An implementation of a trait, as an argument: one of a crate, or by its index one that the caller was given."""

    name: str | int
    given: Given = Given()


def read_given(types: list[Any], dicts: list[Any]) -> Given:
    return Given(tuple(map(read_type, types)), tuple(map(read_dict, dicts)))


def read_dict(token: Any) -> Dict:
    word, of = word_of(token)
    if word == "Impl":
        return Dict(of[0], read_given(of[1], of[2]))
    if word == "Given" and isinstance(of, int):
        return Dict(of)
    raise Unknown(f"an implementation as {word}")


class Step(NamedTuple):
    """Field INDEX, Variant INDEX, or Deref TYPE: what a pointer points to."""

    word: str
    of: Any


class Place(NamedTuple):
    """A local, and steps from it."""

    local: int
    steps: tuple[Step, ...]


class Constant(NamedTuple):
    """Int NUMBER, NumOf TYPE (the number that an argument is), SizeOf TYPE; a flag has one bit; Unit has none."""

    word: str
    bits: int
    of: Any


Operand = Place | Constant


def read_place(token: Any) -> Place:
    steps = []
    for word, of in map(word_of, token["steps"]):
        if word not in ("Deref", "Field", "Variant"):
            raise Unknown(f"a step of a place: {word}")
        steps.append(Step(word, read_type(of) if word == "Deref" else of))
    return Place(token["local"], tuple(steps))


def read_operand(token: Any) -> Operand:
    word, of = word_of(token)
    if word == "Copy":
        return read_place(of)
    if word == "Int" and of["width"] in WIDTHS and of["value"] in range(2 ** of["width"]):
        return Constant(word, of["width"], of["value"])
    if word == "NumOf" and of[0] in WIDTHS:
        return Constant(word, of[0], read_type(of[1]))
    if word == "SizeOf":
        return Constant(word, 64, read_type(of))
    if word in ("True", "False"):
        return Constant("Int", 1, int(word == "True"))
    if word == "Unit":
        return Constant(word, 0, None)
    raise Unknown(f"operand {word} {str(of)[:80]}")


@dataclass(eq=False)
class Statement:
    """A word, and what belongs to it.

    Opd, Aggregate, Repeat, AddrOf, Op1, Op2, Vec1, Vec2: `place` gets what the operation `of` makes of the operands.
    Call: `of` is the function's path, or an implementation and the index of its method, and the arguments.
    LendStatic: `place` points to constant numbers, of which `of` has the type and the values.
    If: a body for each list of values of the operand in `of`. The last one needs no test.
    Block, Loop: a body, which the loop repeats. Exit: leaves the one that is `of` others further out. Return: returns local 0.
    """

    word: str
    of: Any = None
    operands: tuple[Operand, ...] = ()
    place: Place | None = None
    bodies: tuple[list[Statement], ...] = ()
    after: dict[int, int] = field(default_factory=dict)  # how often locals are read later, by liveness.py


def read_assign(place: Place, token: Any) -> Statement:
    word, of = word_of(token)
    if word in ("Op1", "Op2", "Vec1", "Vec2"):
        return Statement(word, of[0], read_all(read_operand, of[1:]), place)
    if word == "Aggregate":
        return Statement(word, None, read_all(read_operand, of), place)
    if word == "Repeat":
        return Statement(word, read_type(of[1]), (read_operand(of[0]),), place)
    if word in ("Opd", "AddrOf"):
        return Statement(word, None, ((read_operand if word == "Opd" else read_place)(of),), place)
    raise Unknown(f"right side {word}")


def read_callee(token: Any) -> tuple[Any, Given]:
    word, of = word_of(token)
    given = read_given(of[-1]["types"], of[-1]["dicts"])
    if word == "Fn":
        return of[0], given
    if word == "Method":
        return (read_dict(of[0]), of[1]), given
    raise Unknown(f"a call of {word}")


def read_statements(tokens: Iterator[Any]) -> list[Statement]:
    """A statement in prefix order, as the list of those that it consists of."""
    word, of = word_of(next(tokens))
    if word == "Seq":
        return read_statements(tokens) + read_statements(tokens)
    if word == "Skip":
        return []
    if word in ("Block", "Loop"):
        return [Statement(word, bodies=(read_statements(tokens),))]
    if word in ("If", "Switch"):
        operand, values, has_default = (of, [[1], [0]], False) if word == "If" else of
        values = values + [[]] * has_default
        return [Statement("If", values, (read_operand(operand),), bodies=tuple(read_statements(tokens) for _ in values))]
    if word == "Assign":
        return [read_assign(read_place(of[0]), of[1])]
    if word == "Call":
        return [Statement(word, read_callee(of[0]), read_all(read_operand, of[1]), read_place(of[2]))]
    if word == "LendStatic" and word_of(of[2])[0] == "Ints":
        return [Statement(word, (read_type(of[1]), tuple(of[2]["Ints"]["values"])), (), read_place(of[0]))]
    if word in ("Exit", "Return"):
        return [Statement(word, of)]
    raise Unknown(f"statement {word} {str(of)[:80]}")


@dataclass(eq=False)
class Function:
    path: str
    parameter_count: int
    locals: list[Type]
    has_address: list[bool]  # of each local: whether its address is taken
    body: list[Statement]
    entry: dict[int, int] = field(default_factory=dict)  # how often locals are read, by liveness.py

    @property
    def parameters(self) -> list[Type]:
        return self.locals[1:self.parameter_count + 1]


def read_function(path: str, token: Any) -> Function:
    homes = [own["home"] for own in token["locals"]]
    if not set(homes) <= {"ValueLocal", "MemorySlot"}:
        raise Unknown(f"{path}: the homes of its locals: {set(homes)}")
    tokens = iter(token["body"])
    body = read_statements(tokens)
    if next(tokens, None) is not None:
        raise Unknown(f"{path}: words after its body")
    return Function(path, token["params"], [read_type(own["ty"]) for own in token["locals"]],
                    [home == "MemorySlot" for home in homes], body)


class Crates:
    """The functions of several crates, and what else the format has of them: shapes of types, methods of traits."""

    def __init__(self, functions: list[tuple[str, Any]]):
        self.tokens = dict(functions)
        self.shapes: dict[str, Any] = {}
        self.methods: dict[tuple[str, int], str] = {}
        for path, token in functions:
            of = token["generics"]["method_of"]
            if of and "Impl" in of and not path.endswith("+decl"):
                self.methods[tuple(of["Impl"])] = path
            self.shapes |= {own["name"]: own["shape"] for own in token["types"]}

    @cache
    def function(self, path: str) -> Function:
        if path not in self.tokens:
            raise Unknown(f"function {path}, which no crate has")
        return read_function(path, self.tokens[path])

    def resolve(self, call: Statement, given: Given) -> tuple[str, Given]:
        """The path of what is called inside of an instance, and its arguments."""
        callee, more = call.of[0], given.inside(call.of[1])
        if isinstance(callee, str):
            return callee, more
        own = given.dict(callee[0])
        if (own.name, callee[1]) not in self.methods:
            raise Unknown(f"method {callee[1]} of {own.name}")
        return self.methods[own.name, callee[1]], Given(own.given.types + more.types, own.given.dicts + more.dicts)

    def shape(self, type: Type) -> tuple[str, Sequence[Any]]:
        """Fields and their types, or Variants and the types of the fields of each."""
        if type.name not in self.shapes:
            raise Unknown(f"the shape of {type.name or type}")
        (word, of), given = word_of(self.shapes[type.name]), Given(type.args[1])
        if word not in ("Fields", "Variants"):
            raise Unknown(f"{type.name} has {word}")
        fields = [given.type(read_all(read_type, each)) for each in (of if word == "Variants" else [of])]
        return word, fields if word == "Variants" else fields[0]
