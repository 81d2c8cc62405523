"""The instructions of aarch64 that the libraries have, in objdump's syntax."""
import functools
import re

from machine import CALLER, IMAGE, Machine, external, forms_of, if_equal, logic, on_numbers, place_of, plain, shift_one, shifted
from values import (Stop, add, bitwise, complement, cut, extend, join, kinds, known, lanes, mul, number, number_in,
                    repeat, replace, rotate_right, shift_left, shift_right, shift_signed, sign_extend, sub, unknown, width_of)

CONDITIONS = {"eq": "e", "ne": "ne", "cc": "b", "cs": "ae", "hi": "a", "ls": "be", "mi": "s", "pl": "ns", "lt": "l", "ge": "ge",
              "le": "le", "gt": "g"}
WIDTHS = {"b": 8, "h": 16, "s": 32, "d": 64, "q": 128, "w": 32, "x": 64}
EXTENSIONS = {f"{kind}xt{letter}": (kind == "s", WIDTHS[letter]) for kind in "us" for letter in "bhwx"}
HINTS = "nop", "bti", "hint", "prfm"  # of them none changes a register or memory


@functools.cache
def split(text):
    """The operands. What is in brackets or braces is one; so is a shift with the register before it."""
    return re.split(r",\s*(?=\S)(?![^\[]*\])(?![^{]*})(?!(?:[lam]sl|[la]sr|ror|[us]xt[bhwx])\b)", text) if text else []


@functools.cache
def form_of(op, text):
    """The mnemonic, and the kinds and widths of its operands."""
    if op in HINTS:
        return "nop -"
    text = re.sub(r"(^|, )0x[0-9a-f]+$", r"\1to", text)
    text = re.sub(r"#-?(0x[0-9a-f]+|\d+)", "#", text)
    text = re.sub(r"\bwzr\b", "w0", re.sub(r"\b(sp|xzr)\b", "x0", text))
    text = re.sub(r"\bv\d+\.", "v.", re.sub(r"\b([xwbhsdq])\d+\b", r"\1", re.sub(r"\]?\[\d+\]", "[]", text)))
    text = re.sub(rf", ({'|'.join(CONDITIONS)})$", ", if", text)
    return f"{op} {text.replace(' ', '') or '-'}"


def shift_lane(x, n):
    """To the left, or to the right by a negative number: the lowest byte of the other lane."""
    count = number_in(cut(n, 0, 8))
    if count is None:
        return shift_one(x, n)
    return shift_left(x, min(count, width_of(x))) if count < 128 else shift_right(x, min(256 - count, width_of(x)))


def signed_shift_lane(x, n):
    """To the right it would repeat the sign."""
    if (number_in(cut(n, 0, 8)) or 0) > 127:
        raise Stop("a signed shift to the right")
    return shift_lane(x, n)


def by_numbers(function):
    """All operands but the first are known."""
    return lambda x, *numbers: function(x, *(known(n, "a place") for n in numbers))


def quotient(x, y):
    """By 0 it is 0. That of unknowns is one more unknown."""
    if None in (number_in(x), number_in(y)):
        return unknown(("quotient", x, y), width_of(x))
    return number(number_in(x) // number_in(y) if number_in(y) else 0, width_of(x))


def negative(x):
    return sub(number(0, width_of(x)), x)


def plus_one(x):
    return add(x, number(1, width_of(x)))


def subtract_with_carry(m, x, y):
    return m.with_carry(x, y, m.condition("b"), -1)


def add_with_carry(m, x, y):
    """As a difference to the complement: the carry of a difference is the opposite of x86-64's."""
    return subtract_with_carry(m, x, complement(y))


def wide(is_signed, combine):
    """Of two words of 32 bits, all 64 bits of what is combined."""
    change = sign_extend if is_signed else extend
    return lambda x, y, *more: combine(change(cut(x, 0, 32), 64), change(cut(y, 0, 32), 64), *more)


PLAIN = {
    "add": add, "sub": sub, "mul": mul, "mvn": complement, "neg": negative,
    "madd": lambda x, y, z: add(mul(x, y), z), "msub": lambda x, y, z: sub(z, mul(x, y)),
    "mneg": lambda x, y: negative(mul(x, y)), "umull": wide(False, mul), "smull": wide(True, mul),
    "umaddl": wide(False, lambda x, y, z: add(mul(x, y), z)), "smaddl": wide(True, lambda x, y, z: add(mul(x, y), z)),
    "umulh": on_numbers(lambda x, y: x * y >> 64), "smulh": on_numbers(lambda x, y: x * y >> 64, True),
    "udiv": quotient, "bic": lambda x, y: bitwise("and", x, complement(y)), "orn": lambda x, y: bitwise("or", x, complement(y)),
    "eon": lambda x, y: bitwise("xor", x, complement(y)),
    "ubfx": by_numbers(lambda x, at, width: extend(cut(x, at, width), width_of(x))),
    "sbfx": by_numbers(lambda x, at, width: sign_extend(cut(x, at, width), width_of(x))),
    "ubfiz": by_numbers(lambda x, at, width: replace(number(0, width_of(x)), at, cut(x, 0, width))),
    "sbfiz": by_numbers(lambda x, at, width: shift_left(sign_extend(cut(x, 0, width), width_of(x)), at)),
    "bfi": lambda x, y, at, width: replace(x, number_in(at), cut(y, 0, number_in(width))),
    "bfxil": lambda x, y, at, width: replace(x, 0, cut(y, number_in(at), number_in(width))),
    "extr": lambda x, y, n: cut(join(y, x), known(n, "a place"), width_of(x)),
    "lsl": shifted(shift_left), "lsr": shifted(shift_right), "asr": shifted(shift_signed), "ror": shifted(rotate_right),
    "cinc": lambda x, holds: plus_one(x) if holds else x, "cinv": lambda x, holds: complement(x) if holds else x,
    "cneg": lambda x, holds: negative(x) if holds else x, "csel": lambda x, y, holds: x if holds else y,
    "csinc": lambda x, y, holds: x if holds else plus_one(y), "csneg": lambda x, y, holds: x if holds else negative(y),
    "csinv": lambda x, y, holds: x if holds else complement(y), "csetm": lambda holds: number(-holds),
    "cset": lambda bit: bit, "clz": lambda x: number(width_of(x) - known(x, "a number").bit_length(), width_of(x)),
    "adrp": lambda x: add(IMAGE, x), "adr": lambda x: add(IMAGE, x),
    **{name: functools.partial(bitwise, op) for name, op in (("and", "and"), ("orr", "or"), ("eor", "xor"))},
    **dict.fromkeys(("mov", "fmov", "umov"), lambda x: x),
    **{name: lambda x, width=width, is_signed=is_signed: (sign_extend if is_signed else extend)(cut(x, 0, width), 64)
       for name, (is_signed, width) in EXTENSIONS.items() if width < 32 or name == "sxtw"},
}
OPERATIONS = {name: plain(function) for name, function in PLAIN.items()} | {
    "adds": Machine.sum, "subs": Machine.subtract, "cmp": Machine.subtract, "cmn": Machine.sum, "ands": logic("and"),
    "tst": logic("and"), "negs": lambda m, x: m.subtract(number(0, width_of(x)), x),
    "bics": lambda m, x, y: logic("and")(m, x, complement(y)),
    "adcs": add_with_carry, "adc": add_with_carry, "sbcs": subtract_with_carry, "sbc": subtract_with_carry,
}
COMPARISONS = "cmp", "cmn", "tst"
READ_FIRST = *COMPARISONS, "bfi", "bfxil"  # those that read their first operand


# ---- vectors: what an instruction does with each lane of its operands but the first, or with them whole

def selected(mask, x, y):
    """The bits of x where a mask has ones, and those of y where it has none."""
    return bitwise("or", bitwise("and", mask, x), bitwise("and", complement(mask), y))


def paired(size, function, *values):
    """Of neighbours, first those of one operand and then those of the other."""
    return lanes(2 * size, lambda pair: function(cut(pair, 0, size), cut(pair, size, size)), join(*values))


right = by_numbers(lambda x, n: shift_right(x, min(n, width_of(x))))
LANES = {
    "add": add, "sub": sub, "mul": mul, "neg": negative, "ushl": shift_lane, "sshl": signed_shift_lane, "cmeq": if_equal,
    "ushr": right, "sshr": by_numbers(shift_signed), "shl": by_numbers(lambda x, n: shift_left(x, n)),
    "cnt": on_numbers(lambda x: bin(x).count("1")), "cmtst": lambda x, y: complement(if_equal(
        bitwise("and", x, y), number(0, width_of(x)))),
}
# Those that read the first operand too.
CHANGES = {
    "mla": lambda before, x, y: add(before, mul(x, y)), "mls": lambda before, x, y: sub(before, mul(x, y)),
    "usra": lambda before, x, n: add(before, right(x, n)), "bsl": selected,
    "bit": lambda before, x, mask: selected(mask, x, before), "bif": lambda before, x, mask: selected(mask, before, x),
}
ACROSS = {"addv": add, "uaddlv": add, "addp": add}
WHOLE = "mov", "and", "orr", "eor", "bic", "mvn", "orn"
# Those that are given the size of a lane.
SHAPED = {
    "dup": lambda size, x: x, "movi": lambda size, x: x, "mvni": lambda size, x: complement(x),
    "ext": lambda size, x, y, n: cut(join(x, y), 8 * known(cut(n, 0, 8), "a place"), width_of(x)),
    "addp": lambda size, x, y: paired(size, add, x, y),
    "uaddlp": lambda size, x: paired(size // 2, lambda x, y: add(extend(x, size), extend(y, size)), x),
    "uxtl": lambda size, x: lanes(size // 2, lambda lane: extend(lane, size), cut(x, 0, 64)),
}


class Aarch64(Machine):
    pointer, popped, entry, red_zone, result_register, name_of = "sp", 0, 0, 0, "x0", staticmethod(str)
    form_of, forms = staticmethod(form_of), forms_of("aarch64")
    kept = {**{f"x{n}": 64 for n in range(19, 30)}, **{f"v{n}": 64 for n in range(8, 16)}}
    argument_registers = [f"x{n}" for n in range(8)]

    def set_up(self):
        self.registers = {f"x{n}": unknown(("before", n), 64) for n in range(31)}
        self.registers |= {f"v{n}": unknown(("before", "v", n), 128) for n in range(32)}
        self.registers["sp"] = self.stack
        self.map(external("__stack_chk_guard"), [unknown("guard", 64)])

    def pass_arguments(self, arguments):
        self.registers |= zip(self.argument_registers, arguments)
        self.registers["x30"] = CALLER
        self.map(self.stack, arguments[8:], writable=True)

    def return_address(self):
        return self.registers["x30"]

    @staticmethod
    def processors():
        """The text has no constructor for this processor."""
        yield None, False

    # ---- operands

    def register(self, name):
        """The register, and how many bits of it a name is for: v0.8b has 64 bits, v0.d[1] too."""
        kind, index, lane, letter = re.fullmatch(r"([a-z])(\d+)(?:\.(\d*)([bhsd])(?:\[\d+\])?)?", name).groups()
        return ("x" if kind in "wx" else "v") + index, int(lane or 1) * WIDTHS[letter or kind]

    def read(self, text, width=64):
        """A number, or a register that may be shifted, or extended before."""
        name, _, change = text.partition(", ")
        if name in CONDITIONS:
            return CONDITIONS[name]
        if name[0] == "#" or name[0].isdigit():
            value = number(int(name.strip("#"), 0), width)
        elif name in ("xzr", "wzr", "sp"):
            value = self.registers["sp"] if name == "sp" else number(0, WIDTHS[name[0]])
        else:
            register, size = self.register(name)
            place = re.search(r"\[(\d+)\]", name)
            value = cut(self.registers[register], size * int(place[1]) if place else 0, size)
        how, _, n = change.partition(" #")
        if how == "msl":
            return bitwise("or", shift_left(value, int(n)), number((1 << int(n)) - 1, width))
        if how in EXTENSIONS:
            is_signed, own = EXTENSIONS[how]
            how, value = "lsl", (sign_extend if is_signed else extend)(cut(value, 0, min(own, width_of(value))), width)
        return OPERATIONS[how](self, value, number(int(n or "0", 0))) if how else value

    def write(self, name, value):
        """A write of a part clears the rest, but one of a lane keeps it."""
        if name == "sp":
            self.registers["sp"] = value
        elif name not in ("xzr", "wzr"):
            register, width = self.register(name)
            value = cut(value, 0, min(width, width_of(value)))
            place = re.search(r"\[(\d+)\]", name)
            before = self.registers[register]
            whole = replace(before, width * int(place[1]), value) if place else extend(value, width_of(before))
            self.registers[register] = whole

    def address(self, operands):
        """The address, and the register that changes, with what it is after the access."""
        if operands[0][0] != "[":
            return add(IMAGE, number(int(operands[0], 16))), None
        base, _, offset = operands[0].strip("[]!").partition(", ")
        start = self.read(base)
        if base == "sp":
            self.must_be_aligned(start)
        at = add(start, self.read(offset)) if offset else start
        if operands[0].endswith("!"):
            self.write(base, at)  # now, since the stack is used from there on
            if base == "sp":
                self.move_stack()
        return at, (base, add(start, self.read(operands[1]))) if len(operands) > 1 else None

    def condition(self, name):
        """Those of a carry have x86-64's names only after a subtraction."""
        if self.flags and self.flags[0] == "add" and name in ("b", "ae"):
            carry = super().condition("b")
            return carry if name == "ae" else complement(carry)
        if name in ("b", "be", "a", "ae") and (not self.flags or self.flags[0] not in ("sub", "bits")):
            raise Stop("a carry that is not understood")
        return super().condition(name)

    # ---- instructions

    def step(self, op, text):
        operands = split(text)
        if op in HINTS:
            return
        if op in ("b", "bl", "br", "blr", "ret", "cbz", "cbnz", "tbz", "tbnz") or op[:2] == "b.":
            self.jump(op, operands)
        elif op in ("paciasp", "autiasp"):
            self.sign(op)
        elif op == "ccmp":
            self.compare_if(*operands)
        elif op[:2] in ("ld", "st"):
            self.access(op, operands)
        elif op == "movk":
            _, _, place = operands[1].partition(", lsl #")
            part = self.read(operands[1].partition(",")[0], 16)
            self.write(operands[0], replace(self.read(operands[0]), int(place or 0), part))
        elif op in ACROSS and operands[0][0] != "v":
            self.across(op, *operands)
        elif operands[0][0] == "v" and "[" not in operands[0]:
            self.write(operands[0], self.vector(op, operands))
        else:
            self.compute(op, operands)

    def compute(self, op, operands):
        width = width_of(self.read(operands[0]))
        own = 32 if op in ("umull", "smull") else width
        values = [self.read(item, own) for item in operands[op not in READ_FIRST :]]
        if values[-1] in CONDITIONS.values():
            values[-1] = self.condition(values[-1]) if op == "cset" else self.holds(values[-1])
        if op not in OPERATIONS:
            raise Stop("the instruction is not known")
        before, result = self.flags, OPERATIONS[op](self, *values)
        if op in ("adc", "sbc"):  # they set no conditions
            self.flags = before
        if op not in COMPARISONS:
            self.write(operands[0], result)

    def sign(self, op):
        """`paciasp` signs where a call returns to, with the stack pointer; `autiasp` takes the signature off if it is right."""
        value, stack = self.registers["x30"], place_of(self.registers["sp"])
        if op == "paciasp":
            self.registers["x30"] = unknown(("signed", value, stack), 64)
            return
        kind, name, *_ = kinds[value[0][0]] if len(value) == 1 else (None, None)
        if kind != "unknown" or name[0] != "signed" or name[2] != stack:
            raise Stop("a signature that is not right")
        self.registers["x30"] = name[1]

    def jump(self, op, operands):
        taken, before = True, self.flags
        target = self.read(*operands or ["x30"]) if op in ("br", "blr", "ret") else None
        if op in ("bl", "blr"):
            self.registers["x30"] = add(IMAGE, number(self.next))
        if target is not None:
            return self.go_to(target)
        if op[:2] == "b.":
            taken = self.holds(CONDITIONS[op[2:]])
        elif op[:2] in ("cb", "tb"):
            value = self.read(operands[0])
            if op[0] == "t":
                value = cut(value, int(operands[1].strip("#"), 0), 1)
            self.compare("logic", value, value, value)
            taken, self.flags = self.holds("e" if op in ("cbz", "tbz") else "ne"), before
        if taken:
            self.next = int(operands[-1], 16)

    def compare_if(self, x, y, flags, name):
        """Compares if a condition holds; else the flags N, Z, C, V are these. Of them Z and C are understood."""
        if self.holds(CONDITIONS[name]):
            first = self.read(x)
            self.subtract(first, self.read(y, width_of(first)))
        else:
            bits = int(flags.strip("#"), 0)
            self.flags = "bits", number(bits >> 2 & 1, 1), number(1 - (bits >> 1 & 1), 1), None

    def access(self, op, operands):
        kind, is_pair, is_signed, letter = re.fullmatch(r"(ld|st)u?(p|r|ur)(s?)([bhw]?)", op).groups()
        names = operands[: 2 if is_pair == "p" else 1]
        size = WIDTHS[letter] if letter else WIDTHS[names[0][0]]
        values = [cut(self.read(item), 0, size) for item in names] if kind == "st" else []
        at, later = self.address(operands[len(names) :])
        if values:
            self.store(at, join(*values))
        else:
            loaded = self.load(at, size // 8 * len(names))
            for i, name in enumerate(names):
                value = cut(loaded, size * i, size)
                self.write(name, sign_extend(value, WIDTHS[name[0]]) if is_signed else value)
        if later:
            self.write(*later)

    def across(self, op, to, source):
        """One number of all lanes."""
        _, width = self.register(to)
        size = WIDTHS[source[-1]]
        value = self.read(source)
        self.write(to, functools.reduce(ACROSS[op], (
            extend(cut(value, at, size), width) for at in range(0, width_of(value), size))))

    def vector(self, op, operands):
        count, size = re.fullmatch(r"v\d+\.(\d+)(\w)", operands[0]).groups()
        count, size, before = int(count), WIDTHS[size], self.read(operands[0])
        values = [self.read(item, size if item[0] == "#" else 64) for item in operands[1:]]
        values = [repeat(cut(value, 0, size), count) if item[0] in "#wx" or item[-1] == "]" else value
                  for item, value in zip(operands[-len(values) :], values)]
        if op in SHAPED:
            return SHAPED[op](size, *values)
        if op in ("orr", "bic") and len(values) == 1:
            values = [before, *values]
        if op in CHANGES or op in LANES:
            return lanes(size, *([CHANGES[op], before] if op in CHANGES else [LANES[op]]), *values)
        if op not in WHOLE:
            raise Stop("the instruction is not known")
        return OPERATIONS[op](self, *values)
