"""The instructions of x86-64 that the libraries have, in objdump's Intel syntax."""
import functools
import itertools
import re

from machine import CALLER, IMAGE, Machine, count_of, forms_of, if_equal, logic, plain, reads, shift_one, shifted
from values import (BITS, Stop, add, bitwise, complement, cut, decided, extend, is_below, is_zero, join, known, lanes, mul,
                    number, number_in, repeat, replace, rotate_right, shift_left, shift_right, shift_signed, sign_extend,
                    signed, sub, unknown, width_of)

REGISTERS = {f"r{n}{end}": (f"r{n}", width) for n in range(8, 16) for end, width in (("", 64), ("d", 32), ("w", 16), ("b", 8))}
for item in "ax bx cx dx si di bp sp".split():
    names = (f"r{item}", 64), (f"e{item}", 32), (item, 16), (f"{item.rstrip('x')}l", 8)
    REGISTERS |= {name: (f"r{item}", width) for name, width in names}
REGISTERS |= {f"{kind}mm{n}": (f"xmm{n}", width) for n in range(32) for kind, width in (("x", 128), ("y", 256), ("z", 512))}
REGISTERS |= {f"k{n}": (f"k{n}", 64) for n in range(8)}
SIZES = {"BYTE": 8, "WORD": 16, "DWORD": 32, "QWORD": 64, "XMMWORD": 128, "YMMWORD": 256, "ZMMWORD": 512}
LETTERS = {"b": 8, "w": 16, "d": 32, "q": 64}
GUARD, GUARD_TERMS = "fs:0x28", (("guard", 1),)  # the stack's, at the thread's own address
# Before these they change nothing that is looked at.
PREFIXES = {"data16": "nop", "cs": "nop", "bnd": "jmp call ret", "notrack": "jmp call", "repz": "ret"}


@functools.cache
def decode(text):
    """The operands: registers, memory and its broadcasts, each with its width and its mask, and numbers."""
    found = []
    for item in text.split(",") if text else []:
        item, *mask = re.findall(r"^[^{]+|(?<={)\w+(?=})", item)
        memory = re.fullmatch(rf"(?:(\w+) (PTR|BCST) )?(?:\[(.*)\]|({GUARD}))", item)
        if memory:
            terms = re.findall(r"([+-]?)(\w+)(?:\*(\d))?", memory[3] or "guard")
            terms = tuple((name, (-1 if sign == "-" else 1) * int(factor or 1)) for sign, name, factor in terms)
            found.append(("broadcast" if memory[2] == "BCST" else "memory", terms, SIZES.get(memory[1]), mask))
        else:
            found.append(("register", *REGISTERS[item], mask) if item in REGISTERS else ("number", int(item, 16), None, mask))
    return found


def split(op, text):
    """Prefixes, the mnemonic, and the operands' text."""
    prefixes = []
    while op in PREFIXES:
        prefixes.append(op)
        op, _, text = text.partition(" ")
    if op == "rep":  # objdump from 2.47 on leaves out the usual segments
        text = text.replace(" [rdi]", " es:[rdi]").replace(" [rsi]", " ds:[rsi]")
    return prefixes, op, text.strip()


@functools.cache
def form_of(op, text):
    """The mnemonic with its prefixes, and the kinds and widths of its operands. What does nothing has one form."""
    prefixes, op, text = split(op, text)
    if op == "nop":
        return "nop -"
    if op == "rep":
        return f"rep+{text.replace(' ', '+')} -"
    if re.fullmatch("(0x)?[0-9a-f]+", text) and (op[0] == "j" or op == "call"):
        return "+".join([*prefixes, op]) + " to"
    kinds = []
    for kind, what, width, mask in decode(text):
        name = "g" if what == GUARD_TERMS else what[0] if kind == "register" else kind[0]
        kinds.append(f"{name}{width or ''}" + "{k}" * bool(mask) + "{z}" * ("z" in mask))
    return "+".join([*prefixes, op]) + " " + (",".join(kinds) or "-")


# ---- instructions that set conditions

def shift(function):
    """By 0 it sets none; by an unknown number they are not known."""
    def run(m, x, count):
        result, n = shifted(function)(x, count), number_in(count_of(x, count))
        return x if n == 0 else m.compare("other" if n else None, x, None, result)

    return run


def rotate(sign):
    """It changes the carry alone, and with a count of 0 not even that."""
    def run(m, x, count):
        n = known(count_of(x, count), "a shift")
        if n:
            m.flags = ("other", *m.flags[1:]) if m.flags and m.flags[0] not in (None, "bits") else None
        return rotate_right(x, sign * n % width_of(x))

    return run


def step(sign):
    return lambda m, x: m.compare("other", x, None, add(x, number(1, width_of(x)), sign))


def double_shift(m, low, high, at):
    """Bits of two values side by side."""
    if at not in range(width_of(low) + 1):
        raise Stop("a shift by more than there is")
    return m.compare(None, low, high, cut(join(low, high), at, width_of(low)))


def test_bit(change):
    """The carry is the bit with a number; the other conditions are not known after it."""
    def run(m, x, n):
        n = cut(n, 0, (width_of(x) - 1).bit_length())
        if number_in(n) is None:
            m.flags = None
            return change(x, shift_one(number(1, width_of(x)), extend(n, 32)))
        m.compare("bits", None, cut(x, number_in(n), 1), None)
        return change(x, number(1 << number_in(n), width_of(x)))

    return run


def test_mask(size):
    """Whether two masks have no bit, and whether they have all."""
    def run(m, x, y):
        either = bitwise("or", cut(x, 0, size), cut(y, 0, size))
        return m.compare("bits", is_zero(either), is_zero(complement(either)), None)

    return run


CONDITIONAL = {
    "add": Machine.sum, "sub": Machine.subtract, "cmp": Machine.subtract,
    "adc": lambda m, x, y: m.with_carry(x, y, m.condition("b"), 1),
    "sbb": lambda m, x, y: m.with_carry(x, y, m.condition("b"), -1),
    "neg": lambda m, x: m.subtract(number(0, width_of(x)), x), "inc": step(1), "dec": step(-1),
    "imul": lambda m, x, y: m.compare(None, x, y, mul(x, y)), "and": logic("and"), "test": logic("and"), "or": logic("or"),
    "xor": logic("xor"), "andn": lambda m, x, y: logic("and")(m, complement(x), y),
    # Whether the values have no bit in common, and whether x has all bits of y.
    "ptest": lambda m, x, y: m.compare("bits", is_zero(bitwise("and", x, y)), is_zero(bitwise("and", complement(x), y)), None),
    "shl": shift(shift_left), "shr": shift(shift_right), "sar": shift(shift_signed), "rol": rotate(-1), "ror": rotate(1),
    "shld": lambda m, x, y, n: double_shift(m, y, x, width_of(x) - known(count_of(x, n), "a shift")),
    "shrd": lambda m, x, y, n: double_shift(m, x, y, known(count_of(x, n), "a shift")),
    "bt": test_bit(lambda x, bit: x), "bts": test_bit(lambda x, bit: bitwise("or", x, bit)),
    "btr": test_bit(lambda x, bit: bitwise("and", x, complement(bit))), "btc": test_bit(lambda x, bit: bitwise("xor", x, bit)),
    "popcnt": lambda m, x: m.compare(None, x, x, number(bin(known(x, "a number")).count("1"), width_of(x))),
    **{f"kortest{letter}": test_mask(size) for letter, size in LETTERS.items()},
}


# ---- and those that set none. A number that the instruction has is an int.

def shift_lane(function):
    """By a number of the other lane, which is not taken modulo its width. 1 can be shifted by an unknown number."""
    def run(x, count):
        if number_in(count) is None and function is shift_left:
            return shift_one(x, count)
        return function(x, min(known(count, "a shift"), width_of(x)))

    return run


def rotate_lane(x, n):
    return rotate_right(x, -(known(n, "a shift") if isinstance(n, tuple) else n) % width_of(x))


def each(size, function):
    """A function of a lane of each operand."""
    return reads(function), lambda *values: lanes(size, function, *values)


def each_by(size, function):
    """All by one number, of which 64 bits count."""
    return 2, lambda x, n: lanes(
        size, lambda lane: function(lane, min(n if isinstance(n, int) else known(cut(n, 0, 64), "a shift"), size)), x)


def in_blocks(function, bits=128):
    """AVX does it for each 128 bits."""
    def run(*values):
        width = max(width_of(value) for value in values if not isinstance(value, int))
        places = range(0, max(width, bits), bits)
        return join(*(function(*(value if isinstance(value, int) else cut(value, at, bits) for value in values))
                      for at in places))

    return reads(function), run


def picked(size, count, x, y=None):
    """Lanes by an order of some bits each: half of x, and half of y."""
    def run(order):
        bits = count.bit_length() - 1
        return join(*(cut(x if y is None or i < count // 2 else y, size * (order >> bits * i & count - 1), size)
                      for i in range(count)))

    return run


def interleaved(size, half):
    """The lanes of the lower halves, or of the higher ones, in turn."""
    return in_blocks(lambda x, y: join(*(cut(value, at, size) for at in range(64 * half, 64 * half + 64, size)
                                         for value in (x, y))))


def shuffled_bytes(x, order):
    places = [known(cut(order, at, 8), "an order") for at in range(0, 128, 8)]
    return join(*(number(0, 8) if n >> 7 else cut(x, 8 * (n & 15), 8) for n in places))


def blended_bytes(x, y, mask):
    """Bytes of the second where the highest bit of the mask's byte is known to be set, else of the first."""
    return join(*(cut(y if known(cut(mask, at + 7, 1), "a lane's sign") else x, at, 8) for at in range(0, width_of(x), 8)))


def packed(size, least, most):
    """The lower half of each lane that is known, or the nearest of the numbers that are allowed."""
    @in_blocks
    def of(x, y):
        values = (cut(value, at, size) for value in (x, y) for at in range(0, 128, size))
        lanes = [signed(known(sign_extend(value, 64), "a lane")) for value in values]
        return join(*(number(max(least, min(lane, most)), size // 2) for lane in lanes))

    return of


def differences(x, y):
    """The sum of those of bytes that are known."""
    pairs = [[known(cut(value, at, 8), "a byte") for value in (x, y)] for at in range(0, 64, 8)]
    return number(sum(abs(one - other) for one, other in pairs))


def pair_products(x, y):
    """The sum of the products of two signed words."""
    words = [[sign_extend(cut(value, at, 16), 32) for value in (x, y)] for at in (0, 16)]
    return add(*(mul(*pair) for pair in words))


def if_greater(x, y):
    """All bits if the first of two lanes is the greater one, as numbers with a sign, else none."""
    width = width_of(x)
    y, x = (extend(bitwise("xor", lane, number(1 << width - 1, width))) for lane in (y, x))  # ordered as without a sign
    return number(-is_below(y, x), width)


def to_whole(x):
    """A float as a whole number. One with the exponent n, and nothing else, is 2 to the power of n."""
    exponent = sub(x, number(127 << 23, 32))
    if cut(exponent, 0, 23) != number(0, 23) or cut(exponent, 28, 4) != number(0, 4):
        raise Stop("a float that is no power of two")
    return shift_one(number(1, 32), extend(cut(exponent, 23, 5)))


def shuffled_blocks(x, y, n):
    count = width_of(x) // 128
    return picked(128, count, x, y)(n if count == 4 else n & 3)


@functools.cache
def ternaries():
    """Functions of three bits, by the number that an instruction gives them: the plainest is taken."""
    columns, found = (0xF0, 0xCC, 0xAA), {}
    signs = sorted(itertools.product((0, 255), repeat=4), key=lambda item: sum(map(bool, item)))
    for last, *first in signs:
        for order, one, other in itertools.product(itertools.permutations(range(3)), BITS, BITS):
            x, y, z = (columns[i] ^ first[i] for i in order)
            found.setdefault(last ^ BITS[other](BITS[one](x, y), z), (last, first, order, one, other))
    return found


def ternary(x, y, z, n):
    values = x, y, z
    if n in ternaries():
        last, first, order, one, other = ternaries()[n]
        x, y, z = (complement(values[i]) if first[i] else values[i] for i in order)
        result = bitwise(other, bitwise(one, x, y), z)
        return complement(result) if last else result
    terms = (functools.reduce(functools.partial(bitwise, "and"), (
        item if i >> at & 1 else complement(item) for item, at in zip(values, (2, 1, 0)))) for i in range(8) if n >> i & 1)
    return functools.reduce(functools.partial(bitwise, "or"), terms, number(0, width_of(x)))


def lowest(size):
    return 1, lambda x: cut(x, 0, min(size, width_of(x)))


def signs(size):
    return 1, lambda x: lanes(size, lambda lane: cut(lane, size - 1, 1), x)


def part(size):
    return 2, lambda x, n: cut(x, size * (n % (width_of(x) // size)), size)


def insert(size):
    return 3, lambda x, y, n: replace(x, size * (n % (width_of(x) // size)), cut(y, 0, size))


def spread(size):
    return 1, lambda x: repeat(cut(x, 0, size), 512 // size)


def reversed_bytes(x):
    if width_of(x) < 32:
        raise Stop("bytes of a short word, whose order is not defined")
    return join(*(cut(x, at, 8) for at in range(width_of(x) - 8, -1, -8)))


SAME = dict.fromkeys(("mov movabs movzx movups movupd movdqu movaps movapd movdqa lddqu "
                      "movdqu8 movdqu16 movdqu32 movdqu64 movdqa32 movdqa64").split(), (1, lambda x: x))
PLAIN = SAME | {
    "not": (1, complement), "bswap": (1, reversed_bytes), "rorx": (2, lambda x, n: rotate_right(x, n % width_of(x))),
    "shlx": (2, shifted(shift_left)), "shrx": (2, shifted(shift_right)), "sarx": (2, shifted(shift_signed)),
    "movd": lowest(32), "movq": lowest(64), "movmskpd": signs(64), "pmovmskb": signs(8),
    "psadbw": each(64, differences), "pmaddwd": each(32, pair_products), "cvttps2dq": each(32, to_whole),
    "pmuludq": each(64, lambda x, y: mul(extend(cut(x, 0, 32)), extend(cut(y, 0, 32)))),
    "pshufd": in_blocks(lambda x, n: picked(32, 4, x)(n)), "shufps": in_blocks(lambda x, y, n: picked(32, 4, x, y)(n)),
    "pshufb": in_blocks(shuffled_bytes), "pblendvb": (3, blended_bytes),
    "pslldq": in_blocks(lambda x, n: shift_left(x, 8 * min(n, 16))),
    "psrldq": in_blocks(lambda x, n: shift_right(x, 8 * min(n, 16))),
    "palignr": in_blocks(lambda x, y, n: cut(extend(join(y, x), 512), 8 * min(n, 32), 128)),
    "packuswb": packed(16, 0, 255), "packsswb": packed(16, -128, 127), "packssdw": packed(32, -2 ** 15, 2 ** 15 - 1),
    "shufi32x4": (3, shuffled_blocks), "shufi64x2": (3, shuffled_blocks),
    "kshiftrq": (2, lambda x, n: shift_right(x, min(n, 64))),
    **{f"punpck{half}{name}": interleaved(size, half == "h") for half in "lh"
       for name, size in (("bw", 8), ("wd", 16), ("dq", 32), ("qdq", 64))},
}
for size, names in {128: ("128", "32x4", "64x2"), 256: ("32x8", "64x4")}.items():
    for name in names:
        PLAIN |= {f"extracti{name}": part(size), f"inserti{name}": insert(size), f"broadcasti{name}": spread(size)}
for op in "and", "or", "xor", "andn":
    run = functools.partial(bitwise, op) if op != "andn" else lambda x, y: bitwise("and", complement(x), y)
    PLAIN |= {name: (2, run) for name in (f"p{op}", f"{op}ps", f"{op}pd", f"p{op}d", f"p{op}q")}
# By the ends of their names.
FAMILIES = {
    "padd bwdq": lambda n: each(n, add), "psub bwdq": lambda n: each(n, sub), "pmull wdq": lambda n: each(n, mul),
    "pcmpeq bwdq": lambda n: each(n, if_equal), "pcmpgt bwdq": lambda n: each(n, if_greater),
    "psllv dq": lambda n: each(n, shift_lane(shift_left)), "psrlv dq": lambda n: each(n, shift_lane(shift_right)),
    "prolv dq": lambda n: each(n, rotate_lane),
    "prol dq": lambda n: (2, lambda x, k: lanes(n, lambda lane: rotate_lane(lane, k), x)),
    "psll wdq": lambda n: each_by(n, shift_left), "psrl wdq": lambda n: each_by(n, shift_right),
    "psra wd": lambda n: each_by(n, shift_signed), "pextr bwdq": part, "pinsr bwdq": insert, "pbroadcast bwdq": spread,
    "pternlog dq": lambda n: (4, ternary),
    "align dq": lambda n: (3, lambda x, y, k: cut(join(y, x), n * (k % (width_of(x) // n)), width_of(x))),
    "kmov bwdq": lowest, "pcmpneq bwdq": lambda n: each(n, lambda x, y: complement(is_zero(bitwise("xor", x, y)))),
    "pcmpnleu dq": lambda n: each(n, lambda x, y: number(is_below(y, x), 1)),
    "pcmpltu dq": lambda n: each(n, lambda x, y: number(is_below(x, y), 1)),
}
for family, make in FAMILIES.items():
    name, letters = family.split()
    PLAIN |= {f"{name}{letter}": make(LETTERS[letter]) for letter in letters}
for one, other in itertools.combinations(LETTERS, 2):
    small, large = LETTERS[one], LETTERS[other]
    for kind, widened in ("z", extend), ("s", sign_extend):
        PLAIN[f"pmov{kind}x{one}{other}"] = 1, lambda x, n=small, m=large, by=widened: lanes(n, lambda lane: by(lane, m), x)
# What can be done for some lanes alone, with the size of a lane.
MASKED = {f"movdq{kind}{size}": size for kind in "ua" for size in (8, 16, 32, 64)}
OPERATIONS = {name: plain(function) for name, (_, function) in PLAIN.items()} | CONDITIONAL
# How many operands an instruction reads: the last ones.
READS = {name: count for name, (count, _) in PLAIN.items()} | {name: reads(run) - 1 for name, run in CONDITIONAL.items()}
READ_ONLY = {"cmp", "test", "ptest", "bt", *(f"kortest{letter}" for letter in LETTERS)}
UNALIGNED = re.compile("movup.|movdqu.*|lddqu")
# Those of AVX2 that have 128 bits too, or another name than an integer's.
AVX2 = re.compile("ps[lr][la]v|pbroadcast|(extract|insert|broadcast)i")


@functools.cache
def prepared(op, text):
    """What runs an instruction, and what it is given: for most `X86.operate`, with the operation and its operands, those that
    are read and whether each is an int, the largest width, and whether it is AVX's, needs aligned vectors, and needs AVX2."""
    prefixes, op, text = split(op, text)
    if any(op not in PREFIXES[prefix].split() for prefix in prefixes):
        raise Stop("a prefix that is not understood")
    if op in ("nop", "endbr64") or (op, text) == ("xchg", "ax,ax"):
        return [lambda machine: None]
    special = SPECIAL.get("j" if op[0] == "j" else op)
    if special:
        return special, op, text
    name, operands = X86.name_of(op), decode(text)
    is_avx = name != op or op[0] == "k"
    if name in ("shl", "shr", "sar", "rol", "ror") and len(operands) == 1:
        operands = [*operands, ("number", 1, None, [])]
    if name not in OPERATIONS or name[:2] == "bt" and operands[0][0] == "memory" and operands[1][0] == "register":
        raise Stop("the instruction is not known")
    if operands[0][1][0] == "k" and name[:6] in ("pcmpeq", "pcmpgt"):
        raise Stop("a comparison whose result is a mask")
    width = max(item[2] or 0 for item in operands)
    is_aligned = not UNALIGNED.fullmatch(name) and (not is_avx or name[:4] in ("mova", "movd"))
    is_avx2 = is_avx and bool(name[0] == "p" and width > 128 and name != "ptest" or AVX2.match(name))
    takes_ints = name in PLAIN and name not in SAME
    used = [(item, item[0] == "number" and takes_ints) for item in operands[-READS[name] :]]
    return X86.operate, name, operands, used, width, is_avx, is_aligned, is_avx2


class X86(Machine):
    pointer, red_zone, result_register, argument_registers = "rsp", 128, "rax", "rdi rsi rdx rcx r8 r9".split()
    popped, entry, kept = 8, 8, dict.fromkeys("rbx rbp r12 r13 r14 r15".split(), 64)  # the caller pushed where to return to
    processor = None  # while constructors run: what cpuid and xgetbv say
    form_of, forms = staticmethod(form_of), forms_of("x86-64") | {"cpuid -", "xgetbv -"}  # whose answers are any

    @staticmethod
    def name_of(op):
        """AVX's are called as SSE's are."""
        return op[1:] if op[0] == "v" and op[1:] in OPERATIONS else op

    def set_up(self):
        has_512 = self.library.uses(r"zmm|[xy]mm(1[6-9]|[23])|\bk[0-7]\b")
        self.registers = {name: unknown(("before", name), 64) for name, width in REGISTERS.values()
                          if name[0] == "r" or name[0] == "k" and has_512}
        width, count = (512, 32) if has_512 else (256, 16)
        self.registers |= {f"xmm{n}": unknown(("before", f"xmm{n}"), width) for n in range(count)}
        self.registers["rsp"] = self.stack
        self.map(self.stack, [CALLER])
        self.guard = extend(unknown("thread", 62, 1))
        self.map(self.guard, [unknown("guard", 64)])

    def pass_arguments(self, arguments):
        self.registers |= zip(self.argument_registers, arguments)
        self.map(add(self.stack, number(8)), arguments[len(self.argument_registers) :], writable=True)

    # ---- operands

    def address(self, terms):
        at = number(0)
        for name, factor in terms:
            if name in REGISTERS:
                value = self.registers[name]
            elif name == "rip":
                value = add(IMAGE, number(self.next))
            else:
                value = self.guard if name == "guard" else number(int(name, 16))
            at = add(at, mul(value, number(factor)))
        return at

    def read(self, operand, width):
        kind, what, own, _ = operand
        if kind == "memory":
            return self.load(self.address(what), (own or width) // 8)
        if kind == "broadcast":
            return repeat(self.load(self.address(what), own // 8), width // own)
        return number(what, width) if kind == "number" else cut(self.registers[what], 0, own)

    def write(self, operand, value, clears):
        """A write of 32 bits clears the higher ones; one of 8 or 16 keeps them, and SSE's of 128, but not AVX's."""
        kind, what, width, _ = operand
        if (size := width_of(value)) != width:
            value = cut(extend(value, max(width, size)), 0, width)
        if kind == "memory":
            return self.store(self.address(what), value)
        before = self.registers[what]
        if (whole := width_of(before)) > width:
            keeps = not clears and width != 32
            value = join(value, cut(before, width, whole - width)) if keeps else extend(value, whole)
        self.registers[what] = value

    def masked(self, name, operand, value, width):
        """Lanes whose bit is not set stay, or are cleared."""
        size, bits, before = MASKED[name], self.registers[operand[3][0]], self.read(operand, width)
        return join(*(cut(value, at, size) if decided(cut(bits, at // size, 1), "a mask") else number(0, size)
                      if "z" in operand[3] else cut(before, at, size) for at in range(0, operand[2], size)))

    # ---- instructions

    def step(self, op, text):
        run, *details = prepared(op, text)
        run(self, *details)

    def operate(self, name, operands, used, width, is_avx, is_aligned, is_avx2):
        for kind, what, size, _ in operands if is_aligned else ():
            if kind == "memory" and size and size > 64:
                self.must_be_aligned(self.address(what), size // 8)
        # If constructors set a flag, code for AVX2 runs only where the flag is 1.
        if is_avx2 and self.library.flags and not any(self.library.setting.values()):
            raise Stop("an instruction of AVX2 where the processor perhaps has none")
        values = [item[1] if is_int else self.read(item, width) for item, is_int in used]
        result = OPERATIONS[name](self, *values)
        if name == "and" and operands[0][1] == "rsp" and number_in(values[1]) is not None:
            self.align_stack(number_in(values[1]))
        if name not in READ_ONLY:
            if operands[0][3]:
                result = self.masked(name, operands[0], result, width)
            self.write(operands[0], result, is_avx)

    def choose(self, op, text):
        """`set..` and `cmov..`."""
        operands = decode(text)
        values = [self.read(item, operands[0][2]) for item in operands]
        self.write(operands[0], self.condition(op[3:]) if op[0] == "s" else values[self.holds(op[4:])], False)

    def load_address(self, op, text):
        to, source = decode(text)
        if source[1] == GUARD_TERMS:
            raise Stop("an address in a segment")
        self.write(to, self.address(source[1]), False)

    def move_extended(self, op, text):
        """With the sign. `cqo` and `cdq` fill the other register with it."""
        names = {"cdqe": "rax,eax", "cwde": "eax,ax", "cqo": "rdx,rax", "cdq": "edx,eax"}
        to, source = decode(text or names[op])
        value = self.read(source, to[2])
        if op in ("cqo", "cdq"):
            value = repeat(cut(value, source[2] - 1, 1), source[2])
        self.write(to, sign_extend(value, to[2]), False)

    def exchange(self, op, text):
        operands = decode(text)
        values = [self.read(item, operands[0][2]) for item in operands]
        for operand, value in zip(operands, values[::-1]):
            self.write(operand, value, False)

    def repeated(self, op, text):
        """So many numbers in memory; the caller has cleared the flag of direction."""
        kind, name = re.fullmatch(r"(stos|movs) (\w+) PTR es:\[rdi\],([re]?a[lx]|\w+ PTR ds:\[rsi\])", text).group(1, 2)
        size = SIZES[name] // 8
        for _ in range(known(self.registers["rcx"], "a number of words")):
            is_move = kind == "movs"
            value = self.load(self.registers["rsi"], size) if is_move else cut(self.registers["rax"], 0, 8 * size)
            self.store(self.registers["rdi"], value)
            for register in ("rdi", "rsi")[: 1 + is_move]:
                self.registers[register] = add(self.registers[register], number(size))
        self.registers["rcx"] = number(0)

    def multiply(self, op, text):
        """Twice the bits of a product. `mulx` names where they are written, and sets no conditions."""
        *to, operand = decode(text)
        width = operand[2]
        to = to or [("register", name, width, []) for name in ("rdx", "rax")]
        x, y = self.read(operand, width), cut(self.registers["rdx" if op == "mulx" else "rax"], 0, width)
        if width < 32:
            raise Stop("a product of other widths")
        numbers = number_in(x), number_in(y)
        high = unknown(("high", x, y), width) if None in numbers else number(numbers[0] * numbers[1] >> width, width)
        for operand, value in zip(to[::-1], (mul(x, y), high)):
            self.write(operand, value, False)
        self.flags = self.flags if op == "mulx" else None

    def divide(self, op, text):
        """Of numbers that are known. The quotient has no more bits than the divisor."""
        (operand,) = decode(text)
        width = operand[2]
        divisor = known(self.read(operand, width), "a divisor")
        low, high = (known(cut(self.registers[name], 0, width), "a dividend") for name in ("rax", "rdx"))
        if width < 32 or divisor <= high:
            raise Stop("a division that fails")
        quotient, rest = divmod(high << width | low, divisor)
        self.registers["rax"], self.registers["rdx"] = number(quotient), number(rest)
        self.flags = None

    def ask_processor(self, op, _):
        """What a processor says while constructors run. Anything else that it says is unknown."""
        leaf = known(cut(self.registers["rax" if op == "cpuid" else "rcx"], 0, 32), "a leaf")
        if self.processor is None or op == "xgetbv" and (leaf or not self.processor["osxsave"]):
            raise Stop("the processor is asked while it must not be")
        answers = {name: self.anything(name, 32) for name in ("rax", "rbx", "rcx", "rdx")[:: 1 if op == "cpuid" else 3]}
        if op == "xgetbv":
            answers["rax"] = replace(answers["rax"], 1, number(self.processor["saved"], 2))
        elif leaf == 0:
            answers["rax"] = number(self.processor["leaves"], 32)
        elif leaf == 1:
            answers["rcx"] = replace(answers["rcx"], 27, number(self.processor["osxsave"], 1))
        elif leaf == 7 and self.processor["leaves"] >= 7 and known(cut(self.registers["rcx"], 0, 32), "a leaf") == 0:
            answers["rbx"] = replace(answers["rbx"], 5, number(self.processor["avx2"], 1))
        self.registers |= {name: extend(value) for name, value in answers.items()}

    @staticmethod
    def processors():
        """Each that constructors may meet, and whether code for AVX2 may run on it."""
        for leaves, osxsave, saved, avx2 in itertools.product((0, 6, 7), (0, 1), range(4), (0, 1)):
            found = {"leaves": leaves, "osxsave": osxsave, "saved": saved, "avx2": avx2}
            yield found, saved == 3 and avx2  # without xgetbv or leaf 7 the code cannot know of either

    # ---- the stack, and jumps

    def jump(self, op, text):
        is_plain = re.fullmatch("(0x)?[0-9a-f]+", text)
        target = None if is_plain else self.read(decode(text)[0], 64)
        if op == "call":
            self.push(add(IMAGE, number(self.next)))
        if op in ("call", "jmp") or self.holds(op[1:]):
            self.next = int(text, 16) if is_plain else self.next
            if target is not None:
                self.go_to(target)

    def push(self, value):
        self.registers["rsp"] = sub(self.registers["rsp"], number(8))
        self.move_stack()
        self.store(self.registers["rsp"], value)

    def pop(self):
        value = self.load(self.registers["rsp"], 8)
        self.registers["rsp"] = add(self.registers["rsp"], number(8))
        return value

    return_address = pop

    def use_stack(self, op, text):
        operands = decode(text)
        if any(item[2] not in (None, 64) for item in operands):
            raise Stop("the stack's words have 64 bits")
        if op == "push":
            self.push(self.read(operands[0], 64))
        elif op == "leave":
            self.registers["rsp"] = self.registers["rbp"]
            self.registers["rbp"] = self.pop()
        elif op == "pop":
            self.write(operands[0], self.pop(), True)
        elif operands:
            raise Stop("a return that takes more from the stack")
        else:
            self.go_to(self.pop())

    def clear_upper(self, op, _):
        self.registers |= {f"xmm{n}": extend(cut(value, 0, 128), width_of(value))
                           for n in range(16) for value in [self.registers[f"xmm{n}"]]}


CONDITIONS = "e ne b ae be a s ns l ge le g".split()
SPECIAL = {
    "lea": X86.load_address, "xchg": X86.exchange, "rep": X86.repeated, "div": X86.divide, "vzeroupper": X86.clear_upper,
    **dict.fromkeys(("mul", "mulx"), X86.multiply), **dict.fromkeys(("call", "j"), X86.jump),
    **dict.fromkeys(("cpuid", "xgetbv"), X86.ask_processor), **dict.fromkeys(("push", "pop", "ret", "leave"), X86.use_stack),
    **dict.fromkeys(("movsx", "movsxd", "cdqe", "cwde", "cqo", "cdq"), X86.move_extended),
    **{f"{kind}{name}": X86.choose for kind in ("set", "cmov") for name in CONDITIONS},
}
