"""Small functions through the printer of C, on three processors: each operation, width and shape; and what it refuses."""
import importlib
import itertools
import re
import subprocess
import sys

import pytest
from conftest import DIST, ROOT

PRINTER, PATH = ROOT / "tools/print_c", "sketch_hash::hash::words::"
WIDTHS, MASK = (8, 16, 32, 64, 128), {bits: 2 ** bits - 1 for bits in (1, 8, 16, 32, 64, 128)}
POWERS = [2 ** bits for bits in (0, 7, 8, 15, 16, 31, 32, 63, 64, 127)]
BORDERS = sorted({value for power in POWERS for value in (power - 1, power, 3 * power // 2)} | {3, 2 ** 64 - 59, 2 ** 128 - 1})
VALUES = {bits: [value for value in BORDERS if value <= MASK[bits]] for bits in WIDTHS}


def load_printer():
    """Its modules, whose names other tests have for modules of their own."""
    names = [path.stem for path in PRINTER.glob("[!_]*.py")]
    others = {name: sys.modules.pop(name) for name in names if name in sys.modules}
    sys.path.insert(0, str(PRINTER))
    loaded = {name: importlib.import_module(name) for name in names}
    sys.path.remove(str(PRINTER))
    for name in names:
        del sys.modules[name]
    sys.modules.update(others)
    return loaded


P = load_printer()

# ---- Tokens of mir.json

INT = {bits: {"Int": bits} for bits in WIDTHS}
TYPES = {"(,)": {"Fields": [{"Param": 0}, {"Param": 1}]}, "core::option::Option": {"Variants": [[], [{"Param": 0}]]},
         "core::result::Result": {"Variants": [[{"Param": 0}], [{"Param": 1}]]}}
PAIR, OPTION, RESULT = ({"Named": [{"name": name}, [INT[64]] * count]} for name, count in zip(TYPES, (2, 1, 2)))
NO_ARGS = {"types": [], "dicts": []}


def reference(type, is_mut=False):
    return {"Ref": ["'a", "Mut" if is_mut else "Imm", type]}


def slice_of(type, is_mut=False):
    return {"Struct": ["&[]", [reference(type, is_mut), INT[64]]]}


def place(local, *steps):
    """Of each step: a field's index, a variant's as a tuple, or the type of what a pointer points to."""
    words = {int: "Field", tuple: "Variant", dict: "Deref"}
    return {"local": local, "steps": [{words[type(step)]: step[0] if isinstance(step, tuple) else step} for step in steps]}


def copy(local, *steps):
    return {"Copy": place(local, *steps)}


def number(value, bits=64):
    return {"Int": {"width": bits, "value": value}}


def put(local, word, *of):
    """local = right side; `local` may be a place."""
    right = {"Opd": of[0]} if word == "Opd" else {"Aggregate": list(of)} if word == "Aggregate" else {word: list(of)}
    return [{"Assign": [local if isinstance(local, dict) else place(local), right]}]


def op(local, operation, *operands):
    return put(local, f"Op{len(operands)}", operation, *operands)


def seq(*statements):
    return [token for statement in statements for token in ("Seq", *statement)] + ["Skip"]


def when(operand, yes, no=("Skip",)):
    return [{"If": operand}, *yes, *no]


def called(local, name, *operands):
    return [{"Call": [{"Fn": [name, NO_ARGS]}, list(operands), place(local)]}]


L = [copy(local) for local in range(9)]
RETURN, LOOP, BLOCK = ["Return"], ["Loop"], ["Block"]
LT = {"Lt": "Unsigned"}


def exit_of(depth):
    return [{"Exit": depth}]


def body(*statements):
    return seq(*statements, RETURN)


def function(parameters, result, locals, tokens):
    types = [result, *parameters, *locals]
    return {"generics": {"method_of": None}, "types": [{"name": name, "shape": shape} for name, shape in TYPES.items()],
            "params": len(parameters), "locals": [{"ty": type, "home": "ValueLocal"} for type in types], "body": tokens}


def printed(functions):
    """The text of C of functions by their names."""
    sources = P["source"].Sources(ROOT, [])
    for name, token in functions.items():
        parameters = [f"{'abcd'[i]}" for i in range(token["params"])]
        sources.functions[PATH + name] = P["source"].Source(parameters=parameters)
    crates = P["mir"].Crates([(PATH + name, token) for name, token in functions.items()])
    library = P["library"].Library(crates, "", sources)
    all_printed = [library.printed(PATH + name, P["mir"].Given()) for name in functions]
    if None in all_printed:
        raise P["mir"].Unknown("it has no form in C")
    writer = P["write"].Writer({}, set())
    return "\n".join(library.function_text(own, writer) for own in all_printed)


# ---- Each operation, and each cast: a function, what it takes, and what Python computes

CASES = {}  # by name: the tokens of the function, the widths of its parameters, its result by Python, which arguments it takes


def case(name, widths, result, tokens, expected, locals=(), takes=lambda *values: True):
    result_type = result if isinstance(result, dict) else {"Bool": None} if result == 1 else INT[result]
    result_type = "Bool" if result == 1 else result_type
    CASES[name] = (function([INT[bits] for bits in widths], result_type, list(locals), tokens), widths, expected, takes)


UNSIGNED = {word: {word: "Unsigned"} for word in ("Add", "Sub", "Mul", "Div", "Rem", "Shr", "Lt", "Le")}
WRAP = {"WrapAdd": lambda a, b: a + b, "WrapSub": lambda a, b: a - b, "WrapMul": lambda a, b: a * b, "And": lambda a, b: a & b,
        "Or": lambda a, b: a | b, "Xor": lambda a, b: a ^ b, "Div": lambda a, b: a // b, "Rem": lambda a, b: a % b,
        "Shl": lambda a, b: a << b, "Shr": lambda a, b: a >> b}
COMPARE = {"Eq": lambda a, b: a == b, "Ne": lambda a, b: a != b, "Lt": lambda a, b: a < b, "Le": lambda a, b: a <= b}
OF_WIDE = {"WrapAdd", "WrapMul", "Shl", "Shr", "Lt", "Le"}  # of 128 bits there are only these
CONSTANTS = {8: [1, 3, 0x80, 0xff], 16: [3, 0x8000, 0xffff], 32: [5, 0x80000000, 0xffffffff],
             64: [7, 0x80000000, 0xffffffff, 0x100000000, 2 ** 63, 2 ** 64 - 1]}


def wrapping(of, bits):
    return lambda *values: of(*values) & MASK[bits]


for bits, (word, of) in itertools.product(WIDTHS, {**WRAP, **COMPARE}.items()):
    takes = {"Div": lambda a, b: b, "Rem": lambda a, b: b, "Shl": lambda a, b, n=bits: b < n, "Shr": lambda a, b, n=bits: b < n}
    token, out, taken = UNSIGNED.get(word, word), 1 if word in COMPARE else bits, takes.get(word, lambda a, b: True)
    if bits == 128 and word not in OF_WIDE:
        continue
    case(f"{word}{bits}".lower(), [bits, bits], out, body(op(0, token, L[1], L[2])), wrapping(of, out), takes=taken)
    for i, value in enumerate(CONSTANTS.get(bits, [])):  # with a constant on either side, inside of another operation
        if word not in ("Shl", "Shr") and word not in COMPARE:
            case(f"{word}{bits}_by_{i}".lower(), [bits], bits, body(
                op(2, token, L[1], number(value, bits)), op(3, UNSIGNED["Shr"], L[2], number(1, bits)),
                op(0, "WrapAdd", L[3], L[2])),
                lambda a, f=of, v=value, n=bits: ((f(a, v) & MASK[n]) >> 1) + f(a, v) & MASK[n], [INT[bits]] * 2)
        if word in COMPARE:
            case(f"{word}{bits}_to_{i}".lower(), [bits], 1, body(
                op(2, "WrapSub", L[1], number(value, bits)), op(0, token, L[2], number(value, bits))),
                lambda a, f=of, v=value, n=bits: f((a - v) & MASK[n], v), [INT[bits]])
for bits in WIDTHS[:4]:
    case(f"not{bits}", [bits], bits, body(op(0, "Not", L[1])), lambda a, n=bits: ~a & MASK[n])
    case(f"not_shifted{bits}", [bits], bits, body(op(2, "Not", L[1]), op(0, UNSIGNED["Shr"], L[2], number(1, bits))),
         lambda a, n=bits: (~a & MASK[n]) >> 1, [INT[bits]])
    case(f"small_shifted{bits}", [bits, bits], bits, body(
        op(3, LT, L[1], L[2]), when(L[3], put(4, "Opd", number(1, bits)), put(4, "Opd", number(2, bits))),
        op(0, "Shl", L[4], number(bits - 3, bits))), lambda a, b, n=bits: (1 if a < b else 2) << n - 3, ["Bool", INT[bits]])
for of, to in itertools.product(WIDTHS, WIDTHS):
    if of == to or of == 128 and to < 64 or to == 128 and of < 64:
        continue
    cast, back = ({"Cast": ["Unsigned", "Unsigned", bits]} for bits in (to, of))
    case(f"cast{of}_to_{to}", [of], to, body(op(0, cast, L[1])), lambda a, n=to: a & MASK[n])
    case(f"cast{of}_to_{to}_and_back", [of], of, body(op(2, cast, L[1]), op(0, back, L[2])),
         lambda a, n=to: a & MASK[n], [INT[to]])

# ---- Shapes

W, TWO = INT[64], [64, 64]
FEW = lambda a, b: a < 300 and b < 300


def kept(a, b):
    second = a * b & MASK[64] if a < b else a
    last = second + max(0, 138 - second) // 40 * 40
    return ((a + 7) * (second + 9) & MASK[64]) ^ last


def gcd(a, b):
    while b:
        a, b = b, a % b
    return a


case("max_by_if", TWO, 64, body(
    op(3, LT, L[1], L[2]), when(L[3], put(0, "Opd", L[2]), put(0, "Opd", L[1]))), max, ["Bool"])
case("swap_by_if", TWO, 64, body(
    op(3, LT, L[1], L[2]), when(L[3], seq(put(4, "Opd", L[1]), put(1, "Opd", L[2]), put(2, "Opd", L[4]))),
    op(0, "WrapSub", L[1], L[2])), lambda a, b: abs(a - b), ["Bool", W])
case("swap_of_pairs", TWO, 64, body(
    op(3, LT, L[1], L[2]), when(L[3], put(4, "Aggregate", L[2], L[1]), put(4, "Aggregate", L[1], L[2])),
    op(5, "WrapMul", copy(4, 0), number(3)), op(0, "WrapSub", L[5], copy(4, 1))),
    wrapping(lambda a, b: 3 * max(a, b) - min(a, b), 64), ["Bool", PAIR, W])
case("switch", TWO, 64, body(
    [{"Switch": [L[1], [[0], [1, 127], [2 ** 31, 2 ** 63]], True]}, *put(0, "Opd", number(5)), *put(0, "Opd", L[2]),
     *put(0, "Opd", L[1]), *op(0, "Xor", L[1], L[2])]), lambda a, b: {0: 5, 1: b, 127: b, 2 ** 31: a, 2 ** 63: a}.get(a, a ^ b))
case("cases", TWO, 64, body(
    [{"Switch": [L[1], [[0], [1], [127], [255]], True]}, *put(0, "Opd", number(5)), *put(0, "Opd", L[2]),
     *seq(op(3, LT, L[2], number(99)), when(L[3], put(0, "Opd", number(6)), put(0, "Opd", number(7)))),
     *put(0, "Opd", number(8)), *op(0, "Xor", L[1], L[2])]),
     lambda a, b: {0: 5, 1: b, 127: 6 if b < 99 else 7, 255: 8}.get(a, a ^ b), ["Bool"])
few, arms = (0, 1, 3, 127, 255), [token for n in range(5) for token in seq(
    op(3, LT, L[2], number(99)), when(L[3], exit_of(0), seq(put(0, "Opd", number(n)), RETURN)))]
case("cases_that_leave_a_loop", TWO, 64, body(
    LOOP + [{"Switch": [L[1], [[n] for n in few], True]}, *arms, *seq(op(0, "Xor", L[1], L[2]), RETURN)],
    op(0, "WrapAdd", L[2], number(9))), lambda a, b: a ^ b if a not in few else b + 9 if b < 99 else few.index(a), ["Bool"])
case("by_and", TWO, 1, body(
    put(0, "Opd", "False"), op(3, LT, L[1], number(255)),
    BLOCK + seq(when(L[3], seq(), exit_of(0)), op(4, LT, L[2], number(2 ** 31)), put(0, "Opd", L[4]))),
    lambda a, b: a < 255 and b < 2 ** 31, ["Bool"] * 2)
case("by_or", TWO, 1, body(
    put(0, "Opd", "True"), op(3, LT, L[1], number(255)),
    BLOCK + seq(when(L[3], exit_of(0), seq()), op(4, LT, L[2], number(2 ** 31)), put(0, "Opd", L[4]))),
    lambda a, b: a < 255 or b < 2 ** 31, ["Bool"] * 2)
case("gcd", TWO, 64, body(
    LOOP + seq(op(3, "Eq", L[2], number(0)), when(L[3], exit_of(0)),
               op(4, UNSIGNED["Rem"], L[1], L[2]), put(1, "Opd", L[2]), put(2, "Opd", L[4])),
    put(0, "Opd", L[1])), gcd, ["Bool", W])
case("fibonacci", TWO, 64, body(
    put(3, "Opd", number(0)), put(4, "Opd", number(1)), put(5, "Opd", number(0)),
    LOOP + seq(op(6, LT, L[5], L[1]), when(L[6], seq(), exit_of(0)),
               op(7, "WrapAdd", L[3], L[4]), put(3, "Opd", L[4]), put(4, "Opd", L[7]), op(5, "WrapAdd", L[5], number(1))),
    op(0, "WrapAdd", L[3], L[2])), lambda a, b: (fibonacci(a) + b) & MASK[64], [W, W, W, "Bool", W], FEW)
case("counter_of_what_changes", TWO, 64, body(
    put(3, "Opd", L[1]), op(1, "WrapMul", L[1], number(3)),
    LOOP + seq(op(4, LT, L[3], number(300)), when(L[4], seq(), exit_of(0)), op(2, "WrapAdd", L[2], L[1]),
               op(3, "WrapAdd", L[3], number(1))),
    op(0, "WrapAdd", L[2], L[1])), lambda a, b: b + (300 - a + 1) * 3 * a, [W, "Bool"], FEW)
case("kept_before_it_changes", TWO, 64, body(
    op(3, "WrapAdd", L[1], number(7)), op(4, LT, L[1], L[2]), when(L[4], op(1, "WrapMul", L[1], L[2])),
    op(5, "WrapAdd", L[1], number(9)),
    LOOP + seq(op(4, LT, L[1], number(99)), when(L[4], seq(), exit_of(0)), op(1, "WrapAdd", L[1], number(40))),
    op(0, "WrapMul", L[3], L[5]), op(0, "Xor", L[0], L[1])), kept, [W, "Bool", W])
case("turns_of_pairs", TWO, 64, body(
    put(3, "Aggregate", L[1], L[2]), put(4, "Opd", number(0)),
    LOOP + seq(op(5, LT, L[4], number(3)), when(L[5], seq(), exit_of(0)),
               put(3, "Aggregate", copy(3, 1), copy(3, 0)), op(4, "WrapAdd", L[4], number(1))),
    op(0, "WrapSub", copy(3, 0), copy(3, 1))), wrapping(lambda a, b: b - a, 64), [PAIR, W, "Bool"])
case("early_return", TWO, 64, body(
    put(3, "Opd", number(0)),
    LOOP + seq(op(4, "WrapMul", L[3], L[3]), op(5, LT, L[4], L[1]),
               when(L[5], seq(), seq(op(0, "WrapAdd", L[3], L[2]), RETURN)), op(3, "WrapAdd", L[3], number(1)))
), lambda a, b: b + next(i for i in range(99) if i * i >= a), [W, W, "Bool"], FEW)


def fibonacci(n):
    a, b = 0, 1
    for _ in range(n):
        a, b = b, (a + b) & MASK[64]
    return a


# ---- Memory, and functions that call others

OTHERS = {}  # functions that are called by cases, or by a function of C, which is then the case


def case_of_c(name, text, expected):
    CASES[name] = (f"static uint64_t skh_{name}(uint64_t a, uint64_t b) {{ {text} }}\n", TWO, expected, lambda a, b: True)


def each_turn(*statements):
    """While local 3 is below the length of the slice in local 1."""
    head = [op(4, LT, L[3], copy(1, 1)), when(L[4], seq(), exit_of(0))]
    return LOOP + seq(*head, *statements, op(3, "WrapAdd", L[3], number(1)))


for bits in (8, 32, 64):
    cast = {"Cast": ["Unsigned", "Unsigned", 64]}
    wide = put(7, "Opd", copy(6, INT[bits])) if bits == 64 else op(7, cast, copy(6, INT[bits]))
    OTHERS[f"sum_of{bits}"] = function([slice_of(INT[bits]), W], W, [W, "Bool", W, reference(INT[bits]), W], body(
        put(3, "Opd", number(0)), each_turn(op(5, "WrapMul", L[3], number(bits // 8)), op(6, "Offset", copy(1, 0), L[5]),
                                            wide, op(2, "WrapAdd", L[2], L[7])), put(0, "Opd", L[2])))
    case_of_c(f"sum_of_array{bits}", f"uint64_t in[2] = {{a, b}}; return skh_sum_of{bits}((void *)in, {128 // bits}, 7);",
              lambda a, b, n=bits: 7 + sum((v >> i) & MASK[n] for v in (a, b) for i in range(0, 64, n)) & MASK[64])
OTHERS["count_up"] = function([slice_of(INT[8], True), INT[8]], "Unit", [W, "Bool", reference(INT[8], True)], body(
    put(3, "Opd", number(0)), each_turn(op(5, "Offset", copy(1, 0), L[3]), put(place(5, INT[8]), "Opd", L[2]), op(
        2, "WrapAdd", L[2], number(1, 8)))))
case_of_c("counted_up", "unsigned char out[8]; skh_count_up(out, 8, (uint8_t)a); return skh_load64(out) ^ b;",
          lambda a, b: sum(((a + i) & 255) << 8 * i for i in range(8)) ^ b)
OTHERS["exchange"] = function([reference(W, True), W], W, [W], body(
    put(3, "Opd", copy(1, W)), put(place(1, W), "Opd", L[2]), op(0, "WrapAdd", L[3], copy(1, W))))
case_of_c("exchanged", "uint64_t x = a; const uint64_t sum = skh_exchange(&x, b); return sum ^ x;",
          lambda a, b: ((a + b) & MASK[64]) ^ b)
for bits in (16, 32, 64):
    bytes_of = {"Array": [INT[8], {"Const": bits // 8}]}
    OTHERS[f"read{bits}"] = function([slice_of(INT[8])], INT[bits], [reference(bytes_of), bytes_of], body(
        op(2, "Offset", copy(1, 0), number(3)), put(3, "Opd", copy(2, bytes_of)),
        called(0, f"core::int::u{bits}::from_le_bytes", L[3])))
    case_of_c(f"read_bytes{bits}", "unsigned char in[16]; skh_store64(in, a); skh_store64(in + 8, b); "
              f"return skh_read{bits}(in);",
              lambda a, b, n=bits: (a + (b << 64) >> 24) & MASK[n])
OTHERS["sum_and_difference"] = function([W, W], PAIR, [W, W], body(op(3, "WrapAdd", L[1], L[2]), op(
    4, "WrapSub", L[1], L[2]), put(0, "Aggregate", L[3], L[4])))
case("from_pair", TWO, 64, body(called(3, PATH + "sum_and_difference", L[1], L[2]), op(4, "WrapMul", copy(3, 0), number(3)), op(
     0, "Xor", L[4], copy(3, 1))), lambda a, b: (a + b) * 3 % 2 ** 64 ^ (a - b) % 2 ** 64, [PAIR, W])
for name, form, none in (("option", OPTION, [number(0, 8)]), ("result", RESULT, [number(1, 8), L[1]])):
    OTHERS[f"{name}_by"] = function([W, W], form, ["Bool", W], body(op(3, "Eq", L[2], number(0)), when(L[3], put(
        0, "Aggregate", *none), seq(op(4, UNSIGNED["Div"], L[1], L[2]), put(
            0, "Aggregate", number(int(name == "option"), 8), L[4])))))
    OTHERS[f"passed_{name}"] = function([W, W], form, [form], body(
        called(3, PATH + f"{name}_by", L[1], L[2]), put(0, "Opd", L[3])))
    is_some = int(name == "option")
    case(f"from_{name}", TWO, 64, body(
        called(3, PATH + f"passed_{name}", L[1], L[2]),
        [{"Switch": [copy(3, 0), [[is_some]], True]}, *put(0, "Opd", copy(3, (is_some,), 1)),
         *(put(0, "Opd", number(9)) if name == "option" else op(0, "Not", copy(3, (1,), 1)))]),
         lambda a, b, o=name == "option": a // b if b else 9 if o else ~a & MASK[64], [form])


PROCESSORS = {"x86-64": (["gcc"], []), "32 bits": (["i686-linux-gnu-gcc", "-static"], []),
              "big-endian": (["s390x-linux-gnu-gcc", "-static"], ["qemu-s390x"])}
STRICT = ["-std=c11", "-O1", "-Wall", "-Wextra", "-Werror", "-Wno-type-limits"]


def run(compiler, runner, text, folder):
    head = (PRINTER / "head.c").read_text()
    (folder / "small.c").write_text(f"{head}\n#include <stdio.h>\n{text}")
    subprocess.run([*compiler, *STRICT, "-I", DIST / "include", "-o", folder / "small", folder / "small.c"], check=True)
    return subprocess.run([*runner, folder / "small"], check=True, stdout=subprocess.PIPE, text=True).stdout.split("\n")[:-1]


def driver(name):
    """A function of C that prints the results of one case, and those that are expected."""
    _, widths, expected, takes = CASES[name]
    rows = [row for row in itertools.product(*(VALUES[bits] for bits in widths)) if takes(*row)]
    words = ", ".join("{" + ", ".join(f"0x{v >> 64:x}u, 0x{v % 2 ** 64:x}u" for v in row) + "}" for row in rows)
    arguments = [f"skh_wide(in[i][{2 * j}], in[i][{2 * j + 1}])" if bits == 128 else f"(uint{bits}_t)in[i][{2 * j + 1}]"
                 for j, bits in enumerate(widths)]
    result = f"skh_{name}({', '.join(arguments)})"
    of = CASES[name][0]
    if not isinstance(of, str) and of["locals"][0]["ty"] == INT[128]:
        shown = f"skh_uint128 x = {result}; printf(\"%016llx%016llx\\n\", (unsigned long long)skh_wide_high(x), " \
                "(unsigned long long)skh_wide_low(x));"
    else:
        shown = f'printf("%032llx\\n", (unsigned long long){result});'
    return f"static void test_{name}(void) {{ static const uint64_t in[][{2 * len(widths)}] = {{{words}}};\n" \
           f"for (int i = 0; i < {len(rows)}; i++) {{ {shown} }} }}\n", [f"{int(expected(*row)):032x}" for row in rows]


@pytest.mark.parametrize("processor", PROCESSORS)
def test_each_operation_width_and_shape_computes_what_is_meant(processor, need, tmp_path):
    compiler, runner = PROCESSORS[processor]
    need(compiler[0], *runner)
    tests = {name: driver(name) for name in CASES}
    text = printed({**OTHERS, **{name: own[0] for name, own in CASES.items() if not isinstance(own[0], str)}})
    text += "".join(own[0] for own in CASES.values() if isinstance(own[0], str)) + "".join(text for text, _ in tests.values())
    main = f"int main(void) {{ {' '.join(f'test_{name}();' for name in tests)} return 0; }}"
    output = run(compiler, runner, text + main, tmp_path)
    expected = [(name, line) for name, (_, lines) in tests.items() for line in lines]
    wrong = {name for (name, line), got in zip(expected, output, strict=True) if line != got}
    assert not wrong


# ---- What it refuses

def of_two(*statements, types=(W, W), result=W, locals=()):
    return function(types, result, locals, body(*statements))


HALF, BYTES = INT[32], {"Array": [INT[8], {"Const": 8}]}
REFUSED = {  # a function, and the words by which it is refused
    "a type": (of_two(types=[{"Float": 64}]), "type Float"),
    "a width": (of_two(types=[{"Int": 24}]), "type Int 24"),
    "a number's width": (of_two(put(0, "Opd", number(1, 24))), "operand Int"),
    "a length that is no number": (of_two(types=[reference({"Array": [INT[8], INT[64]]})]), "in place of a number"),
    "how a reference is": (of_two(types=[{"Ref": ["'a", "Raw", W]}]), "type Ref"),
    "an operation": (of_two(op(0, "Max", L[1], L[2])), "operation Max"),
    "an operation on one": (of_two(op(0, "Neg", L[1])), "operation Neg"),
    **{f"{word} with a sign": (of_two(op(0, {word: "Signed"}, L[1], L[2])), f"{word}.*Signed") for word in UNSIGNED},
    "no word on the sign": (of_two(op(0, "Shr", L[1], L[2])), "operation Shr"),
    "a cast from a sign": (of_two(op(0, {"Cast": ["Signed", "Unsigned", 64]}, L[1])), "Cast.*Signed"),
    "a cast to a sign": (of_two(op(0, {"Cast": ["Unsigned", "Signed", 64]}, L[1])), "Cast.*Signed"),
    "a cast to a width": (of_two(op(0, {"Cast": ["Unsigned", "Unsigned", 24]}, L[1])), "Cast.*24"),
    "two widths": (of_two(op(0, "WrapAdd", L[1], L[2]), types=[W, HALF]), r"\+ of uint64_t and uint32_t"),
    "a shift by another width": (of_two(op(0, "Shl", L[1], L[2]), types=[W, HALF]), "<< of uint64_t and uint32_t"),
    "a shift by the width": (of_two(op(0, "Shl", L[1], number(64))), "<< by 64"),
    "a division by 0": (of_two(op(0, UNSIGNED["Div"], L[1], number(0))), "/ by 0"),
    **{f"{word} of 128 bits": (of_two(op(0, word, L[1], L[2]), types=[INT[128]] * 2, result=INT[128]),
                               f"{sign} of 128 bits")
       for word, sign in (("WrapSub", "-"), ("Xor", r"\^"), ("And", "&"))},
    "~ of 128 bits": (of_two(op(0, "Not", L[1]), types=[INT[128]], result=INT[128]), "operation Not"),
    "a statement": (of_two(["Yield"]), "statement Yield"),
    "a right side": (of_two(put(0, "Alloca", L[1])), "right side Alloca"),
    "an operand": (of_two(put(0, "Opd", {"Move": place(1)})), "operand Move"),
    "a step": (of_two(put(0, "Opd", {"Copy": {"local": 1, "steps": [{"Index": 2}]}})), "step of a place: Index"),
    "a home": ({**of_two(), "locals": [{"ty": W, "home": "Register"}] * 3}, "Register"),
    "words after a body": ({**of_two(), "body": body() + ["Skip"]}, "words after its body"),
    "a token": (of_two([{"If": L[1], "Else": L[2]}]), "a token of mir.json"),
    "a function": (of_two(called(0, PATH + "missing", L[1])), "function .*missing"),
    "a call": (of_two([{"Call": [{"Pointer": [1, NO_ARGS]}, [], place(0)]}]), "a call of Pointer"),
    "a column of 16 bits": (of_two(types=[slice_of(INT[16])]), "form"),
    "a number at bytes": (of_two(put(0, "Opd", copy(1, HALF)), types=[reference(INT[8])]), "32.* at unsigned char"),
    "bytes at a number": (of_two(put(2, "Opd", copy(1, BYTES)), types=[reference(W)], locals=[BYTES]), "at uint64_t"),
    "half an element": (of_two(op(2, "Offset", copy(1, 0), number(4)), put(0, "Opd", copy(2, W)), types=[slice_of(W)],
                               locals=[reference(W)]), "no multiple of 8"),
    "any offset": (of_two(op(3, "Offset", copy(1, 0), L[2]), put(0, "Opd", copy(3, W)), types=[slice_of(W), W],
                          locals=[reference(W)]), "no multiple of 8"),
    "a tag that is not known": (of_two(put(3, "Aggregate", L[1], L[2]), types=[INT[8], W], locals=[OPTION]), "unknown tag"),
    "a field of an enum": (of_two(
        called(3, PATH + "option_by", L[1], L[2]), put(place(3, (1,), 1), "Opd", number(7)), put(0, "Opd", L[3]), result=OPTION,
        locals=[OPTION]), "the parts of .*struct skh_option"),
    "what was not set": (of_two(op(0, "WrapAdd", L[3], L[1]), locals=[W]), "Undefined"),
    "a loop to two places": (of_two(
        BLOCK + seq(LOOP + seq(op(3, "Eq", L[1], L[2]), when(L[3], exit_of(1)), op(4, LT, L[1], L[2]), when(L[4], exit_of(0)),
                               op(1, "WrapAdd", L[1], number(1))), op(2, "WrapAdd", L[2], number(1))),
        op(0, "WrapAdd", L[1], L[2]), locals=["Bool"] * 2), "left to several places"),
    "lanes of 8 bits": (of_two(put(3, "Vec2", {"Map": "WrapAdd"}, L[1], L[2]), types=[W, W], locals=[
        {"Vector": [INT[8], {"Const": 32}]}]), "Map.*WrapAdd"),
    "bytes that change": (of_two(
        put(3, "Opd", copy(1, BYTES)), put(place(2, BYTES), "Repeat", number(0, 8), {"Const": 8}),
        called(0, "core::int::u64::from_le_bytes", L[3]), types=[reference(BYTES), reference(BYTES, True)], locals=[BYTES]),
        "bytes that are read after memory changes"),
}


@pytest.mark.parametrize("name", REFUSED)
def test_what_is_unknown_is_refused_by_its_name(name):
    token, message = REFUSED[name]
    with pytest.raises(P["mir"].Unknown, match=message):
        printed({**OTHERS, "f": token})


def test_a_variable_outside_of_its_block_is_refused():
    own, give = P["expression"].Variable("own", P["expression"].NUMBERS[64]), P["statement"].Give
    one, declare = P["expression"].number(1, 64), P["statement"].Declare
    is_declared = [declare(own, one), give(P["expression"].variable(own))]
    P["statement"].must_be_declared(is_declared, [])
    in_an_arm = P["statement"].When(one, is_declared[:1], [])
    for nodes in is_declared[1:], is_declared[::-1], [in_an_arm, is_declared[1]]:
        with pytest.raises(P["mir"].Unknown, match="outside of its block: own"):
            P["statement"].must_be_declared(nodes, [])


def test_a_comment_names_functions_that_are_there_and_not_its_own():
    text = (DIST / "sketch_hash.c").read_text()
    there = set(re.findall(r"\b(skh_\w+)\(", text))
    abouts = re.findall(r"^/\*((?:(?!\*/).)*)\*/\n[^;{]*?\b(sk\w+_\w+)\(", text, re.M | re.S)
    named = [(re.findall(r"`(skh_\w+)", about), name) for about, name in abouts]
    assert len(named) > 100 and all(there.issuperset(names) and name not in names for names, name in named)
