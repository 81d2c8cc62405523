"""WebAssembly: each instruction beside Node, the rules for unknowns beside numbers, and changed modules, which are refused."""
import itertools
import json
import random
import subprocess

import checks
import library
import pytest
import values
import wasm
from conftest import DIST
from module import ARITHMETIC, BINARY, COMPARISONS, LOADS, NUMERIC, STORES, Module
from test_checks import refused
from values import Stop, add, any_number, cut, extend, mul, number, number_in, number_of, shift_right, sub, unknown

EXTREME = [0, 1, 2, 31, 32, 63, 127, 128, 255, 2 ** 31 - 1, 2 ** 31, 2 ** 32 - 1, 2 ** 32, 2 ** 32 + 1,
           2 ** 63 - 1, 2 ** 63, 2 ** 64 - 1]
TRIALS = 40
PUT, GOT = "i32.const 64; local.get {}; i64.store 0", "i32.const 64; i64.load 0"
LOWER = "global.get __stack_pointer; i32.const {}; i32.sub; global.set __stack_pointer"
OTHER_FORMS = [
    "local.get 0; local.get 1; local.get 0; local.get 1; i64.lt_u; i64.select",
    "block; local.get 0; i64.eqz; br_if 0; local.get 1; local.set 0; end_block; local.get 0",
    "local.get 1; i64.const 7; i64.and; local.set 1; loop; local.get 0; i64.const 3; i64.mul; local.set 0; local.get 1; "
    "i64.const -1; i64.add; local.tee 1; i64.const 0; i64.gt_s; br_if 0; end_loop; local.get 0",
    "block; block; block; local.get 0; i32.wrap_i64; br_table {0, 1, 2}; end_block; i64.const 5; return; end_block; "
    "i64.const 6; return; end_block; local.get 1",
    "block; local.get 1; local.set 0; br 0; local.get 0; drop; block; br 1; end_block; end_block; local.get 0; return; drop",
    "local.get 0; local.get 1; i64.add; local.get 0; local.get 1; call i64.sub; call i64.mul; local.get 2; i64.xor",
    "block; local.get 0; i64.eqz; i32.eqz; i32.eqz; br_if 0; local.get 1; local.get 0; i64.ne; i64.extend_i32_u; return; "
    "end_block; i64.const 9",
    f"{LOWER.format(16)}; global.get __stack_pointer; local.get 0; i64.store 8; global.get __stack_pointer; i64.load32_u 10; "
    + LOWER.format(-16),
    f"{PUT.format(0)}; i32.const 66; i32.const 64; i32.const 5; memory.copy 0, 0; {GOT}",
    f"{PUT.format(0)}; i32.const 65; local.get 1; i32.wrap_i64; i32.const 3; memory.fill 0; {GOT}", "nop; unreachable",
]


def numeric_form(name):
    """Of an instruction, with all bits of both operands."""
    kind, what = name.split(".")
    source = {"wrap_i64": "i64", "extend_i32_s": "i32", "extend_i32_u": "i32"}.get(what, kind)
    operands = [f"local.get {i}" + "; i32.wrap_i64" * (source == "i32") for i in range(1 + (what in BINARY))]
    return "; ".join([*operands, name, *["i64.extend_i32_u"] * (kind == "i32" or what in COMPARISONS)])


def memory_forms():
    for width, size, sign in LOADS.values():
        part = f"{8 * size}_{sign}" if 8 * size < width else ""
        yield f"{PUT.format(0)}; i32.const 60; i{width}.load{part} 7" + "; i64.extend_i32_u" * (width == 32)
    for width, size in ((64 if op in (0x37, 0x3C, 0x3D, 0x3E) else 32, size) for op, size in STORES.items()):
        part = 8 * size if 8 * size < width else ""
        yield f"{PUT.format(1)}; i32.const 61; local.get 0{'; i32.wrap_i64' * (width == 32)}; i{width}.store{part} 5; {GOT}"


@pytest.fixture
def assembled(need, tmp_path):
    """A module of functions of two numbers of 64 bits, by name."""
    def run(forms):
        need("clang", "wasm-ld")
        types = [f".functype {name} (i64, i64) -> (i64)" for name in forms]
        bodies = [f".globl {name}; {name}: .functype {name} (i64, i64) -> (i64); .local i64; {form}; end_function"
                  for name, form in forms.items()]
        own = [".globaltype __stack_pointer, i32", ".globaltype other, i64", ".globl other", "other:"]
        text, path = "\n".join([*own, *types, *bodies, ""]), tmp_path / "forms.wasm"
        options = ["--target=wasm32", "-mbulk-memory", "-msign-ext", "-xassembler", "-c", "-", "-o", tmp_path / "forms.o"]
        subprocess.run(["clang", *options], input=text, text=True, check=True)
        exports = [f"--export={name}" for name in forms]
        link = ["wasm-ld", "--no-entry", *exports, "--no-check-features", tmp_path / "forms.o", "-o", path]
        subprocess.run(link, check=True)
        return path

    return run


NODE = """const fs = require('node:fs');
const { exports } = new WebAssembly.Instance(new WebAssembly.Module(fs.readFileSync(process.argv[1])));
const answer = ([name, x, y]) => {
    try { return String(BigInt.asUintN(64, exports[name](BigInt(x), BigInt(y)))); } catch { return null; }
};
console.log(JSON.stringify(JSON.parse(fs.readFileSync(0)).map(answer)));
"""


def answer(built, name, numbers, names):
    with values.case():
        machine = wasm.Wasm(built)
        machine.map(number(64), [number(0)] * 2, writable=True)
        machine.begin_at(built.functions[name], [number(n) for n in numbers])
        try:
            machine.go()
            return str(number_in(machine.registers[0]))
        except Stop as stop:
            if "a trap" not in str(stop):
                raise
        finally:
            names |= {built.instructions[at][0] for at in machine.executed}


def test_each_instruction_does_what_node_does(need, assembled):
    need("node")
    forms = {name: numeric_form(name) for name in wasm.OPERATIONS}
    forms |= {f"form_{i}": form for i, form in enumerate([*memory_forms(), *OTHER_FORMS])}
    path, pick, names = assembled(forms), random.Random(1), set()
    cases = [(name, [pick.choice([*EXTREME, pick.getrandbits(64)]) if pick.random() < .6 else pick.getrandbits(64)
                     for _ in range(2)]) for name in forms for _ in range(TRIALS)]
    texts = json.dumps([[name, *map(str, numbers)] for name, numbers in cases])
    node = subprocess.run(["node", "-e", NODE, path], input=texts, stdout=subprocess.PIPE, text=True, check=True)
    built = Module(path.read_bytes())
    wrong = [(forms[name], numbers, expected, found) for (name, numbers), expected in zip(cases, json.loads(node.stdout))
             if (found := answer(built, name, numbers, names)) != expected]
    assert wrong == [] and names == {*wasm.OPERATIONS, *wasm.STEPS}


def test_a_rule_gives_for_unknowns_what_it_gives_for_numbers():
    """Of two that are below 2^32 as far as bounds say, one that is at most the first, one of five bits and one of all bits."""
    pick, last, done = random.Random(2), wasm.HALF - 1, 0
    unknowns = [extend(unknown(("number", i), width)) for i, width in enumerate((62, 62, 62, 5, 32, 64))]
    rows = [(0, last, 0, 0, 0, 0), (last, 0, last, 31, 0, 1), (last, 1, last - 1, 1, 1, 2 ** 64 - 1), (1, 2, 0, 5, 9, 2 ** 32),
            (2 ** 31, 2 ** 31, 1, 30, 1, 2 ** 63), (2 ** 31 - 1, 5, 7, 0, 5, 3)]
    worlds = [{value[0][0]: n for value, n in zip(unknowns, row)} for row in rows]
    numbers = [number(n) for n in (0, 1, last, wasm.HALF + 1, -8)]
    first, second, less, few, any, _ = unknowns
    with values.case():
        wasm.assume_half(first)
        wasm.assume_half(second)
        values.assume_at_most(less, first)
        part = shift_right(mul(any, few), 5)
        pool = [*unknowns, *numbers, *(add(first, n) for n in numbers), add(first, second), sub(first, less), sub(less, first),
                mul(few, number(8)), extend(cut(first, 0, 32)), part, add(first, part)]
        for name in wasm.OPERATIONS:
            for operands in itertools.product(pool, repeat=1 + (name[4:] in BINARY)):
                try:
                    value = wasm.OPERATIONS[name](*operands)
                except Stop:
                    continue
                for world in worlds:
                    known = [number(number_of(operand, world, any_number(pick))) for operand in operands]
                    size = 1 << (32 if name[:3] == "i32" else 64)
                    right = number_in(wasm.OPERATIONS[name](*known)) % size
                    assert number_of(value, world, any_number(pick)) % size == right, (name, operands, world)
                done += 1
    assert done > 10000


def test_a_number_that_i32_does_not_hold_is_refused():
    """Else bounds would contradict each other, and all would follow."""
    for value in number(wasm.HALF), unknown("large", 40, wasm.HALF):
        with refused("i32 does not hold"), values.case():
            wasm.assume_half(extend(value))


def test_a_comparison_of_a_comparison_is_followed():
    """`eqz` of it is the opposite, and `ne` to 0 the same."""
    x, y, *results = (extend(unknown(("compared", i), 1)) for i in range(6))
    with values.case():
        machine = wasm.Wasm(Module(MODULE))
    machine.note(results[0], True, x, y)
    for i, (is_equal, source) in enumerate([(True, 0), (True, 1), (False, 1)], 1):
        machine.note(results[i], is_equal, results[source])
    assert [machine.compared[result] for result in results] == [(is_equal, x, y) for is_equal in (True, False, True, False)]


def test_the_upper_bits_of_a_product_are_below_one_factor():
    length, hash = extend(unknown("length", 32, 1)), extend(unknown("hash", 32))
    with values.case():
        index = shift_right(mul(length, hash), 32)
        wasm.know_product(index[0])
        assert values.is_below(index, length)
        with pytest.raises(values.Undecided):
            values.is_below(add(index, number(1)), length)


# ---- changed modules, and one with an instruction that is not known

MODULE = (DIST / "wasm/sketch_hash.wasm").read_bytes()
NAMES = {name: code for code, name in NUMERIC.items()}
# Numbers that may be others: no length is so large, and no filter is at NULL.
SAME_NUMBERS = 0xFFFFFFFE, 4096
SMALLER = {0x28: 0x2F, 0x29: 0x35, 0x36: 0x3B, 0x37: 0x3E}  # a load or a store of fewer bytes


def changes(built, function):
    """Of each instruction of a function another one with the same types, or another number."""
    start = built.functions[f"sketch_{function}"]
    end = min([at for at, _ in built.bodies if at > start], default=len(MODULE))
    for at, (name, operands, _) in built.instructions.items():
        what, code = name[4:], MODULE[at]
        group = next((group for group in (COMPARISONS[1:], ARITHMETIC[3:]) if what in group), None)
        if not start <= at < end:
            continue
        if group and name in NAMES:
            yield at, NAMES[f"{name[:4]}{group[(group.index(what) + 1) % len(group)]}"]
        elif code in SMALLER:
            yield at, SMALLER[code]
        elif name == "const" and operands[1] not in SAME_NUMBERS:
            yield at + 1, MODULE[at + 1] ^ 1


@pytest.mark.parametrize("function", ["xxh64_u64", "xxh64_reset", "bloom_check", "bloom_insert_hash", "bloom_contains_hash"])
def test_a_changed_instruction_is_noticed(function):
    missed = []
    for at, byte in changes(Module(MODULE), function):
        changed = Module(MODULE[:at] + bytes([byte]) + MODULE[at + 1 :])
        if not any(checks.faults_of([run]) for run in checks.checks_of(changed)[function]):
            missed.append((f"{at:x}", byte))
    assert missed == []


@pytest.mark.parametrize("code, reason", [
    (LOWER.format(16), "the stack pointer is not restored"), ("i32.const 96; i64.load 0; drop", "a read outside"),
    ("i32.const 96; local.get 0; i64.store 0", "an access outside"), ("i32.const -8; i64.load 72; drop", "a read outside"),
    ("global.get __stack_pointer; i32.const 256; i32.sub; i64.load 0; drop", "a read below the stack"),
    ("local.get 0; i32.wrap_i64; i64.load 0; drop", "outside"), ("i32.const 64; i64.load 0; drop", None),
    ("local.get 0; global.set other", "is not restored"), ("global.get other; global.set other", None),
    ("f64.const 1.0; drop", "opcode 0x44.*is not known"), ("block i64; local.get 0; end_block; drop", "not understood"),
    ("local.get 0; local.get 1; i32.wrap_i64; br_if 0; drop", "returns a value"),
])
def test_code_that_breaks_a_rule_is_refused(code, reason, assembled):
    """And no other function of its module."""
    built = Module(assembled({"sketch_code": f"{code}; local.get 0", "sketch_right": "local.get 0"}).read_bytes())
    assert answer(built, "sketch_right", [5, 6], set()) == "5"
    with refused(reason):
        answer(built, "sketch_code", [2 ** 31, 0], set())


@pytest.mark.parametrize("first, reason", [
    ((64, 1, 66576), "no stack pointer"), ((32, 0, 66576), "no stack pointer"), ((32, 1, 1), "no stack pointer"),
    ((32, 1, 4096), "no stack pointer"), ((32, 1, 1 << 24), "no stack pointer"), ((32, 1, 1040), "no stack pointer"),
    ((32, 1, 5200), "in the stack"), ((32, 1, 66576), None),
])
def test_a_module_without_a_stack_pointer_is_refused(first, reason):
    built = Module(MODULE)
    built.globals[0], built.places = first, [(1024, 0, 13)]
    with refused(reason), values.case():
        wasm.Wasm(built)


def sections():
    """The number of each section, and its bytes after the count of what it has."""
    built, found = Module(MODULE), {}
    built.at = 8
    while built.at < len(MODULE):
        number, size = built.byte_of_file(), built.unsigned()
        if number:
            found[number] = MODULE[built.at : built.at + size]
        built.at += size
    return found


def module_of(parts):
    """With a size of five bytes for each section."""
    sizes = (bytes(len(data) >> 7 * i & 127 | 128 * (i < 4) for i in range(5)) for _, data in parts)
    return b"\0asm\1\0\0\0" + b"".join(bytes([n]) + size + data for (n, data), size in zip(parts, sizes))


SECTIONS = sections()
ORDER = [1, 2, 3, 4, 5, 6, 7, 8, 12, 10, 11]


def with_export(export):
    return {7: bytes([SECTIONS[7][0] + 1]) + export + SECTIONS[7][1:]}


DATA = [b"\0\x41" + at + b"\x0b\2ab" for at in (b"\x80\x08", b"\x81\x08", b"\x82\x08", b"\x80\x80\x80\x80\x01")]
CHANGED = [
    ({}, None), ({12: b"\1"}, None), ({5: b"\2\0\2\0\2"}, "2 memories"), ({5: b"\0"}, "0 memories"), ({5: b"\1\4\2"}, "0x4 at"),
    ({5: b"\1\3\2\2"}, "0x3 at"), ({8: b"\0"}, "section 8"), ({2: b"\0"}, "section 2"), ({4: b"\0"}, "section 4"),
    ({11: b"\2" + DATA[0] + DATA[2]}, None), ({11: b"\2" + DATA[0] + DATA[1]}, "overlaps"),
    ({11: b"\2" + DATA[2] + DATA[0]}, "overlaps"), ({11: b"\1" + DATA[3]}, "outside of its memory"),
    ({11: b"\1\1" + DATA[0][1:]}, "0x1 at"), ({1: b"\1\x60\1\x7c\0"}, "0x7c at"), ({1: b"\1\x50\0\0"}, "0x50 at"),
    ({6: b"\1\x7f\1\x23\0\x0b"}, "0x23 at"), ({6: b"\1\x7f\1\x41\0\x41"}, "0x41 at"), (with_export(b"\1g\3\1"), None),
    (with_export(b"\1g\3\0"), "a global that anybody can change"), (with_export(b"\1g\0\1"), "exports g"),
    (with_export(b"\1g\1\0"), "0x1 at"),
]
WRONG_ORDERS = [1, 1, 3, 5, 6, 7, 10, 11], [1, 5, 3, 6, 7, 10, 11], [1, 3, 5, 5, 6, 7, 10, 11]


@pytest.mark.parametrize("changes, reason, order", [
    *((*row, ORDER) for row in CHANGED), *(({}, "not in its place", order) for order in WRONG_ORDERS)])
def test_what_is_on_no_list_of_a_module_is_refused(changes, reason, order, tmp_path):
    parts = {**SECTIONS, **changes}
    (tmp_path / "module").write_bytes(module_of([(n, parts[n]) for n in order if n in parts]))
    with refused(reason):
        library.read(tmp_path / "module")


def test_a_function_has_the_types_of_the_header():
    built = Module(MODULE)
    start = built.functions["sketch_bloom_check"]
    for types, reason in (([32], [32]), None), (([64], [32]), "another type"), (([32], []), "another type"):
        built.entries[start] = (*types, 2)
        with refused(reason), values.case():
            wasm.Wasm(built).begin("bloom_check", [unknown("length", 64)])
