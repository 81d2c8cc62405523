"""What the check passes, and what it refuses: libraries, wrong definitions, and planted code."""
import contextlib
import functools
import itertools
import pathlib
import re
import subprocess
import types
from functools import partial

import calls
import checks
import columns
import filters
import hashes
import headers
import keys
import library
import loops
import pytest
import rates
import values
from conftest import DIST
from definitions import FILTER, MURMUR, XXH64, of_hash
from machine import Array, Machine
from test_instructions import Every
from values import Stop, add, bitwise, extend, mul, number, sub, unknown

TEXT, MODULE = DIST / "sketch_hash.c", (DIST / "wasm/sketch_hash.wasm").read_bytes()
HARDENED = "-fstack-protector-strong -fstack-clash-protection -D_FORTIFY_SOURCE=3 -fno-plt -Wl,-z,relro,-z,now".split()
COMPILERS = {"gcc": ["gcc", *HARDENED, "-fcf-protection=full"], "clang": ["clang", "-march=x86-64-v3"],
             "aarch64": ["aarch64-linux-gnu-gcc", *HARDENED, "-mbranch-protection=standard"]}


def build(compiler, path, *change, text=TEXT, **others):
    command = [*compiler, "-O2", "-fPIC", "-shared", *change, "-I", DIST / "include", text, "-o", path]
    subprocess.run(command, check=True, **others)


@pytest.fixture(scope="session")
def library_of(tmp_path_factory, need):
    """Of what a compiler makes of the text, or the WebAssembly module."""
    @functools.cache
    def run(name):
        if name == "wasm":
            return library.read(DIST / "wasm/sketch_hash.wasm")
        need(COMPILERS[name][0])
        path = tmp_path_factory.mktemp("library") / "library.so"
        build(COMPILERS[name], path)
        return library.read(path)

    return run


@pytest.fixture(autouse=True)
def tools(request, need):
    """The published answers need Python alone."""
    if "published" not in request.node.name:
        need("linux-x86_64", "objdump", "aarch64-linux-gnu-objdump")


def refused(reason):
    """Within it something is refused for this reason, or nothing is if that is None."""
    return contextlib.nullcontext() if reason is None else pytest.raises(Stop, match=reason)


@pytest.mark.parametrize("name", [*COMPILERS, "wasm"])
def test_the_machine_code_is_as_defined(name, library_of):
    faults = {function: checks.faults_of(runs) for function, runs in checks.checks_of(library_of(name)).items()}
    assert {function: {*reasons} for function, reasons in faults.items() if reasons} == {}


CHECK = pathlib.Path(__file__).with_name("check")
WRONG_VERSION = ".intel_syntax noprefix; .globl sketch_hash_version; sketch_hash_version: mov eax, 1; ret\n"


@pytest.mark.parametrize("text, change, status, output", [
    (None, [], 0, "1 of 1 functions are as defined"), (None, ["-pg"], 3, "a call of"),
    (WRONG_VERSION, [], 1, "the result is not what the definitions say, with "),
    (WRONG_VERSION.replace("mov eax", "cmp edi"), [], 1, "the result is not what the definitions say, with "),
    (WRONG_VERSION.replace("mov eax, 1", "nop; call puts@PLT"), [], 3, "a call of puts"),
    (WRONG_VERSION.replace("version", "other"), [], 2, "no function of the header"),
])
def test_the_command_says_whether_a_function_is_as_defined(text, change, status, output, need, tmp_path):
    need("gcc")
    (tmp_path / "text.s").write_text(text or "")
    build(["gcc"], tmp_path / "library.so", *change, text=tmp_path / "text.s" if text else TEXT)
    run = subprocess.run([CHECK, "--only", "sketch_hash_version", tmp_path / "library.so"], capture_output=True, text=True)
    assert run.returncode == status and output in run.stdout + run.stderr


@pytest.mark.parametrize("only, change, reason", [
    ("other", lambda whole: whole, "no function has other in its name"), ("", lambda whole: b"text", "no ELF library"),
    ("", lambda whole: b"MZ", "no ELF library"), ("", lambda whole: b"\0asm\2\0\0\0", "no WebAssembly module"),
    *(("", lambda whole, size=size: whole[:size], "truncated") for size in (17, 40, 70)), ("", None, "No such file"),
    *(("", lambda whole, size=size: MODULE[:size], "truncated") for size in (9, 40, 300, len(MODULE) // 2)),
])
def test_a_check_of_nothing_fails(only, change, reason, library_of, tmp_path):
    if change:
        (tmp_path / "library").write_bytes(change(library_of("gcc").data))
    run = subprocess.run([CHECK, "--only", only, tmp_path / "library"], capture_output=True, text=True)
    assert (run.returncode, run.stdout, run.stderr.count("\n")) == (2, "", 1) and reason in run.stderr


@pytest.mark.parametrize("header", ["int sketch_other(void);", ""])
def test_a_function_without_a_check_is_noticed(header, library_of, monkeypatch):
    text = library.HEADER + header if header else library.HEADER.replace("sketch_xxh64_update(", "(")
    monkeypatch.setattr(library, "PARAMETERS", library.parameters_of(text))
    with refused("other functions"):
        checks.checks_of(library_of("gcc"))


@pytest.mark.parametrize("hash", ["Xxh64", "Murmur"])
def test_the_definitions_give_the_published_answers(hash):
    files = "datasketches/specs/KnownAnswers.antt", "sketch_base/specs/Bytes.antt"
    answers = dict(of_hash(hash, *files).claims(f"{hash}Answers"))
    assert answers["verification"] and all(answers.values())


def test_the_definitions_of_filters_give_the_published_answers():
    files = (f"sketch_bloom/specs/{name}.antt" for name in ("Filter", "Header", "ExactRate", "Size", "KnownAnswers"))
    known, bits = of_hash("Xxh64", *files), 0
    answers = {name: dict(known.claims(name)) for name in ("BlockAnswers", "HeaderAnswers", "SizeAnswers")}
    assert all(found and all(found.values()) for found in answers.values())
    for hash in (known.hash_of([*text]) for text in (b"hello", b"filter", b"parquet", b"bloom")):
        bits |= sum(1 << 256 * known.block_of(32, hash) + 32 * w + known.mask_bit(hash, w) for w in range(8))
    assert bits.to_bytes(1024, "little") == bytes(known.of_parquet_mr)


# ---- wrong definitions

# Changes of one number of a definition that change nothing.
SAME_NUMBERS = {
    "2 ^ 65 - y": "it is 2^64 - y modulo 2^64", "varint 5": "no number has six bytes",
    "length bytes % 3 ^ 64": "no length here is so large", "length bytes % 2 ^ 65": "no length here is so large",
    "replicate (17 - length waiting) 0": "the words of a block are its first sixteen bytes",
    "if nat_lt n 129 then": "a number is doubled, so it is not 128",
}


def few_calls(machine, hash):
    """Of each length up to two pieces; and an update and a digest."""
    name = calls.NAMES[hash]
    subjects = [hashes.OneCall(machine, hash, number(n), 1) for n in range(0, 2 * calls.PIECE[hash] + 7, 2)]
    subjects.append(hashes.Update(machine, hash, 5, number(40), 1))
    return [
        *(partial(loops.on_each_path, subject.few) for subject in subjects),
        partial(calls.check_call, machine, f"{name}_digest", hashes.digest, hash, 9, 1 if hash == "xxh64" else 0),
        partial(calls.check_call, machine, f"{name}_reset", hashes.reset, hash)]


@pytest.mark.parametrize("definitions, runs", [
    (XXH64, lambda machine: few_calls(machine, "xxh64")), (MURMUR, lambda machine: few_calls(machine, "murmur")),
    (FILTER, lambda machine: [partial(filters.one_hash, machine, is_insert) for is_insert in (True, False)]),
    (headers.HEADER, lambda machine: [partial(headers.write, machine)]),
], ids=["XXH64", "Murmur", "filter", "header"])
def test_a_changed_number_of_a_definition_is_noticed(definitions, runs, library_of):
    built = library_of("gcc")
    runs = [partial(checks.on_each_setting, built, run) for run in runs(checks.machine_of(built))]
    definitions.forget()
    assert checks.faults_of(runs) == {}
    missed, count = [], 0
    for name in definitions.used():
        for i, (_, right) in enumerate(definitions.equations[name]):
            for found in re.finditer(r"(?<![\w.])(0x[0-9A-Fa-f]+|\d+)", right):
                other = f"{right[:found.start()]}{int(found[0], 0) + 1}{right[found.end():]}"
                definitions.change(name, i, other)
                count += 1
                if not any(same in other for same in SAME_NUMBERS) and not is_noticed(runs):
                    missed.append((name, other))
                definitions.change(name, i, right)
    assert count > 4 and missed == []


def is_noticed(runs):
    for run in runs:
        try:
            run()
        except (Stop, AssertionError, LookupError, TypeError, ValueError):
            return True  # or it is a definition of nothing
    return False


# ---- planted code

ASSEMBLERS = {"x86-64": "as", "aarch64": "aarch64-linux-gnu-as", "packed": "as"}
LINKERS = {"x86-64": ["ld", "-z", "notext"], "packed": ["ld", "-z", "pack-relative-relocs"],
           "aarch64": ["aarch64-linux-gnu-ld"]}
VERSION = f"mov eax, {calls.VERSION}; ret"
RETURNS = {"x86-64": VERSION, "packed": VERSION,
           "aarch64": f"mov w0, #{calls.VERSION & 0xFFFF}; movk w0, #{calls.VERSION >> 16}, lsl #16; ret"}


@pytest.fixture
def machine_of(need, tmp_path):
    """Of a library whose sketch_hash_version is some code before a right return. It may have other functions."""
    def run(processor, code="", others=""):
        need(ASSEMBLERS[processor])
        syntax = "" if processor == "aarch64" else ".intel_syntax noprefix\n"
        text = f"{syntax}.globl sketch_hash_version\nsketch_hash_version:\n{code}\n{RETURNS[processor]}\n{others}\n"
        subprocess.run([ASSEMBLERS[processor], "-o", tmp_path / "code.o", "-"], input=text, text=True, check=True)
        (tmp_path / "versions").write_text("V1 { global: sketch_hash_version; }; V2 { };")
        options = ["--version-script", tmp_path / "versions"] if ".symver" in code else []
        link = [*LINKERS[processor], "-shared", *options, "-o", tmp_path / "code", tmp_path / "code.o"]
        subprocess.run(link, check=True)
        return checks.machine_of(library.read(tmp_path / "code"))

    return run


def check_version(machine):
    calls.check_call(machine, "hash_version", calls.Call, [], [], number(calls.VERSION, 32))


# An unknown bit, by a table of all.
BITS = [1 << i for i in range(32)]
LOOKED_UP = f"lea rcx, [rip+1f]; mov eax, edi; shr eax, 27; mov eax, [rcx+rax*4]; {VERSION}; 1: .long "
TABLE = LOOKED_UP + ", ".join(map(str, BITS))

POINTERS = '.section .data.rel.ro, "aw"; 2: .quad 1f, 1f, 1f; .text; jmp [rip+2b+16]; 1:'
CONSTRUCTOR = '.section .init_array, "aw"; .quad'
OTHER = f"cmp eax, ecx; jne 1f; {VERSION}; 1: mov eax, 1; ret"  # a wrong result, unless they are equal
IF_0 = "cbz x3, 1f; udf #0; 1:"
GUARD = "adrp x1, :got:__stack_chk_guard; ldr x1, [x1, :got_lo12:__stack_chk_guard]"
COPY = "sub rsp, 40; mov [rsp+16], rdi; mov rdi, rsp; lea rsi, [rsp+16]; mov edx, 8; call memcpy@PLT; add rsp, 40"
FLAG = f"cmp byte ptr [rip+flag], 1; jne 1f; 1: {VERSION}; {CONSTRUCTOR} set; .bss; flag: .byte 0; .text; set:"
DETECT = (f"{FLAG} push rbx; xor eax, eax; cpuid; cmp eax, 7; jb 9f; mov eax, 1; cpuid; bt ecx, 27; jnc 9f; xor ecx, ecx; "
          "xgetbv; and eax, 6; cmp eax, 6; jne 9f; mov eax, 7; xor ecx, ecx; cpuid; shr ebx, 5; and ebx, 1; "
          "mov [rip+flag], bl; 9: pop rbx; ret")

# Codes by the reason why they are refused. Those of None are right.
X86 = {
    None: [
        "".join(f"not r{name}; " for name in "ax cx dx si di 8 9 10 11".split()),
        "".join(f"pxor xmm{n}, xmm{n}; " for n in range(16)), COPY, POINTERS, DETECT, TABLE,
        "mov rax, fs:0x28; mov [rsp-8], rax; sub rax, fs:0x28; je 1f; call __stack_chk_fail@PLT; 1:",
        "sub rsp, 24; mov rdi, rsp; mov edx, 9; call [rip+memset@GOTPCREL]; add rsp, 24",
        DETECT.replace("jne 1f; 1:", "jne 1f; vpaddd ymm0, ymm0, ymm0; 1:"), "test edi, edi; jle 1f; 1:",
        "push rbx; mov rbx, rdi; pop rbx", "mov [rsp-128], rax; mov rcx, [rsp-128]",
        "sub rsp, 24; movaps [rsp], xmm0; add rsp, 24", "add rax, rcx; inc rax; cmp rax, rax; je 1f; ud2; 1:",
        "mov rax, rsp; and rsp, -64; sub rsp, 64; movaps [rsp], xmm1; mov rsp, rax",
        "lea r10, [rsp+8]; and rsp, -32; push [r10-8]; vmovdqa ymm0, [rsp-56]; pop rcx; lea rsp, [r10-8]",
        # AVX clears the rest of a vector, and so does a move of 64 bits.
        f"vpxor xmm1, xmm1, xmm1; vextracti128 xmm2, ymm1, 1; movq rax, xmm2; add eax, {calls.VERSION}; ret",
        f"movq xmm1, xmm0; movq rax, xmm1; movq rcx, xmm0; sub rax, rcx; add eax, {calls.VERSION}; ret",
        f"movq xmm1, xmm0; pextrq rax, xmm1, 1; add eax, {calls.VERSION}; ret",
        "mov rcx, [rsp-8]",  # nothing has written it
        "vpcmpneqq k1, xmm0, xmm2; vmovdqu64 xmm1{k1}{z}, xmm0"],
    **{f"r{name} is not restored": [f"not r{name}"] for name in "bx bp 12 13 14 15".split()},
    # Of what is in the file, or is asked of the loader.
    "others may have written": [f"{section}; 1: .quad {n}; .text; mov ecx, [rip+1b]" for section, n in (
        (".data", 7), (".bss", 0), (".data", "sketch_hash_version"))],
    "the dynamic tag 0x16": ["movabs rax, offset 1f; 1:"],
    "a constructor that is not its own": [f"{CONSTRUCTOR} puts; .text"],
    "of type 0xa": [".type sketch_hash_version, @gnu_indirect_function",
                    "1: .globl other; .set other, 1b; .type other, @gnu_indirect_function; .data; 2: .quad other; .text; "
                    "jmp [rip+2b]"],
    "two versions": ["nop; .globl other; other: .symver other, sketch_hash_version@@V2; "
                     ".symver sketch_hash_version, sketch_hash_version@V1"],
    "a segment of type 0x7": ['.section .tbss, "awT", @nobits; 2: .long 0; .text; mov rax, [rip+2b@gottpoff]'],
    "malloc, of another library, with the binding 0x2": ["mov rcx, [rip+malloc@GOTPCREL]; .weak malloc"],
    # Of constructors.
    "does not allow": [
        f"{FLAG} mov byte ptr [rip+flag], 1; ret", DETECT.replace("cmp eax, 6", "test eax, eax"),
        f"{FLAG} mov byte ptr [rip+flag], 1; ret; .globl _init".replace(CONSTRUCTOR, ".set _init,"),
        f"{FLAG} mov byte ptr [rip+flag], 2; ret"],
    "does not allow|must not be": [DETECT.replace(*change) for change in (
        ("and ebx, 1", "mov ebx, 1"), ("and ebx, 1", "and ebx, 1; add ebx, ebx"), ("7; xor ecx, ecx", "7; mov ecx, 1"),
        ("cmp eax, 7; jb 9f; ", ""), ("xor ecx, ecx; xgetbv", "mov ecx, 1; xgetbv"))],
    "must not be|depends": [f"{FLAG} xor ecx, ecx; xgetbv; ret", "cpuid"],
    "perhaps has none": [DETECT.replace("1: mov", f"1: {code}; mov") for code in (
        "vpaddd ymm0, ymm0, ymm0", "vpbroadcastd xmm0, xmm0")],
    "a call of puts": [f"{FLAG} call puts@PLT", "call puts@PLT"], "no end": [f"{FLAG} jmp set", "1: jmp 1b"],
    "the result": [
        f"mov rax, [rsp]; mov ecx, 0xCA11E4; {OTHER}", f"lea rax, [rip+1f]; shr rax, 40; mov ecx, 1; {OTHER}",
        f".section .rodata; 2: .byte 2; .text; movzx eax, byte ptr [rip+2b]; mov ecx, 1; {OTHER}",
        DETECT.replace("jne 1f; 1:", "jne 1f; xor eax, eax; ret; 1:"), "mov rax, fs:0x28; ret",
        f"mov r8d, 1; {COPY}; mov eax, r8d; mov ecx, 1; {OTHER}",
        f"mov dword ptr [rsp-104], 1; {COPY}; mov eax, [rsp-104]; mov ecx, 1; {OTHER}",
        "sub rsp, 256; mov [rsp], rdi; add rsp, 256; sub rsp, 256; mov rax, [rsp]; add rsp, 256; mov rcx, rdi; " + OTHER,
        "mov eax, [rsp-8]; ret", f"mov ecx, {calls.VERSION}; mov rax, rdi; mov al, cl; ret", "ret"],
    # Of calls of the C library.
    "the size": [COPY.replace("edx, 8", "rdx, rdi")], "where it is from": [COPY.replace("+16]; mov edx", "+4]; mov edx")],
    "does not fit": [COPY.replace("edx, 8; call memcpy", "edx, 8; mov ecx, 7; call __memcpy_chk")],
    # Of memory.
    "not aligned": [
        *(f"{name} xmm0, [rdi]" for name in ("movapd", "vmovapd", "vmovaps", "vmovdqa")), "vmovdqa ymm0, [rsp-40]",
        "sub rsp, 16; movaps [rsp], xmm0; add rsp, 16", "movaps xmm0, [rsp]", "paddd xmm0, [rsp-16]",
        "push rbp; mov rbp, rsp; and rsp, -32; movaps [rsp-8], xmm0; mov rsp, rbp; pop rbp"],
    "a read below the stack": ["mov rcx, [rsp-136]"], "the stack pointer is not restored": ["mov rcx, [rsp]; push rcx"],
    "outside": [
        LOOKED_UP + ", ".join(map(str, [*BITS[:31], 5])), LOOKED_UP.replace("27", "26") + ", ".join(map(str, BITS * 2)),
        *(TABLE.replace(*change) for change in (("*4", "*2"), ("1: .long", ".data; 1: .long"))),
        TABLE.replace("mov eax, edi", "lea rdx, [rip+__ehdr_start]; sub rcx, rdx; add rcx, rsp; mov eax, edi")
        + "; .hidden __ehdr_start",
        COPY.replace("rdi, rsp", "rdi, rcx"), "mov rcx, [rsp+8]", "mov [rsp-136], rcx", "mov [rsp], rcx", "mov [rsp+8], rcx",
        "mov rcx, [rdi]", "lea rcx, [rip]; mov byte ptr [rcx], 1", "xor ecx, ecx; mov rcx, [rcx+16]"],
    "leaves the stack": ["push rcx; pop rcx; sub rsp, 8192", "sub rsp, 8192; push rcx", "pop rcx; add rsp, 8; jmp rcx",
                         "mov rax, rsp; mov rsp, rdi; mov rsp, rax"],
    # Of conditions.
    "carry|not known": [f"{before}; jc 1f; 1:" for before in (
        "imul rcx, rdx", "cmp rcx, rdx; inc rcx", "shl rcx, 3", "cmp rcx, rcx; rol rcx, 3", "ror rcx, 3", "add rcx, rdx",
        "mov rax, rdx", "neg rcx; dec rcx", "shld rcx, rdx, 3", "shrd rcx, rdx, 3", "test rcx, rcx; sar rcx, 1",
        "cmp rcx, rcx; sbb rcx, rdx", "xor ecx, ecx; cmp ecx, 1; inc ecx")],
    "not known|understood": [f"{before}; je 1f; 1:" for before in (
        "imul rcx, rdx", "shld rcx, rdx, 3", "imul rcx, rdx; rol rcx, 3", "cmp rcx, rcx; sbb rcx, rdx", "bt rcx, 3",
        "cmp rcx, rcx; mul rdx", "xor edx, edx; mov eax, 7; mov ecx, 3; cmp rcx, rcx; div ecx", "mov edx, 1; shl edx, cl",
        "push rbx; mov rdi, rsp; lea rsi, [rdi-8]; xor edx, edx; call memmove@PLT; pop rbx")],
    "signed": ["cmp rcx, rdx; jl 1f; 1:", "cmp rcx, rdx; jle 1f; 1:"],
    # Of instructions, and of where they go.
    "ud2": ["test edi, edi; jg 1f; ud2; 1:"], "not understood": ["mov rcx, ds:16"],
    "not among": ["ud2", "mov fs:0x28, rcx", "cmp rcx, rdx; jo 1f; 1:"],
    "no function": ["mov rax, [rip+memset@GOTPCREL]; add rax, 4; call rax", "push rbx", "jmp rcx"],
    "no power of two": ["mov eax, 0x3fc00000; movd xmm0, eax; cvttps2dq xmm1, xmm0"],
    "a shift": ["mov edx, 2; mov ecx, edi; shl edx, cl"], "a shift that": ["vpsllvd xmm0, xmm1, xmm2"],
}
# Of the stack, once its pointer is aligned.
for reason, mask, code, after in (
        ("below the stack", -32, "mov rcx, [rax-8]", ""), ("outside", -32, "mov [rsp], rdi", ""),
        ("outside", -32, "mov rcx, rsp; mov [rcx-8], rdi", "mov rdx, [rcx-8]"), ("leaves", -32, "sub rsp, 8192", ""),
        ("not aligned", -32, "vmovdqa ymm0, [rsp-48]", ""), ("not aligned", -16, "vmovdqa ymm0, [rsp-64]", ""),
        ("alignment", -32, "and rsp, -64", ""), ("alignment", -128, "nop", "")):
    aligned = f"mov rax, rsp; push rdi; pop rdi; and rsp, {mask}; {code}; mov rsp, rax; {after}"
    X86[reason] = [*X86.get(reason, []), aligned]
AARCH64 = {
    None: [
        "".join(f"mvn x{n}, x{n}; " for n in range(19)), "paciasp; autiasp", "",
        "mov x3, #1; cmp x1, x1; cbnz x3, 1f; 1: b.eq 2f; udf #0; 2:",
        f"{GUARD}; ldr x2, [x1]; ldr x3, [x1]; sub x3, x2, x3; {IF_0}",
        "stp x19, x20, [sp, #-16]!; mov x19, x0; ldp x19, x20, [sp], #16",
        f"mov w2, w1; add x3, x9, w1, uxtw #3; sub x3, x3, x2, lsl #3; eor x3, x3, x9; {IF_0}",
        f"cmp x1, x1; csinv x3, x9, xzr, ne; csinv x4, x9, x9, eq; eor x4, x4, x9; sub x3, x3, x4; mvn x3, x3; {IF_0}",
        f"udiv x3, x0, x1; udiv x4, x0, x1; sub x3, x3, x4; {IF_0}",
        f"mov x3, sp; orr x4, x3, #12; sub x4, x4, x3; sub x3, x4, #12; {IF_0}",
        *(f"cmp x1, x1; ccmp x1, x1, {bits}, ne; b.{name} 1f; udf #0; 1:"
          for bits, name in (("#0", "ne"), ("#4", "eq"), ("#2", "cs"), ("#0", "cc"))),
        "mov x1, #-1; mov x2, #1; adds x3, x1, x2; b.cc 2f; adcs x3, xzr, xzr; b.cs 2f; cmp x3, x2; b.ne 2f; "
        "adc x3, xzr, xzr; b.eq 3f; 2: udf #0; 3:"],
    **{f"x{n} is not restored": [f"mvn x{n}, x{n}"] for n in range(19, 30)},
    **{f"v{n} is not restored": [f"movi v{n}.16b, #1"] for n in range(8, 16)},
    "outside": [f"{GUARD}; str x0, [x1]", "str x0, [sp, #-16]"],
    "below": ["ldr x1, [sp, #-16]"], "not aligned": ["sub sp, sp, #8; str x0, [sp]; add sp, sp, #8"],
    "no function": ["paciasp", "mov x30, x0"], "a signature": ["paciasp; sub sp, sp, #16; autiasp; add sp, sp, #16"],
    "the stack pointer is not restored": ["sub sp, sp, #16"],
    "udf": [
        "stp x30, x19, [sp, #-32]!; mov x19, x0; mov v8.d[1], x0; add x0, sp, #16; mov x2, #8; bl memset; mov x1, v8.d[1]; "
        f"sub x3, x1, x19; ldp x30, x19, [sp], #32; {IF_0}",
        f"udiv x3, x0, x1; udiv x4, x1, x0; sub x3, x3, x4; {IF_0}",
        f"mov x3, sp; orr x4, x3, #16; sub x4, x4, x3; sub x3, x4, #16; {IF_0}"],
    "a signed shift to the right": ["movi v0.16b, #128; movi v1.16b, #255; sshl v0.4s, v0.4s, v1.4s"],
    "carry|not understood": [f"{before}; 1:" for before in (
        "adds x1, x1, x2; b.cs 1f", "tst x1, x2; b.hi 1f", "tst x1, x2; b.cs 1f", "adds x1, x1, x2; b.hi 1f",
        "cmp x1, x1; sbcs x3, x1, x2; b.cs 1f")],
    "not known": ["cmp x1, x1; sbcs x3, x1, x2; b.eq 1f; 1:"],
    "not among": ["cmp x1, x2; b.vs 1f; 1:", "cls x1, x0", "mov w1, wsp"],
}
PLANTED = {"x86-64": X86, "aarch64": AARCH64, "packed": {None: [POINTERS]}}


@pytest.mark.parametrize("processor, code, reason", [
    (processor, code, reason) for processor, planted in PLANTED.items() for reason, codes in planted.items() for code in codes])
def test_code_that_breaks_a_rule_is_refused(processor, code, reason, machine_of, monkeypatch):
    monkeypatch.setattr(Machine, "limit", 10_000)  # a loop without an end is noticed earlier
    with refused(reason):
        machine = machine_of(processor, code)
        checks.on_each_setting(machine.library, partial(check_version, machine))


# What an operation does otherwise than the code here says.
OTHERWISE = {"aarch64": ["cls x1, x0", "cls v0.4s, v1.4s", "mov w1, wsp", "add w1, wsp, #4"], "x86-64": [
    "push ax; add rsp, 8", "push rdi; pop ax", ".byte 0x66,0x0f,0xc8", ".byte 0x64,0x48,0x8d,4,0x25,0x28,0,0,0", "mul cl",
    "lea rsi, [rsp-16]; lea rdi, [rsp-8]; mov ecx, 4; .byte 0xf3,0x64,0xa4", ".fill 14,1,0x2e; mov rcx, rax",
    "bt [rsp-8], rcx", "mov ecx, 1; div cl", "mov edx, 3; xor eax, eax; mov ecx, 3; div ecx",
    ".byte 0x66,0xff,0xe0", "shld cx, dx, 20", "ret 8", "std", ".fill 15,1,0x66; nop", "vpcmpeqd k1, xmm1, xmm1",
    ".byte 0xf3; push rax", "data16 ret", "mov ah, 1", "mov fs:0x28, rcx", "cmp rcx, rdx; jo 1f; 1:"]}


@pytest.mark.parametrize("processor, code", [(processor, code) for processor in OTHERWISE for code in OTHERWISE[processor]])
def test_an_operation_refuses_what_it_does_otherwise(processor, code, machine_of, monkeypatch):
    """Without the table of forms too."""
    machine, kind = machine_of(processor, code), checks.MACHINES[processor]
    for forms in kind.forms, Every():
        monkeypatch.setattr(kind, "forms", forms)
        with pytest.raises(Stop):
            check_version(machine)


@pytest.mark.parametrize("function, arguments, reason", [
    ("bloom_check", 2, "number of parameters"), ("bloom_check", 0, "number of parameters"), ("bloom_check", 1, "does not have"),
    ("hash_version", 0, None)])
def test_a_call_is_given_as_many_arguments_as_the_header_has(function, arguments, reason, machine_of):
    """With more, it could write to the stack of its caller."""
    with refused(reason), values.case():
        machine_of("x86-64")().begin(function, [unknown("length", 64)] * arguments)


# ---- arrays, of which a call gets so many bytes as an unknown says

N = extend(unknown("bytes", 40, 64))


def array(is_writable=True):
    return Array("array", calls.out, N, is_writable)


@pytest.mark.parametrize("give, offset, reason", [
    (lambda run: run.give(array()), 0, None), (lambda run: run.give(array(is_writable=False)), 0, "may only read"),
    *((lambda run: run.map(calls.out, [number(0)], writable=True), n, "outside" if n else None) for n in (0, -4, 4)),
])
def test_a_store_is_within_what_may_be_written(give, offset, reason, machine_of):
    with refused(reason), values.case():
        run = machine_of("x86-64")()
        give(run)
        run.store(add(calls.out, number(offset)), number(1))


@pytest.mark.parametrize("offset, size, is_within", [
    (number(0), 64, True), (number(1), 64, False), (number(-1), 2, False), (sub(N, number(8)), 8, True),
    (sub(N, number(8)), 9, False), (N, 1, False), (extend(unknown("any", 41)), 1, False),
])
def test_an_access_is_within_an_array(offset, size, is_within):
    """Also behind what is finished."""
    assert (array().offset_of(add(calls.out, offset), size) is not None) == is_within
    assert array().offset_of(add(calls.input, offset), size) is None
    finished = array()
    finished.begin_at(add(offset, number(1)))
    assert finished.offset_of(add(calls.out, offset), size) is None


@pytest.mark.parametrize("values, reason", [
    ([1, 2, 4], "not what the"), ([1, 2, 3, 4], "not what the"), ([1, 2], "more"), ([], "more"), ([1, 2, 3], None)])
def test_what_a_loop_writes_is_compared(values, reason):
    written = array()
    for i in range(3):
        written.store(number(i), number(i + 1, 8))
    with refused(reason):
        written.must_have_written([number(n, 8) for n in values])


def test_accesses_that_perhaps_overlap_are_refused():
    written, far = array(), extend(unknown("far", 30))
    written.store(add(far, number(8)), unknown("two", 16))
    for offset in add(far, number(6)), add(far, number(10)), add(mul(far, number(2)), number(10)):
        assert [bit for _, bit in written.load(offset, 2)] == [0, 0]
    assert [bit for _, bit in written.load(add(far, number(8)), 2)] == [0, 8]
    for offset in number(8), add(mul(far, number(2)), number(9)):
        with refused("overlaps"):
            written.load(offset, 2)
        with refused("overlaps"):
            written.store(offset, unknown("two", 16))


# ---- loops

UNION = """movdqu xmm0, [rdx+rax]; movdqu xmm1, [rdi+rax]; por xmm0, xmm1; movdqu [rdi+rax], xmm0
movdqu xmm0, [rdx+rax+16]; movdqu xmm1, [rdi+rax+16]; por xmm0, xmm1; movdqu [rdi+rax+16], xmm0; add rax, 32"""
MERGE = f""".globl sketch_bloom_merge; sketch_bloom_merge:
shr rsi, 5; xor eax, eax; 1: {UNION}
sub rsi, 1; jne 1b; 3: xor eax, eax; ret; 9: movdqu [rdi+rax], xmm7; jmp 8b"""
MERGE_PAIRS = f""".globl sketch_bloom_merge; sketch_bloom_merge:
shr rsi, 5; xor eax, eax; cmp rsi, 1; je 2f; 1: {UNION}; {UNION}
sub rsi, 2; cmp rsi, 1; ja 1b; jb 3f; 2: {UNION}; 3: xor eax, eax; ret"""
WRONG_BLOCK = "movdqu [rdi+rax-32], xmm7"


@pytest.mark.parametrize("code, before, after, reason", [
    (MERGE, "1:", "1: 8:", None), (MERGE_PAIRS, "ud2", "ud2", None), (MERGE, "eax; ret", "eax; inc eax; ret", "the result"),
    (MERGE, "1:", f"1: {WRONG_BLOCK.replace('-32', '')}; 8:", "definitions"),
    # Before the loop, in calls with many blocks.
    (MERGE, "1:", f"{UNION}; cmp rsi, 3; jb 2f; {WRONG_BLOCK}; 2: sub rsi, 1; je 3f; 1: 8:", "definitions"),
    # In the first turn, in a later one, in each but the first one, in the last but one, and in the last one.
    (MERGE, "1:", "cmp rsi, 3; ja 1f; cmp rsi, 1; je 1f; movdqu [rdi+32], xmm7; 1: 8:", "definitions"),
    (MERGE, "sub rsi", "cmp rax, 3200; jne 2f; add rax, 32; 2: 8: sub rsi", "."), (MERGE, "1:", "1: jne 9f; 8:", "not known"),
    *((MERGE, "sub rsi", f"cmp rsi, {n}; jne 2f; {WRONG_BLOCK}; 2: 8: sub rsi", "definitions") for n in (1, 2)),
    (MERGE, "1:", "movdqu [rdi], xmm7; 1: 8:", "within an element"),
    (MERGE, "1:", "xor eax, eax; ret; 1: 8:", "there is no loop"),
    (MERGE, "sub rsi, 1; jne", "8: sub rsi, 1; cmp rsi, 1; ja", "before its last turn"),
    # What a turn leaves for the next one is not as in the first ones.
    (MERGE, "1:", "xor r8d, r8d; 1: movq xmm2, r8; por xmm7, xmm2; mov r8, rax; shr r8, 12; 8:", None),
    (MERGE, "1:", "xor r8d, r8d; 1: or [rdi+rax], r8; mov r8, rax; shr r8, 12; 8:", "definitions"),
    (MERGE_PAIRS, "jb 3f; 2:", "jmp 3f; 2:", "definitions"), (MERGE_PAIRS, "je 2f", "je 3f", "definitions"),
])
def test_a_loop_that_breaks_a_rule_is_refused(code, before, after, reason, machine_of):
    text = code.replace(before, after, 1)
    machine = machine_of("x86-64", others=text if "8:" in text else text.replace("8b", "1b"))
    make = partial(filters.Merge, machine, True)

    def run():
        if code == MERGE_PAIRS:
            return loops.prove_each_rest(make)
        for n in range(1, loops.prove(partial(make, number(0)), [1]).least):
            loops.on_each_path(make(number(n), 1).few)

    with refused(reason):
        run()


def test_a_loop_without_the_words_of_the_definition_is_refused(machine_of):
    machine = machine_of("x86-64", others=".globl sketch_xxh64; sketch_xxh64: 1: sub rsi, 32; ja 1b; ret")
    with refused("the words of the definition are not found"):
        loops.prove(partial(hashes.OneCall, machine, "xxh64", number(0)), [1])


def test_loops_that_few_keys_do_not_reach_are_refused():
    """For one key or two there is no other check."""
    offsets = types.SimpleNamespace(least=3, subject=types.SimpleNamespace(call=keys.column_of(None, "xxh64", 64)))
    with refused("not reached with two keys"):
        filters.Batches(offsets, 5)
    with refused("not reached with one key"):
        keys.Keys(offsets, "xxh64", 1).finish(types.SimpleNamespace(least=3, last=1, done=0))


# ---- a library some of whose calls are wrong for few arguments, and checks that must refuse them

DECLARED = library.declarations_of(library.HEADER)


def wrong_if(condition, *functions):
    """Bodies of calls that have another result if a condition holds of their count or their length."""
    bodies = {}
    for name in functions or DECLARED:
        names = library.PARAMETERS[name]
        size = next((item for item in ("count", "hash_count", "offset_count", "length") if item in names), None)
        if DECLARED[name][0] == "void":
            change = f"RIGHT; if ({size} {condition}) *(char *){'hash' if 'hash' in names else 'state'} ^= 1;"
        else:
            change = f"{DECLARED[name][0]} result = RIGHT; return {size} {condition} ? 7 : result;"
        bodies |= {name: change} if size else {}
    return bodies


def built_of(bodies, tmp):
    """The library with other bodies of some calls, in which RIGHT is the library's own call."""
    lines = ["#define SKETCH_HASH_NAMESPACE right_", '#include "sketch_hash.c"']
    for name, body in bodies.items():
        (result, parameters), right = DECLARED[name], f"right_sketch_{name}({', '.join(library.PARAMETERS[name])})"
        lines.append(f"#undef sketch_{name}\n{result} sketch_{name}({parameters}) {{ {body.replace('RIGHT', right)} }}\n")
    (tmp / "text.c").write_text("\n".join(lines))
    build(["gcc", "-fno-inline-functions", "-I", DIST], tmp / "text.so", text=tmp / "text.c")
    return library.read(tmp / "text.so")


WRONG = wrong_if("== 500", "xxh64", "murmur3_x64_128", "xxh64_update", "murmur3_x64_128_update") | {
    "xxh64_each64": "int status = RIGHT; if (status != 0 && count != 0) *(char *)out = 1; "
                    "if (status == 0) *wrong_offset = 0; return status;",
    "murmur3_x64_128_each64": "int status = RIGHT; return status + 2 * (*wrong_offset == offset_count);",
    "bloom_contains_hash": "return RIGHT | (hash == 500) << 1;", "bloom_bytes_for": "one_in += keys == 9; return RIGHT;",
    "bloom_insert_each64": "return offset_count == 2 && offsets[0] + 500 == offsets[1] ? 0 : RIGHT;",
    "bloom_contains_each64": "int status = RIGHT; if (status == 0 && count > 6400) found[6400] = 0; return status;",
    "bloom_insert_each_hash": "count -= count >= 3; return RIGHT;",
}
REFUSED = [
    lambda m: loops.prove_each_rest(partial(hashes.OneCall, m, "xxh64"), 32),
    lambda m: loops.prove(partial(hashes.OneCall, m, "murmur", number(500 % 16)), [1]),
    lambda m: loops.prove(partial(hashes.Update, m, "xxh64", 3, number(500 - 29 & 31)), [1]),
    lambda m: loops.prove(partial(hashes.Update, m, "murmur", 3, number(500 - 13 & 15)), [1]),
    lambda m: keys.prove_offsets(keys.column_of(m, "murmur", 64)), lambda m: filters.one_hash(m, False),
    lambda m: keys.prove_offsets(keys.column_of(m, "xxh64", 64)), lambda m: keys.column_of(m, "xxh64", 64).few(),
    lambda m: [run() for name, run in rates.checks(m) if name == "bloom_bytes_for"],
    lambda m: loops.prove(partial(filters.KeyOfColumn, filters.TextsCall(m, True, 64), number(500 % 32)), [1]),
    lambda m: filters.prove_texts(filters.TextsCall(m, False, 64)),
    lambda m: loops.prove(partial(filters.Values, m, True, "hash", number(0)), [1, 2]),
]


@pytest.fixture(scope="module")
def wrong_library(need, tmp_path_factory):
    """For few arguments, or beyond a bound."""
    need("gcc")
    return functools.cache(lambda limit: built_of(
        WRONG if limit is None else wrong_if(f"> 1ull << {limit}"), tmp_path_factory.mktemp("wrong")))


SEED_HASH, BYTES = ("seed_hash", hashes.seed_hash_call), ("murmur3_x64_128_bytes", hashes.bytes_call)
RESET = "murmur3_x64_128_reset", partial(hashes.reset, "murmur")


@pytest.mark.parametrize("function, call, body, reason", [
    (*SEED_HASH, "seed++; return RIGHT;", "definitions"), (*SEED_HASH, "hash[1] = 0; return RIGHT;", "outside"),
    (*SEED_HASH, "if (RIGHT != 0) *hash = 0; return 0;", "definitions"), (*BYTES, "RIGHT; out[8] = 0;", "what is written"),
    (*BYTES, "RIGHT; *(char *)hash = 0;", "outside"), (*BYTES, "RIGHT; out[16] = 0;", "outside"),
    (*BYTES, "unsigned char all[16], *to = out; out = all; RIGHT; memcpy(to, all, 8);", "what is written"),
    (*RESET, "RIGHT; state->waiting[15] = 1;", "what is written"),
    (*RESET, "__typeof__(*state) all, *to = state; state = &all; RIGHT; memcpy(to, &all, 32);", "what is written"),
])
def test_a_call_that_writes_other_bytes_is_refused(function, call, body, reason, need, tmp_path):
    need("gcc")
    machine = checks.machine_of(built_of({function: body}, tmp_path))
    with refused(reason):
        calls.check_call(machine, function, call)


# ---- a library whose calls are wrong for very many elements alone: no attempt may leave its bounds to the next one

def late_loops(m):
    zero = number(0)
    makes = [make for hash in calls.NAMES
             for make in (partial(hashes.OneCall, m, hash, zero), partial(hashes.Update, m, hash, 3, zero))]
    makes += [partial(filters.Merge, m, True, zero), partial(filters.Fold, m, zero), partial(columns.Numbers, m, True, zero)]
    makes += [partial(filters.SingleKey, m, is_insert, zero) for is_insert in (True, False)]
    makes += [partial(filters.Values, m, is_insert, kind, zero)
              for is_insert in (True, False) for kind in ("hash", "u32", "u64")]
    runs = [partial(loops.prove, make, [2, 1]) for make in makes]
    runs += [partial(keys.prove_columns, m, hash, width) for hash in calls.NAMES for width in keys.MOST]
    return runs + [partial(filters.prove_texts, filters.TextsCall(m, is_insert, width))
                   for is_insert in (True, False) for width in keys.MOST]


@pytest.mark.parametrize("limit, i", [
    *((None, i) for i in range(len(REFUSED))), *itertools.product((25, 33, 35), range(len(late_loops(None))))])
def test_a_call_that_is_wrong_for_few_arguments_or_beyond_a_bound_is_refused(limit, i, wrong_library):
    machine = checks.machine_of(wrong_library(limit))
    with refused("the result is not|what is written is not" if limit else "."):
        checks.on_each_setting(machine.library, late_loops(machine)[i] if limit else partial(REFUSED[i], machine))


# ---- the blocks of a filter that a call reaches

def block_at(i, n):
    return add(calls.bits, add(mul(filters.block_of(unknown(("hash", i), 64)), number(32)), number(n)))


@pytest.mark.parametrize("is_writable", [True, False])
def test_a_call_is_within_the_blocks_of_its_keys(is_writable):
    """It may write the blocks of one key after the other, and read those of any."""
    filter = filters.FilterBlocks(lambda index: unknown(("hash", index[0][1]), 64), is_writable)
    assert filter.offset_of(block_at(0, 0), 32) == (0, 0) and filter.offset_of(block_at(0, 28), 4) == (0, 28)
    for outside in (block_at(0, 28), 5), (block_at(0, -1), 4), (calls.out, 4):
        assert filter.offset_of(*outside) is None
    filter.load((0, 0), 4)
    assert (filter.offset_of(block_at(2, 0), 4) is None) == is_writable
    if is_writable:
        with refused("what is inserted"):
            filter.load((1, 0), 4)
        filter.store((0, 0), bitwise("or", *filter.block(0)[1:3]))
        filter.load((1, 0), 4)
        with refused("what is inserted"):
            filter.must_have_reached(2)
        filter.store((1, 0), bitwise("or", *filter.block(1)[1:3]))
        with refused("not as many keys"):
            filter.must_have_reached(1)
    assert (filter.offset_of(block_at(0, 0), 4) is None) == is_writable


# ---- offsets: a loop that compares each with the one before it, and one that looks for the first wrong one

OFFSETS = """.globl sketch_bloom_insert_each64; sketch_bloom_insert_each64:
lea r10, [r9-1]; cmp rcx, [r8+r10*8]; jb 2f; xor eax, eax
1: cmp r10, rax; je 5f; mov r11, [r8+rax*8]; inc rax; cmp [r8+rax*8], r11; jae 1b
2: xor edx, edx; xor edi, edi
3: cmp rdx, r9; je 5f; mov rax, [r8+rdx*8]; cmp rax, rdi; jb 4f; cmp rcx, rax; jb 4f; mov rdi, rax; inc rdx; jmp 3b
4: mov rax, [rsp+8]; mov [rax], rdx; mov eax, -2; ret"""


@pytest.mark.parametrize("before, after, reason", [
    ("ret", "ret", None), ("[r8+r10*8]; jb 2f", "[r8+r10*8]", "outside"), ("jae 1b", "ja 1b", "depends on"),
    ("xor eax, eax", "mov eax, 1", "outside"), ("cmp r10, rax; je", "lea r11, [r10-1]; cmp r11, rax; je", "outside"),
    ("jae 1b", "jae 1b; cmp rax, 100; je 5f", "depends on"), ("lea r10", "cmp r9, 3; je 5f; lea r10", "ud2"),
    ("xor edx, edx", "mov rdx, rax", "depends on"), ("xor edi, edi", "mov rdi, rcx", "depends on"),
    ("cmp rcx, rax; jb 4f", "", "does not end"), ("cmp rax, rdi; jb 4f", "", "does not end"), ("-2", "-1", "the result"),
    ("mov rdi, rax", "", "a right offset ends"), ("inc rdx", "add rdx, 2", "none of the subject"),
])
def test_each_offset_is_looked_at(before, after, reason, machine_of):
    machine = machine_of("x86-64", others=f"{OFFSETS.replace(before, after)}; 5: ud2")
    with refused(reason):
        keys.prove_offsets(filters.TextsCall(machine, True, 64))
