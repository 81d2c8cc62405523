"""The library for C: its header under each standard, and its text under compilers, processors and systems."""
import functools
import pathlib
import re
import shutil
import subprocess

import pytest
from conftest import CALLS, DIST, output

HERE = pathlib.Path(__file__).resolve().parent
INCLUDE, TEXT, DROP_IN = DIST / "include", DIST / "sketch_hash.c", DIST / "drop_in"
STRICT = ["-Wall", "-Wextra", "-Werror", "-pedantic-errors"]
STD = ["-std=c11", *STRICT]


@pytest.fixture(scope="session")
def archive(tmp_path_factory):
    """archive("gcc", "-O2"): the library as this compiler makes it with these options."""
    @functools.cache
    def archive(*command):
        made = tmp_path_factory.mktemp("archive") / "sketch_hash.o"
        language = ["-xc++", "-std=c++11"] if "++" in command[0] else ["-std=c11"]
        output(*command, *language, *STRICT, "-I", INCLUDE, "-c", TEXT, "-o", made)
        return made

    return archive


# ---- the headers

STANDARDS = [
    *((compiler, standard) for compiler in ("gcc", "clang") for standard in ("c90", "c99", "c11", "c17", "c2x")),
    *((compiler, standard) for compiler in ("g++", "clang++") for standard in ("c++98", "c++11", "c++17", "c++20", "c++2b")),
]


@pytest.mark.parametrize("compiler, standard", STANDARDS)
def test_headers_compile_under_each_standard(compiler, standard, archive, need, tmp_path):
    need(compiler, "gcc")
    language = ["-xc++", "-Wold-style-cast"] if "++" in compiler else ["-xc"]
    if compiler == "g++" and standard != "c++98":
        language.append("-Wuseless-cast")
    command = [compiler, f"-std={standard}", *STRICT, "-I", INCLUDE, "-I", DROP_IN, "-o", tmp_path / "alone"]
    output(*command, *language, HERE / "alone.c", "-xnone", archive("gcc", "-O2"))
    output(tmp_path / "alone")


# ---- the text under each compiler: a program compares, and its exit status is the result

SANITIZED = ["-O1", "-fsanitize=address,undefined", "-fno-sanitize-recover=all"]
BUILDS = {  # a compiler with its options, and what runs the program
    "gcc -O0": (["gcc", "-O0"], []),
    "gcc -O3": (["gcc", "-O3"], []),
    "gcc, for AVX2": (["gcc", "-O3", "-mavx2", "-mbmi2"], []),
    "gcc, without numbers of 128 bits": (["gcc", "-O2", "-U__SIZEOF_INT128__"], []),
    "gcc, at link time": (["gcc", "-O2", "-flto"], []),
    "gcc, sanitizers": (["gcc", *SANITIZED], []),
    "gcc, static, on a processor without AVX2": (["gcc", "-O2", "-static"], ["qemu-x86_64", "-cpu", "Nehalem"]),
    "clang -O0": (["clang", "-O0"], []),
    "clang -O3": (["clang", "-O3"], []),
    "clang, sanitizers": (["clang", *SANITIZED], []),
    "musl": (["musl-gcc", "-O2"], []),
    "musl, static": (["musl-gcc", "-O2", "-static"], []),
    "windows": (["x86_64-w64-mingw32-gcc", "-O2"], ["wine"]),
    "g++": (["g++", "-O2"], []),
    "clang++": (["clang++", "-O2"], []),
    "aarch64": (["aarch64-linux-gnu-gcc", "-O2"], ["qemu-aarch64", "-L", "/usr/aarch64-linux-gnu"]),
    "riscv64": (["riscv64-linux-gnu-gcc", "-O2"], ["qemu-riscv64", "-L", "/usr/riscv64-linux-gnu"]),
    "ppc64le": (["powerpc64le-linux-gnu-gcc", "-O2"], ["qemu-ppc64le", "-L", "/usr/powerpc64le-linux-gnu"]),
    "32 bits: i686": (["i686-linux-gnu-gcc", "-O2", "-static"], []),
    "32 bits: armv7": (["arm-linux-gnueabihf-gcc", "-O2", "-static"], ["qemu-arm"]),
    "big-endian: s390x": (["s390x-linux-gnu-gcc", "-O2", "-static"], ["qemu-s390x"]),
    "big-endian: powerpc64": (["powerpc64-linux-gnu-gcc", "-O2", "-static"], ["qemu-ppc64"]),
    "big-endian, 32 bits: mips": (["mips-linux-gnu-gcc", "-O2", "-static"], ["qemu-mips"]),
    "gcc, without a known byte order": (["gcc", "-O2", "-U__BYTE_ORDER__"], []),
}


@pytest.fixture(scope="module")
def wine(tmp_path_factory):
    """The command of wine. One server runs until all tests have ended, if it is on the path: sid has none."""
    folder, server = tmp_path_factory.mktemp("wine"), shutil.which("wineserver")
    environment = ["env", f"WINEPREFIX={folder}", "WINEDEBUG=-all", "WINEDLLOVERRIDES=mscoree,mshtml="]
    if server:
        output(*environment, server, "--persistent")
    yield [*environment, "wine"]
    if server:
        output(*environment, server, "--kill")
    shutil.rmtree(folder, ignore_errors=not server)  # 700 MB


@pytest.fixture
def built(need, archive, tmp_path, request):
    """built("states", "musl"): the command that runs a test program with the library of a build."""

    def built(name, build=None):
        (compiler, *options), runner = BUILDS[build] if build else (["gcc", "-O2"], [])
        peers = ["xxhash", "murmurhash"] if name == "compare" else []
        need(compiler, *runner[:1], *(f"{peer}.h" for peer in peers))
        source, program = (DIST if name == "check" else HERE) / f"{name}.c", tmp_path / f"{name}.exe"
        linked = [archive(compiler, *options), *(f"-l{peer}" for peer in peers)]
        of_c = {"g++": "gcc", "clang++": "clang"}.get(compiler, compiler)
        output(of_c, "-o", program, source, *options, *STRICT, "-I", INCLUDE, *linked)
        return [*(request.getfixturevalue("wine") if runner == ["wine"] else runner), program]

    return built


PROGRAMS = ["check", "states", "columns"]


@pytest.mark.parametrize("args", [[], ["past 32 bits"]])
def test_calls_return_what_other_libraries_return(args, built):
    output(*built("compare"), *args)


@pytest.mark.xdist_group("builds")  # wine sets up its folder once
@pytest.mark.parametrize("name", PROGRAMS)
@pytest.mark.parametrize("build", BUILDS)
def test_each_build_gives_the_same_answers(name, build, built):
    """The outputs are compared, since a crash under wine can have the status 0."""
    assert output(*built(name, build)) == output(*built(name))


@pytest.mark.parametrize("compiler, standard, name", [
    *((compiler, "c11", name) for compiler in ("gcc", "clang") for name in PROGRAMS),
    *((compiler, f"c++{year}", "states") for compiler in ("g++", "clang++") for year in ("11", "14", "17", "20", "2b"))])
def test_a_program_may_include_the_text(compiler, standard, name, built, need, tmp_path):
    """Also in two of its files, of which neither exports a call."""
    need(compiler, "nm")
    source = (DIST if name == "check" else HERE) / f"{name}.c"
    inlined = '#define SKETCH_HASH_INLINE\n#include "sketch_hash.c"\n'
    (tmp_path / "one.c").write_text(f'{inlined}#include "{source}"\n')
    other = "uint64_t other(void);\nuint64_t other(void) { return sketch_xxh64_u64(1, 2); }\n"
    (tmp_path / "other.c").write_text(inlined + other)
    options = ["-xc++" if "++" in compiler else "-xc", f"-std={standard}", *STRICT, "-O2", "-I", INCLUDE, "-I", DIST]
    output(compiler, *options, "-I", HERE, "-o", tmp_path / "program", tmp_path / "one.c", tmp_path / "other.c")
    assert output(tmp_path / "program") == output(*built(name))
    assert not re.search(r" T sketch_", output("nm", tmp_path / "program"))


@pytest.mark.parametrize("target", [
    "x86_64-apple-macosx11", "arm64-apple-macosx11", "x86_64-pc-windows-msvc", "aarch64-pc-windows-msvc"])
def test_text_compiles_for_other_systems(target, need, tmp_path):
    """As far as clang needs no headers of that system."""
    need("clang")
    (tmp_path / "string.h").write_text("#include <stddef.h>\nvoid *memcpy(void *, const void *, size_t), "
                                       "*memmove(void *, const void *, size_t), *memset(void *, int, size_t);\n")
    options = [f"--target={target}", "-ffreestanding", "-nostdlibinc", *STD, "-I", INCLUDE, "-isystem", tmp_path]
    output("clang", *options, "-c", TEXT, "-o", tmp_path / "out.o")


@pytest.mark.parametrize("name, args", [("compare", []), ("columns", []), ("states", ["10000"])])
def test_calls_access_only_what_they_are_given_and_run_in_a_stack_of_256_kib(name, args, built, need):
    need("valgrind")
    program = built(name)
    output("bash", "-c", 'ulimit -s 256 && exec "$0"', *program)
    output("valgrind", "-q", "--error-exitcode=9", "--leak-check=full", *program, *args)


# ---- names

@pytest.mark.parametrize("compiler", ["gcc", "clang"])
def test_text_exports_the_calls_and_takes_only_memory_functions(compiler, archive, need):
    need(compiler, "nm")
    names = re.findall(r"^ *\S* ([A-Z]) (\S+)$", output("nm", "-g", archive(compiler, "-O2")), re.M)
    assert sorted(name for kind, name in names if kind != "U") == CALLS
    assert {name for kind, name in names if kind == "U"} <= {"memcpy", "memmove", "memset", "_GLOBAL_OFFSET_TABLE_"}


@pytest.mark.parametrize("namespace", [[], ["-DSKETCH_HASH_NAMESPACE=other_"]], ids=["alone", "two"])
def test_a_copy_with_a_namespace_does_not_mix_with_another(namespace, wrong_copy, need, tmp_path):
    """The other copy returns wrong hashes. It has a namespace too, or none; it is linked before or after, as an object or in an
    archive; and a shared library with its calls is loaded first."""
    need("gcc", "ar")
    copies = {"own": (TEXT, INCLUDE, ["-DSKETCH_HASH_NAMESPACE=mine_"]),
              "other": (wrong_copy / "sketch_hash.c", wrong_copy, namespace)}
    for name, (text, folder, options) in copies.items():
        (tmp_path / f"{name}.c").write_text(f'#include "sketch_hash.h"\nuint64_t {name}(void);\n'
                                            f'uint64_t {name}(void) {{ return sketch_xxh64("fox", 3, 0); }}\n')
        for source in (text, tmp_path / f"{name}.c"):
            output("gcc", *STD, *options, "-I", folder, "-c", source, "-o", tmp_path / f"{name}_{source.stem}.o")
        output("ar", "rc", tmp_path / f"{name}.a", *tmp_path.glob(f"{name}_*.o"))
    (tmp_path / "main.c").write_text("""#include <stdint.h>
uint64_t own(void), other(void);
int main(void) { return own() != 0xbce6c02d5136f238u || other() == own(); }
""")
    objects, archives = sorted(tmp_path.glob("*.o")), sorted(tmp_path.glob("*.a"))
    for linked in (objects, objects[::-1], archives, archives[::-1]):
        output("gcc", "-rdynamic", "-o", tmp_path / "program", tmp_path / "main.c", *linked)
        output(tmp_path / "program")
        output("env", f"LD_PRELOAD={wrong_copy}/libwrong.so", tmp_path / "program")


# ---- The header for programs that use xxHash

USES = {"linked": [], "namespace": ["-DXXH_NAMESPACE=mine_"], "inline": ["-DXXH_INLINE_ALL"],
        "inline in a namespace": ["-DXXH_INLINE_ALL", "-DXXH_NAMESPACE=mine_"], "static": ["-DXXH_STATIC_LINKING_ONLY"]}


@pytest.mark.parametrize("compiler", ["gcc", "clang", "g++"])
@pytest.mark.parametrize("use", USES)
def test_a_program_for_xxhash_prints_the_same_with_our_header(use, compiler, archive, need, tmp_path):
    need(compiler, "gcc", "xxhash.h")
    command = [compiler, "-O2", *(["-xc++", "-std=c++17"] if compiler == "g++" else STD), HERE / "drop_in.c"]
    output(*command, "-DXXH_STATIC_LINKING_ONLY", "-w", "-o", tmp_path / "theirs", "-lxxhash")
    library = [] if "inline" in use else ["-xnone", archive("gcc", "-O2")]
    output(*command, *USES[use], "-I", DROP_IN, "-I", INCLUDE, "-I", DIST, "-o", tmp_path / "ours", *library)
    assert output(tmp_path / "ours") == output(tmp_path / "theirs")
    assert "XXH" not in output("nm", "-g", tmp_path / "ours")


@pytest.mark.parametrize("call", [
    "XXH32(at, 3, 0)", "XXH32_createState() != 0", "XXH3_64bits(at, 3)", "XXH3_64bits_withSeed(at, 3, 7)",
    "XXH3_createState() != 0",
    "XXH128(at, 3, 0)", "XXH3_128bits(at, 3).low64", "XXH3_generateSecret(at, 136, at, 3)", "sizeof(XXH32_state_t *)",
])
def test_a_call_of_xxhash_that_is_not_there_does_not_compile(call, need, tmp_path):
    """Also by a compiler that takes calls of what is not declared, and with the real library to link."""
    need("gcc", "xxhash.h")
    (tmp_path / "a.c").write_text(f"""#include <xxhash.h>
int main(void) {{ static char at[999]; return (int)({call}) & (int)at[0]; }}""")
    command = ["gcc", "-std=gnu89", "-w", "-o", tmp_path / "a", tmp_path / "a.c", "-lxxhash"]
    output(*command)
    done = subprocess.run([*command, "-I", DROP_IN, "-I", INCLUDE], stderr=subprocess.PIPE, text=True)
    assert done.returncode and re.search(r"‘?'?XXH(32|3|128)(_is_not_in_sketch_hash|_state_t)'?’? undeclared", done.stderr)


@pytest.mark.parametrize("lines, text", [
    (f'#include <xxhash.h>\n#include "{DROP_IN}/xxhash.h"\n', "another xxhash.h was included before that of sketch_hash"),
    ('#include "sketch_hash.h"\n#define SKETCH_HASH_INLINE\n#include "sketch_hash.c"\n', "define SKETCH_HASH_INLINE before"),
], ids=["two headers of xxHash", "inline too late"])
def test_a_wrong_order_of_headers_is_an_error(lines, text, need, tmp_path):
    need("gcc", "xxhash.h")
    (tmp_path / "a.c").write_text(lines)
    command = ["gcc", "-c", "-o", tmp_path / "a.o", tmp_path / "a.c", "-I", INCLUDE, "-I", DIST]
    done = subprocess.run(command, stderr=subprocess.PIPE, text=True)
    assert done.returncode and text in done.stderr
