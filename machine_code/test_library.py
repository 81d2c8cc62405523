"""What is on no list of what is read: in shared libraries, in object files and in archives."""
import struct
import subprocess

import checks
import library
import pytest
from test_checks import COMPILERS, VERSION, build, check_version, refused


@pytest.fixture(scope="module")
def built(need, tmp_path_factory):
    need("linux-x86_64", "gcc", "objdump")
    path = tmp_path_factory.mktemp("library") / "library.so"
    build(COMPILERS["gcc"], path)
    return library.read(path)


def at_tag(built, tag):
    """Where a tag of the dynamic section is in the file."""
    at = next(offset for kind, _, offset, *_ in built.rows("IIQQQQQQ", 64, 56, built.unpack("H", 56)[0]) if kind == 2)
    return next(at for at in range(at, len(built.data), 16) if built.unpack("Q", at)[0] == tag)


def at_segment(built, kind, i=0):
    return [at for at in range(64, 64 + 56 * built.unpack("H", 56)[0], 56) if built.unpack("I", at)[0] == kind][i]


def at_symbol(built):
    i = next(i for i in range(built.count_of_symbols()) if built.symbol(i)[0] == "sketch_hash_version")
    return built.offset_of(built.tags[6] + 24 * i, 24, 4)


def at_relocation(built, i=0):
    return built.offset_of(built.tags[7] + 24 * i, 24, 4)


# Where something is in a library, what is put there, and the reason why it is refused.
CHANGED = [
    (lambda built: 16, "<H", 2, "an ELF type 0x2"), (lambda built: 18, "<H", 3, "a processor 0x3"),
    (lambda built: at_segment(built, 4), "<I", 7, "a segment of type 0x7"),
    (lambda built: at_segment(built, 1, 1) + 4, "<I", 7, "a segment with flags 0x7"),
    *((lambda built: at_segment(built, 1, 1) + 16, "<Q", n, "segments that overlap") for n in (0, 256)),
    (lambda built: at_segment(built, 1, 1) + 40, "<Q", 1 << 16, "fewer bytes"),
    (lambda built: at_segment(built, 1, 1) + 32, "<Q", 1 << 20, "truncated"),
    *((lambda built: at_tag(built, 13), "<Q", tag, f"the dynamic tag {reason}") for tag, reason in (
        (0x7FFFFFFD, "0x7ffffffd"), (17, "0x11"), (12, "0xc twice"))),
    (lambda built: at_tag(built, 9) + 8, "<Q", 16, "the dynamic tag 0x9 with 0x10"),
    (lambda built: at_tag(built, 6), "<Q", 0, "damaged"), (lambda built: at_tag(built, 6) + 8, "<Q", 1 << 40, "damaged"),
    (lambda built: built.data.index(b"libc.so"), "<I", 0x2E78696C, "it needs another library: lix.\\.so"),
    (lambda built: at_symbol(built) + 4, "<B", 26, "as a symbol of type 0xa"),
    (lambda built: at_symbol(built) + 6, "<H", 0xFFF1, "in the section 0xfff1"),
    (lambda built: at_relocation(built) + 8, "<I", 5, "a relocation of type 0x5"),
    (lambda built: at_relocation(built), "<Q", 0, "damaged"),
    (lambda built: at_relocation(built, 1), "<Q", lambda built: built.unpack("Q", at_relocation(built))[0], "two relocations"),
    # The loader finds the dynamic section by its address.
    (lambda built: at_segment(built, 2) + 8, "<Q", 0, None), (lambda built: at_segment(built, 2) + 32, "<Q", 16, None),
]


@pytest.mark.parametrize("place, form, n, reason", CHANGED)
def test_what_is_on_no_list_is_refused(place, form, n, reason, built, tmp_path):
    data = bytearray(built.data)
    struct.pack_into(form, data, place(built), n(built) if callable(n) else n)
    (tmp_path / "changed").write_bytes(data)
    with refused(reason):
        assert library.read(tmp_path / "changed").constructors == built.constructors


OBJECTS = [
    ("", [], None), ("", ["--hidden"], None), (".section .init, \"ax\"; nop", [], "the section .init,"),
    (".section .ctors, \"aw\"; .quad 0", [], "the section .ctors,"), (".comm other, 8", [], "the common symbol other"),
    (".section .tbss, \"awT\", @nobits; .long 0", [], "the section .tbss"),
    (".weak sketch_hash_version", [], "sketch_hash_version with the binding 0x2"),
    (".section .gnu.lto_x; .long 0", [], "-flto"), (".section .other, \"a\", @0x11223344; nop", [], "of type 0x11223344"),
    ("call other", [], "a call of other"), ("mov eax, [other]", [], "ld cannot link it"),
]


@pytest.mark.parametrize("more, options, reason", OBJECTS)
def test_an_object_file_has_nothing_that_a_linker_may_take_otherwise(more, options, reason, need, tmp_path):
    need("linux-x86_64", "as", "objdump")
    hidden = ".hidden sketch_hash_version\n" * bool(options)
    begin, end = (more, "") if more[:1].isalpha() else ("", more)
    text = f".intel_syntax noprefix\n.globl sketch_hash_version\n{hidden}sketch_hash_version: {begin}\n{VERSION}\n{end}\n"
    subprocess.run(["as", "-o", tmp_path / "code.o", "-"], input=text, text=True, check=True)
    subprocess.run(["ar", "rc", tmp_path / "one.a", tmp_path / "code.o"], check=True)
    for name in "code.o", "one.a":
        with refused(reason):
            check_version(checks.machine_of(library.read(tmp_path / name)))


def test_an_archive_has_one_object_file_of_machine_code(need, tmp_path):
    need("linux-x86_64", "clang", "objdump")
    (tmp_path / "a.c").write_text("int sketch_hash_version(void) { return 1; }")
    for name, options in ("a.o", []), ("b.o", ["-flto"]):
        subprocess.run(["clang", *options, "-c", tmp_path / "a.c", "-o", tmp_path / name], check=True)
    subprocess.run(["ar", "rc", tmp_path / "two.a", tmp_path / "a.o", tmp_path / "b.o"], check=True)
    for name, reason in ("two.a", "an archive of 2 object files"), ("b.o", "LLVM bitcode.*-flto"):
        with refused(reason):
            library.read(tmp_path / name)
