"""The program and the crates' tests where calls fail: each request for memory, each read, each write in turn.

A crate's test called .._without_memory survives any request that fails, .._second_request_is_refused the second;
.._no_memory makes none, .._makes_1_request one.
"""
import os
import re
import subprocess

import pytest
from conftest import DIST, PROVED, ROOT

FOX = b"The quick brown fox jumps over the lazy dog"
MURMUR, XXH64 = b"e34bbc7bbc071b6c7a433ca9c49a9347\n", b"0b242d361fda71bc\n"
OUT_OF_MEMORY, READ_FAULT, WRITE_FAULT = b"out of memory\n", b"read fault\n", b"write fault\n"
USAGE = b"usage: sketchsum murmur|xx SEED\n"


def answer(command, **kwargs):
    """Its status, standard output and standard error."""
    done = subprocess.run(command, input=FOX, capture_output=True, timeout=600, **kwargs)
    return done.returncode, done.stdout, done.stderr


@pytest.fixture(scope="session")
def preloaded(need, tmp_path_factory):
    need("gcc")
    library = tmp_path_factory.mktemp("faults") / "faults.so"
    subprocess.run(["gcc", "-O1", "-Wall", "-Werror", "-shared", "-fPIC", "-o", library, ROOT / "tests/faults.c"], check=True)
    return library


@pytest.fixture
def under(preloaded, tmp_path):
    """under(command, "memory", at=3): its answer if the third request is refused, and a letter for each call that it made."""

    def under(command, fault, at=0, and_all_after=False):
        variables = {"LD_PRELOAD": str(preloaded), "FAULT": fault, "FAULT_AT": str(at), "FAULT_LOG": str(tmp_path / "calls")}
        result = answer(command, env={**os.environ, **variables, **({"FAULT_ALL": "1"} if and_all_after else {})})
        return result, (tmp_path / "calls").read_text()

    return under


# ---- the tests of the crates, by what their names say

TESTS = [
    pytest.param(program, name, id=f"{program.parts[-3]}-{name}")
    for program in sorted(PROVED.glob("*/out/*_tests") if PROVED else ())
    for name in re.findall(r"^(\S+): test$", subprocess.check_output([program, "--list"], text=True), re.M)
]
PASSED = 0, b"\ntest result: ok\n", b""


def built_tests(ending):
    """The tests whose names end so. Without `rt ci` there are none to run, and one is skipped for all."""
    if not PROVED:
        return [pytest.param(None, None, marks=pytest.mark.skip("needs the tests that rt ci builds: bash .ci/run"))]
    return [test for test in TESTS if re.search(rf"{ending}$", test.values[1])]


def passes_or_reports(result):
    status, output, complaint = result
    return (status, output) == PASSED[:2] and set(complaint.splitlines(keepends=True)) <= {OUT_OF_MEMORY}


@pytest.mark.parametrize("program, name", built_tests(""))
def test_of_a_crate_meets_no_refusal_without_a_fault(program, name):
    assert answer([program, name]) == PASSED


@pytest.mark.parametrize("and_all_after", [False, True], ids=["one", "all after"])
@pytest.mark.parametrize("program, name", built_tests("_without_memory"))
def test_of_a_crate_holds_whichever_request_is_refused(program, name, and_all_after, under):
    result, calls = under([program, name], "memory")
    assert result == PASSED and calls
    for at in range(1, len(calls) + 1):
        result, _ = under([program, name], "memory", at, and_all_after)
        assert passes_or_reports(result) and result[2], f"request {at} of {len(calls)}"


@pytest.mark.parametrize("program, name", built_tests("(_no_memory|_makes?_[0-9]+_requests?)"))
def test_of_a_crate_makes_so_many_requests(program, name, under):
    count = re.search(r"_([0-9]+)_requests?$", name)
    result, calls = under([program, name], "memory")
    assert result == PASSED and len(calls) == (int(count[1]) if count else 0)


@pytest.mark.parametrize("program, name", built_tests("_second_request_is_refused"))
def test_of_a_crate_meets_the_second_refusal(program, name, under):
    result, _ = under([program, name], "memory", 2)
    assert passes_or_reports(result) and result[2]


# ---- the program

# That of dist/; in the gate also as the kit's second compiler builds it.
PROGRAMS = [DIST / "linux-x86_64/sketchsum", *([PROVED / "sketchsum/out/sketchsum.by-rattle"] if PROVED else [])]
CASES = {
    "murmur": ('"$0" murmur 0', 0, MURMUR, b""),
    "xx": ('"$0" xx 0', 0, XXH64, b""),
    "a seed of 20 digits": ('"$0" xx 13571113171923293137', 0, b"f87a0d89aa481699\n", b""),
    "a name that is not UTF-8": ("exec -a $'\\xff' \"$0\" murmur 0", 0, MURMUR, b""),
    "an argument that is not UTF-8": ("\"$0\" murmur $'\\xff'", 2, b"", USAGE),
    "no argument": ('"$0"', 2, b"", USAGE),
    "one argument": ('"$0" xx', 2, b"", USAGE),
    "three arguments": ('"$0" xx 0 0', 2, b"", USAGE),
    "six arguments": ('"$0" murmur 0 1 2 3 4', 2, b"", USAGE),
    "standard input closed": ('"$0" murmur 0 <&-', 1, b"", READ_FAULT),
    "a folder as input": ('"$0" murmur 0 <.', 1, b"", READ_FAULT),
    "standard output closed": ('"$0" murmur 0 >&-', 1, b"", WRITE_FAULT),
    "a full disk": ('"$0" murmur 0 >/dev/full', 1, b"", WRITE_FAULT),
    "a pipe that nobody reads": ('mkfifo pipe; exec 3<>pipe 4>pipe 3<&-; "$0" murmur 0 >&4', 1, b"", WRITE_FAULT),
    "a full disk for the usage": ('"$0" 2>/dev/full', 2, b"", b""),
    "standard error closed": ('"$0" murmur 0 >/dev/full 2>&-', 1, b"", b""),
    "a stack of 256 KiB": ('ulimit -s 256; "$0" murmur 0', 0, MURMUR, b""),
    # x, zeros, and x again just past 2 and past 4 GiB
    "5 GiB": ("""truncate -s 5G large && for at in 0 $((1 << 31)) $((1 << 32)); do
        printf x | dd of=large bs=1 seek=$at conv=notrunc status=none; done; "$0" xx 0 <large; rm large""",
              0, b"122c750ad5831b59\n", b""),
}


@pytest.mark.parametrize("case", CASES)
@pytest.mark.parametrize("program", PROGRAMS, ids=lambda path: path.name)
def test_the_program_has_this_status_and_output(program, case, tmp_path):
    line, *wanted = CASES[case]
    assert answer(["bash", "-c", line, program], cwd=tmp_path) == tuple(wanted)


@pytest.mark.parametrize("program", PROGRAMS, ids=lambda path: path.name)
def test_the_program_frees_its_memory(program, need):
    need("valgrind")
    checks = ["--leak-check=full", "--show-leak-kinds=all", "--error-exitcode=9"]
    result = answer(["valgrind", "-q", *checks, program, "murmur", "0"])
    assert result == (0, MURMUR, b"")


@pytest.mark.parametrize("args", ["murmur 0", "xx 0", "xx"])
@pytest.mark.parametrize("fault, and_all_after", [("memory", False), ("memory", True), ("fail", False), ("short", False)])
@pytest.mark.parametrize("program", PROGRAMS, ids=lambda path: path.name)
def test_the_program_reports_each_failing_call(program, fault, and_all_after, args, under):
    command = [program, *args.split()]
    expected, calls = under(command, fault)
    assert expected == (2, b"", USAGE) if args == "xx" else expected == (0, MURMUR if "murmur" in args else XXH64, b"")
    assert calls
    for at, letter in enumerate(calls, 1):
        result, _ = under(command, fault, at, and_all_after)
        accepted = {
            "m": [(1, b"", OUT_OF_MEMORY), expected],  # it may do without
            "r": [(1, b"", READ_FAULT)],
            "o": [(1, expected[1][: len(result[1])], WRITE_FAULT)],
            "e": [(expected[0], expected[1], b"")],
        }
        assert result in ([expected] if fault == "short" else accepted[letter]), f"call {at} of {calls}"
    if fault == "memory":
        assert any(under(command, fault, at)[0] != expected for at in range(1, len(calls) + 1))
