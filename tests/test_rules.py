"""Facts that several files repeat: each must equal the file that defines it. And the layout of the sources."""
import re
import subprocess

import pytest
from conftest import ROOT, VERSION


def text_of(name):
    return (ROOT / name).read_text(encoding="utf-8")


@pytest.mark.parametrize("name", [
    "README.md", "bindings/python/src/sketch_hash/__init__.py", "Cargo.toml", "dist/CMakeLists.txt",
    "dist/Makefile", "dist/README.md", "dist/include/sketch_hash.h", "dist/linux-x86_64/sketchsum.1",
    "dist/sketch_hash-config-version.cmake", "dist/sketch_hash.pc.in", "dist/wasm/hashes.mjs", "dist/wasm/package.json",
])
def test_the_version_is_that_of_the_changelog(name):
    """The README names that of the original too."""
    assert {*re.findall(r"(?<![\w.])\d+\.\d+\.\d+(?![\w.])", text_of(name))} - {"0.6.0"} == {VERSION}


@pytest.mark.parametrize("package", ["dist", "dist/wasm"])
@pytest.mark.parametrize("name", ["LICENSE", "NOTICE"])
def test_packages_have_the_licence(package, name):
    assert text_of(f"{package}/{name}") == text_of(name)


PYTHON, RUST, JAVASCRIPT = "bindings/python/src/sketch_hash", "bindings/rust/src", "dist/wasm"


def test_packages_say_of_a_wrong_offset_what_the_header_says():
    """With its index, and by fewer commas."""
    header = re.search(r"An offset (is missing, .*) it\.", text_of("dist/include/sketch_hash.h"))[1]
    for name in (f"{PYTHON}/_columns.pyx", f"{RUST}/error.rs", f"{JAVASCRIPT}/filters.mjs"):
        assert re.findall(r"the offset at \S+ (is missing, [\w, ]*)", text_of(name)) == [header.replace(", or", " or")]


@pytest.mark.parametrize("name", [f"{PYTHON}/_bloom.pyx", f"{RUST}/error.rs", f"{JAVASCRIPT}/filters.mjs"])
def test_packages_say_of_a_wrong_length_what_the_header_says(name):
    header = re.search(r"must be a (positive multiple of 32) below (2\^37)", text_of("dist/include/sketch_hash.h")).groups()
    found = re.findall(r"a Bloom filter must have a ([\w ]+) bytes, below ([\d*^]+)", text_of(name))
    assert {(kind, limit.replace("**", "^")) for kind, limit in found} == {header}


@pytest.mark.parametrize("name", [
    "bindings/python/README.md", f"{PYTHON}/_bloom.pyx", f"{RUST}/bloom.rs", f"{RUST}/error.rs",
    f"{PYTHON}/parquet/writer.py", f"{JAVASCRIPT}/filters.mjs", f"{JAVASCRIPT}/sketch_hash.d.mts",
    "dist/include/sketch_hash.h",
])
def test_the_largest_filter_for_keys_is_that_of_the_core(name):
    log2_blocks = int(re.search(r"MAX_LOG2_BLOCKS: u32 = (\d+);", text_of("crates/sketch_bloom/src/size.rt"))[1])
    sizes = re.findall(r"(?:to|of|most|than|MOST_BYTES =) (\d+) (?:MiB|<< 20)", text_of(name))
    assert {*sizes} == {str((32 << log2_blocks) >> 20)}


@pytest.mark.parametrize("name", [f"{RUST}/calls.rs", f"{JAVASCRIPT}/filters.mjs"])
def test_the_numbers_of_the_header_are_those_of_a_package(name):
    header = re.findall(r"SKETCH_(\w+)(?: =)? (-?\d+)", text_of("dist/include/sketch_hash.h"))
    numbers = re.findall(r"const ([A-Z_]+)(?:: \w+)? = (-?\d+);", text_of(name))
    assert numbers and {*numbers} <= {*header}


@pytest.mark.parametrize("tool", ["awk", "clang-format", "flake8", "rustfmt", "shellcheck"])
def test_a_linter_finds_nothing(tool, need):
    need(tool)
    subprocess.run(["bash", ROOT / ".ci/lint", tool], check=True)
