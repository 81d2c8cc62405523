"""The pages: links, code to copy, files that they name, numbers that the code has too, and each README's programs."""
import os
import re
import shlex
import shutil
import subprocess
import sys

import pytest
from conftest import CARGO_CONFIG, DEBIAN_CRATES, ROOT, block_of, blocks_of

FILES = subprocess.check_output(["git", "-C", ROOT, "ls-files"], text=True).splitlines()
FILES = [name for name in FILES if (ROOT / name).exists()]
PAGES = [name for name in FILES if name.endswith(".md")]


def text_of(name):
    return (ROOT / name).read_text(encoding="utf-8")


def without_code(page):
    return re.sub(r"^```.*?^```", "", text_of(page), flags=re.M | re.S)


def headings(page):
    """The anchors of a page's headings, as GitHub writes them."""
    for title in re.findall(r"^#+ +(.+?) *$", without_code(page), re.M):
        yield re.sub(r"[^\w -]", "", title.lower()).replace(" ", "-")


@pytest.mark.parametrize("page", PAGES)
def test_links_lead_somewhere(page):
    dead = []
    for target in re.findall(r"(?:\]\(|^\[[^\]]+\]: )([^)\s]+)", without_code(page), re.M):
        path, _, anchor = target.partition("#")
        place = ((ROOT / page).parent / path).resolve() if path else ROOT / page
        if "://" in target or target.startswith("mailto:"):
            continue
        if not place.exists() or anchor and anchor not in headings(place.relative_to(ROOT)):
            dead.append(target)
    assert dead == []


def paragraphs(code):
    """The paragraphs of a code, however far it is indented."""
    lines = "\n".join(line.strip() for line in code.splitlines())
    return [part.strip() for part in re.split(r"\n\n+", lines) if part.strip()]


BLOCKS = {
    f"{page}, {code.strip().splitlines()[0]}": paragraphs(code)
    for page in PAGES if not page.startswith(("bindings/", "dist/"))
    for code in blocks_of(page, "rust")
}
PROVED_CODE = ["\n".join(line.strip() for line in text_of(name).splitlines()) for name in FILES
               if re.match(r"crates/\w+/src/.*\.rt$", name)]


@pytest.mark.parametrize("block", BLOCKS)
def test_code_of_pages_stands_in_a_proved_source(block):
    assert any(all(part in code for part in BLOCKS[block]) for code in PROVED_CODE)


@pytest.mark.parametrize("page", [page for page in PAGES if not page.startswith(("bindings/", "dist/"))])
def test_files_that_a_page_names_are_there(page):
    ends = tuple(f"/{file}" for file in FILES)
    named = re.findall(r"`([\w./-]+\.(?:antt|c|edit|h|md|mjs|py|rs|rt|toml|tsv|txt))`", without_code(page))
    assert [name for name in named if "PATH/" not in name and not any(end.endswith(f"/{name}") for end in ends)] == []


# ---- The programs and commands of each README, run as they stand there

PAGE, OF_C, OF_PYTHON = (text_of(f"{folder}README.md") for folder in ("", "dist/", "bindings/python/"))
COPIED = re.findall(r"\]\((dist/\S+\.[ch])\)", PAGE)
ANSWER = "0b242d361fda71bc\n"  # XXH64 of the fox under seed 0


def output_of(command, folder, **environment):
    environment = {**os.environ, **environment}
    return subprocess.run(command, shell=True, executable="/bin/bash", cwd=folder, env=environment, check=True,
                          stdout=subprocess.PIPE, text=True).stdout


def test_the_program_prints_the_hash(need):
    need("linux-x86_64")
    command, answer = re.search(r"^    (printf .*sketchsum murmur 0)\n    (\w{32})$", PAGE, re.M).groups()
    assert output_of(command, ROOT) == f"{answer}\n"


@pytest.fixture
def installed(need, tmp_path):
    """What points at an installed library."""
    need("make", "gcc", "pkg-config")
    copy = shutil.copytree(ROOT / "dist", tmp_path / "dist")
    subprocess.run(["make", "-s", "-C", copy, "install", f"PREFIX={tmp_path / 'prefix'}"], check=True)
    lib = tmp_path / "prefix/lib"
    return {"PKG_CONFIG_PATH": str(lib / "pkgconfig"), "LD_LIBRARY_PATH": str(lib)}


def test_the_program_in_c_prints_the_hash(need, tmp_path):
    need("gcc")
    (tmp_path / "fox.c").write_text(block_of("README.md", "c"))
    for name in COPIED:
        shutil.copy(ROOT / name, tmp_path)
    (command,) = re.findall(r"`(cc [^`]+)`", PAGE)
    output_of(command, tmp_path)
    assert output_of("./a.out", tmp_path) == ANSWER


@pytest.mark.parametrize("command", re.findall(r"^    (cc .*)$", OF_C, re.M))
def test_each_command_of_the_page_of_c_builds_it(command, installed, tmp_path):
    (tmp_path / "fox.c").write_text(block_of("dist/README.md", "c"))
    output_of(command.replace("FOLDER", shlex.quote(str(ROOT / "dist"))), tmp_path, **installed)
    assert output_of("./fox", tmp_path, **installed) == ANSWER


def test_the_program_in_rust_prints_the_hash(need, tmp_path):
    need("cargo", "rustc 1.82", "gcc", DEBIAN_CRATES)
    (tmp_path / ".cargo").mkdir()
    (tmp_path / ".cargo/config.toml").write_text(CARGO_CONFIG)
    output_of("cargo new --offline --quiet --vcs none --name fox fox", tmp_path)
    add = re.search(r"`(cargo add [^`]+)`", PAGE)[1]
    output_of(add.replace("REPOSITORY", shlex.quote(str(ROOT))).replace("add", "add --offline --quiet", 1), tmp_path / "fox")
    (tmp_path / "fox/src/main.rs").write_text(block_of("README.md", "rust crate"))
    assert output_of("cargo run --offline --quiet", tmp_path / "fox") == ANSWER


def test_the_program_in_python_prints_the_hash(need, tmp_path):
    """By the commands of its page, in a copy, next to which they create the environment."""
    need("gcc", "Python.h", "python:Cython", "python:setuptools", "python:ensurepip", "python:wheel")
    copy = tmp_path / "repository"
    for folder in ("dist", "bindings/python"):
        shutil.copytree(ROOT / folder, copy / folder)
    commands = re.findall(r"^    (\S+ -m venv .+|\.\./\S*pip install .+)$", OF_PYTHON, re.M)
    assert len(commands) == 2
    for command in commands:
        output_of(f"unset PYTHONPATH; {command}", copy)
    (copy / "fox.py").write_text(block_of("README.md", "python"))
    command = re.search(r"`(python fox.py)`", PAGE)[1]
    assert output_of(f"unset PYTHONPATH; ../venv/bin/{command}", copy) == ANSWER


def test_the_program_of_the_page_of_python_prints_what_its_comments_say(need, tmp_path):
    """Its blocks are one program, which prints what the comment after each print says."""
    need("python:sketch_hash")
    code = "".join(blocks_of("bindings/python/README.md", "python"))
    (tmp_path / "all.py").write_text(code)
    expected = re.findall(r"^ *print\(.*\)(?:  # ([^;\n]+?)(?:;.*)?)?$", code, re.M)
    printed = output_of(f"{shlex.quote(sys.executable)} all.py", tmp_path).splitlines()
    assert expected and [line if comment else "" for line, comment in zip(printed, expected, strict=True)] == expected


def test_the_program_in_javascript_prints_the_hash(need, tmp_path):
    """In a folder whose name a URL writes otherwise."""
    need("node 18")
    folder = tmp_path / "a folder, 100%"
    shutil.copytree(ROOT / "dist", folder / "dist")
    (folder / "fox.mjs").write_text(block_of("README.md", "js"))
    assert "`node fox.mjs`" in PAGE and output_of("node fox.mjs", folder) == ANSWER


@pytest.mark.parametrize("name", ["speed.svg", "parquet.svg"])
def test_a_plot_shows_the_times_that_were_measured(name, tmp_path):
    subprocess.run([sys.executable, ROOT / "bench/picture.py", tmp_path], check=True)
    assert (tmp_path / name).read_text(encoding="utf-8") == text_of(f"docs/{name}")
