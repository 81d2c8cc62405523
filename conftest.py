"""What tests need: `need`, by which each names its tools; the folders; the calls of the library and its
version."""
import functools
import importlib
import importlib.util
import os
import pathlib
import platform
import re
import shutil
import subprocess
import sysconfig

import pytest

ROOT = pathlib.Path(__file__).parent
DIST = ROOT / "dist"


def blocks_of(page, kind):
    """The blocks of code in a page that begin with ``` and this."""
    return re.findall(rf"^```{kind}\n(.*?)^```$", (ROOT / page).read_text(encoding="utf-8"), re.M | re.S)


def block_of(page, kind):
    (block,) = blocks_of(page, kind)
    return block


CALLS = sorted(set(re.findall(r"\b(sketch_\w+)\(", (DIST / "include/sketch_hash.h").read_text())))
VERSION = re.search(r"^## \[?(\d+\.\d+\.\d+)", (ROOT / "CHANGELOG.md").read_text(encoding="utf-8"), re.M)[1]
# The folder of what `rt ci` has just proved and built, as .ci/run names it, or None.
PROVED = pathlib.Path(os.environ["PROVED"]) if os.environ.get("PROVED") else None
pytest_plugins = ["bindings.python.tests.plugin"]
IS_CI = bool(os.environ.get("CI"))
if IS_CI:
    pytest.importorskip = importlib.import_module  # a module that is missing fails
# The folder of Debian's crates, and the settings by which cargo takes them in place of those of crates.io.
DEBIAN_CRATES = pathlib.Path("/usr/share/cargo/registry")
CARGO_CONFIG = block_of("bindings/rust/README.md", "toml")
PLATFORM = sysconfig.get_platform()
if PLATFORM != "linux-x86_64":  # these run its library or its program
    collect_ignore = ["tests/test_crates.py", "tests/test_faults.py", "bindings/c",
                      "bindings/python/tests/test_package.py", "bindings/wasm/tests/test_page.py"]

    def pytest_report_header():
        return f"not run, since they need linux-x86_64: {', '.join(collect_ignore)}"


def output(*command, **kwargs):
    """What a command prints, which must succeed."""
    return subprocess.run(command, check=True, stdout=subprocess.PIPE, text=True, timeout=300, **kwargs).stdout


def version_of(program):
    return tuple(int(part) for part in re.search(r"\d+(?:\.\d+)*", output(program, "--version"))[0].split("."))


@functools.cache
def is_there(tool):
    if isinstance(tool, pathlib.Path):
        return tool.exists()
    name, _, oldest = tool.partition(" ")
    if name == "linux-x86_64":
        return name == PLATFORM
    if name.startswith("python:"):
        return importlib.util.find_spec(name[len("python:"):]) is not None
    if name.endswith(".h"):
        command = ["gcc", "-E", "-I", sysconfig.get_path("include"), "-include", name, "-xc", "/dev/null"]
        return is_there("gcc") and subprocess.run(command, capture_output=True).returncode == 0
    if not shutil.which(name):
        return False
    return not oldest or version_of(name) >= tuple(map(int, oldest.split(".")))


# Tools that one release of Debian has. In others their tests are skipped, also if CI is set.
ONLY_IN = {"cargo 1.95": "sid", "duckdb": "sid", "python:pyarrow": "sid", "webpack": "sid"}
try:
    RELEASE = platform.freedesktop_os_release().get("VERSION_ID", "sid")
except (AttributeError, OSError):  # Python 3.9, or not Linux
    RELEASE = ""


@pytest.fixture(scope="session")
def need():
    """need("gcc", "node 20", "xxhash.h", "python:numpy", "linux-x86_64", folder): a program, one of a version or newer, a
    header, a module, the platform, a folder.

    Without it the test is skipped, with the reason; if CI is set it fails, unless this system has no such package.
    """

    def need(*tools):
        for tool in tools:
            if not is_there(tool):
                if ONLY_IN.get(tool, RELEASE) != RELEASE:
                    pytest.skip(f"needs {tool}: of Debian, {ONLY_IN[tool]} has it")
                test = os.environ["PYTEST_CURRENT_TEST"].partition("::")[0]
                (pytest.fail if IS_CI else pytest.skip)(f"{test} needs {tool}: bash .ci/setup installs what there is")

    return need


@pytest.fixture(scope="session")
def proved():
    """The folder of crates whose programs and tests `rt ci` has just built."""
    if not PROVED:
        pytest.skip("needs what rt ci proves and builds: bash .ci/run")
    return PROVED


@pytest.fixture(scope="session")
def wrong_copy(need, tmp_path_factory):
    """A folder with another copy of the library, whose hashes are wrong, and libwrong.so, which exports its calls."""
    need("gcc")
    folder = tmp_path_factory.mktemp("wrong")
    shutil.copy(DIST / "include/sketch_hash.h", folder)
    text = (DIST / "sketch_hash.c").read_text()
    wrong = re.sub(r"(SKH_PRIME5 0x27d4eb2f165667c|SKH_C1 0x87c37b91114253d)5u", r"\g<1>7u", text)
    assert wrong.count("7u") == text.count("7u") + 2
    (folder / "sketch_hash.c").write_text(wrong)
    subprocess.run(["gcc", "-shared", "-fPIC", "-o", folder / "libwrong.so", folder / "sketch_hash.c"], check=True)
    return folder
