"""The package as it is built and installed, its stubs, and its glue under sanitizers."""
import os
import pathlib
import re
import shutil
import subprocess
import sys
import tarfile

import pytest
from conftest import DIST, ROOT

HERE = pathlib.Path(__file__).resolve().parent
PIP = [sys.executable, "-m", "pip", "install", "--quiet", "--no-index", "--no-deps", "--root-user-action=ignore"]
LICENCE = ["LICENSE", "NOTICE"]


@pytest.fixture
def source(need, tmp_path):
    """A copy of the package alone, with the text of the library and the licence, as an archive of the sources has it."""
    need("gcc", "Python.h", "python:Cython", "python:setuptools", "python:wheel")
    ignored = shutil.ignore_patterns("build", "*.egg-info", "__pycache__", "c", *LICENCE)
    source = pathlib.Path(shutil.copytree(HERE.parent, tmp_path / "source", ignore=ignored))
    (source / "c").mkdir()
    for name in ("sketch_hash.c", "include/sketch_hash.h"):
        shutil.copy(DIST / name, source / "c")
    for name in LICENCE:
        shutil.copy(ROOT / name, source)
    return source


def run(command, cwd=None, **environment):
    return subprocess.run(command, cwd=cwd, env={**os.environ, **environment}, stdout=subprocess.PIPE,
                          stderr=subprocess.STDOUT, text=True)


def install(source, to, **environment):
    done = run([*PIP, "--no-build-isolation", "--upgrade", "--target", to, source], **environment)
    shutil.rmtree(source / "build", ignore_errors=True)
    return done


def test_an_archive_of_the_sources_is_installed_and_passes_the_tests_in_it(source, tmp_path):
    assert run([sys.executable, "setup.py", "-q", "sdist"], cwd=source).returncode == 0
    (archive,) = (source / "dist").glob("*.tar.gz")
    with tarfile.open(archive) as file:
        assert {*LICENCE} <= {name.partition("/")[2] for name in file.getnames()}
        file.extractall(tmp_path)
    assert run([*PIP, "--no-build-isolation", "--target", tmp_path / "installed", archive]).returncode == 0
    (unpacked,) = tmp_path.glob("sketch*-*/")
    done = run([sys.executable, "-m", "pytest", "-q", "-p", "no:xdist", "-p", "no:cacheprovider", "-k", "not longer_than_4"],
               cwd=unpacked, PYTHONPATH=str(tmp_path / "installed"))
    assert done.returncode == 0 and re.search(r"^\d+ passed", done.stdout, re.M), done.stdout[-3000:]


def test_only_its_own_name_leaves_an_extension(source, tmp_path):
    """Also if the linker has none of Debian's options: other versions of the calls may be in the same process."""
    assert install(source, tmp_path / "installed", LDSHARED="gcc -shared", CFLAGS="-O0").returncode == 0
    extensions = [*(tmp_path / "installed/sketch_hash").rglob("*.so")]
    assert extensions
    for extension in extensions:
        names = subprocess.check_output(["nm", "-D", "--defined-only", "--format=just-symbols", extension], text=True)
        assert names.split() == [f"PyInit_{extension.name.partition('.')[0]}"]


def test_a_wrong_copy_of_the_library_answers_no_call(source, wrong_copy, tmp_path):
    """Found before the package's own when it is built, and as a shared library that is loaded first."""
    shutil.copy(wrong_copy / "libwrong.so", tmp_path / "libsketch_hash.so")
    (tmp_path / "sketch_hash.h").write_text("#error another header")
    flags = {"CFLAGS": f"-O0 -I{tmp_path}", "LDFLAGS": f"-L{tmp_path}"}
    done = install(source, tmp_path / "installed", **flags)
    assert done.returncode == 0, done.stdout
    code = """if True:
        from sketch_hash import column, xxh64, xxh64_each, xxh64_hexdigest
        print(xxh64_hexdigest(b"fox"), xxh64(b"fox").hexdigest(), *xxh64_each(column(["fox"])))"""
    right = run([sys.executable, "-c", code]).stdout
    preload = {"PYTHONPATH": str(tmp_path / "installed"), "LD_PRELOAD": str(wrong_copy / "libwrong.so")}
    beside = run([sys.executable, "-c", code], **preload).stdout
    assert beside == right == "bce6c02d5136f238 bce6c02d5136f238 13611778224642519608\n"


@pytest.mark.parametrize("pretence, text", [
    ("sysconfig.get_config_vars()['Py_GIL_DISABLED'] = 1", "a free-threaded Python has no GIL"),
    ("sys.byteorder = 'big'", "needs a little-endian processor"),
    ("sys.implementation.name = 'pypy'", "needs CPython, .* this is pypy"),
], ids=["free-threaded", "big-endian", "pypy"])
def test_a_python_that_would_be_wrong_is_an_error(pretence, text, source):
    """There is none here, so this Python pretends to be one."""
    setup = f"import runpy, sys, sysconfig; {pretence}; runpy.run_path('setup.py')"
    done = run([sys.executable, "-c", setup], cwd=source)
    assert done.returncode == 1 and re.search(text, done.stdout)


def test_stubs_fit_the_module(need, tmp_path):
    """Each name, argument and default of the stubs is that of the module, by mypy's own comparison."""
    need("python:mypy", "python:sketch_hash")
    import sketch_hash
    # Programs and private modules have no stubs, nor has pyarrow.
    modules = (HERE.parent / "src/sketch_hash/parquet").glob("*.py")
    private = ",".join(f"sketch_hash.parquet.{path.stem}" for path in modules if not path.with_suffix(".pyi").exists())
    settings = f"[mypy]\nignore_missing_imports = True\n[mypy-{private}]\nignore_errors = True\n"
    (tmp_path / "mypy.ini").write_text(settings)
    folder = str(pathlib.Path(sketch_hash.__file__).parents[1])
    # From Python 3.14 on, __new__ takes any arguments, but seems to have those of __init__.
    (tmp_path / "allowed").write_text(r"sketch_hash\.\w+\.__new__")
    stubtest = [sys.executable, "-m", "mypy.stubtest", "sketch_hash", "--mypy-config-file", tmp_path / "mypy.ini"]
    stubtest += ["--allowlist", tmp_path / "allowed", "--ignore-unused-allowlist"]
    # @disjoint_base in a stub is an error for type checkers that are older than it.
    if "--ignore-disjoint-bases" in run([*stubtest, "--help"]).stdout:
        stubtest.append("--ignore-disjoint-bases")
    done = run(stubtest, MYPYPATH=folder, PYTHONPATH=folder)
    assert done.returncode == 0 and "Success: no issues found" in done.stdout, done.stdout


def test_file_digest_takes_a_class_in_the_way_of_the_page(need, tmp_path):
    """For mypy's strict checks. Newer ones take the class itself."""
    need("python:mypy", "python:sketch_hash")
    import sketch_hash
    (line,) = re.findall(r"`(digest: .*)`", (HERE.parent / "README.md").read_text())
    (tmp_path / "program.py").write_text(f"from collections.abc import Callable\nfrom typing import Any\nimport hashlib\n"
                                         f"import sketch_hash\n{line}\nwith open('a', 'rb') as file:\n"
                                         "    print(hashlib.file_digest(file, digest).hexdigest())\n")
    command = [sys.executable, "-m", "mypy", "--strict", "--python-version", "3.11", "--cache-dir", tmp_path / "cache"]
    done = run([*command, tmp_path / "program.py"], MYPYPATH=str(pathlib.Path(sketch_hash.__file__).parents[1]))
    assert done.returncode == 0, done.stdout


def test_sanitizers_find_nothing_in_the_glue(source, tmp_path):
    """The short tests again, with AddressSanitizer and UndefinedBehaviorSanitizer in the glue."""
    installed = tmp_path / "installed"
    flags = "-fsanitize=address,undefined -fno-sanitize-recover=all -fno-omit-frame-pointer -g"
    assert install(source, installed, CFLAGS=flags, LDFLAGS=flags).returncode == 0
    asan = subprocess.check_output(["gcc", "-print-file-name=libasan.so"], text=True).strip()
    tests = [HERE / f"test_{name}.py" for name in (
        "arrow", "bloom", "columns", "hashes", "parquet", "parquet_written", "sharing")]
    options = ["-q", "-x", "-p", "no:cacheprovider", "-p", "no:xdist", "-k", "not longer_than_4"]
    done = run([sys.executable, "-m", "pytest", *options, *tests], PYTHONPATH=str(installed), LD_PRELOAD=asan,
               ASAN_OPTIONS="detect_leaks=0:allocator_may_return_null=1", PYTHONMALLOC="malloc")
    assert done.returncode == 0 and re.search(r"^\d+ passed", done.stdout, re.M), done.stdout[-5000:]


def test_objects_free_their_memory():
    """An object that leaks in each round would take more than a million bytes."""
    code = """if True:
        import array, pickle, resource
        from sketch_hash import BloomFilter, murmur3_x64_128, xxh64, xxh64_each
        column = b"foxdog", array.array("I", [0, 3, 6])
        def turn():
            bloom = BloomFilter(1024)
            bloom.add_each(column); bloom.contains_each(column); bloom |= bloom.copy()
            memoryview(bloom).tobytes(); bloom.copy().fold(0.5)
            BloomFilter.from_parquet(bloom.to_parquet()); xxh64_each(column); xxh64(b"fox").copy().hexdigest()
            bloom.add_hashes(xxh64_each(column)); pickle.loads(pickle.dumps([bloom, murmur3_x64_128(b"fox")]))
            for wrong in (5, memoryview(b"foxdog").cast("H")):
                try: bloom.add(wrong)
                except TypeError: pass
        for _ in range(2000): turn()
        before = resource.getrusage(resource.RUSAGE_SELF).ru_maxrss
        for _ in range(20000): turn()
        print(resource.getrusage(resource.RUSAGE_SELF).ru_maxrss - before)"""
    assert int(run([sys.executable, "-c", code]).stdout) < 1000  # KiB
