"""What pytest does for the tests of the Python package: fixtures, and tests that fail or are skipped if it is not built."""
import pathlib
import shutil
import sys
import threading
import time

import pytest
from conftest import IS_CI, ROOT, is_there

TESTS = ROOT / "bindings/python/tests"
BUILD_TOOLS = "gcc", "Python.h", "python:Cython", "python:pip", "python:setuptools", "python:wheel"
BUILD_LOG = ROOT / "out/python.log"  # which .ci/test leaves if the package cannot be built


@pytest.fixture
def pa(need):
    need("python:pyarrow")
    import pyarrow.compute
    import pyarrow.parquet
    return pyarrow


@pytest.fixture
def copy(tmp_path, monkeypatch):
    """A copy of a file without filters. Values of its columns are not read: they are texts."""
    from parquet_files import ODD, texts
    from sketch_hash.parquet import writer
    monkeypatch.setattr(writer, "stored_values", texts)
    return pathlib.Path(shutil.copy(ODD, tmp_path / "a.parquet"))


@pytest.fixture
def ticks():
    """A list that another thread appends to whenever the GIL is released."""
    ticks, is_over, interval = [], threading.Event(), sys.getswitchinterval()

    def tick():
        while not is_over.wait(0.001):
            ticks.append(1)

    sys.setswitchinterval(1000)
    worker = threading.Thread(target=tick)
    worker.start()
    while not ticks:
        time.sleep(0.001)
    yield ticks
    sys.setswitchinterval(interval)
    is_over.set()
    worker.join()


class NotBuilt(pytest.Module):
    """A file of tests of the package, which is not built. The tests are skipped if something to build it with is missing.
    Else, or if CI is set, they fail with pip's output. A fixture would come too late for their imports."""

    def collect(self):
        name, missing = self.path.relative_to(ROOT), [tool for tool in BUILD_TOOLS if not is_there(tool)]
        if missing and not IS_CI:
            pytest.skip(f"{name} needs {', '.join(missing)}", allow_module_level=True)
        output = BUILD_LOG.read_text() if BUILD_LOG.exists() else "bash .ci/test builds it"
        raise self.CollectError(f"{name} needs the Python package, which is not built:\n{output}")


def pytest_pycollect_makemodule(module_path, parent):
    if module_path.parent == TESTS and (BUILD_LOG.exists() or not is_there("python:sketch_hash")):
        return NotBuilt.from_parent(parent, path=module_path)
