"""The programs for clusters, with four workers of which one is killed meanwhile."""
import os
import re
import signal
import subprocess
import sys
import time

import pytest
from conftest import ROOT

numpy = pytest.importorskip("numpy")


@pytest.fixture
def run(need, tmp_path):
    """Runs a program, and kills a worker once another has a result of it."""
    need("python:distributed")
    import sketch_hash
    from distributed import Client, LocalCluster
    package = os.path.dirname(os.path.dirname(sketch_hash.__file__))

    def run(name, *args, status=0):
        has_results = lambda dask_scheduler: any(task.state == "memory" for task in dask_scheduler.tasks.values())
        with LocalCluster(n_workers=4, threads_per_worker=1, dashboard_address=None) as cluster, Client(cluster) as client:
            command = [sys.executable, ROOT / "bindings/python/examples" / name, cluster.scheduler_address, *args]
            program = subprocess.Popen(command, cwd=tmp_path, env={**os.environ, "PYTHONPATH": package},
                                       stdout=subprocess.PIPE, stderr=subprocess.PIPE, text=True)
            while program.poll() is None and not client.run_on_scheduler(has_results):
                time.sleep(0.01)
            os.kill([*client.run(os.getpid).values()][-1], signal.SIGKILL)
            output, errors = program.communicate(timeout=200)
        assert program.returncode == status, errors
        return errors if status else output

    return run


def test_each_file_of_a_data_set_gets_its_filters(run, pa, tmp_path):
    from sketch_hash.parquet import check_filters
    for i in range(12):
        path = tmp_path / f"data/day={i}/part.parquet"
        path.parent.mkdir(parents=True)
        pa.parquet.write_table(pa.table({"id": [f"{i}-{n}" for n in range(20_000)]}), path)
    lines = run("add_on_cluster.py", tmp_path / "data", "id").splitlines()
    assert len(lines) == 12
    assert [check_filters(path) for path in (tmp_path / "data").rglob("*.parquet")] == [1] * 12


def test_files_and_not_folders_get_filters_and_a_bad_one_stops_no_other(run, pa, tmp_path):
    from sketch_hash.parquet import filters
    for name in ("orders.parquet/part.0.parquet", "orders.parquet/_tmp/1.parquet", ".c.parquet", "d.parquet"):
        (tmp_path / "data" / name).parent.mkdir(parents=True, exist_ok=True)
        pa.parquet.write_table(pa.table({"id": range(100)}), tmp_path / "data" / name)
    (tmp_path / "data/bad.parquet").write_bytes(b"junk")
    errors = run("add_on_cluster.py", tmp_path / "data", "id", status=1)
    assert f"{tmp_path}/data/bad.parquet: the file must be a Parquet file: its end is damaged\n" in errors
    (tmp_path / "data/bad.parquet").unlink()
    found = [path for path in (tmp_path / "data").rglob("*.parquet") if path.is_file() and filters(path)]
    assert {path.name for path in found} == {"part.0.parquet", "d.parquet"}
    assert f"no file below {tmp_path}/none ends in .parquet\n" in run("add_on_cluster.py", tmp_path / "none", "id", status=3)


def save(folder, *parts):
    folder.mkdir()
    for i, keys in enumerate(parts):
        numpy.save(folder / f"{i}.npy", keys)


@pytest.mark.parametrize("small, large, text", [
    ("i4", "i8", "and not <i4, <i8"), ("u8", "i8", "and not <i8, <u8"), ("f8", "f8", "and not float64 of 1 dimensions"),
    (">i8", ">i8", "and not >i8"),
])
def test_keys_of_two_types_are_not_joined(small, large, text, run, tmp_path):
    save(tmp_path / "small", numpy.arange(1000, dtype=small))
    save(tmp_path / "large", numpy.arange(1000, dtype=large))
    errors = run("join_on_cluster.py", "small", "large", status=1)
    assert f"all keys must be of one type, int32, uint32, int64 or uint64, {text}\n" in errors
    assert not (tmp_path / "joined.npy").exists()


@pytest.mark.parametrize("small, joined", [([[], [3, 5]], [5]), ([[], []], []), ([[3]], [])], ids=["part", "keys", "match"])
def test_a_part_may_be_empty_and_nothing_may_match(small, joined, run, tmp_path):
    save(tmp_path / "small", *(numpy.array(keys, "i4") for keys in small))
    save(tmp_path / "large", numpy.array([5, 6], "i4"), numpy.array([], "i4"))
    assert f"and {len(joined)} match" in run("join_on_cluster.py", "small", "large")
    assert numpy.load(tmp_path / "joined.npy").tolist() == joined


def test_a_join_sends_only_rows_that_can_match(run, tmp_path):
    numbers = numpy.arange(4_000_000, dtype="u8") * numpy.uint64(0x9E3779B97F4A7C15)  # all different
    tables = {"small": numbers[:160_000].reshape(8, -1), "large": numbers[-3_200_000:].reshape(16, -1).copy()}
    tables["large"][:, :100] = tables["small"][:, :200].reshape(16, 100)
    for name, parts in tables.items():
        save(tmp_path / name, *parts)
    output = run("join_on_cluster.py", "small", "large")
    plain = tables["large"][numpy.isin(tables["large"], tables["small"])]
    assert sorted(numpy.load(tmp_path / "joined.npy")) == sorted(plain) and len(plain) == 1600
    travelled = int(re.fullmatch(r"(\d+) of 3200000 rows travelled, and 1600 match\n", output)[1])
    assert re.search(rf"{travelled:,}\s+of 3,200,000 rows travel", (ROOT / "docs/cluster.md").read_text())
    assert "there are no .npy files in none\n" in run("join_on_cluster.py", "small", "none", status=1)
