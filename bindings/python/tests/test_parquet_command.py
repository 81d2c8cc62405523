"""The command that adds, shows and asks filters of Parquet files."""
import json
import os
import re
import shutil
import signal
import subprocess
import sys
import time

import pytest
import sketch_hash
from parquet_files import DATA, FILTERS, ODD, VALUES, clear_filter, run, until
from sketch_hash import parquet
from sketch_hash.parquet.footer import BYTE_ARRAY
from sketch_hash.parquet.keys import keys_of, parse

pytest.importorskip("numpy")


def test_nanoseconds_of_a_command_line_count():
    """Python's fromisoformat drops them."""
    columns = {leaf.name: leaf for leaf in parquet.open(FILTERS).footer.columns()}
    keys = lambda name, text: keys_of(parse(text, columns[name]), columns[name])
    whole = keys("ns", "2026-01-01 01:01:01.000003")
    for digits, more in (("007", 7), ("07", 70), ("999", 999), ("000", 0)):
        assert keys("ns", f"2026-01-01 01:01:01.000003{digits}") == [
            (int.from_bytes(whole[0], "little") + more).to_bytes(8, "little")]
    assert keys("us_utc", "2026-01-01T01:01:01.000003000") == keys("us_utc", "2026-01-01T01:01:01.000003000Z") != []
    assert keys("us_utc", "2026-01-01T01:01:01.0000031") == keys("time_us", "01:02:03.000003001") == []
    pytest.raises(ValueError, keys, "ns", "2026-01-01 01:01:01.0000030070").match("cannot have")


def start_long_run(tmp_path, **options):
    """A run of several processes on files that each take a minute to copy. Returns it and the names of the files."""
    (tmp_path / "code").mkdir()
    (tmp_path / "code/sitecustomize.py").write_text("""import time
from sketch_hash.parquet import files, writer
writer.stored_values, files.Source.pieces = lambda *_: (), lambda *_: time.sleep(60)""")
    (tmp_path / "files").mkdir()
    names = [f"{i}.parquet" for i in range(6)]
    for name in names:
        shutil.copy(ODD, tmp_path / "files" / name)
    command = [sys.executable, "-m", "sketch_hash.parquet", "add", "-c", "plain", "--jobs", "2", tmp_path / "files"]
    path = os.pathsep.join([str(tmp_path / "code"), *sys.path])
    in_a_terminal = lambda: signal.signal(signal.SIGINT, signal.SIG_DFL)  # in a shell's background Ctrl-C is ignored
    return subprocess.Popen(command, env={**os.environ, "PYTHONPATH": path}, start_new_session=True,
                            preexec_fn=in_a_terminal, **options), names


@pytest.mark.parametrize("send, number, status", [
    (os.kill, signal.SIGTERM, 143), (os.killpg, signal.SIGTERM, 143), (os.killpg, signal.SIGINT, 130),
    (os.kill, signal.SIGKILL, -9),
])
def test_a_stopped_run_of_several_processes_leaves_all_files(send, number, status, tmp_path):
    """Those in work and those that wait, and no new one."""
    process, names = start_long_run(tmp_path)
    until(lambda: len(os.listdir(tmp_path / "files")) == len(names) + 2)
    send(process.pid, number)
    assert process.wait(30) == status
    until(lambda: sorted(os.listdir(tmp_path / "files")) == names)
    assert all((tmp_path / "files" / name).read_bytes() == ODD.read_bytes() for name in names)


@pytest.mark.parametrize("args, status, text", [
    (["add", "-c", "bool", ODD], 1, "odd.parquet: the column bool must not be BOOLEAN"),
    (["check", DATA / "none"], 1, "none: .*No such file"), ([], 2, "usage"),
    (["add", "-c", "x", "-o", "y", ODD, ODD], 2, "--output must come with one FILE"),
    (["add", "-c", "x", "-e", "2", ODD], 2, "error_rate must be above 0 and below 1"),
    (["add", "-c", "x", "-m", "5", ODD], 2, "max_bytes must be at least 32, not 5"),
], ids=range(6))
def test_the_command_reports_errors(args, status, text):
    done = run(*args)
    assert done.returncode == status and done.stdout == ""
    assert re.search(text, done.stderr)


def test_a_command_line_has_the_values_of_each_type():
    texts = {"time_ms": "01:02:00.003", "ms": "2026-01-01 01:01:00", "us_utc": "2026-01-01T01:01:01", "fixed": b"0000".hex()}
    for leaf in parquet.open(FILTERS).footer.columns():
        if leaf.name != "binary":
            value = VALUES[leaf.name](0)
            assert keys_of(parse(texts.get(leaf.name, str(value)), leaf), leaf) == keys_of(value, leaf)
            if leaf.kind.type != BYTE_ARRAY:
                pytest.raises(ValueError, parse, "dog", leaf).match("cannot have 'dog'$")


def test_the_command_shows_and_asks():
    assert run("--version").stdout == f"sketch_hash {sketch_hash.__version__}\n"
    done = run("show", FILTERS)
    rows = [line.split("\t") for line in done.stdout.splitlines()]
    assert {(int(group), name): int(num_bytes) for _, group, name, num_bytes, _ in rows} == parquet.filters(FILTERS)
    assert done.returncode == 0 and all(float(rate) < 0.01 for *_, rate in rows)
    found, absent, wrong = (run("ask", FILTERS, "int32", text) for text in ("8000", "5", "fox"))
    assert found.stdout == f"{FILTERS}: 1 of 3 row groups: 1\n" and absent.stdout == ""
    assert (found.returncode, absent.returncode, wrong.returncode) == (0, 3, 1)
    assert "the column int32 cannot have 'fox'" in wrong.stderr
    assert run("ask", FILTERS, "int32", "8_000").returncode == run("ask", FILTERS, "decimal9", "0_1").returncode == 1
    assert run("ask", ODD, "plain", "dog").stdout == f"{ODD}: 3 of 3 row groups, 3 without a filter: 0 1 2\n"


def test_the_command_takes_folders_and_its_status_tells_what_is_wrong(tmp_path):
    for name in ("a.parquet", "year=2026/b.parquet", "_x/c.parquet", ".d.parquet", "e.txt"):
        (tmp_path / name).parent.mkdir(exist_ok=True)
        shutil.copy(ODD, tmp_path / name)
    done = run("check", tmp_path, "--jobs", 2)
    assert done.stdout == f"{tmp_path}/a.parquet: no filters to check\n{tmp_path}/year=2026/b.parquet: no filters to check\n"
    assert done.returncode == 3 and done.stderr == ""
    (tmp_path / "a.parquet").write_bytes(b"junk")
    done = run("show", tmp_path, tmp_path / "none")
    assert done.returncode == 1 and len(done.stderr.splitlines()) == 2 and done.stdout.endswith("b.parquet: no filters\n")
    (tmp_path / "empty").mkdir()
    done = run("add", "-c", "plain", tmp_path / "empty")
    assert done.returncode == 3 and "no file ends in .parquet" in done.stderr


def test_a_link_and_its_target_are_one_file(tmp_path):
    file = shutil.copy(FILTERS, tmp_path / "b.parquet")
    for name in ("a.parquet", "c.parquet"):
        (tmp_path / name).symlink_to(file)
    for names in ([tmp_path], [tmp_path / "a.parquet", file], [file, tmp_path]):
        assert run("show", "--json", *names).stdout.count('"file"') == 1
    assert run("remove", tmp_path).stdout == f"{tmp_path}/c.parquet: {3 * len(VALUES)} filters removed\n"
    shutil.copy(FILTERS, file)
    assert parquet.remove_filters(tmp_path, tmp_path) == 3 * len(VALUES)
    assert parquet.remove_filters(tmp_path, tmp_path / "new") == 0  # of three files
    assert {*os.listdir(tmp_path / "new")} == {"a.parquet", "b.parquet", "c.parquet"}


def test_the_command_adds_and_checks(pa, tmp_path):
    file = str(shutil.copy(ODD, tmp_path / "a"))
    assert run("add", "-c", "plain", "-c", "b", "-e", "0.1", file).stdout == f"{file}: 282 bytes of filters\n"
    assert run("check", file).stdout == f"{file}: 6 filters have all values\n"
    assert run("add", "-c", "plain", "--skip-existing", "--jobs", 2, tmp_path / "a").stdout == f"{file}: nothing to add\n"
    assert run("add", "-c", "plain", "-m", "64", "--replace", file).stdout == f"{file}: 141 bytes of filters\n"
    clear_filter(file)
    done = run("check", file, str(FILTERS))
    assert done.returncode == 4 and done.stdout == f"{FILTERS}: {3 * len(VALUES)} filters have all values\n"
    assert f"{file}: the filter of b in row group 1 lacks a value" in done.stderr


def test_the_command_prints_json_or_nothing(copy, tmp_path):
    rows = [json.loads(line) for line in run("show", FILTERS, ODD, "--json").stdout.splitlines()]
    assert [row["status"] for row in rows] == [0, 3] and rows[1]["filters"] == []
    assert {(row["row_group"], row["column"]): row["bytes"] for row in rows[0]["filters"]} == parquet.filters(FILTERS)
    done = run("ask", tmp_path / "none", FILTERS, "int32", "8000", "--json")
    error, row = map(json.loads, done.stdout.splitlines())
    assert error["status"] == done.returncode == 1 and "No such file" in error["error"]
    assert row == {"file": str(FILTERS), "status": 0, "row_groups": [1], "num_row_groups": 3, "without_filter": 0}
    done = run("show", FILTERS, "--quiet")
    assert (done.returncode, done.stdout, done.stderr) == (0, "", "")


def test_the_command_removes(tmp_path):
    file = shutil.copy(FILTERS, tmp_path / "a.parquet")
    assert run("remove", "-c", "int8", "-c", "string", tmp_path).stdout == f"{file}: 6 filters removed\n"
    assert run("remove", file, "-o", tmp_path / "b.parquet").stdout == f"{file}: {3 * len(VALUES) - 6} filters removed\n"
    assert parquet.filters(tmp_path / "b.parquet") == {}
    assert run("remove", file, "-o", "-").returncode == 2


@pytest.mark.parametrize("outputs, status", [(">&-", 0), ("2>&-", 0), (">&- 2>&- <&-", 0), (">/dev/full", 1)])
def test_closed_or_full_outputs_stop_no_file(outputs, status, tmp_path):
    for name in ("a.parquet", "b.parquet"):
        shutil.copy(FILTERS, tmp_path / name)
    command = f"{sys.executable} -m sketch_hash.parquet remove {tmp_path} {outputs}"
    assert subprocess.run(["sh", "-c", command], stderr=subprocess.DEVNULL).returncode == status
    assert parquet.filters(tmp_path / "a.parquet") == parquet.filters(tmp_path / "b.parquet") == {}


def test_a_name_does_not_end_a_line(tmp_path):
    shutil.copy(ODD, tmp_path / "a\n\x1b[1m\u00e9.parquet")
    assert run("check", tmp_path).stdout == f"{tmp_path}/a\\n\\x1b[1m\u00e9.parquet: no filters to check\n"


@pytest.mark.parametrize("jobs", [10**20, 3])
def test_as_many_processes_work_as_there_are_files_at_most(jobs, tmp_path):
    for name in ("a.parquet", "b.parquet", "c.parquet"):
        shutil.copy(FILTERS, tmp_path / name)
    done = run("show", tmp_path, "--jobs", jobs)
    assert done.returncode == 0 and len(done.stdout.splitlines()) == 9 * len(VALUES)


@pytest.mark.parametrize("seconds", [0.2, 0.3, 0.4, 0.5, 0.6, 0.8])
def test_a_run_that_is_stopped_at_any_moment_ends_and_leaves_no_file(seconds, tmp_path):
    process, names = start_long_run(tmp_path, stderr=subprocess.DEVNULL)
    time.sleep(seconds)
    os.killpg(process.pid, signal.SIGINT)
    process.wait(5)
    until(lambda: sorted(os.listdir(tmp_path / "files")) == names)
