"""Filters that are added to Parquet files. The values come from here, and not from pyarrow."""
import contextlib
import fcntl
import os
import re
import shutil
import signal
import socket
import stat
import subprocess
import sys
import warnings

import pytest
from faulty_store import Calls, does_nothing, error_of, fails, fails_when_done, is_interrupted, is_interrupted_when_done
from parquet_files import FILTERS, ODD, VALUES, TType, changed, chunk_of, element_of, metadata_of, set_path, split, texts
from sketch_hash import column, parquet
from sketch_hash.parquet import writer
from sketch_hash.parquet.files import Source
from sketch_hash.parquet.footer import LENGTH, OFFSET, VALUES as VALUE_COUNT
from sketch_hash.parquet.pyarrow_values import stored_values

pytest.importorskip("numpy")
DECIMAL = 5  # of ConvertedType, and of LogicalType


def meanwhile(monkeypatch, act):
    """Runs act() when values are to be read."""
    monkeypatch.setattr(writer, "stored_values", lambda *args: [act(), texts(*args)][1])


def test_all_but_the_places_of_the_filters_stays_as_it_is(copy, tmp_path):
    target = tmp_path / "b.parquet"
    assert parquet.add_filters(copy, target, ["plain", "b"]) == sum(parquet.filters(target).values()) + 15 * 6
    assert copy.read_bytes() == ODD.read_bytes()
    (before, old), (after, new) = split(ODD), split(target)
    assert after[: len(before)] == before
    for index, leaf in enumerate(parquet.open(target).footer.columns()):
        for group in range(3):
            metadata, has_filter = metadata_of(new, group, index), leaf.name in ("plain", "b")
            assert (metadata.pop(OFFSET, None) is not None) == (metadata.pop(LENGTH, None) is not None) == has_filter
    assert new == old
    assert [parquet.may_contain(target, "plain", f"fox {i}") for i in (3, 9, 20)] == [[0], [1], [2]]


def test_progress_is_drawn_as_tqdm_does(copy):
    drawn = []
    parquet.add_filters(copy, copy, ["plain", "b"], progress=lambda steps, total: (drawn.append(total) for _ in steps))
    assert drawn == [6] * 6


@pytest.mark.parametrize("progress", [
    lambda steps, total: [step for step in steps for _ in "ab"], lambda steps, total: [], lambda steps, total: reversed(steps),
], ids=["each twice", "none", "in another order"])
def test_a_bar_that_lies_changes_no_file(progress, copy, tmp_path):
    parquet.add_filters(copy, tmp_path / "a", ["plain", "b"])
    parquet.add_filters(copy, tmp_path / "b", ["plain", "b"], progress=progress)
    assert (tmp_path / "a").read_bytes() == (tmp_path / "b").read_bytes()


@pytest.mark.parametrize("name, text", [
    ("list.list.element", "lists and maps"), ("decimal30", "decimals in FIXED_LEN_BYTE_ARRAY"),
    ("time_us", "times with a time zone"), ("string", None), ("struct.x", None), ("time_ms", None),
])
def test_filters_that_duckdb_does_not_use_are_noted(name, text, copy, tmp_path):
    file = tmp_path / "a.parquet"
    with_zone = lambda fields: element_of(fields, b"time_us")[10][1][7][1].update({1: (TType.BOOL, True)})
    file.write_bytes(changed(FILTERS, with_zone).read())
    with warnings.catch_warnings(record=True) as notes:
        warnings.simplefilter("always")
        parquet.add_filters(file, file, [name], replace=True)
    expected = [f"the filters of {name} help little: DuckDB 2.0 uses none of {text}"] if text else []
    assert [str(note.message) for note in notes] == expected


def test_filters_that_cannot_be_checked_are_named(tmp_path):
    (tmp_path / "a").write_bytes(changed(FILTERS, annotate(converted=integer(21))).read())
    parquet.remove_filters(tmp_path / "a", tmp_path / "a", {*VALUES} - {"decimal30"})
    with pytest.warns(UserWarning, match="^the filters of decimal30 are not checked: it is INTERVAL: DuckDB 2.0 loses rows"):
        assert parquet.check_filters(tmp_path / "a") == 0


def test_a_filter_is_as_small_as_its_error_rate_allows(copy, tmp_path):
    sizes = []
    for rate in (0.5, 0.01, 1e-6):
        parquet.add_filters(copy, tmp_path / "b.parquet", ["plain"], error_rate=rate)
        sizes.append(parquet.filters(tmp_path / "b.parquet")[0, "plain"])
    assert sizes == sorted(sizes) and sizes[0] == 32 < sizes[2]
    with pytest.raises(TypeError):
        parquet.add_filters(copy, tmp_path / "c", ["plain"], max_bytes=33.5)


def test_a_file_is_replaced_with_its_mode_and_behind_its_link(copy, tmp_path):
    copy.chmod(0o640)
    (tmp_path / "link").symlink_to(copy)
    parquet.add_filters(tmp_path / "link", tmp_path / "link", ["plain"])
    assert (tmp_path / "link").is_symlink() and stat.S_IMODE(copy.stat().st_mode) == 0o640
    assert set(os.listdir(tmp_path)) == {"a.parquet", "link"} and len(parquet.filters(copy)) == 3
    with pytest.raises(ValueError, match="^the column plain has filters: replace them by replace=True"):
        parquet.add_filters(copy, copy, ["plain"])
    parquet.add_filters(copy, copy, ["b"])
    parquet.add_filters(copy, copy, ["plain"], replace=True)
    assert len(parquet.filters(copy)) == 6


def test_a_file_does_not_grow_with_each_night(copy):
    parquet.add_filters(copy, copy, ["plain", "b"])
    after, filters = copy.read_bytes(), parquet.filters(copy)
    for names in (["b"], ["plain"], ["plain", "b"], ["b"]):
        parquet.add_filters(copy, copy, names, replace=True)
        assert len(copy.read_bytes()) == len(after) and parquet.filters(copy) == filters
        assert all(i // 8 in parquet.may_contain(copy, name, f"fox {i}") for i in range(24) for name in ("plain", "b"))
    parquet.add_filters(copy, copy, ["plain", "b"], replace=True)
    assert copy.read_bytes() == after  # of the first night


@pytest.mark.parametrize("change", [
    lambda fields: metadata_of(fields, 2, 0).update({9: (TType.I64, 10**6)}),
    lambda fields: metadata_of(fields, 2, 0).update({key: metadata_of(fields, 2, 5)[key] for key in (OFFSET, LENGTH)}),
    lambda fields: metadata_of(fields, 1, 0).update({OFFSET: (TType.I64, -1)}),
    lambda fields: set_path(fields, 2, 0), lambda fields: chunk_of(fields, 2, 0).update(
        {4: (TType.I64, 10**6), 5: (TType.I32, 100)}),
], ids=["pages", "filter of two columns", "damaged filter", "other file", "index"])
def test_bytes_that_the_footer_needs_are_not_cut_off(change, copy):
    """The columns plain and b are the sixth and seventh."""
    parquet.add_filters(copy, copy, ["plain", "b"])
    copy.write_bytes(changed(copy, change).read())
    before = copy.read_bytes()[:parquet.open(copy).footer.start]
    parquet.add_filters(copy, copy, ["plain", "b"], replace=True, error_rate=1e-6)
    assert copy.read_bytes().startswith(before) and parquet.may_contain(copy, "b", "fox 9") == [1]


def test_filters_that_are_there_are_skipped(copy):
    parquet.add_filters(copy, copy, ["plain"])
    status = copy.stat()
    assert parquet.add_filters(copy, copy, ["plain"], skip_existing=True) == 0 and copy.stat() == status
    copy.write_bytes(changed(copy, lambda fields: [metadata_of(fields, 1, 5).pop(field) for field in (OFFSET, LENGTH)]).read())
    parquet.add_filters(copy, copy, ["plain", "b"], skip_existing=True)
    assert len(parquet.filters(copy)) == 6 and parquet.may_contain(copy, "plain", "fox 9") == [1]
    with pytest.raises(ValueError, match="replaced or skipped, not both"):
        parquet.add_filters(copy, copy, ["plain"], skip_existing=True, replace=True)


@pytest.mark.parametrize("mark", ["_delta_log/0.json", "data/_delta_log/0.json", "metadata/v1.metadata.json"])
def test_a_file_of_a_table_is_not_changed_in_place(mark, copy, tmp_path):
    for folder in ((tmp_path / "data"), (tmp_path / mark).parent):
        folder.mkdir(exist_ok=True)
    (tmp_path / mark).touch()
    table = copy.rename(tmp_path / "data/a.parquet")
    with pytest.raises(ValueError, match="^the file to replace must not be of a table, as that of Delta Lake or Iceberg in"):
        parquet.add_filters(table, table, ["plain"])
    assert table.read_bytes() == ODD.read_bytes() and parquet.add_filters(table, tmp_path / "data/b.parquet", ["plain"]) > 0


def test_a_filter_is_no_larger_than_it_may_be(copy, tmp_path, monkeypatch):
    count = {VALUE_COUNT: (TType.I64, 2**40)}
    copy.write_bytes(changed(ODD, lambda fields: [metadata_of(fields, group, 5).update(count) for group in range(3)]).read())
    assert parquet.add_filters(copy, tmp_path / "b", ["plain"]) < 1000  # the values are few
    with pytest.warns(UserWarning, match="^the filters of plain help little: max_bytes is too small for them$"):
        monkeypatch.setattr(writer, "stored_values", lambda *_: ((i, [column(map(str, range(999)))]) for i in range(3)))
        parquet.add_filters(copy, tmp_path / "b", ["plain"], max_bytes=255)
    assert set(parquet.filters(tmp_path / "b").values()) == {128}
    monkeypatch.setattr(writer, "MOST_BYTES", 64)
    with pytest.raises(ValueError, match="^the column plain has too many values in row group 0 for a filter of 128 MiB"):
        parquet.add_filters(copy, tmp_path / "c", ["plain"])
    with pytest.raises(ValueError, match="^max_bytes must be at least 32, not 31$"):
        parquet.add_filters(copy, tmp_path / "c", ["plain"], max_bytes=31)


@pytest.mark.parametrize("names, change, text", [
    (["plain"], lambda fields: fields.update({8: (TType.STRUCT, {1: (TType.STRUCT, {})})}),
     "the footer must not be signed: each change"),
    (["plain"], lambda fields: chunk_of(fields, 1, 5).pop(3), "the column plain must not be encrypted"),
    (["plain"], lambda fields: set_path(fields, 1, 5), "the column plain must be in this file alone, not in those"),
    (["bool"], None, "must not be BOOLEAN"), (["half"], None, "must not be FLOAT16: DuckDB"),
    (["int96"], None, "must not be INT96"), (["x.y"], None, "the name of a column must be that of one alone"),
    (["none"], None, "the column must be one of"), ([], None, "one or more, each once"),
    (["plain", "plain"], None, "one or more, each once"), ("plain", None, "columns must be a list of names"),
    ({"plain": {"ndv": 9, "fpp": 0.2}}, None, "columns must be a list of names, .* nor a dict"),
], ids=range(12))
def test_what_cannot_have_filters_is_an_error_and_the_target_stays(names, change, text, copy, tmp_path):
    if change:
        copy.write_bytes(changed(ODD, change).read())
    before = copy.read_bytes()
    with pytest.raises((TypeError, ValueError), match=text):
        parquet.add_filters(copy, copy, names)
    assert copy.read_bytes() == before and os.listdir(tmp_path) == ["a.parquet"]


def annotate(**fields):
    """Changes fields of the element of the schema of the column decimal30, which has 16 bytes a value."""
    numbers = {"type": 1, "converted": 6, "precision": 8, "logical": 10}

    def change(footer):
        element = element_of(footer, b"decimal30")
        for number in (6, 8, 10):
            element.pop(number, None)
        element.update({numbers[name]: value for name, value in fields.items()})
    return change


def integer(value):
    return TType.I32, value


def logical(number, **fields):
    return TType.STRUCT, {number: (TType.STRUCT, {1: integer(2), 2: integer(fields.get("digits", 30))} if fields else {})}


@pytest.mark.parametrize("change, text", [
    (annotate(converted=integer(21)), "INTERVAL: DuckDB 2.0 loses rows"),
    (annotate(converted=integer(DECIMAL), precision=integer(39)), "a DECIMAL of more than 38 digits: DuckDB 2.0 reads"),
    (annotate(logical=logical(DECIMAL, digits=39)), "a DECIMAL of more than 38 digits"),
    (annotate(converted=integer(DECIMAL)), "a DECIMAL of more than 38 digits"),  # or of an unknown number
    (annotate(type=integer(6), converted=integer(DECIMAL), precision=integer(30)), "a DECIMAL in BYTE_ARRAY, which has"),
    (annotate(logical=logical(17)), "of the logical type 17, whose equal values"),
    (annotate(logical=logical(16)), "a part of a VARIANT"),
], ids=range(7))
def test_a_column_whose_equal_values_may_have_other_bytes_gets_no_filter(change, text, tmp_path):
    file = tmp_path / "a.parquet"
    file.write_bytes(changed(FILTERS, change).read())
    before = file.read_bytes()
    for options in ({"replace": True}, {"skip_existing": True}):
        with pytest.raises(ValueError, match=f"^the column decimal30 must not be {text}"):
            parquet.add_filters(file, file, ["decimal30"], **options)
    assert file.read_bytes() == before


def test_an_encrypted_footer_is_an_error(copy):
    copy.write_bytes(ODD.read_bytes()[:-4] + b"PARE")
    for call in (lambda: parquet.add_filters(copy, copy, ["plain"]), lambda: parquet.filters(copy)):
        with pytest.raises(ValueError, match="^the footer must not be encrypted$"):
            call()


def test_a_file_that_changes_meanwhile_is_an_error(copy, tmp_path, monkeypatch):
    meanwhile(monkeypatch, lambda: os.replace(shutil.copy(FILTERS, tmp_path / "b"), copy))
    with pytest.raises(ValueError, match="^the file must not change while it is read$"):
        parquet.add_filters(copy, copy, ["plain"])
    assert copy.read_bytes() == FILTERS.read_bytes() and os.listdir(tmp_path) == ["a.parquet"]


@pytest.mark.parametrize("old", [b"old", None])
def test_a_target_that_changes_meanwhile_is_not_overwritten(old, copy, tmp_path, monkeypatch):
    target = tmp_path / "b.parquet"
    if old:
        target.write_bytes(old)
    meanwhile(monkeypatch, lambda: target.write_bytes(b"other data"))
    with pytest.raises(ValueError, match="^the file to replace must not change while its successor is written$"):
        parquet.add_filters(copy, target, ["plain"])
    assert target.read_bytes() == b"other data" and set(os.listdir(tmp_path)) == {"a.parquet", "b.parquet"}


@pytest.mark.parametrize("flock, second, first, names", [
    (fcntl.flock, "the file is locked by another program, or another run is replacing it", "None", {"plain"}),
    (lambda *_: os.stat("/none"), "None", "the file must not change while it is read", {"b"}),
], ids=["the second", "the first without locks"])
def test_of_two_runs_on_one_file_one_fails(flock, second, first, names, copy, monkeypatch):
    def second_run():
        monkeypatch.setattr(writer, "stored_values", texts)
        errors.append(str(error_of(parquet.add_filters, copy, copy, ["b"])))

    errors = []
    meanwhile(monkeypatch, second_run)
    monkeypatch.setattr("fcntl.flock", flock)
    errors.append(str(error_of(parquet.add_filters, copy, copy, ["plain"])))
    assert errors == [second, first] and {name for _, name in parquet.filters(copy)} == names
    parquet.add_filters(copy, copy, ["b"], replace=True)


def test_what_others_put_in_place_of_the_new_file_is_not_touched(copy, tmp_path, monkeypatch):
    secret = tmp_path / "secret"
    secret.write_bytes(b"key")
    secret.chmod(0o600)

    def put_a_link(*args, pieces=Source.pieces):
        new, = tmp_path.glob(".sketch_hash-*")
        new.unlink()
        new.symlink_to(secret)
        return pieces(*args)

    monkeypatch.setattr(Source, "pieces", put_a_link)
    with pytest.raises(ValueError, match="^the new file must be as it was written, but is not$"):
        parquet.add_filters(copy, copy, ["plain"])
    assert secret.read_bytes() == b"key" and stat.S_IMODE(secret.stat().st_mode) == 0o600
    assert copy.read_bytes() == ODD.read_bytes() and not copy.is_symlink()


def test_an_error_names_the_folder_that_cannot_be_written_to(copy, tmp_path, monkeypatch):
    def open_but_create_nothing(path, flags, *args, open=os.open, **kwargs):
        if flags & (os.O_CREAT | os.O_TMPFILE) & ~os.O_DIRECTORY:
            raise PermissionError(13, "Permission denied", path)
        return open(path, flags, *args, **kwargs)

    monkeypatch.setattr(os, "open", open_but_create_nothing)
    with pytest.raises(PermissionError, match=re.escape(str(tmp_path))):
        parquet.add_filters(copy, copy, ["plain"])


@pytest.mark.parametrize("make", [os.mkdir, os.mkfifo, lambda path: socket.socket(socket.AF_UNIX).bind(str(path))],
                         ids=["folder", "FIFO", "socket"])
def test_only_a_regular_file_is_read_or_replaced(make, copy, tmp_path):
    special = tmp_path / "b"
    make(special)
    kind = stat.S_IFMT(special.stat().st_mode)
    with pytest.raises(ValueError, match="^the file to replace must be a regular file$"):
        parquet.add_filters(copy, special, ["plain"])
    for call in (lambda: parquet.add_filters(special, copy, ["plain"]), lambda: parquet.filters(special)):
        with contextlib.suppress(OSError, ValueError):
            assert call() == 0  # a folder of no files
    assert stat.S_IFMT(special.stat().st_mode) == kind and set(os.listdir(tmp_path)) == {"a.parquet", "b"}


def test_a_killed_run_leaves_the_target(copy, tmp_path):
    code = f"""import os, parquet_files; from sketch_hash import parquet; from sketch_hash.parquet import files, writer
writer.stored_values, files.Source.check_unchanged = parquet_files.texts, lambda *_: os.kill(os.getpid(), 9)
parquet.add_filters({str(copy)!r}, {str(copy)!r}, ["plain"])"""
    done = subprocess.run([sys.executable, "-c", code], env={**os.environ, "PYTHONPATH": os.pathsep.join(sys.path)})
    assert done.returncode == -signal.SIGKILL and copy.read_bytes() == ODD.read_bytes()
    assert sorted(name[:13] for name in os.listdir(tmp_path)) == [".sketch_hash-", "a.parquet"]


SYSTEM_CALLS = "fchmod", "fchown", "fstat", "fsync", "listdir", "open", "pread", "replace", "stat", "unlink"


@pytest.mark.parametrize("name", ["a.parquet", "b.parquet"])
@pytest.mark.parametrize("last", [0, 10**6], ids=["once", "from then on"])
@pytest.mark.parametrize("fault", [fails, fails_when_done, is_interrupted, is_interrupted_when_done, does_nothing])
def test_a_file_is_the_old_or_the_new_one_whatever_system_call_goes_wrong(fault, last, name, copy, tmp_path, monkeypatch):
    target = tmp_path / name
    parquet.add_filters(copy, target, ["plain"])
    new, seen, first, count = target.read_bytes(), set(), 0, 0
    while first <= count:
        first += 1
        target.unlink()
        copy.write_bytes(ODD.read_bytes())
        calls = Calls(fault, first, last)
        with monkeypatch.context() as patch:
            for call in SYSTEM_CALLS:
                patch.setattr(os, call, calls.counted(call, getattr(os, call)))
            error = error_of(parquet.add_filters, copy, target, ["plain"])
        count = len(calls.names)
        found = target.read_bytes() if target.exists() else None
        assert found in (new, ODD.read_bytes() if target == copy else None), calls.names
        seen.add((error is None, found == new))
        if error is None or not isinstance(error, KeyboardInterrupt) and "the file may be" not in str(error):
            assert (found == new) == (error is None), (calls.names, error)
        parquet.add_filters(copy, target, ["plain"], replace=True)
        assert {*os.listdir(tmp_path)} == {"a.parquet", name}
    assert (True, True) in seen and count > 20


def test_a_missing_pyarrow_is_named_and_the_target_stays(copy, tmp_path, monkeypatch):
    monkeypatch.setattr(writer, "stored_values", stored_values)
    monkeypatch.setitem(sys.modules, "pyarrow", None)
    with pytest.raises(ImportError, match="^this call needs pyarrow: pip install pyarrow$"):
        parquet.add_filters(copy, copy, ["plain"])
    assert copy.read_bytes() == ODD.read_bytes() and os.listdir(tmp_path) == ["a.parquet"]


def test_a_file_keeps_its_owner_mode_and_attributes(copy, tmp_path):
    os.chmod(copy, 0o2640)
    with contextlib.suppress(OSError):  # a file system may have no attributes
        os.setxattr(copy, "user.origin", b"fox")
    if os.geteuid() == 0:
        os.chown(copy, 1234, 2345)
        os.chmod(copy, 0o2640)
    before = copy.stat()
    attributes = {name: os.getxattr(copy, name) for name in os.listxattr(copy)}
    parquet.add_filters(copy, copy, ["plain"])
    after = copy.stat()
    assert (after.st_uid, after.st_gid, after.st_mode) == (before.st_uid, before.st_gid, before.st_mode)
    assert {name: os.getxattr(copy, name) for name in os.listxattr(copy)} == attributes and after.st_ino != before.st_ino


@pytest.mark.parametrize("prepare, text", [
    (lambda copy, patch: patch(os, "fchown", fails), "the new file lacks what this user may not set: owner, group"),
    (lambda copy, patch: copy.with_name(".a.parquet.crc").write_bytes(b"crc"),
     "Hadoop's checksum .a.parquet.crc is that of the old file: delete it"),
    (lambda copy, patch: patch(writer, "stored_values", lambda *_: ((i, [column(["x", "y"][:3 - i])]) for i in range(3))),
     "the filters of plain help little: all row groups have the same values"),
], ids=["owner", "checksum of Hadoop", "row groups that are alike"])
def test_what_is_lost_or_helps_little_is_noted(prepare, text, copy, monkeypatch):
    prepare(copy, monkeypatch.setattr)
    with pytest.warns(UserWarning, match=f"^{text}$"):
        parquet.add_filters(copy, copy, ["plain"])
    assert len(parquet.filters(copy)) == 3


def test_what_killed_runs_left_is_removed_by_the_next(copy, tmp_path):
    names = [f".sketch_hash-{i:016x}" for i in range(4)]
    for name in names[:2]:
        (tmp_path / name).write_bytes(b"left")
    (tmp_path / names[2]).mkdir()
    (tmp_path / ".sketch_hash-notes").write_bytes(b"of the user")
    with open(tmp_path / names[3], "wb") as alive:
        fcntl.flock(alive, fcntl.LOCK_EX)
        parquet.add_filters(copy, copy, ["plain"])
    assert {*os.listdir(tmp_path)} == {"a.parquet", names[2], names[3], ".sketch_hash-notes"}


def test_a_lock_that_only_readers_have_does_no_harm(copy):
    with open(copy, "rb") as other:
        fcntl.flock(other, fcntl.LOCK_SH)
        parquet.add_filters(copy, copy, ["plain"])


@pytest.mark.parametrize("name", ["metadata", "_delta_log"])
def test_a_folder_that_cannot_be_read_may_be_that_of_a_table(name, copy, tmp_path, monkeypatch):
    def list_other_folders(folder, *args, listdir=os.listdir):
        if str(folder).endswith(name):
            raise PermissionError(13, "Permission denied", folder)
        return listdir(folder, *args)

    monkeypatch.setattr(os, "listdir", list_other_folders)
    with pytest.raises(ValueError, match=f"^the file to replace may be of a table, since .*{name} cannot be read: write to"):
        parquet.add_filters(copy, copy, ["plain"])
    assert copy.read_bytes() == ODD.read_bytes()


def test_filters_are_removed(copy, tmp_path):
    parquet.add_filters(copy, copy, ["plain", "b"])
    assert parquet.remove_filters(copy, tmp_path / "c", ["b"]) == 3
    assert {name for _, name in parquet.filters(tmp_path / "c")} == {"plain"}
    assert parquet.remove_filters(copy, copy) == 6 and parquet.remove_filters(copy, copy) == 0
    assert split(copy) == split(ODD) and parquet.may_contain(copy, "plain", "none") == [0, 1, 2]
    for names, text in ((["none"], "must be one of"), ("plain", "must be a list of names")):
        with pytest.raises((TypeError, ValueError), match=text):
            parquet.remove_filters(copy, copy, names)


def test_a_folder_means_the_files_below_it(copy, tmp_path):
    source, target = tmp_path / "source", tmp_path / "target"
    for name in ("a.parquet", "year=2026/b.parquet", "_x/c.parquet", "e.txt"):
        (source / name).parent.mkdir(exist_ok=True, parents=True)
        shutil.copy(ODD, source / name)
    size = parquet.add_filters(source, target, ["plain"])
    found = sorted(path.relative_to(target) for path in target.rglob("*.parquet"))
    assert [*map(str, found)] == ["a.parquet", "year=2026/b.parquet"] and size == 2 * sum(
        num_bytes + 15 for num_bytes in parquet.filters(target / "a.parquet").values())
    parquet.add_filters(source, source, ["plain"])
    assert parquet.remove_filters(source, source) == 6
    (source / "a.parquet").write_bytes(b"junk")
    with pytest.raises(ValueError, match="^.*a.parquet: the file must be a Parquet file"):
        parquet.add_filters(source, source, ["plain"])
