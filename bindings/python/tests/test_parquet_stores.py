"""Files in stores are replaced as a whole or not at all, whatever call goes wrong, and what is reported is true."""
import itertools
import logging
import pickle
import re
import sys

import pytest
from faulty_store import FAULTS, Calls, error_of
from parquet_files import ODD
from sketch_hash import parquet, xxh64_hexdigest
from sketch_hash.parquet import command, files

FOLDER, PATH, OTHER, OLD = "bucket", "bucket/a.parquet", "bucket/b.parquet", ODD.read_bytes()


@pytest.fixture
def fs(need):
    need("python:pyarrow")
    import pyarrow.fs
    return pyarrow.fs


@pytest.fixture
def memory(fs, need):
    need("python:fsspec")
    from fsspec.implementations.memory import MemoryFileSystem
    store = MemoryFileSystem()
    yield store
    store.store.clear()
    store.pseudo_dirs[:] = [""]


@pytest.fixture(scope="session")
def s3_server(need):
    """The address of a server of S3 in this process. It has conditions of copies, as S3, which moto itself ignores."""
    need("python:pyarrow", "python:s3fs", "python:moto", "python:flask_cors")
    from aiobotocore.args import AioClientArgsCreator
    from moto.s3.exceptions import PreconditionFailed
    from moto.s3.responses import S3Response
    from moto.server import ThreadedMotoServer

    def copy_object(self, copy=S3Response.copy_object):
        found = self.backend.get_object(self.bucket_name, self.parse_key_name())
        if self.headers.get("If-Match", found and found.etag) != (found and found.etag):
            raise PreconditionFailed("If-Match")
        if found and "If-None-Match" in self.headers:
            raise PreconditionFailed("If-None-Match")
        return copy(self)

    def resolver(self, *args, make=AioClientArgsCreator.compute_endpoint_resolver_builtin_defaults, **options):
        try:
            return make(self, *args, **options)
        except TypeError:  # Debian's aiobotocore is older than its botocore
            return make(self, *args, s3_disable_express_session_auth=None, **options)

    with pytest.MonkeyPatch.context() as patch:
        patch.setattr(S3Response, "copy_object", copy_object)
        patch.setattr(AioClientArgsCreator, "compute_endpoint_resolver_builtin_defaults", resolver)
        for name in ("AWS_ACCESS_KEY_ID", "AWS_SECRET_ACCESS_KEY"):
            patch.setenv(name, "test")
        patch.setenv("AWS_DEFAULT_REGION", "us-east-1")
        logging.getLogger("werkzeug").setLevel(logging.ERROR)
        server, interval = ThreadedMotoServer("127.0.0.1", 0), sys.getswitchinterval()
        server.start()
        sys.setswitchinterval(interval / 20)  # client and server are threads, which wait for each other
        yield "http://{}:{}".format(*server.get_host_and_port())
        sys.setswitchinterval(interval)
        server.stop()


@pytest.fixture
def s3(fs, s3_server):
    import s3fs
    store = s3fs.S3FileSystem(endpoint_url=s3_server, default_block_size=5 << 20, skip_instance_cache=True)
    store.mkdirs("bucket", exist_ok=True)
    yield store
    store.rm("bucket", recursive=True)


@pytest.fixture
def stores(request, monkeypatch, tmp_path, fs):
    """For the name of a store, a function that makes it with calls that go wrong, and the store below."""
    def stores(name):
        if name in ("memory", "s3"):
            store = request.getfixturevalue(name)
            return lambda calls: [patch.undo(), calls.fsspec(store, patch)][1], fs.PyFileSystem(fs.FSSpecHandler(store))
        base = fs.SubTreeFileSystem(str(tmp_path), fs.LocalFileSystem())
        base = base if name == "disk" else fs.FileSystem.from_uri("mock:///")[0]
        return lambda calls: calls.arrow(base, **{"move": cannot} if "copies" in name else {}), base

    with pytest.MonkeyPatch.context() as patch:
        yield stores


def cannot(*args):
    raise NotImplementedError


@pytest.fixture
def mock(fs):
    return fs.FileSystem.from_uri("mock:///")[0]


def put(base, data=OLD, path=PATH):
    base.create_dir(path.rpartition("/")[0])
    with base.open_output_stream(path) as file:
        file.write(data)


def put_alone(base):
    """PATH in an empty folder."""
    base.create_dir(FOLDER)
    for name in names(base):
        base.delete_file(f"{FOLDER}/{name}")
    put(base)


def get(base, path=PATH):
    with base.open_input_file(path) as file:
        return file.read()


def names(base):
    from pyarrow.fs import FileSelector
    return sorted(info.base_name for info in base.get_file_info(FileSelector(FOLDER, allow_not_found=True)))


def add(store, path=PATH, **options):
    return parquet.add_filters(PATH, path, ["plain"], filesystem=store, **options)


def with_moto_once_in_place(store, last, target):
    """Each call of it takes 20 ms."""
    return store != "s3" or last == 0 and target == PATH


@pytest.mark.parametrize("store, last, target", [
    case for case in itertools.product(["memory", "s3", "mock", "mock that copies", "disk"], [0, 10**6], [PATH, OTHER])
    if with_moto_once_in_place(*case)])
@pytest.mark.parametrize("fault", FAULTS)
def test_a_file_is_the_old_or_the_new_one_whatever_call_goes_wrong(fault, store, last, target, stores, copy):
    make, base = stores(store)
    put_alone(base)
    add(make(Calls()), target)
    new, old, seen, first, count = get(base, target), OLD if target == PATH else None, set(), 0, 0
    while first <= count:
        first += 1
        put_alone(base)
        calls = Calls(fault, first, last)
        error = error_of(add, make(calls), target)
        count, calls.fault = len(calls.names), None
        found = get(base, target) if base.get_file_info(target).is_file else None
        assert found in (old, new), calls.names[:count]
        if "interrupted" in fault.__name__ and calls.names[:count][first - 1:first] in (["copy_file"], ["cp_file"]):
            assert isinstance(error, KeyboardInterrupt)
        seen.add((error is None, found == new))
        if error is None:
            assert found == new, calls.names[:count]
        elif str(error).startswith("the file may be the old one"):
            assert last, calls.names[:count]  # after one fault it is looked at again
            path, = re.findall("the new one is (.*), if it is not in place$", str(error))
            assert found == new or get(base, path) == new, calls.names[:count]
        elif isinstance(error, Exception):
            assert found == old, (calls.names[:count], error)
        if any(name.startswith(".") for name in names(base)):
            add(base, target, replace=True)
        assert {*names(base)} <= {"a.parquet", target[len("bucket/"):]}, calls.names[:count]
    assert (True, True) in seen and count > 15


def test_a_store_may_read_a_few_bytes_at_a_time(mock, copy):
    put(mock)
    assert add(Calls(most=100).arrow(mock)) > 0
    assert {name for _, name in parquet.open(PATH, filesystem=mock).filters()} == {"plain"}


@pytest.mark.parametrize("move, text", [
    (lambda *args: None, "the store does not replace a file by another one: write to a new file"),
    (lambda *args: open(__file__, "x"), "the store does not replace a file by another one: write to a new file"),
    (cannot, "the store can neither rename nor copy a file, so it replaces none safely"),
], ids=["ignored", "exists", "neither"])
def test_a_store_that_cannot_replace_a_file_is_an_error(move, text, mock, copy):
    put(mock)
    with pytest.raises(ValueError, match=f"^{text}$"):
        add(Calls().arrow(mock, move=move, copy_file=move))
    assert get(mock) == OLD and names(mock) == ["a.parquet"]


def when(monkeypatch, kind, name, act):
    """Calls act() once, before a call of a store."""
    calls, call = iter([act]), getattr(kind, name)
    monkeypatch.setattr(kind, name, lambda *args, **options: [next(calls, list)(), call(*args, **options)][1])


@pytest.mark.parametrize("store", ["memory", "s3", "mock"])
def test_of_two_runs_on_a_file_of_a_store_one_fails(store, stores, copy, monkeypatch):
    _, base = stores(store)
    put_alone(base)

    def second_run():
        parquet.add_filters(PATH, PATH, ["b"], filesystem=base)

    when(monkeypatch, files.Source, "pieces", second_run)  # which may remove the new file of the first
    assert isinstance(error_of(add, base), Exception)
    assert {name for _, name in parquet.open(PATH, filesystem=base).filters()} == {"b"} and names(base) == ["a.parquet"]


@pytest.mark.parametrize("target", [PATH, OTHER], ids=["old", "none"])
def test_a_store_of_s3_does_not_replace_what_another_run_writes_after_the_last_look(target, s3, stores, copy, monkeypatch):
    _, base = stores("s3")
    put_alone(base)
    other = OLD + b"of another run"
    when(monkeypatch, s3, "cp_file", lambda: put(base, other, target))
    with pytest.raises(ValueError, match="^the file to replace must not change while its successor is written$"):
        add(base, target)
    assert get(base, target) == other and names(base) == sorted({"a.parquet", target[len("bucket/"):]})


def test_files_that_are_newer_than_a_listing_of_the_store_get_filters(s3, s3_server, copy):
    s3.pipe_file(PATH, OLD)
    assert s3.ls("bucket", detail=False) == [PATH]  # and remembers it
    type(s3)(endpoint_url=s3_server, skip_instance_cache=True).pipe_file(OTHER, OLD)
    parquet.add_filters("bucket", "bucket", ["plain"], filesystem=s3)
    assert len(parquet.open(OTHER, filesystem=s3).filters()) == 3


def test_a_store_of_s3_that_knows_no_conditions_is_asked_without_them(s3, stores, copy, monkeypatch):
    def copy_file(*args, cp_file=s3.cp_file, **condition):
        if condition:
            raise OSError("501") from OSError("An error occurred (NotImplemented) when calling CopyObject")
        cp_file(*args)

    _, base = stores("s3")
    put_alone(base)
    monkeypatch.setattr(s3, "cp_file", copy_file)
    assert add(base) > 0 and len(parquet.open(PATH, filesystem=base).filters()) == 3


def test_what_killed_runs_left_in_a_store_is_removed_by_the_next_on_this_file(mock, copy):
    mine, other = (f".sketch_hash-{xxh64_hexdigest(name)}-{1:016x}" for name in (b"a.parquet", b"b.parquet"))
    for name in ("a.parquet", mine, other, f".sketch_hash-{1:016x}", ".sketch_hash-notes"):  # the fourth is of 3.1.0
        put(mock, path=f"{FOLDER}/{name}")
    add(mock)
    assert names(mock) == sorted([other, ".sketch_hash-notes", "a.parquet"])


ODD_NAMES = "n", "n[1]", "a*b", "what?", "a b", "x.parquet", "50%", "n#1"


@pytest.mark.parametrize("store, spelling", [
    *itertools.product(["memory"], ["{}", "/{}", "{}/", "/{}/", "memory://{}", "memory://{}/"]),
    *itertools.product(["s3"], ["{}", "/{}", "{}/", "s3://{}", "s3://{}/"])])
def test_a_folder_of_a_store_may_be_spelled_in_each_way_and_have_any_name(store, spelling, stores, copy, request):
    _, base = stores(store)
    fsspec = request.getfixturevalue(store)
    for folder in ODD_NAMES if store == "memory" or spelling == "{}" else ODD_NAMES[:2]:
        for name in ("a.parquet", f"{folder}/b {folder}.parquet", "_x/c.parquet"):
            fsspec.pipe_file(f"/bucket/{folder}/{name}", OLD)
        path = spelling.format(f"bucket/{folder}")
        assert parquet.add_filters(path, path, ["plain"], filesystem=fsspec) > 0
        assert parquet.remove_filters(path, f"bucket/new {folder}", filesystem=fsspec) == 6
        assert parquet.remove_filters(path, path, filesystem=fsspec) == 6
        names = {name.rpartition("/")[2] for name in fsspec.find(f"/bucket/{folder}")}
        assert names == {"a.parquet", f"b {folder}.parquet", "c.parquet"}


def test_a_command_takes_each_file_below_the_uri_of_a_folder(memory, copy):
    for folder in ODD_NAMES:
        memory.pipe_file(f"/bucket/{folder}/a b.parquet", OLD)
        place, = command.files_of([f"memory://bucket/{folder}"])
        place = pickle.loads(pickle.dumps(place))  # as for other processes
        assert str(place) == f"memory://bucket/{folder}/a b.parquet" and parquet.add_filters(place, place, ["plain"]) > 0


def test_a_command_takes_files_of_two_stores_that_have_one_path(memory):
    memory.pipe_file("/bucket/a.parquet", OLD)
    uris = ["memory://bucket/a.parquet", "mock://bucket/a.parquet"]
    assert [*map(str, command.files_of([*uris, "memory://bucket"]))] == uris


def test_a_folder_that_a_store_lists_as_another_one_is_an_error(mock, copy, fs):
    put(mock)
    store = Calls().arrow(mock)
    store.handler.list = lambda selector: mock.get_file_info(fs.FileSelector(FOLDER))
    store.handler.get_file_info = lambda paths: mock.get_file_info([FOLDER])
    with pytest.raises(ValueError, match="^the folder must be spelled as in the store, which has bucket/a.parquet in it$"):
        parquet.check_filters("BUCKET", filesystem=store)


def test_a_cache_of_a_store_is_refused(memory, stores, copy, tmp_path):
    import fsspec
    _, base = stores("memory")
    put(base)
    cache = fsspec.filesystem("simplecache", fs=memory, cache_storage=str(tmp_path / "cache"))
    with pytest.raises(ValueError, match="^the store must not be a cache of fsspec, which shows old files: pass the store"):
        add(cache)
    assert get(base) == OLD and names(base) == ["a.parquet"] and add(cache.fs) > 0
