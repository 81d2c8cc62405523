"""Stores whose calls go wrong: those of a file system of pyarrow or fsspec, and of its files, are counted."""
CHANGES = {"close", "copy_file", "cp_file", "create_dir", "delete_file", "mkdir", "move", "mv", "rm_file", "write",
           "fchmod", "fchown", "fsync", "replace", "unlink"}
CALLS = "info", "find", "isdir", "isfile", "exists", "open", "cp_file", "mv", "rm_file", "mkdir"


def fails(name, call, *args):
    raise OSError("503 slow down")


def fails_when_done(name, call, *args):
    call(*args)
    raise OSError("the connection is lost")


def is_interrupted(name, call, *args):
    raise KeyboardInterrupt


def is_interrupted_when_done(name, call, *args):
    call(*args)
    raise KeyboardInterrupt


def does_nothing(name, call, *args):
    return None if name in CHANGES else call(*args)


def loses_bytes(name, call, *args):
    return call(bytes(args[0])[:-1]) if name == "write" else call(*args)


def changes_bytes(name, call, *args):
    return call(bytes([args[0][0] ^ 1]) + bytes(args[0])[1:]) if name == "write" else call(*args)


def error_of(call, *args):
    try:
        call(*args)
    except BaseException as error:
        return error


FAULTS = [fails, fails_when_done, is_interrupted, is_interrupted_when_done, does_nothing, loses_bytes, changes_bytes]


class Calls:
    """The calls so far, of which the first to go wrong is number `first`, and the last is `last`. A read has at most so many
    bytes."""

    def __init__(self, fault=None, first=0, last=0, most=1 << 30):
        self.fault, self.wrong, self.most, self.names = fault, range(first, max(first, last) + 1), most, []

    def counted(self, name, call):
        def act(*args, **options):
            self.names.append(name)
            if self.fault and len(self.names) in self.wrong:
                return self.fault(name, lambda *args: call(*args, **options), *args)
            return call(*args, **options)
        return act

    def file(self, file):
        return File(self, file)

    def arrow(self, base, **instead):
        """A store of pyarrow with the files of another one."""
        from pyarrow.fs import FileSystemHandler, PyFileSystem
        FileSystemHandler.register(Handler)
        return PyFileSystem(Handler(self, base, instead))

    def fsspec(self, store, patch):
        """A store of fsspec itself."""
        from pyarrow.fs import FSSpecHandler, PyFileSystem
        for name in CALLS:
            call = getattr(store, name)
            if name == "open":
                call = lambda *args, open=store.open, **options: self.file(open(*args, **options))
            patch.setattr(store, name, self.counted(name, call), raising=False)
        return PyFileSystem(FSSpecHandler(store))


class Handler:
    """That of a store of pyarrow, by the calls of another store."""

    def __init__(self, calls, base, instead):
        self.calls = calls
        for name in ("copy_file", "delete_file", "get_file_info", "move"):
            setattr(self, name, calls.counted(name, instead.get(name) or getattr(base, name)))
        self.create_dir = calls.counted("create_dir", lambda path, recursive: base.create_dir(path, recursive=recursive))
        self.list = calls.counted("list", base.get_file_info)
        self.open = calls.counted("open", lambda path: calls.file(base.open_input_file(path)))
        self.create = calls.counted("create", lambda path: calls.file(base.open_output_stream(path)))
        self.normalize_path = str

    def get_file_info_selector(self, selector):
        from pyarrow.fs import FileSelector
        options = {"allow_not_found": selector.allow_not_found, "recursive": selector.recursive}
        return self.list(FileSelector(selector.base_dir, **options))

    def open_input_file(self, path):
        from pyarrow import PythonFile
        return PythonFile(self.open(path), "r")

    def open_output_stream(self, path, metadata):
        from pyarrow import PythonFile
        return PythonFile(self.create(path), "w")


class File:
    def __init__(self, calls, file):
        self.calls, self.file = calls, file
        self.write = calls.counted("write", file.write)
        self.read_some = calls.counted("read", file.read)

    def __getattr__(self, name):
        return getattr(self.file, name)

    def read(self, size=-1):
        return self.read_some(self.calls.most if size is None or size < 0 else min(size, self.calls.most))

    def close(self):
        if not self.file.closed:
            self.calls.counted("close", self.file.close)()
