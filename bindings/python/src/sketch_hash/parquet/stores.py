"""Where files are: on this machine, or in a store that pyarrow reads, by its own file systems or those of fsspec. `commit`
replaces them by the calls here."""
import contextlib
import os
import pathlib
import re

from .. import xxh64
from .commit import ChangedError
from .files import (
    CHANGES, UNFINISHED, Source, check_equal, close, copy_attributes, fcntl, is_left, lock, open_file, version_of)


def place_of(file, filesystem=None):
    """Of a path, of a URI, or of a path in a file system of pyarrow or fsspec."""
    if isinstance(file, (Local, Stored)):
        return file
    is_uri = isinstance(file, str) and re.match("[A-Za-z][A-Za-z0-9+.-]+://", file)
    if filesystem is None and not is_uri:
        return Local(os.fsdecode(file))
    try:
        import pyarrow.fs
    except ImportError as error:
        raise ImportError("a URI or a file system needs pyarrow: pip install pyarrow") from error
    filesystem, path = from_uri(file) if filesystem is None else (arrow_filesystem(filesystem), os.fspath(file))
    while isinstance(filesystem, pyarrow.fs.SubTreeFileSystem):
        filesystem, path = filesystem.base_fs, filesystem.base_path + path
    is_local = isinstance(filesystem, pyarrow.fs.LocalFileSystem)
    return Local(path) if is_local else Stored(filesystem, path, file if is_uri else path)


def from_uri(uri):
    from pyarrow.fs import FileSystem
    try:
        return FileSystem.from_uri(uri)
    except ValueError as error:
        try:
            return FileSystem.from_uri(f"fsspec+{uri}")  # what pyarrow itself does not know, or was built without
        except (ImportError, ValueError):
            raise error from None


def arrow_filesystem(filesystem):
    from pyarrow.fs import FileSystem, FSSpecHandler, LocalFileSystem, PyFileSystem, SubTreeFileSystem
    if isinstance(filesystem, FileSystem):
        return filesystem
    if isinstance(filesystem, str):
        found, path = from_uri(filesystem)
        return SubTreeFileSystem(path, found) if path else found
    if type(filesystem).__name__ == "LocalFileSystem":  # of fsspec
        return LocalFileSystem()
    if hasattr(filesystem, "mv") and hasattr(filesystem, "protocol"):
        return PyFileSystem(FSSpecHandler(filesystem))
    raise TypeError(f"filesystem must be one of pyarrow.fs or of fsspec, not {type(filesystem).__name__}")


def is_wanted(names):
    """As in pyarrow's datasets without names that begin with . or _."""
    return names[-1].endswith(".parquet") and all(name[:1] not in (".", "_") for name in names)


def each_once(places):
    """The places, of which a file and links to it are one."""
    return [*{os.path.realpath(place.path) if isinstance(place, Local) else place.text: place for place in places}.values()]


class Local:
    """A file of this machine. To replace it, its folder and each file are opened once, and used by their descriptors: what a
    name leads to may change at any time."""

    def __init__(self, path):
        self.path = path

    def __str__(self):
        return self.path

    def open(self):
        return open_file(self.path)

    def is_same(self, other):
        return isinstance(other, Local) and os.path.exists(other.path) and os.path.samefile(self.path, other.path)

    def is_folder(self):
        return os.path.isdir(self.path)

    def names(self):
        """The files below a folder, and folders that cannot be read: to open one fails."""
        unread = []
        for folder, folders, names in os.walk(self.path, onerror=lambda error: unread.append(error.filename)):
            folders[:] = sorted(name for name in folders if name[0] not in "._")
            yield from (os.path.relpath(os.path.join(folder, name), self.path) for name in sorted(names) if is_wanted([name]))
        yield from (os.path.relpath(folder, self.path) for folder in unread)

    def below(self, name):
        return Local(os.path.join(self.path, name) if name != os.curdir else self.path)

    def make_folder(self):
        os.makedirs(os.path.dirname(os.path.abspath(self.path)), exist_ok=True)

    def parents(self):
        return {*pathlib.Path(self.path).absolute().parents, *pathlib.Path(self.path).resolve().parents}

    def names_in(self, folder):
        try:
            return os.listdir(folder)
        except (FileNotFoundError, NotADirectoryError):
            return None

    def check_unchanged(self, source):
        source.check_unchanged(self.path)

    def hold(self, stack):
        """Opens the folder, and locks the file so that no other run replaces it. Returns its version."""
        if fcntl is None:
            raise NotImplementedError("only POSIX systems can replace a file")
        self.scratch, self.name = os.path.split(os.path.realpath(self.path))
        self.folder, self.old = os.open(self.scratch, os.O_RDONLY | os.O_DIRECTORY), None
        stack.callback(close, self.folder)
        before = self.version()
        if before and before[0]:
            self.old = os.open(self.name, os.O_RDONLY | os.O_NOFOLLOW | os.O_NONBLOCK, dir_fd=self.folder)
            stack.callback(close, self.old)
            lock(self.old)
        return before

    def beside(self, name):
        place = Local(os.path.join(self.scratch, name))
        place.scratch, place.name, place.folder = self.scratch, name, self.folder
        return place

    def version(self):
        try:
            return version_of(os.stat(self.name, dir_fd=self.folder, follow_symlinks=False))
        except FileNotFoundError:
            return None

    def write(self, new, target):
        """Creates and syncs the file, which is locked as long as this run lives, so that another one can tell. Returns notes of
        what the target loses by it."""
        flags, notes = os.O_RDWR | os.O_CREAT | os.O_EXCL | os.O_NOFOLLOW, []
        with CHANGES:
            number = os.open(self.name, flags, 0o600, dir_fd=self.folder)
            UNFINISHED.add((self.folder, self.name))
        with open(number, "wb") as file:
            with contextlib.suppress(OSError):
                fcntl.flock(number, fcntl.LOCK_EX)
            file.writelines(new.pieces())
            file.flush()
            if target.old is None:
                os.fchmod(number, new.source.status.st_mode & 0o777 if new.source.is_local else 0o600)
            elif lost := copy_attributes(target.old, number):
                notes.append(f"the new file lacks what this user may not set: {', '.join(lost)}")
            if os.path.lexists(os.path.join(self.scratch, f".{target.name}.crc")):
                notes.append(f"Hadoop's checksum .{target.name}.crc is that of the old file: delete it")
            os.fsync(number)
            new.version = version_of(os.fstat(number))
        return notes

    def has(self, new, begin):
        return self.version() == new.version

    def move(self, target, before):
        with CHANGES:
            os.replace(self.name, target.name, src_dir_fd=self.folder, dst_dir_fd=self.folder)
        os.fsync(self.folder)

    def remove(self):
        with CHANGES, contextlib.suppress(OSError):
            UNFINISHED.discard((self.folder, self.name))
            os.unlink(self.name, dir_fd=self.folder)

    def remove_leftover(self):
        if is_left(self.name, self.folder):
            self.remove()


class Stored:
    """A file of a store, by a file system of pyarrow. `store` is that of fsspec, if pyarrow's one stands for it: it tells more,
    and takes `[`, `*` and `?` in names as they are. `text` is what the user calls the file."""

    scratch = None  # the system's own folder of temporary files

    def __init__(self, filesystem, path, text):
        self.filesystem, self.store, self.before = filesystem, getattr(getattr(filesystem, "handler", None), "fs", None), None
        self.path = (self.store._strip_protocol(path) if self.store else filesystem.normalize_path(path)).rstrip("/")
        self.folder, self.slash, self.name = self.path.rpartition("/")
        self.text, self.prefix = text.rstrip("/"), self.path.strip("/") + "/"

    def __str__(self):
        return self.text

    def open(self):
        self.before = self.version()
        return self.filesystem.open_input_file(self.path)

    def is_same(self, other):
        return isinstance(other, Stored) and (self.filesystem, self.prefix) == (other.filesystem, other.prefix)

    def forget(self):
        """fsspec remembers what it has listed. All of that, since a path may be spelled in two ways."""
        if self.store:
            self.store.invalidate_cache()

    def is_folder(self):
        self.forget()
        return self.filesystem.get_file_info(self.path).type.name == "Directory"

    def list(self, folder, **options):
        from pyarrow.fs import FileSelector
        self.forget()
        return self.filesystem.get_file_info(FileSelector(folder, **options))

    def names(self):
        """The files below a folder, whose path the store must begin with the same names."""
        names = []
        for info in self.list(self.path, recursive=True):
            path = info.path.lstrip("/")
            if not path.startswith(self.prefix):
                raise ValueError(f"the folder must be spelled as in the store, which has {info.path} in it")
            if info.is_file and is_wanted(path[len(self.prefix):].split("/")):
                names.append(path[len(self.prefix):])
        return sorted(names)

    def below(self, name):
        return Stored(self.filesystem, f"{self.path}/{name}", f"{self.text}/{name}")

    def make_folder(self):
        self.filesystem.create_dir(self.folder)

    def parents(self):
        return [self.path[:i] for i, letter in enumerate(self.path) if letter == "/"]

    def names_in(self, folder):
        return [info.base_name for info in self.list(folder, allow_not_found=True)] or None

    def check_unchanged(self, source):
        check_equal(self.before, self.version())

    def hold(self, stack):
        """Returns the version of the file. A store has no locks."""
        if any(kind.__name__ == "CachingFileSystem" for kind in type(self.store).__mro__):
            raise ValueError("the store must not be a cache of fsspec, which shows old files: pass the store below, its fs")
        return self.version()

    def beside(self, name):
        return Stored(self.filesystem, f"{self.folder}{self.slash}{name}", f"{self.folder}{self.slash}{name}")

    def version(self):
        """Whether it is a file, how large it is, and what changes with it: all that the store tells but the last access."""
        if not self.store:
            info = self.filesystem.get_file_info(self.path)
            return None if info.type.name == "NotFound" else (info.is_file, info.size, info.mtime_ns)
        self.forget()
        try:
            info = self.store.info(self.path)
        except FileNotFoundError:
            return None
        times = {"atime", "time", "accessTime", "last_accessed_on"}
        return info["type"] == "file", info["size"], sorted((key, str(info[key])) for key in {*info} - times)

    def write(self, new, target):
        with self.filesystem.open_output_stream(self.path) as file:
            file.writelines(new.pieces())
        return []

    def has(self, new, begin):
        """Whether the file has the bytes of a new one, which are read from a place on."""
        if (self.version() or ())[:2] != (True, new.size):
            return False
        with self.filesystem.open_input_file(self.path) as file:
            digest = xxh64()
            for piece in Source(file).pieces(begin, new.size):
                digest.update(piece)
        return digest.digest() == new.digests[begin].digest()

    def move(self, target, before):
        """Renames the file, or copies it if the store cannot. pyarrow's move for fsspec takes names as patterns, and so does
        its own mv, unless a store has another one."""
        kinds = type(self.store).__mro__
        if any(kind.__module__ == "s3fs.core" for kind in kinds):
            return self.copy_on_s3(target, before)
        rename, copy = (self.store.mv, self.store.cp_file) if self.store else (self.filesystem.move, self.filesystem.copy_file)
        if not self.store or any("mv" in vars(kind) for kind in kinds if kind.__module__ != "fsspec.spec"):
            with contextlib.suppress(NotImplementedError):
                return rename(self.path, target.path)
        copy(self.path, target.path)

    def copy_on_s3(self, target, before):
        """The copy fails if the target is no longer as before, up to 5 GB, and if the store knows such conditions."""
        etag = before and dict(before[2]).get("ETag")
        try:
            self.store.cp_file(self.path, target.path, **{"IfMatch": etag} if etag else {} if before else {"IfNoneMatch": "*"})
        except OSError as error:
            reason = str(error.__cause__)
            if "(PreconditionFailed)" in reason:
                raise ChangedError from error
            if "(NotImplemented)" not in reason:
                raise
            self.store.cp_file(self.path, target.path)

    def remove(self):
        with contextlib.suppress(Exception):
            (self.store.rm_file if self.store else self.filesystem.delete_file)(self.path)

    remove_leftover = remove
