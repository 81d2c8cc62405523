"""Open files: read at any place by many threads, locked, and given the attributes of others."""
import contextlib
import io
import os
import stat
import threading
import weakref

try:
    import fcntl
except ImportError:  # not a POSIX system
    fcntl = None

MOST_READ, MOST_PARTS = 1 << 24, 1000  # bytes that are read at a time, and parts of them
# Of each open file, of all files that a dictionary cannot have as keys, and of the dictionary.
LOCKS, OTHERS, LOCK = weakref.WeakKeyDictionary(), threading.Lock(), threading.Lock()


def lock_of(file):
    try:
        with LOCK:
            return LOCKS.setdefault(file, threading.Lock())
    except TypeError:
        return OTHERS


def open_file(path):
    """Opens a regular file to read it. Another kind may block, or have no end."""
    file = open(path, "rb", opener=lambda path, flags: os.open(path, flags | getattr(os, "O_NONBLOCK", 0)))
    if not stat.S_ISREG(os.fstat(file.fileno()).st_mode):
        file.close()
        raise ValueError("the file must be a regular file")
    return file


class Source:
    """Reads an open file at any place, also if several threads do so.

    A file that open() opened keeps its position, also for forked processes. For another one a seek and a read must not be
    mixed with those of other threads, so calls on one file take turns. Its fileno(), as that of a GzipFile, may be of another
    file.
    """

    def __init__(self, file):
        self.file = file
        self.is_local = hasattr(os, "pread") and isinstance(file, (io.BufferedReader, io.BufferedRandom, io.FileIO)) and (
            isinstance(getattr(file, "raw", file), io.FileIO))
        # To read so many bytes more is faster than to read twice: to copy memory than a system call, or than a request. A step
        # is what is read at a time to copy.
        self.gap, self.step = (1 << 13, 1 << 20) if self.is_local else (1 << 20, MOST_READ)
        if self.is_local:
            if file.writable():
                file.flush()
            self.status = os.fstat(file.fileno())
            self.size = self.status.st_size
        else:
            self.lock = lock_of(file)
            with self.lock:
                file.seek(0, os.SEEK_END)  # which returns nothing for an mmap
                self.size = file.tell()

    def read_some(self, begin, length):
        if self.is_local:
            return os.pread(self.file.fileno(), length, begin)  # fileno() raises once the file is closed
        with self.lock:
            self.file.seek(begin)
            return self.file.read(length)

    def read(self, begin, length):
        """Returns so many bytes. Raises ValueError if the file ends before them."""
        pieces = []
        while length:
            piece = self.read_some(begin, length)
            if not piece:
                raise ValueError("the file must not change while it is read: it is truncated")
            pieces.append(piece)
            begin += len(piece)
            length -= len(piece)
        return b"".join(pieces)

    def pieces(self, begin, end):
        for begin in range(begin, end, self.step):
            yield self.read(begin, min(self.step, end - begin))

    def check_unchanged(self, *paths):
        """Raises ValueError if others have written to the file since, or replaced it at a path, as far as sizes and times
        show that."""
        if self.is_local:
            found = os.fstat(self.file.fileno()), *map(os.stat, paths)
            check_equal(version_of(self.status), *map(version_of, found))

    def read_each(self, ranges):
        """Yields the bytes of each (begin, length). Those that follow each other closely are read at once."""
        run, begin, end = [], 0, 0
        for place, length in ranges:
            if len(run) == MOST_PARTS or not begin <= place <= end + self.gap or place + length > begin + MOST_READ:
                yield from self.parts(run, begin, end)
                run.clear()
            if not run:
                begin = end = place
            run.append((place, length))
            end = max(end, place + length)
        yield from self.parts(run, begin, end)

    def parts(self, run, begin, end):
        data = self.read(begin, end - begin) if run else b""
        for place, length in run:
            yield data[place - begin:place - begin + length]


def check_equal(before, *versions):
    if any(version != before for version in versions):
        raise ValueError("the file must not change while it is read")


def version_of(status):
    """Whether it is a regular file, and what tells it from others at its place."""
    return stat.S_ISREG(status.st_mode), status.st_dev, status.st_ino, status.st_size, status.st_mtime_ns


def lock(number):
    """Keeps other runs from replacing the same file. Where there are no locks, the later of two runs fails at its end.

    A program that only reads may have a shared lock, which no run has: it does no harm.
    """
    for kind in (fcntl.LOCK_EX, fcntl.LOCK_SH):
        try:
            return fcntl.flock(number, kind | fcntl.LOCK_NB)
        except BlockingIOError:
            pass
        except OSError:
            return None
    raise ValueError("the file is locked by another program, or another run is replacing it")


def close(number):
    """Of a file that was not written: nothing is lost if that fails."""
    with contextlib.suppress(OSError):
        os.close(number)


def is_left(name, folder):
    """Whether a new file was left by a run that was killed: none has it locked."""
    try:
        number = os.open(name, os.O_RDWR | os.O_NOFOLLOW | os.O_NONBLOCK, dir_fd=folder)
    except OSError:
        return False
    with open(number, "rb") as file, contextlib.suppress(OSError):
        fcntl.flock(file, fcntl.LOCK_EX | fcntl.LOCK_NB)
        return stat.S_ISREG(os.fstat(number).st_mode)
    return False


# New files that are not in place yet, each as the descriptor of its folder and its name.
UNFINISHED = set()
# Of who creates or renames a file or starts a process. A run that is stopped takes it, and never gives it back.
CHANGES = threading.Lock()


def remove_unfinished():
    """Removes the new files that this process has begun. CHANGES must be taken."""
    for folder, name in [*UNFINISHED]:
        with contextlib.suppress(OSError):
            os.unlink(name, dir_fd=folder)


def copy_attributes(old, new):
    """Gives a file the owner, the group, the mode, the ACL and the other extended attributes of another one, as far as the
    user may. Returns the names of those that it does not get."""
    status, lost = os.fstat(old), []
    for name, owner, group in (("owner", status.st_uid, -1), ("group", -1, status.st_gid)):
        try:
            os.fchown(new, owner, group)
        except OSError:
            lost.append(name)
    if hasattr(os, "listxattr"):
        lost += copy_xattrs(old, new)
    os.fchmod(new, status.st_mode & (0o777 if {"owner", "group"} & {*lost} else 0o7777))
    return lost


def copy_xattrs(old, new):
    try:
        names, others = os.listxattr(old), os.listxattr(new)
    except OSError:  # the file system has none
        return []
    lost = []
    for name in {*names, *others}:
        try:
            if name not in names:  # as an ACL that the folder gives to new files
                os.removexattr(new, name)
            elif name not in others or os.getxattr(old, name) != os.getxattr(new, name):
                os.setxattr(new, name, os.getxattr(old, name))
        except OSError:
            if name in names:
                lost.append("ACL" if name == "system.posix_acl_access" else name)
    return lost
