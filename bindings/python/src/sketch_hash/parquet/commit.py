"""How a file is replaced, on a disk or in a store: by its complete successor, or not at all.

A store may ignore a call, or do it and yet report an error. So no answer is believed: each step looks at what is there. The
steps, and what a kill at each of them leaves:

- look at the target, on a disk lock it; read the values; write the filters to a temporary file: the old file
- write the new file beside the target: the old file, a part of the new one
- read it back (on a disk inode, size, time); look at the source and the target again: the old file, the new one beside it
- rename it, or copy it in a store that cannot rename: the old or the new file, maybe the new one beside it
- look at the target, twice if a look fails; remove the new file beside it: the new file, maybe a copy beside it
"""
import contextlib
import itertools
import re
import secrets
import tempfile

from .. import xxh64, xxh64_hexdigest
from .files import Source

PREFIX = ".sketch_hash-"  # of the names of new files that are not in place yet


class ChangedError(ValueError):
    def __init__(self):
        super().__init__("the file to replace must not change while its successor is written")


class Content:
    """The bytes of a new file: those of a source up to `end`, then those of a temporary file. `digests` are those of what has
    been written from two places on."""

    def __init__(self, source, end, rest):
        self.source, self.end, self.rest, self.size = source, end, Source(rest), end + rest.tell()
        self.digests = {0: xxh64(), end: xxh64()}

    def pieces(self):
        for piece in itertools.chain(self.source.pieces(0, self.end), self.rest.pieces(0, self.rest.size)):
            self.digests[0].update(piece)
            yield piece
        for piece in self.rest.pieces(0, self.rest.size):
            self.digests[self.end].update(piece)


@contextlib.contextmanager
def replaced(target, source, end, check_source):
    """Gives a temporary file, to which the caller writes what shall follow the first `end` bytes of the source in the target,
    and a list for notes of what the target loses. The caller reads the values before anything is copied, so an error costs no
    upload."""
    with contextlib.ExitStack() as stack:
        before = target.hold(stack)
        if before:
            check_replaceable(target, before)
        rest, notes = stack.enter_context(tempfile.TemporaryFile(dir=target.scratch, prefix=mark_of(target))), []
        yield rest, notes
        new = Content(source, end, rest)
        remove_leftovers(target)
        temporary = target.beside(mark_of(target) + secrets.token_hex(8))
        try:
            notes += temporary.write(new, target)
            if not temporary.has(new, 0):
                raise ValueError("the new file must be as it was written, but is not")
            check_source()
            if target.version() != before:
                raise ChangedError
        except BaseException:
            temporary.remove()
            raise
        move(temporary, target, new, before)


def move(temporary, target, new, before):
    """Puts the new file in the target's place. Raises what happened, unless the target is then the new file."""
    failure = None
    try:
        temporary.move(target, before)
    except BaseException as error:
        failure = error
    is_new, is_old = found(target, new, before)
    if not is_new and not is_old and not isinstance(failure, ChangedError):
        raise ValueError("the file may be the old one, the new one, missing or damaged, since the store failed when it was "
                         f"replaced: the new one is {temporary}, if it is not in place") from failure
    temporary.remove()
    if is_new and (failure is None or isinstance(failure, Exception)):
        return
    if failure is None or isinstance(failure, FileExistsError):
        raise ValueError("the store does not replace a file by another one: write to a new file") from failure
    if isinstance(failure, NotImplementedError):
        raise ValueError("the store can neither rename nor copy a file, so it replaces none safely") from failure
    raise failure


def found(target, new, before):
    """Whether the target is the new file, and whether it is as before. It is looked at twice if the first look fails."""
    for _ in range(2):
        with contextlib.suppress(Exception):
            return target.has(new, new.end), target.version() == before
    return False, False


def mark_of(target):
    return f"{PREFIX}{xxh64_hexdigest(target.name.encode(errors='surrogateescape'))}-"


def remove_leftovers(target):
    """Of runs on this target that were killed, and of version 3.1.0 on any file of the folder. If that fails, they stay."""
    with contextlib.suppress(Exception):
        for name in target.names_in(target.folder) or ():
            if re.fullmatch(f"{PREFIX}[0-9a-f]{{16}}|{mark_of(target)}[0-9a-z_]+", name):
                target.beside(name).remove_leftover()


def check_replaceable(target, before):
    """Raises ValueError if it is not a regular file, or if folders show that it is of a table of Delta Lake or Iceberg, which
    record its size, or if they cannot be read."""
    if not before[0]:
        raise ValueError("the file to replace must be a regular file")
    for folder in target.parents():
        for name in ("_delta_log", "metadata"):
            try:
                names = target.names_in(f"{folder}/{name}")
            except OSError as error:
                raise ValueError(f"the file to replace may be of a table, since {folder}/{name} cannot be read: write to "
                                 "another file") from error
            if names is not None and (name == "_delta_log" or any(".metadata.json" in found for found in names)):
                raise ValueError(f"the file to replace must not be of a table, as that of Delta Lake or Iceberg in {folder}, "
                                 "which records the sizes of its files: write to another file")
