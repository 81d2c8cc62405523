"""What the loader runs before the first call: the constructors. They may set bytes of the library to 1, on a processor on
which the code may run that these bytes select."""
import functools

from loops import on_each_path
from machine import IN_IMAGE
from values import Stop, cut, number_in, unknown


@functools.cache
def flags_of(kind, library):
    """The bytes that constructors set to 1 on some processors, and leave at 0 on others."""
    def run():
        machine, flags = kind(library), set()
        machine.processor, machine.is_loading = processor, True
        machine.writable |= {(IN_IMAGE, at) for at in library.writable()}
        for address in library.constructors:
            machine.begin_at(address, [unknown(("argument", name), 64) for name in ("count", "texts", "environment")])
            machine.go()
        for (base, at), (value, bit) in machine.bytes.items():
            now = number_in(cut(value, bit, 8))
            if base == IN_IMAGE and now != library.byte(at):
                if now not in (0, 1) or now and not allows:
                    raise Stop("a constructor sets what the processor does not allow")
                flags.add(at)
        return flags

    flags = set()
    for processor, allows in kind.processors() if library.constructors else ():
        flags = flags.union(*on_each_path(run))
    return frozenset(flags)
