"""A library for x86-64 or aarch64 as the loader sees it: a shared library in ELF, or what the linker makes of an object file.

It has functions, instructions, memory before a call, and what the loader writes and runs. All addresses are relative to where
the library is. The tables list what is read: whatever else a file has is refused by its name or number.
"""
import functools
import pathlib
import re
import struct
import subprocess
import tempfile

from module import MAGIC, Module
from values import NoLibrary, Stop

HEADER = (pathlib.Path(__file__).parents[1] / "dist/include/sketch_hash.h").read_text()
ELF, ARCHIVE = b"\x7fELF\2\1\1", b"!<arch>\n"
OBJECT, SHARED = 1, 3  # the kinds of ELF files that are read
PROCESSORS = {62: "x86-64", 183: "aarch64"}
DISASSEMBLE = {"x86-64": ["objdump", "-m", "i386:x86-64", "-M", "intel"],
               "aarch64": ["aarch64-linux-gnu-objdump", "-m", "aarch64"]}
LINKERS = {"x86-64": "ld", "aarch64": "aarch64-linux-gnu-ld"}
PAGE = 4096  # the least

# Segments by their type; those of no name here say nothing of what is in memory.
LOAD, DYNAMIC, RELRO = 1, 2, 0x6474E552
SEGMENTS = {LOAD, DYNAMIC, RELRO, 4, 6, 0x6474E550, 0x6474E551, 0x6474E553}
READ, CODE, DATA = 4, 5, 6  # flags of segments that are loaded

# Tags of the dynamic section, each with the values that it may have, or None for any.
NEEDED, HASH, NAMES, SYMBOLS, ADDENDS, INIT, JUMPS, INITS, PACKED, GNU_HASH = 1, 4, 5, 6, 7, 12, 23, 25, 36, 0x6FFFFEF5
SIZES = {ADDENDS: 8, JUMPS: 2, INITS: 27, PACKED: 35}  # the tags with the sizes of these tables
TAGS = dict.fromkeys([NEEDED, HASH, NAMES, SYMBOLS, INIT, GNU_HASH, *SIZES, *SIZES.values()])
TAGS |= dict.fromkeys([3, 10, 13, 14, 16, 24, 26, 28])  # the PLT's GOT, sizes, what runs at the end, its name, "now"
TAGS |= dict.fromkeys([15, 29])  # where the C library is looked for
TAGS |= dict.fromkeys([0x6FFFFFF0, 0x6FFFFFF9, *range(0x6FFFFFFC, 0x70000000)])  # versions, and how many relocations are alike
TAGS |= dict.fromkeys([0x70000001, 0x70000003])  # aarch64: how the PLT jumps
TAGS |= {9: {24}, 11: {24}, 20: {7}, 37: {8}}  # sizes of entries; relocations have addends
TAGS |= {30: {2, 8, 10}, 0x6FFFFFFB: {1, 8, 9}}  # symbols of its own first, "now", and that it stays loaded
LIBRARIES = re.compile(r"(libc|libm|libpthread|libgcc_s|ld-linux\S*|libc\.musl\S*)\.so(\.\d+)*")  # of C, which it may need

# Relocations: an address in the library, and the address of a symbol, in data or in the linker's own table.
RELATIVE, ADDRESS, OF_LINKER = {8, 1027}, {1, 257}, {6, 7, 1025, 1026}
# Symbols: their types as functions or as either, their bindings, and the indices of sections.
FUNCTIONS, ANYTHING, LOCAL, GLOBAL, WEAK, PLACES = {0, 2}, {0, 1, 2}, 0, 1, 2, range(1, 0xFF00)
# The weak symbols that may be missing, which are then 0: code of the compiler's own start and end alone asks for them.
ABSENT = {"__gmon_start__", "_ITM_registerTMCloneTable", "_ITM_deregisterTMCloneTable", "__cxa_finalize"}

# Sections of an object file: their types, and the names of those that are in memory.
TABLE = 2
SECTIONS = {0, 1, TABLE, 3, 4, 7, 8, 14, 17, 0x6FFF4C03, 0x70000001, 0x70000003}
IN_MEMORY = re.compile(r"\.(text|rodata|data|bss|eh_frame|init_array|note)(\..*)?")


def declarations_of(header):
    """Of each function that a header declares the type of its result, and the text of its parameters."""
    declared = re.findall(r"(\w*)[\s*]+sketch_(\w+)\(([^;{}]*)\);", re.sub(r"/\*.*?\*/", "", header, flags=re.S))
    return {name: (result, text) for result, name, text in declared}


def parameters_of(header):
    """The names of the parameters of each function."""
    return {name: re.findall(r"(?!void$)(\b\w+)\)?(?:\[\d+\])?(?:,|$)", text)
            for name, (_, text) in declarations_of(header).items()}


PARAMETERS = parameters_of(HEADER)


def listed(found, known, what):
    """It is among what is known."""
    if found not in known:
        raise Stop(f"it has {what} {found if isinstance(found, str) else hex(found)}, which is not on the list of what is read")
    return found


class File:
    """The bytes of an ELF file for a processor, and what is at an offset."""

    def __init__(self, data):
        self.data = data
        self.processor = PROCESSORS[listed(self.unpack("H", 18)[0], PROCESSORS, "a processor")]

    def unpack(self, form, offset):
        return struct.unpack_from("<" + form, self.data, offset)

    def rows(self, form, offset, size, count):
        return [self.unpack(form, offset + size * i) for i in range(count)]

    def text(self, offset):
        return self.data[offset : self.data.index(0, offset)].decode()


class Library(File):
    """`functions` are addresses by name. `instructions` are, by address, a mnemonic, operands, and the next address.
    `pointers` are what the loader writes, by address: a symbol of another library, or None for this one, and a number that
    is added. `constructors` are the functions that it calls. `flags` are the bytes that these set, and `setting` says which
    they are."""

    def __init__(self, data):
        super().__init__(data)
        self.functions, self.places, self.code, self.fixed, self.pointers = {}, [], [], range(0), {}
        self.instructions, self.flags, self.setting, self.of_linker = {}, frozenset(), {}, set()
        self.read_segments()
        self.read_symbols()
        self.relocate()
        self.constructors = [self.tags[INIT]] if INIT in self.tags else []
        for at, _ in self.words_of(INITS, DATA):
            symbol, address = self.pointers.get(at, ("no function", 0))
            if symbol is not None:
                raise Stop(f"it has a constructor that is not its own: {symbol}")
            self.constructors.append(address)
        for address, offset, size in self.code:
            self.disassemble(address, data[offset : offset + size])

    # ---- what is in memory

    def read_segments(self):
        (start,), (size, count), end = self.unpack("Q", 32), self.unpack("HH", 54), 0
        segments = self.rows("IIQQQQQQ", start, size, count)
        for kind, flags, offset, address, _, stored, length, align in segments:
            listed(kind, SEGMENTS, "a segment of type")
            if kind == LOAD:
                listed(flags, {READ, CODE, DATA}, "a segment with flags")
                if address - address % max(align, PAGE) < end or (address - offset) % PAGE or offset + stored > len(self.data):
                    raise Stop("it has segments that overlap, or it is truncated")
                if stored != length and (flags != DATA or stored > length):
                    raise Stop("it has a segment with fewer bytes than are in memory")
                end = address + length + -(address + length) % PAGE
                self.places.append((address, offset, stored, length, flags))
                self.code += [(address, offset, stored)] * (flags == CODE)
            if kind == RELRO:  # once it is relocated, nobody can write it
                self.fixed = range(address, address + length)
        (address,) = (address for kind, _, _, address, *_ in segments if kind == DYNAMIC)
        self.tags, needed = {}, []
        while (tag := self.read("Q", address, DATA)[0]) != 0:
            (value,), known = self.read("Q", address + 8, DATA), TAGS[listed(tag, TAGS, "the dynamic tag")]
            listed(value, known or {value}, f"the dynamic tag {tag:#x} with")
            if tag == NEEDED:
                needed.append(value)
            elif self.tags.setdefault(tag, value) != value:
                raise Stop(f"it has the dynamic tag {tag:#x} twice")
            address += 16
        for name in map(self.name, needed):
            if not LIBRARIES.fullmatch(name):
                raise Stop(f"it needs another library: {name}")

    def offset_of(self, address, size, *flags):
        """Where bytes that are stored, in a segment with some flags, are in the file."""
        for start, offset, stored, _, own in self.places:
            if start <= address and address + size <= start + stored and own in flags:
                return offset + address - start
        raise Stop(f"it is damaged: at {address:#x} there is not what must be")

    def read(self, form, address, *flags):
        """From what nobody writes, if no flags are given."""
        return self.unpack(form, self.offset_of(address, struct.calcsize("<" + form), *flags or (READ, CODE)))

    def words_of(self, tag, *flags):
        """A table's words, with their addresses."""
        start = self.tags.get(tag)
        size = 0 if start is None else self.tags[SIZES[tag]]
        return [(at, *self.read("Q", at, *flags)) for at in range(start or 0, (start or 0) + size, 8)]

    # ---- symbols, and what the loader writes

    def name(self, i):
        return self.text(self.offset_of(self.tags[NAMES] + i, 1, READ, CODE))

    def symbol(self, i):
        name, info, _, section, value = self.read("IBBHQ", self.tags[SYMBOLS] + 24 * i)
        return self.name(name), info >> 4, info & 15, section, value

    def count_of_symbols(self):
        if GNU_HASH not in self.tags:
            return self.read("II", self.tags[HASH])[1]
        at = self.tags[GNU_HASH]
        buckets, first, bloom, _ = self.read("4I", at)
        chains = at + 16 + 8 * bloom + 4 * buckets
        last = max(self.read(f"{buckets}I", chains - 4 * buckets))
        while last >= first and not self.read("I", chains + 4 * (last - first))[0] & 1:
            last += 1
        return last + 1

    def read_symbols(self):
        for i in range(self.count_of_symbols()):
            name, binding, kind, section, value = self.symbol(i)
            if section and binding and name.startswith("sketch_"):
                self.must_be_own(name, kind, section, FUNCTIONS)
                if self.functions.setdefault(name, value) != value:
                    raise Stop(f"it has {name} in two versions")

    @staticmethod
    def must_be_own(name, kind, section, kinds):
        listed(kind, kinds, f"{name} as a symbol of type")
        listed(section, PLACES, f"{name} in the section")

    def relocate(self):
        at = 0
        for _, word in self.words_of(PACKED):  # an address, or bits for the next 63 words
            for i in range(1, 64) if word & 1 else [0]:
                if word >> i & 1 or not i:
                    place = at + 8 * i - 8 if i else word
                    self.point(place, None, self.read("Q", place, DATA)[0])
            at = at + 63 * 8 if word & 1 else word + 8
        for tag in (ADDENDS, JUMPS):
            words = [word for _, word in self.words_of(tag)]
            for place, info, addend in zip(words[::3], words[1::3], words[2::3]):
                kind, (name, binding, type, section, value) = info & 0xFFFFFFFF, self.symbol(info >> 32)
                listed(kind, {*RELATIVE, *ADDRESS, *OF_LINKER}, "a relocation of type")
                self.of_linker.update(range(place, place + 8) if kind in OF_LINKER else ())
                if kind in RELATIVE:
                    self.point(place, None, addend)
                elif section:
                    self.must_be_own(name, type, section, ANYTHING)
                    self.point(place, None, addend + value)
                else:
                    listed(binding, {GLOBAL} if name not in ABSENT else {WEAK}, f"{name}, of another library, with the binding")
                    self.point(place, "" if binding == WEAK else name, addend)

    def point(self, place, symbol, n):
        self.offset_of(place, 8, DATA)
        if not self.pointers.keys().isdisjoint(range(place - 7, place + 8)):
            raise Stop(f"it has two relocations at {place:#x}")
        self.pointers[place] = symbol, n

    # ---- instructions and memory

    def disassemble(self, start, code):
        with tempfile.NamedTemporaryFile() as file:
            file.write(code)
            file.flush()
            options = ["-D", "-z", "-b", "binary", "--no-show-raw-insn", f"--adjust-vma={start}", file.name]
            done = subprocess.run([*DISASSEMBLE[self.processor], *options], stdout=subprocess.PIPE, text=True, check=True)
        lines = re.findall(r"^ *([0-9a-f]+):\t(\S+)[ \t]*(.*?)[ \t]*(?:#(?!-?[0-9]).*|//.*)?$", done.stdout, re.M)
        ends = [int(at, 16) for at, _, _ in lines[1:]] + [start + len(code)]
        self.instructions |= {int(at, 16): (op, rest, end) for (at, op, rest), end in zip(lines, ends)}

    def instruction(self, at):
        """The one at an address, also if the bytes before it are none; or None."""
        for start, offset, size in self.code:
            if start <= at < start + size and at not in self.instructions:
                self.disassemble(at, self.data[offset + at - start : offset + size])
        return self.instructions.get(at)

    @functools.cache
    def uses(self, pattern):
        """Whether an instruction has operands like this."""
        return any(re.search(pattern, text) for _, text, _ in self.instructions.values())

    @functools.cache
    def has_bits(self, start):
        """Whether there is a table of 1, 2, 4 and so on to 2^31, which nobody writes."""
        places, bits = range(start, start + 128), b"".join(struct.pack("<I", 1 << i) for i in range(32))
        is_written = any(map(self.is_writable, places)) or not self.pointers.keys().isdisjoint(range(start - 7, start + 128))
        return not is_written and [self.byte(at) for at in places] == [*bits]

    def byte(self, address):
        """A byte before the constructors run; or None."""
        for start, offset, stored, size, _ in self.places:
            if start <= address < start + size:
                return self.data[offset + address - start] if address < start + stored else 0
        return None

    def is_writable(self, address):
        return address not in self.fixed and any(
            start <= address < start + size and flags == DATA for start, _, _, size, flags in self.places)

    def writable(self):
        return [at for start, _, _, size, flags in self.places if flags == DATA for at in range(start, start + size)
                if at not in self.fixed]


# ---- object files, and archives

class Object(File):
    """An object file, which must have nothing that makes a linker of another program do something else with it."""

    def __init__(self, data):
        super().__init__(data)
        (start,), (size, count, names) = self.unpack("Q", 40), self.unpack("3H", 58)
        sections = self.rows("IIQQQQII", start, size, count)
        for name, kind, flags, *_ in sections:
            name = self.text(sections[names][4] + name)
            if re.match(r"\.gnu\.lto_|\.llvm(bc|\.lto)", name):
                raise Stop("it is for optimization at link time (-flto): check what the linker makes of it")
            listed(kind, SECTIONS, f"the section {name} of type")
            if flags & 2 and not IN_MEMORY.fullmatch(name):
                raise Stop(f"it has the section {name}, which is not on the list of what is read")
        self.changed = bytearray(data)
        for _, kind, _, _, offset, length, link, _ in sections:
            for at in range(offset, offset + length, 24) if kind == TABLE else ():
                self.read_symbol(at, sections[link][4])

    def read_symbol(self, at, names):
        """A function of the library may be hidden. Then it is shown here."""
        name, info, _, section = self.unpack("IBBH", at)
        name, binding = self.text(names + name), info >> 4
        if section == 0xFFF2:
            raise Stop(f"it has the common symbol {name}, of which a linker may take another one")
        if name.startswith("sketch_") and binding != LOCAL:
            listed(binding, {GLOBAL}, f"{name} with the binding")
            self.changed[at + 5] &= ~3

    def linked(self):
        with tempfile.TemporaryDirectory() as tmp:
            path, linker = pathlib.Path(tmp, "object.o"), LINKERS[self.processor]
            path.write_bytes(self.changed)
            run = subprocess.run([linker, "-shared", "-Bsymbolic", "-o", f"{tmp}/linked", path], capture_output=True, text=True)
            if run.returncode:
                raise Stop(f"{linker} cannot link it: {' '.join(run.stderr.split())}")
            return pathlib.Path(tmp, "linked").read_bytes()


def member_of(archive):
    """The object file in an archive of one."""
    at, found = len(ARCHIVE), []
    while at < len(archive):
        name, size = archive[at : at + 16].decode().strip(), int(archive[at + 48 : at + 58])
        if name not in ("/", "//", "/SYM64/"):
            found.append(archive[at + 60 : at + 60 + size])
        at += 60 + size + size % 2
    if len(found) != 1:
        raise Stop(f"it is an archive of {len(found)} object files: check one, or link them to a library")
    return found[0]


def read(path):
    """A shared library, an object file, an archive of one, or a module."""
    data = path.read_bytes()
    try:
        library = read_data(data)
    except (struct.error, ValueError, KeyError, IndexError, TypeError) as error:
        raise NoLibrary(f"it is truncated or damaged: {error}") from None
    others = {name for name in library.functions if name.removeprefix("sketch_") not in PARAMETERS}
    if others == library.functions.keys():
        raise NoLibrary("it has no function of the header")
    if others and isinstance(library, Module):
        raise Stop(f"it exports {', '.join(sorted(others))}, which may change its data")
    return library


def read_data(data):
    if data.startswith(MAGIC):
        return Module(data)
    if data.startswith(ARCHIVE):
        data = member_of(data)
    if data.startswith(b"BC\xc0\xde"):
        raise Stop("it is LLVM bitcode, for optimization at link time (-flto): check what the linker makes of it")
    if not data.startswith(ELF):
        raise NoLibrary("it is no ELF library or object of 64 bits, no archive of one, and no WebAssembly module")
    kind = listed(struct.unpack_from("<H", data, 16)[0], {OBJECT, SHARED}, "an ELF type")
    return Library(Object(data).linked() if kind == OBJECT else data)
