"""A WebAssembly module, decoded from its bytes: its functions, as instructions of a machine with registers.

Validation makes the height of the value stack known at each instruction. So each local and each place of that stack is a
register of its function, by its index. A call's operands become the first registers of what it calls, and the first of those
is its result. Structured control becomes jumps.
"""
import bisect

from values import NoLibrary, Stop

MAGIC = b"\0asm"
COMPARISONS = "eqz eq ne lt_s lt_u gt_s gt_u le_s le_u ge_s ge_u".split()
ARITHMETIC = "clz ctz popcnt add sub mul div_s div_u rem_s rem_u and or xor shl shr_s shr_u rotl rotr".split()
EXTENSIONS = ["extend8_s", "extend16_s", "extend32_s"]
NUMERIC = {start + i: f"{kind}.{name}" for start, kind, names in (
    (0x45, "i32", COMPARISONS), (0x50, "i64", COMPARISONS), (0x67, "i32", ARITHMETIC), (0x79, "i64", ARITHMETIC),
    (0xA7, "i32", ["wrap_i64"]), (0xAC, "i64", ["extend_i32_s", "extend_i32_u"]), (0xC0, "i32", EXTENSIONS[:2]),
    (0xC2, "i64", EXTENSIONS)) for i, name in enumerate(names)}
BINARY = {*COMPARISONS[1:], *ARITHMETIC[3:]}
# A width, how many bytes are read, and how they are extended.
LOADS = {0x28: (32, 4, "u"), 0x29: (64, 8, "u"), **{start + i: (width, size, sign) for start, width, sizes in (
    (0x2C, 32, (1, 2)), (0x30, 64, (1, 2, 4))) for i, (size, sign) in enumerate((n, s) for n in sizes for s in "su")}}
STORES = {0x36: 4, 0x37: 8, 0x3A: 1, 0x3B: 2, 0x3C: 1, 0x3D: 2, 0x3E: 4}
CONSTANTS = {0x41: "i32", 0x42: "i64"}
TYPES = {0x7F: 32, 0x7E: 64}
BLOCK, LOOP, FUNCTION = 0x02, 0x03, None


class Label:
    """A block that is not ended. `jumps` are the targets of jumps to its end, which is not known before."""

    def __init__(self, kind, height, is_dead, start):
        self.kind, self.height, self.is_dead, self.start, self.jumps = kind, height, is_dead, start, []


class Module:
    """As a library. An instruction is a name, operands, and the next address; a target is a list of one address."""

    processor, pointers, constructors, setting = "wasm", {}, [], {}

    def __init__(self, data):
        self.data, self.at, self.flags, self.instructions, self.memories = data, 8, frozenset(), {}, []
        self.types, self.signatures, self.globals, self.exports, self.bodies, self.places = [], [], [], {}, [], []
        if data[:8] != MAGIC + b"\1\0\0\0":
            raise NoLibrary("it is no WebAssembly module of version 1")
        self.read_sections()
        if len(self.memories) != 1:
            raise Stop(f"it has {len(self.memories)} memories, and not one")
        ends = [0, *(start + size for start, _, size in self.places)]
        if any(start < end for (start, _, _), end in zip(self.places, ends)) or ends[-1] > self.memories[0]:
            raise Stop("it has data that overlaps, or that is outside of its memory")
        self.functions = {name: self.bodies[i][0] for name, i in self.exports.items()}
        self.entries = {start: (*signature, count) for (start, count), signature in zip(self.bodies, self.signatures)}

    def read_sections(self):
        """Those that may follow, in their order, and how each of their parts is read. 12 says how many parts 11 has, which an
        engine compares; 0 has names and the like."""
        readers = {1: self.read_type, 3: self.read_function, 5: self.read_memory, 6: self.read_global, 7: self.read_export,
                   12: None, 10: self.read_body, 11: self.read_data}
        while self.at < len(self.data):
            section, size = self.byte_of_file(), self.unsigned()
            end = self.at + size
            if section and section not in readers:
                raise Stop(f"its section {section} is not on the list of what is read, or not in its place")
            if section not in (0, 12):
                for _ in range(self.unsigned()):
                    readers[section]()
            if end > len(self.data) or section not in (0, 12) and self.at != end:
                raise NoLibrary(f"its section {section} is truncated, or has another size")
            self.at = end
            readers = {other: read for other, read in readers.items() if [*readers].index(other) > [*readers].index(section)
                       } if section else readers

    def instruction(self, at):
        return self.instructions.get(at)

    def byte(self, address):
        """Of memory before a call; or None."""
        return next((self.data[offset + address - start] for start, offset, size in self.places
                     if start <= address < start + size), None)

    def is_writable(self, address):
        """Between calls nobody writes its data."""
        return False

    # ---- the sections

    def byte_of_file(self):
        self.at += 1
        return self.data[self.at - 1]

    def unsigned(self):
        n = shift = 0
        while True:
            byte = self.byte_of_file()
            n, shift = n | (byte & 127) << shift, shift + 7
            if byte < 128:
                return n

    def signed(self):
        start = self.at
        n = self.unsigned()
        bits = 7 * (self.at - start)
        return n - (n >> bits - 1 << bits)

    def several(self, read):
        return [read() for _ in range(self.unsigned())]

    def must_be(self, found, expected):
        if found not in expected:
            raise Stop(f"{found:#x} at {self.at - 1:#x} is not understood")
        return found

    def width(self):
        return TYPES[self.must_be(self.byte_of_file(), TYPES)]

    def read_type(self):
        self.must_be(self.byte_of_file(), [0x60])
        self.types.append((self.several(self.width), self.several(self.width)))

    def read_function(self):
        self.signatures.append(self.types[self.unsigned()])

    def read_memory(self):
        has_limit = self.must_be(self.byte_of_file(), [0, 1])
        self.memories.append(self.unsigned() << 16)
        if has_limit:
            self.unsigned()

    def constant(self):
        self.must_be(self.byte_of_file(), CONSTANTS)
        n = self.signed()
        self.must_be(self.byte_of_file(), [0x0B])
        return n

    def read_global(self):
        self.globals.append((self.width(), self.byte_of_file(), self.constant()))

    def read_export(self):
        name, kind, index = bytes(self.several(self.byte_of_file)).decode(), self.byte_of_file(), self.unsigned()
        if self.must_be(kind, [0, 2, 3]) == 0:
            self.exports[name] = index
        elif kind == 3 and self.globals[index][1]:
            raise Stop(f"it exports {name}, a global that anybody can change")

    def read_data(self):
        self.must_be(self.unsigned(), [0])
        start, size = self.constant(), self.unsigned()
        self.places.append((start, self.at, size))
        self.at += size

    # ---- a function

    def read_body(self):
        size, (parameters, self.results) = self.unsigned(), self.signatures[len(self.bodies)]
        end, self.height, self.code = self.at + size, len(parameters), []
        for _ in range(self.unsigned()):
            self.height += self.unsigned()
            self.width()
        count = self.height
        self.labels, self.is_dead = [Label(FUNCTION, self.height, False, None)], False
        try:
            while self.labels:
                self.decode()
        except Stop as stop:  # it is not known either where the next instruction begins
            self.code.append((self.start, f"opcode {self.data[self.start]:#x}", str(stop)))
            self.at = end
        starts = [at for at, _, _ in self.code]
        self.bodies.append((starts[0], count))
        for (at, name, operands), following in zip(self.code, [*starts[1:], None]):
            for target in operands[0] if name in ("br", "br_if", "br_table") else ():
                if target[0] is not None:
                    target[0] = starts[bisect.bisect_left(starts, target[0])]  # the first instruction from there on
            self.instructions[at] = name, operands, following

    def emit(self, name, *operands):
        """What no jump reaches is left out: there the height of the stack is not known."""
        if not self.is_dead:
            self.code.append((self.start, name, operands))

    def pop(self, count=1):
        self.height -= count
        return self.height

    def push(self):
        self.height += 1
        return self.height - 1

    def target(self):
        label = self.labels[-1 - self.unsigned()]
        if label.kind is FUNCTION and self.results:
            raise Stop("a jump that returns a value")
        target = [label.start]
        if not self.is_dead and label.kind != LOOP:
            label.jumps.append(target)
        return target

    def end(self):
        label = self.labels.pop()
        for target in label.jumps:
            target[0] = self.start
        self.is_dead = label.is_dead or self.is_dead and not label.jumps
        if label.kind is FUNCTION:
            self.emit("return", self.height - len(self.results), self.results)
        self.height = label.height

    def decode(self):
        self.start, op = self.at, self.byte_of_file()
        if op == 0xFC:
            op = op << 8 | self.unsigned()
        if op in (BLOCK, LOOP):
            self.must_be(self.byte_of_file(), [0x40])  # it has no values
            self.labels.append(Label(op, self.height, self.is_dead, self.at))
        elif op in NUMERIC:
            count = 2 if NUMERIC[op][4:] in BINARY else 1
            self.emit(NUMERIC[op], self.pop(count), count)
            self.push()
        elif op in LOADS:
            self.emit("load", self.height - 1, self.offset(), *LOADS[op])
        elif op in STORES:
            self.emit("store", self.pop(2), self.offset(), STORES[op])
        elif op in CONSTANTS:
            self.emit("const", self.push(), self.signed())
        elif op in OTHERS:
            OTHERS[op](self)
        else:
            raise Stop("the instruction is not known")

    def offset(self):
        """After the alignment, which is a hint."""
        self.unsigned()
        return self.unsigned()

    def leave(self, name, *operands):
        self.emit(name, *operands)
        self.is_dead = True

    def call(self):
        index = self.unsigned()
        parameters, results = self.signatures[index]
        self.emit("call", self.pop(len(parameters)), index)
        self.height += len(results)

    def access(self, name, count, zeros):
        """Of many bytes, in the only memory."""
        self.at += zeros
        self.emit(name, self.pop(count))


OTHERS = {
    0x00: lambda m: m.leave("unreachable"), 0x01: lambda m: None, 0x0B: Module.end,
    0x0C: lambda m: m.leave("br", [m.target()]), 0x0D: lambda m: m.emit("br_if", [m.target()], m.pop()),
    0x0E: lambda m: m.leave("br_table", [*m.several(m.target), m.target()], m.pop()),
    0x0F: lambda m: m.leave("return", m.height - len(m.results), m.results), 0x10: Module.call, 0x1A: Module.pop,
    0x1B: lambda m: m.emit("select", m.pop(2) - 1),
    0x20: lambda m: m.emit("move", m.push(), m.unsigned()), 0x21: lambda m: m.emit("move", m.unsigned(), m.pop()),
    0x22: lambda m: m.emit("move", m.unsigned(), m.height - 1),
    0x23: lambda m: m.emit("global.get", m.push(), m.unsigned()), 0x24: lambda m: m.emit("global.set", m.pop(), m.unsigned()),
    0xFC0A: lambda m: m.access("memory.copy", 3, 2), 0xFC0B: lambda m: m.access("memory.fill", 3, 1),
}
