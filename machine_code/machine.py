"""What the processors have in common: memory, conditions, and a run from a call to its return."""
import functools
import inspect
import pathlib

import values
from library import PARAMETERS
from values import (Stop, Undecided, add, are_equal, atoms_in, bitwise, complement, cut, decided, extend, facts, gap_of,
                    greatest, is_below, is_not_negative, is_zero, join, kinds, known, linear, must_equal, number, number_in,
                    power_of_two, repeat, shift_left, sign_extend, signed, sub, total, unknown, width_of)

IMAGE = extend(join(number(0, 12), unknown("image", 50, 1)))  # where the library is
CALLER = extend(unknown("caller", 62, 1))  # where a call returns to
STACK = 4096  # how much of it a call may use
OPPOSITE = {"ne": "e", "ae": "b", "a": "be", "ns": "s", "ge": "l"}


def shift_one(x, n):
    """1 shifted to the left by a number that may be an unknown."""
    if x != number(1, 32) or number_in(cut(n, 5, 27)) != 0:
        raise Stop("a shift that is not understood")
    return power_of_two(cut(n, 0, 5), 32)


def count_of(x, n):
    """By how many bits x is shifted: the lowest bits of a number."""
    return cut(n, 0, 6 if width_of(x) == 64 else 5)


def shifted(function):
    """A shift of a register. An unknown number shifts 1 alone."""
    def run(x, n):
        n = count_of(x, n)
        if number_in(n) is None and function is shift_left:
            return shift_one(x, extend(n, 32))
        return function(x, known(n, "a shift"))

    return run


def on_numbers(function, is_signed=False):
    """All operands are known."""
    def run(*values):
        numbers = [known(sign_extend(x, 64) if is_signed else x, "a number") for x in values]
        return number(function(*(map(signed, numbers) if is_signed else numbers)), width_of(values[0]))

    return run


def if_equal(x, y):
    """All bits if two lanes are equal, else none."""
    return repeat(is_zero(bitwise("xor", x, y)), width_of(x))


def plain(function):
    """An operation that sets no condition."""
    return lambda machine, *values: function(*values)


def reads(function):
    """How many operands an operation must be given."""
    return sum(item.default is item.empty for item in inspect.signature(function).parameters.values())


def logic(op):
    return lambda machine, x, y: machine.compare("logic", x, y, bitwise(op, x, y))


def side_by_side(bytes):
    """The value of some bytes, each of which is a value and the bit of it from which on it has the byte."""
    parts = []
    for value, bit in bytes:
        if parts and parts[-1][0] is value and parts[-1][1] + parts[-1][2] == bit:
            parts[-1][2] += 8
        else:
            parts.append([value, bit, 8])
    return join(*(cut(*part) for part in parts))


@functools.lru_cache(1 << 16)
def place_of(address):
    """An address as what it is relative to, and an offset."""
    n, factors = linear(address)
    return tuple(sorted(factors.items())), signed(n)


IN_IMAGE = place_of(IMAGE)[0]


@functools.cache
def forms_of(processor):
    """The forms of instructions that `test_instructions.py` has compared with the processor and has written: by line
    mnemonics with their prefixes, and the operands that each of them takes."""
    lines = pathlib.Path(__file__).with_name(f"forms_{processor}.txt").read_text().splitlines()
    groups = [[part.split() for part in line.split(" : ")] for line in lines]
    return frozenset(f"{name} {form}" for names, forms in groups for name in names for form in forms)


@functools.cache
def external(name):
    """The address of a function or of data of another library; of "", which is none, 0."""
    return extend(unknown(("external", name), 62, 1)) if name else number(0)


class Setting(Exception):
    """A byte that constructors set is read, and it is not said which it is."""


def contents(name, offset, count):
    """What some bytes of an array are before a call."""
    base, at = place_of(offset)
    return [unknown((name, base, at + i), 8) for i in range(count)]


class Array:
    """Bytes in memory, as many as an unknown says. What is in them is unknown too, until they are written.

    A call reads and writes at or after `first` alone, an offset."""

    def __init__(self, name, at, length, is_writable=False):
        self.name, self.at, self.length, self.is_writable = name, at, extend(length), is_writable
        self.first, self.written = number(0), {}

    def offset_of(self, address, size):
        """The offset of an access that is within the array, or None."""
        if not set(linear(self.at)[1]) <= set(linear(address)[1]):
            return None
        offset = sub(address, self.at)
        before, behind = gap_of(self.first, offset), gap_of(offset, self.length)
        if before and behind and is_not_negative(*before) and is_not_negative(behind[0] - size, behind[1]):
            return offset
        return None

    def must_not_overlap(self, offset):
        """What is written at offsets that are made of other unknowns is before it."""
        for base in {base for base, _ in self.written} - {place_of(offset)[0]}:
            last = max(at for other, at in self.written if other == base)
            after = gap_of(add(total(last, dict(base)), number(1)), offset)
            if not (after and is_not_negative(*after)):
                raise Stop("an access that perhaps overlaps what the call has written")

    def begin_at(self, offset):
        """What is before it is finished."""
        self.first, self.written = offset, {}

    def load(self, offset, size):
        self.must_not_overlap(offset)
        base, at = place_of(offset)
        before = contents(self.name, offset, size)
        return [self.written.get((base, at + i)) or (before[i], 0) for i in range(size)]

    def store(self, offset, value):
        self.must_not_overlap(offset)
        base, at = place_of(offset)
        self.written |= {(base, at + i): (value, 8 * i) for i in range(width_of(value) // 8)}

    def must_have_written(self, values):
        """What is at `first` now is these values, one behind the other, and nothing else is written."""
        expected = [(value, bit) for value in values for bit in range(0, width_of(value), 8)]
        (base, at), before = place_of(self.first), contents(self.name, self.first, len(expected))
        for i, (value, bit) in enumerate(expected):
            found, start = self.written.get((base, at + i), (before[i], 0))
            must_equal(cut(found, start, 8), cut(value, bit, 8), "what is written")
        if self.written.keys() - {(base, at + i) for i in range(len(expected))}:
            raise Stop("more is written than must be")


class Machine:
    """One call. A subclass has the registers and the instructions of a processor."""

    is_loading = False  # whether it runs constructors
    form_of = None  # gives the form of an instruction, which must be among `forms`
    size, image, limit = 64, IMAGE, 1_000_000  # bits of a size; where the library is; how many instructions a run may have

    def __init__(self, library):
        values.begin("call", "open")
        self.library, self.registers, self.bytes, self.writable, self.arrays = library, {}, {}, set(), []
        # Of the call: what it writes, the filter, the hash of its key once that is known, and the heads of its loops.
        self.target, self.filter, self.answer, self.heads = None, None, None, []
        self.flags, self.at, self.next, self.executed = None, None, None, []
        self.stack = self.stack_pointer()
        self.set_up()
        self.base, top = place_of(self.stack)
        # Its areas: the lowest byte that the call may use now, and what is above it. Once the pointer is aligned, at a place
        # that depends on the caller's, there is one more, which is below the first.
        self.areas = {self.base: (top - self.red_zone, top)}

    def stack_pointer(self):
        """Before the call."""
        return extend(join(number(self.entry, 4), unknown("stack", 58, 1 << 16)))

    def map(self, address, values, writable=False):
        """Memory with these values, each of some bytes."""
        base, at = place_of(address)
        for value in values:
            for i in range(width_of(value) // 8):
                self.bytes[base, at] = value, 8 * i
                if writable:
                    self.writable.add((base, at))
                at += 1

    def give(self, array):
        self.arrays.append(array)
        return array

    def may_use(self, base, at):
        """Whether this byte is in what the call may use of the stack now."""
        end, top = self.areas.get(base, (0, 0))
        return end <= at < top

    def in_array(self, address, size):
        for array in self.arrays:
            offset = array.offset_of(address, size)
            if offset is not None:
                return array, offset
        raise Stop("an access outside of what the call is given")

    def byte(self, base, at):
        """A value and the bit of it from which on it has this byte."""
        if (base, at) in self.bytes:
            return self.bytes[base, at]
        if self.may_use(base, at):
            return self.anything((base, at)), 0  # nothing has written it
        if base != place_of(self.image)[0]:
            is_below = base in self.areas and at < self.areas[base][0]
            raise Stop("a read below the stack" if is_below else "a read outside of what the call is given")
        return self.byte_of_image(at)

    def anything(self, name, width=8):
        """A value that no other value is known to equal."""
        return unknown(("anything", name, len(self.executed)), width)

    def byte_of_image(self, at):
        if at in self.library.flags:
            if at not in self.library.setting:
                raise Setting(at)
            return number(self.library.setting[at], 8), 0
        if self.library.is_writable(at) and not self.is_loading and at not in self.library.of_linker:
            raise Stop("a read of what others may have written")
        for place in range(at - 7, at + 1):
            if place in self.library.pointers:
                symbol, n = self.library.pointers[place]
                return add(IMAGE if symbol is None else external(symbol), number(n)), 8 * (at - place)
        found = self.library.byte(at)
        if found is None:
            raise Stop("a read outside of what the call is given")
        return number(found, 8), 0

    def bit_of_table(self, address):
        """A word of a table of the library that has 2^i at index i, at an unknown index of five bits; else None."""
        start, factors = linear(sub(address, self.image))
        is_by_word = [(width, factor) for (_, _, width), factor in factors.items()] == [(5, 4)]
        return power_of_two(tuple(factors), 32) if is_by_word and self.library.has_bits(start) else None

    def load(self, address, size):
        base, start = place_of(address)
        bit = self.bit_of_table(address) if len(base) == 2 and size == 4 else None
        if bit is not None:
            return bit
        if base in (place_of(self.image)[0], *self.areas) or any((base, start + i) in self.bytes for i in range(size)):
            found = [self.byte(base, start + i) for i in range(size)]
        else:
            array, offset = self.in_array(address, size)
            found = array.load(offset, size)
        return side_by_side(found)

    def store(self, address, value):
        (base, start), size = place_of(address), width_of(value) // 8
        places = [(base, start + i) for i in range(size)]
        if all(place in self.writable or self.may_use(*place) for place in places):
            self.bytes |= {place: (value, 8 * i) for i, place in enumerate(places)}
            return
        array, offset = self.in_array(address, size)
        if not array.is_writable:
            raise Stop("a write to what the call may only read")
        array.store(offset, value)

    def move_stack(self):
        """After the stack pointer has changed: what is below the stack may change at any time."""
        base, at = place_of(self.registers[self.pointer])
        if base not in self.areas or not -STACK <= at - self.areas[base][1] <= 0:
            raise Stop("the stack pointer leaves the stack")
        self.end_area(base, at - self.red_zone)
        for other in self.areas.keys() - {base, self.base}:
            self.end_area(other, 0)
            del self.areas[other]

    def end_area(self, base, end):
        before, top = self.areas[base]
        self.areas[base] = end, top
        for below in range(before, end):
            self.bytes.pop((base, below), None)

    def align_stack(self, mask):
        """Before the pointer is aligned, to a place that is a little lower: a new area is what is below it, and the first one
        ends where the pointer was."""
        before = self.registers[self.pointer]
        (base, at), (other, top) = place_of(before), place_of(bitwise("and", before, number(mask)))
        if base == other:
            return
        if base != self.base or signed(mask) < -64:
            raise Stop("an alignment of the stack that is not understood")
        self.end_area(base, at)
        self.areas[other] = top, top

    def must_be_aligned(self, address, size=16):
        base, at = place_of(address)
        if any(n % size for n in (at, *(factor for _, factor in base))):
            raise Stop("an access that is perhaps not aligned")

    # ---- conditions, by the names that x86-64 has for them

    def compare(self, what, x, y, result):
        self.flags = what, x, y, result
        return result

    def condition(self, name):
        """One bit. The last comparison was a "sub", an "add", something "logic"al, an "other" that sets no carry, or one that
        sets these "bits"."""
        if name in OPPOSITE:
            return complement(self.condition(OPPOSITE[name]))
        if not self.flags or not self.flags[0] or name not in ("e", "b", "be", "s", "l"):
            raise Stop(f"the condition {name} is not known here")
        what, x, y, result = self.flags
        if name == "l" and (what == "logic" or what == "sub" and number_in(y) == 0):
            name = "s"  # there is no overflow
        if name == "s" and what in ("sub", "add", "logic", "other") and result is not None:
            sign = cut(result, width_of(result) - 1, 1)
            return facts.get(sign, sign)
        if name == "l":
            raise Stop("a signed comparison that is not understood")
        if what == "bits":
            found = {"e": x, "b": y, "be": x and bitwise("or", x, y)}.get(name)
            if not found:
                raise Stop(f"the condition {name} is not known here")
            return found
        if name == "e":
            return are_equal(x, y) if what == "sub" else are_equal(result, number(0, width_of(result)))
        if what == "sub":
            return number(is_below(x, y) if name == "b" else not is_below(y, x), 1)
        carry = what == "add" and (greatest(x) + greatest(y)) >> width_of(x)
        if what == "other" or carry and None in (number_in(x), number_in(y)):
            raise Stop("a carry that is not known")
        return number(carry, 1) if carry or name == "b" else self.condition("e")

    def holds(self, name):
        if name in ("le", "g"):
            return (self.holds("l") or self.holds("e")) == (name == "le")
        bit = self.condition(name)
        if number_in(bit) is None and name in ("s", "ns", "l", "ge"):
            decided(self.condition("s"), "a sign")
        if number_in(bit) is None and name in ("e", "ne"):
            zero, value, yes, no = self.condition("e"), self.flags[3], number(1, 1), number(0, 1)
            raise Undecided("whether a value is 0", ({zero: yes, complement(zero): no, value: number(0)}, []),
                            ({zero: no, complement(zero): yes}, []))
        return known(bit, "a branch")

    def subtract(self, x, y):
        return self.compare("sub", x, y, sub(x, y))

    def sum(self, x, y):
        return self.compare("add", x, y, add(x, y))

    def with_carry(self, x, y, carry, sign):
        """The sum of two numbers and a carry, or their difference. If all are known it sets conditions."""
        result = add(add(x, y, sign), extend(carry, width_of(x)), sign)
        numbers = [number_in(item) for item in (x, y, carry)]
        if None in numbers:
            return self.compare(None, x, y, result)
        whole = numbers[0] + sign * (numbers[1] + numbers[2])
        self.compare("bits", is_zero(result), number(not 0 <= whole < 1 << width_of(x), 1), None)
        return result

    # ---- a run

    def begin(self, function, arguments):
        """More arguments than the header has would let the call write to the stack of its caller."""
        if len(arguments) != len(PARAMETERS.get(function, ())):
            raise Stop("the header has another number of parameters")
        if f"sketch_{function}" not in self.library.functions:
            raise Stop("the library does not have it")
        values.arguments |= zip(PARAMETERS[function], arguments)
        self.begin_at(self.library.functions[f"sketch_{function}"], arguments)

    def begin_at(self, address, arguments):
        self.registers[self.pointer], self.at = self.stack, address
        self.move_stack()
        self.pass_arguments(arguments)
        self.before = dict(self.registers)

    def go(self, head=None, arrivals=1):
        """Runs to the end of the call, or up to an instruction, arriving there so often. Returns whether it did."""
        while self.at != CALLER:
            instruction = self.library.instruction(self.at)
            if not instruction or len(self.executed) > self.limit:
                raise Stop("no end" if instruction else "a jump to where no instruction is")
            before = self.registers[self.pointer]
            self.execute(*instruction)
            self.at = self.next
            if self.registers[self.pointer] is not before and self.at != CALLER:
                self.move_stack()
            if self.at == head:
                arrivals -= 1
                if not arrivals:
                    return True
        self.must_have_restored()
        return False

    def go_to(self, address):
        """A jump to an instruction of the library, to the caller, or to a function of another library, which returns."""
        base, at = place_of(address)
        if base == place_of(self.image)[0]:
            self.next = at
        elif address == CALLER:
            self.next = CALLER
        else:
            unknowns = (kinds[a][1] for a in atoms_in(address) if kinds[a][0] == "unknown")
            names = [name[1] for name in unknowns if name[0] == "external" and external(name[1]) == address]
            if not names:
                raise Stop("a jump to where no function is known")
            self.call_external(*names)

    def call_external(self, name):
        """What it may change is anything after it."""
        if name not in EXTERNAL:
            raise Stop(f"a call of {name}")
        result = EXTERNAL[name](self, *(self.registers[register] for register in self.argument_registers))
        back = self.return_address()
        for register, value in self.registers.items():
            kept = width_of(value) if register == self.pointer else self.kept.get(register, 0)
            rest = width_of(value) - kept
            self.registers[register] = join(cut(value, 0, kept), self.anything(register, rest)) if rest else value
        base, pointer = place_of(self.registers[self.pointer])
        self.bytes = {place: byte for place, byte in self.bytes.items() if place[0] != base or place[1] >= pointer}
        self.registers[self.result_register], self.flags = result, None
        self.go_to(back)

    def execute(self, op, operands, following):
        self.next = following
        self.executed.append(self.at)
        try:
            if self.form_of and self.form_of(op, operands) not in self.forms:
                raise Stop("its form is not among those that were compared with a processor")
            self.step(op, operands)
        except Stop as stop:
            stop.args = (f"{self.at:x}: {op} {operands}: {stop}",)
            raise
        except (KeyError, ValueError, IndexError, TypeError, AttributeError) as error:
            raise Stop(f"{self.at:x}: {op} {operands}: not understood: {error!r}") from None

    def must_have_restored(self):
        for name, width in self.kept.items():
            if cut(self.registers[name], 0, width) != cut(self.before[name], 0, width):
                raise Stop(f"{name} is not restored")
        if self.registers[self.pointer] != add(self.before[self.pointer], number(self.popped)):
            raise Stop("the stack pointer is not restored")

    # ---- what it must leave

    def must_return(self, value):
        if value is not None:
            must_equal(cut(self.registers[self.result_register], 0, width_of(value)), value, "the result")

    def must_have(self, address, values):
        """These values in memory, one behind the other. None is any byte."""
        for value in values:
            size = width_of(value) // 8 if value is not None else 1
            if value is not None:
                must_equal(self.load(address, size), value, "what is written")
            address = add(address, number(size))


# ---- functions of the C library, as its standard defines them

def copy(machine, to, source, size, *_):
    (base, at), (other, start), n = place_of(to), place_of(source), known(size, "the size of a copy")
    if base == other and abs(at - start) < n and at != start:
        raise Stop("a copy to where it is from")
    return move(machine, to, source, size)


def storing(value_of):
    """A function that stores a value of so many bytes, which it makes of its second argument."""
    def run(machine, to, what, size, *_):
        n = known(size, "the size of a copy")
        if n:
            machine.store(to, value_of(machine, what, n))
        return to

    return run


move = storing(Machine.load)
fill = storing(lambda machine, byte, n: repeat(cut(byte, 0, 8), n))


def with_size(function):
    """As its fortified form: it is given how much there is, too."""
    def run(machine, to, what, size, room, *_):
        if is_below(room, size):
            raise Stop("a copy that does not fit")
        return function(machine, to, what, size)

    return run


EXTERNAL = {"memcpy": copy, "memmove": move, "memset": fill}
EXTERNAL["bzero"] = lambda machine, to, size, *_: fill(machine, to, number(0), size)
EXTERNAL |= {f"__{name}_chk": with_size(function) for name, function in EXTERNAL.items()}
