"""Numbers that depend on unknowns, in a normal form: two values with one form are equal, whatever the unknowns are.

A value has a fixed width. It is a tuple of pieces, the lowest first: (atom, low, width) is `width` bits of an atom, from
bit `low` on, and (NUMBER, n, width) is the number n. An atom is an unknown, or an operation that no rule below makes
simpler; it is known by what it is made of. Each rule gives a value that is equal to what it was made from. Equal values
may keep different forms: then a comparison fails that should not. Different values never get one form.
"""
import contextlib
import functools
import itertools
import math
import random

NUMBER = -1
WORD = 1 << 64
BITS = {"and": lambda x, y: x & y, "or": lambda x, y: x | y, "xor": lambda x, y: x ^ y}
kinds, ranges, indices = [], [], {}  # of each atom: what it is made of, its least and greatest value; and its index
assumed, promised = (), ()  # what the present case assumes: pairs of the next two, and bounds. The next five follow from it
facts = {}  # values, and what they equal
equations = []  # what those that are sums say of a piece of each: that it equals a number and pieces with factors
bounds = []  # sums, each as a number and factors of pieces, that are not negative as integers
having = {}  # by piece the indices of the bounds that have it
implied = {}  # questions about sums, and whether the bounds answer them
arguments = {}  # of the present case's call, by name
stage = None  # of the present case, if there is one: "open", "call" once its call has begun, "loop" once that is in any turn
remember = functools.lru_cache(1 << 16)


class Stop(Exception):
    """What is asked is not shown: the code does what is not allowed, or what is not understood."""


class NoLibrary(Stop):
    """The file is none that is checked."""


class Differs(Stop):
    """What the code leaves has another form than what it must leave. `input` is numbers for which both differ, as text, if
    some are found."""

    def __init__(self, what, found, expected):
        super().__init__(f"{what} is not what the definitions say")
        self.pair, self.input = (found, expected), None


class Undecided(Stop):
    """A choice that depends on unknowns. `ways` are the facts of either path: pairs of equalities and of bounds."""

    def __init__(self, what, *ways):
        super().__init__(f"a choice depends on an unknown: {what}")
        self.ways = ways


def must_equal(found, expected, what):
    if found != expected and reduced(found) != reduced(expected):
        raise Differs(what, found, expected)


@contextlib.contextmanager
def case(*ways):
    """What one call does, with these ways from its choices. What is assumed within it holds until its end, and nothing else
    does: there is no case within it, no second call, and no assumption outside of one."""
    begin("open", None)
    try:
        assume(ways)
        yield
        if promised and Search(promised, {}).run() is None:  # of its choices one holds in any case
            raise Stop("no numbers are known that keep what a case assumes")
    except Differs as stop:
        if stage == "call":
            stop.input = input_of(stop.pair)
        raise
    finally:
        end()


def begin(now, *before):
    """The present case is at its next stage."""
    global stage
    if stage not in before:
        raise RuntimeError(f"{now} in a case that is at {stage}")
    stage = now


def end():
    global stage, promised
    stage, promised = None, ()
    arguments.clear()
    assume(())


def assume(ways):
    """From now on these facts hold, and no others."""
    global assumed
    assumed = ways
    equalities = dict(pair for way in ways for pair in way[0].items())
    bounds[:] = [bound for way in ways for bound in way[1]]
    having.clear()
    implied.clear()
    for i, (_, factors) in enumerate(bounds):
        for piece in factors:
            having.setdefault(piece, []).append(i)
    if equalities != facts:
        facts.clear()
        facts.update(equalities)
        equations[:] = filter(None, itertools.starmap(solved, equalities.items()))
        for function in (linear, add, mul):
            function.cache_clear()


def solved(value, answer):
    """Of a sum that equals a number: a piece, and what it then is."""
    kind = kinds[value[0][0]] if isinstance(value, tuple) and len(value) == 1 and value[0][0] != NUMBER else ()
    pieces = dict(kind[2]) if kind[:1] == ("sum",) and value[0][1:] == (0, 64) and number_in(answer) is not None else {}
    piece = next((piece for piece, factor in pieces.items() if factor % 2), None)
    if piece is None:
        return None
    times = pow(-pieces.pop(piece), -1, WORD)
    return piece, times * (kind[1] - number_in(answer)), {other: times * factor for other, factor in pieces.items()}


def atom(kind, width, least=0, most=None):
    if kind not in indices:
        indices[kind] = len(kinds)
        kinds.append(kind)
        ranges.append((least, (1 << width) - 1 if most is None else most))
    return ((indices[kind], 0, width),)


def unknown(name, width, least=0):
    return atom(("unknown", name, width, least), width, least) if width else ()


def atoms_in(value):
    """What a value is made of."""
    found, todo = set(), [value]
    while todo:
        for a in {a for a, _, _ in todo.pop()} - found - {NUMBER}:
            kind, *parts = kinds[a]
            found.add(a)
            if kind != "unknown":
                todo += [(piece,) for piece, _ in parts[1]] if kind == "sum" else parts[2] if kind in BITS else parts
    return found


def number(n, width=64):
    return ((NUMBER, n % (1 << width), width),) if width else ()


def number_in(value):
    """The number that a value is, or None if it depends on an unknown."""
    return value[0][1] if len(value) == 1 and value[0][0] == NUMBER else None


def known(value, what):
    n = number_in(value)
    if n is None:
        raise Stop(f"{what} depends on an unknown")
    return n


def decided(bit, what):
    """The number that a bit is. If it depends on an unknown, there is a path for either."""
    bit = facts.get(bit, bit)
    if number_in(bit) is None:
        raise Undecided(what, *(({bit: number(n, 1), complement(bit): number(1 - n, 1)}, []) for n in (0, 1)))
    return number_in(bit)


def width_of(value):
    if len(value) == 1:
        return value[0][2]
    total = 0
    for piece in value:
        total += piece[2]
    return total


# ---- bits

def join(*values):
    """The values side by side, the lowest first. Neighbours that belong together become one piece."""
    out = []
    for value in values:
        for a, low, width in value:
            if out and out[-1][0] == a and (a == NUMBER or out[-1][1] + out[-1][2] == low):
                _, start, before = out.pop()
                low, width = start | low << before if a == NUMBER else start, before + width
            out.append((a, low, width))
    return tuple(out)


def cut(value, low, width):
    """Bits low up to low + width."""
    end = low + width
    if len(value) == 1 and low < end <= value[0][2]:
        a, start, size = value[0]
        if width == size:
            return value
        return ((a, start >> low & (1 << width) - 1 if a == NUMBER else start + low, width),)
    if low == 0 and width_of(value) == width:
        return value
    parts, at = [], 0
    for piece in value:
        a, start, size = piece
        first, last = low - at if low > at else 0, size if size < end - at else end - at
        if first == 0 and last == size:
            parts.append(piece)
        elif first < last:
            parts.append((a, start >> first & (1 << last - first) - 1 if a == NUMBER else start + first, last - first))
        at += size
        if at >= end:
            break
    return tuple(parts)


def extend(value, width=64):
    rest = width - width_of(value)
    if rest < 0:
        raise ValueError(f"a value has more than {width} bits")
    if rest == 0:
        return value
    a, low, above = value[-1] if value else (NUMBER, 0, 0)
    return (*value[:-1], (NUMBER, low, above + rest)) if a == NUMBER else (*value, (NUMBER, 0, rest))


def sign_extend(value, width):
    return join(value, repeat(cut(value, width_of(value) - 1, 1), width - width_of(value)))


def shift_signed(value, n):
    """To the right, with copies of the sign."""
    n = min(n, width_of(value) - 1)
    return sign_extend(cut(value, n, width_of(value) - n), width_of(value))


def repeat(value, times):
    return join(*[value] * times)


def replace(value, low, part):
    """The value with these bits from bit `low` on."""
    high = low + width_of(part)
    return join(cut(value, 0, low), part, cut(value, high, width_of(value) - high))


def shift_left(value, n):
    return join(number(0, n), cut(value, 0, width_of(value) - n))


def shift_right(value, n):
    return extend(cut(value, n, width_of(value) - n), width_of(value))


def rotate_right(value, n):
    return join(cut(value, n, width_of(value) - n), cut(value, 0, n))


def lanes(size, function, *values):
    """A function of each lane of some values."""
    if len(set(map(width_of, values))) != 1 or width_of(values[0]) % size:
        raise Stop("vectors of other lengths")
    return join(*map(function, *(split(value, size) for value in values)))


def split(value, size):
    """Its lanes, the lowest first."""
    lanes, lane, room = [], [], size
    for a, low, width in value:
        while width:
            taken = min(width, room)
            lane.append((a, low & (1 << taken) - 1 if a == NUMBER else low, taken))
            low, width, room = low >> taken if a == NUMBER else low + taken, width - taken, room - taken
            if not room:
                lanes.append(tuple(lane))
                lane, room = [], size
    return lanes


def power_of_two(exponent, width):
    """2 to the power of an exponent of a few bits."""
    n = number_in(exponent)
    return number(1 << n, width) if n is not None else atom(("power", exponent), width, 1)


# ---- sums and products, modulo 2^64: a number plus pieces with factors

@remember
def linear(value):
    factors, at = {}, 0
    for a, low, width in value:
        if a == NUMBER:
            factors[None] = factors.get(None, 0) + (low << at)
        else:
            collect(factors, a, low, width, 1 << at)
        at += width
    return factors.pop(None, 0), factors


def collect(factors, a, low, width, factor):
    """Adds a piece with a factor. A whole sum is its terms; its number is collected under None. A piece whose next higher
    bits count nothing modulo 2^64 has them."""
    top = ranges[a][1].bit_length()
    if low + width < top and (factor & -factor) << width >= WORD:
        width = top - low
    if kinds[a][0] == "sum" and low == 0 and width >= top:
        factors[None] = factors.get(None, 0) + kinds[a][1] * factor
        for piece, own in kinds[a][2]:
            collect(factors, *piece, own * factor)
    elif kinds[a][0] == "xor" and width > 1 and kinds[a][2] == (1 << kinds[a][1]) - 1 and len(kinds[a][3]) == 1:
        factors[None] = factors.get(None, 0) + ((1 << width) - 1) * factor  # a complement: this less what it is of
        for piece in cut(kinds[a][3][0], low, width):
            collect(factors, *piece, -factor)
    else:
        factors[a, low, width] = factors.get((a, low, width), 0) + factor


def signed(n, whole=WORD):
    return (n + whole // 2) % whole - whole // 2


def exact(n, factors, uses_bounds=False):
    """The same number and factors as integers whose sum is from 0 to 2^64 - 1, so that nothing is lost modulo 2^64; and its
    least and greatest value. None if there are none. What an atom is made of must not depend on bounds, which a path has."""
    counting = {}  # without the bits of a piece that count nothing modulo 2^64
    for (a, low, width), factor in factors.items():
        if factor % WORD:
            piece = a, low, min(width, 65 - (factor & -factor).bit_length())
            counting[piece] = counting.get(piece, 0) + factor
    factors = counting
    for reading, more in ((lambda k: k % WORD, 0), (signed, 0), (signed, WORD)):
        own = {piece: reading(factor) for piece, factor in factors.items()}
        least, most = limits(reading(n) + more, own)
        if most < WORD and (least >= 0 or uses_bounds and is_not_negative(reading(n) + more, own)):
            return reading(n) + more, own, least, most
    return None


def is_not_negative(n, factors, depth=2):
    """Whether this sum of integers is not negative: by the ranges of its pieces, or since it exceeds sums that are not."""
    n, factors = in_lowest_terms(n, factors)
    if limits(n, factors)[0] >= 0:
        return True
    question = n, tuple(factors.items()), depth
    if depth and question not in implied:
        implied[question] = exceeds_bounds(n, factors, depth)
    return depth > 0 and implied[question]


def exceeds_bounds(n, factors, depth):
    alike = {(i, factor // bounds[i][1][piece]) for piece, factor in factors.items() for i in having.get(piece, ())
             if factor * bounds[i][1][piece] > 0}
    for i, times in sorted(alike):
        m, others = bounds[i]
        multiple = times * m, {piece: times * factor for piece, factor in others.items()}
        if times > 0 and is_not_negative(*difference((n, factors), multiple), depth - 1):
            return True
    return False


def in_lowest_terms(n, factors):
    """A sum that is negative exactly where this one is."""
    common = math.gcd(*factors.values()) or 1
    return n // common, {piece: factor // common for piece, factor in factors.items()}


def difference(one, other):
    """Of two sums of integers."""
    (n, factors), (m, others) = one, other
    gap = {piece: factors.get(piece, 0) - others.get(piece, 0) for piece in {**factors, **others}}
    return n - m, {piece: factor for piece, factor in gap.items() if factor}


def limits(n, factors):
    least = most = n
    for (a, low, width), factor in factors.items():
        ends = [end * factor for end in piece_range(a, low, width)]
        least, most = least + min(ends), most + max(ends)
    return least, most


def piece_range(a, low, width):
    """The least and the greatest value of a piece: of its atom's, where it has the highest bits."""
    least, most = ranges[a]
    return (least >> low, most >> low) if most >> low + width == 0 else (0, (1 << width) - 1)


def greatest(value):
    found = exact(*linear(value))
    return found[3] if found else WORD - 1


def total(n, factors):
    """The value of 64 bits."""
    for piece, m, others in equations:
        if piece in factors:
            factors = dict(factors)
            times = factors.pop(piece)
            for other, factor in others.items():
                collect(factors, *other, times * factor)
            n += times * m + factors.pop(None, 0)
    n, factors = n % WORD, {piece: factor % WORD for piece, factor in factors.items() if factor % WORD}
    if not factors:
        return number(n)
    if len(factors) > 1 and (whole := with_neighbours(factors)):
        return total(n + whole.pop(None, 0), whole)
    bits = functools.reduce(lambda x, y: x | y, factors.values())
    common = (bits & -bits).bit_length() - 1
    if common:  # no piece reaches the lowest bits: they are the number's
        above = total(signed(n) >> common, {piece: signed(factor) >> common for piece, factor in factors.items()})
        return join(number(n, common), cut(above, 0, 64 - common))
    return as_bits(n, factors) or sum_atom(n, factors)


def with_neighbours(factors):
    """The same with two pieces as one, if they are neighbours in an atom and their factors say so; else None."""
    starts = {piece[:2]: piece for piece in factors}
    for (a, low, width), factor in factors.items():
        after = starts.get((a, low + width))
        if after and factors[after] == (factor << width) % WORD:
            whole = {piece: own for piece, own in factors.items() if piece not in ((a, low, width), after)}
            collect(whole, a, low, width + after[2], factor)
            return whole
    return None


def as_bits(n, factors):
    """The pieces as bits of one value, if no two of them, and no bit of the number, overlap; else None."""
    out, at = [], 0
    for piece, factor in sorted(factors.items(), key=lambda item: item[1]):
        place = factor.bit_length() - 1
        if factor != 1 << place or place < at:
            return None
        bits = cut((piece,), 0, min(piece[2], 64 - place))
        out += [number(n >> at, place - at), bits]
        at = place + width_of(bits)
        if n >> place & (1 << at - place) - 1:
            return None
    return join(*out, number(n >> at, 64 - at))


def sum_atom(n, factors):
    found = exact(n, factors)
    least, most = found[2:] if found else (0, WORD - 1)
    value = extend(atom(("sum", n, tuple(sorted(factors.items()))), most.bit_length(), least, most))
    return facts.get(value, value)


@remember
def add(x, y, sign=1):
    (n, factors), (m, others) = linear(x), linear(y)
    factors = dict(factors)
    for piece, factor in others.items():
        factors[piece] = factors.get(piece, 0) + sign * factor
    return cut(total(n + sign * m, factors), 0, width_of(x))


def sub(x, y):
    return add(x, y, -1)


@remember
def mul(x, y):
    size = width_of(x)
    for one, other in ((x, y), (y, x)):
        if (k := number_in(one)) is not None:
            (n, factors), scaled = linear(other), {}
            for piece, factor in factors.items():
                collect(scaled, *piece, factor * k)
            return cut(total(n * k + scaled.pop(None, 0), scaled), 0, size)
    most = min(greatest(x) * greatest(y), WORD - 1)
    return cut(extend(atom(("product", *sorted((extend(x), extend(y)))), most.bit_length(), 0, most)), 0, size)


def reduced(value):
    """The same value, without what the low bits of a sum do not depend on."""
    parts = []
    for a, low, width in value:
        rest = 64 - width if a != NUMBER and kinds[a][0] == "sum" and low == 0 else 0
        part = ((a, low, width),)
        parts.append(cut(mul(extend(part), number(1 << rest)), rest, width) if rest else part)
    return join(*parts)


def is_below(x, y):
    """Whether x is the smaller one."""
    question, gap = ("is below", x, y), gap_of(x, y)
    above, below = ((gap[0] - 1, gap[1]), difference((0, {}), gap)) if gap else (None, None)
    for answer, bound in ((True, above), (False, below)):
        if facts.get(question) == answer or bound and is_not_negative(*bound):
            return answer
    raise Undecided("which of two numbers is the smaller one", *(
        ({question: answer}, [in_lowest_terms(*bound)] if bound else []) for answer, bound in ((True, above), (False, below))))


def assume_at_most(x, y, less=0):
    """From now on, in this case, x is at most y, less a number."""
    global promised
    if not stage:
        raise RuntimeError("an assumption outside of a case")
    n, factors = gap_of(x, y)
    bound = in_lowest_terms(n - less, factors)
    if bound not in bounds:
        promised += (bound,)
        assume((*assumed, ({}, [bound])))


def gap_of(x, y):
    """y - x as a sum of integers, or None if it is not known whether one of them wraps."""
    x, y = exact(*linear(x), True), exact(*linear(y), True)
    return difference(y[:2], x[:2]) if x and y else None


def are_equal(x, y):
    """One bit. It is 0 if y - x or x - y is never 0 as an integer."""
    bit, gap = is_zero(sub(x, y)), gap_of(x, y)
    gaps = (gap, difference((0, {}), gap)) if gap and number_in(bit) is None else ()
    if any(is_not_negative(n - 1, factors) for n, factors in gaps):
        return number(0, 1)
    return bit if number_in(bit) is not None else is_zero(bitwise("xor", x, y))


# ---- bit by bit

def bitwise(op, x, y):
    """Piece by piece, cut where either has a new one."""
    out = []
    while x:
        width = min(x[0][2], y[0][2])
        out.append(of_pieces(op, cut(x[:1], 0, width), cut(y[:1], 0, width), width))
        x = cut(x[:1], width, x[0][2] - width) + x[1:]
        y = cut(y[:1], width, y[0][2] - width) + y[1:]
    return join(*out)


def of_pieces(op, x, y, width):
    n, other = (number_in(x), y) if number_in(x) is not None else (number_in(y), x)
    if n is None and x == y:
        return number(0, width) if op == "xor" else x
    if n is None or op == "xor" and n and number_in(other) is None:
        return operation(op, (x, y), width)
    if number_in(other) is not None:
        return number(BITS[op](n, number_in(other)), width)
    if n in (0, (1 << width) - 1):
        return other if (n == 0) == (op != "and") else number(n, width)
    run = ((n ^ n >> 1) & -(n ^ n >> 1)).bit_length()  # a mask: each run of equal bits by itself
    return join(bitwise(op, number(n, run), cut(other, 0, run)),
                bitwise(op, number(n >> run, width - run), cut(other, run, width - run)))


def operation(op, operands, width):
    """Operations of one kind inside each other are one: its operands in order, and for "xor" a number."""
    n, members, todo = 0, set(), list(operands)
    while todo:
        value = todo.pop()
        a, low, _ = value[0]
        if a == NUMBER:
            n ^= low
        elif kinds[a][0] == op and kinds[a][1] == width:
            n ^= kinds[a][2]
            todo += kinds[a][3]
        elif kinds[a][0] == op:  # some of its bits
            parts = [cut(item, low, width) for item in kinds[a][3]] + [number(kinds[a][2] >> low, width)] * (op == "xor")
            rest = [number(n, width)] * (op == "xor") + [*members, *todo]
            return functools.reduce(functools.partial(bitwise, op), parts + rest)
        else:
            members = members ^ {value} if op == "xor" else members | {value}
    if len(members) == 1 and n == 0:
        return members.pop()
    return atom((op, width, n, tuple(sorted(members))), width) if members else number(n, width)


def complement(value):
    return join(*(bitwise("xor", (piece,), number(-1, piece[2])) for piece in value))


def is_zero(value):
    """One bit: 1 if the value is 0. An "or" is 0 if all its operands are."""
    pieces, todo = set(), [reduced(value)]
    while todo:
        for a, low, width in todo.pop():
            if (low if a == NUMBER else piece_range(a, low, width)[0]):
                return number(0, 1)
            kind = kinds[a] if a != NUMBER else (None,)
            if kind[0] == "or":
                todo += [cut(item, low, width) for item in kind[3]]
            elif a != NUMBER:
                pieces.add((a, low, width))
    if not pieces:
        return number(1, 1)
    one, *others = pieces
    is_bit = not others and one[2] == 1
    result = complement((one,)) if is_bit else atom(("is zero", join(*((item,) for item in sorted(pieces)))), 1)
    return facts.get(result, result)


# ---- numbers in place of unknowns: a world has one for each atom. `choose` gives those of unknowns that it lacks.

# Of unknowns whose name says what they are made of.
MADE = {"high": lambda width, x, y: x * y >> width, "quotient": lambda width, x, y: x // y if y else 0}


def is_free(a):
    """Whether an atom is an unknown that may be any number."""
    return kinds[a][0] == "unknown" and kinds[a][1][0] not in MADE


def number_of(value, world, choose):
    result = at = 0
    for a, low, width in value:
        if a != NUMBER and a not in world:
            world[a] = number_of_atom(a, world, choose)
        result |= (low if a == NUMBER else world[a] >> low & (1 << width) - 1) << at
        at += width
    return result


def number_of_atom(a, world, choose):
    kind, *parts = kinds[a]
    if is_free(a):
        return choose(*ranges[a])
    if kind == "sum":
        return sum_of(parts[0], dict(parts[1]), world, choose) % WORD
    operands = parts[2] if kind in BITS else parts[0][1:] if kind == "unknown" else parts
    numbers = [number_of(item, world, choose) for item in operands]
    if kind in BITS:
        return functools.reduce(BITS[kind], [parts[1]] * (kind == "xor") + numbers)
    if kind == "unknown":
        return MADE[parts[0][0]](parts[1], *numbers)
    return numbers[0] * numbers[1] % WORD if kind == "product" else 1 << numbers[0] if kind == "power" else int(numbers[0] == 0)


def sum_of(n, factors, world, choose):
    return n + sum(number_of((piece,), world, choose) * factor for piece, factor in factors.items())


def any_number(pick):
    """Of those from one to another, an extreme one, a small one, or any."""
    return lambda least, most: pick.choice([least, most, min(least + pick.randrange(200), most), pick.randint(least, most)])


class Search:
    """For a world that keeps bounds and facts: from the least numbers, then from random ones, it changes what is wrong."""

    def __init__(self, bounds, facts, is_wanted=lambda number_of: True):
        self.bounds, self.facts, self.is_wanted, self.pick = bounds, facts, is_wanted, random.Random(1)

    def run(self, tries=100):
        """The numbers of the unknowns, by atom; or None, if none are found."""
        for i in range(tries):
            self.choose, self.given = any_number(self.pick) if i else lambda least, most: least, {}
            for _ in range(60):
                if self.is_right():
                    if self.is_wanted(self.number_of):
                        return self.given
                    break
        return None

    def is_right(self):
        """Else it changes some unknowns."""
        self.world = dict(self.given)
        self.number_of = functools.partial(number_of, world=self.world, choose=self.choose)
        self.sum_of = functools.partial(sum_of, world=self.world, choose=self.choose)
        wrong = [bound for bound in self.bounds if self.sum_of(*bound) < 0]
        others = [(value, answer) for value, answer in self.facts.items() if not self.is_kept(value, answer)]
        self.given = {a: n for a, n in self.world.items() if is_free(a)}
        if wrong:
            self.mend(*self.pick.choice(wrong))
        for value, answer in others:
            if isinstance(answer, tuple):
                self.force(value, number_in(answer))
        return not wrong and not others

    def is_kept(self, value, answer):
        if isinstance(answer, bool):
            return (self.number_of(value[1]) < self.number_of(value[2])) == answer
        return self.number_of(value) == number_in(answer)

    def mend(self, n, factors):
        """So that a sum is not negative."""
        pieces = [piece for piece in factors if piece[0] in self.given]
        if pieces:
            piece, lack = self.pick.choice(pieces), -self.sum_of(n, factors)
            change = -(-lack // abs(factors[piece])) * (1 if factors[piece] > 0 else -1)
            self.force((piece,), max(0, min(self.number_of((piece,)) + change, (1 << piece[2]) - 1)))

    def force(self, value, n):
        """So that a value is this number. Of what is made of several unknowns it changes one."""
        for a, low, width in value:
            bits, n, (kind, *parts) = n & (1 << width) - 1, n >> width, kinds[a] if a != NUMBER else (None,)
            if a in self.given:
                now = self.world[a] & ~((1 << width) - 1 << low) | bits << low
                self.given[a] = self.world[a] = max(ranges[a][0], min(now, ranges[a][1]))
            elif kind == "is zero":
                self.force(parts[0], 1 - bits)
            elif kind == "xor":
                others = [parts[1], *map(self.number_of, parts[2][1:])]
                bits ^= functools.reduce(BITS["xor"], others) >> low & (1 << width) - 1
                self.force(cut(parts[2][0], low, width), bits)
            elif kind == "sum" and low == 0:
                for piece, factor in [pair for pair in parts[1] if pair[1] % 2][:1]:
                    gap = (bits - self.sum_of(parts[0], dict(parts[1]))) * pow(factor, -1, WORD)
                    self.force((piece,), self.number_of((piece,)) + gap & (1 << piece[2]) - 1)


def input_of(pair):
    """Numbers of unknowns for which the two values of a pair differ, as text, or None. They may differ where something is 0."""
    zeros = [{((a, 0, 1),): number(1, 1)} for value in pair for a in atoms_in(value) if kinds[a][0] == "is zero"]
    for more in [{}, *zeros[:8]]:
        found = Search(bounds, {**facts, **more}, lambda number_of: len(set(map(number_of, pair))) > 1).run(10)
        if found is not None:
            world = dict(found)
            named = {name: number_of(value, world, lambda least, most: least) for name, value in arguments.items()}
            named |= {name_of(a): n for a, n in sorted(found.items()) if name_of(a) not in named}
            return ", ".join(f"{name} = {n:#x}" for name, n in [*named.items()][:20]) or "any input"
    return None


def name_of(a):
    name = kinds[a][1]
    return f"{name[0]}[{name[-1]}]" if isinstance(name, tuple) else name
