"""The rules of the normal form: random values, each beside whole numbers."""
import contextlib
import functools
import itertools
import random

import loops
import pytest
import values
from values import (WORD, Stop, Undecided, add, any_number, are_equal, bitwise, complement, cut, extend, is_below, is_zero,
                    join, mul, reduced, number, number_in, number_of, power_of_two, rotate_right, shift_left, shift_right, sub,
                    unknown)

WORLDS = 4  # in each, an unknown is another number


def random_operation(pick):
    """A function of two values of 64 bits, and the same of two numbers."""
    n = pick.choice([1, 8, 16, 31, 32, 33, pick.randrange(1, 63)])
    width = min(pick.choice([1, 8, 16, 32, 33, pick.randrange(1, 63)]), 64 - n)
    ones, factor = (1 << width) - 1, pick.choice([1 << n, pick.getrandbits(64), WORD - 1])
    return pick.choice([
        (add, lambda x, y: x + y), (sub, lambda x, y: x - y), (mul, lambda x, y: x * y),
        (lambda x, y: mul(x, number(factor)), lambda x, y: x * factor),
        *((functools.partial(bitwise, op), on_numbers) for op, on_numbers in values.BITS.items()),
        (lambda x, y: bitwise("and", x, number(factor)), lambda x, y: x & factor),
        (lambda x, y: complement(x), lambda x, y: ~x),
        (lambda x, y: add(complement(bitwise("xor", x, y)), y), lambda x, y: ~(x ^ y) + y),
        (lambda x, y: extend(is_zero(x)), lambda x, y: x == 0),
        (lambda x, y: extend(is_zero(complement(is_zero(x)))), lambda x, y: x == 0),
        (lambda x, y: extend(is_zero(cut(bitwise("or", x, y), n, width))), lambda x, y: (x | y) >> n & ones == 0),
        (lambda x, y: extend(cut(x, n, width)), lambda x, y: x >> n & ones),
        (lambda x, y: shift_left(x, n), lambda x, y: x << n), (lambda x, y: shift_right(x, n), lambda x, y: x >> n),
        (lambda x, y: rotate_right(x, n), lambda x, y: x >> n | x << 64 - n),
        (lambda x, y: join(cut(x, 0, n), cut(y, n, 64 - n)), lambda x, y: x % (1 << n) | y >> n << n),
        (lambda x, y: power_of_two(cut(x, 0, 5), 64), lambda x, y: 1 << x % 32),
        (lambda x, y: extend(add(cut(x, 0, n), cut(y, 0, n))), lambda x, y: (x + y) % (1 << n)),
        *operations_of_pieces(pick, n, width),
    ])


def operations_of_pieces(pick, n, width):
    """Values whose pieces are neighbours, overlap, occur twice, or have factors that are alike up to their highest bits."""
    low, other = (pick.choice([1, 1 << pick.randrange(60)]) for _ in range(2))
    high = (low << n) + pick.choice([0, 0, 1 << 62, 1 << 63, -1 << 61]) & WORD - 1
    at = pick.randrange(1, 30)
    yield (lambda x, y: add(mul(extend(cut(x, 0, n)), number(low)), mul(extend(cut(x, n, 64 - n)), number(high))),
           lambda x, y: x % (1 << n) * low + (x >> n) * high)
    yield (lambda x, y: bitwise("or", bitwise("or", x, y), bitwise("or", x, rotate_right(y, n))),
           lambda x, y: x | y | y >> n | y << 64 - n)
    yield lambda x, y: join(cut(x, 0, n), cut(x, n // 2, 64 - n)), lambda x, y: x % (1 << n) | x >> n // 2 << n
    yield lambda x, y: extend(join(cut(x, 0, n // 2), cut(x, n, 64 - n))), lambda x, y: x % (1 << n // 2) | x >> n << n // 2
    yield (lambda x, y: extend(cut(add(x, mul(y, number(1 << at))), min(n, 20), at)),
           lambda x, y: x + (y << at) >> min(n, 20) & (1 << at) - 1)
    yield lambda x, y: extend(reduced(cut(add(x, mul(y, number(low))), 0, n))), lambda x, y: (x + y * low) % (1 << n)
    yield (lambda x, y: mul(extend(cut(add(x, number(5)), 0, n)), number(other << 64 - n)),
           lambda x, y: (x + 5) % (1 << n) * (other << 64 - n))


def test_a_rule_gives_an_equal_value():
    pick, known, pool = random.Random(1), [{} for _ in range(WORLDS)], []
    for i in range(60):
        width = pick.choice([1, 5, 8, 8, 16, 32, 62, 64])
        value = extend(unknown(("any", i), width, pick.choice([0, 1])))
        pool.append((value, [number_of(value, world, any_number(pick)) for world in known]))
    for _ in range(10_000):
        (x, xs), (y, ys) = (pick.choice(pick.choice([pool[:60], pool[-80:]])) for _ in range(2))
        on_values, on_numbers = random_operation(pick)
        value, numbers = on_values(x, y), [int(on_numbers(*pair)) % WORD for pair in zip(xs, ys)]
        assert [number_of(value, world, any_number(pick)) for world in known] == numbers
        exact = values.exact(*values.linear(value))
        assert not exact or all(exact[2] <= n <= exact[3] for n in numbers)
        try:
            assert {n < m for n, m in zip(numbers, xs)} == {is_below(value, x)}
        except Stop:
            pass
        equal = number_in(are_equal(value, x))
        assert equal is None or {n == m for n, m in zip(numbers, xs)} == {bool(equal)}
        pool.append((value, numbers))


def test_what_bounds_imply_is_so():
    """Of three small numbers: whatever is decided holds for all of them that keep the bounds, and some must."""
    pick, small = random.Random(2), [extend(unknown(("small", i), 3)) for i in range(3)]
    all_numbers, decided = list(itertools.product(range(8), repeat=3)), 0
    for _ in range(1500):
        rows = [([pick.choice([0, 1, 1, 2, 3]) for _ in range(3)], pick.randrange(3)) for _ in range(6)]
        sums = [functools.reduce(add, (mul(x, number(k)) for x, k in zip(small, factors)), number(n)) for factors, n in rows]
        results = [[n + sum(k * m for k, m in zip(factors, known)) for factors, n in rows] for known in all_numbers]
        less = pick.randrange(3)
        holding = [result for result in results if result[0] <= result[1] - less and result[2] <= result[3]]
        if not holding and pick.randrange(50):
            continue  # it takes longer to find that there are no numbers
        with contextlib.nullcontext() if holding else pytest.raises(Stop, match="no numbers"), values.case():
            values.assume_at_most(sums[0], sums[1], less)
            values.assume_at_most(sums[2], sums[3])
            try:
                answer = is_below(sums[4], sums[5])
                decided += 1
                assert all((result[4] < result[5]) == answer for result in holding)
            except Undecided:
                pass
            if number_in(are_equal(sums[4], sums[5])) == 0:
                assert all(result[4] != result[5] for result in holding)
    assert decided > 300


def test_a_path_leaves_no_trace():
    """What is assumed holds on its path alone, and not for values that are made there."""
    x, y = (extend(unknown(name, 62)) for name in ("x", "y"))
    with values.case():
        values.assume_at_most(y, x)
        gap = sub(x, y)
        assert not is_below(x, y) and is_below(gap, number(1 << 62))
    assert values.ranges[gap[0][0]] == (0, WORD - 1)
    with pytest.raises(Undecided) as choice:
        is_below(x, y)
    for way, answer in zip(choice.value.ways, (True, False)):
        with values.case(way):
            assert is_below(x, y) == answer
    with pytest.raises(Undecided):
        is_below(x, y)


@pytest.mark.parametrize("misuse", [
    lambda x: values.begin("open", None), lambda x: [values.begin("call", "open"), values.begin("call", "open")],
    lambda x: values.case().__enter__(), lambda x: [values.end(), values.assume_at_most(x, x, 1)],
    lambda x: [values.end(), values.begin("call", "open")], lambda x: setattr(loops.Subject(), "answer", x),
])
def test_a_case_has_one_call_and_is_alone(misuse):
    x = extend(unknown("any", 62))
    with pytest.raises((RuntimeError, AttributeError)), values.case(({x: number(7)}, [])):
        values.assume_at_most(x, number(9))
        misuse(x)
    assert (values.stage, values.assumed, values.promised, values.bounds, values.facts) == (None, (), (), [], {})


def test_an_input_for_which_two_values_differ_is_found():
    """Also if they differ for one number alone, and only where a path goes."""
    x, y = unknown("one", 64), unknown("two", 64)
    rare = add(y, extend(is_zero(sub(x, number(500)))))
    for ways, pair, found in ([], (x, y), True), ([], (rare, y), True), ([({x: number(500)}, [])], (rare, y), True), (
            [({is_zero(bitwise("xor", x, number(500))): number(1, 1)}, [])], (x, number(499)), True), (
            [({x: number(7)}, [])], (x, number(7)), False), ([], (x, x), False):
        with pytest.raises(values.Differs) as stop, values.case(*ways):
            values.begin("call", "open")
            raise values.Differs("it", *pair)
        assert bool(stop.value.input) == found and (pair[0] != rare or "one = 0x1f4" in stop.value.input)


def test_a_sum_that_is_a_number_says_what_its_pieces_are():
    """A compiler may ask whether two halves of a hash add up to 0, and leave out the mixing of it."""
    x, y = unknown("left", 64), unknown("right", 64)
    whole, more = add(x, y), add(x, mul(y, number(3)))
    with values.case(({whole: number(5)}, [])):
        assert add(x, mul(y, number(3))) == add(mul(y, number(2)), number(5)) == add(mul(x, number(-2)), number(15))
    with values.case(({cut(whole, 0, 32): number(5, 32)}, [])):
        assert add(x, mul(y, number(3))) == more
    assert add(x, mul(y, number(3))) == more


def test_vectors_of_different_lengths_have_no_lanes():
    with pytest.raises(Stop):
        values.lanes(32, add, unknown("long", 64), unknown("short", 32))
