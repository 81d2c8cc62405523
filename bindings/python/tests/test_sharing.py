"""Objects that are copied, pickled, or shared by threads and signal handlers; the GIL; seeds."""
import array
import fractions
import signal

import pytest
from helpers import KINDS, ON_COLUMNS, ONE_CALL, WAYS, assert_releases_the_gil, in_threads
from sketch_hash import BloomFilter, murmur3_x64_128, murmur3_x64_128_each, xxh64, xxh64_each

numpy = pytest.importorskip("numpy")


@pytest.mark.parametrize("kind", KINDS)
@pytest.mark.parametrize("way", WAYS)
def test_a_copy_is_independent(kind, way):
    for count in range(70):
        data, seed = bytes(range(1, count + 1)), 2**64 - 1 if count % 2 else 9001
        first = kind(data, seed=seed)
        second = way(first)
        first.update(b"first")
        second.update(b"second")
        assert first.digest() == kind(data + b"first", seed).digest()
        assert second.digest() == kind(data + b"second", seed).digest()
        assert second.seed == seed and type(second) is kind
        second.reset()
        assert second.digest() == kind(seed=seed).digest()


@pytest.mark.parametrize("kind", [*KINDS, BloomFilter])
def test_a_class_cannot_be_subclassed(kind):
    """So that no other code runs while a call uses the memory of an object."""
    with pytest.raises(TypeError, match="not an acceptable base type"):
        type("Kind", (kind,), {})


@pytest.mark.parametrize("kind, size", [(xxh64, 80), (murmur3_x64_128, 40)])
def test_a_checkpoint_of_a_wrong_length_raises(kind, size):
    hasher = kind(b"fox", 7)
    for length in (0, size - 1, size + 1):
        with pytest.raises(ValueError, match=f"^a checkpoint of {kind.__name__} does not have {length} bytes$"):
            hasher.__setstate__((7, bytes(length)))
    assert hasher.digest() == kind(b"fox", 7).digest()


@pytest.mark.parametrize("kind", KINDS)
def test_threads_may_share_an_object(kind):
    """Each update has whole periods of 256 bytes, so every order of the updates gives the same hash."""
    piece, hasher = bytes(range(256)) * 4096, kind()

    def append(_):
        for _ in range(40):
            hasher.update(piece)
            hasher.update(piece[:256])
            hasher.digest()

    in_threads(append)
    assert hasher.digest() == kind((piece + piece[:256]) * 160).digest()


@pytest.mark.parametrize("make, append, ask", [
    (xxh64, xxh64.update, xxh64.digest),
    (murmur3_x64_128, murmur3_x64_128.update, murmur3_x64_128.digest),
    (lambda: BloomFilter(1024), lambda bloom, data: bloom.add_each((data, array.array("Q", [0, len(data)]))),
     BloomFilter.to_bytes),
], ids=["xxh64", "murmur3_x64_128", "BloomFilter"])
def test_a_signal_handler_may_call_the_object(make, append, ask):
    """It runs after the call of C, while the object's lock is held."""
    shared, other, data, asked = make(), make(), bytes(1 << 25), []
    before = signal.signal(signal.SIGALRM, lambda *_: asked.append(ask(shared)))
    signal.setitimer(signal.ITIMER_REAL, 0.001, 0.001)
    try:
        while len(asked) < 20:
            append(shared, data)
            append(other, data)
    finally:
        signal.setitimer(signal.ITIMER_REAL, 0)
        signal.signal(signal.SIGALRM, before)
    assert ask(shared) == ask(other)


def test_short_calls_keep_the_gil(ticks):
    data, hashers = bytes(65535), [kind() for kind in KINDS]
    before = len(ticks)
    for _ in range(1000):
        for call in (*ONE_CALL, *[hasher.update for hasher in hashers]):
            call(data)
    assert len(ticks) == before


@pytest.mark.parametrize("call", [
    *ONE_CALL, xxh64().update, murmur3_x64_128().update,
    lambda data: BloomFilter(len(data)).__ior__(BloomFilter.view(data)),
])
@pytest.mark.parametrize("length", [1 << 16, 1 << 24])
def test_calls_of_64_kib_release_the_gil(call, length, ticks):
    assert_releases_the_gil(call, bytes(length), ticks)


@pytest.mark.parametrize("call", ON_COLUMNS)
def test_columns_of_64_kib_release_the_gil(call, ticks):
    assert_releases_the_gil(call, (bytes(1 << 24), array.array("I", range(100_000))), ticks)
    assert_releases_the_gil(call, (b"", array.array("Q", bytes(1 << 20))), ticks)
    if call is not murmur3_x64_128_each:
        assert_releases_the_gil(call, array.array("Q", bytes(1 << 24)), ticks)


@pytest.mark.parametrize("call", [*KINDS, *ONE_CALL, lambda data, seed: xxh64_each((data, array.array("Q")), seed)])
@pytest.mark.parametrize("seed, error", [
    *((seed, OverflowError) for seed in (-1, 2**64, 2**64 + 7, 2**70, -(2**64))),
    *((seed, TypeError) for seed in (7.0, "7", None, b"7", fractions.Fraction(7))),
])
def test_an_invalid_seed_raises(call, seed, error):
    with pytest.raises(error):
        call(b"", seed)


def test_a_seed_is_a_whole_number_of_any_type():
    for seed in (numpy.uint64(2**64 - 1), numpy.int8(7), True):
        for kind in KINDS:
            assert kind(b"a", seed).digest() == kind(b"a", int(seed)).digest()
        for call in ONE_CALL:
            assert call(b"a", seed) == call(b"a", int(seed))
