"""Arrow arrays as columns: made by ctypes, with all that a producer may do, and by pyarrow where it is packaged."""
import ctypes
import errno
import os
import struct
import subprocess
import sys

import pytest
from helpers import ON_COLUMNS, TYPES, assert_releases_the_gil, column_of, hashes_of
from sketch_hash import BloomFilter, murmur3_x64_128_each, parquet, xxh64_each, xxh64_intdigest
from sketch_hash.parquet.pyarrow_values import stored_values

P, I64 = ctypes.c_void_p, ctypes.c_int64
RELEASE, GET = ctypes.CFUNCTYPE(None, P), ctypes.CFUNCTYPE(ctypes.c_int, P, P)


class Schema(ctypes.Structure):
    name = b"arrow_schema"
    _fields_ = [("format", ctypes.c_char_p), ("column_name", P), ("metadata", P), ("flags", I64), ("n_children", I64),
                ("children", P), ("dictionary", P), ("release", P), ("private_data", P)]


class Array(ctypes.Structure):
    name = b"arrow_array"
    _fields_ = [("length", I64), ("null_count", I64), ("offset", I64), ("n_buffers", I64), ("n_children", I64),
                ("buffers", P), ("children", P), ("dictionary", P), ("release", P), ("private_data", P)]


class Stream(ctypes.Structure):
    name = b"arrow_array_stream"
    _fields_ = [("get_schema", P), ("get_next", P), ("get_last_error", P), ("release", P), ("private_data", P)]


def capsule(made):
    new = ctypes.pythonapi.PyCapsule_New
    new.restype, new.argtypes = ctypes.py_object, [P, ctypes.c_char_p, P]
    return new(ctypes.addressof(made), made.name, None)


class Producer:
    """Makes structures, and counts how often each is released."""

    def __init__(self):
        self.releases, self.kept = [], []

    def make(self, kind, **fields):
        number = len(self.releases)

        def release(address):
            self.releases[number] += 1
            kind.from_address(address).release = None

        self.releases.append(0)
        self.kept.append(RELEASE(release))
        self.kept.append(kind(release=ctypes.cast(self.kept[-1], P), **fields))
        return self.kept[-1]

    def place(self, data):
        self.kept.append(data if data is None else ctypes.create_string_buffer(bytes(data), max(len(data), 1)))
        return data if data is None else ctypes.addressof(self.kept[-1])

    def schema(self, format, dictionary=None):
        return self.make(Schema, format=format.encode(), dictionary=dictionary and ctypes.addressof(dictionary))

    def array(self, length, *buffers, null_count=-1, dictionary=None, **fields):
        places = (P * len(buffers))(*map(self.place, buffers))
        self.kept.append(places)
        fields = {"n_buffers": len(buffers), "buffers": ctypes.addressof(places), **fields}
        return self.make(Array, length=length, null_count=null_count,
                         dictionary=dictionary and ctypes.addressof(dictionary), **fields)

    def exported(self, schema, array):
        """An object of one array."""
        return type("Exported", (), {"__arrow_c_array__": lambda _, requested=None: (capsule(schema), capsule(array))})()

    def streamed(self, schema, *arrays, error=0, text=None):
        """An object of chunks, with an error after them."""
        left = list(arrays)

        def get(source, to):
            if source is None:
                return error or errno.EIO
            ctypes.memmove(to, ctypes.addressof(source), ctypes.sizeof(source))
            source.release = None
            return 0

        end = Array() if not error else None
        calls = [GET(lambda _, to: get(schema, to)), GET(lambda _, to: get(left.pop(0) if left else end, to)),
                 ctypes.CFUNCTYPE(P, P)(lambda _: self.place(text))]
        self.kept += calls
        stream = self.make(Stream, **dict(zip(("get_schema", "get_next", "get_last_error"),
                                              (ctypes.cast(call, P) for call in calls))))
        return type("Streamed", (), {"__arrow_c_stream__": lambda _, requested=None: capsule(stream)})()


# How the types are in memory, and as Parquet stores them.
NUMBERS = {"c": "bi", "C": "Bi", "s": "hi", "S": "Hi", "i": "ii", "I": "II", "l": "qq", "L": "QQ", "e": "ee", "f": "ff",
           "g": "dd", "tdD": "ii", "ttm": "ii", "ttu": "qq", "ttn": "qq", "tsm:": "qq", "tsu:UTC": "qq", "tsn:": "qq",
           "tDs": "qq", "tDm": "qq", "tDu": "qq", "tDn": "qq"}
TEXTS = ["u", "z", "U", "Z", "vu", "vz", "w:3", "w:0"]


def values_of(format):
    if format in NUMBERS:
        is_signed = NUMBERS[format][0] not in "BHIQ"
        return [struct.pack("<" + NUMBERS[format][1], n) for n in (5, -3 if is_signed else 200, 0, 7, 100)] * 4
    if format.startswith("w:"):
        return [b"fox", b"dog", b"\0\0\0", b"cat", b"cow"] * 4 if format == "w:3" else [b""] * 20
    return [b"fox", b"", b"twelve bytes", b"thirteen byte", bytes(range(200))] * 4


def buffers_of(format, keys):
    """The buffers of keys, of which None is a null."""
    valid = bytearray(len(keys) // 8 + 1)
    for i, key in enumerate(keys):
        valid[i // 8] |= (key is not None) << i % 8
    if format in NUMBERS:
        memory, stored = NUMBERS[format]
        return valid, b"".join(struct.pack("<" + memory, *struct.unpack("<" + stored, key)) if key is not None
                               else b"\x55" * struct.calcsize(memory) for key in keys)
    if format.startswith("w:"):
        return valid, b"".join(bytes(int(format[2:])) if key is None else key for key in keys)
    texts = [key or b"" for key in keys]
    if format in "zuZU":
        ends = [sum(map(len, texts[:i])) for i in range(len(texts) + 1)]
        return valid, struct.pack(f"<{len(ends)}{'i' if format in 'zu' else 'q'}", *ends), b"".join(texts)
    views, two, count = b"", [b"", b""], 0
    for key in keys:
        if key is None:  # whatever is there is not read
            views += b"\xff" * 16
        elif len(key) <= 12:
            views += struct.pack("<i12s", len(key), key)
        else:
            views += struct.pack("<i4sii", len(key), key[:4], count % 2, len(two[count % 2]))
            two[count % 2] += key
            count += 1
    return valid, views, *two, struct.pack("<qq", *map(len, two))


def check(make, keys):
    """All four calls on a column, which is made anew for each."""
    there, seed = [key for key in keys if key is not None], 2**64 - 1
    bloom, expected = BloomFilter(1024), BloomFilter(1024)
    bloom.add_each(make())
    expected.update(there)
    assert bloom == expected
    assert bloom.contains_each(make()).tolist() == [key is not None for key in keys]
    assert BloomFilter(32).contains_each(make()).tolist() == [False] * len(keys)
    for call in (xxh64_each, murmur3_x64_128_each):
        if len(there) < len(keys):
            with pytest.raises(ValueError, match=f"^the key at {keys.index(None)} must not be null: a null has no"):
                call(make())
        else:
            assert call(make(), seed).tolist() == hashes_of(call, keys, seed)


@pytest.fixture
def producer():
    """Each structure is released once, by its producer if nobody has taken it."""
    producer = Producer()
    producer.inner = Producer()  # of dictionaries, which the structure around them releases
    yield producer
    for made in producer.kept:
        if getattr(made, "release", None):
            ctypes.cast(made.release, RELEASE)(ctypes.addressof(made))
    assert set(producer.releases) <= {1}, producer.releases


@pytest.mark.parametrize("has_nulls", [False, True], ids=["no nulls", "nulls"])
@pytest.mark.parametrize("format", [*NUMBERS, *TEXTS])
def test_a_key_of_each_type_is_as_parquet_stores_it(format, has_nulls, producer):
    keys = [None if has_nulls and i % 3 == 1 else key for i, key in enumerate(values_of(format))]
    buffers = buffers_of(format, keys)
    full = lambda **fields: producer.array(20, *buffers, **fields)
    check(lambda: producer.exported(producer.schema(format), full()), keys)
    check(lambda: producer.exported(producer.schema(format), producer.array(6, *buffers, offset=9)), keys[9:15])
    chunks = lambda: [producer.array(7, *buffers), producer.array(0, *buffers), producer.array(11, *buffers, offset=9)]
    check(lambda: producer.streamed(producer.schema(format), *chunks()), keys[:7] + keys[9:])
    if not has_nulls:
        check(lambda: producer.exported(producer.schema(format), producer.array(20, None, *buffers[1:])), keys)
        check(lambda: producer.exported(producer.schema(format), full(null_count=0)), keys)


@pytest.mark.parametrize("format", ["u", "U", "l", "s", "vu"])
def test_memory_need_not_be_aligned(format, producer):
    keys = values_of(format)
    buffers = [b"-" + buffer for buffer in buffers_of(format, keys)]

    def make():
        array = producer.array(20, *buffers, null_count=0)
        places = (P * len(buffers)).from_address(array.buffers)
        places[:] = [place + 1 for place in places]
        return producer.exported(producer.schema(format), array)

    check(make, keys)


@pytest.mark.parametrize("code", "bBhHiIqQ")
@pytest.mark.parametrize("format", ["u", "vz", "s", "w:3", "n"])
def test_a_code_of_a_dictionary_is_its_key(code, format, producer):
    keys = values_of(format)[:4] if format != "n" else [None] * 4
    codes, formats = [3, 0, None, 2, 1, 0, 3], dict(zip("bBhHiIqQ", "cCsSiIlL"))
    rows = [None if code is None else keys[code] for code in codes]
    packed = struct.pack("<7" + code, *(111 if code is None else code for code in codes))

    def make(keys=keys, begin=0):
        values = buffers_of(format, keys) if format != "n" else ()
        return producer.exported(
            producer.schema(formats[code], producer.inner.schema(format)),
            producer.array(7 - begin, b"\x7b", packed, offset=begin, dictionary=producer.inner.array(len(keys), *values)))

    check(make, rows)
    check(lambda: make(begin=3), rows[3:])
    if format != "n":
        some = [keys[0], None, keys[2], keys[3]]
        check(lambda: make(some), [None if code is None else some[code] for code in codes])


def test_a_column_may_be_of_nulls_or_without_chunks(producer):
    check(lambda: producer.exported(producer.schema("n"), producer.array(3)), [None] * 3)
    check(lambda: producer.streamed(producer.schema("u")), [])
    check(lambda: producer.exported(producer.schema("u"), producer.array(0, None, None, None)), [])


def test_a_column_may_be_longer_than_a_block(producer):
    """Longer than a block, and long enough for the GIL to be released."""
    keys = [None if n % 7 == 3 else b"key %d" % n for n in range(10_000)]
    for kept in (keys, [key for key in keys if key]):
        check(lambda: producer.exported(producer.schema("u"), producer.array(len(kept), *buffers_of("u", kept))), kept)


def test_a_column_of_more_rows_than_a_call_takes_at_a_time(producer):
    rows, seven = bytes(1 << 24) + b"\7\0\0", struct.pack("<i", 7)
    make = lambda: producer.streamed(producer.schema("C"), producer.array(len(rows), None, rows),
                                     producer.array(2, None, b"\0\7"))
    bloom, one = BloomFilter(1024), BloomFilter(1024)
    bloom.add_each(make())
    one.add(seven)
    assert seven in bloom and bytes(4) in bloom
    at = [i for i, is_found in enumerate(one.contains_each(make()).tobytes()[1 << 24 :]) if is_found]
    assert at == [0, 4] and one.contains_each(make()).tobytes().count(1) == 2
    hashes = xxh64_each(make())
    assert {*hashes[(1 << 24) - 2 :: 2]} == {xxh64_intdigest(bytes(4)), xxh64_intdigest(seven)}
    assert hashes[-1] == hashes[1 << 24] == xxh64_intdigest(seven)


@pytest.mark.parametrize("is_coded", [False, True], ids=["values", "dictionary"])
def test_nulls_without_memory_take_no_time(is_coded, producer):
    bloom = BloomFilter(32)
    if is_coded:
        array = producer.array(3, None, bytes(3), dictionary=producer.inner.array(2**50))
        column = producer.exported(producer.schema("c", producer.inner.schema("n")), array)
    else:
        column = producer.streamed(producer.schema("n"), producer.array(2**50), producer.array(2**50))
    bloom.add_each(column)
    assert bloom == BloomFilter(32)


MANY_ROWS = {
    "rows without bytes": "producer.schema('w:0'), producer.array(2**28 if is_short else 2**50, None, b'')",
    "one long text": "producer.schema('c', producer.inner.schema('u')), producer.array(2**20, None, bytes(2**20), "
                     "dictionary=producer.inner.array(1, None, struct.pack('<2i', 0, 2**24), bytes(2**24)))",
}


@pytest.mark.parametrize("call", ["bloom.add_each", "bloom.contains_each", "xxh64_each"])
@pytest.mark.parametrize("rows", MANY_ROWS.values(), ids=MANY_ROWS)
def test_a_signal_ends_a_call_on_many_rows(rows, call):
    """Its handler may call the filter. In a process of its own, since such a call may have no end."""
    code = f"""if True:
        import signal, struct, test_arrow
        from sketch_hash import BloomFilter, xxh64_each
        def stop(*_):
            b"fox" in bloom
            raise KeyboardInterrupt
        producer, bloom, is_short = test_arrow.Producer(), BloomFilter(32), "add" not in {call!r}
        producer.inner = test_arrow.Producer()
        column = producer.exported({rows})
        signal.signal(signal.SIGALRM, stop)
        signal.setitimer(signal.ITIMER_REAL, 0.05)
        try:
            {call}(column)
        except KeyboardInterrupt:
            print("stopped")"""
    environment = {**os.environ, "PYTHONPATH": os.pathsep.join(sys.path)}
    done = subprocess.run([sys.executable, "-c", code], env=environment, capture_output=True, text=True, timeout=60)
    assert done.stdout == "stopped\n", done.stderr


@pytest.mark.parametrize("format, text", [
    ("b", "bools, here 'b': Parquet has no Bloom filters of them"),
    ("tdm", "date64, here 'tdm': Parquet stores days: cast it to \"date32\""),
    ("tts", "times in seconds.* cast it to \"time32.ms.\""), ("tss:UTC", "timestamps in seconds.* to \"timestamp"),
    ("d:9,2", "decimals.* sketch_hash.parquet.add_filters reads them as they are stored"),
    ("+s", "structs.* pass one column of a table"), ("+l", "lists, maps or unions.* array.flatten"),
    ("+r", "runs.* pyarrow.compute.run_end_decode"),
    *((format, "another type") for format in ("tiM", "", "w:-1", "w:9999999999", "w: 5", "w:5_0", "w:")),
])
@pytest.mark.parametrize("is_coded", [False, True], ids=["values", "dictionary"])
def test_an_unsupported_type_raises_with_the_cure(format, text, is_coded, producer):
    for call in ON_COLUMNS:
        for make in (producer.exported, producer.streamed):
            schema = producer.schema("i", producer.inner.schema(format)) if is_coded else producer.schema(format)
            with pytest.raises(TypeError, match=f"^an Arrow column must not have {text}"):
                call(make(schema, producer.array(0, None, None)))


OFFSETS = struct.pack("<4i", 0, 3, 6, 9)
VIEW = struct.Struct("<i4sii")
BROKEN = {  # a format, a length, buffers, other fields, what it must have
    "length": ("i", -1, [None, OFFSETS], {}, "a length"),
    "long length": ("w:2147483647", 2**58, [None, OFFSETS], {}, "at most"),
    "offset": ("i", 1, [None, OFFSETS], {"offset": -1}, "a length"),
    "sum": ("l", 2**59 - 1, [None, OFFSETS], {"offset": 2**59 - 1}, "at most|memory"),
    "no buffers": ("i", 3, [], {}, "the buffers"),
    "three buffers": ("i", 3, [None, OFFSETS, None], {}, "the buffers"),
    "NULL": ("i", 3, [None, OFFSETS], {"buffers": None}, "buffers"),
    "children": ("i", 3, [None, OFFSETS], {"n_children": 1}, "buffers, and no children"),
    "no bitmap": ("i", 3, [None, OFFSETS], {"null_count": 1}, "a bitmap"),
    "no values": ("i", 3, [None, None], {}, "memory for its values"),
    "no offsets": ("u", 3, [None, None, b"foxdogcat"], {}, "memory for its values"),
    "no text": ("u", 3, [None, OFFSETS, None], {}, "memory for its texts"),
    "negative offset": ("u", 2, [None, struct.pack("<3i", -1, 0, 3), b"fox"], {}, "offsets|the offset at 0"),
    "falling": ("u", 2, [None, struct.pack("<3i", 0, 3, 2), b"fox"], {}, "offsets|the offset at 1"),
    "first above last": ("u", 2, [None, struct.pack("<3i", 1000, 2000, 5), b"fox"], {}, "offsets"),
    "farthest apart": ("U", 2, [None, struct.pack("<3q", -2**63, 0, 2**63 - 1), b"fox"], {}, "offsets"),
    "falling 64": ("U", 2, [None, struct.pack("<3q", 0, 3, -2**63), b"fox"], {}, "offsets"),
    "view length": ("vu", 1, [None, VIEW.pack(-1, b"", 0, 0), b""], {}, "views"),
    "view text": ("vu", 1, [None, VIEW.pack(13, b"", 1, 0), bytes(20), struct.pack("<q", 20)], {}, "views"),
    "view text -1": ("vu", 1, [None, VIEW.pack(13, b"", -1, 0), bytes(20), struct.pack("<q", 20)], {}, "views"),
    "view begin": ("vu", 1, [None, VIEW.pack(13, b"", 0, -1), bytes(20), struct.pack("<q", 20)], {}, "views"),
    "view end": ("vu", 1, [None, VIEW.pack(13, b"", 0, 8), bytes(20), struct.pack("<q", 20)], {}, "views"),
    "view NULL": ("vu", 1, [None, VIEW.pack(13, b"", 0, 0), None, struct.pack("<q", 20)], {}, "views"),
    "view sizes": ("vu", 1, [None, VIEW.pack(13, b"", 0, 0), bytes(20), None], {}, "the sizes"),
    "dictionary": ("i", 3, [None, OFFSETS], {"dictionary": Array(n_buffers=2)}, "a dictionary if"),
    "released": ("i", 3, [None, OFFSETS], {"release": None}, "not be released"),
}


@pytest.mark.parametrize("format, length, buffers, fields, text", BROKEN.values(), ids=BROKEN)
def test_a_broken_array_is_an_error_and_nothing_added(format, length, buffers, fields, text, producer):
    bloom = BloomFilter(32)
    for call in (*ON_COLUMNS, bloom.add_each):
        good = producer.array(1, *buffers_of(format, [values_of(format)[0]]))
        for make, chunks in ((producer.exported, []), (producer.streamed, [good])):
            array = producer.array(length, *buffers, **{k: v for k, v in fields.items() if k != "release"})
            if "release" in fields:
                if chunks:
                    continue  # such an array is the end of a stream
                array.release, producer.releases[-1] = None, 1
            with pytest.raises(ValueError, match=f"^(an Arrow array must )?(have )?({text})"):
                call(make(producer.schema(format), *chunks, array))
    assert bloom == BloomFilter(32)


@pytest.mark.parametrize("codes", [[0, 4], [-1, 0], [127, 0]])
def test_a_code_outside_its_dictionary_is_an_error(codes, producer):
    for call in ON_COLUMNS:
        dictionary = producer.inner.array(4, *buffers_of("u", [b"fox"] * 4))
        with pytest.raises(ValueError, match="^an Arrow array must have codes within its dictionary$"):
            call(producer.exported(producer.schema("c", producer.inner.schema("u")),
                                   producer.array(2, None, struct.pack("2b", *codes), dictionary=dictionary)))


@pytest.mark.parametrize("schema, error, text, message", [
    ("u", errno.EIO, None, "Input/output error"), ("u", errno.EIO, b"the disk is gone\0", "the disk is gone"),
    (None, errno.ENOMEM, None, "Cannot allocate memory"),
])
def test_a_stream_that_fails_is_an_error_and_nothing_added(schema, error, text, message, producer):
    bloom = BloomFilter(32)
    for call in (*ON_COLUMNS, bloom.add_each):
        made = schema and producer.schema(schema)
        chunks = [producer.array(1, *buffers_of("u", [b"fox"]))] if schema else []
        with pytest.raises(ValueError, match=f"^the Arrow stream failed: {message}$"):
            call(producer.streamed(made, *chunks, error=error, text=text))
    assert bloom == BloomFilter(32)


RELEASED = Schema(), Array(), Stream()


@pytest.mark.parametrize("method, value", [
    ("__arrow_c_array__", None), ("__arrow_c_array__", (1, 2)), ("__arrow_c_array__", (1, 2, 3)),
    ("__arrow_c_array__", (capsule(RELEASED[0]), capsule(RELEASED[2]))), ("__arrow_c_stream__", None),
    ("__arrow_c_array__", (capsule(RELEASED[0]), capsule(RELEASED[1]))), ("__arrow_c_stream__", capsule(RELEASED[2])),
], ids=["None", "numbers", "three", "a stream", "no stream", "a released array", "a released stream"])
def test_invalid_results_of_the_methods_raise(method, value):
    for call in ON_COLUMNS:
        with pytest.raises((TypeError, ValueError)):
            call(type("Strange", (), {method: lambda _: value})())


def test_the_methods_of_the_class_are_called():
    strange = type("Strange", (), {})()
    strange.__arrow_c_array__ = lambda: pytest.fail("called")
    for keys in (strange, type("Kind", (), {"__arrow_c_array__": lambda _: pytest.fail("called")})):
        with pytest.raises(TypeError, match="^a column must be"):
            ON_COLUMNS[0](keys)


@pytest.mark.parametrize("format, buffer", [("u", 0), ("u", 1), ("u", 2), ("vu", 1), ("vu", 2), ("l", 1), ("w:3", 1)])
def test_a_column_in_the_memory_of_the_filter_is_an_error(format, buffer, producer):
    """All its buffers count, also those of a dictionary."""
    memory = bytearray(1024)
    bloom, start = BloomFilter.view(memory), ctypes.addressof((ctypes.c_char * 1024).from_buffer(memory))

    def of_filter(producer):
        buffers = buffers_of(format, values_of(format))
        array = producer.array(20, *buffers)
        memory[: len(buffers[buffer])] = buffers[buffer]
        (P * len(buffers)).from_address(array.buffers)[buffer] = start
        return array

    coded = lambda: producer.exported(producer.schema("c", producer.inner.schema(format)),
                                      producer.array(2, None, b"\0\1", dictionary=of_filter(producer.inner)))
    for make in (coded, lambda: producer.exported(producer.schema(format), of_filter(producer))):
        bloom.contains_each(make())
        before = bytes(memory)
        with pytest.raises(ValueError, match="^the column is in the filter's own memory: pass a copy of it$"):
            bloom.add_each(make())
        assert memory == before


@pytest.mark.parametrize("call", ON_COLUMNS)
def test_rows_of_one_long_text_release_the_gil(call, producer, ticks):
    """By the bytes that are hashed, 256 MB here, and not by those of the dictionary. To check an array releases it too, for
    a moment."""
    text, codes = bytes(1 << 14), bytes(1 << 14)

    def column(_):
        dictionary = producer.inner.array(1, None, struct.pack("<2i", 0, len(text)), text)
        call(producer.exported(producer.schema("c", producer.inner.schema("z")),
                               producer.array(len(codes), None, codes, dictionary=dictionary)))

    assert_releases_the_gil(column, None, ticks, least=8)


def test_a_stream_may_wait_for_a_thread_that_needs_the_gil(need, tmp_path, ticks):
    need("gcc")
    (tmp_path / "slow.c").write_text("#include <unistd.h>\nint slow(void *a, void *b) { usleep(50000); return 5; }\n")
    subprocess.run(["gcc", "-shared", "-fPIC", "-o", tmp_path / "slow.so", tmp_path / "slow.c"], check=True)
    slow = ctypes.CDLL(str(tmp_path / "slow.so")).slow
    producer = Producer()
    no_text = ctypes.CFUNCTYPE(P, P)(lambda _: None)

    def call(_):
        stream = producer.make(Stream, get_schema=ctypes.cast(slow, P), get_last_error=ctypes.cast(no_text, P))
        with pytest.raises(ValueError, match="Input/output error"):
            xxh64_each(type("Slow", (), {"__arrow_c_stream__": lambda _: capsule(stream)})())

    assert_releases_the_gil(call, None, ticks)


# ---- Arrays of pyarrow

def stored(pa, values, path):
    """The bytes of values in a Parquet file, as pyarrow reads them if it knows nothing of their types."""
    formats = {"int32": "<i", "int64": "<q", "float": "<f", "double": "<d"}
    pa.parquet.write_table(pa.table({"x": values}), path)
    with parquet.open(path) as reader:
        chunks = stored_values(reader.source.file, *reader.footer.columns(), range(reader.num_row_groups))
        arrays = [batch for _, batches in chunks for batch in batches]
    return [value if value is None or isinstance(value, bytes) else struct.pack(formats[str(values.type)], value)
            for values in arrays for value in values.to_pylist()]


@pytest.mark.parametrize("name", [*TYPES, "float16", "string_view", "binary_view"])
def test_a_value_of_pyarrow_is_a_key_as_parquet_stores_it(name, pa, tmp_path):
    values = column_of(pa, name, 40)
    for column in (values, values[4:10]):  # the slice has no nulls
        keys = stored(pa, column, tmp_path / "a")
        check(lambda: column, keys)
        check(lambda: column[3:9], keys[3:9])
        check(lambda: pa.chunked_array([column[:5], column[7:]]), keys[:5] + keys[7:])


def test_each_batch_of_a_table_of_pyarrow_is_added(pa):
    table = pa.table({"name": [f"fox{i}" for i in range(20)]})
    bloom = BloomFilter(1024)
    for batch in table.to_batches(max_chunksize=6):
        bloom.add_each(batch["name"])
    assert all(f"fox{i}" in bloom for i in range(20))
    assert table.filter(pa.array(bloom.contains_each(table["name"]))).num_rows == 20
    with pytest.raises(TypeError, match="pass one column of a table"):
        bloom.add_each(table)
