"""What several files of tests of Parquet use. data/ has two files that pyarrow 25 wrote. Their footers become trees of all
that is in them, by Apache Thrift's own library, which the package does without."""
import datetime
import decimal
import io
import pathlib
import subprocess
import sys
import time
import uuid

import pytest
from sketch_hash import column, parquet

pytest.importorskip("thrift")
from thrift.protocol.TCompactProtocol import TCompactProtocol
from thrift.Thrift import TType
from thrift.transport.TTransport import TMemoryBuffer

DATA = pathlib.Path(__file__).parent / "data"
FILTERS, ODD = DATA / "filters.parquet", DATA / "odd.parquet"  # 24 rows in 3 row groups; those at 5 modulo 8 are null
DAY, UTC = datetime.date(2026, 1, 1), datetime.timezone.utc


def moment(**fields):
    return datetime.datetime(2026, 1, 1, 1, 1, **fields)


# The value in row i.
VALUES = {
    "int8": lambda i: i - 12, "uint16": lambda i: 65535 - i, "int32": lambda i: i * 1000,
    "uint32": lambda i: 2**32 - 1 - i, "int64": lambda i: 2**40 + i, "uint64": lambda i: 2**64 - 1 - i,
    "float": lambda i: i / 4, "double": lambda i: i / 10, "string": lambda i: f"fox {i}",
    "binary": lambda i: b"\xff%d" % i, "fixed": lambda i: b"%04d" % i, "date": lambda i: DAY + datetime.timedelta(i),
    "time_ms": lambda i: datetime.time(1, 2, i, 3000), "time_us": lambda i: datetime.time(1, 2, 3, i),
    "ms": lambda i: moment(second=i), "us_utc": lambda i: moment(second=1, microsecond=i, tzinfo=UTC),
    "ns": lambda i: moment(second=1, microsecond=i), "decimal9": lambda i: decimal.Decimal(i) / 100,
    "decimal30": lambda i: decimal.Decimal(i - 3) / 100, "uuid": lambda i: uuid.UUID(int=i),
    "list.list.element": lambda i: i + 100, "struct.x": lambda i: i, "struct.y": str,
}


# ---- Footers

PLAIN = {TType.BOOL: "Bool", TType.BYTE: "Byte", TType.I16: "I16", TType.I32: "I32", TType.I64: "I64",
         TType.DOUBLE: "Double", TType.STRING: "Binary"}


def read_value(protocol, kind):
    if kind in PLAIN:
        return getattr(protocol, f"read{PLAIN[kind]}")()
    if kind == TType.LIST:
        kind, count = protocol.readListBegin()
        items = [read_value(protocol, kind) for _ in range(count)]
        protocol.readListEnd()
        return kind, items
    fields = {}
    protocol.readStructBegin()
    while True:
        _, kind, number = protocol.readFieldBegin()
        if kind == TType.STOP:
            break
        fields[number] = kind, read_value(protocol, kind)
        protocol.readFieldEnd()
    protocol.readStructEnd()
    return fields


def write_value(protocol, kind, value):
    if kind in PLAIN:
        getattr(protocol, f"write{PLAIN[kind]}")(value)
    elif kind == TType.LIST:
        protocol.writeListBegin(value[0], len(value[1]))
        for item in value[1]:
            write_value(protocol, value[0], item)
        protocol.writeListEnd()
    else:
        protocol.writeStructBegin("")
        for number, (kind, value) in value.items():
            protocol.writeFieldBegin("", kind, number)
            write_value(protocol, kind, value)
            protocol.writeFieldEnd()
        protocol.writeFieldStop()
        protocol.writeStructEnd()


def split(file):
    """The bytes before the footer of a file, and the tree of its footer."""
    data = file.read_bytes()
    start = len(data) - 8 - int.from_bytes(data[-8:-4], "little")
    return data[:start], read_value(TCompactProtocol(TMemoryBuffer(data[start:-8])), TType.STRUCT)


def join(before, fields):
    buffer = TMemoryBuffer()
    write_value(TCompactProtocol(buffer), TType.STRUCT, fields)
    footer = buffer.getvalue()
    return before + footer + len(footer).to_bytes(4, "little") + b"PAR1"


def chunk_of(fields, group, column):
    return fields[4][1][1][group][1][1][1][column]


def metadata_of(fields, group, column):
    return chunk_of(fields, group, column)[3][1]


def changed(file, change):
    """A file in memory, after a change of the tree of its footer."""
    before, fields = split(file)
    change(fields)
    return io.BytesIO(join(before, fields))


def set_path(fields, group, column):
    chunk_of(fields, group, column)[1] = TType.STRING, b"b.parquet"


def element_of(fields, name):
    element, = (element for element in fields[2][1][1] if element[4][1] == name)
    return element


def texts(file, any_column, groups):
    """As stored_values, for any column."""
    for group in groups:
        yield group, [column([f"fox {i}"]) for i in range(8 * group, 8 * group + 8)]


def clear_filter(file):
    """Of b in the row group 1."""
    place = parquet.open(file).footer.find(["b"])[0].place(1)[0] + 15
    with open(file, "r+b") as opened:
        opened.seek(place)
        opened.write(bytes(32))


def until(is_so):
    end = time.monotonic() + 30
    while not is_so():
        assert time.monotonic() < end
        time.sleep(0.02)


def run(*args):
    command = [sys.executable, "-m", "sketch_hash.parquet", *map(str, args)]
    return subprocess.run(command, capture_output=True, text=True)
