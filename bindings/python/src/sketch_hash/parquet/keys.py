"""The bytes that a Parquet file stores for a value."""
import array
import datetime
import decimal
import math
import numbers
import operator
import re
import struct
import uuid

from .. import column as texts_of
from .footer import BYTE_ARRAY, DOUBLE, FIXED, FLOAT, INT32, INT64

MOST_BYTES = 1024  # of a decimal. Arrow's have up to 32.
NUMBERS = INT32, INT64, FLOAT, DOUBLE


def listed(values):
    """The values as a list of Python's, exactly."""
    if isinstance(values, (str, bytes)) or not hasattr(values, "__iter__"):
        raise TypeError("values must be a list of values, as [42], not one value")
    dtype = getattr(values, "dtype", None)
    if str(dtype).endswith("[pyarrow]"):  # of a Series of pandas
        values = values.array.__arrow_array__()
    elif hasattr(values, "__arrow_c_stream__") and not hasattr(dtype, "kind"):  # of polars
        import pyarrow
        values = pyarrow.chunked_array(values)
    if hasattr(values, "to_pylist"):
        return listed_from_arrow(values, getattr(values, "type", None))
    return values.tolist() if getattr(dtype, "kind", None) in ("i", "u") else [*values]


def listed_from_arrow(values, type):
    """Python's times have no nanoseconds, and pyarrow drops them."""
    if hasattr(type, "index_type"):
        values, type = values.cast(type.value_type), type.value_type
    if str(type).startswith(("time64[ns]", "timestamp[ns")):
        zone = datetime.timezone.utc if getattr(type, "tz", None) else None
        return [None if count is None else moment_of(count, "time64" in str(type), zone)
                for count in values.cast("int64").to_pylist()]
    if "[ns" in str(type):
        raise TypeError(f"values must not be of {type}, whose nanoseconds Python's types lack: cast them to int64")
    return values.to_pylist()


def moment_of(count, is_time, zone):
    """That of nanoseconds since midnight, or since 1970."""
    moment = Timestamp(1970, 1, 1, tzinfo=zone) + datetime.timedelta(microseconds=count // 1000)
    moment = Time(moment.hour, moment.minute, moment.second, moment.microsecond) if is_time else moment
    moment.nanosecond = count % 1000
    return moment


def keys_of(value, column):
    """The keys of a value: several for some floats, none if the column cannot have the value."""
    kind = column.kind
    reason = kind.why_no_key()
    if reason:
        raise TypeError(f"the column {column.name} must not be {reason}")
    if isinstance(value, bool) or is_missing(value):
        raise TypeError(f"a value must not be a null, a NaN or a bool, as {value!r}")
    if getattr(getattr(value, "dtype", None), "kind", None) in ("S", "U"):
        raise TypeError("a value must not be of numpy's types S and U, which drop zero bytes at the end: pass bytes or str")
    try:
        if kind.type in (FLOAT, DOUBLE):
            return of_float(value, "<f" if kind.type == FLOAT else "<d")
        if kind.name == "decimal":
            return of_integer(unscaled(value, kind.scale), kind)
        if kind.name in MOMENTS and kind.unit:
            return of_integer(MOMENTS[kind.name](value, kind), kind)
        if kind.type in (INT32, INT64):
            return of_integer(operator.index(value), kind)
        return of_bytes(value, kind)
    except TypeError as error:
        raise TypeError(f"a value of {type(value).__name__} cannot be in {column.name}: {error}") from None


def column_of(values, kind):
    """The keys of many values as a column, or None if they are not all whole numbers or texts that have one key each."""
    types = {*map(type, values)}
    if kind.why_no_key():
        return None
    if kind.type == BYTE_ARRAY and types <= {str, bytes}:
        return texts_of(values)
    if kind.type not in (INT32, INT64) or kind.name not in (None, "integer") or types != {int}:
        return None
    width, letter = (4, "i") if kind.type == INT32 else (8, "q")
    try:
        stored = array.array(letter.upper() if kind.is_unsigned else letter, values)
    except OverflowError:
        return None
    return stored.tobytes(), array.array("Q", range(0, width * len(values) + 1, width))


class Timestamp(datetime.datetime):
    nanosecond = 0  # behind the microsecond, as a pandas.Timestamp has it


class Time(datetime.time):
    nanosecond = 0


def parse(text, column):
    """Returns the value of a column that is written as this text."""
    kind = column.kind
    # Python's parsers drop what follows the sixth digit of a second.
    parts = re.split(r"(?<=[.,]\d{6})(\d+)", text, maxsplit=1) if kind.name in ("time", "timestamp") else [text]
    digits = "".join(parts[1:2])
    try:
        if len(digits) > 3:
            raise ValueError("finer than a nanosecond")
        if "_" in text and (kind.name == "decimal" or kind.type in NUMBERS):
            raise ValueError("Python's parsers ignore it")
        value = PARSERS.get(kind.name, PARSERS.get(kind.type, str))("".join(parts[::2]))
    except (ArithmeticError, ValueError):
        raise ValueError(f"the column {column.name} cannot have {text!r}") from None
    if kind.name == "timestamp" and kind.is_utc and value.tzinfo is None:
        value = value.replace(tzinfo=datetime.timezone.utc)
    if digits:
        value.nanosecond = int(digits.ljust(3, "0"))
    return value


def is_missing(value):
    try:
        return value is None or bool(value != value)
    except (ArithmeticError, TypeError, ValueError):  # a signaling NaN, pandas.NA, or an array
        return True


def of_float(value, format):
    """A query engine converts the value to the column's type, as 0.1 to FLOAT, and need not round to the nearest number.
    So a value that the type lacks has the keys of the two numbers around it. Zero has two forms."""
    if not isinstance(value, (numbers.Real, decimal.Decimal)):
        raise TypeError("it must be a number")
    try:
        key = struct.pack(format, float(value))
    except OverflowError:
        key = struct.pack(format, math.inf if value > 0 else -math.inf)
    except TypeError:  # a duration of numpy says that it is a number
        raise TypeError("it must be a number") from None
    near, bits = struct.unpack(format, key)[0], int.from_bytes(key, "little")
    # numpy compares to its own kind of bool, whose sums have 64 bits.
    forms = {bits, bits + bool(abs(near) < abs(value)) - bool(abs(near) > abs(value))}
    zeros = {0, 1 << 8 * len(key) - 1}
    if forms & zeros:
        forms |= zeros
    return [form.to_bytes(len(key), "little") for form in sorted(forms)]


def of_integer(number, kind):
    width, order = {INT32: (4, "little"), INT64: (8, "little")}.get(kind.type, (kind.length, "big"))
    if not 0 < width <= MOST_BYTES:
        raise ValueError(f"whole numbers must have 1 to {MOST_BYTES} bytes in the file, not {width}")
    try:
        return [] if number is None else [number.to_bytes(width, order, signed=not kind.is_unsigned)]
    except OverflowError:
        return []


def of_bytes(value, kind):
    if kind.name == "uuid" and isinstance(value, uuid.UUID):
        value = value.bytes
    elif isinstance(value, str) and kind.type == BYTE_ARRAY:
        value = str.encode(value)
    if not isinstance(value, bytes):
        raise TypeError("it must be bytes" + (" or a str" if kind.type == BYTE_ARRAY else
                                              " or a uuid.UUID" if kind.name == "uuid" else ""))
    return [value] if kind.type == BYTE_ARRAY or len(value) == kind.length else []


def unscaled(value, scale):
    """The whole number that is stored for a decimal, or None. Arithmetic of decimals would round."""
    if not isinstance(value, decimal.Decimal):
        value = decimal.Decimal(operator.index(value))
    if not value.is_finite():
        return None
    sign, digits, exponent = value.as_tuple()
    text = "".join(map(str, digits))
    shown = text.rstrip("0")
    shift = exponent + len(text) - len(shown) + scale
    if not shown:
        return 0
    if shift < 0 or len(shown) + shift > 3 * MOST_BYTES:  # a byte has less than three digits
        return None
    return int(shown) * 10**shift * (-1 if sign else 1)


def is_numpy_date(value):
    return getattr(getattr(value, "dtype", None), "kind", None) == "M"


def of_numpy_date(value, unit):
    """In a unit of nanoseconds since 1970, or None if it is no whole number of them. Arithmetic of numpy would overflow."""
    steps, step = re.fullmatch(r".*\[(\d*)(\w+)\]", str(value.dtype)).groups()
    if step in ("Y", "M", "W"):
        return of_numpy_date(value.astype("datetime64[D]"), unit)
    if step not in PICOSECONDS:
        raise TypeError(f"a date of numpy must not be in {step}")
    count = int(steps or 1) * int(value.astype("int64")) * PICOSECONDS[step]
    return None if count % (1000 * unit) else count // (1000 * unit)


PICOSECONDS = {"D": 86400 * 10**12, "h": 3600 * 10**12, "m": 60 * 10**12, "s": 10**12, "ms": 10**9, "us": 10**6, "ns": 1000,
               "ps": 1}


def days(value, kind):
    if is_numpy_date(value):
        return of_numpy_date(value, 86400 * 10**9)
    if not isinstance(value, datetime.date) or isinstance(value, datetime.datetime):
        raise TypeError("it must be a datetime.date")
    return value.toordinal() - datetime.date(1970, 1, 1).toordinal()


def in_unit(delta, value, kind):
    """A pandas.Timestamp has nanoseconds that its arithmetic as a datetime hides."""
    nanoseconds = delta // datetime.timedelta(microseconds=1) * 1000 + getattr(value, "nanosecond", 0)
    return None if nanoseconds % kind.unit else nanoseconds // kind.unit


def since_1970(value, kind):
    if is_numpy_date(value) and not kind.is_utc:
        return of_numpy_date(value, kind.unit)
    if not isinstance(value, datetime.datetime) or (value.tzinfo is not None) != kind.is_utc:
        raise TypeError(f"it must be a datetime.datetime {'with' if kind.is_utc else 'without'} a time zone")
    epoch = datetime.datetime(1970, 1, 1, tzinfo=datetime.timezone.utc if kind.is_utc else None)
    since = value - epoch
    if hasattr(since, "to_pytimedelta"):  # of pandas
        since = since.floor("us").to_pytimedelta()
    return in_unit(since, value, kind)


def since_midnight(value, kind):
    if not isinstance(value, datetime.time) or value.tzinfo is not None:
        raise TypeError("it must be a datetime.time without a time zone")
    return in_unit(datetime.datetime.combine(datetime.date.min, value) - datetime.datetime.min, value, kind)


MOMENTS = {"date": days, "timestamp": since_1970, "time": since_midnight}
PARSERS = {
    "date": datetime.date.fromisoformat, "time": Time.fromisoformat, "decimal": decimal.Decimal,
    "timestamp": Timestamp.fromisoformat, "uuid": uuid.UUID,
    INT32: int, INT64: int, FLOAT: float, DOUBLE: float, FIXED: bytes.fromhex,
}
