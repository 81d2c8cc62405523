"""The footer of a Parquet file: where its parts are, its columns, and a copy with filters.

A footer is a struct in Thrift's compact protocol. It is read in place, once, and its parts are copied as bytes.
"""
import array
import itertools
import operator

from ._thrift import BINARY, BYTE, I32, I64, LIST, STRUCT, TRUE, Reader, Writer, list_of, zigzag

# Numbers of the fields, as parquet.thrift gives them, in FileMetaData, SchemaElement, RowGroup, ColumnChunk and
# ColumnMetaData.
VERSION, SCHEMA, ALL_ROWS, ROW_GROUPS, CREATED_BY, ENCRYPTION = 1, 2, 3, 4, 6, 8
TYPE, TYPE_LENGTH, REPETITION, NAME, CHILDREN, CONVERTED, SCALE, PRECISION, LOGICAL = 1, 2, 3, 4, 5, 6, 7, 8, 10
COLUMNS, BYTE_SIZE, ROWS = 1, 2, 3
FILE_PATH, FILE_OFFSET, METADATA = 1, 2, 3
VALUES, BYTES, STATISTICS, OFFSET, LENGTH = 5, 7, 12, 14, 15
PAGES = 9, 10, 11  # the first data page, index page and dictionary page
INDEXES = (4, 5), (6, 7)  # the offset and the length of each
CHUNK = {FILE_PATH: BINARY, METADATA: STRUCT, 4: I64, 5: I32, 6: I64, 7: I32}

MOST_DEPTH = 64  # of the schema
MOST_NAMES = 10  # in a message

BOOLEAN, INT32, INT64, INT96, FLOAT, DOUBLE, BYTE_ARRAY, FIXED = range(8)
MILLIS, MICROS, NANOS = 10**6, 10**3, 1  # in nanoseconds
REPEATED = 2
# The types that readers know by annotations: of LogicalType, and of the older ConvertedType.
NAMES = {1: "string", 4: "enum", 5: "decimal", 6: "date", 7: "time", 8: "timestamp", 10: "integer", 11: "null", 12: "json",
         13: "bson", 14: "uuid", 15: "float16"}
OLD = {5: "decimal", 6: "date", 7: "time", 8: "time", 9: "timestamp", 10: "timestamp", 21: "interval"}
TIME, VARIANT = 7, 16  # of LogicalType
MOST_DIGITS = 38  # of a decimal that DuckDB does not read as a DOUBLE


class Kind:
    """What the annotations of a column say about its values. `leaf` reads its element of the schema."""

    def __init__(self, leaf):
        fields = leaf.struct({TYPE: I32, TYPE_LENGTH: I32, CONVERTED: I32, SCALE: I32, PRECISION: I32, LOGICAL: STRUCT})
        old, number, details = fields.get(CONVERTED), None, None
        if LOGICAL in fields:
            leaf.at = fields[LOGICAL]
            number, details = union(leaf)
        self.type, self.length = fields[TYPE], fields.get(TYPE_LENGTH, 0)
        self.name, self.number = OLD.get(old) if number is None else NAMES.get(number), number
        self.scale, self.digits = fields.get(SCALE, 0), fields.get(PRECISION, 0)
        self.is_unsigned, self.is_utc = old in range(11, 15), True
        self.bits = {11: 8, 12: 16, 15: 8, 16: 16}.get(old, 0)  # of whole numbers that are narrower than what is stored
        self.unit = MILLIS if old in (7, 9) else MICROS
        if details is None:
            return
        if self.name == "integer":
            fields = details.struct({1: BYTE, 2: TRUE})
            self.is_unsigned, self.bits = fields.get(2) is False, details.data[fields[1]] if 1 in fields else 0
        elif self.name in ("time", "timestamp"):
            fields = details.struct({1: TRUE, 2: STRUCT})
            self.is_utc = fields.get(1, False)
            details.at = fields.get(2, details.at)
            self.unit = {1: MILLIS, 2: MICROS, 3: NANOS}.get(union(details)[0]) if 2 in fields else None
        elif self.name == "decimal":
            fields = details.struct({1: I32, 2: I32})
            self.scale, self.digits = fields.get(1, 0), fields.get(2, 0)

    def why_no_key(self):
        """Why values that are equal in an engine may have different bytes, so that a filter would lose rows; or None."""
        if self.name == "float16":
            return "FLOAT16: DuckDB 2.0 loses rows of such columns, whoever wrote their filters"
        if self.name == "interval":
            return "INTERVAL: DuckDB 2.0 loses rows of such columns, since 30 days equal a month"
        if self.name == "decimal" and self.type == BYTE_ARRAY:
            return "a DECIMAL in BYTE_ARRAY, which has several forms of a value"
        if self.number not in (None, *NAMES):
            return f"of the logical type {self.number}, whose equal values may have different bytes"
        return {BOOLEAN: "BOOLEAN, which has no filters", INT96: "INT96, whose values readers convert"}.get(self.type)


def union(reader):
    """The number of the only field of a struct, and a reader of its value."""
    found = None, None
    for number, kind in reader.fields():
        if found[0] or kind != STRUCT:
            raise ValueError("a union must have one struct")
        found = number, Reader(reader.data, reader.at)
    return found


class Column:
    """A column of values, of all row groups. `path` is where its elements of the schema begin, from the root on."""

    def __init__(self, footer, index, name, path):
        self.footer, self.index, self.name, self.path = footer, index, name, path
        self.annotations = None

    @property
    def kind(self):
        self.annotations = self.annotations or Kind(Reader(self.footer.data, self.path[-1]))
        return self.annotations

    def why_no_filter(self):
        """Why a filter would lose rows in an engine, or why the column can have none; or None."""
        types = [union(Reader(self.footer.data, fields[LOGICAL]))[0] for fields in self.elements() if LOGICAL in fields]
        if VARIANT in types:
            return "a part of a VARIANT, whose values may be in several columns"
        kind = self.kind
        if kind.name == "decimal" and not 0 < kind.digits <= MOST_DIGITS:
            return f"a DECIMAL of more than {MOST_DIGITS} digits: DuckDB 2.0 reads it as DOUBLE, and loses rows"
        return kind.why_no_key()

    def why_unused(self):
        """The columns whose filters DuckDB does not use, of which this is one; or None."""
        kind = self.kind
        if any(fields.get(REPETITION) == REPEATED for fields in self.elements()):
            return "lists and maps"
        if kind.name == "decimal" and kind.type == FIXED:
            return "decimals in FIXED_LEN_BYTE_ARRAY"
        return "times with a time zone" if kind.number == TIME and kind.is_utc else None

    def elements(self):
        """The fields of the elements of the schema that the column is in, and its own."""
        return [Reader(self.footer.data, at).struct({REPETITION: I32, LOGICAL: STRUCT}) for at in self.path[1:]]

    def chunk(self, group):
        """The fields of a row group's ColumnChunk. METADATA is missing if the column is encrypted."""
        reader = Reader(self.footer.data, self.footer.chunks[group * self.footer.width + self.index])
        fields = reader.struct(CHUNK)
        if FILE_PATH in fields:
            raise ValueError(f"the column {self.name} must be in this file alone, not in those that the footer names")
        return fields

    def metadata(self, group):
        """A reader of the ColumnMetaData of a row group."""
        begin = self.chunk(group).get(METADATA)
        if begin is None:
            raise ValueError(f"the column {self.name} must not be encrypted")
        return Reader(self.footer.data, begin)

    def place(self, group):
        """Where the filter of a row group begins, or None, and how long it is with its header, or None."""
        begin = self.chunk(group).get(METADATA)
        fields = {} if begin is None else Reader(self.footer.data, begin).struct({OFFSET: I64, LENGTH: I32})
        return fields.get(OFFSET), fields.get(LENGTH)

    def end(self, group):
        """Where the pages of a row group and their indexes end."""
        chunk = self.chunk(group)
        metadata = self.metadata(group).struct({BYTES: I64, **dict.fromkeys(PAGES, I64)})
        pages = [metadata[number] for number in PAGES if metadata.get(number, 0) > 0]
        if not pages or BYTES not in metadata:
            raise ValueError(f"the pages of {self.name} are missing")
        indexes = [chunk.get(offset, 0) + chunk.get(length, 0) for offset, length in INDEXES]
        return max(min(pages) + metadata[BYTES], max(pages) + 1, *indexes)

    def values(self, group):
        """How many values a row group has, with nulls."""
        return self.metadata(group).struct({VALUES: I64}).get(VALUES, 1)

    def groups_with_filters(self):
        return [group for group in range(self.footer.groups) if self.place(group)[0] is not None]


class Footer:
    """The footer of a file. `start` is where it begins, `groups` and `width` how many row groups and columns it has."""

    def __init__(self, source):
        tail = source.read(max(source.size - source.gap, 0), min(source.size, source.gap))
        length = int.from_bytes(tail[-8:-4], "little")
        self.start = source.size - 8 - length
        if tail[-4:] == b"PARE":
            raise ValueError("the footer must not be encrypted")
        if tail[-4:] != b"PAR1" or self.start < 4:
            raise ValueError("the file must be a Parquet file: its end is damaged")
        self.data = tail[-8 - length:-8] if length + 8 <= len(tail) else source.read(self.start, length)
        # Numbers in arrays: an object for each takes ten times as much as a part of a damaged footer may.
        self.rows, self.chunks = array.array("q"), array.array("Q")
        self.is_signed, self.schema = False, None  # where the list of the schema's elements begins
        self.copied = {}  # the kind and the bytes of some fields, if they are short: they are copied for each column
        try:
            self.read_root()
            self.width = sum(1 for _ in self.leaves())
            if len(self.chunks) != self.groups * self.width:
                raise ValueError("a row group must have all columns")
        except ValueError as error:
            raise ValueError(f"the footer is damaged: {error}") from error

    @property
    def groups(self):
        return len(self.rows)

    def read_root(self):
        reader, kinds = Reader(self.data, 0), {SCHEMA: LIST, ROW_GROUPS: LIST, ENCRYPTION: STRUCT}
        for number, kind in reader.fields():
            if number in (VERSION, ALL_ROWS, CREATED_BY):
                value = reader.bytes_of(kind)
                if len(value) < 1000:
                    self.copied[number] = kind, value
            elif number in kinds:
                if kind != kinds[number]:
                    raise ValueError(f"field {number} is there twice, or has another type than in parquet.thrift")
                kinds[number] = None
                self.schema = reader.at if number == SCHEMA else self.schema
                self.is_signed |= number == ENCRYPTION
                if number == ROW_GROUPS and len({self.read_group(reader) for _ in reader.structs()}) > 1:
                    raise ValueError("a row group must have all columns")

    def read_group(self, reader):
        """Notes where the chunks of a row group begin, and how many rows it has. Returns how many chunks there are."""
        rows, before = None, len(self.chunks)
        for number, kind in reader.fields():
            if number == COLUMNS and kind == LIST and len(self.chunks) == before:
                for _ in reader.structs():
                    self.chunks.append(reader.at)
                    reader.skip(STRUCT)
            elif number == ROWS and kind == I64 and rows is None:
                rows = reader.integer(64)
            elif number in (COLUMNS, ROWS):
                raise ValueError("a row group has another field than in parquet.thrift")
        if rows is None:
            raise ValueError("a row group must have a number of rows")
        self.rows.append(rows)
        return len(self.chunks) - before

    def leaves(self):
        """For each column the names of its elements of the schema, as a and a.b, and where they begin. The names of all
        columns have at most 20 times the bytes of the footer."""
        if self.schema is None:
            raise ValueError("the schema is missing")
        reader = Reader(self.data, self.schema)
        above, length = [], 0  # the elements around the next one: where each begins, its name, how many are left in it
        elements = reader.structs()
        for i in elements:
            begin = reader.at
            fields = reader.struct({TYPE: I32, NAME: BINARY, CHILDREN: I32})
            children = fields.get(CHILDREN, 0)
            if i and not above or TYPE in fields and (children or not i):
                raise ValueError("the schema is not a tree")
            if i:
                above[-1][2] -= 1
            name = fields.get(NAME, b"").decode() if i else ""
            if len(above) > 1:
                name = f"{above[-1][1]}.{name}"
            length += len(name)
            if length > 20 * len(self.data) or len(above) > MOST_DEPTH:
                raise ValueError("the names of the columns are too long")
            if TYPE in fields:
                yield [*(name for _, name, _ in above[1:]), name], [*(place for place, _, _ in above), begin]
            elif children:
                above.append([begin, name, children])
            while above and above[-1][2] <= 0:
                above.pop()
        if above or not elements:
            raise ValueError("the schema is truncated")

    def find(self, names):
        """The columns with these names. That of an element with one column in it is one too, as tags for
        tags.list.element."""
        whole, parts = ({name: [] for name in names} for _ in range(2))
        for index, (elements, path) in enumerate(self.leaves()):
            for name in set(elements).intersection(whole):
                found = (whole if name == elements[-1] else parts)[name]
                if len(found) <= MOST_NAMES:
                    found.append(Column(self, index, elements[-1], path))
        return [self.only_one(name, whole[name] or parts[name]) for name in whole]

    def only_one(self, name, found):
        if not found:
            raise ValueError(f"the column must be one of {some_of(self.columns())}, not {name}")
        if len(found) > 1:
            raise ValueError(f"the name of a column must be that of one alone: {name} is of {some_of(found)}")
        return found[0]

    def columns(self):
        for index, (elements, path) in enumerate(self.leaves()):
            yield Column(self, index, elements[-1], path)

    def with_filters(self, places):
        """The end of the file, if filters are at other places: (column, row group, offset, length), of which the last one
        counts; or at none, if these are None."""
        edits, pieces, end = {}, [], 0
        for column, group, offset, length in places:
            reader = column.metadata(group)
            begin = reader.at
            edits[begin] = with_place(reader, offset, length), reader.at
        for begin, (metadata, next_end) in sorted(edits.items()):
            pieces += self.data[end:begin], metadata
            end = next_end
        return end_of_file(b"".join([*pieces, self.data[end:]]))

    def of_column(self, column):
        """The end of the file for a reader that shall convert nothing: it has one column, with its physical type alone."""
        elements = [Writer().copy(Reader(self.data, at), (TYPE, TYPE_LENGTH, REPETITION, NAME)) for at in column.path]
        for group in elements[:-1]:
            group.field(CHILDREN, I32, zigzag(1))
        groups = [self.group_of_column(column, group) for group in range(self.groups)]
        fields = {**self.copied, SCHEMA: (LIST, list_of(elements)), ROW_GROUPS: (LIST, list_of(groups))}
        root = Writer()
        for number, (kind, value) in sorted(fields.items()):
            root.field(number, kind, value)
        return end_of_file(root.end())

    def group_of_column(self, column, group):
        metadata = Writer().copy(column.metadata(group), {*range(OFFSET)} - {STATISTICS})
        chunk = Writer().field(FILE_OFFSET, I64, zigzag(0)).field(METADATA, STRUCT, metadata.end())
        return (Writer().field(COLUMNS, LIST, list_of([chunk])).field(BYTE_SIZE, I64, zigzag(0))
                .field(ROWS, I64, zigzag(self.rows[group])))


def some_of(columns):
    names = [column.name for column in itertools.islice(columns, MOST_NAMES + 1)]
    return ", ".join([*names[:MOST_NAMES], ".."][:len(names)])


def with_place(reader, offset, length):
    """A ColumnMetaData with another place of its filter, or without one."""
    fields = [(number, kind, reader.bytes_of(kind)) for number, kind in reader.fields() if number not in (OFFSET, LENGTH)]
    if offset is not None:
        fields += (OFFSET, I64, zigzag(offset)), (LENGTH, I32, zigzag(length))
    writer = Writer()
    for field in sorted(fields, key=operator.itemgetter(0)):
        writer.field(*field)
    return writer.end()


def end_of_file(footer):
    return footer + len(footer).to_bytes(4, "little") + b"PAR1"
