"""Reads classic netCDF files, versions 1, 2 and 5, by the letter of the format's text: the plain reader with which the
tests compare the program. It takes nothing from the program; it is slow, and takes memory as it pleases.

Source: Unidata, "The NetCDF Classic Format Specification". The walk is from the front, and the first fault ends it.
Its offset is that of the first byte of the field that is wrong, and of a file that is cut the file's length.
"""
from dataclasses import dataclass, field

MOST_BYTES = 268_435_456
OLD_TYPES = range(1, 7)
WIDTHS = {1: 1, 2: 1, 3: 2, 4: 4, 5: 4, 6: 8, 7: 1, 8: 2, 9: 4, 10: 8, 11: 8}
TYPE_NAMES = {1: "byte", 2: "char", 3: "short", 4: "int", 5: "float", 6: "double",
              7: "ubyte", 8: "ushort", 9: "uint", 10: "int64", 11: "uint64"}
UNSIGNED = (2, 7, 8, 9, 11)
WHOLE_BYTE, SHORT, INT = 1, 3, 4


class Bad(Exception):
    """The first fault: its kind and its offset."""

    def __init__(self, kind, offset):
        super().__init__(f"{kind} at {offset}")
        self.kind, self.offset = kind, offset


@dataclass
class Attribute:
    name: str
    type: int
    raw: bytes


@dataclass
class Variable:
    name: str
    dims: list
    attrs: list
    type: int
    begin: int
    raw: bytes = b""


@dataclass
class File:
    version: int
    numrecs: int = 0
    dims: list = field(default_factory=list)
    attrs: list = field(default_factory=list)
    vars: list = field(default_factory=list)

    def shape(self, var):
        return [self.dims[d][1] or self.numrecs for d in var.dims]

    def values(self, var):
        """The whole numbers of a variable in row order."""
        width = WIDTHS[var.type]
        signed = var.type not in UNSIGNED
        return [int.from_bytes(var.raw[i:i + width], "big", signed=signed) for i in range(0, len(var.raw), width)]


def padding(n):
    return -n % 4


class Walk:
    """The header's fields from the left. Counts, lengths, numbers of dimensions and sizes take eight bytes in version 5."""

    def __init__(self, data, version):
        self.data, self.at, self.version = data, 4, version
        self.counted = 8 if version == 5 else 4

    def take(self, n):
        if self.at + n > len(self.data):
            raise Bad("CutHeader", len(self.data))
        taken = self.data[self.at:self.at + n]
        self.at += n
        return taken

    def number(self, width=4):
        return int.from_bytes(self.take(width), "big")

    def count(self):
        return self.number(self.counted)

    def name(self, earlier):
        start = self.at
        n = self.count()
        text = self.take(n)
        self.take(padding(n))
        try:
            name = text.decode()
        except UnicodeDecodeError:
            raise Bad("BadName", start) from None
        if not name:
            raise Bad("BadName", start)
        if name in earlier:
            raise Bad("Repeated", start)
        earlier.add(name)
        return name

    def type(self):
        start = self.at
        number = self.number()
        if number not in WIDTHS or (self.version != 5 and number not in OLD_TYPES):
            raise Bad("BadType", start)
        return number

    def entries(self, own):
        """How many entries a list has."""
        start = self.at
        tag = self.number()
        if tag not in (0, own):
            raise Bad("BadTag", start)
        start = self.at
        count = self.count()
        if tag == 0 and count:
            raise Bad("BadTag", start)
        return count

    def dims(self):
        dims, earlier = [], set()
        for _ in range(self.entries(10)):
            name = self.name(earlier)
            start = self.at
            length = self.count()
            if length == 0 and any(n == 0 for _, n in dims):
                raise Bad("BadDimension", start)
            dims.append((name, length))
        return dims

    def attrs(self):
        attrs, earlier = [], set()
        for _ in range(self.entries(12)):
            name = self.name(earlier)
            kind = self.type()
            size = self.count() * WIDTHS[kind]
            raw = self.take(size)
            self.take(padding(size))
            attrs.append(Attribute(name, kind, raw))
        return attrs

    def numbers_of_dims(self, dims):
        numbers = []
        for place in range(self.count()):
            start = self.at
            number = self.count()
            if number >= len(dims) or (place > 0 and dims[number][1] == 0):
                raise Bad("BadDimension", start)
            numbers.append(number)
        return numbers

    def vars(self, dims):
        found, earlier = [], set()
        for _ in range(self.entries(11)):
            name = self.name(earlier)
            numbers = self.numbers_of_dims(dims)
            attrs = self.attrs()
            kind = self.type()
            self.count()
            begin = self.number(4 if self.version == 1 else 8)
            found.append(Variable(name, numbers, attrs, kind, begin))
        return found


def size_of(dims, var):
    """Bytes of a variable's values, of a record variable per record."""
    size = WIDTHS[var.type]
    for number in var.dims:
        size *= dims[number][1] or 1
    return size


def read(data):
    """The file that the bytes spell. Raises the first fault."""
    if len(data) > MOST_BYTES:
        raise Bad("TooLarge", 0)
    if data[:4] not in (b"CDF\x01", b"CDF\x02", b"CDF\x05"):
        raise Bad("BadMagic", 0)
    walk = Walk(data, data[3])
    file = File(data[3], walk.count())
    file.dims, file.attrs = walk.dims(), walk.attrs()
    file.vars = walk.vars(file.dims)
    records = [v for v in file.vars if v.dims and file.dims[v.dims[0]][1] == 0]
    sizes = [size_of(file.dims, v) for v in records]
    distance = sizes[0] if len(sizes) == 1 else sum(n + padding(n) for n in sizes)
    if file.numrecs == 256 ** walk.counted - 1:
        fitting = [max(0, (len(data) - v.begin - n) // distance + 1) for v, n in zip(records, sizes)]
        file.numrecs = min(fitting, default=0)
    for var in file.vars:
        size, is_record = size_of(file.dims, var), any(var is v for v in records)
        count = file.numrecs if is_record else 1
        if count and var.begin + (count - 1) * distance * is_record + size > len(data):
            raise Bad("CutData", len(data))
        starts = (var.begin + r * distance for r in range(count)) if is_record else (var.begin,)
        var.raw = b"".join(data[at:at + size] for at in starts)
    return file
