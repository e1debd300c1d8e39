"""The file of a dataset as the format's page says (docs/FORMAT.md, "From a dataset to a file" and "How a file is spelled"), and the fault
for which it is refused: the plain writer with which the tests compare the program. It writes datasets that were opened from a file, takes
nothing from the program, and is slow.
"""
from dataclasses import dataclass, field

import classic
from classic import Attribute, padding
from datasets import BYTE, CHAR, INT, INT64, KINDS, SHORT, UBYTE, UINT, UINT64, USHORT, numbers_of, product

OWN_TYPES = {kind: type_ for type_, kind in KINDS.items()} | {"bool": BYTE, "time": INT64}
# Versions 1 and 2 have the signed type of a width, and int for 64 bits.
SIGNED = {UBYTE: BYTE, USHORT: SHORT, UINT: INT, INT64: INT, UINT64: INT}
PADDING = {BYTE: b"\x81", CHAR: b"\0", SHORT: b"\x80\x01", UBYTE: b"\xff", USHORT: b"\xff\xff"}
DIMENSIONS, VARIABLES, ATTRIBUTES = 10, 11, 12
DUPLICATE_NAME, CANNOT_HOLD, NO_FILL = "F25 duplicate name", "F21 format cannot hold it", "F20 no fill value"
FILL_COLLIDES, TOO_LARGE = "F19 cell equals the fill value", "F22 too large"


class Refused(Exception):
    """The fault's text."""


@dataclass(eq=False)
class Var:
    """A variable that is to be written: `own` are the attributes that it has, `added` those that are put behind them. `fills` are the
    numbers that stand for missing cells, the first one for those that are written."""
    name: str
    dims: list
    type: int
    cells: list
    own: list
    added: list = field(default_factory=list)
    masked: bool = False
    fills: list = field(default_factory=list)


def unless(holds, fault):
    if not holds:
        raise Refused(fault)


def text_attr(name, raw):
    return Attribute(name, CHAR, raw)


def holds(type_, number):
    bits = 8 * classic.WIDTHS[type_]
    least = 0 if type_ in classic.UNSIGNED else -(1 << bits - 1)
    return least <= number < least + (1 << bits)


def value_bytes(type_, numbers):
    return b"".join((n % (1 << 8 * classic.WIDTHS[type_])).to_bytes(classic.WIDTHS[type_], "big") for n in numbers)


# ---- the variables of a dataset

def width_of(texts):
    return max([1, *(len(text.encode()) for text in texts)])


def var_of_texts(name, dims, texts, attrs):
    width = width_of(texts)
    return Var(name, [*dims, f"string{width}"], CHAR, [*b"".join(text.encode().ljust(width, b"\0") for text in texts)], attrs)


def var_of_index(name, index):
    if index.kind == "text":
        return var_of_texts(name, [name], index.labels, index.attrs)
    return Var(name, [name], OWN_TYPES[index.kind], index.counts or index.labels, index.attrs, index.coding)


def var_of_array(array):
    if array.kind == "text":
        return var_of_texts(array.name, [], array.cells, array.attrs)
    own_fill = numbers_of(array.attrs, "_FillValue")
    fills = (own_fill if len(own_fill) == 1 else []) + numbers_of(array.attrs, "missing_value")
    added = [text_attr("dtype", b"bool")] if array.kind == "bool" else []
    cells = [None if it is None else int(it) for it in array.cells]
    return Var(array.name, array.dims, OWN_TYPES[array.kind], cells, array.attrs, added, array.masked, fills)


def by_name(coords):
    return sorted(coords, key=lambda c: c.name.encode())


def listing(coords):
    """The attribute that lists coordinates, where there are some."""
    return [text_attr("coordinates", b" ".join(c.name.encode() for c in coords))] if coords else []


def coords_over(set_, dims):
    return [c for c in by_name(set_.coords.values()) if set(c.dims) <= set(dims)]


def vars_of(set_):
    """Indexes in the order of the dimensions, other coordinates by name, data variables in order."""
    made = [var_of_index(d, set_.indexes[d]) for d in set_.sizes if d in set_.indexes]
    made += [var_of_array(c) for c in by_name(set_.coords.values())]
    for array in set_.vars.values():
        var = var_of_array(array)
        var.added += listing(coords_over(set_, array.dims))
        made.append(var)
    return made


def attrs_of_file(set_):
    """The attributes that the file is given, for the coordinates that no variable lists."""
    listed = {c.name for array in set_.vars.values() for c in coords_over(set_, array.dims)}
    return listing([c for c in by_name(set_.coords.values()) if c.name not in listed])


def attrs_of(var):
    """A variable's attributes as they are written: a `_FillValue` in use has the variable's type."""
    in_use = var.masked and len(numbers_of(var.own, "_FillValue")) == 1
    return [Attribute(a.name, var.type, value_bytes(var.type, var.fills[:1])) if in_use and a.name == "_FillValue" else a
            for a in var.own] + var.added


# ---- the checks, in their order

def check_names(set_, vars_):
    widths = [width_of(index.labels) for index in set_.indexes.values() if index.kind == "text"]
    widths += [width_of(c.cells) for c in set_.coords.values() if c.kind == "text"]
    unless(all(set_.sizes.get(f"string{width}", width) == width for width in widths), DUPLICATE_NAME)
    own_widths = {d: width_of(index.labels) for d, index in set_.indexes.items() if index.kind == "text"}
    unless(all(d != f"string{width}" for d, width in own_widths.items()), DUPLICATE_NAME)
    for own, added in [(var.own, var.added) for var in vars_] + [(set_.attrs, attrs_of_file(set_))]:
        unless(not {a.name for a in own} & {a.name for a in added}, DUPLICATE_NAME)


def check_records(set_, vars_, records, version):
    unless(all(n != 0 or d == records for d, n in set_.sizes.items()), CANNOT_HOLD)
    unless(all(records not in var.dims[1:] for var in vars_), CANNOT_HOLD)
    unless(not any(c in name for name in set_.coords for c in " \t"), CANNOT_HOLD)
    types = {a.type for attrs in [set_.attrs, *map(attrs_of, vars_)] for a in attrs}
    unless(version == 5 or types <= {*classic.OLD_TYPES}, CANNOT_HOLD)


def check_cells(vars_):
    masked = [var for var in vars_ if var.masked]
    unless(all(var.fills for var in masked), NO_FILL)
    unless(all(holds(var.type, var.fills[0]) for var in masked), CANNOT_HOLD)
    for var in vars_:
        present = [n for n in var.cells if n is not None]
        unless(all(holds(var.type, n) for n in present), CANNOT_HOLD)
        unless(not (var.masked and {*present} & {*var.fills}), FILL_COLLIDES)


# ---- the bytes

class Spelling:
    """How a version writes numbers, names and lists."""

    def __init__(self, version):
        self.version = version

    def count(self, n):
        return n.to_bytes(8 if self.version == 5 else 4, "big")

    def place(self, n):
        return n.to_bytes(4 if self.version == 1 else 8, "big")

    def name(self, text):
        raw = text.encode()
        return self.count(len(raw)) + raw + bytes(padding(len(raw)))

    def list(self, tag, entries):
        return (tag if entries else 0).to_bytes(4, "big") + self.count(len(entries)) + b"".join(entries)

    def attrs(self, attrs):
        return self.list(ATTRIBUTES, [self.name(a.name) + a.type.to_bytes(4, "big") + self.count(len(a.raw) // classic.WIDTHS[a.type])
                                      + a.raw + bytes(padding(len(a.raw))) for a in attrs])

    def var(self, numbers, var, size, place):
        return (self.name(var.name) + self.count(len(numbers)) + b"".join(map(self.count, numbers)) + self.attrs(attrs_of(var))
                + var.type.to_bytes(4, "big") + self.count(size + padding(size)) + self.place(place))


def filled_up(var, raw, room):
    """Values with their padding, which repeats the variable's fill value."""
    own = [a.raw for a in attrs_of(var) if a.name == "_FillValue" and a.type == var.type and len(a.raw) == classic.WIDTHS[var.type]]
    return raw + (3 * (own[0] if own else PADDING.get(var.type, b"")))[:room - len(raw)]


def places_of(vars_, rooms, in_records, at, record_at):
    """Where the values of each variable begin, in the first record where it has records."""
    places = []
    for var, room in zip(vars_, rooms):
        if var in in_records:
            places.append(record_at)
            record_at += room
        else:
            places.append(at)
            at += room
    return places


def spelled(version, sizes, records, attrs, vars_, most=classic.MOST_BYTES, begins=lambda places: places):
    """The bytes of dimensions, one of them maybe the record dimension, attributes and variables. Refused where they, or those from one
    record to the next, are more than `most`. The header has for each variable the place that `begins` makes of where its values are."""
    count = sizes.get(records, 0)
    in_records = [var for var in vars_ if records in var.dims[:1]]
    slabs = [classic.WIDTHS[var.type] * product(sizes[d] for d in var.dims if d != records) for var in vars_]
    rooms = [n if [var] == in_records else n + padding(n) for var, n in zip(vars_, slabs)]
    distance = sum(room for var, room in zip(vars_, rooms) if var in in_records)

    spelling, numbers = Spelling(version), {d: n for n, d in enumerate(sizes)}
    def header(places):
        return (b"CDF" + bytes([version]) + spelling.count(count)
                + spelling.list(DIMENSIONS, [spelling.name(d) + spelling.count(0 if d == records else n) for d, n in sizes.items()])
                + spelling.attrs(attrs)
                + spelling.list(VARIABLES, [spelling.var([numbers[d] for d in var.dims], var, slab, place) for var, slab, place in zip(vars_, slabs, places)]))

    unless(distance <= most, TOO_LARGE)
    at = len(header([0] * len(vars_)))
    record_at = at + sum(rooms) - distance
    unless(record_at + count * distance <= most, TOO_LARGE)
    raws = [value_bytes(var.type, [var.fills[0] if n is None else n for n in var.cells]) for var in vars_]
    parts = [(var, raw, slab, room) for var, raw, slab, room in zip(vars_, raws, slabs, rooms)]
    data = header(begins(places_of(vars_, rooms, in_records, at, record_at)))
    data += b"".join(filled_up(var, raw, room) for var, raw, _, room in parts if var not in in_records)
    for r in range(count):
        data += b"".join(filled_up(var, raw[r * slab:(r + 1) * slab], room) for var, raw, slab, room in parts if var in in_records)
    return data


# ---- the file

def file_of(set_, version=5, unlimited=None):
    """The bytes of a dataset's file; `unlimited` names its record dimension. Raises the first check that fails."""
    unless(unlimited is None or unlimited in set_.sizes, f"F3 no dimension {unlimited}")
    vars_ = vars_of(set_)
    check_names(set_, vars_)
    if version != 5:
        for var in vars_:
            var.type = SIGNED.get(var.type, var.type)
    records = unlimited or next((d for d, n in set_.sizes.items() if n == 0), None)
    check_records(set_, vars_, records, version)
    check_cells(vars_)
    sizes = set_.sizes | {d: int(d.removeprefix("string")) for var in vars_ for d in var.dims if d not in set_.sizes}
    return spelled(version, sizes, records, set_.attrs + attrs_of_file(set_), vars_)
