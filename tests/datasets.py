"""Datasets as the format's page says (docs/FORMAT.md): the plain reader of classic.py's files as datasets, and their
printed form. The tests compare the program with it; it takes nothing from the program, and is slow.
"""
from dataclasses import dataclass, field

import cf_times
import classic

BYTE, CHAR, SHORT, INT, FLOAT, DOUBLE, UBYTE, USHORT, UINT, INT64, UINT64 = range(1, 12)
WHOLE = {BYTE: "int8", SHORT: "int16", INT: "int32", UBYTE: "uint8", USHORT: "uint16", UINT: "uint32",
         INT64: "int64", UINT64: "uint64"}
KINDS = {**WHOLE, CHAR: "char"}
MOST_CELLS, MOST_DIMENSIONS, MOST_VARIABLES = 1 << 25, 16, 1024


class TooLarge(Exception):
    """More coordinates and data variables than a dataset may have."""


@dataclass
class Index:
    """The labels of a dimension: whole numbers of a kind, or those of kind `time` or `text`. Of times also the numbers that stand for
    them in the file, and the attributes that say how."""
    kind: str
    labels: list
    attrs: list
    counts: list = field(default_factory=list)
    coding: list = field(default_factory=list)


@dataclass
class Array:
    """A data variable or a coordinate. `cells` has None for a missing cell."""
    name: str
    dims: list
    kind: str
    cells: list
    attrs: list
    masked: bool = False


@dataclass
class Dataset:
    sizes: dict = field(default_factory=dict)
    indexes: dict = field(default_factory=dict)
    coords: dict = field(default_factory=dict)
    vars: dict = field(default_factory=dict)
    attrs: list = field(default_factory=list)
    skipped: list = field(default_factory=list)


def text_of(attrs, name):
    return next((a.raw for a in attrs if a.name == name and a.type == CHAR), None)


def without(attrs, name):
    return [a for a in attrs if not (a.name == name and a.type == CHAR)]


def numbers(kind, raw):
    width, signed = classic.WIDTHS[kind], kind not in classic.UNSIGNED
    return [int.from_bytes(raw[i:i + width], "big", signed=signed) for i in range(0, len(raw), width)]


def numbers_of(attrs, name):
    found = next((a for a in attrs if a.name == name), None)
    return numbers(found.type, found.raw) if found and found.type in WHOLE else []


def text_in(raw):
    try:
        return raw.rstrip(b"\0").decode()
    except UnicodeDecodeError:
        return None


def product(sizes):
    total = 1
    for n in sizes:
        total *= n
    return total


def is_skipped(file, var):
    shape = file.shape(var)
    return (var.type not in KINDS or len(set(var.dims)) < len(var.dims) or len(var.dims) > MOST_DIMENSIONS
            or product(shape) > MOST_CELLS or any(n > MOST_CELLS for n in shape))


def time_index(var, counts, attrs):
    """The times that a variable counts, if its units and calendar are read and each count is one."""
    if any(a.name == "calendar" and a.type != CHAR for a in var.attrs):
        return None
    units = text_of(var.attrs, "units")
    coding = cf_times.coding_of(units, text_of(var.attrs, "calendar")) if units is not None else None
    times = [cf_times.decoded(coding, n) for n in counts] if coding else [None]
    texts = [a for name in ("units", "calendar") for a in attrs if a.name == name]
    return None if None in times else Index("time", times, without(without(attrs, "units"), "calendar"), counts, texts)


def index_of(file, var):
    """The labels that a variable holds, where it is an index."""
    dims, shape = [file.dims[d][0] for d in var.dims], file.shape(var)
    if dims[:1] != [var.name]:
        return None
    attrs = without(var.attrs, "coordinates")
    if len(dims) == 1 and var.type in WHOLE:
        counts = numbers(var.type, var.raw)
        return time_index(var, counts, attrs) or Index(WHOLE[var.type], counts, attrs)
    if len(dims) == 2 and var.type == CHAR:
        rows = [text_in(var.raw[i * shape[1]:(i + 1) * shape[1]]) for i in range(shape[0])]
        return None if None in rows else Index("text", rows, attrs)
    return None


def array_of(file, var, mask):
    fills = numbers_of(var.attrs, "_FillValue")
    fills = (fills if len(fills) == 1 else []) + numbers_of(var.attrs, "missing_value")
    masked = mask and var.type in WHOLE and bool(fills)
    cells = [None if masked and n in fills else n for n in numbers(var.type, var.raw)]
    attrs, kind = without(var.attrs, "coordinates"), KINDS[var.type]
    if var.type == BYTE and text_of(var.attrs, "dtype") == b"bool":
        kind, attrs = "bool", without(attrs, "dtype")
        cells = [None if n is None else n != 0 for n in cells]
    return Array(var.name, [file.dims[d][0] for d in var.dims], kind, cells, attrs, masked)


def coordinate_of(file, var, mask):
    shape = file.shape(var)
    if var.type == CHAR and len(var.dims) == 1 and file.dims[var.dims[0]][0] == f"string{shape[0]}":
        text = text_in(var.raw)
        if text is not None:
            return Array(var.name, [], "text", [text], without(var.attrs, "coordinates"))
    return array_of(file, var, mask)


def opened(file, mask=False):
    """The dataset of a file."""
    sizes = {name: size or file.numrecs for name, size in file.dims}
    listed = set()
    for attrs in [var.attrs for var in file.vars] + [file.attrs]:
        listed.update((text_of(attrs, "coordinates") or b"").replace(b"\t", b" ").split(b" "))
    made = Dataset(attrs=without(file.attrs, "coordinates"))
    for var in file.vars:
        if is_skipped(file, var):
            made.skipped.append(var.name)
        elif index_of(file, var):
            made.indexes[var.name] = index_of(file, var)
        elif var.name.encode() in listed and var.name not in sizes:
            made.coords[var.name] = coordinate_of(file, var, mask)
        else:
            made.vars[var.name] = array_of(file, var, mask)
    if len(made.coords) + len(made.vars) > MOST_VARIABLES:
        raise TooLarge
    used = {d for a in [*made.coords.values(), *made.vars.values()] for d in a.dims}
    made.sizes = {d: n for d, n in sizes.items() if d in made.indexes or d in used}
    return made


# ---- the printed form

def printed(name):
    return "".join(f"\\x{ord(c):02x}" if c < " " or c == "\x7f" else c for c in name)


def quoted(raw):
    """Bytes as a text in quotes; a byte that belongs to no character of UTF-8 is an escape."""
    made, at = "", 0
    while at < len(raw):
        size = next((n for n in range(1, 5) if is_character(raw[at:at + n], n)), 0)
        c = raw[at:at + size].decode()
        if size == 0 or c < " " or c == "\x7f":
            made += f"\\x{raw[at]:02x}"
        else:
            made += "\\" + c if c in '\\"' else c
        at += size or 1
    return f'"{made}"'


def is_character(raw, size):
    try:
        return len(raw) == size and len(raw.decode()) == 1
    except UnicodeDecodeError:
        return False


def cell(it):
    if it is None:
        return "NA"
    return quoted(it.encode()) if isinstance(it, str) else str(it)


def items(head, cells):
    return " ".join([head + ":", *cells])


def index_lines(set_, dims):
    return [items(f"coord {printed(d)} {set_.indexes[d].kind} ({printed(d)})", map(cell, set_.indexes[d].labels))
            for d in dims if d in set_.indexes]


def coord_lines(coords):
    made = []
    for c in sorted(coords, key=lambda c: c.name.encode()):
        masked = " masked" if c.masked else ""
        made.append(items(f"coord {printed(c.name)} {c.kind}{masked} ({', '.join(map(printed, c.dims))})", map(cell, c.cells)))
    return made


def attr_lines(attrs):
    made = []
    for a in attrs:
        if a.type == CHAR:
            shown = [quoted(a.raw)]
        elif a.type in WHOLE:
            shown = map(str, numbers(a.type, a.raw))
        else:
            shown = [f"{len(a.raw) // classic.WIDTHS[a.type]} unread"]
        made.append(items(f"attr {printed(a.name)} {classic.TYPE_NAMES[a.type]}", shown))
    return made


def joined(lines):
    return "".join(line + "\n" for line in lines).encode()


def set_text(set_):
    lines = ["Dataset"] + [f"dim {printed(d)}: {n}" for d, n in set_.sizes.items()]
    lines += index_lines(set_, set_.sizes) + coord_lines(set_.coords.values())
    lines += [f"var {printed(a.name)} {a.kind} ({', '.join(map(printed, a.dims))}){' masked' if a.masked else ''}" for a in set_.vars.values()]
    return joined(lines + [f"skipped {printed(name)}" for name in set_.skipped] + attr_lines(set_.attrs))


def array_text(set_, name):
    """The printed form of a part of a dataset by its name; None for texts and times, which are no array."""
    if name in set_.indexes and name not in set_.vars:
        index = set_.indexes[name]
        array = Array(name, [name], index.kind, index.labels, index.attrs)
    else:
        array = set_.vars.get(name) or set_.coords[name]
    if array.kind in ("text", "time"):
        return None
    shape = [set_.sizes[d] for d in array.dims]
    dims = ", ".join(f"{printed(d)}: {n}" for d, n in zip(array.dims, shape))
    lines = [f"DataArray {printed(name)} ({dims}) {array.kind}{' masked' if array.masked else ''}"]
    width = shape[-1] if shape else 1
    lines += [" ".join(map(cell, array.cells[i:i + width])) for i in range(0, len(array.cells), width or 1)]
    coords = [c for c in set_.coords.values() if set(c.dims) <= set(array.dims)]
    return joined(lines + index_lines(set_, array.dims) + coord_lines(coords) + attr_lines(array.attrs))
