"""Arrays and datasets of random labels, cells, attributes and coordinates: how a script writes them, how they are printed, and what they
are in xarray.

Where numpy, cftime and xarray are missing, a test that imports this ends, and its output says so.
"""
import labelled
from labelled import KINDS, Cells, joined_axis, random_cells, random_index

# After the module before it, which ends the test where they are missing.
import numpy
import pandas
import xarray

ATTRS = {"units": ["m", "m", "K", 1], "level": [1, 1, 2], "note": ["a b"], "_FillValue": [-9], "missing_value": [-9, -8]}
FILLS = ["_FillValue", "missing_value"]


def shared_attrs(lists):
    """Those of which no list has another of their name, in the order of first appearance."""
    return {n: it for attrs in lists for n, it in attrs.items() if all(other.get(n, it) == it for other in lists)}


def without_fills(attrs):
    return {n: it for n, it in attrs.items() if n not in FILLS}


class Part(Cells):
    """Cells with attributes: of an array, a variable or a coordinate, which may be one text, or a time of a calendar: its count."""

    def __init__(self, name, dims, kind, cells, masked=None, attrs=None, sort=None, count=None):
        super().__init__(name, dims, kind, cells, masked)
        self.attrs, self.sort, self.count = attrs or {}, sort, count

    def objects(self):
        """The cells as xarray compares them: texts and times are equal to nothing else."""
        if self.kind in ("text", "time"):
            return numpy.array(f"{self.sort or 'text'} {self.cells.item()}", dtype=object)
        return self.cells

    def real(self, kind=None):
        """As numpy has them, with 0 for missing ones."""
        return numpy.array([it or 0 for it in self.cells.ravel()], dtype=kind or self.kind).reshape(self.cells.shape)

    def at(self, d, k):
        """Its cells at a position of a dimension; without the dimension it stays."""
        if d not in self.dims:
            return self
        cells = numpy.array(numpy.take(self.cells, k, self.dims.index(d)), dtype=object)
        return Part(self.name, [it for it in self.dims if it != d], self.kind, cells, self.masked, self.attrs)

    def line(self):
        return " ".join([f"coord {self.name} {self.kind}{' masked' if self.masked else ''} ({', '.join(self.dims)}):", *map(self.word, self.cells.ravel())])

    def value(self):
        """As a script gives it to be a coordinate."""
        if self.kind == "text":
            return f'"{self.cells.item()}"'
        if not self.dims and self.kind == "int64" and not self.masked and not self.attrs:
            return str(self.cells.item())
        return super().value() + assigned(self.attrs)


def attr_lines(attrs):
    return [f'attr {n} char: "{it}"' if isinstance(it, str) else f"attr {n} int: {it}" for n, it in attrs.items()]


def assigned(attrs):
    spelled = [f'{n}="{it}"' if isinstance(it, str) else f"{n}={it}" for n, it in attrs.items()]
    return f".assign_attrs({', '.join(spelled)})" if spelled else ""


def peer_coords(index, coords):
    return {d: i.peer() for d, i in index.items() if i} | {c.name: (c.dims, c.objects()) for c in coords.values()}


class Array:
    """An array: its cells, and by their names the indexes of its dimensions, its coordinates and the attributes of its labels."""

    def __init__(self, part, index, coords, notes):
        self.part, self.index, self.coords, self.notes = part, index, coords, notes
        self.name, self.dims, self.kind, self.masked, self.attrs = part.name, list(index), part.kind, part.masked, part.attrs
        self.sizes = dict(zip(self.dims, part.cells.shape))

    def peer(self, numbers=None):
        """The positions of its cells, or other numbers, in xarray."""
        numbers = self.part.numbers()[1] if numbers is None else numbers
        return xarray.DataArray(numbers, peer_coords(self.index, self.coords), self.dims, self.name, self.attrs)

    def real(self):
        return self.peer(self.part.real())

    def missing(self):
        return numpy.array([it is None for it in self.part.cells.ravel()], dtype=bool).reshape(self.part.cells.shape)

    def script(self, r):
        labels = [f'"{d}": {self.labels(r, d)}' for d, i in self.index.items() if i]
        return self.part.script(labels + [c.coordinate() for c in self.coords.values()]) + assigned(self.attrs)

    def labels(self, r, d):
        """Those of a dimension in a script."""
        return labels_in_script(self, r, d)

    def at(self, d, k):
        """The array at a position of a dimension with labels, of which one is left as a coordinate."""
        part = self.part.at(d, k)
        return Array(part, {it: self.index[it] for it in part.dims}, coords_at(self, d, k), {n: it for n, it in self.notes.items() if n != d})

    def picks(self):
        """Its labels and coordinates of whole numbers and truth values, as arrays."""
        return coordinate_picks(self)

    def lines(self):
        sizes = ", ".join(f"{d}: {n}" for d, n in self.sizes.items())
        return [f"DataArray {self.name or '-'} ({sizes}) {self.kind}{' masked' if self.masked else ''}", *self.part.rows(self.part.cells),
                *coordinate_lines(self), *attr_lines(self.attrs)]


def labels_in_script(x, r, d):
    i = x.index[d]
    if x.notes.get(d):
        return f'DataArray({i.labels or [0]}, ["{d}"], dtype="{i.kind}")' + assigned(x.notes[d])
    return i.script(r, d)


def over(x, part):
    """A part of an array or dataset as an array, with the coordinates that lie along its dimensions."""
    coords = {c.name: c for c in x.coords.values() if set(c.dims) <= set(part.dims)}
    return Array(part, {d: x.index[d] for d in part.dims}, coords, x.notes)


def coordinate_picks(x):
    for d, i in x.index.items():
        if i and i.sort == "numbers":
            yield over(x, Part(d, [d], i.kind, numpy.array(i.labels, dtype=object), False, x.notes.get(d)))
    for c in x.coords.values():
        if c.kind not in ("text", "time"):
            yield over(x, c)


def coords_at(x, d, k):
    i = x.index[d]
    sort = None if i.sort in ("numbers", "texts") else i.sort
    kind, shown = i.shown()
    label = i.labels[k] if sort is None else shown[k]
    left = Part(d, [], kind, numpy.array(label, dtype=object), False, x.notes.get(d), sort, i.labels[k])
    return {n: c.at(d, k) for n, c in x.coords.items()} | {d: left}


def coordinate_lines(x):
    return labelled.index_lines(x.dims, x.index) + [c.line() for c in sorted(x.coords.values(), key=lambda it: it.name)]


class Set:
    """A dataset: its variables, its own attributes, the names of what isn't loaded, and the rest as an array has it."""

    def __init__(self, parts, index, sizes, coords, notes, attrs=None, skipped=()):
        used = {d for p in [*parts.values(), *coords.values()] for d in p.dims}
        self.parts, self.coords, self.attrs, self.skipped = parts, coords, attrs or {}, list(skipped)
        # A dimension without labels that nothing has is gone.
        self.index = {d: i for d, i in index.items() if i or d in used}
        self.sizes, self.dims, self.notes = {d: sizes[d] for d in self.index}, list(self.index), notes

    def array(self, name):
        return over(self, self.parts[name])

    def at(self, d, k):
        """The dataset at a position of a dimension with labels, as an array is."""
        parts = {n: p.at(d, k) for n, p in self.parts.items()}
        index, notes = ({n: it for n, it in of.items() if n != d} for of in (self.index, self.notes))
        return Set(parts, index, self.sizes, coords_at(self, d, k), notes, self.attrs, self.skipped)

    def picks(self):
        """Its variables, and its labels and coordinates of whole numbers and truth values, as arrays."""
        yield from map(self.array, self.parts)
        yield from coordinate_picks(self)

    def without(self, name):
        return Set({n: p for n, p in self.parts.items() if n != name}, self.index, self.sizes, self.coords, self.notes, self.attrs, self.skipped)

    def peer(self):
        return xarray.Dataset({n: p.numbers() for n, p in self.parts.items()}, peer_coords(self.index, self.coords))

    def labels(self, r, d):
        return labels_in_script(self, r, d)

    def lines(self):
        return ["Dataset", *(f"dim {d}: {n}" for d, n in self.sizes.items()), *coordinate_lines(self),
                *(f"var {n} {p.kind} ({', '.join(p.dims)}){' masked' if p.masked else ''}" for n, p in self.parts.items()),
                *(f"skipped {n}" for n in self.skipped), *attr_lines(self.attrs)]


def joined_index(values, join, fills=False, besides=None):
    """The indexes of the joined dimensions and their sizes, of all but one that is named."""
    names = dict.fromkeys(d for v in values for d in v.dims if d != besides)
    axes = {d: joined_axis(d, values, join, fills) for d in names}
    return {d: it[0] for d, it in axes.items()}, {d: it[1] for d, it in axes.items()}


def joined_notes(values):
    """The attributes of labels are those of the first value that has labels."""
    return {d: v.notes.get(d) for v in reversed(values) for d in v.dims if v.index[d]}


def labels_differ(there, index):
    """What xarray has for other labels."""
    return [f"xarray has the labels {list(there.indexes[d])} of {d}, not {i.labels}" for d, i in index.items()
            if i and list(there.indexes[d]) != list(pandas.Index(i.peer()))]


def objects(cells, shape):
    made = numpy.empty(len(cells), dtype=object)
    made[:] = cells
    return made.reshape(shape)


def random_attrs(r, odds):
    return {n: r.choice(ATTRS[n]) for n in r.sample(list(ATTRS), len(ATTRS)) if r.random() < odds}


def random_coordinate(r, name, d, pool, size, index):
    """One along a dimension: a label or a position has the same cell in most of them."""
    usual, shades = pool["usual"], pool.setdefault("shades", {})
    keys = index.labels if index else [usual[i] if i < len(usual) else ("bare", i) for i in range(size)]
    cells, kind = [], r.choice(KINDS)
    for key in keys:
        cells.append(shades.setdefault(key, r.choice([0, 1, 1, 2, None] if pool["holes"] else [0, 1, 1, 2])))
    if cells and r.random() < 0.25:
        cells[r.randrange(size)] = r.choice([0, 1, 3, None])
    cells = [bool(it) if kind == "bool" and it is not None else it for it in cells]
    return Part(name, [d], kind, objects(cells, [size]), attrs=random_attrs(r, 0.15))


def random_scalars(r):
    if r.random() < 0.35:
        kind = r.choice(["int64", "int64", *KINDS[:8]])
        cell = r.choice([5, 5, 5, 6]) if r.random() < 0.9 else None
        yield Part("n", [], kind, numpy.array(cell, dtype=object), attrs=random_attrs(r, 0.1))
    if r.random() < 0.2:
        yield Part("k", [], "text", numpy.array(r.choice(["p", "p", "q"]), dtype=object))


def odd_index(r, pool):
    """Labels that may be of another sort, repeat, or have another order, or none."""
    known = pool["labels"]
    usual = pool["usual"] or known[:2]
    # Numbers alone have a kind.
    kind = "uint64" if pool["sort"] == "numbers" and all(n >= 0 for n in known[-2:]) else "int64"
    return r.choice([None, labelled.Index(pool["sort"], "int64", [*usual, usual[0]]), labelled.Index(pool["sort"], kind, known[-2:]),
                     labelled.Index(*r.choice([("texts", "int64", ["a", "b"]), ("numbers", "int64", [0, 1]), ("noleap", "int64", [0, 24])]))])


def random_array(r, pools, index_of=random_index):
    dims = r.sample(list(pools), r.choice([0, 1, 1, 2, 2, 2, 3]))
    index = {d: index_of(r, pools[d]) for d in dims}
    bare = {d: len(pools[d]["usual"]) if pools[d]["usual"] and r.random() < 0.7 else r.choice([1, 2, 3]) for d in dims}
    sizes = {d: len(i.labels) if i else bare[d] for d, i in index.items()}
    cells = random_cells(r, r.choice(["v", "v", "v", "w", None]), dims, sizes, r.random() < 0.4)
    part = Part(cells.name, dims, cells.kind, cells.cells, attrs=random_attrs(r, 0.25))
    coords = {c.name: c for c in random_scalars(r)}
    for d in dims:
        if r.random() < 0.35:
            name = r.choice([f"c{d}", f"c{d}", "c", "n"])
            coords[name] = random_coordinate(r, name, d, pools[d], sizes[d], index[d])
    notes = {d: random_attrs(r, 0.1) for d, i in index.items() if i and i.sort == "numbers"}
    return Array(part, index, coords, notes)
