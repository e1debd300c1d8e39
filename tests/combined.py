"""What `concat`, `merge` and `combine_by_coords` make of arrays and datasets: the rules of docs/LANGUAGE.md in plain Python, with which the
tests compare xarray and the program. Which labels a join has is said by `labelled.joined_axis`.

A fill is None for a missing cell, and `fills` says whether one is given at all. The first fault is raised as `Refused`.
"""
import itertools

import labelled
from labelled import Index, Refused, check_fill
from valued import Array, Part, Set, joined_index, joined_notes, shared_attrs

# After the modules before it, which end the test where it is missing.
import numpy


class Conflict(Refused):
    """Values that don't go together, with what doesn't: dimensions, cells, sorts of cells, labels to rank by, or the grid."""

    def __init__(self, about):
        super().__init__(15)
        self.about = about


def as_set(value, name):
    """An array as the dataset of one variable."""
    if isinstance(value, Set):
        return value
    return Set({name: value.part}, value.index, value.sizes, value.coords, value.notes)


def names_of(lists):
    """Each name once, in the order of first appearance."""
    return list(dict.fromkeys(name for names in lists for name in names))


# ---- values over joined labels

class Joined:
    """Joined labels of some dimensions, with which values are filled. Other dimensions stay."""

    def __init__(self, sets, join, fills, fill, besides=None):
        self.index, self.sizes = joined_index(sets, join, fills, besides)
        self.fill = fill

    def sources(self, part, s):
        """For each dimension where the cells of the positions come from, if they come from anywhere."""
        return [self.sources_along(d, s) for d in part.dims]

    def sources_along(self, d, s):
        old, new = s.index[d], self.index.get(d)
        if d not in self.index or old is None or old.labels == new.labels:
            return list(range(s.sizes[d]))
        return [old.labels.index(it) if it in old.labels else None for it in new.labels]

    def part(self, part, s):
        """A variable or a coordinate: a cell of which one position has no source is the fill."""
        if not part.dims:
            return part
        found = self.sources(part, s)
        cells = numpy.empty([len(it) for it in found], dtype=object)
        for point in itertools.product(*map(range, cells.shape)):
            places = tuple(it[k] for it, k in zip(found, point))
            cells[point] = self.fill if None in places else part.cells[places]
        is_masked = part.masked or self.fill is None and any(None in it for it in found)
        return Part(part.name, part.dims, part.kind, cells, is_masked, part.attrs)

    def set(self, s):
        parts = {n: self.part(p, s) for n, p in s.parts.items()}
        coords = {n: self.part(c, s) for n, c in s.coords.items()}
        return Set(parts, s.index | {d: i for d, i in self.index.items() if d in s.index}, s.sizes | self.sizes, coords, s.notes, s.attrs, s.skipped)

    def check_fill(self, s):
        """The fill has to be one for what has a position without a source."""
        for part in [*s.parts.values(), *s.coords.values()]:
            if any(None in it for it in self.sources(part, s)):
                check_fill(self.fill, part.kind)


# ---- cells of one name from several values

def check_dims(parts):
    if any(set(p.dims) != set(parts[0].dims) for p in parts):
        raise Conflict("dimensions")


def common_kind(parts):
    kinds = [p.kind for p in parts]
    if "char" in kinds and set(kinds) != {"char"}:
        raise Refused(4)
    return "char" if "char" in kinds else labelled.promoted(kinds)


def cast(cells, kind):
    made = numpy.empty(cells.shape, dtype=object)
    for point in itertools.product(*map(range, cells.shape)):
        cell = cells[point]
        made[point] = cell if cell is None else bool(cell) if kind == "bool" else int(cell)
    return made


def in_order(part, dims):
    return part.cells.transpose([part.dims.index(d) for d in dims])


def are_equal(a, b):
    """Equal cells, missing ones too, whatever their kinds."""
    return a.shape == b.shape and all(x == y and (x is None) == (y is None) for x, y in zip(a.ravel(), b.ravel()))


def sort_of(part):
    return part.kind if part.kind in ("text", "time") else "number"


def are_alike(a, b):
    """Equal coordinates: over the same dimensions in the same order. Numbers, texts and times are never equal to each other."""
    return sort_of(a) == sort_of(b) and a.sort == b.sort and list(a.dims) == list(b.dims) and are_equal(a.cells, b.cells)


def attrs_of(parts):
    return shared_attrs([p.attrs for p in parts])


def with_attrs(part, attrs):
    return Part(part.name, part.dims, part.kind, part.cells, part.masked, attrs, part.sort, part.count)


# ---- concat

def check_names(dim, values, sets):
    """The same variables in all, the dimension in all or in none, and nothing else that is called so."""
    for s in sets:
        for name in s.parts:
            if any(name not in t.parts for t in sets):
                raise Refused(2, name)
    if 0 < sum(dim in s.index for s in sets) < len(sets):
        raise Refused(3, dim)
    for v in values:
        if dim in (v.parts if isinstance(v, Set) else [v.name]) or dim in v.coords and v.coords[dim].dims:
            raise Refused(25)


def along(dim, sets):
    """The labels of a dimension that all have: one behind the other."""
    indexes = [s.index[dim] for s in sets]
    if not any(indexes):
        return None
    if not all(indexes) or any(i.sort != indexes[0].sort for i in indexes):
        raise Refused(10)
    return Index(indexes[0].sort, labelled.promoted([i.kind for i in indexes]), [it for i in indexes for it in i.labels])


def index_of_scalar(part):
    """The label that a single coordinate is, if it is one."""
    if part is None or part.kind in ("bool", "char") or part.cells.item() is None:
        return None
    if part.kind == "time":
        return Index(part.sort, "int64", [part.count])
    return Index("texts", "int64", [part.cells.item()]) if part.kind == "text" else Index("numbers", part.kind, [part.cells.item()])


def across(dim, sets):
    """The labels of a new dimension: single coordinates of its name, which all have and which are of one kind."""
    indexes = [index_of_scalar(s.coords.get(dim)) for s in sets]
    if not all(indexes) or len({(i.sort, i.kind) for i in indexes}) > 1:
        return None
    return Index(indexes[0].sort, indexes[0].kind, [it for i in indexes for it in i.labels])


def check_same(parts):
    """The same dimensions, and a kind for all."""
    check_dims(parts)
    common_kind(parts)


def check_constant(parts):
    if not all(are_equal(parts[0].cells, in_order(p, parts[0].dims)) for p in parts):
        raise Conflict("cells")


def joined_part(dim, is_new, parts):
    """The variables or coordinates of one name as one."""
    first, kind = parts[0], common_kind(parts)
    cells = [cast(in_order(p, first.dims), kind) for p in parts]
    if is_new:
        cells = numpy.stack(cells)
    else:
        cells = numpy.concatenate(cells, axis=first.dims.index(dim)) if dim in first.dims else cells[0]
    return Part(first.name, [dim] * is_new + list(first.dims), kind, cells, any(p.masked for p in parts), attrs_of(parts))


def joined_coordinate(dim, parts):
    """The coordinate that stands for those of all values, or None."""
    first = parts[0]
    if None in parts or first.name == dim:
        return None
    if dim not in first.dims:
        return with_attrs(first, attrs_of(parts)) if all(are_alike(first, p) for p in parts) else None
    if any(list(p.dims) != list(first.dims) for p in parts):
        return None
    try:
        return joined_part(dim, False, parts)
    except Refused:
        return None


def concatenated(values, dim, join="outer", fills=False, fill=None):
    sets = [as_set(v, "") for v in values]
    check_names(dim, values, sets)
    is_new, first = dim not in sets[0].index, sets[0]
    joined = Joined(sets, join, fills, fill, dim)
    own = across(dim, sets) if is_new else along(dim, sets)
    taken = [joined.set(s) for s in sets]
    for name in first.parts:
        check_same([t.parts[name] for t in taken])
    for s in sets:
        joined.check_fill(s)
    for name, part in first.parts.items():
        if not is_new and dim not in part.dims:
            check_constant([t.parts[name] for t in taken])
    names = [dim] * is_new + names_of(s.dims for s in sets)
    index, sizes = joined.index | {dim: own}, joined.sizes | {dim: len(sets) if is_new else sum(s.sizes[dim] for s in sets)}
    parts = {n: joined_part(dim, is_new, [t.parts[n] for t in taken]) for n in first.parts}
    coords = {n: joined_coordinate(dim, [t.coords.get(n) for t in taken]) for n in first.coords}
    notes = joined_notes(sets) | ({dim: first.coords[dim].attrs} if is_new and own else {})
    made = Set(parts, {d: index[d] for d in names}, sizes, {n: c for n, c in coords.items() if c}, notes,
               shared_attrs([s.attrs for s in sets]), names_of(s.skipped for s in sets))
    if isinstance(values[0], Set):
        return made
    name = values[0].name if all(v.name == values[0].name for v in values) else None
    return named(made.array(""), name)


def named(a, name):
    p = a.part
    return Array(Part(name, p.dims, p.kind, p.cells, p.masked, p.attrs), a.index, a.coords, a.notes)


# ---- merge

def check_crossing(sets):
    """A variable of one has no name of a dimension or coordinate of another, nor of a coordinate or labels of its own."""
    for k, s in enumerate(sets):
        others = sets[:k] + sets[k + 1:]
        if any(n in s.coords or s.index.get(n) or any(n in t.index or n in t.coords for t in others) for n in s.parts):
            raise Refused(25)


def one_of(cells):
    """The number that the present cells share, or None."""
    present = [it for it in cells if it is not None]
    if any(it != present[0] for it in present):
        raise Conflict("cells")
    return present[0] if present else None


def merged_part(compat, parts):
    first = parts[0]
    if len(parts) == 1:
        return first
    if any(sort_of(p) != "number" for p in parts):
        if compat != "override" and not all(are_alike(first, p) for p in parts):
            raise Conflict("cells" if len({sort_of(p) for p in parts}) == 1 else "sorts")
        return with_attrs(first, attrs_of(parts))
    if compat == "override":
        return with_attrs(first, attrs_of(parts))
    if compat == "equals":
        check_constant(parts)
        return with_attrs(first, attrs_of(parts))
    each = [in_order(p, first.dims) for p in parts]
    cells = numpy.empty(first.cells.shape, dtype=object)
    for point in itertools.product(*map(range, cells.shape)):
        cells[point] = one_of([it[point] for it in each])
    kind = common_kind(parts)
    return Part(first.name, first.dims, kind, cast(cells, kind), all(p.masked for p in parts), attrs_of(parts))


def merged(values, compat="no_conflicts", join="outer", fills=False, fill=None):
    sets = [as_set(v, getattr(v, "name", None)) for v in values]
    joined = Joined(sets, join, fills, fill)
    check_crossing(sets)
    names = names_of(s.parts for s in sets)
    others = [n for n in names_of(s.coords for s in sets) if n not in joined.index]
    for n in names:
        check_dims([s.parts[n] for s in sets if n in s.parts])
    for n in others:
        check_dims([s.coords[n] for s in sets if n in s.coords])
    for s in sets:
        joined.check_fill(s)
    taken = [joined.set(s) for s in sets]
    parts = {n: merged_part(compat, [t.parts[n] for t in taken if n in t.parts]) for n in names}
    coords = {n: merged_part(compat, [t.coords[n] for t in taken if n in t.coords]) for n in others}
    attrs = shared_attrs([v.attrs for v in values if isinstance(v, Set)])
    return Set(parts, joined.index, joined.sizes, coords, joined_notes(sets), attrs, names_of(s.skipped for s in sets))


# ---- combine_by_coords

def same_labels(a, b):
    return a.sort == b.sort and a.labels == b.labels


def ascend(labels):
    return all(a <= b for a, b in zip(labels, labels[1:]))


def direction(indexes):
    """Whether the labels of all ascend, or else descend."""
    if all(ascend(i.labels) for i in indexes):
        return True
    if all(ascend(i.labels[::-1]) for i in indexes):
        return False
    raise Refused(9)


def ranks(indexes, rises):
    firsts = sorted({i.labels[0] for i in indexes}, reverse=not rises)
    return [firsts.index(i.labels[0]) for i in indexes]


def places(sets, dims):
    """Of each dataset its place in the grid, and for each dimension whether it ascends."""
    along_each = [[s.index[d] for s in sets] for d in dims]
    if not dims or any(not i.labels for indexes in along_each for i in indexes):
        raise Conflict("labels")
    rises = [direction(indexes) for indexes in along_each]
    if any(i.sort != indexes[0].sort for indexes in along_each for i in indexes):
        raise Refused(10)
    found = list(zip(*(ranks(indexes, up) for indexes, up in zip(along_each, rises))))
    shape = [max(it) + 1 for it in zip(*found)]
    if len(set(found)) < len(found) or len(found) < numpy.prod(shape):
        raise Conflict("grid")
    return found, rises


def group_combined(sets, join, fills, fill):
    first = sets[0]
    if len(sets) == 1:
        return first
    dims = [d for d in first.dims if all(s.index.get(d) for s in sets) and not all(same_labels(s.index[d], first.index[d]) for s in sets)]
    found, rises = places(sets, dims)
    tiles = dict(zip(found, sets))
    for d in dims:
        lines = {}
        for place in sorted(tiles, key=lambda it: (it[1:], it[0])):
            lines.setdefault(place[1:], []).append(tiles[place])
        tiles = {place: concatenated(line, d, join, fills, fill) for place, line in lines.items()}
    made = tiles[()]
    for d, up in zip(dims, rises):
        labels = made.index[d].labels
        if not ascend(labels if up else labels[::-1]):
            raise Refused(9)
    return made


def grouped(sets):
    """Those that have the same variables, by the names of these."""
    groups = {}
    for s in sets:
        groups.setdefault(tuple(sorted(n.encode() for n in s.parts)), []).append(s)
    return [group for _, group in sorted(groups.items(), key=lambda it: it[0])]


def combined(sets, compat="no_conflicts", join="outer", fills=False, fill=None):
    return merged([group_combined(group, join, fills, fill) for group in grouped(sets)], compat, join, fills, fill)
