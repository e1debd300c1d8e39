"""Arrays and datasets in xarray, with their cells as objects, so that none is rounded, and what a result there has otherwise.

Where numpy, cftime and xarray are missing, a test that imports this ends, and its output says so.
"""
from labelled import Index
from valued import Array, Set, labels_differ, objects

# After the modules before it, which end the test where they are missing.
import numpy
import pandas
import xarray


def peer_label(part):
    """A single coordinate as the label that it is."""
    if part.kind == "time":
        return Index(part.sort, "int64", [part.count]).peer()[0]
    return part.cells.item()


def turned(part, dims):
    """A variable or a coordinate for xarray, with its dimensions in this order, if it has these."""
    if set(dims) != set(part.dims):
        dims = part.dims
    return dims, part.objects().transpose([part.dims.index(d) for d in dims]), part.attrs


def orders_of(values):
    """The dimensions of each variable and coordinate in the order of the first value that has it."""
    return {n: p.dims for v in reversed(values) for n, p in [*(v.parts if isinstance(v, Set) else {v.name: v.part}).items(), *v.coords.items()]}


def peer(value, dim=None, without=(), orders=None):
    """A value with its cells, where a coordinate that is called as a new dimension is a label, and some are left out. Variables and coordinates
    have their dimensions in the orders that are given."""
    orders = orders or {}
    coords = {d: (d, i.peer(), value.notes.get(d) or {}) for d, i in value.index.items() if i}
    coords |= {n: turned(c, orders.get(n, c.dims)) for n, c in value.coords.items() if n not in without}
    if dim in value.coords and dim not in without:
        coords[dim] = ((), peer_label(value.coords[dim]), value.coords[dim].attrs)
    if isinstance(value, Array):
        dims, cells, attrs = turned(value.part, orders.get(value.name, value.dims))
        return xarray.DataArray(cells, coords, dims, value.name, attrs)
    return xarray.Dataset({n: turned(p, orders.get(n, p.dims)) for n, p in value.parts.items()}, coords, value.attrs)


def cells_of(there):
    return objects([None if pandas.isnull(it) else it for it in there.values.ravel()], there.shape)


def part_differs(there, part, has_attrs):
    """What xarray has otherwise for a variable or coordinate. Its dimensions may stand in another order."""
    if set(there.dims) != set(part.dims):
        return [f"xarray has {part.name} over {there.dims}"]
    cells, wanted = cells_of(there.transpose(*part.dims)), numpy.asarray(part.objects())
    wrong = []
    if cells.shape != wanted.shape or cells.ravel().tolist() != wanted.ravel().tolist():
        wrong.append(f"xarray has {part.name} {cells.tolist()}, not {wanted.tolist()}")
    if has_attrs and list(there.attrs.items()) != list(part.attrs.items()):
        wrong.append(f"xarray has the attributes {there.attrs} of {part.name}, not {part.attrs}")
    return wrong


def differences(there, made, has_attrs=True):
    """What xarray has otherwise than a value."""
    parts = {"": made.part} if isinstance(made, Array) else made.parts
    found = {"": there} if isinstance(made, Array) else dict(there.data_vars)
    coords = {n: c for n, c in there.coords.items() if n not in there.dims}
    wrong = [] if dict(there.sizes) == dict(made.sizes) else [f"xarray has the sizes {dict(there.sizes)}, not {made.sizes}"]
    wrong += [f"xarray has labels of {d}" for d, i in made.index.items() if i is None and d in there.indexes]
    if wrong or set(found) != set(parts) or set(coords) != set(made.coords):
        return [*wrong, f"xarray has {list(found)} and {list(coords)}, not {list(parts)} and {list(made.coords)}"]
    wrong += labels_differ(there, made.index)
    for n, p in parts.items():
        wrong += part_differs(found[n], p, has_attrs)
    for n, c in made.coords.items():
        wrong += part_differs(coords[n], c, has_attrs)
    return wrong


# ---- kinds

def parts_of(value):
    return {value.name: value.part} if isinstance(value, Array) else value.parts


def are_plain(values, besides=None):
    """Whether no cell is missing and none will be, and no variable is one of bytes of text."""
    index = {d: i for v in values for d, i in v.index.items() if d != besides}
    parts = [p for v in values for p in parts_of(v).values()]
    are_equal = all(v.index[d] is None or index[d] is None or v.index[d].labels == index[d].labels for v in values for d in v.index if d != besides)
    return are_equal and not any(p.masked or p.kind == "char" for p in parts)


def real_peer(value):
    """A value whose variables are of their kinds, without its coordinates."""
    labels = {d: i.peer() for d, i in value.index.items() if i}
    if isinstance(value, Array):
        return xarray.DataArray(value.part.real(), labels, value.dims, value.name)
    return xarray.Dataset({n: (p.dims, p.real()) for n, p in value.parts.items()}, labels)


def kinds_differ(there, parts):
    """What xarray has for other kinds of these variables."""
    found = {n: there if isinstance(there, xarray.DataArray) else there[n] for n in parts}
    return [f"xarray has the kind {found[n].dtype} of {n}, not {p.kind}" for n, p in parts.items() if str(found[n].dtype) != p.kind]
