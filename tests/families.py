"""Arrays and datasets of one family, made at random: parts of one whole, whose variables and coordinates have the same names, dimensions and
kinds in most of them, and the same cells where they have the same labels.

Where numpy, cftime and xarray are missing, a test that imports this ends, and its output says so.
"""
import itertools

import labelled
from labelled import KINDS, Index, random_cell
from valued import Part, Set, objects, random_attrs

# After the modules before it, which end the test where it is missing.
import numpy

SKIPPED = ["h", "g"]
# What stands for a missing cell in a file.
FILL = -9
# How labels are joined, and what stands where a value has none, in most cases and in odd ones.
JOINS = ["outer"] * 4 + ["inner", "left", "right", "exact"]
FILLS = [None, None, None, 0, 7, 7, -1, True]
ODD_FILLS = [-1, 200, 70000, 1 << 40, True]


class Family:
    """Which variables, coordinates and labels its members have."""

    def __init__(self, r, dims="xyt", flaws=0.1, veil=0):
        """With the odds of a member that has a cell which isn't the one of its labels, and of a cell that is missing in one member."""
        self.r, self.flaws, self.veil, self.shades = r, flaws, veil, {}
        self.pools = labelled.random_pools(r)
        for pool in self.pools.values():
            others = [it for it in pool["labels"] if it not in pool["usual"]]
            pool["usual"], pool["known"] = pool["usual"] or others[:2], pool["labels"]
            pool["labels"] = list(dict.fromkeys(pool["usual"] + r.sample(others, min(len(others), 2))))
        self.dims = r.sample(dims, r.choice([1, 2, 2, 3][:len(dims) + 1]))
        self.vars = {"v": self.dims if r.random() < 0.7 else self.some()}
        for name in "wu"[:r.choice([0, 0, 1, 1, 2])]:
            self.vars[name] = self.some()
        self.kinds = {name: r.choice(KINDS) for name in self.vars}
        self.coords = {f"c{d}": [d] for d in self.dims if r.random() < 0.35}
        self.coords |= {name: [] for name in "nk" if r.random() < 0.3}
        self.holes, self.bare = r.choice([0, 0, 0.3]), [d for d in self.dims if r.random() < 0.1]
        self.texts = r.choice(["k", "k", "n", ""])
        # What a file alone brings.
        self.opened, self.skips = {}, r.random() < 0.1
        if r.random() < 0.15:
            self.opened = {"b": r.sample(self.dims, r.choice([1, len(self.dims)]))}
        if len(self.dims) > 1 and r.random() < 0.2:
            self.opened["q"] = r.sample(self.dims, 2)

    def some(self):
        return self.r.sample(self.dims, self.r.randrange(len(self.dims) + 1))

    def kind(self, name):
        """The kind of a variable, in few members another one."""
        return self.r.choice(KINDS) if self.r.random() < 0.1 else self.kinds.get(name, "int64")

    def index(self, d, labels=None, is_odd=False):
        """Labels of a dimension: those that are named, or the usual ones, or some."""
        r, pool = self.r, self.pools[d]
        if labels is None:
            labels = pool["usual"] if r.random() < 0.75 else r.sample(pool["labels"], r.choice([1, 2, 2, 3][:len(pool["labels"])]))
        kind = "int64"
        if pool["sort"] == "numbers" and r.random() < 0.15:
            kind = r.choice(["int8", "int32", *(["uint8", "uint64"] if min(labels, default=0) >= 0 else ["int16"])])
        if is_odd and r.random() < 0.3:
            others = [Index("texts", "int64", ["a", "b"]), Index("numbers", "int64", [0, 1])]
            return r.choice([None, *others, Index(pool["sort"], "int64", [*labels, *labels[:1]]), Index(pool["sort"], "int64", [])])
        return Index(pool["sort"], kind, list(labels))

    def shade(self, name, keys):
        """The cell that belongs to a name and labels, or None."""
        if (name, keys) not in self.shades:
            is_small = name in self.coords or self.kinds.get(name) == "bool"
            is_hole = name in self.kinds and self.r.random() < self.holes
            self.shades[name, keys] = None if is_hole else self.r.randrange(2 if is_small else 100)
        return self.shades[name, keys]

    def keys(self, d, index, size):
        """What the positions along a dimension stand for: without labels, for the usual ones."""
        usual = self.pools[d]["usual"]
        return index.labels if index else [usual[k] if k < len(usual) else ("bare", k) for k in range(size)]

    def cells(self, dims, index, sizes, cell_of):
        """The cells over some dimensions, each by what its positions stand for."""
        along = [self.keys(d, index[d], sizes[d]) for d in dims]
        made = numpy.empty([len(it) for it in along], dtype=object)
        for point in itertools.product(*map(range, made.shape)):
            made[point] = cell_of(tuple(it[k] for it, k in zip(along, point)))
        return made

    def part(self, name, dims, index, sizes, salt=None):
        """A variable, whose cells are those of its labels, and some are missing, always the same ones; or with a salt those of one member."""
        r, kind = self.r, self.kind(name)

        def cell(keys):
            if salt is not None and r.random() < 0.5:
                it = None if r.random() < self.holes else random_cell(r, kind)
            else:
                it = None if r.random() < self.veil else self.shade(name, (salt, *keys))
            return it if it is None else it > 0 if kind == "bool" else int(it)
        cells = self.cells(dims, index, sizes, cell)
        self.spoil(cells, kind)
        return Part(name, dims, kind, cells, attrs=random_attrs(r, 0.2))

    def spoil(self, cells, kind):
        """Puts another cell somewhere, or none."""
        r = self.r
        if cells.size and r.random() < self.flaws:
            cells[tuple(r.randrange(n) for n in cells.shape)] = None if r.random() < 0.3 else True if kind == "bool" else 3

    def coordinate(self, name, dims, index, sizes):
        """A coordinate, whose cells are those of its labels in most members."""
        r, kind = self.r, self.r.choice(["int64", "int64", *KINDS])
        if not dims and (name == self.texts) != (r.random() < self.flaws / 2):
            return Part(name, [], "text", numpy.array(r.choice(["p", "p", "p", "q"]), dtype=object))

        def cell(keys):
            it = self.shade(name, keys)
            return None if self.holes and it == 0 else it > 0 if kind == "bool" else it
        cells = self.cells(dims, index, sizes, cell)
        self.spoil(cells, kind)
        return Part(name, dims, kind, cells, attrs=random_attrs(r, 0.15))

    def coordinates(self, index, sizes):
        return {n: self.coordinate(n, dims, index, sizes) for n, dims in self.coords.items() if set(dims) <= set(index) and self.r.random() < 0.9}

    def notes(self, index):
        return {d: random_attrs(self.r, 0.1) for d, i in index.items() if i and i.sort == "numbers"}

    def from_file(self, name, index, sizes):
        """A variable of bytes of text, or a coordinate over two dimensions."""
        r, dims = self.r, self.opened[name] if self.r.random() < 0.85 else self.opened[name][::-1]
        cells = self.cells(dims, index, sizes, lambda keys: self.shade(name, tuple(sorted(map(str, keys)))))
        if r.random() < 0.15:
            cells[tuple(r.randrange(n) for n in cells.shape)] = 3
        if name == "b":
            return Part(name, dims, "char", cells, False, {"note": "a b"} if r.random() < 0.2 else {})
        is_masked = self.holes > 0
        cells = objects([None if is_masked and it < 20 else it for it in cells.ravel()], cells.shape)
        return Part(name, dims, "int32", cells, is_masked, {"_FillValue": FILL} if is_masked else {})

    def set(self, dims, index, sizes, salt_of=lambda dims: None):
        """A dataset of variables, over these dimensions each, which have cells of their own where their dimensions have a salt; and the names
        of what of it stands in a file, which comes first."""
        is_whole = all(sizes[d] for d in index)
        brought = {n: self.from_file(n, index, sizes) for n, its in self.opened.items() if is_whole and set(its) <= set(index)}
        parts = {n: p for n, p in brought.items() if n == "b"}
        parts |= {n: self.part(n, its, index, sizes, salt_of(its)) for n, its in dims.items()}
        coords = {n: p for n, p in brought.items() if n == "q"} | self.coordinates(index, sizes)
        coords = {n: p for n, p in coords.items() if n not in parts}
        order = [d for p in [*brought.values(), *parts.values()] for d in p.dims] + list(index)
        skipped = self.r.sample(SKIPPED, self.r.randrange(3)) if self.skips else []
        made = Set(parts, {d: index[d] for d in dict.fromkeys(order)}, sizes, coords, self.notes(index), random_attrs(self.r, 0.15), skipped)
        return made, list(brought)


def renamed(a, name):
    """An array under another name."""
    a.part.name = a.name = name
    return a
