#!/usr/bin/env python3
"""Random tiles of grids put together by their labels, beside a model and xarray.

    combine_beside_xarray.py PROGRAM [--count N] [--seed S]
    combine_beside_xarray.py --model [--count N] [--seed S]

Each script cuts one to three wholes of one family (`families.py`) into the tiles of grids over one to three dimensions, whose labels of every
sort ascend or descend, each whole with other variables, and puts all of them together in any order: variables of every kind, with missing cells
or without, some of which lack a dimension of the grid, coordinates, attributes, and from files bytes of text, coordinates over two dimensions
and names of what isn't loaded. The wholes share labels, or have others of their own, and are merged in each of the ways, with a fill and
without. In one script of three something is wrong: a tile lacks or stands there twice, its labels overlap others, turn round, or are none. All
is printed.

What has to be printed, or which fault is met, a model says (`combined.py`). The model is compared with xarray: each grid by
`combine_by_coords` with `compat="equals"`, `data_vars="minimal"` and `coords="minimal"`, where each dimension that the first tile has labels for
has some in all, and all wholes together by `merge`; where a grid is refused for labels that can't be ranked or cells that have to be equal
(F15), or labels in no direction (F9), that xarray raises an error. A grid with a hole, or with two tiles in one place, xarray doesn't always
refuse. Without numpy, cftime and xarray all is skipped, and the output says so. The last line is 'N the same, M differ'.
"""
import itertools
import sys

import labelled
from combined import combined, group_combined, grouped
from families import FILLS, JOINS, ODD_FILLS, Family
from labelled import Refused
from peers import differences, orders_of, peer
from scripted import Script, fill_word, round_with, shown_options

# After the modules before it, which end the test where it is missing.
import xarray

COMPATS = ["no_conflicts"] * 3 + ["equals", "override"]
FAULTS = [4, 8, 9, 9, 10, 11, 12, 13, 14, "labels", "grid", "grid", "cells", "dimensions", 25]
GROUPS = [["v"], ["v"], ["v"], ["v", "w"], ["vw"], ["v", "vw"], ["w", "v"], ["u", "vw"], ["v", "w", "u"]]


class Case:
    """Tiles of a family, and how they are put together."""

    def __init__(self, r, is_loose):
        self.r, self.is_loose, self.script, self.values = r, is_loose, Script(r), []
        self.family = family = Family(r, flaws=0.1 if is_loose else 0.01)
        for name in "vwu":
            family.vars.setdefault(name, r.choice([family.dims, family.some()]))
            family.kinds.setdefault(name, r.choice(labelled.KINDS))
        self.compat, self.join, self.fills = r.choice(COMPATS), r.choice(JOINS), r.random() < 0.6
        self.fill = r.choice(ODD_FILLS if is_loose and r.random() < 0.5 else FILLS) if self.fills else None
        self.usual = {d: None if d in family.bare else family.index(d) for d in family.dims}
        self.grid = r.sample(family.dims, r.choice([1, 1, 2, 2, 3][:2 * len(family.dims) - 1]))
        self.rises = {d: r.random() < 0.6 for d in self.grid}
        wholes = {d: self.whole(d) for d in self.grid}
        tiles = []
        for names in r.choice(GROUPS):
            tiles += self.tiles(names, wholes if r.random() < 0.6 else {d: self.whole(d) for d in self.grid})
        r.shuffle(tiles)
        for k, (names, index) in enumerate(tiles if len(tiles) < 13 else []):
            self.add(k, names, index)

    def whole(self, d):
        """Labels in a direction."""
        r, known = self.r, self.family.pools[d]["known"]
        labels = r.sample(known, r.choice([2, 3, 3, 4]))
        return sorted(labels, reverse=not self.rises[d])

    def pieces(self, labels):
        """Labels cut into one to three pieces, which may share the label at their borders."""
        r = self.r
        cuts = sorted(r.sample(range(1, len(labels)), min(len(labels) - 1, r.choice([0, 1, 1, 1, 2]))))
        made = [labels[a:b] for a, b in zip([0, *cuts], [*cuts, len(labels)])]
        return [it + labels[b:b + 1] if r.random() < 0.05 else it for it, b in zip(made, [*cuts, len(labels)])]

    def tiles(self, names, wholes):
        r, family = self.r, self.family
        cut = {d: self.pieces(labels) for d, labels in wholes.items()}
        made = []
        for piece in itertools.product(*cut.values()):
            made.append((names, dict(zip(cut, piece))))
        if self.is_loose:
            k = r.randrange(len(made))
            d = r.choice(self.grid)
            labels = made[k][1][d]
            odd = r.choice([labels[::-1], [*labels, *labels[:1]], r.sample(family.pools[d]["known"], 2), [], None, wholes[d], "other"])
            others = made[:k] + made[k + 1:]
            forms = [others, [*made, made[k]], [*others, (names, made[k][1] | {d: odd})]]
            made = r.choice([*forms, forms[2], made])
        return made

    def index(self, d, labels):
        """Labels that are named, or none, or those of another sort."""
        if labels is None:
            return None
        if labels == "other":
            others = [("texts", "int64", ["a", "b"]), ("numbers", "int64", [0, 1]), ("noleap", "int64", [0, 24])]
            return labelled.Index(*self.r.choice(others))
        return self.family.index(d, labels)

    def add(self, k, names, labels):
        r, family, name = self.r, self.family, f"a{k}"
        dims = {n: family.vars[n] for n in names}
        dims = {n: r.sample(its, len(its)) if r.random() < 0.1 else its for n, its in dims.items()}
        if self.is_loose and r.random() < 0.05:
            dims[r.choice(list(dims))] = family.some()
        if self.is_loose and r.random() < 0.05:
            others = [it for it in [*family.coords, "n", *family.pools] if it not in labels and not any(it in its for its in dims.values())]
            dims[r.choice(others)] = dims.pop(r.choice(list(dims)))
        index = {d: self.index(d, labels[d]) if d in labels else self.usual[d] for d in [*(d for its in dims.values() for d in its), *labels]}
        if self.is_loose and r.random() < 0.1:
            d = r.choice(list(index))
            index[d] = family.index(d, None, True)
        sizes = {d: len(i.labels) if i else len(family.pools[d]["usual"]) for d, i in index.items()}
        if not all(sizes.values()):
            # Labels of no position are given with a variable alone.
            index = {d: i for d, i in index.items() if sizes[d] or any(d in its for its in dims.values())}
        made, opened = family.set(dims, index, sizes)
        self.script.set(name, made, opened)
        self.values.append((name, made))

    def text(self):
        r = self.r
        compat = f', "{self.compat}"' if r.random() < 0.2 else ""
        options = [] if compat else [("compat", f'"{self.compat}"', '"no_conflicts"')]
        options += [("join", f'"{self.join}"', '"outer"'), ("fill_value", fill_word(self), None)]
        return f"combine_by_coords([{', '.join(n for n, _ in self.values)}]{compat}{shown_options(r, options)})"

    def made(self):
        return combined([v for _, v in self.values], self.compat, self.join, self.fills, self.fill)


def options_of(case):
    return {"join": case.join, "combine_attrs": "drop_conflicts"} | ({} if case.fill is None else {"fill_value": case.fill})


def combine(case, group, gone):
    peers = [peer(v, None, gone, orders_of(group)) for v in group]
    return xarray.combine_by_coords(peers, "equals", "minimal", "minimal", **options_of(case))


def is_labelled(group):
    """Whether each dimension that the first one has labels for has some in all."""
    return all(s.index.get(d) for d, i in group[0].index.items() if i for s in group)


def beside(case, outcome):
    """What xarray does otherwise."""
    made = []
    for group in grouped([v for _, v in case.values]):
        try:
            one = group_combined(group, case.join, case.fills, case.fill)
        except Refused as refused:
            return refused_beside(case, group, refused)
        made.append(one)
        if is_labelled(group):
            gone = {n for s in group for n in s.coords if n not in one.coords}
            wrong = differences(combine(case, group, gone), one, False)
            if wrong:
                return wrong
    if isinstance(outcome, Refused):
        return []
    gone = {n for s in made for n in s.coords if n not in outcome.coords}
    there = xarray.merge([peer(v, None, gone, orders_of(made)) for v in made], case.compat, **options_of(case))
    wrong = differences(there, outcome)
    return wrong + ([] if there.attrs == outcome.attrs else [f"xarray has the attributes {there.attrs} of the dataset"])


def refused_beside(case, group, refused):
    if not is_labelled(group) or refused.args[0] != 9 and getattr(refused, "about", "") not in ("labels", "cells"):
        return []
    try:
        combine(case, group, {n for s in group for n in s.coords})
    except Exception:
        return []
    return [f"xarray refuses nothing, not F{refused.args[0]}"]


def odd(r, case):
    """A call whose arguments don't fit, and its fault."""
    a, call = case.values[0][0], "combine_by_coords"
    array = 'DataArray([1, 2], ["x"], {"x": [1, 2]}, "v")'
    return r.choice([
        (f"{call}([])", 5), (f"{call}({a})", 4), (f"{call}([{a}, 5])", 4), (f"{call}([{array}])", 4), (f"{call}([{a}, {array}])", 4), (f"{call}()", 5),
        (f"{call}([{a}], 5)", 4), (f'{call}([{a}], "identical")', 5), (f'{call}([{a}], compat="broadcast_equals")', 5),
        (f'{call}([{a}], "equals", "middle")', 5), (f"{call}([{a}], join=5)", 4), (f'{call}([], compat=5)', 5), (f'{call}([{array}], join="middle")', 4),
        (f'{call}([{a}], join="middle", fill_value="a")', 5), (f'{call}([{a}], fill_value="a")', 4), (f"{call}([{a}], fill_value=[0])", 4),
        (f'{call}([{a}], "equals", "outer", 0, 0)', 5), (f'{call}([{a}], data_vars="minimal")', 5), (f"{call}(datasets=[{a}])", 5),
        (f'{call}([{a}], "equals", compat="equals")', 5), (f"{a}.{call}([{a}])", 1)])


if __name__ == "__main__":
    sys.exit(labelled.rounds(round_with(Case, FAULTS, odd, beside)))
