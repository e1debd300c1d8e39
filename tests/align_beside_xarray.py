#!/usr/bin/env python3
"""Random arrays and datasets brought to common labels, beside xarray.

    align_beside_xarray.py PROGRAM [--count N] [--seed S]

Each script writes two to four values out, arrays of up to three dimensions and datasets of up to three variables, of any kind, with
missing cells or without. Their labels are whole numbers of every kind, texts and times of three calendars; they are equal, overlap,
repeat, stand in any order, or aren't there. `align` joins them in each way, with a fill and without, and all is printed. Which labels
a join has, and which cell comes where, xarray says, which aligns the numbers of the cells' positions with -1 as the fill; whether it
refuses them, too, but for what is here by design: labels of two sorts (F10), kinds of labels or of fills that no kind holds (F11,
F4, F12), and labels that a dimension without them gets there. A script without a fill is refused where xarray makes NaN. Without
numpy, cftime and xarray all is skipped, and the output says so. The last line is 'N the same, M differ'.
"""
import sys

import labelled
from labelled import Refused, check_fill, joined_axis, random_cells, random_index

# After the module before it, which ends the test where it is missing.
import xarray

JOINS = ["inner", "outer", "left", "right", "exact"]


class Value:
    """An array or a dataset."""

    def __init__(self, r, name, pools):
        self.r, self.name = r, name
        self.is_set = r.random() < 0.35
        self.dims = r.sample(list(pools), r.choice([0, 1, 1, 1, 2, 2, 3] if not self.is_set else [1, 1, 2, 2, 3]))
        self.index = {d: random_index(r, pools[d]) for d in self.dims}
        self.sizes = {d: r.choice([1, 2, 2, 3, 3, 4]) if i is None else len(i.labels) for d, i in self.index.items()}
        missing = r.random() < 0.4
        self.vars = [random_cells(r, "v", self.dims, self.sizes, missing)]
        if self.is_set:
            self.vars += [random_cells(r, n, r.sample(self.dims, r.randrange(0, len(self.dims) + 1)), self.sizes, missing) for n in "wu"[:r.randrange(3)]]
        self.coords = []
        if all(self.sizes.values()):
            self.coords = [random_cells(r, f"c{d}", [d], self.sizes, r.random() < 0.3) for d in self.dims if r.random() < 0.3]
        self.number = r.randrange(-9, 9) if r.random() < 0.3 else None

    def lines(self):
        labels = {d: f'"{d}": {i.script(self.r, d)}' for d, i in self.index.items() if i}
        more = [c.coordinate() for c in self.coords] + ([f'"n": {self.number}'] if self.number is not None else [])
        yield f"{self.name} = " + self.vars[0].script([labels[d] for d in self.dims if d in labels] + more) + (".to_dataset()" if self.is_set else "")
        for v in self.vars[1:]:
            yield f'{self.name}["{v.name}"] = ' + v.script([])

    def peer(self):
        """The positions of its cells, in xarray."""
        coords = {d: i.peer() for d, i in self.index.items() if i} | {c.name: c.numbers() for c in self.coords}
        made = xarray.Dataset({v.name: v.numbers() for v in self.vars}, coords)
        return made if self.is_set else made["v"]

    def parts(self):
        return [*self.vars, *self.coords]

    # ---- what the program prints

    def printed(self, taken, index, sizes, masked, only=None):
        """An array, or the variable of a dataset that is named."""
        v = next(it for it in self.vars if it.name == (only or "v"))
        head = f"DataArray {v.name} ({', '.join(f'{d}: {sizes[d]}' for d in v.dims)}) {v.kind}{' masked' if masked[v.name] else ''}"
        return [head, *v.rows(taken[v.name]), *self.coordinates(taken, index, masked, v.dims)]

    def coordinates(self, taken, index, masked, dims):
        lines = labelled.index_lines(dims, index)
        for c in sorted(self.coords, key=lambda it: it.name):
            if c.dims[0] in dims:
                lines.append(" ".join([f"coord {c.name} {c.kind}{' masked' if masked[c.name] else ''} ({c.dims[0]}):", *map(c.word, taken[c.name])]))
        return lines + ([f"coord n int64 (): {self.number}"] if self.number is not None else [])

    def printed_set(self, taken, index, sizes, masked):
        lines = ["Dataset", *(f"dim {d}: {sizes[d]}" for d in self.dims), *self.coordinates(taken, index, masked, self.dims)]
        lines += [f"var {v.name} {v.kind} ({', '.join(v.dims)}){' masked' if masked[v.name] else ''}" for v in self.vars]
        for v in self.vars:
            lines += self.printed(taken, index, sizes, masked, v.name)
        return lines


def has_hole(part, value, index):
    return any(value.index[d] and set(index[d].labels) - set(value.index[d].labels) for d in part.dims)


def wanted_of(values, join, fills, fill):
    """What the program prints, or the fault."""
    axes = {}
    for d in dict.fromkeys(d for v in values for d in v.dims):
        axes[d] = joined_axis(d, values, join, fills)
    index = {d: it[0] for d, it in axes.items()}
    for v in values:
        for part in v.parts():
            if has_hole(part, v, index):
                check_fill(fill, part.kind)
    lines = []
    for v, made in zip(values, xarray.align(*(v.peer() for v in values), join=join, fill_value=-1)):
        own = {d: index[d] if v.index[d] else None for d in v.dims}
        sizes = {d: axes[d][1] for d in v.dims}
        found = {p.name: made[p.name] if v.is_set or p.name != "v" else made for p in v.parts()}
        taken = {p.name: p.taken(found[p.name].values, fill) for p in v.parts()}
        masked = {p.name: p.masked or fills and fill is None and has_hole(p, v, index) for p in v.parts()}
        lines += v.printed_set(taken, own, sizes, masked) if v.is_set else v.printed(taken, own, sizes, masked)
    return "".join(line + "\n" for line in lines)


def beside(values, join, fills, fault):
    """What xarray does otherwise, if anything: it refuses other labels, repeated ones and sizes too, and makes NaN without a fill."""
    if fault in (4, 10, 12):
        return []
    try:
        made = xarray.align(*(v.peer() for v in values), join=join)
    except Exception as raised:
        return [] if fault in (8, 13, 14, 11) else [f"xarray raises {raised!r}"]
    if fault in (8, 13, 14):
        return [f"xarray refuses nothing, not F{fault}"]
    parts = [p for m in made for p in ([m] if isinstance(m, xarray.DataArray) else m.data_vars.values())]
    return ["xarray makes NaN"] if not fills and fault != 11 and any(p.dtype.kind == "f" for p in parts) else []


def case_of(r):
    pools = labelled.random_pools(r)
    values = [Value(r, f"v{k}", pools) for k in range(r.choice([2, 2, 2, 3, 4]))]
    join, fills = r.choice(JOINS[:4] * 3 + JOINS[4:]), r.random() < 0.75
    fill = r.choice([None, None, None, 0, 7, 7, 7, -1, 200, True]) if fills else None
    return values, join, fills, fill


def round_of(r, program, folder):
    """One script; what is wrong, and its text."""
    values, join, fills, fill = case_of(r)
    options = "" if join == "inner" and r.random() < 0.5 else f', join="{join}"'
    options += f", fill_value={'NA' if fill is None else fill}" if fills else ""
    lines = [line for v in values for line in v.lines()]
    lines.append(f"{', '.join('p' + v.name for v in values)} = align({', '.join(v.name for v in values)}{options})")
    place = len(lines)
    for v in values:
        lines.append(f"print(p{v.name})")
        lines += [f'print(p{v.name}["{it.name}"])' for it in v.vars if v.is_set]
    fault, wanted = None, ""
    try:
        wanted = wanted_of(values, join, fills, fill)
    except Refused as refused:
        fault = refused.args[0]
    wrong = beside(values, join, fills, fault)
    return wrong + labelled.run_beside(program, folder, lines, wanted, place, fault), "\n".join(lines)


if __name__ == "__main__":
    sys.exit(labelled.rounds(round_of))
