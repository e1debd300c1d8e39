#!/usr/bin/env python3
"""Random arrays and datasets one after the other along a dimension, beside a model and xarray.

    concat_beside_xarray.py PROGRAM [--count N] [--seed S]
    concat_beside_xarray.py --model [--count N] [--seed S]

Each script makes one to four arrays or datasets of one family (`families.py`) and puts them together along a dimension that they have, or a
new one: variables of every kind over up to three dimensions in any order, with missing cells or without, labels of every sort that are equal,
overlap, or aren't there, coordinates over some dimensions and single ones, attributes, and from files bytes of text, coordinates over two
dimensions and names of what isn't loaded. The other dimensions are joined in each way, with a fill and without. All is printed.

What has to be printed, or which fault is met, a model says (`combined.py`). The model is compared with xarray: where the call is carried out,
dimensions, labels, cells, which are missing, names and attributes, and where no cell is missing kinds; where it is refused for a variable that
another lacks (F2), repeated or other labels (F8, F14), other sizes (F13) or cells that have to be equal (F15), that xarray raises an error. The
other refusals are here by design. xarray is given `data_vars="minimal"`, `coords="minimal"`, `compat="equals"` and
`combine_attrs="drop_conflicts"`, and no coordinate that goes here. Without numpy, cftime and xarray all is skipped, and the output says so. The
last line is 'N the same, M differ'.
"""
import sys

import labelled
from combined import concatenated
from families import FILLS, JOINS, ODD_FILLS, Family, renamed
from labelled import Refused
from peers import are_plain, differences, kinds_differ, orders_of, parts_of, peer, real_peer
from scripted import Script, fill_word, round_with, shown_options
from valued import Array

# After the modules before it, which end the test where it is missing.
import xarray

FAULTS = [2, 3, 4, 8, 10, 11, 12, 13, 14, "cells", "dimensions", 25]


class Case:
    """Values of a family, and how they are put together."""

    def __init__(self, r, is_loose):
        self.r, self.is_loose, self.script, self.values = r, is_loose, Script(r), []
        self.family = family = Family(r, flaws=0.3 if is_loose else 0.05)
        self.form = r.choice(["there", "there", "there", "new", "single"])
        self.dim = r.choice(family.dims) if self.form != "new" else r.choice(["z", "n", "k", *(["v", "w", "cx", "cy"] if is_loose else [])])
        # An array has the dimension itself.
        self.is_set = r.random() < 0.6 or self.form != "new" and self.dim not in family.vars["v"] and not is_loose
        self.join, self.fills = r.choice(JOINS), r.random() < 0.6
        self.fill = r.choice(ODD_FILLS if is_loose and r.random() < 0.5 else FILLS) if self.fills else None
        self.usual = {d: None if d in family.bare else family.index(d) for d in family.dims}
        self.name = r.choice(["v", "v", "w", None])
        for k in range(r.choice([1, 2, 2, 2, 3, 4])):
            self.add(k)

    def index(self, d):
        r, family = self.r, self.family
        if d == self.dim and self.form == "there":
            if d in family.bare and not (self.is_loose and r.random() < 0.2):
                return None
            pool = family.pools[d]["labels"]
            return family.index(d, r.sample(pool, r.choice([0, 1, 1, 2, 3][:len(pool) + 2])), self.is_loose)
        if d == self.dim:
            return family.index(d, family.pools[d]["usual"])
        if r.random() < (0.5 if self.is_loose else 0.75):
            return self.usual[d]
        return family.index(d, None, self.is_loose)

    def dims(self):
        """The dimensions of each variable, in few values in another order."""
        r = self.r
        made = {n: r.sample(its, len(its)) if r.random() < 0.15 else its for n, its in self.family.vars.items()}
        if self.is_loose and r.random() < 0.2:
            name = r.choice(list(made))
            made[name] = self.family.some()
        if self.is_loose and len(made) > 1 and r.random() < 0.15:
            made.pop(r.choice(list(made)))
        return made

    def add(self, k):
        r, family, name = self.r, self.family, f"a{k}"
        dims = self.dims()
        index = {d: self.index(d) for d in dict.fromkeys(d for its in dims.values() for d in its)}
        if self.form != "new" and self.dim not in index and not (self.is_loose and r.random() < 0.3):
            index[self.dim] = self.index(self.dim) or family.index(self.dim)
        sizes = {d: len(i.labels) if i else self.size(d) for d, i in index.items()}
        made, opened = family.set(dims, index, sizes, lambda its: k if self.form != "there" or self.dim in its else None)
        if self.is_set:
            self.script.set(name, made, opened)
        elif "v" not in made.parts:
            return
        else:
            made = self.array(name, made, opened)
        if self.form == "single" and made.index.get(self.dim) and made.index[self.dim].labels:
            k = r.randrange(made.sizes[self.dim])
            made = made.at(self.dim, k)
            self.script.lines.append(f"{name} = {name}.isel({self.dim}={k})")
        self.values.append((name, made))

    def size(self, d):
        """That of a dimension without labels."""
        return len(self.family.pools[d]["usual"]) if d != self.dim and self.r.random() < 0.95 else self.r.randrange(1, 4)

    def array(self, name, made, opened):
        """A variable of a dataset, with its name, or one that most arrays have, or none."""
        own = self.name if self.r.random() < 0.9 else "u"
        if opened:
            own = own or "v"
            self.script.set(name, made, opened)
            self.script.lines.append(f'{name} = {name}["v"].rename("{own}")')
            return renamed(made.array("v"), own)
        made = renamed(made.array("v"), own)
        self.script.array(name, made)
        return made

    def text(self):
        r = self.r
        dim = f', "{self.dim}"' if r.random() < 0.6 else f', dim="{self.dim}"'
        options = [("join", f'"{self.join}"', '"outer"'), ("fill_value", fill_word(self), None)]
        return f"concat([{', '.join(n for n, _ in self.values)}]{dim}{shown_options(r, options)})"

    def made(self):
        return concatenated([v for _, v in self.values], self.dim, self.join, self.fills, self.fill)


def beside(case, outcome):
    """What xarray does otherwise."""
    values = [v for _, v in case.values]
    is_new = not any(case.dim in v.index for v in values)
    if isinstance(outcome, Refused):
        return refused_beside(case, values, outcome, is_new)
    # Its own label of a value is no coordinate of the result.
    gone = {n for v in values for n in v.coords if n not in outcome.coords and not (n == case.dim and outcome.index[n])}
    there = concat(case, [peer(v, case.dim, gone, orders_of(values)) for v in values], is_new)
    # What stands in all as it is has the attributes and the kind of the first in xarray.
    along = {n: p for n, p in parts_of(outcome).items() if case.dim in p.dims}
    wrong = differences(there, outcome, len(along) == len(parts_of(outcome)) and not outcome.coords)
    if isinstance(outcome, Array):
        # Of several names xarray takes the first.
        is_same = there.dims == tuple(outcome.dims) and there.name == values[0].name
        wrong += [] if is_same and outcome.name in (there.name, None) else [f"xarray has {there.name} over {there.dims}"]
    elif there.attrs != outcome.attrs:
        wrong.append(f"xarray has the attributes {there.attrs} of the dataset")
    if are_plain(values, case.dim):
        wrong += kinds_differ(concat(case, [real_peer(v) for v in values], is_new), along)
    return wrong


def concat(case, peers, is_new):
    form = "all" if isinstance(peers[0], xarray.DataArray) or is_new else "minimal"
    fill = {} if case.fill is None else {"fill_value": case.fill}
    return xarray.concat(peers, case.dim, form, "minimal", "equals", join=case.join, combine_attrs="drop_conflicts", **fill)


def refused_beside(case, values, refused, is_new):
    fault = refused.args[0]
    if fault == 2:
        # What the first one lacks is lost in xarray, and what isn't put together may lack elsewhere.
        part = next((p for p in values[0].parts.values() if p.name == refused.args[1]), None)
        is_told = part and (is_new or case.dim in part.dims) and len({case.dim in v.index for v in values}) == 1
    else:
        is_told = fault in (8, 13, 14) or getattr(refused, "about", "") == "cells"
    if not is_told:
        return []
    try:
        concat(case, [peer(v, None, list(v.coords), orders_of(values)) for v in values], is_new)
    except Exception:
        return []
    return [f"xarray refuses nothing, not F{fault}"]


def odd(r, case):
    """A call whose arguments don't fit, and its fault."""
    a, dim = case.values[0][0], case.dim
    other = f'{a}["v"]' if case.is_set and "v" in case.values[0][1].parts else f'{a}.to_dataset("s")' if not case.is_set else "5"
    return r.choice([
        (f'concat([], "{dim}")', 5), (f'concat({a}, "{dim}")', 4), (f'concat([{a}, 5], "{dim}")', 4), (f'concat([{a}, {other}], "{dim}")', 4),
        (f"concat([{a}])", 5), (f"concat([{a}], 5)", 4), (f"concat([{a}], None)", 4), (f'concat([{a}], "")', 5), ('concat([], 5)', 5),
        ('concat([5], "")', 4), (f'concat([{a}], "{dim}", "middle")', 5), (f'concat([{a}], "{dim}", join=5)', 4),
        (f'concat([{a}], "{dim}", join="middle", fill_value="a")', 5),
        (f'concat([{a}], "{dim}", fill_value="a")', 4), (f'concat([{a}], "{dim}", fill_value=[0])', 4), (f'concat([{a}], "{dim}", "outer", 0, 0)', 5),
        (f'concat([{a}], dim="{dim}", data_vars="minimal")', 5), (f'concat(objs=[{a}], dim="{dim}")', 5), (f'concat([{a}], "{dim}", dim="{dim}")', 5),
        (f'{a}.concat([{a}], "{dim}")', 1)])


if __name__ == "__main__":
    sys.exit(labelled.rounds(round_with(Case, FAULTS, odd, beside)))
