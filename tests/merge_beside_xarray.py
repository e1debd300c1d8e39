#!/usr/bin/env python3
"""Random arrays and datasets merged, beside a model and xarray.

    merge_beside_xarray.py PROGRAM [--count N] [--seed S]
    merge_beside_xarray.py --model [--count N] [--seed S]

Each script makes one to four arrays and datasets of one family (`families.py`) and merges them: variables of every kind, which several have,
over up to three dimensions in any order, with cells that agree, are missing in some, or conflict; labels of every sort that are equal, overlap,
or aren't there, coordinates over some dimensions and single ones, attributes, and from files bytes of text, coordinates over two dimensions
and names of what isn't loaded. All dimensions are joined in each way, with a fill and without, and cells are compared in each of the three
ways. All is printed.

What has to be printed, or which fault is met, a model says (`combined.py`). The model is compared with xarray: where the call is carried out,
dimensions, labels, cells, which are missing, and attributes; where it is refused for repeated or other labels (F8, F14), other sizes (F13) or
cells that conflict (F15), that xarray raises an error, for two of the values at least: it compares each with the first one alone. The other
refusals are here by design. xarray is given `combine_attrs="drop_conflicts"`, and no coordinate that goes here, as one that is called as a
dimension. Without numpy, cftime and xarray all is skipped, and the output says so. The last line is 'N the same, M differ'.
"""
import itertools
import sys

import labelled
from combined import merged
from families import FILLS, JOINS, ODD_FILLS, Family, renamed
from labelled import Refused
from peers import are_plain, differences, kinds_differ, orders_of, parts_of, peer, real_peer
from scripted import Script, fill_word, round_with, shown_options
from valued import Set

# After the modules before it, which end the test where it is missing.
import xarray

COMPATS = ["no_conflicts"] * 3 + ["equals", "override"]
FAULTS = [4, 8, 10, 11, 12, 13, 14, "cells", "cells", "dimensions", 25]


class Case:
    """Values of a family, and how they are merged."""

    def __init__(self, r, is_loose):
        self.r, self.is_loose, self.script, self.values = r, is_loose, Script(r), []
        self.compat, has_odd_fill = r.choice(COMPATS), is_loose and r.random() < 0.3
        if has_odd_fill and r.random() < 0.6:
            self.compat = "override"
        veil = r.choice([0, 0.3, 0.6]) if self.compat != "equals" else 0
        self.family = Family(r, flaws=0.2 if is_loose else 0.03, veil=veil)
        self.same = 0.5 if has_odd_fill else r.choice([0.5, 1])
        self.join, self.fills = r.choice(JOINS), has_odd_fill or r.random() < (0.6 if self.same == 1 else 0.9)
        self.fill = r.choice(ODD_FILLS if has_odd_fill else FILLS) if self.fills else None
        self.usual = {d: None if d in self.family.bare else self.family.index(d) for d in self.family.dims}
        for k in range(r.choice([1, 2, 2, 2, 3, 3, 4])):
            self.add(k)

    def dims(self):
        """The dimensions of some variables, in few values in another order."""
        r, every = self.r, self.family.vars
        made = {n: every[n] for n in r.sample(list(every), r.randrange(1, len(every) + 1))}
        made = {n: r.sample(its, len(its)) if r.random() < 0.25 else its for n, its in made.items()}
        if self.is_loose and r.random() < 0.1:
            made[r.choice(list(made))] = self.family.some()
        return made

    def add(self, k):
        r, family, name = self.r, self.family, f"a{k}"
        dims = self.dims()
        index = {}
        for d in dict.fromkeys(d for its in dims.values() for d in its):
            index[d] = self.usual[d] if r.random() < self.same else family.index(d, None, self.is_loose)
        sizes = {d: len(i.labels) if i else len(family.pools[d]["usual"]) if r.random() < 0.95 else r.randrange(1, 4) for d, i in index.items()}
        made, opened = family.set(dims, index, sizes)
        is_array = len(dims) == 1 and r.random() < 0.7
        if opened or not is_array:
            self.script.set(name, made, opened)
        if is_array:
            made = made.array(next(iter(dims)))
            own = made.name if not (self.is_loose and r.random() < 0.15) else r.choice(["u", "x", "cx", "n", *made.dims])
            if opened:
                self.script.lines.append(f'{name} = {name}["{made.name}"].rename("{own}")')
            made = renamed(made, own)
            if not opened:
                self.script.array(name, made)
        elif len(made.parts) > 1 and r.random() < 0.1:
            gone = r.choice(list(made.parts))
            self.script.lines.append(f'{name} = {name}.drop_vars("{gone}")')
            made = made.without(gone)
        along = [d for d, i in made.index.items() if i and i.labels]
        if along and r.random() < 0.1:
            d = r.choice(along)
            k = r.randrange(made.sizes[d])
            self.script.lines.append(f"{name} = {name}.isel({d}={k})")
            made = made.at(d, k)
        self.values.append((name, made))

    def text(self):
        r = self.r
        compat = f', "{self.compat}"' if r.random() < 0.2 else ""
        options = [] if compat else [("compat", f'"{self.compat}"', '"no_conflicts"')]
        options += [("join", f'"{self.join}"', '"outer"'), ("fill_value", fill_word(self), None)]
        return f"merge([{', '.join(n for n, _ in self.values)}]{compat}{shown_options(r, options)})"

    def made(self):
        return merged([v for _, v in self.values], self.compat, self.join, self.fills, self.fill)


def merge(case, peers):
    fill = {} if case.fill is None else {"fill_value": case.fill}
    return xarray.merge(peers, case.compat, case.join, combine_attrs="drop_conflicts", **fill)


def beside(case, outcome):
    """What xarray does otherwise."""
    values = [v for _, v in case.values]
    if isinstance(outcome, Refused):
        return refused_beside(case, values, outcome)
    gone = {n for v in values for n in v.coords if n not in outcome.coords}
    there = merge(case, [peer(v, None, gone, orders_of(values)) for v in values])
    wrong = differences(there, outcome)
    if list(there.data_vars) != list(outcome.parts):
        wrong.append(f"xarray has the variables {list(there.data_vars)}")
    # An array's attributes become those of the dataset in xarray.
    if all(isinstance(v, Set) for v in values) and there.attrs != outcome.attrs:
        wrong.append(f"xarray has the attributes {there.attrs} of the dataset")
    if case.compat == "no_conflicts" and are_plain(values):
        wrong += kinds_differ(merge(case, [real_peer(v) for v in values]), parts_of(outcome))
    return wrong


def refused_beside(case, values, refused):
    fault, about = refused.args[0], getattr(refused, "about", "")
    if fault not in (8, 13, 14) and about != "cells":
        return []
    dims = {d for v in values for d in v.index}
    peers = [peer(v, None, [n for n in v.coords if n in dims], orders_of(values)) for v in values]
    # Labels are joined over all values before two are compared.
    for some in [peers, *itertools.combinations(xarray.align(*peers, join=case.join) if about == "cells" and case.fill is None else peers, 2)]:
        try:
            merge(case, some)
        except Exception:
            return []
    return [f"xarray refuses nothing, not F{fault}"]


def odd(r, case):
    """A call whose arguments don't fit, and its fault."""
    a = case.values[0][0]
    nameless = "DataArray([1, 2], dims=[\"x\"])"
    return r.choice([
        ("merge([])", 5), (f"merge({a})", 4), (f"merge([{a}, 5])", 4), (f"merge([{nameless}])", 5), (f"merge([{a}, {nameless}])", 5), ("merge()", 5),
        (f"merge([{nameless}, 5])", 4), (f"merge([{a}], 5)", 4), (f'merge([{a}], "identical")', 5), (f'merge([{a}], compat="broadcast_equals")', 5),
        (f'merge([{a}], "equals", "middle")', 5), (f"merge([{a}], join=5)", 4), (f'merge([{a}], compat=5, join="middle")', 4),
        (f'merge([{a}], join="middle", fill_value="a")', 5), (f'merge([{a}], fill_value="a")', 4), (f"merge([{a}], fill_value=[0])", 4),
        (f'merge([{a}], "equals", "outer", 0, 0)', 5), (f'merge([{a}], combine_attrs="drop")', 5), (f"merge(objects=[{a}])", 5),
        (f'merge([{a}], "equals", compat="equals")', 5), (f"{a}.merge([{a}])", 1)])


if __name__ == "__main__":
    sys.exit(labelled.rounds(round_with(Case, FAULTS, odd, beside)))
