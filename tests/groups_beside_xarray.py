#!/usr/bin/env python3
"""Random groups, bins, windows and blocks, and all their methods, beside plain numpy, cftime and xarray.

    groups_beside_xarray.py PROGRAM [--count N] [--seed S]

Each script writes an array out, of up to three dimensions of sizes from 0 up, of any kind, with missing cells or without, groups
it or a dataset of it, with a second variable or alone, and prints every method. The positions that belong together are worked out
here: by labels, by cells of a coordinate, by the dates that cftime gives, and by windows and blocks of positions; numpy folds their
cells. Where no cell is missing xarray groups the same array, and its cells have to be those of numpy, and the labels of blocks too.
One script in six ends in a call that has to be refused. Without numpy, cftime and xarray all is skipped, and the output says so.
The last line is 'N the same, M differ'.
"""
import argparse
import copy
import datetime
import itertools
import os
import random
import re
import subprocess
import sys
import tempfile
import warnings

PYTHON = "/usr/bin/python3"
try:
    import cftime
    import numpy
    import pandas
    import xarray
except ImportError:
    has_peer = os.path.exists(PYTHON) and os.path.realpath(sys.executable) != os.path.realpath(PYTHON)
    if has_peer and subprocess.run([PYTHON, "-c", "import cftime, xarray"], capture_output=True).returncode == 0:
        os.execv(PYTHON, [PYTHON, "-B", *sys.argv])
    print("skipped: groups beside xarray need numpy, cftime and xarray")
    sys.exit(0)

KINDS = ["int8", "int16", "int32", "int64", "uint8", "uint16", "uint32", "uint64", "bool"]
CIVIL = ["standard", "proleptic_gregorian"]
WIDTHS = {"D": 86400, "h": 3600, "min": 60, "s": 1}
FIELDS = {"year": lambda d: d.year, "month": lambda d: d.month, "day": lambda d: d.day, "hour": lambda d: d.hour, "minute": lambda d: d.minute,
          "second": lambda d: d.second, "dayofyear": lambda d: d.dayofyr, "dayofweek": lambda d: d.dayofwk}
REDUCTIONS = ["sum", "prod", "min", "max", "count"]
METHODS = {"groupby": [*REDUCTIONS, "any", "all", "first", "last"], "resample": [*REDUCTIONS, "any", "all", "first", "last"],
           "rolling": REDUCTIONS, "coarsen": [*REDUCTIONS, "any", "all"]}


class Dim:
    """A dimension: its size, and its labels as they are printed, as a script spells them and as they are compared."""

    def __init__(self, name, size):
        self.name, self.size = name, size
        self.kind, self.shown, self.spelled, self.keys, self.calendar = None, [], "", [], None

    def label(self, kind, shown, spelled, keys):
        self.kind, self.shown, self.spelled, self.keys = kind, shown, spelled, keys
        return self

    def line(self):
        return [" ".join([f"coord {self.name} {self.kind} ({self.name}):", *self.shown])] if self.kind else []

    def at(self, name, kind, places, shown=None):
        made = Dim(name, len(places) if shown is None else len(shown))
        return made.label(kind, [self.shown[i] for i in places] if shown is None else shown, "", [])


def shown_by(kind):
    """How a label of a kind is printed."""
    return {"text": lambda it: f'"{it}"', "time": text_of}.get(kind, str)


def text_of(d):
    return f"{d.year:04}-{d.month:02}-{d.day:02}T{d.hour:02}:{d.minute:02}:{d.second:02}"


def result_kind(method, kind):
    if method in ("sum", "prod"):
        return "uint64" if kind.startswith("uint") else "int64"
    return {"count": "int64", "any": "bool", "all": "bool"}.get(method, kind)


def folded(method, cells):
    """The fold of some cells, by numpy; None is a missing one."""
    here = [it for it in cells.ravel() if it is not None]
    if method == "count":
        return len(here)
    if method in ("any", "all"):
        return bool(getattr(numpy, method)(numpy.array(here, dtype=bool)))
    if method in ("sum", "prod"):
        wide = "uint64" if here and isinstance(here[0], numpy.unsignedinteger) else "int64"
        with numpy.errstate(over="ignore"):
            return int(getattr(numpy, method)(numpy.array(here).astype(wide), dtype=wide))
    if not here:
        return None
    return {"min": min, "max": max, "first": lambda it: it[0], "last": lambda it: it[-1]}[method](here)


def spelled_cells(it):
    if isinstance(it, (list, numpy.ndarray)):
        return "[" + ", ".join(map(spelled_cells, it)) + "]"
    return "NA" if it is None else str(it)


class Case:
    """An array, as a script writes it, and as numpy has it: None for a missing cell."""

    def __init__(self, seed):
        self.r = r = random.Random(seed)
        self.name, self.kind = "v", r.choice(KINDS)
        names = r.sample(["time", "x", "y"], r.choice([1, 1, 2, 2, 3]))
        self.dims = [self.dim(name) for name in names]
        shape = [d.size for d in self.dims]
        self.missing = r.random() < 0.5
        self.cells = numpy.empty(shape, dtype=object)
        for point in itertools.product(*map(range, shape)):
            self.cells[point] = None if self.missing and r.random() < 0.4 else self.cell()
        self.masked = any(it is None for it in self.cells.ravel())
        self.number = r.randrange(-9, 9) if r.random() < 0.3 else None
        self.d = r.choice(self.dims)
        self.coord = None
        if r.random() < 0.5:
            holes = r.random() < 0.4
            if all(d.size for d in self.dims):
                self.coord = [None if holes and r.random() < 0.3 else r.randrange(-2, 3) for _ in range(self.d.size)]

    def cell(self):
        if self.kind == "bool":
            return self.r.random() < 0.5
        limits = numpy.iinfo(self.kind)
        edges = [int(limits.min), int(limits.max), 0, 1]
        number = self.r.choice(edges) if self.r.random() < 0.15 else max(int(limits.min), self.r.randrange(-20, 21))
        return numpy.dtype(self.kind).type(number)

    def dim(self, name):
        r, made = self.r, Dim(name, self.r.choice([0, 1, 1, 2, 3, 4, 5, 6]))
        n = made.size
        if name == "time" and r.random() < 0.8 or r.random() < 0.2:
            return self.times(made)
        if r.random() < 0.3:
            return made
        order = r.choice([sorted, lambda it: sorted(it, reverse=True), list])
        if r.random() < 0.25 and n:
            texts = order([r.choice(["a", "b", "ab", "ba"]) for _ in range(n)])
            return made.label("text", [f'"{it}"' for it in texts], str(texts), texts)
        numbers = order([r.randrange(-4, 5) for _ in range(n)])
        return made.label("int64", [str(it) for it in numbers], str(numbers or [0]), numbers)

    def times(self, made):
        r = self.r
        made.calendar = r.choice([*CIVIL, *CIVIL, "noleap", "360_day"])
        unit, far = r.choice([("days", 800), ("days", 60), ("hours", 100), ("hours", 2000), ("minutes", 300), ("seconds", 5000)])
        counts = [r.randrange(0, far) for _ in range(made.size)]
        counts = sorted(counts, reverse=r.random() < 0.1) if r.random() < 0.9 else counts
        units = f"{unit} since {r.choice(['2000-01-28', '1999-12-30 18:30', '2001-02-27 23:59:50', '1999-02-01'])}"
        dates = [cftime.num2date(n, units, made.calendar) for n in counts]
        return made.label("time", [text_of(d) for d in dates], f'times("{units}", {counts or [0]}, calendar="{made.calendar}")', dates)

    def script(self):
        """The statement that writes the array out."""
        spelled = spelled_cells
        # No list has an empty dimension before others: one of a position is cut.
        cells, cut = self.cells, "".join(f", {d.name}=slice(0)" for d in self.dims if d.size == 0)
        if cut:
            cells = numpy.zeros([d.size or 1 for d in self.dims], dtype=self.kind)
        coords = [f'"{d.name}": {d.spelled}' for d in self.dims if d.kind]
        if self.number is not None:
            coords.append(f'"n": {self.number}')
        if self.coord:
            coords.append(f'"c": DataArray([{", ".join("NA" if it is None else str(it) for it in self.coord)}], ["{self.d.name}"])')
        made = f'v = DataArray({spelled(cells)}, {[d.name for d in self.dims]}, {{{", ".join(coords)}}}, "v", "{self.kind}")'
        return made + (f".isel({cut[2:]})" if cut else "")

    def beside(self, changes):
        """A second variable of a dataset, along one of the dimensions that are grouped, and the statement that puts it there."""
        made, d = copy.copy(self), self.r.choice([d for d in self.dims if d.name in changes])
        made.name, made.dims, made.kind = "w", [d], "bool" if self.kind == "bool" else "int16"
        made.cells = numpy.empty([d.size], dtype=object)
        for i in range(d.size):
            made.cells[i] = None if made.missing and self.r.random() < 0.4 else made.cell()
        made.masked = any(it is None for it in made.cells)
        cells = made.cells if d.size else [False if made.kind == "bool" else 0]
        cut = "" if d.size else f".isel({d.name}=slice(0))"
        return made, f's["w"] = DataArray({spelled_cells(cells)}, ["{d.name}"], None, "w", "{made.kind}"){cut}'

    def peer(self):
        """The array in xarray."""
        coords = {d.name: self.index(d) for d in self.dims if d.kind}
        if self.coord:
            coords["c"] = (self.d.name, self.coord)
        made = numpy.array([0 if it is None else it for it in self.cells.ravel()], dtype=self.kind).reshape(self.cells.shape)
        return xarray.DataArray(made, dims=[d.name for d in self.dims], coords=coords)

    def index(self, d):
        if d.kind != "time":
            return d.keys
        if d.calendar in CIVIL:
            return pandas.DatetimeIndex([text_of(it) for it in d.keys])
        return xarray.CFTimeIndex(d.keys) if d.keys else []

    # ---- what belongs together: the call, the new dimensions by their old names, and the positions

    def groupby(self):
        r, d = self.r, self.d
        if self.coord and r.random() < 0.5:
            return self.keyed('groupby("c")', "c", "int64", self.coord, str)
        if d.kind == "time" and r.random() < 0.7:
            field = r.choice([f for f in FIELDS if f != "dayofweek" or d.calendar in CIVIL])
            return self.keyed(f'groupby("{d.name}.{field}")', field, "int64", [FIELDS[field](it) for it in d.keys], str)
        if d.kind:
            return self.keyed(f'groupby("{d.name}")', d.name, d.kind, d.keys, shown_by(d.kind))
        return None

    def keyed(self, call, name, kind, keys, shown):
        distinct = sorted({it for it in keys if it is not None})
        lists = [[i for i, it in enumerate(keys) if it == k] for k in distinct]
        return call, {self.d.name: (lists, self.d.at(name, kind, [], [shown(k) for k in distinct]))}

    def resample(self):
        r, d = self.r, self.d
        if d.kind != "time" or sorted(d.keys) != d.keys:
            return None
        freq = r.choice(["MS", "YS", "D", "h", "min", "7D", "36h", "90min", "1000s"])
        if not d.keys:
            return f'resample({d.name}="{freq}")', {d.name: ([], d.at(d.name, "time", []))}
        first, calendar = d.keys[0], d.keys[0].calendar
        if freq in ("MS", "YS"):
            number = (lambda it: it.year * 12 + it.month - 1) if freq == "MS" else (lambda it: it.year)
            start = (lambda j: cftime.datetime(j // 12, j % 12 + 1, 1, calendar=calendar)) if freq == "MS" else (lambda j: cftime.datetime(j, 1, 1, calendar=calendar))
        else:
            count, unit = re.fullmatch(r"(\d*)(\D+)", freq).groups()
            width = int(count or 1) * WIDTHS[unit]
            midnight = cftime.datetime(first.year, first.month, first.day, calendar=calendar)
            number = lambda it: int((it - midnight) // datetime.timedelta(seconds=width))
            start = lambda j: midnight + j * datetime.timedelta(seconds=width)
        numbers = [number(it) for it in d.keys]
        if numbers[-1] - numbers[0] > 3000:
            return None
        bins = range(numbers[0], numbers[-1] + 1)
        lists = [[i for i, n in enumerate(numbers) if n == j] for j in bins]
        return f'resample({d.name}="{freq}")', {d.name: (lists, d.at(d.name, "time", [], [text_of(start(j)) for j in bins]))}

    def rolling(self):
        r, d = self.r, self.d
        width, center = r.choice([1, 2, 3, 4, 5, 9]), r.random() < 0.4
        if center and width % 2 == 0:
            width += 1
        self.least = r.choice([1, 1, width, r.randrange(1, width + 1)])
        options = (", center=True" if center else "") + (f", min_periods={self.least}" if self.least < width or r.random() < 0.5 else "")
        back, on = ((width - 1) // 2, (width - 1) // 2) if center else (width - 1, 0)
        lists = [[j for j in range(i - back, i + on + 1) if 0 <= j < d.size] for i in range(d.size)]
        return f"rolling({d.name}={width}{options})", {d.name: (lists, d)}

    def coarsen(self):
        r = self.r
        chosen = r.sample(self.dims, r.randrange(1, len(self.dims) + 1))
        widths = {d.name: r.choice([1, 2, 2, 3, 4, d.size or 1]) for d in chosen}
        trim = any(d.size % widths[d.name] for d in chosen) or r.random() < 0.3
        labelled = [d for d in chosen if d.kind]
        how = r.choice(["min", "max", "sum"] if all(d.kind == "int64" for d in labelled) else ["min", "max"])
        how = how if labelled or r.random() < 0.2 else None
        options = (r.choice([', boundary="trim"']) if trim else r.choice(["", ', boundary="exact"'])) + (f', coord_func="{how}"' if how else "")
        changes = {}
        for d in chosen:
            w = widths[d.name]
            lists = [list(range(j * w, j * w + w)) for j in range(d.size // w)]
            made = Dim(d.name, len(lists))
            if d.kind:
                keys = [{"min": min, "max": max, "sum": sum}[how](d.keys[i] for i in it) for it in lists]
                made.label(d.kind, list(map(shown_by(d.kind), keys)), "", keys)
            changes[d.name] = lists, made
        return f"coarsen({', '.join(f'{d.name}={widths[d.name]}' for d in chosen)}{options})", changes

    # ---- results

    def values(self, method, changes, least, fill):
        """The cells of a result, by numpy."""
        lists = [changes[d.name][0] if d.name in changes else [[i] for i in range(d.size)] for d in self.dims]
        made = numpy.empty([len(it) for it in lists], dtype=object)
        for point in itertools.product(*(range(len(it)) for it in lists)):
            cells = self.cells[numpy.ix_(*(lists[k][i] for k, i in enumerate(point)))]
            few = cells.size == 0 if least is None else sum(it is not None for it in cells.ravel()) < least
            made[point] = fill if few else folded(method, cells)
        return made

    def printed(self, method, changes, cells, masked, keeps):
        """What the program prints."""
        dims = [changes[d.name][1] if d.name in changes else d for d in self.dims]
        kind = result_kind(method, self.kind)
        lines = [f"DataArray {self.name} ({', '.join(f'{d.name}: {d.size}' for d in dims)}) {kind}{' masked' if masked else ''}"]
        spelled = lambda it: "NA" if it is None else str(bool(it)) if kind == "bool" else str(int(it))
        if cells.size:
            lines += [" ".join(map(spelled, row)) for row in cells.reshape(-1, cells.shape[-1])]
        for d in dims:
            lines += d.line()
        if self.coord and self.d in self.dims and (keeps or self.d.name not in changes):
            hidden = " masked" if None in self.coord else ""
            lines.append(" ".join([f"coord c int64{hidden} ({self.d.name}):", *("NA" if it is None else str(it) for it in self.coord)]))
        if self.number is not None:
            lines.append(f"coord n int64 (): {self.number}")
        return "".join(line + "\n" for line in lines)


def by_xarray(case, call, method):
    """The cells that xarray has."""
    v = case.peer()
    # There a window's cells wrap at the kind of the array.
    v = v.astype("int64") if call.startswith("rolling") else v
    if call.startswith("coarsen"):
        v = v.drop_vars([name for name, c in v.coords.items() if c.dtype.kind != "i"])
    with warnings.catch_warnings():
        warnings.simplefilter("ignore")
        return eval(f"v.{call}.{method}()", {"v": v})


def peer_differs(case, call, method, changes, cells):
    """What xarray has otherwise."""
    # xarray refuses windows that are wider than the dimension, groups of one cell each, and bins of some frequencies.
    try:
        there = by_xarray(case, call, method)
    except ValueError:
        return []
    if there.shape != cells.shape or not all(int(a) == int(b) for a, b in zip(there.values.ravel(), cells.ravel())):
        return [f"{call}.{method}(): numpy has {cells.tolist()}, xarray {there.values.tolist()}"]
    if call.startswith("coarsen"):
        for name, (_, d) in changes.items():
            if d.kind == "int64" and there.coords[name].values.tolist() != d.keys:
                return [f"{call}.{method}(): labels {d.keys}, xarray {there.coords[name].values.tolist()}"]
    return []


def is_comparable(case, form, method, cells):
    """Whether xarray has an answer that isn't rounded, over cells that are all there."""
    if case.masked or case.kind == "bool" or case.cells.size == 0 or any(it is None for it in cells.ravel()) or case.coord and None in case.coord:
        return False
    known = [*cells.ravel(), *case.cells.ravel()] if form == "rolling" else cells.ravel()
    return all(abs(int(it)) < 1 << 52 for it in known)


def wrong_call(case):
    """A call that has to be refused, and its fault."""
    d = case.d
    forms = [(f"rolling({d.name}=0)", 5), (f"rolling({d.name}=2, min_periods=3)", 5), (f"rolling({d.name}=2, center=True)", 5), ("rolling(z=2)", 3),
             (f'groupby("{d.name}.week")', 5), (f'resample({d.name}="M")', 5), (f'groupby("{d.name}.month").argmin()', 5 if d.kind == "time" else 16)]
    if d.kind != "time":
        forms.append((f'resample({d.name}="D")', 16))
    elif sorted(d.keys) != d.keys:
        forms.append((f'resample({d.name}="D")', 9))
    forms += [(f"rolling({d.name}=2).sum()", 11), ('groupby("z").sum()', 2), ('groupby("n")', 2 if case.number is None else 5), (f"coarsen({d.name}=0)", 5),
              ("coarsen(z=2)", 3), (f'coarsen({d.name}=1, coord_func="mean")', 5), (f'coarsen({d.name}=1, boundary="pad")', 5)]
    if d.size:
        forms.append((f'coarsen({d.name}={d.size + 1}, coord_func="min")', 18))
    forms += [(f"coarsen({d.name}=1)", 11)] if d.kind else [(f'groupby("{d.name}")', 2)]
    if d.kind in ("text", "time"):
        forms.append((f'coarsen({d.name}=1, coord_func="sum").sum()', 10))
    return case.r.choice(forms)


def round_of(seed, program, folder):
    """One script; what is wrong, and its text."""
    case = Case(seed)
    form = case.r.choice(list(METHODS))
    found = getattr(case, form)()
    if found is None:
        form, found = "rolling", case.rolling()
    call, changes = found
    of_set = case.r.random() < 0.4
    lines, variables = [case.script()], [case]
    if of_set:
        lines.append("s = v.to_dataset()")
        if case.r.random() < 0.5:
            other, line = case.beside(changes)
            variables.append(other)
            lines.append(line)
    lines.append(f"g = {'s' if of_set else 'v'}.{call}")
    wanted, wrong = "", []
    least = case.least if form == "rolling" else None
    empty = form == "resample" and any(not it for it in changes[case.d.name][0])
    needs = empty or form == "rolling" and least > 1
    for method in METHODS[form]:
        kind, given, fill = result_kind(method, case.kind), "", None
        takes = form in ("resample", "rolling") and (needs or case.r.random() < 0.3)
        if takes:
            fill = case.r.choice([None, True if kind == "bool" else 7])
            given = f"fill_value={'NA' if fill is None else fill}"
        for it in variables:
            cells = it.values(method, changes, least, fill)
            if form == "rolling":
                masked = fill is None if takes else it.masked
            else:
                masked = it.masked and method in ("min", "max", "first", "last") or takes and fill is None
            part = f'["{it.name}"]' if of_set else ""
            lines.append(f"print(g.{method}({given}){part})")
            wanted += it.printed(method, changes, cells, masked, form == "rolling")
            if it is case and not needs and is_comparable(case, form, method, cells):
                wrong += peer_differs(case, call, method, changes, cells)
    refused = None
    if case.r.random() < 1 / 6:
        text, number = wrong_call(case)
        refused = number
        lines.append(f"x = v.{text}")
    with open(os.path.join(folder, "s.xrs"), "w") as f:
        f.write("\n".join(lines) + "\n")
    ran = subprocess.run([program, "s.xrs"], cwd=folder, capture_output=True, text=True, timeout=60)
    if ran.stdout != wanted:
        wrong.append(f"printed\n{ran.stdout}not\n{wanted}")
    if refused and not (ran.returncode == 1 and re.fullmatch(rf"xrs: statement {len(lines)}: F{refused} .*\n", ran.stderr)) or not refused and ran.returncode:
        wrong.append(f"ended with {ran.returncode} {ran.stderr!r}, not {refused}")
    return wrong, "\n".join(lines)


def main():
    options = argparse.ArgumentParser()
    options.add_argument("program")
    options.add_argument("--count", type=int, default=200)
    options.add_argument("--seed", type=int, default=1)
    options = options.parse_args()
    program, same, differ = os.path.abspath(options.program), 0, 0
    with tempfile.TemporaryDirectory() as folder:
        for seed in range(options.seed, options.seed + options.count):
            wrong, story = round_of(seed, program, folder)
            same, differ = same + (not wrong), differ + bool(wrong)
            if wrong:
                print(f"seed {seed}:\n{story}\n" + "\n".join(wrong) + "\n")
    print(f"{same} the same, {differ} differ")
    return 1 if differ else 0


if __name__ == "__main__":
    sys.exit(main())
