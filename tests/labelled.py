"""Random labels and cells, their joins as xarray has them, and the rounds of tests that put them into scripts.

Where numpy, cftime and xarray are missing, a test that imports this ends, and its output says so.
"""
import argparse
import itertools
import os
import random
import subprocess
import sys
import tempfile
import warnings

PYTHON = "/usr/bin/python3"
try:
    import cftime
    import numpy
    import pandas
    import xarray
except ImportError:
    has_peer = os.path.exists(PYTHON) and os.path.realpath(sys.executable) != os.path.realpath(PYTHON)
    if has_peer and subprocess.run([PYTHON, "-c", "import cftime, xarray"], capture_output=True).returncode == 0:
        os.execv(PYTHON, [PYTHON, "-B", *sys.argv])
    print("skipped: arrays and datasets beside xarray need numpy, cftime and xarray")
    sys.exit(0)

KINDS = ["int8", "int16", "int32", "int64", "uint8", "uint16", "uint32", "uint64", "bool"]
CIVIL = ["standard", "gregorian", "proleptic_gregorian"]
WORDS = {1: "unknown name", 2: "no variable", 3: "no dimension", 4: "wrong kind of value", 5: "bad argument", 8: "label not unique", 9: "index not monotonic",
         10: "label of another kind", 11: "would promote", 12: "number does not fit", 13: "sizes differ", 14: "not aligned",
         15: "conflicting values", 25: "duplicate name"}


def text_of(d):
    return f"{d.year:04}-{d.month:02}-{d.day:02}T{d.hour:02}:{d.minute:02}:{d.second:02}"


def spelled(it):
    if isinstance(it, (list, numpy.ndarray)):
        return "[" + ", ".join(map(spelled, it)) + "]"
    return "NA" if it is None else str(it)


class Refused(Exception):
    """A statement is refused, with the number of its fault, and the name that this speaks of, if it does."""


class Index:
    """Labels of one sort: numbers of a kind, texts, or times of a calendar, in hours from 2000-01-01."""

    def __init__(self, sort, kind, labels):
        self.sort, self.kind, self.labels = sort, kind, labels

    def dates(self):
        return [cftime.num2date(n, "hours since 2000-01-01", self.sort) for n in self.labels]

    def script(self, r, name):
        labels = self.labels or [0]
        if self.sort == "texts":
            return str(self.labels or ["a"])
        if self.sort != "numbers":
            calendar = r.choice(CIVIL) if self.sort == "standard" else self.sort
            days = r.random() < 0.5 and all(n % 24 == 0 for n in labels)
            units = f"{'days' if days else 'hours'} since {r.choice(['2000-01-01', '2000-01-01 00:00:00'])}"
            return f'times("{units}", {[n // 24 for n in labels] if days else labels}, calendar="{calendar}")'
        return str(labels) if self.kind == "int64" else f'DataArray({labels}, ["{name}"], dtype="{self.kind}")'

    def peer(self):
        if self.sort == "texts":
            return numpy.array(self.labels, dtype=object)
        if self.sort == "numbers":
            return numpy.array(self.labels, dtype="int64")
        if self.sort == "standard" or not self.labels:
            return pandas.DatetimeIndex([text_of(d) for d in self.dates()])
        return xarray.CFTimeIndex(self.dates())

    def shown(self):
        if self.sort == "texts":
            return "text", [f'"{it}"' for it in self.labels]
        if self.sort == "numbers":
            return self.kind, [str(it) for it in self.labels]
        return "time", [text_of(d) for d in self.dates()]


class Cells:
    """Cells of a kind over some dimensions: None for a missing one."""

    def __init__(self, name, dims, kind, cells, masked=None):
        self.name, self.dims, self.kind, self.cells = name, dims, kind, cells
        self.masked = any(it is None for it in cells.ravel()) if masked is None else masked

    def written(self):
        """The cells in a script, where no list has an empty dimension before others: one of a position is cut."""
        if self.cells.size:
            return spelled(self.cells if self.dims else self.cells.item())
        return spelled(numpy.full([n or 1 for n in self.cells.shape], False if self.kind == "bool" else 0, dtype=object))

    def script(self, coords):
        cut = [d for d, n in zip(self.dims, self.cells.shape) if n == 0]
        name = f'"{self.name}"' if self.name else None
        made = f'DataArray({self.written()}, {list(self.dims)}, {{{", ".join(coords)}}}, {name}, "{self.kind}")'
        return made + (f".isel({', '.join(f'{d}=slice(0)' for d in cut)})" if cut else "")

    def numbers(self):
        """The position of each cell."""
        return self.dims, numpy.arange(self.cells.size).reshape(self.cells.shape)

    def taken(self, numbers, fill):
        """The cells at these positions, and the fill at those below 0."""
        made, flat = numpy.empty(numbers.shape, dtype=object), self.cells.ravel()
        for point in itertools.product(*map(range, numbers.shape)):
            made[point] = flat[numbers[point]] if numbers[point] >= 0 else fill
        return made

    def word(self, it):
        if self.kind in ("text", "time"):
            return f'"{it}"' if self.kind == "text" else it
        return "NA" if it is None else str(bool(it)) if self.kind == "bool" else str(int(it))

    def value(self):
        return f'DataArray({self.written()}, {list(self.dims)}, dtype="{self.kind}")'

    def coordinate(self):
        return f'"{self.name}": {self.value()}'

    def rows(self, cells):
        """Lines of cells, as they are printed."""
        return [" ".join(map(self.word, row)) for row in cells.reshape(-1, cells.shape[-1] if cells.ndim else 1)] if cells.size else []


def random_cell(r, kind):
    if kind == "bool":
        return r.random() < 0.5
    limits = numpy.iinfo(kind)
    return r.choice([int(limits.min), int(limits.max)]) if r.random() < 0.1 else max(int(limits.min), r.randrange(-20, 21))


def random_cells(r, name, dims, sizes, missing):
    kind = r.choice(KINDS)
    cells = numpy.empty([sizes[d] for d in dims], dtype=object)
    for point in itertools.product(*map(range, cells.shape)):
        cells[point] = None if missing and r.random() < 0.3 else random_cell(r, kind)
    return Cells(name, dims, kind, cells)


def random_pools(r):
    """For each dimension the labels of which its indexes are made, and those that many have."""
    pools = {}
    for d in "xyt":
        sort = r.choice(["numbers", "numbers", "numbers", "texts", "standard", "standard", "noleap", "360_day"])
        known = {"numbers": list(range(-2, 5)), "texts": ["a", "b", "ab", "ba", "c"]}.get(sort, [0, 6, 24, 48, 1400, 9000])
        pools[d] = {"sort": sort, "labels": known, "usual": r.sample(known, r.choice([0, 1, 2, 3, 3]))}
    return pools


def random_index(r, pool):
    """Labels of a pool, or none."""
    form = r.random()
    if form < 0.12:
        return None
    sort, known = pool["sort"], pool["labels"]
    kind = r.choice(KINDS[:8]) if sort == "numbers" and r.random() < 0.25 else "int64"
    if form < 0.15:
        sort, kind, known = r.choice([("texts", "int64", ["a", "b"]), ("numbers", "int64", [0, 1]), ("noleap", "int64", [0, 24])])
    if form > 0.55:
        labels = list(pool["usual"]) if sort == pool["sort"] else known
    else:
        labels = r.sample(known, min(len(known), r.choice([0, 1, 2, 2, 3, 4])))
        labels = r.choice([sorted, sorted, lambda it: sorted(it, reverse=True), list])(labels)
        if r.random() < 0.12 and labels:
            labels.insert(r.randrange(len(labels)), r.choice(labels))
    if sort == "numbers" and kind.startswith("uint") and any(n < 0 for n in labels):
        kind = "int8"
    return Index(sort, kind, labels)


def promoted(kinds):
    """The kind that holds the numbers of all, in their order."""
    kind = kinds[0]
    for it in kinds[1:]:
        kind = str(numpy.result_type(kind, it))
        if kind.startswith("float"):
            raise Refused(11)
    return kind


def joined_axis(d, values, join, fills):
    """The joined labels of a dimension and its size, or the first fault."""
    having = [v for v in values if d in v.index]
    indexes = [v.index[d] for v in having if v.index[d]]
    if len(having) == 1:
        return indexes[0] if indexes else None, having[0].sizes[d]
    if not indexes:
        if len({v.sizes[d] for v in having}) > 1:
            raise Refused(13)
        return None, having[0].sizes[d]
    first = indexes[0]
    if any(i.sort != first.sort for i in indexes):
        raise Refused(10)
    kind = promoted([i.kind for i in indexes])
    joined = first.labels
    if any(i.labels != first.labels for i in indexes):
        if join == "exact":
            raise Refused(14)
        if any(len(set(i.labels)) < len(i.labels) for i in indexes):
            raise Refused(8)
        over = [xarray.DataArray(numpy.arange(len(i.labels)), dims=[d], coords={d: i.peer()}) for i in indexes]
        made = xarray.align(*over, join=join, fill_value=-1)
        # A label of the join is one of the values, at the position that xarray tells.
        places = list(zip(*(it.values.tolist() for it in made)))
        joined = [next(i.labels[n] for i, n in zip(indexes, place) if n >= 0) for place in places]
    if any(not v.index[d] and v.sizes[d] != len(joined) for v in having):
        raise Refused(13)
    if not fills and any(set(joined) - set(i.labels) for i in indexes):
        raise Refused(11)
    return Index(first.sort, kind, joined), len(joined)


def check_fill(fill, kind):
    """Whether a fill is one for cells of a kind: None is a missing cell, and is one for all."""
    if fill is None:
        return
    if isinstance(fill, bool) != (kind == "bool"):
        raise Refused(4)
    least, most = (0, 255) if kind == "char" else (0, 1) if kind == "bool" else (numpy.iinfo(kind).min, numpy.iinfo(kind).max)
    if not least <= fill <= most:
        raise Refused(12)


def index_lines(dims, index):
    lines = []
    for d in dims:
        if index[d]:
            kind, labels = index[d].shown()
            lines.append(" ".join([f"coord {d} {kind} ({d}):", *labels]))
    return lines


def run_beside(program, folder, lines, wanted, place, fault, name=None):
    """Runs a script, whose statement at the place meets the fault, if there is one, which may speak of a name; what is wrong. Without a
    program nothing is."""
    if program is None:
        return []
    with open(os.path.join(folder, "s.xrs"), "w") as f:
        f.write("\n".join(lines) + "\n")
    ran = subprocess.run([program, "s.xrs"], cwd=folder, capture_output=True, text=True, timeout=60)
    wrong = [] if ran.stdout == wanted else [f"printed\n{ran.stdout}not\n{wanted}"]
    error, status = (f"xrs: statement {place}: F{fault} {WORDS[fault]}{' ' + name if name else ''}\n", 1) if fault else ("", 0)
    if (ran.stderr, ran.returncode) != (error, status):
        wrong.append(f"ended with {ran.returncode} {ran.stderr!r}, not {status} {error!r}")
    return wrong


def rounds(round_of):
    """Runs a round for each seed, which gives what is wrong, and its script; the status of the test."""
    parser = argparse.ArgumentParser()
    parser.add_argument("program", nargs="?")
    parser.add_argument("--model", action="store_true", help="compares what has to be printed with xarray alone")
    parser.add_argument("--count", type=int, default=100)
    parser.add_argument("--seed", type=int, default=1)
    options = parser.parse_args()
    if (options.program is None) != options.model:
        parser.error("either a program or --model")
    program, same, differ = options.program and os.path.abspath(options.program), 0, 0
    warnings.simplefilter("ignore")
    with tempfile.TemporaryDirectory() as folder:
        for seed in range(options.seed, options.seed + options.count):
            wrong, story = round_of(random.Random(seed), program, folder)
            same, differ = same + (not wrong), differ + bool(wrong)
            if wrong:
                print(f"seed {seed}:\n{story}\n" + "\n".join(wrong) + "\n")
    print(f"{same} the same, {differ} differ")
    return 1 if differ else 0
