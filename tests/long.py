#!/usr/bin/env python3
"""Each call over arrays that are longer than every size at which the program's code changes its way.

    long.py PROGRAM

Cells are computed in strips of 4,096, folded and searched in tables whose sizes go with their labels, and masks are counted by 240
bytes; the other tests have arrays of few cells. Here each has 70,001, or two dimensions of 263 and 271; there are 20,011 groups,
20,000 texts, 70,071 bins, and 400 labels that a table would all keep at one place. Each value is worked out below by plain loops over Python's numbers, and printed by the program; files
are read by the plain reader of classic.py. The last line is 'N the same, M differ'.
"""
import datetime
import os
import re
import subprocess
import sys
import tempfile

import classic
import writing
from datasets import BYTE, CHAR, INT, SHORT

N, ROWS, COLUMNS, TEXTS, ZONES = 70_001, 263, 271, 20_000, 20_011
SECONDS = 600
BITS = {"int8": 8, "int16": 16, "int32": 32, "int64": 64, "uint8": 8, "uint16": 16, "uint32": 32, "uint64": 64}
NONE = -999


def wrap(kind, n):
    if n is None or kind == "bool":
        return n
    n %= 1 << BITS[kind]
    return n - (1 << BITS[kind]) if kind[0] == "i" and n >> BITS[kind] - 1 else n


# ---- the file, and its cells as lists

X = [i * 48_271 % 1_000_003 for i in range(N)]
UP = [3 * i + 10 + i % 2 for i in range(N)]
HOURS = [i + i // 1000 for i in range(N)]
ZONE = [i * 7_919 % ZONES for i in range(N)]
A = [None if i % 7 == 3 else i * 31 % 2_001 - 900 for i in range(N)]
B = [wrap("int32", i * 1_103_515_245 + 12_345) for i in range(N)]
C = [i * 37 % 256 - 128 for i in range(N)]
D = [i * i % 100_003 for i in range(N)]
E = [i * 53 % 997 - 400 for i in range(N)]
G = [i * 97 % 10_007 - 5_000 for i in range(ROWS * COLUMNS)]
H = [None if i % 11 == 5 or i // COLUMNS == 100 else i * 61 % 3_001 for i in range(ROWS * COLUMNS)]
NAMES = [f"n{i * 7_919 % ZONES:05}" for i in range(TEXTS)]
M = [i * 13 % 8_009 for i in range(TEXTS)]
# The table's first place for a number is told by the upper half of its product with the golden ratio of 64 bits.
GOLDEN = 11_400_714_819_323_198_485
CROWDED = [n for n in (i * pow(GOLDEN, -1, 1 << 64) % (1 << 64) for i in range(1, 1_000)) if n < 1 << 63][:400]


def stored(cells):
    return [NONE if n is None else n for n in cells]


def the_file():
    fill = classic.Attribute("_FillValue", SHORT, writing.value_bytes(SHORT, [NONE]))
    hours = [writing.text_attr("units", b"hours since 2000-01-01")]
    listed = [writing.text_attr("coordinates", b"zone")]
    texts = [byte for name in NAMES for byte in name.encode()]
    sizes = {"x": N, "up": N, "time": N, "y": ROWS, "z": COLUMNS, "name": TEXTS, "string6": 6}
    return writing.spelled(1, sizes, None, [], [
        writing.Var("x", ["x"], INT, X, []), writing.Var("up", ["up"], INT, UP, []), writing.Var("time", ["time"], INT, HOURS, hours),
        writing.Var("name", ["name", "string6"], CHAR, texts, []), writing.Var("zone", ["x"], INT, ZONE, []),
        writing.Var("a", ["x"], SHORT, stored(A), [fill]), writing.Var("b", ["x"], INT, B, []), writing.Var("c", ["x"], BYTE, C, listed),
        writing.Var("d", ["up"], INT, D, []), writing.Var("e", ["time"], INT, E, []), writing.Var("g", ["y", "z"], INT, G, []),
        writing.Var("h", ["y", "z"], SHORT, stored(H), [fill]), writing.Var("m", ["name"], INT, M, [])])


HEAD = f"""\
q = DataArray({list(range(400))}, dims=["x"], coords={{"x": {CROWDED}}})
ds = open_dataset("long.nc", mask=True)
a = ds["a"].drop_vars("zone")
b = ds["b"].drop_vars("zone")
c = ds["c"].drop_vars("zone")
d = ds["d"]
e = ds["e"]
g = ds["g"]
h = ds["h"]
m = ds["m"]
"""


# ---- what each expression is

class Wanted:
    """An array: its dimensions with sizes, its kind, its cells, and the labels of some dimensions. It is masked where said so."""

    def __init__(self, dims, kind, cells, masked=False, **labels):
        self.dims, self.kind, self.cells, self.masked, self.labels = dims, kind, cells, masked, labels


def over_x(kind, cells, masked=False, labels=X):
    return Wanted([("x", len(cells))], kind, cells, masked, x=labels)


def each(function, *columns):
    """Cell by cell; a missing one makes a missing one."""
    return [None if None in row else function(*row) for row in zip(*columns)]


def floor(x, y):
    return x // y if y else 0


def rest(x, y):
    return x - y * (x // y) if y else 0


def cell_by_cell():
    yield "a + b", over_x("int32", each(lambda x, y: wrap("int32", x + y), A, B), True)
    yield "a * 300 - c", over_x("int16", each(lambda x, y: wrap("int16", wrap("int16", x * 300) - y), A, C), True)
    yield "b // c", over_x("int32", each(lambda x, y: wrap("int32", floor(x, y)), B, C))
    yield "b % a", over_x("int32", each(rest, B, A), True)
    yield "(a > 5) & (b != 3)", over_x("bool", each(lambda x, y: x > 5 and y != 3, A, B), True)
    yield "(c <= 7) ^ (b >= a)", over_x("bool", each(lambda x, y, z: (x <= 7) != (y >= z), C, B, A), True)
    yield "(b | 255) & c", over_x("int32", each(lambda x, y: (x | 255) & y, B, C))
    yield "-a", over_x("int16", each(lambda x: -x, A), True)
    yield "~(b > 0)", over_x("bool", [not n > 0 for n in B])
    yield "~c", over_x("int8", [~n for n in C])
    for kind in BITS:
        yield f'b.astype("{kind}")', over_x(kind, [wrap(kind, n) for n in B])
    yield 'a.astype("bool")', over_x("bool", each(lambda x: x != 0, A), True)
    yield "a.fillna(7)", over_x("int16", [7 if n is None else n for n in A])
    yield "a.isnull()", over_x("bool", [n is None for n in A])
    yield "a.notnull()", over_x("bool", [n is not None for n in A])
    yield "where(b > 0, a, b)", over_x("int32", [x if y > 0 else y for x, y in zip(A, B)], True)
    yield "c.where(a > 0, NA)", over_x("int8", [None if x is None or x <= 0 else y for x, y in zip(A, C)], True)
    yield "a.where(c > 0, 5)", over_x("int16", [x if y > 0 else 5 for x, y in zip(A, C)], True)


def by_labels():
    yield "a + b.isel(x=slice(None, None, -1))", over_x("int32", each(lambda x, y: wrap("int32", x + y), A, B), True)
    part = range(10_001, 60_001)
    yield "c - b.isel(x=slice(60000, 10000, -1))", over_x("int32", [wrap("int32", C[i] - B[i]) for i in part], labels=[X[i] for i in part])
    picked = [i * 211 % N for i in range(300)]
    yield f"a.sel(x={[X[i] for i in picked]})", over_x("int16", [A[i] for i in picked], True, [X[i] for i in picked])
    # (of 20,000 labels every other one is there)
    sought = [X[i * 3] if i % 2 else 2_000_000 + i for i in range(20_000)]
    yield f"b.reindex(x={sought}, fill_value=-7)", over_x("int32", [B[i * 3] if i % 2 else -7 for i in range(20_000)], labels=sought)
    between = [i for i in range(N) if 1_000 <= UP[i] <= 150_000]
    yield "d.sel(up=slice(1000, 150000))", Wanted([("up", len(between))], "int32", [D[i] for i in between], up=[UP[i] for i in between])
    between.reverse()
    yield "d.isel(up=slice(None, None, -1)).sel(up=slice(150000, 1000))", Wanted(
        [("up", len(between))], "int32", [D[i] for i in between], up=[UP[i] for i in between])
    sought = [i * 997 % 210_000 + 20 for i in range(200)]
    below = [max(i for i in range((n - 10) // 3 - 1, (n - 10) // 3 + 1) if UP[i] <= n) for n in sought]
    yield f'd.sel(up={sought}, method="pad")', Wanted([("up", 200)], "int32", [D[i] for i in below], up=[UP[i] for i in below])
    above = [i if UP[i] == n else i + 1 for i, n in zip(below, sought)]
    yield f'd.sel(up={sought}, method="backfill")', Wanted([("up", 200)], "int32", [D[i] for i in above], up=[UP[i] for i in above])
    near = [j if UP[j] - n <= n - UP[i] else i for i, j, n in zip(below, above, sought)]
    yield f'd.sel(up={sought}, method="nearest")', Wanted([("up", 200)], "int32", [D[i] for i in near], up=[UP[i] for i in near])
    picked = [i * 191 % TEXTS for i in range(200)]
    names = ", ".join(f'"{NAMES[i]}"' for i in picked)
    yield f"m.sel(name=[{names}])", Wanted([("name", 200)], "int32", [M[i] for i in picked], name=[f'"{NAMES[i]}"' for i in picked])
    yield "m + m.isel(name=slice(None, None, -1))", Wanted([("name", TEXTS)], "int32", [2 * n for n in M], name=[f'"{it}"' for it in NAMES])
    assert len(CROWDED) == 400 and all(n * GOLDEN % (1 << 64) < 1_000 for n in CROWDED)
    yield "q - q.isel(x=slice(None, None, -1))", over_x("int64", [0] * 400, labels=CROWDED)
    picked = [i * 37 % 400 for i in range(100)]
    yield f"q.sel(x={[CROWDED[i] for i in picked]})", over_x("int64", picked, labels=[CROWDED[i] for i in picked])
    yield "a.isel(x=slice(69990, 3, -3))", over_x("int16", [A[i] for i in range(69_990, 3, -3)], True, [X[i] for i in range(69_990, 3, -3)])


def put_together():
    yield 'concat([b.isel(x=slice(0, 30000)), b.isel(x=slice(30000, 50001)), b.isel(x=slice(50001, None))], "x")', over_x("int32", B)
    yield 'concat([a, b], "run")', Wanted([("run", 2), ("x", N)], "int32", A + B, True, x=X)
    union = sorted(range(N), key=lambda i: X[i])
    both = "[b.isel(x=slice(0, 50000)), c.isel(x=slice(20000, None))]"
    yield f'merge({both}, fill_value=0)["b"]', over_x("int32", [B[i] if i < 50_000 else 0 for i in union], labels=[X[i] for i in union])
    yield f'merge({both}, fill_value=NA)["c"]', over_x("int8", [C[i] if i >= 20_000 else None for i in union], True, [X[i] for i in union])
    yield f'merge({both}, join="inner")["c"]', over_x("int8", C[20_000:50_000], labels=X[20_000:50_000])
    parts = ", ".join(f"d.isel(up=slice({i}, {j})).to_dataset()" for i, j in ((40_000, 60_000), (0, 17_000), (60_000, N), (17_000, 40_000)))
    yield f'combine_by_coords([{parts}])["d"]', Wanted([("up", N)], "int32", D, up=UP)


def folded(cells):
    """The folds of a list of cells."""
    there = [n for n in cells if n is not None]
    product = 1
    for n in there:
        product = wrap("int64", product * n)
    return {"sum": sum(there), "prod": product, "min": min(there, default=None), "max": max(there, default=None), "count": len(there)}


def reduced():
    for fold, kind in [("sum", "int64"), ("prod", "int64"), ("min", "int16"), ("max", "int16"), ("count", "int64")]:
        masked = fold in ("min", "max")
        yield f"a.{fold}()", Wanted([], kind, [folded(A)[fold]], masked)
        columns = [folded(H[j::COLUMNS])[fold] for j in range(COLUMNS)]
        rows = [folded(H[i * COLUMNS:(i + 1) * COLUMNS])[fold] for i in range(ROWS)]
        yield f'h.{fold}("y")', Wanted([("z", COLUMNS)], kind, columns, masked)
        yield f'h.{fold}("z")', Wanted([("y", ROWS)], kind, rows, masked)
    there = [n for n in A if n is not None]
    yield "a.argmin()", Wanted([], "int64", [A.index(min(there))], True)
    yield "a.argmax()", Wanted([], "int64", [A.index(max(there))], True)
    yield 'g.argmax("y")', Wanted([("z", COLUMNS)], "int64", [G[j::COLUMNS].index(max(G[j::COLUMNS])) for j in range(COLUMNS)])
    yield "(b > 2147480000).any()", Wanted([], "bool", [any(n > 2_147_480_000 for n in B)])
    yield "(b > -2147483647).all()", Wanted([], "bool", [all(n > -2_147_483_647 for n in B)])
    total, sums = 0, []
    for n in A:
        total += n or 0
        sums.append(total)
    yield 'a.cumsum("x")', over_x("int64", sums)
    sums = list(G)
    for i in range(COLUMNS, ROWS * COLUMNS):
        sums[i] += sums[i - COLUMNS]
    yield 'g.cumsum("y")', Wanted([("y", ROWS), ("z", COLUMNS)], "int64", sums)


def moved():
    yield "b.shift(x=20001, fill_value=-5)", over_x("int32", [-5] * 20_001 + B[:N - 20_001])
    yield "a.shift(x=-20001, fill_value=NA)", over_x("int16", A[20_001:] + [None] * 20_001, True)
    yield "b.roll(x=33333)", over_x("int32", B[-33_333:] + B[:-33_333])
    yield 'b.diff("x")', over_x("int32", [wrap("int32", y - x) for x, y in zip(B, B[1:])], labels=X[1:])
    windows = [A[max(0, i - 4):i + 1] for i in range(N)]
    sums = [sum(n for n in w if n is not None) if sum(n is not None for n in w) >= 4 else 0 for w in windows]
    yield "a.rolling(x=5, min_periods=4).sum(fill_value=0)", over_x("int64", sums)
    windows = [C[max(0, i - 3):i + 4] for i in range(N)]
    yield "c.rolling(x=7, center=True).max(fill_value=-1)", over_x("int8", [max(w) if len(w) == 7 else -1 for w in windows])
    blocks = [range(i, i + 3) for i in range(0, N - 2, 3)]
    yield 'b.coarsen(x=3, boundary="trim", coord_func="min").max()', over_x(
        "int32", [max(B[i] for i in block) for block in blocks], labels=[min(X[i] for i in block) for block in blocks])
    yield "g.transpose()", Wanted([("z", COLUMNS), ("y", ROWS)], "int32", [G[i * COLUMNS + j] for j in range(COLUMNS) for i in range(ROWS)])
    yield 'g.isel(y=7) + g.isel(z=3)', Wanted(
        [("z", COLUMNS), ("y", ROWS)], "int32", [G[7 * COLUMNS + j] + G[i * COLUMNS + 3] for j in range(COLUMNS) for i in range(ROWS)])
    yield "h - g.isel(y=7)", Wanted(
        [("y", ROWS), ("z", COLUMNS)], "int32", [None if n is None else n - G[7 * COLUMNS + i % COLUMNS] for i, n in enumerate(H)], True)


def time_of(hour):
    return (datetime.datetime(2000, 1, 1) + datetime.timedelta(hours=hour)).strftime("%Y-%m-%dT%H:%M:%S")


def grouped():
    groups = {}
    for i, zone in enumerate(ZONE):
        groups.setdefault(zone, []).append(A[i])
    keys = sorted(groups)
    assert len(keys) == ZONES
    for fold, kind, masked in (("sum", "int64", False), ("max", "int16", True)):
        yield f'ds["a"].assign_coords(zone=ds["zone"]).groupby("zone").{fold}()', Wanted(
            [("zone", ZONES)], kind, [folded(groups[k])[fold] for k in keys], masked, zone=keys)
    firsts = [next((n for n in groups[k] if n is not None), None) for k in keys]
    yield 'ds["a"].assign_coords(zone=ds["zone"]).groupby("zone").first()', Wanted([("zone", ZONES)], "int16", firsts, True, zone=keys)
    order = sorted(range(N), key=lambda i: X[i])
    yield 'b.groupby("x").last()', over_x("int32", [B[i] for i in order], labels=[X[i] for i in order])
    months, bins = {}, {}
    for hour, n in zip(HOURS, E):
        months.setdefault((datetime.datetime(2000, 1, 1) + datetime.timedelta(hours=hour)).month, []).append(n)
        bins.setdefault(hour // 6, []).append(n)
    yield 'e.groupby("time.month").sum()', Wanted([("month", 12)], "int64", [sum(months[k]) for k in range(1, 13)], month=list(range(1, 13)))
    count = HOURS[-1] // 6 + 1
    yield 'e.resample(time="6h").min()', Wanted(
        [("time", count)], "int32", [min(bins[k]) for k in range(count)], time=[time_of(6 * k) for k in range(count)])
    there, count = dict(zip(HOURS, E)), HOURS[-1] + 1
    assert count == 70_071
    yield 'e.resample(time="h").sum(fill_value=-1)', Wanted(
        [("time", count)], "int64", [there.get(k, -1) for k in range(count)], time=[time_of(k) for k in range(count)])


def jobs():
    for part in (cell_by_cell, by_labels, put_together, reduced, moved, grouped):
        yield from part()


# ---- the program's answers

def items(text):
    return [True if it == "True" else False if it == "False" else None if it == "NA" else int(it) for it in text.split()]


def differences(wanted, lines):
    """What the lines of one printed array have otherwise; they are taken from the front of the list."""
    head = re.fullmatch(r"DataArray \S+ \((.*)\) (\w+)( masked)?", lines.pop(0))
    if not head:
        return "no array"
    dims = [(it.split(": ")[0], int(it.split(": ")[1])) for it in head[1].split(", ") if it]
    rows = 1
    for _, size in dims[:-1]:
        rows *= size
    cells = [n for _ in range(rows) for n in items(lines.pop(0))]
    labels = {}
    while lines and not lines[0].startswith("DataArray "):
        line = re.fullmatch(r"coord (\w+) \w+(?: masked)? \((\w*)\): (.*)", lines.pop(0))
        if line and line[1] == line[2]:
            labels[line[1]] = line[3].split()
    for what, is_, should in [("dims", dims, wanted.dims), ("kind", head[2], wanted.kind), ("masked", bool(head[3]), wanted.masked), ("cells", cells, wanted.cells),
                              ("labels", labels, {d: [str(n) for n in ns] for d, ns in wanted.labels.items()})]:
        if is_ != should:
            first = next((i for i, (n, k) in enumerate(zip(is_, should)) if n != k), None) if what == "cells" else None
            return f"{what} {str(is_)[:200]}, not {str(should)[:200]}, first at {first}"
    return None


def run(program, folder, text):
    assert len(text) <= 1 << 20
    with open(os.path.join(folder, "s.xrs"), "w") as f:
        f.write(text)
    return subprocess.run([program, "s.xrs"], cwd=folder, capture_output=True, text=True, timeout=SECONDS)


def printed(program, folder):
    """The jobs that differ, and how many there are."""
    listed, told = list(jobs()), []
    ran = run(program, folder, HEAD + "".join(f"print({expression})\n" for expression, _ in listed))
    lines = ran.stdout.split("\n")[:-1]
    for expression, wanted in listed:
        fault = differences(wanted, lines) if lines else f"status {ran.returncode}: {ran.stderr}"
        if fault:
            told.append(f"{expression[:100]}: {fault}")
            break
    return told, len(listed)


def aligned(program, folder):
    """`align` is a statement of its own."""
    text = HEAD + "p, q = align(a.isel(x=slice(0, 50000)), b.isel(x=slice(20000, None)), join=\"outer\", fill_value=0)\nprint(p)\nprint(q)\n"
    ran = run(program, folder, text)
    lines, order, told = ran.stdout.split("\n")[:-1], sorted(range(N), key=lambda i: X[i]), []
    labels = [X[i] for i in order]
    for wanted in (over_x("int16", [A[i] if i < 50_000 else 0 for i in order], True, labels), over_x("int32", [B[i] if i >= 20_000 else 0 for i in order], labels=labels)):
        fault = differences(wanted, lines) if lines else f"status {ran.returncode}: {ran.stderr}"
        told += [f"align: {fault}"] if fault else []
    return told, 2


def written(program, folder):
    """Files with 70,001 records: of one variable, whose shorts have no padding, and of several, whose bytes have; and one without records."""
    text = HEAD + """\
l = ds.drop_vars(["b", "c", "d", "e", "g", "h", "m", "zone", "x", "up", "time", "name"])
l.to_netcdf("lone.nc", format="NETCDF3_CLASSIC", unlimited_dims="x")
s = ds.drop_vars(["d", "e", "g", "h", "m", "up", "time", "name"])
s.to_netcdf("several.nc", format="NETCDF3_64BIT", unlimited_dims="x")
s.to_netcdf("fixed.nc")
"""
    ran, told, count = run(program, folder, text), [], 0
    if ran.returncode:
        return [f"files: status {ran.returncode}: {ran.stderr}"], 1
    for name, records, wanted in [("lone.nc", True, {"a": A}), ("several.nc", True, {"x": X, "zone": ZONE, "a": A, "b": B, "c": C}),
                                  ("fixed.nc", False, {"x": X, "zone": ZONE, "a": A, "b": B, "c": C})]:
        with open(os.path.join(folder, name), "rb") as f:
            data = f.read()
        file = classic.read(data)
        values = {var.name: file.values(var) for var in file.vars}
        count += 1
        if values != {name: stored(cells) for name, cells in wanted.items()} or (file.numrecs == N) != records:
            told.append(f"{name}: {file.numrecs} records, {[(k, v[:5], len(v)) for k, v in values.items()]}")
    return told, count


def main():
    program, told, count = os.path.abspath(sys.argv[1]), [], 0
    with tempfile.TemporaryDirectory() as folder:
        with open(os.path.join(folder, "long.nc"), "wb") as f:
            f.write(the_file())
        for part in (printed, aligned, written):
            wrong, done = part(program, folder)
            told += wrong
            count += done
    for line in told:
        print(f"long: {line}")
    print(f"{count - len(told)} the same, {len(told)} differ")
    return 1 if told else 0


if __name__ == "__main__":
    sys.exit(main())
