#!/usr/bin/env python3
"""Runs scripts over files whose variables stand in records, many values in each, and over files of the same values without records.

    wide_records.py PROGRAM

Both have to print the same, byte for byte. Sums, least and greatest numbers and single cells have to be those that are worked out here
from the numbers that the files were made of.
"""
import os
import random
import struct
import subprocess
import sys
import tempfile

HEIGHT, WIDTH = 45, 50
FILL = -7
CODES = {1: "b", 3: "h", 4: "i"}


def counted(name):
    return struct.pack(">i", len(name)) + name + bytes(-len(name) % 4)


def padded(raw):
    return raw + bytes(-len(raw) % 4)


def variable(name, dims, fill, kind, size, begin):
    attrs = struct.pack(">2i", 0, 0)
    if fill is not None:
        attrs = struct.pack(">2i", 12, 1) + counted(b"_FillValue") + struct.pack(">2i", kind, 1) + padded(struct.pack(">" + CODES[kind], fill))
    return counted(name) + struct.pack(f">{1 + len(dims)}i", len(dims), *dims) + attrs + struct.pack(">2i", kind, size) + struct.pack(">i", begin)


def spelt(times, variables, in_records):
    """A file of version 1. Of each variable its name, whether it has y and x beside t, its fill number, its type, and its rows."""
    dims = counted(b"t") + struct.pack(">i", 0 if in_records else times) + counted(b"y") + struct.pack(">i", HEIGHT) + counted(b"x") + struct.pack(">i", WIDTH)

    def header(begins):
        listed = b""
        for (name, wide, fill, kind, rows), begin in zip(variables, begins):
            cells = HEIGHT * WIDTH if wide else 1
            size = len(padded(bytes(cells * struct.calcsize(">" + CODES[kind])))) if in_records else len(padded(bytes(times * cells * struct.calcsize(">" + CODES[kind]))))
            listed += variable(name, [0, 1, 2] if wide else [0], fill, kind, size, begin)
        return b"CDF\x01" + struct.pack(">3i", times if in_records else 0, 10, 3) + dims + struct.pack(">4i", 0, 0, 11, len(variables)) + listed

    at, begins, rows_of = len(header([0] * len(variables))), [], []
    for _, wide, _, kind, rows in variables:
        rows_of.append([struct.pack(f">{len(row)}{CODES[kind]}", *row) for row in rows])
    if in_records:
        # A lone record variable isn't filled up.
        fill_up = padded if len(variables) > 1 else bytes
        cells = [HEIGHT * WIDTH if wide else 1 for _, wide, _, _, _ in variables]
        begin = at
        for (_, _, _, kind, _), count in zip(variables, cells):
            begins.append(begin)
            begin += len(fill_up(bytes(count * struct.calcsize(">" + CODES[kind]))))
        body = b"".join(fill_up(rows[time]) for time in range(times) for rows in rows_of)
    else:
        body = b""
        for rows in rows_of:
            begins.append(at + len(body))
            body += padded(b"".join(rows))
    return header(begins) + body


def scripts(random_, times):
    """Statements over `ds`, whose text has to be the same from both files."""
    middle = random_.randrange(max(times, 1))
    row, column = random_.randrange(HEIGHT), random_.randrange(WIDTH)
    yield "print(ds)"
    for name in "ab":
        for fold in ("sum", "min", "max", "count", "any"):
            yield f'print(ds["{name}"].{fold}())'
            for dims in ("t", "y", "x"):
                yield f'print(ds["{name}"].{fold}(dim="{dims}"))'
            yield f'print(ds["{name}"].{fold}(dim=["y", "x"]))'
    yield f'print(ds["a"].isel(t=slice(0, {middle})).sum(dim="x"))'
    yield f'print(ds["a"].isel(t=slice({middle}, {times})).max())'
    yield f'print(ds["a"].isel(y=slice({row}, {HEIGHT}), x=slice(0, {column})).sum(dim="t"))'
    yield f'print(ds["a"].isel(y={row}, x={column}))'
    yield 'print(ds["a"].isel(t=slice(None, None, 2)).sum())'
    yield 'print(ds["a"].isel(t=slice(None, None, -1)).max(dim="x"))'
    yield 'print((ds["a"] + ds["b"]).sum(dim=["t", "x"]))'
    yield 'print((ds["a"] * 3 - ds["b"]).max(dim="y"))'
    yield 'print(ds["a"].where(ds["a"] > ds["b"], 0).sum(dim="y"))'
    yield 'print(ds["a"].fillna(5).sum(dim="x"))'
    yield 'print(ds["a"].transpose("x", "t", "y").sum(dim="y"))'
    yield 'print(concat([ds["a"], ds["a"]], dim="t").sum(dim="x"))'
    yield 'print(concat([ds["a"], ds["a"]], dim="x").max(dim="t"))'
    yield 'print(ds["a"].cumsum(dim="t").max(dim="x"))'
    yield 'print(ds["a"].rolling(t=2, min_periods=1).sum().max(dim=["y", "x"]))'
    yield 'print(ds["a"].rolling(t=3).min(fill_value=0).sum(dim="x"))'
    yield 'print(ds["a"].rolling(x=7, min_periods=2).max(fill_value=-1).sum(dim=["t", "y"]))'
    yield 'print(ds["a"].coarsen(t=2, boundary="trim", coord_func="min").max().sum(dim="y"))'
    yield 'print(ds["a"].coarsen(y=9, x=10).sum().max(dim="t"))'
    yield 'print(ds["a"].prod(dim="t").sum(dim="y"))'
    yield 'print(ds["a"].argmax(dim="x").sum(dim="y"))'
    yield 'print(ds["a"].argmin(dim="t").sum(dim="x"))'
    yield 'print(ds["a"].all(dim=["t", "x"]))'
    yield 'print(ds["a"].cumsum(dim="x").max(dim="t"))'
    yield 'print(ds["a"].isel(t=slice(None, None, 2)).max(dim="t"))'
    yield 'print(ds["a"].shift(t=1, fill_value=0).sum(dim="x"))'
    yield 'print(ds["a"])'


def told(program, folder, file, lines):
    script = os.path.join(folder, "s.txt")
    with open(script, "w", encoding="utf-8") as f:
        f.write(f'ds = open_dataset("{file}", mask=True)\n' + "".join(line + "\n" for line in lines))
    ran = subprocess.run([program, script], cwd=folder, capture_output=True, timeout=120)
    return ran.returncode, ran.stdout.decode(), ran.stderr.decode()


def worked_out(rows):
    """The sum, the least and the greatest number and the count of the cells that aren't missing, as the program prints them."""
    there = [n for row in rows for n in row if n != FILL]
    wrapped = (sum(there) + (1 << 63)) % (1 << 64) - (1 << 63)
    return [str(wrapped), str(min(there)), str(max(there)), str(len(there))]


def last_line(text):
    return text.rstrip("\n").rsplit("\n", 1)[-1]


def main():
    program = os.path.abspath(sys.argv[1])
    random_ = random.Random(4)
    wrong = done = 0
    with tempfile.TemporaryDirectory() as folder:
        for times, kinds in [(1, (3, 4)), (2, (3, 4)), (3, (1, 3)), (5, (4, 1)), (4, (3, 3)), (0, (3, 4))]:
            rows = {}
            for name, kind in zip("ab", kinds):
                most = (1 << 8 * struct.calcsize(">" + CODES[kind]) - 1) - 1
                rows[name] = [[random_.choice([FILL, 0, most, -most - 1, random_.randrange(-most, most)]) for _ in range(HEIGHT * WIDTH)] for _ in range(times)]
            labels = [[10 * time] for time in range(times)]
            variables = [(b"t", False, None, 4, labels), (b"a", True, FILL, kinds[0], rows["a"]), (b"b", True, FILL, kinds[1], rows["b"])]
            for lone in (False, True):
                listed = [it for it in variables if it[0] == b"a"] if lone else variables
                names = {}
                for in_records in (True, False):
                    names[in_records] = "records.nc" if in_records else "fixed.nc"
                    with open(os.path.join(folder, names[in_records]), "wb") as f:
                        f.write(spelt(times, listed, in_records))
                lines = [it for it in scripts(random_, times) if not (lone and '"b"' in it)]
                one_by_one = lines if times in (2, 0) else []
                for part in [[it] for it in one_by_one] or [lines]:
                    said = told(program, folder, names[True], part)
                    other = told(program, folder, names[False], part)
                    done += 1
                    if said[0] and times == 2:
                        wrong += 1
                        print(f"{part}: {said}")
                    if said != other:
                        wrong += 1
                        print(f"{times} times, {'alone' if lone else 'both'}: {part[:1]}: {said[0]} {said[2][:200]!r} / {other[0]} {other[2][:200]!r}")
                for name in "a" if lone else "ab":
                    if not times:
                        continue
                    want = worked_out(rows[name])
                    for fold, number in zip(("sum", "min", "max", "count"), want):
                        status, out, err = told(program, folder, names[True], [f'print(ds["{name}"].{fold}())'])
                        done += 1
                        if status or last_line(out) != number:
                            wrong += 1
                            print(f"{times} times: {name}.{fold}() is {last_line(out)!r} {err!r} and should be {number}")
                    for at in (0, times - 1):
                        row, column = random_.randrange(HEIGHT), random_.randrange(WIDTH)
                        cell = rows[name][at][row * WIDTH + column]
                        status, out, err = told(program, folder, names[True], [f'print(ds["{name}"].isel(t={at}, y={row}, x={column}))'])
                        done += 1
                        if status or out.split("\n")[1] != (str(cell) if cell != FILL else "NA"):
                            wrong += 1
                            print(f"{times} times: {name} at {at}, {row}, {column} is {out!r} {err!r} and should be {cell}")
    print(f"wide records: {done} runs, {wrong} wrong")
    return 1 if wrong else 0


if __name__ == "__main__":
    sys.exit(main())
