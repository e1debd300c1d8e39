#!/usr/bin/env python3
"""Runs scripts with lists and names as many as a script has room for, with 20,000 keywords or keys in one call, and with up to
100,000 values in one call.

    large.py PROGRAM

None may end by a signal or take more than a minute, and each has to print what is worked out here by hand. Keywords are
compared with each other, so their time grows by the square of their count: that is why there are no more of them. So does that of
values that are put together, whose names are looked up in each other; those that are aligned or refused take little.
"""
import os
import struct
import subprocess
import sys
import tempfile

MOST_BYTES = 1 << 20
SECONDS = 60
KEYWORDS = 20_000
PUT_TOGETHER = 8_000
MERGED = 16_000
TILES = 4_000
ALIGNED = 100_000
BARE = 'a = DataArray([1, 2], dims=["x"])\n'
SET = BARE + 'd = a.to_dataset(name="v")\n'


def as_many(item, most=MOST_BYTES, room=MOST_BYTES - 1000):
    """`item` of 0, 1, 2 .. with commas between, as many as there is room for but no more than `most`, and how many they are."""
    items, size, count = [], 0, 0
    while True:
        text = item(count)
        size += len(text) + 2
        if size > room or count == most:
            return ", ".join(items), count
        items.append(text)
        count += 1


def counted(name):
    return struct.pack(">i", len(name)) + name + bytes(-len(name) % 4)


def over_many_dimensions(count):
    """A classic file with one variable, over `count` dimensions of one position."""
    dims = b"".join(counted(b"d%d" % i) + struct.pack(">i", 1) for i in range(count))
    numbers = b"".join(struct.pack(">i", i) for i in range(count))
    variable = counted(b"v") + struct.pack(">i", count) + numbers + struct.pack(">4i", 0, 0, 4, 4)
    header = b"CDF\x01" + struct.pack(">3i", 0, 10, count) + dims + struct.pack(">4i", 0, 0, 11, 1) + variable
    return header + struct.pack(">2i", len(header) + 4, 7)


def jobs():
    """Of each job its name, its script, and the status, the text and the error that are wanted."""
    numbers, count = as_many(str)
    total = count * (count - 1) // 2
    yield "a long list is summed", f'print(DataArray([{numbers}], dims=["x"]).sum())', 0, f"DataArray - () int64\n{total}\n", ""
    rows, count = as_many(lambda i: "[1]")
    yield "many rows are summed", f'print(DataArray([{rows}], dims=["y", "x"]).sum())', 0, f"DataArray - () int64\n{count}\n", ""
    keyed, count = as_many(lambda i: f"k{i:06}=1", KEYWORDS)
    lines = "".join(f"coord k{i:06} int64 (): 1\n" for i in range(count))
    attrs = "".join(f"attr k{i:06} int: 1\n" for i in range(count))
    yield "an array takes many coordinates", f"{BARE}print(a.assign_coords({keyed}).isel(x=1))", 0, f"DataArray - () int64\n2\n{lines}", ""
    yield "an array with many coordinates is no dataset", f'{BARE}b = a.assign_coords({keyed}).to_dataset(name="v")', 1, "", "xrs: statement 2: F22 too large\n"
    yield "a dataset takes no more coordinates than it may have", f"{SET}e = d.assign_coords({keyed})", 1, "", "xrs: statement 3: F22 too large\n"
    yield "an array takes many attributes", f"{BARE}b = a.assign_attrs({keyed})\nprint(b)", 0, f"DataArray - (x: 2) int64\n1 2\n{attrs}", ""
    yield "a dataset takes many attributes", f"{SET}e = d.assign_attrs({keyed})\nprint(1)", 0, "1\n", ""
    yield "the first of many dimensions isn't there", f"{BARE}b = a.isel({keyed})", 1, "", "xrs: statement 2: F3 no dimension k000000\n"
    yield "many keywords that a call hasn't", f"{BARE}b = a.sum({keyed})", 1, "", "xrs: statement 2: F5 bad argument\n"
    yield "a variable over very many dimensions isn't loaded", 'print(open_dataset("many.nc"))', 0, "Dataset\nskipped v\n", ""
    names, _ = as_many(lambda i: f'"k{i}"')
    yield "the first of many names isn't there", f"{BARE}b = a.drop_vars([{names}])", 1, "", "xrs: statement 2: F2 no variable k0\n"
    labels, count = as_many(str)
    labelled = 'a = DataArray([1, 2], dims=["x"], coords={"x": [1, 2]})\n'
    yield "many new labels are filled", f"{labelled}print(a.reindex(x=[{labels}], fill_value=3).sum())", 0, f"DataArray - () int64\n{3 * count - 3}\n", ""
    places, count = as_many(lambda i: "1")
    yield "one label is selected many times", f"{labelled}print(a.sel(x=[{places}]).sum())", 0, f"DataArray - () int64\n{count}\n", ""
    yield "one position is selected many times", f"{labelled}print(a.isel(x=[{places}]).sum())", 0, f"DataArray - () int64\n{2 * count}\n", ""
    parts, count = as_many(lambda i: "a", PUT_TOGETHER)
    single = "a = DataArray(3, dims=[])\n"
    yield "many arrays are put side by side", f'{single}print(concat([{parts}], "x").sum())', 0, f"DataArray - () int64\n{3 * count}\n", ""
    parts, count = as_many(lambda i: "a", 2_000)
    yield "many arrays are put end to end", f'{labelled}print(concat([{parts}], "x").sum())', 0, f"DataArray - () int64\n{3 * count}\n", ""
    sets, count = as_many(lambda i: "d", MERGED)
    single += 'd = a.to_dataset(name="v")\n'
    yield "many datasets are merged", f'{single}print(merge([{sets}])["v"])', 0, "DataArray v () int64\n3\n", ""
    sets, count = as_many(lambda i: "d", ALIGNED)
    single = labelled + 'd = a.to_dataset(name="v")\n'
    yield "many datasets at one place", f"{single}print(combine_by_coords([{sets}]))", 1, "", "xrs: statement 3: F15 conflicting values\n"
    names = ", ".join(f"t{i}" for i in range(TILES))
    labels = ", ".join(map(str, range(TILES)))
    tiles = "".join(f"t{i} = d.isel(x=[{i}])\n" for i in range(TILES))
    long = f'd = DataArray([{labels}], dims=["x"], coords={{"x": [{labels}]}}).to_dataset(name="v")\n'
    total = TILES * (TILES - 1) // 2
    yield "many tiles are combined", f'{long}{tiles}print(combine_by_coords([{names}])["v"].sum())', 0, f"DataArray v () int64\n{total}\n", ""
    entries, count = as_many(lambda i: f'"k{i:06}": 1', KEYWORDS)
    lines = "".join(f"coord k{i:06} int64 (): 1\n" for i in range(count))
    yield "an array is written out with many coordinates", f'print(DataArray([1], dims=["x"], coords={{{entries}}}))', 0, f"DataArray - (x: 1) int64\n1\n{lines}", ""
    names, _ = as_many(lambda i: "p", ALIGNED)
    values, _ = as_many(lambda i: "a", ALIGNED)
    yield "many arrays are aligned", f'{labelled}{names} = align({values})\nprint(p.sum())', 0, "DataArray - () int64\n3\n", ""


def main():
    program = os.path.abspath(sys.argv[1])
    wrong = 0
    with tempfile.TemporaryDirectory() as folder:
        with open(os.path.join(folder, "many.nc"), "wb") as f:
            f.write(over_many_dimensions(200_000))
        for name, script, status, text, error in jobs():
            assert len(script) <= MOST_BYTES, name
            with open(os.path.join(folder, "s.xrs"), "w") as f:
                f.write(script)
            try:
                run = subprocess.run([program, "s.xrs"], cwd=folder, capture_output=True, text=True, timeout=SECONDS)
            except subprocess.TimeoutExpired:
                print(f"large: {name}: took more than {SECONDS} seconds")
                wrong += 1
                continue
            if (run.returncode, run.stdout, run.stderr) != (status, text, error):
                print(f"large: {name}: {run.returncode} {run.stdout[:200]!r} {run.stderr[:200]!r}")
                wrong += 1
    print(f"large: {wrong} wrong")
    return 1 if wrong else 0


if __name__ == "__main__":
    sys.exit(main())
