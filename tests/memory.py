#!/usr/bin/env python3
"""Runs scripts over files that come to many times the memory that they may take: what no name reaches is given up between statements.

    memory.py PROGRAM

Each has to print sums that are worked out here, and to take no more memory than the files that its names reach, those that one
statement opens, and 24 MiB.
"""
import os
import struct
import sys
import tempfile

from driving import Driver

MIB = 1 << 20
# (What is larger than 32 MiB the C library hands back as soon as it is given up.)
CELLS = 9 * MIB
SIZE = 4 * CELLS
SPARE = 24 * MIB
CHUNK = 1 << 16
OPENINGS, FILES = 20, 12


def counted(name):
    return struct.pack(">i", len(name)) + name + bytes(-len(name) % 4)


def head_of(cells):
    """The header of a classic file with one variable `v` of so many ints over `x`."""
    head = b"CDF\x01" + struct.pack(">3i", 0, 10, 1) + counted(b"x") + struct.pack(">3i", cells, 0, 0)
    head += struct.pack(">2i", 11, 1) + counted(b"v") + struct.pack(">6i", 1, 0, 0, 0, 4, 4 * cells)
    return head + struct.pack(">i", len(head) + 4)


def write_repeated(path, first, by):
    """Writes a file of the size above whose cells are `first` and then `by`, again and again, and returns their sum. It is written in
    pieces, since the peak that the system tells of a program begins with what the process that starts it holds."""
    piece, rest = struct.pack(">i", by) * CHUNK, CELLS - 1
    with open(path, "wb") as f:
        f.write(head_of(CELLS) + struct.pack(">i", first))
        while rest:
            count = min(rest, CHUNK)
            f.write(piece[:4 * count])
            rest -= count
    return first + by * (CELLS - 1)


def summed(total):
    return f"DataArray v () int64\n{total}\n"


def jobs(driver):
    """Of each job its name, its script, what it has to print, and how many files it may hold."""
    totals = []
    for i in range(FILES):
        totals.append(write_repeated(driver.path(f"f{i:02}.nc"), 1000 * i, i - 5))
    with open(driver.path("small.nc"), "wb") as f:
        f.write(head_of(3) + struct.pack(">3i", 1, 2, 3))
    again = 'a = open_dataset("f00.nc")["v"]\n' * OPENINGS
    yield "a file opened again and again under one name", again + "print(a.sum())\n", summed(totals[0]), 2
    yield "a dataset opened again and again under one name", 'd = open_dataset("f01.nc")\n' * OPENINGS + 'print(d["v"].sum())\n', summed(totals[1]), 2
    yield "files opened for one statement", 'print(open_dataset("f02.nc")["v"].sum())\n' * OPENINGS, summed(totals[2]) * OPENINGS, 2
    each = "".join(f'a = open_dataset("f{i:02}.nc")["v"].sum()\nprint(a)\n' for i in range(FILES))
    yield "files read, reduced and bound to a name again", each, "".join(map(summed, totals)), 2
    grouped = ('b = open_dataset("f03.nc")["v"]\ng = b.isel(x=slice(0, 4)).rolling(x=2, min_periods=1)\n'
               + 's = [open_dataset("small.nc"), open_dataset("small.nc")]\nb = 0\n' + again
               + 'print(g.sum().max())\nprint(concat(s, "x")["v"].sum())\n')
    # the windows of the first four cells give 3000, 2998, -4 and -4
    yield "a file that grouped values reach, and one that a list reaches", grouped, summed(3000) + summed(12), 3
    small = ('d = open_dataset("small.nc")\n' + again + 'DataArray([9, 9, 9, 9], ["x"], name="v").to_netcdf("small.nc")\n' + again
             + 'print(d["v"])\nd.to_netcdf("w.nc")\nprint(open_dataset("w.nc")["v"].sum())\nprint(open_dataset("small.nc")["v"].sum())\n')
    yield "a dataset whose file is written over meanwhile", small, "DataArray v (x: 3) int32\n1 2 3\n" + summed(6) + summed(36), 2


def main():
    with tempfile.TemporaryDirectory() as folder:
        driver = Driver(sys.argv[1], folder)
        os.chdir(folder)
        for name, script, text, files in jobs(driver):
            run = driver.run(script)
            most = (files * SIZE + SPARE) // 1024
            if run.late or run.signal or run.status:
                driver.fail(name, f"ended with {run.status}, signal {run.signal}", run)
            elif run.out.decode() != text:
                driver.fail(name, "prints something else", run)
            elif run.peak_kib > most:
                driver.fail(name, f"took {run.peak_kib // 1024} MiB, more than {most // 1024}")
        for line in driver.wrong:
            print(f"memory: {line}")
        print(f"memory: {len(driver.wrong)} wrong")
        return 1 if driver.wrong else 0


if __name__ == "__main__":
    sys.exit(main())
