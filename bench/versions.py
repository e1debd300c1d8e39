#!/usr/bin/env python3
"""Measures what version 5 of classic files costs beside version 2: the same contents, read and written in both.

    bench/versions.py [PROGRAM] [--times N]

PROGRAM is the proved `xrs`. Each job is a whole process; the two versions are run N times (seven by default) in turn, and
the least of each counts. A ratio above 1 says that version 5 is that many times faster than version 2; two runs of one
version differ by a tenth and more. What is printed is compared, and so is what is read from the files that are written.
"""
import os
import subprocess
import sys
import tempfile
import time

from setting import begin

VERSIONS = {2: "NETCDF3_64BIT", 5: "NETCDF3_64BIT_DATA"}


def word(n):
    return n.to_bytes(4, "big")


def made(version, numrecs, dims, variables):
    """A file: `dims` are names and lengths, 0 marking the records; `variables` a name, dimension numbers, attributes by name, and
    ints as bytes, of a record variable those of one record, which all records repeat."""
    def count(n):
        return n.to_bytes(8 if version == 5 else 4, "big")

    def text(name):
        data = name.encode()
        return count(len(data)) + data + bytes(-len(data) % 4)

    def listed(tag, items):
        return word(tag if items else 0) + count(len(items)) + b"".join(items)

    def head(begins):
        entries = []
        for (name, ids, attrs, cells), begin in zip(variables, begins):
            own = [text(a) + word(4) + count(1) + word(i) for i, a in enumerate(attrs)]
            entries.append(text(name) + count(len(ids)) + b"".join(map(count, ids)) + listed(12, own) + word(4) + count(len(cells)) + begin.to_bytes(8, "big"))
        return b"CDF" + bytes([version]) + count(numrecs) + listed(10, [text(n) + count(size) for n, size in dims]) + listed(12, []) + listed(11, entries)

    at, begins = len(head([0] * len(variables))), []
    of_records = [bool(ids) and dims[ids[0]][1] == 0 for _, ids, _, _ in variables]
    for wanted in (False, True):
        for i, (_, _, _, cells) in enumerate(variables):
            if of_records[i] == wanted:
                begins.append((i, at))
                at += len(cells)
    fixed, records = (b"".join(v[3] for v, it in zip(variables, of_records) if it == wanted) for wanted in (False, True))
    return head([begin for _, begin in sorted(begins)]) + fixed + records * numrecs


def ints(n):
    return (b"".join(((i * 31) % 1009).to_bytes(4, "big") for i in range(1009)) * (n // 1009 + 1))[:4 * n]


# The contents of a job by the version, and the variable whose sum is printed.
CONTENTS = {
    "16 million ints in one variable": lambda version: made(version, 0, [("x", 1 << 24)], [("v", [0], [], ints(1 << 24))]),
    "16 million ints in 64 variables of 1,024 records": lambda version: made(
        version, 1024, [("t", 0), ("x", 256)], [(f"v{i}" if i else "v", [0, 1], [], ints(256)) for i in range(64)]),
    "a header of 1,000 variables with 20 attributes each": lambda version: made(
        version, 0, [("x", 1)], [(f"v{i}" if i else "v", [0], [f"attribute_{k}" for k in range(20)], word(7)) for i in range(1000)]),
}


def run(program, script, folder):
    """Seconds of a whole process, and what it printed. What an earlier run wrote is removed first."""
    if os.path.exists(os.path.join(folder, "w.nc")):
        os.remove(os.path.join(folder, "w.nc"))
    with open(os.path.join(folder, "s.xrs"), "w") as f:
        f.write(script)
    start = time.perf_counter()
    ran = subprocess.run([program, "s.xrs"], cwd=folder, capture_output=True, text=True)
    seconds = time.perf_counter() - start
    if ran.returncode:
        sys.exit(f"{program} ended with {ran.returncode}: {ran.stderr}")
    return seconds, ran.stdout


def compare(what, program, scripts, folder, times):
    """Runs the scripts of both versions in turn, and prints the least of each."""
    seconds, printed = {version: [] for version in scripts}, set()
    for _ in range(times):
        for version, script in scripts.items():
            took, text = run(program, script, folder)
            seconds[version].append(took)
            printed.add(text)
    if len(printed) > 1:
        sys.exit(f"{what}: the versions print different texts")
    two, five = (min(seconds[version]) for version in (2, 5))
    print(f"{what}: version 2 {two:.3f} s, version 5 {five:.3f} s, ratio {two / five:.2f}", flush=True)


def main():
    program, times = begin("xrs", 7)
    for what, make in CONTENTS.items():
        with tempfile.TemporaryDirectory() as folder:
            for version in VERSIONS:
                with open(os.path.join(folder, f"a{version}.nc"), "wb") as f:
                    f.write(make(version))
            compare(f"read {what}", program, {version: f'print(open_dataset("a{version}.nc")["v"].sum())\n' for version in VERSIONS}, folder, times)
            written = 'open_dataset("a2.nc").to_netcdf("w.nc", format="{}")\n'
            compare(f"write {what}", program, {version: written.format(name) for version, name in VERSIONS.items()}, folder, times)
            sums = {run(program, written.format(name) + 'print(open_dataset("w.nc")["v"].sum())\n', folder)[1] for name in VERSIONS.values()}
            if len(sums) > 1:
                sys.exit(f"{what}: other cells are read from the one version than from the other")


main()
