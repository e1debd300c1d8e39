#!/usr/bin/env python3
"""Measures the reader of classic files beside xarray, nccopy and CDO, in one run, and prints ratios.

    bench/reader.py [PROGRAM] [--times N]

PROGRAM is the proved `reader_times`. The first job walks headers of 250, 500, 1,000 and 2,000 variables with 100 attributes
each: a walk in linear time takes as long for each attribute. The second reads small files whose variables all have the
same values, and says what memory that takes. The third reads a file of 250 MiB with 1,000 record variables, whole:
beside xarray's load inside a running Python, and beside nccopy and CDO as whole processes, which also write what they
read. Each is run N times (five by default), ours and the peers' in turn, and the least counts. A ratio above 1 says
that the program is that many times faster than the peer. Peers that aren't installed are left out, and the output says
so.
"""
import os
import shutil
import subprocess
import sys
import tempfile
import time

from setting import PYTHON, begin

VARIABLES, RECORDS, INTS = 1000, 1024, 64

LOAD = """
import time, xarray
start = time.perf_counter()
xarray.open_dataset("r.nc", engine="netcdf4").load()
print(time.perf_counter() - start)
"""


def word(n):
    return n.to_bytes(4, "big")


def text(name):
    data = name.encode()
    return word(len(data)) + data + bytes(-len(data) % 4)


def header(numrecs, dims, variables):
    """A header of version 1: `variables` are a name, dimension numbers, attributes by name, bytes of values, and where
    they begin behind the header."""
    def made(start):
        parts = [b"CDF\x01", word(numrecs), word(10), word(len(dims))]
        parts += [text(name) + word(n) for name, n in dims] + [word(0) * 2, word(11), word(len(variables))]
        for name, numbers, attrs, size, begin in variables:
            parts += [text(name), word(len(numbers)), *map(word, numbers)]
            parts += [word(12 if attrs else 0), word(len(attrs))]
            parts += [text(a) + word(4) + word(1) + word(i) for i, a in enumerate(attrs)]
            parts += [word(4), word(size), word(start + begin)]
        return b"".join(parts)
    return made(len(made(0)))


def write_records(path):
    size = 4 * INTS
    variables = [(f"v{i}", [0, 1], [], size, i * size) for i in range(VARIABLES)]
    cells = b"".join(((i * 31) % 1009 - 504).to_bytes(4, "big", signed=True) for i in range(VARIABLES * INTS))
    with open(path, "wb") as f:
        f.write(header(RECORDS, [("t", 0), ("x", INTS)], variables))
        for _ in range(RECORDS):
            f.write(cells)


def write_header(path, count):
    names = [f"attribute_{i}" for i in range(100)]
    with open(path, "wb") as f:
        f.write(header(0, [("x", 1)], [(f"variable_{i}", [0], names, 4, 0) for i in range(count)]) + word(7))


def write_overlapping(path, count, ints):
    with open(path, "wb") as f:
        f.write(header(0, [("x", ints)], [(f"v{i}", [0], [], 4 * ints, 0) for i in range(count)]) + bytes(4 * ints))


def ours(program, job, path, times=1):
    """Least seconds of the job, seconds of the whole process, its peak memory in MiB, or this script's own where that
    is more, and the seconds that it had a processor."""
    start = time.perf_counter()
    child = subprocess.Popen([program, job, path, str(times)], stdout=subprocess.PIPE)
    told = child.stdout.read().split()
    _, status, usage = os.wait4(child.pid, 0)
    child.returncode = os.waitstatus_to_exitcode(status)
    if child.returncode or len(told) != 2 or told[1] == b"0":
        sys.exit(f"{program} {job} {path} ended with {child.returncode} and {told}")
    return int(told[0]) / 1e9, time.perf_counter() - start, usage.ru_maxrss / 1024, usage.ru_utime + usage.ru_stime


def whole(command, folder):
    start = time.perf_counter()
    subprocess.run(command, cwd=folder, check=True, stdout=subprocess.DEVNULL, stderr=subprocess.DEVNULL)
    return time.perf_counter() - start


def records(program, times, folder):
    path = os.path.join(folder, "r.nc")
    write_records(path)
    inside = subprocess.run([PYTHON, "-c", "import xarray, netCDF4"], capture_output=True).returncode == 0
    tools = {"nccopy, whole": ["nccopy", "r.nc", "out.nc"], "CDO, whole": ["cdo", "-s", "copy", "r.nc", "out.nc"]}
    least, process, memory, peers = [], [], 0.0, {}
    for _ in range(times):
        job, seconds, peak, _ = ours(program, "open", path)
        least.append(job)
        process.append(seconds)
        memory = max(memory, peak)
        if inside:
            told = subprocess.run([PYTHON, "-c", LOAD], cwd=folder, capture_output=True, text=True, check=True)
            peers.setdefault("xarray, in process", []).append(float(told.stdout))
        for name, command in tools.items():
            if shutil.which(command[0]):
                peers.setdefault(name, []).append(whole(command, folder))
    size = os.path.getsize(path) / (1 << 20)
    print(f"read {VARIABLES} record variables: {min(least):.3f} s, whole process {min(process):.3f} s, "
          f"peak {memory:.0f} MiB over a file of {size:.0f} MiB")
    for name, seconds in peers.items():
        mine = min(least) if name.endswith("in process") else min(process)
        print(f"    {name}: {min(seconds):.3f} s, ratio {min(seconds) / mine:.2f}")
    for name in ["xarray, in process", *tools]:
        if name not in peers:
            print(f"    {name}: skipped, it isn't installed")


def headers(program, times, folder):
    for count in (250, 500, 1000, 2000):
        path = os.path.join(folder, "h.nc")
        write_header(path, count)
        # By the time that the process had a processor, of 10 walks more than one: on a busy machine the clock says
        # more of others.
        one, more = (min(ours(program, "head", path, n)[3] for _ in range(times)) for n in (1, 11))
        least = (more - one) / 10
        print(f"walk a header of {count} variables with 100 attributes each: {1e3 * least:.1f} ms, "
              f"{1e9 * least / (100 * count):.0f} ns an attribute")


def overlapping(program, folder):
    for count in (16, 64, 256):
        path = os.path.join(folder, "o.nc")
        write_overlapping(path, count, 1 << 18)
        size = os.path.getsize(path) / (1 << 20)
        read, head = ours(program, "read", path)[2], ours(program, "head", path)[2]
        print(f"{count} variables with the same values: file {size:.2f} MiB, peak {read:.0f} MiB with their values, "
              f"{head:.0f} MiB without")


def main():
    program, times = begin("reader_times", 5)
    with tempfile.TemporaryDirectory() as folder:
        headers(program, times, folder)
        overlapping(program, folder)
        records(program, times, folder)


main()
