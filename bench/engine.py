#!/usr/bin/env python3
"""Measures the engine's crates beside numpy, numpy.ma and pandas, in one run, and prints ratios.

    bench/engine.py [PROGRAM] [--times N]

PROGRAM is the proved `engine_times`; each job is run N times (seven by default) inside one process, ours and the
peer's in turn three times over, and the least counts. A ratio above 1 says that the engine is that many times faster.
Peers that aren't installed are left out, and the output says so. Debian has them as python3-numpy and python3-pandas.
"""
import subprocess

from setting import PYTHON, begin

CELLS = "a = ((np.arange(n, dtype='i8') * 31) % 1009 - 504).astype('i4')"
MASKED = CELLS + "\na = np.ma.MaskedArray(a, mask=np.arange(n) % 7 == 0)"
ASCENDING = "x = np.arange(n, dtype='i8')"
OPERANDS = """
def spread(k, by):
    x = ((k * by) % 1009 - 504).astype('i4')
    x[x == 0] = 7
    return x
k = np.arange(n, dtype='i8')
a, b, c = spread(k, 31), spread(k, 77), (k + 3) % 7 == 0
o, t, w = np.zeros(n, 'i4'), np.zeros(n, bool), np.zeros(n, 'i8')
"""
UNSIGNED = CELLS.replace(" - 504", "").replace("'i4'", "'u4'")
UNSIGNED_MASKED = UNSIGNED + "\na = np.ma.MaskedArray(a, mask=np.arange(n) % 7 == 0)"
UNSIGNED_OPERANDS = OPERANDS.replace(" - 504", "").replace("'i4'", "'u4'")
MASKED_OPERANDS = OPERANDS + """
a, b, c = np.ma.MaskedArray(a, mask=k % 7 == 0), np.ma.MaskedArray(b, mask=(k + 2) % 7 == 0), np.ma.MaskedArray(c, mask=(k + 4) % 7 == 0)
"""
UNSIGNED_MASKED_OPERANDS = MASKED_OPERANDS.replace(" - 504", "").replace("'i4'", "'u4'")
ROWS = OPERANDS + """
m = n // 3
o, t, w = o[:3 * m].reshape(m, 3), t[:3 * m].reshape(m, 3), w[:3 * m].reshape(m, 3)
"""
ROWS_OF_3 = ROWS + "a, b, c = (x[:3 * m].reshape(m, 3) for x in (a, b, c))"
COLUMNS_OF_4 = ROWS + "a, b, c = (np.resize(x, (m, 4))[:, :3] for x in (a, b, c))"
HOURS = "i = pd.DatetimeIndex(np.datetime64('2000-01-01', 'ns') + np.arange(n) * np.timedelta64(1, 'h')); s = pd.Series(0, index=i)"
SCATTERED = "x = (np.arange(n, dtype='u4') * np.uint32(2654435761)).astype('i8')"

# the job's name, the packages of the peer, what it prepares, and what is timed
JOBS = [
    ("sum", "numpy", CELLS, "a.sum(dtype='i8')"),
    ("max", "numpy", CELLS, "a.max()"),
    ("min", "numpy", CELLS, "a.min()"),
    ("count", "numpy", CELLS, "np.count_nonzero(a == a)"),
    ("masked sum", "numpy", MASKED, "a.sum(dtype='i8')"),
    ("masked max", "numpy", MASKED, "a.max()"),
    ("masked min", "numpy", MASKED, "a.min()"),
    ("masked count", "numpy", MASKED, "a.count()"),
    ("scan", "numpy", CELLS + "\nb = np.empty(n, 'i8')", "np.cumsum(a, dtype='i8', out=b)"),
    *((job, "numpy", OPERANDS, code) for job, code in [
        ("add", "np.add(a, b, out=o)"),
        ("subtract", "np.subtract(a, b, out=o)"),
        ("multiply", "np.multiply(a, b, out=o)"),
        ("floor divide", "np.floor_divide(a, b, out=o)"),
        ("remainder", "np.remainder(a, b, out=o)"),
        ("and", "np.bitwise_and(a, b, out=o)"),
        ("less", "np.less(a, b, out=t)"),
        ("choose", "np.where(c, a, b)"),
        ("cast", "np.copyto(w, a)"),
        ("line scan", "np.cumsum(a, dtype='i8', out=w)"),
    ]),
    *((f"{job} by 7", "numpy", CELLS + "\no, d = np.zeros(n, 'i4'), np.int32(7)", code) for job, code in [
        ("floor divide", "np.floor_divide(a, d, out=o)"),
        ("remainder", "np.remainder(a, d, out=o)"),
    ]),
    *((f"masked {job}", "numpy", MASKED_OPERANDS, code) for job, code in [
        ("add", "a + b"),
        ("multiply", "a * b"),
        ("floor divide", "a // b"),
        ("and", "a & b"),
        ("less", "a < b"),
        ("choose", "np.ma.where(c, a, b)"),
        ("cast", "a.astype('i8')"),
        ("line scan", "a.cumsum(dtype='i8')"),
    ]),
    *((f"unsigned {job}", "numpy", UNSIGNED, code) for job, code in [
        ("sum", "a.sum(dtype='u8')"),
        ("max", "a.max()"),
        ("min", "a.min()"),
    ]),
    *((f"unsigned masked {job}", "numpy", UNSIGNED_MASKED, code) for job, code in [
        ("sum", "a.sum(dtype='u8')"),
        ("max", "a.max()"),
    ]),
    *((f"unsigned {job}", "numpy", UNSIGNED_OPERANDS, code) for job, code in [
        ("add", "np.add(a, b, out=o)"),
        ("multiply", "np.multiply(a, b, out=o)"),
        ("floor divide", "np.floor_divide(a, b, out=o)"),
        ("remainder", "np.remainder(a, b, out=o)"),
        ("and", "np.bitwise_and(a, b, out=o)"),
        ("less", "np.less(a, b, out=t)"),
        ("choose", "np.where(c, a, b)"),
        ("cast", "np.copyto(w, a)"),
    ]),
    *((f"unsigned masked {job}", "numpy", UNSIGNED_MASKED_OPERANDS, code) for job, code in [
        ("add", "a + b"),
        ("multiply", "a * b"),
        ("floor divide", "a // b"),
        ("less", "a < b"),
        ("choose", "np.ma.where(c, a, b)"),
    ]),
    *((f"{rows}: {job}", "numpy", before, code)
      for rows, before in [("rows of 3", ROWS_OF_3), ("3 columns of 4", COLUMNS_OF_4)]
      for job, code in [
        ("add", "np.add(a, b, out=o)"),
        ("less", "np.less(a, b, out=t)"),
        ("choose", "np.where(c, a, b)"),
    ]),
    ("index ascending", "numpy, pandas", ASCENDING, "i = pd.Index(x); i.is_unique; i.is_monotonic_increasing"),
    ("index scattered", "numpy, pandas", SCATTERED, "i = pd.Index(x); i.is_unique; i.is_monotonic_increasing"),
    ("find ascending", "numpy, pandas", ASCENDING + "\ni = pd.Index(x); q = x[::-1].copy(); i.get_indexer(q[:1])", "i.get_indexer(q)"),
    ("find scattered", "numpy, pandas", SCATTERED + "\ni = pd.Index(x); q = x[::-1].copy(); i.get_indexer(q[:1])", "i.get_indexer(q)"),
    ("month", "numpy, pandas", HOURS, "i.month"),
    ("day of year", "numpy, pandas", HOURS, "i.day_of_year"),
    ("hour", "numpy, pandas", HOURS, "i.hour"),
    # the starts of the bins, and for each label the place of its bin
    ("bins of 6h", "numpy, pandas", HOURS, "g = s.resample('6H').grouper; g.binlabels; g.group_info[0]"),
    ("bins of months", "numpy, pandas", HOURS, "g = s.resample('MS').grouper; g.binlabels; g.group_info[0]"),
]

ROUNDS = 3
SIZES = {job: [1_000_000] for job, packages, _, _ in JOBS if "pandas" in packages}

TIMED = """
import time
import {packages}
{aliases}
n = {n}
{before}
least = float("inf")
for _ in range({times}):
    start = time.perf_counter()
    {code}
    least = min(least, time.perf_counter() - start)
print(least)
"""


def peer(packages, before, code, n, times):
    aliases = "import numpy as np" + ("\nimport pandas as pd" if "pandas" in packages else "")
    text = TIMED.format(packages=packages, aliases=aliases, n=n, before=before, times=times, code=code)
    ran = subprocess.run([PYTHON, "-W", "ignore", "-c", text], capture_output=True, text=True)
    return float(ran.stdout) if ran.returncode == 0 else None


def ours(program, job, n, times):
    ran = subprocess.run([program, job, str(n), str(times)], capture_output=True, text=True, check=True)
    return int(ran.stdout.split()[0]) / 1e9


def main():
    program, times = begin("engine_times", 7)
    for job, packages, before, code in JOBS:
        for n in SIZES.get(job, [1 << 22, 1 << 25]):
            rounds = [(ours(program, job, n, times), peer(packages, before, code, n, times)) for _ in range(ROUNDS)]
            least = min(mine for mine, _ in rounds)
            theirs = min(theirs or 0 for _, theirs in rounds)
            line = f"{job}, {n} cells: {least * 1000:.2f} ms"
            print(line + (f"; {packages} {theirs * 1000:.2f} ms, ratio {theirs / least:.2f}" if theirs else f"; skipped, {packages} isn't installed"))


main()
