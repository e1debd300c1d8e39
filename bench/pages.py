#!/usr/bin/env python3
"""Says what the size of memory pages does to the sum of 2^25 ints, in the program and in numpy.

    bench/pages.py [PROGRAM] [--times N]

The file's 128 MiB are read into fresh memory, and the first touch of each page of 4 KiB is dearer than the reading and
the sum. numpy asks the kernel for pages of 2 MiB, and a C library can be told to. Each of the four is run N times (nine
by default) in turn, and the least counts. The time is that of a processor, user and system, so that other work on the machine
counts little: of the whole process for the program, and of the sum inside a running Python for numpy.
"""
import os
import subprocess
import sys
import tempfile

from setting import PYTHON, begin

HUGE, SMALL = "pages of 2 MiB", "pages of 4 KiB"

NUMPY = """
import time
import numpy as np
start = time.process_time()
total = int(np.fromfile("v.nc", ">i4", offset=80).sum(dtype="i8"))
print(time.process_time() - start)
"""


def write_ints(path, count):
    def word(n):
        return n.to_bytes(4, "big")
    head = b"CDF\x01" + word(0) + word(10) + word(1) + word(1) + b"x\0\0\0" + word(count) + word(0) * 2
    head += word(11) + word(1) + word(1) + b"v\0\0\0" + word(1) + word(0) * 3 + word(4) + word(4 * count) + word(80)
    block = b"".join(((i * 31) % 1009 - 504).to_bytes(4, "big", signed=True) for i in range(1 << 18))
    with open(path, "wb") as f:
        f.write(head)
        for _ in range(count >> 18):
            f.write(block)


def ours(program, folder, tunables):
    """Processor seconds of the program, and how many pages it touched first."""
    child = subprocess.Popen([program, "s.xrs"], cwd=folder, stdout=subprocess.DEVNULL, env={"GLIBC_TUNABLES": tunables})
    _, status, usage = os.wait4(child.pid, 0)
    child.returncode = os.waitstatus_to_exitcode(status)
    if child.returncode:
        sys.exit(f"{program} ended with {child.returncode}")
    return usage.ru_utime + usage.ru_stime, usage.ru_minflt


def numpys(folder, huge):
    ran = subprocess.run([PYTHON, "-c", NUMPY], cwd=folder, capture_output=True, text=True,
                         env={"NUMPY_MADVISE_HUGEPAGE": huge})
    return float(ran.stdout) if ran.returncode == 0 else None


def main():
    program, times = begin("xrs", 9)
    with tempfile.TemporaryDirectory() as folder:
        write_ints(os.path.join(folder, "v.nc"), 1 << 25)
        with open(os.path.join(folder, "s.xrs"), "w") as f:
            f.write('print(open_dataset("v.nc")["v"].sum())\n')
        mine, faults, peers = {SMALL: [], HUGE: []}, {}, {SMALL: [], HUGE: []}
        for _ in range(times):
            for pages, tunables, huge in ((SMALL, "", "0"), (HUGE, "glibc.malloc.hugetlb=1", "1")):
                seconds, faults[pages] = ours(program, folder, tunables)
                mine[pages].append(seconds)
                peers[pages].append(numpys(folder, huge))
    for pages in (SMALL, HUGE):
        least = min(mine[pages])
        print(f"{pages}: {least:.3f} s, {faults[pages]} first touches")
        if None in peers[pages]:
            print("    numpy: skipped, it isn't installed")
        else:
            print(f"    numpy: {min(peers[pages]):.3f} s, ratio {min(peers[pages]) / least:.2f}")


main()
