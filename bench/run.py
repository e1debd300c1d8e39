#!/usr/bin/env python3
"""Measures the proved program beside xarray, numpy, NCO and CDO, in one run, compares their answers and prints ratios.

    bench/run.py [PROGRAM] [--times N] [--only WORD]

Each job is timed N times (five by default), ours and the peers' in turn, and the least of each counts. The files are warm:
they were written just before. `in process` is measured inside Python, after its imports; `whole` is the whole process.
A ratio above 1 says that the program is that many times faster than the peer; one between 0.9 and 1.1 counts as level. What a
peer prints or writes is compared with what the program prints or writes; a peer whose answer differs is named.
Peers that aren't installed are left out, and the output says so.
Debian has them as python3-numpy, python3-scipy, python3-xarray, python3-netcdf4, nco and cdo.
"""
import os
import shutil
import subprocess
import sys
import tempfile
from dataclasses import dataclass, field

from setting import PYTHON, begin

OUTPUTS = ["n.nc", "w.nc", "x.nc", "m.nc"]
TIMES, ROWS, COLUMNS = 3355, 100, 100


def padded(data):
    return data + bytes(-len(data) % 4)


def word(n):
    return n.to_bytes(4, "big")


def text(s):
    return word(len(s)) + padded(s.encode())


def text_attr(name, value):
    return text(name) + word(2) + text(value)


def short_attr(name, n):
    return text(name) + word(3) + word(1) + padded(n.to_bytes(2, "big", signed=True))


def tagged(tag, items):
    return word(tag) + word(len(items)) + b"".join(items) if items else word(0) * 2


def ints(numbers):
    return b"".join(n.to_bytes(4, "big", signed=True) for n in numbers)


def shorts(count, by):
    """So many shorts from 0 to 1008; they repeat after 1009 of them."""
    some = b"".join(((i * by) % 1009).to_bytes(2, "big") for i in range(1009))
    return (some * (count // 1009 + 1))[:2 * count]


def flat(path, count):
    """2^25 ints along one dimension without labels."""
    head = b"CDF\x01" + word(0) + tagged(10, [text("x") + word(count)]) + word(0) * 2
    entry = text("v") + word(1) + word(0) + word(0) * 2 + word(4) + word(4 * count)
    head += word(11) + word(1) + entry
    block = b"".join(((i * 31) % 1009 - 504).to_bytes(4, "big", signed=True) for i in range(1009)) * 64
    with open(path, "wb") as f:
        f.write(head + word(len(head) + 4))
        left = 4 * count
        while left > 0:
            f.write(block[:left])
            left -= min(left, len(block))


def grid(path, by=31, records=True, first=0, version=2, times=TIMES, y=range(ROWS), x=range(COLUMNS), own="v"):
    """Shorts over time, y and x with labels, 33 million where nothing else is said, time being the record dimension or a fixed one; 7
    stands for a missing cell. Labels of time are days from `first` on. Versions 1 and 2; another library makes those of version 5."""
    dims = [text("time") + word(0 if records else times), text("y") + word(len(y)), text("x") + word(len(x))]
    days = text_attr("units", "days since 2000-01-01")
    table = 2 * len(y) * len(x)
    cells = shorts(times * len(y) * len(x), by)
    variables = [("y", [1], [], ints(y), False), ("x", [2], [], ints(x), False), ("time", [0], [days], ints(range(first, first + times)), True),
                 (own, [0, 1, 2], [short_attr("_FillValue", 7)], cells, True)]
    size = {"y": 4 * len(y), "x": 4 * len(x), "time": 4 if records else 4 * times, own: table if records else table * times}
    wide = 8 if version == 2 else 4

    def head(begins):
        entries = []
        for name, ids, attrs, _, _ in variables:
            kind = 3 if name == own else 4
            entries.append(text(name) + word(len(ids)) + b"".join(map(word, ids)) + tagged(12, attrs) + word(kind) + word(size[name])
                           + begins.get(name, 0).to_bytes(wide, "big"))
        return b"CDF" + bytes([version]) + word(times if records else 0) + tagged(10, dims) + word(0) * 2 + tagged(11, entries)

    at, begins = len(head({})), {}
    for name, _, _, _, _ in variables:
        begins[name] = at
        at += size[name]
    with open(path, "wb") as f:
        f.write(head(begins))
        labels = ints(range(first, first + times))
        f.write(variables[0][3] + variables[1][3])
        if records:
            for i in range(times):
                f.write(labels[4 * i:4 * i + 4] + cells[table * i:table * (i + 1)])
        else:
            f.write(labels + cells)


def as_version_5(path):
    grid(path + ".2")
    if shutil.which("nccopy"):
        subprocess.run(["nccopy", "-k", "cdf5", path + ".2", path], check=True)
    os.remove(path + ".2")


A = {"a.nc": grid}
AB = {"a.nc": grid, "b.nc": lambda path: grid(path, by=77)}
HALF_LATER = {"a.nc": grid, "b.nc": lambda path: grid(path, by=77, first=TIMES // 2)}


@dataclass
class Job:
    """A script over files, and what the peers do: Python in a process that has imported it, Python as a whole, and tools."""
    name: str
    files: dict
    script: str
    inside: str = ""
    python: str = ""
    tools: list = field(default_factory=list)
    needs: str = "xarray"
    # what is compared: the last line that is printed, the variables `v` of the file that is written, or nothing
    answer: str = "print"


def opened(names, masked):
    return "\n".join(f'{n} = open_dataset("{n}.nc"{", mask=True" if masked else ""})["v"]' for n in names) + "\n"


def opened_by_xarray(names, masked, dated):
    flag = "" if masked else ", mask_and_scale=False"
    return "\n".join(f'{n} = xarray.open_dataset("{n}.nc", decode_times={dated}, engine="scipy"{flag})["v"]' for n in names) + "\n"


def over(name, files, names, ours, theirs=None, tools=(), masked=False, answer="print", dated=False):
    """Statements over variables `v` of files, and the same in xarray: `ours` and `theirs` are expressions."""
    theirs = theirs or ours
    if answer == "print":
        script = f"print({ours})\n"
        code = f"answer = int({theirs})"
    else:
        fill = ", fill_value=7" if masked else ""
        script = f'r = {ours}\nr.to_netcdf("w.nc", format="NETCDF3_64BIT"{fill})\n'
        code = f'r = {theirs}\nr.to_netcdf("x.nc", format="NETCDF3_64BIT", engine="scipy")\nanswer = "written"'
    return Job(name + (", with missing cells" if masked else ""), files, opened(names, masked) + script,
               inside=opened_by_xarray(names, masked, dated) + code, tools=list(tools), answer=answer)


def sh(*commands):
    return ["sh", "-c", " && ".join(commands)]


def together(name, files, ours, theirs, tools):
    """A dataset of all files, written: `ours` and `theirs` are calls with FILES in place of the list of datasets."""
    names = list(files)
    opened = ", ".join(f'open_dataset("{n}")' for n in names)
    code = (f'files = [xarray.open_dataset(n, decode_times=False, mask_and_scale=False, engine="scipy") for n in {names}]\n'
            f'd = {theirs.replace("FILES", "files")}\nd.to_netcdf("x.nc", format="NETCDF3_64BIT", engine="scipy", unlimited_dims=["time"])\nanswer = "written"')
    script = f'r = {ours.replace("FILES", f"[{opened}]")}\nr.to_netcdf("w.nc", format="NETCDF3_64BIT", unlimited_dims="time")\n'
    return Job(name, files, script, inside=code, python="import xarray\n" + code, tools=tools, answer="written")


NCO_HALF = f"ncks -O -v v -d time,800,{800 + TIMES // 2 - 1} a.nc n.nc"
HALF = f"a.isel(time=slice(800, {800 + TIMES // 2}))"


def both(make):
    return [job for masked in (False, True) for job in make(masked)]


# Files that a script opens one after the other, of 10 million cells each.
DECADES = {f"a{k:02}.nc": lambda path, k=k: grid(path, by=31 + k, first=1000 * k, times=1000) for k in range(12)}
# Months of 2.8 million cells, and small files of a thousand: as many as a statement opens, but for some.
MONTHS = {f"a{k:02}.nc": lambda path, k=k: grid(path, by=31 + k, first=279 * k, times=279) for k in range(12)}
SMALL_FILES = {f"a{k:03}.nc": lambda path, k=k: grid(path, by=31 + k, first=10 * k, times=10, y=range(10), x=range(10)) for k in range(200)}
# 4 by 4 tiles, together of 32 million cells.
TILES = {f"t{i}{j}.nc": lambda path, i=i, j=j: grid(path, by=31 + 4 * i + j, times=200, y=range(100 * i, 100 * i + 100), x=range(100 * j, 100 * j + 100))
         for i in range(4) for j in range(4)}
# 20 variables `v`, `v01`, ..
VARIABLES = {f"m{k:02}.nc": lambda path, k=k: grid(path, by=31 + k, times=160, own=f"v{k:02}" if k else "v") for k in range(20)}


JOBS = [
    Job("open and sum 2^25 ints", {"v.nc": lambda path: flat(path, 1 << 25)}, 'print(open_dataset("v.nc")["v"].sum())\n',
        inside='answer = int(np.fromfile("v.nc", ">i4", offset=80).sum(dtype="i8"))', needs="numpy",
        python='import xarray\nprint(int(xarray.open_dataset("v.nc", engine="scipy")["v"].sum()))'),
    Job("open and write 2^25 ints", {"v.nc": lambda path: flat(path, 1 << 25)},
        'o = open_dataset("v.nc")["v"]\no.to_netcdf("w.nc", format="NETCDF3_CLASSIC")\n', answer="written",
        inside='d = xarray.open_dataset("v.nc", engine="scipy").load()\nd.to_netcdf("x.nc", engine="scipy", format="NETCDF3_CLASSIC")\nanswer = "written"'),
    Job("print 10 million cells", {"v.nc": lambda path: flat(path, 10_000_000)}, 'o = open_dataset("v.nc")["v"]\nprint(o)\n', answer="",
        inside='a = np.fromfile("v.nc", ">i4", offset=80)\nopen(os.devnull, "w").write(" ".join(map(str, a.tolist())))\nanswer = ""', needs="numpy"),
    Job("the header of a file with records", A, 'print(open_dataset("a.nc"))\n', answer="", inside='answer = str(xarray.open_dataset("a.nc", engine="scipy"))'),
    Job("the same of version 5", {"a.nc": as_version_5}, 'print(open_dataset("a.nc"))\n', answer="", inside='answer = str(xarray.open_dataset("a.nc", engine="netcdf4"))'),
    *both(lambda m: [over("the sum of a file with records", A, "a", "a.sum()", masked=m)]),
    over("the sum of a file without records", {"a.nc": lambda path: grid(path, records=False)}, "a", "a.sum()"),
    Job("the sum of a file of version 5", {"a.nc": as_version_5}, 'print(open_dataset("a.nc")["v"].sum())\n',
        inside='answer = int(xarray.open_dataset("a.nc", engine="netcdf4", mask_and_scale=False)["v"].sum())'),
    Job("open and write a file of version 5", {"a.nc": as_version_5}, 'o = open_dataset("a.nc")\no.to_netcdf("w.nc")\n', answer="",
        inside='d = xarray.open_dataset("a.nc", engine="netcdf4").load()\nd.to_netcdf("x.nc", engine="netcdf4", format="NETCDF3_64BIT_DATA")\nanswer = ""'),
    Job("open and write a file of version 2", A, 'o = open_dataset("a.nc")\no.to_netcdf("w.nc", format="NETCDF3_64BIT")\n', answer="",
        inside='d = xarray.open_dataset("a.nc", engine="netcdf4").load()\nd.to_netcdf("x.nc", engine="netcdf4", format="NETCDF3_64BIT")\nanswer = ""'),
    *both(lambda m: [over("half the times, written", A, "a", HALF, tools=[sh(NCO_HALF), sh(NCO_HALF, "sync n.nc")], masked=m, answer="written")]),
    over("every second time, written", A, "a", "a.isel(time=slice(0, None, 2))", tools=[sh(f"ncks -O -v v -d time,0,{TIMES - 1},2 a.nc n.nc")], answer="written"),
    over("every second column, written", A, "a", "a.isel(x=slice(0, None, 2))", tools=[sh("ncks -O -v v -d x,0,99,2 a.nc n.nc")], answer="written"),
    over("transposed, written", A, "a", 'a.transpose("x", "y", "time")', tools=[sh("ncpdq -O -v v -a x,y,time a.nc n.nc")], answer="written"),
    over("a slice of labels, its sum", A, "a", "a.sel(y=slice(20, 59)).sum()", tools=[sh("ncks -O -v v -d y,20,59 a.nc m.nc", "ncwa -O -y ttl m.nc n.nc")]),
    *both(lambda m: [
        over("(a + b).sum()", AB, "ab", "(a + b).sum()", masked=m,
             tools=[sh("ncbo -O -v v --op_typ=add a.nc b.nc m.nc", "ncwa -O -y ttl m.nc n.nc"), sh("cdo -s -O -b F64 fldsum -timsum -add a.nc b.nc n.nc")]),
        over("(a * 3 + b) // 2, written", AB, "ab", "(a * 3 + b) // 2", masked=m, answer="written"),
        over("(a > b).sum()", AB, "ab", "(a > b).sum()", masked=m, tools=[sh("cdo -s -O -b F64 fldsum -timsum -gt a.nc b.nc n.nc")]),
        over("a.where(a > b, 0), written", AB, "ab", "a.where(a > b, 0)", masked=m, answer="written"),
        over("a + b where half the labels are shared", HALF_LATER, "ab", "(a + b).sum()", masked=m),
        over("a row added to a table", A, "a", "(a + a.isel(time=0, y=0)).sum()", masked=m),
        over("a chain of ten operators", AB, "ab", "(a + b - a + b - a + b - a + b - a + b - a).sum()", masked=m),
        over("the greatest over time", A, "a", 'a.max("time").sum()', masked=m, tools=[sh("ncwa -O -v v -y max -a time a.nc n.nc"), sh("cdo -s -O timmax a.nc n.nc")]),
        over("the greatest over y", A, "a", 'a.max("y").sum()', masked=m, tools=[sh("ncwa -O -v v -y max -a y a.nc n.nc")]),
        over("the greatest over x", A, "a", 'a.max("x").sum()', masked=m, tools=[sh("ncwa -O -v v -y max -a x a.nc n.nc")]),
        over("the sum over y and x", A, "a", 'a.sum(["y", "x"]).max()', masked=m, tools=[sh("ncwa -O -v v -y ttl -a y,x a.nc n.nc"), sh("cdo -s -O -b F64 fldsum a.nc n.nc")]),
        over("where the least over time is", A, "a", 'a.argmin("time").sum()', masked=m),
        over("running sums over time", A, "a", 'a.cumsum("time").max()', masked=m),
        over("differences over time", A, "a", 'a.diff("time").max()', masked=m, tools=[sh("cdo -s -O deltat a.nc n.nc")]),
        over("the sum of one year, cut out by its date", A, "a", 'a.sel(time=slice("2003", "2003")).sum()', masked=m, dated=True,
             tools=[sh("ncks -O -v v -d time,1096,1460 a.nc m.nc", "ncwa -O -y ttl m.nc n.nc"), sh("cdo -s -O -b F64 fldsum -timsum -selyear,2003 a.nc n.nc")]),
        over("sums by the month of the year", A, "a", 'a.groupby("time.month").sum().max()', masked=m, dated=True, tools=[sh("cdo -s -O -b F64 ymonsum a.nc n.nc")]),
        over("the greatest of each month", A, "a", 'a.resample(time="MS").max().sum()', masked=m, dated=True, tools=[sh("cdo -s -O monmax a.nc n.nc")]),
        over("counts of each ten days", A, "a", 'a.resample(time="10D").count().max()', masked=m, dated=True),
        *[over(f"{what} of {width} times before each", A, "a", f"a.rolling(time={width}, min_periods=1).{call}().sum()", masked=m,
               tools=[sh(f"cdo -s -O -b F64 run{call},{width} a.nc n.nc")]) for what, call in (("sums", "sum"), ("the greatest", "max")) for width in (5, 500)],
        over("sums of 5 cells along x", A, "a", "a.rolling(x=5, min_periods=1).sum().sum()", masked=m),
        over("sums of blocks of 2 by 2", A, "a", 'a.coarsen(y=2, x=2, coord_func="min").sum().max()', "a.coarsen(y=2, x=2).sum().max()", masked=m,
             tools=[sh("cdo -s -O -b F64 gridboxsum,2,2 a.nc n.nc")]),
        over("cells one time later", A, "a", "a.shift(time=1, fill_value=0).sum()", masked=m),
    ]),
    Job("a file opened 40 times under one name, its sum", A, opened("a" * 40, False) + "print(a.sum())\n", inside=opened_by_xarray("a" * 40, False, False) + "answer = int(a.sum())"),
    Job("12 files one after the other, each summed", DECADES, "".join(f'a = open_dataset("{n}")["v"].sum()\nprint(a)\n' for n in DECADES),
        inside=f'for n in {list(DECADES)}:\n    a = xarray.open_dataset(n, decode_times=False, mask_and_scale=False, engine="scipy")["v"].sum()\n    answer = int(a)'),
    *[together(f"{what} end to end, written", files, 'concat(FILES, "time")', 'xarray.concat(FILES, "time", "minimal", "minimal", "equals")',
               [sh(f"ncrcat -O -h {names} n.nc"), sh(f"cdo -s -O cat {names} n.nc")])
      for what, files, names in (("12 files of months", MONTHS, "a??.nc"), ("200 small files", SMALL_FILES, "a???.nc"))],
    together("4 by 4 tiles of a grid combined, written", TILES, "combine_by_coords(FILES)", 'xarray.combine_by_coords(FILES, "equals", "minimal", "minimal")',
             [sh("cdo -s -O collgrid t??.nc n.nc")]),
    together("20 variables of as many files merged, written", VARIABLES, "merge(FILES)", 'xarray.merge(FILES, combine_attrs="drop_conflicts")',
             [sh("cdo -s -O merge m??.nc n.nc")]),
]


# Runs a command, and writes its status, its seconds and its peak memory in KiB into a file: in a process of its own, since a child's
# peak begins with the memory that its parent has.
MEASURED = """
import os, subprocess, sys, time
start = time.perf_counter()
child = subprocess.Popen(sys.argv[2:], stderr=subprocess.DEVNULL)
_, status, usage = os.wait4(child.pid, 0)
seconds = time.perf_counter() - start
with open(sys.argv[1], "w") as f:
    f.write(f"{os.waitstatus_to_exitcode(status)} {seconds} {usage.ru_maxrss}")
"""


def timed(command, folder):
    """Seconds of a whole process, its peak memory in MiB and what it printed. What an earlier run wrote is removed first, since
    a file that takes the place of another waits until that one's blocks are free."""
    for name in OUTPUTS:
        if os.path.exists(os.path.join(folder, name)):
            os.remove(os.path.join(folder, name))
    measure = os.path.join(folder, "measure")
    with open(os.path.join(folder, "stdout"), "w+") as out:
        subprocess.run([sys.executable, "-S", "-c", MEASURED, measure, *command], cwd=folder, stdout=out, check=True)
        with open(measure) as f:
            status, seconds, memory = f.read().split()
        out.seek(0)
        printed = out.read()
    return (float(seconds), int(memory) / 1024, printed) if status == "0" else None


TIMED = """
import os, time
import numpy as np
{imports}
start = time.perf_counter()
{code}
seconds = time.perf_counter() - start
print(answer)
print(seconds)
"""

SAME = """
import sys
import numpy as np
from scipy.io import netcdf_file
a, b = (netcdf_file(name, "r", mmap=False).variables for name in sys.argv[1:3])
names = [name for name in a if name[0] == "v"]
sys.exit(0 if all(name in b and a[name].shape == b[name].shape and np.array_equal(a[name][:], b[name][:]) for name in names) else 1)
"""


def same_files(folder, mine, theirs):
    """Whether two files hold the same cells of all variables `v`, `v01`, ..; floats are compared as numbers."""
    ran = subprocess.run([PYTHON, "-W", "ignore", "-c", SAME, mine, theirs], cwd=folder, capture_output=True)
    return ran.returncode == 0


def has(module):
    return subprocess.run([PYTHON, "-c", f"import {module}"], capture_output=True).returncode == 0


def word_for(ratio):
    return "level" if 0.9 <= ratio <= 1.1 else f"{ratio:.2g}"


def measure(job, program, times):
    with tempfile.TemporaryDirectory() as folder:
        for name, make in job.files.items():
            make(os.path.join(folder, name))
            if not os.path.exists(os.path.join(folder, name)):
                print(f"{job.name}: skipped, nccopy isn't installed")
                return
        with open(os.path.join(folder, "s.xrs"), "w") as f:
            f.write(job.script)
        ours, memory, peers, notes = [], 0.0, {}, {}
        peer_code = TIMED.format(imports="import xarray" if job.needs == "xarray" else "", code=job.inside)
        for _ in range(times):
            got = timed([program, "s.xrs"], folder)
            if got is None:
                print(f"{job.name}: the program refuses it")
                return
            ours.append(got[0])
            memory = max(memory, got[1])
            mine = got[2].split("\n")[-2] if job.answer == "print" else ""
            if job.answer == "written":
                shutil.copy(os.path.join(folder, "w.nc"), os.path.join(folder, "mine.nc"))
            if job.inside and has(job.needs):
                name = f"{job.needs}, in process"
                theirs = timed([PYTHON, "-W", "ignore", "-c", peer_code], folder)
                if theirs is None:
                    notes[name] = "failed"
                else:
                    answer, seconds = theirs[2].rsplit("\n", 2)[0].split("\n")[-1], float(theirs[2].split()[-1])
                    peers.setdefault(name, []).append((seconds, theirs[1]))
                    if job.answer == "print" and answer != mine:
                        notes[name] = f"answers {answer}, not {mine}"
                    if job.answer == "written" and not same_files(folder, "mine.nc", "x.nc"):
                        notes[name] = "writes other cells"
            if job.python and has("xarray"):
                theirs = timed([PYTHON, "-W", "ignore", "-c", job.python], folder)
                if theirs is not None:
                    peers.setdefault("xarray, whole", []).append(theirs[:2])
            for command in job.tools:
                tool = command[-1].split()[0]
                name = f"{tool}{' and sync' if 'sync' in command[-1] else ''}, whole"
                if not shutil.which(tool):
                    notes[name] = f"skipped, {tool} isn't installed"
                    continue
                theirs = timed(command, folder)
                if theirs is None:
                    notes[name] = "failed"
                    continue
                peers.setdefault(name, []).append(theirs[:2])
                if job.answer == "written" and not same_files(folder, "mine.nc", "n.nc"):
                    notes[name] = "writes other cells"
        size = sum(os.path.getsize(os.path.join(folder, name)) for name in job.files) / (1 << 20)
    least = min(ours)
    print(f"{job.name}: {least:.3f} s, {memory:.0f} MiB over files of {size:.0f} MiB", flush=True)
    for name, runs in peers.items():
        seconds = min(runs)[0]
        print(f"    {name}: {seconds:.3f} s, {max(r[1] for r in runs):.0f} MiB, ratio {word_for(seconds / least)}"
              + (f" ({notes.pop(name)})" if name in notes else ""), flush=True)
    for name, note in notes.items():
        print(f"    {name}: {note}")
    if job.inside and not has(job.needs):
        print(f"    {job.needs}: skipped, it isn't installed")


def start_up(times):
    if has("xarray"):
        runs = [timed([PYTHON, "-c", "import xarray"], "/tmp") for _ in range(times)]
        print(f"the start of Python with xarray: {min(run[0] for run in runs):.3f} s, counted in none of `in process`")


def main():
    only = sys.argv.pop(sys.argv.index("--only") + 1) if "--only" in sys.argv else ""
    if only:
        sys.argv.remove("--only")
    program, times = begin("xrs", 5)
    program = os.path.abspath(program)
    start_up(times)
    for job in JOBS:
        if only in job.name:
            measure(job, program, times)


main()
