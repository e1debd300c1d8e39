#!/usr/bin/env python3
"""Files that the program writes, as the tools of others read them: each accepts every file, with the same contents.

    tools.py PROGRAM

The tools are `ncdump`, `ncvalidator` and `ncmpidump` (Debian: netcdf-bin, pnetcdf-bin), and scipy, netCDF4 and xarray of Debian's
Python. What is missing, or doesn't start (`ncmpidump` without openmpi-bin), is skipped, and the output says so.
The last line is 'N passed, M failed, K skipped'.
"""
import os
import re
import shutil
import subprocess
import sys
import tempfile

EXAMPLES = os.path.join(os.path.dirname(os.path.abspath(__file__)), "..", "examples")
PYTHON = "/usr/bin/python3" if os.path.exists("/usr/bin/python3") else sys.executable

SCRIPT = """o = open_dataset("a.nc")["v"]
o.to_netcdf("whole.nc", format="NETCDF3_CLASSIC")
o.isel(x=slice(1, 3)).to_netcdf("part.nc", format="NETCDF3_CLASSIC")
o.sum().to_netcdf("sum.nc", format="NETCDF3_CLASSIC")
p = open_dataset("labels.nc")["v"]
p.isel(x=slice(None, None, -2)).to_netcdf("turned.nc", format="NETCDF3_CLASSIC")
open_dataset("labels.nc").isel(x=[2, 0]).to_netcdf("set.nc", format="NETCDF3_64BIT")
r = DataArray([[1, 2], [3, 4]], dims=["t", "x"], name="v", dtype="int16").assign_attrs(units="m", level=2)
r.to_netcdf("records.nc", format="NETCDF3_CLASSIC", unlimited_dims="t")
DataArray([True, False], dims=["x"], name="b").to_netcdf("truths.nc", format="NETCDF3_CLASSIC")
DataArray([4000000000, -1], dims=["x"], name="v").to_netcdf("wide.nc")
DataArray([65534, 0], dims=["x"], name="v", dtype="uint16").to_netcdf("unsigned.nc")
k = DataArray([True, False], dims=["x"], name="b").to_dataset()
k["i1"] = DataArray([-128, 127], dims=["x"], dtype="int8")
k["i2"] = DataArray([-32768, 32767], dims=["x"], dtype="int16")
k["i4"] = DataArray([-2147483648, 2147483647], dims=["x"], dtype="int32")
k["i8"] = DataArray([-9000000000000000001, 9223372036854775807], dims=["x"], dtype="int64")
k["u1"] = DataArray([128, 254], dims=["x"], dtype="uint8")
k["u2"] = DataArray([32768, 65534], dims=["x"], dtype="uint16")
k["u4"] = DataArray([2147483648, 4294967294], dims=["x"], dtype="uint32")
k["u8"] = DataArray([9223372036854775808, 18000000000000000001], dims=["x"], dtype="uint64")
k.to_netcdf("kinds.nc")
"""

# The numbers of each variable of each file.
WRITTEN = {
    "whole.nc": {"v": [1, 2, 3]},
    "part.nc": {"v": [2, 3]},
    "sum.nc": {"v": [6]},
    "turned.nc": {"x": [3, 1], "v": [30, 10]},
    "set.nc": {"x": [3, 1], "v": [30, 10]},
    "records.nc": {"v": [1, 2, 3, 4]},
    "truths.nc": {"b": [1, 0]},
}
# Those of version 5, which not all of the tools read.
WRITTEN_IN_5 = {
    "wide.nc": {"v": [4000000000, -1]},
    "unsigned.nc": {"v": [65534, 0]},
    # (no number is one that stands for a missing cell by itself, nor is the same as one of those in a float, in which `ncmpidump` compares them)
    "kinds.nc": {
        "b": [1, 0], "i1": [-128, 127], "i2": [-32768, 32767], "i4": [-2147483648, 2147483647], "i8": [-9000000000000000001, 9223372036854775807],
        "u1": [128, 254], "u2": [32768, 65534], "u4": [2147483648, 4294967294], "u8": [9223372036854775808, 18000000000000000001],
    },
}
READ_5 = {"ncdump", "ncvalidator", "ncmpidump", "netCDF4"}
# The types that dumps have to name.
TYPES_IN_5 = {
    "wide.nc": ["int64 v("],
    "unsigned.nc": ["ushort v("],
    "kinds.nc": ["byte b(", "byte i1(", "short i2(", "int i4(", "int64 i8(", "ubyte u1(", "ushort u2(", "uint u4(", "uint64 u8("],
}

# How a library of Python gives a variable's numbers.
LIBRARIES = {
    "scipy": 'from scipy.io import netcdf_file\nf = netcdf_file(path, "r", mmap=False)\nget = lambda n: f.variables[n].data',
    "netCDF4": "from netCDF4 import Dataset\nf = Dataset(path)\nget = lambda n: f[n][:]",
    "xarray": "import xarray\nf = xarray.open_dataset(path)\nget = lambda n: f[n].values",
}


def by_dump(tool, path, names):
    ran = subprocess.run([tool, path], capture_output=True, text=True)
    if ran.returncode != 0 or not all(f"\t{it}" in ran.stdout for it in TYPES_IN_5.get(os.path.basename(path), [])):
        return None
    values = ran.stdout[ran.stdout.index("data:"):]
    found = {name: re.search(rf"\b{name} =\s*([^;]*);", values) for name in names}
    return {name: [int(re.match(r"\s*(-?\d+)", n).group(1)) for n in it.group(1).split(",")] for name, it in found.items() if it}


def by_library(code, path, names):
    script = f"import numpy\npath = {path!r}\n{code}\nprint({{n: [int(i) for i in numpy.ravel(get(n))] for n in {list(names)!r}}})"
    ran = subprocess.run([PYTHON, "-c", script], capture_output=True, text=True)
    return eval(ran.stdout) if ran.returncode == 0 else None


def has_library(name):
    return subprocess.run([PYTHON, "-c", f"import {name}"], capture_output=True).returncode == 0


def starts(*words):
    """Whether a tool is installed and reads a file of ours that needs nothing of it: one that lacks a part of its own reads none."""
    return bool(shutil.which(words[0])) and subprocess.run([*words, os.path.join(EXAMPLES, "a.nc")], capture_output=True).returncode == 0


def main():
    program = os.path.abspath(sys.argv[1])
    passed = failed = skipped = 0
    with tempfile.TemporaryDirectory() as folder:
        for name in ("a.nc", "labels.nc"):
            shutil.copy(os.path.join(EXAMPLES, name), folder)
        with open(os.path.join(folder, "s.xrs"), "w") as f:
            f.write(SCRIPT)
        subprocess.run([program, "s.xrs"], cwd=folder, check=True)
        checks = {
            "ncdump": (starts("ncdump", "-h"), lambda path, values: by_dump("ncdump", path, values) == values),
            "ncmpidump": (starts("ncmpidump", "-h"), lambda path, values: by_dump("ncmpidump", path, values) == values),
            "ncvalidator": (starts("ncvalidator", "-q"), lambda path, values: subprocess.run(["ncvalidator", "-q", path], capture_output=True).returncode == 0),
        }
        for library, code in LIBRARIES.items():
            checks[library] = (has_library(library), lambda path, values, code=code: by_library(code, path, values) == values)
        for tool, (there, holds) in checks.items():
            if not there:
                print(f"skipped: {tool} isn't installed, or doesn't start")
                skipped += 1
                continue
            files = WRITTEN | WRITTEN_IN_5 if tool in READ_5 else WRITTEN
            for name, values in files.items():
                if holds(os.path.join(folder, name), values):
                    passed += 1
                else:
                    print(f"{tool} doesn't read {name} as it was written")
                    failed += 1
    print(f"{passed} passed, {failed} failed, {skipped} skipped")
    return 1 if failed else 0


sys.exit(main())
