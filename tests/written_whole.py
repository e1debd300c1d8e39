#!/usr/bin/env python3
"""Files that the program writes, compared whole with what other tools say of them.

    written_whole.py PROGRAM

Each file is described by hand, from the rules of docs/FORMAT.md: dimensions and which of them is the record dimension, variables
with their types, dimensions, attributes and values, missing cells and texts among them, and attributes of the file. `ncdump` must
print exactly that; netCDF4, scipy and xarray must read it. What is missing is skipped, and the output says so. The last line is
'N passed, M failed, K skipped'.
"""
import json
import os
import shutil
import subprocess
import sys
import tempfile

PYTHON = "/usr/bin/python3" if os.path.exists("/usr/bin/python3") else sys.executable


class Var:
    def __init__(self, type_, dims, values, **attrs):
        self.type, self.dims, self.values, self.attrs = type_, dims, values, attrs


class File:
    """What a file holds. `records` names its record dimension; only netCDF4 and `ncdump` read version 5."""

    def __init__(self, script, version, dims, vars_, records=None, **attrs):
        self.script, self.version, self.dims, self.vars, self.records, self.attrs = script, version, dims, vars_, records, attrs


# In attributes a number is one of type int, but for `_FillValue`, which has the variable's type. None is a missing cell.
FILES = {
    "records": File(
        'a = DataArray([[1, NA, 3], [4, 5, 6]], dims=["t", "x"], name="v", dtype="int16", coords={"x": [10, 20, 30], "n": 7, "note": "far"})\n'
        'a.assign_attrs(units="m", level=2).to_netcdf("records.nc", format="NETCDF3_CLASSIC", fill_value=-1, unlimited_dims="t")',
        1, {"t": 2, "x": 3, "string3": 3},
        {"x": Var("int", ["x"], [10, 20, 30]), "n": Var("int", [], [7]), "note": Var("char", ["string3"], ["far"]),
         "v": Var("short", ["t", "x"], [1, None, 3, 4, 5, 6], units="m", level=2, _FillValue=-1, coordinates="n note")},
        records="t"),
    "truths": File(
        'DataArray([True, False], dims=["y"], name="b", coords={"y": ["p", "qq"]}).to_netcdf("truths.nc", format="NETCDF3_64BIT")',
        2, {"y": 2, "string2": 2},
        {"y": Var("char", ["y", "string2"], ["p", "qq"]), "b": Var("byte", ["y"], [1, 0], dtype="bool")}),
    "alone": File(
        's = DataArray([1, 2], dims=["x"], name="v").to_dataset().assign_coords(c=DataArray([-3, 4], dims=["x"], dtype="int8"))\n'
        's.drop_vars("v").assign_attrs(title="a coordinate alone", level=-2).to_netcdf("alone.nc", format="NETCDF3_CLASSIC")',
        1, {"x": 2}, {"c": Var("byte", ["x"], [-3, 4])}, title="a coordinate alone", level=-2, coordinates="c"),
    "nothing": File(
        'DataArray([[1], [2]], dims=["x", "y"], name="v", dtype="int32").isel(x=slice(0)).to_netcdf("nothing.nc", format="NETCDF3_CLASSIC")',
        1, {"x": 0, "y": 1}, {"v": Var("int", ["x", "y"], [])}, records="x"),
    "wide": File(
        'DataArray([18446744073709551615, 0], dims=["x"], name="u", dtype="uint64").assign_attrs(title="wide").to_netcdf("wide.nc")',
        5, {"x": 2}, {"u": Var("uint64", ["x"], [18446744073709551615, 0], title="wide")}),
    "bytes": File(
        'DataArray([1, NA], dims=["x"], name="w", dtype="uint8", coords={"x": [-5, 5]}).to_netcdf("bytes.nc", fill_value=255)',
        5, {"x": 2}, {"x": Var("int64", ["x"], [-5, 5]), "w": Var("ubyte", ["x"], [1, None], _FillValue=255)}),
    "cut": File(
        'open_dataset("rain.nc", mask=True).isel(time=slice(1, 3), lat=[1], lon=slice(0, 2)).to_netcdf("cut.nc", format="NETCDF3_CLASSIC")',
        1, {"time": 2, "lat": 1, "lon": 2},
        {"time": Var("int", ["time"], [1, 31], units="days since 2000-01-01"), "lat": Var("short", ["lat"], [51], units="degrees_north"),
         "lon": Var("short", ["lon"], [5, 6], units="degrees_east"),
         "rain": Var("short", ["time", "lat", "lon"], [0, None, 5, 5], units="0.1 mm", _FillValue=-999)},
        title="rain of four days"),
    "dates": File(
        'a = DataArray([[1, 2], [3, 4]], dims=["time", "x"], name="v", dtype="int16", coords={"time": times("hours since 2001-02-28 06:00", [0, 18], calendar="noleap")})\n'
        'a.assign_attrs(units="m").to_netcdf("dates.nc", format="NETCDF3_64BIT", unlimited_dims="time")',
        2, {"time": 2, "x": 2},
        {"time": Var("int", ["time"], [0, 18], units="hours since 2001-02-28 06:00", calendar="noleap"), "v": Var("short", ["time", "x"], [1, 2, 3, 4], units="m")},
        records="time"),
    "finer": File(
        'a = DataArray([1, 2], dims=["time"], name="v", dtype="int32", coords={"time": times("days since 1600-02-29T12:00", [0, 1], calendar="standard")})\n'
        'a.reindex(time=["1600-02-29T00:00:00", "1600-03-01 12:00:00"], fill_value=-1).to_netcdf("finer.nc")',
        5, {"time": 2},
        {"time": Var("int64", ["time"], [-12, 24], units="hours since 1600-02-29T12:00", calendar="standard"), "v": Var("int", ["time"], [-1, 2])}),
    "single": File(
        'open_dataset("rain.nc").sel(time="2000-02-01T00:00:00", lat=[50], lon=[7]).to_netcdf("single.nc", format="NETCDF3_CLASSIC")',
        1, {"lat": 1, "lon": 1},
        {"lat": Var("short", ["lat"], [50], units="degrees_north"), "lon": Var("short", ["lon"], [7], units="degrees_east"),
         "time": Var("int", [], [31], units="days since 2000-01-01"),
         "rain": Var("short", ["lat", "lon"], [5], units="0.1 mm", _FillValue=-999, coordinates="time")},
        title="rain of four days"),
}

SUFFIX = {"byte": "b", "short": "s", "int": "", "ubyte": "UB", "ushort": "US", "uint": "U", "int64": "LL", "uint64": "ULL", "char": ""}

def attribute(name, value, type_):
    if isinstance(value, str):
        return f'{name} = "{value}" ;'
    return f"{name} = {value}{SUFFIX[type_ if name.endswith(':_FillValue') else 'int']} ;"


def values_in_text(file, var):
    """As `ncdump` prints the values of a variable."""
    shape = [file.dims[d] for d in var.dims]
    if var.type == "char":
        return [f' = "{var.values[0]}" ;'] if len(shape) == 1 else [" ="] + [f'  "{it}"' + (" ;" if n == shape[0] - 1 else ",") for n, it in enumerate(var.values)]
    cells = ["_" if it is None else str(it) for it in var.values]
    if len(shape) < 2:
        return [f" = {', '.join(cells)} ;"]
    row = shape[-1]
    lines = [", ".join(cells[n:n + row]) for n in range(0, len(cells), row)]
    return [" ="] + [f"  {it}" + (" ;" if n == len(lines) - 1 else ",") for n, it in enumerate(lines)]


def dump(name, file):
    """What `ncdump` has to print."""
    lines = [f"netcdf {name} {{", "dimensions:"]
    for d, size in file.dims.items():
        lines.append(f"\t{d} = UNLIMITED ; // ({size} currently)" if d == file.records else f"\t{d} = {size} ;")
    lines.append("variables:")
    for v, var in file.vars.items():
        lines.append(f"\t{var.type} {v}" + (f"({', '.join(var.dims)})" if var.dims else "") + " ;")
        lines += ["\t\t" + attribute(f"{v}:{a}", value, var.type) for a, value in var.attrs.items()]
    if file.attrs:
        lines += ["", "// global attributes:"] + ["\t\t" + attribute(f":{a}", value, None) for a, value in file.attrs.items()]
    lines.append("data:")
    for v, var in file.vars.items():
        if not var.values:
            continue
        first, *rest = values_in_text(file, var)
        lines += ["", f" {v}{first}"] + rest
    return "\n".join(lines + ["}", ""])


def described(file):
    """What a library of Python has to read, as JSON: raw numbers where cells are missing."""
    def cells(var):
        if var.type == "char":
            width = file.dims[var.dims[-1]]
            return [list(it.ljust(width, "\0")) for it in var.values]
        return [var.attrs["_FillValue"] if it is None else it for it in var.values]
    flat = {v: [x for it in cells(var) for x in (it if isinstance(it, list) else [it])] for v, var in file.vars.items()}
    return {"dims": file.dims, "attrs": file.attrs, "vars": {v: [var.dims, var.attrs, flat[v]] for v, var in file.vars.items()}}


PLAIN = """
import json, sys
import numpy
def plain(x):
    x = x.item() if isinstance(x, (numpy.generic, numpy.ndarray)) and numpy.size(x) == 1 else x
    return x.decode() if isinstance(x, bytes) else x
def flat(values):
    return [("\\0" if it in (b"", "") else it.decode() if isinstance(it, bytes) else it) if isinstance(it, (bytes, str)) else int(it) for it in numpy.ravel(values).tolist()]
"""
LIBRARIES = {
    "netCDF4": ({1, 2, 5}, """
from netCDF4 import Dataset
f = Dataset(sys.argv[1]); f.set_auto_mask(False); f.set_auto_chartostring(False)
dims, unlimited = {d: len(it) for d, it in f.dimensions.items()}, [d for d, it in f.dimensions.items() if it.isunlimited()]
attrs = {a: plain(f.getncattr(a)) for a in f.ncattrs()}
vars_ = {v: [list(it.dimensions), {a: plain(it.getncattr(a)) for a in it.ncattrs()}, flat(it[...])] for v, it in f.variables.items()}
"""),
    "scipy": ({1, 2}, """
from scipy.io import netcdf_file
f = netcdf_file(sys.argv[1], "r", mmap=False)
dims, unlimited = {d: f._recs if n is None else n for d, n in f.dimensions.items()}, [d for d, n in f.dimensions.items() if n is None]
attrs = {a: plain(x) for a, x in f._attributes.items()}
vars_ = {v: [list(it.dimensions), {a: plain(x) for a, x in it._attributes.items()}, flat(it.data)] for v, it in f.variables.items()}
"""),
    "xarray": ({1, 2, 5}, """
import xarray
f = xarray.open_dataset(sys.argv[1], decode_cf=False)
dims, unlimited = dict(f.sizes), sorted(f.encoding.get("unlimited_dims", []))
attrs = {a: plain(x) for a, x in f.attrs.items()}
vars_ = {v: [list(it.dims), {a: plain(x) for a, x in it.attrs.items()}, flat(it.values)] for v, it in f.variables.items()}
"""),
}
SAID = 'print(json.dumps({"dims": dims, "attrs": attrs, "vars": vars_, "records": unlimited}))'


def main():
    program = os.path.abspath(sys.argv[1])
    passed, wrong, skipped = 0, [], 0
    with tempfile.TemporaryDirectory() as folder:
        shutil.copy(os.path.join(os.path.dirname(os.path.abspath(__file__)), "..", "examples", "rain.nc"), folder)
        for name, file in FILES.items():
            with open(os.path.join(folder, "s.xrs"), "w") as f:
                f.write(file.script + "\n")
            ran = subprocess.run([program, "s.xrs"], cwd=folder, capture_output=True, text=True)
            if ran.returncode != 0:
                wrong.append(f"{name}: {ran.stderr.strip()}")
        if shutil.which("ncdump"):
            for name, file in FILES.items():
                got = subprocess.run(["ncdump", f"{name}.nc"], cwd=folder, capture_output=True, text=True).stdout
                got = "\n".join(line.rstrip() for line in got.split("\n"))
                version = subprocess.run(["ncdump", "-k", f"{name}.nc"], cwd=folder, capture_output=True, text=True).stdout.strip()
                if got == dump(name, file) and version == {1: "classic", 2: "64-bit offset", 5: "cdf5"}[file.version]:
                    passed += 1
                else:
                    wrong.append(f"{name}: ncdump prints of version {version}\n{got}\nnot\n{dump(name, file)}")
        else:
            print("skipped: ncdump isn't installed")
            skipped += 1
        for library, (versions, code) in LIBRARIES.items():
            if subprocess.run([PYTHON, "-c", f"import {library}"], capture_output=True).returncode != 0:
                print(f"skipped: {library} isn't installed")
                skipped += 1
                continue
            for name, file in FILES.items():
                # (xarray takes no variable of two dimensions that is named as one of them, unless it decodes texts)
                if file.version not in versions or library == "xarray" and any(v in var.dims[:1] and len(var.dims) > 1 for v, var in file.vars.items()):
                    continue
                ran = subprocess.run([PYTHON, "-c", PLAIN + code + SAID, f"{name}.nc"], cwd=folder, capture_output=True, text=True)
                wanted = described(file) | {"records": [file.records] if file.records else []}
                got = json.loads(ran.stdout) if ran.returncode == 0 else ran.stderr
                if got == wanted:
                    passed += 1
                else:
                    wrong.append(f"{name}: {library} reads\n{got}\nnot\n{wanted}")
    for it in wrong:
        print(it)
    print(f"{passed} passed, {len(wrong)} failed, {skipped} skipped")
    return 1 if wrong else 0


if __name__ == "__main__":
    sys.exit(main())
