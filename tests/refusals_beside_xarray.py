#!/usr/bin/env python3
"""Calls that the program and xarray both refuse: the fault here, and the kind of error there.

    refusals_beside_xarray.py PROGRAM

Each line is a program of both, and stands with the number of its fault and with the error that xarray raises. Without xarray all
is skipped, and the output says so. The last line is 'N the same, M differ'.
"""
import os
import shutil
import subprocess
import sys
import tempfile

PYTHON = "/usr/bin/python3"
TOP = os.path.join(os.path.dirname(os.path.abspath(__file__)), "..")
try:
    import cftime
    import numpy
    import pandas
    import xarray
except ImportError:
    has_peer = os.path.exists(PYTHON) and os.path.realpath(sys.executable) != os.path.realpath(PYTHON)
    if has_peer and subprocess.run([PYTHON, "-c", "import xarray"], capture_output=True).returncode == 0:
        os.execv(PYTHON, [PYTHON, "-B", *sys.argv])
    print("skipped: refusals beside xarray need xarray")
    sys.exit(0)

# What stands before each line.
BEFORE = ['ds = open_dataset("labels.nc")', 'a = ds["v"]', 'n = DataArray([1, 2, 3], ["x"], {"x": [5, 7, 6]})', 'm = DataArray([1, 2], ["x"])',
          't = DataArray([1, 2, 4], ["time"], {"time": times("days since 2000-01-01", [0, 4, 31])})']
LINES = [
    ('x = open_dataset("b.nc")', 23, FileNotFoundError),
    ('x = ds["w"]', 2, KeyError),
    ('x = a["w"]', 2, KeyError),
    ('x = a.isel(y=0)', 3, ValueError),
    ('x = a.isel(x=3)', 7, IndexError),
    ('x = a.isel(x=[0, 3])', 7, IndexError),
    ('x = a.isel(x=slice(0, 2, 0))', 5, ValueError),
    ('x = a.sel(y=1)', 3, KeyError),
    ('x = a.sel(x=7)', 6, KeyError),
    ('x = a.sel(x=[1, 7])', 6, KeyError),
    ('x = a.sel(x=7, method="nearest", tolerance=1)', 6, KeyError),
    ('x = a.sel(x="a")', 10, KeyError),
    ('x = n.sel(x=slice(4, 6))', 9, KeyError),
    ('x = n.sel(x=6, method="pad")', 9, ValueError),
    ('x = a.sel(x=1, method="linear")', 5, ValueError),
    ('x = a.sum("y")', 3, ValueError),
    ('x = ds.max("y")', 3, ValueError),
    ('x = a.cumsum("y")', 3, ValueError),
    ('x = a.isel(x=slice(0)).max()', 17, ValueError),
    ('x = a.isel(x=slice(0)).argmin("x")', 17, ValueError),
    ('x = a.shift(y=1, fill_value=0)', 3, ValueError),
    ('x = a.roll(y=1)', 3, ValueError),
    ('x = a.diff("x", label="middle")', 5, ValueError),
    ('x = a.transpose("y")', 3, ValueError),
    ('x = a.transpose("x", "x")', 5, ValueError),
    ('x = a.drop_vars("y")', 2, ValueError),
    ('x = ds.drop_vars(["v", "y"])', 2, ValueError),
    ('x = a.to_dataset(name="x")', 25, ValueError),
    ('x = m.to_dataset()', 5, ValueError),
    ('x = a.assign_coords(x=[1, 2])', 13, ValueError),
    ('x = m.assign_coords(x=n)', 13, ValueError),
    ('x = a.astype("kind")', 5, TypeError),
    ('x = m + m.isel(x=[0, 1, 1])', 13, ValueError),
    ('x = a + DataArray([1, 2, 3], ["x"], {"x": [1, 1, 2]})', 8, ValueError),
    ('x = a & "a"', 4, TypeError),
    ('x = a.where(a.isel(x=slice(2)) > 1, 0)', 14, ValueError),
    ('x = a.where(m > 1, 0)', 13, ValueError),
    ('x = n.reindex(x=[5], method="pad")', 9, ValueError),
    ('x = DataArray([1, 2], ["x"], {"x": [5, 5]}).reindex(x=[5])', 8, ValueError),
    ('ds["w"] = m', 13, ValueError),
    ('ds["w"] = DataArray([1, 2, 3], ["x"], {"x": [1, 2, 2]})', 8, ValueError),
    ('ds["v"] = ds', 4, TypeError),
    ('q["w"] = a', 1, NameError),
    ('x = a.groupby("x.month").sum()', 16, AttributeError),
    ('x = t.groupby("time.fortnight").sum()', 5, AttributeError),
    ('x = a.resample(x="MS").sum()', 16, TypeError),
    ('x = t.resample(time="no").sum()', 5, ValueError),
    ('x = t.resample(y="MS").sum()', 3, KeyError),
    ('x = a.rolling(x=0).sum()', 5, ValueError),
    ('x = a.rolling(y=2).sum()', 3, KeyError),
    ('x = a.rolling(x=2, min_periods=0).sum()', 5, ValueError),
    ('x = t.sel(time="2000-01-09T00:00:00")', 6, KeyError),
    ('x = t.sel(time="1999-12-31T00:00:00", method="pad")', 6, KeyError),
    ('x = t.sel(time=slice("2000-02-30", None))', 5, TypeError),
    ('x = DataArray([1, 2], ["t"], {"t": times("days since 2000-01-01", [1])})', 13, ValueError),
    ('x = t + DataArray([1, 2, 4], ["time"], {"time": times("days since 2000-01-01", [0, 0, 1])})', 8, ValueError),
    ('x, y = align(a, n, join="exact")', 14, ValueError),
    ('x, y = align(a, a.isel(x=[0, 0]), fill_value=0)', 8, ValueError),
    ('x, y = align(a, m)', 13, ValueError),
    ('x, y = align(a, n, join="middle")', 5, ValueError),
    ('x, y = align(a)', 5, ValueError),
    ('x, y = align(a, 5)', 4, AttributeError),
    ('x = concat([], "x")', 5, ValueError),
    ('x = concat([a, ds], "x")', 4, TypeError),
    ('x = concat([a, a])', 5, TypeError),
    ('x = concat([a], "x", join="middle")', 5, ValueError),
    ('x = concat([ds, ds.drop_vars("v")], "x")', 2, ValueError),
    ('x = concat([a, a.isel(x=[2, 1, 0])], "t", join="exact")', 14, ValueError),
    ('x = concat([a, a.isel(x=[0, 0])], "t", fill_value=0)', 8, ValueError),
    ('x = concat([m, m.isel(x=[0])], "t")', 13, ValueError),
    ('x = concat([a, m], "x")', 10, KeyError),
    ('x = combine_by_coords([ds, 5])', 4, TypeError),
    ('x = combine_by_coords([ds], compat="equal")', 5, ValueError),
    ('x = combine_by_coords([ds], join="middle")', 5, ValueError),
    ('x = combine_by_coords([ds, ds])', 15, ValueError),
    ('x = combine_by_coords([ds, ds.isel(x=slice(0))])', 15, ValueError),
    ('x = combine_by_coords([ds.isel(x=[0, 2, 1]), ds.isel(x=[1])])', 9, ValueError),
    ('x = combine_by_coords([ds.isel(x=[0, 1]), ds.isel(x=[2, 1])])', 9, ValueError),
    ('x = combine_by_coords([ds.isel(x=[0, 2]), ds.isel(x=[1])])', 9, ValueError),
    ('x = merge([ds, 5])', 4, TypeError),
    ('x = merge([m])', 5, ValueError),
    ('x = merge([ds], "equal")', 5, ValueError),
    ('x = merge([ds], join="middle")', 5, ValueError),
    ('x = merge([ds, a + 1])', 15, xarray.MergeError),
    ('x = merge([ds, a * 2], compat="equals")', 15, xarray.MergeError),
    ('x = merge([a.assign_coords(n=1), a.assign_coords(n=2)])', 15, xarray.MergeError),
    ('x = merge([a.assign_coords(n=1), a.assign_coords(n="p")])', 15, xarray.MergeError),
    ('x = merge([ds, n.rename("w")], join="exact")', 14, ValueError),
    ('x = merge([ds, a.isel(x=[0, 0]).rename("w")], fill_value=0)', 8, ValueError),
    ('x = merge([ds, m.rename("w")])', 13, ValueError),
    ('x = merge([a.rename("x")])', 25, ValueError),
    ('x = merge([ds, DataArray([1, 2], ["v"]).rename("w")])', 25, xarray.MergeError),
]


def data_array(data, dims, coords=None):
    return xarray.DataArray(numpy.array(data), dims=dims).assign_coords(coords or {})


def times(units, counts):
    return pandas.DatetimeIndex([cftime.num2date(n, units, "proleptic_gregorian").isoformat() for n in counts])


def error_of(line, folder):
    """What xarray raises."""
    here = os.getcwd()
    os.chdir(folder)
    try:
        names = {"DataArray": data_array, "times": times, "align": xarray.align, "concat": xarray.concat, "merge": xarray.merge, "combine_by_coords": xarray.combine_by_coords, "open_dataset": lambda name: xarray.open_dataset(name, mask_and_scale=False).load()}
        exec("\n".join(BEFORE), names)
        try:
            exec(line, names)
        except Exception as fault:
            return type(fault)
        return None
    finally:
        os.chdir(here)


def main():
    program = os.path.abspath(sys.argv[1])
    same, wrong = 0, []
    with tempfile.TemporaryDirectory() as folder:
        shutil.copy(os.path.join(TOP, "examples", "labels.nc"), folder)
        for line, number, error in LINES:
            with open(os.path.join(folder, "s.xrs"), "w") as f:
                f.write("\n".join(BEFORE + [line]) + "\n")
            ran = subprocess.run([program, "s.xrs"], cwd=folder, capture_output=True, text=True)
            raised = error_of(line, folder)
            if ran.returncode == 1 and ran.stderr.startswith(f"xrs: statement {len(BEFORE) + 1}: F{number} ") and raised is not None and issubclass(raised, error):
                same += 1
            else:
                wrong.append(f"{line}: {ran.stderr.strip()!r} here, not F{number}; {raised} there, not {error}")
    for it in wrong:
        print(it)
    print(f"{same} the same, {len(wrong)} differ")
    return 1 if wrong else 0


if __name__ == "__main__":
    sys.exit(main())
