#!/usr/bin/env python3
"""The rows of crates/run_rows whose remark says what xarray does, carried out by xarray itself.

    rows_beside_xarray.py

A remark `xarray: the same` says that xarray's answer, printed in the program's form, is the one that stands in the file `stdout`;
`xarray: refused too` that it raises an error. The lines of a row are a program of both, but for the order of DataArray's
parameters. No program of ours is run: the gate compares that file with what it prints. Without xarray all is skipped, and the
output says so. The last line is 'N the same, M differ'.
"""
import io
import os
import re
import subprocess
import sys

PYTHON = "/usr/bin/python3"
# The functions of scripts that xarray has under the same names and with the same parameters.
FUNCTIONS = ["where", "align", "concat", "merge", "combine_by_coords"]
ROWS = os.path.join(os.path.dirname(os.path.abspath(__file__)), "..", "crates", "run_rows")
try:
    import cftime
    import numpy
    import pandas
    import xarray
except ImportError:
    has_peer = os.path.exists(PYTHON) and os.path.realpath(sys.executable) != os.path.realpath(PYTHON)
    if has_peer and subprocess.run([PYTHON, "-c", "import xarray"], capture_output=True).returncode == 0:
        os.execv(PYTHON, [PYTHON, "-B", *sys.argv])
    print("skipped: rows beside xarray need xarray")
    sys.exit(0)


def rows():
    """Each row: its name, its remarks, its lines."""
    with open(os.path.join(ROWS, "stdin"), encoding="utf-8") as f:
        found = []
        for line in f.read().split("\n"):
            if line.startswith("=== "):
                found.append((line[4:], [], []))
            elif found and line.startswith("# "):
                found[-1][1].append(line[2:])
            elif found and line.startswith("> "):
                found[-1][2].append(line[2:])
        return found


def answers():
    """What stands under each row: the text that its script prints, and the number of its exit."""
    with open(os.path.join(ROWS, "stdout"), encoding="utf-8") as f:
        parts = re.split(r"^=== (.*)\n", f.read(), flags=re.M)[1:]
    found = {}
    for name, text in zip(parts[::2], parts[1::2]):
        text = re.sub(r"\A(?:(?:[>*+]|word|fails) .*\n|no word\n)*", "", text)
        end = re.search(r"^exit (\d+)$", text, re.M)
        found.setdefault(name, (text[:end.start()], int(end.group(1))))
    return found


def data_array(data, dims, coords=None, name=None, dtype=None):
    made = xarray.DataArray(numpy.array(data, dtype=dtype), dims=dims, name=name)
    return made.assign_coords(coords or {})


def times(units, counts, calendar="proleptic_gregorian"):
    """Dates as xarray has them: of the civil calendar those of numpy, of others those of cftime."""
    dates = [cftime.num2date(n, units, calendar) for n in counts]
    if calendar in ("standard", "gregorian", "proleptic_gregorian"):
        return pandas.DatetimeIndex([it.isoformat() for it in dates])
    return xarray.CFTimeIndex(dates)


def spelled(value):
    """A cell or a label as it is printed."""
    if isinstance(value, numpy.datetime64):
        return numpy.datetime_as_string(value, "s")
    if isinstance(value, cftime.datetime):
        return f"{value.year:04}-{value.month:02}-{value.day:02}T{value.hour:02}:{value.minute:02}:{value.second:02}"
    if isinstance(value, (str, numpy.str_)):
        return '"' + str(value) + '"'
    return str(bool(value)) if isinstance(value, (bool, numpy.bool_)) else str(int(value))


def kind(variable):
    if variable.dtype.kind == "M" or variable.size and isinstance(numpy.ravel(variable.values)[0], cftime.datetime):
        return "time"
    return "text" if variable.dtype.kind in "UO" else str(variable.dtype)


def coordinate_lines(it):
    labels = [name for name in it.dims if name in it.coords]
    others = sorted(name for name in it.coords if name not in it.dims)
    for name in labels + others:
        c = it.coords[name]
        yield " ".join([f"coord {name} {kind(c)} ({', '.join(c.dims)}):", *map(spelled, numpy.ravel(c.values))])


def attribute_lines(it):
    for name, value in it.attrs.items():
        yield f'attr {name} char: "{value}"' if isinstance(value, str) else f"attr {name} int: {value}"


def array_lines(it):
    sizes = ", ".join(f"{d}: {n}" for d, n in zip(it.dims, it.shape))
    yield f"DataArray {it.name or '-'} ({sizes}) {kind(it)}"
    for row in it.values.reshape(-1, it.shape[-1] if it.ndim else 1) if it.size else []:
        yield " ".join(map(spelled, row))
    yield from coordinate_lines(it)
    yield from attribute_lines(it)


def set_lines(it):
    yield "Dataset"
    for name, size in it.sizes.items():
        yield f"dim {name}: {size}"
    yield from coordinate_lines(it)
    for name, variable in it.data_vars.items():
        yield f"var {name} {kind(variable)} ({', '.join(variable.dims)})"
    yield from attribute_lines(it)


def carried_out(lines):
    """What xarray prints of the lines, in the program's form."""
    out = io.StringIO()

    def shown(it):
        lines = array_lines(it) if isinstance(it, xarray.DataArray) else set_lines(it)
        out.write("".join(line + "\n" for line in lines))

    with xarray.set_options(keep_attrs=True):
        exec("\n".join(lines), {"DataArray": data_array, "times": times, "print": shown} | {it: getattr(xarray, it) for it in FUNCTIONS})
    return out.getvalue()


def main():
    known, same, wrong = answers(), 0, []
    for name, remarks, lines in rows():
        remark = " ".join(remarks)
        text, status = known[name]
        if "xarray: the same" in remark:
            try:
                got = carried_out(lines)
            except NameError as fault:
                print(f"skipped: the row {name!r} is no program of xarray: {fault}")
                continue
            except Exception as fault:
                got = repr(fault)
            holds, said = got == text and status == 0, f"{got!r}, not {text!r}"
        elif "xarray: refused too" in remark:
            try:
                carried_out(lines)
                holds, said = False, "xarray refuses nothing"
            except Exception as fault:
                holds, said = status == 1, f"xarray raises {fault!r}, and the row ends with {status}"
        else:
            continue
        if holds:
            same += 1
        else:
            wrong.append(f"{name}: {said}")
    for it in wrong:
        print(it)
    print(f"{same} the same, {len(wrong)} differ")
    return 1 if wrong or not same else 0


sys.exit(main())
