#!/usr/bin/env python3
"""Random scripts, run by the program and, as Python, by xarray itself: both write the same dataset, or both refuse.

    beside_xarray.py PROGRAM [--count N] [--seed S]

The names of the calls are xarray's, so that the text of a script is a program of both. Each begins with a random file or
an array that it writes out, takes up to five steps and writes what it has. The two files are compared as xarray reads
them: dimensions, coordinates, variables, their kinds, cells and attributes. One script in six ends in a step that has to
be refused. Without xarray all is skipped, and the output says so. The last line is 'N the same, M differ'.
"""
import argparse
import os
import random
import subprocess
import sys
import tempfile

PYTHON = "/usr/bin/python3"
try:
    import numpy
    import xarray
except ImportError:
    has_peer = os.path.exists(PYTHON) and os.path.realpath(sys.executable) != os.path.realpath(PYTHON)
    if has_peer and subprocess.run([PYTHON, "-c", "import xarray"], capture_output=True).returncode == 0:
        os.execv(PYTHON, [PYTHON, "-B", *sys.argv])
    print("skipped: scripts beside xarray need xarray")
    sys.exit(0)

KINDS = ["int8", "int16", "int32"]
LEAST = {"int8": -128, "int16": -(1 << 15), "int32": -(1 << 31)}
FILL = -99


class Random:
    """Random files and steps, from one seed."""

    def __init__(self, seed):
        self.r = random.Random(seed)

    def cells(self, kind, shape):
        count = int(numpy.prod(shape, dtype=int))
        edges = [LEAST[kind], -LEAST[kind] - 1, 0, -1, FILL]
        values = [self.r.choice(edges) if self.r.random() < 0.2 else self.r.randrange(-50, 50) for _ in range(count)]
        return numpy.array(values, dtype=kind).reshape(shape)

    def attributes(self):
        found = {}
        if self.r.random() < 0.5:
            found["units"] = self.r.choice(["m", "K", "a longer text"])
        if self.r.random() < 0.3:
            found["level"] = numpy.int32(self.r.randrange(-5, 5))
        return found

    def labels(self, size):
        numbers = [self.r.randrange(-9, 10) for _ in range(size)]
        form = self.r.choice(["sorted", "falling", "any"])
        if form != "any":
            numbers.sort(reverse=form == "falling")
        return numpy.array(numbers, dtype=self.r.choice(KINDS))

    def dataset(self):
        """A dataset with up to three dimensions, some with labels, two variables and up to two coordinates."""
        sizes = {name: self.r.choice([1, 2, 3, 4, 5]) for name in self.r.sample(["x", "y", "time"], self.r.randrange(1, 4))}
        coords = {}
        for name, size in sizes.items():
            if self.r.random() < 0.6:
                coords[name] = ([name], self.labels(size), self.attributes())
        if self.r.random() < 0.4:
            name = self.r.choice(list(sizes))
            coords["c"] = ([name], self.cells("int16", [sizes[name]]), self.attributes())
        if self.r.random() < 0.3:
            coords["n"] = ([], self.cells("int32", []), {})
        variables = {}
        for name in ["a", "b"]:
            dims = self.r.sample(list(sizes), self.r.randrange(0, len(sizes) + 1))
            kind = self.r.choice(KINDS)
            attributes = self.attributes()
            if self.r.random() < 0.4:
                attributes["_FillValue"] = numpy.array(FILL, dtype=kind)[()]
            variables[name] = (dims, self.cells(kind, [sizes[d] for d in dims]), attributes)
        return xarray.Dataset(variables, coords, self.attributes())

    def array(self):
        """An array that a script writes out, as its text."""
        sizes = {name: self.r.choice([1, 2, 3]) for name in self.r.sample(["x", "y", "time"], self.r.randrange(0, 4))}
        data = self.cells("int16", list(sizes.values())).tolist()
        coords = {"k": self.r.randrange(-9, 9)} if self.r.random() < 0.3 else {}
        for name, size in sizes.items():
            if self.r.random() < 0.5:
                texts = self.r.random() < 0.4
                coords[name] = [self.r.choice(["a", "bc", "d e"]) if texts else self.r.randrange(-9, 10) for _ in range(size)]
        return f"DataArray({data}, dims={list(sizes)}, coords={coords}, name='w')"

    def positions(self, size):
        """A position, a list of them or a slice, as the text of a script."""
        form = self.r.randrange(3)
        if form == 0:
            return str(self.r.randrange(-size, size))
        if form == 1:
            return str([self.r.randrange(-size, size) for _ in range(self.r.randrange(1, 5))])
        part = lambda: self.r.choice([None, self.r.randrange(-size - 2, size + 3)])
        # netCDF4 writes no dimension of size 0: it takes one for the record dimension.
        while not range(size)[(chosen := slice(part(), part(), self.r.choice([None, 1, 2, 3, -1, -2])))]:
            pass
        return f"slice({chosen.start}, {chosen.stop}, {chosen.step})"

    def selection(self, x):
        dims = [d for d, size in x.sizes.items() if size > 0]
        if not dims:
            return None
        chosen = self.r.sample(dims, self.r.randrange(1, len(dims) + 1))
        return f"isel({', '.join(f'{d}={self.positions(x.sizes[d])}' for d in chosen)})"

    def step(self, x):
        """A call on a value, as text, or None where this one doesn't suit."""
        is_array = isinstance(x, xarray.DataArray)
        form = self.r.choice(["isel", "isel", "isel", "drop", "attrs", "pick", "coords", "transpose", "rename", "sum"])
        if form == "isel":
            return "." + selected if (selected := self.selection(x)) else None
        if form == "drop":
            names = list(x.coords) if is_array else list(x.variables)
            return f'.drop_vars("{self.r.choice(names)}")' if names else None
        if form == "attrs":
            return f'.assign_attrs(note="{self.r.choice("pqr")}", level={self.r.randrange(-9, 9)})'
        if form == "coords":
            named = [d for d in x.dims if x.sizes[d] > 0]
            if not named or self.r.random() < 0.3:
                return f".assign_coords(k={self.r.randrange(-9, 9)})"
            name = self.r.choice(list(named))
            return f".assign_coords({name}={[self.r.randrange(-9, 9) for _ in range(x.sizes[name])]})"
        if not is_array:
            return f'["{self.r.choice(list(x.data_vars))}"]' if form == "pick" and x.data_vars else None
        if form == "transpose":
            order = self.r.sample(list(x.dims), len(x.dims))
            return f".transpose({', '.join(map(repr, order))})" if order else None
        if form == "rename":
            return '.rename("w")'
        # The sum of cells that may be missing is a fraction in xarray.
        return ".sum()" if form == "sum" and x.dtype.kind == "i" and x.size else None

    def wrong(self, x):
        """A call that both have to refuse."""
        variables = (x.to_dataset(name="w") if isinstance(x, xarray.DataArray) else x).variables
        forms = ['.isel(z=0)', '["nothing"]', '.drop_vars("nothing")']
        for d, size in x.sizes.items():
            forms += [f".isel({d}={size})", f".isel({d}=[0, {-size - 1}])"]
            # In xarray a dimension that nothing but its labels has takes labels of any count.
            if any(d in v.dims for name, v in variables.items() if name != d):
                forms.append(f".assign_coords({d}={list(range(size + 1))})")
        return self.r.choice(forms)


def by_xarray(lines, folder):
    """Runs statements as Python over xarray; the value of the last one."""
    def open_dataset(name, mask=False):
        # Loaded at once, since slices of slices that are loaded later may lose cells in xarray.
        with xarray.open_dataset(os.path.join(folder, name), mask_and_scale=mask, decode_times=False) as ds:
            return ds.load()

    def array(data, dims, coords, name):
        return xarray.DataArray(numpy.array(data, dtype="int64"), coords, dims, name)
    names = {"open_dataset": open_dataset, "DataArray": array, "slice": slice}
    for line in lines:
        name, _, code = line.partition(" = ")
        # Attributes stay, but for those that name fill numbers where cells are new ones.
        with xarray.set_options(keep_attrs=True):
            names[name] = eval(code, {"__builtins__": {}}, names)
        if code.endswith(".sum()"):
            for fill in ("_FillValue", "missing_value"):
                names[name].attrs.pop(fill, None)
    return names[name]


def write_by_xarray(x, path):
    if isinstance(x, xarray.DataArray):
        x = x.to_dataset(name=x.name)
    # xarray keeps a masked variable's kind and fill for writing beside its attributes, adds fills of its own for others, and
    # writes the names of coordinates as they were read, also of those that were dropped.
    for v in x.variables.values():
        v.encoding.setdefault("_FillValue", None)
        v.encoding.pop("coordinates", None)
    x.encoding.pop("coordinates", None)
    try:
        x.to_netcdf(path, format="NETCDF3_CLASSIC")
    except ValueError:
        # A sum past 32 bits, which no classic file holds, leaves an empty file.
        os.remove(path)


def is_refused_by_xarray(lines, folder):
    try:
        by_xarray(lines, folder)
    except (IndexError, KeyError, ValueError):
        return True
    return False


def described(path):
    """What a file holds, as plain values; None for no file."""
    if not os.path.exists(path):
        return None
    with xarray.open_dataset(path, mask_and_scale=False, decode_times=False) as ds:
        ds.load()
    plain = lambda attributes: {k: v if isinstance(v, str) else numpy.asarray(v).tolist() for k, v in attributes.items() if k != "coordinates"}
    # Texts are bytes where the file doesn't name their encoding, as those of a script.
    of = lambda v: (v.dims, *((str(v.dtype), v.values.tolist()) if v.dtype.kind == "i" else ("text", v.values.astype(str).tolist())), plain(v.attrs))
    return {
        "coords": {n: of(v.variable) for n, v in ds.coords.items()},
        "vars": {n: of(v.variable) for n, v in ds.data_vars.items()},
        "attrs": plain(ds.attrs),
    }


def steps_of(r, folder):
    """The statements of a script over a new file, and what the last one stands for in xarray."""
    r.dataset().to_netcdf(os.path.join(folder, "d.nc"), format="NETCDF3_CLASSIC")
    mask = ", mask=True" if r.r.random() < 0.4 else ""
    lines = [f'v = open_dataset("d.nc"{mask})' if r.r.random() < 0.7 else f"v = {r.array()}"]
    x = by_xarray(lines, folder)
    for _ in range(r.r.randrange(1, 6)):
        if call := r.step(x):
            lines.append(f"v = v{call}")
            x = by_xarray(lines, folder)
    return lines, x


def round_of(seed, program, folder):
    """One script; whether both agree, and its text with what each has."""
    for name in os.listdir(folder):
        os.remove(os.path.join(folder, name))
    r = Random(seed)
    lines, x = steps_of(r, folder)
    own, peer = os.path.join(folder, "own.nc"), os.path.join(folder, "peer.nc")
    write_by_xarray(x, peer)
    wrong = [f"w = v{r.wrong(x)}"] if r.r.random() < 1 / 6 else []
    is_refused = not os.path.exists(peer) or is_refused_by_xarray(lines + wrong, folder)
    text = "\n".join([*lines, 'v.to_netcdf("own.nc", format="NETCDF3_CLASSIC")', *wrong])
    with open(os.path.join(folder, "s.xrs"), "w") as f:
        f.write(text + "\n")
    ran = subprocess.run([program, "s.xrs"], cwd=folder, capture_output=True, text=True, timeout=60)
    agree = ran.returncode == is_refused and described(own) == described(peer)
    return agree, f"{text}\nxrs: {ran.stderr.strip()} {described(own)}\nxarray: {'refused' if is_refused else ''} {described(peer)}"


def main():
    options = argparse.ArgumentParser()
    options.add_argument("program")
    options.add_argument("--count", type=int, default=200)
    options.add_argument("--seed", type=int, default=1)
    options = options.parse_args()
    program, same, differ = os.path.abspath(options.program), 0, 0
    with tempfile.TemporaryDirectory() as folder:
        for seed in range(options.seed, options.seed + options.count):
            agree, story = round_of(seed, program, folder)
            same, differ = same + agree, differ + (not agree)
            if not agree:
                print(f"seed {seed}:\n{story}\n")
    print(f"{same} the same, {differ} differ")
    return 1 if differ else 0


sys.exit(main())
