#!/usr/bin/env python3
"""Makes the whole files of tests/corpus again, by tools of others, and the edited ones from them.

    make_corpus.py [FOLDER] [--edited]

FOLDER is tests/corpus by default. The tools are Debian's netcdf-bin (ncgen), pnetcdf-bin (ncmpigen, which
wants openmpi-bin), nco (ncrcat), cdo, python3-netcdf4, python3-scipy and python3-xarray. Each edited file is an entry
of edited.json: the whole file from which it comes, the edits of its bytes, and the answer that the format's text gives.
With the word --edited only these are made.
"""
import json
import os
import subprocess
import sys
import tempfile

TYPES_OF = {"i1": "byte", "i2": "short", "i4": "int", "i8": "int64", "u1": "ubyte", "u2": "ushort", "u4": "uint", "u8": "uint64"}
HERE = os.path.dirname(os.path.abspath(__file__))

INTS = "netcdf ints { dimensions: x = 3; variables: int v(x); data: v = 1, 2, 3; }"

RECORDS = """netcdf records {
dimensions: time = UNLIMITED; x = 3;
variables:
  byte flag(time); flag:note = "one byte a record, padded to four";
  short level(time, x);
  int count(time);
  int fixed(x);
  char letter(time, x);
// global attributes:
  :title = "records of several widths";
data:
  flag = 1, -2, 3; level = 1, 2, 3, -4, -5, -6, 32767, -32768, 0; count = 10, 20, 30; fixed = 7, 8, 9;
  letter = "abc", "def", "ghi";
}"""

LONE = """netcdf lone {
dimensions: t = UNLIMITED;
variables: %s v(t);
data: v = 1, 2, 3;
}"""

TYPES = """netcdf types {
dimensions: n = 2;
variables:
  int v(n);
    v:b = 1b, -2b, 127b; v:c = "five "; v:s = -3s; v:i = 4, -5; v:f = 1.5f; v:d = -2.25, 1e300;
  float f(n); double d(n);
// global attributes:
  :b = -128b; :c = ""; :s = 1s, 2s, 3s; :i = 2147483647; :f = 0.f, -1.f; :d = 3.;
data: v = 1, 2; f = 0.5, -0.5; d = 1, 2;
}"""

NO_RECORDS = """netcdf none {
dimensions: t = UNLIMITED; y = 2;
variables: int a(t); short b(t, y); byte c(y);
data: c = 5, 6;
}"""

ODD = """netcdf odd {
dimensions: a = 1; b = 3; c = 5;
variables: byte p(a); short q(b); byte r(c, b); int last;
data: p = -1; q = 1, 2, 3; r = 1,2,3,4,5,6,7,8,9,10,11,12,13,14,15; last = 42;
}"""


WIDE = """netcdf wide {
dimensions: t = UNLIMITED; n = 3;
variables:
  ubyte a(n); ushort b(t, n); uint c(n); int64 d(t); uint64 e(n); uint64 n(n);
    a:u = 255UB; b:u = 65535US, 0US; c:u = 4294967295U; d:l = -9223372036854775808LL; e:u = 18446744073709551615ULL;
data:
  a = 0, 128, 254; b = 1, 2, 3, 32768, 65534, 0; c = 0, 2147483648, 4294967294; d = -9007199254740993, 9007199254740993;
  e = 0, 9223372036854775808, 18446744073709551613; n = 1, 9223372036854775808, 3;
}"""


def ncgen(text, path, kind):
    with tempfile.NamedTemporaryFile("w", suffix=".cdl") as cdl:
        cdl.write(text)
        cdl.flush()
        subprocess.run(["ncgen", "-k", kind, "-o", path, cdl.name], check=True)


def ncmpigen(text, path, version):
    with tempfile.NamedTemporaryFile("w", suffix=".cdl") as cdl:
        cdl.write(text)
        cdl.flush()
        subprocess.run(["ncmpigen", "-v", str(version), "-o", path, cdl.name], check=True)


def by_netcdf4(path):
    from netCDF4 import Dataset
    with Dataset(path, "w", format="NETCDF3_64BIT_OFFSET") as d:
        d.createDimension("größe", 2)
        d.createDimension("Ω axis", 3)
        d.createVariable("température", "i2", ("größe", "Ω axis"))[:] = [[1, 2, 3], [4, 5, 6]]
        d.createVariable("日本", "i4", ("Ω axis",))[:] = [-1, 0, 1]
        d.Größe = "Straße"


def by_scipy(path):
    import numpy as np
    from scipy.io import netcdf_file
    with netcdf_file(path, "w", version=2) as d:
        d.createVariable("answer", "i4", ())[...] = 42
        d.createVariable("small", "i1", ())[...] = -7
        d.createDimension("k", 4)
        d.createVariable("row", "i2", ("k",))[:] = np.array([1, 1, 2, 3], "i2")
        d.history = b"made by scipy"


def by_xarray_texts(path):
    import xarray as xr
    xr.Dataset({"v": (("s", "x"), [[1, 2], [3, 4], [5, 6]]), "is_even": ("x", [False, True])},
               coords={"s": ["ab", "c", "def"], "x": [10, 20], "label": "one text"},
               attrs={"source": "xarray"}).to_netcdf(path, format="NETCDF3_CLASSIC", engine="scipy")


def by_xarray_masked(path):
    import numpy as np
    import pandas
    import xarray as xr
    values = np.array([[1.0, np.nan, 3.0], [np.nan, 5.0, 6.0]])
    set_ = xr.Dataset({"t": (("time", "x"), values)}, coords={"time": pandas.date_range("2000-01-01", periods=2)})
    set_.to_netcdf(path, format="NETCDF3_64BIT", engine="netcdf4", unlimited_dims=["time"], encoding={
        "t": {"dtype": "int16", "_FillValue": -9999}, "time": {"units": "hours since 2000-01-01", "dtype": "int32"}})


def by_netcdf4_wide(path):
    from netCDF4 import Dataset
    with Dataset(path, "w", format="NETCDF3_64BIT_DATA") as d:
        d.createDimension("x", 2)
        d.createDimension("y", 2)
        d.createVariable("x", "u8", ("x",))[:] = [1, 1 << 63]
        d.createVariable("y", "u4", ("y",))[:] = [4000000000, 5]
        d.createVariable("a", "u1", ("x", "y"), fill_value=250)[:] = [[250, 1], [2, 3]]
        d.createVariable("b", "u2", ("x",))[:] = [60000, 7]
        d.createVariable("c", "i8", ("y",))[:] = [-1, 1 << 40]


def by_xarray_wide(path):
    import xarray as xr
    xr.Dataset({"v": (("time", "x"), [[1, 2], [3, 4]])}, coords={"x": [10, 20]}).to_netcdf(
        path, format="NETCDF3_64BIT_DATA", engine="netcdf4", unlimited_dims=["time"])


def by_cdo(path):
    subprocess.run(["cdo", "-s", "--no_history", "-f", "nc1", "-b", "I32", "mulc,3", "-for,1,5", path], check=True)


def by_nco(path, folder):
    subprocess.run(["ncrcat", "-O", "-h", os.path.join(folder, "records.nc"), os.path.join(folder, "records.nc"), path], check=True)


def by_nco_wide(path, folder):
    subprocess.run(["ncrcat", "-O", "-h", "--fl_fmt=cdf5", os.path.join(folder, "wide.nc"), os.path.join(folder, "wide.nc"), path], check=True)


def answers(folder):
    """What netCDF's own library reads from each file: the shape, type and values of its variables of whole numbers."""
    from netCDF4 import Dataset
    found = {}
    for name in sorted(os.listdir(folder)):
        with Dataset(os.path.join(folder, name)) as d:
            d.set_auto_maskandscale(False)
            found[name] = {v.name: {"dims": list(v.dimensions), "shape": list(v.shape), "type": TYPES_OF[v.dtype.str[1:]],
                                    "values": v[...].flatten().tolist()} for v in d.variables.values() if v.dtype.str[1:] in TYPES_OF}
    with open(os.path.join(folder, "..", "whole.json"), "w") as f:
        lines = [f"{json.dumps(name)}: {json.dumps(it, ensure_ascii=False)}" for name, it in found.items()]
        f.write("{\n" + ",\n".join(lines) + "\n}\n")


def whole_files(folder):
    def at(name):
        return os.path.join(folder, name)
    ncgen(INTS, at("ints.nc"), "classic")
    ncgen(RECORDS, at("records.nc"), "classic")
    ncgen(RECORDS, at("records-64bit.nc"), "64-bit offset")
    ncgen(LONE % "short", at("lone-short.nc"), "classic")
    ncgen(LONE % "byte", at("lone-byte-64bit.nc"), "64-bit offset")
    ncgen(TYPES, at("types.nc"), "classic")
    ncgen(NO_RECORDS, at("no-records.nc"), "classic")
    ncgen("netcdf empty {}", at("empty.nc"), "classic")
    ncmpigen(ODD, at("odd-sizes.nc"), 1)
    ncmpigen(RECORDS, at("records-pnetcdf.nc"), 2)
    by_netcdf4(at("names.nc"))
    by_scipy(at("scalars.nc"))
    by_xarray_texts(at("texts.nc"))
    by_xarray_masked(at("masked.nc"))
    by_cdo(at("cdo.nc"))
    by_nco(at("joined.nc"), folder)
    # Version 5.
    ncgen(INTS, at("ints-5.nc"), "cdf5")
    ncgen(RECORDS, at("records-5.nc"), "cdf5")
    ncgen(LONE % "ubyte", at("lone-ubyte-5.nc"), "cdf5")
    ncgen(WIDE, at("wide.nc"), "cdf5")
    ncmpigen(ODD, at("odd-sizes-5.nc"), 5)
    by_netcdf4_wide(at("unsigned-5.nc"))
    by_xarray_wide(at("xarray-5.nc"))
    by_nco_wide(at("joined-5.nc"), folder)
    answers(folder)


def edited(data, edits):
    """Applies edits in order: `[at, hex]` puts bytes over those that stand there, `["cut", n]` keeps the first n, and
    `["add", hex]` adds bytes at the end."""
    for where, what in edits:
        if where == "cut":
            data = data[:what]
        elif where == "add":
            data += bytes.fromhex(what)
        else:
            new = bytes.fromhex(what)
            data = data[:where] + new + data[where + len(new):]
    return data


def edited_files(folder):
    with open(os.path.join(HERE, "corpus", "edited.json")) as f:
        entries = json.load(f)
    os.makedirs(os.path.join(folder, "edited"), exist_ok=True)
    for entry in entries:
        data = b""
        if entry["of"]:
            with open(os.path.join(folder, "whole", entry["of"]), "rb") as f:
                data = f.read()
        with open(os.path.join(folder, "edited", entry["name"]), "wb") as f:
            f.write(edited(data, entry["edits"]))


def main():
    words = [word for word in sys.argv[1:] if word != "--edited"]
    folder = words[0] if words else os.path.join(HERE, "corpus")
    os.makedirs(os.path.join(folder, "whole"), exist_ok=True)
    if "--edited" not in sys.argv:
        whole_files(os.path.join(folder, "whole"))
    edited_files(folder)


if __name__ == "__main__":
    main()
