#!/usr/bin/env python3
"""Lets each allocation of a run fail in turn, one a run, and looks at what then stands.

    growths.py PROGRAM

Each script below runs once for each allocation that it makes, of which the Nth is refused (nth_allocation.c, which `cc` builds).
A run must end with status 0 and all that the script does, or with status 4, its line, and what a front of its statements does:
their files and their text, and then at most a front of what the next one prints. No other file may be there, and no run may end by a
signal. What the statements do is written out below by hand. The last line says how many runs there were of each script.

It traces nothing and needs no right; it takes some minutes, so the gate doesn't run it. A program that brings its own allocator, as
those that are built with checks do, isn't reached; then it says so and fails.
"""
import collections
import json
import os
import shutil
import signal
import subprocess
import sys
import tempfile

HERE = os.path.dirname(os.path.abspath(__file__))
SECONDS = 60
OUT_OF_MEMORY = b"xrs: out of memory\n"

Script = collections.namedtuple("Script", "name files text effects")
# What a statement leaves behind: a text on the output, or a file.
Printed = collections.namedtuple("Printed", "text")
Put = collections.namedtuple("Put", "name bytes")


def months():
    """The greatest of each month, written and read again. Its bytes are those of the case of that name."""
    with open(os.path.join(HERE, "cases", "greatest-of-each-month-written.json")) as f:
        case = json.load(f)
    files = {"t.nc": bytes.fromhex(case["files"]["t.nc"]["hex"])}
    effects = [Put("m.nc", bytes.fromhex(case["written"]["m.nc"]["hex"])), Printed(case["stdout"])]
    return Script("months, written and read", files, case["files"]["s.xrs"]["text"], effects)


def groups():
    """Groups by a field of dates and by a coordinate, and bins of years."""
    text = """\
g = DataArray([1, 2, 4, 8], dims=["time"], coords={"time": times("days since 2000-01-01", [0, 10, 31, 366])})
print(g.groupby("time.month").sum())
k = g.assign_coords(c=DataArray([1, NA, 1, 2], dims=["time"]))
print(k.groupby("c").sum())
print(g.resample(time="YS").sum())
"""
    return Script("groups and bins", {}, text, [
        Printed("DataArray - (month: 2) int64\n11 4\ncoord month int64 (month): 1 2\n"),
        Printed("DataArray - (c: 2) int64\n5 8\ncoord c int64 (c): 1 2\n"),
        Printed("DataArray - (time: 2) int64\n7 8\ncoord time time (time): 2000-01-01T00:00:00 2001-01-01T00:00:00\n")])


def parts():
    """Parts of a dimension that are combined, with a file between."""
    text = """\
a = DataArray([10, 20, 30], dims=["x"], coords={"x": [1, 2, 3]})
lo = a.isel(x=slice(2)).to_dataset(name="v")
hi = a.isel(x=[2]).to_dataset(name="v")
print(combine_by_coords([hi, lo])["v"])
"""
    return Script("parts combined", {}, text, [Printed("DataArray v (x: 3) int64\n10 20 30\ncoord x int64 (x): 1 2 3\n")])


def over_a_link():
    """A sum written over a file behind a link and over a new one, with a text between."""
    with open(os.path.join(HERE, "..", "examples", "a.nc"), "rb") as f:
        one = f.read()
    # one variable of ints, whose three cells are the file's last bytes
    assert one.endswith(b"".join(n.to_bytes(4, "big") for n in (1, 2, 3))) and len(one) == 92
    next_ = one[:-12] + b"".join(n.to_bytes(4, "big") for n in (2, 3, 4))
    text = """\
o = open_dataset("a.nc")["v"]
(o + 1).to_netcdf("l.nc", format="NETCDF3_CLASSIC")
print(o)
o.to_netcdf("b.nc", format="NETCDF3_CLASSIC")
print(open_dataset("a.nc")["v"])
"""
    return Script("over a link", {"a.nc": one, "l.nc": "a.nc"}, text, [
        Put("a.nc", next_), Printed("DataArray v (x: 3) int32\n1 2 3\n"), Put("b.nc", one), Printed("DataArray v (x: 3) int32\n2 3 4\n")])


def prepare(folder, script):
    os.makedirs(folder)
    for name, data in script.files.items():
        path = os.path.join(folder, name)
        if isinstance(data, str):
            os.symlink(data, path)
        else:
            with open(path, "wb") as f:
                f.write(data)
    with open(os.path.join(folder, "s.xrs"), "w") as f:
        f.write(script.text)


def files_in(folder):
    found = {}
    for name in os.listdir(folder):
        path = os.path.join(folder, name)
        if os.path.islink(path):
            found[name] = os.readlink(path)
        else:
            with open(path, "rb") as f:
                found[name] = f.read()
    return found


def is_left(script, files, out, whole):
    """Whether a front of the statements leaves these files and this text; all of them where the whole is asked for."""
    stands, text = dict(script.files) | {"s.xrs": script.text.encode()}, b""
    for number in range(len(script.effects) + 1):
        effect = script.effects[number] if number < len(script.effects) else None
        more = effect.text.encode() if isinstance(effect, Printed) else b""
        if files == stands and (number == len(script.effects) if whole else out.startswith(text) and (text + more).startswith(out)):
            return not whole or out == text
        text += more
        if isinstance(effect, Put):
            stands[effect.name] = effect.bytes
    return False


def run(program, shim, top, script, failing):
    """One run, in which this allocation fails: what was wrong with it, and how many allocations it made."""
    folder, told = os.path.join(top, "room"), os.path.join(top, "told")
    prepare(folder, script)
    environment = {"LD_PRELOAD": shim, "FAILING_ALLOCATION": str(failing), "ALLOCATIONS_TOLD": told}
    ran = subprocess.run([program, "s.xrs"], cwd=folder, env=environment, stdin=subprocess.DEVNULL, capture_output=True, timeout=SECONDS)
    files = files_in(folder)
    shutil.rmtree(folder)
    made = 0
    if os.path.exists(told):
        with open(told) as f:
            made = int(f.read())
        os.remove(told)
    is_whole = ran.returncode == 0
    sound = (ran.returncode, ran.stderr) in ((0, b""), (4, OUT_OF_MEMORY))
    if sound and is_left(script, files, ran.stdout, is_whole):
        return None, made, ran.returncode
    return (ran.returncode, ran.stdout[:300], ran.stderr[:300], sorted(files)), made, ran.returncode


def main():
    program, wrong, told = os.path.abspath(sys.argv[1]), 0, []
    with tempfile.TemporaryDirectory() as top:
        shim = os.path.join(top, "nth_allocation.so")
        subprocess.run(["cc", "-O1", "-D_GNU_SOURCE", "-shared", "-fPIC", "-o", shim, os.path.join(HERE, "nth_allocation.c")], check=True)
        for script in (months(), groups(), parts(), over_a_link()):
            fault, made, status = run(program, shim, top, script, 0)
            if fault or status or not made:
                print(f"{script.name}: {fault or 'no allocation was seen'}")
                wrong += 1
                continue
            ended, number = collections.Counter(), 1
            while number <= made:
                fault, _, status = run(program, shim, top, script, number)
                ended[status] += 1
                if fault:
                    print(f"{script.name}: allocation {number}: {fault}")
                    wrong += 1
                number += 1
            told.append(f"{script.name}: {made} runs, {ended[0]} done, {ended[4]} out of memory")
    print("; ".join([*told, f"{wrong} wrong"]))
    return 1 if wrong else 0


if __name__ == "__main__":
    signal.signal(signal.SIGPIPE, signal.SIG_DFL)
    sys.exit(main())
