#!/usr/bin/env python3
"""Random time axes: of files that netCDF4 wrote, and of scripts; selected by dates and written by the program; beside cftime.

    times_beside_cftime.py PROGRAM [--count N] [--seed S]

A script opens a file whose axis counts times in a random calendar, unit and type, or makes such times by `times`, takes up to
three steps (a time, some times, a slice of periods, the nearest one, positions, other times) and writes what it has. Which
labels a step takes is worked out here, by the dates that cftime gives for the counts: a date lies in a slice of periods where its
first parts do. The text that the program prints has to have those dates, and cftime has to read them in the file that it
writes, in the old units where the counts are whole; xarray too. One script in six ends in a step that has to be refused.

The plain reader of cf_times.py is held against cftime as well, over the files of corpus/whole and over random units. Without
netCDF4, cftime and xarray all is skipped, and the output says so. The last line is 'N the same, M differ'.
"""
import argparse
import os
import random
import re
import subprocess
import sys
import tempfile
import warnings

PYTHON = "/usr/bin/python3"
try:
    import cftime
    import netCDF4
    import numpy
    import xarray
except ImportError:
    has_peer = os.path.exists(PYTHON) and os.path.realpath(sys.executable) != os.path.realpath(PYTHON)
    if has_peer and subprocess.run([PYTHON, "-c", "import cftime, netCDF4, xarray"], capture_output=True).returncode == 0:
        os.execv(PYTHON, [PYTHON, "-B", *sys.argv])
    print("skipped: times beside cftime need netCDF4, cftime and xarray")
    sys.exit(0)

import cf_times
import classic
import datasets

HERE = os.path.dirname(os.path.abspath(__file__))
CALENDARS = ["standard", "gregorian", "proleptic_gregorian", "noleap", "365_day", "360_day"]
CIVIL = CALENDARS[:3]
UNITS = {"days": 86400, "hours": 3600, "minutes": 60, "seconds": 1}
TYPES = {"i1": (1, 8), "i2": (1, 16), "i4": (1, 32), "i8": (5, 64)}
DIGITS = [4, 2, 2, 2, 2, 2]
SIGNS = ["", "-", "-", "T", ":", ":"]


def date_of(seconds, reference, calendar):
    """Year to second of the time so many seconds after a reference, as cftime has it; None outside the years 1 to 9999."""
    try:
        it = cftime.num2date(seconds, f"seconds since {reference}", calendar)
    except (OverflowError, ValueError):
        return None
    date = it.year, it.month, it.day, it.hour, it.minute, it.second
    early = (1582, 10, 15) if calendar in CALENDARS[:2] else (1, 1, 1)
    return date if early <= date[:3] <= (9999, 12, 31) else None


def text_of(date):
    """A date, or its first parts, as a text."""
    return "".join(f"{sign}{part:0{n}}" for sign, part, n in zip(SIGNS, date, DIGITS))


class Axis:
    """Seconds from a reference, with the dates that they stand for, and a cell at each."""

    def __init__(self, reference, calendar, unit, seconds, cells):
        self.reference, self.calendar, self.unit = reference, calendar, unit
        self.seconds, self.cells = seconds, cells

    def date(self, seconds):
        return date_of(seconds, self.reference, self.calendar)

    def dates(self):
        return [self.date(s) for s in self.seconds]

    def at(self, places):
        return Axis(self.reference, self.calendar, self.unit, [self.seconds[i] for i in places], [self.cells[i] for i in places])

    def direction(self):
        pairs = list(zip(self.seconds, self.seconds[1:]))
        if all(a <= b for a, b in pairs):
            return 1
        return -1 if all(a >= b for a, b in pairs) else 0


class Random:
    def __init__(self, seed):
        self.r = random.Random(seed)

    def reference(self, calendar):
        early = calendar not in CALENDARS[:2]
        year = self.r.choice([1999, 2000, 2001, 1900, 2100, self.r.randrange(1583, 9999), self.r.choice([1, 4, 1582, 9998]) if early else 1583])
        month = self.r.choice([1, 2, 2, 3, 12, self.r.randrange(1, 13)])
        last = {"noleap": 28, "365_day": 28, "360_day": 30}.get(calendar, 28)
        day = self.r.choice([1, 28, self.r.randrange(1, (last if month == 2 else 30) + 1)])
        clock = self.r.choice(["", " 00:00:00", " 06:00", " 23:59:59"])
        return f"{year:04}-{month:02}-{day:02}{clock}"

    def axis(self):
        """An axis, and the counts of its unit."""
        while True:
            calendar, unit = self.r.choice(CALENDARS), self.r.choice(list(UNITS))
            reference, size = self.reference(calendar), self.r.choice([0, 1, 2, 3, 4, 5, 6])
            far = self.r.choice([3, 40, 400, 4000]) * self.r.choice([1, max(1, 86400 // UNITS[unit])])
            counts = [self.r.randrange(-far // 4, far) for _ in range(size)]
            form = self.r.choice(["rises", "rises", "falls", "any"])
            if form != "any":
                counts = sorted(counts, reverse=form == "falls")
            made = Axis(reference, calendar, unit, [n * UNITS[unit] for n in counts], [self.r.randrange(-99, 99) for _ in counts])
            if all(made.dates()) and made.date(0):
                return made, counts

    def file(self, path, axis, counts):
        """Writes the axis as a file, with a variable over it; answers the name of the calendar in it."""
        fitting = [t for t, (_, bits) in TYPES.items() if all(-(1 << bits - 1) <= n < 1 << bits - 1 for n in counts)]
        chosen = self.r.choice(fitting)
        form = "NETCDF3_CLASSIC" if TYPES[chosen][0] == 1 else "NETCDF3_64BIT_DATA"
        named = axis.calendar != "standard" or self.r.random() < 0.5
        with netCDF4.Dataset(path, "w", format=form) as f:
            f.createDimension("time", None if not counts or self.r.random() < 0.3 else len(counts))
            time, v = f.createVariable("time", chosen, ("time",)), f.createVariable("v", "i4", ("time",))
            time.units = f"{axis.unit} since {axis.reference}"
            if named:
                time.calendar = axis.calendar
            time[:], v[:] = numpy.array(counts, dtype=chosen), numpy.array(axis.cells, dtype="i4")

    def other(self, axis):
        """A time near those of an axis, in seconds."""
        for _ in range(20):
            s = self.r.choice(axis.seconds or [0]) + self.r.choice([0, 1, -1, 43200, -43200, self.r.randrange(-200000, 200000)])
            if axis.date(s):
                return s
        return 0

    def period(self, axis):
        """The first parts of a date near those of the axis."""
        date = axis.date(self.other(axis))
        return date[:self.r.choice([1, 2, 3, 6])]

    def step(self, axis):
        """A selection, as text, and the axis or the single label that it leaves; None where this one doesn't suit."""
        size, form = len(axis.seconds), self.r.choice(["one", "some", "slice", "slice", "near", "isel", "reindex"])
        distinct = len(set(axis.seconds)) == size
        if form == "one" and size and axis.seconds.count(s := self.r.choice(axis.seconds)) == 1:
            return f'.sel(time="{self.spelled(axis.date(s))}")', axis.at([axis.seconds.index(s)]), True
        if form == "some" and size and distinct:
            places = [self.r.randrange(size) for _ in range(self.r.randrange(1, 4))]
            return f".sel(time={[self.spelled(axis.date(axis.seconds[i])) for i in places]})", axis.at(places), False
        if form == "slice" and axis.direction():
            start, stop = [self.r.choice([None, self.period(axis)]) for _ in range(2)]
            least, most = (start, stop) if axis.direction() > 0 else (stop, start)
            inside = lambda d: (least is None or d[:len(least)] >= least) and (most is None or d[:len(most)] <= most)
            ends = ["None" if it is None else repr(text_of(it)) for it in (start, stop)]
            return f".sel(time=slice({', '.join(ends)}))", axis.at([i for i, d in enumerate(axis.dates()) if inside(d)]), False
        if form == "near" and size and distinct and (axis.direction() > 0 or axis.direction() < 0 and self.r.random() < 0.5):
            s = self.other(axis)
            method = self.r.choice(["pad", "ffill", "backfill", "bfill", "nearest"]) if axis.direction() > 0 else "nearest"
            if method == "nearest":
                found = min(range(size), key=lambda i: (abs(axis.seconds[i] - s), -axis.seconds[i]))
            else:
                back = method in ("pad", "ffill")
                found = min((i for i in range(size) if (axis.seconds[i] <= s if back else axis.seconds[i] >= s)), key=lambda i: abs(axis.seconds[i] - s), default=None)
            if found is None:
                return None
            within = f", tolerance={abs(axis.seconds[found] - s) + self.r.choice([0, 5])}" if self.r.random() < 0.5 else ""
            return f'.sel(time="{text_of(axis.date(s))}", method="{method}"{within})', axis.at([found]), True
        if form == "isel" and size:
            places = [self.r.randrange(size) for _ in range(self.r.randrange(1, 4))]
            return f".isel(time={places})", axis.at(places), False
        if form == "reindex" and distinct:
            seconds = sorted({self.other(axis) for _ in range(self.r.randrange(0, 4))})
            cells = [axis.cells[axis.seconds.index(s)] if s in axis.seconds else -1 for s in seconds]
            texts = [text_of(axis.date(s)) for s in seconds]
            return f".reindex(time={texts}, fill_value=-1)", Axis(axis.reference, axis.calendar, axis.unit, seconds, cells), False
        return None

    def spelled(self, date):
        text = text_of(date)
        return text.replace("T", self.r.choice(["T", " "]))

    def wrong(self, axis):
        """A step that has to be refused, and the number of its fault."""
        size = len(axis.seconds)
        absent = {"noleap": "2000-02-29", "365_day": "1996-02-29", "360_day": "2000-01-31"}.get(axis.calendar, "1900-02-29")
        forms = [(f'.sel(time="{absent}T00:00:00")', 5), (f'.sel(time=slice("{absent}", None))', 5), ('.sel(time="2000")', 5),
                 ('.sel(time=0)', 10), ('.sel(time=slice(0, 1))', 10), (f".isel(time={size})", 7), ('.sel(time="2000-01-01T00:00")', 5)]
        s = self.other(axis)
        if s not in axis.seconds:
            forms.append((f'.sel(time="{text_of(axis.date(s))}")', 6))
            if len(set(axis.seconds)) == size:
                forms.append((f'.reindex(time=["{text_of(axis.date(s))}"])', 11))
        for s in axis.seconds:
            if axis.seconds.count(s) > 1:
                forms.append((f'.sel(time="{text_of(axis.date(s))}")', 8))
        if not axis.direction():
            forms.append(('.sel(time=slice("2000", None))', 9))
        return self.r.choice(forms)


def printed(axis, single, kind):
    """What the program prints of an array."""
    dates = " ".join(map(text_of, axis.dates()))
    if single:
        return f"DataArray v () {kind}\n{axis.cells[0]}\ncoord time time (): {dates}\n"
    cells = " ".join(map(str, axis.cells)) + "\n" if axis.cells else ""
    return f"DataArray v (time: {len(axis.cells)}) {kind}\n{cells}coord time time (time):{' ' if dates else ''}{dates}\n"


def read_again(path):
    """The dates of a file as cftime reads them, its cells and the text of its units."""
    with netCDF4.Dataset(path) as f:
        time, v = f["time"], f["v"]
        f.set_auto_mask(False)
        calendar = getattr(time, "calendar", "standard")
        dates = [cftime.num2date(int(n), time.units, calendar) for n in numpy.ravel(time[...])]
        return [(d.year, d.month, d.day, d.hour, d.minute, d.second) for d in dates], numpy.ravel(v[...]).tolist(), time.units


def by_xarray(path):
    with warnings.catch_warnings():
        warnings.simplefilter("ignore")
        with xarray.open_dataset(path, use_cftime=True) as f:
            return [(d.year, d.month, d.day, d.hour, d.minute, d.second) for d in numpy.ravel(f["time"].values)]


def round_of(seed, program, folder):
    """One script; what is wrong, and its text."""
    for name in os.listdir(folder):
        os.remove(os.path.join(folder, name))
    r = Random(seed)
    axis, counts = r.axis()
    if r.r.random() < 0.7:
        r.file(os.path.join(folder, "f.nc"), axis, counts)
        lines, kind = ['v = open_dataset("f.nc")["v"]'], "int32"
    else:
        made = f'times("{axis.unit} since {axis.reference}", {counts}, calendar="{axis.calendar}")'
        lines, kind = [f'v = DataArray({axis.cells}, ["time"], {{"time": {made}}}, "v", "int16")'], "int16"
    single = False
    for _ in range(r.r.randrange(0, 4)):
        if not single and (found := r.step(axis)):
            call, axis, single = found
            lines.append(f"v = v{call}")
    lines += ["print(v)", 'v.to_netcdf("own.nc")']
    refused = [] if single or r.r.random() > 1 / 6 else [r.wrong(axis)]
    lines += [f"w = v{call}" for call, _ in refused]
    with open(os.path.join(folder, "s.xrs"), "w") as f:
        f.write("\n".join(lines) + "\n")
    ran = subprocess.run([program, "s.xrs"], cwd=folder, capture_output=True, text=True, timeout=60)
    wrong, own = [], os.path.join(folder, "own.nc")
    if ran.stdout != printed(axis, single, kind):
        wrong.append(f"printed {ran.stdout!r}, not {printed(axis, single, kind)!r}")
    if refused and not (ran.returncode == 1 and re.fullmatch(rf"xrs: statement {len(lines)}: F{refused[0][1]} .*\n", ran.stderr)) or not refused and ran.returncode:
        wrong.append(f"ended with {ran.returncode} {ran.stderr!r}, not {refused}")
    if os.path.exists(own):
        dates, cells, units = read_again(own)
        if (dates, cells) != (axis.dates(), axis.cells):
            wrong.append(f"cftime reads {dates} and {cells}, not {axis.dates()} and {axis.cells}")
        if dates and by_xarray(own) != dates:
            wrong.append(f"xarray reads {by_xarray(own)}, not {dates}")
        if all(s % UNITS[axis.unit] == 0 for s in axis.seconds) and units != f"{axis.unit} since {axis.reference}":
            wrong.append(f"written in {units!r}")
    elif not wrong:
        wrong.append("no file")
    return wrong, "\n".join(lines)


def reader_beside_cftime(r, count):
    """What the plain reader has otherwise than cftime, over random units and counts, and how many were compared."""
    wrong, same = [], 0
    for _ in range(count):
        calendar, unit = r.choice(CALENDARS), r.choice(list(UNITS))
        reference = f"{r.choice([1, 4, 100, 1582, 1900, 2000, 9999]):04}-{r.randrange(1, 13):02}-{r.randrange(1, 32):02}{r.choice(['', ' 12:30:15', 'T06:00'])}"
        coding = cf_times.coding_of(f"{unit} since {reference}".encode(), calendar.encode())
        number = r.randrange(-3000000, 3000000) * r.choice([1, 86400 // UNITS[unit]])
        time = coding and cf_times.decoded(coding, number)
        if not time:
            continue
        date = date_of(number * UNITS[unit], reference.replace("T", " "), calendar)
        if date is None or text_of(date) != str(time):
            wrong.append(f"{number} {unit} since {reference} in {calendar} is {time} for the plain reader, {date} for cftime")
        same += 1
    return wrong, same


def corpus_beside_cftime():
    wrong, same = [], 0
    folder = os.path.join(HERE, "corpus", "whole")
    for name in sorted(os.listdir(folder)):
        with open(os.path.join(folder, name), "rb") as f:
            opened = datasets.opened(classic.read(f.read()))
        with netCDF4.Dataset(os.path.join(folder, name)) as f:
            for d, index in opened.indexes.items():
                if index.kind == "time":
                    dates = cftime.num2date(f[d][:], f[d].units, getattr(f[d], "calendar", "standard"))
                    same += 1
                    if [str(t) for t in index.labels] != [text_of((t.year, t.month, t.day, t.hour, t.minute, t.second)) for t in dates]:
                        wrong.append(f"{name}: the plain reader has {index.labels}, cftime {dates}")
    return wrong, same


def main():
    options = argparse.ArgumentParser()
    options.add_argument("program")
    options.add_argument("--count", type=int, default=200)
    options.add_argument("--seed", type=int, default=1)
    options = options.parse_args()
    program = os.path.abspath(options.program)
    wrong, same = reader_beside_cftime(random.Random(options.seed), 10 * options.count)
    more, others = corpus_beside_cftime()
    wrong, same = wrong + more, same + others - len(wrong) - len(more)
    with tempfile.TemporaryDirectory() as folder:
        for seed in range(options.seed, options.seed + options.count):
            said, story = round_of(seed, program, folder)
            same += not said
            if said:
                wrong.append(f"seed {seed}:\n{story}\n" + "\n".join(said) + "\n")
    for it in wrong:
        print(it)
    print(f"{same} the same, {len(wrong)} differ")
    return 1 if wrong else 0


if __name__ == "__main__":
    sys.exit(main())
