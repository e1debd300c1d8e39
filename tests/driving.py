"""Opens a file with the program and writes it again, and compares what it says and writes with the plain readers of the format and of
datasets, and with the plain writer."""
import collections
import os
import re
import signal
import sys
import zlib

import classic
import datasets
import writing

# Of the processor, and by the clock, since the machine may be busy.
SECONDS, LATEST = 5, 60
SPARE_KIB = 64 * 1024
# How many variables and coordinates of a file are printed.
MOST_PRINTED = 4
FORMATS = {1: ', format="NETCDF3_CLASSIC"', 2: ', format="NETCDF3_64BIT"', 5: ""}

Run = collections.namedtuple("Run", "status signal out err peak_kib late")


class Late(Exception):
    pass


def _alarm(_number, _frame):
    raise Late


class Driver:
    """Runs the program in one folder, counts what it said, and keeps what was wrong."""

    def __init__(self, program, folder):
        self.program, self.folder = os.path.abspath(program), folder
        self.counts, self.wrong = collections.Counter(), []
        signal.signal(signal.SIGALRM, _alarm)

    def path(self, name):
        return os.path.join(self.folder, name)

    def run(self, script):
        """The program over a script, ended where it takes too long."""
        with open(self.path("s.xrs"), "w") as f:
            f.write(script)
        out, err = self.path("out"), self.path("err")
        made = os.O_WRONLY | os.O_CREAT | os.O_TRUNC
        child = os.posix_spawn(self.program, [self.program, "s.xrs"], {}, file_actions=[
            (os.POSIX_SPAWN_OPEN, 1, out, made, 0o600), (os.POSIX_SPAWN_OPEN, 2, err, made, 0o600)])
        late = False
        signal.setitimer(signal.ITIMER_REAL, LATEST)
        try:
            _, status, usage = os.wait4(child, 0)
        except Late:
            late = True
            os.kill(child, signal.SIGKILL)
            _, status, usage = os.wait4(child, 0)
        finally:
            signal.setitimer(signal.ITIMER_REAL, 0)
        with open(out, "rb") as f, open(err, "rb") as g:
            told, said = f.read(), g.read()
        ended = os.waitstatus_to_exitcode(status)
        late = late or usage.ru_utime + usage.ru_stime > SECONDS
        return Run(max(ended, 0), max(-ended, 0), told, said, usage.ru_maxrss, late)

    def fail(self, label, what, run=None):
        said = f": {run.err[:200]!r} {run.out[:200]!r}" if run else ""
        self.wrong.append(f"{label}: {what}{said}")
        self.counts["wrong"] += 1

    def is_sound(self, label, size, run):
        """Whether the run ended by itself, with a status, within its time and memory."""
        if run.late:
            self.fail(label, f"takes more than {SECONDS} seconds of the processor, or {LATEST} by the clock", run)
        elif run.signal:
            self.fail(label, f"ended by signal {run.signal}", run)
        elif run.status > 2:
            self.fail(label, f"ended with {run.status}", run)
        elif run.peak_kib > 2 * size // 1024 + SPARE_KIB:
            self.fail(label, f"took {run.peak_kib // 1024} MiB over a file of {size} bytes", run)
        else:
            return True
        return False

    def open_file(self, label, data, mask=True):
        """Opens the bytes as a dataset, prints, writes and reads it again, and compares. Answers the plain reader's file, or
        its fault as text."""
        with open(self.path("f.nc"), "wb") as f:
            f.write(data)
        try:
            file = classic.read(data)
        except classic.Bad as bad:
            self.refusal(label, data, f"F24 bad file: {bad}")
            return str(bad)
        try:
            self.dataset(label, data, datasets.opened(file, mask), mask)
        except datasets.TooLarge:
            self.refusal(label, data, "F22 too large")
        return file

    def refusal(self, label, data, fault):
        run = self.run('print(open_dataset("f.nc"))\n')
        if not self.is_sound(label, len(data), run):
            return
        if run.err == f"xrs: statement 1: {fault}\n".encode() and not run.out:
            self.counts["refused with the fault"] += 1
        else:
            self.fail(label, f"not refused with {fault}", run)

    def dataset(self, label, data, set_, mask):
        """Prints a dataset and some of its parts, writes it and reads it again; then writes it in one of the formats, with a record
        dimension or without one."""
        named = [name for name in [*set_.vars, *set_.coords, *set_.indexes] if is_sayable(name) and datasets.array_text(set_, name) is not None]
        parts = named[:MOST_PRINTED]
        printed = "".join(f'print(ds["{name}"])\n' for name in parts)
        first, second = [f'ds = open_dataset("{name}", mask={mask})\nprint(ds)\n{printed}' for name in ("f.nc", "w.nc")]
        text = datasets.set_text(set_) + b"".join(datasets.array_text(set_, name) for name in parts)
        run, fault = self.write(label, data, set_, first, second)
        if run is None:
            return
        if not run.out.startswith(text) or fault and run.out != text:
            self.fail(label, f"not the dataset of the file, whose text is {text[:400]!r}", run)
        elif not fault and again(run.out[len(text):]) != again(text):
            self.fail(label, "written and read again it is another", run)
        else:
            self.counts[f"printed; writing refused by {fault.split()[0]}" if fault else "printed, written and read again"] += 1
            run, fault = self.write(label, data, set_, f'ds = open_dataset("f.nc", mask={mask})\n', "", *options(data, set_))
            if run is not None:
                self.counts[f"with options refused by {fault.split()[0]}" if fault else "with options written"] += 1

    def write(self, label, data, set_, first, second, version=5, unlimited=None):
        """Writes the dataset that the statements before open. Answers the run, where it does what the plain writer says, and the fault
        that it was refused with."""
        try:
            file, fault = writing.file_of(set_, version, unlimited), None
        except writing.Refused as refused:
            file, fault = None, str(refused)
        if os.path.exists(self.path("w.nc")):
            os.remove(self.path("w.nc"))
        how = FORMATS[version] + (f', unlimited_dims="{unlimited}"' if unlimited else "")
        run = self.run(f'{first}ds.to_netcdf("w.nc"{how})\n{second}')
        if not self.is_sound(label, len(data), run):
            return None, None
        if fault and (run.status, run.err) != (1, f"xrs: statement {first.count(chr(10)) + 1}: {fault}\n".encode()):
            self.fail(label, f"writing{how} isn't refused with {fault}", run)
        elif not fault and (run.status or run.err):
            self.fail(label, f"writing{how} is refused", run)
        elif file != self.read("w.nc"):
            self.fail(label, f"writing{how} gives other bytes", run)
        else:
            return run, fault
        return None, None

    def read(self, name):
        """The bytes of a file; None where there is none."""
        if not os.path.exists(self.path(name)):
            return None
        with open(self.path(name), "rb") as f:
            return f.read()

    def report(self):
        """Prints what was counted and what was wrong, and ends the script."""
        for line in self.wrong[:20]:
            print(line)
        print("; ".join(f"{self.counts[key]} {key}" for key in sorted(self.counts)))
        sys.exit(1 if self.wrong else 0)


def again(text):
    """What a dataset's text and a reading of its file have in common: variables that weren't loaded aren't in the file, and the number
    for missing cells has the type of its variable there."""
    kept = [line for line in text.split(b"\n") if not line.startswith(b"skipped ")]
    return [re.sub(rb"^attr _FillValue \w+:", b"attr _FillValue:", line) for line in kept]


def options(data, set_):
    """A version and a record dimension to write a dataset with, always the same ones for the bytes of a file."""
    number = zlib.crc32(data)
    dims = [None, None, *filter(is_sayable, set_.sizes), "elsewhere"]
    return [1, 2, 5][number % 3], dims[number // 3 % len(dims)]


def is_sayable(name):
    """Whether a text of the script can hold a name as it is."""
    return all(" " <= c != "\x7f" and c not in '"\\' for c in name)
