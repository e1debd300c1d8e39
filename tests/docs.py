#!/usr/bin/env python3
"""Runs the examples of README.md and of the pages in docs over a built program, each in a folder with the files of examples.

    docs.py PROGRAM

- A block `script` is run as `xrs s.xrs`, and must print the block `output` after it, with a line on standard error at its end
  where the run is refused, and end with the status that such a line has.
- A block `console` is a session of the shell: after each line that begins with `$ ` stands what the command writes.
- In a table whose head is `| Script | Answer | ..`, each script is answered with the fault named, or with none, and a statement in
  the later columns is carried out. A line `Before each: ` above it has the statements that stand before each of its scripts.
- The table of faults in docs/FAULTS.md has the texts of crates/xr_types/src/fault.rt, each with a script that meets it.
- The table of docs/FORMAT.md that takes a file apart has the file's bytes.

A session that needs a tool which isn't there is skipped, and the output says so. The last line is 'N passed, M failed, K skipped'.
"""
import os
import re
import shutil
import subprocess
import sys
import tempfile

TOP = os.path.realpath(os.path.join(os.path.dirname(os.path.abspath(__file__)), ".."))
TOOLS = ["gzip", "ncdump", "nccopy", "ncgen", "ncks", "ncrcat", "ncatted", "ncap2", "cdo", "ncvalidator"]
MARK = "--- the next command ---"


def read(name):
    with open(os.path.join(TOP, name), encoding="utf-8") as f:
        return f.read()


class Folder:
    """A folder with the files of examples, and the program under its name."""

    def __init__(self, program):
        self.held = tempfile.TemporaryDirectory()
        self.path = os.path.join(self.held.name, "files")
        self.bin = os.path.join(self.held.name, "bin")
        os.mkdir(self.path)
        os.mkdir(self.bin)
        for name in os.listdir(os.path.join(TOP, "examples")):
            if name.endswith(".nc"):
                shutil.copy(os.path.join(TOP, "examples", name), self.path)
        os.symlink(program, os.path.join(self.bin, "xrs"))

    def script(self, text):
        with open(os.path.join(self.path, "s.xrs"), "w", encoding="utf-8") as f:
            f.write(text)
        made = subprocess.run([os.path.join(self.bin, "xrs"), "s.xrs"], cwd=self.path, capture_output=True, text=True, timeout=60)
        return made.stdout + made.stderr, made.returncode

    def session(self, commands):
        """What each command writes."""
        lines = []
        for command in commands:
            lines += [f"printf '%s\\n' '{MARK}'", "(exit ${status:-0})", command, "status=$?"]
        env = os.environ | {"PATH": self.bin + os.pathsep + os.environ["PATH"], "LC_ALL": "C.UTF-8"}
        made = subprocess.run(["bash", "-c", "exec 2>&1\n" + "\n".join(lines)], cwd=self.path, env=env, capture_output=True, text=True,
                              stdin=subprocess.DEVNULL, timeout=120)
        return made.stdout.split(MARK + "\n")[1:]


def status_of(output):
    """The status that a run has which ends with this output."""
    last = output.rstrip("\n").split("\n")[-1]
    for begin, status in (("xrs: statement ", 1), ("xrs: line ", 2), ("xrs: no script", 2), ("xrs: usage", 2), ("xrs: storage fault", 3), ("xrs: out of memory", 4)):
        if last.startswith(begin):
            return status
    return 0


def commands_of(block):
    """The commands of a session, a text that they read from the shell among them, each with what follows it."""
    found, waiting = [], None
    for line in block.split("\n")[:-1]:
        if waiting is not None:
            found[-1][0].append(line)
            if line == waiting:
                waiting = None
        elif line.startswith("$ "):
            found.append(([line[2:]], []))
            here = re.search(r"<<'?(\w+)'?", line)
            waiting = here.group(1) if here else None
        elif found:
            found[-1][1].append(line)
        else:
            raise ValueError(f"a session begins with {line!r}")
    return [("\n".join(command), "".join(it + "\n" for it in said)) for command, said in found]


def cells_of(line):
    return [it.strip().replace("\\|", "|") for it in re.split(r"(?<!\\)\|", line.strip())[1:-1]]


def tables(text):
    """The tables of scripts: the statements before each script, and the rows."""
    for it in re.finditer(r"^\| Script \| Answer \|.*\n\|[-|]+\n((?:\|.*\n)+)", text, re.M):
        before = re.findall(r"^Before each: (.*)$", text[:it.start()], re.M)
        yield "".join(re.sub(r"`", "", s).strip() + "\n" for s in (re.findall(r"`[^`]+`", before[-1]) if before else [])), it.group(1)


class Checks:
    def __init__(self, program):
        self.program, self.passed, self.wrong, self.skipped = program, 0, [], 0

    def check(self, holds, said):
        if holds:
            self.passed += 1
        else:
            self.wrong.append(said)

    def page(self, name):
        text = read(name)
        for script, output in re.findall(r"```script\n(.*?)```\n```output\n(.*?)```", text, re.S):
            got, status = Folder(self.program).script(script)
            self.check((got, status) == (output, status_of(output)), f"{name}: script {script!r}: {got!r} and {status}, not {output!r} and {status_of(output)}")
        for block in re.findall(r"```console\n(.*?)```", text, re.S):
            self.session(name, block)
        for before, rows in tables(text):
            for line in rows.split("\n")[:-1]:
                self.row(name, before, cells_of(line))

    def session(self, name, block):
        wanted = commands_of(block)
        missing = [it for it in TOOLS if any(re.search(rf"\b{it}\b", command) for command, _ in wanted) and not shutil.which(it)]
        if missing:
            print(f"skipped: a session of {name} needs {', '.join(missing)}")
            self.skipped += 1
            return
        got = Folder(self.program).session([command for command, _ in wanted])
        for (command, said), it in zip(wanted, got):
            self.check(it == said, f"{name}: $ {command}: {it!r}, not {said!r}")
        self.check(len(got) == len(wanted), f"{name}: {len(wanted)} commands, {len(got)} answers")

    def row(self, name, before, cells):
        """A script of a table, and what it is answered."""
        scripts = re.findall(r"`([^`]+)`", cells[0])
        faults = re.findall(r"`([^`]+)`", cells[1])
        for script in scripts:
            got, status = Folder(self.program).script(before + script + "\n")
            last = got.rstrip("\n").split("\n")[-1]
            if faults:
                holds = status in (1, 2) and re.fullmatch(rf"xrs: (?:statement|line) \d+: {re.escape(faults[0])}", last)
            else:
                holds = status == 0
            self.check(holds, f"{name}: {script}: {last!r} and {status}, not {cells[1]}")
        for cell in cells[2:]:
            for script in re.findall(r"`([^`]+)`", cell):
                if re.match(r"print\(|(?:\w+, )*\w+(?:\[\"\w+\"\])? = |[\w.\"\[\]]+\.to_netcdf\(", script):
                    got, status = Folder(self.program).script(before + script.replace("; ", "\n") + "\n")
                    self.check(status == 0, f"{name}: {script}: {got!r} and {status}")

    def faults(self):
        """The table of faults has those of the code, each with a script that meets it, where one can."""
        code = read("crates/xr_types/src/fault.rt")
        numbers = dict(re.findall(r"Fault::(\w+)(?:\(.*?\))? => (\d+),", code))
        words = {int(numbers[fault]): text for fault, text in re.findall(r'Fault::(\w+)(?:\(.*?\))? => "(.*?)",', code)}
        rows = re.findall(r"^\| F(\d+) \| (.*?) \| .*? \| (?:`(.*)` )?\|$", read("docs/FAULTS.md"), re.M)
        self.check([int(it[0]) for it in rows] == sorted(words), "the table of docs/FAULTS.md hasn't each fault of the code once")
        for number, text, script in rows:
            plain = re.sub(r" N$| KIND at OFFSET$", "", text)
            self.check(plain == words.get(int(number)), f"F{number} is {words.get(int(number))!r} in the code, not {plain!r}")
            if script:
                got, status = Folder(self.program).script(script + "\n")
                self.check(status == 1 and re.fullmatch(rf"xrs: statement 1: F{number} {re.escape(plain)}.*\n", got), f"script {script!r}: {got!r}, not F{number}")
        for fault, script in re.findall(r"^\| `((?:bad|too|not) [\w-]+)` \| .*? \| `([^`]*)` \|$", read("docs/FAULTS.md"), re.M):
            got, status = Folder(self.program).script(script + "\n")
            self.check((got, status) == (f"xrs: line 1: {fault}\n", 2), f"script {script!r}: {got!r}, not {fault}")

    def taken_apart(self):
        """The table of a file's bytes has all of them, in order."""
        with open(os.path.join(TOP, "examples", "a.nc"), "rb") as f:
            data = f.read()
        at = 0
        for begin, bytes_ in re.findall(r"^\| (\d+) \| ((?:`[0-9a-f ]+` ?)+)\|", read("docs/FORMAT.md"), re.M):
            piece = bytes.fromhex(re.sub(r"[` ]", "", bytes_))
            self.check(int(begin) == at and data[at:at + len(piece)] == piece, f"docs/FORMAT.md: the bytes from {begin} on aren't those of examples/a.nc")
            at += len(piece)
        self.check(at == len(data), f"docs/FORMAT.md takes {at} bytes of examples/a.nc apart, which has {len(data)}")

    def texts_of_files(self):
        """A file of examples that stands there as text too is made of that text."""
        names = [it[:-4] for it in sorted(os.listdir(os.path.join(TOP, "examples"))) if it.endswith(".cdl")]
        if not shutil.which("ncgen"):
            print("skipped: the files of examples are made by ncgen")
            self.skipped += 1
            return
        with tempfile.TemporaryDirectory() as folder:
            for name in names:
                made = os.path.join(folder, name + ".nc")
                subprocess.run(["ncgen", "-k", "nc3", "-o", made, os.path.join(TOP, "examples", name + ".cdl")], check=True)
                with open(made, "rb") as f, open(os.path.join(TOP, "examples", name + ".nc"), "rb") as g:
                    self.check(f.read() == g.read(), f"examples/{name}.nc isn't what ncgen makes of examples/{name}.cdl")

    def scripts(self):
        """Each script of examples is carried out."""
        for name in sorted(os.listdir(os.path.join(TOP, "examples"))):
            if name.endswith(".xrs"):
                got, status = Folder(self.program).script(read(f"examples/{name}"))
                self.check(status == 0, f"examples/{name}: {got!r} and {status}")


def main():
    checks = Checks(os.path.abspath(sys.argv[1]))
    for name in ["README.md"] + [f"docs/{it}" for it in sorted(os.listdir(os.path.join(TOP, "docs"))) if it.endswith(".md")]:
        checks.page(name)
    checks.faults()
    checks.taken_apart()
    checks.texts_of_files()
    checks.scripts()
    for it in checks.wrong:
        print(it)
    print(f"{checks.passed} passed, {len(checks.wrong)} failed, {checks.skipped} skipped")
    return 1 if checks.wrong else 0


if __name__ == "__main__":
    sys.exit(main())
