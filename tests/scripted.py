"""Scripts that make arrays and datasets, put them together and show what comes of it, and the rounds of the tests of calls that do so.

Where numpy, cftime and xarray are missing, a test that imports this ends, and its output says so.
"""
import os

import labelled
import writing
from classic import Attribute
from datasets import CHAR, FLOAT, INT
from families import FILL
from labelled import Refused
from valued import Part, Set, assigned

# After the modules before it, which end the test where it is missing.
import numpy


class Script:
    """The lines of a script that makes values, and the files that it opens."""

    def __init__(self, r):
        self.r, self.lines, self.files = r, [], {}

    def write(self, folder):
        for name, data in self.files.items():
            with open(os.path.join(folder, name), "wb") as f:
                f.write(data)

    def array(self, name, a):
        self.lines.append(f"{name} = {a.script(self.r)}")

    def set(self, name, s, opened=()):
        """A dataset, variable by variable. What a script can't write out, the names of which are given, stands in a file: bytes of text,
        coordinates over several dimensions, and what isn't loaded. A variable that goes again brings labels that no other has."""
        coords = {n: c for n, c in s.coords.items() if n not in opened}
        parts = [p for p in s.parts.values() if p.name not in opened]
        alone = [d for d, i in s.index.items() if i and not any(d in p.dims for p in parts)]
        if alone:
            parts.append(Part("idle", alone, "int64", numpy.zeros([s.sizes[d] for d in alone], dtype=object)))
        is_there, labels = bool(opened or s.skipped), {d for d, i in s.index.items() if i}
        if is_there:
            self.files[f"{name}.nc"] = file_of(s, opened)
            self.lines.append(f'{name} = open_dataset("{name}.nc", mask=True)')
        for part in parts:
            table = [f'"{d}": {s.labels(self.r, d)}' for d in part.dims if d in labels]
            table += [coords.pop(n).coordinate() for n, c in list(coords.items()) if set(c.dims) <= set(part.dims)]
            labels -= set(part.dims)
            made = part.script(table) + assigned(part.attrs)
            self.lines.append(f'{name}["{part.name}"] = {made}' if is_there else f'{name} = {made}.to_dataset("{part.name}")')
            is_there = True
        if alone:
            self.lines.append(f'{name} = {name}.drop_vars("idle")')
        if coords:
            self.lines.append(f"{name} = {name}.assign_coords({', '.join(f'{n}={c.value()}' for n, c in coords.items())})")
        if s.attrs:
            self.lines.append(f"{name} = {name}{assigned(s.attrs)}")


def file_of(s, opened):
    """A file of some variables and coordinates of a dataset, whose dimensions have no labels, and of what isn't loaded."""
    parts = [p for p in [*s.parts.values(), *s.coords.values()] if p.name in opened]
    sizes = {d: s.sizes[d] for d in s.dims if any(d in p.dims for p in parts)}
    made = [writing.Var(p.name, p.dims, CHAR if p.kind == "char" else INT, p.cells.ravel().tolist(), file_attrs(p), fills=[FILL]) for p in parts]
    for v in made:
        v.cells = [FILL if it is None else int(it) for it in v.cells]
    made += [writing.Var(n, [], FLOAT, [0], []) for n in s.skipped]
    names = " ".join(p.name for p in parts if p.name in s.coords)
    return writing.spelled(5, sizes, None, [writing.text_attr("coordinates", names.encode())] if names else [], made)


def file_attrs(part):
    return [writing.text_attr(n, it.encode()) if isinstance(it, str) else Attribute(n, INT, writing.value_bytes(INT, [it])) for n, it in part.attrs.items()]


def shown(r, name, made):
    """Statements that print a value, its variables and some of its labels and coordinates, and what they print."""
    lines, printed = [f"print({name})"], made.lines()
    for it in made.picks():
        if isinstance(made, Set) and it.name in made.parts or r.random() < 0.3:
            lines.append(f'print({name}["{it.name}"])')
            printed += it.lines()
    return lines, printed


def shown_options(r, options):
    """Keywords and their values, of which one that stands there by itself is left out in most scripts."""
    return "".join(f", {keyword}={value}" for keyword, value, usual in options if value and not (value == usual and r.random() < 0.6))


def fill_word(case):
    return ("NA" if case.fill is None else str(case.fill)) if case.fills else None


# ---- rounds

def outcome_of(case):
    """What is made, or the fault."""
    try:
        return case.made()
    except Refused as refused:
        return refused


def meets(outcome, fault):
    """Whether this fault is met, or with None whether none is. A fault is a number, or what doesn't go together."""
    if isinstance(outcome, Refused):
        return fault is not None and fault in (outcome.args[0], getattr(outcome, "about", None))
    return fault is None


def case_with(make, r, fault):
    """A case that meets a fault, or none, and what comes of it, if one is found."""
    for _ in range(100):
        case = make(r, fault is not None)
        if case.values:
            outcome = outcome_of(case)
            if meets(outcome, fault):
                return case, outcome
    return None


def round_with(make, faults, odd, beside):
    """A round of a test: a case that is made, which meets one of the faults in three of ten, or a call whose arguments don't fit, and what is
    wrong beside xarray and the program."""
    def round_of(r, program, folder):
        found = None
        while not found:
            found = case_with(make, r, r.choice(faults) if r.random() < 0.3 else None)
        case, outcome = found
        case.script.write(folder)
        if r.random() < 0.05:
            text, fault = odd(r, case)
            lines = [*case.script.lines, f"r = {text}"]
            name = text.split("(")[0].split(".")[-1] if fault == 1 else None
            return labelled.run_beside(program, folder, lines, "", len(lines), fault, name), "\n".join(lines)
        lines = [*case.script.lines, f"r = {case.text()}"]
        try:
            wrong = beside(case, outcome)
        except Exception as raised:
            wrong = [f"xarray raises {raised!r}"]
        if isinstance(outcome, Refused):
            return wrong + labelled.run_beside(program, folder, lines, "", len(lines), *outcome.args), "\n".join(lines)
        prints, printed = shown(r, "r", outcome)
        wanted = "".join(line + "\n" for line in printed)
        return wrong + labelled.run_beside(program, folder, lines + prints, wanted, len(lines), None), "\n".join(lines + prints)
    return round_of
