#!/usr/bin/env python3
"""Random operators, choices and variables put into datasets, over arrays that meet by their labels, beside xarray and numpy.

    operators_beside_xarray.py PROGRAM [--count N] [--seed S]

Each script writes three to five arrays out, of up to three dimensions in any order, of every kind, with missing cells or without.
Their labels are whole numbers of every kind, texts and times of three calendars, which are equal, overlap, repeat, stand in any
order, or aren't there; their names, attributes and coordinates agree or conflict. Two to six statements compute with them and with
what came of them: operators between two arrays, and beside a literal on either side, `-`, `~`, `astype`, `fillna`, `isnull`,
`notnull`, both forms of `where`, and `ds["v"] = a`; all is printed.

xarray carries the same out over the positions of the cells: which cells meet, dimensions, labels, name and coordinates are what it
has. What cells become numpy says, in the kind of whole numbers that holds both; which are missing is worked out beside. Where no cell
is missing, and no operand is a single cell, xarray computes with the cells too, and has to have the same. Attributes go by the rule
of LANGUAGE.md; those of one array xarray keeps too.

One script in six ends in a statement that has to be refused, with the fault that the page gives. xarray refuses repeated labels,
labels that differ and other sizes (F8, F14, F13) as well, and makes NaN where a variable that is put into a dataset lacks a label
(F11); the other refusals are here by design. Without numpy, cftime and xarray all is skipped, and the output says so. The last line
is 'N the same, M differ'.
"""
import operator
import sys

import labelled
from labelled import KINDS, Refused, promoted
from valued import Array, Part, Set, joined_index, joined_notes, labels_differ, objects, odd_index, random_array, shared_attrs, without_fills

# After the modules before it, which end the test where they are missing.
import numpy
import xarray

ARITHMETIC = {"+": numpy.add, "-": numpy.subtract, "*": numpy.multiply, "//": numpy.floor_divide, "%": numpy.remainder}
BITS = {"&": numpy.bitwise_and, "|": numpy.bitwise_or, "^": numpy.bitwise_xor}
COMPARISONS = {"==": operator.eq, "!=": operator.ne, "<": operator.lt, "<=": operator.le, ">": operator.gt, ">=": operator.ge}
OPERATORS = {"+": operator.add, "-": operator.sub, "*": operator.mul, "//": operator.floordiv, "%": operator.mod, "&": operator.and_,
             "|": operator.or_, "^": operator.xor, **COMPARISONS}
FAULTS = [4, 5, 8, 10, 11, 12, 13, 14, 25]


def is_in(kind, n):
    limits = numpy.iinfo(kind) if kind != "bool" else None
    return limits.min <= n <= limits.max if limits else n in (0, 1)


def word_of(literal):
    return "NA" if literal is None else f"({literal})" if literal < 0 else str(literal)


def coordinates(there, operands):
    """The coordinates that xarray has. It spreads those of one name over each other's dimensions before it compares them: here they
    have to have the same dimensions. A dimension hides a coordinate of its name, also without labels."""
    made = {}
    for name, found in there.coords.items():
        having = [a.coords[name] for a in operands if name in a.coords]
        if name not in there.dims and all(c.dims == having[0].dims for c in having):
            first = having[0]
            cells = first.cells if first.kind in ("text", "time") else numpy.array(found.values, dtype=object)
            made[name] = Part(name, first.dims, first.kind, cells, first.masked, shared_attrs([c.attrs for c in having]), first.sort)
    return made


# ---- statements: the text, the fault that one meets, the value, and what xarray does otherwise


class Step:
    """A call on arrays and literals, whose arrays are joined by their labels: its text and its arrays in order."""

    join, keeps_attrs = "inner", False

    def __init__(self, text, arrays):
        self.text, self.arrays = text, arrays

    def kind(self):
        """The kind of the cells, or the first fault of kinds."""

    def check_literals(self):
        """Whether the literals fit, which is looked at last."""

    def masked(self):
        return any(a.masked for a in self.arrays)

    def attrs(self, lists):
        return without_fills(lists[0] if self.keeps_attrs else shared_attrs(lists))

    def beside(self):
        """The cells in the order of xarray's result, that result, and what it has otherwise."""

    def fault(self):
        try:
            self.kind()
            joined_index(self.arrays, self.join)
            self.check_literals()
        except Refused as refused:
            return refused.args[0]
        return None

    def refused_beside(self, fault):
        """What xarray does otherwise than to refuse repeated and other labels and sizes."""
        if fault in (8, 13, 14):
            try:
                self.beside()
            except (TypeError, ValueError):
                return []
            return [f"xarray refuses nothing, not F{fault}"]
        return []

    def result(self):
        kind, (index, sizes) = self.kind(), joined_index(self.arrays, self.join)
        with xarray.set_options(keep_attrs=self.keeps_attrs):
            cells, there, wrong = self.beside()
        if there.dims != tuple(index) or there.shape != tuple(sizes.values()):
            wrong.append(f"xarray has {dict(there.sizes)}, not {sizes}")
        wrong += labels_differ(there, index)
        attrs = self.attrs([a.attrs for a in self.arrays])
        if self.keeps_attrs and without_fills(there.attrs) != without_fills(attrs):
            wrong.append(f"xarray has the attributes {there.attrs}")
        part = Part(there.name, list(there.dims), kind, cells, self.masked(), attrs)
        return Array(part, index, coordinates(there, self.arrays), joined_notes(self.arrays)), wrong


def common_kind(op, kind, other):
    if op in ARITHMETIC and kind == other == "bool":
        raise Refused(4)
    return promoted([kind, other])


def computed(op, kind, xs, ys):
    """The cells of an operator in a kind, by numpy; those of comparisons as they are."""
    if op in COMPARISONS:
        return [None if x is None or y is None else COMPARISONS[op](x, y) for x, y in zip(xs, ys)]
    with numpy.errstate(all="ignore"):
        cells = (ARITHMETIC | BITS)[op](numpy.array([it or 0 for it in xs], dtype=kind), numpy.array([it or 0 for it in ys], dtype=kind)).tolist()
    return [None if x is None or y is None else n for n, x, y in zip(cells, xs, ys)]


def cells_differ(there, kind, cells, arrays):
    """What xarray has for other cells, where it has all of them, and no operand is a single cell, whose kind numpy may not look at."""
    if any(a.masked or not a.dims for a in arrays):
        return []
    is_same = str(there.dtype) == kind and there.values.ravel().tolist() == cells.ravel().tolist()
    return [] if is_same else [f"xarray has {there.dtype} {there.values.tolist()}, not {kind} {cells.tolist()}"]


class Pair(Step):
    """An operator between two arrays."""

    def __init__(self, op, a, b):
        super().__init__(f"{a[0]} {op} {b[0]}", [a[1], b[1]])
        self.op = op

    def kind(self):
        kind = common_kind(self.op, *(a.kind for a in self.arrays))
        return "bool" if self.op in COMPARISONS else kind

    def beside(self):
        a, b = self.arrays
        there = OPERATORS[self.op](a.real(), b.real())
        # Each pair of positions as one number.
        count = max(a.part.cells.size, 1)
        met = (a.peer() + b.peer() * count).values
        xs, ys = a.part.taken(met % count, None), b.part.taken(met // count, None)
        cells = objects(computed(self.op, common_kind(self.op, a.kind, b.kind), xs.ravel(), ys.ravel()), met.shape)
        return cells, there, cells_differ(there, self.kind(), cells, self.arrays)


class Beside(Step):
    """An operator between an array and a literal."""

    keeps_attrs = True

    def __init__(self, op, a, literal, is_left):
        super().__init__(f"{word_of(literal)} {op} {a[0]}" if is_left else f"{a[0]} {op} {word_of(literal)}", [a[1]])
        self.op, self.literal, self.is_left = op, literal, is_left

    def kind(self):
        kind = self.common()
        return "bool" if self.op in COMPARISONS else kind

    def common(self):
        kind = self.arrays[0].kind
        if isinstance(self.literal, bool):
            if kind != "bool" or self.op not in [*BITS, "==", "!="]:
                raise Refused(4)
            return kind
        return common_kind(self.op, kind, "int64" if kind == "bool" else kind)

    def check_literals(self):
        if self.op not in COMPARISONS and not is_in(self.common(), self.literal):
            raise Refused(12)

    def beside(self):
        a = self.arrays[0]
        xs, ys = a.part.cells.ravel().tolist(), [self.literal] * a.part.cells.size
        xs, ys = (ys, xs) if self.is_left else (xs, ys)
        cells = objects(computed(self.op, self.common(), xs, ys), a.part.cells.shape)
        # numpy makes fractions of some single cells beside a number, and of numbers past a kind.
        is_plain = a.dims and is_in(self.common(), self.literal)
        values, literal = (a.real(), self.literal) if is_plain else (a.peer(), 1)
        there = OPERATORS[self.op](literal, values) if self.is_left else OPERATORS[self.op](values, literal)
        return cells, there, cells_differ(there, self.kind(), cells, self.arrays) if is_plain else []


class Each(Step):
    """An operator or a method of one array: its name, its argument and its result in xarray."""

    keeps_attrs = True

    def __init__(self, form, a, argument):
        word = "" if argument is None else f'"{argument}"' if form == "astype" else argument
        super().__init__(f"{form}{a[0]}" if form in "-~" else f"{a[0]}.{form}({word})", [a[1]])
        self.form, self.argument = form, argument

    def attrs(self, lists):
        return lists[0] if self.form in ("astype", "fillna") else without_fills(lists[0])

    def kind(self):
        a = self.arrays[0]
        if self.form == "-" and a.kind == "bool" or self.form == "fillna" and isinstance(self.argument, bool) != (a.kind == "bool"):
            raise Refused(4)
        return {"astype": self.argument, "isnull": "bool", "notnull": "bool"}.get(self.form, a.kind)

    def check_literals(self):
        if self.form == "fillna" and not is_in(self.arrays[0].kind, self.argument):
            raise Refused(12)

    def masked(self):
        return self.form in ("-", "~", "astype") and self.arrays[0].masked

    def beside(self):
        a = self.arrays[0]
        if self.form in ("isnull", "notnull", "fillna"):
            # Positions, of which some are missing.
            there = a.peer(numpy.where(a.missing(), numpy.nan, a.part.numbers()[1]))
            if self.form != "fillna":
                there = getattr(there, self.form)()
                return objects(there.values.ravel().tolist(), there.shape), there, []
            there = there.fillna(-1)
            return a.part.taken(there.values.astype(int), self.argument), there, []
        made = {"-": operator.neg, "~": operator.invert}.get(self.form) or (lambda it: it.astype(self.argument))
        there = made(a.real())
        cells = objects([None if it is None else n for n, it in zip(there.values.ravel().tolist(), a.part.cells.ravel())], there.shape)
        return cells, there, [] if str(there.dtype) == self.kind() else [f"xarray has {there.dtype}"]


class Choice(Step):
    """Both forms of `where`. The others are arrays, numbers, truth values and None for a missing cell."""

    join = "exact"

    def __init__(self, is_method, cond, x, y):
        words = [it[0] if isinstance(it, tuple) else word_of(it) for it in (cond, x, y)]
        self.is_method, self.cond = is_method, cond[1]
        self.x, self.y = (it[1] if isinstance(it, tuple) else it for it in (x, y))
        order = [self.x, self.cond, self.y] if is_method else [self.cond, self.x, self.y]
        text = f"{words[1]}.where({words[0]}, {words[2]})" if is_method else f"where({', '.join(words)})"
        super().__init__(text, [it for it in order if isinstance(it, Array)])

    def attrs(self, lists):
        return lists[0] if self.is_method else super().attrs(lists)

    def kind(self):
        others = [self.x, self.y]
        kinds = [it.kind for it in others if isinstance(it, Array)]
        sorts = {isinstance(it, bool) for it in others if it is not None and not isinstance(it, Array)}
        if self.cond.kind != "bool" or others == [None, None] or len(sorts) > 1 or sorts and kinds and sorts != {kinds[0] == "bool"}:
            raise Refused(4)
        return promoted(kinds) if kinds else "bool" if True in sorts else "int64"

    def check_literals(self):
        for it in (self.x, self.y):
            if it is not None and not isinstance(it, Array) and not is_in(self.kind(), it):
                raise Refused(12)

    def masked(self):
        return any(it is None or isinstance(it, Array) and it.masked for it in (self.x, self.y, self.cond))

    def beside(self):
        call = (lambda c, x, y: x.where(c, y)) if self.is_method else xarray.where
        over = lambda it, f: it.peer(f(it.part.numbers()[1])) if isinstance(it, Array) else f(0)
        taken = lambda it, n: it.part.cells.ravel()[n] if isinstance(it, Array) else it
        # Positions of the first from 0 up, and of the second from -1 down.
        there = call(self.cond.real(), over(self.x, lambda n: n), over(self.y, lambda n: -1 - n))
        misses = call(self.cond.peer(self.cond.missing()), over(self.x, lambda n: n * 0 + 1), over(self.y, lambda n: n * 0)).values
        cells = [None if gone else taken(self.x, n) if n >= 0 else taken(self.y, -1 - n) for n, gone in zip(there.values.ravel(), misses.ravel())]
        kind = self.kind()
        made = objects([it if it is None or kind == "bool" else int(it) for it in cells], there.shape)
        wrong = []
        if self.x is not None and self.y is not None:
            real = call(self.cond.real(), *(it.real() if isinstance(it, Array) else it for it in (self.x, self.y)))
            known = isinstance(self.x, Array) and isinstance(self.y, Array)
            wrong = cells_differ(real if known else real.astype(kind), kind, made, self.arrays)
        return made, there, wrong


class Odd:
    """A statement that is always refused with the same fault."""

    def __init__(self, text, fault):
        self.text, self.met = text, fault

    def fault(self):
        return self.met

    def refused_beside(self, fault):
        return []


class Put:
    """A variable put into a dataset."""

    def __init__(self, s, name, a):
        self.text = f'{s[0]}["{name}"] = {a[0]}'
        self.target, self.name, self.set, self.rest, self.array = s[0], name, s[1], s[1].without(name), a[1]

    def joined(self):
        return joined_index([self.rest, self.array], "left")

    def fault(self):
        rest, a = self.rest, self.array
        try:
            self.joined()
        except Refused as refused:
            return refused.args[0]
        is_taken = self.name in [*rest.dims, *rest.coords, *a.dims, *a.coords] or any(n in a.coords or a.index.get(n) for n in rest.parts)
        return 25 if is_taken else None

    def beside(self):
        """The dataset in xarray, where a variable that is replaced counts, if it alone has a dimension without labels, and a coordinate
        may not be called as a dimension without labels."""
        rest, a = self.rest, self.array
        bare = lambda of, other: [n for n in of.coords if n in other.dims and not other.index[n]]
        there = (self.set if rest.dims == self.set.dims else rest).peer().drop_vars(bare(rest, a))
        there[self.name] = a.peer().drop_vars(bare(a, rest))
        return there

    def refused_beside(self, fault):
        """What xarray does otherwise than to refuse repeated labels and other sizes, and to make NaN where a label is lacking."""
        rest, a = self.rest, self.array
        kinds = [(rest.index[d].kind, a.index[d].kind) for d in rest.dims if a.index.get(d) and rest.index[d]]
        if fault not in (8, 11, 13) or fault == 11 and any(numpy.result_type(*it).kind == "f" for it in kinds):
            return []
        try:
            there = self.beside()
        except ValueError:
            return []
        return [] if there[self.name].dtype.kind == "f" and fault == 11 else [f"xarray refuses nothing, not F{fault}, and makes no NaN"]

    def result(self):
        there, rest, a, (index, sizes) = self.beside(), self.rest, self.array, self.joined()
        made = there[self.name]
        wrong = labels_differ(there, index)
        wrong += [f"xarray has another variable {n}" for n, p in rest.parts.items() if there[n].values.tolist() != p.numbers()[1].tolist()]
        part = Part(self.name, list(made.dims), a.kind, a.part.taken(made.values, None), a.masked, a.attrs)
        parts = {n: part if n == self.name else p for n, p in self.set.parts.items()} | {self.name: part}
        coords = {}
        for n, c in there.coords.items():
            if n not in there.dims:
                old = rest.coords.get(n) or a.coords[n]
                coords[n] = Part(n, old.dims, old.kind, old.cells if not old.dims else numpy.array(c.values, dtype=object), old.masked, old.attrs, old.sort)
        if list(there.data_vars) != list(parts) and rest.dims == self.set.dims:
            wrong.append(f"xarray has the variables {list(there.data_vars)}")
        return Set(parts, index, sizes, coords, joined_notes([rest, a])), wrong


# ---- scripts


def random_number(r, kind):
    limits = numpy.iinfo("int64" if kind == "bool" else kind)
    number = r.choice([-2, -1, 0, 1, 2, 3, 5, int(limits.min), int(limits.max)])
    return int(limits.max) + r.choice([1, 300]) if r.random() < 0.04 else int(limits.min) - 1 if r.random() < 0.04 else number


class Script:
    """The statements of a script, what they print, and what xarray has otherwise."""

    def __init__(self, r):
        self.r, self.script, self.printed, self.wrong, self.values, self.sets = r, [], [], [], [], []
        self.pools = labelled.random_pools(r)
        for pool in self.pools.values():
            # Few labels, so that many meet.
            others = [it for it in pool["labels"] if it not in pool["usual"]]
            pool["labels"], pool["holes"] = pool["usual"] + r.sample(others, 2), r.random() < 0.3
        for _ in range(r.choice([3, 3, 4, 5])):
            self.write(random_array(r, self.pools))
        for _ in range(r.choice([0, 1, 1])):
            a = r.choice(self.values)
            s = Set({"v": Part("v", a[1].dims, a[1].kind, a[1].part.cells, a[1].masked, a[1].attrs)}, a[1].index, a[1].sizes, a[1].coords, a[1].notes)
            self.sets.append((f"s{len(self.sets)}", s))
            self.script.append(f'{self.sets[-1][0]} = {a[0]}.to_dataset("v")')

    def write(self, a):
        """Writes an array out, whole or at one of its positions."""
        r, name = self.r, f"a{len(self.values)}"
        self.script.append(f"{name} = {a.script(r)}")
        along = [d for d, i in a.index.items() if i and i.labels]
        if along and r.random() < 0.2:
            d = r.choice(along)
            k = r.randrange(a.sizes[d])
            a = a.at(d, k)
            self.script.append(f"{name} = {name}.isel({d}={k})")
        self.values.append((name, a))

    def step(self, is_loose):
        """A random statement. Two arrays have a dimension with other labels in most of them, where there are such."""
        r = self.r
        a = r.choice(self.values)
        others = [it for it in self.values if any(i and it[1].index.get(d) and it[1].index[d].labels != i.labels for d, i in a[1].index.items())]
        b = r.choice(others if others and r.random() < 0.7 else self.values)
        truths = [it for it in self.values if it[1].kind == "bool"]
        form = r.choice(["pair"] * 5 + ["beside"] * 3 + ["each"] * 3 + ["choice"] * 4 + ["put"] * 3 + ["odd"] * is_loose)
        if form == "put" and self.sets:
            names = ["v", "w", "u", *(["x", "y", "n", "c", "cx", "k"] if is_loose else [])]
            return Put(r.choice(self.sets), r.choice(names), a)
        if form == "odd":
            return self.odd(a, b, truths)
        if form == "choice" and truths:
            return self.choice(a, b, truths, is_loose)
        if form == "each":
            form = r.choice(["-", "~", "astype", "fillna", "isnull", "notnull"])
            fill = r.random() < 0.5 if (a[1].kind == "bool") != (r.random() < 0.05) else random_number(r, a[1].kind)
            return Each(form, a, {"astype": r.choice(KINDS), "fillna": fill}.get(form))
        if form == "pair":
            return Pair(r.choice(list(OPERATORS)), a, b)
        literal = r.random() < 0.5 if r.random() < (0.5 if a[1].kind == "bool" else 0.05) else random_number(r, a[1].kind)
        # Without a condition there is no choice: a comparison makes one.
        return Beside(r.choice(list(OPERATORS if form == "beside" else COMPARISONS)), a, literal, r.random() < 0.4)

    def choice(self, a, b, truths, is_loose):
        r = self.r
        cond = r.choice(truths if not is_loose or r.random() < 0.9 else self.values)
        is_method = r.random() < 0.4
        literal = lambda kind: r.choice([None, r.random() < 0.5 if (kind == "bool") != (r.random() < 0.05) else random_number(r, kind)])
        x = a if is_method or r.random() < 0.6 else literal(b[1].kind)
        y = b if r.random() < 0.5 else literal(a[1].kind)
        return Choice(is_method, cond, x, y)

    def odd(self, a, b, truths):
        forms = [(f"{a[0]} + NA", 4), (f'{a[0]} == "a"', 4), (f"{a[0]} / 2", 11), (f"{a[0]} / {b[0]}", 11), (f'{a[0]}.astype("float32")', 5),
                 (f"{a[0]}.fillna(NA)", 4), (f"{a[0]}.fillna({b[0]})", 4), (f"{a[0]}.where({b[0]})", 11 if b[1].kind == "bool" else 4)]
        forms += [(f"where({c[0]}, NA, NA)", 4) for c in truths[:1]] + [(f"where({c[0]}, {a[0]})", 5) for c in truths[:1]]
        for s, _ in self.sets:
            forms += [(f"{s} + 1", 4), (f"-{s}", 4), (f"{s}.where({a[0]}, 0)", 4), (f'{s}["w"] = 5', 4), (f'{s}[""] = {a[0]}', 5)]
        return Odd(*self.r.choice(forms))

    def add(self, fault):
        """Adds a statement that meets the fault, or with None one that meets none; whether one is found."""
        step = next((it for it in (self.step(fault is not None) for _ in range(300)) if it.fault() == fault), None)
        if step is None:
            return False
        if fault:
            self.script.append(step.text if "] = " in step.text else f"q = {step.text}")
            self.wrong += [f"{step.text}: {it}" for it in step.refused_beside(fault)]
            return True
        try:
            made, wrong = step.result()
        except Exception as raised:
            self.wrong.append(f"{step.text}: xarray raises {raised!r}")
            return True
        self.wrong += [f"{step.text}: {it}" for it in wrong]
        if isinstance(made, Set):
            self.sets = [(n, made if n == step.target else s) for n, s in self.sets]
            self.script += [step.text, f"print({step.target})"]
            self.printed += made.lines()
            self.show(f'{step.target}["{step.name}"]', made.array(step.name))
        else:
            self.show(step.text, made)
        return True

    def show(self, text, made):
        """Gives a name to an array, and prints it and some of its labels and coordinates."""
        name = f"r{len(self.values)}"
        self.values.append((name, made))
        self.script += [f"{name} = {text}", f"print({name})"]
        self.printed += made.lines()
        for it in made.picks():
            if self.r.random() < 0.3:
                self.script.append(f'print({name}["{it.name}"])')
                self.printed += it.lines()


def round_of(r, program, folder):
    """One script; what is wrong, and its text."""
    script, fault = Script(r), None
    for _ in range(r.randrange(2, 7)):
        script.add(None)
    if r.random() < 1 / 6:
        for _ in range(2):
            script.write(random_array(r, script.pools, odd_index))
        fault = next(f for f in r.sample(FAULTS, len(FAULTS)) if script.add(f))
    wanted = "".join(line + "\n" for line in script.printed)
    return script.wrong + labelled.run_beside(program, folder, script.script, wanted, len(script.script), fault), "\n".join(script.script)


if __name__ == "__main__":
    sys.exit(labelled.rounds(round_of))
