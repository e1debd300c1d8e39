#!/usr/bin/env python3
"""Random arrays under operators and reductions, computed by the program and by numpy.ma: both print the same.

    beside_numpy.py PROGRAM [--count N] [--seed S]

Each script writes out arrays of every kind, over up to three dimensions of sizes from 0 to 3, some of their cells missing, with
the least and greatest numbers of their kind among them, and prints what calls and operators make of them. numpy computes the
same over masked arrays, in the kinds that numpy gives. A table has each operation at each kind on all pairs of its extremes. Without numpy all is skipped, and the output says so. The last line is
'N the same, M differ'.
"""
import argparse
import os
import random
import subprocess
import sys
import tempfile

PYTHON = "/usr/bin/python3"
try:
    import numpy
except ImportError:
    has_peer = os.path.exists(PYTHON) and os.path.realpath(sys.executable) != os.path.realpath(PYTHON)
    if has_peer and subprocess.run([PYTHON, "-c", "import numpy"], capture_output=True).returncode == 0:
        os.execv(PYTHON, [PYTHON, "-B", *sys.argv])
    print("skipped: arrays beside numpy need numpy")
    sys.exit(0)

KINDS = ["bool", "int8", "int16", "int32", "int64", "uint8", "uint16", "uint32", "uint64"]
ARITHMETIC = ["+", "-", "*", "//", "%"]
BITS = ["&", "|", "^"]
COMPARISONS = ["==", "!=", "<", "<=", ">", ">="]
REDUCTIONS = ["sum", "prod", "min", "max", "count", "any", "all"]


def bounds(kind):
    return (0, 1) if kind == "bool" else (int(numpy.iinfo(kind).min), int(numpy.iinfo(kind).max))


def wrapped(n, kind):
    least, greatest = bounds(kind)
    return (n - least) % (greatest - least + 1) + least


class Array:
    """Cells in row order, each a number or None, with their dimensions and kind."""

    def __init__(self, dims, shape, kind, masked, cells):
        self.dims, self.shape, self.kind, self.masked, self.cells = dims, shape, kind, masked, cells

    def told(self):
        sizes = ", ".join(f"{d}: {n}" for d, n in zip(self.dims, self.shape))
        head = f"DataArray - ({sizes}) {self.kind}" + (" masked" if self.masked else "")
        spell = (lambda n: "True" if n else "False") if self.kind == "bool" else str
        return head, ["NA" if n is None else spell(n) for n in self.cells]

    def over_numpy(self):
        """As numpy has it; the numbers under missing cells are those of the kind that stand out."""
        least, _ = bounds(self.kind)
        data = numpy.array([least if n is None else n for n in self.cells], dtype=self.kind).reshape(self.shape)
        return numpy.ma.array(data, mask=numpy.array([n is None for n in self.cells], dtype=bool).reshape(self.shape), shrink=False)


def of_numpy(dims, a, masked, kind=None):
    a = numpy.ma.asarray(a)
    mask = numpy.broadcast_to(numpy.ma.getmaskarray(a), a.shape).ravel().tolist()
    cells = [None if m else int(n) for n, m in zip(numpy.ma.getdata(a).ravel().tolist(), mask)]
    return Array(dims, list(a.shape), kind or str(a.dtype), masked, cells)


class Random:
    def __init__(self, seed):
        self.r = random.Random(seed)

    def array(self):
        dims = self.r.sample(["x", "y", "z"], self.r.randrange(0, 4))
        # A list of no lists says nothing of the dimensions within it.
        shape = [self.r.choice([1, 2, 3]) for _ in dims]
        if shape and self.r.random() < 0.15:
            shape[-1] = 0
        kind = self.r.choice(KINDS)
        least, greatest = bounds(kind)
        some = [least, greatest, 0 if least else least, 1]
        count = int(numpy.prod(shape, dtype=int))
        number = lambda: self.r.choice(some) if self.r.random() < 0.3 else self.r.randrange(max(least, -9), min(greatest, 9) + 1)
        missing = self.r.choice([0, 0, 0.3, 1])
        cells = [None if self.r.random() < missing else number() for _ in range(count)]
        return Array(dims, shape, kind, any(n is None for n in cells), cells)

    def reduced(self, a):
        """A reduction as text with its value, or None where it has none."""
        call = self.r.choice(REDUCTIONS + ["argmin", "argmax"])
        over = self.r.sample(a.dims, self.r.randrange(0, len(a.dims) + 1))
        form = self.r.randrange(3)
        if call in ("argmin", "argmax"):
            if not a.dims:
                return None
            over = over[:1] or [a.dims[0]]
            text = f'{call}("{over[0]}")' if form else f'{call}(dim=["{over[0]}"])'
        elif form == 0 or not over:
            over, text = a.dims, f"{call}()"
        else:
            text = f"{call}(dim={over!r})".replace("'", '"') if form == 1 else f"{call}({over!r})".replace("'", '"')
        needs = call in ("min", "max", "argmin", "argmax")
        axes = tuple(a.dims.index(d) for d in over)
        if needs and any(a.shape[i] == 0 for i in axes):
            return None
        m = a.over_numpy()
        left = [d for d in a.dims if d not in over]
        whole = "uint64" if a.kind.startswith("u") else "int64"
        shape = [n for i, n in enumerate(a.shape) if i not in axes]
        if not axes and needs:
            return text, Array(a.dims, a.shape, a.kind, a.masked, a.cells)
        data, mask = numpy.ma.getdata(m), numpy.ma.getmaskarray(m)
        present = (~mask).sum(axis=axes)
        if call == "count":
            value, kind = present, "int64"
        elif call in ("sum", "prod"):
            with numpy.errstate(all="ignore"):
                value = getattr(numpy, call)(numpy.where(mask, data.dtype.type(call == "prod"), data).astype(whole), axis=axes)
            kind = whole
        elif call in ("any", "all"):
            value, kind = getattr(numpy, call)(numpy.where(mask, call == "all", data != 0), axis=axes), "bool"
        elif call in ("min", "max"):
            least, greatest = bounds(a.kind)
            value, kind = getattr(numpy, call)(numpy.where(mask, data.dtype.type(greatest if call == "min" else least), data), axis=axes), a.kind
        else:
            rows = numpy.moveaxis(numpy.array([None if n is None else n for n in a.cells], dtype=object).reshape(a.shape), axes[0], -1)
            best = min if call == "argmin" else max
            found = [None if all(n is None for n in row) else [*row].index(best(n for n in row if n is not None)) for row in rows.reshape(-1, a.shape[axes[0]])] if a.cells else []
            return text, Array(left, shape, "int64", a.masked, found)
        value = numpy.asarray(value).reshape(shape)
        cells = [None if needs and not p else int(n) for n, p in zip(value.ravel().tolist(), numpy.asarray(present).ravel().tolist())]
        return text, Array(left, shape, kind, needs and a.masked, cells)

    def running(self, a):
        if not a.dims:
            return None
        d = self.r.choice(a.dims)
        whole = "uint64" if a.kind.startswith("u") else "int64"
        m = a.over_numpy()
        with numpy.errstate(all="ignore"):
            value = numpy.cumsum(numpy.where(numpy.ma.getmaskarray(m), m.dtype.type(0), numpy.ma.getdata(m)).astype(whole), axis=a.dims.index(d))
        return f'cumsum("{d}")', of_numpy(a.dims, value, False)

    def by_cell(self, a):
        """A method or an operator of one operand on each cell."""
        form = self.r.choice(["isnull()", "notnull()", "astype", "fillna", "-", "~"])
        same = lambda kind, masked, f: Array(a.dims, a.shape, kind, masked, [f(n) for n in a.cells])
        if form in ("isnull()", "notnull()"):
            return form, same("bool", False, lambda n: int((n is None) == (form == "isnull()")))
        if form == "astype":
            kind = self.r.choice(KINDS)
            cast = (lambda n: int(n != 0)) if kind == "bool" else (lambda n: wrapped(n, kind))
            return f'astype("{kind}")', same(kind, a.masked, lambda n: None if n is None else cast(n))
        if form == "fillna":
            fill = self.r.randrange(*bounds(a.kind)) if a.kind != "bool" else self.r.randrange(2)
            text = str(fill) if a.kind != "bool" else str(bool(fill))
            return f"fillna({text})", same(a.kind, False, lambda n: fill if n is None else n)
        if a.kind == "bool" and form == "-":
            return None
        turn = (lambda n: 1 - n) if a.kind == "bool" else (lambda n: wrapped(-n if form == "-" else -1 - n, a.kind))
        return form, same(a.kind, a.masked, lambda n: None if n is None else turn(n))

    def with_literal(self, a):
        """An operator with a literal, before or behind it; its text has {} for the array."""
        op = self.r.choice(ARITHMETIC + BITS + COMPARISONS)
        kind = a.kind
        if a.kind == "bool" and op in BITS + ["==", "!="] and self.r.random() < 0.5:
            n, text = (n := self.r.randrange(2)), str(bool(n))
        else:
            # Truth values become whole numbers of 64 bits beside a number.
            kind = "int64" if a.kind == "bool" else a.kind
            least, greatest = bounds(kind)
            n = self.r.choice([0, 1, least, greatest, self.r.randrange(max(least, -9), 10)])
            if op in COMPARISONS and self.r.random() < 0.4:
                n = self.r.choice([least - 1, greatest + 1, least - 1000, greatest * 3 + 1])
            text = f"({n})" if n < 0 else str(n)
        is_left = self.r.random() < 0.5
        def of(x):
            p, q = (n, x) if is_left else (x, n)
            if op in COMPARISONS:
                return int({"==": p == q, "!=": p != q, "<": p < q, "<=": p <= q, ">": p > q, ">=": p >= q}[op])
            if op in ("//", "%") and q == 0:
                return 0
            return wrapped({"+": lambda: p + q, "-": lambda: p - q, "*": lambda: p * q, "//": lambda: p // q, "%": lambda: p % q, "&": lambda: p & q, "|": lambda: p | q, "^": lambda: p ^ q}[op](), kind)
        of_kind = "bool" if op in COMPARISONS else kind
        value = Array(a.dims, a.shape, of_kind, a.masked, [None if x is None else of(x) for x in a.cells])
        return (f"{text} {op} {{}}" if is_left else f"{{}} {op} {text}"), value

    def paired(self, a, b):
        """An operator between two arrays whose shared dimensions have one size."""
        sizes = dict(zip(a.dims, a.shape))
        if any(sizes.get(d, n) != n for d, n in zip(b.dims, b.shape)):
            return None
        op = self.r.choice(ARITHMETIC + BITS + COMPARISONS)
        if a.kind == b.kind == "bool" and op in ARITHMETIC:
            return None
        kind = str(numpy.promote_types(a.kind, b.kind))
        if kind.startswith("f"):
            return None
        dims = a.dims + [d for d in b.dims if d not in a.dims]
        def spread(x):
            m = x.over_numpy().astype(kind)
            m = m.reshape(x.shape + [1] * (len(dims) - len(x.dims)))
            return numpy.ma.transpose(m, [(x.dims + [d for d in dims if d not in x.dims]).index(d) for d in dims])
        p, q = spread(a), spread(b)
        shape = numpy.broadcast_shapes(p.shape, q.shape)
        flat = lambda m: [None if k else int(n) for n, k in zip(numpy.broadcast_to(numpy.ma.getdata(m), shape).ravel().tolist(), numpy.broadcast_to(numpy.ma.getmaskarray(m), shape).ravel().tolist())]
        def of(x, y):
            if x is None or y is None:
                return None
            if op in COMPARISONS:
                return int({"==": x == y, "!=": x != y, "<": x < y, "<=": x <= y, ">": x > y, ">=": x >= y}[op])
            if op in ("//", "%") and y == 0:
                return 0
            return wrapped({"+": lambda: x + y, "-": lambda: x - y, "*": lambda: x * y, "//": lambda: x // y, "%": lambda: x % y, "&": lambda: x & y, "|": lambda: x | y, "^": lambda: x ^ y}[op](), kind)
        cells = [of(x, y) for x, y in zip(flat(p), flat(q))]
        return f"{{}} {op} {{}}", Array(dims, [*shape], "bool" if op in COMPARISONS else kind, a.masked or b.masked, cells)

    def chosen(self, a):
        """A choice by truth values between an array and a literal, missing cells or another array of its shape and kind: its text, with
        {} for the array, the condition `c`, the other array `d`, and the value."""
        missing = self.r.choice([0, 0.3])
        cond = Array(a.dims, a.shape, "bool", False, [None if self.r.random() < missing else self.r.randrange(2) for _ in a.cells])
        cond.masked = any(n is None for n in cond.cells)
        least, greatest = bounds(a.kind)
        number = self.r.choice([least, greatest, 0, 1])
        other = Array(a.dims, a.shape, a.kind, False, [self.r.choice([least, greatest, 0, 1]) for _ in a.cells])
        text, cells, misses = self.r.choice([
            ("NA", [None] * len(a.cells), True),
            (str(number) if a.kind != "bool" else str(bool(number)), [number] * len(a.cells), False),
            ("d", other.cells, other.masked),
        ])
        form = self.r.choice(["{}.where(c, %s)", "where(c, {}, %s)", "where(c, %s, {})"]) % text
        first, second = (a.cells, cells) if form != "where(c, %s, {})" % text else (cells, a.cells)
        found = [None if c is None else (x if c else y) for c, x, y in zip(cond.cells, first, second)]
        return form, cond, other, Array(a.dims, a.shape, a.kind, cond.masked or a.masked or misses, found)


def literal(a):
    spell = lambda n: "NA" if n is None else str(bool(n)) if a.kind == "bool" else str(n)
    def nested(cells, shape):
        if not shape:
            return spell(cells[0])
        step = len(cells) // shape[0] if shape[0] else 0
        return "[" + ", ".join(nested(cells[i * step : (i + 1) * step], shape[1:]) for i in range(shape[0])) + "]"
    return f'DataArray({nested(a.cells, a.shape)}, dims={a.dims!r}, dtype="{a.kind}")'.replace("'", '"')


def round_of(seed, program, folder):
    r = Random(seed)
    lines, expected = [], []
    for _ in range(12):
        a, b = r.array(), r.array()
        lines += [f"a = {literal(a)}", f"b = {literal(b)}"]
        for _ in range(6):
            if made := r.reduced(a):
                lines.append(f"print(a.{made[0]})")
                expected.append((lines[-3:], made[1]))
        for made in (r.running(a), r.by_cell(a), r.by_cell(a)):
            if made:
                text = made[0]
                lines.append(f"print({text}a)" if text in "-~" else f"print(a.{text})")
                expected.append((lines[-1], made[1]))
        for _ in range(4):
            if made := r.with_literal(a):
                lines.append(f"print({made[0].format('a')})")
                expected.append((lines[-1], made[1]))
        for _ in range(3):
            form, c, d, value = r.chosen(a)
            lines += [f"c = {literal(c)}", f"d = {literal(d)}", f"print({form.format('a')})"]
            expected.append((lines[-3:], value))
        for _ in range(4):
            if made := r.paired(a, b):
                lines.append(f"print({made[0].format('a', 'b')})")
                expected.append((lines[-1], made[1]))
    return run(program, folder, lines, expected)


def extremes(kind):
    least, greatest = bounds(kind)
    return sorted({n for n in (least, least + 1, -7, -2, -1, 0, 1, 2, 3, 100, greatest // 2, greatest - 1, greatest) if least <= n <= greatest})


def by_numpy(op, p, q):
    """numpy's own result of an operator on arrays of one kind, as a list of numbers."""
    calls = {"+": "add", "-": "subtract", "*": "multiply", "//": "floor_divide", "%": "remainder", "&": "bitwise_and", "|": "bitwise_or", "^": "bitwise_xor",
             "==": "equal", "!=": "not_equal", "<": "less", "<=": "less_equal", ">": "greater", ">=": "greater_equal"}
    with numpy.errstate(all="ignore"):
        return getattr(numpy, calls[op])(p, q)


def table(program, folder):
    """Each operation at each kind of whole numbers, on all pairs of its extremes, against numpy's own results."""
    lines, expected = [], []
    for kind in KINDS[1:]:
        some = extremes(kind)
        a = Array(["x"], [len(some)], kind, False, some)
        b = Array(["y"], [len(some)], kind, False, some)
        lines += [f"a = {literal(a)}", f"b = {literal(b)}"]
        p, q = numpy.array(some, dtype=kind)[:, None], numpy.array(some, dtype=kind)[None, :]
        for op in ARITHMETIC + BITS + COMPARISONS:
            lines.append(f"print(a {op} b)")
            expected.append((f"{kind} {op}", of_numpy(["x", "y"], by_numpy(op, p, q), False)))
        # By a literal each row has one divisor, whose quotients come from products.
        for op in ("//", "%"):
            for n in sorted({*some, 7, 10, *([-3, -10] if some[0] < 0 else [])}):
                lines.append(f"print(a {op} ({n}))")
                divided = by_numpy(op, numpy.array(some, dtype=kind), numpy.array(n, dtype=kind))
                expected.append((f"{kind} {op} {n}", of_numpy(["x"], divided, False)))
        with numpy.errstate(all="ignore"):
            whole = "uint64" if kind.startswith("u") else "int64"
            v = numpy.array(some, dtype=kind)
            for text, value in [("print(-a)", -v), ("print(~a)", ~v), ("print(a.sum())", v.sum(dtype=whole)), ("print(a.prod())", v.prod(dtype=whole)),
                                ("print(a.min())", v.min()), ("print(a.max())", v.max()), ("print(a.argmin())", v.argmin()), ("print(a.argmax())", v.argmax()),
                                ('print(a.cumsum("x"))', v.cumsum(dtype=whole)), ('print(a.diff("x"))', numpy.diff(v)),
                                *((f'print(a.astype("{other}"))', v.astype(other)) for other in KINDS)]:
                lines.append(text)
                value = numpy.asarray(value)
                expected.append((f"{kind} {text}", of_numpy(["x"] if value.ndim else [], value, False)))
    return run(program, folder, lines, expected)


def run(program, folder, lines, expected):
    """Runs a script that prints an array for each of those that are expected; how many are the same, and what differs."""
    with open(os.path.join(folder, "s.xrs"), "w") as f:
        f.write("\n".join(lines) + "\n")
    ran = subprocess.run([program, "s.xrs"], cwd=folder, capture_output=True, text=True, timeout=120)
    blocks = [block.split("\n") for block in ran.stdout.split("DataArray ")[1:]]
    same, stories = 0, []
    for i, (text, value) in enumerate(expected):
        head, cells = value.told()
        got = ("DataArray " + blocks[i][0], " ".join(blocks[i][1:]).split()) if i < len(blocks) else ("nothing", [])
        if got == (head, cells):
            same += 1
        else:
            stories.append(f"{text}\nxrs: {got}\nnumpy: {(head, cells)}")
    if ran.returncode or ran.stderr:
        number = ran.stderr.partition("statement ")[2].partition(":")[0]
        stories.insert(0, f"status {ran.returncode} {ran.stderr.strip()}: {lines[int(number) - 1] if number.isdigit() else ''}")
    return same, stories


def main():
    options = argparse.ArgumentParser()
    options.add_argument("program")
    options.add_argument("--count", type=int, default=30)
    options.add_argument("--seed", type=int, default=1)
    options = options.parse_args()
    program, same, differ = os.path.abspath(options.program), 0, 0
    with tempfile.TemporaryDirectory() as folder:
        same, stories = table(program, folder)
        differ = len(stories)
        for story in stories[:5]:
            print(story + "\n")
        for seed in range(options.seed, options.seed + options.count):
            agree, stories = round_of(seed, program, folder)
            same, differ = same + agree, differ + len(stories)
            for story in stories[:3]:
                print(f"seed {seed}: {story}\n")
    print(f"{same} the same, {differ} differ")
    return 1 if differ or not same else 0


sys.exit(main())
