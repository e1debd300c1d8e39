"""Small files of few names, made at random so that rules meet: labels, coordinates, texts, truth values, times, fill numbers of several
types, records or none, and widths at which writing is refused; and files whose variables share their bytes.
"""
import classic
import writing
from classic import Attribute
from datasets import BYTE, CHAR, DOUBLE, FLOAT, INT, INT64, SHORT, UBYTE, UINT, UINT64, USHORT

DIMS = ["x", "y", "time", "string2", "string3", "w"]
NAMES = ["a", "b", "c", "note", "flag", "two words"]
OLD = [BYTE, CHAR, SHORT, INT, FLOAT, DOUBLE]
NEW = [BYTE, CHAR, SHORT, INT, FLOAT, UBYTE, USHORT, UINT, INT64, UINT64]
NUMBERS = [0, 0, 1, 1, 2, 3, -1, -999]
UNITS = [b"days since 2000-01-01", b"hours since 1999-12-31 06:00", b"months since 2000-01-01", b"K"]
CALENDARS = [b"standard", b"noleap", b"360_day", b"julian"]
LARGE = 1 << 25


def number_for(random_, type_):
    """A small number, or one at an end of the type."""
    if random_.random() < 0.1:
        bits = 8 * classic.WIDTHS[type_]
        return random_.choice([(1 << bits) - 1, (1 << bits - 1) - 1, 1 << bits - 1])
    return random_.choice(NUMBERS)


def numbers_attr(random_, name, type_, count):
    return Attribute(name, type_, writing.value_bytes(type_, [number_for(random_, type_) for _ in range(count)]))


def text_attr(random_, name, texts):
    """One of the texts, or sometimes a number of that name."""
    if random_.random() < 0.25:
        return numbers_attr(random_, name, SHORT, 1)
    return writing.text_attr(name, random_.choice(texts))


def coordinates(random_):
    names = random_.sample(NAMES, random_.randrange(1, 5))
    return text_attr(random_, "coordinates", [random_.choice([" ", "\t", "  "]).join(names).encode()])


def attrs_for(random_, type_, types):
    """Attributes of a variable."""
    def fill(name):
        return numbers_attr(random_, name, type_ if random_.random() < 0.5 else random_.choice(types), random_.choice([1, 1, 1, 2]))
    made = [fill("_FillValue")] if random_.random() < 0.4 else []
    made += [fill("missing_value")] if random_.random() < 0.3 else []
    made += [text_attr(random_, "dtype", [b"bool", b"bool", b"int8"])] if random_.random() < (0.5 if type_ == BYTE else 0.1) else []
    made += [text_attr(random_, "units", UNITS)] if random_.random() < 0.5 else []
    made += [text_attr(random_, "calendar", CALENDARS)] if random_.random() < 0.3 else []
    made += [coordinates(random_)] if random_.random() < 0.4 else []
    made += [numbers_attr(random_, "more", random_.choice(types), random_.randrange(3))] if random_.random() < 0.3 else []
    random_.shuffle(made)
    return made


def dims_for(random_, name, sizes, records):
    """Dimensions of a variable, the record dimension first."""
    dims = random_.sample(list(sizes), min(len(sizes), random_.choice([0, 1, 1, 2, 2, 3])))
    if name in sizes and random_.random() < 0.8:
        dims = [name, *(d for d in dims[:random_.randrange(2)] if d != name)]
    return [d for d in dims if d == records] + [d for d in dims if d != records]


def cells_for(random_, type_, count):
    if type_ == CHAR:
        return [random_.choice(b"abcd\0\0\xc3") if random_.random() < 0.2 else random_.choice(b"abcd") for _ in range(count)]
    return [number_for(random_, type_) for _ in range(count)]


def made(random_):
    """The bytes of a file."""
    version = random_.choice([1, 2, 5, 5, 5])
    types = NEW if version == 5 else OLD
    sizes = {d: 3 if d == "string3" and random_.random() < 0.7 else random_.randrange(1, 5) for d in random_.sample(DIMS, random_.randrange(1, 5))}
    records = random_.choice([None, random_.choice(list(sizes))])
    if records:
        sizes[records] = random_.randrange(4)
        if version == 5 and sizes[records] == 0 and random_.random() < 0.3:
            sizes |= {d: random_.choice([LARGE, 1 << 20]) for d in sizes if d != records}
    vars_ = []
    for name in random_.sample(list(sizes) + NAMES, random_.randrange(1, 6)):
        type_, dims = random_.choice(types), dims_for(random_, name, sizes, records)
        count = writing.product(sizes[d] for d in dims)
        if count < LARGE >> 8:
            vars_.append(writing.Var(name, dims, type_, cells_for(random_, type_, count), attrs_for(random_, type_, types)))
    attrs = random_.choice([[], [], [coordinates(random_)], [writing.text_attr("title", b"made")], [numbers_attr(random_, "n", random_.choice(types), 2)]])
    return writing.spelled(version, sizes, records, attrs, vars_, most=1 << 62)


def overlapping(random_):
    """The bytes of a file whose indexes and other variables begin at the same byte, or a few bytes from it."""
    version = random_.choice([1, 2, 5])
    types = [it for it in (NEW if version == 5 else OLD) if it not in (FLOAT, DOUBLE)]
    sizes = {d: random_.choice([2, 2, 2, 3, 4]) for d in DIMS[:random_.randrange(2, 6)]}
    records = random_.choice([None, None, list(sizes)[0]])
    dims = [[name] for name in sizes] + [dims_for(random_, "", sizes, records) for _ in range(random_.randrange(3))]
    alike = random_.choice([None, None, random_.choice(types)])
    vars_ = []
    for name, over in zip([*sizes, *NAMES], dims):
        type_ = alike or random_.choice(types)
        cells = cells_for(random_, type_, writing.product(sizes[d] for d in over))
        vars_.append(writing.Var(name, over, type_, cells, attrs_for(random_, type_, types) if random_.random() < 0.3 else []))
    steps = random_.choice([[0], [0, 0, 1], [0, 1, 2, 4, 8]])
    return writing.spelled(version, sizes, records, [], vars_, begins=lambda places: [min(places) + random_.choice(steps) for _ in places])
