#!/usr/bin/env python3
"""Changes the files of the corpus at random, and others that it makes, some of them with variables and labels that share their bytes, and
opens them with the program.

    mutations.py PROGRAM [--count N] [--seed S] [--keep FOLDER]

Of each changed file (10,000 by default) the plain readers of classic.py and datasets.py say what it is. A file that spells
nothing has to be refused with its first fault, at its byte. Another is opened as a dataset, which is printed with up to four of its
parts, written and read again: the texts have to be those of the plain reader, and the same the second time. The file that is
written has to have the bytes of the plain writer of writing.py, and where that refuses the dataset, the program has to refuse it
with the same fault and to write nothing; so it goes in one of the three versions, with a record dimension or without one, too. No
run may end by a signal, take more than 5 seconds of the processor, or more memory than twice the file and 64 MiB. The same seed
changes the same files in the same way; where none is given it is a new one, which is printed. With --keep the files that were wrong
stay in FOLDER.
"""
import argparse
import os
import random
import tempfile

import classic
import made_files
from driving import Driver

HERE = os.path.dirname(os.path.abspath(__file__))
NUMBERS = [0, 1, 2, 3, 4, 5, 6, 7, 10, 11, 12, 0x7F, 0x80, 0xFF, 0x7FFFFFFF, 0x80000000, 0xFFFFFFFE, 0xFFFFFFFF]


def corpus():
    files = {}
    for part in ("whole", "edited"):
        folder = os.path.join(HERE, "corpus", part)
        for name in sorted(os.listdir(folder)):
            with open(os.path.join(folder, name), "rb") as f:
                files[f"{part}/{name}"] = f.read()
    return files


def with_a_byte(random_, data, _others):
    at = random_.randrange(len(data))
    return data[:at] + bytes([random_.randrange(256)]) + data[at + 1:]


def with_a_bit(random_, data, _others):
    at = random_.randrange(len(data))
    return data[:at] + bytes([data[at] ^ 1 << random_.randrange(8)]) + data[at + 1:]


def with_a_number(random_, data, _others):
    """One number of the header set to another that counts, lengths and tags often are."""
    at = random_.randrange(0, len(data), 4)
    return data[:at] + random_.choice(NUMBERS).to_bytes(4, "big") + data[at + 4:]


def with_a_step(random_, data, _others):
    """One number of the header a little greater or less."""
    at = random_.randrange(0, len(data), 4)
    number = int.from_bytes(data[at:at + 4].ljust(4, b"\0"), "big") + random_.choice([-4, -2, -1, 1, 2, 4])
    return data[:at] + (number % (1 << 32)).to_bytes(4, "big") + data[at + 4:]


def with_another_value(random_, data, _others):
    """A byte of the last third, where values and their padding stand."""
    at = random_.randrange(len(data) * 2 // 3, len(data))
    return data[:at] + bytes([random_.randrange(256)]) + data[at + 1:]


def cut(random_, data, _others):
    return data[:random_.randrange(len(data))]


def longer(random_, data, _others):
    return data + random_.randbytes(random_.randrange(1, 64))


def without_a_part(random_, data, _others):
    at = random_.randrange(0, len(data), 4)
    return data[:at] + data[at + 4 * random_.randrange(1, 9):]


def with_a_part_twice(random_, data, _others):
    at = random_.randrange(0, len(data), 4)
    end = at + 4 * random_.randrange(1, 9)
    return data[:end] + data[at:]


def joined(random_, data, others):
    """The front of one file and the end of another."""
    other = random_.choice(others)
    return data[:random_.randrange(len(data))] + other[random_.randrange(len(other) + 1):]


def with_shared_values(random_, data, _others):
    """The values of one variable where those of another stand."""
    try:
        file = classic.read(data)
    except classic.Bad:
        return data
    if len(file.vars) < 2:
        return data
    moved, kept = random_.sample(file.vars, 2)
    width = 4 if file.version == 1 else 8
    return data.replace(moved.begin.to_bytes(width, "big"), kept.begin.to_bytes(width, "big"), 1)


CHANGES = [with_a_byte, with_a_bit, with_a_number, with_a_number, with_a_step, with_a_step, with_another_value,
           with_another_value, with_another_value, cut, longer, without_a_part, with_a_part_twice, joined,
           with_shared_values]


def mutation(random_, files):
    part, others = random_.choice(["whole", "whole", "edited", "made", "overlapping"]), list(files.values())
    if part == "made":
        name, data, changes = "one that was made", made_files.made(random_), random_.choice([0, 0, 0, 1])
    elif part == "overlapping":
        name, data, changes = "one whose values overlap", made_files.overlapping(random_), random_.choice([0, 0, 0, 1])
    else:
        name = random_.choice([name for name in sorted(files) if name.startswith(part)])
        data, changes = files[name], random_.choice([1, 1, 1, 1, 2, 3, 5])
    for _ in range(changes):
        if data:
            data = random_.choice(CHANGES)(random_, data, others)
    return name, data


def main():
    options = argparse.ArgumentParser()
    options.add_argument("program")
    options.add_argument("--count", type=int, default=10_000)
    options.add_argument("--seed", type=int, default=random.SystemRandom().randrange(1 << 32))
    options.add_argument("--keep")
    given = options.parse_args()
    files, random_ = corpus(), random.Random(given.seed)
    with tempfile.TemporaryDirectory() as folder:
        os.chdir(folder)
        driver = Driver(given.program if os.path.isabs(given.program) else os.path.join(HOME, given.program), folder)
        for number in range(given.count):
            name, data = mutation(random_, files)
            before = len(driver.wrong)
            driver.open_file(f"mutation {number} of {name}", data, mask=random_.random() < 0.7)
            if given.keep and len(driver.wrong) > before:
                with open(os.path.join(HOME, given.keep, f"{number}.nc"), "wb") as f:
                    f.write(data)
        print(f"{given.count} mutations, seed {given.seed}")
        driver.report()


HOME = os.getcwd()
main()
