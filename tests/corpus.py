#!/usr/bin/env python3
"""Opens each file of the corpus with the program.

    corpus.py PROGRAM

The files in corpus/whole were made by tools of others; corpus/whole.json has what netCDF's own library reads from them.
The files in corpus/edited are changes of those; corpus/edited.json has the answer of each by the format's text, a fault
at its byte or the values of variables. First the plain reader of classic.py has to agree with these answers, then the
program with the plain reader of datasets: as it is, and with missing cells. Each dataset is written, too, and compared with the plain
writer of writing.py.
"""
import json
import os
import sys
import tempfile

import datasets
from driving import Driver

HERE = os.path.dirname(os.path.abspath(__file__))


def loaded(*names):
    with open(os.path.join(HERE, "corpus", *names), "rb") as f:
        return f.read()


def values(file):
    return {var.name: file.values(var) for var in file.vars if var.type in datasets.WHOLE}


def main():
    program = os.path.abspath(sys.argv[1])
    with tempfile.TemporaryDirectory() as folder:
        os.chdir(folder)
        driver = Driver(program, folder)
        for name, known in json.loads(loaded("whole.json")).items():
            driver.open_file(name, loaded("whole", name), mask=False)
            file = driver.open_file(name, loaded("whole", name))
            if isinstance(file, str):
                driver.fail(name, f"the plain reader refuses it: {file}")
                continue
            for var, it in known.items():
                found = next(v for v in file.vars if v.name == var)
                if (file.values(found), file.shape(found)) != (it["values"], it["shape"]):
                    driver.fail(name, f"the plain reader has other values of {var}")
        for entry in json.loads(loaded("edited.json")):
            driver.open_file(entry["name"], loaded("edited", entry["name"]), mask=False)
            file = driver.open_file(entry["name"], loaded("edited", entry["name"]))
            if isinstance(entry["answer"], str) or isinstance(file, str):
                if file != entry["answer"]:
                    driver.fail(entry["name"], f"the plain reader says {file}")
            elif not entry["answer"].items() <= values(file).items():
                driver.fail(entry["name"], "the plain reader has other values")
        driver.report()


main()
