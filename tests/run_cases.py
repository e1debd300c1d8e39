#!/usr/bin/env python3
"""Runs the end-to-end cases over a built program, each in an empty folder, and compares text, status and files.

    run_cases.py PROGRAM FOLDER

A case is a JSON file: `words` of the command, `files` that lie in the folder before, and what must come of it:
`status`, `stdout`, `stderr`, and `written`, the files that are new or changed afterwards. Every other file must be as
it was. A file's contents are `text`, `hex`, or a `byte` that stands so many `times`.
The last line is 'N passed, M failed'.
"""
import json
import os
import subprocess
import sys
import tempfile


def contents(it):
    if "text" in it:
        return it["text"].encode()
    if "hex" in it:
        return bytes.fromhex(it["hex"])
    return bytes([it["byte"]]) * it["times"]


def files_below(folder):
    found = {}
    for top, _, names in os.walk(folder):
        for name in names:
            path = os.path.join(top, name)
            with open(path, "rb") as f:
                found[os.path.relpath(path, folder)] = f.read()
    return found


def differences(program, case):
    with tempfile.TemporaryDirectory() as folder:
        before = {name: contents(it) for name, it in case["files"].items()}
        for name, data in before.items():
            path = os.path.join(folder, name)
            os.makedirs(os.path.dirname(path), exist_ok=True)
            with open(path, "wb") as f:
                f.write(data)
        ran = subprocess.run([program, *case["words"]], cwd=folder, capture_output=True, timeout=120)
        after = files_below(folder)
    wrong = []
    if ran.returncode != case["status"]:
        wrong.append(f"status {ran.returncode}, not {case['status']}")
    for stream, got in (("stdout", ran.stdout), ("stderr", ran.stderr)):
        if got != case[stream].encode():
            wrong.append(f"{stream} {got[:300]!r}, not {case[stream].encode()[:300]!r}")
    wanted = before | {name: contents(it) for name, it in case["written"].items()}
    for name in sorted(wanted.keys() | after.keys()):
        if wanted.get(name) != after.get(name):
            wrong.append(f"file {name}: {describe(after.get(name))}, not {describe(wanted.get(name))}")
    return wrong


def describe(data):
    return "absent" if data is None else data[:200].hex()


def main():
    program, folder = os.path.abspath(sys.argv[1]), sys.argv[2]
    passed = failed = 0
    for name in sorted(os.listdir(folder)):
        with open(os.path.join(folder, name)) as f:
            case = json.load(f)
        wrong = differences(program, case)
        if wrong:
            failed += 1
            print(f"{name}: {' '.join(case['words'])}")
            for it in wrong:
                print("  " + it)
        else:
            passed += 1
    print(f"{passed} passed, {failed} failed")
    sys.exit(1 if failed or not passed else 0)


main()
