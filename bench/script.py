#!/usr/bin/env python3
"""Measures the parser of scripts beside Python's own, `ast.parse`, on the same text of 1 MiB, in one run.

    bench/script.py [PROGRAM] [--times N]

PROGRAM is the proved `script_times`; each parser runs N times (seven by default) inside one process, and the least
counts. A ratio above 1 says that ours is that many times faster.
"""
import os
import subprocess
import tempfile

from setting import PYTHON, begin

# each takes its share of the 4,096 statements and the 1,048,576 bytes that a script may have
LINES = [
    "anomaly_{n} = (temperature_{n} - climate_{n}.sel(month=times)) // 10 * weight_{n} + offset_{n} - -273 + (pressure_{n}[\"surface\"] - 101325) * 3 % 7 - humidity_{n}.where(humidity_{n} >= 0).fillna(0) + {n} * (lower_{n} + upper_{n}) // 2 # kelvin",
    "mean_{n} = anomaly_{n}.isel(time=slice(0, {n}), lat=[1, 2, 3, 5, 8, 13, 21]).sum('time', skipna=True)['t'] % 7 + ~mask_{n} - anomaly_{n}.isel(time=slice(None, None, 2), lon=-1).max('lat')['t'] * (1 + {n}) - count_{n}.shift(time=1, fill_value=0)",
    "print(merge([anomaly_{n}, mean_{n}.rename('mean_of_the_anomaly'), lower_{n} - 1, upper_{n} + 1], join='inner', fill_value=NA, attrs={{'title': 'a run', 'number': {n}, 'values': [1, -2, 3, -4, 5], 'history': None}}, compat='identical').sum())",
    "dataset['v_{n}'] = where((anomaly_{n} > 5) & (mean_{n} <= 3) | (anomaly_{n} == 0) & (lower_{n} != upper_{n}), a_{n} ^ b_{n} | ~c_{n}, 170141183460469231731687303715884105727) - (d_{n} + e_{n} * f_{n} // 3 % 5 - -{n}) * g_{n}.first('time')",
]

TIMED = """
import ast, time
with open({path!r}) as f:
    text = f.read()
least = float("inf")
for _ in range({times}):
    start = time.perf_counter()
    tree = ast.parse(text)
    least = min(least, time.perf_counter() - start)
print(least, len(tree.body))
"""


def script():
    """A script of 4,096 statements and just under 1 MiB, the rest of each line a comment."""
    lines = [LINES[n % len(LINES)].format(n=n) for n in range(4096)]
    return "".join(line.ljust(255, "." if "#" in line else " ") + "\n" for line in lines)


def main():
    program, times = begin("script_times", 7)
    with tempfile.TemporaryDirectory() as folder:
        path = os.path.join(folder, "s.xrs")
        with open(path, "w") as f:
            f.write(script())
        ran = subprocess.run([program, path, str(times)], capture_output=True, text=True, check=True)
        ours, count = (int(word) for word in ran.stdout.split())
        ran = subprocess.run([PYTHON, "-c", TIMED.format(path=path, times=times)], capture_output=True, text=True, check=True)
        theirs, lines = ran.stdout.split()
        if not count == int(lines) == 4096:
            raise SystemExit(f"{count} statements, and {lines} of Python's, in place of 4096")
        size = os.path.getsize(path)
    print(f"parse, {size} bytes, {count} statements: {ours / 1e6:.2f} ms; ast.parse {float(theirs) * 1000:.2f} ms, ratio {float(theirs) * 1e9 / ours:.2f}")


main()
