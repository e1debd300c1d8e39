"""What the measuring scripts share: the words they take, the Python of the peers, and the line that names the machine."""
import argparse
import os
import platform
import sys

HERE = os.path.dirname(os.path.abspath(__file__))
PYTHON = "/usr/bin/python3" if os.path.exists("/usr/bin/python3") else sys.executable


def begin(crate, times):
    """The path of the program that `crate` builds, or that the words name, and how often each job runs. Names the machine."""
    options = argparse.ArgumentParser()
    options.add_argument("program", nargs="?", default=os.path.join(HERE, "..", "crates", crate, "out", crate))
    options.add_argument("--times", type=int, default=times)
    given = options.parse_args()
    with open("/proc/cpuinfo") as f:
        model = next((line.split(":", 1)[1].strip() for line in f if line.startswith("model name")), platform.machine())
    print(f"{model}, {os.cpu_count()} processors")
    return os.path.abspath(given.program), given.times
