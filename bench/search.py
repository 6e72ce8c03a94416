#!/usr/bin/env python3
"""What the search costs: a table of the time, the memory and the answer of `leo3` for problems of several families.

Usage: bench/search.py
"""

import os
import subprocess
import sys
import time
from pathlib import Path

TOP = Path(__file__).resolve().parent.parent
EXAMPLES = TOP / "examples"
RUNS = [
    ("Cantor's theorem", ["--weight", "14", str(EXAMPLES / "cantor.p")]),
    ("2,000 implications", ["gen:2000"]),
    ("case split", [str(EXAMPLES / "cases.p")]),
    ("functions", [str(EXAMPLES / "functions.p")]),
    ("choice", [str(EXAMPLES / "choice.p")]),
    ("sets, 12 turns", ["--turns", "12", str(EXAMPLES / "sets.p")]),
]


def measured(words):
    """Runs `leo3` and gives the seconds, the megabytes at most, and the first line and last line of the answer."""
    start = time.monotonic()
    child = subprocess.Popen([str(TOP / "bin" / "leo3"), *words], stdout=subprocess.PIPE)
    lines = child.stdout.read().decode().splitlines()
    _, _, usage = os.wait4(child.pid, 0)
    seconds = time.monotonic() - start
    return seconds, usage.ru_maxrss / 1024, lines


def main():
    # The first run proves and builds the program where that is needed.
    subprocess.run([str(TOP / "bin" / "leo3"), "--version"], check=True, stdout=sys.stderr)
    print(f"{'problem':22} {'seconds':>8} {'MB':>6}  answer")
    for name, words in RUNS:
        seconds, megabytes, lines = measured(words)
        status = lines[0].split()[3] if lines else "none"
        print(f"{name:22} {seconds:8.2f} {megabytes:6.0f}  {status}, {len(lines)} lines")


if __name__ == "__main__":
    main()
