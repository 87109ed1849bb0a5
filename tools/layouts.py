#!/usr/bin/env python3
"""Times the benchmark in six layouts of its code, three runs each, and prints of each case the median ratio of every layout and the median of these. Words after the
command are passed on: `tools/layouts.py ledger` times Book, Totals and Find alone. The static libraries must have been built (`tools/archives.sh`)."""

import os
import re
import statistics
import subprocess
import sys

BENCH = os.path.join(os.path.dirname(os.path.abspath(__file__)), "..", "bench")
PADDINGS = (0, 32, 64, 96, 128, 160)
RUNS = 3
CASE = re.compile(r"(.*): proved [0-9.]+ us, reference [0-9.]+ us, ratio ([0-9.]+)")


def ratios(padding):
    """The ratios of each case, in a layout."""
    environment = dict(os.environ, PADDING=str(padding))
    subprocess.run(["cargo", "build", "--quiet", "--release", "--offline"], cwd=BENCH, env=environment, check=True)
    cases = {}
    for _ in range(RUNS):
        told = subprocess.run(["target/release/bench", *sys.argv[1:]], cwd=BENCH, check=True, capture_output=True, text=True).stdout
        for case, ratio in CASE.findall(told):
            cases.setdefault(case, []).append(float(ratio))
    return {case: statistics.median(found) for case, found in cases.items()}


def main():
    layouts = [ratios(padding) for padding in PADDINGS]
    for case in layouts[0]:
        found = [layout[case] for layout in layouts]
        print(f"{case}: {statistics.median(found):.2f} ({', '.join(f'{ratio:.2f}' for ratio in found)})")


main()
