#!/usr/bin/env python3
"""Times Check by two builds of the library beside each other: `tools/builds.py BEFORE AFTER`, two trees of this repository in which `tools/archives.sh intake`
was run. In AFTER, whose benchmark is used, `tools/archives.sh comparison` was run too. Each run has both builds in another layout of their code, and is one process, in
which each calls Check 11 times on one file of each kind, by turns. Prints the medians of every run, and of each case the median ratio of all runs."""

import os
import re
import statistics
import subprocess
import sys
import tempfile

PADDINGS = (0, 32, 64, 96, 128, 160, 192)
CASE = re.compile(r"(.*): before [0-9.]+ us, after [0-9.]+ us, ratio ([0-9.]+)")


def shared_object(tree, padding, path):
    """Links the static library of a tree, with so many bytes before its code."""
    archive = os.path.join(tree, "target", "staticlib", "libintake.a")
    code = f".text\n.fill {padding}, 1, 0x90\n.section .note.GNU-stack,\"\",@progbits\n"
    skipped = path + ".o"
    subprocess.run(["as", "-o", skipped, "-"], input=code, text=True, check=True)
    subprocess.run(["cc", "-shared", "-Wl,-Bsymbolic", "-o", path, skipped, "-Wl,--whole-archive", archive, "-Wl,--no-whole-archive"], check=True)


def main():
    before, after = sys.argv[1:]
    bench = os.path.join(after, "bench")
    subprocess.run(["cargo", "build", "--quiet", "--release", "--offline"], cwd=bench, check=True)
    ratios = {}
    with tempfile.TemporaryDirectory() as folder:
        for padding in PADDINGS:
            paths = [os.path.join(folder, f"{name}{padding}.so") for name in ("before", "after")]
            for tree, path in zip((before, after), paths):
                shared_object(tree, padding, path)
            told = subprocess.run(["target/release/bench", "builds", *paths], cwd=bench, check=True, capture_output=True, text=True).stdout
            print(f"{padding} bytes before the code\n{told}", flush=True)
            for case, ratio in CASE.findall(told):
                ratios.setdefault(case, []).append(float(ratio))
    for case, found in ratios.items():
        print(f"{case}: {statistics.median(found):.3f} ({', '.join(f'{ratio:.3f}' for ratio in found)})")


main()
