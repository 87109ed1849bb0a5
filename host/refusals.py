#!/usr/bin/env python3
"""docs/REFUSALS.md: a row for each refusal number of host/intake.h, with the same sentence; and the command of each row gives its number, code and line."""

import os
import re
import subprocess
import sys

ROOT = os.path.join(os.path.dirname(os.path.abspath(__file__)), "..")
errors = []


def read(path):
    with open(os.path.join(ROOT, path), encoding="utf-8") as f:
        return f.read()


def header_sentences():
    """The sentence of each number, from the table in the header's first comment."""
    sentences = {}
    number = None
    for line in read("host/intake.h").split("*/")[0].splitlines():
        row = re.match(r" \*   (\d+) +(\S.*)$", line)
        more = re.match(r" \*        (\S.*)$", line)
        if row:
            number = int(row.group(1))
            sentences[number] = row.group(2)
        elif more and number is not None:
            sentences[number] += " " + more.group(1)
        else:
            number = None
    return sentences


def rows():
    """The rows of the table: number, code, sentence, command and answer."""
    for line in read("docs/REFUSALS.md").splitlines():
        cells = [cell.strip() for cell in line.split("|")[1:-1]]
        if len(cells) == 6 and cells[0].isdigit():
            shown = re.fullmatch(r"`(target/[^`]+)` (?:answers|prints) `([^`]+)`", cells[5])
            yield int(cells[0]), int(cells[1]), cells[2], shown


def check(number, code, sentence, shown):
    """What a row says of its number, as a list of errors."""
    if sentence != header_sentences().get(number):
        yield "its sentence is not that of host/intake.h"
    if not shown:
        yield "no command and answer"
        return
    command, answer = shown.groups()
    if not re.search(rf"rejected {number} {code} \d+$", answer) and not (code == 0 and re.search(rf"refused {number}$", answer)):
        yield f"its answer has another number or code: {answer}"
    run = subprocess.run(command.split(), cwd=ROOT, stdout=subprocess.PIPE, encoding="utf-8", check=False)
    if answer not in run.stdout.splitlines():
        yield f"{command} prints no line {answer}"


seen = []
for number, code, sentence, shown in rows():
    seen.append(number)
    errors += [f"docs/REFUSALS.md, {number}: {error}" for error in check(number, code, sentence, shown)]
if seen != sorted(header_sentences()):
    errors.append(f"docs/REFUSALS.md: the rows are not the numbers of host/intake.h, in order: {seen}")
for error in errors:
    print(error)
print(f"{len(seen)} rows of docs/REFUSALS.md: {len(errors)} that don't hold")
sys.exit(1 if errors else 0)
