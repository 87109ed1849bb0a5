#!/usr/bin/env python3
"""Counts, in crates/*/src and crates/*/proofs, the places of the eight points of docs/DESIGN-PASS.md: run at the top of a checkout. With --list it prints each place."""

import glob
import re
import sys

SOURCES = {path: open(path, encoding="utf-8").read() for path in sorted(glob.glob("crates/*/src/*.rt"))}
listing = "--list" in sys.argv


def places(pattern):
    """The lines of src/ that a pattern is found in."""
    found = []
    for path, text in SOURCES.items():
        for number, line in enumerate(text.split("\n"), 1):
            if re.search(pattern, line):
                found.append(f"{path}:{number}: {line.strip()}")
    return found


def counting_loops():
    """The `while` loops in whose body a variable of the condition goes up or down by 1."""
    found = []
    for path, text in SOURCES.items():
        lines = text.split("\n")
        for i, line in enumerate(lines):
            head = re.match(r"^( *)('\w+: )?while (.*) \{$", line)
            if not head:
                continue
            asked = set(re.findall(r"[a-z_]+", head.group(3)))
            for step in lines[i + 1 :]:
                if step.startswith(head.group(1) + "}"):
                    break
                counted = re.match(rf"^{head.group(1)}    (\w+) [+-]= 1;$", step)
                if counted and counted.group(1) in asked:
                    found.append(f"{path}:{i + 1}: {line.strip()}")
                    break
    return found


def functions():
    """Each function with the number of its parameters."""
    found = []
    for path, text in SOURCES.items():
        for head in re.finditer(r"\bfn (\w+)", text):
            at = text.index("(", head.end())
            generic = text.find("<", head.end(), at)
            if generic == head.end():
                # `F: Fn(..)` may stand among the generic parameters
                at = text.index(">(", head.end()) + 1
            depth, count, filled = 0, 0, False
            for letter in text[at:]:
                if letter in "([":
                    depth += 1
                elif letter in ")]":
                    depth -= 1
                    if depth == 0:
                        break
                elif letter == "," and depth == 1:
                    count += 1
                    filled = False
                elif not letter.isspace():
                    filled = True
            found.append((f"{path}: {head.group(1)}", count + filled))
    return found


def say(name, found):
    print(f"{name}: {len(found)}")
    if listing:
        for place in found:
            print("   ", place)


def files(pattern):
    return [p for p in glob.glob(pattern, recursive=True) if "/out/" not in p]


def lines_of(paths):
    return sum(len(open(p, encoding="utf-8").read().splitlines()) for p in paths)


say("1 enums of our own", places(r"^(pub )?enum "))
say("1 flags beside a value", places(r"^    (pub )?(fits|fit): bool"))
say("1 refusals as Outcome with number 0 for none, results", places(r"\) -> (\w+::)?Outcome$"))
say("2 functions of one size", places(r"^(pub )?fn [a-z_]*(_of_few|_of_some|_of_many|_[0-9]+_lines)\("))
say("2 arrays of a size in a function of several", places(r"let mut (few|some)_(words|amounts) = "))
say("3 while", places(r"^ *(.[a-z]+: )?while "))
say("3 while that counts by 1", counting_loops())
say("3 for", places(r"^ *(.[a-z]+: )?for "))
say("3 for over a range", places(r"^ *(.[a-z]+: )?for \w+ in .*\.\."))
say(
    "4 conversion, equality, order by hand",
    places(
        r"^ *(pub )?fn (wide|one_if|later|earlier|differ|same_bytes|is_value|is_moment|number_or_zero|size|amount_reply_for|totals_reply_for|find_reply_for|reply_for|less_one|either"
        r"|counted|count_held|in_state)\("
    ),
)
for fact in ["RoomFor", "LedgerRoom", "first_days", r"follow_table\b", "Placed ", "Read file", "RecordsRead", "length sites.now ≡ length types.now|SameLength", "length lasts.now ≡ length firsts.now", r"\b(Chain|Tree|Site|Bill)?Room\b", "KeyIndex", "ByKey", "BySite", "Indexed size"]:
    say(f"5 '{fact}' in requires", places(rf"^ *requires.*({fact})"))
say("5 functions of more than 8 parameters", [name for name, count in functions() if count > 8])
print(f"5 functions: {len(functions())}")
say("6 runs of words and of amounts, as parameters or fields", places(r"\b(words|amounts): &('\w+ )?(mut )?\["))
say("7 a switch on which test to run", places(r"enum Search|Search::"))
answers = files("crates/*/proofs/**/Answers.antt")
invariants = files("crates/*/proofs/**/Invariants.antt")
measures = sum(open(p, encoding="utf-8").read().count("\ndecreases-") for p in invariants)
print(f"8 answers {len(answers)}, invariants {len(invariants)}, measures {measures}, lines of proofs {lines_of(files('crates/*/proofs/**/*.antt'))}, of specs {lines_of(files('crates/*/specs/*.antt'))}, of code {lines_of(SOURCES)}")
