#!/usr/bin/env python3
"""Writes docs/READING.md: the definitions that must be believed, as a list of files in reading order.

Believed is what the contracts of the exported functions cite, and what the files ROOTS cite, directly or through other definitions. Every other file under specs/
holds statements between functions and is named Inside..: who believes the prover need not read it. No believed file may cite an inside file, and no file under
specs/ one under proofs/.

`tools/reading.py` writes the list, `tools/reading.py --check` says whether it stands so.
"""

import os
import re
import sys

ROOT = os.path.join(os.path.dirname(os.path.abspath(__file__)), "..")
LIST = os.path.join(ROOT, "docs", "READING.md")

# The crates whose functions a host calls, and the records that say what is promised.
EXPORTED = ["intake"]
ROOTS = [
    ("bill_files", "Passing"),
    ("bill_files", "Accepted"),
    ("soundness", "Meaning"),
    ("booking", "Acceptable"),
    ("booking", "Booking"),
    ("booking", "Guarantee"),
    ("booking", "Calls"),
    ("intake", "Calls"),
    ("dispute_lines", "Again"),
]
DESK = [("desk_answer", "Desk"), ("desk_answer", "Line")]

HEAD = """# What must be believed

For the auditor. The prover checks that every function meets its contract. What it can't check is that a contract says what document 01 says: that is read, in the
files below, each definition with its sentence. They are all that the contracts of the exported functions, the guarantee (`Guarantee`), the meaning of an accepted
file (`Passing`, `Accepted`), of an acceptable booking (`Acceptable`) and of a sound ledger (`Sound`), and what is written again of a dispute that was read
(`fields_again`) cite, directly or through others; then what the desk program prints. The other {inside} files under specs/ are named Inside..: they hold statements between functions, which the prover ties together, and need
not be read. No believed file cites one. tools/reading.py makes this list, and the gate checks it.

Read from the top: each file rests on those above it. The first number counts the lines of definitions, the second those of the comments, which are their
sentences; imports and empty lines don't count.
"""

TABLE = """
| File | Lines | Comments | What it says |
|---|---|---|---|
"""


def read(path):
    with open(path, encoding="utf-8") as f:
        return f.read()


def cited(text):
    """The definitions' files that a text cites."""
    return re.findall(r"use Rattle\.(?!std\b)([a-z_]+)\.specs\.([A-Z][A-Za-z]*)\b", text)


def cited_by_exports(text):
    """The definitions' files that the contracts of a crate's exported functions cite."""
    exports = re.findall(r"#\[unsafe\(no_mangle\)\]\npub extern .*?\n\{\n", text, re.S)
    words = set(re.findall(r"\w+", " ".join(exports)))
    uses = re.findall(r"ghost (use Rattle\.[^{]*)\{([^}]*)\}", text)
    return [key for module, names in uses if words & set(names.split(", ")) for key in cited(module)]


def crates_in_order():
    return re.findall(r"(?m)^([a-z_]+)(?: staticlib)?:", read(os.path.join(ROOT, "crates.txt")))


def definitions():
    """The files under specs/, by crate and name."""
    files = {}
    for crate in crates_in_order():
        folder = os.path.join(ROOT, "crates", crate, "specs")
        for name in sorted(os.listdir(folder)) if os.path.isdir(folder) else []:
            if name.endswith(".antt") and name != "Lib.antt":
                files[crate, name[: -len(".antt")]] = os.path.join(folder, name)
    return files


def closure(roots, files):
    """The files that some files cite, directly or through others, and these files."""
    waiting = list(roots)
    found = set()
    while waiting:
        key = waiting.pop()
        if key in files and key not in found:
            found.add(key)
            waiting += cited(read(files[key]))
    return found


def believed(files):
    """What a host's calls and the records rest on; and what the desk program adds."""
    roots = list(ROOTS)
    for crate in EXPORTED:
        roots += cited_by_exports(read(os.path.join(ROOT, "crates", crate, "src", "lib.rt")))
    host = closure(roots, files)
    return host, closure(DESK, files) - host


def in_reading_order(found, files):
    """Each file after those that it cites; otherwise in the order of crates.txt."""
    order = []

    def visit(key):
        if key in found and key not in order:
            for other in sorted(set(cited(read(files[key])))):
                if other != key:
                    visit(other)
            if key not in order:
                order.append(key)

    for key in files:
        visit(key)
    return order


def line_counts(text):
    """How many lines hold definitions, and how many comments."""
    lines = [line.strip() for line in text.split("\n")]
    lines = [line for line in lines if line and not line.startswith("use ") and line != "-- Assumes nothing."]
    comments = sum(1 for line in lines if line.startswith("--"))
    return len(lines) - comments, comments


def first_sentence(text):
    line = text.split("\n")[0].lstrip("- ").strip()
    return line.split(". ")[0].rstrip(".").replace("|", "\\|")


def table(found, files):
    text = TABLE
    totals = [0, 0]
    for crate, name in in_reading_order(found, files):
        body = read(files[crate, name])
        lines, comments = line_counts(body)
        totals = [totals[0] + lines, totals[1] + comments]
        text += f"| crates/{crate}/specs/{name}.antt | {lines} | {comments} | {first_sentence(body)} |\n"
    return text + f"\n{len(found)} files, {totals[0]} lines of definitions, {totals[1]} of comments.\n"


def document():
    files = definitions()
    host, desk = believed(files)
    text = HEAD.format(inside=len(files) - len(host) - len(desk)) + table(host, files)
    return text + "\nThe desk program:\n" + table(desk, files)


def misnamed():
    """Files whose name does not say whether they are believed, and files that cite what they may not."""
    files = definitions()
    host, desk = believed(files)
    found = host | desk
    for key, path in files.items():
        inside = key[1].startswith("Inside")
        if inside == (key in found):
            yield f"{path}: {'believed, and named Inside' if inside else 'not believed, and not named Inside'}"
        if re.search(r"use Rattle\.(?!std\b)[a-z_]+\.proofs\.", read(path)):
            yield f"{path}: cites a proof"
        if not inside and any(name.startswith("Inside") for _, name in cited(read(path))):
            yield f"{path}: cites an inside file"


def main():
    wrong = list(misnamed())
    if wrong:
        sys.exit("\n".join(wrong))
    text = document()
    if "--check" in sys.argv:
        if not os.path.exists(LIST) or read(LIST) != text:
            sys.exit("docs/READING.md is not what tools/reading.py writes")
        print("docs/READING.md:", " ".join(re.findall(r"(?m)^\d+ files.*", text)))
    else:
        with open(LIST, "w", encoding="utf-8") as f:
            f.write(text)


if __name__ == "__main__":
    main()
