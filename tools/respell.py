#!/usr/bin/env python3
"""Spells the names of this repository's definitions and lemmas as the library spells its own: words in snake case, types and modules in camel case.

usage: tools/respell.py [--list] [CRATES]      CRATES: the folder of the crates (crates)

A name is one that a file of specs/ or of proofs/ declares. `firstPlace` becomes `first_place` and `walk-more` becomes `walk_more`; where two names of one
file or of one path would fall together, the lemma gets `_lem` after its name. Names of the code, of types and of the library stay. Run once, after port.py.
"""

import collections
import os
import re
import sys

DECLARED = re.compile(r"^\s*(?:(?:abbrev|unfoldable|pub) )*([^\s:(){},;.]+)(?: \{[^}]*\})? :", re.M)
# A name of antt: letters, digits, and what may stand between them.
NAME = re.compile(r"(?<![\w'₀-₉ₐ-ₜ◌≡-])[A-Za-z][\w'₀-₉ₐ-ₜ]*(?:-[\w'₀-₉ₐ-ₜ*+≢≤<]+)*")
CAMEL = re.compile(r"[a-z][a-z0-9_]*[A-Z]")


def files(crates):
    for folder, dirs, names in os.walk(crates):
        dirs[:] = sorted(d for d in dirs if d != "out")
        for name in sorted(names):
            if name.endswith((".antt", ".rt")):
                yield os.path.join(folder, name)


def is_own(path):
    return path.endswith(".antt") and os.path.basename(path) != "Proof.antt"


def snake(name):
    """A name in snake case; the capital of a type that stands in it stays."""
    return re.sub(r"(?<=[a-z0-9])([A-Z])", lambda m: "_" + m.group(1).lower(), name).replace("-", "_")


def spellings(texts):
    declared, taken = set(), collections.defaultdict(set)
    for path, text in texts.items():
        if is_own(path):
            found = set(DECLARED.findall(text))
            declared |= found
            for name in found:
                taken[snake(name)].add(name)
    library = set()
    for text in texts.values():
        for item in re.finditer(r"^(?:pub )?(?:ghost )?use (?!Rattle\.(?!std\b|core\b))[\w.]+\.\{([^}]*)\}", text, re.M):
            library |= {word.strip().split(" as ")[0] for word in item.group(1).split(",")}
    new = {}
    for name in sorted(declared - library):
        if not re.match(r"[a-z]", name):
            continue
        spelled = snake(name)
        is_definition = CAMEL.match(name) and "-" not in name
        if not is_definition and (taken[spelled] - {name} or spelled in library) and (name != spelled or any(CAMEL.match(other) for other in taken[spelled])):
            spelled += "_lem"
        if spelled != name:
            new[name] = spelled
    return new


def respell(text, new):
    return NAME.sub(lambda m: new.get(m.group(0), m.group(0)), text)


def ghost_lines(text, new):
    """The clauses and imports of a file of code: its code, its comments and its strings stay."""
    out, depth, inside = [], 0, False
    for line in text.splitlines(keepends=True):
        starts = re.match(r"\s*(?:pub )?(?:ghost |requires\b|ensures\b|also_)", line)
        if starts or inside:
            line = respell(line, new)
            depth += line.count("{") - line.count("}")
            inside = depth > 0
            if not inside:
                depth = 0
        out.append(line)
    return "".join(out)


def falls(path, text, new):
    """Names of one file that would fall together."""
    seen = collections.defaultdict(set)
    for name in set(NAME.findall(text)):
        seen[new.get(name, name)].add(name)
    return [(path, spelled, sorted(names)) for spelled, names in seen.items() if len(names) > 1]


def main():
    words = [word for word in sys.argv[1:] if not word.startswith("--")]
    crates = words[0] if words else "crates"
    texts = {}
    for path in files(crates):
        with open(path, encoding="utf-8") as f:
            texts[path] = f.read()
    new = spellings(texts)
    together = [fall for path, text in texts.items() if path.endswith(".antt") for fall in falls(path, text, new)]
    for path, spelled, names in together:
        print(f"{path}: {' and '.join(names)} fall together as {spelled}")
    if "--list" in sys.argv:
        for name, spelled in new.items():
            print(name, spelled)
        return
    changed = 0
    for path, text in texts.items():
        now = respell(text, new) if path.endswith(".antt") else ghost_lines(text, new)
        if now != text:
            changed += 1
            with open(path, "w", encoding="utf-8") as f:
                f.write(now)
    print(f"{len(new)} names, {changed} files")


if __name__ == "__main__":
    main()
