#!/usr/bin/env python3
"""Lists each name of a definition that stands in the specs/ of more than one crate, and each line of a contract or a definition that is
wider than 100 columns. Lines that bring names in don't count.

    checks/names.py            both lists, and how long each is
    checks/names.py --counts   how long each is, alone

The status is 0 where both are empty, and else 1.
"""
import glob
import os
import re
import sys

WIDTH = 100
DEFINED = re.compile(r"^\s*(?:abbrev |unfoldable )?pub (?:data |record )?([^\s:(\[]+)")


def definitions(text):
    """The names that a file of specs/ defines, at its outer level or in a module of its own."""
    in_type = None
    for line in text.split("\n"):
        indent = len(line) - len(line.lstrip())
        if in_type is not None and line.strip() and indent <= in_type:
            in_type = None
        found = DEFINED.match(line)
        if not found or in_type is not None or line.lstrip().startswith(("pub mod", "pub use")):
            continue
        yield found.group(1)
        if re.match(r"\s*(?:abbrev |unfoldable )?pub (?:data|record) ", line):
            in_type = indent


def clauses(text):
    """The numbered lines of a source file that belong to a contract or a ghost item."""
    inside = False
    for number, line in enumerate(text.split("\n"), 1):
        start = line.lstrip()
        if start.startswith("ghost use"):
            inside = False
        elif start.startswith(("ensures", "requires", "ghost")):
            inside = True
        elif start.startswith(("{", "}", "//", "#", "fn ", "pub ", "let ")):
            inside = False
        if inside:
            yield number, line


def main():
    os.chdir(os.path.join(os.path.dirname(os.path.abspath(__file__)), ".."))
    crates = {}
    wide = []
    for path in sorted(glob.glob("crates/*/specs/*.antt")):
        text = open(path, encoding="utf-8").read()
        for name in definitions(text):
            crates.setdefault(name, set()).add(path.split("/")[1])
        for number, line in enumerate(text.split("\n"), 1):
            if len(line) > WIDTH and not line.lstrip().startswith(("use ", "pub use ", "open ")):
                wide.append((path, number, len(line)))
    for path in sorted(glob.glob("crates/*/src/*.rt")):
        text = open(path, encoding="utf-8").read()
        wide += [(path, number, len(line)) for number, line in clauses(text) if len(line) > WIDTH]
    shared = {name: owners for name, owners in crates.items() if len(owners) > 1}
    if "--counts" not in sys.argv[1:]:
        for name in sorted(shared):
            print(f"{name}: {' '.join(sorted(shared[name]))}")
        for path, number, length in wide:
            print(f"{path}:{number}: {length} columns")
    print(f"{len(shared)} names in more than one crate, {len(wide)} lines wider than {WIDTH} columns")
    return 1 if shared or wide else 0


sys.exit(main())
