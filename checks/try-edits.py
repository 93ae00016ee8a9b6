#!/usr/bin/env python3
"""Tries the edits that the prover has to refuse: those in crates/*/must-fail, which the gate tries too, and those in checks/edits,
which it doesn't.

    checks/try-edits.py [--check | --list] [CRATE..]

--check proves nothing: it tells the edits that can't be applied. --list tells how many there are. With neither it also tries each edit
of the crates named, or of all, in a copy of crates/, and tells what came of it: refused, NOT REFUSED, BAD EDIT or NOT TRIED. What was
tried is kept by `rt ci`, so a run that is cut off goes on where it was, and an edit is tried again only where its crate or one below
it has changed. Exit status 0 where each edit was refused, or with --check can be applied; 1 where one wasn't, 2 for other words.
Needs Python 3.9 and rt.
"""

import argparse
import pathlib
import re
import shutil
import subprocess
import sys
import tempfile

TOP = pathlib.Path(__file__).resolve().parent.parent
CRATES = TOP / "crates"
OTHERS = TOP / "checks" / "edits"
RESULT = re.compile(r"(?:rt: )?must-fail (\w+)/(\S+?\.edit): (refused|NOT REFUSED|BAD EDIT|NOT TRIED)(.*)")


def edits_of(crate):
    """The edits of a crate in both places."""
    return sorted((CRATES / crate / "must-fail").glob("*.edit")) + sorted((OTHERS / crate).glob("*.edit"))


def apply(edit, crate):
    """Why the edit can't be applied, if it can't. Each text to be replaced stands once in its file, as the edit's earlier pairs left it."""
    texts, path, old, pairs = {}, None, None, 0
    for line in edit.read_text().splitlines():
        key, _, text = line.partition(": ")
        if key == "file":
            path = text.strip()
            if not (CRATES / crate / path).is_file():
                return f"there is no {path}"
            texts.setdefault(path, (CRATES / crate / path).read_text())
        elif key == "old":
            old = text
        elif key in ("new", "new:"):
            if not path or not old:
                return "a line new: has no file: or no old: before it"
            count = texts[path].count(old)
            if count != 1:
                return f"{path} has {count} times: {old}"
            texts[path] = texts[path].replace(old, text)
            old, pairs = None, pairs + 1
        else:
            return f"a line that isn't read: {line}"
    return None if pairs else "it has no pair of old: and new:"


def tell_unfit(crates):
    """Tells the edits that can't be applied, and returns how many there are."""
    count = 0
    for crate in crates:
        names = [edit.name for edit in edits_of(crate)]
        for edit in edits_of(crate):
            why = "another edit has its name" if names.count(edit.name) > 1 else apply(edit, crate)
            if why:
                print(f"{edit.relative_to(TOP)}: BAD EDIT: {why}")
                count += 1
    return count


def copy_tree(room, crates):
    """Copies what rt ci reads, with the edits of these crates alone."""
    for name in ("HANDLES", "crates.txt"):
        shutil.copy2(TOP / name, room)
    shutil.copytree(CRATES, room / "crates", ignore=shutil.ignore_patterns("out", "must-fail"))
    for crate in crates:
        folder = room / "crates" / crate / "must-fail"
        folder.mkdir()
        for edit in edits_of(crate):
            shutil.copy2(edit, folder)


def try_edits(crates):
    """Tries the edits of the crates, and returns by crate and name what came of each."""
    found = {}
    with tempfile.TemporaryDirectory(prefix="try-edits-") as room:
        copy_tree(pathlib.Path(room), crates)
        words = ["rt", "ci", *crates]
        with subprocess.Popen(words, cwd=room, stdout=subprocess.PIPE, stderr=subprocess.STDOUT, text=True, errors="replace") as run:
            for line in run.stdout:
                result = RESULT.match(line)
                if result:
                    found[result[1], result[2]] = result[3] + result[4]
                elif line.startswith("rt: "):
                    print(line, end="", file=sys.stderr, flush=True)
    return found


def tell(crates, found):
    """Tells what came of each edit, and returns the status."""
    refused = count = 0
    for crate in crates:
        for edit in edits_of(crate):
            text = found.get((crate, edit.name), "NOT TRIED: rt ci told nothing of it")
            print(f"{edit.relative_to(TOP)}: {text}")
            count += 1
            refused += text.startswith("refused")
    print(f"{refused} of {count} edits were refused")
    return 0 if refused == count else 1


def main():
    parser = argparse.ArgumentParser(usage=__doc__.split("\n\n")[1].strip())
    parser.add_argument("--check", action="store_true")
    parser.add_argument("--list", action="store_true")
    parser.add_argument("crates", nargs="*")
    words = parser.parse_args()
    every = sorted(it.name for it in CRATES.iterdir() if edits_of(it.name))
    strange = [it for it in words.crates if it not in every] + [it.name for it in OTHERS.iterdir() if it.name not in every]
    if strange:
        print(f"try-edits.py: no crate with edits: {' '.join(strange)}", file=sys.stderr)
        return 2
    crates = [it for it in every if it in words.crates] if words.crates else every
    if words.list:
        for crate in crates:
            print(f"{crate}: {len(list((CRATES / crate / 'must-fail').glob('*.edit')))} of {len(edits_of(crate))} in the gate")
        return 0
    unfit = tell_unfit(crates)
    if words.check or unfit:
        print(f"{sum(len(edits_of(it)) for it in crates)} edits, {unfit} of them bad")
        return 1 if unfit else 0
    return tell(crates, try_edits(crates))


if __name__ == "__main__":
    sys.exit(main())
