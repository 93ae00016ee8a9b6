#!/usr/bin/env python3
"""module-times.py CRATE [MOST]: what each module of a crate took in the first `rt check` over an empty out/, dearest first, and 30 of them unless
another number is given.

A check keeps each module as soon as it is checked, so the time between two that were kept is that of the second. It is the clock's, so nothing else may
run, and one job: `rm -rf out/incremental && rt check --jobs 1` in the crate's folder. Of a function F, `F.Lts` is what its loans and its drops take at
each of its ends, `F.Proof` are its goals; the other modules are definitions, contracts and files of lemmas."""
import os
import sys
from pathlib import Path

STARTED = 'rattle-last-used'


def kept_modules(crate):
    """The times at which the check began and each module was kept, in their order."""
    folders = [at for at in Path('crates', crate, 'out', 'incremental').glob('antt-checked*') if at.is_dir()]
    if not folders:
        sys.exit(f'module-times.py: {crate} has no out/incremental: run `rt check --jobs 1` in its folder first')
    newest = max(folders, key=lambda folder: (folder / STARTED).stat().st_mtime)
    begun = (newest / STARTED).stat().st_mtime
    kept = [(file.stat().st_mtime, file.stem) for file in newest.glob('*.oantt')]
    return begun, sorted(found for found in kept if found[0] >= begun)


def main():
    if not 2 <= len(sys.argv) <= 3:
        sys.exit(__doc__)
    os.chdir(Path(__file__).resolve().parent.parent)
    crate, most = sys.argv[1], int(sys.argv[2]) if len(sys.argv) == 3 else 30
    last, kept = kept_modules(crate)
    times = []
    for at, module in kept:
        times.append((at - last, module.removeprefix(f'Rattle-{crate}-')))
        last = at
    ends = sum(time for time, module in times if module.endswith('.Lts'))
    print(f'{sum(time for time, _ in times):7.1f} s in {len(times)} modules, of which {ends:.1f} s for loans and drops')
    for time, module in sorted(times, reverse=True)[:most]:
        print(f'{time:7.1f} s  {module}')


if __name__ == '__main__':
    main()
