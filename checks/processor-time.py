#!/usr/bin/env python3
"""processor-time.py COMMAND..: runs a command, as `rt ci ug_host`, and tells the processor time, user and system, that it took for each crate,
and for its tests, dearest first, and the most memory that one of its processes had.

It looks each second at the provers among the command's processes and at those below them: what one takes behind the last look isn't counted."""
import os
import subprocess
import sys
import time

TICK = os.sysconf('SC_CLK_TCK')


def stat_of(pid):
    """The parent, and the processor time of the process and of those that it waited for."""
    with open(f'/proc/{pid}/stat') as file:
        words = file.read().rpartition(')')[2].split()
    return int(words[1]), sum(int(word) for word in words[11:15]) / TICK


def below(top):
    """The first process and those that it started, and what these started, each behind the one that started it."""
    children = {}
    for pid in filter(str.isdigit, os.listdir('/proc')):
        try:
            children.setdefault(stat_of(pid)[0], []).append(int(pid))
        except OSError:
            pass
    found = [top]
    for pid in found:
        found += children.get(pid, [])
    return found


def spent_by(pids):
    """The processor time of these processes, each of which is read before those that it started: what it waits for meanwhile isn't counted twice."""
    spent = 0
    for pid in pids:
        try:
            spent += stat_of(pid)[1]
        except OSError:
            pass
    return spent


def prover(pid):
    """What a prover works at: a crate, and whether its tests are meant; None for any other process."""
    with open(f'/proc/{pid}/cmdline', 'rb') as file:
        words = file.read().decode(errors='replace').split('\0')
    if not words[0].endswith('/rattle') or '--crate-name' not in words:
        return None
    crate = words[words.index('--crate-name') + 1]
    return f'{crate}, its tests' if '--test' in words else crate


def memory_of(pid):
    with open(f'/proc/{pid}/status') as file:
        for line in file:
            if line.startswith('VmHWM:'):
                return int(line.split()[1]) / 1e6
    return 0


def look(top, times, most):
    counted = set()
    for pid in below(top):
        try:
            crate = prover(pid)
            if not crate:
                continue
            most[crate] = max(most.get(crate, 0), memory_of(pid))
        except OSError:
            continue
        # A copy, and a compiler, is counted in the prover that waits for it.
        if pid not in counted:
            own = below(pid)
            counted.update(own)
            times[pid, crate] = max(times.get((pid, crate), 0), spent_by(own))


def main():
    command = subprocess.Popen(sys.argv[1:])
    times, most = {}, {}
    while command.poll() is None:
        look(command.pid, times, most)
        time.sleep(1)
    by_crate = {}
    for (_, crate), spent in times.items():
        by_crate[crate] = by_crate.get(crate, 0) + spent
    for crate, spent in sorted(by_crate.items(), key=lambda it: -it[1]):
        print(f'{spent:7.0f} s {most[crate]:5.1f} GB  {crate}')
    print(f'{sum(by_crate.values()):7.0f} s in all')
    return command.returncode


if __name__ == '__main__':
    sys.exit(main())
