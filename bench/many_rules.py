#!/usr/bin/env python3
"""Measures what many rules cost, by commands that touch no machine, and beside other programs where they are given.

    bench/many_rules.py [--program PATH] [--before PATH] [--original PATH] [--runs N] [--events N] [--only PART]

--program is a usbguard, else the built one of this clone (bin/build-usbguard builds it); --before is another one, as one of a version
before; --original is usbguard-rule-parser of Debian's package usbguard, which is taken from the PATH where it isn't given. It tells, each by the shortest of N runs (5), in which the
programs take turns, and with the peak of memory:

  check   check-rules on 65,536 rules with an id alone, with four attributes, and with sets and conditions; the original's parser prints
          the rules that it reads, so its output goes to /dev/null
  judge   verdicts on 5,000 devices, 1,000 at a time, by 1, 4,096 and 65,536 rules of which only the last matches: with narrow ids, with
          ids that have a star, and with narrow ids and a condition that asks for allowed devices. What a start with these rules takes is
          taken off
  start   replay of a script with 65,536 rules and no device
  idle    events without any verdict, over one device, by 1 and 65,536 rules that don't ask for allowed devices. What a start with
          these rules takes is taken off
  events  make-script and replay --summary in one pipe, by N generated events (500,000) and a tenth of them; the peaks give the bytes
          that an event leaves

Times are the processor's, user and system. Needs GNU time as /usr/bin/time, and Python 3.9.
"""

import argparse
import os
import shutil
import subprocess
import sys
import tempfile
import time
from pathlib import Path

PROGRAM = Path(__file__).resolve().parent.parent / "crates/usbguard/out/usbguard"
KEY = "120100020000004050101100000100000001"
MANY = 65536
ROUNDS, BUSES, PORTS = 5, 4, 250
SWEEPS = 5000


def used(words, text, folder):
    """The processor time in seconds and the peak in bytes of a command that reads the text. GNU time tells the peak, since that of
    Python's own child isn't less than Python's."""
    given, told = folder / "input", folder / "peak"
    given.write_text(text)
    with given.open() as source:
        words = ["/usr/bin/time", "-f", "%M", "-o", told, *words]
        child = subprocess.Popen([*map(str, words)], stdin=source, stdout=subprocess.DEVNULL, stderr=subprocess.PIPE)
        said = child.stderr.read()
        _, status, use = os.wait4(child.pid, 0)
        child.returncode = os.waitstatus_to_exitcode(status)
    if child.returncode:
        sys.exit(f"many_rules.py: {words} ended with {child.returncode}: {said.decode(errors='replace')[-300:]}")
    return use.ru_utime + use.ru_stime, int(told.read_text()) * 1024


def shortest(runs, commands):
    """The shortest time and the least peak of each command, which take turns."""
    found = [[] for _ in commands]
    for _ in range(runs):
        for place, command in enumerate(commands):
            found[place].append(command())
    return [(min(time for time, _ in it), min(peak for _, peak in it)) for it in found]


def rules_with_id(count):
    return "".join(f"allow id {i:04x}:{i * 7 % MANY:04x}\n" for i in range(count))


def rules_with_four(count):
    return "".join(
        f'allow id {i % 4096:04x}:{i // 16:04x} serial "{i:08}" name "Keyboard {i % 97}" with-interface {{ 03:01:01 03:00:02 }}\n' for i in range(count)
    )


def rules_with_conditions(count):
    return "".join(
        f'block id {i:04x}:* serial "{i}" name "Device {i}" with-interface one-of {{ 03:00:* 08:06:50 }}'
        " if all-of { !random(0.5) rule-applied localtime(06:00-22:00) }\n"
        for i in range(count)
    )


def narrow(count):
    return [f"block id 0001:{i % MANY:04x}" for i in range(count - 1)] + ["allow id 1050:0011"]


def wide(count):
    return [f"block id {i % 4096:04x}:*" for i in range(count - 1)] + ["allow id 1050:0011"]


def asking(count):
    return [f"block id 0001:{i % MANY:04x} if allowed-matches(1050:0011)" for i in range(count - 1)] + ["allow id 1050:0011"]


def script(rules, judged):
    """A script that starts with the rules, and lets devices come and go."""
    lines = ["usbguard-replay 1", *(f"rule {rule}" for rule in rules), *(f"plug usb{bus} 1 {KEY} - - -" for bus in range(1, BUSES + 1)), "sweep 1"]
    names = [f"{bus}-{port}" for bus in range(1, BUSES + 1) for port in range(1, PORTS + 1)]
    if judged:
        for turn in range(ROUNDS):
            lines += [*(f"plug {name} 1 {KEY} - - -" for name in names), "sweep 2", *(f"unplug {name}" for name in names), "sweep 2"]
    return "\n".join(lines) + "\n"


def tell_ratios(label, results):
    """Tells the time and peak of each program, and the others as ratios to the first."""
    (time, peak), *others = [it[1] for it in results]
    text = f"{label}: {time:.3f} s, {peak / 2**20:.1f} MB"
    for (name, _), (other, most) in zip(results[1:], others):
        text += f"; {name} {other / time:.1f} times the time and {most / peak:.2f} times the memory"
    print(text, flush=True)


def check(programs, original, runs, folder):
    for label, text in (("an id", rules_with_id(MANY)), ("four attributes", rules_with_four(MANY)), ("sets and conditions", rules_with_conditions(MANY))):
        commands = [lambda program=program: used([program, "check-rules"], text, folder) for _, program in programs]
        names = [name for name, _ in programs]
        if original:
            file = folder / "rules"
            file.write_text(text)
            commands.append(lambda: used([original, "-f", file], "", folder))
            names.append("the original")
        results = list(zip(names, shortest(runs, commands)))
        tell_ratios(f"check-rules, {MANY} rules with {label}", results)


def judge(programs, runs, folder):
    verdicts = ROUNDS * BUSES * PORTS
    for name, program in programs:
        for kind, made in (("narrow", narrow), ("wide", wide), ("narrow and asking for allowed devices", asking)):
            one = None
            for count in (1, 4096, MANY):
                texts = [script(made(count), judged) for judged in (False, True)]
                (idle, _), (whole, peak) = shortest(runs, [lambda text=text: used([program, "replay"], text, folder) for text in texts])
                spent = (whole - idle) / verdicts
                one = one or spent
                print(
                    f"{name}, judge by {count} rules, {kind}: {spent * 1e6:.1f} us a verdict, {1 / spent:.0f} a second,"
                    f" {spent / one:.2f} times that by one rule; {peak / 2**20:.1f} MB",
                    flush=True,
                )


def start(programs, runs, folder):
    for label, made in (("an id", rules_with_id), ("four attributes", rules_with_four)):
        text = script(made(MANY).splitlines(), False)
        results = shortest(runs, [lambda program=program: used([program, "replay"], text, folder) for _, program in programs])
        tell_ratios(f"start of a replay, {MANY} rules with {label}", list(zip([name for name, _ in programs], results)))


def idle(programs, runs, folder):
    for name, program in programs:
        one = None
        for count in (1, MANY):
            first = script(narrow(count), False)
            texts = [first, first + "sweep 3\n" * SWEEPS]
            (begun, _), (whole, _) = shortest(runs, [lambda text=text: used([program, "replay"], text, folder) for text in texts])
            spent = (whole - begun) / SWEEPS
            one = one or spent
            print(f"{name}, an event without a verdict by {count} rules: {spent * 1e6:.1f} us, {spent / one:.2f} times that by one rule", flush=True)


def events(programs, most, folder):
    for name, program in programs:
        peaks = []
        for count in (most // 10, most):
            began = time.monotonic()
            maker = subprocess.Popen([program, "make-script", str(count), "7"], stdout=subprocess.PIPE)
            reader = ["/usr/bin/time", "-f", "%U %S %M", "-o", folder / "peak", program, "replay", "--summary"]
            said = subprocess.run([*map(str, reader)], stdin=maker.stdout, stdout=subprocess.PIPE, text=True, check=True).stdout.strip()
            if maker.wait():
                sys.exit(f"many_rules.py: make-script ended with {maker.returncode}")
            took = time.monotonic() - began
            user, system, peak = (folder / "peak").read_text().split()
            peaks.append(int(peak) * 1024)
            spent = float(user) + float(system)
            print(f"{name}, {count} events in a pipe: {took:.2f} s, {spent:.2f} s of the processor in replay, {peaks[-1] / 2**20:.1f} MB; {said}")
        print(f"{name}: {(peaks[1] - peaks[0]) / (most - most // 10):.0f} bytes an event", flush=True)


def main():
    parser = argparse.ArgumentParser(usage=__doc__.split("\n\n")[1].strip())
    parser.add_argument("--program", type=Path, default=PROGRAM)
    parser.add_argument("--before", type=Path)
    parser.add_argument("--original", type=Path, default=shutil.which("usbguard-rule-parser"))
    parser.add_argument("--runs", type=int, default=5)
    parser.add_argument("--events", type=int, default=500000)
    parser.add_argument("--only", choices=["check", "judge", "start", "idle", "events"])
    words = parser.parse_args()
    programs = [("this", words.program)] + ([("the version before", words.before)] if words.before else [])
    for name, program in programs + ([("the original", words.original)] if words.original else []):
        print(f"{name}: {program}", flush=True)
    with tempfile.TemporaryDirectory(prefix="many-rules-") as room:
        folder = Path(room)
        parts = {
            "check": lambda: check(programs, words.original, words.runs, folder),
            "judge": lambda: judge(programs, words.runs, folder),
            "start": lambda: start(programs, words.runs, folder),
            "idle": lambda: idle(programs, words.runs, folder),
            "events": lambda: events(programs, words.events, folder),
        }
        for name, part in parts.items():
            if words.only in (None, name):
                part()


if __name__ == "__main__":
    main()
