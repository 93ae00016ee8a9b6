#!/usr/bin/env python3
"""Measures `usbguard daemon` over a folder with files like those of sysfs, which stands in the place of /sys/bus in a mount
namespace of its own, beside a file of the test's own in the place of /sys/kernel/uevent_seqnum.

    bench/daemon.py [--program PATH] [--plugs N] [--seconds N]

It tells the processor time of sweeps over 12 devices while nothing happens; and with 1, 4,096 and 65,536 rules, of which only the last
matches, the time to start, the processor time of a plug and an unplug, the time from a plug's announcement to its verdict in the
journal, the peak of memory, and how many files are open before and behind all plugs; and the memory with 65,536 rules with an id,
serial, name and two interfaces. Needs root, unshare(1), mount(8) and Python 3.9.
"""

import argparse
import os
import shutil
import statistics
import subprocess
import sys
import tempfile
import time
from pathlib import Path

from many_rules import rules_with_four

DEVICES, COUNTER = Path("/sys/bus/usb/devices"), Path("/sys/kernel/uevent_seqnum")
KEY = bytes.fromhex("120100020000004050101100000100000001")


class Machine:
    """The folder of devices, and the count of announcements."""

    def __init__(self, folder):
        subprocess.run(["mount", "-t", "tmpfs", "devices", "/sys/bus"], check=True)
        DEVICES.mkdir(parents=True)
        self.count, self.made = 0, Path("/sys/bus/made")
        counter = folder / "uevent_seqnum"
        counter.write_text("%-12d\n" % 0)
        subprocess.run(["mount", "--bind", counter, COUNTER], check=True)
        self.plug("usb1", 1)

    def announce(self):
        self.count += 1
        fd = os.open(COUNTER, os.O_WRONLY)
        os.pwrite(fd, b"%-12d\n" % self.count, 0)
        os.close(fd)

    def plug(self, name, number):
        (self.made / "port").mkdir(parents=True)
        files = {"authorized": b"1\n", "devnum": b"%d\n" % number, "descriptors": KEY, "remove": b"", "port/connect_type": b"hotplug\n"}
        for file, text in files.items():
            (self.made / file).write_bytes(text)
        self.made.rename(DEVICES / name)
        self.announce()

    def unplug(self, name):
        (DEVICES / name).rename(self.made)
        self.announce()
        shutil.rmtree(self.made)


class Daemon:
    """The program and its journal."""

    def __init__(self, program, folder, text):
        (folder / "rules.conf").write_text(text)
        (folder / "settings.conf").write_text("RuleFile=%s\n" % (folder / "rules.conf"))
        began = time.monotonic()
        self.run = subprocess.Popen([program, "daemon", "--conf", str(folder / "settings.conf")], stdin=subprocess.DEVNULL,
                                    stdout=subprocess.PIPE)
        self.line("end ")
        self.start = time.monotonic() - began

    def line(self, word):
        """Waits for a line that begins so."""
        for line in self.run.stdout:
            if line.startswith(word.encode()):
                return
        sys.exit("the program ended with status %s" % self.run.wait())

    def processor(self):
        """Seconds on a processor, user and system."""
        return int(Path("/proc/%d/schedstat" % self.run.pid).read_text().split()[0]) / 1e9

    def files(self):
        return len(os.listdir("/proc/%d/fd" % self.run.pid))

    def memory(self, word):
        """VmHWM, the peak, or VmRSS, what there is now; in MB."""
        lines = Path("/proc/%d/status" % self.run.pid).read_text().splitlines()
        return next(int(x.split()[1]) / 1024 for x in lines if x.startswith(word))

    def end(self):
        self.run.kill()
        self.run.wait()


def rules_with_last(rules):
    return "".join("block id 0001:%04x\n" % (k % 65536) for k in range(rules - 1)) + "allow id 1050:0011\n"


def idle(o, machine, folder):
    for k in range(1, 12):
        machine.plug("1-%d" % k, k + 1)
    daemon = Daemon(o.program, folder, rules_with_last(1))
    daemon.line("end ")
    before, began, sweeps = daemon.processor(), time.monotonic(), 0
    while time.monotonic() < began + o.seconds:
        daemon.line("end ")
        sweeps += 1
    took, spent = time.monotonic() - began, daemon.processor() - before
    print("idle, 12 devices: %d sweeps in %.0f s, %.2f ms of a processor each, %.2f %% of one" % (
        sweeps, took, 1000 * spent / sweeps, 100 * spent / took), flush=True)
    daemon.end()
    for k in range(1, 12):
        machine.unplug("1-%d" % k)


def plugs(o, machine, folder, rules):
    daemon = Daemon(o.program, folder, rules_with_last(rules))
    waits, before, opened = [], daemon.processor(), daemon.files()
    for k in range(o.plugs):
        machine.plug("1-1", 2 + k % 120)
        began = time.monotonic()
        daemon.line("judged ")
        waits.append(1000 * (time.monotonic() - began))
        machine.unplug("1-1")
        daemon.line("gone ")
    spent = daemon.processor() - before
    print("%d rules: start to the first sweep's end %.2f s; %d plugs and unplugs, %.2f ms of a processor each; plug to verdict, ms: "
          "median %.1f, most %.1f; peak %.1f MB; open files %d before, %d behind" % (
              rules, daemon.start, o.plugs, 1000 * spent / o.plugs, statistics.median(waits), max(waits), daemon.memory("VmHWM"), opened,
              daemon.files()), flush=True)
    daemon.end()


def memory(o, folder):
    daemon = Daemon(o.program, folder, rules_with_four(65536))
    daemon.line("end ")
    print("65536 rules with four attributes: start to the first sweep's end %.2f s; peak %.1f MB, and %.1f MB behind the start" % (
        daemon.start, daemon.memory("VmHWM"), daemon.memory("VmRSS")), flush=True)
    daemon.end()


def main():
    a = argparse.ArgumentParser()
    a.add_argument("--program", default=str(Path(__file__).resolve().parent.parent / "crates/usbguard/out/usbguard"))
    a.add_argument("--plugs", type=int, default=1000)
    a.add_argument("--seconds", type=float, default=30)
    o = a.parse_args()
    if "USBGUARD_BENCH" not in os.environ:
        os.environ["USBGUARD_BENCH"] = "1"
        os.execvp("unshare", ["unshare", "-m", "--propagation", "private", sys.executable, *sys.argv])
    folder = Path(tempfile.mkdtemp(prefix="usbguard-bench-"))
    try:
        machine = Machine(folder)
        idle(o, machine, folder)
        for rules in (1, 4096, 65536):
            plugs(o, machine, folder, rules)
        memory(o, folder)
    finally:
        shutil.rmtree(folder, ignore_errors=True)


if __name__ == "__main__":
    main()
