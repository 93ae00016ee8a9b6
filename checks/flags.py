#!/usr/bin/env python3
"""Runs each word and flag of the original USBGuard's manual pages, and compares what is seen with the table of docs/moving.md.

    checks/flags.py [--program PATH] [WORD..]

A row of the table has forms in its first column: `list-devices -a`, `--allowed` are `list-devices -a` and `list-devices --allowed`. Words in
capitals stand for what VALUES has. Each form is run, with a daemon of its own beside it, over a folder in the place of sysfs. Where the
second column says `same`, its status is 0, or it runs on; where it says `refused`, it isn't, and standard error has a sentence that names what
to do; where it says `other`, it ends or runs on. What the last column has to type, from `usbguard` on, is typed, and its status is 0, or it
watches on. Each word and flag of PAGES has to be a form. With words those rows alone are tried that have one of them. Exit status 0 where all
held. Needs root, unshare(1), mount(8) and Python 3.9.
"""

import argparse
import os
import re
import shlex
import shutil
import subprocess
import sys
import tempfile
import time
from pathlib import Path

HERE = Path(__file__).resolve().parent
sys.path.insert(0, str(HERE.parent / "bench"))
from daemon import DEVICES, Machine  # noqa: E402

HELP = "-h --help"
NAME_KIND = "-u --user -g --group " + HELP
# the words and flags of usbguard(1), usbguard-daemon(8) and usbguard-rule-parser of version 1.1.2
PAGES = {
    "get-parameter": HELP,
    "set-parameter": "-v --verbose " + HELP,
    "list-devices": "-a --allowed -b --blocked -t --tree " + HELP,
    "allow-device": "-p --permanent " + HELP,
    "block-device": "-p --permanent " + HELP,
    "reject-device": "-p --permanent " + HELP,
    "list-rules": "-d --show-devices -l --label " + HELP,
    "append-rule": "-a --after -t --temporary " + HELP,
    "remove-rule": HELP,
    "generate-policy": "-p --with-ports -P --no-ports-sn -d --devpath -t --target -X --no-hashes -H --hash-only -L --ldif -b --usbguardbase"
                       " -o --objectclass -n --name-prefix " + HELP,
    "watch": "-w --wait -o --once -e --exec " + HELP,
    "read-descriptor": HELP,
    "add-user": "-p --policy -d --devices -e --exceptions -P --parameters " + NAME_KIND,
    "remove-user": NAME_KIND,
    "usbguard-daemon": "-d -f -s -k -K -l -p -c -P -C -W -h",
    "usbguard-rule-parser": "-f --file -t --trace " + HELP,
}
VALUES = {
    "PARAMETER": "ImplicitPolicyTarget", "VALUE": "block", "NUMBER": "2", "RULE": "allow id 1050:0011", "QUERY": "id 1050:0011", "ID": "1",
    "LABEL": "key", "DEVPATH": "/bus/usb/devices/1-1", "TARGET": "block", "BASE": "dc=x", "CLASS": "x", "PREFIX": "x", "PROGRAM": "true",
    "DESCRIPTORS": "/sys/bus/usb/devices/1-1/descriptors", "USER": "joe", "LIST": "list", "LISTEN": "listen", "SETTINGS": "settings",
    "JOURNAL": "journal", "PIDFILE": "pid", "RULES": "rules",
}
SENTENCE = re.compile("^usbguard[a-z-]*: .", re.M)
WAY = re.compile("usage: |a loop of the shell|usbguard --help|usbguard-[a-z]+ |systemctl start|chown root|docs/|a caret")
CAPITALS = re.compile(r"\b(%s)\b" % "|".join(VALUES))
failures = []


def check(what, held, seen=""):
    print("%s: %s%s" % ("ok" if held else "FAILED", what, "" if held else "\n%s" % (seen,)), flush=True)
    if not held:
        failures.append(what)


def table():
    """The rows of the page's table: forms, what they are here, and what to type in their place."""
    page = (HERE.parent / "docs" / "moving.md").read_text()
    part = page.split("## Words of the original's commands")[1].split("\n\n|")[1].split("\n\n")[0]
    for line in part.splitlines()[2:]:
        first, here, last = [cell.strip().replace("\0", "|") for cell in line.replace("\\|", "\0").strip("|").split("|")]
        typed = [x for x in re.findall(r"`([^`]*)`", last) if re.match(r"usbguard(-[a-z]+)* ?[^ ]", x) and "logger" not in x]
        yield list(forms(re.findall(r"`([^`]*)`", first))), here, typed


def forms(given):
    """The whole words of each form: one that begins with a dash takes the flag's place in the one before."""
    whole = ""
    for text in given:
        if text.startswith("-"):
            text = re.sub(r" -.*", "", whole) + " " + text
        whole = text
        if text.startswith("COMMAND "):
            yield from (text.replace("COMMAND", word) for word in PAGES if not word.startswith("usbguard-") and word != "remove-user")
        else:
            yield text


def known(form):
    """The word of a form, alone and with each of its flags."""
    words = form.split()
    yield words[0], None
    yield from ((words[0], word) for word in words if word.startswith("-"))


class Trial:
    """A machine with two devices, and a daemon for each command."""

    def __init__(self, folder, program):
        self.folder, self.bin = folder, folder / "bin"
        self.bin.mkdir()
        shutil.copy(program, self.bin / "usbguard")
        for script in (HERE.parent / "bin").glob("usbguard-*"):
            shutil.copy(script, self.bin)
        shutil.copytree("/etc", folder / "etc", symlinks=True, ignore_dangling_symlinks=True)
        shutil.rmtree(folder / "etc" / "usbguard", ignore_errors=True)
        for part in (folder / "etc", folder / "etc" / "usbguard"):
            part.mkdir(mode=0o755, exist_ok=True)
        subprocess.run(["mount", "--bind", folder / "etc", "/etc"], check=True)
        subprocess.run(["mount", "-t", "tmpfs", "run", "/run"], check=True)
        machine = Machine(folder)
        (DEVICES / "usb1" / "serial").write_text("0000:00:14.0\n")
        machine.plug("1-1", 2)
        self.here = self.guard = None

    def place(self):
        """A new folder, with settings and rules, in which a command runs, and no daemon."""
        self.stop()
        self.here = Path(tempfile.mkdtemp(dir=self.folder))
        (self.here / "rules").write_text('allow id 1d6b:*\nallow id 1050:0011 label "key"\n')
        (self.here / "settings").write_text("RuleFile=%s/rules\nIPCAllowedUsers=root\n" % self.here)
        shutil.rmtree("/run/usbguard", ignore_errors=True)
        os.mkdir("/run/usbguard", 0o755)

    def begin(self):
        """The same, with a daemon that has looked at all devices."""
        self.place()
        self.guard = subprocess.Popen([self.bin / "usbguard", "daemon", "--conf", self.here / "settings"], stdout=subprocess.PIPE,
                                      stderr=subprocess.DEVNULL)
        for line in self.guard.stdout:
            if line.startswith(b"end "):
                break

    def stop(self):
        if self.guard:
            self.guard.kill()
            self.guard.wait()
            self.guard.stdout.close()
            self.guard = None

    def run(self, command):
        """The status of a command line, or None where it runs on, and what it wrote and said."""
        (self.begin if not re.match(r"usbguard-daemon\b", command) else self.place)()
        environment = {**os.environ, "PATH": "%s:%s" % (self.bin, os.environ["PATH"])}
        run = subprocess.Popen(["sh", "-c", command], stdin=subprocess.DEVNULL, stdout=subprocess.PIPE, stderr=subprocess.PIPE, text=True,
                               cwd=self.here, env=environment, start_new_session=True)
        try:
            wrote, said = run.communicate(timeout=3)
            return run.returncode, wrote, said
        except subprocess.TimeoutExpired:
            os.killpg(run.pid, 15)
            return (None, *run.communicate())
        finally:
            self.stop()


def with_values(text, quoted):
    return CAPITALS.sub(lambda found: shlex.quote(VALUES[found[0]]) if quoted else VALUES[found[0]], text)


def line_of(form):
    """The command line of a form."""
    return ("" if form.startswith("usbguard-") else "usbguard ") + with_values(form, True)


def try_row(trial, row):
    row_forms, here, typed = row
    for form in row_forms:
        status, wrote, said = trial.run(line_of(form))
        seen = "status %s\n%s%s" % (status, wrote, said)
        if here == "refused":
            check("%s: refused, with a sentence" % form, status not in (0, None) and SENTENCE.search(said) and WAY.search(said), seen)
        else:
            check("%s: %s" % (form, here), here in ("same", "other") and (here == "other" or status in (0, None)), seen)
    for command in typed:
        # (a string's quotes stand in the page)
        line = with_values(command, "'" not in command)
        status, wrote, said = trial.run(line)
        check("  to type: %s" % line, status == 0 or (status is None and "usbguard watch" in line), "status %s\n%s%s" % (status, wrote, said))


def main():
    a = argparse.ArgumentParser(description=__doc__, formatter_class=argparse.RawDescriptionHelpFormatter)
    a.add_argument("--program", default=str(HERE.parent / "crates/usbguard/out/usbguard"))
    a.add_argument("words", nargs="*")
    o = a.parse_args()
    if "USBGUARD_CHECK" not in os.environ:
        os.environ["USBGUARD_CHECK"] = "1"
        os.execvp("unshare", ["unshare", "-m", "--propagation", "private", sys.executable, *sys.argv])
    began = time.time()
    folder = Path(tempfile.mkdtemp(prefix="usbguard-flags-"))
    folder.chmod(0o755)
    rows = list(table())
    try:
        trial = Trial(folder, Path(o.program).resolve())
        for row in rows:
            if not o.words or any(word in form.split() for form in row[0] for word in o.words):
                try_row(trial, row)
        trial.stop()
    finally:
        subprocess.run(["umount", "-q", "/etc"])
        shutil.rmtree(folder, ignore_errors=True)
    in_table = {pair for row in rows for form in row[0] for pair in known(form)}
    for word, flags in PAGES.items():
        lost = [flag for flag in [None, *flags.split()] if (word, flag) not in in_table]
        check("the table has %s, and each of its flags" % word, not lost, lost)
    print("%d failed, in %d s" % (len(failures), time.time() - began))
    return bool(failures)


if __name__ == "__main__":
    sys.exit(main())
