#!/usr/bin/env python3
"""Compares what the program tells a person, word for word: standard error, standard output and the status of bad inputs.

    checks/words.py [--program PATH] [WORD..]

The cases of words.cases are data: `$` has the words of a command, `<` lines of its input, `1>` of its output, `2>` of what it tells, and
`=` its status. `@ NAME TEXT` is a line of a file in the case's folder, for which DIR stands in words and lines. What a case can't say comes
behind them: a reader who doesn't read, the system's journal, whose priorities stand in front of lines, and the choice of a socket, which
needs root, unshare(1) and mount(8). With words those cases alone are tried whose command has one of them. Exit status 0 where all held.
Needs Python 3.9.
"""

import argparse
import os
import shlex
import shutil
import socket
import subprocess
import sys
import tempfile
from pathlib import Path

HERE = Path(__file__).resolve().parent
PROGRAM = HERE.parent / "crates" / "usbguard" / "out" / "usbguard"
NOBODY = 65534
failures = []


def check(what, held, seen=""):
    print("%s: %s%s" % ("ok" if held else "FAILED", what, "" if held else "\n%s" % (seen,)), flush=True)
    if not held:
        failures.append(what)


def cases():
    """The cases, each as its words, and its files, input, output, what it tells and its status."""
    found = []
    for line in (HERE / "words.cases").read_text().splitlines():
        mark, _, rest = line.partition(" ")
        if mark == "$":
            found.append({"$": rest, "@": [], "<": [], "1>": [], "2>": [], "=": None})
        elif mark == "=":
            found[-1]["="] = int(rest)
        elif mark in ("@", "<", "1>", "2>"):
            found[-1][mark].append(rest)
    return found


def run_case(program, case):
    """Runs a case in a folder of its own, and tells what differs."""
    with tempfile.TemporaryDirectory(prefix="usbguard-words-") as folder:
        def in_folder(text):
            return text.replace("DIR", folder)

        for line in case["@"]:
            name, _, text = line.partition(" ")
            path = Path(folder, name)
            path.parent.mkdir(parents=True, exist_ok=True)
            with open(path, "a") as file:
                file.write(in_folder(text) + "\n")
        given = "".join(line + "\n" for line in case["<"])
        seen = subprocess.run([program, *shlex.split(in_folder(case["$"]))], input=given.encode(), capture_output=True, timeout=60)
        for what, got, wanted in (("output", seen.stdout, case["1>"]), ("told", seen.stderr, case["2>"])):
            wanted = in_folder("".join(line + "\n" for line in wanted))
            if got.decode() != wanted:
                return "%s:\n%swanted:\n%s" % (what, got.decode(), wanted)
        return "" if seen.returncode == case["="] else "status %d, wanted %s" % (seen.returncode, case["="])


def refused_settings(folder):
    """Settings that no daemon takes."""
    path = Path(folder, "settings.conf")
    path.write_text("Frob=1\n")
    return str(path)


def try_reader(program):
    """A daemon's sentences don't wait for whoever reads them."""
    with tempfile.TemporaryDirectory() as folder:
        ours, full = os.pipe()
        os.set_blocking(full, False)
        try:
            while True:
                os.write(full, b"x" * 4096)
        except BlockingIOError:
            os.set_blocking(full, True)
        try:
            status = subprocess.run([program, "daemon", "--conf", refused_settings(folder)], stdout=subprocess.DEVNULL, stderr=full,
                                    timeout=20).returncode
        except subprocess.TimeoutExpired:
            status = "waits"
        check("a refused start ends while nobody reads standard error", status == 3, status)
        os.close(ours)
        os.close(full)


def try_journal(program):
    """Where standard error is the system's journal, each line has its priority."""
    ours, theirs = socket.socketpair()
    seen = os.fstat(theirs.fileno())
    with tempfile.TemporaryDirectory() as folder:
        for number, begins in ((seen.st_ino, b"<3>usbguard: "), (seen.st_ino + 1, b"usbguard: ")):
            environment = {**os.environ, "JOURNAL_STREAM": "%d:%d" % (seen.st_dev, number)}
            subprocess.run([program, "daemon", "--conf", refused_settings(folder)], stdout=subprocess.DEVNULL, stderr=theirs,
                           env=environment, timeout=20)
            told = ours.recv(65536)
            check("%s before a line where JOURNAL_STREAM is %s" % (begins.decode(), "this one" if begins[:1] == b"<" else "another"),
                  all(line.startswith((begins, begins[:3] + b" ") if begins[:1] == b"<" else (begins, b" ")) for line in told.splitlines()), told)


def try_escapes(program):
    """A name's control characters are told as escapes."""
    told = subprocess.run([program, "list-devices"], capture_output=True, env={"USBGUARD_SOCKET": "/nowhere/\x1b[31m.socket"}).stderr
    check("a control character is told as an escape", b"/nowhere/\\x1b[31m.socket: " in told and b"\x1b" not in told, told)


def asked_at(program, environment={}, **caller):
    """The socket at which a command asks that finds nobody there, and what it tells."""
    told = subprocess.run([program, "list-devices"], capture_output=True, text=True, env=environment, **caller).stderr
    return told.removeprefix("usbguard: ").split(": ")[0], told


def try_sockets(program):
    """The socket that a command chooses, in the order of the manual page."""
    folder = Path("/run/usbguard")
    folder.mkdir(mode=0o755)
    for name, user, group in (("joe", 1234, 0), (":staff", 0, 4321), (":others", 0, 4322)):
        path = folder / (name + ".socket")
        with socket.socket(socket.AF_UNIX) as made:
            made.bind(str(path))
        os.chown(path, user, group)
        path.chmod(0o660)
    joe = {"user": 1234, "group": 1234, "extra_groups": [4321]}
    check("the caller's own socket comes first", asked_at(program, **joe)[0] == "/run/usbguard/joe.socket", asked_at(program, **joe))
    staff = {"user": 1235, "group": 1235, "extra_groups": [4321]}
    check("then one of his groups'", asked_at(program, **staff)[0] == "/run/usbguard/:staff.socket", asked_at(program, **staff))
    other = {"user": 1236, "group": 1236, "extra_groups": []}
    check("else root's", asked_at(program, **other)[0] == "/run/usbguard/root.socket", asked_at(program, **other))
    check("and nobody else's is named", "joe" not in asked_at(program, **other)[1] and "staff" not in asked_at(program, **other)[1],
          asked_at(program, **other))
    check("the environment's comes before all", asked_at(program, {"USBGUARD_SOCKET": "/nowhere/s"}, **joe)[0] == "/nowhere/s")
    check("root asks at his own", asked_at(program)[0] == "/run/usbguard/root.socket", asked_at(program))


def try_owner(program):
    """A rule file of another owner is told with its owner and mode, also to one who can't open it."""
    with tempfile.TemporaryDirectory() as folder:
        os.chmod(folder, 0o755)
        rules = Path(folder, "rules.conf")
        rules.write_text("allow\n")
        os.chown(rules, 1234, 1234)
        rules.chmod(0o600)
        settings = Path(folder, "settings.conf")
        settings.write_text("RuleFile=%s\nIPCAccessControlFiles=%s\n" % (rules, Path(folder, "none")))
        seen = subprocess.run(["setpriv", "--bounding-set=-all", "--inh-caps=-all", program, "daemon", "--conf", str(settings)],
                              capture_output=True, text=True, timeout=20)
        check("a rule file of another owner", seen.returncode == 9 and "its owner is 1234 and its mode 600" in seen.stderr, seen.stderr)


def main():
    parser = argparse.ArgumentParser(description=__doc__.splitlines()[0])
    parser.add_argument("--program", type=Path, default=PROGRAM)
    parser.add_argument("word", nargs="*")
    o = parser.parse_args()
    if not o.program.is_file():
        sys.exit("there is no program at %s: bin/build-usbguard builds it" % o.program)
    if os.geteuid() == 0 and os.environ.get("USBGUARD_WORDS") != "apart" and shutil.which("unshare"):
        os.environ["USBGUARD_WORDS"] = "apart"
        os.execvp("unshare", ["unshare", "-m", sys.executable, __file__, *sys.argv[1:]])
    program = str(o.program.resolve())
    if os.geteuid() == 0:
        # what others have made is opened by other users, and /run has no daemon
        copy = Path(tempfile.mkdtemp(prefix="usbguard-words-"))
        copy.chmod(0o755)
        program = shutil.copy(program, copy / "usbguard")
        subprocess.run(["mount", "-t", "tmpfs", "tmpfs", "/run"], check=True)
    for case in cases():
        if not o.word or set(o.word) & set(case["$"].split()):
            differs = run_case(program, case)
            check(case["$"], not differs, differs)
    if not o.word:
        try_reader(program)
        try_journal(program)
        try_escapes(program)
        if os.geteuid() == 0:
            try_sockets(program)
            try_owner(program)
        else:
            print("not tried, since they need root: the choice of a socket, a rule file of another owner")
    if os.geteuid() == 0:
        shutil.rmtree(copy)
    print("%d failed" % len(failures))
    return 1 if failures else 0


if __name__ == "__main__":
    sys.exit(main())
