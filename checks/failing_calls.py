#!/usr/bin/env python3
"""Lets each system call of the daemon's adapters fail once, with each error that Linux documents for it.

    checks/failing_calls.py [--program PATH] [--only WORD] [--quick]

The calls are those of ug_files, ug_sockets and ug_host: on settings, access files, rules, sockets, devices, and the rule file that an order
has saved. A library of failing_calls.c, which this builds with cc(1), is preloaded and makes the one call fail; the machine is that of
checks/edge.py. What has to hold behind each failure:

- the daemon runs, and blocks a device that comes, within five seconds; or it ended with status 4, 9 or 11 before its first event, or
  with 11 behind it, and the service starts it again. Before its first event it may end with 6 too where the error is want of memory, and
  with 3 where it is that the settings aren't there;
- no device is written to twice in one event, and each `intent` has its `wrote`;
- the device that no rule allows is never left authorised;
- the rule file is whole: its old text or the new one.

--quick tries one error of each call. Exit status 0 where all held. Needs what checks/edge.py needs, and a C compiler.
"""

import argparse
import errno
import os
import resource
import shutil
import subprocess
import sys
import tempfile
import time
from pathlib import Path

import edge
from edge import Guard, authorized, check, time_of_verdict
from daemon import Machine

OPEN = "EACCES EPERM ENOENT ENOTDIR ELOOP EMFILE ENFILE ENOMEM EINTR EIO ENODEV ENXIO EROFS EOVERFLOW ENOSPC EDQUOT EBUSY ETXTBSY EINVAL"
READ = "EIO EINTR EAGAIN EBADF EINVAL EISDIR ENODEV ENOMEM"
WRITE = "EIO EINTR EAGAIN EBADF EINVAL ENOSPC EDQUOT EFBIG EPERM EPIPE ENODEV ETIMEDOUT ENOMEM"
STATX = "EACCES ENOENT ENOTDIR ELOOP ENOMEM EBADF EINVAL EIO"
SYNC = "EIO ENOSPC EDQUOT EROFS EBADF EINVAL EINTR"
RENAME = "EACCES EPERM EBUSY EDQUOT ENOSPC EROFS EIO ENOMEM ENOENT EXDEV ELOOP EINVAL"
ACCEPT = "EAGAIN ECONNABORTED EINTR EMFILE ENFILE ENOBUFS ENOMEM EPERM EPROTO EINVAL EBADF"
SEND = "EAGAIN ECONNRESET EINTR ENOBUFS ENOMEM EPIPE EBADF EINVAL EMSGSIZE"
RECV = "EAGAIN ECONNREFUSED ECONNRESET EINTR ENOMEM EBADF EINVAL"
LIST = "EBADF EINVAL ENOENT ENOTDIR EIO ENOMEM"
SEEK = "EBADF EINVAL EOVERFLOW ESPIPE"
EPOLL = "EBADF EINVAL EINTR ENOMEM ENOSPC EPERM"

# The call, a part of the path that it is on, which one of these, and the errors.
CALLS = [
    ("open", "settings.conf", (1,), OPEN), ("read", "settings.conf", (1,), READ), ("statx", "settings.conf", (1, 2, 3, 4), STATX),
    ("open", "/access", (1, 2), OPEN), ("getdents64", "/access", (1,), LIST), ("read", "access/nobody", (1,), READ),
    ("open", "rules.conf", (1, 2), OPEN), ("read", "rules.conf", (1, 2), READ), ("statx", "rules.conf", (1, 2, 3, 4), STATX),
    ("fchmod", "socket", (1,), "EPERM EBADF EIO EROFS"), ("unlink", ".socket", (1,), RENAME),
    ("open", "uevent_seqnum", (1, 2, 30), OPEN), ("read", "uevent_seqnum", (1, 2, 30), READ),
    ("epoll_ctl", "eventpoll", (1, 2, 3), EPOLL), ("epoll_wait", "eventpoll", (1, 2, 5), EPOLL),
    ("open", "bus/usb/devices", (1, 2), OPEN), ("getdents64", "/devices", (1, 2, 3), LIST),
    ("open", "1-1/devnum", (1,), OPEN), ("read", "1-1/devnum", (1,), READ),
    ("open", "1-1/authorized", (1,), OPEN), ("read", "1-1/authorized", (1, 2), READ), ("lseek", "1-1/authorized", (1, 2), SEEK),
    ("write", "1-1/authorized", (1,), WRITE), ("open", "1-1/descriptors", (1,), OPEN), ("read", "1-1/descriptors", (1, 2), READ),
    ("open", "1-1/product", (1,), OPEN), ("open", "connect_type", (1,), OPEN), ("read", "connect_type", (1,), READ),
    ("accept4", "socket", (1, 2), ACCEPT), ("recv", "socket", (1, 2, 3), RECV), ("send", "socket", (1,), SEND),
    ("open", "fdinfo", (1,), OPEN), ("read", "fdinfo", (1,), READ),
    ("unlink", "usbguard-new", (1,), RENAME), ("open", "usbguard-new", (1,), OPEN), ("write", "usbguard-new", (1,), WRITE),
    ("fchmod", "usbguard-new", (1,), "EPERM EBADF EIO EROFS"), ("fsync", "usbguard-new", (1,), SYNC), ("rename", "rules.conf", (1,), RENAME),
    ("fsync", "/rules", (1,), SYNC),
]

# Calls that may fail and have their effect all the same.
WITH_EFFECT = {("write", "1-1/authorized"), ("rename", "rules.conf"), ("fsync", "/rules"), ("fsync", "usbguard-new")}

OLD, NEW = "allow id 1050:0011\n", "allow id 1050:0012"


def events(lines):
    event = []
    for line in lines:
        event.append(line)
        if line.startswith("end "):
            yield event
            event = []


def twice(lines):
    """The events in which a device is written to twice with one value, or an intent lacks its outcome."""
    bad = []
    for event in events(lines):
        intents = [line[7:] for line in event if line.startswith("intent ")]
        wrote = [line[6:].rsplit(" ", 1)[0] for line in event if line.startswith("wrote ")]
        if len(set(intents)) != len(intents) or intents != wrote:
            bad.append(event)
    return bad


def run_one(o, machine, folder, call, part, number, name, effect):
    descriptors = bytearray(edge.KEY)
    descriptors[10] ^= 0x77
    machine.plug("1-1", 2)
    (edge.DEVICES / "1-1" / "descriptors").write_bytes(bytes(descriptors))
    (edge.DEVICES / "1-1" / "product").write_text("Key\n")
    log = folder / "failed"
    log.unlink(missing_ok=True)
    rules = folder / "rules" / "rules.conf"
    environment = {"LD_PRELOAD": o.library, "FAIL_CALL": call, "FAIL_PATH": part, "FAIL_AT": str(number),
                   "FAIL_ERRNO": str(getattr(errno, name)), "FAIL_LOG": str(log), **({"FAIL_EFFECT": "1"} if effect else {})}
    rules.parent.mkdir(exist_ok=True)
    rules.write_text(OLD)
    guard = Guard(o, folder, access={"nobody": "Devices=list\n"}, environment=environment)
    guard.end()
    (folder / "settings.conf").write_text("RuleFile=%s\nIPCAllowedUsers=root\nIPCAccessControlFiles=%s\n" % (rules, folder / "access"))
    guard.start()
    begun = guard.await_line("end ", 5)
    wrong = []
    if begun and guard.run.poll() is None:
        try:
            peer = guard.connect()
            peer.settimeout(3)
            for request in (b"list-devices\n", b"append-rule 0 permanent allow id 1050:0012\n"):
                peer.sendall(request)
                peer.recv(65536)
            peer.close()
        except OSError:
            pass
        took = time_of_verdict(machine, "1-9", 9, 5)
        machine.unplug("1-9")
        status = guard.run.poll()
        if status is None and took >= 5:
            wrong.append("a device wasn't blocked within five seconds")
        if status not in (None, 11):
            wrong.append("it ended with status %s" % status)
        time.sleep(1.1)
        if status is None and authorized("1-1").startswith("1"):
            wrong.append("a device that no rule allows is authorised")
        if status is None and twice(guard.lines()):
            wrong.append("written twice: %s" % twice(guard.lines())[0])
    elif guard.run.poll() not in (4, 9, 11, *((6,) if name == "ENOMEM" else ()), *((3,) if name == "ENOENT" else ())):
        wrong.append("it didn't begin, status %s" % guard.run.poll())
    status = guard.run.poll()
    guard.end()
    if rules.exists() and rules.read_text() not in (OLD, NEW + "\n" + OLD):
        wrong.append("the rule file is %r" % rules.read_text())
    reached = log.exists()
    machine.unplug("1-1")
    return wrong, reached, status


def save_anew(o, folder):
    """A rename takes effect and the folder's sync fails: the next event takes the file for what was tried, and saves."""
    log = folder / "failed"
    log.unlink(missing_ok=True)
    rules = folder / "rules" / "rules.conf"
    rules.write_text(OLD)
    guard = Guard(o, folder, environment={"LD_PRELOAD": o.library, "FAIL_CALL": "fsync", "FAIL_PATH": "/rules", "FAIL_AT": "2",
                                          "FAIL_ERRNO": str(errno.EIO), "FAIL_LOG": str(log)})
    guard.end()
    (folder / "settings.conf").write_text("RuleFile=%s\nIPCAllowedUsers=root\n" % rules)
    guard.start()
    guard.await_line("end ", 5)
    done = subprocess.run([o.program, "append-rule", NEW], capture_output=True, text=True)
    saved = guard.await_line("save done", 5)
    guard.end()
    check("a sync of the folder fails behind a rename: the order is refused", done.stdout.startswith("refused 10 "), done.stdout)
    check("the next event saves", saved and rules.read_text() == OLD and "another hand" not in guard.told(), rules.read_text())


def main():
    a = argparse.ArgumentParser(description=__doc__, formatter_class=argparse.RawDescriptionHelpFormatter)
    a.add_argument("--program", default=str(edge.HERE.parent / "crates/usbguard/out/usbguard"))
    a.add_argument("--only", default="")
    a.add_argument("--quick", action="store_true")
    o = a.parse_args()
    if "USBGUARD_CHECK" not in os.environ:
        os.environ["USBGUARD_CHECK"] = "1"
        os.execvp("unshare", ["unshare", "-m", "--propagation", "private", sys.executable, *sys.argv])
    o.program = str(Path(o.program).resolve())
    os.umask(0o022)
    resource.setrlimit(resource.RLIMIT_NOFILE, (8192, 8192))
    folder = Path(tempfile.mkdtemp(prefix="usbguard-check-"))
    tried = unreached = 0
    try:
        o.library = str(folder / "failing_calls.so")
        subprocess.run(["cc", "-shared", "-fPIC", "-o", o.library, str(edge.HERE / "failing_calls.c"), "-ldl"], check=True)
        subprocess.run(["mount", "-t", "tmpfs", "run", "/run"], check=True)
        machine = Machine(folder)
        for call, part, numbers, names in CALLS:
            if o.only not in "%s %s" % (call, part):
                continue
            effects = (False, True) if (call, part) in WITH_EFFECT else (False,)
            kinds = names.split()[:1] if o.quick else names.split()
            outcomes = {}
            for number in numbers:
                for name in kinds:
                    for effect in effects:
                        wrong, reached, status = run_one(o, machine, folder, call, part, number, name, effect)
                        tried += 1
                        unreached += not reached
                        outcome = ("not reached" if not reached else "goes on" if status is None else "ends with %s" % status)
                        outcomes.setdefault(outcome, []).append("%s@%d%s" % (name, number, "+" if effect else ""))
                        for word in wrong:
                            check("%s on %s, %s at %d%s" % (call, part, name, number, " with effect" if effect else ""), False, word)
            print("%s %s: %s" % (call, part, "; ".join("%s: %d" % (k, len(v)) for k, v in outcomes.items())), flush=True)
        save_anew(o, folder)
    finally:
        shutil.rmtree(folder, ignore_errors=True)
    print("%d failures were made, %d of them reached no call; %d things wrong" % (tried, unreached, len(edge.failures)))
    return 1 if edge.failures else 0


if __name__ == "__main__":
    sys.exit(main())
