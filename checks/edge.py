#!/usr/bin/env python3
"""Tries what a peer, a user, a full disk or a wrong file could do to stop the guard, on the real program.

    checks/edge.py [--program PATH] [TRIAL..]

A folder with files like those of sysfs stands in the place of /sys/bus, in a mount namespace of its own; /run is empty. Each trial starts
the daemon, does its worst, and then looks whether a device that is plugged in gets its verdict, and how soon. Without names all trials
run; exit status 0 where all held. Needs root, unshare(1), mount(8), prlimit(1) and Python 3.9.
"""

import argparse
import array
import fcntl
import os
import resource
import shutil
import socket
import struct
import subprocess
import sys
import tempfile
import threading
import time
from pathlib import Path

HERE = Path(__file__).resolve().parent
sys.path.insert(0, str(HERE.parent / "bench"))
from daemon import DEVICES, KEY, Machine  # noqa: E402
import edge_files  # noqa: E402

RUN = Path("/run/usbguard")
failures = []


def check(what, held, seen=""):
    print("%s: %s%s" % ("ok" if held else "FAILED", what, " (%s)" % seen if seen != "" else ""), flush=True)
    if not held:
        failures.append(what)


class Guard:
    """The program over the machine, with its journal, and what it says on standard error, in files."""

    def __init__(self, o, folder, settings="", rules="allow id 1050:0011\n", output=None, environment={}, wrap=[], access={}):
        self.folder = folder
        (folder / "rules.conf").write_text(rules)
        (folder / "access").mkdir(exist_ok=True)
        for name, text in access.items():
            (folder / "access" / name).write_text(text)
        (folder / "settings.conf").write_text("RuleFile=%s\nIPCAllowedUsers=root\nIPCAccessControlFiles=%s\n%s" % (
            folder / "rules.conf", folder / "access", settings))
        self.journal = folder / "journal"
        self.errors = folder / "errors"
        self.output = output
        self.command = [*wrap, o.program, "daemon", "--conf", str(folder / "settings.conf")]
        self.environment = {**os.environ, **environment}
        self.start()

    def start(self):
        shutil.rmtree(RUN, ignore_errors=True)
        RUN.mkdir(parents=True)
        with open(self.journal, "wb") as journal, open(self.errors, "wb") as errors:
            self.run = subprocess.Popen(self.command, stdin=subprocess.DEVNULL, stdout=self.output or journal, stderr=errors,
                                        env=self.environment)

    def lines(self):
        return self.journal.read_text(errors="replace").splitlines()

    def told(self):
        return self.errors.read_text(errors="replace")

    def await_line(self, start, patience=20):
        """Waits for a line of the journal that begins so."""
        until = time.monotonic() + patience
        while time.monotonic() < until:
            if any(line.startswith(start) for line in self.lines()):
                return True
            if self.run.poll() is not None:
                return any(line.startswith(start) for line in self.lines())
            time.sleep(0.01)
        return False

    def end(self):
        self.run.kill()
        self.run.wait()

    def connect(self, name="root"):
        peer = socket.socket(socket.AF_UNIX)
        peer.settimeout(10)
        peer.connect(str(RUN / (name + ".socket")))
        return peer


def authorized(name):
    return (DEVICES / name / "authorized").read_text().strip()


def time_of_verdict(machine, name, number, patience=30):
    """Plugs in a device that no rule allows, and tells how long it stays on."""
    descriptors = bytearray(KEY)
    descriptors[10] ^= 0x77
    made = machine.made
    (made / "port").mkdir(parents=True)
    files = {"authorized": b"1\n", "devnum": b"%d\n" % number, "descriptors": bytes(descriptors), "remove": b"",
             "port/connect_type": b"hotplug\n"}
    for file, text in files.items():
        (made / file).write_bytes(text)
    made.rename(DEVICES / name)
    began = time.monotonic()
    machine.announce()
    while time.monotonic() < began + patience:
        if not authorized(name).startswith("1"):
            return time.monotonic() - began
        time.sleep(0.002)
    return patience


def judges(machine, what, number=[40]):
    number[0] += 1
    name = "1-%d" % number[0]
    took = time_of_verdict(machine, name, number[0])
    check("%s: a device is blocked within a second" % what, took < 1, "%.0f ms" % (1000 * took))
    machine.unplug(name)


def lingering_socket(seconds):
    """A TCP connection whose last closing takes so long: bytes are left that the other end never reads."""
    listener = socket.socket()
    listener.setsockopt(socket.SOL_SOCKET, socket.SO_RCVBUF, 4096)
    listener.bind(("127.0.0.1", 0))
    listener.listen(1)
    sender = socket.socket()
    sender.connect(listener.getsockname())
    other, _ = listener.accept()
    sender.setsockopt(socket.SOL_SOCKET, socket.SO_LINGER, struct.pack("ii", 1, seconds))
    sender.setblocking(False)
    try:
        while True:
            sender.send(bytes(65536))
    except BlockingIOError:
        pass
    return sender, (listener, other)


def pass_file(peer, file, data):
    peer.sendmsg([data], [(socket.SOL_SOCKET, socket.SCM_RIGHTS, array.array("i", [file.fileno()]))])
    file.close()


def ask_often(peer, count):
    """Asks so often for what is refused, and takes the replies."""
    peer.sendall(b"allow-device 999\n" * count)
    replies = 0
    while replies < count:
        replies += peer.recv(65536).count(b"\n")


def trial_lingering(o, machine, folder):
    """A peer passes a descriptor whose closing lingers for twelve seconds."""
    guard = Guard(o, folder, access={"nobody": "Devices=list\n"})
    guard.await_line("end ")
    kept = []
    for data in (b"list-devices\n", b"list-dev", b"x" * 60000 + b"\n"):
        peer = guard.connect()
        sender, rest = lingering_socket(12)
        kept += [peer, rest]
        pass_file(peer, sender, data)
        judges(machine, "a descriptor with %d bytes" % len(data))
    # One that comes behind other bytes, and one whose sender goes at once.
    peer = guard.connect()
    sender, rest = lingering_socket(12)
    kept += [peer, rest]
    peer.sendall(b"list-devices\n")
    check("the request before the descriptor is answered", peer.recv(65536).startswith(b"ok "))
    pass_file(peer, sender, b"list-devices\n")
    judges(machine, "a descriptor behind a request")
    peer = guard.connect()
    sender, rest = lingering_socket(12)
    kept += [rest]
    pass_file(peer, sender, b"list-devices\n")
    peer.close()
    judges(machine, "a descriptor whose sender is gone")
    # More sessions than there are places, each with a descriptor.
    for _ in range(70):
        peer = guard.connect("nobody")
        sender, rest = lingering_socket(12)
        kept += [peer, rest]
        pass_file(peer, sender, b"list-devices\n")
    judges(machine, "70 sessions with a descriptor each")
    last = guard.connect()
    last.sendall(b"list-devices\n")
    check("root is answered still", last.recv(65536).startswith(b"ok "))
    began = time.monotonic()
    guard.run.terminate()
    guard.run.wait()
    check("the daemon ends at once", time.monotonic() - began < 1, "%.2f s" % (time.monotonic() - began))


def trial_output(o, machine, folder):
    """Standard output is a pipe that nobody reads, then one whose reader comes back, then one whose reader is gone."""
    read, write = os.pipe()
    guard = Guard(o, folder, output=write)
    os.close(write)
    time.sleep(1)
    peer = guard.connect()
    peer.settimeout(60)
    for _ in range(8):
        ask_often(peer, 1000)
    judges(machine, "a pipe that nobody reads")
    check("lost lines are told on standard error", "Lines of the journal that were lost" in guard.told())
    taken = 0
    os.set_blocking(read, False)
    until = time.monotonic() + 5
    while time.monotonic() < until:
        try:
            taken += len(os.read(read, 65536))
        except BlockingIOError:
            time.sleep(0.05)
    check("what waited goes out once the pipe is read", taken > 190000, "%d bytes" % taken)
    check("it is told that lines go out again", "takes lines again" in guard.told())
    os.close(read)
    judges(machine, "a pipe whose reader is gone")
    check("the daemon goes on", guard.run.poll() is None)
    guard.end()


def trial_idle(o, machine, folder):
    """An idle event leaves nothing in the journal where the environment asks for that."""
    guard = Guard(o, folder, environment={"USBGUARD_IDLE_EVENTS": "omit"})
    guard.await_line("end ")
    time.sleep(4)
    check("three idle seconds leave no line", sum(line.startswith("event ") for line in guard.lines()) == 1)
    judges(machine, "idle events are omitted")
    check("an event with a verdict has its first line", any(a.startswith("event ") and b.startswith("judged ")
                                                           for a, b in zip(guard.lines(), guard.lines()[1:])))
    guard.end()


def trial_announcements(o, machine, folder):
    """Announcements without end: as any user can make the kernel give."""
    guard = Guard(o, folder)
    guard.await_line("end ")
    stop = threading.Event()

    def announce():
        while not stop.is_set():
            machine.announce()
            time.sleep(0.0005)

    thread = threading.Thread(target=announce)
    before = len(guard.lines())
    thread.start()
    time.sleep(5)
    count = sum(line.startswith("event ") for line in guard.lines()[before:])
    stop.set()
    thread.join()
    check("at most fifty events in a second", count <= 255, "%d in 5 s" % count)
    judges(machine, "behind them")
    guard.end()


def trial_places(o, machine, folder):
    """One user and one group take all the places that they get."""
    guard = Guard(o, folder, access={"nobody": "Devices=list\n", "daemon": "Devices=list\n", "bin": "Devices=list\n",
                                     "sys": "Devices=list\n"})
    guard.await_line("end ")
    users = ("nobody", "daemon", "bin", "sys")
    peers = [guard.connect(name) for name in users for _ in range(40)]
    time.sleep(1)
    root = [guard.connect() for _ in range(8)]
    for peer in root:
        peer.sendall(b"list-devices\n")
    check("eight sessions of root are answered beside 160 of others", all(peer.recv(4096).startswith(b"ok ") for peer in root))
    stay = [peer for peer in peers if is_open(peer)]
    check("of 40 sessions each user keeps 14", [sum(peer in stay for peer in peers[k:k + 40]) for k in (0, 40, 80, 120)] == [14] * 4, len(stay))
    stay[0].close()
    time.sleep(0.5)
    check("one more is answered once a place is free", *is_answered(guard.connect("nobody"), 10))
    judges(machine, "full places")
    guard.end()


class Flood(threading.Thread):
    """Sixteen sessions of a user that send requests as fast as they can, each anew once it was closed."""

    def __init__(self, guard, name, data=b"\n" * 65536):
        super().__init__(daemon=True)
        self.guard, self.name_of, self.data, self.sent, self.over = guard, name, data, 0, False
        self.start()

    def come(self):
        peer = self.guard.connect(self.name_of)
        peer.setblocking(False)
        return peer

    def end(self):
        self.over = True

    def run(self):
        peers = [self.come() for _ in range(16)]
        while not self.over:
            for k, peer in enumerate(peers):
                try:
                    self.sent += peer.send(self.data)
                    while peer.recv(65536):
                        pass
                except BlockingIOError:
                    pass
                except OSError:
                    peer.close()
                    peers[k] = self.come()
            time.sleep(0.001)
        for peer in peers:
            peer.close()


class SlowReader(threading.Thread):
    """Takes a journal from a pipe, so many bytes a second at most, and keeps its lines with their seconds."""

    def __init__(self, read, rate):
        super().__init__(daemon=True)
        self.read, self.rate, self.text, self.seconds = read, rate, bytearray(), {}
        self.start()

    def run(self):
        while piece := os.read(self.read, self.rate // 100):
            self.text += piece
            second = int(time.monotonic())
            self.seconds[second] = self.seconds.get(second, 0) + piece.count(b"\n")
            time.sleep(0.01)

    def lines(self):
        return self.text.decode(errors="replace").splitlines()

    def await_line(self, start, patience=20):
        until = time.monotonic() + patience
        while time.monotonic() < until:
            if any(line.startswith(start) for line in self.lines()):
                return True
            time.sleep(0.01)
        return False

    def has_written(self, name):
        return any(line.startswith("wrote ") and name in line.split() for line in self.lines())


def ask(peer, request):
    """Asks, and tells the first line of the reply and the time that it took."""
    began, reply = time.monotonic(), b""
    try:
        peer.sendall(request + b"\n")
        while not reply.endswith(b"\n"):
            reply += peer.recv(65536)
    except TimeoutError:
        reply = b"none"
    return reply.decode().splitlines()[0], time.monotonic() - began


def trial_flood(o, machine, folder):
    """A user with an empty access file sends newlines on sixteen sessions, beside root's orders, plugs and a slow reader of the journal."""
    read, write = os.pipe()
    guard = Guard(o, folder, rules="block\n", output=write, access={"nobody": ""})
    os.close(write)
    journal = SlowReader(read, 1000000)
    journal.await_line("end ")
    flood = Flood(guard, "nobody")
    time.sleep(2)
    root = guard.connect()
    took = []
    for k in range(10):
        machine.plug("1-%d" % (20 + k), 20 + k)
        time.sleep(0.2)
        reply, seconds = ask(root, b"block-device %d" % (2 + k))
        took.append(seconds)
        check("root's order is carried out: %s" % reply, reply.startswith("ok "))
    check("each of root's orders is answered within half a second", max(took) < 0.5, "%.0f ms at most" % (1000 * max(took)))
    time.sleep(1)
    flood.end()
    flood.join()
    judges(machine, "behind a flood")
    time.sleep(1)
    names = ["1-%d" % (20 + k) for k in range(10)]
    for word in ("judged", "wrote"):
        there = {line.split()[2] for line in journal.lines() if line.startswith(word + " ")}
        check("each of ten plugs has its line %s" % word, all(name in there for name in names), "%d of 10" % sum(x in there for x in names))
    most = max(journal.seconds.values())
    check("at most 1,000 lines a second", most <= 1000, "%d, of %d bytes sent" % (most, flood.sent))
    for name in names:
        machine.unplug(name)
    guard.end()


def trial_lost(o, machine, folder):
    """Lines of orders fill what waits for the journal's output, and devices come meanwhile."""
    read, write = os.pipe()
    guard = Guard(o, folder, rules="block\n", output=write)
    os.close(write)
    time.sleep(1)
    root = guard.connect()
    root.settimeout(60)
    for _ in range(12):
        ask_often(root, 1000)
    names = ["1-%d" % (20 + k) for k in range(10)]
    for k, name in enumerate(names):
        machine.plug(name, 20 + k)
        time.sleep(0.1)
    time.sleep(0.5)
    journal = SlowReader(read, 1000000)
    # a pipe's room of lines goes out in each turn
    until = time.monotonic() + 20
    while time.monotonic() < until and not journal.has_written(names[-1]):
        time.sleep(0.1)
    lines = journal.lines()
    for word in ("judged", "wrote"):
        there = {line.split()[2] for line in lines if line.startswith(word + " ")}
        check("each of ten plugs has its line %s" % word, all(x in there for x in names), "%d of 10" % sum(x in there for x in names))
    gaps = [int(line.split()[1]) for line in lines if line.startswith("lost ")]
    sweeps = max(int(line.split()[1]) for line in lines if line.startswith("end ")) - 12000
    kept, written = len(lines) - len(gaps), 3 * 12000 + 2 * sweeps + 31
    check("the journal says how many lines are lost", gaps and abs(sum(gaps) + kept - written) < 10, "%d lost, %d there, of %d" % (sum(gaps), kept, written))
    for name in names:
        machine.unplug(name)
    guard.end()


def trial_whole_journal(o, machine, folder):
    """With USBGUARD_JOURNAL=wait no write is made whose intent isn't out, and no line is lost."""
    read, write = os.pipe()
    fcntl.fcntl(write, fcntl.F_SETPIPE_SZ, 4096)
    guard = Guard(o, folder, output=write, environment={"USBGUARD_JOURNAL": "wait"})
    os.close(write)
    time.sleep(1)
    root = guard.connect()
    root.settimeout(5)
    root.sendall(b"allow-device 999\n" * 200)
    time.sleep(3)
    took = time_of_verdict(machine, "1-20", 20, patience=3)
    check("the daemon waits for its output", took >= 3, "%.1f s" % took)
    journal = SlowReader(read, 1000000)
    check("behind that, the device is judged", journal.await_line("judged 2 1-20 "))
    time.sleep(2)
    numbers = [int(line.split()[1]) for line in journal.lines() if line.startswith("event ")]
    check("no event is missing", numbers == list(range(1, len(numbers) + 1)), len(numbers))
    check("no line is lost", not any(line.startswith("lost ") for line in journal.lines()))
    judges(machine, "a journal that is waited for")
    machine.unplug("1-20")
    guard.end()


def is_open(peer):
    """Whether the daemon hasn't closed a session to which nothing was sent."""
    peer.setblocking(False)
    try:
        return peer.recv(1) != b""
    except BlockingIOError:
        return True


def is_answered(peer, patience):
    """Whether a session is answered, by how long it took; else what became of it."""
    peer.settimeout(patience)
    began = time.monotonic()
    try:
        peer.sendall(b"list-devices\n")
        answer = peer.recv(4096)
        return answer.startswith(b"ok ") or answer.startswith(b"refused "), "%s in %.2f s" % (answer.split(b"\n")[0], time.monotonic() - began)
    except OSError as fault:
        return False, "%s in %.2f s" % (fault, time.monotonic() - began)


def comes_in(guard, name, patience):
    """Whether a newcomer is answered within that time, however often it has to come."""
    began = time.monotonic()
    while time.monotonic() < began + patience:
        answered, seen = is_answered(guard.connect(name), 2)
        if answered:
            return True, "%.1f s" % (time.monotonic() - began)
        time.sleep(0.5)
    return False, seen


def trial_idle_sessions(o, machine, folder):
    """Four users sit idle on all their sessions; a fifth and root come. One who sits idle comes once more."""
    users = ("nobody", "daemon", "bin", "sys", "mail")
    guard = Guard(o, folder, access={name: "Devices=list\n" for name in users})
    guard.await_line("end ")
    idle = [guard.connect(name) for name in users[:4] for _ in range(40)]
    time.sleep(1)
    check("a fifth user is answered", *is_answered(guard.connect("mail"), 5))
    check("so is root", *is_answered(guard.connect(), 5))
    answered, seen = is_answered(guard.connect("nobody"), 5)
    check("one more of a user whose places are taken is closed at once", not answered and "in 0." in seen, seen)
    client = subprocess.run([o.program, "list-devices", "--socket", str(RUN / "nobody.socket")], capture_output=True, text=True, timeout=20)
    check("and the client says why", client.returncode == 8 and "as many" in client.stderr, client.stderr)
    check("within a minute and a bit it comes in", *comes_in(guard, "nobody", 65))
    judges(machine, "idle sessions")
    del idle
    guard.end()


def trial_left_descriptors(o, machine, folder):
    """One of a group sends a descriptor on each session that the group may have, and leaves."""
    guard = Guard(o, folder, access={":daemon": "Devices=list\n"})
    guard.await_line("end ")
    kept = []
    for _ in range(16):
        peer = guard.connect(":daemon")
        sender, rest = lingering_socket(120)
        kept.append(rest)
        pass_file(peer, sender, b"list-devices\n")
        peer.close()
    time.sleep(1)
    judges(machine, "16 sessions that left a descriptor")
    check("another of the group is answered within a minute and a bit", *comes_in(guard, ":daemon", 65))
    guard.end()


def trial_few_files(o, machine, folder):
    """Fewer descriptors than devices."""
    for k in range(101, 141):
        machine.plug("1-%d" % k, k)
    guard = Guard(o, folder, rules="block\n", wrap=["prlimit", "--nofile=32"])
    guard.await_line("end ")
    named = {line.split()[1] for line in guard.lines() if line.startswith("unsettled ")}
    check("newcomers without a descriptor are named unsettled", len(named) > 5, "%d of 41" % len(named))
    blocked = sum(authorized("1-%d" % k).startswith("0") for k in range(101, 141))
    check("the others are judged", blocked > 5, "%d blocked" % blocked)
    check("the daemon goes on", guard.run.poll() is None)
    check("who isn't blocked is named", 40 - blocked <= len(named))
    guard.end()
    for k in range(101, 141):
        machine.unplug("1-%d" % k)


def trial_closed(o, machine, folder):
    """Standard files that are closed."""
    guard = Guard(o, folder)
    guard.await_line("end ")

    def run(line):
        return subprocess.run(["sh", "-c", line.replace("usbguard", o.program, 1)], capture_output=True, text=True)

    check("a client without output ends with 5", run("usbguard list-devices >&-").returncode == 5)
    check("check-rules without input ends with 4", run("usbguard check-rules <&-").returncode == 4)
    check("check-rules without output ends with 5", run("echo allow | usbguard check-rules >&-").returncode == 5)
    check("nothing was written into the daemon's socket", not any("bad-request" in line for line in guard.lines()))
    check("a client without standard error works", run("usbguard list-devices 2>&-").returncode == 0)
    guard.end()
    guard.command = ["sh", "-c", 'exec "$0" "$@" >&- 2>&- <&-', *guard.command]
    guard.start()
    time.sleep(1)
    judges(machine, "a daemon without standard files")
    guard.end()


def refused(guard, what, status, *words):
    guard.start()
    try:
        code = guard.run.wait(5)
    except subprocess.TimeoutExpired:
        guard.end()
        code = None
    told = guard.told()
    check("%s: status %d" % (what, status), code == status, code)
    check("%s: standard error says so" % what, all(word in told for word in words), told)


def list_rules(o):
    return subprocess.run([o.program, "list-rules"], capture_output=True, text=True).stdout


def refuse_folder(o, guard, folder, settings):
    """A refused folder of rules: its file, the line and the place."""
    text, rules_d = settings.read_text(), folder / "rules.d"
    rules_d.mkdir()
    settings.write_text(text + "RuleFolder=%s\n" % rules_d)
    (rules_d / "10-a.conf").write_text("# the distribution's\nallow id 1050:0012\n")
    (rules_d / "20-b.conf").write_text("allow id 1050:0013\n\n  block id 1050:*:*\n")
    (rules_d / "20-b.conf~").write_text("frob\n")
    refused(guard, "a bad rule of the folder", 3, "%s/20-b.conf, line 3, column " % rules_d, "  block id 1050:*:*\n")
    (rules_d / "20-b.conf").chmod(0o622)
    refused(guard, "a file of the folder that all may write", 4, "%s/20-b.conf" % rules_d, "mode 622")
    (rules_d / "20-b.conf").unlink()
    guard.start()
    guard.await_line("end ")
    listed = list_rules(o)
    check("rules of the folder come first", listed.startswith("1: allow id 1050:0012 # folder\n2: "), listed)
    guard.end()
    shutil.rmtree(rules_d)
    guard.start()
    guard.await_line("end ")
    listed = list_rules(o)
    check("an absent folder of rules is empty", listed == "1: allow\n", listed)
    guard.end()
    settings.write_text(text)


def trial_refusals(o, machine, folder):
    """Refused starts say why, in words."""
    guard = Guard(o, folder)
    guard.await_line("end ")
    guard.end()
    rules, settings = folder / "rules.conf", folder / "settings.conf"
    rules.write_text("allow id 1050:0011\nallow frob\n")
    refused(guard, "a bad rule", 3, "%s, line 2, column 7" % rules, "no such attribute", "    allow frob\n          ^")
    rules.write_text("allow\n")
    text = settings.read_text()
    settings.write_text(text + "  Frob=1\n")
    refused(guard, "a bad setting", 3, "%s, line 4" % settings, "no such key", "      Frob=1\n      ^")
    settings.write_text(text)
    settings.chmod(0o666)
    refused(guard, "settings that all may write", 4, str(settings), "mode 666")
    settings.chmod(0o600)
    rules.chmod(0o622)
    refused(guard, "rules that all may write", 9, str(rules), "mode 622")
    rules.chmod(0o600)
    os.chown(rules, 65534, -1)
    refused(guard, "rules of another owner", 9, str(rules), "owner is 65534")
    os.chown(rules, 0, -1)
    refuse_folder(o, guard, folder, settings)
    (folder / "access/joe~").write_text("")
    refused(guard, "an odd access file", 3, "%s/joe~" % (folder / "access"), "none of a user or a group")
    (folder / "access/joe~").unlink()
    (folder / "access/joe").write_text("Devices=list\nPolicy=frob\n")
    refused(guard, "a bad access file", 3, "%s, line 2, column 8" % (folder / "access/joe"), "a privilege was expected", "Policy=frob")
    (folder / "access/joe").write_text("Devices=list\n")
    guard.start()
    guard.await_line("end ")
    other = socket.socket(socket.AF_UNIX)
    guard.end()
    shutil.rmtree(RUN)
    RUN.mkdir()
    (RUN / "joe.socket").write_text("")
    guard.run = subprocess.Popen(guard.command, stdout=open(guard.journal, "wb"), stderr=open(guard.errors, "wb"))
    check("a socket that can't be had: status 11", guard.run.wait() == 11)
    check("a socket that can't be had: standard error says so", str(RUN / "joe.socket") in guard.told(), guard.told())
    other.close()
    (folder / "access/joe").unlink()


def at_terminal(words, given=b"", of=None):
    """What a command tells where standard error is a terminal."""
    import pty
    master, slave = pty.openpty()
    with tempfile.TemporaryFile() as text:
        text.write(given)
        text.seek(0)
        subprocess.run(words, stdin=text, stdout=subprocess.DEVNULL, stderr=slave)
    os.close(slave)
    told = b""
    while True:
        try:
            piece = os.read(master, 4096)
        except OSError:
            break
        told += piece
    os.close(master)
    return told.decode().replace("\r\n", "\n")


def trial_terminal(o, machine, folder):
    """Commands say in words what their output says in numbers, at a terminal and elsewhere."""
    guard = Guard(o, folder)
    guard.await_line("end ")
    told = at_terminal([o.program, "check-rules"], b"allow\nallow name \"a\n")
    check("check-rules", all(x in told for x in ("line 2, column 12", "a string has no end", "    allow name \"a\n               ^")), told)
    told = at_terminal([o.program, "check-rules"], b"allow\n  allow name \"a\n")
    check("check-rules, with blanks before the rule", all(x in told for x in ("line 2, column 14", "      allow name \"a\n                 ^")), told)
    told = at_terminal([o.program, "add-user", "joe", "--devices", "list"], b"Frob=list\n")
    check("add-user", all(x in told for x in ("line 1, column 1", "a section was expected", "    Frob=list\n    ^")), told)
    told = at_terminal([o.program, "allow-device", "999"])
    check("a refused order", "no device has that number" in told, told)
    told = at_terminal([o.program, "append-rule", "allow frob"])
    check("a refused rule", "the rule, column 7" in told and "no such attribute" in told, told)
    told = subprocess.run([o.program, "allow-device", "999"], capture_output=True, text=True).stderr
    check("elsewhere too", "no device has that number" in told, told)
    guard.end()


def trial_rules_by_hand(o, machine, folder):
    """The rule file is edited by hand while the daemon runs."""
    rules = folder / "rules.conf"
    guard = Guard(o, folder, rules="allow id 1050:0011\n")
    guard.await_line("end ")
    client = [o.program, "append-rule", "allow id 1111:0001"]
    os.chown(rules, 0, 65534)
    rules.chmod(0o640)
    check("an order is saved", subprocess.run(client, capture_output=True).returncode == 0 and "1111:0001" in rules.read_text())
    seen = rules.stat()
    check("the file keeps its group and mode", (seen.st_uid, seen.st_gid, seen.st_mode & 0o7777) == (0, 65534, 0o640))
    rules.write_text("block\n")
    client[2] = "allow id 1111:0002"
    done = subprocess.run(client, capture_output=True, text=True)
    check("behind the edit an order is refused", done.returncode == 7 and "store-fault" in done.stdout, done.stdout.strip())
    check("the edit stays", rules.read_text() == "block\n")
    time.sleep(2.5)
    check("a person is told once", guard.told().count("another hand") == 1, guard.told())
    rules.rename(folder / "mine.conf")
    time.sleep(2.5)
    done = subprocess.run(client, capture_output=True, text=True)
    check("once the file is moved away orders are saved", done.returncode == 0 and "1111:0001" in rules.read_text(), done.stdout)
    judges(machine, "rules by hand")
    guard.end()


def trial_ready(o, machine, folder):
    """The service manager is told once the first event has ended."""
    manager = socket.socket(socket.AF_UNIX, socket.SOCK_DGRAM)
    path = str(folder / "manager")
    manager.bind(path)
    manager.settimeout(5)
    guard = Guard(o, folder, environment={"NOTIFY_SOCKET": path})
    message = manager.recv(100)
    check("the manager is told", message == b"READY=1\n", message)
    check("the first event had ended", any(line.startswith("end 1") for line in guard.lines()))
    manager.settimeout(2.5)
    try:
        check("it is told once", False, manager.recv(100))
    except TimeoutError:
        check("it is told once", True)
    guard.end()
    name = b"\0usbguard-check-%d" % os.getpid()
    manager = socket.socket(socket.AF_UNIX, socket.SOCK_DGRAM)
    manager.bind(name)
    manager.settimeout(5)
    guard = Guard(o, folder, environment={"NOTIFY_SOCKET": "@" + name[1:].decode()})
    check("so is one in the abstract namespace", manager.recv(100) == b"READY=1\n")
    guard.end()
    full = socket.socket(socket.AF_UNIX, socket.SOCK_DGRAM)
    full.connect(name)
    full.setblocking(False)
    try:
        while True:
            full.send(b"x")
    except BlockingIOError:
        pass
    guard = Guard(o, folder, environment={"NOTIFY_SOCKET": "@" + name[1:].decode()})
    guard.await_line("end ")
    judges(machine, "a manager that takes no message")
    guard.end()


def trial_root_hubs(o, machine, folder):
    """What becomes of the default of a root hub, and what is told of it."""
    hub = DEVICES / "usb1/authorized_default"
    told = "root hubs that switch on what comes to them: 1."
    written = "wrote 1 usb1 default-off done"
    hub.write_text("1\n")
    guard = Guard(o, folder)
    guard.await_line("end 3")
    check("by default a person is told once that a root hub is open", guard.told().count(told) == 1, guard.told())
    check("and its default stays", hub.read_text() == "1\n" and "default-" not in guard.journal.read_text())
    guard.end()
    hub.write_text("0\n")
    guard.start()
    guard.await_line("end 1")
    check("nothing is told of one that is closed", guard.told() == "", guard.told())
    guard.end()
    hub.write_text("1\n")
    settings = folder / "settings.conf"
    settings.write_text(settings.read_text() + "AuthorizedDefault=none\n")
    for what in ("with none", "behind a kill"):
        guard.start()
        guard.await_line("end 3")
        check("%s the default is written once" % what, guard.lines().count(written) == 1 and hub.read_text() == "0\n")
        check("%s nothing is told" % what, guard.told() == "", guard.told())
        guard.end()
        check("%s it stays when the daemon is killed" % what, hub.read_text() == "0\n")
    hub.unlink()
    hub.mkdir()
    guard.start()
    guard.await_line("end 3")
    events = sum(line.startswith("end ") for line in guard.lines())
    unsettled = sum(line.startswith("unsettled usb1 fault ") for line in guard.lines())
    check("a default that can't be written is told in each event", events <= unsettled <= events + 1, "%d of %d" % (unsettled, events))
    hub.rmdir()
    hub.write_text("1\n")
    check("and written once it can be", guard.await_line(written) and hub.read_text() == "0\n")
    time.sleep(1.5)
    check("and told no more", not guard.lines()[-2].startswith("unsettled"), guard.lines()[-2])
    judges(machine, "root hubs")
    guard.end()
    hub.unlink()


def main():
    edge_files.edge = sys.modules[__name__]
    all_here = {**globals(), **vars(edge_files)}
    trials = {name[6:].replace("_", "-"): value for name, value in all_here.items() if name.startswith("trial_")}
    a = argparse.ArgumentParser(description=__doc__, formatter_class=argparse.RawDescriptionHelpFormatter)
    a.add_argument("--program", default=str(HERE.parent / "crates/usbguard/out/usbguard"))
    a.add_argument("trial", nargs="*", help=", ".join(trials))
    o = a.parse_args()
    if "USBGUARD_CHECK" not in os.environ:
        os.environ["USBGUARD_CHECK"] = "1"
        os.execvp("unshare", ["unshare", "-m", "--propagation", "private", sys.executable, *sys.argv])
    o.program = str(Path(o.program).resolve())
    os.umask(0o022)
    resource.setrlimit(resource.RLIMIT_NOFILE, (8192, 8192))
    folder = Path(tempfile.mkdtemp(prefix="usbguard-check-"))
    try:
        subprocess.run(["mount", "-t", "tmpfs", "run", "/run"], check=True)
        machine = Machine(folder)
        for name in o.trial or trials:
            print("== %s: %s" % (name, trials[name].__doc__), flush=True)
            place = folder / name
            place.mkdir()
            trials[name](o, machine, place)
    finally:
        shutil.rmtree(folder, ignore_errors=True)
    print("%d failed" % len(failures))
    return 1 if failures else 0


if __name__ == "__main__":
    sys.exit(main())
