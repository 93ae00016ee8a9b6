"""Trials of checks/edge.py: what stands in the place of the daemon's files and of the kernel's.

They are run by checks/edge.py, which hands in itself.
"""

import os
import re
import subprocess
import threading
import time
from pathlib import Path

edge = None
UNIT = Path(__file__).resolve().parent.parent / "packaging/usbguard.service"
HUB = "usb1"
# The setting, usbcore's parameter, and whether a person is told
PARAMETERS = (("none", "1", True), ("none", "-1", True), ("none", "0", False), ("all", "0", True),
              ("all", "1", False), ("all", "-1", False), ("keep", "0", False), ("keep", "1", False))


def ends(guard, patience=5):
    """The status with which the daemon ends, or None where it goes on."""
    try:
        return guard.run.wait(patience)
    except subprocess.TimeoutExpired:
        return None


def client(o, *words, patience=10):
    """A command's status and output, or None where it doesn't end."""
    try:
        return subprocess.run([o.program, *words], capture_output=True, text=True, timeout=patience)
    except subprocess.TimeoutExpired:
        return None


def starts_with_special(guard, what, path, status):
    """A start, with something in that file's place that is no file."""
    before = path.read_bytes()
    path.unlink()
    for kind, make in (("a pipe", lambda: os.mkfifo(path)),
                       ("a terminal", lambda: path.symlink_to(os.ttyname(guard.slave))),
                       ("a socket", lambda: os.mknod(path, 0o140600))):
        make()
        guard.start()
        code = ends(guard)
        edge.check("%s in the place of %s: status %d" % (kind, what, status), code == status, code)
        edge.check("%s in the place of %s: standard error names it" % (kind, what),
                   "%s isn't taken" % path in guard.told(), guard.told())
        if code is None:
            guard.end()
        path.unlink()
    path.write_bytes(before)
    path.chmod(0o600)


def trial_no_files(o, machine, folder):
    """A pipe, a terminal or a socket stands in the place of each of the daemon's files."""
    guard = edge.Guard(o, folder, settings="RuleFolder=%s\n" % (folder / "rules.d"),
                       access={"nobody": "Devices=list\n"})
    rules, rule_folder = folder / "rules.conf", folder / "rules.d"
    rule_folder.mkdir()
    (rule_folder / "10-a.conf").write_text("allow id 1050:0012\n")
    guard.end()
    guard.start()
    guard.await_line("end ")
    guard.end()
    master, guard.slave = os.openpty()
    for what, path, status in (("the settings", folder / "settings.conf", 4),
                               ("the rule file", rules, 9),
                               ("an access file", folder / "access/nobody",
                                4), ("a file of the folder", rule_folder / "10-a.conf", 4)):
        starts_with_special(guard, what, path, status)
    os.close(guard.slave)
    os.close(master)
    guard.start()
    guard.await_line("end ")
    kept = rules.read_bytes()
    rules.unlink()
    os.mkfifo(rules)
    done = client(o, "append-rule", "allow id 1111:0001")
    edge.check("a pipe in the rule file's place: an order is refused", done is not None
               and done.returncode == 7, done and done.stdout)
    edge.judges(machine, "a pipe in the rule file's place")
    rules.unlink()
    rules.write_bytes(kept)
    rules.chmod(0o600)
    time.sleep(1.5)
    done = client(o, "append-rule", "allow id 1111:0002")
    edge.check("once it is gone an order is saved", done is not None and done.returncode == 0
               and "1111:0002" in rules.read_text())
    guard.end()


def made_without(machine, name, number, missing):
    """A device of which a file is missing, beside others that no rule allows."""
    descriptors = bytearray(edge.KEY)
    descriptors[10] ^= 0x77
    made = machine.made
    (made / "port").mkdir(parents=True)
    files = {"authorized": b"1\n", "devnum": b"%d\n" % number, "descriptors": bytes(descriptors),
             "remove": b"",
             "port/connect_type": b"hotplug\n"}
    for file, text in files.items():
        if file != missing:
            (made / file).write_bytes(text)
    made.rename(edge.DEVICES / name)
    machine.announce()


def count_of(guard, start):
    return sum(line.startswith(start) for line in guard.lines())


def trial_missing_controls(o, machine, folder):
    """A file that each device has is missing, though its folder stands."""
    guard = edge.Guard(o, folder, rules="allow id 1050:0011\nreject\n",
                       settings="AuthorizedDefault=none\n")
    guard.await_line("end ")
    for number, missing in ((41, "authorized"), (42, "devnum"), (43, "descriptors"),
                            (44, "remove")):
        name = "1-%d" % number
        made_without(machine, name, number, missing)
        time.sleep(3)
        edge.check("without %s a device is named" % missing,
                   count_of(guard, "unsettled %s fault " % name) >= 2,
                   count_of(guard, "unsettled %s fault " % name))
        edge.check("without %s its standing isn't dropped" % missing, count_of(guard, "gone ") == 0)
        judged = [line for line in guard.lines() if line.startswith("judged ")
                  and " %s " % name in line]
        edge.check("without %s it is judged at most once" % missing, len(judged) <= 1, len(judged))
        machine.unplug(name)
        time.sleep(1.5)
        before = len(guard.lines())
        time.sleep(1.5)
        late = [line for line in guard.lines()[before:] if line.startswith("unsettled ")]
        edge.check("once it is unplugged nothing is unsettled but the hub",
                   all(line.split()[1] == HUB for line in late), late)
        guard.end()
        guard.start()
        guard.await_line("end ")
    # (the machine's root hub has no authorized_default)
    time.sleep(3)
    edge.check("without authorized_default a root hub is named",
               count_of(guard, "unsettled %s fault " % HUB) >= 3)
    edge.check("and judged once", count_of(guard, "judged 1 %s " % HUB) == 1
               and count_of(guard, "gone ") == 0)
    edge.judges(machine, "missing files")
    guard.end()


def trial_odd_names(o, machine, folder):
    """Names that aren't UTF-8, and folders among the files of folders."""
    guard = edge.Guard(o, folder, settings="RuleFolder=%s\n" % (folder / "rules.d"),
                       access={"nobody": "Devices=list\n"})
    guard.end()
    rule_folder = folder / "rules.d"
    rule_folder.mkdir()
    (rule_folder / "10-a.conf").write_text("allow id 1050:0012\n")
    (rule_folder / "20-b.conf").mkdir()
    (folder / "access/joe").mkdir()
    for place in (rule_folder, folder / "access", edge.DEVICES):
        with open(os.fsencode(place) + b"/1-\xff.conf", "wb"):
            pass
    guard.start()
    edge.check("the daemon starts", guard.await_line("end ") and guard.run.poll() is None,
               guard.told())
    listed = edge.list_rules(o)
    edge.check("the folder's file is taken",
               listed.startswith("1: allow id 1050:0012 # folder\n2: "), listed)
    edge.judges(machine, "odd names")
    edge.check("nothing is unsettled", "unsettled" not in guard.journal.read_text())
    guard.end()
    os.unlink(os.fsencode(edge.DEVICES) + b"/1-\xff.conf")


def trial_replaced(o, machine, folder):
    """Another file takes the place of settings and rule file again and again at a start."""
    guard = edge.Guard(o, folder)
    guard.end()
    files = [(path, path.read_bytes())
             for path in (folder / "settings.conf", folder / "rules.conf")]
    stop = threading.Event()

    def replace():
        while not stop.is_set():
            for path, text in files:
                new = path.with_suffix(".new")
                new.write_bytes(text)
                new.chmod(0o600)
                new.rename(path)

    threads = [threading.Thread(target=replace)]
    for thread in threads:
        thread.start()
    refused = []
    for _ in range(60):
        guard.start()
        if not guard.await_line("end ", 5):
            refused.append(guard.run.poll())
        guard.end()
    stop.set()
    for thread in threads:
        thread.join()
    edge.check("each of 60 starts is taken", not refused, refused)


def ignored_signals():
    """The signals that the unit has the daemon ignore, by env(1) or by a trap of its shell."""
    line = next(line for line in UNIT.read_text().splitlines() if line.startswith("ExecStart="))
    found = re.search(r'--ignore-signal=([A-Z,]+)|trap "" ([A-Z ]+);', line)
    return re.split("[ ,]", found.group(1) or found.group(2))


def await_socket(patience=20):
    until = time.monotonic() + patience
    while time.monotonic() < until and not (edge.RUN / "root.socket").exists():
        time.sleep(0.02)
    return (edge.RUN / "root.socket").exists()


def trial_file_limit(o, machine, folder):
    """No file may be longer than the rule file becomes. The daemon runs as the unit has it."""
    rules = "allow id 1050:0011\n" + "".join("block id 0001:%04x\n" % k for k in range(300))
    with open(os.devnull, "wb") as nowhere:
        guard = edge.Guard(o, folder, rules=rules, output=nowhere,
                           wrap=["prlimit", "--fsize=4096", "env",
                                 "--ignore-signal=" + ",".join(ignored_signals())])
    edge.check("it starts", await_socket())
    done = client(o, "append-rule", "allow id 1111:0001")
    edge.check("an order is refused", done is not None and done.returncode == 7
               and "store-fault" in done.stdout, done)
    edge.check("the daemon goes on", guard.run.poll() is None, guard.run.poll())
    edge.check("standard error says why",
               "can't be saved in %s: " % (folder / "rules.conf") in guard.told(), guard.told())
    edge.check("the rule file is as before", (folder / "rules.conf").read_text() == rules)
    edge.judges(machine, "a limit of files")
    guard.end()


def bytes_read(guard):
    return int(re.search(r"^rchar: (\d+)", Path("/proc/%d/io" % guard.run.pid).read_text(),
                         re.M).group(1))


def trial_strange_file(o, machine, folder):
    """Another hand puts 64 MiB in the rule file's place, while a save is pending."""
    guard = edge.Guard(o, folder)
    guard.await_line("end ")
    rules = folder / "rules.conf"
    rules.write_bytes(b"#" * ((1 << 26) - 1) + b"\n")
    done = client(o, "append-rule", "allow id 1111:0001", patience=30)
    edge.check("an order is refused", done is not None and done.returncode == 7
               and "store-fault" in done.stdout)
    before, tried = bytes_read(guard), count_of(guard, "save failed")
    for _ in range(20):
        machine.announce()
        time.sleep(0.05)
    edge.judges(machine, "a strange rule file")
    count, read = count_of(guard, "save failed") - tried, bytes_read(guard) - before
    edge.check("it isn't read again", read < (1 << 20), "%d bytes in %d events" % (read, count))
    edge.check("the save is tried", count >= 5, count)
    edge.check("a person is told once", guard.told().count("another hand") == 1, guard.told())
    rules.unlink()
    time.sleep(2.5)
    edge.check("once it is gone the rules are saved", rules.exists()
               and "1050:0011" in rules.read_text())
    edge.check("and a person is told", "rules are saved in %s again" % rules in guard.told(),
               guard.told())
    guard.end()


def trial_unsaved(o, machine, folder):
    """A save fails for a while, where idle events are omitted."""
    guard = edge.Guard(o, folder, environment={"USBGUARD_IDLE_EVENTS": "omit"})
    guard.await_line("end ")
    rules, new = folder / "rules.conf", folder / "rules.conf.usbguard-new"
    new.mkdir()
    done = client(o, "append-rule", "allow id 1111:0001")
    edge.check("an order is refused", done is not None and done.returncode == 7
               and "store-fault" in done.stdout)
    time.sleep(5)
    told = "rules can't be saved in %s: " % rules
    edge.check("a person is told once", guard.told().count(told) == 1
               and "irectory" in guard.told(), guard.told())
    edge.check("the journal tells it once", count_of(guard, "save failed") == 1
               and count_of(guard, "event ") == 2,
               guard.lines()[-6:])
    edge.judges(machine, "a save that fails")
    events = [line for line in guard.lines() if line.startswith("judged ") and " block " in line]
    edge.check("an event with a verdict is there as a whole", len(events) >= 1
               and count_of(guard, "save failed") >= 2)
    new.rmdir()
    time.sleep(2.5)
    edge.check("once it can be it is done", "save done" in guard.lines(), guard.lines()[-6:])
    edge.check("a person is told", guard.told().count("rules are saved in %s again" % rules) == 1,
               guard.told())
    new.mkdir()
    client(o, "append-rule", "allow id 1111:0002")
    time.sleep(0.5)
    edge.check("the next time both tell it again", guard.told().count(told) == 2)
    new.rmdir()
    guard.end()


def trial_no_bus(o, machine, folder):
    """The folder of the devices is away for a while, where idle events are omitted."""
    away = edge.DEVICES.with_name("away")
    edge.DEVICES.rename(away)
    guard = edge.Guard(o, folder, environment={"USBGUARD_IDLE_EVENTS": "omit"})
    guard.await_line("end ")
    time.sleep(4)
    told = "%s can't be listed: " % edge.DEVICES
    edge.check("a person is told once", guard.told().count(told) == 1
               and "No such file" in guard.told(), guard.told())
    lines = guard.lines()
    edge.check("the journal tells it once", lines.count("end 1") == 1
               and count_of(guard, "unsettled * ") == 1
               and count_of(guard, "event ") == 1, lines)
    away.rename(edge.DEVICES)
    machine.announce()
    edge.judges(machine, "devices that come back")
    edge.check("a person is told that it is listed again",
               "%s is listed again" % edge.DEVICES in guard.told(), guard.told())
    guard.end()


def trial_hub_watch(o, machine, folder):
    """Another hand opens a root hub that the daemon closed; the kernel binds no driver."""
    hub = edge.DEVICES / HUB / "authorized_default"
    drivers = hub.with_name("interface_authorized_default")
    hub.write_text("1\n")
    drivers.write_text("0\n")
    guard = edge.Guard(o, folder, settings="AuthorizedDefault=none\n")
    edge.check("the default is written", guard.await_line("wrote 1 %s default-off done" % HUB))
    bare = "root hubs whose interface_authorized_default is 0"
    edge.check("at the start a person is told that no driver binds", guard.told().count(bare) == 1,
               guard.told())
    opened = "root hubs that switch on what comes to them, though AuthorizedDefault is none"
    edge.check("and that none is open", opened not in guard.told(), guard.told())
    hub.write_text("1\n")
    time.sleep(64)
    edge.check("within a minute a person is told",
               guard.told().count("%s: %s." % (opened, HUB)) == 1, guard.told())
    edge.check("it isn't written again", hub.read_text() == "1\n")
    edge.check("what was told at the start isn't told again", guard.told().count(bare) == 1,
               guard.told())
    time.sleep(61)
    edge.check("a minute later it isn't told again", guard.told().count(opened) == 1, guard.told())
    guard.end()
    hub.unlink()
    drivers.unlink()


def trial_parameter(o, machine, folder):
    """What usbcore's parameter says against the setting."""
    parameter = Path("/sys/module/usbcore/parameters/authorized_default")
    subprocess.run(["mount", "-t", "tmpfs", "modules", "/sys/module"], check=True)
    parameter.parent.mkdir(parents=True)
    hub = edge.DEVICES / HUB / "authorized_default"
    guard = edge.Guard(o, folder)
    guard.end()
    settings = folder / "settings.conf"
    text = settings.read_text()
    for setting, value, is_told in PARAMETERS:
        settings.write_text(text + "AuthorizedDefault=%s\n" % setting)
        parameter.write_text(value + "\n")
        hub.write_text("0\n")
        guard.start()
        guard.await_line("end 2")
        seen, wanted = guard.told().count(str(parameter)), 1 if is_told else 0
        edge.check("%s, %s there: a person is told %d times" % (setting, value, wanted),
                   seen == wanted, guard.told())
        guard.end()
    hub.unlink()
    subprocess.run(["umount", "/sys/module"], check=True)


