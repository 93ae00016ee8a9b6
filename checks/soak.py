#!/usr/bin/env python3
"""Runs the daemon for long, and measures whether its memory and its open files grow.

    checks/soak.py [--program PATH] [--sweeps N] [--plugs N] [--requests N]

On the machine of checks/edge.py: 200,000 sweeps that announcements call for and requests bring along, 20,000 plugs and as many unplugs, and 50,000
requests of 50 sessions at once, of which 8 are root's and 14 each of three groups. For a minute, from the sixth tenth on, a user floods its socket by 16
sessions beside that. Memory (VmRSS), its peak and the number of open files are
printed as they are behind each tenth of the plugs. Exit status 0 where the last three tenths have no more open files, and no more than
256 kB more memory, than the three before them. Needs what checks/edge.py needs.
"""

import argparse
import os
import resource
import shutil
import socket
import subprocess
import sys
import tempfile
import threading
import time
from pathlib import Path

import edge
from edge import Flood, Guard, check
from daemon import Machine


def memory(guard, key):
    lines = Path("/proc/%d/status" % guard.run.pid).read_text().splitlines()
    return next(int(x.split()[1]) for x in lines if x.startswith(key))


def files(guard):
    return len(os.listdir("/proc/%d/fd" % guard.run.pid))


class Asker(threading.Thread):
    """A session that asks again and again, and comes anew every 200 requests."""

    def __init__(self, guard, name, count):
        super().__init__(daemon=True)
        self.guard, self.name_of, self.count = guard, name, count
        self.asked, self.wrong, self.turned_away = 0, 0, 0

    def run(self):
        peer, served = None, 0
        while self.asked < self.count:
            try:
                if peer is None:
                    peer, served = self.guard.connect(self.name_of), 0
                    peer.settimeout(60)
                peer.sendall(b"list-devices\n")
                self.wrong += not self.reply(peer).startswith(b"ok ")
                self.asked += 1
                served += 1
                if self.asked % 200 == 0:
                    peer.close()
                    peer = None
            except OSError:
                # the daemon may not have seen yet that another one left its place
                self.turned_away += served == 0
                self.wrong += served > 0
                peer = None
                time.sleep(0.1)

    def reply(self, peer):
        reply = b""
        while not reply.endswith(b"\n"):
            piece = peer.recv(65536)
            if not piece:
                raise ConnectionError
            reply += piece
        return reply


def main():
    a = argparse.ArgumentParser(description=__doc__, formatter_class=argparse.RawDescriptionHelpFormatter)
    a.add_argument("--program", default=str(edge.HERE.parent / "crates/usbguard/out/usbguard"))
    a.add_argument("--sweeps", type=int, default=200000)
    a.add_argument("--plugs", type=int, default=20000)
    a.add_argument("--requests", type=int, default=50000)
    o = a.parse_args()
    if "USBGUARD_CHECK" not in os.environ:
        os.environ["USBGUARD_CHECK"] = "1"
        os.execvp("unshare", ["unshare", "-m", "--propagation", "private", sys.executable, *sys.argv])
    o.program = str(Path(o.program).resolve())
    resource.setrlimit(resource.RLIMIT_NOFILE, (8192, 8192))
    folder = Path(tempfile.mkdtemp(prefix="usbguard-check-"))
    began = time.monotonic()
    try:
        subprocess.run(["mount", "-t", "tmpfs", "run", "/run"], check=True)
        machine = Machine(folder)
        place = folder / "soak"
        place.mkdir()
        read, write = os.pipe()
        groups = (":bin", ":daemon", ":sys")
        guard = Guard(o, place, output=write, access={"nobody": "", **{name: "Devices=list\n" for name in groups}})
        os.close(write)
        counted = {"event": 0, "end": 0, "judged": 0, "gone": 0, "unsettled": 0, "rest": 0}

        def count():
            with os.fdopen(read, "rb") as lines:
                for line in lines:
                    word = line.split(b" ", 1)[0].decode()
                    counted[word if word in counted else "rest"] += 1

        threading.Thread(target=count, daemon=True).start()
        while counted["end"] < 1:
            time.sleep(0.01)
        names = 8 * ["root"] + 14 * list(groups)
        askers = [Asker(guard, name, o.requests // len(names)) for name in names]
        for asker in askers:
            asker.start()
        points = []
        for tenth in range(10):
            until_sweeps = o.sweeps * (tenth + 1) // 10
            if tenth == 5:
                flood = Flood(guard, "nobody")
                threading.Timer(60, flood.end).start()
            for k in range(o.plugs // 10):
                plug = tenth * (o.plugs // 10) + k
                machine.plug("1-1", 2 + plug % 120)
                while counted["judged"] < plug + 2:
                    time.sleep(0.001)
                machine.unplug("1-1")
                while counted["gone"] < plug + 1:
                    time.sleep(0.001)
            # What is missing in sweeps is called for by requests of the sessions, or of root's once these are through.
            peer = None
            while counted["end"] < until_sweeps:
                if any(asker.is_alive() for asker in askers):
                    time.sleep(0.01)
                    continue
                if peer is None:
                    peer = guard.connect()
                peer.sendall(b"list-devices\n" * 50)
                want = b""
                while want.count(b"ok ") < 50:
                    want += peer.recv(65536)
            if peer:
                peer.close()
                time.sleep(0.1)
            points.append((memory(guard, "VmRSS"), memory(guard, "VmHWM"), files(guard)))
            print("%3d %%, %4.0f s: %d events, %d verdicts, %d requests; memory %d kB, peak %d kB, open files %d" % (
                10 * (tenth + 1), time.monotonic() - began, counted["end"], counted["judged"], sum(x.asked for x in askers), *points[-1]),
                flush=True)
        for thread in (*askers, flood):
            thread.join()
        check("each request was answered", sum(x.asked for x in askers) >= o.requests // len(names) * len(names) and not any(x.wrong for x in askers),
              "%d, %d wrong; %d times a session that came anew found no place yet" % tuple(
                  sum(getattr(x, y) for x in askers) for y in ("asked", "wrong", "turned_away")))
        check("nothing was unsettled", counted["unsettled"] == 0, counted["unsettled"])
        late, before = points[7:], points[4:7]
        check("memory is flat", max(x[0] for x in late) <= max(x[0] for x in before) + 256)
        check("open files are flat", max(x[2] for x in late) <= max(x[2] for x in before))
        time.sleep(1)
        check("the open files of sessions are closed", files(guard) < 32, files(guard))
        guard.end()
    finally:
        shutil.rmtree(folder, ignore_errors=True)
    return 1 if edge.failures else 0


if __name__ == "__main__":
    sys.exit(main())
