#!/usr/bin/env python3
"""weigh.py [WORD..]: measures a first build: proves what `chanrun` needs by tools/build.py, or what the WORDs ask of
tools/build.py, and writes tools/weights.txt anew: of each crate that was proved in this run the seconds of one
processor, the most memory at one job, and what it leaves on the disk. A line of a crate that was proved already stays.
Prints at the end how long all took, and what lies in crates/*/out.

It looks at the provers twice a second. So that all are measured, remove crates/*/out first.
"""

import os
import re
import subprocess
import sys
import time
from pathlib import Path

sys.dont_write_bytecode = True
import build

EVERY = 0.5
TICKS = os.sysconf("SC_CLK_TCK")
HEAD = """\
# What the proof of each crate takes from nothing: seconds of one processor, the most memory at one job in MB, and
# what it leaves on the disk in MB. Measured by tools/weigh.py.
"""


def provers():
    """Each process that proves a crate of this repository: the crate, its seconds and its memory."""
    for number in filter(str.isdigit, os.listdir("/proc")):
        try:
            words = Path(f"/proc/{number}/cmdline").read_bytes().decode(errors="replace").split("\0")
            folder = os.readlink(f"/proc/{number}/cwd")
            stat = Path(f"/proc/{number}/stat").read_text().rpartition(")")[2].split()
            held = re.search(r"VmHWM:\s+(\d+) kB", Path(f"/proc/{number}/status").read_text())
        except OSError:
            continue
        # What has ended and isn't waited for yet holds nothing.
        if held and "--crate-name" in words and os.path.dirname(folder) == os.path.join(build.ROOT, "crates"):
            # The seconds are its own and those of what it has waited for.
            yield os.path.basename(folder), sum(map(int, stat[11:15])) / TICKS, 1024 * int(held[1])


class Measured:
    """What was seen of each crate."""

    def __init__(self):
        self.seconds, self.memory = {}, {}

    def look(self):
        seconds = {}
        for name, used, held in provers():
            seconds[name] = seconds.get(name, 0) + used
            # A job shares much with the process that began it, which holds the most.
            self.memory[name] = max(self.memory.get(name, 0), held)
        for name, used in seconds.items():
            self.seconds[name] = max(self.seconds.get(name, 0), used)


def room_of(folder):
    """What lies there, in bytes of the disk."""
    return sum(512 * os.lstat(os.path.join(at, name)).st_blocks for at, _, names in os.walk(folder) for name in names)


def main():
    measured, known, begun = Measured(), build.weights(), time.monotonic()
    child = subprocess.Popen([os.path.join(build.ROOT, "tools", "build.py"), *sys.argv[1:]])
    while child.poll() is None:
        measured.look()
        time.sleep(EVERY)
    took = time.monotonic() - begun
    rows = {}
    for name in {*known, *measured.seconds}:
        rows[name] = known.get(name)
        if name in measured.seconds:
            room = room_of(os.path.join(build.ROOT, "crates", name, "out"))
            rows[name] = (measured.seconds[name], measured.memory[name], room)
    with open(build.WEIGHTS, "w", encoding="utf-8") as file:
        file.write(HEAD)
        for name, (seconds, memory, room) in sorted(rows.items(), key=lambda it: it[0]):
            file.write("%s %d %d %d\n" % (name, round(seconds), memory // build.MEGABYTE, room // build.MEGABYTE))
    room = sum(room_of(folder) for folder in Path(build.ROOT, "crates").glob("*/out"))
    print("%d s; %d s of processor time; %d MB in crates/*/out" % (
        took, sum(measured.seconds.values()), room // build.MEGABYTE))
    return child.returncode


if __name__ == "__main__":
    sys.exit(main())
