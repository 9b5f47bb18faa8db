#!/usr/bin/env python3
"""edit_times.py SECONDS: watches the mutants that `rt ci`, `rt must-fail` or tools/edits.py tries in this repository in
the next SECONDS, and then prints what each took, in seconds of processor time, the dearest first. Before a crate's
mutants are tried, the crate itself is proved once more: that line has no name. The line of a check that tries several
mutants has the name `several`.

It looks every two seconds, so it misses what each does in its last two.
"""
import os
import subprocess
import sys
import time
from pathlib import Path

sys.dont_write_bytecode = True
import edit_files

CRATES = edit_files.ROOT / "crates"
PAUSE = 2
TICKS = os.sysconf("SC_CLK_TCK")
# How the name of the folder begins in which the toolchain tries a mutant, in a copy of its crate.
TRIED_IN = "rt-edit-"


def edits_of(crate):
    """What each mutant of a crate makes of the files that it changes. The crate as it is has no name."""
    found = {"": {}}
    for edit in edit_files.edits_of(CRATES / crate):
        texts = edit_files.texts_of(CRATES / crate, [edit])
        found[""].update({path: (CRATES / crate / path).read_text(encoding="utf-8") for path in texts})
        found[edit.stem] = texts
    return found


def name_of(folder, edits):
    """Which of a crate's mutants is tried in a folder; no name if the crate is as it was."""
    for name, texts in edits.items():
        files = {Path(folder) / path: text for path, text in {**edits[""], **texts}.items()}
        if all(it.exists() and it.read_text(encoding="utf-8") == text for it, text in files.items()):
            return name
    return "several"


def provers():
    """Each prover that tries a mutant: its process and when that began, its folder, crate, and seconds so far."""
    for pid in subprocess.run(["pgrep", "-x", "rattle"], capture_output=True, text=True, check=False).stdout.split():
        try:
            folder = os.readlink(f"/proc/{pid}/cwd")
            words = Path(f"/proc/{pid}/cmdline").read_text(encoding="utf-8").split("\0")
            fields = Path(f"/proc/{pid}/stat").read_text(encoding="utf-8").rsplit(") ", 1)[1].split()
        except OSError:
            # It has ended meanwhile.
            continue
        if os.path.basename(folder).startswith(TRIED_IN) and "--crate-name" in words:
            crate = words[words.index("--crate-name") + 1]
            # Its own ticks, and those of what it started.
            yield (pid, fields[19]), folder, crate, sum(map(int, fields[11:15])) / TICKS


def main(seconds):
    known, edits, took = {}, {}, {}
    until = time.monotonic() + seconds
    while time.monotonic() < until:
        for process, folder, crate, so_far in provers():
            if not (CRATES / crate).is_dir():
                continue
            if process not in known:
                if crate not in edits:
                    edits[crate] = edits_of(crate)
                known[process] = (crate, name_of(folder, edits[crate]))
            took[process] = so_far
        time.sleep(PAUSE)
    for process in sorted(took, key=took.get, reverse=True):
        print(f"{took[process]:7.1f}  {' '.join(known[process])}")
    return 0


if __name__ == "__main__":
    if len(sys.argv) != 2 or not sys.argv[1].isdigit():
        sys.exit(__doc__)
    sys.exit(main(int(sys.argv[1])))
