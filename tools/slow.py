#!/usr/bin/env python3
"""slow.py CRATE [COUNT]: of the last whole proof of a crate, the modules that took longest, in seconds, with the room
that each takes in KB, the longest first.

They are the times between one module's file and the next one's, so the proof has to be from nothing and with one job:
`rm -rf out` and `rt check --jobs 1` in the crate's folder. What a function costs stands under several names: `Lts` is
what lives at each of its steps, `Goals` and `Proof` what is shown, `Tie` how both meet the code, and `Key` is the
reading of the whole crate.
"""
import sys
from pathlib import Path

COUNT = 20


def modules(crate):
    """Each module's file that the last proof wrote, in the order in which it was written."""
    folder = Path(__file__).resolve().parent.parent / "crates" / crate / "out" / "incremental"
    return sorted(folder.glob("*/*.oantt"), key=lambda it: it.stat().st_mtime)


def main():
    crate, count = sys.argv[1], int(sys.argv[2]) if len(sys.argv) > 2 else COUNT
    files = modules(crate)
    if not files:
        sys.exit(f"slow.py: nothing is kept of a proof of {crate}: rt check --jobs 1 in its folder keeps it")
    took = [(it.stat().st_mtime - before.stat().st_mtime, it) for before, it in zip(files, files[1:])]
    for seconds, it in sorted(took, reverse=True)[:count]:
        print(f"{seconds:7.1f} {it.stat().st_size // 1000:7} {it.stem.removeprefix('Rattle-')}")


if __name__ == "__main__":
    main()
