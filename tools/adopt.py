#!/usr/bin/env python3
"""adopt.py: has the parts of the gate take what `rt ci` has just proved for proved, which they else would prove again.

For ./test alone, right behind a run of `rt ci` that proved all. That run marks no library as proved: a library's
statements fit only those over which they were proved, and commands can't tell. Here all are of one run, so each library
gets the mark that rt and tools/build.py look for, unless one of its files is younger than it.
"""
import os
import shutil
import sys

import build


def is_of_now(crate):
    """Whether the library is there, and no file that it was made of has changed since."""
    if not os.path.isdir(crate.rlib):
        return False
    made = os.path.getmtime(crate.rlib)
    walked = [os.walk(os.path.join(crate.folder, part)) for part in ("src", "specs", "proofs")]
    files = (os.path.join(at, name) for it in walked for at, _, names in it for name in names)
    return all(os.path.getmtime(file) <= made for file in files)


def main():
    command = shutil.which("rt")
    rtlib = build.toolchain(command) if command else None
    if rtlib is None:
        # Then all is proved again, as without this.
        return 0
    for crate in rtlib.crates_below(os.path.join(build.ROOT, "crates")):
        if not crate.is_built() and is_of_now(crate):
            with open(os.path.join(os.path.dirname(crate.rlib), "stamp"), "w", encoding="utf-8") as file:
                file.write(crate.stamp())
    return 0


if __name__ == "__main__":
    sys.exit(main())
