#!/usr/bin/env python3
"""instructions.py PEERS [JOB..]: the instructions of a transaction by the program `peers`, counted by callgrind: of the
proved library with its heap, of the C library's memory functions that the library calls, and of the rest, which is the
crate and the job itself. It counts the difference of two runs, so that what happens once is left out. The jobs are
solo, steps and closures by default: they have one thread."""
import collections
import subprocess
import sys
import tempfile

COUNT = 1000
# What the library's functions begin with, and those of the toolchain's libraries in it.
LIBRARY = ("yalwythen_core_", "yalwythen_domain", "txc_", "std_alloc::", "core::slice::edits::", "arrayvec::", "rattle_")
# Their transactions for each item.
TRANSACTIONS = {"solo": 2}


def part_of(function):
    if function.startswith(LIBRARY):
        return "library"
    names = ("mem", "malloc", "free", "calloc", "realloc", "_int_")
    return "memory" if function.lstrip("_").startswith(names) or "_int_" in function else "crate"


def counted(program, job, count):
    """The instructions of each function in one run."""
    found, function, is_call = collections.Counter(), None, False
    with tempfile.NamedTemporaryFile() as file:
        words = ["valgrind", "--tool=callgrind", "--compress-strings=no", "--compress-pos=no"]
        words += [f"--callgrind-out-file={file.name}", program, "--only", job, str(count)]
        subprocess.run(words, stderr=subprocess.DEVNULL, check=True)
        with open(file.name, encoding="utf-8") as lines:
            for line in lines:
                if line.startswith("fn="):
                    function = line[3:].rstrip()
                elif line.startswith("calls="):
                    is_call = True
                elif line[:1].isdigit() or line[:1] in "+-*":
                    # The line after a call has the instructions of the function that is called.
                    if not is_call:
                        found[function] += int(line.split()[1])
                    is_call = False
    return found


def main(words):
    if not words:
        sys.exit(__doc__)
    program, *jobs = words
    print("| Instructions of a transaction | Library | Memory functions | Crate and job |")
    print("|---|---|---|---|")
    for job in jobs or ["solo", "steps", "closures"]:
        few, many = (counted(program, job, count) for count in (COUNT, 3 * COUNT))
        parts = collections.Counter()
        for function, count in many.items():
            parts[part_of(function)] += (count - few[function]) / 2 / COUNT / TRANSACTIONS.get(job, 1)
        print(f"| {job} | {parts['library']:.0f} | {parts['memory']:.0f} | {parts['crate']:.0f} |")


if __name__ == "__main__":
    main(sys.argv[1:])
