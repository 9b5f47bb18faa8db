#!/usr/bin/env python3
"""calls.py [--list]: counts the calls that one write takes: by the session of a server, and by `chanrun run` from the
bytes of the script to the report. It compiles the programs without proofs and without inlining, and runs them under
callgrind. With --list it prints each call.

A call counts once, however often a loop makes it. Left out are calls of libraries of the toolchain, calls that only
proofs need, and what a `List` hands on to its vector.
"""
import re
import subprocess
import sys
import tempfile
from collections import Counter
from pathlib import Path

sys.dont_write_bytecode = True
import compiled

# How many writes bench/write.rattle makes.
TIMES = 60
SCRIPT = b'{"version": 1, "channels": [{"kind": "TQueue"}], "seats": [[[["write", 0, 7]]]]}'
# A run under callgrind takes some seconds.
SECONDS = 300
OURS = re.compile(r"(?:txc_|yalwythen|chanrun)")
# Functions that show something to a proof, ghost state, what a `List` hands on, and what the compiler writes: the end
# of a value, and the conversion of an error.
LEFT_OUT = re.compile(r"::show\w*$|^txc_base_ghost|^txc_base_ledger|ghost_list|::seen(?:_marks)?$|list::List::|drop"
                      r"|from_residual")


def calls_of(lines):
    """How often each call was made, in callgrind's output: by the caller, the place there and the called function."""
    found, caller, callee, count = Counter(), "", "", None
    for line in lines:
        if line.startswith("fn="):
            caller = line[3:].rstrip()
        elif line.startswith("cfn="):
            callee = line[4:].rstrip()
        elif line.startswith("calls="):
            count = int(line[6:].split()[0])
        elif count is not None:
            # The first word of the line after a call is the place of the call.
            found[name_of(caller), line.split()[0], name_of(callee)] += count
            count = None
    return {call: many for call, many in found.items() if OURS.match(call[2]) and not LEFT_OUT.search(call[2])}


def name_of(symbol):
    """The name of a function, without the types that it is compiled for."""
    return symbol.split("::<")[0]


def made_by(program, words, given, least):
    """The calls that a program makes at least so often, run on these words and these bytes."""
    with tempfile.NamedTemporaryFile(prefix="calls-") as file:
        command = ["valgrind", "--tool=callgrind", "--dump-instr=yes", "--compress-strings=no", "--compress-pos=no",
                   f"--callgrind-out-file={file.name}", str(program), *words]
        subprocess.run(command, input=given, capture_output=True, check=True, timeout=SECONDS)
        with open(file.name, encoding="utf-8") as lines:
            return sorted(call for call, many in calls_of(lines).items() if many >= least)


def report(title, calls, is_listed):
    crates = Counter(callee.split("::")[0] for _, _, callee in calls)
    print(f"{title}: {len(calls)} calls: {', '.join(f'{crate} {many}' for crate, many in crates.most_common())}")
    if is_listed:
        for caller, _, callee in calls:
            print(f"  {caller} -> {callee}")


def main(words):
    if words not in ([], ["--list"]):
        sys.exit(__doc__)
    with tempfile.TemporaryDirectory(prefix="calls-") as folder:
        write, chanrun = Path(folder) / "write", Path(folder) / "chanrun"
        crates = ("txc_base", "txc_chan", "txc_txn_check", "yalwythen_work", "anyhow")
        compiled.compile_bench("write", write, *crates, inlines=False)
        report("a write by a server", made_by(write, [], b"", TIMES), bool(words))
        compiled.compile_program("chanrun", chanrun, inlines=False)
        report("chanrun run of one write", made_by(chanrun, ["run"], SCRIPT, 1), bool(words))


if __name__ == "__main__":
    try:
        main(sys.argv[1:])
    except compiled.unproved.Fault as fault:
        print(f"calls.py: {fault}", file=sys.stderr)
        sys.exit(1)
