#!/usr/bin/env python3
"""seat.py: counts the instructions of a write or a read with callgrind: by a seat of a table, at once on its line and
the general way, and by a worker, with transactions that are prepared and with their steps each time. The seat records
nothing. What the worker does is recorded, and noted for the audit. It compiles bench/seat.rattle and
bench/session.rattle without proofs. A count is the difference of two runs, so that what happens once is left out. The
counts do not depend on what else the machine does.
"""
import sys
import tempfile
from pathlib import Path

sys.dont_write_bytecode = True
import compiled
import instructions

CRATES = ("txc_base", "txc_chan", "txc_txn_check")
# By the bench: the crates that it uses besides, and its modes.
BENCHES = {
    "seat": (["txc_table"], {"alone": "a seat, at once on its line", "gated": "a seat, the general way"}),
    "session": (["yalwythen_work", "anyhow"], {"prepared": "a worker, prepared", "steps": "a worker, by steps"}),
}
FEW, MANY = instructions.FEW, instructions.MANY


def main():
    with tempfile.TemporaryDirectory(prefix="seat-") as place:
        for name, (more, modes) in BENCHES.items():
            program = Path(place) / f"bench_{name}"
            compiled.compile_bench(name, program, *CRATES, *more)
            for mode, how in modes.items():
                if compiled.run(program, mode, 100).strip() != "100":
                    raise compiled.unproved.Fault(f"{program} {mode} does not commit each transaction")
                instructions_taken, writes = counted(program, mode)
                print(f"{how}: {instructions_taken:.0f} instructions, {writes:.0f} of them write memory", flush=True)


def counted(program, mode):
    """What a transaction takes: instructions, and those that write memory."""
    few, many = (totals(program, mode, count) for count in (FEW, MANY))
    return ((more - less) / (MANY - FEW) for less, more in zip(few, many))


def totals(program, mode, count):
    with tempfile.NamedTemporaryFile(prefix="seat-") as file:
        words = ["valgrind", "--tool=callgrind", "--cache-sim=yes", "--separate-recs=1", "--compress-strings=no",
                 "--compress-pos=no", f"--callgrind-out-file={file.name}"]
        compiled.run(*words, program, mode, count, timeout=instructions.SECONDS)
        with open(file.name, encoding="utf-8") as lines:
            return [sum(it.values()) for it in instructions.costs(lines)]


if __name__ == "__main__":
    try:
        main()
    except compiled.unproved.Fault as fault:
        print(f"seat.py: {fault}", file=sys.stderr)
        sys.exit(1)
