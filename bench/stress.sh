#!/usr/bin/env bash
# stress.sh [TRANSACTIONS [SEED]]: random transactions of sixteen seats in threads on eight channels, as many as asked
# for or a million, at most a million on a table. Those of the first table are given by SEED, 1 if there is none, those
# of the next one by the number after it. Each table is then finished, its report is audited, and for each channel and
# body what was put in is compared with what was taken and what is left. Prints of each how many transactions a second
# there were, the end of the table counted and the audit not. The last line is 'N passed, M failed', by tables.
#
# What runs is bench/stress.rattle, over the sources of tests/txc_table_tests. It is compiled without proofs and checks,
# optimised like a proved program, each time.
set -u
cd "$(dirname "${BASH_SOURCE[0]}")/.." || exit 1

todo=${1:-1000000}
seed=${2:-1}
seats=16
most=1000000
place=$(mktemp -d)
trap 'rm -rf "$place"' EXIT
passed=0
failed=0

program=$place/stress
python3 - "$program" <<'PYTHON' || { echo "0 passed, 1 failed"; exit 1; }
import re, shutil, sys

sys.path[:0] = ["bench", "tools"]
sys.dont_write_bytecode = True
import compiled, unproved, unproved_tests

NAME = "txc_table_tests"
place = unproved_tests.make_crate(NAME, unproved_tests.uses()[NAME])
try:
    source = place / "crates" / NAME / "src"
    shutil.copy("bench/stress.rattle", source / "main.rt")
    used = {"main", *re.findall(r"^mod (\w+);$", (source / "main.rt").read_text(encoding="utf-8"), re.MULTILINE)}
    for file in source.glob("*.rt"):
        if file.stem not in used:
            file.unlink()
    rtlib = unproved.toolchain()
    crate = unproved.crate_named(rtlib, str(place / "crates"), NAME)
    compiled.make_module(rtlib, crate, place)
    compiled.link(rtlib.KIT, place, place / "crates", sys.argv[1])
except unproved.Fault as fault:
    sys.exit(f"stress.sh: {fault}")
finally:
    shutil.rmtree(place, ignore_errors=True)
PYTHON

while [ "$todo" -gt 0 ]; do
  count=$((todo < most ? todo : most))
  # Each seat has as many.
  each=$(((count + seats - 1) / seats))
  if timeout 600 "$program" "$seed" "$each"; then
    passed=$((passed + 1))
  else
    echo "stress.sh: seed $seed with $each transactions a seat: status $?"
    failed=$((failed + 1))
  fi
  todo=$((todo - count))
  seed=$((seed + 1))
done
echo "$passed passed, $failed failed"
[ "$failed" -eq 0 ]
