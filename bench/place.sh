#!/usr/bin/env bash
# place.sh NAME CRATE..: makes a folder in which `rt run` proves and runs the bench NAME.rattle over these crates and
# libraries of the toolchain, as the crate bench_NAME, and prints its path. Crates that are not proved yet are proved
# first. The caller removes the folder.
set -eu
root=$(cd "$(dirname "${BASH_SOURCE[0]}")/.." && pwd)
name=$1
shift
ours=()
for crate in "$@"; do
  # A library of the toolchain has no line.
  if grep -qE "^$crate[: ]" "$root/crates.txt"; then ours+=("$crate"); fi
done
"$root/tools/build.py" --only "${ours[@]}"
place=$("$root/tools/scratch.sh" "$@")
mkdir -p "$place/crates/bench_$name/src"
cp "$root/bench/$name.rattle" "$place/crates/bench_$name/src/main.rt"
echo "bench_$name: $*" >>"$place/crates.txt"
echo "$place"
