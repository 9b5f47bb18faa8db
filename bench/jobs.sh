#!/usr/bin/env bash
# jobs.sh [ROUNDS]: proves the bench of workers in threads and runs its ten jobs, by a run, which keeps all that is
# done, and by a service, which doesn't, beside a mutex in Rust and GHC's stm on one processor and on four, each with
# the same number of transactions. They are run in turn, in so many rounds (nine where none is given), in processes of
# their own. Prints on what machine and under what load, and a table. `jobs.sh --quick` makes one round with small
# counts, whose times say little; `jobs.sh --growth` runs ours alone, with ten thousand transactions up to ten million,
# which want 6 GB of memory.
set -eu
root=$(cd "$(dirname "${BASH_SOURCE[0]}")/.." && pwd)
case "${1:-9}" in
  --quick | --growth) ;;
  *[!0-9]* | 0*)
    echo "jobs.sh [ROUNDS | --quick | --growth]" >&2
    exit 2
    ;;
esac
place=$("$root/bench/place.sh" jobs yalwythen anyhow)
trap 'rm -rf "$place"' EXIT
log="$place/log"
(cd "$place/crates/bench_jobs" && rt run) >"$log" 2>&1 || { tail -n 20 "$log"; exit 1; }
rustc -O --edition 2021 -o "$place/threads" "$root/bench/threads.rs"
if command -v ghc >/dev/null; then
  ghc -v0 -O2 -threaded -rtsopts -outputdir "$place" -o "$place/stm" "$root/bench/stm.hs"
fi
python3 "$root/bench/jobs.py" "$place" "${1:-9}"
