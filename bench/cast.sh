#!/bin/sh
# Proves the bench of the broadcast list and runs it: nanoseconds a write, and the most memory, with
# one reader and with sixty-four.
set -eu
root=$(cd "$(dirname "$0")/.." && pwd)
place=$("$root/bench/place.sh" cast txc_base txc_cast)
trap 'rm -rf "$place"' EXIT
cd "$place/crates/bench_cast"
rt run
rt run -- 1
rt run -- 64
