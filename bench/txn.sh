#!/bin/sh
# Proves the bench of the transactions and runs it: nanoseconds of a transaction whose first branch is taken
# back, over short and long queues, and of a write or a read in a transaction of its own.
set -eu
root=$(cd "$(dirname "$0")/.." && pwd)
place=$("$root/bench/place.sh" txn txc_base txc_chan txc_txn)
trap 'rm -rf "$place"' EXIT
cd "$place/crates/bench_txn"
rt run
