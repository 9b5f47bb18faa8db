#!/bin/sh
# Proves the bench of the queues and runs it: nanoseconds a call at two lengths.
set -eu
root=$(cd "$(dirname "$0")/.." && pwd)
place=$("$root/bench/place.sh" queue txc_base txc_queue)
trap 'rm -rf "$place"' EXIT
cd "$place/crates/bench_queue"
rt run
