#!/bin/sh
# Proves the bench of the channels and runs it: nanoseconds a write and a read on each of the six kinds,
# beside the bare queue and the bare broadcast list.
set -eu
root=$(cd "$(dirname "$0")/.." && pwd)
place=$("$root/bench/place.sh" chan txc_base txc_queue txc_cast txc_chan)
trap 'rm -rf "$place"' EXIT
cd "$place/crates/bench_chan"
rt run
