#!/usr/bin/env bash
# Builds the library, the bench and the program of stm in a temporary folder, and runs the bench: the library's
# transactions compared with a mutex around a deque, crossbeam-channel and GHC's stm. It takes some two minutes. Besides
# cargo and cc it needs the Debian package librust-crossbeam-channel-dev, and for stm ghc and libghc-stm-dev. If valgrind
# is there, it also counts instructions. Not a part of ./test.
set -eu
cd "$(dirname "${BASH_SOURCE[0]}")"
root=$(cd ../.. && pwd)
place=$(mktemp -d)
trap 'rm -rf "$place"' EXIT

[ -f "$root/crates/yalwythen_c/out/libyalwythen_c.a" ] || (cd "$root/crates/yalwythen_c" && rt lib)
export YALWYTHEN_LIB=$root/crates/yalwythen_c/out
YALWYTHEN_HEAP=$(dirname "$(dirname "$(readlink -f "$(command -v rt)")")")/c
export YALWYTHEN_HEAP CARGO_TARGET_DIR=$place/target
cargo build --quiet --release --offline
stm=()
if command -v ghc >/dev/null; then
  ghc -v0 -O2 -threaded -rtsopts -outputdir "$place/stm.out" -o "$place/stm" Stm.hs
  stm=("$place/stm")
fi
load=$(cut -d ' ' -f 1 /proc/loadavg)
echo "$(nproc) processors, load $load; $(rustc --version | cut -d ' ' -f 1-2)${stm:+, ghc $(ghc --numeric-version)}"
"$place/target/release/peers" "${stm[@]}"
if command -v valgrind >/dev/null; then
  echo
  ./instructions.py "$place/target/release/peers"
fi
