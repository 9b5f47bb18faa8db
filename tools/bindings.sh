#!/usr/bin/env bash
# Links the static library of crates/yalwythen_c into programs in C and in Rust, builds them in a temporary folder, and
# runs them: the examples and tests of the C library by bindings/c/tests/run.sh, as built and as installed, from C++,
# under the sanitizers and under helgrind; and the tests and examples of bindings/rust, the tests also under the address
# sanitizer and with the feature `twin`, its waiting in every order of a few threads, the tests of bindings/rust/stream,
# and an example with the library installed. Last it makes a release, unpacks it, and builds a program in C and one in
# Rust from it, without the toolchain on the path. The library of crates/yalwythen_channel_c is tried by the programs of
# bindings/core_tests only.
# A library is built first if it is missing or older than its sources. If `cc`, `cargo`, a sanitizer or futures-core
# is missing, a line says what was skipped.
#
# The last line is 'N passed, M failed'.
set -u
cd "$(dirname "${BASH_SOURCE[0]}")/.." || exit 1

library=crates/yalwythen_c/out/libyalwythen_c.a
channel_library=crates/yalwythen_channel_c/out/libyalwythen_channel_c.a
passed=0
failed=0
place=$(mktemp -d) || exit 1
trap 'rm -rf "$place"' EXIT

fail() {
  echo "bindings.sh: $1"
  failed=$((failed + 1))
}

is_built() {
  [ -f "$1" ] || return 1
  [ -z "$(find crates.txt crates/*/{src,specs,proofs} -type f -newer "$1" -print -quit 2>/dev/null)" ]
}

# Proves and builds the static library of a crate $1: first the crates that it uses, in parallel, and then by `rt lib`.
build_library() {
  local uses
  read -ra uses < <(sed -n "s/^$1 [^:]*: *//p" crates.txt)
  tools/build.py --only "${uses[@]}" && (cd "crates/$1" && rt lib) && touch "crates/$1/out/lib$1.a"
}

# Builds the C library, installs it, and runs its examples and tests. Prints what they skipped.
try_c() {
  local ours theirs
  command -v make >/dev/null || { echo "bindings.sh: make not found: skipped the programs in C"; return; }
  make -s -C bindings/c test BUILD="$place/c" CORE="$PWD/$library" HEAP="$heap/liblibc_c.a" >"$place/said" 2>&1
  read -r ours theirs < <(sed -n 's/^\([0-9]*\) passed, \([0-9]*\) failed$/\1 \2/p' "$place/said")
  if [ -z "${theirs:-}" ]; then
    tail -n 40 "$place/said"
    fail "the C library is not built"
    return
  fi
  grep -v '^[0-9]* passed, \|^make' "$place/said"
  passed=$((passed + ours))
  failed=$((failed + theirs))
}

# Builds and runs a program $1 of bindings/core_tests, with the flags after it.
try_core_test() {
  local program=$1 said
  shift
  if said=$(cc -std=c99 -Wall -Wextra -Werror -pedantic "$@" -o "$place/$program" "bindings/core_tests/$program.c" \
    "$channel_library" "$heap/liblibc_c.a" 2>&1 && timeout 300 "$place/$program" 2>&1) &&
    [[ $said =~ ^[0-9]+\ checks$ ]]; then
    passed=$((passed + 1))
  else
    fail "bindings/core_tests/$program.c: $said"
  fi
}

# Calls each export of the core of channels without domains, also under the address sanitizer, which sees leaks.
try_channel_core() {
  local program
  for program in channels transactions; do
    try_core_test "$program" -O2
    if cc -fsanitize=address -o "$place/empty" -x c - <<<'int main(void) { return 0; }' 2>/dev/null; then
      try_core_test "$program" -O1 -g -fsanitize=address
    fi
  done
}

# Each example of the crate, with its arguments, and the last line that it prints.
rust_examples() {
  cat <<'LIST'
hello|7
pool|sum 333383335000
many 2000000|1000000 of 1000000 items, each once
pipeline|1000 lines, 1000000 in all
select|urgent: fire
scheduler|sweep the floor
router|100 orders, 237000 audited, the last bill is of order 20
async_consumer|1000 values, 500500 in all
orders|to bill: 30
LIST
}

# Builds an example $1 of the crate and runs it with the arguments after it.
run_cargo() {
  local example=$1
  shift
  timeout 300 cargo run --quiet --release --offline --locked --manifest-path bindings/rust/Cargo.toml \
    --example "$example" -- "$@"
}

# Runs an example $1 of the crate, which must print $2 as its last line, with the arguments after it.
run_example() {
  local example=$1 wanted=$2 said
  shift 2
  if said=$(run_cargo "$example" "$@" 2>&1) && [ "${said##*$'\n'}" = "$wanted" ]; then
    passed=$((passed + 1))
  else
    fail "the example $example: $said"
  fi
}

# Runs every example of the crate. One that is not in the list fails.
run_examples() {
  local command wanted names words
  names=$(rust_examples | sed 's/[ |].*//' | sort)
  if [ "$names" != "$(basename -s .rs bindings/rust/examples/*.rs | sort)" ]; then
    fail 'the list of examples is not that of bindings/rust/examples'
  fi
  while IFS='|' read -r command wanted; do
    read -ra words <<<"$command"
    run_example "${words[0]}" "$wanted" "${words[@]:1}" </dev/null
  done < <(rust_examples)
}

# Runs the tests of the crate, with the arguments after it, and counts those that passed. $1 says how they are run.
run_tests() {
  local how=$1
  shift
  timeout 900 cargo test --offline --locked --manifest-path bindings/rust/Cargo.toml "$@" >"$place/said" 2>&1 ||
    { tail -n 40 "$place/said"; fail "the tests of bindings/rust$how"; }
  count_tests
}

# Runs the tests of the crate that implements `futures_core::Stream`, with futures-core as Debian packages it.
run_stream_tests() {
  if ! compgen -G '/usr/share/cargo/registry/futures-core-*' >/dev/null; then
    echo "bindings.sh: librust-futures-core-dev not found: skipped the tests of bindings/rust/stream"
    return
  fi
  # Cargo reads the configuration of the folder that it is started in.
  (cd bindings/rust/stream && timeout 900 cargo test --offline --locked) >"$place/said" 2>&1 ||
    { tail -n 40 "$place/said"; fail "the tests of bindings/rust/stream"; }
  count_tests
}

# Explores the crate's lock and waiting, and wrong copies of them.
explore_rust() {
  local ours theirs
  bindings/rust/tests/explore/run.sh >"$place/said" 2>&1
  read -r ours theirs < <(sed -n 's/^\([0-9]*\) passed, \([0-9]*\) failed$/\1 \2/p' "$place/said")
  if [ "${theirs:-1}" -ne 0 ]; then tail -n 40 "$place/said"; fi
  passed=$((passed + ${ours:-0}))
  failed=$((failed + ${theirs:-1}))
}

# Adds the tests that passed.
count_tests() {
  local said
  read -r said < <(awk '/^test result:/ { ok += $4 } END { print ok + 0 }' "$place/said")
  passed=$((passed + said))
}

# Runs the tests under the address sanitizer, by a flag of rustc that is not stable.
run_sanitized_tests() {
  local flags=(-Zsanitizer=address -Cunsafe-allow-abi-mismatch=sanitizer) target
  target=$(rustc -vV | sed -n 's/^host: //p')
  if ! RUSTC_BOOTSTRAP=1 rustc "${flags[@]}" --target "$target" -o "$place/empty" - <<<'fn main() {}' 2>/dev/null ||
    ! "$place/empty"; then
    echo "bindings.sh: rustc has no address sanitizer: skipped the tests in Rust under it"
    return
  fi
  RUSTC_BOOTSTRAP=1 RUSTFLAGS="${flags[*]}" run_tests ' under the address sanitizer' --target "$target" --tests
}

# Installs the C library in a folder, and builds and runs an example of the crate that finds it there by pkg-config.
try_installed_rust() {
  local said
  if ! command -v make >/dev/null || ! command -v pkg-config >/dev/null; then
    echo "bindings.sh: make or pkg-config not found: skipped the crate with an installed library"
    return
  fi
  make -s -C bindings/c install PREFIX="$place/prefix" BUILD="$place/c" CORE="$PWD/$library" HEAP="$heap/liblibc_c.a" \
    >"$place/said" 2>&1 || { tail -n 40 "$place/said"; fail "make install"; return; }
  said=$(unset YALWYTHEN_LIB YALWYTHEN_HEAP; PKG_CONFIG_PATH=$place/prefix/lib/pkgconfig run_cargo hello 2>&1)
  if [ "$said" = 7 ]; then passed=$((passed + 1)); else fail "hello with an installed library: $said"; fi
}

# Builds and runs the C program $1 with the release that is unpacked in this folder.
released_c() {
  cc -I yalwythen/include "$1" yalwythen/lib/libyalwythen.a -pthread -o hello && ./hello
}

# Builds and runs the crate in this folder with its release, without the toolchain on the path.
released_rust() {
  local path
  path=$(dirname "$(command -v cargo)"):/usr/bin:/bin
  env -i PATH="$path" HOME="$HOME" CARGO_TARGET_DIR="$place/released" cargo run --quiet --offline
}

# Makes a release and tries it in an empty folder, as a user does. Its program is not run here.
try_release() {
  local program=$PWD/crates/chanrun/out/chanrun said
  [ -x "$program" ] || program=$(type -P true)
  mkdir -p "$place/user/src"
  PROGRAM=$program CORE=$PWD/$library HEAP=$heap/liblibc_c.a tools/release.sh "$place" >"$place/said" 2>&1 ||
    { tail -n 40 "$place/said"; fail "the release"; return; }
  tar -C "$place/user" -xzf "$(tail -n 1 "$place/said")"
  printf '[package]\nname = "user"\nedition = "2024"\n[dependencies]\nyalwythen = { path = "yalwythen/rust" }\n' \
    >"$place/user/Cargo.toml"
  cp bindings/rust/examples/hello.rs "$place/user/src/main.rs"
  cp bindings/c/examples/hello.c "$place/user"
  said=$(cd "$place/user" && released_c hello.c 2>&1)
  if [ "$said" = 7 ]; then passed=$((passed + 1)); else fail "a C program with the release: $said"; fi
  said=$(cd "$place/user" && released_rust 2>&1)
  if [ "$said" = 7 ]; then passed=$((passed + 1)); else fail "a Rust program with the release: $said"; fi
}

try_rust() {
  export YALWYTHEN_LIB=$PWD/${library%/*} YALWYTHEN_HEAP=$heap CARGO_TARGET_DIR=$place/target
  run_tests ''
  run_tests ' with the feature twin' --features twin --tests
  run_sanitized_tests
  explore_rust
  run_stream_tests
  run_examples
  try_installed_rust
  try_release
}

# Without `cc` and `cargo` nothing is linked, so the libraries are not needed.
if command -v cc >/dev/null || command -v cargo >/dev/null; then
  for built in "$library" "$channel_library"; do
    name=$(basename "$built" .a)
    is_built "$built" || build_library "${name#lib}" >"$place/said" 2>&1 ||
      { tail -n 40 "$place/said"; echo "0 passed, 1 failed"; exit 1; }
  done
  heap=$(dirname "$(dirname "$(readlink -f "$(command -v rt)")")")/c
fi
if command -v cc >/dev/null; then
  try_channel_core
  try_c
else
  echo "bindings.sh: cc not found: skipped the programs in C"
fi
# Rust links by `cc` too.
if command -v cc >/dev/null && command -v cargo >/dev/null; then
  try_rust
else
  echo "bindings.sh: cargo or cc not found: skipped the programs in Rust"
fi
echo "$passed passed, $failed failed"
[ "$failed" -eq 0 ]
