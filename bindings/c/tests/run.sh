#!/usr/bin/env bash
# Builds the programs of examples/ and tests/ with the archive $1 in a folder that is removed again, and runs them: also
# under the address, undefined behaviour and thread sanitizers, under helgrind, from C++, and installed. The last line
# is 'N passed, M failed'; a line says what was skipped.
#
# CC and CXX are the compilers. CORE and HEAP are the archives from which $1 was made: the sanitizers see the files of
# src/ too. FEW=1 skips helgrind and the sanitizers.
set -u
archive=$(readlink -f "$1") || exit 1
cd "$(dirname "${BASH_SOURCE[0]}")/.." || exit 1

CC=${CC:-cc}
CXX=${CXX:-g++}
warnings=(-Wall -Wextra -Werror -pedantic)
c99=(-std=c99 -D_POSIX_C_SOURCE=200809L "${warnings[@]}" -Iinclude -pthread)
refusing=-Wl,--wrap=malloc,--wrap=realloc,--wrap=calloc
refused='[0-9]+ allocations refused, 0 of them not reported'
read -ra whole <<<"${CORE:-} ${HEAP:-}"
passed=0
failed=0
place=$(mktemp -d) || exit 1
trap 'rm -rf "$place"' EXIT

fail() {
  echo "run.sh: $1"
  failed=$((failed + 1))
}
pass() { passed=$((passed + 1)); }
skip() { echo "run.sh: $1"; }

# Compiles and links a program $1, with the flags after it.
build() {
  local program=$1 said
  shift
  said=$("$CC" "${c99[@]}" -o "$place/$program" "$@" 2>&1) || { fail "$program does not build: $said"; return 1; }
}

# Runs a program $1, which has to print a line that matches $2, by the command after it.
run() {
  local program=$1 wanted=$2 said
  shift 2
  if said=$(timeout 300 "$@" "$place/$program" 2>&1) && [[ $said =~ ^$wanted$ ]]; then
    pass
  else
    fail "$program${1:+ by $1}: $said"
  fi
}

# Each program, its source, and the line that it prints.
programs() {
  cat <<'LIST'
hello examples/hello.c 7
pool examples/pool.c sum 50005000
readers examples/readers.c 3 readers, 10000 items each
accounts examples/accounts.c 7 records, as they were done
jobs examples/jobs.c 2000 squares, sum 2668667000
misuse tests/misuse.c [0-9]+ checks
steps tests/steps.c [0-9]+ checks
limits tests/limits.c 65536 channels and seats
threads tests/threads.c waited
stress tests/stress.c 1500 rounds of 24 items, and 12000 received twice
atomically tests/atomically.c 1200 large and 4800 small orders, each once
script tests/script.c [0-9]+ checks
LIST
}

# Whether a compiler $1 builds programs with the flags after it, which then run.
can_build() {
  local compiler=$1
  shift
  "$compiler" "$@" -o "$place/empty" -x c - <<<'int main(void) { return 0; }' 2>/dev/null && "$place/empty"
}

try_headers() {
  local header standard
  for header in include/*.h; do
    for standard in c99 c11 c17; do
      "$CC" -std=$standard -D_POSIX_C_SOURCE=200809L "${warnings[@]}" -Wconversion -Wsign-conversion -fsyntax-only \
        -x c "$header" && pass || fail "$header is not $standard"
    done
  done
  command -v "$CXX" >/dev/null || { skip "$CXX not found: skipped C++"; return; }
  for header in include/*.h; do
    for standard in c++11 c++17 c++20; do
      "$CXX" -std=$standard "${warnings[@]}" -fsyntax-only -x c++ "$header" && pass || fail "$header is not $standard"
    done
  done
  "$CXX" -std=c++11 "${warnings[@]}" -Iinclude -o "$place/cxx" tests/cxx.cc "$archive" -pthread || fail "cxx: not built"
  run cxx 'sum 500500'
}

try_programs() {
  local program source wanted
  while read -r program source wanted; do
    build "$program" -O2 "$source" "$archive" && run "$program" "$wanted"
  done < <(programs)
  build waiting tests/waiting.c src/waiting.c && run waiting '[0-9]+ checks'
  build wakes -O2 tests/wakes.c src/*.c "${whole[@]}" && run wakes 'no wake-up is lost'
  build refuse -O2 tests/refuse.c "$archive" $refusing && run refuse "$refused"
  # It asks glibc how much memory is allocated.
  if "$CC" -D_GNU_SOURCE -Werror -fsyntax-only -include malloc.h -x c - 2>/dev/null \
    <<<'size_t used(void) { return mallinfo2().uordblks; }'; then
    build steady -O2 tests/steady.c "$archive" && run steady '2002000 and 4004000 changes, 0 bytes more'
  else
    skip "mallinfo2 not found: skipped the test that memory does not grow"
  fi
}

# Runs programs once more with the sources under a sanitizer: how, its flags, and which programs.
try_sanitizer() {
  local how=$1 flags=$2 only=$3 program source wanted
  read -ra flags <<<"$flags"
  can_build "$CC" "${flags[@]}" || { skip "no $how sanitizer: skipped it"; return; }
  while read -r program source wanted; do
    [[ " $only " == *" $program "* ]] || continue
    build "$program.$how" -O1 -g "${flags[@]}" "$source" src/*.c "${whole[@]}" && run "$program.$how" "$wanted"
  done < <(programs)
}

try_helgrind() {
  local program helgrind=(valgrind --tool=helgrind --suppressions=tests/helgrind.supp -q --error-exitcode=9)
  command -v valgrind >/dev/null || { skip "valgrind not found: skipped helgrind"; return; }
  for program in jobs atomically threads; do
    [ -x "$place/$program" ] || continue
    run "$program" "$(programs | sed -n "s/^$program [^ ]* //p")" "${helgrind[@]}"
  done
  build few -DROUNDS=60 -DEACH=400 -O2 tests/stress.c "$archive" &&
    run few '60 rounds of 24 items, and 1200 received twice' "${helgrind[@]}"
}

# Installs into a folder, and builds from there as a user does.
try_install() {
  local flags
  if ! command -v make >/dev/null || ! command -v pkg-config >/dev/null; then
    skip "make or pkg-config not found: skipped the installation"
    return
  fi
  make -s install PREFIX="$place/prefix" BUILD="${archive%/*}" CORE="${CORE:-}" HEAP="${HEAP:-}" >"$place/said" 2>&1 ||
    { fail "make install: $(tail -n 5 "$place/said")"; return; }
  read -ra flags < <(PKG_CONFIG_PATH=$place/prefix/lib/pkgconfig pkg-config --cflags --libs yalwythen)
  "$CC" -o "$place/installed" examples/pool.c "${flags[@]}" || { fail "pool.c does not build as installed"; return; }
  run installed 'sum 50005000'
}

# The global names of the archive are those that the headers declare, and those of the core that src/ declares.
try_names() {
  local declared defined
  declared=$(sed '/^ \*\|^\/\*/d' include/*.h src/core.h src/yalwythen_script.c |
    grep -o '\byalwythen_[a-z_]*(' | tr -d '(' | sort -u)
  defined=$(nm -g --defined-only "$archive" 2>/dev/null | awk 'NF == 3 { print $3 }' | sort -u)
  if [ "$declared" = "$defined" ]; then pass
  else fail "other names: $(diff <(echo "$declared") <(echo "$defined"))"; fi
}

# The page begins with the first example.
try_page() {
  [ -f ../../docs/C.md ] || return
  if diff <(awk '/^```c$/ { on = 1; next } /^```$/ { if (on) exit } on' ../../docs/C.md) examples/hello.c; then pass
  else fail "docs/C.md does not begin with hello.c"; fi
}

try_headers
try_programs
try_names
try_install
try_page
if [ "${FEW:-0}" != 1 ]; then
  try_sanitizer address '-fsanitize=address -fsanitize=undefined -fno-sanitize-recover=all' \
    'pool readers accounts jobs misuse steps limits threads stress atomically'
  can_build "$CC" -fsanitize=address && build refuse.address -O1 -g -fsanitize=address tests/refuse.c src/*.c \
    "${whole[@]}" $refusing && run refuse.address "$refused"
  try_sanitizer thread -fsanitize=thread 'pool readers jobs threads stress atomically'
  try_helgrind
fi
echo "$passed passed, $failed failed"
[ "$failed" -eq 0 ]
