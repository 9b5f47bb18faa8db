#!/usr/bin/env bash
# Runs each script of examples/ and compares what it prints with NAME.report, and its status with
# NAME.status, or 0 where there is no such file: by `replay` of both programs, and where the report can't depend on
# the order of the threads by `run` too. Of examples/race.json, where it can, what stays the same is compared.
# If there is NAME.explored, compares what `explore` of both programs prints with it, and the status with
# NAME.explored-status or 0.
set -u
cd "$(dirname "${BASH_SOURCE[0]}")/.." || exit 1

passed=0
failed=0
got=$(mktemp) || exit 1
trap 'rm -f "$got"' EXIT

# Counts the script $1 by the word $2, whose report is compared as the command $3 passes it on, by the program $4 or
# `./chanrun`.
compare() {
  local wanted status report kind=report
  wanted=$(cat "$1.status" 2>/dev/null || echo 0)
  if [ "$2" = explore ]; then
    kind=explored
    wanted=$(cat "$1.explored-status" 2>/dev/null || echo 0)
  fi
  timeout 60 "${4:-./chanrun}" "$2" <"$1.json" >"$got"
  status=$?
  report=$("$3" <"$1.$kind")
  if [ "$status" = "$wanted" ] && [ "$("$3" <"$got")" = "$report" ]; then
    passed=$((passed + 1))
  else
    echo "$1 by $2: status $status, expected $wanted"
    diff "$1.$kind" "$got"
    failed=$((failed + 1))
  fi
}

# Which of the seats took an item is left out, and so is the order of the lines.
taken() {
  sed -E 's/^seat [0-9]+ txn [0-9]+ //' | sort
}

# `./chanrun` runs the small program only while the whole one isn't built.
small=crates/chanrun_replay/out/chanrun_replay
[ -x "$small" ] || tools/build.py "$PWD/$small" </dev/null >/dev/null
for script in examples/*.json; do
  compare "${script%.json}" replay cat
  compare "${script%.json}" replay cat "$small"
  [ -e "${script%.json}.explored" ] || continue
  compare "${script%.json}" explore cat
  compare "${script%.json}" explore cat "$small"
done
"$small" run <examples/hello.json >"$got"
if [ $? -eq 2 ] && [ "$(cat "$got")" = "usage: chanrun check|replay|run < script" ]; then
  passed=$((passed + 1))
else
  echo "$small runs a script in threads"
  failed=$((failed + 1))
fi
for name in hello pipeline ping-pong deadlock select-default; do
  compare "examples/$name" run cat
done
compare examples/race run taken

echo "$passed passed, $failed failed"
[ "$failed" -eq 0 ]
