#!/usr/bin/env bash
# Runs the scripts of scripts/ and some that it makes itself, and compares the program's answers with what
# is wanted. In scripts/ there are:
#
#   NAME.json    a script, byte for byte. NAME.report is what `replay` prints of it and NAME.status its
#                status, or 0 where there is no such file; so NAME.check and NAME.check-status for `check`.
#                Where the script has one seat or is refused, and of rounds.json, `run` prints what
#                `replay` does.
#   NAME.cases   a line for each script: what `check` prints, a tab and the script. The status is 0 with an
#                `ok` line and 1 with the line of a fault, which `replay`, `explore` and `run` print too. '#'
#                begins a comment.
#   NAME.words   a line for each call that is refused: what it shows, and each word of it behind a tab. The
#                answer is the usage line with status 2, and nothing is read.
#
# Each script, case and call counts by itself. The last line is 'N passed, M failed'.
set -u
export LC_ALL=C
cd "$(dirname "${BASH_SOURCE[0]}")/.." || exit 1

program=crates/chanrun/out/chanrun
passed=0
failed=0

# Builds the program where it has to be, and is refused for want of words.
./chanrun >/dev/null </dev/null
if [ $? -ne 2 ] || [ ! -x "$program" ]; then
  echo "scripts.sh: $program not found"
  echo "0 passed, 1 failed"
  exit 1
fi

# The answer to these words, within a minute: what the program prints, and its status in a line behind it.
answer() {
  timeout 60 "$program" "$@"
  echo "status $?"
}

# Counts what is named $1: the answer $2 is wanted, and $3 was got.
compare() {
  if [ "$2" = "$3" ]; then
    passed=$((passed + 1))
  else
    echo "$1: unexpected output (expected <, got >)"
    diff <(echo "$2") <(echo "$3") | cut -c 1-200 | head -n 20
    failed=$((failed + 1))
  fi
}

# What is named $1: the line $2 is the answer of `check` to the script $3, and of `replay`, `explore` and `run` where it
# is a fault.
compare_line() {
  case $2 in
    ok*) compare "$1" "$2"$'\nstatus 0' "$(printf '%s' "$3" | answer check)" ;;
    *) compare "$1" "$(for _ in 1 2 3 4; do printf '%s\nstatus 1\n' "$2"; done)" \
      "$(for word in check replay explore run; do printf '%s' "$3" | answer "$word"; done)" ;;
  esac
}

# The answer of the script $1 to the word $2, which is in the file with the ending $3, and the status in that
# with the ending $4.
compare_files() {
  local status
  status=$(cat "$1.$4" 2>/dev/null || echo 0)
  compare "$1: $2" "$(cat "$1.$3"; echo "status $status")" "$(answer "$2" <"$1.json")"
}

for script in scripts/*.json; do
  name=${script%.json}
  if [ ! -e "$name.report" ] && [ ! -e "$name.check" ]; then compare "$name" "a file of its answer" "none"; fi
  if [ -e "$name.report" ]; then
    compare_files "$name" replay report status
    case $(answer check <"$script") in
      *' 1 seats '* | fault*) compare_files "$name" run report status ;;
      *) [ "$name" != scripts/rounds ] || compare_files "$name" run report status ;;
    esac
  fi
  if [ -e "$name.check" ]; then compare_files "$name" check check check-status; fi
done

for file in scripts/*.cases; do
  number=0
  while IFS= read -r line; do
    number=$((number + 1))
    case $line in
      '#'*) ;;
      *$'\t'*) compare_line "$file, line $number" "${line%%$'\t'*}" "${line#*$'\t'}" ;;
      *) compare "$file, line $number" "a tab" "none" ;;
    esac
  done <"$file"
done

usage='usage: chanrun check|replay|run < script'
unread=scripts/write_then_read.json
for file in scripts/*.words; do
  while IFS= read -r line; do
    mapfile -d $'\t' -t words < <(printf '%s\t' "$line")
    compare "$file: ${words[0]}" "$usage"$'\nstatus 2\n'"$(cat "$unread")" \
      "$({ answer "${words[@]:1}"; cat; } <"$unread")"
  done <"$file"
done

# The text $1, $2 times.
repeated() {
  awk -v text="$1" -v count="$2" 'BEGIN { while (count-- > 0) printf "%s", text }'
}

# The text $1, $2 times, with commas.
listed() {
  printf '%s' "$1"
  repeated ",$1" $(($2 - 1))
}

# A script of one queue and these seats.
on_a_queue() {
  printf '{"version":1,"channels":[{"kind":"TQueue"}],"seats":%s}' "$1"
}

one_transaction='ok 1 channels 1 seats 1 transactions'
json='fault: not JSON'

compare_line "refused_scripts, the most bytes" "$json" "$(repeated ' ' 1048576)"
compare_line "refused_scripts, a byte more" "fault: script too large" "$(repeated ' ' 1048577)"
compare_line "a_mebibyte_in_one_string" "fault: shape" "\"$(repeated a 1048574)\""

# One transaction of one `or` that is nested so deep, each by one branch.
nested() {
  on_a_queue "[[[$(repeated '["or",[' $(($1 - 1)))[\"or\"]$(repeated ']]' $(($1 - 1)))]]]"
}
compare_line "too_deep, 8" "$one_transaction" "$(nested 8)"
for depth in 9 40 62; do
  compare_line "too_deep, $depth" "fault: seat 0 txn 0: too deep" "$(nested "$depth")"
done
compare_line "too_deep, 63" "$json" "$(nested 63)"
for depth in 200 10000; do
  brackets=$(repeated '[' "$depth")
  compare_line "too_deep, $depth brackets" "$json" "$brackets"
  compare_line "too_deep, $depth brackets that are closed" "$json" "$brackets$(repeated ']' "$depth")"
done

for name in too_long limits_of_transactions; do
  compare_line "$name, 64" "$one_transaction" "$(on_a_queue "[[[$(listed '["read",0]' 64)]]]")"
  compare_line "$name, 65" "fault: seat 0 txn 0: too long" "$(on_a_queue "[[[$(listed '["read",0]' 65)]]]")"
done

# How many transactions of one write fit into a mebibyte.
count=65532
script=$(on_a_queue "[[$(listed '[["write",0,1]]' $count)]]")
report=$(awk -v count=$count 'BEGIN {
  for (i = 0; i < count; i++) printf "seat 0 txn %d kept: done\n", i
  printf "chan 0 TQueue open put %d took 0 other 0\nchan 0 reader 0 left:", count
  for (i = 0; i < count; i++) printf " w%d@0=1", i
  printf "\nend done\nstatus 0\n"
}')
compare "a_mebibyte_of_transactions, bytes" "at most 1048576" \
  "$([ ${#script} -le 1048576 ] && echo "at most 1048576" || echo ${#script})"
compare_line "a_mebibyte_of_transactions: check" "ok 1 channels 1 seats $count transactions" "$script"
compare "a_mebibyte_of_transactions: replay" "$report" "$(printf '%s' "$script" | answer replay)"

# Each beginning of these scripts is no JSON.
for name in clone_takes_the_put_back nested_alternatives; do
  script=$(cat "scripts/$name.json")
  for word in check replay run; do
    others=
    for ((length = 0; length < ${#script}; length++)); do
      got=$(printf '%s' "${script:0:length}" | answer "$word")
      if [ "$got" != "$json"$'\nstatus 1' ]; then others="$others $length"; fi
    done
    compare "every_proper_prefix of $name: $word, the lengths with another answer" "" "$others"
  done
done

# Spaces without end, from a reader that isn't at its end.
for word in check replay run; do
  compare "spaces_without_end: $word" "fault: script too large"$'\nstatus 1' \
    "$(yes ' ' 2>/dev/null | tr -d '\n' 2>/dev/null | answer "$word")"
done

# A folder can't be read, and what is full or closed takes nothing.
for word in check replay run; do
  compare "failing_reader: $word" "fault: read failed"$'\nstatus 1' "$(answer "$word" <.)"
  compare "full_writer: $word" "status 1" "$("$program" "$word" <"$unread" >/dev/full; echo "status $?")"
  compare "closed_writer: $word" "status 1" "$("$program" "$word" <"$unread" >&-; echo "status $?")"
done

echo "$passed passed, $failed failed"
[ "$failed" -eq 0 ]
