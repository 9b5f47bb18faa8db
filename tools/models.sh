#!/usr/bin/env bash
# Searches the models of models/ with Spin, in a folder that is removed, as many at a time as there are processors.
# A search of a right model must end without an error. A search of a wrong model (-DWRONG=n) must find one. Each
# function that a model names must be in the file that it names. The last line is 'N passed, M failed'.
set -u
cd "$(dirname "${BASH_SOURCE[0]}")/.." || exit 1

# What each search expects, its model, and what it sets: models/README.md says what that is.
searches='
none wait_queue -DTXNS=1 -DKINDS=5
none wait_queue -DTXNS=1 -DKINDS=5 -DTIMES=false -DSPURIOUS=true
none wait_queue -DTXNS=1 -DKINDS=20 -DTIMES=false
none wait_queue -DTXNS=1 -DKINDS=69 -DTIMES=false
none wait_queue -DTXNS=2 -DKINDS=5 -DSEATS=2
none wait_queue -DTXNS=1 -DKINDS=255 -DSEATS=2
none line_lock
none line_lock -DROUNDS=1 -DSPURIOUS=true
none line_lock -DLINES=3 -DROUNDS=1
none waiting -DMENU0=511
none waiting -DMENU0=R0 -DWAYS0=15 -DMENU2=W0 -DWAYS2=THREAD -DOPS=2
none waiting -DMENU0=R1+W1 -DWAYS0=THREAD+DROPPED -DWAYS1=THREAD -DOPS=2
none waiting -DMENU0=R0 -DWAYS0=15 -DWAYS2=THREAD -DMENU3=W0+DROP -DSEATS=4
none waiting -DMENU0=R0+PEEK+SELECT -DWAYS0=THREAD+DROPPED -DMENU2=W0+DROP -DWAYS2=THREAD -DSENDERS=2 -DSEATS=4
none waiting -DMENU0=SELECT+MOVE+TWICE -DWAYS0=THREAD+DROPPED -DMENU1=R0+R1 -DMENU2=W0+W1 -DWAYS2=THREAD -DSEATS=4
error wait_queue -DWRONG=1 -DTXNS=1 -DKINDS=5 -DTIMES=false
error wait_queue -DWRONG=2 -DTXNS=1 -DKINDS=20 -DTIMES=false
error wait_queue -DWRONG=3 -DTXNS=1 -DKINDS=5 -DTIMES=false
error wait_queue -DWRONG=4 -DTXNS=1 -DKINDS=69 -DTIMES=false
error wait_queue -DWRONG=6 -DTXNS=1 -DKINDS=5 -DTIMES=false
error wait_queue -DWRONG=7 -DTXNS=1 -DKINDS=5 -DTIMES=false
error wait_queue -DWRONG=8 -DTXNS=1 -DKINDS=5 -DTIMES=false
error wait_queue -DWRONG=10 -DTXNS=1 -DKINDS=27 -DTIMES=false
error wait_queue -DWRONG=11 -DTXNS=1 -DKINDS=5 -DTIMES=false
error wait_queue -DWRONG=12 -DTXNS=2 -DKINDS=5 -DSEATS=2
error wait_queue -DWRONG=13 -DTXNS=1 -DKINDS=5
error wait_queue -DWRONG=14 -DTXNS=1 -DKINDS=5
error wait_queue -DWRONG=15 -DTXNS=1 -DKINDS=5
error line_lock -DWRONG=1
error line_lock -DWRONG=2
error line_lock -DWRONG=3
error line_lock -DWRONG=4
error line_lock -DWRONG=5
error line_lock -DWRONG=6
error waiting -DWRONG=1 -DMENU0=R0 -DMENU2=W0 -DWAYS0=DROPPED -DWAYS1=THREAD
error waiting -DWRONG=2 -DMENU0=R0 -DMENU2=W0 -DWAYS0=TIMED -DWAYS1=THREAD
error waiting -DWRONG=3 -DMENU0=R0 -DMENU2=W0
error waiting -DWRONG=4 -DMENU0=R0 -DMENU2=W0
error waiting -DWRONG=5 -DMENU0=R0 -DMENU2=W0
error waiting -DWRONG=6 -DMENU0=SELECT -DMENU1=W0 -DMENU2=W1+R1
error waiting -DWRONG=7 -DMENU0=R0 -DMENU2=W0+R0 -DOPS=2
error waiting -DWRONG=8 -DMENU0=SELECT -DMENU1=R1 -DMENU2=W0 -DMENU3=W1 -DSEATS=4
error waiting -DWRONG=9 -DMENU0=PEEK -DMENU1=R0 -DMENU2=W0
error waiting -DWRONG=10 -DMENU0=R0 -DMENU2=DROP
error waiting -DWRONG=11 -DMENU0=R1 -DMENU1=W1
error waiting -DWRONG=12 -DMENU0=TWICE -DMENU1=R0 -DMENU3=W0 -DSEATS=4
error waiting -DWRONG=13 -DMENU0=R0 -DMENU2=W0
error waiting -DWRONG=14 -DMENU0=R0 -DMENU2=W0 -DWAYS0=TIMED -DWAYS1=THREAD
error waiting -DWRONG=15 -DMENU0=R0 -DMENU2=W0
'

# One search, in a folder of its own: ends with 0 if it found what it expects.
search() {
  local place=$1 expected=$2 model=$3 level=-O1 folder log found states
  shift 3
  # An error is found at once: building the search takes longer.
  if [ "$expected" = error ]; then level=-O0; fi
  folder=$(mktemp -d "$place/XXXXXX") || return 1
  log=$folder/log
  cp "models/$model.pml" "$folder"
  (cd "$folder" && spin -a "$@" "$model.pml" && cc "$level" -DSAFETY -DCOLLAPSE -DMEMLIM=2000 -o pan pan.c) \
    >"$log" 2>&1 || { echo "$model $*: cannot be built"; cat "$log"; return 1; }
  (cd "$folder" && timeout 120 ./pan -m400000) >"$log" 2>&1
  states=$(grep -o '[0-9.e+]* states, stored' "$log" | head -n 1)
  if grep -q 'errors: [1-9]' "$log"; then
    found=error
  elif grep -q 'errors: 0' "$log" && ! grep -q 'not completed\|too small' "$log"; then
    found=none
  else
    found='no whole search'
  fi
  echo "$model${*:+ $*}: ${states%, stored}, $found expected $expected" |
    sed 's/error expected error/an error, as expected/; s/none expected none/no error/'
  rm -rf "$folder"
  [ "$found" = "$expected" ]
}

if [ "${1:-}" = --search ]; then
  shift
  search "$@"
  exit
fi

for tool in spin cc; do
  if ! command -v "$tool" >/dev/null; then
    echo "models.sh: $tool not found: skipped the models"
    echo '0 passed, 0 failed'
    exit 0
  fi
done

place=$(mktemp -d) || exit 1
trap 'rm -rf "$place"' EXIT
passed=0
failed=0

for model in models/*.pml; do
  missing=0
  while IFS=: read -r file functions; do
    for function in ${functions//,/ }; do
      if ! grep -qsE "fn $function\b" "$file"; then
        echo "models.sh: $model names $function of $file, which is not there"
        missing=1
      fi
    done
  done < <(grep -oE '(crates|bindings/rust/src)/[a-z_/]+\.r[ts]: [a-z_, ]+' "$model")
  if [ "$missing" -eq 0 ]; then passed=$((passed + 1)); else failed=$((failed + 1)); fi
done

while read -r status line; do
  echo "$line"
  if [ "$status" -eq 0 ]; then passed=$((passed + 1)); else failed=$((failed + 1)); fi
done < <(grep . <<<"$searches" |
  xargs -P "$(nproc)" -I{} bash -c 'said=$("$0" --search "$1" $2); echo "$? ${said//$'"'\\n'"'/; }"' \
    tools/models.sh "$place" {})

echo "$passed passed, $failed failed"
[ "$failed" -eq 0 ]
