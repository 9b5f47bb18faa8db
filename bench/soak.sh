#!/usr/bin/env bash
# soak.sh [TRANSACTIONS [SECONDS]]: proves the bench of a service and has it go on for so many transactions, ten million
# where no number is given, but no longer than for so many seconds: eight servers in pairs, over two queues of each
# kind. Prints how long it took, what a transaction took, and the memory that the process held in the midst of each
# tenth, which is not to grow with what was done before. Beside it stands the load of the machine, before and after.
set -eu
root=$(cd "$(dirname "${BASH_SOURCE[0]}")/.." && pwd)
goal=("${1:-10000000}" ${2:+"$2"})
place=$("$root/bench/place.sh" soak yalwythen anyhow)
trap 'rm -rf "$place"' EXIT
cd "$place/crates/bench_soak"
rt run -- 10 >"$place/log" 2>&1 || { grep -v "^statements\|^library\|: proved" "$place/log" | tail -n 20; exit 1; }
load() {
  cut -d' ' -f1 /proc/loadavg
}
before=$(load)
mkfifo "$place/said"
out/bench_soak "${goal[@]}" >"$place/said" &
program=$!
trap 'kill "$program" 2>/dev/null || true; rm -rf "$place"' EXIT
memory=
while read -r line; do
  if [ "$line" = tenth ]; then
    memory+=" $(awk '/^VmRSS:/ { print $2 }' "/proc/$program/status")"
  else
    echo "$line"
  fi
done <"$place/said"
wait "$program"
echo "memory in kB:$memory"
echo "load: $before before, $(load) after"
