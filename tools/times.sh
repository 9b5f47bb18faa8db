#!/usr/bin/env bash
# times.sh FILE COMMAND..: runs a command that proves crates, such as `rt ci`, and writes to FILE what each crate
# took: its proof, its tests and its edits in seconds of processor time and, in brackets, from the first process
# to the last. The status is the command's. It looks at the provers once a second, so it misses what each does
# in its last second.
set -u

declare -A used begun ended seen
crates=()

# Notes the provers below a process: utime, stime and those of their children are fields 14 to 17 of `stat`.
look() {
  local pid words line stat crate part key
  for pid in $(pgrep -x rattle -P "$1"); do
    mapfile -d '' -t words 2>/dev/null <"/proc/$pid/cmdline" || continue
    read -r line 2>/dev/null <"/proc/$pid/stat" || continue
    [ "${words[2]:-}" = --crate-name ] || continue
    crate=${words[3]}
    case " ${words[*]} " in
      *" --test "*) part=tests ;;
      *" --incremental "*) part=edits ;;
      *) part=proof ;;
    esac
    read -ra stat <<<"${line##*) }"
    key=$crate.$part
    [ -n "${begun[$key]:-}" ] || begun[$key]=$SECONDS
    ended[$key]=$SECONDS
    used[$pid.$key]=$((stat[11] + stat[12] + stat[13] + stat[14]))
    [ -n "${seen[$crate]:-}" ] || crates+=("$crate")
    seen[$crate]=1
  done
}

# part CRATE PART: the processor time of a crate's proof, tests or edits in hundredths of a second
part() {
  local key sum=0
  for key in "${!used[@]}"; do
    [[ $key = *".$1.$2" ]] && sum=$((sum + used[$key]))
  done
  echo "$sum"
}

tell() {
  local crate kind hundredths of_crate all=0 line
  printf '%-16s %14s %14s %14s %10s\n' seconds proof tests edits all
  for crate in "${crates[@]}"; do
    of_crate=0
    line=
    for kind in proof tests edits; do
      hundredths=$(part "$crate" "$kind")
      of_crate=$((of_crate + hundredths))
      if [ -n "${begun[$crate.$kind]:-}" ]; then
        line+=$(printf ' %14s' "$((hundredths / 100)) ($((ended[$crate.$kind] - begun[$crate.$kind] + 1)))")
      else
        line+=$(printf ' %14s' -)
      fi
    done
    all=$((all + of_crate))
    printf '%-16s%s %10s\n' "$crate" "$line" "$((of_crate / 100))"
  done
  printf '%-16s %44s %10s\n' all '' "$((all / 100)) ($SECONDS)"
}

file=$1
shift
"$@" &
command=$!
while kill -0 "$command" 2>/dev/null; do
  look "$command"
  sleep 1
done
wait "$command"
status=$?
tell >"$file"
exit "$status"
