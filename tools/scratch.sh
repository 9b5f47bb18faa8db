#!/usr/bin/env bash
# scratch.sh CRATE..: makes a folder with a copy of these crates and of those below them, and prints its path. What was
# built of them is there too, by hard links where the file system has them: rt and the prover read it, or put another
# file in its place, and never write into it. The caller removes the folder.
set -eu
root=$(cd "$(dirname "${BASH_SOURCE[0]}")/.." && pwd)

declare -A uses chosen
while read -r line; do
  if [[ $line =~ ^([a-z0-9_]+)[^#:]*:([^#]*) ]]; then uses[${BASH_REMATCH[1]}]=${BASH_REMATCH[2]}; fi
done <"$root/crates.txt"

choose() {
  local name
  for name in "$@"; do
    # A library of the toolchain has no line.
    if [ -n "${uses[$name]+listed}" ] && [ -z "${chosen[$name]:-}" ]; then
      chosen[$name]=1
      choose ${uses[$name]}
    fi
  done
}

choose "$@"
# A hard link leads nowhere else than to the same file system.
place=$(mktemp -d "$root/.git/scratch.XXXXXX" 2>/dev/null) || place=$(mktemp -d)
trap '[ $? -eq 0 ] || rm -rf "$place"' EXIT
cp "$root/HANDLES" "$place"
for name in "${!chosen[@]}"; do
  mkdir -p "$place/crates/$name/out"
  grep -E "^$name[: ]" "$root/crates.txt" >>"$place/crates.txt"
  for part in src specs proofs; do
    if [ -d "$root/crates/$name/$part" ]; then cp -a "$root/crates/$name/$part" "$place/crates/$name"; fi
  done
  if [ -e "$root/crates/$name/out/rlib/stamp" ]; then
    cp -al "$root/crates/$name/out/rlib" "$place/crates/$name/out" 2>/dev/null ||
      cp -a "$root/crates/$name/out/rlib" "$place/crates/$name/out"
  fi
done
echo "$place"
