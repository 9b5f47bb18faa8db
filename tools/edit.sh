#!/usr/bin/env bash
# edit.sh CRATE NAME: applies the mutant NAME.edit, of crates/CRATE/must-fail/ or crates/CRATE/edits/, in a copy of the
# crate and checks it there, over what earlier checks left of it and of the crates below it. Prints what the check says;
# the status is 0 if it rejects the mutant.
set -u
root=$(cd "$(dirname "${BASH_SOURCE[0]}")/.." && pwd) || exit 1
crate=${1:?the crate}
name=${2:?the name of the mutant}
for folder in must-fail edits; do
  edit=$root/crates/$crate/$folder/$name.edit
  [ ! -f "$edit" ] || break
done
[ -f "$edit" ] || { echo "edit.sh: crates/$crate has no mutant $name" >&2; exit 2; }
place=$("$root/tools/scratch.sh" "$crate") || exit 1
trap 'rm -rf "$place"' EXIT
cd "$place/crates/$crate" || exit 1
# The check of the mutant writes there.
if [ -d "$root/crates/$crate/out/incremental" ]; then cp -a "$root/crates/$crate/out/incremental" out || exit 1; fi
"$root/tools/edit_files.py" "$edit" . || exit 2
if rt check; then
  echo "survived: the checker accepts the mutant"
  exit 1
fi
echo "killed: the checker rejects the mutant"
