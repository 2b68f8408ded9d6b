#!/bin/sh
# Edits that the compiler itself must refuse, before any proof: crates/NAME/refused/*.edit, each of five lines: `file:` (below
# crates/NAME), `old:` (a text that stands once in that file), `new:`, `error:` (the name of the error that must come) and `says:`
# (words of that error's message).
# Each edit is applied to a copy of the crates, and that copy is checked up to its first error. That the crates compile without an edit
# is shown by `rt ci`. Ends with status 1 where an edit is not refused by that error.
set -eu
repo=$(cd "$(dirname "$0")/.." && pwd)
work=$(mktemp -d)
trap 'rm -rf "$work"' EXIT
mkdir "$work/crates"
cp "$repo/crates.txt" "$work/"
for crate in "$repo"/crates/*; do
  mkdir "$work/crates/$(basename "$crate")"
  for part in src specs proofs; do
    [ ! -d "$crate/$part" ] || cp -R "$crate/$part" "$work/crates/$(basename "$crate")/"
  done
done
line() { sed -n "s/^$1: //p" "$2"; }

tried=0
failed=0
for edit in "$repo"/crates/*/refused/*.edit; do
  name=$(basename "$(dirname "$(dirname "$edit")")")
  file=$work/crates/$name/$(line file "$edit")
  cp "$file" "$work/kept"
  OLD=$(line old "$edit") NEW=$(line new "$edit") awk '
    BEGIN { old = ENVIRON["OLD"]; new = ENVIRON["NEW"] }
    { at = index($0, old); if (at) { hits++; $0 = substr($0, 1, at - 1) new substr($0, at + length(old)) } print }
    END { if (hits != 1) exit 1 }' "$work/kept" >"$file" || { echo "$edit: the old text does not stand once"; exit 1; }
  tried=$((tried + 1))
  if ! (cd "$work/crates/$name" && timeout 600 rt check) >"$work/log" 2>&1 && grep -F "error[$(line error "$edit")]" "$work/log" | grep -qF "$(line says "$edit")"; then
    echo "refused: $name $(basename "$edit" .edit): $(line error "$edit")"
  else
    echo "NOT refused by $(line error "$edit"): $edit"
    grep error "$work/log" | head -3
    failed=1
  fi
  cp "$work/kept" "$file"
done
[ "$tried" -gt 0 ] || { echo "refused: no edits"; exit 1; }
exit "$failed"
