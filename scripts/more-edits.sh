#!/bin/sh
# more-edits.sh [CRATE..]: tries the edits of edits/CRATE/, which the prover must refuse and which `rt ci` doesn't try, of these crates or
# of all. It copies these crates and the libraries below them into a scratch folder, with the lines of crates.txt that name them, puts the
# edits into must-fail/ there in place of all others, and runs `rt check` in each of these crates, since of one that isn't proved every
# edit would be refused, and then `rt must-fail`. What `rt check` and `rt lib` keep in out/ is copied too: if a library has changed
# since, it is built anew. It prints each edit that is not refused, and last how many were; status 1 if one is not. docs/MAINTAINING.md
# says when it is run.
set -eu
cd "$(dirname "$0")/.."
[ $# -gt 0 ] || set -- $(ls edits)
for crate; do
  [ -d "edits/$crate" ] || { echo "more-edits.sh: no edits/$crate" >&2; exit 2; }
done
folder=$(mktemp -d "${TMPDIR:-/tmp}/more-edits.XXXXXX")
trap 'rm -rf "$folder"' EXIT
trap 'exit 130' INT TERM
mkdir "$folder/crates"
cp HANDLES "$folder"
# The lines of crates.txt that name these crates and those below them. A library that has no line is the kit's.
awk -v wanted="$*" '
  function take(name,  n, i, of) {
    if (!(name in below) || name in is_taken) return
    is_taken[name] = 1
    n = split(below[name], of)
    for (i = 1; i <= n; i++) take(of[i])
  }
  { sub(/#.*/, "") }
  /:/ { name = $1; sub(/:.*/, "", name); names[++count] = name; lines[name] = $0; sub(/^[^:]*:/, ""); below[name] = $0 }
  END {
    n = split(wanted, of)
    for (i = 1; i <= n; i++) take(of[i])
    for (i = 1; i <= count; i++) if (names[i] in is_taken) print lines[names[i]]
  }
' crates.txt > "$folder/crates.txt"
for name in $(sed 's/[: ].*//' "$folder/crates.txt"); do
  mkdir -p "$folder/crates/$name/out"
  for part in src specs proofs out/rlib; do
    [ ! -d "crates/$name/$part" ] || cp -R "crates/$name/$part" "$folder/crates/$name/$part"
  done
done
for crate; do
  cp -R "edits/$crate" "$folder/crates/$crate/must-fail"
  [ ! -d "crates/$crate/out/incremental" ] || cp -R "crates/$crate/out/incremental" "$folder/crates/$crate/out"
done
cd "$folder"
status=0
for crate; do
  ( cd "crates/$crate" && rt check ) > check.log 2>&1 || { status=1; echo "$crate: NOT PROVED"; cat check.log; } >> edits.log
done
rt must-fail "$@" >> edits.log 2>&1 || status=1
if grep -E 'NOT REFUSED|BAD EDIT|NOT TRIED|NOT PROVED' edits.log; then status=1; fi
[ "$status" = 0 ] || cp edits.log "${TMPDIR:-/tmp}/more-edits.log"
echo "$(find crates/*/must-fail -name '*.edit' | wc -l) edits in $# crates: $(grep -c 'refused, as it must be' edits.log) refused"
exit $status
