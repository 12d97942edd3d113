#!/usr/bin/env bash
# scripts/vendor.sh FOLDER [CRATE..]: copies these crates, or coset, and all crates below them into the repository FOLDER: to FOLDER/crates, with
# their lines in FOLDER/crates.txt, and LICENSE and NOTICE beside them. A copy that this made before is replaced; VENDORED in it has the commit that
# it is of. Edits of must-fail/ and rows are left out. If another crate has such a name nothing is copied, and the status is 1.
set -eu
top=$(cd "$(dirname "$(readlink -f "${BASH_SOURCE[0]}")")/.." && pwd)
if [ $# -eq 0 ] || [ -z "$1" ] || [ "${1#-}" != "$1" ]; then
  echo "usage: scripts/vendor.sh FOLDER [CRATE..]" >&2
  exit 2
fi
to=$(realpath -m "$1")
shift
[ "$to" != "$top" ] || { echo "vendor.sh: $to is this repository" >&2; exit 2; }

# The crates, each with its line; one of the kit has none.
declare -A lines=()
found=()
[ $# -gt 0 ] || set -- coset
for it; do
  grep -qE "^$it( staticlib)?:" "$top/crates.txt" || { echo "vendor.sh: no crate $it" >&2; exit 2; }
done
while [ $# -gt 0 ]; do
  it=$1
  shift
  if [ -z "${lines[$it]-}" ] && line=$(grep -E "^$it( staticlib)?:" "$top/crates.txt"); then
    lines[$it]=$line
    found+=("$it")
    # shellcheck disable=SC2086
    set -- "$@" ${line#*:}
  fi
done
for it in "${found[@]}"; do
  if [ -e "$to/crates/$it" ] && [ ! -e "$to/crates/$it/VENDORED" ]; then
    echo "vendor.sh: $to/crates/$it isn't a copy that this made" >&2
    exit 1
  fi
done

mkdir -p "$to/crates"
touch "$to/crates.txt"
for it in "${found[@]}"; do
  rm -rf "$to/crates/$it"/{src,specs,proofs}
  mkdir -p "$to/crates/$it"
  (cd "$top/crates/$it" && cp -r src $(ls -d specs proofs *.md 2>/dev/null) "$to/crates/$it")
  git -C "$top" rev-parse HEAD > "$to/crates/$it/VENDORED" 2>/dev/null || echo unknown > "$to/crates/$it/VENDORED"
  sed -i "/^$it\( staticlib\)\?:/d" "$to/crates.txt"
  echo "${lines[$it]}" >> "$to/crates.txt"
done
cp "$top/LICENSE" "$top/NOTICE" "$to/crates"
echo "vendor.sh: ${#found[@]} crates in $to/crates"
