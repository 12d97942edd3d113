#!/usr/bin/env bash
# scripts/try.sh PROGRAM ARGS..: builds cose-gate, cose-ask, cose-pass, cose-sift or cose-show without proving it (docs/TIMES.md, "Costs"), and runs it. Standard
# input and output and the exit status are the program's; a line on standard error says that it is not proved. It is kept in out/unproved, and
# built again if a source is newer. Of cose-verify the two programs that it runs are built so. scripts/try.sh --path PROGRAM builds it and
# prints its path. Status 70 if it can't be built; what is said of a missing kit begins with CALLED, or with PROGRAM.
# The program is the one that `rt try` runs: not optimized, and it ends at an index out of range, a sum that wraps, or a bad access. It takes
# some hundred times as long as the proved one, and doesn't run under `ulimit -v`.
set -u
top=$(cd "$(dirname "$(readlink -f "${BASH_SOURCE[0]}")")/.." && pwd)

only_path=
if [ "${1-}" = --path ]; then
  only_path=yes
  shift
fi
name=${1-}
case $name in
  cose-gate | cose-ask | cose-pass) crate=cose_${name#cose-}_cli ;;
  cose-sift) crate=cose_sift ;;
  cose-show) crate=cose_show ;;
  cose-verify) ;;
  *)
    echo "usage: scripts/try.sh [--path] PROGRAM ARGS.., and PROGRAM is cose-gate, cose-ask, cose-pass, cose-sift, cose-show or cose-verify" >&2
    exit 2
    ;;
esac
shift
if [ "$name" = cose-verify ]; then
  for it in ask pass; do
    CALLED=$name bash "$0" --path cose-$it > /dev/null || exit
  done
  PATH=$top/out/unproved:$PATH exec "$top/tools/cose-verify" "$@"
fi
program=$top/out/unproved/$name

# `rt try` keeps no program. It is run from a copy of the kit, of links, whose linker also puts what it links beside it.
build() {
  local kit it to
  kit=${RT_KIT:-$(dirname "$(dirname "$(readlink -f "$(command -v rt)")")")}
  work=$(mktemp -d) && trap 'rm -rf "$work"' EXIT && mkdir -p "$work/bin" "$work/toolchain/bin" "${program%/*}" || return
  for it in "$kit"/* "$kit"/bin/* "$kit"/toolchain/* "$kit"/toolchain/bin/*; do
    to=$work/${it#"$kit/"}
    [ -d "$to" ] || ln -s "$it" "$to"
  done
  # rt finds its kit by its own place.
  cp --remove-destination "$kit/bin/rt" "$kit/bin/rtlib.py" "$work/bin/"
  rm "$work/toolchain/bin/ld.lld"
  cat > "$work/toolchain/bin/ld.lld" <<LINKER
#!/bin/sh
"$kit/toolchain/bin/ld.lld" "\$@" || exit
while [ "\$1" != -o ]; do shift; done
cp "\$2" "$work/linked"
LINKER
  chmod +x "$work/toolchain/bin/ld.lld"
  : > "$work/begun"
  (cd "$top/crates/$crate" && "$work/bin/rt" try) < /dev/null > "$work/log" 2>&1
  if ! [ -s "$work/linked" ]; then
    tail -n 20 "$work/log" >&2
    return 1
  fi
  # A source that changes while it is built is newer.
  touch -r "$work/begun" "$work/linked" && mv "$work/linked" "$program"
}

if ! [ -x "$program" ] || [ -n "$(find "$top"/crates/*/src "$top/crates.txt" -type f -newer "$program" -print -quit)" ]; then
  if [ -z "${RT_KIT-}" ] && ! command -v rt > /dev/null; then
    echo "${CALLED:-$name}: rt isn't in PATH: it comes with Rattle's kit, KIT/bin" >&2
    exit 70
  fi
  echo "$name: building it, in about a CPU minute" >&2
  (build) || {
    echo "$name: the build failed" >&2
    exit 70
  }
fi
echo "$name: NOT PROVED" >&2
if [ -n "$only_path" ]; then
  echo "$program"
  exit
fi
ASAN_OPTIONS=allocator_may_return_null=1 exec "$program" "$@"
