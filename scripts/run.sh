#!/usr/bin/env bash
# scripts/run.sh NAME CRATE ARGS..: for the scripts cose-gate, cose-ask, cose-pass, cose-sift and cose-show. Runs the program NAME, which is CRATE,
# with these arguments; the standard streams and the exit status are its own. If a source has changed it is proved and built first
# (scripts/proved.sh), which is said on standard error; the status is 70 if that fails. For --help and --version its source is enough.
set -u
top=$(cd "$(dirname "$(readlink -f "${BASH_SOURCE[0]}")")/.." && pwd)
name=$1 crate=$2
shift 2

# Writes what this constant of the program says.
page() {
  exec awk -v start="const $1: " '
    index($0, start) == 1 { inside = 1; sub(/^.*= "/, "") }
    inside && sub(/(\\n)?";$/, "") { if ($0 != "") print; exit }
    inside && $0 != "\\"
  ' "$(grep -l '^const HELP: ' "$top/crates/$crate"*/src/*.rt)"
}

for word; do
  case $word in
    --) break ;;
    -h | --help) page HELP ;;
    --version) page VERSION ;;
  esac
done
bash "$top/scripts/proved.sh" "$name" "$crate" || exit
exec "$top/crates/$crate/out/$crate" "$@"
