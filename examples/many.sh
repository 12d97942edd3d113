#!/usr/bin/env bash
# many.sh: gates a CBOR sequence in pieces side by side, and joins what is said of them to what one run says. docs/SCALE.md tells more.
# COSE_GATE and COSE_SHOW name other programs than those of this repository; with -S the former is at the same absolute path on each machine.
set -u
top=$(cd "$(dirname "$(readlink -f "${BASH_SOURCE[0]}")")/.." && pwd)
usage="usage: examples/many.sh [--try] [-s SIZE] [-j JOBS] [-x] [-S LOGINS] [-c] KEYS AADHEX INPUT PASSED LINES"

help() {
  cat <<HELP
$usage
Gates the CBOR sequence INPUT in pieces side by side. PASSED gets the messages
that pass, and LINES the lines of the gate, as one run writes them.
  --try      with programs that are not proved, built first
  -s SIZE    a piece has at least SIZE bytes, 67108864 if it is left out
  -j JOBS    so many gates at a time, else as many as there are processors; with
             -S on each machine
  -x         by xargs, even if GNU parallel is there
  -S LOGINS  on these machines, as parallel --sshlogin names them (this one is
             localhost): KEYS and the pieces are copied there
  -c         one run too, here, and whether it wrote the same
  -h, --help this text
The status is the gate's, or 5 if the two runs differ, and 6 if INPUT can't be
cut or a piece gave no result.
HELP
}

case ${1-} in
  -h | --help)
    help
    exit
    ;;
  --try)
    shift
    COSE_GATE=$(bash "$top/scripts/try.sh" --path cose-gate) && COSE_SHOW=$(bash "$top/scripts/try.sh" --path cose-show) || exit
    ;;
esac
size=67108864 jobs=$(nproc) compare=no by=xargs logins=
command -v parallel > /dev/null && by=parallel
while getopts s:j:xS:c letter; do
  case $letter in
    s) size=$OPTARG ;;
    j) jobs=$OPTARG each=$OPTARG ;;
    x) by=xargs ;;
    S) logins=$OPTARG ;;
    c) compare=yes ;;
    *) echo "$usage" >&2 && exit 2 ;;
  esac
done
shift $((OPTIND - 1))
if [ $# -ne 5 ]; then
  echo "$usage" >&2
  exit 2
fi
if [ -n "$logins" ] && [ $by = xargs ]; then
  echo "many: -S wants GNU parallel, and no -x" >&2
  exit 2
fi
keys=$1 aad=$2 input=$3 passed=$4 lines=$5

# The programs are proved and built once, before several of them start. As a package has it, they are those in PATH.
[ -e "$top/scripts/proved.sh" ] || COSE_GATE=${COSE_GATE:-$(command -v cose-gate)} COSE_SHOW=${COSE_SHOW:-$(command -v cose-show)}
export CALLED=many
if [ -z "${COSE_GATE-}" ]; then
  bash "$top/scripts/proved.sh" cose-gate cose_gate_cli || exit
  COSE_GATE=$top/crates/cose_gate_cli/out/cose_gate_cli
fi
if [ -z "${COSE_SHOW-}" ]; then
  bash "$top/scripts/proved.sh" cose-show cose_show || exit
  COSE_SHOW=$top/crates/cose_show/out/cose_show
fi
work=$(mktemp -d) || exit 6
trap 'rm -rf "$work"' EXIT

# Says how long a step took.
from=$(date +%s.%N)
say_time() {
  local now
  now=$(date +%s.%N)
  echo "many: $1: $(echo "$from $now" | awk '{ printf "%.1f", $2 - $1 }') s" >&2
  from=$now
}

# Of a damaged input the last piece holds all from its beginning on, and the gate stops there.
"$COSE_SHOW" --cut "$size" "$work/pieces" "$input" 2> "$work/cut.line"
status=$?
if [ $status -ne 0 ] && ! { [ $status -eq 4 ] && grep -q '^cose-show: damaged' "$work/cut.line"; }; then
  cat "$work/cut.line" >&2
  exit 6
fi
# An empty input is one empty piece.
[ -n "$(ls "$work/pieces")" ] || : > "$work/pieces/000001.cbor"
say_time "cut into $(ls "$work/pieces" | wc -l) pieces"

# Gates one piece. Its output, its lines and its status come beside it.
gate_piece() {
  "$COSE_GATE" "$KEYS" "$AADHEX" < "$1" > "$1.passed" 2> "$1.lines"
  echo $? > "$1.status"
}
export -f gate_piece
export COSE_GATE KEYS="$keys" AADHEX="$aad"
if [ -n "$logins" ]; then
  # In the folder of the pieces, so that they have short names there. Each has a folder of its own, which is made and removed.
  by="parallel on $logins" jobs=${each:-as many as processors}
  if ! cp "$keys" "$work/pieces/keys"; then
    echo "many: KEYS can't be read" >&2
    exit 3
  fi
  (cd "$work/pieces" && parallel --will-cite --sshlogin "$logins" ${each:+-j "$each"} --workdir ... --cleanup \
    --transferfile keys --transferfile {} --return {}.passed --return {}.lines --return {}.status \
    "$(printf '%q keys %q' "$COSE_GATE" "$aad")"' < {} > {}.passed 2> {}.lines; echo $? > {}.status' ::: *.cbor)
  rm "$work/pieces/keys"
elif [ $by = parallel ]; then
  parallel --will-cite -j "$jobs" gate_piece ::: "$work"/pieces/*.cbor
else
  printf '%s\0' "$work"/pieces/*.cbor | xargs -0 -n 1 -P "$jobs" bash -c 'gate_piece "$1"' gate_piece
fi
say_time "gated, $jobs at a time by $by"

# Joins the pieces up to the first one in which the gate stopped: its item numbers and offsets are moved up by those of the pieces before it.
status=0 items=0 offset=0 good=0 refused=0
: > "$passed"
: > "$lines"
for piece in "$work"/pieces/*.cbor; do
  if ! [ -s "$piece.status" ]; then
    echo "many: no result came of piece $(basename "$piece")" >&2
    exit 6
  fi
  cat "$piece.passed" >> "$passed" || exit 4
  awk -v items=$items -v offset=$offset '
    /^item [0-9]+ at [0-9]+: / {
      printf "item %.0f at %.0f%s\n", $2 + items, $4 + offset, substr($0, index($0, ": "))
      next
    }
    /^stopped: decode: Syntax\([0-9]+\)$/ {
      split($3, part, /[()]/)
      printf "stopped: decode: Syntax(%.0f)\n", part[2] + offset
      next
    }
    !/^passed [0-9]+, refused [0-9]+$/
  ' "$piece.lines" >> "$lines" || exit 4
  status_here=$(cat "$piece.status")
  if [ "$status_here" -gt 1 ]; then
    status=$status_here
    echo "many: the gate stopped in piece $(basename "$piece"), which begins at $offset; one run stops there too" >&2
    break
  fi
  [ "$status_here" -eq 0 ] || status=1
  good=$((good + $(awk '/^passed / { print $2 + 0 }' "$piece.lines")))
  refused=$((refused + $(awk '/^passed / { print $4 + 0 }' "$piece.lines")))
  items=$((items + $(grep -c '^item ' "$piece.lines")))
  offset=$((offset + $(wc -c < "$piece")))
done
[ "$status" -gt 1 ] || echo "passed $good, refused $refused" >> "$lines"
say_time "joined"

if [ $compare = yes ]; then
  "$COSE_GATE" "$keys" "$aad" < "$input" > "$work/one.passed" 2> "$work/one.lines"
  one=$?
  say_time "one run"
  if [ $one -eq "$status" ] && cmp "$work/one.passed" "$passed" && cmp "$work/one.lines" "$lines"; then
    echo "many: one run writes the same, with the same status $one" >&2
  else
    echo "many: one run writes otherwise (status $one, and $status of the pieces)" >&2
    exit 5
  fi
fi
exit $status
