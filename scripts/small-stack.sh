#!/usr/bin/env bash
# small-stack.sh [--least]: whether the programs and the library go through the messages of worst-messages.py, in which as much lies inside
# one another as the limits let through, in the stack that is promised. It takes the proved programs that `rt ci` left in out/, by LLVM and
# by Rattle's own compiler, and the archive of c-library.sh. CRATES is another folder of crates with such out/.
# With each message cose-gate, cose-sift, cose-show, cose-ask, cose-pass (with all that cose-ask asks) and conformance_cose (which reads it, copies it,
# compares both and writes the copy) must do the same as in 64 MiB of stack. As LLVM builds them: the first five in 288 KiB, of which they use
# 256 before they read anything (`has_stack` of cose_gate_program), the library's calls in 256 KiB, the last in 1 MiB, and with the widest
# limits (4,096 levels, 64 layers) in 8 MiB. Rattle's own compiler gives each value a place of its own in a frame, so what it builds must do
# with 8 MiB, within the usual limits. Last an item of 100,000 levels is read in 256 KiB: a test of cbor_tests. With --least a table shows
# the least number of KiB in which each does so, in some minutes. Status 1 if one of these fails, and 2 if something isn't there.
set -u
ulimit -c 0
top=$(cd "$(dirname "$(readlink -f "${BASH_SOURCE[0]}")")/.." && pwd)
kit=${RT_KIT:-$(dirname "$(dirname "$(readlink -f "$(command -v rt)")")")}
crates=${CRATES:-$top/crates}
folder=$(mktemp -d) && trap 'rm -rf "$folder"' EXIT || exit 2
# The KiB that are promised: to the five programs, to conformance_cose, to the library's calls, and within the widest limits.
five=288 sixth=1024 library=256 widest=8192
shows=${1-}
bad=0
fails() {
  echo "small-stack.sh: $*" >&2
  bad=1
}

# Of a run with so many KiB of stack: a sum of what it wrote and of its status.
answer() {
  local kib=$1 input=$2
  shift 2
  { (ulimit -s "$kib" && exec env -i "$@") < "$input" 2>&1; echo "status $?"; } 2> /dev/null | cksum
}

# The least number of KiB in which a run is the same as in 64 MiB.
least() {
  local whole=$1 low=3 high=16384 middle
  shift
  while [ $((high - low)) -gt 1 ]; do
    middle=$(((low + high) / 2))
    if [ "$(answer $((4 * middle)) "$@")" = "$whole" ]; then high=$middle; else low=$middle; fi
  done
  echo $((4 * high))
}

# Whether the run whose input and command come after the limit and the name does the same in so many KiB; and the least, for the table.
within() {
  local limit=$1 name=$2 whole
  shift 2
  whole=$(answer 65536 "$@")
  [ "$(answer "$limit" "$@")" = "$whole" ] || fails "$name: not the same in $limit KiB of stack as in 64 MiB; by hand:" \
    "python3 scripts/worst-messages.py F$limits; (ulimit -s $limit; ${*:2}) < F/${1##*/}"
  [ -z "$shows" ] || line="$line | $(least "$whole" "$@")"
}

# The same for a program as each compiler built it. Unless SAID is empty, that is said of the first message.
both() {
  local limit=$1 name=$2 said=$3 input=$4 program=$crates/$5/out/$5 ending
  shift 5
  for ending in "" .by-rattle; do
    [ -z "$ending" ] || limit=$widest
    within "$limit" "$name" "$input" "$program$ending" "$@"
    [ -z "$said" ] || "$program$ending" "$@" < "$input" 2>&1 > /dev/null | grep -q "^item 1 at 0: .*$said" || fails "$name: not $said by $program$ending"
  done
}

# Whether the library's calls, as c-stack says, take at most so many KiB.
calls() {
  local limit=$1 check ask pass stream is bytes
  [ -e "$folder/c-stack" ] || return
  read -r check ask pass stream is < <("$folder/c-stack" "$keys" "$2" "$3" "$message")
  case $is in *"$said"*) ;; *) fails "the library on $name: not $said" ;; esac
  for bytes in "$check" "$ask" "$pass" "$stream"; do
    [ "${bytes:-8388609}" -le $((1024 * limit)) ] || fails "the library on $name takes ${bytes:-too many} bytes of stack, and not $limit KiB"
  done
  line="$line | $((check / 1024)), $((ask / 1024)), $((pass / 1024)), $((stream / 1024))"
}

for it in cose_gate_cli cose_sift cose_show cose_ask_cli cose_pass_cli conformance_cose; do
  [ -x "$crates/$it/out/$it" ] && [ -x "$crates/$it/out/$it.by-rattle" ] && continue
  echo "small-stack.sh: no $crates/$it/out/$it by both compilers: run \`rt ci\` first" >&2
  exit 2
done
archive=$crates/cose_gate_c/out/libcose_gate_c.a
if command -v gcc > /dev/null && [ -e "$archive" ]; then
  gcc -std=c11 -O2 -I "$top/include" "$top/scripts/c-stack.c" "$archive" "$kit/c/liblibc_c.a" -pthread -o "$folder/c-stack" || exit 2
else
  echo "small-stack.sh: no gcc, or no archive of c-library.sh, so the library for C is left out"
fi

keys=$top/examples/keys.cbor
table=$folder/table
echo "KiB of stack, by LLVM and by Rattle's own compiler
| message | cose-gate | | cose-gate --stream | | cose-sift | | cose-show | | cose-ask | | cose-ask --keys | | cose-pass | | conformance_cose | | C: check, ask, pass, stream |
|---|---|---|---|---|---|---|---|---|---|---|---|---|---|---|---|---|---|" > "$table"
limits=
python3 "$top/scripts/worst-messages.py" "$folder/usual" > "$folder/said" || exit 2
while read -r name said; do
  message=$folder/usual/$name
  "$crates/cose_ask_cli/out/cose_ask_cli" < "$message" > "$folder/records" 2> /dev/null
  line="| $name"
  both $five "cose-gate on $name" "$said" "$message" cose_gate_cli "$keys"
  both $five "cose-gate --stream on $name" "" "$message" cose_gate_cli --stream "$keys"
  both $five "cose-sift on $name" "" "$message" cose_sift
  both $five "cose-show on $name" "" "$message" cose_show
  both $five "cose-ask on $name" "${said/Judged/passed}" "$message" cose_ask_cli
  both $five "cose-ask --keys on $name" "" "$message" cose_ask_cli --keys "$keys"
  both $five "cose-pass on $name" "${said/Judged/passed}" "$message" cose_pass_cli "$folder/records"
  both $sixth "conformance_cose on $name" "" "$message.row" conformance_cose
  calls $library 256 16
  echo "$line |" >> "$table"
done < "$folder/said"

echo "
with 4,096 levels and 64 layers, by LLVM" >> "$table"
limits=" 4096 64"
python3 "$top/scripts/worst-messages.py" "$folder/widest" $limits > "$folder/said" || exit 2
while read -r name said; do
  message=$folder/widest/$name
  line="| $name"
  calls $widest 4096 64
  echo "$line |" >> "$table"
done < "$folder/said"
# conformance_cose reads the item itself within 256 levels
for kind in sign1 mac0; do
  line="| $kind-protected: read, copied, compared, written"
  within $widest "conformance_cose on $kind-protected" "$folder/widest/$kind-protected.row" "$crates/conformance_cose/out/conformance_cose"
  echo "$line |" >> "$table"
done
[ -z "$shows" ] || cat "$table"

test="$crates/cbor_tests/out/cbor_tests_tests items::levels::many_levels_are_read"
(ulimit -s 256 && exec env -i timeout 60 $test) < /dev/null > /dev/null 2>&1 || fails "100,000 levels are not read in 256 KiB: (ulimit -s 256; $test)"
[ $bad = 1 ] || echo "small-stack.sh: $(wc -l < "$folder/said") messages of each limit: all within the stack that is promised"
exit $bad
