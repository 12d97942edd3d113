#!/bin/sh
# capped.sh [BENCH [GATE [TOKEN [ASK [PASS [SHOW [SIFT]]]]]]]: how much memory the programs `bench`, `cose_gate_cli` and `example_token` take, each
# under the least heap that a small input needs and little more, and how `cose_gate_cli`, `cose_ask_cli`, `cose_pass_cli`, `cose_show` and
# `cose_sift` end when they run out of it. They are those that `rt run` leaves in `out/` of these crates, unless others are given.
#
# - Heads that claim more than follows them end as bytes that are cut off, and not as out-of-memory: under the least heap for an empty
#   array or, 256 levels deep, for maps of one entry each.
# - The gate reads 1,000,000 items under the least heap for 1,000 of them, and a message with 64 text labels under that for one with none.
#   The streaming check reads a payload of 16 MiB under the least heap for one of 0 bytes, and with `--payload` it writes one of 8 MiB under
#   that for one of 0 bytes. `cose-sift` leaves out an item of 8 MiB under 2 MiB more than a small one needs, and 65,000 open arrays under 6.
# - Recipients inside one another take at most 200 times their bytes in the gate, and 400 times in `cose-ask`, with `--keys` too, which
#   holds one item's block at a time.
# - The gate holds a payload once. A program that makes the bytes that a tag covers holds it once more.
# - The gate, `cose-ask`, `cose-pass`, `cose-sift` and `cose-show` end by themselves, and not by a signal, under each limit from the least for an empty
#   input to what a whole run takes. What they write then are whole messages, the first ones, and all of them if the status isn't 4; of
#   `cose-show`, which writes as it goes, the beginning of a whole run's text.
#
# With valgrind it also counts the bytes that `bench` asks of the heap: for claims at most 4,096 over those of the empty array or,
# 256 levels deep, over those of as many open arrays, which claim nothing; for each further round of reading an integer or a short text at
# most 64, and of writing a text of 1 MiB at most 4,096 over its length.
set -u
here=$(cd "$(dirname "$0")/.." && pwd)
bench=${1:-$here/crates/bench/out/bench}
gate=${2:-$here/crates/cose_gate_cli/out/cose_gate_cli}
token=${3:-$here/crates/example_token/out/example_token}
ask=${4:-$here/crates/cose_ask_cli/out/cose_ask_cli}
pass=${5:-$here/crates/cose_pass_cli/out/cose_pass_cli}
show=${6:-$here/crates/cose_show/out/cose_show}
sift=${7:-$here/crates/cose_sift/out/cose_sift}
for it in "$bench" "$gate" "$token" "$ask" "$pass" "$show" "$sift"; do
  [ -x "$it" ] || { echo "capped.sh: no $it; run 'rt run' in its crate first" >&2; exit 2; }
done
folder=$(mktemp -d) && trap 'rm -rf "$folder"' EXIT || exit 2
bad=0
SLACK=64

# the standard input of a command, and what its standard output has to contain, if something
input=/dev/null
expected=

# limited KIB STATUS COMMAND..: whether the command, under so many KiB, ends with this status and that output
limited() {
  kib=$1 wanted=$2; shift 2
  (ulimit -v "$kib"; exec "$@") > "$folder/out" 2> "$folder/err" < "$input"
  [ $? = "$wanted" ] && { [ -z "$expected" ] || grep -q -e "$expected" "$folder/out"; }
}

# least STATUS COMMAND..: `cap` is the least number of KiB under which it does, and SLACK more
least() {
  status=$1; shift
  low=0 high=1048576
  limited $high "$status" "$@" || { echo "capped.sh: $* fails under 1 GiB" >&2; exit 1; }
  while [ $((high - low)) -gt 4 ]; do
    middle=$(((low + high) / 2))
    if limited $middle "$status" "$@" 2> /dev/null; then high=$middle; else low=$middle; fi
  done
  cap=$((high + SLACK))
}

# within NAME KIB STATUS COMMAND..: it does so under so many KiB
within() {
  name=$1; shift
  if limited "$@"; then
    echo "$name: within $1 KiB"
  else
    echo "$name: not within $1 KiB: $(tail -n 1 "$folder/err")"
    bad=1
  fi
}

heap() { valgrind "$bench" cbor "$@" 2>&1 | sed -n 's/.*frees, \([0-9,]*\) bytes allocated.*/\1/p' | tr -d ,; }
counts=
command -v valgrind > /dev/null && counts=yes

# claims
levels() { i=0; while [ $i -lt "$1" ]; do printf "$2"; i=$((i + 1)); done; }
printf '\200' > "$folder/empty"
printf '\233\377\377\377\377\377\377\377\377' > "$folder/9b"
printf '\273\377\377\377\377\377\377\377\377' > "$folder/bb"
# strings of 1 GiB, and such bodies of open strings
printf '\132\100\000\000\000' > "$folder/5a"
printf '\172\100\000\000\000' > "$folder/7a"
printf '\137\132\100\000\000\000' > "$folder/5f5a"
printf '\177\172\100\000\000\000' > "$folder/7f7a"
{ levels 256 '\241\000'; printf '\000'; } > "$folder/deep"
levels 256 '\237' > "$folder/9f-256"
levels 256 '\250' > "$folder/a8-256"
levels 256 '\233\377\377\377\377\377\377\377\377' > "$folder/9b-256"
flat= nested=
if [ -n "$counts" ]; then
  flat=$(heap decode "$folder/empty" 1)
  nested=$(heap decode "$folder/9f-256" 1)
fi
least 0 "$bench" cbor decode "$folder/empty" 1
small=$cap
# what is 256 levels deep may take what maps of that depth take: the list of open levels, and the stack to drop them
least 0 "$bench" cbor decode "$folder/deep" 1
deep=$cap
for name in 9b bb 5a 7a 5f5a 7f7a a8-256 9b-256; do
  case $name in
    *-256) cap=$deep base=$nested claims="so many open arrays" ;;
    *) cap=$small base=$flat claims="an empty array" ;;
  esac
  limited "$cap" 1 "$bench" cbor decode "$folder/$name" 1
  said=$(cat "$folder/err")
  more=
  if [ -n "$counts" ]; then
    size=$(wc -c < "$folder/$name")
    more=$(($(heap decode "$folder/$name" 1) - base))
    # the input is read into a buffer that may double as it grows
    [ $more -le $((4096 + 4 * size)) ] || bad=1
  fi
  echo "$name: $said under $cap KiB${more:+; $more bytes more of the heap than $claims}"
  case $said in *"Io(End)"*) ;; *) bad=1 ;; esac
done

# rounds NAME TASK BYTES: a further round asks at most so many bytes of the heap
rounds() {
  [ -n "$counts" ] || return 0
  more=$(($(heap "$2" "$folder/$1" 2) - $(heap "$2" "$folder/$1" 1)))
  echo "$1: $more bytes of the heap to $2, of at most $3"
  [ $more -le "$3" ] || bad=1
}
printf '\000' > "$folder/integer"
printf '\141a' > "$folder/text"
{ printf '\172\000\020\000\000'; head -c 1048576 /dev/zero; } > "$folder/long-text"
rounds integer decode 64
rounds text decode 64
rounds long-text encode $((1048576 + 4096))

# the streaming check
least 0 "$bench" gate 0
within "a payload of 16 MiB in pieces" "$cap" 0 "$bench" gate 16777216

# the gate: 17([h'a10105', {}, PAYLOAD, TAG]), tagged under the secret 00 (HMAC with SHA-256, by Python), passes, and is what is written
printf '\201\242\001\004\040\101\000' > "$folder/keys"
{ printf '\321\204\103\241\001\005\240\100\130\040'
  printf '\167\363\142\027\074\267\262\377\350\010\155\054\216\370\116\044'
  printf '\021\160\241\067\205\332\374\224\227\030\343\052\121\363\073\307'
} > "$folder/message"
# a payload of 8 MiB of zeros
{ printf '\321\204\103\241\001\005\240\132\000\200\000\000'
  head -c 8388608 /dev/zero
  printf '\130\040\205\073\327\201\211\165\215\244\005\037\270\025\147\213\321\077'
  printf '\370\052\164\207\341\006\053\164\066\254\224\022\035\012\055\365'
} > "$folder/large"
# the payload 'hi', and an unprotected header of 64 text labels, each with a text
{ printf '\321\204\103\241\001\005\270\100'
  for one in a b c d e f g h; do
    for two in a b c d e f g h; do printf '\142%s%s\141x' $one $two; done
  done
  printf '\102hi\130\040\266\372\267\103\316\133\062\153\136\347\113\064\076\046\250\273'
  printf '\007\326\320\327\370\260\313\172\005\023\043\011\055\044\202\223'
} > "$folder/labels"
passes() {
  input=$folder/$2
  within "$1" "$3" 0 "$gate" "$folder/keys"
  cmp -s "$folder/out" "$input" || { echo "$1: another output" >&2; bad=1; }
}
input=$folder/message
least 0 "$gate" "$folder/keys"
message=$cap
# half of a second copy is too much
passes "a payload of 8 MiB through the gate" large $((message + 8192 + 4096))
passes "64 text labels through the gate" labels "$message"
# a COSE_Mac with recipients inside one another may take 200 times its bytes, and 400 times as its questions are asked
{ printf '\330\141\205\100\240\101p\101t\237'
  levels 33333 '\204\100\240\366\201\203\100\240\366'
  printf '\377'
} > "$folder/recipients"
kib=$(($(wc -c < "$folder/recipients") / 1024))
input=$folder/recipients
within "recipients inside one another through the gate" $((message + 200 * kib)) 1 "$gate" "$folder/keys"
input=$folder/message
least 0 "$ask"
input=$folder/recipients
within "recipients inside one another, asked about" $((cap + 400 * kib)) 0 "$ask"
within "recipients inside one another, asked about by rules" $((cap + 400 * kib)) 1 "$ask" --keys "$folder/keys"
# 5,000 signers over 20,000 bytes, of ES256 and key id 01: 100 MB of records, and a block of 700 KB
printf '\201\245\001\002\002\10201\040\001\041\101x\042\101y' > "$folder/es256"
{ printf '\330\142\204\100\240\131\116\040'
  head -c 20000 /dev/zero
  printf '\237'
  levels 5000 '\203\103\241\001\046\241\004\10201\100'
  printf '\377'
} > "$folder/signers"
input=$folder/signers
within "5,000 signers over 20,000 bytes, asked about by rules" $((cap + 32768)) 0 "$ask" --keys "$folder/es256"
# the payload in a file: `payload NAME BYTES KIB` under so many KiB, of the message NAME
payload() {
  input=$folder/$1
  rm -f "$folder/payload"
  within "a payload of $2 bytes to a file" "$3" 0 "$gate" --stream --payload "$folder/payload" "$folder/keys"
  [ "$(wc -c < "$folder/payload")" = "$2" ] || { echo "a payload of $2 bytes: another file" >&2; bad=1; }
}
input=$folder/message
least 0 "$gate" --stream --payload "$folder/payload" "$folder/keys"
payload message 0 "$cap"
payload large 8388608 "$cap"
# the sieve: of an item that is too long 1 MiB is held, and of each open array a level of 16 bytes, in lists that double
input=$folder/message
least 0 "$sift"
input=$folder/large
within "an item of 8 MiB that is left out" $((cap + 2 * 1024)) 1 "$sift"
levels 65000 '\237' > "$folder/open"
levels 65000 '\377' >> "$folder/open"
input=$folder/open
within "65,000 open arrays that are left out" $((cap + 6 * 1024)) 1 "$sift"
head -c 1000 /dev/zero > "$folder/items"
input=$folder/items
least 1 "$gate" "$folder/keys"
head -c 1000000 /dev/zero > "$folder/items"
within "1,000,000 items through the gate" "$cap" 1 "$gate" "$folder/keys"

# a token with a wrong tag: its line in hex (twice the payload, in a buffer that doubles), its bytes, the payload, and what its tag covers
expected='refused: Caller(Tag)'
hex_of() { od -An -v -tx1 | tr -d ' \n'; echo; }
printf '\321\204\103\241\001\004\240\100\110\000\000\000\000\000\000\000\000' | hex_of > "$folder/token"
input=$folder/token
least 0 "$token" 0
{ printf '\321\204\103\241\001\004\240\132\000\077\377\300'
  head -c 4194240 /dev/zero
  printf '\110\000\000\000\000\000\000\000\000'
} | hex_of > "$folder/token"
within "a token with a payload of 4 MiB" $((cap + 5 * 4096 + 2048)) 0 "$token" 0

# how the programs end under each limit, 4 KiB apart, of two messages that pass and one of 20 KB in which as much lies inside one another as
# the limits let through: reading that takes most stack, after the others have taken heap
expected=
STEP=4
python3 "$here/scripts/worst-messages.py" "$folder/worst" > /dev/null || exit 2
cat "$folder/message" "$folder/message" > "$folder/two"
cat "$folder/two" "$folder/worst/mac-both" > "$folder/three"

# How many bytes a command writes, without a limit, of each of these inputs.
sizes() {
  for it in message two three; do "$@" < "$folder/$it" 2> /dev/null | wc -c; done | tr '\n' ' '
}

# ends COMMAND..: under each limit it ends by itself, and its output is one of the fronts
ends() {
  fronts=" 0 $(sizes "$@")"
  "$@" < "$folder/three" > "$folder/whole" 2> /dev/null
  whole=$?
  input=/dev/null
  least 0 "$@"
  kib=$high
  input=$folder/three
  least "$whole" "$@"
  last=$cap runs=0 stopped=0
  while [ "$kib" -le "$last" ]; do
    (ulimit -v "$kib"; exec "$@") > "$folder/out" 2> "$folder/err" < "$input"
    ended=$?
    size=$(wc -c < "$folder/out")
    head -c "$size" "$folder/whole" | cmp -s - "$folder/out" || ended="$ended, other output"
    case $fronts in
      *" $size "*) ;;
      *) [ "$1" = "$show" ] || ended="$ended, $size bytes" ;;
    esac
    case "$ended $size" in
      "4 "*) stopped=$((stopped + 1)) ;;
      "$whole $(wc -c < "$folder/whole")") ;;
      *)
        echo "$1 under $kib KiB: status $ended: $(tail -n 1 "$folder/err")"
        bad=1
        ;;
    esac
    runs=$((runs + 1)) kib=$((kib + STEP))
  done
  echo "$(basename "$1"): $runs limits up to $last KiB, $stopped of them too low"
}
ends "$gate" "$folder/keys"
ends "$ask"
ends "$ask" --keys "$folder/keys"
"$ask" < "$folder/three" > "$folder/accepted" 2> /dev/null
ends "$pass" "$folder/accepted"
ends "$show"
ends "$sift"

[ $bad = 0 ] && echo 'capped.sh: all within' || { echo 'capped.sh: too much' >&2; exit 1; }
