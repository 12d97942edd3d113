#!/usr/bin/env bash
# run.sh [--try]: makes keys and signed messages in a folder of its own, checks the signatures with es256.sh, and compares what passes with
# what should. With --try the programs are built unproved first (scripts/try.sh). ASK and PASS are other programs than cose-ask and
# cose-pass at the top, if they are set.
set -u
here=$(cd "$(dirname "$(readlink -f "${BASH_SOURCE[0]}")")" && pwd)
top=$here/../..
export CALLED=run.sh
if [ "${1-}" = --try ]; then
  ASK=$(bash "$top/scripts/try.sh" --path cose-ask) && PASS=$(bash "$top/scripts/try.sh" --path cose-pass) || exit
fi
# The programs are built first, so that what a build says is not among their lines.
if [ -z "${ASK-}" ]; then
  bash "$top/scripts/proved.sh" cose-ask cose_ask_cli || exit
  ASK=$top/cose-ask
fi
if [ -z "${PASS-}" ]; then
  bash "$top/scripts/proved.sh" cose-pass cose_pass_cli || exit
  PASS=$top/cose-pass
fi
work=$(mktemp -d) || exit
trap 'rm -rf "$work"' EXIT
cd "$work" || exit

fail() {
  echo "run.sh: $1" >&2
  exit 1
}

python3 "$here/make.py" . || fail "no messages were made"
"$ASK" --fields < signed.cbor > lines 2> asked
[ $? -eq 1 ] || fail "cose-ask: another status: $(cat asked)"
bash "$here/es256.sh" keys < lines > accepted || fail "the check failed"
"$PASS" accepted < signed.cbor > passed.cbor 2> told
[ $? -eq 1 ] || fail "cose-pass: another status: $(cat told)"
cat told
[ "$(sed 's/ at [0-9]*//' told)" = "item 1: passed
item 2: passed
item 3: refused: Judged
item 4: refused: Judged
item 5: refused: NotTagged
item 6: refused: Judged
item 7: refused: Judged
passed 2, refused 5" ] || fail "other lines than expected"
cmp passed.cbor <(head -c "$(wc -c < passed.cbor)" signed.cbor) || fail "other bytes than the first two items"
