#!/usr/bin/env bash
# tools/test.sh [--all] [TEST..]: tests cose-verify, cose-key and cose-make over the programs that `rt ci` proved and left in crates/*/out/.
# Without them, or without Debian's python3-cryptography and python3-cbor2, it says what is left out and ends with 0; with --all, for a
# release, with 1. TEST is a test of test_tools.py, as in Tools.test_keys. CRATES is another folder of crates with such out/.
set -u
here=$(dirname "$(readlink -f "${BASH_SOURCE[0]}")")
crates=${CRATES:-$here/../crates}
missing=0
[ "${1-}" != --all ] || { missing=1 && shift; }
links=$(mktemp -d) || exit
trap 'rm -rf "$links"' EXIT
for it in gate:cose_gate_cli ask:cose_ask_cli pass:cose_pass_cli; do
  program=$(readlink -f "$crates/${it#*:}/out/${it#*:}")
  if [ ! -x "$program" ]; then
    echo "test.sh: the tools are left out, as cose-${it%%:*} isn't built"
    exit $missing
  fi
  ln -s "$program" "$links/cose-${it%%:*}"
done
if ! why=$(/usr/bin/python3 -c 'import cryptography, cbor2' 2>&1); then
  echo "test.sh: the tools are left out, without python3-cryptography or python3-cbor2: $(echo "$why" | tail -n 1)"
  exit $missing
fi
PATH=$links:$PATH /usr/bin/python3 "$here/test_tools.py" "$@"
