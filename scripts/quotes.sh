#!/bin/sh
# quotes.sh: says what the pages and the help quote otherwise than it is. Status 1 if there is anything.
# - The blocks of Rattle on the pages are whole parts of the crate callers, of an example or of a test (scripts/quotes.py).
# - What is said in several places is said in all of them (scripts/places.py).
# - The functions, laws and clauses of which docs/PROVED.md says what is proved are there (scripts/claims.py).
# - README.md is a front page: at most 110 lines of 100 columns.
cd "$(dirname "$0")/.." || exit 2
status=0

if command -v python3 > /dev/null; then
  python3 scripts/quotes.py || status=1
  python3 scripts/signatures.py cose_gate gate > /dev/null || status=1
  python3 scripts/places.py || status=1
  python3 scripts/claims.py || status=1
else
  echo "quotes.sh: python3 isn't there, so blocks of code are not compared" >&2
fi

awk 'length > 100 || FNR > 110 { print FILENAME ":" FNR ": more than 110 lines of 100 columns"; bad = 1 } END { exit bad }' README.md || status=1

exit $status
