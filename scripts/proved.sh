#!/usr/bin/env bash
# scripts/proved.sh NAME CRATE: proves and builds the program NAME, which is CRATE, unless the one that is there was built of the sources as they
# are: out/CRATE.of beside it has the sums of both. While it works it says on standard error which crates are proved, and each minute what is left.
# Status 0 if the program is there then, and 70 if it couldn't be built. What is said of a missing kit begins with CALLED, or with NAME.
# scripts/proved.sh --left: after an `rt ci` that passed, during which no source changed. It notes that the programs that this left in out/ were
# built of the sources as they are; one that is older than a source isn't noted. .ci/run calls it.
set -u
top=$(cd "$(dirname "$(readlink -f "${BASH_SOURCE[0]}")")/.." && pwd)

# The crates of the repository that a build's log shows to be proved, the lower ones first: those that it has a sum of, and those below one
# that was begun, also those that were there or taken from another checkout. With a name after it, that crate and those below it.
crates_in() {
  awk -v whole="${2-}" '
    function add(name,  n, i, of) {
      if (!(name in below) || name in is_added) return
      is_added[name] = 1
      add_below(name)
      print name
    }
    function add_below(name,  n, i, of) {
      n = split(below[name], of)
      for (i = 1; i <= n; i++) add(of[i])
    }
    FNR == NR { sub(/#.*/, ""); if (/:/) { name = $1; sub(/:.*/, "", name); sub(/^[^:]*:/, ""); below[name] = $0 } next }
    /^(crate|library) [a-z0-9_]+: / { sub(/:$/, "", $2); add($2) }
    /^rt: chose --jobs [0-9]+ for / { add_below($NF) }
    END { if (whole != "") add(whole) }
  ' "$top/crates.txt" "$1"
}

# Finds sources of a crate and of those below it, by what is given to `find` after its name.
sources() {
  local folders
  mapfile -t folders < <(crates_in /dev/null "$1" | sed 's|^|crates/|')
  shift
  cd "$top" && find "${folders[@]}" -name out -prune -o -type f \( -name '*.rt' -o -name '*.antt' \) "$@"
}

# The sum of these, and of which libraries each crate names.
sum_of_sources() {
  {
    grep -xE "($(crates_in /dev/null "$1" | paste -sd '|'))( staticlib)?:.*" "$top/crates.txt"
    sources "$1" -exec sha256sum {} + | LC_ALL=C sort
  } | sha256sum
}

# What out/CRATE.of has to say: the sums of the program and of its sources.
sums() {
  sha256sum < "$top/crates/$1/out/$1"
  sum_of_sources "$1"
}

# The names of the second list that aren't in the first.
others() {
  local name
  for name in $2; do
    case " $1 " in *" $name "*) ;; *) printf '%s ' "$name" ;; esac
  done
}

# Says which crates are proved, until the build ends.
follow() {
  local build=$1 all=$2 said="" from=$SECONDS minutes=0 name is_alive
  while :; do
    kill -0 "$build" 2>/dev/null && is_alive=yes || is_alive=no
    for name in $(others "$said" "$(crates_in "$log")"); do
      case " $all " in *" $name "*) ;; *) continue ;; esac
      said="${said:+$said }$name"
      echo "$name_of_program: $name is proved ($(echo "$said" | wc -w) of $(echo "$all" | wc -w))" >&2
    done
    [ $is_alive = yes ] || return 0
    if [ $(((SECONDS - from) / 60)) -gt $minutes ]; then
      minutes=$(((SECONDS - from) / 60))
      echo "$name_of_program: $minutes min, $(echo "$said" | wc -w) of $(echo "$all" | wc -w) are proved; left: $(others "$said" "$all")" >&2
    fi
    sleep 1
  done
}

if [ "$1" = --left ]; then
  for crate in cose_gate_cli cose_ask_cli cose_pass_cli cose_sift cose_show; do
    program=$top/crates/$crate/out/$crate
    if [ -x "$program" ] && [ "$program" -nt "$top/crates.txt" ] && [ -z "$(sources $crate -newer "$program" -print -quit)" ]; then
      sums $crate > "$program.of"
    fi
  done
  exit
fi

name_of_program=$1
program=$top/crates/$2/out/$2
log=$top/crates/$2/out/build.log
if [ -x "$program" ] && [ -f "$program.of" ] && [ "$(sums "$2")" = "$(cat "$program.of")" ]; then
  exit 0
fi
if ! command -v rt > /dev/null; then
  echo "${CALLED:-$name_of_program}: rt isn't in PATH: it comes with Rattle's kit, KIT/bin" >&2
  exit 70
fi
all=$(crates_in /dev/null "$2" | xargs)
mkdir -p "${log%/*}"
: > "$log"
echo "$name_of_program: building the program. Its $(echo "$all" | wc -w) crates are proved first, unless they are already: docs/TIMES.md has how long it takes." >&2
echo "$name_of_program: the log is $log" >&2
if [ -x "$program" ] && ! [ -f "$program.of" ]; then
  echo "$name_of_program: nothing says of which sources the program that is there was built; if \`rt ci\` has just left it: scripts/proved.sh --left" >&2
fi
before=$(sum_of_sources "$2")
# Once it is built the program is run, and rt ends with its status; that of help is 0.
(cd "$top/crates/$2" && exec rt run -- --help < /dev/null) >> "$log" 2>&1 &
build=$!
trap 'kill "$build" 2> /dev/null; exit 130' INT TERM
follow "$build" "$all"
wait "$build"
status=$?
if [ $status -ne 0 ] || ! [ -x "$program" ]; then
  tail -n 20 "$log" >&2
  echo "$name_of_program: the build failed (rt ended with status $status); the whole log is $log" >&2
  exit 70
fi
if [ "$before" != "$(sum_of_sources "$2")" ]; then
  echo "$name_of_program: a source changed while it was built: run it again" >&2
  exit 70
fi
sums "$2" > "$program.of"
