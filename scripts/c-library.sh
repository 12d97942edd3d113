#!/usr/bin/env bash
# c-library.sh [left] STEP..: proves and builds the static library cose_gate_c if a source of it has changed, and then builds and runs what
# each step asks, with the tools that are there; it says which are not. Without a step it says how it is used (status 2).
#   c, rust, go, python   the example of that language on examples/mixed.cbor: status 1, four messages passed; the tests of the packages in Rust,
#                         Go and Python
#   es256                 examples/c/es256.c, with OpenSSL's libcrypto: signed messages of examples/signatures/make.py, two keys of one key id
#   image                 examples/c/image.c, question.c and the streaming calls of the Python package over good, changed and cut images, one of 64 MiB
#   compare               what the examples in these languages, or all, give against what the program gives, over examples/*.cbor; the library's
#                         shared object against the program over the rows `run` of conformance_gate, and over 1,000 mutated sequences
#   memory                the C test under ASan, and with each malloc refused in turn, over the worked examples and 1,000 mutated ones; archive
#                         and time to link
#   valgrind              the same under valgrind
# It is built over the libraries that `rt ci` or `rt check` left in out/, in 40 CPU seconds; if one of them is missing or older than its
# sources, `rt lib` proves them all. With `left` that fails, and the program is the one that `rt ci` left; CRATES is then another folder of
# crates with such out/. Status 1 if something differs, 70 if the library can't be built. What it makes lies in crates/cose_gate_c/out; beside
# that `rust` makes examples/rust/Cargo.lock, and `compare` builds the program in its own out/.
set -eu
export PYTHONDONTWRITEBYTECODE=1
top=$(cd "$(dirname "$(readlink -f "${BASH_SOURCE[0]}")")/.." && pwd)
crates=${CRATES:-$top/crates}
crate=$crates/cose_gate_c
out=$crate/out
archive=$out/libcose_gate_c.a
# The kit's C code for memory, which is kept beside the archive.
libc=$out/liblibc_c.a
made=$out/examples
keys=$top/examples/keys.cbor

fails() {
  echo "c-library.sh: $1" >&2
  exit 1
}
left=
what=
for word; do
  case $word in
    left) left=yes ;;
    c | rust | go | python | es256 | image | compare | memory | valgrind) what="$what $word " ;;
    *)
      what=
      break
      ;;
  esac
done
if [ -z "$what" ]; then
  echo "usage: scripts/c-library.sh [left] STEP.., and STEP is c, rust, go, python, es256, image, compare, memory or valgrind" >&2
  exit 2
fi

has() { command -v "$1" > /dev/null 2>&1; }
lacks() { echo "c-library.sh: no $1 here, so $2 is left out"; }
wants() { case $what in *" $1 "*) ;; *) false ;; esac }

# Proves and builds the library over those in out/, by the words that rt gives the compiler. Status 3 if one of them is not of its sources.
build_over_left() {
  python3 - "$kit" "$crate" "$archive" <<'END'
import os
import subprocess
import sys

kit, folder, archive = sys.argv[1:]
sys.dont_write_bytecode = True
sys.path.insert(0, f"{kit}/bin")
import rtlib

crate = rtlib.Crate(folder, os.path.dirname(os.path.dirname(folder)), {})
for it in crate.below():
    if not os.path.isdir(it.rlib) or os.path.getmtime(it.rlib) < max(map(os.path.getmtime, rtlib.files_of(it.folder))):
        print(f"{it.rlib} is missing, or older than its sources")
        sys.exit(3)
words = [*crate.words(["--jobs", "1"], keeps=False), "--toolchain", f"{kit}/toolchain", "--backend", "llvm", "-o", archive]
sys.exit(subprocess.run([rtlib.RATTLE, "build", *words], cwd=folder).returncode)
END
}
build() {
  local status=0
  build_over_left || status=$?
  if [ $status = 3 ] && [ -z "$left" ]; then (cd "$crate" && "$kit/bin/rt" lib && [ -f "$archive" ]); else return $status; fi
}
is_old() {
  [ ! -f "$archive" ] || [ -n "$(find "$crates"/*/src "$crates"/*/specs "$crates"/*/proofs "$crates/../crates.txt" -newer "$archive" -print -quit)" ]
}
if [ ! -f "$libc" ] || is_old; then
  if [ -z "${RT_KIT-}" ] && ! has rt; then
    echo "c-library.sh: rt isn't in PATH: it comes with Rattle's kit, KIT/bin" >&2
    exit 70
  fi
  kit=${RT_KIT:-$(dirname "$(dirname "$(readlink -f "$(command -v rt)")")")}
  mkdir -p "$out"
  if is_old && ! build > "$out/lib.log" 2>&1; then
    tail -n 20 "$out/lib.log" >&2
    echo "c-library.sh: the library was not built; the log is $out/lib.log" >&2
    exit 70
  fi
  cp "$kit/c/liblibc_c.a" "$libc"
fi
mkdir -p "$made"

build_of() { gcc -std=c11 -O2 -Wall -Wextra -Werror -I "$top/include" "$top/examples/c/$1.c" "$archive" "$libc" -o "$made/$1_c"; }
build_c() { build_of check; }
build_python() { gcc -shared -o "$made/libcose_gate.so" -Wl,--whole-archive "$archive" -Wl,--no-whole-archive "$libc"; }
build_rust() {
  for it in build test; do
    (cd "$top/examples/rust" && COSE_GATE_LIBRARY=$archive RATTLE_LIBC=$libc cargo $it --quiet --release --offline --target-dir "$made/rust") > /dev/null || fails "cargo $it"
  done
  cp "$made/rust/release/check" "$made/check_rust"
}
build_go() {
  printf 'Name: cose_gate\nDescription: this archive\nVersion: 0\nCflags: -I%s\nLibs: %s %s\n' "$top/include" "$archive" "$libc" > "$made/cose_gate.pc"
  (
    export PKG_CONFIG_PATH=$made GOFLAGS=-mod=mod GOCACHE=$made/go GOPROXY=off CGO_LDFLAGS_ALLOW='.*\.a'
    cd "$top/examples/go" && go vet ./... && go test -count=1 ./... > /dev/null && go build -o "$made/check_go" ./check
  ) || fails "examples/go"
}
declare -A tools=([c]=gcc [rust]=cargo [go]=go [python]=python3)

# The languages that are wanted, and whose tools are there.
languages=""
case $what in *" c "* | *" rust "* | *" go "* | *" python "*) ;; *" compare "*) what="$what c  rust  go  python " ;; esac
for language in c rust go python; do
  wants "$language" || continue
  if has gcc && has "${tools[$language]}"; then
    "build_$language"
    languages="$languages $language"
  else
    lacks "gcc or ${tools[$language]}" "the example in $language"
  fi
done

# What a program gives on $input: its output, its lines and its status, each in a file beside NAME.
ask() {
  local name=$1 status=0
  shift
  "$@" < "$input" > "$made/$name.out" 2> "$made/$name.err" || status=$?
  echo $status > "$made/$name.status"
}
run_example() {
  case $1 in
    python) PYTHONPATH=$top/examples/python ask python python3 -m cose_gate "$made/libcose_gate.so" "$keys" 01 ;;
    *) ask "$1" "$made/check_$1" "$keys" 01 ;;
  esac
}

for language in $languages; do
  input=$top/examples/mixed.cbor
  run_example "$language"
  [ "$(cat "$made/$language.status") $(tail -n 1 "$made/$language.err")" = "1 passed 4, refused 5" ] ||
    fails "the example in $language returns $(cat "$made/$language.status"), $(tail -n 1 "$made/$language.err")"
  echo "c-library.sh: the example in $language: $(tail -n 1 "$made/$language.err")"
done

if wants python && has gcc; then
  # Debian's has both modules, mostly
  python=$(for it in python3 /usr/bin/python3; do "$it" -c 'import cbor2, cryptography' 2> /dev/null && echo "$it" && break; done) || true
  if [ -n "$python" ]; then
    said=$("$python" "$top/examples/python/es256.py" "$made/libcose_gate.so") || fails "es256.py failed"
    echo "c-library.sh: es256.py: $(echo "$said" | tail -n 1)"
  else
    lacks "python3 with cbor2 and cryptography (Debian's python3-cbor2, python3-cryptography)" "es256.py"
  fi
fi

# What es256 passes of a file under a key set, to $made/es256.out, if status and lines are those that are due; more arguments come first.
es256() {
  local status=0
  "$made/es256_c" "${@:4}" "$1" "$2" > "$made/es256.out" 2> "$made/es256.err" || status=$?
  [ "$status $(sed 's/ at [0-9]*//' "$made/es256.err" | paste -sd '|')" = "$3" ] ||
    fails "es256 ${*:4} on ${2##*/}: $status, $(cat "$made/es256.err")"
}
if wants es256; then
  if has gcc && has python3 && printf '#include <openssl/param_build.h>\n' | gcc -E - > /dev/null 2>&1 && /usr/bin/python3 -c 'import cryptography' 2> /dev/null; then
    grep -q "\"$(sed -n 's/^## //p' "$top/CHANGELOG.md" | head -n 1)\"" "$top/include/cose_gate.h" || fails "COSE_GATE_VERSION is another release"
    gcc -std=c11 -O2 -Wall -Wextra -Werror -I "$top/include" "$top/examples/c/es256.c" "$archive" "$libc" -lcrypto -o "$made/es256_c"
    signed=$made/signed
    rm -rf "$signed"
    /usr/bin/python3 "$top/examples/signatures/make.py" "$signed"
    for key in "$signed"/keys/*.pem; do mv "$key" "${key%/*}/hex:${key##*/}"; done
    "$top/tools/cose-key" "$signed/keys" > "$signed/keys.cbor"
    no="refused: Judged"
    es256 "$signed/keys.cbor" "$signed/signed.cbor" \
      "1 item 1: passed|item 2: $no|item 3: $no|item 4: $no|item 5: refused: NotTagged|item 6: $no|item 7: $no|passed 1, refused 6"
    cmp -s "$made/es256.out" <(head -c "$(stat -c %s "$made/es256.out")" "$signed/signed.cbor") || fails "es256 passes other bytes than the first item"
    for name in first second; do "$top/tools/cose-key" --new ES256 --kid 11 -o "$signed/$name.cbor"; done
    "$top/tools/cose-key" "$signed/first.cbor" "$signed/second.cbor" > "$signed/both.cbor" 2> /dev/null
    printf hello | "$top/tools/cose-make" --key "$signed/second.cbor" --payload - > "$signed/hello.cbor"
    es256 "$signed/both.cbor" "$signed/hello.cbor" "0 item 1: passed|passed 1, refused 0"
    es256 "$signed/signed.cbor" "$signed/hello.cbor" "3 no key set, records or digests"
    "$top/tools/cose-make" --key "$signed/second.cbor" --cwt '{"exp": 2000, "aud": "door"}' > "$signed/token.cbor"
    es256 "$signed/both.cbor" "$signed/token.cbor" "0 item 1: passed|passed 1, refused 0" --cwt 1999 door
    for it in "2000 door" "1999 gate" 1999; do
      es256 "$signed/both.cbor" "$signed/token.cbor" "1 item 1: $no|passed 0, refused 1" --cwt $it
    done
    es256 "$signed/both.cbor" "$signed/hello.cbor" "1 item 1: $no|passed 0, refused 1" --cwt 1999
    echo "c-library.sh: es256 passes what is well signed, and nothing else"
  else
    lacks "gcc, libcrypto's headers, python3 or python3-cryptography" "the example es256"
  fi
fi

if wants image; then
  if has gcc && has python3; then
    build_of image
    build_of question
    build_of check
    build_python
    python3 "$top/scripts/c-image.py" "$made/image_c" "$made/question_c" "$made/check_c" "$made/libcose_gate.so"
  else
    lacks "gcc or python3" "the check of images"
  fi
fi

if wants compare; then
  [ -n "$left" ] || bash "$top/scripts/proved.sh" cose-gate cose_gate_cli || exit
  program=$crates/cose_gate_cli/out/cose_gate_cli
  for language in $languages; do
    for input in "$top"/examples/*.cbor; do
      ask program "$program" "$keys" 01
      run_example "$language"
      for part in out err status; do
        cmp -s "$made/program.$part" "$made/$language.$part" || fails "$language differs from the program in its $part, on $input"
      done
    done
    echo "c-library.sh: $language does as the program does, on $(ls "$top"/examples/*.cbor | wc -l) sequences"
  done
  has gcc && build_python && python3 "$top/scripts/c-compare.py" compare "$top" "$made/libcose_gate.so" "$program"
fi

if wants memory || wants valgrind; then
  has gcc || { lacks gcc "the test of memory"; exit; }
  test=$top/scripts/c-memory.c
  scratch=$(mktemp -d)
  trap 'rm -rf "$scratch"' EXIT
  inputs=("$top"/examples/mixed.cbor "$top"/examples/one.cbor "$top"/examples/cut.cbor)
  python3 "$top/scripts/c-compare.py" write "$top" "$scratch"
  inputs+=("$scratch"/*)
fi
if wants memory; then
  if gcc -std=c11 -O1 -g -fsanitize=address,undefined -fno-sanitize-recover=all -I "$top/include" "$test" "$archive" "$libc" -o "$made/memory_asan"; then
    "$made/memory_asan" "$keys" "${inputs[@]}"
  else
    lacks "gcc with ASan" "the test of memory under it"
  fi
  gcc -std=c11 -O1 -g -DREFUSE -I "$top/include" "$test" "$archive" "$libc" -Wl,--wrap=malloc,--wrap=realloc,--wrap=free -o "$made/memory"
  "$made/memory" "$keys" "${inputs[@]}"
  from=$(date +%s%N)
  build_c
  echo "c-library.sh: archive $(stat -c %s "$archive") bytes, program with it $(stat -c %s "$made/check_c"), built in $((($(date +%s%N) - from) / 1000000)) ms"
fi
if wants valgrind && ! has valgrind; then lacks valgrind "that run"; fi
if wants valgrind && has valgrind; then
  gcc -std=c11 -O1 -g -I "$top/include" "$test" "$archive" "$libc" -o "$made/memory_plain"
  valgrind -q --error-exitcode=9 --leak-check=full --errors-for-leak-kinds=all "$made/memory_plain" "$keys" "${inputs[@]}"
  echo "c-library.sh: valgrind finds nothing"
fi
