#!/usr/bin/env bash
# fail-alloc.sh [CRATE[::MODULE]..]: refuses each allocation in turn, from the first to the last, to the proved programs and tests that
# `rt ci` left in out/ (those of tests also `rt test`, those of programs `rt run`): of these crates, or of all. CRATES is another folder of
# crates with such out/. An allocation is refused by a malloc that is preloaded, which the kit's clang builds.
# - A test in a module `refused`, or named `refused_memory..`, has to hold whichever allocation is refused. Tests named
#   `X_of_N_bytes_Y` with one X have to make as many allocations as each other, since what they read takes no memory.
# - A program has to end with status 4, a line that says memory, and a front of its output, after which a string of --json may be ended; or
#   else with the same status, output and lines, but for indented ones, which may say less. It runs as `rt ci` runs it, and as RUNS says. What
#   `--payload` leaves in its folder counts as output: the payload after status 0, and else nothing.
# With REFUSE=N only the allocation N is refused, and what then is written is shown. Status 1 if something else happens, and 2 if something
# isn't there.
set -eu
ulimit -c 0
top=$(cd "$(dirname "$(readlink -f "${BASH_SOURCE[0]}")")/.." && pwd)
kit=${RT_KIT:-$(dirname "$(dirname "$(readlink -f "$(command -v rt)")")")}
folder=$(mktemp -d)
trap 'rm -rf "$folder"' EXIT
cat > "$folder/refuse.c" <<'END'
typedef __SIZE_TYPE__ size_t;
extern void *__libc_malloc(size_t), *__libc_realloc(void *, size_t);
extern char *getenv(const char *);
extern long atol(const char *);
extern int dprintf(int, const char *, ...);
static long at, refused = -1;
__attribute__((constructor)) static void begins(void) {
  refused = getenv("REFUSE") ? atol(getenv("REFUSE")) : 0;
  at = 0;
}
__attribute__((destructor)) static void ends(void) {
  if (!refused) dprintf(2, "\nallocations: %ld\n", at);
}
void *malloc(size_t n) { return ++at == refused ? (void *)0 : __libc_malloc(n); }
void *realloc(void *p, size_t n) { return ++at == refused ? (void *)0 : __libc_realloc(p, n); }
END
"$kit/toolchain/bin/clang" --target=x86_64-unknown-linux-gnu --sysroot="$kit/toolchain" -fuse-ld=lld -nostdlib -O2 -shared -fPIC \
  "$folder/refuse.c" -o "$folder/refuse.so"
mkdir "$folder/payloads"
python3 - "$folder/refuse.so" "$folder/payloads" "$top" "${CRATES:-$top/crates}" "$@" <<'END'
import concurrent.futures
import itertools
import os
import re
import shutil
import subprocess
import sys
import tempfile

shim, payloads, top, crates, *wanted = sys.argv[1:]
only = os.environ.get("REFUSE")
# How programs run beside how `rt ci` runs them, in data/ if they have it: their arguments (ARGS are those of `rt ci`), and their input if it
# isn't stdin. FOLDER is one of its own for each run.
MIXED, KEYS = f"{top}/examples/mixed.cbor", f"{top}/examples/keys.cbor"
RUNS = {
    "cose_gate_cli": [("--strict --verbose keys.cbor 01", None), (f"--keys keys.cbor {MIXED}", None),
                      ("--stream keys.cbor 01", f"{top}/examples/one.cbor"),
                      ("--stream --payload FOLDER/payload keys.cbor 01", f"{top}/examples/one.cbor")],
    "cose_ask_cli": [("--strict 01", None), ("--lines 01", MIXED), ("--fields 01", MIXED)],
    "cose_pass_cli": [("accepted 01", MIXED)],
    "cose_sift": [("", MIXED), (f"--untag --max 48 {MIXED}", None)],
    "cose_show": [(f"--full --keys {KEYS} --aad 01", MIXED), ("--json ARGS", None), ("", KEYS), ("--json", KEYS)],
}
bad = 0
pool = concurrent.futures.ThreadPoolExecutor(os.cpu_count())


def fails(what):
    global bad
    bad = 1
    print(f"fail-alloc.sh: {what}", file=sys.stderr)


def run(words, number, data, at):
    folder = tempfile.mkdtemp(dir=payloads)
    words = [word.replace("FOLDER", folder) for word in words]
    ran = subprocess.run(words, input=data, cwd=at, env={"LD_PRELOAD": shim, "REFUSE": str(number)}, capture_output=True, timeout=60)
    left = b"".join(b"%s after status %d: %s" % (name.encode(), ran.returncode, open(f"{folder}/{name}", "rb").read()) for name in os.listdir(folder))
    shutil.rmtree(folder)
    return ran.returncode, ran.stdout + left, ran.stderr


def each(words, holds, data=b"", at="/"):
    """Refuses it each of its allocations, says which of these runs don't hold, and returns how many allocations it makes."""
    status, out, err = run(words, 0, data, at)
    err, count = re.fullmatch(rb"(.*)\nallocations: (\d+)\n", err, re.S).groups()
    numbers = [int(only)] if only else range(1, int(count) + 1)
    for number, found in zip(numbers, pool.map(lambda number: run(words, number, data, at), numbers)):
        if only:
            print(f"{' '.join(words)}: status {found[0]}\n{(found[1] + found[2]).decode(errors='replace')}")
        if why := holds((status, out, err), found):
            fails(f"{' '.join(words).replace(crates + '/', '')}: allocation {number} of {int(count)} refused: {why}")
    return int(count)


def passes(_, found):
    """Why a test doesn't hold."""
    return found[0] and f"status {found[0]}: {(found[1] + found[2]).decode(errors='replace').strip()[-200:]}"


def is_told(whole, found):
    """Why a program doesn't hold."""
    whole, found = ((status, out, re.sub(rb"(?m)^  .*\n", b"", err)) for status, out, err in (whole, found))
    if found == whole or (found[0] == 4 and whole[1].startswith(found[1].removesuffix(b'"')) and b"memory" in found[2]):
        return None
    pairs = itertools.zip_longest(*(it.decode(errors="replace").split("\n") for it in (found[1] + found[2], whole[1] + whole[2])))
    other, line = next((it for it in pairs if it[0] != it[1]), ("the same", "that"))
    return f"status {found[0]} (else {whole[0]}), and `{other}` in place of `{line}`"


def tests(crate, module):
    program = f"{crates}/{crate}/out/{crate}_tests"
    names = re.findall(r"^(.*): test$", subprocess.run([program, "--list"], stdout=subprocess.PIPE, text=True, check=True).stdout, re.M)
    names = [it for it in names if it.startswith(module and f"{module}::") and re.search(r"(^|::)(refused::|refused_memory)", it)]
    counts = {name: each([program, name], passes) for name in names}
    alike = {}
    for name, count in counts.items():
        if (one := re.sub(r"_of_[a-z0-9]+_bytes_.*", "_of_N_bytes", name)) != name:
            alike.setdefault(one, set()).add(count)
    for one, found in alike.items():
        if len(found) > 1:
            fails(f"{crate}, {one}: {sorted(found)} allocations, and not as many of each")
    return counts.values()


def programs(crate):
    at = f"{top}/crates/{crate}"
    files = f"{at}/data" if os.path.isdir(f"{at}/data") else at
    counts = []
    for words, file in [("ARGS", None), *RUNS[crate]]:
        words = words.replace("ARGS", open(f"{at}/args").read()).split()
        counts.append(each([f"{crates}/{crate}/out/{crate}", *words], is_told, open(file or f"{at}/stdin", "rb").read(), files))
    return counts


if not wanted:
    wanted = [it for it in sorted(os.listdir(crates)) if it in RUNS or os.path.isfile(f"{crates}/{it}/out/{it}_tests")]
counts = []
for crate, _, module in (it.partition("::") for it in wanted):
    program = f"{crates}/{crate}/out/{crate}{'' if crate in RUNS else '_tests'}"
    if not os.path.isfile(program):
        fails(f"no {program}: run `rt ci` first, or `rt {'run' if crate in RUNS else 'test'}` in the crate's folder")
        sys.exit(2)
    counts += programs(crate) if crate in RUNS else tests(crate, module)
if not counts:
    fails(f"no program or test that has to hold in {' '.join(wanted)}")
print(f"fail-alloc.sh: {len(counts)} tests and runs, {sum(counts)} allocations refused")
sys.exit(bad)
END
