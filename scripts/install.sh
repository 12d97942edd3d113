#!/usr/bin/env bash
# scripts/install.sh [--library] PREFIX: puts the programs cose-gate, cose-ask, cose-pass, cose-sift and cose-show into PREFIX/bin, and the tools
# cose-verify, cose-key and cose-make, in Python, into PREFIX/lib/cose-gate, with links in PREFIX/bin; their manual pages into
# PREFIX/share/man/man1, and completion for bash into PREFIX/share/bash-completion. With --library also the library for C:
# PREFIX/lib/libcose_gate.a, PREFIX/include/cose_gate.h and PREFIX/lib/pkgconfig/cose_gate.pc, for `cc check.c $(pkg-config --cflags --libs
# cose_gate)`; and with gcc PREFIX/lib/cose-gate/libcose_gate.so, for examples/python. Programs and library are proved and built first, unless
# they were built of the sources as they are (scripts/proved.sh, `rt lib`); if that fails nothing is installed, and the status is 70. All can
# read what is installed, whatever the umask.
set -u
umask 022
top=$(cd "$(dirname "$(readlink -f "${BASH_SOURCE[0]}")")/.." && pwd)

library=
if [ "${1-}" = --library ]; then
  library=yes
  shift
fi
if [ $# -ne 1 ] || [ -z "$1" ] || [ "${1#-}" != "$1" ]; then
  echo "usage: scripts/install.sh [--library] PREFIX, as in scripts/install.sh ~/.local" >&2
  exit 2
fi
prefix=$1
programs="gate:cose_gate_cli ask:cose_ask_cli pass:cose_pass_cli sift:cose_sift show:cose_show"

for each in $programs; do
  name=cose-${each%%:*}
  CALLED=${CALLED:-install.sh} bash "$top/scripts/proved.sh" "$name" "${each#*:}"
  status=$?
  if [ $status -ne 0 ]; then
    ! command -v rt > /dev/null || echo "install.sh: $name is not proved, so nothing is installed" >&2
    exit $status
  fi
done
archive=$top/crates/cose_gate_c/out/libcose_gate_c.a
if [ -n "$library" ] && ! command -v rt > /dev/null; then
  echo "install.sh: rt isn't in PATH: it comes with Rattle's kit, KIT/bin" >&2
  exit 70
fi
if [ -n "$library" ] && ! { (cd "$top/crates/cose_gate_c" && rt lib) > /dev/null && [ -f "$archive" ]; }; then
  echo "install.sh: the library is not proved, so nothing is installed" >&2
  exit 70
fi

# Copies a file, with a mode, and says so.
put() {
  if ! { mkdir -p "$(dirname "$3")" && install -m "$1" "$2" "$3"; }; then
    echo "install.sh: $3 could not be written" >&2
    exit 1
  fi
  echo "install.sh: wrote $3"
}

# Makes a link, and says so.
link() {
  mkdir -p "$(dirname "$2")" && ln -sf "$1" "$2" || exit 1
  echo "install.sh: wrote $2"
}

for each in $programs; do
  crate=${each#*:}
  put 755 "$top/crates/$crate/out/$crate" "$prefix/bin/cose-${each%%:*}"
done
for file in "$top"/tools/cose[-_]*; do
  mode=755
  [ -x "$file" ] || mode=644
  put $mode "$file" "$prefix/lib/cose-gate/${file##*/}"
done
sh "$top/scripts/version.sh" > "$prefix/lib/cose-gate/version" || exit 1
for name in cose-verify cose-key cose-make; do
  link "../lib/cose-gate/$name" "$prefix/bin/$name"
done
put 644 "$top/scripts/completion.bash" "$prefix/share/bash-completion/completions/cose-gate"
for name in ask gate key make pass show sift verify; do
  put 644 "$top/docs/cose-$name.1" "$prefix/share/man/man1/cose-$name.1"
  [ $name = gate ] || link cose-gate "$prefix/share/bash-completion/completions/cose-$name"
done
/usr/bin/python3 -c 'import cryptography' 2> /dev/null || echo "install.sh: cose-verify, cose-key and cose-make need Debian's python3-cryptography"
if [ -n "$library" ]; then
  # One archive: the library, and the kit's C code for memory that it is linked with, which is beside its rt.
  kit=${RT_KIT:-$(dirname "$(dirname "$(readlink -f "$(command -v rt)")")")}
  made=$(mktemp -d)
  trap 'rm -rf "$made"' EXIT
  printf 'create %s\naddlib %s\naddlib %s\nsave\nend\n' "$made/libcose_gate.a" "$archive" "$kit/c/liblibc_c.a" | ar -M || exit 1
  {
    echo "prefix=$(mkdir -p "$prefix" && cd "$prefix" && pwd)"
    echo 'Name: cose_gate'
    echo 'Description: lets through the COSE messages of a CBOR sequence that are good'
    echo "Version: $(cat "$top/VERSION")"
    echo 'Cflags: -I${prefix}/include'
    echo 'Libs: -L${prefix}/lib -lcose_gate'
  } > "$made/cose_gate.pc"
  put 644 "$made/libcose_gate.a" "$prefix/lib/libcose_gate.a"
  put 644 "$top/include/cose_gate.h" "$prefix/include/cose_gate.h"
  put 644 "$made/cose_gate.pc" "$prefix/lib/pkgconfig/cose_gate.pc"
  # For examples/python. In a folder of its own, so that the linker doesn't take it in place of the archive.
  if command -v gcc > /dev/null; then
    gcc -shared -o "$made/libcose_gate.so" -Wl,--whole-archive "$archive" -Wl,--no-whole-archive "$kit/c/liblibc_c.a" || exit 1
    put 755 "$made/libcose_gate.so" "$prefix/lib/cose-gate/libcose_gate.so"
  fi
fi
case ":$PATH:" in
  *":$(cd "$prefix/bin" && pwd):"*) ;;
  *) echo "install.sh: $prefix/bin is not in PATH" ;;
esac
