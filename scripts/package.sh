#!/usr/bin/env bash
# scripts/package.sh FOLDER: makes cose-gate_VERSION_amd64.deb and cose-gate_VERSION_amd64.tar.gz in FOLDER: what scripts/install.sh installs, with
# the programs as they were proved and built; the units for systemd; and in share/doc/cose-gate docs/PACKAGE.md as its README, pages and examples.
# The programs are proved and built first, unless they were built of the sources as they are (scripts/proved.sh); if that fails nothing is made, and
# the status is 70. VERSION is as 0.8+20261130.0123abcd (scripts/version.sh). The same commit gives the same bytes, whatever the umask.
set -eu
umask 022
top=$(cd "$(dirname "$(readlink -f "${BASH_SOURCE[0]}")")/.." && pwd)
if [ $# -ne 1 ] || [ -z "$1" ] || [ "${1#-}" != "$1" ]; then
  echo "usage: scripts/package.sh FOLDER" >&2
  exit 2
fi
mkdir -p "$1"
folder=$(cd "$1" && pwd)
made=$(mktemp -d)
trap 'rm -rf "$made"' EXIT
tree=$made/tree
doc=$tree/usr/share/doc/cose-gate
mkdir -m 755 "$tree"

CALLED=package.sh bash "$top/scripts/install.sh" "$tree/usr" > "$made/said" || exit
time=$(git -C "$top" log -1 --format=%ct)
version=$(sh "$top/scripts/version.sh" deb)
name=cose-gate_${version}_amd64
gzip -9 -n "$tree"/usr/share/man/man1/*
for it in examples/{keys,one,mixed,cut}.cbor examples/signatures/{README.md,es256.sh} examples/many.sh examples/python/dask_gate.py \
  docs/{TOKENS,SCALE}.md CHANGELOG.md NOTICE LICENSE SECURITY.md; do
  install -D -m 644 "$top/$it" "$doc/$it"
done
install -m 644 "$top/docs/PACKAGE.md" "$doc/README.md"
# Of a checkout pages say tools/cose-key and ./cose-gate.
sed -i 's#tools/cose-#cose-#g; s#\./cose-#cose-#g' "$doc"/docs/*.md "$doc"/examples/signatures/README.md
for it in cose-gate.socket cose-gate@.service; do
  install -D -m 644 "$top/examples/service/$it" "$tree/usr/lib/systemd/system/$it"
done
tar -C "$tree" --sort=name --mtime="@$time" --owner=0 --group=0 --numeric-owner -cf - usr | gzip -9 -n > "$folder/$name.tar.gz"
echo "package.sh: wrote $folder/$name.tar.gz"
if ! command -v dpkg-deb > /dev/null; then
  echo "package.sh: no dpkg-deb here, so no .deb is made" >&2
  exit
fi

# What Debian's policy wants.
mv "$doc/NOTICE" "$doc/copyright"
printf '\nCopyright %s the contributors of Pitchhour. Apache License, Version 2.0: /usr/share/common-licenses/Apache-2.0\n' \
  "$(date -u -d "@$time" +%Y)" >> "$doc/copyright"
rm "$doc/LICENSE"
mkdir -p "$tree/usr/share/lintian/overrides"
printf '# The programs are those that were proved, byte for byte.\ncose-gate: unstripped-binary-or-object\n' \
  > "$tree/usr/share/lintian/overrides/cose-gate"
by='Pitchhour maintainers <maintainers@users.noreply.pitchhour.example>'
printf 'cose-gate (%s) unstable; urgency=medium\n\n  * What has changed: CHANGELOG.md\n\n -- %s  %s\n' "$version" "$by" \
  "$(date -u -R -d "@$time")" | gzip -9 -n > "$doc/changelog.gz"
# The newest version of the C library whose functions a program calls.
libc=$(cat "$tree"/usr/bin/cose-{gate,ask,pass,sift,show} | grep -aoE 'GLIBC_2\.[0-9]+' | sort -uV | tail -n 1)
mkdir "$tree/DEBIAN"
(cd "$tree" && find usr -type f -exec md5sum {} + | LC_ALL=C sort -k 2 > DEBIAN/md5sums)
cat > "$tree/DEBIAN/control" <<CONTROL
Package: cose-gate
Version: $version
Architecture: amd64
Maintainer: $by
Installed-Size: $(find "$tree/usr" -type f -printf '%s\n' | awk '{ size += int(($1 + 1023) / 1024) } END { print size }')
Depends: libc6 (>= ${libc#GLIBC_}), python3, python3-cryptography
Suggests: openssl, parallel, python3-distributed, xxd
Section: utils
Priority: optional
Description: let through the COSE messages of a CBOR sequence that are good
 cose-gate checks the HMAC of each COSE_Mac0; cose-verify checks signatures,
 MACs and the claims of tokens; cose-ask and cose-pass let any program check
 signatures; cose-sift leaves out what cose-gate can't read; cose-show shows
 what a sequence holds; cose-key and cose-make make keys and messages.
 .
 The library that cose-gate, cose-ask and cose-pass run is proved for every
 input; cose-verify, cose-key and cose-make, in Python, are not.
CONTROL
find "$tree" -exec touch -h -d "@$time" {} +
SOURCE_DATE_EPOCH=$time dpkg-deb --root-owner-group -Zxz --build "$tree" "$folder/$name.deb" > /dev/null
echo "package.sh: wrote $folder/$name.deb"
