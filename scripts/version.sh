#!/bin/sh
# scripts/version.sh: prints the version, and the day and the commit of the sources: 0.8 (2026-11-30, 0123abcd). Of these the second and third
# are missing if they aren't in a checkout. `version.sh deb` prints it as Debian has it: 0.8+20261130.0123abcd.
top=$(dirname "$(readlink -f "$0")")/..
[ "${1-}" != deb ] && format=' (%cd, %h)' days=%Y-%m-%d || format=+%cd.%h days=%Y%m%d
echo "$(cat "$top/VERSION")$(TZ=UTC git -C "$top" log -1 --format="$format" --date="format-local:$days" 2> /dev/null)"
