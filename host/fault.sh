#!/bin/sh
# fault.sh - proves and builds the service entries, then says what is wrong with a dump.
# usage: fault.sh DUMP   (exit status 0 for a sound dump, 1 for one that is not, 2 where there is nothing to say)
set -u
here=$(cd "$(dirname "$0")" && pwd)
. "$here/flags.sh"
build=$(mktemp -d) || exit 2
trap 'rm -rf "$build"' EXIT
service=$(sh "$here/archive.sh" "$build" '' service) || exit 2
gcc -std=c99 $strict -O2 -I"$here/../include" "$here/fault.c" "$here/dump.c" "$service" \
    -o "$build/fault" || exit 2
"$build/fault" "$@"
