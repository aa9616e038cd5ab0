#!/bin/sh
# table1.sh - proves and builds the router and the queue engine, then prints Table 1 of a dump or a tape.
# usage: table1.sh DUMP | table1.sh -t TAPE [N]
set -eu
here=$(cd "$(dirname "$0")" && pwd)
. "$here/flags.sh"
build=$(mktemp -d)
trap 'rm -rf "$build"' EXIT
archive=$(sh "$here/archive.sh" "$build")
service=$(sh "$here/archive.sh" "$build" '' service)
gcc -std=c99 $strict -O2 -I"$here/../include" "$here/table1.c" "$here/dump.c" \
    "$here/record.c" "$service" "$archive" -o "$build/table1"
"$build/table1" "$@"
