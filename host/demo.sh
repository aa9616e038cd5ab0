#!/bin/sh
# demo.sh - proves and builds the router, then runs the example program over it.
set -eu
cd "$(dirname "$0")/.."
. host/flags.sh
build=$(mktemp -d)
trap 'rm -rf "$build"' EXIT
archive=$(sh host/archive.sh "$build")
gcc -std=c99 $strict -O2 -Iinclude host/example.c "$archive" -o "$build/example"
"$build/example"
