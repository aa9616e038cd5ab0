#!/bin/sh
# run.sh - builds the cabinet over a router archive and runs its scenarios.
# usage: run.sh [ARCHIVE|plain] [short|long|draw]   (plain: the plain implementation under the router's names; without
# an archive, the router's own, which rt proves and builds; without a length, short)
# long: more ticks, and the pictures of docs/ are compared with what these draw; draw: the same, and writes them there.
# LIBS: more to link. SANITIZE=yes: the cabinet is built with sanitizers (host/flags.sh), with `plain` the router too.
# Ends with a line "cabinet: N passed, M failed"; nonzero exit on any failure.
set -u
here=$(cd "$(dirname "$0")" && pwd)
suite=cabinet
. "$here/../host/flags.sh"
. "$here/../host/steps.sh"
archive=
length=short
for word; do
    case $word in
    short | long | draw) length=$word ;;
    *) archive=$word ;;
    esac
done
[ $# -le 2 ] || { echo "usage: run.sh [ARCHIVE|plain] [short|long|draw]" >&2; exit 1; }
archive=$(sh "$here/../host/archive.sh" "$build" "$archive") || exit 1
gcc -std=c99 $strict -O2 -I"$here/../include" \
    "$here/scenarios.c" "$here/mesh.c" "$here/route.c" "$here/plan.c" "$here/traffic.c" "$here/picture.c" \
    "$archive" ${LIBS:-} -o "$build/cabinet" || exit 1

# picture NAME: docs/ has it as the program draws it.
picture() {
    [ $length = long ] || cp "$build/$1" "$here/../docs/$1"
    cmp "$build/$1" "$here/../docs/$1"
}

ticks=long
[ $length != short ] || ticks=short
"$build/cabinet" $ticks "$build" > "$build/cabinet.out" 2>&1
status=$?
cat "$build/cabinet.out"
sections "$build/cabinet.out"
step "the scenarios ran to their end" test $status -eq 0
if [ $length != short ]; then
    step "docs/latency.svg is what these scenarios draw" picture latency.svg
    step "docs/fig10.svg is what these scenarios draw" picture fig10.svg
fi
ended=yes
