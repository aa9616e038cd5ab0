#!/bin/sh
# host.sh - the host's tests for another processor that Debian has a gcc for, in qemu's user mode: the archives by
# host/archive-for.sh, everything that calls them by that gcc, so that two compilers have to agree how a call goes.
# usage: host.sh [TRIPLE [SEED [SHARE]]]   (arm-linux-gnueabihf where none is given; SEED and SHARE as for host/test.c)
# Needs TRIPLE-gcc and qemu's user mode. Ends with a line "host on TRIPLE: N passed, M failed"; nonzero exit on any failure.
set -u
here=$(cd "$(dirname "$0")" && pwd)
top=$here/..
triple=${1:-arm-linux-gnueabihf}
suite="host on $triple"
. "$top/host/flags.sh"
. "$top/host/steps.sh"
emulator=qemu-${triple%%-*}
c99="$triple-gcc -std=c99 $strict -O2 -static -I$top/include -I$top/host"

for crate in router service; do
    step "lib$crate.a" sh "$top/host/archive-for.sh" "$triple" $crate "$build/lib$crate.a"
done
shared=
for source in harness pages plain plain_queues whole; do
    step "build $source.c" $c99 -c "$top/host/$source.c" -o "$build/$source.o"
    shared="$shared $build/$source.o"
done
for program in test faults_test queues_test; do
    step "build $program" $c99 "$top/host/$program.c" $shared "$build/libservice.a" "$build/librouter.a" -o "$build/$program"
    $emulator "$build/$program" "${2:-1}" "${3:-1}" > "$build/out" 2>&1
    status=$?
    cat "$build/out"
    sections "$build/out"
    step "$program ran to its end" test $status -eq 0
done
ended=yes
