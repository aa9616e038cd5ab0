#!/bin/sh
# run.sh - builds and runs the tests and the programs against the router and the service entries of two archives.
# usage: run.sh [ARCHIVE|plain [SERVICE-ARCHIVE|plain [SEED]]]   (where an archive is missing or empty, the crate's own,
# router or service, which rt proves and builds; plain: the plain implementation under the router's names, and of both
# where it is the only word)
# LIBS: more to link. SANITIZE=yes: all C is built with sanitizers (flags.sh), with `plain` the routers too, and the
# tests run one in five of their random calls. Ends with a line "host: N passed, M failed"; nonzero exit on any failure.
set -u
here=$(cd "$(dirname "$0")" && pwd)
suite=host
. "$here/flags.sh"
. "$here/steps.sh"
include=$here/../include
c99="gcc -std=c99 $strict -O2 -I$include -I$here"
libs=${LIBS:-}
seed=${3:-1}
share=1
[ "${SANITIZE:-}" != yes ] || share=5
given=${1:-}
service_given=${2:-}
[ "$given$service_given" != plain ] || service_given=plain
archive=$(sh "$here/archive.sh" "$build" "$given") || exit 1
service=$(sh "$here/archive.sh" "$build" "$service_given" service) || exit 1

header() {
    printf '#include "router.h"\n#include "router.h"\nint main(void) { return ROUTER_ACCEPTED; }\n' > "$build/header.$2"
    "$1" "-std=$3" $strict -I"$include" "$build/header.$2" -o "$build/header"
}

# The sanitizers report a read out of bounds and a sum that C leaves undefined.
reports() {
    cat > "$build/seeded.c" <<'END'
#include <limits.h>
int main(int argc, char **argv)
{
    static int few[4];
    const int *volatile first = few;
    (void)argv;
    return argc == 1 ? first[3 + argc] : INT_MAX - 1 + argc;
}
END
    $c99 "$build/seeded.c" -o "$build/seeded" || return
    "$build/seeded" 2> "$build/said"
    test $? -eq 99 && grep -q AddressSanitizer "$build/said" || return
    "$build/seeded" overflow 2> "$build/said"
    test $? -eq 99 && grep -q 'runtime error: signed integer overflow' "$build/said"
}

# symbols ARCHIVE OFFERED NEEDED: the archive offers just these names, and needs just these others.
symbols() {
    nm -g --defined-only "$1" | awk 'NF == 3 { print $3 }' | sort > "$build/offered"
    nm -g --undefined-only "$1" | awk '$1 == "U" { print $2 }' | sort -u > "$build/used"
    printf '%s\n' $2 | diff - "$build/offered" &&
        comm -13 "$build/offered" "$build/used" > "$build/needed" &&
        printf '%s\n' $3 | diff - "$build/needed"
}

example() {
    "$build/example" > "$build/example.out" && diff "$here/example.expected" "$build/example.out"
}

table1() {
    (cd "$here/.." && "$build/table1" -t tapes/queues.tape && echo && "$build/table1" -t tapes/ties.tape) \
        > "$build/table1.out" && diff "$here/table1.expected" "$build/table1.out"
}

# A dump of a router at clock 0 with one packet: slot 0, identifier 21h, time 5, deadline 9, ports 0 and 1.
dump() {
    head -c 10 /dev/zero
    printf '\000\377'
    slot=256
    while [ $slot -gt 0 ]; do
        slot=$((slot - 1))
        printf "\\$(printf %o $slot)"
    done
    printf '\005\011\003'
    head -c 1533 /dev/zero
    printf '\041\011'
    head -c 5118 /dev/zero
}

# patch FILE OFFSET=HEX..: puts these bytes in the place of the file's.
patch() {
    file=$1
    shift
    for byte; do
        printf "\\$(printf %o "0x${byte#*=}")" | dd of="$file" bs=1 seek="${byte%=*}" conv=notrunc 2> /dev/null
    done
}

table1_of_dump() {
    "$build/table1" "$build/dump" > "$build/table1.out" &&
        grep -q '^clock 0, 1 packets stored, 255 slots free$' "$build/table1.out" &&
        test "$(grep -cx '  3 early         1   0:21   5' "$build/table1.out")" -eq 2
}

# stops PROGRAM STATUS WORDS ARGUMENT..: it ends with these words on standard error and this status, and prints nothing.
stops() {
    program=$1
    status=$2
    words=$3
    shift 3
    "$build/$program" "$@" > "$build/printed" 2> "$build/said"
    test $? -eq "$status" && test ! -s "$build/printed" && grep -q "^${program##*/}: .*$words" "$build/said"
}

# dumpless PROGRAM STATUS: what has not the length of a dump, or can't be read, is none.
dumpless() {
    head -c 6923 "$build/dump" > "$build/short"
    { cat "$build/dump" && echo; } > "$build/long"
    : > "$build/empty"
    stops "$1" "$2" "6923 bytes" "$build/short" &&
        stops "$1" "$2" "more bytes" "$build/long" &&
        stops "$1" "$2" " 0 bytes" "$build/empty" &&
        stops "$1" "$2" "can't be opened" "$build/no such file" &&
        stops "$1" "$2" "can't be read" "$here" &&
        stops "$1" "$2" "usage"
}

# unwritable PROGRAM STATUS: it says so where its output can't be written.
unwritable() {
    "$build/$1" "$build/dump" > /dev/full 2> "$build/said"
    test $? -eq "$2" && grep -q "^$1: standard output can't be written" "$build/said"
}

table1_refusals() {
    head -c 6924 /dev/zero > "$build/unsound"
    dumpless table1 1 && unwritable table1 1 &&
        stops table1 1 "not sound (number 14); the program fault says where" "$build/unsound" &&
        stops table1 1 "can't be read" -t "$here" &&
        stops table1 1 "only 0 records" -t "$here/../tapes/rest.tape" 1 &&
        stops table1 1 "usage" -t "$here/../tapes/rest.tape" one
}

# What fault says of the dump, changed as each line of fault.expected with > tells, in the form of that file.
fault_sentences() {
    grep '^>' "$here/fault.expected" | while read -r mark changes; do
        cp "$build/dump" "$build/changed"
        patch "$build/changed" $changes
        echo "$mark${changes:+ $changes}"
        "$build/fault" "$build/changed" 2>&1
        echo "status $?"
    done
}

fault_examples() {
    fault_sentences > "$build/fault.out"
    grep -v '^#' "$here/fault.expected" | diff - "$build/fault.out"
}

fault_refusals() {
    dumpless fault 2 && unwritable fault 2 && stops fault 2 "usage" "$build/dump" "$build/dump"
}

# fault over a router_fault that tells TOLD, which is not the fault of the sound dump, nor, unless it is 13 or 14, of one
# with a bad horizon, a bad stack and odd bytes in the empty slot 1.
fault_doubts() {
    mkdir "$build/doubts" && cat > "$build/doubts/told.c" <<'END'
#include <stdlib.h>
#include "router.h"
uint16_t router_fault(const uint8_t *state, size_t state_len, const uint8_t *memory, size_t memory_len)
{
    (void)state, (void)state_len, (void)memory, (void)memory_len;
    return (uint16_t)atoi(getenv("TOLD"));
}
END
    $c99 "$here/fault.c" "$build/dump.o" "$build/doubts/told.c" -o "$build/doubts/fault" &&
        cp "$build/dump" "$build/changed" && patch "$build/changed" 3=C8 21=FC 272=FF || return
    for TOLD in 1 2 13 14 15 16 269 270 271 65295; do
        export TOLD
        doubt="router_fault tells number $((TOLD % 256)), .* no such fault"
        stops doubts/fault 2 "$doubt" "$build/dump" || return
        case $TOLD in
        13 | 14) ;;
        *) stops doubts/fault 2 "$doubt" "$build/changed" || return ;;
        esac
    done
}

# sections_of PROGRAM: runs a test program and counts its sections.
sections_of() {
    [ -x "$build/$1" ] || return
    "$build/$1" "$seed" $share > "$build/$1.out" 2>&1
    status=$?
    cat "$build/$1.out"
    sections "$build/$1.out"
    step "$1 ran to its end" test $status -eq 0
}

[ "${SANITIZE:-}" != yes ] || step "the sanitizers report what they are to report" reports
step "router.h as C99" header gcc c c99
step "router.h as C11" header gcc c c11
step "router.h as C++" header g++ cc c++11
for source in plain plain_queues whole harness pages record dump; do
    step "build $source.c" $c99 -c "$here/$source.c" -o "$build/$source.o"
done
[ "$given" = plain ] || step "the router's archive has its entries, and needs memcpy and memset alone" \
    symbols "$archive" "router_control router_display router_fresh router_tick router_version" "memcpy memset"
[ "$service_given" = plain ] || step "the service archive has its entries, and needs memset alone" \
    symbols "$service" "router_fault router_queues_control router_queues_fill router_queues_tick service_version" \
    "memset"
tested="$build/harness.o $build/pages.o $build/plain.o $build/plain_queues.o $service $archive $libs"
step "build test" $c99 "$here/test.c" "$build/whole.o" $tested -o "$build/test"
step "build faults_test" $c99 "$here/faults_test.c" $tested -o "$build/faults_test"
step "build queues_test" $c99 "$here/queues_test.c" $tested -o "$build/queues_test"
step "build example" $c99 "$here/example.c" "$archive" $libs -o "$build/example"
step "build table1" $c99 "$here/table1.c" "$build/dump.o" "$build/record.o" "$service" "$archive" $libs \
    -o "$build/table1"
step "build fault" $c99 "$here/fault.c" "$build/dump.o" "$service" $libs -o "$build/fault"
step "example" example
dump > "$build/dump"
step "table1 of tapes" table1
step "table1 of a dump" table1_of_dump
step "table1 ends with a word where there is nothing to show" table1_refusals
step "fault names each fault, and where" fault_examples
step "fault ends with a word where there is nothing to say" fault_refusals
step "fault finds what router_fault tells, or says that it doesn't" fault_doubts
step "bench runs each of its rows" sh "$here/bench.sh" once "$archive" "$service"
sections_of test
sections_of faults_test
sections_of queues_test
ended=yes
