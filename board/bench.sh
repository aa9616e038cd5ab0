#!/bin/sh
# bench.sh - prints a table for each board: the router's archive beside the plain implementation by gcc -O2 for the same
# processor, in instructions, bytes of stack and bytes of text.
# usage: bench.sh [-O2|-O3] [BOARD..]   (cortex-m4, cortex-m0plus and riscv32 where none is named)
# Needs what run.sh needs, gcc-arm-none-eabi and gcc-riscv64-unknown-elf. MODULES: a folder with modules kept before
# (target/module); else they are made anew.
set -eu
here=$(cd "$(dirname "$0")" && pwd)
build=$(mktemp -d)
trap 'rm -rf "$build"' EXIT
. "$here/boards.sh"
level=-O3
case ${1:-} in -O2 | -O3) level=$1 && shift ;; esac
few=1
many=3

# cross BOARD: leaves the gcc for it.
cross() {
    case $1 in
    cortex-*) gcc="arm-none-eabi-gcc -mthumb -mcpu=$1" ;;
    riscv32) gcc="riscv64-unknown-elf-gcc -march=rv32imac -mabi=ilp32" ;;
    *) echo "bench.sh knows no gcc for $1" >&2 && exit 1 ;;
    esac
}

# plain LEVEL: objects of the plain implementations with other names.
plain() {
    names=
    for entry in fresh control tick display version fault queues_fill queues_control queues_tick service_version; do
        names="$names -Dplain_$entry=plain_o$1_$entry"
    done
    for source in plain plain_queues; do
        $gcc -std=c99 -ffreestanding -O$1 $names -I"$here/include" -I"$top/include" -I"$top/host" \
            -c "$top/host/$source.c" -o "$build/${source}_o$1.o"
    done
}

# program WORD..: the bench, compiled with these words.
program() {
    compile bench "$here/bench.c" "$@"
    link bench "$build/platform.o" "$build/small.o" "$build/scenario.o" "$build/bench.o" "$build"/plain*_o?.o $archives \
        "$($gcc -print-libgcc-file-name)"
}

# total IMPLEMENTATION SCENARIO REPEATS: instructions of a whole run.
total() {
    program "-DIMPLEMENTATION=\"$1\"" "-DSCENARIO=\"$2\"" "-DREPEATS=$3"
    $machine "$build/bench" >&2 # whose calls do what the scenario says, or it fails
    ${machine% -kernel} -singlestep -d exec,nochain -D /dev/stdout ${kernel} "$build/bench" | grep -c '^Trace'
}

# instructions IMPLEMENTATION SCENARIO: of one call and the bench around it.
instructions() {
    echo $((($(total "$1" "$2" $many) - $(total "$1" "$2" $few)) / (many - few)))
}

text() {
    size -t "$1" 2> /dev/null | awk 'END { print $1 }'
}

field() {
    sed -n "s/^$1 $2 //p" "$build/stack"
}

for name in ${*:-cortex-m4 cortex-m0plus riscv32}; do
    board $name
    cross $name
    case $machine in *-kernel) kernel=-kernel ;; *) kernel= ;; esac
    archives=
    for crate in router service; do
        [ -z "${MODULES:-}" ] || export MODULE="$MODULES/$crate.bc"
        sh "$top/host/archive-for.sh" $cpu $level $triple $crate "$build/lib$crate.a" > /dev/null
        archives="$archives $build/lib$crate.a"
    done
    plain 2
    plain 3
    compile platform "$here/platform.c"
    compile small "$here/small.c"
    compile scenario "$top/host/scenario.c"
    program
    $machine "$build/bench" > "$build/stack" 2>&1 || { tail -n 1 "$build/stack" >&2 && exit 1; }
    echo "| $name | router, instructions | plain -O2 | router / plain | router, stack | plain -O2 |"
    echo "|---|--:|--:|--:|--:|--:|"
    for scenario in $(sed -n 's/^ours \([cft][a-z]*[-0-9a-z]*\) .*/\1/p' "$build/stack" | grep -v fault); do
        none=$(instructions none $scenario)
        ours=$(($(instructions ours $scenario) - none))
        o2=$(($(instructions O2 $scenario) - none))
        echo "| $scenario | $ours | $o2 | $(awk "BEGIN { printf \"%.2f\", $ours / $o2 }") | $(field ours $scenario) | $(field O2 $scenario) |"
    done
    echo "| bytes of text | $(text "$build/librouter.a") | $(text "$build/plain_o2.o") | | | |"
    echo
done
