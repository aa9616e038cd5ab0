#!/bin/sh
# run.sh - compares the archives for each board with the plain C, call by call on the board's own instruction set, under
# an emulator; sees that the archives for x86-64 are those of the kit, and that host/archive-for.sh refuses what it doesn't
# know.
# usage: run.sh [BOARD..]   (all of boards.sh where none is named)
# Needs gcc's headers, qemu-system-arm and qemu's user mode. host/build.sh first writes both archives for x86-64 anew;
# BUILT=yes: as it wrote them before.
# Ends with a line "board: N passed, M failed"; nonzero exit on any failure.
set -u
here=$(cd "$(dirname "$0")" && pwd)
suite=board
. "$here/../host/steps.sh"
. "$here/boards.sh"
x86=x86_64-unknown-linux-gnu

archive_for() {
    sh "$top/host/archive-for.sh" "$@"
}

# of_kit CRATE: what is compiled of the crate's module for x86-64 is what the kit compiled.
of_kit() {
    MODULE=$top/target/module/$1.bc archive_for $x86 "$1" "$build/lib$1.a" &&
        cmp "$build/lib$1.a" "$top/target/staticlib/lib$1.a"
}

# refused WORDS COMMAND..: the command fails and says these words on standard error.
refused() {
    words=$1
    shift
    ! "$@" > "$build/printed" 2> "$build/said" && test ! -s "$build/printed" && grep -qF -e "$words" "$build/said"
}

# shown TEXT WORDS: strange.ll, which is not the router's module, is refused with these words, and the text is shown.
shown() {
    ! cmp -s "$build/router.ll" "$build/strange.ll" &&
        MODULE=$build/strange.ll refused "$1" archive_for $x86 router "$build/strange.a" &&
        grep -qF -e "$2" "$build/said"
}

# strange WHERE LINE [WORDS]: a module with one line more, behind the first that is WHERE, has a line of no known form; or
# it has another fault.
strange() {
    awk -v where="$1" -v line="$2" '{ print } $0 ~ where && !done { print line; done = 1 }' "$build/router.ll" \
        > "$build/strange.ll"
    shown "$2" "${3:-no known form}"
}

# taken WHERE LINE LINE: a module with two lines more, behind the first that is WHERE, is compiled for x86-64 and a board.
taken() {
    awk -v where="$1" -v lines="$2\n$3" '{ print } $0 ~ where && !done { print lines; done = 1 }' "$build/router.ll" \
        > "$build/strange.ll"
    ! cmp -s "$build/router.ll" "$build/strange.ll" &&
        MODULE=$build/strange.ll archive_for $x86 router "$build/strange.a" &&
        MODULE=$build/strange.ll archive_for armebv7r-none-eabi router "$build/strange.a"
}

# changed FROM TO [TEXT WORDS]: so has one in which the first line with FROM has TO in its place; or it has another fault.
changed() {
    awk -v from="$1" -v to="$2" 'index($0, from) && !done { sub(from, to); done = 1 } { print }' "$build/router.ll" \
        > "$build/strange.ll"
    shown "${3:-$2}" "${4:-no known form}"
}

refusals() {
    step "the router's module as text" "$tools/clang" --target=$x86 --no-default-config -x ir "$MODULE" -S -emit-llvm \
        -Xclang -disable-llvm-passes -o "$build/router.ll"
    step "refused: an inline assembler" strange '^start:' '  call void asm sideeffect "nop", ""()'
    step "refused: a number made into a pointer" strange '^start:' '  %strange = inttoptr i64 16 to ptr'
    step "refused: a pointer made into a number" strange '%r0 = alloca' '  %strange = ptrtoint ptr %r0 to i64'
    step "refused: a global" strange '^target triple' '@strange = global i8 0'
    step "refused: a global of zeros" strange '^target triple' \
        '@strange = private unnamed_addr constant [1 x i8] zeroinitializer, align 1'
    step "refused: a function from elsewhere" strange '^target triple' 'declare void @strange()'
    step "refused: a number of 128 bits" strange '^start:' '  %strange = alloca i128, align 16'
    step "refused: a structure" strange '^start:' '  %strange = alloca { i8, i64 }, align 8'
    step "refused: a load that is volatile" strange '%r0 = alloca i8' '  %strange = load volatile i8, ptr %r0, align 1'
    step "refused: a case that is no byte" strange '%r0 = alloca' '  store i64 256, ptr %r0, align 1' "written that is no byte"
    step "refused: a case of four digits" strange '%r0 = alloca' '  store i64 1000, ptr %r0, align 1' "written that is no byte"
    step "refused: a case in an entry" strange ' = icmp eq ptr %a0, null' '  store i64 3, ptr %r0, align 1' "in an entry"
    step "refused: a case that is read whole" strange '%r0 = alloca' '  %r9999 = load i64, ptr %r0, align 1' "in more than a byte"
    step "refused: a pair with a case that is read whole" strange '%r0 = alloca' \
        '  %r9999 = load { i8, i16 }, ptr %r0, align 1' "in more than a byte"
    step "refused: a pair whose first is the wider" strange '%r0 = alloca' '  %r9999 = load { i64, i8 }, ptr %r0, align 8' \
        "whose first is the wider"
    step "refused: a pointer written as a case" strange '%r0 = alloca' '  store ptr %r0, ptr %r0, align 1' \
        "written that is no byte"
    step "refused: a byte with more than its alignment" strange '%r0 = alloca' '  %r9999 = load i8, ptr %r0, align 8' \
        "alignment of a wider number"
    step "refused: two bytes with more than theirs" strange '%r0 = alloca' '  %r9999 = load { i8, i8 }, ptr %r0, align 8' \
        "a pair read with the alignment"
    step "taken: a case of 3 and one of 255" taken '%r0 = alloca' '  store i64 3, ptr %r0, align 1' \
        '  store i64 255, ptr %r0, align 1'
    step "refused: a copy of a length that is no number" changed ', i64 16, i1 false' ', i64 %a1, i1 false'
    step "refused: copy_bits' copy elsewhere" strange '%r21 = load i64, ptr %r3, align 8' \
        '  call void @llvm.memmove.p0.p0.i64(ptr %a1, ptr %a0, i64 %r21, i1 false)' "copy_bits alone"
    step "refused: copy_bits' address elsewhere" strange '%r0 = alloca' '  %r9999 = ptrtoaddr ptr %r0 to i64' "copy_bits alone"
    step "refused: an attribute" changed '{ nounwind "probe-stack"' '{ alwaysinline nounwind "probe-stack"'
    step "refused: an entry that the header has not" changed '@router_version' '@router_revision' \
        router_revision "not in include/router.h"
    step "refused: pointers of 16 bits" refused "pointers of 16 bits" archive_for msp430-none-elf
    step "refused: no such target" refused "has no target" archive_for no-such-target
    step "refused: a target without a back end" refused "can't compile for" archive_for sparc-none-elf
    step "refused: no such processor" refused "has no target" archive_for -mcpu=cortex-m99 thumbv7em-none-eabi
    step "refused: no such crate" refused "usage" archive_for $x86 tape
    mkdir "$build/tools"
    ln -s "$(command -v dirname)" "$build/tools/dirname"
    step "refused: no kit" refused "there is no rt" env PATH="$build/tools" /bin/sh "$top/host/archive-for.sh" $x86
    printf '#!/bin/sh\necho "%s/START-HERE.md"\n' "$build" > "$build/tools/rt"
    chmod +x "$build/tools/rt"
    step "refused: a kit that is none" refused "there is no Rattle kit" \
        env PATH="$build/tools:$PATH" sh "$top/host/archive-for.sh" $x86
    step "refused: no module" refused "there is no module" env MODULE="$build/none" sh "$top/host/archive-for.sh" $x86
}

# needs ARCHIVE..: memory functions, under their names in C or ARM's, and no others.
needs() {
    nm -g --undefined-only "$@" | awk '
        $1 == "U" && $2 ~ /^(__aeabi_)?mem(cpy|move|set|clr)[48]?$/ { some = 1; next }
        $1 == "U" { print; others = 1 }
        END { exit others || !some }'
}

# test_over ARCHIVE..: the test program for the board.
test_over() {
    objects=
    for source in "$here/platform" "$here/small" "$here/guards" "$here/test" "$top/host/harness" "$top/host/plain" \
        "$top/host/plain_queues"; do
        compile "${source##*/}" "$source.c" || return
        objects="$objects $build/$object.o"
    done
    link test $objects "$@"
}

# test_on BOARD [WORD..]: the archives, compiled with these words, and the test over them.
test_on() {
    board "$1"
    what="$*"
    shift
    archives=
    rm -f "$build/test"
    for crate in router service; do
        archive=$build/lib$crate-$triple.a
        step "$what: lib$crate.a" env MODULE="$top/target/module/$crate.bc" \
            sh "$top/host/archive-for.sh" $cpu "$@" $triple $crate "$archive"
        archives="$archives $archive"
    done
    step "$what: they need the memory functions alone" needs $archives
    step "$what: build test" test_over $archives
    timeout 300 $machine "$build/test" > "$build/test.out" 2>&1
    status=$?
    cat "$build/test.out"
    sections "$build/test.out"
    step "$what: test ran to its end" test $status -eq 0
}

[ "${BUILT:-}" = yes ] || step "host/build.sh" sh "$top/host/build.sh" router service
for crate in router service; do
    step "x86-64: lib$crate.a is that of the kit" of_kit $crate
done
MODULE=$top/target/module/router.bc
export MODULE
refusals
unset MODULE
for name in ${*:-$boards}; do
    test_on $name
done
[ $# -gt 0 ] || test_on cortex-m4 -O2
ended=yes
