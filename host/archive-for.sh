#!/bin/sh
# archive-for.sh - writes an archive of the proved entries for the board's own processor.
# usage: archive-for.sh [-mcpu=CPU] [-O2|-O3] TRIPLE [router|service] [OUT]
#   sh host/archive-for.sh -mcpu=cortex-m4 thumbv7em-none-eabi router librouter.a
# TRIPLE: as clang takes it. OUT: else target/board/TRIPLE/libCRATE.a. -O3 is what the kit takes for x86-64.
# The kit proves the crate router_c or service_c, makes one LLVM module of it, and has its clang compile that for x86-64.
# This script takes the module, refuses it if one line is not of a known form, changes what in it is of x86-64, and has the
# same clang compile it for the target. The entries are include/router.h's, as a C compiler for the target reads it. For
# x86-64 the archive is that of the kit. No proof covers this script; the tests of board/ do.
# MODULE: a module to take, such as target/module/CRATE.bc, where build.sh keeps it; else build.sh makes it anew.
set -eu
die() {
    echo "archive-for.sh: $*" >&2
    exit 1
}
usage="usage: archive-for.sh [-mcpu=CPU] [-O2|-O3] TRIPLE [router|service] [OUT]"
cpu= level=-O3
while [ $# -gt 0 ]; do
    case $1 in
    -mcpu=?*) cpu=$1 ;;
    -O2 | -O3) level=$1 ;;
    -*) die "$usage" ;;
    *) break ;;
    esac
    shift
done
[ $# -ge 1 ] && [ $# -le 3 ] || die "$usage"
triple=$1 crate=${2:-router}
case $crate in router | service) ;; *) die "$usage" ;; esac
here=$(cd "$(dirname "$0")" && pwd)
. "$here/kit.sh"
top=${here%/*}
out=${3:-$top/target/board/$triple/lib$crate.a}
clang=$tools/clang
room=$(mktemp -d)
trap 'rm -rf "$room"' EXIT

# 1. The module.
if [ -z "${MODULE:-}" ]; then
    MODULE=$top/target/module/$crate.bc
    sh "$here/build.sh" "$crate" > "$room/said" || die "$crate is not proved, or not built"
fi
[ -s "$MODULE" ] || die "there is no module $MODULE"
"$clang" --target=x86_64-unknown-linux-gnu --no-default-config -x ir "$MODULE" -S -emit-llvm -Xclang \
    -disable-llvm-passes -o "$room/kept.ll" || die "$MODULE is no module"

# 2. Its lines have these forms and no others. So there is no global, no assembler, no function of a processor or of
# elsewhere, no pointer made of a number and no number of a pointer but an address (copy_bits tells by two whether what it
# copies lies apart), no offset but in bytes, no alignment that isn't written down, no number wider than 64 bits, no length
# of a copy but a number or copy_bits' product, and no structure but a pair, which is returned, or loaded and taken apart.
type='(ptr|i(1|8|16|32|64))' int='i(1|8|16|32|64)' reg='%[ar][0-9]+' label='%[a-z]+(\.[0-9]+)?' own='@"[^"]+"'
val="($reg|-?[0-9]+|true|false)" length='i64 [0-9]+, i1 false\)'
take="$type( noundef)?( zeroext)? %a[0-9]+" hand="$type $val" pair="\{ $type, $type \}"
sed '/^#/d' > "$room/forms" <<END
# around the functions
^\$|^;|^source_filename = "rattle"\$
^target (datalayout|triple) = "[^"]*"\$
^declare void @llvm\.memmove\.p0\.p0\.i64\(ptr writeonly captures\(none\), ptr readonly captures\(none\), i64, i1 immarg\) #[1-9]\$
^declare void @llvm\.memset\.p0\.i64\(ptr writeonly captures\(none\), i8, i64, i1 immarg\) #[1-9]\$
^declare i8 @llvm\.cttz\.i8\(i8, i1 immarg\) #[1-9]\$
^declare void @llvm\.trap\(\) #[1-9]\$
^attributes #0 = \{ nounwind "probe-stack"="inline-asm" "stack-probe-size"="3072" "target-cpu"="x86-64" \}\$
^attributes #[1-9] = \{ nocallback nofree( nosync)? nounwind( speculatable)? willreturn memory\((none|argmem: (read)?write)\) \}\$
^attributes #[1-9] = \{ cold noreturn nounwind memory\(inaccessiblemem: write\) \}\$
^!llvm\.ident = !\{!0\}\$|^!0 = !\{!"rattle logic=[0-9a-f]+"\}\$|^!1 = !\{\}\$|^!2 = !\{i8 0, i8 2\}\$
# a function, which is the crates' own or of the library that is proved with them, or an entry
^define internal (void|noundef( zeroext)? $int|(noundef )?(ptr|$pair)) $own\(($take(, $take)*)?\) #0 \{\$
^define noundef $int @[a-z_]+\(($take(, $take)*)?\) #0 \{\$
^[a-z]+(\.[0-9]+)?:( +; .*)?\$|^}\$
# its instructions
^  $reg = alloca ($type|\[[0-9]+ x i8\]), align [1248]\$
^  $reg = load $type, ptr $reg, align [1248](, !range !2)?(, !noundef !1)?\$
^  $reg = load $pair, ptr $reg, align [1248]\$|^  $reg = extractvalue $pair $reg, [01]\$|^  ret $pair $reg\$
^  store $type $val, ptr $reg, align [1248]\$
^  $reg = getelementptr( inbounds nuw)? i8, ptr $reg, i64 $val\$
^  $reg = (add|sub|mul|udiv|urem|and|or|xor|shl|lshr)( nuw)? $int $val, $val\$
^  $reg = icmp (eq|ne|u[lg][te]) $int $val, $val\$|^  $reg = icmp eq ptr %a[0-9]+, null\$
^  $reg = (zext|trunc|trunc nuw) $int $val to $int\$
^  $reg = ptrtoaddr ptr $reg to i64\$
^  ($reg = )?call (void|ptr|$int|$pair) $own\(($hand(, $hand)*)?\)\$
^  call void @llvm\.memmove\.p0\.p0\.i64\(ptr $reg, ptr $reg, $length\$
^  call void @llvm\.memmove\.p0\.p0\.i64\(ptr %a1, ptr %a0, i64 %r[0-9]+, i1 false\)\$
^  call void @llvm\.memset\.p0\.i64\(ptr $reg, i8 $val, $length\$
^  call void @llvm\.trap\(\)\$
^  $reg = call i8 @llvm\.cttz\.i8\(i8 $val, i1 (true|false)\)\$
^  (br label $label|br i1 $val, label $label, label $label|ret void|ret (ptr|$int) $val|unreachable)\$
^  switch $int $val, label $label \[\$|^    $int -?[0-9]+, label $label\$|^  \]\$
END
if grep -vnE -f "$room/forms" "$room/kept.ll" > "$room/strange"; then
    head -n 5 "$room/strange" >&2
    die "the module has $(wc -l < "$room/strange") lines of no known form (the first above)"
fi

# 3. What the target's C compiler makes of the header: the lines of the target, and how each entry is declared.
printf 'typedef __SIZE_TYPE__ size_t;\n' > "$room/stddef.h"
printf 'typedef __UINT%s_TYPE__ uint%s_t;\n' 8 8 16 16 32 32 > "$room/stdint.h"
{
    echo '#include "router.h"'
    echo 'void *const entries[] = {'
    sed -n 's/^define noundef [^@]*@\([a-z_]*\)(.*/    (void *)\1,/p' "$room/kept.ll"
    echo '};'
} > "$room/entries.c"
compile="$clang --target=$triple $cpu --no-default-config"
size=$($compile -dM -E -x c /dev/null 2> "$room/said" | sed -n 's/^#define __SIZEOF_POINTER__ //p')
case $size in
4 | 8) ;;
'') cat "$room/said" >&2 && die "the kit's clang has no target $triple $cpu" ;;
*) die "$triple has pointers of $((8 * size)) bits, and this is for 32 and 64" ;;
esac
$compile -nostdinc -I"$room" -I"$top/include" -S -emit-llvm "$room/entries.c" -o "$room/header.ll" ||
    die "an entry of the module is not in include/router.h"

# What is of x86-64 in the module is changed, and nothing else:
# - The target's layout and name, for those of x86-64. Every offset and alignment is written down in bytes, with room of
#   8 for a pointer, and a number is read in the width that it was written in, but for cases (below): bytes have alignment
#   1, and with that nothing wider is read but in an entry (below). So neither the layout nor the order of bytes matters.
# - The attributes of each function but for x86-64: the processor (-mcpu), and the probes of a stack that ends in pages to
#   trap on.
# - The entries have the types that C's have, and extend a small result as C asks for it; of the upper bits of a small
#   parameter nothing is taken for granted. Where size_t has 32 bits the lengths handed over are widened; the one
#   returned is a length that was handed over, or below 100, and is cut. Inside, lengths, indices and sums have 64 bits as
#   in the proof, so that what never overflows there never does here. An offset from a pointer is cut to the pointer's
#   width: it lies in an area or an array, and none is that long.
# - Which case a value is of is read in a byte, and written in one: x86-64 writes it with the zeros that follow it, of
#   which the byte that is read is the first there and the last on a big-endian processor. Nothing else is written in more
#   than a byte with alignment 1, and nothing in an entry, which reads with it the pointers and lengths that it wrote with
#   8: else, or where such a number is read whole, in a pair too, or a byte with more than alignment 1, unless it is the
#   first of a pair with a wider second, the module is refused.
# - A pair is loaded field by field, the second from where x86-64 has it, since another target might have it elsewhere:
#   at its own width, as the first is no wider, or the module is refused.
# - On 32 bits the length of a copy is cut to, or written as, such a number, and an address has as many bits and is widened.
case $triple in x86_64-*linux*) same=yes ;; *) same=no ;; esac
awk -v size="$size" -v same=$same '
    BEGIN { width["i1"] = width["i8"] = 1; width["i16"] = 2; width["i32"] = 4; width["i64"] = width["ptr"] = 8 }
    function fail(why) { print "archive-for.sh: " why ": " $0 > "/dev/stderr"; exit failed = 1 }
    function inside(line) { sub(/^[^(]*\(/, "", line); sub(/\)[^)]*$/, "", line); return line }
    function named(line) { sub(/^[^@]*@/, "", line); sub(/\(.*/, "", line); return line }
    NR == FNR && /^target / { target = target $0 "\n" }
    NR == FNR && /^declare / { declared[named($0)] = $0 }
    NR == FNR { next }
    /^define / { split("", told); entry = /^define noundef /; copies = named($0) ~ /::copy_bits::/ }
    !copies && / = ptrtoaddr |@llvm\.memmove.*, i64 %[ar]/ { fail("what copy_bits alone may do") }
    / = zext i8 / { told[$1] = 1 }
    !entry && / = load (i(16|32|64)|ptr), .*, align 1(,|$)/ { fail("a case read in more than a byte") }
    / = load i[18], .*, align [248](,|$)/ { fail("a byte read with the alignment of a wider number") }
    /^target datalayout / { printf "%s", target; next }
    /^target triple / { next }
    /^attributes #0 / && same == "no" { print "attributes #0 = { nounwind }"; next }
    size == 4 && /@llvm\.mem/ {
        if (match($0, /, i64 %[ar][0-9]+/)) {
            length_of = substr($0, RSTART + 6, RLENGTH - 6); cut++
            print "  %n" cut " = trunc i64 " length_of " to i32"
            sub(/, i64 %[ar][0-9]+/, ", i64 %n" cut)
        }
        sub(/\.i64\(/, ".i32("); sub(/, i64/, ", i32")
    }
    size == 4 && / = ptrtoaddr / { cut++; print "  %n" cut " = ptrtoaddr ptr " $5 " to i32"; print "  " $1 " = zext i32 %n" cut " to i64"; next }
    /^  store (i(16|32|64)|ptr) .*, align 1$/ {
        if (entry) fail("a case written in an entry")
        value = substr($3, 1, length($3) - 1); cut++
        if (!(value in told) && (value !~ /^[0-9]+$/ || value + 0 > 255)) fail("a case written that is no byte")
        if (same == "yes") { print; next }
        if (value in told) print "  %n" cut " = trunc " $2 " " value " to i8"
        print "  store i8 " (value in told ? "%n" cut : value) ", ptr " $5 " align 1"
        next
    }
    / = load \{ / {
        first = $5; second = $6; from = $9; whole = $11; sub(/,$/, "", first); sub(/,$/, "", from)
        at = width[second]; cut++
        if (width[first] > at) fail("a pair whose first is the wider")
        if (whole + 0 < at) fail("a case read in more than a byte")
        if (whole + 0 > at) fail("a pair read with the alignment of a wider number")
        if (same == "yes") { print; next }
        print "  %n" cut " = load " first ", ptr " from ", align " whole
        print "  %o" cut " = getelementptr i8, ptr " from ", i64 " at
        print "  %p" cut " = load " second ", ptr %o" cut ", align " at
        print "  %q" cut " = insertvalue { " first ", " second " } poison, " first " %n" cut ", 0"
        print "  " $1 " = insertvalue { " first ", " second " } %q" cut ", " second " %p" cut ", 1"
        next
    }
    /^define noundef / {
        name = named($0); line = declared[name]; widened = ""; kept = $3
        n = split(inside($0), here, ", ")
        if (line == "" || split(inside(line), there, ", ") != n) fail("not as the header has it")
        sub(/^declare (dso_local )?/, "", line); sub(/ @.*/, "", line)
        returned = line; sub(/.* /, "", returned)
        if (kept != returned && (kept != "i64" || returned != "i32")) fail("not the result of the header")
        line = "define " line " @" name "("
        for (k = 1; k <= n; k++) {
            split(here[k], own, " "); split(there[k], c, " ")
            if (own[1] != c[1]) {
                if (own[1] != "i64" || c[1] != "i32") fail("not the parameters of the header")
                widened = widened "  " own[3] " = zext i32 %c" k " to i64\n"
                here[k] = "i32 noundef %c" k
            }
            line = line (k > 1 ? ", " : "") here[k]
        }
        print line ") #0 {"
        getline; print; printf "%s", widened
        next
    }
    /^  ret i64 / && kept == "i64" && returned == "i32" { print "  %cut = trunc i64 " $3 " to i32\n  ret i32 %cut"; next }
    /^}/ { kept = "" }
    { print }
    END { exit failed }' "$room/header.ll" "$room/kept.ll" > "$room/module.ll"

# 4. Its object and archive, by the words that the kit has for x86-64, or for AArch64. For other processors a second pass
# takes up the lengths that the first, by then done with the calls, has shown to be fixed: else a test of one would need a
# product of 64 bits, which on a Cortex-M0 is a call of a function.
case $triple in *linux*) pic=-fPIC ;; *) pic=-fno-pic ;; esac
case $triple in aarch64*) more="-mllvm -aarch64-load-store-renaming=false" ;; *) more= ;; esac
words="-mllvm -no-trap-after-noreturn $more -ffunction-sections -fdata-sections -mllvm -trap-unreachable \
    -mllvm -no-x86-call-frame-opt -mllvm -disable-machine-licm -mllvm -disable-postra-machine-licm \
    -mllvm -sink-common-insts=false -no-canonical-prefixes -fintegrated-cc1 -fno-crash-diagnostics -Werror $pic"
object() {
    [ $same = no ] || {
        $compile $words $level -c -x ir "$room/module.ll" -o "$room/${crate}_c.o"
        return
    }
    $compile $words $level -S -emit-llvm -x ir "$room/module.ll" -o "$room/once.ll" &&
        $compile $words -O1 -S -emit-llvm -x ir "$room/once.ll" -o "$room/twice.ll" &&
        $compile $words $level -Xclang -disable-llvm-passes -c -x ir "$room/twice.ll" -o "$room/${crate}_c.o"
}
object || die "the kit's clang can't compile for $triple $cpu"
mkdir -p "$(dirname "$out")"
rm -f "$out"
"$tools/llvm-ar" rcsD --format=gnu "$out" "$room/${crate}_c.o"
echo "$out"
