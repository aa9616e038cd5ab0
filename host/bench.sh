#!/bin/sh
# bench.sh - prints three tables: the router of an archive beside the plain implementation; the queue engine of another
# beside the plain one and the router, which is its comparator; and router_fault beside the plain one and the questions
# of a call.
# usage: bench.sh [once] [ARCHIVE|plain [SERVICE-ARCHIVE|plain]]   (as for run.sh); LIBS: more to link. Needs valgrind,
# which counts the instructions.
# once: runs each row of the tables and counts nothing, without valgrind; SANITIZE=yes: with sanitizers (flags.sh).
set -eu
here=$(cd "$(dirname "$0")" && pwd)
. "$here/flags.sh"
once=no
[ "${1:-}" != once ] || { once=yes && shift; }
[ $once = yes ] || command -v valgrind > /dev/null || { echo "bench.sh: there is no valgrind" >&2; exit 1; }
build=$(mktemp -d)
trap 'rm -rf "$build"' EXIT
cflags="-std=c99 $strict -I$here/../include -I$here"
libs=${LIBS:-}
given=${1:-}
service_given=${2:-}
[ "$given$service_given" != plain ] || service_given=plain
router_entries="fresh control tick"
engine_entries="queues_fill queues_control queues_tick"

# compile LEVEL SOURCE: makes an object of a plain implementation with other names.
compile() {
    names=
    for entry in $router_entries display version fault $engine_entries service_version; do
        names="$names -Dplain_$entry=plain_o$1_$entry"
    done
    gcc $cflags -O$1 -fstack-usage -ffunction-sections $names -c "$here/$2.c" -o "$build/$2_o$1.o"
}
for level in 2 3; do
    compile $level plain
    compile $level plain_queues
done
archive=$(sh "$here/archive.sh" "$build" "$given")
service=$(sh "$here/archive.sh" "$build" "$service_given" service)
gcc $cflags -O2 "$here/bench.c" "$here/scenario.c" "$build"/plain_o?.o "$build"/plain_queues_o?.o "$service" "$archive" $libs -Wl,-z,now \
    -o "$build/bench"

if [ $once = yes ]; then
    for subject in router engine fault; do
        for scenario in $("$build/bench" names $subject); do
            for implementation in none ours O2 O3; do
                "$build/bench" count $implementation "$scenario" 1
            done
        done
    done
    "$build/bench" wall 1 > /dev/null
    "$build/bench" stack > /dev/null
    exit
fi

# total IMPLEMENTATION SCENARIO REPEATS: instructions of a whole run.
total() {
    valgrind --tool=callgrind --callgrind-out-file=/dev/null "$build/bench" count "$1" "$2" "$3" 2>&1 |
        sed -n 's/.*Collected : //p'
}

# instructions IMPLEMENTATION SCENARIO: of one call and the bench around it.
few=10
many=110
instructions() {
    echo $((($(total "$1" "$2" $many) - $(total "$1" "$2" $few)) / (many - few)))
}

# count SCENARIO: leaves the instructions of one call of each implementation in ours, o2 and o3.
count() {
    none=$(instructions none "$1")
    ours=$(($(instructions ours "$1") - none))
    o2=$(($(instructions O2 "$1") - none))
    o3=$(($(instructions O3 "$1") - none))
}

ratio() {
    awk "BEGIN { printf \"%.2f\", $1 / $2 }"
}

# field FILE IMPLEMENTATION SCENARIO: the figure in that line.
field() {
    sed -n "s/^$2 $3 //p" "$1"
}

# linked OBJECTS: bytes of program and constants of a program.
linked() {
    gcc -Wl,--gc-sections -o "$build/linked" "$@" $libs
    size -A "$build/linked" | awk '$1 == ".text" || $1 == ".rodata" { sum += $2 } END { print sum }'
}

# text FILE: bytes of text of an object or of all in an archive.
text() {
    size -t "$1" 2> /dev/null | awk 'END { print $1 }'
}

# code PREFIX OBJECT ENTRY..: bytes that these entries of that prefix bring into a program.
code() {
    prefix=$1
    object=$2
    shift 2
    {
        printf "int ${prefix}_%s();\n" "$@"
        printf 'int main(void) { return 0'
        printf " + ${prefix}_%s()" "$@"
        echo '; }'
    } > "$build/probe.c"
    printf "int ${prefix}_%s() { return 0; }\n" "$@" > "$build/stub.c"
    gcc -w -O2 -c "$build/probe.c" -o "$build/probe.o"
    gcc -w -c "$build/stub.c" -o "$build/stub.o"
    echo $(($(linked "$build/probe.o" "$object") - $(linked "$build/probe.o" "$build/stub.o")))
}

# sizes ARCHIVE OBJECT ENTRY..: leaves what these entries bring into a program in ours, o2 and o3.
sizes() {
    from=$1
    plain=$2
    shift 2
    ours=$(code router "$from" "$@")
    o2=$(code plain_o2 "$build/${plain}_o2.o" "$@")
    o3=$(code plain_o3 "$build/${plain}_o3.o" "$@")
}

# frame OBJECT: the largest of its functions.
frame() {
    awk '{ if ($2 > most) most = $2 } END { print most }' "$build/$1.su"
}

# code_row ARCHIVE OBJECT ENTRY..: the row of what these entries bring into a program.
code_row() {
    sizes "$@"
    echo "| bytes of code, linked | $ours | $o2 | $o3 | $(ratio "$ours" "$o2") | | | | | | |"
}

# archive_rows ARCHIVE OBJECT: the rows of an archive and of the objects in its place.
archive_rows() {
    echo "| bytes of text, archive or object | $(text "$1") | $(text "$build/$2_o2.o") | $(text "$build/$2_o3.o") | | | | | | | |"
    echo "| largest frame (-fstack-usage) | | $(frame "$2_o2") | $(frame "$2_o3") | | | | | | | |"
}

# beside SUBJECT OTHER BEGIN LIKE: a table of the subject's scenarios, each beside that of the router whose name has LIKE
# in the place of BEGIN.
beside() {
    echo "| scenario | $1, instructions | plain -O2 | plain -O3 | $1 / -O2 | $2 | $1 / $2 | $1, stack | plain -O2 | plain -O3 | $2 |"
    echo "|---|--:|--:|--:|--:|--:|--:|--:|--:|--:|--:|"
    for scenario in $("$build/bench" names "$1"); do
        like=$4${scenario#"$3"}
        count "$scenario"
        other=$(field "$build/counted" ours "$like")
        printf '| %s | %s | %s | %s | %s |' "$scenario" "$ours" "$o2" "$o3" "$(ratio "$ours" "$o2")"
        printf ' %s | %s |' "$other" "$([ -z "$other" ] || ratio "$ours" "$other")"
        for implementation in ours O2 O3; do
            printf ' %s |' "$(field "$build/stack" $implementation "$scenario")"
        done
        echo " $(field "$build/stack" ours "$like") |"
    done
}

"$build/bench" wall 40 > "$build/wall"
"$build/bench" stack > "$build/stack"
: > "$build/counted"

echo "| scenario | router, instructions | plain -O2 | plain -O3 | router / -O2 | router, ns | plain -O2 | plain -O3 | router, stack | plain -O2 | plain -O3 |"
echo "|---|--:|--:|--:|--:|--:|--:|--:|--:|--:|--:|"
for scenario in $("$build/bench" names router); do
    count "$scenario"
    echo "ours $scenario $ours" >> "$build/counted"
    printf '| %s | %s | %s | %s | %s |' "$scenario" "$ours" "$o2" "$o3" "$(ratio "$ours" "$o2")"
    for what in wall stack; do
        for implementation in ours O2 O3; do
            printf ' %s |' "$(field "$build/$what" $implementation "$scenario")"
        done
    done
    echo
done
code_row "$archive" plain $router_entries
archive_rows "$archive" plain

echo
echo "The queue engine beside the comparator, which is the router of the table above:"
echo
beside engine comparator queues- ''
code_row "$service" plain_queues $engine_entries
archive_rows "$service" plain_queues

echo
echo "router_fault on sound states beside the questions of a call alone, which are rows of the first table:"
echo
beside fault questions fault questions
code_row "$service" plain_queues fault
