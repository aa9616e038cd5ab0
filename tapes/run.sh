#!/bin/sh
# run.sh - compares what the programs `tape` and `page` print with what the second implementation does, on the tapes of
# this folder and on long ones made here, and sees what they do where they can't write or read and while a pipe is open.
# usage: run.sh [TAPE_PROGRAM PAGE_PROGRAM] [write]
# Without programs, target/bin/tape and target/bin/page, which host/build.sh has proved and built.
# write: first writes the tapes of this folder anew, and what is expected of them. Needs gcc and python3.
# SANITIZE=yes: the second implementation is built with sanitizers (host/flags.sh).
# Ends with a line "tapes: N passed, M failed"; nonzero exit on any failure.
set -u
here=$(cd "$(dirname "$0")" && pwd)
suite=tapes
. "$here/../host/flags.sh"
. "$here/../host/steps.sh"
tape_program=
page_program=
write=no
words=0
for word; do
    case $word in
    write) write=yes ;;
    *)
        words=$((words + 1))
        tape_program=${tape_program:-$word}
        page_program=$word
        ;;
    esac
done
case $words in
0 | 2) ;;
*) echo "usage: run.sh [TAPE_PROGRAM PAGE_PROGRAM] [write]" >&2; exit 1 ;;
esac
for command in gcc python3; do
    command -v $command > /dev/null || { echo "tapes: there is no $command, and nothing to compare with" >&2; exit 1; }
done
if [ $words -eq 0 ]; then
    sh "$here/../host/build.sh" tape page || exit 1
    tape_program=$here/../target/bin/tape
    page_program=$here/../target/bin/page
fi
for program in "$tape_program" "$page_program"; do
    [ -x "$program" ] || { echo "tapes: there is no program $program" >&2; exit 1; }
done
gcc -std=c99 $strict -O2 -I"$here/../include" -I"$here/../host" \
    "$here/second.c" "$here/../host/record.c" "$here/../host/whole.c" -o "$build/second" || exit 1

# In all that follows a PROGRAM is the word tape or page.

run() { # PROGRAM
    case $1 in
    tape) timeout 60 "$tape_program" ;;
    page) timeout 60 "$page_program" ;;
    esac
}

# What the second implementation prints in the program's place.
second() { # PROGRAM
    case $1 in
    tape) "$build/second" ;;
    page) "$build/second" pages ;;
    esac
}

# The file that has what the program prints of a shipped tape.
expected() { # PROGRAM NAME
    case $1 in
    tape) echo "$here/$2.expected" ;;
    page) echo "$here/$2.pages" ;;
    esac
}

# The files of this folder are the tapes of make.py and what second.c says of them, no file more and none less.
shipped() {
    mkdir "$build/shipped" && python3 "$here/make.py" shipped "$build/shipped" || return 1
    for file in "$build/shipped"/*.tape; do
        second tape < "$file" > "${file%.tape}.expected" && second page < "$file" > "${file%.tape}.pages" || return 1
    done
    [ $write = no ] || cp "$build/shipped"/* "$here"
    diff -rq -x '*.py' -x '*.c' -x '*.sh' -x '*.md' "$here" "$build/shipped"
}

# quiet STATUS EXPECTED: the program ended well, said nothing on standard error, and printed what is expected.
quiet() {
    test "$1" -eq 0 && test ! -s "$build/said" && cmp "$2" "$build/found"
}

prints() { # PROGRAM TAPE EXPECTED
    run "$1" < "$2" > "$build/found" 2> "$build/said"
    quiet $? "$3"
}

# Reads that come short: through a pipe, seven bytes at a time.
prints_from_pipe() { # PROGRAM TAPE EXPECTED
    dd if="$2" bs=7 2> /dev/null | run "$1" > "$build/found" 2> "$build/said"
    quiet $? "$3"
}

# made WHAT NUMBER: a tape by make.py, for the steps that follow.
made() {
    python3 "$here/make.py" "$1" "$2" > "$build/tape"
}

# made_records WHAT RECORDS REST: one of so many records and so many bytes more.
made_records() {
    made "$1" "$2" && test "$(wc -c < "$build/tape")" -eq $((24 * $2 + $3))
}

# The program prints of the tape that was made what the second implementation does, which is not nothing.
agrees() { # PROGRAM
    second "$1" < "$build/tape" > "$build/expected" &&
        test -s "$build/expected" && prints "$1" "$build/tape" "$build/expected"
}

# The lines of the ticks on pages; nonzero where these are no pages: 64 lines of 72 characters each, their number in the
# first, in the last what the others have withdrawn.
ticks_of_pages() {
    awk '
    length($0) != 72 { wrong = 1 }
    NR % 64 == 1 { total = 0; if ($0 != sprintf("%72d", (NR + 63) / 64 % 10000)) wrong = 1; next }
    NR % 64 == 0 { if ($0 != sprintf("%06d%66s", total, "")) wrong = 1; next }
    /[^ ]/ { total += substr($0, 27, 4); print substr($0, 1, 30) }
    END { exit (wrong || NR % 64 != 0) }'
}

# same_ticks TICKS: of the tape that was made `page` prints the ticks that `tape` does, so many. second.c is not asked.
same_ticks() {
    run page < "$build/tape" > "$build/found" && run tape < "$build/tape" > "$build/lines" &&
        grep '^T' "$build/lines" > "$build/ticks" && test "$(wc -l < "$build/ticks")" -eq "$1" &&
        test "$(wc -c < "$build/found")" -eq $((($1 + 61) / 62 * 64 * 73)) &&
        ticks_of_pages < "$build/found" > "$build/rows" && cmp "$build/ticks" "$build/rows"
}

# says_so PROGRAM STATUS: the program ended by itself, and said on standard error that it could not go on.
says_so() {
    test "$2" -eq 0 && head -n 1 "$build/said" | grep -q "^$1: ."
}

# begins EXPECTED: what the program printed is a beginning of what is expected, and neither all nor nothing.
begins() {
    test -s "$build/found" && test "$(wc -c < "$build/found")" -lt "$(wc -c < "$1")" &&
        head -c "$(wc -c < "$build/found")" "$1" | cmp - "$build/found"
}

# A tape without end, of ticks.
endless() {
    yes T0000000000000000000000 2> /dev/null | tr '0\n' '\000\000' 2> /dev/null
}

# Standard output on a full disk.
full_disk() { # PROGRAM TAPE
    run "$1" < "$2" > /dev/full 2> "$build/said"
    says_so "$1" $?
}

# A tape without end shows that nothing is read after the failed write.
full_disk_endless() { # PROGRAM
    endless | run "$1" > /dev/full 2> "$build/said"
    says_so "$1" $?
}

# Standard output into a file that may have 2 KiB and no more, which is in the midst of a page.
disk_gets_full() { # PROGRAM TAPE EXPECTED
    (
        trap '' XFSZ
        ulimit -f 4
        run "$1" < "$2" > "$build/found" 2> "$build/said"
    )
    says_so "$1" $? && begins "$3"
}

# Standard output into a pipe whose reader has gone, by word of the fifo, with an action on SIGPIPE: the signal ends the
# program, or the write fails.
closed_pipe() { # PROGRAM ACTION
    rm -f "$build/gone" "$build/status"
    mkfifo "$build/gone" || return 1
    {
        read -r _ < "$build/gone"
        trap "$2" PIPE
        endless | run "$1" 2> "$build/said"
        echo $? > "$build/status"
    } | {
        exec <&-
        echo > "$build/gone"
    }
    status=$(cat "$build/status") || return 1
    test "$status" -eq $((128 + 13)) || says_so "$1" "$status"
}

closed_input() { # PROGRAM
    run "$1" <&- > "$build/found" 2> "$build/said"
    says_so "$1" $? && test ! -s "$build/found"
}

folder_as_input() { # PROGRAM
    run "$1" < "$here" > "$build/found" 2> "$build/said"
    says_so "$1" $? && test ! -s "$build/found"
}

# length_of PROGRAM TICKS: how many bytes are out as soon as so many ticks, and nothing else, have been read.
length_of() {
    case $1 in
    tape) echo $((31 * $2)) ;;
    page) echo $((73 * (64 * ($2 / 62) + ($2 % 62 > 0) + $2 % 62))) ;;
    esac
}

# Waits, 20 seconds at most, until the program has printed so many bytes.
comes_out() { # LENGTH
    looks=0
    until test "$(wc -c < "$build/found")" -eq "$1"; do
        looks=$((looks + 1))
        test $looks -lt 200 || return 1
        sleep 0.1
    done
}

# feed PROGRAM TICKS..: writes the tape that was made to descriptor 3, up to each of these ticks and five bytes more, and
# goes on when what the ticks print has come out.
feed() {
    program=$1
    shift
    from=0
    for ticks; do
        to=$((24 * ticks + 5))
        tail -c +$((from + 1)) "$build/tape" | head -c $((to - from)) >&3
        if ! comes_out "$(length_of "$program" "$ticks")"; then
            echo "$ticks ticks have come, and $(wc -c < "$build/found") bytes are out"
            return 1
        fi
        from=$to
    done
}

# A pipe that stays open: each line is out before the next record comes, and a whole page with its 62nd tick.
open_pipe() { # PROGRAM
    rm -f "$build/open"
    mkfifo "$build/open" && made plain 64 || return 1
    run "$1" > "$build/found" 2> "$build/said" < "$build/open" &
    exec 3> "$build/open"
    feed "$1" 1 2 61 62 63
    fed=$?
    exec 3>&-
    wait $!
    status=$?
    head -c $((24 * 63 + 5)) "$build/tape" | second "$1" > "$build/expected" &&
        test $fed -eq 0 && quiet $status "$build/expected"
}

# Standard input that can't be read after ten ticks and five bytes more: an empty pipe that the reader may not wait for.
# The ticks are printed, and their page isn't completed.
failed_read() { # PROGRAM
    rm -f "$build/dry"
    mkfifo "$build/dry" && made plain 11 && second "$1" < "$build/tape" > "$build/expected" || return 1
    exec 3<> "$build/dry"
    head -c $((24 * 10 + 5)) "$build/tape" >&3
    python3 -c 'import os; os.set_blocking(3, False)'
    run "$1" <&3 > "$build/found" 2> "$build/said"
    status=$?
    exec 3<&-
    says_so "$1" $status && begins "$build/expected" &&
        test "$(wc -c < "$build/found")" -eq "$(length_of "$1" 10)"
}

# What the second implementation prints of the worked example is what the crate has.
worked_example() { # PROGRAM
    example=$here/../crates/$1
    second "$1" < "$example/stdin" > "$build/expected" && cmp "$example/stdout" "$build/expected"
}

# The page in the README is what `page` prints of that tape.
readme_page() {
    awk '
    index($0, "    target/bin/page < tapes/ticks-62.tape") == 1 { command = 1 }
    command && /^```/ { if (block++) exit; next }
    block' "$here/../README.md" | cmp - "$here/ticks-62.pages"
}

step "the shipped tapes are those of make.py, and second.c says what is expected of them" shipped
for file in "$here"/*.tape; do
    tape=$(basename "$file" .tape)
    for program in tape page; do
        step "$program: $tape" prints $program "$file" "$(expected $program "$tape")"
        step "$program: $tape, through a pipe" prints_from_pipe $program "$file" "$(expected $program "$tape")"
    done
done
for program in tape page; do
    step "$program: second.c on the worked example of document 01" worked_example $program
done
step "the worked example is one" cmp "$here/../crates/tape/stdin" "$here/../crates/page/stdin"
step "the page in the README" readme_page
step "made: 1,000,003 refused records" made_records numbers 1000003 0
step "tape: 1,000,003 refused records, numbers of seven digits" agrees tape
for number in 3000 3001 3002 3003 3004; do
    step "made: $number records by chance" made_records long $number 0
    step "tape: $number records by chance" agrees tape
    step "page: $number records by chance" agrees page
done
step "made: 1,050,000 records by chance and a rest" made_records far 1050000 13
step "tape: 1,050,000 records by chance and a rest, past 2^20 and 1,024 blocks" agrees tape
step "page: 1,050,000 records by chance and a rest" agrees page
number=$((62 * 10003 + 7))
step "made: $number ticks, 10,003 pages and seven ticks more" made pages $number
step "page: $number ticks, past page 9,999" agrees page
step "page: $number ticks, on pages by their form, and the same as those of tape" same_ticks $number
step "tape: full disk, a rest alone" full_disk tape "$here/rest.tape"
for program in tape page; do
    step "$program: full disk, a tape" full_disk $program "$here/turns.tape"
    step "$program: full disk, a tape without end" full_disk_endless $program
    step "$program: a disk that gets full" disk_gets_full $program "$here/turns.tape" "$(expected $program turns)"
    step "$program: closed pipe" closed_pipe $program -
    step "$program: closed pipe, SIGPIPE ignored" closed_pipe $program ''
    step "$program: closed standard input" closed_input $program
    step "$program: a folder as standard input" folder_as_input $program
    step "$program: a read that fails after ten ticks" failed_read $program
    step "$program: a pipe that stays open" open_pipe $program
done
ended=yes
