#!/bin/sh
# places.sh - counts in the crates' source what docs/DESIGN-PASS.md counts, a line for each pattern.
# usage: places.sh [-l] [COMMIT]   (the work tree where no commit is named; -l: lists the places too)
set -eu
cd "$(dirname "$0")/.."
list=no
[ "${1:-}" != -l ] || { list=yes && shift; }
commit=${1:-}

# places NAME PATTERN: how many lines of the source have it, comments aside.
places() {
    found=$(git grep -nE "$2" $commit -- ':(glob)crates/*/src/*.rt' | grep -vE '\.rt:[0-9]+: *//' || true)
    [ $list = no ] || echo "$found" | sed 's/^\([^ ]*\.rt:[0-9]*\): */    \1 /'
    echo "$1: $(echo "$found" | grep -c . || true)"
}

places '1 enums' '^ *(pub )?enum '
places '1 flags that a struct holds' '^ *(pub )?[a-z_]+: bool,$'
places '1 numbers for refusals' '(number|refusal|n) != 0|\.number\(\)|Refused\(u8\)|^pub fn (router_(fresh|control|tick|queues_[a-z]+)\(.*-> u8|make_fresh.*-> u8|refusal\b)|lowest_bad\(.*-> u16'
places '1 numbers for kinds' '\b(register|code): u8|early: bool|^(pub )?const (CONTROL|ARRIVAL|TICK|IDLE|ON_TIME|BEST_EFFORT|EARLY|REFUSED): u8'
places '3 loops with a condition' '^ *while '
places '4 conversions by arithmetic or a function of that name' '\* 256|/ 256|% 256|wrapping_(add|sub)_u8|^ *(pub )?fn (number|code|wide|high|low|pick|both|lesser|rest)\b'
places '5 lengths in contracts' 'length [a-z]+(\.now|\.old)? ≡'
places '5 ports in contracts' 'port < 5'
places '5 pages not full in contracts' 'Unfilled'
places '5 state and memory side by side' 'state: &(mut )?(\[u8\]|State), memory|^ *memory: &(mut )?(\[u8\]|Memory),'
places '6 a place or a length beside a buffer' '\b(at|count|filled|length): usize'
places '7 switches on a style or a sort' 'match style|\bif early\b'
