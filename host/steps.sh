# steps.sh - what the test scripts share: a folder to build in, steps that are counted, a last line on every way out.
# To be read by `.` where `suite` has the name in that line, "SUITE: N passed, M failed"; with SANITIZE (flags.sh) the
# name is "SUITE, sanitized". A script that ends without `ended=yes` counts one failure more; any failure makes its exit
# status nonzero.
[ "${SANITIZE:-}" != yes ] || suite="$suite, sanitized"
passed=0
failed=0
ended=
build=

finish() {
    [ -z "$build" ] || rm -rf "$build"
    if [ -z "$ended" ]; then
        failed=$((failed + 1))
        echo "FAIL $suite ended before its last step"
    fi
    echo "$suite: $passed passed, $failed failed"
    [ $failed -eq 0 ] || exit 1
}
trap finish EXIT
trap 'exit 1' HUP INT TERM
build=$(mktemp -d) || exit 1

# step NAME COMMAND..: runs it and counts it.
step() {
    name=$1
    shift
    if "$@"; then
        passed=$((passed + 1))
        echo "ok   $name"
    else
        failed=$((failed + 1))
        echo "FAIL $name"
    fi
}

# sections FILE: counts the lines by which a program says what passed and what failed.
sections() {
    passed=$((passed + $(grep -c '^ok ' "$1")))
    failed=$((failed + $(grep -c '^FAIL ' "$1")))
}
