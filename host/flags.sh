# flags.sh - how the C of host/, cabinet/ and tapes/ is compiled: leaves gcc's words in `strict`. To be read by `.`.
# SANITIZE=yes in the environment: with the address and the undefined-behaviour sanitizer. A program then ends with
# status 99 and a report on standard error at an access out of bounds, or at what C leaves undefined.
strict="-Wall -Wextra -Wpedantic -Wshadow -Werror"
case ${SANITIZE:-} in
'') ;;
yes)
    # No position-independent programs: where the kernel scatters these widely (vm.mmap_rnd_bits 32), one can come to
    # lie where gcc 12's sanitizer wants to have its heap.
    strict="$strict -g -fsanitize=address,undefined -fno-sanitize-recover=all -fno-pie -no-pie"
    # handle_segv=1: the sanitizer reports a SIGSEGV, but a program may set its own handler, as pages.c does for the
    # inaccessible pages at the ends of an area; such an access is then a failed section. Leaks are not looked for, as
    # this takes ptrace, which not every machine allows.
    export ASAN_OPTIONS=exitcode=99:handle_segv=1:detect_leaks=0 UBSAN_OPTIONS=exitcode=99:print_stacktrace=1
    ;;
*)
    echo "SANITIZE is yes, or nothing" >&2
    exit 1
    ;;
esac
