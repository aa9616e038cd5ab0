#!/bin/sh
# build.sh - has the kit prove and build the archives and the programs, for x86-64.
# usage: build.sh [after-ci] [router|service|tape|page]..   (all four where none is named)
# router, service: target/staticlib/libNAME.a, of the crate NAME_c, and in target/module/NAME.bc the module that the
# kit's clang was handed for it. tape, page: target/bin/NAME.
# after-ci: right behind the first `rt ci` of a checkout, which leaves each library and each program proved; only an
# archive's own crate is then proved here. Else what has changed since the last time is.
# Of what is not proved nothing is written, and the exit status is nonzero.
set -eu
here=$(cd "$(dirname "$0")" && pwd)
. "$here/kit.sh"
top=${here%/*}
ci=no
[ "${1:-}" != after-ci ] || { ci=yes && shift; }
room=$(mktemp -d)
trap 'rm -rf "$room"' EXIT
mkdir -p "$top/target/staticlib" "$top/target/module" "$top/target/bin"

# run COMMAND..: what it said is shown where it fails, and else kept in `said`.
run() {
    "$@" > "$room/said" 2>&1 < /dev/null || { cat "$room/said" >&2 && exit 1; }
}

# verdict NAME: what was said of its proof.
verdict() {
    echo "$1: $(grep -e '^logic=proved ' -e '^rt: nothing has changed' "$room/said" | tail -n 1)"
}

# A toolchain of links to the kit's, whose clang first copies what it is handed to the file that `module` names.
cp -rs "$kit/toolchain" "$room/toolchain"
rm "$room/toolchain/bin/clang"
cat > "$room/toolchain/bin/clang" <<END
#!/bin/sh
/bin/cp module.bc "$room/module.bc" && exec "$tools/clang" "\$@"
END
chmod +x "$room/toolchain/bin/clang"

# archive NAME: over the libraries that stand in the crates' out/. The code is for every x86-64 processor.
archive() {
    rm -f "$top/target/staticlib/lib$1.a" "$top/target/module/$1.bc"
    cd "$top/crates/$1_c"
    [ $ci = yes ] || run rt check
    set -- "$1" --crate-name "$1_c" src/lib.rt --crate-type staticlib --cpu x86-64
    for library in $(sed -n "s/^$1_c staticlib: //p" "$top/crates.txt"); do
        set -- "$@" --extern "$library=../$library/out/rlib/$library.rlib"
    done
    for folder in ../*/out/rlib; do
        set -- "$@" -L "dependency=$folder"
    done
    name=$1
    shift
    run "$kit/bin/rattle" build "$@" --extern "std=$kit/rlibs/std.rlib" -L "dependency=$kit/rlibs" \
        --antt-project "$kit/rattle/logic/antt-project.json" --logic-built "$kit/logic_built" \
        --toolchain "$room/toolchain" -o "$top/target/staticlib/lib$name.a"
    cp "$room/module.bc" "$top/target/module/$name.bc"
    verdict "$name"
}

# program NAME: `rt run` runs it, too, on nothing.
program() {
    rm -f "$top/target/bin/$1"
    cd "$top/crates/$1"
    if [ $ci = yes ]; then
        echo "$1: as rt ci built it"
    else
        run rt run
        verdict "$1"
    fi
    cp "out/$1" "$top/target/bin/$1"
}

for name in ${*:-router service tape page}; do
    case $name in
    router | service) archive $name ;;
    tape | page) program $name ;;
    *) echo "usage: build.sh [after-ci] [router|service|tape|page].." >&2 && exit 1 ;;
    esac
done
