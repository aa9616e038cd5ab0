#!/bin/sh
# archive.sh - prints the path of the archive to link: the given one, or the plain implementation under the router's
# names, or, where none is given, the crate's own, which it has proved and built.
# usage: archive.sh FOLDER [ARCHIVE|plain|'' [CRATE]]   (FOLDER: for what is built on the way; CRATE: router, or service
# for the service entries); SANITIZE: see flags.sh, for the plain implementation
set -eu
here=$(cd "$(dirname "$0")" && pwd)
. "$here/flags.sh"
crate=${3:-router}
case ${2:-} in
'')
    sh "$here/build.sh" $crate >&2
    echo "${here%/*}/target/staticlib/lib$crate.a"
    ;;
plain)
    case $crate in
    router) source=self ;;
    service) source=self_queues ;;
    esac
    gcc -std=c99 $strict -O2 -I"$here/../include" -c "$here/$source.c" -o "$1/$source.o"
    ar rcs "$1/lib$crate.a" "$1/$source.o"
    echo "$1/lib$crate.a"
    ;;
*)
    [ -f "$2" ] || { echo "archive.sh: there is no archive $2" >&2; exit 1; }
    echo "$2"
    ;;
esac
