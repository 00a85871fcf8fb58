#!/usr/bin/env bash
# Proves what has changed, builds the program dtd or the static library, and puts it into target/.
#
#   bash tools/build.sh dtd       target/bin/dtd
#   bash tools/build.sh library   target/staticlib/libcurlewsong.a
#   bash tools/build.sh           both
#
# What rt says goes to target/build.log, and is shown where it fails.
set -uo pipefail
cd "$(dirname "$0")/.." || exit 1
[ $# -gt 0 ] || set -- dtd library
mkdir -p target || exit 1
log=$PWD/target/build.log

build() { # NAME
    case $1 in
    dtd) # rt runs it too, here on an empty book, whose refusal is not wanted
        (cd crates/dtd && rt run </dev/null 2>"$log" >/dev/null) &&
            install -D crates/dtd/out/dtd target/bin/dtd
        ;;
    library)
        (cd crates/curlewsong_c && rt lib >"$log" 2>&1) &&
            install -D -m 644 crates/curlewsong_c/out/libcurlewsong_c.a target/staticlib/libcurlewsong.a
        ;;
    *)
        echo "the names are dtd and library" >"$log"
        return 1
        ;;
    esac
}

for name in "$@"; do
    echo "build: $name (target/build.log shows how far it is)"
    build "$name" || { cat "$log"; echo "build: $name: failed"; exit 1; }
done
