#!/bin/sh
# archive.sh NAME..: proves the static libraries of these names (host, runs) and puts each at target/staticlib/libNAME.a. What rt says is
# kept in target/staticlib.log; where a library isn't proved, its end is printed, with exit status 1.
set -eu
cd "$(dirname "$0")/.."
mkdir -p target/staticlib
for name in "$@"; do
    (cd "crates/$name" && rt lib) > target/staticlib.log 2>&1 || { tail -20 target/staticlib.log >&2; exit 1; }
    cp "crates/$name/out/lib$name.a" target/staticlib/
done
