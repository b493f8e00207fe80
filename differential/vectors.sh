#!/bin/sh
# vectors.sh: makes the lists of answers anew that test programs replay without Rust at hand, byte for byte the same.
# src/vectors.rs says how a line reads.
set -eu
here=$(cd "$(dirname "$0")" && pwd)
"$here/build.sh"
for list in queries binary text; do
    "$here/target/release/differential" vectors $list > "$here/vectors-$list.txt"
done
wc -l "$here"/vectors-*.txt
