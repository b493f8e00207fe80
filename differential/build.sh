#!/bin/sh
# build.sh [CARGO WORDS..]: takes the source text of lc3-ensemble 0.10.0, unchanged, and builds the comparison for release.
# Exit status 3, and one line that says why, where cargo or the source text isn't at hand; build.sh --at-hand looks for them and no more.
#
# The text is in the folder that LC3_SOURCE names, else in ../shared/docs/src beside this repository; src/asm.rs and
# src/asm/encoding.rs stand below it. Of these, src/asm/encoding.rs here becomes a copy, and src/asm.rs whole line ranges. Neither is
# edited, and neither is kept in version control.
set -eu
here=$(cd "$(dirname "$0")" && pwd)
repository=$(cd "$here/.." && pwd)
source=${LC3_SOURCE:-$repository/../shared/docs/src}
asm=$source/src/asm.rs
encoding=$source/src/asm/encoding.rs

command -v cargo > /dev/null || { echo "cargo isn't on the path"; exit 3; }
[ -f "$asm" ] && [ -f "$encoding" ] || { echo "no source text of lc3-ensemble in $source (LC3_SOURCE may name its folder)"; exit 3; }
[ "${1:-}" != --at-hand ] || exit 0

# The line ranges below are those of this very text.
same() { # FILE SHA256
    [ "$(sha256sum < "$1")" = "$2  -" ] || { echo "build.sh: $1 isn't that of lc3-ensemble 0.10.0" >&2; exit 1; }
}
same "$asm" 032deb3f84717edd85d1d2c97abb29fd91dc947d68b4a735d23f54d5fc628e04
same "$encoding" 5491ebe8bf7f91fa24a349f166fd0f3368ffb67a6eb6ef2b01dd9d324e8beba5

part() { echo; echo "// asm.rs, lines $1"; sed -n "$1p" "$asm"; }
assembled() {
    echo "// Made by build.sh from asm.rs of lc3-ensemble 0.10.0 (MIT): whole line ranges, unchanged."
    echo "#![allow(dead_code)]"
    part 13,13          # the module encoding
    part 16,17          # what it uses
    part 186,313        # LineSymbolMap
    part 314,435        # SourceInfo
    part 437,448        # SymbolData
    part 450,466        # DebugSymbols and its lookups, without link
    part 485,485
    part 486,528        # SymbolTable
    part 709,938        # its lookups and iterators, without new
    part 1022,1045      # ObjectFile, empty
    part 1302,1326      # its iterators, without new, get_mut and link
    part 1328,1335      # Addr
    echo
    echo "// Ours: a child module, which may touch the private fields above."
    echo '#[path = "access.rs"]'
    echo "pub mod access;"
}

# Written only where it changes, so that cargo doesn't build again for nothing.
put() { # FILE, from standard input
    cat > "$1.new"
    if cmp -s "$1.new" "$1"; then rm "$1.new"; else mv "$1.new" "$1"; fi
}
mkdir -p "$here/src/asm"
put "$here/src/asm/encoding.rs" < "$encoding"
assembled | put "$here/src/asm.rs"

cd "$here"
cargo build --release --offline --quiet "$@"
