#!/bin/sh
# test.sh: links a C and a Rust program with the archive and compares what the calls answer with `answers`, and with `small_answers` in a
# thread of 128 KiB of stack. Exit status 1 on a difference.
# The archive is target/staticlib/libhost.a (tools/archive.sh host); a compiler that isn't on the path is skipped, with a line that says so.
set -eu
over=0 # the exit status for a call that needs more than 128 KiB of stack, which is printed: 0 or 1
here=$(cd "$(dirname "$0")" && pwd)
repository=$(cd "$here/.." && pwd)
archives=$repository/target/staticlib
[ -f "$archives/libhost.a" ] || { echo "test.sh: no $archives/libhost.a: run tools/archive.sh host" >&2; exit 1; }
work=$(mktemp -d)
trap 'rm -r "$work"' EXIT
status=0

# Document 01's object in both forms, its first six bytes, nothing, its source, and a text with a `+` before a number (document 02, P8).
cp "$repository/crates/bin2text/stdin" "$work/binary"
cp "$repository/crates/bin2text/stdout" "$work/text"
head -c 6 "$work/binary" > "$work/six"
: > "$work/empty"
printf 'a\nb\n' > "$work/source"
printf 'LC-3 OBJ FILE\n.TEXT\n+0FF\n0\n' > "$work/plus"

compare() { # NAME: runs the program of this name
    if "$work/$1" "$work/binary" "$work/text" "$work/six" "$work/empty" | diff "$here/answers" -; then
        echo "$1: as expected"
    else
        echo "$1: differs"
        status=1
    fi
    small "$1"
}

# Each call is a process of its own: one that needs more stack ends it by a signal.
small() { # NAME
    calls=0 right=0
    while read -r call _ input answer; do
        input=${input%:} ended=0
        { came=$(ulimit -c 0; exec "$work/$1" small "$call" "$work/$input") || ended=$?; } 2> /dev/null
        calls=$((calls + 1))
        if [ "$ended" -gt 128 ]; then
            echo "$1: $call on $input: more than 128 KiB of stack"
            [ "$over" = 0 ] || status=1
        elif [ "$ended" = 0 ] && [ "$came" = "$answer" ]; then
            right=$((right + 1))
        else
            echo "$1: $call on $input: wanted $answer, got $came (exit status $ended)"
            status=1
        fi
    done < "$here/small_answers"
    echo "$1: $right of $calls calls as expected in a thread of 128 KiB"
}

if command -v gcc > /dev/null; then
    gcc -std=c11 -Wall -Wextra -Werror -pthread -o "$work/c" "$here/test.c" "$archives/libhost.a"
    compare c
else
    echo "c: skipped, gcc isn't on the path"
fi
if command -v rustc > /dev/null; then
    rustc --edition 2021 -D warnings -L "$archives" -l static=host -o "$work/rust" "$here/test.rs"
    compare rust
else
    echo "rust: skipped, rustc isn't on the path"
fi
exit $status
