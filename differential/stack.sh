#!/bin/sh
# stack.sh [WORDS..]: the stack that each export of the libraries at hand (library.sh) uses, as a table in markdown.
# WORDS go to `differential stack`: --strict, and a call over 128 KiB is a failure.
# Exit status 1 for a wrong answer, or a known use that isn't measured right; 0 and one line where cargo or the source text isn't at hand.
set -eu
here=$(cd "$(dirname "$0")" && pwd)

. "$here/library.sh"
exec "$here/target/release/differential" stack "$@"
