#!/bin/sh
# run.sh quick|full [WORDS..]: builds the comparison with the libraries that are at hand (library.sh), and runs.
# WORDS go to `differential run`, as --seed 7 or --cases 3000000. Without a library the second reading of document 01 stands in for it.
# Exit status 1 for a difference, or for a run that shows too little; 0 and one line where cargo or the source text isn't at hand.
set -eu
here=$(cd "$(dirname "$0")" && pwd)

kind=${1:-}
case $kind in
    quick) plan="--cases 40000 --short quick --long 4 --many 10" ;;
    full) plan="--cases 1000000 --short full --long 500 --many 300" ;;
    *) echo "usage: run.sh quick|full [WORDS..]" >&2; exit 2 ;;
esac
shift

. "$here/library.sh"
exec "$here/target/release/differential" run $plan --strict "$@"
