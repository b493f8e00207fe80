#!/bin/sh
# soak.sh [MINUTES [SEED]]: runs of a million random cases of each call, one after the other with seeds from SEED on (100), until MINUTES (30)
# are over. Prints a line for each run, and in the end how many calls were made. Exit status 1 at the first run with a difference.
set -eu
here=$(cd "$(dirname "$0")" && pwd)
minutes=${1:-30}
seed=${2:-100}

. "$here/library.sh"
log=$here/target/soak.log
began=$(date +%s)
runs=0
calls=0
while [ $(($(date +%s) - began)) -lt $((minutes * 60)) ]; do
    "$here/target/release/differential" run --cases 1000000 --short none --long 20 --many 20 --seed "$seed" > "$log" || {
        cat "$log"
        echo "seed $seed: differs"
        exit 1
    }
    made=$(awk '$4 ~ /%$/ { n += $3 } END { print n + 0 }' "$log")
    runs=$((runs + 1))
    calls=$((calls + made))
    echo "seed $seed: $made calls, 0 differences, $((($(date +%s) - began) / 60)) minutes"
    seed=$((seed + 1))
done
echo "$runs runs, $calls calls, 0 differences, $((($(date +%s) - began) / 60)) minutes"
