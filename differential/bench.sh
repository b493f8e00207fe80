#!/bin/sh
# bench.sh: times of our calls beside the crate's, both built for release. Tables in markdown on standard output; a picture of each call
# in docs/pictures. Times are the thread's processor time, so other work on the machine matters little. It takes some minutes, and needs
# the Rattle toolchain for the library.
set -eu
here=$(cd "$(dirname "$0")" && pwd)
cd "$here/.."
why=$("$here/build.sh" --at-hand) || { echo "bench skipped: $why"; exit 0; }
mkdir -p target
tools/archive.sh runs
. "$here/library.sh"

processor=$(sed -n 's/^model name[^:]*: *//p' /proc/cpuinfo | head -1)
echo "$(date -u +%F), $(uname -m) ($processor, $(nproc) cores), $(rustc --version | cut -d' ' -f1,2); exports: $features"
echo
"$here/target/release/differential" speed
"$here/target/release/differential" growth docs/pictures
