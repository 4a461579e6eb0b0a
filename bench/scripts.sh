#!/usr/bin/env bash
# How long a script takes to be read and parsed: flushes, 250,000 lines and doubled twice, and a last line that is
# refused, so that nothing is run.
#
# Usage: bench/scripts.sh, after ./demo, which builds the programs.
set -eu
cd "$(dirname "$0")/.."
program=crates/zreplay_one/out/zreplay_one
folder=$(mktemp -d)
trap 'rm -rf "$folder"' EXIT
image=$folder/fresh.img
script=$folder/script
examples/fresh/make "$image"
TIMEFORMAT='%U s of user time, %R s in all'
for lines in 250000 500000 1000000; do
    { yes 'f 1' | head -n $((lines - 1)); echo 'r 0 0 0'; } > "$script"
    took=$({ time { "$program" "$image" "$script" > /dev/null || test $? = 2; }; } 2>&1)
    printf '%8d lines: %s\n' "$lines" "$took"
done
