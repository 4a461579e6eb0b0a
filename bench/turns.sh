#!/usr/bin/env bash
# How long 300,000 steps take that 64 actors make, each in a thread of its own, one at a time.
#
# Usage: bench/turns.sh. It builds the program where it isn't built.
set -eu
cd "$(dirname "$0")/../crates/bench_turns"
test -x out/bench_turns || rt run > /dev/null
TIMEFORMAT='%U s of user time, %R s in all'
for _ in 1 2 3; do
    time out/bench_turns
done
