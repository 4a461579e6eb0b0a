#!/usr/bin/env bash
# What a take with its release costs, and what a touch costs, on disks with 100 and with 52,150
# chunks. The zone that is taken is the last conventional one, and each touch is far from the one
# before. For candidates, of which each chunk is one, what a touch, a change of class and a pick
# with its touch cost, also as multiples of a store into a plain array with a number for each chunk.
#
# Usage: bench/alloc.sh. It builds the program where it isn't built.
set -eu
cd "$(dirname "$0")/../crates/bench_alloc"
test -x out/bench_alloc || rt run -- 52 51 1000 1000 1000 1000 1000 1000 > /dev/null
rounds=100000000
calls=20000000

# The user time of a run, in milliseconds.
took() {
    TIMEFORMAT=%U
    { time out/bench_alloc "$@" > /dev/null; } 2>&1 | tr -d .
}

for zones in '52 51' '26078 26077'; do
    chunks=$(out/bench_alloc $zones 0 0 0 0 0 0)
    start=$(took $zones 0 0 0 0 0 0)
    takes=$(took $zones $rounds 0 0 0 0 0)
    touches=$(took $zones 0 $rounds 0 0 0 0)
    stores=$(took $zones 0 0 $rounds 0 0 0)
    writes=$(took $zones 0 0 0 $calls 0 0)
    changes=$(took $zones 0 0 0 0 $calls 0)
    picks=$(took $zones 0 0 0 0 0 $calls)
    awk -v chunks="${chunks%%,*}" -v start="$((10#$start))" -v takes="$((10#$takes))" \
        -v touches="$((10#$touches))" -v stores="$((10#$stores))" -v writes="$((10#$writes))" \
        -v changes="$((10#$changes))" -v picks="$((10#$picks))" \
        -v rounds=$rounds -v calls=$calls 'BEGIN {
        each = 1000000 / rounds
        call = 1000000 / calls
        store = (stores - start) * each
        printf "%s: %.1f ns a take and release, %.1f ns a touch\n", chunks,
            (takes - start) * each, (touches - start) * each
        write = (writes - start) * call
        change = (changes - start) * call
        pick = (picks - start) * call
        printf "%s: candidates: %.1f ns a touch, %.1f ns a change, %.1f ns a pick and touch; ", chunks,
            write, change, pick
        printf "a store: %.1f ns, so %.0f, %.0f and %.0f stores\n", store,
            write / store, change / store, pick / store
    }'
done
