#!/usr/bin/env bash
# Reclaim over a volume in a file. First what a pick of a job costs, and the question whether one is due, of 100 and of
# 52,000 chunks: half of them stand on conventional zones with a valid block, so that each can be moved, and the others
# on sequential ones. Beside it, as a measure, a store into a plain array with a number for each chunk, each far from the
# one before. Then what writes of one block cost with commits and jobs where no zone is free: a whole device of small
# zones is filled from its first block to its last, and then blocks far from each other are written again. For that it
# prints requests a second, writing calls of the disk for each, how many commits were made, and the time as a multiple of
# that of as many bare calls, with as many flushes among them: four a commit.
#
# Usage: bench/reclaim.sh. It builds the programs where they aren't built. It takes 1 GB of disk for a while.
set -euo pipefail
cd "$(dirname "$0")/.."
test -x crates/dmzadm/out/dmzadm || (cd crates/dmzadm && rt run) > /dev/null 2>&1 || true
test -x crates/bench_reclaim/out/bench_reclaim || (cd crates/bench_reclaim && rt run -- none 0 1 bare) > /dev/null 2>&1
program=crates/bench_reclaim/out/bench_reclaim
folder=$(mktemp -d)
trap 'rm -rf "$folder"' EXIT

# make DISK ZONE_BLOCKS CONVENTIONAL SEQUENTIAL RESERVED MAPPED: a formatted disk with so many conventional data zones. Of
# its chunks the first so many are mapped, each with its first block valid: by turns to a conventional zone and to a
# sequential one.
make() {
    python3 - "$@" <<'END'
import struct, subprocess, sys
path = sys.argv[1]
zone_blocks, conventional, sequential, reserved, mapped = map(int, sys.argv[2:])
per = -(-zone_blocks // 32768)
set_zones = 1
while True:
    zones = 2 * set_zones + conventional + sequential
    maps = -(-zones // 512)
    if set_zones * zone_blocks >= 1 + maps + zones * per:
        break
    set_zones += 1
pointers = 4096
first = pointers + -(-4 * zones // 4096) * 4096
conventional += 2 * set_zones
with open(path, "wb") as image:
    image.write(b"ZDIMAGE1" + struct.pack("<III", zone_blocks, conventional, sequential))
subprocess.run(["crates/dmzadm/out/dmzadm", "--format", "--seq", str(reserved), "--uuid",
                "00000000-0000-4000-8000-000000000001", path], check=True, stdout=subprocess.DEVNULL)
with open(path, "r+b") as image:
    for chunk in range(mapped):
        target = (conventional if chunk % 2 else 2 * set_zones) + chunk // 2
        for set_zone in (0, set_zones):
            place = first + 4096 * set_zone * zone_blocks
            image.seek(place + 4096 + 8 * chunk)
            image.write(struct.pack("<II", target, 0xFFFFFFFF))
            image.seek(place + 4096 * (1 + maps + target * per))
            image.write(b"\1")
        if chunk % 2:
            image.seek(pointers + 4 * target)
            image.write(struct.pack("<I", 8))
    image.seek(0, 2)
    if image.tell() < first + 4096 * zones * zone_blocks:
        image.truncate(first + 4096 * zones * zone_blocks)
END
}

# The milliseconds of a run by a clock of this kind, R for all of it and U for its user time.
took() {
    TIMEFORMAT=%$1
    { time "$program" "${@:2}" > "$folder/told"; } 2>&1 | tr -d .
}

# The same of a run that has to do all that it is told to.
took_all() {
    took "$@"
    test "$(cut -d' ' -f1 "$folder/told")" = "$3"
}

calls=20000000
stores=200000000
for chunks in 100 52000; do
    disk=$folder/chunks.img
    make "$disk" 256 $((chunks / 2)) $((chunks / 2 + 2)) 2 "$chunks"
    start=$(took U "$disk" 0 7919 pick)
    picks=$(took_all U "$disk" $calls 7919 pick)
    dues=$(took_all U "$disk" $calls 7919 due)
    numbers=$(took_all U "$disk" $stores 7919 store)
    awk -v chunks="$chunks" -v start="$((10#$start))" -v picks="$((10#$picks))" -v dues="$((10#$dues))" \
        -v numbers="$((10#$numbers))" -v calls=$calls -v stores=$stores 'BEGIN {
        pick = (picks - start) * 1000000 / calls
        due = (dues - start) * 1000000 / calls
        store = (numbers - start) * 1000000 / stores
        if (store <= 0) store = 0.1
        printf "%d chunks: %.0f ns a pick, %.0f ns a question whether a job is due; ", chunks, pick, due
        printf "a store: %.1f ns, so %.0f and %.0f stores\n", store, pick / store, due / store
    }'
    rm "$disk"
done

# measure ZONE_BLOCKS WAY WRITES STEP
measure() {
    cp "$disk" "$folder/bare.img"
    start=$(took R "$disk" 0 1 write)
    volume=$(took_all R "$disk" "$3" "$4" write)
    made=$(cut -d' ' -f3 "$folder/told")
    commits=$(cut -d' ' -f5 "$folder/told")
    writes=$((made - 4 * commits))
    none=$(took R "$folder/bare.img" 0 0 bare)
    bare=$(took_all R "$folder/bare.img" $writes $((commits > 0 ? writes / (4 * commits) : 0)) bare)
    awk -v zone="$1" -v way="$2" -v n="$3" -v made="$made" -v commits="$commits" -v v="$((10#$volume - 10#$start))" \
        -v b="$((10#$bare - 10#$none))" 'BEGIN {
        if (v < 1) v = 1
        if (b < 1) b = 1
        printf "zones of %d blocks, %s: %d writes, %d a second, %.2f calls a write, %d commits, ", zone, way, n,
            n * 1000 / v, made / n, commits
        printf "%.1f times the bare calls\n", v / b
    }'
    rm "$folder/bare.img"
}

for zone_blocks in 16 256; do
    disk=$folder/device.img
    conventional=32
    sequential=$((16384 / zone_blocks + 4))
    make "$disk" $zone_blocks $conventional $sequential 4 0
    blocks=$(((conventional + sequential - 4) * zone_blocks))
    measure $zone_blocks fill $blocks 1
    measure $zone_blocks random 1000 2741
    rm "$disk"
done
